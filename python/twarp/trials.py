"""The runs of a sweep: the built program on many cases, in batches that an executor runs."""

import os
import pickle
import signal
import subprocess
import threading
import time
from collections.abc import Callable, Iterator, Sequence
from concurrent.futures import FIRST_COMPLETED, BrokenExecutor, CancelledError, Executor, Future, ProcessPoolExecutor
from concurrent.futures import wait
from contextlib import suppress
from dataclasses import dataclass
from functools import lru_cache
from multiprocessing import get_context
from subprocess import PIPE
from typing import Protocol

from twarp.calls import Ribs
from twarp.case import Case
from twarp.program import Refused, Stopped, words_of
from twarp.protocol import reached, unstable_routers
from twarp.report import Oscillates, Quiet, Report, Verdict, read_report

# How long, in seconds, a batch should take, and how many runs it has at most.
BATCH_TIME, MOST_BATCH = 0.25, 256
# How long, in seconds, a stop may wait until it is seen.
MOST_WAIT = 0.2
# How often a run is begun whose executor ends in it.
MOST_TRIES = 5


class Source(Protocol):
    """Where the cases of a sweep come from."""

    columns: list[str]
    words: str

    def draw(self, seed: int) -> tuple[Case, tuple[int, ...]]:
        """The case of the run with this seed, and what was drawn for it, a value for each column."""


@dataclass(frozen=True, slots=True)
class End:
    """How a run ended: verdict, messages sent and paths changed by all routers together, and each router's path.

    `moving` are the routers that still change their paths: in the period of an oscillation, and where the verdict is
    open in the last half of the time up to the stop. `fault` says what is not stable, where that was looked for.
    """

    verdict: Verdict
    sent: int
    changed: int
    ribs: Ribs
    moving: tuple[int, ...] = ()
    fault: str | None = None


@dataclass(frozen=True, slots=True)
class Failed:
    """Why a run has no report."""

    why: str


@dataclass(frozen=True, slots=True)
class Trial:
    """A run of a sweep: its seed, what was drawn for it, and how it ended."""

    seed: int
    values: tuple[int, ...]
    end: End | Failed


class Ended(Exception):
    """The sweep is stopped, and with it the run."""


class Runner:
    """Runs the program until the sweep is stopped."""

    def __init__(self) -> None:
        # A signal that stops it may come while it has the lock.
        self.lock, self.is_stopped = threading.RLock(), False
        self.running: set[subprocess.Popen[bytes]] = set()

    def run(self, command: list[str], text: bytes) -> tuple[int, bytes, str]:
        """Status, output, and what is wrong in words, of a run in a session of its own, which no terminal's INT reaches."""
        with self.lock:
            if self.is_stopped:
                raise Ended
            try:
                child = subprocess.Popen(command, stdin=PIPE, stdout=PIPE, stderr=PIPE, start_new_session=True)
            except OSError as error:
                raise Stopped(f"program: {command[0]} does not start: {error.strerror}") from None
            self.running.add(child)
        with child:
            out, err = child.communicate(text)
        with self.lock:
            self.running.discard(child)
        if self.is_stopped and child.returncode < 0:
            raise Ended
        return child.returncode, out, (err or out).decode("utf-8", "replace").strip()

    def stop(self) -> None:
        """Ends what is running, with all that it started, and starts nothing more."""
        with self.lock:
            self.is_stopped = True
            for child in self.running:
                with suppress(ProcessLookupError):
                    if child.poll() is None:
                        os.killpg(child.pid, signal.SIGKILL)

    def end(self, *_: object) -> None:
        """Ends this process too."""
        self.stop()
        os._exit(1)


# That of this process.
RUNNER = Runner()


@dataclass(frozen=True)
class Plan:
    """What is run, to this stop or to that of the case; if it `is_checked`, paths at rest are seen to be stable."""

    source: Source
    program: str
    stop: int | Callable[[Case], int]
    every: int | None = None
    is_checked: bool = False

    def trial(self, seed: int) -> Trial:
        case, values = self.source.draw(seed)
        try:
            stop = self.stop if isinstance(self.stop, int) else self.stop(case)
            return Trial(seed, values, self.end(case, self.report(case, stop)))
        except Refused as fault:
            return Trial(seed, values, Failed(str(fault)))

    def report(self, case: Case, stop: int) -> Report:
        words = words_of({"stop": stop, "every": self.every or None})
        status, out, why = RUNNER.run([self.program, "seq", *words], str(case).encode())
        if status:
            raise Refused(f"status {status}: {why}" if why else f"status {status}")
        try:
            return read_report(out, case.nodes)
        except Refused as fault:
            raise Refused(f"its report is none: {fault}") from None

    def end(self, case: Case, report: Report) -> End:
        sent, changed = (sum(getattr(line, name) for line in report.routers) for name in ("sent", "changed"))
        ribs, fault = tuple(line.rib for line in report.routers), None
        if self.is_checked and isinstance(report.verdict, Quiet):
            try:
                fault = next(unstable_routers(reached(case, report)), None)
            except Refused as refused:
                fault = str(refused)
        return End(report.verdict, sent, changed, ribs, self.moving(case, report), fault)

    def moving(self, case: Case, report: Report) -> tuple[int, ...]:
        """The routers that change paths from the beginning of a period, or from half of the stop, up to the stop."""
        if isinstance(report.verdict, Quiet):
            return ()
        since = report.verdict.start if isinstance(report.verdict, Oscillates) else report.stop // 2
        before = [line.changed for line in self.report(case, since).routers] if since else [0] * case.nodes
        return tuple(line.router for line, count in zip(report.routers, before) if line.changed > count)

    def batch(self, seeds: Sequence[int]) -> tuple[list[Trial], float]:
        """The runs with these seeds, up to where the sweep is stopped, and how many seconds they took."""
        begun, trials = time.monotonic(), []
        with suppress(Ended):
            for seed in seeds:
                trials.append(self.trial(seed))
        return trials, time.monotonic() - begun


Work = Future[tuple[list[Trial], float]]


class Local:
    """Processes of this machine. Where one of them dies all are begun anew."""

    # In a process the plan that it follows, which it has from its beginning.
    plan: Plan

    def __init__(self, plan: Plan, jobs: int):
        self.jobs, self.is_stopped = jobs, False
        # Each process sees that the other end of this pipe is closed, by a stop or since its owner is gone.
        self.ends = os.pipe()
        self.begin_with = (plan, self.ends, os.getpid())
        self.begin()

    def begin(self) -> None:
        fork = get_context("fork")
        self.executor = ProcessPoolExecutor(self.jobs, fork, initializer=self.heed, initargs=self.begin_with)

    @classmethod
    def heed(cls, plan: Plan, ends: tuple[int, int], parent: int) -> None:
        """In a new process: ends what it runs once the sweep is stopped, or the sweep's own process is gone."""
        cls.plan = plan
        os.close(ends[1])
        signal.signal(signal.SIGINT, signal.SIG_IGN)
        signal.signal(signal.SIGTERM, RUNNER.end)

        def watch() -> None:
            os.read(ends[0], 1)
            RUNNER.stop()
            while os.getppid() == parent:
                time.sleep(MOST_WAIT)
            RUNNER.end()

        threading.Thread(target=watch, daemon=True).start()

    @classmethod
    def batch(cls, seeds: Sequence[int]) -> tuple[list[Trial], float]:
        return cls.plan.batch(seeds)

    def submit(self, seeds: Sequence[int]) -> Work:
        with suppress(BrokenExecutor):
            return self.executor.submit(self.batch, seeds)
        self.executor.shutdown()
        self.begin()
        return self.executor.submit(self.batch, seeds)

    def stop(self) -> None:
        if not self.is_stopped:
            self.is_stopped = True
            os.close(self.ends[1])

    def end(self) -> None:
        self.executor.shutdown(cancel_futures=True)
        os.close(self.ends[0])


class Given:
    """An executor that is there already, with so many workers, as that of a Dask cluster. It stays after the sweep."""

    def __init__(self, plan: Plan, executor: Executor, jobs: int):
        self.plan, self.executor, self.jobs = pickle.dumps(plan), executor, jobs

    def submit(self, seeds: Sequence[int]) -> Work:
        return self.executor.submit(batch_of, self.plan, seeds)

    def stop(self) -> None:
        pass

    end = stop


# The plan that was sent to a worker, which gets it with each batch and so need not keep it.
plan_of: Callable[[bytes], Plan] = lru_cache(1)(pickle.loads)


def batch_of(pickled: bytes, seeds: Sequence[int]) -> tuple[list[Trial], float]:
    return plan_of(pickled).batch(seeds)


def workers_of(plan: Plan, executor: Executor | None, jobs: int | None) -> Local | Given:
    """Those of the executor, or else processes of this machine: so many, or one for each processor."""
    if not jobs:
        jobs = len(os.sched_getaffinity(0)) if hasattr(os, "sched_getaffinity") else os.cpu_count() or 1
    return Given(plan, executor, jobs) if executor else Local(plan, jobs)


class Batches:
    """The runs of a sweep, dealt out in batches of such a size that each takes some time, and put in order again."""

    def __init__(self, plan: Plan, seeds: Sequence[int], workers: Local | Given):
        self.plan, self.workers, self.size, self.is_stopped = plan, workers, 1, False
        self.seeds = self.left = seeds
        # What is under way: the seeds of each batch, and how often it was begun.
        self.pending: dict[Work, tuple[Sequence[int], int]] = {}
        self.done: dict[int, list[Trial]] = {}

    def stop(self) -> None:
        """Ends the runs that are not done."""
        self.is_stopped = True
        self.workers.stop()
        for work in self.pending:
            work.cancel()

    def begin(self, seeds: Sequence[int], tries: int = 1) -> None:
        self.pending[self.workers.submit(seeds)] = seeds, tries

    def fill(self) -> None:
        """Begins batches until each worker has one and another one waits for it; small ones at the end."""
        most = 2 * self.workers.jobs
        while self.left and not self.is_stopped and len(self.pending) < most:
            size = max(1, min(self.size, len(self.left) // most))
            self.begin(self.left[:size])
            self.left = self.left[size:]

    def take(self, work: Work) -> None:
        """Takes what a batch has done. One that its process did not survive is begun again, in halves."""
        seeds, tries = self.pending.pop(work)
        try:
            trials, seconds = work.result()
        except Stopped:
            raise
        except CancelledError:
            if not self.is_stopped:
                raise Stopped("executor: it has cancelled runs") from None
        except Exception as fault:
            if not self.is_stopped:
                self.try_again(seeds, tries, fault)
        else:
            self.done |= {seeds[0]: trials} if trials else {}
            wanted = round(BATCH_TIME * len(trials) / max(seconds, 1e-6))
            self.size = max(1, min(wanted, MOST_BATCH, 4 * self.size))

    def try_again(self, seeds: Sequence[int], tries: int, fault: Exception) -> None:
        if half := len(seeds) // 2:
            self.begin(seeds[:half])
            self.begin(seeds[half:])
        elif tries < MOST_TRIES:
            self.begin(seeds, tries + 1)
        else:
            _, values = self.plan.source.draw(seeds[0])
            why = f"its process ended in each of {MOST_TRIES} tries: {fault}"
            self.done[seeds[0]] = [Trial(seeds[0], values, Failed(why))]

    def __iter__(self) -> Iterator[Trial | None]:
        """The runs by their seeds, and None now and then. After a stop those that ended out of turn come last."""
        place = 0
        try:
            self.fill()
            while self.pending:
                wait(self.pending, MOST_WAIT, FIRST_COMPLETED)
                for work in [work for work in self.pending if work.done()]:
                    self.take(work)
                self.fill()
                yield None
                while place < len(self.seeds) and self.seeds[place] in self.done:
                    trials = self.done.pop(self.seeds[place])
                    place += len(trials)
                    yield from trials
            for _, trials in sorted(self.done.items()):
                yield from trials
        finally:
            self.stop()
            self.workers.end()
