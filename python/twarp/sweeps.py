"""Sweeps: what is drawn for a run, by its seed alone; runs here or on a cluster; what twarp-policy says of a case."""
from __future__ import annotations

import contextlib
import random
import re
import sys
import tempfile
import zipfile
from collections import Counter
from collections.abc import Iterator, Mapping, Sequence
from concurrent.futures import Executor
from dataclasses import dataclass, replace
from functools import cached_property, lru_cache, partial
from math import exp, log
from pathlib import Path
from statistics import NormalDist
from typing import Any

from twarp.calls import Ribs, Safety, Stable, read_safety, safe, stable
from twarp.case import GREATEST_DELAY, GREATEST_TIME, Case, Link, LinkScene
from twarp.program import HERE, File, Refused, Stopped, need, need_policy
from twarp.trials import RUNNER, Batches, Plan, Trial, workers_of

# The two ends of a link, the lower first.
Ends = tuple[int, int]
# How many splits a sweep's stable assignments may take: less than a second of processor time, mostly.
SPLITS = 10_000


def share(*what: object) -> float:
    """A number from 0 to below 1, drawn for this purpose alone: it stays whatever else is drawn."""
    # Of Python's generator only random() is promised to give the same numbers in each version.
    return random.Random(" ".join(map(str, what))).random()


@dataclass(frozen=True)
class Uniform:
    """Each of the whole numbers from `least` to `greatest` alike."""

    least: int
    greatest: int

    def ticks(self, part: float) -> int:
        """The number below which this part of the law lies."""
        return self.least + int(part * (self.greatest - self.least + 1))

    def __str__(self) -> str:
        return f"{self.least:,} to {self.greatest:,}"


@dataclass(frozen=True)
class Exponential:
    """An exponential law with this mean, in whole ticks, 1 at least."""

    mean: float

    def ticks(self, part: float) -> int:
        return whole(-self.mean * log(1 - part))

    def __str__(self) -> str:
        return f"exponential with mean {self.mean:g}"


@dataclass(frozen=True)
class LogNormal:
    """A law whose logarithm is normal, by its median and the logarithm's deviation, in whole ticks, 1 at least."""

    median: float
    sigma: float

    def ticks(self, part: float) -> int:
        # A part of 0 has no place in the normal law.
        return whole(exp(min(log(self.median) + self.sigma * NormalDist().inv_cdf(part or 2**-54), 99.0)))

    def __str__(self) -> str:
        return f"log-normal with median {self.median:g} and sigma {self.sigma:g}"


Law = Uniform | Exponential | LogNormal


def read_range(words: str, least: int, greatest: int) -> Uniform:
    """Two numbers as 1-20, the first at most the last; one number stands for both."""
    if found := re.fullmatch("([0-9]{1,10})(?:-([0-9]{1,10}))?", words):
        low, high = int(found[1]), int(found[2] or found[1])
        if least <= low <= high <= greatest:
            return Uniform(low, high)
    raise ValueError(f"{words[:80]!r} is no range from {least} to {greatest}, as {least}-20")


def read_law(words: str) -> Law:
    """The law of delays that is written 1-20, exponential:MEAN, or log-normal:MEDIAN:SIGMA."""
    number = r"([0-9]{1,7}(?:\.[0-9]{1,9})?)"
    if not (found := re.fullmatch(rf"exponential:{number}|log-normal:{number}:{number}", words)):
        return read_range(words, 1, GREATEST_DELAY)
    mean, median, sigma = (float(part or "1") for part in found.groups())
    if 0 in (mean, median):
        raise ValueError(f"{words!r} has a delay of 0")
    return Exponential(mean) if found[1] else LogNormal(median, sigma)


def whole(delay: float) -> int:
    """The nearest delay that a link can have."""
    return min(max(1, round(delay)), GREATEST_DELAY)


def ends_of(item: Link | LinkScene) -> Ends:
    return min(item.a, item.b), max(item.a, item.b)


class DelayDraws:
    """Draws the delays of a case's links: of all, or of those named; where `apart`, each direction has its own."""

    def __init__(self, case: Case, law: Law | str, named: Sequence[Ends] | None = None, apart: bool = False):
        self.law = read_law(law) if isinstance(law, str) else law
        known = {ends_of(link): link for link in case.links}
        chosen = [*known] if named is None else [*dict.fromkeys((min(ends), max(ends)) for ends in named)]
        for a, b in chosen:
            if (a, b) not in known:
                raise Refused(f"refused option --links: the case has no link {a}-{b}")
        # The directions for each of which a delay is drawn.
        self.ways = [way for a, b in chosen for way in ([(a, b), (b, a)] if apart else [(a, b)])]
        self.columns = [f"delay_{a}_{b}" for a, b in self.ways]
        links = "all links" if named is None else f"links {', '.join(f'{a}-{b}' for a, b in chosen)}"
        self.words = f"delays {self.law} of {links}{', each direction apart' if apart else ''}"

    def draw(self, case: Case, seed: int) -> tuple[Case, list[int]]:
        """The case with delays of this seed, of both directions of a link where only one is drawn; and these."""
        values = [self.law.ticks(share(seed, "delay", *way)) for way in self.ways]
        delays = {(b, a): delay for (a, b), delay in zip(self.ways, values)} | dict(zip(self.ways, values))
        links = [
            Link(link.a, link.b, delays[link.a, link.b], delays[link.b, link.a]) if (link.a, link.b) in delays else link
            for link in case.links
        ]
        return replace(case, links=links, version=None if case.version == 1 else case.version), values


class FailureDraws:
    """Draws the times of a case's failures. A repair moves with the failure that it ends."""

    def __init__(self, case: Case, times: Uniform | str):
        self.within = within = read_range(times, 0, GREATEST_TIME) if isinstance(times, str) else times
        scenes = [(place, scene) for place, scene in enumerate(case.scenes) if isinstance(scene, LinkScene)]
        # The links that fail, by the places of their failures in the scenario.
        self.failing = {place: ends_of(scene) for place, scene in scenes if scene.word == "fail"}
        if not self.failing:
            raise Refused("refused option --failure-times: no link of the case fails")
        # For the place of each repair the place of the latest failure of its link, and how much later it is.
        self.repairs: dict[int, tuple[int, int]] = {}
        failed: dict[Ends, tuple[int, int]] = {}
        # Of a failure and a repair at one time the failure happens first.
        for place, scene in sorted(scenes, key=lambda item: (item[1].time, item[1].word, item[0])):
            if scene.word == "fail":
                failed[ends_of(scene)] = place, scene.time
            elif ends_of(scene) in failed:
                failure, since = failed[ends_of(scene)]
                self.repairs[place] = failure, scene.time - since
        latest = within.greatest + max((later for _, later in self.repairs.values()), default=0)
        if latest > GREATEST_TIME:
            raise Refused(f"refused option --failure-times: a repair would be at {latest:,}, past {GREATEST_TIME:,}")
        self.columns, counts = list[str](), Counter[Ends]()
        for ends in self.failing.values():
            counts[ends] += 1
            self.columns.append("fail_{}_{}".format(*ends) + (f"_{counts[ends]}" if counts[ends] > 1 else ""))
        self.words = f"times of failures {within}"

    def draw(self, case: Case, seed: int) -> tuple[Case, list[int]]:
        """The case with failures at times of this seed; and these."""
        values = [self.within.ticks(share(seed, "failure", place + 1)) for place in self.failing]
        times = dict(zip(self.failing, values))
        times |= {place: times[failure] + later for place, (failure, later) in self.repairs.items()}
        scenes = [replace(scene, time=times[at]) if at in times else scene for at, scene in enumerate(case.scenes)]
        return replace(case, scenes=scenes), values


class CaseSource:
    """One case, of which delays by a law, or times of failures from a range, or both are drawn for each run."""

    def __init__(
        self, case: Case, delays: Law | str | None = None, links: Sequence[Ends] | None = None, apart: bool = False,
        failure_times: Uniform | str | None = None,
    ):
        self.case = case
        of_delays = [] if delays is None else [DelayDraws(case, delays, links, apart)]
        of_failures = [] if failure_times is None else [FailureDraws(case, failure_times)]
        self.draws: list[DelayDraws | FailureDraws] = [*of_delays, *of_failures]
        self.columns = [column for draw in self.draws for column in draw.columns]
        self.words = ", ".join(draw.words for draw in self.draws)

    def draw(self, seed: int) -> tuple[Case, tuple[int, ...]]:
        case, drawn = self.case, tuple[int, ...]()
        for draw in self.draws:
            case, values = draw.draw(case, seed)
            drawn += (*values,)
        return case, drawn


def at_rest(program: str, case: Case) -> int:
    """By when a run of a safe case is at rest, by its own delays: so many longest delays after its last scripted event.

    How many they are does not depend on the delays: so the program is asked once where only these are drawn.
    """
    # One more than the time of the last scripted event.
    script_end = 1 + max((scene.time for scene in case.scenes), default=0)
    # What elimination leaves is the same with the delay 1 for all links.
    text = str(replace(case, links=[Link(link.a, link.b, 1) for link in case.links]))
    longest = max((max(link.delay, link.back) for link in case.links), default=0)
    stop = script_end + (rests_before(program, text, case.nodes) - script_end) * longest
    if stop > GREATEST_TIME:
        raise Refused(f"no --stop is named, and it is only known to rest before {stop:,}, past {GREATEST_TIME:,}")
    return stop


@lru_cache(1)
def rests_before(program: str, text: str, nodes: int) -> int:
    """By when each run of a case with this text is at rest, as the program says."""
    status, out, why = RUNNER.run([program, "safe"], text.encode())
    if status:
        raise Refused(f"twarp-policy ends with status {status}: {why}")
    if (found := read_safety(out, nodes).rests_before) is None:
        raise Refused("no --stop is named, and it has a dispute wheel, so none is known by which it rests")
    return found


@dataclass(frozen=True)
class Policy:
    """What twarp-policy says of a case. Its stable assignments are asked for where it is not safe, and only there."""

    safety: Safety
    stable: Stable | None
    has_script: bool

    @classmethod
    def of(cls, case: Case, program: str) -> Policy:
        found = safe(case, program=program)
        return cls(found, None if found.is_safe else stable(case, SPLITS, program=program), bool(case.scenes))

    @cached_property
    def numbers(self) -> Mapping[Ribs, int]:
        """The number of each stable assignment, where several are known."""
        known = self.stable.assignments if self.stable else ()
        return {ribs: number for number, ribs in enumerate(known, 1)} if len(known) > 1 else {}

    @property
    def never(self) -> str:
        """What holds where there is no stable assignment."""
        return f"no run ever comes to rest{' once its script is over' if self.has_script else ''}"

    @property
    def notes(self) -> Mapping[str, str]:
        """What is known of a run whose verdict is open."""
        if not self.stable:
            return {"open": "comes to rest after the stop"}
        return {} if self.stable.can_rest else {"open": self.never}

    def words(self) -> str:
        """What holds of the case for all timings, in a line."""
        if not self.stable:
            return f"{self.safety.verdict}: every run comes to rest, with the same paths, whatever the delays"
        if not self.stable.can_rest:
            return f"no stable assignment: {self.never}, whatever the delays"
        count = len(self.stable.assignments)
        many = f"{'' if self.stable.are_all else 'at least '}{count:,} stable assignment{'' if count == 1 else 's'}"
        return f"a dispute wheel, and {many}"

    def record(self) -> dict[str, Any]:
        """The same as JSON has it."""
        told = {"verdict": self.safety.verdict, "rounds": self.safety.rounds}
        if not self.stable:
            return told | {"rests_before": self.safety.rests_before, "paths": self.safety.uses}
        return told | {"assignments": self.stable.assignments, "are_all": self.stable.are_all}


class Sweep(Iterator[Trial]):
    """The runs of a sweep. `columns` names what each run's `values` are, and `words` says what is drawn."""

    def __init__(self, plan: Plan, batches: Batches):
        self.columns, self.words = plan.source.columns, plan.source.words
        self.trials = (trial for trial in batches if trial is not None)

    def __next__(self) -> Trial:
        return next(self.trials)

    def close(self) -> None:
        """Gives up the runs that are left, and ends their processes."""
        self.trials.close()


def sweep(
    case: Case, *, stop: int | None = None, every: int | None = None, runs: int = 1_000, seed: int = 1,
    delays: Law | str | None = None, links: Sequence[Ends] | None = None, apart: bool = False,
    failure_times: Uniform | str | None = None, check: bool = False, jobs: int | None = None,
    executor: Executor | None = None, program: File | None = None, policy: File | None = None,
) -> Sweep:
    """The runs of a case with the seeds `seed`, `seed` + 1, .., in this order, as they end.

    Drawn are the delays, by a law as "1-10", "exponential:5" or "log-normal:5:0.5", of all links or of those named,
    with `apart` for each direction of its own; and the times of failures, from a range as "0-50". What is drawn depends
    on the seed alone. The runs go to `jobs` processes (one for each processor), or to an executor, where `jobs` says how
    many workers it has; its workers need the program. Without a stop each run of a case that is safe ends where it is at
    rest whatever its delays, as twarp-policy tells (the file `policy`, or where it is found), and others fail.
    """
    file = str(program) if executor and program else str(need(program))
    end = stop or partial(at_rest, str(policy) if executor and policy else str(need_policy(policy, program)))
    plan = Plan(CaseSource(case, delays, links, apart, failure_times), file, end, every, check)
    return Sweep(plan, Batches(plan, range(seed, seed + runs), workers_of(plan, executor, jobs)))


@contextlib.contextmanager
def cluster(address: str) -> Iterator[tuple[Executor, int]]:
    """The executor of the Dask cluster whose scheduler has this address, and how many threads its workers have.

    Its workers get the package from here. How long an answer is waited for is set by Dask's own
    `distributed.comm.timeouts.connect`.
    """
    try:
        from distributed import Client
    except ImportError:
        why = f"Python's package distributed is missing for {sys.executable}"
        raise Stopped(f"scheduler: {why} (Debian: python3-distributed, for /usr/bin/python3)") from None
    with contextlib.ExitStack() as stack:
        try:
            client = stack.enter_context(Client(address))  # type: ignore[no-untyped-call]
            archive = Path(stack.enter_context(tempfile.TemporaryDirectory())) / "twarp-package.zip"
            with zipfile.ZipFile(archive, "w") as packed:
                # The package, and the tools' modules where they are beside it.
                for folder in HERE.parent, HERE.parents[1] / "twarp_tools", HERE.parents[2] / "tools/twarp_tools":
                    for file in sorted(folder.glob("*.*")):
                        packed.write(file, f"{folder.name}/{file.name}")
            client.upload_file(str(archive))
        except (OSError, ValueError, TimeoutError) as fault:
            raise Stopped(f"scheduler: {address} does not answer: {fault}") from None
        if not (threads := sum(client.nthreads().values())):
            raise Stopped(f"scheduler: {address} has no workers")
        yield client.get_executor(pure=False), threads
