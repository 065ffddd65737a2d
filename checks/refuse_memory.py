#!/usr/bin/env python3
"""Refuses each allocation in turn, of the worked rows and of the programs.

    refuse_memory.py [TEST ..]       after rt ci, or rt test in each crate of rows and rt run in
                                     crates/twarp and crates/twarp_policy

Each test of the crates of rows, or each that is named, runs once for each of its allocations,
with just that one refused; it tries the call once more and must pass. Of the row of STEPS, which
makes thousands by calls of other rows, one in 97 is refused. Among them are a run by the
threads of two workers that ended early and goes on from where it is, and one that wrote nothing
and then its report. A test that does not end has failed, and is tried no further. The tests of
LONG are left out where none is named: they call a program hundreds of times or start threads again
and again, with no allocation that the others do not make. Those of the modules `ample` are left
out too: they try no call again, and so fail where a call answers want of memory that nobody
refused. So are those of the module `lanes`, which take no memory.

Each command of twarp runs in the same way, on DISAGREE or on the replay of a straggler, and so do
its help and a line that it does not accept; and the same of twarp-policy, on DISAGREE and on GOOD
GADGET. Refused memory must end it with status 2 and the line `stopped memory`, or `stopped thread`
where a thread of twarp needed it, with nothing on standard output; or, where the standard library
then asks for less and gets it, it must end as it does with all its memory. Of a run by two workers
no allocation before the one that starts the first thread is told as a refused thread, and that one
is. Of runs by 1 to 64 workers each thread is refused in turn; a worker without routers has none, one
worker is no thread, and between two checkpoints each of three workers has one.
"""
from __future__ import annotations

import os
import subprocess
import sys
import tempfile
from concurrent.futures import Future, ThreadPoolExecutor
from pathlib import Path
from typing import NamedTuple

from common import (
    CASES,
    DISAGREE,
    GOOD_GADGET,
    LIMIT,
    NO_MEMORY,
    NO_THREAD,
    NOTHING,
    POLICY,
    PROGRAM,
    ROWS,
    Ended,
    Tally,
    input_of,
    name_of,
    name_of_policy,
    need,
    need_program,
    run,
    run_program,
    tests_of,
    without_advice,
    without_progress,
)
from refuser import Refuser
from stats import without_figures

LONG = (
    "programs::a_sink_that_fails_has_a_prefix",
    "threads::a_run_goes_on_to_later_stops_and_to_no_earlier_one",
    "threads::handling_happens_off_the_table",
    "threads::workers_overlap",
)

# Of a row that makes thousands of allocations by a few calls again and again, one in so many is refused.
STEPS = {"moving::routers_that_move_at_random_run_as_on_one_thread": 97}

LEFT_OUT = ("ample::", "lanes::")

ROUTERS_OF_DISAGREE = 3

LINES = (
    ["check"],
    ["seq", "--stop", "20"],
    ["seq", "--stop", "20", "--log"],
    ["seq", "--stop", "20", "--stats"],
    ["trail", "--router", "1", "--stop", "20", "--keep", "0"],
    ["trail", "--router", "3", "--stop", "20", "--keep", "0"],
    ["replay", "--stop", "20"],
    ["replay", "--stop", "20", "--workers", "3"],
    ["replay", "--stop", "20", "--lazy"],
    ["upgrade"],
    ["seq", "--stop", "20", "--every", "1"],
    ["run", "--stop", "20", "--log"],
    ["run", "--stop", "20", "--every", "1", "--workers", "2"],
    ["run", "--stop", "20", "--log", "--workers", "2"],
    ["run", "--stop", "20", "--workers", "2", "--stats"],
    ["run", "--stop", "20", "--every", "1", "--workers", "2", "--blocks", "--rotate"],
    ["seq", "--stop", "20", "--log", "--progress"],
    ["run", "--stop", "20", "--log", "--workers", "2", "--progress"],
    ["--help"],
    ["seq", "--stop", "0"],
)

# Of twarp-policy, each on each case.
POLICY_LINES = (
    ["safe"],
    ["stable"],
    ["stable", "--splits", "1"],
    ["--help"],
    ["stable", "--help"],
    ["stable", "--splits", "all"],
)
POLICY_CASES = (DISAGREE, GOOD_GADGET)


class Outcome(NamedTuple):
    """How many allocations of a test or command were refused, and what is wrong, if anything."""

    count: int
    wrong: str | None


def named_tests() -> dict[str, Path]:
    """The file that has a test, by the test's name."""
    found = {}
    for tests in map(tests_of, ROWS):
        done = subprocess.run([tests, "--list"], stdout=subprocess.PIPE, text=True, check=True)
        for line in done.stdout.splitlines():
            name, colon, kind = line.rpartition(": ")
            if colon and kind == "test":
                found[name] = tests
    return found


def chosen_tests(known: dict[str, Path], named: list[str]) -> dict[str, Path]:
    """Those that are named, or else all that are not left out."""
    if named:
        return {name: tests for name, tests in known.items() if name in named}
    return {
        name: tests
        for name, tests in known.items()
        if name not in LONG and not name.startswith(LEFT_OUT)
    }


def refuse_in_test(refuser: Refuser, tests: Path, name: str) -> Outcome:
    count = 0
    failed: list[int] = []
    for number, done in refuser.each([tests, name], NOTHING, STEPS.get(name, 1)):
        count += 1
        if done.status is None:
            why = f"it does not end in {LIMIT} seconds where allocation {number} is refused"
            return Outcome(count, why)
        if done.status != 0:
            failed.append(number)
    if not count:
        return Outcome(0, "no allocation was refused")
    if failed:
        why = f"it fails where allocation {failed[0]} is refused, of {len(failed)} such"
        return Outcome(count, why)
    return Outcome(count, None)


def outcome_of(ends: dict[int, Ended], due: tuple[Ended, ...]) -> Outcome:
    """Whether each end is due, by the number of the refused allocation, and want of memory was one."""
    failed = [number for number, done in ends.items() if done not in due]
    if NO_MEMORY not in ends.values():
        return Outcome(len(ends), "no refused allocation stopped it")
    if failed:
        return Outcome(len(ends), f"allocation {failed[0]}: {ends[failed[0]]}")
    return Outcome(len(ends), None)


def without_figures_and_progress(done: Ended) -> Ended:
    """How a command ended, without what it tells of its run."""
    return without_progress(without_figures(done))


def refuse_in_program(refuser: Refuser, line: list[str]) -> Outcome:
    source = input_of(line)
    whole = without_figures_and_progress(run_program(line, source))
    ends = {number: without_figures_and_progress(done) for number, done in refuser.each([PROGRAM, *line], source)}
    # A person is told nothing where memory for that is refused.
    return outcome_of(ends, (NO_MEMORY, NO_THREAD, whole, without_advice(whole)))


def refuse_in_policy(refuser: Refuser, line: list[str], case: Path) -> Outcome:
    words = [POLICY, *line]
    return outcome_of(dict(refuser.each(words, case)), (NO_MEMORY, run(words, case)))


def run_by(workers: int) -> list[str]:
    # A run to 4 starts its threads once.
    return ["run", "--stop", "4", "--log", "--workers", str(workers)]


def refuse_start(refuser: Refuser) -> Outcome:
    """Which is the first allocation of a run by two workers that is told as a refused thread."""
    words = [PROGRAM, *run_by(2)]
    due = [refuser.allocations_before_threads(words, DISAGREE)]
    ends = dict(refuser.each(words, DISAGREE))
    told = [number for number, done in ends.items() if done == NO_THREAD]
    if told[:1] == due:
        return Outcome(len(ends), None)
    why = f"allocations {told} are told as a refused thread, and {due} is due as the first"
    return Outcome(len(ends), why)


def refuse_threads(refuser: Refuser, workers: int) -> Outcome:
    """Whether a run whose threads are refused in turn stops for a thread, and has as many as due."""
    # A worker without routers has no thread, and one worker is none.
    threads = min(workers, ROUTERS_OF_DISAGREE) if workers > 1 else 0
    return refuse_each(refuser, run_by(workers), DISAGREE, threads)


def refuse_between_checkpoints(refuser: Refuser) -> Outcome:
    """The same of a run that has something to do between each two of its checkpoints, up to the stop."""
    segments, workers = 6, 3
    words = ["run", "--stop", str(5 * segments), "--every", "5", "--workers", str(workers)]
    return refuse_each(refuser, words, CASES / "bad-gadget.spp", segments * workers)


def refuse_each(refuser: Refuser, line: list[str], case: Path, threads: int) -> Outcome:
    """Whether a run that has so many threads stops for a thread where any of them is refused."""
    words = [PROGRAM, *line]
    numbers = range(1, threads + 2)
    ends = [refuser.run_without_thread(number, words, case) for number in numbers]
    due = [NO_THREAD] * threads + [None]
    wrong = None if ends == due else f"its threads refused in turn, it ended with {ends}"
    return Outcome(0, wrong)


def refuse_in_all(tests: dict[str, Path], tally: Tally) -> int:
    """Tries the tests and each command of the programs; gives how many allocations were refused."""
    refused = 0
    with tempfile.TemporaryDirectory() as folder, ThreadPoolExecutor(os.cpu_count()) as pool:
        refuser = Refuser(Path(folder))
        jobs: dict[str, Future[Outcome]] = {}
        for name, file in tests.items():
            jobs[name] = pool.submit(refuse_in_test, refuser, file, name)
        for line in LINES:
            jobs[name_of(line)] = pool.submit(refuse_in_program, refuser, line)
        for line in POLICY_LINES:
            for case in POLICY_CASES:
                jobs[name_of_policy(line, case)] = pool.submit(refuse_in_policy, refuser, line, case)
        jobs["what is told as a refused thread"] = pool.submit(refuse_start, refuser)
        for workers in (1, 2, 5, 64):
            name = f"{name_of(run_by(workers))} with each thread refused"
            jobs[name] = pool.submit(refuse_threads, refuser, workers)
        name = "a run with checkpoints with each thread refused"
        jobs[name] = pool.submit(refuse_between_checkpoints, refuser)
        for name, job in jobs.items():
            outcome = job.result()
            refused += outcome.count
            tally.add(name, outcome.wrong)
    return refused


def main() -> None:
    for crate in ROWS:
        need(tests_of(crate), f"rt test in crates/{crate}")
    need_program()
    need(POLICY, "rt run in crates/twarp_policy")
    known, named = named_tests(), sys.argv[1:]
    tally = Tally()
    for name in sorted({*LONG, *named} - {*known}):
        tally.add(name, "there is no such test")
    refused = refuse_in_all(chosen_tests(known, named), tally)
    print(f"{refused} allocations refused in turn")
    tally.end()


if __name__ == "__main__":
    main()
