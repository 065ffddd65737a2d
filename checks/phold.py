#!/usr/bin/env python3
"""PHOLD in Python, apart from the proved program: the report that `twarp-phold seq` and `twarp-phold run` are to write.

    phold.py                     runs the built program at measures of several kinds, on one thread and by several numbers
                                 of workers, and compares what it writes
    phold.py report [OPTION ..]  the report, by the same options as the program's

It follows docs/FORMATS.md, and shares no line with the crates. crates/twarp_phold/stdout is what it writes at
crates/twarp_phold/args.
"""
from __future__ import annotations

import argparse
import heapq
import re
import subprocess
import sys
from collections.abc import Iterator
from dataclasses import dataclass

from common import PHOLD

MASK = 2**64 - 1
GAMMA = 0x9E3779B97F4A7C15
TRIALS = (
    "--processes 1 --population 1 --stop 1",
    "--processes 1 --population 3 --stop 400 --longest 7",
    "--processes 3 --population 0 --stop 100",
    "--processes 7 --population 5 --lookahead 4 --longest 4 --stop 200 --seed 9",
    "--processes 50 --population 4 --remote 250 --stop 300 --seed 1000000000",
    "--processes 64 --remote 0 --stop 150 --seed 0",
    "--stop 120",
    "--lookahead 5 --longest 4 --stop 10",
)
# Of some of them there are more than processes.
WORKERS = 1, 2, 3, 7
WAYS = (
    "seq",
    "run",
    *(f"run --workers {count}" for count in WORKERS),
    *(f"run --rounds --workers {count}" for count in (1, 3)),
)
# What `--stats` tells of a run by workers, in this order.
FIGURES = re.compile(
    r"workers (\d+)\nrounds (\d+)\nhandled (\d+)\nundone (\d+)\ncommitted (\d+)\nefficiency [01]\.\d{4}\nmessages \d+\n"
    r"antimessages \d+\nseconds-running \d+\.\d{6}\nseconds-writing \d+\.\d{6}\nevents-per-second \d+\n"
)


def word(state: int) -> int:
    """The word that SplitMix64 makes of a state."""
    state = (state ^ state >> 30) * 0xBF58476D1CE4E5B9 & MASK
    state = (state ^ state >> 27) * 0x94D049BB133111EB & MASK
    return state ^ state >> 31


@dataclass
class Process:
    random: int
    handled: int = 0

    def draw(self) -> int:
        self.random = self.random + GAMMA & MASK
        return word(self.random)


def run(given: argparse.Namespace) -> list[Process]:
    """Handles each job before the stop, the least by time, receiver, sender and number first."""
    count, spread = given.processes, given.longest - given.lookahead + 1
    processes = [Process(word(given.seed + number & MASK)) for number in range(count)]
    jobs = []
    for number in range(count * given.population):
        time = given.lookahead + word(given.seed + number & MASK) % spread
        jobs.append((time, number % count, number % count, number // count))
    heapq.heapify(jobs)
    while jobs and jobs[0][0] < given.stop:
        time, here, _, _ = jobs[0]
        process = processes[here]
        delay = given.lookahead + process.draw() % spread
        is_remote = process.draw() % 1000 < given.remote
        drawn = process.draw() % count
        sent = (time + delay, drawn if is_remote else here, here, given.population + process.handled)
        heapq.heapreplace(jobs, sent)
        process.handled += 1
    return processes


def report(given: argparse.Namespace) -> Iterator[str]:
    if given.longest < given.lookahead:
        yield "refused option longest"
        return
    yield "phold-report 1"
    yield f"stop {given.stop}"
    checksum = 0
    for number, process in enumerate(run(given)):
        yield f"process {number} handled {process.handled}"
        checksum = word((checksum ^ process.random) + process.handled & MASK)
    yield f"checksum {checksum}"


def options_of(words: list[str]) -> argparse.Namespace:
    parser = argparse.ArgumentParser()
    for name, default in (
        ("processes", 1024),
        ("population", 16),
        ("lookahead", 1),
        ("longest", 100),
        ("remote", 1000),
        ("seed", 1),
        ("stop", 1),
    ):
        parser.add_argument(f"--{name}", type=int, default=default)
    return parser.parse_args(words)


def text_of(given: argparse.Namespace) -> str:
    return "".join(f"{line}\n" for line in report(given))


def ran(words: str) -> subprocess.CompletedProcess[str]:
    return subprocess.run([PHOLD, *words.split()], capture_output=True, text=True, check=False)


def is_right(way: str, trial: str, own: str) -> bool:
    """Whether a run that is made so writes the report, with the status that is due."""
    ended = ran(f"{way} {trial}")
    return ended.stdout == own and ended.returncode == own.startswith("refused")


def tells_figures(flags: str, workers: int, trial: str, own: str) -> bool:
    """Whether `--stats` tells of a run what holds of it, and leaves its report as it is."""
    ended = ran(f"run {flags} --workers {workers} --stats {trial}")
    told = FIGURES.fullmatch(ended.stderr)
    if told is None or ended.stdout != own:
        return False
    threads, rounds, handled, undone, committed = map(int, told.groups())
    events = sum(int(count) for count in re.findall(r" handled (\d+)", own))
    goes_in_rounds = rounds > 0 or "--rounds" not in flags
    return goes_in_rounds and threads == workers and handled - undone == committed == events


def main() -> int:
    if sys.argv[1:2] == ["report"]:
        sys.stdout.write(text_of(options_of(sys.argv[2:])))
        return 0
    told = []
    for trial in TRIALS:
        own = text_of(options_of(trial.split()))
        told += [(f"{way} {trial}", is_right(way, trial, own)) for way in WAYS]
    trial = TRIALS[-2]
    own = text_of(options_of(trial.split()))
    told.append((f"run --stats {trial}", tells_figures("", 3, trial, own)))
    for workers in 1, 3:
        told.append((f"run --rounds --workers {workers} --stats {trial}", tells_figures("--rounds", workers, trial, own)))
    for words, passed in told:
        print("passed" if passed else "FAILED", words)
    failed = sum(not passed for _, passed in told)
    print(f"{len(told) - failed} passed, {failed} failed")
    return min(failed, 1)


if __name__ == "__main__":
    sys.exit(main())
