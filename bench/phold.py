#!/usr/bin/env python3
"""Measures PHOLD by plain Rust, `twarp-phold seq` and `twarp-phold run`: million events a second of the clock.

    phold.py [--turns N] [--events N] [--workers N ..]

Each line is a median, of programs in turns; all of them must write the same report. Plain Rust is built by cargo from the
folder phold, `twarp-phold` is the one that ./twarp-phold --build has made.
"""
from __future__ import annotations

import argparse
import re
import subprocess
import sys
from collections.abc import Sequence
from pathlib import Path
from statistics import median

HERE = Path(__file__).resolve().parent
PLAIN = HERE / "phold/target/release/phold"
PROGRAM = HERE.parent / "crates/twarp_phold/out/twarp_phold"

# Processes, population, lookahead and longest delay, as in docs/MODELS.md.
MEASURES = (1024, 16, 1, 100), (1024, 1, 1, 100), (1024, 64, 1, 1000), (64, 4, 1, 100), (1024, 16, 10, 100_000)
OPTIONS = "--processes", "--population", "--lookahead", "--longest"
REMOTE, SEED = 1000, 1


def commands_of(measure: Sequence[int], stop: int, workers: Sequence[int]) -> dict[str, list[str]]:
    """The command of each column."""
    plain = [*map(str, measure), str(REMOTE), str(SEED), str(stop)]
    asked = [word for pair in zip(OPTIONS, map(str, measure)) for word in pair]
    asked += ["--stop", str(stop), "--stats"]
    return {
        "plain Rust, heap": [str(PLAIN), "heap", *plain],
        "plain Rust, calendar": [str(PLAIN), "calendar", *plain],
        "`seq`": [str(PROGRAM), "seq", *asked],
        **{f"`run --workers {count}`": [str(PROGRAM), "run", *asked, "--workers", str(count)] for count in workers},
        **{f"`--rounds`, {count}": [str(PROGRAM), "run", "--rounds", *asked, "--workers", str(count)] for count in workers},
    }


def row_of(measure: Sequence[int], given: argparse.Namespace) -> list[str]:
    """The medians of a measure, in the order of the columns."""
    processes, population, lookahead, longest = measure
    stop = max(1, given.events * (lookahead + longest) // (2 * processes * population))
    commands = commands_of(measure, stop, given.workers)
    rates: dict[str, list[int]] = {name: [] for name in commands}
    reports = set()
    for _ in range(given.turns):
        for name, words in commands.items():
            done = subprocess.run(words, capture_output=True, text=True, check=True)
            reports.add(done.stdout)
            rates[name] += map(int, re.findall(r"^events-per-second (\d+)$", done.stderr, re.M))
    if len(reports) > 1:
        sys.exit(f"phold.py: the reports differ at {measure}")
    return [f"{median(rates[name]) / 1e6:.2f}" for name in commands]


def main() -> int:
    parser = argparse.ArgumentParser(description=__doc__, formatter_class=argparse.RawDescriptionHelpFormatter)
    parser.add_argument("--turns", type=int, default=5)
    parser.add_argument("--events", type=int, default=2_000_000)
    parser.add_argument("--workers", type=int, nargs="+", default=[1, 2, 4])
    given = parser.parse_args()
    subprocess.run(["cargo", "build", "--release", "--quiet"], cwd=HERE / "phold", check=True)
    columns = ["Processes, population, delays", *commands_of(MEASURES[0], 1, given.workers)]
    print(f"| {' | '.join(columns)} |\n|{'---|' * len(columns)}")
    for measure in MEASURES:
        processes, population, lookahead, longest = measure
        named = f"{processes:,}, {population}, {lookahead} to {longest:,}"
        print(f"| {' | '.join([named, *row_of(measure, given)])} |", flush=True)
    return 0


if __name__ == "__main__":
    sys.exit(main())
