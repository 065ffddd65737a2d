#!/usr/bin/env python3
"""Sums the processor time of a run of the gate by crate, while the run goes on.

    python3 checks/times.py

It looks once a second at the provers that the process which started it has begun. When it is told
to stop (SIGTERM), it prints a line for each crate: minutes of processor time for proofs, for
proofs of tests, and for wrong bodies. A prover's last second is not seen. What rt kept from an
earlier run on this machine takes no time. No verdict rests on it.
"""
from __future__ import annotations

import os
import re
import signal
import sys
import time
from collections import Counter, defaultdict
from pathlib import Path
from typing import NamedTuple

SECONDS_BETWEEN_LOOKS = 1
TICKS_PER_MINUTE = 60 * os.sysconf("SC_CLK_TCK")
PHASES = ("proofs", "tests", "wrong bodies")
PROCESSES = Path("/proc")


class Process(NamedTuple):
    """A process: its parent, its start, and its processor time so far, in clock ticks."""

    parent: int
    start: str
    ticks: int


class Work(NamedTuple):
    """What a prover does: the crate that it works on, and for what."""

    crate: str
    phase: str


class Spent(NamedTuple):
    """The processor time of a prover so far, in clock ticks."""

    work: Work
    ticks: int


# Provers by number and start, since a number is used again.
Provers = dict[tuple[int, str], Spent]


def read(file: Path) -> str:
    return file.read_bytes().decode(errors="replace")


def processes() -> dict[int, Process]:
    """All processes by number."""
    found = {}
    for number in filter(str.isdigit, os.listdir(PROCESSES)):
        try:
            fields = read(PROCESSES / number / "stat").rpartition(") ")[2].split()
        except OSError:
            continue
        ticks = int(fields[11]) + int(fields[12])
        found[int(number)] = Process(int(fields[1]), fields[19], ticks)
    return found


def is_below(number: int, ancestor: int, found: dict[int, Process]) -> bool:
    while number in found and number != ancestor:
        number = found[number].parent
    return number == ancestor


def work_of(number: int) -> Work | None:
    """What a prover does; None of other processes."""
    try:
        words = read(PROCESSES / str(number) / "cmdline").split("\0")
        folder = os.readlink(PROCESSES / str(number) / "cwd")
    except OSError:
        return None
    if not words[0].endswith("/rattle") or "--crate-name" not in words:
        return None
    phase = "tests" if "--test" in words else "proofs"
    if re.search("/rt-edit", folder):
        phase = "wrong bodies"
    return Work(words[words.index("--crate-name") + 1], phase)


def look(gate: int, provers: Provers) -> None:
    """Notes the processor time of each prover of the gate."""
    found = processes()
    for number, (_, start, ticks) in found.items():
        known = provers.get((number, start))
        if known:
            provers[number, start] = Spent(known.work, ticks)
        elif is_below(number, gate, found):
            work = work_of(number)
            if work:
                provers[number, start] = Spent(work, ticks)


def report(provers: Provers) -> None:
    minutes: dict[str, Counter[str]] = defaultdict(Counter)
    for (crate, phase), ticks in provers.values():
        for name in crate, "all":
            minutes[name][phase] += ticks / TICKS_PER_MINUTE
    print("processor minutes for", ", ".join(PHASES))
    for crate, spent in sorted(minutes.items(), key=lambda item: -sum(item[1].values())):
        print(f"{crate:14}", *(f"{spent[phase]:7.1f}" for phase in PHASES), flush=True)


def main() -> None:
    gate = os.getppid()
    provers: Provers = {}

    def end(_number: int, _frame: object) -> None:
        report(provers)
        sys.exit()

    signal.signal(signal.SIGTERM, end)
    while os.getppid() == gate:
        look(gate, provers)
        time.sleep(SECONDS_BETWEEN_LOOKS)


if __name__ == "__main__":
    main()
