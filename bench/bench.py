#!/usr/bin/env python3
"""Makes cases at scale from a seed, and measures the built program on them.

    bench.py make NAME [--seed N] > case.spp     one of: hierarchy gadgets mesh limits
    bench.py run [NAME ..] [--seed N] [--events N ..] [--program FILE]
    bench.py threads [NAME ..] [--seed N] [--events N ..] [--workers N ..] [--batch N ..]
                     [--lazy] [--case FILE --stop N] [--program FILE]
    bench.py compare ..     programs in turns, and the tables of README.md: compare --help tells

`run` prints for each case the bytes read per second, and for each number of events: the stop,
events handled, seconds, events per second, the greatest memory in use, and memory per event beside
that of a run to stop 1. The stop for a number of events is found by doubling, and then once more
by proportion. Times are the least of three runs.

`threads` prints for each case and number of events how long `twarp seq` takes, and for each number
of workers and each batch how long `twarp run` takes, how many times that of `seq` this is, events
per second, and the greatest memory. It stops where the two reports differ. Times are the least of
five runs in turns. With `--lazy` each run is also measured with lazy cancellation; `--case` takes
a file in place of the cases by name. A further run with `--stats` tells how often workers met, and
events undone for each event that is committed.
"""
from __future__ import annotations

import re
import subprocess
import sys
from collections.abc import Sequence
from pathlib import Path
from typing import NamedTuple

from at_scale import MAKERS, text_of
from compare import main as compare_programs
from measuring import Measured, least, measure, measure_once, parser_of, stored

MOST_STOP = 2**29
RUNS_IN_TURNS = 5
LAZY = "--lazy"


class Asked(NamedTuple):
    """What a command line asks for."""

    program: str
    seed: int
    events: list[int]
    workers: list[int]
    batches: list[int]
    lazy: bool


def handled(report: str) -> int:
    return sum(map(int, re.findall(r"^router .* handled (\d+)", report, re.M)))


def find_stop(program: str, case: Path, wanted: int) -> str:
    """The first stop tried that leads to about so many events, by doubling, then by proportion."""
    stop = 16
    while True:
        report = measure(program, ["seq", "--stop", str(stop)], case).out
        count = handled(report)
        if count >= wanted or stop >= MOST_STOP or "verdict quiet" in report:
            break
        stop *= 2
    return str(max(1, stop * wanted // count) if count > wanted else stop)


def run(name: str, asked: Asked) -> None:
    with stored(text_of(name, asked.seed)) as case:
        size = case.stat().st_size
        read = measure(asked.program, ["check"], case, 3)
        print(
            f"{name}: {size} bytes read in {read.seconds:.3f} s, "
            f"{size / read.seconds / 1e6:.1f} MB per second, {read.mebibytes:.0f} MiB",
            flush=True,
        )
        base = measure(asked.program, ["seq", "--stop", "1"], case).memory
        for events in asked.events if name != "limits" else []:
            stop = find_stop(asked.program, case, events)
            whole = measure(asked.program, ["seq", "--stop", stop], case, 3)
            print(f"{name}: stop {stop}, {events_of(whole, base)}", flush=True)


def events_of(whole: Measured, base: float) -> str:
    """What is told of a run beside the memory of one that handles no more than the beginning."""
    count = handled(whole.out)
    bytes_each = (whole.memory - base) * 1024 / max(count, 1)
    return (
        f"{count} events in {whole.seconds:.2f} s, {per_second(count, whole)}, "
        f"{whole.mebibytes:.0f} MiB, {bytes_each:.1f} bytes per event"
    )


def per_second(count: int, whole: Measured) -> str:
    return f"{count / whole.seconds / 1e6:.2f} million per second"


def counted(program: str, case: Path, words: Sequence[str]) -> str:
    """What the workers of a run do, as one more run tells."""
    if words[0] != "run":
        return ""
    with open(case, "rb") as source:
        line = [program, *words, "--stats"]
        done = subprocess.run(line, stdin=source, capture_output=True, check=True, text=True)
    told = dict(line.split() for line in done.stderr.splitlines())
    undone = int(told["undone"]) / int(told["committed"])
    return f", {told['meetings']} meetings, {undone:.3f} undone"


def lines_of(stop: str, asked: Asked) -> list[list[str]]:
    """The command lines that are compared, that of `seq` first."""
    lines = [["seq", "--stop", stop]]
    for workers in map(str, asked.workers):
        for batch in map(str, asked.batches):
            line = ["run", "--stop", stop, "--workers", workers, "--batch", batch]
            lines += [line, [*line, LAZY]] if asked.lazy else [line]
    return lines


def in_turns(program: str, lines: Sequence[Sequence[str]], case: Path) -> list[Measured]:
    """Runs the program with each line in turn, some times over."""
    rounds = [
        [measure_once(program, words, case) for words in lines] for _ in range(RUNS_IN_TURNS)
    ]
    return list(map(least, zip(*rounds)))


def compare(name: str, case: Path, stop: str, asked: Asked) -> None:
    """Prints how long runs by threads take beside `seq`."""
    lines = lines_of(stop, asked)
    runs = in_turns(asked.program, lines, case)
    seq = runs[0]
    count = handled(seq.out)
    for words, whole in zip(lines, runs):
        if whole.out != seq.out:
            sys.exit(f"{name}: twarp {' '.join(words)} differs from twarp seq")
        print(
            f"{name}: {count} events, {' '.join(words)}: {whole.seconds:.3f} s, "
            f"{whole.seconds / seq.seconds:.2f} times seq, {per_second(count, whole)}, "
            f"{whole.mebibytes:.0f} MiB{counted(asked.program, case, words)}",
            flush=True,
        )


def threads(name: str, asked: Asked) -> None:
    with stored(text_of(name, asked.seed)) as case:
        for events in asked.events:
            compare(name, case, find_stop(asked.program, case, events), asked)


def main() -> None:
    if sys.argv[1:2] == ["compare"]:
        compare_programs(sys.argv[2:])
        return
    parser = parser_of(__doc__, ["make", "run", "threads"])
    parser.add_argument("names", nargs="*", choices=[*MAKERS, []])
    parser.add_argument("--events", type=int, nargs="*", default=[10**5, 10**6, 10**7])
    parser.add_argument("--workers", type=int, nargs="*", default=[1, 2, 4])
    parser.add_argument("--batch", type=int, nargs="*", default=[64])
    parser.add_argument("--lazy", action="store_true")
    parser.add_argument("--case", type=Path)
    parser.add_argument("--stop")
    line = parser.parse_args()
    if line.what == "make":
        sys.stdout.write(text_of(line.names[0], line.seed))
        return
    asked = Asked(line.program, line.seed, line.events, line.workers, line.batch, line.lazy)
    if line.case:
        compare(line.case.stem, line.case, line.stop, asked)
        return
    for name in line.names or MAKERS:
        if line.what == "run":
            run(name, asked)
        elif name != "limits":
            threads(name, asked)


if __name__ == "__main__":
    main()
