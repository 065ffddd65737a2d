#!/usr/bin/env python3
"""Runs `twarp run` with several workers again and again, and compares it with `twarp seq`.

    parallel.py                          after rt ci, or rt run in crates/twarp

What both write has to be the same, where what undone events have sent is taken back at once and
where it is taken back as late as may be, and however routers are dealt out to workers and go on
from one to the next. Some run beside processes that keep the processors busy. Each run is ended
after five minutes, and counts as failed: workers that wait for one another without end are found
by that. A proof can say nothing of it.
"""
from __future__ import annotations

import contextlib
import subprocess
import sys
import tempfile
from collections import Counter
from collections.abc import Callable, Iterator, Sequence
from itertools import product
from pathlib import Path
from random import Random
from typing import NamedTuple

from common import (
    CASES,
    DISAGREE,
    LIMIT,
    REPORT,
    Tally,
    name_of,
    need_program,
    run_program,
)

# Where they are is known from common.
from at_scale import gadgets, hierarchy, mesh
from stats import wrong_figures
from twarp.case import BarScene, Case, Link

WORKERS = (None, 1, 2, 3, 4, 8, 64)
BATCHES = (1, 64, 4096)

# What undone events have sent is taken back at once, or as late as may be.
KINDS: tuple[list[str], ...] = ([], ["--lazy"])

# How routers are dealt out, and whether they go on to the next worker at each checkpoint.
DEALINGS: tuple[list[str], ...] = ([], ["--blocks"], ["--rotate"], ["--blocks", "--rotate"])

# Runs in a row of the smallest case and of a made one, each with every number of workers and each
# kind in turn.
SMALL_RUNS = 1000
LARGE_RUNS = 100

# So many processes keep the processors busy beside some runs.
BUSY = 4
BUSY_WORDS = [sys.executable, "-c", "while True: pass"]


def barred(draw: Random) -> Case:
    """The hierarchy in version 2: each link has another delay back, and half of its failures give
    place to paths that are forbidden and allowed again."""
    case = hierarchy(draw)
    case.links = [Link(link.a, link.b, link.delay, draw.randint(1, 20)) for link in case.links]
    given = Counter(path[0] for path in case.paths)
    case.scenes = case.scenes[:2000]
    for _ in range(1000):
        router, time = draw.randrange(1, 200), draw.randint(50, 100000)
        place, later = draw.randint(1, given[router]), time + draw.randint(1, 200)
        case.scenes.append(BarScene("forbid", time, router, place))
        case.scenes.append(BarScene("allow", later, router, place))
    return case


class Made(NamedTuple):
    """How a case is made, and a stop that leads to about 10^5 events."""

    make: Callable[[Random], Case]
    stop: int


MADE = {
    "hierarchy": Made(hierarchy, 57998),
    "barred": Made(barred, 65000),
    "gadgets": Made(gadgets, 50),
    "mesh": Made(mesh, 765),
}


class Answer(NamedTuple):
    """How the program ended, and what it wrote on standard output."""

    status: int | None
    out: bytes

    @classmethod
    def of(cls, words: Sequence[str], case: Path) -> Answer:
        done = run_program(words, case)
        return cls(done.status, done.out)

    def differs(self, wanted: Answer) -> str | None:
        """What is wrong with it, if anything."""
        if self == wanted:
            return None
        if self.status is None:
            return f"it did not end in {LIMIT} seconds"
        return f"it ended {self}, and seq {wanted}"

    def __str__(self) -> str:
        return f"with {self.status} and {len(self.out)} bytes"


class Runs(NamedTuple):
    """Runs with these words, by each number of workers here, with each batch and each dealing. Where no number is
    told, the program chooses."""

    words: Sequence[str]
    workers: Sequence[int | None]
    batches: Sequence[int]
    dealings: Sequence[list[str]] = DEALINGS[:1]


def told(workers: int | None) -> list[str]:
    """The words that tell how many workers there are to be."""
    return [] if workers is None else ["--workers", str(workers)]


def compare(tally: Tally, case: Path, runs: Runs) -> None:
    """Runs beside `seq`, which runs once."""
    wanted = Answer.of(["seq", *runs.words], case)
    for workers, batch, dealing, kind in product(
        runs.workers, runs.batches, runs.dealings, KINDS
    ):
        sizes = [*told(workers), "--batch", str(batch)]
        words = ["run", *runs.words, *sizes, *dealing, *kind]
        wrong = Answer.of(words, case).differs(wanted)
        tally.add(f"{name_of(words)} of {case.name}", wrong)


def compare_stored(tally: Tally) -> None:
    """Each stored case, with checkpoints and without."""
    for case in sorted(CASES.glob("*.spp")):
        for more in ["--log"], ["--every", "1"], ["--every", "7"], ["--every", "3", "--log"]:
            compare(tally, case, Runs(["--stop", "40", *more], (None, 1, 2, 5), (3,), DEALINGS))


def compare_made(tally: Tally, folder: Path) -> None:
    """The cases that are made."""
    for name, (make, stop) in MADE.items():
        case = folder / f"{name}.spp"
        case.write_text(str(make(Random(1))))
        early = ["--stop", str(stop // 4)]
        every = str(max(1, stop // 40))
        compare(tally, case, Runs(["--stop", str(stop)], WORKERS, (64,), DEALINGS[:2]))
        compare(tally, case, Runs([*early, "--log"], (None, 2, 4), BATCHES))
        compare(tally, case, Runs([*early, "--every", every], (2, 4, 64), (64,), DEALINGS))
        logged = [*early, "--every", every, "--log"]
        compare(tally, case, Runs(logged, (3,), (1, 4096), DEALINGS[2:]))


def count_moved(case: Path, workers: int) -> int:
    """How many routers of a case have another of so many workers in blocks than dealt out in turn."""
    nodes = int(case.read_text().splitlines()[1].split()[1])
    return sum(router % workers != router * workers // nodes for router in range(nodes))


def count_in(tally: Tally, case: Path, words: Sequence[str], moved: int | None = 0) -> None:
    """A run whose workers are counted."""
    plain, done = run_program(words, case), run_program([*words, "--stats"], case)
    tally.add(f"{name_of(words)} --stats of {case.name}", wrong_figures(words, plain, done, moved))


def count_made(tally: Tally, folder: Path) -> None:
    """The cases that are made, with what their workers count."""
    for name, (_, stop) in MADE.items():
        case = folder / f"{name}.spp"
        sizes = ["--stop", str(stop // 4)]
        count_in(tally, case, ["seq", *sizes])
        count_in(tally, case, ["run", *sizes], None)
        every = ["--every", str(max(1, stop // 40)), "--rotate"]
        for workers, kind in product((2, 4), KINDS):
            words = ["run", *sizes, "--workers", str(workers), *kind]
            count_in(tally, case, words)
            count_in(tally, case, [*words, "--blocks"], count_moved(case, workers))
            count_in(tally, case, [*words, *every], None)


@contextlib.contextmanager
def busy_processors() -> Iterator[None]:
    """Other processes keep the processors busy."""
    with contextlib.ExitStack() as started:
        for _ in range(BUSY):
            started.callback(started.enter_context(subprocess.Popen(BUSY_WORDS)).kill)
        yield


def compare_beside_others(tally: Tally, folder: Path) -> None:
    """The cases that are made, where workers have to share the processors with other work."""
    with busy_processors():
        for name, (_, stop) in MADE.items():
            compare(tally, folder / f"{name}.spp", Runs(["--stop", str(stop)], (None, 4), (64,)))


def repeat(tally: Tally, case: Path, words: Sequence[str], wanted: Answer, times: int) -> None:
    """So many runs in a row."""
    for number in range(times):
        workers = WORKERS[number % len(WORKERS)]
        kind = KINDS[number // len(WORKERS) % len(KINDS)]
        run = ["run", *words, *told(workers), *kind]
        wrong = Answer.of(run, case).differs(wanted)
        if wrong:
            name = f"run {number} of {times} in a row of {case.name}: {name_of(run)}"
            tally.add(name, wrong)
            return
    tally.add(f"{times} runs in a row of {case.name}", None)


def main() -> None:
    need_program()
    tally = Tally()
    with tempfile.TemporaryDirectory() as room:
        folder = Path(room)
        compare_stored(tally)
        compare_made(tally, folder)
        count_made(tally, folder)
        compare_beside_others(tally, folder)
        words, wanted = ["--stop", "20", "--log"], Answer(0, REPORT.read_bytes())
        repeat(tally, DISAGREE, words, wanted, SMALL_RUNS)
        made, words = folder / "gadgets.spp", ["--stop", "10"]
        repeat(tally, made, words, Answer.of(["seq", *words], made), LARGE_RUNS)
    tally.end()


if __name__ == "__main__":
    main()
