"""How the programs of bench/ read their command lines, and measure another program."""
from __future__ import annotations

import argparse
import subprocess
import sys
import tempfile
from collections.abc import Iterable, Iterator, Sequence
from contextlib import contextmanager
from functools import reduce
from pathlib import Path
from typing import NamedTuple

CRATES = Path(__file__).resolve().parent.parent / "crates"
PROGRAM = CRATES / "twarp/out/twarp"

# A process of its own, whose only child is what is measured.
CHILD = """
import resource, subprocess, sys, time
began = time.monotonic()
done = subprocess.run(sys.argv[2:])
seconds = time.monotonic() - began
memory = resource.getrusage(resource.RUSAGE_CHILDREN).ru_maxrss
open(sys.argv[1], "w").write(f"{seconds} {memory}")
sys.exit(done.returncode)
"""


class Measured(NamedTuple):
    """What a program wrote, its seconds, and its greatest memory in KiB."""

    out: str
    seconds: float
    memory: float

    @property
    def mebibytes(self) -> float:
        return self.memory / 1024


@contextmanager
def stored(text: str) -> Iterator[Path]:
    """A file that holds the text for a while."""
    with tempfile.NamedTemporaryFile("w") as file:
        file.write(text)
        file.flush()
        yield Path(file.name)


def measure_once(program: str, words: Sequence[str], source: Path) -> Measured:
    with tempfile.NamedTemporaryFile() as kept, open(source, "rb") as stdin:
        child = [sys.executable, "-c", CHILD, kept.name, program, *words]
        done = subprocess.run(child, stdin=stdin, capture_output=True, check=True)
        seconds, memory = map(float, Path(kept.name).read_text().split())
    return Measured(done.stdout.decode(), seconds, memory)


def least(runs: Iterable[Measured]) -> Measured:
    """The last of some runs, with the least of their seconds."""
    return reduce(lambda one, other: other._replace(seconds=min(one[1], other[1])), runs)


def measure(program: str, words: Sequence[str], source: Path, times: int = 1) -> Measured:
    """Runs the program so many times."""
    return least(measure_once(program, words, source) for _ in range(times))


def parser_of(description: str | None, actions: Sequence[str]) -> argparse.ArgumentParser:
    """Reads an action, and the options that both programs have."""
    parser = argparse.ArgumentParser(
        description=description, formatter_class=argparse.RawDescriptionHelpFormatter
    )
    parser.add_argument("what", choices=actions)
    parser.add_argument("--seed", type=int, default=1)
    parser.add_argument("--program", default=str(PROGRAM))
    return parser
