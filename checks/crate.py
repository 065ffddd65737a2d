#!/usr/bin/env python3
"""Checks a crate over kept libraries: much sooner than `rt check`, which proves all below it first.

    crate.py CRATE [OPTION ..]

The options are those of `rattle check`, as `--only tw_queue::ring`. What the crate stands on is taken from the
libraries that `./twarp --build` keeps in out/libraries, where it was proved over the same text; what is missing is
proved, and kept too. The checks of the crate itself are kept in its folder out/incremental. It gives rattle's status.
This is for the work on a crate; the verdict is that of `rt ci`.
"""
from __future__ import annotations

import subprocess
import sys
import tempfile
import time
from pathlib import Path

from common import TOP
from twarp_tools.build import KEPT, MISSING, Compiler, Made, Share, below, end_with_signals, find_kit, started

CRATES = TOP / "crates.txt"
SECONDS_BETWEEN_LOOKS = 0.2


class Checker:
    """The command that checks a crate, or a copy of it, over libraries in a folder, into which they are put."""

    def __init__(self, crate: str, folder: Path) -> None:
        is_program = (TOP / "crates" / crate / "src/main.rt").exists()
        made = Made(crate if is_program else "")
        kit = find_kit(made)
        if kit is None:
            sys.exit(MISSING)
        KEPT.mkdir(parents=True, exist_ok=True)
        self.compiler = Compiler(kit, CRATES.read_text(), folder, made)
        for name in below(self.compiler.graph, crate)[:-1]:
            if not ((folder / f"{name}.rlib").exists() or self.compiler.give(name)):
                self.prove(name)
        build = self.compiler.words(crate, 1)
        end = build.index("--toolchain" if is_program else "--statements")
        words = build[build.index("build") + 1 : end]
        self.command = [f"{kit}/bin/rattle", "check", *words, "--incremental", "out/incremental"]

    def prove(self, crate: str) -> None:
        """Proves a library whose own libraries are in the folder, and keeps it."""
        print(f"crate.py: proving {crate}, which is kept then", file=sys.stderr, flush=True)
        self.compiler.start(crate, Share(1, gives_way=False))
        while not (ended := [*self.compiler.ended()]):
            time.sleep(SECONDS_BETWEEN_LOOKS)
        for _, refused in ended:
            if refused is not None:
                sys.exit(refused)
        self.compiler.keep(crate)


def main() -> int:
    if len(sys.argv) < 2 or sys.argv[1].startswith("-"):
        print(__doc__, end="", file=sys.stderr)
        return 2
    crate, *options = sys.argv[1:]
    folder = TOP / "crates" / crate
    end_with_signals()
    with tempfile.TemporaryDirectory(prefix="twarp-crate-") as libraries:
        command = [*Checker(crate, Path(libraries)).command, *options]
        (folder / "out").mkdir(exist_ok=True)
        with started(command, folder) as child:
            return child.wait()


if __name__ == "__main__":
    sys.exit(main())
