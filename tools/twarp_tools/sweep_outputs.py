"""What a sweep writes: its CSV as runs end, what is told of all together, and how far it is."""

import argparse
import fcntl
import json
import os
import sys
import time
from collections.abc import Iterable, Mapping
from datetime import timedelta
from pathlib import Path
from typing import TextIO

from twarp import pictures
from twarp.outcomes import Outcomes, Table, read_table
from twarp.program import Refused
from twarp.trials import Trial
from twarp_tools.command import is_same_file, refuse_own_input, tell, write_output

# Seconds from one telling to the next: on a terminal, where the line is drawn again, and elsewhere.
REDRAW, NOW_AND_THEN = 0.1, 10.0
# Begins the line of a terminal again, and clears what stands behind.
BEGIN, CLEAR = "\r", "\x1b[K"


def refuse_clashes(names: Mapping[str, str], inputs: Iterable[str]) -> None:
    """Refuses, of options with the files that they name to be written, one that names an input or another's file."""
    seen: list[str] = []
    for option, name in names.items():
        for source in inputs:
            refuse_own_input(option, name, source)
        if any(os.path.realpath(name) == os.path.realpath(other) or is_same_file(name, other) for other in seen):
            raise Refused(f"refused option {option}: {name} is another output")
        seen.append(name)


def open_alone(name: str, is_new: bool) -> TextIO:
    """Opens a file to be written, from its beginning where it is new; refused where another sweep writes into it."""
    file = open(name, "a" if is_new else "a+", newline="", errors="replace")
    is_file = os.path.isfile(name)
    try:
        if is_file:
            fcntl.flock(file, fcntl.LOCK_EX | fcntl.LOCK_NB)
    except BlockingIOError:
        raise Refused(f"{name}: refused: another sweep writes into it") from None
    except OSError:
        # Not every file system has locks.
        pass
    if is_new and is_file:
        file.truncate(0)
    return file


class Outputs:
    """What a sweep writes. The files are opened before the first run, and the lines of the CSV written as runs end."""

    def __init__(self, line: argparse.Namespace, table: Table, inputs: Iterable[str]):
        self.line = line
        self.table = table
        # Else standard output may have to hold something in place of these lines, or them in another order.
        self.is_handed_on = not (line.check or line.resume)
        options = ("resume", "csv", "json", "picture")
        names = {f"--{option}": name for option in options if (name := getattr(line, option))}
        refuse_clashes(names, inputs)
        # The lines for standard output that are not written yet, and the runs that the resumed CSV has.
        self.lines = [] if line.summary else [table.head_line]
        self.known: list[Trial] = []
        resumed = self.resume(names.pop("--resume")) if line.resume else None
        self.files = {option: open_alone(name, is_new=True) for option, name in names.items()}
        self.csv = resumed or self.files.get("--csv")
        if "--csv" in self.files:
            self.files["--csv"].write(table.head_line)
        for trial in self.known:
            self.take(trial, is_new=False)

    def resume(self, name: str) -> TextIO:
        """The CSV to go on with, behind its last whole line; refused where it is not of the same case and options."""
        file = open_alone(name, is_new=False)
        if not file.tell():
            file.write(self.table.head_line)
            return file
        file.seek(0)
        found, self.known = read_table(file, is_cut=True)
        if found.head != self.table.head:
            made, wanted = found.head[-1][:200], self.table.head[-1]
            raise Refused(f"{name}: refused line 1: it is of `{made}`, this one of `{wanted}`")
        # A line that was broken off is run again.
        file.truncate(Path(name).read_bytes().rfind(b"\n") + 1)
        file.seek(0, os.SEEK_END)
        return file

    def take(self, trial: Trial, is_new: bool = True) -> None:
        """Counts a run and writes its line, of one that is in the resumed CSV already only on standard output."""
        text = self.table.line(trial)
        if self.csv and is_new:
            self.csv.write(text)
        if not self.line.summary:
            self.lines.append(text)

    def flush(self) -> None:
        if self.csv:
            self.csv.flush()
        if self.is_handed_on:
            write_output("".join(self.lines))
            self.lines.clear()

    def put_in_order(self) -> None:
        """Writes the resumed CSV, whose lines stand out of turn, anew in the order of their seeds."""
        with open(self.line.resume, newline="") as source:
            _, trials = read_table(source)
        before = Outcomes((), self.table.outcomes.given, self.table.outcomes.notes)
        self.table = Table(self.table.columns, self.table.head[-1], before)
        lines = [self.table.head_line, *map(self.table.line, sorted(trials, key=lambda trial: trial.seed))]
        Path(f"{self.line.resume}.new").write_text("".join(lines))
        os.replace(f"{self.line.resume}.new", self.line.resume)
        self.lines = [] if self.line.summary else lines

    def end(self, title: str, drawn: str, told: Mapping[str, object]) -> None:
        """Writes what is told of all runs together."""
        outcomes = self.table.outcomes
        if file := self.files.get("--picture"):
            file.write(pictures.outcomes(outcomes, title=title, drawn=drawn))
        if file := self.files.get("--json"):
            file.write(json.dumps({**told, **outcomes.record()}, indent=1) + "\n")
        for file in self.files.values():
            file.flush()
        write_output(outcomes.summary() if self.line.summary else "".join(self.lines))


class Progress:
    """Tells how many runs of all are done, the rate without those `before`, and how long the others will take."""

    def __init__(self, total: int, is_quiet: bool, before: int = 0):
        self.total, self.before = total, before
        self.is_quiet = is_quiet or sys.stderr is None
        self.is_terminal = not self.is_quiet and sys.stderr.isatty()
        self.begun = self.told = time.monotonic()

    def show(self, done: int, is_end: bool = False) -> None:
        """Tells how far it is, where that is due, and at the end."""
        now, pause = time.monotonic(), REDRAW if self.is_terminal else NOW_AND_THEN
        if self.is_quiet or not (is_end or now - self.told >= pause):
            return
        self.told, seconds = now, max(now - self.begun, 1e-9)
        rate = (done - self.before) / seconds
        left = f", {written_time((self.total - done) / rate)} left" if rate else ""
        if done == self.total:
            left = f", {written_time(seconds)} in all"
        words = f"{done:,} of {self.total:,} runs, {rate:,.0f} a second{left}"
        if self.is_terminal:
            print(f"{BEGIN}{Path(sys.argv[0]).name}: {words}{CLEAR}", end="\n" * is_end, file=sys.stderr, flush=True)
        else:
            tell(words)

    def tell(self, message: str) -> None:
        """Says something on a line of its own."""
        if self.is_terminal:
            print(BEGIN, end=CLEAR, file=sys.stderr)
        tell(message)


def written_time(seconds: float) -> str:
    """A stretch of time in words: seconds, or also minutes and hours as in 1:02:03."""
    return f"{seconds:.1f} s" if seconds < 59.95 else str(timedelta(seconds=round(seconds)))
