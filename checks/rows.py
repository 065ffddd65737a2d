"""The worked rows of the program in checks/rows: commands, and what each of them writes."""
from __future__ import annotations

import re
from collections.abc import Iterator
from pathlib import Path
from typing import NamedTuple

from common import TOP, Ended, without_advice

FOLDER = TOP / "checks/rows"
COMMAND = re.compile(r"\$ twarp (.+) < (\S+)\n")
EXIT = re.compile(r"^\[exit (\d)\]\n\Z", re.M)
ANY_LINES = "...\n"


class Due(NamedTuple):
    """A command, the file that is its standard input, and how it ends."""

    words: list[str]
    source: Path
    status: int
    written: str

    def wrong(self, done: Ended) -> str | None:
        """What is wrong with how it ended, if anything."""
        if self.is_met_by(done.out.decode()) and self.ends_as_due(without_advice(done)):
            return None
        return f"it ended with {done}, and {(self.status, self.written)} is due"

    def ends_as_due(self, done: Ended) -> bool:
        # Of a refused input a person is told, and of nothing else.
        return (done.status, done.err) == (self.status, b"")

    def is_met_by(self, out: str) -> bool:
        first, any_lines, last = self.written.partition(ANY_LINES)
        if any_lines:
            return out.startswith(first) and out[len(first) :].endswith("\n" + last)
        return out == self.written


def rows_of(text: str) -> Iterator[Due]:
    """The rows of a file, which an empty line ends."""
    for row in text.split("\n\n"):
        ended_row = row if row.endswith("\n") else row + "\n"
        *commands, written = re.split(r"^(?!\$ )", ended_row, maxsplit=1, flags=re.M)
        ended = EXIT.search(written)
        status = int(ended[1]) if ended else 0
        written = written[: ended.start()] if ended else written
        for words, source in COMMAND.findall("".join(commands)):
            yield Due(words.split(), TOP / source, status, written)


def all_rows() -> Iterator[Due]:
    for file in sorted(FOLDER.glob("*.txt")):
        yield from rows_of(file.read_text(encoding="ascii"))


def row_of(command: str, source: Path) -> Due:
    """The first row of a command on this input."""
    return next(due for due in all_rows() if due.words[0] == command and due.source == source)
