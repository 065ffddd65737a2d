"""How every tool reads, writes and ends."""

import argparse
import bz2
import contextlib
import enum
import gzip
import io
import os
import re
import sys
import zlib
from collections.abc import Callable, Iterator, Mapping
from pathlib import Path
from typing import Any, BinaryIO, NoReturn, TypeVar

from twarp.case import MOST_BYTES
from twarp.program import MOST_QUOTED, Refused, Stopped, quote

Value = TypeVar("Value")

# Descriptors, since Python's own streams are not there where one of these is closed.
STANDARD_INPUT, STANDARD_OUTPUT = 0, 1

# A report of this size has some five million events, which take 3 GB here.
MOST_OF_REPORT = 256 << 20

# How a packed file begins, by what unpacks it.
UNPACKERS = {b"\x1f\x8b": gzip.open, b"BZh": bz2.open}
ROOM = 65_536
MIB = 1_048_576
LONGEST_LINE = MIB
MOST_MIB = 1_048_576
TOO_LARGE = "the input has more than {:,} MiB, unpacked: --size-limit allows more"

CLOSING = """

statuses: 0 done, 1 the input is refused, 2 stopped, 3 the command line is not accepted
tools/README.md tells more; where twarp is installed it stands in share/doc/twarp"""


class Status(enum.IntEnum):
    """Exit statuses, as those of twarp."""

    DONE, REFUSED, STOPPED, BAD_LINE = range(4)


class Parser(argparse.ArgumentParser):
    """Reads a command line; one that it does not take ends with the status that twarp has for it."""

    def __init__(self, told: str | None):
        """`told` is what a tool's module says of itself: what the tool does, and then examples."""
        description, begin, examples = (told or "").partition("\nexample")
        if Path(sys.argv[0]).name.startswith("twarp-"):
            # Where twarp is installed its tools have these names.
            examples = re.sub(r"tools/(?=\w+ )", "twarp-", examples).replace("./twarp", "twarp")
        how = argparse.RawDescriptionHelpFormatter
        super().__init__(description=description, epilog=begin + examples + CLOSING, formatter_class=how)

    def option(
        self, name: str, metavar: str, told: str, kind: Callable[[str], Any] = str, default: Any = None, **how: Any
    ) -> None:
        """Adds an option, to a `group` or not, whose word is read by `kind`, with its ValueError told, or `is_kept`."""
        group, is_kept = how.pop("group", self), how.pop("is_kept", False)

        def read(word: str) -> object:
            try:
                value = kind(word)
            except ValueError as fault:
                raise argparse.ArgumentTypeError(str(fault)) from None
            return word if is_kept else value

        told += "" if default is None else " (default %(default)s)"
        group.add_argument(name, metavar=metavar, type=read, default=default, help=told, **how)

    def parse_pair(self) -> argparse.Namespace:
        """The command line, where one alone of its files can be standard input, and one option ask for the policy."""
        line = self.parse_args()
        names = {"CASE": line.case, "REPORT": line.report, "--policy": getattr(line, "policy", None)}
        given = [name for name, file in names.items() if file == "-"]
        if len(given) > 1:
            self.error(f"only one of {' and '.join(given)} can be standard input")
        if names["--policy"] and line.ask_policy:
            self.error("--policy and --ask-policy ask for the same")
        return line

    def error(self, message: str) -> NoReturn:
        self.print_usage(sys.stderr)
        self.exit(Status.BAD_LINE, f"{self.prog}: {message}\n")


def number_between(least: int, most: int) -> Callable[[str], int]:
    """Reads a decimal number in a range."""

    def read(word: str) -> int:
        if re.fullmatch(f"[0-9]{{1,{MOST_QUOTED}}}", word) and least <= int(word) <= most:
            return int(word)
        raise ValueError(f"{quote(word)} is no number from {least} to {most}")

    return read


SIZE_LIMIT = "--size-limit", "MIB", "read an input of at most so many MiB, unpacked", number_between(1, MOST_MIB)


def title_of(title: str | None, file: str, unnamed: str = "case") -> str:
    """What a picture's title begins with: what was asked for, or else the name of the case."""
    return title or (unnamed if file == "-" else Path(file).stem)


def opened(file: str) -> io.BufferedReader:
    """The bytes of a file, or of standard input where it is `-`."""
    return open(STANDARD_INPUT, "rb", closefd=False) if file == "-" else open(file, "rb")


def name_of(file: str) -> str:
    """The name by which what is wrong with a file is told."""
    return "standard input" if file == "-" else file


class Input:
    """The text of a file, with the name by which what is wrong with it is told; refused where it has too many bytes."""

    def __init__(self, file: str, most: int = MOST_BYTES):
        self.name = name_of(file)
        with opened(file) as source:
            self.text = source.read(most + 1)
        if len(self.text) > most:
            raise Refused(f"{self.name}: refused: it has more than {most >> 20} MiB")

    def read(self, reader: Callable[[bytes], Value]) -> Value:
        """What a reader makes of the text."""
        try:
            return reader(self.text)
        except Refused as fault:
            is_option = str(fault).startswith("refused option")
            raise fault if is_option else Refused(f"{self.name}: {fault}") from None


def lines_within(source: BinaryIO, limit: int) -> Iterator[tuple[int, bytes]]:
    """The lines of a stream of at most so many MiB that are not empty, without their ends, each with its number."""
    number, left = 0, limit * MIB
    while line := source.readline(LONGEST_LINE + 1):
        number, left = number + 1, left - len(line)
        if left < 0:
            raise Refused.at_line(number, TOO_LARGE.format(limit))
        line = line.removesuffix(b"\n")
        if len(line) > LONGEST_LINE:
            raise Refused.at_line(number, f"it has more than {LONGEST_LINE:,} bytes")
        if line:
            yield number, line


def read_stream(file: str, reader: Callable[[BinaryIO], Value]) -> Value:
    """What a reader makes of a file, plain or packed by gzip or bzip2; what is wrong is told by the file's name."""
    try:
        with opened(file) as source:
            head = source.peek(3)
            for mark, unpack in UNPACKERS.items():
                if head.startswith(mark):
                    # Python's own readers of packed files take several times as long for a line as this one does.
                    with unpack(source, "rb") as packed, io.BufferedReader(packed, ROOM) as buffered:
                        return reader(buffered)
            return reader(source)
    except Refused as fault:
        raise Refused(f"{name_of(file)}: {fault}") from None
    except (EOFError, zlib.error, OSError) as fault:
        # What a device refuses has a number; what bz2 and gzip don't understand has none.
        if getattr(fault, "errno", None) is not None:
            raise
        raise Refused(f"{name_of(file)}: refused: it can't be unpacked: {fault}") from None


def refuse_own_input(option: str, output: str | None, source: str) -> None:
    """Refuses a file to be written that is the input, which would be lost, or that standard output goes to."""
    if output is None:
        return
    # Of what a descriptor is open on, a terminal or a device is not written over.
    is_written_over = os.path.isfile(output)
    if is_same_file(STANDARD_INPUT if source == "-" else source, output) and (is_written_over or source != "-"):
        raise Refused(f"refused option {option}: {output} is the input")
    if is_same_file(STANDARD_OUTPUT, output) and is_written_over:
        raise Refused(f"refused option {option}: {output} is where standard output goes")


def is_same_file(one: str | int, other: str) -> bool:
    """Whether a file, or what a descriptor is open on, is this very file."""
    with contextlib.suppress(OSError):
        return os.path.samefile(one, other)
    return False


def tell(message: object) -> None:
    """Says something on standard error, under the tool's name."""
    print(f"{Path(sys.argv[0]).name}: {message}", file=sys.stderr)


def tell_counts(counts: Mapping[str, int]) -> None:
    """Says on standard error of what there is how many."""
    for what, count in counts.items():
        if count:
            tell(f"{what}: {count:,}")


def write_output(text: str) -> None:
    """Writes the whole text, also where Python's own standard output has no buffer and takes a part at a time."""
    with open(STANDARD_OUTPUT, "wb", closefd=False) as output:
        output.write(text.encode())


def tool(main: Callable[[], None]) -> Callable[[], Status]:
    """A tool's `main`, which gives its status."""

    def run() -> Status:
        try:
            main()
            return Status.DONE
        except Refused as fault:
            tell(fault)
            return Status.REFUSED
        except BrokenPipeError:
            # Who reads a part alone has met no error.
            pass
        except OSError as error:
            where = f"{error.filename}: " if error.filename else ""
            tell(f"stopped device: {where}{error.strerror or error}")
        except (Stopped, MemoryError, KeyboardInterrupt) as why:
            words = {MemoryError: "memory", KeyboardInterrupt: "interrupt"}
            tell(f"stopped {words.get(type(why), why)}")
        return Status.STOPPED

    return run
