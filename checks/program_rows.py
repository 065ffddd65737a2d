"""The rows of the program that need an input and a command line alone, and what is due in each."""
from __future__ import annotations

import re
from collections import Counter
from collections.abc import Callable, Iterator, Sequence
from functools import partial
from pathlib import Path
from typing import NamedTuple

from common import (
    CASES,
    DISAGREE,
    NOTHING,
    PROGRESS,
    REPLAYED,
    REPORT,
    STRAGGLER,
    Ended,
    Word,
    name_of,
    without_advice,
    without_progress,
)
from rows import all_rows

SEQ = ["seq", "--stop", "20", "--log"]
RUN = ["run", "--stop", "20", "--log", "--workers", "2"]
TRAIL = ["trail", "--router", "1", "--stop", "20", "--keep", "0"]
REPLAY = ["replay", "--stop", "20", "--workers", "2"]
COMMANDS = [["check"], SEQ, RUN, TRAIL, REPLAY, ["upgrade"]]

# What a line of the help begins with, for each command.
HELP = {
    "": [
        "Usage: twarp ",
        "  check ",
        "  seq ",
        "  run ",
        "  trail ",
        "  replay ",
        "  upgrade ",
        "Exit status:",
        "  0  ",
        "  1  ",
        "  2  ",
        "  3  ",
    ],
    "check": ["Usage: twarp check", "Exit status:"],
    "seq": ["Usage: twarp seq ", "      --stop <TICKS>", "      --log", "      --progress", "      --stats", "Exit status:"],
    "run": [
        "Usage: twarp run ",
        "      --stop <TICKS>",
        "      --every <TICKS>",
        "      --log",
        "      --workers <COUNT>",
        "      --batch <COUNT>",
        "      --lazy",
        "      --blocks",
        "      --rotate",
        "      --progress",
        "      --stats",
        "Exit status:",
    ],
    "trail": [
        "Usage: twarp trail ",
        "      --router <NUMBER>",
        "      --stop <TICKS>",
        "      --keep <COUNT>",
        "Exit status:",
    ],
    "replay": [
        "Usage: twarp replay ",
        "      --stop <TICKS>",
        "      --workers <COUNT>",
        "      --lazy",
        "Exit status:",
    ],
    "upgrade": ["Usage: twarp upgrade", "Exit status:"],
}

# What the help of a command says somewhere: the ranges of its numbers, and what they are where no
# number is given.
RANGES = {
    "seq": ["1 to 1000000000"],
    "run": ["1 to 1000000000", "1 to 64, or else", "1 to 4096, or else 64"],
    "trail": ["0 to 1023", "1 to 1000000000", "0 to 1000000000"],
    "replay": ["1 to 1000000000", "1 to 64"],
}

# What is told where a word of a command line seems to name the input.
TIP = b"tip: the input comes from standard input, as in: twarp seq --stop 20 < case.spp\n"

# How often the origin handles its start and undoes it, so that many messages are on their way.
STARTS = 400

# The beginning of a case, of six lines, in each version.
TWO_LINKS = "spp 1\nnodes 3\nlink 0 1 3\nlink 1 2 3\npath 1 1 0\npath 2 2 1 0\n"
TWO_WAYS = "spp 2\nnodes 3\nlink 0 1 3 4\nlink 1 2 3 3\npath 1 1 0\npath 2 2 1 0\n"

# A text, and the line that each command answers to it.
REFUSED = {
    "spp 1\nnodes 3\nlink 1 1 2\nend\n": "line 3 I2 SelfLink",
    "spp 1\nnodes 3\nlink 0 1 1\nlink 1 2 1\npath 1 1 2 1 0\nend\n": "line 5 I7 PathRepeats",
    "spp 1\nnodes 2\nlink 0 1 0\nend\n": "line 3 I4 Delay",
    "spp 1\nnodes 007\nend\n": "line 2 X4 Number",
    "spp 1\nnodes 1\n": "line 3 X6 End",
    "spp 1\nnodes 2\nlink 1 1 0\nend\n": "line 3 I2 SelfLink",
    "": "line 1 X6 End",
    "spp 1\nnodes 3\nlink 0": "line 3 X3 Word",
    "spp 1\nnodes 3\nlink 0 1 3": "line 3 X6 End",
    "spp 1\r\n": "line 1 X1 Byte",
    "spp 1\nlink 0 1 1\n": "line 2 X5 Order",
    "spp 1\nnodes 9999999999\n": "line 2 I1 Range",
    "spp 1\nnodes 99999999999\n": "line 2 X4 Number",
    "spp 1\nnodes 2\nfail 1000000001 0 1\n": "line 3 I11 NoSuchLink",
    TWO_LINKS + "fail 4 0 2\n": "line 7 I11 NoSuchLink",
    TWO_LINKS + "swap 4 2 1 2\n": "line 7 I12 NoSuchPlace",
}

# Texts refused for what differs between the two versions, and the line that the readers of cases and
# of replays answer.
REFUSED_BY_VERSION = {
    "spp 3\nnodes 1\nend\n": "line 1 X2 Header",
    "spp\nnodes 1\nend\n": "line 1 X2 Header",
    "spp 2 \nnodes 1\nend\n": "line 1 X2 Header",
    "spp 1\nnodes 2\nlink 0 1 3 3\nend\n": "line 3 X3 Word",
    TWO_LINKS + "forbid 4 2 1\nend\n": "line 7 X3 Word",
    TWO_LINKS + "allow 4 2 1\nend\n": "line 7 X3 Word",
    "spp 2\nnodes 2\nlink 0 1 3\nend\n": "line 3 X3 Word",
    "spp 2\nnodes 2\nlink 0 1 3 3 3\nend\n": "line 3 X3 Word",
    "spp 2\nnodes 2\nlink 0 1 3 x\nend\n": "line 3 X4 Number",
    "spp 2\nnodes 2\nlink 0 1 0 3\nend\n": "line 3 I4 Delay",
    "spp 2\nnodes 2\nlink 0 1 3 0\nend\n": "line 3 I4 Delay",
    "spp 2\nnodes 2\nlink 0 1 1000001 3\nend\n": "line 3 I4 Delay",
    "spp 2\nnodes 2\nlink 0 1 3 1000001\nend\n": "line 3 I4 Delay",
    TWO_WAYS + "forbid 4 2\nend\n": "line 7 X3 Word",
    TWO_WAYS + "forbid 4 2 1 1\nend\n": "line 7 X3 Word",
    TWO_WAYS + "allow 4 2\nend\n": "line 7 X3 Word",
    TWO_WAYS + "allow 4 2 1 1\nend\n": "line 7 X3 Word",
    TWO_WAYS + "forbid 4 3 1\nend\n": "line 7 I1 Range",
    TWO_WAYS + "allow 4 3 1\nend\n": "line 7 I1 Range",
    TWO_WAYS + "forbid 4 0 1\nend\n": "line 7 I12 NoSuchPlace",
    TWO_WAYS + "allow 4 0 1\nend\n": "line 7 I12 NoSuchPlace",
    TWO_WAYS + "forbid 4 2 0\nend\n": "line 7 I12 NoSuchPlace",
    TWO_WAYS + "forbid 4 2 2\nend\n": "line 7 I12 NoSuchPlace",
    TWO_WAYS + "allow 4 2 2\nend\n": "line 7 I12 NoSuchPlace",
    TWO_WAYS + "forbid 1000000001 2 2\nend\n": "line 7 I12 NoSuchPlace",
    TWO_WAYS + "forbid 1000000001 2 1\nend\n": "line 7 I13 Time",
    TWO_WAYS + "allow 1000000001 2 1\nend\n": "line 7 I13 Time",
    TWO_WAYS + "forbid 4 2 1\npath 1 1 0\nend\n": "line 8 X5 Order",
}

# A text that goes on behind a case, and the line that each command whose input is a case answers.
REFUSED_BEHIND_A_CASE = {
    "spp 1\nnodes 1\nend\nend\n": "line 4 X6 End",
    "spp 1\nnodes 1\nend\n\n": "line 4 X3 Word",
    "spp 1\nnodes 1\nend\nnodes 1\n": "line 4 X5 Order",
}

# Steps behind DISAGREE that are broken off, and the line that `replay` answers.
REFUSED_STEPS = {
    "": "line 11 X6 End",
    "handle 0\ndeliver 2\n": "line 13 X6 End",
    "handle 0\ndeliver 2": "line 12 X6 End",
    "handle 0\nend": "line 12 X6 End",
    "handle 0\ndeliver": "line 12 X3 Word",
}

# The beginning of a text whose last line is refused, and what a person has to be told of that line.
ADVISED = {
    b"spp 1\r\n": "CR LF",
    b"\xef\xbb\xbfspp 1\n": "byte order mark",
    b"spp 1\nnodes\t3\n": "tab",
    b"spp 1\nnodes 3\nlink 0 1 1.5\n": "whole",
    b"spp 1\nnodes 3 # three\n": "comments",
    b"spp 1\nNodes 3\n": "small letters",
    b"spp 1\nnodes 3\nlink 0 1\n": "link A B DELAY",
    b"spp 1\nnodes 3\nlnk 0 1 1\n": "begins with nodes, link, path",
    b"spp 1\nnodes 3\nlink 1 1 2\n": '"link 1 1 2"',
    b"spp 1\n" + b"nodes 3 " * 20: '"' + "nodes 3 " * 10 + '"..',
}

BAD_LINES: dict[str, Sequence[Word]] = {
    "no command": [],
    "an unknown command": ["sequence"],
    "an option in place of a command": ["--stop", "20"],
    "an unknown option": ["seq", "--stop", "20", "--loud"],
    "another command's option": ["check", "--stop", "20"],
    "a word too many": ["check", "case"],
    "an option of a command that has none": ["upgrade", "--stop", "20"],
    "an option given twice": ["seq", "--stop", "20", "--stop", "20"],
    "an option without its number": ["seq", "--stop"],
    "no stop": ["seq", "--log"],
    "checkpoints at no distance": ["seq", "--stop", "20", "--every", "0"],
    "no router": ["trail", "--stop", "20", "--keep", "0"],
    "no stop of a trail": ["trail", "--router", "1", "--keep", "0"],
    "no keep": ["trail", "--router", "1", "--stop", "20"],
    "a stop of 0": ["seq", "--stop", "0"],
    "a stop past its limit": ["seq", "--stop", "1000000001"],
    "a stop below 0": ["seq", "--stop", "-1"],
    "a stop that no u64 holds": ["seq", "--stop", "18446744073709551616"],
    "a stop that is no number": ["seq", "--stop", "soon"],
    "a router past its limit": ["trail", "--router", "1024", "--stop", "20", "--keep", "0"],
    "a keep past its limit": ["trail", "--router", "1", "--stop", "20", "--keep", "1000000001"],
    "no stop of a replay": ["replay", "--workers", "2"],
    "a stop of 0 of a replay": ["replay", "--stop", "0"],
    "no worker": ["replay", "--stop", "20", "--workers", "0"],
    "a worker too many": ["replay", "--stop", "20", "--workers", "65"],
    "a replay that is to be logged": ["replay", "--stop", "20", "--log"],
    "no stop of a run": ["run", "--workers", "2"],
    "a run by no worker": ["run", "--stop", "20", "--workers", "0"],
    "a run by a worker too many": ["run", "--stop", "20", "--workers", "65"],
    "a batch of 0": ["run", "--stop", "20", "--batch", "0"],
    "a batch past its limit": ["run", "--stop", "20", "--batch", "4097"],
    "a batch of one thread": ["seq", "--stop", "20", "--batch", "64"],
    "figures of a replay": ["replay", "--stop", "20", "--stats"],
    "figures by a number": ["seq", "--stop", "20", "--stats", "1"],
    "the progress of a trail": ["trail", "--router", "1", "--stop", "20", "--keep", "0", "--progress"],
    "the progress of a replay": ["replay", "--stop", "20", "--progress"],
    "a word that is no UTF-8": ["seq", "--stop", b"\xff"],
}


def differs(done: Ended, due: Ended) -> str | None:
    """What is wrong with how a command ended, if anything."""
    return None if done == due else f"it ended with {done}, and {due} is due"


def stated(text: str) -> bytes:
    """The line of `twarp check` for a case, by counting its lines."""
    lines = [line.split() for line in text.splitlines()]
    of_kind = Counter(line[0] for line in lines)
    scenes = sum(of_kind[word] for word in ("fail", "restore", "swap", "forbid", "allow"))
    return (
        f"accepted nodes {lines[1][1]} links {of_kind['link']} paths {of_kind['path']} "
        f"scenario {scenes}\n"
    ).encode()


class Row(NamedTuple):
    """A run, and what judges its end: it gives what is wrong, if anything."""

    name: str
    words: Sequence[Word]
    source: Path
    wrong: Callable[[Ended], str | None]


def row(name: str, words: Sequence[Word], source: Path, status: int, out: bytes) -> Row:
    """A row of which nothing is written on standard error, but for people where the input is refused."""
    due = Ended(status, out, b"")
    return Row(name, words, source, lambda done: differs(without_advice(done), due))


def worked() -> Iterator[Row]:
    for due in all_rows():
        yield Row(f"{name_of(due.words)} of {due.source.name}", due.words, due.source, due.wrong)


def answers() -> Iterator[Row]:
    report, replayed = REPORT.read_bytes(), REPLAYED.read_bytes()
    for case in sorted(CASES.glob("*.spp")):
        line = stated(case.read_text(encoding="ascii"))
        yield row(f"check of {case.name}", ["check"], case, 0, line)
    yield row(name_of(SEQ), SEQ, DISAGREE, 0, report)
    for more in (
        [],
        ["--workers", "1"],
        ["--workers", "3", "--batch", "1"],
        ["--workers", "64", "--batch", "4096"],
    ):
        words = ["run", "--stop", "20", "--log", *more]
        yield row(name_of(words), words, DISAGREE, 0, report)
    for count in "1", "2", "64":
        words = ["replay", "--stop", "20", "--workers", count]
        yield row(name_of(words), words, STRAGGLER, 0, replayed)


def wrong_progress(due: Ended, stop: int, done: Ended) -> str | None:
    """What is wrong with how a run ended that tells how far it is, beside the report that is due, if anything: its last
    line has to tell of the stop, and of the events that the routers of the report have handled."""
    if (done.status, done.out) != (due.status, due.out):
        return f"it ended with {done}, and {due} is due"
    told = [tuple(map(int, found)) for found in PROGRESS.findall(done.err)]
    handled = sum(map(int, re.findall(rb"^router .* handled (\d+) ", due.out, re.M)))
    is_told = not without_progress(done).err and told == sorted(told) and told[-1:] == [(stop, stop, handled)]
    return None if is_told else f"it told {done.err!r}, and {handled} events at time {stop} are due last"


def progresses() -> Iterator[Row]:
    """Runs that are asked to tell how far they are; whose input is refused has nothing to tell."""
    report = Ended(0, REPORT.read_bytes(), b"")
    for words in (
        SEQ,
        RUN,
        ["run", "--stop", "20", "--log"],
        ["run", "--stop", "20", "--log", "--workers", "1"],
        ["run", "--stop", "20", "--log", "--workers", "3", "--batch", "1", "--blocks", "--rotate", "--lazy"],
    ):
        words = [*words, "--progress"]
        yield Row(name_of(words), words, DISAGREE, partial(wrong_progress, report, 20))
        yield row(f"{name_of(words)} of nothing", words, NOTHING, 1, b"refused line 1 X6 End\n")
    for due in all_rows():
        if "--every" in due.words and due.source == CASES / "disagree-equal-delays.spp" and "--lazy" not in due.words:
            words, stop = [*due.words, "--progress"], int(due.words[due.words.index("--stop") + 1])
            end = Ended(due.status, due.written.encode(), b"")
            yield Row(name_of(words), words, due.source, partial(wrong_progress, end, stop))


def refusals(folder: Path) -> Iterator[Row]:
    """Texts that are refused. One of them is put into the folder."""
    bad = folder / "bad.spp"
    bad.write_text("spp 1\nnodes 0\nend\n")
    no_such = ["trail", "--router", "3", "--stop", "20", "--keep", "0"]
    for words in [*COMMANDS, no_such]:
        yield row(f"{name_of(words)} of no case", words, bad, 1, b"refused line 2 I1 Range\n")
        yield row(f"{name_of(words)} of nothing", words, NOTHING, 1, b"refused line 1 X6 End\n")
    lines = len(DISAGREE.read_text().splitlines())
    refused = f"refused line {lines + 1} X6 End\n".encode()
    yield row("a replay without its steps", REPLAY, DISAGREE, 1, refused)


def refused_texts(folder: Path) -> Iterator[Row]:
    """The texts of the tables, each in a file in the folder, and every command that refuses it."""
    of_a_case = [words for words in COMMANDS if words != REPLAY]
    replays = {DISAGREE.read_text() + steps: line for steps, line in REFUSED_STEPS.items()}
    tables = (
        (REFUSED, COMMANDS),
        (REFUSED_BY_VERSION, [["check"], REPLAY]),
        (REFUSED_BEHIND_A_CASE, of_a_case),
        (replays, [REPLAY]),
    )
    for number, (texts, commands) in enumerate(tables):
        for place, (text, line) in enumerate(texts.items()):
            file = folder / f"refused-{number}-{place}"
            file.write_bytes(text.encode())
            for words in commands:
                refused = f"refused {line}\n".encode()
                yield row(f"{name_of(words)} of {text!r}", words, file, 1, refused)


def wrong_advice(words: str, done: Ended) -> str | None:
    """What is wrong with what a person is told of a refused text, if anything."""
    is_advised = done.status == 1 and not without_advice(done).err and words.encode() in done.err
    return None if is_advised else f"it ended with {done}, and {words!r} is to be told"


def advice(folder: Path) -> Iterator[Row]:
    """Refused texts of which a person is told what was expected, each in a file in the folder."""
    for number, (text, words) in enumerate(ADVISED.items()):
        file = folder / f"advised-{number}"
        file.write_bytes(text)
        yield Row(f"advice on {text!r}", ["check"], file, partial(wrong_advice, words))


def all_come(place_of: Callable[[int], int]) -> tuple[str, str]:
    """Steps behind DISAGREE, and what `replay` answers: the origin handles its start and undoes it again and again, and
    of what it has sent and taken back one message after another comes, which are all. `place_of` tells its place among
    those that are left."""
    sent = 4 * STARTS
    steps = ["handle 0", "undo 0"] * STARTS
    steps += [f"deliver {place_of(left)}" for left in range(sent, 0, -1)]
    answers = [f"step {number} ok" for number, _ in enumerate(steps, start=1)]
    answers.append(f"step {len(steps) + 1} refused K1 NoMessage")
    routers = [f"router {number} sent 0 handled 0 dropped 0 changed 0 rib ()" for number in range(3)]
    due = ["spp-replay 1", *answers, "bound 0", "flight 0 pending 1 kept 0 ahead 0", *routers]
    return "\n".join([*steps, "deliver 1", "end", ""]), "\n".join([*due, ""])


def many_messages(folder: Path) -> Iterator[Row]:
    """Many messages come, each time the first, the middle one or the last. The replays are put into the folder."""
    places: dict[str, Callable[[int], int]] = {
        "first": lambda left: 1,
        "middle": lambda left: left // 2 + 1,
        "last": lambda left: left,
    }
    for name, place_of in places.items():
        steps, due = all_come(place_of)
        file = folder / f"many-{name}.replay"
        file.write_text(DISAGREE.read_text() + steps)
        yield row(f"{name_of(REPLAY)}: the {name} of many messages", REPLAY, file, 0, due.encode())


def wrong_beginning(text: bytes, done: Ended) -> str | None:
    """What is wrong with how this beginning of a case is refused, if anything."""
    refused = re.fullmatch(rb"refused line (\d+) [A-Z]\d+ \w+\n", done.out)
    is_near = refused is not None and int(refused[1]) <= text.count(b"\n") + 1
    is_refused = is_near and (done.status, without_advice(done).err) == (1, b"")
    return None if is_refused else f"it ended with {done}"


def beginnings(folder: Path) -> Iterator[Row]:
    """Every beginning of a case, each in a file in the folder: none is refused behind the line that it ends in."""
    case = CASES / "failure-and-repair.spp"
    whole = case.read_bytes()
    for size in range(len(whole)):
        text, file = whole[:size], folder / f"beginning-{size}"
        file.write_bytes(text)
        name = f"check of the first {size} bytes of {case.name}"
        yield Row(name, ["check"], file, partial(wrong_beginning, text))


def wrong_help(command: str, done: Ended) -> str | None:
    if (done.status, done.err) != (0, b""):
        return f"it ended with {done}"
    said = done.out.decode()
    lacks = [head for head in HELP[command] if not re.search(f"^{re.escape(head)}", said, re.M)]
    lacks += [words for words in RANGES.get(command, []) if words not in said]
    return f"it does not say {lacks}" if lacks else None


def helps() -> Iterator[Row]:
    for command in HELP:
        own = [command] * bool(command)
        for words in [*own, "--help"], [*own, "-h"], ["help", *own]:
            yield Row(name_of(words), words, NOTHING, partial(wrong_help, command))


def wrong_bad_line(tip: bytes, done: Ended) -> str | None:
    is_told = done.err.startswith(b"error: ") and done.err.endswith(b"\n" + tip)
    return None if is_told and done[:2] == (3, b"") else f"it ended with {done}"


def bad_lines() -> Iterator[Row]:
    for name, words in BAD_LINES.items():
        yield Row(name, words, DISAGREE, partial(wrong_bad_line, b""))
    for words in ["seq", "--stop", "20", "case.spp"], ["check", "-"], ["check", "cases/disagree.spp"]:
        yield Row(name_of(words), words, DISAGREE, partial(wrong_bad_line, TIP))


def rows(folder: Path) -> Iterator[Row]:
    """All rows, whose own inputs are put into the folder."""
    yield from answers()
    yield from worked()
    yield from progresses()
    yield from refusals(folder)
    yield from refused_texts(folder)
    yield from advice(folder)
    yield from beginnings(folder)
    yield from many_messages(folder)
    yield from helps()
    yield from bad_lines()
