#!/usr/bin/env python3
"""Runs the built program, and compares its exit status and what it writes with what is due.

    programs.py                          after rt ci, or rt run in crates/twarp

`stopped counter` is not among the checks: a counter goes to 2^48, and memory for the events of a
run ends long before. Rows of crates/tw_rows show full counters by calls. The worked rows are in
checks/rows.
"""
from __future__ import annotations

import errno
import os
import re
import resource
import shutil
import signal
import tempfile
from pathlib import Path

from common import (
    CASES,
    DISAGREE,
    NO_MEMORY,
    NO_THREAD,
    NOTHING,
    PROGRAM,
    PROGRESS,
    REPORT,
    Ended,
    Tally,
    input_of,
    name_of,
    need_program,
    no_device,
    run,
    run_at_a_terminal,
    run_program,
)
from program_rows import COMMANDS, RUN, SEQ, differs, rows
from refuser import Refuser
from stats import wrong_figures

# A user that has no process of its own.
NOBODY = 54321

# Runs of DISAGREE of which `--stats` is asked for.
STATS = (
    SEQ,
    ["seq", "--stop", "20", "--every", "1"],
    ["run", "--stop", "20", "--log"],
    [*RUN[:-1], "1"],
    RUN,
    [*RUN, "--lazy", "--batch", "1"],
    [*RUN[:-1], "64"],
)

# The bytes that a file of check_short holds.
SHORT = 100

# A case that never comes to rest.
BAD_GADGET = CASES / "bad-gadget.spp"


def check_rows(tally: Tally, folder: Path) -> None:
    for row in rows(folder):
        tally.add(row.name, row.wrong(run_program(row.words, row.source)))


def check_memory(tally: Tally, folder: Path) -> None:
    refuser = Refuser(folder)
    for words in [*COMMANDS, ["--help"], ["seq"]]:
        done = refuser.run(1, [PROGRAM, *words], input_of(words))
        wrong = differs(done, NO_MEMORY) if done else "it asks for no memory"
        tally.add(f"{name_of(words)} without memory", wrong)


def without_threads() -> None:
    """Makes this process one of a user that may start no thread."""
    resource.setrlimit(resource.RLIMIT_NPROC, (1, 1))
    # The limit does not hold for root.
    if os.getuid() == 0:
        os.setgroups([])
        os.setgid(NOBODY)
        os.setuid(NOBODY)


def check_thread(tally: Tally, folder: Path) -> None:
    """A user that may start no thread."""
    program = folder / "twarp"
    shutil.copy(PROGRAM, program)
    program.chmod(0o755)
    folder.chmod(0o755)
    whole = Ended(0, REPORT.read_bytes(), b"")
    chosen, alone = ["run", "--stop", "20", "--log"], [*RUN[:-1], "1"]
    for words, due in (RUN, NO_THREAD), (SEQ, whole), (chosen, whole), (alone, whole):
        done = run([program, *words], DISAGREE, preexec_fn=without_threads)
        tally.add(f"{name_of(words)} without threads", differs(done, due))


def check_output(tally: Tally, folder: Path) -> None:
    """Standard output that takes nothing, or not all."""
    for words in [*COMMANDS, ["--help"], ["seq", "--help"]]:
        check_no_output(tally, words)
    with open("/dev/full", "wb") as full:
        done = run_program(["check"], NOTHING, stdout=full)
    tally.add("a refusal on a full device", differs(done, no_device("output", errno.ENOSPC)))
    check_short(tally, folder / "short")


def check_no_output(tally: Tally, words: list[str]) -> None:
    source, name = input_of(words), name_of(words)
    with open("/dev/full", "wb") as full:
        done = run_program(words, source, stdout=full)
    tally.add(f"{name} on a full device", differs(done, no_device("output", errno.ENOSPC)))
    done = run_program(words, source, stdout=None, preexec_fn=lambda: os.close(1))
    tally.add(f"{name} with no standard output", differs(done, no_device("output", errno.EBADF)))
    left, right = os.pipe()
    os.close(left)
    done = run_program(words, source, stdout=right)
    os.close(right)
    tally.add(f"{name} into a pipe that nobody reads", differs(done, no_device("output", errno.EPIPE)))


def with_short_files() -> None:
    signal.signal(signal.SIGXFSZ, signal.SIG_IGN)
    resource.setrlimit(resource.RLIMIT_FSIZE, (SHORT, SHORT))


def check_short(tally: Tally, file: Path) -> None:
    """A file that holds no more than some bytes."""
    with open(file, "wb") as short:
        done = run_program(SEQ, DISAGREE, stdout=short, preexec_fn=with_short_files)
    wrong = differs(done, no_device("output", errno.EFBIG))
    if file.read_bytes() != REPORT.read_bytes()[:SHORT]:
        wrong = wrong or f"the file does not hold the first {SHORT} bytes of the report"
    tally.add("a device that fails within the report", wrong)


def check_input(tally: Tally) -> None:
    """Standard input that gives nothing."""
    for words in COMMANDS:
        done = run_program(words, Path("/"))
        tally.add(f"{name_of(words)} of a folder", differs(done, no_device("input", errno.EISDIR)))
        done = run_program(words, NOTHING, preexec_fn=lambda: os.close(0))
        tally.add(f"{name_of(words)} with no standard input", differs(done, no_device("input", errno.EBADF)))


def check_stats(tally: Tally, folder: Path) -> None:
    """What is told behind a report, and that nothing is where there is no report."""
    for words in STATS:
        plain, done = run_program(words, DISAGREE), run_program([*words, "--stats"], DISAGREE)
        tally.add(f"{name_of(words)} --stats", wrong_figures(words, plain, done))
    bad = folder / "no-case.spp"
    bad.write_text("spp 1\nnodes 0\nend\n")
    for words in SEQ, RUN:
        plain, done = run_program(words, bad), run_program([*words, "--stats"], bad)
        tally.add(f"{name_of(words)} --stats of no case", differs(done, plain))
        with open("/dev/full", "wb") as full:
            done = run_program([*words, "--stats"], DISAGREE, stdout=full)
        wrong = differs(done, no_device("output", errno.ENOSPC))
        tally.add(f"{name_of(words)} --stats on a full device", wrong)


def check_errors(tally: Tally) -> None:
    """Standard error that takes nothing changes nothing of a run that tells there how far it is."""
    due = Ended(0, REPORT.read_bytes(), b"")
    for words in [*SEQ, "--progress"], [*RUN, "--progress"]:
        name = name_of(words)
        with open("/dev/full", "wb") as full:
            done = run_program(words, DISAGREE, stderr=full)
        tally.add(f"{name} with standard error on a full device", differs(done, due))
        done = run_program(words, DISAGREE, stderr=None, preexec_fn=lambda: os.close(2))
        tally.add(f"{name} with no standard error", differs(done, due))
        left, right = os.pipe()
        os.close(left)
        done = run_program(words, DISAGREE, stderr=right)
        os.close(right)
        tally.add(f"{name} with standard error into a pipe that nobody reads", differs(done, due))


def check_terminal(tally: Tally) -> None:
    """On a terminal a run that takes its time has one line, which is gone in the end, and says the same on standard output."""
    line = PROGRESS.pattern.removesuffix(rb"\n")
    anew = re.compile(rb"(?:\r" + line + rb"\x1b\[K)+\r\x1b\[K")
    # Eighteen million events, which take a second or two.
    for words in ["seq", "--stop", "2000000"], ["run", "--stop", "2000000"]:
        done, written = run_at_a_terminal([PROGRAM, *words], BAD_GADGET)
        wrong = differs(done, run_program(words, BAD_GADGET))
        tally.add(f"{name_of(words)} at a terminal", wrong or (None if anew.fullmatch(written) else f"it wrote {written!r}"))
    for words in COMMANDS:
        done, written = run_at_a_terminal([PROGRAM, *words], input_of(words))
        wrong = differs(done, run_program(words, input_of(words)))
        is_told = words[0] in ("seq", "run") and anew.fullmatch(written)
        tally.add(f"{name_of(words)} at a terminal", wrong or (f"it wrote {written!r}" if written and not is_told else None))


def check_version(tally: Tally) -> None:
    for word in "--version", "-V":
        done = run_program([word], NOTHING)
        is_named = re.fullmatch(rb"twarp \d+\.\d+\.\d+\n", done.out)
        is_right = is_named and (done.status, done.err) == (0, b"")
        tally.add(name_of([word]), None if is_right else f"it ended with {done}")


def main() -> None:
    need_program()
    tally = Tally()
    with tempfile.TemporaryDirectory() as name:
        folder = Path(name)
        check_rows(tally, folder)
        check_memory(tally, folder)
        check_thread(tally, folder)
        check_output(tally, folder)
        check_stats(tally, folder)
    check_input(tally)
    check_errors(tally)
    check_terminal(tally)
    check_version(tally)
    tally.end()


if __name__ == "__main__":
    main()
