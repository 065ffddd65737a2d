"""What the checks share: where things are, how commands are run, and a count of what passes."""
from __future__ import annotations

import contextlib
import errno
import os
import pty
import re
import subprocess
import sys
import unittest
from collections.abc import Sequence
from pathlib import Path
from typing import Any, NamedTuple, NoReturn

TOP = Path(__file__).resolve().parent.parent
CASES = TOP / "cases"
INPUTS = TOP / "checks/inputs"
NOTHING = Path(os.devnull)
DISAGREE = CASES / "disagree.spp"
STRAGGLER = CASES / "straggler.replay"
GOOD_GADGET = CASES / "good-gadget.spp"
PROGRAM = TOP / "crates/twarp/out/twarp"
POLICY = TOP / "crates/twarp_policy/out/twarp_policy"
PHOLD = TOP / "crates/twarp_phold/out/twarp_phold"
REPORT = TOP / "crates/twarp/stdout"
REPLAYED = INPUTS / "straggler-replay.txt"
ROWS = (
    "tw_rows",
    "tw_machine_rows",
    "tw_program_rows",
)

# Whoever imports this module first finds those of bench/ and tools/, and the package, too.
sys.path += [str(TOP / folder) for folder in ("bench", "tools", "python")]

# Seconds after which a run is ended, and counts as failed.
LIMIT = 300

Word = str | bytes | Path


class Ended(NamedTuple):
    """How a command ended, and what it wrote into pipes; the status is None where it did not."""

    status: int | None
    out: bytes
    err: bytes


NO_MEMORY = Ended(2, b"", b"stopped memory\n")
NO_THREAD = Ended(2, b"", b"stopped thread\n")

# What a person is told beside the answer that refuses an input.
ADVICE = re.compile(
    rb'line (?P<line>\d+) is (?:"[ -~]*"(?:\.\.)?: [ -~]+|not there: [ -~]+)\n|there is no router \d+: [ -~]+\n'
)
REFUSED = re.compile(rb"refused (?:line (?P<line>\d+)|option) .*\n")


def without_advice(done: Ended) -> Ended:
    """How a command ended, without what a person is told of a refused input, which has to be told of the same line."""
    refused, advice = REFUSED.fullmatch(done.out), ADVICE.fullmatch(done.err)
    is_advised = refused and advice and refused["line"] == advice["line"]
    return done._replace(err=b"") if done.status == 1 and is_advised else done


# What a run tells of how far it is: its time, its stop, and how many events it has handled.
PROGRESS = re.compile(rb"time (\d+) of (\d+): (\d+) events, \d+ a second\n")


def without_progress(done: Ended) -> Ended:
    """How a command ended, without the lines that tell how far a run is."""
    return done._replace(err=PROGRESS.sub(b"", done.err))


def no_device(stream: str, number: int) -> Ended:
    """How a command ends whose standard input or output met this error of the system, and where nothing was written. A
    pipe that nobody reads is no matter for a person."""
    told = f"stopped device: standard {stream}: {os.strerror(number)} (os error {number})\n"
    return Ended(2, b"", b"" if number == errno.EPIPE else told.encode())



def run(words: Sequence[Word], stdin: Path, **how: Any) -> Ended:
    """How a command ends with this file, or folder, as its standard input."""
    source = os.open(stdin, os.O_RDONLY)
    try:
        how = {"stdout": subprocess.PIPE, "stderr": subprocess.PIPE} | how
        done = subprocess.run(words, stdin=source, timeout=LIMIT, check=False, **how)
    except subprocess.TimeoutExpired:
        return Ended(None, b"", b"")
    finally:
        os.close(source)
    return Ended(done.returncode, done.stdout or b"", done.stderr or b"")


def run_program(words: Sequence[Word], stdin: Path, **how: Any) -> Ended:
    return run([PROGRAM, *words], stdin, **how)


def run_at_a_terminal(words: Sequence[Word], stdin: Path) -> tuple[Ended, bytes]:
    """How a command ends whose standard error is a terminal, and what it writes there."""
    terminal, other_end = pty.openpty()
    done = run(words, stdin, stderr=other_end)
    os.set_blocking(terminal, False)
    written = b""
    # What is written there waits; behind the last of it reading says that nothing does.
    with contextlib.suppress(OSError):
        while more := os.read(terminal, 4096):
            written += more
    os.close(other_end)
    os.close(terminal)
    return done, written


def input_of(words: Sequence[str]) -> Path:
    """The input that a command is shown: a replay text for `replay`, and else a case."""
    return STRAGGLER if words[:1] == ["replay"] else DISAGREE


def name_of(words: Sequence[Word]) -> str:
    """What a run of the program with these words is called."""
    return f"twarp {' '.join(map(str, words))}"


def name_of_policy(words: Sequence[Word], case: Path) -> str:
    """What a run of twarp-policy with these words on a case is called."""
    return f"twarp-policy {' '.join(map(str, words))} < {case.name}"


def tests_of(crate: str) -> Path:
    """The built tests of a crate."""
    return TOP / f"crates/{crate}/out/{crate}_tests"


def need(built: Path, words: str) -> None:
    if not built.exists():
        sys.exit(f"{built} is not there: it is made by {words}, and by rt ci")


def need_program() -> None:
    need(PROGRAM, "rt run in crates/twarp")


class Tally:
    """Counts checks, and prints those that fail."""

    def __init__(self) -> None:
        self.passed = self.failed = 0

    def add(self, name: str, wrong: str | None) -> None:
        """A check that passed where nothing is wrong."""
        if not wrong:
            self.passed += 1
            return
        self.failed += 1
        print(f"FAILED {name}: {wrong}", flush=True)

    def end(self) -> NoReturn:
        print(f"{self.passed} passed, {self.failed} failed")
        sys.exit(self.failed > 0)


def test_name(test: unittest.TestCase) -> str:
    """The name of a test, which its subtests have too."""
    return test.id().split(" ")[0]


def run_tests(tests: unittest.TestSuite) -> NoReturn:
    """Runs tests, says which are left out, and ends as a tally does. One at least has to pass."""
    result = unittest.TextTestRunner(stream=sys.stdout, verbosity=0).run(tests)
    bad = {test_name(test) for test, _ in result.failures + result.errors}
    skipped = {test_name(test): why for test, why in result.skipped}
    for name, why in skipped.items():
        print(f"left out: {name}: {why}")
    passed = result.testsRun - len({*bad, *skipped})
    print(f"{passed} passed, {len(bad)} failed")
    sys.exit(bool(bad or not passed))
