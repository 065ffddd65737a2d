"""What the tests of the tools share: how a tool or the program is run, and how it should end."""
from __future__ import annotations

import os
import resource
import shutil
import subprocess
import sys
import unittest
from dataclasses import dataclass
from pathlib import Path
from typing import Any
from xml.etree import ElementTree

from common import CASES, INPUTS, PHOLD, POLICY, PROGRAM, TOP

HAS_GRAPHVIZ = shutil.which("dot") is not None
needs_graphviz = unittest.skipUnless(HAS_GRAPHVIZ, "Graphviz is not installed")

# The built programs, where the command line of the tests names no others; None where what needs
# them is left out.
program: Path | None = PROGRAM
policy: Path | None = POLICY if POLICY.exists() else None
phold: Path | None = PHOLD if PHOLD.exists() else None
# Tests that do not name twarp-policy are the same where it is built.
os.environ["TWARP_POLICY"] = os.devnull


@dataclass(frozen=True)
class Done:
    """How a command ended, and what it wrote."""

    status: int
    out: str
    err: str


def run(*words: object, stdin: str | bytes = "", **how: Any) -> Done:
    given = stdin.encode() if isinstance(stdin, str) else stdin
    done = subprocess.run(
        [str(word) for word in words], input=given, capture_output=True, check=False, **how
    )
    return Done(done.returncode, done.stdout.decode(), done.stderr.decode())


DEBIAN_PYTHON = "/usr/bin/python3"


def python_with(*modules: str) -> str | None:
    """The Python that runs this, or else Debian's, where it has these modules."""
    asked = f"import importlib.util as u, sys; sys.exit(not all(map(u.find_spec, {modules})))"
    for python in sys.executable, DEBIAN_PYTHON:
        if shutil.which(python) and run(python, "-c", asked).status == 0:
            return python
    return None


def tool(name: str, *words: object, stdin: str | bytes = "") -> Done:
    """Runs a tool without site packages (-S), since it needs the standard library alone."""
    return run(sys.executable, "-S", TOP / "tools" / name, *words, stdin=stdin)


NETWORK_PYTHON = python_with("networkx", "defusedxml")
needs_networkx = unittest.skipUnless(
    NETWORK_PYTHON, "python3-networkx and python3-defusedxml are not installed"
)


def import_tool(*words: object, stdin: str | bytes = "") -> Done:
    """Runs the tool import, which alone needs two packages."""
    return run(NETWORK_PYTHON, TOP / "tools/import", *words, stdin=stdin)


def run_within(
    seconds: int, mebibytes: int, *words: object, stdin: str | bytes = b"", **how: Any
) -> Done:
    """Runs a command with so many seconds of processor time and so much memory at most."""

    def limit() -> None:
        resource.setrlimit(resource.RLIMIT_CPU, (seconds, seconds))
        resource.setrlimit(resource.RLIMIT_AS, (mebibytes << 20, mebibytes << 20))

    return run(*words, stdin=stdin, preexec_fn=limit, **how)


def need_program() -> Path:
    if program is None:
        raise unittest.SkipTest("it needs the program")
    return program


def need_policy() -> Path:
    if policy is None:
        raise unittest.SkipTest("it needs the program twarp-policy")
    return policy


def need_phold() -> Path:
    if phold is None:
        raise unittest.SkipTest("it needs the program twarp-phold")
    return phold


def twarp(*words: object, stdin: str) -> str:
    return run(need_program(), *words, stdin=stdin).out


def read(name: str) -> str:
    return (INPUTS / name).read_text()


def report_of(name: str, stop: int, *words: object) -> str:
    return twarp("seq", "--stop", stop, "--log", *words, stdin=case_of(name))


def case_of(name: str) -> str:
    return (CASES / f"{name}.spp").read_text()


def case_of_a_late_failure() -> str:
    """The case failure-and-repair, with its failure and its repair after long silences."""
    case = case_of("failure-and-repair").replace("fail 4", "fail 1000000")
    return case.replace("restore 5", "restore 2000000")


def texts(svg: str) -> str:
    """All words of a picture, tooltips among them, a line each."""
    return "\n".join(
        element.text for element in ElementTree.fromstring(svg).iter() if element.text
    )


class ToolTest(unittest.TestCase):
    def assert_done(self, done: Done) -> str:
        """Sees that a command ended well, and gives what it wrote on standard output."""
        self.assertEqual((done.status, done.err), (0, ""))
        return done.out

    def assert_makes_a_case(self, done: Done) -> Done:
        """Sees that a command ended well, and that twarp accepts the case that it wrote."""
        self.assertEqual(done.status, 0, done.err)
        self.assertRegex(twarp("check", stdin=done.out), r"^accepted nodes")
        return done

    def assert_refused(self, done: Done, why: str) -> None:
        """Sees that a command refused its input for this reason, and wrote nothing else."""
        self.assertEqual((done.status, done.out), (1, ""), done.err)
        self.assertIn(why, done.err)
