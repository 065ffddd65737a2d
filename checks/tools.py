#!/usr/bin/env python3
"""Tests the programs in tools/ and the commands of docs/TUTORIAL.md, on the built program.

    checks/tools.py [--program FILE] [--policy FILE] [--phold FILE] [WORD ..]
                                              once `rt ci`, or `./twarp --build`, has built it
    checks/tools.py --no-program [WORD ..]    leaves out what needs the programs

--policy names twarp-policy, and --phold twarp-phold; what needs one is left out where it is not there. WORD picks the
tests whose names have it. The last line is 'N passed, M failed'; what needs Graphviz or Chromium is left out where that
is not installed, and a line says so. The inputs are in checks/inputs.
"""
from __future__ import annotations

import argparse
import unittest
from pathlib import Path

import tools_bench
import tools_cases
import tools_cluster
import tools_common
import tools_drawing
import tools_every
import tools_hostile
import tools_import
import tools_install
import tools_package
import tools_page
import tools_phold
import tools_policy
import tools_relationships
import tools_sweep
import tools_tutorial
import tools_versions
from common import need, run_tests

MODULES = (
    tools_every,
    tools_relationships,
    tools_import,
    tools_hostile,
    tools_drawing,
    tools_page,
    tools_sweep,
    tools_cluster,
    tools_package,
    tools_cases,
    tools_versions,
    tools_policy,
    tools_phold,
    tools_tutorial,
    tools_install,
    tools_bench,
)


def all_tests(words: list[str]) -> unittest.TestSuite:
    loader = unittest.defaultTestLoader
    loaded = [group for module in MODULES for group in loader.loadTestsFromModule(module)]
    tests = [test for group in loaded for test in group]
    chosen = [test for test in tests if not words or any(word in test.id() for word in words)]
    return unittest.TestSuite(chosen)


def main() -> None:
    parser = argparse.ArgumentParser(
        description=__doc__, formatter_class=argparse.RawDescriptionHelpFormatter
    )
    parser.add_argument("words", metavar="WORD", nargs="*")
    parser.add_argument("--program", type=Path, default=tools_common.program)
    parser.add_argument("--policy", type=Path, default=tools_common.policy)
    parser.add_argument("--phold", type=Path, default=tools_common.phold)
    parser.add_argument("--no-program", dest="program", action="store_const", const=None)
    line = parser.parse_args()
    tools_common.program = line.program and line.program.absolute()
    tools_common.policy = line.program and line.policy and line.policy.absolute()
    tools_common.phold = line.program and line.phold and line.phold.absolute()
    if line.program:
        need(line.program, "./twarp --build")
    if tools_common.policy:
        need(tools_common.policy, "./twarp-policy --build")
    if tools_common.phold:
        need(tools_common.phold, "./twarp-phold --build")
    run_tests(all_tests(line.words))


if __name__ == "__main__":
    main()
