"""Tests of sweeps on a Dask cluster: a scheduler and two workers on 127.0.0.1, which the tests begin and end."""
from __future__ import annotations

import json
import os
import subprocess
import tempfile
import time
import unittest
from collections.abc import Iterator
from contextlib import ExitStack, contextmanager
from pathlib import Path
from unittest import mock

from tools_common import CASES, TOP, Done, ToolTest, need_program, python_with, run

PYTHON = python_with("distributed")
# How long, in seconds, a scheduler and its workers may take to begin.
SECONDS = 300
WORKERS = 2


@contextmanager
def begun(module: str, *words: object, folder: Path) -> Iterator[subprocess.Popen[bytes]]:
    """A command of Dask, which is ended in the end."""
    command = [PYTHON, "-m", f"distributed.cli.{module}", "--host", "127.0.0.1", "--no-dashboard"]
    with open(folder / "log", "ab") as log:
        child = subprocess.Popen([*command, *map(str, words)], cwd=folder, stdout=log, stderr=log)
    try:
        yield child
    finally:
        child.kill()
        child.wait()


def waited_for(file: Path) -> str:
    """What a file holds, once it holds JSON."""
    for _ in range(10 * SECONDS):
        try:
            return json.loads(file.read_text())["address"]
        except (OSError, ValueError):
            time.sleep(0.1)
    raise AssertionError("the scheduler has not begun")


CLIENT = "import sys; from distributed import Client; client = Client(sys.argv[1]); "
WAIT = f"{CLIENT}client.wait_for_workers({WORKERS}, {SECONDS})"
COUNT = f"{CLIENT}print(len(client.nthreads()))"


@contextmanager
def cluster(folder: Path) -> Iterator[str]:
    """The address of a scheduler with its workers, which know neither the clone nor its modules."""
    with ExitStack() as stack:
        file = folder / "scheduler.json"
        words = ["--port", 0, "--scheduler-file", file]
        stack.enter_context(begun("dask_scheduler", *words, folder=folder))
        address = waited_for(file)
        for _ in range(WORKERS):
            words = [address, "--nthreads", 1, "--no-nanny", "--local-directory", folder]
            stack.enter_context(begun("dask_worker", *words, folder=folder))
        assert run(PYTHON, "-c", WAIT, address).status == 0
        yield address


@unittest.skipUnless(PYTHON, "python3-distributed is not installed")
class Cluster(ToolTest):
    WORDS = ("--delays", "1-10", "--stop", 100, "--every", 1, "--runs", 60, CASES / "disagree.spp")

    def setUp(self) -> None:
        need_program()
        room = tempfile.TemporaryDirectory()
        self.addCleanup(room.cleanup)
        self.folder = Path(room.name)

    def sweep(self, *words: object) -> Done:
        return run(PYTHON, TOP / "tools/sweep", "--quiet", *words)

    def test_it_writes_the_bytes_of_this_machine(self) -> None:
        options = "--destination 40 --delays 1-9 --failures 3 --until 50"
        made = [
            "--relationships",
            options,
            "--stop",
            200,
            "--runs",
            20,
            TOP / "checks/inputs/diamond.txt",
        ]
        with cluster(self.folder) as address:
            for words in self.WORDS, made:
                given = ["--program", need_program(), *words]
                # Dask says on standard error where something takes it long.
                far = self.sweep("--scheduler", address, *given)
                here = self.assert_done(self.sweep(*given))
                self.assertEqual((far.status, far.out), (0, here), far.err)
            done = self.sweep("--scheduler", address, "--program", "/nowhere/twarp", *self.WORDS)
        self.assertEqual(done.status, 2)
        self.assertIn("stopped program: /nowhere/twarp does not start", done.err)

    def test_a_worker_that_dies_loses_no_run(self) -> None:
        start = self.folder / "stand-in"
        start.write_text(
            f"#!/bin/sh\ncd {self.folder}\necho >> begun\n"
            # Two runs may count together: the folder is made by one alone.
            '[ "$(wc -l < begun)" -ge 9 ] && mkdir dead 2> /dev/null && kill -9 "$PPID"\n'
            f'exec "{need_program().resolve()}" "$@"\n'
        )
        start.chmod(0o755)
        with cluster(self.folder) as address:
            done = self.sweep("--scheduler", address, "--program", start, *self.WORDS)
            left = run(PYTHON, "-c", COUNT, address)
        self.assertEqual(left.out, f"{WORKERS - 1}\n")
        whole = self.sweep("--program", need_program(), *self.WORDS)
        # Dask says on standard error what it does again.
        self.assertEqual((done.status, done.out), (0, self.assert_done(whole)), done.err)

    def test_a_scheduler_that_is_not_there(self) -> None:
        words = ["--scheduler", "tcp://127.0.0.1:9", "--program", need_program(), *self.WORDS]
        with mock.patch.dict(os.environ, {"DASK_DISTRIBUTED__COMM__TIMEOUTS__CONNECT": "2s"}):
            done = self.sweep(*words)
        self.assertEqual((done.status, done.out), (2, ""))
        self.assertIn("stopped scheduler: tcp://127.0.0.1:9 does not answer", done.err)


class WithoutDask(ToolTest):
    def test_it_says_which_package_is_missing(self) -> None:
        words = ["--scheduler", "tcp://127.0.0.1:9", "--program", need_program(), *Cluster.WORDS]
        done = run("env", "python3", "-S", TOP / "tools/sweep", *words)
        self.assertEqual((done.status, done.out), (2, ""))
        self.assertIn("Debian: python3-distributed", done.err)
