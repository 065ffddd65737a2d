"""Makes the pictures of docs/TUTORIAL.md again: runs the page's commands in a folder of their own, sees that each writes
what the page says, and keeps the pictures that the page shows in docs/pictures.

example:
  tools/pictures
"""

import os
import re
import shutil
import subprocess
import tempfile
from collections.abc import Iterator, Mapping
from dataclasses import dataclass
from pathlib import Path
from subprocess import DEVNULL, PIPE, STDOUT

from twarp.program import Refused
from twarp_tools.build import ROOT, Made
from twarp_tools.command import Parser, tool

PAGE = ROOT / "docs/TUTORIAL.md"
PICTURES = ROOT / "docs/pictures"
PROGRAM_OPTION = "--program", "FILE", "the built program", Path, Made("twarp").file

# What the commands name of the clone, and the folder into which they write.
NAMED = ("cases", "docs", "python", "tools")
WRITTEN = "out"


@dataclass
class Command:
    """A command of a console block, with the number of its line and the output that stands below it."""

    line: int
    text: str
    output: str = ""


def commands_of(page: str) -> list[Command]:
    commands, is_console = list[Command](), False
    for number, line in enumerate(page.splitlines(), 1):
        if line.startswith("```"):
            is_console = line == "```console"
        elif is_console and line.startswith("$ "):
            commands.append(Command(number, line[2:]))
        elif is_console:
            commands[-1].output += f"{line}\n"
    return commands


def pictures_of(page: str) -> list[str]:
    return re.findall(r"\]\(pictures/([^)]+)\)", page)


def lay_out(folder: Path, programs: Mapping[str, Path]) -> None:
    """Makes a folder look like the root of a clone in which the programs are built."""
    for name in NAMED:
        (folder / name).symlink_to(ROOT / name)
    for name, program in programs.items():
        script = folder / name
        script.write_text(f'#!/bin/sh\nexec "{program.resolve()}" "$@"\n')
        script.chmod(0o755)


def run(command: Command, folder: Path, programs: Mapping[str, Path]) -> str:
    """What a terminal shows of a command that is run in the folder, where tools that start a program start these."""
    named = {name.upper().replace("-", "_"): str(program.resolve()) for name, program in programs.items()}
    words, env = ["sh", "-c", command.text], os.environ | named
    done = subprocess.run(words, cwd=folder, env=env, stdin=DEVNULL, stdout=PIPE, stderr=STDOUT, check=False)
    return done.stdout.decode()


def follow(page: str, folder: Path, programs: Mapping[str, Path]) -> Iterator[tuple[Command, str]]:
    """Runs the page's commands in an empty folder, one after the other, and gives what each writes."""
    lay_out(folder, programs)
    for command in commands_of(page):
        yield command, run(command, folder, programs)


@tool
def main() -> None:
    parser = Parser(__doc__)
    parser.option(*PROGRAM_OPTION)
    parser.option("--policy", "FILE", "the built program twarp-policy", Path, Made("twarp_policy").file)
    line = parser.parse_args()
    page, programs = PAGE.read_text(), {"twarp": line.program, "twarp-policy": line.policy}
    with tempfile.TemporaryDirectory() as name:
        folder = Path(name)
        for command, output in follow(page, folder, programs):
            if output != command.output:
                raise Refused(f"{PAGE.name}: line {command.line}: the command writes\n{output}")
        for picture in pictures_of(page):
            shutil.copyfile(folder / WRITTEN / picture, PICTURES / picture)
