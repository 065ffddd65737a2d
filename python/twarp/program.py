"""The built programs: where they are, and calls of them."""
from __future__ import annotations

import os
import re
import shutil
import subprocess
from collections.abc import Iterable, Mapping
from pathlib import Path

# How much of what is wrong stands in a message.
MOST_QUOTED = 80


class Refused(Exception):
    """A text, or an option, that is not taken. Its text says why.

    `line` is the number of the line that decides, from 1, and `code` and `name` are those of the rule that it breaks
    (docs/FORMATS.md), as `I4` and `Delay`; each is None where it is not known.
    """

    def __init__(self, why: str, line: int | None = None, code: str | None = None, name: str | None = None):
        super().__init__(why)
        self.line, self.code, self.name = line, code, name

    @classmethod
    def at_line(cls, number: int, why: str) -> Refused:
        return cls(f"refused line {number}: {why}", number)

    @classmethod
    def told(cls, words: str, advice: str) -> Refused:
        """What twarp says on standard output where it refuses its input or an option, and to people beside that."""
        found = re.fullmatch(r"refused (?:line (\d+)|option) ([A-Z]\d+) (\w+)", words)
        line, code, name = found.groups() if found else (None, None, None)
        return cls(f"{words}\n{advice}".rstrip(), line and int(line), code, name)


class Stopped(Exception):
    """Work that did not come to its end. Its text is what stands behind `stopped`."""


def quote(text: str) -> str:
    """A text, or a line without its end, as a message quotes it: escaped, and cut where it is long."""
    text = text.removesuffix("\n")
    return repr(text) if len(text) <= MOST_QUOTED else f"{text[:MOST_QUOTED]!r}.."


HERE = Path(__file__).resolve()
# In a clone the program that ./twarp --build makes.
BUILT = HERE.parents[2] / "crates/twarp/out/twarp"
# Where the package was installed along with the program, this list stands beside it.
INSTALLED = HERE.parents[1] / "installed"

File = str | os.PathLike[str]
# Options of a command by their names: True is one without a value, and None and False are none at all.
Options = Mapping[str, int | bool | None]


def find(named: File | None = None) -> Path | None:
    """The file that is named, here or by $TWARP; or the clone's program, or that beside the package, or on the PATH."""
    beside = [BUILT, *([INSTALLED.parents[2] / "bin/twarp"] if INSTALLED.exists() else [])]
    return first_of(named or os.environ.get("TWARP"), beside, "twarp")


def find_policy(named: File | None = None, twarp: File | None = None) -> Path | None:
    """The twarp-policy that is named, here or by $TWARP_POLICY; or the one beside twarp, or on the PATH."""
    found = find(twarp)
    # In the same folder, or in the same clone.
    beside = [found.with_name("twarp-policy"), found.parent / "../../twarp_policy/out/twarp_policy"] if found else []
    return first_of(named or os.environ.get("TWARP_POLICY"), beside, "twarp-policy")


def first_of(named: File | None, files: Iterable[Path], name: str) -> Path | None:
    """The file that is named, else the first of these that is there, else the program of this name on the PATH."""
    if named:
        return Path(named).absolute()
    on_path = shutil.which(name)
    return next((file for file in files if file.is_file()), Path(on_path) if on_path else None)


def need(named: File | None = None) -> Path:
    """The program; stopped where it is not there."""
    return runnable(find(named), "twarp", "TWARP")


def need_policy(named: File | None = None, twarp: File | None = None) -> Path:
    """The program twarp-policy; stopped where it is not there."""
    return runnable(find_policy(named, twarp), "twarp-policy", "TWARP_POLICY")


def runnable(file: Path | None, name: str, variable: str) -> Path:
    """The file, where it can be run; stopped, with how the program of this name is made, where it can't."""
    if file and file.is_file() and os.access(file, os.X_OK):
        return file
    what = f"{file} is no program" if file else f"no {name} is here, and the variable {variable} names none"
    raise Stopped(f"program: {what}; ./{name} --build, at the root of a clone, makes one")


def words_of(options: Options) -> list[str]:
    """The words of a command line that say so."""
    words: list[str] = []
    for name, value in options.items():
        if isinstance(value, int) and value < 0:
            # By itself it would be taken for an option.
            words.append(f"--{name}={value}")
        elif value is not None and value is not False:
            words += [f"--{name}"] if value is True else [f"--{name}", str(value)]
    return words


def answer(file: Path, words: list[str], text: bytes) -> bytes:
    """What the program writes; Refused or Stopped where it says so, and ValueError where it does not take the words."""
    done = subprocess.run([file, *words], input=text, capture_output=True, check=False)
    out, err = (told.decode("utf-8", "replace").strip() for told in (done.stdout, done.stderr))
    if done.returncode == 0:
        return done.stdout
    if done.returncode == 1 and out.startswith("refused "):
        raise Refused.told(out.splitlines()[0], err)
    if done.returncode == 3:
        raise ValueError(err.removeprefix("error: ").partition("\n")[0])
    if err.startswith("stopped "):
        raise Stopped(err.removeprefix("stopped "))
    raise Stopped(f"program: {file} ends with status {done.returncode}: {err[:200]}")
