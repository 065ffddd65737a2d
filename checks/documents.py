#!/usr/bin/env python3
"""Looks whether what the documents name is there.

    documents.py

Of each document every word in backticks is looked up: a path must be that of a file or folder, and
a name (of a crate, a function, a clause, a definition) must stand somewhere in the sources. What
has spaces or the word NAME, and blocks of code, is let pass. In a table of promises, clauses named
after functions must be clauses of one of these. The list of files for a new kind of event must
have each file that names a kind. CONTRIBUTING.md must list the steps of .ci/run in their order, and
name the crates that have more functions than it aims at. No folder may have a link: rt ci stops at
one.
"""
from __future__ import annotations

import re
from collections import Counter, defaultdict
from collections.abc import Iterable, Iterator
from dataclasses import dataclass
from itertools import zip_longest
from pathlib import Path

from common import TOP, Tally
from functions import functions_of

CRATES = TOP / "crates"

DOCUMENTS = ("*.md", "docs/*.md", "bench/*.md", "cases/*.md", "checks/*.md", "python/*.md", "tools/*.md")
SOURCES = (
    "crates.txt",
    "HANDLES",
    "twarp",
    ".ci/run",
    "checks/*",
    "bench/*.py",
    "cases/*.spp",
    "cases/*.replay",
    "crates/*/must-fail/*",
    "crates/*/wrong-bodies/**/*",
    "tools/*",
    "tools/**/*.py",
    "python/**/*.py",
    "python/*.toml",
)
PARTS = ("src", "specs", "proofs")
CODE = tuple(f"crates/*/{part}/**/*.{kind}" for part in PARTS for kind in ("rt", "antt"))

NAME = re.compile(r"[A-Za-z_]\w*(::\w+)*")
PATH = re.compile(r"[\w.-]+(/[\w.-]+)*/?")
ENDINGS = (".rt", ".antt", ".md", ".py", ".spp", ".txt", ".edit", "/")


Clauses = dict[tuple[str, ...], set[str]]


def files(patterns: Iterable[str]) -> list[Path]:
    return [file for pattern in patterns for file in sorted(TOP.glob(pattern)) if file.is_file()]


def text_of(file: Path) -> str:
    return file.read_text(encoding="utf-8")


def quoted(text: str) -> list[str]:
    """The words in backticks, blocks of code left out."""
    prose = [line for line in text.splitlines() if not line.startswith("    ")]
    return re.findall(r"`([^`]+)`", "\n".join(prose))


def table_rows(text: str) -> list[str]:
    return [line for line in text.splitlines() if line.startswith("|")]


def section_of(document: str, heading: str) -> str:
    """What stands below a heading of the second level, up to the next one."""
    return text_of(TOP / document).partition(f"\n## {heading}\n")[2].partition("\n## ")[0]


def is_path(word: str) -> bool:
    return bool(PATH.fullmatch(word)) and ("/" in word or word.endswith(ENDINGS))


@dataclass(frozen=True)
class Known:
    """What the documents may name: words of the sources, names of files, and names of folders."""

    words: set[str]
    names: set[str]
    folders: set[str]

    @classmethod
    def read(cls) -> Known:
        sources = files([*SOURCES, *CODE])
        names = {file.name for file in [*sources, *files(DOCUMENTS)]}
        words = {name.partition(".")[0] for name in names}
        for file in sources:
            words.update(re.findall(r"\w+", text_of(file)))
        folders = {part for file in sources for part in file.relative_to(TOP).parts[:-1]}
        return cls(words, names, folders)

    def has(self, word: str) -> bool:
        """Whether what the word names is there; words that name nothing pass."""
        if "NAME" in word:
            return True
        if is_path(word):
            return self.has_file(word)
        return not NAME.fullmatch(word) or set(word.split("::")) <= self.words

    def has_file(self, word: str) -> bool:
        is_known = word in self.names or word.rstrip("/") in self.folders
        return is_known or (TOP / word).exists() or (CRATES / word).exists()


def code_files() -> Iterator[tuple[str, str, str]]:
    """The files of code: of each its crate, its path in the crate, and its text."""
    for file in files(["crates/*/src/**/*.rt"]):
        crate, *inside = file.relative_to(CRATES).parts
        yield crate, "/".join(inside), text_of(file)


def clauses_by_function() -> Clauses:
    """The names of the clauses of each function, by the ends of its path.

    These are `take`, `Table::take` and `table::Table::take`, say.
    """
    found: Clauses = defaultdict(set)
    for crate, inside, text in code_files():
        for function in functions_of(inside, text):
            contract = "\n".join(text.split("\n")[function.first - 1 : function.last])
            names = re.findall(r"^\s*(?:ensures|requires)\*? (\w+)\b", contract, re.MULTILINE)
            path = (crate, *function.path)
            for start in range(len(path)):
                found[path[start:]] |= {*names}
    return found


def misnamed_clauses(row: str, clauses: Clauses) -> Iterator[str]:
    """The clauses that a row of a table names after functions, and that none of these has."""
    cell = re.sub(r"\([^()]*\)", "", row.strip().strip("|").rpartition("|")[2])
    for part in cell.split(";"):
        head, colon, tail = part.partition("`: `")
        functions = [word.split("::") for word in re.findall(r"`([^`]+)`", head + "`") if colon]
        owner: list[str] = []
        known: set[str] = set()
        for words in functions:
            owner = words[:-1] or owner
            known |= clauses.get(tuple(words), set()) | clauses.get((*owner, words[-1]), set())
        for name in re.findall(r"`([a-z]\w*)`", "`" + tail):
            if known and name not in known:
                yield f"{'::'.join(functions[-1])}: {name}"


def lost_names(text: str, known: Known, clauses: Clauses) -> list[str]:
    """What a document names and what is not there, each once."""
    lost = dict.fromkeys(word for word in quoted(text) if not known.has(word))
    misnamed = [name for row in table_rows(text) for name in misnamed_clauses(row, clauses)]
    return [*lost, *misnamed]


def listed(section: str) -> set[str]:
    """The files under crates/ that the tables of a section name.

    One that is named without a folder is in the folder of the one before.
    """
    found: set[str] = set()
    folder = ""
    for row in table_rows(section):
        for word in re.findall(r"`([\w./]+\.(?:rt|antt))`", row):
            folder = word.rpartition("/")[0] or folder
            found.add(f"{folder}/{word.rpartition('/')[2]}")
    return found


def left_out_of_kinds() -> list[str]:
    """The files that name the kinds of event, and that the list for a new kind lacks."""
    section = section_of("docs/ARCHITECTURE.md", "To add a kind of event")
    naming = {
        str(file.relative_to(CRATES))
        for file in files(CODE)
        if re.search(r"\bRestore\b", text_of(file))
    }
    return sorted(naming - listed(section))


def misnamed_steps() -> list[str]:
    """Where the steps that CONTRIBUTING.md lists are others than those of .ci/run."""
    steps = re.findall(r"^step (?:python3 )?(.+)$", text_of(TOP / ".ci/run"), re.MULTILINE)
    section = section_of("CONTRIBUTING.md", "What the gate asks")
    told = re.findall(r"^- `([^`]+)`", section, re.MULTILINE)
    pairs = zip_longest(told, steps, fillvalue="nothing")
    return [f"{name} in place of {step}" for name, step in pairs if name != step]


def functions_by_crate() -> Counter[str]:
    """How many functions each crate has."""
    counts: Counter[str] = Counter()
    for crate, inside, text in code_files():
        counts[crate] += len(functions_of(inside, text))
    return counts


def misnamed_sizes() -> list[str]:
    """Where the crates that CONTRIBUTING.md names as beyond its aim are not those that are."""
    section = section_of("CONTRIBUTING.md", "What must hold")
    aim = re.search(r"The aim is at most (\d+) functions;(.*)", section)
    if not aim:
        return ["no number"]
    counts = functions_by_crate()
    large = {crate for crate, count in counts.items() if count > int(aim[1])}
    named = {*re.findall(r"`(\w+)`", aim[2])}
    return [f"{crate} has {counts[crate]}" for crate in sorted(large ^ named)]


def links() -> list[str]:
    """The links in folders of the repository, but for what git and builds keep."""
    folders = [it for it in TOP.iterdir() if it.is_dir() and it.name not in (".git", "out")]
    found = (path for folder in folders for path in folder.rglob("*") if path.is_symlink())
    return sorted(str(path.relative_to(TOP)) for path in found)


def check(tally: Tally, name: str, words: str, lost: list[str]) -> None:
    tally.add(name, f"{words} {', '.join(lost)}" if lost else None)


def main() -> None:
    tally = Tally()
    check(tally, "the list for a new kind of event", "it lacks", left_out_of_kinds())
    check(tally, "the steps of the gate", "CONTRIBUTING.md has", misnamed_steps())
    check(tally, "the crates of many functions", "CONTRIBUTING.md is not right:", misnamed_sizes())
    check(tally, "files and folders", "these are links:", links())
    known, clauses = Known.read(), clauses_by_function()
    for document in files(DOCUMENTS):
        lost = lost_names(text_of(document), known, clauses)
        check(tally, str(document.relative_to(TOP)), "it names what is not there:", lost)
    tally.end()


if __name__ == "__main__":
    main()
