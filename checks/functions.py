"""Finds the functions of a source file, and their names in what the checker prints."""
from __future__ import annotations

import re
from collections.abc import Sequence
from dataclasses import dataclass
from pathlib import PurePosixPath

FUNCTION = re.compile(
    r"( *)(?:pub(?:\([^)]*\))? )?(?:const )?(?:unsafe )?(?:extern \"C\" )?fn (\w+)"
)
BLOCK = re.compile(
    r"(?:unsafe )?(?:impl\b(?P<impl>[^{]*)|(?:pub(?:\([^)]*\))? )?trait (?P<trait>\w+))"
)


@dataclass(frozen=True)
class Function:
    """A function by its path in the crate, as ('mail', 'Post', 'count').

    Lines are counted from 1: that of its first attribute, where it has some, that which names it,
    and its last. It may be one of a trait.
    """

    path: tuple[str, ...]
    top: int
    first: int
    last: int
    is_of_trait: bool = False

    def has_line(self, line: int) -> bool:
        return self.top <= line <= self.last

    def is_named_by(self, words: Sequence[str]) -> bool:
        """Whether the words, modules first, name this function, or a closure in it."""
        plain = [word for word in words if word != "fn"]
        head = plain[: len(self.path)]
        if len(head) < len(self.path):
            return False
        return tuple(head[:-1]) == self.path[:-1] and head[-1].split("+")[0] == self.path[-1]


def without_parameters(text: str) -> str:
    """A type with neither type parameters nor lifetimes: `Tape` of `Tape<'_>`."""
    while re.search(r"<[^<>]*>", text):
        text = re.sub(r"<[^<>]*>", "", text)
    return text.strip()


def owner_of(block: re.Match[str]) -> str:
    """What the checker calls a block of functions.

    It is the type, behind it the trait's name, and behind `From` what the type is made from.
    """
    if block["trait"]:
        return block["trait"]
    header = block["impl"].replace("->", "")
    names = without_parameters(header)
    trait, _, of = re.sub(r"\bwhere\b.*", "", names, flags=re.DOTALL).rpartition(" for ")
    short = (name.strip().lstrip("&").rpartition("::")[2] for name in (of, trait))
    source = re.search(r"\bFrom<(.*)> for ", header)
    return "".join((*short, *(word[0].upper() + word[1:] for word in words_of(source))))


def words_of(source: re.Match[str] | None) -> list[str]:
    """The names in what a type is made from: `clap` and `Error` of `From<clap::Error>`."""
    return re.findall(r"[A-Za-z]\w*", source[1]) if source else []


def is_of_trait(block: re.Match[str]) -> bool:
    """Whether a block of functions is a trait, or some type's functions of a trait."""
    return bool(block["trait"]) or bool(re.search(r"\bfor\b", block["impl"]))


def modules_of(file: str) -> tuple[str, ...]:
    """The module that a file below src/ is: `src/mail/post.rt` is `mail::post`."""
    parts = PurePosixPath(file).with_suffix("").parts[1:]
    return parts[:-1] if parts[-1] in ("lib", "main", "mod") else parts


def end_of(lines: Sequence[str], start: int, indent: str) -> int:
    """The place of the line that ends what the one at `start` begins, as `rt fmt` lays it out."""
    if lines[start].endswith((" {}", ";")):
        return start
    ends = (indent + "}", indent + "{}")
    return next((at for at in range(start, len(lines)) if lines[at] in ends), len(lines) - 1)


def top_of(lines: Sequence[str], start: int) -> int:
    """The place of the first attribute of what begins at `start`."""
    while start > 0 and lines[start - 1].lstrip().startswith("#["):
        start -= 1
    return start


def functions_of(file: str, text: str) -> list[Function]:
    """The functions of a file below src/, in the order in which they begin."""
    lines = text.split("\n")
    found: list[Function] = []
    owner: tuple[str, ...] = ()
    owner_ends = -1
    of_trait = False
    for place, line in enumerate(lines):
        if place > owner_ends:
            owner, of_trait = (), False
        # A header may go over several lines.
        block = BLOCK.match(" ".join(lines[place : place + 6]).partition("{")[0])
        if block:
            owner, owner_ends = (owner_of(block),), end_of(lines, place, "")
            of_trait = is_of_trait(block)
        function = FUNCTION.match(line)
        if function:
            path = (*modules_of(file), *(owner if function[1] else ()), function[2])
            last = end_of(lines, place, function[1]) + 1
            top = top_of(lines, place) + 1
            found.append(Function(path, top, place + 1, last, of_trait and bool(function[1])))
    return found
