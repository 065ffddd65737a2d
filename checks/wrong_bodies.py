#!/usr/bin/env python3
"""Tries the wrong bodies of crates in batches: the checker must refuse each.

    wrong_bodies.py [--changed REV] [--jobs N] [--right] [CRATE ..]

Where no crate is named, these are all that have some. A wrong body is a file NAME.edit in a
crate's must-fail/, or stands in wrong-bodies/, in MODULE.edits, behind a line `body: NAME`, up to
the next one. `file:` names a file of the crate, also for the bodies that follow, and each pair of
lines `old:`, `new:` puts one text in place of another that stands in it once, or else is the whole of one line.

A function's proof rests on the contracts of what it calls and not on their bodies, and nothing
calls a function that is new. So a wrong body is tried as a function of its own: a copy of the one
that it changes, with its contract, its proof and another name, beside it. Many of them go into one
copy of the crate, which is checked once, and none hides another. What changes a function of a
trait, or several functions, has no copy: it stands in place of the right bodies, together with
others that change other functions. A wrong body counts as refused where the checker tells an error
of its very function. What is not told of is tried alone, and so is what changes anything else, as a
definition. What is still proved alone has failed, and so has what does not apply or what the
checker cannot read.

It first checks each crate as it stands, over kept libraries (crate.py), and then works in a folder
beside the repository, over what that check kept. --changed takes the crates whose files
differ from the revision REV. --right tries the right bodies in the same way, as functions of their
own: the checker must prove each, or it refuses a wrong one for its name alone. There is a line
for each wrong body, one for each crate with its processor time, and at last 'N passed, M failed'.
"""
from __future__ import annotations

import argparse
import os
import re
import shutil
import signal
import subprocess
import sys
import tempfile
import threading
from collections.abc import Callable, Iterable, Iterator
from concurrent.futures import ThreadPoolExecutor
from dataclasses import dataclass, field, replace
from functools import cached_property
from pathlib import Path

from common import TOP, Tally
from crate import CRATES, Checker
from functions import Function, functions_of, modules_of
from twarp_tools.build import below, graph_of, uses_of

FOLDERS = ("must-fail", "wrong-bodies")
PARTS = ("src", "specs", "proofs")
# So many wrong bodies are tried together: the checker stops a check at a limit of its own.
MOST_TOGETHER = 60
# What no proof can give. Where a proof asks for it, the checker offers no files for what else is
# open there, for which it would search once more: up to a third of a check's time.
WANTING = "nothing-is-offered"
ASKED_FOR = f"\n{WANTING} : Type 0\n{WANTING} = wanting\n"

VERDICT = re.compile(r"(?:fn|impl) (\S+?): (no proof: expected.*)")
PROVED = re.compile(r"fn \w+::(\S+): proved")
ERROR_OF_PROOF = re.compile(r"(?:\./)?proofs/(\S+)/[^/\s]+\.antt:\d+:\d+: error: (.*)")
ERROR_OF_SOURCE = re.compile(r"(?:note: )?(?:\./)?(src/\S+?):(\d+):\d+: (.*)")
ERROR = re.compile(r"(note: )?\S+:\d+:\d+:")
# An error of a proof that names what was taken away says nothing of the contract.
OF_NAMES = re.compile(
    r"has no field|is not in scope|has no `|was not admitted|was rejected, w(as|ere) not checked"
)
# A note on what a proof costs refuses nothing.
OF_COST = re.compile(r"note: large solution")
AT_LIMIT = re.compile(r"antt ran out of|outgrew the memory limit|stopped at the step limit")

Read = Callable[[str], str]
Texts = dict[str, str]
Name = tuple[str, ...]

printing = threading.Lock()


def say(line: str) -> None:
    with printing:
        print(line, flush=True)


class DoesNotApply(Exception):
    """The texts of a wrong body do not stand in the crate as it asks."""


def without_comments(text: str) -> list[str]:
    """The lines of a source without `/* .. */`.

    A wrong body has such comments so that texts that it keeps stand apart.
    """
    return [re.sub(r"/\*.*?\*/ ?", "", line) for line in text.split("\n")]


@dataclass(eq=False)
class WrongBody:
    """A wrong body: the file, the old text and the new one of each of its changes."""

    name: str
    changes: list[tuple[str, str, str]] = field(default_factory=list)

    @classmethod
    def read(cls, path: Path, place: str) -> list[WrongBody]:
        """The wrong bodies of a file. Where none is named in it, it has one, with the file's name."""
        bodies, file, old = [cls(f"{place}/{path.stem}")], "", ""
        for line in path.read_text().split("\n"):
            word, _, rest = line.partition(":")
            rest = rest.removeprefix(" ")
            if word == "body":
                bodies.append(cls(f"{place}/{rest.strip()}"))
            elif word == "file":
                file = rest.strip()
            elif word == "old":
                old = rest
            elif word == "new" and file and old:
                bodies[-1].changes.append((file, old, rest))
                old = ""
            elif line.strip():
                sys.exit(f"{path}: no line begins so, and none goes on in the next: {line.strip()}")
        return bodies[1:] or bodies

    def applied(self, texts: Texts, read: Read) -> Texts:
        """The texts of the files that it changes.

        `texts` has those that are changed already, `read` gives the others.
        """
        if not self.changes:
            raise DoesNotApply("it has no 'old:' and 'new:' pair")
        changed: Texts = {}
        for file, old, new in self.changes:
            text = changed.get(file) or texts.get(file) or read(file)
            lines = text.split("\n")
            if text.count(old) == 1:
                changed[file] = text.replace(old, new)
            elif lines.count(old) == 1:
                changed[file] = "\n".join(new if line == old else line for line in lines)
            else:
                raise DoesNotApply(
                    f"an 'old:' text is in {file} {text.count(old)} times, and not once"
                )
        return changed

    def functions(self, read: Read) -> list[tuple[str, Function]]:
        """The functions that it changes, with their files; none where it changes something else."""
        found: dict[tuple[str, Function], None] = {}
        for file, text in self.applied({}, read).items():
            if not file.startswith("src/"):
                return []
            inside = functions_of(file, read(file))
            pairs = zip(without_comments(read(file)), without_comments(text))
            for line in (place for place, (one, other) in enumerate(pairs, 1) if one != other):
                function = next((it for it in reversed(inside) if it.has_line(line)), None)
                if not function:
                    return []
                found[file, function] = None
        return list(found)


@dataclass(frozen=True)
class Trial:
    """A wrong body as a function of its own.

    It stands in a file of the crate behind the function of which it is a copy, has another name, by
    which the checker calls it, these lines, and the same proof.
    """

    body: WrongBody
    file: str
    function: Function
    path: Name
    lines: list[str]
    proofs: Texts

    def proof_asking(self) -> Texts:
        """Its proof's answers, which also ask for what no proof can give."""
        answers = answers_of(self.path)
        return {answers: self.proofs.get(answers, "") + ASKED_FOR}

    @classmethod
    def of(cls, body: WrongBody, number: int, crate: Path, is_right: bool) -> Trial | None:
        """None where the wrong body changes anything else than one function, or one of a trait.

        The lines may be those of the right body.
        """

        def read(file: str) -> str:
            return (crate / file).read_text()

        changed = body.functions(read)
        if len(changed) != 1 or changed[0][1].is_of_trait:
            return None
        ((file, function),) = changed
        text = body.applied({}, read)[file]
        if is_right:
            text = read(file)
        copied = next((it for it in functions_of(file, text) if it.path == function.path), None)
        if not copied:
            return None
        name = f"{function.path[-1]}_wrong_{number}"
        lines = text.split("\n")
        first = copied.first - 1
        lines[first] = re.sub(rf"\bfn {function.path[-1]}\b", f"fn {name}", lines[first], count=1)
        path = path_at_home(function, file, crate)
        proofs = proofs_renamed(crate, path, name)
        lines = lines[copied.top - 1 : copied.last]
        return cls(body, file, function, (*path[:-1], name), lines, proofs)


def answers_of(function: Name) -> str:
    """The file of a function's answers."""
    return str(Path("proofs", *function, "Answers.antt"))


def path_at_home(function: Function, file: str, crate: Path) -> Name:
    """The path of a function as the checker has it: a type's functions are where the type is."""
    *_, owner, name = ("", *function.path)
    if len(function.path) <= len(modules_of(file)) + 1:
        return function.path
    declared = re.compile(rf"^(?:pub(?:\([^)]*\))? )?(?:struct|enum) {owner}\b", re.MULTILINE)
    homes = [it for it in sorted(crate.glob("src/**/*.rt")) if declared.search(it.read_text())]
    if len(homes) != 1:
        return function.path
    return (*modules_of(str(homes[0].relative_to(crate))), owner, name)


def proofs_renamed(crate: Path, path: Name, name: str) -> Texts:
    """The proof of a function, for a copy of that function with another name."""
    folder, to = Path("proofs", *path), Path("proofs", *path[:-1], name)
    own, others = (".".join((*it.parts, "")) for it in (folder, to))
    return {
        str(to / file.name): file.read_text().replace(own, others)
        for file in sorted((crate / folder).glob("*.antt"))
    }


@dataclass(frozen=True)
class Said:
    """What a check said, and the processor time that it took."""

    status: int
    lines: list[str]
    minutes: float

    def proved(self) -> set[Name]:
        """The functions that it told to be proved, by their paths in the crate."""
        return {tuple(told[1].split("::")) for told in map(PROVED.match, self.lines) if told}

    def has_refused(self) -> bool:
        """Whether the check came to its end and found something that is not proved."""
        return self.status == 1 and any(line.startswith("logic=not-proved") for line in self.lines)

    @cached_property
    def told(self) -> list[str]:
        """What it said, but for notes on cost: a line for each thing."""
        told: list[str] = []
        for line in self.lines:
            if line.startswith("  ") and told:
                told[-1] += f" {line.strip()}"
            else:
                told.append(line)
        return [line for line in told if not OF_COST.search(line)]

    def errors_of(self, function: Function, file: str) -> Iterator[str]:
        """What the check told of this function, in its proof or source, or for want of a proof."""
        for line in self.told:
            proof, source = ERROR_OF_PROOF.match(line), ERROR_OF_SOURCE.match(line)
            verdict = VERDICT.match(line)
            if proof and function.is_named_by(proof[1].split("/")) and WANTING not in proof[2]:
                yield proof[2]
            elif source and source[1] == file and function.has_line(int(source[2])):
                yield source[3]
            elif verdict and function.is_named_by(verdict[1].split("::")[1:]):
                yield verdict[2]

    def first_error(self) -> str:
        return next((line for line in self.lines if "error" in line), self.lines[0])[:200]


def checked(command: list[str], folder: Path) -> Said:
    """Runs the check of a crate in its folder, or in that of a copy."""
    with subprocess.Popen(
        command,
        cwd=folder,
        stdin=subprocess.DEVNULL,
        stdout=subprocess.PIPE,
        stderr=subprocess.STDOUT,
        text=True,
        errors="replace",
    ) as process:
        assert process.stdout
        text = process.stdout.read()
        _, status, used = os.wait4(process.pid, 0)
        process.returncode = os.waitstatus_to_exitcode(status)
    return Said(process.returncode, text.split("\n"), (used.ru_utime + used.ru_stime) / 60)


def crates() -> dict[str, list[str]]:
    """Each crate of crates.txt with what it uses."""
    return uses_of(CRATES.read_text())


def copy_linked(folder: Path, to: Path) -> None:
    """Copies a folder, where it is there; what was proved by links.

    A check replaces such a file and changes none.
    """

    def copy(one: str, other: str) -> None:
        if one.endswith(".oantt"):
            os.link(one, other)
        else:
            shutil.copy2(one, other)

    if folder.exists():
        shutil.copytree(folder, to, copy_function=copy)


class Room:
    """A copy of a crate, in which changed texts are checked.

    The functions are those that the checker names, with the crate as it stands.
    """

    def __init__(self, copy: Path, crate: str, command: list[str], functions: set[Name]) -> None:
        self.original = TOP / "crates" / crate
        self.command = command
        self.functions = functions
        self.copy = copy
        self.minutes = 0.0
        self.checks = 0
        for part in PARTS:
            copy_linked(self.original / part, copy / part)

    def read(self, file: str) -> str:
        """A file of the crate as it stands in the repository."""
        return (self.original / file).read_text()

    def asking(self, function: Name) -> Texts:
        """The answers of a function that the checker names, asking for what no proof gives too."""
        if function not in self.functions:
            return {}
        answers = answers_of(function)
        is_there = (self.original / answers).exists()
        return {answers: (self.read(answers) if is_there else "") + ASKED_FOR}

    def check(self, texts: Texts) -> Said:
        """Checks the crate with these texts in place of its own, or beside them.

        This goes over what is kept of the crate as it stands.
        """
        shutil.rmtree(self.copy / "out", ignore_errors=True)
        copy_linked(self.original / "out/incremental", self.copy / "out/incremental")
        for file, text in texts.items():
            (self.copy / file).parent.mkdir(parents=True, exist_ok=True)
            (self.copy / file).write_text(text)
        try:
            said = checked(self.command, self.copy)
        finally:
            for part in {Path(file).parts[0] for file in texts}:
                shutil.rmtree(self.copy / part)
                copy_linked(self.original / part, self.copy / part)
        self.minutes += said.minutes
        self.checks += 1
        return said


def first_reason(errors: list[str]) -> str:
    """The first error that tells of what is promised, where there is one."""
    if not errors:
        return ""
    telling = (error for error in errors if not OF_NAMES.search(error))
    return next(telling, "only because a proof file names what it took away")


def in_parts(trials: list[Trial]) -> Iterator[list[Trial]]:
    """As many as are tried together, and then the next ones."""
    for start in range(0, len(trials), MOST_TOGETHER):
        yield trials[start : start + MOST_TOGETHER]


@dataclass(frozen=True)
class InPlace:
    """A wrong body in place of the right one, and the functions that it changes, by their files."""

    body: WrongBody
    changed: list[tuple[str, Function]]

    def paths(self) -> set[Name]:
        return {function.path for _, function in self.changed}

    def reason(self, said: Said) -> str:
        """The first thing that the check told of one of the functions."""
        errors = (said.errors_of(function, file) for file, function in self.changed)
        return first_reason([error for some in errors for error in some])


def apart(bodies: list[InPlace]) -> Iterator[list[InPlace]]:
    """Wrong bodies that change different functions, and then those that are left."""
    while bodies:
        chosen, left, paths = [], [], set[Name]()
        for body in bodies:
            (left if body.paths() & paths else chosen).append(body)
            paths |= body.paths()
        yield chosen
        bodies = left


class Trials:
    """Tries the wrong bodies of a crate, and tells why each was refused, or what is wrong."""

    def __init__(self, room: Room, tell: Callable[[WrongBody, str, str], None]) -> None:
        self.room = room
        self.tell = tell
        self.alone: list[WrongBody] = []

    def run(self, bodies: Iterable[WrongBody]) -> None:
        trials: list[Trial] = []
        in_place: list[InPlace] = []
        for number, body in enumerate(bodies):
            try:
                changed = body.functions(self.room.read)
                trial = Trial.of(body, number, self.room.original, is_right=False)
            except (DoesNotApply, OSError) as error:
                self.tell(body, "", f"it does not apply: {error}")
                continue
            if trial:
                trials.append(trial)
            elif changed:
                in_place.append(InPlace(body, changed))
            else:
                self.alone.append(body)
        for some in in_parts(trials):
            self.try_together(some)
        for different in apart(in_place):
            self.try_in_place(different)
        for body in self.alone:
            self.try_alone(body)

    def run_right(self, bodies: Iterable[WrongBody]) -> None:
        """Tries the right body of each function that a wrong one changes."""
        trials: dict[Function, Trial] = {}
        for number, body in enumerate(bodies):
            trial = Trial.of(body, number, self.room.original, is_right=True)
            if trial:
                trials.setdefault(trial.function, trial)
        for some in in_parts(list(trials.values())):
            texts = self.texts_with(some)
            said = self.room.check(texts)
            for trial in some:
                wrong = "" if said.status == 0 else self.reason(trial, texts, said)
                if said.status != 0 and not said.has_refused():
                    wrong = said.first_error()
                self.tell(trial.body, "", wrong and f"its right body: {wrong}")

    def try_together(self, trials: list[Trial]) -> None:
        texts = self.texts_with(trials)
        for trial in trials:
            texts |= trial.proof_asking()
        said = self.room.check(texts)
        if not said.has_refused():
            self.part(trials)
            return
        for trial in trials:
            reason = self.reason(trial, texts, said)
            if reason:
                self.tell(trial.body, reason, "")
            else:
                self.alone.append(trial.body)

    def try_in_place(self, trials: list[InPlace]) -> None:
        texts: Texts = {}
        applied = []
        for trial in trials:
            try:
                texts |= trial.body.applied(texts, self.room.read)
                applied.append(trial)
            except DoesNotApply:
                self.alone.append(trial.body)
        for trial in applied:
            # A function that is right would keep others waiting for its proof.
            if len(trial.paths()) == 1:
                texts |= self.room.asking(*trial.paths())
        said = self.room.check(texts)
        for trial in applied:
            reason = trial.reason(said) if said.has_refused() else ""
            if reason:
                self.tell(trial.body, reason, "")
            else:
                self.alone.append(trial.body)

    def part(self, trials: list[Trial]) -> None:
        """Tries each half of what has no verdict together."""
        half = len(trials) // 2
        if half == 0:
            self.alone += [trial.body for trial in trials]
            return
        self.try_together(trials[:half])
        self.try_together(trials[half:])

    def texts_with(self, trials: Iterable[Trial]) -> Texts:
        """The files of the crate with these wrong bodies in them, and the proofs of these."""
        texts: Texts = {}
        lines: dict[str, list[str]] = {}
        # From the end of a file on, so that the places before stay what they are.
        for trial in sorted(trials, key=lambda it: -it.function.last):
            texts |= trial.proofs
            inside = lines.setdefault(trial.file, self.room.read(trial.file).split("\n"))
            inside[trial.function.last : trial.function.last] = ["", *trial.lines]
        return texts | {file: "\n".join(inside) for file, inside in lines.items()}

    def reason(self, trial: Trial, texts: Texts, said: Said) -> str:
        """The first thing that the check told of the function that the wrong body is."""
        for function in functions_of(trial.file, texts[trial.file]):
            if function.path[-1] == trial.path[-1]:
                named = replace(function, path=trial.path)
                return first_reason(list(said.errors_of(named, trial.file)))
        return ""

    def try_alone(self, body: WrongBody) -> None:
        said = self.room.check(body.applied({}, self.room.read))
        if said.status == 0:
            self.tell(body, "", "it is still proved")
        elif said.has_refused():
            errors = [line for line in said.told if ERROR.match(line)]
            self.tell(body, first_reason(errors) or "it is not proved", "")
        elif said.status == 3 and any(map(AT_LIMIT.search, said.lines)):
            self.tell(body, "only by a limit of the prover", "")
        elif said.status == 1:
            self.tell(body, "", f"the checker cannot read it: {said.first_error()}")
        else:
            self.tell(body, "", f"its check ended with status {said.status}: {said.first_error()}")


def bodies_of(crate: str) -> list[WrongBody]:
    """The wrong bodies of a crate."""
    return [
        body
        for folder in FOLDERS
        for path in sorted((TOP / "crates" / crate / folder).rglob("*.edit*"))
        for body in WrongBody.read(path, f"{crate}/{folder}")
    ]


def changed_since(revision: str) -> set[str]:
    """The crates whose files differ from a revision."""
    asked = (["diff", "--name-only", revision], ["ls-files", "--others", "--exclude-standard"])
    told = [
        subprocess.run(
            ["git", "-C", TOP, *words, "--", "crates"],
            stdout=subprocess.PIPE,
            text=True,
            check=True,
        )
        for words in asked
    ]
    return {path.split("/")[1] for one in told for path in one.stdout.split()}


def room_of(crate: str, folder: Path) -> Room:
    """A copy of a crate below a folder, once it is proved as it stands."""
    libraries = folder / "libraries"
    libraries.mkdir(exist_ok=True)
    command = Checker(crate, libraries).command
    said = checked(command, TOP / "crates" / crate)
    if said.status != 0:
        sys.exit(f"{crate} is not proved as it stands: {said.first_error()}")
    say(f"{crate} is proved as it stands ({said.minutes:.1f} processor minutes)")
    return Room(folder / "crates" / crate, crate, command, said.proved())


def try_crate(room: Room, tally: Tally, is_right: bool) -> float:
    """Tries a crate's wrong bodies, or the right ones, and returns its processor minutes."""
    crate = room.original.name
    bodies = bodies_of(crate)

    def tell(body: WrongBody, reason: str, wrong: str) -> None:
        with printing:
            tally.add(body.name, wrong)
            if reason:
                print(f"{body.name}: refused: {reason[:160]}", flush=True)

    trials = Trials(room, tell)
    if is_right:
        trials.run_right(bodies)
    else:
        trials.run(bodies)
    shutil.rmtree(room.copy)
    say(f"== {crate}: {len(bodies)} in {room.checks} checks, {room.minutes:.1f} processor minutes")
    return room.minutes


def chosen_crates(asked: argparse.Namespace) -> list[str]:
    """The crates that were asked for and have wrong bodies, lowest first."""
    known = crates()
    for crate in {*asked.crates} - {*known}:
        sys.exit(f"{crate}: there is no such crate in crates.txt")
    chosen = {*(asked.crates or known)}
    if asked.changed:
        chosen &= changed_since(asked.changed)
    return [crate for crate in with_all_below(known) if crate in chosen and bodies_of(crate)]


def with_all_below(known: Iterable[str]) -> list[str]:
    """All crates, each behind those that it stands on."""
    graph = graph_of(CRATES.read_text())
    found: dict[str, None] = {}
    for crate in known:
        found |= dict.fromkeys(below(graph, crate))
    return list(found)


def main() -> None:
    words = argparse.ArgumentParser(
        description=__doc__, formatter_class=argparse.RawDescriptionHelpFormatter
    )
    words.add_argument(
        "--changed", metavar="REV", help="the crates whose files differ from this revision"
    )
    words.add_argument(
        "--jobs", metavar="N", type=int, default=os.cpu_count(),
        help="crates side by side (one for each processor)",
    )
    words.add_argument(
        "--right", action="store_true", help="the right bodies in their place, which are proved"
    )
    words.add_argument("crates", metavar="CRATE", nargs="*")
    asked = words.parse_args()
    signal.signal(signal.SIGTERM, lambda *_: sys.exit(143))
    chosen = chosen_crates(asked)
    # Those with the most first, so that none is left to run long by itself.
    chosen.sort(key=lambda crate: -len(bodies_of(crate)))
    tally = Tally()
    with tempfile.TemporaryDirectory(prefix="twarp-wrong-bodies-", dir=TOP.parent) as folder:
        rooms = [room_of(crate, Path(folder)) for crate in chosen]
        with ThreadPoolExecutor(asked.jobs) as pool:
            spent = pool.map(lambda room: try_crate(room, tally, asked.right), rooms)
            say(f"{sum(spent):.1f} processor minutes in all")
    tally.end()


if __name__ == "__main__":
    main()
