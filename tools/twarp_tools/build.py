"""A program of the clone, proved and built where it is not, as by `./twarp --build`, or run without proofs, by `--try`.

The compiler `rattle` builds a crate only where it has proved it. The libraries that earlier builds proved are kept,
each under a sum of what its proof reads.
"""
import contextlib
import fcntl
import hashlib
import os
import re
import shutil
import signal
import subprocess
import sys
import tempfile
import time
from collections.abc import Iterator, Sequence
from functools import partial
from pathlib import Path
from typing import NamedTuple, NoReturn

ROOT = Path(__file__).resolve().parents[2]
RT = "rt"

# Exit statuses of a shell: a command that is there and did not run, and one that is missing.
NOT_RUN, MISSING = 126, 127

NOTICE = "this run is not proved: the program is built without proofs, in a minute or two, and checked while it runs"
LIMITS = "A run by --try writes at most 1 MiB and takes at most a minute; {} makes a program without these limits"
INPUT_LIMIT = 64 << 20
STANDARD_INPUT = 0

# What rt says after the program's own standard error where the program ended, and where it did not.
ENDED = re.compile(rb"^checked: ended status=\d+\n(?:.*\n)*?run=ended status=(\d+) .*proved=no\n\Z", re.M)
NO_ANSWER = re.compile(rb"^checked: no-answer: (.*)$", re.M)

# The signals that end the script, and its children with it.
ENDING = signal.SIGINT, signal.SIGTERM, signal.SIGHUP

# What a check takes of memory, which few exceed.
MEMORY_OF_A_CHECK = 2_500_000_000
SECONDS_BETWEEN_LOOKS = 0.2
# Sizes tell the times of proofs no better than to a fifth.
NEARLY = 0.8

# Which toolchain built the program, beside it: the script compares it with the one on the PATH.
KEPT_NAME = "toolchain"
TARGET = "x86_64-unknown-linux-gnu"
# Git ignores this folder. Each library is an archive: it holds sources, and rt refuses those outside a crate's folder.
KEPT = ROOT / "out/libraries"
SOURCES = ("src", "specs", "proofs")
KILLED = "rattle was killed, most likely for want of memory\n"


class Made:
    """A program that a crate of the clone makes. Its name is that of its script."""

    def __init__(self, crate: str):
        self.crate, self.name = crate, crate.replace("_", "-")
        self.folder = ROOT / "crates" / crate
        self.file = self.folder / "out" / crate

    def tell(self, message: str) -> None:
        print(f"{self.name}: {message}", file=sys.stderr, flush=True)


def find_kit(made: Made) -> Path | None:
    """The toolchain's folder, or None with a word on standard error where it is not on the PATH."""
    if found := shutil.which(RT):
        return Path(found).resolve().parents[1]
    made.tell("the command rt of the Rattle toolchain is missing: put its folder bin on the PATH")
    return None


def end_with_signals() -> None:
    """Has INT, TERM and HUP end this script as an exit does, which ends its children."""
    for number in ENDING:
        signal.signal(number, lambda number, _: sys.exit(128 + number))


@contextlib.contextmanager
def signals_held_back() -> Iterator[None]:
    """Has signals that end this script wait while a command is started, so that none is left running by itself."""
    signal.pthread_sigmask(signal.SIG_BLOCK, ENDING)
    try:
        yield
    finally:
        signal.pthread_sigmask(signal.SIG_UNBLOCK, ENDING)


def begin(words: list[str], **how: object) -> subprocess.Popen[bytes]:
    """Starts a command, which signals reach as usual."""
    return subprocess.Popen(words, preexec_fn=partial(signal.pthread_sigmask, signal.SIG_UNBLOCK, ENDING), **how)


@contextlib.contextmanager
def started(words: list[str], cwd: Path, **how: object) -> Iterator[subprocess.Popen[bytes]]:
    """A command in a crate. It is ended where this script is, by INT, TERM or HUP too."""
    end_with_signals()
    with contextlib.ExitStack() as ends:
        with signals_held_back():
            child = ends.enter_context(begin(words, cwd=cwd, **how))
            ends.callback(child.terminate)
        yield child


Graph = dict[str, list[str]]


class Share(NamedTuple):
    """What the proof of a crate gets of the processors."""

    provers: int
    gives_way: bool


def uses_of(text: str) -> Graph:
    """The crates of a crates.txt, each with the libraries that it uses, the toolchain's too."""
    lines = [line.partition("#")[0].partition(":") for line in text.splitlines()]
    return {head.split()[0]: words.split() for head, _, words in lines if head.strip()}


def graph_of(text: str) -> Graph:
    """The crates of a crates.txt, each with those of them that it uses."""
    uses = uses_of(text)
    return {name: [word for word in words if word in uses] for name, words in uses.items()}


def below(graph: Graph, top: str) -> list[str]:
    """A crate and all that it stands on, each after those that it uses."""
    found: dict[str, None] = {}
    for crate in graph[top]:
        found |= dict.fromkeys(below(graph, crate))
    return [*found, top]


def chains(graph: Graph, top: str, size: dict[str, int]) -> dict[str, int]:
    """The size of the longest chain that begins with each crate below the top and goes up to the top."""
    longest: dict[str, int] = {}
    for crate in reversed(below(graph, top)):
        longest[crate] = size[crate] + max((longest[other] for other in longest if crate in graph[other]), default=0)
    return longest


def choose(graph: Graph, chain: dict[str, int], done: set[str], running: set[str], cores: int) -> dict[str, Share]:
    """The crates to begin now, where those of `done` are proved.

    Crates that head longer chains come first. The longest chain decides when all is done, so the crates that head it,
    or one nearly as long, share the processors that would be idle, and have half of all at least. The others have one
    prover each, since more take more processor time together, and give way to them. Of a crate that is being proved,
    only what waits for it counts: how much of its own proof is left is not known.
    """
    ready = [crate for crate in chain if crate not in done | running and done.issuperset(graph[crate])]
    begun = sorted(ready, key=lambda crate: -chain[crate])[: cores - len(running)]
    waiting = [crate for crate in chain if not running.isdisjoint(graph[crate])]
    longest = max((chain[crate] for crate in begun + waiting), default=0)
    heads = [crate for crate in begun if chain[crate] >= NEARLY * longest]
    idle = cores - len(running) - len(begun)
    first = Share(max(cores // 2, 1 + idle // max(len(heads), 1)), gives_way=False)
    return {crate: first if crate in heads else Share(1, gives_way=True) for crate in begun}


def sum_of(*texts: bytes) -> str:
    parts = [hashlib.sha256(text).hexdigest() for text in texts]
    return hashlib.sha256("\n".join(parts).encode()).hexdigest()


class Compiler:
    """Proves the crates of a program side by side and builds them into a folder, each over the libraries there."""

    def __init__(self, kit: Path, crates: str, folder: Path, made: Made):
        self.kit, self.folder, self.made = kit, folder, made
        self.uses, self.graph = uses_of(crates), graph_of(crates)
        self.running: dict[str, subprocess.Popen[bytes]] = {}
        self.noted: dict[str, Path] = {}

    def end(self) -> None:
        """Ends what is running."""
        for child in self.running.values():
            child.terminate()
        for child in self.running.values():
            child.wait()

    def archive(self, crate: str) -> Path:
        """Its place, which another text of the crate, another toolchain or another library that it uses would change."""
        own, uses = ROOT / "crates" / crate, self.uses[crate]
        files = sorted(file for part in SOURCES for file in (own / part).rglob("*.*"))
        sources = sum_of(*(text for file in files for text in (bytes(file.relative_to(own)), file.read_bytes())))
        libraries = [self.folder / f"{name}.rlib/format" for name in uses if name in self.uses]
        texts = [sources.encode(), (self.kit / "WHAT").read_bytes(), " ".join(uses).encode()]
        return KEPT / f"{crate}-{sum_of(*texts, *(library.read_bytes() for library in libraries))}.tar"

    def give(self, crate: str) -> bool:
        """Takes a library that an earlier build proved over the very libraries that are there."""
        with contextlib.suppress(FileNotFoundError):
            shutil.unpack_archive(self.archive(crate), self.folder)
            return True
        return False

    def keep(self, crate: str) -> None:
        """Keeps a library that was made just now, in place of earlier ones, if nothing was changed meanwhile."""
        if (archive := self.archive(crate)) == self.noted[crate]:
            made = shutil.make_archive(f"{KEPT / crate}.part", "tar", self.folder, f"{crate}.rlib")
            for old in KEPT.glob(f"{crate}-*.tar"):
                old.unlink()
            os.replace(made, archive)

    def words(self, crate: str, jobs: int) -> list[str]:
        """What rattle is called with. What stands above a library reads its statements alone, as in the gate."""
        kit, is_program = self.kit, crate == self.made.crate
        words = ["build", "--crate-name", crate, "src/main.rt" if is_program else "src/lib.rt"]
        for name in ["std", *self.uses[crate]]:
            words.append(f"--extern={name}={self.folder if name in self.uses else kit / 'rlibs'}/{name}.rlib")
        words += [f"-Ldependency={folder}" for folder in (self.folder, kit / "rlibs")]
        words += ["--antt-project", f"{kit}/rattle/logic/antt-project.json", "--logic-built", f"{kit}/logic_built"]
        # The crate declares no function of C, which rattle holds it to.
        words += [f"--links={crate}=", "--jobs", str(jobs)]
        made = ["--toolchain", f"{kit}/toolchain"] if is_program else ["--statements"]
        return [*words, *made, "-o", f"{self.folder}/{crate}.{'o' if is_program else 'rlib'}"]

    def start(self, crate: str, share: Share) -> None:
        """Begins to prove a crate, and notes what its proof reads. Those that it uses are built."""
        self.noted[crate] = self.archive(crate)
        words = ["nice"] * share.gives_way + [f"{self.kit}/bin/rattle", *self.words(crate, share.provers)]
        with open(self.folder / f"{crate}.log", "wb") as log, signals_held_back():
            how = {"stdin": subprocess.DEVNULL, "stdout": log, "stderr": subprocess.STDOUT}
            self.running[crate] = begin(words, cwd=ROOT / "crates" / crate, **how)

    def ended(self) -> Iterator[tuple[str, str | None]]:
        """The crates whose proofs have ended, each with what rattle said where it is not built."""
        for crate, child in [*self.running.items()]:
            if child.poll() is not None:
                del self.running[crate]
                with open(self.folder / f"{crate}.log", errors="replace") as log:
                    told = [line for line in log if not line.endswith(": proved\n")]
                told += [KILLED] * (child.returncode < 0)
                yield crate, "".join([f"== {crate}\n", *told]) if child.returncode else None

    def prove(self, crates: list[str]) -> str | None:
        """Proves the crates side by side, and builds them. Gives what rattle said where one is not proved."""
        start, cores = time.monotonic(), checks_at_once()
        # The time of a proof is guessed by the bytes of the code.
        code = {crate: (ROOT / "crates" / crate / "src").rglob("*.rt") for crate in crates}
        sizes = {crate: sum(file.stat().st_size for file in files) for crate, files in code.items()}
        chain = chains(self.graph, crates[-1], sizes)
        done = {crate for crate in crates[:-1] if self.give(crate)}
        while len(done) < len(crates):
            begun = choose(self.graph, chain, done, {*self.running}, cores)
            for crate, share in begun.items():
                self.start(crate, share)
            if begun:
                told = f"{len(done)} of {len(crates)} crates after {(time.monotonic() - start) / 60:.1f} minutes"
                self.made.tell(f"{told}; now {', '.join(self.running)}")
            time.sleep(SECONDS_BETWEEN_LOOKS)
            for crate, refused in self.ended():
                if refused is not None:
                    return refused
                done.add(crate)
                if crate != crates[-1]:
                    self.keep(crate)
        return None

    def link(self) -> str | None:
        """Links the program that was built. Gives what was said where it is not linked."""
        kit, program = self.kit, self.made.file
        new = program.with_name(f"{program.name}.new")
        new.parent.mkdir(exist_ok=True)
        words = [f"{kit}/bin/rattle-link", "--target", TARGET, "--toolchain", f"{kit}/toolchain", "-o", f"{new}"]
        words += [f"{self.folder}/{self.made.crate}.o", f"{kit}/c/libos_c.a", f"{kit}/c/liblibc_c.a"]
        linked = subprocess.run(words, stdin=subprocess.DEVNULL, stdout=subprocess.PIPE, stderr=subprocess.STDOUT)
        if linked.returncode:
            return linked.stdout.decode(errors="replace")
        os.replace(new, program)
        return None


def checks_at_once() -> int:
    """How many checks the processors and the memory have room for."""
    memory = os.sysconf("SC_PHYS_PAGES") * os.sysconf("SC_PAGE_SIZE")
    return max(1, min(len(os.sched_getaffinity(0)), memory // MEMORY_OF_A_CHECK))


@contextlib.contextmanager
def alone(made: Made) -> Iterator[bool]:
    """Lets one build at a time work in this clone. Whether another one had to end first."""
    KEPT.mkdir(parents=True, exist_ok=True)
    with contextlib.ExitStack() as ends:
        folder, has_waited = os.open(KEPT, os.O_RDONLY), False
        ends.callback(os.close, folder)
        try:
            fcntl.flock(folder, fcntl.LOCK_EX | fcntl.LOCK_NB)
        except BlockingIOError:
            made.tell("waiting for another build in this clone to end")
            fcntl.flock(folder, fcntl.LOCK_EX)
            has_waited = True
        yield has_waited


def build(kit: Path, made: Made) -> str | None:
    """Proves and builds the program. Gives what was said where it is not built."""
    began, text = time.time(), (ROOT / "crates.txt").read_text()
    crates = below(graph_of(text), made.crate)
    made.tell(f"proving and building the program: {len(crates)} crates, up to {checks_at_once()} at a time")
    with contextlib.ExitStack() as ends:
        folder = Path(ends.enter_context(tempfile.TemporaryDirectory(prefix="twarp-build-")))
        compiler = Compiler(kit, text, folder, made)
        ends.callback(compiler.end)
        if (refused := compiler.prove(crates) or compiler.link()) is None:
            # An edit during the build leaves it stale.
            os.utime(made.file, (began, began))
            made.file.with_name(KEPT_NAME).write_bytes((kit / "WHAT").read_bytes())
    return refused


def become(program: Path, words: Sequence[str]) -> NoReturn:
    """Lets the program take this process's place, with the signals that a shell gives it."""
    for number in signal.SIGPIPE, signal.SIGXFSZ:
        signal.signal(number, signal.SIG_DFL)
    os.execv(program, [str(program), *words])


def explain(made: Made, status: int, said: bytes) -> int:
    """Gives the program's exit status, and writes its standard error; or says why it has none."""
    ended = ENDED.search(said)
    if ended and int(ended[1]) == status:
        sys.stderr.buffer.write(said[: ended.start()])
        return status
    if why := NO_ANSWER.search(said):
        made.tell(f"no answer: {why[1].decode(errors='replace')}. {LIMITS.format(f'./{made.name} --build')}")
    else:
        sys.stderr.buffer.write(said)
        sys.stderr.flush()
        made.tell("the program did not run to its end; what rt said of it stands above")
    return NOT_RUN


def unproved(made: Made, words: list[str]) -> int:
    """Runs the program on all of standard input, kept in a file: rt reads no terminal, and waits little for a pipe."""
    made.tell(f"{NOTICE} (proved: ./{made.name} --build)")
    with tempfile.TemporaryFile() as room:
        # A program that is asked for help reads none.
        if words and not {"help", "--help", "-h", "--version", "-V"} & {*words}:
            with open(STANDARD_INPUT, "rb", closefd=False) as source:
                if room.write(source.read(INPUT_LIMIT + 1)) > INPUT_LIMIT:
                    made.tell("a run by --try reads at most 64 MiB")
                    return NOT_RUN
        room.seek(0)
        with started([RT, "try", "--", *words], made.folder, stdin=room, stderr=subprocess.PIPE) as child:
            said = child.stderr.read()
    return explain(made, child.returncode, said)


def main() -> int:
    """Builds the program of a crate, and runs it with the words behind `--then`; or `--try`, without proofs."""
    made, mode, words = Made(sys.argv[1]), sys.argv[2:3], sys.argv[3:]
    if (kit := find_kit(made)) is None:
        return MISSING
    try:
        if mode == ["--try"]:
            return unproved(made, words)
        end_with_signals()
        with alone(made) as has_waited:
            if has_waited:
                # What the other build left need not be built again.
                become(ROOT / made.name, words if mode else ["--build"])
            refused = build(kit, made)
    except OSError as error:
        what = "standard input or rt can't be read" if mode == ["--try"] else "the program was not built"
        made.tell(f"{what}: {error}")
        return NOT_RUN
    if refused is not None:
        print(refused, end="", file=sys.stderr)
        made.tell("the program was not built; what rattle said stands above")
        return NOT_RUN
    made.tell("the program is proved and built")
    if mode:
        become(made.file, words)
    return 0
