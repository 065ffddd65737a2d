"""Runs of commands with one allocation or one thread refused."""
from __future__ import annotations

import itertools
import os
import shutil
import subprocess
import sys
from collections.abc import Iterator, Sequence
from pathlib import Path
from typing import NamedTuple

from common import Ended, Word, run

# Refuses allocation number REFUSE, from 1, of all threads together, or thread number
# REFUSE_THREAD, and writes a byte to the file REFUSED where there was one. The file STARTED gets
# as many bytes as allocations were made before the first thread. It includes no header, so that
# any C compiler makes it.
LIBRARY = r"""
typedef unsigned long size_t;
void *dlsym(void *handle, const char *name);
char *getenv(const char *name);
unsigned long strtoul(const char *text, char **end, int base);
int open(const char *file, int flags, ...);
long write(int handle, const void *bytes, size_t size);
int ftruncate(int handle, long size);
int close(int handle);
void _exit(int status);
static void *const NEXT = (void *)-1L;
static unsigned long wanted, seen, wanted_thread, threads;
static int is_next(unsigned long *count, unsigned long number) {
    int handle;
    if (__atomic_add_fetch(count, 1, __ATOMIC_SEQ_CST) != number) return 0;
    handle = open(getenv("REFUSED"), 0101, 0600);
    if (write(handle, "r", 1) != 1) _exit(99);
    close(handle);
    return 1;
}
static int refuses(void) {
    return is_next(&seen, wanted);
}
static unsigned long number_in(const char *name) {
    const char *word = getenv(name);
    return word ? strtoul(word, 0, 10) : 0;
}
static void tell_seen(const char *file) {
    int handle = open(file, 0101, 0600);
    if (ftruncate(handle, seen)) _exit(99);
    close(handle);
}
__attribute__((constructor)) static void begin(void) {
    seen = threads = 0;
    wanted = number_in("REFUSE");
    wanted_thread = number_in("REFUSE_THREAD");
}
int pthread_create(void *thread, const void *how, void *(*start)(void *), void *given) {
    int (*next)(void *, const void *, void *(*)(void *), void *) = dlsym(NEXT, "pthread_create");
    if (!threads && getenv("STARTED")) tell_seen(getenv("STARTED"));
    return is_next(&threads, wanted_thread) ? 11 : next(thread, how, start, given);
}
void *malloc(size_t size) {
    void *(*next)(size_t) = dlsym(NEXT, "malloc");
    return refuses() ? 0 : next(size);
}
void *realloc(void *old, size_t size) {
    void *(*next)(void *, size_t) = dlsym(NEXT, "realloc");
    return refuses() ? 0 : next(old, size);
}
"""


def compiler() -> list[str]:
    """$CC, or cc, or the compiler of the toolchain that rt belongs to."""
    if "CC" in os.environ:
        return os.environ["CC"].split()
    if shutil.which("cc"):
        return ["cc"]
    rt = shutil.which("rt")
    clang = Path(rt or "/").resolve().parent.parent / "toolchain/bin/clang"
    if clang.exists():
        return [str(clang), "-fuse-ld=lld"]
    sys.exit("there is no C compiler: set CC")


class Refusal(NamedTuple):
    """How a command ended with the allocation of this number, from 1, refused."""

    number: int
    ended: Ended


class Refuser:
    """Runs commands with one allocation refused, by a library put before the C library."""

    def __init__(self, folder: Path) -> None:
        """The library is made in the folder."""
        self.folder = folder
        self.library = folder / "refuse.so"
        self.marks = itertools.count()
        source = folder / "refuse.c"
        source.write_text(LIBRARY)
        how = ["-shared", "-fPIC", "-nostdlib", "-fno-builtin"]
        subprocess.run([*compiler(), *how, "-o", self.library, source], check=True)

    def refuse(self, what: str, number: int, words: Sequence[Word], stdin: Path) -> Ended | None:
        """How the command ended where that was refused; None where it ends and asks for fewer."""
        mark = self.folder / f"refused-{next(self.marks)}"
        env = {"LD_PRELOAD": str(self.library), what: str(number), "REFUSED": str(mark)}
        done = run(words, stdin, env=env)
        if not mark.exists():
            return done if done.status is None else None
        mark.unlink()
        return done

    def run(self, number: int, words: Sequence[Word], stdin: Path) -> Ended | None:
        """How the command ended with the allocation of this number, from 1, refused."""
        return self.refuse("REFUSE", number, words, stdin)

    def run_without_thread(self, number: int, words: Sequence[Word], stdin: Path) -> Ended | None:
        """How the command ended with the thread of this number, from 1, refused."""
        return self.refuse("REFUSE_THREAD", number, words, stdin)

    def allocations_before_threads(self, words: Sequence[Word], stdin: Path) -> int:
        """How many allocations a command that starts threads makes before the first."""
        told = self.folder / f"started-{next(self.marks)}"
        run(words, stdin, env={"LD_PRELOAD": str(self.library), "STARTED": str(told)})
        return told.stat().st_size

    def each(self, words: Sequence[Word], stdin: Path, step: int = 1) -> Iterator[Refusal]:
        """Refuses allocation 1, 1 + step, .. to the last, or to one that never lets it end."""
        for number in itertools.count(1, step):
            done = self.run(number, words, stdin)
            if done is None:
                return
            yield Refusal(number, done)
            if done.status is None:
                return
