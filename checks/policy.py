#!/usr/bin/env python3
"""Runs the built program twarp-policy on cases that are known, and on what twarp runs of them.

    policy.py                            after rt ci

What is known of the cases is from the literature (`cases/README.md`). Where the program tells that
a case is safe, twarp runs it to the time told: nothing may be pending then, and each router has to
use the path told. What is left then must hold for other delays too. Each dispute wheel that is told
is judged by its definition, also on random policies, and robust must be what has a topological
order, each path after the better ones of its router and after the one that it goes on with.
"""
from __future__ import annotations

import random
import re
import sys
import tempfile
from graphlib import CycleError, TopologicalSorter
from pathlib import Path

from common import CASES, NOTHING, POLICY, PROGRAM, TOP, Ended, Tally, need, run, run_at_a_terminal

# Where there is no dispute wheel, and where there is one by how the routers stand once the script is over.
KNOWN = {
    "good-gadget": "robust",
    "failure-and-repair": "robust",
    "shortest-1": "robust",
    "shortest-2": "robust",
    "disagree": "wheel",
    "naughty-gadget": "wheel",
    "bad-gadget": "wheel",
    "bad-backup": "wheel",
    "one-violation": "wheel",
    "ring-of-three": "wheel",
    "wedgie": "wheel",
}

# DISAGREE, by hand: one round takes the empty path, since the origin always offers its own. Its dispute
# wheel is that of Griffin, Shepherd and Wilfong 2002.
DISAGREE = """\
spp-safe 1
rounds 1
router 0 uses (0)
router 1 may use (1 2 0) (1 0)
router 2 may use (2 1 0) (2 0)
wheel 1 (1 0) (1 2 0)
wheel 2 (2 0) (2 1 0)
verdict wheel
"""

# How many stable assignments there are.
STABLE = {
    "good-gadget": 1,
    "failure-and-repair": 1,
    "shortest-1": 1,
    "shortest-2": 1,
    "disagree": 2,
    "naughty-gadget": 1,
    "bad-gadget": 0,
    "bad-backup": 0,
    "one-violation": 0,
    "ring-of-three": 0,
    "wedgie": 2,
}

# The two stable assignments of DISAGREE, by hand: one router has the way by the other.
DISAGREE_STABLE = """\
spp-stable 1
assignment 1
router 0 rib (0)
router 1 rib (1 2 0)
router 2 rib (2 0)
assignment 2
router 0 rib (0)
router 1 rib (1 0)
router 2 rib (2 1 0)
verdict stable 2
"""

# What the help says of the program, and of each command.
HELP = {
    (): ["Usage: twarp-policy ", "  safe ", "  stable ", "  -h, --help", "  -V, --version", "Exit status:"],
    ("safe",): ["Usage: twarp-policy safe", "verdict wheel", "Exit status:"],
    ("stable",): ["Usage: twarp-policy stable ", "--splits <COUNT>", "0 to 1000000000, or else 100000", "Exit status:"],
}

# Words that are no command line, with what is said of them: the word, what is expected, a tip.
TIP = "tip: the case comes from standard input, as in: twarp-policy safe < case.spp\n"
REFUSED = {
    (): ["error: ", "requires a subcommand", "Usage: twarp-policy "],
    ("seq",): ["error: ", "'seq'", "Usage: twarp-policy "],
    ("stabl",): ["'stabl'", "a similar subcommand exists: 'stable'"],
    ("safe", "--stop"): ["'--stop'", "Usage: twarp-policy safe"],
    ("safe", "case.spp"): ["'case.spp'", "Usage: twarp-policy safe", TIP],
    ("stable", "--split", "1"): ["'--split'", "'--splits'"],
    ("stable", "--splits"): ["'--splits <COUNT>'", "value is required"],
    ("stable", "--splits", "x"): ["'x'", "'--splits <COUNT>'"],
    ("stable", "--splits", "-1"): ["'-1'"],
    ("stable", "--splits=1000000001"): ["1000000001", "'--splits <COUNT>'", "0..=1000000000"],
    ("stable", "--splits", "1", "--splits", "2"): ["'--splits <COUNT>'", "multiple times"],
}

USES = re.compile(r"router (\d+) uses (\([\d ]*\))")
PATH = re.compile(r"^path \d+ ([\d ]+)$", re.M)
WHEEL = re.compile(r"^wheel (\d+) \(([\d ]+)\) \(([\d ]+)\)$", re.M)
LATEST = 1_000_000_000
RANDOM_POLICIES = 100

Nodes = tuple[int, ...]


def judge(source: Path) -> Ended:
    return run([POLICY, "safe"], source)


def list_stable(source: Path, *options: str) -> Ended:
    return run([POLICY, "stable", *options], source)


def rings(*sizes: int) -> str:
    """Rings beside one another, each router of which would rather go by the next one: two of them have
    two ways to agree (DISAGREE), and three have none."""
    firsts = [1 + sum(sizes[:k]) for k in range(len(sizes))]
    ways = [(first + k, first + (k + 1) % size) for first, size in zip(firsts, sizes) for k in range(size)]
    lines = ["spp 1", f"nodes {sum(sizes) + 1}"]
    lines += [f"link 0 {v} 1" for v, _ in ways]
    lines += [f"link {a} {b} 1" for a, b in sorted({(min(way), max(way)) for way in ways})]
    for v, by in ways:
        lines += [f"path {v} {v} {by} 0", f"path {v} {v} 0"]
    return "\n".join([*lines, "end", ""])


def with_other_delays(text: str, seed: int) -> str:
    """The case with delays drawn anew."""
    lot = random.Random(seed)
    return re.sub(r"^(link \d+ \d+)(?: \d+)+$", lambda m: m[1] + f" {lot.randint(1, 9)}" * (len(m[0].split()) - 3), text, flags=re.M)


def wrong_run(told: str, source: Path) -> str | None:
    """What is wrong with what is told of a safe case, by its run to the time told."""
    time = int(re.search(r"rests before (\d+)", told)[1])
    if time > LATEST:
        return None
    report = run([PROGRAM, "seq", "--stop", str(time)], source).out.decode()
    ribs = dict(re.findall(r"router (\d+) .* rib (\([\d ]*\))", report))
    if "verdict quiet" not in report:
        return f"it is not at rest at {time}"
    return None if ribs == dict(USES.findall(told)) else "the run ends with other paths"


def nodes_of(words: str) -> Nodes:
    return tuple(map(int, words.split()))


def orders_of(text: str) -> dict[int, list[Nodes]]:
    """The paths of each router, best first, of a case that exchanges no ranks."""
    orders: dict[int, list[Nodes]] = {}
    for words in PATH.findall(text):
        nodes = nodes_of(words)
        orders.setdefault(nodes[0], []).append(nodes)
    return orders


def wrong_pivot(orders: dict[int, list[Nodes]], router: int, spoke: Nodes, rim: Nodes, following: Nodes) -> str | None:
    """What is wrong with a pivot whose rim path has to go on with the spoke that follows."""
    ranks = orders[router]
    if spoke not in ranks or rim not in ranks or ranks.index(spoke) <= ranks.index(rim):
        return f"router {router} would not rather have {rim} than {spoke}"
    tails = [rim[hop:] for hop in range(1, len(rim))]
    if following not in tails:
        return f"{rim} does not go on with {following}"
    way = tails[: tails.index(following) + 1]
    return None if all(tail in orders[tail[0]] for tail in way) else f"{rim} leads by a path that is not ranked"


def wrong_wheel(told: str, text: str) -> str | None:
    """What is wrong with the dispute wheel told, by the definition of Griffin, Shepherd and Wilfong 2002."""
    orders = orders_of(text)
    pivots = [(int(router), nodes_of(spoke), nodes_of(rim)) for router, spoke, rim in WHEEL.findall(told)]
    if not pivots:
        return "no pivot is told"
    ring = zip(pivots, pivots[1:] + pivots[:1])
    return next(filter(None, (wrong_pivot(orders, *pivot, following[1]) for pivot, following in ring)), None)


def has_one_list(text: str) -> bool:
    """Whether all paths have a topological order, each after the better ones of its router and after the one that it goes on with."""
    orders = orders_of(text)
    before = {path: {*ranks[:place], path[1:]} for ranks in orders.values() for place, path in enumerate(ranks)}
    try:
        TopologicalSorter(before).prepare()
    except CycleError:
        return False
    return True


def random_policy(seed: int) -> str:
    """A case without a script: all routers are neighbours, and rank some paths and their rests at random."""
    lot = random.Random(seed)
    nodes = lot.randint(3, 8)
    lines = ["spp 1", f"nodes {nodes}"]
    lines += [f"link {first} {second} {lot.randint(1, 9)}" for first in range(nodes) for second in range(first + 1, nodes)]
    drawn = [(*lot.sample(range(1, nodes), lot.randint(1, min(4, nodes - 1))), 0) for _ in range(2 * nodes)]
    paths = sorted({path[hop:] for path in drawn for hop in range(len(path) - 1)})
    lines += [f"path {path[0]} {' '.join(map(str, path))}" for path in lot.sample(paths, len(paths))]
    return "\n".join([*lines, "end", ""])


def check_random(tally: Tally, folder: Path) -> None:
    """Random policies: each wheel told is one, and what is safe comes to rest with the paths told."""
    for seed in range(RANDOM_POLICIES):
        source = folder / "random.spp"
        text = random_policy(seed)
        source.write_text(text)
        done = judge(source)
        told = done.out.decode()
        verdict = told.split()[-1]
        wrong = wrong_wheel(told, text) if verdict == "wheel" else wrong_run(told, source)
        if (verdict == "robust") != has_one_list(text):
            wrong = f"the verdict is {verdict}"
        tally.add(f"random policy {seed}", wrong if done.status == 0 else told)


def check_case(tally: Tally, name: str, verdict: str, folder: Path) -> None:
    source = CASES / f"{name}.spp"
    done = judge(source)
    told = done.out.decode()
    tally.add(f"verdict on {name}", None if done.status == 0 and told.endswith(f"verdict {verdict}\n") else told)
    if verdict == "wheel":
        tally.add(f"wheel of {name}", wrong_wheel(told, source.read_text()))
    else:
        tally.add(f"run of {name}", wrong_run(told, source))
    for seed in range(5):
        other = folder / "other.spp"
        other.write_text(with_other_delays(source.read_text(), seed))
        again = judge(other).out.decode()
        same = re.sub(r"rests before \d+", "", again) == re.sub(r"rests before \d+", "", told)
        tally.add(f"other delays of {name}", None if same else again)
        if verdict != "wheel":
            tally.add(f"run of {name} by other delays", wrong_run(again, other))


def check_failure(tally: Tally, folder: Path) -> None:
    """DISAGREE without its link from 0 to 1: router 1 has the way by 2 alone. So it is safe, and not robust."""
    source = folder / "failure.spp"
    source.write_text((CASES / "disagree.spp").read_text().replace("end\n", "fail 3 0 1\nend\n"))
    told = judge(source).out.decode()
    tally.add("DISAGREE after a failure", None if told.endswith("verdict safe\n") else told)
    tally.add("run of DISAGREE after a failure", wrong_run(told, source))


def random_relationships(seed: int) -> str:
    """Forty ASes, each but the first a customer of one or two before it, and some of them peers."""
    lot = random.Random(seed)
    providers = {(provider, customer) for customer in range(2, 41) for provider in lot.choices(range(1, customer), k=2)}
    peers = {tuple(sorted(lot.sample(range(1, 41), 2))) for _ in range(20)} - providers
    return "\n".join([*(f"{one}|{two}|-1" for one, two in sorted(providers)), *(f"{one}|{two}|0" for one, two in sorted(peers)), ""])


def check_hierarchies(tally: Tally, folder: Path) -> None:
    """Policies by the conditions of Gao and Rexford 2001 have no dispute wheel."""
    source = folder / "hierarchy.spp"
    for seed in range(5):
        source.write_text(random_relationships(seed))
        source.write_bytes(run([TOP / "tools/relationships", "--destination", "40"], source).out)
        told = judge(source).out.decode()
        tally.add(f"hierarchy {seed}", None if told.endswith("verdict robust\n") else told[-200:])


def check_stable(tally: Tally, folder: Path) -> None:
    """How many stable assignments there are, and what is told where the splits do not suffice."""
    for name, count in STABLE.items():
        told = list_stable(CASES / f"{name}.spp").out.decode()
        tally.add(f"stable assignments of {name}", None if told.endswith(f"verdict stable {count}\n") else told)
    done = list_stable(CASES / "disagree.spp")
    tally.add("stable assignments of DISAGREE by hand", None if done == Ended(0, DISAGREE_STABLE.encode(), b"") else f"{done}")
    source = folder / "pairs.spp"
    source.write_text(rings(*[2] * 6))
    # Each of the 6 pairs doubles the assignments: 64 at the ends of 63 splits.
    for splits, verdict in [(63, "stable 64"), (62, "stable at least 62"), (6, "stable at least 2"), (0, "stable at least 0")]:
        told = list_stable(source, "--splits", str(splits)).out.decode()
        ends = told.endswith(f"verdict {verdict}\n") and told.count("assignment") == int(verdict.split()[-1])
        tally.add(f"six pairs by {splits} splits", None if ends else told[-60:])


def check_terminal(tally: Tally, folder: Path) -> None:
    """On a terminal a search that takes its time has one line, which is gone in the end, and says the same on standard output."""
    source = folder / "rings.spp"
    source.write_text(rings(*[2] * 20, 3))
    words = [POLICY, "stable", "--splits", "300000"]
    done, written = run_at_a_terminal(words, source)
    line = rb"\d+ of 300000 splits: 0 assignments"
    wrong = None if done == run(words, source) else "another answer"
    is_told = re.fullmatch(rb"(?:\r" + line + rb"\x1b\[K)+\r\x1b\[K", written)
    tally.add("a long search at a terminal", wrong or (None if is_told else f"it wrote {written!r}"))
    done, written = run_at_a_terminal([POLICY, "stable"], CASES / "disagree.spp")
    tally.add("a short search at a terminal", f"it wrote {written!r}" if written else None)


def check_line(tally: Tally) -> None:
    """The command line, and a text that is refused."""
    tally.add("DISAGREE by hand", None if judge(CASES / "disagree.spp") == Ended(0, DISAGREE.encode(), b"") else "another answer")
    tally.add("no case", None if judge(NOTHING) == Ended(1, b"refused line 1 X6 End\n", b"") else "another answer")
    for words, said in HELP.items():
        for asked in [[*words, "--help"], ["help", *words]]:
            done = run([POLICY, *asked], NOTHING)
            tells = done.status == 0 and not done.err and all(text in done.out.decode() for text in said)
            tally.add(" ".join(asked), None if tells else f"{done}")
        done = run([POLICY, *words, "-h"], NOTHING)
        tally.add(" ".join([*words, "-h"]), None if done.status == 0 and b"Usage: " in done.out and not done.err else f"{done}")
    for word in "--version", "-V":
        done = run([POLICY, word], NOTHING)
        tally.add(word, None if done == Ended(0, b"twarp-policy 0.1.0\n", b"") else f"{done}")
    one = list_stable(CASES / "disagree.spp", "--splits=1")
    tally.add("--splits=1", None if one.status == 0 and one == list_stable(CASES / "disagree.spp", "--splits", "1") else f"{one}")
    for words, said in REFUSED.items():
        done = run([POLICY, *words], NOTHING)
        tells = done.status == 3 and not done.out and all(text in done.err.decode() for text in said)
        tally.add(f"no command line: {words}", None if tells else f"{done}")


def main() -> None:
    need(POLICY, "rt run in crates/twarp_policy")
    need(PROGRAM, "rt run in crates/twarp")
    tally = Tally()
    with tempfile.TemporaryDirectory() as name:
        for case, verdict in KNOWN.items():
            check_case(tally, case, verdict, Path(name))
        check_failure(tally, Path(name))
        check_hierarchies(tally, Path(name))
        check_random(tally, Path(name))
        check_stable(tally, Path(name))
        check_terminal(tally, Path(name))
    check_line(tally)
    tally.end()


if __name__ == "__main__":
    sys.exit(main())
