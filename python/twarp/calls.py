"""The commands of twarp and of twarp-policy, what holds of a case for all timings, as functions.

Each calls the program, which proves what `docs/PROMISES.md` says of it. All raise Refused where the program refuses the
case or an option, Stopped where it stops, and ValueError where it does not take an option. `program` names the file of
the program; else it is looked for (`find` and `find_policy` of `twarp.program`).
"""

import re
from collections.abc import Sequence
from dataclasses import dataclass
from pathlib import Path

from twarp.case import NUMBER, PATH, Case, Nodes, read_case, read_path, write_path
from twarp.program import File, Options, Refused, answer, need, need_policy, words_of
from twarp.protocol import Router, after_script
from twarp.report import Cursor, Replay, Report, Step, Trail, read_replay, read_report, read_trail

# Each router's path, and a step from a router to a neighbour.
Ribs = tuple[Nodes, ...]
Hop = tuple[int, int]
# The line of router 0 in an answer.
FIRST_ROUTER = 3


@dataclass(frozen=True)
class Size:
    """How large a case is."""

    nodes: int
    links: int
    paths: int
    scenario: int


def call(command: str, options: Options, text: object, program: Path) -> bytes:
    return answer(program, [command, *words_of(options)], str(text).encode())


def check(case: Case, *, program: File | None = None) -> Size:
    """How large a case is; Refused, with the line of its text and the rule's code, where it is none."""
    return Size(*map(int, call("check", {}, case, need(program)).split()[2::2]))


def upgrade(case: Case, *, program: File | None = None) -> Case:
    """The case in the latest version of its text."""
    return read_case(call("upgrade", {}, case, need(program)))


def seq(case: Case, *, stop: int, every: int | None = None, log: bool = False, program: File | None = None) -> Report:
    """The report of a run on one thread to the time `stop`.

    With `every` it looks each so many ticks whether the network oscillates; with `log` the report has the events.
    """
    return read_report(call("seq", {"stop": stop, "every": every, "log": log}, case, need(program)), case.nodes)


def run(
    case: Case, *, stop: int, every: int | None = None, log: bool = False, workers: int | None = None,
    batch: int | None = None, lazy: bool = False, blocks: bool = False, rotate: bool = False,
    program: File | None = None,
) -> Report:
    """The same report as that of `seq`, by workers in threads that run ahead of one another (docs/FORMATS.md)."""
    how = {"workers": workers, "batch": batch, "lazy": lazy, "blocks": blocks, "rotate": rotate}
    return read_report(call("run", how | {"stop": stop, "every": every, "log": log}, case, need(program)), case.nodes)


def replay(
    case: Case, steps: Sequence[Step | str], *, stop: int, workers: int | None = None, lazy: bool = False,
    program: File | None = None,
) -> Replay:
    """What a Time Warp machine answers to these steps, as `handle 0`, `deliver 2` and `bound`."""
    text = str(case) + "".join(f"{step}\n" for step in [*steps, "end"])
    out = call("replay", {"stop": stop, "workers": workers, "lazy": lazy}, text, need(program))
    return read_replay(out, case.nodes, len(steps))


def trail(case: Case, router: int, *, stop: int, keep: int, program: File | None = None) -> Trail:
    """A router's events up to `stop`, of which all but the first `keep` are undone again."""
    return read_trail(call("trail", {"router": router, "stop": stop, "keep": keep}, case, need(program)), router)


def version(*, program: File | None = None) -> str:
    """What the program says of its version."""
    return answer(need(program), ["--version"], b"").decode().strip()


@dataclass(frozen=True, slots=True)
class Pivot:
    """A pivot of a dispute wheel: a router that ranks the rim path, which goes on with the next one's spoke, no lower
    than its own spoke."""

    router: int
    spoke: Nodes
    rim: Nodes


@dataclass(frozen=True)
class Safety:
    """What elimination leaves of a case, which judges it by how its routers stand when its script is over.

    `left` has, for each router, the paths that it may still use from some time on, whatever the delays, the best first;
    the empty path is none at all. Where each router has one, the case is safe: every run of it is at rest from
    `rests_before` on, by its own delays, and `verdict` is `robust` where that holds after every script without exchanges
    of ranks, else `safe`. Where some have a choice there is a dispute wheel, told by its pivots in the order of the ring,
    and the verdict is `wheel`, which does not say that the case is unsafe.
    """

    rounds: int
    left: tuple[tuple[Nodes, ...], ...]
    wheel: tuple[Pivot, ...]
    rests_before: int | None
    verdict: str

    @property
    def is_safe(self) -> bool:
        """Whether every run comes to rest, whatever the delays."""
        return self.rests_before is not None

    @property
    def uses(self) -> Ribs | None:
        """The paths with which every run comes to rest, where the case is safe."""
        return tuple(paths[0] for paths in self.left) if self.is_safe else None

    @property
    def undecided(self) -> tuple[int, ...]:
        """The routers that have a choice."""
        return tuple(router for router, paths in enumerate(self.left) if len(paths) > 1)

    @property
    def ring(self) -> list[tuple[Pivot, Pivot]]:
        """Each pivot of the wheel with the next one."""
        return [*zip(self.wheel, [*self.wheel[1:], *self.wheel[:1]])]

    @property
    def rim_hops(self) -> list[Hop]:
        """The steps of the wheel's rim, each once: of each pivot's rim path as far as the next pivot."""
        ways = (pivot.rim[: pivot.rim.index(following.router) + 1] for pivot, following in self.ring)
        return [*dict.fromkeys(hop for way in ways for hop in zip(way, way[1:]))]

    @property
    def spoke_hops(self) -> list[Hop]:
        """The steps of the wheel's spokes, each once."""
        return [*dict.fromkeys(hop for pivot in self.wheel for hop in zip(pivot.spoke, pivot.spoke[1:]))]

    def __str__(self) -> str:
        if self.is_safe:
            return f"{self.verdict}, rests before {self.rests_before:,}"
        return f"{self.verdict} of {len(self.wheel)} pivots" if self.wheel else self.verdict


@dataclass(frozen=True)
class Stable:
    """Stable assignments of a case, each once: the path of each router. `are_all` says that there are no others.

    Where there is none at all, no run of the case ever comes to rest.
    """

    assignments: tuple[Ribs, ...]
    are_all: bool

    @property
    def can_rest(self) -> bool:
        """Whether a run may come to rest: not where all stable assignments are known and there are none."""
        return bool(self.assignments) or not self.are_all

    def __str__(self) -> str:
        return f"stable {'' if self.are_all else 'at least '}{len(self.assignments):,}"


def safe(case: Case, *, program: File | None = None) -> Safety:
    """Which paths each router may come to use, whatever the delays, and whether the case comes to rest."""
    return read_safety(call("safe", {}, case, need_policy(program)), case.nodes)


def stable(case: Case, splits: int | None = None, *, program: File | None = None) -> Stable:
    """The stable assignments that so many splits find, 100,000 where they are left out."""
    return read_stable(call("stable", {"splits": splits}, case, need_policy(program)), case.nodes)


def read_safety(text: bytes, nodes: int) -> Safety:
    """What `twarp-policy safe` wrote of a case with so many routers."""
    cursor = Cursor(text, "spp-safe 1")
    rounds = cursor.take_number("rounds")
    left = []
    for router in range(nodes):
        paths = rf"(?:uses ({PATH})|may use ({PATH}(?: {PATH})*))" if router else r"uses (\(0\))()"
        found = cursor.take(f"router {router} {paths}", f"the paths of router {router}")
        left.append(tuple(map(read_path, re.findall(PATH, found[1] or found[2]))))
    is_safe = all(len(paths) == 1 for paths in left)
    rests_before = cursor.take_number("rests before") if is_safe else None
    wheel = []
    while cursor.next_line().startswith("wheel "):
        wanted = "`wheel`, a router, its spoke and its rim path"
        pivot, spoke, rim = cursor.take(f"wheel ({NUMBER}) ({PATH}) ({PATH})", wanted).groups()
        wheel.append(Pivot(int(pivot), read_path(spoke), read_path(rim)))
    number, (verdict,) = cursor.number, cursor.take("verdict (robust|safe|wheel)", "the verdict").groups()
    if is_safe == (verdict == "wheel"):
        raise Refused.at_line(number, f"'verdict {verdict}' stands where the verdict on such paths should stand")
    cursor.take_end()
    return Safety(rounds, tuple(left), tuple(wheel), rests_before, verdict)


def read_stable(text: bytes, nodes: int) -> Stable:
    """What `twarp-policy stable` wrote of a case with so many routers."""
    cursor, assignments = Cursor(text, "spp-stable 1"), list[Ribs]()
    while True:
        count, following = len(assignments), f"assignment {len(assignments) + 1}"
        found = cursor.take(f"{following}|verdict stable (at least )?{count}", f"{following} or the verdict")
        if found[0] != following:
            cursor.take_end()
            return Stable(tuple(assignments), not found[1])
        wanted = ((f"router {router} rib ({PATH})", f"the path of router {router}") for router in range(nodes))
        assignments.append(tuple(read_path(cursor.take(*line)[1]) for line in wanted))


def standing(case: Case, safety: Safety) -> list[Router]:
    """The routers as the script leaves them, with what they use; refused at the first line that is of another case."""
    routers = after_script(case)
    for number, (router, left) in enumerate(zip(routers, safety.left), FIRST_ROUTER):
        for path in left:
            if path and path != (router.node,) and path not in router.order:
                raise Refused.at_line(number, f"{write_path(path)} is no path of this router in the case")
        router.rib = left[0] if len(left) == 1 else ()
    for number, (pivot, following) in enumerate(safety.ring, FIRST_ROUTER + case.nodes):
        is_known = pivot.router < case.nodes and {pivot.rim, pivot.spoke} <= {*routers[pivot.router].order}
        if not is_known or following.router not in pivot.rim:
            raise Refused.at_line(number, "this is no pivot of the case")
    return routers
