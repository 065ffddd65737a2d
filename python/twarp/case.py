"""Cases: what they hold, and their texts, which the program judges."""
from __future__ import annotations

import io
from collections.abc import Callable, Iterable
from dataclasses import dataclass, field
from functools import cache
from itertools import chain, islice
from typing import TYPE_CHECKING, Any, TypeVar

from twarp import program
from twarp.program import Refused, quote

if TYPE_CHECKING:
    import networkx

MOST_ROUTERS = 1_024
MOST_LINKS = 64
MOST_PATHS = 200
MOST_NODES = 32
MOST_SCENES = 4_096
GREATEST_DELAY = 1_000_000
GREATEST_TIME = 1_000_000_000
# The program reads no more of a case text.
MOST_BYTES = 67_108_864

ORIGIN = 0

# As a path is written between brackets, and a number in any text that twarp writes.
NUMBER = r"(?:0|[1-9][0-9]{0,19})"
PATH = rf"\((?:{NUMBER}(?: {NUMBER})*)?\)"

# The nodes of a path, the owner first; the empty path has none.
Nodes = tuple[int, ...]
NumberedLine = tuple[int, str]
WHICH = "which rule is broken is told by the program, which is not here"


@dataclass(frozen=True, slots=True)
class Link:
    """A link with its delays: from `a` to `b`, and `back` from `b` to `a`, which is the same where none is given."""

    a: int
    b: int
    delay: int
    back: int = 0

    def __post_init__(self) -> None:
        if not self.back:
            object.__setattr__(self, "back", self.delay)

    @property
    def is_even(self) -> bool:
        """Whether both directions have one delay, as version 1 says it."""
        return self.delay == self.back


@dataclass(frozen=True, slots=True)
class LinkScene:
    """A scenario line by which a link fails or is repaired."""

    word: str
    time: int
    a: int
    b: int

    def __str__(self) -> str:
        return f"{self.word} {self.time} {self.a} {self.b}"


@dataclass(frozen=True, slots=True)
class SwapScene:
    """A scenario line by which two places of a router's order, counted from 1, change places."""

    time: int
    router: int
    first: int
    second: int

    def __str__(self) -> str:
        return f"swap {self.time} {self.router} {self.first} {self.second}"


@dataclass(frozen=True, slots=True)
class BarScene:
    """A scenario line by which a router's path is forbidden or allowed again.

    The place, from 1, is that among the paths given for the router, whatever changed places in its order.
    """

    word: str
    time: int
    router: int
    place: int

    def __str__(self) -> str:
        return f"{self.word} {self.time} {self.router} {self.place}"


Scene = LinkScene | SwapScene | BarScene


@dataclass
class Case:
    """A case: routers 0 to `nodes` - 1, all of whose paths lead to router 0.

    One that was not read has no version: `str` writes it in the first one that can say it. Its text is judged where the
    program gets it, or by `twarp.check`.
    """

    nodes: int = 0
    links: list[Link] = field(default_factory=list)
    paths: list[Nodes] = field(default_factory=list)
    scenes: list[Scene] = field(default_factory=list)
    version: int | None = None

    @classmethod
    def from_text(cls, text: str | bytes) -> Case:
        """The case of a case text; Refused where the program refuses it, with line and code."""
        return read_case(text.encode() if isinstance(text, str) else text)

    @classmethod
    def from_file(cls, file: program.File) -> Case:
        """The case in a file; Refused where the program refuses it, with line and code."""
        with open(file, "rb") as source:
            return read_case(source.read(MOST_BYTES))

    @classmethod
    def from_networkx(
        cls, graph: networkx.Graph, origin: Any = 0, *, delay: str = "delay", weight: str | None = None
    ) -> Case:
        """The case of a network, whose node `origin` becomes router 0 and whose others the next ones in their order.

        The delays are the attribute `delay` of the edges, in ticks, and 1 where an edge has none; a directed graph has
        one for each direction, or the same where it has one edge alone. Where some node has the attribute `paths`,
        lists of nodes with the best first, these are permitted; else at each node the first 20 of all paths by the sum
        of the attribute `weight` (of the number of links where none is named).
        """
        import networkx

        if graph.is_multigraph():
            raise Refused("refused: two nodes of a multigraph may have several links, and those of a case have one")
        if origin not in graph:
            raise Refused(f"refused: the network has no node {origin!r}")
        nodes = [origin, *(node for node in graph if node != origin)]
        case, numbers = cls(len(nodes)), {node: number for number, node in enumerate(nodes)}
        for a, b in dict.fromkeys(tuple(sorted((numbers[a], numbers[b]))) for a, b in graph.edges):
            there, back = graph.get_edge_data(nodes[a], nodes[b]), graph.get_edge_data(nodes[b], nodes[a])
            case.link(a, b, *((row if row is not None else there or back).get(delay, 1) for row in (there, back)))
        paths = networkx.get_node_attributes(graph, "paths")
        for node in nodes[1:]:
            found = paths.get(node, [])
            if not paths and networkx.has_path(graph, node, origin):
                shortest = islice(networkx.shortest_simple_paths(graph, node, origin, weight), 20)
                found = (path for path in shortest if len(path) <= MOST_NODES)
            for path in found:
                case.path(*(numbers[step] for step in path))
        return case

    def to_networkx(self) -> networkx.DiGraph:
        """The case as a directed graph: edges have `delay`, nodes `paths`, the graph the scenario's lines as `scenes`."""
        import networkx

        graph = networkx.DiGraph(scenes=[str(scene) for scene in self.scenes])
        graph.add_nodes_from((node, {"paths": order}) for node, order in enumerate(self.orders()))
        for node, row in enumerate(self.delays()):
            graph.add_weighted_edges_from(((node, peer, ticks) for peer, ticks in row.items()), weight="delay")
        return graph

    def link(self, a: int, b: int, delay: int = 1, back: int = 0) -> Case:
        """Adds a link; what b sends takes `back` ticks, or `delay` too where that is 0."""
        self.links.append(Link(a, b, delay, back))
        return self

    def path(self, *nodes: int) -> Case:
        """Permits a path at its first node, as the worst so far of those of this node."""
        self.paths.append(nodes)
        return self

    def fail(self, time: int, a: int, b: int) -> Case:
        """The link between a and b fails at this time."""
        self.scenes.append(LinkScene("fail", time, a, b))
        return self

    def restore(self, time: int, a: int, b: int) -> Case:
        """The link between a and b is repaired at this time."""
        self.scenes.append(LinkScene("restore", time, a, b))
        return self

    def swap(self, time: int, router: int, first: int, second: int) -> Case:
        """Two places of the router's order, from 1, change places at this time."""
        self.scenes.append(SwapScene(time, router, first, second))
        return self

    def forbid(self, time: int, router: int, place: int) -> Case:
        """The path at this place, from 1, among those given for the router is forbidden at this time."""
        self.scenes.append(BarScene("forbid", time, router, place))
        return self

    def allow(self, time: int, router: int, place: int) -> Case:
        """The path at this place, from 1, among those given for the router is allowed again at this time."""
        self.scenes.append(BarScene("allow", time, router, place))
        return self

    def take(self, line: str) -> None:
        """Adds what a line of a case text says; ValueError or TypeError where it says nothing."""
        word, *rest = line.split(" ")
        match word, list(map(int, rest)):
            case "spp", [1 | 2 as version]:
                self.version = version
            case "nodes", [nodes]:
                self.nodes = nodes
            case "path", [_, first, *nodes]:
                self.path(first, *nodes)
            case ("link" | "fail" | "restore" | "swap" | "forbid" | "allow"), numbers:
                getattr(self, word)(*numbers)
            case _:
                raise ValueError(word)

    def has_all(self) -> bool:
        """Whether each router and each place that a line names is there, and each path leads to the origin by links."""
        links = {frozenset((link.a, link.b)) for link in self.links}
        steps = [frozenset(step) for path in self.paths for step in zip(path, path[1:])]
        swaps = [scene for scene in self.scenes if isinstance(scene, SwapScene)]
        places = [(scene.router, scene.place) for scene in self.scenes if isinstance(scene, BarScene)]
        places += [(scene.router, place) for scene in swaps for place in (scene.first, scene.second)]
        named = {*chain.from_iterable(links), *(path[0] for path in self.paths), *(router for router, _ in places)}
        if not self.nodes or not named.issubset(range(self.nodes)):
            return False
        counts = [len(order) for order in self.orders()]
        is_known = all(1 <= place <= counts[router] for router, place in places)
        return is_known and links.issuperset(steps) and all(path[-1] == ORIGIN for path in self.paths)

    def delays(self) -> list[dict[int, int]]:
        """For each router its neighbours in ascending order, each with the delay of what is sent to it."""
        rows: list[dict[int, int]] = [{} for _ in range(self.nodes)]
        for link in self.links:
            rows[link.a][link.b] = link.delay
            rows[link.b][link.a] = link.back
        return [dict(sorted(row.items())) for row in rows]

    def orders(self) -> list[list[Nodes]]:
        """For each router its permitted paths, best first. The origin's only one is not among the paths given."""
        rows: list[list[Nodes]] = [[] for _ in range(self.nodes)]
        rows[ORIGIN] = [(ORIGIN,)]
        for path in self.paths:
            rows[path[0]].append(path)
        return rows

    def path_numbers(self) -> dict[Nodes, int]:
        """The number by which events are ordered: 0 is the empty path, 1 is the origin's, k + 1 the k-th path given."""
        return {path: number for number, path in enumerate([(), (ORIGIN,), *self.paths])}

    def __str__(self) -> str:
        is_first = not any(isinstance(scene, BarScene) for scene in self.scenes)
        version = self.version or (1 if is_first and all(link.is_even for link in self.links) else 2)
        links = [f"link {link.a} {link.b} {link.delay}" + f" {link.back}" * (version > 1) for link in self.links]
        rest = [*map(path_line, self.paths), *map(str, self.scenes), "end\n"]
        return "\n".join([f"spp {version}", f"nodes {self.nodes}", *links, *rest])


@cache
def read_path(text: str) -> Nodes:
    """The nodes of a path in brackets, which are kept since a log has most paths many times."""
    return tuple(map(int, text[1:-1].split()))


def write_path(nodes: Nodes) -> str:
    return "(" + " ".join(map(str, nodes)) + ")"


def lines_of(text: bytes) -> list[str]:
    """The text's lines with their ends. What follows the last end is a line where it is not empty."""
    return [*io.StringIO(text.decode("utf-8", "replace"), newline="\n")]


@cache
def path_line(path: Nodes) -> str:
    """The line of a permitted path, which is kept since a sweep writes each of them many times."""
    return f"path {path[0]} {' '.join(map(str, path))}"


def read_case(text: bytes, named: program.File | None = None) -> Case:
    """The case of a case text; refused as the program refuses it. Where there is none the text alone is looked at."""
    case, rest = case_and_rest(text, ["check"], named)
    if rest:
        raise Refused.at_line(rest[0][0], f"the text goes on after its line `end`; {WHICH}")
    return case


def case_and_rest(text: bytes, words: list[str], named: program.File | None = None) -> tuple[Case, list[NumberedLine]]:
    """The case with which a text begins and the lines behind it. With these words the program judges the whole."""
    if file := program.find(named):
        program.answer(program.need(file), words, text)
    case, lines, number = Case(), enumerate(lines_of(text), 1), 0
    for number, line in lines:
        if line == "end\n":
            break
        try:
            case.take(line.removesuffix("\n"))
        except (ValueError, TypeError):
            raise Refused.at_line(number, f"{quote(line)} is no line of a case; {WHICH}") from None
    else:
        raise Refused.at_line(number + 1, f"the text ends before its line `end`; {WHICH}")
    if not case.has_all():
        raise Refused(f"a line names a router, a link or a path that is not there; {WHICH}")
    return case, [*lines]


Node = TypeVar("Node")


def hops_from(start: Node, peers: Callable[[Node], Iterable[Node]]) -> dict[Node, int]:
    """How many steps each node is from `start`, where there is a way; the nearest first."""
    found, nodes = {start: 0}, [start]
    for node in nodes:
        for peer in peers(node):
            if peer not in found:
                found[peer] = found[node] + 1
                nodes.append(peer)
    return found
