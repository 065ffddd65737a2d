"""Makes a case of a network in GraphML or GML, on standard output.

It may be packed by gzip or bzip2. The destination becomes router 0. The delay of a link is the first that some link has
of delay, latency, distance, dist, length; else the distance of its ends on the globe; else the first of weight, metric, \
cost; else 1.
All paths without a repeated node are permitted, as far as --paths goes, those of less weight first. What is left out is
told on standard error. It needs networkx and defusedxml (Debian: python3-networkx, python3-defusedxml).

example:
  tools/import --destination Vienna --map nodes.txt Geant2012.graphml > case.spp
  tools/draw --names nodes.txt case.spp | dot -Tsvg > geant.svg
"""

import math
import re
from collections.abc import Iterator
from fractions import Fraction
from pathlib import Path
from typing import BinaryIO, NamedTuple

from twarp.case import GREATEST_DELAY, MOST_LINKS, MOST_NODES, MOST_PATHS, MOST_ROUTERS, Case, Link, Nodes
from twarp.case import hops_from
from twarp.program import Refused, quote
from twarp_tools.command import MIB, SIZE_LIMIT, TOO_LARGE, Parser, number_between, read_stream, refuse_own_input
from twarp_tools.command import tell_counts, tool, write_output
from twarp_tools.network_files import Item, Network, read_network
from twarp_tools.relationships import Permitted, Rank

# MiB of an input, unpacked: as many nodes and links as a case has take less, with all that yEd tells of them.
MOST_UNPACKED = 8

# Attributes of links that are read where the command line names none, in letters of any case.
DISTANCES = ("delay", "latency", "distance", "dist", "length")
WEIGHTS = ("weight", "metric", "cost")
GREATEST_VALUE = 10**15

# Attributes of nodes that say where on the globe these are.
PLACE = ("latitude", "longitude")
EARTH_RADIUS_KM = 6_371
# What light goes in glass in a millisecond.
KM_PER_TICK = 200


def kilometres(one: Item, other: Item) -> Fraction | None:
    """How far two nodes are from each other on the globe, where both have their place."""
    places = []
    for node in (node for node in (one, other) if node.has(*PLACE)):
        latitude, longitude = (node.number(name, -most, most) for name, most in zip(PLACE, (90, 180)))
        up, round_ = math.radians(latitude or 0), math.radians(longitude or 0)
        # On a globe of radius 1.
        places.append((math.cos(up) * math.cos(round_), math.cos(up) * math.sin(round_), math.sin(up)))
    if len(places) < 2:
        return None
    # The arc of a great circle, by its chord.
    return Fraction(round(2 * EARTH_RADIUS_KM * math.asin(min(1.0, math.dist(*places) / 2))))


class Measured(NamedTuple):
    """A link's weight and delay; of two links the lesser is taken."""

    weight: Fraction
    delay: int


class Joined:
    """A network in which at most one link leads from a node to another: the lightest, and of these the quickest."""

    def __init__(self, network: Network, delay: str | None, weight: str | None, per_tick: Fraction | None):
        self.network = network
        # For each node those to which a link leads, and those which a link joins to it in either direction.
        self.rows: dict[str, dict[str, Measured]] = {node: {} for node in network.nodes}
        self.peers: dict[str, dict[str, None]] = {node: {} for node in network.nodes}
        self.parallel = self.loops = self.unmeasured = 0
        # What has the delays: an attribute, or distances on the globe; all are 1 where nothing has.
        self.delay = self.known_name("--delay", delay, DISTANCES)
        self.is_on_globe = self.delay is None and any(node.has(*PLACE) for node in network.nodes.values())
        if not self.is_on_globe:
            self.delay = self.delay or self.known_name("", None, WEIGHTS)
        self.per_tick = per_tick or Fraction(KM_PER_TICK if self.is_on_globe else 1)
        # Where there is none, weights are the delays.
        self.weight = self.known_name("--weight", weight, WEIGHTS)
        for link in network.links:
            self.join(*link)

    def known_name(self, option: str, named: str | None, usual: tuple[str, ...]) -> str | None:
        """The attribute that an option names, or else the first of the usual ones, that some link has."""
        names = (named,) if named else usual
        known = next((name for name in names if any(link.has(name) for _, _, link in self.network.links)), None)
        if named and known is None:
            raise Refused(f"refused option {option}: no link has the attribute {named}")
        return known

    def join(self, a: str, b: str, link: Item) -> None:
        if a == b:
            self.loops += 1
            return
        distance = link.number(self.delay, 0, GREATEST_VALUE) if self.delay else None
        if self.is_on_globe:
            distance = kilometres(self.network.nodes[a], self.network.nodes[b])
        self.unmeasured += bool(self.delay or self.is_on_globe) and distance is None
        delay = 1 if distance is None else max(1, round(distance / self.per_tick))
        if delay > GREATEST_DELAY:
            raise Refused(f"refused {link.place}: its delay is {delay:,}, and at most {GREATEST_DELAY:,} can be")
        weight = link.number(self.weight, 0, GREATEST_VALUE) if self.weight else Fraction(delay)
        measured = Measured(Fraction(1) if weight is None else weight, delay)
        if known := self.rows[a].get(b):
            self.parallel += 1
            measured = min(known, measured)
        self.rows[a][b] = measured
        if not self.network.is_directed:
            self.rows[b][a] = measured
        for one, other in (a, b), (b, a):
            self.peers[one][other] = None
            if len(self.peers[one]) > MOST_LINKS:
                raise Refused(f"refused node {quote(self.network.name(one))}: it has more than {MOST_LINKS} neighbours")


def by_weight(rows: list[dict[int, Measured]], most: int) -> Permitted:
    """The paths by weight and length; `rows` has for each router those to which a link leads from it."""
    # For each router those from which a link leads to it, with weights as whole numbers in the same proportions.
    shares = math.lcm(*(one.weight.denominator for row in rows for one in row.values()))
    weights: list[dict[int, int]] = [{} for _ in rows]
    for peer, row in enumerate(rows):
        for router, one in row.items():
            weights[router][peer] = int(one.weight * shares)

    def offers(rank: Rank, path: Nodes, _: int) -> Iterator[tuple[int, Rank]]:
        for peer, more in weights[path[0]].items():
            yield peer, (rank[0] + more, len(path) + 1)

    return Permitted(len(rows), most, (0, 1), offers)


def read_scale(word: str) -> Fraction:
    """A positive number, as 1000 or 0.5."""
    if not re.fullmatch(r"[0-9]{1,10}(\.[0-9]{1,10})?", word) or not (scale := Fraction(word)):
        raise ValueError(f"{quote(word)} is no number above 0")
    return scale


def routers_of(joined: Joined, name: str) -> list[str]:
    """The destination, by its id or else its label, and the nodes that a path leads from in the order of the file."""
    nodes = joined.network.nodes
    found = [name] if name in nodes else [node for node in nodes if joined.network.name(node) == name]
    if len(found) != 1:
        raise Refused(f"refused option --destination: {len(found)} nodes are called {quote(name)}")
    reached = hops_from(found[0], lambda node: [peer for peer in joined.peers[node] if node in joined.rows[peer]])
    routers = [*found, *(node for node in nodes if node in reached and node not in found)]
    if len(routers) > MOST_ROUTERS:
        why = f"a path leads from {len(routers) - 1:,} nodes, and a case has {MOST_ROUTERS:,} routers at most"
        raise Refused(f"refused: {why}")
    return routers


@tool
def main() -> None:
    parser = Parser(__doc__)
    parser.add_argument("input", metavar="FILE", nargs="?", default="-", help="the network; - is standard input")
    parser.option("--destination", "NODE", "where all paths lead to: a label or an id", required=True)
    parser.option("--delay", "NAME", "read the delays from this attribute of links")
    parser.option("--weight", "NAME", "rank by this attribute of links")
    scale = f"how much of a distance or a weight is a tick (default {KM_PER_TICK} km on the globe, else 1)"
    parser.option("--per-tick", "NUMBER", scale, read_scale)
    parser.option("--paths", "N", "permit at most N paths at a router", number_between(1, MOST_PATHS), 20)
    parser.option(*SIZE_LIMIT, MOST_UNPACKED)
    parser.option("--map", "FILE", "write the number and the label of each router into this file")
    line = parser.parse_args()
    refuse_own_input("--map", line.map, line.input)

    def read(source: BinaryIO) -> tuple[Joined, list[str]]:
        """The network and the nodes that become routers. Here too, since what is wrong is told by the file's name."""
        if len(text := source.read(line.size_limit * MIB + 1)) > line.size_limit * MIB:
            raise Refused(f"refused: {TOO_LARGE.format(line.size_limit)}")
        joined = Joined(read_network(text), line.delay, line.weight, line.per_tick)
        return joined, routers_of(joined, line.destination)

    joined, routers = read_stream(line.input, read)
    numbers = {node: router for router, node in enumerate(routers)}
    rows = [{numbers[peer]: one for peer, one in joined.rows[node].items() if peer in numbers} for node in routers]
    permitted = by_weight(rows, line.paths)
    one_way = sum(a not in rows[b] for a, row in enumerate(rows) for b in row)
    counts = {
        "nodes left out that no path leads from": len(joined.rows) - len(rows),
        "links left out because their ends are one node": joined.loops,
        "links left out because their ends have a lighter or equal one": joined.parallel,
        "links that lead in one direction alone, and have its delay in both": one_way,
        "links with the delay 1, because they have no value for it": joined.unmeasured,
        f"routers with paths left out because each has at most {line.paths}": len(permitted.crowded),
        f"routers with paths left out because these have more than {MOST_NODES} nodes": len(permitted.too_long),
    }
    tell_counts(counts)
    if line.map:
        # A name that is a number alone would be read as an AS.
        names = (f"node {name}" if name.isdigit() else name for name in map(joined.network.name, routers))
        lines = (f"{router} {name}\n" for router, name in enumerate(names))
        Path(line.map).write_text("".join(lines), encoding="utf-8")
    # The delay of one direction alone is that of both.
    pairs = sorted({(min(a, b), max(a, b)) for a, row in enumerate(rows) for b in row})
    links = [Link(a, b, (rows[a].get(b) or rows[b][a]).delay, (rows[b].get(a) or rows[a][b]).delay) for a, b in pairs]
    write_output(str(Case(len(rows), links, [path for row in permitted.rows[1:] for path in row])))
