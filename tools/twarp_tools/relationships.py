"""Makes a case of AS relationships, on standard output.

The input has lines as provider|customer|-1 and peer|peer|0, as CAIDA publishes them, packed or not. The destination
becomes router 0. A path is permitted where it has no valley; paths by way of customers are better than those by way of
peers, and these better than those by way of providers (Gao and Rexford 2001). What is cut off is told on standard
error. Of a large input take a part; --core keeps the shape of the whole.

examples:
  tools/relationships --destination 2603 tools/examples/research-networks.txt > case.spp
  tools/relationships --destination 1653 --core 200 --delays 1-50 --seed 7 \\
      --failures 10 --until 5000 --map ases.txt 20260101.as-rel2.txt.bz2 > case.spp
"""

import argparse
import enum
import heapq
import re
from array import array
from bisect import insort
from collections import defaultdict
from collections.abc import Callable, Container, Iterable, Iterator, Sequence
from functools import partial
from graphlib import CycleError, TopologicalSorter
from pathlib import Path

from twarp.case import GREATEST_DELAY, GREATEST_TIME, MOST_LINKS, MOST_NODES, MOST_PATHS, MOST_ROUTERS, MOST_SCENES
from twarp.case import ORIGIN, Case, Link, LinkScene, Nodes, hops_from
from twarp.program import Refused, quote
from twarp.sweeps import read_range, share
from twarp_tools.command import SIZE_LIMIT, Parser, lines_within, number_between, read_stream, refuse_own_input, tell
from twarp_tools.command import tell_counts, tool, write_output

# MiB of an input, unpacked: the relationships of the whole Internet are some 15.
MOST_UNPACKED = 32
GREATEST_AS = 4_294_967_295
AN_AS = re.compile("[0-9]{1,10}")
A_RELATIONSHIP = re.compile(rb"\s*([0-9]{1,10})\|([0-9]{1,10})\|(-1|0)(?:\s*|\|[^|]*)")


class Role(enum.IntEnum):
    """What a neighbour is to an AS, in the order in which paths by way of it are preferred."""

    CUSTOMER = 1
    PEER = 2
    PROVIDER = 3


RELATIONSHIPS = {b"-1": (Role.CUSTOMER, Role.PROVIDER), b"0": (Role.PEER, Role.PEER)}

# For each AS what its neighbours are to it.
Neighbours = dict[int, dict[int, Role]]


def read_relationships(lines: Iterable[tuple[int, bytes]]) -> Neighbours:
    """Reads numbered lines as `provider|customer|-1` and `peer|peer|0`; a fourth field is let pass."""
    neighbours: Neighbours = defaultdict(dict)
    # The two ASes of each relationship as one number, and its line, in the little room that a million of them ask for.
    pairs, numbers = array("Q"), array("Q")
    for number, line in lines:
        found = A_RELATIONSHIP.fullmatch(line)
        a, b = (int(found[1]), int(found[2])) if found else (0, 0)
        if a == b or not (0 < a <= GREATEST_AS and 0 < b <= GREATEST_AS):
            refuse_other(number, line)
            continue
        row = neighbours[a]
        if b in row:
            first = min(pairs.index(pair) for pair in (a << 32 | b, b << 32 | a) if pair in pairs)
            raise Refused.at_line(number, f"AS {a} and AS {b} stand together on line {numbers[first]} already")
        row[b], neighbours[b][a] = RELATIONSHIPS[found[3]]
        pairs.append(a << 32 | b)
        numbers.append(number)
    return neighbours


def refuse_other(number: int, line: bytes) -> None:
    """Refuses a line that has no relationship, where it is neither empty nor a comment."""
    if line.lstrip()[:1] in (b"", b"#"):
        return
    fields = line.decode("utf-8", "replace").strip().split("|")
    if len(fields) not in (3, 4):
        raise Refused.at_line(number, f"there are {len(fields)} fields where 3 or 4 are wanted, with | between them")
    for word in fields[:2]:
        if not AN_AS.fullmatch(word) or not 1 <= int(word) <= GREATEST_AS:
            raise Refused.at_line(number, f"{quote(word)} is no AS number")
    if fields[2] not in ("-1", "0"):
        raise Refused.at_line(number, f"the relationship {quote(fields[2])} is neither -1 nor 0")
    raise Refused.at_line(number, f"AS {int(fields[0])} is its own neighbour")


def within(neighbours: Neighbours, kept: Container[int]) -> Neighbours:
    """The relationships between the ASes that are kept."""
    rows = ((number, row) for number, row in neighbours.items() if number in kept)
    return {number: {peer: role for peer, role in row.items() if peer in kept} for number, row in rows}


def coreness(neighbours: Neighbours) -> dict[int, int]:
    """For each AS the greatest k of whose k-core it is: of the largest part in which each has at least k neighbours.

    S. B. Seidman: Network structure and minimum degree, Social Networks 5, 1983. The ASes with the fewest neighbours
    left are taken away again and again.
    """
    left, found, k = {number: len(row) for number, row in neighbours.items()}, dict[int, int](), 0
    while left:
        k = max(k, min(left.values()))
        taken = [number for number, count in left.items() if count <= k]
        for number in taken:
            if left.pop(number, None) is not None:
                found[number] = k
                for peer in neighbours[number].keys() & left.keys():
                    left[peer] -= 1
                    if left[peer] == k:
                        taken.append(peer)
    return found


def reached_by(neighbours: Neighbours, start: int, role: Role, kept: Container[int] = ()) -> set[int]:
    """The AS, its neighbours in this role, theirs, and so on, up to those that are kept anyway.

    By way of customers that is its cone (M. Luckie, B. Huffaker, A. Dhamdhere, V. Giotsas, kc claffy: AS relationships,
    customer cones, and validation, Internet Measurement Conference, 2013).
    """

    def nearest(number: int) -> list[int]:
        return [] if number in kept else [peer for peer, found in neighbours[number].items() if found is role]

    return {*hops_from(start, nearest)}


def core_around(neighbours: Neighbours, destination: int, most: int) -> tuple[int, set[int]]:
    """The largest k-core of at most so many ASes, or that with the greatest k; and the destination and those above it."""
    cores = coreness(neighbours)
    k, part = max(cores.values()), set[int]()
    for least in range(k, -1, -1):
        core = {number for number, core in cores.items() if core >= least}
        core |= reached_by(neighbours, destination, Role.PROVIDER, core)
        if part and len(core) > most:
            break
        if len(core) > len(part):
            k, part = least, core
    return k, part


# At which place a path is looked at, by its hops and its last link's two ASes: the least comes first.
Place = Callable[[int, int, int], float]


class Topology:
    """The ASes taken, by router, from the destination on, the nearest first if no other place is given, and their links."""

    def __init__(self, neighbours: Neighbours, destination: int, most: int, place: Place = lambda hops, *_: hops):
        self.neighbours = neighbours
        self.place = place
        # The AS of each router, what those are to each that it has links to, and the router of each AS.
        self.numbers: list[int] = []
        self.roles: list[dict[int, Role]] = []
        self.routers: dict[int, int] = {}
        # ASes that found no room at a neighbour.
        self.crowded: set[int] = set()
        # Paths found: place, hops, AS, whether the path does not go by customers alone, the next AS.
        self.found = [(0.0, 0, destination, False, destination)]
        settled: set[tuple[int, bool]] = set()
        while self.found and len(self.routers) < most:
            _, hops, number, is_restricted, by = heapq.heappop(self.found)
            if not settled & {(number, False), (number, is_restricted)} and self.is_linked(number, by):
                settled.add((number, is_restricted))
                self.offer(hops, number, is_restricted)

    def is_linked(self, number: int, by: int) -> bool:
        """Whether the two ASes are linked; one that isn't taken yet is taken now where there is room."""
        if number in self.routers:
            return self.routers[by] in self.roles[self.routers[number]]
        if number != by and len(self.roles[self.routers[by]]) == MOST_LINKS:
            self.crowded.add(number)
            return False
        self.take(number, by)
        return True

    def take(self, number: int, by: int) -> None:
        """Makes the AS a router, with a link to `by` and then to all routers that have room for one."""
        roles, router = self.roles, len(self.routers)
        self.routers[number] = router
        self.numbers.append(number)
        roles.append({})
        others = {self.routers[peer]: peer for peer in self.neighbours[number] if peer in self.routers}
        for other in sorted(others, key=lambda other: (others[other] != by, other)):
            if max(len(roles[router]), len(roles[other])) < MOST_LINKS:
                roles[router][other] = self.neighbours[number][others[other]]
                roles[other][router] = self.neighbours[others[other]][number]

    def offer(self, hops: int, number: int, is_restricted: bool) -> None:
        """Tells the neighbours of a path: customers of any, peers and providers of one that goes by customers alone."""
        if hops + 1 == MOST_NODES:
            return
        for peer, role in self.neighbours[number].items():
            if role is Role.CUSTOMER or not is_restricted:
                place = self.place(hops + 1, number, peer)
                heapq.heappush(self.found, (place, hops + 1, peer, role is not Role.PROVIDER, number))

    def order_near(self) -> None:
        """Numbers the routers anew, with the origin first and neighbours near, where that is nearer than they stand.

        Next comes the router after which the fewest links lead from those that have come to the others (A. J.
        McAllister: A new heuristic algorithm for the linear arrangement problem, University of New Brunswick,
        TR99-126a, 1999); of equal ones that which has had a neighbour among them longest. Nothing is taken after that.
        """
        # The place of each router that has come.
        places: dict[int, int] = {}
        # Of each router that is next to one that has come: how many more links will lead on once it comes too.
        front = {ORIGIN: len(self.roles[ORIGIN])}
        while front:
            router = min(front, key=front.__getitem__)
            del front[router]
            places[router] = len(places)
            for peer in sorted(self.roles[router]):
                if peer not in places:
                    front[peer] = front.get(peer, len(self.roles[peer])) - 2
        # How far apart the two ends of each link stand, summed over all links, here and in the order in which they were.
        if sum(abs(places[a] - places[b]) for a, b in self.links()) <= sum(b - a for a, b in self.links()):
            self.numbers = [self.numbers[router] for router in places]
            self.roles = [{places[peer]: role for peer, role in self.roles[router].items()} for router in places]
            self.routers = {number: router for router, number in enumerate(self.numbers)}

    def in_role(self, role: Role) -> list[list[int]]:
        """For each router its neighbours in this role, by AS number."""
        order = self.numbers.__getitem__
        return [sorted((peer for peer in row if row[peer] is role), key=order) for row in self.roles]

    def links(self) -> list[tuple[int, int]]:
        return [(a, b) for a, row in enumerate(self.roles) for b in sorted(row) if a < b]

    def left_out_links(self) -> int:
        """How many links between the ASes taken found no room."""
        known = sum(peer in self.routers for number in self.routers for peer in self.neighbours[number])
        return (known - sum(map(len, self.roles))) // 2


# What ranks a path among those of its router, the best first.
Rank = tuple[float, ...]
# To which routers a path is offered, by its rank and its place at its own router; each with the rank that it has there.
Offers = Callable[[Rank, Nodes, int], Iterable[tuple[int, Rank]]]


class Permitted:
    """Each router's best paths to the origin without a repeated node, the rest of which the next router has."""

    def __init__(self, count: int, most: int, first: Rank, offers: Offers):
        """`first` ranks the origin's own path. No path is better where it is offered than at its own router."""
        self.most = most
        # Each router's permitted paths, best first.
        self.rows: list[list[Nodes]] = [[] for _ in range(count)]
        # For each router the best of what is found until now, in order: what is behind these is never taken.
        self.best: list[list[tuple[Rank, Nodes]]] = [[] for _ in range(count)]
        # Routers at which paths are left out, because there are too many or because they are too long.
        self.crowded: set[int] = set()
        self.too_long: set[int] = set()
        self.ahead: list[tuple[Rank, Nodes]] = [(first, (ORIGIN,))]
        while self.ahead:
            rank, path = heapq.heappop(self.ahead)
            if len(self.rows[path[0]]) == most:
                self.crowded.add(path[0])
                continue
            self.rows[path[0]].append(path)
            for peer, there in offers(rank, path, len(self.rows[path[0]])):
                if peer not in path and len(path) == MOST_NODES:
                    self.too_long.add(peer)
                elif peer not in path:
                    self.offer(there, (peer, *path))

    def offer(self, rank: Rank, path: Nodes) -> None:
        """Keeps a path that its router may take, where it is among the best there."""
        best, found = self.best[path[0]], (rank, path)
        insort(best, found)
        if len(best) > self.most:
            self.crowded.add(path[0])
            if best.pop() is found:
                return
        heapq.heappush(self.ahead, found)


def without_valley(topology: Topology, most: int) -> Permitted:
    """The paths without a valley, by what the next router is, their length, and the next router's AS and own order."""

    def offers(rank: Rank, path: Nodes, place: int) -> Iterator[tuple[int, Rank]]:
        for peer in topology.roles[path[0]]:
            role = topology.roles[peer][path[0]]
            # An AS tells its peers and providers only of paths by way of its customers.
            if role is Role.PROVIDER or rank[0] == Role.CUSTOMER:
                yield peer, (role, len(path), topology.numbers[path[0]], place)

    return Permitted(len(topology.numbers), most, (Role.CUSTOMER,), offers)


def command_line(words: Sequence[str] | None = None) -> argparse.Namespace:
    """What the words ask for, or the tool's own command line where none are given."""
    parser = Parser(__doc__)
    if words is not None:
        parser.prog = "relationships"
    number, most = number_between(1, GREATEST_AS), number_between(1, MOST_ROUTERS)
    parser.add_argument("input", metavar="FILE", nargs="?", default="-", help="the relationships; - is standard input")
    parser.option("--destination", "AS", "where all paths lead to", number, required=True)
    part = parser.add_mutually_exclusive_group()
    parser.option("--routers", "N", "take at most N ASes, the nearest", most, MOST_ROUTERS, group=part)
    parser.option("--keep-connected", "N", "take at most N ASes by lot, with paths among these", most, group=part)
    parser.option("--core", "N", "take the k-core with the least k that has at most N ASes", most, group=part)
    parser.option("--cone", "AS", "take only ASes of the customer cone of this one", number)
    near = "number routers as they are taken, or such that neighbours are near in number"
    parser.option("--order", "taken|near", near, default="taken", choices=["taken", "near"])
    parser.option("--paths", "N", "permit at most N paths at a router", number_between(1, MOST_PATHS), 20)
    delays = partial(read_range, least=1, greatest=GREATEST_DELAY)
    parser.option("--delays", "LOW-HIGH", "draw the delays of links from this range", delays, "1-10")
    parser.option("--seed", "N", "draw ASes, delays and failures by this number", number_between(0, GREATEST_TIME), 1)
    parser.option("--failures", "N", "let N links fail and be repaired", number_between(0, MOST_SCENES // 2), 0)
    parser.option("--until", "TIME", "repair no link later than this", number_between(2, GREATEST_TIME), 1000)
    parser.option(*SIZE_LIMIT, MOST_UNPACKED)
    parser.option("--map", "FILE", "write the number and the AS number of each router into this file")
    return parser.parse_args(words)


def failures(used: Iterable[tuple[int, int]], numbers: list[int], line: argparse.Namespace) -> Iterator[LinkScene]:
    """Failures of some of the links used, each with its repair."""
    ends = {link: sorted(numbers[end] for end in link) for link in used}
    if line.failures > len(ends):
        why = f"the permitted paths use {len(ends)} links, and each fails at most once"
        raise Refused(f"refused option --failures: {why}")
    for link in sorted(ends, key=lambda link: share(line.seed, "order", *ends[link]))[: line.failures]:
        failed = 1 + int(share(line.seed, "failure", *ends[link]) * (line.until - 1))
        repaired = failed + 1 + int(share(line.seed, "repair", *ends[link]) * (line.until - failed))
        yield LinkScene("fail", failed, *link)
        yield LinkScene("restore", repaired, *link)


def read(line: argparse.Namespace) -> Neighbours:
    """The relationships of the input: those in the customer cone, and of these in the core, where the line asks for it."""
    neighbours = read_stream(line.input, lambda source: read_relationships(lines_within(source, line.size_limit)))
    for option, number in ("--destination", line.destination), ("--cone", line.cone):
        if number and number not in neighbours:
            raise Refused(f"refused option {option}: the input has no AS {number}")
    if line.cone:
        cone = reached_by(neighbours, line.cone, Role.CUSTOMER)
        if line.destination not in cone:
            raise Refused(f"refused option --cone: AS {line.destination} is not in the customer cone of AS {line.cone}")
        tell(f"the customer cone of AS {line.cone}: {len(cone):,} of {len(neighbours):,} ASes")
        neighbours = within(neighbours, cone)
    if line.core:
        k, core = core_around(neighbours, line.destination, line.core)
        kept = f"the {k}-core, AS {line.destination} and the providers above it"
        tell(f"{kept}: {len(core):,} of {len(neighbours):,} ASes")
        neighbours = within(neighbours, core)
    return neighbours


def make(neighbours: Neighbours, line: argparse.Namespace) -> tuple[Topology, Permitted, Case]:
    """What the line takes of the relationships, the nearest ASes or some drawn by lot, and the case of it."""

    def drawn(purpose: str, *ases: int) -> float:
        return share(line.seed, purpose, *sorted(ases))

    place = [lambda _, *ends: drawn("part", *ends)] if line.keep_connected else []
    taken = Topology(neighbours, line.destination, line.keep_connected or line.core or line.routers, *place)
    if line.order == "near":
        taken.order_near()
    permitted = without_valley(taken, line.paths)
    numbers, delays = taken.numbers, line.delays
    links = [Link(a, b, delays.ticks(drawn("delay", numbers[a], numbers[b]))) for a, b in taken.links()]
    paths = [path for row in permitted.rows[1:] for path in row]
    used = {(min(hop), max(hop)) for path in paths for hop in zip(path, path[1:])}
    scenes = sorted(failures(used, numbers, line), key=lambda scene: (scene.time, scene.a, scene.b))
    return taken, permitted, Case(len(numbers), links, paths, [*scenes])


@tool
def main() -> None:
    line = command_line()
    refuse_own_input("--map", line.map, line.input)
    made, permitted, result = make(read(line), line)
    ases, taken = len(made.neighbours), len(made.routers)
    crowded = len(made.crowded - made.routers.keys())
    unreached = ases - taken - crowded if taken < (line.keep_connected or line.core or line.routers) else 0
    why = "being drawn" if line.keep_connected else f"nearer to AS {line.destination} being taken"
    # What of the input is not in the case.
    counts = {
        f"ASes left out, {taken:,} {why}": ases - taken,
        f"of these, ASes that no router with less than {MOST_LINKS} links could be linked to": crowded,
        f"of these, ASes without a path that has no valley and at most {MOST_NODES} nodes": unreached,
        f"links left out because a router has at most {MOST_LINKS}": made.left_out_links(),
        f"routers with paths left out because each has at most {line.paths}": len(permitted.crowded),
        f"routers with paths left out because these have more than {MOST_NODES} nodes": len(permitted.too_long),
    }
    tell_counts(counts)
    try:
        TopologicalSorter(dict(enumerate(made.in_role(Role.PROVIDER)))).prepare()
    except CycleError as error:
        # Gao and Rexford's conditions exclude that.
        circle = ", ".join(f"AS {made.numbers[router]}" for router in error.args[1])
        tell(f"each of these is a provider of the next, so it is not sure that the case comes to rest: {circle}")
    if line.map:
        Path(line.map).write_text("".join(f"{router} {number}\n" for router, number in enumerate(made.numbers)))
    write_output(str(result))
