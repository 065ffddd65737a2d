"""The drawing of a network: where its routers stand, and where its words do.

Each two routers are as far apart as there are links between them, as nearly as a plane has room for that: J. X. Zheng,
S. Pawar, D. F. M. Goodman: Graph drawing by stochastic gradient descent, IEEE Transactions on Visualization and
Computer Graphics 25(9), 2019. Then routers that are too near to one another, or to a link of others, are moved apart.

Everything is made of sums, products, quotients and roots, so that a network has the same drawing on each machine.
"""

import random
from collections.abc import Iterator, Sequence
from itertools import combinations
from math import sqrt
from typing import Any

from twarp.case import ORIGIN, Case, hops_from, write_path
from twarp.svg import View

# The number of the routers that a router is linked to, for each router.
Neighbours = Sequence[Sequence[int]]

FIRST_SEED = 1
# How much smaller each round's steps are than those of the round before, where there are few pairs of routers, or many.
FEW_PAIRS = 2_000
SMALLER_OF_FEW, SMALLER = 0.95, 0.7
LEAST_STEP = 0.02
MOST_ROUNDS = 60
# Beyond so many pairs of a router and a link, links may pass under routers.
MOST_CLEARED = 10_000

# In a network of so few routers with so short paths there is room for delays, and for the paths in use.
FEW_ROUTERS = 16
SHORT_PATH = 14
# How long a link should be, how far routers have to be apart, and the margins beside them and above, in pixels.
ROOMY = (135.0, 112.0, 60.0, 40.0)
CLOSE = (86.0, 54.0, 30.0, 30.0)
# Parts of a link's way at which its delay may be written, the best first, and how far from other words it should be.
LABEL_PARTS = (0.5, 0.44, 0.56, 0.38, 0.62, 0.32, 0.68, 0.26, 0.74)
# The same where each direction has a delay of its own, which is written nearer to the end that sends.
END_PARTS = ((0.34, 0.28, 0.4, 0.24), (0.66, 0.72, 0.6, 0.76))
LABEL_ROOM = 32.0
# How far below a router, or above it, the middle of its path's words is.
WORDS_ASIDE = 25.0

# Where something stands: a number whose real part goes to the right and whose imaginary part goes down.
Point = complex


def length_of(way: Point) -> float:
    return sqrt(way.real * way.real + way.imag * way.imag)


def distance(one: Point, other: Point) -> float:
    return length_of(other - one)


def place_by_hops(neighbours: Neighbours) -> list[Point]:
    """The routers' places where a link has the length 1: near ones are moved more than far ones to their distance."""
    draw = random.Random(FIRST_SEED)
    points = [complex(draw.random(), draw.random()) for _ in neighbours]
    rows = [hops_from(node, neighbours.__getitem__) for node in range(len(neighbours))]
    # How far apart those are that no way joins.
    far = 1 + max(max(row.values()) for row in rows)
    pairs = [(a, b, rows[a].get(b, far)) for a, b in combinations(range(len(rows)), 2)]
    step = float(max((hops * hops for _, _, hops in pairs), default=1))
    smaller = SMALLER_OF_FEW if len(pairs) <= FEW_PAIRS else SMALLER
    while step > LEAST_STEP:
        draw.shuffle(pairs)
        for a, b, hops in pairs:
            way = points[b] - points[a]
            length = length_of(way) or 1e-9
            share = min(1.0, step / (hops * hops)) * (length - hops) / (2 * length)
            points[a] += share * way
            points[b] -= share * way
        step *= smaller
    return points


def part_points(points: list[Point], least: float) -> bool:
    """Moves points apart that are nearer than `least`, and says whether there were any."""
    is_near = False
    row = sorted(range(len(points)), key=lambda number: (points[number].real, points[number].imag))
    for place, left in enumerate(row):
        for right in row[place + 1 :]:
            way = points[right] - points[left]
            if way.real >= least:
                break
            if (length := length_of(way)) < least:
                is_near = True
                share = (least - length + 1) / (2 * (length or 1.0))
                points[left] -= share * (way or 1.0)
                points[right] += share * (way or 1.0)
    return is_near


def part_from_links(points: list[Point], links: list[tuple[int, int]], least: float) -> bool:
    """Moves points aside from the links of others that pass nearer than `least`, and says whether any did."""
    has_moved = False
    for number in range(len(points)):
        for a, b in (link for link in links if number not in link):
            link, way = points[b] - points[a], points[number] - points[a]
            if not (length := length_of(link)):
                continue
            along = (way.real * link.real + way.imag * link.imag) / (length * length)
            off = (way.real * link.imag - way.imag * link.real) / length
            if 0 < along < 1 and abs(off) < least:
                share = (least - abs(off) + 1) / length * (1 if off >= 0 else -1)
                points[number] += complex(share * link.imag, -share * link.real)
                has_moved = True
    return has_moved


def turned_down(points: list[Point], first: Point) -> list[Point]:
    """The drawing turned so that `first` is straight below its middle, where it is not in the middle."""
    down = first - sum(point / len(points) for point in points)
    if (length := length_of(down)) < 0.2:
        return points
    turn = complex(down.imag / length, down.real / length)
    return [point * turn for point in points]


def lay_out(neighbours: Neighbours, link: float, least: float, lowest: int | None) -> list[Point]:
    """Places of routers, from 0 on, `least` apart or more, with links of about `link`, and `lowest` below if not amid."""
    points = place_by_hops(neighbours)
    if lowest is not None:
        points = turned_down(points, points[lowest])
    points = [link * point for point in points]
    links = [(a, b) for a, row in enumerate(neighbours) for b in row if a < b]
    cleared = links if len(points) * len(links) <= MOST_CLEARED else []
    # Until none is near to another or to a link of others, or for so long as is reasonable.
    for _ in range(MOST_ROUNDS):
        if not part_points(points, least) | part_from_links(points, cleared, least / 2):
            break
    nearest = min((distance(a, b) for a, b in combinations(points, 2)), default=least)
    larger = max(1.0, least / (nearest or 1.0))
    corner = complex(min(point.real for point in points), min(point.imag for point in points))
    places = (larger * (point - corner) for point in points)
    return [complex(round(place.real, 1), round(place.imag, 1)) for place in places]


def words_of(point: Point, peers: list[Point]) -> Point:
    """Where a router's path is to be written: below it or above, where its links leave more room."""
    ways = [point + WORDS_ASIDE / distance(point, peer) * (peer - point) for peer in peers]
    spots = [point + complex(0, aside) for aside in (WORDS_ASIDE, -WORDS_ASIDE)]
    return max(spots, key=lambda spot: min((distance(spot, way) for way in ways), default=0.0))


class NetworkDrawing:
    """Where the routers in view stand, and which links are between them."""

    def __init__(self, case: Case, view: View):
        places = {router: place for place, router in enumerate(view.routers)}
        self.routers = view.routers
        self.links = [link for link in case.links if link.a in places and link.b in places]
        neighbours: list[list[int]] = [[] for _ in places]
        for link in self.links:
            neighbours[places[link.a]].append(places[link.b])
            neighbours[places[link.b]].append(places[link.a])
        longest = max((len(write_path(path)) for path in case.paths if path[0] in places), default=0)
        self.has_words = len(places) <= FEW_ROUTERS and longest <= SHORT_PATH
        length, least, self.left, self.top = ROOMY if self.has_words else CLOSE
        self.points = lay_out(neighbours, length, least, places.get(ORIGIN))
        rows = ([self.points[peer] for peer in row] for row in neighbours)
        self.words = [words_of(point, row) for point, row in zip(self.points, rows)]

    def label_parts(self) -> Iterator[list[float]]:
        """For each link at which parts of its way its delay, or that of each direction, is to be written."""
        if not self.has_words:
            yield from ([0.5] for _ in self.links)
            return
        places = {router: point for router, point in zip(self.routers, self.points)}
        taken = [*self.points, *self.words]
        for link in self.links:
            a, b, chosen = places[link.a], places[link.b], []
            for parts in [LABEL_PARTS] if link.is_even else END_PARTS:
                # The first part of the way where there is the most room.
                rooms = [min(LABEL_ROOM, *(distance(a + part * (b - a), other) for other in taken)) for part in parts]
                chosen.append(parts[rooms.index(max(rooms))])
                taken.append(a + chosen[-1] * (b - a))
            yield chosen

    def json(self) -> dict[str, Any]:
        labelled = zip(self.links, self.label_parts())
        return {
            "width": round(max(point.real for point in self.points) + 2 * self.left),
            "height": round(max(point.imag for point in self.points) + 2 * self.top),
            "has_words": self.has_words,
            "links": [[link.a, link.b, link.delay, link.back, parts] for link, parts in labelled],
        }
