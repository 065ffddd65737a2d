"""Cases at scale, each drawn from a seed."""
from __future__ import annotations

import sys
from collections.abc import Callable, Iterable
from functools import partial
from itertools import pairwise
from pathlib import Path
from random import Random

# Whoever imports this module first finds the package and the modules of tools/ too.
sys.path += [str(Path(__file__).resolve().parent.parent / folder) for folder in ("python", "tools")]

from twarp.case import (  # noqa: E402: it is found by the line above
    GREATEST_TIME,
    MOST_NODES,
    MOST_PATHS,
    MOST_ROUTERS,
    ORIGIN,
    Case,
    Link,
    LinkScene,
    Nodes,
)


def shortest_first(paths: Iterable[Nodes]) -> list[Nodes]:
    return sorted(paths, key=lambda path: (len(path), path))


def failure(link: Link, time: int, repaired_at: int) -> list[LinkScene]:
    """The lines by which a link fails and is repaired."""
    return [
        LinkScene("fail", time, link.a, link.b),
        LinkScene("restore", repaired_at, link.a, link.b),
    ]


def hierarchy(draw: Random) -> Case:
    """1,000 routers, each with two providers above it; links fail and are repaired."""
    case = Case(1000)
    paths: list[list[Nodes]] = [[(ORIGIN,)]]
    customers = [0] * case.nodes
    for router in range(1, case.nodes):
        above = range(max(0, router // 8 - 3), min(router, max(1, router // 4 + 1)))
        free = [provider for provider in above if customers[provider] < 60]
        providers = draw.sample(free, min(2, len(free)))
        for provider in providers:
            customers[provider] += 1
            case.links.append(Link(provider, router, draw.randint(1, 20)))
        known = [path for provider in providers for path in paths[provider]]
        longer = [(router, *path) for path in known if len(path) < MOST_NODES - 1]
        draw.shuffle(longer)
        paths.append(sorted(longer, key=len)[:8])
        case.paths += paths[router]
    for _ in range(1900):
        link = draw.choice(case.links[:200])
        time = draw.randint(50, 100000)
        case.scenes += failure(link, time, time + draw.randint(1, 200))
    return case


def add_ring(case: Case, relay: int, size: int) -> None:
    """Adds routers at a relay that all prefer to go through the next one of them."""
    ring = range(case.nodes, case.nodes + size)
    for place, router in enumerate(ring):
        following = ring[(place + 1) % size]
        case.links.append(Link(relay, router, 1))
        # Of two routers each is the next one of the other, and there is one link.
        if size > 2 or place == 0:
            case.links.append(Link(router, following, 1))
        case.paths += [(router, following, relay, ORIGIN), (router, relay, ORIGIN)]
    case.nodes += size


def gadgets(draw: Random) -> Case:
    """Pairs that disagree and rings of three, by relays on one origin: they oscillate for ever."""
    relays = range(1, 65)
    case = Case(len(relays) + 1)
    for relay in relays:
        case.links.append(Link(ORIGIN, relay, 1))
        case.paths.append((relay, ORIGIN))
        places = 14
        while places >= 2 and case.nodes + 3 <= MOST_ROUTERS:
            size = 3 if places >= 3 and draw.random() < 0.3 else 2
            add_ring(case, relay, size)
            places -= size
    return case


def mesh_paths(draw: Random, router: int, nodes: int) -> list[Nodes]:
    """Paths of a router of the mesh: the straight one, and some by one, two or three others."""
    others = [other for other in range(2, nodes) if other != router]
    by_one = [(router, other, 1, ORIGIN) for other in draw.sample(others, 40)]
    by_more: set[Nodes] = set()
    while len(by_more) < 150:
        by_more.add((router, *draw.sample(others, draw.choice([2, 3])), 1, ORIGIN))
    return [(router, 1, ORIGIN), *by_one, *shortest_first(by_more)]


def mesh(draw: Random, delay: int = 9) -> Case:
    """A full mesh of 60 behind one link to the origin, with delays up to this one.

    The link fails and is repaired, and paths are explored each time.
    """
    first = Link(ORIGIN, 1, 1)
    case = Case(61, [first])
    for a in range(1, case.nodes):
        case.links += [Link(a, b, draw.randint(1, delay)) for b in range(a + 1, case.nodes)]
    case.paths.append((1, ORIGIN))
    for router in range(2, case.nodes):
        case.paths += mesh_paths(draw, router, case.nodes)
    # The longer the delays, the later the next failure: so each is explored to its end.
    half = 200 * delay // 9
    for number in range(min(2000, GREATEST_TIME // (2 * half) - 1)):
        time = half // 2 + 2 * half * number
        case.scenes += failure(first, time, time + half)
    return case


# How many routers a link of `limits` leads on at most, in a circle.
REACH = 32


def steps_over(draw: Random, length: int) -> list[int]:
    """Draws steps that lead so many routers on, each as far as a link at most."""
    count = draw.randint((length + REACH - 1) // REACH, min(MOST_NODES - 1, length))
    places = sorted(draw.sample(range(1, length), count - 1)) if count > 1 else []
    steps = [end - start for start, end in pairwise([0, *places, length])]
    if max(steps) > REACH:
        steps = [length // count + (place < length % count) for place in range(count)]
        draw.shuffle(steps)
    return steps


def path_in_circle(draw: Random, router: int, nodes: int) -> Nodes:
    """Draws a path to the origin, by the shorter way."""
    is_down = router < nodes // 2
    left = router if is_down else nodes - router
    path = [router]
    for step in steps_over(draw, left):
        left -= step
        path.append(left if is_down else (nodes - left) % nodes)
    return tuple(path)


def limits(draw: Random) -> Case:
    """1,024 routers with 64 links each and 200 paths each, most of them long."""
    case = Case(MOST_ROUTERS)
    for router in range(case.nodes):
        for step in range(1, REACH + 1):
            other = (router + step) % case.nodes
            case.links.append(Link(router, other, draw.randint(1, 1000000)))
    for router in range(1, case.nodes):
        # Those next to the origin have too few paths.
        count = 1 if min(router, case.nodes - router) < 12 else MOST_PATHS
        found: set[Nodes] = set()
        while len(found) < count:
            found.add(path_in_circle(draw, router, case.nodes))
        case.paths += shortest_first(found)
    return case


def cliques(draw: Random) -> Case:
    """100 routers: nine relays on the origin, and at each ten that all prefer one another."""
    case = Case(100)
    for relay in range(1, 10):
        members = range(relay * 10, relay * 10 + 10)
        case.links.append(Link(ORIGIN, relay, 1))
        case.links += [Link(relay, member, 1) for member in members]
        case.links += [Link(a, b, 1) for a in members for b in members if a < b]
        case.paths.append((relay, ORIGIN))
        for member in members:
            others = [other for other in members if other != member]
            others = draw.sample(others, len(others))
            case.paths += [(member, other, relay, ORIGIN) for other in others]
            case.paths.append((member, relay, ORIGIN))
    return case


MAKERS: dict[str, Callable[[Random], Case]] = {
    "hierarchy": hierarchy,
    "gadgets": gadgets,
    "mesh": mesh,
    "mesh-1000": partial(mesh, delay=1000),
    "mesh-100000": partial(mesh, delay=100000),
    "limits": limits,
}


def text_of(name: str, seed: int) -> str:
    """The text of the case of this name that is drawn from the seed."""
    return str(MAKERS[name](Random(seed)))
