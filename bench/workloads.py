"""The cases on which programs are compared, by the names that bench/README.md has for them.

Some are made by at_scale.py. Others are of the makers of the plain program that twarp is measured
against: its folder has them in gen.py.
"""
from __future__ import annotations

import importlib.util
import sys
from dataclasses import dataclass, field
from pathlib import Path
from types import ModuleType

from at_scale import MAKERS, text_of

SEED = 1


@dataclass(frozen=True)
class Workload:
    """A case with the options of its run.

    `maker` names one of at_scale.py or, with words, one of gen.py.
    """

    name: str
    maker: str
    options: str
    words: dict[str, int] = field(default_factory=dict)
    is_short: bool = False

    @property
    def is_of_plain_program(self) -> bool:
        return self.maker not in MAKERS

    @property
    def key(self) -> str:
        """What tells its case from others."""
        return "-".join([self.maker, *(f"{name}{number}" for name, number in self.words.items())])

    def text(self, gen: ModuleType | None) -> str:
        if not self.is_of_plain_program:
            return text_of(self.maker, SEED)
        assert gen, "the caller leaves out what no maker is there for"
        return gen.MAKERS[self.maker](**self.words)


def makers_in(folder: Path) -> ModuleType | None:
    """The makers of a folder that has a gen.py. Nothing is written there."""
    spec = importlib.util.spec_from_file_location("gen", folder / "gen.py")
    if not spec or not spec.loader or not (folder / "gen.py").exists():
        return None
    sys.dont_write_bytecode = True
    gen = importlib.util.module_from_spec(spec)
    spec.loader.exec_module(gen)
    return gen


def networks(routers: int, **words: int) -> dict[str, int]:
    return {"n": routers, **words}


# `seq` beside the plain program.
FOR_SEQ = [
    Workload("networks of 100", "gao-rexford", "--stop 1000000", networks(100, scenario=600), True),
    Workload(
        "the same, --log", "gao-rexford", "--stop 1000000 --log", networks(100, scenario=600), True
    ),
    Workload("disputes of 20", "disputes", "--stop 600", {"n": 20}, True),
    Workload(
        "disputes of 20, --every 1",
        "disputes",
        "--stop 600 --every 1",
        {"n": 20, "spread": 20},
        True,
    ),
    Workload("clique of 15", "clique", "--stop 1000000", {"n": 15, "scenario": 60}, True),
    Workload("networks of 1,024", "gao-rexford", "--stop 7000000", networks(1024)),
    Workload(
        "networks of 1,024, --log",
        "gao-rexford",
        "--stop 7000000 --log",
        networks(1024, scenario=1000),
    ),
    Workload(
        "networks, delays to 100,000",
        "gao-rexford",
        "--stop 1000000000",
        networks(1024, delay=100000),
    ),
    Workload("disputes of 280", "disputes", "--stop 8000", {"n": 280}),
    Workload(
        "disputes of 280, --every 1", "disputes", "--stop 1000 --every 1", {"n": 280, "spread": 20}
    ),
    Workload("clique of 60", "clique", "--stop 2000000", {"n": 60, "scenario": 400}),
    Workload(
        "clique, delays to 1,000",
        "clique",
        "--stop 20000000",
        {"n": 60, "scenario": 100, "delay": 1000, "gap": 100000},
    ),
    Workload(
        "clique, delays to 100,000",
        "clique",
        "--stop 1000000000",
        {"n": 60, "scenario": 100, "delay": 100000, "gap": 10000000},
    ),
    Workload("grid of 256", "grid", "--stop 3000000", {"n": 16}),
    Workload("dense", "dense", "--stop 10000000", {"n": 1024, "scenario": 200}),
    Workload("max, reading alone", "max", "--stop 1"),
    Workload("gadgets", "gadgets", "--stop 4841"),
    Workload("mesh", "mesh", "--stop 44550"),
    Workload("mesh-1000", "mesh-1000", "--stop 1500000"),
    Workload("mesh-100000", "mesh-100000", "--stop 150000000"),
    Workload("hierarchy", "hierarchy", "--stop 131072"),
]

# `run` beside `seq` and the prototype.
FOR_RUN = [
    Workload("gadgets", "gadgets", "--stop 2430"),
    Workload("mesh", "mesh", "--stop 44550"),
    Workload("hierarchy", "hierarchy", "--stop 131072", is_short=True),
    Workload("grid of 256", "grid", "--stop 3000000", {"n": 16}),
    Workload("disputes of 280", "disputes", "--stop 1500", {"n": 280}),
    Workload("disputes of 20", "disputes", "--stop 600", {"n": 20}, True),
    Workload("networks of 1,024", "gao-rexford", "--stop 2800000", networks(1024)),
    Workload(
        "networks, delays to 100,000",
        "gao-rexford",
        "--stop 20000000",
        networks(1024, delay=100000),
    ),
    Workload("clique of 60", "clique", "--stop 400000", {"n": 60, "scenario": 400}),
    Workload(
        "clique, delays to 1,000",
        "clique",
        "--stop 1000000",
        {"n": 60, "scenario": 100, "delay": 1000, "gap": 100000},
    ),
    Workload("dense", "dense", "--stop 10000000", {"n": 1024, "scenario": 200}),
]

# How time and memory grow with the run, and with what is asked of it.
FOR_GROWTH = [
    Workload("gadgets", "gadgets", "--stop 50", is_short=True),
    Workload("gadgets", "gadgets", "--stop 486", is_short=True),
    Workload("gadgets", "gadgets", "--stop 4841"),
    Workload("gadgets", "gadgets", "--stop 48410"),
    Workload("gadgets, --log", "gadgets", "--stop 486 --log"),
    Workload("gadgets, --log", "gadgets", "--stop 4841 --log"),
    Workload("gadgets, --every 1", "gadgets", "--stop 4841 --every 1"),
    Workload("mesh", "mesh", "--stop 765", is_short=True),
    Workload("mesh", "mesh", "--stop 8910"),
    Workload("mesh", "mesh", "--stop 89576"),
    Workload("hierarchy", "hierarchy", "--stop 131072", is_short=True),
    Workload("hierarchy, --every 100", "hierarchy", "--stop 131072 --every 100"),
    Workload("hierarchy, --every 10", "hierarchy", "--stop 131072 --every 10"),
    Workload("limits, reading alone", "limits", "--stop 1"),
]
