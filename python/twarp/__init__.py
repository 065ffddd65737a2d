"""twarp from Python: cases, runs by the proved program, sweeps over many runs, and pictures.

    import twarp

    case = twarp.Case(3).link(0, 1, 1).link(0, 2, 5).link(1, 2, 1)
    case.path(1, 2, 0).path(1, 0).path(2, 1, 0).path(2, 0)
    report = twarp.seq(case, stop=20, log=True)
    print(report.verdict, report.routers[2].rib)

The package needs Python 3.10 alone; `Case.from_networkx` and `Case.to_networkx` need networkx (Debian:
python3-networkx), and `cluster` needs distributed (Debian: python3-distributed). `docs/TUTORIAL.md` has more.
"""

from twarp import pictures
from twarp.calls import Pivot, Safety, Size, Stable, check, replay, run, safe, seq, stable, trail, upgrade, version
from twarp.case import BarScene, Case, Link, LinkScene, SwapScene
from twarp.outcomes import Outcome, Outcomes
from twarp.program import Refused, Stopped
from twarp.report import Allow, Event, Fail, Forbid, Open, Oscillates, Quiet, Replay, Report, Restore, RouterLine, Start
from twarp.report import Step, Swap, Trail, Undone, Update
from twarp.sweeps import Exponential, LogNormal, Sweep, Uniform, cluster, sweep
from twarp.trials import End, Failed, Trial

# fmt: off
__all__ = [
    "Allow", "BarScene", "Case", "End", "Event", "Exponential", "Fail", "Failed", "Forbid", "Link", "LinkScene",
    "LogNormal", "Open", "Oscillates", "Outcome", "Outcomes", "Pivot", "Quiet", "Refused", "Replay", "Report",
    "Restore", "RouterLine", "Safety", "Size", "Stable", "Start", "Step", "Stopped", "Swap", "SwapScene", "Sweep",
    "Trail", "Trial", "Undone", "Uniform", "Update", "check", "cluster", "pictures", "replay", "run", "safe", "seq",
    "stable", "sweep", "trail", "upgrade", "version",
]
