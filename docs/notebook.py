"""DISAGREE from Python: built up, run, undone, refused, drawn, and swept over its delays."""
import twarp

# Routers 1 and 2 would each rather go through the other than straight to the origin.
case = twarp.Case(3).link(0, 1, 1).link(0, 2, 5).link(1, 2, 1)
case.path(1, 2, 0).path(1, 0).path(2, 1, 0).path(2, 0)
print(str(case) == open("cases/disagree.spp").read(), twarp.check(case))

report = twarp.seq(case, stop=20, log=True)
print(report.verdict, [router.rib for router in report.routers])
for event in report.events[:3]:
    print(event)

# The parallel run is the same, whatever its workers do; what a router did can be undone.
print(twarp.run(case, stop=20, log=True, workers=3) == report)
trail = twarp.trail(case, router=1, stop=20, keep=0)
print([undone.event.time for undone in trail.undone], trail.after)

with open("out/notebook.svg", "w") as picture:
    picture.write(twarp.pictures.timeline(case, report, title="disagree"))

try:
    twarp.check(twarp.Case(3).link(0, 1, 1_000_001))
except twarp.Refused as fault:
    print(fault.line, fault.code, fault.name)

# Whatever the delays: a dispute wheel, and how many stable assignments there are.
print(twarp.safe(case), len(twarp.stable(case).assignments))

# Over unknown delays of the origin's links: who wins how often, and how late?
trials = list(twarp.sweep(case, stop=100, every=1, delays="1-10", links=[(0, 1), (0, 2)], runs=100))
print(trials[1].seed, trials[1].values, trials[1].end.verdict)
print(twarp.Outcomes(trials).summary(), end="")
