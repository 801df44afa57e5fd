#!/usr/bin/env python3
"""Makes the table of what the gate costs from logs of `test`, with the sum, and what so many processors take:

    gate.py LOG [LOG ..]

A log has a line `gate: CRATE KIND SECONDS MEGABYTES` for each crate and what was done for it: its proof, its tests, its must-fail edits, the runs of what was
built. What a run took from an earlier one costs nothing there: where more than one log is given, each crate has what the last log has in which it was proved.
The processors are those of a simulation of rt's order, with one job a proof: a proof begins once all below it are proved, those first that the most lines wait
for; edits fill what is left, after the proof and the tests of their crate; runs come last, one after another.
"""
import glob
import heapq
import os
import re
import sys

sys.dont_write_bytecode = True
TOP = os.path.dirname(os.path.dirname(os.path.abspath(__file__)))
sys.path.insert(0, os.path.join(TOP, "bench"))
from sampler import read_line  # noqa: E402

KINDS = ("proof", "tests", "edits", "runs")


def read_uses():
    with open(os.path.join(TOP, "crates.txt")) as file:
        rows = [line.partition("#")[0].partition(":") for line in file]
    uses = {name.split()[0]: used.split() for name, _, used in rows if name.strip()}
    return {name: [it for it in used if it in uses] for name, used in uses.items()}


def count_lines(name):
    files = glob.glob(os.path.join(TOP, "crates", name, "src", "**", "*.rt"), recursive=True)
    return sum(open(it, "rb").read().count(b"\n") for it in files)


class Gate:
    """What logs tell: of each crate the seconds and the megabytes by kind, and which were kept from before."""

    def __init__(self):
        self.seconds, self.most, self.kept, self.whole = {}, {}, set(), 0

    def read(self, path):
        seen, kept = {}, set()
        for line in open(path, errors="replace"):
            told, of_kept = read_line(line), re.match(r"rt: (\w+) is kept: ", line)
            if of_kept:
                kept.add(of_kept[1])
            if told and told[1] == "whole":
                self.whole += told[2]
            elif told:
                seen.setdefault(told[0], {})[told[1]] = told[2:]
        for name, kinds in seen.items():
            # of a kept crate the tests run again, and nothing else
            kinds = kinds if name not in kept else {kind: it for kind, it in kinds.items() if kind not in self.seconds.get(name, {})}
            self.seconds.setdefault(name, {}).update({kind: it[0] for kind, it in kinds.items()})
            self.most[name] = max([self.most.get(name, 0), *(it[1] for it in kinds.values())])
        self.kept = {it for it in self.kept | kept if "proof" not in self.seconds.get(it, {})}

    def of(self, name, *kinds):
        return sum(self.seconds.get(name, {}).get(kind, 0) for kind in kinds or KINDS)


def simulated(gate, uses, lanes):
    """How long so many lanes take by the clock."""
    waits = {it: count_lines(it) for it in uses}
    for name in sorted(uses, key=lambda it: -len(below(uses, it))):
        waits[name] += max((waits[it] for it in uses if name in uses[it]), default=0)
    tasks = {}
    for name, used in uses.items():
        tasks[name, "proof"] = ([(it, "proof") for it in below(uses, name)], (0, -waits[name]))
        tasks[name, "tests"] = (tasks[name, "proof"][0], (0, -waits[name]))
        tasks[name, "edits"] = ([(name, "proof"), (name, "tests")], (1, -waits[name]))
    left, running, done, now = sorted(tasks, key=lambda it: tasks[it][1]), [], set(), 0.0
    while left or running:
        for key in [it for it in left if {*tasks[it][0]} <= done]:
            if len(running) < lanes:
                left.remove(key)
                heapq.heappush(running, (now + gate.of(*key), key))
        now, key = heapq.heappop(running)
        done.add(key)
    return now + sum(gate.of(it, "runs") for it in uses)


def below(uses, name):
    found = set()
    for it in uses[name]:
        found |= {it} | below(uses, it)
    return found


def main(paths):
    if not paths or paths[0].startswith("-"):
        sys.exit(__doc__)
    gate, uses = Gate(), read_uses()
    for path in paths:
        gate.read(path)
    print("| Crate | Proof | Tests | Edits | Runs | MB | Count of edits |")
    print("|---|---|---|---|---|---|---|")
    for name in sorted(uses, key=lambda it: -gate.of(it)):
        edits = len(glob.glob(os.path.join(TOP, "crates", name, "must-fail", "*.edit")))
        cells = ["kept" if kind == "proof" and name in gate.kept else "%.0f" % gate.of(name, kind) if gate.of(name, kind) else "-" for kind in KINDS]
        print("| `%s` | %s | %s | %s |" % (name, " | ".join(cells), gate.most.get(name, "-"), edits or "-"))
    print("| all | %s | | |" % " | ".join("%.0f" % sum(gate.of(it, kind) for it in uses) for kind in KINDS))
    print()
    told = sum(gate.of(it) for it in uses)
    print("%.0f seconds of the processor in all, of which %.0f are told above; %d crates were kept." % (gate.whole, told, len(gate.kept)))
    print("By the clock, simulated: " + ", ".join("%d processors %.0f s" % (it, simulated(gate, uses, it)) for it in (1, 2, 4, 8)) + ".")


main(sys.argv[1:])
