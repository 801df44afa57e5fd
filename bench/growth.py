#!/usr/bin/env python3
"""Counts instructions of sessions that grow, by callgrind, and how far they are from linear.

    growth.py PROGRAM [--small] [KIND..]

PROGRAM is the built crates/odin. KIND is one of those that are told below; all where none is said. With --small the sizes are small, to try it.

    puts      sources that are put in falling order of their names, and the opening of a store of them with one ask
    graphs    an ask for what a list of 1,000 references makes, over graphs with 50, 100 and 200 types and as many makers
    messages  an ask for what a list of references makes, each with one warning, and the memory of the session with most of them

All calls of an ask are kept: the store is written here, and no tool is run. A session is counted less the same session without what is measured. Each
reply is compared with the one that is wanted. It ends with 1 where a figure is above its bound.
"""
import argparse
import os
import re
import subprocess
import sys
import tempfile

from colliding import LongWriter
from store_images import blob

GROWTH = 1.3
MEMORY = 100 * 1000 * 1000
REFERENCES = 1000
MESSAGES = 1000
WARNING = 1


class Filled(LongWriter):
    """A store that was opened for a graph."""

    def __init__(self, graph):
        super().__init__()
        self.batch([b"\1" + blob(graph)])


class Session:
    """A graph and a store, and what a program makes of commands over them."""

    def __init__(self, program, graph, store):
        self.program = os.path.abspath(program)
        self.graph = graph
        self.store = store

    def run(self, before, commands):
        """The program over commands, behind words that run it, in a folder with the graph and the store."""
        with tempfile.TemporaryDirectory() as folder:
            self.write(folder, "graph", self.graph)
            self.write(folder, "odin.store", self.store)
            self.write(folder, "commands", commands)
            with open(os.path.join(folder, "commands"), "rb") as given:
                return subprocess.run(before + [self.program, "graph"], cwd=folder, stdin=given, capture_output=True, check=True)

    @staticmethod
    def write(folder, name, data):
        with open(os.path.join(folder, name), "wb") as out:
            out.write(data)

    def instructions(self, commands, wanted):
        run = self.run(["valgrind", "--tool=callgrind", "--callgrind-out-file=/dev/null"], commands)
        self.compare(run.stdout, wanted)
        return int(re.search(rb"Collected : (\d+)", run.stderr).group(1))

    def memory(self, commands, wanted):
        """The most that the process held, in bytes."""
        run = self.run(["/usr/bin/time", "-f", "most %M"], commands)
        self.compare(run.stdout, wanted)
        return int(re.search(rb"most (\d+)", run.stderr).group(1)) * 1024

    @staticmethod
    def compare(told, wanted):
        if told != wanted:
            at = next((i for i, (a, b) in enumerate(zip(told, wanted)) if a != b), min(len(told), len(wanted)))
            sys.exit(f"the reply differs at byte {at}: {told[at:at + 200]!r} in place of {wanted[at:at + 200]!r}")


def simple(status, text, messages=()):
    """The reply to an ask for a simple object."""
    lines = b"".join(b"warning %s %s\n" % message for message in messages[:MESSAGES])
    return b"object %s simple %d\n%s\nmessages %d\n%s" % (status, len(text), text, min(len(messages), MESSAGES), lines)


class Figures:
    """Prints figures, and remembers whether any is above its bound."""

    def __init__(self):
        self.above = False

    def growth(self, name, sizes, counted, bound=GROWTH):
        grown = [count / counted[0] / (size / sizes[0]) for size, count in zip(sizes, counted)]
        told = ", ".join(f"{g:.2f}" for g in grown)
        print(f"{name}: {counted} instructions for {sizes}; against linear {told}{self.mark(bound is not None and max(grown) > bound)}", flush=True)

    def most(self, name, size, memory):
        print(f"{name}: {memory / 1e6:.1f} MB for {size}{self.mark(memory > MEMORY)}", flush=True)

    def mark(self, is_above):
        self.above |= is_above
        return ": above the bound" if is_above else ""


# ---- sources in falling order

SOURCES_GRAPH = b"type c simple;\nsuffix .c c;\n"


def falling(count):
    return [(b"u%06d.c" % number, b"text %d\n" % number) for number in reversed(range(count))]


def puts(program, sizes, figures):
    putting, opening = [], []
    none = Session(program, SOURCES_GRAPH, b"").instructions(b"", b"")
    for size in sizes:
        sources = falling(size)
        commands = b"".join(b"put %s %d\n%s" % (name, len(text), text) for name, text in sources)
        replies = b"".join(b"put %s %d\n" % (name, len(text)) for name, text in sources)
        putting.append(Session(program, SOURCES_GRAPH, b"").instructions(commands, replies) - none)
        store = Filled(SOURCES_GRAPH)
        for name, text in sources:
            store.put(name, text)
        name, text = sources[size // 2]
        opening.append(Session(program, SOURCES_GRAPH, store.whole()).instructions(b"ask %s\n" % name, simple(b"ok", text)) - none)
    figures.growth("sources put in falling order", sizes, putting)
    figures.growth("a store of them opened, and one asked for", sizes, opening)


# ---- references over larger graphs

# Kinds of graphs with so many more types and makers than those of a list of units and what they make.
BASE_GRAPH = b"type o simple;\ntype sm simple;\ntype objs list of o;\ntype exe simple;\nsuffix .sm sm;\n"
BASE_MAKERS = b'read rd from sm to objs;\ntool ld 1 from objs to exe run "ld";\n'
CC = b'tool cc 1 from c to o run "cc";\n'
BASE_TYPES = 5


def fanned(count):
    """Every maker but one takes what the units are, and leads elsewhere."""
    types = b"".join(b"type t%d simple;\n" % k for k in range(count - BASE_TYPES))
    makers = b"".join(b'tool m%d 1 from c to t%d run "ld";\n' % (k, k) for k in range(count - BASE_TYPES))
    return b"type c simple;\nsuffix .c c;\n" + BASE_GRAPH + types + BASE_MAKERS + makers + CC


def chained(count):
    """The makers lead from type to type, to what the units are."""
    types = b"".join(b"type t%d simple;\n" % k for k in range(count - BASE_TYPES))
    makers = b"".join(b'tool m%d 1 from t%d to t%d run "ld";\n' % (k, k, k + 1) for k in range(count - BASE_TYPES - 1))
    last = b'tool last 1 from t%d to c run "ld";\n' % (count - BASE_TYPES - 1)
    return b"type c simple;\nsuffix .c c;\n" + BASE_GRAPH + types + BASE_MAKERS + makers + last + CC


def stacked(count):
    """Each type is the one before, and the units are all of them; a maker goes from each to the one before."""
    types = b"type t0 simple;\n" + b"".join(b"type t%d simple is t%d;\n" % (k, k - 1) for k in range(1, count - BASE_TYPES))
    makers = b"".join(b'tool m%d 1 from t%d to t%d run "ld";\n' % (k, k, k - 1) for k in range(1, count - BASE_TYPES))
    return types + b"type c simple is t%d;\nsuffix .c c;\n" % (count - BASE_TYPES - 1) + BASE_GRAPH + BASE_MAKERS + makers + CC


def linked(graph, references, objects):
    """A store with a list of references, and with the call that makes a program of their objects."""
    store = Filled(graph)
    store.put(b"m.sm", b"".join(reference + b"\n" for reference in references))
    parts = [(0, label, body) for label, body in objects]
    store.keep(b"ld", b"1", [b"ld"], [], parts, [b"exe"], 0, [], [b"program\n"])
    return store


def graphs(program, sizes, figures):
    count = REFERENCES * sizes[0] // 50
    names = [b"u%04d.c" % k for k in range(count)]
    none = Session(program, SOURCES_GRAPH, b"").instructions(b"", b"")
    for name, made in [("a fan", fanned), ("a chain", chained), ("supertypes", stacked)]:
        asking, opening = [], []
        for size in sizes:
            graph = made(size)
            store = linked(graph, names, [(unit + b":o", b"object of " + unit) for unit in names])
            for unit in names:
                text = b"text of " + unit
                store.put(unit, text)
                store.keep(b"cc", b"1", [b"cc"], [], [(0, unit, text)], [b"o"], 0, [], [b"object of " + unit])
            over = Session(program, graph, store.whole())
            asking.append(over.instructions(b"ask m.sm:exe\n", simple(b"ok", b"program\n")) - over.instructions(b"", b""))
            opening.append(Session(program, graph, b"").instructions(b"", b"") - none)
        figures.growth(f"an ask over {count} references, types in {name}", sizes, asking)
        # The tables of a graph have an entry for each two types, so it has no bound.
        figures.growth(f"a session over that graph alone, types in {name}", sizes, opening, bound=None)


# ---- references with messages

MESSAGE_GRAPH = b'type c simple;\nparam p;\n' + BASE_GRAPH + b"suffix .c c;\n" + BASE_MAKERS + CC
HANDED_GRAPH = b'type c simple;\ntype a simple;\nparam p;\n' + BASE_GRAPH + b"suffix .c c;\n" + BASE_MAKERS + \
    b'tool as 1 from c to a run "as";\ntool cc 1 from a to o run "cc";\n'


def of_one_call(count):
    """One unit with a parameter that its tool doesn't use."""
    store = linked(MESSAGE_GRAPH, [b"a.c+p=%d" % k for k in range(count)], [(b"a.c:o", b"object")] * count)
    store.put(b"a.c", b"text")
    store.keep(b"cc", b"1", [b"cc"], [], [(0, b"a.c", b"text")], [b"o"], WARNING, [(WARNING, b"unused")], [b"object"])
    return MESSAGE_GRAPH, store, [(b"a.c:o", b"unused")]


def of_own_calls(count):
    """Units with a call and a warning each."""
    names = [b"u%05d.c" % k for k in range(count)]
    store = linked(MESSAGE_GRAPH, names, [(name + b":o", b"object of " + name) for name in names])
    for name in names:
        store.put(name, b"text of " + name)
        store.keep(b"cc", b"1", [b"cc"], [], [(0, name, b"text of " + name)], [b"o"], WARNING, [(WARNING, b"warning of " + name)], [b"object of " + name])
    return MESSAGE_GRAPH, store, [(name + b":o", b"warning of " + name) for name in names]


def of_handed_on(count):
    """The same, where a second tool hands the warning on."""
    names = [b"u%05d.c" % k for k in range(count)]
    store = linked(HANDED_GRAPH, names, [(name + b":a:o", b"object of " + name) for name in names])
    for name in names:
        store.put(name, b"text of " + name)
        store.keep(b"as", b"1", [b"as"], [], [(0, name, b"text of " + name)], [b"a"], WARNING, [(WARNING, b"warning of " + name)], [b"between " + name])
        store.keep(b"cc", b"1", [b"cc"], [], [(0, name + b":a", b"between " + name)], [b"o"], 0, [], [b"object of " + name])
    return HANDED_GRAPH, store, [(name + b":a", b"warning of " + name) for name in names]


def messages(program, sizes, figures):
    for name, made in [("one call", of_one_call), ("a call each", of_own_calls), ("a call each, handed on", of_handed_on)]:
        counted = []
        for size in sizes:
            graph, store, told = made(size)
            over, asked, wanted = Session(program, graph, store.whole()), b"ask m.sm:exe\n", simple(b"warning", b"program\n", told)
            counted.append(over.instructions(asked, wanted) - over.instructions(b"", b""))
        figures.growth(f"an ask over references with a warning each, by {name}", sizes, counted)
        figures.most("the memory of the last such session", sizes[-1], over.memory(asked, wanted))


KINDS = {
    "puts": (puts, [20000, 40000, 80000], [1000, 2000, 4000]),
    "graphs": (graphs, [50, 100, 200], [10, 20, 40]),
    "messages": (messages, [2500, 5000, 10000], [125, 250, 500]),
}


def main():
    words = argparse.ArgumentParser()
    words.add_argument("program")
    words.add_argument("--small", action="store_true")
    words.add_argument("kinds", nargs="*")
    told = words.parse_intermixed_args()
    figures = Figures()
    for kind in told.kinds or KINDS:
        measured, sizes, small = KINDS[kind]
        measured(told.program, small if told.small else sizes, figures)
    return 1 if figures.above else 0


if __name__ == "__main__":
    sys.exit(main())
