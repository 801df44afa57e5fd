#!/usr/bin/env python3
"""Measures an ask over a chain of headers with everything kept, by the instructions that callgrind counts.

    chains.py PROGRAM

PROGRAM is the built crates/odin. A unit includes the first header of a chain, and each header the next one: 50, 100, 200 and 400 headers. A first
session puts them and asks for the unit's object, so that each call is kept; the scans are run by sh and sed. Then the same ask is counted in a session
of its own, less that session without it. It prints the instructions for each, and how far more headers are from as many times the instructions.
It ends with an error where the counted ask wrote to the store, as one that made a call does.
"""
import os
import re
import subprocess
import sys
import tempfile

COUNTS = [50, 100, 200, 400]
ASK = b"ask u.c:o\n"
GRAPH = """type hdr simple;
type c simple is hdr;
type inc simple;
type o simple;
suffix .h hdr;
suffix .c c;
tool scan 1 from hdr to inc run "sh" "-c" "sed -n 's:^include ::p' i1 > out.inc";
tool cc 1 from c to o run "sh" "-c" "cp i1 out.o" closure inc;
"""


def put(name, text):
    return b"put %s %d\n%s" % (name, len(text), text)


def chain(count):
    """The commands that put a unit and so many headers, each of which includes the next one."""
    headers = [put(b"h%d.h" % k, b"include h%d.h\nw%d=1\n" % (k + 1, k)) for k in range(1, count)]
    return b"".join(headers) + put(b"h%d.h" % count, b"w%d=1\n" % count) + put(b"u.c", b"include h1.h\n")


def session(folder, words, commands):
    return subprocess.run([*words, "graph"], cwd=folder, input=commands, capture_output=True, check=True)


def counted(program, folder, commands):
    """The instructions of a session, and what it replied."""
    ran = session(folder, ["valgrind", "--tool=callgrind", "--callgrind-out-file=/dev/null", program], commands)
    return int(re.search(rb"Collected : (\d+)", ran.stderr).group(1)), ran.stdout


def asking(program, count):
    """The instructions of an ask over so many headers, each call of which is kept."""
    with tempfile.TemporaryDirectory() as folder:
        with open(os.path.join(folder, "graph"), "w") as graph:
            graph.write(GRAPH)
        store = os.path.join(folder, "odin.store")
        session(folder, [program], chain(count) + ASK)
        length = os.path.getsize(store)
        none, _ = counted(program, folder, b"")
        asked, reply = counted(program, folder, ASK)
        if not reply.startswith(b"object ok simple ") or not reply.endswith(b"\nmessages 0\n"):
            sys.exit("chains.py: not the reply of a unit without messages: %r" % reply)
        if os.path.getsize(store) != length:
            sys.exit("chains.py: a call was made for what is measured")
        return asked - none


def main():
    program = os.path.abspath(sys.argv[1])
    measured = [asking(program, count) for count in COUNTS]
    grown = ", ".join(f"{n / measured[0] / (c / COUNTS[0]):.2f}" for n, c in zip(measured, COUNTS))
    print(f"an ask over a chain: {measured} instructions for {COUNTS} headers; against linear {grown}", flush=True)
    return 0


if __name__ == "__main__":
    sys.exit(main())
