#!/usr/bin/env python3
"""What asks cost by the records of nodes, in instructions, against the same asks where no record counts, in one run:

    looks.py [--units N] [--against M] [--odin FOLDER] [--folder DIR]

The project of peers.py with N units (2,000 where it isn't said) is built by toy tools, once with each of two texts of a header, so that all calls of both
are kept. Then callgrind counts sessions that start no tool, each less the same one without the ask: the first ask after an opening, the same ask once
more, and the ask after that header changed back, which a twelfth of the units includes. They are counted once more under a graph that differs by a
comment: no record counts then, and each node is settled by what is kept of its calls. Last, the same is counted with M units, a tenth where it
isn't said, and the first ask is compared.
It needs valgrind, and the programs odin, odin_takes and odin_get.
"""
import argparse
import os
import re
import shutil
import subprocess
import sys
import tempfile

import peers

ASK = b"ask src/m.list:exe\n"


def put(value):
    text = peers.header(1, value).encode()
    return b"put src/h1.h %d\n%s" % (len(text), text)


def run(odin, folder, graph, commands):
    """Serves commands, and gives what is replied."""
    done = subprocess.run([odin, graph], cwd=folder, input=commands, capture_output=True)
    if done.returncode != 0:
        sys.exit("looks.py: odin ended with %d: %s" % (done.returncode, done.stderr[-300:].decode()))
    return done.stdout


def counted(odin, folder, graph, commands):
    """The instructions of a session over a copy of the store."""
    shutil.copy(folder + "/odin.store", folder + "/kept")
    words = ["valgrind", "--tool=callgrind", "--callgrind-out-file=/dev/null", odin, graph]
    done = subprocess.run(words, cwd=folder, input=commands, capture_output=True)
    os.replace(folder + "/kept", folder + "/odin.store")
    if done.returncode != 0:
        sys.exit("looks.py: odin ended with %d" % done.returncode)
    return int(re.search(rb"Collected : (\d+)", done.stderr).group(1))


def built(peer, work, units):
    """A folder with the store of a project that was built with both texts of a header, and was asked for last with the first one."""
    project = peers.Project(work, units, "toy")
    folder = work + "/odin"
    project.put(folder)
    peer.prepare(project, folder)
    peers.build(peer, project, folder)
    first = run(peer.odin, folder, "graph", put(2) + ASK + put(1) + ASK + ASK)
    with open(folder + "/graph") as file:
        peers.write(folder + "/other", file.read() + "# nothing else\n")
    if b"object ok" not in first:
        sys.exit("looks.py: the project wasn't built")
    return folder, project


def asks(odin, folder, graph, front):
    """The opening, the first ask, the same again, and the one after the header changed back, which comes after the first commands."""
    opened, once, twice, edited, back = (
        counted(odin, folder, graph, commands) for commands in (b"", ASK, ASK + ASK, front + put(2), front + put(2) + ASK)
    )
    return opened, once - opened, twice - once, back - edited


def measure(peer, work, units):
    folder, project = built(peer, work, units)
    runs = project.runs()
    records = asks(peer.odin, folder, "graph", ASK)
    calls = asks(peer.odin, folder, "other", b"")
    if project.runs() != runs:
        sys.exit("looks.py: a tool was run")
    size = os.path.getsize(folder + "/odin.store")
    print("%d units, a store of %d bytes; millions of instructions by records, and where none counts" % (units, size))
    for name, one, other in zip(("the opening", "the first ask", "the same again", "after a header changed back"), records, calls):
        print("%s: %.2f, %.2f, ratio %.4f" % (name, one / 1e6, other / 1e6, one / other), flush=True)
    print("the same again by records, against the first ask where none counts: %.5f" % (records[2] / calls[1]), flush=True)
    return records[1]


def main():
    words = argparse.ArgumentParser(usage=__doc__)
    words.add_argument("--units", type=int, default=2000)
    words.add_argument("--against", type=int)
    words.add_argument("--odin", default=peers.TOP + "/crates")
    words.add_argument("--folder")
    asked = words.parse_args()
    against = asked.against or asked.units // 10
    peer = peers.Odin(os.path.abspath(asked.odin), 1)
    if not peer.there:
        sys.exit("looks.py: build odin, odin_takes and odin_get first")
    found = []
    for units in (asked.units, against):
        work = tempfile.mkdtemp(prefix="looks-", dir=asked.folder)
        try:
            found.append(measure(peer, work, units))
        finally:
            shutil.rmtree(work, ignore_errors=True)
    print("the first ask grows by %.2f beyond the units" % (found[0] * against / (found[1] * asked.units)))


if __name__ == "__main__":
    main()
