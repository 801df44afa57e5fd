#!/usr/bin/env python3
"""Measures the opening of stores whose texts collide, by the instructions that callgrind counts.

    colliding.py PROGRAM

PROGRAM is the built crates/odin. Each store is opened by a session without input at 1,000, 2,000 and 4,000 of what it has, less the opening of one with none of
it. It prints the instructions for each, and how far twice and four times as many are from two and four times the instructions.
"""
import os
import re
import subprocess
import sys
import tempfile

from store_images import GRAPH, Writer, blob, many

COUNTS = [1000, 2000, 4000]
# A text whose last eight bytes are these has the quick hash 0, whatever stands before.
END = bytes([0x15, 0x7C, 0x4A, 0x7F, 0xB9, 0x79, 0x37, 0x9E])


class LongWriter(Writer):
    """The same for many batches."""

    def __init__(self):
        self.pieces = []
        super().__init__()

    def batch(self, items):
        payload = b"".join(items)
        self.pieces.append(b"\1" + blob(payload))

    def whole(self):
        return self.image[:64] + b"".join(self.pieces) + b"\0"


def call(writer, text, outs=(b"o",), bodies=(b"x",)):
    writer.keep(b"cc", b"1", [], [], [(0, b"a.c", text)], list(outs), 0, [], list(bodies))


def calls_of(end):
    def made(count):
        writer = LongWriter()
        for number in range(count):
            call(writer, b"%08d" % number + end)
        return writer.whole()
    return made


def compounds(count):
    writer = LongWriter()
    for number in range(count):
        writer.batch([b"\2" + blob(b"\3" + many([blob(b"p") + blob(b"%08d" % number + END)]))])
    return writer.whole()


def opening(program, image, folder):
    for name, bytes_of in (("odin.store", image), ("graph", GRAPH)):
        with open(os.path.join(folder, name), "wb") as out:
            out.write(bytes_of)
    run = subprocess.run(["valgrind", "--tool=callgrind", "--callgrind-out-file=/dev/null", program, "graph"],
                         cwd=folder, stdin=subprocess.DEVNULL, capture_output=True, text=True, check=True)
    return int(re.search(r"Collected : (\d+)", run.stderr).group(1))


def main():
    program = os.path.realpath(sys.argv[1])
    kinds = [("calls with texts that collide", calls_of(END)), ("calls with other texts", calls_of(b"12345678")), ("compounds", compounds)]
    with tempfile.TemporaryDirectory() as folder:
        for name, made in kinds:
            none = opening(program, made(0), folder)
            counted = [opening(program, made(count), folder) - none for count in COUNTS]
            grown = ", ".join(f"{n / counted[0] / (c / COUNTS[0]):.2f}" for n, c in zip(counted, COUNTS))
            print(f"{name}: {counted} instructions for {COUNTS}; against linear {grown}", flush=True)
    return 0


if __name__ == "__main__":
    sys.exit(main())
