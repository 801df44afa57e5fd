#!/usr/bin/env python3
"""Runs the built programs where the system gives them no more, and looks at how they end and at what is there afterwards:

    python3 checks/limits [--odin FOLDER] [--seed N] [--all] [WORD ..]

A row takes something away while a session is served (room on the disk, rights, processes, descriptors, memory, the folder, who reads), or sends it a
signal, or has a tool that does what no tool should. The session has to end within 20 seconds, with a status that the row wants and with the line that
belongs to it on standard error, and each of its replies has to be the right one. Then a session without the limit has to find all that was replied,
and at most one command more; what was answered has to be answered again with no tool run; nothing may stand beside the store but an empty folder of
tools; and no child program may go on, but for the tools of a session that a signal ended, as many as it may have at once.

The programs are FOLDER/NAME/out/NAME, and else those that were built here. Where words are given, only rows are run that have one of them in their
name. With --all each row is told, else those that are not as they are wanted. Rows that this machine can't do are passed over, and told by their names.
As root, some rows are run as another user, since root has all rights; and some want a small file system in a file. In all it takes three minutes.
"""
import argparse
import contextlib
import signal
import subprocess
import sys
import tempfile
import time

sys.dont_write_bytecode = True

from bench import Bench, named  # noqa: E402
from looks import faults_of, filter_faults  # noqa: E402
from rows import Filter, all_rows  # noqa: E402
from told import TOP  # noqa: E402


def run_row(bench, row):
    """How the row ended, and what is wrong with it."""
    bench.next_row()
    if isinstance(row, Filter):
        return filter_faults(bench, row)
    faults, session = faults_of(bench, row)
    return named(session.status), faults


def read_words():
    parser = argparse.ArgumentParser(description=__doc__.partition("\n")[0])
    parser.add_argument("--odin", default=TOP + "/crates", metavar="FOLDER")
    parser.add_argument("--seed", type=int, default=1)
    parser.add_argument("--all", action="store_true")
    parser.add_argument("words", nargs="*", metavar="WORD")
    return parser.parse_args()


def main():
    asked = read_words()
    wanted = wrong = 0
    # a signal ends it as an exit does, so that nothing stays mounted
    for number in (signal.SIGTERM, signal.SIGHUP):
        signal.signal(number, lambda number, _: sys.exit(128 + number))
    # a shell that starts it in the background has this one ignored, and so would each session
    signal.signal(signal.SIGINT, signal.default_int_handler)
    with tempfile.TemporaryDirectory() as work, contextlib.closing(Bench(asked.odin, work)) as bench:
        for row in all_rows(bench, asked.seed):
            if asked.words and not any(it in row.name for it in asked.words):
                continue
            if row.on_loop is not None and not bench.mount():
                print("passed over: %s" % row.name, flush=True)
                continue
            begun = time.monotonic()
            end, faults = run_row(bench, row)
            wanted, wrong = wanted + (not faults), wrong + bool(faults)
            if faults or asked.all:
                print("%s: %s (%.1f s)" % (row.name, "; ".join(faults) or "as wanted, " + end, time.monotonic() - begun), flush=True)
    print("checks/limits: %d as wanted, %d not" % (wanted, wrong))
    sys.exit(wrong > 0)


if __name__ == "__main__":
    main()
