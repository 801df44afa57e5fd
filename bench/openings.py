#!/usr/bin/env python3
"""What is done over a store that has all, before a tool could run, beside what nobody can do without, in one run:

    openings.py [--units N] [--rounds R] [--folder DIR] [--odin FOLDER]

The project of peers.py with N units (2,000 where it isn't said) is built by toy tools. Then R times in turn: odin opens the store and is asked nothing,
beside `cat` of the store to /dev/null; and odin takes each file, of which none changed, less that opening, beside a loop in C that opens, reads,
compares and closes the same files. Last, a header is edited 10,000 times in ten sessions, and the store is opened once more: its file is told against
twice what lives in it and a MiB. Of each time the median is told.
"""
import argparse
import os
import shutil
import statistics
import subprocess
import sys
import tempfile
import time

import peers

LOOP = r"""
#include <fcntl.h>
#include <stdio.h>
#include <stdlib.h>
#include <string.h>
#include <time.h>
#include <unistd.h>

enum { MOST = 1 << 20 };
static char buffer[MOST];

/* Reads the files whose names stand in a list, and then tells the seconds of opening, reading, comparing and closing each once more. */
int main(int count, char **words) {
    static char names[100000][64];
    static char *texts[100000];
    static ssize_t sizes[100000];
    int files = 0, same = 0;
    struct timespec begun, ended;
    FILE *list = fopen(words[1], "r");
    (void)count;
    while (files < 100000 && fscanf(list, "%63s", names[files]) == 1) {
        int file = open(names[files], O_RDONLY);
        sizes[files] = read(file, buffer, MOST);
        close(file);
        texts[files] = malloc(sizes[files] + 1);
        memcpy(texts[files], buffer, sizes[files]);
        files++;
    }
    clock_gettime(CLOCK_MONOTONIC, &begun);
    for (int k = 0; k < files; k++) {
        int file = open(names[k], O_RDONLY);
        ssize_t size = read(file, buffer, MOST);
        same += size == sizes[k] && memcmp(buffer, texts[k], size) == 0;
        close(file);
    }
    clock_gettime(CLOCK_MONOTONIC, &ended);
    printf("%.6f\n", ended.tv_sec - begun.tv_sec + (ended.tv_nsec - begun.tv_nsec) / 1e9);
    return same != files;
}
"""

EDITS, SESSIONS = 10_000, 10


def seconds(words, folder, given=b""):
    """The seconds of a program with this input."""
    with tempfile.TemporaryFile() as file:
        file.write(given)
        file.seek(0)
        start = time.perf_counter()
        subprocess.run(words, cwd=folder, stdin=file, stdout=subprocess.DEVNULL, check=True)
        return time.perf_counter() - start


def loop(work, folder, takes):
    """The seconds of the loop in C over the files that the lines take."""
    program = work + "/loop"
    if not os.path.exists(program):
        peers.write(program + ".c", LOOP)
        subprocess.run(["gcc", "-O2", "-w", "-o", program, program + ".c"], check=True)
        names = [line.split()[1] for line in takes.decode().splitlines() if line.startswith("take ")]
        peers.write(work + "/names", "\n".join(names) + "\n")
    return float(subprocess.run([program, work + "/names"], cwd=folder, check=True, capture_output=True).stdout)


def edits(odin, folder):
    """The size of the file after many edits of a header, and once the store is opened again."""
    line = b"#define w1 %07d\n" + b"/* a line of a header, as long as such lines are */\n" * 80
    for session in range(SESSIONS):
        texts = [line % (session * EDITS // SESSIONS + number) for number in range(EDITS // SESSIONS)]
        seconds(odin, folder, b"".join(b"put src/h1.h %d\n%s" % (len(text), text) for text in texts))
    before = os.path.getsize(folder + "/odin.store")
    for _ in range(2):
        seconds(odin, folder)
    return before, os.path.getsize(folder + "/odin.store")


def measure(peer, work, asked):
    project = peers.Project(work, asked.units, "toy")
    folder = work + "/odin"
    project.put(folder)
    peer.prepare(project, folder)
    peers.build(peer, project, folder)
    store, odin = folder + "/odin.store", [peer.odin, "graph"]
    takes = subprocess.run([peer.crates + "/odin_takes/out/odin_takes", "src"], cwd=folder, check=True, capture_output=True).stdout
    found = {name: [] for name in ("open", "cat", "takes", "loop")}
    for _ in range(asked.rounds):
        found["open"].append(seconds(odin, folder))
        found["cat"].append(seconds(["cat", store], folder))
        found["takes"].append(seconds(odin, folder, takes))
        found["loop"].append(loop(work, folder, takes))
    opens, cat, taken, looped = (1000 * statistics.median(found[name]) for name in ("open", "cat", "takes", "loop"))
    live = os.path.getsize(store)
    print("%d units, a store of %d bytes, medians of %d" % (asked.units, live, asked.rounds))
    print("opening %.2f ms, cat %.2f ms, ratio %.2f" % (opens, cat, opens / cat))
    print("%d takes beside the opening %.2f ms, the loop in C %.2f ms, ratio %.2f" % (takes.count(b"take "), taken - opens, looped, (taken - opens) / looped))
    before, after = edits(odin, folder)
    print("%d edits of a header: %d bytes, opened again %d, of which twice what lived and a MiB is %.2f times" % (EDITS, before, after, (2 * live + (1 << 20)) / after))


def main():
    words = argparse.ArgumentParser(usage=__doc__)
    words.add_argument("--units", type=int, default=2000)
    words.add_argument("--rounds", type=int, default=21)
    words.add_argument("--folder")
    words.add_argument("--odin", default=peers.TOP + "/crates")
    asked = words.parse_args()
    peer = peers.Odin(os.path.abspath(asked.odin), 1)
    if not peer.there:
        sys.exit("openings: build odin, odin_takes and odin_get first")
    work = tempfile.mkdtemp(prefix="openings-", dir=asked.folder)
    try:
        measure(peer, work, asked)
    finally:
        shutil.rmtree(work, ignore_errors=True)


if __name__ == "__main__":
    main()
