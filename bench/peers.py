#!/usr/bin/env python3
"""Builds the same project by odin, and by those of odin-build, ninja, make and tup that are there, J jobs at a time (1 where it isn't said), in one run:

    peers.py [--units N[,N..]] [--tools toy[,gcc]] [--jobs J] [--rounds R] [--again T] [--folder DIR] [--odin FOLDER] [--keep]

The project has N units, 12 headers of which each unit includes one, and a program of them all. It is built from nothing, once more with nothing
changed, with one header changed, and with that header changed back: each peer does these four in turn, in each round in a folder of its own, the
second T times, of which the median counts. Of each the median of the rounds is told, its ratio to the same of ninja (make where that isn't there),
and the number of tool runs, which is the length of a log to which each run adds a byte. Toy tools are one small program in C; the others are gcc, for odin beside scripts of sh.

odin is asked in one session, which drops nothing: odin_takes lists the files, odin_get writes the program. odin-build has a project's file with the same
graph, and no kit. The four are found in FOLDER/NAME/out, the crates of this repository where it isn't said. DIR is where the work is done: what a sync
costs depends on its disk. With --keep the folders stay, each peer's as its last round left it, with a file `commands` that asks odin for the program
with nothing changed, for a profile.
"""
import argparse
import os
import shutil
import statistics
import subprocess
import sys
import tempfile
import time

HEADERS = 12
STEPS = ("full build", "nothing changed", "header changed", "changed back")
TOP = os.path.dirname(os.path.dirname(os.path.abspath(__file__)))

TOY = r"""
#include <fcntl.h>
#include <stdio.h>
#include <string.h>
#include <unistd.h>

static char line[70000];

/* The name that a line includes, or none. */
static char *included(void) {
    char *end;
    if (strncmp(line, "#include \"", 10) != 0 || !(end = strchr(line + 10, '"'))) return NULL;
    *end = 0;
    return line + 10;
}

static int copy(const char *from, FILE *to) {
    size_t count;
    FILE *file = fopen(from, "r");
    if (!file) return 2;
    while ((count = fread(line, 1, sizeof line, file)) > 0) fwrite(line, 1, count, to);
    return fclose(file);
}

/* The names that a unit includes, one a line. */
static int scan(void) {
    FILE *unit = fopen("i1", "r"), *out = fopen("out.inc", "w");
    while (fgets(line, sizeof line, unit)) {
        char *name = included();
        if (name) fprintf(out, "src/%s\n", name);
    }
    return fclose(out);
}

/* What a unit includes, and the unit, as an object; the names go to a file for make and ninja. */
static int compile(const char *unit, const char *object, const char *names) {
    char header[300];
    FILE *file = fopen(unit, "r"), *out = fopen(object, "w"), *told = fopen(names, "w");
    fprintf(told, "%s: %s", object, unit);
    while (fgets(line, sizeof line, file)) {
        char *name = included();
        if (!name) continue;
        snprintf(header, sizeof header, "src/%s", name);
        fprintf(told, " %s", header);
        if (copy(header, out)) return 2;
    }
    fprintf(told, "\n");
    fclose(told);
    return copy(unit, out) || fclose(out);
}

/* The parts of a call of odin: those of other slots, which are headers, where they are wanted, and then those of slot 0. */
static int gather(const char *name, int headers) {
    char file[300], text[300];
    int slot;
    FILE *call, *out = fopen(name, "w");
    for (int turn = 0; turn < 2; turn++) {
        if (turn == 0 && !headers) continue;
        call = fopen("call", "r");
        while (fgets(text, sizeof text, call))
            if (sscanf(text, "part %d %299s", &slot, file) == 2 && (slot == 0) == turn && copy(file, out)) return 2;
        fclose(call);
    }
    return fclose(out);
}

int main(int count, char **words) {
    int log = open(LOG, O_WRONLY | O_APPEND);
    if (count < 2 || write(log, ".", 1) != 1) return 2;
    if (strcmp(words[1], "run") == 0) return execvp(words[2], words + 2);
    if (strcmp(words[1], "scan") == 0) return scan();
    if (strcmp(words[1], "compile") == 0) return compile(words[2], words[3], words[4]);
    if (strcmp(words[1], "object") == 0) return gather("out.o", 1);
    if (strcmp(words[1], "program") == 0) return gather("out.exe", 0);
    FILE *out = fopen(words[2], "w");
    for (int k = 3; k < count; k++)
        if (copy(words[k], out)) return 2;
    return fclose(out);
}
"""

SCRIPTS = {
    "scan.sh": """echo -n . >> LOG
sed -n 's:^#include "\\(.*\\)".*:src/\\1:p' i1 > out.inc
""",
    "object.sh": """echo -n . >> LOG
mkdir src
while read -r word slot file label; do
    case "$word $slot $file" in
    'part 0 i1') unit=$label ;;
    'part '*' -') continue ;;
    'part '*) ;;
    *) continue ;;
    esac
    ln -s "../$file" "$label"
done < call
exec gcc -O1 -c "$unit" -o out.o
""",
    "program.sh": """echo -n . >> LOG
exec gcc $(sed -n 's/^part 0 \\(i[0-9]*\\) .*/\\1/p' call) -o out.exe
""",
}

GRAPH = """type hdr simple;
type c simple is hdr;
type list simple;
type inc simple;
type o simple;
type exe simple;
type units list of c;
type objs list of o;
suffix .h hdr;
suffix .c c;
suffix .list list;
tool scan 1 from hdr to inc run SCAN;
tool cc 1 from c to o run OBJECT closure inc;
read rd from list to units;
each comp from units to objs;
tool ld 1 from objs to exe run PROGRAM;
"""


def write(path, text):
    with open(path, "w") as file:
        file.write(text)


def header(number, value):
    return "#define w%d %d\n" % (number, value)


def unit(number):
    """A unit of about 1,000 bytes."""
    lines = ["#include <stdio.h>", '#include "h%d.h"' % ((number - 1) % HEADERS + 1)]
    for k in range(8):
        lines.append("int f%d_%d(int n) {" % (number, k))
        lines.append("    for (int i = 0; i < n; i++) n ^= i * w%d + %d;" % ((number - 1) % HEADERS + 1, k))
        lines.append('    return n > 0 ? n : puts("below nought %d");' % number)
        lines.append("}")
    if number == 1:
        lines.append("int main(void) { return f1_0(1) == 0; }")
    return "\n".join(lines) + "\n"


class Project:
    """The sources of a project in the folder `src`, and the tools, which stand beside it."""

    def __init__(self, work, units, tools):
        self.units, self.tools = units, tools
        self.log, self.toy = work + "/log", work + "/toy"
        write(self.log, "")
        write(work + "/toy.c", TOY)
        subprocess.run(["gcc", "-O2", "-w", '-DLOG="%s"' % self.log, "-o", self.toy, work + "/toy.c"], check=True)
        for name, text in SCRIPTS.items():
            write(work + "/" + name, text.replace("LOG", self.log))
        self.work = work

    def names(self):
        return ["u%d" % k for k in range(1, self.units + 1)]

    def put(self, folder):
        os.makedirs(folder + "/src")
        for j in range(1, HEADERS + 1):
            write("%s/src/h%d.h" % (folder, j), header(j, 1))
        for k in range(1, self.units + 1):
            write("%s/src/u%d.c" % (folder, k), unit(k))
        write(folder + "/src/m.list", "".join("src/%s.c\n" % name for name in self.names()))

    def compile(self, source, target, names):
        """The command of a peer that makes an object."""
        if self.tools == "toy":
            return "%s compile %s %s %s" % (self.toy, source, target, names)
        return "%s run gcc -O1 -c %s -o %s -MMD -MF %s" % (self.toy, source, target, names)

    def link(self, objects, target):
        if self.tools == "toy":
            return "%s link %s %s" % (self.toy, target, objects)
        return "%s run gcc %s -o %s" % (self.toy, objects, target)

    def runs(self):
        return os.path.getsize(self.log)


def write_graph(project, folder):
    """The graph of the project's tools."""
    if project.tools == "toy":
        words = {name: '"%s" "%s"' % (project.toy, name.lower()) for name in ("SCAN", "OBJECT", "PROGRAM")}
    else:
        words = {name: '"sh" "%s/%s.sh"' % (project.work, name.lower()) for name in ("SCAN", "OBJECT", "PROGRAM")}
    graph = GRAPH
    for name, text in words.items():
        graph = graph.replace(name, text)
    write(folder + "/graph", graph)


class Odin:
    name = "odin"

    def __init__(self, crates, jobs):
        self.crates = crates
        programs = [crates + "/%s/out/%s" % (name, name) for name in ("odin", "odin_takes", "odin_get")]
        self.there = all(os.path.exists(program) for program in programs)
        self.odin, takes, get = programs
        self.line = "{ %s src; echo ask src/m.list:exe; } | %s --jobs %d graph | %s -m -o prog" % (takes, self.odin, jobs, get)

    def prepare(self, project, folder):
        write_graph(project, folder)

    def command(self):
        return ["sh", "-c", self.line]


class OdinBuild:
    name = "odin-build"

    def __init__(self, crates, jobs):
        self.program = crates + "/odin_build/out/odin_build"
        self.there = os.path.exists(self.program)
        self.jobs = "-j%d" % jobs

    def prepare(self, project, folder):
        write_graph(project, folder)
        write(folder + "/odin.toml", 'graph = "graph"\nsources = ["src/*"]\n\n[target.prog]\nask = "src/m.list:exe"\n')

    def command(self):
        return [self.program, self.jobs, "-q", "prog"]


class Ninja:
    name = "ninja"
    there = shutil.which("ninja") is not None

    def __init__(self, jobs):
        self.jobs = "-j%d" % jobs

    def prepare(self, project, folder):
        lines = ["rule cc", " command = " + project.compile("$in", "$out", "$out.d"), " depfile = $out.d", " deps = gcc"]
        lines += ["rule ld", " command = " + project.link("@$out.rsp" if project.tools == "gcc" else "$in", "$out")]
        lines += [" rspfile = $out.rsp", " rspfile_content = $in"]
        lines += ["build obj/%s.o: cc src/%s.c" % (name, name) for name in project.names()]
        lines += ["build prog: ld " + " ".join("obj/%s.o" % name for name in project.names())]
        write(folder + "/build.ninja", "\n".join(lines) + "\n")

    def command(self):
        return ["ninja", self.jobs, "--quiet", "prog"]


class Make:
    name = "make"
    there = shutil.which("make") is not None

    def __init__(self, jobs):
        self.jobs = "-j%d" % jobs

    def prepare(self, project, folder):
        os.mkdir(folder + "/obj")
        objects = " ".join("obj/%s.o" % name for name in project.names())
        lines = ["MAKEFLAGS += -rR", "objects = " + objects, "prog: $(objects)", "\t" + project.link("$^", "$@")]
        lines += ["obj/%.o: src/%.c", "\t" + project.compile("$<", "$@", "$@.d")]
        # how the lists of names come, make is told, else it looks for rules
        lines += ["$(objects:.o=.o.d): ;", "-include $(objects:.o=.o.d)"]
        write(folder + "/Makefile", "\n".join(lines) + "\n")

    def command(self):
        return ["make", "-s", self.jobs, "prog"]


class Tup:
    name = "tup"
    there = shutil.which("tup") is not None

    def __init__(self, jobs):
        self.jobs = "-j%d" % jobs

    def prepare(self, project, folder):
        objects = " ".join("obj/%s.o" % name for name in project.names())
        # tup finds by itself what is read; what else is written stays outside its folder
        write(folder + "/Tupfile", ": foreach src/u*.c |> %s |> obj/%%B.o\n: %s |> %s |> prog\n" % (
            project.compile("%f", "%o", "/dev/null"), objects, project.link("%f", "%o")))
        subprocess.run(["tup", "init"], cwd=folder, check=True, capture_output=True)

    def command(self):
        return ["tup", "upd", self.jobs, "--quiet"]


def build(peer, project, folder):
    """The seconds and the tool runs of a build."""
    before, start = project.runs(), time.perf_counter()
    done = subprocess.run(peer.command(), cwd=folder, stdin=subprocess.DEVNULL, capture_output=True)
    took = time.perf_counter() - start
    if done.returncode != 0 or not os.path.exists(folder + "/prog"):
        raise RuntimeError("%s ended with %d: %s" % (peer.name, done.returncode, (done.stdout + done.stderr)[-500:].decode()))
    return took, project.runs() - before


def build_again(peer, project, folder, again):
    """The median seconds of builds with nothing changed, and the tool runs of them all."""
    found = [build(peer, project, folder) for _ in range(again)]
    return statistics.median(took for took, _ in found), sum(runs for _, runs in found)


def steps(peer, project, folder, again):
    """The four steps in a folder: seconds and runs of each. Two of them write the header first, a while after the build before: tup goes by
    the seconds of a file's time."""
    shutil.rmtree(folder, ignore_errors=True)
    project.put(folder)
    peer.prepare(project, folder)
    found = []
    for number in range(len(STEPS)):
        if number >= 2:
            time.sleep(1.1)
            write(folder + "/src/h1.h", header(1, 4 - number))
        found.append(build_again(peer, project, folder, again) if number == 1 else build(peer, project, folder))
    return found


def memory(peer, folder):
    """The most memory in KiB that odin holds over a store that has all, and the length of that store."""
    lines = subprocess.run([peer.crates + "/odin_takes/out/odin_takes", "src"], cwd=folder, check=True, capture_output=True).stdout
    with open(folder + "/commands", "wb") as file:
        file.write(lines + b"ask src/m.list:exe\n")
    # a child of this script would count the memory of the script, too
    with open(folder + "/commands") as commands:
        subprocess.run(["/usr/bin/time", "-f", "%M", "-o", "memory", peer.odin, "graph"], cwd=folder, stdin=commands, stdout=subprocess.DEVNULL, check=True)
    with open(folder + "/memory") as file:
        held = int(file.read())
    return held, os.path.getsize(folder + "/odin.store")


def told(peers, found, base):
    """A line for each step: each peer's median, its runs and its ratio to the base."""
    for number, step in enumerate(STEPS):
        middle = {peer.name: statistics.median(row[number][0] for row in found[peer.name]) for peer in peers}
        words = []
        for peer in peers:
            runs = {row[number][1] for row in found[peer.name]}
            ratio = "" if peer.name == base else ", %.2f times" % (middle[peer.name] / middle[base])
            words.append("%s %.3f s%s, %s runs" % (peer.name, middle[peer.name], ratio, "/".join(str(run) for run in sorted(runs))))
        print("  %s: %s" % (step, "; ".join(words)), flush=True)


def measure(peers, project, rounds, again):
    """What each peer took, round by round. A peer that fails is left out."""
    found = {peer.name: [] for peer in peers}
    for _ in range(rounds):
        for peer in list(peers):
            try:
                found[peer.name].append(steps(peer, project, "%s/%s" % (project.work, peer.name), again))
            except (RuntimeError, subprocess.CalledProcessError) as fault:
                print("left out: %s" % fault, flush=True)
                peers.remove(peer)
    return found


def same_programs(work):
    with open(work + "/odin/prog", "rb") as ours, open(work + "/ninja/prog", "rb") as theirs:
        return ours.read() == theirs.read()


def compare(peers, tools, units, asked, work):
    """The medians of each peer and step, which are printed."""
    project = Project(work, units, tools)
    found = measure(peers, project, asked.rounds, asked.again)
    names = [peer.name for peer in peers]
    if "odin" not in names:
        sys.exit("peers: odin failed")
    base = "ninja" if "ninja" in names else names[-1]
    print("%s tools, %d units, medians of %d, ratios to %s:" % (tools, units, asked.rounds, base), flush=True)
    told(peers, found, base)
    held, length = memory(peers[0], work + "/odin")
    print("  odin holds %d KiB over a store of %d bytes, ratio %.2f" % (held, length, held * 1024 / length), flush=True)
    if tools == "toy" and base == "ninja":
        print("  the programs of odin and ninja are %s" % ("the same" if same_programs(work) else "NOT THE SAME"), flush=True)
    return {name: [statistics.median(row[number][0] for row in found[name]) for number in range(len(STEPS))] for name in names}


def compare_in(peers, tools, units, asked):
    """The same in a folder of its own, which is kept or not."""
    work = tempfile.mkdtemp(prefix="peers-", dir=asked.folder)
    try:
        return compare(peers, tools, units, asked, work)
    finally:
        if asked.keep:
            print("  kept: " + work, flush=True)
        else:
            shutil.rmtree(work, ignore_errors=True)


def grows(peers, small, large, units):
    for number, step in enumerate(STEPS):
        words = ["%s %.2f" % (peer.name, large[peer.name][number] / small[peer.name][number]) for peer in peers if peer.name in large]
        print("  %s, %d units against %d: %s times as long" % (step, units[-1], units[0], ", ".join(words)), flush=True)


def main():
    words = argparse.ArgumentParser()
    words.add_argument("--units", default="200,2000")
    words.add_argument("--tools", default="toy,gcc")
    words.add_argument("--jobs", type=int, default=1)
    words.add_argument("--rounds", type=int, default=5)
    words.add_argument("--again", type=int, default=1)
    words.add_argument("--folder", default=None)
    words.add_argument("--odin", default=TOP + "/crates")
    words.add_argument("--keep", action="store_true")
    asked = words.parse_args()
    ours, others = (Odin, OdinBuild), (Ninja, Make, Tup)
    peers = [peer(asked.odin, asked.jobs) for peer in ours] + [peer(asked.jobs) for peer in others]
    peers = [peer for peer in peers if peer.there]
    if not peers or peers[0].name != "odin":
        sys.exit("peers: odin, odin_takes and odin_get are not built")
    print("found: " + ", ".join(peer.name for peer in peers) + ", each with %d jobs" % asked.jobs, flush=True)
    units = [int(word) for word in asked.units.split(",")]
    for tools in asked.tools.split(","):
        medians = [compare_in(peers, tools, count, asked) for count in units]
        if len(units) > 1:
            grows(peers, medians[0], medians[-1], units)


if __name__ == "__main__":
    main()
