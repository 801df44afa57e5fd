"""What the gate takes: the time and the memory of each process that `rt ci` starts, read once a second while it runs. `test` writes what was seen as
lines of its log, and `gate.py` reads them. rt's own log has no times."""
import collections
import os
import threading

TICK = os.sysconf("SC_CLK_TCK")
HEAD = "gate: "
KINDS = ("proof", "tests", "edits", "runs", "whole")


def line_of(crate, kind, seconds, megabytes):
    return "%s%s %s %.1f %d" % (HEAD, crate, kind, seconds, megabytes)


def read_line(line):
    """The crate, the kind, the seconds and the megabytes of a line of the log, or nothing."""
    words = line[len(HEAD):].split() if line.startswith(HEAD) else []
    if len(words) != 4 or words[1] not in KINDS:
        return None
    return words[0], words[1], float(words[2]), int(words[3])


def part_of(words, folder):
    """The crate that a process works for, and how, by its words and its folder; nothing where they don't tell."""
    if "--crate-name" in words[:-1]:
        kind = "edits" if "/rt-edit" in folder else "tests" if "--test" in words else "proof"
        return words[words.index("--crate-name") + 1], kind
    for word in words:
        if "/rt-run-" in word and "/bin/" in word:
            return os.path.basename(word).removesuffix("_tests"), "runs"
    return None


class Process:
    """What was seen of a process last."""

    def __init__(self, part, seconds, kilobytes):
        self.part, self.seconds, self.kilobytes = part, seconds, kilobytes


class Sampler(threading.Thread):
    """Reads all processes below this one, once a second, until `end`."""

    def __init__(self):
        super().__init__(daemon=True)
        self.seen, self.ended = {}, threading.Event()

    def run(self):
        while not self.ended.wait(1):
            self.look()

    def end(self):
        self.ended.set()
        self.join()

    def look(self):
        found = {}
        for name in os.listdir("/proc"):
            if name.isdigit():
                try:
                    found[int(name)] = self.stat_of(name)
                except (OSError, ValueError, IndexError):
                    pass
        for number in found:
            if self.is_below(number, found):
                self.note(number, found)

    @staticmethod
    def stat_of(name):
        """The parent, the start and the seconds of a process."""
        with open("/proc/%s/stat" % name, errors="replace") as file:
            fields = file.read().rpartition(")")[2].split()
        return int(fields[1]), fields[19], (int(fields[11]) + int(fields[12])) / TICK

    @staticmethod
    def is_below(number, found):
        while number in found and number != os.getpid():
            number = found[number][0]
        return number == os.getpid()

    def note(self, number, found):
        parent, start, seconds = found[number]
        try:
            with open("/proc/%d/cmdline" % number, errors="replace") as file:
                words = file.read().split("\0")
            part = part_of(words, os.readlink("/proc/%d/cwd" % number))
            with open("/proc/%d/status" % number) as file:
                most = next((int(line.split()[1]) for line in file if line.startswith("VmHWM")), 0)
        except (OSError, ValueError):
            return
        # what a checker starts itself, as a linker, belongs to its crate
        above = next((it for key, it in self.seen.items() if key[0] == parent), None) if part is None else None
        part = part or (above and above.part)
        if part:
            self.seen[number, start] = Process(part, seconds, most)

    def lines(self):
        """Of each crate and kind the seconds of all its processes, and the most memory of one."""
        seconds, most = collections.Counter(), collections.Counter()
        for it in self.seen.values():
            seconds[it.part] += it.seconds
            most[it.part] = max(most[it.part], it.kilobytes)
        return [line_of(*part, seconds[part], most[part] / 1000) for part in sorted(seconds)]
