"""The rows: what is tried, and how it may end."""
import random

import acts
from acts import chmod, closed, deaf, hang_up, limit, midway, signalled
from told import ASKS, JOBS, KEPT, LARGE, LIST, MIXED, PUTS, WASTEFUL, ask, put, script, take

MIB = 1 << 20


class Row:
    """What is tried, and how it may end: a status or the name of a signal, and where it matters how the last reply begins."""

    def __init__(self, name, wanted, commands, **how):
        self.name, self.wanted, self.commands = name, wanted.split(" or "), commands
        self.first = how.get("first", [])  # what an earlier session was told
        self.under = how.get("under", [])  # what is taken away
        self.during = how.get("during", acts.at_once)
        self.after = how.get("after")  # what is done before the next session
        self.jobs = how.get("jobs", 1)
        self.env = how.get("env", {})
        self.refuses = how.get("refuses", False)  # a tool may be refused, a file may not be read
        self.is_other = how.get("is_other", False)  # all its sessions are another user's
        self.hangs_up = how.get("hangs_up", False)  # what was replied last may not have been read
        self.is_lost = how.get("is_lost", False)  # the store is gone
        self.is_loud = how.get("is_loud", False)  # its tools write to standard error
        self.is_deaf = how.get("is_deaf", False)  # nobody reads standard error
        self.is_silent = how.get("is_silent", False)  # standard error can't be written
        self.stays = how.get("stays", 0)  # how many tools never end
        self.leaves = how.get("leaves", False)  # the folder of a tool may stay until the next session: its start failed, or what it did keeps it
        self.lingers = how.get("lingers", False)  # its tools leave children behind
        self.on_loop = how.get("on_loop")  # how many KiB are left where the store is
        self.is_work_on_loop = how.get("is_work_on_loop", False)  # or rather where the folder is, and the store not


class Filter:
    """A run that serves no session: its program and words, its input, and what its status has to be."""

    def __init__(self, name, wanted, words, text=b"", under=(), output=None, is_other=False, says=None):
        self.name, self.wanted, self.words, self.text, self.under = name, wanted.split(" or "), words, text, under
        self.output, self.is_other, self.says, self.on_loop, self.first = output, is_other, says, None, []


def disk_rows(bench):
    """A disk that is full: as a length that the system doesn't allow, and as a small file system."""
    for at in bench.places([], PUTS):
        yield Row("puts, no room from byte %d on" % at, "3", PUTS, under=[limit("FSIZE", at), deaf("SIGXFSZ")])
    for at in bench.places([], PUTS):
        yield Row("puts, a signal from byte %d on" % at, "SIGXFSZ", PUTS, under=[limit("FSIZE", at)])
    for at in bench.places(PUTS[:8] + [LIST], ASKS):
        yield Row("kept results, no room from byte %d on" % at, "3", ASKS, first=PUTS[:8] + [LIST], under=[limit("FSIZE", at), deaf("SIGXFSZ")])
    for at in bench.places(PUTS[:8] + [LIST], ASKS[-1:], 5):
        yield Row("kept results of eight jobs, no room from byte %d on" % at, "3", ASKS[-1:], first=PUTS[:8] + [LIST], jobs=8, env={"PAUSE": "0.1"},
                  under=[limit("FSIZE", at), deaf("SIGXFSZ")])
    for at in bench.places(WASTEFUL, KEPT):
        yield Row("a compaction, no room from byte %d on" % at, "3", KEPT, first=WASTEFUL, under=[limit("FSIZE", at), deaf("SIGXFSZ")])
    for at in bench.places(WASTEFUL, KEPT, 5):
        yield Row("a compaction, a signal from byte %d on" % at, "SIGXFSZ", KEPT, first=WASTEFUL, under=[limit("FSIZE", at)])
    for left in range(20):
        yield Row("a small file system, puts, %d KiB left" % left, "3 or 0", PUTS, on_loop=left)
    for left in range(0, 20, 2):
        yield Row("a small file system, kept results, %d KiB left" % left, "3 or 0", ASKS, first=PUTS[:8] + [LIST], on_loop=left)
    for left in range(7):
        run = script("cat i1 > out.o || : > no-outcome")
        yield Row("a small file system for the folder of tools, %d KiB left" % left, "0", run, on_loop=left, is_work_on_loop=True, refuses=True, is_loud=True, leaves=True)
    for left in range(0, 60, 6):
        yield Row("a small file system, a compaction, %d KiB left" % left, "3 or 0", KEPT, first=WASTEFUL, on_loop=left)
    for size in (0, 8192):
        under = [limit("FSIZE", size), deaf("SIGXFSZ")]
        yield Filter("odin_get, no room for the object from byte %d on" % size, "3", ["odin_get", "-o", "made"], OBJECT, under)
    yield Filter("odin_get, a signal from byte 8192 on", "SIGXFSZ", ["odin_get", "-o", "made"], OBJECT, [limit("FSIZE", 8192)])
    yield Filter("odin_get to a full device", "3", ["odin_get"], OBJECT, output="/dev/full")
    yield Filter("odin_takes to a full device", "3", ["odin_takes"], output="/dev/full")


def right_rows():
    """What the user has no rights to."""
    made = PUTS[:3]
    yield other("a store that may not be read or written", "3", made, chmod("odin.store", 0), first=PUTS[:2])
    yield other("a store that may only be read", "3", made, chmod("odin.store", 0o444), first=PUTS[:2])
    yield other("a folder in which no store can be made", "3", made, chmod(".", 0o555))
    yield other("a folder that may not be written, with a store", "0 put", made, chmod(".", 0o555), first=PUTS[:2])
    yield other("a folder in which no tool can be run", "0 refused tool start", [*made, ASKS[0]], chmod(".", 0o555), first=PUTS[:2])
    yield other("a folder that may not be entered", "6", made, chmod(".", 0))
    yield other("a folder that may not be read", "0 object", [*made, ASKS[0]], chmod(".", 0o333))
    yield other("a graph that may not be read", "6", made, chmod("graph", 0))
    yield other("a file that may not be read", "0 refused read", [*made, take("t.c", b"")], chmod("t.c", 0))
    yield other("a folder of tools that may not be written", "0 refused tool start", [*made, ASKS[0]], folder_of_tools(0o555))
    yield other("a folder of tools that may not be entered", "0 refused tool start", [*made, ASKS[0]], folder_of_tools(0))
    yield other("a tool that takes the rights on its folder away", "0 object ok", script("echo x > out.o; chmod 0 ."))
    yield other("a tool that takes the rights on its output away", "0 refused tool start", script("echo x > out.o; chmod 0 out.o"))
    yield other("a tool that takes the rights on the folder of tools away", "0 refused tool start", script("echo x > out.o; chmod 0 ../.."), leaves=True)
    for mask in (0o77, 0o777):
        yield other("a mask of rights of %o" % mask, "0", [*made, ASKS[0]], acts.mask(mask))
    yield Filter("odin_get into a folder that may not be written", "3", ["odin_get", "-o", "made"], OBJECT, [chmod(".", 0o555)], is_other=True)
    yield Filter("odin_takes of a folder that may not be read", "3", ["odin_takes"], under=[chmod(".", 0o333)], is_other=True)


def other(name, wanted, commands, *acts_before, **how):
    return Row(name, wanted, commands, under=acts_before, is_other=True, refuses=True, after=acts.give_rights, **how)


def count_rows():
    """Processes, descriptors and memory that are used up."""
    for most in (1, 2, 3, 5):
        yield Row("%d processes" % most, "0", JOBS, under=[acts.become_other, limit("NPROC", most)], is_other=True, refuses=True, jobs=8)
    for most in range(4, 17):
        yield Row("%d descriptors" % most, "0 or 3 or 6", MIXED, under=[limit("NOFILE", most)], refuses=True, leaves=True)
        yield Row("%d descriptors, eight jobs" % most, "0 or 3 or 6", JOBS, first=PUTS[:2], under=[limit("NOFILE", most)], refuses=True, leaves=True, jobs=8)
    for size in (8, 16, 24, 32, 48, 64):
        yield Row("%d MiB of memory" % size, "0 or 4", LARGE, under=[limit("AS", size * MIB)], refuses=True)
    for size in (4, 6, 8, 12, 16):
        yield Row("%d MiB of memory, a compaction" % size, "0 or 4", KEPT, first=WASTEFUL, under=[limit("AS", size * MIB)], refuses=True)
    for size in (4, 8, 16, 32, 64):
        yield Filter("%d MiB of memory, a load session" % size, "0 or 4", ["odin", "--load", "300"], under=[limit("AS", size * MIB)])
        yield Filter("%d MiB of memory, odin_get" % size, "0 or 4", ["odin_get", "-o", "made"], OBJECT * 200, [limit("AS", size * MIB)])
    for size in (4, 16):
        yield Filter("%d MiB of memory, odin_takes" % size, "0 or 4", ["odin_takes", *["many"] * 60], under=[acts.make_many, limit("AS", size * MIB)])
    for most in (4, 5, 6, 7):
        yield Filter("%d descriptors, odin_get" % most, "0 or 3", ["odin_get", "-o", "made"], OBJECT, [limit("NOFILE", most)])
        yield Filter("%d descriptors, odin_takes" % most, "0 or 3", ["odin_takes"], under=[limit("NOFILE", most)])
        yield Filter("%d descriptors, a load session" % most, "0", ["odin", "--load", "3"], under=[limit("NOFILE", most)])


    yield Row("32 descriptors, 64 jobs", "0 object ok", JOBS, under=[limit("NOFILE", 32)], jobs=64)
    # so little is none: the system ends what runs
    yield Row("64 KiB of stack", "SIGSEGV", KEPT, under=[limit("STACK", 65536)])
    yield Filter("one second of the processor, a load session", "0 or SIGXCPU", ["odin", "--load", "2000"], under=[limit("CPU", 1)])


def change_rows():
    """What changes while a session is served."""
    for name, seconds in (("in the future", 1 << 32), ("in the past", 1), ("before the first second", -(1 << 31))):
        yield Row("files with times %s" % name, "0 object ok", MIXED[:4] + MIXED[2:4], during=midway(acts.set_times(seconds)))
    yield Row("the folder is removed, then a put", "3", PUTS[:6], during=midway(acts.remove), is_lost=True)
    yield Row("the folder is removed, then a tool", "0 refused tool start", [PUTS[0], ASKS[0]], during=midway(acts.remove), is_lost=True, refuses=True)
    yield Row("the folder is removed, then a take", "0 no file", [PUTS[0], take("t.c", b"")], during=midway(acts.remove), is_lost=True, refuses=True)
    yield Row("the folder is moved", "0 object ok", KEPT, during=midway(acts.move_away), after=acts.move_back)
    yield Row("the graph changes", "0 object ok", KEPT, during=midway(acts.change_graph), after=acts.graph_back)
    yield Row("the graph is removed", "0 object ok", KEPT, during=midway(acts.remove_graph), after=acts.graph_back)
    yield Row("a file of 1 TiB is taken", "0 refused size", [PUTS[0], take("t.c", b"")], under=[acts.lengthen("t.c")], refuses=True)
    yield Row("a graph of 1 TiB", "2 graph: too long", PUTS, under=[acts.lengthen("graph")], after=acts.graph_back)
    yield Row("the folder of tools is removed", "0", MIXED[:2] + MIXED[2:4], during=midway(acts.remove_tools), refuses=True)


def tool_rows():
    """Tools that do what no tool should."""
    yield Row("an output over the limit", "0 object abort", script("head -c 16777217 /dev/zero > out.o"))
    yield Row("an output at the limit", "0 object ok", script("head -c 16777216 /dev/zero > out.o"))
    yield Row("an output without end", "0 object abort", script("ulimit -f 50000; exec yes > out.o"))
    yield Row("warnings without end", "0 object", script("ulimit -f 50000; echo x > out.o; yes > warnings; exit 0"), is_loud=True)
    yield Row("a line without end in warnings", "0 object warning", script("echo x > out.o; head -c 20000000 /dev/zero > warnings"))
    yield Row("an output that is a device without end", "0 object abort", script("ln -s /dev/zero out.o"))
    yield Row("an output that is a pipe", "0 object abort", script("mkfifo out.o"))
    yield Row("errors without end, and SIGTERM", "SIGTERM", script("exec yes"), during=signalled("SIGTERM", 1, 0.5), is_loud=True, stays=1)
    yield Row("no end, and SIGTERM", "SIGTERM", script("exec sleep 1000"), during=signalled("SIGTERM", 1, 0.5), stays=1)
    yield Row("no end, and SIGTERM to all", "SIGTERM", script("exec sleep 1000"), during=signalled("SIGTERM", 1, 0.5, True))
    yield Row("no end, and SIGINT to all", "SIGINT", script("exec sleep 1000"), during=signalled("SIGINT", 1, 0.5, True))
    yield Row("a tool that hears no signal, and SIGTERM to all", "SIGTERM", script("trap '' TERM; sleep 2"), during=signalled("SIGTERM", 1, 0.5, True))
    yield Row("children that stay behind", "0 object ok", script("sleep 3 & echo x > out.o"), lingers=True)
    yield Row("children that hold the outputs", "0 object ok", script("(sleep 3; echo late > out.o) & echo x > out.o"), is_loud=True, lingers=True)
    busy = script("(cd /; sleep 1) & (while :; do echo y > y; done) & k=$!; (sleep 1; kill $k) & echo x > out.o")
    yield Row("children that write into its folder", "0 object ok", busy, is_loud=True, lingers=True, leaves=True)
    yield Row("closed outputs", "0 object ok", script("exec >&- 2>&- <&-; echo x > out.o"))
    yield Row("an end by SIGKILL", "0 refused tool start", script("kill -KILL $$"), refuses=True)
    yield Row("an end by SIGSEGV", "0 object abort", script("kill -SEGV $$"))
    yield Row("a stop, that goes on later", "0 object ok", script("(sleep 1; kill -CONT $$) & kill -STOP $$; echo x > out.o"))
    yield Row("no output", "0 object abort", script(":"))
    yield Row("a tool that kills its session", "SIGTERM", script("kill -TERM $PPID; sleep 1"))
    yield Row("a tool that removes its folder", "0 refused tool start", script("rm -r $(pwd)"), is_loud=True, refuses=True)
    yield Row("a tool that removes the folder of tools", "0", script("rm -r ../../../odin.work", *MIXED[:2]), is_loud=True, refuses=True)
    yield Row("a tool that reads its input", "0 object ok", script("cat > out.o"))


def signal_rows(dice):
    """Signals by chance, with eight tools at once."""
    for name in ("SIGTERM", "SIGINT", "SIGHUP"):
        for turn in range(8):
            during = signalled(name, dice.randrange(len(JOBS)), dice.uniform(0, 0.12), turn % 2 == 1)
            name_of_row = "%s by chance%s, %d" % (name, " to all" * (turn % 2), turn)
            yield Row(name_of_row, name + " or 0", JOBS, during=during, jobs=8, env={"PAUSE": "0.05"}, is_loud=True)
        yield Row("%s, nothing to do" % name, name, PUTS[:3], during=signalled(name, 3, 0.1, is_open=True))
        yield Row("%s in a compaction" % name, name + " or 0", KEPT, first=WASTEFUL, during=signalled(name, 0, dice.uniform(0, 0.06)))
        yield Row("%s that isn't heard" % name, "0 object ok", KEPT, under=[deaf(name)], during=signalled(name, 3, 0.01, True))
    # the system tells no end then
    yield Row("SIGCHLD that isn't heard", "0 refused tool start", ASKS, first=PUTS[:8] + [LIST], under=[deaf("SIGCHLD")], refuses=True, leaves=True)
    yield Row("SIGSTOP, and SIGCONT later", "0 object ok", JOBS, during=acts.stopped(3, 0.5), jobs=8, env={"PAUSE": "0.05"})


def stream_rows():
    """Readers that go away, and streams that are closed at the start."""
    for jobs in (1, 8):
        yield Row("the reader goes away, %d jobs" % jobs, "5", JOBS, during=midway(hang_up), hangs_up=True, jobs=jobs, env={"PAUSE": "0.05"})
    yield Row("the reader goes away before the first reply", "5", PUTS, during=acts.hang_up_first, hangs_up=True)
    yield Row("the reader goes away, SIGPIPE is not heard", "5", JOBS, during=midway(hang_up), hangs_up=True, under=[deaf("SIGPIPE")])
    yield Row("the reader of errors goes away", "0 object ok", script("yes x | head -c 100000 >&2; echo x > out.o"), is_deaf=True)
    yield Row("nobody reads, and SIGTERM", "SIGTERM", [PUTS[0]] + [ask("u1.c")] * 1000, during=acts.unread, hangs_up=True)
    yield Row("no standard input", "6", PUTS, under=[closed(0)])
    yield Row("no standard output", "5", PUTS, under=[closed(1)], hangs_up=True)
    yield Row("no standard error", "0 object ok", KEPT, under=[closed(2)])
    yield Row("no standard error, and a tool that writes to them", "0 object ok", script("echo loud; echo loud >&2; echo x > out.o"), under=[closed(2)])
    yield Row("no standard error, and no room", "3", KEPT, under=[closed(2), limit("FSIZE", 3000), deaf("SIGXFSZ")], is_silent=True)
    yield Row("no standard input and output", "6", PUTS, under=[closed(0, 1)])
    yield Row("no standard output and error", "5", PUTS, under=[closed(1, 2)], hangs_up=True, is_silent=True)
    yield Row("no stream at all", "6", PUTS, under=[closed(0, 1, 2)], is_silent=True)
    yield Row("no reader of the line of a refused graph", "5", [], under=[chmod("graph", 0o644), acts.spoil_graph, closed(1)], after=acts.graph_back)
    for name, wanted, numbers in (("input", "3", (0,)), ("output", "3", (1,)), ("input and output", "3", (0, 1))):
        yield Filter("odin_get, no %s" % name, wanted, ["odin_get"], OBJECT, [closed(*numbers)])
    yield Filter("odin_takes, no output", "3", ["odin_takes"], under=[closed(1)])
    yield Filter("odin_takes, no folder", "2", ["odin_takes", "none"], says="odin_takes: no folder: none")
    yield Filter("odin_get, no errors", "0", ["odin_get", "-o", "made"], OBJECT, [closed(2)])
    yield Filter("odin_get, no replies", "2", ["odin_get", "-o", "made"], b"x\n", says="odin_get: no replies on the input")


def folder_of_tools(mode):
    def act():
        acts.make_tools(mode)
    return act


OBJECT = b"object ok simple 65536\n%s\nmessages 0\n" % (b"x" * 65536)


def all_rows(bench, seed):
    dice = random.Random(seed)
    for part in (disk_rows(bench), right_rows(), count_rows(), change_rows(), tool_rows(), signal_rows(dice), stream_rows()):
        yield from part
