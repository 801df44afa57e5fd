"""What sessions are told, and what has to be answered. What a command and a reply are is taken from the script that kills sessions."""
import importlib.machinery
import importlib.util
import os

TOP = os.path.dirname(os.path.dirname(os.path.dirname(os.path.abspath(__file__))))
LOADER = importlib.machinery.SourceFileLoader("kill", TOP + "/checks/kill")
kill = importlib.util.module_from_spec(importlib.util.spec_from_loader("kill", LOADER))
LOADER.exec_module(kill)
Command, put = kill.Command, kill.put

# A shell wants descriptors from 10 on, so the tools take theirs back where a row limits them.
GRAPH = """type c simple; type run simple; type list simple; type o simple; type all simple; type cs list of c; type os list of o;
suffix .c c; suffix .run run; suffix .list list;
tool cc 1 from c to o run "sh" "-c" "ulimit -S -n 64; echo >> $RUNS; [ -z $PAUSE ] || sleep $PAUSE; echo made > out.o; exec cat i1 >> out.o";
tool do 1 from run to o run "sh" "-c" "echo >> $RUNS; . ./i1";
read named from list to cs; each done from cs to os;
tool add 1 from os to all run "sh" "-c" "ulimit -S -n 64; echo >> $RUNS; exec cat i* > out.all";
"""


def text(name, size, turn=0):
    """A text of this size, which no other turn has."""
    line = b"%s %d\n" % (name.encode(), turn)
    return (line * (size // len(line) + 1))[:size]


def ask(expression):
    return Command("ask " + expression, ask=expression)


def take(name, body):
    return Command("take " + name, name, body)


UNITS = ["u%d.c" % k for k in range(1, 9)]
TAKEN = b"taken\n"
PUTS = [put(name, text(name, 700, turn)) for turn in (1, 2) for name in UNITS] + [Command("drop u8.c", "u8.c")]
LIST = put("m.list", "".join(name + "\n" for name in UNITS).encode())
ASKS = [ask(name + ":o") for name in UNITS] + [ask("m.list:all")]
KEPT = PUTS[:8] + [LIST] + ASKS
MIXED = [put("a.c", b"x\n"), ask("a.c:o"), take("t.c", TAKEN), ask("t.c:o"), put("b.c", b"y\n"), ask("b.c:o"), Command("drop b.c", "b.c")]
JOBS = PUTS[:8] + [LIST, ask("m.list:all"), put("u1.c", b"other\n"), ask("u1.c:o"), put("u2.c", b"other\n"), ask("m.list:all")]
LARGE = [put(UNITS[turn % 8], text(UNITS[turn % 8], 1 << 20, turn)) for turn in range(16)] + [ask("u1.c:o")]
# a store of over 1 MiB, of which about 30 KiB are of use
WASTEFUL = [put("w.c", text("w.c", 60000, turn)) for turn in range(20)] + [put("w.c", b"")] + [put("v%d.c" % k, text("v", 3000, k)) for k in range(8)]


def script(body, *others):
    """A source that is a script, and the object that it leaves."""
    return [put("a.run", body.encode() + b"\n"), ask("a.run:o"), *others]


def body_of(sources, expression):
    """What an object has to be, by the rules of the graph; none where that isn't told here."""
    name, _, kind = expression.partition(":")
    if name not in sources or name.endswith(".run") and kind:
        return None
    if kind == "all":
        parts = [body_of(sources, it + ":o") for it in sources[name].decode().split()]
        return None if None in parts else b"".join(parts)
    return b"made\n" + sources[name] if kind else sources[name]


def shown(body):
    return b"object ok simple %d\n%s\nmessages 0\n" % (len(body), body)
