"""Faults that are planted between the program and a fuzzer, to show that it finds them. The program can't be changed, so its output, its store or the
log of its tools is: each fault stands for a wrong program that writes so.

A plant is asked before each session, where it may change the store, and after it, where it may change what came of it. It changes the first thing
that it can, and leaves all else as it is; so a fuzzer whose rounds give it nothing to change finds nothing.
"""
import os
import re

from commands import replies_of
from images import end_of, records

# ---- what a session wrote


class Plant:
    """A fault that changes nothing yet. `used` says whether it found something to change."""

    def __init__(self):
        self.anew()

    def anew(self):
        self.used = False

    def before(self, folder):
        pass

    def behind(self, ran, folder, pieces):
        return ran


class Replies(Plant):
    """A fault in a reply: the first reply that `change` gives another text for."""

    def change(self, reply):
        return None

    def behind(self, ran, folder, pieces):
        replies, changed = replies_of(ran.output), []
        for reply in replies:
            other = None if self.used else self.change(reply)
            self.used |= other is not None
            changed.append(reply if other is None else other)
        rest = ran.output[sum(map(len, replies)):]
        return ran._replace(output=b"".join(changed) + rest)


class MessageTwice(Replies):
    """A message that two needs have stands twice."""

    def change(self, reply):
        found = re.search(rb"messages (\d+)\n((?:.*\n)+)\Z", reply)
        if not reply.startswith(b"object ") or not found or found[1] == b"0":
            return None
        lines = found[2].splitlines(True)
        return reply[:found.start()] + b"messages %d\n" % (int(found[1]) + 1) + found[2] + lines[-1] if len(lines) == int(found[1]) else None


class OldStatus(Replies):
    """An object has the status that it had before a tool warned."""

    def change(self, reply):
        return reply.replace(b"object warning ", b"object ok ", 1) if reply.startswith(b"object warning ") else None


class KeptOneMore(Replies):
    """A call is counted twice."""

    def change(self, reply):
        return b"kept %d\n" % (int(reply[5:]) + 1) if reply.startswith(b"kept ") else None


class ChainCut(Replies):
    """A chain whose second node isn't told."""

    def change(self, reply):
        lines = reply.splitlines(True)
        if not reply.startswith((b"refused circular ", b"refused deep ")) or len(lines) < 4:
            return None
        word = lines[0].split(b" ")[1]
        return b"refused %s %d\n" % (word, len(lines) - 2) + lines[1] + b"".join(lines[3:])


class PlaceOff(Replies):
    """The place of a fault in an expression is counted from 0."""

    def change(self, reply):
        found = re.fullmatch(rb"refused expression (\d+)\n", reply)
        return b"refused expression %d\n" % (int(found[1]) - 1) if found else None


class Unsorted(Replies):
    """The sources stand in the order in which they came."""

    def change(self, reply):
        lines = reply.splitlines(True)
        return b"".join(lines[:1] + lines[:0:-1]) if reply.startswith(b"sources ") and len(lines) > 2 else None


class StaleObject(Plant):
    """An ask is answered by what it was before an edit, as one that keeps objects by their names would."""

    def anew(self):
        self.used, self.told = False, {}

    def behind(self, ran, folder, pieces):
        replies, changed = replies_of(ran.output), []
        asked = [text for number, text in pieces if number]
        for text, reply in zip(asked, replies):
            old = self.told.setdefault(text, reply) if text.startswith(b"ask ") else reply
            self.used |= old != reply
            changed.append(old)
        rest = ran.output[sum(map(len, changed)) if not self.used else sum(map(len, replies)):]
        return ran._replace(output=b"".join(changed + replies[len(changed):]) + rest)


# ---- which tools were run

class RunTwice(Plant):
    """A tool is run twice for the same inputs."""

    def behind(self, ran, folder, pieces):
        if self.used or not ran.log:
            return ran
        self.used = True
        return ran._replace(log=ran.log + ran.log[-1:], marks=None)


class RunUnseen(Plant):
    """An answer is made up: its tool wasn't run."""

    def behind(self, ran, folder, pieces):
        if self.used or not ran.log:
            return ran
        self.used = True
        return ran._replace(log=ran.log[:-1], marks=None)


# ---- the store

def close_last(path, kind):
    """Closes the gate of the last record of a store where its last item is of a kind, so that it isn't there any more."""
    if not os.path.exists(path):
        return False
    with open(path, "rb") as file:
        image = file.read()
    found = records(image)
    if not found or found[-1].kind != kind:
        return False
    with open(path, "r+b") as file:
        file.seek(found[-1].at)
        file.write(b"\0")
    return True


class LostPut(Plant):
    """A put that was replied isn't in the store."""

    kind = 3

    def before(self, folder):
        self.used |= not self.used and close_last(folder + "/odin.store", self.kind)


class LostCall(LostPut):
    """The last call of a session isn't kept."""

    kind = 5


class OtherOutput(Plant):
    """An output that is kept has another byte."""

    def before(self, folder):
        path = folder + "/odin.store"
        if self.used or not os.path.exists(path):
            return
        with open(path, "rb") as file:
            image = file.read()
        for record in reversed(records(image) or []):
            if record.kind == 5 and record.last_body and record.last_body[0] < record.last_body[1]:
                with open(path, "r+b") as file:
                    file.seek(record.last_body[1] - 1)
                    file.write(b"#")
                self.used = True
                return


class HalfRewritten(Plant):
    """The last record of the store is there without its end."""

    def before(self, folder):
        path = folder + "/odin.store"
        if not self.used and os.path.exists(path):
            with open(path, "rb") as file:
                image = file.read()
            end = end_of(image)
            if end and end > 64:
                os.truncate(path, end - 1)
                self.used = True


SESSIONS = {
    "chain-cut": ChainCut, "kept-one-more": KeptOneMore, "lost-call": LostCall, "lost-put": LostPut, "message-twice": MessageTwice,
    "old-status": OldStatus, "other-output": OtherOutput, "place-off": PlaceOff, "run-twice": RunTwice, "run-unseen": RunUnseen,
    "stale-object": StaleObject, "unsorted": Unsorted,
}


# ---- what a graph file comes to

class Line(Plant):
    """A fault in the line that tells of a graph file: what `change` makes of its words, where it makes anything."""

    def behind(self, ran, folder, pieces):
        other = None if self.used or ran.status != 2 else self.change(ran.output)
        self.used |= other is not None
        return ran if other is None else ran._replace(output=other)


class ColumnOff(Line):
    """A tab counts as eight columns."""

    def change(self, line):
        found = re.fullmatch(rb"(graph: line \d+ column )(\d+)(: syntax\n)", line)
        return found[1] + b"%d" % (int(found[2]) + 7) + found[3] if found else None


class LineOff(Line):
    """Lines are counted at the end of a declaration."""

    def change(self, line):
        found = re.fullmatch(rb"graph: line (\d+)(: \D+)\n", line)
        return b"graph: line %d%s\n" % (int(found[1]) + 1, found[2]) if found else None


class LaterFault(Line):
    """Of two faults of a declaration the later one is told."""

    def change(self, line):
        return line.replace(b"unknown type", b"double name") if b": unknown type" in line else None


class Taken(Plant):
    """A graph with a fault is taken."""

    def behind(self, ran, folder, pieces):
        if self.used or ran.status != 2 or b"supertype" not in ran.output:
            return ran
        self.used = True
        return ran._replace(output=b"sources 0\n", status=0)


class LongerPath(Replies):
    """A plan of several steps whose last one is another."""

    def change(self, reply):
        lines = reply.splitlines(True)
        return b"".join(lines[:-1]) + lines[1] if reply.startswith(b"plan ") and len(lines) > 2 and lines[1] != lines[-1] else None


GRAPHS = {"column-off": ColumnOff, "later-fault": LaterFault, "line-off": LineOff, "longer-path": LongerPath, "taken": Taken}


# ---- what a kill leaves

class EarlyReply(Plant):
    """A put has its reply before it is in the store."""

    def behind(self, ran, folder, pieces):
        replies = len(replies_of(ran.output))
        later = [text for number, text in pieces if number == replies + 1]
        if self.used or ran.status >= 0 or not later or not later[0].startswith(b"put "):
            return ran
        self.used = True
        return ran._replace(output=ran.output + later[0].split(b"\n")[0].rstrip(b"\r") + b"\n")


KILLED = {"cut-record": HalfRewritten, "early-reply": EarlyReply, "lost-call": LostCall, "lost-put": LostPut, "other-output": OtherOutput,
          "run-twice": RunTwice, "run-unseen": RunUnseen}


def planted(plants, name):
    return plants[name]() if name else None
