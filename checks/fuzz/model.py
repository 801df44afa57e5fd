#!/usr/bin/env python3
"""An independent model of a session: what the program has to write, and which tools it has to run. Written from the rules alone.

    model.py GRAPH [FOLDER] < COMMANDS

writes the replies that a session over no store has to write, with the tools of `toys`, and ends with its status. FOLDER has the files that `take`
finds. Where a rule leaves a choice, the model knows what is allowed: which chain is told, and which calls were run before it was found.
"""
import os
import sys

sys.dont_write_bytecode = True
from commands import commands_of, counted, object_reply, refused_edit  # noqa: E402
from derive import Derivation  # noqa: E402
from graph_text import Refused as RefusedGraph  # noqa: E402
from nodes import Graph, Refused  # noqa: E402
from texts import BODY, Bad, read_expression  # noqa: E402
from toys import run  # noqa: E402


class Exact:
    """A reply of which each byte is known."""

    def __init__(self, text):
        self.text = text

    def fault(self, reply):
        """What is wrong with a reply, or none."""
        return None if reply == self.text else "%r is wanted" % self.text

    def shown(self):
        return self.text


class Chained:
    """A refusal by a chain, or that of a tool that has no outcome where there is one."""

    def __init__(self, derivation):
        self.derivation = derivation

    def fault(self, reply):
        if self.derivation.is_lost and reply == b"refused tool start\n":
            return None
        lines = reply.split(b"\n")
        is_deep = lines[0].startswith(b"refused deep ")
        texts = lines[1:-1]
        if lines[0] != b"refused %s %d" % (b"deep" if is_deep else b"circular", len(texts)):
            return "a refusal by a chain is wanted" + (", or by a tool that has no outcome" if self.derivation.is_lost else "")
        return None if self.derivation.is_chain(texts, is_deep) else "this is no chain of the kind that is told"

    def shown(self):
        return b"refused by some chain\n"


class Counted:
    """The number of kept calls, where some calls may have been kept or not."""

    def __init__(self, least, most):
        self.least, self.most = least, most

    def fault(self, reply):
        allowed = [b"kept %d\n" % number for number in range(self.least, self.most + 1)]
        return None if reply in allowed else "kept %d to %d is wanted" % (self.least, self.most)

    def shown(self):
        return b"kept %d\n" % self.most


class Session:
    """A session over sources and kept calls, which it changes.

    `kept` are the calls that are kept for sure, `maybe` those that may be kept: calls of asks that a chain or a lost tool refused. Of each ask
    `starts` has the calls that it has to start, those that it may start, and whether it is answered.
    """

    def __init__(self, graph_text, sources, kept, files=None, cache=None):
        self.graph, self.sources, self.kept, self.maybe = Graph(graph_text), sources, kept, set()
        self.files, self.cache, self.starts = files or {}, {} if cache is None else cache, []

    def outcome(self, call):
        if ("outcome", call) not in self.cache:
            self.cache["outcome", call] = run(call)
        return self.cache["outcome", call]

    def derivation(self, node):
        key = self.graph.text, tuple(sorted(self.sources.items())), node
        if key not in self.cache:
            self.cache[key] = Derivation(self.graph, dict(self.sources), node, self.outcome)
        return self.cache[key]

    def serve(self, command):
        """The reply to a command, or none to an empty line."""
        starts = set(), set(), True
        if command.word in ("empty", "cut"):
            reply = None
        elif command.word == "ask":
            reply, *starts = self.ask(command.what)
        else:
            reply = Exact(b"") if command.word == "kept" else Exact(self.answer(command))
        if command.word == "kept":
            reply = Counted(len(self.kept), len(self.kept | self.maybe))
        self.starts.append(tuple(starts))
        return reply

    def answer(self, command):
        """The reply to a command that neither derives nor looks at what is kept."""
        word, what = command.word, command.what
        if word in ("put", "take", "drop"):
            return refused_edit(command) or getattr(self, word)(what, command.text)
        if word == "plan":
            node, refusal = self.node(what)
            return refusal or counted(b"plan", self.graph.plan_lines(node))
        if word == "sources":
            return counted(b"sources", [b"%s %d" % (name, len(self.sources[name])) for name in sorted(self.sources)])
        return b"bye\n" if word == "quit" else b"refused command\n"

    def put(self, name, text):
        self.sources[name] = text
        return b"put %s %d\n" % (name, len(text))

    def take(self, name, _):
        text = self.files.get(name)
        if text is None:
            return b"no file %s\n" % name
        if len(text) > BODY:
            return b"refused size\n"
        self.sources[name] = text
        return b"took %s %d\n" % (name, len(text))

    def drop(self, name, _):
        return b"%s %s\n" % (b"no source" if self.sources.pop(name, None) is None else b"dropped", name)

    def node(self, text):
        """The node of an expression, or none and its refusal."""
        try:
            return self.graph.node_of(read_expression(text)), None
        except Bad as fault:
            return None, b"refused expression %d\n" % fault.at
        except Refused as fault:
            return None, fault.reply()

    def ask(self, text):
        node, refusal = self.node(text)
        if refusal:
            return Exact(refusal), set(), set(), True
        found = self.derivation(node)
        calls, view = found.all_calls(), found.views.get(node)
        if view is None:
            may = calls - self.kept
            self.maybe |= {call for call in may if self.outcome(call)}
            return Chained(found), set(), may, False
        must, may = calls - self.kept - self.maybe, calls & self.maybe
        self.kept |= calls
        self.maybe -= calls
        return Exact(object_reply(self.graph, view)), must, may, True


def expected(session, text):
    """The replies to an input, each with its command, and the status."""
    found, status = [], 0
    for command in commands_of(text):
        if command.word == "cut":
            status = 1
        found.append((command, session.serve(command)))
    return found, status


def files_of(folder):
    found = {}
    for at, _, names in os.walk(folder):
        for name in names:
            with open(os.path.join(at, name), "rb") as file:
                found[os.path.relpath(os.path.join(at, name), folder).encode()] = file.read()
    return found


def main():
    with open(sys.argv[1], "rb") as file:
        graph = file.read()
    try:
        session = Session(graph, {}, set(), files_of(sys.argv[2]) if len(sys.argv) > 2 else {})
    except RefusedGraph as fault:
        sys.stdout.buffer.write(fault.line)
        return 2
    found, status = expected(session, sys.stdin.buffer.read())
    sys.stdout.buffer.write(b"".join(reply.shown() for _, reply in found if reply))
    return status


if __name__ == "__main__":
    sys.exit(main())
