"""What the record of a node in a store's file says, and whether it fits a graph. Written from the rules of docs/engineer/store-format.md alone."""
import os
import sys
from collections import namedtuple

sys.path.insert(0, os.path.join(os.path.dirname(os.path.dirname(os.path.abspath(__file__))), "checks", "fuzz"))
from nodes import Graph  # noqa: E402

ABORT, HIGHEST = 3, 64

# `deps` are nodes with what was seen of them, none where they had no value; the last `reached` of them are reached sources
Record = namedtuple("Record", "node deps reached value own_status own_messages status messages height")

LETTERS = frozenset(b"ABCDEFGHIJKLMNOPQRSTUVWXYZabcdefghijklmnopqrstuvwxyz")
DIGITS = frozenset(b"0123456789")


def is_name(text):
    return 1 <= len(text) <= 255 and all(b in LETTERS or b in DIGITS or b in b"._-/" for b in text)


def is_id(text):
    return 1 <= len(text) <= 255 and text[0] in LETTERS and all(b in LETTERS or b in DIGITS or b == 95 for b in text)


def is_key(text):
    return 1 <= len(text) <= 255 and all(b in LETTERS or b in DIGITS or b == 95 for b in text)


def is_value(text):
    return all(0x21 <= b <= 0x7E and b not in b"+:%" for b in text)


class Fit:
    """The graph that records have to fit."""

    def __init__(self, text):
        self.graph = Graph(text)

    def type_of(self, node):
        """The type of a node that fits, or none."""
        name, params, steps = node
        keys = [step for step in steps if isinstance(step, bytes)]
        if not is_name(name) or not all(is_id(param) and is_value(value) for param, value in params) or not all(map(is_key, keys)):
            return None
        of = self.graph.source_type(name)
        for step in steps:
            of = self.after(of, step)
            if of is None:
                return None
        return of

    def after(self, of, step):
        if isinstance(step, bytes):
            return self.graph.picked(of, step) if of in self.graph.types.first else None
        if step >= len(self.graph.makers) or not self.graph.is_a(of, self.graph.makers[step].start):
            return None
        return self.graph.makers[step].end

    def is_of_type(self, of, value):
        kind, body = value
        decl = self.graph.types.first.get(of)
        declared = decl.kind if decl else "simple"
        if kind != declared:
            return False
        if kind == "list":
            types = [self.type_of(element) for element in body]
            return all(element is not None and self.graph.is_a(element, decl.of) for element in types)
        return kind == "simple" or [name for name, _ in body] == [part for part, _ in decl.parts]

    def fits(self, record):
        of = self.type_of(record.node)
        if of is None or any(self.type_of(node) is None for node, _ in record.deps):
            return False
        return record.value is None or self.is_of_type(of, record.value)
