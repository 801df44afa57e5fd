"""What stands in a store's file: its records, where each stands and what its last item is, and the sources, calls and records of nodes that it stands for.

The fields are read by the independent reader of `bench/store_images.py`.
"""
import os
import sys
from collections import namedtuple

sys.path.insert(0, os.path.join(os.path.dirname(os.path.dirname(os.path.dirname(os.path.abspath(__file__)))), "bench"))
from image_records import Fit  # noqa: E402
from store_images import Fields, State, records_of  # noqa: E402

from toys import Call, Outcome  # noqa: E402

# `at` is the place of the gate, `kind` that of the last item, and `last_body` the places of the last text that the record brings in, or none
Record = namedtuple("Record", "at kind last_body")


def items_of(at, payload):
    """The kind of the last item of a payload, and the places of the last simple content in it."""
    fields, kind, body = Fields(payload), None, None
    while fields.at < len(payload):
        kind = fields.u8()
        if kind in (1, 2):
            text = fields.bytes()
            if kind == 2 and text[:1] == b"\1":
                body = at + 5 + fields.at - len(text) + 5, at + 5 + fields.at
        elif kind == 3:
            fields.bytes(), fields.u32()
        elif kind == 4:
            fields.bytes()
        elif kind == 5:
            fields.call(), fields.outcome()
        else:
            fields.record()
    return kind, body


def records(image):
    """The records of a file that is a store's, or none."""
    told = records_of(image)
    return [Record(at, *items_of(at, payload)) for at, payload in told[0]] if isinstance(told, tuple) else None


def end_of(image):
    """The place of the closed gate after the records, or none."""
    told = records_of(image)
    return told[1] if isinstance(told, tuple) else None


class Stands:
    """The sources, the kept calls with their outcomes, and the records of nodes, each with the values themselves, that a file stands for, where it is opened
    for the graph of a text; or the offset `fault` at which it isn't ours."""

    def __init__(self, image, graph):
        state, told = State(graph, Fit(graph)), records_of(image)
        self.fault = told if isinstance(told, int) else None
        for at, payload in told[0] if isinstance(told, tuple) else []:
            self.fault = state.payload(payload, at)
            if self.fault is not None:
                break
        if self.fault is None:
            self.fault = state.first_unfit()
        self.sources = dict(state.sources)
        self.records = [state.said(it) for it in state.records.values()] if state.graph == graph else []
        self.calls = dict(stored(*pair) for pair in state.calls)


def stored(call, outcome):
    """A kept call and its outcome as the model has them."""
    tool, version, words, params, parts, outs = call
    status, lines, outputs = outcome
    return Call(tool, version, words, params, parts, outs), Outcome(status, [tuple(line) for line in lines], [tuple(it) for it in outputs])
