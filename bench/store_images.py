#!/usr/bin/env python3
"""Reads store files by the tables of docs/engineer/store-format.md, and compares what they stand for with what the program says of them.

    store_images.py PROGRAM [COUNT [SEED]]

Images are made from sessions by bytes that change, cuts, splices, records that stand twice, and items that change within whole records; half of them were
rewritten once or twice before, so that both starts are in use. PROGRAM is the built crates/odin. Each image is the store of a session over the graph text
GRAPH. Both say where it isn't ours, or the sources with their texts, how many calls are kept, and each byte of the file then, the batch of the graph among
them. It prints how many agree, and the first that don't.
"""
import itertools
import os
import random
import struct
import subprocess
import sys
import tempfile

from image_records import ABORT, HIGHEST, Fit, Record, is_id, is_name, is_value

GRAPH = (b'type h simple; type c simple is h; type o simple; type l list of h; type k compound (p o, q c); suffix .h h; suffix .c c; param d; '
         b'tool cc 1 from c to o run "cc"; read rd from h to l; pack pk from c to k;')
FIT = Fit(GRAPH)
LIMIT = 1 << 30
BODY = 1 << 24


# ---- the model

class NotRead(Exception):
    """The bytes aren't what is asked for."""


class Fields:
    def __init__(self, data, at=0):
        self.data = data
        self.at = at

    def take(self, count):
        if self.at + count > len(self.data):
            raise NotRead
        taken = self.data[self.at:self.at + count]
        self.at += count
        return taken

    def u8(self):
        return self.take(1)[0]

    def u32(self):
        return int.from_bytes(self.take(4), "big")

    def bytes(self):
        return self.take(self.u32())

    def named(self, names):
        byte = self.u8()
        if byte not in names:
            raise NotRead
        return byte

    def option(self, member):
        return member() if self.named((0, 1)) else None

    def list(self, member):
        # each member has a byte at least, so a count past the bytes ends the reading
        return [member() for _ in range(self.u32())]

    def pair(self):
        return (self.bytes(), self.bytes())

    def step(self):
        return self.u32() if self.named((1, 2)) == 1 else self.bytes()

    def node(self):
        return (self.bytes(), self.list(self.pair), self.list(self.step))

    def value(self):
        kind = self.named((1, 2, 3))
        if kind == 1:
            return ("simple", self.bytes())
        if kind == 2:
            return ("list", self.list(self.node))
        return ("compound", self.list(self.pair))

    def part(self):
        return (self.u32(), self.bytes(), self.option(self.u32))

    def call(self):
        return (self.bytes(), self.bytes(), self.list(self.bytes), self.list(self.pair), self.list(self.part), self.list(self.bytes))

    def message(self):
        return (self.bytes(), self.named(range(4)), self.bytes())

    def dep(self):
        return (self.node(), self.option(self.u32))

    def record(self):
        return Record(self.node(), self.list(self.dep), self.u32(), self.option(self.u32), self.named(range(4)), self.list(self.message),
                      self.named(range(4)), self.list(self.message), self.u32())

    def outcome(self):
        return (self.named(range(4)), self.list(lambda: (self.named(range(4)), self.bytes())), self.list(lambda: (self.bytes(), self.u32())))


class State:
    """What is kept: `counted` is the graph text for which the file is opened, by which records of nodes count, and `fit` the graph that they have to fit."""

    def __init__(self, counted=GRAPH, fit=FIT):
        self.counted = counted
        self.fit = fit
        self.contents = []
        self.sources = {}
        self.calls = []
        self.kept = set()
        self.graph = None
        # the last record of each node since that graph; and the gate of each that doesn't fit, also where it was replaced
        self.records = {}
        self.unfit = []

    def text(self, number):
        if number >= len(self.contents):
            raise NotRead
        kind, text = self.contents[number]
        if kind != "simple":
            raise NotRead
        return text

    def content(self, record):
        fields = Fields(record)
        kind, value = fields.value()
        if fields.at != len(record):
            raise NotRead
        bodies = [value] if kind == "simple" else [body for _, body in value] if kind == "compound" else []
        if any(len(body) > BODY for body in bodies):
            raise NotRead
        self.contents.append((kind, value))

    def keep(self, call, outcome):
        tool, version, words, params, parts, outs = call
        parts = [(slot, label, None if number is None else self.text(number)) for slot, label, number in parts]
        status, lines, outputs = outcome
        outputs = [(name, self.text(number)) for name, number in outputs]
        formed = (is_id(tool) and is_name(version) and all(is_id(name) and is_value(value) for name, value in params)
                  and all(b" " not in label and b"\n" not in label for _, label, _ in parts) and all(is_id(out) for out in outs))
        fits = outputs == [] if status == 3 else [name for name, _ in outputs] == outs
        whole = (tool, version, tuple(words), tuple(params), tuple(parts), tuple(outs))
        if not formed or not fits or whole in self.kept:
            raise NotRead
        self.kept.add(whole)
        self.calls.append((whole, (status, lines, outputs)))

    def seen(self, number):
        if number is None:
            return None
        if number >= len(self.contents):
            raise NotRead
        return self.contents[number]

    def said(self, read):
        """A record with the values themselves in the place of their numbers."""
        return read._replace(deps=[(node, self.seen(number)) for node, number in read.deps], value=self.seen(read.value))

    def note(self, read, gate):
        said = self.said(read)
        formed = read.reached <= len(read.deps) and 1 <= read.height <= HIGHEST and (read.value is None) == (read.status == ABORT)
        if self.graph is None or not formed:
            raise NotRead
        self.records[whole_node(read.node)] = read
        if self.graph == self.counted and not self.fit.fits(said):
            self.unfit.append(gate)

    def item(self, fields, gate):
        kind = fields.named(range(1, 7))
        if kind == 1:
            self.graph, self.records, self.unfit = fields.bytes(), {}, []
        elif kind == 2:
            self.content(fields.bytes())
        elif kind == 3:
            name, number = fields.bytes(), fields.u32()
            if not is_name(name):
                raise NotRead
            self.sources[name] = self.text(number)
        elif kind == 4:
            name = fields.bytes()
            if not is_name(name) or name not in self.sources:
                raise NotRead
            del self.sources[name]
        elif kind == 5:
            self.keep(fields.call(), fields.outcome())
        else:
            self.note(fields.record(), gate)

    def payload(self, payload, gate=0):
        """Takes a payload in; where it doesn't read, gives the gate that isn't ours, which is an earlier one where a record that counts doesn't fit."""
        first = self.first_unfit()
        try:
            if not payload:
                raise NotRead
            fields = Fields(payload)
            while fields.at < len(payload):
                self.item(fields, gate)
        except NotRead:
            return gate if first is None else first
        return None

    def first_unfit(self):
        """The gate of the first record that counts and doesn't fit, or none."""
        return self.unfit[0] if self.unfit else None


def whole_node(node):
    name, params, steps = node
    return name, tuple(params), tuple(steps)


def u32(n):
    return struct.pack(">I", n)


def u64(n):
    return struct.pack(">Q", n)


def blob(b):
    return u32(len(b)) + b


def many(items):
    return u32(len(items)) + b"".join(items)


def records_of(image):
    """The records, each with its gate, and the place of the closed gate behind them; or an offset at which it isn't ours; or None where it is new."""
    size = len(image)
    if size > LIMIT:
        return 0
    if size <= 1 or image[0] == 0:
        return None
    if size < 65 or image[1:8] != b"DINSTO1" or any(image[9:16]) or any(image[32:64]):
        return 0
    start = int.from_bytes(image[24:32] if image[8] % 2 else image[16:24], "big")
    if not 64 <= start < size:
        return 0
    found, at = [], start
    while image[at] == 1:
        if at + 5 > size:
            return at
        length = int.from_bytes(image[at + 1:at + 5], "big")
        if at + 5 + length + 1 > size:
            return at
        found.append((at, image[at + 5:at + 5 + length]))
        at += 5 + length
    return found, at


def appended(image, end, payload):
    record = b"\1" + blob(payload) + b"\0"
    return image[:end] + record + image[end + len(record):]


FRONT = b"ODINSTO1" + bytes(8) + u64(64) + bytes(41)


def opened(image):
    """The offset at which the image isn't ours, or what it stands for, the file after the opening, and the place of its closed gate."""
    told = records_of(image)
    if isinstance(told, int):
        return told
    state, batch = State(), b"\1" + blob(GRAPH)
    if told is None:
        return state, appended(FRONT + image[65:], 64, batch), 64 + 5 + len(batch)
    records, end = told
    for gate, payload in records:
        fault = state.payload(payload, gate)
        if fault is not None:
            return fault
    if state.first_unfit() is not None:
        return state.first_unfit()
    if state.graph != GRAPH:
        state.records = {}
        return state, appended(image, end, batch), end + 5 + len(batch)
    return state, image, end


class Live:
    """The batches of a rewritten store, and the records of its nodes by the numbers of its own contents."""

    def __init__(self, state):
        self.payloads = [b"\1" + blob(GRAPH)]
        self.numbers = {}
        for name, text in sorted(state.sources.items()):
            items = []
            number = self.number(("simple", text), items)
            self.payloads.append(b"".join(items) + b"\3" + blob(name) + u32(number))
        for call, outcome in state.calls:
            self.payloads.append(self.kept(call, outcome))
        self.records = {node: self.noted(state, record) for node, record in state.records.items()}

    def number(self, value, items):
        """The number of a value, which is written before the item where no batch has it yet."""
        content = spell_value(value)
        if content not in self.numbers:
            self.numbers[content] = len(self.numbers)
            items.append(b"\2" + blob(content))
        return self.numbers[content]

    def kept(self, call, outcome):
        tool, version, words, params, parts, outs = call
        status, lines, outputs = outcome
        items = []
        numbered = [u32(slot) + blob(label) + spell_number(None if body is None else self.number(("simple", body), items)) for slot, label, body in parts]
        given = [blob(name) + u32(self.number(("simple", body), items)) for name, body in outputs]
        return b"".join(items) + b"\5" + b"".join([
            blob(tool), blob(version), many([blob(w) for w in words]), many([blob(n) + blob(v) for n, v in params]), many(numbered),
            many([blob(o) for o in outs]), bytes([status]), many([bytes([level]) + blob(text) for level, text in lines]), many(given)])

    def noted(self, state, record):
        """Adds the batch of a record: its value comes first, and then what was seen of each dep."""
        items = []
        value = self.renumbered(state, record.value, items)
        deps = [(node, self.renumbered(state, number, items)) for node, number in record.deps]
        record = record._replace(value=value, deps=deps)
        self.payloads.append(b"".join(items) + b"\6" + spell_record(record))
        return record

    def renumbered(self, state, number, items):
        return None if number is None else self.number(state.contents[number], items)


def rewritten(state, image, end):
    """The file once its records are replaced by what is live, and the records of nodes then."""
    live = Live(state)
    copy = b"".join(b"\1" + blob(payload) for payload in live.payloads) + b"\0"
    is_second = image[8] % 2 == 1
    start = int.from_bytes(image[24:32] if is_second else image[16:24], "big")
    if 64 + len(copy) <= start:
        place = 64
    elif end + 1 + len(copy) <= LIMIT:
        place = end + 1
    else:
        return image, state.records
    image = image[:place] + copy + image[place + len(copy):]
    field = 16 if is_second else 24
    image = image[:field] + u64(place) + image[field + 8:]
    image = image[:8] + bytes([0 if is_second else 1]) + image[9:]
    if place == 64:
        image = image[:64 + len(copy)]
    return image, live.records


def wanted_of(image):
    """What a session has to end with and to write over an image, and the file then."""
    told = opened(image)
    if isinstance(told, int):
        return 7, b"store: not ours at %d\n" % told, image
    state, after, _ = told
    sources = sorted(state.sources.items())
    lines = [b"sources %d\n" % len(sources), *[b"%s %d\n" % (name, len(text)) for name, text in sources], b"kept %d\n" % len(state.calls)]
    return 0, b"".join(lines + [b"object ok simple %d\n%s\nmessages 0\n" % (len(text), text) for _, text in sources]), after


def spell_value(value):
    kind, body = value
    if kind == "simple":
        return b"\1" + blob(body)
    if kind == "list":
        return b"\2" + many([spell_node(node) for node in body])
    return b"\3" + many([blob(name) + blob(part) for name, part in body])


def spell_node(node):
    name, params, steps = node
    return blob(name) + many([blob(n) + blob(v) for n, v in params]) + many([b"\1" + u32(it) if isinstance(it, int) else b"\2" + blob(it) for it in steps])


def spell_messages(messages):
    return many([blob(label) + bytes([level]) + blob(text) for label, level, text in messages])


def spell_number(number):
    return b"\0" if number is None else b"\1" + u32(number)


def spell_record(record):
    return b"".join([spell_node(record.node), many([spell_node(node) + spell_number(seen) for node, seen in record.deps]), u32(record.reached),
                     spell_number(record.value), bytes([record.own_status]), spell_messages(record.own_messages), bytes([record.status]),
                     spell_messages(record.messages), u32(record.height)])


# ---- images of sessions, written by the same tables

class Writer:
    def __init__(self, graph=GRAPH):
        self.image = FRONT
        self.end = 64
        self.numbers = {}
        self.count = 0
        self.sources = {}
        self.kept = set()
        self.batch([b"\1" + blob(graph)])

    def batch(self, items):
        payload = b"".join(items)
        self.image = self.image[:self.end] + b"\1" + blob(payload) + b"\0"
        self.end += 5 + len(payload)

    def number(self, text, items):
        if text not in self.numbers:
            self.numbers[text] = self.count
            self.count += 1
            items.append(b"\2" + blob(b"\1" + blob(text)))
        return u32(self.numbers[text])

    def put(self, name, text):
        if self.sources.get(name) == text:
            return
        items = []
        number = self.number(text, items)
        self.batch(items + [b"\3" + blob(name) + number])
        self.sources[name] = text

    def drop(self, name):
        if name in self.sources:
            del self.sources[name]
            self.batch([b"\4" + blob(name)])

    def keep(self, tool, version, words, params, parts, outs, status, lines, bodies):
        whole = (tool, version, tuple(words), tuple(params), tuple(parts), tuple(outs))
        if whole in self.kept:
            return
        self.kept.add(whole)
        items = []
        numbered = [u32(slot) + blob(label) + (b"\0" if body is None else b"\1" + self.number(body, items)) for slot, label, body in parts]
        outputs = [blob(name) + self.number(body, items) for name, body in zip(outs, bodies)] if status != 3 else []
        self.batch(items + [b"\5" + blob(tool) + blob(version) + many([blob(w) for w in words]) + many([blob(n) + blob(v) for n, v in params])
                            + many(numbered) + many([blob(o) for o in outs]) + bytes([status])
                            + many([bytes([level]) + blob(text) for level, text in lines]) + many(outputs)])


    def note(self, record):
        self.batch([b"\6" + spell_record(record)])


NODES = [(b"a.c", [], [0]), (b"b.c", [(b"d", b"1")], [0]), (b"a.h", [], [1]), (b"b.c", [], [2]), (b"b.c", [], [2, b"p"]), (b"a.c", [], []),
         (b"x.h", [], [1, b"1"])]
BAD_NODES = [(b"a.h", [], [0]), (b"a c", [], []), (b"a.c", [], [3]), (b"a.c", [(b"1", b"")], [0]), (b"a.c", [], [b"p"]), (b"a.h", [], [1, b"0"])]
# contents of each kind, most of which fit a node of NODES
VALUES = [("list", [NODES[5], (b"a.h", [], [])]), ("list", [NODES[5]]), ("list", []), ("compound", [(b"p", b"xy"), (b"q", b"")]),
          ("compound", [(b"p", b""), (b"q", b"x=1\n")]), ("compound", [(b"p", b"xy")]), ("list", [(b"m", [(b"d", b"1")], [3, b"k"])]), ("simple", b"x=1\n")]
MESSAGES = [[], [(b"a.c:o", 1, b"old c")], [(b"", 3, b""), (b"b.c", 2, b"x\n")]]


def noted(rng, state):
    """The record of a node after what is kept, as most files have them, and sometimes as none has."""
    count = len(state.contents)

    def node():
        return rng.choice(BAD_NODES if rng.random() < 0.02 else NODES)

    def number():
        return None if not count or rng.random() < 0.25 else rng.randrange(count + (rng.random() < 0.02))

    deps = [(node(), number()) for _ in range(rng.choice([0, 1, 1, 2, 4]))]
    of, value = rng.choice([node(), node(), NODES[2], NODES[3]]), number()
    if rng.random() < 0.9:
        fitting = [k for k, content in enumerate(state.contents) if FIT.type_of(of) and FIT.is_of_type(FIT.type_of(of), content)]
        value = rng.choice([None, *fitting, *fitting])
    status = ABORT if (value is None) != (rng.random() < 0.03) else rng.choice([0, 1, 2])
    reached = rng.randrange(len(deps) + 1) + (rng.random() < 0.03)
    height = rng.choice([0, 65]) if rng.random() < 0.03 else rng.choice([1, 2, 64])
    return Record(of, deps, reached, value, rng.randrange(4), rng.choice(MESSAGES), status, rng.choice(MESSAGES), height)


TEXTS = [b"", b"\n", b"x=1\n", b"include a.h\n", b"w1=2\n", b"text " * 3]
NAMES = [b"a.c", b"b.c", b"a.h", b"m/x-1_", b"z"]


def session(rng):
    writer = Writer()
    for _ in range(rng.randrange(1, 13)):
        what = rng.random()
        if what < 0.25:
            writer.put(rng.choice(NAMES), rng.choice(TEXTS))
        elif what < 0.31:
            writer.drop(rng.choice(NAMES))
        elif what < 0.33:
            writer.batch([b"\1" + blob(rng.choice([GRAPH, b"", b"param d;"]))])
        elif what < 0.48:
            values = [rng.choice(VALUES) for _ in range(rng.choice([1, 1, 2, 3]))]
            writer.count += len(values)
            writer.batch([b"\2" + blob(spell_value(value)) for value in values])
        elif what < 0.85:
            told = opened(writer.image)
            if isinstance(told, int):
                break
            writer.note(noted(rng, told[0]))
        else:
            outs = rng.choice([[b"o"], [b"o", b"warn"], []])
            writer.keep(rng.choice([b"cc", b"ld"]), rng.choice([b"1", b"2.0"]), rng.choice([[], [b"cc"], [b"ld", b"-o x"]]),
                        rng.choice([[], [(b"debug", b"")], [(b"d", b"1"), (b"d", b"2")]]),
                        [(rng.randrange(2), rng.choice(NAMES), rng.choice(TEXTS + [None])) for _ in range(rng.randrange(3))],
                        outs, rng.choice([0, 0, 1, 2, 3]), rng.choice([[], [(1, b"old c")], [(3, b""), (0, b"x\n")]]),
                        [rng.choice(TEXTS) for _ in outs])
    image = writer.image
    for _ in range(rng.choice([0, 0, 1, 2])):
        told = opened(image)
        if not isinstance(told, int):
            image, _ = rewritten(*told)
    if rng.random() < 0.1 and image[8] == 0:
        # the records stand elsewhere, and the second start leads to them
        shift = rng.randrange(1, 9)
        image = image[:8] + bytes([rng.choice([1, 3, 255])]) + image[9:24] + u64(64 + shift) + image[32:64] + bytes(shift) + image[64:]
    if rng.random() < 0.3:
        image += bytes(rng.randrange(256) for _ in range(rng.randrange(1, 12)))
    return image


# ---- mutations

def spots(image):
    told = records_of(image)
    return [] if told is None or isinstance(told, int) else told[0]


def rebuilt(image, payloads):
    start = int.from_bytes(image[24:32] if image[8] % 2 else image[16:24], "big")
    return image[:start] + b"".join(b"\1" + blob(p) for p in payloads) + b"\0"


def flip(rng, data, most=3):
    data = bytearray(data)
    for _ in range(rng.randrange(1, most + 1)):
        if data:
            at = rng.randrange(len(data))
            data[at] = rng.choice([data[at] ^ (1 << rng.randrange(8)), rng.randrange(256), rng.randrange(7), (data[at] + 1) % 256])
    return bytes(data)


def mutate(rng, image, other):
    way = rng.randrange(12)
    records = spots(image)
    payloads = [payload for _, payload in records]
    if way == 0:
        return flip(rng, image)
    if way == 1:
        return image[:rng.randrange(len(image) + 1)]
    if way == 2:
        return image[:rng.randrange(len(image) + 1)] + other[rng.randrange(len(other) + 1):]
    if way == 3:
        return flip(rng, image[:64], 2) + image[64:]
    if not payloads or image[8] % 2 and len(image) < 80:
        return flip(rng, image)
    at = rng.randrange(len(payloads))
    if way in (4, 5):
        payloads.insert(rng.randrange(len(payloads) + 1), payloads[at])
    elif way == 6:
        others = [payload for _, payload in spots(other)]
        payloads[at:] = others[rng.randrange(len(others) + 1):]
    elif way == 7:
        del payloads[at]
    elif way == 8:
        payloads[at] = payloads[at][:rng.randrange(len(payloads[at]) + 1)]
    elif way == 9 and len(payloads) > 1:
        first = rng.randrange(len(payloads) - 1)
        payloads[first:first + 2] = [payloads[first] + payloads[first + 1]]
    elif way == 10:
        payload = payloads[at]
        place = rng.randrange(len(payload) + 1)
        payloads[at] = payload[:place] + rng.choice([b"\0", b"\1", b"a", b" ", b"\n", b"+", bytes([rng.randrange(256)])]) + payload[place + rng.randrange(2):]
    else:
        payloads[at] = flip(rng, payloads[at], 2)
    return rebuilt(image, payloads)


def said(program, image, folder):
    """The same as the program does it: it is asked for the sources that the model finds."""
    told = opened(image)
    names = [] if isinstance(told, int) else sorted(told[0].sources)
    path = os.path.join(folder, "odin.store")
    with open(path, "wb") as out:
        out.write(image)
    commands = b"sources\nkept\n" + b"".join(b"ask %s\n" % name for name in names)
    ran = subprocess.run([program, "graph"], cwd=folder, input=commands, stdout=subprocess.PIPE, stderr=subprocess.DEVNULL)
    with open(path, "rb") as file:
        return ran.returncode, ran.stdout, file.read()


def has_records(image):
    """Whether it is a store with records of nodes that count."""
    told = opened(image)
    return not isinstance(told, int) and bool(told[0].records)


def drawn(rng):
    """Images by chance: a session's as it is, or some that are changed."""
    while True:
        image, other = session(rng), session(rng)
        if rng.random() < 0.3:
            yield image
            continue
        for _ in range(8):
            made = image
            for _ in range(rng.choice([1, 1, 1, 2])):
                made = mutate(rng, made, other)
            yield made


def main():
    program = os.path.realpath(sys.argv[1])
    count = int(sys.argv[2]) if len(sys.argv) > 2 else 20_000
    rng = random.Random(int(sys.argv[3]) if len(sys.argv) > 3 else 1)
    ours = wrong = new = second = noting = 0
    with tempfile.TemporaryDirectory() as folder:
        with open(os.path.join(folder, "graph"), "wb") as out:
            out.write(GRAPH)
        for image in itertools.islice(drawn(rng), count):
            wanted, found = wanted_of(image), said(program, image, folder)
            ours += wanted[0] == 0
            noting += has_records(image)
            new += records_of(image) is None
            second += len(image) > 8 and image[8] % 2
            if wanted != found:
                wrong += 1
                if wrong <= 5:
                    print("differs", image.hex(), "wanted", wanted, "found", found, sep="\n  ")
    print(f"{count} images, {ours} of them stores ({new} new ones, {noting} with records of nodes), {count - ours} not ours; "
          f"the second start is in use in {second}")
    print(f"{count - wrong} agree, {wrong} differ")
    return 1 if wrong else 0


if __name__ == "__main__":
    sys.exit(main())
