"""Graph files: their tokens, their grammar, and the first fault that one has. Written from the rules alone, and not from the program."""
from collections import namedtuple

from texts import LONGEST, STRING_BYTES, WORD_BYTES, is_id, is_name

LONGEST_GRAPH = 1 << 20
MOST = 2000
FAULTS = ["unknown type", "double name", "supertype loop", "wrong kind", "too many", "unknown param"]

Token = namedtuple("Token", "kind text at")
# `kind` is one of simple, list, compound, suffix, param, tool, read, each, pack; the fields that a kind has not are empty
Decl = namedtuple("Decl", "at kind name of parts supers start end version words uses extras closure",
                  defaults=(None, (), (), None, None, None, (), (), (), None))


class Refused(Exception):
    """A graph file that isn't taken: `line` is the line that the program writes."""

    def __init__(self, line):
        super().__init__(line)
        self.line = line


class Stuck(Exception):
    """The token at a place can't go on to a graph."""


def place(text, at):
    """The line and the column of a byte, both from 1."""
    return text.count(b"\n", 0, at) + 1, at - (text.rfind(b"\n", 0, at) + 1) + 1


def token_at(text, at):
    """The token at or after a place, and the place after it. What begins no token is one of kind `bad`."""
    while at < len(text) and text[at] in b" \t\r\n#":
        if text[at] == 35:
            end = text.find(b"\n", at)
            at = len(text) if end < 0 else end
        else:
            at += 1
    if at == len(text):
        return Token("end", b"", at), at
    if text[at] in b";,()":
        return Token(text[at:at + 1].decode(), b"", at), at + 1
    if text[at] == 34:
        end = text.find(b'"', at + 1)
        body = text[at + 1:end]
        good = end >= 0 and len(body) <= LONGEST and STRING_BYTES.issuperset(body)
        return Token("string" if good else "bad", body, at), end + 1
    end = at
    while end < len(text) and text[end] in WORD_BYTES:
        end += 1
    return Token("word" if 0 < end - at <= LONGEST else "bad", text[at:end], at), max(end, at + 1)


class Reader:
    """Reads declarations token by token."""

    def __init__(self, text):
        self.text = text
        self.token, self.behind = token_at(text, 0)

    def take(self, is_wanted):
        if not is_wanted(self.token):
            raise Stuck
        taken = self.token
        if taken.kind != "end":
            self.token, self.behind = token_at(self.text, self.behind)
        return taken.text

    def mark(self, kind):
        return self.take(lambda token: token.kind == kind)

    def word(self, *words):
        return self.take(lambda token: token.kind == "word" and (not words or token.text in words))

    def id(self):
        return self.take(lambda token: token.kind == "word" and is_id(token.text))

    def string(self):
        return self.mark("string")

    def sees(self, *words):
        return self.token.kind == "word" and self.token.text in words

    def ids(self):
        found = [self.id()]
        while self.token.kind == ",":
            self.mark(",")
            found.append(self.id())
        return tuple(found)

    def supers(self):
        if not self.sees(b"is"):
            return ()
        self.word(b"is")
        return self.ids()

    def type_(self, at):
        name = self.id()
        kind = self.word(b"simple", b"list", b"compound")
        if kind == b"simple":
            return Decl(at, "simple", name, supers=self.supers())
        if kind == b"list":
            self.word(b"of")
            of = self.id()
            return Decl(at, "list", name, of, supers=self.supers())
        self.mark("(")
        parts = [(self.id(), self.id())]
        while self.token.kind == ",":
            self.mark(",")
            parts.append((self.id(), self.id()))
        self.mark(")")
        return Decl(at, "compound", name, parts=tuple(parts))

    def ends(self):
        self.word(b"from")
        start = self.id()
        self.word(b"to")
        return start, self.id()

    def extra(self):
        if self.word(b"also", b"with") == b"also":
            return b"also", self.id()
        return b"with", self.take(lambda token: token.kind == "string" and is_name(token.text))

    def tool(self, at):
        name, version, (start, end) = self.id(), self.word(), self.ends()
        self.word(b"run")
        words, uses, extras, closure = [self.string()], (), [], None
        while self.token.kind == "string":
            words.append(self.string())
        if self.sees(b"uses"):
            self.word(b"uses")
            uses = self.ids()
        while self.sees(b"also", b"with"):
            extras.append(self.extra())
        if self.sees(b"closure"):
            self.word(b"closure")
            closure = self.id()
        return Decl(at, "tool", name, start=start, end=end, version=version, words=tuple(words), uses=uses, extras=tuple(extras), closure=closure)

    def decl(self):
        at = self.token.at
        kind = self.word(b"type", b"suffix", b"param", b"tool", b"read", b"each", b"pack")
        if kind == b"type":
            return self.type_(at)
        if kind == b"suffix":
            return Decl(at, "suffix", self.word(), self.id())
        if kind == b"param":
            return Decl(at, "param", self.id())
        if kind == b"tool":
            return self.tool(at)
        name, (start, end) = self.id(), self.ends()
        return Decl(at, kind.decode(), name, start=start, end=end)

    def graph(self):
        decls = []
        while self.token.kind != "end":
            decls.append(self.decl())
            self.mark(";")
        return decls


# ---- checks

def space_of(decl):
    """The space of names in which a declaration stands."""
    return {"simple": "type", "list": "type", "compound": "type", "suffix": "suffix", "param": "param"}.get(decl.kind, "maker")


def types_named(decl):
    named = list(decl.supers) + [of for _, of in decl.parts] + [of for word, of in decl.extras if word == b"also"]
    return named + [of for of in (decl.of, decl.start, decl.end, decl.closure) if of is not None]


class Types:
    """The types of a list of declarations, by the first declaration of each name."""

    def __init__(self, decls):
        self.first = {b"text": Decl(0, "simple", b"text")}
        for decl in decls:
            if space_of(decl) == "type":
                self.first.setdefault(decl.name, decl)
        self.above = {}

    def supers(self, name):
        """All types that a name is led to by one or more supertypes."""
        if name not in self.above:
            found, todo = set(), [name]
            while todo:
                decl = self.first.get(todo.pop())
                fresh = [it for it in (decl.supers if decl else ()) if it not in found]
                found.update(fresh)
                todo += fresh
            self.above[name] = found
        return self.above[name]

    def is_a(self, one, other):
        return one == other or other in self.supers(one)

    def kind(self, name):
        return self.first[name].kind


def breaks_a_rule(decl, types):
    """Whether a rule of kinds is broken; all types that it names are known."""
    kind = types.kind
    if decl.kind == "simple":
        return any(kind(above) != "simple" for above in decl.supers)
    if decl.kind == "list":
        above = [types.first[it] for it in decl.supers]
        odd = any(it.kind != "list" or (it.of in types.first and not types.is_a(decl.of, it.of)) for it in above)
        return odd or kind(decl.of) != "simple"
    if decl.kind == "compound":
        return any(kind(of) != "simple" for _, of in decl.parts)
    if decl.kind == "suffix":
        return kind(decl.of) != "simple"
    if decl.kind == "tool":
        return kind(decl.end) == "list" or (decl.closure is not None and kind(decl.closure) != "simple")
    wanted = {"read": ("simple", "list"), "each": ("list", "list"), "pack": (None, "compound")}.get(decl.kind)
    return wanted is not None and (wanted[0] not in (None, kind(decl.start)) or kind(decl.end) != wanted[1])


def fault_of(number, decl, types, params, before):
    """The first fault of a declaration, as its place in FAULTS, or none. `before` has the names declared before it."""
    inner = [name for name, _ in decl.parts] + list(decl.uses)
    if any(of not in types.first for of in types_named(decl)):
        return 0
    if (space_of(decl), decl.name) in before or len(set(inner)) < len(inner):
        return 1
    if space_of(decl) == "type" and decl.name in types.supers(decl.name):
        return 2
    if breaks_a_rule(decl, types):
        return 3
    if number > MOST:
        return 4
    return 5 if any(param not in params for param in decl.uses) else None


def first_fault(decls):
    """The first declaration with a fault, and that fault, or none."""
    types, params = Types(decls), {decl.name for decl in decls if decl.kind == "param"}
    before = {("type", b"text")}
    for number, decl in enumerate(decls, 1):
        fault = fault_of(number, decl, types, params, before)
        if fault is not None:
            return decl, FAULTS[fault]
        before.add((space_of(decl), decl.name))
    return None


def read_graph(text):
    """The declarations of a graph file. It is refused with the line that the program writes."""
    if len(text) > LONGEST_GRAPH:
        raise Refused(b"graph: too long\n")
    reader = Reader(text)
    try:
        decls = reader.graph()
    except Stuck:
        raise Refused(b"graph: line %d column %d: syntax\n" % place(text, reader.token.at)) from None
    found = first_fault(decls)
    if found:
        raise Refused(b"graph: line %d: %s\n" % (place(text, found[0].at)[0], found[1].encode()))
    return decls
