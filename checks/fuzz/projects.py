"""Projects and sessions by chance: a graph, sources and their texts, expressions and commands. Some of it is broken, as much as a session draws."""
from graph_text import Refused as RefusedGraph
from nodes import Graph, Refused
from spelling import MODES, graph as some_graph, joined, spelled, steps
from texts import BODY, Bad, read_expression

VALUES = ["", "1", "2", "x=y", "a/b", "~", "0"]


class Project:
    """A graph that is good, the names of its sources, and what its texts are like."""

    def __init__(self, dice):
        self.dice = dice
        turn = dice.random()
        self.is_row = turn < 0.015
        self.decls = joined() if self.is_row else steps(dice) if turn < 0.03 else some_graph(dice)
        while not self.is_good():
            self.decls = some_graph(dice)
        self.names = ["a%d.t" % k for k in range(1, dice.randrange(60, 68))] if self.is_row else self.some_names()
        self.shy, self.odd = dice.choice([0, 0.02, 0.1]), dice.choice([0, 0, 0.03])

    def is_good(self):
        self.text = spelled(self.dice, self.decls, self.dice.choice([0, 0, 0.1]))
        try:
            self.graph = Graph(self.text)
        except RefusedGraph:
            return False
        return True

    def some_names(self):
        ends = sorted(suffix.decode() for suffix in self.graph.suffixes)
        names = ["%s%s" % (word, end) for end in ends for word in self.dice.sample(["a", "b", "h1", "d/x", "u2"], self.dice.randrange(1, 4))]
        more = ["lic.h", "s.a", "t"][:self.dice.randrange(4)] + ["plain"] * (self.dice.random() < 0.3)
        return names + more or ["plain"]

    def changed(self):
        """Another graph of the same project: a word of a tool, its version or a declaration changed."""
        before = [list(decl) for decl in self.decls]
        for _ in range(20):
            decl = self.dice.choice(self.decls)
            if decl[0] == "tool" and self.dice.random() < 0.7:
                decl[2] = self.dice.choice(["1", "2", "3"])
            else:
                self.decls.remove(decl)
            if self.is_good():
                return
            self.decls = [list(decl) for decl in before]
        assert self.is_good()

    # ---- expressions

    def steps(self, of):
        """Steps from a type, most of them such that there is a path."""
        dice, text = self.dice, ""
        types = sorted(self.graph.types.first)
        for _ in range(dice.choice([0, 1, 1, 1, 1, 2, 2, 3])):
            decl = self.graph.types.first.get(of)
            if decl and decl.kind == "list" and dice.random() < 0.5:
                key = dice.choice(["1", "1", "2", "3", "9"])
            elif decl and decl.kind == "compound" and dice.random() < 0.6:
                key = dice.choice(decl.parts)[0].decode()
            else:
                ways = [to for to in types if of and self.graph.path(of, to)]
                if not ways and dice.random() < 0.9:
                    break
                to = dice.choice(ways) if ways and dice.random() > self.odd else dice.choice(types)
                path = self.graph.path(of, to) if of else None
                of = self.graph.makers[path[-1]].end if path else of if path == () else None
                text += ":" + to.decode()
                continue
            text += "%" + key
            of = self.graph.picked(of, key.encode())
        return text

    def params(self):
        known = [name.decode() for name in sorted(self.graph.params)]
        words = [self.dice.choice(known) for _ in range(self.dice.choice([0, 0, 0, 1, 2])) if known]
        return ["+" + word + self.dice.choice(["", "=" + self.dice.choice(VALUES)]) for word in words]

    def expression(self, name=None, is_plain=False):
        dice = self.dice
        name = name or dice.choice(self.names)
        text = "" if is_plain else self.steps(self.graph.source_type(name.encode()))
        items = [name] + self.params() + [text]
        text = ("%s" if dice.random() < 0.95 else dice.choice([" %s", "%s ", " %s  "])) % dice.choice(["", "", "", " "]).join(items).rstrip()
        return self.broken(text.encode()) if dice.random() < self.odd else text.encode()

    def broken(self, text):
        """A text with a byte more, less, or another one."""
        dice, at = self.dice, self.dice.randrange(len(text) + 1)
        byte = dice.choice([b"+", b":", b"%", b"=", b" ", b"\t", b"?", b"_", b"0", b"\xff", b"\0", b"#", b"z"])
        return dice.choice([text[:at] + byte + text[at:], text[:at] + text[at + 1:], text[:at] + byte + text[at + 1:], text[:at]])

    # ---- texts

    def directive(self):
        dice = self.dice
        ends = ["signal", "exit 0", "exit 1", "exit 1", "exit 2", "exit 255", "none", "none o", "quiet", "many 2", "long", "raw", "lost"]
        rare = ["many 1001", "big"] if dice.random() < 0.05 else ends
        return "!%s %s" % (dice.choice(MODES), dice.choice(rare))

    def asked(self):
        """An expression for an ask: of three by chance mostly the one with the most makers."""
        found = [self.expression() for _ in range(3 if self.dice.random() < 0.7 else 1)]
        return max(found, key=self.length)

    def length(self, text):
        try:
            return len(self.graph.node_of(read_expression(text))[2])
        except (Bad, Refused):
            return 1

    def fitting(self, of):
        """A name that leads to a type, where there is one, most times."""
        fits = [name for name in self.names if self.graph.path(self.graph.source_type(name.encode()), of) is not None]
        return self.dice.choice(fits if fits and self.dice.random() > self.shy else self.names)

    def line(self, element):
        dice, turn = self.dice, self.dice.random()
        if dice.random() < self.shy * 0.3:
            return dice.choice([b"", b"# no", b"\xff\0\t", b"?", b"include ", b"x" * 300])
        if element and turn < 0.97:
            return self.expression(self.fitting(element), dice.random() < 0.9)
        if turn < 0.3:
            return b"include " + dice.choice(self.names).encode()
        if turn < 0.4:
            return b"use " + self.expression(is_plain=dice.random() < 0.6)
        if turn < 0.5:
            return self.expression(is_plain=True)
        if turn < 0.56:
            return b"//!" + dice.choice([b"old", b"old c", b"tab\there", b"\xc3\xa4\\"])
        return self.directive().encode() if turn < 0.56 + self.shy else b"%s=%d" % (dice.choice([b"x", b"y"]), dice.randrange(4))

    def text_of(self, name):
        if self.is_row and self.dice.random() < 0.995:
            later = self.names.index(name) + 1 if name in self.names else len(self.names)
            return b"".join(b"%s:u\n" % self.names[k].encode() for k in range(later, min(later + self.dice.choice([1, 1, 1, 2]), len(self.names))))
        dice, of = self.dice, self.graph.source_type(name.encode())
        reads = [it.end for it in self.graph.makers if it.kind == "read" and self.graph.is_a(of, it.start)]
        element = self.graph.types.first[dice.choice(reads)].of if reads and dice.random() < 0.9 else None
        lines = [self.line(element) for _ in range(dice.choice([0, 1, 1, 2, 2, 3, 4, 6]))]
        end = b"\r\n" if dice.random() < 0.05 else b"\n"
        text = b"".join(line + end for line in lines)
        return text[:-1] if dice.random() < 0.05 else text

    # ---- sessions

    def put(self, name, text):
        return b"put %s %d\n" % (name.encode(), len(text)) + text

    def bad(self):
        """A line that isn't served, or one that is served though it looks odd."""
        dice, name = self.dice, self.dice.choice(self.names).encode()
        rest = b"\nask " + name + b"\n"
        lines = [b"putx a 1", b"put a.c", b"put  a.c 3", b"put a.c 03", b"put a.c +1", b"put a.c 18446744073709551616", b"put a.c 1 1", b"ask", b"asks a",
                 b"Ask a", b" ask a", b"take", b"take ", b"take a b", b"drop a  b", b"quit ", b"sources ", b"kept\r", b"kept\t", b"\r", b"\0", b"plan ",
                 b"ask ", b"ask \r", b"ask  " + name, b"ask " + name + b"\r", b"drop a?c", b"take " + b"n" * 256, b"drop " + b"n" * 255, b"x" * 1024,
                 b"x" * 1025, b"ask a" + b" " * 998, b"ask a" + b" " * 1019, b"ask a" + b" " * 1020, b"ask a" + b" " * 1020 + b"\r",
                 b"ask " + b"n" * 256, b"ask a:" + b"t" * 256, b"ask a%" + b"1" * 256, b"ask a%4294967296", b"ask a%01", b"ask a+a=" + b"v" * 900]
        line = dice.choice(lines)
        if dice.random() < 0.3:
            return b"put %s %d\n" % (dice.choice([b"a?c", b"\xff", b"n" * 256]), len(rest)) + rest
        return (self.broken(line) if dice.random() < 0.3 and not line.startswith(b"put") else line) + b"\n"

    def command(self, odd, files):
        dice, turn = self.dice, self.dice.random()
        if dice.random() < odd:
            return self.bad()
        if turn < 0.38:
            name = dice.choice(self.names)
            return self.put(name, self.text_of(name))
        if turn < 0.43:
            return b"drop %s\n" % dice.choice(self.names).encode()
        if turn < 0.48:
            return b"take %s\n" % dice.choice(sorted(files) + [b"none.c", b"folder"])
        if turn < 0.88:
            return b"ask " + self.asked() + b"\n"
        return dice.choice([b"plan " + self.expression() + b"\n", b"plan " + self.expression() + b"\n", b"sources\n", b"kept\n", b"\n"])

    def session(self, files, odd, is_first):
        """The commands of a session as pieces of its input."""
        dice = self.dice
        pieces = [self.put(name, self.text_of(name)) for name in self.names if dice.random() < 0.9] if is_first else []
        pieces += [self.command(odd, files) for _ in range(dice.choice([3, 8, 15, 25]))]
        pieces += dice.sample([b"kept\n", b"sources\n", b"ask " + self.asked() + b"\n"], dice.randrange(3))
        if dice.random() < 0.002:
            pieces.insert(0, self.put("big", bytes(dice.choice([BODY, BODY + 1, 1500000]))))
        if dice.random() < 0.02:
            # what is replaced is of no use, so the next opening writes the file anew
            pieces += [self.put("big", bytes(1200000)), self.put("big", b"x\n")]
        if dice.random() < 0.3:
            pieces.append(dice.choice([b"quit\n", b"quit", b"put a.c 0", b"put a.c 9\nx=1", b"ask a.c", b"put a?c 3\nx", b"quit\nask a\n"]))
        return pieces
