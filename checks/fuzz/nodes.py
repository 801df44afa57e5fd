"""A checked graph, its chosen paths, and nodes: their types, labels and texts. Written from the rules alone, and not from the program.

A node is a source's name, its parameters as pairs, and its steps: the number of a maker, or the key of a pick.
"""
from graph_text import Types, read_graph, space_of
from texts import read_number, together

MOST_KEY = (1 << 32) - 1


class Refused(Exception):
    """An expression that leads to no node: `word` is param, type or path, and `what` the name or the step."""

    def __init__(self, word, what):
        super().__init__(word, what)
        self.word, self.what = word, what

    def reply(self):
        return b"refused %s %s\n" % (self.word, self.what)


class Graph:
    def __init__(self, text):
        self.text = text
        decls = read_graph(text)
        self.types = Types(decls)
        self.makers = [decl for decl in decls if space_of(decl) == "maker"]
        self.params = {decl.name for decl in decls if decl.kind == "param"}
        self.suffixes = {decl.name: decl.of for decl in decls if decl.kind == "suffix"}
        self.is_a = self.types.is_a
        self.far, self.led = {}, {}

    def source_type(self, name):
        """The type by the longest suffix that a name ends with."""
        fits = [suffix for suffix in self.suffixes if name.endswith(suffix)]
        return self.suffixes[max(fits, key=len)] if fits else b"text"

    # ---- paths

    def distances(self, target):
        """Of each maker from which makers lead to a type: how many, itself counted."""
        if target not in self.far:
            found = {k: 1 for k, maker in enumerate(self.makers) if self.is_a(maker.end, target)}
            edge = list(found)
            while edge:
                edge = [k for k, maker in enumerate(self.makers)
                        if k not in found and any(self.is_a(maker.end, self.makers[j].start) for j in edge)]
                found.update((k, 1 + min(found[j] for j in found if self.is_a(self.makers[k].end, self.makers[j].start))) for k in edge)
            self.far[target] = found
        return self.far[target]

    def path(self, start, target):
        """The chosen path, or none where there is no path."""
        if (start, target) not in self.led:
            self.led[start, target] = self.chosen(start, target)
        return self.led[start, target]

    def chosen(self, start, target):
        if self.is_a(start, target):
            return ()
        far, path, at = self.distances(target), [], start
        wanted = min((far[k] for k in far if self.is_a(at, self.makers[k].start)), default=None)
        if wanted is None:
            return None
        for left in range(wanted, 0, -1):
            path.append(min(k for k in far if far[k] == left and self.is_a(at, self.makers[k].start)))
            at = self.makers[path[-1]].end
        return tuple(path)

    # ---- nodes

    def type_of(self, node):
        of = self.source_type(node[0])
        for step in node[2]:
            of = self.makers[step].end if isinstance(step, int) else self.picked(of, step)
        return of

    def picked(self, of, key):
        """The type of a pick, or none where nothing of this key can be picked."""
        decl = self.types.first[of]
        if decl.kind == "list":
            number = read_number(key)
            return decl.of if number and number <= MOST_KEY else None
        return dict(decl.parts).get(key)

    def node_of(self, expression):
        name, params, steps = expression
        for param, _ in params:
            if param not in self.params:
                raise Refused(b"param", param)
        of, made = self.source_type(name), []
        for number, (mark, word) in enumerate(steps, 1):
            if mark == b":" and word not in self.types.first:
                raise Refused(b"type", word)
            if mark == b":":
                path = self.path(of, word)
                made += path or ()
                of = of if path == () else path and self.makers[path[-1]].end
            else:
                made.append(word)
                of = self.picked(of, word)
            if of is None:
                raise Refused(b"path", b"%d" % number)
        return name, params, tuple(made)

    def led_on(self, node, target, more=()):
        """The node further along the chosen path to a type, with more parameters in front of its own, or none where there is no path."""
        path = self.path(self.type_of(node), target)
        return None if path is None else (node[0], together(more, node[1]), node[2] + path)

    def words_of(self, steps):
        return b"".join(b":" + self.makers[step].end if isinstance(step, int) else b"%" + step for step in steps)

    def label_of(self, node):
        return node[0] + self.words_of(node[2])

    def text_of(self, node):
        params = b"".join(b"+" + name + (b"=" + value if value else b"") for name, value in node[1])
        return node[0] + params + self.words_of(node[2])

    def plan_lines(self, node):
        return [self.makers[step].name if isinstance(step, int) else b"%" + step for step in node[2]]
