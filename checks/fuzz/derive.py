"""What an object is: the needs of a node, what it settles to, and the objects of all nodes that one needs. Written from the rules alone.

It derives everything anew: it knows the sources, the graph and what each call comes to, and nothing of what is kept.
"""
from collections import namedtuple

from nodes import Refused
from texts import names_in, reference_lines
from toys import ABORT, OK, Call

HEIGHT = 64
MOST_LINES = 10000
MOST_MESSAGES = 1000

# a value is simple with its bytes, list with its nodes, compound with pairs of names and bytes; there is none exactly at abort
View = namedtuple("View", "status kind value messages")
# what a node needs: `slots` are the base and the extras of a tool, `counted` the needs that add to its status, `names` the reached names
Needs = namedtuple("Needs", "counted names slots missing", defaults=((), (), ()))


def source_node(name):
    return name, (), ()


def inherited(views, own):
    """The messages of the needs in order, then the own ones, each once, and the first thousand of them."""
    return tuple(dict.fromkeys([it for view in views for it in view.messages] + own))[:MOST_MESSAGES]


class Derivation:
    """The objects of a node and of all that it needs. `outcome` gives what a call comes to, or none where it has no outcome."""

    def __init__(self, graph, sources, root, outcome):
        self.graph, self.sources, self.root, self.outcome = graph, sources, root, outcome
        self.views, self.heights, self.calls, self.is_lost = {}, {}, {}, False
        self.met = self.fill()
        self.near = self.nodes_near()

    # ---- needs

    def elements(self, node):
        """The elements of a node whose result is a list."""
        view = self.views.get(node)
        return list(view.value) if view and view.kind == "list" else []

    def lines(self, scan):
        view = self.views.get(scan)
        return names_in(view.value) if view and view.kind == "simple" else []

    def reached(self, node, closure):
        """The reached names, and the scan nodes: that of the own source, then those of the others by their names."""
        own, params, _ = node
        scans, names, todo = {}, set(), [own]
        for name in todo:
            view = self.views.get(source_node(name))
            scan = self.graph.led_on((name, params, ()), closure)
            if scan is not None and (name == own or (view and view.status != ABORT)):
                scans[name] = scan
                fresh = [it for it in dict.fromkeys(self.lines(scan)) if it not in names]
                names.update(fresh)
                todo += [it for it in fresh if it not in todo]
        others = [scans[name] for name in sorted(scans) if name != own]
        return sorted(names), ([scans[own]] if own in scans else []) + others

    def needs(self, node):
        name, params, steps = node
        if not steps:
            return Needs([])
        base, last = (name, params, steps[:-1]), steps[-1]
        if not isinstance(last, int):
            at = self.element(base, last)
            return Needs([base] + ([at] if at else []))
        maker = self.graph.makers[last]
        if maker.kind == "pack":
            led = [(of, self.graph.led_on(base, of)) for _, of in self.graph.types.first[maker.end].parts]
            return Needs([it for _, it in led if it], missing=[of for of, it in led if it is None])
        if maker.kind != "tool" or base not in self.views or self.views[base].status == ABORT:
            return Needs([base])
        return self.needs_of_tool(node, base, maker)

    def element(self, base, key):
        """The element that a pick of a list takes, or none."""
        found = self.elements(base)
        return found[int(key) - 1] if found and int(key) <= len(found) else None

    def needs_of_tool(self, node, base, maker):
        extras = [(what, source_node(what) if word == b"with" else self.graph.led_on(base, what)) for word, what in maker.extras]
        missing = [what for what, it in extras if it is None]
        counted, slots = [], [base] + [it for _, it in extras]
        for slot in slots:
            counted += [slot] + self.elements(slot) if slot else []
        names, scans = self.reached(node, maker.closure) if maker.closure else ([], [])
        return Needs(counted + scans, names, slots, missing)

    # ---- results

    def fill(self):
        """Settles all nodes that can be settled, with a height of 64 at most. Gives the nodes that were met."""
        met, todo = {self.root: None}, [self.root]
        grows = True
        while grows:
            grows = False
            for node in reversed(todo):
                grows |= self.visit(node, met)
            todo = [node for node in met if node not in self.views]
        return met

    def visit(self, node, met):
        """Whether a visit of a node brings something: a node that wasn't met, or a result."""
        fresh, stack = False, [node]
        while stack:
            at = stack.pop()
            if at in self.views:
                continue
            needs = self.needs(at)
            every = needs.counted + [source_node(name) for name in needs.names]
            unmet = [it for it in every if it not in met]
            met.update(dict.fromkeys(unmet))
            stack += [at] + unmet if unmet else []
            fresh |= bool(unmet)
            if all(it in self.views for it in every):
                fresh |= self.settle(at, needs, 1 + max((self.heights[it] for it in every), default=0))
        return fresh

    def settle(self, node, needs, height):
        """Whether a node whose needs have results gets one now. One above the height gets none, though its tool may run."""
        views = [self.views[it] for it in needs.counted]
        if node[2] and isinstance(node[2][-1], int) and self.graph.makers[node[2][-1]].kind == "tool":
            own = self.own_of_tool(node, needs, views)
        else:
            own = self.own_of(node, needs)
        if own is None or height > HEIGHT:
            return False
        status, kind, value, told = own
        status = max([status] + [view.status for view in views])
        label = self.graph.label_of(node)
        messages = inherited(views, [(label, level, text) for level, text in told])
        self.views[node] = View(status, None if status == ABORT else kind, None if status == ABORT else value, messages)
        self.heights[node] = height
        return True

    def own_of(self, node, needs):
        """Status, value and messages of its own of a node that is made without a tool."""
        name, params, steps = node
        if not steps:
            text = self.sources.get(name)
            return (ABORT, None, None, [(ABORT, b"no source " + name)]) if text is None else (OK, "simple", text, [])
        base, last = (name, params, steps[:-1]), steps[-1]
        maker = self.graph.makers[last] if isinstance(last, int) else None
        if maker and maker.kind == "pack":
            return self.packed(maker, needs)
        view = self.views[base]
        if view.status == ABORT:
            return ABORT, None, None, []
        if maker:
            return self.references(params, maker, view)
        if view.kind == "compound":
            return OK, "simple", dict(view.value)[last], []
        if len(needs.counted) < 2:
            return ABORT, None, None, [(ABORT, b"no element " + last)]
        element = self.views[needs.counted[1]]
        return OK, element.kind, element.value, []

    def packed(self, maker, needs):
        if needs.missing:
            return ABORT, None, None, [(ABORT, b"no path " + of) for of in needs.missing]
        parts = self.graph.types.first[maker.end].parts
        return OK, "compound", tuple((name, self.views[it].value) for (name, _), it in zip(parts, needs.counted)), []

    def references(self, params, maker, view):
        """The list that a read makes of a text, or an each of a list."""
        of = self.graph.types.first[maker.end].of
        if maker.kind == "each":
            found = [(self.graph.led_on(node, of), b"no path " + of) for node in view.value]
        else:
            lines = reference_lines(view.value)
            if len(lines) > MOST_LINES:
                return ABORT, None, None, [(ABORT, b"too many references")]
            found = [self.reference(number, expression, params, of) for number, expression in lines]
        faults = [(ABORT, told) for node, told in found if node is None]
        return (ABORT, None, None, faults) if faults else (OK, "list", tuple(node for node, _ in found), [])

    def reference(self, number, expression, params, of):
        """The node of a line of a text, or none and what is wrong with it."""
        told = b"line %d: " % number
        if expression is None:
            return None, told + b"bad reference"
        try:
            node = self.graph.node_of(expression)
        except Refused as fault:
            return None, told + {b"param": b"unknown parameter", b"type": b"unknown type", b"path": b"no path"}[fault.word]
        return self.graph.led_on(node, of, params), told + b"no path"

    def own_of_tool(self, node, needs, views):
        if any(view.status == ABORT for view in views) or needs.missing:
            is_base = self.views[needs.counted[0]].status == ABORT
            return ABORT, None, None, [] if is_base else [(ABORT, b"no path " + of) for of in needs.missing]
        if node not in self.calls:
            self.calls[node] = self.call_of(node, needs)
        outcome = self.outcome(self.calls[node])
        if outcome is None:
            self.is_lost = True
            return None
        return (outcome.status, *self.made(node, outcome), outcome.lines)

    def made(self, node, outcome):
        if outcome.status == ABORT:
            return None, None
        is_simple = self.graph.types.kind(self.graph.makers[node[2][-1]].end) == "simple"
        return ("simple", outcome.outputs[0][1]) if is_simple else ("compound", tuple(outcome.outputs))

    # ---- calls

    def call_of(self, node, needs):
        maker = self.graph.makers[node[2][-1]]
        params = tuple(pair for pair in node[1] if pair[0] in maker.uses)
        parts = [part for number, slot in enumerate(needs.slots) for part in self.parts_of(number, slot)]
        parts += [(len(needs.slots), name, self.sources.get(name)) for name in needs.names]
        to = self.graph.types.first[maker.end]
        outs = tuple(name for name, _ in to.parts) if to.kind == "compound" else (to.name,)
        return Call(maker.name, maker.version, maker.words, params, tuple(parts), outs)

    def parts_of(self, number, node):
        view, label = self.views[node], self.graph.label_of(node)
        if view.kind == "list":
            return [part for element in view.value for part in self.parts_of(number, element)]
        if view.kind == "compound":
            return [(number, label + b"%" + name, body) for name, body in view.value]
        return [(number, label, view.value)]

    def all_needs(self, node):
        needs = self.needs(node)
        return list(dict.fromkeys(needs.counted + [source_node(name) for name in needs.names]))

    def nodes_near(self):
        """The nodes to which a chain of 65 nodes at most leads."""
        found, edge = {self.root}, [self.root]
        for _ in range(HEIGHT):
            edge = [it for it in dict.fromkeys(it for node in edge for it in self.all_needs(node)) if it not in found]
            found.update(edge)
            if not edge:
                break
        return found

    def all_calls(self):
        """The calls of all nodes that are met."""
        return {call for node, call in self.calls.items() if node in self.near}

    # ---- chains

    def is_chain(self, texts, is_deep):
        """Whether node texts are those of a chain from the root, each a need of the one before, and deep or circular."""
        paths = [(self.root,)] if texts and self.graph.text_of(self.root) == texts[0] else []
        for number, text in enumerate(texts[1:], 2):
            paths = [path + (it,) for path in paths for it in self.all_needs(path[-1])
                     if self.graph.text_of(it) == text and (it not in path or number == len(texts))]
        if is_deep:
            return len(texts) == HEIGHT + 1 and any(len(set(path)) == len(path) for path in paths)
        return len(texts) > 1 and any(path[-1] in path[:-1] for path in paths)
