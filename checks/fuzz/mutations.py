"""Graph files that are broken by chance: other tokens, other types at any place, bytes that no token has, words and strings at their limits."""
from spelling import NAMES, blank, graph, listed, spelled

WORDS = ["type", "suffix", "param", "tool", "read", "each", "pack", "simple", "is", "list", "of", "compound", "from", "to", "run", "uses", "also",
         "with", "closure", ";", ",", "(", ")", "text", "a", "b", "c", "x.y", "9", "_", "-a", "a-b", '""', '"a b"', '"n/a.me"', '"' + "s" * 255 + '"',
         '"' + "s" * 256 + '"', "w" * 255, "w" * 256, '"a\tb"', '"\x7f"', '"\n"', "?", '"', "#", "\0", "\xff", "=", "typex", "Type"]
BYTES = [b'"', b"#", b";", b",", b"(", b")", b" ", b"\n", b"\r", b"\t", b"\0", b"\x7f", b"\xc3\xa4", b"a", b"0", b".", b"_", b"-", b"\x0b", b"'"]


def anything(dice):
    """Declarations whose types, parameters and names are by chance: most have a fault, of any kind."""
    names = dice.sample(NAMES, 5)

    def one():
        return dice.choice(names)

    def several(most):
        return listed([one() for _ in range(dice.randrange(1, most))])

    # most names are those of types, else no declaration would come further than to an unknown one
    decls = [["type", name, "simple"] + (["is", one()] if dice.random() < 0.3 else []) for name in names[:dice.choice([0, 3, 4, 4, 5])]]
    for _ in range(dice.randrange(1, 9)):
        turn = dice.choice([0, 2, 2, 3, 4, 5, 6, 6, 7, 8])
        above = ["is"] + several(3) if dice.random() < 0.5 else []
        if turn == 0:
            decls.append(["type", one(), "simple"] + above)
        elif turn == 2:
            decls.append(["type", one(), "list", "of", one()] + above)
        elif turn == 3:
            parts = [token for _ in range(dice.randrange(1, 4)) for token in (one(), one(), ",")]
            decls.append(["type", one(), "compound", "("] + parts[:-1] + [")"])
        elif turn == 4:
            decls.append(["suffix", "." + one(), one()])
        elif turn == 5:
            decls.append(["param", one()])
        elif turn == 6:
            decls.append([dice.choice(["read", "each", "pack"]), one(), "from", one(), "to", one()])
        else:
            decl = ["tool", one(), "1", "from", one(), "to", one(), "run", '"toy"'] + (["uses"] + several(3) if dice.random() < 0.4 else [])
            decl += ["also", one()] if dice.random() < 0.3 else []
            decls.append(decl + (["closure", one()] if dice.random() < 0.3 else []))
    return decls


def other_tokens(dice, decls):
    """The declarations with a token more, less, another one or one of elsewhere, or with a declaration that stands twice or elsewhere."""
    decls = [list(decl) for decl in decls]
    at = dice.randrange(len(decls))
    decl, turn = decls[at], dice.random()
    spot = dice.randrange(len(decl) + 1)
    word = dice.choice(WORDS) if dice.random() < 0.6 else dice.choice(dice.choice(decls))
    if turn < 0.25:
        decl.insert(spot, word)
    elif turn < 0.5:
        decl[spot:spot + 1] = []
    elif turn < 0.75:
        decl[spot:spot + 1] = [word]
    elif turn < 0.85:
        decls.insert(dice.randrange(len(decls) + 1), list(decl))
    elif turn < 0.93:
        decls.insert(dice.randrange(len(decls)), decls.pop(at))
    else:
        decl += decls.pop(dice.randrange(len(decls))) if len(decls) > 1 else []
    return [decl for decl in decls if decl] or [["param", "a"]]


def other_bytes(dice, text):
    at = dice.randrange(len(text) + 1)
    byte = dice.choice(BYTES)
    return dice.choice([text[:at] + byte + text[at:], text[:at] + text[at + 1:], text[:at] + byte + text[at + 1:], text[:at]])


def long_file(dice):
    """A file near one of its limits: its bytes, or its declarations."""
    if dice.random() < 0.5:
        size = (1 << 20) + dice.randrange(-1, 2)
        return (b"type a simple;\n#" + b"x" * size)[:size - 1] + dice.choice([b"\n", b"x"])
    lines = [b"param p%d;\n" % k for k in range(dice.randrange(1998, 2004))]
    if dice.random() < 0.5:
        lines.insert(dice.randrange(1990, len(lines)), dice.choice([b"param p1;\n", b"type q simple is r;\n", b"suffix .q q;\n", b"type t list of text;"]))
    return b"".join(lines)


def graph_file(dice):
    """A graph file by chance, about a third of them good."""
    if dice.random() < 0.01:
        return long_file(dice)
    decls = anything(dice) if dice.random() < 0.4 else graph(dice)
    for _ in range(dice.choice([0, 0, 0, 0, 1, 1, 2])):
        decls = other_tokens(dice, decls)
    text = spelled(dice, decls, dice.choice([0, 0.1, 0.4])).decode().encode("latin-1")
    for _ in range(dice.choice([0, 0, 0, 0, 0, 1, 2])):
        text = other_bytes(dice, text)
    return text + blank(dice).encode() if dice.random() < 0.1 else text
