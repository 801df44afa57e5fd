"""Graphs by chance, as declarations that are rows of tokens, and the texts that spell them."""

KITS = """type hdr simple | type c simple is hdr | type sm simple | type inc simple | type o simple | type exe simple | type txt simple
type units list of c | type objs list of o | suffix .h hdr | suffix .c c | suffix .sm sm | suffix .t txt | param debug | param opt
tool scan 1 from hdr to inc run "toy" "scan" | tool cc 1 from c to o run "toy" "cc" uses debug closure inc
read rd from sm to units | each comp from units to objs | tool ld 1 from objs to exe run "toy" "ld" """
MORE = [
    'tool back 1 from exe to c run "toy" "ld"', 'tool doc 2.0 from c to txt run "toy" "ld" also o with "lic.h"',
    'type kit compound ( prog exe , src sm ) | pack pk from sm to kit', 'type two compound ( l txt , r inc ) | tool sp 1 from txt to two run "toy" "split"',
    'type hdrs list of hdr | read hs from sm to hdrs', 'type l list of txt | tool nm 1 from c to sm run "toy" "names" uses opt | read rl from txt to l',
    'tool sum 1 from units to txt run "toy" "cc" uses opt , debug also objs with "a.h"', 'suffix x.h txt', 'suffix z c', 'type deep simple is txt , o',
    'tool up 1 from hdrs to txt run "toy" "cc" closure inc | type hdrs list of hdr | read hs from sm to hdrs', 'param x_1',
    'tool inc2 1 from txt to inc run "toy" "names" "2"', 'type all list of hdr | each wide from units to all', 'tool t2 1 from kit to txt run "toy" "cc"',
    'tool none 1 from o to deep run "absent" | type deep simple', 'tool late 3 from o to deep run "toy" "cc" "3" also c | type deep simple is txt',
    'type pair compound ( a c , b o ) | pack both from c to pair | tool un 1 from pair to txt run "toy" "ld" uses debug closure inc',
]
NAMES = ["a", "b", "c1", "d_", "Type", "of", "list", "from", "T9", "text", "x", "simple"]
MODES = ["scan", "names", "cc", "ld", "split"]


def declared(text):
    """The declarations of a text in which `|` and line ends stand between them, each as its tokens."""
    return [decl.split() for line in text.split("\n") for decl in line.split("|") if decl.split()]


def kits(dice):
    """A graph of units, headers and programs, with more of it by chance."""
    decls = declared(KITS)
    for more in dice.sample(MORE, dice.randrange(0, 6)):
        decls += [decl for decl in declared(more) if decl not in decls]
    if dice.random() < 0.3:
        dice.shuffle(decls)
    return decls


def listed(words):
    """Tokens with commas between them."""
    return [token for word in words for token in (word, ",")][:-1]


def tool(dice, name, simple, others, params):
    start, end = dice.choice(simple + others), dice.choice(simple * 3 + others)
    decl = ["tool", name, dice.choice(["1", "gcc-12", "2.0/x"]), "from", start, "to", end, "run", '"toy"', '"%s"' % dice.choice(MODES)]
    decl += ['"%d"' % dice.choice([2, 4])] * (dice.random() < 0.2)
    if params and dice.random() < 0.4:
        decl += ["uses"] + listed(dice.sample(params, dice.randrange(1, len(params) + 1)))
    for _ in range(dice.choice([0, 0, 0, 1, 2])):
        decl += ["also", dice.choice(simple + others)] if dice.random() < 0.6 else ["with", '"%s"' % dice.choice(["lic.h", "s.a", "t"])]
    return decl + (["closure", dice.choice(simple)] if dice.random() < 0.35 else [])


def maker(dice, name, simple, lists, compounds, params):
    turn = dice.random()
    if turn < 0.15 and lists:
        return ["read", name, "from", dice.choice(simple), "to", dice.choice(lists)]
    if turn < 0.3 and lists:
        return ["each", name, "from", dice.choice(lists), "to", dice.choice(lists)]
    if turn < 0.42 and compounds:
        return ["pack", name, "from", dice.choice(simple + lists + compounds), "to", dice.choice(compounds)]
    return tool(dice, name, simple, lists + compounds, params)


def wild(dice):
    """A graph of types and makers by chance. Most of these are good."""
    words = dice.sample([name for name in NAMES if name != "text"], 9)
    simple, lists, compounds = words[:dice.randrange(2, 6)], words[5:5 + dice.randrange(3)], words[7:7 + dice.randrange(3)]
    params = dice.sample(["d", "opt", "a"], dice.randrange(3))
    decls = [["param", name] for name in params]
    for k, name in enumerate(simple):
        supers = dice.sample(simple[:k], dice.randrange(0, min(k, 2) + 1)) if dice.random() < 0.5 else []
        decls.append(["type", name, "simple"] + (["is"] + listed(supers) if supers else []))
    for k, name in enumerate(lists):
        decls.append(["type", name, "list", "of", dice.choice(simple)] + (["is", lists[0]] if k and dice.random() < 0.2 else []))
    for name in compounds:
        parts = [token for part in dice.sample("pqr", dice.randrange(1, 4)) for token in (part, dice.choice(simple), ",")]
        decls.append(["type", name, "compound", "("] + parts[:-1] + [")"])
    decls += [["suffix", "." + name, name] for name in simple if dice.random() < 0.8]
    decls += [maker(dice, "m%d" % k, simple, lists, compounds, params) for k in range(dice.randrange(2, 11))]
    if dice.random() < 0.5:
        dice.shuffle(decls)
    return decls


def joined():
    """Texts that are made of the texts that they name: a row of them comes near the greatest height, and one that names itself has a chain."""
    return declared("""type t simple | type u simple is t | type l list of t | suffix .t t | read rd from t to l
tool join 1 from l to u run "toy" "ld" """)


def graph(dice):
    return kits(dice) if dice.random() < 0.6 else wild(dice)


def steps(dice):
    """A long row of tools, so that objects come near the greatest height."""
    count = dice.randrange(60, 68)
    decls = [["type", "x%d" % k, "simple"] for k in range(count + 1)] + [["suffix", ".x", "x0"], ["suffix", ".y", "x3"]]
    return decls + [declared('tool t%d 1 from x%d to x%d run "toy" "ld"' % (k, k - 1, k))[0] for k in range(1, count + 1)]


def spelled(dice, decls, odd=0.0):
    """A text of declarations. `odd` says how often other blanks or a comment stand between tokens than they have to."""
    text = []
    for decl in decls:
        tokens = decl + [";"]
        for k, token in enumerate(tokens):
            needs = k and token not in (";", ",", "(", ")") and tokens[k - 1] not in (",", "(", ")")
            text.append(blank(dice) if dice.random() < odd else "")
            text.append(" " if needs else "")
            text.append(token)
        text.append("\n")
    return "".join(text).encode()


def blank(dice):
    return dice.choice([" ", "\t", "\r\n", "\n", "\r", "  ", "# a ; type \"\n", "#\n"])
