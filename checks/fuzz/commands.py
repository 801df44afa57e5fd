"""The commands that an input is cut into, and the replies to them as bytes. Written from the rules alone, and not from the program."""
from collections import namedtuple

from texts import BODY, escaped, is_name, read_number
from toys import STATUSES

LONGEST_LINE = 1024

# `end` is the place after the command's line and its bytes. The word is one of put, take, drop, ask, plan, sources, kept, quit, bad, empty, and
# cut for a put whose bytes aren't all there.
Command = namedtuple("Command", "word what text end", defaults=(b"", None, 0))


def read_line(line):
    """The word of a line, what stands after it, and of a put how many bytes belong to it."""
    if not line:
        return "empty", b"", 0
    if len(line) > LONGEST_LINE:
        return "bad", b"", 0
    word, space, rest = line.partition(b" ")
    if word in (b"ask", b"plan") and space:
        return word.decode(), rest, 0
    if word in (b"sources", b"kept", b"quit") and not space:
        return word.decode(), b"", 0
    words = rest.split(b" ") if space else []
    if word in (b"take", b"drop") and len(words) == 1 and words[0]:
        return word.decode(), words[0], 0
    if word == b"put" and len(words) == 2 and words[0] and read_number(words[1]) is not None:
        return "put", words[0], read_number(words[1])
    return "bad", b"", 0


def commands_of(text):
    """The commands of an input, to its end or to the one that ends it."""
    at, found = 0, []
    while at < len(text):
        end = text.find(b"\n", at)
        line = text[at:] if end < 0 else text[at:end]
        at = len(text) if end < 0 else end + 1
        word, what, size = read_line(line[:-1] if line.endswith(b"\r") else line)
        if word == "put" and at + size > len(text):
            return found + [Command("cut", end=len(text))]
        body = text[at:at + size]
        at += size
        found.append(Command(word, what, body, at))
        if word == "quit":
            break
    return found


def refused_edit(command):
    """The refusal of a put, a take or a drop by its name, and of a put by its size, or none."""
    if not is_name(command.what):
        return b"refused name\n"
    return b"refused size\n" if command.word == "put" and len(command.text) > BODY else None


def counted(head, lines):
    return b"%s %d\n" % (head, len(lines)) + b"".join(line + b"\n" for line in lines)


def object_reply(graph, view):
    """The reply to an ask that is answered."""
    kind = b"none" if view.kind is None else view.kind.encode()
    count = 0 if view.kind is None else len(view.value)
    reply = b"object %s %s %d\n" % (STATUSES[view.status], kind, count)
    if view.kind == "simple":
        reply += view.value + b"\n"
    elif view.kind == "list":
        reply += b"".join(graph.text_of(node) + b"\n" for node in view.value)
    elif view.kind == "compound":
        reply += b"".join(b"%s %d\n%s\n" % (name, len(body), body) for name, body in view.value)
    return reply + counted(b"messages", [b"%s %s %s" % (STATUSES[level], label, escaped(text)) for label, level, text in view.messages])


def skip_lines(text, at, count):
    """The place after so many lines, or none where the text ends before."""
    for _ in range(count):
        at = text.find(b"\n", at) + 1
        if at == 0:
            return None
    return at


def reply_end(text, at):
    """The place after the reply that begins at a place, or none where the text ends before."""
    end = skip_lines(text, at, 1)
    if end is None:
        return None
    words = text[at:end - 1].split(b" ")
    if words[0] == b"object" and len(words) == 4:
        return object_end(text, end, words[2], int(words[3]))
    is_counted = words[0] in (b"sources", b"plan") or words[:2] in ([b"refused", b"circular"], [b"refused", b"deep"])
    return skip_lines(text, end, int(words[-1])) if is_counted and words[-1].isdigit() else end


def object_end(text, at, kind, count):
    if kind == b"simple":
        at += count + 1
    for _ in range(count if kind in (b"list", b"compound") else 0):
        end = skip_lines(text, at, 1)
        if end is None:
            return None
        at = end if kind == b"list" else end + int(text[at:end].split(b" ")[-1]) + 1
    end = skip_lines(text, at, 1) if at <= len(text) else None
    return None if end is None else skip_lines(text, end, int(text[at:end].split(b" ")[-1]))


def replies_of(text):
    """The whole replies that a text begins with."""
    found, at = [], 0
    while at < len(text) and (end := reply_end(text, at)) is not None and end <= len(text):
        found.append(text[at:end])
        at = end
    return found
