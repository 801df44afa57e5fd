"""What `build` reads of a page and of its pictures."""
import html.parser
import zlib

ELEMENTS = {"html", "head", "meta", "title", "style", "body", "h1", "h2", "p", "table", "tr", "th", "td", "code", "svg", "g", "a", "line", "rect", "text"}
ATTRIBUTES = {"lang", "charset", "id", "class", "href", "viewbox", "x", "y", "x1", "y1", "x2", "y2", "width", "height"}


class PageReader(html.parser.HTMLParser):
    """Reads a page: the texts of its elements, each with their names, and what is wrong with it."""

    def __init__(self):
        super().__init__()
        self.open, self.texts, self.faults = [], [], []

    def handle_starttag(self, tag, attrs):
        if tag not in ELEMENTS or not {name for name, _ in attrs} <= ATTRIBUTES:
            self.faults.append("an element %s %r" % (tag, attrs))
        if tag != "meta":
            self.open.append([tag, ""])

    def handle_startendtag(self, tag, attrs):
        self.handle_starttag(tag, attrs)
        self.open.pop()

    def handle_endtag(self, tag):
        name, text = self.open.pop() if self.open else ("nothing", "")
        self.texts.append((name, text))
        if name == "code" and self.open:
            self.open[-1][1] += text
        if name != tag:
            self.faults.append("an end of %s in %s" % (tag, name))

    def handle_data(self, data):
        if self.open:
            self.open[-1][1] += data


def is_picture(path):
    """Whether a PNG has more than one colour."""
    with open(path, "rb") as file:
        data, at, packed = file.read(), 8, b""
    while at < len(data):
        size = int.from_bytes(data[at : at + 4], "big")
        packed += data[at + 8 : at + 8 + size] if data[at + 4 : at + 8] == b"IDAT" else b""
        at += 12 + size
    return len(set(zlib.decompress(packed))) > 20
