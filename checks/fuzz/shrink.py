"""Makes an input that shows a difference smaller, for as long as it still shows one and there is time."""
import time


class Clock:
    def __init__(self, seconds):
        self.end = time.monotonic() + seconds

    def is_up(self):
        return time.monotonic() > self.end


def smaller(items, shows, clock):
    """A list of which no run of items can be left out: first halves are tried, then quarters, and so on."""
    items, size = list(items), max(1, len(items) // 2)
    while items and not clock.is_up():
        at, found = 0, False
        while at < len(items) and not clock.is_up():
            rest = items[:at] + items[at + size:]
            if shows(rest):
                items, found = rest, True
            else:
                at += size
        if size == 1 and not found:
            break
        size = max(1, size // 2)
    return items


def smaller_text(text, shows, clock):
    """The same of a text: by its lines, then by its bytes."""
    lines = smaller(text.splitlines(True), lambda rest: shows(b"".join(rest)), clock)
    parts = [bytes([byte]) for byte in b"".join(lines)]
    return b"".join(smaller(parts, lambda rest: shows(b"".join(rest)), clock)) if len(parts) <= 2000 else b"".join(lines)
