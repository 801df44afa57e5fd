"""What the scripts of rows share: a folder for each row, the built programs, and the count of what was as it is wanted."""
import os
import shutil
import subprocess
import sys
import tempfile

TOP = os.path.dirname(os.path.dirname(os.path.abspath(__file__)))
SECONDS = 120


def program(name):
    """The path of a built program: the one that a variable names, as ODIN or ODIN_GET, else the one that was built here."""
    return os.path.realpath(os.environ.get(name.upper(), os.path.join(TOP, "crates", name, "out", name)))


def put(name, text):
    text = text if isinstance(text, bytes) else text.encode()
    return b"put %s %d\n%s" % (name.encode(), len(text), text)


class Rows:
    """Rows, each in a folder of its own below one that is removed at the end."""

    def __init__(self, name):
        self.name, self.count, self.wrong = name, 0, 0
        self.work = tempfile.mkdtemp()

    def enter(self, files=None):
        """A new folder with these files, which is the current one then."""
        folder = tempfile.mkdtemp(dir=self.work)
        os.chdir(folder)
        for name, text in (files or {}).items():
            with open(name, "wb") as file:
                file.write(text if isinstance(text, bytes) else text.encode())
        return folder

    def same(self, what, got, wanted):
        self.count += 1
        if got != wanted:
            self.wrong += 1
            print("%s: %s: %r in place of %r" % (self.name, what, got, wanted), flush=True)

    def end(self):
        os.chdir("/")
        subprocess.run(["chmod", "-R", "u+rwx", self.work], stderr=subprocess.DEVNULL)
        shutil.rmtree(self.work, ignore_errors=True)
        print("%s: %d of %d rows are as they are wanted" % (self.name, self.count - self.wrong, self.count))
        sys.exit(self.wrong > 0)


def run(words, given=b"", **how):
    """The status of a program, and what it wrote and said."""
    how = {"stdout": subprocess.PIPE, "stderr": subprocess.PIPE, **how}
    ran = subprocess.run(words, input=given, timeout=SECONDS, **how)
    return ran.returncode, ran.stdout, ran.stderr
