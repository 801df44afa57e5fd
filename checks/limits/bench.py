"""The programs, the folders of rows, and the sessions that are run in them."""
import contextlib
import os
import select
import shutil
import signal
import subprocess
import tempfile
import threading
import time

from acts import IS_ROOT, OTHER, at_once, become_other
from told import GRAPH, TAKEN, kill

# how long a session may take, and how long what it started may go on after it
MOST, AFTER = 20, 6


def take_away(acts):
    """Done by the child before it is the program. What fails here is told, since its parent isn't told what it was."""
    for act in acts:
        try:
            act()
        except OSError as error:
            os.write(2, b"limits: nothing was taken away: %s\n" % str(error).encode())
            raise


class Session:
    """A run of odin: commands are said to it and replies are read, as far as its row lets it."""

    def __init__(self, bench, folder, words, commands, row=None, env=(), under=()):
        self.folder, self.commands, self.output, self.said, self.feeders = folder, commands, b"", bytearray(), []
        self.log = bench.new_log()
        env = {**os.environ, "LIMITS": bench.mark, "RUNS": self.log, "TMPDIR": bench.beside, "HOME": bench.beside, "PAUSE": "", **dict(env)}
        acts = list(under) + ([become_other] if row and row.is_other else [])
        self.until = time.monotonic() + MOST
        self.child = subprocess.Popen(
            [bench.programs["odin"], *words], cwd=folder, env=env, stdin=subprocess.PIPE, stdout=subprocess.PIPE, stderr=subprocess.PIPE, bufsize=0,
            start_new_session=True, preexec_fn=lambda: take_away(acts))
        self.listener = threading.Thread(target=self.child.stderr.close if row and row.is_deaf else self.listen, daemon=True)
        self.listener.start()

    def listen(self):
        while more := self.child.stderr.read(65536):
            self.said += more[: max(0, 65536 - len(self.said))]

    def say(self, commands):
        whole = b"".join(it.bytes() for it in commands)
        before = self.feeders[-1:]
        self.feeders.append(threading.Thread(target=self.feed, args=(whole, before), daemon=True))
        self.feeders[-1].start()

    def feed(self, whole, before):
        for it in before:
            it.join()
        with contextlib.suppress(OSError, ValueError):
            while whole:
                whole = whole[self.child.stdin.write(whole) :]

    def close(self):
        """Ends the input after all that is said."""
        def end(before=self.feeders[-1:]):
            for it in before:
                it.join()
            with contextlib.suppress(OSError):
                self.child.stdin.close()
        self.feeders.append(threading.Thread(target=end, daemon=True))
        self.feeders[-1].start()

    def read(self, count=None):
        """Reads so many replies, or all to the end."""
        out = self.child.stdout
        while not out.closed and (count is None or len(kill.replies_of(self.output)) < count):
            if not select.select([out], [], [], max(0, self.until - time.monotonic()))[0] or not (more := os.read(out.fileno(), 1 << 20)):
                break
            self.output += more

    def send(self, name, to_all=False):
        with contextlib.suppress(ProcessLookupError):
            (os.killpg if to_all else os.kill)(self.child.pid, getattr(signal, name))

    def end(self):
        """Waits for the end: the status, none where it didn't come in time."""
        with contextlib.suppress(subprocess.TimeoutExpired):
            self.child.wait(max(0, self.until - time.monotonic()))
        late = self.child.poll() is None
        if late:
            self.child.kill()
            self.child.wait()
        self.listener.join(0.3)
        self.status = None if late else self.child.returncode
        self.errors = bytes(self.said).decode(errors="replace").strip("\n")
        self.replies = kill.replies_of(self.output)
        self.last = self.replies[-1].decode(errors="replace") if self.replies else ""
        if self.status in (2, 7, 8, 9):
            # a last line is no reply
            del self.replies[-1:]
        for it in (self.child.stdin, self.child.stdout):
            with contextlib.suppress(OSError):
                it.close()
        return self

    def runs(self):
        return os.path.getsize(self.log)


def named(status):
    return "no end" if status is None else signal.Signals(-status).name if status < 0 else str(status)


class Bench:
    """The programs, and a folder in which rows have folders of their own."""

    def __init__(self, built, work):
        self.work, self.rows, self.logs, self.stores, self.loop = work, 0, 0, {}, None
        os.chmod(work, 0o755)
        self.programs = {name: shutil.copy("%s/%s/out/%s" % (built, name, name), work) for name in ("odin", "odin_get", "odin_takes")}
        self.next_row()

    def next_row(self):
        """Leaves nothing of the row before."""
        for name in ("row", "beside"):
            shutil.rmtree("%s/%s%d" % (self.work, name, self.rows), ignore_errors=True)
        self.rows += 1
        self.mark = "%d.%d" % (os.getpid(), self.rows)
        self.beside = "%s/beside%d" % (self.work, self.rows)
        os.mkdir(self.beside)
        os.chmod(self.beside, 0o777)

    def new_log(self):
        self.logs += 1
        path = "%s/log%d" % (self.work, self.logs)
        open(path, "w").close()
        os.chmod(path, 0o666)
        return path

    def folder(self, row=None):
        """The folder of this row, made anew."""
        files = {"graph": GRAPH.encode(), "t.c": TAKEN}
        if row and row.first:
            files["odin.store"] = self.store_of(row.first)
        path = "%s/row%d" % (self.work, self.rows)
        shutil.rmtree(path, ignore_errors=True)
        os.mkdir(path)
        for name, body in files.items():
            with open(os.path.join(path, name), "wb") as file:
                file.write(body)
        if row and row.is_other and IS_ROOT:
            for name in [".", *files]:
                os.chown(os.path.join(path, name), OTHER, OTHER)
        return path

    def serve(self, folder, commands, row=None):
        session = Session(self, folder, ["graph"], commands, row)
        at_once(session)
        return session.end()

    def store_of(self, commands, more=()):
        """The store that a session leaves, and one after it."""
        key = b"".join(it.bytes() for it in commands), b"".join(it.bytes() for it in more)
        if key not in self.stores:
            path = tempfile.mkdtemp(dir=self.work)
            shutil.copy(self.folder() + "/graph", path)
            for part in (commands, more):
                if part and self.serve(path, part).status != 0:
                    raise SystemExit("limits: a session without a limit doesn't end well")
            with open(path + "/odin.store", "rb") as file:
                self.stores[key] = file.read()
        return self.stores[key]

    def places(self, first, commands, count=20):
        """Lengths of the store at which it may grow no more, from what it has at first to what it would have."""
        low = len(self.store_of(first)) if first else 0
        high = len(self.store_of(first, commands))
        return [low + (high - low) * k // count for k in range(count)]

    def mount(self):
        """A small file system in a file: where it is, none where there can't be one."""
        if self.loop is None:
            image, self.loop = self.work + "/image", self.work + "/loop"
            os.mkdir(self.loop)
            with open(image, "wb") as file:
                file.truncate(4 << 20)
            steps = [["mkfs.ext2", "-q", "-F", "-m", "0", "-b", "1024", image], ["mount", "-o", "loop", image, self.loop]]
            try:
                is_there = IS_ROOT and all(subprocess.run(it, capture_output=True).returncode == 0 for it in steps)
            except OSError:
                is_there = False
            if not is_there:
                self.loop = ""
        return self.loop

    def close(self):
        if self.loop:
            subprocess.run(["umount", self.loop], check=False)

    def empty_loop(self):
        """A new folder of the small file system, on which nothing else is."""
        for name in os.listdir(self.loop):
            shutil.rmtree(os.path.join(self.loop, name)) if os.path.isdir(os.path.join(self.loop, name)) else os.remove(os.path.join(self.loop, name))
        os.mkdir(self.loop + "/row")
        return self.loop + "/row"

    def empty_rest(self):
        os.remove(self.loop + "/rest")

    def fill(self, left):
        """Leaves so many KiB on the small file system, beside what is there."""
        with open(self.loop + "/rest", "wb", buffering=0) as file:
            for size in (65536, 1024):
                with contextlib.suppress(OSError):
                    while file.write(bytes(size)):
                        pass
        there = os.statvfs(self.loop)
        os.truncate(self.loop + "/rest", max(0, os.path.getsize(self.loop + "/rest") - max(0, left - there.f_bavail) * 1024))

    def running(self):
        """The child programs of this row that run."""
        found = []
        for pid in filter(str.isdigit, os.listdir("/proc")):
            with contextlib.suppress(OSError):
                if ("LIMITS=%s\0" % self.mark).encode() in open("/proc/%s/environ" % pid, "rb").read():
                    found.append(int(pid))
        return found

    def left_running(self, allowed):
        """How many go on for longer than they may; they are ended."""
        until = time.monotonic() + AFTER
        while len(left := self.running()) > allowed and time.monotonic() < until:
            time.sleep(0.02)
        for pid in left:
            with contextlib.suppress(OSError):
                os.kill(pid, signal.SIGKILL)
        return len(left)
