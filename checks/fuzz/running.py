"""Runs of the built program over a folder, with the tool `toy` in PATH, and what differs between a run and the model."""
import os
import select
import shutil
import subprocess
import tempfile
from collections import Counter, namedtuple

import toys
from commands import replies_of, reply_end

TOP = os.path.dirname(os.path.dirname(os.path.dirname(os.path.abspath(__file__))))
CUT_SHORT = b"odin: input ended inside a put\n"
PATIENCE = 60

# what a session wrote, how it ended, and the lines in which its tools told their runs; of a session in steps how many lines stood after each command
Ran = namedtuple("Ran", "output status errors log marks", defaults=(None,))


class Difference(Exception):
    """Where the program and the model differ."""


def program_at(folder):
    """The program in a folder of crates."""
    path = os.path.join(os.path.abspath(folder or TOP + "/crates"), "odin/out/odin")
    if not os.path.exists(path):
        raise SystemExit("the program isn't built: " + path)
    return path


class Runs:
    """A folder of work, with the tool in it. What is planted is asked before and after each session."""

    def __init__(self, odin, plant=None, folder=None):
        self.odin, self.plant, self.count = odin, plant, 0
        self.work = tempfile.mkdtemp(prefix="fuzz-", dir=folder or ("/dev/shm" if os.access("/dev/shm", os.W_OK) else None))
        os.mkdir(self.work + "/bin")
        toys.build(self.work + "/bin")

    def remove(self):
        shutil.rmtree(self.work, ignore_errors=True)

    def folder(self, name, files=()):
        """A new folder for sessions over one store."""
        path = os.path.join(self.work, name)
        shutil.rmtree(path, ignore_errors=True)
        os.makedirs(path + "/folder")
        for file_name, text in dict(files).items():
            with open(os.path.join(path, os.fsdecode(file_name)), "wb") as file:
                file.write(text)
        return path

    def began(self, folder, graph):
        """The log and the environment of the next session. Tools of a killed one may run on, so each session has a log of its own."""
        with open(folder + "/graph", "wb") as file:
            file.write(graph)
        self.count += 1
        log = "%s/log%d" % (self.work, self.count)
        open(log, "w", encoding="ascii").close()
        return log, dict(os.environ, LOG=log, PATH=self.work + "/bin:" + os.environ["PATH"])

    def popen(self, folder, jobs, env):
        words = [self.odin, "--jobs", str(jobs), "graph"]
        return subprocess.Popen(words, cwd=folder, env=env, stdin=subprocess.PIPE, stdout=subprocess.PIPE, stderr=subprocess.PIPE)

    def session(self, folder, graph, pieces, jobs, in_steps=False):
        """A session over the store of a folder: all of its input at once, or each command once the one before has its reply."""
        log, env = self.began(folder, graph)
        if self.plant:
            self.plant.before(folder)
        child = self.popen(folder, jobs, env)
        if in_steps:
            ran = self.in_steps(child, pieces, log)
        else:
            try:
                output, errors = child.communicate(b"".join(text for _, text in pieces), timeout=PATIENCE)
            except subprocess.TimeoutExpired:
                child.kill()
                raise Difference("the session has not ended after %d seconds" % PATIENCE) from None
            ran = Ran(output, child.returncode, errors, lines_in(log))
        os.remove(log)
        return self.plant.behind(ran, folder, pieces) if self.plant else ran

    def in_steps(self, child, pieces, log):
        """Gives each command once the one before has its reply. Behind the last one the input ends, since that may have no LF."""
        output, marks = b"", []
        for k, (number, text) in enumerate(pieces, 1):
            try:
                child.stdin.write(text)
                child.stdin.flush()
                if k == len(pieces):
                    child.stdin.close()
            except BrokenPipeError:
                break
            while number and len(replies_of(output)) < number:
                if not select.select([child.stdout], [], [], PATIENCE)[0]:
                    child.kill()
                    raise Difference("no reply after %d seconds to %r" % (PATIENCE, text[:200]))
                more = os.read(child.stdout.fileno(), 1 << 20)
                output += more
                if not more:
                    break
            marks.append(len(lines_in(log)))
        return Ran(output + self.rest(child), child.returncode, child.stderr.read(), lines_in(log), marks)

    def rest(self, child):
        """What a session still writes once its input has ended."""
        try:
            child.stdin.close()
        except BrokenPipeError:
            pass
        rest = child.stdout.read()
        child.wait()
        return rest


def lines_in(path):
    with open(path, "rb") as file:
        return file.read().splitlines()


def pieces_of(found, text):
    """The parts of an input for its commands, each with the number of replies that stand after it; what is left is one more."""
    pieces, at, replies = [], 0, 0
    for command, reply in found:
        replies += reply is not None
        pieces.append((replies if reply else 0, text[at:command.end]))
        at = command.end
    return pieces + ([(0, text[at:])] if text[at:] else [])


# ---- comparing

def compare(found, output):
    """Compares the replies of the model with what the program wrote."""
    at = 0
    for command, reply in found:
        if reply is None:
            continue
        exact = reply.shown()
        end = at + len(exact) if output.startswith(exact, at) and reply.fault(exact) is None else reply_end(output, at)
        got = output[at:end]
        fault = reply.fault(got)
        if fault:
            raise Difference("to %s: %r is written, and %s" % (shown(command), got[:2000], fault))
        at = end
    if output[at:]:
        raise Difference("after the last reply stands %r" % output[at:at + 300])


def shown(command):
    size = b"" if command.text is None or command.word != "put" else b" %d" % len(command.text)
    return "%s %r" % (command.word, command.what + size)


def compare_runs(session, ran):
    """Compares the tools that were run with those that had to be run and those that might be. Learns from the log what is kept after it."""
    told = {toys.told_run(call): call for must, may, _ in session.starts for call in must | may}
    if ran.marks is not None:
        compare_steps(session, ran, told)
    else:
        compare_whole(session, ran, told)
    log = set(ran.log)
    session.kept |= {call for call in session.maybe if toys.told_run(call) in log}
    session.maybe = set()


def unknown(line):
    return Difference("a tool was run that isn't wanted: %s" % line.decode())


def compare_whole(session, ran, told):
    least, most = Counter(), Counter()
    for must, may, _ in session.starts:
        least.update(must)
        most.update(must | may)
    for line, count in Counter(ran.log).items():
        if line not in told:
            raise unknown(line)
        call = told[line]
        if count > (1 if session.outcome(call) else most[call]):
            raise Difference("a tool was run %d times: %s" % (count, line.decode()))
    missing = [line for line, call in told.items() if least[call] and call.words[0] == b"toy" and line not in ran.log]
    if missing:
        raise Difference("a tool was not run: %s" % missing[0].decode())


def compare_steps(session, ran, told):
    """The same command by command: what an ask left open is told by the log, so the next one is compared with what is kept by then."""
    start, done = 0, set()
    for (must, may, is_answered), mark in zip(session.starts, ran.marks):
        found, start = ran.log[start:mark], mark
        calls, wanted = [told.get(line) for line in found], (must | may) - done
        for line, call in zip(found, calls):
            if call not in wanted or calls.count(call) > 1:
                raise unknown(line)
        left = wanted - set(calls) if is_answered else set()
        if left:
            raise Difference("a tool was not run: %s" % min(map(toys.told_run, left)).decode())
        done |= {call for call in calls if session.outcome(call)}
    if ran.log[start:]:
        raise unknown(ran.log[start])
