"""What isn't as it has to be in a row."""
import contextlib
import os
import shutil
import subprocess

from acts import become_other
from bench import MOST, Session, named
from told import ask, body_of, kill, put, shown

LINES = {1: "odin: input ended inside a put", 3: "odin: disk fault", 4: "odin: out of memory", 5: "odin: output fault", 6: "odin: read fault"}


def states_of(commands, replies):
    """The sources after each command, as far as it was replied to, and after each further one."""
    states = [{}]
    for place, command in enumerate(commands):
        states.append(dict(states[-1]))
        refused = place < len(replies) and replies[place].startswith((b"refused", b"no file"))
        if not refused:
            command.apply(states[-1])
    return states


def faults_of_end(row, session):
    last, found = session.last, named(session.status)
    if not any(found == it.partition(" ")[0] and last.startswith(it.partition(" ")[2]) for it in row.wanted):
        yield "ends with %s, its last reply %r, and not %s" % (found, last[:60], " or ".join(row.wanted))
    line = "" if session.status is None or session.status < 0 else LINES.get(session.status, "")
    told = session.errors.split("\n")[-1] if row.is_loud and line else "" if row.is_loud else session.errors
    if told != ("" if row.is_silent else line):
        yield "says %r on standard error, and not %r" % (session.errors[-200:], line)


def is_right(command, reply, sources):
    """Whether a reply is that to a command after which these are the sources."""
    if command.line.startswith("put "):
        return reply == command.line.encode() + b"\n"
    body = command.ask and body_of(sources, command.ask)
    return not reply.startswith(b"refused") if body is None else reply == shown(body)


def faults_of_replies(row, session, states):
    """Replies that aren't those to the commands over the sources at them. Those of the earlier session come first among the states."""
    for command, reply, sources in zip(row.commands, session.replies, states[len(row.first) + 1 :]):
        if not is_right(command, reply, sources) and not (row.refuses and reply.startswith(b"refused")):
            yield "%r is answered by %r" % (command.line, reply[:80])


def acknowledged(row, session):
    """The asks that were answered, and after which nothing was edited, with their replies."""
    found = []
    for command, reply in zip(row.commands, session.replies):
        found = [*found, (command, reply)] if command.ask else []
    return [(command, reply) for command, reply in found if reply.startswith(b"object")]


def sources_in(names, replies):
    """The sources by the replies to asks for them."""
    return {name: kill.text_in(reply) for name, reply in zip(names, replies) if reply.startswith(b"object ok")}


def faults_of_next(bench, row, folder, session, states):
    """What the next session, without the limit, doesn't find as it has to be."""
    count = len(row.first) + len(session.replies)
    allowed = [{}] if row.is_lost else states[count:] if row.hangs_up else states[count : count + 2]
    names = sorted({name for it in allowed for name in it})
    answered = [] if row.is_lost else acknowledged(row, session)
    again = bench.serve(folder, [ask(it) for it in names] + [command for command, _ in answered], row)
    wrong = [it.line for (it, reply), found in zip(answered, again.replies[len(names) :]) if found != reply]
    if sources_in(names, again.replies) == states[count] and answered and (wrong or again.runs() > 0 or again.status != 0):
        yield "asked again, with status %s: %d tools are run, other answers to %s" % (named(again.status), again.runs(), wrong)
    new = [put("new.c", b"new %d\n" % bench.rows), ask("new.c:o")]
    objects = [it + ":o" for it in names if it.endswith(".c")] + [it + ":all" for it in names if it.endswith(".list")]
    commands = [ask(it) for it in names + objects] + new
    after = bench.serve(folder, commands, row)
    if after.status != 0 or after.errors or len(after.replies) != len(commands):
        yield "the next session ends with %s, says %r, and has %d replies to %d" % (
            named(after.status), after.errors, len(after.replies), len(commands))
        return
    sources = sources_in(names, after.replies)
    if sources not in allowed:
        yield "the next session has %s, and not what is after %d or one more of the commands" % (sorted(sources.items())[:9], len(session.replies))
    for command, reply in zip(commands, after.replies):
        if not is_right(command, reply, {**sources, "new.c": new[0].text}):
            yield "the next session answers %r by %r" % (command.line, reply[:80])


def faults_of_files(bench, folder, before, is_after):
    """What stands in the folder that shouldn't: after the next session, and at once where no signal ended the session."""
    if not os.path.isdir(folder):
        return
    beside = set(os.listdir(folder)) - before - {"odin.store", "odin.work"}
    work = os.listdir(folder + "/odin.work") if os.path.isdir(folder + "/odin.work") else []
    if beside or work or os.listdir(bench.beside):
        yield "%s stands there: %s" % ("after the next session" if is_after else "at its end", [*beside, *work, *os.listdir(bench.beside)])


def faults_of(bench, row):
    """What isn't as it is wanted in a row, and how its session ended."""
    folder = bench.folder(row)
    if row.on_loop is not None:
        folder = put_on_loop(bench, row, folder)
    before = set(os.listdir(folder))
    session = Session(bench, folder, ["--jobs", str(row.jobs), "graph"], row.commands, row, row.env, row.under)
    row.during(session)
    session.end()
    at_end = [] if row.lingers or session.status is None or session.status < 0 else bench.running()
    if row.on_loop is not None:
        bench.empty_rest()
    if row.is_lost:
        if os.path.exists(folder):
            return ["the folder is there again"], session
        bench.folder(row)
    if row.after:
        row.after(folder)
    states = states_of(row.first + row.commands, [b""] * len(row.first) + session.replies)
    faults = [*faults_of_end(row, session), *faults_of_replies(row, session, states)]
    if session.status is not None and session.status >= 0 and not row.leaves:
        faults += faults_of_files(bench, folder, before, False)
    if at_end:
        faults.append("%d child programs run at its end" % len(at_end))
    faults += faults_of_next(bench, row, folder, session, states)
    left = bench.left_running(row.stays)
    if left > row.stays:
        faults.append("%d child programs go on" % left)
    return faults + [*faults_of_files(bench, folder, before, True)], session


def put_on_loop(bench, row, folder):
    """The store, or the folder beside it, is a link to the small file system, of which so much is left. Gives the folder of the session."""
    inside = bench.empty_loop()
    if row.is_work_on_loop:
        os.symlink(folder + "/odin.store", inside + "/odin.store")
        shutil.copy(folder + "/graph", inside)
        folder = inside
    else:
        if os.path.exists(folder + "/odin.store"):
            shutil.move(folder + "/odin.store", inside)
        os.symlink(inside + "/odin.store", folder + "/odin.store")
    bench.fill(row.on_loop)
    return folder


# How the line of a status begins: what comes after a space at its end is of the system.
FILTER_LINES = {"odin_get": {3: "odin_get: cannot ", 4: "odin_get: out of memory"}, "odin": LINES,
                "odin_takes": {3: "odin_takes: cannot ", 4: "odin_takes: out of memory"}}


# what a file has that is written over, and what the object in it is (`OBJECT` of rows.py)
OLD, MADE = b"old\n", b"x" * 65536


def run_filter(bench, row, folder):
    """The status of a run that serves no session, none where it didn't end in time, and what it said."""
    under = [*row.under, *([become_other] if row.is_other else [])]
    words = [bench.programs[row.words[0]], *row.words[1:]]
    with open(row.output or os.devnull, "wb") as output:
        child = subprocess.Popen(words, cwd=folder, stdin=subprocess.PIPE, stdout=output, stderr=subprocess.PIPE, preexec_fn=lambda: [it() for it in under])
    try:
        errors, status = child.communicate(row.text, MOST)[1], child.returncode
    except subprocess.TimeoutExpired:
        child.kill()
        errors, status = child.communicate()[1], None
    return status, errors.decode(errors="replace").strip("\n")


def filter_faults(bench, row):
    """How a run that serves no session ended, and what isn't as it is wanted."""
    folder = bench.folder(row)
    before = {*os.listdir(folder), "made", "many"}
    is_file = "made" in row.words
    if is_file:
        with open(os.path.join(folder, "made"), "wb") as file:
            file.write(OLD)
        os.chmod(os.path.join(folder, "made"), 0o666)
    status, errors = run_filter(bench, row, folder)
    os.chmod(folder, 0o755)
    if status is not None and status < 0:
        before.add(".made.0")
    line = FILTER_LINES[row.words[0]].get(status, "") if row.says is None else row.says
    faults = []
    if named(status) not in row.wanted:
        faults.append("ends with %s, and not %s" % (named(status), " or ".join(row.wanted)))
    if not (errors.startswith(line) if line.endswith(" ") else errors == line):
        faults.append("says %r on standard error, and not %r" % (errors[-200:], line))
    if left := set(os.listdir(folder)) - before:
        faults.append("%s stands there" % sorted(left))
    if is_file:
        with open(os.path.join(folder, "made"), "rb") as file:
            held = file.read()
        if held != (MADE if status == 0 else OLD):
            faults.append("the file has %d bytes, %r" % (len(held), held[:20]))
    return named(status), faults
