"""What is taken away from a session, and what happens while it is served."""
import os
import resource
import shutil
import signal
import time

from told import GRAPH

# a user that has no other program, so that its processes can be counted
OTHER = 64123
IS_ROOT = os.getuid() == 0


# ---- what is taken away: done by the child, in the folder, before it is the program

def limit(kind, most):
    number = getattr(resource, "RLIMIT_" + kind)
    return lambda: resource.setrlimit(number, (most, resource.getrlimit(number)[1]))


def deaf(name):
    return lambda: signal.signal(getattr(signal, name), signal.SIG_IGN)


def closed(*numbers):
    return lambda: [os.close(number) for number in numbers]


def chmod(path, mode):
    return lambda: os.chmod(path, mode)


def become_other():
    if os.getuid() == 0:
        os.setgroups([])
        os.setgid(OTHER)
        os.setuid(OTHER)


# ---- what happens while a session is served

def at_once(session):
    session.say(session.commands)
    session.close()
    session.read()


def midway(act):
    """The second half of the commands comes once the replies to the first are there and something was done."""
    def during(session):
        half = len(session.commands) // 2
        session.say(session.commands[:half])
        session.read(half)
        act(session)
        session.say(session.commands[half:])
        session.close()
        session.read()
    return during


def signalled(name, replies, after, to_all=False, is_open=False):
    """A signal comes a while after so many replies: to the session, or to all of its group as a terminal sends it."""
    def during(session):
        session.say(session.commands)
        if not is_open:
            session.close()
        session.read(replies)
        time.sleep(after)
        session.send(name, to_all)
        session.read()
    return during


def stopped(replies, time_of_stop):
    """The session is stopped for a while."""
    def during(session):
        session.say(session.commands)
        session.close()
        session.read(replies)
        session.send("SIGSTOP")
        time.sleep(time_of_stop)
        session.send("SIGCONT")
        session.read()
    return during


def unread(session):
    """Nobody reads what a session writes, until it can't go on; then it is sent a signal."""
    session.say(session.commands)
    time.sleep(0.5)
    session.send("SIGTERM")
    session.read()


def hang_up(session):
    session.child.stdout.close()


def change_graph(session):
    with open(session.folder + "/graph", "w") as file:
        file.write("type c simple")


def spoil_graph():
    with open("graph", "w") as file:
        file.write("typ")


def remove_graph(session):
    os.remove(session.folder + "/graph")


def graph_back(folder):
    with open(folder + "/graph", "w") as file:
        file.write(GRAPH)


def lengthen(path):
    """The file has 1 TiB, of which nearly nothing takes room."""
    return lambda: os.truncate(path, 1 << 40)


def mask(rights):
    return lambda: os.umask(rights)


def make_many():
    os.mkdir("many")
    for number in range(300):
        open("many/%s%d.c" % (200 * "n", number), "w").close()


def make_tools(mode):
    os.mkdir("odin.work")
    os.chmod("odin.work", mode)
    if IS_ROOT:
        os.chown("odin.work", OTHER, OTHER)


def remove_tools(session):
    shutil.rmtree(session.folder + "/odin.work")


def hang_up_first(session):
    hang_up(session)
    at_once(session)


def set_times(seconds):
    def act(session):
        for name in os.listdir(session.folder):
            os.utime(os.path.join(session.folder, name), (seconds, seconds))
    return act


def move_away(session):
    os.rename(session.folder, session.folder + ".moved")


def move_back(folder):
    os.rename(folder + ".moved", folder)


def remove(session):
    shutil.rmtree(session.folder)


def give_rights(folder):
    os.chmod(folder, 0o755)
    for name in os.listdir(folder):
        os.chmod(os.path.join(folder, name), 0o755)
