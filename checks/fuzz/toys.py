"""Calls, the jobs that they are, what a tool makes of a job, and the outcome of that; and the tool itself, a program in C.

The call, the job and the outcome are written from the rules alone. The tool `toy` is the fuzzers' own, so what it makes is told here twice: in C for
the program to run, in Python for the model. It tells each run in the file that LOG names, in one line: all of its file `call`, a sum of the bodies
of its inputs, and how many files stand in its folder.

The second word chooses what it makes: `scan` the rest of each line of its first input that begins with `include `, `names` of each line of any
input that begins with `use `, `cc` the values of its parameters and each line that says nothing to a tool, `ld` all inputs as they are, `split` the
lines in turn for each output. A third word is a number of milliseconds below which it sleeps. The first line of the first input that begins with
`!` and the second word tells how it ends.
"""
import os
import subprocess
import zlib
from collections import namedtuple

from texts import BODY, escaped, message_lines

Call = namedtuple("Call", "tool version words params parts outs")
# an outcome: the status as its place in STATUSES, the own lines as pairs of level and text, the outputs as pairs of name and body
Outcome = namedtuple("Outcome", "status lines outputs")
STATUSES = [b"ok", b"warning", b"error", b"abort"]
OK, WARNING, ERROR, ABORT = range(4)

PROGRAM = r"""
#include <dirent.h>
#include <fcntl.h>
#include <signal.h>
#include <stdint.h>
#include <stdio.h>
#include <stdlib.h>
#include <string.h>
#include <unistd.h>

typedef struct { char *at; size_t len; } Text;
static Text bodies[20000];
static char *outs[300];
static int inputs, outputs;

static Text read_file(const char *name) {
    Text text = {malloc(1 << 16), 0};
    size_t room = 1 << 16;
    FILE *file = fopen(name, "r");
    if (!file) exit(99);
    for (size_t n; (n = fread(text.at + text.len, 1, room - text.len - 1, file)) > 0;) {
        text.len += n;
        if (text.len + 1 == room) text.at = realloc(text.at, room *= 2);
    }
    fclose(file);
    text.at[text.len] = 0;
    return text;
}

static uint32_t sum = 0xffffffff;
static void add(const char *at, size_t len) {
    while (len--) {
        sum ^= (unsigned char)*at++;
        for (int k = 0; k < 8; k++) sum = sum >> 1 ^ (sum & 1 ? 0xedb88320 : 0);
    }
}

/* The next line of a text from a place on, without its LF, or none. */
static int line(Text text, size_t *place, Text *found) {
    if (*place >= text.len) return 0;
    char *end = memchr(text.at + *place, '\n', text.len - *place);
    found->at = text.at + *place;
    found->len = end ? (size_t)(end - found->at) : text.len - *place;
    *place += found->len + 1;
    return 1;
}

static int begins(Text text, const char *with) { return text.len >= strlen(with) && memcmp(text.at, with, strlen(with)) == 0; }
static void tell(Text text, size_t from, FILE *out) {
    fwrite(text.at + from, 1, text.len - from, out);
    fputc('\n', out);
}

static void log_run(Text call) {
    char *told = malloc(4 * call.len + 100), head[40];
    size_t len = 0;
    int files = 0;
    DIR *folder = opendir(".");
    while (readdir(folder)) files++;
    for (int k = 0; k < inputs; k++) {
        add(head, sprintf(head, "%zu\n", bodies[k].len));
        add(bodies[k].at, bodies[k].len);
    }
    for (size_t k = 0; k < call.len; k++) {
        unsigned char byte = call.at[k];
        len += byte == '\\' ? sprintf(told + len, "\\\\") : byte < 32 || byte > 126 ? sprintf(told + len, "\\x%02x", byte) : sprintf(told + len, "%c", byte);
    }
    len += sprintf(told + len, " %08x %d\n", ~sum, files - 2);
    int log = open(getenv("LOG"), O_WRONLY | O_APPEND | O_CREAT, 0666);
    if (write(log, told, len) != (ssize_t)len) exit(98);
}

static void make(const char *mode, Text call, int number, FILE *out) {
    Text found;
    size_t place = 0;
    int count = 0;
    if (strcmp(mode, "cc") == 0)
        while (line(call, &place, &found))
            if (begins(found, "param ")) tell(found, 6, out);
    for (int k = 0; k < inputs && !(k && strcmp(mode, "scan") == 0); k++) {
        place = 0;
        if (strcmp(mode, "ld") == 0) fwrite(bodies[k].at, 1, bodies[k].len, out);
        else while (line(bodies[k], &place, &found)) {
            if (strcmp(mode, "scan") == 0) { if (begins(found, "include ")) tell(found, 8, out); }
            else if (strcmp(mode, "names") == 0) { if (begins(found, "use ")) tell(found, 4, out); }
            else if (strcmp(mode, "split") == 0) { if (count++ % outputs == number) tell(found, 0, out); }
            else if (!begins(found, "include ") && !begins(found, "use ") && !begins(found, "//") && !begins(found, "!")) tell(found, 0, out);
        }
    }
}

/* What stands after `!MODE ` in the first line of the first input that begins so, or the empty text. */
static char *asked(const char *mode) {
    static char begin[40];
    Text found;
    size_t place = 0;
    sprintf(begin, "!%s ", mode);
    while (inputs && line(bodies[0], &place, &found))
        if (begins(found, begin)) return strndup(found.at + strlen(begin), found.len - strlen(begin));
    return "";
}

static void warn(const char *mode, const char *told) {
    Text found;
    FILE *out = fopen("warnings", "w");
    for (int k = 0; k < inputs && strcmp(mode, "scan") && strcmp(mode, "ld"); k++)
        for (size_t place = 0; line(bodies[k], &place, &found);)
            if (begins(found, "//!")) tell(found, 3, out);
    if (strncmp(told, "many ", 5) == 0) for (int k = 1; k <= atoi(told + 5); k++) fprintf(out, "m%d\n", k);
    if (strcmp(told, "long") == 0) for (int k = 0; k < 1001; k++) fputc('y', out);
    if (strcmp(told, "raw") == 0) fwrite("\0\t\\\177\377\r\n\r\n\rx\r\r\nlast\r", 1, 19, out);
    fclose(out);
}

int main(int count, char **words) {
    char *mode = words[1];
    Text call = read_file("call"), found;
    for (size_t place = 0; line(call, &place, &found);) {
        char *text = strndup(found.at, found.len), file[40];
        if (begins(found, "out ")) outs[outputs++] = text + 4;
        if (begins(found, "part ") && sscanf(text, "part %*d %39s", file) == 1 && strcmp(file, "-")) bodies[inputs++] = read_file(file);
    }
    log_run(call);
    char *told = asked(mode);
    if (count > 2 && atoi(words[2])) usleep(~sum % (1000 * atoi(words[2])));
    for (int k = 0; k < outputs; k++) {
        if (strcmp(told, "none") == 0 || (strncmp(told, "none ", 5) == 0 && strcmp(told + 5, outs[k] + 4) == 0)) continue;
        FILE *out = fopen(outs[k], "w");
        make(mode, call, k, out);
        fclose(out);
        if (k == 0 && strcmp(told, "big") == 0 && truncate(outs[k], (1 << 24) + 1)) return 97;
    }
    if (strcmp(told, "quiet")) warn(mode, told);
    if (strcmp(told, "lost") == 0) fclose(fopen("no-outcome", "w"));
    if (strcmp(told, "signal") == 0) kill(getpid(), SIGKILL);
    return strncmp(told, "exit ", 5) == 0 ? atoi(told + 5) : 0;
}
"""


def build(folder):
    """Makes the tool in a folder."""
    with open(os.path.join(folder, "toy.c"), "w", encoding="ascii") as file:
        file.write(PROGRAM)
    subprocess.run(["gcc", "-O1", "-w", "-o", os.path.join(folder, "toy"), os.path.join(folder, "toy.c")], check=True)


# ---- jobs

def call_text(call):
    """The file `call` of a call's job."""
    lines = [b"odin 1", b"tool %s %s" % (call.tool, call.version)] + [b"param %s %s" % pair for pair in call.params]
    for number, (slot, label, body) in enumerate(call.parts, 1):
        lines.append(b"part %d %s %s" % (slot, b"-" if body is None else b"i%d" % number, label))
    return b"".join(line + b"\n" for line in lines + [b"out out." + out for out in call.outs])


def told_run(call):
    """The line in which the tool tells a run."""
    bodies = [body for _, _, body in call.parts if body is not None]
    total = zlib.crc32(b"".join(b"%d\n" % len(body) + body for body in bodies))
    return b"%s %08x %d" % (escaped(call_text(call)), total, 1 + len(bodies))


# ---- what the tool makes

def lines(text):
    found = text.split(b"\n")
    return found[:-1] if found[-1] == b"" else found


def rests(bodies, begin):
    return b"".join(line[len(begin):] + b"\n" for body in bodies for line in lines(body) if line.startswith(begin))


def made(mode, call, bodies, number):
    if mode == b"scan":
        return rests(bodies[:1], b"include ")
    if mode == b"names":
        return rests(bodies, b"use ")
    if mode == b"ld":
        return b"".join(bodies)
    every = [line for body in bodies for line in lines(body)]
    if mode == b"split":
        return b"".join(line + b"\n" for k, line in enumerate(every) if k % len(call.outs) == number)
    values = b"".join(b"%s %s\n" % pair for pair in call.params)
    return values + b"".join(line + b"\n" for line in every if not line.startswith((b"include ", b"use ", b"//", b"!")))


def toy(call):
    """The end of the tool, a status or none for a signal, and the files that it leaves; or none where its run doesn't count."""
    mode, bodies = call.words[1], [body for _, _, body in call.parts if body is not None]
    told = next((line[len(mode) + 2:] for line in lines(bodies[0]) if line.startswith(b"!" + mode + b" ")), b"") if bodies else b""
    files = {}
    if told == b"lost":
        return None
    for number, out in enumerate(call.outs):
        if told not in (b"none", b"none " + out):
            body = made(mode, call, bodies, number)
            files[b"out." + out] = body if number or told != b"big" else body.ljust(BODY + 1, b"\0")
    warned = rests(bodies, b"//!") if mode not in (b"scan", b"ld") else b""
    if told.startswith(b"many "):
        warned += b"".join(b"m%d\n" % k for k in range(1, int(told[5:]) + 1))
    warned += {b"long": b"y" * 1001, b"raw": b"\0\t\\\177\377\r\n\r\n\rx\r\r\nlast\r"}.get(told, b"")
    if told != b"quiet":
        files[b"warnings"] = warned
    return None if told == b"signal" else int(told[5:]) if told.startswith(b"exit ") else 0, files


# ---- outcomes

def outcome_of(call, end, files):
    """What a call comes to, by how its tool ended and what that left."""
    level = {0: WARNING, 1: ERROR}.get(end, ABORT)
    told = [(level, line) for line in message_lines(files.get(b"warnings", b""))]
    if end is None:
        return Outcome(ABORT, told + [(ABORT, b"tool %s ended by a signal" % call.tool)], [])
    if end > 1:
        return Outcome(ABORT, told + [(ABORT, b"tool %s ended with status %d" % (call.tool, end))], [])
    bodies = [(out, files.get(b"out." + out)) for out in call.outs]
    faults = [(ABORT, b"no output " + out if body is None else b"output %s too long" % out) for out, body in bodies if body is None or len(body) > BODY]
    if faults:
        return Outcome(ABORT, told + faults, [])
    return Outcome(ERROR if end == 1 else WARNING if told else OK, told, bodies)


def run(call):
    """The outcome of a call, or none where the tool isn't there or leaves none."""
    left = toy(call) if call.words[0] == b"toy" else None
    return left and outcome_of(call, *left)
