#!/usr/bin/env python3
"""Prints sessions with the agent, frame by frame, as files of rows; rows.py says how they are written.

Frames are put together from section 5 of the Plan 9 manual, and the replies are written down here by hand, after the
order of the tests of each request in crates/agent_history/specs/Requests.antt. Nothing of the project's own code is used.
"""

import struct
import sys

from rows import key_lines, print_rows

NOTAG, NOFID = 0xFFFF, 0xFFFFFFFF


def frame(kind, tag, body=b""):
    return struct.pack("<IBH", 7 + len(body), kind, tag) + body


def text(s):
    b = s if isinstance(s, bytes) else s.encode()
    return struct.pack("<H", len(b)) + b


def qid(kind, path):
    return struct.pack("<BIQ", kind, 0, path)


QIDS = {"/": qid(0x80, 0), "factotum": qid(0x80, 1), "rpc": qid(0, 2), "ctl": qid(0, 3), "confirm": qid(0x20, 4),
        "needkey": qid(0x20, 5), "proto": qid(0, 6), "log": qid(0x20, 7)}
MODES = {"/": 0x8000016D, "factotum": 0x8000016D, "rpc": 0x1B6, "ctl": 0x180, "confirm": 0x20000180,
         "needkey": 0x20000180, "proto": 0x124, "log": 0x20000180}
FILES = ["rpc", "ctl", "confirm", "needkey", "proto", "log"]


def record(name):
    body = struct.pack("<HI", 0, 0) + QIDS[name] + struct.pack("<IIIQ", MODES[name], 0, 0, 0)
    body += text(name) + text("factotum") * 3
    return struct.pack("<H", len(body)) + body


# ---- requests
def version(msize=8216, name="9P2000", tag=NOTAG):
    return frame(100, tag, struct.pack("<I", msize) + text(name))


def auth(tag=1):
    return frame(102, tag, struct.pack("<I", 9) + text("ann") + text(""))


def attach(fid, tag=1, afid=NOFID):
    return frame(104, tag, struct.pack("<II", fid, afid) + text("ann") + text(""))


def flush(oldtag, tag=1):
    return frame(108, tag, struct.pack("<H", oldtag))


def walk(fid, newfid, *names, tag=1):
    return frame(110, tag, struct.pack("<IIH", fid, newfid, len(names)) + b"".join(text(n) for n in names))


def open_(fid, mode, tag=1):
    return frame(112, tag, struct.pack("<IB", fid, mode))


def create(fid, tag=1):
    return frame(114, tag, struct.pack("<I", fid) + text("new") + struct.pack("<IB", 0o600, 0))


def read(fid, offset, count, tag=1):
    return frame(116, tag, struct.pack("<IQI", fid, offset, count))


def write(fid, content, tag=1, offset=0):
    b = content if isinstance(content, bytes) else content.encode()
    return frame(118, tag, struct.pack("<IQI", fid, offset, len(b)) + b)


def clunk(fid, tag=1):
    return frame(120, tag, struct.pack("<I", fid))


def remove(fid, tag=1):
    return frame(122, tag, struct.pack("<I", fid))


def stat(fid, tag=1):
    return frame(124, tag, struct.pack("<I", fid))


def wstat(fid, tag=1):
    return frame(126, tag, struct.pack("<IH", fid, 2) + b"\0\0")


# ---- replies
def rversion(msize=8216, name="9P2000", tag=NOTAG):
    return frame(101, tag, struct.pack("<I", msize) + text(name))


def rattach(tag=1):
    return frame(105, tag, QIDS["/"])


def error(why, tag=1):
    return frame(107, tag, text(why))


def rflush(tag=1):
    return frame(109, tag)


def rwalk(*names, tag=1):
    return frame(111, tag, struct.pack("<H", len(names)) + b"".join(QIDS[n] for n in names))


def ropen(name, tag=1):
    return frame(113, tag, QIDS[name] + struct.pack("<I", 0))


def rread(content, tag=1):
    b = content if isinstance(content, bytes) else content.encode()
    return frame(117, tag, struct.pack("<I", len(b)) + b)


def rwrite(count, tag=1):
    return frame(119, tag, struct.pack("<I", count))


def rclunk(tag=1):
    return frame(121, tag)


def rstat(name, tag=1):
    b = record(name)
    return frame(125, tag, struct.pack("<H", len(b)) + b)


# ---- sessions: each begins with an agent that knows nothing
SESSIONS = []


def session(name, *steps):
    SESSIONS.append((name, [(s if len(s) == 3 else (0,) + s) for s in steps]))


V = (version(), rversion())
A = (attach(0), rattach())


def at(fid, *names):
    """Walks from the root to a file, from fid 0 to another."""
    return (walk(0, fid, *names), rwalk(*names))


def opened(fid, mode, *names):
    """Walks there and opens it."""
    return [at(fid, *names), (open_(fid, mode), ropen(names[-1] if names else "/"))]


CTL = ["factotum", "ctl"]
LOG = ["factotum", "log"]


def on(conn, steps):
    return [(conn,) + s for s in steps]


session("a version is answered by the lesser size", (version(100), error("msize too small", NOTAG)),
        (version(9000), rversion(8216)), (version(256), rversion(256)))
session("another version", (version(8216, "9P1999"), rversion(8216, "unknown")), (attach(0), error("no version")),
        (version(8216, "9P2000.u"), rversion()), A)
session("a version gives up the fids", V, A, (version(255), error("msize too small", NOTAG)),
        (stat(0), rstat("/")), (version(8216, "9P2000.L", 7), rversion(tag=7)), (stat(0), error("unknown fid")),
        A, (version(8216, "9P", 8), rversion(8216, "unknown", 8)), (stat(0), error("no version")))
session("over the size", (version(256), rversion(256)), (write(0, b"x" * 234), error("message over msize")),
        (write(0, b"x" * 233), error("unknown fid")))
session("no message", V, (bytes.fromhex("0c000000780100") + b"\0" * 5, error("bad message")),
        (frame(106, 2), error("bad message", 2)), (frame(121, 3), error("bad message", 3)))
session("a flush needs no version", (flush(5), rflush()))
session("flush", V, (flush(7, 8), rflush(8)), (flush(8, 8), rflush(8)))
session("attach", V, (attach(0, 1, 0), error("bad afid")), A, (attach(0, 1, 3), error("bad afid")),
        (attach(0), error("fid in use")), (attach(NOFID), rattach()), (attach(NOFID, 2), error("fid in use", 2)))
session("walk: already open", V, A, *opened(1, 0, "factotum"), (walk(1, 0), error("already open")),
        (walk(1, 2, "ctl"), error("already open")), (walk(1, 1, "nothing"), error("already open")))
session("walk: fid in use", V, A, at(1, *CTL), (walk(0, 1), error("fid in use")), (walk(1, 0, "x"), error("fid in use")))
session("walk: from a file", V, A, at(1, *CTL), (walk(1, 2, "x"), error("not a directory")),
        (walk(1, 2, ".."), error("not a directory")), (walk(1, 2), rwalk()), (stat(2), rstat("ctl")))
session("walk: not found", V, A, (walk(0, 1, "ctl"), error("file not found")), (stat(1), error("unknown fid")),
        (walk(0, 1, "factotum", "nothing"), rwalk("factotum")), (stat(1), error("unknown fid")),
        (walk(0, 1, "factotum", "ctl", ".."), rwalk("factotum", "ctl")), (stat(1), error("unknown fid")))
session("walk: up and onto itself", V, A, (walk(0, 1, "..", "factotum", "..", ".."), rwalk("/", "factotum", "/", "/")),
        (stat(1), rstat("/")), (walk(1, 1, "factotum", "proto"), rwalk("factotum", "proto")), (stat(1), rstat("proto")))
session("open: what it is opened for", V, A, (open_(7, 0x84), error("unknown fid")), at(1, *CTL),
        (open_(1, 4), error("bad open mode")), (open_(1, 0x44), error("bad open mode")),
        (open_(1, 0x40), error("permission denied")), (open_(1, 3), error("permission denied")),
        (open_(1, 0x10), error("permission denied")), (open_(1, 0x12), ropen("ctl")), (open_(1, 4), error("already open")),
        (open_(1, 0), error("already open")), at(2, "factotum", "proto"), (open_(2, 1), error("permission denied")),
        (open_(0, 2), error("permission denied")), (open_(2, 0), ropen("proto")))
session("open: files that a user answers", V, A, at(1, "factotum", "rpc"), (open_(1, 0x42), error("permission denied")),
        (open_(1, 4), error("bad open mode")), (open_(1, 2), ropen("rpc")), (open_(1, 2), error("already open")),
        at(2, "factotum", "confirm"), (open_(2, 2), ropen("confirm")), at(3, "factotum", "needkey"),
        (open_(3, 0), ropen("needkey")), (read(1, 0, 9), error("no rpc pending")), (read(0, 0, 9), error("not open")))
session("open: one fid alone", V, A, *opened(1, 0, *LOG), at(2, *LOG), (open_(2, 1), error("permission denied")),
        (open_(2, 0), error("exclusive use file already open")), *on(1, [V, A, at(1, *LOG)]),
        (1, open_(1, 0), error("exclusive use file already open")), (clunk(1), rclunk()), (1, open_(1, 0), ropen("log")),
        (open_(2, 0), error("exclusive use file already open")), (1, version(), rversion()), (open_(2, 0), ropen("log")),
        (remove(2), error("permission denied")), *on(1, [A, *opened(1, 0, *LOG)]))
session("log isn't written", V, A, *opened(1, 0, *LOG), (write(1, "x"), error("not open for writing")))
session("remove", V, A, (remove(7), error("unknown fid")), (remove(0), error("permission denied")),
        (stat(0), error("unknown fid")), A)
session("clunk", V, A, (clunk(7), error("unknown fid")), (clunk(0), rclunk()), (clunk(0), error("unknown fid")))
session("stat", V, A, (stat(7), error("unknown fid")), (stat(0), rstat("/")), at(1, "factotum"), (stat(1), rstat("factotum")),
        *[s for i, f in enumerate(FILES) for s in (at(2 + i, "factotum", f), (stat(2 + i), rstat(f)))])
session("read and write: unknown, not open, not for this", V, A, (read(7, 0, 9), error("unknown fid")),
        (write(7, "x"), error("unknown fid")), at(1, *CTL), (read(1, 0, 9), error("not open")),
        (write(1, "x"), error("not open")), (open_(1, 1), ropen("ctl")), (read(1, 0, 9), error("not open for reading")),
        *opened(2, 0, *CTL), (write(2, "x"), error("not open for writing")), (open_(0, 0), ropen("/")),
        (write(0, "x"), error("not open for writing")))
ALL = b"".join(record(f) for f in FILES)
ONE = len(record("rpc"))
TWO = ONE + len(record("ctl"))
THREE = TWO + len(record("confirm"))
session("a directory", V, A, *opened(1, 0, "factotum"), (read(1, 3, 99), error("bad directory offset")),
        (read(1, 0, 8192), rread(ALL)), (read(1, len(ALL), 8192), rread(b"")), (read(1, 0, TWO + 1), rread(ALL[:TWO])),
        (read(1, ONE, 200), error("bad directory offset")), (read(1, TWO, 8192), rread(ALL[TWO:])),
        (read(1, 0, ONE - 1), rread(b"")), (read(1, TWO, 99), error("bad directory offset")), (open_(0, 0), ropen("/")),
        (read(0, 0, 8192), rread(record("factotum"))))
session("a count is cut to the size agreed", (version(256), rversion(256)), A, *opened(1, 0, "factotum"),
        (read(1, 0, 8192), rread(ALL[:THREE])), *opened(2, 0, "factotum", "proto"),
        (read(2, 0, 9), rread("apop\ncram")), (read(2, 9, 99), rread("\np9any\np9sk1\n")), (read(2, 22, 9), rread("")),
        (read(2, 1 << 63, 9), rread("")))

KEY = "key proto=apop user=a !password=b"
session("a key is written and listed", V, A, *opened(1, 2, *CTL), (read(1, 0, 99), rread("")),
        (write(1, KEY), rwrite(len(KEY))), (read(1, 0, 99), rread("key proto=apop user=a !password?\n")), (clunk(1), rclunk()))
S1 = "key proto=p9sk1 dom=x user=ann !password='it''s'"
S2 = "key user=ann proto=p9sk1 dom=x !password=new"
L1 = "key proto=p9sk1 dom=x user=ann !password?\n"
L2 = "key user=ann proto=p9sk1 dom=x !password?\n"
LA = "key proto=apop user=a !password?\n"
session("a key replaces its equal and stands last", V, A, *opened(1, 2, *CTL), (write(1, S1), rwrite(len(S1))),
        (read(1, 0, 99), rread(L1)), (write(1, KEY + "\n"), rwrite(len(KEY) + 1)), (write(1, S2), rwrite(len(S2))),
        (read(1, 0, 200), rread(LA + L2)))
session("a list is read as it stood", V, A, *opened(1, 0, *CTL), *on(1, [V, A, *opened(1, 1, *CTL)]),
        (1, write(1, S1), rwrite(len(S1))), (read(1, 5, 99), rread("")), (read(1, 0, 5), rread(L1[:5])),
        (1, write(1, "delkey user=ann"), rwrite(15)), (read(1, 5, 99), rread(L1[5:])), (read(1, 0, 99), rread("")),
        (read(1, 5, 99), rread("")))
session("lines before a refused one stand", V, A, *opened(1, 2, *CTL),
        (write(1, KEY + "\n\nkey user=b\n" + S1), error("no proto")), (read(1, 0, 200), rread(LA)),
        (write(1, "\n\n"), rwrite(2)), (write(1, ""), rwrite(0)), (write(1, "debug\n" + S1 + "\ndelkey !password?"),
                                                                 rwrite(len("debug\n" + S1 + "\ndelkey !password?"))),
        (read(1, 0, 200), rread("")))

# ---- every refusal, each by the shortest session that reaches it, and each two neighbouring tests with both grounds
def refused(about, *steps, tag=1):
    """What leads there, and then a request and the text that refuses it."""
    *led, request, why = steps
    session("refused: " + about, *led, (request, error(why, tag)))


SMALL = (version(256), rversion(256))
OPEN = (open_(0, 0), ropen("/"))

# Every frame.
refused("a frame over the size", SMALL, write(0, b"x" * 234), "message over msize")
refused("over the size, and no message", SMALL, frame(120, 1, b"\0" * 250), "message over msize")
refused("no message", V, frame(106, 1), "bad message")
refused("no message, and no version", frame(106, 1), "bad message")
refused("no message, and a small size", struct.pack("<I", 20) + version(100)[4:] + b"\0", "bad message", tag=NOTAG)
refused("a version of a small size", version(255), "msize too small", tag=NOTAG)

# Auth and attach.
refused("auth", V, auth(), "authentication not required")
refused("auth, and no version", auth(), "no version")
refused("attach: an afid", V, attach(0, 1, 3), "bad afid")
refused("attach: an afid, and no version", attach(0, 1, 3), "no version")
refused("attach: a fid in use", V, A, attach(0), "fid in use")
refused("attach: a fid in use, and an afid", V, A, attach(0, 1, 3), "bad afid")

# What names a fid. A fid that isn't held isn't open either, and may be neither created, removed nor written.
for name, request in [("walk", walk(7, 8)), ("open", open_(7, 4)), ("create", create(7)), ("read", read(7, 0, 9)),
                      ("write", write(7, "x")), ("clunk", clunk(7)), ("remove", remove(7)), ("stat", stat(7)),
                      ("wstat", wstat(7))]:
    refused(name + ": an unknown fid", V, request, "unknown fid")
    refused(name + ": an unknown fid, and no version", request, "no version")

refused("walk: from an open fid", V, A, OPEN, walk(0, 1), "already open")
refused("walk: from an open fid to one in use", V, A, (attach(1), rattach()), OPEN, walk(0, 1), "already open")
refused("walk: to a fid in use", V, A, (attach(1), rattach()), walk(0, 1), "fid in use")
refused("walk: from a file to a fid in use", V, A, at(1, *CTL), walk(1, 0, ".."), "fid in use")
refused("walk: from a file", V, A, at(1, *CTL), walk(1, 2, ".."), "not a directory")
refused("walk: from a file to nothing", V, A, at(1, *CTL), walk(1, 2, "x"), "not a directory")
refused("walk: to nothing", V, A, walk(0, 1, "x"), "file not found")

refused("open: again", V, A, OPEN, open_(0, 0), "already open")
refused("open: again, in a bad mode", V, A, OPEN, open_(0, 4), "already open")
refused("open: in a bad mode", V, A, open_(0, 4), "bad open mode")
refused("open: in a bad mode, to be removed", V, A, open_(0, 0x44), "bad open mode")
refused("open: to be removed", V, A, open_(0, 0x40), "permission denied")
refused("open: to be executed", V, A, open_(0, 3), "permission denied")
refused("open: a directory for writing", V, A, open_(0, 1), "permission denied")
refused("open: to be cut without writing", V, A, open_(0, 0x10), "permission denied")
refused("open: proto for writing", V, A, at(1, "factotum", "proto"), open_(1, 2), "permission denied")
refused("open: log for writing", V, A, at(1, *LOG), open_(1, 1), "permission denied")
refused("open: log for writing, and open elsewhere", V, A, *opened(1, 0, *LOG), at(2, *LOG), open_(2, 1), "permission denied")
refused("open: log, and open elsewhere", V, A, *opened(1, 0, *LOG), at(2, *LOG), open_(2, 0), "exclusive use file already open")
for name in ["rpc", "confirm", "needkey"]:
    refused("open: %s, to be removed" % name, V, A, at(1, "factotum", name), open_(1, 0x42), "permission denied")

refused("create", V, A, create(0), "permission denied")
refused("remove", V, A, remove(0), "permission denied")
refused("wstat", V, A, wstat(0), "permission denied")

refused("read: not open", V, A, read(0, 0, 9), "not open")
refused("read: not open, at a bad offset", V, A, read(0, 3, 9), "not open")
refused("read: log, not open", V, A, at(1, *LOG), read(1, 0, 9), "not open")
refused("read: not for reading", V, A, *opened(1, 1, *CTL), read(1, 0, 9), "not open for reading")
refused("read: a directory at a bad offset", V, A, OPEN, read(0, 3, 9), "bad directory offset")

refused("write: not open", V, A, at(1, *CTL), write(1, "debug"), "not open")
refused("write: not open, and no line", V, A, at(1, *CTL), write(1, "x"), "not open")
refused("write: no reply", V, A, *opened(1, 2, "factotum", "confirm"), write(1, "x"), "bad reply")
refused("write: a reply to no question", V, A, *opened(1, 2, "factotum", "needkey"), write(1, "tag=1"), "unknown tag")
refused("write: not for writing", V, A, *opened(1, 0, *CTL), write(1, "debug"), "not open for writing")
refused("write: not for writing, and no line", V, A, *opened(1, 0, *CTL), write(1, "x"), "not open for writing")

# Lines of ctl: of those with one text the first has no ground of an earlier test, and the last has that of the next one too.
for line, why in [
    ("kex a=b", "unknown ctl verb"), ("key", "unknown ctl verb"), ("delkey", "unknown ctl verb"), ("debug ", "unknown ctl verb"),
    ("kex =b", "unknown ctl verb"),
    ("key proto=apop user=a !password=b c='d", "bad tuple"), ("key =b a?", "bad tuple"),
    ("key " + " ".join("a%d" % i for i in range(33)), "bad tuple"),
    ("key proto=apop user=a !password=b c?", "question in key"), ("key a?", "question in key"),
    ("key user=a !password=b", "no proto"), ("key a=b", "no proto"),
    ("key proto=x user=a !password=b", "unknown proto"), ("key proto=apop proto=apop user=a !password=b", "unknown proto"),
    ("key proto=x", "unknown proto"),
    ("key proto=apop !password=b", "no user"), ("key proto=p9sk1 !password=b", "no user"),
    ("key proto=p9sk1 user=a !password=b", "no dom"), ("key proto=p9sk1 user='' !password=b", "no dom"),
    ("key proto=apop user='' !password=b", "bad name"), ("key proto=apop user=''", "bad name"),
    ("key proto=apop user=a", "no secret"), ("key proto=p9sk1 dom=x user=a !hex", "no secret"),
    ("key proto=p9sk1 dom=x user=a !hex=0123456789abc", "bad hex"),
    ("delkey a='b", "bad tuple"), ("delkey !x=1 a='b", "bad tuple"),
    ("delkey !x=1", "secret in template"), ("delkey !x=''", "secret in template"),
    ("delkey a=b", "no key matched"), ("delkey ", "no key matched"),
]:
    refused("a line: " + line, V, A, *opened(1, 1, *CTL), write(1, line), why)

# As many fids as a connection holds are 256, and as many keys as the ring 4096: one session each, with their pairs.
session("refused: too many fids", V, A, at(1, *CTL), *[(attach(fid), rattach()) for fid in range(2, 256)],
        (attach(256), error("too many fids")), (attach(256, afid=3), error("bad afid")), (attach(0), error("fid in use")),
        (walk(0, 256), error("too many fids")), (walk(0, 256, "nothing"), error("too many fids")),
        (walk(1, 256, ".."), error("too many fids")), (walk(0, 1), error("fid in use")), (open_(2, 0), ropen("/")),
        (walk(2, 256), error("already open")), (clunk(255), rclunk()), (attach(256), rattach()))
FULL = "key proto=apop user=one !password=x"
MANY = [key_lines(range(i, min(i + 160, 4096))) for i in range(0, 4096, 160)]
session("refused: a full ring", V, A, *opened(1, 2, *CTL), *[(write(1, lines), rwrite(len(lines))) for lines in MANY],
        (write(1, FULL), error("ring full")), (write(1, "key proto=p9sk1 dom=x user=one !hex=12"), error("bad hex")),
        (write(1, key_lines([5])), rwrite(len(key_lines([5])))),
        (write(1, "delkey user=u7\n" + FULL), rwrite(15 + len(FULL))), (write(1, key_lines([7])), error("ring full")))


# ---- events beside requests: steps as logins.py writes them
NAMELESS = frame(104, 1, struct.pack("<II", 0, NOFID) + text("") + text(""))
SENT = [("p", 0, 0, request, b"") for request in [version(), NAMELESS, clunk(9)]]
EVENTS = [
    ("replies come in order until a hang", [
        *SENT, ("t", 0, 0, b"", rversion()), ("t", 0, 0, b"", rattach()), ("h", 0, 0, b"", b""), ("g", 0, 0, b"", b""),
        *SENT, ("g", 0, 0, b"", b"")]),
    ("events beside requests, up to a stop and behind it", [
        (kind, 0, number, b"", b"") for kind, number in [
            ("h", 4), ("t", 4), ("h", 4), ("g", 4), ("q", 0), ("f", 0), ("m", 0), ("s", 0), ("g", 5), ("x", 0), ("a", 0)]]),
]

TABLES = [
    ("fids", "version, fids and opens", "a version is answered", "open: files that a user answers"),
    ("files", "opens of one fid alone, directories and the rest of the tree", "open: one fid alone", "a count is cut"),
    ("ctl", "the keys of ctl", "a key is written", "lines before a refused one stand"),
    ("refusals", "every refusal", "refused: a frame over the size", "refused: a full ring"),
    ("events", "events beside requests, and replies that are taken later", None, None),
]

RECORDS = {"ALL_RECORDS": ALL, "TWO_RECORDS": ALL[:TWO], "FOUR_RECORDS": ALL[TWO:], "THREE_RECORDS": ALL[:THREE],
           "FACTOTUM_RECORD": record("factotum")}


def print_sessions(about, script, sessions, names):
    """Prints the file of these sessions."""
    print_rows(about, script, sessions, names, QIDS, {name: record(name) for name in QIDS})


def main():
    """Prints the file that is named: fids, files, ctl, refusals or events."""
    for name, about, first, last in TABLES:
        if sys.argv[1:] == [name]:
            sessions = [(n, [("r", 0, *step) for step in steps]) for n, steps in SESSIONS]
            if first is None:
                sessions = EVENTS
            else:
                begin = next(i for i, (n, _) in enumerate(sessions) if n.startswith(first))
                end = next(i for i, (n, _) in enumerate(sessions) if n.startswith(last))
                sessions = sessions[begin:end + 1]
            print_sessions(about, "agent.py", sessions, RECORDS)


if __name__ == "__main__":
    main()
