#!/usr/bin/env python3
"""Prints sessions in which users are asked, and what the log tells of them, as files of rows. Steps
are as logins.py says.

Written by hand from the manual's words (Plan 9: factotum(4)) and the texts of rpc, prompts and the log. Nothing of the
project's own code is used.
"""
from agent import clunk, error, flush, opened, rclunk, read, rflush, rread, rwrite, write
from logins import (ANN_KEY, ANSWER, ASKED, CHC, CHS, CLIENT, KN, MINE, NAMES, NEEDS, QUESTION, SERVER, SRV, SRV_KEY, THEIRS, WIDE,
                    client, main, one, proof, ticket, treq)
from whole_logins import CHALLENGE, DIGITS, OFFER, mail_question, mail_start, vouch

DENIED = "error confirmation denied"
FILES = {"confirm": 2, "needkey": 3, "log": 4}
PUBLIC = "proto=p9sk1 dom=x user=ann confirm !password?"
CONFIRM_KEY = "proto=p9sk1 dom=x user=ann confirm !password=annpass"
NEEDLINE = "proto=p9sk1 dom=x user? !password?"
APOP_KEY = "proto=apop user=mrose !password=tanstaaf"
RFC_CHALLENGE = b"<1896.697170952@dbc.mtview.ca.us>"
RFC_DIGITS = b"c4c9334bac560ecc979e58001b3e22fb"


# ---- the files of a user's window, on a connection of their own
def files(s, *names, conn=1, begun=False):
    with s.group():
        if not begun:
            s.begin(conn)
        for name in names:
            for request, reply in opened(FILES[name], 0 if name == "log" else 2, "factotum", name):
                s.say(request, reply, conn)


def line(s, name, text, conn=1):
    """A line of a file is there, and is read."""
    s.say(read(FILES[name], 0, WIDE), rread(text + "\n"), conn)


def awaits(s, name, tag, conn=1, count=WIDE):
    """There is none, and the read waits."""
    s.say(read(FILES[name], 0, count, tag), b"", conn)


def comes(s, text, tag, conn=1):
    """The read that waits has its line."""
    s.take(rread(text + "\n", tag), conn)


def reply(s, name, text, conn=1):
    s.say(write(FILES[name], text), rwrite(len(text)), conn)


def refused(s, name, text, why, conn=1):
    s.refuses(write(FILES[name], text), why, conn)


def asks(s, fid=1, conn=0):
    """A client is given what a server asks, and its read waits."""
    with s.group():
        client(s, fid, conn=conn)
        s.wait(fid, ("write", ASKED), conn)


def ctl(s, text, conn=9):
    s.say(write(1, text), rwrite(len(text)), conn)


def second_ctl(s, conn):
    with s.group():
        s.begin(conn)
        for request, answer in opened(1, 2, "factotum", "ctl"):
            s.say(request, answer, conn)


# ---- confirm and needkey
def rows():
    s = one("a key is asked for, and the ring of the reply's moment is searched")
    files(s, "needkey")
    asks(s)
    line(s, "needkey", "needkey tag=1 " + NEEDLINE)
    second_ctl(s, 2)
    ctl(s, "key " + ANN_KEY, 2)
    second_ctl(s, 3)
    ctl(s, "delkey user=ann", 3)
    ctl(s, "key proto=p9sk1 dom=x user=bob !password=bobpass", 3)
    s.unasked()
    reply(s, "needkey", "tag=1")
    s.asked(1, 0, treq(CHS, b"bob", b"bob"))
    s.unasked()
    s.chosen(1, 2, b"bob")

    s = one("consent is for the key that was shown, and for one request", CONFIRM_KEY)
    files(s, "confirm")
    asks(s)
    line(s, "confirm", "confirm tag=1 " + PUBLIC)
    s.line("key proto=p9sk1 dom=x user=ann confirm !password=newpass")
    reply(s, "confirm", "tag=1 answer=yes")
    s.unasked()
    line(s, "confirm", "confirm tag=2 " + PUBLIC)
    reply(s, "confirm", "tag=2 answer=yes")
    s.asked(1, 0, QUESTION)
    s.chosen(1, 2, b"ann")
    refused(s, "confirm", "tag=2 answer=yes", "unknown tag")

    s = one("a key isn't used while nobody can be asked", SRV_KEY.replace("user=srv", "user=srv confirm"))
    s.rpc(1, SERVER, DENIED)
    s.rpc(1, "read", "protocol not started")
    files(s, "confirm")
    s.wait(1, SERVER, word=CHS)
    line(s, "confirm", "confirm tag=1 proto=p9sk1 dom=x user=srv confirm !password?")
    s.say(clunk(2), rclunk(), 1)
    s.told(1, DENIED)
    s.rpc(1, "read", "protocol not started")
    s.unasked()

    s = one("two reads wait for a question, and one is flushed", CONFIRM_KEY)
    files(s, "needkey", "confirm")
    awaits(s, "needkey", 5)
    awaits(s, "needkey", 6)
    s.say(flush(5), rflush(), 1)
    s.nothing(1)
    s.line("delkey user=ann")
    asks(s)
    comes(s, "needkey tag=1 " + NEEDLINE, 6)
    s.nothing(1)

    for answer, goes_on in [("yes", True), ("no", False), ("YES", False), ("y", False), ("", False), (None, False)]:
        s = one("what is said to a question", CONFIRM_KEY)
        files(s, "confirm")
        asks(s)
        line(s, "confirm", "confirm tag=1 " + PUBLIC)
        reply(s, "confirm", "tag=1" + ("" if answer is None else " answer=" + (answer or "''")) + "\n")
        if goes_on:
            s.asked(1, 0, QUESTION)
            s.answer(1, ANSWER)
            s.told(1, "ok")
        else:
            s.told(1, DENIED)
            s.rpc(1, "attr", "ok proto=p9sk1 role=client")
        s.unasked()
        awaits(s, "confirm", 7)

    for text, why in [("answer=yes", "bad reply"), ("", "bad reply"), ("tag", "bad reply"), ("tag=", "bad reply"), ("tag=x", "bad reply"),
                      ("tag=-1", "bad reply"), ("tag=18446744073709551616 answer=yes", "bad reply"), ("tag='1", "bad reply"),
                      ("tag?", "bad reply"), ("tag=18446744073709551615 answer=yes", "unknown tag"), ("tag=0 answer=yes", "unknown tag"),
                      ("tag=2 answer=yes", "unknown tag"), ("tag=2 tag=1 answer=yes", "unknown tag"), ("tag=x tag=1", "bad reply")]:
        s = one("a reply that is refused", CONFIRM_KEY)
        files(s, "confirm", "needkey")
        asks(s)
        refused(s, "confirm", "tag=1 answer=yes", "unknown tag")
        line(s, "confirm", "confirm tag=1 " + PUBLIC)
        refused(s, "confirm", text, why)
        refused(s, "needkey", text if why == "bad reply" else "tag=1", why)
        s.nothing()
        s.unasked()
        reply(s, "confirm", "tag=1 tag=2 answer=yes answer=no")
        s.asked(1, 0, QUESTION)
        refused(s, "confirm", "tag=1 answer=yes", "unknown tag")

    s = one("no key is added, and it isn't asked for again")
    files(s, "needkey")
    asks(s)
    line(s, "needkey", "needkey tag=1 " + NEEDLINE)
    reply(s, "needkey", "tag=1")
    s.told(1, NEEDS)
    refused(s, "needkey", "tag=1", "unknown tag")
    asks_again = ("write", ASKED)
    s.wait(1, asks_again)
    line(s, "needkey", "needkey tag=2 " + NEEDLINE)

    s = one("confirm is closed, and opened again between", CONFIRM_KEY)
    files(s, "confirm")
    asks(s)
    s.say(clunk(2), rclunk(), 1)
    s.told(1, DENIED)
    files(s, "confirm", begun=True)
    refused(s, "confirm", "tag=1 answer=yes", "unknown tag")
    s.wait(1, ("write", ASKED))
    line(s, "confirm", "confirm tag=2 " + PUBLIC)
    reply(s, "confirm", "tag=2 answer=yes")
    s.asked(1, 0, QUESTION)

    s = one("two ask for one key", CONFIRM_KEY)
    s.open(2)
    files(s, "confirm")
    asks(s)
    asks(s, 2)
    line(s, "confirm", "confirm tag=1 " + PUBLIC)
    line(s, "confirm", "confirm tag=2 " + PUBLIC)
    reply(s, "confirm", "tag=2 answer=yes")
    s.asked(1, 1, QUESTION)
    s.unasked()
    s.nothing()
    reply(s, "confirm", "tag=1 answer=no")
    s.told(1, DENIED)

    for open_too, said in [(False, NEEDS), (True, None)]:
        s = one("a key is deleted while its user is asked", CONFIRM_KEY)
        files(s, "confirm", *(["needkey"] if open_too else []))
        asks(s)
        line(s, "confirm", "confirm tag=1 " + PUBLIC)
        s.line("delkey user=ann")
        reply(s, "confirm", "tag=1 answer=yes")
        s.unasked()
        if said:
            s.told(1, said)
        else:
            s.nothing()
            line(s, "needkey", "needkey tag=1 " + NEEDLINE)

    s = one("a key that was denied isn't chosen behind another's consent", CONFIRM_KEY, CONFIRM_KEY.replace("ann ", "eve "))
    files(s, "confirm", "needkey")
    asks(s)
    line(s, "confirm", "confirm tag=1 " + PUBLIC)
    reply(s, "confirm", "tag=1 answer=no")
    line(s, "confirm", "confirm tag=2 " + PUBLIC.replace("ann", "eve"))
    reply(s, "confirm", "tag=2 answer=no")
    s.told(1, DENIED)
    s.unasked()

    s = one("as many reads as may wait for lines")
    files(s, "log", "confirm")
    with s.group():
        for tag in range(100, 163):
            awaits(s, "log", tag)
    awaits(s, "confirm", 163)
    s.refuses(read(4, 0, WIDE, 164), "too many waiting", 1, 164)
    s.refuses(read(2, 0, WIDE, 164), "too many waiting", 1, 164)
    s.say(flush(100), rflush(), 1)
    awaits(s, "log", 164)
    s.refuses(read(4, 0, WIDE, 165), "too many waiting", 1, 165)


# ---- the log
def lines():
    s = one("what a client of APOP tells", APOP_KEY)
    s.rpc(1, mail_start("apop", "client"), "ok")
    s.rpc(1, ("write", RFC_CHALLENGE), "ok")
    s.rpc(1, "read", ("ok", RFC_DIGITS))
    files(s, "log")
    line(s, "log", "0 done proto=apop role=client")
    awaits(s, "log", 5)

    s = one("a line that is longer than its read stays", APOP_KEY)
    s.rpc(1, mail_start("apop", "client"), "ok")
    s.rpc(1, ("write", RFC_CHALLENGE), "ok")
    s.rpc(1, "read", ("ok", RFC_DIGITS))
    files(s, "log")
    s.refuses(read(4, 0, 1), "read too small", 1)
    s.refuses(read(4, 0, 29), "read too small", 1)
    s.say(read(4, 0, 30), rread("0 done proto=apop role=client\n"), 1)
    awaits(s, "log", 5, count=1)
    s.open(2)
    s.rpc(2, mail_start("apop", "client"), "ok")
    s.rpc(2, ("write", RFC_CHALLENGE), "ok")
    s.rpc(2, "read", ("ok", RFC_DIGITS))
    s.take(error("read too small", 5), 1)
    line(s, "log", "1 done proto=apop role=client")

    s = one("starts are told while debug is on", APOP_KEY)
    s.open(2, 3)
    files(s, "log")
    awaits(s, "log", 5)
    s.rpc(1, mail_start("apop", "client"), "ok")
    s.nothing(1)
    ctl(s, "debug\nkey proto=apop user=b !password=b\ndebug\ndebug")
    s.rpc(2, mail_start("apop", "client"), "ok")
    comes(s, "1 start proto=apop role=client", 5)
    s.refuses(write(1, "debug\nx\ndebug"), "unknown ctl verb", 9)
    s.rpc(3, mail_start("apop", "client"), "ok")
    awaits(s, "log", 6)

    s = one("who is accepted, and a user that stands in quotes", SRV_KEY)
    files(s, "log")
    s.rpc(1, SERVER, "ok", word=CHS)
    s.rpc(1, ("write", CHC), "ok")
    s.rpc(1, "read", ("ok", ASKED))
    user = b"an n=?'" + b"x" * 20
    theirs = ticket(SRV, 64, CHS, b"ann", user, KN)
    s.rpc(1, ("write", theirs + proof(KN, 67, CHS)), "ok")
    line(s, "log", "0 done proto=p9sk1 role=server user='an n=?''" + "x" * 20 + "'")

    for text, why in [(b"\x05" + b"no".ljust(64, b"\0"), "error server said no"), (b"\x04" + THEIRS + MINE, "error badkey"),
                      (b"", "error wrong kind"), (None, "error no server"), (b"m", "error out of memory")]:
        s = one("why a conversation broke", ANN_KEY)
        files(s, "log")
        awaits(s, "log", 5)
        asks(s)
        if text in (None, b"m"):
            s.step("m" if text else "f", 0, 1)
        else:
            s.answer(1, text)
        comes(s, "0 " + why, 5)
        s.told(1, why if "badkey" not in why else "badkey proto=p9sk1 dom=x user=ann !password?")
        s.rpc(1, "read", "phase broken")
        awaits(s, "log", 6)

    s = one("a start that is refused, one that waits and one that fails", SRV_KEY)
    s.line("debug")
    s.open(2)
    files(s, "log")
    s.rpc(1, CLIENT + " !password=a", "error secret in template")
    s.rpc(1, SERVER + " dom=y", "needkey proto=p9sk1 dom=y user? !password?")
    awaits(s, "log", 5)
    with s.group():
        s.wait(2, mail_start("apop", "server"), word=CHS)
    comes(s, "1 start proto=apop role=server", 5)
    s.step("f", 0, 1)
    s.told(2, "error no server")
    line(s, "log", "1 error no server")


TABLES = [
    (rows, "prompts", "what users are asked, and what they reply"),
    (lines, "log", "what the log tells"),
]

NAMED = {"CHALLENGE": CHALLENGE, "OFFER": OFFER, "DIGITS": DIGITS["apop"], "RFC_CHALLENGE": RFC_CHALLENGE, "RFC_DIGITS": RFC_DIGITS,
         "CHALLENGE_QUESTION": mail_question("apop"), "VOUCH_QUESTION": mail_question("apop", b"ann"), "VOUCH": vouch()}

if __name__ == "__main__":
    main(TABLES, "asking.py", {**NAMES, **NAMED})
