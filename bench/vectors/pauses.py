#!/usr/bin/env python3
"""Prints what comes to a conversation that waits, at each of its pauses, and agents with as many conversations and waiting reads
as there may be, as files of rows. Steps are as logins.py says.

Written by hand from the manual's words (Plan 9: factotum(4)) and the texts of rpc and prompts. Nothing of the project's own
code is used.
"""
from agent import A, clunk, error, flush, open_, rclunk, read, remove, rflush, ropen, rread, rversion, version, walk, write, at
from asking import CONFIRM_KEY, DENIED, FILES, NAMED, NEEDLINE, PUBLIC, asks, awaits, files, line, refused, reply
from logins import (ANN_KEY, ANSWER, ASKED, CHC, CHS, NAMES, NEEDS, OTHER, QUESTION, RPC, SERVER, SRV_KEY, WIDE, Session, asking,
                    client, main, one)
from whole_logins import CHALLENGE, DIGITS, OFFER, mail_question, mail_start, vouch

CONFIRM_SRV_KEY = "proto=p9sk1 dom=x user=srv confirm !password=srvpass1"
SERVERS_LINE = "proto=p9sk1 user? dom? !password?"
SERVERS_PUBLIC = "proto=p9sk1 dom=x user=srv confirm !password?"
YES, NO, TRIED = "tag=1 answer=yes", "tag=1 answer=no", "tag=1"
REPLIES = [("confirm", YES), ("needkey", TRIED)]


# ---- how each pause is come to, the files of a user's window being open on a connection
def for_server(s, conn=1):
    files(s, "confirm", "needkey", conn=conn, begun=conn == 0)
    asks(s)
    s.asked(1, 0, QUESTION)


def for_challenge(s, conn=1):
    files(s, "confirm", "needkey", conn=conn, begun=conn == 0)
    s.wait(1, mail_start("apop", "server"), word=CHS)
    s.asked(1, 0, mail_question("apop"))


def for_vouch(s, conn=1):
    for_challenge(s, conn)
    s.answer(1, OFFER)
    s.told(1, "ok")
    s.rpc(1, "read", ("ok", CHALLENGE))
    s.rpc(1, ("write", b"ann"), "ok")
    s.wait(1, ("write", DIGITS["apop"]))
    s.asked(2, 0, mail_question("apop", b"ann"))


def for_consent(s, conn=1):
    files(s, "confirm", "needkey", conn=conn, begun=conn == 0)
    asks(s)
    line(s, "confirm", "confirm tag=1 " + PUBLIC, conn)


def for_key(s, conn=1):
    files(s, "confirm", "needkey", conn=conn, begun=conn == 0)
    asks(s)
    line(s, "needkey", "needkey tag=1 " + NEEDLINE, conn)


# what a pause is called, its keys, how it is come to, the call that is out, whether its connection is kept, and the answer to
# its call with what is then told
PAUSES = [
    ("for the authentication server", [ANN_KEY], for_server, 1, False, ANSWER, "ok"),
    ("for a challenge", [SRV_KEY.replace("srvpass1", "srvpass")], for_challenge, 1, True, OFFER, "ok"),
    ("for a vouch", [SRV_KEY.replace("srvpass1", "srvpass")], for_vouch, 2, False, vouch(), "ok"),
    ("for consent", [CONFIRM_KEY], for_consent, 0, False, None, None),
    ("for a key", [], for_key, 0, False, None, None),
]


def paused(pause, what, conn=1):
    name, keys, come = pause[:3]
    s = one("a request that waits %s, and %s" % (name, what), *keys)
    if not keys:
        s.key()
    come(s, conn)
    return s


def still_waits(s):
    s.nothing()
    s.refuses(read(1, 0, WIDE), "rpc busy")


# ---- what ends a pause: what it is called, its steps, and what the conversation is then told
def unheard(kind, call):
    return lambda s: s.step(kind, 0, call)


def replied(file, text):
    return lambda s: reply(s, file, text)


def consented(s):
    reply(s, "confirm", YES)
    s.asked(1, 0, QUESTION)
    s.answer(1, ANSWER)


def key_came(s):
    s.line("key " + ANN_KEY)
    reply(s, "needkey", TRIED)
    s.asked(1, 0, QUESTION)
    s.answer(1, ANSWER)


def endings(pause):
    name, _, _, call, _, answer, said = pause
    if call:
        return [("its answer", lambda s: s.answer(call, answer), said), ("no answer", unheard("f", call), "error no server"),
                ("no room for an answer", unheard("m", call), "error out of memory")]
    if name == "for consent":
        return [("consent", consented, "ok"), ("a denial", replied("confirm", NO), DENIED)]
    return [("a key", key_came, "ok"), ("no key", replied("needkey", TRIED), NEEDS)]


def dropped(s):
    """The read that waits is flushed, and the conversation stays."""
    s.say(flush(101), rflush())
    s.nothing()
    s.outcome(1, "running")
    s.refuses(write(1, "read"), "rpc busy")


def flushes(pause):
    for what, end, said in endings(pause):
        s = paused(pause, "a flush, %s and a read" % what)
        dropped(s)
        end(s)
        s.nothing()
        s.got(1, said)
        s.refuses(read(1, 0, WIDE), "no rpc pending")

        s = paused(pause, "a flush, a read that waits and %s" % what)
        dropped(s)
        s.again(1, word=OTHER)
        still_waits(s)
        end(s)
        s.told(1, said)
        s.refuses(read(1, 0, WIDE), "no rpc pending")

        s = paused(pause, "two flushes, a read that waits and %s" % what)
        dropped(s)
        s.again(1)
        dropped(s)
        s.say(flush(101), rflush())
        s.again(1)
        end(s)
        s.told(1, said)


def flushes_between():
    """The pause ends in another one, at which the next read waits."""
    for pause in PAUSES[3:]:
        s = paused(pause, "a flush, what it waits for, and a read that waits for the authentication server")
        dropped(s)
        if pause[1]:
            reply(s, "confirm", YES)
        else:
            s.line("key " + ANN_KEY)
            reply(s, "needkey", TRIED)
        s.nothing()
        s.again(1)
        s.asked(1, 0, QUESTION)
        still_waits(s)
        s.answer(1, ANSWER)
        s.told(1, "ok")


def started(s):
    """The server sends the word of the read that carried its start out."""
    s.rpc(1, ("write", CHC), "ok")
    s.rpc(1, "read", ("ok", ASKED))


def flushed_starts():
    for name, keys, file, shown, said in [("consent", [CONFIRM_SRV_KEY], "confirm", SERVERS_PUBLIC, DENIED),
                                          ("a key", [], "needkey", SERVERS_LINE, "needkey " + SERVERS_LINE)]:
        for ends, comes in [(True, "ok"), (False, said)]:
            for waits in [True, False]:
                s = one("a start that waits for %s, and a flush" % name, *keys)
                if not keys:
                    s.key()
                files(s, "confirm", "needkey")
                s.wait(1, SERVER, word=CHS)
                line(s, file, "%s tag=1 %s" % (file, shown))
                s.say(flush(101), rflush())
                s.nothing()
                if waits:
                    s.again(1, word=OTHER)
                if ends and not keys:
                    s.line("key " + SRV_KEY)
                reply(s, file, TRIED if file == "needkey" else YES if ends else NO)
                s.told(1, comes) if waits else s.got(1, comes, word=OTHER)
                started(s) if ends else s.rpc(1, "read", "protocol not started")


# ---- what comes to each pause
def requests(pause):
    s = paused(pause, "more requests")
    s.refuses(write(1, "read"), "rpc busy")
    s.refuses(read(1, 0, WIDE), "rpc busy")
    s.refuses(read(1, 0, WIDE, 101), "duplicate tag", tag=101)
    s.unasked()
    s.outcome(1, "running")


def answers(pause):
    call, answer, said = pause[3], pause[5], pause[6]
    s = paused(pause, "its answer")
    s.answer(call or 1, answer or ANSWER)
    if call:
        s.told(1, said)
    else:
        still_waits(s)
    for kind, why in [("f", "error no server"), ("m", "error out of memory")]:
        s = paused(pause, "no answer, or no room for one")
        s.step(kind, 0, call or 1)
        if call:
            s.told(1, why)
            s.broken(1, why)
        else:
            still_waits(s)


def withdrawn(s, pause, conn=1):
    """Nothing is asked any more, and what comes late changes nothing."""
    call, kept, answer = pause[3:6]
    if kept:
        s.dropped(0)
    s.unasked()
    for file, text in REPLIES:
        refused(s, file, text, "unknown tag", conn)
    s.answer(call or 1, answer or ANSWER)
    s.step("f", 0, call or 1)
    s.step("m", 0, call or 1)
    s.unasked()
    for tag, (file, _) in enumerate(REPLIES, 7):
        awaits(s, file, tag, conn)


def given_up(pause):
    for request, answered in [(clunk(1), rclunk()), (remove(1), error("permission denied"))]:
        s = paused(pause, "its fid is given up")
        s.step("p", 0, 0, request)
        s.take(answered)
        s.take(error("unknown fid", 101))
        s.nothing()
        withdrawn(s, pause)
        s.nothing()

    s = paused(pause, "a version")
    s.say(version(), rversion())
    s.outcome(1, "")
    withdrawn(s, pause)
    s.nothing()
    s.say(*A)
    s.refuses(read(1, 0, WIDE), "unknown fid")


def unserved(s, conn):
    """A number of which nothing is served any more."""
    replies = [write(FILES[file], text) for file, text in REPLIES]
    for request in replies + [write(1, "read"), read(1, 0, WIDE), flush(101), clunk(1), version(), A[0]]:
        s.step("p", 0, conn, request)
        s.step("g", 0, conn)


def hangs(pause):
    s = paused(pause, "a hang")
    s.step("h", 0, 0)
    s.step("g", 0, 0)
    withdrawn(s, pause)
    s.step("g", 0, 0)
    s.outcome(1, "")

    s = paused(pause, "a hang of a number that holds the files too, and writes of them", 0)
    s.step("h", 0, 0)
    unserved(s, 0)
    files(s, "confirm", "needkey")
    withdrawn(s, pause)
    s.step("h", 0, 0)
    s.step("g", 0, 0)


def stops(pause):
    call, answer = pause[3] or 1, pause[5] or ANSWER
    s = paused(pause, "a stop, and each event")
    s.step("s", 0, 0)
    s.step("x", 0, 0)
    s.step("g", 0, 0)
    for conn in [0, 1, 5]:
        unserved(s, conn)
    s.answer(call, answer)
    s.step("f", 0, call)
    s.step("m", 0, call)
    s.step("h", 0, 0)
    s.step("h", 0, 5)
    s.step("s", 0, 0)
    s.step("x", 0, 0)
    for conn in [0, 1, 5]:
        s.step("g", 0, conn)
    s.outcome(1, "")
    s.chosen(1)


def edits(pause):
    _, keys, _, call, _, answer, said = pause
    s = paused(pause, "an edit of the keys")
    s.line("delkey proto=p9sk1") if keys else s.line("key " + ANN_KEY)
    s.nothing()
    s.unasked()
    if call:
        s.answer(call, answer)
        s.told(1, said)
    elif not keys:
        reply(s, "needkey", TRIED)
        s.asked(1, 0, QUESTION)
    else:
        reply(s, "confirm", YES)
        line(s, "needkey", "needkey tag=1 " + NEEDLINE)


def closes(pause):
    keys, call, answer, said = pause[1], pause[3], pause[5], pause[6]
    refusal = DENIED if keys else NEEDS
    for file in ["confirm", "needkey"]:
        s = paused(pause, "%s is closed" % file)
        s.say(clunk(FILES[file]), rclunk(), 1)
        if call or (file == "confirm") != bool(keys):
            still_waits(s)
        else:
            s.told(1, refusal)
        s.unasked()
    s = paused(pause, "who holds the files hangs up, and writes of them")
    s.step("h", 0, 1)
    unserved(s, 1)
    if call:
        still_waits(s)
        s.answer(call, answer)
        s.told(1, said)
    else:
        s.told(1, refusal)
        s.unasked()


def pauses():
    for pause in PAUSES:
        for table in [requests, flushes, answers, given_up, hangs, stops, edits, closes]:
            table(pause)
    flushes_between()
    flushed_starts()


# ---- as many as there may be
def houses():
    s = Session("as many conversations as there may be")
    for conn in range(5):
        s.begin(conn)
    for conn in [0, 2, 3, 4]:
        for fid in range(1, 256, 15):
            s.open(*range(fid, fid + 15), conn=conn)
    s.open(1, 2, 3, 4, conn=1)
    s.say(*at(5, *RPC), 1)
    s.refuses(open_(5, 2), "too many conversations", 1)
    s.refuses(open_(5, 0x42), "permission denied", 1)
    s.refuses(open_(1, 2), "already open", 1)
    s.refuses(walk(0, 256, "factotum"), "too many fids")
    s.say(clunk(255), rclunk())
    s.say(open_(5, 2), ropen("rpc"), 1)
    s.say(*at(255, *RPC))
    s.refuses(open_(255, 2), "too many conversations")
    s.say(version(), rversion(), 1)
    s.say(open_(255, 2), ropen("rpc"))
    s.rpc(255, "read", "protocol not started")

    s = Session("as many reads of a connection as may wait")
    s.key(ANN_KEY)
    s.begin()
    s.begin(1)
    s.open(65, 66, 67)
    client(s, 65)
    s.store(65, ("write", ASKED))
    s.store(67, "read")
    s.refuses(read(67, 0, 19), "read too small")
    for fid in range(1, 65):
        with s.group():
            s.open(fid)
            asking(s, fid)
    s.open(1, conn=1)
    s.refuses(read(65, 0, WIDE), "too many waiting")
    s.refuses(read(65, 0, 0), "too many waiting")
    s.refuses(read(64, 0, WIDE), "rpc busy")
    s.refuses(read(66, 0, WIDE), "no rpc pending")
    s.store(66, "read")
    s.refuses(read(66, 0, WIDE), "too many waiting")
    s.refuses(write(66, "x"), "rpc busy")
    s.refuses(read(67, 0, 19), "read too small")
    s.got(67, "protocol not started")
    asking(s, 1, conn=1)
    s.say(flush(107), rflush())
    s.got(66, "protocol not started")
    s.again(65)
    s.refuses(read(7, 0, WIDE), "too many waiting")
    s.answer(3, ANSWER)
    s.told(3, "ok")
    s.again(7)
    for call in range(1, 65):
        if call != 3:
            s.asked(call, call + 2, QUESTION)
    s.asked(65, 67, QUESTION)
    s.asked(66, 0, QUESTION)
    s.unasked()
    s.answer(7, ANSWER)
    s.told(7, "ok")

    full_house()


# The sixteen connections of a full house; keys are written by connection 9. Who is asked has the one behind them.
HOUSE = [*range(9), *range(10, 17)]
ASKED_AT = 17


def in_what_order():
    """The reads of 64 conversations of each connection: one of each in turn, and of each in an order of its own."""
    steps = [(conn, (14 * place + 37) % 64) for place, conn in enumerate(HOUSE)]
    return [(conn, (place * step + conn) % 64 + 1) for place in range(64) for conn, step in steps]


def full_house():
    s = Session("as many conversations as there may be, each of which waits for consent to one key")
    s.key(CONFIRM_SRV_KEY)
    files(s, "confirm", conn=ASKED_AT)
    for conn in HOUSE:
        s.begin(conn)
        s.open(*range(1, 65), conn=conn)
    for conn in [ASKED_AT, 0]:
        s.say(*at(65, *RPC), conn)
        s.refuses(open_(65, 2), "too many conversations", conn)
    reads = in_what_order()
    for tag, (conn, fid) in enumerate(reads, 1):
        s.wait(fid, SERVER, conn, word=CHS)
        line(s, "confirm", "confirm tag=%d %s" % (tag, SERVERS_PUBLIC), ASKED_AT)
    awaits(s, "confirm", 7, ASKED_AT)
    s.refuses(open_(65, 2), "too many conversations", ASKED_AT)
    for conn in HOUSE:
        s.nothing(conn)
    s.step("h", 0, ASKED_AT)
    s.step("g", 0, ASKED_AT)
    s.unasked()
    for conn in HOUSE:
        for fid in [read_fid for of, read_fid in reads if of == conn]:
            s.take(rread(DENIED, 100 + fid), conn)
        s.nothing(conn)
    files(s, "confirm", conn=ASKED_AT + 1)
    s.wait(1, SERVER, word=CHS)
    line(s, "confirm", "confirm tag=1025 " + SERVERS_PUBLIC, ASKED_AT + 1)
    reply(s, "confirm", "tag=1025 answer=yes", ASKED_AT + 1)
    s.told(1, "ok")
    started(s)


TABLES = [
    (pauses, "pauses", "every pause of a conversation, and what comes to it"),
    (houses, "houses", "as many conversations and waiting reads as there may be"),
]

if __name__ == "__main__":
    main(TABLES, "pauses.py", {**NAMES, **NAMED})
