#!/usr/bin/env python3
"""Prints whole logins by p9any, APOP and CRAM between two agents and an authentication server, and what each of these protocols
refuses, as files of rows. Steps are as logins.py says, and beside them there is

  A  a question is taken and asked of the authentication server: the three words that it draws; the question's conversation, the
     question and its answer, the number being the question's call. A question that vouches for nobody begins a session with it

Written by hand from the manual's words (Plan 9: factotum(4), authsrv(6)), RFC 1939, RFC 2195 and the texts of rpc; OpenSSL's
DES seals, and its MD5 and HMAC make the digits. Nothing of the project's own code is used.
"""
from agent import clunk, error, flush, opened, rclunk, read, rflush, rread
from logins import (ANN, ANN_KEY, CHC, CHS, EVE, INFO, KN, NEEDS, NONE, OTHER, PROVED, WIDE, Session, authinfo, main, one, proof,
                    ticket, treq)
from mail_requests import apop, cram
from passwords import pass_to_key

SRV = pass_to_key(b"srvpass")
SRV_KEY = "proto=p9sk1 dom=x user=srv !password=srvpass"
# A session key is made of the first word that is drawn.
WORDS = KN + b"\x58" + bytes(16)
LIST, CHOICE, CONSENT = b"p9sk1@x\0", b"p9sk1 x\0", b"OK\0"
ANY_CLIENT, ANY_SERVER = "start proto=p9any role=client", "start proto=p9any role=server"
ANY_NEEDS = "needkey proto=p9sk1 user? dom? !password?"
DENIED = "error confirmation denied"
LOG = 4
REFUSAL = b"\x05" + b"no".ljust(64, b"\0")


# ---- p9sk1, as p9any leads to it
ASKED = treq(CHS)


def granted(user=b"ann"):
    """The two tickets of a grant for this user."""
    return ticket(ANN, 65, CHS, b"ann", user, KN), ticket(SRV, 64, CHS, b"ann", user, KN)


def grant(user=b"ann"):
    return b"\x04" + b"".join(granted(user))


def shown(user=b"ann"):
    """What a client shows to a server."""
    return granted(user)[1] + proof(KN, 67, CHS)


# ---- APOP and CRAM
KINDS = {"apop": 7, "cram": 12}
CHALLENGE = b"<" + OTHER.hex().encode() + b"@x>"
DIGITS = {"apop": apop(b"annpass", CHALLENGE), "cram": cram(b"annpass", CHALLENGE)}
OFFER = b"\x09%-5d" % len(CHALLENGE) + CHALLENGE


def mail_question(proto, user=b""):
    return treq(CHS, b"srv", user, kind=KINDS[proto]) + (DIGITS[proto] if user else b"")


def vouch(kind=64, chal=CHS, client=b"ann", server=b"ann", key=SRV, behind=proof(KN, 67, CHS)):
    return b"\x04" + ticket(key, kind, chal, client, server, KN) + behind


def mail_start(proto, role):
    return "start proto=%s role=%s" % (proto, role)


# ---- whole logins
def served(s, call, conv, question, answer, agent=0, words=WORDS):
    """A question is asked of the authentication server, and its answer told."""
    s.step("A", agent, call, words, bytes([conv]) + question + answer)


def accepted(s, user, agents):
    """These agents accepted the user."""
    for agent in agents:
        s.outcome(1, ("accepted", authinfo(b"ann", user, KN)), agent=agent)
        s.rpc(1, "authinfo", ("ok", authinfo(b"ann", user, KN)), agent=agent)
        for request in ["read", ("write", CHC)]:
            s.rpc(1, request, "done haveai", agent=agent)


def two(name, ann, srv):
    """A session with a key and a conversation at each of two agents."""
    s = Session(name)
    for agent, key in enumerate([ann, srv]):
        s.key(key, agent=agent)
        s.begin(agent=agent)
        s.open(1, agent=agent)
    return s


def negotiated(name, start=ANY_CLIENT, user=b"ann", consents=False):
    """A login by p9any; the server's list may come to the client with the form of one that consents."""
    s = two(name, ANN_KEY, SRV_KEY)
    s.rpc(1, start, "ok", word=CHC)
    s.rpc(1, ANY_SERVER, "ok", agent=1, word=CHS)
    s.chosen(1, agent=1)
    s.rpc(1, "read", ("ok", LIST), agent=1)
    s.rpc(1, ("write", b"v.2 " * consents + LIST), "ok")
    s.rpc(1, "read", ("ok", CHOICE))
    s.rpc(1, ("write", CHOICE), "ok", agent=1, word=OTHER)
    s.chosen(1, 1, b"srv", agent=1)
    if consents:
        s.rpc(1, ("write", CONSENT), "ok", word=OTHER)
    s.rpc(1, "read", ("ok", CHC))
    s.rpc(1, ("write", CHC), "ok", agent=1)
    s.rpc(1, "read", ("ok", ASKED), agent=1)
    s.chosen(1)
    s.wait(1, ("write", ASKED))
    served(s, 1, 0, treq(CHS, b"ann", user), grant(user))
    s.told(1, "ok")
    s.chosen(1, 1, b"ann")
    s.rpc(1, "read", ("ok", shown(user)))
    s.rpc(1, ("write", shown(user)), "ok", agent=1)
    s.rpc(1, "authinfo", NONE, agent=1)
    s.rpc(1, "read", ("ok", PROVED), agent=1)
    s.rpc(1, ("write", PROVED), "ok")
    accepted(s, user, [0, 1])
    s.rpc(1, "attr", "ok" + start[len("start"):] + (" dom=x !password?" if "user=" in start else " dom=x user=ann !password?"))
    s.rpc(1, "attr", "ok proto=p9any role=server dom=x user=srv !password?", agent=1)
    s.unasked()
    s.unasked(agent=1)


def challenged(s, proto, call=1, conv=0, fid=1, agent=0):
    """A server starts, and the authentication server gives it a challenge."""
    s.wait(fid, mail_start(proto, "server"), agent=agent, word=CHS)
    served(s, call, conv, mail_question(proto), OFFER, agent, OTHER + bytes(16))
    s.told(fid, "ok", agent=agent)


def mailed(proto):
    """A login by APOP or CRAM."""
    s = two("a client and a server of " + proto, "proto=%s user=ann !password=annpass" % proto, SRV_KEY)
    challenged(s, proto, agent=1)
    s.chosen(1, 1, b"srv", agent=1)
    s.rpc(1, "read", ("ok", CHALLENGE), agent=1)
    s.rpc(1, mail_start(proto, "client"), "ok")
    s.chosen(1)
    s.rpc(1, ("write", CHALLENGE), "ok")
    s.chosen(1, 1, b"ann")
    s.rpc(1, "read", ("ok", DIGITS[proto]))
    s.rpc(1, ("write", b"ann"), "ok", agent=1)
    s.wait(1, ("write", DIGITS[proto]), agent=1)
    served(s, 2, 0, mail_question(proto, b"ann"), vouch(), 1)
    s.told(1, "ok", agent=1)
    accepted(s, b"ann", [1])
    s.outcome(1, "finished")
    s.rpc(1, "authinfo", NONE)
    for request in ["read", ("write", CHALLENGE)]:
        s.rpc(1, request, "done")
    s.rpc(1, "attr", "ok proto=%s role=client user=ann !password?" % proto)
    s.rpc(1, "attr", "ok proto=%s role=server dom=x user=srv !password?" % proto, agent=1)
    s.unasked()
    s.unasked(agent=1)


def without_a_key():
    s = one("a server of p9any without a key, and then with one")
    s.rpc(1, ANY_SERVER, ANY_NEEDS)
    s.outcome(1, "")
    s.rpc(1, "read", "protocol not started")
    s.key(SRV_KEY)
    s.rpc(1, ANY_SERVER, "ok", word=CHS)
    s.outcome(1, "running")
    s.rpc(1, "read", ("ok", LIST))
    s.rpc(1, ("write", CHOICE), "ok")
    s.rpc(1, ("write", CHC), "ok")
    s.rpc(1, "read", ("ok", ASKED))
    s = one("a client of p9any without a key, and then with one")
    s.rpc(1, ANY_CLIENT, "ok", word=CHC)
    s.rpc(1, ("write", LIST), "ok")
    s.rpc(1, "read", ("ok", CHOICE))
    s.rpc(1, "read", ("ok", CHC))
    s.rpc(1, ("write", ASKED), NEEDS)
    s.key(ANN_KEY)
    s.wait(1, ("write", ASKED))
    served(s, 1, 0, treq(CHS, b"ann", b"ann"), grant())
    s.told(1, "ok")


def given_up(s, *convs):
    """The connections of these conversations are given up, and no question is left."""
    for conv in convs:
        s.dropped(conv)
    s.unasked()


def kept_connections():
    """The connection over which a challenge came is given up once: where the conversation ends before it asks for a vouch."""
    for proto in KINDS:
        s = one("a conversation that has its challenge is clunked", SRV_KEY)
        challenged(s, proto)
        s.unasked()
        s.say(clunk(1), rclunk())
        given_up(s, 0)
        for kind, answer, why in [("a", vouch(), "error wrong kind"), ("a", REFUSAL, "error server said no"),
                                  ("f", b"", "error no server"), ("m", b"", "error out of memory")]:
            s = one("the question for a challenge isn't answered by one", SRV_KEY)
            s.wait(1, mail_start(proto, "server"), word=CHS)
            s.asked(1, 0, mail_question(proto))
            s.unasked()
            s.step(kind, 0, 1, answer)
            s.told(1, why)
            given_up(s, 0)
            s.say(clunk(1), rclunk())
            s.unasked()
        s = one("a name that is none", SRV_KEY)
        challenged(s, proto)
        s.rpc(1, "read", ("ok", CHALLENGE))
        s.rpc(1, ("write", b"a b"), "error wrong user")
        given_up(s, 0)
        s = one("its vouch is asked for", SRV_KEY)
        challenged(s, proto)
        s.rpc(1, "read", ("ok", CHALLENGE))
        s.rpc(1, ("write", b"ann"), "ok")
        s.wait(1, ("write", DIGITS[proto]))
        served(s, 2, 0, mail_question(proto, b"ann"), vouch())
        s.told(1, "ok")
        s.unasked()
        s.say(clunk(1), rclunk())
        s.unasked()
        s = one("its question for a challenge isn't handed out", SRV_KEY)
        s.wait(1, mail_start(proto, "server"))
        s.step("p", 0, 0, clunk(1))
        s.take(rclunk())
        s.take(error("unknown fid", 101))
        s.nothing()
        s.unasked()
        s = one("its question for a vouch isn't handed out", SRV_KEY)
        challenged(s, proto)
        s.rpc(1, "read", ("ok", CHALLENGE))
        s.rpc(1, ("write", b"ann"), "ok")
        s.wait(1, ("write", DIGITS[proto]))
        s.step("f", 0, 2)
        s.told(1, "error no server")
        given_up(s, 0)
        s = one("connections and questions go in the order in which they came", SRV_KEY)
        s.open(2, 3)
        for fid in [1, 2]:
            challenged(s, proto, fid, fid - 1, fid)
        s.say(clunk(2), rclunk())
        s.wait(3, mail_start(proto, "server"), word=CHS)
        s.say(clunk(1), rclunk())
        s.dropped(1)
        served(s, 3, 2, mail_question(proto), OFFER, words=OTHER + bytes(16))
        s.told(3, "ok")
        given_up(s, 0)
        s.step("h", 0, 0)
        given_up(s, 2)
        s = one("a hang gives them up in the order of the conversations", SRV_KEY)
        s.open(2)
        challenged(s, proto, 1, 1, 2)
        challenged(s, proto, 2, 0, 1)
        s.step("h", 0, 0)
        given_up(s, 0, 1)
        s = one("a stop gives none up", SRV_KEY)
        challenged(s, proto)
        s.step("s", 0, 0)
        s.step("x", 0, 0)


def choices():
    """Which domains a server of p9any offers, and which of them a client chooses."""
    x, y = (SRV_KEY.replace("dom=x", "dom=" + dom) for dom in "xy")
    both = b"p9sk1@x p9sk1@y"
    for keys, start, given, choice in [
        ([], ANY_CLIENT, both, b"x"), ([y], ANY_CLIENT, both, b"y"), ([y, x], ANY_CLIENT, both, b"x"),
        ([x + " role=server", y], ANY_CLIENT, both, b"y"), ([y], ANY_CLIENT + " dom=x", both, b"x"),
        ([y], ANY_CLIENT + " user=bob", both, b"x"), ([y + " confirm"], ANY_CLIENT, both, b"y"),
        ([x], ANY_CLIENT, b"p9sk2@x apop@x p9sk1@y", b"y"), ([y], ANY_CLIENT, b" v.2  " + both + b" ", b"y"),
    ]:
        s = one("a client's choice", *keys)
        s.rpc(1, start, "ok")
        s.rpc(1, ("write", given + b"\0"), "ok")
        s.rpc(1, "read", ("ok", b"p9sk1 " + choice + b"\0"))
    for keys, start, offers in [
        ([y, x, y.replace("srv", "eve")], ANY_SERVER, b"p9sk1@y p9sk1@x"), ([y, x], ANY_SERVER + " dom=x", b"p9sk1@x"),
        ([x + " role=client", y + " role=server"], ANY_SERVER, b"p9sk1@y"), ([x + " confirm"], ANY_SERVER, b"p9sk1@x"),
        (["proto=apop dom=y user=srv !password=a", x], ANY_SERVER, b"p9sk1@x"),
    ]:
        s = one("a server's offers", *keys)
        s.rpc(1, start, "ok")
        s.rpc(1, "read", ("ok", offers + b"\0"))
    s = one("a key that goes behind its offer, and comes again", x)
    s.rpc(1, ANY_SERVER, "ok", word=CHS)
    s.line("delkey dom=x")
    s.rpc(1, "read", ("ok", LIST))
    s.rpc(1, ("write", CHOICE), NEEDS)
    s.chosen(1)
    s.line("key " + x)
    s.rpc(1, ("write", CHOICE), "ok")
    s.chosen(1, 2, b"srv")


def logins():
    negotiated("a client and a server of p9any")
    negotiated("one whose server consents to the choice", consents=True)
    negotiated("one who speaks for bob by p9any", "start proto=p9any role=speakfor user=bob", b"bob")
    for proto in KINDS:
        mailed(proto)
    without_a_key()
    choices()
    kept_connections()


# ---- what is refused
class Asks:
    """A request waits for the answer to this question."""

    def __init__(self, question):
        self.question = question


class Heard:
    """The authentication server's answer to the question that stands; or none comes, for want of a server or of room."""

    def __init__(self, text, kind="a"):
        self.text, self.kind = text, kind


UNHEARD, ROOMLESS = Heard(b"", "f"), Heard(b"", "m")


class Role:
    """The moves of one side of a login, what attr shows of it, behind its start and behind the move that chooses a key, and
    behind how many moves it comes to its end, whom it accepts then, as the log tells it.
    The cases of a role with the same keys are conversations of one session, a line of its table each."""

    def __init__(self, word, keys, moves, chooses, key, ends=0, user=""):
        self.word, self.keys, self.moves, self.chooses, self.sessions = word, keys, moves, chooses, {}
        self.ends, self.done = ends, " done" + moves[0][0][len("start"):] + user
        self.attrs = ["ok" + moves[0][0][len("start"):], "ok" + moves[0][0][len("start"):] + key]

    def case(self, keys):
        """The session of these keys, the fid of its next conversation, and how many questions it raised before."""
        s = self.sessions.get(tuple(keys))
        if s is None:
            s = self.sessions[tuple(keys)] = one(self.moves[0][0], *keys)
            s.fid, s.raised = 0, 0
            s.begin(1)
            for request, reply in opened(LOG, 0, "factotum", "log"):
                s.say(request, reply, 1)
        s.fid += 1
        return s

    def begin(self, s):
        """The conversation is opened, where none is there already."""
        if s.fid > 1:
            s.open(s.fid)

    def make(self, s, request, answer):
        """A request is answered so, or what is heard; or a question is asked for it."""
        if isinstance(answer, Asks):
            s.raised += 1
            s.wait(s.fid, request, word=self.word)
            s.asked(s.raised, s.fid - 1, answer.question)
        elif isinstance(request, Heard):
            s.step(request.kind, 0, s.raised, request.text)
            s.told(s.fid, answer)
        else:
            s.rpc(s.fid, request, answer, word=self.word)

    def shows(self, s, made, info=NONE):
        s.rpc(s.fid, "attr", self.attrs[made >= self.chooses] if made else "protocol not started")
        s.rpc(s.fid, "authinfo", info)

    def logs(self, s, made, *more):
        """What the log has of this conversation, and nothing else."""
        lines = [self.done] if self.ends and made >= self.ends else []
        for text in lines + list(more):
            s.say(read(LOG, 0, WIDE), rread("%d%s\n" % (s.fid - 1, text)), 1)
        s.say(read(LOG, 0, WIDE, 200), b"", 1)
        s.say(flush(200), rflush(), 1)

    def stays(self, *cases, keys=None, info=NONE):
        """Behind so many moves a request is answered so, and nothing changes."""
        for made, request, answer in cases:
            s = self.case(self.keys if keys is None else keys)
            with s.group():
                self.begin(s)
                for move in self.moves[:made]:
                    self.make(s, *move)
                self.make(s, request, answer)
                self.shows(s, made, info)
                self.logs(s, made)
                s.unasked()

    def breaks(self, *cases):
        """Behind so many moves what comes ends the conversation."""
        for made, request, answer in cases:
            s = self.case(self.keys)
            with s.group():
                self.begin(s)
                for move in self.moves[:made]:
                    self.make(s, *move)
                self.make(s, request, answer)
                s.broken(s.fid, answer)
                self.shows(s, made)
                self.logs(s, made, " error " + answer.split(" proto=")[0].replace("error ", ""))
                s.rpc(s.fid, "read", "phase broken")
                if self.keeps(made):
                    s.dropped(s.fid - 1)
                s.unasked()

    def keeps(self, made):
        """A challenge was asked for, and no vouch."""
        asked = [answer.question for _, answer in self.moves[:made] if isinstance(answer, Asks)]
        return len(asked) == 1 and asked[0][0] != 1


def gives(text):
    return "write", text


def starts(role, proto, one_role, *others):
    """Starts that are refused."""
    start = "start proto=%s role=%s" % (proto, one_role)
    role.stays(
        (0, "read", "protocol not started"), (0, gives(b"x"), "protocol not started"),
        (0, start + " a='b", "error bad template"), (0, start + " !password=a", "error secret in template"),
        (0, "start proto=%sx role=x !x" % proto, "error unknown proto"), (0, "start proto=%s" % proto, "error unknown role"),
        (0, "start proto=%s role=x" % proto, "error unknown role"), *others)


def long_texts(made, text):
    """What is no text that a NUL ends, or too long a one."""
    return [(made, gives(b""), "toosmall 1"), (made, gives(text[:-1]), "toosmall %d" % len(text)),
            (made, gives(b"p" * 1024), "toosmall 1025"), (made, gives(b"p" * 1025), "error message too long"),
            (made, gives(b"p" * 1024 + b"\0"), "error message too long"), (made, gives(text + b"\0"), "error message too long"),
            (made, gives(text + text), "error message too long")]


def sized(made, size):
    """A message that is a byte too short, and one that is too long."""
    return [(made, gives(b"x" * (size - 1)), "toosmall %d" % size), (made, gives(b"x" * (size + 1)), "error message too long")]


def any_client(start=ANY_CLIENT, key=" dom=x user=ann !password?", user=b"ann"):
    return Role(CHC, [ANN_KEY], [
        (start, "ok"), (gives(LIST), "ok"), ("read", ("ok", CHOICE)), ("read", ("ok", CHC)),
        (gives(ASKED), Asks(treq(CHS, b"ann", user))), (Heard(grant(user)), "ok"), ("read", ("ok", shown(user))),
        (gives(PROVED), "ok")], 5, key, 8, " user=ann")


def consented():
    return Role(CHC, [ANN_KEY], [
        (ANY_CLIENT, "ok"), (gives(b"v.2 " + LIST), "ok"), ("read", ("ok", CHOICE)), (gives(CONSENT), "ok")], 5, "")


def any_clients():
    """What a client of p9any refuses."""
    role = any_client()
    starts(role, "p9any", "client", (0, "start proto=p9any role=speakfor", "error bad user"),
           (0, "start proto=p9any role=speakfor user='a b'", "error bad user"))
    role.stays((1, ANY_CLIENT, "phase already started"), (1, "read", "phase awaits write"), *long_texts(1, LIST))
    role.breaks(*[(1, gives(text + b"\0"), "error not offered") for text in [
        b"", b"p9sk1 x", b"p9sk2@x", b"p9sk1@", b"p9sk1@a@b", b"p9sk1@\xff", b"v.2p9sk1@x", b"v.2 ", b"p9sk1x p9sk@x"]])
    any_client(ANY_CLIENT + " dom=y").breaks((1, gives(LIST), "error not offered"))
    role.stays((2, gives(LIST), "phase awaits read"))
    consented().stays((3, "read", "phase awaits write"), *long_texts(3, CONSENT))
    consented().breaks(*[(3, gives(text), "error wrong kind") for text in [b"\0", b"ok\0", b"OK \0", b"O\0"]])
    consented().stays((4, gives(ASKED), "phase awaits read"))
    role.stays((3, gives(ASKED), "phase awaits read"), (4, "read", "phase awaits write"), *sized(4, 141))
    role.stays((4, gives(ASKED), NEEDS), keys=["proto=p9sk1 dom=y user=ann !password=annpass"])
    role.stays((4, gives(ASKED), DENIED), keys=[ANN_KEY + " confirm"])
    role.breaks((4, gives(treq(CHS, kind=2)), "error wrong kind"), (4, gives(treq(CHS, dom=b"y")), "error not offered"))
    grants(role)
    for_bob = any_client("start proto=p9any role=speakfor user=bob", " dom=x !password?", b"bob")
    for_bob.breaks((5, Heard(grant()), "error wrong user"))
    role.stays((6, gives(PROVED), "phase awaits read"), (7, "read", "phase awaits write"), *sized(7, 13))
    role.breaks((7, gives(proof(KN, 67, CHC)), "error wrong kind"), (7, gives(proof(KN, 66, CHS)), "error wrong challenge"))
    role.stays((8, "read", "done haveai"), (8, gives(PROVED), "done haveai"), info=("ok", INFO))


def grants(role):
    """Answers to the question of a client of p9any that end it."""
    def tickets(kind=65, chal=CHS, client=b"ann", server=b"ann", under=ANN):
        return Heard(b"\x04" + ticket(under, kind, chal, client, server, KN) + granted()[1])

    bad = "badkey proto=p9sk1 dom=x user=ann !password?"
    role.breaks(
        (5, Heard(REFUSAL), "error server said no"), (5, Heard(b""), "error wrong kind"),
        (5, Heard(grant()[:-1]), "error wrong kind"), (5, tickets(under=EVE), bad), (5, tickets(kind=64), bad),
        (5, tickets(chal=CHC), "error wrong challenge"), (5, tickets(client=b"eve"), "error wrong user"),
        (5, tickets(server=b"eve"), "error wrong user"),
        (5, UNHEARD, "error no server"), (5, ROOMLESS, "error out of memory"))


def any_server(start=ANY_SERVER, keys=(SRV_KEY,)):
    return Role(CHS, keys, [
        (start, "ok"), ("read", ("ok", LIST)), (gives(CHOICE), "ok"), (gives(CHC), "ok"), ("read", ("ok", ASKED)),
        (gives(shown()), "ok"), ("read", ("ok", PROVED))], 3, " dom=x user=srv !password?", 6, " user=ann")


def any_servers():
    """What a server of p9any refuses."""
    role = any_server()
    starts(role, "p9any", "server")
    for keys in [], [SRV_KEY + " role=client"], ["proto=apop user=srv !password=a"]:
        role.stays((0, ANY_SERVER, ANY_NEEDS), keys=keys)
    role.stays((0, ANY_SERVER + " dom=y user=srv", "needkey proto=p9sk1 dom=y user=srv !password?"))
    role.stays((1, ANY_SERVER, "phase already started"), (1, gives(CHOICE), "phase awaits read"),
               (2, "read", "phase awaits write"), *long_texts(2, CHOICE))
    role.stays((2, gives(CHOICE), DENIED), keys=[SRV_KEY + " confirm"])
    role.breaks(*[(2, gives(text + b"\0"), "error not offered") for text in [
        b"", b"p9sk1 y", b"p9sk1 ", b"p9sk1@x", b"p9sk1  x", b"p9sk1 x ", b"x", b"p9sk2 x"]])
    in_x = any_server(ANY_SERVER + " dom=x", [SRV_KEY, SRV_KEY.replace("=x", "=y")])
    in_x.breaks((2, gives(b"p9sk1 y\0"), "error not offered"))
    role.stays((3, "read", "phase awaits write"), *sized(3, 8))
    role.stays((4, gives(CHC), "phase awaits read"), (5, "read", "phase awaits write"), *sized(5, 85))

    def comes(kind=64, chal=CHS, server=b"ann", under=SRV, behind=proof(KN, 67, CHS)):
        return gives(ticket(under, kind, chal, b"ann", server, KN) + behind)

    role.breaks(
        (5, comes(under=EVE), "error wrong kind"), (5, comes(kind=65), "error wrong kind"),
        (5, comes(chal=OTHER), "error wrong challenge"), (5, comes(server=b""), "error wrong user"),
        (5, comes(behind=proof(KN, 66, CHS)), "error wrong kind"),
        (5, comes(behind=proof(KN, 67, OTHER)), "error wrong challenge"))
    role.stays((6, gives(shown()), "phase awaits read"))
    role.stays((7, "read", "done haveai"), (7, gives(shown()), "done haveai"), info=("ok", INFO))


def mail_client(proto, start=""):
    return Role(CHC, ["proto=%s user=ann !password=annpass" % proto], [
        (mail_start(proto, "client") + start, "ok"), (gives(CHALLENGE), "ok"), ("read", ("ok", DIGITS[proto]))], 2,
        " user=ann !password?", 3)


def mail_clients(proto, other):
    """What a client of APOP or CRAM refuses."""
    role = mail_client(proto)
    starts(role, proto, "client", (0, "start proto=%s role=speakfor user=bob" % proto, "error unknown role"))
    role.stays((1, mail_start(proto, "client"), "phase already started"), (1, "read", "phase awaits write"),
               (1, gives(b""), "toosmall 1"), (1, gives(b"<" * 129), "error message too long"))
    for keys in [], ["proto=%s user=ann !password=a" % other, ANN_KEY]:
        role.stays((1, gives(CHALLENGE), "needkey proto=%s user? !password?" % proto), keys=keys)
    mail_client(proto, " user=bob dom=x").stays((1, gives(CHALLENGE), "needkey proto=%s dom=x user=bob !password?" % proto))
    role.stays((1, gives(CHALLENGE), DENIED), keys=[role.keys[0] + " confirm"])
    role.stays((2, gives(CHALLENGE), "phase awaits read"), (3, "read", "done"), (3, gives(CHALLENGE), "done"))


def mail_server(proto):
    return Role(CHS, [SRV_KEY], [
        (mail_start(proto, "server"), Asks(mail_question(proto))), (Heard(OFFER), "ok"), ("read", ("ok", CHALLENGE)),
        (gives(b"ann"), "ok"), (gives(DIGITS[proto]), Asks(mail_question(proto, b"ann"))), (Heard(vouch()), "ok")], 1,
        " dom=x user=srv !password?", 6, " user=ann")


def mail_servers(proto):
    """What a server of APOP or CRAM refuses."""
    role, start = mail_server(proto), mail_start(proto, "server")
    starts(role, proto, "server")
    for keys in [], [SRV_KEY + " role=client"], ["proto=%s dom=x user=srv !password=a" % proto]:
        role.stays((0, start, ANY_NEEDS), keys=keys)
    role.stays((0, start + " dom=y", "needkey proto=p9sk1 dom=y user? !password?"))
    role.stays((0, start, DENIED), keys=[SRV_KEY + " confirm"])
    role.breaks(
        (1, Heard(REFUSAL), "error server said no"), (1, Heard(b""), "error wrong kind"),
        (1, Heard(vouch()), "error wrong kind"), (1, Heard(OFFER[:-1]), "error wrong kind"),
        (1, Heard(OFFER + b">"), "error wrong kind"), (1, Heard(b"\x090    "), "error wrong kind"),
        (1, Heard(b"\x09129  " + b"<" * 129), "error wrong kind"),
        (1, UNHEARD, "error no server"), (1, ROOMLESS, "error out of memory"))
    role.breaks(*[(3, gives(name), "error wrong user") for name in [b"a b", b"\xff", b"ann\0"]])
    role.stays((2, start, "phase already started"), (2, gives(b"ann"), "phase awaits read"), (3, "read", "phase awaits write"),
               (3, gives(b""), "toosmall 1"), (3, gives(b"u" * 28), "error message too long"),
               (4, "read", "phase awaits write"), *sized(4, 32))
    bad = "badkey proto=p9sk1 dom=x user=srv !password?"
    role.breaks(
        (5, Heard(REFUSAL), "error server said no"), (5, Heard(b""), "error wrong kind"),
        (5, Heard(OFFER), "error wrong kind"), (5, Heard(vouch()[:-1]), "error wrong kind"),
        (5, Heard(vouch(key=EVE)), bad), (5, Heard(vouch(kind=65)), bad),
        (5, Heard(vouch(chal=OTHER)), "error wrong challenge"), (5, Heard(vouch(client=b"eve")), "error wrong user"),
        (5, Heard(vouch(server=b"eve")), "error wrong user"), (5, Heard(vouch(behind=proof(KN, 66, CHS))), "error wrong kind"),
        (5, Heard(vouch(behind=proof(KN, 67, OTHER))), "error wrong challenge"),
        (5, UNHEARD, "error no server"), (5, ROOMLESS, "error out of memory"))
    role.stays((6, "read", "done haveai"), (6, gives(DIGITS[proto]), "done haveai"), info=("ok", INFO))


def apops():
    mail_clients("apop", "cram")
    mail_servers("apop")


def crams():
    mail_clients("cram", "apop")
    mail_servers("cram")


TABLES = [
    (logins, "whole", "whole logins by p9any, APOP and CRAM, offers, and connections that are given up"),
    (any_clients, "p9any_clients", "what clients of p9any refuse"),
    (any_servers, "p9any_servers", "what servers of p9any refuse"),
    (apops, "apop", "what APOP refuses"),
    (crams, "cram", "what CRAM refuses"),
]

NAMED = {
    "CHC": CHC, "CHS": CHS, "OTHER": OTHER, "WORDS": WORDS, "LIST": LIST, "CHOICE": CHOICE, "CONSENT": CONSENT, "ASKED": ASKED,
    "REFUSAL": REFUSAL, "OFFER": OFFER, "CHALLENGE": CHALLENGE, "VOUCH": vouch(), "INFO": INFO, "PROVED": PROVED,
    "MINE": granted()[0], "THEIRS": granted()[1], "CLIENTS_PROOF": proof(KN, 67, CHS), "OTHER_WORDS": OTHER + bytes(16),
    "QUESTION": treq(CHS, b"ann", b"ann"), "GRANT": grant(), "SHOWN": shown(),
    "QUESTION_FOR_BOB": treq(CHS, b"ann", b"bob"), "GRANT_FOR_BOB": grant(b"bob"), "SHOWN_FOR_BOB": shown(b"bob"),
    "INFO_FOR_BOB": authinfo(b"ann", b"bob", KN),
    **{proto.upper() + "_DIGITS": DIGITS[proto] for proto in KINDS},
    **{proto.upper() + "_QUESTION": mail_question(proto) for proto in KINDS},
    **{proto.upper() + "_VOUCH_QUESTION": mail_question(proto, b"ann") for proto in KINDS},
}

if __name__ == "__main__":
    main(TABLES, "whole_logins.py", NAMED)
