#!/usr/bin/env python3
"""Writes the records of the scripts in crates/command_rows/data and docs/worlds: worlds.py FOLDER puts NAME.record beside each
NAME.script that is named here and stands in that folder.

Written by hand from the manual's words (Plan 9: factotum(4), authsrv(6)), RFC 1939, RFC 2195 and the form of a record; OpenSSL's DES seals,
and its MD5 makes the digits. A script is read here for its bytes alone: what each line comes to is told below, in order.
"""
import hashlib
import hmac
import sys
from collections.abc import Callable
from pathlib import Path

from passwords import pass_to_key
from sealing import seal

ANN, BOB, SRV, OTH, NEW = (pass_to_key(password) for password in (b"annpass", b"bobpass", b"srvpass", b"othpass", b"newpass8"))
TREQ, OK, COUNTED, APOP, CRAM = 1, 4, 9, 7, 12
TO_SERVER, TO_CLIENT, BY_SERVER, BY_CLIENT = 64, 65, 66, 67
NO_WORD = bytes(8)


def field(name: bytes, size: int) -> bytes:
    return name.ljust(size, b"\0")


def request(kind: int, chal: bytes, host: bytes = b"", user: bytes = b"", server: bytes = b"srv", dom: bytes = b"x") -> bytes:
    return bytes([kind]) + field(server, 28) + field(dom, 48) + chal + field(host, 28) + field(user, 28)


def ticket(key: bytes, kind: int, chal: bytes, user: bytes, shared: bytes) -> bytes:
    return seal(key, bytes([kind]) + chal + field(user, 28) + field(user, 28) + shared)


def proof(kind: int, chal: bytes, shared: bytes) -> bytes:
    return seal(shared, bytes([kind]) + chal + bytes(4))


class Record:
    """The lines of a record. A message is numbered by its place."""

    def __init__(self) -> None:
        self.lines: list[str] = []
        self.messages = 0

    def put(self, *words: object) -> None:
        self.lines.append(" ".join(word.hex() if isinstance(word, bytes) else str(word) for word in words))

    def give(self, kind: str, name: str, message: bytes) -> bytes:
        self.put(kind, self.messages, name, message)
        self.messages += 1
        return message

    def login(self, client: str, server: str, words: tuple[bytes, bytes], drawn: list[bytes], dom: bytes = b"x") -> None:
        """p9sk1 from its first message to both acceptances, of ann at srv in a domain."""
        mine, theirs = words
        self.put("in", server, self.give("out", client, mine))
        self.put("in", client, self.give("out", server, request(TREQ, theirs, dom=dom)))
        self.granted(client, server, words, drawn, (b"srv", SRV), dom)

    def granted(self, client: str, server: str, words: tuple[bytes, bytes], drawn: list[bytes], at: tuple[bytes, bytes], dom: bytes = b"x") -> None:
        """The same from the client's question on, at a server of a name and a key."""
        mine, theirs = words
        name, key = at
        shared = drawn[0][:7]
        asked = self.give("ask", client, request(TREQ, theirs, b"ann", b"ann", name, dom))
        self.put("asgot", "r", asked, *drawn)
        grant = bytes([OK]) + ticket(ANN, TO_CLIENT, theirs, b"ann", shared) + ticket(key, TO_SERVER, theirs, b"ann", shared)
        self.put("heard", client, self.give("asgave", "r", grant))
        self.put("in", server, self.give("out", client, grant[73:] + proof(BY_CLIENT, theirs, shared)))
        self.put("accept", server, "ann", "ann")
        self.put("in", client, self.give("out", server, proof(BY_SERVER, mine, shared)))
        self.put("accept", client, "ann", "ann")


def words(digit: int, count: int) -> list[bytes]:
    return [bytes([(digit + step) * 17]) * 8 for step in range(count)]


def mail_client() -> Record:
    record = Record()
    challenge = b"<1896.697170952@dbc.mtview.ca.us>"
    record.put("start", "c", "apop", "client", NO_WORD)
    record.put("in", "c", challenge)
    record.give("out", "c", hashlib.md5(challenge + b"tanstaaf").hexdigest().encode())
    record.put("reply", "c", "done")
    return record


def negotiated_login() -> Record:
    record = Record()
    mine, theirs = words(1, 2)
    record.put("start", "c", "p9any", "client", mine)
    record.put("start", "s", "p9any", "server", theirs)
    record.put("in", "c", record.give("out", "s", b"p9sk1@x\0"))
    record.put("in", "s", record.give("out", "c", b"p9sk1 x\0"))
    record.login("c", "s", (mine, theirs), words(4, 3))
    return record


def one_ticket_for_two() -> Record:
    record = Record()
    first, second, theirs, others = words(1, 4)
    drawn = words(5, 3)
    shared = drawn[0][:7]
    record.put("start", "c", "p9sk1", "client", first)
    record.put("start", "d", "p9sk1", "client", second)
    record.put("start", "s", "p9sk1", "server", theirs)
    record.put("start", "t", "p9sk1", "server", others)
    record.put("in", "s", record.give("out", "c", first))
    asked = record.give("out", "s", request(TREQ, theirs))
    record.give("out", "d", second)
    question = request(TREQ, theirs, b"ann", b"ann")
    for client in "cd":
        record.put("in", client, asked)
        record.give("ask", client, question)
    record.put("asgot", "r", question, *drawn)
    grant = bytes([OK]) + ticket(ANN, TO_CLIENT, theirs, b"ann", shared) + ticket(SRV, TO_SERVER, theirs, b"ann", shared)
    record.give("asgave", "r", grant)
    passed = grant[73:] + proof(BY_CLIENT, theirs, shared)
    for client in "cd":
        record.put("heard", client, grant)
        record.give("out", client, passed)
    record.put("in", "s", passed)
    record.put("accept", "s", "ann", "ann")
    record.put("reply", "s", "phase awaits read")
    record.put("in", "t", second)
    record.give("out", "t", request(TREQ, others))
    record.put("in", "t", passed)
    record.put("fail", "t", "wrong challenge")
    return record


def mail_login_for_another() -> Record:
    record = Record()
    own, theirs = words(1, 2)
    first, second = words(3, 3), words(6, 3)
    record.put("start", "s", "p9sk1", "server", theirs)
    record.put("in", "s", own)
    record.give("out", "s", request(TREQ, theirs))
    record.put("asgot", "r", request(APOP, theirs), *first)
    challenge = b"<" + first[0].hex().encode() + b"@x>"
    record.give("asgave", "r", bytes([COUNTED]) + str(len(challenge)).encode().ljust(5) + challenge)
    record.put("start", "c", "apop", "client", NO_WORD)
    record.put("in", "c", challenge)
    digits = record.give("out", "c", hashlib.md5(challenge + b"bobpass").hexdigest().encode())
    record.put("asgot", "r", request(APOP, theirs, b"", b"bob") + digits, *second)
    shared = second[0][:7]
    vouch = record.give("asgave", "r", bytes([OK]) + ticket(SRV, TO_SERVER, theirs, b"bob", shared) + proof(BY_CLIENT, theirs, shared))
    record.put("in", "s", vouch[1:])
    record.put("accept", "s", "bob", "bob")
    record.give("out", "s", proof(BY_SERVER, own, shared))
    return record


def turned_client() -> Record:
    record = Record()
    mine, theirs, others = words(1, 3)
    record.put("start", "c", "p9sk1", "client", mine)
    record.put("start", "s", "p9sk1", "server", theirs)
    record.put("start", "o", "p9sk1", "server", others)
    record.put("in", "s", record.give("out", "c", mine))
    record.give("out", "s", request(TREQ, theirs))
    record.put("in", "o", mine)
    record.put("in", "c", record.give("out", "o", request(TREQ, others, server=b"oth")))
    record.granted("c", "o", (mine, others), words(4, 3), (b"oth", OTH))
    record.put("reply", "s", "phase awaits write")
    return record


def offer_taken_away() -> Record:
    record = Record()
    mine, theirs = words(1, 2)
    record.put("start", "c", "p9any", "client", mine)
    record.put("start", "s", "p9any", "server", theirs)
    record.give("out", "s", b"p9sk1@x p9sk1@y\0")
    record.put("in", "c", b"p9sk1@y\0")
    record.put("in", "s", record.give("out", "c", b"p9sk1 y\0"))
    record.login("c", "s", (mine, theirs), words(4, 3), b"y")
    return record


def guessed_password() -> Record:
    record = Record()
    chal, = words(2, 1)
    drawn = words(4, 3)
    shared = drawn[0][:7]
    record.put("asgot", "r", request(TREQ, chal, b"ann", b"ann"), *drawn)
    record.give("asgave", "r", bytes([OK]) + ticket(ANN, TO_CLIENT, chal, b"ann", shared) + ticket(SRV, TO_SERVER, chal, b"ann", shared))
    return record


def p9sk1_login() -> Record:
    record = Record()
    mine, theirs = words(1, 2)
    record.put("start", "c", "p9sk1", "client", mine)
    record.put("start", "s", "p9sk1", "server", theirs)
    record.login("c", "s", (mine, theirs), words(4, 3))
    return record


def mail_login(proto: str, kind: int, digits_of: Callable[[bytes], str]) -> Record:
    """A mail login of ann at srv, whose digits are made of the challenge by a function."""
    record = Record()
    theirs, = words(2, 1)
    first, second = words(3, 3), words(6, 3)
    record.put("start", "s", proto, "server", theirs)
    record.put("asgot", "r", record.give("ask", "s", request(kind, theirs, b"srv")), *first)
    challenge = b"<" + first[0].hex().encode() + b"@x>"
    record.put("heard", "s", record.give("asgave", "r", bytes([COUNTED]) + str(len(challenge)).encode().ljust(5) + challenge))
    record.give("out", "s", challenge)
    record.put("start", "c", proto, "client", NO_WORD)
    record.put("in", "c", challenge)
    digits = record.give("out", "c", digits_of(challenge).encode())
    record.put("in", "s", b"ann")
    record.put("in", "s", digits)
    record.put("asgot", "r", record.give("ask", "s", request(kind, theirs, b"srv", b"ann") + digits), *second)
    shared = second[0][:7]
    vouch = bytes([OK]) + ticket(SRV, TO_SERVER, theirs, b"ann", shared) + proof(BY_CLIENT, theirs, shared)
    record.put("heard", "s", record.give("asgave", "r", vouch))
    record.put("accept", "s", "ann", "ann")
    return record


def apop_login() -> Record:
    return mail_login("apop", APOP, lambda challenge: hashlib.md5(challenge + b"annpass").hexdigest())


def cram_login() -> Record:
    return mail_login("cram", CRAM, lambda challenge: hmac.new(b"annpass", challenge, "md5").hexdigest())


# ---- what the network tries in vain, in scripts that begin as those of gen do
GEN_BEGINS = """askey user=ann !password=annpass
askey user=srv !password=srvpass
node a
node b
ctl a key proto=p9sk1 dom=x user=ann !password=annpass
ctl b key proto=p9sk1 dom=x user=srv !password=srvpass
"""


def begun(*starts: tuple[str, str]) -> Record:
    """A record in which conversations of p9sk1 are started, with the words 1.., 2.. and so on."""
    record = Record()
    for (name, role), word in zip(starts, words(1, len(starts))):
        record.put("start", name, "p9sk1", role, word)
    return record


def asked(
    record: Record, client: str, server: str, words_of: tuple[bytes, bytes], drawn: list[bytes], ann: bytes = ANN
) -> tuple[bytes, bytes]:
    """p9sk1 from its first message to the grant, which isn't handed to the client yet: the grant, and the shared key."""
    mine, theirs = words_of
    record.put("in", server, record.give("out", client, mine))
    record.put("in", client, record.give("out", server, request(TREQ, theirs)))
    question = record.give("ask", client, request(TREQ, theirs, b"ann", b"ann"))
    record.put("asgot", "r", question, *drawn)
    return record.give("asgave", "r", grant_of(theirs, drawn, ann)), drawn[0][:7]


def grant_of(chal: bytes, drawn: list[bytes], ann: bytes = ANN) -> bytes:
    shared = drawn[0][:7]
    return bytes([OK]) + ticket(ann, TO_CLIENT, chal, b"ann", shared) + ticket(SRV, TO_SERVER, chal, b"ann", shared)


def passed_on(record: Record, client: str, chal: bytes, grant: bytes, shared: bytes) -> bytes:
    """The client hears the grant, and gives its ticket and its proof."""
    record.put("heard", client, grant)
    return record.give("out", client, grant[73:] + proof(BY_CLIENT, chal, shared))


PAIR = (("c", "client"), ("s", "server"))


def own_proof_given_back() -> Record:
    record, (mine, theirs) = begun(*PAIR), words(1, 2)
    grant, shared = asked(record, "c", "s", (mine, theirs), words(4, 3))
    record.put("in", "c", passed_on(record, "c", theirs, grant, shared)[72:])
    record.put("fail", "c", "wrong kind")
    return record


def tickets_exchanged() -> Record:
    record, (mine, theirs) = begun(*PAIR), words(1, 2)
    grant, _ = asked(record, "c", "s", (mine, theirs), words(4, 3))
    record.put("heard", "c", grant[:1] + grant[73:] + grant[1:73])
    record.put("fail", "c", "badkey")
    return record


def answer_to_another_question() -> Record:
    record, (first, second, theirs, others) = begun(("c", "client"), ("d", "client"), ("s", "server"), ("t", "server")), words(1, 4)
    record.put("in", "s", record.give("out", "c", first))
    to_first = record.give("out", "s", request(TREQ, theirs))
    record.put("in", "t", record.give("out", "d", second))
    to_second = record.give("out", "t", request(TREQ, others))
    record.put("in", "c", to_first)
    record.give("ask", "c", request(TREQ, theirs, b"ann", b"ann"))
    record.put("in", "d", to_second)
    question = record.give("ask", "d", request(TREQ, others, b"ann", b"ann"))
    drawn = words(5, 3)
    record.put("asgot", "r", question, *drawn)
    record.put("heard", "c", record.give("asgave", "r", grant_of(others, drawn)))
    record.put("fail", "c", "wrong challenge")
    return record


def question_for_another_user() -> Record:
    record, (mine, theirs), drawn = begun(*PAIR), words(1, 2), words(4, 3)
    record.put("in", "s", record.give("out", "c", mine))
    record.put("in", "c", record.give("out", "s", request(TREQ, theirs)))
    record.give("ask", "c", request(TREQ, theirs, b"ann", b"ann"))
    record.put("asgot", "r", request(TREQ, theirs, b"ann", b"srv"), *drawn)

    def drawn_ticket(key: bytes, kind: int) -> bytes:
        return seal(key, bytes([kind]) + theirs + field(b"ann", 28) + field(b"srv", 28) + drawn[0][:7])

    # For who may not ask, the keys of both tickets are drawn, the server's first.
    grant = bytes([OK]) + drawn_ticket(drawn[2][:7], TO_CLIENT) + drawn_ticket(drawn[1][:7], TO_SERVER)
    record.put("heard", "c", record.give("asgave", "r", grant))
    record.put("fail", "c", "badkey")
    return record


def proof_for_another_client() -> Record:
    record, (first, second, theirs) = begun(("c", "client"), ("d", "client"), ("s", "server")), words(1, 3)
    record.put("in", "s", record.give("out", "c", first))
    to_both = record.give("out", "s", request(TREQ, theirs))
    record.give("out", "d", second)
    question = request(TREQ, theirs, b"ann", b"ann")
    for client in "cd":
        record.put("in", client, to_both)
        record.give("ask", client, question)
    drawn = words(5, 3)
    record.put("asgot", "r", question, *drawn)
    grant = record.give("asgave", "r", grant_of(theirs, drawn))
    for client in "cd":
        passed = passed_on(record, client, theirs, grant, drawn[0][:7])
    record.put("in", "s", passed)
    record.put("accept", "s", "ann", "ann")
    record.put("in", "d", record.give("out", "s", proof(BY_SERVER, first, drawn[0][:7])))
    record.put("fail", "d", "wrong challenge")
    return record


def proof_given_twice() -> Record:
    record, (mine, theirs) = begun(*PAIR), words(1, 2)
    grant, shared = asked(record, "c", "s", (mine, theirs), words(4, 3))
    record.put("in", "s", passed_on(record, "c", theirs, grant, shared))
    record.put("accept", "s", "ann", "ann")
    record.put("reply", "s", "phase awaits read")
    return record


def tables_read_again() -> Record:
    record, (mine, theirs) = begun(*PAIR), words(1, 2)
    record.login("c", "s", (mine, theirs), words(3, 3))
    record.put("reload")
    own, others = words(6, 2)
    record.put("start", "d", "p9sk1", "client", own)
    record.put("start", "t", "p9sk1", "server", others)
    grant, _ = asked(record, "d", "t", (own, others), words(8, 3), NEW)
    record.put("heard", "d", grant)
    record.put("fail", "d", "badkey")
    return record


def restarted_node() -> Record:
    record = tables_read_again()
    record.put("restart", "a")
    return record


def proof_at_another_conversation() -> Record:
    record, (mine, theirs, others) = begun(*PAIR, ("t", "server")), words(1, 3)
    grant, shared = asked(record, "c", "s", (mine, theirs), words(4, 3))
    passed = passed_on(record, "c", theirs, grant, shared)
    record.put("in", "s", passed)
    record.put("accept", "s", "ann", "ann")
    record.put("in", "t", mine)
    record.give("out", "t", request(TREQ, others))
    record.put("in", "t", passed)
    record.put("fail", "t", "wrong challenge")
    return record


IN_VAIN = {
    "own_proof_given_back": own_proof_given_back,
    "tickets_exchanged": tickets_exchanged,
    "answer_to_another_question": answer_to_another_question,
    "question_for_another_user": question_for_another_user,
    "proof_for_another_client": proof_for_another_client,
    "proof_given_twice": proof_given_twice,
    "proof_at_another_conversation": proof_at_another_conversation,
}

RECORDS = {
    **IN_VAIN,
    "mail_client": mail_client,
    "negotiated_login": negotiated_login,
    "one_ticket_for_two": one_ticket_for_two,
    "mail_login_for_another": mail_login_for_another,
    "turned_client": turned_client,
    "offer_taken_away": offer_taken_away,
    "guessed_password": guessed_password,
    "tables_read_again": tables_read_again,
    "restarted_node": restarted_node,
    "p9sk1_login": p9sk1_login,
    "apop_login": apop_login,
    "cram_login": cram_login,
}


def main() -> None:
    folder = Path(sys.argv[1])
    for name, made in RECORDS.items():
        if (folder / f"{name}.script").exists():
            assert name not in IN_VAIN or (folder / f"{name}.script").read_text().startswith(GEN_BEGINS)
            (folder / f"{name}.record").write_text("".join(line + "\n" for line in made().lines))


if __name__ == "__main__":
    main()
