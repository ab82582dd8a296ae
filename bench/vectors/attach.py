#!/usr/bin/env python3
"""Prints crates/command_rows/data/attaches.rows: connections to a file server that asks an agent, each with its status, its line,
what is answered and what is noted. attach.py session prints the bytes of one whole session instead, for a client to send, with
the words of attach.py words; attach.py stream those of the stored run of auth_attach.

Written from the manual's words (Plan 9: section 5, auth(2), factotum(4) and authsrv(6)) and this project's tests and texts; DES is
OpenSSL's. It shares nothing with the proved code.
"""
import sys

from frames import frame, le, qid, s
from message_rows import row_field
from passwords import pass_to_key
from sealing import seal
from tickets_text import field

NOFID, NOTAG = 0xffffffff, 0xffff
ROOT, WHO, AUTH = qid(0x80, 0, 0), qid(0, 0, 1), qid(8, 0, 2)
KEY = b"key proto=p9sk1 dom=x user=srv !password=srvpass\n"
SRV = pass_to_key(b"srvpass")
KN, CHC = bytes(range(0x51, 0x58)), bytes.fromhex("0123456789abcdef")
LIST, CHOICE = b"p9sk1@x\0", b"p9sk1 x\0"

HEAD = """\
# What bench/vectors/attach.py prints: connections to a file server that asks an agent, on objects in memory, from the manual's
# words, sealed by OpenSSL's DES.
#
#     attach WORDS INPUT FAULT.. => STATUS LINE WRITTEN NOTES
#                                 the number of the status, its line on standard error, what the client is answered, and the
#                                 lines of what is noted
#     quiet WORDS INPUT FAULT.. => STATUS LINE WRITTEN
#                                 the same without notes
#     no_memory => STATUS LINE    the status of want of memory, and its line
#     flood => STATUS LINE        that of an input that is too long, and its line
#
# The other rows are those of authsrv.rows; the keys are those of the keys file."""


# ---- messages
def version(msize: int = 8216) -> bytes:
    return frame(100, NOTAG, le(msize, 4), s(b"9P2000"))


def rversion(msize: int = 8216) -> bytes:
    return frame(101, NOTAG, le(msize, 4), s(b"9P2000"))


def auth(afid: int, uname: bytes, aname: bytes = b"") -> bytes:
    return frame(102, 1, le(afid, 4), s(uname), s(aname))


def attach(fid: int, afid: int, uname: bytes, aname: bytes = b"") -> bytes:
    return frame(104, 1, le(fid, 4), le(afid, 4), s(uname), s(aname))


def error(why: bytes) -> bytes:
    return frame(107, 1, s(why))


def walk(fid: int, newfid: int, *names: bytes) -> bytes:
    return frame(110, 1, le(fid, 4), le(newfid, 4), le(len(names), 2), *map(s, names))


def read(fid: int, count: int, offset: int = 0) -> bytes:
    return frame(116, 1, le(fid, 4), le(offset, 8), le(count, 4))


def rread(content: bytes) -> bytes:
    return frame(117, 1, le(len(content), 4), content)


def write(fid: int, content: bytes) -> bytes:
    return frame(118, 1, le(fid, 4), le(0, 8), le(len(content), 4), content)


def rwrite(count: int) -> bytes:
    return frame(119, 1, le(count, 4))


RAUTH, RATTACH, RCLUNK = frame(103, 1, AUTH), frame(105, 1, ROOT), frame(121, 1)


def clunk(fid: int) -> bytes:
    return frame(120, 1, le(fid, 4))


# ---- p9sk1
def asked(chal: bytes) -> bytes:
    """What the server asks its client to show."""
    return b"\1" + field(b"srv", 28) + field(b"x", 48) + chal + bytes(56)


def shown(chal: bytes, client: bytes, user: bytes) -> bytes:
    """The ticket for the server, and the client's proof."""
    ticket = seal(SRV, b"\x40" + chal + field(client, 28) + field(user, 28) + KN)
    return ticket + seal(KN, b"\x43" + chal + bytes(4))


PROVED = seal(KN, b"\x42" + CHC + bytes(4))


# ---- sessions
class Session:
    """Requests, each with its reply, its word and what is noted of it."""

    def __init__(self) -> None:
        self.requests, self.replies, self.notes = [], [], []

    def word(self, number: int) -> bytes:
        """The word of a frame, counted from 0."""
        return bytes((number * 8 + at + 3) % 251 for at in range(8))

    @property
    def words(self) -> bytes:
        return b"".join(self.word(number) for number in range(len(self.requests)))

    def ask(self, request: bytes, reply: bytes) -> "Session":
        self.requests.append(request)
        self.replies.append(reply)
        return self

    def attach(self, fid: int, afid: int, uname: bytes, why: bytes = b"", aname: bytes = b"") -> "Session":
        self.notes.append(bytes(byte if 32 < byte < 127 else 63 for byte in uname) + b": " + (why or b"attached"))
        return self.ask(attach(fid, afid, uname, aname), error(why) if why else RATTACH)

    def begin(self) -> "Session":
        return self.ask(version(), rversion())

    def auth(self, afid: int, uname: bytes) -> "Session":
        self.chal = self.word(len(self.requests))
        return self.ask(auth(afid, uname), RAUTH)

    def log_in(self, afid: int, user: bytes = b"ann", client: bytes = b"ann") -> "Session":
        """The client's agent runs p9any through the afid."""
        self.ask(read(afid, 100), rread(LIST)).ask(write(afid, CHOICE), rwrite(8)).ask(write(afid, CHC), rwrite(8))
        self.ask(read(afid, 8192), rread(asked(self.chal)))
        proof = shown(self.chal, client, user)
        return self.ask(write(afid, proof), rwrite(len(proof))).ask(read(afid, 8192), rread(PROVED))

    def look(self, fid: int, user: bytes) -> "Session":
        """The file tells for whom it was attached."""
        self.ask(walk(fid, 9, b"who"), frame(111, 1, le(1, 2), WHO)).ask(frame(112, 1, le(9, 4), b"\0"), frame(113, 1, WHO, le(0, 4)))
        return self.ask(read(9, 8192), rread(user + b"\n")).ask(clunk(9), RCLUNK)


def whole(chal: bytes = b"") -> Session:
    """A session in which nobody attaches before he is authenticated, and then one does; the challenge is this one, if it is given."""
    session = Session().begin().attach(0, NOFID, b"ann", b"authentication required").auth(1, b"ann")
    session.chal = chal or session.chal
    session.attach(0, 1, b"ann", b"not authenticated").log_in(1)
    return session.attach(0, 1, b"bob", b"wrong attach").attach(0, 1, b"ann").look(0, b"ann")


def to_the_end(chal: bytes = b"") -> Session:
    """The same, and then its conversation is closed by a clunk, and another's by a version."""
    session = whole(chal).ask(clunk(1), RCLUNK).attach(3, 1, b"ann", b"authentication required")
    return session.auth(2, b"ann").begin()


# ---- rows
def show_hex(name: str, text: bytes) -> None:
    digits = text.hex()
    print(f"hex {name} {' '.join(digits[at:at + 64] for at in range(0, len(digits), 64))}")


def keep(name: str, text: bytes) -> str:
    """The name of a text that stands above the rows."""
    if not text:
        return '""'
    show_hex(name, text)
    return f"${name}"


def quoted(text: bytes) -> str:
    return row_field(text) if text else '""'


def row(name: str, given: bytes, status: int, line: str, answered: bytes, notes: list[bytes], faults: str = "",
        words: bytes = b"--keys PATH", verb: str = "attach") -> None:
    sent, came = (f"${name}", f"${name}-answer") if verb == "quiet" else (keep(name, given), keep(f"{name}-answer", answered))
    told = quoted((line + "\n").encode() if line else b"")
    noted = quoted(b"".join(b"auth_attach: " + note + b"\n" for note in notes))
    behind = f" {noted}" if verb == "attach" else ""
    print(f"{verb} {quoted(words)} {sent}{' ' if faults else ''}{faults} => {status} {told} {came}{behind}")


def draw(words: bytes) -> None:
    show_hex("words", words)
    print("drawn $words")


def play(name: str, session: Session, verb: str = "attach") -> None:
    """A session that ends well; one without notes stands behind the same with them."""
    if verb == "attach":
        draw(session.words)
    row(name, b"".join(session.requests), 0, "", b"".join(session.replies), session.notes, verb=verb)


def main() -> None:
    print(HEAD)
    print(f"\nkeys {row_field(KEY)}")

    print("\n# Nobody attaches before he is authenticated; then he does, and no other.")
    play("whole", whole())
    play("whole", whole(), "quiet")

    print("\n# An afid serves any number of attaches; each user has his own.")
    both = Session().begin().auth(1, b"ann").log_in(1).auth(2, b"bob").log_in(2, b"bob", b"bob")
    both.attach(3, 1, b"ann").attach(4, 1, b"ann").attach(5, 2, b"bob").look(4, b"ann").look(5, b"bob")
    play("two-users", both.attach(6, 2, b"ann", b"wrong attach"))

    print("\n# Whom the server accepts counts, and not who the client says he is: one who speaks for bob attaches as bob.")
    play("speaks-for", Session().begin().auth(1, b"bob").log_in(1, b"bob", b"ann").attach(0, 1, b"bob").look(0, b"bob"))
    play("another-login", Session().begin().auth(1, b"bob").log_in(1).attach(0, 1, b"bob", b"not authenticated"))

    print("\n# A name can't make a line of its own; an attach that is no message is noted too.")
    forged = b"x\nauth_attach: root: attached"
    named = Session().begin().attach(0, NOFID, forged, b"authentication required")
    named.notes.append(b"ann: bad message")
    play("forged", named.ask(attach(0, NOFID, b"ann")[:-2] + b"\0\1", error(b"bad message")))

    print("\n# An empty file of keys, and one of empty lines.")
    unavailable = Session().begin().ask(auth(1, b"ann"), error(b"authentication unavailable"))
    unavailable.attach(0, 1, b"ann", b"authentication required")
    for keys in (b"", b"\n\n"):
        print(f"keys {quoted(keys)}")
        play(f"no-keys-{len(keys)}", unavailable)

    print("\n# Empty lines are skipped, and the last line may lack its newline.")
    print(f"keys {row_field(b'key proto=apop user=ann !password=a' + chr(10).encode() * 3 + KEY[:-1])}")
    play("two-keys", Session().begin().auth(1, b"ann").log_in(1).attach(0, 1, b"ann"))

    print("\n# The first line that is no key's, or that ctl refuses; nothing is read or written then.")
    sent = Session().begin()
    draw(sent.words)
    refused = ((b"# a comment\n", 1), (KEY + b"\nkey\n", 3), (KEY + b"delkey proto=p9sk1\n", 2), (KEY + b"debug\n", 2),
               (b"key user=ann !password=a\n", 1), (KEY + b"key proto=apop user=ann\n" + b"no\n", 2),
               (b"key proto=apop user=ann !password=" + b"a" * 4062 + b"\n", 0),
               (b"key proto=apop user=ann !password=" + b"a" * 4063 + b"\n", 1), (b" " + KEY, 1))
    for number, (keys, line) in enumerate(refused):
        print(f"text keys-{number} {row_field(keys)}\nkeys $keys-{number}")
        status, told = (8, f"auth_attach: keys line {line}") if line else (0, "")
        row(f"bad-keys-{number}", sent.requests[0], status, told, b"" if line else sent.replies[0], [])
    print('times long-file 4194304 "\\n"\nkeys $long-file')
    row("most-keys", sent.requests[0], 0, "", sent.replies[0], [])
    print('times longer-file 4194305 "\\n"\nkeys $longer-file')
    row("long-keys", sent.requests[0], 11, "auth_attach: input over 4194304 bytes", b"", [])
    print(f"keys {row_field(KEY)}")
    row("keys-fault", sent.requests[0], 2, "auth_attach: read fault", b"", [], "keys_fault=1")

    print("\n# An input that is empty, ends inside a frame, or shows a bad size.")
    two = Session().begin().attach(0, NOFID, b"ann", b"authentication required")
    first, second = two.requests
    draw(two.words)
    row("empty", b"", 0, "", b"", [])
    for count in (1, 4, len(first) - 1):
        row(f"torn-{count}", first[:count], 6, "auth_attach: input ends inside the message at 0", b"", [])
    row("torn-second", first + second[:-1], 6, f"auth_attach: input ends inside the message at {len(first)}", two.replies[0], [])
    for size in (6, 0, 8217, 0xffffffff):
        row(f"bad-size-{size}", first + le(size, 4), 5, f"auth_attach: bad frame size {size} at {len(first)}", two.replies[0], [])
    row("bad-size-first", le(5, 4) + first, 5, "auth_attach: bad frame size 5 at 0", b"", [])

    print("\n# Faults of the outside: what was answered before stands.")
    both_sent, answered = first + second, b"".join(two.replies)
    row("read-fault", both_sent, 2, "auth_attach: read fault", b"", [], "read_fault=1")
    row("read-fault-behind", both_sent, 2, "auth_attach: read fault", answered, two.notes, "read_fault=2")
    row("word-fault", both_sent, 4, "auth_attach: word fault", b"", [], "word_fault=1")
    row("word-fault-behind", both_sent, 4, "auth_attach: word fault", two.replies[0], [], "word_fault=2")
    row("write-fault", both_sent, 3, "auth_attach: write fault", b"", [], "write_fault=1")
    row("write-fault-behind", both_sent, 3, "auth_attach: write fault", two.replies[0], two.notes, "write_fault=2")
    draw(two.word(0))
    row("no-word-behind", both_sent, 4, "auth_attach: word fault", two.replies[0], [])

    print("\n# Words that aren't the program's.")
    for number, words in enumerate((b"", b"--keys", b"--keys -x", b"--key PATH", b"--keys PATH more", b"keys PATH")):
        row(f"usage-{number}", first, 1, "auth_attach: usage", b"", [], words=words)
    print('no_memory => 10 "auth_attach: out of memory\\n"')
    print('flood => 11 "auth_attach: input over 1099511627776 bytes\\n"')


if __name__ == "__main__":
    what = sys.argv[1] if len(sys.argv) > 1 else "rows"
    if what == "rows":
        main()
    else:
        session = whole()
        sys.stdout.buffer.write({"session": b"".join(session.requests), "replies": b"".join(session.replies), "words": session.words}[what])
