#!/usr/bin/env python3
"""Writes the clients of authsrv that the program command_rows serves from real files, with their tables, and the rows that say
what each is answered, served_clients.rows: usage authsrv_rows.py [FOLDER].

Written from the manual's words (Plan 9: the ticket request, the tickets and the errors of authsrv(6)) and authsrv(8) of man/.
It shares nothing with the proved code.
"""
import pathlib
import sys

from authsrv import answer, request
from mail_requests import apop, challenge, mail_request, refusal, vouch

GRANT = b"".join(request(b"bootes", b"h", b"eve"))
# The same with a server's name that no NUL ends.
BAD = GRANT[:1] + b"b" * 28 + GRANT[29:]
TICKETS = b"".join(answer(b"bootes", b"h", b"eve", True))
REFUSAL = b"".join(refusal(b"bad request"))
# A mail server asks for a challenge, and sends the digits of ann's password, or five times those of another.
FIRST = mail_request(7, b"bootes", b"", b"")
RIGHT = mail_request(7, b"bootes", b"ann", apop(b"annpass"))
GUESS = mail_request(7, b"bootes", b"ann", apop(b"annpas"))
CHALLENGE = b"".join(challenge())
VOUCH = b"".join(vouch(b"bootes", b"ann"))
WRONG = b"".join(refusal(b"bad response"))

FILES = {
    "keys": b"user=bootes !hex=f0f07c7e7fcbc9\nuser=h !hex=0123456789ABCD\nuser=ann !password=annpass\n",
    "speaks": b"# all but bob\nhostid=h uid=!bob uid=*\n",
    "bad_keys": b"user=bootes !hex=f0f07c7e7fcbc9\nuser=h !hex=0123456789ABC\n",
    "bad_speaks": b"# all but bob\n\nuid=eve\n",
    "grant": GRANT,
    "nothing": b"",
    "refused": BAD + b"\x03bootes",
    "apop": FIRST + RIGHT,
    "guesses": FIRST + GUESS * 5 + RIGHT,
    "part": GRANT[:100],
}

# The words of six requests.
WORDS = bytes(range(0x10, 0x18)) + bytes(range(0x20, 0x28)) + bytes(range(0x30, 0x38))

# The texts that rows name.
TEXTS = {
    "tickets": TICKETS,
    "bad_request": REFUSAL,
    "login": CHALLENGE + VOUCH,
    "wrong": CHALLENGE + WRONG * 5,
}

# What a row is about, its files (the client, the keys, who speaks for whom), its status, the line of that, and what is written.
ROWS = [
    ("a grant", "grant keys speaks", 0, "", "tickets"),
    ("a client that ends at once", "nothing keys speaks", 0, "", ""),
    ("a bad request, and a kind that isn't served", "refused keys speaks", 9, "unknown request 3 at 141", "bad_request"),
    ("a login by APOP", "apop keys speaks", 0, "", "login"),
    ("five wrong answers", "guesses keys speaks", 9, "too many wrong answers", "wrong"),
    ("a part of a request", "part keys speaks", 6, "input ends inside the message at 0", ""),
    ("a bad line of who speaks for whom", "grant keys bad_speaks", 8, "speaks line 3", ""),
    ("a bad line of the keys", "grant bad_keys bad_speaks", 8, "keys line 2", ""),
]

HEAD = """\
# Clients of `authsrv`, each served from real files: those of the client, of the keys and of who speaks for whom. The files
# and this one are made by bench/vectors/authsrv_rows.py.
#
#     files WORDS CLIENT KEYS SPEAKS => STATUS LINE WRITTEN
#                                 the command of these words on three files: the number of its status, its line on standard
#                                 error, and what it wrote
#     show WORDS CLIENT KEYS SPEAKS => STATUS LINE
#                                 the same, whose output goes to the real standard output
#     hex NAME DIGITS..           the bytes of these hexadecimal digits, for which a field `$NAME` stands
#     times NAME COUNT FIELD      these bytes, so many times
#     drawn BYTES                 the words that are drawn, eight bytes each
"""


def row(verb: str, files: str, number: int, line: str) -> str:
    told = f'"factotum: {line}\\n"' if line else '""'
    client, keys, speaks = files.split()
    return f'{verb} "authsrv --dom x --keys {keys} --speaks {speaks}" {client} {keys} {speaks} => {number} {told}'


def rows() -> str:
    lines = [HEAD, "hex words " + " ".join(WORDS[at : at + 8].hex() for at in (0, 8, 16)), "times six_times 6 $words", "drawn $six_times", ""]
    lines += [f"hex {name} {text.hex()}" for name, text in TEXTS.items()]
    for about, files, number, line, wrote in ROWS:
        lines += ["", f"# {about[0].upper()}{about[1:]}.", row("files", files, number, line) + (f" ${wrote}" if wrote else ' ""')]
    lines += ["", "# A grant, to the real standard output.", row("show", "grant keys speaks", 0, "")]
    return "\n".join(lines) + "\n"


if __name__ == "__main__":
    here = pathlib.Path(__file__).resolve().parent
    folder = pathlib.Path(sys.argv[1]) if len(sys.argv) > 1 else here.parents[1] / "crates" / "command_rows" / "data"
    folder.mkdir(parents=True, exist_ok=True)
    for name, content in FILES.items():
        (folder / name).write_bytes(content)
    (folder / "served_clients.rows").write_text(rows())
