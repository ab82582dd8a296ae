#!/usr/bin/env python3
"""Prints the messages of crates/role_rows/data/p9sk1.messages: a whole login, and messages that fail one test or two.

Written from the manual's words (Plan 9: p9sk1 of authsrv(6)); OpenSSL's DES seals. It shares nothing with the
proved code.
"""
from message_rows import show_heading, show_message
from sealing import expand, seal


def field(name: bytes, size: int) -> bytes:
    """A name's field: the name, and NULs to the end."""
    return name.ljust(size, b"\0")


WORD = bytes.fromhex("0123456789abcdef")
CHAL = bytes(range(0x10, 0x18))
OTHER = bytes(range(0x20, 0x28))
ANN, SRV, KN, EVE = (bytes([start + step for step in range(7)]) for start in (0x31, 0x41, 0x51, 0x61))


def request(kind: int, user: bytes, dom: bytes, chal: bytes, host: bytes, wanted: bytes) -> list[bytes]:
    return [bytes([kind]), field(user, 28), field(dom, 48), chal, field(host, 28), field(wanted, 28)]


def ticket(key: bytes, kind: int, chal: bytes, client: bytes, server: bytes) -> bytes:
    return seal(key, bytes([kind]) + chal + field(client, 28) + field(server, 28) + KN)


def proof(kind: int, chal: bytes, number: int = 0, key: bytes = KN) -> bytes:
    return seal(key, bytes([kind]) + chal + number.to_bytes(4, "little"))


def answer(mine: bytes, first: int = 4) -> bytes:
    return bytes([first]) + mine + ticket(SRV, 64, CHAL, b"ann", b"ann")


ASKED = request(1, b"srv", b"x", CHAL, b"", b"")
MINE = ticket(ANN, 65, CHAL, b"ann", b"ann")
FOR_BOB = ticket(ANN, 65, CHAL, b"ann", b"bob")
THEIRS = ticket(SRV, 64, CHAL, b"ann", b"ann")
print("# What bench/vectors/p9sk1.py prints: the messages of a login of ann at srv in the domain x, made by a script from the\n"
      "# manual's words, and sealed by OpenSSL's DES; and messages that fail. A message is its parts, one behind the other.\n")
for name, text in [("ANN", ANN), ("SRV", SRV), ("WORD", WORD), ("CHAL", CHAL), ("SECRET", expand(KN))]:
    show_message(name, text)
show_heading("the login")
show_message("REQUEST", b"".join(ASKED))
show_message("QUESTION", b"".join(request(1, b"srv", b"x", CHAL, b"ann", b"ann")))
show_message("QUESTION_FOR_BOB", b"".join(request(1, b"srv", b"x", CHAL, b"ann", b"bob")))
show_message("ANSWER", answer(MINE))
show_message("ANSWER_FOR_BOB", answer(FOR_BOB))
show_message("SHOWN", THEIRS + proof(67, CHAL))
show_message("PROOF", proof(66, WORD))
show_heading("requests that fail")
show_message("OF_ANOTHER_KIND", b"".join(request(2, b"srv", b"x", CHAL, b"", b"")))
show_message("OF_ANOTHER_KIND_ELSEWHERE", b"".join(request(2, b"srv", b"y", CHAL, b"", b"")))
show_message("OF_NOBODY", b"".join(request(1, b"", b"x", CHAL, b"", b"")))
show_message("WITHOUT_NUL", b"".join(request(1, b"srv", b"x", CHAL, b"", b"")[:-1]) + b"a" * 28)
show_message("NO_TEXT", b"".join(request(1, b"\xff", b"x", CHAL, b"", b"")))
show_message("OF_NO_DOM", b"".join(request(1, b"srv", b"", CHAL, b"", b"")))
show_message("OF_A_BAD_DOM", b"".join(request(1, b"srv", b"x@y", CHAL, b"", b"")))
show_message("ELSEWHERE", b"".join(request(1, b"srv", b"y", CHAL, b"", b"")))
show_heading("answers that fail")
show_message("REFUSAL", b"\x05" + b"no".ljust(64, b"\0"))
show_message("LONG_REFUSAL", b"\x05" + b"no".ljust(65, b"\0"))
show_message("ANSWER_OF_ANOTHER_KIND", answer(MINE, first=5))
show_message("UNDER_ANOTHER_KEY", answer(ticket(EVE, 65, CHAL, b"ann", b"ann")))
show_message("FOR_THE_SERVER", answer(ticket(ANN, 64, CHAL, b"ann", b"ann")))
show_message("FOR_THE_SERVER_BEFORE", answer(ticket(ANN, 64, OTHER, b"ann", b"ann")))
show_message("FROM_BEFORE", answer(ticket(ANN, 65, OTHER, b"ann", b"ann")))
show_message("FROM_BEFORE_FOR_EVE", answer(ticket(ANN, 65, OTHER, b"eve", b"eve")))
show_message("FROM_EVE", answer(ticket(ANN, 65, CHAL, b"eve", b"ann")))
show_message("FOR_EVE", answer(ticket(ANN, 65, CHAL, b"ann", b"eve")))
show_heading("authenticators of the server that fail")
show_message("OF_A_CLIENT", proof(67, WORD))
show_message("OF_A_CLIENT_BEFORE", proof(67, OTHER))
show_message("NUMBERED", proof(66, WORD, 1))
show_message("OF_ANOTHER_LOGIN", proof(66, OTHER))
show_heading("tickets and authenticators that fail at a server")
show_message("SHOWN_UNDER_ANOTHER_KEY", ticket(EVE, 64, CHAL, b"ann", b"ann") + proof(67, CHAL))
show_message("SHOWN_FOR_THE_CLIENT", ticket(SRV, 65, CHAL, b"ann", b"ann") + proof(67, CHAL))
show_message("SHOWN_BEFORE", ticket(SRV, 64, OTHER, b"ann", b"ann") + proof(67, CHAL))
show_message("SHOWN_BEFORE_BY_NOBODY", ticket(SRV, 64, OTHER, b"ann", b"") + proof(67, CHAL))
show_message("SHOWN_BY_NOBODY", ticket(SRV, 64, CHAL, b"ann", b"") + proof(67, CHAL))
show_message("SHOWN_BY_NOBODY_WITH_ANOTHER_PROOF", ticket(SRV, 64, CHAL, b"ann", b"") + proof(66, CHAL))
show_message("SHOWN_WITH_A_SERVERS_PROOF", THEIRS + proof(66, CHAL))
show_message("SHOWN_WITH_A_NUMBERED_PROOF", THEIRS + proof(67, CHAL, 1))
show_message("SHOWN_WITH_A_NUMBERED_PROOF_FROM_BEFORE", THEIRS + proof(67, OTHER, 1))
show_message("SHOWN_WITH_A_PROOF_FROM_BEFORE", THEIRS + proof(67, OTHER))
show_heading("one byte short, one byte more")
for name, text in [("REQUEST", b"".join(ASKED)), ("ANSWER", answer(MINE)), ("PROOF", proof(66, WORD)), ("SHOWN", THEIRS + proof(67, CHAL))]:
    show_message(f"SHORT_{name}", text[:-1])
    show_message(f"LONG_{name}", text + b"\0")
show_message("SHORT_REFUSAL", b"\x05" + b"no".ljust(63, b"\0"))
