#!/usr/bin/env python3
"""Prints the messages of crates/role_rows/data/tickets.messages: ticket requests, each with the whole answer that it has.

Written from the manual's words (Plan 9: the ticket request and the tickets of authsrv(6)), the keys of a name, a host and
a user being those of the tests' tables. It shares nothing with the proved code.
"""
from message_rows import show_heading, show_message
from passwords import pass_to_key
from sealing import seal
from tickets_text import field

CHAL = bytes(range(0xa0, 0xa8))
WORDS = [bytes(range(0x10, 0x18)), bytes(range(0x20, 0x28)), bytes(range(0x30, 0x38))]
KEYS = {
    b"bootes": bytes.fromhex("f0f07c7e7fcbc9"),
    b"h": bytes.fromhex("0123456789abcd"),
    b"ann": pass_to_key(b"annpass"),
}


def request(authid: bytes, hostid: bytes, uid: bytes) -> list[bytes]:
    return [b"\x01", field(authid, 28), field(b"x", 48), CHAL, field(hostid, 28), field(uid, 28)]


def ticket(num: int, hostid: bytes, uid: bytes, key: bytes) -> bytes:
    return seal(key, bytes([num]) + CHAL + field(hostid, 28) + field(uid, 28) + WORDS[0][:7])


def answer(authid: bytes, hostid: bytes, uid: bytes, may: bool) -> list[bytes]:
    servers = KEYS.get(authid, WORDS[1][:7]) if may else WORDS[1][:7]
    hosts = KEYS.get(hostid, WORDS[2][:7]) if may else WORDS[2][:7]
    both = ticket(65, hostid, uid, hosts) + ticket(64, hostid, uid, servers)
    return [b"\x04"] + [both[at:at + 24] for at in range(0, 144, 24)]


CASES = [
    ("a host that may speak for the user", "speaker", b"bootes", b"h", b"eve", True),
    ("a host that is the user", "own_user", b"bootes", b"ann", b"ann", True),
    ("a host that isn't in the table", "unknown_host", b"bootes", b"nobody", b"nobody", True),
    ("a server that isn't in the table", "unknown_server", b"srv", b"h", b"eve", True),
    ("a host that may not speak for the user", "denied", b"bootes", b"h", b"bob", False),
    ("neither in the table, nor may it speak", "unknown_and_denied", b"srv", b"nobody", b"bob", False),
    ("names of no bytes", "no_names", b"", b"", b"", True),
]


def show_both(name: str, authid: bytes, hostid: bytes, uid: bytes, may: bool) -> None:
    show_message(f"asks_{name}", b"".join(request(authid, hostid, uid)))
    show_message(f"answers_{name}", b"".join(answer(authid, hostid, uid, may)))


def print_messages() -> None:
    print("# What bench/vectors/authsrv.py prints: requests for tickets, and the whole answer to each, made by a script from the\n"
          "# manual's words, and sealed by OpenSSL's DES. A message is its parts, one behind the other.")
    for why, *case in CASES:
        show_heading(why)
        show_both(*case)
    show_heading("the answer to the first of them where both tables are empty")
    show_message("answers_a_stranger", b"".join(answer(*CASES[0][2:5], False)))


if __name__ == "__main__":
    print_messages()
