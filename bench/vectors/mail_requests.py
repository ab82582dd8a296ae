#!/usr/bin/env python3
"""Prints the messages of crates/role_rows/data/mail_requests.messages: the digits that answer a challenge, and the whole
answers of the authentication server to mail servers.

Written from the manual's words (Plan 9: the ticket and the authenticator of authsrv(6)), RFC 1939 and RFC 2195; MD5, HMAC
and DES are OpenSSL's. The words drawn and the keys of a user are those of the tests' tables. It shares nothing with the
proved code.
"""
import subprocess

from authsrv import CHAL, KEYS, WORDS
from message_rows import show_heading, show_message
from sealing import seal
from tickets_text import field

CHALLENGE = b"<" + WORDS[0].hex().encode() + b"@x>"


def md5_digits(text: bytes, *options: str) -> bytes:
    done = subprocess.run(["openssl", "dgst", "-md5", "-r", *options], input=text, capture_output=True, check=True)
    return done.stdout[:32]


def apop(password: bytes, challenge: bytes = CHALLENGE) -> bytes:
    return md5_digits(challenge + password)


def cram(password: bytes, challenge: bytes = CHALLENGE) -> bytes:
    return md5_digits(challenge, "-mac", "HMAC", "-macopt", "hexkey:" + password.hex())


def mail_request(kind: int, authid: bytes, uid: bytes, digits: bytes) -> bytes:
    return bytes([kind]) + field(authid, 28) + field(b"x", 48) + CHAL + field(b"bootes", 28) + field(uid, 28) + digits


def challenge() -> list[bytes]:
    return [b"\x09" + b"%-5d" % len(CHALLENGE), CHALLENGE]


def vouch(authid: bytes, uid: bytes) -> list[bytes]:
    shared = WORDS[0][:7]
    ticket = seal(KEYS.get(authid, WORDS[1][:7]), bytes([64]) + CHAL + field(uid, 28) * 2 + shared)
    return [b"\x04"] + [ticket[at:at + 24] for at in range(0, 72, 24)] + [seal(shared, bytes([67]) + CHAL + bytes(4))]


def refusal(text: bytes) -> list[bytes]:
    return [b"\x05", field(text, 64)]


DIGITS = [
    ("APOP", apop(b"annpass")),
    ("CRAM", cram(b"annpass")),
    ("EMPTY_APOP", apop(b"")),
]
ANSWERS = [
    ("CHALLENGE", challenge()),
    ("VOUCH", vouch(b"bootes", b"ann")),
    ("VOUCH_BOTH", vouch(b"bootes", b"both")),
    ("VOUCH_STRANGER", vouch(b"srv", b"ann")),
    ("BAD_REQUEST", refusal(b"bad request")),
    ("BAD_RESPONSE", refusal(b"bad response")),
]

if __name__ == "__main__":
    print("# What bench/vectors/mail_requests.py prints: the digits of ann's password for the challenge of these words, and APOP's for\n"
          "# no password; and the whole answers to mail servers, made by a script from the manual's and the RFCs' words, sealed and\n"
          "# digested by OpenSSL. A message is its parts, one behind the other.")
    show_heading("digits")
    for name, digits in DIGITS:
        show_message(name, digits)
    show_heading("answers")
    for name, fields in ANSWERS:
        show_message(name, b"".join(fields))
