#!/usr/bin/env python3
"""Prints the bytes of the terms in crates/command_rows/data/terms.rows.

Written from the manual's words (Plan 9: authsrv(6), encrypt(2)), RFC 1939 and RFC 2104. DES is OpenSSL's, the digests
are Python's. It shares nothing with the proved code.
"""
import hashlib
import hmac

from sealing import seal

NONCE = bytes(range(0xa0, 0xa8))
DIGITS = b"0123456789abcdef"
KEYS = {"ann": bytes.fromhex("f0f07c7e7fcbc9"), "srv": bytes.fromhex("0123456789abcd")}
TICKET_KEY = bytes.fromhex("fedcba98765432")
JUNK_KEY = bytes(7)
PASSWORD = b"tanstaaf"


def name(text: bytes) -> bytes:
    return text.ljust(28, b"\0")


def ticket(number: int) -> bytes:
    return bytes([number]) + NONCE + name(b"ann") + name(b"ann") + TICKET_KEY


def rows(text: bytes) -> str:
    shown = "".join(f"\\x{byte:02x}" for byte in text)
    return 'b"' + "\\\n    ".join(shown[at:at + 96] for at in range(0, len(shown), 96) or [0]) + '"'


challenge = b"<" + DIGITS + b"@x>"
table = {
    "TICKET_FOR_CLIENT": seal(KEYS["ann"], ticket(65)),
    "TICKET_FOR_SERVER": seal(KEYS["srv"], ticket(64)),
    "AUTHENTICATOR": seal(TICKET_KEY, bytes([67]) + NONCE + bytes(4)),
    "SEALED_BY_JUNK": seal(JUNK_KEY, NONCE),
    "APOP_DIGITS": hashlib.md5(challenge + PASSWORD).hexdigest().encode(),
    "CRAM_DIGITS": hmac.new(PASSWORD, challenge, "md5").hexdigest().encode(),
}
for title, text in table.items():
    print(f"const {title}: &[u8] = {rows(text)};\n")
