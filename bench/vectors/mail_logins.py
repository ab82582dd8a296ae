#!/usr/bin/env python3
"""Prints the messages of crates/role_rows/data/mail_logins.messages: whole logins of APOP and CRAM, and messages that fail
one test or two.

Written from the manual's words (Plan 9: APOP and CRAM of authsrv(6)) and from RFC 1939 and RFC 2195; OpenSSL's DES seals,
and its MD5 and HMAC make the digits. It shares nothing with the proved code.
"""
import subprocess

from message_rows import show_heading, show_message
from sealing import expand, seal
from tickets_text import field

WORD = bytes.fromhex("0123456789abcdef")
OTHER = bytes(range(0x20, 0x28))
SRV, KN, EVE = (bytes([start + step for step in range(7)]) for start in (0x41, 0x51, 0x61))
CHALLENGE = b"<0123456789abcdef@x>"
RFC_1939 = b"<1896.697170952@dbc.mtview.ca.us>"
RFC_2195 = b"<1896.697170952@postoffice.reston.mci.net>"
PASSWORD = b"annpass"


def openssl(arguments: list[str], text: bytes) -> bytes:
    return subprocess.run(["openssl", *arguments], input=text, capture_output=True, check=True).stdout


def apop(challenge: bytes, password: bytes) -> bytes:
    return openssl(["dgst", "-md5", "-binary"], challenge + password).hex().encode()


def cram(challenge: bytes, password: bytes) -> bytes:
    return openssl(["dgst", "-md5", "-binary", "-mac", "HMAC", "-macopt", f"hexkey:{password.hex()}"], challenge).hex().encode()


def request(kind: int, user: bytes) -> bytes:
    return bytes([kind]) + field(b"srv", 28) + field(b"x", 48) + WORD + field(b"srv", 28) + field(user, 28)


def ticket(kind: int = 64, chal: bytes = WORD, client: bytes = b"ann", server: bytes = b"ann", key: bytes = SRV) -> bytes:
    return seal(key, bytes([kind]) + chal + field(client, 28) + field(server, 28) + KN)


def proof(kind: int = 67, chal: bytes = WORD, number: int = 0) -> bytes:
    return seal(KN, bytes([kind]) + chal + number.to_bytes(4, "little"))


assert apop(RFC_1939, b"tanstaaf") == b"c4c9334bac560ecc979e58001b3e22fb"
assert cram(RFC_2195, b"tanstaaftanstaaf") == b"b913a602c7eda7a495b4e6e7334d3890"
VOUCH = b"\x04" + ticket() + proof()
print("# What bench/vectors/mail_logins.py prints: the messages of logins of ann at srv in the domain x, and those of the two\n"
      "# RFCs, made by a script from the manual's and the RFCs' words, sealed and digested by OpenSSL; and answers that fail. A\n"
      "# message is its parts, one behind the other.\n")
for name, text in [("SRV", SRV), ("WORD", WORD), ("SECRET", expand(KN))]:
    show_message(name, text)
show_heading("the clients of the RFCs")
show_message("RFC_1939_CHALLENGE", RFC_1939)
show_message("RFC_1939_DIGITS", apop(RFC_1939, b"tanstaaf"))
show_message("RFC_2195_CHALLENGE", RFC_2195)
show_message("RFC_2195_DIGITS", cram(RFC_2195, b"tanstaaftanstaaf"))
show_message("DIGITS_OF_NO_PASSWORD", apop(RFC_1939, b""))
show_heading("the servers")
show_message("CHALLENGE", CHALLENGE)
show_message("OFFERED", b"\x0920   " + CHALLENGE)
for name, kind, digits in [("APOP", 7, apop(CHALLENGE, PASSWORD)), ("CRAM", 12, cram(CHALLENGE, PASSWORD))]:
    show_message(f"{name}_QUESTION", request(kind, b""))
    show_message(f"{name}_DIGITS", digits)
    show_message(f"{name}_VOUCH_QUESTION", request(kind, b"ann") + digits)
show_message("VOUCH", VOUCH)
show_heading("answers that are no challenge, and challenges")
show_message("REFUSAL", b"\x05" + field(b"no", 64))
show_message("SHORT_REFUSAL", b"\x05" + field(b"no", 63))
show_message("LONG_REFUSAL", b"\x05" + field(b"no", 65))
show_message("SHORT_OFFERED", b"\x0920   " + CHALLENGE[:-1])
show_message("LONG_OFFERED", b"\x0920   " + CHALLENGE + b"\0")
show_message("OFFERED_BY_ANOTHER_KIND", b"\x0420   " + CHALLENGE)
show_message("OFFERED_BEHIND_ZEROS", b"\x0900020" + CHALLENGE)
show_message("OFFERED_BETWEEN_BLANKS", b"\x09 20  " + CHALLENGE)
show_message("OFFERED_IN_TWO_NUMBERS", b"\x092 0  " + CHALLENGE)
show_message("OFFERED_BEHIND_A_SIGN", b"\x09+20  " + CHALLENGE)
show_message("OFFERED_BY_LETTERS", b"\x0914x  " + CHALLENGE)
show_message("ONE_BYTE", b"\x091    <")
show_message("MOST_BYTES", b"\x09128  " + b"<" * 128)
show_message("TOO_MANY_BYTES", b"\x09129  " + b"<" * 129)
show_message("CHALLENGE_OF_128", b"<" * 128)
show_message("CHALLENGE_OF_129", b"<" * 129)
show_heading("answers that are no vouch")
show_message("SHORT_VOUCH", VOUCH[:-1])
show_message("LONG_VOUCH", VOUCH + b"\0")
show_message("TWO_TICKETS", b"\x04" + ticket() + ticket())
show_message("VOUCH_BY_ANOTHER_KIND", b"\x05" + VOUCH[1:])
show_message("UNDER_ANOTHER_KEY", b"\x04" + ticket(key=EVE) + proof())
show_message("FOR_A_CLIENT", b"\x04" + ticket(kind=65) + proof())
show_message("FOR_A_CLIENT_BEFORE", b"\x04" + ticket(kind=65, chal=OTHER) + proof())
show_message("FROM_BEFORE", b"\x04" + ticket(chal=OTHER) + proof())
show_message("FROM_BEFORE_FOR_EVE", b"\x04" + ticket(chal=OTHER, client=b"eve", server=b"eve") + proof())
show_message("FROM_EVE", b"\x04" + ticket(client=b"eve") + proof())
show_message("FOR_EVE", b"\x04" + ticket(server=b"eve") + proof())
show_message("FOR_ANNA", b"\x04" + ticket(client=b"anna", server=b"anna") + proof())
show_message("FOR_EVE_WITH_ANOTHER_PROOF", b"\x04" + ticket(server=b"eve") + proof(kind=66))
show_message("WITH_A_SERVERS_PROOF", b"\x04" + ticket() + proof(kind=66))
show_message("WITH_A_NUMBERED_PROOF", b"\x04" + ticket() + proof(number=1))
show_message("WITH_A_NUMBERED_PROOF_FROM_BEFORE", b"\x04" + ticket() + proof(chal=OTHER, number=1))
show_message("WITH_A_PROOF_FROM_BEFORE", b"\x04" + ticket() + proof(chal=OTHER))
