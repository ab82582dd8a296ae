#!/usr/bin/env python3
"""Writes the records of tickets: tickets.py CRATE, the folder of the program of rows.

Written from the manual's words (Plan 9: the records of authsrv(6), the authinfo of factotum(4)). It shares
nothing with the proved code.
"""
import sys

import row_fields as rows
from sealing import expand, seal
from tickets_text import field


def counted(text: bytes) -> bytes:
    return len(text).to_bytes(2, "little") + text


CHAL = bytes(range(0xa0, 0xa8))
ALL27 = b"abcdefghijklmnopqrstuvwxyz0"
ALL47 = b"the.domain.of.a.server.whose.name.is.quite.long"
KEYS = [bytes(7), bytes.fromhex("f0f07c7e7fcbc9"), bytes.fromhex("0123456789abcd")]
assert len(ALL27) == 27 and len(ALL47) == 47

SECRET = expand(bytes(7))
GARBAGE = b"\xff" + b"x" * 47
full28, full48 = b"a" * 28, b"a" * 48
latin = field(b"\xe9t\xe9", 28)
ok28, ok48 = field(b"ann", 28), field(b"x", 48)

lines = [
    "# The records of tickets, made by bench/vectors/tickets.py from the manual's words; those that are sealed by OpenSSL's DES.",
    "# Keys, challenges, secrets and what is sealed stand in hexadecimal digits.",
    "#",
    "# write-request KIND AUTHID AUTHDOM CHALLENGE HOSTID UID => BYTES: a request is written so.",
    "# read-request BYTES => KIND AUTHID AUTHDOM CHALLENGE HOSTID UID: bytes are read so; or why they are none.",
    "# seal-ticket KEY KIND CHALLENGE CUID SUID WITHIN => SEALED: a ticket with the key WITHIN is sealed so under a key.",
    "# open-ticket KEY SEALED => KIND CHALLENGE CUID SUID WITHIN: it is opened so; or why it is none.",
    "# seal-authenticator KEY KIND CHALLENGE ID => SEALED; open-authenticator KEY SEALED => KIND CHALLENGE ID.",
    "# write-info CUID SUID SECRET => BYTES: who is known to whom, and the secret that both share, is written so.",
    "# read-info BYTES => CUID SUID SECRET: bytes are read so; or none.",
    "",
    "# Requests.",
]


def request(authid: bytes, authdom: bytes, hostid: bytes, uid: bytes) -> bytes:
    return b"\x01" + authid + authdom + CHAL + hostid + uid


for kind, authid, authdom, hostid, uid in [
    (1, b"", b"", b"", b""), (7, b"a", ALL47, b"h", ALL27), (255, ALL27, "m\u00fcnchen".encode(), ALL27, b"u")]:
    fields = (kind, authid, authdom, CHAL.hex(), hostid, uid)
    made = bytes([kind]) + field(authid, 28) + field(authdom, 48) + CHAL + field(hostid, 28) + field(uid, 28)
    lines += [rows.row("write-request", *fields, wanted=(made,)), rows.row("read-request", made, wanted=fields)]

lines += ["", "# Bytes stand behind the NULs of names, and behind the request."]
good = request(field(b"ann", 28, GARBAGE), field(b"", 48, GARBAGE), field(b"h", 28, b"\0x"), field(b"u", 28, b"\xc3"))
lines.append(rows.row("read-request", good + b"!", wanted=(1, b"ann", b"", CHAL.hex(), b"h", b"u")))

lines += ["", "# Requests that are refused."]
for bytes_read, fault in [
    (b"", "Short { need: 141 }"),
    (request(ok28, full48, ok28, ok28[:-1]), "Short { need: 141 }"),
    (request(full28, ok48, ok28, ok28), "NoNul { field: 1 }"),
    (request(ok28, full48, ok28, ok28), "NoNul { field: 29 }"),
    (request(ok28, field(b"\xff", 48), full28, latin), "NotText { field: 29 }"),
    (request(ok28, ok48, full28, latin), "NoNul { field: 85 }"),
    (request(ok28, ok48, ok28, latin), "NotText { field: 113 }"),
]:
    lines.append(rows.row("read-request", bytes_read, wanted=(fault,)))


def ticket(key: bytes, num: int, cuid: bytes, suid: bytes, within: bytes) -> str:
    text = bytes([num]) + CHAL + cuid + suid + within
    assert len(text) == 72
    return seal(key, text).hex()


lines += ["", "# Tickets."]
for key, num, cuid, suid, within in [(KEYS[0], 64, b"ann", b"ann", KEYS[1]), (KEYS[1], 65, ALL27, b"", KEYS[2]), (KEYS[2], 64, b"a", ALL27, KEYS[0])]:
    fields = (num, CHAL.hex(), cuid, suid, within.hex())
    made = ticket(key, num, field(cuid, 28), field(suid, 28), within)
    lines += [rows.row("seal-ticket", key.hex(), *fields, wanted=(made,)), rows.row("open-ticket", key.hex(), made, wanted=fields)]

lines += ["", "# Bytes stand behind the NULs of names; the first name has no NUL; the second is no text."]
garbage = field(b"ann", 28, GARBAGE)
for cuid, suid, wanted in [
    (garbage, garbage, (64, CHAL.hex(), b"ann", b"ann", KEYS[1].hex())),
    (full28, latin, ("NoNul { field: 9 }",)),
    (ok28, latin, ("NotText { field: 37 }",)),
]:
    lines.append(rows.row("open-ticket", KEYS[0].hex(), ticket(KEYS[0], 64, cuid, suid, KEYS[1]), wanted=wanted))

lines += ["", "# Authenticators."]
for key, num, number in [(KEYS[0], 66, 0), (KEYS[1], 67, 0x01020304), (KEYS[2], 66, 0xffffffff)]:
    made = seal(key, bytes([num]) + CHAL + number.to_bytes(4, "little")).hex()
    fields = (num, CHAL.hex(), number)
    lines.append(rows.row("seal-authenticator", key.hex(), *fields, wanted=(made,)))
    lines.append(rows.row("open-authenticator", key.hex(), made, wanted=fields))


def info(cuid: bytes, suid: bytes, cap: bytes, secret: bytes) -> bytes:
    return counted(cuid) + counted(suid) + counted(cap) + counted(secret)


lines += ["", "# Who is known to whom."]
for cuid, suid, secret in [(b"ann", b"ann", SECRET), (b"", b"", CHAL), (ALL27, ALL27, SECRET)]:
    fields = (cuid, suid, secret.hex())
    made = info(cuid, suid, b"", secret)
    lines += [rows.row("write-info", *fields, wanted=(made,)), rows.row("read-info", made, wanted=fields)]
whole = info(b"ann", b"ann", b"", SECRET)
for bytes_read, why in [
    (b"", "no byte"),
    (whole + b"\0", "a byte too many"),
    (whole[:-1], "a byte too few"),
    (info(b"a" * 28, b"ann", b"", SECRET), "cuid too long"),
    (info(b"ann", b"a" * 28, b"", SECRET), "suid too long"),
    (info(b"ann", b"a\0b", b"", SECRET), "a NUL in suid"),
    (info(b"\xff", b"ann", b"", SECRET), "cuid that is no text"),
    (info(b"ann", b"ann", b"c", SECRET), "a cap"),
    (info(b"ann", b"ann", b"", SECRET[:7]), "a secret of seven bytes"),
]:
    lines.append(rows.row("read-info", bytes_read, wanted=("none",), note=why))
rows.write(sys.argv[1], "tickets.rows", lines)
