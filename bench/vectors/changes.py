#!/usr/bin/env python3
"""Prints crates/command_rows/data/changes.rows: changes of a password, each with its status, its line, what is answered, the
new table and what is noted.

Written from the manual's words (Plan 9: the ticket request, the ticket and the change of a password of authsrv(6)) and this
project's tests and texts; DES is OpenSSL's. It shares nothing with the proved code.
"""
from message_rows import row_field
from passwords import pass_to_key
from sealing import seal
from tickets_text import field

CHAL = bytes(range(0xa0, 0xa8))
WORDS = bytes(range(0x10, 0x18)), bytes(range(0x20, 0x28))
SESSION = WORDS[0][:7]
TABLE = b"user=ann !password=annpass\n"
BOTH = TABLE + b"# the server's own\nuser=bootes !hex=f0f07c7e7fcbc9\n"

HEAD = """\
# What bench/vectors/changes.py prints: changes of a password on objects in memory, from the manual's words, sealed by OpenSSL's
# DES.
#
#     change WORDS INPUT FAULT.. => STATUS LINE WRITTEN TABLE NOTES
#                                 the number of the status, its line on standard error, what the client is answered, the
#                                 new table, and the lines of what is noted
#     quiet WORDS INPUT FAULT.. => STATUS LINE WRITTEN TABLE
#                                 the same without notes
#     no_memory => STATUS LINE    the status of want of memory, and its line
#
# The other rows are those of authsrv.rows; table_fault=NUMBER is the write of the new table that fails."""


def request(uid: bytes, kind: int = 3) -> bytes:
    return bytes([kind]) + field(b"bootes", 28) + field(b"x", 48) + CHAL + field(b"h", 28) + field(uid, 28)


def ticket(uid: bytes, key: bytes) -> bytes:
    return b"\4" + seal(key, bytes([68]) + CHAL + field(uid, 28) + field(uid, 28) + SESSION)


def message(old: bytes, new: bytes, num: int = 3, changes_secret: int = 0) -> bytes:
    fields = bytes([num]) + field(old, 28) + field(new, 28) + bytes([changes_secret])
    return seal(SESSION, fields + field(b"secret", 32))


def refusal(text: str) -> bytes:
    return b"\5" + text.encode().ljust(64, b"\0")


def show_hex(name: str, text: bytes) -> None:
    digits = text.hex()
    print(f"hex {name} {' '.join(digits[at:at + 64] for at in range(0, len(digits), 64))}")


def keep(name: str, *parts: bytes) -> str:
    """The name of a text that stands above the rows."""
    show_hex(name, b"".join(parts))
    return f"${name}"


def row(verb: str, given: str, faults: str, status: int, line: str, *came: str) -> None:
    shown = row_field((line + "\n").encode()) if line else '""'
    words = row_field(b"--keys PATH")
    print(f"{verb} {words} {given}{' ' if faults else ''}{faults} => {status} {shown} {' '.join(came)}")


def change(given: str, faults: str, status: int, line: str, answered: str, table: bytes = b"", *notes: str) -> None:
    noted = "".join(f"pass_change: {note}\n" for note in notes).encode()
    table_field = row_field(table) if table else '""'
    row("change", given, faults, status, line, answered, table_field, row_field(noted) if noted else '""')


def refused(count: int) -> tuple[str, ...]:
    return ("ann: bad old password",) * count


NEW = b"user=ann !password=longer27\n"


def main() -> None:
    print(HEAD)
    ann = request(b"ann")
    granted = ticket(b"ann", pass_to_key(b"annpass"))
    good, bad = message(b"annpass", b"longer27"), message(b"annpasS", b"longer27")
    print(f"\nkeys {row_field(TABLE)}")
    print(f"hex words {WORDS[0].hex()} {WORDS[1].hex()}\ndrawn $words")

    print("\n# A password is changed.")
    asks = keep("asks", ann, good)
    consent = keep("consent", granted, b"\4")
    change(asks, "", 0, "", consent, NEW, "ann: password changed")
    row("quiet", asks, "", 0, "", consent, row_field(NEW))

    print("\n# The line of another user stays, with his digits; comments are lost, and users stand in order.")
    print(f"keys {row_field(BOTH)}")
    change(asks, "", 0, "", consent, NEW + b"user=bootes !hex=f0f07c7e7fcbc9\n", "ann: password changed")
    bootes = keep("of-bootes", request(b"bootes"), message(b"password", b"correct horse"))
    change(bootes, "", 0, "", keep("for-bootes", ticket(b"bootes", pass_to_key(b"password")), b"\4"),
           TABLE + b"user=bootes !password='correct horse'\n", "bootes: password changed")
    print(f"keys {row_field(TABLE)}")

    print("\n# Each test refuses, and nothing is written.")
    for name, text, why in (
        ("wrong-old", bad, "bad old password"),
        ("short-new", message(b"annpass", b"short"), "bad new password"),
        ("seven-new", message(b"annpass", b"7letter"), "bad new password"),
        ("tab-in-new", message(b"annpass", b"has\ta tab"), "bad new password"),
        ("with-secret", message(b"annpass", b"longer27", changes_secret=1), "no secret kept"),
        ("other-kind", message(b"annpass", b"longer27", num=1), "bad request"),
        ("no-text", message(b"annpass", b"\xff\xfe long enough"), "bad request"),
        ("other-key", seal(WORDS[1][:7], bytes([3]) + field(b"annpass", 28) + field(b"longer27", 28) + bytes(33)), "bad request"),
        ("all-is-wrong", message(b"annpasS", b"short", changes_secret=1), "bad old password"),
    ):
        change(keep(name, ann, text), "", 0, "", keep(f"{name}-answer", granted, refusal(why)), b"", f"ann: {why}")

    print("\n# A user who isn't there gets a ticket all the same; his name can't make a line of its own.")
    bob = keep("of-bob", request(b"bob"), good)
    change(bob, "", 0, "", keep("for-bob", ticket(b"bob", WORDS[1][:7]), refusal("bad old password")), b"", "bob: bad old password")
    forged = b"x\npass_change: root: ok"
    change(keep("forged", request(forged), good), "", 0, "",
           keep("for-forged", ticket(forged, WORDS[1][:7]), refusal("bad old password")), b"", "x?pass_change:?root:?ok: bad old password")

    print("\n# Four refusals may stand before a change, and the fifth ends the session.")
    change(keep("fifth", ann, bad * 4, good), "", 0, "", keep("fifth-answer", granted, refusal("bad old password") * 4, b"\4"),
           NEW, *refused(4), "ann: password changed")
    change(keep("five", ann, bad * 5, good), "", 9, "pass_change: refused", keep("five-answer", granted, refusal("bad old password") * 5),
           b"", *refused(5))

    print("\n# What isn't a request, or no whole one.")
    change('""', "", 0, "", '""')
    change(keep("for-a-ticket", request(b"ann", 1)), "", 9, "pass_change: refused", '""')
    change(keep("no-nul", ann[:113] + b"a" * 28), "", 9, "pass_change: refused", keep("no-nul-answer", refusal("bad request")))
    torn = "pass_change: input ends inside the message at "
    change(keep("one-byte", ann[:1]), "", 6, torn + "0", '""')
    change(keep("short-request", ann[:140]), "", 6, torn + "0", '""')
    whole = keep("whole-request", ann)
    only = keep("only-ticket", granted)
    change(whole, "", 0, "", only)
    change(keep("short-message", ann, good[:89]), "", 6, torn + "141", only)
    change(keep("short-second", ann, bad, good[:1]), "", 6, torn + "231", keep("one-refusal", granted, refusal("bad old password")),
           b"", *refused(1))

    print("\n# Faults of the outside.")
    lost = keep("lost", granted, refusal("table not written"))
    change(asks, "table_fault=1", 3, "pass_change: write fault", lost, b"", "ann: table not written")
    change(asks, "table_fault=1 write_fault=2", 3, "pass_change: write fault", only, b"", "ann: table not written")
    change(asks, "write_fault=1", 3, "pass_change: write fault", '""')
    change(asks, "write_fault=2", 3, "pass_change: write fault", only, NEW)
    change(asks, "read_fault=1", 2, "pass_change: read fault", '""')
    change(asks, "read_fault=2", 2, "pass_change: read fault", '""')
    change(asks, "read_fault=3", 2, "pass_change: read fault", only)
    change(asks, "word_fault=1", 4, "pass_change: word fault", '""')
    change(asks, "word_fault=2", 4, "pass_change: word fault", '""')
    change(asks, "keys_fault=1", 2, "pass_change: read fault", '""')

    print("\n# Tables that can't be used, and words that aren't the program's.")
    print('keys "user=ann !password=annpass\\nuser=bob\\n"')
    change(asks, "", 8, "pass_change: keys line 2", '""')
    print('times long-line 4194305 "#"\nkeys $long-line')
    change(asks, "", 11, "pass_change: keys over 4194304 bytes", '""')
    print(f"keys {row_field(TABLE)}")
    for words in ("", "--keys", "--keys -x", "--key PATH", "--keys PATH more", "keys PATH"):
        print(f'change {row_field(words.encode()) if words else chr(34) * 2} {asks} => 1 "pass_change: usage\\n" "" "" ""')
    print('no_memory => 10 "pass_change: out of memory\\n"')


main()
