#!/usr/bin/env python3
"""Writes the known answers of keys, passwords and sealing: passwords.py CRATE, the folder of the program of rows.

Written from the manual's words (Plan 9: passtokey of authsrv(2)). It shares nothing with the proved code.
"""
import sys

import row_fields as rows
from sealing import expand, seal


def window_key(t: bytes) -> bytes:
    return bytes(((t[i] >> i) + (t[i + 1] << (7 - i))) % 256 for i in range(7))


def pass_to_key(password: bytes) -> bytes:
    buffer = bytearray(b" " * 8 + bytes(20))
    n = min(len(password), 27)
    buffer[:n] = password[:n]
    buffer[n] = 0
    at = 0
    key = window_key(buffer)
    while n > 8:
        n -= 8
        at += 8
        if n < 8:
            at -= 8 - n
            n = 8
        buffer[at:at + 8] = seal(key, bytes(buffer[at:at + 8]))
        key = window_key(buffer[at:])
    return key


ALPHABET = b"abcdefghijklmnopqrstuvwxyz01"


def main(folder: str) -> None:
    lines = [
        "# Keys of passwords and the seal, made by bench/vectors/passwords.py from the manual's words, over OpenSSL's DES.",
        "#",
        "# password PASSWORD => the key of seven bytes that a password stands for, in hexadecimal digits.",
        "# expand KEY => the key of eight bytes with a bit of parity in each.",
        "# seal KEY COUNT => SEALED OPENED: the bytes 0, 1, 2 .. sealed, and opened again.",
        "",
    ]
    passwords = [ALPHABET[:n] for n in (0, 1, 7, 8, 9, 15, 16, 17, 26, 27, 28)]
    for password in passwords + [b"password", b"a" * 27, b"a" * 28, b"\xff" * 20]:
        lines.append(rows.row("password", password, wanted=(pass_to_key(password).hex(),)))
    lines.append("")
    for key in [bytes(7), b"\xff" * 7, bytes.fromhex("f0f07c7e7fcbc9"), bytes.fromhex("0123456789abcd")]:
        lines.append(rows.row("expand", key.hex(), wanted=(expand(key).hex(),)))
    lines.append("")
    for n in (8, 13, 72):
        text = bytes(range(n))
        key = bytes.fromhex("f0f07c7e7fcbc9")
        lines.append(rows.row("seal", key.hex(), n, wanted=(seal(key, text).hex(), text.hex())))
    rows.write(folder, "passwords.rows", lines)


if __name__ == "__main__":
    main(sys.argv[1])
