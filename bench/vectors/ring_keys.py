#!/usr/bin/env python3
"""Writes the DES keys of keys: ring_keys.py CRATE, the folder of the program of rows.

Written from the manual's words (Plan 9: factotum(4), passtokey of authsrv(2)). It shares nothing with the proved code.
"""
import sys

import row_fields as rows
from passwords import pass_to_key

LINES = [
    "proto=p9sk1 dom=x user=ann !password=password",
    "proto=p9sk1 dom=x user=ann !hex=0123456789abCD",
    "proto=p9sk1 dom=x user=ann !password=password !hex=00100804028140",
    "proto=p9sk1 dom=x user=ann !hex=ffffffffffffff !hex=00000000000000",
    "proto=apop user=ann !hex=0123456789abcd !password=a",
    "proto=cram user=ann !hex=0123 !password !password=b !password=c",
    "proto=p9sk1 dom=x user=ann !password=",
    "proto=p9sk1 dom=x user=ann !password=abcdefghijklmnopqrstuvwxyz01",
]


def des_key(line: str) -> bytes:
    """The key of a line of attributes: the digits of a p9sk1 key, where it has some, else what its password stands for."""
    values = [word.split("=", 1) for word in line.split(" ") if "=" in word]
    first = {name: value for name, value in reversed(values)}
    if first["proto"] == "p9sk1" and "!hex" in first:
        return bytes.fromhex(first["!hex"])
    return pass_to_key(first["!password"].encode())


lines = [
    "# The DES keys of keys, made by bench/vectors/ring_keys.py: of digits or of a password.",
    "#",
    "# ring: a new one, without keys.",
    "# key KEY => Ok(1) 1: it is added under number 1, and is the only one.",
    "# des => its DES key, in hexadecimal digits.",
    "",
]
for line in LINES:
    lines += ["ring", rows.row("key", line, wanted=("Ok(1)", 1)), rows.row("des", wanted=(des_key(line).hex(),))]
rows.write(sys.argv[1], "ring_keys.rows", lines)
