#!/usr/bin/env python3
"""Writes the known answers of DES, computed by OpenSSL (legacy provider): des.py CRATE, the folder of the program of rows.

The inputs are those of the variable plaintext and the variable key tests of NBS Special Publication
500-20: under the key 0101010101010101, each plaintext with one bit set; and the plaintext of eight zero
bytes, under each key that differs from 0101010101010101 in one bit that is no parity bit.
"""
import subprocess
import sys

import row_fields as rows


def encrypt(key: int, plain: int) -> int:
    done = subprocess.run(
        ["openssl", "enc", "-des-ecb", "-nopad", "-K", f"{key:016x}", "-provider", "legacy", "-provider", "default"],
        input=plain.to_bytes(8, "big"), capture_output=True, check=True)
    return int.from_bytes(done.stdout, "big")


def answer(key: int, plain: int) -> str:
    return rows.row("des", f"{key:016x}", f"{plain:016x}", wanted=(f"{encrypt(key, plain):016x}", f"{plain:016x}"))


KEY = 0x0101010101010101
lines = [
    "# Blocks under DES, made by bench/vectors/des.py: answers of OpenSSL to the inputs of NBS SP 500-20.",
    "#",
    "# des KEY BLOCK => CIPHER BLOCK: the block is enciphered so, which is deciphered to the block again; all in hexadecimal",
    "# digits.",
    "",
    "# Each bit of the block.",
]
lines += [answer(KEY, 1 << (63 - bit)) for bit in range(64)]
lines += ["", "# Each bit of the key that is no parity bit."]
lines += [answer(KEY ^ (1 << (63 - 8 * (bit // 7) - bit % 7)), 0) for bit in range(56)]
rows.write(sys.argv[1], "des.rows", lines)
