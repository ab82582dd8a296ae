#!/usr/bin/env python3
"""Prints the script of a number and of so many rounds: gen.py NUMBER ROUNDS, as crates/command_rows/data/seven.script is of 7 and 5.

Written by hand from the rule of the rounds, RFC 8439 (the block of ChaCha, with 20 rounds) and the way in which rand_core makes
a seed of a number: eight outputs of PCG-XSH-RR with 32 bits (O'Neill 2014). A word is eight bytes of the stream, in their order.
"""
import struct
import sys

WORD, LONG = (1 << 32) - 1, (1 << 64) - 1


def rotate(word: int, count: int) -> int:
    return (word << count | word >> (32 - count)) & WORD


def seed_of(number: int) -> bytes:
    seed = b""
    for _ in range(8):
        number = (number * 6364136223846793005 + 11634580027462260723) & LONG
        mixed = ((number >> 18 ^ number) >> 27) & WORD
        seed += struct.pack("<I", rotate(mixed, 32 - (number >> 59)) if number >> 59 else mixed)
    return seed


def quarter(state: list[int], a: int, b: int, c: int, d: int) -> None:
    for first, second, third, count in ((a, b, d, 16), (c, d, b, 12), (a, b, d, 8), (c, d, b, 7)):
        state[first] = (state[first] + state[second]) & WORD
        state[third] = rotate(state[third] ^ state[first], count)


def block(key: bytes, counter: int) -> bytes:
    begun = [*struct.unpack("<4I", b"expand 32-byte k"), *struct.unpack("<8I", key), counter & WORD, counter >> 32, 0, 0]
    state = begun[:]
    for _ in range(10):
        for at in range(4):
            quarter(state, at, at + 4, at + 8, at + 12)
        for at in range(4):
            quarter(state, at, 4 + (at + 1) % 4, 8 + (at + 2) % 4, 12 + (at + 3) % 4)
    return b"".join(struct.pack("<I", (one + other) & WORD) for one, other in zip(state, begun))


def words(number: int):
    key, counter = seed_of(number), 0
    while True:
        made = block(key, counter)
        for at in range(0, 64, 8):
            yield made[at : at + 8].hex()
        counter += 1


def script(number: int, rounds: int) -> list[str]:
    drawn = words(number)
    lines = ["askey user=ann !password=annpass", "askey user=srv !password=srvpass", "node a", "node b"]
    lines += ["ctl a key proto=p9sk1 dom=x user=ann !password=annpass", "ctl b key proto=p9sk1 dom=x user=srv !password=srvpass"]
    next_message, shown_before = 0, None
    for turn in range(rounds):
        ours, theirs, *of_server = (next(drawn) for _ in range(5))
        client, server, request = f"c{turn}", f"s{turn}", next_message + 2
        lines += [f"open a {client}", f"open b {server}"]
        lines += [f"start {client} {ours} proto=p9sk1 role=client", f"start {server} {theirs} proto=p9sk1 role=server"]
        lines += [f"read {client}", f"write {server} m{next_message}", f"read {server}", f"write {client} m{next_message + 1}"]
        next_message += 3
        # An honest login, a replay of what was shown before, a question without an answer, and a forgery.
        if turn % 4 == 2:
            lines += [f"noanswer {client}"]
        else:
            lines += [f"asgive r{turn} m{request} {' '.join(of_server)}", f"answer {client} m{next_message}", f"read {client}"]
            shown = next_message + 1
            next_message += 2
            lines += [f"write {server} " + {0: f"m{shown}", 1: f"m{shown_before}", 3: "x" + "00" * 85}[turn % 4]]
            shown_before = shown
        if turn % 4 == 0:
            lines += [f"read {server}", f"write {client} m{next_message}"]
            next_message += 1
        lines += [f"close {client}", f"close {server}"]
    return lines


if __name__ == "__main__":
    print("\n".join(script(int(sys.argv[1]), int(sys.argv[2]))))
