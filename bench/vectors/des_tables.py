#!/usr/bin/env python3
"""Prints the tables of crates/des_block: permutations by rows of four bits, and selection functions joined with P.

The standard's own tables stand here as crates/des_block/specs/Tables.antt has them, and are read from there.
"""
import pathlib
import re

SPEC = pathlib.Path(__file__).parents[2] / "crates/des_block/specs/Tables.antt"


def table(name: str) -> list[int]:
    body = re.search(rf"\n{name} =\n(.*?)\[\]", SPEC.read_text(), re.S).group(1)
    return [int(number) for number in re.findall(r"\d+", body)]


def binary(width: int, number: int) -> list[int]:
    return [number >> (width - 1 - place) & 1 for place in range(width)]


def number(bits: list[int]) -> int:
    return int("".join(map(str, bits)), 2)


def permuted(entries: list[int], bits: list[int]) -> list[int]:
    return [bits[entry - 1] for entry in entries]


def rows(entries: list[int], digits: int) -> list[list[int]]:
    """A row for each four bits of the input, an entry for each number that they may spell."""
    return [[number(permuted(entries, binary(4 * digits, digit << 4 * (digits - 1 - place)))) for digit in range(16)]
            for place in range(digits)]


def combined() -> list[list[int]]:
    """A row for each selection function, an entry for each number that its six bits may spell."""
    made = []
    for place in range(8):
        selection, row = table(f"S{place + 1}"), []
        for six in range(64):
            chosen = selection[16 * (2 * (six >> 5) + six % 2) + six // 2 % 16]
            row.append(number(permuted(table("P"), binary(32, chosen << 28 - 4 * place))))
        made.append(row)
    return made


def show(name: str, kind: str, digits: int, made: list[list[int]]) -> None:
    print(f"pub const {name}: [[{kind}; {len(made[0])}]; {len(made)}] = [")
    for row in made:
        print("    [" + ", ".join(f"0x{entry:0{digits}x}" for entry in row) + "],")
    print("];")


show("INITIAL", "u64", 16, rows(table("IP"), 16))
show("FINAL", "u64", 16, rows(table("IP_inverse"), 16))
show("CHOICE_1", "u64", 14, rows(table("PC1"), 16))
show("CHOICE_2", "u64", 12, rows(table("PC2"), 14))
show("COMBINED", "u32", 8, combined())
