#!/usr/bin/env python3
"""Writes the known answers of the file tree and of the fids: tree.py CRATE, the folder of the program of rows.

Written from section 5 of the Plan 9 manual (stat(5), read(5), walk(5)) and the table of files. It shares nothing with
the proved code: the tree is a set of paths here.
"""
import struct
import sys

import row_fields as rows

FILES = {
    "/": (0, 0x80, 0x8000016D),
    "/factotum": (1, 0x80, 0x8000016D),
    "/factotum/rpc": (2, 0, 0x1B6),
    "/factotum/ctl": (3, 0, 0x180),
    "/factotum/confirm": (4, 0x20, 0x20000180),
    "/factotum/needkey": (5, 0x20, 0x20000180),
    "/factotum/proto": (6, 0, 0x124),
    "/factotum/log": (7, 0x20, 0x20000180),
}
DIRECTORIES = [path for path, (_, kind, _) in FILES.items() if kind == 0x80]


def name(path: str) -> str:
    return path.rsplit("/", 1)[1] or "/"


def counted(text: str) -> bytes:
    return struct.pack("<H", len(text)) + text.encode()


def record(path: str) -> bytes:
    number, kind, mode = FILES[path]
    fields = struct.pack("<HIBIQIIIQ", 0, 0, kind, 0, number, mode, 0, 0, 0)
    fields += counted(name(path)) + 3 * counted("factotum")
    return struct.pack("<H", len(fields)) + fields


def inside(directory: str) -> list[str]:
    return [path for path in FILES if path != directory and (path.rsplit("/", 1)[0] or "/") == directory]


def reads(directory: str, count: int) -> list[int]:
    """The sizes of the reads of a directory with one count, up to the first that gives nothing."""
    sizes = [len(record(path)) for path in inside(directory)]
    given = []
    while True:
        size = 0
        while sizes and size + sizes[0] <= count:
            size += sizes.pop(0)
        given.append(size)
        if size == 0:
            return given


def walk(path: str, names: list[str]) -> tuple[list[str], str]:
    """The paths that a walk comes to, and the text that refuses it."""
    if names and path not in DIRECTORIES:
        return [], "not a directory"
    visited = []
    for each in names:
        if path not in DIRECTORIES:
            break
        path = (path.rsplit("/", 1)[0] or "/") if each == ".." else path.rstrip("/") + "/" + each
        if path not in FILES:
            break
        visited.append(path)
    return visited, "file not found" if names and not visited else ""


def trips() -> list[tuple[str, str]]:
    """From every directory: to every file, up and down and with no names, and with a name that isn't there at each
    place. From every file: with no names, and with some."""
    rows = []
    for start in FILES:
        ways = [""]
        if start in DIRECTORIES:
            for end in FILES:
                up = [".."] * (len(start.split("/")) - 1 if start != "/" else 0)
                down = [each for each in end.split("/") if each]
                ways += [" ".join(up + down), " ".join([".."] + up + down)]
                if end.startswith(start.rstrip("/") + "/"):
                    ways.append(end[len(start.rstrip("/")):].strip("/").replace("/", " "))
            ways += ["nothing", "nothing ctl", ".. nothing", "factotum nothing", "factotum nothing ctl", "factotum ctl nothing",
                     "factotum ctl ..", "factotum ctl rpc", "ctl", "ctl rpc", "ctl ..", ". factotum", "factotum .. factotum log",
                     "/", ".. / factotum"]
        else:
            ways += ["..", "ctl", "nothing", ".. ctl"]
        for way in ways:
            if (start, way) not in rows:
                rows.append((start, way))
    return rows


def first_name(path: str) -> str:
    """The words that lead to a file from the root."""
    return " ".join(path.split("/")[1:]).strip()


def records_rows() -> list[str]:
    lines = [
        "# What is told of the files of the tree, made by bench/vectors/tree.py.",
        "#",
        "# record FILE => RECORD SIZE: the record by which a file is told, in hexadecimal digits, and its size.",
        "# reads FILE COUNT => SIZE .. whole: reads of so many bytes of a directory, from its beginning to the first that gives",
        "# nothing, give so many bytes, which are the whole of its records; or front, where they end before.",
        "",
    ]
    for path in FILES:
        lines.append(rows.row("record", name(path), wanted=(record(path).hex(), len(record(path)))))
    lines.append("")
    for path in DIRECTORIES:
        whole = sum(len(record(each)) for each in inside(path))
        for count in (0, 75, 76, 80, 81, 155, 156, 240, 465, 466, 8192):
            sizes = reads(path, count)
            end = "whole" if sum(sizes) == whole else "front"
            lines.append(rows.row("reads", name(path), count, wanted=(*sizes, end)))
    return lines


def walks_rows() -> list[str]:
    lines = [
        "# Walks from every file, made by bench/vectors/tree.py: from every directory to every file, up and down and with no names,",
        "# and with a name that isn't there at each place; from every file with no names, and with some.",
        "#",
        "# trip WAY NAMES => ANSWER NAMED ANSWER NAMED ANSWER NAMED: the names are walked from the file to which the way leads, which",
        "# fid 1 names: onto a new fid, onto fid 0, which names the root, and onto fid 1 itself. Each answer is the names of the files",
        "# that it comes to, or what refuses it; behind it stands what the fid names then.",
        "",
    ]
    for start, way in trips():
        visited, refusal = walk(start, way.split())
        answer = refusal or " ".join(name(path) for path in visited)
        end = (visited or [start])[-1] if len(visited) == len(way.split()) else None
        new = name(end) if end else "unknown fid"
        wanted = (answer, new, "fid in use", "/", answer, name(end or start))
        lines.append(rows.row("trip", first_name(start), way, wanted=wanted))
    return lines


if __name__ == "__main__":
    rows.write(sys.argv[1], "records.rows", records_rows())
    rows.write(sys.argv[1], "walks.rows", walks_rows())
