#!/usr/bin/env python3
"""Makes the frames of the cases of nine, nine_print and nine_show, with what is known of each.

Written from the layout of section 5 of the Plan 9 manual (intro(5): size[4] type[1] tag[2], numbers little-endian,
s is a length of two bytes and so many bytes of UTF-8 without NUL). It shares nothing with the proved code.

usage: frames.py rows CRATE   writes frames.rows and shown.rows into the data of the program of rows
       frames.py stream       writes the stored input of nine_show
       frames.py lines        prints what nine_show has to print of it
"""
import sys

import row_fields as rows


def le(number: int, size: int) -> bytes:
    return number.to_bytes(size, "little")


def s(text: bytes) -> bytes:
    return le(len(text), 2) + text


def qid(kind: int, vers: int, path: int) -> bytes:
    return le(kind, 1) + le(vers, 4) + le(path, 8)


def frame(kind: int, tag: int, *fields: bytes) -> bytes:
    body = le(kind, 1) + le(tag, 2) + b"".join(fields)
    return le(4 + len(body), 4) + body


ROOT, CTL = qid(0x80, 0, 0), qid(0, 0, 3)
NOFID, NOTAG = 0xffffffff, 0xffff
LINE = b"key proto=apop user=a !password=b"

# stat(5): size[2] type[2] dev[4] qid[13] mode[4] atime[4] mtime[4] length[8] name[s] uid[s] gid[s] muid[s]
STAT = le(0, 2) + le(0, 4) + CTL + le(0x180, 4) + le(0, 4) + le(0, 4) + le(0, 8) + s(b"ctl") + 3 * s(b"factotum")
STAT_OF_CTL = le(len(STAT), 2) + STAT
assert len(STAT) == 0x4a

# Each message of 9P2000: a name, its type, its tag and its fields, in the order of the manual.
VALID = [
    ("Tversion", 100, NOTAG, [le(8216, 4), s(b"9P2000")]),
    ("Rversion", 101, NOTAG, [le(8216, 4), s(b"9P2000")]),
    ("Tauth", 102, 1, [le(9, 4), s(b"ann"), s(b"")]),
    ("Rauth", 103, 1, [qid(8, 1, 0x0102030405060708)]),
    ("Tattach", 104, 1, [le(0, 4), le(NOFID, 4), s(b"ann"), s("\u00e9".encode())]),
    ("Rattach", 105, 1, [ROOT]),
    ("Rerror", 107, 7, [s(b"not served")]),
    ("Tflush", 108, 8, [le(0x1234, 2)]),
    ("Rflush", 109, 8, []),
    ("Twalk", 110, 2, [le(0, 4), le(1, 4), le(2, 2), s(b"factotum"), s(b"ctl")]),
    ("Rwalk", 111, 2, [le(2, 2), qid(0x80, 0, 1), CTL]),
    ("Topen", 112, 3, [le(1, 4), le(2, 1)]),
    ("Ropen", 113, 3, [CTL, le(0, 4)]),
    ("Tcreate", 114, 9, [le(1, 4), s(b"new"), le(0x800001ed, 4), le(1, 1)]),
    ("Rcreate", 115, 9, [qid(0x40, 7, 9), le(8192, 4)]),
    ("Tread", 116, 5, [le(1, 4), le(0x0102030405060708, 8), le(100, 4)]),
    ("Rread", 117, 5, [le(4, 4), b"key\n"]),
    ("Twrite", 118, 4, [le(1, 4), le(0, 8), le(33, 4), LINE]),
    ("Rwrite", 119, 4, [le(33, 4)]),
    ("Tclunk", 120, 6, [le(1, 4)]),
    ("Rclunk", 121, 6, []),
    ("Tremove", 122, 10, [le(1, 4)]),
    ("Rremove", 123, 10, []),
    ("Tstat", 124, 11, [le(1, 4)]),
    ("Rstat", 125, 11, [le(3, 2), b"\x01\x00a"]),
    ("Tstat of ctl", 124, 7, [le(1, 4)]),
    ("Rstat of ctl", 125, 7, [le(len(STAT_OF_CTL), 2), STAT_OF_CTL]),
    ("Twstat", 126, 12, [le(1, 4), le(2, 2), b"\xff\x00"]),
    ("Rwstat", 127, 12, []),
]

# Where a string begins in the fields of each message that has one.
STRINGS = {"Tversion": [4], "Rversion": [4], "Tauth": [4, 9], "Tattach": [8, 13], "Rerror": [0], "Twalk": [10, 20], "Tcreate": [4]}


def starts(name: str, fields: list[bytes]) -> list[tuple[int, int]]:
    """Where each field of a message begins in its fields, and where it ends. A string, a counted list of bytes and a
    qid are one field each: a fault in it is told at its first byte."""
    units: list[tuple[int, int]] = []
    at = 0
    parts = list(fields)
    if name.split()[0] in ("Rread", "Rstat"):
        return [(0, sum(map(len, parts)))]
    if name in ("Twrite", "Twstat"):
        head, tail = parts[:-2], parts[-2:]
        for part in head:
            units.append((at, at + len(part)))
            at += len(part)
        return units + [(at, at + sum(map(len, tail)))]
    for part in parts:
        if len(part) == 13:
            units += [(at, at + 1), (at, at + 5), (at, at + 13)]
        else:
            units.append((at, at + len(part)))
        at += len(part)
    return units


def table() -> list[tuple[str, bytes, int | None]]:
    """A name, a frame, and the place of its first fault: None where it is a message."""
    found: list[tuple[str, bytes, int | None]] = []
    for name, kind, tag, fields in VALID:
        found.append((name, frame(kind, tag, *fields), None))
    for name, kind, tag, fields in VALID:
        whole = b"".join(fields)
        for begin, end in starts(name, fields):
            # cut in front of its last byte
            found.append((f"{name} cut at {end - 1}", frame(kind, tag, whole[:end - 1]), 7 + begin))
        found.append((f"{name} and a byte", frame(kind, tag, whole + b"\0"), 7 + len(whole)))
    for name, kind, tag, fields in VALID:
        whole = b"".join(fields)
        for at in STRINGS.get(name, []):
            size = whole[at] + 256 * whole[at + 1]
            if size == 0:
                continue
            for what, byte in (("NUL", 0), ("0xff", 0xff)):
                bad = whole[:at + 1 + size] + le(byte, 1) + whole[at + 2 + size:]
                found.append((f"{name} with {what} in the string at {at}", frame(kind, tag, bad), 7 + at))
    for count in (0, 16, 17):
        names = [s(b"a") for _ in range(count)]
        found.append((f"Twalk of {count} names", frame(110, 2, le(0, 4), le(1, 4), le(count, 2), *names), 15 if count > 16 else None))
        found.append((f"Rwalk of {count} qids", frame(111, 2, le(count, 2), *[qid(0, 0, n) for n in range(count)]), 7 if count > 16 else None))
    for count in (0, 0xffffffff):
        found.append((f"Tread of {count}", frame(116, 5, le(1, 4), le(0, 8), le(count, 4)), None))
    found.append(("Twrite whose count is one too many", frame(118, 4, le(1, 4), le(0, 8), le(3, 4), b"ab"), 19))
    found.append(("Twrite whose count is one too few", frame(118, 4, le(1, 4), le(0, 8), le(1, 4), b"ab"), 24))
    found.append(("Twrite whose count is 65538 and its content 2 bytes", frame(118, 4, le(1, 4), le(0, 8), le(65538, 4), b"ab"), 19))
    found.append(("Rread whose count is one too many", frame(117, 4, le(3, 4), b"ab"), 7))
    found.append(("Tversion of 9P2000.u", frame(100, NOTAG, le(8216, 4), s(b"9P2000.u")), None))
    found.append(("Rread of nothing", frame(117, 4, le(0, 4)), None))
    found.append(("Twrite of nothing", frame(118, 4, le(1, 4), le(0, 8), le(0, 4)), None))
    for kind in (0, 98, 99, 106, 128, 129, 254, 255):
        found.append((f"type {kind}", frame(kind, 1), 4))
    return found


def frames_rows() -> list[str]:
    lines = [
        "# Frames of 9P, made by bench/vectors/frames.py from section 5 of the Plan 9 manual: each message, cut in each of its fields,",
        "# with a byte behind it, and with strings that are none.",
        "#",
        "# frame BYTES => message 4: a message, which is written as it was read, and in the other direction is refused at its type, at",
        "# byte 4. frame BYTES => PLACE 4: none, with its first fault at this place.",
        "",
    ]
    for name, bytes_, at in table():
        lines.append(rows.row("frame", bytes_, wanted=("message" if at is None else at, 4), note=name))
    return lines


def shown_rows() -> list[str]:
    lines = [
        "# A stream of frames and its lines, made by bench/vectors/frames.py, the lines written by hand from the manual's fcall(2).",
        "#",
        "# show BYTES => Fine LINE: these come in a stream behind those before, and this line is shown for them.",
        "",
    ]
    at = 0
    for bytes_, line in SHOWN:
        lines.append(rows.row("show", bytes_, wanted=("Fine", line.replace("{at}", str(at)) + "\n")))
        at += len(bytes_)
    return lines


# The stored conversation of nine_show, and its lines, written out by hand from the manual's fcall(2).
SHOWN = [
    (frame(100, NOTAG, le(8216, 4), s(b"9P2000")), "Tversion tag NOTAG msize 8216 version '9P2000'"),
    (frame(101, NOTAG, le(8216, 4), s(b"9P2000")), "Rversion tag NOTAG msize 8216 version '9P2000'"),
    (frame(102, 1, le(9, 4), s(b"ann"), s(b"")), "Tauth tag 1 afid 9 uname 'ann' aname ''"),
    (frame(107, 1, s(b"authentication not required")), "Rerror tag 1 ename 'authentication not required'"),
    (frame(104, 1, le(0, 4), le(NOFID, 4), s(b"it's"), s(b"a\tb")), "Tattach tag 1 fid 0 afid NOFID uname 'it\\'s' aname 'a\\tb'"),
    (frame(105, 1, ROOT), "Rattach tag 1 qid (0000000000000000 0 d)"),
    (frame(110, 2, le(0, 4), le(1, 4), le(2, 2), s(b"factotum"), s(b"ctl")), "Twalk tag 2 fid 0 newfid 1 nwname 2 'factotum' 'ctl'"),
    (frame(111, 2, le(2, 2), qid(0x80, 0, 1), CTL), "Rwalk tag 2 nwqid 2 (0000000000000001 0 d) (0000000000000003 0 )"),
    (frame(112, 3, le(1, 4), le(2, 1)), "Topen tag 3 fid 1 mode 2"),
    (frame(113, 3, CTL, le(0, 4)), "Ropen tag 3 qid (0000000000000003 0 ) iounit 0"),
    (frame(118, 4, le(1, 4), le(0, 8), le(33, 4), LINE), "Twrite tag 4 fid 1 offset 0 count 33 'key proto=apop user=a !password='.."),
    (frame(119, 4, le(33, 4)), "Rwrite tag 4 count 33"),
    (frame(118, 4, le(1, 4), le(0, 8), le(30, 4), b"key '!hex'='a b\nc' user=public"), "Twrite tag 4 fid 1 offset 0 count 30 'key \\'!hex\\'='.."),
    (frame(118, 4, le(1, 4), le(0, 8), le(12, 4), b"!hex=\xff\xffsecre"), "Twrite tag 4 fid 1 offset 0 count 12 '!hex='.."),
    (frame(116, 5, le(1, 4), le(0, 8), le(100, 4)), "Tread tag 5 fid 1 offset 0 count 100"),
    (frame(117, 5, le(33, 4), b"key proto=apop user=a !password?\n"), "Rread tag 5 count 33 'key proto=apop user=a !password?\\n'"),
    (frame(117, 5, le(70, 4), b"x" * 70), "Rread tag 5 count 70 '" + "x" * 64 + "'.."),
    (frame(117, 5, le(3, 4), b"\x00\x01\xfe"), "Rread tag 5 count 3 ''.."),
    (frame(117, 5, le(64, 4), b"a !p=" + b"y" * 59), "Rread tag 5 count 64 'a !p='.."),
    (frame(117, 5, le(34, 4), b"key a=b !password?\nkey c=d !hex=00"), "Rread tag 5 count 34 'key a=b !password?\\nkey c=d !hex='.."),
    (frame(108, 8, le(5, 2)), "Tflush tag 8 oldtag 5"),
    (frame(109, 8), "Rflush tag 8"),
    (frame(114, 9, le(1, 4), s(b"new"), le(0x800001ed, 4), le(1, 1)), "Tcreate tag 9 fid 1 name 'new' perm 800001ed mode 1"),
    (frame(115, 9, qid(0x60, 7, 0x123456789abcdef0), le(8192, 4)), "Rcreate tag 9 qid (123456789abcdef0 7 al) iounit 8192"),
    (frame(124, 11, le(1, 4)), "Tstat tag 11 fid 1"),
    (frame(125, 11, le(3, 2), b"\x01\x00a"), "Rstat tag 11 stat 3 ''.."),
    (frame(126, 12, le(1, 4), le(2, 2), b"ab"), "Twstat tag 12 fid 1 stat 2 'ab'"),
    (frame(127, 12), "Rwstat tag 12"),
    (frame(103, 1, qid(8, 1, 2)), "Rauth tag 1 aqid (0000000000000002 1 A)"),
    (frame(122, 10, le(1, 4)), "Tremove tag 10 fid 1"),
    (frame(123, 10), "Rremove tag 10"),
    (frame(120, 6, le(1, 4), b"\0"), "bad message: type 120 tag 6 fault at 11 of the frame at {at}"),
    (frame(106, 6), "bad message: type 106 tag 6 fault at 4 of the frame at {at}"),
    (frame(107, NOTAG, s(b"a\0")), "bad message: type 107 tag NOTAG fault at 7 of the frame at {at}"),
    (frame(120, 6, le(1, 4)), "Tclunk tag 6 fid 1"),
    (frame(121, 6), "Rclunk tag 6"),
]


def main(words: list[str]) -> None:
    if len(words) == 2 and words[0] == "rows":
        rows.write(words[1], "frames.rows", frames_rows())
        rows.write(words[1], "shown.rows", shown_rows())
    elif words == ["stream"]:
        sys.stdout.buffer.write(b"".join(bytes_ for bytes_, _ in SHOWN))
    elif words == ["lines"]:
        at = 0
        for bytes_, line in SHOWN:
            print(line.replace("{at}", str(at)))
            at += len(bytes_)
    else:
        sys.exit(__doc__)


if __name__ == "__main__":
    main(sys.argv[1:])
