"""Rows of the files of cases that programs of rows play: fields with blanks between, in quotes where they aren't plain."""
from pathlib import Path

SHOWN = {0x00: "\\0", 0x09: "\\t", 0x0A: "\\n", 0x0D: "\\r", 0x22: '\\"', 0x5C: "\\\\"}


def shown(byte: int) -> str:
    return SHOWN.get(byte) or (chr(byte) if 0x20 <= byte < 0x7F else f"\\x{byte:02x}")


def field(value) -> str:
    """A field: bytes or text, a number in decimal digits."""
    if isinstance(value, int):
        return str(value)
    data = value.encode() if isinstance(value, str) else value
    plain = all(0x20 < byte < 0x7F and byte not in b'"\\#' for byte in data)
    if data and plain and data != b"=>":
        return data.decode()
    return '"' + "".join(shown(byte) for byte in data) + '"'


def row(*given, wanted=(), note: str = "") -> str:
    """What is given, what is wanted, and a comment."""
    fields = [field(value) for value in given] + ["=>"] + [field(value) for value in wanted]
    return " ".join(fields) + (f" # {note}" if note else "")


def write(folder: str, name: str, lines: list[str]) -> None:
    """Writes a file of rows into the data of a crate."""
    Path(folder, "data", name).write_text("\n".join(lines) + "\n")
