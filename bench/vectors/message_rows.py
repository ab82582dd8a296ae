"""Messages as rows of a file: `message NAME PART ..`, which is its parts, one behind the other."""
import re

SHOWN = {0: "\\0", 0x09: "\\t", 0x0a: "\\n", 0x0d: "\\r", 0x22: '\\"', 0x5c: "\\\\"}
PLAIN = re.compile(rb"[!$%-\[\]-~]+")
RUNS = re.compile(rb"(.)\1{4,}", re.DOTALL)


def quoted(text: bytes) -> str:
    return '"' + "".join(SHOWN.get(byte) or (chr(byte) if 0x20 <= byte < 0x7f else f"\\x{byte:02x}") for byte in text) + '"'


def row_field(text: bytes) -> str:
    """A text as one field of a row: as it is, or in quotes."""
    return text.decode() if PLAIN.fullmatch(text) and text != b"=>" else quoted(text)


def row_parts(text: bytes) -> str:
    """A text as fields of a row, where a byte that stands often stands once, with its number of times."""
    parts, at = [], 0
    for run in RUNS.finditer(text):
        if at < run.start():
            parts.append(row_field(text[at:run.start()]))
        parts.append(f"{quoted(run.group(1))}*{run.end() - run.start()}")
        at = run.end()
    if at < len(text) or not parts:
        parts.append(row_field(text[at:]))
    return " ".join(parts)


def show_heading(text: str) -> None:
    print(f"\n# {text}")


def show_message(name: str, text: bytes) -> None:
    print(f"message {name.lower().replace('_', '-')} {row_parts(text)}")
