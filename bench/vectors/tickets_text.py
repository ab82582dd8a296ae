"""The fields of the records of authsrv(6)."""


def field(name: bytes, size: int, behind: bytes = b"") -> bytes:
    """A name's field: the name, a NUL, what stands behind it, and NULs to the end."""
    return (name + b"\0" + behind).ljust(size, b"\0")[:size]
