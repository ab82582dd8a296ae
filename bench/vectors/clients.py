#!/usr/bin/env python3
"""Starts `authd` and asks it as five clients at once, over loopback; opens what they get, and prints a line a client.

    bench/vectors/clients.py PROGRAM [ARGUMENT..]

The program is started with authd's options behind these words. The clients connect and all send one request before any
reads an answer, and each sends a second one while the others' connections stand. The last three are a client that sends
what no server knows, one that leaves in mid-request, and one that comes after both. It ends with 0 where all is as
authsrv(6) has it: the tickets open by both keys, say the same, and no two grants have one key.
"""
import pathlib
import socket
import subprocess
import sys
import tempfile

from authsrv import CHAL, KEYS, request
from sealing import expand

KEY_LINES = "user=bootes !hex=f0f07c7e7fcbc9\nuser=h !hex=0123456789abcd\nuser=ann !password=annpass\n"
SPEAKS = "hostid=h uid=!bob uid=*\n"


def undes(key: bytes, block: bytes) -> bytes:
    return subprocess.run(
        ["openssl", "enc", "-d", "-des-ecb", "-nopad", "-K", key.hex(), "-provider", "legacy", "-provider", "default"],
        input=block, capture_output=True, check=True).stdout


def opened(key: bytes, sealed: bytes) -> bytes:
    text, last = bytearray(sealed), len(sealed) - 1
    starts = [7 * i for i in range(last // 7)] + ([len(sealed) - 8] if last % 7 else [])
    for at in reversed(starts):
        text[at:at + 8] = undes(expand(key), bytes(text[at:at + 8]))
    return bytes(text)


def whole(client: socket.socket, size: int) -> bytes:
    got = b""
    while len(got) < size:
        more = client.recv(size - len(got))
        if not more:
            break
        got += more
    return got


def granted(host: bytes, user: bytes, answer: bytes) -> bytes:
    """The key of a grant, whose tickets are those of authsrv(6)."""
    assert len(answer) == 145 and answer[:1] == b"\x04", answer
    theirs, ours = opened(KEYS[host], answer[1:73]), opened(KEYS[b"bootes"], answer[73:])
    assert theirs[0] == 65 and ours[0] == 64 and theirs[1:] == ours[1:], (theirs, ours)
    assert ours[1:9] == CHAL and ours[9:37].split(b"\0")[0] == host and ours[37:65].split(b"\0")[0] == user, ours
    return ours[65:]


def start(words: list[str], folder: pathlib.Path) -> tuple[subprocess.Popen, int]:
    (folder / "keys").write_text(KEY_LINES)
    (folder / "keys").chmod(0o600)
    (folder / "speaks").write_text(SPEAKS)
    with socket.create_server(("127.0.0.1", 0)) as free:
        port = free.getsockname()[1]
    server = subprocess.Popen(
        words + ["--keys", str(folder / "keys"), "--listen", f"127.0.0.1:{port}", "--speaks", str(folder / "speaks"), "--dom", "x"],
        stderr=subprocess.PIPE)
    line = server.stderr.readline()
    assert line == f"authd: listening on 127.0.0.1:{port}\n".encode(), line
    print("authd:", line.decode().strip())
    return server, port


def ask_all(port: int) -> None:
    asked = [(b"h", b"eve"), (b"ann", b"ann"), (b"h", b"sys"), (b"bootes", b"bootes"), (b"h", b"h")]
    clients = [socket.create_connection(("127.0.0.1", port), 20) for _ in asked]
    keys = []
    for turn in ("first", "second"):
        for client, (host, user) in zip(clients, asked):
            client.sendall(b"".join(request(b"bootes", host, user)))
        for number, (client, (host, user)) in reversed(list(enumerate(zip(clients, asked)))):
            keys.append(granted(host, user, whole(client, 145)))
            print(f"client {number}: {turn} grant, {host.decode()} speaks for {user.decode()}, key {keys[-1].hex()}")
    assert len(set(keys)) == len(keys)
    for client in clients:
        client.close()


def ask_badly(port: int) -> None:
    unknown = socket.create_connection(("127.0.0.1", port), 20)
    unknown.sendall(b"\x63" + bytes(140))
    assert whole(unknown, 1) == b""
    print("client 5: an unknown request, hung up")
    torn = socket.create_connection(("127.0.0.1", port), 20)
    torn.sendall(b"\x01bootes")
    torn.shutdown(socket.SHUT_WR)
    assert whole(torn, 1) == b""
    print("client 6: left in mid-request, hung up")
    last = socket.create_connection(("127.0.0.1", port), 20)
    last.sendall(b"".join(request(b"bootes", b"h", b"eve")))
    print("client 7: served after both, key", granted(b"h", b"eve", whole(last, 145)).hex())


def main() -> int:
    with tempfile.TemporaryDirectory() as folder:
        server, port = start(sys.argv[1:], pathlib.Path(folder))
        try:
            ask_all(port)
            ask_badly(port)
        finally:
            server.terminate()
            said = server.stderr.read().decode().splitlines()
        for line in said:
            print("authd:", line)
        lines = ["factotum: unknown request 99 at 0", "factotum: input ends inside the message at 0"]
        return 0 if said == lines else 1


if __name__ == "__main__":
    sys.exit(main())
