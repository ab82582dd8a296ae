#!/usr/bin/env python3
"""Two agents log in to each other, each of them `factotum pipe --auth ADDR`, with an authentication server on a loopback
socket that this script plays over OpenSSL's DES. It prints what each side is answered, and ends with status 1 where the two
don't agree.

    bench/vectors/login_by_hand.py PATH-OF-FACTOTUM [--slow]

With --slow a server that never answers is waited for too, which takes 30 seconds.

Frames come from agent.py, records of authsrv(6) from logins.py. Nothing of the project's own code is used.
"""
import os
import socket
import subprocess
import sys
import threading

from agent import A, V, opened, read, write
from logins import ANN, ANN_KEY, CLIENT, SERVER, SRV, SRV_KEY, ticket

KEYS = {b"ann": ANN, b"srv": SRV}


def name_in(field):
    return field.split(b"\0")[0]


def answer(request):
    """The two tickets that a request of 141 bytes is answered by; nothing to any other."""
    if len(request) != 141 or request[0] != 1:
        return b""
    authid, chal = name_in(request[1:29]), request[77:85]
    host, user = name_in(request[85:113]), name_in(request[113:141])
    fresh = os.urandom(7)
    return b"\x04" + ticket(KEYS[host], 65, chal, user, user, fresh) + ticket(KEYS[authid], 64, chal, user, user, fresh)


def shut(listener):
    """A server that hangs up at once."""
    while True:
        try:
            line, _ = listener.accept()
        except OSError:
            return
        line.recv(141, socket.MSG_WAITALL)
        line.close()


def serve(listener, asked):
    while True:
        try:
            line, _ = listener.accept()
        except OSError:
            return
        request = line.recv(141, socket.MSG_WAITALL)
        asked.append(request)
        line.sendall(answer(request))
        line.close()


class Agent:
    """A factotum on two pipes, asked frame by frame."""

    def __init__(self, program, address, key):
        self.process = subprocess.Popen([program, "pipe", "--auth", address], stdin=subprocess.PIPE, stdout=subprocess.PIPE)
        for request, _ in [V, A] + opened(1, 2, "factotum", "ctl"):
            self.ask(request)
        self.ask(write(1, b"key " + key.encode()))
        for request, _ in opened(2, 2, "factotum", "rpc"):
            self.ask(request)

    def ask(self, request):
        self.process.stdin.write(request)
        self.process.stdin.flush()
        size = self.process.stdout.read(4)
        reply = size + self.process.stdout.read(int.from_bytes(size, "little") - 4)
        if reply[4] == 107:
            raise SystemExit("refused: " + repr(reply[9:]))
        return reply

    def rpc(self, verb, message=b""):
        self.ask(write(2, verb + (b" " + message if message else b"")))
        return self.ask(read(2, 0, 4096))[11:]

    def got(self):
        return self.rpc(b"read").removeprefix(b"ok ")

    def end(self):
        self.process.stdin.close()
        return self.process.wait()


def login(program, address, names):
    """One login; what both sides say that it came to."""
    client, server = Agent(program, address, ANN_KEY), Agent(program, address, SRV_KEY)
    print("client:", names[0], client.rpc(CLIENT.encode()), " server:", names[1], server.rpc(SERVER.encode()))
    print("  client's challenge is taken:", server.rpc(b"write", client.got()))
    print("  server's request is taken, and the authentication server asked:", client.rpc(b"write", server.got()))
    print("  ticket and proof are taken:", server.rpc(b"write", client.got()))
    print("  server's proof is taken:", client.rpc(b"write", server.got()))
    infos = [agent.rpc(b"authinfo") for agent in (client, server)]
    print("  both tell who was accepted, alike:", infos[0] == infos[1] and infos[0].startswith(b"ok "))
    print("  attributes:", client.rpc(b"attr").decode())
    print("  statuses:", client.end(), server.end())
    return infos[0] == infos[1] and infos[0].startswith(b"ok \x03\0ann")


def unreached(program, address, why):
    client, server = Agent(program, address, ANN_KEY), Agent(program, address, SRV_KEY)
    client.rpc(CLIENT.encode())
    server.rpc(SERVER.encode())
    server.rpc(b"write", client.got())
    said = client.rpc(b"write", server.got())
    print(why + ":", said.decode())
    return client.end() == 0 and server.end() == 0 and said


def main():
    program = sys.argv[1]
    listener = socket.create_server(("127.0.0.1", 0))
    address = "127.0.0.1:%d" % listener.getsockname()[1]
    asked = []
    threading.Thread(target=serve, args=(listener, asked), daemon=True).start()
    good = login(program, address, ["ann", "srv"]) and login(program, address, ["ann again", "srv again"])
    good = good and len(asked) == 2 and all(len(request) == 141 for request in asked)
    listener.shutdown(socket.SHUT_RDWR)
    listener.close()
    good = unreached(program, address, "nobody there") == b"error no server" and good
    closing = socket.create_server(("127.0.0.1", 0))
    threading.Thread(target=shut, args=(closing,), daemon=True).start()
    good = unreached(program, "127.0.0.1:%d" % closing.getsockname()[1], "one that hangs up") == b"error no server" and good
    if "--slow" in sys.argv:
        silent = socket.create_server(("127.0.0.1", 0))
        good = unreached(program, "127.0.0.1:%d" % silent.getsockname()[1], "one that says nothing, for 30 seconds") == b"error no server" and good
    path = "/tmp/login_by_hand.%d" % os.getpid()
    unix = socket.socket(socket.AF_UNIX)
    unix.bind(path)
    unix.listen()
    threading.Thread(target=serve, args=(unix, asked), daemon=True).start()
    good = login(program, path, ["ann by a Unix socket", "srv"]) and good
    os.unlink(path)
    print("as it should be" if good else "NOT as it should be")
    sys.exit(0 if good else 1)


main()
