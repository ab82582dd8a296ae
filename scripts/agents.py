"""What the scripts of this folder share: a 9P2000 client of an agent, and the programs that they start, from a folder or, built
without their proofs, from bin/unproved."""
import os
import shutil
import signal
import socket
import struct
import subprocess
import tempfile
import time
from importlib.machinery import SourceFileLoader
from importlib.util import module_from_spec, spec_from_loader

TOP = os.path.realpath(os.path.join(os.path.dirname(__file__), ".."))


def module_of_keys():
    """The program factotum-keys as a module: its client of 9P2000 is that of these scripts."""
    loader = SourceFileLoader("factotum_keys", os.path.join(TOP, "scripts", "factotum-keys"))
    module = module_from_spec(spec_from_loader(loader.name, loader))
    loader.exec_module(module)
    return module


keys = module_of_keys()


class Agent(keys.Agent):
    """A client of an agent that shows what it writes to rpc and reads there. A refusal ends the program."""

    def __init__(self, name, reads, writes):
        self.name = name
        super().__init__(reads, writes)

    def content(self, wanted, kind, body):
        """The body of a reply."""
        try:
            return super().content(wanted, kind, body)
        except (keys.Refused, keys.Trouble) as fault:
            raise SystemExit(f"{self.name}: refused: {fault}") from fault

    def rpc(self, fid, verb, content=None):
        """The answer to a request of a conversation."""
        self.write(fid, verb if content is None else verb + b" " + content)
        answer = self.read(fid)
        shown = verb.decode() if content is None else f"{verb.decode()} {shortly(content)}"
        print(f"  {self.name:6} <- {shown}")
        print(f"  {self.name:6} -> {shortly(answer)}")
        return answer

    def got(self, fid):
        """What is to be sent to the other side."""
        answer = self.rpc(fid, b"read")
        if not answer.startswith(b"ok "):
            raise SystemExit(f"{self.name}: {answer!r}")
        return answer[3:]


def shortly(content):
    """A text as it is, and of other bytes how many there are."""
    head, _, rest = content.partition(b" ") if content[:3] == b"ok " else (b"", b"", content)
    head = head.decode() + " " if head else ""
    if all(0x20 <= byte < 0x7F for byte in rest.rstrip(b"\0")):
        return head + rest.rstrip(b"\0").decode()
    return f"{head}({len(rest)} bytes)"


def fields(info):
    """The parts of an authinfo."""
    found = []
    while info:
        size = struct.unpack("<H", info[:2])[0]
        found.append(info[2:2 + size])
        info = info[2 + size:]
    return found


class Started:
    """The programs that were started, to be ended."""

    def __init__(self, folder, unproved):
        if unproved:
            folder = os.path.join(TOP, "bin", "unproved")
            if subprocess.run([os.path.join(TOP, "scripts", "build_unproved"), "factotum", "authd"], check=False).returncode:
                raise SystemExit(1)
        self.folder, self.all = folder, []
        self.scratch = tempfile.mkdtemp(prefix="login-")

    def start(self, *words, **how):
        words = [os.path.join(self.folder, words[0]), *words[1:]]
        process = subprocess.Popen(words, start_new_session=True, **how)
        self.all.append(process)
        return process

    def file(self, name, content):
        path = os.path.join(self.scratch, name)
        with open(path, "w", encoding="utf-8") as it:
            it.write(content)
        os.chmod(path, 0o600)
        return path

    def end(self):
        for process in self.all:
            os.killpg(process.pid, signal.SIGTERM)
            process.wait()
        shutil.rmtree(self.scratch)


def call(process, family, address):
    """A connection to a program that was started, once it listens there."""
    for _ in range(6000):
        line = socket.socket(family)
        try:
            line.connect(address)
            return line
        except OSError:
            line.close()
        if process.poll() is not None:
            raise SystemExit(f"a program ended with status {process.returncode} before it listened")
        time.sleep(0.05)
    raise SystemExit("a program doesn't listen")


def free_port():
    with socket.create_server(("127.0.0.1", 0)) as it:
        return it.getsockname()[1]


def authentication_server(started):
    keys = started.file("keys", "user=ann !password=annpass\nuser=srv !password=srvpass\n")
    speaks = started.file("speaks", "")
    port = free_port()
    address = f"127.0.0.1:{port}"
    process = started.start("authd", "--listen", address, "--dom", "example.org", "--keys", keys, "--speaks", speaks, stdin=subprocess.DEVNULL, stdout=subprocess.DEVNULL, stderr=subprocess.DEVNULL)
    return process, port


class Agents:
    """An agent that was started, and its clients."""

    def __init__(self, started, name, address, by_pipe):
        self.name, self.by_pipe = name, by_pipe
        if by_pipe:
            self.process = started.start("factotum", "pipe", "--auth", address, stdin=subprocess.PIPE, stdout=subprocess.PIPE, stderr=subprocess.DEVNULL)
            return
        self.path = os.path.join(started.scratch, name)
        self.process = started.start("factotum", "serve", "--listen", self.path, "--auth", address, stdin=subprocess.DEVNULL, stdout=subprocess.DEVNULL, stderr=subprocess.DEVNULL)

    def client(self):
        if self.by_pipe:
            return Agent(self.name, self.process.stdout, self.process.stdin)
        line = call(self.process, socket.AF_UNIX, self.path)
        return Agent(self.name, line.makefile("rb"), line.makefile("wb"))


def add_key(agent, text):
    ctl = agent.open(b"ctl")
    agent.write(ctl, text)
    print(f"  {agent.name:6} has: {agent.read(ctl).decode().strip()}")
