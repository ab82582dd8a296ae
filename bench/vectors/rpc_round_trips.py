#!/usr/bin/env python3
"""The input of bench/rpc, and what is answered: a connection that writes a key, starts a client and a server of p9sk1, and
then writes requests of rpc and reads each answer, many times.

Each request stands beside the reply that is wanted, by the words of logins.py; nothing is computed from the requests, and
nothing of the project's own code is used. No answer shows a word that was drawn: the client's challenge isn't read.

    python3 bench/vectors/rpc_round_trips.py attributes|refusals ROUNDS asked|told
"""
import sys

from agent import opened, rwrite, write
from logins import ASKED, CLIENT, CTL, SERVER, SRV_KEY, Session

# The fids of the client, of the server and of ctl.
ONE, OTHER_ONE, KEYS = 1, 2, 9


def joined(session: Session) -> tuple[bytes, bytes]:
    """The requests of a session, and its replies."""
    steps = [step for line in session.lines for step in line if step[0] != "b"]
    assert all((kind, agent, conn) == ("r", 0, 0) for kind, agent, conn, _, _ in steps)
    return b"".join(step[3] for step in steps), b"".join(step[4] for step in steps)


def opening() -> tuple[bytes, bytes]:
    """A key, and two conversations that have begun."""
    s = Session("the opening")
    s.begin()
    for request, reply in opened(KEYS, 2, *CTL):
        s.say(request, reply)
    line = "key " + SRV_KEY
    s.say(write(KEYS, line), rwrite(len(line)))
    s.open(ONE, OTHER_ONE)
    s.rpc(ONE, CLIENT, "ok")
    s.rpc(OTHER_ONE, SERVER, "ok")
    return joined(s)


def attributes() -> tuple[bytes, bytes]:
    """Two round trips that ask for the attributes of the client."""
    s = Session("attributes")
    for _ in range(2):
        s.rpc(ONE, "attr", "ok proto=p9sk1 role=client")
    return joined(s)


def refusals() -> tuple[bytes, bytes]:
    """Two round trips of messages that aren't due: the client has to be read first, and the server written to."""
    s = Session("refusals")
    s.rpc(ONE, ("write", ASKED), "phase awaits read")
    s.rpc(OTHER_ONE, "read", "phase awaits write")
    return joined(s)


WORKS = {"attributes": attributes, "refusals": refusals}


def connection(work: str, rounds: int) -> tuple[bytes, bytes]:
    """The opening and an even number of round trips: the requests, and their replies."""
    assert rounds % 2 == 0
    asked, told = opening()
    more, replies = WORKS[work]()
    return asked + more * (rounds // 2), told + replies * (rounds // 2)


if __name__ == "__main__":
    if len(sys.argv) != 4 or sys.argv[1] not in WORKS or sys.argv[3] not in ("asked", "told"):
        sys.exit(__doc__)
    sys.stdout.buffer.write(connection(sys.argv[1], int(sys.argv[2]))[sys.argv[3] == "told"])
