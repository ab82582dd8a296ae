"""Writes sessions with agents as the files of rows that the program agent_rows plays; agent.py, logins.py, asking.py,
pauses.py and whole_logins.py make the sessions. A session is a name and its steps, each of which is a letter, an agent, a number,
what is given and what has to come; logins.py says what the letters are.

A row stands for a step, or for those that go together: a request of rpc and its answer are a row. What a row is, the head of
each file says.
"""
import re
import struct

ROOT = "/"
NOTAG, NOFID, WIDE = 0xFFFF, 0xFFFFFFFF, 8192
HEAD = """\
# Sessions with agents about %s.
# bench/vectors/%s makes this file; what has to come is written down there by hand.
#
# A session has two agents, 0 and 1, which know nothing when it begins. Each row does one thing; behind `=>` stands what has
# to come of it. Behind its verb stands the agent's number, and then the connection's, the call's or the conversation's:
#
#   session NAME           a session begins
#   name NAME PIECE..      $NAME stands for these pieces, one right behind the other
#   word BYTES             the word that is drawn for the request or the read of the next row, which is zeros otherwise
#   ask A CONN FRAME       a request; its reply, and no other one; or `nothing`
#   send A CONN FRAME      a request alone
#   take A CONN            a reply is taken, or there is `nothing`
#   begin A CONN           ask Tversion and Tattach: each is answered as it is asked
#   open A CONN FID FILE MODE    ask Twalk from fid 0 to /factotum/FILE, and Topen: both go well
#   write A CONN FID TEXT  ask Twrite: all is written
#   keys A CONN FID N M    the same with a line `key proto=apop user=uI dom=dI !password=x` for each I from N to below M
#   read A CONN FID        ask Tread for 8192 bytes, with the tag 1: they are these
#   rpc A CONN FID TEXT    write, and then read
#   wait A CONN FID TEXT   write, and then Tread with the tag 100 and the fid, to which nothing is replied
#   told A CONN FID        take: that read has these bytes; and no other reply is there
#   question A CALL        the next question for the authentication server: its conversation and bytes; or there is `nothing`
#   answer A CALL BYTES    its answer          unanswered A CALL    there is none     roomless A CALL    there is no room for it
#   serve A CALL WORDS     question and answer by an authentication server that draws these words: conversation, question, answer
#   dropped A CONV         in place of a question the connection that a conversation kept is given up
#   hang A CONN            a connection hangs up        gone A CONN    a take learns so
#   stop A                 the agent is stopped         stopped A      a question is asked for, and learns so
#   outcome A CONN FID     the outcome of a fid's conversation, or `nothing`
#   chosen A CONN FID      the serial and the user of the key that it has chosen, or `nothing`
#
# A FRAME is the message's name, its tag and its fields in their order; a qid is the name of its file, and a reply to Topen
# has an iounit of 0. Where no message has that form it is `frame` with its kind, its tag and its bytes. A text or bytes may be
# several fields, between which a blank is meant. What isn't plain stands in quotes, with escapes as in Rust's byte strings;
# `*N` behind them means N times. THIS and THAT are names for one row alone.
"""


# ---- fields
RUNS = re.compile(rb"\0{4,}|(.)\1{15,}", re.DOTALL)


def is_cut(piece):
    """Whether it is more readable in pieces."""
    return len(set(piece)) > 1 and any(len(run.group()) >= 24 for run in RUNS.finditer(piece))


def is_bare(piece):
    return piece not in (b"", b"=>") and all(0x20 < c < 0x7F and c not in b'"\\#' for c in piece)


def field(piece):
    """Bytes as a field: as they are, in quotes, or in quotes with how often they stand."""
    if len(piece) >= (16 if any(piece) else 4) and len(set(piece)) == 1:
        return quoted(piece[:1]) + "*%d" % len(piece)
    return piece.decode() if is_bare(piece) else quoted(piece)


def quoted(piece):
    names = {0: "\\0", 9: "\\t", 10: "\\n", 13: "\\r", 34: '\\"', 92: "\\\\"}
    return '"' + "".join(names.get(c) or (chr(c) if 0x20 <= c < 0x7F else "\\x%02x" % c) for c in piece) + '"'


def pieces(value):
    """Bytes cut where a run of zeros, or a long one of another byte, begins or ends; no piece has the front of a name."""
    found, at = [], 0
    for run in RUNS.finditer(value):
        found += [value[at:run.start()], run.group()]
        at = run.end()
    whole = []
    for piece in found + [value[at:]]:
        if whole and piece.startswith(b"$"):
            whole[-1] += piece
        elif piece:
            whole.append(piece)
    return whole


# The names for one row alone.
PASSING = ["THIS", "THAT"]


class Names:
    """What the sessions call some bytes by name, which of the names were used, and what has a name for one row alone."""

    def __init__(self, values):
        self.values = sorted(values.items(), key=lambda item: -len(item[1]))
        self.used, self.passing = set(), []

    def words(self, text):
        """A text as fields, between which a blank is meant."""
        assert not text.startswith(b"$") and b" $" not in text
        for name, value in self.values:
            if text == value or text.endswith(b" " + value):
                self.used.add(name)
                before = [] if text == value else self.words(text[:-len(value) - 1])
                return before + ["$" + name]
        parts = text.split(b" ")
        for at, part in enumerate(parts):
            if not is_bare(part) or is_cut(part):
                return [field(p) for p in parts[:at]] + [self.rest(b" ".join(parts[at:]))]
        return [field(p) for p in parts]

    def rest(self, text):
        """A field of these bytes; what is long and has names or runs within gets a name for one row."""
        named = len(text) >= 40 and any(value in text for _, value in self.values)
        if not named and not is_cut(text):
            return field(text)
        if text not in self.passing:
            self.passing.append(text)
        return "$" + PASSING[self.passing.index(text)]

    def take_passing(self):
        """The rows of what got a name for the next row."""
        taken, self.passing = [self.row(*item) for item in zip(PASSING, self.passing)], []
        return taken

    def rows(self):
        """The rows of the names that were used, the shorter bytes first, since the longer ones are made of them."""
        made = [self.row(name, value) for name, value in self.values if name in self.used]
        return made[::-1]

    def row(self, name, value):
        return "name %s %s" % (name, " ".join(self.pieces(value, value)))

    def pieces(self, value, within=None):
        """The fields of bytes: those within them that have a name, and what stands between them."""
        for name, part in self.values:
            at = value.find(part)
            if at >= 0 and part != within and value[at + len(part):][:1] != b"$":
                self.used.add(name)
                return self.pieces(value[:at]) + ["$" + name] + self.pieces(value[at + len(part):])
        return [field(piece) for piece in pieces(value)]


# ---- frames
LAYOUTS = {
    100: ("Tversion", "4s"), 101: ("Rversion", "4s"), 102: ("Tauth", "4ss"), 104: ("Tattach", "44ss"), 105: ("Rattach", "q"),
    107: ("Rerror", "s"), 108: ("Tflush", "2"), 109: ("Rflush", ""), 110: ("Twalk", "44n"), 111: ("Rwalk", "w"),
    112: ("Topen", "41"), 113: ("Ropen", "qz"), 114: ("Tcreate", "4s41"), 116: ("Tread", "484"), 117: ("Rread", "d"),
    118: ("Twrite", "48d"), 119: ("Rwrite", "4"), 120: ("Tclunk", "4"), 121: ("Rclunk", ""), 122: ("Tremove", "4"),
    124: ("Tstat", "4"), 125: ("Rstat", "r"), 126: ("Twstat", "4b"),
}


class Unfit(Exception):
    """A frame isn't as its message is."""


class Reader:
    def __init__(self, body):
        self.body, self.at = body, 0

    def take(self, size):
        self.at += size
        if self.at > len(self.body):
            raise Unfit
        return self.body[self.at - size:self.at]

    def number(self, width):
        return int.from_bytes(self.take(width), "little")


def file_of(table, value):
    for name, found in table.items():
        if found == value:
            return ROOT if name == "/" else name
    raise Unfit


def part(letter, reader, names, files):
    """The fields of one part of a message."""
    qids, records = files
    if letter in "1248":
        number = reader.number(int(letter))
        return ["nofid" if (letter, number) == ("4", NOFID) else "%d" % number]
    if letter == "s" or letter == "b":
        return [field(reader.take(reader.number(2)))]
    if letter == "d":
        text = reader.take(reader.number(4))
        return names.words(text)
    if letter == "n":
        return [field(reader.take(reader.number(2))) for _ in range(reader.number(2))]
    if letter == "q":
        return [file_of(qids, reader.take(13))]
    if letter == "w":
        return [file_of(qids, reader.take(13)) for _ in range(reader.number(2))]
    if letter == "r":
        return [file_of(records, reader.take(reader.number(2)))]
    assert letter == "z"
    if reader.number(4) != 0:
        raise Unfit
    return []


def frame_words(frame, names, files):
    """A frame as fields: in words, or its kind, tag and bytes where no message has that form."""
    size, kind, tag = struct.unpack("<IBH", frame[:7])
    assert size == len(frame)
    shown = "notag" if tag == NOTAG else "%d" % tag
    try:
        name, letters = LAYOUTS[kind]
        reader = Reader(frame[7:])
        words = [w for letter in letters for w in part(letter, reader, names, files)]
        if reader.at != len(reader.body):
            raise Unfit
        return [name, shown] + words
    except (KeyError, Unfit):
        return ["frame", "%d" % kind, shown] + ([field(frame[7:])] if frame[7:] else [])


# ---- rows
class Writer:
    """The rows of the sessions of a file."""

    def __init__(self, names, qids, records):
        self.names, self.files, self.rows = names, (qids, records), []
        self.version = self.frame(100, NOTAG, struct.pack("<IH", 8216, 6) + b"9P2000")
        self.agreed = self.version.replace(b"d", b"e", 1)
        self.attach = self.frame(104, 1, struct.pack("<II", 0, NOFID) + b"\3\0ann\0\0")
        self.attached = self.frame(105, 1, qids["/"])

    @staticmethod
    def frame(kind, tag, body):
        return struct.pack("<IBH", 7 + len(body), kind, tag) + body

    def row(self, given, wanted=None):
        self.rows += self.names.take_passing()
        self.rows.append(" ".join(given) + ("" if wanted is None else " => " + " ".join(wanted)))

    def session(self, name, steps):
        self.rows += ["", "session " + field(name.encode())]
        at = 0
        while at < len(steps):
            at += self.begin(steps[at:at + 2]) or self.open(steps[at:at + 2]) or self.rpc(steps[at:at + 2]) or \
                self.told(steps[at:at + 2]) or self.write(steps[at]) or self.read(steps[at]) or self.single(steps[at])

    def words(self, frame):
        return frame_words(frame, self.names, self.files) if frame else ["nothing"]

    # Of these each gives how many steps its row stands for, and 0 where they are others.
    def begin(self, steps):
        if len(steps) < 2 or steps[0][1:3] != steps[1][1:3] or steps[0][0] + steps[1][0] != "rr":
            return 0
        if steps[0][3:] != (self.version, self.agreed) or steps[1][3:] != (self.attach, self.attached):
            return 0
        self.row(["begin", "%d" % steps[0][1], "%d" % steps[0][2]])
        return 2

    def open(self, steps):
        if len(steps) < 2 or steps[0][1:3] != steps[1][1:3] or steps[0][0] + steps[1][0] != "rr":
            return 0
        walk, walked, opens, opened = [self.words(f) for s in steps for f in s[3:]]
        if walk[:3] != ["Twalk", "1", "0"] or walk[4:5] != ["factotum"] or len(walk) != 6:
            return 0
        fid, file = walk[3], walk[5]
        if walked != ["Rwalk", "1", "factotum", file] or opens[:3] != ["Topen", "1", fid] or opened != ["Ropen", "1", file]:
            return 0
        self.row(["open", "%d" % steps[0][1], "%d" % steps[0][2], fid, file, opens[3]])
        return 2

    @staticmethod
    def written(step):
        """The fid and the bytes, where a step writes all of them."""
        kind, _, _, given, expected = step
        if kind != "r" or len(given) < 23 or given[4:7] != b"\x76\1\0" or given[11:19] != bytes(8):
            return None
        text = given[23:]
        if int.from_bytes(given[19:23], "little") != len(text) or expected != Writer.frame(119, 1, struct.pack("<I", len(text))):
            return None
        return int.from_bytes(given[7:11], "little"), text

    @staticmethod
    def asked(step):
        """The word, the fid and the tag, where a step reads as much as it may."""
        kind, _, _, given, _ = step
        if kind not in "rw":
            return None
        word, given = (given[:8], given[8:]) if kind == "w" else (b"", given)
        if len(given) != 23 or given[4] != 116 or given[11:] != struct.pack("<QI", 0, WIDE):
            return None
        return word, int.from_bytes(given[7:11], "little"), int.from_bytes(given[5:7], "little")

    def drawn(self, word):
        if word:
            self.rows.append("word " + " ".join(self.names.words(word)))

    @staticmethod
    def read_bytes(tag, reply):
        """What a reply to this tag has read, or None."""
        if len(reply) < 11 or reply[4:7] != struct.pack("<BH", 117, tag):
            return None
        return reply[11:]

    def rpc(self, steps):
        if len(steps) < 2 or steps[0][1:3] != steps[1][1:3]:
            return 0
        written, asked = self.written(steps[0]), self.asked(steps[1])
        if written is None or asked is None or written[0] != asked[1]:
            return 0
        word, fid, tag = asked
        place = ["%d" % steps[0][1], "%d" % steps[0][2], "%d" % fid]
        got = self.read_bytes(1, steps[1][4])
        if tag == 1 and got is not None:
            self.drawn(word)
            self.row(["rpc"] + place + self.names.words(written[1]), self.names.words(got))
            return 2
        if tag == 100 + fid and steps[1][4] == b"":
            self.drawn(word)
            self.row(["wait"] + place + self.names.words(written[1]))
            return 2
        return 0

    def told(self, steps):
        if len(steps) < 2 or steps[0][1:3] != steps[1][1:3] or steps[0][0] + steps[1][0] != "tt" or steps[1][4]:
            return 0
        tag = int.from_bytes(steps[0][4][5:7], "little")
        got = self.read_bytes(tag, steps[0][4])
        if got is None or not 101 <= tag <= 355:
            return 0
        self.row(["told", "%d" % steps[0][1], "%d" % steps[0][2], "%d" % (tag - 100)], self.names.words(got))
        return 2

    def write(self, step):
        written = self.written(step)
        if written is None:
            return 0
        fid, text = written
        place = ["%d" % step[1], "%d" % step[2], "%d" % fid]
        lines = key_range(text)
        if lines:
            self.row(["keys"] + place + ["%d" % n for n in lines])
        else:
            self.row(["write"] + place + self.names.words(text))
        return 1

    def read(self, step):
        asked = self.asked(step)
        if asked is None:
            return 0
        word, fid, tag = asked
        got = self.read_bytes(1, step[4])
        if tag != 1 or got is None:
            return 0
        self.drawn(word)
        self.row(["read", "%d" % step[1], "%d" % step[2], "%d" % fid], self.names.words(got))
        return 1

    def single(self, step):
        kind, agent, number, given, expected = step
        place = ["%d" % agent, "%d" % number]
        if kind == "w":
            self.drawn(given[:8])
        if kind in "rw":
            self.row(["ask"] + place + self.words(given[8:] if kind == "w" else given), self.words(expected))
        elif kind == "p":
            self.row(["send"] + place + self.words(given))
        elif kind == "t":
            self.row(["take"] + place, self.words(expected))
        elif kind in "gdfmhsx":
            verb = {"g": "gone", "d": "dropped", "f": "unanswered", "m": "roomless", "h": "hang", "s": "stop", "x": "stopped"}[kind]
            self.row([verb] + (place[:1] if kind in "sx" else place))
        elif kind == "a":
            self.row(["answer"] + place + self.names.words(given))
        elif kind == "q":
            self.row(["question"] + place, self.question(expected))
        elif kind == "A":
            # Digits stand behind a request with a user in it that isn't for tickets.
            behind = 1 + (141 if expected[1] == 1 or expected[114:142] == bytes(28) else 173)
            question, answer = expected[:behind], expected[behind:]
            self.row(["serve"] + place + self.names.words(given), self.question(question) + self.names.words(answer))
        else:
            self.look(step)
        return 1

    def question(self, expected):
        return ["%d" % expected[0]] + self.names.words(expected[1:]) if expected else ["nothing"]

    def look(self, step):
        kind, agent, number, given, expected = step
        place = ["%d" % agent, "%d" % number, "%d" % given[0]]
        if kind == "o":
            self.row(["outcome"] + place, self.names.words(expected) if expected else ["nothing"])
        else:
            assert kind == "k"
            serial = "%d" % int.from_bytes(expected[:8], "little")
            self.row(["chosen"] + place, [serial] + self.names.words(expected[8:]) if expected else ["nothing"])


def key_lines(numbers):
    return "".join("key proto=apop user=u%d dom=d%d !password=x\n" % (i, i) for i in numbers)


def key_range(text):
    """The numbers of the users whose keys these lines are: the first, and the one behind the last."""
    lines = text.decode("latin-1").split("\n")
    if len(lines) < 2 or not lines[0].startswith("key proto=apop user=u"):
        return None
    first = lines[0].removeprefix("key proto=apop user=u").partition(" ")[0]
    if not first.isdigit():
        return None
    behind = int(first) + len(lines) - 1
    return (int(first), behind) if text == key_lines(range(int(first), behind)).encode() else None


def print_rows(about, script, sessions, names, qids, records):
    """Prints the file of these sessions."""
    names = Names(names)
    writer = Writer(names, qids, records)
    for name, steps in sessions:
        writer.session(name, steps)
    print(HEAD % (about, script), end="")
    defined = names.rows()
    for line in ([""] if defined else []) + defined + writer.rows:
        print(line)
