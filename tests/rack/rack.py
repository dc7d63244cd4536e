"""The rack by its lines, made from docs/ alone and not from the program: each line's answer, and the rack after it."""

import re

from end import EXAMPLES, CasBits, End, Entry, Refused, load, new_digit, shown

# of each field: the least number, and the first that is too great
FIELDS = {
    **dict.fromkeys(["TIME", "PLACE", "ROOM"], (0, 2**64)),
    **dict.fromkeys(["PACKET_TIME"], (0, 2**32)),
    **dict.fromkeys(["UUI", "FIRST", "LAST", "LENGTH", "INTERVAL"], (0, 2**16)),
    **dict.fromkeys(["TYPE", "CODE", "FORMAT", "INDEX"], (0, 2**8)),
    **dict.fromkeys("ABCD", (0, 2)),
    "LEVEL": (-128, 128),
}

# of each call: the words that name it, and its fields
CALLS = [line.split(" ") for line in (
    "entry INDEX FORMAT FIRST LAST LENGTH PACKET_TIME INTERVAL",
    "load",
    "start",
    "audio TIME PLACE LENGTH",
    "event digit TIME TYPE CODE LEVEL",
    "event cas TIME A B C D",
    "due digit TIME ROOM",
    "due cas TIME ROOM",
    "arrive TIME UUI HEX",
    "force digit",
    "force cas",
    "stop",
)]
NAMES = {tuple(word for word in call if word.islower()): [word for word in call if not word.islower()] for call in CALLS}


class BadLine(Exception):
    """A line that is answered `error`."""


def field(name, word):
    if name == "HEX":
        if word == "-":
            return b""
        if not re.fullmatch(r"([0-9a-f]{2})+", word, re.ASCII):
            raise BadLine
        return bytes.fromhex(word)
    if name == "INDEX" and word == "-":
        return None
    least, end = FIELDS[name]
    if not re.fullmatch(r"0|-?[1-9][0-9]*", word, re.ASCII) or not least <= int(word) < end:
        raise BadLine
    return int(word)


def parsed(line):
    """The words that name a call, and its fields' values."""
    try:
        words = line.decode().split(" ")
    except UnicodeDecodeError:
        raise BadLine from None
    for name, fields in NAMES.items():
        given = words[len(name):]
        if tuple(words[:len(name)]) == name and len(given) == len(fields):
            return name, [field(*pair) for pair in zip(fields, given)]
    raise BadLine


def entry_line(entry):
    index = "-" if entry.index is None else entry.index
    return f"entry {index} " + " ".join(str(part) for part in entry[1:])


class Rack:
    """A profile, the end in service over it if it was started, and the entries that were collected."""

    def __init__(self):
        self.profile = EXAMPLES["A"]
        self.end = None
        self.collected = []

    def answer(self, line):
        try:
            name, values = parsed(line)
            if name == ("entry",):
                self.collected.append(Entry(*values))
                return "ok"
            if (self.end is None) != (name in (("load",), ("start",))):
                raise BadLine
            return self.made(name, values)
        except BadLine:
            return "error"
        except Refused as refusal:
            return str(refusal)

    def made(self, name, values):
        match name[0]:
            case "load":
                offered, self.collected = self.collected, []
                self.profile = load(offered)
            case "start":
                self.end = End(self.profile)
            case "stop":
                self.end = None
            case "force":
                return self.in_force(name[1])
            case "event":
                time, *parts = values
                message = new_digit(*parts) if name[1] == "digit" else CasBits(*parts)
                return shown(self.end.event(which(name[1]), time, message))
            case "due":
                return shown(self.end.due(which(name[1]), *values))
            case "audio":
                return shown(self.end.audio(*values))
            case "arrive":
                return shown(self.end.arrive(*values))
        return "ok"

    def in_force(self, stream):
        message = self.end.force(which(stream))
        return "none" if message is None else f"{stream} {message}"


def which(stream):
    return ("digit", "cas").index(stream)
