"""What the scripts share that make lines for programs: numbers, changed bits, and lines with their answers."""

from collections import Counter
from pathlib import Path

CRATES = Path(__file__).resolve().parents[1] / "crates"
LARGEST = 2**64 - 1
HOUR, DAY = 3600000, 86400000


def changed(octets, places):
    """The octets with the bits at these places changed; the first bit is at 0."""
    spoiled = bytearray(octets)
    for place in places:
        spoiled[place // 8] ^= 128 >> place % 8
    return bytes(spoiled)


class Lines:
    """Lines for the program of a crate, each with its answer; `sort` says of what sort an answer is."""

    def __init__(self, crate, sort=str):
        self.crate, self.sort = CRATES / crate, sort
        self.lines, self.answers = [], []
        self.counted = Counter()

    def add(self, line, answer, expected=None):
        """A line, as text or octets."""
        assert expected is None or answer == expected, (line, answer, expected)
        octets = line if isinstance(line, bytes) else line.encode()
        assert b"\n" not in octets
        self.lines.append(octets)
        self.answers.append(answer)
        self.counted[octets.split(b" ")[0], self.sort(answer)] += 1
        return answer

    def bad(self, line):
        self.add(line, "bad line")

    def often(self, word, answers, least):
        """Each of these sorts of answer comes so often to lines that begin with the word."""
        for answer in answers:
            count = self.counted[word.encode(), answer]
            assert count >= least, (word, answer, count)

    def write(self):
        (self.crate / "stdin").write_bytes(b"".join(line + b"\n" for line in self.lines))
        (self.crate / "stdout").write_bytes(b"".join(answer.encode() + b"\n" for answer in self.answers))
