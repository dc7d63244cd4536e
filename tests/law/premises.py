"""The premises of the law are needed, and suffice: as the examples of docs/law.md say, and on random lists, by the oracle alone.

Each example breaks one premise, and then a promise. With any call left out, the same broken premise breaks no promise.
"""

import copy
import random

from end import EXAMPLES, KINDS, LAST_TIME, CasBits, Digit, Digits, End, Entry, shown
from law import (FAR, NEAR, OTHER, Arrive, Audio, Due, Ends, Event, broken_once, broken_premises, broken_promises, copies, events, in_order,
                 made, not_once)
from lists import Maker, random_profile

NEWS, ORIGIN, IN_FORCE = "news exactly when later", "news names its origin", "in force is what the far end had"
ZERO = CasBits(0, 0, 0, 0)
FIVE = Digit(0, 5, 10)


class Copy:
    """An arrival of the packet that a call of the list made, whose octets or UUI may have been changed."""

    def __init__(self, time, of, octets=None, uui=None):
        self.time, self.of, self.octets, self.uui = time, of, octets, uui


class Codes(Digits):
    """A second kind with the message type of digits."""

    name = "codes"


# the entries at places 0 and 1 have one range and one length
TWICE = [Entry(None, 1, 0, 15, 1, 5, 5), Entry(None, 9, 0, 15, 1, 5, 5)]


def ends_of(profile, kinds, far):
    """Two new ends, or a far end that is given."""
    ends = Ends(profile, kinds)
    if far is not None:
        ends.ends[FAR] = copy.deepcopy(far)
    return ends


def done(ends, steps):
    """The ends after the calls; or None, where a packet that is copied was not made."""
    for side, call in steps:
        if isinstance(call, Copy):
            packet = made(ends.history, call.of, OTHER[side]) or made(ends.history, call.of, side)
            if packet is None:
                return None
            uui = packet.uui if call.uui is None else call.uui
            octets = packet.octets if call.octets is None else bytes.fromhex(call.octets)
            call = Arrive(call.time, uui, octets, call.of)
        ends.do(side, call)
    return ends


def without(steps, at):
    """The list with a call left out, if no later one copies its packet."""
    if any(isinstance(call, Copy) and call.of == at for _, call in steps):
        return None
    kept = []
    for place, (side, call) in enumerate(steps):
        if isinstance(call, Copy) and call.of > at:
            call = Copy(call.time, call.of - 1, call.octets, call.uui)
        kept += [(side, call)] if place != at else []
    return kept


def parts(broken):
    """What is broken, wherever it is."""
    return {what.split(" at ")[0].split(",")[0] for what in broken}


def example(breaks, fails, answers, *steps, profile=EXAMPLES["A"], kinds=KINDS, far=None, least=True):
    """The calls are answered so, and break these premises and promises; with any one call left out they do not break both.

    No premise is named where the broken one is not asked: whether a profile loads, and whether both ends have one and were just
    started.
    """
    ends = done(ends_of(profile, kinds, far), steps)
    lines = [shown(m.answer) for m in ends.history]
    assert lines == answers, (breaks, lines)
    assert parts(broken_premises(ends)) == breaks, (breaks, broken_premises(ends))
    assert parts(broken_promises(ends)) == fails, (breaks, broken_promises(ends))
    for at in range(len(steps) if least else 0):
        fewer = without(steps, at)
        less = fewer and done(ends_of(profile, kinds, far), fewer)
        assert not less or not broken_promises(less) or parts(broken_premises(less)) != breaks, (breaks, at)


# ---- the examples of docs/law.md

example({"message types"}, {ORIGIN, IN_FORCE}, ["ok", "sent 00000a050aeb", "digit event 0 0 0 0 5 10"],
        (NEAR, Event(1, 0, FIVE)), (NEAR, Due(1, 0, 6)), (FAR, Copy(0, 1)), kinds=(Digits, Codes))
example(set(), {ORIGIN}, ["label 0", "audio 0 0 0"],
        (NEAR, Audio(0, 1, b"\0")), (FAR, Copy(0, 0)), profile=TWICE)
example(set(), {ORIGIN}, ["label 8", "audio 3 0 0"],
        (NEAR, Audio(40, 0, bytes(40))), (FAR, Copy(0, 0)), far=End(EXAMPLES["B"]))
# the far end has had this packet of an earlier near end
had_before = End(EXAMPLES["A"])
had_before.arrive(0, 0, b"\0")
example(set(), {NEWS}, ["label 0", "repeat audio"],
        (NEAR, Audio(0, 5, b"\0")), (FAR, Copy(0, 0)), far=had_before)
example({"time"}, {NEWS}, ["label 0", "refused 10 arrival"],
        (NEAR, Audio(0, 5, b"\0")), (FAR, Copy(LAST_TIME + 1, 0)))
example({"runs back"}, {NEWS}, ["label 0", "audio 5 0 0", "label 1", "refused 20 arrival"],
        (NEAR, Audio(0, 5, b"\0")), (FAR, Copy(1, 0)), (NEAR, Audio(5, 5, b"\0")), (FAR, Copy(0, 2)))
example({"forged"}, {NEWS, ORIGIN}, ["cas event 0 0 0 0 0 0 0"],
        (FAR, Arrive(0, 24, bytes.fromhex("0000000C66"), None)))
example({"forged"}, {NEWS, ORIGIN}, ["ok", "sent 0000000c66", "cas event 0 0 0 1 0 0 0"],
        (NEAR, Event(1, 0, ZERO)), (NEAR, Due(1, 0, 5)), (FAR, Copy(0, 1, octets="0000080C75")))
example({"forged"}, {NEWS, ORIGIN}, ["ok", "sent 0000000c66", "cas event 0 0 0 0 0 0 0"],
        (NEAR, Event(1, 0, ZERO)), (NEAR, Due(1, 0, 5)), (NEAR, Copy(0, 1)))
example({"forged"}, {NEWS, ORIGIN}, ["label 0", "audio 5 0 0"],
        (NEAR, Audio(0, 5, b"\0")), (FAR, Copy(0, 0, uui=1)))
example({"age"}, {NEWS}, ["label 0", "audio 5 0 0", "label 1", "refused 28 placing"],
        (NEAR, Audio(0, 5, b"\0")), (FAR, Copy(0, 0)), (NEAR, Audio(5, 5, b"\0")), (FAR, Copy(45, 2)))
example({"age"}, {ORIGIN}, ["label 0", "audio 5 0 0", "label 1", "audio 5 85 85"],
        (NEAR, Audio(0, 5, b"\0")), (FAR, Copy(0, 0)), (NEAR, Audio(5, 5, b"\0")), (FAR, Copy(46, 2)))
example({"age"}, {NEWS, ORIGIN}, ["label 0", "audio 5 0 0", "audio 5 80 80"],
        (NEAR, Audio(0, 5, b"\0")), (FAR, Copy(0, 0)), (FAR, Copy(41, 0)))
example({"age"}, {NEWS, ORIGIN}, ["ok", "sent 00000a050aeb", "digit event 0 0 0 0 5 10", "digit event 0 16384 16384 0 5 10"],
        (NEAR, Event(0, 0, FIVE)), (NEAR, Due(0, 0, 6)), (FAR, Copy(0, 1)), (FAR, Copy(8193, 1)))
# under mixed widths the span is that of eight labels, between packets of the entry that has sixteen too
example({"age"}, {ORIGIN}, ["label 0", "audio 3 0 0", "label 8", "audio 3 80 80"],
        (NEAR, Audio(0, 3, b"\0")), (FAR, Copy(0, 0)), (NEAR, Audio(40, 3, b"\0")), (FAR, Copy(61, 2)), profile=EXAMPLES["mixed"])
# the reference is the first to arrive: by the second, whose age is 39, the packet of 5 would be in time
example({"age"}, {ORIGIN}, ["label 0", "audio 5 0 0", "repeat audio", "label 1", "audio 5 85 85"],
        (NEAR, Audio(0, 5, b"\0")), (FAR, Copy(0, 0)), (FAR, Copy(39, 0)), (NEAR, Audio(5, 5, b"\0")), (FAR, Copy(80, 3)), least=False)


# ---- in order

KEY = "digit event {} {} {} 0 5 10"
BACK = "digit confirmed 3 {} {} 0 5 10"


def sent(*payloads):
    return [f"sent {octets}" for octets in payloads]


ordered = done(Ends(EXAMPLES["A"]), [
    (NEAR, Event(0, 1000, FIVE)), (NEAR, Due(0, 1000, 6)), (NEAR, Due(0, 1005, 6)), (NEAR, Due(0, 1010, 6)),
    (FAR, Copy(50, 2)), (FAR, Copy(55, 3)),
    (NEAR, Event(0, 1100, FIVE)), (NEAR, Due(0, 1100, 6)), (NEAR, Due(0, 1105, 6)), (NEAR, Due(0, 1110, 6)),
    (FAR, Copy(150, 7)), (FAR, Copy(160, 9)), (NEAR, Due(0, 1610, 6)), (FAR, Copy(660, 12)),
    (NEAR, Event(0, 2000, FIVE)), (NEAR, Due(0, 2000, 6)), (NEAR, Due(0, 2005, 6)), (NEAR, Due(0, 2010, 6)), (NEAR, Due(0, 2510, 6)),
    (FAR, Copy(1560, 18))])
heard = [shown(m.answer) for m in ordered.history if m.side == FAR]
assert heard == [KEY.format(1, 0, 0), "repeat digit", KEY.format(0, 100, 100), "repeat digit", BACK.format(510, 610), BACK.format(900, 1510)], heard
assert broken_premises(ordered) == [] and in_order(ordered.history, FAR, 0) and broken_once(ordered.history, FAR, 0) == []
assert [len(copies(ordered.history, FAR, 0, event)) for event in events(ordered.history, NEAR, 0)] == [2, 2, 0]

overtaken = done(Ends(EXAMPLES["A"]), [
    (NEAR, Event(0, 1000, FIVE)), (NEAR, Due(0, 1000, 6)), (NEAR, Due(0, 1005, 6)), (NEAR, Due(0, 1010, 6)), (NEAR, Due(0, 1510, 6)),
    (FAR, Copy(560, 4)), (FAR, Copy(561, 1))])
heard = [shown(m.answer) for m in overtaken.history if m.side == FAR]
assert heard == ["digit recovered 3 0 0 0 5 10", "late digit"], heard
assert broken_premises(overtaken) == [] and not in_order(overtaken.history, FAR, 0) and broken_once(overtaken.history, FAR, 0) == []
assert [event.time for event in not_once(overtaken.history, FAR, 0)] == [1000]


# ---- random lists

def tried(count):
    """Of random lists, those with all premises, of which every promise holds. How many there are, how many of them under profiles of several
    widths, how many events are heard on streams that keep their order and on others, and how many of the latter are not handed out once.
    """
    rng = random.Random(7)
    whole = several = orderly = others = lost = 0
    for _ in range(count):
        profile = random_profile(rng)
        ends = Maker(rng, profile, wild=False).made(rng.randrange(10, 40))
        if broken_premises(ends):
            continue
        whole += 1
        several += len({entry.width for entry in profile}) > 1
        assert not broken_promises(ends), broken_promises(ends)
        for side in OTHER:
            for which in range(len(KINDS)):
                h = ends.history
                assert not broken_once(h, side, which), broken_once(h, side, which)
                events_heard = sum(copies(h, side, which, event) != [] for event in events(h, OTHER[side], which))
                if in_order(h, side, which):
                    orderly += events_heard
                else:
                    others += events_heard
                    lost += len(not_once(h, side, which))
    return whole, several, orderly, others, lost


whole, several, orderly, others, lost = tried(5000)
print(whole, "of 5000 lists have all premises,", several, "of them under profiles of several widths, and their promises hold")
print(orderly, "events are heard on streams in order, and each is handed out once; of", others, "on other streams", lost, "are not")
assert orderly > 100 and lost > 0
