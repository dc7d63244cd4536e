"""Two ends and a list of calls on them, and the law over the list, made from docs/law.md alone and not from the programs.

`run` answers each call. `broken_premises` and `broken_promises` say where a premise or a promise of the law fails, `in_order` whether
the packets of a stream keep their order, and `broken_once` where an event is not handed out as docs/law.md says.
"""

from typing import NamedTuple

from end import KINDS, STAMPS, AudioNews, End, MessageNews, answered, bits_of, is_time, span_of

NEAR, FAR = "near", "far"
OTHER = {NEAR: FAR, FAR: NEAR}
AUDIO = "audio"


# ---- calls

class Audio(NamedTuple):
    time: int
    place: int
    octets: bytes


class Event(NamedTuple):
    which: int
    time: int
    message: tuple


class Due(NamedTuple):
    which: int
    time: int
    room: int


class Arrive(NamedTuple):
    time: int
    uui: int
    octets: bytes
    copies: int | None


class Moment(NamedTuple):
    """A call at a side, with its answer."""

    side: str
    call: tuple
    answer: object


def answer_of(end, call):
    match call:
        case Audio(time, place, octets):
            return answered(end.audio, time, place, len(octets))
        case Event(which, time, message):
            return answered(end.event, which, time, message)
        case Due(which, time, room):
            return answered(end.due, which, time, room)
        case Arrive(time, uui, octets, _):
            return answered(end.arrive, time, uui, octets)


class Ends:
    """Two ends that were just started with one profile, and the calls so far."""

    def __init__(self, profile, kinds=KINDS):
        self.profile = profile
        self.ends = {side: End(profile, kinds) for side in OTHER}
        self.history = []

    def do(self, side, call):
        answer = answer_of(self.ends[side], call)
        self.history.append(Moment(side, call, answer))
        return answer


def run(profile, calls, kinds=KINDS):
    ends = Ends(profile, kinds)
    for side, call in calls:
        ends.do(side, call)
    return ends


# ---- what was made, and what a side had

class Packet(NamedTuple):
    time: int
    stream: object
    content: object
    uui: int
    octets: bytes


def events(history, side, which):
    return [m.call for m in history if m.side == side and isinstance(m.call, Event) and m.call.which == which and m.answer is None]


def latest(of, time):
    """The one with the greatest time; of several the first."""
    return max(of, key=time, default=None)


def made(history, at, side):
    """The packet that a call of this side made, if it made one."""
    if at is None or at >= len(history) or history[at].side != side:
        return None
    _, call, answer = history[at]
    match call:
        case Audio(time, place, octets) if isinstance(answer, int):
            return Packet(time, AUDIO, place, answer, octets)
        case Due(which, time, _) if isinstance(answer, bytes):
            event = latest(events(history[:at], side, which), lambda e: e.time)
            return Packet(time if answer[0] // 64 == 3 else event.time, which, event.message, 24, answer)
    return None


def had(history, side, which, time):
    event = latest([e for e in events(history, side, which) if e.time <= time], lambda e: e.time)
    return None if event is None else event.message


# ---- sound, spoiled, foreign

class Sound(NamedTuple):
    """An arrival that is a sound copy, with its packet."""

    side: str
    time: int
    packet: Packet
    is_news: bool


def original(history, at):
    """The packet that an arrival copies, if an earlier call of the other side made it."""
    side, call, _ = history[at]
    packet = made(history[:at], call.copies, OTHER[side])
    if packet is None or (call.uui, len(call.octets)) != (packet.uui, len(packet.octets)):
        return None
    return packet


def is_news(answer):
    return isinstance(answer, (AudioNews, MessageNews))


def sound(history, at):
    side, call, answer = history[at]
    packet = original(history, at)
    if packet is None or (packet.uui == 24 and packet.octets != call.octets):
        return None
    return Sound(side, call.time, packet, is_news(answer))


def is_spoiled(history, at):
    packet = original(history, at)
    if packet is None or packet.uui != 24:
        return False
    octets = history[at].call.octets
    changed = [i for i, (was, now) in enumerate(zip(bits_of(packet.octets), bits_of(octets))) if was != now]
    few = 1 <= len(changed) <= 3
    near = changed != [] and changed[-1] - changed[0] < 10
    return few or len(changed) % 2 == 1 or near


def is_foreign(call):
    return not (call.uui <= 15 or call.uui == 24)


def arrivals(history, side=None):
    return [at for at, m in enumerate(history) if isinstance(m.call, Arrive) and side in (None, m.side)]


def sounds(history, side, stream):
    found = [sound(history, at) for at in arrivals(history, side)]
    return [s for s in found if s is not None and s.packet.stream == stream]


# ---- the premises

def age(s):
    return s.time - s.packet.time


def breaks_network_rule(history, at):
    side, call, _ = history[at]
    if not is_time(call.time):
        return "time"
    if any(history[i].call.time > call.time for i in arrivals(history[:at], side)):
        return "runs back"
    if sound(history, at) is None and not is_spoiled(history, at) and not is_foreign(call):
        return "forged"
    return None


def breaks_age_rule(profile, history, at):
    s = sound(history, at)
    if s is None:
        return False
    span = span_of(profile) if s.packet.stream == AUDIO else STAMPS
    reference = latest(sounds(history[:at], s.side, s.packet.stream), lambda t: t.packet.time)
    return reference is not None and not 2 * abs(age(s) - age(reference)) < span


def broken_premises(ends):
    h = ends.history
    kinds = ends.ends[NEAR].kinds
    broken = ["message types"] if kinds[0].message_type == kinds[1].message_type else []
    for at in arrivals(h):
        rule = breaks_network_rule(h, at)
        broken += [] if rule is None else [f"{rule} at {at}"]
        broken += [f"age at {at}"] if breaks_age_rule(ends.profile, h, at) else []
    return broken


# ---- the promises

def named(answer):
    match answer:
        case AudioNews(place, elapsed, _):
            return AUDIO, place, elapsed
        case MessageNews(stream, _, _, elapsed, _, message):
            return stream, message, elapsed


def broken_promises(ends):
    h, kinds = ends.history, ends.ends[NEAR].kinds
    names = {AUDIO: AUDIO} | {which: kind.name for which, kind in enumerate(kinds)}
    broken = []
    for at in arrivals(h):
        s = sound(h, at)
        before = [] if s is None else sounds(h[:at], s.side, s.packet.stream)
        later = s is not None and all(t.packet.time < s.packet.time for t in before)
        if is_news(h[at].answer) != later:
            broken.append(f"news exactly when later, at {at}")
        if is_news(h[at].answer):
            news = [t for t in before if t.is_news]
            elapsed = s and (s.packet.time - news[-1].packet.time if news else 0)
            if s is None or named(h[at].answer) != (names[s.packet.stream], s.packet.content, elapsed):
                broken.append(f"news names its origin, at {at}")
    for side in OTHER:
        for which in range(len(kinds)):
            news = [s for s in sounds(h, side, which) if s.is_news]
            if news and ends.ends[side].force(which) != had(h, OTHER[side], which, news[-1].packet.time):
                broken.append(f"in force is what the far end had, of {kinds[which].name} at {side}")
    return broken


# ---- handed out once, where packets keep their order

def in_order(history, side, which):
    times = [s.packet.time for s in sounds(history, side, which)]
    return all(early <= late for early, late in zip(times, times[1:]))


def handed_out(history, at, side, which):
    """The message that a call hands out as an event of a kind at a side, if it does."""
    m = history[at]
    if m.side == side and isinstance(m.answer, MessageNews) and m.answer.stream == KINDS[which].name and m.answer.of == "event":
        return m.answer.message
    return None


def is_copy(s, event):
    """One of the three copies of an event, and no refresh."""
    return s is not None and s.packet.octets[0] // 64 < 3 and s.packet.time == event.time


def copies(history, side, which, event):
    """The calls at which a sound copy of an event arrives."""
    return [at for at in arrivals(history, side)
            if (s := sound(history, at)) is not None and s.packet.stream == which and is_copy(s, event)]


def not_once(history, side, which):
    """The events of the other side of which a sound copy arrives and that are not handed out exactly once."""
    heard = [(event, copies(history, side, which, event)) for event in events(history, OTHER[side], which)]
    return [event for event, at in heard if sum(handed_out(history, i, side, which) is not None for i in at) != min(len(at), 1)]


def broken_once(history, side, which):
    """What fails of the three promises, of which the first is made only where packets keep their order."""
    broken = [f"exactly once, of {event}" for event in not_once(history, side, which)] if in_order(history, side, which) else []
    accepted = events(history, OTHER[side], which)
    for event in accepted:
        out = [handed_out(history, at, side, which) for at in copies(history, side, which, event)]
        broken += [f"as itself, of {event}" for message in out if message not in (None, event.message)]
    for at in arrivals(history, side):
        message = handed_out(history, at, side, which)
        before = events(history[:at], OTHER[side], which)
        if message is not None and not any(at in copies(history, side, which, event) and event.message == message for event in before):
            broken.append(f"nothing else, at {at}")
    return broken
