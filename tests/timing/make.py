"""Calls on sending streams with their answers, made from the rules alone and not by the programs.

Writes crates/timing/stdin and crates/timing/stdout. No call is random: the seed is fixed.
"""

import random

from end import EXAMPLES, KEYS, KINDS, LAST_TIME as LAST, STAMPS, TONE_OFF, End, Payload, Refused
from end import answered, new_digit, written
from lines import DAY, HOUR, LARGEST, Lines
from words import refusal_text, shown

DIGITS, CAS = 0, 1
LEVEL = -10


def sort_of(answer):
    """Of octets the redundancy; else the answer itself."""
    return answer if answer[0].islower() else f"copy {int(answer[0], 16) >> 2}"


rng = random.Random(16384)
lines = Lines("timing", sort_of)
trunk = None


# ---- calls

def said(call, *values):
    """What the end answers, in the program's words."""
    match answered(call, *values):
        case None:
            return "accepted"
        case int() as label:
            return f"uui {label}"
        case bytes() as octets:
            return shown(octets)
        case Refused() as refused:
            return refusal_text(refused)
        case nothing:
            return str(nothing)


def new():
    global trunk
    trunk = End(EXAMPLES["A"])
    lines.add("new", "new")


def profile(name):
    trunk.profile, trunk.audio_end = EXAMPLES[name], 0
    lines.add(f"profile {name}", "loaded")


def digit_of(code):
    return new_digit(0, code, LEVEL)


def bits_of(number):
    return KINDS[CAS].read([number])


def octets_of(which, redundancy, time, message):
    return shown(written(KINDS[which], Payload(redundancy, time % STAMPS, message)))


def key_octets(redundancy, time, code):
    return octets_of(DIGITS, redundancy, time, digit_of(code))


def bits_octets(redundancy, time, bits):
    return octets_of(CAS, redundancy, time, bits_of(bits))


def key(time, character, expected=None):
    code = KEYS.find(character)
    answer = "refused 18" if code < 0 else said(trunk.event, DIGITS, time, digit_of(code))
    lines.add(f"key {time} {character}", answer, expected)


def off(time, expected=None):
    lines.add(f"off {time}", said(trunk.event, DIGITS, time, digit_of(TONE_OFF)), expected)


def cas(time, bits, expected=None):
    lines.add(f"cas {time} {bits:04b}", said(trunk.event, CAS, time, bits_of(bits)), expected)


def due(which, time, expected=None, room=12):
    lines.add(f"{('duekey', 'duecas')[which]} {time} {room}", said(trunk.due, which, time, room), expected)


def duekey(time, expected=None, room=12):
    due(DIGITS, time, expected, room)


def duecas(time, expected=None, room=12):
    due(CAS, time, expected, room)


def audio(time, place, length, expected=None):
    lines.add(f"audio {time} {place} {length}", said(trunk.audio, time, place, length), expected)


# ---- examples

def copies_and_refreshes():
    new()
    key(1000, "5", "accepted")
    duekey(1004, key_octets(0, 1000, 5))
    duekey(1004, "nothing")
    duekey(1010, key_octets(1, 1000, 5))
    duekey(1010, key_octets(2, 1000, 5))
    duekey(1509, "nothing")
    duekey(1510, key_octets(3, 1510, 5))
    new()
    cas(100, 0b1011, "accepted")
    for redundancy in range(3):
        duecas(200, bits_octets(redundancy, 100, 0b1011))
    duecas(5199, "nothing")
    duecas(5200, bits_octets(3, 5200, 0b1011))
    duecas(20000, bits_octets(3, 20000, 0b1011))
    duecas(20000, "nothing")
    duecas(24999, "nothing")
    duecas(25000, bits_octets(3, 25000, 0b1011))


def known_octets():
    new()
    key(0, "5", "accepted")
    duekey(0, "00 00 0A 05 0A EB", room=6)
    cas(0, 0, "accepted")
    duecas(0, "00 00 00 0C 66", room=5)
    cas(1, 15, "accepted")
    for _ in range(3):
        duecas(11)
    duecas(16383, "FF FF 0F 0C 05", room=5)


def late():
    """An hour later copy 0 still comes first, and all copies have the stamp of the event."""
    new()
    key(1000, "#", "accepted")
    cas(1000, 6, "accepted")
    for redundancy in range(3):
        duekey(1000 + HOUR, key_octets(redundancy, 1000, 11))
        duecas(1000 + HOUR, bits_octets(redundancy, 1000, 6))
    duekey(1000 + HOUR, "nothing")
    duekey(1499 + HOUR, "nothing")
    duekey(1500 + HOUR, key_octets(3, 1500 + HOUR, 11))
    duecas(5999 + HOUR, "nothing")
    duecas(6000 + HOUR, bits_octets(3, 6000 + HOUR, 6))


def ended():
    """An event ends the copies and the refreshes of the one before."""
    new()
    key(100, "1", "accepted")
    duekey(100, key_octets(0, 100, 1))
    key(103, "2", "accepted")
    duekey(105, key_octets(0, 103, 2))
    duekey(105, "nothing")
    duekey(108, key_octets(1, 103, 2))
    off(112, "accepted")
    for redundancy in range(3):
        duekey(122, key_octets(redundancy, 112, TONE_OFF))
    key(200, "3", "accepted")
    for redundancy in range(3):
        duekey(300, key_octets(redundancy, 200, 3))
    key(799, "4", "accepted")
    duekey(800, key_octets(0, 799, 4))
    duekey(801, "nothing")
    cas(1, 1, "accepted")
    cas(2, 2, "accepted")
    duecas(50, bits_octets(0, 2, 2))


def ends_of_the_range():
    new()
    key(0, "0", "accepted")
    duekey(0, key_octets(0, 0, 0))
    key(LAST + 1, "1", "refused 10")
    key(LARGEST, "1", "refused 10")
    off(LAST + 1, "refused 10")
    duekey(LAST + 1, "refused 10")
    duekey(LARGEST, "refused 10", room=0)
    duekey(5, key_octets(1, 0, 0))
    key(LAST, "9", "accepted")
    duekey(LAST, key_octets(0, LAST, 9))
    duekey(LAST, "nothing")
    duekey(LAST + 1, "refused 10")
    duekey(LAST + 5, "refused 10")
    key(LAST, "9", "refused 16")
    duekey(LAST - 1, "refused 15")
    cas(LAST - 5010, 9, "accepted")
    for redundancy in range(3):
        duecas(LAST - 5000, bits_octets(redundancy, LAST - 5010, 9))
    duecas(LAST - 1, "nothing")
    duecas(LAST, bits_octets(3, LAST, 9))
    duecas(LAST, "nothing")
    cas(LAST, 0, "refused 16")
    cas(LAST + 1, 0, "refused 10")
    cas(LARGEST, 0, "refused 10")


def short_buffers():
    """They are refused whether or not anything is due, and the clock stays."""
    new()
    duekey(50, "refused 19", room=5)
    key(40, "7", "accepted")
    duekey(2000, "refused 19", room=5)
    duekey(2000, "refused 19", room=0)
    duekey(40, key_octets(0, 40, 7), room=6)
    duekey(3000, "refused 19", room=5)
    duekey(41, "nothing", room=6)
    duekey(44, "refused 19", room=5)
    duekey(42, "nothing", room=16)
    duekey(41, "refused 15", room=5)
    key(43, "8", "accepted")
    duecas(50, "refused 19", room=4)
    cas(40, 5, "accepted")
    duecas(9000, "refused 19", room=4)
    duecas(40, bits_octets(0, 40, 5), room=5)
    duecas(41, "refused 19", room=4)
    duecas(40, "nothing", room=5)
    duecas(45, bits_octets(1, 40, 5), room=16)
    duecas(LAST + 1, "refused 10", room=4)


def at_the_same_time():
    """No event comes at the time of the last event or of the last refresh."""
    new()
    key(0, "1", "accepted")
    key(0, "1", "refused 16")
    off(0, "refused 16")
    key(1, "1", "accepted")
    for _ in range(3):
        duekey(20)
    key(20, "2", "accepted")
    for _ in range(3):
        duekey(30)
    duekey(1000, key_octets(3, 1000, 2))
    key(1000, "3", "refused 16")
    off(1000, "refused 16")
    key(999, "3", "refused 15")
    duekey(1499, "nothing")
    duekey(1500, key_octets(3, 1500, 2))
    key(1501, "3", "accepted")
    key(1501, "4", "refused 16")
    duekey(1501, key_octets(0, 1501, 3))
    cas(0, 1, "accepted")
    cas(0, 2, "refused 16")
    for _ in range(3):
        duecas(100)
    duecas(5100, bits_octets(3, 5100, 1))
    cas(5100, 2, "refused 16")
    cas(5101, 2, "accepted")


def tone_off():
    new()
    off(10, "accepted")
    for redundancy in range(3):
        duekey(20, key_octets(redundancy, 10, TONE_OFF))
    for time in (519, 520, 521, 5020, 100000, LAST):
        duekey(time, "nothing")


def clocks():
    """A due call that finds nothing moves the clock, and a refusal does not."""
    new()
    duekey(50, "nothing")
    key(49, "1", "refused 15")
    duekey(49, "refused 15")
    key(50, "1", "accepted")
    duekey(50, key_octets(0, 50, 1))
    duekey(54, "nothing")
    key(53, "2", "refused 15")
    key(LAST + 1, "2", "refused 10")
    key(10, "2", "refused 15")
    duekey(53, "refused 15")
    key(LARGEST, "x", "refused 18")
    key(900, "x", "refused 18")
    key(900, "a", "refused 18")
    key(900, "é", "refused 18")
    key(54, "2", "accepted")
    cas(3, 1, "accepted")
    duecas(0, "refused 15")
    duecas(3, bits_octets(0, 3, 1))
    duecas(2, "refused 15")
    cas(2, 2, "refused 15")
    duecas(4, "nothing")


def every_millisecond():
    """With a due call at each millisecond every packet goes out at its moment, on both sides of the stamp's wrap."""
    new()
    start = 3 * STAMPS - 505
    key(start, "D", "accepted")
    cas(start - 4500, 10, "accepted")
    for after in (*range(21), *range(500, 521), *range(1000, 1021)):
        redundancy = {0: 0, 5: 1, 10: 2, 510: 3, 1010: 3}.get(after)
        made_for = start + after if redundancy == 3 else start
        duekey(start + after, "nothing" if redundancy is None else key_octets(redundancy, made_for, 15))
    for after in (*range(21), *range(5000, 5021), *range(10000, 10021)):
        redundancy = {0: 0, 5: 1, 10: 2, 5010: 3, 10010: 3}.get(after)
        made_for = start - 4500 + (after if redundancy == 3 else 0)
        duecas(start - 4500 + after, "nothing" if redundancy is None else bits_octets(redundancy, made_for, 10))


def labels():
    new()
    profile("A")
    audio(85, 2, 20, "uui 1")
    audio(12, 2, 20, "refused 13")
    audio(85, 2, 20, "refused 14")
    audio(90, 2, 20, "uui 2")
    profile("B")
    audio(85, 3, 40, "uui 9")
    audio(90, 0, 40, "uui 2")
    profile("A")
    for start in (60, 200):
        for time in range(start, start + 100, 5):
            audio(time, time // 5 % 6, EXAMPLES["A"][time // 5 % 6].length, f"uui {time // 5 % 16}")
    profile("C")
    audio(0, 4, 40, "uui 8")
    audio(35, 7, 10, "refused 14")
    audio(40, 7, 10, "uui 8")
    audio(45, 0, 40, "refused 14")
    audio(50, 2, 40, "uui 6")
    audio(55, 3, 20, "refused 14")
    audio(60, 3, 20, "uui 4")
    audio(65, 5, 30, "uui 9")
    audio(95, 6, 20, "uui 11")
    audio(115, 1, 35, "uui 3")


def audio_refused():
    """In the order of the questions; a refusal changes nothing."""
    for name, entries in EXAMPLES.items():
        new()
        profile(name)
        none = len(entries)
        length = entries[0].length
        audio(LAST + 1, none, 0, "refused 10")
        audio(LARGEST, 0, length, "refused 10")
        audio(13, none, 0, "refused 11")
        audio(1000, LARGEST, length, "refused 11")
        for wrong in (0, length - 1, length + 1, 255):
            audio(1003, 0, wrong, "refused 12")
        for time in (1, 4, 6, 1003, LAST - 1):
            audio(time, 0, length, "refused 13")
        audio(0, 0, length, f"uui {entries[0].first}")
        audio(0, 0, length, "refused 14")
        audio(3, 0, length, "refused 13")
        audio(0, 0, 2, "refused 12")
        audio(0, none, 2, "refused 11")
        for place, entry in enumerate(entries):
            audio(1000 + 100 * place, place, entry.length)
        audio(LAST, none - 1, entries[-1].length)
        audio(LAST, none - 1, entries[-1].length, "refused 14")
        audio(LAST + 5, none - 1, entries[-1].length, "refused 10")


def apart():
    """No stream knows of another, and a profile makes only the audio stream new."""
    new()
    key(5000, "A", "accepted")
    cas(100, 3, "accepted")
    profile("B")
    audio(0, 0, 40, "uui 0")
    duecas(100, bits_octets(0, 100, 3))
    duekey(5000, key_octets(0, 5000, 12))
    profile("B")
    audio(0, 0, 40, "uui 0")
    key(5000, "B", "refused 16")
    duecas(99, "refused 15")
    duekey(5005, key_octets(1, 5000, 12))
    new()
    lines.bad("audio 5 0 40")
    key(0, "A", "accepted")
    cas(0, 3, "accepted")


def spellings():
    """A number may have a plus sign or zeros in front."""
    new()
    profile("A")
    lines.add("audio +0085 02 +20", said(trunk.audio, 85, 2, 20), "uui 1")
    lines.add("key 01000 5", said(trunk.event, DIGITS, 1000, digit_of(5)), "accepted")
    lines.add("duekey +1000 06", said(trunk.due, DIGITS, 1000, 6), key_octets(0, 1000, 5))
    lines.add("cas +0 0011", said(trunk.event, CAS, 0, bits_of(3)), "accepted")
    lines.add("duecas 00 +5", said(trunk.due, CAS, 0, 5), bits_octets(0, 0, 3))
    lines.add("off +001001", said(trunk.event, DIGITS, 1001, digit_of(TONE_OFF)), "accepted")
    lines.add(f"key 000{LARGEST} 5", said(trunk.event, DIGITS, LARGEST, digit_of(5)), "refused 10")
    for line in ("key + 5", "key ++2000 5", "key -0 5", "off +", "duekey 2000 +17", "duecas 2000 -0", "audio 90 0 0256",
                 f"off +{LARGEST + 1}"):
        lines.bad(line)


def bad_lines():
    """They change nothing."""
    new()
    profile("A")
    for line in ("", " ", "new ", " new", "NEW", "new 1", "profile", "profile ", "profile D", "profile a", "profile Mixed",
                 "profile A B", "key", "key 90", "key 90 ", "key 90 55", "key  5", "key x 5", "key -1 5", "key 1.5 5",
                 f"key {LARGEST + 1} 5", "key 90 5 5", "off", "off ", "off x", "off 90 5", f"off {LARGEST + 1}",
                 "cas 90", "cas 90 ", "cas 90 000", "cas 90 00000", "cas 90 0002", "cas x 0000",
                 f"cas {LARGEST + 1} 0000", "cas 90 0000 0", "duekey 90", "duekey 90 17", "duekey 90 255",
                 "duekey 90 256", f"duekey 90 {LARGEST + 1}", "duekey 90 -1", "duekey 90 x", f"duekey {LARGEST + 1} 12",
                 "duekey 90 12 0", "duecas 90", "duecas 90 17", "duecas 90 -1", "duecas x 12",
                 f"duecas {LARGEST + 1} 12", "audio", "audio 90", "audio 90 0", "audio 90 0 256", "audio 90 0 -1",
                 "audio 90 0 x", f"audio 90 {LARGEST + 1} 40", f"audio {LARGEST + 1} 0 40", "audio x 0 40",
                 "audio 90 0 40 0", "due 90 12", "Key 90 5", "dueKey 90 12"):
        lines.bad(line)
    audio(0, 0, 40, "uui 0")
    duekey(0, "nothing")
    duecas(0, "nothing")
    key(1, "1", "accepted")
    cas(1, 1, "accepted")


# ---- calls at random

SMALL = [0, 1, 2, 4, 5, 6, 9, 10, 11, 100, 499, 500, 501]
LARGE = [4999, 5000, 5001, 10000, STAMPS - 1, STAMPS, STAMPS + 1, 5 * STAMPS, HOUR, DAY]


def some_start():
    return rng.choice([
        0,
        rng.randrange(20000),
        STAMPS * rng.randint(1, 5) - rng.randint(0, 30),
        STAMPS * rng.randint(1, 2**26 - 1) - rng.randint(0, 600),
        rng.randrange(LAST),
        LAST - rng.randint(0, 12000),
    ])


def near(stream):
    """A time by one that matters to the stream."""
    marks = [stream.clock, stream.moment(), stream.event_time, stream.refreshed, (stream.clock // STAMPS + 1) * STAMPS]
    return rng.choice([mark for mark in marks if mark is not None]) + rng.choice([-1, 0, 0, 0, 1])


def some_time(stream):
    way = rng.random()
    if way < 0.45:
        time = near(stream)
    elif way < 0.75:
        time = stream.clock + rng.choice(SMALL)
    elif way < 0.9:
        time = stream.clock + rng.choice([*LARGE, rng.randrange(1000), rng.randrange(20000)])
    elif way < 0.98:
        time = stream.clock - rng.choice([1, 1, 2, 5, 500, rng.randrange(1, 20000)])
    else:
        time = rng.choice([0, LAST, LAST + 1, LAST + 5, 2**41, LARGEST])
    return max(time, 0)


def some_room(which):
    least = KINDS[which].length + 4
    if rng.random() < 0.75:
        return rng.choice([least, least, least + 1, 12, 16])
    return rng.choice([least - 1, least - 1, 0, rng.randint(0, 16)])


def some_event(which, time):
    if which == CAS:
        cas(time, rng.randrange(16))
    elif rng.random() < 0.3:
        off(time)
    else:
        key(time, rng.choice(KEYS if rng.random() < 0.97 else "xEad+_~"))


def some_message_call(which):
    stream = trunk.out[which]
    if rng.random() < 0.22:
        some_event(which, some_time(stream))
    else:
        due(which, some_time(stream), room=some_room(which))


def some_audio():
    entries = trunk.profile
    place = rng.randrange(len(entries) if rng.random() < 0.93 else len(entries) + 3)
    later = [0, 0, 0, 5, 10, 75, 80, 85, 5 * rng.randrange(10000), -5, -10, -rng.randrange(50), rng.randrange(50)]
    time = trunk.audio_end + rng.choice(later)
    length = entries[place % len(entries)].length
    if rng.random() < 0.12:
        length = rng.choice([0, 1, length - 1, length + 1, rng.choice(entries).length, rng.randrange(256)])
    if rng.random() < 0.02:
        time = rng.choice([LAST, LAST + 1, LARGEST])
    audio(max(time, 0), place, length)


def wander():
    for turn in range(400):
        new()
        streams = [[DIGITS], [CAS], [DIGITS, CAS]][turn % 3]
        with_audio = turn % 4 == 3
        if with_audio:
            profile(rng.choice(list(EXAMPLES)))
            start = some_start()
            audio(start - start % 5, 0, trunk.profile[0].length)
        for which in streams:
            some_event(which, some_start())
        for _ in range(rng.randint(8, 28)):
            if with_audio and rng.random() < 0.4:
                some_audio()
            else:
                some_message_call(rng.choice(streams))


# ---- all of them

def is_enough():
    """Every answer that a call has comes often."""
    for word in ("duekey", "duecas"):
        lines.often(word, ["copy 0", "copy 1", "copy 2", "copy 3", "nothing", "refused 15", "refused 19"], 40)
        lines.often(word, ["refused 10"], 10)
    for word in ("key", "off", "cas"):
        lines.often(word, ["accepted", "refused 15", "refused 16"], 10)
        lines.often(word, ["refused 10"], 2)
    lines.often("audio", (f"refused {number}" for number in range(10, 15)), 10)
    lines.often("audio", (f"uui {uui}" for uui in range(16)), 5)
    assert len(lines.lines) >= 3000


for part in (copies_and_refreshes, known_octets, late, ended, ends_of_the_range, short_buffers, at_the_same_time,
             tone_off, clocks, every_millisecond, labels, audio_refused, apart, spellings, bad_lines, wander):
    part()
is_enough()
lines.write()
