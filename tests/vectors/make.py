"""Cases of type 3 payloads with their answers, made from the rules alone and not by the programs.

Writes crates/vectors/stdin and crates/vectors/stdout. No case is random: the seed is fixed.
"""

import random
from itertools import combinations

from end import CODES, KEYS, KINDS, TONE_OFF, Payload, Refused, answered, ask, framed, new_digit, read, told_to_c, written
from lines import Lines, changed
from words import asked, compared, is_right, message_text, refusal_text, shown

STAMPS = [0, 1, 70, 255, 256, 257, 500, 8191, 8192, 10000, 13616, 16128, 16382, 16383]
LEVELS = [-128, -127, -32, -31, -30, -29, -17, -10, -2, -1, 0, 1, 3, 127]


class Wide:
    """A third kind, as long as a kind can be."""

    name, message_type, length = "wide", 63, 8

    @staticmethod
    def body(code):
        return [0] * 7 + [code]

    @staticmethod
    def read(body):
        ask(body[:7] == bytes(7) and body[7] in (1, 2, 3), 27, "kind", cause=9)
        return body[7]


DIGITS, CAS, WIDE = (kind.message_type for kind in (*KINDS, Wide))

rng = random.Random(1023)
lines = Lines("vectors")


# ---- cases

def says(kinds, octets):
    """What a payload says when it is read, in the program's words."""
    answer = answered(read, kinds, octets)
    if isinstance(answer, Refused):
        return compared(octets, refusal_text(answer))
    place, (redundancy, stamp, message) = answer
    return compared(octets, f"{kinds[place].name} {redundancy} {stamp} {message_text(message)}")


def case(octets, expected=None):
    """A payload, read here and for C."""
    lines.add(f"read {asked(octets)}", says(KINDS, octets), expected)
    lines.add(f"export {asked(octets)}", str(told_to_c(octets)))


def read_wide(octets):
    lines.add(f"readwide {asked(octets)}", says([Wide], octets))


def cas_octets(redundancy, stamp, bits):
    return framed(redundancy, stamp, [bits], CAS)


def wide_octets(redundancy, stamp, code):
    return written(Wide, Payload(redundancy, stamp, code))


def digit_octets(redundancy, stamp, system, code, dbm0):
    return written(KINDS[0], Payload(redundancy, stamp, new_digit(system, code, dbm0)))


def some(values, place):
    return values[place % len(values)]


def good_cas():
    for redundancy in range(4):
        for bits in range(16):
            stamp = some(STAMPS, 5 * bits + redundancy)
            octets = cas_octets(redundancy, stamp, bits)
            lines.add(f"cas {redundancy} {stamp} {bits:04b}", shown(octets))
            case(octets, f"cas {redundancy} {stamp} {bits:04b}")


def write_digit(redundancy, stamp, system, code, dbm0):
    octets = digit_octets(redundancy, stamp, system, code, dbm0)
    lines.add(f"digit {redundancy} {stamp} {system} {code} {dbm0}", shown(octets))
    case(octets, f"digit {redundancy} {stamp} {min(max(-dbm0, 0), 31)} {system} {code}")


def good_digits():
    place = 0
    for system in range(4):
        for code in [*CODES[system], TONE_OFF]:
            write_digit(place % 4, some(STAMPS, place), system, code, some(LEVELS, place))
            place += 1
    for dbm0 in sorted({*range(-33, 3), *LEVELS}):
        write_digit(0, 16383, 0, 5, dbm0)
    for stamp in STAMPS:
        for redundancy in range(4):
            write_digit(redundancy, stamp, 2, 7, -20)
    for _ in range(40):
        system = rng.randrange(4)
        write_digit(rng.randrange(4), rng.randrange(16384), system, rng.choice(CODES[system]), rng.randint(-128, 127))


def keys():
    for code, key in enumerate(KEYS):
        dbm0 = some(LEVELS, code)
        lines.add(f"key 1 {code * 1000} {key} {dbm0}", shown(digit_octets(1, code * 1000, 0, code, dbm0)))
    for key in "abcdeEFOoZ +-_/~é":
        lines.add(f"key 0 0 {key} -10", "refused 18")


def bad_digits():
    for system in (0, 1, 2, 3, 4, 5, 8, 255):
        for code in (0, 15, 16, 17, 30, 31, 32, 63, 255):
            answer = answered(new_digit, system, code, 0)
            if isinstance(answer, Refused):
                lines.add(f"digit 0 0 {system} {code} 0", refusal_text(answer))


def bodies():
    """Every first and every second octet of a digit, and every octet of signalling bits, each with a right check."""
    for rest in range(256):
        case(framed(2, 4660, [9, rest], DIGITS))
    for octet in range(256):
        case(framed(0, 255, [octet, 5], DIGITS), f"digit 0 255 {octet % 32} 0 5")
        case(framed(1, 256, [octet], CAS), f"cas 1 256 {octet % 16:04b}")
    # the type is asked before the code, whatever the reserved bits are
    for level in (31, 32, 128, 255):
        case(framed(0, 0, [level, 0x90], DIGITS), "refused 27 cause 2")
        case(framed(0, 0, [level, 0x70], DIGITS), "refused 27 cause 3")
    # a reserved bit is a bit of the check as any other
    for octets, reserved in ((digit_octets(0, 0, 0, 5, -10), 3), (cas_octets(3, 16383, 15), 4)):
        for place in range(16, 16 + reserved):
            case(changed(octets, [place]), "refused 24")


def types_and_lengths():
    for message_type in range(64):
        for length in (5, 6):
            case(framed(0, 0, [1] * (length - 4), message_type))
    for message_type in (0, DIGITS, CAS, WIDE):
        for length in range(4, 17):
            case(framed(1, 1000, [0] * (length - 4), message_type))
    for length in range(17):
        case(bytes(length))
        case(bytes([255]) * length)
        case(bytes(rng.randrange(256) for _ in range(length)))


def damage():
    """One to three changed bits and bursts of up to ten, which the check finds; four that it does not; other lengths."""
    sent = [cas_octets(0, 0, 0), cas_octets(3, 16383, 15), digit_octets(0, 0, 0, 5, -10), digit_octets(2, 9999, 3, 31, -31)]
    for octets in sent[1:3]:
        for place in last_first(octets):
            case(changed(octets, [place]), "refused 24")
    for octets in sent:
        bits = last_first(octets)
        for count in (2, 3):
            for _ in range(12):
                case(changed(octets, rng.sample(bits, count)), "refused 24")
        for _ in range(12):
            width = rng.randint(4, 10)
            low = rng.randrange(len(bits) - width + 1)
            between = [place for place in bits[low + 1:low + width - 1] if rng.random() < 0.5]
            case(changed(octets, [bits[low], *between, bits[low + width - 1]]), "refused 24")
        four_bits(octets)
        for length in range(len(octets)):
            case(octets[:length])
        for length in range(len(octets) + 1, 15):
            case(octets + bytes(length - len(octets)))
            case(bytes(length - len(octets)) + octets)


def last_first(octets):
    """The places of the bits, from the last on."""
    return range(8 * len(octets))[::-1]


def four_bits(octets):
    """Four changed bits can leave the check right: the first five such changes, counted from the last bit on."""
    passing = (places for places in combinations(last_first(octets), 4) if is_right(changed(octets, places)))
    for places, _ in zip(passing, range(5)):
        case(changed(octets, places))


def wide():
    for code in (1, 2, 3):
        for redundancy in range(4):
            stamp = some(STAMPS, 3 * code + redundancy)
            octets = wide_octets(redundancy, stamp, code)
            lines.add(f"wide {redundancy} {stamp} {code}", shown(octets))
            read_wide(octets)
            case(octets, "refused 25")
    for code in (0, 4, 9, 255):
        lines.bad(f"wide 0 0 {code}")
        read_wide(wide_octets(0, 0, code))
    for place in range(7):
        read_wide(framed(0, 0, [int(i == place) for i in range(7)] + [1], WIDE))
    for length in range(4, 15):
        read_wide(framed(3, 5000, [0] * (length - 5) + [2] if length > 4 else [], WIDE))
    read_wide(digit_octets(0, 0, 0, 5, -10))
    read_wide(cas_octets(0, 0, 15))
    for place in range(0, 96, 5):
        read_wide(changed(wide_octets(0, 0, 2), [95 - place]))


def spellings():
    """A number may have a plus sign or zeros in front, and a level below zero a minus sign."""
    for line, octets in (("cas 00 +0 0000", cas_octets(0, 0, 0)), ("cas +3 016383 1111", cas_octets(3, 16383, 15)),
                         ("digit 01 +70 +2 007 -020", digit_octets(1, 70, 2, 7, -20)),
                         ("digit 0 0 0 05 -0", digit_octets(0, 0, 0, 5, 0)),
                         ("digit 0 0 0 5 +3", digit_octets(0, 0, 0, 5, 3)),
                         ("key 002 +500 # -010", digit_octets(2, 500, 0, KEYS.index("#"), -10)),
                         ("key 0 0 # +0", digit_octets(0, 0, 0, KEYS.index("#"), 0)),
                         ("wide 03 +0 +2", wide_octets(3, 0, 2))):
        lines.add(line, shown(octets))
    for line in ("cas + 0 0000", "cas ++1 0 0000", "cas -0 0 0000", "cas 0 +-1 0000", "cas 0 0x1 0000", "cas 0 1_0 0000",
                 "cas 0 1.0 0000", "cas 000256 0 0000", "digit 0 0 0 5 -", "digit 0 0 0 5 --1", "digit 0 0 0 5 -0129"):
        lines.bad(line)


def bad_lines():
    for line in ("", " ", "cas", "cas 0 0", "cas 0 0 000", "cas 0 0 00000", "cas 0 0 0002", "cas 0 0 0000 0",
                 "cas 4 0 0000", "cas 255 0 0000", "cas -1 0 0000", "cas 0 16384 0000", "cas 0 65535 0000",
                 "cas 0 x 0000", "digit 4 0 0 5 -10", "digit 9 0 4 5 0", "digit 0 16384 0 5 -10", "digit 0 0 0 5",
                 "digit 0 0 0 5 128", "digit 0 0 0 5 -129", "digit 0 0 256 5 0", "digit 0 0 0 256 0",
                 "digit 0 0 zero 5 0", "key 4 0 5 0", "key 0 16384 5 0", "key 0 0 55 0", "key 0 0  0", "key 0 0 5",
                 "wide 4 0 1", "wide 0 16384 1", "wide 0 0 one", "read", "read ", "read 0", "read 00000",
                 "read 0000000C6G", "read 00 00 00 0C 66", "read 0000000c66", "readwide 0", "export", "export 0x",
                 "CAS 0 0 0000", "frame 00", "readers -"):
        lines.bad(line)


for part in (good_cas, good_digits, keys, bad_digits, bodies, types_and_lengths, damage, wide, spellings, bad_lines):
    part()
lines.write()
