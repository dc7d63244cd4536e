"""Random and mutated payloads through the C export, each answer beside that of the oracle: payloads.py PROGRAM COUNT SEED"""

import random
import subprocess
import sys
from collections import Counter
from itertools import product

from end import CODES, STAMPS, TONE_OFF, Cas, CasBits, Digit, Digits, Payload, framed, told_to_c, written

CHUNK = 50000


def some_message(rng):
    if rng.random() < 0.4:
        return Cas, CasBits(*(rng.randrange(2) for _ in range(4)))
    system = rng.randrange(4)
    return Digits, Digit(system, rng.choice([*CODES[system], TONE_OFF]), rng.randrange(32))


def sound(rng):
    kind, message = some_message(rng)
    return written(kind, Payload(rng.randrange(4), rng.randrange(STAMPS), message))


def checked(rng):
    """Octets with a right check, of any kind and body."""
    message_type = rng.choice([2, 2, 2, 3, 3, rng.randrange(64)])
    length = {2: 2, 3: 1}.get(message_type, 2) if rng.random() < 0.8 else rng.randint(1, 8)
    return framed(rng.randrange(4), rng.randrange(STAMPS), rng.randbytes(length), message_type)


RESERVED = {Digits.message_type: 0xE0, Cas.message_type: 0xF0}


def with_reserved(rng, octets):
    """A payload of digits or of CAS with some of its reserved bits set, and the check made anew."""
    message_type = octets[-2] // 4
    body = [octets[2] | rng.randrange(256) & RESERVED[message_type], *octets[3:-2]]
    return framed(octets[0] // 64, octets[0] % 64 * 256 + octets[1], body, message_type)


def old(rng):
    return with_reserved(rng, sound(rng))


def has_reserved(octets):
    return octets[2] & RESERVED[octets[-2] // 4] != 0


def mutated(rng):
    octets = bytearray(rng.choice([sound, old, checked])(rng))
    for _ in range(rng.choice([1, 1, 1, 2, 2, 3, 4, 5, 8])):
        way = rng.randrange(5)
        if way == 0:
            del octets[rng.randrange(len(octets) + 1):]
        elif way == 1:
            octets.insert(rng.randrange(len(octets) + 1), rng.randrange(256))
        elif octets:
            place = rng.randrange(len(octets))
            octets[place] = rng.randrange(256) if way == 2 else octets[place] ^ 1 << rng.randrange(8)
    return bytes(octets)


def hostile(rng):
    return rng.randbytes(rng.choice([0, 1, 2, 3, 4, 5, 6, 6, 12, 13, rng.randrange(40), rng.randrange(256)]))


def told(seen):
    """How often each answer came."""
    return ", ".join(f"{count} {answer}" for answer, count in sorted(seen.items(), key=str))


def compare(program, payloads, seen):
    """Each payload is answered as the oracle answers it; counts the answers."""
    asked = b"".join(bytes([len(octets)]) + octets for octets in payloads)
    said = subprocess.run([program], input=asked, capture_output=True, check=True)
    answers = [int(answer) for answer in said.stdout.split()]
    assert len(answers) == len(payloads)
    for octets, answer in zip(payloads, answers):
        if answer != told_to_c(octets):
            sys.exit(f"payload {octets.hex() or '-'}: {answer}, and not {told_to_c(octets)}")
        read = "read with reserved bits" if answer >= 65536 and has_reserved(octets) else "read"
        seen[read if answer >= 65536 else answer] += 1


def compare_bodies(program):
    """Every body of digits, and every one of CAS."""
    for kind, bodies in ((Digits, product(range(256), range(256))), (Cas, product(range(256)))):
        seen = Counter()
        compare(program, [framed(0, 0, body, kind.message_type) for body in bodies], seen)
        print(f"all bodies of {kind.name} are answered as the oracle answers them:", told(seen))


def main():
    program, count, seed = sys.argv[1], int(sys.argv[2]), int(sys.argv[3])
    compare_bodies(program)
    rng = random.Random(seed)
    seen = Counter()
    ways = [sound, old, checked, mutated, mutated, mutated, hostile]
    for start in range(0, count, CHUNK):
        compare(program, [rng.choice(ways)(rng) for _ in range(min(CHUNK, count - start))], seen)
    numbers = {23, 24, 25, 26, 27 + 512, 27 + 768, "read", "read with reserved bits"}
    assert numbers == set(seen), seen
    print(f"{count} payloads are answered as the oracle answers them:", told(seen))


if __name__ == "__main__":
    main()
