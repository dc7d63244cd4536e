"""The words of the programs vectors, timing and arrivals. Payloads are compared with the CRC of Debian's python3-crccheck."""

from crccheck.crc import Crc10
from end import CasBits, Digit

# the value that catalogues of CRCs print
assert Crc10.calc(b"123456789") == 0x199


def is_right(octets):
    """The whole payload is a multiple of the generator."""
    return Crc10.calc(octets) == 0


def shown(octets):
    """A payload that was written."""
    assert is_right(octets)
    return octets.hex(" ").upper()


def asked(octets):
    """Octets as they stand in a line."""
    return octets.hex().upper() or "-"


def compared(octets, answer):
    """The answer to octets that are read: it says that the check is wrong exactly where the other CRC program does."""
    assert (answer == "refused 24") == (5 <= len(octets) <= 12 and not is_right(octets)), (octets, answer)
    return answer


def message_text(message):
    match message:
        case Digit(system, code, level):
            return f"{level} {system} {code}"
        case CasBits():
            return "".join(str(bit) for bit in message)
    return str(message)


def refusal_text(refused):
    return f"refused {refused.number}" + (f" cause {refused.cause}" if refused.cause else "")
