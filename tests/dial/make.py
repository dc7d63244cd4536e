"""The call that docs/dial.md describes, made from the documents alone and not by the program.

Writes crates/dial/stdout; with a number as its argument it prints the call to that, and with --timeline before the number its time
line. The answers are those of the oracle.
"""

import sys
from collections import Counter
from typing import NamedTuple

from end import EXAMPLES, KEYS, KINDS, TONE_OFF, AudioNews, CasBits, Digit, End, MessageNews, Nothing, Refused, Told
from end import answered, new_digit, read
from law import FAR, NEAR, Arrive, Audio, Due, Event, answer_of
from lines import CRATES, changed

PROFILE = EXAMPLES["A"]
MOST_KEYS = 64
LEVEL = -10
DIGITS, CAS = 0, 1
STREAMS = {"digit": "digits", "cas": "bits", "audio": "audio"}
HELD = [120, 90, 1100, 80, 150]
PAUSES = [70, 12000, 250, 90, 60]
AHEAD = 5_000_000


# ---- the caller

class Tone(NamedTuple):
    key: int
    pause: int
    held: int


def keys_of(number):
    """The codes of the number's keys, and a line for each character that is none."""
    codes, lines = [], []
    for character in number:
        if character not in KEYS:
            lines.append(f"key {character}: refused with 18")
        elif len(codes) == MOST_KEYS:
            lines.append(f"only the first {MOST_KEYS} keys are dialled")
            break
        else:
            codes.append(KEYS.index(character))
    return codes, lines


def script(codes):
    """The calls of the near end, and the tones as the caller makes them."""
    events = {1000: Event(CAS, 1000, CasBits(1, 0, 0, 0))}
    tones, time, pause = [], 8000, 0
    for i, code in enumerate(codes):
        held = HELD[i % 5]
        tones.append(Tone(code, pause, held))
        events[time] = Event(DIGITS, time, new_digit(0, code, LEVEL))
        events[time + held] = Event(DIGITS, time + held, new_digit(0, TONE_OFF, LEVEL))
        pause = PAUSES[i % 5]
        time += held + pause
    first = time + 500
    second = first + 12 * 5 + 1000
    on_hook = second + 12 * 5 + 20000
    events[on_hook] = Event(CAS, on_hook, CasBits(0, 0, 0, 0))
    talk = {start + 5 * i for start in (first, second) for i in range(12)}
    calls = []
    for now in range(0, on_hook + 21, 5):
        calls += [events[now]] if now in events else []
        calls += [Audio(now, 4, bytes(10))] if now in talk else []
        calls += [Due(DIGITS, now, 12), Due(CAS, now, 12)]
    return calls, tones


# ---- the network

class Parcel(NamedTuple):
    """What arrives, at a time of the near clock: a copy of the packet that a call made, or a foreign packet."""

    time: int
    uui: int
    octets: bytes
    call: int | None


def message_parcels(number, sent, octets, call):
    time = sent + 40 + sent // 2
    itself = Parcel(time, 24, octets, call)
    if number <= 2:
        return []
    match number % 8:
        case 0:
            return []
        case 2:
            return [itself, itself._replace(time=time + 700)]
        case 4:
            return [itself._replace(time=time + 1000)]
        case 6:
            # the lowest bit of the third octet
            return [itself._replace(octets=changed(octets, [23])), itself._replace(time=time + 20)]
        case 7:
            return [itself, Parcel(time, 27, b"", None)]
    return [itself]


def audio_parcels(number, sent, uui, octets, call):
    time = sent + 30
    itself = Parcel(time, uui, octets, call)
    match number % 5:
        case 1:
            return []
        case 2:
            return [itself, itself._replace(time=time + 3)]
        case 3:
            return [itself._replace(time=time + 8)]
    return [itself]


def carried(calls):
    """What the network makes of what a near end sends at these calls."""
    near = End(PROFILE)
    messages = audio = 0
    parcels = []
    for place, call in enumerate(calls):
        answer = answer_of(near, call)
        if isinstance(call, Due) and isinstance(answer, bytes):
            parcels += message_parcels(messages, call.time, answer, place)
            messages += 1
        elif isinstance(call, Audio) and not isinstance(answer, Refused):
            parcels += audio_parcels(audio, call.time, answer, call.octets, place)
            audio += 1
    return sorted(parcels, key=lambda parcel: parcel.time)


def merged(calls, parcels):
    """The calls of both sides in the order of time, and the place of each call of the near end."""
    both = [(call.time, 0, place, NEAR, call) for place, call in enumerate(calls)]
    both += [(parcel.time, 1, place, FAR, parcel) for place, parcel in enumerate(parcels)]
    both.sort(key=lambda x: x[:3])
    places = {place: at for at, (_, _, place, side, _) in enumerate(both) if side == NEAR}
    turns = []
    for _, _, _, side, what in both:
        if side == FAR:
            what = Arrive(what.time + AHEAD, what.uui, what.octets, None if what.call is None else places[what.call])
        turns.append((side, what))
    return turns


# ---- the lines

def message_text(message):
    if isinstance(message, Digit):
        return "tone-off" if message.code == TONE_OFF else f"key {KEYS[message.code]}"
    hook = "off-hook" if message.a else "on-hook"
    return f"bits {message.a}{message.b}{message.c}{message.d} ({hook})"


def sent_as(redundancy):
    return "refresh" if redundancy == 3 else f"copy {redundancy}"


def packet_text(uui, octets):
    return f"UUI {uui}, " + (octets.hex(" ").upper() if uui == 24 else f"{len(octets)} octets")


def answer_text(answer):
    match answer:
        case Refused():
            return f"refused with {answer.number}"
        case Told(what, stream):
            return f"{what}, {STREAMS[stream]}"
        case AudioNews(place, elapsed, _):
            return f"news, audio of entry {place}, {elapsed} ms after the news before"
        case MessageNews(_, of, redundancy, elapsed, _, message):
            return f"news, {of}, {message_text(message)}, {sent_as(redundancy)}, {elapsed} ms after the news before"


def line(side, time, word, about):
    return f"{side:4}{time:9}  {word}  {about}"


def turn_line(side, call, answer, lost):
    """The line of a call, or none where nothing was due."""
    end = ", lost" if lost else ""
    match call, answer:
        case Arrive(time, uui, octets, _), _:
            return line(side, time, "hears", f"{packet_text(uui, octets)}: {answer_text(answer)}")
        case _, Refused():
            return line(side, call.time, "asks ", answer_text(answer))
        case _, Nothing():
            return None
        case Event(_, time, message), _:
            return line(side, time, "event", message_text(message))
        case Audio(time, place, octets), uui:
            return line(side, time, "sends", f"{packet_text(uui, octets)}: audio of entry {place}{end}")
        case Due(_, time, _), octets:
            _, payload = read(KINDS, octets)
            said = f"{message_text(payload.message)}, {sent_as(payload.redundancy)}"
            return line(side, time, "sends", f"{packet_text(24, octets)}: {said}{end}")


def tones_heard(answers):
    """The tones, by the positions of news."""
    tones, on, ended = [], None, 0
    for news in answers:
        if not isinstance(news, MessageNews) or news.stream != "digit" or news.of == "confirmed":
            continue
        if on is not None:
            key, began = on
            tones.append(Tone(key, began - ended, news.position - began))
            ended = news.position
        on = None if news.message.code == TONE_OFF else (news.message.code, news.position)
    return tones


def tone_lines(word, tones):
    return [f"{word:7}  key {KEYS[key]} for {held:5} ms, after a pause of {pause:5} ms" for key, pause, held in tones]


def hostile(octets):
    return f"octets {octets.hex(' ').upper()}: {answer_text(answered(read, KINDS, octets))}"


def summary(sent, lost, answers):
    """The packets that were sent, and the answers to those that arrived."""
    of = Counter()
    for answer in answers:
        match answer:
            case MessageNews():
                of[answer.of] += 1
            case AudioNews():
                of["audio"] += 1
            case Told(what, _):
                of[what] += 1
            case Refused():
                of["refused"] += 1
    sorts = "event", "confirmed", "recovered", "audio"
    news = ", ".join(f"{of[sort]} {sort}" for sort in sorts)
    count = sum(of[sort] for sort in sorts)
    rest = ", ".join(f"{of[sort]} {sort}" for sort in ("repeat", "late", "refused"))
    return f"sent {sent} packets, {lost} of them lost; {len(answers)} arrived: {count} news ({news}), {rest}"


def run_of(codes):
    """The calls of both sides to these keys, the ends after them, the answers, and the tones as the caller makes them."""
    calls, tones = script(codes)
    turns = merged(calls, carried(calls))
    ends = {side: End(PROFILE) for side in (NEAR, FAR)}
    return turns, ends, [answer_of(ends[side], call) for side, call in turns], tones


def strip(tones, begin):
    """40 characters of one end's time line, for what is on at each tenth millisecond."""
    on, ended = {}, 0
    for tone in tones:
        began = ended + tone.pause
        ended = began + tone.held
        on |= {time: KEYS[tone.key] for time in range(began, ended)}
    return "".join(on.get(time, "." if time < ended else " ") for time in range(begin, begin + 400, 10))


def time_line(number):
    """The lines of the time line of a call."""
    codes, lines = keys_of(number)
    turns, _, answers, tones = run_of(codes)
    heard = tones_heard([answer for (side, _), answer in zip(turns, answers) if side == FAR])
    lines.append("a character is 10 ms: a key while its tone is on, or a point in a pause")
    lines.append("       ms  keyed at the near end                      heard at the far end")
    length = max(sum(tone.pause + tone.held for tone in side) for side in (tones, heard))
    lines += [f"{begin:9} |{strip(tones, begin)}| |{strip(heard, begin)}|" for begin in range(0, length, 400)]
    return lines + ["heard as dialled" if heard == tones else "not heard as dialled"]


def played(number):
    """The lines of a call."""
    codes, lines = keys_of(number)
    turns, ends, answers, tones = run_of(codes)
    delivered = {call.copies for _, call in turns if isinstance(call, Arrive)}
    sent = [at for at, answer in enumerate(answers) if isinstance(answer, (bytes, int))]
    lost = [at for at in sent if at not in delivered]
    told = [turn_line(side, call, answer, at in lost) for at, ((side, call), answer) in enumerate(zip(turns, answers))]
    lines += [said for said in told if said is not None]
    heard_answers = [answer for (side, _), answer in zip(turns, answers) if side == FAR]
    heard = tones_heard(heard_answers)
    lines += tone_lines("dialled", tones) + tone_lines("heard", heard)
    lines.append("heard as dialled" if heard == tones else "not heard as dialled")
    force = ends[FAR].force(CAS)
    lines.append(f"in force at the far end: {'nothing' if force is None else message_text(force)}")
    lines += [hostile(bytes([0, 0, 10, 5, 10, 0xEA])), hostile(bytes([0, 0, 10, 5]))]
    lines.append(summary(len(sent), len(lost), heard_answers))
    return lines


if __name__ == "__main__":
    if sys.argv[1:2] == ["--timeline"]:
        print("\n".join(time_line(sys.argv[2])))
    elif len(sys.argv) > 1:
        print("\n".join(played(sys.argv[1])))
    else:
        (CRATES / "dial" / "stdout").write_text("\n".join(played("5#x0")) + "\n")
