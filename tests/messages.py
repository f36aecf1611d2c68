#!/usr/bin/env python3
"""Worked messages, and thousands that are made of them: what `lsr` reads them as.

The files of tests/data/messages have the cases. Their lines:

- `NAME = PIECES` names bytes, for all lines that follow. PIECES are words: hexadecimal digits or names, each with `N*`
  before it where it stands N times.
- `VERB PIECES -> ANSWER` is a case. Where a message is read, it is written again too, and the bytes are those of the line,
  or those that stand as PIECES after ` as `.
- `#` begins a comment.

The verbs: `message` reads a message, `show` says what it says too, `objects` reads a message of the type in the first byte with
the objects that follow. `rate` is the rate of a word, `traffic` that of a SENDER_TSPEC or a FLOWSPEC. `turn` reads the
message with each bit turned, `cut` with each length, `shorten` with each length in its length field and no checksum;
`mutate N` reads N messages that chance made of this one. The last four count what came.

A router that records its run tells how it read a message, and writes it again: the journal has both.
"""

import concurrent.futures
import pathlib
import re
import sys
import tempfile
from typing import NamedTuple

import asked

FOLDER = asked.DATA / "messages"
FILES = [
    "vectors.txt",
    "faults.txt",
    "contents.txt",
    "limits.txt",
    "traffic.txt",
    "reservations.txt",
    "types.txt",
    "samples.txt",
    "mutants.txt",
]
# The bytes of a message's common header (RFC 2205, 3.1.1), and those of an object's, its least length.
HEADER_LEN = 8
OBJECT_HEADER_LEN = 4
# What the header begins with, version 1 without flags, and its Send_TTL.
VERSION_1 = 0x10
SEND_TTL = 255
# The refusals of `lsr step` up to this one are faults of a message's bytes (docs/WIRE.md).
LAST_FAULT = 9
# The errors that an object is answered by which its type doesn't know (RFC 2205, B).
UNKNOWN_CLASS, UNKNOWN_CTYPE = 13, 14
# What the values of traffic control errors say (RFC 2205, B).
TRAFFIC_FAULTS = {"2": "ServiceUnsupported", "3": "BadFlowspec", "4": "BadTspec"}
FLOWSPEC, SENDER_TSPEC = 9, 12
# So many messages are read by one router, whose state they change.
AT_ONCE = 1000
# What chance begins with, and the bits that its numbers have.
SEED = 0x2545_F491_4F6C_DD1D
WORD = (1 << 64) - 1


class Row(NamedTuple):
    """A case: where it stands, its verb, the text after that, the answer that is wanted, and the bytes so far named."""

    place: str
    verb: str
    text: str
    wanted: str
    named: dict


def spell(named, text):
    """The bytes that the words spell, one after the other."""
    spelled = b""
    for word in text.split():
        times, star, piece = word.rpartition("*")
        piece_bytes = named[piece] if piece in named else bytes.fromhex(piece)
        spelled += piece_bytes * (int(times) if star else 1)
    return spelled


def rows():
    """The cases of all files."""
    named = {}
    for name in FILES:
        for number, line in enumerate((FOLDER / name).read_text().splitlines(), 1):
            if not line or line.startswith("#"):
                continue
            case, arrow, wanted = line.partition(" -> ")
            if arrow:
                verb, _, text = case.partition(" ")
                yield Row(f"{name}, line {number}", verb, text, wanted, named)
            else:
                word, _, pieces = line.partition(" = ")
                named[word] = spell(named, pieces)


def checksum(message):
    """The Internet checksum of the message, its field as 0; a computed 0 is written as ffff (RFC 1071)."""
    even = message[:2] + bytes(2) + message[4:] + bytes(len(message) % 2)
    total = sum(int.from_bytes(even[at : at + 2], "big") for at in range(0, len(even), 2))
    while total >> 16:
        total = (total & 0xFFFF) + (total >> 16)
    return (total ^ 0xFFFF) or 0xFFFF


def with_length(message):
    """The message with its byte count in its length field, and no checksum."""
    if len(message) < HEADER_LEN:
        return message
    return message[:2] + bytes(2) + message[4:6] + len(message).to_bytes(2, "big") + message[HEADER_LEN:]


def sealed(kind_and_objects):
    """The message of the type in the first byte with the objects that follow it, with its length and its checksum."""
    header = bytes([VERSION_1, kind_and_objects[0], 0, 0, SEND_TTL, 0, 0, 0])
    message = with_length(header + kind_and_objects[1:])
    return message[:2] + checksum(message).to_bytes(2, "big") + message[4:]


def input_of(row, text):
    """The message that the text means after the row's verb."""
    spelled = spell(row.named, text)
    return sealed(spelled) if row.verb == "objects" else spelled


# How messages are changed.


def turn(message, at, bits):
    """The message with these bits of the byte at the place turned, where there is one."""
    if at >= len(message):
        return message
    return message[:at] + bytes([message[at] ^ bits]) + message[at + 1 :]


def turned(message):
    """The message with each bit turned."""
    return [turn(message, at, 0x80 >> bit) for at in range(len(message)) for bit in range(8)]


def cut(message):
    """The message cut short, at each length."""
    return [message[:end] for end in range(len(message))]


def numbers_below():
    """Numbers by chance, xorshift64 (Marsaglia, 2003), the same in each run: a function that gives one below a bound."""
    state = SEED

    def below(bound):
        nonlocal state
        state ^= state << 13 & WORD
        state ^= state >> 7
        state ^= state << 17 & WORD
        return state % max(bound, 1)

    return below


def parts_of(message):
    """The message's header and its objects, each by its own length, or by the least where that is wrong."""
    parts, rest = [message[:HEADER_LEN]], message[HEADER_LEN:]
    while len(rest) >= 2:
        end = max(int.from_bytes(rest[:2], "big"), OBJECT_HEADER_LEN)
        parts.append(rest[:end])
        rest = rest[end:]
    return parts


def change_objects(parts, below):
    """Takes an object away, or puts a copy of it before another or last."""
    taken_from = below(len(parts) - 1) + 1
    put_to = below(len(parts)) + 1
    is_taken = below(2) == 0
    if taken_from < len(parts):
        if is_taken:
            del parts[taken_from]
        else:
            parts.insert(put_to, parts[taken_from])


def change_byte(message, below):
    """The message with one bit or more of a byte turned."""
    at = below(len(message))
    bits = below(256)
    return turn(message, at, 1 << bits % 8 if below(2) == 0 else bits)


def mutant(message, below):
    """The message with up to two objects more or fewer, up to two bytes changed, and mostly a right length and no checksum."""
    parts = parts_of(message)
    for _ in range(below(3)):
        change_objects(parts, below)
    changed = b"".join(parts)
    for _ in range(below(3)):
        changed = change_byte(changed, below)
    return with_length(changed) if below(8) else changed


def mutants(message, times):
    """So many mutants of the message."""
    below = numbers_below()
    return [mutant(message, below) for _ in range(times)]


# What a router says of messages.


def arrivals(messages):
    """The lines by which the messages come to a router."""
    return "".join(f"rx 1 {message.hex()}\n" for message in messages).encode()


def replies(*words, messages):
    """What a router answers to each of the messages: `done`, `error CODE VALUE` or `refused N NAME`."""
    answer = asked.ask("step", *words, given=arrivals(messages))
    lines = [line for line in answer.out.decode().splitlines() if re.match("done|error|refused", line)]
    if answer.status or len(lines) != len(messages):
        raise RuntimeError(f"{len(lines)} of {len(messages)} messages are answered: {answer.err.decode()}")
    return lines


def fault_in(reply):
    """The reply, where it refuses the message for its bytes."""
    words = reply.split()
    return reply if words[0] == "refused" and int(words[1]) <= LAST_FAULT else None


def outcome_of(reply):
    """How the message was read that is answered so."""
    words = reply.split()
    if fault_in(reply):
        return words[2]
    return "unknown" if words[0] == "error" and int(words[1]) in (UNKNOWN_CLASS, UNKNOWN_CTYPE) else "whole"


def outcomes(messages):
    """How each of the messages is read."""
    found = []
    for start in range(0, len(messages), AT_ONCE):
        found += map(outcome_of, replies(messages=messages[start : start + AT_ONCE]))
    return found


def event_reading(event):
    """How the message of the event in a journal was read, and the bytes that were written of it."""
    asks = re.fullmatch(r"(?:# in bytes ([0-9a-f]+), nearly )?rx 1 ([0-9a-f]+)", event)
    in_bytes, written = asks.groups()
    kind = "whole"
    if in_bytes:
        marked, object_class, ctype = bytes.fromhex(in_bytes[-6:])
        kind = f"unknown {object_class}/{ctype}" if marked == 1 else "no reading"
    return kind, bytes.fromhex(written)


def readings(messages):
    """How each of the messages was read, or why it was refused, and the bytes that were written of what was read."""
    with tempfile.TemporaryDirectory() as folder:
        journal = str(pathlib.Path(folder) / "messages.journal")
        answered = replies("--journal", journal, messages=messages)
        shown = asked.ask("show-journal", journal).out.decode().splitlines()
    events = [line.partition(": ")[2] for line in shown if line.startswith("entry ")]
    read = iter(events)
    found = [(fault, None) if (fault := fault_in(reply)) else event_reading(next(read)) for reply in answered]
    if any(True for _ in read):
        raise RuntimeError("the journal has more messages than were read")
    return found


def said(messages):
    """What each of the messages says: its type, and its objects by their fields."""
    answer = asked.ask("decode", "-", "--fields", given="".join(message.hex() + "\n" for message in messages).encode())
    told = []
    for paragraph in answer.out.decode().split("\n\n")[:-1]:
        head, *lines = paragraph.splitlines()
        fields = [line.strip() for line in lines if line.startswith("  ")]
        told.append("; ".join([head.split()[0], *fields]))
    return told


# The cases.


def differs(wanted, came):
    """What differs, where anything does."""
    return "" if wanted == came else f"{wanted}\n  wanted, but it is\n{came}"


def reading_differs(row, reading, fields):
    """How the message of the row was read and written in another way than is wanted."""
    kind, written = reading
    wanted, _, form = row.wanted.partition(" as ")
    if row.verb == "show":
        kind = f"{kind} {fields}"
    if wanted != kind or written is None:
        return differs(wanted, kind)
    return differs(input_of(row, form or row.text).hex(), written.hex())


def runs_of(found):
    """The outcomes in their order, those that follow upon their like counted together."""
    runs = []
    for outcome in found:
        if runs and runs[-1][1] == outcome:
            runs[-1][0] += 1
        else:
            runs.append([1, outcome])
    return runs


def tallies_of(found):
    """The outcomes in the order in which they first came, each counted."""
    return [(found.count(outcome), outcome) for outcome in dict.fromkeys(found)]


CHANGES = {
    "turn": turned,
    "cut": cut,
    "shorten": lambda message: [with_length(start) for start in cut(message)],
}


def counts_differ(row):
    """What comes of the changed messages in place of what is wanted."""
    if row.verb == "mutate":
        times, _, text = row.text.partition(" ")
        counts = tallies_of(outcomes(mutants(spell(row.named, text), int(times))))
    else:
        counts = runs_of(outcomes(CHANGES[row.verb](spell(row.named, row.text))))
    return differs(row.wanted, ", ".join(f"{count} {outcome}" for count, outcome in counts))


def traffic_differs(row):
    """The rate that a router takes from the traffic, or why it takes none, in place of what is wanted."""
    is_rate = row.verb == "rate"
    traffic = f"00240c02 00000007 01000006 7f000005 {row.text} TAIL" if is_rate else row.text
    object_class = spell(row.named, traffic)[2]
    tspec, shown = (traffic, "path") if object_class == SENDER_TSPEC else ("TSPEC", "resv")
    path = sealed(spell(row.named, f"01 SESSION HOP_1 TIME REQUEST SENDER {tspec}"))
    lines = [f"rx 1 {path.hex()}"]
    if object_class == FLOWSPEC:
        lines.append(f"rx 2 {sealed(spell(row.named, f'02 SESSION HOP_3 TIME SE {traffic} FILTER LABEL')).hex()}")
    lines.append(f"show {shown} 10.0.0.4/1/10.0.0.1 10.0.0.1/1")
    answer = asked.ask("step", given="\n".join(lines).encode()).out.decode()
    fault = re.search(r"^error 21 (\d+)$", answer, re.MULTILINE)
    rate = re.search(r"^  rate (\d+) word", answer, re.MULTILINE)
    came = "refused " + TRAFFIC_FAULTS[fault[1]] if fault else rate[1] if rate else answer
    return differs("refused BadTspec" if is_rate and row.wanted == "refused" else row.wanted, came)


def reading_cases(found):
    """The cases of messages that are read as they stand, all by one router."""
    read = readings([input_of(row, row.text) for row in found])
    shown = [place for place, row in enumerate(found) if row.verb == "show"]
    fields = dict(zip(shown, said([read[place][1] for place in shown])))
    return [
        (row.place, lambda place=place, row=row: reading_differs(row, read[place], fields.get(place)))
        for place, row in enumerate(found)
    ]


def main():
    """Asks all cases."""
    found = list(rows())
    cases = reading_cases([row for row in found if row.verb in ("message", "objects", "show")])
    for row in found:
        if row.verb in ("rate", "traffic"):
            cases.append((row.place, lambda row=row: traffic_differs(row)))
        elif row.verb in ("turn", "cut", "shorten", "mutate"):
            cases.append((row.place, lambda row=row: counts_differ(row)))
    return asked.count(cases)


if __name__ == "__main__":
    sys.exit(main())
