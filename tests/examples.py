#!/usr/bin/env python3
"""The runs that examples/README.md tells line by line, compared with what the program answers.

Each is a command over a file, `./lsr step --echo .. < FILE` or `./lsr play FILE ..`, and the block below it: at the left the lines of the file,
indented what is printed for each but `done`, and after two blanks remarks, which aren't compared. `..` at the left stands for any lines with
their answers, an indented one for any answers. Lines for which nothing is printed aren't told. Messages and frames are told so:

  tx 2 Path                   a message, by its type
  frame 1 label 16 TTL 64     a frame under labels, the top one first; the TTL may be left out
  frame 3 no labels Path      one with a message
  frame 3 for 10.0.0.2 Resv   a message for another router

What is printed for a line is what the file up to it prints more than the file before it. A run is compared up to its first difference.
"""

import functools
import ipaddress
import re
import struct
import sys

import asked

DOCUMENTS = [asked.TOP / "README.md", *sorted(asked.TOP.glob("docs/*.md")), *sorted(asked.TOP.glob("examples/*.md"))]
RUN = re.compile(r"^    \./lsr (.+)\n\n((?:    .+\n)+)", re.MULTILINE)
# A line that has a message or a frame.
WIRED = re.compile(r"(.*\b(rx|tx|frame) \d+) ([0-9a-f]+)")
TYPES = ["", "Path", "Resv", "PathErr", "ResvErr", "PathTear", "ResvTear"]
LABELLED, ROUTED = 2, 3
DONE = re.compile(r"(?:\w+ )?done")
REMARK = re.compile(r"(?<=\S)  .*")
# What `..` stands for at the left, and indented.
OTHERS = {"..": r"(?:\S.*\n(?:  .*\n)*)*?", "  ..": r"(?:  .*\n)*?"}


def told(line):
    """A line of a file or an answer, as documents tell it, with the TTL at the end."""
    found = WIRED.fullmatch(line)
    if not found:
        return line
    words, message, limit = [found[1]], bytes.fromhex(found[3]), []
    kind = message[0] if found[2] == "frame" else None
    if kind == LABELLED:
        entries = struct.unpack_from(f">{message[1]}I", message, 2)
        words += ["labels" if len(entries) > 1 else "label", *(str(it >> 12) for it in entries)] if entries else ["no labels"]
        limit = [f"TTL {it & 255}" for it in entries[:1]]
        has_message, message = message[2 + 4 * len(entries)], message[3 + 4 * len(entries):]
        message = message if has_message else b""
    elif kind == ROUTED:
        words += ["for", str(ipaddress.IPv4Address(message[1:5]))]
        message = message[6:]
    return " ".join([*words, *(TYPES[it] for it in message[1:2]), *limit])


def answered(words, file):
    """The lines of a file, and below each, indented, what is printed for it."""
    lines, printed = (asked.TOP / file).read_text(encoding="utf-8").splitlines(keepends=True), ""
    for number, line in enumerate(lines, 1):
        before, printed = printed, asked.ask(*words, given="".join(lines[:number]).encode(), cwd=asked.TOP).out.decode()
        if more := printed.removeprefix(before):
            yield told(line.rstrip("\n"))
            yield from ("  " + told(it) for it in more.removeprefix(line).splitlines() if not DONE.fullmatch(it))


def run_differs(command, block, first):
    """What differs first in the run of a command, whose block begins at this line of its document."""
    words, _, file = command.partition(" < ")
    words = words.split()
    if not file:
        file, words[1] = words[1], "/dev/stdin"
    came, pattern, end = "".join(f"{it}\n" for it in answered(words, file)), "", 0
    for number, line in enumerate([*block.splitlines(), None], first):
        wanted = REMARK.sub("", line[4:]) if line else "no more"
        pattern += OTHERS.get(wanted, re.escape(wanted) + r"(?: TTL \d+)?\n") if line else r"\Z"
        found = re.match(pattern, came)
        if not found:
            there, _, _ = came[end:].partition("\n")
            return f"line {number}\nwanted: {wanted}\ncame:   {there or 'no more'}\n"
        end = found.end()
    return ""


def cases():
    """Each run of a document."""
    for document in DOCUMENTS:
        text = document.read_text(encoding="utf-8")
        for found in RUN.finditer(text):
            first = text.count("\n", 0, found.start(2)) + 1
            yield f"{document.relative_to(asked.TOP)}: {found[1]}", functools.partial(run_differs, found[1], found[2], first)


if __name__ == "__main__":
    sys.exit(asked.count([*cases()]))
