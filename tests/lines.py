#!/usr/bin/env python3
"""Runs of `lsr` on words and lines, compared byte for byte with the files of tests/data/lines.

- `cases.txt` names the runs of `lsr step` over the lines NAME.step, on the router of NAME.toml where there is one, and
  `messages.txt` the runs of `lsr decode` on the word NAME.hex. A run prints NAME.out and tells NAME.err on the error stream,
  nothing where there is no such file. It ends with status 0 where it tells nothing, else with 1.
- `many.txt` names the runs over many LSPs, on the built-in router. A line `FIRST-LAST LINE` of NAME.many is LINE for each
  number from FIRST to LAST, which stands in four hexadecimal digits in place of its `#`. A line `COUNT TEXT` of NAME.counts
  says how many lines that begin with TEXT are printed; there are no others.
- `runs.txt` names the runs of `lsr` itself: NAME.words has the status that it ends with, and below that its words, one in
  each line. It reads NAME.in, nothing where there is no such file, prints NAME.out and tells NAME.err.
- A line `WORDS => STATUS STREAM TEXT` of `says.txt` says how the program ends on these words and no input: with this status,
  with TEXT on the stream, `output` or `error`, and nothing on the other; or with TEXT on the output, and something told on
  the other, too, where STREAM is `both`.
- Each line of `bad-lines.txt`, alone, is a bad line of `lsr step`.
- A line `NAME: FAULT | PLACE | ALLOWED` or `NAME: good` of `config/answers.txt` says what is told of the configuration
  config/NAME.toml: the lines, with ` | ` between them in place of a newline and two spaces.

The runs are made in a copy of the folder that has the examples, too.
"""

import concurrent.futures
import functools
import pathlib
import re
import shutil
import socket
import sys
import tempfile

import asked
from asked import Answer, ask, begins, differs

# A configuration that runs of `lsr serve` read, and its sockets: the system gives their ports.
SERVED = "runs/serve-one-link.toml"
SOCKET = re.compile(rb'"(127[.\d]+):\d+"')
# Runs on words that begin so come one after the other: some read what one before them has made, or have its sockets.
IN_TURN = ("made", SERVED)
# Lines of NAME.many that stand for more than one.
MANY_LINE = re.compile(r"(\d+)-(\d+) ([^#]*)#(.*)")
# The answer to a configuration without a fault.
GOOD = "good"


def names_in(room, name):
    """The lines of a file that names cases."""
    return (room / name).read_text("utf-8").splitlines()


def read_or_empty(path):
    """The bytes of the file, none where it isn't there."""
    return path.read_bytes() if path.exists() else b""


def wanted_of(room, name, status=None):
    """What the files of the name want; without a status it is 0 where nothing is told, else 1."""
    out, err = read_or_empty(room / f"{name}.out"), read_or_empty(room / f"{name}.err")
    if status is None:
        status = 1 if err else 0
    return Answer(status, out, err)


def run_lines(room, name):
    """A run over lines."""
    config = f"{name}.toml"
    words = ["--config", config] if (room / config).exists() else []
    given = (room / f"{name}.step").read_bytes()
    return differs(wanted_of(room, name), ask("step", *words, given=given, cwd=room))


def run_message(room, name):
    """A message that is decoded."""
    digits = (room / f"{name}.hex").read_text().strip()
    return differs(wanted_of(room, name), ask("decode", digits, cwd=room))


def lines_of(line):
    """The lines that a line of a run over many LSPs stands for."""
    many = MANY_LINE.fullmatch(line)
    if not many:
        return [line]
    first, last, front, behind = many.groups()
    return [f"{front}{number:04x}{behind}" for number in range(int(first), int(last) + 1)]


def run_many(room, name):
    """A run over many LSPs: so many lines begin so as each line of its counts says, and there are no others."""
    lines = [line for many in names_in(room, f"{name}.many") for line in lines_of(many)]
    came = ask("step", given="".join(f"{line}\n" for line in lines).encode())
    printed = came.out.decode().splitlines()
    found = []
    counted = 0
    for wanted in names_in(room, f"{name}.counts"):
        beginning = wanted.partition(" ")[2]
        count = sum(line.startswith(beginning) for line in printed)
        counted += count
        found.append(f"{count} {beginning}")
    wanted = Answer(0, (room / f"{name}.counts").read_bytes())
    others = "" if counted == len(printed) else f"{counted} lines counted, {len(printed)} printed\n"
    return differs(wanted, came._replace(out="".join(f"{line}\n" for line in found).encode())) + others


def run_words(room, name, words):
    """A run of the program on words, behind the status that is wanted and the program's name."""
    given = read_or_empty(room / f"{name}.in")
    return differs(wanted_of(room, name, int(words[0])), ask(*words[2:], given=given, cwd=room))


def run_saying(room, words, status, stream, text):
    """The program ends so on these words: what it says has the text in it."""
    came = ask(*words, cwd=room)
    said, other = (came.err, came.out) if stream == "error" else (came.out, came.err)
    is_told = bool(other) == (stream == "both")
    if came.status == int(status) and text.encode() in said and is_told:
        return ""
    return f"wanted on {stream}: {text}\n" + differs(Answer(int(status)), came)


def run_bad_line(line):
    """The line, alone, is told as a bad one, and stands after that."""
    told = b"bad line 1\n  " + line + b"\n  expected "
    return begins(Answer(1, b"", told), ask("step", given=line + b"\n"))


def run_config(room, name, answer):
    """The configuration is taken where its answer is good, and else refused with its answer."""
    wanted = Answer(0)
    if answer != GOOD:
        wanted = Answer(1, b"", (answer.replace(" | ", "\n  ") + "\n").encode())
    return differs(wanted, ask("step", "--config", f"config/{name}.toml", cwd=room))


def free_port(address):
    """A port of the address that no socket has."""
    with socket.socket(socket.AF_INET, socket.SOCK_DGRAM) as found:
        found.bind((address, 0))
        return found.getsockname()[1]


def served_socket(place):
    """A socket of the configuration, with a port that the system gives."""
    address = place[1].decode()
    return f'"{address}:{free_port(address)}"'.encode()


def make_room(room):
    """The folder that the runs are made in."""
    shutil.copytree(asked.DATA / "lines", room)
    shutil.copytree(asked.TOP / "examples", room / "examples")
    served = room / SERVED
    served.write_bytes(SOCKET.sub(served_socket, served.read_bytes()))


def word_cases(room, in_turn):
    """The cases of words. Those that come one after the other are handed to `in_turn` at once."""
    cases = []
    for name in names_in(room, "runs.txt"):
        words = names_in(room, f"{name}.words")
        cases.append((name, words, functools.partial(run_words, room, name, words)))
    for line in names_in(room, "says.txt"):
        asked_words, _, answer = line.partition(" => ")
        words = asked_words.split(" ") if asked_words else []
        saying = functools.partial(run_saying, room, words, *answer.split(" ", 2))
        cases.append((f"lsr {asked_words}", words, saying))
    for name, words, case in cases:
        comes_in_turn = any(word.startswith(IN_TURN) for word in words)
        yield name, in_turn.submit(asked.run_case, case).result if comes_in_turn else case


def other_cases(room):
    """The cases of lines, messages and configurations."""
    for names, run in (("cases.txt", run_lines), ("messages.txt", run_message), ("many.txt", run_many)):
        for name in names_in(room, names):
            yield name, functools.partial(run, room, name)
    for number, line in enumerate((room / "bad-lines.txt").read_bytes().split(b"\n")):
        yield f"bad-lines {number}", functools.partial(run_bad_line, line)
    for line in names_in(room, "config/answers.txt"):
        name, _, answer = line.partition(": ")
        yield f"config/{name}", functools.partial(run_config, room, name, answer)


def main():
    """Makes the folder, and runs all cases there."""
    with tempfile.TemporaryDirectory() as top, concurrent.futures.ThreadPoolExecutor(1) as in_turn:
        room = pathlib.Path(top) / "lines"
        make_room(room)
        return asked.count([*word_cases(room, in_turn), *other_cases(room)])


if __name__ == "__main__":
    sys.exit(main())
