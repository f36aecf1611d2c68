"""Calls of a program that are refused one at a time, by the library that tests/refuse.c makes: how runs are made, and judged."""

import functools
import itertools
import os
import pathlib
import re
import subprocess
import tempfile
from collections import Counter
from typing import Callable, NamedTuple

PROCESSORS = os.cpu_count()
# One run that takes longer hangs.
MOST_SECONDS = 900
# So many differing runs are shown of each share of a case, and so much of each.
MOST_SHOWN = 3
SHOWN_BYTES = 400
# What is refused.
MEMORY, FAILS, SHORT, INTERRUPTED = "memory", "fails", "short", "interrupted"
# What comes of a run: all that it gives else; a line or a message answered with refusal 40; its end, told; or what mustn't be.
SAME, REFUSED, ENDED, DIFFERS = "the same", "answered with 40", "ended", "differ"
REFUSAL = b"refused 40 NoMemory\n"
# What a run tells that ends for want of memory.
STARVED = re.compile(rb"(memory|world Memory|config Memory(\n  in .*)?)\n")
# What stands in the words of an ask for the name of a file that the run leaves.
KEPT = "KEPT"


class Room(NamedTuple):
    """Where runs are made: the programs, the folder, the library that refuses calls, and that each EVERYth call is refused."""

    lsr: str
    cases: str
    folder: pathlib.Path
    library: pathlib.Path
    every: int


class Ask(NamedTuple):
    """What a program is asked: its words, and files: its standard input, or the lines of it that come one by one; and the lines that come
    before a line is given again."""

    words: tuple
    given: str = os.devnull
    lines: str = ""
    again: str = ""


class Wanted(NamedTuple):
    """What a run gives that has all that it asks for: the file that it leaves, too."""

    status: int
    out: bytes
    err: bytes = b""
    kept: bytes = b""


class Run(NamedTuple):
    """What a run gave whose call of this number was refused."""

    call: int
    status: int
    out: bytes
    err: bytes
    kept: bytes


class Case(NamedTuple):
    """An ask whose calls of one kind are refused in turn; `judge` says what came of a run, nothing where that mustn't be."""

    name: str
    ask: Ask
    kind: str
    wanted: Wanted
    judge: Callable


class Differing(Exception):
    """A run with all that it asks for doesn't give what is wanted."""


# Runs.


def new_name(room, numbers=itertools.count()):
    """The name of a file that isn't there yet."""
    return str(room.folder / f"file-{next(numbers)}")


def write_lines(room, lines):
    """A new file of these lines: its name."""
    name = new_name(room)
    pathlib.Path(name).write_text("".join(f"{line}\n" for line in lines), encoding="utf-8")
    return name


def read_lines(room, name):
    """The lines of a file of the room."""
    return (room.folder / name).read_text(encoding="utf-8").splitlines()


def words_for(ask, kept):
    """The words of the program, with the name of the file that it leaves."""
    return [kept if word == KEPT else word for word in ask.words]


def take_file(name):
    """The bytes of a file, which is taken away: none where there is no such file."""
    path = pathlib.Path(name)
    if not path.exists():
        return b""
    data = path.read_bytes()
    path.unlink()
    return data


def run(room, ask):
    """Runs a program with all that it asks for."""
    kept = new_name(room)
    with open(room.folder / ask.given, "rb") as given:
        ran = subprocess.run(
            words_for(ask, kept), stdin=given, capture_output=True, cwd=room.folder, timeout=MOST_SECONDS, check=False
        )
    return Wanted(ran.returncode, ran.stdout, ran.stderr, take_file(kept))


def ask_lsr(room, *words, given=os.devnull):
    """Runs `lsr` on these words."""
    return run(room, Ask((room.lsr, *words), given))


def start(room, ask, kept, variables, **streams):
    """Starts a program with the library, which gets these variables: the process, and what the library reports."""
    reading, writing = os.pipe()
    files = {"LINES": ask.lines, "AGAIN": ask.again, "KEPT": kept}
    environment = dict(os.environ, LD_PRELOAD=str(room.library), REPORT=str(writing), **variables)
    environment.update({name: file for name, file in files.items() if file})
    with open(room.folder / ask.given, "rb") as given:
        streams = {"stdin": given, "stdout": subprocess.DEVNULL, "stderr": subprocess.DEVNULL, **streams}
        process = subprocess.Popen(words_for(ask, kept), cwd=room.folder, env=environment, pass_fds=[writing], **streams)
    os.close(writing)
    return process, os.fdopen(reading, "rb")


def read_runs(reports, printed_else, ends):
    """Gives each run that is reported, and appends to `ends` how many calls there were."""
    for record in reports:
        word, *numbers = record.split()
        numbers = [int(number) for number in numbers]
        if word == b"run":
            call, status, printed, *lengths = numbers
            out, err, kept = [reports.read(length) for length in lengths]
            yield Run(call, os.waitstatus_to_exitcode(status), printed_else[:printed] + out, err, kept)
        elif word == b"end":
            ends.append(numbers[0])


def refuse_share(room, case, share, shares):
    """Makes one share of the runs of a case that are refused a call: how often what came of it."""
    kept = new_name(room) if KEPT in case.ask.words else ""
    variables = {"REFUSED": case.kind, "FIRST": str((share + 1) * room.every), "STEP": str(shares * room.every)}
    process, reports = start(room, case.ask, kept, variables)
    told, ends = Counter(), []
    with reports:
        for one in read_runs(reports, case.wanted.out, ends):
            word = case.judge(one) or DIFFERS
            told[word] += 1
            if word == DIFFERS and told[DIFFERS] <= MOST_SHOWN:
                print(run_text(case.name, one), flush=True)
    if process.wait(MOST_SECONDS) != case.wanted.status or not ends or not ends[0]:
        told[DIFFERS] += 1
        print(f"{case.name}: asks for nothing that can be refused, or ends otherwise", flush=True)
    return told


def jobs_of(room, *cases):
    """Each share of the runs of cases, as a function that makes them."""
    shares = range(PROCESSORS)
    return [functools.partial(refuse_share, room, case, share, len(shares)) for case in cases for share in shares]


# What is told of runs.


def shown(data):
    """The end of what was printed, as it is shown."""
    return data[-SHOWN_BYTES:].decode(errors="backslashreplace")


def run_text(name, one):
    """What is shown of a run that differs."""
    return f"{name}, call {one.call}: status {one.status}\n  printed at last: {shown(one.out)}\n  told: {shown(one.err)}"


def want(name, wanted, came):
    """Has a run give what is wanted."""
    if wanted != came:
        raise Differing(f"{name}, with all memory:\n  wanted: {wanted}\n  came: {came}")


def section(room, name):
    """The lines that growths.out has for a name: what is printed of it with all memory."""
    text = "\n".join(read_lines(room, "growths.out"))
    return text.split(f"== {name}\n")[1].split("\n== ")[0].splitlines()


# What comes of a run.


def is_starved(one):
    """Whether a run ended for want of memory, and said so."""
    return one.status == 1 and STARVED.fullmatch(one.err)


def is_same(wanted, one):
    """Whether a run gave what it gives with memory."""
    return (one.status, one.out, one.err, one.kept) == wanted


def judge_plain(wanted, one):
    """Of a run of which no more is known than what it gives with memory."""
    if is_same(wanted, one):
        return SAME
    return ENDED if is_starved(one) and wanted.out.startswith(one.out) and not one.kept else None


def plain_case(room, *words, given=os.devnull, kind=MEMORY, judge=judge_plain):
    """A case of `lsr` on these words."""
    ask = Ask((room.lsr, *words), given)
    wanted = run(room, ask)
    return Case(" ".join(words)[:60], ask, kind, wanted, functools.partial(judge, wanted))
