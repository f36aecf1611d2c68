#!/usr/bin/env python3
"""tests/refuse.py [PART..]: refuses calls of the program one at a time, requests for memory above all, and judges what comes of it.

tests/refuse.c refuses them: at each call the program goes on twice, as if nothing were, and in a process of its own that is refused.
Without a PART all are run, `cases` where --cases names the program. The parts:

  steps           `lsr step --live` over the cases of growths.txt: a line that is answered `refused 40 NoMemory` changed nothing, so what
                  is shown is as before it; the line is given again then, and it and all after it are answered as with memory
  worlds          `lsr play --lab` over the worlds of growth-worlds.txt, each move given twice: one that is refused changed nothing, so all
                  is as if it weren't there
  configurations  `lsr config` over the texts of growth-configurations.txt
  journals        `lsr step --journal` over the cases: the journal has the entries of the lines that weren't refused, and `lsr check` says so;
                  `lsr check` and `lsr show-journal` of journals
  others          `lsr decode` and `lsr explain`
  serve           `lsr serve --console`: a line for which there was no memory is typed again
  streams         reads and writes: they fail, move a single byte, or are interrupted
  cases           the parts of the program that --cases names: what no line of `lsr` reaches
  NAME            a case of `steps`, or a world of `worlds`

A run that ends for want of memory has status 1 and says so on standard error, and what it printed is a beginning of what it prints else.
"""

import argparse
import concurrent.futures
import functools
import os
import pathlib
import re
import shutil
import subprocess
import sys
import tempfile
import time
from collections import Counter

from refused.consoles import serve_jobs
from refused.lines import config_words, is_shown, read_jobs, recorded_jobs, step_jobs, world_jobs
from refused.runs import (
    DIFFERS, ENDED, FAILS, INTERRUPTED, MEMORY, PROCESSORS, REFUSAL, REFUSED, SAME, SHORT, Ask, Case, Differing, Room,
    ask_lsr, is_same, jobs_of, judge_plain, new_name, plain_case, read_lines, run, section, shown, start, want, write_lines,
)

TOP = pathlib.Path(__file__).resolve().parent.parent
PROVED = TOP / "crates" / "lsr" / "out" / "lsr"
LAUNCHER = TOP / "lsr"
SOURCE = TOP / "tests" / "refuse.c"
# The files of the cases.
FOLDERS = [TOP / "tests" / "data" / "lines", TOP / "tests" / "data" / "refuse"]
# So many jobs are done at once: a router with a console waits most of the time.
AT_ONCE = 4 * PROCESSORS
PARTS = ["steps", "worlds", "configurations", "journals", "others", "serve", "streams"]
# The cases whose journals are read.
READ = ["repair-row16", "capacity-row", "merge-row", "row15-classes"]


# Configurations.


def judge_config(wanted, one):
    """Of `lsr config`. There may be no memory to look for the place of a fault: then its first line stands alone."""
    first = wanted.err.splitlines(keepends=True)[:1]
    is_alone = one.status == wanted.status == 1 and not one.out and [one.err] == first
    return ENDED if is_alone and not is_same(wanted, one) else judge_plain(wanted, one)


def config_files(room):
    """The files of configurations: each line names one, or is `OLD => NEW`, a change of the good one."""
    good = (room.folder / "growth-middle.toml").read_text(encoding="utf-8")
    for line in read_lines(room, "growth-configurations.txt"):
        old, _, new = line.partition(" => ")
        yield f"{line}.toml" if " => " not in line else write_lines(room, good.replace(old, new, 1).splitlines())


def config_text(wanted):
    """What growths.out says of a configuration: how many of each record there are, or its fault."""
    if wanted.status:
        return wanted.err.decode().splitlines()[0].removeprefix("config ")
    counts = [wanted.out.count(b"[[%s]]" % table) for table in (b"link", b"route", b"tunnel", b"bypass")]
    return " ".join(["good", *map(str, counts)])


def config_jobs(room):
    """The configurations, the built-in one first."""
    files = [[], *([file] for file in config_files(room))]
    cases = [plain_case(room, "config", *file, judge=judge_config) for file in files]
    want("configurations", section(room, "configurations"), [config_text(case.wanted) for case in cases])
    return jobs_of(room, *cases)


# Others.

FIRST_MESSAGE = "1005b988ff000030001001070a000004000000010a000001000c03010a00000100000001000c0b070a00000100000001"
CAPTURES = ["examples/first-path.pcap", "examples/first-path.pcapng"]
# What is told of a capture of which a part found no memory.
CUT_SHORT = re.compile(rb"damaged\n  .*, byte [0-9]+: there is no memory .*\n")


def without_memory(number, paragraph):
    """What `lsr decode` prints of a packet or of line NUMBER that there was no memory to read."""
    head, newline, _ = paragraph.partition(b"\n")
    return head + newline + REFUSAL.rstrip() if head.startswith(b"packet") else b"line %d: " % number + REFUSAL.rstrip()


def judge_decode(wanted, one):
    """Of `lsr decode`, which refuses one message for want of memory and goes on, or says where it stopped in a capture."""
    if one.status == 1 and CUT_SHORT.fullmatch(one.err) and wanted.out.startswith(one.out.rpartition(b"messages ")[0]):
        return ENDED
    parts = wanted.out.split(b"\n\n")
    refused = [
        b"\n\n".join([*parts[:place], without_memory(place + 1, part), *parts[place + 1 :]]) for place, part in enumerate(parts[:-1])
    ]
    is_refused = (one.err == wanted.err and one.out in refused) or (one.err == REFUSAL and not one.out)
    return REFUSED if one.status == 1 and is_refused else judge_plain(wanted, one)


def decode_jobs(room):
    """`lsr decode` of a message, of lines, and of captures."""
    lines = write_lines(room, [FIRST_MESSAGE, "00", "xyz", FIRST_MESSAGE])
    asks = [([FIRST_MESSAGE], os.devnull), (["00"], os.devnull), (["-"], lines), *(([f"./{name}"], os.devnull) for name in CAPTURES)]
    return jobs_of(
        room,
        *(
            plain_case(room, "decode", *words, *more, given=given, judge=judge_decode)
            for words, given in asks
            for more in ([], ["--fields"])
        ),
    )


def explain_jobs(room):
    """`lsr explain` of a refusal, of an error, of all, and of what there isn't."""
    return jobs_of(room, *(plain_case(room, "explain", word) for word in ("24", "24/5", "list", "UnknwonLink")))


# Reads and writes.

# What a run tells of a stream that fails.
BROKEN = (b"unreadable\n", b"unwritable\n", b"damaged\n")


def judge_failing(wanted, one):
    """Of a run of which a read or a write fails: what it printed is a beginning, and all where it says that all is well."""
    if is_same(wanted, one):
        return SAME
    is_told = one.status == 1 and (one.err.startswith(BROKEN) or not one.err)
    return ENDED if is_told and wanted.out.startswith(one.out) else None


def judge_moving(wanted, one):
    """Of a run whose reads and writes all succeed in the end."""
    return SAME if is_same(wanted, one) else None


def stream_jobs(room):
    """Runs that read and write, with each of these failing, moving one byte, or interrupted."""
    journal = new_name(room)
    ask_lsr(room, "step", "--journal", journal, given="repair-row16.step", *config_words(room, "repair-row16"))
    asks = [
        (["step"], "reserve.step"),
        (["step", "--live"], "reserve.step"),
        (["step", "--config", "repair-row16.toml"], "repair-row16.step"),
        (["decode", FIRST_MESSAGE], os.devnull),
        (["decode", "./examples/first-path.pcap"], os.devnull),
        (["config"], os.devnull),
        (["config", "growth-middle.toml"], os.devnull),
        (["check", journal], os.devnull),
        (["show-journal", journal], os.devnull),
        (["play", "growth-pair.moves"], os.devnull),
    ]
    kinds = [(FAILS, judge_failing), (SHORT, judge_moving), (INTERRUPTED, judge_moving)]
    return jobs_of(
        room,
        *(plain_case(room, *words, given=given, kind=kind, judge=judge) for words, given in asks for kind, judge in kinds),
    )


# The program of what no line of `lsr` reaches.


def judge_case(wanted, one):
    """Of a run of the small program: the error stream has its marks alone, as many as calls are made."""
    return SAME if (one.status, one.out) == (wanted.status, wanted.out) else None


def case_jobs(room):
    """Its parts: what a refused call had to leave is compared there, and the call made again, so all prints the same."""
    asks = [Ask((room.cases, "growths", part)) for part in ("workers", "worlds", "copies")]
    cases = [Case(f"growths {ask.words[-1]}", ask, MEMORY, run(room, ask), None) for ask in asks]
    cases = [case._replace(judge=functools.partial(judge_case, case.wanted)) for case in cases]
    return [*jobs_of(room, *cases), functools.partial(run_without, room)]


def run_without(room):
    """Has the program no memory between the calls that take none, which it marks on standard error."""
    ask = Ask((room.cases, "growths"))
    wanted = run(room, ask)
    process, reports = start(room, ask, "", {"MARKS": "1"}, stdout=subprocess.PIPE)
    with reports, process:
        out = process.stdout.read()
        marks = int(reports.readline().split()[-1])
    is_wanted = (process.returncode, out) == (wanted.status, wanted.out) and wanted.status == 0 and marks
    if not is_wanted:
        print(f"no memory for calls that take none: status {process.returncode}, {marks} marks, printed {shown(out)}", flush=True)
    return Counter([SAME if is_wanted else DIFFERS])


# The parts.


def preparations(room, part):
    """The functions that prepare the cases of a part: each gives the functions that make runs."""
    steps, worlds = read_lines(room, "growths.txt"), read_lines(room, "growth-worlds.txt")
    of_names = {
        "steps": [(step_jobs, steps)],
        "worlds": [(world_jobs, worlds)],
        "journals": [(recorded_jobs, steps), (read_jobs, READ)],
        **{name: [(step_jobs, [name])] for name in steps},
        **{name: [(world_jobs, [name])] for name in worlds},
    }
    of_rooms = {
        "configurations": [config_jobs],
        "others": [decode_jobs, explain_jobs],
        "serve": [serve_jobs],
        "streams": [stream_jobs],
        "cases": [case_jobs],
    }
    named = [functools.partial(make, room, name) for make, names in of_names.get(part, []) for name in names]
    return named + [functools.partial(make, room) for make in of_rooms.get(part, [])]


def make_jobs(preparation):
    """The functions that make a case's runs; where its run with all memory differs, one that says so."""
    try:
        return preparation()
    except Differing as differing:
        print(differing, flush=True)
        return [lambda: Counter([DIFFERS])]


def run_part(room, pool, part):
    """Makes the runs of a part, and tells what came of them: how many were as wanted, and how many differ."""
    began = time.monotonic()
    jobs = [job for made in pool.map(make_jobs, preparations(room, part)) for job in made]
    told = sum(pool.map(lambda job: job(), jobs), Counter())
    differing = told.pop(DIFFERS, 0)
    if not jobs:
        sys.exit(f"no part {part}: --help says which there are")
    words = ", ".join(f"{count} {word}" for word, count in sorted(told.items()))
    print(f"{part}: {told.total()} refused ({words}), {differing} differ, {time.monotonic() - began:.0f} s", flush=True)
    return Counter(passed=told.total(), failed=differing)


def read_words():
    """The words of the command line."""
    parser = argparse.ArgumentParser(description=__doc__, formatter_class=argparse.RawDescriptionHelpFormatter)
    parser.add_argument("parts", nargs="*", metavar="PART")
    parser.add_argument("--lsr", default=os.environ.get("LSR"), help="the proved program, else the one that ./lsr --prove builds")
    parser.add_argument("--cases", default=os.environ.get("LSR_CASES"), help="the program `lsr_cases`")
    parser.add_argument("--every", type=int, default=1, help="refuses each EVERYth call alone")
    return parser.parse_args()


def make_room(folder, words):
    """The room: the files of the cases, and the library."""
    for name in FOLDERS:
        shutil.copytree(name, folder, dirs_exist_ok=True)
    shutil.copytree(TOP / "examples", folder / "examples", dirs_exist_ok=True)
    library = folder / "refuse.so"
    subprocess.run(["cc", "-shared", "-fPIC", "-O2", "-o", library, SOURCE], check=True)
    lsr = words.lsr or (PROVED if PROVED.exists() else LAUNCHER)
    cases = words.cases and str(pathlib.Path(words.cases).resolve())
    return Room(str(pathlib.Path(lsr).resolve()), cases, folder, library, words.every)


def is_refusable(room):
    """Whether the program's requests for memory come to the library. A program that isn't proved has an allocator of its own."""
    process, reports = start(room, Ask((room.lsr, "config")), "", {"REFUSED": MEMORY, "ONLY": "-1"})
    with reports, process:
        ends = reports.read().split()
    return len(ends) > 1 and int(ends[1]) > 0


def main():
    """Runs the parts, and tells how many refused calls there were."""
    words = read_words()
    told = Counter()
    with tempfile.TemporaryDirectory() as folder, concurrent.futures.ThreadPoolExecutor(AT_ONCE) as pool:
        room = make_room(pathlib.Path(folder), words)
        if not is_refusable(room):
            sys.exit(f"{room.lsr} has an allocator of its own, as a program that isn't proved: ./lsr --prove builds the proved one")
        for part in words.parts or PARTS + ["cases"] * bool(words.cases):
            told += run_part(room, pool, part)
    print(f"{told['passed']} passed, {told['failed']} failed")
    return 1 if told["failed"] else 0


if __name__ == "__main__":
    sys.exit(main())
