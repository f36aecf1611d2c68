"""What the scripts of this folder share: the program `lsr`, asked from outside, and cases that are counted.

A case is a name and a function without arguments that gives what differs, as text: none where all is as wanted. A script
makes its cases, and ends with `sys.exit(asked.count(cases))`.
"""

import argparse
import concurrent.futures
import contextlib
import difflib
import functools
import os
import pathlib
import subprocess
import traceback
from typing import NamedTuple

TOP = pathlib.Path(__file__).resolve().parent.parent
DATA = TOP / "tests" / "data"
PROVED = TOP / "crates" / "lsr" / "out" / "lsr"
# It builds the other where there is no proved one.
LAUNCHER = TOP / "lsr"
UNPROVED = TOP / "out" / "lsr"
# What the program is called as it runs, whatever its file's name is: its help says it.
NAME = "lsr"
# One ask that takes longer hangs. A program that isn't proved checks itself as it runs, and is slow.
MOST_SECONDS = 600
# So many lines are shown of what differs in one stream.
SHOWN_LINES = 30


class Answer(NamedTuple):
    """How the program ended: its status, and what it wrote to standard output and to standard error."""

    status: int
    out: bytes = b""
    err: bytes = b""


@functools.cache
def program():
    """The path of the program: the word behind `--lsr`, else the environment's LSR, else the proved one, else ./lsr's."""
    parser = argparse.ArgumentParser(add_help=False)
    parser.add_argument("--lsr", default=os.environ.get("LSR"))
    named = parser.parse_known_args()[0].lsr
    if named:
        return str(pathlib.Path(named).resolve())
    if PROVED.exists():
        return str(PROVED)
    subprocess.run([LAUNCHER, "--help"], stdout=subprocess.DEVNULL, check=True)
    return str(UNPROVED)


def ask(*words, given=b"", **more):
    """Runs the program on the words, with these bytes as its standard input. `more` is for `subprocess.run`."""
    options = {"stdout": subprocess.PIPE, "stderr": subprocess.PIPE, "timeout": MOST_SECONDS, "check": False} | more
    if "stdin" not in more:
        options["input"] = given
    ran = subprocess.run([NAME, *words], executable=program(), **options)
    return Answer(ran.returncode, ran.stdout or b"", ran.stderr or b"")


@contextlib.contextmanager
def started(*words, **more):
    """The program as it runs on the words; it doesn't outlive an error. `more` is for `subprocess.Popen`."""
    with subprocess.Popen([NAME, *words], executable=program(), **more) as child:
        try:
            yield child
        except BaseException:
            child.kill()
            raise


def stream_differs(name, wanted, came):
    """The lines that are wanted (-) of the stream and that came (+), no text where it is as wanted."""
    if wanted == came:
        return ""
    rows = [text.decode(errors="backslashreplace").split("\n") for text in (wanted, came)]
    lines = list(difflib.unified_diff(*rows, f"{name}, wanted", f"{name}, came", n=1, lineterm=""))
    cut = ["..."] if len(lines) > SHOWN_LINES else []
    return "\n".join(lines[:SHOWN_LINES] + cut) + "\n"


def differs(wanted, came):
    """What differs in two answers."""
    text = "" if wanted.status == came.status else f"status {wanted.status} wanted, {came.status} came\n"
    return text + stream_differs("output", wanted.out, came.out) + stream_differs("error", wanted.err, came.err)


def begins(wanted, came):
    """What differs in two answers where only the beginning of what is told on the error stream is wanted."""
    return differs(wanted, came._replace(err=came.err[: len(wanted.err)]))


def run_case(case):
    """What differs in the case. One that can't be run differs, too."""
    try:
        return case()
    except Exception:  # whatever it is: the other cases are still run
        return traceback.format_exc()


def count(cases, at_once=os.cpu_count()):
    """Runs the cases, so many at once, prints what differs in each, and gives the status that the script ends with."""
    names, functions = zip(*cases)
    failed = 0
    with concurrent.futures.ThreadPoolExecutor(at_once) as pool:
        for name, text in zip(names, pool.map(run_case, functions)):
            if text:
                failed += 1
                print(f"{name}\n  " + text.rstrip("\n").replace("\n", "\n  "), flush=True)
    print(f"{len(names) - failed} passed, {failed} failed")
    return 1 if failed else 0
