#!/usr/bin/env python3
"""Inputs and outputs of `lsr` that fail, break or are too long, which no file can be."""

import contextlib
import os
import pathlib
import resource
import signal
import socket
import struct
import subprocess
import sys
import tempfile
import time
from functools import partial

import asked
import routers
from asked import Answer, ask, begins, differs, started

# The most bytes of an input, and of a line that is answered as it comes.
MOST_INPUT = 16_777_216
# Lines of which the last is none, what is printed for those before it, and what is told of it first.
LINES = b"restart\nstart\nno line\n"
ANSWERS = b"done\ndone\n"
TOLD_BAD_LINE = b"bad line 3\n  no line\n  expected "
# How many bytes of a text are UTF-8 that isn't all UTF-8, more than one read brings; and a byte that no UTF-8 has.
TEXT_LENGTH = 70_000
NO_TEXT = b"\xff"
# Lines that are answered with more bytes than are written at once, and how many bytes each write has.
MANY_LINES = 5_000 * b"rx 1 00\n"
MANY_ANSWERS = 5_000 * b"refused 1 Short\n"
WRITES = [65_536, len(MANY_ANSWERS) - 65_536]
# What is told of an input that is a folder, and of one that breaks: of a text, and of lines to decode.
TOLD_FOLDER = b"unreadable\n  standard input is a folder: give a file\n"
TOLD_BROKEN = b"unreadable\n  standard input can't be read to its end: look at where it comes from\n"
TOLD_BROKEN_LINES = (
    b"unreadable\n  standard input broke, or its next line has more than 16777216 bytes: look at where it comes from\n"
)
STEP = ("step",)
LIVE = ("step", "--live")
# The words of the runs that read their input, and what they tell of one that breaks.
READERS = ((STEP, TOLD_BROKEN), (LIVE, TOLD_BROKEN), (("decode", "-"), TOLD_BROKEN_LINES))
TOLD_UNWRITABLE = b"unwritable\n  the output or the error stream can't be written: look at where they go\n"
# The router that is served, at whose console lines come; and lines of which each is answered, before the run ends.
SERVED = (asked.DATA / "served" / "one-link.toml").read_text(encoding="utf-8")
CONSOLE_LINES = b"restart\nstart\n"
TOLD_UNREAD_WORDS = b"error: a word isn't UTF-8; see lsr --help\n"
# The states of a process that waits, and of one that has ended.
WAITS, ENDED = "S", "Z"


def broken_input(lines):
    """A socket that gives the lines, and then the error of a connection that was reset."""
    given, other = socket.socketpair()
    other.sendall(lines)
    given.sendall(b"not read, so that the end of the other resets the connection")
    other.close()
    return given


def from_folder(words):
    """The input is a folder."""
    folder = os.open(asked.DATA, os.O_RDONLY)
    try:
        return differs(Answer(1, b"", TOLD_FOLDER), ask(*words, stdin=folder))
    finally:
        os.close(folder)


def from_broken(words, lines, wanted):
    """The input gives the lines, and then nothing but an error."""
    with broken_input(lines) as given:
        return begins(wanted, ask(*words, stdin=given))


def from_long(words, given, told):
    """The input is long, nothing is printed, and this is told first."""
    return begins(Answer(1, b"", told), ask(*words, given=given))


def wait_for(child, states):
    """Waits until the process is in one of the states, and gives it."""
    for _ in range(100 * asked.MOST_SECONDS):
        # Behind the name, in parentheses, comes the state.
        state = pathlib.Path(f"/proc/{child.pid}/stat").read_text().rpartition(") ")[2][0]
        if state in states:
            return state
        time.sleep(0.01)
    raise TimeoutError(f"the program isn't in a state of {states}")


def interrupt(child):
    """Interrupts the read that the program waits in. Gives whether it reads again."""
    if wait_for(child, WAITS + ENDED) == ENDED:
        return False
    child.send_signal(signal.SIGSTOP)
    os.waitpid(child.pid, os.WUNTRACED)
    child.send_signal(signal.SIGCONT)
    return wait_for(child, WAITS + ENDED) == WAITS


def from_interrupted(words):
    """Each byte of the input comes behind a read that was interrupted."""
    given, other = socket.socketpair()
    # A process that is stopped and goes on has its read interrupted where the socket has a time limit (signal(7)).
    given.setsockopt(socket.SOL_SOCKET, socket.SO_RCVTIMEO, struct.pack("ll", asked.MOST_SECONDS, 0))
    with started(*words, stdin=given, stdout=subprocess.PIPE, stderr=subprocess.PIPE) as child, other:
        given.close()
        for place in range(len(LINES)):
            if not interrupt(child):
                break
            other.send(LINES[place : place + 1])
        other.close()
        out, err = child.communicate(timeout=asked.MOST_SECONDS)
    return begins(Answer(1, ANSWERS, TOLD_BAD_LINE), Answer(child.returncode, out, err))


def to_file(words, given, most):
    """The run's answer where its output is a file that takes no more than so many bytes."""
    with tempfile.TemporaryFile() as out:
        # The program writes nothing before its input has come. A write above the limit fails: Python ignores the signal of that,
        # and so does the program that it starts.
        pipes = {"stdin": subprocess.PIPE, "stderr": subprocess.PIPE, "restore_signals": False}
        with started(*words, stdout=out, **pipes) as child:
            resource.prlimit(child.pid, resource.RLIMIT_FSIZE, (most, most))
            err = child.communicate(given, timeout=asked.MOST_SECONDS)[1]
        out.seek(0)
        return Answer(child.returncode, out.read(), err)


def to_failing(words, given, answers, most):
    """The output takes so many bytes of the answers, and then fails."""
    return differs(Answer(1, answers[:most], TOLD_UNWRITABLE), to_file(words, given, most))


def to_large_enough(words):
    """The output would fail behind the answers."""
    return begins(Answer(1, ANSWERS, TOLD_BAD_LINE), to_file(words, LINES, len(ANSWERS)))


def to_closed_pipe(words):
    """Nobody reads the output."""
    ours, theirs = os.pipe()
    os.close(ours)
    try:
        return differs(Answer(1), ask(*words, given=LINES, stdout=theirs))
    finally:
        os.close(theirs)


def error_to_full():
    """The error stream can't be written: there's nowhere to tell it, and the status says it."""
    with open("/dev/full", "wb") as full:
        return differs(Answer(1, ANSWERS), ask(*STEP, given=LINES, stderr=full))


def many_at_once():
    """The answers to many lines are written in blocks: each write is a packet of this socket."""
    ours, theirs = socket.socketpair(socket.AF_UNIX, socket.SOCK_SEQPACKET)
    ours.settimeout(asked.MOST_SECONDS)
    with started(*STEP, stdin=subprocess.PIPE, stdout=theirs) as child, ours:
        theirs.close()
        child.stdin.write(MANY_LINES)
        child.stdin.close()
        writes = []
        while packet := ours.recv(MOST_INPUT):
            writes.append(packet)
    lengths = [len(packet) for packet in writes]
    text = "" if lengths == WRITES else f"writes of {WRITES} bytes wanted, of {lengths} came\n"
    return text + differs(Answer(0, MANY_ANSWERS), Answer(child.returncode, b"".join(writes)))


def as_they_come():
    """Lines are answered as they come: each answer is there before the next line is."""
    ours, theirs = socket.socketpair()
    ours.settimeout(asked.MOST_SECONDS)
    with started(*LIVE, stdin=theirs, stdout=theirs) as child, ours:
        theirs.close()
        answers = b""
        for line in LINES.splitlines()[:2]:
            ours.send(line + b"\n")
            answers += ours.recv(len(ANSWERS))
    return differs(Answer(0, ANSWERS), Answer(child.returncode, answers))


def input_cases():
    """The cases of inputs."""
    for number, (words, told) in enumerate(READERS):
        yield f"a folder as input {number}", partial(from_folder, words)
        yield f"a broken input {number}", partial(from_broken, words, b"", Answer(1, b"", told))
    yield "an input that breaks", partial(from_broken, STEP, LINES, Answer(1, b"", TOLD_BROKEN))
    yield "a live input that breaks", partial(from_broken, LIVE, LINES, Answer(1, ANSWERS, TOLD_BAD_LINE))
    yield "the longest input", partial(from_long, STEP, MOST_INPUT * b"\n", b"bad line 1\n")
    yield "a longer input", partial(from_long, STEP, (MOST_INPUT + 1) * b"\n", b"unreadable\n")
    yield "the longest line", partial(from_long, LIVE, MOST_INPUT * b"x", b"bad line 1\n")
    yield "a longer line", partial(from_long, LIVE, (MOST_INPUT + 1) * b"x", b"unreadable\n")
    told = b"unreadable\n  standard input is no text: invalid UTF-8 at byte 70000, "
    yield "a long text that isn't one", partial(from_long, STEP, TEXT_LENGTH * b"\n" + NO_TEXT, told)
    told = b"unreadable\n  standard input, line 1, is no text: invalid UTF-8 at the line's byte 70000, "
    yield "a long line that isn't one", partial(from_long, LIVE, TEXT_LENGTH * b"#" + NO_TEXT, told)
    yield "an interrupted input", partial(from_interrupted, STEP)
    yield "an interrupted live input", partial(from_interrupted, LIVE)


def output_cases():
    """The cases of outputs."""
    for words in (STEP, LIVE):
        name = " ".join(words)
        for most in range(len(ANSWERS)):
            yield f"{name}: an output that fails behind {most} bytes", partial(to_failing, words, LINES, ANSWERS, most)
        yield f"{name}: an output that takes all", partial(to_large_enough, words)
        yield f"{name}: an output that nobody reads", partial(to_closed_pipe, words)
    yield "an error stream that is full", error_to_full
    yield "many answers at once", many_at_once
    most = len(MANY_ANSWERS) - 1
    yield "many answers but for a byte", partial(to_failing, STEP, MANY_LINES, MANY_ANSWERS, most)
    yield "answers as the lines come", as_they_come


# A router that is served, with a console.


@contextlib.contextmanager
def console():
    """The words of a router that is served, with a console and without a log."""
    with routers.file_of(routers.at_addresses(SERVED, routers.free_addresses(2))) as file:
        yield "serve", str(file), "--console", "--log", "off"


def at_console(wanted, **more):
    """What differs at a console, of whose output and of what is told only the beginning is wanted."""
    with console() as words:
        came = ask(*words, **more)
    return begins(wanted, came._replace(out=came.out[: len(wanted.out)]))


def console_breaks():
    """The input of a console breaks: the lines before are answered, and the status is 1."""
    with broken_input(LINES) as given:
        return at_console(Answer(1, ANSWERS + b"bad line 3\n  no line\n", TOLD_BROKEN), stdin=given)


def console_fails(most):
    """The output takes so many bytes of a console's answers, or all, and then fails: the status is 1."""
    with console() as words:
        return to_failing(words, CONSOLE_LINES, ANSWERS, most)


def console_closed():
    """Nobody reads a console's output: the router goes on to its end, and the status is 1."""
    with console() as words:
        return to_closed_pipe(words)


def console_cases():
    """The cases of consoles."""
    yield "a console whose input breaks", console_breaks
    yield "the longest line of a console", partial(at_console, Answer(0, b"bad line 1\n"), given=MOST_INPUT * b"x")
    told = Answer(1, b"reconciled ", b"unreadable\n")
    yield "a longer line of a console", partial(at_console, told, given=(MOST_INPUT + 1) * b"x")
    for most in range(len(ANSWERS) + 1):
        yield f"a console whose output fails behind {most} bytes", partial(console_fails, most)
    yield "a console that nobody reads", console_closed


def unread_words():
    """A word that isn't UTF-8."""
    return differs(Answer(2, b"", TOLD_UNREAD_WORDS), ask(NO_TEXT))


def main():
    """Runs all cases."""
    return asked.count([*input_cases(), *output_cases(), *console_cases(), ("words that can't be read", unread_words)])


if __name__ == "__main__":
    sys.exit(main())
