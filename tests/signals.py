#!/usr/bin/env python3
"""The script `lsr` between an operator and the program: what a signal ends, what a build tells, and what is left running.

Each case has a folder with a copy of the script. Where it serves, the program stands there as the one that was proved; where it builds,
`data/signals/rt` stands in for the toolchain. Each case is run by `dash` and by `bash`, as far as they are there.
"""

import contextlib
import os
import pathlib
import pty
import re
import select
import shutil
import signal
import subprocess
import sys
import tempfile
import time
import uuid
from functools import partial

import asked
import routers
from routers import MOST_SECONDS, PAUSE

SHELLS = [shell for shell in ("dash", "bash") if shutil.which(shell)]
STANDIN = asked.DATA / "signals" / "rt"
# The commands that the script needs. Neither `flock` nor `setsid` is among them, which it does without.
COMMANDS = "awk cat chmod cp cut dirname find grep head ln mkdir mkfifo mktemp mv readlink rm sh sleep tail timeout touch".split()
# The variable of the environment by whose value a case finds what it started, whoever is its parent now.
MARK = "LSR_SIGNALS_CASE"
# A read of a terminal takes so many bytes at most.
READ_BYTES = 65_536
# What a terminal sends for Ctrl-C, and for Ctrl-D.
CTRL_C, CTRL_D = b"\x03", b"\x04"
# The words of a router with a console; a line that is asked there, and the beginning of its answer, by which it is known to serve.
SERVE = ("serve", "router.toml", "--console", "--journal", "night")
ASK, ANSWER = b"show links\n", b"link 1 up"
# How long a router served until a signal comes, in seconds. How many lines are typed before one: more than a piece of the journal has.
MOMENTS = [0, 0.5, 2]
MANY_LINES = 4_200
# The signals that end a run whole, and those that end a build.
ENDS = {"TERM": signal.SIGTERM, "HUP": signal.SIGHUP, "INT": signal.SIGINT}
KILLS = ENDS | {"KILL": signal.SIGKILL}
# How long a build of the stand-in takes that is to be over, one that tells once that it goes on, and one that is to be ended, in seconds.
SHORT_BUILD, TOLD_BUILD, LONG_BUILD = 2, 13, 600
# What is told of a build, by one that waits for another one, and where Ctrl-C is pressed twice.
BUILDING = b"building the program"
STILL_BUILDING = b"still building, 10 s"
WAITS = b"another ./lsr is building here"
STILL_WRITING = b"still writing; press again to kill"
# A program whose run ends long after its input.
SLOW_PROGRAM = f"#!/bin/sh\necho link 1 up\ncat > /dev/null\nsleep {LONG_BUILD}\n"
# A line for `lsr step`, and its answer.
STEP, REFUSED = b"rx 1 00\n", b"refused 1 Short\n"


class Folder:
    """A folder with the script, and what a case starts there."""

    def __init__(self, path, shell):
        """Copies the script."""
        self.path = pathlib.Path(path)
        self.shell = shutil.which(shell)
        self.mark = uuid.uuid4().hex
        self.environment = {**os.environ, MARK: self.mark}
        self.inputs = contextlib.ExitStack()
        sources = self.path / "crates" / "lsr" / "src"
        sources.mkdir(parents=True)
        (sources / "main.rt").write_text("", encoding="utf-8")
        (self.path / "crates.txt").write_text("lsr:\n", encoding="utf-8")
        shutil.copy(asked.LAUNCHER, self.path / "lsr")

    def with_program(self, program):
        """Has the script find a program, as the one that was proved."""
        proved = self.path / "crates" / "lsr" / "out" / "lsr"
        proved.parent.mkdir()
        proved.symlink_to(program)
        return self

    def with_standin(self, seconds):
        """Has the stand-in build the program, in so many seconds."""
        (self.path / "bin").mkdir()
        shutil.copy(STANDIN, self.path / "bin" / "rt")
        self.environment |= {
            "PATH": f"{self.path / 'bin'}:{os.environ['PATH']}",
            "STANDIN_PROGRAM": asked.program(),
            "STANDIN_SECONDS": str(seconds),
            "STANDIN_BUILDS": str(self.path / "builds"),
        }
        return self

    def without_tools(self):
        """Has the script find neither `flock` nor `setsid`; the stand-in finds all."""
        few = self.path / "few"
        few.mkdir()
        for name in COMMANDS:
            (few / name).symlink_to(shutil.which(name))
        standin = few / "rt"
        standin.write_text(f'#!/bin/sh\nPATH="{self.environment["PATH"]}" exec rt "$@"\n', encoding="utf-8")
        standin.chmod(0o755)
        self.environment["PATH"] = str(few)
        return self

    def wait_build(self):
        """Waits until a build began."""
        routers.wait_until((self.path / "builds").exists, "nothing is built")

    def marked(self):
        """The places in /proc of all that was started in this case and still runs."""
        for place in pathlib.Path("/proc").glob("[0-9]*"):
            with contextlib.suppress(OSError):
                if f"{MARK}={self.mark}".encode() in (place / "environ").read_bytes():
                    yield place

    def left(self):
        """What is left once the script ended: processes that still run, and folders for what is made on the way."""
        deadline = time.monotonic() + MOST_SECONDS
        while (places := list(self.marked())) and time.monotonic() < deadline:
            time.sleep(PAUSE)
        rooms = [room.name for room in self.path.glob("out/room.*")]
        return "".join(f"left: {it}\n" for it in [*places, *rooms])

    def close(self):
        """Kills what a case that failed may have left."""
        self.inputs.close()
        for place in self.marked():
            with contextlib.suppress(OSError):
                os.kill(int(place.name), signal.SIGKILL)


@contextlib.contextmanager
def folder_of(shell):
    """A folder for a case; nothing outlives it."""
    with tempfile.TemporaryDirectory() as path, contextlib.closing(Folder(path, shell)) as folder:
        yield folder


@contextlib.contextmanager
def router_folder(shell):
    """A folder with the program, and the configuration of a router with two links."""
    with folder_of(shell) as folder:
        text = (asked.TOP / "examples" / "console-head.toml").read_text(encoding="utf-8")
        config = folder.path / "router.toml"
        config.write_text(routers.at_addresses(text, routers.free_addresses(4)), encoding="utf-8")
        yield folder.with_program(asked.program())


class Run:
    """The script on words, in a session of its own, with an input that stays open."""

    def __init__(self, folder, *words, given=None):
        """Starts it; its input is a pipe, or this file."""
        theirs, self.lines = (os.open(given, os.O_RDONLY), None) if given else os.pipe()
        if self.lines is not None:
            folder.inputs.callback(self.close_input)
        # No bytes are kept back, so what is read by lines isn't lost to what reads the rest.
        self.process = subprocess.Popen(
            [folder.shell, "lsr", *words],
            cwd=folder.path,
            env=folder.environment,
            stdin=theirs,
            stdout=subprocess.PIPE,
            stderr=subprocess.STDOUT,
            start_new_session=True,
            bufsize=0,
        )
        os.close(theirs)
        self.said = b""

    def type(self, text):
        """Types at the console."""
        os.write(self.lines, text)

    def wait_said(self, text):
        """Waits until this was said."""
        while text not in self.said:
            is_there = select.select([self.process.stdout], [], [], MOST_SECONDS)[0]
            line = self.process.stdout.readline() if is_there else b""
            if not line:
                raise EOFError(f"{text!r} doesn't come: {self.said!r}")
            self.said += line
        return self

    def close_input(self):
        """Ends the input."""
        if self.lines is not None:
            os.close(self.lines)
            self.lines = None

    def end(self):
        """Waits until all have ended that had the output: the status."""
        self.said += self.process.communicate(timeout=MOST_SECONDS)[0]
        return self.process.returncode


class Terminal:
    """The script at a terminal, whose session it leads."""

    def __init__(self, folder, *words):
        """Starts it. The first process of a session has the terminal that it opens."""
        self.ours, self.theirs = pty.openpty()
        opened = ["sh", "-c", 'exec "$@" < "$0" > "$0" 2>&1', os.ttyname(self.theirs), folder.shell, "lsr", *words]
        options = {"cwd": folder.path, "env": folder.environment, "stdin": subprocess.DEVNULL}
        self.process = subprocess.Popen(opened, start_new_session=True, **options)
        folder.inputs.callback(self.close_window)
        self.said = b""

    def type(self, keys):
        """Presses these keys."""
        os.write(self.ours, keys)

    def read(self):
        """Reads what came, if something comes soon. Gives whether all have ended that had the terminal."""
        if not select.select([self.ours], [], [], PAUSE)[0]:
            return False
        try:
            more = os.read(self.ours, READ_BYTES)
        except OSError:
            more = b""
        self.said += more.replace(b"\r", b"")
        return not more

    def read_until(self, holds):
        """Reads until it holds, or all have ended."""
        deadline = time.monotonic() + MOST_SECONDS
        while not holds() and not self.read():
            if time.monotonic() > deadline:
                raise TimeoutError(f"the terminal still waits: {self.said!r}")

    def wait_said(self, text):
        """Waits until this was said; then the script has the terminal open."""
        self.read_until(lambda: text in self.said)
        if self.theirs is not None:
            os.close(self.theirs)
            self.theirs = None
        return self

    def end(self):
        """Waits until all have ended that had the terminal: the status."""
        self.read_until(lambda: False)
        return self.process.wait(MOST_SECONDS)

    def close_window(self):
        """Closes the window."""
        for end in (self.ours, self.theirs):
            if end is not None:
                os.close(end)
        self.ours = self.theirs = None


def journal_differs(folder, said=None):
    """What is wrong with a journal: its files are one run, of as many entries as were reconciled, if that was said."""
    files = sorted(folder.path.glob("night.*"), key=lambda file: file.suffix)
    if not files or any(file.suffix == ".part" for file in files):
        return f"files: {[file.name for file in files]}\n"
    checks = asked.ask("check", *[file.name for file in files], cwd=folder.path)
    counts = [int(it) for it in re.findall(rb"^run of (\d+) entries$", checks.out, re.MULTILINE)]
    text = "" if checks.status == 0 and len(counts) == len(files) else f"lsr check: {checks}\n"
    if said is not None and [b"%d" % sum(counts)] != re.findall(rb"^reconciled (\d+) entries", said, re.MULTILINE):
        text += f"{sum(counts)} entries are in the files; said: {said!r}\n"
    return text


def answers(run):
    """Waits until a router serves: it answers its console."""
    run.type(ASK)
    return run.wait_said(ANSWER)


def ended_differs(folder, run):
    """What is wrong with a run that ended: its status is 0, its journal whole, and nothing is left of it."""
    status = run.end()
    text = "" if status == 0 else f"status {status}, said: {run.said!r}\n"
    return text + journal_differs(folder, run.said) + folder.left()


# A signal ends a run.


def ctrl_c(shell, seconds):
    """Ctrl-C at a terminal ends a run as `quit` does."""
    with router_folder(shell) as folder:
        terminal = answers(Terminal(folder, *SERVE))
        terminal.type(b"down 2\n")
        time.sleep(seconds)
        terminal.type(CTRL_C)
        return ended_differs(folder, terminal)


def signalled(shell, number, seconds):
    """So does a signal for the script alone, though its input stays open."""
    with router_folder(shell) as folder:
        run = answers(Run(folder, *SERVE))
        time.sleep(seconds)
        run.process.send_signal(number)
        return ended_differs(folder, run)


def all_signalled(shell, number):
    """So does one for all processes of the run, that comes twice, as who manages services sends it."""
    with router_folder(shell) as folder:
        run = answers(Run(folder, *SERVE))
        os.killpg(run.process.pid, number)
        # The second Ctrl-C warns, and only the third one kills.
        os.killpg(run.process.pid, number)
        return ended_differs(folder, run)


def many_lines(shell, number):
    """So does one that comes while lines are answered, more than a piece of the journal has."""
    with router_folder(shell) as folder:
        run = Run(folder, *SERVE)
        run.type(b"start\n" * MANY_LINES)
        routers.wait_until((folder.path / "night.1").exists, "night.1 isn't written")
        run.process.send_signal(number)
        return ended_differs(folder, run)


def closed_window(shell):
    """The window is closed: the journal is whole. Nobody can be told, so the status says that the output failed."""
    with router_folder(shell) as folder:
        terminal = answers(Terminal(folder, *SERVE))
        terminal.close_window()
        terminal.process.wait(MOST_SECONDS)
        return folder.left() + journal_differs(folder)


def killed_script(shell):
    """The script is killed: the program's input ends, and it ends by itself."""
    with router_folder(shell) as folder:
        run = answers(Run(folder, *SERVE))
        run.process.kill()
        run.end()
        return journal_differs(folder, run.said) + folder.left()


def pressed_again(shell):
    """Ctrl-C that is pressed again tells that the router still writes; pressed once more it kills."""
    with folder_of(shell) as folder:
        program = folder.path / "slow"
        program.write_text(SLOW_PROGRAM, encoding="utf-8")
        program.chmod(0o755)
        terminal = Terminal(folder.with_program(program), "serve", "any.toml", "--console").wait_said(ANSWER)
        terminal.type(CTRL_C)
        # The script takes both as one where they come at once.
        time.sleep(0.5)
        terminal.type(CTRL_C)
        terminal.wait_said(STILL_WRITING)
        is_running = terminal.process.poll() is None
        terminal.type(CTRL_C)
        status = terminal.process.wait(MOST_SECONDS)
        is_right = is_running and status == 128 + signal.SIGKILL and terminal.said.count(STILL_WRITING) == 1
        return "" if is_right else f"status {status}, said: {terminal.said!r}\n"


# A run that ends by itself.


def ended_by(shell, keys):
    """These keys end a run at once, though the terminal would give more lines."""
    with router_folder(shell) as folder:
        terminal = answers(Terminal(folder, *SERVE))
        terminal.type(keys)
        return ended_differs(folder, terminal)


def whole_input(shell):
    """All lines of a pipe are answered, and the run ends with it."""
    with router_folder(shell) as folder:
        run = Run(folder, *SERVE)
        run.type(500 * ASK)
        run.close_input()
        text = ended_differs(folder, run)
        return text + ("" if run.said.count(ANSWER) == 500 else f"{run.said.count(ANSWER)} answers of 500\n")


def status_passed(shell, words, given, wanted):
    """The status and the words of a run, or of one that doesn't begin, are the program's own."""
    with router_folder(shell) as folder:
        run = Run(folder, *words, given=given)
        came = (run.end(), wanted[1] in run.said)
        return ("" if came == (wanted[0], True) else f"status {came[0]}, said: {run.said!r}\n") + folder.left()


# Builds.


def step_differs(run, *wanted):
    """What is wrong with a run of `lsr step` that builds or waits: it tells these words, and answers its line."""
    run.type(STEP)
    run.close_input()
    status = run.end()
    is_right = status == 0 and run.said.endswith(REFUSED) and all(run.said.count(it) == 1 for it in wanted)
    return "" if is_right else f"status {status}, said: {run.said!r}\n"


def told_build(shell):
    """A build tells after ten seconds that it goes on."""
    with folder_of(shell) as folder:
        return step_differs(Run(folder.with_standin(TOLD_BUILD), "step"), BUILDING, STILL_BUILDING) + folder.left()


def two_builds(folder):
    """The second of two at once waits for the first, tells it, and runs what that built."""
    first = Run(folder, "step")
    folder.wait_build()
    second = Run(folder, "step")
    text = step_differs(second, WAITS) + step_differs(first, BUILDING)
    builds = (folder.path / "builds").read_text(encoding="utf-8").splitlines()
    return text + ("" if builds == ["try"] else f"builds: {builds}\n") + folder.left()


def builds_by_lock(shell):
    """Two builds at once, by a lock."""
    with folder_of(shell) as folder:
        return two_builds(folder.with_standin(SHORT_BUILD))


def builds_by_link(shell):
    """Two builds at once without `flock` and `setsid`, where a script that was killed left its turn."""
    with folder_of(shell) as folder:
        with subprocess.Popen(["true"]) as dead:
            pass
        (folder.path / "out").mkdir()
        (folder.path / "out" / "building.turn").symlink_to(str(dead.pid))
        return two_builds(folder.with_standin(SHORT_BUILD).without_tools())


def builds_anew(folder):
    """What is wrong where a build that was ended is begun again."""
    folder.environment["STANDIN_SECONDS"] = "0"
    return step_differs(Run(folder, "step"), BUILDING)


def ended_build(shell, number, word="step"):
    """A signal ends a build: nothing is left of it, though what it started ignores SIGTERM."""
    with folder_of(shell) as folder:
        run = Run(folder.with_standin(LONG_BUILD), word)
        folder.wait_build()
        run.process.send_signal(number)
        status = run.end()
        text = "" if status in (-number, 128 + number) else f"status {status}\n"
        return text + folder.left() + builds_anew(folder)


def first_killed(shell):
    """The first of two is killed: the second builds."""
    with folder_of(shell) as folder:
        first = Run(folder.with_standin(LONG_BUILD), "step")
        folder.wait_build()
        folder.environment["STANDIN_SECONDS"] = "0"
        second = Run(folder, "step").wait_said(WAITS)
        first.process.kill()
        return step_differs(second, WAITS, BUILDING) + folder.left()


def closed_window_of_build(shell):
    """The window of a build is closed."""
    with folder_of(shell) as folder:
        terminal = Terminal(folder.with_standin(LONG_BUILD), "step").wait_said(BUILDING)
        folder.wait_build()
        terminal.close_window()
        terminal.process.wait(MOST_SECONDS)
        return folder.left() + builds_anew(folder)


def cases_of(shell):
    """The cases of a shell. Those that take longest stand first."""
    statuses = [
        ("no input", SERVE, os.devnull, (0, b"reconciled ")),
        ("a folder as input", SERVE, asked.DATA, (1, b"unreadable")),
        ("no configuration", ("serve", "absent.toml", "--console"), os.devnull, (1, b"unreadable")),
    ]
    cases = [
        ("a build that tells", told_build),
        ("two builds by a lock", builds_by_lock),
        ("two builds by a link", builds_by_link),
        ("the first build killed", first_killed),
        *[(f"a build, {name}", partial(ended_build, number=number)) for name, number in KILLS.items()],
        *[(f"proofs, {name}", partial(ended_build, number=number, word="--prove")) for name, number in KILLS.items()],
        ("a build's window closed", closed_window_of_build),
        *[(f"many lines, {name}", partial(many_lines, number=number)) for name, number in ENDS.items()],
        *[(f"Ctrl-C after {seconds} s", partial(ctrl_c, seconds=seconds)) for seconds in MOMENTS],
        *[
            (f"{name} after {seconds} s", partial(signalled, number=number, seconds=seconds))
            for name, number in ENDS.items()
            for seconds in MOMENTS
        ],
        *[(f"{name} for all", partial(all_signalled, number=number)) for name, number in ENDS.items()],
        ("a window closed", closed_window),
        ("a script killed", killed_script),
        ("pressed again", pressed_again),
        ("quit", partial(ended_by, keys=b"quit\n")),
        ("Ctrl-D", partial(ended_by, keys=CTRL_D)),
        ("a whole input", whole_input),
        *[(name, partial(status_passed, words=words, given=given, wanted=wanted)) for name, words, given, wanted in statuses],
    ]
    return [(f"{shell}: {name}", partial(function, shell)) for name, function in cases]


if __name__ == "__main__":
    sys.exit(asked.count([case for shell in SHELLS for case in cases_of(shell)]))
