"""`lsr serve --console`, where requests for memory are refused. It has threads, so it is run anew for each request."""

import functools
import itertools
import os
import pathlib
import re
import select
import socket
import subprocess
import threading
from collections import Counter

from refused.runs import DIFFERS, ENDED, MEMORY, REFUSAL, REFUSED, SAME, Ask, Run, ask_lsr, new_name, run_text, start, want

CONSOLE = [
    ("tunnel 5 10.0.0.2 47f42400 3 3 04 t5 10.0.0.2/32", "done"),
    ("show tunnels", "tunnel 5 current 1 pending none error none"),
    ("show paths", "path 10.0.0.2/5/10.0.0.1 10.0.0.1/1 head 1 0"),
    ("change 5 48742400 10.0.0.2/32", "done"),
    ("show tunnels", "tunnel 5 current 1 pending 2 error none"),
    ("bypass 1 5 1", "refused 26 BypassOnItsLink"),
    ("cancel 5", "done"),
    ("down 1", "done"),
    ("show links", "link 1 down 1250000 0 0 0 0 0 0 0 0"),
    ("up 1", "done"),
    ("show links", "link 1 up 1250000 0 0 0 0 0 0 0 0"),
    ("route 10.9.0.0/16 1", "done"),
    ("unroute 10.8.0.0/16", "refused 22 BadRoute"),
    ("show labels", "free 16 of 16"),
    ("drop 5", "done"),
    ("restart", "done"),
    ("drop 5", "refused 42 IsCold"),
    ("start", "done"),
    ("drop 5", "refused 20 UnknownTunnel"),
]
# What is told of a line for which there was no memory: it is to be written again, or it was answered.
UNDONE = b"memory\n  nothing was done: write the line again\n"
UNTOLD = b"memory\n  it was answered: show recent has the reply\n"
# What it tells that ends for want of memory, or had none for a piece of its journal.
UNSERVED = (b"memory\n", b"config Memory\n", b"segment 1: not kept\n")
# It had none to let a piece of its journal wait until it is written.
LET_GO = b"was let go with what came after it"
# The router: where it listens, and where it sends to.
CONSOLE_CONFIG = """router = "10.0.0.1"
refresh_ms = 1000000
labels = [16, 31]

[[link]]
number = 1
address = "10.1.0.1"
peer = "10.1.0.2"
peer_router = "10.0.0.2"
limit = 1250000
listen = "127.0.0.1:{}"
send = "127.0.0.1:{}"
"""
# So often a router is started again whose port was taken in the meantime.
MOST_STARTS = 10
PORT_TAKEN = b"link 1: socket\n"
# One run that takes longer hangs.
CONSOLE_SECONDS = 100


# Where there is no memory for the thread that reads the console nobody hears it, and the run goes on: so many requests may be for that thread.
UNHEARD, MOST_UNHEARD = "not heard", 2
unheard = itertools.count(1)


def free_port():
    """A port of this machine that no socket has."""
    with socket.socket(socket.AF_INET, socket.SOCK_DGRAM) as held:
        held.bind(("127.0.0.1", 0))
        return held.getsockname()[1]


def read_answer(process, texts):
    """Reads one of these texts; else what can't be the beginning of one, or comes before the run ends, which is told at once."""
    came = b""
    while came not in texts and any(text.startswith(came) for text in texts):
        ready, _, _ = select.select([process.stdout, process.stderr], [], [])
        if process.stdout not in ready:
            break
        more = os.read(process.stdout.fileno(), len(max(texts, key=len)))
        if not more:
            break
        came += more
    return came


def write_line(stream, line):
    """Writes a line, where somebody reads it."""
    try:
        os.write(stream.fileno(), line.encode() + b"\n")
    except BrokenPipeError:
        pass


def type_line(process, line, wanted):
    """Types a line, and again where nothing was done: what is told of it at last, and whether there was no memory at first."""
    texts = {wanted, UNDONE, UNTOLD, REFUSAL}
    write_line(process.stdin, line)
    came = read_answer(process, texts)
    if came not in (UNDONE, REFUSAL):
        return came, came == UNTOLD
    write_line(process.stdin, line)
    return read_answer(process, {wanted}), True


def type_all(process):
    """Types all lines, each answered before the next one: what comes of that, and the first answer that isn't wanted."""
    was_short = False
    for line, text in CONSOLE:
        wanted = text.encode() + b"\n"
        came, is_short = type_line(process, line, wanted)
        was_short = was_short or is_short
        if came not in (wanted, UNTOLD):
            return was_short, came
    return was_short, b""


def judge_console(process, was_short, strange):
    """What comes of a router with a console, to which all was typed."""
    write_line(process.stdin, "quit")
    out, err = process.communicate()
    # (`quit` ends the run where there is no memory for its answer, too, which then tells to write it again)
    is_whole = re.fullmatch(rb"(the run ends\n|" + re.escape(UNDONE) + rb")reconciled [0-9]+ entries\n", out)
    if process.returncode == 0 and is_whole and not strange and not err:
        return (REFUSED if was_short else SAME), out, err
    is_told = process.returncode == 1 and (err.startswith(UNSERVED) or LET_GO in err)
    return (ENDED if is_told else DIFFERS), strange + out, err


def serve_once(room, call):
    """Runs a router with a console, one call of which is refused: what came of that, how many calls there were, and what it printed."""
    file, folder = new_name(room), pathlib.Path(new_name(room))
    # A folder of its own: the program looks at each name in it, and asks for memory each time.
    folder.mkdir()
    prefix = str(folder / "night")
    pathlib.Path(file).write_text(CONSOLE_CONFIG.format(free_port(), free_port()), encoding="utf-8")
    words = (room.lsr, "serve", file, "--console", "--log", "off", "--journal", prefix)
    pipes = {stream: subprocess.PIPE for stream in ("stdin", "stdout", "stderr")}
    process, reports = start(room, Ask(words), "", {"REFUSED": MEMORY, "ONLY": str(call)}, **pipes)
    with reports, process:
        watch = threading.Timer(CONSOLE_SECONDS, process.kill)
        watch.start()
        word, out, err = judge_console(process, *type_all(process))
        watch.cancel()
        ends = reports.read().split()
    if not ends:
        is_unheard = not out and not err and next(unheard) <= MOST_UNHEARD
        return UNHEARD if is_unheard else DIFFERS, call, out, err + b"(killed, after %d s or by itself)" % CONSOLE_SECONDS
    calls = int(ends[1])
    files = sorted(map(str, folder.glob("night.*[0-9]")))
    if files and ask_lsr(room, "check", *files).status:
        return DIFFERS, calls, out, b"lsr check fails of the journal's files"
    return word, calls, out, err


def serve_refused(room, call):
    """What came of a router with a console, one call of which is refused; nothing where there were fewer calls."""
    for _ in range(MOST_STARTS):
        word, calls, out, err = serve_once(room, call)
        if not err.startswith(PORT_TAKEN):
            break
    if calls < call:
        return Counter()
    if word == DIFFERS:
        print(run_text("serve", Run(call, 0, out, err, b"")), flush=True)
    return Counter([word])


def serve_jobs(room):
    """The runs of a router with a console, each with another call refused."""
    word, calls, _, err = serve_once(room, 0)
    want("serve", (SAME, b""), (word, err))
    return [functools.partial(serve_refused, room, call) for call in range(room.every, calls + 1, room.every)]
