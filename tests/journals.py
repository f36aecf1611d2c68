#!/usr/bin/env python3
"""Journals that are shown and made again: the lines that `lsr show-journal` prints of entries bring a router these entries. And the files of journals: which are
written, when, in place of what, and what is left where one can't be finished.

A journal is made and shown, and the lines of its events are given to `lsr step --journal`. What is shown of that journal's entries is the same: events, replies,
frames and labels; a journal of `lsr step` is the same file, byte for byte. An event that no line tells stands in a remark, as a message with an object that its type
doesn't know. Such a message changes nothing, so the others are as they were without it. Journals are made of

- the lines of the runs that tests/data/lines/cases.txt names;
- lines that chance makes: commands, moments, links, and messages of these runs in frames of each kind, some with a byte changed;
- frames that come to a router that is served, and lines that are typed at its console.

And files are written with events that chance makes, told by lines or not: the line that is shown of one brings a router its bytes; the words of a remark don't.

Words are names of cases: these alone are run. Without words all are.
"""

import contextlib
import functools
import os
import pathlib
import random
import re
import resource
import signal
import socket
import subprocess
import sys
import tempfile
import time

import asked
import routers
import served

LINES = asked.DATA / "lines"
# The line of an entry, up to its event; and the remark of an event that no line tells, up to its words.
ENTRY = re.compile(rb"entry \d+ port \d+: (.*)", re.DOTALL)
REMARK = re.compile(rb"# in bytes [0-9a-f]+, nearly (.*)", re.DOTALL)
# So many runs by chance, of so many lines, and on routers of these cases.
RUNS, RUN_LINES = 8, 150
CHANCE_ROUTERS = ["capacity", "bypass-choice", "merge-row"]
# So many files with events by chance, of so many events.
FILES, FILE_EVENTS = 4, 60
# Names that a line can have; and some that none has.
NAMES = ["lsp1", "~", "0x41", '"a"', "\\x41", "grün", "\u4e2d\u6587", "\u0085", "n" * 255]
ODD_NAMES = [b"", b"a b", b"a\r", b"a\t", b"\x7f", b"\xff", b"\xe4\xb8", b"\0"]
RATES = ["47f42400", "00000000", "ffffffff", "48742400"]
LENGTHS = [32, 24, 0, 33, 255]
# In an RSVP message the checksum, where 0 stands for none.
CHECKSUM = slice(2, 4)
# Lines that are typed at the console of a router that is served.
TYPED = ["tunnel 7 10.0.0.4 47f42400 7 7 00 grün ~10.0.0.4/32", "change 7 48742400", "cancel 7", "bypass 1 7 1 99", "unbypass 1", "drop 7",
         "route 10.9.0.0/16 2", "unroute 10.9.0.0/16", "down 2", "up 2"]
# What is told of a file that isn't written, and why one isn't.
UNWRITTEN = "unwritable\n  {} {}, and run it again\n"
NO_FILE = "is no regular file, and is not replaced: give another name"
FOREIGN = "is there already, and is another kind of file, which is not replaced: give another name, or move it away"
PRESENT = "is there already, and is kept: give another name, or move it away with those that belong to it"
CLAIMED = "is there already: another router writes this journal, or one was killed while it did; give another prefix, or remove the file"
NO_ROOM = "can't be written: look at the room on its disk"
LET_GO = "was let go with what came after it, for the files before it couldn't be written: look at the room on their disk"
TOO_MUCH = "too much waits for it, and what comes now is lost"
# Fewer bytes than a file of a journal has, and lines for one that has more.
FEW_BYTES = 1000
SOME_LINES = 500 * b"start\n"
# How many links a router has whose turns are counted, and how many turns; how many frames come over each link, together more than a piece of the journal has; and how
# many of them at once.
LINKS, LINK_TURNS, LINK_FRAMES, FRAMES_AT_ONCE = 16, 277, 257, 50
LINK = """
[[link]]
number = {0}
address = "10.{0}.0.2"
peer = "10.{0}.0.1"
peer_router = "10.{0}.1.1"
limit = 0
listen = "127.0.0.1:0"
send = "127.0.0.1:0"
"""
# How many turns a router has whose file can't be written: as long as it takes to see that it began.
FEW_TURNS = 30
# A line that takes so much room in a file that with some of them a piece is long, but can be checked; and how many pieces of them are more than may wait.
LONG_LINE = "change 9 47f42400" + 2000 * " 10.0.0.1/32"
LONG_LINES, LONG_PIECES = 1100, 5


def recorded(file, config, lines):
    """How a router of `lsr step` ended that got these lines, and its journal, which is in the file."""
    words = ["--config", str(config)] if config.exists() else []
    came = asked.ask("step", "--journal", str(file), *words, given=b"".join(line + b"\n" for line in lines))
    return came, file.read_bytes()


def entries_of(*files):
    """The entries of these journals: of each the line of its event, and those of its answer."""
    entries = []
    for file in files:
        came = asked.ask("show-journal", str(file))
        if came.status or came.err:
            raise RuntimeError(came.err.decode())
        for line in came.out.split(b"\n"):
            if found := ENTRY.fullmatch(line):
                entries.append([found[1]])
            elif entries and line:
                entries[-1].append(line)
    return entries


def text_of(entries):
    """The lines of these entries."""
    return b"".join(line + b"\n" for entry in entries for line in entry)


def again_differs(room, config, *files):
    """What differs in a journal that is made of the lines that are shown of these files' entries."""
    told = [entry for entry in entries_of(*files) if not REMARK.fullmatch(entry[0])]
    recorded(room / "again", config, [entry[0] for entry in told])
    return asked.stream_differs("entries", text_of(told), text_of(entries_of(room / "again")))


def lines_differ(config, lines):
    """What differs where the journal of these lines is made again."""
    with tempfile.TemporaryDirectory() as folder:
        room = pathlib.Path(folder)
        _, first = recorded(room / "first", config, lines)
        text = again_differs(room, config, room / "first")
        has_remarks = any(REMARK.fullmatch(entry[0]) for entry in entries_of(room / "first"))
        return text + ("" if has_remarks or first == (room / "again").read_bytes() else "the files aren't the same\n")


# Runs over lines.


def names():
    """The names of the runs over lines whose lines are all good."""
    return [name for name in (LINES / "cases.txt").read_text("utf-8").split() if not (LINES / f"{name}.err").exists()]


def recorded_lines(name):
    """The lines of a run that a journal records: not those that show something."""
    return [line for line in (LINES / f"{name}.step").read_bytes().split(b"\n") if line and not line.startswith(b"show ")]


@functools.cache
def messages():
    """The messages of these runs."""
    lines = [line for name in names() for line in recorded_lines(name) if re.fullmatch(rb"rx \d+ ([0-9a-f]{2}){8,}", line)]
    return sorted({bytes.fromhex(line.split()[2].decode()) for line in lines})


def message_by_chance(chance):
    """A line with a message, which may have a byte changed and no checksum: as it is, under labels that ended, or on its way to a router."""
    message = bytearray(chance.choice(messages()))
    if chance.random() < 0.5:
        message[CHECKSUM] = b"\0\0"
        message[chance.randrange(len(message))] ^= 1 << chance.randrange(8)
    routed = bytes([3, 10, 0, 0, chance.randrange(1, 6), chance.randrange(4)])
    head = chance.choice([b"", b"\2\0\1", routed])
    return f"{'frame' if head else 'rx'} {chance.randrange(1, 4)} {(head + message).hex()}"


def command_by_chance(chance):
    """A line of an operator."""
    number, link, host, rate = chance.randrange(1, 5), chance.randrange(1, 4), chance.randrange(1, 6), chance.choice(RATES)
    prefix = f"10.{number}.0.0/{chance.choice(LENGTHS)}"
    route = "".join(f" {chance.choice(['', '~'])}10.0.0.{chance.randrange(1, 6)}/{chance.choice(LENGTHS)}" for _ in range(chance.randrange(4)))
    return chance.choice([
        f"tunnel {number} 10.0.0.{host} {rate} {chance.randrange(9)} {chance.randrange(9)} {chance.randrange(256):02x} {chance.choice(NAMES)}{route}",
        f"change {number} {rate}{route}", f"cancel {number}", f"drop {number}",
        f"bypass {number} {host} {link} {chance.choice([0, 99, 2**64 - 1])}", f"unbypass {number}", f"route {prefix} {link}", f"unroute {prefix}",
    ])


def lines_by_chance(chance):
    """The lines of a run."""
    moment = 0
    for _ in range(RUN_LINES):
        moment += chance.randrange(20000)
        other = chance.choice([f"tick {moment}", f"up {chance.randrange(1, 4)}", f"down {chance.randrange(1, 4)}", "start", "start", "restart"])
        yield chance.choice([message_by_chance(chance), message_by_chance(chance), command_by_chance(chance), other]).encode()


def run_by_chance(number):
    """A run by chance, always the same of a number."""
    config = LINES / f"{CHANCE_ROUTERS[number % len(CHANCE_ROUTERS)]}.toml"
    return lines_differ(config, lines_by_chance(random.Random(number)))


# Events by chance, in the bytes of docs/JOURNAL.md.


def number_of(width, number):
    """A number, in so many bytes."""
    return number.to_bytes(width, "big")


def counted(content):
    """Bytes after their count."""
    return number_of(4, len(content)) + content


def route_by_chance(chance):
    """The steps of a route; some aren't prefixes."""
    prefix = bytes([1, chance.randrange(2), 10, 0, 0, 4, chance.choice(LENGTHS)])
    steps = [chance.choice([prefix] * 9 + [b"\2" + counted(b"\x20\4\0\1")]) for _ in range(chance.randrange(3))]
    return number_of(4, len(steps)) + b"".join(steps)


def traffic_by_chance(chance):
    """A SENDER_TSPEC; some aren't of a rate alone."""
    rate = chance.choice(RATES)
    body = bytearray.fromhex(f"00000007010000067f000005{rate}{rate}7f80000000000040000005dc")
    if chance.random() < 0.2:
        body[chance.randrange(len(body))] ^= 1
    return bytes(body)


def attributes_by_chance(chance):
    """The attributes of a tunnel, and its protection; some have what no line has."""
    name = chance.choice([name.encode() for name in NAMES] * 3 + ODD_NAMES)
    affinities = chance.choice([b"\7" + bytes(12)] * 9 + [b"\1" + bytes(range(12))])
    return affinities + bytes([7, 7, chance.randrange(256)]) + counted(name) + chance.choice([b"\0"] * 9 + [b"\1" + bytes(20)])


def event_by_chance(chance):
    """An event that is no message for this router."""
    number, link = number_of(2, chance.randrange(1, 9)), number_of(2, chance.choice([0, 1, 2, 3, 65535]))
    prefix = bytes([10, chance.randrange(9), 0, 0, chance.choice(LENGTHS)])
    return chance.choice([
        b"\3" + number_of(8, chance.choice([0, 1, 2**64 - 1])), b"\4" + link, b"\5" + link, b"\6", b"\7",
        b"\x08\1" + number + prefix[:4] + route_by_chance(chance) + traffic_by_chance(chance) + attributes_by_chance(chance),
        b"\x08\1" + number + prefix[:4] + route_by_chance(chance) + traffic_by_chance(chance) + attributes_by_chance(chance),
        b"\x08\2" + number + route_by_chance(chance) + traffic_by_chance(chance), b"\x08\3" + number, b"\x08\4" + number,
        b"\x08\5" + number + number + link + number_of(8, chance.choice([0, 2**64 - 1])), b"\x08\6" + number, b"\x08\7" + prefix + link, b"\x08\x08" + prefix,
    ])


def events_by_chance(number):
    """What differs where events by chance are shown, and what is shown is given to a router that just started."""
    chance = random.Random(number)
    events = [event_by_chance(chance) for _ in range(FILE_EVENTS)]
    config = LINES / "capacity.toml"
    with tempfile.TemporaryDirectory() as folder:
        room = pathlib.Path(folder)
        _, empty = recorded(room / "events", config, [])
        # An entry of each, from port 1: no label was chosen, it was done, and nothing was sent.
        entries = b"".join(number_of(2, 1) + event + bytes(9) for event in events)
        (room / "events").write_bytes(empty[:-4] + number_of(4, len(events)) + entries)
        text = ""
        for event, entry in zip(events, entries_of(room / "events"), strict=True):
            remark = REMARK.fullmatch(entry[0])
            _, journal = recorded(room / "again", config, [remark[1] if remark else entry[0]])
            is_brought = journal[len(empty) - 4 :].startswith(number_of(4, 1) + number_of(2, 1) + event)
            text += f"{event.hex()}: {entry[0]}\n" if is_brought == bool(remark) else ""
        return text


# A router that is served.


def router_that_is_served():
    """Frames come to a router over sockets and leave it, and an operator types lines; its journal is made again."""
    with tempfile.TemporaryDirectory() as folder:
        room = pathlib.Path(folder)
        with served.line_of_three("--journal", str(room / "night")) as line:
            for way, link, frame in served.frames():
                if way == "in":
                    line.send(link, frame)
                else:
                    line.receive(link)
            for typed in TYPED:
                line.router.answer(typed)
            ended = line.router.quit()
        (room / "router.toml").write_text(served.MIDDLE, encoding="utf-8")
        return served.ends_well(ended) + again_differs(room, room / "router.toml", *served.journal_files(room))


# The files of journals.


def make_socket(place):
    """Makes a socket of this name."""
    with socket.socket(socket.AF_UNIX) as made:
        made.bind(str(place))


# What may have the name of a file, and how it is made.
THINGS = {
    "a folder": lambda place: place.mkdir(),
    "a link to nothing": lambda place: place.symlink_to("nothing"),
    "a link to a journal": lambda place: place.symlink_to("journal"),
    "a FIFO": os.mkfifo,
    "a socket": make_socket,
    "another file": lambda place: place.write_text("notes of mine\n", encoding="utf-8"),
}


def seen(room):
    """What stands in a folder, as it is."""
    return {it.name: (stat.st_ino, stat.st_mode, stat.st_size, stat.st_mtime_ns) for it in room.iterdir() if (stat := it.lstat())}


def seen_differs(before, room):
    """What differs in a folder that is to be as it was before."""
    return "" if seen(room) == before else f"before: {before}\nafter: {seen(room)}\n"


def not_replaced(thing):
    """`lsr step --journal` replaces no link and nothing else that is no file, nor a file that is something else."""
    with tempfile.TemporaryDirectory() as folder:
        room = pathlib.Path(folder)
        recorded(room / "journal", LINES / "none", [b"start"])
        THINGS[thing](room / "made")
        before = seen(room)
        came = asked.ask("step", "--journal", str(room / "made"), given=b"start\nstart\n")
        told = UNWRITTEN.format(room / "made", FOREIGN if thing == "another file" else NO_FILE)
        return asked.differs(asked.Answer(1, b"done\ndone\n", told.encode()), came) + seen_differs(before, room)


def replaced(lines):
    """A file that is empty, or a journal, is replaced."""
    with tempfile.TemporaryDirectory() as folder:
        room = pathlib.Path(folder)
        (room / "made").touch()
        if lines:
            recorded(room / "made", LINES / "none", lines)
        came, _ = recorded(room / "made", LINES / "none", [b"start"])
        text = asked.differs(asked.Answer(0, b"done\n"), came) + served.differs("files", ["made"], [it.name for it in room.iterdir()])
        return text + asked.differs(asked.Answer(0, b"run of 1 entries\n"), asked.ask("check", str(room / "made")))


def taken_name(words, name, thing):
    """A router doesn't begin where something has a name of its journal, or that of its claim: it stays as it was, and nothing is made."""
    with served.room_for_journal() as room:
        THINGS[thing](room / name)
        before = seen(room)
        came = asked.ask("serve", "router.toml", *words, "--journal", "night", cwd=room)
        told = UNWRITTEN.format(name, CLAIMED if name.endswith(".part") else PRESENT)
        return asked.differs(asked.Answer(1, err=told.encode()), came) + seen_differs(before, room)


def other_names():
    """Files whose names only resemble those of a journal are none of it: the router begins, and they stay."""
    others = ["night", "night.1.old", "night.x", "nights.1", "anight.1"]
    with served.room_for_journal() as room:
        for name in others:
            THINGS["another file"](room / name)
        before = seen(room)
        came = asked.ask("serve", "router.toml", "--console", "--log", "off", "--journal", "night", given=b"quit\n", cwd=room)
        kept = {name: it for name, it in seen(room).items() if name in before}
        return ("" if came.status == 0 and kept == before else f"{came}, {kept}\n") + files_differ(room, 1, *others)


def files_differ(room, least, *others):
    """What differs in a folder that is to have the files of a journal, so many at least, all from the first on without a gap, one run together, and beside them the
    configuration and these others."""
    names = {it.name for it in room.iterdir()} - {"router.toml", *others}
    files = [room / f"night.{number}" for number in range(1, len(names) + 1)]
    if names != {file.name for file in files} or len(files) < least:
        return f"files: {sorted(names)}\n"
    return "" if not files or served.is_run(files, room) else "the files are no run\n"


# Files that can't be finished.


@contextlib.contextmanager
def unsignalled():
    """A file that grows over its limit can't be written then, and its writer isn't killed: the signal is blocked in what is started meanwhile."""
    before = signal.pthread_sigmask(signal.SIG_BLOCK, {signal.SIGXFSZ})
    try:
        yield
    finally:
        signal.pthread_sigmask(signal.SIG_SETMASK, before)


def limit_files(process, most=None):
    """A process writes no file of more than so many bytes from now on, or any again. Where that kills it, it leaves no core."""
    for kind, soft in ((resource.RLIMIT_FSIZE, most), (resource.RLIMIT_CORE, 0)):
        hard = resource.prlimit(process.pid, kind)[1]
        resource.prlimit(process.pid, kind, (hard if soft is None else soft, hard))


def step_cut(is_killed):
    """A file that can't be finished, or whose writer is killed in its midst, leaves the one that was there; a part is left by who was killed alone."""
    with tempfile.TemporaryDirectory() as folder, contextlib.nullcontext() if is_killed else unsignalled():
        room = pathlib.Path(folder)
        recorded(room / "made", LINES / "none", [b"start"])
        before = seen(room)
        pipes = {stream: subprocess.PIPE for stream in ("stdin", "stdout", "stderr")}
        with asked.started("step", "--journal", str(room / "made"), **pipes) as child:
            limit_files(child, FEW_BYTES)
            _, err = child.communicate(SOME_LINES, timeout=asked.MOST_SECONDS)
        if is_killed:
            (room / "made.part").unlink(missing_ok=True)
            return seen_differs(before, room) + ("" if child.returncode == -signal.SIGXFSZ else f"status {child.returncode}\n")
        told = UNWRITTEN.format(room / "made", NO_ROOM).encode()
        return asked.differs(asked.Answer(1, err=told), asked.Answer(child.returncode, err=err)) + seen_differs(before, room)


def unfinished_file():
    """The part of a file that a router can't finish goes. The file is written with the next when it can be; at the end the status is 1 where it can't."""
    with served.room_for_journal() as room, unsignalled(), served.journal_router(room) as router:
        limit_files(router.process, FEW_BYTES)
        served.feed_lines(router)
        served.wait_waiting(router, f"journal: {room}/night.1 {NO_ROOM}")
        text = files_differ(room, 0)
        limit_files(router.process)
        served.feed_lines(router)
        router.wait_log("journal: all files that waited are written")
        limit_files(router.process, FEW_BYTES)
        served.feed_lines(router)
        ended = router.quit()
        text += files_differ(room, 1) + served.status_differs(ended, 1)
        number = len(list(room.glob("night.*[0-9]"))) + 1
        return text + served.lacks(["unwritable", f"  {room}/night.{number} {NO_ROOM}, and run it again"], ended.log)


def killed_in_a_file():
    """A router that is killed while it writes a file leaves those before it whole, and of that one a part that bears no name of a file."""
    with served.room_for_journal() as room, served.journal_router(room) as router:
        served.feed_lines(router)
        routers.wait_until((room / "night.1").exists, "night.1 isn't written")
        limit_files(router.process, FEW_BYTES)
        with contextlib.suppress(BrokenPipeError):
            for _ in range(served.LINES):
                router.type("start")
        status = router.process.wait(routers.MOST_SECONDS)
        with contextlib.suppress(BrokenPipeError):
            router.process.stdin.close()
        parts = [it.name for it in room.glob("*.part")]
        text = "" if status == -signal.SIGXFSZ and len(parts) == 1 else f"status {status}, parts {parts}\n"
        return text + files_differ(room, 1, *parts)


def none_after_missing():
    """After a file that can't be written no other one is; at the end it is told, and the status is 1."""
    with served.room_for_journal() as room, served.journal_router(room) as router:
        router.answer("start")
        (room / "night.2").mkdir()
        for _ in range(2):
            served.feed_lines(router)
        while served.wait_waiting(router, f"journal: {room}/night.2 {NO_FILE}") < 2:
            pass
        text = files_differ(room, 1, "night.2")
        ended = router.quit()
        text += files_differ(room, 1, "night.2") + served.status_differs(ended, 1)
        return text + served.lacks(["unwritable", f"  {room}/night.2 {NO_FILE}, and run it again"], ended.log)


def too_much_waits():
    """Files wait up to so many bytes. What comes above that is lost, and nothing after it is written when there is room again: the status is 1."""
    with served.room_for_journal() as room, served.journal_router(room) as router:
        router.answer("start")
        (room / "night.1").mkdir()
        for _ in range(LONG_PIECES):
            for place in range(served.PIECE):
                router.type(LONG_LINE if place < LONG_LINES else "start")
        served.wait_told(router, re.escape(f"journal: {room}/night.1 {NO_FILE}; {TOO_MUCH}"))
        (room / "night.1").rmdir()
        served.feed_lines(router)
        ended = router.quit()
        text = files_differ(room, LONG_PIECES - 1) + served.status_differs(ended, 1)
        number = len(list(room.glob("night.*[0-9]"))) + 1
        return text + served.lacks(["unwritable", f"  {room}/night.{number} {LET_GO}, and run it again"], ended.log)


# Routers whose turns are counted.


def bring_frames(addresses):
    """Brings the frames of a router with many links, each a PathTear of an LSP that isn't known, to all links in turn."""
    tear = list(served.frames())[served.MESSAGES_AT[-1]][2]
    with routers.open_socket(routers.fresh_host()) as sender:
        for first in range(0, LINK_FRAMES, FRAMES_AT_ONCE):
            for _ in range(first, min(LINK_FRAMES, first + FRAMES_AT_ONCE)):
                for address in addresses:
                    host, port = address.split(":")
                    sender.sendto(tear, (host, int(port)))
            time.sleep(routers.PAUSE)


def pieces_by_turns():
    """A router whose turns are counted writes each piece while it runs, and the last one at its end."""
    with served.room_for_journal() as room:
        addresses = routers.free_addresses(LINKS)
        config = served.MIDDLE.partition("[[link]]")[0] + "".join(LINK.format(number) for number in range(1, LINKS + 1))
        places = [it for address in addresses for it in (address, served.NOBODY)]
        (room / "router.toml").write_text(routers.at_addresses(config, places), encoding="utf-8")
        words = ["serve", str(room / "router.toml"), "--turns", str(LINK_TURNS), "--journal", str(room / "night")]
        router = routers.Router(words)
        routers.wait_bound(addresses[-1])
        bring_frames(addresses)
        routers.wait_until((room / "night.1").exists, "night.1 isn't written")
        text = "" if router.process.poll() is None else "the run ended before\n"
        text += served.differs("entries", [served.PIECE], served.counts_of(served.checked([room / "night.1"], room)))
        ended = router.end()
        counts = served.counts_of(served.checked(served.journal_files(room), room))
        text += served.differs("printed", [f"reconciled {sum(counts)} entries"], ended.printed)
        return text + files_differ(room, 2) + served.ends_well(ended, [])


def unwritable_by_turns():
    """Its file that can't be written is told at its end, with status 1, though all is one run."""
    with served.room_for_journal() as room:
        words = ["serve", str(room / "router.toml"), "--turns", str(FEW_TURNS), "--journal", str(room / "night")]
        router = routers.Router(words)
        routers.wait_until((room / "night.1.part").exists, "night.1 isn't claimed")
        (room / "night.1").mkdir()
        ended = router.end()
        text = served.differs("printed", [f"reconciled {FEW_TURNS} entries"], ended.printed) + served.status_differs(ended, 1)
        text += served.lacks(["unwritable", f"  {room}/night.1 {NO_FILE}, and run it again"], ended.log)
        return text + files_differ(room, 0, "night.1")


# Those that take longest stand first.
FILE_CASES = [
    ("pieces by turns", pieces_by_turns),
    ("too much waits", too_much_waits),
    ("no file after one that is missing", none_after_missing),
    ("a file that can't be finished", unfinished_file),
    ("a run that is killed in a file", killed_in_a_file),
    ("a file that can't be written, by turns", unwritable_by_turns),
    *[(f"{thing} isn't replaced", functools.partial(not_replaced, thing)) for thing in THINGS],
    ("an empty file is replaced", functools.partial(replaced, [])),
    ("a journal is replaced", functools.partial(replaced, [b"restart", b"start"])),
    ("`step` can't finish its file", functools.partial(step_cut, False)),
    ("`step` is killed in its file", functools.partial(step_cut, True)),
    *[(f"night.1 is {thing}", functools.partial(taken_name, ["--console"], "night.1", thing)) for thing in THINGS],
    *[(f"{name} is there", functools.partial(taken_name, ["--console"], name, "another file")) for name in ("night.12", "night.007", "night.1.part")],
    ("night.1.part is a link to nothing", functools.partial(taken_name, ["--console"], "night.1.part", "a link to nothing")),
    ("night.12 is there, by turns", functools.partial(taken_name, ["--turns", "1"], "night.12", "another file")),
    ("other names", other_names),
]


def main():
    """Runs the cases, and gives the script's status."""
    cases = [(name, functools.partial(lines_differ, LINES / f"{name}.toml", recorded_lines(name))) for name in names()]
    cases += [(f"by chance, {number}", functools.partial(run_by_chance, number)) for number in range(RUNS)]
    cases += [(f"events by chance, {number}", functools.partial(events_by_chance, number)) for number in range(FILES)]
    return asked.count(served.chosen([*FILE_CASES, *cases, ("a router that is served", router_that_is_served)]))


if __name__ == "__main__":
    sys.exit(main())
