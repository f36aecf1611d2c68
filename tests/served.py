#!/usr/bin/env python3
"""What runs over sockets and at consoles: `lsr serve` as its neighbours and its operator see it.

Routers are served over UDP on addresses of this machine, lines are typed at their consoles, and frames are sent to them.

Words are names of cases, as `tests/served.py "three consoles"`: these alone are run. Without words all are.
"""

import argparse
import contextlib
import dataclasses
import functools
import os
import pathlib
import re
import subprocess
import sys
import tempfile
import threading
import time
from typing import NamedTuple

import asked
import routers
from asked import Answer

EXAMPLES = asked.TOP / "examples"
DATA = asked.DATA / "served"
# The configuration of the middle router of a line, that of a router with one link, and frames that come to the first and leave it.
MIDDLE = (DATA / "middle.toml").read_text(encoding="utf-8")
ONE_LINK = (DATA / "one-link.toml").read_text(encoding="utf-8")
FRAMES = (DATA / "frames.txt").read_text(encoding="utf-8")

# What stands before the lines of a transcript, and before those of its log.
INDENT = "    "
LOGGED = "["
# The last line that is typed at a console.
QUIT = "quit"
# What is told where a link can't have an address.
NO_SOCKET = "link {}: socket\n  {} {}\n"
NOT_LOCAL = "is no loopback address: routers of this program are neighbours on one machine; give 127.0.0.1 or [::1]"
OTHER_FAMILY = "isn't of the family of the first link's listen: give all links IPv4 addresses, or all IPv6 addresses"
NO_PORT = "has port 0, to which no neighbour can send: give a port from 1 to 65535"
TAKEN = "is in use: end the router or program that has it, or give a port that no other link has"
ITSELF = "is send and listen of one link, which would send to itself: give the neighbour's listen as send"
# Addresses that a link can't have, and why; and one that it can send to, at which nobody listens.
OTHER_ADDRESSES = [("10.0.0.1:5701", NOT_LOCAL), ("[::1]:5701", OTHER_FAMILY), ("127.0.0.1:0", NO_PORT)]
NOBODY = "127.0.0.1:9"
# One to which the system sends nothing: that of all of this machine.
UNSENDABLE = "127.255.255.255:9"
# What is told of a Path whose hop isn't the link's peer.
STRANGER = "link 1: a neighbour calls itself 10.0.0.1, and the link's peer is 10.1.0.1"
# What the log of a run has, to which a datagram comes that is no frame, such a Path, and the line `down 2`; and its marks.
INFO, WARN = "[INFO ] ", "[WARN ] "
WHOLE_LOG = [
    INFO + "router 10.0.0.2 is running: type help for its commands, quit to stop it",
    INFO + "0.0 s is DATE",
    INFO + "its journal goes to {0}/night.1, {0}/night.2 and so on, a file each minute; a crash loses the minute that is in memory",
    INFO + "S s: link 2 down",
    WARN + "link 1: of 2 received 1 dropped, 0 refused",
    WARN + STRANGER,
    INFO + "link 1: N received: N processed, 0 forwarded, 1 dropped, 0 refused; 0 frames not sent, 0 socket errors",
    INFO + "link 2: N received: N processed, 0 forwarded, 0 dropped, 0 refused; 0 frames not sent, 0 socket errors",
    INFO + "clock: N received: N processed, 0 forwarded, 0 dropped, 0 refused; 0 frames not sent, 0 socket errors",
    INFO + "console: N received: N processed, 0 forwarded, 0 dropped, 0 refused; 0 frames not sent, 0 socket errors",
    INFO + "router: 1 paths, 0 reservations, 0 repairs",
]
# What a log of warnings tells of two tunnels of which one has no answer, and the other no link.
NOT_UP = [
    "tunnel 1: lsp 1 is not up for 2 s: its Path is sent, and no Resv has come",
    "tunnel 2: lsp 1 is not up for 2 s: no link that is up leads to the next hop of its route",
]
# What is told of an output that can't be written.
UNWRITABLE = b"unwritable\n  the output or the error stream can't be written: look at where they go\n"
# How many pairs of routers start at once; and how long a reservation takes at most to be refused, in seconds.
PAIRS = 6
SETTLING_SECONDS = 1
# Words that name no number of turns, and what is told of them.
NO_TURNS = ["0", "+5", "", "1000001", "99999999999"]
NO_TURNS_TOLD = b"error: N is a number from 1 to 1000000; see lsr serve --help\n"
# Words that do, and the number.
TURNS = [("0050", 50), ("3", 3), ("1", 1)]
# The most turns that there are.
MOST_TURNS = "1000000"
# How many turns a link has to which more frames come, and how many it takes at least: in some turns none may come.
FRAME_TURNS, LEAST_TAKEN = 20, 10
# How many turns two routers have for a tunnel to come up, each of a tenth of a second.
TUNNEL_TURNS = "80"
# How often two routers refresh their state, in milliseconds. What isn't refreshed expires after 5.25 times that: so that it doesn't
# while a case runs, that the tunnel comes up in these turns and stays, and that it expires soon.
LONG_REFRESH_MS = 30000
TURNS_REFRESH_MS = 2000
SHORT_REFRESH_MS = 1000
# How many entries a piece of the journal has, and more lines than that at a console.
PIECE = 4096
LINES = 4200
# The LSP of a tunnel from 10.0.0.1 to 10.0.0.2.
LSP = "10.0.0.2/1/10.0.0.1 10.0.0.1/1"
# How many bytes wait at a socket where none do.
NONE_WAIT = "00000000"
# The kind of a frame with a message from neighbour to neighbour, and the most bytes of a message.
HOP = b"\x01"
MOST_MESSAGE = 4096
# What a line is told that begins with no word of a console.
OTHER_FORM = (
    "  expected up, down, restart, start, tunnel, change, cancel, drop, bypass, unbypass, route, unroute, show, help or quit first"
)
# Lines of a console, and what is answered to each. The number of a line that isn't taken is its place among all.
PLACED = [
    (b"", []),
    (b"# a remark", []),
    (b"what", ["bad line 3", "  what", OTHER_FORM]),
    (b"rx 1 00", ["bad line 4", "  rx 1 00", "  messages and frames come over the links of a router that runs"]),
    (b"start", ["done"]),
    (b"", []),
    (b"tick 5", ["bad line 7", "  tick 5", "  ticks come from the router's own clock"]),
    (b"a\xff", ["unreadable", "  standard input, line 8, "]),
    (b"what", ["bad line 9", "  what", OTHER_FORM]),
]
# So many pairs of lines are typed, so far apart that ticks of the clock, a tenth of a second apart, come between them and with them.
TYPED_PAIRS, TYPED_SECONDS = 400, 0.003
# How many seconds lie between two ticks of the clock, and how many ticks may be late.
TICK_SECONDS = 0.1
LATE_TICKS = 10
# After how many frames of a link a round is over; more of them; and how many are sent at once, so that a socket has room for all.
ROUND_FRAMES = 16384
MANY_FRAMES = 17000
FRAMES_AT_ONCE = 200
# How long a router goes on after a round, in seconds; and how long a link brings frames without end, with so many answers at least meanwhile.
AFTER_ROUND_SECONDS = 1.5
FLOOD_SECONDS, LEAST_ANSWERS = 1, 5
# What `show counters` prints before the first round is over, and first after it.
NOTHING_COUNTED = "nothing is counted yet: the first round, of a minute at most, isn't over"
COUNTED = "counted up to the end of the last round, at most a minute ago"
# Lines of a console whose answers have marks, and what is answered to each. Of what isn't UTF-8 the beginning is wanted.
MARKED = [
    (b"start", ["done", "."]),
    (b"# a remark", ["."]),
    (b"", ["."]),
    (b"what", ["bad line 4", "  what", OTHER_FORM, "."]),
    (b"a\xff", ["unreadable", "  standard input, line 5, ", "."]),
    (b"show counters", [NOTHING_COUNTED, "."]),
    (b"quit", ["the run ends", "."]),
]
# How many LSPs have their messages in one burst, which is as many as a link has bandwidth for; the first label that a router gives out, and that
# of the next hop.
BURST = 10
FIRST_LABEL, NEXT_LABEL = 16, 100
# The places of the Path, its Resv and its PathTear among the frames.
MESSAGES_AT = (0, 2, 7)
# The places of a message's checksum in its frame, where zeros say that there is none, and of the number of its tunnel.
CHECKSUM_AT, TUNNEL_AT = slice(3, 5), slice(19, 21)
# How many different errors are told of a round, and more than those.
MOST_ERRORS, MANY_ERRORS = 32, 40
# In how many seconds a Path that is refused comes again; and after how many a router is ended whose first round was over after a minute, and that
# has told by then what isn't up for more than one.
AGAIN_SECONDS = 2.5
MINUTE_SECONDS = 63
# A tunnel of a configuration: its number, and its route.
TUNNEL = """
[[tunnel]]
number = {0}
endpoint = "10.0.0.2"
route = ["{1}"]
rate = "47f42400"
setup = 3
hold = 3
flags = 4
name = "t{0}"
"""
# So often routers are started again where what has to come between two looks at them didn't.
MOST_TRIES = 5


def differs(what, wanted, came):
    """What differs in two lists of lines."""
    return asked.stream_differs(what, *("".join(f"{line}\n" for line in lines).encode() for lines in (wanted, came)))


def shows(router, line, wanted):
    """What differs in what a router shows, once it had the time to know it."""
    return differs(line, wanted, router.answer_in_time(line, wanted))


def lacks(wanted, log):
    """The lines that aren't in the log."""
    return "".join(f"the log lacks: {line}\n" for line in wanted if line not in log)


def port_line(port, dropped=0, passed=0, fed=0, refused=0):
    """The log's line of a port at the end of a run."""
    received = dropped + passed + fed + refused
    return (
        f"{port}: {received} received: {fed} processed, {passed} forwarded, {dropped} dropped, {refused} refused; "
        "0 frames not sent, 0 socket errors"
    )


def end_line(paths, reservations):
    """The log's last line."""
    return f"router: {paths} paths, {reservations} reservations, 0 repairs"


def status_differs(ended, wanted=0):
    """What differs in the status of a router that ended."""
    return "" if ended.status == wanted else f"status {ended.status}\n"


def ends_well(ended, printed=("the run ends",)):
    """What differs at the end of a run: this is printed, and that it is one run, of as many entries as its ports have receipts."""
    receipts = sum(int(found[1]) for found in re.finditer(r"received: (\d+) processed", "\n".join(ended.log)))
    text = differs("the end", [*printed, f"reconciled {receipts} entries"], ended.printed)
    return text + status_differs(ended)


def example(name, addresses):
    """An example's configuration, with these addresses."""
    return routers.at_addresses((EXAMPLES / name).read_text(encoding="utf-8"), addresses)


# The transcript of two consoles.


@dataclasses.dataclass
class Act:
    """A line that is typed at a console, what is answered, and what the log of this console tells before it and after it."""

    side: str
    line: str
    before: list
    answer: list = dataclasses.field(default_factory=list)
    after: list = dataclasses.field(default_factory=list)


def acts_of(block):
    """The acts of a block of lines. What is told above the first typed line is told at its console, else at the one before."""
    acts = []
    before = []
    for line in block:
        typed = re.fullmatch(r"(\w+)> (.*)", line)
        if typed:
            acts.append(Act(typed[1], typed[2], [] if acts else before))
        elif line.startswith(LOGGED):
            (acts[-1].after if acts else before).append(routers.said_by(line))
        elif acts:
            acts[-1].answer.append(line)
    return acts


def transcript(text):
    """The acts of a transcript, which stands in the indented blocks of a text."""
    blocks = [[]]
    for line in text.splitlines():
        if line.startswith(INDENT):
            blocks[-1].append(line.removeprefix(INDENT))
        else:
            blocks.append([])
    return [act for block in blocks for act in acts_of(block)]


def uncounted(line):
    """The line, without how many messages, moments and lines came: these are other numbers in each run."""
    return re.sub(r"\d+(?= received: | processed)", "N", line)


def untimed(line):
    """A line of the log with its mark, without the time of day, how many seconds have gone, and such numbers."""
    line = re.sub(r"(\[INFO \] )\d+\.\d s: ", r"\1S s: ", re.sub("(0.0 s is ).*", r"\1DATE", uncounted(line)))
    return re.sub(r"(\[WARN \] )\d+\.\d s: ", r"\1", line)


def quit_differs(router, act):
    """What differs where a console's last line is typed."""
    ended = router.quit()
    log = differs("log", [uncounted(line) for line in act.after], [uncounted(line) for line in ended.log])
    return ends_well(ended) + log


def act_differs(router, act):
    """What differs in one line's answer. Each line of the log is waited for, so the next one is typed when all is told."""
    for line in act.before:
        router.wait_log(line)
    if act.line == QUIT:
        return quit_differs(router, act)
    if act.line.startswith("show "):
        came = router.answer_in_time(act.line, act.answer)
    else:
        came = router.answer(act.line)
    for line in act.after:
        router.wait_log(line)
    return differs(f"{act.side}> {act.line}", act.answer, came)


def two_consoles():
    """The transcript of examples/console.md is typed at two consoles. A `show` is asked again until it is answered as written."""
    near1, far1, near2, far2 = routers.free_addresses(4)
    head = example("console-head.toml", [near1, far1, near2, far2])
    tail = example("console-tail.toml", [far1, near1, far2, near2])
    with routers.attend(head) as at_head, routers.attend(tail) as at_tail:
        sides = {"head": at_head, "tail": at_tail}
        acts = transcript((EXAMPLES / "console.md").read_text(encoding="utf-8"))
        for act in acts:
            text = act_differs(sides[act.side], act)
            if text:
                return text
    return differs("consoles that ended", list(sides), [act.side for act in acts if act.line == QUIT])


def three_consoles():
    """The lines of docs/OPERATE.md are typed at three consoles. A `show` is asked again until it is answered as written."""
    texts = {name: (EXAMPLES / "three" / f"{name}.toml").read_text(encoding="utf-8") for name in ("east", "middle", "west")}
    documented = sorted({it for text in texts.values() for it in re.findall(r'^listen = "(.*)"$', text, re.MULTILINE)})
    moved = dict(zip(documented, routers.free_addresses(len(documented))))
    with contextlib.ExitStack() as stack:
        consoles = {}
        for name, text in texts.items():
            places = [moved[it] for it in re.findall(r'^(?:listen|send) = "(.*)"$', text, re.MULTILINE)]
            consoles[name] = stack.enter_context(routers.attend(routers.at_addresses(text, places)))
        acts = transcript((asked.TOP / "docs" / "OPERATE.md").read_text(encoding="utf-8"))
        text = "".join(act_differs(consoles[act.side], act) for act in acts)
        text += "" if acts else "docs/OPERATE.md has no transcript\n"
        return text + "".join(ends_well(router.quit()) for router in consoles.values())


# A tunnel between two routers.


# The log's line of a link whose frames were all sent.
LINK_1_ALL_SENT = r"link 1: .*; 0 frames not sent, 0 socket errors"


def tunnel_ends(refresh_ms):
    """The configurations of two routers: a tunnel begins at the first and ends at the second."""
    near, far = routers.free_addresses(2)
    ends = example("serve-head.toml", [near, far]), example("serve-tail.toml", [far, near])
    return [re.sub("refresh_ms = .*", f"refresh_ms = {refresh_ms}", text) for text in ends]


def turns_differ(ended, paths, reservations):
    """What differs at the end of a router that was served for some turns."""
    text = "" if any(re.fullmatch(LINK_1_ALL_SENT, line) for line in ended.log) else f"the log has {ended.log}\n"
    return text + lacks([end_line(paths, reservations)], ended.log) + ends_well(ended, [])


def two_routers_by_turns():
    """Two routers are served for some turns, and the tunnel between them comes up, though one starts some seconds later."""
    head, tail = tunnel_ends(TURNS_REFRESH_MS)
    turns = ["--turns", TUNNEL_TURNS]
    with routers.serve(tail, *turns) as at_tail, routers.serve(head, *turns) as at_head:
        return turns_differ(at_head.end(), 1, 1) + turns_differ(at_tail.end(), 1, 0)


def two_routers_at_consoles():
    """The tunnel comes up over a link that has another number at its other end; then both know it, under one label, and README.md has its line."""
    head, tail = tunnel_ends(LONG_REFRESH_MS)
    tail = tail.replace("number = 1\n", "number = 5\n")
    with routers.attend(tail) as at_tail, routers.attend(head) as at_head:
        text = ""
        for router, line, wanted in [
            (at_head, "show resvs", [f"resv {LSP} 1 se 47f42400 16"]),
            (at_head, "show paths", [f"path {LSP} head 1 0"]),
            (at_head, "show lsps", re.findall(r"^    (lsp .*)$", (asked.TOP / "README.md").read_text(encoding="utf-8"), re.MULTILINE)),
            (at_head, "show table", ["tunnel 1 push 16 1"]),
            (at_tail, "show resvs", []),
            (at_tail, "show paths", [f"path {LSP} tail 0 1"]),
            (at_tail, "show table", ["16 pop"]),
        ]:
            text += shows(router, line, wanted)
        for router, reservations in [(at_head, 1), (at_tail, 0)]:
            ended = router.quit()
            text += ends_well(ended) + lacks([end_line(1, reservations)], ended.log)
        return text


def killed_neighbour():
    """The tail is killed: the LSP expires at the head, and the tunnel comes up again with the next tail."""
    head, tail = tunnel_ends(SHORT_REFRESH_MS)
    with routers.attend(head) as at_head:
        with routers.attend(tail):
            text = shows(at_head, "show table", ["tunnel 1 push 16 1"])
        at_head.wait_log(f"lsp down: {LSP}")
        at_head.wait_log("tunnel 1 down")
        text += differs("show table", [], at_head.answer("show table"))
        with routers.attend(tail) as at_tail:
            at_head.wait_log(f"lsp up: {LSP} link 1 rate 125000 (1000000 bit/s)")
            at_head.wait_log("tunnel 1 up on lsp 1")
            text += shows(at_head, "show table", ["tunnel 1 push 16 1"]) + shows(at_tail, "show table", ["16 pop"])
            return text + ends_well(at_tail.quit()) + ends_well(at_head.quit())


def wait_told(router, pattern):
    """Waits until the log has a line that matches, and gives the match."""
    while not (found := re.fullmatch(pattern, line := routers.said_by(router.next_line(router.told, pattern)))):
        router.log.append(line)
    return found


# Frames over sockets, with this script as the neighbours.


class Line(NamedTuple):
    """The middle router of a line, its neighbours' sockets and where it listens, both by the numbers of the links."""

    router: routers.Router
    sockets: dict
    listen: dict

    def send(self, link, frame, sender=None):
        """Sends a frame over a link, from its neighbour's socket or another one."""
        host, port = self.listen[link].split(":")
        (sender or self.sockets[link]).sendto(frame, (host, int(port)))

    def receive(self, link):
        """The next frame that the router sends over the link."""
        return self.sockets[link].recv(routers.MOST_BYTES)

    def is_silent(self):
        """Whether no frame waits at a neighbour."""
        return all(routers.waiting_bytes(routers.address_of(opened)) == NONE_WAIT for opened in self.sockets.values())


@contextlib.contextmanager
def line_of_three(*words):
    """The middle router of a line, with a console."""
    listen = dict(enumerate(routers.free_addresses(2), 1))
    host = routers.fresh_host()
    with routers.open_socket(host) as first, routers.open_socket(host) as second:
        addresses = [listen[1], routers.address_of(first), listen[2], routers.address_of(second)]
        with routers.serve(routers.at_addresses(MIDDLE, addresses), "--console", *words) as router:
            for address in listen.values():
                routers.wait_bound(address)
            yield Line(router, {1: first, 2: second}, listen)


def frames():
    """The frames that come and leave: of each its way, its link and its bytes."""
    for line in FRAMES.splitlines():
        if not line.startswith("#"):
            way, link, digits = line.split()
            yield way, int(link), bytes.fromhex(digits)


def path_frames():
    """A Path that comes over link 1, and what leaves over link 2 then."""
    (_, _, came), (_, _, left) = list(frames())[:2]
    return came, left


def frame_differs(wanted, came):
    """What differs in two frames."""
    return differs("frame", [wanted.hex()], [came.hex()])


def frames_go_on():
    """Each frame leaves byte for byte as it has to, and no other one does."""
    text = ""
    with line_of_three() as line:
        for way, link, frame in frames():
            if way == "in":
                line.send(link, frame)
            else:
                text += frame_differs(frame, line.receive(link))
        ended = line.router.quit()
        text += "" if line.is_silent() else "another frame came\n"
    wanted = [port_line("link 1", dropped=2, passed=1, fed=3), port_line("link 2", fed=1), end_line(1, 0)]
    return text + lacks(wanted, ended.log) + ends_well(ended)


def any_sender():
    """What comes at a link's address is its neighbour's, whoever sent it."""
    came, left = path_frames()
    with line_of_three() as line, routers.open_socket(routers.fresh_host()) as stranger:
        line.send(1, came, stranger)
        text = frame_differs(left, line.receive(2))
        ended = line.router.quit()
    return text + lacks([port_line("link 1", fed=1), end_line(1, 0)], ended.log) + ends_well(ended)


def junk(path):
    """Datagrams that are no frames for a router, each with another fault."""
    return [
        b"",  # no byte
        b"\x07",  # a kind that there isn't
        HOP,  # no message
        path[:-1],  # not as long as its length says
        path[:3] + b"\x12\x34" + path[5:],  # a wrong checksum
        HOP + b"\x20" + path[2:],  # another version
        HOP + b"\x10" * (MOST_MESSAGE + 1),  # a message that is too long
        HOP * routers.MOST_BYTES,  # as long as a datagram can be
        bytes.fromhex("02"),  # a labelled frame without a count
        bytes.fromhex("0209") + bytes(40),  # too many labels
        bytes.fromhex("0201000101400068656c6c6f"),  # a label that nobody has
        bytes.fromhex("030a00"),  # a routed frame without a whole address
    ]


def junk_is_dropped():
    """Datagrams that are no frames are counted and come to nothing; a Path behind them is answered as ever."""
    came, left = path_frames()
    dropped = junk(came)
    with line_of_three() as line:
        for datagram in dropped:
            line.send(1, datagram)
        line.send(1, came)
        text = frame_differs(left, line.receive(2))
        ended = line.router.quit()
    count = len(dropped)
    told = f"link 1: of {count + 1} received {count} dropped, 0 refused"
    wanted = [told, port_line("link 1", dropped=count, fed=1), end_line(1, 0)]
    return text + lacks(wanted, ended.log) + ends_well(ended)


def cold_router_refuses():
    """A router that was restarted is cold: a Path is refused, and so are moments."""
    came, _ = path_frames()
    with line_of_three() as line:
        text = differs("restart", ["done"], line.router.answer("restart"))
        line.send(1, came)
        routers.wait_until(lambda: routers.waiting_bytes(line.listen[1]) == NONE_WAIT, "the Path isn't read")
        ended = line.router.quit()
        text += "" if line.is_silent() else "a frame came\n"
    wanted = ["link 1: of 1 received 0 dropped, 1 refused", port_line("link 1", refused=1), end_line(0, 0)]
    return text + lacks(wanted, ended.log) + ends_well(ended)


def lost_frame():
    """A frame that the socket doesn't take, for an address of all, is told as lost; what came is served."""
    came, _ = path_frames()
    with routers.open_socket(routers.fresh_host()) as neighbour:
        listen = routers.free_addresses(2)
        addresses = [listen[0], routers.address_of(neighbour), listen[1], UNSENDABLE]
        with routers.attend(routers.at_addresses(MIDDLE, addresses)) as router:
            Line(router, {1: neighbour}, {1: listen[0]}).send(1, came)
            text = shows(router, "show paths", ["path 10.0.0.4/1/10.0.0.1 10.0.0.1/1 transit 2 1"])
            ended = router.quit()
    lost = "1 frames not sent, 0 socket errors"
    # It is told when the round is over, and among the counts at the end.
    wanted = [f"link 1: {lost}", f"link 1: 1 received: 1 processed, 0 forwarded, 0 dropped, 0 refused; {lost}"]
    return text + differs("losses", wanted, [line for line in ended.log if line.endswith(lost)]) + ends_well(ended)


def echoed():
    """What a line has the router send is printed with `--echo`, and goes to the neighbour."""
    with line_of_three("--echo") as line:
        answer = line.router.answer("tunnel 9 10.0.0.3 47f42400 3 3 04 t9 10.2.0.3/32")
        sent = line.receive(2)
        text = ends_well(line.router.quit())
    return text + differs("echo", ["done", f"tx 2 {sent.removeprefix(HOP).hex()}"], answer)


def marked():
    """With `--mark` a line with a full stop stands after each answer, whatever the answer is."""
    wanted = [line for _, answer in MARKED for line in answer] + ["reconciled "]
    with routers.file_of(one_link()) as file:
        came = asked.ask("serve", file, "--console", "--mark", "--log", "off", given=b"\n".join(line for line, _ in MARKED))
    printed = came.out.decode().splitlines()
    begun = [line[: len(want)] if want else line for line, want in zip(printed, wanted)] + printed[len(wanted) :]
    return differs("answers", wanted, begun) + asked.differs(Answer(0), came._replace(out=b""))


def counted_lines(router):
    """What `show counters` prints of a router with two links, and how many lines its console had then."""
    lines = router.answer("show counters")
    console = re.fullmatch(r"console: (\d+) received: .*", lines[-1])
    return lines[:3] + [uncounted(line) for line in lines[3:]], int(console[1]) if console else 0


def counters():
    """What each port did is shown, with the links' addresses, up to the end of the last round: a piece of the journal ends one."""
    came, left = path_frames()
    with line_of_three() as line:
        links = [f"link {link} listen {line.listen[link]} send {routers.address_of(line.sockets[link])}" for link in (1, 2)]
        seats = [uncounted(port_line(seat, fed=1)) for seat in ("clock", "console")]
        wanted = [COUNTED, port_line(links[0], fed=1), port_line(links[1]), *seats]
        text = differs("show counters", [NOTHING_COUNTED], line.router.answer("show counters"))
        line.send(1, came)
        text += frame_differs(left, line.receive(2))
        feed_lines(line.router)
        first, before = counted_lines(line.router)
        feed_lines(line.router)
        second, after = counted_lines(line.router)
        text += differs("the first round", wanted, first) + differs("the rounds", wanted, second)
        text += "" if 0 < before < after else f"the console had {before} lines, and {after} a round later\n"
        return text + ends_well(line.router.quit())


# Lines at a console.


def one_link():
    """The configuration of a router with one link, to which nobody sends."""
    return routers.at_addresses(ONE_LINK, [*routers.free_addresses(1), NOBODY])


def lines_at_ticks():
    """Lines that come one by one, between ticks of the clock and with them, are each taken once and answered, in their order."""
    wanted = []
    with routers.serve(one_link(), "--console") as router:
        for pair in range(1, TYPED_PAIRS + 1):
            router.type("start")
            router.type("what")
            wanted += ["done", f"bad line {2 * pair}", "  what", OTHER_FORM]
            time.sleep(TYPED_SECONDS)
        ended = router.quit()
    return ends_well(ended, [*wanted, "the run ends"]) + lacks([port_line("console", fed=TYPED_PAIRS)], ended.log)


def places_of_lines():
    """The number of a line that isn't taken is its place: remarks and empty lines count, too. Of each answer the beginning is wanted."""
    wanted = [line for _, answer in PLACED for line in answer] + ["reconciled "]
    with routers.file_of(one_link()) as file:
        came = asked.ask("serve", file, "--console", "--log", "off", given=b"\n".join(line for line, _ in PLACED))
    printed = came.out.decode().splitlines()
    begun = [line[: len(want)] for line, want in zip(printed, wanted)] + printed[len(wanted) :]
    return differs("answers", wanted, begun) + asked.differs(Answer(0), came._replace(out=b""))


def unwritable_answers():
    """Where an answer can't be written, or the line that ends a run, the run ends with status 1; its journal is whole."""
    text = ""
    for lines, entries in ((b"", 0), (b"start\n", 1), (b"quit\n", 0)):
        with room_for_journal() as room, open("/dev/full", "wb") as full:
            words = ["serve", "router.toml", "--console", "--log", "off", "--journal", "night"]
            came = asked.ask(*words, given=lines, stdout=full, cwd=room)
            counts = counts_of(checked(journal_files(room), room))
            text += asked.differs(Answer(1, err=UNWRITABLE), came) + ("" if sum(counts) >= entries else f"{counts} entries\n")
    return text


# What is told.


def whole_log(words, marks):
    """The whole log of a run with these words: of what is told as it runs and at its end the lines that have these marks."""
    came, left = path_frames()
    with tempfile.TemporaryDirectory() as folder, line_of_three(*words, "--journal", f"{folder}/night") as line:
        line.send(1, b"")
        line.send(1, came)
        text = frame_differs(left, line.receive(2))
        text += differs("down", ["done"], line.router.answer("down 2"))
        time.sleep(SETTLING_SECONDS)
        line.router.type(QUIT)
        line.router.process.stdin.close()
        status = line.router.process.wait(routers.MOST_SECONDS)
        told = [untimed(it) for it in iter(line.router.told.get, None)]
    wanted = [it.format(folder) for it in WHOLE_LOG if it.startswith(marks)]
    return text + differs("log", wanted, told) + ("" if status == 0 else f"status {status}\n")


def not_up_told():
    """After two seconds it is told that an LSP isn't up: one whose Path nobody answers, and one that has no link."""
    text = example("console-head.toml", routers.free_addresses(4)).replace("number = 2\n", "number = 2\nup = false\n")
    text += TUNNEL.format(1, "10.1.0.2/32") + TUNNEL.format(2, "10.2.0.2/32")
    with routers.serve(text, "--console", "--log", "warn") as router:
        for line in NOT_UP:
            router.wait_log(line)
        ended = router.quit()
    return differs("log", [], ended.log) + status_differs(ended)


def refused_path_told():
    """A Path that is refused is told at the router that refuses it, with how often, and once at its ingress."""
    head, tail = tunnel_ends(SHORT_REFRESH_MS)
    head = head.replace('route = ["10.0.0.2/32"]', 'route = ["10.0.0.2/32", "10.0.0.9/32"]').replace('endpoint = "10.0.0.2"', 'endpoint = "10.0.0.9"')
    with routers.attend(tail) as at_tail, routers.attend(head) as at_head:
        at_head.wait_log("tunnel 1 error 24/2 BadStrictNode from 10.0.0.2")
        time.sleep(AGAIN_SECONDS)
        near, far = at_head.quit(), at_tail.quit()
    text = "".join(f"told again: {line}\n" for line in near.log if line.startswith("tunnel 1 error"))
    told = re.compile(r"Path for 10\.0\.0\.9/1/10\.0\.0\.1 over link 1 refused: error 24/2 BadStrictNode, [2-9] times")
    text += "" if any(map(told.fullmatch, far.log)) else f"the log has {far.log}\n"
    return text + ends_well(near) + ends_well(far)


def many_errors_told():
    """Equal errors are told with how often they came, and of very many different ones how many others there were."""
    came, _ = path_frames()
    with line_of_three("--log", "warn") as line:
        text = differs("down", ["done"], line.router.answer("down 2"))
        for number in [1, *range(1, MANY_ERRORS + 1)]:
            line.send(1, of_tunnel(came, number))
        wait_read(line, 1)
        ended = line.router.quit()
    told = [f"Path for 10.0.0.4/{number}/10.0.0.1 over link 1 refused: error 24/2 BadStrictNode" for number in range(1, MOST_ERRORS)]
    wanted = [f"{STRANGER}, {MANY_ERRORS + 1} times", f"{told[0]}, 2 times", *told[1:], f"{MANY_ERRORS - MOST_ERRORS + 1} other errors"]
    return text + differs("log", wanted, ended.log) + status_differs(ended)


def restored_once():
    """An LSP that runs over a bypass is reserved on its own path again before the router is looked at: what differs in what is told."""
    near1, far1, near2, far2 = routers.free_addresses(4)
    head, tail = example("console-head.toml", [near1, far1, near2, far2]), example("console-tail.toml", [far1, near1, far2, near2])
    with routers.attend(tail) as at_tail, routers.attend(head) as at_head:
        at_head.answer("tunnel 1 10.0.0.2 47f42400 3 3 07 t1 10.1.0.2/32")
        text = shows(at_head, "show table", ["tunnel 1 push 16 1"])
        at_head.answer("tunnel 100 10.0.0.2 47f42400 7 7 04 round 10.2.0.2/32")
        at_head.answer("bypass 1 100 1")
        text += shows(at_head, "show bypasses", ["bypass 1 100 1 up 0 0 0"])
        for router in (at_head, at_tail):
            router.answer("down 1")
        at_head.wait_log(f"lsp repaired over bypass 1: {LSP}")
        for router, line in ((at_head, "down 2"), (at_head, "up 1"), (at_tail, "up 1")):
            router.answer(line)
        text += shows(at_head, "show resvs", [f"resv {LSP} 1 se 47f42400 16"])
        time.sleep(SETTLING_SECONDS)
        near, far = at_head.quit(), at_tail.quit()
        text += lacks([f"lsp restored to its own path: {LSP} link 1 rate 125000 (1000000 bit/s)"], near.log)
        return text + ends_well(near) + ends_well(far)


def restored_told():
    """An LSP that is back on its own path is told so. A look that comes between tells that it was down and is up, so it is tried again."""
    for _ in range(MOST_TRIES):
        text = restored_once()
        if not text:
            break
    return text


# Rounds, and workers.


def of_tunnel(frame, number):
    """A message's frame as one about the tunnel of this number, without a checksum."""
    changed = bytearray(frame)
    changed[CHECKSUM_AT] = bytes(2)
    changed[TUNNEL_AT] = number.to_bytes(2, "big")
    return bytes(changed)


def labelled(label, ttl, payload):
    """A frame with one label."""
    return b"\2\1" + (label << 12 | 1 << 8 | ttl).to_bytes(4, "big") + b"\0" + payload


def wait_read(line, link):
    """Waits until the router has read all that came over the link."""
    routers.wait_until(lambda: routers.waiting_bytes(line.listen[link]) == NONE_WAIT, f"link {link} isn't read")


def send_junk(line, count):
    """Sends so many datagrams over link 1 that are no frames, no faster than they are read."""
    for first in range(0, count, FRAMES_AT_ONCE):
        for _ in range(first, min(count, first + FRAMES_AT_ONCE)):
            line.send(1, b"")
        wait_read(line, 1)


def ticks_differ(ended, least, most):
    """What differs where a router ran for so many seconds at least, and for so many at most: it has a tick for each tenth of one."""
    ticks = next(int(found[1]) for line in ended.log if (found := re.match(r"clock: (\d+) received", line)))
    lowest, highest = least / TICK_SECONDS - LATE_TICKS, most / TICK_SECONDS + 1
    return "" if lowest <= ticks <= highest else f"{ticks} ticks, in {least:.1f} to {most:.1f} s\n"


def rounds_go_on():
    """A round is over after so many frames of a link. Then links and clock go on, and what was dropped before and after is counted."""
    came, left = path_frames()
    began = time.monotonic()
    with line_of_three() as line:
        ready = time.monotonic()
        send_junk(line, MANY_FRAMES)
        told = wait_told(line.router, r"link 1: of (\d+) received \1 dropped, 0 refused")
        text = "" if int(told[1]) <= ROUND_FRAMES else f"a round of {told[1]} frames\n"
        time.sleep(AFTER_ROUND_SECONDS)
        line.send(1, came)
        text += frame_differs(left, line.receive(2))
        ends = time.monotonic()
        ended = line.router.quit()
        text += ticks_differ(ended, ends - ready, time.monotonic() - began)
    rest = MANY_FRAMES - int(told[1])
    wanted = [f"link 1: of {rest + 1} received {rest} dropped, 0 refused", port_line("link 1", dropped=MANY_FRAMES, fed=1)]
    return text + lacks(wanted, ended.log) + ends_well(ended)


def bursts():
    """What a frame changed counts for the next one of its link, where many come at once; then nobody is kept waiting by who brought them."""
    path, resv, tear = (list(frames())[place][2] for place in MESSAGES_AT)
    tunnels = range(1, BURST + 1)
    with line_of_three() as line:
        for number in tunnels:
            line.send(1, of_tunnel(path, number))
            line.receive(2)
        for number in tunnels:
            line.send(2, of_tunnel(resv, number))
            line.send(2, labelled(FIRST_LABEL + number - 1, 64, bytes([number])))
        text = "".join(frame_differs(labelled(NEXT_LABEL, 63, bytes([number])), line.receive(2)) for number in tunnels)
        text += differs("show tunnels", [], line.router.answer("show tunnels"))
        for number in tunnels:
            line.send(1, of_tunnel(tear, number))
            line.send(1, labelled(FIRST_LABEL + number - 1, 64, bytes([number])))
        wait_read(line, 1)
        text += differs("show paths", [], line.router.answer_in_time("show paths", []))
        ended = line.router.quit()
    wanted = [port_line("link 1", dropped=BURST, fed=2 * BURST), port_line("link 2", passed=BURST, fed=BURST), end_line(0, 0)]
    return text + lacks(wanted, ended.log) + ends_well(ended)


@contextlib.contextmanager
def flood(line, frame):
    """The frame comes over link 1, again and again."""
    is_over = threading.Event()

    def send_on():
        while not is_over.is_set():
            line.send(1, frame)

    sender = threading.Thread(target=send_on)
    sender.start()
    try:
        yield
    finally:
        is_over.set()
        sender.join()


def flooded():
    """A link that brings frames without end leaves the operator and the clock their turns."""
    came, _ = path_frames()
    began, answers = time.monotonic(), 0
    with line_of_three() as line:
        ready = time.monotonic()
        with flood(line, came):
            while time.monotonic() < ready + FLOOD_SECONDS:
                answers += len(line.router.answer("start"))
        ends = time.monotonic()
        ended = line.router.quit()
        text = ticks_differ(ended, ends - ready, time.monotonic() - began)
    return text + ("" if answers >= LEAST_ANSWERS else f"{answers} answers\n") + ends_well(ended)


def a_minute():
    """After a minute a round is over: a file of the journal is written, and ticks go on. What isn't up is told once more."""
    with room_for_journal() as room:
        text = example("serve-head.toml", [*routers.free_addresses(1), NOBODY])
        (room / "router.toml").write_text(text, encoding="utf-8")
        with journal_router(room) as router:
            router.answer("start")
            began = time.monotonic()
            routers.wait_until((room / "night.1").exists, "night.1 isn't written")
            files = [file.name for file in journal_files(room)]
            time.sleep(max(0, began + MINUTE_SECONDS - time.monotonic()))
            ended = router.quit()
        told = [f"tunnel 1: lsp 1 is not up for {seconds} s: its Path is sent, and no Resv has come" for seconds in (2, 62)]
        text = differs("files", ["night.1"], files) + lacks(told, ended.log) + ticks_differ(ended, MINUTE_SECONDS, MINUTE_SECONDS + 1)
        counts = counts_of(checked(journal_files(room), room))
        return text + ends_well(ended) + ("" if len(counts) == 2 and is_run(journal_files(room), room) else f"files of {counts} entries\n")


# Sockets that can't be had, and turns.


def refused_link(listen, send, address, why):
    """A link at these addresses isn't served, which is told of one of them."""
    with routers.file_of(routers.at_addresses(ONE_LINK, [listen, send])) as file:
        came = asked.ask("serve", file, "--turns", "1")
    return asked.differs(Answer(1, err=NO_SOCKET.format(3, address, why).encode()), came)


def taken_address():
    """An address that another program has can't be had."""
    with routers.open_socket(routers.fresh_host()) as taken:
        address = routers.address_of(taken)
        return refused_link(address, NOBODY, address, TAKEN)


def one_address_twice():
    """Two links can't have one address, and a link can't be its own neighbour."""
    first, second = routers.free_addresses(2)
    with routers.file_of(routers.at_addresses(MIDDLE, [first, second, first, NOBODY])) as file:
        came = asked.ask("serve", file, "--turns", "1")
    return asked.differs(Answer(1, err=NO_SOCKET.format(2, first, TAKEN).encode()), came) + refused_link(first, first, first, ITSELF)


def two_families():
    """Links of both families: the first by its number, whose addresses are of two, is told."""
    came = asked.ask("serve", DATA / "two-links.toml", "--turns", "1")
    return asked.differs(Answer(1, err=NO_SOCKET.format(2, "127.0.0.1:5702", OTHER_FAMILY).encode()), came)


def sockets_by_number():
    """The sockets of a configuration's links, in the order of the links' numbers."""
    came = asked.ask("config", DATA / "two-links.toml")
    lines = [line for line in came.out.decode().splitlines() if re.match("number|listen|send", line)]
    wanted = [
        "number = 2",
        'listen = "[::1]:5701"',
        'send = "127.0.0.1:5702"',
        "number = 7",
        'listen = "127.0.0.1:5703"',
        'send = "127.0.0.1:5704"',
    ]
    return differs("sockets", wanted, lines)


def no_turns(word):
    """A word that names no number of turns."""
    came = asked.ask("serve", EXAMPLES / "serve-head.toml", "--turns", word)
    return asked.differs(Answer(2, err=NO_TURNS_TOLD), came)


def silent_links(word, turns):
    """Two links on which nothing comes, for so many turns: the whole log, in its order."""
    lines = [port_line("link 1"), port_line("link 2"), port_line("clock", fed=turns), end_line(0, 0)]
    told = "".join(f"[INFO ] {line}\n" for line in lines)
    with routers.file_of(routers.at_addresses(MIDDLE, routers.free_addresses(4))) as file:
        came = asked.ask("serve", file, "--turns", word)
    return asked.differs(Answer(0, f"reconciled {turns} entries\n".encode(), told.encode()), came)


def turns_of_frames():
    """A link takes a frame in each turn, and when its turns are over no more."""
    listen, send = routers.free_addresses(2)
    with routers.serve(routers.at_addresses(ONE_LINK, [listen, send]), "--turns", str(FRAME_TURNS)) as router:
        routers.wait_bound(listen)
        with routers.open_socket(routers.fresh_host()) as neighbour:
            for _ in range(2 * FRAME_TURNS):
                Line(router, {3: neighbour}, {3: listen}).send(3, b"")
        ended = router.end()
    taken = int(re.match(r"link 3: (\d+) received", ended.log[0])[1])
    text = "" if LEAST_TAKEN <= taken <= FRAME_TURNS else f"{taken} frames taken\n"
    return text + lacks([port_line("link 3", dropped=taken), port_line("clock", fed=FRAME_TURNS)], ended.log) + ends_well(ended, [])


def most_turns():
    """The most turns are begun; such a run takes a day, and is killed."""
    listen, send = routers.free_addresses(2)
    with routers.serve(routers.at_addresses(ONE_LINK, [listen, send]), "--turns", MOST_TURNS) as router:
        routers.wait_bound(listen)
        return "" if router.process.poll() is None else "the run ended\n"


# The journal.


@contextlib.contextmanager
def room_for_journal():
    """A folder, and in it the configuration of a router with two links."""
    with tempfile.TemporaryDirectory() as folder:
        room = pathlib.Path(folder)
        file = room / "router.toml"
        file.write_text(routers.at_addresses(MIDDLE, routers.free_addresses(4)), encoding="utf-8")
        yield room


def journal_files(room):
    """The files of a journal, in the order of their numbers."""
    return sorted(room.glob("night.*"), key=lambda file: int(file.suffix[1:]))


def many_lines(room):
    """A run at whose console so many lines are typed that a piece of the journal is full: how it ended."""
    lines = ["down 1", *["start"] * LINES, "show links", QUIT]
    return asked.ask("serve", "router.toml", "--console", "--journal", "night", given=("\n".join(lines)).encode(), cwd=room)


def answers_differ(ran, end):
    """What differs in the answers to these lines: what the first said is known to the last, pieces later."""
    links = ["link 1 down 1250000 0 0 0 0 0 0 0 0", "link 2 up 1250000 0 0 0 0 0 0 0 0"]
    return differs("output", ["done"] * (LINES + 1) + links + ["the run ends", end], ran.out.decode().splitlines())


def checked(files, room):
    """What `lsr check` says of these files."""
    return asked.ask("check", *[file.name for file in files], cwd=room)


def counts_of(checks):
    """How many entries each file has."""
    return [int(found[1]) for found in re.finditer(r"^run of (\d+) entries$", checks.out.decode(), re.MULTILINE)]


def is_run(files, room):
    """Whether all these files are one run."""
    checks = checked(files, room)
    return checks.status == 0 and len(counts_of(checks)) == len(files)


def journal_differs(room, ran):
    """What differs in a journal: a piece is full, all together are the run, and another order is told."""
    files = journal_files(room)
    counts = counts_of(checked(files, room))
    text = answers_differ(ran, f"reconciled {sum(counts)} entries")
    if ran.status != 0 or not is_run(files, room) or max(counts) != PIECE:
        text += f"status {ran.status}; {len(files)} files, of {counts} entries\n"
    told = (
        f"  in {files[0].name}\n"
        "  it doesn't begin where the file before it ended: one is missing, or they stand in another order: give all, by their "
        "numbers\n"
    )
    backward = Answer(1, f"run of {counts[1]} entries\nentry 0: Gap\n".encode(), told.encode())
    return text + asked.differs(backward, checked([files[1], files[0]], room))


def again_differs(room):
    """What differs where a second run has the same prefix: it is refused, and each file is as it was."""
    before = {file.name: file.read_bytes() for file in journal_files(room)}
    text = again_refused(room, r"night\.\d+", "give another name, or move it away with those that belong to it")
    after = {file.name: file.read_bytes() for file in journal_files(room)}
    return text + ("" if before == after else "the files aren't as they were\n")


def journal_of_pieces():
    """A run of more than one piece leaves a file of each; none of them is written over."""
    with room_for_journal() as room:
        return journal_differs(room, many_lines(room)) + again_differs(room)


@contextlib.contextmanager
def journal_router(room, *words):
    """A router of one link with a console, whose journal goes into the room."""
    router = routers.Router(["serve", str(room / "router.toml"), "--console", "--journal", str(room / "night"), *words])
    try:
        yield router
    finally:
        router.process.kill()
        router.process.wait()


def feed_lines(router):
    """Types as many lines as fill more than a file of the journal, the answers to which are waited for."""
    for _ in range(LINES):
        router.type("start")
    router.answer("show links")


def wait_waiting(router, told):
    """Waits until this is told of a file, with how many wait: how many that are."""
    return int(wait_told(router, rf"{re.escape(told)}; (\d+) files wait in memory, and are tried again with the next")[1])


def unwritten_counted(router):
    """What `show counters` prints of files that aren't written."""
    return [re.sub(r"\d+ (s|files)", r"N \1", line) for line in router.answer("show counters") if line.startswith("journal")]


def later_file_unwritable():
    """A file that can't be written is told at once, waits, and is written when there is room again: nothing is lost."""
    with room_for_journal() as room, journal_router(room) as router:
        router.answer("start")
        (room / "night.1").mkdir()
        feed_lines(router)
        why = f"{room}/night.1 is no regular file, and is not replaced: give another name"
        wait_waiting(router, f"journal: {why}")
        counted = unwritten_counted(router)
        (room / "night.1").rmdir()
        feed_lines(router)
        router.wait_log("journal: all files that waited are written")
        counted += unwritten_counted(router)
        ended = router.quit()
        files = journal_files(room)
        text = differs("show counters", [f"journal since N s: {why}; N files wait"], counted)
        text += "" if ended.status == 0 and is_run(files, room) else f"status {ended.status}, files {files}\n"
        return text + ("" if sum(counts_of(checked(files, room))) > 2 * LINES else "entries are lost\n")


def file_unwritable_at_the_end():
    """A file that is still not written at the end is told, with status 1."""
    with room_for_journal() as room, journal_router(room) as router:
        router.answer("start")
        (room / "night.1").mkdir()
        ended = router.quit()
        told = [f"  {room}/night.1 is no regular file, and is not replaced: give another name, and run it again"]
        return lacks(["unwritable", *told], ended.log) + ("" if ended.status == 1 else f"status {ended.status}\n")


def one_prefix_twice():
    """A second router with the prefix of one that runs doesn't begin, before the first file is there and after it."""
    with room_for_journal() as room, journal_router(room) as router:
        router.answer("start")
        text = again_refused(room, r"night\.1\.part", "another router writes this journal, or one was killed while it did")
        feed_lines(router)
        routers.wait_until((room / "night.1").exists, "night.1 isn't written")
        text += again_refused(room, r"night\.\d+", "give another name, or move it away with those that belong to it")
        ended = router.quit()
        return text + ("" if ended.status == 0 and is_run(journal_files(room), room) else f"status {ended.status}\n")


def again_refused(room, file, why):
    """What differs where a second router is to keep its journal under the same prefix: such a file is named, and it is told why."""
    other = room / "other.toml"
    other.write_text(routers.at_addresses(MIDDLE, routers.free_addresses(4)), encoding="utf-8")
    came = asked.ask("serve", other.name, "--console", "--journal", "night", cwd=room)
    told = re.fullmatch(rf"unwritable\n  {file} is there already.*{re.escape(why)}.*, and run it again\n", came.err.decode())
    return "" if came.status == 1 and told else f"status {came.status}, told: {came.err.decode()}"


def nothing_left_behind():
    """A run that doesn't begin leaves no claim, nor does one that was told of a folder alone."""
    with room_for_journal() as room:
        (room / "bad.toml").write_text("router = 1\n", encoding="utf-8")
        asked.ask("serve", "bad.toml", "--console", "--journal", "night", cwd=room)
        asked.ask("serve", "bad.toml", "--turns", "1", "--journal", "night", cwd=room)
        came = asked.ask("serve", "router.toml", "--console", "--journal", f"{room}/", cwd=room)
        told = f"unwritable\n  {room}/ is the name of a folder: give the files a name in it, and run it again\n"
        left = sorted(file.name for file in room.iterdir())
        return asked.differs(Answer(1, err=told.encode()), came) + differs("files", ["bad.toml", "router.toml"], left)


def refusals_told():
    """A reservation that finds no bandwidth is told by the router that refuses it, and by the egress; both have told the Path before."""
    head, tail = tunnel_ends(LONG_REFRESH_MS)
    head = re.sub("limit = .*", "limit = 1000", head)
    session = "10.0.0.2/1/10.0.0.1"
    with routers.attend(tail) as at_tail, routers.attend(head) as at_head:
        at_tail.wait_log(f"path received: {LSP} (egress here)")
        time.sleep(SETTLING_SECONDS)
        text = shows(at_head, "show resvs", [])
        near, far = at_head.quit(), at_tail.quit()
        text += lacks([f"Resv for {session} over link 1 refused: error 1/2 NoBandwidth"], near.log)
        text += lacks([f"ResvErr for {session} over link 1 received: error 1/2 NoBandwidth from 10.0.0.1"], far.log)
        return text + ends_well(near) + ends_well(far)


def first_events_told():
    """What happens from a router's first moment on is told, however many start at once."""
    with contextlib.ExitStack() as stack:
        pairs = [[stack.enter_context(routers.serve(text, "--console")) for text in tunnel_ends(LONG_REFRESH_MS)] for _ in range(PAIRS)]
        for at_head, at_tail in pairs:
            at_tail.wait_log(f"path received: {LSP} (egress here)")
            at_head.wait_log("tunnel 1 up on lsp 1")
        return "".join(ends_well(router.quit()) for pair in pairs for router in pair)


def readers_gone():
    """A command whose reader has enough ends without a word; a router goes on when its reader has."""
    program = asked.program()
    came = subprocess.run(["bash", "-c", '"$0" explain list | head -n 1', program], capture_output=True, check=False)
    text = "" if came.stderr == b"" and came.stdout.count(b"\n") == 1 else f"told: {came.stderr}\n"
    with room_for_journal() as room:
        reader, writer = os.pipe()
        words = [program, "serve", "router.toml", "--console", "--journal", "night"]
        with subprocess.Popen(words, stdin=subprocess.PIPE, stdout=writer, stderr=subprocess.PIPE, cwd=room) as router:
            os.close(reader)
            os.close(writer)
            _, told = router.communicate(b"start\n" * LINES + b"quit\n", routers.MOST_SECONDS)
        files = journal_files(room)
        entries = sum(counts_of(checked(files, room)))
        return text + ("" if is_run(files, room) and entries >= LINES and b"unwritable" not in told else f"{entries} entries, told: {told}\n")


def killed_run():
    """A run that is killed leaves whole files."""
    with room_for_journal() as room:
        router = routers.Router(["serve", str(room / "router.toml"), "--console", "--journal", str(room / "night")])
        try:
            router.process.stdin.write("start\n" * LINES)
            router.process.stdin.flush()
            routers.wait_until((room / "night.1").exists, "night.1 isn't written")
        finally:
            router.process.kill()
            router.process.wait()
        return "" if is_run([room / "night.1"], room) else "night.1 is no run\n"


# Those that take longest stand first.
CASES = [
    ("a minute", a_minute),
    ("two consoles", two_consoles),
    ("three consoles", three_consoles),
    ("a killed neighbour", killed_neighbour),
    ("two routers, by turns", two_routers_by_turns),
    *[(f"turns `{word}`", functools.partial(silent_links, word, turns)) for word, turns in TURNS],
    ("a journal of pieces", journal_of_pieces),
    ("a file that can't be written for a while", later_file_unwritable),
    ("a file that can't be written at the end", file_unwritable_at_the_end),
    ("one prefix twice", one_prefix_twice),
    ("nothing is left behind", nothing_left_behind),
    ("a run that is killed", killed_run),
    ("refusals are told", refusals_told),
    ("first events are told", first_events_told),
    ("readers that go away", readers_gone),
    ("two routers, at consoles", two_routers_at_consoles),
    ("frames go on", frames_go_on),
    ("any sender", any_sender),
    ("junk is dropped", junk_is_dropped),
    ("a cold router refuses", cold_router_refuses),
    ("a frame that is lost", lost_frame),
    ("echo", echoed),
    ("marks", marked),
    ("counters", counters),
    ("rounds go on", rounds_go_on),
    ("bursts", bursts),
    ("a flood", flooded),
    ("lines at ticks", lines_at_ticks),
    ("places of lines", places_of_lines),
    ("answers that can't be written", unwritable_answers),
    ("a whole log", functools.partial(whole_log, [], (INFO, WARN))),
    ("a log of all", functools.partial(whole_log, ["--log", "info"], (INFO, WARN))),
    ("a log of warnings", functools.partial(whole_log, ["--log", "warn"], (WARN,))),
    ("no log", functools.partial(whole_log, ["--log", "off"], ())),
    ("what isn't up is told", not_up_told),
    ("a refused Path is told", refused_path_told),
    ("many errors are told", many_errors_told),
    ("what is back is told", restored_told),
    ("turns of frames", turns_of_frames),
    (f"turns `{MOST_TURNS}`", most_turns),
    *[(f"turns `{word}`", functools.partial(no_turns, word)) for word in NO_TURNS],
    ("an address that is taken", taken_address),
    ("an address of two links, and of both ends", one_address_twice),
    *[(f"to {it}", functools.partial(refused_link, "127.0.0.1:5701", it, it, why)) for it, why in OTHER_ADDRESSES],
    *[(f"at {it}", functools.partial(refused_link, it, NOBODY, it, why)) for it, why in OTHER_ADDRESSES if why != OTHER_FAMILY],
    ("at an address of IPv6", functools.partial(refused_link, "[::1]:5701", NOBODY, NOBODY, OTHER_FAMILY)),
    ("two families", two_families),
    ("sockets by number", sockets_by_number),
]


def chosen(cases):
    """The cases that words name, all where there are none."""
    words = argparse.ArgumentParser(description="Runs the cases of these names, or all.")
    words.add_argument("--lsr", metavar="PROGRAM", help="the program, in place of the one that is built here")
    words.add_argument("names", nargs="*", metavar="NAME", help="the name of a case")
    names = words.parse_args().names
    if strange := set(names) - {name for name, _ in cases}:
        words.error(f"there is no case {', '.join(sorted(strange))}")
    return [case for case in cases if not names or case[0] in names]


if __name__ == "__main__":
    sys.exit(asked.count(chosen(CASES)))
