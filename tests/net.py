#!/usr/bin/env python3
"""Hostile uses of net/lsrnet: wrong words, files and programs, no rights, two at once, interfaces that go, packets that are none, children that
are killed or hang. Each has to end in clear words, and leave the kernel as it was.

  tests/net.py [--lsr PROGRAM] [WORD..]     all uses, or those whose names have one of the words

It works in two network namespaces of its own, `here` with the adapter and `there` with its neighbours, joined by two links, and forwards by
the user plane, so the kernel needs no MPLS. It needs root and iproute2: where they aren't, it says that it skipped all.
"""

import contextlib
import ctypes
import errno
import os
import pathlib
import re
import shutil
import signal
import socket
import stat
import struct
import subprocess
import sys
import tempfile
import textwrap
import threading
import time
import tomllib

import asked

LSRNET = asked.TOP / "net" / "lsrnet"
sys.path.insert(0, str(LSRNET))
import configuration  # noqa: E402
import hello  # noqa: E402
import wire  # noqa: E402
from links import Link  # noqa: E402
from machine import SO_NETNS_COOKIE  # noqa: E402
from netlink import Interfaces  # noqa: E402
from plane import TUNNELS, KernelPlane, Row  # noqa: E402

# A Path that comes over link 1 of the built-in router, which sends it on over link 2.
PATH = bytes.fromhex((asked.TOP / "examples" / "first-path.step").read_text(encoding="ascii").split()[2])
# The links of the built-in router: address here, address there, interface here, interface there.
LINKS = [("10.1.0.2", "10.1.0.1", "a-b", "b-a"), ("10.2.0.2", "10.2.0.3", "a-c", "c-a")]
SETTINGS = ["ipv4/conf/all/rp_filter", "ipv4/conf/lo/rp_filter", "ipv4/conf/lo/accept_local"]
SETTINGS += [f"ipv4/conf/{it[2]}/{name}" for it in LINKS for name in ("rp_filter", "accept_local")]
# A message that the adapter takes for a Resv.
RESV = PATH[:1] + bytes([wire.RESV]) + PATH[2:]
# A router that answers as MODE says, sends a Resv over link 1 once that is up, and keeps a file `given` once it gave a table.
FAKE_ROUTER = """
import os, pathlib, socket, sys
wire, tables, room = socket.socket(socket.AF_INET, socket.SOCK_DGRAM), 0, pathlib.Path(sys.argv[1])
wire.bind(("127.0.0.1", 5001))
for line in map(str.strip, sys.stdin):
    if line == "up 1" and not (room / "sent").exists():
        (room / "sent").touch()
        wire.sendto(b"\\1" + bytes.fromhex(sys.argv[3]), ("127.0.0.1", 5000))
    elif line == "show table" and (room / "sent").exists():
        tables += 1
        if sys.argv[2] == "ends" and tables == 1:
            os._exit(7)
        if tables > 3:
            (room / "given").touch()
        print("16 swap 100 1" if tables > 3 else "memory")
    print(".", flush=True)
"""
# What a changed file has more than the built-in router's: a bypass of link 1 over link 2, another route, and a tunnel of this name.
MORE = """
[[route]]
prefix = "10.9.0.0/16"
link = 2

[[tunnel]]
number = 7
endpoint = "10.0.0.1"
route = ["10.1.0.1/32"]
rate = "47f42400"
setup = 3
hold = 3
flags = 7
name = "NAME"

[[tunnel]]
number = 100
endpoint = "10.0.0.1"
route = ["10.2.0.3/32", "~10.0.0.1/32"]
rate = "47f42400"
setup = 7
hold = 7
flags = 4
name = "round"

[[bypass]]
number = 1
tunnel = 100
link = 1
"""
MADE = ["route 10.9.0.0/16 2", "tunnel 7 10.0.0.1 47f42400 3 3 07 t7 10.1.0.1/32", "tunnel 100 10.0.0.1 47f42400 7 7 04 round 10.2.0.3/32 ~10.0.0.1/32",
        "bypass 1 100 1 0"]
# What doesn't come in so many seconds doesn't come: the machine may be busy, and the unproved program slow.
MOST_SECONDS = 180
PAUSE = 0.1


def ip(words):
    """What `ip` prints."""
    return subprocess.run(["ip", *words.split()], capture_output=True, text=True, check=True).stdout


@contextlib.contextmanager
def inside(namespace):
    """This thread is in a network namespace: sockets and processes that are made now are there."""
    setns = ctypes.CDLL(None, use_errno=True).setns
    with open("/proc/thread-self/ns/net", "rb") as back, open(f"/run/netns/{namespace}", "rb") as there:
        if setns(there.fileno(), 0):
            raise OSError(ctypes.get_errno(), f"setns {namespace}")
        try:
            yield
        finally:
            setns(back.fileno(), 0)


def wait_until(holds, what):
    """Waits until it holds."""
    last = time.monotonic() + MOST_SECONDS
    while not holds():
        if time.monotonic() > last:
            raise TimeoutError(what() if callable(what) else what)
        time.sleep(PAUSE)


class Place:
    """The namespaces, and a folder for files."""

    def __init__(self):
        self.here, self.there = (f"lsrtest{os.getpid()}.{name}" for name in ("here", "there"))
        self.room = pathlib.Path(tempfile.mkdtemp(prefix="lsrnet."))
        (self.room / "state").mkdir()
        self.file = self.write("router.toml", asked.ask("config").out)
        # The adapter that runs, if one does; and who has the path taken.sock.
        self.running = self.listener = None
        for name in (self.here, self.there):
            ip(f"netns add {name}")
            ip(f"-n {name} link set lo up")
        for link in LINKS:
            self.join(*link)
        with inside(self.here):
            # Values that a run has to change, and to put back.
            for name in SETTINGS:
                pathlib.Path("/proc/sys/net", name).write_text("2" if name.endswith("rp_filter") else "0", encoding="ascii")
        self.before = self.kernel()

    def join(self, address, peer, face, other):
        """A link between the namespaces."""
        ip(f"link add {face} netns {self.here} type veth peer name {other} netns {self.there}")
        for name, interface, prefix in ((self.here, face, address), (self.there, other, peer)):
            ip(f"-n {name} address add {prefix}/24 dev {interface}")
            ip(f"-n {name} link set {interface} up")

    def close(self):
        """All goes."""
        if self.running:
            self.running.end(signal.SIGKILL)
        for name in (self.here, self.there):
            for process in ip(f"netns pids {name}").split():
                os.kill(int(process), signal.SIGKILL)
            ip(f"netns del {name}")
        shutil.rmtree(self.room)

    def tables(self, text):
        """The tables of a configuration."""
        return configuration.read_configuration(asked.program(), str(self.write("read.toml", text)))[1]

    def write(self, name, text, mode=0o644):
        """A file in the folder."""
        path = self.room / name
        path.write_bytes(text if isinstance(text, bytes) else text.encode())
        path.chmod(mode)
        return path

    def kernel(self):
        """What the adapter may change in the kernel, as lines."""
        words = ["-4 rule", "-4 route show table all", "-4 neigh show nud permanent"]
        lines = [" ".join(line.split()) for it in words for line in ip(f"-n {self.here} {it}").splitlines()]
        lines += re.findall(r"^\w[\w-]*", ip(f"-n {self.here} -br link"), re.MULTILINE)
        managed = [line for line in ip(f"-n {self.here} -4 neigh").splitlines() if "proto 246" in line or "managed" in line]
        with inside(self.here):
            settings = [f"{it} = {pathlib.Path('/proc/sys/net', it).read_text(encoding='ascii').strip()}" for it in SETTINGS]
        return sorted(lines + managed + settings)

    def left(self):
        """What is in the kernel and wasn't before, or the other way round."""
        wait_until(lambda: not re.search(r"\blsr0\b", ip(f"-n {self.here} -br link")), "lsr0 stays")
        now = self.kernel()
        wrong = [f"left behind: {it}" for it in now if it not in self.before] + [f"missing: {it}" for it in self.before if it not in now]
        return "\n".join(wrong)

    def start(self, words, out, prefix=()):
        """Starts the adapter here, by a command before it, and with what it says on both streams to `out`."""
        with inside(self.here):
            return subprocess.Popen([*prefix, sys.executable, LSRNET / "lsrnet", *map(str, words)], stdin=subprocess.DEVNULL, stdout=out, stderr=subprocess.STDOUT, text=True)

    def run(self, *words, prefix=()):
        """How the adapter ends on these words: its status, and what it says on both streams."""
        with self.start(words, subprocess.PIPE, prefix) as process:
            try:
                said = process.communicate(timeout=MOST_SECONDS)[0]
            except BaseException:
                process.terminate()
                raise
        return process.returncode, said

    def words(self, *more, file=None, lsr=None):
        """The words of a run with the user plane."""
        return ["run", file or self.file, "--plane", "user", "--lsr", lsr or asked.program(), "--state", self.room / "state", *more]

    def ends(self, status, pattern, words, prefix=()):
        """What differs where the adapter is to end with this status and these words, and to leave nothing."""
        came, said = self.run(*words, prefix=prefix)
        text = "" if came == status else f"status {status} wanted, {came} came\n"
        text += "" if re.search(pattern, said) and "Traceback" not in said else f"wanted {pattern!r}, it says:\n{said}\n"
        return text + self.left()


class Adapter:
    """An adapter that runs here."""

    def __init__(self, place, *more, lsr=None, prefix=()):
        self.place, self.path, self.log = place, place.room / "ask.sock", place.room / "log"
        with open(self.log, "w", encoding="utf-8") as out:
            self.process = place.start(place.words("--socket", self.path, *more, lsr=lsr), out, prefix)
        place.running = self

    @classmethod
    def of(cls, place, process):
        """One that runs already, and whose log is elsewhere."""
        adapter = cls.__new__(cls)
        adapter.place, adapter.path, adapter.log, adapter.process = place, place.room / "ask.sock", place.write("log", ""), process
        return adapter

    def said(self):
        """Its log."""
        return self.log.read_text(encoding="utf-8", errors="replace")

    def wait_said(self, pattern, times=1):
        """Waits until its log has the pattern so often."""
        wait_until(lambda: len(re.findall(pattern, self.said())) >= times, lambda: f"{pattern!r} isn't said {times} times in\n{self.said()}")

    def ask(self, line):
        """Its answer to a line; none where it can't be asked."""
        with socket.socket(socket.AF_UNIX, socket.SOCK_SEQPACKET) as asking, contextlib.suppress(OSError):
            asking.settimeout(MOST_SECONDS)
            asking.connect(str(self.path))
            asking.send(line if isinstance(line, bytes) else line.encode())
            return asking.recv(1 << 20).decode()
        return ""

    def wait_answer(self, line, pattern):
        """Waits until a line has such an answer."""
        wait_until(lambda: re.search(pattern, self.ask(line)), lambda: f"{line} doesn't answer {pattern!r}, but {self.ask(line)!r}\n{self.said()}")

    def count(self, name, link=1):
        """A count of a link."""
        return int(re.search(rf'rsvp_packets_{name}_total{{link="{link}"}} (\d+)', self.ask("metrics"))[1])

    def child(self):
        """The process of its router."""
        found = subprocess.run(["pgrep", "-P", str(self.process.pid)], capture_output=True, text=True, check=False).stdout.split()
        return int(found[0])

    def end(self, number=signal.SIGTERM):
        """Ends it; its status."""
        self.place.running = None
        self.process.send_signal(number)
        return self.process.wait(MOST_SECONDS)


def send(place, packets, protocol=wire.RSVP, to="10.1.0.2"):
    """RSVP packets go from the neighbour of link 1; or whole IP packets, where the protocol is that of raw ones."""
    with inside(place.there), socket.socket(socket.AF_INET, socket.SOCK_RAW, protocol) as sending:
        for it in packets:
            sending.sendto(it, (to, 0))


def send_frames(place, frames, ethertype):
    """Ethernet frames go from the neighbour of link 1."""
    hardware = bytes.fromhex(re.search(r"link/ether (\S+)", ip(f"-n {place.here} link show a-b"))[1].replace(":", ""))
    with inside(place.there), socket.socket(socket.AF_PACKET, socket.SOCK_DGRAM) as sending:
        for it in frames:
            sending.sendto(it, ("b-a", ethertype, 0, 0, hardware))


def lacks(pattern, text):
    """What differs where a text is to have the pattern."""
    return "" if re.search(pattern, text) else f"wanted {pattern!r}, it says {text!r}\n"


def program(place, name, serve):
    """A program that reads configurations as lsr does, and serves as this shell command does."""
    return place.write(name, f'#!/bin/sh\n[ "$1" = config ] && exec "{asked.program()}" "$@"\n{serve}\n', 0o755)


def refused_starts(place):
    """Starts that are refused: a name, and the status, the words and the options of each."""
    good, room = place.file.read_text(encoding="utf-8"), place.room
    place.listener = socket.socket(socket.AF_UNIX, socket.SOCK_STREAM)
    place.listener.bind(str(room / "taken.sock"))
    place.listener.listen()
    place.write("plain", "")
    without_links = good[:good.index("[[link]]")]
    files = [
        ("a file that isn't there", room / "absent.toml", "no such file"), ("a folder as a file", room, "unreadable"),
        ("a file that is no TOML", place.write("text.toml", "router ="), "config Text"),
        ("bytes that are no text", place.write("bytes.toml", bytes(range(256))), "unreadable"),
        ("an empty file", place.write("empty.toml", ""), "config Missing router"),
        ("a key that there isn't", place.write("key.toml", good + "colour = 1\n"), "config UnknownKey colour"),
        ("labels that are too many", place.write("labels.toml", good.replace("4111", "9999")), "config BadValue labels"),
        ("two links of one address", place.write("twice.toml", good.replace("10.2.0.2", "10.1.0.2")), "config Repeated address"),
        ("no link", place.write("links.toml", without_links), r"has no link: write a \[\[link\]\]"),
        ("no address of an interface", place.write("far.toml", good.replace("10.1.0.2", "10.3.0.2").replace("10.2.0.2", "10.4.0.2")), "no interface has the address of any link"),
    ]
    for name, file, pattern in files:
        yield name, 1, pattern, place.words(file=file)
    programs = [
        ("no program", room / "absent", "name the program lsr by --lsr"), ("a program that can't be run", place.write("no.sh", "x"), "Permission denied: .* by --lsr"),
        ("a program that prints no configuration", place.write("bad.sh", "#!/bin/sh\necho nonsense\n", 0o755), "by --lsr"),
        ("a program that prints nothing", place.write("mute.sh", "#!/bin/sh\n", 0o755), "is no configuration"),
        ("a router that ends at once", program(place, "ends.sh", "exit 3"), "ended with status 3 before it answered"),
        ("a router that is killed at once", program(place, "dies.sh", "kill -9 $$"), "ended with status -9 before it answered"),
    ]
    for name, path, pattern in programs:
        yield name, 1, pattern, place.words(lsr=path)
    options = [
        ("keys that aren't there", "--keys", room / "absent", "--keys: .*No such file"), ("keys that others may read", "--keys", place.write("open.keys", "a-b 1 hmac-md5 text:x\n"), "chmod 600"),
        ("keys of another form", "--keys", place.write("form.keys", "a-b 1 md4 text:x\n", 0o600), "line 1: md4 is no digest"),
        ("a socket in no folder", "--socket", room / "absent" / "s", "No such file or directory: name a path"),
        ("a socket where a file is", "--socket", room / "plain", "already in use: name a path"), ("a socket where a folder is", "--socket", room, "already in use: name a path"),
        ("a socket where another listens", "--socket", room / "taken.sock", "already in use: name a path"),
        ("a socket of a long path", "--socket", room / ("s" * 120), "too long: name a path"),
        ("a journal in no folder", "--journal", room / "absent" / "j", "unwritable"), ("a state where a file is", "--state", room / "plain", "name a folder that you may write to"),
        ("Hello that never rests", "--hello", "0", "--hello: give 0.05"), ("Hello of no number", "--hello", "nan", "--hello: give 0.05"),
    ]
    for name, option, value, pattern in options:
        yield name, 1, pattern, place.words(option, value)
    yield "the kernel's plane without MPLS", 1, "has no MPLS: modprobe", ["run", place.file, "--lsr", asked.program()]
    yield "no words", 2, "usage: lsrnet", []
    yield "an option that there isn't", 2, "unrecognized arguments: --colour", place.words("--colour")
    yield "a question to nobody", 1, "is lsrnet run with --socket", ["ask", room / "absent.sock", "show links"]
    yield "a reload of nobody", 1, "is lsrnet run with --socket", ["reload", place.file, "--socket", room / "absent.sock", "--lsr", asked.program()]
    yield "a reload of nothing", 2, "required: --socket", ["reload", place.file]
    yield "a question to somebody else", 1, "is lsrnet run with --socket", ["ask", room / "taken.sock", "show links"]
    # What docs/NETWORK.md shows, of a link with another address.
    sample = textwrap.dedent(re.search(r"    rights: .*\n(?:    .*\n)+", (asked.TOP / "docs" / "NETWORK.md").read_text(encoding="utf-8"))[0])
    sample = re.escape(sample.replace("(10.1.0.1)", "(10.1.0.2)")).replace(r"\ ", " ")
    yield "a machine whose kernel has no MPLS", 1, f"^{sample}", ["check", place.file, "--lsr", asked.program()]
    yield "a machine that is ready", 0, "(?s)rights: ready.*link 1 .*: ready", ["check", place.file, "--plane", "user", "--lsr", asked.program()]
    yield "a machine without addresses", 1, "no interface has it: ip address add 10.3.0.2/24", ["check", room / "far.toml", "--plane", "user", "--lsr", asked.program()]


def no_rights(place):
    """Who starts it has no capabilities."""
    return place.ends(1, "run as root, or with CAP_NET_ADMIN and CAP_NET_RAW", place.words(), prefix=["setpriv", "--bounding-set=-all"])


def capabilities_alone(place):
    """Who starts it has the two capabilities alone: the router's namespace is one of a new user namespace, and its next run's, too."""
    adapter = Adapter(place, prefix=["setpriv", "--bounding-set=-all,+net_admin,+net_raw"])
    adapter.wait_answer("show links", "link 1 up")
    os.kill(adapter.child(), signal.SIGKILL)
    adapter.wait_said("runs with the labels", 2)
    adapter.wait_answer("show links", "link 1 up")
    status = adapter.end()
    return ("" if status == 0 else f"status {status}\n") + place.left()


def interface_is_taken(place):
    """Somebody has an interface lsr0."""
    ip(f"-n {place.here} link add lsr0 type veth peer name lsr1")
    try:
        status, said = place.run(*place.words())
    finally:
        ip(f"-n {place.here} link delete lsr0")
    return lacks("no interface lsr0: .*: ip link delete lsr0", said) + ("" if status == 1 else f"status {status}\n") + place.left()


def starts(place):
    """It starts: in place of a socket that a killed run left, and of a state that is none."""
    with socket.socket(socket.AF_UNIX, socket.SOCK_SEQPACKET) as stale:
        stale.bind(str(place.room / "ask.sock"))
    with inside(place.here), socket.socket(socket.AF_UNIX, socket.SOCK_DGRAM) as one:
        number = int.from_bytes(one.getsockopt(socket.SOL_SOCKET, SO_NETNS_COOKIE, 8), sys.byteorder)
    (place.room / "state" / f"{number}.json").write_text('{"starts": []', encoding="ascii")
    adapter = Adapter(place, "--journal", place.room / "j")
    adapter.wait_answer("show links", "link 1 up.*\nlink 2 up")
    mode = stat.S_IMODE(os.stat(adapter.path).st_mode)
    return "" if mode == 0o660 else f"the socket has the mode {mode:o}"


def second_adapter(place):
    """A second one in the namespace."""
    status, said = place.run(*place.words())
    return lacks("another lsrnet", said) + ("" if status == 1 else f"status {status}\n") + lacks("link 1 up", place.running.ask("show links"))


def ignored(packets, **more):
    """Packets that have no message which a router reads: none goes to the router, each is counted."""

    def case(place):
        was, had = place.running.count("ignored"), place.running.count("received")
        send(place, packets, **more)
        wait_until(lambda: place.running.count("ignored") >= was + len(packets), "they aren't counted")
        return "" if place.running.count("received") == had else "the router got some"

    return case


def bad_checksum(place):
    """A Path whose checksum is wrong makes no path."""
    had = place.running.count("received")
    send(place, [PATH[:2] + b"\x12\x34" + PATH[4:]])
    wait_until(lambda: place.running.count("received") > had, "it doesn't come")
    return lacks("^\n?$", place.running.ask("show paths"))


def fragments(place):
    """A Path in fragments makes a path, whatever its destination; the fragments of another one, of which one is missing, make none."""
    whole = wire.ip_packets(wire.Packet("10.0.0.1", "10.0.0.4", 255, PATH, alert=True), 64)
    hardware_type = wire.IPV4
    send_frames(place, whole[1:], hardware_type)
    time.sleep(1)
    text = lacks("^\n?$", place.running.ask("show paths"))
    send_frames(place, wire.ip_packets(wire.Packet("10.0.0.1", "10.0.0.4", 255, PATH, alert=True), 64)[::-1], hardware_type)
    place.running.wait_answer("show paths", "path 10.0.0.4/1/10.0.0.1")
    return text


def giant(place):
    """A packet of 65,535 bytes, which is longer than a datagram to the router."""
    was = place.running.count("ignored")
    message = PATH[:6] + struct.pack("!H", 65508) + bytes(65500)
    send_frames(place, wire.ip_packets(wire.Packet("10.0.0.1", "10.0.0.4", 255, message), 1500), wire.IPV4)
    wait_until(lambda: place.running.count("ignored") > was, "it isn't counted")
    return lacks("link 1 up", place.running.ask("show links"))


def random_packets(place):
    """Packets of chance, with the header of a message and without."""
    send(place, [os.urandom(length) for length in range(8, 208, 2)] + [PATH[:8] + os.urandom(length) for length in range(0, 200, 2)])
    return lacks("link 1 up", place.running.ask("show links"))


def labelled_packets(place):
    """Labelled packets that are short, that end nowhere, whose label nobody gave, or whose TTL is over."""
    frames = [b"", b"\0", b"\0\x01\x01\x40", b"\0\x01\0\x40" * 300, b"\0\x01\x01\0" + bytes(40), b"\xff" * 60] + [os.urandom(it) for it in range(60)]
    send_frames(place, frames, wire.MPLS)
    return lacks("link 1 up", place.running.ask("show links"))


def strangers(place):
    """Another process of the machine, with all rights, sends a frame to where the router listens."""
    had = place.running.ask("show paths")
    tear = bytes.fromhex((asked.TOP / "examples" / "first-path.step").read_text(encoding="ascii").split()[8])
    with inside(place.here), socket.socket(socket.AF_INET, socket.SOCK_DGRAM) as sending:
        for port in (5000, 5001, 5002, 5003):
            with contextlib.suppress(OSError):
                sending.sendto(b"\x01" + tear, ("127.0.0.1", port))
                sending.sendto(b"\x01" + tear, ("127.0.0.1", port))
    time.sleep(1)
    return "" if place.running.ask("show paths") == had else "the router took it"


def flap(place):
    """An interface goes down and comes up."""
    ip(f"-n {place.there} link set c-a down")
    place.running.wait_answer("show links", "link 2 down")
    ip(f"-n {place.there} link set c-a up")
    place.running.wait_answer("show links", "link 2 up")
    return ""


def interface_goes(place):
    """An interface is deleted, and made anew."""
    ip(f"-n {place.here} link delete a-c")
    place.running.wait_answer("show links", "link 2 down")
    text = lacks("link 2: a-c went", place.running.said())
    place.join(*LINKS[1])
    place.running.wait_answer("show links", "link 2 up")
    send(place, [PATH])
    sent = place.running.count("sent", 2)
    wait_until(lambda: place.running.count("sent", 2) > sent, "nothing leaves by the new interface")
    return text


def address_goes(place):
    """An interface loses its address, and gets it again."""
    ip(f"-n {place.here} address del 10.2.0.2/24 dev a-c")
    place.running.wait_answer("show links", "link 2 down")
    ip(f"-n {place.here} address add 10.2.0.2/24 dev a-c")
    place.running.wait_answer("show links", "link 2 up")
    return ""


def renamed(place):
    """An interface gets another name, and its own again."""
    for old, new in (("a-c", "other"), ("other", "a-c")):
        ip(f"-n {place.here} link set {old} down")
        place.running.wait_answer("show links", "link 2 down")
        ip(f"-n {place.here} link set {old} name {new}")
        ip(f"-n {place.here} link set {new} up")
        place.running.wait_answer("show links", "link 2 up")
    return lacks("link 2 is other", place.running.said())


def changed_route(place):
    """Somebody takes a tunnel's route away: it is put right within ten seconds."""
    answer = place.running.ask("tunnel 7 10.0.0.1 47f42400 3 3 04 t7 10.1.0.1/32")
    text = lacks("^done", answer)
    place.running.ask("drop 7")
    ip(f"-n {place.here} route add default via 169.254.0.9 dev lsr0 onlink table 4600009 proto 246")
    place.running.wait_said("weren't as they were written; put right")
    return text + ("" if "4600009" not in ip(f"-n {place.here} route show table all") else "it is still there")


def bad_lines(place):
    """Operators who say what is no line."""
    wanted = [(b"x" * 5000, "^bad line"), (b"\xff\xfe", "^bad line"), (b"show links\nquit", "^bad line"), (b"quit", "is ended with lsrnet"), (b" quit ", "is ended with"),
              (b"#", "^\n$"), (b"rx 1 00", "^bad line"), (b".", "^bad line"), (b"down 9", "^refused|^bad|^error"), (b"show links", "link 1 up")]
    return "".join(lacks(pattern, place.running.ask(line)) for line, pattern in wanted)


def refused_lines(place):
    """`ask` says by its status that a line was refused."""
    status, said = place.run("ask", place.running.path, "show links", "drop 99")
    return lacks("refused 20 UnknownTunnel", said) + ("" if status == 1 else f"status {status}")


def reloads(place):
    """A changed file becomes what runs, by lines that are printed with their answers; what no line changes is told, and nothing is done then."""
    good = place.file.read_text(encoding="utf-8")

    def after(text, *more):
        file = place.write("changed.toml", text)
        return place.run("reload", file, "--socket", place.running.path, "--lsr", asked.program(), *more)

    full, answers = good + MORE.replace("NAME", "t7"), "".join(f"{line}: done\n" for line in MADE)
    steps = [
        (full, ["--dry-run"], 0, "".join(f"{line}\n" for line in MADE)), (full, [], 0, answers), (full, [], 0, ""),
        (full.replace("up = true", "up = false"), [], 0, ""),
        (full.replace("link = 2\n\n[[tunnel]]", "link = 1\n\n[[tunnel]]").replace('"10.2.0.3/32", ', '"10.2.0.3/32", "~10.0.0.7/32", '), [], 0,
         "route 10.9.0.0/16 1: done\nchange 100 47f42400 10.2.0.3/32 ~10.0.0.7/32 ~10.0.0.1/32: done\n"),
        (good + MORE.replace("NAME", "A to B"), [], 1, "lsrnet: no line makes tunnel 7, since its name is no word: .*"),
        (full.replace("limit = 1250000", "limit = 1", 1).replace("4111", "100"), [], 1, "lsrnet: no line changes labels, link 1: .*"),
        (full + "colour = 1\n", [], 1, "lsrnet: .*UnknownKey.*"),
    ]
    text = ""
    for given, more, status, pattern in steps:
        came, said = after(given, *more)
        text += "" if came == status and (re.fullmatch(pattern, said, re.DOTALL) or said == pattern) else f"status {came}, it says {said!r}, not {pattern!r}\n"
        shown = place.running.ask("show config")
        if given == full and not more:
            text += "" if configuration.difference(tomllib.loads(shown), place.tables(full)) == [] else f"show config says {shown}\n"
    saved = place.write("saved.toml", shown)
    text += "" if tomllib.loads(shown)["labels"] == place.tables(good)["labels"] and "listen" not in shown else f"saved: {shown}\n"
    text += "" if place.tables(shown) == tomllib.loads(shown) else f"{saved} reads back otherwise\n"
    came, said = after(good)
    wanted = ["unbypass 1", "drop 7", "drop 100", "unroute 10.9.0.0/16"]
    return text + ("" if came == 0 and said == "".join(f"{line}: done\n" for line in wanted) else f"status {came}, it says {said!r}\n")


def many_operators(place):
    """Operators who come and say nothing, or don't read; others are answered all the same, and before what these asked for next."""
    with contextlib.ExitStack() as stack:
        for _ in range(40):
            sleeper = stack.enter_context(socket.socket(socket.AF_UNIX, socket.SOCK_SEQPACKET))
            sleeper.setblocking(False)
            with contextlib.suppress(OSError):
                sleeper.connect(str(place.running.path))
                for _ in range(20):
                    sleeper.send(b"help")
    place.running.wait_answer("show links", "link 1 up")
    return ""


def child_killed(place):
    """The router is killed: it starts again with the other half of the labels, and goes on."""
    os.kill(place.running.child(), signal.SIGKILL)
    place.running.wait_said(r"runs with the labels \d+ to \d+", 2)
    halves = re.findall(r"runs with the labels (\d+) to (\d+)", place.running.said())
    place.running.wait_answer("show links", "link 1 up.*\nlink 2 up")
    return lacks("ended with status -9", place.running.said()) + ("" if halves[0] != halves[1] else f"the same labels: {halves}")


def child_hangs(place):
    """The router is stopped: operators are told, and it goes on when it does."""
    child, before = place.running.child(), place.running.said().count("has been silent for 10 s")      # as on a machine that is busy
    os.kill(child, signal.SIGSTOP)
    try:
        asking = threading.Thread(target=place.running.ask, args=["show links"])
        asking.start()
        place.running.wait_said("has been silent for 10 s", before + 1)
        text = lacks("silent for", place.running.ask("show links")) + lacks("router_silent_seconds 1", place.running.ask("metrics"))
    finally:
        os.kill(child, signal.SIGCONT)
    asking.join(MOST_SECONDS)
    place.running.wait_answer("show links", "link 1 up")
    return text


def ends_well(number):
    """It ends by a signal, with status 0; its journals are whole, and nothing is left."""

    def case(place):
        adapter = place.running or Adapter(place, "--journal", place.room / "j")
        adapter.wait_answer("show links", "link 1 up")
        status = adapter.end(number)
        text = lacks("ended with status 0: reconciled", adapter.said()) + ("" if status == 0 else f"status {status}\n")
        return text + ("the socket is left\n" if adapter.path.exists() else "") + place.left()

    return case


def journals(place):
    """The journals of all these runs are runs."""
    whole = [it for it in place.room.glob("j*.[0-9]*") if it.suffix[1:].isdecimal()]      # a router that is killed may leave a .part
    prefixes = {it.stem for it in whole}
    text = "" if len(prefixes) > 2 else f"journals of {sorted(prefixes)} alone\n"
    for prefix in prefixes:
        files = sorted((it for it in whole if it.stem == prefix), key=lambda it: int(it.suffix[1:]))
        answer = asked.ask("check", *map(str, files))
        text += "" if answer.status == 0 else f"{prefix}: {answer.out.decode()}{answer.err.decode()}\n"
    return text


def killed(place):
    """It is killed: its router ends by itself, and the next start takes away what was left."""
    adapter = Adapter(place)
    adapter.wait_answer("show links", "link 1 up")
    child = adapter.child()
    adapter.end(signal.SIGKILL)
    text = "" if place.kernel() != place.before else "nothing was left by a killed one, so nothing is tested\n"
    wait_until(lambda: not os.path.exists(f"/proc/{child}"), "the router stays")
    again = Adapter(place)
    again.wait_answer("show links", "link 1 up")
    again.end()
    return text + place.left()


def never_ends(place):
    """A router that answers nothing, and doesn't end with its input, is killed after 20 seconds."""
    adapter = Adapter(place, lsr=program(place, "sleeps.sh", "exec sleep 1000"))
    adapter.wait_said("has been silent for 10 s")
    status = adapter.end()
    return lacks("it was killed, since it didn't end in 20 s", adapter.said()) + ("" if status == 0 else f"status {status}\n") + place.left()


def no_reader(place):
    """Who reads its log goes: it goes on, and leaves nothing behind at its end."""
    reading, writing = os.pipe()
    process = place.start(place.words("--socket", place.room / "ask.sock"), writing)
    os.close(writing)
    with open(reading, encoding="utf-8", errors="replace") as log:
        while "runs with the labels" not in log.readline():
            pass
    place.running = Adapter.of(place, process)
    flap(place)
    status = place.running.end()
    return ("" if status == 0 else f"status {status}\n") + place.left()


def waiting_resv(place, mode):
    """An adapter whose router sent a Resv and gives no table; what came to the neighbour of link 1 since."""
    for name in ("sent", "given"):
        (place.room / name).unlink(missing_ok=True)
    place.write("fake.py", FAKE_ROUTER)
    serve = f"exec {sys.executable} {place.room}/fake.py {place.room} {mode} {RESV.hex()}"
    with inside(place.there):
        heard = socket.socket(socket.AF_INET, socket.SOCK_RAW, wire.RSVP)
    heard.settimeout(PAUSE)
    return Adapter(place, lsr=program(place, "fake.sh", serve)), heard


def came(heard):
    """The messages that came."""
    with contextlib.suppress(TimeoutError):
        return [wire.read_packet(heard.recv(1 << 16)).message] + came(heard)
    return []


def no_table(place):
    """The router has no memory for its table: a Resv waits until it gives one."""
    adapter, heard = waiting_resv(place, "waits")
    with heard:
        adapter.wait_said("show table says ..memory")
        text = "".join("a Resv came before the table\n" for it in came(heard) if it == RESV and not (place.room / "given").exists())
        wait_until(lambda: RESV in came(heard), "the Resv doesn't come")
    adapter.end()
    return text + place.left()


def ends_before_table(place):
    """The router ends between a Resv and its table: the Resv, whose label nobody has, doesn't leave, and counts as lost."""
    adapter, heard = waiting_resv(place, "ends")
    with heard:
        adapter.wait_said("runs with the labels", 2)
        adapter.wait_said("link 1 up", 2)
        text = "the Resv left\n" if RESV in came(heard) else ""
    text += "" if adapter.count("lost") else "it isn't counted\n"
    adapter.end()
    return text + place.left()


def program_goes(place):
    """The router's program isn't there for a while, as in an update: it is started again when it is, with the other half of the labels."""
    path = program(place, "comes.sh", f'exec "{asked.program()}" "$@"')
    adapter = Adapter(place, lsr=path)
    adapter.wait_answer("show links", "link 1 up")
    path.rename(place.room / "away.sh")
    os.kill(adapter.child(), signal.SIGKILL)
    adapter.wait_said("doesn't start again: .*comes.sh")
    time.sleep(2.5)
    (place.room / "away.sh").rename(path)
    adapter.wait_said(r"runs with the labels", 2)
    halves = re.findall(r"runs with the labels (\d+) to (\d+)", adapter.said())
    adapter.wait_answer("show links", "link 1 up")
    status = adapter.end()
    return ("" if status == 0 and halves[0] != halves[1] else f"status {status}, labels {halves}\n") + place.left()


def rules_go(place):
    """Somebody takes the adapter's rules, routes and neighbours away, as systemd-networkd does: they are there again within ten seconds."""
    adapter = Adapter(place)
    adapter.wait_answer("show links", "link 1 up.*\nlink 2 up")
    had = place.kernel()
    lines = ["rule flush", "rule add pref 0 lookup local", "rule add pref 32766 lookup main", "rule add pref 32767 lookup default"]
    for words in [*lines, f"route flush table {0x2e000001}", "neigh flush dev a-b"]:
        ip(f"-n {place.here} -4 {words}")
    adapter.wait_said("weren't as they were written; put right")
    now = place.kernel()
    lacking = [it for it in had if it not in now and "lladdr" not in it]       # a neighbour's state is another
    adapter.end()
    return "".join(f"not put right: {it}\n" for it in lacking)


def known_neighbour(place):
    """A neighbour that the kernel knew before, by ARP, stays known from then on, and goes at the end."""
    ip(f"-n {place.here} neigh replace 10.1.0.1 lladdr 02:00:00:00:00:01 nud stale dev a-b")
    adapter = Adapter(place)
    adapter.wait_answer("show links", "link 1 up.*\nlink 2 up")
    now = ip(f"-n {place.here} -4 neigh show to 10.1.0.1")
    adapter.end()
    return lacks("proto 246", now) + place.left()


class Speaker(threading.Thread):
    """A neighbour of link 1 that speaks Hello until its socket is closed."""

    def __init__(self, place):
        super().__init__(daemon=True)
        with inside(place.there):
            self.socket = socket.socket(socket.AF_INET, socket.SOCK_RAW, wire.RSVP)
        self.socket.setsockopt(socket.SOL_SOCKET, socket.SO_BINDTODEVICE, b"b-a\0")
        self.neighbour, self.is_ended = hello.Neighbour(77, 0.3), False

    def run(self):
        self.socket.settimeout(PAUSE)
        while not self.is_ended:
            with contextlib.suppress(OSError):
                packet = wire.read_packet(self.socket.recv(1 << 16))
                answer = self.neighbour.receive(time.monotonic(), packet.message)
                if answer:
                    self.socket.sendto(answer, ("10.1.0.2", 0))
        self.socket.close()


def hello_waits(place):
    """With Hello a link whose carrier comes back is told to be up once, when its neighbour is heard; a Hello of somebody else counts for nothing."""
    adapter, speaker = Adapter(place, "--hello", "0.3"), Speaker(place)
    adapter.wait_answer("show links", "link 1 up")
    speaker.start()
    wait_until(lambda: speaker.neighbour.is_there, "no Hello comes")
    stranger = wire.ip_packets(wire.Packet("10.1.0.9", "10.1.0.2", 1, hello.hello(hello.REQUEST, 999, 1)), 1500)
    ignored = adapter.count("ignored")
    send_frames(place, stranger, wire.IPV4)
    wait_until(lambda: adapter.count("ignored") > ignored, "it isn't ignored")
    ip(f"-n {place.there} link set b-a down")
    adapter.wait_answer("show links", "link 1 down")
    adapter.wait_said("Hello says that the neighbour is down")
    ip(f"-n {place.there} link set b-a up")
    adapter.wait_answer("show links", "link 1 up")
    time.sleep(2)
    told = re.findall(r"^lsrnet.*: link 1 (up|down)$", adapter.said(), re.MULTILINE)
    speaker.is_ended = True
    adapter.end()
    return ("" if told == ["up", "down", "up"] else f"link 1: {told}\n") + place.left()


class Settings:
    """The settings of a run that has none."""

    def put(self, *_, **__):
        """Nothing."""


def link_of_test(place):
    """Link 1 over its interface, and the interfaces."""
    with inside(place.here):
        interfaces, link = Interfaces(), Link(1, *LINKS[0][:2])
        link.attach(interfaces.at(link.address), 0)
    return interfaces, link


def stale_route(place):
    """An interface that loses its carrier alone keeps its routes: a tunnel that is down has none all the same; one that is up again has its own."""
    interfaces, link = link_of_test(place)
    with inside(place.here):
        plane = KernelPlane({1: link}, Settings(), lambda *_: None)
    route = f"-n {place.here} -4 route show table 4600005"
    plane.keep({TUNNELS + 5: Row((), 1)})
    text = lacks("default via 10.1.0.1 dev a-b", ip(route))
    ip(f"-n {place.there} link set b-a down")
    interfaces.hear()
    link.face = interfaces.at(link.address)._replace(up=False)
    plane.doubt(link.face.index)
    plane.keep(plane.rows)
    left = subprocess.run(["ip", *route.split()], capture_output=True, text=True, check=False).stdout
    text += f"the route stays: {left}" if left else ""
    ip(f"-n {place.there} link set b-a up")
    link.face = link.face._replace(up=True)
    plane.keep(plane.rows)
    text += lacks("default via 10.1.0.1 dev a-b", ip(route)) + ("" if plane.audit() == 0 else "it isn't as it was written\n")
    plane.netlink.change([plane.request(it, None) for it in plane.read()])
    link.detach()
    return text + place.left()


def never_blocked(place):
    """What can't leave now is lost, and nothing waits for it; what an interface said when it was down doesn't lose what is sent later."""
    interfaces, link = link_of_test(place)
    link.raw.setsockopt(socket.SOL_SOCKET, socket.SO_SNDBUF, 1)
    began, full = time.monotonic(), 0
    for _ in range(300):
        try:
            link.send(wire.Packet("10.1.0.2", "10.1.0.77", 1, PATH))      # nobody has this address
        except OSError as fault:
            full += fault.errno in (errno.EAGAIN, errno.ENOBUFS)
    took = time.monotonic() - began
    text = "" if took < 2 and full else f"{took:.1f} s, {full} times full\n"
    for state in ("down", "up"):
        ip(f"-n {place.here} link set a-b {state}")
    link.hardware = b"\2\0\0\0\0\1"
    link.send_frame(wire.MPLS, bytes(40))
    link.detach()
    return text + ("" if interfaces.neighbour(interfaces.at(link.address), "10.1.0.99") == (0, b"") else "a neighbour that nobody knows\n")


def broken_pipe(place):
    """Who reads the answers of `ask` goes."""
    adapter = Adapter(place)
    adapter.wait_answer("show links", "link 1 up")
    reading, writing = os.pipe()
    os.close(reading)
    words = [sys.executable, LSRNET / "lsrnet", "ask", str(adapter.path), "help"]
    with inside(place.here), subprocess.Popen(words, stdout=writing, stderr=subprocess.PIPE, text=True) as process:
        os.close(writing)
        said = process.communicate(timeout=MOST_SECONDS)[1]
    adapter.end()
    return "" if process.returncode == 1 and not said else f"status {process.returncode}, it says {said}"


def no_integrity(place):
    """A message without INTEGRITY, where the interface has a key, is refused and counted."""
    adapter = Adapter(place, "--keys", place.write("good.keys", "a-b 1 hmac-md5 text:secret\n", 0o600), "--hello", "0.5")
    adapter.wait_answer("show links", "link 1 up")
    send(place, [PATH])
    adapter.wait_said("link 1: .*INTEGRITY")
    text = lacks("^\n?$", adapter.ask("show paths")) + ("" if adapter.count("refused") else "it isn't counted\n")
    adapter.end()
    return text + place.left()


def cases(place):
    """The uses, in their order: some go on with the adapter that `starts` started."""
    made = [(name, lambda status=status, pattern=pattern, words=words: place.ends(status, pattern, words))
            for name, status, pattern, words in refused_starts(place) if status != 1 or "no MPLS" not in pattern or not os.path.exists("/proc/sys/net/mpls")]
    short = [bytes(length) for length in range(8)]
    others = [PATH[:1] + bytes([kind]) + PATH[2:] for kind in (0, 7, 12, 13, 15, 20, 255)]
    for case in (no_rights, capabilities_alone, interface_is_taken, starts, second_adapter):
        made.append((case.__doc__, lambda case=case: case(place)))
    made += [("packets that are short", lambda: ignored(short)(place)), ("messages of other types", lambda: ignored(others)(place))]
    for case in (bad_checksum, fragments, giant, random_packets, labelled_packets, strangers, flap, interface_goes, address_goes, renamed, changed_route, bad_lines,
                 refused_lines, reloads, many_operators, child_killed, child_hangs):
        made.append((case.__doc__, lambda case=case: case(place)))
    for number in (signal.SIGTERM, signal.SIGINT, signal.SIGHUP):
        made.append((f"it ends by {number.name}", lambda number=number: ends_well(number)(place)))
    return made + [(case.__doc__, lambda case=case: case(place)) for case in (journals, killed, never_ends, no_integrity, no_reader, no_table, ends_before_table, program_goes,
                                                                                 rules_go, known_neighbour, hello_waits, stale_route, never_blocked, broken_pipe)]


def main():
    """Runs them all; the status."""
    lacking = "it needs root" if os.geteuid() else "" if shutil.which("ip") and shutil.which("setpriv") else "it needs iproute2 (ip) and util-linux (setpriv)"
    lacking = lacking or ("" if os.path.exists("/dev/net/tun") else "it needs /dev/net/tun")
    if lacking:
        print(f"skipped: {lacking}\n0 passed, 0 failed")
        return 0
    words = [it for at, it in enumerate(sys.argv[1:]) if it != "--lsr" and sys.argv[at] != "--lsr"]
    for number in (signal.SIGTERM, signal.SIGHUP):
        signal.signal(number, lambda *_: sys.exit(1))
    place = Place()
    try:
        return asked.count([it for it in cases(place) if not words or any(word in it[0] for word in words)], at_once=1)
    finally:
        place.close()


if __name__ == "__main__":
    sys.exit(main())
