"""Routers that are served over sockets: `lsr serve` as a process, with its console, its log and addresses for its links."""

import contextlib
import itertools
import os
import pathlib
import queue
import re
import socket
import subprocess
import tempfile
import threading
import time
from typing import NamedTuple

import asked

# What doesn't come in so many seconds doesn't come. A router whose machine is too slow for its clock answers its operator only when
# a round is over, which is after a minute.
MOST_SECONDS = 100
# How long it takes until something is looked at again, in seconds.
PAUSE = 0.02
# The most bytes of a datagram over IPv4.
MOST_BYTES = 65507
# What is typed behind a line, so that its answer has an end: it is told as a bad line, and after that stand so many lines.
MARK = "="
LINES_AFTER_MARK = 2
# A line of the log: how grave it is, at a console since when, and what is told.
LOGGED = re.compile(r"\[[A-Z]+ *\] (?:\d+\.\d s: )?(.*)")
# What is told of the time of day.
DATED = re.compile(r"0\.0 s is \w{3}, \d\d \w{3} \d{4} \d\d:\d\d:\d\d GMT")
# The sockets of this machine: in each line their own address is the second word, and the fifth what waits to be sent and read.
SOCKETS = "/proc/net/udp"
# A number for each group of addresses.
GROUPS = itertools.count(1)


class Ended(NamedTuple):
    """How a router ended: its status, what it printed since the line before, and the log that nobody waited for."""

    status: int
    printed: list
    log: list


def fresh_host():
    """An address of this machine that no other process and no other case has: 127 and two bytes of this process's number."""
    number = os.getpid()
    return f"127.{number // 256 % 256}.{number % 256}.{next(GROUPS)}"


def open_socket(host):
    """A socket at any port of the host."""
    opened = socket.socket(socket.AF_INET, socket.SOCK_DGRAM)
    opened.bind((host, 0))
    opened.settimeout(MOST_SECONDS)
    return opened


def address_of(opened):
    """The address of a socket, as a configuration has it."""
    host, port = opened.getsockname()
    return f"{host}:{port}"


def free_addresses(count):
    """So many addresses that nobody has."""
    host = fresh_host()
    with contextlib.ExitStack() as stack:
        return [address_of(stack.enter_context(open_socket(host))) for _ in range(count)]


def at_addresses(text, addresses):
    """The configuration with these addresses as its links' `listen` and `send`, in the order in which they stand there."""
    left = iter(addresses)
    return re.sub(r'^(listen|send) = ".*"$', lambda key: f'{key[1]} = "{next(left)}"', text, flags=re.MULTILINE)


def waiting_bytes(address):
    """How many bytes wait at an address to be read, in hexadecimal digits; none where no socket is bound to it."""
    host, port = address.split(":")
    # Linux has the bytes of an address in the machine's order, which is the reverse one here.
    own = socket.inet_aton(host)[::-1].hex().upper() + f":{int(port):04X}"
    for line in pathlib.Path(SOCKETS).read_text(encoding="ascii").splitlines():
        words = line.split()
        if words[1] == own:
            return words[4].split(":")[1]
    return None


def wait_bound(address):
    """Waits until a router has the address."""
    wait_until(lambda: waiting_bytes(address), f"no socket is bound to {address}")


def wait_until(holds, what):
    """Waits until it holds."""
    deadline = time.monotonic() + MOST_SECONDS
    while not holds():
        if time.monotonic() > deadline:
            raise TimeoutError(what)
        time.sleep(PAUSE)


def lines_of(stream):
    """The lines of a stream as they come, and none at its end. What isn't taken waits, so the writer never does."""
    lines = queue.Queue()

    def read():
        with stream:
            for line in stream:
                lines.put(line.rstrip("\n"))
        lines.put(None)

    threading.Thread(target=read, daemon=True).start()
    return lines


def said_by(line):
    """What a line of the log tells; one of another form whole."""
    logged = LOGGED.fullmatch(line)
    return logged[1] if logged else line


class Router:
    """A router that runs, with a console or without."""

    def __init__(self, words):
        """Starts the program on the words."""
        pipe = subprocess.PIPE
        self.process = subprocess.Popen([asked.program(), *words], stdin=pipe, stdout=pipe, stderr=pipe, text=True)
        self.printed = lines_of(self.process.stdout)
        self.told = lines_of(self.process.stderr)
        # What was told, and nobody waited for.
        self.log = []
        # How many lines were typed.
        self.typed = 0

    def next_line(self, lines, wanted):
        """The next line of a stream, in which this one is waited for."""
        try:
            line = lines.get(timeout=MOST_SECONDS)
        except queue.Empty:
            line = None
        if line is None:
            raise EOFError(f"{wanted!r} doesn't come; the log has {self.log}")
        return line

    def type(self, line):
        """Types a line at the console."""
        self.process.stdin.write(line + "\n")
        self.process.stdin.flush()
        self.typed += 1

    def answer(self, line):
        """Types a line: the lines that it is answered with."""
        self.type(line)
        self.type(MARK)
        mark = f"bad line {self.typed}"
        lines = list(iter(lambda: self.next_line(self.printed, f"the answer to {line}"), mark))
        for _ in range(LINES_AFTER_MARK):
            self.next_line(self.printed, mark)
        return lines

    def answer_in_time(self, line, wanted):
        """Types a line until it is answered with these lines: the last answer."""
        deadline = time.monotonic() + MOST_SECONDS
        while (came := self.answer(line)) != wanted and time.monotonic() < deadline:
            time.sleep(PAUSE)
        return came

    def wait_log(self, text):
        """Waits until this is told, whatever else is told before."""
        while text not in self.log:
            self.log.append(said_by(self.next_line(self.told, text)))
        self.log.remove(text)

    def end(self):
        """Waits until the router ended: what it left."""
        self.process.stdin.close()
        status = self.process.wait(MOST_SECONDS)
        printed = list(iter(self.printed.get, None))
        return Ended(status, printed, self.log + [said_by(line) for line in iter(self.told.get, None)])

    def quit(self):
        """Has the operator end it: what it left."""
        self.type("quit")
        return self.end()


@contextlib.contextmanager
def file_of(text):
    """The name of a file with this configuration, in a folder of its own."""
    with tempfile.TemporaryDirectory() as folder:
        file = pathlib.Path(folder, "router.toml")
        file.write_text(text, encoding="utf-8")
        yield file


@contextlib.contextmanager
def serve(text, *words):
    """A router of this configuration that is served; where it still runs at the end, it is killed."""
    with file_of(text) as file:
        router = Router(["serve", str(file), *words])
        try:
            yield router
        finally:
            router.process.kill()
            router.process.wait()
            with contextlib.suppress(BrokenPipeError):
                router.process.stdin.close()


@contextlib.contextmanager
def attend(text):
    """A router of this configuration with a console, which runs."""
    with serve(text, "--console") as router:
        name = re.search(r'^router = "(.*)"', text, re.MULTILINE)[1]
        router.wait_log(f"router {name} is running: type help for its commands, quit to stop it")
        date = said_by(router.next_line(router.told, "the time of day"))
        if not DATED.fullmatch(date):
            raise ValueError(f"no time of day: {date}")
        yield router
