"""The router that runs as a child, with its lines and answers; and a socket at which operators ask it."""
import collections
import contextlib
import errno
import os
import re
import select
import selectors
import socket
import stat
import subprocess
import time
from typing import Callable, Iterator, TypeVar

from machine import Room, trouble

MARK = b"."                     # the line that ends each answer of `--mark`
END_SECONDS, ANSWER_SECONDS = 20, 15
MOST_OPERATORS, MOST_LINE, MOST_ANSWER, READ_BYTES = 32, 4096, 1 << 22, 1 << 16
SO_SNDBUFFORCE = 32
AT_ONCE = 16                    # so much is read of a file before the others have their turn
REFUSALS = "refused ", "bad line", "error ", "unreadable", "memory", "the router "        # so an answer begins where a line wasn't done
Data = TypeVar("Data")
Take = Callable[[list[str]], object]            # what takes an answer


class Loop(selectors.DefaultSelector):
    """What is done as files become ready to be read."""

    def on(self, file, do: Callable[[], object]) -> None:
        self.register(file, selectors.EVENT_READ, do)

    def turn(self, seconds: float) -> None:
        for key, _ in self.select(max(0.0, seconds)):
            if self.get_map().get(key.fd) is key:       # what was done for another file may have taken this one away
                key.data()


def waiting(read: Callable[[], Data]) -> Iterator[Data]:
    """Some of what waits to be read; nothing where reading fails, as when an interface went."""
    with contextlib.suppress(OSError):
        for _ in range(AT_ONCE):
            yield read()


def datagrams(file: socket.socket) -> Iterator[bytes]:
    return waiting(lambda: file.recv(READ_BYTES, socket.MSG_DONTWAIT))


class Child:
    """`lsr serve FILE --console --mark`."""

    def __init__(self, words: list[str], room: Room, lock: socket.socket):
        """Starts it in a room; it holds the lock, too. Trouble: it doesn't start."""
        with trouble(f"{words[0]} doesn't start", "name the program lsr by --lsr", subprocess.SubprocessError):
            self.process = subprocess.Popen(words, stdin=subprocess.PIPE, stdout=subprocess.PIPE, bufsize=0, pass_fds=[lock.fileno()],
                                            start_new_session=True, preexec_fn=room.enter)
        for file in (self.process.stdin, self.process.stdout):
            os.set_blocking(file.fileno(), False)
        self.waiting: collections.deque[tuple[float, Take]] = collections.deque()       # since when, and who takes the answer
        self.unsent, self.rest, self.answer, self.answered = b"", b"", [], False

    def ask(self, line: str, take: Take = lambda answer: None) -> None:
        self.waiting.append((time.monotonic(), take))
        self.unsent += f"{line}\n".encode()
        self.flush()

    def flush(self) -> None:
        with contextlib.suppress(OSError):      # it ended, as the end of its output tells
            while self.unsent and (count := self.process.stdin.write(self.unsent)):
                self.unsent = self.unsent[count:]

    def silent(self) -> float:
        """For how many seconds the oldest line has waited for its answer."""
        return time.monotonic() - self.waiting[0][0] if self.waiting else 0.0

    def ready(self) -> bool:
        """Reads what it answered; False where it ended."""
        data = self.process.stdout.read(READ_BYTES)
        *lines, self.rest = (self.rest + (data or b"")).split(b"\n")
        for line in lines:
            if line != MARK:
                self.answer.append(line.decode(errors="replace"))
            elif self.waiting:
                self.answered, answer, self.answer = True, self.answer, []
                self.waiting.popleft()[1](answer)
        return data != b""

    def end(self) -> str:
        """Ends it by the end of its input, so that its journal is whole, and waits so long at most; how it ended. Who waits is told."""
        last, said, late = time.monotonic() + END_SECONDS, b"", ""
        self.process.stdin.close()
        output = self.process.stdout
        while (left := last - time.monotonic()) > 0 and select.select([output], [], [], left)[0] and (data := output.read(READ_BYTES)):
            said = (said + data)[-READ_BYTES:]
        try:
            self.process.wait(max(0.1, last - time.monotonic()))
        except subprocess.TimeoutExpired:
            self.process.kill()
            late = f": it was killed, since it didn't end in {END_SECONDS} s, and its journal lacks its last entries"
        for _, take in self.waiting:
            take(["the router ended before it answered: ask again"])
        output.close()
        found = re.findall(rb"^(?:reconciled|mismatch) .*$", said, re.MULTILINE)
        return f"ended with status {self.process.wait()}{late}" + (f": {found[-1].decode()}" if found else "")


class Desk:
    """The socket at which operators ask: a packet with a line, and one with its answer."""

    def __init__(self, path: str, loop: Loop, question: Callable[[str, Take], None]):
        """Opens it, in place of one that a killed run left. Trouble: the path can't be had."""
        self.path, self.loop, self.question, self.operators = path, loop, question, 0
        self.socket = socket.socket(socket.AF_UNIX, socket.SOCK_SEQPACKET | socket.SOCK_NONBLOCK)
        with trouble(f"--socket {path}", "name a path in a folder that is there, which nobody has"):
            if self.socket.connect_ex(path) == errno.ECONNREFUSED and stat.S_ISSOCK(os.lstat(path).st_mode):
                os.unlink(path)
            self.socket.bind(path)
            os.chmod(path, 0o660)
        self.socket.listen(MOST_OPERATORS)
        loop.on(self.socket, self.ready)

    def ready(self) -> None:
        """An operator comes; one too many goes at once."""
        with contextlib.suppress(OSError):      # it went already, or there are too many files
            operator, _ = self.socket.accept()
            if self.operators == MOST_OPERATORS:
                return operator.close()
            operator.setsockopt(socket.SOL_SOCKET, SO_SNDBUFFORCE, MOST_ANSWER)
            self.loop.on(operator, lambda: self.heard(operator))
            self.operators += 1

    def heard(self, operator: socket.socket) -> None:
        """A line of an operator, who goes where it is none. The next is read after its answer, so they don't pile up before the links'."""
        self.loop.unregister(operator)
        line = next(datagrams(operator), b"")
        text = line.decode(errors="surrogateescape")
        if not line:
            self.leave(operator)
        elif text.strip() == "quit":
            self.reply(operator, ["the router is ended with lsrnet: by SIGTERM, or by Ctrl-C where it runs"])
        elif len(line) > MOST_LINE or not text.isprintable():
            self.reply(operator, [f"bad line: it has more than {MOST_LINE} bytes, or some that can't be printed"])
        else:
            self.question(text, lambda answer: self.reply(operator, answer))

    def reply(self, operator: socket.socket, answer: list[str]) -> None:
        try:
            operator.send("".join(f"{it}\n" for it in answer or [""]).encode(errors="surrogateescape"), socket.MSG_DONTWAIT)
            self.loop.on(operator, lambda: self.heard(operator))
        except OSError:
            self.leave(operator)

    def leave(self, operator: socket.socket) -> None:
        self.operators -= 1
        operator.close()

    def close(self) -> None:
        self.socket.close()
        os.unlink(self.path)


def asked(path: str, lines: list[str]) -> Iterator[str]:
    """The answers to lines that are asked at a socket. Trouble: one isn't answered."""
    help_of_socket = f"is lsrnet run with --socket {path}, and may you write to it? If it hangs, read its log"
    with trouble(path, help_of_socket), socket.socket(socket.AF_UNIX, socket.SOCK_SEQPACKET) as asking:
        asking.settimeout(ANSWER_SECONDS)
        asking.connect(path)
        for line in lines:
            asking.send(os.fsencode(line))
            if not (answer := asking.recv(MOST_ANSWER).decode(errors="replace")):
                raise OSError(0, "it was closed")
            yield answer.lstrip("\n")
