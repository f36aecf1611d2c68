"""RSVP Hello (RFC 3209, section 5): whether a link's neighbour is there, and is the one that it was. A state machine without sockets or a
clock: it is given moments, in seconds on any clock that doesn't go back, and messages.

A neighbour that was heard is lost when it is silent for 3.5 intervals, says another instance number than before, or doesn't reflect the own
one; until it reflects the own number again, which is then a new one. One that was never heard isn't: a node needn't speak Hello at all.
"""
import contextlib
import math
import struct
from dataclasses import dataclass

from wire import HELLO, Refused, check_header, objects, sealed

HELLO_CLASS, REQUEST, ACK = 22, 1, 2    # RFC 3209, 5.2: class of the object, its C-Types
HELLO_TTL = 1                           # the IP TTL of a Hello between neighbours (RFC 3209, 5.1), and so its Send_TTL
SILENT_INTERVALS = 3.5                  # RFC 3209, 5.3: so many intervals without a word are a loss
WRONG_REQUESTS = 3                      # so many REQUESTs in a row that reflect a wrong instance are one ("a configured number")
INSTANCES = struct.Struct("!II")        # Src_Instance, Dst_Instance
LAST_INSTANCE = 0xffffffff


def hello(kind: int, source: int, destination: int) -> bytes:
    """A Hello message of 20 bytes with a REQUEST or an ACK object (RFC 3209, 5.2)."""
    header = struct.pack("!BBHBxHHBB", 0x10, HELLO, 0, HELLO_TTL, 0, 4 + INSTANCES.size, HELLO_CLASS, kind)
    return sealed(header + INSTANCES.pack(source, destination))


def said(message: bytes) -> tuple[int, int, int] | None:
    """The C-Type and both instances of a Hello's first HELLO object; None where it is no such message."""
    with contextlib.suppress(Refused):
        check_header(message)
        for number, kind, body in objects(message) if message[1] == HELLO else ():
            if number == HELLO_CLASS and kind in (REQUEST, ACK) and len(body) == INSTANCES.size:
                return kind, *INSTANCES.unpack(body)
    return None


@dataclass
class Neighbour:
    """One neighbour, as Hello sees it, with Hellos at this interval of seconds."""
    own: int                            # the instance that is said to it, 1 to 4294967295; another one after each loss
    interval: float
    other: int = 0                      # its Src_Instance; 0 where none is known
    heard: float = -math.inf            # when it last said an instance
    asked: float = -math.inf            # when a REQUEST last went to it, or came from it
    wrong: int = 0
    is_there: bool = False
    is_lost: bool = False

    def tick(self, now: float) -> bytes | None:
        """What time brings: a loss where the neighbour is silent, and the REQUEST that is due, unless one came within the interval."""
        if self.is_there and now - self.heard >= SILENT_INTERVALS * self.interval:
            self.lose(0)
        if now - self.asked < self.interval:
            return None
        self.asked = now
        return hello(REQUEST, self.own, self.other)

    def receive(self, now: float, message: bytes) -> bytes | None:
        """A message came: the ACK that answers a REQUEST. What is no Hello counts for nothing."""
        if not (words := said(message)):
            return None
        kind, source, destination = words
        if self.is_there:
            self.wrong += destination not in (0, self.own)              # 0 says nothing in a REQUEST (RFC 3209, 5.3)
            if source != self.other or destination != self.own and (kind == ACK or self.wrong >= WRONG_REQUESTS):
                self.lose(source)       # it restarted, or lost this node
        self.other, self.heard = source, now if source else self.heard
        if source and destination == self.own:          # it reflects the own instance: it is there
            self.is_there, self.is_lost, self.wrong = True, False, 0
        if kind == ACK:
            return None
        self.asked = now
        return hello(ACK, self.own, source)

    def lose(self, other: int) -> None:
        """From now on another instance is said, and Hellos begin anew at once (RFC 3209, 5.3)."""
        self.is_there, self.is_lost, self.other, self.wrong, self.asked = False, True, other, 0, -math.inf
        self.own = self.own + 1 if self.own < LAST_INSTANCE else 1
