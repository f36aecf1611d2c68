"""The router's label table (`show table`), and who forwards by it: the kernel, whose own table is kept equal to it, or this process.

A label is a route of family MPLS. Tunnel N is the default route of routing table TUNNELS + N, so what enters it is the operator's choice
by rules: `ip rule add to 10.92.0.0/24 lookup 4600001`. Both are keys of rows: a number below TUNNELS is a label.
"""
import contextlib
import fcntl
import os
import socket
import struct
from typing import Callable, Collection, NamedTuple

import netlink
import wire
from console import waiting
from links import MARKS, Link
from machine import IFF_UP, SIOCSIFFLAGS, State, trouble
from netlink import AF_INET, AF_MPLS, LOOPBACK, Entry, Netlink, Request

TUNSETIFF, TAP, NO_HEADER, SIOCGIFHWADDR = 0x400454ca, 0x2, 0x1000, 0x8927
FRAME_BYTES, TTL_AT = 1 << 16, 8
HARDWARE, ETHERNET = struct.Struct("!4sH"), struct.Struct("!4sH6sH")    # a tunnel's neighbour has its number at the address's end
TUNNELS = 4600000
LOCAL_TABLE = MARKS             # everything is local in it: RSVP packets that come in are looked up there, whatever their destination
BYPASS_BYTES = 4                # room that a head leaves for the label of a bypass further on
UNKNOWN = Entry((), -1, None)   # in place of what was written and may be there no more


class Row(NamedTuple):
    """What becomes of a packet: labels pushed in place of its own, the top first, and the link that it leaves by; 0 is this machine."""
    labels: tuple[int, ...]
    link: int


Rows = dict[int, Row]


def rows_of(answer: list[str], links: Collection[int]) -> Rows:
    """The rows of `show table` of a router with these links. ValueError, IndexError: it is no table."""
    rows: Rows = {}
    for words in map(str.split, answer):
        key, (what, *numbers) = (TUNNELS + int(words[1]), words[2:]) if words[0] == "tunnel" else (int(words[0]), words[1:])
        *labels, link = map(int, numbers or [0])        # INNER OUTER LINK: the outer is on top; implicit null is never sent (RFC 3032, 2.1)
        if what not in ("pop", "swap", "swappush", "push") or link and link not in links:
            raise ValueError(words)
        rows[key] = Row(tuple(it for it in reversed(labels) if it != wire.IMPLICIT_NULL), link)
    return rows


class KernelPlane:
    """The kernel's label table, and the tunnels' routes."""
    exits = "lo"                # RSVP that comes out of labels comes in over this interface
    hears, takes = 0, 1         # the EtherType that is heard here, and whether the kernel takes labelled packets

    def __init__(self, links: dict[int, Link], state: State, tell: Callable[..., None]):
        self.netlink, self.links, self.state, self.tell = Netlink(), links, state, tell
        self.rows: Rows = {}
        self.written: dict[int, Entry] = {}

    def open(self, last_label: int) -> None:
        """Lets the kernel take labels up to this one. OSError: it can't."""
        self.state.put({"mpls/platform_labels": last_label + 1, "mpls/conf/lo/input": 1}, at_least=True)

    def read(self) -> dict[int, Entry]:
        """What is ours in the kernel: labels, tunnels, and the routes of links."""
        return dict(self.netlink.routes(AF_MPLS)) | {it: entry for it, entry in self.netlink.routes(AF_INET) if it >= TUNNELS}

    def found(self) -> Rows:
        """The rows that a run before this one left, as far as they lead over links of this one."""
        ways = {(it.face.index, it.peer): it.number for it in self.links.values() if it.face.index} | {(LOOPBACK, None): 0}
        self.written = self.read()
        return {key: Row(it.labels, ways[way]) for key, it in self.written.items() if key < MARKS and (way := (it.index, it.peer)) in ways}

    def entry(self, key: int, row: Row) -> Entry | None:
        """A row as the kernel has it; none where it can't have it now."""
        if row.link == 0:
            return Entry((), LOOPBACK, None)
        link = self.links[row.link]
        if key >= TUNNELS:
            return Entry(row.labels, link.face.index, link.peer, link.face.mtu - BYPASS_BYTES) if link.face.up else None
        return Entry(row.labels, link.face.index, link.peer) if link.face.index else None

    def request(self, key: int, entry: Entry | None) -> Request:
        """What writes an entry; without one, what takes it away."""
        return netlink.default_route(key, entry) if key >= TUNNELS else netlink.label_route(key, entry)

    def keep(self, rows: Rows) -> int:
        """Makes the kernel's table equal to this one; how many rows changed. What the kernel refuses is told, and tried again with the
        next. Beside it what has the mark of a link that is up goes to the neighbour."""
        changed, self.rows = sum(rows.get(it) != self.rows.get(it) for it in rows | self.rows), rows
        wanted = {key: it for key, row in rows.items() if (it := self.entry(key, row))} | {LOCAL_TABLE: Entry((), LOOPBACK, None)}
        wanted |= {MARKS + it.number: Entry((), it.face.index, it.peer) for it in self.links.values() if it.face.up}
        keys = [it for it in self.written | wanted if self.written.get(it) != wanted.get(it)]
        errors = self.netlink.change([self.request(it, wanted.get(it)) for it in keys])
        refused = {key: error for key, error in zip(keys, errors) if error and key in wanted}
        self.written = {key: it for key, it in wanted.items() if key not in refused}
        if refused:
            self.tell(f"the kernel refuses {len(refused)} entries: {netlink.said(refused.values())}", "refused entries")
        return changed

    def doubt(self, index: int) -> None:
        """The kernel may have taken away default routes over an interface that went down: they are written, or taken away, anew."""
        self.written |= {key: UNKNOWN for key, it in self.written.items() if key >= TUNNELS and it.index == index}

    def audit(self) -> int:
        """Reads the kernel's table back and puts right what isn't as it was written; how many entries weren't."""
        there = self.read()
        wrong = sum(there.get(it) != self.written.get(it) != UNKNOWN for it in there | self.written)
        self.written = there
        self.keep(self.rows)
        return wrong


class UserPlane(KernelPlane):
    """Labels are rows here. Tunnels are default routes as in the kernel's plane, each to a neighbour of its own on `lsr0`."""
    exits, hears, takes = "lsr0", wire.MPLS, 0

    def open(self, last_label: int) -> None:
        """Makes `lsr0`, which goes with this process; packets with any source come out of it. OSError, Trouble: it can't be had."""
        with trouble(f"no interface {self.exits}", f"ip link delete {self.exits} where there is one; else run as root"):
            self.tap = os.open("/dev/net/tun", os.O_RDWR | os.O_NONBLOCK)
            fcntl.ioctl(self.tap, TUNSETIFF, struct.pack("16sH", self.exits.encode(), TAP | NO_HEADER))
        self.state.put({"ipv4/conf/lsr0/rp_filter": 0, "ipv4/conf/lsr0/accept_local": 1, "ipv6/conf/lsr0/disable_ipv6": 1})
        fcntl.ioctl(self.netlink.socket, SIOCSIFFLAGS, struct.pack("16sH", self.exits.encode(), IFF_UP))
        self.hardware = fcntl.ioctl(self.netlink.socket, SIOCGIFHWADDR, struct.pack("16s16x", self.exits.encode()))[18:24]
        self.index = socket.if_nametoindex(self.exits)

    def hear(self, file: socket.socket) -> None:
        for data, where in waiting(lambda: file.recvfrom(FRAME_BYTES, socket.MSG_DONTWAIT)):
            if where[2] == socket.PACKET_HOST:
                self.forward(data)

    def forward(self, data: bytes) -> None:
        """Forwards a labelled packet by its top label (RFC 3031, 3.10); below the last label an IPv4 packet leaves its tunnel here."""
        while len(data) >= 4:
            (entry,), data = struct.unpack("!I", data[:4]), data[4:]
            row, ttl, ends = self.rows.get(entry >> 12), entry & 255, bool(entry & wire.BOTTOM)
            if row is None or ttl <= 1:
                return          # RFC 3031, 3.18; RFC 3032, 2.4.1
            if row.link:
                return self.send(row, data, ttl - 1, ends)
            if ends:
                with contextlib.suppress(OSError):          # lost: somebody set lsr0 down
                    os.write(self.tap, self.hardware + bytes(6) + struct.pack("!H", wire.IPV4) + data)
                return

    def send(self, row: Row, data: bytes, ttl: int, ends: bool) -> None:
        """A packet leaves by the row's link under its labels; `ends`: there are no other labels below."""
        kind = wire.IPV4 if ends and not row.labels else wire.MPLS
        with contextlib.suppress(OSError):          # lost, as on a wire
            self.links[row.link].send_frame(kind, wire.stack(row.labels, ttl, ends) + data)

    def enter(self) -> None:
        """Packets enter tunnels; what has no room for one is none."""
        for frame in waiting(lambda: os.read(self.tap, FRAME_BYTES)):
            _, number, _, kind = ETHERNET.unpack(frame[:ETHERNET.size].ljust(ETHERNET.size, b"\0"))
            if kind == wire.IPV4 and len(frame) >= ETHERNET.size + wire.IP_BYTES and (row := self.rows.get(TUNNELS + number)):
                self.send(row, frame[ETHERNET.size:], frame[ETHERNET.size + TTL_AT], True)

    def entry(self, key: int, row: Row) -> Entry | None:
        """A tunnel's route, to its neighbour on `lsr0`; labels have none."""
        if key < TUNNELS or not (link := self.links[row.link]).face.up:
            return None
        high, low = divmod(key - TUNNELS, 256)
        return Entry((), self.index, f"169.254.{high}.{low}", link.face.mtu - 4 * len(row.labels) - BYPASS_BYTES)

    def request(self, key: int, entry: Entry | None) -> Request:
        """As above; a tunnel's neighbour is made before its route."""
        if entry and entry.index == self.index:
            self.netlink.change([netlink.neighbour(self.index, entry.peer, HARDWARE.pack(b"\x02\0\0\0", key - TUNNELS))])
        return super().request(key, entry)
