"""Routing netlink (RFC 3549), as much of it as a label switching router needs."""
import errno
import os
import socket
import struct
from typing import Iterable, Iterator, NamedTuple

from wire import stack

GETLINK, GETADDR, NEWROUTE, DELROUTE, GETROUTE = 18, 22, 24, 25, 26     # types of messages; DEL is one more than NEW, and GET one more
NEWNEIGH, DELNEIGH, GETNEIGH, NEWRULE, GETRULE, ERROR, DONE = 28, 29, 30, 32, 34, 2, 3
REQUEST, ACK, REPLACE, EXCLUSIVE, DUMP, CREATE = 0x1, 0x4, 0x100, 0x200, 0x300, 0x400
CHANGED, DUMPS = 0x10, 8        # the flag of a dump that isn't what there was at one moment; it is asked for anew, so often at most
AF_INET, AF_MPLS = socket.AF_INET, 28
NEWS = 0x1 | 0x4 | 0x10         # groups that tell of links, neighbours and IPv4 addresses
OURS = 246                      # who made an entry: all that is ours says so (`ip route show table all proto 246`), and goes by it
LOOPBACK = 1                    # the index of lo
# Attributes: of links, addresses and neighbours; of routes; of rules.
LINK_NAME, LINK_MTU, ADDRESS_LOCAL, NEIGHBOUR_TO, NEIGHBOUR_HARDWARE, NEIGHBOUR_OWNER, NEIGHBOUR_FLAGS = 3, 4, 2, 1, 2, 12, 15
TO, INTERFACE, GATEWAY, METRICS, TABLE, VIA, NEW_LABELS, ENCAP_TYPE, ENCAP = 1, 4, 5, 8, 15, 18, 19, 21, 22
RULE_INTERFACE, RULE_PRIORITY, RULE_MARK, RULE_TABLE, RULE_OWNER, RULE_PROTOCOL = 3, 6, 10, 15, 21, 22
METRIC_MTU, ENCAP_MPLS, ENCAP_LABELS, UNICAST, LOCAL, ONLINK, HERE = 2, 1, 1, 1, 2, 4, 254
PERMANENT, MANAGED = 0x80, 1    # a neighbour's state and flag
IS_UP = 0x10001                 # both are set where frames can leave: the interface is up, and has a carrier
KNOWN = 0xde                    # states of a neighbour whose hardware address counts: reachable, stale, delay, probe, no ARP, permanent
AT_ONCE = 128                   # changes are sent so many at a time, so that the kernel's answers fit the socket's buffer
MESSAGE, ROUTE, NEIGHBOUR = struct.Struct("=IHHII"), struct.Struct("=BBBBBBBBI"), struct.Struct("=BBHiHBB")    # a rule's is a route's
LINK, ADDRESS = struct.Struct("=BBHiII"), struct.Struct("=BBBBi")
Request = tuple[int, int, bytes]        # a change that is asked for: the message's type, its flags, its body


class Entry(NamedTuple):
    """Where packets go: labels pushed (the top first), the interface's index, the neighbour's address (none: this machine), the MTU."""
    labels: tuple[int, ...]
    index: int
    peer: str | None
    mtu: int = 0                # any


class Interface(NamedTuple):
    """An interface: whether frames can leave by it, and its MTU in bytes. Index 0 is none."""
    index: int = 0
    name: str = ""
    up: bool = False
    mtu: int = 0


NOWHERE = Interface()


def packed(*values: tuple[int, bytes | int]) -> bytes:
    """Attributes, each padded to four bytes. A number has 32 bits; what is empty, or 0, is left out."""
    bodies = [(kind, struct.pack("=I", value) if isinstance(value, int) else value) for kind, value in values if value]
    return b"".join(struct.pack("=HH", 4 + len(body), kind) + body + bytes(-len(body) % 4) for kind, body in bodies)


def attributes(data: bytes) -> dict[int, bytes]:
    found = {}
    while len(data) >= 4 and (size := struct.unpack_from("=H", data)[0]) >= 4:
        found[struct.unpack_from("=H", data, 2)[0] & 0x3fff] = data[4:size]
        data = data[(size + 3) & ~3:]
    return found


def as_number(body: bytes | None) -> int:
    """The value of an attribute of 32 bits; 0 where it isn't there."""
    return struct.unpack("=I", body)[0] if body else 0


class Netlink:
    def __init__(self, groups: int = 0):
        self.socket = socket.socket(socket.AF_NETLINK, socket.SOCK_RAW, socket.NETLINK_ROUTE)
        self.socket.setsockopt(socket.SOL_SOCKET, socket.SO_RCVBUF, 1 << 22)
        self.socket.bind((0, groups))
        self.sequence, self.room = 0, bytearray(1 << 18)        # one buffer: an allocation for each answer costs more than the work

    def read(self, flags: int = 0) -> Iterator[tuple[int, int, int, bytes]]:
        """The messages of one datagram: type, flags, sequence number, body."""
        data = bytes(self.room[:self.socket.recv_into(self.room, 0, flags)])
        while len(data) >= MESSAGE.size:
            size, kind, of_message, sequence, _ = MESSAGE.unpack_from(data)
            yield kind, of_message, sequence, data[MESSAGE.size:size]
            data = data[(size + 3) & ~3:]

    def message(self, request: Request, more: int = 0) -> bytes:
        """A request's bytes with these flags more, and with the next sequence number."""
        kind, flags, body = request
        self.sequence += 1
        return MESSAGE.pack(MESSAGE.size + len(body), kind, flags | more | REQUEST, self.sequence, 0) + body + bytes(-len(body) % 4)

    def get(self, kind: int, body: bytes, flags: int = DUMP) -> list[bytes]:
        """All of a kind that the kernel has at one moment (where it never rests, what was read last), or with ACK one."""
        for _ in range(DUMPS):
            self.socket.send(self.message((kind, flags, body)))
            found: list[tuple[int, int, int, bytes]] = []
            while not found or found[-1][0] not in (ERROR, DONE):
                found += [it for it in self.read() if it[2] == self.sequence]
            if found[-1][0] == ERROR and (error := -struct.unpack_from("=i", found[-1][3])[0]):
                raise OSError(error, "the kernel doesn't tell what it has")
            if not any(of_message & CHANGED for _, of_message, _, _ in found):
                break
        return [data for _, _, _, data in found[:-1]]

    def change(self, requests: list[Request]) -> list[int]:
        """Makes the changes, and gives the error number of each, 0 where it was made. Of a part the last is acknowledged alone."""
        errors: list[int] = []
        for start in range(0, len(requests), AT_ONCE):
            part = requests[start:start + AT_ONCE]
            first, last = self.sequence + 1, self.sequence + len(part)
            self.socket.send(b"".join(self.message(it, ACK if self.sequence + 1 == last else 0) for it in part))
            told: dict[int, int] = {}
            while last not in told:
                told |= {at: -struct.unpack_from("=i", data)[0] for kind, _, at, data in self.read() if kind == ERROR}
            errors += [told.get(at, 0) for at in range(first, last + 1)]
        return errors

    def routes(self, family: int) -> Iterator[tuple[int, Entry]]:
        """Our routes of a family: a label, or the table of a default route, and where it leads. Without MPLS the kernel tells of others."""
        for data in self.get(GETROUTE, bytes([family]) + bytes(ROUTE.size - 1)):
            found = attributes(data[ROUTE.size:])
            if data[5] != OURS or data[0] != family:
                continue
            if family == AF_MPLS:
                key, peer, pushed = struct.unpack("!I", found[TO])[0] >> 12, found.get(VIA, b"")[2:6], found.get(NEW_LABELS, b"")
            else:
                key, peer, pushed = as_number(found[TABLE]), found.get(GATEWAY), attributes(found.get(ENCAP, b"")).get(ENCAP_LABELS, b"")
            labels, mtu = tuple(it >> 12 for it, in struct.iter_unpack("!I", pushed)), attributes(found.get(METRICS, b"")).get(METRIC_MTU)
            yield key, Entry(labels, as_number(found.get(INTERFACE)), socket.inet_ntoa(peer) if peer else None, as_number(mtu))

    def left(self) -> list[Request]:
        """What takes away all that is ours but routes: rules and neighbours."""
        return [(kind - 1, 0, it) for kind, head, owner in ((GETRULE, ROUTE, RULE_OWNER), (GETNEIGH, NEIGHBOUR, NEIGHBOUR_OWNER))
                for it in self.get(kind, bytes([AF_INET]) + bytes(head.size - 1)) if attributes(it[head.size:]).get(owner) == bytes([OURS])]


class Interfaces:
    """The interfaces and IPv4 addresses that the kernel has, which are read anew where news tell that something changed."""

    def __init__(self) -> None:
        self.news, self.asked = Netlink(NEWS), Netlink()
        self.read()

    def read(self) -> None:
        self.faces: dict[int, Interface] = {}
        for data in self.asked.get(GETLINK, bytes(LINK.size)):
            found, (index, flags) = attributes(data[LINK.size:]), struct.unpack_from("=iI", data, 4)
            name = os.fsdecode(found[LINK_NAME].rstrip(b"\0"))
            self.faces[index] = Interface(index, name, flags & IS_UP == IS_UP, as_number(found.get(LINK_MTU)))
        told = self.asked.get(GETADDR, ADDRESS.pack(AF_INET, 0, 0, 0, 0))
        self.homes = {attributes(it[ADDRESS.size:]).get(ADDRESS_LOCAL): struct.unpack_from("=i", it, 4)[0] for it in told}

    def hear(self) -> None:
        """Takes what news there are; those of neighbours change nothing here."""
        kinds: set[int] = set()
        try:
            while True:
                kinds |= {kind for kind, _, _, _ in self.news.read(socket.MSG_DONTWAIT)}
        except OSError as fault:
            if kinds - {NEWNEIGH, DELNEIGH} or not isinstance(fault, BlockingIOError):      # any other fault: some were lost
                self.read()

    def at(self, address: str) -> Interface:
        return self.faces.get(self.homes.get(socket.inet_aton(address), 0), NOWHERE)

    def neighbour(self, face: Interface, address: str) -> tuple[int, bytes]:
        """The state and the hardware address of a neighbour, as far as the kernel knows them."""
        asked = NEIGHBOUR.pack(AF_INET, 0, 0, face.index, 0, 0, 0) + packed((NEIGHBOUR_TO, socket.inet_aton(address)))
        try:
            data, = self.asked.get(GETNEIGH, asked, ACK)
        except (OSError, ValueError):
            return 0, b""
        state, = struct.unpack_from("=H", data, 8)
        return state, attributes(data[NEIGHBOUR.size:]).get(NEIGHBOUR_HARDWARE, b"") if state & KNOWN else b""


def label_route(label: int, entry: Entry | None) -> Request:
    """`ip -f mpls route replace LABEL [as OUT..] via inet PEER dev IF`; with no peer, to this machine; with no entry, it goes."""
    body = ROUTE.pack(AF_MPLS, 20, 0, 0, HERE, OURS, 0, UNICAST, 0) + packed((TO, stack((label,))))
    if entry is None:
        return DELROUTE, 0, body
    via = struct.pack("=H", AF_INET) + socket.inet_aton(entry.peer) if entry.peer else b""
    return NEWROUTE, CREATE | REPLACE, body + packed((NEW_LABELS, stack(entry.labels)), (VIA, via), (INTERFACE, entry.index))


def default_route(table: int, entry: Entry | None) -> Request:
    """The default route of a table, under labels, which the kernel takes off the MTU; no peer: to this machine; no entry: it goes."""
    scope, kind, flags = (255, 0, 0) if entry is None else (0, UNICAST, ONLINK) if entry.peer else (HERE, LOCAL, 0)
    body = ROUTE.pack(AF_INET, 0, 0, 0, 0, OURS, scope, kind, flags) + packed((TABLE, table))
    if entry is None:
        return DELROUTE, 0, body
    under = struct.pack("=H", ENCAP_MPLS) if entry.labels else b""
    return NEWROUTE, CREATE | REPLACE, body + packed(
        (INTERFACE, entry.index), (ENCAP_TYPE, under), (ENCAP, packed((ENCAP_LABELS, stack(entry.labels)))),
        (GATEWAY, socket.inet_aton(entry.peer) if entry.peer else b""), (METRICS, packed((METRIC_MTU, entry.mtu))))


def rule(table: int, priority: int, *conditions: tuple[int, bytes | int]) -> Request:
    """`ip rule add priority P .. lookup TABLE` with these attributes as its conditions."""
    return NEWRULE, CREATE | EXCLUSIVE, ROUTE.pack(AF_INET, 0, 0, 0, 0, 0, 0, UNICAST, 0) + packed(
        (RULE_TABLE, table), (RULE_PRIORITY, priority), (RULE_OWNER, bytes([OURS])), *conditions)


def neighbour(index: int, peer: str, hardware: bytes = b"") -> Request:
    """A neighbour with this hardware address; without one, the kernel keeps it known, so a repair waits for no ARP (Linux 5.16)."""
    return NEWNEIGH, CREATE | REPLACE, NEIGHBOUR.pack(AF_INET, 0, 0, index, PERMANENT if hardware else 0, 0, 0) + packed(
        (NEIGHBOUR_TO, socket.inet_aton(peer)), (NEIGHBOUR_HARDWARE, hardware), (NEIGHBOUR_FLAGS, 0 if hardware else MANAGED),
        (NEIGHBOUR_OWNER, bytes([OURS])))


def said(errors: Iterable[int]) -> str:
    """The names of errors, each once; no text where there are none."""
    return ", ".join(f"{errno.errorcode.get(it, it)} {os.strerror(it)}" for it in sorted(set(errors)) if it)
