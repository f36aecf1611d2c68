"""The links of a router over the interfaces of this machine."""
import collections
import os
import socket
import struct

import wire
from hello import Neighbour
from netlink import NOWHERE, Interface

MARKS = 0x2e000000              # a packet of link N has the mark MARKS + N, and the table of this number leads it to the neighbour
IP_PKTINFO, IP_MTU_DISCOVER, SO_RCVBUFFORCE = 8, 10, 33         # of Linux, which Python 3.11 doesn't name
RECEIVE_BYTES = 1 << 22


class Link:
    """A link of the configuration: the interface that has its address, if there is one, and the sockets to the wire and to the router."""

    def __init__(self, number: int, address: str, peer: str):
        self.number, self.address, self.peer, self.face, self.hardware = number, address, peer, NOWHERE, b""
        self.heard, self.told = True, False             # Hello hears the neighbour; the router was told `up`
        self.neighbour: Neighbour | None = None         # as Hello sees it, where Hello is said
        self.raw: socket.socket | None = None
        self.packets: socket.socket | None = None
        self.router: socket.socket | None = None
        self.counts: collections.Counter[str] = collections.Counter()

    @property
    def up(self) -> bool:
        return self.face.up and self.heard

    def attach(self, face: Interface, hears: int) -> None:
        """Opens the sockets of an interface, of which one hears packets of an EtherType; 0 is none. OSError: they can't be had."""
        self.raw = raw_socket(face.name, MARKS + self.number)
        self.packets = socket.socket(socket.AF_PACKET, socket.SOCK_DGRAM, 0)
        self.packets.bind((face.name, hears))
        self.face, self.heard = face, True

    def detach(self) -> None:
        for it in filter(None, (self.raw, self.packets)):
            it.close()
        self.face, self.raw, self.packets = NOWHERE, None, None

    def send(self, packet: wire.Packet) -> None:
        """A message goes to the neighbour. OSError: it doesn't."""
        if not self.raw:
            raise OSError(0, f"no interface has the address {self.address}")
        source = struct.pack("=i4s4s", 0, socket.inet_aton(packet.source), bytes(4))
        more = [(socket.IPPROTO_IP, IP_PKTINFO, source), (socket.IPPROTO_IP, socket.IP_TTL, struct.pack("=i", packet.ttl))]
        more += [(socket.IPPROTO_IP, socket.IP_RETOPTS, wire.ALERT)] if packet.alert else []
        self.raw.sendmsg([packet.message], more, socket.MSG_DONTWAIT, (packet.to, 0))

    def send_frame(self, ethertype: int, payload: bytes) -> None:
        """An Ethernet frame goes to the neighbour. OSError: it doesn't."""
        if not self.packets or not self.hardware:
            raise OSError(0, f"the hardware address of {self.peer} isn't known: look whether the neighbour is there")
        self.packets.getsockopt(socket.SOL_SOCKET, socket.SO_ERROR)     # it would say that the interface was down before
        self.packets.sendto(payload, socket.MSG_DONTWAIT, (self.face.name, ethertype, 0, 0, self.hardware))


def raw_socket(interface: str, mark: int = 0) -> socket.socket:
    """A socket for RSVP over an interface: packets come in put together where they were fragmented, and leave with a mark."""
    made = socket.socket(socket.AF_INET, socket.SOCK_RAW, wire.RSVP)
    made.setsockopt(socket.SOL_SOCKET, socket.SO_BINDTODEVICE, os.fsencode(interface) + b"\0")
    made.setsockopt(socket.SOL_SOCKET, SO_RCVBUFFORCE, RECEIVE_BYTES)
    made.setsockopt(socket.SOL_SOCKET, socket.SO_MARK, mark)
    made.setsockopt(socket.IPPROTO_IP, socket.IP_TRANSPARENT, 1)        # a Path comes from its tunnel's sender (RFC 2205, 3.1.3)
    made.setsockopt(socket.IPPROTO_IP, socket.IP_TOS, wire.CONTROL_CLASS)
    made.setsockopt(socket.IPPROTO_IP, IP_MTU_DISCOVER, 0)              # long messages are fragmented
    return made
