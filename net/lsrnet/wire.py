"""RSVP messages (RFC 2205, 3.1), as they go over IP (RFC 2205, 3.3), and as `lsr serve` frames them (docs/WIRE.md, Frames)."""
import itertools
import socket
import struct
from typing import Iterator, NamedTuple

RSVP = socket.IPPROTO_RSVP      # 46; then the types of messages (RFC 2205, 3.1.1; RFC 3209, 5.1)
PATH, RESV, PATH_ERR, RESV_ERR, PATH_TEAR, RESV_TEAR, HELLO = 1, 2, 3, 4, 5, 6, 20
DOWNSTREAM, UPSTREAM = {PATH, PATH_TEAR, RESV_ERR}, {RESV, PATH_ERR, RESV_TEAR}
HEADER_BYTES, OBJECT_BYTES, IP_BYTES = 8, 4, 20         # of the headers of a message, of an object and of an IPv4 packet
MOST_BYTES = 0xffff             # of a message: its header counts them in 16 bits
SESSION, RSVP_HOP, FILTER_SPEC, SENDER_TEMPLATE = 1, 3, 10, 11          # classes of objects (RFC 2205, A)
HOP, LABELLED, ROUTED, MESSAGE = 1, 2, 3, 1             # kinds of frames; and of a Labelled frame's payload that is a message
ROUTED_BYTES = 6                # of a Routed frame before its message: its kind, an address, a limit of hops
ALERT = b"\x94\x04\x00\x00"     # the router alert option (RFC 2113), which each fragment keeps
CONTROL_CLASS, TTL = 0xc0, 255  # the DSCP CS6 (RFC 2474), as routers mark RSVP; and the TTL, which is also the message's Send_TTL
MORE_FRAGMENTS, BOTTOM, IMPLICIT_NULL = 0x2000, 0x100, 3        # RFC 791, 3.1; RFC 3032, 2.1
IPV4, MPLS = 0x0800, 0x8847     # EtherTypes
packet_numbers = itertools.count(1)


class Refused(Exception):
    """A message that isn't taken; the text is the reason."""


class Packet(NamedTuple):
    """A message, and what the header of its IP packet says."""
    source: str
    to: str
    ttl: int
    message: bytes
    alert: bool = False


def checksum(message: bytes) -> int:
    """The one's complement of the one's complement sum of 16-bit words (RFC 1071), 0xffff in place of 0 as RSVP has it."""
    return 0xffff - sum(word for word, in struct.iter_unpack("!H", message + bytes(len(message) % 2))) % 0xffff


def stack(labels: tuple[int, ...], ttl: int = 0, ends: bool = True) -> bytes:
    """Label stack entries, the top first (RFC 3032, 2.1); `ends`: there are no others below, so the last has the bottom bit."""
    bottoms = [0] * (len(labels) - 1) + [BOTTOM * ends]
    return b"".join(struct.pack("!I", label << 12 | bottom | ttl) for label, bottom in zip(labels, bottoms))


def sealed(message: bytes) -> bytes:
    """The message with the length of its bytes in its header, and the checksum that goes with them (RFC 2205, 3.1.1)."""
    plain = message[:2] + b"\0\0" + message[4:6] + struct.pack("!H", len(message)) + message[HEADER_BYTES:]
    return plain[:2] + struct.pack("!H", checksum(plain)) + plain[4:]


def check_header(message: bytes) -> None:
    """Raises `Refused` unless these bytes have the header of one message of version 1, whose checksum is 0 or right."""
    if len(message) < HEADER_BYTES or message[0] >> 4 != 1:
        raise Refused("it is no RSVP message of version 1")
    if int.from_bytes(message[6:HEADER_BYTES], "big") != len(message):
        raise Refused("its length field doesn't count its bytes")
    if message[2:4] != b"\0\0" and sealed(message) != message:
        raise Refused("its checksum is wrong")


def objects(message: bytes) -> Iterator[tuple[int, int, bytes]]:
    """The objects of a message: class, C-Type and body of each (RFC 2205, 3.1.2), up to what is none."""
    data = message[HEADER_BYTES:]
    while len(data) >= OBJECT_BYTES and (size := int.from_bytes(data[:2], "big")) >= OBJECT_BYTES and size % 4 == 0:
        yield data[2], data[3], data[OBJECT_BYTES:size]
        data = data[size:]


def first_object(message: bytes, *wanted: int) -> bytes:
    """The body of the first object of these classes; no bytes where there is none."""
    return next((body for kind, _, body in objects(message) if kind in wanted), b"")


def outgoing(frame: bytes, address: str, peer: str) -> tuple[bytes, Packet]:
    """What a router's frame is on a link: a label stack's bytes, if it has one, and a packet. ValueError, OSError: it is no frame. A Path,
    a PathTear and what goes under labels go from the LSP's sender to its endpoint, with router alert (RFC 2205, 3.1.3)."""
    kind, end = frame[0] if frame else 0, 2 + 4 * int.from_bytes(frame[1:2], "big")
    if kind == ROUTED and len(frame) >= ROUTED_BYTES + HEADER_BYTES:
        return b"", Packet(address, socket.inet_ntoa(frame[1:5]), frame[5], frame[ROUTED_BYTES:])
    if kind == HOP and len(frame) > HEADER_BYTES:
        stack, message = b"", frame[1:]
    elif kind == LABELLED and 2 < end < len(frame) and frame[end] == MESSAGE:
        stack, message = frame[2:end], frame[end + 1:]
    else:
        raise ValueError("no frame of docs/WIRE.md: take an lsr that belongs to this lsrnet")
    if not stack and message[1] not in (PATH, PATH_TEAR):
        return b"", Packet(address, peer, TTL, message)
    sender, endpoint = first_object(message, SENDER_TEMPLATE, FILTER_SPEC)[:4], first_object(message, SESSION)[:4]
    return stack, Packet(socket.inet_ntoa(sender), socket.inet_ntoa(endpoint), TTL, message, alert=True)


def is_resv(frame: bytes) -> bool:
    at = {HOP: 1, ROUTED: ROUTED_BYTES}.get(frame[0], len(frame)) if frame else 0
    return frame[at + 1:at + 2] == bytes([RESV])


def read_packet(data: bytes) -> Packet | None:
    """The message of an IPv4 packet that the kernel took; none where it is shorter than a message's header."""
    start = (data[0] & 15) * 4 if data else 0
    message = data[start:int.from_bytes(data[2:4], "big")]
    if start < IP_BYTES or len(message) < HEADER_BYTES:
        return None
    return Packet(socket.inet_ntoa(data[12:16]), socket.inet_ntoa(data[16:20]), data[8], message)


def frame_of(packet: Packet, address: str, from_labels: bool) -> bytes | None:
    """The frame of a packet that came over the link with this address, or out of labels; none of a type that the router doesn't read."""
    kind = packet.message[1]
    if kind in DOWNSTREAM and from_labels:
        return bytes([LABELLED, 0, MESSAGE]) + packet.message
    if kind in UPSTREAM and packet.to != address:
        return bytes([ROUTED]) + socket.inet_aton(packet.to) + bytes([packet.ttl]) + packet.message
    return bytes([HOP]) + packet.message if kind in DOWNSTREAM | UPSTREAM else None


def ip_packets(packet: Packet, mtu: int) -> list[bytes]:
    """The packet as IPv4 packets of at most `mtu` bytes each (RFC 791, 3.2), for where the kernel doesn't write the header."""
    options = ALERT if packet.alert else b""
    size, number, made = IP_BYTES + len(options), next(packet_numbers) & 0xffff, []
    part = max(8, (mtu - size) // 8 * 8)
    for at in range(0, len(packet.message), part):
        body = packet.message[at:at + part]
        place = at // 8 | (MORE_FRAGMENTS if at + part < len(packet.message) else 0)
        head = struct.pack("!BBHHHBBH", 0x40 + size // 4, CONTROL_CLASS, size + len(body), number, place, packet.ttl, RSVP, 0)
        head += socket.inet_aton(packet.source) + socket.inet_aton(packet.to) + options
        made.append(head[:10] + struct.pack("!H", checksum(head)) + head[12:] + body)
    return made
