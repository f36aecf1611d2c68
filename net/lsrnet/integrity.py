"""RSVP's cryptographic authentication (RFC 2747): INTEGRITY objects, put on what leaves an interface and taken off what comes in.

The router refuses a message that has one, so both are done here, beside it. A file of keys has a line for each key, of four words;
empty lines and lines that begin with `#` count for nothing:

    INTERFACE IDENTIFIER DIGEST SECRET
    eth1      1          hmac-md5   text:correct-horse-battery
    eth1      2          hmac-sha1  hex:0b0b0b0b0b0b0b0b0b0b0b0b0b0b0b0b0b0b0b0b

IDENTIFIER is 0 to 281474976710655 (48 bits), `text:` stands before the secret itself, `hex:` before its bytes. An interface's first key is
put on what leaves it; each of its keys is accepted. So a new key is added at both ends, after the old one; then moved before it; then
the old one is taken out. An interface without a key sends and takes messages as they are. Only the file's owner may read it.

Sequence numbers (RFC 2747, section 3) are the clock's nanoseconds since 1970, or one more than the last: a restart goes on above what
it sent before, unless the clock was set back. There is no handshake (its section 4.3): the first number of a key that comes after a
start is taken as it is, so what was recorded before can be replayed until the neighbour's next message.
"""
import hmac
import os
import re
import struct
import time
from typing import Callable, NamedTuple

from wire import HEADER_BYTES, MOST_BYTES, RSVP_HOP, Refused, check_header, first_object, sealed

INTEGRITY_CLASS, INTEGRITY_TYPE, LAST_IDENTIFIER = 4, 1, (1 << 48) - 1          # RFC 2747, section 2
FIELDS = struct.Struct("!HBBQQ")        # length, class, C-Type; flags, reserved and key identifier; sequence number; then the digest
DIGESTS = {"hmac-md5": ("md5", 16), "hmac-sha1": ("sha1", 20)}      # hash function and bytes of its digest (RFC 2104)
LINE = re.compile(r"(\S+)\s+(\d{1,15})\s+(\S+)\s+(?:text:([^\s\ufffd]+)|hex:((?:[0-9A-Fa-f]{2})+))")     # U+FFFD: no UTF-8


class Key(NamedTuple):
    """A key of an interface: its identifier (48 bits), the name of its digest, and its secret."""
    identifier: int
    digest_name: str
    secret: bytes

    @property
    def object_bytes(self) -> int:
        return FIELDS.size + DIGESTS[self.digest_name][1]

    def digest(self, data: bytes) -> bytes:
        """The keyed digest of the data (RFC 2104)."""
        return hmac.digest(self.secret, data, DIGESTS[self.digest_name][0])

    def signed(self, header: bytes, fields: bytes, objects: bytes) -> bytes:
        """The message of these parts, the digest taken with its own field and the checksum as zeros (RFC 2747, 4.1)."""
        length = struct.pack("!H", HEADER_BYTES + self.object_bytes + len(objects))
        head = header[:2] + b"\0\0" + header[4:6] + length + fields
        return sealed(head + self.digest(head + bytes(self.object_bytes - FIELDS.size) + objects) + objects)


class Keys:
    """The keys of a router's interfaces, the last number sent over each, and the last that came over it under each key from each sender."""

    def __init__(self, keys: dict[str, list[Key]], clock: Callable[[], int] = time.time_ns):
        self.keys, self.clock = keys, clock
        self.sent: dict[str, int] = {}
        self.came: dict[tuple[str, int, bytes], int] = {}

    @classmethod
    def read(cls, path: str) -> "Keys":
        """The keys of a file; ValueError: it isn't taken, and why, without a secret. OSError: it can't be read."""
        keys: dict[str, list[Key]] = {}
        with open(path, encoding="utf-8", errors="replace") as file:
            if os.fstat(file.fileno()).st_mode & 0o077:
                raise ValueError(f"{path}: others may read these secrets; run chmod 600 {path}")
            lines = [(f"{path}, line {number}", line) for number, line in enumerate(file, 1) if line.strip() and not line.startswith("#")]
        for place, line in lines:
            if not (words := LINE.fullmatch(line.strip())):
                raise ValueError(f"{place}: write INTERFACE IDENTIFIER DIGEST text:SECRET in UTF-8, or hex:DIGITS, an even number of them")
            interface, identifier, name, text, digits = words.groups()
            if name not in DIGESTS:
                raise ValueError(f"{place}: {name} is no digest here; write {' or '.join(DIGESTS)}")
            if int(identifier) > LAST_IDENTIFIER:
                raise ValueError(f"{place}: identifier {identifier} has more than 48 bits; choose one up to {LAST_IDENTIFIER}")
            if int(identifier) in (it.identifier for it in keys.setdefault(interface, [])):
                raise ValueError(f"{place}: {interface} has identifier {identifier} already; give each key its own")
            keys[interface].append(Key(int(identifier), name, text.encode() if text else bytes.fromhex(digits)))
        return cls(keys)

    def protect(self, interface: str, message: bytes) -> bytes:
        """The message as it leaves: with the object after the header (RFC 2205, 3.1.2), or as it is without a key. ValueError: no room."""
        if interface not in self.keys:
            return message
        key = self.keys[interface][0]
        if len(message) + key.object_bytes > MOST_BYTES:
            raise ValueError(f"with INTEGRITY it has more than {MOST_BYTES} bytes")
        number = self.sent[interface] = max(self.sent.get(interface, 0) + 1, self.clock())
        fields = FIELDS.pack(key.object_bytes, INTEGRITY_CLASS, INTEGRITY_TYPE, key.identifier, number)
        return key.signed(message[:HEADER_BYTES], fields, message[HEADER_BYTES:])

    def verify(self, interface: str, message: bytes) -> bytes:
        """The message without its object (RFC 2747, 4.2), or as it is without a key; raises `Refused`. Who sent it, and so which number was
        its last, is what its RSVP_HOP says: no digest covers the packet's source, and by it a replay could pass for another's."""
        if interface not in self.keys:
            return message
        check_header(message)
        fields = message[HEADER_BYTES:HEADER_BYTES + FIELDS.size]
        if fields[2:3] != bytes([INTEGRITY_CLASS]) or len(fields) < FIELDS.size:
            raise Refused("it doesn't begin with an INTEGRITY object; give the neighbour this interface's key")
        length, _, kind, identifier, number = FIELDS.unpack(fields)
        identifier &= LAST_IDENTIFIER
        if not (key := next((it for it in self.keys[interface] if it.identifier == identifier), None)):
            raise Refused(f"its key identifier {identifier} isn't in the file of keys; add it, or change the neighbour's")
        if (kind, length) != (INTEGRITY_TYPE, key.object_bytes) or len(message) < HEADER_BYTES + length:
            raise Refused(f"its INTEGRITY object isn't one of {key.digest_name}; give both ends the same digest")
        header, objects = message[:HEADER_BYTES], message[HEADER_BYTES + length:]
        if not hmac.compare_digest(key.signed(header, fields, objects)[4:], sealed(message)[4:]):
            raise Refused(f"its digest is wrong; give both ends the same secret for key {key.identifier}")
        sender = interface, key.identifier, first_object(header + objects, RSVP_HOP)
        if number <= self.came.get(sender, -1):
            raise Refused(f"its sequence number {number} isn't above the last one: a replay, or the neighbour's clock was set back")
        self.came[sender] = number
        return sealed(header + objects)
