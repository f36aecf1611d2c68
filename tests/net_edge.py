#!/usr/bin/env python3
"""The edge of a router on a real network: INTEGRITY (net/lsrnet/integrity.py), Hello (net/lsrnet/hello.py), answers and their marks, what
`lsrnet reload` sends, and what net/same finds in captures and journals; without sockets or root. Of net/lab and what stands beside it only
their words are asked.

Digests are those of RFC 2202, and of whole messages as another program (openssl) computed them; captures are read by tshark, where it is
installed (else that case is told as left out, and counts for nothing).
"""

import collections
import functools
import json
import os
import pathlib
import random
import re
import shutil
import socket
import struct
import subprocess
import sys
import tempfile
import time
import tomllib
import types

import asked

NET = asked.TOP / "net"
sys.path.insert(0, str(NET / "lsrnet"))
import configuration  # noqa: E402
import console  # noqa: E402
import hello  # noqa: E402
import integrity  # noqa: E402
import machine  # noqa: E402
import metrics  # noqa: E402
import netlink  # noqa: E402
import plane  # noqa: E402
import wire  # noqa: E402

# A PathTear of 48 bytes, as `lsr decode --help` shows it.
PATH_TEAR = bytes.fromhex("1005b988ff000030001001070a000004000000010a000001000c03010a00000100000001000c0b070a00000100000001")
# RFC 2202, sections 2 and 3: key, data, digest.
LONG_DATA = b"Test Using Larger Than Block-Size Key and Larger Than One Block-Size Data"
VECTORS = {
    "hmac-md5": [
        (b"\x0b" * 16, b"Hi There", "9294727a3638bb1c13f48ef8158bfc9d"),
        (b"Jefe", b"what do ya want for nothing?", "750c783e6ab0b503eaa86e310a5db738"),
        (b"\xaa" * 16, b"\xdd" * 50, "56be34521d144c88dbb8c733f0e8b3f6"),
        (bytes(range(1, 26)), b"\xcd" * 50, "697eaf0aca3a3aea3a75164746ffaa79"),
        (b"\x0c" * 16, b"Test With Truncation", "56461ef2342edc00f9bab995690efd4c"),
        (b"\xaa" * 80, b"Test Using Larger Than Block-Size Key - Hash Key First", "6b1ab7fe4bd7bf8f0b62e6ce61b9d0cd"),
        (b"\xaa" * 80, LONG_DATA, "6f630fad67cda0ee1fb1f562db3aa53e"),
    ],
    "hmac-sha1": [
        (b"\x0b" * 20, b"Hi There", "b617318655057264e28bc0b6fb378c8ef146be00"),
        (b"Jefe", b"what do ya want for nothing?", "effcdf6ae5eb2fa2d27416d5f184df9c259a7c79"),
        (b"\xaa" * 20, b"\xdd" * 50, "125d7342b9ac11cd91a39af48aa17b4f63f175d3"),
        (bytes(range(1, 26)), b"\xcd" * 50, "4c9007f4026250c6bc8414f9bf50c86c2d7235da"),
        (b"\x0c" * 20, b"Test With Truncation", "4c1a03424b55e07fe7f27be1d58bb9324a9a5a04"),
        (b"\xaa" * 80, b"Test Using Larger Than Block-Size Key - Hash Key First", "aa4ae5e15272d00e95705637ce8a3b55ed402112"),
        (b"\xaa" * 80, LONG_DATA, "e8e99d0f45237d786d6bbaa7965c7808bbff1a91"),
    ],
}
# PATH_TEAR under these keys and numbers: the digests that `openssl dgst -mac HMAC` gives.
MD5_KEY = integrity.Key(7, "hmac-md5", b"\x0b" * 16)
SHA1_KEY = integrity.Key(8, "hmac-sha1", b"Jefe")
SIGNED = [(MD5_KEY, 0x102, "5707b7e2a1c33f43a9592ee02c3a4bdb"), (SHA1_KEY, 0x103, "19f7c81bee04c138cef78b0c89006a7841f3c97f")]
INTERFACE, OTHER_INTERFACE = "eth1", "eth2"
# Ethernet and IPv4 of a packet in a capture: link type 1, protocol 46.
PCAP = struct.Struct("=IHHiIII")
PCAP_MAGIC, RSVP = 0xA1B2C3D4, 46
SECOND = 1.0


def different(what, wanted, came):
    """A line, where the two differ."""
    return "" if wanted == came else f"{what}: {wanted!r} wanted, {came!r} came\n"


def keys(*of_interface, number=1):
    """The keys of INTERFACE; what they send first has this number."""
    return integrity.Keys({INTERFACE: list(of_interface)}, clock=lambda: number)


def refusal(of_keys, message, interface=INTERFACE):
    """Why the message is refused; no text where it is taken."""
    try:
        of_keys.verify(interface, message)
    except wire.Refused as refused:
        return str(refused)
    return ""


def refused_for(reason, of_keys, message):
    """What differs where the message is to be refused for this reason."""
    why = refusal(of_keys, message)
    return "" if reason in why else f"a refusal with `{reason}` wanted, `{why}` came\n"


def vector(name, secret, data, digest):
    return different(name, digest, integrity.Key(0, name, secret).digest(data).hex())


def signed(key, number, digest):
    """A message under a key, byte for byte, and back."""
    came = keys(key, number=number).protect(INTERFACE, PATH_TEAR)
    digest = bytes.fromhex(digest)
    head = struct.pack("!HBBHHIQ", 20 + len(digest), 4, 1, 0, 0, key.identifier, number)
    plain = PATH_TEAR[:2] + b"\0\0\xff\0" + struct.pack("!H", len(PATH_TEAR) + 20 + len(digest)) + head + digest + PATH_TEAR[8:]
    total = sum(struct.unpack(f"!{len(plain) // 2}H", plain))
    while total >> 16:                                   # one's complement sum, another way than the module's
        total = (total & 0xFFFF) + (total >> 16)
    wanted = plain[:2] + struct.pack("!H", ~total & 0xFFFF) + plain[4:]
    return different("message", wanted.hex(), came.hex()) + different(
        "taken off", PATH_TEAR.hex(), keys(key).verify(INTERFACE, came).hex())


def without_keys():
    """An interface without a key sends and takes what there is, an INTEGRITY object too: the router refuses that."""
    under = keys(MD5_KEY).protect(INTERFACE, PATH_TEAR)
    of_keys = keys(MD5_KEY)
    return "".join(different("message", it, done) for it in (PATH_TEAR, under, b"")
                   for done in (of_keys.protect(OTHER_INTERFACE, it), of_keys.verify(OTHER_INTERFACE, it)))


def replayed():
    """A number isn't taken twice, nor a lower one, whatever the source; a refused message moves nothing; each key has its own."""
    sender, receiver = keys(MD5_KEY), keys(MD5_KEY, SHA1_KEY)
    first, second, third = (sender.protect(INTERFACE, PATH_TEAR) for _ in range(3))
    forged = second[:-1] + bytes([second[-1] ^ 1])
    text = different("first", "", refusal(receiver, first)) + refused_for("replay", receiver, first)
    text += refused_for("wrong", receiver, wire.sealed(forged)) + different("third", "", refusal(receiver, third))
    text += refused_for("replay", receiver, second)
    other = keys(SHA1_KEY).protect(INTERFACE, PATH_TEAR)
    return text + different("other key", "", refusal(receiver, other)) + refused_for("replay", receiver, third)


def two_senders():
    """Numbers are kept for each sender by its RSVP_HOP, and for messages without one."""
    receiver, text = keys(MD5_KEY), ""
    other = PATH_TEAR.replace(bytes.fromhex("000c03010a000001"), bytes.fromhex("000c03010a000009"))
    without = PATH_TEAR.replace(bytes.fromhex("000c0301"), bytes.fromhex("000c8001"))
    for message, number in ((PATH_TEAR, 500), (other, 300), (without, 100)):
        under = keys(MD5_KEY, number=number).protect(INTERFACE, message)
        text += different("first", "", refusal(receiver, under)) + refused_for("replay", receiver, under)
    return text


def restarted():
    """A sender that starts again goes on above what it sent, by the clock; one that stands still counts on."""
    receiver = keys(MD5_KEY)
    old, new = keys(MD5_KEY, number=1000), keys(MD5_KEY, number=2000)
    sent = [old.protect(INTERFACE, PATH_TEAR) for _ in range(3)] + [new.protect(INTERFACE, PATH_TEAR)]
    numbers = [struct.unpack("!Q", it[20:28])[0] for it in sent]
    return different("numbers", [1000, 1001, 1002, 2000], numbers) + "".join(refusal(receiver, it) for it in sent)


def rolled_over():
    """The first key is sent, each is taken."""
    old_first, new_first = keys(MD5_KEY, SHA1_KEY), keys(SHA1_KEY, MD5_KEY)
    both = [it.protect(INTERFACE, PATH_TEAR) for it in (old_first, new_first)]
    return different("lengths", [84, 88], [len(it) for it in both]) + "".join(refusal(old_first, it) for it in both)


def not_taken():
    """What is refused, and for what."""
    good = keys(MD5_KEY).protect(INTERFACE, PATH_TEAR)
    again = wire.sealed
    rows = [
        ("no RSVP message", b""), ("no RSVP message", good[:7]), ("no RSVP message", b"\x20" + good[1:]),
        ("length field", good + b"\0\0\0\0"), ("length field", good[:-4]),
        ("checksum", good[:2] + b"\x01\x02" + good[4:]),
        ("doesn't begin with", PATH_TEAR), ("doesn't begin with", again(PATH_TEAR[:8])), ("doesn't begin with", again(good[:27])),
        ("doesn't begin with", again(PATH_TEAR[:24] + good[8:44] + PATH_TEAR[24:])),
        ("isn't in the file", again(good[:19] + b"\x09" + good[20:])),
        ("isn't one of", again(good[:11] + b"\x02" + good[12:])), ("isn't one of", again(good[:9] + b"\x28" + good[10:])),
        ("isn't one of", again(good[:40])), ("isn't one of", again(good[:9] + b"\0" + good[10:])),
        ("digest is wrong", again(good[:12] + b"\x80" + good[13:])), ("digest is wrong", again(good[:-4])),
        ("digest is wrong", again(good[:27] + b"\x09" + good[28:])), ("digest is wrong", again(good[:1] + b"\x01" + good[2:])),
    ]
    return "".join(refused_for(reason, keys(MD5_KEY), message) for reason, message in rows)


def changed_by_chance():
    """Of messages with changed, cut or added bytes none is taken, and each is refused in words."""
    chance, good = random.Random(2747), keys(MD5_KEY).protect(INTERFACE, PATH_TEAR)
    for _ in range(5000):
        message = bytearray(good)
        for _ in range(chance.randint(1, 3)):
            message[chance.randrange(len(message))] ^= chance.randint(1, 255)
        message = bytes(message[:chance.randint(0, len(message))] if chance.random() < 0.3 else message)
        if chance.random() < 0.7 and len(message) >= 8:
            message = wire.sealed(message)
        same = message[:2] + message[4:] == good[:2] + good[4:]         # the checksum alone isn't under the digest
        if not refusal(keys(MD5_KEY), message) and not same:
            return f"taken: {message.hex()}\n"
    return ""


def read_keys(text, mode=0o600):
    """The keys of a file of this text, or what is told of it."""
    with tempfile.TemporaryDirectory() as room:
        path = pathlib.Path(room, "keys")
        path.write_bytes(text if isinstance(text, bytes) else text.encode())
        path.chmod(mode)
        try:
            return integrity.Keys.read(str(path)).keys
        except ValueError as bad:
            return str(bad).replace(room + "/", "")


def file_of_keys():
    """The example of the module's own text, and what is wrong with others; no secret is told."""
    lines = integrity.__doc__.split("INTERFACE IDENTIFIER DIGEST SECRET\n")[1].split("\n\n")[0]
    wanted = {"eth1": [integrity.Key(1, "hmac-md5", b"correct-horse-battery"), integrity.Key(2, "hmac-sha1", b"\x0b" * 20)]}
    text = different("example", wanted, read_keys("# ours\n\n" + lines)) + different("empty", {}, read_keys(""))
    rows = [
        ("keys, line 1: write INTERFACE", "eth1 1 hmac-md5 sesame\n"), ("keys, line 2: write", "\neth1 1 hmac-md5 hex:123\n"),
        ("write INTERFACE", "eth1 1 hmac-md5 text:\n"), ("write INTERFACE", "eth1 -1 hmac-md5 text:sesame\n"),
        ("write INTERFACE", "eth1 1 hmac-md5 text:se same\n"), ("hmac-sha2 is no digest", "eth1 1 hmac-sha2 text:sesame\n"),
        ("more than 48 bits", f"eth1 {1 << 48} hmac-md5 text:sesame\n"), ("UTF-8", b"eth1 1 hmac-md5 text:sesame\xff\n"),
        ("has identifier 1 already", "eth1 1 hmac-md5 text:sesame\neth1 1 hmac-sha1 text:sesame\n"),
    ]
    for reason, given in rows:
        told = str(read_keys(given))
        text += "" if reason in told and "sesame" not in told else f"`{reason}` wanted, without the secret; `{told}` came\n"
    return text + different("mode", "keys: others may read these secrets; run chmod 600 keys", read_keys("", 0o640))


def too_long():
    """A message that has no room for the object isn't sent."""
    longest = wire.MOST_BYTES - MD5_KEY.object_bytes
    for length, reason in ((longest, ""), (longest + 1, "more than 65535 bytes")):
        try:
            keys(MD5_KEY).protect(INTERFACE, PATH_TEAR[:8] + bytes(length - 8))
            why = ""
        except ValueError as fault:
            why = str(fault)
        if bool(reason) != bool(why) or reason not in why:
            return f"of {length} bytes: `{why}`\n"
    return ""


def what_is_counted():
    """Of a summary what it counts; nothing of lines that are none, as where the router had no memory for it."""
    good = ["links 2 up of 2", "paths 7 of 1024 near", "link 3 reserved 5 of 1000", "bypass 4 assigned 6 of 2000"]
    wanted = {"lsr_links 2", "lsr_paths 7", 'lsr_link_reserved_bytes{link="3"} 5', 'lsr_link_limit_bytes{link="3"} 1000',
              'lsr_bypass_assigned_bytes{bypass="4"} 6', 'lsr_bypass_capacity_bytes{bypass="4"} 2000'}
    came = {it for it in metrics.metrics(good, [], {}) if not it.startswith("#")}
    return different("metrics", wanted, came) + different("metrics", [], metrics.metrics(["memory", "", "link", "mismatch 1 2", "link 3 reserved"], [], {}))


class Kernel(netlink.Netlink):
    """Netlink whose kernel answers what it is given: lists of messages, each with its type, its flags and its body."""

    def __init__(self, *answers):
        self.sequence, self.answers, self.socket = 0, list(answers), self

    def send(self, data):
        """A request: its answer is the next."""

    def read(self, flags=0):
        return [(kind, of_message, self.sequence, body) for kind, of_message, body in self.answers.pop(0)]


def changed_dump():
    """What the kernel tells while it changes is asked for anew, at last taken as it is; an error is one."""
    done, changed = (netlink.DONE, 0, bytes(4)), (netlink.DONE, netlink.CHANGED, bytes(4))
    text = different("got", [b"b"], Kernel([(24, 2, b"a"), changed], [(24, 2, b"b"), done]).get(26, b""))
    text += different("got", [b"b"], Kernel([(24, 2 | netlink.CHANGED, b"a"), done], [(24, 2, b"b"), done]).get(26, b""))
    text += different("got", [b"a"], Kernel(*[[(24, 2, b"a"), changed]] * netlink.DUMPS).get(26, b""))
    try:
        Kernel([(netlink.ERROR, 0, struct.pack("=i", -95))]).get(26, b"")
        return text + "no error\n"
    except OSError as fault:
        return text + different("errno", 95, fault.errno)


def wrong_tables():
    """What is no label table of a router with links 1 and 2 is refused, and the rest is read."""
    rows = {16: plane.Row((100,), 2), 17: plane.Row((200, 100), 1), 18: plane.Row((), 0), 19: plane.Row((), 2), plane.TUNNELS + 5: plane.Row((7,), 1)}
    text = different("rows", rows, plane.rows_of(["16 swap 100 2", "17 swappush 100 200 1", "18 pop", "19 swap 3 2", "tunnel 5 push 7 1"], {1, 2}))
    for line in ("memory", "", "16", "16 swap x 1", "16 swap 100 3", "tunnel", "tunnel 1", "tunnel 1 drop 3", "mismatch 1 2"):
        try:
            text += f"`{line}` is read as {plane.rows_of([line], {1, 2})}\n"
        except (ValueError, IndexError):
            pass
    return text


def answers_and_marks():
    """A full stop alone in its line ends each answer, in however many parts they come; what has no mark yet waits."""
    reading, writing = os.pipe()
    os.set_blocking(reading, False)
    child, taken = console.Child.__new__(console.Child), []
    child.waiting, child.rest, child.answer, child.answered = collections.deque((0.0, taken.append) for _ in range(4)), b"", [], False
    with open(reading, "rb", buffering=0) as output, open(writing, "wb", buffering=0) as printing:
        child.process = types.SimpleNamespace(stdout=output)
        text = different("more to come", True, child.ready()) + different("answered", False, child.answered)
        for part in (b"done\n", b".\n.\nlink 1 up\n\nli", b"nk 2 down\n.", b"\nbad line 4\n", b"  .\n"):
            printing.write(part)
            text += different("more to come", True, child.ready())
        printing.close()
        last = time.monotonic() + asked.MOST_SECONDS            # a process that another case starts has the pipe, too, until it runs its program
        while child.ready() and time.monotonic() < last:
            time.sleep(0.01)
        text += different("more to come", False, child.ready())
    text += different("answers", [["done"], [], ["link 1 up", "", "link 2 down"]], taken)
    return text + different("the rest", (1, ["bad line 4", "  ."]), (len(child.waiting), child.answer))


def endless_router():
    """A router that prints without end, and doesn't end with its input, is killed when its time is over."""
    child = console.Child.__new__(console.Child)
    child.process = subprocess.Popen(["yes"], stdin=subprocess.PIPE, stdout=subprocess.PIPE, bufsize=0)
    child.waiting, whole, console.END_SECONDS = [], console.END_SECONDS, 1
    began = time.monotonic()
    try:
        said = child.end()
    finally:
        console.END_SECONDS = whole
        child.process.kill()
    took = time.monotonic() - began
    return "" if "it was killed, since it didn't end in 1 s" in said and took < 60 else f"{took:.1f} s, {said}\n"


def short_frames():
    """A frame that has no room for a packet enters no tunnel."""
    here, there = socket.socketpair(socket.AF_UNIX, socket.SOCK_DGRAM)
    with here, there:
        here.setblocking(False)
        one, sent = plane.UserPlane.__new__(plane.UserPlane), []
        one.tap, one.rows, one.send = here.fileno(), {plane.TUNNELS + 5: plane.Row((7,), 1)}, lambda *words: sent.append(words)
        head = plane.HARDWARE.pack(b"\x02\0\0\0", 5) + bytes(6) + b"\x08\0"
        for frame in (b"\0", head, head + bytes(8), head + bytes(20), head[:12] + b"\x86\xdd" + bytes(40)):
            there.send(frame)
        one.enter()
    return different("sent", [(plane.Row((7,), 1), bytes(20), 0, True)], sent)


class Pair:
    """Two nodes, each with the other as its neighbour, and a wire between them that may be cut."""

    def __init__(self):
        self.now, self.is_cut = 0.0, False
        self.nodes = [hello.Neighbour(100, SECOND), hello.Neighbour(200, SECOND)]
        self.told = [[], []]            # of each its neighbour: when it was `down`, and `up` again
        self.requests = 0

    def carry(self, to, message):
        while message and not self.is_cut:
            message = self.nodes[to].receive(self.now, message)
            to = 1 - to

    def run(self, seconds):
        """Moments of a tenth of a second."""
        for _ in range(round(seconds * 10)):
            self.now += 0.1
            for own in range(2):
                message = self.nodes[own].tick(self.now)
                self.requests += message is not None
                self.carry(1 - own, message)
            for told, node in zip(self.told, self.nodes):
                if node.is_lost != (bool(told) and told[-1][1] == "down"):
                    told.append((round(self.now, 1), "down" if node.is_lost else "up"))


def hello_bytes():
    """A REQUEST and its ACK, byte for byte: header, then length 12, class 22, C-Type, both instances."""
    one = hello.Neighbour(1, SECOND)
    wanted = "1014d8c901000014" "000c1601" "0000000100000000"
    answer = hello.Neighbour(2, SECOND).receive(0.0, bytes.fromhex(wanted))
    return different("REQUEST", wanted, (one.tick(0.0) or b"").hex()) + different(
        "ACK", "1014d8c601000014" "000c1602" "0000000200000001", (answer or b"").hex())


def quiet_neighbours():
    """Two that are there tell nothing, and one REQUEST an interval goes between them."""
    pair = Pair()
    pair.run(20)
    text = different("told", [[], []], pair.told)
    return text + ("" if 18 <= pair.requests <= 22 else f"{pair.requests} REQUESTs in 20 intervals\n")


def silent_neighbour():
    """A cut is told 3.5 intervals after the last word, once; what comes after it as `up` at both ends, under new instances."""
    pair = Pair()
    pair.run(5)
    pair.is_cut = True
    pair.run(10)
    text = different("told", [["down"], ["down"]], [[it for _, it in own] for own in pair.told])
    late = [moment - 5 for (moment, _), in pair.told]
    text += "" if all(2.4 <= it <= 3.6 for it in late) else f"told after {late} intervals\n"
    pair.is_cut = False
    pair.run(3)
    text += different("told", [["down", "up"]] * 2, [[it for _, it in own] for own in pair.told])
    return text + different("instances", [101, 201], [it.own for it in pair.nodes])


def restarted_neighbour():
    """Another instance is a loss at once, and then the neighbour is there again; the one that restarted tells nothing."""
    pair = Pair()
    pair.run(5)
    pair.nodes[1] = hello.Neighbour(700, SECOND)
    pair.run(3)
    return different("told", [["down", "up"], []], [[it for _, it in own] for own in pair.told]) + different(
        "known", [700, 101], [it.other for it in pair.nodes])


def never_heard():
    """Of a neighbour that never spoke nothing is told, and it is asked each interval."""
    one = hello.Neighbour(1, SECOND)
    sent = [one.tick(moment / 10) for moment in range(100)]
    return different("lost", False, one.is_lost) + different("asked", 10, sum(it is not None for it in sent))


def met():
    """A node that knows its neighbour, whose instance is 9."""
    one = hello.Neighbour(1, SECOND)
    one.receive(0.0, hello.hello(hello.ACK, 9, 1))
    return one


def wrong_instances():
    """A wrong reflection in an ACK is a loss at once, in REQUESTs the third time; 0 in a REQUEST is none; Src_Instance 0 is one."""
    rows = [([(hello.ACK, 9, 5)], 1), ([(hello.REQUEST, 9, 5)] * 2, 0), ([(hello.REQUEST, 9, 5)] * 3, 1),
            ([(hello.REQUEST, 9, 5)] * 2 + [(hello.REQUEST, 9, 1)] + [(hello.REQUEST, 9, 5)] * 2, 0),
            ([(hello.REQUEST, 9, 0)] * 5, 0), ([(hello.ACK, 0, 1)], 1), ([(hello.ACK, 9, 5)] * 4, 1)]
    text = ""
    for messages, losses in rows:
        one, own = met(), 1
        for words in messages:
            one.receive(0.1, hello.hello(*words))
        text += different(f"losses after {messages}", (losses, bool(losses)), (one.own - own, one.is_lost))      # another instance after each
    return text


def no_hellos():
    """What is no Hello is no sign of life: cut, of a wrong length, checksum or class, or another message."""
    good = hello.hello(hello.ACK, 9, 1)
    again = wire.sealed
    junk = [b"", good[:7], good[:19], good[:2] + b"\x01\x02" + good[4:], again(good[:8]), again(good[:10] + b"\x15" + good[11:]),
            again(good[:11] + b"\x03" + good[12:]), again(good[:1] + b"\x05" + good[2:]), again(good[:8] + b"\0\0" + good[10:]), PATH_TEAR,
            *(random.Random(3209).randbytes(length) for length in range(64))]
    one = met()
    answers = [one.receive(3.0, it) for it in junk]
    one.tick(3.4)
    text = different("answers", [None] * len(junk), answers) + different("lost", False, one.is_lost)
    one.tick(3.5)
    return text + different("lost", True, one.is_lost)


def last_instance():
    """After the last instance comes 1: 0 says that there is none."""
    one = hello.Neighbour(hello.LAST_INSTANCE, SECOND)
    one.receive(0.0, hello.hello(hello.ACK, 9, hello.LAST_INSTANCE))
    one.tick(4.0)
    return different("instance", 1, one.own)


def capture(messages):
    """A capture file's bytes: each message in an IPv4 packet of protocol 46, over Ethernet."""
    out = PCAP.pack(PCAP_MAGIC, 2, 4, 0, 0, 65535, 1)
    for message in messages:
        head = struct.pack("!BBHHHBBH4s4s", 0x45, 0xC0, 20 + len(message), 0, 0, message[4], RSVP, 0, bytes([10, 1, 0, 1]), bytes([10, 1, 0, 2]))
        head = head[:10] + struct.pack("!H", wire.checksum(head)) + head[12:]
        frame = b"\x02\0\0\0\0\x02\x02\0\0\0\0\x01\x08\0" + head + message
        out += struct.pack("=IIII", 1, 0, len(frame), len(frame)) + frame
    return out


def read_by_tshark():
    """tshark finds the objects, the fields and right checksums, and complains of nothing."""
    messages = [keys(key, number=number).protect(INTERFACE, message) for message in (PATH_TEAR, hello.hello(hello.REQUEST, 1, 0))
                for key, number, _ in SIGNED] + [hello.hello(hello.ACK, 0x1234, 0x5678)]
    with tempfile.TemporaryDirectory() as room:
        path = pathlib.Path(room, "edge.pcap")
        path.write_bytes(capture(messages))
        words = ["tshark", "-V", "-o", "ip.check_checksum:TRUE", "-r", str(path)]
        said = subprocess.run(words, capture_output=True, text=True, timeout=asked.MOST_SECONDS, check=True).stdout
    text = "".join(f"tshark: {line}\n" for line in said.splitlines() if re.search(r"(?i)malformed|expert info .(warn|error)|unknown|incorrect|bad ", line))
    counts = {"    INTEGRITY\n": 4, "Message Checksum: 0x.* \\[correct\\]": 5, "Sequence Number: 258": 2,
              "HELLO Request/Ack: REQUEST": 2, "HELLO Request/Ack: ACK": 1, "Source Instance: 0x00001234": 1, "Destination Instance: 0x00005678": 1}
    return text + "".join(different(it, count, len(re.findall(it, said))) for it, count in counts.items())


ROUTER = """router = "10.0.0.2"
refresh_ms = 30000
labels = [16, 4111]
label_rest_ms = 0

[[link]]
number = 1
address = "10.1.0.2"
peer = "10.1.0.1"
peer_router = "10.0.0.1"
limit = 1250000
up = true

[[link]]
number = 2
address = "10.2.0.2"
peer = "10.2.0.3"
peer_router = "10.0.0.3"
limit = 1250000
up = true
"""


def tables(routes=(), tunnels=(), bypasses=(), router=ROUTER):
    """A configuration, as `lsr config` has it: routes to links; tunnels with what they differ in from one; bypasses as tunnel, link and capacity."""
    text = router + "".join(f'[[route]]\nprefix = "{prefix}"\nlink = {link}\n' for prefix, link in routes)
    for number, more in tunnels:
        keys_of = {"endpoint": "10.0.0.4", "route": ["10.2.0.3/32", "~10.0.0.4/32"], "rate": "47f42400", "setup": 3, "hold": 4, "flags": 23, "name": f"t{number}"}
        text += f"[[tunnel]]\nnumber = {number}\n" + "".join(f"{key} = {json.dumps(value)}\n" for key, value in (keys_of | more).items())
    for number, (tunnel, link, capacity) in bypasses:
        text += f"[[bypass]]\nnumber = {number}\ntunnel = {tunnel}\nlink = {link}\ncapacity = {capacity}\n"
    return tomllib.loads(text)


FIVE, NINE = "10.0.0.4 47f42400 3 4 17 t5 10.2.0.3/32 ~10.0.0.4/32", "10.0.0.4 47f42400 3 4 17 t9 10.2.0.3/32 ~10.0.0.4/32"
# Before, after, and the lines between them.
DIFFERENCES = [
    (tables(), tables(), []),
    (tables([("10.9.0.0/16", 1)], [(5, {})], [(1, (5, 1, 0))]), tables([("10.9.0.0/16", 1)], [(5, {})], [(1, (5, 1, 0))]), []),
    (tables(), tables([("10.9.0.0/16", 1)], [(5, {})], [(1, (5, 1, 7))]), ["route 10.9.0.0/16 1", f"tunnel 5 {FIVE}", "bypass 1 5 1 7"]),
    (tables([("10.9.0.0/16", 1)], [(5, {})], [(1, (5, 1, 7))]), tables(), ["unbypass 1", "drop 5", "unroute 10.9.0.0/16"]),
    (tables([("10.8.0.0/16", 1), ("10.9.0.0/16", 1)]), tables([("10.9.0.0/16", 2), ("10.9.9.0/24", 1)]),
     ["unroute 10.8.0.0/16", "route 10.9.0.0/16 2", "route 10.9.9.0/24 1"]),
    (tables(tunnels=[(5, {})]), tables(tunnels=[(5, {"rate": "00000000"})]), ["change 5 00000000 10.2.0.3/32 ~10.0.0.4/32"]),
    (tables(tunnels=[(5, {})]), tables(tunnels=[(5, {"route": []})]), ["change 5 47f42400"]),
    (tables(tunnels=[(5, {"name": "A to B"})]), tables(tunnels=[(5, {"name": "A to B", "rate": "00000000"})]), ["change 5 00000000 10.2.0.3/32 ~10.0.0.4/32"]),
    (tables(tunnels=[(5, {"name": "A to B"})]), tables(tunnels=[(5, {})]), ["drop 5", f"tunnel 5 {FIVE}"]),
    # Of two tunnels one is made anew: with it the bypass that runs in it, though that is the same; the other's stays while it changes.
    (tables(tunnels=[(5, {"endpoint": "10.0.0.3"}), (9, {"rate": "00000000"})], bypasses=[(1, (5, 1, 0)), (2, (9, 1, 0))]),
     tables(tunnels=[(5, {}), (9, {})], bypasses=[(1, (5, 1, 0)), (2, (9, 1, 0))]),
     ["unbypass 1", "drop 5", f"tunnel 5 {FIVE}", "change 9 47f42400 10.2.0.3/32 ~10.0.0.4/32", "bypass 1 5 1 0"]),
    # A bypass goes over to another tunnel, and its own goes.
    (tables(tunnels=[(5, {})], bypasses=[(1, (5, 1, 0))]), tables(tunnels=[(9, {})], bypasses=[(1, (9, 1, 0))]),
     ["unbypass 1", "drop 5", f"tunnel 9 {NINE}", "bypass 1 9 1 0"]),
    (tables(tunnels=[(5, {})], bypasses=[(1, (5, 1, 0))]), tables(tunnels=[(5, {})], bypasses=[(1, (5, 2, 9))]), ["unbypass 1", "bypass 1 5 2 9"]),
    # What the adapter says of links in place of the file.
    (tables(router=ROUTER.replace("up = true", 'up = false\nlisten = "127.0.0.1:5001"\nsend = "127.0.0.1:5000"')), tables(), []),
]
# What no line changes, and what is told of it.
UNCHANGEABLE = [
    (tables(router=ROUTER.replace("30000", "5000")), "no line changes refresh_ms: end lsrnet"),
    (tables(router=ROUTER.replace("4111", "100").replace('"10.0.0.2"', '"10.0.0.9"')), "no line changes router, labels: "),
    (tables(router=ROUTER.replace("label_rest_ms = 0", "label_rest_ms = 1")), "no line changes label_rest_ms: "),
    (tables(router=ROUTER.replace("number = 2\n", "number = 3\n")), "no line changes link 2, link 3: "),
    (tables(router=ROUTER.replace("limit = 1250000", "limit = 0", 1)), "no line changes link 1: "),
    *[(tables(tunnels=[(5, {"name": name})]), "no line makes tunnel 5, since its name is no word: ") for name in ("A to B", "", " t", "t\r", "a\tb", "\x7f", "\xa0")],
]


def reloaded():
    """The lines that `lsrnet reload` sends; what no line changes is told, and no line comes of it."""
    text = "".join(different("lines", lines, configuration.difference(old, new)) for old, new, lines in DIFFERENCES)
    for new, words in UNCHANGEABLE:
        try:
            text += f"no trouble, but {configuration.difference(tables(), new)}\n"
        except machine.Trouble as trouble:
            text += "" if str(trouble).startswith(words) else f"`{words}` wanted, `{trouble}` came\n"
    return text


def texts_of_a_router():
    """What a router gets of a file, and that `show config` of it is told as the file has it; an answer that is none stays as it is."""
    own = configuration.own_text(ROUTER, range(16, 2064))
    text = different("labels", [16, 2063], tomllib.loads(own)["labels"])
    ends = [(it["listen"], it["send"], it["up"]) for it in tomllib.loads(own)["link"]]
    text += different("links", [("127.0.0.1:5001", "127.0.0.1:5000", False), ("127.0.0.1:5003", "127.0.0.1:5002", False)], ends)
    text += different("own text of own text", own, configuration.own_text(own, range(16, 2064)))
    text += different("lines of a file", ROUTER.splitlines(), configuration.file_lines(ROUTER, own.splitlines()))
    return text + different("no memory", ["memory"], configuration.file_lines(ROUTER, ["memory"]))


class Carried:
    """A Path of examples/serve-head.toml and the Resv that answers it, in the journals of both routers and in captures."""

    def __init__(self, room):
        self.room = pathlib.Path(room)
        self.path, = self.step("head", "tick 1\n")
        self.resv, = self.step("tail", f"rx 1 {self.path.hex()}\n")
        self.journals = [str(self.room / name) for name in ("head", "tail")]

    def step(self, name, lines):
        """What a router sends, whose journal has that name."""
        words = ["step", "--config", str(asked.TOP / "examples" / f"serve-{name}.toml"), "--journal", str(self.room / name)]
        said = asked.ask(*words, given=lines.encode()).out.decode()
        return [bytes.fromhex(it) for it in re.findall(r"^tx \d+ ([0-9a-f]+)$", said, re.MULTILINE)]

    def same(self, data, *journals):
        """What net/same says of a capture of these bytes: its status, and both streams."""
        name = self.room / "link.pcap"
        name.write_bytes(data)
        words = [str(NET / "same"), "--lsr", asked.program(), str(name), *(journals or self.journals)]
        done = subprocess.run(words, capture_output=True, text=True, timeout=asked.MOST_SECONDS, check=False)
        return done.returncode, done.stdout.strip(), done.stderr.strip()


def found_same():
    """What two routers sent is found, under labels too; a changed byte, a message of no journal, and one that was never captured are told."""
    with tempfile.TemporaryDirectory() as room:
        it = Carried(room)
        good = capture([it.path, it.resv])
        labelled = good[:PCAP.size] + b"".join(relabelled(good))
        wrong = it.resv[:-1] + bytes([it.resv[-1] ^ 1])
        rows = [
            (good, (), 0, "2 messages captured, 0 of them sent by no router; 1 taken by routers, 0 of them not captured"),
            (labelled, (), 0, "2 messages captured, 0 of them sent by no router; 1 taken by routers, 0 of them not captured"),
            (capture([it.path, wrong]), (), 1, "2 messages captured, 1 of them sent by no router; 1 taken by routers, 0 of them not captured"),
            (good, it.journals[1:], 1, "2 messages captured, 1 of them sent by no router; 1 taken by routers, 0 of them not captured"),
            (capture([it.resv]), (), 1, "1 messages captured, 0 of them sent by no router; 1 taken by routers, 1 of them not captured"),
            (capture([]), (), 1, "0 messages captured, 0 of them sent by no router; 1 taken by routers, 1 of them not captured"),
            (capture([it.path, it.resv, hello.hello(hello.ACK, 1, 2), keys(MD5_KEY).protect(INTERFACE, it.resv)]), (), 0,
             "2 messages captured, 0 of them sent by no router; 1 taken by routers, 0 of them not captured\nnot compared: 1 Hellos, 1 with INTEGRITY"),
            (good[:-3], (), 0, "1 messages captured, 0 of them sent by no router; 1 taken by routers, 0 of them not captured"),
        ]
        text = "".join(different("same", (status, said, ""), it.same(data, *journals)) for data, journals, status, said in rows)
        status, said, told = it.same(b"no capture")
        return text + ("" if (status, said) == (2, "") and "neither a pcap file nor a journal" in told else f"{status} {said} {told}\n")


def relabelled(data):
    """The packets of a capture, each under two labels (RFC 3032)."""
    at = PCAP.size
    while at < len(data):
        size = struct.unpack_from("=I", data, at + 8)[0]
        frame = data[at + 16:at + 16 + size]
        frame = frame[:12] + b"\x88\x47" + bytes.fromhex("0006403f000c813f") + frame[14:]
        yield struct.pack("=IIII", 1, 0, len(frame), len(frame)) + frame
        at += 16 + size


def other_words():
    """Words that the commands of the lab don't take are told, with status 2 (the guest's is 125), and nothing is done."""
    rows = [("same", []), ("flood", []), ("flood", ["10.1.0.1", "10.1.0.2"]), ("bare", ["0"]), ("bare", ["1025"]), ("bare", ["x"]),
            ("lab", ["--lsps", "0"]), ("lab", ["--lsps", "251"]), ("lab", ["--seconds", "1"]), ("lab", ["--plane", "none"]), ("lab", ["x"]),
            ("lab", ["--lsr", "/no/such/lsr"]), ("guest", []), ("guest", ["--memory", "x", "true"]), ("guest", ["--writable", "/no/such", "true"])]
    text = ""
    for name, words in rows:
        came = subprocess.run([str(NET / name), *words], stdin=subprocess.DEVNULL, capture_output=True, text=True, timeout=asked.MOST_SECONDS, check=False)
        wanted = 125 if name == "guest" else 2
        text += "" if came.returncode == wanted and came.stderr and not came.stdout and "Traceback" not in came.stderr else f"{name} {words}: {came}\n"
    return text


CASES = [
    *[(f"RFC 2202: {name} {number}", functools.partial(vector, name, *row))
      for name, rows in VECTORS.items() for number, row in enumerate(rows, 1)],
    *[(f"a message under {row[0].digest_name}", functools.partial(signed, *row)) for row in SIGNED],
    ("without keys", without_keys),
    ("replay", replayed),
    ("two senders", two_senders),
    ("a sender restarts", restarted),
    ("two keys", rolled_over),
    ("refusals", not_taken),
    ("changed by chance", changed_by_chance),
    ("a file of keys", file_of_keys),
    ("too long for INTEGRITY", too_long),
    ("metrics", what_is_counted),
    ("netlink that changes", changed_dump),
    ("label tables", wrong_tables),
    ("short frames", short_frames),
    ("answers and their marks", answers_and_marks),
    ("a router that prints without end", endless_router),
    ("lines of a reload", reloaded),
    ("texts of a router", texts_of_a_router),
    ("Hello, byte for byte", hello_bytes),
    ("neighbours that are there", quiet_neighbours),
    ("a silent neighbour", silent_neighbour),
    ("a neighbour restarts", restarted_neighbour),
    ("a neighbour that never spoke", never_heard),
    ("wrong instances", wrong_instances),
    ("no Hello", no_hellos),
    ("the last instance", last_instance),
    ("net/same", found_same),
    ("other words", other_words),
]

if __name__ == "__main__":
    if shutil.which("tshark"):
        CASES.append(("tshark", read_by_tshark))
    else:
        print("tshark isn't installed: that it reads these messages is left out")
    sys.exit(asked.count(CASES))
