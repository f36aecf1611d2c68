"""The adapter: it stands at both sides of `lsr serve FILE --console`, and carries packets, the label table and news of links."""
import contextlib
import errno
import itertools
import os
import signal
import socket
import sys
import time
from argparse import Namespace

import netlink
import wire
from configuration import FIRST_PORT, HOST, file_lines, own_text
from console import Child, Desk, Loop, Take, datagrams
from hello import HELLO_TTL, Neighbour
from integrity import Keys
from links import MARKS, RECEIVE_BYTES, SO_RCVBUFFORCE, Link, raw_socket
from machine import Room, State, Trouble, trouble
from metrics import metrics
from plane import LOCAL_TABLE, KernelPlane, Rows, UserPlane, rows_of

RULE_OF_MARKS, RULE_OF_LOCAL = 45, 46   # priorities
# In seconds: after a message, and at the latest, the table is asked for; it is read back, and the summary asked for, so often; a router
# that is silent for so long is told, and one that ended starts again after so long; the same fault isn't told again for so long, and what
# the kernel refuses is done again after so long.
AFTER_MESSAGE, ASK, AUDIT, SUMMARY, SILENT, START_AGAIN, TOLD_AGAIN, REFUSED_AGAIN = 0.02, 1.0, 10.0, 5.0, 10.0, 1.0, 10.0, 0.1
LIFETIME = 21 / 4               # what isn't refreshed expires after so many refresh periods (RFC 2205, 3.7, K = 3)
UNDER_LABELS = "lo"             # whose key is put on messages under labels
TICKS = 4                       # Hello looks at its neighbours so often in an interval


class Adapter:
    """One router on this machine."""

    def __init__(self, words: Namespace, text: str, tables: dict):
        self.words, self.text, self.tables, self.start = words, text, tables, time.monotonic()
        self.loop, self.interfaces = Loop(), netlink.Interfaces()
        self.links = {it["number"]: Link(it["number"], it["address"], it["peer"]) for it in tables["link"]}
        if not any(self.interfaces.at(it.address).index for it in self.links.values()):
            raise Trouble(f"no interface has the address of any link: lsrnet check {words.file} tells what is wanted")
        try:
            self.keys = Keys.read(words.keys) if words.keys else Keys({})
        except (ValueError, OSError) as fault:
            raise Trouble(f"--keys: {fault}") from None
        self.state = State(words.state)
        self.child: Child | None = None
        self.desk: Desk | None = None
        self.status: int | None = None
        self.plane = (KernelPlane if words.plane == "kernel" else UserPlane)(self.links, self.state, self.tell)
        self.rows: Rows = {}
        self.spared: Rows = {}                  # of the router's run before this one; they stand until that moment
        self.spared_until = self.ask_at = self.audit_at = self.summary_at = self.start_at = self.hello_at = 0.0    # moments; 0: none
        self.held: list[tuple[Link, bytes]] = []        # frames that wait until the kernel has the table
        self.covered = 0                        # for so many of them it is the table that was asked for
        self.asked = self.again = False
        self.summary: list[str] = []
        self.told: dict[str, float] = {}
        self.down_at: float | None = None       # when a link went down, until the table has changed
        self.values = {"last_repair_seconds": 0.0, "router_starts_total": 0, "plane_entries_put_right_total": 0}

    def tell(self, text: str, about: str = "") -> None:
        """Says it on standard error, where somebody reads that; what is about the same fault not again for a while."""
        now = time.monotonic()
        if not about or now - self.told.get(about, -TOLD_AGAIN) >= TOLD_AGAIN:
            self.told[about] = now
            with contextlib.suppress(OSError):
                print(f"lsrnet {now - self.start:.3f}: {text}", file=sys.stderr, flush=True)

    # From the start to the end.

    def run(self) -> int:
        """Runs until a signal, or until the router can't be started; the status. Trouble: it can't run."""
        wake, woken = socket.socketpair(type=socket.SOCK_STREAM | socket.SOCK_NONBLOCK)
        signal.set_wakeup_fd(wake.fileno())
        for number in (signal.SIGTERM, signal.SIGINT, signal.SIGHUP):
            signal.signal(number, lambda *_: setattr(self, "status", self.status or 0))
        self.loop.on(woken, lambda: woken.recv(16))
        try:
            with trouble("", f"look what lsrnet check {self.words.file} tells"):
                self.open()
            while self.status is None:
                try:
                    self.loop.turn(min(filter(None, (self.ask_at, self.start_at, self.hello_at)), default=0.0) - time.monotonic())
                    self.pass_time(time.monotonic())
                except OSError as fault:        # as for want of memory: what was left undone the next audit does
                    self.tell(f"{fault.filename or 'the kernel'}: {fault.strerror or fault}: tried again", "kernel")
                    time.sleep(REFUSED_AGAIN)
        finally:
            for step in (lambda: self.child and self.end_router(), lambda: self.desk and self.desk.close(),
                         lambda: self.sweep(routes=True), self.state.restore):
                try:
                    step()
                except Exception as fault:      # whatever it is: the other steps are still made
                    self.tell(f"not all could be taken away: {fault}: the next start does it")
        return self.status

    def open(self) -> None:
        self.sweep(routes=self.words.plane == "user")
        self.state.put({"ipv4/conf/all/rp_filter": 0, "ipv4/conf/lo/rp_filter": 0, "ipv4/conf/lo/accept_local": 1})
        self.plane.open(self.tables["labels"][1])
        self.write()
        popped = raw_socket(self.plane.exits)
        self.loop.on(popped, lambda: self.came(None, popped))
        self.loop.on(self.interfaces.news.socket, self.settle)
        if isinstance(self.plane, UserPlane):
            self.loop.on(self.plane.tap, self.plane.enter)
        if self.words.socket:
            self.desk = Desk(self.words.socket, self.loop, self.question)
        self.room = Room([(HOST, FIRST_PORT + 2 * at) for at in range(len(self.links))])
        for link, link.router in zip(self.links.values(), self.room.sockets):
            link.router.setsockopt(socket.SOL_SOCKET, SO_RCVBUFFORCE, RECEIVE_BYTES)
            self.loop.on(link.router, lambda link=link: self.leaving(link))
        self.settle()
        self.spared = self.plane.found()
        self.start_router()

    # The kernel, beside the table.

    def sweep(self, routes: bool) -> None:
        """Takes away what is ours in the kernel: with or without routes."""
        gone = [self.plane.request(it, None) for it in self.plane.read()] if routes else []
        self.plane.netlink.change(self.plane.netlink.left() + gone)

    def requests(self, link: Link) -> list[netlink.Request]:
        """What is to be in the kernel for a link: RSVP that comes in is local, what leaves goes by its mark, and the neighbour is known."""
        made, mark = [], MARKS + link.number
        if link.raw:
            made += [local_rule(link.face.name), netlink.rule(mark, RULE_OF_MARKS, (netlink.RULE_MARK, mark))]
        if link.face.up and not self.interfaces.neighbour(link.face, link.peer)[0] & netlink.PERMANENT:
            made.append(netlink.neighbour(link.face.index, link.peer))
        return made

    def write(self) -> int:
        """Makes what isn't there of it in the kernel, for all links and for RSVP out of labels; how much wasn't. A neighbour that is known
        already, as by ARP, becomes one that stays known."""
        wanted = [local_rule(self.plane.exits), *itertools.chain(*map(self.requests, self.links.values()))]
        errors = self.plane.netlink.change([(kind, netlink.CREATE | netlink.EXCLUSIVE, body) for kind, _, body in wanted])
        known = [it for it, error in zip(wanted, errors) if it[0] == netlink.NEWNEIGH and error == errno.EEXIST]
        self.plane.netlink.change(known)
        if refused := netlink.said(set(errors) - {errno.EEXIST}):
            self.tell(f"the kernel refuses a rule or a neighbour: {refused}", "refused rules")
        return errors.count(0)

    def audit(self) -> None:
        self.interfaces.read()
        self.settle()
        if wrong := self.plane.audit() + self.write():
            self.values["plane_entries_put_right_total"] += wrong
            self.tell(f"{wrong} entries of the kernel weren't as they were written; put right")

    # The router.

    def start_router(self) -> None:
        """Starts the router with the other half of the labels: what the run before gave stands until it would have expired."""
        self.state.starts, self.start_at = self.state.starts + 1, 0.0
        first, last = self.tables["labels"]
        middle, lifetime = (first + last) // 2, LIFETIME * self.tables["refresh_ms"] / 1000
        own = range(first, middle + 1) if self.state.starts % 2 or middle == last else range(middle + 1, last + 1)
        try:
            self.state.save()
            with open(path := self.state.path + ".toml", "w", encoding="utf-8") as file:
                file.write(own_text(self.text, own))
            journal = ["--journal", free_prefix(self.words.journal)] if self.words.journal else []
            self.child = Child([self.words.lsr, "serve", path, "--console", "--mark", *journal], self.room, self.state.lock)
        except (Trouble, OSError) as fault:
            if not self.values["router_starts_total"]:
                raise
            self.state.starts, self.start_at = self.state.starts - 1, time.monotonic() + START_AGAIN
            return self.tell(f"the router doesn't start again: {fault}", "start")
        self.loop.on(self.child.process.stdout, self.child_speaks)
        self.spared = {key: row for key, row in (self.spared | self.rows).items() if key not in own}
        self.spared_until, self.rows = time.monotonic() + lifetime, {}
        self.values["router_starts_total"] += 1
        self.plane.keep(self.spared)
        if self.spared:
            self.tell(f"{len(self.spared)} entries of the run before stand for {lifetime:.1f} s")
        self.tell(f"router {self.tables['router']} runs with the labels {own[0]} to {own[-1]}")
        self.tell_links()

    def child_speaks(self) -> None:
        """Answers came. Or the router ended: it is started again, where it ever answered."""
        if not self.child.ready():
            self.status = self.status if self.child.answered else 1
            self.end_router()
            self.start_at = time.monotonic() + START_AGAIN

    def end_router(self) -> None:
        """The router ends, or ended; what it still had to send doesn't leave."""
        child, self.child = self.child, None
        self.loop.unregister(child.process.stdout)
        self.tell(f"the router {child.end()}" + ("" if child.answered else " before it answered a line: what it said stands above"))
        for link in self.links.values():
            link.told = False
            while frames := list(datagrams(link.router)):
                link.counts["lost"] += len(frames)
        for link, _ in self.held:
            link.counts["lost"] += 1
        self.held, self.asked, self.again = [], False, False

    def question(self, line: str, take: Take) -> None:
        silent = self.child.silent() if self.child else 0.0
        if line.strip() == "metrics":
            values = self.values | {"router_silent_seconds": silent, "plane_entries": len(self.spared | self.rows)}
            take(metrics(self.summary, self.links.values(), values))
        elif not self.child or silent > SILENT:
            silence = f"the router has been silent for {silent:.0f} s: read the log"
            take([silence if self.child else "the router is started again: ask in a second"])
        else:
            self.child.ask(line, (lambda answer: take(file_lines(self.text, answer))) if line == "show config" else take)
            self.ask_at = min(self.ask_at, time.monotonic() + AFTER_MESSAGE)

    # Packets.

    def leaving(self, link: Link) -> None:
        """The router's frames. A Resv goes when the label that it gives is in the kernel's table, and what comes after it goes after it."""
        for frame in datagrams(link.router):
            if self.held or wire.is_resv(frame):
                self.held.append((link, frame))
            else:
                self.transmit(link, frame)
        if self.held:
            self.ask_table()
        self.ask_at = min(self.ask_at, time.monotonic() + AFTER_MESSAGE)

    def transmit(self, link: Link, frame: bytes) -> None:
        """A frame leaves by a link; a message with INTEGRITY, where there is a key; under labels in fragments, where it is too long."""
        try:
            stack, packet = wire.outgoing(frame, link.address, link.peer)
            packet = packet._replace(message=self.keys.protect(UNDER_LABELS if stack else link.face.name, packet.message))
            if stack:
                for payload in wire.ip_packets(packet, link.face.mtu - len(stack)):
                    link.send_frame(wire.MPLS, stack + payload)
            else:
                link.send(packet)
            link.counts["sent"] += 1
        except (OSError, ValueError) as fault:
            link.counts["lost"] += 1
            self.tell(f"link {link.number}: a message isn't sent: {getattr(fault, 'strerror', None) or fault}", f"lost {link.number}")

    def came(self, link: Link | None, file: socket.socket) -> None:
        """RSVP packets came over a link; or out of labels, which go to the router by any link, best one that is up."""
        by = link or max(self.links.values(), key=lambda it: it.up)
        for packet in map(wire.read_packet, datagrams(file)):
            frame, is_taken = packet and self.frame(by, packet, from_labels=link is None), False
            with contextlib.suppress(OSError):          # longer than a datagram
                is_taken = bool(frame and self.child and by.router.sendto(frame, (HOST, by.router.getsockname()[1] + 1)))
            by.counts["received" if is_taken else "ignored"] += 1
        self.ask_at = min(self.ask_at, time.monotonic() + AFTER_MESSAGE)

    def frame(self, link: Link, packet: wire.Packet, from_labels: bool) -> bytes | None:
        """The frame of a packet, without its INTEGRITY object; none where it is refused, or is the neighbour's Hello, which is answered."""
        try:
            packet = packet._replace(message=self.keys.verify(UNDER_LABELS if from_labels else link.face.name, packet.message))
        except wire.Refused as refusal:
            link.counts["refused"] += 1
            return self.tell(f"link {link.number}: a message from {packet.source}: {refusal}", f"refused {link.number}")
        if link.neighbour and packet.message[1] == wire.HELLO and packet.source == link.peer and not from_labels:
            return self.say_hello(link, link.neighbour.receive(time.monotonic(), packet.message))
        return wire.frame_of(packet, link.address, from_labels)

    def say_hello(self, link: Link, message: bytes | None) -> None:
        """Sends a Hello, if there is one, and takes what the neighbour's state became (RFC 3209, 5)."""
        if message and link.face.up:
            with contextlib.suppress(OSError):          # the next one follows
                link.send(wire.Packet(link.address, link.peer, HELLO_TTL, self.keys.protect(link.face.name, message)))
        if link.heard == link.neighbour.is_lost:
            link.heard = not link.neighbour.is_lost
            self.tell(f"link {link.number}: Hello says that the neighbour is {'up' if link.heard else 'down'}")
            self.tell_links()

    # Links.

    def settle(self) -> None:
        """Brings the links in line with the interfaces, and tells the router."""
        self.interfaces.hear()
        came_up = False
        for link in self.links.values():
            face = self.interfaces.at(link.address)
            if face[:2] != link.face[:2]:
                self.leave(link)
            was_up = link.face.up
            if face.index and not link.raw:
                self.take(link, face)
            link.face = face if link.raw else netlink.NOWHERE
            link.hardware = self.interfaces.neighbour(face, link.peer)[1]
            if link.face.up != was_up:
                came_up |= link.face.up
                self.plane.doubt(face.index)
        self.tell_links()
        if came_up:
            self.plane.keep(self.plane.rows)
            self.write()

    def take(self, link: Link, face: netlink.Interface) -> None:
        try:
            link.attach(face, self.plane.hears)
            ours = f"ipv4/conf/{face.name}/"
            self.state.put({ours + "rp_filter": 0, ours + "accept_local": 1, f"mpls/conf/{face.name}/input": self.plane.takes})
        except OSError as fault:
            link.detach()
            return self.tell(f"link {link.number}: {face.name} can't be used: {fault.strerror}", f"interface {link.number}")
        self.loop.on(link.raw, lambda raw=link.raw: self.came(link, raw))
        if self.plane.hears:
            self.loop.on(link.packets, lambda packets=link.packets: self.plane.hear(packets))
        if self.words.hello:
            link.neighbour = Neighbour(self.state.instance, self.words.hello)
        self.tell(f"link {link.number} is {face.name}")
        self.write()

    def leave(self, link: Link) -> None:
        if link.raw:
            self.tell(f"link {link.number}: {link.face.name} went, or lost the address {link.address}")
            self.plane.netlink.change([(kind + 1, 0, body) for kind, _, body in self.requests(link)])      # DEL
            self.plane.doubt(link.face.index)
            for file in (link.raw, link.packets)[:2 if self.plane.hears else 1]:
                self.loop.unregister(file)
            link.detach()

    def tell_links(self) -> None:
        for link in self.links.values():
            if self.child and link.up != link.told:
                link.told, word = link.up, "up" if link.up else "down"
                self.down_at = self.down_at if link.up else time.monotonic()
                self.tell(f"link {link.number} {word}")
                self.child.ask(f"{word} {link.number}")
                self.ask_table()

    # The table.

    def ask_table(self) -> None:
        """Asks for the table; once more after that which was asked for already."""
        self.ask_at, self.again = time.monotonic() + ASK, self.asked
        if self.child and not self.asked:
            self.asked, self.covered = True, len(self.held)
            self.child.ask("show table", self.shown)

    def shown(self, answer: list[str]) -> None:
        """The table is there: the kernel's is made equal, and frames that waited for it go. Without one they wait on."""
        self.asked = False
        if not self.child:
            return                  # it ended
        try:
            self.rows = rows_of(answer, self.links)
        except (ValueError, IndexError):
            return self.tell(f"show table says {answer[:1]}: take an lsr that belongs to this lsrnet", "table")
        count = self.plane.keep(self.spared | self.rows)
        if count and self.down_at is not None:
            took = self.values["last_repair_seconds"] = time.monotonic() - self.down_at
            self.tell(f"{count} rows changed {1000 * took:.1f} ms after the link went down")
        if count or not self.again:             # else the table may have been asked for before the link went down
            self.down_at = None
        going, self.held = self.held[:self.covered], self.held[self.covered:]
        for link, frame in going:
            self.transmit(link, frame)
        if self.held or self.again:
            self.ask_table()

    def pass_time(self, now: float) -> None:
        if self.start_at and now >= self.start_at:
            self.start_router()
        if now >= self.ask_at:
            self.ask_table()
        if self.words.hello and now >= self.hello_at:
            self.hello_at = now + self.words.hello / TICKS
            for link in self.links.values():
                if link.neighbour:
                    self.say_hello(link, link.neighbour.tick(now))
        if now >= self.spared_until:
            self.spared = {}
        if now >= self.audit_at:
            self.audit_at = now + AUDIT
            self.audit()
        if self.child:
            self.child.flush()
            if self.child.silent() > SILENT:
                what = "packets are forwarded as before, and no failure is repaired"
                self.tell(f"the router has been silent for {SILENT:.0f} s: {what}", "silent")
            elif now >= self.summary_at:
                self.summary_at = now + SUMMARY
                self.child.ask("show summary", lambda answer: setattr(self, "summary", answer))


def free_prefix(prefix: str) -> str:
    """The first of PREFIX, PREFIX-2, PREFIX-3 and so on under which no run has left a journal."""
    prefixes = itertools.chain([prefix], (f"{prefix}-{turn}" for turn in itertools.count(2)))
    return next(it for it in prefixes if not os.path.exists(f"{it}.1") and not os.path.exists(f"{it}.1.part"))


def local_rule(interface: str) -> netlink.Request:
    """RSVP that comes in over an interface is local here, whatever its destination."""
    iif, protocol = (netlink.RULE_INTERFACE, os.fsencode(interface) + b"\0"), (netlink.RULE_PROTOCOL, bytes([wire.RSVP]))
    return netlink.rule(LOCAL_TABLE, RULE_OF_LOCAL, iif, protocol)
