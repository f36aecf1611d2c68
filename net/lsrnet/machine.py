"""What the adapter needs of this machine: rights, settings of the kernel, a state that outlives a run, the router's network namespace."""
import contextlib
import ctypes
import fcntl
import json
import os
import pathlib
import re
import socket
import struct
import sys
import time
from collections.abc import Iterator

STATE_FOLDER = os.environ.get("RUNTIME_DIRECTORY", "/run/lsrnet").split(":")[0]        # systemd names the first
LOCK_TRIES, TRY_SECONDS = 100, 0.1
SETTINGS = pathlib.Path("/proc/sys/net")
CAPABILITIES = {12: "CAP_NET_ADMIN", 13: "CAP_NET_RAW"}
MOST_LABEL = 1048574            # of Linux: platform_labels is 1048575 at most
CLONE_NEWUSER, CLONE_NEWNET, SIOCSIFFLAGS, IFF_UP = 0x10000000, 0x40000000, 0x8914, 0x1
SO_NETNS_COOKIE = 71            # the number of a socket's network namespace, which no other has until the machine starts anew (Linux 5.14)
WHY_BYTES = 1024
libc = ctypes.CDLL(None, use_errno=True)        # os.unshare and os.setns came with Python 3.12


class Trouble(Exception):
    """What keeps the adapter from running; the text says what to do."""


@contextlib.contextmanager
def trouble(what: str, do: str, *kinds: type[Exception]) -> Iterator[None]:
    """In it errors of the system, and of these kinds, become Trouble: with what (the file, or the kernel), why, and what to do."""
    try:
        yield
    except (OSError, *kinds) as fault:
        what = what or getattr(fault, "filename", None) or "the kernel"
        raise Trouble(f"{what}: {getattr(fault, 'strerror', None) or fault}: {do}") from None


class State:
    """What is remembered from run to run in this network namespace: how often a router was started, an instance for Hello, and settings
    below /proc/sys/net that were changed, with their values before and after, to be put back at the end of this run, or of the next."""

    def __init__(self, folder: str):
        """Takes the namespace's lock, which the router holds too, since it may outlive a killed adapter. Trouble: another has it."""
        self.lock = socket.socket(socket.AF_UNIX, socket.SOCK_DGRAM)
        number = int.from_bytes(self.lock.getsockopt(socket.SOL_SOCKET, SO_NETNS_COOKIE, 8), sys.byteorder)
        self.path = os.path.join(folder, str(number))
        for _ in range(LOCK_TRIES):
            with contextlib.suppress(OSError):
                self.lock.bind("\0lsrnet")      # an abstract address: each network namespace has its own, and it goes with its holders
                break
            time.sleep(TRY_SECONDS)
        else:
            raise Trouble("another lsrnet, or the router of one, runs in this network namespace and has its label table: end it "
                          "(ss -xap shows it at @lsrnet), or give this one a namespace of its own (ip netns exec NAME)")
        self.starts, self.instance, self.changed = 0, int.from_bytes(os.urandom(3), "big") + 1, {}
        with trouble(f"--state {folder}", "name a folder that you may write to"):
            os.makedirs(folder, exist_ok=True)
            with contextlib.suppress(FileNotFoundError, ValueError, TypeError, KeyError):       # there is none, or it isn't ours
                known = json.loads(pathlib.Path(self.path + ".json").read_bytes())
                self.starts, self.instance, self.changed = int(known["starts"]), int(known["instance"]), dict(known["changed"])

    def save(self) -> None:
        """Writes it, whole or not at all. OSError: it can't be."""
        known = {"starts": self.starts, "instance": self.instance, "changed": self.changed}
        pathlib.Path(self.path + ".part").write_text(json.dumps(known), encoding="utf-8")
        os.replace(self.path + ".part", self.path + ".json")

    def put(self, values: dict[str, int], at_least: bool = False) -> None:
        """Sets settings, or raises them to these, where there are such: a kernel may lack MPLS or IPv6. OSError: they can't be."""
        for name, value in values.items():
            if (setting := SETTINGS / name).exists():
                before = setting.read_text().strip()
                if before != str(value) and not (at_least and int(before) > value):
                    self.changed[name] = [before, str(value)]
                    self.save()
                    setting.write_text(str(value))

    def restore(self) -> None:
        """Puts back the settings that are still as they were set here."""
        for name, (before, ours) in self.changed.items():
            with contextlib.suppress(FileNotFoundError):        # the interface went
                if (SETTINGS / name).read_text().strip() == ours:
                    (SETTINGS / name).write_text(before)
        self.changed = {}
        self.save()


def lacking_rights() -> str:
    """What to do where this process may not do what the adapter does; no text where it may."""
    have = int(re.search(r"^CapEff:\s*(\w+)", pathlib.Path("/proc/self/status").read_text(), re.MULTILINE)[1], 16)
    lacking = [name for bit, name in CAPABILITIES.items() if not have >> bit & 1]
    return f"run as root, or with {' and '.join(lacking)}" if lacking else ""


def lacking_plane(plane: str, last_label: int) -> str:
    """What to do where nothing can forward packets; no text where something can."""
    if plane == "user":
        return "" if os.access("/dev/net/tun", os.R_OK | os.W_OK) else "/dev/net/tun can't be opened: modprobe tun, and run as root"
    if not (SETTINGS / "mpls").exists():
        return "the kernel has no MPLS: modprobe -a mpls_router mpls_iptunnel, or take --plane user"
    return "" if last_label <= MOST_LABEL else f"the kernel has labels up to {MOST_LABEL}: let `labels` end there in the file"


class Room:
    """A network namespace for the router, with `lo` alone, so that no other process reaches its sockets; and the adapter's there."""

    def __init__(self, addresses: list[tuple[str, int]]):
        """Makes it, which takes the kernel up to some seconds, and UDP sockets at these addresses of it. Trouble: it can't be had."""
        ours, theirs = socket.socketpair()
        if not (process := os.fork()):          # this process stays where it is
            try:
                is_root = not libc.unshare(CLONE_NEWNET)            # to others a user namespace gives the right
                if not is_root and libc.unshare(CLONE_NEWUSER | CLONE_NEWNET):
                    raise OSError(ctypes.get_errno(), os.strerror(ctypes.get_errno()))
                made = [socket.socket(socket.AF_INET, socket.SOCK_DGRAM) for _ in addresses]
                fcntl.ioctl(made[0], SIOCSIFFLAGS, struct.pack("16sH", b"lo", IFF_UP))
                for it, address in zip(made, addresses):
                    it.bind(address)
                files = [os.open(f"/proc/self/ns/{it}", os.O_RDONLY) for it in ("user", "net")[is_root:]]
                socket.send_fds(theirs, [b"ready"], files + [it.fileno() for it in made])
            except OSError as fault:
                theirs.send(fault.strerror.encode())
            finally:
                os._exit(0)
        theirs.close()
        with ours:
            why, files, _, _ = socket.recv_fds(ours, WHY_BYTES, 2 + len(addresses))
        os.waitpid(process, 0)
        if not files:
            raise Trouble(f"no network namespace for the router: {why.decode()}: run as root, or let users make namespaces "
                          "(sysctl user.max_user_namespaces)")
        self.namespaces, self.sockets = files[:-len(addresses)], [socket.socket(fileno=it) for it in files[-len(addresses):]]

    def enter(self) -> None:
        """In a child, before its program: goes there. OSError: it can't."""
        if any(libc.setns(it, 0) for it in self.namespaces):
            raise OSError(ctypes.get_errno(), os.strerror(ctypes.get_errno()))
