"""The lab's network: four routers and two hosts, each in a network namespace, and what runs in them.

        h1 -- A -- B -- C -- h2
                    \\ /
                     D

A tunnel goes from A to C over B, and one back; at each end of the link B C a bypass over D protects it. Tunnel 1 carries what goes from
host to host; more tunnels from A to C carry nothing, and are repaired with it.
"""
import ctypes
import os
import pathlib
import re
import shutil
import signal
import subprocess
import tempfile
import time
from typing import NamedTuple

PREFIX = "lsrlab"
IDENTIFIERS = {"A": "10.0.0.1", "B": "10.0.0.2", "C": "10.0.0.3", "D": "10.0.0.4"}
PORTS = 5000                    # where the frames of link N come in: this plus 10 N, and they leave to one more
FIRST_BYPASS_TUNNEL = 1001      # above the numbers of the other tunnels
RATE, NO_RATE = "47f42400", "00000000"      # 125,000 bytes per second, and none (IEEE 754)
LINK_LIMIT = 1_250_000          # bytes per second
PROTECTED, RECORDED, SHARED = 1, 2, 4       # flags of SESSION_ATTRIBUTE (RFC 3209, 4.7.1)
LABELS_EACH = 2000              # half of them is given at each start, and a changed tunnel has two for a while
ASK_SECONDS, END_SECONDS = 60, 60
PR_SET_PDEATHSIG = 1
# Of the kernel's settings those that a router changes.
SETTINGS = r"^net\.(ipv4\.conf\..*\.(rp_filter|accept_local)|mpls\.)"


class End(NamedTuple):
    """An end of a link: the router, the link's number there, the interface and its address."""
    router: str
    number: int
    interface: str
    address: str


class Host(NamedTuple):
    """A host: its name, its router, the router's interface and the first three bytes of their network."""
    name: str
    router: str
    interface: str
    network: str


WIRES = [
    (End("A", 1, "a-b", "10.1.12.1"), End("B", 1, "b-a", "10.1.12.2")),
    (End("B", 2, "b-c", "10.1.23.2"), End("C", 1, "c-b", "10.1.23.3")),
    (End("B", 3, "b-d", "10.1.24.2"), End("D", 1, "d-b", "10.1.24.4")),
    (End("C", 2, "c-d", "10.1.34.3"), End("D", 2, "d-c", "10.1.34.4")),
]
HOSTS = [Host("h1", "A", "a-h", "10.91.0"), Host("h2", "C", "c-h", "10.92.0")]
FROM, TO = "h1", "10.92.0.2"
# What enters tunnel 1 at each of its heads, and the routing table that leads into it (docs/NETWORK.md).
ENTERS, TUNNEL_1, RULE_PRIORITY = {"A": "10.92.0.0/24", "C": "10.91.0.0/24"}, 4600001, 50
A_TO_C, C_TO_A = ["10.1.12.2/32", "10.1.23.3/32"], ["10.1.23.2/32", "10.1.12.1/32"]
# The bypasses: the router, its bypass tunnel's endpoint and route, and the link that it protects; the route to the endpoint leaves by LINK.
BYPASSES = {"B": ("10.0.0.3", ["10.1.24.4/32", "10.1.34.3/32"], 2, 3), "C": ("10.0.0.2", ["10.1.34.4/32", "10.1.24.2/32"], 1, 2)}
CUT = WIRES[1]


class Trouble(Exception):
    """Why the lab can't go on; the text says what to do."""


def tunnel(number: int, endpoint: str, route: list[str], rate: str, flags: int, name: str, priority: int = 3) -> str:
    """A tunnel of a configuration (docs/CONFIGURATION.md)."""
    steps = ", ".join(f'"{step}"' for step in route)
    return (f'[[tunnel]]\nnumber = {number}\nendpoint = "{endpoint}"\nroute = [{steps}]\nrate = "{rate}"\n'
            f'setup = {priority}\nhold = {priority}\nflags = {flags}\nname = "{name}"\n')


def link(end: End, other: End) -> str:
    """A link of a configuration."""
    port = PORTS + 10 * end.number
    return (f'[[link]]\nnumber = {end.number}\naddress = "{end.address}"\npeer = "{other.address}"\n'
            f'peer_router = "{IDENTIFIERS[other.router]}"\nlimit = {LINK_LIMIT}\n'
            f'listen = "127.0.0.1:{port}"\nsend = "127.0.0.1:{port + 1}"\n')


def configuration(router: str, lsps: int, refresh_ms: int) -> str:
    """The configuration of a router, where so many LSPs go from A to C."""
    first = LABELS_EACH * (1 + list(IDENTIFIERS).index(router)) + 16
    text = f'router = "{IDENTIFIERS[router]}"\nlabels = [{first}, {first + LABELS_EACH - 17}]\nrefresh_ms = {refresh_ms}\n'
    for ends in WIRES:
        text += "".join(link(end, other) for end, other in (ends, ends[::-1]) if end.router == router)
    asked = PROTECTED | RECORDED | SHARED
    if router == "A":
        text += tunnel(1, IDENTIFIERS["C"], A_TO_C, RATE, asked, "A to C")
        text += "".join(tunnel(it, IDENTIFIERS["C"], A_TO_C, NO_RATE, asked, f"A to C, {it}") for it in range(2, lsps + 1))
    if router == "C":
        text += tunnel(1, IDENTIFIERS["A"], C_TO_A, RATE, asked, "C to A")
    if router in BYPASSES:
        endpoint, route, protected, by = BYPASSES[router]
        text += f'[[route]]\nprefix = "{endpoint}/32"\nlink = {by}\n'
        text += tunnel(FIRST_BYPASS_TUNNEL, endpoint, route, RATE, RECORDED | SHARED, f"round link {protected}", 7)
        text += f"[[bypass]]\nnumber = 1\ntunnel = {FIRST_BYPASS_TUNNEL}\nlink = {protected}\n"
    return text


def keys() -> str:
    """A file of keys for all routers (net/lsrnet/integrity.py): one key for each link, and one for messages under labels."""
    lines = [f"{end.interface} {number} hmac-sha1 text:link-{number}\n" for number, ends in enumerate(WIRES, 1) for end in ends]
    return "".join(lines) + "lo 9 hmac-md5 text:under-labels\n"


def ip(words: str) -> str:
    """What `ip` prints; raises `Trouble`."""
    done = subprocess.run(["ip", *words.split()], capture_output=True, text=True, check=False)
    if done.returncode:
        raise Trouble(f"ip {words}: {done.stderr.strip()}")
    return done.stdout


def go_with_parent() -> None:
    """In a child, before it runs its program: it is ended where the lab is killed."""
    ctypes.CDLL(None).prctl(PR_SET_PDEATHSIG, signal.SIGTERM)


def is_there(process: int) -> bool:
    """Whether a process runs."""
    return os.path.exists(f"/proc/{process}")


def sweep() -> None:
    """Takes away namespaces and folders of labs that were killed."""
    for name in re.findall(rf"^{PREFIX}\.\d+\.\w+", ip("netns list"), re.MULTILINE):
        if not is_there(int(name.split(".")[1])):
            ip(f"netns del {name}")
    for path in pathlib.Path(tempfile.gettempdir()).glob(f"{PREFIX}.*"):
        process = path.name.split(".")[1]
        if process.isdigit() and not is_there(int(process)) and path.stat().st_uid == os.getuid():
            shutil.rmtree(path)


class Network:
    """The namespaces, and the processes that were started in them."""

    def __init__(self) -> None:
        self.running: list[subprocess.Popen[bytes]] = []
        self.made: list[str] = []

    def name(self, node: str) -> str:
        """The namespace of a router or host."""
        return f"{PREFIX}.{os.getpid()}.{node}"

    def build(self) -> None:
        """Makes namespaces, links and addresses."""
        sweep()
        for node in [*IDENTIFIERS, *(host.name for host in HOSTS)]:
            ip(f"netns add {self.name(node)}")
            self.made.append(self.name(node))
            ip(f"-n {self.name(node)} link set lo up")
        for node, address in IDENTIFIERS.items():
            ip(f"-n {self.name(node)} addr add {address}/32 dev lo")
        for one, other in WIRES:
            self.join(one.router, one.interface, f"{one.address}/24", other.router, other.interface, f"{other.address}/24")
        for host in HOSTS:
            self.join(host.name, "eth0", f"{host.network}.2/24", host.router, host.interface, f"{host.network}.1/24")
            ip(f"-n {self.name(host.name)} route add default via {host.network}.1")
            self.run(host.router, "sysctl", "-qw", "net.ipv4.ip_forward=1")
            ip(f"-n {self.name(host.router)} rule add to {ENTERS[host.router]} lookup {TUNNEL_1} pref {RULE_PRIORITY}")

    def join(self, node: str, interface: str, address: str, other: str, other_interface: str, other_address: str) -> None:
        """A link between two nodes."""
        ip(f"link add {interface} netns {self.name(node)} type veth peer name {other_interface} netns {self.name(other)}")
        for place, face, prefix in ((node, interface, address), (other, other_interface, other_address)):
            ip(f"-n {self.name(place)} addr add {prefix} dev {face}")
            ip(f"-n {self.name(place)} link set {face} up")

    def run(self, node: str, *words: str) -> str:
        """What a command in a namespace prints; raises `Trouble` where it fails."""
        done = subprocess.run(["ip", "netns", "exec", self.name(node), *words], capture_output=True, text=True, check=False)
        if done.returncode:
            raise Trouble(f"{' '.join(words)}: {(done.stderr or done.stdout).strip()}")
        return done.stdout

    def start(self, node: str, words: list[str], log: pathlib.Path) -> subprocess.Popen[bytes]:
        """Starts a command in a namespace; all that it prints goes to the log."""
        with open(log, "ab") as file:
            child = subprocess.Popen(["ip", "netns", "exec", self.name(node), *words], stdin=subprocess.DEVNULL, stdout=file,
                                     stderr=subprocess.STDOUT, process_group=0, preexec_fn=go_with_parent)
        self.running.append(child)
        return child

    def set_link(self, end: End, state: str) -> None:
        """Sets an interface `up` or `down`."""
        ip(f"-n {self.name(end.router)} link set {end.interface} {state}")

    def kernel_state(self, router: str) -> list[str]:
        """The rules, IPv4 routes and settings of a namespace, its interfaces among these, and its label table where the kernel has one."""
        name = self.name(router)
        labels = ip(f"-n {name} -f mpls route") if os.path.exists("/proc/sys/net/mpls") else ""
        settings = self.run(router, "sysctl", "-a", "--pattern", SETTINGS)
        lines = ip(f"-n {name} -4 rule") + ip(f"-n {name} -4 route show table all") + settings + labels
        return sorted(" ".join(line.split()) for line in lines.splitlines())

    def end(self, *children: subprocess.Popen[bytes]) -> list[int]:
        """Ends processes, all at once, and gives their status."""
        for child in children:
            if child.poll() is None:
                child.terminate()
        return [self.wait(child) for child in children]

    def wait(self, child: subprocess.Popen[bytes]) -> int:
        """Waits for the end of a process that was told to end, and gives its status; one that doesn't is killed."""
        try:
            return child.wait(END_SECONDS)
        except subprocess.TimeoutExpired:
            child.kill()
            return child.wait()

    def close(self) -> None:
        """Ends all processes, the last first, and takes the namespaces away."""
        for child in self.running[::-1]:
            self.end(child)
        for name in self.made:
            for process in subprocess.run(["ip", "netns", "pids", name], capture_output=True, text=True, check=False).stdout.split():
                try:
                    os.kill(int(process), signal.SIGKILL)       # what a child left
                except ProcessLookupError:
                    pass
            subprocess.run(["ip", "netns", "del", name], capture_output=True, check=False)


def descendants(process: int) -> list[int]:
    """The processes below one, nearest first."""
    parents = {}
    for name in filter(str.isdigit, os.listdir("/proc")):
        try:
            with open(f"/proc/{name}/stat", encoding="utf-8", errors="replace") as file:
                parents[int(name)] = int(file.read().rpartition(")")[2].split()[1])
        except OSError:
            continue                    # it ended
    found, level = [], [process]
    while level:
        level = [child for child, parent in parents.items() if parent in level]
        found += level
    return found


def wait_for(is_so, seconds: float, step: float = 0.2) -> float | None:
    """Waits until it is so; the seconds that it took, or None where it wasn't within these."""
    began = time.monotonic()
    while not is_so():
        if time.monotonic() - began > seconds:
            return None
        time.sleep(step)
    return time.monotonic() - began
