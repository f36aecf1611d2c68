"""A router's configuration: that of a file, what the router gets of it, and the lines that make one out of another."""
import itertools
import re
import tomllib
from subprocess import DEVNULL, SubprocessError, run

from machine import Trouble, trouble

MOST_SECONDS = 60
HOST, FIRST_PORT = "127.0.0.1", 5000    # in the router's namespace: the adapter's port of a link; the router's is the next
FIXED = ("router", "refresh_ms", "labels", "label_rest_ms")     # keys that no line changes; nor any of a link but these
OF_MACHINE = ("up", "listen", "send")                           # which aren't the file's here


def read_configuration(lsr: str, path: str) -> tuple[str, dict]:
    """The configuration as `lsr config` prints it, and its tables. Trouble: it is none, in the router's words."""
    with trouble(f"{lsr} config {path}", "name the program lsr by --lsr", SubprocessError, ValueError):
        ran = run([lsr, "config", path], stdin=DEVNULL, capture_output=True, text=True, errors="replace", timeout=MOST_SECONDS)
        tables = tomllib.loads(ran.stdout)
    if ran.returncode or "labels" not in tables:
        raise Trouble(f"{path} is no configuration (docs/CONFIGURATION.md): {ran.stderr.strip() or f'{lsr} says status {ran.returncode}'}")
    if not tables.get("link"):
        raise Trouble(f"{path} has no link: write a [[link]] for each neighbour (docs/CONFIGURATION.md)")
    return ran.stdout, tables


def own_text(text: str, labels: range) -> str:
    """The configuration for the router: with these labels, sockets beside the adapter's, and all links down until it is told otherwise."""
    text = re.sub(r"(?m)^(?:listen|send) = .*\n", "", re.sub(r"(?m)^labels = .*$", f"labels = [{labels[0]}, {labels[-1]}]", text, count=1))
    ports = itertools.count(FIRST_PORT, 2)
    return re.sub(r"(?m)^up = .*$", lambda _: f'up = false\nsend = "{HOST}:{(port := next(ports))}"\nlisten = "{HOST}:{port + 1}"', text)


def file_lines(text: str, answer: list[str]) -> list[str]:
    """What `show config` answers as a file has it: without sockets, and with this one's `up` and labels, of which a router has half."""
    kept = iter(re.findall(r"(?m)^(?:labels|up) = .*$", text))
    return [next(kept, it) if it.startswith(("labels = ", "up = ")) else it for it in answer if not it.startswith(("listen = ", "send = "))]


def fixed(tables: dict) -> dict[str, object]:
    """What no line changes, by names to be told."""
    links = {f"link {it['number']}": {key: value for key, value in it.items() if key not in OF_MACHINE} for it in tables["link"]}
    return {key: tables[key] for key in FIXED} | links


def tunnel_line(tunnel: dict) -> str:
    """The line that makes a tunnel. Trouble: there is none."""
    number, name = tunnel["number"], tunnel["name"]
    if [name] != name.split() or not name.isprintable():
        raise Trouble(f"no line makes tunnel {number}, since its name is no word: give it another, or end lsrnet and run it anew")
    words = tunnel["endpoint"], tunnel["rate"], tunnel["setup"], tunnel["hold"], f"{tunnel['flags']:02x}", name, *tunnel["route"]
    return f"tunnel {number} {' '.join(map(str, words))}"


def difference(old: dict, new: dict) -> list[str]:
    """The lines that make a router of the first tables one of the second, both as `lsr config` prints them. A tunnel is changed where its
    rate and its route alone differ; else it goes, after the bypasses that run in it, and they come again after it. Trouble: no lines do."""
    was, will = fixed(old), fixed(new)
    if others := [it for it in was | will if was.get(it) != will.get(it)]:
        raise Trouble(f"no line changes {', '.join(others)}: end lsrnet and run it anew, or leave that as it was")
    routes, new_routes = ({it["prefix"]: it["link"] for it in tables.get("route", [])} for tables in (old, new))
    tunnels, new_tunnels = ({it["number"]: it for it in tables.get("tunnel", [])} for tables in (old, new))
    bypasses, new_bypasses = ({it["number"]: it for it in tables.get("bypass", [])} for tables in (old, new))
    kept = {number for number, it in new_tunnels.items() if tunnels.get(number, {}) | {"rate": it["rate"], "route": it["route"]} == it}
    stay = {number for number, it in new_bypasses.items() if bypasses.get(number) == it and it["tunnel"] in kept}
    lines = [f"unbypass {it}" for it in bypasses if it not in stay] + [f"drop {it}" for it in tunnels if it not in kept]
    lines += [f"unroute {it}" for it in routes if it not in new_routes]
    lines += [f"route {prefix} {link}" for prefix, link in new_routes.items() if link != routes.get(prefix)]
    for number, it in new_tunnels.items():
        if it != tunnels.get(number):
            lines.append(" ".join(["change", str(number), it["rate"], *it["route"]]) if number in kept else tunnel_line(it))
    return lines + [f"bypass {key} {it['tunnel']} {it['link']} {it['capacity']}" for key, it in new_bypasses.items() if key not in stay]
