"""What a monitoring system reads: Prometheus text, of `show summary` and the adapter's own counts."""
import json
from typing import Iterable

from links import Link

COUNTS = ("received", "sent", "lost", "ignored", "refused")
LIMITS = {"link": "limit", "bypass": "capacity"}


def metrics(summary: list[str], links: Iterable[Link], values: dict[str, float]) -> list[str]:
    """The lines: of the router's summary, of the links, and of these names."""
    rows: list[tuple[str, object, dict[str, object]]] = []      # name, value, labels
    for words in map(str.split, summary):
        match words:
            case ["link" | "bypass" as what, number, used, count, "of", most, *_]:
                rows += [(f"{what}_{used}_bytes", count, {what: number}), (f"{what}_{LIMITS[what]}_bytes", most, {what: number})]
            case [name, count, "of", _, *_] | [name, count, "up", "of", _, *_]:
                rows.append((name, count, {}))
    for link in links:
        rows.append(("link_up", int(link.up), {"link": link.number, "interface": link.face.name}))
        rows += [(f"rsvp_packets_{name}_total", link.counts[name], {"link": link.number}) for name in COUNTS]
    rows += [(name, round(value, 6), {}) for name, value in values.items()]
    page: dict[str, list[str]] = {}
    for name, value, labels in rows:
        kind = "counter" if name.endswith("_total") else "gauge"
        text = ",".join(f"{key}={json.dumps(str(it), ensure_ascii=False)}" for key, it in labels.items())
        page.setdefault(name, [f"# TYPE lsr_{name} {kind}"]).append(f"lsr_{name}{'{' + text + '}' if text else ''} {value}")
    return [line for lines in page.values() for line in lines]
