#!/usr/bin/env python3
"""The charts of `./lsr step --chart` and `./lsr play --chart`, which tools/chart draws.

- A line `PICTURE WORDS` or `PICTURE WORDS < INPUT` of `pictures.txt` is a run that is drawn as PICTURE says: the name of a file in
  the repository, the SHA-256 of one, or `none` where no chart is written. The pictures were drawn by a program that was proved to
  draw so. What a run prints and tells, and its status, are what they are without --chart.
- A line of `says.txt` says how `./lsr` ends on words, as one of `data/lines/says.txt` does.
- The files that a chart takes the place of, and those that it doesn't, are in the script.

Each is asked of a copy of the script `lsr`, beside which the program stands as the one that was proved.
"""

import functools
import hashlib
import os
import pathlib
import shutil
import subprocess
import sys
import tempfile

import asked
from asked import Answer, differs

CHARTS = asked.DATA / "charts"
NO_CHART = "none"
# A run with more rows than a chart has.
LONG, LONG_LINES = "long.step", b"rx 1 00\n" * 2100
# What is told of a chart that isn't written, after its name.
KEPT_AS_IT_IS = {
    "no/such/made.svg": "is in a folder that doesn't exist: create it, or give another name",
    "folder": "is no regular file, and is not replaced: give another name",
    "link": "is no regular file, and is not replaced: give another name",
    "/dev/null": "is no regular file, and is not replaced: give another name",
    "other.txt": "is there already, and is another kind of file, which is not replaced: give another name, or move it away",
    "x" * 300: "can't be written: look at the room on its disk",
}


def ask(room, *words, given=b""):
    """Runs the script on the words."""
    ran = subprocess.run([room / "lsr", *words], input=given, cwd=room, capture_output=True, timeout=asked.MOST_SECONDS, check=False)
    return Answer(ran.returncode, ran.stdout, ran.stderr)


def make_room(room):
    """The folder that the runs are made in."""
    shutil.copytree(asked.DATA / "lines", room)
    shutil.copytree(asked.TOP / "examples", room / "examples")
    shutil.copytree(CHARTS, room / "charts")
    shutil.copytree(asked.TOP / "tools", room / "tools")
    shutil.copy2(asked.LAUNCHER, room / "lsr")
    shutil.copy2(asked.TOP / "crates.txt", room)
    (room / "crates/lsr/out").mkdir(parents=True)
    (room / "crates/lsr/out/lsr").symlink_to(asked.program())
    (room / "charts" / LONG).write_bytes(LONG_LINES)
    (room / "folder").mkdir()
    (room / "other.txt").write_text("notes\n")
    (room / "link").symlink_to("other.txt")


def run_picture(room, number, picture, words, given):
    """The run is drawn so, and all else is as without --chart."""
    chart = room / f"{number}.svg"
    wanted = asked.ask(*words, given=given, cwd=room)
    came = ask(room, *words, "--chart", chart.name, given=given)
    drawn = chart.read_bytes() if chart.exists() else None
    if drawn is None or picture == NO_CHART:
        return differs(wanted, came) + ("" if (drawn is None) == (picture == NO_CHART) else f"drawn: {drawn is not None}\n")
    if picture.endswith(".svg"):
        return differs(wanted, came) + asked.stream_differs("chart", (asked.TOP / picture).read_bytes(), drawn)
    digest = hashlib.sha256(drawn).hexdigest()
    return differs(wanted, came) + ("" if digest == picture else f"another chart: {digest}\n")


def run_saying(room, words, status, stream, text):
    """The script ends so on these words."""
    came = ask(room, *words)
    said, other = (came.err, came.out) if stream == "error" else (came.out, came.err)
    if came.status == int(status) and text.encode() in said and bool(other) == (stream == "both"):
        return ""
    return f"wanted on {stream}: {text}\n" + differs(Answer(int(status)), came)


def run_kept(room, name, words):
    """What has this name is told, and stays."""
    wanted = Answer(1, b"done\n", f"unwritable\n  {name} {words}, and run it again\n".encode())
    text = differs(wanted, ask(room, "step", "--chart", name, given=b"tick 1\n"))
    is_as_it_was = (room / "other.txt").read_text() == "notes\n" and (room / "folder").is_dir() and (room / "link").is_symlink()
    return text + ("" if is_as_it_was else "it isn't as it was\n")


def run_replaced(room):
    """A chart takes the place of an empty file, and of another chart."""
    chart = room / "replaced.svg"
    chart.touch()
    text = ""
    for line in (b"tick 1\n", b"restart\n"):
        text += differs(Answer(0, b"done\n"), ask(room, "step", "--chart", chart.name, given=line))
    return text + ("" if b">restart<" in chart.read_bytes() and not (room / "replaced.svg.part").exists() else "it isn't replaced\n")


def run_unwritable(room):
    """Where the output can't be written that is told, and nothing is drawn."""
    if not os.path.exists("/dev/full"):
        return ""
    with open("/dev/full", "wb") as full:
        ran = subprocess.run([room / "lsr", "step", "--chart", "full.svg"], input=b"tick 1\n", cwd=room, stdout=full, stderr=subprocess.PIPE, check=False)
    told = b"unwritable\n  the output or the error stream can't be written: look at where they go\n"
    return differs(Answer(1, b"", told), Answer(ran.returncode, b"", ran.stderr)) + ("drawn\n" if (room / "full.svg").exists() else "")


def cases_in(room):
    """The cases, by their names."""
    for number, line in enumerate((CHARTS / "pictures.txt").read_text("utf-8").splitlines()):
        words, _, given = line.partition(" < ")
        picture, *words = words.split(" ")
        yield line, functools.partial(run_picture, room, number, picture, words, (room / given).read_bytes() if given else b"")
    for line in (CHARTS / "says.txt").read_text("utf-8").splitlines():
        words, _, answer = line.partition(" => ")
        yield f"lsr {words}", functools.partial(run_saying, room, words.split(" "), *answer.split(" ", 2))
    for name, words in KEPT_AS_IT_IS.items():
        yield f"onto {name[:20]}", functools.partial(run_kept, room, name, words)
    yield "replaced", functools.partial(run_replaced, room)
    yield "unwritable", functools.partial(run_unwritable, room)


def main():
    """Makes the folder, and runs all cases there."""
    with tempfile.TemporaryDirectory() as top:
        room = pathlib.Path(top) / "lines"
        make_room(room)
        return asked.count(list(cases_in(room)))


if __name__ == "__main__":
    sys.exit(main())
