#!/usr/bin/env python3
"""The manual pages that docs/man makes: `man` shows them without a warning, and they have each word of both programs' help.

It needs `man` (man-db); where it isn't installed the cases are told as left out, and count for nothing."""

import collections
import functools
import os
import pathlib
import re
import shutil
import subprocess
import sys
import tempfile

import asked

MAN = asked.TOP / "docs" / "man"
LSRNET = asked.TOP / "net" / "lsrnet" / "lsrnet"
PAGES = {"lsr": "lsr.1", "lsrnet": "lsrnet.8"}
# A page this wide has each paragraph in a line, and no word is divided.
WIDE = {"MANWIDTH": "2000", "COLUMNS": "100", "MAN_KEEP_FORMATTING": ""}
# Words of headings, which the pages have in another form, and the rest of a usage in more than one line.
HEADINGS = re.compile(r"^(?:Usage:|usage:(?:.*\n(?: +.*\n)*)|Commands:|Arguments:|Options:|options:|positional arguments:)", re.MULTILINE)


def made(*words):
    """What docs/man answers."""
    return subprocess.run([str(MAN), "--lsr", asked.program(), *words], capture_output=True, text=True, timeout=asked.MOST_SECONDS, check=False)


def shown(page):
    """A page as `man` shows it, and its warnings."""
    return subprocess.run(["man", "--warnings", "-P", "cat", "-l", str(page)], env=os.environ | WIDE, capture_output=True, text=True, check=True)


def help_of(name, *words):
    """What a program prints for --help."""
    program = asked.program() if name == "lsr" else str(LSRNET)
    return subprocess.run([name, *words, "--help"], executable=program, env=os.environ | WIDE, capture_output=True, text=True, check=True).stdout


def commands_of(name):
    """The commands that a program's help lists."""
    return [it for it in re.findall(r"^ {2,4}([a-z][a-z-]+) {2,}\S", help_of(name), re.MULTILINE) if it != "help"]


def whole(name):
    """A page: no warning, and all words of the help."""
    page = made(name)
    if page.returncode:
        return page.stderr
    with tempfile.TemporaryDirectory() as room:
        path = pathlib.Path(room, PAGES[name])
        path.write_text(page.stdout, encoding="utf-8")
        came = shown(path)
    texts = [help_of(name), *(help_of(name, it) for it in commands_of(name))]
    wanted = collections.Counter(word for text in texts for word in HEADINGS.sub("", text).split())
    missing = wanted - collections.Counter(came.stdout.split())
    few = "" if len(texts) > 3 else f"only {len(texts)} helps\n"
    return came.stderr + few + "".join(f"missing: {word}\n" for word in missing)


def folder():
    """Both pages in a folder are those that are printed."""
    with tempfile.TemporaryDirectory() as room:
        status = made(room).returncode
        files = {it.name: it.read_text(encoding="utf-8") for it in pathlib.Path(room).iterdir()}
    wanted = {file: made(name).stdout for name, file in PAGES.items()}
    return "" if status == 0 and files == wanted else f"status {status}, files {sorted(files)}\n"


def other_words():
    """Words that aren't taken, and a program that isn't there."""
    text = ""
    for words in ([], ["lsrd"], ["lsr", "lsrnet"], ["/no/such/folder"]):
        came = made(*words)
        text += "" if came.returncode == 2 and came.stderr.startswith("man: write") and not came.stdout else f"{words}: {came}\n"
    came = subprocess.run([str(MAN), "--lsr", "/no/such/lsr", "lsr"], capture_output=True, text=True, check=False)
    return text + ("" if came.returncode == 1 and "--lsr" in came.stderr and not came.stdout else f"{came}\n")


CASES = [("folder", folder), ("other words", other_words)]

if __name__ == "__main__":
    if shutil.which("man"):
        CASES += [(f"{name} in words", functools.partial(whole, name)) for name in PAGES]
    else:
        print("man isn't installed: whether it shows the pages without a warning is left out")
    sys.exit(asked.count(CASES))
