#!/usr/bin/env python3
"""What `./lsr rate` answers."""

import subprocess
import sys

import asked

# The word, and what is printed.
TOLD = {
    "10M": "49989680 is 10 Mbit/s, 1250000 bytes per second",
    "1m": "47f42400 is 1 Mbit/s, 125000 bytes per second",
    "64k": "45fa0000 is 64 kbit/s, 8000 bytes per second",
    "2.5G": "4d9502f9 is 2.5 Gbit/s, 312500000 bytes per second",
    "0K": "00000000 is 0 bit/s, 0 bytes per second",
    "0.001K": "3e000000 is 1 bit/s, 1 bytes per second",
    # 134217.729 kbit/s are 16777216.125 bytes per second, and the next number of single precision is 16777218.
    "134217.729K": "4b800001 is 134.217744 Mbit/s, 16777218 bytes per second",
    "49989680": "49989680 is 10 Mbit/s, 1250000 bytes per second",
    "47F42400": "47f42400 is 1 Mbit/s, 125000 bytes per second",
    "80000000": "80000000 is 0 bit/s, 0 bytes per second",
    "587fffff": "587fffff is 9007198.72 Gbit/s, 1125899839733760 bytes per second",
    "10000000": "10000000 is 2.02e-28 bit/s, 1 bytes per second; in decimal digits, as 10000000 bit/s, it would be 49989680",
}
# A configuration, and the remarks beside it.
CONFIGURATION = {
    "limit = 1250000": "  # 10 Mbit/s",
    'rate = "49989680"': "  # 10 Mbit/s, 1250000 bytes per second",
    "flags = 7": "  # local protection, recorded labels, shared reservations",
    "flags = 0": "  # none",
    "capacity = 0": "  # 0 bit/s",
    'name = "rate = 1"': "",
    "": "",
}
REFUSED = ["", "10", "10 M", "10MM", "-1M", "1e3M", "0x49989680", "9007200G", "58800000", "7f800000", "7fc00000", "80000001", "ff800000", "١M"]


def rate(*words, given=""):
    """The status, what is printed, and what is told."""
    ran = subprocess.run([str(asked.TOP / "lsr"), "rate", *words], input=given, capture_output=True, text=True, timeout=asked.MOST_SECONDS, check=False)
    return ran.returncode, ran.stdout, ran.stderr


def main():
    """Asks for each, and counts."""
    wrong = [(word, came) for word, line in TOLD.items() if (came := rate(word)) != (0, f"{line}\n", "")]
    wrong += [(word, came) for word in REFUSED if (came := rate(word))[:2] != (2, "") or not came[2].startswith("lsr rate: ")]
    wrong += [(words, came) for words in ((), ("1M", "2M")) if (came := rate(*words))[:2] != (2, "") or "--help" not in came[2]]
    remarked = "".join(f"{line}{remark}\n" for line, remark in CONFIGURATION.items())
    wrong += [("-", came) for came in [rate("-", given="".join(f"{line}\n" for line in CONFIGURATION))] if came != (0, remarked, "")]
    wrong += [("--help", came) for came in [rate("--help")] if came[0] or "lsr rate RATE" not in came[1]]
    for case, came in wrong:
        print(f"FAILED {case}: {came}")
    print(f"{len(TOLD) + len(REFUSED) + 4 - len(wrong)} passed, {len(wrong)} failed")
    return 1 if wrong else 0


if __name__ == "__main__":
    sys.exit(main())
