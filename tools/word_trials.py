#!/usr/bin/env python3
"""Tries the program where no test by words does.

    tools/word_trials.py [--program jt808]

A word that is no text (octets that are no UTF-8) makes all of them no words at all: the usage line, status 2, and nothing is read.
A million orders are `issued=1000000 ..`; one more makes the book full, whose limit is fixed: `order book full at 1000000`, status 5.
It prints a line for each trial; the status is 1 where one is wrong. The orders take 14 MB of script.
"""
import os
import subprocess

import command_line

USAGE = b"usage: jt808 view|check|rehearse|make|platform|report|orders|fence|relay|gateway\n"
ORDER = b"issue 8300 00\n"
TRIALS = [
    ("a word that is no text", [b"view\xff"], b"", (2, USAGE)),
    ("a further word that is no text", [b"view", b"\xff"], b"", (2, USAGE)),
    ("a million orders", [b"orders"], ORDER * 1_000_000, (0, b"issued=1000000 performed=0 answered=0\n")),
    ("one order more", [b"orders"], ORDER * 1_000_001, (5, b"order book full at 1000000\n")),
]


def main():
    asked = command_line.Words(__doc__)
    asked.add_program()
    program, wrong = os.fsencode(os.path.realpath(asked.parse_args().program)), 0
    for name, words, given, expected in TRIALS:
        ran = subprocess.run([program, *words], input=given, stdout=subprocess.PIPE)
        is_right = (ran.returncode, ran.stdout) == expected
        wrong += not is_right
        print(f"{name}: {'right' if is_right else 'WRONG'}, status {ran.returncode}, {ran.stdout[-60:]!r}")
    return 1 if wrong else 0


if __name__ == "__main__":
    command_line.run(main)
