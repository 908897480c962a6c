#!/usr/bin/env python3
"""What open pages cost the terminals: how long a unit waits for its acceptance with pages open and without.

    tools/page_cost.py PROGRAM [--runs N] [--minutes N] [--terminals N] [--pages N] [--http ADDRESS:PORT]

PROGRAM is crates/dewfelt/out/dewfelt. It runs tools/fleet_trial.py by turns without and with pages, N times each (5, of three
minutes, with 1,000 terminals and 20 pages where nothing else is said), and prints the 99th percentile of each run. The status is 1
where a run goes wrong, or where the median of the runs with pages is more than 1.3 times that of the runs without.
"""
import re
import statistics
import subprocess
import sys

import command_line

MOST = 1.3


def run(given, pages):
    """The 99th percentile in milliseconds of the wait from a unit to its acceptance, and what the tool says of the looks."""
    words = [sys.executable, f"{command_line.ROOT}/tools/fleet_trial.py", given.program, "--minutes", str(given.minutes), "--terminals",
             str(given.terminals), "--http", given.http, "--pages", str(pages)]
    ran = subprocess.run(words, capture_output=True, text=True)
    if ran.returncode:
        raise command_line.Mistake(f"a run with {pages} pages went wrong: {(ran.stdout + ran.stderr).strip().splitlines()[-1]}")
    looks = re.search(r"^\d+ looks .*$", ran.stdout, re.MULTILINE)
    return float(re.search(r"^\d+ units: .* 99th percentile ([\d.]+) ms", ran.stdout, re.MULTILINE)[1]), looks[0] if looks else ""


def main():
    words = command_line.Words(__doc__)
    words.add_argument("program", metavar="PROGRAM", type=command_line.program)
    words.add_argument("--runs", type=command_line.positive, default=5)
    words.add_argument("--minutes", type=command_line.positive, default=3)
    words.add_argument("--terminals", type=command_line.positive, default=1000)
    words.add_argument("--pages", type=command_line.positive, default=20)
    words.add_argument("--http", type=command_line.address, default="127.0.0.1:8088")
    given = words.parse_args()
    without, beside = [], []
    for turn in range(given.runs):
        for pages, found in ((0, without), (given.pages, beside)):
            waits, looks = run(given, pages)
            found.append(waits)
            print(f"run {turn + 1} of {given.runs}, {pages} pages: 99th percentile {waits:.1f} ms {looks}", flush=True)
    plain, paged = statistics.median(without), statistics.median(beside)
    print(f"median without pages {plain:.1f} ms, with {given.pages} pages {paged:.1f} ms: {paged / max(plain, 0.1):.2f} times")
    return int(paged > MOST * plain)


if __name__ == "__main__":
    command_line.run(main)
