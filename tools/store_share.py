#!/usr/bin/env python3
"""Measures `platform` over its file beside the plain Rust program over C's SQLite: units a second, and the processor's time a unit,
which tells the same on a busy machine.

    tools/store_share.py LOAD PLAIN FOLDER [--program jt808] [--runs 3] [--loads 1x20000,64x300,1024x20]

LOAD is the load client and PLAIN the plain program of the bench, built with its feature `sqlite`. The files lie in new folders
under FOLDER: on the disk to be measured, or /dev/shm, which leaves the disk out. Each load is so many connections of so many
units; the two programs run in turn, and the best of the runs counts for each figure. It writes a row of a table for each load,
and stops where the two programs do not count the same.
"""
import argparse
import os
import re
import subprocess
import tempfile
import time

import command_line
import kill_loop


def run(load, program, folder, connections, units):
    """The units a second, the microseconds of a processor a unit, the memory in MB, and the last line of one run."""
    with tempfile.TemporaryDirectory(dir=folder) as room:
        port = kill_loop.free_port()
        fleet = subprocess.run([load, "fleet", str(connections)], capture_output=True, check=True).stdout
        words = [program, "platform", "--port", str(port), "--sessions", str(connections)]
        files = {"stdin": subprocess.PIPE, "stdout": subprocess.PIPE, "env": {**os.environ, "JT808_DB": f"{room}/platform.db"}}
        ran = subprocess.Popen(words, cwd=room, **files)
        ran.stdin.write(fleet)
        ran.stdin.close()
        while not kill_loop.listens(port):
            time.sleep(0.01)
        asked = ["--port", str(port), "--connections", str(connections), "--units", str(units), "--seconds", "120"]
        told = subprocess.run([load, "run", *asked], capture_output=True, text=True, check=True)
        last = ran.stdout.read().decode().splitlines()[-1]
        _, _, used = os.wait4(ran.pid, 0)
    rate = int(re.search(r"units/s=(\d+)", told.stdout + told.stderr)[1])
    return rate, (used.ru_utime + used.ru_stime) * 1e6 / (connections * units), used.ru_maxrss / 1000, last


def loads(text):
    """The loads that a word names, as (connections, units)."""
    if not re.fullmatch(r"\d+x\d+(,\d+x\d+)*", text):
        raise argparse.ArgumentTypeError(f"{text} is no list of loads, as 1x20000,64x300")
    return [tuple(map(int, load.split("x"))) for load in text.split(",")]


def compare(asked, connections, units):
    """A row of the table for one load."""
    ours, plain = [], []
    for _ in range(asked.runs):
        for program, found in ((asked.program, ours), (asked.plain, plain)):
            found.append(run(asked.load, program, asked.folder, connections, units))
    if ours[0][3] != plain[0][3]:
        raise SystemExit(f"store_share: {ours[0][3]} and {plain[0][3]}")
    rates = [max(it[0] for it in found) for found in (ours, plain)]
    times = [min(it[1] for it in found) for found in (ours, plain)]
    memory = [min(it[2] for it in found) for found in (ours, plain)]
    cells = [f"{connections} x {units:,}", *(f"{it:,}" for it in rates), f"{rates[0] / rates[1]:.2f}"]
    cells += [f"{times[0]:.1f} / {times[1]:.1f}", f"{times[1] / times[0]:.2f}", f"{memory[0]:.0f} / {memory[1]:.0f}"]
    return f"| {' | '.join(cells)} |"


def main():
    asked = command_line.Words(__doc__)
    asked.add_argument("load", metavar="LOAD", type=command_line.program, help="the load client of the bench")
    asked.add_argument("plain", metavar="PLAIN", type=command_line.program, help="the plain program of the bench")
    asked.add_argument("folder", metavar="FOLDER", type=command_line.folder, help="where the files lie")
    asked.add_program()
    asked.add_argument("--runs", metavar="N", type=command_line.positive, default=3, help="of each program (default: 3)")
    asked.add_argument("--loads", type=loads, metavar="CxU,..", default="1x20000,64x300,1024x20", help="connections x units (default: %(default)s)")
    asked = asked.parse_args()
    print("| Connections x units | Units a second | Plain Rust | Ratio | Processor a unit, us: ours / plain | Share | Memory, MB: ours / plain |")
    print("|---|---|---|---|---|---|---|")
    for connections, units in asked.loads:
        print(compare(asked, connections, units), flush=True)
    return 0


if __name__ == "__main__":
    command_line.run(main)
