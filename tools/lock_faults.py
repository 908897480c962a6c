#!/usr/bin/env python3
"""Shows what makes a `report` end with `store fault` over a file that is whole: that another process still holds it.

    tools/lock_faults.py [--program jt808] [--rounds 100]

It counts such ends of a `report` that is started once a killed one is gone, right after the signal without waiting for that, and
while sqlite3 reads the file. Of the first there should be none, of the last all; of the second some, more on a slow disk, since
a killed process is gone only once its last write is done.
"""
import contextlib
import os
import random
import sqlite3
import subprocess
import tempfile
import time

import command_line
import kill_loop


def start(program, folder, count):
    """A terminal that records so many fixes and then finds no platform."""
    with open(f"{folder}/fixes", "w") as file:
        file.writelines(f"{kill_loop.fix(1, place).hex()}\n" for place in range(count))
    named = ["--phone", kill_loop.PHONES["2013"], "--plate", kill_loop.PLATE, "--terminal", kill_loop.TERMINAL]
    words = [program, "report", "--host", "127.0.0.1", "--port", "1", *named, "--tries", "1"]
    with open(f"{folder}/fixes") as fixes:
        return subprocess.Popen(words, cwd=folder, stdin=fixes, stdout=subprocess.DEVNULL)


def after_kills(program, rounds, waits):
    faults = 0
    with tempfile.TemporaryDirectory(prefix="lock-faults-") as folder:
        for _ in range(rounds):
            killed = start(program, folder, 400)
            time.sleep(random.uniform(0.02, 0.2))
            killed.kill()
            if waits:
                killed.wait()
            faults += start(program, folder, 1).wait() == kill_loop.STORE_FAULT
            killed.wait()
    return faults


def while_read(program, rounds):
    faults = 0
    with tempfile.TemporaryDirectory(prefix="lock-faults-") as folder:
        start(program, folder, 50).wait()
        for _ in range(rounds):
            with contextlib.closing(sqlite3.connect(f"{folder}/terminal.db")) as base:
                base.execute("BEGIN")
                base.execute("SELECT COUNT(*) FROM fix").fetchone()
                faults += start(program, folder, 1).wait() == kill_loop.STORE_FAULT
    return faults


def main():
    asked = command_line.Words(__doc__)
    asked.add_program()
    asked.add_argument("--rounds", type=command_line.positive, default=100)
    asked = asked.parse_args()
    program, rounds = os.path.realpath(asked.program), asked.rounds
    print(f"once the killed one is gone: {after_kills(program, rounds, True)} of {rounds}", flush=True)
    print(f"right after the signal: {after_kills(program, rounds, False)} of {rounds}", flush=True)
    print(f"while sqlite3 reads the file: {while_read(program, rounds)} of {rounds}", flush=True)


if __name__ == "__main__":
    command_line.run(main)
