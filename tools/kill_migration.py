#!/usr/bin/env python3
"""Kills a platform while it moves a file of version 1 to version 2, again and again, and looks what the file then has.

    tools/kill_migration.py [--program jt808] [--rounds 30] [--longest SECONDS]

The file has rows of 32 phones under both editions, of which some are the same. After a registration, which begins the move, the
platform is killed with SIGKILL at a random moment within the longest time. The file then is of version 1 and as it was, or of
version 2 with every row once; and a platform that is started again leaves it of version 2 with every row. It prints how often
each version was found; the status is 1 where a file was wrong.
"""
import collections
import contextlib
import os
import random
import shutil
import socket
import sqlite3
import subprocess
import tempfile
import time

import command_line
import kill_loop
import open_times

MAKE = open_times.MAKE.replace("VALUES (2)", "VALUES (1)")
PHONES = [bytes.fromhex(f"{13_900_000_000 + at:020d}") for at in range(32)]
# The numbers of the rows under each edition. Those of both have the same bodies.
NUMBERS = {0: range(500), 1: range(400, 900)}
MOVED = [(phone, number) for phone in PHONES for number in range(900)]
ROWS = "SELECT phone, number FROM rows808 ORDER BY phone, number"


def make(path):
    with contextlib.closing(sqlite3.connect(path)) as base:
        base.executescript(MAKE)
        each = ((bytes([edition]) + phone, number, 0x0200, kill_loop.fix(1, number)) for phone in PHONES for edition, numbers in NUMBERS.items() for number in numbers)
        base.executemany("INSERT INTO rows808 VALUES (?, ?, ?, ?)", each)
        base.commit()


def start(program, folder):
    """A platform that was sent a registration, and the link."""
    port = kill_loop.free_port()
    words = [program, "platform", "--port", str(port), "--sessions", "1"]
    ran = subprocess.Popen(words, cwd=folder, stdin=subprocess.PIPE, stdout=subprocess.DEVNULL)
    ran.stdin.write(kill_loop.FLEET.encode())
    ran.stdin.close()
    while not kill_loop.listens(port):
        time.sleep(0.002)
    link = socket.create_connection(("127.0.0.1", port))
    link.sendall(open_times.registration(0))
    return ran, link


def found(path):
    versions, rows = kill_loop.look(path, "SELECT version FROM meta", ROWS)
    return versions, rows


def round_of(program, folder, old, longest):
    """The version that a killed platform left, and whether the file was right then and after the next one."""
    path = f"{folder}/platform.db"
    ran, link = start(program, folder)
    time.sleep(random.uniform(0, longest))
    ran.kill()
    ran.wait()
    link.close()
    left = found(path)
    ran, link = start(program, folder)
    link.recv(4096)
    link.close()
    ran.wait()
    is_right = left in (old, ([(2,)], MOVED)) and found(path) == ([(2,)], MOVED)
    return left[0][0][0], is_right


def main():
    asked = command_line.Words(__doc__)
    asked.add_program()
    asked.add_argument("--rounds", type=command_line.positive, default=30)
    asked.add_argument("--longest", type=float, default=1.0)
    asked = asked.parse_args()
    ends = collections.Counter()
    with tempfile.TemporaryDirectory(prefix="kill-migration-") as folder:
        make(f"{folder}/old.db")
        old = found(f"{folder}/old.db")
        for _ in range(asked.rounds):
            os.mkdir(f"{folder}/platform")
            shutil.copyfile(f"{folder}/old.db", f"{folder}/platform/platform.db")
            ends[round_of(os.path.realpath(asked.program), f"{folder}/platform", old, asked.longest)] += 1
            shutil.rmtree(f"{folder}/platform")
    for (version, is_right), count in sorted(ends.items()):
        print(f"version {version}: {count} times, {'right' if is_right else 'WRONG'}")
    return 0 if all(is_right for _, is_right in ends) else 1


if __name__ == "__main__":
    command_line.run(main)
