#!/usr/bin/env python3
"""Measures what the open of a platform's file costs: the time from the first registration to its answer, and the memory.

    tools/open_times.py [--program jt808] [--phones 64] [ROWS..]

For each number of rows (10,000, 100,000 and 1,000,000 where none is named) it makes a `platform.db` with rows of 28 octets by
Python's own sqlite3, starts `platform` over it, registers a terminal and waits for the answer. A second registration is answered
over the open file. It writes a row of a table for each.
"""
import contextlib
import functools
import operator
import os
import socket
import sqlite3
import struct
import subprocess
import tempfile
import time

import command_line
import kill_loop

MAKE = """CREATE TABLE meta (version INTEGER); INSERT INTO meta (version) VALUES (2);
CREATE TABLE registered (phone BLOB PRIMARY KEY, plate BLOB UNIQUE, terminal BLOB UNIQUE);
CREATE TABLE rows808 (phone BLOB, number INTEGER, id INTEGER, body BLOB, PRIMARY KEY (phone, number))"""


def make(path, rows, phones):
    with contextlib.closing(sqlite3.connect(path)) as base:
        base.executescript(MAKE)
        names = [bytes.fromhex(f"{13_900_000_000 + at:020d}") for at in range(phones)]
        each = ((names[at % phones], at // phones, 0x0200, kill_loop.fix(1, at)) for at in range(rows))
        base.executemany("INSERT INTO rows808 VALUES (?, ?, ?, ?)", each)
        base.commit()


def registration(serial):
    """A registration of the terminal that the fleet of the loop names."""
    body = bytes(4 + 5 + 20) + bytes.fromhex(kill_loop.TERMINAL) + b"\x01" + bytes.fromhex(kill_loop.PLATE)
    content = struct.pack(">HH", 0x0100, len(body)) + bytes.fromhex(kill_loop.PHONES["2013"]) + struct.pack(">H", serial) + body
    content += bytes([functools.reduce(operator.xor, content)])
    return b"\x7e" + content.replace(b"\x7d", b"\x7d\x01").replace(b"\x7e", b"\x7d\x02") + b"\x7e"


def answered(link, serial):
    """The seconds from a registration to its answer."""
    began = time.monotonic()
    link.sendall(registration(serial))
    told = link.recv(4096)
    if told[1:3] != b"\x81\x00" or told[15:16] != b"\x00":
        raise SystemExit(f"open_times: answered {told.hex()}")
    return time.monotonic() - began


def used(process):
    """The seconds of a processor that a process took so far."""
    with open(f"/proc/{process}/stat") as file:
        fields = file.read().rpartition(")")[2].split()
    return (int(fields[11]) + int(fields[12])) / os.sysconf("SC_CLK_TCK")


def most_memory(process):
    with open(f"/proc/{process}/status") as file:
        return next(int(line.split()[1]) / 1000 for line in file if line.startswith("VmHWM"))


def measure(program, rows, phones):
    with tempfile.TemporaryDirectory(prefix="open-times-") as folder:
        make(f"{folder}/platform.db", rows, phones)
        size = os.path.getsize(f"{folder}/platform.db") / 1e6
        port = kill_loop.free_port()
        words = [program, "platform", "--port", str(port), "--sessions", "1"]
        ran = subprocess.Popen(words, cwd=folder, stdin=subprocess.PIPE, stdout=subprocess.DEVNULL)
        ran.stdin.write(kill_loop.FLEET.encode())
        ran.stdin.close()
        while not kill_loop.listens(port):
            time.sleep(0.005)
        with socket.create_connection(("127.0.0.1", port)) as link:
            first = answered(link, 0)
            seconds, memory = used(ran.pid), most_memory(ran.pid)
            second = answered(link, 1)
        ran.wait()
    return f"| {rows:,} | {size:.1f} MB | {first:.3f} s | {seconds:.2f} s | {memory:.1f} MB | {second * 1000:.1f} ms |"


def main():
    asked = command_line.Words(__doc__)
    asked.add_argument("rows", nargs="*", type=command_line.positive, default=[10_000, 100_000, 1_000_000])
    asked.add_program()
    asked.add_argument("--phones", type=command_line.positive, default=64)
    asked = asked.parse_args()
    print("| Rows | File | First answer | Processor until then | Memory | Next answer |\n|---|---|---|---|---|---|")
    for rows in asked.rows:
        print(measure(os.path.realpath(asked.program), rows, asked.phones), flush=True)


if __name__ == "__main__":
    command_line.run(main)
