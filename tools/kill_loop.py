#!/usr/bin/env python3
"""Kills a platform and a terminal at random moments, again and again, and looks whether their files lost anything.

    tools/kill_loop.py [--program jt808] [--rounds 1000] [--edition 2013|2019] [--folder F] [--seed S] [--longest MS] [--trace]

In each round `platform` and `report` run over TCP, each in a folder of its own under F (a temporary folder where none is
named), and each is killed once with SIGKILL, at a moment of its own within the longest time. A `report` that ends before is
started again with other fixes. The next round begins once both are gone: a process that is being killed still holds its lock
(tools/lock_faults.py).

Each fix says by which run it was fed, and at which place. After every ten rounds copies of both files and their logs are read
with Python's own sqlite3: both are sound; the recorded fixes of each run are the first of those that it was fed, all of them
where it was not killed, in the order of runs; the stored ones are the first recorded ones, each once and in order; all that was
recorded or stored at the look before is there; and no more are accepted than are stored. At the end both run undisturbed until
every fix is accepted.

A run of `report` that ends with status 5 (`store fault`) is counted, and its files before and after are kept, with --trace
also what it asked of the system (by strace). It writes a row of a table. The status is 0 only where nothing was lost, doubled
or out of order, and 1 where it was.
"""
import contextlib
import datetime
import os
import random
import shutil
import signal
import socket
import sqlite3
import struct
import subprocess
import sys
import tempfile
import time

import command_line

PHONES = {"2013": "013912345678", "2019": "00000000013912345678"}
PLATE, TERMINAL = "4a54383038", "31323334353637"
FLEET = f"secret 3132\nplate {PLATE}\nterminal {TERMINAL}\n"
MOST_FIXES = 40
ROUNDS_A_LOOK = 10
FIXED = struct.Struct(">IIIIHHH6s")
DONE, STORE_FAULT, NET_FAULT, UNSENT = 0, 5, 6, 7


class Broken(Exception):
    """What the files should not hold."""


def fix(run, place):
    """The body of a fix that says by its latitude and longitude where it comes from."""
    return FIXED.pack(0, 3, run, place, 0, 0, 0, bytes.fromhex("240101000000"))


def origin(body):
    _, _, run, place, *_ = FIXED.unpack(body)
    return run, place


def fixes_of(message, body):
    """Where the fixes of a row come from, in order."""
    if message == 0x0200:
        return [origin(body)]
    found, at = [], 3
    while at < len(body):
        size = int.from_bytes(body[at : at + 2], "big")
        found.append(origin(body[at + 2 : at + 2 + size]))
        at += 2 + size
    return found


def copied(name, to):
    """Copies a file and its log, where they are there."""
    for end in ("", "-wal"):
        with contextlib.suppress(FileNotFoundError):
            shutil.copyfile(name + end, to + end)


def look(name, *questions):
    """What a copy of a file answers to each question."""
    with tempfile.TemporaryDirectory(prefix="kill-loop-") as folder:
        copied(name, f"{folder}/a.db")
        if not os.path.exists(f"{folder}/a.db"):
            return [[] for _ in questions]
        with contextlib.closing(sqlite3.connect(f"{folder}/a.db")) as base:
            sound = base.execute("PRAGMA integrity_check").fetchall()
            if sound != [("ok",)]:
                raise Broken(f"{name} is not sound: {sound[:3]}")
            if not base.execute("SELECT COUNT(*) FROM sqlite_schema").fetchone()[0]:
                return [[] for _ in questions]
            return [base.execute(it).fetchall() for it in questions]


def listens(port):
    """Whether some process listens at a port."""
    wanted = f":{port:04X}"
    for name in ("/proc/net/tcp", "/proc/net/tcp6"):
        with contextlib.suppress(FileNotFoundError), open(name) as file:
            if any(line.split()[1].endswith(wanted) and line.split()[3] == "0A" for line in list(file)[1:]):
                return True
    return False


def free_port():
    with socket.socket() as it:
        it.bind(("127.0.0.1", 0))
        return it.getsockname()[1]


class Loop:
    def __init__(self, asked, folder):
        self.asked, self.folder = asked, folder
        self.random = random.Random(asked.seed)
        self.platforms, self.terminals = f"{folder}/platform", f"{folder}/terminal"
        for it in (self.platforms, self.terminals):
            os.makedirs(it, exist_ok=True)
        self.port = free_port()
        self.platform = None
        self.fed, self.whole = {}, set()
        self.recorded, self.stored = [], []
        self.runs = self.kills = self.ended = self.faults = self.platform_faults = 0

    def start_platform(self):
        """Starts the platform and waits until it listens. Another port is taken where this one is not free."""
        for _ in range(50):
            words = [self.asked.program, "platform", "--port", str(self.port), "--sessions", "1024"]
            self.platform = subprocess.Popen(words, cwd=self.platforms, stdin=subprocess.PIPE, stdout=subprocess.PIPE)
            with contextlib.suppress(BrokenPipeError):
                self.platform.stdin.write(FLEET.encode())
                self.platform.stdin.close()
            while self.platform.poll() is None and not listens(self.port):
                time.sleep(0.001)
            if self.platform.poll() is None:
                return
            self.port = free_port()
        raise Broken("the platform does not listen")

    def start_report(self, count):
        """Starts a terminal that is fed so many fixes."""
        run = self.runs = self.runs + 1
        self.fed[run] = count
        copied(f"{self.terminals}/terminal.db", f"{self.folder}/before.db")
        with open(f"{self.folder}/fixes", "w") as file:
            file.writelines(f"{fix(run, place).hex()}\n" for place in range(count))
        words = [self.asked.program, "report", "--host", "127.0.0.1", "--port", str(self.port), "--phone", PHONES[self.asked.edition]]
        words += ["--plate", PLATE, "--terminal", TERMINAL, "--tries", "3", "--edition", self.asked.edition]
        if self.asked.trace:
            words = ["strace", "-D", "-f", "-tt", "-o", f"{self.folder}/trace", *words]
        with open(f"{self.folder}/fixes") as fixes:
            return subprocess.Popen(words, cwd=self.terminals, stdin=fixes, stdout=subprocess.PIPE)

    def take_end(self, report):
        """What is known once a terminal ended by itself."""
        status, told = report.returncode, report.stdout.read().decode()
        self.ended += 1
        if status in (DONE, UNSENT):
            self.whole.add(self.runs)
        elif status == STORE_FAULT:
            self.keep(f"fault-{self.faults}", told)
            self.faults += 1
        else:
            raise Broken(f"report ended with {status}: {told}")

    def keep(self, name, told):
        """Keeps the files of a run with a store fault."""
        folder = f"{self.folder}/{name}"
        os.makedirs(folder)
        copied(f"{self.folder}/before.db", f"{folder}/before.db")
        copied(f"{self.terminals}/terminal.db", f"{folder}/after.db")
        with open(f"{folder}/said", "w") as file:
            file.write(f"run {self.runs}, {datetime.datetime.now()}\n{told}")
        if self.asked.trace:
            shutil.copyfile(f"{self.folder}/trace", f"{folder}/trace")

    def moments(self):
        longest = self.asked.longest / 1000
        return sorted((self.random.uniform(0, longest), it) for it in ("platform", "report"))

    def round(self):
        """Starts both, and kills each at a moment of its own."""
        if self.platform is None or self.platform.poll() is not None:
            self.start_platform()
        began = time.monotonic()
        report = self.start_report(self.random.randint(0, MOST_FIXES))
        for moment, whom in self.moments():
            while time.monotonic() - began < moment:
                if report.poll() is not None and not report.stdout.closed:
                    self.take_end(report)
                    report.stdout.close()
                    report = self.start_report(self.random.randint(0, MOST_FIXES))
                time.sleep(0.0005)
            killed = self.platform if whom == "platform" else report
            killed.kill()
            killed.wait()
            if whom == "report" and not report.stdout.closed:
                self.take_killed(report)
        self.kills += 1

    def take_killed(self, report):
        """A terminal may have ended by itself just before it was killed."""
        if report.returncode >= 0:
            self.take_end(report)
        report.stdout.close()

    def look(self):
        """Reads both files and compares them with what was fed and with the look before."""
        fixes, state = look(f"{self.terminals}/terminal.db", "SELECT place, body FROM fix ORDER BY place", "SELECT fixes_accepted FROM state")
        (rows,) = look(f"{self.platforms}/platform.db", "SELECT id, body FROM rows808 ORDER BY phone, number")
        if [it for it, _ in fixes] != list(range(len(fixes))):
            raise Broken("the places of the fixes have a hole")
        recorded = [origin(body) for _, body in fixes]
        stored = [it for row in rows for it in fixes_of(*row)]
        self.compare(recorded, stored, state[0][0] if state else 0)
        self.recorded, self.stored = recorded, stored

    def compare(self, recorded, stored, accepted):
        counts = {}
        for run, place in recorded:
            if place != counts.get(run, 0):
                raise Broken(f"fix {place} of run {run} is recorded out of order")
            counts[run] = place + 1
        if [run for run, _ in recorded] != sorted(run for run, _ in recorded):
            raise Broken("the runs are recorded out of order")
        for run in self.whole:
            if counts.get(run, 0) != self.fed[run]:
                raise Broken(f"run {run} recorded {counts.get(run, 0)} of {self.fed[run]} fixes")
        if recorded[: len(self.recorded)] != self.recorded or stored[: len(self.stored)] != self.stored:
            raise Broken("what was there at the look before is not there")
        if stored != recorded[: len(stored)]:
            raise Broken(f"of {len(recorded)} recorded fixes {len(stored)} stored ones are not the first")
        if accepted > len(stored):
            raise Broken(f"{accepted} fixes are accepted, and {len(stored)} stored")

    def finish(self):
        """Lets both run undisturbed until every fix is accepted."""
        for _ in range(20):
            if self.platform.poll() is not None:
                self.start_platform()
            report = self.start_report(0)
            report.wait()
            self.take_end(report)
            if report.returncode == DONE:
                break
        self.platform.kill()
        self.platform.wait()
        self.look()
        if len(self.stored) != len(self.recorded):
            raise Broken(f"{len(self.stored)} of {len(self.recorded)} fixes are stored in the end")

    def go(self):
        for number in range(1, self.asked.rounds + 1):
            self.round()
            if number % ROUNDS_A_LOOK == 0:
                self.look()
            if number % 100 == 0:
                print(f"{number} rounds, {len(self.recorded)} recorded, {len(self.stored)} stored, {self.faults} faults", file=sys.stderr)
        self.finish()

    def row(self, seconds, why):
        cells = [datetime.date.today(), self.asked.edition, self.kills, self.runs, self.ended, self.faults, len(self.recorded), len(self.stored)]
        return " | ".join(["", *map(str, cells), why, f"{seconds:.0f} s", ""]).strip()


def words():
    asked = command_line.Words(__doc__)
    asked.add_program()
    asked.add_argument("--rounds", type=command_line.positive, default=1000)
    asked.add_argument("--edition", choices=PHONES, default="2013")
    asked.add_argument("--folder", help="kept, where it is named")
    asked.add_argument("--seed", type=int, default=1)
    asked.add_argument("--longest", type=command_line.positive, default=150, metavar="MS")
    asked.add_argument("--trace", action="store_true")
    return asked.parse_args()


def main():
    asked = words()
    asked.program = os.path.realpath(asked.program)
    # So that no platform is left behind where this is told to stop.
    signal.signal(signal.SIGTERM, lambda *_: sys.exit(1))
    with contextlib.ExitStack() as stack:
        folder = asked.folder or stack.enter_context(tempfile.TemporaryDirectory(prefix="kill-loop-"))
        loop, began, why = Loop(asked, os.path.abspath(folder)), time.monotonic(), "none lost, doubled or out of order"
        try:
            loop.go()
        except Broken as broken:
            why = str(broken)
        finally:
            if loop.platform is not None:
                loop.platform.kill()
        print("| Date | Edition | Kills of each | Runs of report | Ended by themselves | Store faults | Recorded | Stored | Found | Time |")
        print("|---|---|---|---|---|---|---|---|---|---|")
        print(loop.row(time.monotonic() - began, why))
        return 0 if why.startswith("none") else 1


if __name__ == "__main__":
    command_line.run(main)
