#!/usr/bin/env python3
"""Passes a lorry's fixes on from one platform to another, with everything killed at random moments, and compares the files.

    tools/relay_trial.py [--program jt808] [--rounds 20] [--fixes 144] [--folder F] [--seed S] [--longest MS]

Three folders stand for three machines. The lorry's has a terminal of 2013, which `report` runs over TCP. In the middle there
are a platform's file and, beside it, a terminal's: `relay` passes the fixes of the first on into the second, and `report
--edition 2019` sends them to the platform upstream. In each round the lorry is fed so many fixes, and then each of the four
steps runs and is killed with SIGKILL at a moment within the longest time, where it has not ended before. After each round
copies of the files are read with Python's own sqlite3: what upstream stores is the first of what the middle recorded, this is
the first of what the middle stores, and this is the first of what the lorry recorded, each once and in order; and nothing that
was there before is gone. In the end all run undisturbed, and all four are the same.

It writes a row of a table. The status is 0 only where nothing was lost, doubled or out of order.
"""
import contextlib
import datetime
import os
import random
import subprocess
import tempfile
import time

import command_line
from kill_loop import FLEET, PLATE, TERMINAL, Broken, fix, fixes_of, free_port, listens, look, origin

LORRY, OPERATOR = "013912345678", "00000000013912345678"
DONE, UNSENT, NET_FAULT = 0, 7, 6


class Trial:
    def __init__(self, asked, folder):
        self.asked = asked
        self.random = random.Random(asked.seed)
        self.folders = {name: f"{folder}/{name}" for name in ("lorry", "middle", "upstream")}
        for it in self.folders.values():
            os.makedirs(it, exist_ok=True)
        self.fed = self.kills = self.relays = 0
        self.before = [[], [], [], []]

    def run(self, where, words, fixes=(), whole=False):
        """Runs the program in a folder until it ends or, where it need not end, its moment comes. Gives its status, None where it was killed."""
        lines = "".join(f"{it.hex()}\n" for it in fixes)
        with open(f"{self.folders[where]}/input", "w") as file:
            file.write(lines)
        with open(f"{self.folders[where]}/input") as file:
            ran = subprocess.Popen([self.asked.program, *words], cwd=self.folders[where], stdin=file, stdout=subprocess.PIPE)
        try:
            told, _ = ran.communicate(timeout=None if whole else self.random.uniform(0, self.asked.longest / 1000))
        except subprocess.TimeoutExpired:
            ran.kill()
            ran.communicate()
            self.kills += 1
            return None
        if ran.returncode not in (DONE, UNSENT):
            raise Broken(f"{' '.join(words[:1])} ended with {ran.returncode}: {told.decode()}")
        return ran.returncode

    @contextlib.contextmanager
    def platform(self, where):
        """A platform in this folder, which is killed at the end. Gives its port."""
        for _ in range(50):
            port = free_port()
            words = [self.asked.program, "platform", "--port", str(port), "--sessions", "1024"]
            ran = subprocess.Popen(words, cwd=self.folders[where], stdin=subprocess.PIPE, stdout=subprocess.DEVNULL)
            with contextlib.suppress(BrokenPipeError):
                ran.stdin.write(FLEET.encode())
                ran.stdin.close()
            while ran.poll() is None and not listens(port):
                time.sleep(0.001)
            if ran.poll() is None:
                break
            if ran.returncode != NET_FAULT:
                raise Broken(f"a platform ended with {ran.returncode}")
        else:
            raise Broken("no platform listens")
        try:
            yield port
        finally:
            ran.kill()
            ran.wait()
            self.kills += 1

    def report(self, where, to, edition, phone, fixes=(), whole=False):
        with self.platform(to) as port:
            words = ["report", "--host", "127.0.0.1", "--port", str(port), "--phone", phone, "--edition", edition]
            words += ["--plate", PLATE, "--terminal", TERMINAL, "--tries", "3"]
            return self.run(where, words, fixes, whole)

    def relay(self, whole=False):
        self.relays += 1
        return self.run("middle", ["relay", "--phone", LORRY], whole=whole)

    def go(self, count, whole=False):
        """The four steps. The lorry is fed fixes that say by which round, and at which place."""
        self.fed += bool(count)
        self.report("lorry", "middle", "2013", LORRY, [fix(self.fed, place) for place in range(count)], whole)
        self.relay(whole)
        self.report("middle", "upstream", "2019", OPERATOR, (), whole)
        self.look(whole)

    def look(self, whole):
        """Reads the files, and compares them with one another and with the look before."""
        now = []
        for where, base in (("lorry", "terminal"), ("middle", "platform"), ("middle", "terminal"), ("upstream", "platform")):
            name = f"{self.folders[where]}/{base}.db"
            if base == "terminal":
                (rows,) = look(name, "SELECT body FROM fix ORDER BY place")
                now.append([origin(body) for (body,) in rows])
            else:
                (rows,) = look(name, "SELECT id, body FROM rows808 ORDER BY phone, number")
                now.append([it for row in rows for it in fixes_of(*row)])
        for longer, shorter in zip(now, now[1:]):
            if longer[: len(shorter)] != shorter:
                raise Broken("what was passed on is not the first of what was there")
        for old, new in zip(self.before, now):
            if new[: len(old)] != old:
                raise Broken("what was there at the look before is not there")
        if whole and now[0] != now[3]:
            raise Broken(f"of {len(now[0])} fixes {len(now[3])} came upstream")
        self.before = now


def words():
    asked = command_line.Words(__doc__)
    asked.add_program()
    asked.add_argument("--rounds", type=command_line.positive, default=20)
    asked.add_argument("--fixes", type=command_line.positive, default=144)
    asked.add_argument("--folder", help="kept, where it is named")
    asked.add_argument("--seed", type=int, default=1)
    asked.add_argument("--longest", type=command_line.positive, default=300, metavar="MS")
    return asked.parse_args()


def main():
    asked = words()
    asked.program = os.path.realpath(asked.program)
    with contextlib.ExitStack() as stack:
        folder = asked.folder or stack.enter_context(tempfile.TemporaryDirectory(prefix="relay-trial-"))
        trial, began, why = Trial(asked, os.path.abspath(folder)), time.monotonic(), "none lost, doubled or out of order"
        try:
            for _ in range(asked.rounds):
                trial.go(asked.fixes)
            trial.go(0, whole=True)
        except Broken as broken:
            why = str(broken)
        cells = [datetime.date.today(), asked.rounds, trial.kills, trial.relays, *map(len, trial.before), why]
        print("| Date | Rounds | Kills | Runs of relay | Recorded by the lorry | Stored in the middle | Recorded there | Stored upstream | Found | Time |")
        print("|---|---|---|---|---|---|---|---|---|---|")
        print(" | ".join(["", *map(str, cells), f"{time.monotonic() - began:.0f} s", ""]).strip())
        return 0 if why.startswith("none") else 1


if __name__ == "__main__":
    command_line.run(main)
