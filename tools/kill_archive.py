#!/usr/bin/python3
"""Kills tools/archive.py, or the database under it, and looks whether a row was lost, doubled or changed.

    tools/kill_archive.py [--kills 200] [--server 20] [--steps 3] [--seed 1] [--program jt808]

It starts a PostgreSQL of its own on loopback. In each round rows are put into a platform's file as the program does it, the tool
moves rows into the database and a folder, and is killed with SIGKILL at a random moment; every tenth round it runs to its end. So
until it was killed in its middle so many times. Then the same with all processes of the server killed in place of the tool. Last,
over files of 120 rows, it is killed before each call of sqlite3, psycopg, fsync and close in turn (--steps 3: each third one).

After each kill: the file is sound and has of each phone its last rows, sixteen at least; what left it stands in the database and in
the folder; no row stands twice, and none that was never in the file. Every tenth time, and at the end, each octet is compared. With
--program, `relay` of the program is run over a copy of the file as the kill left it. The status is 0 only where nothing differs.
"""
import bisect
import collections
import contextlib
import os
import random
import re
import signal
import sqlite3
import subprocess
import sys
import tempfile
import time

sys.dont_write_bytecode = True
import archive  # noqa: E402
import command_line  # noqa: E402
from archive_database import Link  # noqa: E402
from archive_rows import FIXED, Stop, Unit, digits_of  # noqa: E402
from kill_loop import Broken, copied  # noqa: E402
from open_times import MAKE  # noqa: E402
from postgres_server import Server  # noqa: E402

TOOL = archive.__file__
LEAST = 16
CALLS = {"execute", "executemany", "executescript", "fetchone", "fetchall", "fsync", "close", "copy", "write", "connect", "rmtree", "mkdir"}


def position(chance, number):
    """A position, of three in a hundred without a moment or with one far off, of half with items."""
    clock = f"2611{1 + number // 5000 % 30:02d}{number // 60 % 24:02d}{number % 60:02d}00"
    if chance.random() < 0.03:
        clock = chance.choice(["000000000000", "991231235959", "261399000000"])
    octets = FIXED.pack(0, 3, 22_000_000 + number, 113_000_000, 0, 0, 0, bytes.fromhex(clock))
    return octets + chance.choice([b"", b"\x01\x04" + number.to_bytes(4, "big") + b"\x64\x02ab"])


def row(chance, number):
    """The id and body of a row: a position, a batch, and now and then one that does not read."""
    kind = chance.random()
    if kind < 0.8:
        return 0x0200, position(chance, number)
    if kind < 0.98:
        parts = [position(chance, number + place) for place in range(chance.randint(0, 6))]
        return 0x0704, len(parts).to_bytes(2, "big") + b"\x01" + b"".join(len(it).to_bytes(2, "big") + it for it in parts)
    return chance.choice([(0x0200, b"\x01\x02"), (0x0704, b"\x00\x09\x01"), (0x0200, position(chance, number) + b"\x01")])


class Fleet:
    """A platform's file, all rows that were ever put into it, and where they go."""

    def __init__(self, folder, dsn, name, phones):
        self.path, self.old, self.dsn, self.name = f"{folder}/platform.db", f"{folder}/old", dsn, name
        self.rows = {bytes.fromhex(f"{13_900_000_000 + at:020d}"): [] for at in range(phones)}
        self.gone = dict.fromkeys(self.rows, 0)
        # How many entries the first rows of a phone make, for each number of them.
        self.entries = {phone: [0] for phone in self.rows}
        with contextlib.closing(sqlite3.connect(self.path)) as base:
            base.execute("PRAGMA journal_mode = WAL")
            base.executescript(MAKE)

    def append(self, chance, count):
        with contextlib.closing(sqlite3.connect(self.path, isolation_level=None, timeout=10)) as base:
            base.execute("BEGIN IMMEDIATE")
            for _ in range(count):
                phone, known = chance.choice(list(self.rows.items()))
                last = known[-1][0] if known else chance.randint(-1, 65_534)
                step = chance.choice([1, 1, 1, 1, 1, 1, 2, 30, 40_000, 131_071]) if known else 1
                known.append((last + step, *row(chance, len(known))))
                self.entries[phone].append(self.entries[phone][-1] + len(Unit(*known[-1]).entries))
                base.execute("INSERT INTO rows808 VALUES (?, ?, ?, ?)", (phone, *known[-1]))
            base.execute("COMMIT")

    def words(self, *more):
        return [self.path, "--name", self.name, "--database", self.dsn, "--into", self.old, *more]

    def look_at_file(self):
        """The file has the last rows of all, and says how many are gone."""
        with contextlib.closing(sqlite3.connect(self.path)) as base:
            if base.execute("PRAGMA integrity_check").fetchall() != [("ok",)]:
                raise Broken("the file is not sound")
            for phone, known in self.rows.items():
                found = base.execute("SELECT number, id, body FROM rows808 WHERE phone = ? ORDER BY number", (phone,)).fetchall()
                wanted = [it for it in known[-LEAST:] if it[0] >= known[-1][0] - archive.LOOKED_AT]
                if found != known[len(known) - len(found) :] or len(found) < len(wanted):
                    raise Broken(f"the file has {len(found)} of {len(known)} rows of {phone.hex()}")
                self.gone[phone] = len(known) - len(found)
            left = {}
            if base.execute("SELECT 1 FROM sqlite_schema WHERE name = 'left808'").fetchone():
                left = dict(base.execute("SELECT phone, rows FROM left808"))
        if left != {phone: count for phone, count in self.gone.items() if count}:
            raise Broken(f"left808 has {left}")

    def look_at_counts(self, link):
        """Up to the mark of each phone all rows stand in the database, and no other."""
        platform = None
        if link.one("SELECT to_regclass('jt808.platform')") is not None:
            platform = link.one("SELECT id FROM jt808.platform WHERE name = %s", (self.name,))
        marks = dict(link.execute("SELECT phone, number FROM jt808.mark WHERE platform = %s", (platform,))) if platform else {}
        question = "SELECT phone, count(DISTINCT number), count(*) FROM jt808.position WHERE platform = %s GROUP BY phone"
        found = {phone: tuple(counts) for phone, *counts in link.execute(question, (platform,))} if platform else {}
        for phone, known in self.rows.items():
            digits = digits_of(phone)
            stored = bisect.bisect_right(known, marks.get(digits, -1), key=lambda it: it[0])
            if found.get(digits, (0, 0)) != (stored, self.entries[phone][stored]) or stored < self.gone[phone]:
                raise Broken(f"the database has {found.get(digits)} of {stored} rows of {digits}; {self.gone[phone]} left the file")
        return platform

    def in_database(self, link, platform):
        found = collections.defaultdict(lambda: collections.defaultdict(list))
        question = "SELECT phone, number, place, message, count, kind, octets FROM jt808.position WHERE platform = %s ORDER BY number, place"
        for phone, number, *entry in link.execute(question, (platform,)):
            found[phone][number].append(entry)
        return {phone: {number: body_of(entries) for number, entries in some.items()} for phone, some in found.items()}

    def in_folder(self):
        found = collections.defaultdict(dict)
        for name in os.listdir(self.old) if os.path.isdir(self.old) else []:
            if not re.fullmatch(rf"{self.name}-(\d{{4}}-\d\d|none)\.db", name):
                continue
            with contextlib.closing(sqlite3.connect(f"{self.old}/{name}")) as base:
                # A kill may have left a file without tables.
                if base.execute("SELECT 1 FROM sqlite_schema WHERE name = 'rows808'").fetchone():
                    for phone, number, message, body in base.execute("SELECT phone, number, id, body FROM rows808"):
                        if number in found[digits_of(phone)]:
                            raise Broken(f"row {number} stands in two months")
                        found[digits_of(phone)][number] = message, body
        return found

    def look_at_octets(self, link, platform):
        for name, target in (("database", self.in_database(link, platform)), ("folder", self.in_folder())):
            for phone, known in self.rows.items():
                there = target.get(digits_of(phone), {})
                wanted = {number: (message, body) for number, message, body in known}
                if any(wanted.get(number) != it for number, it in there.items()):
                    raise Broken(f"a row of {digits_of(phone)} is another one in the {name}")
                if any(number not in there for number, _, _ in known[: self.gone[phone]]):
                    raise Broken(f"a row of {digits_of(phone)} that left the file is not in the {name}")

    def look(self, whole):
        self.look_at_file()
        link = Link(self.dsn)
        try:
            platform = self.look_at_counts(link)
            if whole and platform:
                self.look_at_octets(link, platform)
        finally:
            link.close()

    def relay(self, program, chance):
        """The program reads the file as the kill left it."""
        phone = chance.choice(list(self.rows))
        with tempfile.TemporaryDirectory() as folder:
            copied(self.path, f"{folder}/platform.db")
            self.look_at_file()
            told = subprocess.run([program, "relay", "--phone", phone.hex()], cwd=folder, capture_output=True, text=True, check=False).stdout
        fixes = sum(Unit(*it).count for it in self.rows[phone][self.gone[phone] :])
        if told != f"relayed={fixes} of {fixes}\n":
            raise Broken(f"relay said {told!r} for {fixes} fixes")


def body_of(entries):
    """The id and body of a row from what the database keeps of it."""
    _, message, count, kind, octets = entries[0]
    if count == 0 or message == 0x0200:
        return message, bytes(octets)
    if [it[0] for it in entries] != list(range(count)):
        raise Broken("a place of a batch is missing")
    return message, count.to_bytes(2, "big") + bytes([kind]) + b"".join(len(it[4]).to_bytes(2, "big") + bytes(it[4]) for it in entries)


def started(words, log):
    """The tool in a process of its own, which does not have to read its modules first."""
    with open(log, "w", encoding="utf-8", buffering=1) as file:
        process = os.fork()
        if process == 0:
            status = 70
            try:
                with contextlib.redirect_stdout(file), contextlib.redirect_stderr(file):
                    status = archive.main(words)
            finally:
                os._exit(status)
    return process


def ended(process, how=0):
    """With what status a process ended, or None where it has not."""
    found, status = os.waitpid(process, how)
    return os.waitstatus_to_exitcode(status) if found else None


class Rounds:
    """Kills at random moments: of the tool, or of the server."""

    def __init__(self, asked, folder, server, is_server):
        self.asked, self.server, self.is_server, self.chance = asked, server, is_server, random.Random(asked.seed)
        self.fleet = Fleet(folder, server.dsn(), f"kill-{'server' if is_server else 'tool'}", 25)
        self.log, self.longest, self.kills, self.rounds = f"{folder}/told", 1.0, 0, 0
        self.ends = collections.Counter()

    def words(self):
        if self.chance.random() < 0.15:
            return self.fleet.words("--copy")
        return self.fleet.words(*self.chance.choice([["--exact"], ["--rows", "16"], ["--rows", "32"], ["--rows", "64"], ["--rows", "16"]]))

    def round(self):
        self.fleet.append(self.chance, self.asked.rows)
        self.rounds += 1
        whole, began, words = self.rounds % 10 == 0, time.monotonic(), self.words()
        process, status = started(words, self.log), None
        until = began + (600 if whole else self.chance.uniform(0, self.longest))
        while status is None and time.monotonic() < until:
            time.sleep(0.002)
            status = ended(process, os.WNOHANG)
        middle = status is None
        if middle:
            self.kill(process)
        elif whole:
            self.longest = time.monotonic() - began
        with open(self.log, encoding="utf-8") as log:
            told = log.read()
        if status:
            raise Broken(told)
        self.kills += middle
        self.ends[f"{'killed' if middle else 'ended'} behind: {behind(told)}"] += 1

    def kill(self, process):
        if self.is_server:
            self.server.kill()
            ended(process)
            self.server.start()
        else:
            os.kill(process, signal.SIGKILL)
            ended(process)

    def go(self, kills):
        while self.kills < kills:
            self.round()
            if self.asked.program and self.rounds % 5 == 0:
                self.fleet.relay(self.asked.program, self.chance)
            self.fleet.look(whole=self.rounds % 10 == 0)
            if self.rounds % 20 == 0:
                print(f"{self.rounds} rounds, {self.kills} kills", file=sys.stderr, flush=True)
        if subprocess.run([sys.executable, TOOL, *self.fleet.words("--rows", "16")], check=False).returncode:
            raise Broken("the last run did not end well")
        self.fleet.look(whole=True)
        rows = sum(map(len, self.fleet.rows.values()))
        whom = "the server" if self.is_server else "the tool"
        moved = sum(self.fleet.gone.values())
        print(f"{whom}: {self.kills} kills in {self.rounds} rounds, {rows:,} rows, {moved:,} of them moved: none lost, doubled or changed")
        for end, count in sorted(self.ends.items()):
            print(f"  {count} {end}")


def behind(told):
    """The last line that a tool said, without its numbers."""
    lines = [it for it in told.splitlines() if not it.startswith("archive: to do")]
    return re.sub(r"[\d,.]+", "N", lines[-1].split(";")[0])[:60] if lines else "nothing"


def child(step, words):
    """Runs the tool in this process, which is killed before the call of this number."""
    left = [step]

    def seen(frame, event, arg):
        name = getattr(arg, "__name__", "") if event == "c_call" else ""
        if event == "call" and "psycopg" in frame.f_code.co_filename:
            name = frame.f_code.co_name
        if name in CALLS:
            left[0] -= 1
            if left[0] == 0:
                os.kill(os.getpid(), signal.SIGKILL)

    sys.setprofile(seen)
    status = archive.main(words)
    sys.setprofile(None)
    sys.exit(status)


def steps(asked, server):
    chance, kills, step = random.Random(asked.seed), 0, 1
    while True:
        with tempfile.TemporaryDirectory(prefix="kill-archive-") as folder:
            fleet = Fleet(folder, server.dsn(), f"step-{step}", 3)
            fleet.append(chance, 120)
            words = fleet.words("--rows", str(LEAST))
            ran = subprocess.run([sys.executable, __file__, "child", str(step), *words], capture_output=True, text=True, check=False)
            if ran.returncode not in (0, -signal.SIGKILL):
                raise Broken(f"step {step}: {ran.stdout}{ran.stderr}")
            fleet.look(whole=True)
            again = subprocess.run([sys.executable, TOOL, *words], capture_output=True, text=True, check=False)
            if again.returncode:
                raise Broken(f"behind step {step}: {again.stdout}{again.stderr}")
            fleet.look(whole=True)
            if not all(fleet.gone.values()):
                raise Broken(f"behind step {step} rows stayed: {fleet.gone}")
        if ran.returncode == 0:
            each = "each" if asked.steps == 1 else f"each {asked.steps}."
            print(f"steps: {kills} kills, before {each} call of {step - 1}: none lost, doubled or changed")
            return
        kills += 1
        step += asked.steps


def words():
    asked = command_line.Words(__doc__)
    asked.add_argument("--kills", type=command_line.number, default=200, help="of the tool")
    asked.add_argument("--server", type=command_line.number, default=20, help="kills of the server")
    asked.add_argument("--steps", type=command_line.number, default=3, help="0 leaves them out")
    asked.add_argument("--rows", type=command_line.positive, default=200, help="that a round adds")
    asked.add_argument("--seed", type=int, default=1)
    asked.add_argument("--program", type=command_line.program, help="runs relay of it over the file")
    return asked.parse_args()


def main():
    asked = words()
    # So that no server is left behind where this is told to stop.
    signal.signal(signal.SIGTERM, lambda *_: sys.exit(1))
    try:
        with Server() as server:
            for kills, is_server in ((asked.kills, False), (asked.server, True)):
                with tempfile.TemporaryDirectory(prefix="kill-archive-") as folder:
                    if kills:
                        Rounds(asked, folder, server, is_server).go(kills)
            if asked.steps:
                steps(asked, server)
        return 0
    except (Broken, Stop) as broken:
        print(f"kill_archive: {broken}", file=sys.stderr)
        return 1


if __name__ == "__main__":
    if sys.argv[1:2] == ["child"]:
        child(int(sys.argv[2]), sys.argv[3:])
    command_line.run(main)
