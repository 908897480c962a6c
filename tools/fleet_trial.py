#!/usr/bin/env python3
"""Lets a fleet of terminals report to the built platform for a while, and compares what it stored with what they recorded:

    tools/fleet_trial.py PROGRAM [--minutes N] [--terminals N] [--links N] [--one-address] [--kills N] [--strangers N] [--copies N]
                         [--http ADDRESS:PORT] [--pages N]

PROGRAM is crates/dewfelt/out/dewfelt (`dewfelt serve`), or crates/jt808/out/jt808 (`platform`, up to 1,000 links in a run). Each
terminal sends a heartbeat and a unit of one position each half minute, and dials anew each ten minutes; each two minutes a fifth
of them dial anew at once. They have addresses of 127.1.0.0/16, or with --one-address all the same. First dials are spread over a
minute. With --kills the program is killed so often at random moments and started at once. --strangers are links that are not let
in, half of them of one address and half of a hundred: silent ones, garbage, half frames, a heartbeat each ten seconds, and
connects that end at once. With --copies `PROGRAM copy` makes so many copies at random moments, and each has to be sound. With --http the
service has its page there; without, it has none. --pages are so many pages that are open there: each asks for its files, and then
each two seconds for what changed, as the page in a browser does.

It prints a line a minute, and at the end: how long answers took and how long terminals that dialled were let in after (median, 99th
percentile, longest), the longest fdatasync of a file of its own beside, by how much the tool itself was late, resident memory, and
of each terminal whether the stored positions are a prefix of those that it recorded, each once and in order, and hold each accepted
one. The status is 1 where they do not, where the program's end is not, or a copy is not sound; and, without --kills, where an
answer took above 2 seconds or a terminal was let in after more than 5, at neither a stall of the disk nor one of the tool (a second
or more), or resident memory rose by 1 MB or more in the last fifteen minutes of thirty.
"""
import asyncio
import contextlib
import json
import os
import random
import re
import resource
import shutil
import signal
import socket
import sqlite3
import statistics
import subprocess
import tempfile
import threading
import time

import command_line

PLATE = bytes.fromhex("d4c1423132333435")
BEAT, UNIT, STAY, WAVE = 30, 30, 600, 120
# Seconds between two looks of a page, and its files.
LOOK, PAGE_FILES = 2, ("/", "/app.js", "/map.js", "/words.js", "/style.css", "/api/v1/server")
SPREAD = 60
ANSWER = 60
# Seconds: of an answer, until a terminal is let in, and of what counts as a stall.
LONG_WAIT, LONG_DIAL, STALL = 2, 5, 1
# Minutes, and KB: so long is memory looked at, and so much it may rise.
LAST, RISE = 15, 1000
ANSWERS = {0x0100: 0x8100, 0x0102: 0x8001, 0x0002: 0x8001, 0x0200: 0x8001}


class Lost(Exception):
    """The link is gone, or nothing was answered in time."""


class Page:
    """What a browser with the page open asks for: its files, all vehicles, and then what changed."""

    def __init__(self, trial):
        self.trial, self.cursor, self.link = trial, "", None
        self.host = trial.words.http
        with open(f"{trial.folder}/http.read.token") as file:
            self.token = file.read().strip()

    async def get(self, path):
        """The body of the answer, over a connection that stays."""
        reader, writer = self.link
        writer.write(f"GET {path} HTTP/1.1\r\nHost: {self.host}\r\nAuthorization: Bearer {self.token}\r\n\r\n".encode())
        head = (await reader.readuntil(b"\r\n\r\n")).decode()
        if not head.startswith("HTTP/1.1 200 "):
            raise SystemExit(f"{path} is answered {head.splitlines()[0]}")
        return await reader.readexactly(int(re.search(r"(?i)\r\ncontent-length: *(\d+)", head)[1]))

    async def look(self):
        more = True
        while more:
            began = time.monotonic()
            told = json.loads(await self.get(f"/api/v1/changes?since={self.cursor}"))
            self.trial.looks.note(began)
            self.cursor, more = told["cursor"], told["more"]

    async def live(self, until):
        host, _, port = self.host.rpartition(":")
        while time.monotonic() < until:
            try:
                self.link = await asyncio.open_connection(host, int(port))
                for path in PAGE_FILES:
                    await self.get(path)
                while time.monotonic() < until:
                    await self.look()
                    await asyncio.sleep(LOOK)
            except (OSError, asyncio.IncompleteReadError):
                await asyncio.sleep(1)
            if self.link:
                self.link[1].close()


def frame(message, phone, serial, body=b""):
    content = message.to_bytes(2, "big") + len(body).to_bytes(2, "big") + phone + serial.to_bytes(2, "big") + body
    check = 0
    for octet in content:
        check ^= octet
    whole = content + bytes([check])
    return b"\x7e" + whole.replace(b"\x7d", b"\x7d\x01").replace(b"\x7e", b"\x7d\x02") + b"\x7e"


def content_of(octets):
    """Message, serial and body of what stands between two flags."""
    content = octets.replace(b"\x7d\x02", b"\x7e").replace(b"\x7d\x01", b"\x7d")[:-1]
    return int.from_bytes(content[:2], "big"), content[12:]


def position(place, moment):
    """A position's 28 octets, which no other position of the phone has."""
    time_digits = bytes.fromhex(time.strftime("%y%m%d%H%M%S", time.gmtime(moment + 8 * 3600)))
    return bytes(4) + bytes([0, 0, 0, 3]) + place.to_bytes(4, "big") + bytes.fromhex("06bc3e40") + bytes(6) + time_digits


class Times:
    """What took how long, with its moment."""

    def __init__(self):
        self.all = []

    def note(self, began):
        self.all.append((began, time.monotonic() - began))

    def seconds(self):
        return sorted(it for _, it in self.all) or [0]

    def text(self):
        all = self.seconds()
        return (f"median {statistics.median(all) * 1000:.1f} ms, 99th percentile {all[len(all) * 99 // 100] * 1000:.1f} ms,"
                f" longest {all[-1]:.2f} s")

    def above(self, limit):
        return [(began, it) for began, it in self.all if it > limit]

    def overlaps(self, began, seconds):
        return any(one < began + seconds and began < one + it for one, it in self.all)


class Terminal:
    def __init__(self, number, trial):
        self.trial = trial
        self.phone = bytes.fromhex(f"{13900000000 + number:012d}")
        self.name = b"%07d" % number
        self.plate = PLATE[:2] + b"%06d" % number
        self.address = "127.0.0.1" if trial.words.one_address else f"127.1.{number // 250}.{number % 250 + 1}"
        self.code = None
        self.serial = 0
        self.recorded, self.accepted, self.units = [], 0, []
        self.link = None
        self.dialled = None
        self.is_cut = asyncio.Event()

    async def open(self):
        reader, writer = await asyncio.wait_for(
            asyncio.open_connection("127.0.0.1", self.trial.port, local_addr=(self.address, 0)), ANSWER)
        self.link = reader, writer

    def close(self):
        if self.link:
            self.link[1].close()
            self.link = None

    async def ask(self, message, body=b"", serial=None):
        """The body of the answer. The time that it took is kept, but while the program is killed now and then."""
        if serial is None:
            serial = self.serial = (self.serial + 1) % 65536
        if not self.link:
            raise Lost
        reader, writer = self.link
        began = time.monotonic()
        writer.write(frame(message, self.phone, serial, body))
        while True:
            octets = await asyncio.wait_for(reader.readuntil(b"\x7e"), ANSWER)
            octets = octets.strip(b"\x7e")
            if not octets:
                continue
            answer, body = content_of(octets)
            if answer == ANSWERS[message] and body[:2] == serial.to_bytes(2, "big"):
                self.trial.waits.note(began)
                if message == 0x0200:
                    self.trial.units.note(began)
                return body

    async def log_in(self):
        if self.code is None:
            body = bytes(4) + b"MAKER" + b"MODEL".ljust(20, b"\0") + self.name + b"\x01" + self.plate
            answer = await self.ask(0x0100, body)
            if answer[2] != 0:
                raise SystemExit(f"registration of {self.phone.hex()} is answered {answer[2]}")
            self.code = answer[3:]
        if (await self.ask(0x0102, self.code))[4] != 0:
            raise Lost
        self.trial.let_in.note(self.dialled)
        self.dialled = None

    def record(self):
        body = position(len(self.recorded), time.time())
        self.recorded.append(body)
        self.serial = (self.serial + 1) % 65536
        self.units.append((self.serial, body))

    async def report(self):
        """All units that are not accepted, in order."""
        while self.units:
            serial, body = self.units[0]
            if (await self.ask(0x0200, body, serial))[4] != 0:
                raise Lost
            self.units.pop(0)
            self.accepted += 1

    def cut(self):
        self.close()
        self.is_cut.set()

    async def rest(self, seconds):
        """Waits so long, or until the link is cut, which it tells by Lost."""
        with contextlib.suppress(asyncio.TimeoutError):
            await asyncio.wait_for(self.is_cut.wait(), max(0.05, seconds))
            raise Lost

    async def attempt(self, until):
        self.is_cut.clear()
        if self.dialled is None:
            self.dialled = time.monotonic()
        await self.open()
        await self.log_in()
        await self.report()
        leave = time.monotonic() + random.uniform(0.9, 1.1) * STAY
        beat = time.monotonic() + random.uniform(0, BEAT)
        while time.monotonic() < min(until, leave):
            await self.rest(min(beat, self.next_unit, leave, until) - time.monotonic())
            if not self.link or self.link[0].at_eof():
                raise Lost
            if time.monotonic() >= self.next_unit:
                self.next_unit += UNIT
                self.record()
                await self.report()
            if time.monotonic() >= beat:
                beat += BEAT
                await self.ask(0x0002)

    async def live(self, until):
        self.next_unit = time.monotonic() + random.uniform(0, UNIT)
        await asyncio.sleep(random.uniform(0, min(SPREAD, self.trial.words.minutes * 20)))
        while time.monotonic() < until:
            dialled = time.monotonic()
            try:
                await self.attempt(until)
            except (Lost, OSError, asyncio.TimeoutError, asyncio.IncompleteReadError):
                if not self.is_cut.is_set():
                    self.trial.losses += 1
            self.close()
            await asyncio.sleep(random.uniform(0.1, 0.3) if time.monotonic() - dialled > 1 else 1)
        while self.units and time.monotonic() < until + 60:
            try:
                if self.dialled is None:
                    self.dialled = time.monotonic()
                await self.open()
                await self.log_in()
                await self.report()
            except (Lost, OSError, asyncio.TimeoutError, asyncio.IncompleteReadError):
                await asyncio.sleep(1)
            self.close()


class Program:
    """The program over a folder, which goes on where it was killed."""

    def __init__(self, path, folder, port, links, http):
        self.path, self.folder, self.port, self.links, self.http = path, folder, port, links, http
        self.is_service = os.path.basename(path) != "jt808"
        self.log = open(f"{folder}/log", "ab")
        self.start()

    def start(self):
        if self.is_service:
            words = [self.path, "serve", self.folder, "--listen", f"127.0.0.1:{self.port}", "--links", str(self.links),
                     "--http", self.http, "--until-input-ends"]
            given = subprocess.PIPE
        else:
            words = [self.path, "platform", "--port", str(self.port), "--sessions", "1024"]
            given = open(f"{self.folder}/fleet", "rb")
        self.run = subprocess.Popen(words, cwd=self.folder, stdin=given, stdout=self.log, stderr=self.log)
        self.wait_for_listener()

    def wait_for_listener(self):
        """The listener is there once a connection is taken; a program of 1,024 connections has then one fewer."""
        for _ in range(600):
            if self.run.poll() is not None:
                raise SystemExit(f"the program ended with status {self.run.returncode}: see {self.folder}/log")
            with socket.socket() as one:
                if one.connect_ex(("127.0.0.1", self.port)) == 0:
                    return
            time.sleep(0.05)
        raise SystemExit("the program does not listen")

    def memory(self):
        """Resident memory in KB; nothing in the moment in which the program is killed."""
        try:
            found = re.search(r"VmRSS:\s+(\d+)", open(f"/proc/{self.run.pid}/status").read())
        except OSError:
            return None
        return int(found[1]) if found else None

    def kill(self):
        self.run.send_signal(signal.SIGKILL)
        self.run.wait()
        self.start()

    def end(self):
        """Ends the program. The status of the command `stop`, or that of the service, where one is not 0."""
        status = subprocess.run([self.path, "stop", self.folder]).returncode if self.is_service else 0
        if status or not self.is_service:
            self.run.kill()
            self.run.wait()
            return status
        return self.run.wait(30)


class Trial:
    def __init__(self, words):
        self.words = words
        self.folder = tempfile.mkdtemp(prefix="fleet-")
        with socket.socket() as one:
            one.bind(("127.0.0.1", 0))
            self.port = one.getsockname()[1]
        self.terminals = [Terminal(number, self) for number in range(1, words.terminals + 1)]
        self.waits, self.units, self.let_in, self.looks, self.syncs, self.lates = (Times() for _ in range(6))
        self.losses, self.kills, self.memories, self.copies, self.faults = 0, 0, [], 0, []
        self.write_fleet()

    def write_fleet(self):
        with open(f"{self.folder}/fleet", "w") as file:
            print("secret 6578616d706c65", file=file)
            for terminal in self.terminals:
                print("plate", terminal.plate.hex(), file=file)
                print("terminal", terminal.name.hex(), file=file)

    def time_syncs(self):
        """An fdatasync each second, beside the program's own."""
        with open(f"{self.folder}/sync", "wb") as file:
            while not self.ended:
                began = time.monotonic()
                file.write(bytes(4096))
                file.flush()
                os.fdatasync(file.fileno())
                self.syncs.note(began)
                time.sleep(0.2 if self.syncs.all[-1][1] > STALL else 1)

    async def time_itself(self, until):
        """By how much the tool is late itself."""
        while time.monotonic() < until:
            began = time.monotonic()
            await asyncio.sleep(0.1)
            self.lates.all.append((began, time.monotonic() - began - 0.1))

    async def wave(self, until):
        while time.monotonic() < until:
            await asyncio.sleep(WAVE)
            for terminal in random.sample(self.terminals, len(self.terminals) // 5):
                terminal.cut()

    async def kill(self, until):
        moments = sorted(random.uniform(10, until - time.monotonic() - 10) for _ in range(self.words.kills))
        began = time.monotonic()
        for moment in moments:
            await asyncio.sleep(max(0, began + moment - time.monotonic()))
            await asyncio.to_thread(self.program.kill)
            self.kills += 1

    async def stranger(self, number, until):
        """A link that is never let in, of one kind of five; anew where it ended."""
        address = "127.2.0.1" if number % 2 else f"127.2.1.{number // 2 % 100 + 1}"
        while time.monotonic() < until:
            try:
                reader, writer = await asyncio.open_connection("127.0.0.1", self.port, local_addr=(address, 0))
                await self.disturb(number % 5, writer, until)
                writer.close()
            except OSError:
                pass
            await asyncio.sleep(0.1 if number % 5 == 4 else 1)

    async def disturb(self, kind, writer, until):
        """Nothing, garbage, half a frame or a heartbeat each ten seconds, or an end at once."""
        phone = bytes.fromhex("013800000000")
        for turn in range(30):
            if kind == 4 or time.monotonic() > until or writer.transport.is_closing():
                return
            if kind == 1:
                writer.write(random.randbytes(200))
            if kind == 2:
                writer.write(frame(0x0200, phone, turn, bytes(28))[:-9])
            if kind == 3:
                writer.write(frame(0x0002, phone, turn))
            await asyncio.sleep(10)

    async def copy(self, until):
        for number in range(self.words.copies):
            await asyncio.sleep((until - time.monotonic()) / (self.words.copies - number) * random.uniform(0.5, 1))
            accepted = [it.accepted for it in self.terminals]
            file = f"{self.folder}/copy-{number}.db"
            ran = await asyncio.create_subprocess_exec(self.program.path, "copy", self.folder, file)
            if await ran.wait() != 0:
                self.faults.append(f"a copy ended with status {ran.returncode}")
                continue
            self.faults += await asyncio.to_thread(self.wrong_in, file, accepted)
            self.copies += 1
            os.remove(file)

    async def tell(self, began, until):
        while time.monotonic() < until:
            await asyncio.sleep(60)
            memory = self.program.memory()
            if memory is not None:
                self.memories.append(memory)
            print(f"{(time.monotonic() - began) / 60:.0f} min: {sum(len(it.recorded) for it in self.terminals)} recorded,"
                  f" {sum(it.accepted for it in self.terminals)} accepted, {len(self.let_in.all)} let in, {self.losses} links lost,"
                  f" {self.kills} kills, {self.copies} copies; answers: {self.waits.text()}; {memory} KB", flush=True)

    async def run(self):
        began = time.monotonic()
        until = began + 60 * self.words.minutes
        tasks = [terminal.live(until) for terminal in self.terminals]
        tasks += [self.stranger(number, until) for number in range(self.words.strangers)]
        tasks += [self.wave(until), self.tell(began, until), self.time_itself(until)]
        if self.words.kills:
            tasks.append(self.kill(until))
        if self.words.copies:
            tasks.append(self.copy(until))
        tasks += [Page(self).live(until) for _ in range(self.words.pages)]
        await asyncio.gather(*tasks)

    def stored(self, file):
        rows = {}
        base = sqlite3.connect(file)
        for phone, message, body in base.execute("SELECT phone, id, body FROM rows808 ORDER BY phone, number"):
            if message != 0x0200:
                raise SystemExit(f"a row of message {message:04x}")
            rows.setdefault(bytes(phone)[-6:], []).append(bytes(body))
        sound = base.execute("PRAGMA integrity_check").fetchone()[0]
        base.close()
        return rows, sound

    def wrong_in(self, file, accepted):
        """What is wrong with the rows of a file that has at least as many of each terminal as were accepted."""
        rows, sound = self.stored(file)
        wrong = [] if sound == "ok" else [f"{file}: {sound}"]
        for terminal, least in zip(self.terminals, accepted):
            stored = rows.pop(terminal.phone, [])
            if stored != terminal.recorded[:len(stored)] or len(stored) < least:
                wrong.append(f"{file}: {terminal.phone.hex()}: {len(terminal.recorded)} recorded, {least} accepted,"
                             f" {len(stored)} stored")
        return wrong + [f"{file}: rows of {phone.hex()}, which no terminal has" for phone in rows]

    def unexplained(self, times, limit):
        """How often something took too long at neither a stall of the disk nor one of the tool."""
        stalls = Times()
        stalls.all = self.syncs.above(STALL) + self.lates.above(STALL)
        return sum(not stalls.overlaps(began, it) for began, it in times.above(limit))

    def sum_up(self):
        print(f"{len(self.waits.all)} answers: {self.waits.text()}; above {LONG_WAIT} s: {len(self.waits.above(LONG_WAIT))}, at no"
              f" stall: {self.unexplained(self.waits, LONG_WAIT)}")
        print(f"{len(self.units.all)} units: {self.units.text()}")
        if self.words.pages:
            print(f"{len(self.looks.all)} looks of {self.words.pages} pages: {self.looks.text()}")
        print(f"{len(self.let_in.all)} times a terminal that dialled was let in: {self.let_in.text()}; above {LONG_DIAL} s:"
              f" {len(self.let_in.above(LONG_DIAL))}, at no stall: {self.unexplained(self.let_in, LONG_DIAL)}")
        print(f"fdatasync beside: {self.syncs.text()}; the tool was late: {self.lates.text()}")
        memories = self.memories or [0]
        last = memories[-LAST - 1:]
        print(f"resident memory: {memories[0]} KB after a minute, {last[0]} KB {len(last) - 1} minutes before the end, {last[-1]} KB"
              f" at the end")
        print(f"{self.kills} kills, {self.copies} sound copies, {self.losses} links lost, {len(self.terminals)} terminals")
        if not self.words.kills:
            for times, limit, what in ((self.waits, LONG_WAIT, "answer"), (self.let_in, LONG_DIAL, "let in")):
                if self.unexplained(times, limit):
                    self.faults.append(f"{what}: above {limit} s, at no stall")
            if len(memories) >= 2 * LAST - 1 and last[-1] - last[0] >= RISE:
                self.faults.append(f"resident memory rose by {last[-1] - last[0]} KB")

    def go(self):
        self.ended = False
        self.program = Program(os.path.abspath(self.words.program), self.folder, self.port, self.words.links,
                               self.words.http)
        timer = threading.Thread(target=self.time_syncs)
        timer.start()
        try:
            asyncio.run(self.run())
        finally:
            self.ended = True
            timer.join()
            began = time.monotonic()
            status = self.program.end()
        print(f"the program ended with status {status}, {time.monotonic() - began:.1f} s after it was asked to")
        if status:
            self.faults.append(f"status {status}")
        self.faults += self.wrong_in(f"{self.folder}/platform.db", [it.accepted for it in self.terminals])
        self.sum_up()
        for fault in self.faults:
            print(f"WRONG: {fault}")
        if self.faults:
            print(f"the files are in {self.folder}")
            return 1
        shutil.rmtree(self.folder)
        print("all is as it has to be")
        return 0


def main():
    words = command_line.Words(__doc__)
    words.add_argument("program", metavar="PROGRAM", type=command_line.program)
    words.add_argument("--minutes", type=float, default=30)
    words.add_argument("--terminals", type=command_line.positive, default=1000)
    words.add_argument("--links", type=command_line.positive, default=2000)
    words.add_argument("--kills", type=command_line.number, default=0)
    words.add_argument("--strangers", type=command_line.number, default=0)
    words.add_argument("--copies", type=command_line.number, default=0)
    words.add_argument("--http", default="none")
    words.add_argument("--pages", type=command_line.number, default=0)
    words.add_argument("--one-address", action="store_true")
    resource.setrlimit(resource.RLIMIT_NOFILE, (8192, min(65536, resource.getrlimit(resource.RLIMIT_NOFILE)[1])))
    given = words.parse_args()
    if given.pages and given.http == "none":
        words.error("--pages wants --http ADDRESS:PORT")
    return Trial(given).go()


if __name__ == "__main__":
    command_line.run(main)
