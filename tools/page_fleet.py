"""A fleet for the trials of the page: lorries with a day behind them that ends now, of which some go on reporting to a platform.

The days are made of samples/day.fixes: each lorry has it turned and shifted to another road, begun at another hour, with directions
and a mileage computed from its way.
"""
import asyncio
import contextlib
import math
import os
import random
import struct
import sys
import time

sys.dont_write_bytecode = True
from fleet_trial import ANSWERS, content_of, frame  # noqa: E402
from test_positions import batch  # noqa: E402

TOP = os.path.dirname(os.path.dirname(os.path.realpath(__file__)))
FIXED = struct.Struct(">IIIIHHH6s")
# Where the roads begin: degrees north, degrees east.
PLACES = ((22.5431, 114.0579), (23.1291, 113.2644), (22.2710, 113.5770), (23.0215, 113.1214), (23.0207, 113.7518), (22.5176, 113.3926))
PROVINCES, LETTERS = "粤粤粤粤湘桂赣闽", "ABCDEFGHJKLMNPQRSTUVWXYZ"
FLAT = math.cos(math.radians(22.5))
APART, BATCH, FIRST = 30, 10, 2
ANSWER = 60
SECRET = "secret 6578616d706c65\n"


def sample():
    """Latitude, longitude and speed of each fix of the sample."""
    with open(f"{TOP}/samples/day.fixes") as file:
        fixes = [FIXED.unpack(bytes.fromhex(line)[:28]) for line in file if line.strip() and line[0] != "#"]
    return [(it[2] / 1e6, it[3] / 1e6, it[5]) for it in fixes]


class Lorry:
    def __init__(self, number, day):
        self.number = number
        self.phone = f"0139{12345678 + 1111 * number:08d}"
        self.plate = f"{PROVINCES[number % 8]}{LETTERS[number * 5 % 24]}{LETTERS[number * 7 % 24]}{(10007 * (number + 3)) % 10000:04d}"
        self.terminal = f"T{number:06d}"
        self.way = self.turned(day)
        self.mileage = 120_000 + 7919 * number
        self.code = None
        self.serial = 0

    def turned(self, day):
        north, east = PLACES[self.number % len(PLACES)]
        north += 0.05 * math.sin(7.1 * self.number)
        east += 0.07 * math.cos(3.3 * self.number)
        angle, size = self.number * 2.399, 0.35 + 0.06 * (self.number % 7)
        drives = [at for at, (_, _, speed) in enumerate(day) if speed]
        # Each third stands now, at the end of its way.
        begin = 0 if self.number % 3 == 2 else drives[self.number * 97 % len(drives)]
        way = []
        for latitude, longitude, speed in day[begin:] + day[:begin]:
            dy, dx = latitude - day[0][0], (longitude - day[0][1]) * FLAT
            y = size * (dy * math.cos(angle) - dx * math.sin(angle))
            x = size * (dy * math.sin(angle) + dx * math.cos(angle)) / FLAT
            way.append((north + y, east + x, round(speed * size * 2)))
        return way

    def fix(self, at, moment):
        """The octets of the fix at a place of its way, which goes round, at a moment."""
        (y0, x0, _), (y, x, speed) = self.way[(at - 1) % len(self.way)], self.way[at % len(self.way)]
        heading = round(math.degrees(math.atan2((x - x0) * FLAT, y - y0))) % 360
        self.mileage += round(1113.2 * math.hypot(y - y0, (x - x0) * FLAT))
        clock = bytes.fromhex(time.strftime("%y%m%d%H%M%S", time.gmtime(moment + 8 * 3600)))
        alarm = 1 if self.number == 3 and at % len(self.way) == 0 else 0
        fixed = FIXED.pack(alarm, 2 | (1 if speed else 0), round(y * 1e6), round(x * 1e6), 12 + (self.number * 13 + at // 50) % 60, speed, heading, clock)
        items = struct.pack(">BBI", 1, 4, self.mileage) + bytes([0x30, 1, 18 + (self.number + at) % 13, 0x31, 1, 8 + (self.number * 3 + at // 7) % 9])
        return fixed + items

    def rows(self, now, last):
        """Rows of batches: the day up to a moment, and so many fixes behind it."""
        count = len(self.way)
        fixes = [self.fix(at, now + APART * (at - count) + self.number % 29) for at in range(count + 1 + last)]
        parts = [fixes[at : at + BATCH] for at in range(0, len(fixes), BATCH)]
        return [(bytes.fromhex("00000000" + self.phone), FIRST + at, 0x0704, batch(part, kind=0)) for at, part in enumerate(parts)]

    def registered(self):
        return bytes.fromhex("00000000" + self.phone), self.plate.encode("gbk"), self.terminal.encode()

    def fleet_line(self):
        return f'vehicle "{self.plate}" "{self.terminal}" {self.phone}\n'


class Follower:
    """A vehicle somewhere beside a lorry's way, with one fix."""

    def __init__(self, number, lorry):
        chance = random.Random(number)
        self.number, self.lorry = number, lorry
        self.phone = f"0138{20000000 + number:08d}"
        self.plate = f"{PROVINCES[number % 8]}{LETTERS[number // 8 % 24]}{LETTERS[number % 24]}{number % 10000:04d}"
        self.terminal = f"S{number:06d}"
        self.at, self.north, self.east = chance.randrange(len(lorry.way)), chance.gauss(0, 0.9), chance.gauss(0, 1.3)
        self.late = chance.randrange(30 if number % 5 else 900)

    registered, fleet_line = Lorry.registered, Lorry.fleet_line

    def rows(self, now, _):
        octets = bytearray(self.lorry.fix(self.at, now - self.late))
        latitude, longitude = struct.unpack_from(">II", octets, 8)
        struct.pack_into(">II", octets, 8, latitude + round(self.north * 1e6), longitude + round(self.east * 1e6))
        return [(bytes.fromhex("00000000" + self.phone), FIRST, 0x0200, bytes(octets))]


class Link:
    """A terminal's link, by which it asks."""

    def __init__(self, phone, port):
        self.phone, self.port = bytes.fromhex(phone), port

    async def __aenter__(self):
        self.reader, self.writer = await asyncio.wait_for(asyncio.open_connection("127.0.0.1", self.port), ANSWER)
        return self

    async def __aexit__(self, *_):
        self.writer.close()

    async def ask(self, message, serial, body):
        """The body of the answer."""
        self.writer.write(frame(message, self.phone, serial, body))
        while True:
            octets = (await asyncio.wait_for(self.reader.readuntil(b"\x7e"), ANSWER)).strip(b"\x7e")
            if octets:
                answer, body = content_of(octets)
                if answer == ANSWERS[message] and body[:2] == serial.to_bytes(2, "big"):
                    return body


def registration(terminal, plate):
    return bytes(4) + b"MAKER" + b"MODEL".ljust(20, b"\0") + terminal.encode() + b"\x01" + plate.encode("gbk")


class Reporting:
    """Lorries that report to a port: all but those that never come again, of which some leave after their first fix."""

    LOST = (OSError, asyncio.TimeoutError, asyncio.IncompleteReadError)

    def __init__(self, lorries, port, pace=APART):
        self.lorries, self.port, self.pace = lorries, port, pace

    async def report(self, link, lorry, at):
        lorry.serial += 1
        await link.ask(0x0200, lorry.serial, lorry.fix(at, time.time()))

    async def attempt(self, lorry):
        async with Link(lorry.phone, self.port) as link:
            if lorry.code is None:
                lorry.code = (await link.ask(0x0100, 0, registration(lorry.terminal, lorry.plate)))[3:]
            await link.ask(0x0102, 1, lorry.code)
            await self.report(link, lorry, lorry.at)
            while not self.leaves(lorry):
                await asyncio.sleep(self.pace)
                lorry.at += 1
                await self.report(link, lorry, lorry.at)

    @staticmethod
    def leaves(lorry):
        return lorry.number % 8 == 5

    async def live(self, lorry):
        lorry.at = len(lorry.way) + 1
        lorry.serial = FIRST + len(lorry.way) // BATCH + 1
        await asyncio.sleep(random.uniform(0, min(10, self.pace)))
        while True:
            with contextlib.suppress(*self.LOST):
                await self.attempt(lorry)
                return
            await asyncio.sleep(1)

    async def stranger(self):
        """A terminal that is in no line of the fleet, and tries again and again."""
        while True:
            with contextlib.suppress(*self.LOST):
                async with Link("013800138000", self.port) as link:
                    await link.ask(0x0100, 0, registration("Z900001", "粤B99999"))
            await asyncio.sleep(20)

    async def run(self):
        with contextlib.suppress(asyncio.CancelledError):
            await asyncio.gather(self.stranger(), *(self.live(it) for it in self.lorries if it.number % 12 != 7))
