#!/usr/bin/env python3
"""Makes the samples that are not written by hand: samples/day.fixes, samples/day.script and samples/mixed.bin.

    tools/make_samples.py [FOLDER]

`day.fixes` is a day of one lorry, 2,880 fixes half a minute apart, as `jt808 report` reads them: round the Pearl River, with
three stays. `day.script` is a day as `jt808 rehearse` plays it: 2,880 fixes half a minute apart, with a beat behind each tenth,
and ten minutes without a line. `mixed.bin` is a stream of frames of both editions with octets between them that are refused. All
are the same at each run. FOLDER is samples/ of this repository where it is missing.
"""
import datetime
import functools
import math
import operator
import os
import struct
import sys

HERE = os.path.dirname(os.path.realpath(__file__))
sys.path.insert(0, HERE)
sys.dont_write_bytecode = True
import command_line  # noqa: E402
import fix  # noqa: E402

# ---- a day

# Places of the road, in degrees: latitude and longitude.
ROAD = [
    (22.5431, 114.0579), (22.5560, 113.9890), (22.5840, 113.8800), (22.6700, 113.8230), (22.7650, 113.8060),
    (22.8300, 113.7000), (22.9400, 113.6450), (23.0300, 113.5300), (23.0900, 113.4200), (23.1200, 113.3300),
    (23.1290, 113.2640), (23.0800, 113.1900), (23.0220, 113.1210), (22.9200, 113.1500), (22.8000, 113.2200),
    (22.6600, 113.3000), (22.5170, 113.3930), (22.4200, 113.4600), (22.3300, 113.5100), (22.2710, 113.5770),
    (22.3600, 113.5500), (22.4600, 113.5300), (22.5400, 113.5400), (22.5650, 113.6300), (22.5720, 113.7500),
    (22.5900, 113.8600), (22.5560, 113.9890), (22.5431, 114.0579),
]
BEGIN, STEP, COUNT = datetime.datetime(2026, 11, 28), datetime.timedelta(seconds=30), 2880
# When the lorry drives, in hours of the day: from, to.
DRIVES = [(6.0, 8.0), (9.5, 11.0), (13.75, 15.0), (17.5, 18.75)]
EARTH = 6371.0


def curve(a, b, c, d, t):
    """A point between b and c on a smooth line through all four (Catmull-Rom)."""
    return 0.5 * (2 * b + (c - a) * t + (2 * a - 5 * b + 4 * c - d) * t**2 + (3 * b - a - 3 * c + d) * t**3)


def road():
    """The road as many short straight pieces."""
    ends = [ROAD[0], *ROAD, ROAD[-1]]
    for at in range(len(ROAD) - 1):
        for part in range(100):
            yield tuple(curve(*(ends[at + k][axis] for k in range(4)), part / 100) for axis in (0, 1))
    yield ROAD[-1]


def distance(a, b):
    """Kilometres between two near places."""
    north, east = math.radians(b[0] - a[0]), math.radians(b[1] - a[1]) * math.cos(math.radians(a[0]))
    return EARTH * math.hypot(north, east)


def pace(hour):
    """How fast the lorry goes beside its mean pace: nothing in a stay, slower near its ends, and never quite even."""
    for begin, end in DRIVES:
        if begin < hour < end:
            near = min(hour - begin, end - hour)
            return min(1.0, 0.15 + 4 * near) * (1 + 0.18 * math.sin(41 * hour) + 0.09 * math.sin(173 * hour))
    return 0.0


def day():
    """Each fix of the day: time, latitude, longitude, speed in km/h."""
    line = list(road())
    along = [0.0]
    for a, b in zip(line, line[1:]):
        along.append(along[-1] + distance(a, b))
    paces = [pace(24 * at / COUNT) for at in range(COUNT)]
    hours = STEP.total_seconds() / 3600
    mean = along[-1] / (sum(paces) * hours)
    gone, piece = 0.0, 0
    for at, part in enumerate(paces):
        while piece < len(line) - 2 and along[piece + 1] < gone:
            piece += 1
        share = (gone - along[piece]) / (along[piece + 1] - along[piece])
        latitude, longitude = (a + (b - a) * share for a, b in zip(line[piece], line[piece + 1]))
        yield BEGIN + at * STEP, latitude, longitude, mean * part
        gone = min(gone + mean * part * hours, along[-1])


def day_lines():
    names = fix.COLUMNS
    for time, latitude, longitude, speed in day():
        row = dict(zip(names, (time.isoformat(), f"{latitude:.6f}", f"{longitude:.6f}", f"{speed:.1f}")))
        yield fix.fix(row).hex() + "\n"


# ---- a day as a script

# The fixes of the break, in which there is no line.
BREAK = range(1000, 1020)


def half_minute(at):
    """The lines of a fix of 40 octets, with an odometer, a signal and satellites, on 5 March 2024."""
    time = datetime.datetime(2024, 3, 5) + at * STEP
    fixed = struct.pack(">5I2H", 0, 3, 20_000_000 + at, 113_000_000, 10 << 16 | 600, 90, 0)[:22]
    items = struct.pack(">2BI", 1, 4, at) + bytes([0x30, 1, 25, 0x31, 1, 9])
    yield f"raw {fixed.hex()}{time:%y%m%d%H%M%S}{items.hex()}\n"
    yield from ("tick 30000\n", "run\n")


def script_lines():
    yield from ("open\n", "run\n")
    for at in range(COUNT):
        if at == BREAK.start:
            yield from ("lost\n", "cut 1\n")
        if at == BREAK.stop:
            yield from ("open\n", "run\n")
        yield from half_minute(at)
        if at not in BREAK and at % 10 == 9:
            yield from ("beat 1\n", "run\n")


# ---- frames


def content(edition, message, serial, body, attributes=0, packet=b""):
    """Header and body of a message of the phone 13912345678, and the check octet."""
    is_2019 = edition == 2019
    length = len(body) | attributes | (0x4000 if is_2019 else 0) | (0x2000 if packet else 0)
    phone = bytes.fromhex("00000000013912345678" if is_2019 else "013912345678")
    octets = struct.pack(">HH", message, length) + (b"\x01" if is_2019 else b"") + phone + struct.pack(">H", serial)
    octets += packet + body
    return octets + bytes([functools.reduce(operator.xor, octets)])


def framed(octets):
    return b"\x7e" + octets.replace(b"\x7d", b"\x7d\x01").replace(b"\x7e", b"\x7d\x02") + b"\x7e"


def frame(*words, **more):
    return framed(content(*words, **more))


PLATE = "粤B12345".encode("gbk")


def register(edition):
    sizes = (5, 20, 7) if edition == 2013 else (11, 30, 30)
    maker, model, terminal = (it.ljust(size, b"\0") for it, size in zip((b"DEWFE", b"LORRY", b"1234567"), sizes))
    return struct.pack(">HH", 44, 300) + maker + model + terminal + b"\x01" + PLATE


def position(latitude, longitude, speed, time, items=""):
    return fix.FIXED.pack(0, 3, latitude, longitude, 12, speed, 90, bytes.fromhex(time)) + bytes.fromhex(items)


HERE_NOW = position(22_543_096, 114_057_865, 605, "261128063000", "010400000fa0" "300119")
LATER = position(22_543_196, 114_058_865, 610, "261128063030")


def mixed():
    batch = struct.pack(">HB", 2, 1) + b"".join(struct.pack(">H", len(it)) + it for it in (HERE_NOW, LATER))
    code = b"0123456789abcdef"
    spoilt = bytearray(frame(2013, 0x0002, 7, b""))
    spoilt[-2] ^= 1
    yield frame(2013, 0x0100, 0, register(2013))
    yield frame(2013, 0x8100, 0, b"\0\0\0" + code)
    yield frame(2013, 0x0102, 1, code)
    yield frame(2013, 0x8001, 1, bytes.fromhex("0001010200"))
    yield frame(2013, 0x0200, 2, HERE_NOW)
    yield frame(2013, 0x0704, 3, batch)
    yield frame(2013, 0x8103, 2, bytes.fromhex("02" "00000001" "04" "0000001e" "00000029" "04" "0000000a"))
    yield frame(2013, 0x8300, 3, b"\x08" + "慢行".encode("gbk"))
    # a body with both octets that are escaped
    yield frame(2013, 0x0F00, 4, bytes.fromhex("307e087d55"))
    yield frame(2013, 0x0104, 5, bytes.fromhex("0007"), packet=bytes.fromhex("00030001"))
    yield frame(2019, 0x0100, 0, register(2019))
    yield frame(2019, 0x0102, 1, bytes([len(code)]) + code + bytes(15) + bytes(20))
    yield frame(2019, 0x0200, 2, HERE_NOW)
    yield frame(2019, 0x0002, 3, b"")
    # from here on something is refused
    yield b"stray"
    yield bytes(spoilt)
    yield b"\x7e" + frame(2013, 0x0002, 8, b"")
    yield frame(2013, 0x0200, 9, HERE_NOW[:20])
    yield frame(2019, 0x8100, 1, b"\0\0\2" + code)
    yield frame(2013, 0x0002, 10, b"", attributes=0x0400)
    yield framed(content(2013, 0x0002, 11, b"")[:8])
    yield b"\x7e\x7d\x03rest\x7e"
    yield frame(2013, 0x0002, 12, b"")
    yield frame(2013, 0x0002, 13, b"")[:6]


def main():
    asked = command_line.Words(__doc__)
    asked.add_argument("folder", metavar="FOLDER", nargs="?", type=command_line.folder, default=f"{command_line.ROOT}/samples")
    folder = asked.parse_args().folder
    with open(f"{folder}/day.fixes", "w", encoding="ascii") as to:
        to.writelines(day_lines())
    with open(f"{folder}/day.script", "w", encoding="ascii") as to:
        to.writelines(script_lines())
    with open(f"{folder}/mixed.bin", "wb") as to:
        to.writelines(mixed())
    return 0


if __name__ == "__main__":
    command_line.run(main)
