#!/usr/bin/env python3
"""Tests of tools/positions.py, by hand: tools/test_positions.py. It needs sqlite3 of Python alone, and where the program jt808 is
built (or the variable JT808 names it) it also compares the numbers with `jt808 view` of frames with the same bodies.
"""
import contextlib
import fcntl
import functools
import http.server
import io
import json
import operator
import os
import re
import sqlite3
import struct
import subprocess
import sys
import tempfile
import threading
import unittest

HERE = os.path.dirname(os.path.realpath(__file__))
sys.path.insert(0, HERE)
sys.dont_write_bytecode = True
import position_drawing  # noqa: E402
import positions  # noqa: E402

PROGRAM = os.environ.get("JT808", f"{os.path.dirname(HERE)}/crates/jt808/out/jt808")
PHONE = "00000000013912345678"
OTHER = "12345678901234567890"
MAKE = """CREATE TABLE meta (version INTEGER); INSERT INTO meta (version) VALUES (2);
CREATE TABLE registered (phone BLOB PRIMARY KEY, plate BLOB UNIQUE, terminal BLOB UNIQUE);
CREATE TABLE rows808 (phone BLOB, number INTEGER, id INTEGER, body BLOB, PRIMARY KEY (phone, number))"""


def fix(status=3, latitude=20_000_000, longitude=113_000_000, altitude=10, speed=600, direction=90, time="240305000030", items="", alarm=0):
    fixed = struct.pack(">IIIIHHH", alarm, status, latitude, longitude, altitude, speed, direction)
    return fixed + bytes.fromhex(time) + bytes.fromhex(items)


def batch(fixes, kind=1):
    return struct.pack(">HB", len(fixes), kind) + b"".join(struct.pack(">H", len(it)) + it for it in fixes)


# Fixes of one message each, and two of one message.
FIXES = [
    fix(items="0104000000f5"),
    fix(status=0x0F, latitude=33_856_784, longitude=151_215_297, altitude=0, speed=0, time="991231235959"),
    fix(latitude=1, longitude=2, altitude=65_535, speed=65_535, direction=359, time="240230000000", items="01030000ff300119"),
    fix(latitude=22_543_096, longitude=114_057_865, items="3001190104ffffffff3101090104000004d2"),
]
ROWS = [(0x0200, FIXES[0]), (0x0200, FIXES[1]), (0x0704, batch(FIXES[2:]))]


def make(path, rows):
    with contextlib.closing(sqlite3.connect(path)) as base:
        base.executescript(MAKE)
        base.executemany("INSERT INTO rows808 VALUES (?, ?, ?, ?)", rows)
        base.commit()


def rows_of(phone, first=2):
    return [(bytes.fromhex(phone), first + at, *row) for at, row in enumerate(ROWS)]


def run(*arguments):
    ran = subprocess.run([f"{HERE}/positions.py", *arguments], capture_output=True, text=True)
    return ran.returncode, ran.stdout, ran.stderr


@contextlib.contextmanager
def service(vehicles):
    """A service that answers with these vehicles. Gives its address, and what was asked of it with which token."""
    asked = []

    class Answers(http.server.BaseHTTPRequestHandler):
        def do_GET(self):
            asked.append((self.path, self.headers["Authorization"]))
            body = json.dumps({"vehicles": vehicles, "next": None}).encode()
            self.send_response(200)
            self.send_header("Content-Length", str(len(body)))
            self.end_headers()
            self.wfile.write(body)

        def log_message(self, *_):
            pass

    with http.server.HTTPServer(("127.0.0.1", 0), Answers) as server:
        thread = threading.Thread(target=server.serve_forever)
        thread.start()
        try:
            yield f"127.0.0.1:{server.server_port}", asked
        finally:
            server.shutdown()
            thread.join()


def frame(phone, edition, serial, message, body):
    """A frame of 2013 or 2019 with this body."""
    length = len(body) | (0x4000 if edition == 2019 else 0)
    version = b"\x01" if edition == 2019 else b""
    octets = bytes.fromhex(phone)[0 if edition == 2019 else 4 :]
    content = struct.pack(">HH", message, length) + version + octets + struct.pack(">H", serial) + body
    content += bytes([functools.reduce(operator.xor, content)])
    return b"\x7e" + content.replace(b"\x7d", b"\x7d\x01").replace(b"\x7e", b"\x7d\x02") + b"\x7e"


class Reading(unittest.TestCase):
    def setUp(self):
        folder = tempfile.TemporaryDirectory()
        self.addCleanup(folder.cleanup)
        self.folder = folder.name
        self.path = f"{folder.name}/platform.db"

    def test_values_of_a_position(self):
        found = positions.position("1", 7, FIXES[0])
        self.assertEqual(found, ("1", 7, "2024-03-05T00:00:30+08:00", 20.0, 113.0, 60.0, 10, 90, 24.5, 0, 3, None, False))

    def test_south_and_west_are_below_zero(self):
        found = positions.position("1", 7, FIXES[1])
        self.assertEqual((found.latitude, found.longitude), (-33.856784, -151.215297))
        self.assertEqual(found.time, "2099-12-31T23:59:59+08:00")

    def test_a_day_that_is_none_and_a_short_mileage_are_not_there(self):
        found = positions.position("1", 7, FIXES[2])
        self.assertEqual((found.time, found.mileage), (None, None))

    def test_the_last_mileage_counts(self):
        self.assertEqual(positions.position("1", 7, FIXES[3]).mileage, 123.4)

    def test_bodies_that_are_no_positions(self):
        for message, body in [(0x0200, FIXES[0][:27]), (0x0200, FIXES[0][:-1]), (0x0704, b"\0\1\1\0\x1c\0"), (0x0704, b"\0\0\0\0"), (2, b"")]:
            with self.subTest(body=body.hex()), self.assertRaises(positions.Unread):
                positions.positions_of("1", 7, message, body)

    def test_the_last_position_of_each_phone(self):
        rows = [(0x0200, FIXES[0]), (0x0200, FIXES[1]), (0x0704, batch(FIXES[2:], kind=0))]
        make(self.path, [(bytes.fromhex(phone), 2 + at, *row) for phone in (OTHER, PHONE) for at, row in enumerate(rows)])
        status, told, said = run(self.path)
        lines = [line.split() for line in told.splitlines()]
        self.assertEqual((status, said), (0, ""))
        self.assertEqual(lines[0], list(positions.FIELDS))
        last = ["4", "2024-03-05T00:00:30+08:00", "22.543096", "114.057865", "60.0", "10", "90", "123.4", "0x00000000", "0x00000003", "-"]
        self.assertEqual(lines[1:], [["013912345678", *last], [OTHER, *last]])

    def test_a_late_batch_is_the_last_by_time_alone(self):
        """Behind a position of 08:00:05: what kind of batch, of what time, makes which number the last."""
        first = (0x0200, fix(time="260101080005"))
        for kind, time, number in [
            (1, "260101070002", "2"),
            (1, "260101080005", "2"),
            (1, "260101080006", "3"),
            (1, "260230080006", "2"),
            (0, "260101070002", "3"),
        ]:
            with self.subTest(kind=kind, time=time), tempfile.TemporaryDirectory() as folder:
                path = f"{folder}/platform.db"
                make(path, [(bytes.fromhex(PHONE), 2, *first), (bytes.fromhex(PHONE), 3, 0x0704, batch([fix(time=time)], kind))])
                self.assertEqual(run(path)[1].splitlines()[1].split()[1], number)

    def test_fixes_that_are_not_located_are_no_positions(self):
        """The second row has the engine on and bit 1 not set, as a terminal without reception sends it."""
        lost = fix(status=1, latitude=0, longitude=0, time="000101000000")
        make(self.path, [(bytes.fromhex(PHONE), 2, 0x0200, fix(status=2)), (bytes.fromhex(PHONE), 3, 0x0200, lost), (bytes.fromhex(OTHER), 2, 0x0200, lost)])
        for form in ([], ["--phone", PHONE], ["--csv", "-"]):
            with self.subTest(form=form):
                status, told, said = run(self.path, *form)
                self.assertEqual((status, len(told.splitlines())), (0, 2))
                self.assertIn("20.000000", told)
                self.assertIn(f"did not know where they were: {1 if '--phone' in form else 2}\n", said)
        features = json.loads(run(self.path, "--geojson", "-")[1])["features"]
        self.assertEqual([it["geometry"]["coordinates"] for it in features], [[113.0, 20.0]])
        self.assertEqual(run(self.path, "--svg", "-")[1].count("<polyline"), 1)

    def test_alarm_and_status_are_shown(self):
        make(self.path, [(bytes.fromhex(PHONE), 2, 0x0200, fix(alarm=1, status=0x0C0003))])
        self.assertEqual(run(self.path)[1].split()[-3:], ["0x00000001", "0x000c0003", "-"])
        told = json.loads(run(self.path, "--geojson", "-")[1])["features"][0]["properties"]
        self.assertEqual((told["alarm"], told["status"]), (1, 0x0C0003))

    def test_when_a_phone_was_heard(self):
        """By a service that knows one of two phones, at the last position of it alone."""
        make(self.path, rows_of(PHONE) + rows_of(OTHER))
        with open(f"{self.folder}/http.token", "w") as file:
            file.write("ab12\n")
        with service([{"phone": "013912345678", "heard_at": "2024-03-05T00:01:02+08:00"}]) as (address, asked):
            _, told, _ = run(self.path, "--http", address)
            _, every, _ = run(self.path, "--http", address, "--csv", "-")
        self.assertEqual([line.split()[-1] for line in told.splitlines()[1:]], ["2024-03-05T00:01:02+08:00", "-"])
        self.assertEqual([line.split(",")[-1] for line in every.splitlines()[1:]], ["", "2024-03-05T00:01:02+08:00", "", "", "", "", "", ""])
        self.assertEqual(asked, [("/api/v1/vehicles?limit=2000", "Bearer ab12")] * 2)
        status, _, said = run(self.path, "--http", address)
        self.assertEqual(status, 2)
        self.assertIn("does not say when phones were heard", said)

    def test_one_phone(self):
        make(self.path, rows_of(OTHER) + rows_of(PHONE))
        status, told, _ = run(self.path, "--phone", "13912345678")
        self.assertEqual(status, 0)
        self.assertEqual([line.split()[:2] for line in told.splitlines()[1:]], [["013912345678", it] for it in "2344"])

    def test_csv(self):
        make(self.path, rows_of(PHONE))
        _, told, _ = run(self.path, "--csv", "-")
        lines = told.splitlines()
        self.assertEqual(lines[1], "013912345678,2,2024-03-05T00:00:30+08:00,20.000000,113.000000,60.0,10,90,24.5,0x00000000,0x00000003,")
        self.assertEqual(lines[3], "013912345678,4,,0.000001,0.000002,6553.5,65535,359,,0x00000000,0x00000003,")

    def test_geojson(self):
        """The line goes by time, without the position that has no moment; the late batch is not the last."""
        make(self.path, rows_of(PHONE))
        run(self.path, "--geojson", f"{self.folder}/a.json")
        with open(f"{self.folder}/a.json") as file:
            track, last = json.load(file)["features"]
        self.assertEqual(track["geometry"]["coordinates"], [[113.0, 20.0], [114.057865, 22.543096], [-151.215297, -33.856784]])
        self.assertEqual(last["geometry"], {"type": "Point", "coordinates": [-151.215297, -33.856784]})
        self.assertEqual((last["properties"]["mileage"], last["properties"]["status"]), (None, 15))

    def drawn(self, *places):
        """The drawing of positions: latitude, longitude and time of each."""
        make(self.path, [(bytes.fromhex(PHONE), at, 0x0200, fix(latitude=y, longitude=x, time=time)) for at, (y, x, time) in enumerate(places)])
        return run(self.path, "--svg", "-")[1]

    def test_a_drawing_to_the_north(self):
        """A tenth of a degree is 720 units: 111,320 m a degree are 15.46 m a unit, and 2 km 129.4 units."""
        told = self.drawn((20_000_000, 113_000_000, "260101070030"), (20_100_000, 113_000_000, "260101081000"))
        self.assertIn('points="40.0,770.0 40.0,50.0"', told)
        self.assertIn("h129.4v-5", told)
        self.assertEqual(re.findall("<text[^>]*>([^<]*)", told), ["2026-01-01 07:00 to 08:10 (GMT+8), north is up", "013912345678 08:10", "07:00", "2 km"])

    def test_a_drawing_to_the_east(self):
        """At 60 degrees north a degree of longitude is half as long. The place in the middle is one where the vehicle stays."""
        stay = [(60_000_000, 10_100_000, f"2601010{hour}0000") for hour in "89"]
        told = self.drawn((60_000_000, 10_000_000, "260101070000"), *stay, (60_000_000, 10_200_000, "260102100000"))
        self.assertIn('points="40.0,50.0 400.0,50.0 760.0,50.0"', told)
        wanted = ["2026-01-01 07:00 to 2026-01-02 10:00 (GMT+8), north is up", "013912345678 01-02 10:00", "01-01 07:00", "01-01 08:00", "2 km"]
        self.assertEqual(re.findall("<text[^>]*>([^<]*)", told), wanted)

    def test_no_position_is_drawn(self):
        make(self.path, [])
        self.assertEqual(run(self.path, "--svg", "-")[1].splitlines()[-1], "</svg>")

    def test_lengths_of_a_scale(self):
        for most, length in [(1, 1), (4.9, 2), (9.9, 5), (10, 10), (1999, 1000), (0.3, 0.2)]:
            self.assertAlmostEqual(position_drawing.round_length(most), length)

    def test_a_row_that_is_no_position_is_told(self):
        make(self.path, [*rows_of(PHONE), (bytes.fromhex(PHONE), 9, 0x0200, b"\0")])
        status, told, said = run(self.path)
        self.assertEqual((status, len(told.splitlines())), (1, 2))
        self.assertIn("row 9 of 013912345678", said)

    def test_other_files_are_told(self):
        with open(self.path, "w") as file:
            file.write("a text " * 1000)
        self.assertEqual(run(self.path)[0], 2)
        self.assertEqual(run(f"{self.folder}/none.db")[0], 2)
        with contextlib.closing(sqlite3.connect(f"{self.folder}/other.db")) as base:
            base.execute("CREATE TABLE other (a)")
        self.assertEqual(run(f"{self.folder}/other.db")[0], 2)

    def test_rows_that_stand_in_the_log_alone(self):
        base = sqlite3.connect(self.path)
        self.addCleanup(base.close)
        base.execute("PRAGMA journal_mode = WAL")
        base.executescript(MAKE)
        base.executemany("INSERT INTO rows808 VALUES (?, ?, ?, ?)", rows_of(PHONE))
        base.commit()
        self.assertGreater(os.path.getsize(f"{self.path}-wal"), 0)
        self.assertEqual(len(run(self.path, "--phone", PHONE)[1].splitlines()), 5)

    def test_a_locked_file_is_told_and_stays_as_it_is(self):
        make(self.path, rows_of(PHONE))
        with open(self.path, "rb") as file:
            before = file.read()
        with open(self.path, "r+b") as held:
            fcntl.lockf(held, fcntl.LOCK_EX, positions.SHARED_SIZE, positions.SHARED_FIRST)
            status, told, said = run(self.path)
        self.assertEqual((status, len(told.splitlines())), (0, 2))
        self.assertIn("a platform has", said)
        with open(self.path, "rb") as file:
            self.assertEqual(file.read(), before)
        self.assertEqual(sorted(os.listdir(self.folder)), ["platform.db"])


@unittest.skipUnless(os.access(PROGRAM, os.X_OK), "jt808 is not built")
class BesideTheViewer(unittest.TestCase):
    """Each number as `jt808 view` prints it of a frame with the same body."""

    def check(self, phone, edition):
        frames = b"".join(frame(phone, edition, at, *row) for at, row in enumerate(ROWS))
        lines = subprocess.run([PROGRAM, "view"], input=frames, stdout=subprocess.PIPE).stdout.decode().splitlines()
        self.assertEqual(lines[-1], "frames=3 refused=0")
        found = [it for at, row in enumerate(ROWS) for it in positions.positions_of("1", at, *row)]
        shown = [part for line in lines[:-1] for part in re.split(r" alarm=", line)[1:]]
        self.assertEqual(len(shown), len(found))
        for told, it in zip(shown, found):
            fields = dict(re.findall(r"(\w+)=(\S+)", told))
            miles = re.findall(r"item=0x01:(\d+)(?= |$)", told)
            self.assertEqual(int(fields["lat"]), abs(round(it.latitude * 1_000_000)))
            self.assertEqual(int(fields["lon"]), abs(round(it.longitude * 1_000_000)))
            self.assertEqual(int(fields["altitude"]), it.altitude)
            self.assertEqual(int(fields["speed"]), round(it.speed * 10))
            self.assertEqual(int(fields["direction"]), it.direction)
            self.assertEqual(fields["time"], it.time or "-")
            self.assertEqual(int(fields["status"], 16), it.status)
            if it.mileage is not None:
                self.assertEqual(int(miles[-1]), round(it.mileage * 10))

    def test_2013(self):
        self.check(PHONE, 2013)

    def test_2019(self):
        self.check(OTHER, 2019)


if __name__ == "__main__":
    unittest.main()
