#!/usr/bin/python3
"""Tests tools/archive.py over a PostgreSQL that this starts on loopback, by hand.

    tools/archive_trial.py [TEST ..]         all tests, or those of these names, as Class or Class.test
    tools/archive_trial.py --measure ROWS    moves so many rows of 1,000 phones, and says what that took

The shapes are tested where PostGIS is installed (Debian's postgresql-15-postgis-3), and each driver of psycopg and psycopg2 that is.
"""
import contextlib
import datetime
import importlib.util
import io
import math
import os
import resource
import sqlite3
import subprocess
import sys
import tempfile
import time
import unittest
import unittest.mock

HERE = os.path.dirname(os.path.realpath(__file__))
sys.path.insert(0, HERE)
sys.dont_write_bytecode = True
import archive  # noqa: E402
import archive_database  # noqa: E402
import archive_fixes  # noqa: E402
import command_line  # noqa: E402
import open_times  # noqa: E402
from archive_rows import CHINA, Unit  # noqa: E402
from postgres_server import Server, folder_of_programs  # noqa: E402
from test_archive import numbers_in, rows_of  # noqa: E402
from test_positions import FIXES, OTHER, PHONE, ROWS, batch, fix, make  # noqa: E402

TODAY = datetime.datetime.now(CHINA).date()
YESTERDAY = TODAY - datetime.timedelta(1)
SHORT = "13912345678"
SERVER = None


def setUpModule():
    global SERVER
    SERVER = Server()
    SERVER.__enter__()


def tearDownModule():
    SERVER.__exit__()


def digits(day, clock):
    return f"{day:%y%m%d}{clock}"


def drive(day, clocks, speeds, phone=PHONE, first=2):
    """Rows of a lorry that goes a thousandth of a degree north from one to the next, and a tenth of a km by its odometer."""
    return [
        (bytes.fromhex(phone), first + at, 0x0200, fix(latitude=22_000_000 + 1000 * at, speed=speed, time=digits(day, clock), items=f"0104{at:08x}"))
        for at, (clock, speed) in enumerate(zip(clocks, speeds))
    ]


class Trial(unittest.TestCase):
    def setUp(self):
        folder = tempfile.TemporaryDirectory()
        self.addCleanup(folder.cleanup)
        self.folder, self.path = folder.name, f"{folder.name}/platform.db"
        self.dsn = SERVER.make(f"trial{time.time_ns()}")

    def run_tool(self, *words, path=None, name="a", dsn=None):
        out, said = io.StringIO(), io.StringIO()
        with contextlib.redirect_stdout(out), contextlib.redirect_stderr(said):
            status = archive.main([path or self.path, "--name", name, "--database", dsn or self.dsn, *words])
        return status, out.getvalue(), said.getvalue()

    def moved(self, *words, **how):
        status, told, said = self.run_tool(*words, **how)
        self.assertEqual((status, said), (0, ""))
        return told

    def refused(self, text, *words, **how):
        before = numbers_in(self.path)
        status, _, said = self.run_tool(*words, **how)
        self.assertEqual(status, 1)
        self.assertIn(text, said)
        self.assertIn("archive: to do: ", said)
        self.assertEqual(numbers_in(self.path), before)

    def ask(self, text, *values):
        link = archive_database.Link(self.dsn)
        try:
            link.execute("SET search_path = jt808, public; SET timezone = 'Asia/Shanghai'")
            return link.execute(text, values or None)
        finally:
            link.close()


class Rows(Trial):
    def test_columns_by_hand(self):
        make(self.path, [(bytes.fromhex(PHONE), 2 + at, *row) for at, row in enumerate(ROWS)] + [(bytes.fromhex(PHONE), 9, 0x0200, b"\1")])
        self.moved("--copy")
        found = self.ask("SELECT number, place, message, count, kind, day::text, time::text, latitude, longitude, speed, altitude, direction,"
            " mileage FROM position ORDER BY 1, 2")
        self.assertEqual(found, [
            (2, 0, 0x0200, 1, 0, "2024-03-05", "2024-03-05 00:00:30+08", 20.0, 113.0, 60.0, 10, 90, 24.5),
            (3, 0, 0x0200, 1, 0, "2099-12-31", "2099-12-31 23:59:59+08", -33.856784, -151.215297, 60.0 * 0, 0, 90, None),
            # the first of the batch names no day, and has that of the second
            (4, 0, 0x0704, 2, 1, "2024-03-05", None, 0.000001, 0.000002, 6553.5, 65_535, 359, None),
            (4, 1, 0x0704, 2, 1, "2024-03-05", "2024-03-05 00:00:30+08", 22.543096, 114.057865, 60.0, 10, 90, 123.4),
            (9, 0, 0x0200, 0, 0, "1970-01-01", None, None, None, None, None, None, None),
        ])
        self.assertEqual([bytes(it) for it, in self.ask("SELECT octets FROM position ORDER BY number, place")], [*FIXES, b"\1"])
        items = {"signal": 25, "mileage": [429496729.5, 123.4], "satellites": 9}
        self.assertEqual(self.ask("SELECT items FROM position WHERE number = 4 AND place = 1"), [(items,)])

    def test_sums_are_those_of_the_file(self):
        rows = rows_of(PHONE, range(2, 40)) + [(bytes.fromhex(OTHER), 7, 0x0704, batch(FIXES))]
        make(self.path, rows)
        self.moved("--copy")
        total = self.ask("SELECT sum(digest(number, place, message, count, kind, octets)) FROM position")[0][0]
        self.assertEqual(int(total), sum(Unit(*row[1:]).sum() for row in rows))

    def test_a_day_has_a_table(self):
        # A batch over midnight: each position stands under its own day
        body = batch([fix(time=digits(YESTERDAY, "235930")), fix(time=digits(TODAY, "000000"))])
        make(self.path, [(bytes.fromhex(PHONE), 2, 0x0704, body), *rows_of(OTHER, [5], "240305000030"), *rows_of(OTHER, [6], "991231000000")])
        self.moved("--copy")
        found = self.ask("SELECT tableoid::regclass::text, number FROM position ORDER BY number, day")
        self.assertEqual(found, [(f"position_{YESTERDAY:%Y%m%d}", 2), (f"position_{TODAY:%Y%m%d}", 2), ("position_rest", 5), ("position_rest", 6)])

    def test_a_day_that_has_rows_elsewhere_gets_no_table(self):
        make(self.path, rows_of(PHONE, [2], digits(TODAY, "000000")))
        with unittest.mock.patch.object(archive_database, "OWN_DAYS", -1):
            self.moved("--copy")
        with contextlib.closing(sqlite3.connect(self.path)) as base:
            base.executemany("INSERT INTO rows808 VALUES (?, ?, ?, ?)", rows_of(PHONE, [3], digits(TODAY, "000100")))
            base.commit()
        self.moved("--copy")
        self.assertEqual(self.ask("SELECT tableoid::regclass::text, number FROM position ORDER BY 2"), [("position_rest", 2), ("position_rest", 3)])

    def test_again_each_row_stands_once(self):
        make(self.path, rows_of(PHONE, range(2, 102)))
        for driver in ("psycopg", "psycopg2"):
            if importlib.util.find_spec(driver) is None:
                continue
            with self.subTest(driver=driver), unittest.mock.patch.object(archive_database, "driver", lambda driver=driver: __import__(driver)):
                self.moved("--rows", "50")
                self.assertIn("0 rows copied", self.moved("--rows", "50"))
                self.moved("--rows", "20")
                self.assertEqual(self.ask("SELECT count(*), count(DISTINCT number), min(number), max(number) FROM position"), [(100, 100, 2, 101)])
                self.assertEqual(numbers_in(self.path), list(range(82, 102)))

    def test_two_platforms_at_once(self):
        ran = []
        for name in "ab":
            os.mkdir(f"{self.folder}/{name}")
            make(f"{self.folder}/{name}/platform.db", rows_of(PHONE, range(2, 3002), digits(TODAY, "000000")))
            words = [archive.__file__, f"{self.folder}/{name}/platform.db", "--name", name, "--database", self.dsn, "--rows", "16"]
            ran.append(subprocess.Popen([sys.executable, *words], stdout=subprocess.DEVNULL))
        self.assertEqual([it.wait() for it in ran], [0, 0])
        found = self.ask("SELECT name, count(*), count(DISTINCT number) FROM position JOIN platform ON id = platform GROUP BY 1 ORDER BY 1")
        self.assertEqual(found, [("a", 3000, 3000), ("b", 3000, 3000)])


class Views(Trial):
    # A thousandth of a degree along a meridian of a sphere of 6,371,008.8 m
    STEP = math.radians(0.001) * 6_371_008.8

    def setUp(self):
        super().setUp()
        clocks = ["080000", "080100", "080200", "080300", "080400", "080800", "081300", "081400", "081500", "081800"]
        # It stands from 08:03 to 08:13, ten minutes, and from 08:15 to 08:18, which is too short
        self.rows = drive(YESTERDAY, clocks, [600, 600, 720, 0, 0, 5, 0, 600, 0, 0])
        make(self.path, self.rows + drive(TODAY, ["000000"], [600], first=12) + drive(YESTERDAY, ["120000"], [0], phone=OTHER))
        self.moved("--copy")

    def test_the_track_of_yesterday(self):
        found = self.ask("SELECT time::text, latitude, speed, metres_before FROM track WHERE phone = %s AND day = today() - 1 ORDER BY time", SHORT)
        self.assertEqual(len(found), 10)
        self.assertEqual(found[0], (f"{YESTERDAY} 08:00:00+08", 22.0, 60.0, None))
        self.assertEqual(found[2][:3], (f"{YESTERDAY} 08:02:00+08", 22.002, 72.0))
        for row in found[1:]:
            self.assertAlmostEqual(row[3], self.STEP, places=3)

    def test_mileage_a_day(self):
        found = self.ask("SELECT positions, first::text, last::text, km_by_positions, km_by_odometer, top_speed FROM mileage_a_day"
            " WHERE phone = %s AND day = today() - 1", SHORT)
        self.assertEqual(found[0][:3], (10, f"{YESTERDAY} 08:00:00+08", f"{YESTERDAY} 08:18:00+08"))
        self.assertAlmostEqual(found[0][3], 9 * self.STEP / 1000, places=6)
        self.assertAlmostEqual(found[0][4], 0.9)
        self.assertEqual(found[0][5], 72.0)

    def test_stays(self):
        found = self.ask("SELECT first::text, last::text, length::text, positions FROM stay WHERE phone = %s AND day = today() - 1", SHORT)
        self.assertEqual(found, [(f"{YESTERDAY} 08:03:00+08", f"{YESTERDAY} 08:13:00+08", "00:10:00", 4)])

    def test_last_positions(self):
        found = self.ask("SELECT platform_name, phone, number, time::text FROM last_position ORDER BY phone")
        self.assertEqual(found, [("a", OTHER, 2, f"{YESTERDAY} 12:00:00+08"), ("a", SHORT, 12, f"{TODAY} 00:00:00+08")])

    def test_positions_that_were_not_located_are_in_no_track(self):
        with contextlib.closing(sqlite3.connect(self.path)) as base:
            base.execute("INSERT INTO rows808 VALUES (?, 13, 512, ?)", (bytes.fromhex(PHONE), fix(status=1, time=digits(TODAY, "000100"))))
            base.execute("INSERT INTO rows808 VALUES (?, 14, 512, ?)", (bytes.fromhex(PHONE), fix(latitude=90_000_001, time=digits(TODAY, "000200"))))
            base.commit()
        self.moved("--copy")
        self.assertEqual(self.ask("SELECT number FROM track WHERE phone = %s AND day = today()", SHORT), [(12,)])

    def test_rows_that_stand_twice(self):
        with contextlib.closing(sqlite3.connect(self.path)) as base:
            # The rows of numbers 3 and 4 again under the same serials; under that of 5 another body; 6 under another serial
            for number, of in [(3, 3), (4, 4), (5, 6), (9, 6)]:
                base.execute("INSERT INTO rows808 VALUES (?, ?, 512, ?)", (bytes.fromhex(PHONE), number + 65_536, self.rows[of - 2][3]))
            base.commit()
        self.moved("--copy")
        self.assertEqual(self.ask("SELECT first, second, day::text FROM twice ORDER BY 1"), [(3, 65_539, str(YESTERDAY)), (4, 65_540, str(YESTERDAY))])

    def test_shapes(self):
        if not self.ask("SELECT 1 FROM pg_available_extensions WHERE name = 'postgis'"):
            self.skipTest("PostGIS is not installed")
        self.ask("CREATE SCHEMA shapes; CREATE EXTENSION postgis SCHEMA shapes")
        self.moved("--copy")
        found = self.ask("SELECT positions, shapes.ST_NPoints(geom), shapes.ST_AsText(shapes.ST_StartPoint(geom)) FROM track_shape"
            " WHERE phone = %s AND day = today() - 1", SHORT)
        self.assertEqual(found, [(10, 10, "POINT(113 22)")])
        self.assertEqual(self.ask("SELECT shapes.ST_X(geom), shapes.ST_Y(geom) FROM position_shape WHERE number = 3"), [(113.0, 22.001)])


class Fixes(Trial):
    """What is left to report of a phone, from the database."""

    def fixes(self, *words):
        out, said = io.StringIO(), io.StringIO()
        with contextlib.redirect_stdout(out), contextlib.redirect_stderr(said):
            status = archive_fixes.main(["--phone", "013912345678", "--name", "a", "--database", self.dsn, "--terminal",
                f"{self.folder}/other/terminal.db", *words])
        return status, out.getvalue().split(), said.getvalue()

    def record(self, count):
        os.makedirs(f"{self.folder}/other", exist_ok=True)
        with contextlib.closing(sqlite3.connect(f"{self.folder}/other/terminal.db")) as base:
            base.execute("CREATE TABLE IF NOT EXISTS fix (place INTEGER PRIMARY KEY, body BLOB)")
            base.executemany("INSERT INTO fix VALUES (?, x'00')", ((at,) for at in range(count)))
            base.commit()

    def test_behind_as_many_as_are_recorded(self):
        self.assertIn("no rows yet", self.fixes()[2])
        rows = [(bytes.fromhex(PHONE), 2 + at, *row) for at, row in enumerate(ROWS * 10)]
        make(self.path, [*rows, *rows_of(OTHER, range(2, 20)), (bytes.fromhex(PHONE), 99, 0x0200, b"\1")])
        self.moved("--rows", "16")
        wanted = [octets.hex() for octets in FIXES * 10]
        self.assertEqual(self.fixes(), (0, wanted, ""))
        self.record(37)
        self.assertEqual(self.fixes(), (0, wanted[37:], ""))

    def test_a_terminal_that_has_more(self):
        make(self.path, rows_of(PHONE, range(2, 12)))
        self.moved("--copy")
        self.record(11)
        status, _, said = self.fixes()
        self.assertEqual(status, 1)
        self.assertIn("has recorded 11 fixes, and the database has 10", said)


class InTheWay(Trial):
    def setUp(self):
        super().setUp()
        make(self.path, rows_of(PHONE, range(2, 102), digits(TODAY, "000000")))

    def test_no_server_and_no_database(self):
        self.refused("does not let this in", dsn=f"host=127.0.0.1 port={open_times.kill_loop.free_port()}")
        self.refused('database "nowhere" does not exist', dsn=SERVER.dsn("nowhere"))

    def test_a_user_who_may_not(self):
        self.ask("CREATE ROLE guest LOGIN")
        self.addCleanup(self.ask, "DROP ROLE guest")
        self.refused("permission denied", dsn=self.dsn.replace("user=postgres", "user=guest"))

    def test_a_server_that_may_lose_what_it_commits(self):
        with Server(fsync="off") as other:
            self.refused("fsync off", dsn=other.dsn())

    def test_two_of_a_name(self):
        self.moved("--copy")
        link = archive_database.Link(self.dsn)
        link.execute("SELECT pg_advisory_lock(808, 1)")
        with unittest.mock.patch.object(archive_database, "LOCK_SECONDS", 0.5):
            self.refused("another archive.py of the name a", "--rows", "16")
            self.moved("--copy", name="b")
        link.close()
        self.moved("--rows", "16")

    def test_rows_that_the_database_lacks_or_has_otherwise_stay(self):
        for change in (
            "DELETE FROM position WHERE number = 30",
            "UPDATE position SET octets = octets || '\\x00' WHERE number = 31",
            "UPDATE position SET kind = 1 WHERE number = 32",
        ):
            with self.subTest(change=change):
                self.moved("--copy")
                self.ask(change)
                self.refused("nothing removed", "--rows", "16")
                if "DELETE" in change:
                    self.moved("--refill")
                    self.moved("--dry-run")
                else:
                    self.refused("with other octets", "--refill")
                    self.ask("UPDATE position SET octets = substr(octets, 1, 28), kind = 0 WHERE number IN (31, 32)")
        self.moved("--rows", "16")

    def test_rows_without_their_marks(self):
        self.moved("--copy")
        self.ask("DELETE FROM mark")
        self.refused("stands in the database already", "--rows", "16")
        self.moved("--refill")
        self.moved("--rows", "16")

    def test_another_file_under_the_name(self):
        self.moved("--rows", "16")
        other = f"{self.folder}/other.db"
        make(other, rows_of(PHONE, range(2, 202), digits(YESTERDAY, "000000")))
        self.refused("another one there", path=other)
        self.moved("--rows", "16", path=other, name="b")

    def test_a_database_that_lost_rows_is_filled_again(self):
        old = f"{self.folder}/old"
        with contextlib.closing(sqlite3.connect(self.path)) as base:
            base.execute("UPDATE rows808 SET body = CAST(substr(body, 1, 22) || x'261030235900' AS BLOB) WHERE number < 40")
            base.execute("UPDATE rows808 SET body = CAST(substr(body, 1, 22) || x'000000000000' AS BLOB) WHERE number % 7 = 0")
            base.commit()
        self.moved("--rows", "16", "--into", old)
        whole = self.ask("SELECT count(*), sum(digest(number, place, message, count, kind, octets)) FROM position")
        self.ask("DELETE FROM position WHERE number > 20; UPDATE mark SET number = 20")
        self.refused("rows up to 85 have left the file, and the database has those up to 20")
        for name in sorted(it for it in os.listdir(old) if "marks" not in it):
            self.moved("--refill", path=f"{old}/{name}")
        self.moved("--rows", "16")
        self.assertEqual(self.ask("SELECT count(*), sum(digest(number, place, message, count, kind, octets)) FROM position"), whole)

    def test_no_driver(self):
        with unittest.mock.patch.object(archive_database.importlib, "import_module", side_effect=ImportError):
            self.refused("neither psycopg nor psycopg2")


def make_fleet(path, rows, phones):
    """Rows of so many lorries that report each half minute from yesterday on, in the order in which they come."""
    start = datetime.datetime.combine(YESTERDAY, datetime.time())
    names = [bytes.fromhex(f"{13_900_000_000 + at:020d}") for at in range(phones)]
    clocks = [f"{start + datetime.timedelta(seconds=30 * at):%y%m%d%H%M%S}" for at in range(rows // phones + 1)]
    make(path, ((names[at % phones], 2 + at // phones, 0x0200,
        fix(latitude=22_000_000 + at // phones * 700, time=clocks[at // phones], items=f"0104{at // phones * 7:08x}")) for at in range(rows)))


def measure(rows):
    """Moves so many rows of 1,000 phones, and says what that took."""
    with Server() as server, tempfile.TemporaryDirectory(prefix="archive-trial-") as folder:
        path = f"{folder}/platform.db"
        make_fleet(path, rows, 1000)
        size, began, load = os.path.getsize(path), time.monotonic(), os.getloadavg()[0]
        before = server.seconds_used()
        ran = subprocess.run([sys.executable, archive.__file__, path, "--name", "a", "--database", server.dsn()], check=False)
        seconds, used = time.monotonic() - began, resource.getrusage(resource.RUSAGE_CHILDREN)
        of_server = server.seconds_used() - before
        print(f"{rows:,} rows, {size:,} octets: {seconds:.1f} s by the clock at a load of {load:.1f} to {os.getloadavg()[0]:.1f};"
            f" {used.ru_utime + used.ru_stime:.1f} s of processor and {used.ru_maxrss / 1000:.0f} MB of the tool, {of_server:.1f} s of the server")
        return ran.returncode


def main():
    asked = command_line.Words(__doc__)
    asked.add_argument("--measure", metavar="ROWS", type=command_line.positive)
    asked.add_argument("tests", metavar="TEST", nargs="*")
    words = asked.parse_args()
    folder_of_programs()
    if words.measure is not None:
        return measure(words.measure)
    return 0 if unittest.main(argv=[sys.argv[0], *words.tests], exit=False).result.wasSuccessful() else 1


if __name__ == "__main__":
    command_line.run(main)
