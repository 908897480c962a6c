#!/usr/bin/python3
"""Tests of tools/archive.py over a folder alone, by hand: tools/test_archive.py. They want sqlite3 of Python, and no database;
tools/archive_trial.py has those with one.
"""
import contextlib
import fcntl
import hashlib
import io
import os
import random
import re
import shutil
import sqlite3
import sys
import tempfile
import time
import unittest
import unittest.mock

HERE = os.path.dirname(os.path.realpath(__file__))
sys.path.insert(0, HERE)
sys.dont_write_bytecode = True
import archive  # noqa: E402
import archive_database  # noqa: E402
import positions  # noqa: E402
from archive_rows import NO_DAY, Unit  # noqa: E402
from test_positions import FIXES, MAKE, OTHER, PHONE, batch, fix, make  # noqa: E402


def rows_of(phone, numbers, time="240305000030"):
    """A row of one position for each number, which its latitude tells."""
    return [(bytes.fromhex(phone), number, 0x0200, fix(latitude=number, time=time)) for number in numbers]


def read(path, question="SELECT phone, number, id, body FROM rows808 ORDER BY phone, number"):
    with contextlib.closing(sqlite3.connect(path)) as base:
        return base.execute(question).fetchall()


def numbers_in(path):
    return [number for _, number, _, _ in read(path)]


def columns_of(octets):
    (entry,) = Unit(2, 0x0200, octets).entries
    return archive_database.columns(1, *entry).split("\t")


class Rows(unittest.TestCase):
    def test_columns_by_hand(self):
        # 6553.5 and 600 are tenths of km/h; 0x04d2 = 1,234 tenths of km, the last of two; south and west are below zero
        items = '{"signal":25,"mileage":[429496729.5,123.4],"satellites":9}'
        numbers = ["22.543096", "114.057865", "10", "60.0", "90", "0", "3", "123.4"]
        self.assertEqual(columns_of(FIXES[3]), ["2024-03-05 00:00:30+08", *numbers, items])
        self.assertEqual(columns_of(FIXES[1])[:3], ["2099-12-31 23:59:59+08", "-33.856784", "-151.215297"])
        # 30 February is no day, and a mileage of three octets is none
        self.assertEqual(columns_of(FIXES[2])[0], "\\N")
        self.assertEqual(columns_of(FIXES[2])[8:], ["\\N", '{"0x01":"0000ff","signal":25}'])

    def test_columns_beside_positions(self):
        chance = random.Random(1)
        for _ in range(3000):
            time = f"{chance.randrange(10**6):06d}{chance.choice(['000000', '235959', '240000', '236000', '12345f', '1b0000'])}"
            octets = fix(status=chance.randrange(16), latitude=chance.randrange(2**32), longitude=chance.randrange(2**32),
                speed=chance.randrange(2**16), time=time, items=chance.choice(["", "010400000009", "0104000000090104ffffffff"]))
            shown, wanted = columns_of(octets), positions.position("1", 2, octets)
            self.assertEqual(shown[0], "\\N" if wanted.time is None else wanted.time.replace("T", " ")[:-3])
            numbers = (wanted.latitude, wanted.longitude, wanted.altitude, wanted.speed, wanted.direction, wanted.mileage)
            self.assertEqual([shown[at] for at in (1, 2, 3, 4, 5, 8)], ["\\N" if it is None else str(it) for it in numbers])

    def test_what_reads_is_what_positions_reads(self):
        chance = random.Random(2)
        for _ in range(20_000):
            body = bytearray(chance.choice([FIXES[0], batch(FIXES), batch(FIXES[:1]), batch([])]))
            for _ in range(chance.randrange(3)):
                body[chance.randrange(len(body))] = chance.choice([0, 1, 2, 28, 255, chance.randrange(256)])
            body = bytes(body[: len(body) - chance.choice([0, 0, 0, 1, 2, 30])]) + chance.choice([b"", b"", b"\1", b"\1\0"])
            message = chance.choice([0x0200, 0x0704])
            try:
                wanted = len(positions.positions_of("1", 2, message, body))
            except positions.Unread:
                wanted = 0
            unit = Unit(2, message, body)
            self.assertEqual(unit.count, wanted)
            if not unit.count:
                self.assertEqual(unit.entries, [(NO_DAY, None, body)])

    def test_days_of_a_batch(self):
        # a position without a moment has the day of the first that has one, and each other its own
        unit = Unit(2, 0x0704, batch([fix(time="000000000000"), fix(time="240305235930"), fix(time="240306000000")]))
        self.assertEqual([str(day) for day in unit.days()], ["2024-03-05", "2024-03-05", "2024-03-06"])
        self.assertEqual((unit.month(), unit.kind, unit.count), ("2024-03", 1, 3))
        self.assertEqual(Unit(2, 0x0200, fix(time="000000000000")).month(), "none")

    def test_the_sum_of_a_row(self):
        texts = [f"7.{place}.1796.2.1.{octets.hex()}" for place, octets in enumerate(FIXES[2:])]
        self.assertEqual(Unit(7, 0x0704, batch(FIXES[2:])).sum(), sum(int(hashlib.md5(it.encode()).hexdigest()[:15], 16) for it in texts))


class Moves(unittest.TestCase):
    def setUp(self):
        folder = tempfile.TemporaryDirectory()
        self.addCleanup(folder.cleanup)
        self.folder, self.path, self.old = folder.name, f"{folder.name}/platform.db", f"{folder.name}/old"

    def run_tool(self, *words, path=None):
        out, said = io.StringIO(), io.StringIO()
        with contextlib.redirect_stdout(out), contextlib.redirect_stderr(said):
            try:
                status = archive.main([path or self.path, "--name", "a", "--into", self.old, *words])
            except SystemExit as error:
                status = error.code
        return status, out.getvalue(), said.getvalue()

    def moved(self, *words):
        status, told, said = self.run_tool(*words)
        self.assertEqual((status, said), (0, ""))
        return told

    def refused(self, text, *words, path=None, status=1):
        before = numbers_in(self.path) if os.path.exists(self.path) else None
        found, _, said = self.run_tool(*words, path=path)
        self.assertEqual(found, status, said)
        self.assertIn(text, said)
        if status == 1:
            self.assertIn("archive: to do: ", said)
        if before is not None:
            self.assertEqual(numbers_in(self.path), before)

    def test_the_last_rows_stay_and_the_others_stand_in_the_month(self):
        rows = rows_of(PHONE, range(2, 102)) + rows_of(OTHER, range(7, 17))
        make(self.path, rows)
        self.moved("--rows", "16")
        self.assertEqual(sorted(read(self.path)), sorted(rows_of(PHONE, range(86, 102)) + rows_of(OTHER, range(7, 17))))
        self.assertEqual(read(f"{self.old}/a-2024-03.db"), sorted(rows))
        self.assertEqual(read(self.path, "SELECT * FROM left808"), [(bytes.fromhex(PHONE), 85, 84, 84)])
        self.assertEqual(len(positions.read(f"{self.old}/a-2024-03.db", PHONE)[0]), 100)

    def test_again_nothing_happens_and_later_rows_follow(self):
        make(self.path, rows_of(PHONE, range(2, 102)))
        self.moved("--rows", "20")
        before = numbers_in(self.path)
        self.assertIn("0 rows copied", self.moved("--rows", "20"))
        self.assertEqual(numbers_in(self.path), before)
        with contextlib.closing(sqlite3.connect(self.path)) as base:
            base.executemany("INSERT INTO rows808 VALUES (?, ?, ?, ?)", rows_of(PHONE, range(102, 112), "240401000000"))
            base.commit()
        self.moved("--rows", "20")
        self.assertEqual(numbers_in(self.path), list(range(92, 112)))
        self.assertEqual(numbers_in(f"{self.old}/a-2024-04.db"), list(range(102, 112)))
        self.assertEqual(read(self.path, "SELECT number, rows, fixes FROM left808"), [(91, 90, 90)])

    def test_bodies_of_every_kind(self):
        bodies = [(0x0200, b"\0"), (0x0704, b"\0\0\1"), (0x0704, b"\0\1\1\0\1\0"), (0x0704, batch(FIXES)), (0x0200, FIXES[2])]
        rows = [(bytes.fromhex(PHONE), 2 + at, *body) for at, body in enumerate(bodies * 20)]
        make(self.path, rows)
        self.moved("--rows", "16")
        stored = [row for name in sorted(os.listdir(self.old)) if "marks" not in name for row in read(f"{self.old}/{name}")]
        self.assertEqual(sorted(stored), rows)
        self.assertEqual(read(self.path), rows[-16:])

    def test_exact_at_its_edge(self):
        # 32,768 below the last is looked at; gaps between numbers do not count as rows
        make(self.path, rows_of(PHONE, [2, 3, 4, 5, 32_771, 32_772]))
        self.moved("--exact")
        self.assertEqual(numbers_in(self.path), [4, 5, 32_771, 32_772])

    def test_rows_never_keep_what_no_platform_looks_at(self):
        make(self.path, rows_of(PHONE, [2, 3, 4, 5, 32_771, 32_772]))
        self.moved("--rows", "1000")
        self.assertEqual(numbers_in(self.path), [4, 5, 32_771, 32_772])

    def test_how_many_stay_without_a_word(self):
        words = archive.words_of(["--name", "a", "--into", "b"])
        # 201 phones with 995 rows each have 199,995 of 200,000; 19,000 with ten leave 10,000 for a hundred others
        fleets = [([5000] * 200, 1000), ([5000] * 201, 995), ([5000] * 1000, 200), ([5000] * 3125, 64), ([5000] * 3126, 64)]
        for counts, wanted in [*fleets, ([10] * 19_000 + [9000] * 100, 100)]:
            with self.subTest(counts=len(counts)), unittest.mock.patch.object(archive, "phones_in", lambda base: counts):
                with unittest.mock.patch.object(archive, "count_of", lambda base, phone: phone):
                    self.assertEqual(archive.rows_to_stay(None, words), wanted)

    def test_copy_and_dry_run_remove_nothing(self):
        make(self.path, rows_of(PHONE, range(2, 102)))
        told = self.moved("--rows", "16", "--dry-run")
        self.assertIn("100 rows would be copied", told)
        self.assertIn("84 rows of 1 phones would go; the last 16 of each phone stay", told)
        self.assertFalse(os.path.exists(self.old))
        self.moved("--copy")
        self.assertEqual((len(read(self.path)), len(read(f"{self.old}/a-2024-03.db"))), (100, 100))

    def test_while_a_platform_runs_rows_are_copied_and_stay(self):
        make(self.path, rows_of(PHONE, range(2, 102)))
        held = os.open(self.path, os.O_RDWR)
        self.addCleanup(os.close, held)
        if os.fork() == 0:
            # Another process, since a process sees no lock of its own.
            with contextlib.suppress(BaseException), open(self.path, "r+b") as file:
                fcntl.lockf(file, fcntl.LOCK_EX, positions.SHARED_SIZE, positions.SHARED_FIRST)
                open(f"{self.folder}/locked", "w").close()
                while not os.path.exists(f"{self.folder}/done"):
                    time.sleep(0.01)
            os._exit(0)
        self.addCleanup(os.wait)
        self.addCleanup(lambda: open(f"{self.folder}/done", "w").close())
        while not os.path.exists(f"{self.folder}/locked"):
            pass
        status, _, said = self.run_tool("--rows", "16")
        self.assertEqual(status, 1)
        self.assertIn("the file is locked", said)
        self.assertIn("--wait", said)
        self.assertEqual(len(read(f"{self.old}/a-2024-03.db")), 100)
        self.assertFalse(self.run_tool("--copy")[0])

    def test_two_at_once(self):
        make(self.path, rows_of(PHONE, range(2, 102)))
        folder = os.open(self.folder, os.O_RDONLY)
        fcntl.flock(folder, fcntl.LOCK_EX)
        self.refused("another archive.py works", "--rows", "16")
        os.close(folder)
        self.moved("--rows", "16")

    def test_a_copy_that_a_killed_tool_left_goes(self):
        make(self.path, rows_of(PHONE, range(2, 102)))
        name = hashlib.sha256(os.path.realpath(self.path).encode()).hexdigest()[:16]
        left = os.path.join(tempfile.gettempdir(), f"archive-{os.getuid()}-{name}")
        os.mkdir(left)
        with open(f"{left}/copy.db", "w") as file:
            file.write("half a copy")
        self.moved("--rows", "16")
        self.assertFalse(os.path.exists(left))

    def test_a_link_and_an_odd_name(self):
        path, first = f"{self.folder}/100% #1?.db", f"{self.folder}/first.db"
        with contextlib.closing(sqlite3.connect(first)) as base:
            base.execute("PRAGMA journal_mode = WAL")
            base.executescript(MAKE)
            base.executemany("INSERT INTO rows808 VALUES (?, ?, ?, ?)", rows_of(PHONE, range(2, 102)))
            base.commit()
            # The rows stand in the log alone, as after a kill
            for end in ("", "-wal"):
                shutil.copyfile(first + end, path + end)
        os.symlink(path, self.path)
        self.moved("--rows", "16")
        self.assertEqual(numbers_in(path), list(range(86, 102)))
        self.assertEqual(len(read(f"{self.old}/a-2024-03.db")), 100)

    def test_files_that_are_none(self):
        self.refused("there is no such file")
        with open(self.path, "w") as file:
            file.write("a text " * 1000)
        found, _, said = self.run_tool()
        self.assertEqual(found, 1)
        self.assertIn("no file of a platform", said)
        for version, text in [(1, "version 1"), (3, "version [(3,)]")]:
            path = f"{self.folder}/{version}.db"
            make(path, [])
            with contextlib.closing(sqlite3.connect(path)) as base:
                base.execute(f"UPDATE meta SET version = {version}")
                base.commit()
            self.assertIn(text, self.run_tool(path=path)[2])

    def test_another_file_under_the_name(self):
        make(self.path, rows_of(PHONE, range(2, 102)))
        self.moved("--rows", "16")
        for name, rows, text in [
            ("new", rows_of(PHONE, range(2, 12)), "the last row of the folder"),
            ("grown", rows_of(PHONE, range(2, 112), "240306000000"), "another one"),
        ]:
            make(f"{self.folder}/{name}.db", rows)
            self.refused(text, path=f"{self.folder}/{name}.db")

    def test_a_target_that_lost_rows(self):
        make(self.path, rows_of(PHONE, range(2, 102)))
        self.moved("--rows", "16")
        with contextlib.closing(sqlite3.connect(self.path)) as base:
            base.executemany("INSERT INTO rows808 VALUES (?, ?, ?, ?)", rows_of(PHONE, range(102, 112)))
            base.commit()
        self.moved("--copy")
        with contextlib.closing(sqlite3.connect(f"{self.old}/a-2024-03.db")) as base:
            base.execute("DELETE FROM rows808 WHERE number = 90")
            base.commit()
        self.refused("nothing removed", "--rows", "16")

    def test_a_new_target_for_a_file_that_rows_left(self):
        make(self.path, rows_of(PHONE, range(2, 102)))
        self.moved("--rows", "16")
        self.old += "er"
        self.refused("rows up to 85 have left the file", "--rows", "16")
        self.moved("--from-here")
        self.assertEqual(numbers_in(f"{self.old}/a-2024-03.db"), list(range(86, 102)))
        self.moved("--rows", "16")

    def test_terminal_db_beside(self):
        make(self.path, rows_of(PHONE, range(2, 102)))
        open(f"{self.folder}/terminal.db", "w").close()
        self.refused("terminal.db stands beside", "--rows", "16")
        self.moved("--rows", "1000")
        self.moved("--rows", "16", "--no-relay")
        self.assertEqual(len(read(self.path)), 16)

    def test_words(self):
        make(self.path, [])
        for words, text in [
            (["--rows", "15"], "at least 16"),
            (["--rows", "16", "--exact"], "not allowed"),
            (["--name", "a/b"], "--name"),
            (["--refill"], "the database alone"),
        ]:
            self.refused(text, *words, status=2)
        with self.assertRaises(SystemExit), contextlib.redirect_stderr(io.StringIO()) as said:
            archive.main([self.path, "--name", "a"])
        self.assertIn("say where the rows are to go", said.getvalue())

    def test_help_names_every_word(self):
        text = archive.parser().format_help()
        for word in "name database into copy refill rows exact wait dry-run from-here no-relay".split():
            self.assertTrue(re.search(rf"--{word}\b", text), word)


if __name__ == "__main__":
    unittest.main()
