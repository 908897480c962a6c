#!/usr/bin/env python3
"""Tests of tools/rows.py against page/mock.py, by hand: tools/test_rows.py. It needs Python alone."""
import contextlib
import json
import os
import random
import signal
import socket
import subprocess
import sys
import tempfile
import time
import unittest

HERE = os.path.dirname(os.path.realpath(__file__))
sys.path.insert(0, HERE)
sys.dont_write_bytecode = True
from test_positions import OTHER, PHONE, batch, fix, make  # noqa: E402

MOCK = f"{os.path.dirname(HERE)}/page/mock.py"
SHORT = {PHONE: "013912345678", OTHER: OTHER}


def clock(second):
    """The digits of a time so many seconds behind 08:00:00."""
    return f"260101{8 + second // 3600:02d}{second // 60 % 60:02d}{second % 60:02d}"


def rows_made(count):
    """Rows of two phones, a row each second; each third is a batch. Each has its own bodies."""
    found = []
    for phone, first in ((PHONE, 0), (OTHER, 5)):
        for at in range(count):
            fixes = [fix(time=clock(at), altitude=at, speed=first)] * (3 if at % 3 == 2 else 1)
            found.append((bytes.fromhex(phone), first + 2 * at, 0x0704 if len(fixes) > 1 else 0x0200, batch(fixes) if len(fixes) > 1 else fixes[0]))
    return found


def lines_of(rows):
    """The lines that are to be written, in the order of each phone."""
    told = {}
    for phone, number, message, body in rows:
        told.setdefault(SHORT[phone.hex()], []).append({"phone": SHORT[phone.hex()], "number": number, "id": f"0x{message:04x}", "body": body.hex()})
    return told


class Following(unittest.TestCase):
    def setUp(self):
        folder = tempfile.TemporaryDirectory()
        self.addCleanup(folder.cleanup)
        self.folder = folder.name
        self.path = f"{self.folder}/rows.jsonl"
        with open(f"{self.folder}/http.token", "w") as file:
            file.write("operating\n")
        with open(f"{self.folder}/http.read.token", "w") as file:
            file.write("looking\n")
        with socket.socket() as one:
            one.bind(("127.0.0.1", 0))
            self.address = f"127.0.0.1:{one.getsockname()[1]}"

    @contextlib.contextmanager
    def service(self, begin, pace=0):
        words = [MOCK, "--db", f"{self.folder}/platform.db", "--http", self.address, "--token", "operating", "--read-token", "looking", "--from", begin, "--pace", str(pace)]
        with subprocess.Popen(words, stdout=subprocess.PIPE, stderr=subprocess.DEVNULL, text=True) as mock:
            try:
                self.assertIn(self.address, mock.stdout.readline())
                yield
            finally:
                mock.terminate()

    def words(self, *more):
        return [f"{HERE}/rows.py", self.path, "--dir", self.folder, "--http", self.address, *more]

    def run_once(self, *more):
        ran = subprocess.run(self.words("--once", *more), capture_output=True, text=True)
        return ran.returncode, ran.stderr

    def written(self):
        """The rows of the file by their phones, in its order."""
        told = {}
        with open(self.path) as file:
            for line in file:
                row = json.loads(line)
                told.setdefault(row["phone"], []).append(row)
        return told

    def test_all_rows_once(self):
        """More than an answer has; a second run adds nothing."""
        rows = rows_made(1500)
        make(f"{self.folder}/platform.db", rows)
        with self.service("2026-01-01T12:00:00"):
            self.assertEqual(self.run_once(), (0, ""))
            self.assertEqual(self.written(), lines_of(rows))
            before = os.path.getsize(self.path)
            self.assertEqual(self.run_once(), (0, ""))
        self.assertEqual(os.path.getsize(self.path), before)

    def test_it_goes_on_where_the_file_ends(self):
        rows = rows_made(60)
        make(f"{self.folder}/platform.db", rows)
        with self.service("2026-01-01T08:00:20"):
            self.run_once()
        self.assertEqual({phone: len(found) for phone, found in self.written().items()}, {"013912345678": 21, OTHER: 21})
        with self.service("2026-01-01T08:00:59"):
            self.run_once()
        self.assertEqual(self.written(), lines_of(rows))

    def test_a_line_that_was_cut_off_is_asked_for_again(self):
        rows = rows_made(20)
        make(f"{self.folder}/platform.db", rows)
        with self.service("2026-01-01T12:00:00"):
            self.run_once()
            for cut in (1, 30, 200):
                with self.subTest(cut=cut):
                    os.truncate(self.path, os.path.getsize(self.path) - cut)
                    status, said = self.run_once()
                    self.assertEqual(status, 0)
                    self.assertIn("was cut off", said)
                    self.assertEqual(self.written(), lines_of(rows))

    def test_killed_at_any_moment(self):
        """While rows come, over kills of it and a new start of the service."""
        rows = rows_made(600)
        make(f"{self.folder}/platform.db", rows)
        chance = random.Random(59)
        for begin in ("2026-01-01T08:00:00", "2026-01-01T08:05:00"):
            with self.service(begin, pace=60):
                for _ in range(6):
                    follows = subprocess.Popen(self.words(), stderr=subprocess.DEVNULL)
                    time.sleep(chance.uniform(0.2, 1.2))
                    follows.send_signal(signal.SIGKILL)
                    follows.wait()
        with self.service("2026-01-01T12:00:00"):
            self.assertEqual(self.run_once()[0], 0)
        self.assertEqual(self.written(), lines_of(rows))

    def test_a_service_that_is_away(self):
        rows = rows_made(10)
        make(f"{self.folder}/platform.db", rows)
        self.assertEqual(self.run_once()[0], 1)
        with subprocess.Popen(self.words(), stderr=subprocess.PIPE, text=True) as follows:
            self.assertIn("again in 1 s", follows.stderr.readline())
            with self.service("2026-01-01T12:00:00"):
                until = time.monotonic() + 60
                while time.monotonic() < until and self.written() != lines_of(rows):
                    time.sleep(0.2)
            follows.kill()
        self.assertEqual(self.written(), lines_of(rows))

    def test_what_is_wrong_is_told(self):
        make(f"{self.folder}/platform.db", rows_made(3))
        line = '{"phone":"013912345678","number":4,"id":"0x0200","body":""}\n'
        for content, said in [("a text\n", "line 1"), (line + line, "line 2 is no row behind those before it: row 4"), ('{"phone":"1"}\n', "line 1")]:
            with self.subTest(content=content):
                with open(self.path, "w") as file:
                    file.write(content)
                status, told = self.run_once()
                self.assertEqual(status, 2)
                self.assertIn(said, told)
                with open(self.path) as file:
                    self.assertEqual(file.read(), content)
        os.remove(self.path)
        with self.service("2026-01-01T12:00:00"):
            with open(f"{self.folder}/http.read.token", "w") as file:
                file.write("another\n")
            status, told = self.run_once()
        self.assertEqual(status, 1)
        self.assertIn("401 A token is needed", told)

    def test_two_at_once(self):
        make(f"{self.folder}/platform.db", rows_made(3))
        with self.service("2026-01-01T12:00:00"), subprocess.Popen(self.words()) as first:
            until = time.monotonic() + 60
            while time.monotonic() < until and not (os.path.exists(self.path) and os.path.getsize(self.path)):
                time.sleep(0.1)
            status, told = self.run_once()
            first.kill()
        self.assertEqual(status, 2)
        self.assertIn("another process writes it", told)


if __name__ == "__main__":
    unittest.main()
