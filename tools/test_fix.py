#!/usr/bin/env python3
"""Tests of tools/fix.py and of the samples, by hand: tools/test_fix.py. Where the program jt808 is built (or the variable JT808
names it) they also compare numbers and refusals with `jt808 view`.
"""
import filecmp
import os
import re
import subprocess
import sys
import tempfile
import unittest

HERE = os.path.dirname(os.path.realpath(__file__))
SAMPLES = f"{os.path.dirname(HERE)}/samples"
sys.path.insert(0, HERE)
sys.dont_write_bytecode = True
import make_samples  # noqa: E402

PROGRAM = os.environ.get("JT808", f"{os.path.dirname(HERE)}/crates/jt808/out/jt808")
is_built = unittest.skipUnless(os.access(PROGRAM, os.X_OK), "jt808 is not built")


def run(text, *words):
    ran = subprocess.run([f"{HERE}/fix.py", *words], input=text, capture_output=True, text=True)
    return ran.returncode, ran.stdout.splitlines(), ran.stderr


def view(octets):
    ran = subprocess.run([PROGRAM, "view"], input=octets, stdout=subprocess.PIPE)
    return ran.stdout.decode().splitlines()


# Rows, and the octets of their fixes worked out by hand: alarm, status, latitude, longitude, altitude, speed, direction, time.
BY_HAND = [
    # 20.000001 degrees are 20,000,001 = 0x01312d01 millionths, 113 are 0x06bc3e40
    ("2024-01-01T00:00:00,20.000001,113,0", "00000000" "00000003" "01312d01" "06bc3e40" "0000" "0000" "0000" "240101000000"),
    # south and west; 33,856,784 = 0x02049d10, 151,215,297 = 0x09035cc1; 60.0 km/h are 600 = 0x0258 tenths
    ("2024-03-05 00:00:30,-33.856784,-151.215297,60", "00000000" "0000000f" "02049d10" "09035cc1" "0000" "0258" "0000" "240305000030"),
    # half past one in the zone of Greenwich is half past nine in GMT+8; the seventh digit is rounded; 6553.5 is the most
    ("2026-11-28T01:30:00Z,0.0000006,-0.0000004,6553.5", "00000000" "00000003" "00000001" "00000000" "0000" "ffff" "0000" "261128093000"),
]


class Fixes(unittest.TestCase):
    def test_values_by_hand(self):
        status, lines, said = run("\n".join(row for row, _ in BY_HAND))
        self.assertEqual((status, said), (0, ""))
        self.assertEqual(lines, [octets for _, octets in BY_HAND])

    def test_columns_by_their_names(self):
        text = "phone,speed,longitude,latitude,direction,altitude,time\n1,60,113,20.000001,359,12,2024-01-01T00:00:00\n"
        # 12 metres are 0x000c, 359 degrees 0x0167
        self.assertEqual(run(text)[1], ["00000000" "00000003" "01312d01" "06bc3e40" "000c" "0258" "0167" "240101000000"])

    def test_bad_rows_are_told_with_their_line(self):
        good = "2024-01-01T00:00:00,20,113,0\n"
        bad = [
            ("2024-02-30T00:00:00,20,113,0", "time"),
            (",20,113,0", "no time"),
            ("1999-12-31T23:59:59,20,113,0", "1999"),
            ("2024-01-01T00:00:00,90.1,113,0", "latitude"),
            ("2024-01-01T00:00:00,20,180.1,0", "longitude"),
            ("2024-01-01T00:00:00,x,113,0", "no number"),
            ("2024-01-01T00:00:00,20,113,-1", "below zero"),
            ("2024-01-01T00:00:00,20,113,6553.6", "speed"),
            ("2024-01-01T00:00:00,20,113", "no speed"),
        ]
        for row, word in bad:
            with self.subTest(row=row):
                status, lines, said = run(f"{good}{row}\n{good}")
                self.assertEqual((status, len(lines)), (1, 1))
                self.assertIn("line 2:", said)
                self.assertIn(word, said)

    def test_a_file_that_is_not_there(self):
        self.assertEqual(run("", "/no/such/file")[0], 2)

    @is_built
    def test_beside_the_viewer(self):
        octets = [bytes.fromhex(it) for it in run("\n".join(row for row, _ in BY_HAND))[1]]
        lines = view(b"".join(make_samples.frame(2013, 0x0200, at, it) for at, it in enumerate(octets)))
        wanted = [
            "status=0x00000003 lat=20000001 lon=113000000 altitude=0 speed=0 direction=0 time=2024-01-01T00:00:00+08:00",
            "status=0x0000000f lat=33856784 lon=151215297 altitude=0 speed=600 direction=0 time=2024-03-05T00:00:30+08:00",
            "status=0x00000003 lat=1 lon=0 altitude=0 speed=65535 direction=0 time=2026-11-28T09:30:00+08:00",
        ]
        self.assertEqual([re.sub(".* alarm=0x00000000 ", "", line) for line in lines[:-1]], wanted)


class Samples(unittest.TestCase):
    def test_they_are_what_the_script_makes(self):
        with tempfile.TemporaryDirectory() as folder:
            subprocess.run([f"{HERE}/make_samples.py", folder], check=True)
            for name in ("day.fixes", "mixed.bin"):
                self.assertTrue(filecmp.cmp(f"{folder}/{name}", f"{SAMPLES}/{name}", shallow=False), name)

    def test_the_day(self):
        with open(f"{SAMPLES}/day.fixes", encoding="ascii") as file:
            lines = file.read().splitlines()
        self.assertEqual(len(lines), 2880)
        self.assertEqual({len(it) for it in lines}, {56})
        # the first half minute of the day at 22.543100, 114.0579 degrees: 22,543,100 = 0x0157fafc, 114,057,900 = 0x06cc62ac
        self.assertEqual(lines[0], "00000000" "00000003" "0157fafc" "06cc62ac" "0000" "0000" "0000" "261128000000")
        self.assertEqual(lines[-1][-12:], "261128235930")

    def test_frames_by_hand(self):
        # Heartbeats: all octets between the flags but the last are joined by exclusive or. 2013 with serial 12:
        # 02^01^39^12^34^56^78^0c = 3e. 2019 with serial 3: 02^40^01^01^39^12^34^56^78^03 = 70.
        self.assertEqual(make_samples.frame(2013, 0x0002, 12, b"").hex(), "7e0002000001391234567800" "0c3e7e")
        self.assertEqual(make_samples.frame(2019, 0x0002, 3, b"").hex(), "7e00024000010000000001391234567800" "03707e")
        # 2013, id 0f00, five octets, serial 4, both escapes: 0f^05^01^39^12^34^56^78^04^30^7e^08^7d^55 = 50
        self.assertEqual(
            make_samples.frame(2013, 0x0F00, 4, bytes.fromhex("307e087d55")).hex(),
            "7e0f000005013912345678" "0004" "307d02087d0155" "507e",
        )

    @is_built
    def test_mixed_beside_the_viewer(self):
        with open(f"{SAMPLES}/mixed.bin", "rb") as file:
            octets = file.read()
        lines = view(octets)
        self.assertEqual(lines[-1], "frames=16 refused=9")
        refused = [re.sub(r"^\d+", "", line) for line in lines if " refused " in line]
        # the offsets by the layouts: a field behind 20 octets of a position behind a header of 12; the octet behind a result
        # other than 0 behind a header of 17 and 3; the attributes at 2; the check octet at 12 of 13 octets
        wanted = [
            "+0 refused Stray",
            "+12 refused CheckMismatch computed=35 found=34",
            "+0 refused EmptyFrame",
            "+32 refused Truncated",
            "+20 refused Trailing",
            "+2 refused Encrypted",
            "+8 refused TooShort",
            "+0 refused BadEscape",
            "+0 refused Truncated",
        ]
        self.assertEqual(refused, wanted)
        ids = [line.split()[1:4] for line in lines[:-1] if " refused " not in line]
        names = "register register-reply auth platform-ack position batch set-params text opaque params".split()
        self.assertEqual([it[2] for it in ids[:10]], names)
        self.assertEqual([it[0] for it in ids], ["2013"] * 10 + ["2019"] * 4 + ["2013"] * 2)
        self.assertTrue(lines[-2].startswith(f"{len(octets)}+0 "))


if __name__ == "__main__":
    unittest.main()
