#!/usr/bin/env python3
"""Tests of docs/WIRE.md's first two sections, by hand: tools/test_wire.py. The octets of 'A terminal in ten lines' are made here once
more, of the rules in words alone, and compared with those printed. Where the program jt808 is built (or the variable JT808 names it)
they are also read by `jt808 view`, sent to `jt808 platform`, and its answers compared; and each sentence of 'So that nothing is
doubled' is tried. With the variable DEWFELT, or crates/dewfelt/out/dewfelt, the conversations go to `dewfelt serve` too.
"""
import contextlib
import hashlib
import os
import re
import socket
import sqlite3
import subprocess
import tempfile
import time
import unittest

ROOT = os.path.dirname(os.path.dirname(os.path.realpath(__file__)))
PROGRAM = os.environ.get("JT808", f"{ROOT}/crates/jt808/out/jt808")
SERVICE = os.environ.get("DEWFELT", f"{ROOT}/crates/dewfelt/out/dewfelt")
is_built = unittest.skipUnless(os.access(PROGRAM, os.X_OK), "jt808 is not built")
is_service = unittest.skipUnless(os.access(SERVICE, os.X_OK), "dewfelt is not built")

# The fleet of samples/fleet, and one lorry of it.
SECRET, PLATE, TERMINAL = b"example", "粤B12345".encode("gbk"), b"1234567"
DIGITS = {2013: "013912345678", 2019: "00000000013912345678"}
WORD = 2


# ---- the rules in words


def number(value, octets=WORD):
    return value.to_bytes(octets, "big")


def escaped(content):
    """7D as 7D 01, then 7E as 7D 02, and a flag at both ends."""
    return b"\x7e" + content.replace(b"\x7d", b"\x7d\x01").replace(b"\x7e", b"\x7d\x02") + b"\x7e"


def framed(content):
    """A content behind which the XOR of its octets is put."""
    check = 0
    for octet in content:
        check ^= octet
    return escaped(content + bytes([check]))


def contents(stream):
    """The contents of the frames of a stream, without their check octets."""
    found = []
    for within in re.findall(rb"\x7e([^\x7e]+)\x7e", stream):
        whole = within.replace(b"\x7d\x02", b"\x7e").replace(b"\x7d\x01", b"\x7d")
        found.append(whole[:-1])
    return found


def message(edition, identity, serial, body=b"", digits=None, packet=None):
    """A frame: id, attributes, in 2019 a version, the phone two digits an octet, serial, packet fields, body."""
    attributes = len(body) | (0x4000 if edition == 2019 else 0) | (0x2000 if packet else 0)
    version = b"\x01" if edition == 2019 else b""
    places = number(packet[0]) + number(packet[1]) if packet else b""
    return framed(number(identity) + number(attributes) + version + bytes.fromhex(digits or DIGITS[edition]) + number(serial) + places + body)


def code(edition, secret=SECRET, digits=None):
    """Sixteen digits of SHA-256 over the secret and the phone's octets in the header."""
    return hashlib.sha256(secret + bytes.fromhex(digits or DIGITS[edition])).hexdigest()[:16].encode("ascii")


def registration(edition, plate=PLATE, terminal=TERMINAL):
    """Province 44, city 300, maker, model, terminal id, each filled with zero octets, a blue plate."""
    maker, model, identity = (5, 20, 7) if edition == 2013 else (11, 30, 30)
    return number(44) + number(300) + b"DEMO1".ljust(maker, b"\0") + b"T808".ljust(model, b"\0") + terminal.ljust(identity, b"\0") + b"\x01" + plate


def authentication(edition, said):
    """The code alone; in 2019 its length, the code, an IMEI of 15 octets and a version of software of 20."""
    return said if edition == 2013 else bytes([len(said)]) + said + b"123456789012345" + b"1.0".ljust(20, b"\0")


def position(second, altitude=125):
    """Alarm 0; status: located, ignition on; 22.543096 north, 114.057865 east; metres; 60.5 km/h; 90 degrees; the time in digits."""
    moment = bytes.fromhex("2611280630") + bytes.fromhex(f"{second:02}")
    return number(0, 4) + number(3, 4) + number(22543096, 4) + number(114057865, 4) + number(altitude) + number(605) + number(90) + moment


def batch(*positions):
    """How many, kind 0, and each behind its length."""
    return number(len(positions)) + b"\0" + b"".join(number(len(it)) + it for it in positions)


def ack(edition, serial, reply, identity, result, digits=None):
    return message(edition, 0x8001, serial, number(reply) + number(identity) + bytes([result]), digits)


def ten(edition):
    """The ten lines, as (mark, octets): `>` from the terminal, `<` from the platform."""
    sent = [
        (0x0100, registration(edition)),
        (0x0102, authentication(edition, code(edition))),
        (0x0002, b""),
        (0x0200, position(0)),
        (0x0704, batch(position(30), position(59))),
    ]
    found = []
    for serial, (identity, body) in enumerate(sent):
        found.append((">", message(edition, identity, serial, body)))
        if identity == 0x0100:
            found.append(("<", message(edition, 0x8100, serial, number(serial) + b"\0" + code(edition))))
        else:
            found.append(("<", ack(edition, serial, serial, identity, 0)))
    return found


def section(title):
    with open(f"{ROOT}/docs/WIRE.md", encoding="utf-8") as file:
        parts = re.split(r"^## ", file.read(), flags=re.M)
    return next(it for it in parts if it.startswith(f"{title}\n"))


def printed():
    """The lines that the document prints, by edition: a line that begins with `>` or `<`, and those indented behind it."""
    found, edition = {2013: [], 2019: []}, None
    for line in section("A terminal in ten lines").split("\n"):
        if match := re.search(r"[Ii]n (2013|2019)\b.*:$", line):
            edition = int(match[1])
        elif match := re.match(r"    ([<>]) +([0-9a-f ]+)$", line):
            found[edition].append((match[1], match[2]))
        elif match := re.match(r"      +([0-9a-f ]+)$", line):
            mark, before = found[edition].pop()
            found[edition].append((mark, f"{before} {match[1]}"))
    return found


def lines(edition):
    """The printed lines as octets, and behind them those that are not printed since they differ in the header alone."""
    said = [(mark, bytes.fromhex(digits)) for mark, digits in printed()[edition]]
    return said + ten(edition)[len(said) :]


class Printed(unittest.TestCase):
    def test_ten_lines(self):
        for edition, count in ((2013, 10), (2019, 4)):
            with self.subTest(edition):
                self.assertEqual(len(printed()[edition]), count)
                self.assertEqual([(mark, octets.hex()) for mark, octets in lines(edition)], [(mark, octets.hex()) for mark, octets in ten(edition)])

    def test_six_differ_in_header_and_check_octet_alone(self):
        for (_, old), (_, new) in zip(ten(2013)[4:], ten(2019)[4:], strict=True):
            self.assertEqual(contents(old)[0][12:], contents(new)[0][17:])

    def test_what_the_text_says_of_them(self):
        text = section("A terminal in ten lines")
        for edition in (2013, 2019):
            self.assertIn(code(edition).decode("ascii"), text)
        for part in ("6578616d706c65", PLATE.hex(), TERMINAL.decode("ascii"), "013912345678"):
            self.assertIn(part, text)
        # an octet of a position, its altitude, is escaped
        self.assertIn("007d01", text)

    def test_the_examples_of_frames(self):
        self.assertIn("`30 7e 08 7d 55` becomes `7e 30 7d 02 08 7d 01 55 7e`", section("Frames"))
        self.assertEqual(escaped(bytes.fromhex("307e087d55")), bytes.fromhex("7e307d02087d01557e"))


@is_built
class Viewed(unittest.TestCase):
    NAMES = {0x0100: "register", 0x8100: "register-reply", 0x0102: "auth", 0x8001: "platform-ack", 0x0002: "heartbeat", 0x0200: "position", 0x0704: "batch"}

    def test_view(self):
        for edition in (2013, 2019):
            digits = "".join(it.hex() for _, it in lines(edition))
            ran = subprocess.run([PROGRAM, "view", "--hex"], input=digits.encode("ascii"), stdout=subprocess.PIPE)
            said = ran.stdout.decode("ascii").splitlines()
            self.assertEqual((ran.returncode, said[-1]), (0, "frames=10 refused=0"))
            place = 0
            for line, (_, octets) in zip(said[:-1], lines(edition), strict=True):
                (whole,) = contents(octets)
                identity, length = int.from_bytes(whole[:2], "big"), int.from_bytes(whole[2:4], "big") & 1023
                serial = int.from_bytes(whole[len(whole) - length - 2 : len(whole) - length], "big")
                version = "" if edition == 2013 else " version=1"
                head = f"{place} {edition} 0x{identity:04x} {self.NAMES[identity]} phone={DIGITS[edition]} serial={serial}{version} body={length}"
                self.assertEqual(line[: len(head)], head)
                place += len(octets)
            self.assertIn("time=2026-11-28T06:30:00+08:00", said[6])
            self.assertIn("altitude=125 speed=605 direction=90", said[6])


# ---- a terminal


def free_port():
    with socket.socket() as it:
        it.bind(("127.0.0.1", 0))
        return it.getsockname()[1]


class Link:
    """A terminal's connection."""

    def __init__(self, port):
        deadline = time.monotonic() + 30
        while True:
            try:
                self.socket = socket.create_connection(("127.0.0.1", port), timeout=10)
                return
            except ConnectionRefusedError:
                if time.monotonic() > deadline:
                    raise
                time.sleep(0.05)

    def send(self, octets):
        self.socket.sendall(octets)

    def frame(self):
        """The next frame, or what came before the end."""
        found = b""
        while found.count(b"\x7e") < 2:
            octet = self.socket.recv(1)
            if not octet:
                break
            found += octet
        return found

    def ask(self, octets):
        self.send(octets)
        return self.frame()

    def close(self):
        self.socket.close()


class Lorry:
    """A terminal's messages over a link, with serials of its own."""

    def __init__(self, link, edition=2013, digits=None):
        self.link, self.edition, self.digits, self.serial, self.answers = link, edition, digits or DIGITS[edition], 0, 0

    def tell(self, identity, body=b"", serial=None):
        """Sends a message, under the next serial where no other is given, and returns that."""
        mine = self.serial if serial is None else serial
        if serial is None:
            self.serial = (self.serial + 1) % 65536
        self.link.send(message(self.edition, identity, mine, body, self.digits))
        return mine

    def ack(self, identity, body=b"", serial=None):
        """The result of the 8001 that answers a message, once all else of it was looked at."""
        mine = self.tell(identity, body, serial)
        (whole,) = contents(self.link.frame())
        said = message(self.edition, 0x8001, self.answers, number(mine) + number(identity) + whole[-1:], self.digits)
        assert whole == contents(said)[0], (whole.hex(), said.hex())
        self.answers = (self.answers + 1) % 65536
        return whole[-1]

    def register(self, **words):
        """The result of the 8100, and the code."""
        self.tell(0x0100, registration(self.edition, **words))
        (whole,) = contents(self.link.frame())
        self.answers = (self.answers + 1) % 65536
        length = int.from_bytes(whole[2:4], "big") & 1023
        body = whole[len(whole) - length :]
        return body[2], body[3:]

    def enter(self):
        """Registers, and is let in."""
        result, said = self.register()
        assert (result, said) == (0, code(self.edition, digits=self.digits)), (result, said)
        assert self.ack(0x0102, authentication(self.edition, said)) == 0


class Platform:
    """A run of `jt808 platform`, and what it stored and printed."""

    def __init__(self, sessions):
        self.sessions, self.port = sessions, free_port()

    def __enter__(self):
        self.end = contextlib.ExitStack()
        self.folder = self.end.enter_context(tempfile.TemporaryDirectory(prefix="test-wire-"))
        with open(f"{ROOT}/samples/fleet", "rb") as fleet:
            self.run = subprocess.Popen(
                [PROGRAM, "platform", "--port", str(self.port), "--sessions", str(self.sessions)], stdin=fleet, stdout=subprocess.PIPE, cwd=self.folder
            )
        self.end.callback(self.run.stdout.close)
        self.end.callback(self.run.wait)
        self.end.callback(self.run.kill)
        return self

    def __exit__(self, *why):
        self.end.close()

    def link(self):
        found = Link(self.port)
        self.end.callback(found.close)
        return found

    def report(self):
        """What it printed at its end: lines of sessions, and the last one by its words."""
        lines = self.run.stdout.read().decode("utf-8").splitlines()
        assert self.run.wait() == 0, lines
        return lines[:-1], dict((key, int(value)) for key, _, value in (it.partition("=") for it in lines[-1].split()))

    def rows(self):
        """The numbers and bodies of the rows."""
        with contextlib.closing(sqlite3.connect(f"{self.folder}/platform.db")) as base:
            return [(int(n), bytes(body)) for n, body in base.execute("SELECT number, body FROM rows808 ORDER BY phone, number")]


@contextlib.contextmanager
def serving(fleet):
    """The port of a `dewfelt serve` over this fleet, which is stopped in the end."""
    with tempfile.TemporaryDirectory(prefix="test-wire-") as folder, contextlib.ExitStack() as end:
        with open(f"{folder}/fleet", "w", encoding="ascii") as file:
            file.write(f"secret {SECRET.hex()}\n{fleet}\n")
        port = free_port()
        words = [SERVICE, "serve", folder, "--listen", f"127.0.0.1:{port}", "--links", "10", "--http", "none"]
        run = end.enter_context(subprocess.Popen(words, stdout=subprocess.DEVNULL))
        end.callback(run.kill)
        yield port
        assert subprocess.run([SERVICE, "stop", folder], stdout=subprocess.DEVNULL).returncode == 0
        assert run.wait() == 0


@is_built
class Answered(unittest.TestCase):
    def talk(self, port_link, edition):
        """Says the printed lines of the terminal, and compares the answers with the printed ones."""
        every = lines(edition)
        for (said, octets), (answered, expected) in zip(every[::2], every[1::2], strict=True):
            self.assertEqual((said, answered), (">", "<"))
            self.assertEqual(port_link.ask(octets).hex(), expected.hex())

    def test_platform(self):
        for edition in (2013, 2019):
            with self.subTest(edition), Platform(1) as platform:
                link = platform.link()
                self.talk(link, edition)
                link.close()
                _, counts = platform.report()
                # five requests and the session's end
                self.assertEqual(counts, {"entries": 6, "stored": 2, "repeat": 0, "renumbered": 0})
                self.assertEqual(platform.rows(), [(3, position(0)), (4, batch(position(30), position(59)))])

    @is_service
    def test_serve(self):
        for edition in (2013, 2019):
            with self.subTest(edition), serving(f"plate {PLATE.hex()}\nterminal {TERMINAL.hex()}") as port, contextlib.closing(Link(port)) as link:
                self.talk(link, edition)

    @is_service
    def test_a_line_vehicle_keeps_the_registration(self):
        with serving(f"vehicle {PLATE.hex()} {TERMINAL.hex()} {DIGITS[2013]}") as port, contextlib.closing(Link(port)) as link:
            lorry = Lorry(link)
            said = authentication(2013, code(2013))
            # registered from the start on, and behind a 0003
            self.assertEqual([lorry.ack(0x0102, said), lorry.ack(0x0003), lorry.ack(0x0200, position(1))], [0, 0, 1])
            self.assertEqual([lorry.ack(0x0102, said), lorry.ack(0x0200, position(1))], [0, 0])


@is_built
class Doubled(unittest.TestCase):
    """What stands in 'So that nothing is doubled', tried with a terminal that is not this project's."""

    def tried(self, sessions=1):
        return self.enterContext(Platform(sessions))

    def over(self, platform, *lorries):
        """Ends the links; the counts and the rows."""
        for lorry in lorries:
            lorry.link.close()
        _, counts = platform.report()
        return counts, platform.rows()

    def test_again_under_its_serial_is_a_repeat(self):
        platform = self.tried(2)
        lorry = Lorry(platform.link())
        lorry.enter()
        self.assertEqual(lorry.ack(0x0200, position(1)), 0)
        self.assertEqual(lorry.ack(0x0002), 0)
        self.assertEqual(lorry.ack(0x0200, position(2)), 0)
        # on the same link, behind another unit and other messages, and on a new link
        self.assertEqual(lorry.ack(0x0200, position(1), serial=2), 0)
        again = Lorry(platform.link())
        again.serial = lorry.serial
        self.assertEqual(again.ack(0x0102, authentication(2013, code(2013))), 0)
        self.assertEqual(again.ack(0x0200, position(1), serial=2), 0)
        self.assertEqual(again.ack(0x0200, position(2), serial=4), 0)
        counts, rows = self.over(platform, lorry, again)
        self.assertEqual((counts["stored"], counts["repeat"], counts["renumbered"]), (2, 3, 0))
        self.assertEqual(rows, [(2, position(1)), (4, position(2))])

    def test_again_under_a_new_serial_is_stored_twice(self):
        platform = self.tried()
        lorry = Lorry(platform.link())
        lorry.enter()
        self.assertEqual([lorry.ack(0x0200, position(1)) for _ in range(2)], [0, 0])
        counts, rows = self.over(platform, lorry)
        self.assertEqual((counts["stored"], counts["repeat"]), (2, 0))
        self.assertEqual(rows, [(2, position(1)), (3, position(1))])

    def test_another_id_or_body_under_its_serial_is_another_unit(self):
        platform = self.tried()
        lorry = Lorry(platform.link())
        lorry.enter()
        self.assertEqual(lorry.ack(0x0200, position(1)), 0)
        # the same position as a batch of one under the same serial: a new row, under a later number
        self.assertEqual(lorry.ack(0x0704, batch(position(1)), serial=2), 0)
        # and now the first one under that serial again: another unit of that serial came between
        self.assertEqual(lorry.ack(0x0200, position(1), serial=2), 0)
        counts, rows = self.over(platform, lorry)
        self.assertEqual((counts["stored"], counts["repeat"], counts["renumbered"]), (1, 0, 2))
        self.assertEqual(rows, [(2, position(1)), (65538, batch(position(1))), (131074, position(1))])

    def test_serials_that_begin_at_0_again(self):
        platform = self.tried(2)
        lorry = Lorry(platform.link())
        lorry.enter()
        self.assertEqual([lorry.ack(0x0200, position(it)) for it in (1, 2, 3)], [0, 0, 0])
        lorry.link.close()
        anew = Lorry(platform.link())
        anew.enter()
        # a unit of before under its old serial is a repeat while no new one is stored
        self.assertEqual(anew.ack(0x0200, position(3), serial=4), 0)
        # serial 2 with another fix, and 3 with another one: each is stored, the second is the next row behind the first
        self.assertEqual([anew.ack(0x0200, position(it)) for it in (11, 12)], [0, 0])
        # the same unit now is stored twice
        self.assertEqual(anew.ack(0x0200, position(3), serial=4), 0)
        counts, rows = self.over(platform, anew)
        self.assertEqual((counts["stored"], counts["repeat"], counts["renumbered"]), (5, 1, 1))
        self.assertEqual([number for number, _ in rows], [2, 3, 4, 131074, 131075, 131076])

    def test_the_same_octets_under_the_same_serial_after_a_start_at_0(self):
        platform = self.tried(2)
        lorry = Lorry(platform.link())
        lorry.enter()
        self.assertEqual(lorry.ack(0x0200, position(1)), 0)
        lorry.link.close()
        anew = Lorry(platform.link())
        anew.enter()
        # a terminal without a moment, that reports the same octets under the same serial: answered, and not stored again
        self.assertEqual(anew.ack(0x0200, position(1)), 0)
        counts, rows = self.over(platform, anew)
        self.assertEqual((counts["stored"], counts["repeat"]), (1, 1))
        self.assertEqual(rows, [(2, position(1))])

    def test_how_far_back_a_repeat_is_known(self):
        for last, are_twice in ((32770, False), (32771, True)):
            with self.subTest(last), Platform(1) as platform:
                lorry = Lorry(platform.link())
                lorry.enter()
                self.assertEqual(lorry.ack(0x0200, position(1)), 0)
                self.assertEqual(lorry.ack(0x0200, position(2), serial=32768), 0)
                self.assertEqual(lorry.ack(0x0200, position(3), serial=last), 0)
                self.assertEqual(lorry.ack(0x0200, position(1), serial=2), 0)
                lorry.link.close()
                _, counts = platform.report()
                self.assertEqual(counts["repeat"] == 0, are_twice, counts)
                self.assertEqual(len(platform.rows()), 4 if are_twice else 3)

    def test_a_logout_takes_the_registration_away(self):
        platform = self.tried(2)
        lorry = Lorry(platform.link())
        lorry.enter()
        self.assertEqual(lorry.ack(0x0200, position(1)), 0)
        self.assertEqual(lorry.ack(0x0003), 0)
        self.assertEqual(lorry.ack(0x0200, position(2)), 1)
        self.assertEqual(lorry.ack(0x0102, authentication(2013, code(2013))), 1)
        lorry.link.close()
        again = Lorry(platform.link())
        again.serial = lorry.serial
        self.assertEqual(again.ack(0x0102, authentication(2013, code(2013))), 1)
        # a registration gives the same code, and the rows are there
        again.enter()
        self.assertEqual(again.ack(0x0200, position(1), serial=2), 0)
        counts, rows = self.over(platform, again)
        self.assertEqual((counts["stored"], counts["repeat"]), (1, 1))
        self.assertEqual(rows, [(2, position(1))])

    def test_a_second_connection_takes_over(self):
        platform = self.tried(2)
        lorry = Lorry(platform.link())
        lorry.enter()
        self.assertEqual(lorry.ack(0x0200, position(1)), 0)
        other = Lorry(platform.link())
        other.serial = 3
        # connected and registered again it takes nothing over; let in it does
        self.assertEqual(other.register(), (0, code(2013)))
        self.assertEqual(lorry.ack(0x0200, position(2)), 0)
        self.assertEqual(other.ack(0x0102, authentication(2013, code(2013))), 0)
        # the first one's next unit is not stored, and its link ends
        self.assertEqual(lorry.ack(0x0200, position(3)), 1)
        self.assertEqual(lorry.link.frame(), b"")
        self.assertEqual(other.ack(0x0200, position(3), serial=4), 0)
        counts, rows = self.over(platform, lorry, other)
        self.assertEqual((counts["stored"], counts["repeat"], counts["renumbered"]), (3, 0, 0))
        self.assertEqual(rows, [(2, position(1)), (3, position(2)), (4, position(3))])

    def test_a_heartbeat_of_the_first_one_ends_its_link_too(self):
        platform = self.tried(2)
        lorry, other = Lorry(platform.link()), Lorry(platform.link())
        lorry.enter()
        other.enter()
        self.assertEqual(lorry.ack(0x0002), 1)
        self.assertEqual(lorry.link.frame(), b"")
        # a second 0102 on a link that holds the phone takes nothing over
        self.assertEqual(other.ack(0x0102, authentication(2013, code(2013))), 0)
        self.over(platform, lorry, other)

    def test_nothing_is_stored_before_the_code(self):
        platform = self.tried()
        lorry = Lorry(platform.link())
        self.assertEqual(lorry.ack(0x0200, position(1)), 1)
        self.assertEqual(lorry.ack(0x0102, authentication(2013, code(2013))), 1)
        self.assertEqual(lorry.register()[0], 0)
        self.assertEqual(lorry.ack(0x0200, position(1)), 1)
        # the code of 2013 is none of 2019
        self.assertEqual(lorry.ack(0x0102, authentication(2013, code(2019))), 1)
        self.assertEqual(lorry.ack(0x0102, authentication(2013, code(2013))), 0)
        counts, rows = self.over(platform, lorry)
        self.assertEqual((counts["stored"], rows), (0, []))

    def test_another_phone_on_the_link(self):
        platform = self.tried()
        lorry = Lorry(platform.link())
        lorry.enter()
        lorry.digits = "013912345679"
        self.assertEqual(lorry.ack(0x0200, position(1)), 1)
        lorry.digits = DIGITS[2013]
        self.assertEqual(lorry.ack(0x0200, position(1)), 0)
        counts, rows = self.over(platform, lorry)
        self.assertEqual((counts["stored"], len(rows)), (1, 1))

    def test_a_unit_in_packets_is_one(self):
        platform = self.tried()
        lorry = Lorry(platform.link())
        lorry.enter()
        whole = batch(*(position(it) for it in range(40)))
        parts = [whole[:1023], whole[1023:]]
        for at, part in enumerate(parts):
            lorry.link.send(message(2013, 0x0704, 2 + at, part, packet=(2, at + 1)))
        # answered once, by the serial of its first packet
        self.assertEqual(lorry.link.frame(), ack(2013, lorry.answers, 2, 0x0704, 0))
        lorry.link.close()
        _, counts = platform.report()
        self.assertEqual((counts["stored"], platform.rows()), (1, [(2, whole)]))


if __name__ == "__main__":
    unittest.main()
