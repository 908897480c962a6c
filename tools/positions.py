#!/usr/bin/env python3
"""Shows where the phones of a platform were, from its file.

    tools/positions.py [platform.db] [--phone D] [--http ADDRESS:PORT] [--csv FILE | --geojson FILE | --svg FILE]

Without a form: the last position of each phone, or with --phone all positions of that phone, a line each. With one: all
positions, as comma-separated values, as GeoJSON (a line and a last point a phone) or as a drawing of the tracks; FILE `-` is
standard output. D has the phone's digits; zeros at its front may be left out.

While a platform runs its file is locked. So this never opens the file itself: it copies the file and its log into a temporary
folder, says whether a platform holds the lock, and reads the copy. It is for looking, and nothing rests on it.

A fix whose terminal did not know where it was (bit 1 of the status is 0) is no position. It is left out, and how many were is
told on standard error. The last position is that of the row that was stored last; one of a batch that came late (a batch of
kind 1: positions that could not be sent when they were taken) is it only where its time is after that of the last before it.
Lines of GeoJSON and of the drawing go by time, and positions without a moment are in none; values and CSV go by rows.

Latitude and longitude are in degrees, south and west below zero (bits 2 and 3 of the status); speed in km/h, altitude in
metres, direction in degrees from north, mileage in km (item 0x01), alarm and status as in docs/WIRE.md. `heard` is when the
platform heard the terminal last. No file holds that: it is asked of the `dewfelt serve` that has the file, at the address of
its interface that --http names, with the token that stands beside the file, and told at the last position of each phone.
Where a value names no moment, or is not there, it is `-`.

The status is 0; 1 where some row is no position that can be read, which is told on standard error; 2 where the words or the
file are none that this reads.
"""
import collections
import csv
import datetime
import fcntl
import json
import os
import shutil
import sqlite3
import struct
import sys
import tempfile

sys.dont_write_bytecode = True
import command_line  # noqa: E402
import position_drawing  # noqa: E402
import rows  # noqa: E402

POSITION, BATCH = 0x0200, 0x0704
FIXED = struct.Struct(">IIIIHHH6s")
LOCATED, SOUTH, WEST = 1 << 1, 1 << 2, 1 << 3
LATE = 1
MILEAGE = 0x01
CHINA = datetime.timezone(datetime.timedelta(hours=8))
FIELDS = ("phone", "number", "time", "latitude", "longitude", "speed", "altitude", "direction", "mileage", "alarm", "status", "heard")
# SQLite's bytes of the file that a reader locks.
SHARED_FIRST, SHARED_SIZE = 0x40000002, 510

# A position, and whether it came in a late batch.
Position = collections.namedtuple("Position", (*FIELDS, "late"), defaults=(None, False))
DEGREES, BITS = ("latitude", "longitude"), ("alarm", "status")


class Unread(Exception):
    """Why a row or a file was not read."""


def moment(octets):
    """The moment that six octets of digits name, as text, or None."""
    digits = octets.hex()
    try:
        return datetime.datetime.strptime("20" + digits, "%Y%m%d%H%M%S").replace(tzinfo=CHINA).isoformat()
    except ValueError:
        return None


def mileage_in(items):
    """The tenths of km of the last mileage among the items of a position, or None."""
    found, at = None, 0
    while at < len(items):
        if at + 2 > len(items) or at + 2 + items[at + 1] > len(items):
            raise Unread(f"an item passes the end at {FIXED.size + at}")
        name, value = items[at], items[at + 2 : at + 2 + items[at + 1]]
        if name == MILEAGE and len(value) == 4:
            found = int.from_bytes(value, "big")
        at += 2 + len(value)
    return found


def position(phone, number, octets, late=False):
    """The position in the octets of one position report."""
    if len(octets) < FIXED.size:
        raise Unread(f"a position of {len(octets)} octets")
    alarm, status, latitude, longitude, altitude, speed, direction, time = FIXED.unpack_from(octets)
    mileage = mileage_in(octets[FIXED.size :])
    return Position(
        phone,
        number,
        moment(time),
        (-latitude if status & SOUTH else latitude) / 1_000_000,
        (-longitude if status & WEST else longitude) / 1_000_000,
        speed / 10,
        altitude,
        direction,
        None if mileage is None else mileage / 10,
        alarm,
        status,
        late=late,
    )


def batch(octets):
    """The octets of each position of a batch."""
    if len(octets) < 3:
        raise Unread(f"a batch of {len(octets)} octets")
    count, at, found = int.from_bytes(octets[:2], "big"), 3, []
    for _ in range(count):
        size = int.from_bytes(octets[at : at + 2], "big")
        if at + 2 + size > len(octets):
            raise Unread(f"a position passes the end at {at}")
        found.append(octets[at + 2 : at + 2 + size])
        at += 2 + size
    if at != len(octets):
        raise Unread(f"octets behind the last position at {at}")
    return found


def positions_of(phone, number, message, body):
    """The positions of one row."""
    if message == POSITION:
        return [position(phone, number, body)]
    if message == BATCH:
        return [position(phone, number, octets, late=body[2] == LATE) for octets in batch(body)]
    raise Unread(f"a message 0x{message:04x}")


def is_locked(path):
    """Whether another process holds the file as a platform does. None where the system does not tell."""
    try:
        with open(path, "rb") as file:
            asked = struct.pack("hhlli", fcntl.F_RDLCK, os.SEEK_SET, SHARED_FIRST, SHARED_SIZE, 0)
            answer = fcntl.fcntl(file, fcntl.F_GETLK, asked)
        return struct.unpack("hhlli", answer)[0] != fcntl.F_UNLCK
    except (OSError, struct.error, AttributeError):
        return None


def state_of(path):
    """What changes where a platform copies its log into its file."""
    found = os.stat(path)
    try:
        with open(f"{path}-wal", "rb") as log:
            return found.st_mtime_ns, found.st_size, log.read(32)
    except FileNotFoundError:
        return found.st_mtime_ns, found.st_size, b""


def copy(path, folder):
    """Copies the file and its log as they stand together, and gives the copy's path."""
    to = os.path.join(folder, "copy.db")
    for _ in range(20):
        before = state_of(path)
        shutil.copyfile(path, to)
        if before[2]:
            shutil.copyfile(f"{path}-wal", f"{to}-wal")
        elif os.path.exists(f"{to}-wal"):
            os.remove(f"{to}-wal")
        if state_of(path) == before:
            return to
    raise Unread("the platform writes it faster than it can be copied")


def digits_of(octets, version):
    """A phone's digits: twelve where the others before them are zeros, and otherwise twenty."""
    digits = bytes(octets)[1 if version == 1 else 0 :].hex()
    return digits[8:] if digits.startswith("00000000") else digits


def rows_of(path, phone):
    """Each row of the file: phone, number, id and body, in the order of phones and numbers."""
    with sqlite3.connect(path) as base:
        versions = [it for it, in base.execute("SELECT version FROM meta")]
        if versions not in ([1], [2]):
            raise Unread(f"its version is {versions}")
        every = "SELECT phone, number, id, body FROM rows808 ORDER BY phone, number"
        for octets, number, message, body in base.execute(every):
            digits = digits_of(octets, versions[0])
            if phone is None or digits.lstrip("0") == phone.lstrip("0"):
                yield digits, number, message, bytes(body)


def is_located(position):
    return position.status & LOCATED != 0


def read(path, phone):
    """All fixes of a file, in the order of phones and numbers, and how many rows were not read."""
    found, unread = [], 0
    with tempfile.TemporaryDirectory(prefix="positions-") as folder:
        for row in rows_of(copy(path, folder), phone):
            try:
                found += positions_of(*row)
            except Unread as why:
                print(f"positions: row {row[1]} of {row[0]}: {why}", file=sys.stderr)
                unread += 1
    return found, unread


def located_of(fixes):
    """The fixes that are positions. How many are none is told."""
    found = list(filter(is_located, fixes))
    if len(found) < len(fixes):
        print(f"positions: fixes left out, of terminals that did not know where they were: {len(fixes) - len(found)}", file=sys.stderr)
    return found


def last_of(track):
    """The last position of a phone, whose positions these are in the order of rows."""
    last = track[0]
    for it in track[1:]:
        if not it.late or (it.time and last.time and it.time > last.time):
            last = it
    return last


def way_of(track):
    """The positions that have a moment, by time."""
    return sorted((it for it in track if it.time), key=lambda it: it.time)


def with_heard(positions, heard):
    """The positions, of which the last of each phone has when the phone was heard."""
    last = {id(last_of(track)): heard.get(phone) for phone, track in by_phone(positions).items()}
    return [it._replace(heard=last[id(it)]) if id(it) in last else it for it in positions]


def heard_by(address, folder):
    """When each phone was heard, as the service at an address says whose folder this is."""
    try:
        service = rows.Service(address, rows.token_in(folder))
        return {it["phone"]: it["heard_at"] for it in service.vehicles()}
    except (OSError, rows.Refused, command_line.Mistake) as why:
        raise Unread(f"{address} does not say when phones were heard: {why}") from None


def by_phone(positions):
    tracks = {}
    for it in positions:
        tracks.setdefault(it.phone, []).append(it)
    return tracks


def text(name, value, missing):
    if value is None:
        return missing
    if name in DEGREES:
        return f"{value:.6f}"
    return f"0x{value:08x}" if name in BITS else str(value)


def texts(position, missing):
    """The text of each field, degrees with all six digits behind the point, bits as digits."""
    return [text(name, value, missing) for name, value in zip(FIELDS, position)]


def write_lines(positions, to):
    """One line a position, in columns."""
    lines = [FIELDS, *(texts(it, "-") for it in positions)]
    widths = [max(map(len, column)) for column in zip(*lines)]
    for line in lines:
        print(" ".join(value.ljust(width) for value, width in zip(line, widths)).rstrip(), file=to)


def write_csv(positions, to):
    out = csv.writer(to, lineterminator="\n")
    out.writerow(FIELDS)
    out.writerows(texts(it, "") for it in positions)


def feature(kind, coordinates, **told):
    return {"type": "Feature", "properties": told, "geometry": {"type": kind, "coordinates": coordinates}}


def write_geojson(positions, to):
    features = []
    for phone, track in by_phone(positions).items():
        places = [[it.longitude, it.latitude] for it in way_of(track)]
        if len(places) > 1:
            features.append(feature("LineString", places, phone=phone, positions=len(places)))
        last = last_of(track)
        features.append(feature("Point", [last.longitude, last.latitude], **dict(zip(FIELDS, last))))
    json.dump({"type": "FeatureCollection", "features": features}, to, indent=1)
    print(file=to)


def write_svg(positions, to):
    position_drawing.write([(way_of(track), last_of(track)) for track in by_phone(positions).values()], to)


def words():
    asked = command_line.Words(__doc__)
    asked.add_argument("file", nargs="?", default="platform.db")
    asked.add_argument("--phone", help="its digits")
    asked.add_argument("--http", metavar="ADDRESS:PORT", help="the interface of the service that has the file")
    forms = asked.add_mutually_exclusive_group()
    for form in ("csv", "geojson", "svg"):
        forms.add_argument(f"--{form}", metavar="FILE", help="`-` is standard output")
    return asked.parse_args()


def write(asked, positions):
    forms = {"csv": write_csv, "geojson": write_geojson, "svg": write_svg}
    for form, writer in forms.items():
        name = getattr(asked, form)
        if name == "-":
            return writer(positions, sys.stdout)
        if name is not None:
            with open(name, "w", encoding="utf-8", newline="") as to:
                return writer(positions, to)
    if asked.phone is None:
        positions = [last_of(track) for track in by_phone(positions).values()]
    return write_lines(positions, sys.stdout)


def main():
    asked, unread = words(), 0
    try:
        if is_locked(asked.file):
            print(f"positions: a platform has {asked.file} open; this reads a copy of it and its log", file=sys.stderr)
        fixes, unread = read(asked.file, asked.phone)
        positions = located_of(fixes)
        if asked.http is not None:
            positions = with_heard(positions, heard_by(asked.http, os.path.dirname(os.path.abspath(asked.file))))
        write(asked, positions)
        sys.stdout.flush()
    except BrokenPipeError:
        os.dup2(os.open(os.devnull, os.O_WRONLY), 1)
    except (OSError, sqlite3.Error, Unread) as why:
        print(f"positions: {asked.file}: {why}", file=sys.stderr)
        return 2
    if unread:
        print(f"positions: {unread} rows were not read", file=sys.stderr)
    return 1 if unread else 0


if __name__ == "__main__":
    command_line.run(main)
