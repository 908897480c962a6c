#!/usr/bin/env python3
"""Makes lines of fixes, as `jt808 report` reads them, from comma-separated values.

    tools/fix.py [FILE.csv] > FILE.fixes

A row is a time, a latitude, a longitude and a speed. Where the first row has the names `time`, `latitude`, `longitude` and
`speed` the columns may stand in any order and others beside them; `altitude` and `direction` are then taken too. So what
`tools/positions.py --csv -` writes can be read again. Without names these are the first four columns. No FILE is standard input.

A time is `2026-11-28T06:30:00` or `2026-11-28 06:30:00` in GMT+8, or has another zone behind it (`Z`, `+01:00`); its year is
2000 to 2099. Latitude and longitude are degrees, south and west below zero, kept to a millionth; a speed is km/h, kept to a
tenth, at most 6553.5; altitude is metres and direction degrees, whole numbers from 0 to 65535, 0 where they are not there. A
fix has alarm 0, status bits 0 and 1 (engine on, position valid), 2 in the south and 3 in the west, and no items.

The status is 0; 1 at the first bad row, which is told on standard error (the lines before it are written); 2 where the words or
the file are none that this reads.
"""
import csv
import datetime
import decimal
import os
import struct
import sys

import command_line

FIXED = struct.Struct(">IIIIHHH6s")
IS_ON, IS_VALID, SOUTH, WEST = 1 << 0, 1 << 1, 1 << 2, 1 << 3
CHINA = datetime.timezone(datetime.timedelta(hours=8))
COLUMNS = ("time", "latitude", "longitude", "speed")


class Bad(Exception):
    """Why a row makes no fix."""


def number(row, name, unit, most):
    """The value of a column in units of 1/`unit`, rounded, with its sign."""
    text = (row.get(name) or "0").strip()
    try:
        value = decimal.Decimal(text) * unit
    except decimal.InvalidOperation:
        raise Bad(f"{name} {text!r} is no number") from None
    if not value.is_finite() or abs(value) > most:
        raise Bad(f"{name} {text} is too large")
    return int(value.to_integral_value())


def positive(row, name, unit):
    value = number(row, name, unit, 65535)
    if value < 0:
        raise Bad(f"{name} is below zero")
    return value


def digits(text):
    """The six octets of a time."""
    try:
        when = datetime.datetime.fromisoformat(text.strip().replace("Z", "+00:00"))
    except ValueError:
        raise Bad(f"time {text!r} is none") from None
    when = when.replace(tzinfo=CHINA) if when.tzinfo is None else when.astimezone(CHINA)
    if not 2000 <= when.year <= 2099:
        raise Bad(f"the year {when.year} has no two digits")
    return bytes.fromhex(when.strftime("%y%m%d%H%M%S"))


def fix(row):
    """The octets of one fix, from a row by its columns' names."""
    for name in COLUMNS:
        if not (row.get(name) or "").strip():
            raise Bad(f"no {name}")
    latitude = number(row, "latitude", 1_000_000, 90_000_000)
    longitude = number(row, "longitude", 1_000_000, 180_000_000)
    status = IS_ON | IS_VALID | (SOUTH if latitude < 0 else 0) | (WEST if longitude < 0 else 0)
    moving = positive(row, "altitude", 1), positive(row, "speed", 10), positive(row, "direction", 1)
    return FIXED.pack(0, status, abs(latitude), abs(longitude), *moving, digits(row["time"]))


def rows(file):
    """Each row of values with its line's number, by the columns' names."""
    read = csv.reader(file)
    names = COLUMNS
    for at, values in enumerate(read):
        if at == 0 and set(COLUMNS) <= {it.strip() for it in values}:
            names = [it.strip() for it in values]
        elif values:
            yield read.line_num, dict(zip(names, values))


def write(file, to):
    """Writes a line for each row. Gives the status."""
    for line, row in rows(file):
        try:
            print(fix(row).hex(), file=to)
        except Bad as why:
            print(f"fix: line {line}: {why}", file=sys.stderr)
            return 1
    return 0


def main():
    asked = command_line.Words(__doc__)
    asked.add_argument("file", nargs="?", help="time,latitude,longitude,speed; standard input where it is missing")
    name = asked.parse_args().file
    try:
        if name is None:
            return write(sys.stdin, sys.stdout)
        with open(name, newline="", encoding="utf-8") as file:
            return write(file, sys.stdout)
    except BrokenPipeError:
        os.dup2(os.open(os.devnull, os.O_WRONLY), 1)
        return 0
    except (OSError, UnicodeDecodeError, csv.Error) as why:
        print(f"fix: {why}", file=sys.stderr)
        return 2


if __name__ == "__main__":
    command_line.run(main)
