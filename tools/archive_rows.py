"""What stands in a row of a platform's file, as tools/archive.py puts it into a database, and what stops that."""
import datetime
import hashlib
import struct

POSITION, BATCH = 0x0200, 0x0704
FIXED = struct.Struct(">IIIIHHH6s")
SOUTH, WEST = 1 << 2, 1 << 3
CHINA = datetime.timezone(datetime.timedelta(hours=8))
NO_DAY = datetime.date(1970, 1, 1)

# Items whose value is one number: by id and length their name, and by what they are divided.
ITEMS = {
    (0x01, 4): ("mileage", 10),
    (0x02, 2): ("fuel", 10),
    (0x03, 2): ("recorder_speed", 10),
    (0x04, 2): ("event", 1),
    (0x25, 4): ("signals", 1),
    (0x2A, 2): ("io", 1),
    (0x2B, 4): ("analogue", 1),
    (0x30, 1): ("signal", 1),
    (0x31, 1): ("satellites", 1),
}


class Stop(Exception):
    """What is in the way, and what to do about it."""

    def __init__(self, what, remedy):
        super().__init__(what)
        self.remedy = remedy


DATES, CLOCKS = {}, {}


def date_of(digits):
    """The date that six digits name, or None. Most positions have the day of the one before, so dates are kept."""
    found = DATES.get(digits)
    if found is None and digits.isdecimal():
        try:
            found = datetime.date(2000 + int(digits[:2]), int(digits[2:4]), int(digits[4:]))
        except ValueError:
            return None
        DATES[digits] = found
    return found


def clock_of(digits):
    """The time of day that six digits name, or None. There are 86,400 of them."""
    found = CLOCKS.get(digits)
    if found is None and digits.isdecimal() and digits[:2] < "24" and digits[2:4] < "60" and digits[4:] < "60":
        found = CLOCKS[digits] = f"{digits[:2]}:{digits[2:4]}:{digits[4:]}"
    return found


def moment_of(octets):
    """The date and time of day that the digits of a position name, or None."""
    digits = octets[22:28].hex()
    date, clock = date_of(digits[:6]), clock_of(digits[6:])
    return None if date is None or clock is None else (date, clock)


def value_of(octets, unit):
    number = int.from_bytes(octets, "big")
    return number if unit == 1 else number / unit


def items_of(octets):
    """The items of a position by their names, those without a name by their ids with their octets. A list where an id repeats."""
    found, at = {}, FIXED.size
    while at < len(octets):
        end = at + 2 + octets[at + 1]
        value = octets[at + 2 : end]
        name, unit = ITEMS.get((octets[at], len(value)), (None, 1))
        shown = value_of(value, unit) if name else value.hex()
        name = name or f"0x{octets[at]:02x}"
        if name in found:
            found[name] = [*(found[name] if isinstance(found[name], list) else [found[name]]), shown]
        else:
            found[name] = shown
        at = end
    return found


def is_position(octets):
    """Whether there is a fixed part, and the last item ends where the octets do."""
    at, last = FIXED.size, len(octets) - 1
    while at < last:
        at += 2 + octets[at + 1]
    return at == last + 1


def parts_of(message, body):
    """The kind of a batch, and the octets of each position. None of them where the body does not read."""
    if message == POSITION:
        return 0, [body] if is_position(body) else []
    if message != BATCH or len(body) < 3:
        return 0, []
    at, found = 3, []
    for _ in range(int.from_bytes(body[:2], "big")):
        size = int.from_bytes(body[at : at + 2], "big")
        part = body[at + 2 : at + 2 + size]
        if at + 2 > len(body) or len(part) != size or not is_position(part):
            return body[2], []
        found.append(part)
        at += 2 + size
    return body[2], found if at == len(body) else []


class Unit:
    """A row as the database keeps it: its kind, how many positions it has, and `entries`: the day, time of day and octets of each.
    Where none reads there is one entry, of the whole body. A position without a moment has the day of the first of its row that has
    one."""

    __slots__ = ("number", "message", "kind", "count", "entries")

    def __init__(self, number, message, body):
        self.number, self.message = number, message
        self.kind, parts = parts_of(message, body)
        self.count = len(parts)
        moments = [moment_of(part) for part in parts]
        none = (next((it[0] for it in moments if it is not None), NO_DAY), None)
        self.entries = [(*(moment or none), part) for moment, part in zip(moments, parts)] or [(NO_DAY, None, body)]

    def days(self):
        return [day for day, _, _ in self.entries]

    def month(self):
        """The month whose file the row is kept in: that of its first moment."""
        day = self.entries[0][0]
        return "none" if day == NO_DAY else f"{day:%Y-%m}"

    def sum(self):
        """A sum of these over a set of rows tells whether another set is the same. The schema's `digest` makes each term."""
        found, behind = 0, f"{self.message}.{self.count}.{self.kind}"
        for place, (_, _, octets) in enumerate(self.entries):
            text = f"{self.number}.{place}.{behind}.{octets.hex()}"
            found += int(hashlib.md5(text.encode(), usedforsecurity=False).hexdigest()[:15], 16)
        return found


def digits_of(phone):
    """The digits of a phone without the zeros at their front."""
    return phone.hex().lstrip("0") or "0"
