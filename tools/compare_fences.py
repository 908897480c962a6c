#!/usr/bin/env python3
"""Compares `jt808 fence` with a plain program that works out the alarms of a track by scanning all of it, on random tracks.

    tools/compare_fences.py [--program ./jt808] [--tracks 10000] [--seed 1]
    tools/compare_fences.py --speed        fixes a second of one processor, with no polygon and with 1,024 polygons of 20 vertices

It prints a line for each track on which both differ, and how many tracks, fixes and alarms of each kind there were. The plain
program shares nothing with the one that it is compared with: it keeps the whole track, and divides by fractions."""

import random
import resource
import subprocess
from collections import Counter
from datetime import datetime
from fractions import Fraction

import command_line

LONGITUDE = 113_000_000
GREATEST = 2**32 - 1


# ---- the plain program: a track is a list of steps, each a fix or a change


def on_edge(a, b, p):
    (ay, ax), (by, bx), (y, x) = a, b, p
    if not (min(ay, by) <= y <= max(ay, by) and min(ax, bx) <= x <= max(ax, bx)):
        return False
    return (by - ay) * (x - ax) == (bx - ax) * (y - ay)


def crosses_east(a, b, p):
    (ay, ax), (by, bx), (y, x) = a, b, p
    if (ay <= y) == (by <= y):
        return False
    return ax + Fraction((bx - ax) * (y - ay), by - ay) > x


def is_inside(region, fix):
    point = (fix["lat"], fix["lon"])
    if region["kind"] == "rectangle":
        top, left, bottom, right = region["area"]
        return bottom <= point[0] <= top and left <= point[1] <= right
    vertices = region["area"]
    edges = [(vertices[i - 1], vertices[i]) for i in range(len(vertices))]
    if any(on_edge(a, b, point) for a, b in edges):
        return True
    return sum(crosses_east(a, b, point) for a, b in edges) % 2 == 1


def second_of(digits):
    if not digits.isdecimal():
        return None
    try:
        return int(datetime.strptime("20" + digits, "%Y%m%d%H%M%S").timestamp())
    except ValueError:
        return None


def is_over(region, fix):
    limit = region["limit"]
    return limit is not None and is_inside(region, fix) and fix["speed"] > 10 * limit[0] and second_of(fix["time"]) is not None


def changed(table, change):
    """The table after a change, or None where it is refused."""
    new = dict(table)
    word = change["word"]
    if word == "rectangles":
        setting, regions = change["setting"], change["regions"]
        if setting > 2:
            return None
        if setting == 2 and any(("rectangle", r["id"]) not in table for r in regions):
            return None
        if setting == 0:
            new = {key: r for key, r in new.items() if key[0] != "rectangle"}
        for region in regions:
            new["rectangle", region["id"]] = region
    elif word == "polygon":
        new["polygon", change["region"]["id"]] = change["region"]
    else:
        ids = change["ids"]
        new = {key: r for key, r in new.items() if key[0] != change["kind"] or (ids and key[1] not in ids)}
    if any(sum(key[0] == kind for key in new) > 1024 for kind in ("rectangle", "polygon")):
        return None
    return new


def alarms_at(track, tables, place):
    """The alarms of the fix at a place of a track; tables[i] is the table behind its first i steps."""

    def is_settled(key, region, since):
        return all(tables[i].get(key) == region for i in range(since, place + 1))

    fixes = [i for i in range(place) if "lat" in track[i]]
    alarms = []
    for key in sorted(tables[place], key=lambda key: (key[0] == "polygon", key[1])):
        region = tables[place][key]
        now = is_inside(region, track[place])
        was = bool(fixes) and is_inside(region, track[fixes[-1]]) and is_settled(key, region, fixes[-1])
        if now and not was:
            alarms.append((*key, "enter"))
        if was and not now:
            alarms.append((*key, "leave"))
        run = []
        for i in [place] + fixes[::-1]:
            if not (is_over(region, track[i]) and is_settled(key, region, i)):
                break
            run.insert(0, second_of(track[i]["time"]))
        late = [run and second - run[0] >= region["limit"][1] for second in run]
        if late and late[-1] and not any(late[:-1]):
            alarms.append((*key, "over"))
    return alarms


def told(lines):
    """The text and the status of lines, each a text and the step that it says: a fix, a change, None, or 'bad'."""
    track, tables, text, fixes, events = [], [{}], [], 0, Counter()
    for number, (_, step) in enumerate(lines, 1):
        if step is None:
            continue
        table = None if step == "bad" else tables[-1] if "lat" in step else changed(tables[-1], step)
        if table is None:
            return text + [f"line {number} refused"], 1, fixes, events
        track.append(step)
        if "lat" in step:
            fixes += 1
            for kind, region, what in alarms_at(track, tables, len(track) - 1):
                text.append(f"fix {fixes} {what} {kind} {region}")
                events[what] += 1
        tables.append(table)
    return text + [f"fixes={fixes} events={events.total()}"], 0, fixes, events


# ---- random tracks


def limit_of(region):
    return "" if region["limit"] is None else "%04x%02x" % region["limit"]


def attribute_of(region):
    return "%04x" % (0 if region["limit"] is None else 2)


def rectangle_line(change):
    bodies = ("%08x" % r["id"] + attribute_of(r) + "%08x%08x%08x%08x" % r["area"] + limit_of(r) for r in change["regions"])
    return "rectangles %02x%02x" % (change["setting"], len(change["regions"])) + "".join(bodies)


def polygon_line(change):
    region = change["region"]
    vertices = "".join("%08x%08x" % vertex for vertex in region["area"])
    return "polygon %08x" % region["id"] + attribute_of(region) + limit_of(region) + "%04x" % len(region["area"]) + vertices


def fix_line(fix):
    return "raw 0000000000000003%08x%08x0000%04x0000%s" % (fix["lat"], fix["lon"], fix["speed"], fix["time"])


class Maker:
    def __init__(self, seed):
        self.random = random.Random(seed)
        self.second = 0
        self.put = []

    def coordinate(self, base):
        if self.wide:
            return self.random.choice([0, 1, 2, GREATEST // 2, GREATEST - 1, GREATEST])
        return base + self.random.randrange(11)

    def point(self):
        return self.coordinate(20_000_000), self.coordinate(LONGITUDE)

    def region(self, kind):
        old = [region for region in self.put if region["kind"] == kind]
        if old and self.random.random() < 0.4:
            return self.random.choice(old)
        if kind == "rectangle":
            area = self.point() + self.point()
            if self.random.random() < 0.8:
                top, left, bottom, right = area
                area = (max(top, bottom), min(left, right), min(top, bottom), max(left, right))
        else:
            area = tuple(self.point() for _ in range(self.random.choice([0, 1, 2, 3, 3, 4, 4, 5, 6, 7, 9])))
            if area and self.random.random() < 0.3:
                area += (self.random.choice(area),)
        limit = None
        if self.random.random() < 0.6:
            limit = (self.random.choice([0, 1, 1, 6553, 65535]), self.random.randrange(6))
        region = {"kind": kind, "id": self.random.randrange(1, 4), "area": area, "limit": limit}
        self.put.append(region)
        return region

    def change(self):
        word = self.random.choice(["rectangles", "rectangles", "polygon", "polygon", "polygon", "delete"])
        if word == "rectangles":
            setting = self.random.choice([0, 1, 1, 1, 2, 2, 3] if self.random.random() < 0.3 else [0, 1, 1, 1])
            step = {"word": word, "setting": setting, "regions": [self.region("rectangle") for _ in range(self.random.randrange(4))]}
            return rectangle_line(step), step
        if word == "polygon":
            step = {"word": word, "region": self.region("polygon")}
            return polygon_line(step), step
        kind = self.random.choice(["rectangle", "polygon"])
        ids = [self.random.randrange(1, 5) for _ in range(self.random.randrange(3))]
        line = f"delete-{kind}s %02x" % len(ids) + "".join("%08x" % i for i in ids)
        return line, {"word": word, "kind": kind, "ids": ids}

    def fix(self):
        if self.random.random() < 0.1:
            latitude = 20_000_000 + self.random.randrange(11)
            step = {"lat": latitude, "lon": LONGITUDE, "speed": 0, "time": "240101000000"}
            return f"fix {latitude}", step
        self.second = max(0, self.second + self.random.choice([-3, 0, 1, 1, 2, 3, 5]))
        time = "2401010000%02d" % min(self.second, 60) if self.random.random() < 0.9 else self.random.choice(["2402300000ff", "240230000000", "000000000000"])
        latitude, longitude = self.point()
        step = {"lat": latitude, "lon": longitude, "speed": self.random.choice([0, 10, 11, 11, 11, 12, 65530, 65535]), "time": time}
        return fix_line(step), step

    def line(self):
        kind = self.random.random()
        if kind < 0.02:
            return self.random.choice([("", None), ("# a comment", None)])
        if kind < 0.025:
            return self.random.choice(["up 1 all", "raw 00", "fix 01", "polygon 0", "delete-polygons 01"]), "bad"
        return self.fix() if kind < 0.65 else self.change()

    def track(self):
        self.wide = self.random.random() < 0.2
        return [self.line() for _ in range(self.random.randrange(3, 40))]


def run(program, text):
    done = subprocess.run([program, "fence"], input=text.encode(), capture_output=True, timeout=600)
    return done.stdout.decode().splitlines(), done.returncode


def compare(program, tracks, seed):
    differ, fixes, refused, events = 0, 0, 0, Counter()
    for number in range(tracks):
        lines = Maker(f"{seed} {number}").track()
        text, status, taken, raised = told(lines)
        fixes, refused, events = fixes + taken, refused + status, events + raised
        if run(program, "".join(line + "\n" for line, _ in lines)) != (text, status):
            differ += 1
            print(f"track {number} of seed {seed} differs")
    counts = " ".join(f"{what}={events[what]}" for what in ("enter", "leave", "over"))
    print(f"tracks={tracks} differ={differ} refused={refused} fixes={fixes} {counts}")
    return 1 if differ else 0


# ---- speed


def ring(region, count):
    """A polygon whose vertices go round the point of all fixes, so that each of them is inside."""
    side = [(20_000_000 - 1000 - region, LONGITUDE - 1000 + 2000 * i // (count // 2)) for i in range(count // 2)]
    other = [(20_001_000 + region, LONGITUDE + 1000 - 2000 * i // (count // 2)) for i in range(count // 2)]
    return {"kind": "polygon", "id": region, "area": tuple(side + other), "limit": None}


def seconds(program, text, times=5):
    """The least processor time of some runs, which other work on the machine hardly changes."""
    took = []
    for _ in range(times):
        before = resource.getrusage(resource.RUSAGE_CHILDREN)
        run(program, text)
        after = resource.getrusage(resource.RUSAGE_CHILDREN)
        took.append(after.ru_utime + after.ru_stime - before.ru_utime - before.ru_stime)
    return min(took)


def speed(program):
    for polygons, fixes in ((0, 1_000_000), (1024, 10_000)):
        regions = "".join(polygon_line({"region": ring(i, 20)}) + "\n" for i in range(polygons))
        track = "".join(f"fix {20_000_000 + i % 500}\n" for i in range(fixes))
        took = seconds(program, regions + track) - seconds(program, regions)
        print(f"polygons={polygons} vertices=20 fixes={fixes} seconds={took:.2f} a_second={fixes / took:.0f}")
    return 0


def main():
    parser = command_line.Words(__doc__)
    parser.add_program()
    parser.add_argument("--tracks", type=command_line.positive, default=10_000)
    parser.add_argument("--seed", default="1")
    parser.add_argument("--speed", action="store_true")
    told_to = parser.parse_args()
    if told_to.speed:
        return speed(told_to.program)
    return compare(told_to.program, told_to.tracks, told_to.seed)


if __name__ == "__main__":
    command_line.run(main)
