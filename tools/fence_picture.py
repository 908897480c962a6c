#!/usr/bin/env python3
"""Draws docs/fence.svg: a track, two regions, and the alarms that `jt808 fence` prints of it.

    tools/fence_picture.py [--program ./jt808] [--to docs/fence.svg]

The places of the alarms are those of the fixes that the program's own lines name."""

import subprocess

import command_line

LATITUDE, LONGITUDE = 31_000_000, 121_000_000

# A depot, and a street of a limit of 60 km/h for 10 seconds; latitudes and longitudes beside the corner above.
DEPOT = (30, 10, 5, 40)
STREET = ((20, 50), (45, 60), (60, 95), (40, 100), (10, 75))

# Latitude, longitude, speed in tenths of km/h; a fix each 5 seconds.
FIXES = (
    (2, 4, 100), (8, 15, 100), (18, 25, 100), (27, 33, 200), (36, 42, 300), (36, 52, 400),
    (34, 62, 590), (32, 68, 640), (32, 74, 660), (36, 80, 670), (42, 86, 650), (50, 91, 550),
    (58, 97, 400), (66, 104, 400),
)

COLOURS = {"enter": "#1b7f3b", "leave": "#1f4fa3", "over": "#c22f2f"}


def track():
    top, left, bottom, right = DEPOT
    area = "%08x%08x%08x%08x" % (LATITUDE + top, LONGITUDE + left, LATITUDE + bottom, LONGITUDE + right)
    lines = ["rectangles 0001%08x0000%s" % (1, area)]
    vertices = "".join("%08x%08x" % (LATITUDE + y, LONGITUDE + x) for y, x in STREET)
    lines.append("polygon %08x0002003c0a%04x%s" % (2, len(STREET), vertices))
    for number, (y, x, speed) in enumerate(FIXES):
        time = "24010108%02d%02d" % divmod(5 * number, 60)
        lines.append("raw 0000000000000003%08x%08x0000%04x0000%s" % (LATITUDE + y, LONGITUDE + x, speed, time))
    return "".join(line + "\n" for line in lines)


def alarms(program):
    done = subprocess.run([program, "fence"], input=track().encode(), capture_output=True, check=True)
    told = [line.split() for line in done.stdout.decode().splitlines()]
    if not told:
        raise command_line.Mistake(f"{program} fence prints nothing: name jt808 by --program")
    return [(int(words[1]), words[2], " ".join(words[3:])) for words in told if words[0] == "fix"], " ".join(told[-1])


def at(y, x):
    return f"{20 + 7 * x},{500 - 7 * y}"


def drawing(raised, totals):
    top, left, bottom, right = DEPOT
    parts = [
        '<svg xmlns="http://www.w3.org/2000/svg" viewBox="-40 0 900 530" font-family="sans-serif" font-size="14">',
        '<rect x="-40" width="900" height="530" fill="white"/>',
        f'<polygon points="{at(top, left)} {at(top, right)} {at(bottom, right)} {at(bottom, left)}" fill="#dfe9f7" stroke="#5d7fb5"/>',
        f'<polygon points="{" ".join(at(y, x) for y, x in STREET)}" fill="#f7ecd9" stroke="#b58f4a"/>',
        f'<text x="{20 + 7 * left + 6}" y="{500 - 7 * bottom - 8}">rectangle 1</text>',
        f'<text x="{20 + 7 * 70}" y="{500 - 7 * 17}">polygon 2, 60 km/h for 10 s</text>',
        f'<polyline points="{" ".join(at(y, x) for y, x, _ in FIXES)}" fill="none" stroke="#777"/>',
    ]
    for number, (y, x, speed) in enumerate(FIXES, 1):
        place = at(y, x).split(",")
        parts.append(f'<circle cx="{place[0]}" cy="{place[1]}" r="3" fill="#333"/>')
        parts.append(f'<text x="{int(place[0]) + 5}" y="{int(place[1]) + (15 if number % 2 else 28)}" fill="#777" font-size="11">{number}: {speed / 10:g} km/h</text>')
    for number, what, region in raised:
        y, x, _ = FIXES[number - 1]
        place = at(y, x).split(",")
        parts.append(f'<circle cx="{place[0]}" cy="{place[1]}" r="6" fill="{COLOURS[what]}"/>')
        parts.append(f'<text x="{int(place[0]) - 8}" y="{int(place[1]) - 10}" text-anchor="end" fill="{COLOURS[what]}">{what} {region}</text>')
    parts.append(f'<text x="20" y="24">{totals}</text>')
    parts.append("</svg>")
    return "\n".join(parts) + "\n"


def main():
    parser = command_line.Words(__doc__)
    parser.add_program()
    parser.add_argument("--to", metavar="FILE", default=f"{command_line.ROOT}/docs/fence.svg", help="default: docs/fence.svg")
    told = parser.parse_args()
    raised, totals = alarms(told.program)
    with open(told.to, "w", encoding="utf-8") as file:
        file.write(drawing(raised, totals))
    return 0


if __name__ == "__main__":
    command_line.run(main)
