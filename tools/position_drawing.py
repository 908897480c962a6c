"""Draws tracks as SVG: north up, a degree's width as it is there, with a scale in metres and times. tools/positions.py uses it."""
import collections
import datetime
import itertools
import math

WIDTH, MARGIN, HEAD, FOOT = 800, 40, 30, 50
METRES_A_DEGREE = 111_320
# The least that a drawing shows, in degrees of latitude: some hundred metres.
LEAST = 0.001
LONGEST_SCALE = 160
HOURS, MOST_TIMES = (1, 2, 3, 6, 12, 24), 24
# A time is shown where the track is so far away from the time before it.
APART = 25
BEGIN = datetime.datetime(2000, 1, 1, tzinfo=datetime.timezone(datetime.timedelta(hours=8)))
LETTER, LINE, CELL = 6.2, 11, 5
# Where a text may stand beside a place: to the right, down, and which of its ends is there.
BESIDE = ((8, 4, "start"), (-8, 4, "end"), (0, -9, "middle"), (0, 18, "middle"), (-8, -8, "end"), (8, -8, "start"), (-8, 16, "end"), (8, 16, "start"))

# A phone's positions by time, its last position, and its colour.
Track = collections.namedtuple("Track", "phone way last colour")


class Plane:
    """Where places stand in the drawing."""

    def __init__(self, positions):
        north = [it.latitude for it in positions] or [0]
        east = [it.longitude for it in positions] or [0]
        self.flat = max(0.01, math.cos(math.radians((max(north) + min(north)) / 2)))
        self.left, self.top = min(east), max(north)
        high = self.top - min(north)
        self.size = (WIDTH - 2 * MARGIN) / max(LEAST, high, (max(east) - self.left) * self.flat)
        self.height = HEAD + MARGIN + self.size * max(high, LEAST) + FOOT

    def place(self, position):
        return MARGIN + (position.longitude - self.left) * self.flat * self.size, HEAD + MARGIN / 2 + (self.top - position.latitude) * self.size

    def metres(self, length):
        return length * METRES_A_DEGREE / self.size


class Room:
    """Where texts may still stand, in cells: on none of another text, and beside tracks where that can be."""

    def __init__(self, height, places):
        self.height = height
        self.tracks = {(int(x // CELL), int(y // CELL)) for x, y in places}
        self.taken = set()

    def cells(self, left, top, width):
        across = range(int(left // CELL), int((left + width) // CELL) + 1)
        return set(itertools.product(across, range(int(top // CELL), int((top + LINE) // CELL) + 1)))

    def take(self, x, y, text):
        """Where a text beside a place stands: x, y and its anchor, or None."""
        width, found = LETTER * len(text), []
        for shift, down, anchor in BESIDE:
            left = x + shift - {"start": 0, "middle": width / 2, "end": width}[anchor]
            cells = self.cells(left, y + down - LINE, width)
            if left >= 0 and left + width <= WIDTH and not cells & self.taken:
                found.append((len(cells & self.tracks), len(found), (x + shift, y + down, anchor), cells))
        if not found:
            return None
        _, _, place, cells = min(found, key=lambda it: it[:2])
        self.taken |= cells
        return place


def moment(position):
    return datetime.datetime.fromisoformat(position.time)


def round_length(most):
    """The largest of 1, 2 or 5 times a power of ten up to a length."""
    power = 10 ** math.floor(math.log10(most))
    return max(times * power for times in (1, 2, 5) if times * power <= most)


def step_of(ways):
    """The hours between two times that are shown."""
    times = [moment(it) for way in ways if way for it in (way[0], way[-1])]
    hours = (max(times) - min(times)).total_seconds() / 3600 if times else 0
    return next((step for step in HOURS if hours / step <= MOST_TIMES), HOURS[-1])


def timed(plane, track, step):
    """The places of the first position and of the first in each further stretch of so many hours, where the vehicle has moved on."""
    slot = lambda it: (moment(it) - BEGIN) // datetime.timedelta(hours=step)
    shown = None
    for _, group in itertools.groupby(track.way, key=slot):
        first = next(group)
        place = plane.place(first)
        if first is not track.last and (shown is None or math.dist(shown, place) >= APART):
            shown = place
            yield place, first


def points(plane, way):
    """The places of a line; a stay is one point."""
    return " ".join(it for it, _ in itertools.groupby("%.1f,%.1f" % plane.place(it) for it in way))


def text_at(place, text, colour, more=""):
    x, y, anchor = place
    return f'<text x="{x:.1f}" y="{y:.1f}" text-anchor="{anchor}" fill="{colour}"{more}>{text}</text>'


def ends(plane, room, tracks, form):
    """A dot at the last position of each phone, with the phone and the time."""
    for track in tracks:
        x, y = plane.place(track.last)
        text = f"{track.phone} {moment(track.last):{form}}" if track.last.time else track.phone
        yield f'<circle cx="{x:.1f}" cy="{y:.1f}" r="5" fill="{track.colour}"/>'
        place = room.take(x, y, text)
        if place:
            yield text_at(place, text, track.colour, ' font-weight="bold"')


def times(plane, room, tracks, form):
    """Times along the tracks, where they have room."""
    step = step_of([track.way for track in tracks])
    for track in tracks:
        for (x, y), it in timed(plane, track, step):
            text = f"{moment(it):{form}}"
            place = room.take(x, y, text)
            if place:
                yield f'<circle cx="{x:.1f}" cy="{y:.1f}" r="2.5" fill="white" stroke="{track.colour}"/>' + text_at(place, text, track.colour)


def scale(plane):
    metres = round_length(plane.metres(LONGEST_SCALE))
    length, y = metres / plane.metres(1), plane.height - 18
    text = f"{metres / 1000:g} km" if metres >= 1000 else f"{metres:g} m"
    yield f'<path d="M{MARGIN} {y - 5:.1f}v5h{length:.1f}v-5" fill="none" stroke="#333"/>'
    yield text_at((MARGIN + length + 8, y, "start"), text, "#333")


def title(moments):
    if not moments:
        return "no time"
    first, last = min(moments), max(moments)
    form = "%H:%M" if first.date() == last.date() else "%Y-%m-%d %H:%M"
    return f"{first:%Y-%m-%d %H:%M} to {last:{form}} (GMT+8), north is up"


def write(tracks, to):
    """Draws tracks: pairs of a phone's way and its last position."""
    named = [Track(last.phone, way, last, f"hsl({at * 137 % 360} 70% 35%)") for at, (way, last) in enumerate(tracks)]
    shown = [it for track in named for it in (*track.way, track.last)]
    plane = Plane(shown)
    room = Room(plane.height, map(plane.place, shown))
    moments = [moment(it) for it in shown if it.time]
    form = "%H:%M" if len({it.date() for it in moments}) < 2 else "%m-%d %H:%M"
    size = f"{WIDTH} {plane.height:.0f}"
    print(f'<svg xmlns="http://www.w3.org/2000/svg" viewBox="0 0 {size}" font-family="sans-serif" font-size="11">', file=to)
    print(f'<rect width="{WIDTH}" height="{plane.height:.0f}" fill="white"/>', file=to)
    print(text_at((MARGIN, 20, "start"), title(moments), "#333"), file=to)
    for track in named:
        print(f'<polyline points="{points(plane, track.way)}" fill="none" stroke="{track.colour}"/>', file=to)
    for part in itertools.chain(ends(plane, room, named, form), times(plane, room, named, form), scale(plane)):
        print(part, file=to)
    print("</svg>", file=to)
