#!/usr/bin/env python3
"""Answers as the interface of `dewfelt serve` does, over a copy of a platform.db that is there: for work on the page.

    page/mock.py --db DIR/platform.db [--http 127.0.0.1:8080] [--token T] [--read-token T] [--from 2026-11-30T14:20:00]
            [--pace 1] [--many 0] [--without orders,fences,alarms] [--fences F.geojson] [--map map.geojson] [--tiles URL]
            [--datum gcj02] [--attribution TEXT]

It sends the files of this folder as they are, so that a change is seen with the next load, and has also what the service lacks yet:
--without takes parts away. It reads all positions, and plays the day: at --from the page's clock begins (default: at the first
position), and goes --pace times as fast as the real one. Positions behind that moment are not shown yet. What no file holds (whose
connection stands, why it ended, who was turned away) is made up by fixed rules, the same at each start. --many adds so many vehicles
that go along the roads of the others. Fences and orders are kept in memory; an order is sent and answered by itself.
"""
import argparse, bisect, collections, datetime, hashlib, hmac, http.server, json, os, random, re, secrets, sqlite3
import struct, sys, tempfile, threading, time, urllib.parse

sys.dont_write_bytecode = True
sys.path.insert(0, os.path.join(os.path.dirname(os.path.realpath(__file__)), "../tools"))
import positions  # noqa: E402

HERE = os.path.dirname(os.path.realpath(__file__))
FIXED = struct.Struct(">IIIIHHH6s")
CHINA = datetime.timezone(datetime.timedelta(hours=8))
STATIC = {"/": ("index.html", "text/html; charset=utf-8"), "/app.js": ("app.js", "text/javascript; charset=utf-8"),
          "/map.js": ("map.js", "text/javascript; charset=utf-8"), "/words.js": ("words.js", "text/javascript; charset=utf-8"),
          "/style.css": ("style.css", "text/css; charset=utf-8"), "/icon.svg": ("icon.svg", "image/svg+xml")}
ENDS = ["idle", "ended", "link-fault", "fenced"]
MOST_VEHICLES, MOST_ROWS, MOST_FIXES, MOST_EVENTS, MOST_FENCES, MOST_VERTICES = 2000, 1000, 20000, 1000, 64, 200
MOST_BODY, MOST_ORDER = 65536, 1023
TITLES = {400: "The request is wrong", 401: "A token is needed", 403: "Not allowed", 404: "Not here", 405: "Not this method",
          409: "Not now", 410: "Not here any more", 412: "Changed meanwhile", 413: "Too large", 415: "Not this type", 421: "Not this host",
          422: "The content is wrong", 428: "Say what you change", 503: "Not ready"}


def iso(t):
    return None if t is None else datetime.datetime.fromtimestamp(t, CHINA).isoformat(timespec="seconds")


def degrees(millionths):
    """A number with six decimals, which `json` does not write: a text that `plain` makes a number."""
    return f"\ue000{millionths / 1e6:.6f}\ue001"


def plain(text):
    return text.replace('"\ue000', "").replace('\ue001"', "")


def instant(text):
    when = datetime.datetime.fromisoformat(text.replace("Z", "+00:00").replace(" ", "+"))
    return (when if when.tzinfo else when.replace(tzinfo=CHINA)).timestamp()


Fix = collections.namedtuple("Fix", "t lat lon speed direction altitude alarm status mileage number at")


def fixes_of(number, message, body):
    parts = [body]
    if message == 0x0704:
        parts, at = [], 3
        for _ in range(int.from_bytes(body[:2], "big")):
            size = int.from_bytes(body[at:at + 2], "big")
            parts.append(body[at + 2:at + 2 + size])
            at += 2 + size
    for place, it in enumerate(parts):
        alarm, status, lat, lon, altitude, speed, direction, when = FIXED.unpack_from(it)
        try:
            t = datetime.datetime.strptime("20" + when.hex(), "%Y%m%d%H%M%S").replace(tzinfo=CHINA).timestamp()
        except ValueError:
            t = None
        mileage, at = None, 28
        while at + 2 <= len(it):
            if it[at] == 1 and it[at + 1] == 4:
                mileage = int.from_bytes(it[at + 2:at + 6], "big")
            at += 2 + it[at + 1]
        yield Fix(t, -lat if status & 4 else lat, -lon if status & 8 else lon, speed, direction, altitude, alarm, status, mileage,
                  number, place)


def is_inside(ring, lat, lon):
    """The rule of jt_fence: on an edge, or an odd number of edges crosses east of the point; whole numbers alone."""
    odd = False
    for (alat, alon), (blat, blon) in zip(ring, ring[1:] + ring[:1]):
        cross = (blat - alat) * (lon - alon) - (blon - alon) * (lat - alat)
        if cross == 0 and min(alat, blat) <= lat <= max(alat, blat) and min(alon, blon) <= lon <= max(alon, blon):
            return True
        if (alat <= lat) != (blat <= lat):
            low, high = ((alat, alon), (blat, blon)) if alat < blat else ((blat, blon), (alat, alon))
            if (high[1] - low[1]) * (lat - low[0]) + low[1] * (high[0] - low[0]) > lon * (high[0] - low[0]):
                odd = not odd
    return odd


class Vehicle:
    def __init__(self, phone, plate, terminal, fixes, index):
        self.phone, self.plate, self.terminal, self.fixes, self.index = phone, plate, terminal, fixes, index
        self.times = [it.t or 0 for it in fixes]
        self.shift = (0, 0, 0)
        self.at, self.changed, self.watched, self.within, self.runs = -2, 0, -1, {}, {}
        self.away_from = self.end = None
        self.orders = []

    def fix(self):
        return self.fixes[self.at] if self.at >= 0 else None


class Problem(Exception):
    def __init__(self, status, detail, **more):
        self.status, self.detail, self.more = status, detail, more


class Board:
    def __init__(self, asked):
        self.asked, self.lock = asked, threading.RLock()
        self.epoch, self.seq = secrets.token_hex(4), 0
        self.begun = time.time()
        self.fences, self.fence_seq = {}, 1
        self.alarms, self.sessions, self.requests = [], [], collections.Counter()
        self.vehicles, self.rows = {}, {}
        rows, registered = self.rows_in(asked.db)
        fixes = {phone: [it for row in found for it in fixes_of(*row)] for phone, found in rows.items()}
        self.began = instant(asked.begin) if asked.begin else min((it.t for found in fixes.values() for it in found if it.t), default=self.begun)
        self.take(rows, fixes, registered)
        self.add_many(asked.many)
        if asked.fences:
            for it in json.load(open(asked.fences))["features"]:
                self.fences[it["id"]] = self.fence_of(it["id"], it)
        self.catch_up()

    def now(self):
        return self.began + (time.time() - self.begun) * self.asked.pace

    @staticmethod
    def rows_in(path):
        """The rows of each phone, and what it is registered with."""
        rows = collections.defaultdict(list)
        with tempfile.TemporaryDirectory() as folder:
            with sqlite3.connect(positions.copy(path, folder)) as base:
                registered = {bytes(p): (bytes(a), bytes(b)) for p, a, b in base.execute("SELECT phone, plate, terminal FROM registered")}
                for phone, number, message, body in base.execute("SELECT phone, number, id, body FROM rows808 ORDER BY phone, number"):
                    rows[bytes(phone)].append((number, message, bytes(body)))
        return rows, registered

    def take(self, rows, fixes, registered):
        for index, octets in enumerate(sorted(set(registered) | set(rows))):
            phone = positions.digits_of(octets, 2)
            plate, terminal = registered.get(octets, (b"", b""))
            self.rows[phone] = rows[octets]
            it = self.vehicles[phone] = Vehicle(phone, plate, terminal.rstrip(b"\0"), fixes.get(octets, []), index)
            if index % 8 == 5:
                it.away_from, it.end = self.began - 3600 * (1 + index % 5), ENDS[index // 8 % 4]
            if index % 12 == 7:
                it.away_from, it.end = self.began - 86400 * 2, "ended"

    def add_many(self, count):
        pattern = [it for it in self.vehicles.values() if it.fixes]
        chance = random.Random(1)
        for i in range(count if pattern else 0):
            like = pattern[i % len(pattern)]
            phone = f"0138{20000000 + i:08d}"
            letters = "ABCDEFGHJKLMNPQRSTUVWXYZ"
            plate = f"{'粤湘桂赣闽琼'[i % 6]}{letters[i // 24 % 24]}{letters[i % 24]}{i % 10000:04d}".encode("gbk")
            it = self.vehicles[phone] = Vehicle(phone, plate, f"S{i:06d}".encode(), like.fixes, 1000 + i)
            it.times = like.times
            it.shift = (chance.randint(-2400, 2400), chance.gauss(0, 0.9), chance.gauss(0, 1.3))
            if i % 9 == 4:
                it.away_from, it.end = self.began - chance.randint(600, 90000), ENDS[i % 4]

    def seen(self, vehicle, fix):
        """A fix as it is shown: that of an added vehicle is shifted."""
        if fix is None or vehicle.shift == (0, 0, 0):
            return fix
        late, north, east = vehicle.shift
        return fix._replace(lat=fix.lat + round(north * 1e6), lon=fix.lon + round(east * 1e6), t=fix.t and fix.t + late)

    def catch_up(self):
        """Takes what was reported up to now."""
        now = self.now()
        for it in self.vehicles.values():
            until = min(now, it.away_from) if it.away_from else now
            at = bisect.bisect_right(it.times, until - it.shift[0]) - 1
            if at != it.at:
                self.seq += 1
                it.changed = self.seq
                it.at = at
            if it.index < 1000:
                self.watch(it)
        for it in self.vehicles.values():
            for order in it.orders:
                self.step_order(it, order, now)

    def watch(self, it):
        while it.watched < it.at:
            it.watched += 1
            fix = it.fixes[it.watched]
            for id, fence in self.fences.items():
                inside, was = is_inside(fence["ring"], fix.lat, fix.lon), it.within.get(id, False)
                what = "enter" if inside and not was else "leave" if was and not inside else None
                it.within[id] = inside
                if what:
                    self.alarm(it, fix, fence, what)
                limit = fence["properties"].get("limit")
                if limit and inside and fix.t and fix.speed > 10 * limit["speed_kmh"]:
                    first, told = it.runs.get(id, (fix.t, False))
                    if not told and fix.t - first >= limit["seconds"]:
                        self.alarm(it, fix, fence, "over")
                        told = True
                    it.runs[id] = (first, told)
                else:
                    it.runs.pop(id, None)

    def alarm(self, it, fix, fence, what):
        self.alarms.append({"phone": it.phone, "number": fix.number, "at": fix.at, "time": iso(fix.t), "what": what,
                            "fence": fence["id"], "fence_name": fence["properties"]["name"], "latitude": degrees(fix.lat),
                            "longitude": degrees(fix.lon), "speed_kmh": fix.speed / 10})

    def sort_alarms(self):
        self.alarms.sort(key=lambda a: (a["time"], a["phone"], a["fence"]))
        for n, a in enumerate(self.alarms):
            a["id"] = n + 1

    def is_linked(self, it):
        return it.away_from is None and it.at >= 0

    def step_order(self, it, order, now):
        if not self.is_linked(it) or order["state"] == "answered":
            return
        if any(other["state"] != "answered" for other in it.orders[:order["number"]]):
            return
        real = time.time() - order["real"]
        if real > 0.6 and order["state"] == "waiting":
            order["state"], order["sent_at"] = "sent", iso(now)
            self.touch(it)
        if real > 2.0 and order["state"] == "sent":
            order["state"], order["answered_at"] = "answered", iso(now)
            order["result"] = 3 if order["kind"] == "control" else 0
            order["result_text"] = ["done", "failed", "message wrong", "not supported"][order["result"]]
            self.touch(it)

    def touch(self, it):
        self.seq += 1
        it.changed = self.seq

    def told(self, it):
        fix = self.seen(it, it.fix())
        linked = self.is_linked(it)
        heard = None if fix is None else (min(self.now(), fix.t + 2) if linked else it.away_from)
        return {"phone": it.phone, "plate_octets": it.plate.hex(), "terminal": it.terminal.decode("ascii", "replace"), "terminal_octets": it.terminal.hex(), "edition": "2013",
                "link": "open" if linked else "none", "session": 100 + it.index if linked else None, "heard_at": iso(heard),
                "last_end": None if linked else it.end, "last_end_at": None if linked else iso(it.away_from),
                "fix": None if fix is None else self.fix_told(fix), "orders_open": sum(o["state"] != "answered" for o in it.orders),
                "last_number": fix and fix.number, "changed": it.changed}

    @staticmethod
    def fix_told(fix):
        return {"number": fix.number, "at": fix.at, "time": iso(fix.t), "latitude": degrees(fix.lat), "longitude": degrees(fix.lon),
                "speed_kmh": fix.speed / 10, "direction": fix.direction, "altitude_m": fix.altitude, "alarm": fix.alarm,
                "status": fix.status, "mileage_km": None if fix.mileage is None else fix.mileage / 10}

    COLUMNS = ["phone", "plate_octets", "terminal", "link", "last_end", "last_end_at", "heard_at", "time", "latitude", "longitude",
               "speed_kmh", "direction", "altitude_m", "mileage_km", "status", "alarm", "number", "orders_open"]

    def row(self, it):
        told = self.told(it)
        told.update(told.pop("fix") or {})
        return [told.get(name) for name in self.COLUMNS]

    def changes(self, since, limit):
        self.catch_up()
        full, seq = True, 0
        if since:
            epoch, _, number = since.partition(".")
            if not re.fullmatch(r"[0-9a-f]{8}\.[0-9]{1,19}(:[0-9]{1,19})?", since):
                raise Problem(400, f"since is no cursor of this API: {since[:40]}", parameter="since")
            if epoch == self.epoch:
                full, seq = False, int(number.split(":")[0])
        changed = sorted((it for it in self.vehicles.values() if it.changed > seq), key=lambda it: it.changed)
        part = changed[:limit]
        more = len(changed) > limit
        cursor = part[-1].changed if more else self.seq
        last = self.alarms[-1]["id"] if self.alarms else 0
        return {"cursor": f"{self.epoch}.{cursor}", "full": full, "more": more, "now": iso(self.now()), "columns": self.COLUMNS,
                "vehicles": [self.row(it) for it in part], "alarms_last": last, "fences_etag": self.fences_etag(),
                "strangers": len(self.strangers())}

    def fences_etag(self):
        return f'"f{self.epoch}-{self.fence_seq}"'

    def fence_of(self, id, feature):
        if not isinstance(feature, dict) or feature.get("type") != "Feature":
            raise Problem(422, "the content is no GeoJSON Feature", pointer="/type")
        geometry, told = feature.get("geometry") or {}, feature.get("properties") or {}
        if geometry.get("type") != "Polygon":
            raise Problem(422, "the geometry is no Polygon", pointer="/geometry/type")
        rings = geometry.get("coordinates")
        if not isinstance(rings, list) or len(rings) != 1:
            raise Problem(422, "a fence has one ring and no holes", pointer="/geometry/coordinates")
        ring = rings[0]
        if len(ring) > 1 and ring[0] == ring[-1]:
            ring = ring[:-1]
        if not 3 <= len(ring) <= MOST_VERTICES:
            raise Problem(422, f"a fence has 3 to {MOST_VERTICES} corners, not {len(ring)}", pointer="/geometry/coordinates/0")
        whole = []
        for n, place in enumerate(ring):
            if not (isinstance(place, list) and len(place) >= 2 and all(isinstance(v, (int, float)) for v in place[:2])
                    and 0 <= place[0] <= 180 and 0 <= place[1] <= 90):
                raise Problem(422, "a corner is longitude 0 to 180 and latitude 0 to 90", pointer=f"/geometry/coordinates/0/{n}")
            whole.append((round(place[1] * 1e6), round(place[0] * 1e6)))
        name = told.get("name", "")
        if not isinstance(name, str) or not 1 <= len(name.encode()) <= 100:
            raise Problem(422, "a name has 1 to 100 octets", pointer="/properties/name")
        limit = told.get("limit")
        if limit is not None and not (isinstance(limit, dict) and isinstance(limit.get("speed_kmh"), int) and 0 < limit["speed_kmh"] <= 1000
                                      and isinstance(limit.get("seconds"), int) and 0 <= limit["seconds"] <= 255):
            raise Problem(422, "a limit is speed_kmh 1 to 1000 and seconds 0 to 255", pointer="/properties/limit")
        closed = [[degrees(lon), degrees(lat)] for lat, lon in whole + whole[:1]]
        return {"type": "Feature", "id": id, "geometry": {"type": "Polygon", "coordinates": [closed]},
                "properties": {"name": name, "limit": limit}, "ring": whole}

    @staticmethod
    def strangers():
        return [{"phone": "013800138000", "plate_octets": "粤B99999".encode("gbk").hex(), "terminal": "Z900001", "tried": 42,
                 "denied": 2, "why": "the plate is not in the fleet", "first_at": "2026-11-30T09:12:07+08:00",
                 "last_at": "2026-11-30T14:18:51+08:00", "peer": "192.0.2.17",
                 "terminal_octets": b"Z900001".hex(), "fleet_lines": ['vehicle "粤B99999" "Z900001" 013800138000']}]


ROUTES = [
    ("GET", r"/healthz", "healthz", None), ("GET", r"/readyz", "readyz", None), ("GET", r"/metrics", "metrics", "read"),
    ("GET", r"/api/v1/server", "server", "read"), ("GET", r"/api/v1/changes", "changes", "read"),
    ("GET", r"/api/v1/vehicles", "vehicles", "read"), ("GET", r"/api/v1/vehicles/(\d{1,20})", "vehicle", "read"),
    ("GET", r"/api/v1/positions", "positions", "read"), ("GET", r"/api/v1/vehicles/(\d{1,20})/track", "track", "read"),
    ("GET", r"/api/v1/vehicles/(\d{1,20})/rows", "rows", "read"),
    ("GET", r"/api/v1/vehicles/(\d{1,20})/orders", "orders", "read"), ("POST", r"/api/v1/vehicles/(\d{1,20})/orders", "issue", "operate"),
    ("GET", r"/api/v1/vehicles/(\d{1,20})/orders/(\d{1,7})", "order", "read"),
    ("GET", r"/api/v1/counts", "counts", "read"), ("GET", r"/api/v1/sessions", "sessions", "read"),
    ("GET", r"/api/v1/strangers", "strangers", "read"), ("GET", r"/api/v1/alarms", "alarms", "read"),
    ("GET", r"/api/v1/fences", "fences", "read"), ("GET", r"/api/v1/fences/(\d{1,9})", "fence", "read"),
    ("PUT", r"/api/v1/fences/(\d{1,9})", "put_fence", "operate"), ("DELETE", r"/api/v1/fences/(\d{1,9})", "delete_fence", "operate"),
    ("GET", r"/api/v1/map", "map", "read"),
]


PARTS = ("server", "changes", "vehicles", "positions", "counts", "sessions", "strangers", "map", "metrics", "rows", "track", "alarms", "fences", "orders")
# Which part a route belongs to, where it is not the one of its name, and the words that its query may have.
PART_OF = {"issue": "orders", "order": "orders", "fence": "fences", "put_fence": "fences", "delete_fence": "fences"}
WORDS = {"changes": ("since", "limit"), "vehicles": ("after", "limit"), "positions": ("after", "limit"), "counts": ("after", "limit"), "sessions": ("ended",),
         "track": ("from", "to", "form", "limit"), "rows": ("from", "limit"), "alarms": ("after", "before", "phone", "limit"), "orders": ("before", "limit")}


class Handler(http.server.BaseHTTPRequestHandler):
    protocol_version = "HTTP/1.1"
    board = asked = None

    def log_message(self, *_):
        pass

    # ---- the way of a request

    def handle_one(self):
        board, asked = self.board, self.asked
        path, _, query = self.path.partition("?")
        method = "GET" if self.command == "HEAD" else self.command
        try:
            if self.headers.get("Host") not in asked.hosts:
                raise Problem(421, "this server does not answer to the host that was asked for")
            size = self.headers.get("Content-Length", "0")
            if int(size) > MOST_BODY:
                self.close_connection = True
                raise Problem(413, f"a request has at most {MOST_BODY} octets")
            body = self.rfile.read(int(size))
            if path in STATIC:
                if method != "GET":
                    return self.answer(405, b"", "application/problem+json", {"Allow": "GET, HEAD"})
                name, kind = STATIC[path]
                content = open(os.path.join(HERE, name), "rb").read()
                tag = '"' + hashlib.sha256(content).hexdigest()[:16] + '"'
                if self.headers.get("If-None-Match") == tag:
                    return self.answer(304, b"", None, {"ETag": tag})
                return self.answer(200, content, kind, {"ETag": tag, "Cache-Control": "no-cache"})
            found = [(verb, name, need, re.fullmatch(form, path)) for verb, form, name, need in ROUTES
                     if re.fullmatch(form, path) and PART_OF.get(name, name) not in asked.without]
            if not found:
                raise Problem(404, f"no such path: {path[:80]}")
            wanted = [it for it in found if it[0] == method]
            if not wanted:
                allow = ", ".join(sorted({it[0] for it in found} | ({"HEAD"} if any(it[0] == "GET" for it in found) else set())))
                raise Problem(405, f"{self.command} is not answered here", headers={"Allow": allow})
            _, name, need, match = wanted[0]
            self.access = None
            if need:
                self.access = self.token()
                if need == "operate" and self.access != "operate":
                    raise Problem(403, "this token may look, and not change anything")
            origin = self.headers.get("Origin")
            if origin is not None and origin not in asked.origins:
                raise Problem(403, "a page of another origin asks nothing here")
            if method in ("POST", "PUT", "DELETE"):
                if method != "DELETE" and self.headers.get("Content-Type", "").split(";")[0].strip() not in ("application/json", "application/geo+json"):
                    raise Problem(415, "the content has to be application/json")
            self.query = self.words_of(name, query)
            with board.lock:
                board.catch_up()
                board.sort_alarms()
                board.requests[name] += 1
                getattr(self, "on_" + name)(*match.groups(), **({"body": body} if method in ("POST", "PUT") else {}))
        except Problem as it:
            more = dict(it.more)
            headers = more.pop("headers", {})
            if it.status == 401:
                headers["WWW-Authenticate"] = 'Bearer realm="dewfelt"'
            told = {"type": "urn:dewfelt:problem:" + TITLES[it.status].lower().replace(" ", "-"), "title": TITLES[it.status],
                    "status": it.status, "detail": it.detail, **more}
            self.answer(it.status, json.dumps(told, ensure_ascii=False).encode(), "application/problem+json", headers)

    do_GET = do_HEAD = do_POST = do_PUT = do_DELETE = do_PATCH = do_OPTIONS = handle_one

    @staticmethod
    def words_of(name, query):
        """The words of a query, each at most once and known."""
        words = {}
        for word, value in urllib.parse.parse_qsl(query, keep_blank_values=True):
            if word not in WORDS.get(name, ()):
                raise Problem(400, "the query has a word that this path does not know")
            if word in words:
                raise Problem(400, f"{word} stands twice in the query", parameter=word)
            words[word] = value
        return words

    def token(self):
        given = self.headers.get("Authorization", "")
        given = given[7:] if given.startswith("Bearer ") else ""
        mix = lambda text: hashlib.sha256(text.encode()).digest()
        if given and self.asked.token and hmac.compare_digest(mix(given), mix(self.asked.token)):
            return "operate"
        if given and self.asked.read_token and hmac.compare_digest(mix(given), mix(self.asked.read_token)):
            return "read"
        raise Problem(401, "send the token of the file http.token as `Authorization: Bearer ..`" if not given else "this token is not known here")

    def answer(self, status, content, kind, headers=()):
        self.send_response(status)
        tiles = self.asked.tile_origin
        if kind:
            self.send_header("Content-Type", kind)
        every = {"Content-Security-Policy": f"default-src 'none'; script-src 'self'; style-src 'self'; img-src 'self' data:{' ' + tiles if tiles else ''}; "
                 "connect-src 'self'; base-uri 'none'; form-action 'none'; frame-ancestors 'none'",
                 "X-Content-Type-Options": "nosniff", "Referrer-Policy": "no-referrer", "Cross-Origin-Opener-Policy": "same-origin",
                 "Cross-Origin-Resource-Policy": "same-origin", "Cache-Control": "no-store"}
        every.update(headers)
        if status != 304:
            every["Content-Length"] = str(len(content))
        for name, value in every.items():
            self.send_header(name, value)
        self.end_headers()
        if self.command != "HEAD":
            self.wfile.write(content)

    def json(self, told, status=200, kind="application/json", headers=()):
        self.answer(status, plain(json.dumps(told, ensure_ascii=False, separators=(",", ":"))).encode(), kind, headers)

    def number(self, name, usual, low, high):
        text = self.query.get(name)
        if text is None:
            return usual
        if not re.fullmatch(r"0|[1-9][0-9]{0,18}", text) or not low <= int(text) <= high:
            raise Problem(400, f"{name} is {low} to {high}, not {text[:30]}", parameter=name)
        return int(text)

    def when(self, name, usual=None):
        text = self.query.get(name)
        if text is None:
            if usual is None:
                raise Problem(400, f"{name} is missing", parameter=name)
            return usual
        try:
            return instant(text)
        except ValueError:
            raise Problem(400, f"{name} is no time like 2026-11-30T06:00:00+08:00: {text[:40]}", parameter=name) from None

    def one(self, phone):
        it = self.board.vehicles.get(phone) or self.board.vehicles.get(phone.zfill(12))
        if it is None:
            raise Problem(404, f"no vehicle with the phone {phone}")
        return it

    # ---- what is answered

    def on_healthz(self):
        self.answer(200, b"ok\n", "text/plain; charset=utf-8")

    def on_readyz(self):
        self.json({"ready": True, "store": "open", "listener": "open"})

    def on_server(self):
        board = self.board
        self.json({"name": "dewfelt", "version": "mock", "now": iso(board.now()), "started_at": iso(board.began - 86400 * 3), "access": self.access,
                   "terminals_listen": "0.0.0.0:9000", "vehicles": len(board.vehicles), "sessions": sum(map(board.is_linked, board.vehicles.values())),
                   "has": [it for it in PARTS if it not in self.asked.without], "map": {"tiles": self.asked.tiles, "attribution": self.asked.attribution, "datum": self.asked.datum, "base": bool(self.asked.map)},
                   "limits": {"vehicles": MOST_VEHICLES, "rows": MOST_ROWS, "fixes": MOST_FIXES, "events": MOST_EVENTS,
                              "fences": MOST_FENCES, "corners": MOST_VERTICES, "body": MOST_BODY, "order": MOST_ORDER}})

    def on_changes(self):
        self.json(self.board.changes(self.query.get("since"), self.number("limit", MOST_VEHICLES, 1, MOST_VEHICLES)))

    def on_vehicles(self):
        limit, after = self.number("limit", 500, 1, MOST_VEHICLES), self.query.get("after", "")
        phones = sorted(it for it in self.board.vehicles if it > after)
        part = phones[:limit]
        self.json({"vehicles": [self.board.told(self.board.vehicles[it]) for it in part], "next": part[-1] if len(phones) > limit else None})

    def on_vehicle(self, phone):
        self.json(self.board.told(self.one(phone)))

    def on_positions(self):
        limit, after = self.number("limit", MOST_VEHICLES, 1, MOST_VEHICLES), self.query.get("after", "")
        phones = sorted(it for it, v in self.board.vehicles.items() if it > after and v.at >= 0 and v.fix().status & 2)
        features = []
        for phone in phones[:limit]:
            told = self.board.told(self.board.vehicles[phone])
            fix = told.pop("fix")
            place = [fix.pop("longitude"), fix.pop("latitude")]
            features.append({"type": "Feature", "id": phone, "geometry": {"type": "Point", "coordinates": place}, "properties": {**told, **fix}})
        self.json({"type": "FeatureCollection", "features": features, "next": phones[limit - 1] if len(phones) > limit else None}, kind="application/geo+json")

    def on_track(self, phone):
        it, board = self.one(phone), self.board
        begin, end = self.when("from"), self.when("to")
        if end < begin or end - begin > 86400 * 31:
            raise Problem(400, "to is at most 31 days behind from, and not before it", parameter="to")
        limit, form = self.number("limit", MOST_FIXES, 1, MOST_FIXES), self.query.get("form", "geojson")
        late = it.shift[0]
        first = bisect.bisect_left(it.times, begin - late)
        last = min(bisect.bisect_right(it.times, end - late), it.at + 1)
        found = [board.seen(it, fix) for fix in it.fixes[first:last]]
        more, found = len(found) > limit, found[:limit]
        headers = {}
        if more:
            headers["Link"] = f'</api/v1/vehicles/{phone}/track?from={urllib.parse.quote(iso(found[-1].t + 1))}&to={urllib.parse.quote(iso(end))}&form={form}>; rel="next"'
        if form == "geojson":
            return self.json({"type": "Feature", "id": it.phone,
                              "geometry": {"type": "LineString", "coordinates": [[degrees(f.lon), degrees(f.lat)] for f in found]} if len(found) > 1 else None,
                              "properties": {"phone": it.phone, "plate_octets": it.plate.hex(), "from": iso(begin), "to": iso(end), "more": more,
                                             "times": [iso(f.t) for f in found], "speeds_kmh": [f.speed / 10 for f in found],
                                             "directions": [f.direction for f in found], "numbers": [f.number for f in found],
                                             "status": [f.status for f in found], "points": [[degrees(f.lon), degrees(f.lat)] for f in found] if len(found) == 1 else None}},
                             kind="application/geo+json", headers=headers)
        if form == "csv":
            lines = ["phone,number,time,latitude,longitude,speed,altitude,direction,mileage"]
            lines += [f"{it.phone},{f.number},{iso(f.t) or ''},{f.lat / 1e6:.6f},{f.lon / 1e6:.6f},{f.speed / 10},{f.altitude},{f.direction},{'' if f.mileage is None else f.mileage / 10}" for f in found]
            headers["Content-Disposition"] = f'attachment; filename="{it.phone}.csv"'
            return self.answer(200, ("\n".join(lines) + "\n").encode(), "text/csv; charset=utf-8", headers)
        if form == "gpx":
            points = "".join(f'<trkpt lat="{f.lat / 1e6:.6f}" lon="{f.lon / 1e6:.6f}"><ele>{f.altitude}</ele><time>{iso(f.t)}</time></trkpt>\n' for f in found if f.t)
            text = f'<?xml version="1.0" encoding="UTF-8"?>\n<gpx version="1.1" creator="dewfelt" xmlns="http://www.topografix.com/GPX/1/1"><trk><name>{it.phone}</name><trkseg>\n{points}</trkseg></trk></gpx>\n'
            headers["Content-Disposition"] = f'attachment; filename="{it.phone}.gpx"'
            return self.answer(200, text.encode(), "application/gpx+xml", headers)
        raise Problem(400, f"form is geojson, gpx or csv, not {form[:20]}", parameter="form")

    def on_rows(self, phone):
        it = self.one(phone)
        begin, limit = self.number("from", 0, 0, 2**47), self.number("limit", MOST_ROWS, 1, MOST_ROWS)
        rows = [row for row in self.board.rows.get(it.phone, []) if row[0] >= begin and it.at >= 0 and row[0] <= it.fixes[it.at].number]
        part = rows[:limit]
        lines = [json.dumps({"phone": it.phone, "number": n, "id": f"0x{m:04x}", "body": b.hex()}, separators=(",", ":")) for n, m, b in part]
        headers = {"Dewfelt-Next": str(part[-1][0] + 1 if part else begin), "Dewfelt-More": "true" if len(rows) > limit else "false"}
        self.answer(200, "".join(line + "\n" for line in lines).encode(), "application/x-ndjson", headers)

    def on_counts(self):
        limit, after = self.number("limit", MOST_VEHICLES, 1, MOST_VEHICLES), self.query.get("after", "")
        phones = sorted(it for it in self.board.vehicles if it > after)
        last = lambda it: it.fixes[it.at].number if it.at >= 0 else None
        self.json({"counts": [{"phone": it, "last": last(self.board.vehicles[it])} for it in phones[:limit]], "next": phones[limit - 1] if len(phones) > limit else None})

    def on_sessions(self):
        board = self.board
        peer = lambda it: f"10.1.{it.index // 200}.{it.index % 200 + 1}:4{it.index % 1000:04d}"
        since = iso(board.began - 7200)
        if "ended" in self.query:
            ended = [it for it in board.vehicles.values() if it.away_from]
            return self.json({"sessions": [{"session": 100 + it.index, "phone": it.phone, "peer": peer(it), "since": since, "heard_at": iso(it.away_from), "read": 88046,
                                            "written": 1754, "frames": 87, "refused": 0, "dropped": 0, "end": it.end, "ended_at": iso(it.away_from)} for it in ended[:1000]]})
        linked = [it for it in board.vehicles.values() if board.is_linked(it)]
        self.json({"sessions": [{"session": 100 + it.index, "phone": it.phone, "peer": peer(it), "since": since, "heard_at": board.told(it)["heard_at"]} for it in linked[:1000]],
                   "open": len(linked)})

    def on_strangers(self):
        self.json({"strangers": self.board.strangers()})

    def on_alarms(self):
        limit = self.number("limit", 200, 1, MOST_EVENTS)
        found = self.board.alarms
        if "phone" in self.query:
            found = [a for a in found if a["phone"] == self.query["phone"]]
        if "before" in self.query:
            before = self.number("before", 0, 0, 2**53)
            part = [a for a in found if a["id"] < before][-limit:]
        else:
            after = self.number("after", -1, 0, 2**53)
            part = found[-limit:] if after < 0 else [a for a in found if a["id"] > after][:limit]
        self.json({"alarms": part, "next": part[-1]["id"] if part else self.number("after", 0, 0, 2**53), "last": found[-1]["id"] if found else 0})

    def fence_told(self, fence):
        return {name: value for name, value in fence.items() if name != "ring"}

    def on_fences(self):
        tag = self.board.fences_etag()
        if self.headers.get("If-None-Match") == tag:
            return self.answer(304, b"", None, {"ETag": tag})
        self.json({"type": "FeatureCollection", "features": [self.fence_told(f) for _, f in sorted(self.board.fences.items())]},
                  kind="application/geo+json", headers={"ETag": tag, "Cache-Control": "no-cache"})

    def on_fence(self, id):
        if int(id) not in self.board.fences:
            raise Problem(404, f"no fence {id}")
        self.json(self.fence_told(self.board.fences[int(id)]), kind="application/geo+json", headers={"ETag": self.board.fences_etag()})

    def must_match(self):
        given = self.headers.get("If-Match")
        if given is None:
            raise Problem(428, "send If-Match with the ETag of /api/v1/fences")
        if given != self.board.fences_etag():
            raise Problem(412, "the fences were changed by somebody else: read them again")

    def parsed(self, body):
        try:
            return json.loads(body)
        except ValueError:
            raise Problem(400, "the content is no JSON") from None

    def on_put_fence(self, id, body):
        self.must_match()
        board, id = self.board, int(id)
        if id not in board.fences and len(board.fences) >= MOST_FENCES:
            raise Problem(409, f"there are {MOST_FENCES} fences already")
        fence, was = board.fence_of(id, self.parsed(body)), id in board.fences
        board.fences[id] = fence
        board.fence_seq += 1
        for it in board.vehicles.values():
            it.within.pop(id, None), it.runs.pop(id, None)
        self.json(self.fence_told(fence), 200 if was else 201, "application/geo+json", {"ETag": board.fences_etag(), "Location": f"/api/v1/fences/{id}"})

    def on_delete_fence(self, id):
        self.must_match()
        if self.board.fences.pop(int(id), None) is None:
            raise Problem(404, f"no fence {id}")
        self.board.fence_seq += 1
        self.answer(204, b"", None, {"ETag": self.board.fences_etag()})

    def order_told(self, order):
        return {name: value for name, value in order.items() if name not in ("real", "key")}

    def on_orders(self, phone):
        it = self.one(phone)
        part = [self.order_told(o) for o in it.orders][-200:]
        self.json({"orders": part[::-1]})

    def on_order(self, phone, number):
        it = self.one(phone)
        if int(number) >= len(it.orders):
            raise Problem(404, f"no order {number} of {phone}")
        self.json(self.order_told(it.orders[int(number)]))

    def on_issue(self, phone, body):
        it, asked, board = self.one(phone), self.parsed(body), self.board
        key = self.headers.get("Idempotency-Key")
        if not key or len(key) > 64:
            raise Problem(428, "send an Idempotency-Key of 1 to 64 letters, so that an order sent twice is issued once")
        for order in it.orders:
            if order["key"] == key:
                if order["asked"] != asked:
                    raise Problem(409, "this Idempotency-Key was used for another order")
                return self.json(self.order_told(order), 200)
        kind = asked.get("kind")
        if kind == "text":
            flag, text = asked.get("flag", 1), asked.get("text_octets", "")
            if not isinstance(text, str) or not re.fullmatch(r"([0-9a-f]{2})+", text) or not isinstance(flag, int) or not 0 <= flag <= 255:
                raise Problem(422, "text_octets is hexadecimal digits of GBK, flag 0 to 255", pointer="/text_octets")
            octets = bytes([flag]) + bytes.fromhex(text)
            message = "0x8300"
        elif kind == "control":
            command = asked.get("command")
            if not isinstance(command, int) or not 0 <= command <= 255:
                raise Problem(422, "command is 0 to 255", pointer="/command")
            if command in (1, 2, 3, 5, 7) and asked.get("confirm") != it.phone:
                raise Problem(422, "this command can cut the terminal off: send `confirm` with its phone", pointer="/confirm")
            octets, message = bytes([command]), "0x8105"
        elif kind == "parameters":
            given = asked.get("set")
            if not isinstance(given, dict) or not 1 <= len(given) <= 255:
                raise Problem(422, "set has 1 to 255 parameters", pointer="/set")
            octets, message = bytes([len(given)]), "0x8103"
            for name, value in given.items():
                if not re.fullmatch(r"0x[0-9a-f]{8}", name) or not isinstance(value, int) or not 0 <= value < 2**32:
                    raise Problem(422, "a parameter is 0x and eight digits, its value 0 to 4294967295", pointer="/set/" + name)
                octets += struct.pack(">IBI", int(name, 16), 4, value)
        else:
            raise Problem(422, "kind is text, parameters or control", pointer="/kind")
        if len(octets) > MOST_ORDER:
            raise Problem(413, f"an order has at most {MOST_ORDER} octets, not {len(octets)}")
        order = {"number": len(it.orders), "kind": kind, "id": message, "body": octets.hex(), "asked": asked, "state": "waiting", "issued_at": iso(board.now()),
                 "sent_at": None, "answered_at": None, "result": None, "result_text": None, "real": time.time(), "key": key}
        it.orders.append(order)
        board.touch(it)
        self.json(self.order_told(order), 201, headers={"Location": f"/api/v1/vehicles/{it.phone}/orders/{order['number']}"})

    def on_map(self):
        if not self.asked.map:
            raise Problem(404, "no map.geojson was given")
        content = open(self.asked.map, "rb").read()
        tag = '"' + hashlib.sha256(content).hexdigest()[:16] + '"'
        if self.headers.get("If-None-Match") == tag:
            return self.answer(304, b"", None, {"ETag": tag})
        self.answer(200, content, "application/geo+json", {"ETag": tag, "Cache-Control": "no-cache"})

    def on_metrics(self):
        board = self.board
        linked = sum(map(board.is_linked, board.vehicles.values()))
        lines = ["# HELP dewfelt_vehicles Registered terminals.", "# TYPE dewfelt_vehicles gauge", f"dewfelt_vehicles {len(board.vehicles)}",
                 "# HELP dewfelt_sessions Open connections of terminals.", "# TYPE dewfelt_sessions gauge", f"dewfelt_sessions {linked}",
                 "# HELP dewfelt_alarms_total Alarms of fences.", "# TYPE dewfelt_alarms_total counter"]
        counted = collections.Counter(a["what"] for a in board.alarms)
        lines += [f'dewfelt_alarms_total{{what="{what}"}} {counted[what]}' for what in ("enter", "leave", "over")]
        lines += ["# HELP dewfelt_http_requests_total Requests answered.", "# TYPE dewfelt_http_requests_total counter"]
        lines += [f'dewfelt_http_requests_total{{route="{name}"}} {count}' for name, count in sorted(board.requests.items())]
        self.answer(200, ("\n".join(lines) + "\n").encode(), "text/plain; version=0.0.4; charset=utf-8")


class Server(http.server.ThreadingHTTPServer):
    daemon_threads, request_queue_size = True, 128


def main():
    asked = argparse.ArgumentParser(description=__doc__, formatter_class=argparse.RawDescriptionHelpFormatter)
    asked.add_argument("--db", required=True, metavar="FILE")
    asked.add_argument("--http", default="127.0.0.1:8080")
    asked.add_argument("--token", default="demo-operator")
    asked.add_argument("--read-token", default="demo-read")
    asked.add_argument("--begin", "--from", metavar="TIME")
    asked.add_argument("--without", default="", metavar="PARTS", help="parts of the interface that are not there, by commas")
    asked.add_argument("--pace", type=float, default=1)
    asked.add_argument("--many", type=int, default=0)
    asked.add_argument("--map")
    asked.add_argument("--fences")
    asked.add_argument("--tiles")
    asked.add_argument("--attribution", default="", help="whose tiles they are")
    asked.add_argument("--datum", default="wgs84", choices=("wgs84", "gcj02"))
    asked = asked.parse_args()
    asked.without = asked.without.split(",")
    host, _, port = asked.http.rpartition(":")
    asked.hosts = {f"{name}:{port}" for name in (host, "localhost", "127.0.0.1")}
    asked.origins = {"http://" + it for it in asked.hosts}
    asked.tile_origin = "" if not asked.tiles else "{0.scheme}://{0.netloc}".format(urllib.parse.urlsplit(asked.tiles.replace("{s}", "a")))
    Handler.asked, Handler.board = asked, Board(asked)
    Handler.board.sort_alarms()
    print(f"http://{asked.http}/#token={asked.token}", flush=True)
    Server((host, int(port)), Handler).serve_forever()


if __name__ == "__main__":
    main()
