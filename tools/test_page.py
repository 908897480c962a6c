#!/usr/bin/python3
"""Tests the interface over HTTP and the operator's page of a running service, in a headless Chromium.

    test_page.py --http 127.0.0.1:8080 --token FILE --read-token FILE [--shots FOLDER] [--only WORD]

The service has at least ten vehicles, of which some are connected, some are not and some never reported, and at least one terminal
that was turned away; tools/page_trial.py starts such a one. Wants the Debian packages chromium, chromium-driver, python3-selenium
and python3-prometheus-client, and fonts-noto-cjk for the pictures. Prints a line a test, and ends with 1 where one failed. A test of
a part that the service says it lacks is passed over. Of the service fences alone are changed: one is drawn, and deleted again.
"""
import argparse, contextlib, csv, http.client, io, itertools, json, os, pathlib, socket, subprocess, sys, time, traceback

import command_line

# (where it is missing, want_packages says so)
with contextlib.suppress(ImportError):
    from selenium import webdriver
    from selenium.common.exceptions import StaleElementReferenceException
    from selenium.webdriver.chrome.options import Options
    from selenium.webdriver.chrome.service import Service
    from selenium.webdriver.common.action_chains import ActionChains
    from selenium.webdriver.common.actions.action_builder import ActionBuilder
    from selenium.webdriver.common.by import By
    from selenium.webdriver.common.keys import Keys

TOP = pathlib.Path(__file__).resolve().parent.parent
asked = None


def ask(method, path, token="operate", body=None, **headers):
    """The status, the headers and the body of an answer."""
    host, _, port = asked.http.rpartition(":")
    headers = {name.replace("_", "-"): value for name, value in headers.items()}
    if token in asked.tokens:
        headers["Authorization"] = f"Bearer {asked.tokens[token]}"
    elif token:
        headers["Authorization"] = f"Bearer {token}"
    link = http.client.HTTPConnection(host, int(port), timeout=30)
    link.request(method, path, body, headers)
    answer = link.getresponse()
    got = answer.status, {name.lower(): value for name, value in answer.getheaders()}, answer.read()
    link.close()
    return got


def told(path):
    return json.loads(ask("GET", path)[2])


def raw(octets, seconds=20):
    """What comes back for octets that are no whole request."""
    host, _, port = asked.http.rpartition(":")
    with socket.create_connection((host, int(port)), timeout=seconds) as link:
        link.sendall(octets)
        parts = []
        while part := link.recv(65536):
            parts.append(part)
    return b"".join(parts)


def all_vehicles():
    """All vehicles by `changes`, a row for each."""
    rows, since = [], ""
    while True:
        it = told(f"/api/v1/changes?since={since}&limit=5")
        rows += it["vehicles"]
        since = it["cursor"]
        if not it["more"]:
            return it["columns"], rows


class Page:
    def __init__(self, width=1440, height=900, scale=1):
        options = Options()
        for word in ("--headless=new", "--no-sandbox", "--disable-gpu", "--hide-scrollbars", "--disable-dev-shm-usage", f"--window-size={width},{height}", f"--force-device-scale-factor={scale}"):
            options.add_argument(word)
        if width < 500:
            options.add_experimental_option("mobileEmulation", {"deviceMetrics": {"width": width, "height": height, "pixelRatio": scale}})
        options.binary_location = "/usr/bin/chromium"
        options.set_capability("goog:loggingPrefs", {"browser": "ALL"})
        self.d = webdriver.Chrome(options=options, service=Service("/usr/bin/chromedriver"))

    def open(self, token="operate"):
        self.d.get("about:blank")
        self.d.get(f"http://{asked.http}/" + (f"#token={asked.tokens[token]}" if token else ""))
        if token:
            self.until("return dewfelt.page.vehicles.size > 0")

    def js(self, text, *args):
        return self.d.execute_script(text, *args)

    def until(self, text, seconds=30):
        end = time.time() + seconds
        while time.time() < end:
            if self.js(text):
                return
            time.sleep(0.1)
        raise AssertionError(f"not so after {seconds} s: {text}")

    def one(self, form):
        return self.d.find_element(By.CSS_SELECTOR, form)

    def click(self, form):
        self.until(f"const it = document.querySelector({json.dumps(form)}); return it && it.getClientRects().length > 0")
        for _ in range(3):
            # (a panel is written anew with an answer)
            with contextlib.suppress(StaleElementReferenceException):
                return self.one(form).click()
        raise AssertionError(f"{form} is written anew all the time")

    def text(self, form):
        return self.js("return document.querySelector(arguments[0])?.innerText ?? ''", form)

    def shot(self, name):
        if asked.shots:
            time.sleep(0.5)
            self.d.save_screenshot(f"{asked.shots}/{name}.png")

    def keys(self, *keys):
        ActionChains(self.d).send_keys(*keys).perform()

    def at(self, lon, lat):
        """Where a place is in the window."""
        return self.js("const m = dewfelt.map, p = m.screen(...m.project(arguments[0], arguments[1])), b = m.canvas.getBoundingClientRect(); return [p[0] + b.left, p[1] + b.top]", lon, lat)

    def press(self, *places):
        """Presses a place of the map, and drags it to a second one."""
        it = ActionBuilder(self.d)
        points = [tuple(map(round, self.at(*place))) for place in places]
        it.pointer_action.move_to_location(*points[0]).pointer_down()
        for x, y in points[1:]:
            it.pointer_action.move_to_location((points[0][0] + x) // 2, (points[0][1] + y) // 2).move_to_location(x, y)
        it.pointer_action.pointer_up()
        it.perform()

    def search(self, text):
        self.js("const s = document.querySelector('#search'); s.value = arguments[0]; s.dispatchEvent(new Event('input'))", text)

    def errors(self):
        return [it["message"] for it in self.d.get_log("browser") if it["level"] == "SEVERE" and "Failed to load resource" not in it["message"]]


def wants(part):
    """Marks a test of a part of the interface."""
    def mark(test):
        test.part = part
        return test
    return mark


def lorry():
    """A vehicle that is connected and has reported, as `vehicles` tells it."""
    return next(it for it in told("/api/v1/vehicles?limit=2000")["vehicles"] if it["link"] == "open" and it["fix"] and it["fix"]["status"] & 2)


# ---- the files and the interface

def test_files_are_those_of_page(_):
    assert subprocess.run([sys.executable, TOP / "tools/make_page.py", "--check"]).returncode == 0
    for path, file in (("/", "index.html"), ("/app.js", "app.js"), ("/map.js", "map.js"), ("/words.js", "words.js"), ("/style.css", "style.css"), ("/icon.svg", "icon.svg")):
        status, headers, body = ask("GET", path, token=None)
        assert status == 200 and body == (TOP / "page" / file).read_bytes(), path
        assert ask("GET", path, token=None, If_None_Match=headers["etag"])[0] == 304, path


def test_who_is_answered(_):
    assert ask("GET", "/healthz", token=None)[2] == b"ok\n" and ask("GET", "/readyz", token=None)[0] == 200
    status, headers, body = ask("GET", "/api/v1/server", token=None)
    assert status == 401 and headers["www-authenticate"] == 'Bearer realm="dewfelt"' and headers["content-type"] == "application/problem+json", headers
    assert json.loads(body)["status"] == 401
    assert ask("GET", "/api/v1/server", token="x" * 64)[0] == 401
    assert ask("GET", "/api/v1/server", Host="evil.example")[0] == 421
    assert ask("GET", "/", token=None, Host="evil.example")[0] == 421
    assert ask("GET", "/api/v1/server", Origin="http://evil.example")[0] == 403
    assert ask("GET", "/api/v1/server", Origin=f"http://{asked.http}")[0] == 200
    assert json.loads(ask("GET", "/api/v1/server", token="read")[2])["access"] == "read"
    for method in ("POST", "PUT", "DELETE", "PATCH", "OPTIONS"):
        status, headers, _ = ask(method, "/api/v1/vehicles")
        assert status == 405 and headers["allow"] == "GET, HEAD", (method, status)


def test_what_is_wrong(_):
    for path, status in (("/api/v1/nothing", 404), ("/api/v1/vehicles/1", 404), ("/api/v1/vehicles/x", 404), ("/api/v1/../healthz", 404), ("/api/v1/%73erver", 404), ("/API/v1/server", 404)):
        assert ask("GET", path)[0] == status, path
    for query, parameter in (("limit=0", "limit"), ("limit=2001", "limit"), ("limit=01", "limit"), ("since=q", "since"), ("limit=1&limit=1", "limit"), ("x=1", None)):
        status, _, body = ask("GET", f"/api/v1/changes?{query}")
        assert status == 400 and json.loads(body).get("parameter") == parameter, query
    assert ask("POST", "/api/v1/vehicles", body=b"x" * 65537)[0] == 413


def test_headers_and_head(_):
    status, headers, body = ask("HEAD", "/", token=None)
    assert status == 200 and body == b"" and int(headers["content-length"]) == (TOP / "page/index.html").stat().st_size
    for path in ("/", "/api/v1/server", "/api/v1/nothing", "/metrics"):
        headers = ask("GET", path)[1]
        assert "script-src 'self'" in headers["content-security-policy"] and "unsafe" not in headers["content-security-policy"], path
        assert headers["x-content-type-options"] == "nosniff" and headers["referrer-policy"] == "no-referrer", path
    assert ask("GET", "/api/v1/server")[1]["cache-control"] == "no-store"


def test_attacks(_):
    host = asked.http.encode()
    assert raw(b"GET http://evil.example/ HTTP/1.1\r\nHost: " + host + b"\r\nConnection: close\r\n\r\n")[9:12] == b"400"
    assert raw(b"GET / HTTP/1.1\r\nConnection: close\r\n\r\n")[9:12] in (b"400", b"421")
    assert raw(b"GET / HTTP/1.1\r\nHost: " + host + b"\r\n" + b"".join(b"X-%d: 1\r\n" % n for n in range(100)) + b"\r\n")[9:12] == b"431"
    assert raw(b"GET / HTTP/1.1\r\nHost: " + host + b"\r\nX: " + b"x" * 20000 + b"\r\n\r\n")[9:12] == b"431"
    two = raw((b"GET /healthz HTTP/1.1\r\nHost: " + host + b"\r\n\r\n") * 2 + b"GET /healthz HTTP/1.1\r\nHost: " + host + b"\r\nConnection: close\r\n\r\n")
    assert two.count(b"HTTP/1.1 200") == 3, two
    begun = time.time()
    assert raw(b"") == b"" and 3 < time.time() - begun < 9
    begun = time.time()
    host_name, _, port = asked.http.rpartition(":")
    with socket.create_connection((host_name, int(port)), timeout=30) as link:
        try:
            for octet in b"GET /healthz HTTP/1.1\r\nHost: " + host + b"\r\n\r\n":
                link.sendall(bytes([octet]))
                time.sleep(1)
        except OSError:
            pass
    assert time.time() - begun < 16


def test_many_connections(_):
    host, _, port = asked.http.rpartition(":")
    links = [socket.create_connection((host, int(port)), timeout=10) for _ in range(64)]
    time.sleep(1)
    busy = raw(b"GET /healthz HTTP/1.1\r\nHost: " + asked.http.encode() + b"\r\nConnection: close\r\n\r\n")
    assert busy == b"" or busy.startswith(b"HTTP/1.1 503"), busy
    for link in links:
        link.close()
    time.sleep(2)
    assert ask("GET", "/healthz", token=None)[0] == 200


def test_changes_name_each_vehicle(_):
    columns, rows = all_vehicles()
    at = columns.index("phone")
    assert len({row[at] for row in rows}) == told("/api/v1/server")["vehicles"] >= 10
    names, after = [], ""
    while after is not None:
        it = told(f"/api/v1/vehicles?after={after}&limit=3" if after else "/api/v1/vehicles?limit=3")
        names += [v["phone"] for v in it["vehicles"]]
        after = it["next"]
    assert names == sorted({row[at] for row in rows})
    first = told("/api/v1/changes")
    assert first["full"] and not told(f"/api/v1/changes?since={first['cursor']}")["full"]
    assert told("/api/v1/changes?since=00000001.1")["full"]


@wants("rows")
def test_rows_once(_):
    """By pages of any size the rows are the same, each once and in order."""
    phone = lorry()["phone"]
    whole = ask("GET", f"/api/v1/vehicles/{phone}/rows?limit=100")[2]
    numbers = [json.loads(line)["number"] for line in whole.splitlines()]
    assert len(numbers) == 100 and numbers == sorted(set(numbers)), numbers
    for size in (1, 7, 50):
        found, at = b"", 0
        while len(found) < len(whole):
            _, headers, body = ask("GET", f"/api/v1/vehicles/{phone}/rows?from={at}&limit={size}")
            assert headers["dewfelt-more"] == "true" and len(body.splitlines()) == size
            found, at = found + body, int(headers["dewfelt-next"])
        assert found.startswith(whole), size
    assert ask("GET", f"/api/v1/vehicles/{phone}/rows?from={2**40}")[2] == b""


def test_positions_and_counts(_):
    it = told("/api/v1/positions")
    assert it["type"] == "FeatureCollection" and it["features"]
    for feature in it["features"]:
        vehicle = told(f"/api/v1/vehicles/{feature['id']}")
        assert vehicle["phone"] == feature["properties"]["phone"] and feature["properties"]["status"] & 2
        assert len(feature["geometry"]["coordinates"]) == 2
    text = ask("GET", "/api/v1/positions")[2].decode()
    assert all(len(part.split(",")[0].split("]")[0].rpartition(".")[2]) == 6 for part in text.split('"coordinates":[')[1:])
    assert {c["phone"] for c in told("/api/v1/counts")["counts"]} == {v["phone"] for v in told("/api/v1/vehicles?limit=2000")["vehicles"]}


def test_metrics(_):
    from prometheus_client.parser import text_string_to_metric_families
    status, headers, body = ask("GET", "/metrics", token="read")
    assert status == 200 and headers["content-type"].startswith("text/plain; version=0.0.4")
    families = {it.name: it for it in text_string_to_metric_families(body.decode())}
    assert families["dewfelt_vehicles"].samples[0].value == told("/api/v1/server")["vehicles"]
    assert {s.labels["end"] for s in families["dewfelt_sessions_ended"].samples} >= {"idle", "fenced", "stopped"}


# ---- the page

def test_token(page):
    page.open(token=None)
    page.until("return document.querySelector('#token-input')")
    page.one("#token-input").send_keys("wrong", Keys.ENTER)
    page.until("return document.querySelector('dialog .wrong')")
    page.one("#token-input").send_keys(asked.tokens["operate"], Keys.ENTER)
    page.until("return dewfelt.page.vehicles.size > 0")
    page.open()
    assert "token" not in page.js("return location.href")


def test_list(page):
    page.open()
    page.until("return document.querySelectorAll('.row:not([hidden])').length > 5")
    phone = page.js("return [...dewfelt.page.vehicles.values()].find((v) => v.x !== null).phone")
    page.keys("/")
    page.keys(phone)
    page.until("return dewfelt.page.list.length === 1")
    page.keys(Keys.ENTER)
    page.until(f"return dewfelt.page.chosen?.phone === '{phone}'")
    page.keys(Keys.ESCAPE)
    page.one("#search").clear()
    page.one("#search").send_keys("zzz")
    page.until("return dewfelt.page.list.length === 0 && !document.querySelector('#list-empty').hidden")
    page.keys(Keys.ESCAPE)
    page.until("return dewfelt.page.list.length === dewfelt.page.vehicles.size")
    page.click('[data-filter="away"]')
    page.until("return dewfelt.page.list.length > 0 && dewfelt.page.list.every((v) => v.state === 'away')")
    page.click('[data-filter="all"]')


def test_vehicle(page):
    page.open()
    phone = page.js("return [...dewfelt.page.vehicles.values()].find((v) => v.x !== null && v.link === 'open').phone")
    page.js("document.querySelector('#list').scrollTop = 0")
    page.js(f"document.querySelector('#search').value = '{phone}'; document.querySelector('#search').dispatchEvent(new Event('input'))")
    page.click(f'[data-phone="{phone}"]')
    page.until(f"return dewfelt.page.chosen?.phone === '{phone}' && document.querySelector('#detail h2')")
    page.click("#b-follow")
    page.until("return dewfelt.page.follow")
    has = told("/api/v1/server")["has"]
    assert page.js("return document.querySelector('.subtabs').hidden") == (not {"track", "orders"} & set(has))
    for part in ("alarms", "fences"):
        assert page.js(f"return document.querySelector('#b-{part}').hidden") == (part not in has), part


def test_press_outlasts_answers(page):
    """A press that is held while answers come still ends on what was pressed."""
    page.open()
    phone = page.js("return [...dewfelt.page.vehicles.values()].find((v) => v.x !== null && v.link === 'open').phone")
    page.search(phone)
    page.click(f'[data-phone="{phone}"]')
    page.until("return document.querySelector('#b-follow')")
    ActionChains(page.d).click_and_hold(page.one("#b-follow")).perform()
    answered = page.js("return dewfelt.page.answered")
    page.until(f"return dewfelt.page.answered > {answered} + 2500")
    assert not page.js("return dewfelt.page.follow")
    ActionChains(page.d).release().perform()
    page.until("return dewfelt.page.follow", 2)
    pressed = page.js("return document.querySelector('#b-follow').innerText")
    page.click("#b-follow")
    page.until("return !dewfelt.page.follow")
    page.until(f"return document.querySelector('#b-follow').innerText !== {json.dumps(pressed)}", 2)


def test_follows(page):
    """What changes is shown without a press."""
    page.open()
    cursor = page.js("return dewfelt.page.cursor")
    page.until(f"return dewfelt.page.cursor !== {json.dumps(cursor)}", 40)


def test_newcomers_and_looks(page):
    page.open()
    page.keys("n")
    page.until("return document.querySelector('#detail pre')")
    assert page.text("#detail pre").startswith("vehicle ")
    page.keys("d")
    page.click("#b-language")
    page.until("return document.documentElement.dataset.theme === 'dark' && document.documentElement.lang === 'zh-Hans'")
    page.click("#b-fit")
    page.open()
    assert page.js("return document.documentElement.dataset.theme + document.documentElement.lang") == "darkzh-Hans"
    page.js("localStorage.clear()")


@wants("track")
def test_day(page):
    """The day of a vehicle stands at the places of its CSV."""
    phone = lorry()["phone"]
    page.open()
    page.search(phone)
    page.click(f'[data-phone="{phone}"]')
    page.click('[data-tab="day"]')
    page.until("return dewfelt.page.track")
    day = page.js("return dewfelt.page.now.slice(0, 10)")
    query = f"from={day}T00:00:00%2B08:00&to={day}T23:59:59%2B08:00"
    lines = list(csv.DictReader(io.StringIO(ask("GET", f"/api/v1/vehicles/{phone}/track?{query}&form=csv")[2].decode())))
    shown = page.js("return dewfelt.page.track.points.length")
    assert abs(shown - len(lines)) <= 2 and shown > 20, (shown, len(lines))
    assert b"<trkpt" in ask("GET", f"/api/v1/vehicles/{phone}/track?{query}&form=gpx")[2]
    middle = lines[len(lines) // 2]
    clock = middle["time"][11:19]
    at = sum(int(part) * times for part, times in zip(clock.split(":"), (3600, 60, 1)))
    page.js("const s = document.querySelector('#slider'); s.value = arguments[0]; s.dispatchEvent(new Event('input'))", at)
    assert page.text("#replay-time") == clock
    assert abs(page.js("return dewfelt.map.track.mark.x * 360 - 180") - float(middle["longitude"])) < 0.00001, middle
    page.shot("desktop-day")
    page.click("#b-play")
    page.until(f"return dewfelt.page.track.at > {at + 100}")
    page.js("document.activeElement.blur()")
    page.keys(" ")
    page.until("return !dewfelt.page.playing")


@wants("fences")
def test_fences(page):
    """A fence is drawn, dragged, changed by somebody else meanwhile, and deleted; what is none is refused."""
    page.open()
    before = len(told("/api/v1/fences")["features"])
    page.js("dewfelt.map.center((113.5 + 180) / 360, dewfelt.map.project(113.5, 22.6)[1]); dewfelt.map.view.zoom = 9.5; dewfelt.map.draw()")
    page.keys("g")
    page.click("#b-new-fence")
    time.sleep(0.4)
    ring = [(113.1, 22.5), (113.4, 22.5), (113.4, 22.7), (113.1, 22.7)]
    for place in ring:
        page.press(place)
    page.until("return dewfelt.map.edited.ring.length === 4")
    page.press(ring[0])
    page.until("return dewfelt.map.edited.closed")
    name = page.one("#fence-name")
    name.clear()
    name.send_keys("<img src=x onerror=alert(1)> 库")
    page.one("#fence-limit").send_keys("40")
    page.shot("desktop-fence")
    page.click("#b-save-fence")
    page.until(f"return dewfelt.page.fences.length === {before + 1} && !dewfelt.page.edited")
    made = next(it for it in told("/api/v1/fences")["features"] if it["properties"]["name"].startswith("<img"))
    corners = made["geometry"]["coordinates"][0]
    assert len(corners) == 5 and made["properties"]["limit"] == {"speed_kmh": 40, "seconds": 10}, made
    assert all(abs(lon - x) < 0.002 and abs(lat - y) < 0.002 for (lon, lat), (x, y) in zip(ring, corners)), (made, ring)
    page.click(f'[data-fence="{made["id"]}"]')
    page.until("return dewfelt.map.edited?.closed")
    time.sleep(0.4)
    page.press(tuple(corners[0]), (113.15, 22.55))
    page.until("return Math.abs(dewfelt.map.edited.ring[0][0] - 113.15) < 0.003")
    content, kind = json.dumps(made).encode(), {"Content_Type": "application/geo+json"}
    path, tag = f"/api/v1/fences/{made['id']}", ask("GET", "/api/v1/fences")[1]["etag"]
    assert ask("PUT", path, body=content, **kind)[0] == 428
    assert ask("PUT", path, token="read", body=content, If_Match=tag, **kind)[0] == 403
    assert ask("PUT", path, body=content, If_Match=tag, **kind)[0] == 200
    page.js("dewfelt.page.fencesSeen = '\"old\"'")
    page.click("#b-save-fence")
    page.until("return document.querySelector('.toast')")
    page.click("#b-save-fence")
    page.until("return !dewfelt.page.edited")
    page.click(f'[data-fence="{made["id"]}"]')
    page.until("return dewfelt.map.edited?.closed")
    page.click("#fence-form .danger")
    page.d.switch_to.alert.accept()
    page.until(f"return dewfelt.page.fences.length === {before}")
    tag = ask("GET", "/api/v1/fences")[1]["etag"]
    polygon = lambda *rings: json.dumps({"type": "Feature", "properties": {"name": "x"}, "geometry": {"type": "Polygon", "coordinates": rings}}).encode()
    hole = [[1, 1], [2, 1], [2, 2], [1, 1]]
    assert ask("PUT", "/api/v1/fences/9", body=polygon(hole, hole), If_Match=tag, **kind)[0] == 422
    status, _, body = ask("PUT", "/api/v1/fences/9", body=polygon([[-1, 1], *hole[1:]]), If_Match=tag, **kind)
    assert status == 422 and json.loads(body)["pointer"] == "/geometry/coordinates/0/0"


@wants("alarms")
def test_alarms(page):
    page.open()
    page.keys("a")
    page.until("return document.querySelectorAll('[data-alarm]').length > 0 || document.querySelector('#detail .hint')")
    alarms = told("/api/v1/alarms?after=0&limit=3")["alarms"]
    assert [it["id"] for it in alarms] == sorted({it["id"] for it in alarms})
    if alarms:
        page.click("[data-alarm]")
        page.until("return dewfelt.page.panel === 'vehicle'")


def test_phone(_):
    """Each view of a window of 390 points, by presses."""
    page = Page(390, 844, 2)
    try:
        page.open()
        page.until("return document.querySelector('#tabs').getClientRects().length > 0")
        page.click('#tabs [data-to="vehicles"]')
        phone = lorry()["phone"]
        page.search(phone)
        page.click(f'[data-phone="{phone}"]')
        page.until(f"return dewfelt.page.chosen?.phone === '{phone}' && document.querySelector('#detail h2')")
        page.click('#tabs [data-to="more"]')
        page.click('[data-more="newcomers"]')
        page.until("return document.querySelector('#detail pre')")
        page.click('#tabs [data-to="map"]')
        page.until("return document.body.dataset.view === 'map'")
        assert not page.errors()
    finally:
        page.d.quit()


# ---- how it looks

def seen(page, name):
    """A picture of a view, in which nothing is wider than the window and no word is missing."""
    page.shot(name)
    wide = page.js("return [...document.querySelectorAll('body, #bar, #side, #detail, #list-empty')].filter((it) => it.scrollWidth > it.clientWidth + 1 && it.getClientRects().length).map((it) => it.id || it.tagName)")
    assert not wide, (name, wide)
    assert page.js("return document.documentElement.scrollWidth <= innerWidth"), name
    text = page.js("return document.body.innerText")
    assert "undefined" not in text and "NaN" not in text and "[object" not in text, (name, text)


def to_view(page, width, view):
    """The list, the map or what stands under `more`, where the window is narrow; a wide one has all."""
    if width < 760:
        page.click(f'#tabs [data-to="{view}"]')


def looks(width, theme, language):
    def test(_):
        has, phone = told("/api/v1/server")["has"], lorry()["phone"]
        front = f"{width}-{theme}-{language}"
        page = Page(width, 844 if width < 760 else 900, 2 if width < 760 else 1)
        try:
            page.open()
            page.js("localStorage.setItem('dewfelt.theme', arguments[0]); localStorage.setItem('dewfelt.language', arguments[1])", theme, language)
            page.open()
            wanted = {"en": "en", "zh": "zh-Hans"}[language]
            page.until(f"return document.documentElement.dataset.theme === '{theme}' && document.documentElement.lang === '{wanted}'")
            page.until("return dewfelt.page.list.length > 5")
            seen(page, f"{front}-1-map")
            to_view(page, width, "vehicles")
            page.until("return document.querySelectorAll('.row:not([hidden])').length > 5")
            seen(page, f"{front}-2-list")
            page.search("zzz")
            page.until("return !document.querySelector('#list-empty').hidden")
            seen(page, f"{front}-3-none-found")
            page.search(phone)
            page.click(f'[data-phone="{phone}"]')
            page.until("return document.querySelector('#detail h2')")
            seen(page, f"{front}-4-vehicle")
            if "track" in has:
                page.search("")
                page.click('[data-tab="day"]')
                page.until("return dewfelt.page.track")
                seen(page, f"{front}-5-day")
            page.keys(Keys.ESCAPE)
            if width < 760:
                page.click('#tabs [data-to="more"]')
                seen(page, f"{front}-6-more")
                page.click('[data-more="newcomers"]')
            else:
                page.click("#b-newcomers")
            page.until("return document.querySelector('#detail pre')")
            seen(page, f"{front}-7-newcomers")
            for at, part in ((8, "alarms"), (9, "fences")):
                if part in has:
                    page.js(f"document.querySelector('#b-{part}').click()")
                    time.sleep(0.5)
                    seen(page, f"{front}-{at}-{part}")
            assert not page.errors()
        finally:
            page.d.quit()
    test.__name__ = f"test_looks_{width}_{theme}_{language}"
    return test


def tests():
    named = [it for name, it in globals().items() if name.startswith("test_")]
    return named + list(itertools.starmap(looks, itertools.product((1440, 390), ("light", "dark"), ("en", "zh"))))


def until(is_so, seconds=60):
    end = time.time() + seconds
    while not is_so():
        assert time.time() < end, "not so in time"
        time.sleep(0.3)


def want_packages():
    """Stops where a package is missing that the tests want."""
    command_line.want_module("selenium", "python3-selenium")
    command_line.want_module("prometheus_client", "python3-prometheus-client")
    command_line.want_command("chromium", "chromium chromium-driver")


def take_up(address, token, read_token, shots):
    """Says which service is tested. A token is one, or a file with one."""
    global asked
    read = lambda it: pathlib.Path(it).read_text().strip() if os.path.exists(it) else it
    asked = argparse.Namespace(http=address, tokens={"operate": read(token), "read": read(read_token)}, shots=shots)
    if shots:
        os.makedirs(shots, exist_ok=True)


def run_one(test, page):
    """Whether a test passes. It is told."""
    begun = time.time()
    try:
        test(page)
        errors = page.errors()
        assert not errors, errors
        print(f"ok   {test.__name__} ({time.time() - begun:.1f} s)", flush=True)
        return True
    except Exception:
        print(f"FAIL {test.__name__}\n{traceback.format_exc()}", flush=True)
        page.shot(f"failed-{test.__name__}")
        return False


def run(tests, only):
    """Runs tests whose names have a word in them. Gives the status."""
    failed, page = 0, Page()
    try:
        has = told("/api/v1/server")["has"]
        for test in tests:
            part = getattr(test, "part", None)
            if only not in test.__name__:
                continue
            if part and part not in has:
                print(f"pass over {test.__name__}: the service has no {part}", flush=True)
                continue
            failed += not run_one(test, page)
    finally:
        page.d.quit()
    print(f"failed={failed}")
    return 1 if failed else 0


def main():
    words = command_line.Words(__doc__)
    words.add_argument("--http", type=command_line.address, default="127.0.0.1:8080", metavar="ADDRESS:PORT")
    words.add_argument("--token", required=True, help="the file http.token of the service, or the token")
    words.add_argument("--read-token", required=True, help="the file http.read.token, or the token")
    words.add_argument("--shots")
    words.add_argument("--only", default="")
    given = words.parse_args()
    want_packages()
    take_up(given.http, given.token, given.read_token, given.shots)
    return run(tests(), given.only)


if __name__ == "__main__":
    command_line.run(main)
