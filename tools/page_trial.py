#!/usr/bin/python3
"""Tests the interface over HTTP and the operator's page of the built service, over a fleet that reports meanwhile:

    tools/page_trial.py PROGRAM [--shots FOLDER] [--only WORD] [--lorries N] [--many N] [--keep]

PROGRAM is crates/dewfelt/out/dewfelt, or page/mock.py for work on the page. It makes a folder: a fleet, and a platform.db with a day
of 24 lorries that ends now (samples/day.fixes, turned and shifted). It starts `dewfelt serve` over it, and lets the lorries dial and
report on, some leave, and a terminal that is not in the fleet be turned away. Then it reads the tokens in the folder, runs the tests
of tools/test_page.py, and two of its own: the service ends and begins anew while a page is open, and a service has no vehicle yet.
With --many another service has N vehicles, and it prints how long the page takes to paint them, and how long answers of 2,000 take.
Tests of parts that the service says it lacks are passed over, and with mock.py those of limits and times.

It wants the Debian packages chromium, chromium-driver and python3-selenium, fonts-noto-cjk for the pictures, and
python3-prometheus-client. --shots is a folder for pictures: 1,440 and 390 points wide, dark and light, in English and Chinese. It
prints a line a test; the status is 1 where one failed.
"""
import asyncio
import contextlib
import os
import pathlib
import shutil
import socket
import sqlite3
import subprocess
import sys
import tempfile
import threading
import time
import urllib.request

sys.dont_write_bytecode = True
import command_line  # noqa: E402
import page_fleet  # noqa: E402
import test_page  # noqa: E402
from test_positions import MAKE  # noqa: E402

LORRIES = 24
# Seconds in which the file has to be open: the program without proof takes minutes for it.
READY = 600
# Fixes behind now, which mock.py plays.
PLAYED = 60
TOKENS = ("http.token", "http.read.token")
NOT_OF_MOCK = ("test_attacks", "test_many_connections", "test_metrics")


def free_port():
    with socket.socket() as one:
        one.bind(("127.0.0.1", 0))
        return one.getsockname()[1]


class Serving:
    """The program over a folder, which may end and begin anew."""

    def __init__(self, program, folder):
        self.program, self.folder = program, folder
        self.is_mock = os.path.basename(program) == "mock.py"
        self.port, self.http = free_port(), f"127.0.0.1:{free_port()}"
        self.log = open(f"{folder}/log", "ab")

    def words(self):
        if not self.is_mock:
            return [self.program, "serve", self.folder, "--listen", f"127.0.0.1:{self.port}", "--http", self.http, "--until-input-ends"]
        for name in TOKENS:
            pathlib.Path(self.folder, name).write_text(name.replace(".", "") * 4 + "\n")
        tokens = [pathlib.Path(self.folder, name).read_text().strip() for name in TOKENS]
        begin = time.strftime("%Y-%m-%dT%H:%M:%S", time.gmtime(time.time() + 8 * 3600))
        return [self.program, "--db", f"{self.folder}/platform.db", "--http", self.http, "--token", tokens[0], "--read-token", tokens[1], "--from", begin]

    def start(self):
        self.run = subprocess.Popen(self.words(), stdin=subprocess.PIPE, stdout=self.log, stderr=self.log)
        until = time.monotonic() + READY
        while time.monotonic() < until:
            if self.run.poll() is not None:
                raise SystemExit(f"the program ended with status {self.run.returncode}:\n{pathlib.Path(self.folder, 'log').read_text()}")
            with contextlib.suppress(OSError), urllib.request.urlopen(f"http://{self.http}/readyz", timeout=5) as answer:
                if answer.status == 200:
                    return self
            time.sleep(0.1)
        raise SystemExit(f"the service is not ready after {READY} s")

    def end(self):
        self.run.stdin.close()
        if self.is_mock:
            self.run.terminate()
        return self.run.wait(60)

    def kill(self):
        if self.run.poll() is None:
            self.run.kill()
            self.run.wait()


def write_folder(folder, lorries, never, now, last):
    """A fleet of the lorries and of some that never came, and the file with what the lorries reported."""
    with open(f"{folder}/fleet", "w", encoding="utf-8") as file:
        file.write(page_fleet.SECRET + "".join(it.fleet_line() for it in [*lorries, *never]))
    with contextlib.closing(sqlite3.connect(f"{folder}/platform.db")) as base:
        base.executescript(MAKE)
        base.executemany("INSERT INTO registered VALUES (?, ?, ?)", [it.registered() for it in [*lorries, *never]])
        for it in lorries:
            base.executemany("INSERT INTO rows808 VALUES (?, ?, ?, ?)", it.rows(now, last))
        base.commit()


@contextlib.contextmanager
def reporting(serving, lorries):
    """The lorries report, in a thread, until the end."""
    if serving.is_mock:
        yield
        return
    loop = asyncio.new_event_loop()
    task = loop.create_task(page_fleet.Reporting(lorries, serving.port).run())
    thread = threading.Thread(target=loop.run_until_complete, args=(task,))
    thread.start()
    try:
        yield
    finally:
        loop.call_soon_threadsafe(task.cancel)
        thread.join()
        loop.close()


def lost_test(serving):
    def test_lost(page):
        """The service ends and begins anew: the page tells it, and goes on by itself."""
        page.open()
        count = page.js("return dewfelt.page.vehicles.size")
        assert serving.end() == 0 or serving.is_mock
        page.until("return !document.querySelector('#notice').hidden", 30)
        page.shot("desktop-lost")
        serving.start()
        page.until(f"return document.querySelector('#notice').hidden && dewfelt.page.vehicles.size === {count}", 60)
        page.errors()
    return test_lost


def empty_test(program):
    def test_empty(page):
        """A service with no vehicle says what to do."""
        with tempfile.TemporaryDirectory(prefix="page-empty-") as folder:
            write_folder(folder, [], [], 0, 0)
            serving = Serving(program, folder).start()
            try:
                token = pathlib.Path(folder, "http.token").read_text().strip()
                page.d.get("about:blank")
                page.d.get(f"http://{serving.http}/#token={token}")
                page.until("return document.querySelector('#list-empty').innerText.length > 20")
                page.shot("desktop-empty")
                port = "9000" if serving.is_mock else str(serving.port)
                assert port in page.text("#list-empty"), page.text("#list-empty")
            finally:
                serving.kill()
    return test_empty


FRAMES = """
const done = arguments[arguments.length - 1], m = dewfelt.map, gaps = [];
m.frames.length = 0;
let n = 0, last = performance.now();
const step = (t) => {
  gaps.push(t - last); last = t; m.pan(n % 40 < 20 ? 4 : -4, 0);
  if (++n < 200) return requestAnimationFrame(step);
  const order = (a) => a.slice(5).sort((x, y) => x - y), at = (a) => [a[a.length >> 1], a[Math.floor(a.length * .99)]];
  done({inView: m.inView, paint: at(order(m.frames)), frame: at(order(gaps))});
};
requestAnimationFrame(step);"""
NEAR = "const m = dewfelt.map; m.view.zoom = 10.5; m.view.x = (113.3 + 180) / 360; m.view.y = m.project(113.3, 22.8)[1]; m.draw()"
LETTER = """const at = performance.now(), s = document.querySelector('#search');
s.value = 'a1'; s.dispatchEvent(new Event('input')); return performance.now() - at"""
ASKED = 200


def shown(name, numbers):
    print(f"   {name}: median {numbers[0]:.1f} ms, 99 % {numbers[1]:.1f} ms", flush=True)


def times_of_changes():
    """The milliseconds that answers of 2,000 vehicles took, in order, by one connection each."""
    taken = []
    for _ in range(ASKED):
        began = time.perf_counter()
        test_page.ask("GET", "/api/v1/changes?limit=2000")
        taken.append(1000 * (time.perf_counter() - began))
    return sorted(taken)


def many_test(program, count, lorries):
    def test_many(page):
        """How long many vehicles take. What the machine had to do meanwhile stands behind `load`."""
        before = test_page.asked
        with tempfile.TemporaryDirectory(prefix="page-many-") as folder:
            write_folder(folder, [page_fleet.Follower(number, lorries[number % len(lorries)]) for number in range(count)], [], time.time(), 0)
            serving = Serving(program, folder).start()
            try:
                test_page.take_up(serving.http, f"{folder}/http.token", f"{folder}/http.read.token", before.shots)
                print(f"   load {os.getloadavg()[0]:.1f} of {os.cpu_count()} processors", flush=True)
                taken = times_of_changes()
                shown("2,000 rows of changes", (taken[ASKED // 2], taken[ASKED * 99 // 100]))
                began = time.monotonic()
                page.open()
                page.until(f"return dewfelt.page.vehicles.size === {count}", 120)
                print(f"   {count} vehicles read and shown after {time.monotonic() - began:.2f} s", flush=True)
                page.shot("desktop-many")
                for name, begin in (("all in view", ""), ("near", NEAR)):
                    page.js(begin)
                    page.shot(f"desktop-many-{name.replace(' ', '-')}")
                    got = page.d.execute_async_script(FRAMES)
                    shown(f"{name}, {got['inView']} in view, painting", got["paint"])
                    shown(f"{name}, frame to frame", got["frame"])
                print(f"   a letter into the search: {page.js(LETTER):.1f} ms; load {os.getloadavg()[0]:.1f}", flush=True)
            finally:
                serving.kill()
                test_page.asked = before
    return test_many


def words():
    asked = command_line.Words(__doc__)
    asked.add_argument("program", metavar="PROGRAM", type=command_line.program)
    asked.add_argument("--shots")
    asked.add_argument("--only", default="")
    asked.add_argument("--lorries", type=command_line.positive, default=LORRIES, metavar="N", help="at least 12; fewer for a program without proof, which is slow")
    asked.add_argument("--many", type=command_line.number, default=0, metavar="N")
    asked.add_argument("--keep", action="store_true", help="leave the folder")
    return asked.parse_args()


def main():
    asked = words()
    test_page.want_packages()
    folder = tempfile.mkdtemp(prefix="page-")
    day = page_fleet.sample()
    lorries = [page_fleet.Lorry(number, day) for number in range(asked.lorries)]
    never = [page_fleet.Lorry(asked.lorries + number, day) for number in range(2)]
    serving = Serving(os.path.abspath(asked.program), folder)
    write_folder(folder, lorries, never, time.time(), PLAYED if serving.is_mock else 0)
    print(f"over {folder}", flush=True)
    serving.start()
    try:
        with reporting(serving, lorries):
            test_page.take_up(serving.http, f"{folder}/http.token", f"{folder}/http.read.token", asked.shots)
            test_page.until(lambda: any(row[test_page.all_vehicles()[0].index("link")] == "open" for row in test_page.all_vehicles()[1]))
            tests = [it for it in test_page.tests() if not serving.is_mock or it.__name__ not in NOT_OF_MOCK]
            more = [many_test(serving.program, asked.many, lorries)] if asked.many else []
            return test_page.run([*tests, empty_test(serving.program), lost_test(serving), *more], asked.only)
    finally:
        serving.kill()
        if not asked.keep:
            shutil.rmtree(folder)


if __name__ == "__main__":
    command_line.run(main)
