#!/usr/bin/env python3
"""Does what systemd does with samples/platform.service, and tries samples/serve.sh beside it, on the loopback alone:

    tools/unit_trial.py PROGRAM

PROGRAM is crates/dewfelt/out/dewfelt once it is built. Each trial prints a line with what was seen, and `ok` or `WRONG`; the status
is 1 where one is wrong. What systemd does is done of what the unit says: ExecStart with its descriptors, and as another user with
its threads where root runs this; anew RestartSec behind an end that is a failure, but for RestartPreventExitStatus; ExecStop, then
SIGTERM, and SIGKILL 90 seconds later. The paths of the program and of the folder are those of the trial. Memory, the file system
and the order of units are not tried.
"""
import contextlib
import os
import re
import resource
import shutil
import signal
import socket
import subprocess
import tempfile
import threading
import time

import command_line
from fleet_trial import PLATE, content_of, frame

ROOT = os.path.dirname(os.path.dirname(os.path.realpath(__file__)))
UNIT = f"{ROOT}/samples/platform.service"
LOOP = f"{ROOT}/samples/serve.sh"
# The user as whom root runs the program: the system counts nobody else's threads.
OTHER_USER = 64998
# Signals by which a service ends without a failure, by systemd.service(5).
CLEAN = (signal.SIGHUP, signal.SIGINT, signal.SIGTERM, signal.SIGPIPE)
# Seconds: systemd's TimeoutStopSec where a unit has none, and how long a trial waits for what is to come.
STOP, SOON = 90, 20
FLEET = 'secret 6578616d706c65\nvehicle "粤B12345" "1234567" 013912345678\n'
PHONE = bytes.fromhex("013912345678")
# A shorter log has nothing in it: its header, that of a frame, and the smallest page, by the format of SQLite.
SMALLEST_LOG = 32 + 24 + 512


def in_unit(key):
    """What the unit says of a key."""
    found = re.search(rf"^{key}=(.*)$", open(UNIT).read(), re.M)
    return found[1] if found else None


class Folder:
    """A folder with a fleet and a port of its own."""

    def __init__(self):
        self.path = tempfile.mkdtemp(prefix="unit-")
        with socket.socket() as one:
            one.bind(("127.0.0.1", 0))
            self.port = one.getsockname()[1]
        self.write("fleet", FLEET)
        self.write("dewfelt.toml", f'listen = "127.0.0.1:{self.port}"\n')
        if os.getuid() == 0:
            os.chown(self.path, OTHER_USER, OTHER_USER)

    def write(self, name, text):
        with open(f"{self.path}/{name}", "w") as file:
            file.write(text)

    def is_served(self):
        with socket.socket() as one:
            return one.connect_ex(("127.0.0.1", self.port)) == 0

    def is_stored_whole(self):
        """Whether nothing is in the log that is not in the file."""
        log = f"{self.path}/platform.db-wal"
        return not os.path.exists(log) or os.path.getsize(log) < SMALLEST_LOG


def soon(holds, seconds=SOON):
    """Whether it holds before so many seconds are over."""
    until = time.monotonic() + seconds
    while time.monotonic() < until:
        if holds():
            return True
        time.sleep(0.05)
    return holds()


def ask(link, message, serial, body=b""):
    """The body of the first answer."""
    link.sendall(frame(message, PHONE, serial, body))
    octets = b""
    while octets.count(b"\x7e") < 2:
        got = link.recv(4096)
        if not got:
            raise SystemExit("the link ended")
        octets += got
    return content_of(octets.strip(b"\x7e"))[1]


def report(port):
    """A terminal registers, is let in, and has a unit accepted. Its link, which stays."""
    link = socket.create_connection(("127.0.0.1", port), SOON)
    code = ask(link, 0x0100, 1, bytes(4) + b"MAKER" + bytes(20) + b"1234567" + b"\x01" + PLATE)[3:]
    is_in = ask(link, 0x0102, 2, code)[4] == 0
    unit = ask(link, 0x0200, 3, bytes(22) + bytes.fromhex("241201100000"))
    return link, is_in and unit[4] == 0


def ends(link, seconds=SOON):
    """Whether the other end ends the link in time."""
    link.settimeout(seconds)
    try:
        return link.recv(4096) == b""
    except ConnectionResetError:
        return True
    except TimeoutError:
        return False


class Manager:
    """Runs the unit as systemd does."""

    def __init__(self, program, folder):
        self.words = {key: in_unit(key).replace("/usr/local/bin/dewfelt", program).replace("/var/lib/dewfelt", folder.path).split()
                      for key in ("ExecStart", "ExecStop")}
        self.prevents = [int(it) for it in in_unit("RestartPreventExitStatus").split()]
        self.pause = float(in_unit("RestartSec"))
        self.log = open(f"{folder.path}/log", "ab")
        self.starts, self.statuses, self.run = 0, [], None
        self.is_stopping = threading.Event()
        self.thread = threading.Thread(target=self.keep)
        self.thread.start()

    def limit(self):
        files, tasks = int(in_unit("LimitNOFILE")), int(in_unit("TasksMax"))
        resource.setrlimit(resource.RLIMIT_NOFILE, (files, files))
        if os.getuid() == 0:
            resource.setrlimit(resource.RLIMIT_NPROC, (tasks, tasks))
            os.setgroups([])
            os.setgid(OTHER_USER)
            os.setuid(OTHER_USER)

    def execute(self, key):
        return subprocess.Popen(self.words[key], cwd="/", env={"PATH": "/usr/bin:/bin"}, stdin=subprocess.DEVNULL,
                                stdout=self.log, stderr=self.log, start_new_session=True, preexec_fn=self.limit)

    def is_over(self, status):
        """Whether an end with this status is no failure, or one behind which the unit is not started anew."""
        return status == 0 or -status in CLEAN or status in self.prevents

    def keep(self):
        while not self.is_stopping.is_set():
            self.run = self.execute("ExecStart")
            self.starts += 1
            self.statuses.append(self.run.wait())
            if self.is_over(self.statuses[-1]):
                return
            self.is_stopping.wait(self.pause)

    def stop(self):
        """Stops the unit. The status of ExecStop, and how many seconds all took."""
        began = time.monotonic()
        self.is_stopping.set()
        status = None
        if self.run.poll() is None:
            status = self.execute("ExecStop").wait()
            self.run.terminate()
            try:
                self.run.wait(STOP)
            except subprocess.TimeoutExpired:
                self.run.kill()
        self.thread.join()
        return status, time.monotonic() - began

    def is_done(self):
        return not self.thread.is_alive()

    def end(self):
        """Leaves nothing running."""
        self.is_stopping.set()
        if self.run and self.run.poll() is None:
            self.run.kill()
        self.thread.join()


class Loop:
    """Runs samples/serve.sh."""

    def __init__(self, program, folder):
        self.said = f"{folder.path}/said"
        self.run = subprocess.Popen([LOOP, folder.path], env={**os.environ, "DEWFELT": program}, stdin=subprocess.DEVNULL,
                                    stdout=open(f"{folder.path}/log", "ab"), stderr=open(self.said, "ab"), start_new_session=True)

    def service(self):
        """The process of the service, which is the shell's only child."""
        found = subprocess.run(["pgrep", "-P", str(self.run.pid), "-f", " serve "], capture_output=True, text=True).stdout.split()
        return int(found[0]) if found else None

    def kill(self, number):
        soon(self.service)
        os.kill(self.service(), number)

    def has_said(self, text):
        return text in open(self.said).read()

    def end(self):
        """Leaves nothing running."""
        with contextlib.suppress(ProcessLookupError):
            os.killpg(self.run.pid, signal.SIGKILL)
        self.run.wait()


def stopped(folder, unit):
    """A terminal is let in and reports; the unit is stopped."""
    is_served = soon(folder.is_served)
    link, is_accepted = report(folder.port)
    status, seconds = unit.stop()
    return (is_served and is_accepted and (status, unit.statuses) == (0, [0]) and seconds < 5 and ends(link)
            and folder.is_stored_whole(), f"ExecStop {status}, service {unit.statuses}, {seconds:.1f} s")


def killed(folder, unit):
    """The service is killed while a terminal reports, and goes on."""
    soon(folder.is_served)
    link, is_accepted = report(folder.port)
    unit.run.kill()
    began = time.monotonic()
    is_back = ends(link) and soon(lambda: unit.starts == 2 and folder.is_served())
    seconds = time.monotonic() - began
    link, is_accepted_again = report(folder.port)
    status, _ = unit.stop()
    return (is_accepted and is_back and is_accepted_again and (status, unit.statuses) == (0, [-9, 0]),
            f"back after {seconds:.1f} s, service {unit.statuses}")


def terminated(folder, unit):
    """A SIGTERM from outside is no failure: the unit is not started anew."""
    soon(folder.is_served)
    unit.run.terminate()
    return soon(unit.is_done) and (unit.starts, unit.statuses) == (1, [-15]), f"service {unit.statuses}"


def wrong(folder, unit):
    """What helps nobody to go on with is not started anew."""
    return soon(unit.is_done) and unit.starts == 1 and unit.statuses[0] in unit.prevents, f"service {unit.statuses}"


def taken(folder, unit):
    """The port is another's: the unit is started anew until it is free."""
    is_tried = soon(lambda: unit.starts >= 3)
    folder.other.close()
    is_served = soon(folder.is_served)
    status, _ = unit.stop()
    return is_tried and is_served and status == 0 and set(unit.statuses[:-1]) == {6} and unit.statuses[-1] == 0, \
        f"service {unit.statuses}"


def loop_stopped(folder, loop, number):
    """A signal to the loop stops the service."""
    soon(folder.is_served)
    link, is_accepted = report(folder.port)
    began = time.monotonic()
    loop.run.send_signal(number)
    status = loop.run.wait(SOON)
    return (is_accepted and status == 0 and ends(link) and folder.is_stored_whole() and not folder.is_served(),
            f"loop {status}, {time.monotonic() - began:.1f} s")


def loop_killed(folder, loop):
    """The service is killed, and started anew; then a SIGTERM to it ends the loop, as it ends the unit."""
    soon(folder.is_served)
    loop.kill(signal.SIGKILL)
    is_back = soon(lambda: loop.has_said("started anew")) and soon(folder.is_served)
    loop.kill(signal.SIGTERM)
    status = loop.run.wait(SOON)
    return is_back and status == 128 + signal.SIGTERM, f"loop {status}"


def loop_wrong(folder, loop, expected):
    status = loop.run.wait(SOON)
    return status == expected, f"loop {status}"


def with_fleet(text):
    def change(folder):
        folder.write("fleet", text)
    return change


def with_settings(text):
    def change(folder):
        folder.write("dewfelt.toml", text)
    return change


def with_port_taken(folder):
    folder.other = socket.create_server(("127.0.0.1", folder.port))


def trials():
    """Each with its name, what is changed in its folder, what runs, and what is looked at."""
    yield "unit: stopped", None, Manager, stopped
    yield "unit: killed", None, Manager, killed
    yield "unit: SIGTERM", None, Manager, terminated
    yield "unit: no secret in the fleet", with_fleet("plate 41\n"), Manager, wrong
    yield "unit: an unknown key", with_settings("lnks = 5\n"), Manager, wrong
    yield "unit: a port in use", with_port_taken, Manager, taken
    for number in (signal.SIGTERM, signal.SIGINT, signal.SIGHUP):
        yield f"serve.sh: {number.name}", None, Loop, lambda folder, loop, number=number: loop_stopped(folder, loop, number)
    yield "serve.sh: killed", None, Loop, loop_killed
    yield "serve.sh: no secret in the fleet", with_fleet("plate 41\n"), Loop, lambda folder, loop: loop_wrong(folder, loop, 3)
    yield "serve.sh: an unknown key", with_settings("lnks = 5\n"), Loop, lambda folder, loop: loop_wrong(folder, loop, 1)


def run(program, name, change, what, look):
    """Whether a trial went right."""
    folder = Folder()
    if change:
        change(folder)
    runs = what(program, folder)
    try:
        is_right, seen = look(folder, runs)
    except OSError as error:
        is_right, seen = False, str(error)
    finally:
        runs.end()
    shutil.rmtree(folder.path)
    print(f"{name}: {seen}: {'ok' if is_right else 'WRONG'}", flush=True)
    return is_right


def main():
    asked = command_line.Words(__doc__)
    asked.add_argument("program", metavar="PROGRAM", type=command_line.program)
    program = asked.parse_args().program
    rights = [run(program, *it) for it in trials()]
    return 0 if all(rights) else 1


if __name__ == "__main__":
    command_line.run(main)
