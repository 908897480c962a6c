#!/usr/bin/env python3
"""Tries the program over files that it has to refuse, and over what no test of one process can try.

    tools/refused_files.py [--program jt808]

For each case: `report` with one fix in a folder whose `terminal.db` is that case, and `platform` in one whose `platform.db` is,
with a terminal that registers. Both have to end with `store fault` and status 5, and the file has to be as it was, octet for
octet. Likewise in a folder that was removed, and in one that cannot be written, where `view` still works (a tmpfs that is mounted
read-only, for which it needs the leave to mount). Where each store is the other one's file, and for `relay` where both stores are
one file, of either kind. Two processes: of two `report`, and of two `platform`, in one folder the second
is refused, and the first goes on. A full disk (a small tmpfs): `store fault`, the file is sound for sqlite3 and has what was
accepted, and once there is room the next run goes on; and a platform that runs on while its disk is full for a while: the write
that fails, which comes once the log has to grow, shuts its file, a call behind that opens it again, and all that was accepted is
still there. It prints a line for each case; the status is 1 where one is wrong.
"""
import contextlib
import os
import re
import socket
import sqlite3
import subprocess
import tempfile
import time

import command_line
import kill_loop

FIX = kill_loop.fix(0, 1).hex() + "\n"
FAULT = (5, "store fault")


def words_of_report(port):
    named = ["--phone", kill_loop.PHONES["2013"], "--plate", kill_loop.PLATE, "--terminal", kill_loop.TERMINAL]
    return ["report", "--host", "127.0.0.1", "--port", str(port), *named, "--tries", "1"]


def ended(ran):
    """The status and the last line of what a process printed."""
    told = ran.communicate(timeout=60)[0].splitlines()
    return ran.returncode, told[-1] if told else ""


class Programs:
    """The program, started in folders. All of it is killed at the end."""

    def __init__(self, program):
        self.program, self.started = program, []

    def start(self, folder, words, given, prepare=None):
        """Starts it in a folder; there `prepare` is called first."""
        pipes = {"stdin": subprocess.PIPE, "stdout": subprocess.PIPE, "text": True}
        ran = subprocess.Popen([self.program, *words], cwd=folder, preexec_fn=prepare, **pipes)
        # A program that is refused its file reads no further.
        with contextlib.suppress(BrokenPipeError):
            ran.stdin.write(given)
        with contextlib.suppress(BrokenPipeError):
            ran.stdin.close()
        ran.stdin = None
        self.started.append(ran)
        return ran

    def report(self, folder, port, given=FIX, prepare=None):
        return self.start(folder, words_of_report(port), given, prepare)

    def platform(self, folder, sessions=1, prepare=None):
        """A platform that listens, and its port."""
        port = kill_loop.free_port()
        ran = self.start(folder, ["platform", "--port", str(port), "--sessions", str(sessions)], kill_loop.FLEET, prepare)
        while ran.poll() is None and not kill_loop.listens(port):
            time.sleep(0.005)
        return ran, port

    def end(self):
        for it in self.started:
            with contextlib.suppress(ProcessLookupError):
                it.kill()
            it.wait()


def make_text(path):
    with open(path, "w") as file:
        file.write("a text that is no database\n" * 500)


def make_database(path, *texts):
    with contextlib.closing(sqlite3.connect(path)) as base:
        for it in texts:
            base.executescript(it)


def make_cut(path):
    make_database(path, "CREATE TABLE other (a); INSERT INTO other VALUES (randomblob(20000))")
    with open(path, "r+b") as file:
        file.truncate(os.path.getsize(path) - 5000)


META = "CREATE TABLE meta (version INTEGER);"
FILES = {
    "a folder": os.mkdir,
    "a text": make_text,
    "another program's database": lambda path: make_database(path, "CREATE TABLE other (a)"),
    "a cut file": make_cut,
    "a newer version": lambda path: make_database(path, META, "INSERT INTO meta VALUES (3)"),
    "no version": lambda path: make_database(path, META),
    "two versions": lambda path: make_database(path, META, "INSERT INTO meta VALUES (1), (1)"),
}


KEEPER = """CREATE TABLE registered (phone BLOB PRIMARY KEY, plate BLOB UNIQUE, terminal BLOB UNIQUE);
CREATE TABLE rows808 (phone BLOB, number INTEGER, id INTEGER, body BLOB, PRIMARY KEY (phone, number));"""
VAULT = """CREATE TABLE fix (place INTEGER PRIMARY KEY, body BLOB);
CREATE TABLE unit (place INTEGER PRIMARY KEY, serial INTEGER, id INTEGER, body BLOB, fixes INTEGER);
CREATE TABLE state (one INTEGER PRIMARY KEY, units_accepted INTEGER, fixes_accepted INTEGER, mark INTEGER, next INTEGER,
code BLOB); INSERT INTO state VALUES (1, 0, 0, 65535, 0, NULL);"""


def make_keeper(path):
    """What `platform` makes."""
    make_database(path, META, "INSERT INTO meta VALUES (2)", KEEPER)


def make_vault(path):
    """What `report` makes."""
    make_database(path, META, "INSERT INTO meta VALUES (1)", VAULT)


def held(path):
    if os.path.isdir(path):
        return sorted(os.listdir(path))
    with open(path, "rb") as file:
        return file.read()


def over_terminal(programs, folder, make):
    make(f"{folder}/terminal.db")
    before = held(f"{folder}/terminal.db")
    found = ended(programs.report(folder, 1))
    return found, before == held(f"{folder}/terminal.db")


def over_platform(programs, folder, make):
    make(f"{folder}/platform.db")
    before = held(f"{folder}/platform.db")
    os.mkdir(f"{folder}/elsewhere")
    platform, port = programs.platform(folder)
    ended(programs.report(f"{folder}/elsewhere", port))
    return ended(platform), before == held(f"{folder}/platform.db")


def relay_over_one_file(programs, folder, make):
    make(f"{folder}/platform.db")
    os.link(f"{folder}/platform.db", f"{folder}/terminal.db")
    before = held(f"{folder}/platform.db")
    found = ended(programs.start(folder, ["relay", "--phone", kill_loop.PHONES["2013"]], ""))
    return found, before == held(f"{folder}/platform.db")


def remove_folder():
    """Removes the folder that a program is about to run in."""
    os.rmdir(os.getcwd())


def report_without_folder(programs, folder, _):
    os.mkdir(f"{folder}/gone")
    found = ended(programs.report(f"{folder}/gone", 1, prepare=remove_folder))
    return found, os.listdir(folder) == []


def platform_without_folder(programs, folder, _):
    for it in ("gone", "elsewhere"):
        os.mkdir(f"{folder}/{it}")
    platform, port = programs.platform(f"{folder}/gone", prepare=remove_folder)
    ended(programs.report(f"{folder}/elsewhere", port))
    return ended(platform), os.listdir(folder) == ["elsewhere"]


def closed_folder(programs, folder, _):
    """Both commands in a folder that cannot be written. What needs no file works there."""
    closed, elsewhere = f"{folder}/closed", f"{folder}/elsewhere"
    for it in (closed, elsewhere):
        os.mkdir(it)
    subprocess.run(["mount", "-t", "tmpfs", "-o", "ro", "none", closed], check=True)
    try:
        is_viewed = ended(programs.start(closed, ["view"], "")) == (0, "frames=0 refused=0")
        is_report_refused = ended(programs.report(closed, 1)) == FAULT
        platform, port = programs.platform(closed)
        ended(programs.report(elsewhere, port))
        return ended(platform), is_viewed and is_report_refused and os.listdir(closed) == []
    finally:
        subprocess.run(["umount", "-l", closed], check=True)


def two_reports(programs, folder, _):
    """The first one waits for a platform that never answers."""
    with socket.create_server(("127.0.0.1", 0)) as server:
        first = programs.report(folder, server.getsockname()[1])
        link, _ = server.accept()
        found = ended(programs.report(folder, 1))
        link.close()
        return found, ended(first) == (7, "accepted=0 of 1")


def two_platforms(programs, folder, _):
    for it in ("first", "second"):
        os.mkdir(f"{folder}/{it}")
    one, port = programs.platform(folder, 2)
    is_first_served = ended(programs.report(f"{folder}/first", port)) == (0, "accepted=1 of 1")
    two, other = programs.platform(folder)
    ended(programs.report(f"{folder}/second", other))
    found = ended(two)
    # (The second terminal has the first one's phone, so its unit is a new one of the same list.)
    is_served_again = ended(programs.report(f"{folder}/second", port))[0] == 0
    return found, is_first_served and is_served_again and ended(one)[0] == 0


def full_disk(programs, folder, _):
    """Fixes until the disk is full; then room, and all that was recorded is reported."""
    subprocess.run(["mount", "-t", "tmpfs", "-o", "size=600k", "none", folder], check=True)
    try:
        found = ended(programs.report(folder, 1, FIX * 20000))
        with tempfile.TemporaryDirectory() as copy:
            kill_loop.copied(f"{folder}/terminal.db", f"{copy}/a.db")
            with contextlib.closing(sqlite3.connect(f"{copy}/a.db")) as base:
                recorded = base.execute("SELECT COUNT(*) FROM fix").fetchone()[0]
                is_sound = base.execute("PRAGMA integrity_check").fetchall() == [("ok",)]
        subprocess.run(["mount", "-o", "remount,size=20m", folder], check=True)
        again = ended(programs.report(folder, 1, ""))
        return found, is_sound and recorded > 0 and again == (7, f"accepted=0 of {recorded}")
    finally:
        subprocess.run(["umount", "-l", folder], check=True)


def filled(path):
    """Fills the disk that a file lies on."""
    with contextlib.suppress(OSError), open(path, "wb", buffering=0) as file:
        while file.write(bytes(512)):
            pass


def disk_full_for_a_while(programs, folder, _):
    """One platform, and one terminal after another. The disk is full from the second one on: one of those after it needs a longer
    log and meets the full disk. Then there is room: the next one may meet the file that this has shut, and all others are served."""
    disk, sessions, ends = f"{folder}/disk", 20, []
    for it in ("disk", "terminals"):
        os.mkdir(f"{folder}/{it}")
    subprocess.run(["mount", "-t", "tmpfs", "-o", "size=2m", "none", disk], check=True)
    try:
        platform, port = programs.platform(disk, sessions)
        for number in range(sessions):
            if number == 1:
                filled(f"{disk}/more")
            if 7 in ends and os.path.exists(f"{disk}/more"):
                os.remove(f"{disk}/more")
            own = f"{folder}/terminals/{number}"
            os.mkdir(own)
            ends.append(ended(programs.report(own, port, kill_loop.fix(0, number).hex() + "\n"))[0])
        found = ended(platform)
        with contextlib.closing(sqlite3.connect(f"{disk}/platform.db")) as base:
            rows = base.execute("SELECT COUNT(*) FROM rows808").fetchone()[0]
        is_short = re.fullmatch("0+77?0+", "".join(map(str, ends))) is not None
        return found, is_short and rows == ends.count(0)
    finally:
        subprocess.run(["umount", "-l", disk], check=True)


def cases():
    for name, make in FILES.items():
        yield f"report over {name}", over_terminal, make
        yield f"platform over {name}", over_platform, make
    yield "report over a platform's file", over_terminal, make_keeper
    yield "platform over a terminal's file", over_platform, make_vault
    yield "relay over one file of a platform", relay_over_one_file, make_keeper
    yield "relay over one file of a terminal", relay_over_one_file, make_vault
    yield "report in a folder that was removed", report_without_folder, None
    yield "platform in a folder that was removed", platform_without_folder, None
    yield "two reports", two_reports, None
    yield "two platforms", two_platforms, None
    if os.geteuid() == 0:
        yield "both in a folder that can't be written", closed_folder, None
        yield "a full disk", full_disk, None
        yield "a disk that is full for a while", disk_full_for_a_while, None


def main():
    asked = command_line.Words(__doc__)
    asked.add_program()
    programs, wrong = Programs(os.path.realpath(asked.parse_args().program)), 0
    for name, case, make in cases():
        with tempfile.TemporaryDirectory(prefix="refused-files-") as folder:
            try:
                found, stays = case(programs, folder, make)
            finally:
                programs.end()
        is_right = found == FAULT and stays
        wrong += not is_right
        print(f"{name}: {'right' if is_right else 'WRONG'}, status {found[0]}, {found[1]!r}, {'as it was' if stays else 'NOT AS IT WAS'}")
    return 1 if wrong else 0


if __name__ == "__main__":
    command_line.run(main)
