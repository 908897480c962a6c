#!/usr/bin/env python3
"""Installs, starts, upgrades, removes and purges the package in a root of its own, and looks what it leaves alone.

    tools/package_trial.py OLD.deb NEW.deb [--base FOLDER]

The packages are of tools/package.py, with two versions. The root is a copy of FOLDER, or what `debootstrap` makes: Debian bookworm with
the packages bash-completion, man-db, zsh and fish. All of it is run by chroot in a temporary folder, so it has to be root. No systemd
runs there: a `systemctl` of the trial does of the unit what ExecStart, ExecStop, User and EnvironmentFile say (tools/unit_trial.py tries
its other lines). The service is tried on the loopback: a terminal registers and has a unit accepted.

It prints a line for each trial with what was seen, and `ok` or `WRONG`; the status is 1 where one is wrong.
"""
import contextlib
import hashlib
import os
import re
import shutil
import socket
import sqlite3
import stat
import subprocess
import tempfile

import command_line
import unit_trial

SUITE, MIRROR, MORE = "bookworm", "http://deb.debian.org/debian", "bash-completion,man-db,zsh,fish"
HOME, PHONE = "var/lib/dewfelt", "013912345678"
# Seconds for what is to come. (a program without proof is slow)
SOON = 120
# What the operator writes.
OWN = {
    f"{HOME}/fleet": 'secret 6578616d706c65\nvehicle "粤B12345" "1234567" 013912345678\n',
    f"{HOME}/dewfelt.toml": 'listen = "127.0.0.1:%d"\nhttp = "none"\n',
    "etc/default/dewfelt": "# of the operator\nDEWFELT_OPTIONS='--quiet 120'\n",
}
# A file that the operator put there, of which the package knows nothing.
MAP = f"{HOME}/map.geojson"
SYSTEMCTL = r"""#!/bin/sh
# Of systemctl what the package calls, for the trial.
echo "$@" >>/systemctl.log
unit=/usr/lib/systemd/system/dewfelt.service
in_unit() { sed -n "s/^$1=//p" $unit; }
user=$(in_unit User)
as_service() { setpriv --reuid "$user" --regid "$user" --init-groups "$@"; }
is_running() { [ -e /service.pid ] && kill -0 "$(cat /service.pid)" 2>/dev/null; }
start() {
    file=$(in_unit EnvironmentFile)
    . "${file#-}"
    # (systemd parts the words of a variable too)
    words=$(in_unit ExecStart | sed "s|[$]DEWFELT_OPTIONS|$DEWFELT_OPTIONS|")
    # (no descriptor of dpkg's is to stay open in the service)
    (exec setpriv --reuid "$user" --regid "$user" --init-groups $words) </dev/null >>/service.log 2>&1 &
    echo $! >/service.pid
}
stop() {
    is_running || return 0
    as_service $(in_unit ExecStop)
    while is_running; do sleep 0.1; done
    rm /service.pid
}
case $1 in
start) start ;;
stop) stop ;;
try-restart) if is_running; then stop && start; fi ;;
esac
"""


def output(words, **how):
    """What a command prints, on both. It may fail."""
    ran = subprocess.run(words, stdin=subprocess.DEVNULL, stdout=subprocess.PIPE, stderr=subprocess.STDOUT, text=True, errors="replace", **how)
    return ran.returncode, ran.stdout


class Root:
    """A root, and what is done in it."""

    def __init__(self, path):
        self.path, self.wrong = path, 0
        with socket.socket() as one:
            one.bind(("127.0.0.1", 0))
            self.port = one.getsockname()[1]

    def at(self, name):
        return f"{self.path}/{name}"

    def run(self, *words):
        return output(["chroot", self.path, *words], env={"PATH": "/usr/sbin:/usr/bin:/sbin:/bin", "LC_ALL": "C.UTF-8", "DEBIAN_FRONTEND": "noninteractive", "TERM": "dumb"})

    def systemctl(self, *words):
        return subprocess.run(["chroot", self.path, "systemctl", *words], stdin=subprocess.DEVNULL, check=True)

    def calls(self):
        """What was asked of systemctl since the last look."""
        name = self.at("systemctl.log")
        found = open(name).read().split("\n")[:-1] if os.path.exists(name) else []
        with contextlib.suppress(FileNotFoundError):
            os.remove(name)
        return found

    def dpkg(self, *words):
        status, said = self.run("dpkg", *words)
        if status:
            raise command_line.Mistake(f"dpkg {' '.join(words)} ended with status {status}: {said[-500:]}")
        return said

    def say(self, name, seen, good):
        self.wrong += not good
        print(f"{name}: {seen}: {'ok' if good else 'WRONG'}", flush=True)

    def is_served(self):
        with socket.socket() as one:
            return one.connect_ex(("127.0.0.1", self.port)) == 0

    def sums(self):
        """The operator's files: their octets, modes and owners. (the log of events and the files of the store change)"""
        found = {}
        for name in (*OWN, MAP):
            with open(self.at(name), "rb") as file:
                it = os.fstat(file.fileno())
                found[name] = hashlib.sha256(file.read()).hexdigest(), it.st_mode, it.st_uid, it.st_gid
        return found

    def rows(self):
        """The rows in the service's file, read in a copy."""
        with tempfile.TemporaryDirectory() as folder:
            for name in ("platform.db", "platform.db-wal"):
                if os.path.exists(self.at(f"{HOME}/{name}")):
                    shutil.copy(self.at(f"{HOME}/{name}"), folder)
            with contextlib.closing(sqlite3.connect(f"{folder}/platform.db")) as base:
                return base.execute("SELECT phone, number, id, body FROM rows808 ORDER BY phone, number").fetchall()


def install(root, package):
    shutil.copy(package, root.at("package.deb"))
    return root.dpkg("-i", "/package.deb")


def state_of(root, name):
    it = os.stat(root.at(name))
    return stat.S_IMODE(it.st_mode), it.st_uid


def first_installation(root, package):
    install(root, package)
    user = re.search(r"^dewfelt:x:(\d+):\d+:[^:]*:/var/lib/dewfelt:/usr/sbin/nologin$", open(root.at("etc/passwd")).read(), re.M)
    uid = int(user[1]) if user else None
    fleet = open(root.at(f"{HOME}/fleet")).read()
    good = uid is not None and state_of(root, HOME) == (0o750, uid) and state_of(root, f"{HOME}/fleet") == (0o600, uid)
    root.say("installed: user, folder and fleet", f"uid {uid}, {oct(state_of(root, HOME)[0])}, {oct(state_of(root, f'{HOME}/fleet')[0])}", good)
    root.say("installed: a secret of its own", "64 digits", re.search(r"^secret [0-9a-f]{64}$", fleet, re.M))
    status, said = root.run("dewfelt", "check", f"/{HOME}")
    root.say("installed: dewfelt check", said.strip(), status == 0)
    calls = root.calls()
    root.say("installed: starts nothing", calls, calls == ["daemon-reload"] and not root.is_served())


def pages(root):
    for program in ("dewfelt", "jt808"):
        status, said = root.run("man", "--warnings=w", "-P", "cat", program)
        warned = [it for it in said.split("\n") if "warning" in it or "error" in it and "troff" in it]
        root.say(f"man {program}", f"{said.count(chr(10))} lines, {len(warned)} warnings {warned[:2]}", status == 0 and "SYNOPSIS" in said and "Exit status" in said.replace("EXIT STATUSES", "Exit status") and not warned)


def completions(root):
    asks = (("dewfelt se", "serve"), ("dewfelt serve --li", "--links --listen"), ("jt808 re", "rehearse relay report"), ("jt808 report --ti", ""), ("jt808 report --tr", "--tries"))
    for line, wanted in asks:
        words = line.split(" ")
        script = f". /usr/share/bash-completion/completions/{words[0]}; COMP_WORDS=({line}); COMP_CWORD={len(words) - 1}; _{words[0]}; echo \"${{COMPREPLY[*]}}\""
        said = root.run("bash", "-c", script)[1].split()
        root.say(f"bash: {line}", " ".join(sorted(said)), " ".join(sorted(said)) == wanted)
        said = [it.split("\t")[0] for it in root.run("fish", "-c", f"complete -C '{line}'")[1].split("\n") if it]
        root.say(f"fish: {line}", " ".join(sorted(said)), " ".join(sorted(said)) == wanted)
    for program in ("dewfelt", "jt808"):
        status, said = root.run("zsh", "-n", f"/usr/share/zsh/vendor-completions/_{program}")
        root.say(f"zsh: _{program}", said.strip() or "is read", status == 0)


def use(root):
    """The operator writes files, and starts the service."""
    for name, text in {**OWN, MAP: '{"type":"FeatureCollection","features":[]}\n'}.items():
        with open(root.at(name), "w", encoding="utf-8") as file:
            file.write(text % root.port if "%d" in text else text)
    root.systemctl("start", "dewfelt")
    is_up = unit_trial.soon(root.is_served, SOON)
    link, is_stored = unit_trial.report(root.port) if is_up else (None, False)
    root.say("started: a terminal registers and reports", f"{len(root.rows())} row", is_stored and len(root.rows()) == 1)
    log = open(root.at("service.log")).read()
    root.say("started: words of /etc/default/dewfelt", "quiet=120", "quiet=120" in log)
    return link


def upgraded(root, package, link):
    before, rows, run = root.sums(), root.rows(), open(root.at("service.pid")).read()
    root.calls()
    install(root, package)
    calls = root.calls()
    root.say("upgraded: a running service starts anew", calls, calls == ["daemon-reload", "try-restart dewfelt.service"] and open(root.at("service.pid")).read() != run and unit_trial.ends(link, SOON))
    root.say("upgraded: it serves", "the port", unit_trial.soon(root.is_served, SOON))
    root.say("upgraded: the operator's files", f"{len(before)} as they were", root.sums() == before)
    status, said = root.run("dewfelt", "registrations", f"/{HOME}")
    root.say("upgraded: rows and registrations", said.strip(), root.rows() == rows and PHONE in said)


def removed(root):
    before, rows = root.sums(), root.rows()
    of_package = [it for it in root.dpkg("-L", "dewfelt").split("\n") if os.path.isfile(root.at(it))]
    root.dpkg("-r", "dewfelt")
    calls = root.calls()
    root.say("removed: the service is stopped", calls, calls == ["stop dewfelt.service", "daemon-reload"] and not root.is_served() and not os.path.exists(root.at("service.pid")))
    left = [it for it in of_package if os.path.exists(root.at(it))]
    root.say("removed: what is left of the package", left, left == ["/etc/default/dewfelt"])
    root.say("removed: the operator's files", f"{len(before)} as they were, {len(rows)} row", root.sums() == before and root.rows() == rows)


def installed_again(root, package):
    before, rows = root.sums(), root.rows()
    install(root, package)
    root.say("installed again: the operator's files", f"{len(before)} as they were", root.sums() == before)
    root.systemctl("start", "dewfelt")
    root.say("installed again: it serves the same rows", f"{len(rows)} row", unit_trial.soon(root.is_served, SOON) and root.rows() == rows)
    root.systemctl("stop", "dewfelt")


def purged(root):
    before, rows = {it: sum for it, sum in root.sums().items() if it.startswith(HOME)}, root.rows()
    root.calls()
    root.dpkg("-P", "dewfelt")
    root.say("purged: /etc/default/dewfelt", "is gone", not os.path.exists(root.at("etc/default/dewfelt")))
    with open(root.at("etc/default/dewfelt"), "w"):
        # (that the sums can be taken)
        pass
    after = {it: sum for it, sum in root.sums().items() if it.startswith(HOME)}
    root.say("purged: /var/lib/dewfelt", f"{len(before)} files as they were, {len(rows)} row", after == before and root.rows() == rows)
    status, said = root.run("dpkg", "-l", "dewfelt")
    root.say("purged: dpkg knows nothing of it", said.strip().split("\n")[-1], status != 0 or "\nun " in f"\n{said}")


def unit(root):
    """What systemd itself says of the unit."""
    if shutil.which("systemd-analyze") is None:
        return root.say("unit: systemd-analyze verify", "systemd-analyze is not there, passed over", True)
    status, said = output(["systemd-analyze", "verify", "--root", root.path, "--recursive-errors=no", "dewfelt.service"])
    return root.say("unit: systemd-analyze verify", said.strip() or "nothing", status == 0)


def make_base(path):
    command_line.want_command("debootstrap", "debootstrap")
    status, said = output(["debootstrap", "--variant=minbase", f"--include={MORE}", SUITE, path, MIRROR])
    if status:
        raise command_line.Mistake(f"debootstrap ended with status {status}: {said[-500:]}")


def read_words():
    asked = command_line.Words(__doc__)
    asked.add_argument("old", metavar="OLD.deb")
    asked.add_argument("new", metavar="NEW.deb")
    asked.add_argument("--base", metavar="FOLDER", type=command_line.folder, help="a root of Debian, which is copied (default: made by debootstrap)")
    words = asked.parse_args()
    for name in (words.old, words.new):
        if not os.path.isfile(name):
            raise command_line.Mistake(f"{name} is not there: tools/package.py makes it, with --version another one")
    if os.geteuid() != 0:
        raise command_line.Mistake("chroot wants root: run it by sudo")
    return words


def main():
    words = read_words()
    unit_trial.SOON = SOON
    with tempfile.TemporaryDirectory(prefix="package-trial-") as folder:
        root = Root(f"{folder}/root")
        if words.base:
            subprocess.run(["cp", "-a", words.base, root.path], check=True)
        else:
            make_base(root.path)
        os.makedirs(root.at("run/systemd/system"), exist_ok=True)
        with open(root.at("usr/bin/systemctl"), "w") as file:
            file.write(SYSTEMCTL)
        os.chmod(root.at("usr/bin/systemctl"), 0o755)
        try:
            first_installation(root, words.old)
            unit(root)
            pages(root)
            completions(root)
            upgraded(root, words.new, use(root))
            removed(root)
            installed_again(root, words.new)
            purged(root)
        finally:
            with contextlib.suppress(subprocess.CalledProcessError, OSError):
                if os.path.exists(root.at("service.pid")):
                    root.systemctl("stop", "dewfelt")
    return 1 if root.wrong else 0


if __name__ == "__main__":
    command_line.run(main)
