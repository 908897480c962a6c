#!/usr/bin/env python3
"""Runs every command that README.md and docs/MANUAL.md print, and compares what it prints with what stands there.

    tools/run_documents.py             both documents
    tools/run_documents.py FILE ..     these
    tools/run_documents.py --list      says which commands are run and which are not, and runs none

A command is a line `$ COMMAND` of a block that is indented by four spaces, or stands between lines of three backticks. It goes on over
further lines where one ends in a backslash, && or |, or up to the end of what <<'END' begins. The lines behind it, up to the next
command or the end of the block, are what it prints, on standard output and standard error together; empty lines do not count. There
`..` stands for anything within a line, and a line `..` for any number of lines. The status is to be 0, or what a comment says behind
the command: `# status 1`. Of a block without a command nothing is run.

The commands of a document are run one after another in a fresh folder, by one shell, so that `cd` and variables hold. In the folder
are samples, tools, page, docs, README.md, ./jt808, ./dewfelt and ./try, which are the proved programs here; both are on the path too.
What serves on (serve, platform, serve.sh, rows.py without --once) is left running at a terminal of its own once it printed what stands
there, until it ends or the document does. What it prints later is a block that begins with a line `..` and has no command: it is
compared with all that the one of them that was started last has printed.

Compared by pattern are the times of lines of events, tokens, ports of peers, and how long and how large something was (VARIES, below).
Not run, with the reason, is what wants root, a network, a database, a kit or a browser (LEFT_OUT). What wants a program that is not built
is not run either, and counts as differing. A line each; the last one is 'N ran, M differ'. Status 1 where one differs.
"""
import os
import pty
import re
import select
import shlex
import shutil
import signal
import socket
import subprocess
import sys
import tempfile
import threading
import time

sys.path.insert(0, os.path.dirname(os.path.realpath(__file__)))
sys.dont_write_bytecode = True
import command_line  # noqa: E402

DOCUMENTS = ["README.md", "docs/MANUAL.md"]
# The ports on which what stands in the documents serves.
PORTS = [8808, 8080, 9000, 9001]
# What differs from run to run, and what is written in its place on both sides.
VARIES = [
    (re.compile(r"\btime=\d{4}-\d\d-\d\dT\d\d:\d\d:\d\d\+08:00"), "time=TIME"),
    (re.compile(r"\btoken=[0-9a-f]+(\.\.)?"), "token=TOKEN"),
    (re.compile(r"\b(milliseconds|seconds|octets)=\d+"), r"\1=N"),
    (re.compile(r"\bpeer=\S+"), "peer=PEER"),
    (re.compile(r"\bin \d+(\.\d+)? s\b"), "in N s"),
]
# What is not run, and why.
LEFT_OUT = [
    (re.compile(r"\bsudo\b|^(apt|apt-get|dpkg)\b"), "wants root"),
    (re.compile(r"\b(systemctl|journalctl|systemd-\w+)\b"), "wants systemd"),
    (re.compile(r"^psql\b|--database\b|--refill\b"), "wants a database"),
    (re.compile(r"^(ssh|git clone|docker|caddy|nginx|stunnel\d?|certbot)\b"), "wants another machine or a network"),
    (re.compile(r"^rt\b|\btools/(build|package|try|try_tests|more_edits|gate_times)\.py\b|^\./try --tests\b"), "wants a kit, and builds"),
    (re.compile(r"\btools/(page_trial|http_attacks|package_trial|unit_trial)\.py\b"), "wants a browser, a package or long"),
    (re.compile(r"/path/to/"), "names a path of the reader's own"),
]
SERVES_ON = re.compile(r"\bdewfelt serve\b|\b(jt808|try) platform\b|\bserve\.sh\b|\brows\.py\b(?!.*--once)", re.S)
NAMES_OF = {"jt808": re.compile(r"\bjt808\b|\./try\b"), "dewfelt": re.compile(r"\bdewfelt (?=serve|check|page|registrations|forget|copy|stop|--)|DEWFELT_PROGRAM=dewfelt")}
# Seconds: for a command, and for what serves on to print what stands there.
COMMAND, LINES = 120, 20


class Step:
    """A command with what it is to print, or (without a command) what is printed later."""

    def __init__(self, line, command):
        self.line, self.command, self.lines = line, command, []

    def status(self):
        found = re.search(r"#\s*status (\d+)\s*$", self.command)
        return int(found[1]) if found else 0

    def first(self):
        """The first line of the command, short."""
        line = self.command.split("\n")[0]
        return line if len(line) <= 90 else f"{line[:88]}.."


def blocks(text):
    """The blocks of code, as (number of the first line, lines)."""
    found, fenced, before_blank = [], False, True
    current = None
    for number, line in enumerate(text.split("\n"), 1):
        if line.lstrip().startswith("```"):
            fenced, current = not fenced, None
        elif fenced or (line.startswith("    ") and (current is not None or before_blank)):
            if current is None:
                current = (number, [])
                found.append(current)
            current[1].append(line if fenced else line[4:])
        else:
            current = None
        before_blank = not line.strip()
    return found


def goes_on(command):
    """Whether a command wants a further line."""
    here = re.search(r"<<-?\s*(['\"]?)(\w+)\1", command.split("\n")[0])
    if here:
        return here[2] not in command.split("\n")[1:]
    return command.rstrip().endswith(("\\", "&&", "|"))


def steps(text):
    """The commands of a document, in order."""
    found = []
    for number, lines in blocks(text):
        if lines[0].strip() == ".." and not any(it.startswith("$ ") for it in lines):
            found.append(Step(number, None))
            found[-1].lines = lines
            continue
        step = None
        for at, line in enumerate(lines):
            if step is not None and goes_on(step.command):
                step.command += f"\n{line}"
            elif line.startswith("$ "):
                step = Step(number + at, line[2:])
                found.append(step)
            elif step is not None:
                step.lines.append(line)
    return found


def plain(line):
    """A line with what varies replaced."""
    for pattern, instead in VARIES:
        line = pattern.sub(instead, line)
    return line.rstrip()


def pattern_of(line):
    return re.compile(".*".join(map(re.escape, plain(line).split(".."))))


def fits(expected, printed, whole=True):
    """Whether the printed lines are those expected. If not `whole`, more may follow them."""
    if not expected:
        return not printed or not whole
    if expected[0].strip() == "..":
        return any(fits(expected[1:], printed[at:], whole) for at in range(len(printed) + 1))
    return bool(printed) and pattern_of(expected[0]).fullmatch(plain(printed[0])) is not None and fits(expected[1:], printed[1:], whole)


def told(lines):
    return [it for it in lines if it.strip()]


class Served:
    """What serves on, at a terminal of its own."""

    def __init__(self, command, folder, words):
        main, end = pty.openpty()
        self.run = subprocess.Popen(["bash", "-c", command], cwd=folder, env=words, stdin=subprocess.DEVNULL, stdout=end, stderr=end, start_new_session=True)
        os.close(end)
        self.main, self.octets = main, b""
        self.reader = threading.Thread(target=self.read, daemon=True)
        self.reader.start()

    def read(self):
        while True:
            try:
                some = os.read(self.main, 65536)
            except OSError:
                return
            if not some:
                return
            self.octets += some

    def lines(self):
        """The whole lines so far."""
        return told(self.octets.decode("utf-8", "replace").replace("\r", "").split("\n")[:-1])

    def wait(self, expected):
        """Waits for lines, and says whether they came."""
        deadline = time.monotonic() + LINES
        while not fits(expected, self.lines(), whole=False):
            if time.monotonic() > deadline:
                return False
            time.sleep(0.05)
        return True

    def stop(self):
        if self.run.poll() is None:
            os.killpg(self.run.pid, signal.SIGTERM)
            try:
                self.run.wait(10)
            except subprocess.TimeoutExpired:
                os.killpg(self.run.pid, signal.SIGKILL)
                self.run.wait()
        self.reader.join(5)
        os.close(self.main)


class Shell:
    """One shell for the commands of a document."""

    def __init__(self, folder, aside, words):
        self.folder, self.aside, self.words, self.process = folder, aside, words, None

    def start(self):
        self.process = subprocess.Popen(
            ["bash", "--noprofile", "--norc"], cwd=self.folder, env=self.words, stdin=subprocess.PIPE, stdout=subprocess.PIPE, start_new_session=True
        )

    def now_in(self):
        """The folder in which the shell is."""
        return self.folder if self.process is None else os.readlink(f"/proc/{self.process.pid}/cwd")

    def do(self, command):
        """Runs a command: its status, and the lines that it printed. The status is None where it did not end in time."""
        if self.process is None or self.process.poll() is not None:
            self.start()
        with open(f"{self.aside}/command", "w", encoding="utf-8") as file:
            file.write(f"{command}\n")
        step = f'{{ . {shlex.quote(self.aside)}/command; }} < /dev/null > {shlex.quote(self.aside)}/printed 2>&1; echo "$?"\n'
        self.process.stdin.write(step.encode("utf-8"))
        self.process.stdin.flush()
        ready, _, _ = select.select([self.process.stdout], [], [], COMMAND)
        answer = self.process.stdout.readline() if ready else b""
        if not answer.strip():
            self.stop()
        with open(f"{self.aside}/printed", encoding="utf-8", errors="replace") as file:
            lines = told(file.read().replace("\r", "").split("\n"))
        return (int(answer) if answer.strip() else None), lines

    def stop(self):
        if self.process is not None:
            if self.process.poll() is None:
                os.killpg(self.process.pid, signal.SIGKILL)
            self.process.wait()
            self.process.stdin.close()
            self.process.stdout.close()
            self.process = None


def furnish(folder, programs):
    """Puts into a folder what a clone of this repository has, with the programs in place of the scripts that build them."""
    os.mkdir(folder)
    for name in ("samples", "tools", "page", "docs"):
        shutil.copytree(f"{command_line.ROOT}/{name}", f"{folder}/{name}", ignore=shutil.ignore_patterns("__pycache__"))
    shutil.copy(f"{command_line.ROOT}/README.md", folder)
    for name, path in programs.items():
        out = f"{folder}/crates/{name}/out"
        os.makedirs(out)
        os.symlink(path, f"{out}/{name}")
        os.symlink(path, f"{folder}/{name}")
    with open(f"{folder}/try", "w", encoding="ascii") as file:
        file.write('#!/bin/sh\nexec "$(dirname -- "$(readlink -f -- "$0")")/${DEWFELT_PROGRAM:-jt808}" "$@"\n')
    os.chmod(f"{folder}/try", 0o755)


def left_out(step):
    """Why a command is never run, or None."""
    return next((why for pattern, why in LEFT_OUT if pattern.search(step.command)), None)


def not_built(step, programs):
    """The program that a command wants and that is not built, or None."""
    return next((name for name, pattern in NAMES_OF.items() if name not in programs and pattern.search(step.command)), None)


class Run:
    """The commands of one document, and how many ran and differ."""

    def __init__(self, name, programs):
        self.name, self.programs, self.ran, self.differ, self.served = name, programs, 0, 0, []

    def say(self, step, text):
        print(f"{self.name}:{step.line}: {text}", flush=True)

    def differs(self, step, printed, why):
        self.differ += 1
        self.say(step, f"DIFFERS ({why}): {step.first() if step.command else 'what is printed later'}")
        for mark, lines in (("stands ", step.lines), ("printed", printed)):
            for line in lines[:12] + ([".. (more)"] if len(lines) > 12 else []):
                print(f"    {mark} | {line}", flush=True)

    def later(self, step):
        """What the one that serves on and was started last printed since."""
        if not self.served:
            # (what would have printed it was not run)
            return self.differs(step, [], "nothing serves on")
        self.ran += 1
        if self.served[-1].wait(step.lines):
            return self.say(step, "as printed, later")
        return self.differs(step, self.served[-1].lines()[-12:], "did not come")

    def serve(self, step, shell, words):
        self.ran += 1
        self.served.append(Served(step.command, shell.now_in(), words))
        if not step.lines:
            time.sleep(1)
        if self.served[-1].wait(step.lines) and (step.lines or not self.served[-1].lines()):
            return self.say(step, f"as printed, runs on: {step.first()}")
        return self.differs(step, self.served[-1].lines(), "did not come")

    def do(self, step, shell):
        self.ran += 1
        status, printed = shell.do(step.command)
        if status != step.status():
            return self.differs(step, printed, "did not end in time" if status is None else f"status {status}")
        if not fits(step.lines, printed):
            return self.differs(step, printed, "prints something else")
        return self.say(step, f"as printed: {step.first()}")

    def all(self, found):
        with tempfile.TemporaryDirectory(prefix="run-documents-") as aside:
            folder = f"{aside}/clone"
            furnish(folder, self.programs)
            os.mkdir(f"{aside}/home")
            os.mkdir(f"{aside}/bin")
            for name, path in self.programs.items():
                os.symlink(path, f"{aside}/bin/{name}")
            words = {**os.environ, "PATH": f"{aside}/bin:{os.environ['PATH']}", "HOME": f"{aside}/home", "LC_ALL": "C.UTF-8", "PYTHONDONTWRITEBYTECODE": "1"}
            shell = Shell(folder, aside, words)
            try:
                for step in found:
                    if step.command is None:
                        self.later(step)
                    elif why := left_out(step):
                        self.say(step, f"not run, {why}: {step.first()}")
                    elif name := not_built(step, self.programs):
                        self.differs(step, [], f"{name} is not built")
                    elif SERVES_ON.search(step.command):
                        self.serve(step, shell, words)
                    else:
                        self.do(step, shell)
            finally:
                shell.stop()
                for it in self.served:
                    it.stop()


def free(ports):
    for port in ports:
        with socket.socket() as it:
            it.settimeout(1)
            if it.connect_ex(("127.0.0.1", port)) == 0:
                raise command_line.Mistake(f"something listens at port {port} of this machine, which the documents use: end it first")


def read(name):
    path = name if os.path.isfile(name) else f"{command_line.ROOT}/{name}"
    with open(path, encoding="utf-8") as file:
        return steps(file.read())


def main():
    asked = command_line.Words(__doc__)
    asked.add_argument("files", metavar="FILE", nargs="*", default=DOCUMENTS, help=f"default: {' '.join(DOCUMENTS)}")
    asked.add_argument("--list", action="store_true", help="say which commands are run, and run none")
    for name in ("jt808", "dewfelt"):
        asked.add_argument(f"--{name}", metavar="PROGRAM", type=command_line.program, help=f"default: crates/{name}/out/{name}, where it is built")
    given = asked.parse_args()
    programs = {}
    for name in ("jt808", "dewfelt"):
        path = getattr(given, name) or f"{command_line.ROOT}/crates/{name}/out/{name}"
        if os.access(path, os.X_OK):
            programs[name] = os.path.realpath(path)
    found = [(name, read(name)) for name in given.files]
    if given.list:
        for name, every in found:
            for step in every:
                if step.command is None:
                    print(f"{name}:{step.line}: compared, later: {step.lines[-1]}")
                else:
                    why = left_out(step)
                    print(f"{name}:{step.line}: {f'not run, {why}' if why else 'run'}: {step.first()}")
        return 0
    if not programs:
        raise command_line.Mistake("neither jt808 nor dewfelt is built: tools/build.py builds them, or name them by --jt808 and --dewfelt")
    free(PORTS)
    ran, differ = 0, 0
    for name, every in found:
        run = Run(name, programs)
        run.all(every)
        ran, differ = ran + run.ran, differ + run.differ
    print(f"{ran} ran, {differ} differ")
    return 1 if differ else 0


if __name__ == "__main__":
    command_line.run(main)
