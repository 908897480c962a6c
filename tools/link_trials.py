#!/usr/bin/env python3
"""Tries links of the built program by hand, on the loopback alone:

    tools/link_trials.py PROGRAM [TRIAL ..]

without trials all of them, about nine minutes. PROGRAM is crates/jt808/out/jt808 once it is built. Each trial prints a line with
its name, what was seen, and `ok` or `WRONG`. docs/MEASURES.md has the rows.

    stopped   two sessions are open while the program is stopped and goes on (SIGSTOP, SIGCONT); a report likewise
    fenced    a later session takes a phone over: how soon the earlier one's peer sees the end
    short     3,000 short connections one after another, --sessions 1024, 256 descriptors
    many      1,000 connections at one moment
    crowd     300 connections at once with 128 descriptors
    deaf      a peer that sends and never reads, and others beside it
    away      a report whose platform comes 20 seconds late
    idle      a peer that sends nothing for three minutes, and one that speaks after two
    passed    accepts that fail for one connection, while two are open (by strace)
    threads   no thread can be made for a while (as another user where root runs it)
"""
import glob
import hashlib
import os
import re
import resource
import select
import shutil
import signal
import socket
import subprocess
import tempfile
import time

import command_line

# The user as whom root runs a program that gets few threads: the system counts nobody else's.
OTHER_USER = 64998
PHONE = bytes.fromhex("013912345678")
FLEET = b"secret 3132\nplate 4a54383038\nterminal 31323334353637\n"
FIX = b"00000000000000030000000106bc3e40000000000000240101000000\n"
REPORT = "--phone 013912345678 --plate 4a54383038 --terminal 31323334353637"


def frame(id, serial, body=b""):
    content = id.to_bytes(2, "big") + len(body).to_bytes(2, "big") + PHONE + serial.to_bytes(2, "big") + body
    check = 0
    for octet in content:
        check ^= octet
    whole = content + bytes([check])
    return b"\x7e" + whole.replace(b"\x7d", b"\x7d\x01").replace(b"\x7e", b"\x7d\x02") + b"\x7e"


def heartbeat(serial=0):
    return frame(0x0002, serial)


def registration(serial):
    return frame(0x0100, serial, bytes(4 + 5 + 20) + b"1234567" + b"\x01" + b"JT808")


def authentication(serial):
    return frame(0x0102, serial, hashlib.sha256(b"12" + PHONE).hexdigest()[:16].encode())


def position(serial):
    return frame(0x0200, serial, bytes.fromhex(FIX.decode().strip()))


def free_port():
    with socket.socket() as one:
        one.bind(("127.0.0.1", 0))
        return one.getsockname()[1]


class Program:
    """The program with these words, in a folder of its own."""

    def __init__(self, words, given, descriptors=None, threads=None, under=()):
        self.folder = tempfile.TemporaryDirectory(prefix="links-")
        if threads:
            os.chmod(self.folder.name, 0o777)

        def limit():
            if descriptors:
                resource.setrlimit(resource.RLIMIT_NOFILE, (descriptors, descriptors))
            if threads:
                resource.setrlimit(resource.RLIMIT_NPROC, (threads, threads))
                if os.geteuid() == 0:
                    os.setuid(OTHER_USER)

        # A file, so that the program never waits for this script to read.
        self.text = open(f"{self.folder.name}/text", "w+b")
        self.run = subprocess.Popen(
            [*under, PROGRAM, *words.split()],
            cwd=self.folder.name,
            stdin=subprocess.PIPE,
            stdout=self.text,
            preexec_fn=limit,
        )
        self.run.stdin.write(given)
        self.run.stdin.close()

    def wait(self, seconds):
        """Status, or None where it does not end in time, and text."""
        try:
            status = self.run.wait(seconds)
        except subprocess.TimeoutExpired:
            status = None
        self.text.seek(0)
        return status, self.text.read().decode()

    def memory(self):
        """Resident memory in megabytes."""
        text = open(f"/proc/{self.run.pid}/status").read()
        return int(re.search(r"VmRSS:\s+(\d+)", text)[1]) // 1024

    def end(self):
        if self.run.poll() is None:
            self.run.kill()
            self.run.wait()
        self.text.close()
        self.folder.cleanup()


def platform(sessions, descriptors=None, threads=None, under=()):
    port = free_port()
    run = Program(f"platform --port {port} --sessions {sessions}", FLEET, descriptors, threads, under)
    for _ in range(600):
        # The listener is there once the port is taken.
        with socket.socket() as one:
            try:
                one.bind(("127.0.0.1", port))
            except OSError:
                return run, port
        time.sleep(0.05)
    raise SystemExit("the platform does not listen")


def connect(port, seconds=60):
    return socket.create_connection(("127.0.0.1", port), timeout=seconds)


def ask(link, octets):
    """What is answered, up to the closing flag of one frame."""
    link.sendall(octets)
    got = b""
    while got.count(b"\x7e") < 2:
        piece = link.recv(4096)
        if not piece:
            break
        got += piece
    return got


def result(answer):
    return answer[-3] if len(answer) >= 4 else None


def say(name, seen, good):
    print(f"{name}: {seen}: {'ok' if good else 'WRONG'}", flush=True)
    return good


def stopped():
    run, port = platform(2)
    first, second = connect(port), connect(port)
    before = [ask(first, heartbeat(0)), ask(second, heartbeat(0))]
    for _ in range(3):
        time.sleep(0.3)
        run.run.send_signal(signal.SIGSTOP)
        time.sleep(0.3)
        run.run.send_signal(signal.SIGCONT)
    time.sleep(0.3)
    after = [ask(first, heartbeat(1)), ask(second, heartbeat(1))]
    first.close(), second.close()
    status, text = run.wait(30)
    run.end()
    good = all(len(it) == 20 for it in before + after) and status == 0 and text.count(" ended read=30") == 2
    good = say("stopped", f"both sessions answered before and after; status {status}, " + text.splitlines()[0], good)
    return stopped_report() and good


def stopped_report():
    with socket.create_server(("127.0.0.1", 0)) as server:
        port = server.getsockname()[1]
        run = Program(f"report --host 127.0.0.1 --port {port} {REPORT} --tries 1", FIX)
        link, _ = server.accept()
        first = link.recv(4096)
        for _ in range(3):
            time.sleep(0.3)
            run.run.send_signal(signal.SIGSTOP)
            time.sleep(0.3)
            run.run.send_signal(signal.SIGCONT)
        code = b"ab"
        link.sendall(frame(0x8100, 0, first[11:13] + b"\x00" + code))
        link.settimeout(10)
        try:
            second = link.recv(4096)
        except TimeoutError:
            second = b""
        link.close()
        status, text = run.wait(30)
        run.end()
    good = second[1:3] == b"\x01\x02" and text.startswith("try 1 end")
    return say("stopped report", f"it authenticates itself behind the stop; {text.splitlines()}", good)


def fenced():
    run, port = platform(2)
    first, second = connect(port), connect(port)
    ask(first, registration(0))
    let_in = result(ask(first, authentication(1)))
    ask(first, position(2))
    taken_over = result(ask(second, authentication(0)))
    refused = result(ask(first, position(3)))
    begun = time.time()
    try:
        end = first.recv(4096)
    except OSError:
        end = b""
    took = time.time() - begun
    second.close()
    status, text = run.wait(30)
    run.end()
    good = (let_in, taken_over, refused, end, status) == (0, 0, 1, b"", 0) and took < 1 and " fenced " in text
    return say("fenced", f"the end was seen {took * 1000:.0f} ms behind the answer; status {status}", good)


def short():
    run, port = platform(1024, 256)
    served = refused = 0
    begun = time.time()
    for _ in range(3000):
        try:
            with connect(port, 10) as link:
                if len(ask(link, heartbeat())) == 20:
                    served += 1
                else:
                    refused += 1
        except OSError:
            refused += 1
    took = time.time() - begun
    status, text = run.wait(60)
    run.end()
    good = served == 1024 and status == 0 and text.count(" ended read=15") == 1024
    return say("short", f"{served} of 3000 served in {took:.0f} s, {text.count('session ')} reports, status {status}", good)


def at_once(count, sessions, descriptors, seconds):
    run, port = platform(sessions, descriptors)
    begun = time.time()
    links = {}
    for _ in range(count):
        link = socket.socket()
        link.setblocking(False)
        link.connect_ex(("127.0.0.1", port))
        links[link.fileno()] = link
    poll = select.epoll()
    for number in links:
        poll.register(number, select.EPOLLOUT)
    waits = []
    while links and time.time() - begun < seconds:
        for number, event in poll.poll(1):
            link = links[number]
            try:
                if event & select.EPOLLOUT:
                    link.send(heartbeat())
                    poll.modify(number, select.EPOLLIN)
                elif len(link.recv(4096)) == 20:
                    waits.append(time.time() - begun)
                    poll.unregister(number)
                    links.pop(number).close()
            except OSError:
                poll.unregister(number)
                links.pop(number).close()
    status, text = run.wait(60)
    run.end()
    return status, text, waits


def many():
    status, text, waits = at_once(1000, 1000, None, 60)
    late = sum(it > 0.9 for it in waits)
    good = len(waits) == 1000 and status == 0
    return say("many", f"{len(waits)} of 1000 answered, the last after {max(waits, default=0):.2f} s, {late} after 0.9 s; status {status}", good)


def crowd():
    status, text, waits = at_once(300, 300, 128, 120)
    good = len(waits) == 300 and status == 0
    return say("crowd", f"{len(waits)} of 300 answered with 128 descriptors, the last after {max(waits, default=0):.1f} s; status {status}", good)


def deaf():
    run, port = platform(3)
    deaf = socket.socket()
    # Small buffers at both ends are full sooner.
    deaf.setsockopt(socket.SOL_SOCKET, socket.SO_RCVBUF, 4096)
    deaf.setsockopt(socket.IPPROTO_TCP, socket.TCP_MAXSEG, 536)
    deaf.connect(("127.0.0.1", port))
    deaf.setblocking(False)
    other = connect(port)
    piece = b"".join(heartbeat(it) for it in range(256))
    begun = stuck = time.time()
    sent = served = most = 0
    lost = None
    while time.time() - begun < 300:
        try:
            count = deaf.send(piece)
            sent += count
            stuck = time.time()
        except BlockingIOError:
            time.sleep(0.2)
        except OSError:
            lost = time.time() - stuck
            break
        if served < (time.time() - begun) / 2:
            served += 1
            if len(ask(other, heartbeat(served % 100))) != 20:
                break
        most = max(most, run.memory())
    third = connect(port)
    served_last = len(ask(third, heartbeat())) == 20
    other.close(), third.close(), deaf.close()
    status, text = run.wait(90)
    run.end()
    good = lost is not None and lost < 70 and served_last and status == 0 and "session 1 link-fault" in text
    lost = f"{lost:.0f} s" if lost is not None else "never"
    return say(
        "deaf",
        f"{text.splitlines()[:1]}; the peer sent {sent // 1000} kB, lost its connection {lost} after its last octet went; {served} heartbeats of another were answered; at most {most} MB; status {status}",
        good,
    )


def away():
    port = free_port()
    report = Program(f"report --host 127.0.0.1 --port {port} {REPORT} --tries 100", FIX)
    time.sleep(20)
    run = Program(f"platform --port {port} --sessions 1", FLEET)
    status, text = report.wait(100)
    ended, served = run.wait(30)
    report.end(), run.end()
    lines = text.splitlines()
    good = status == 0 and lines[-1:] == ["accepted=1 of 1"] and ended == 0
    return say("away", f"{len(lines) - 1} attempts found nobody, then {lines[-1:]}; status {status}", good)


def idle():
    run, port = platform(2)
    quiet, other = connect(port, 300), connect(port, 300)
    begun = time.time()
    time.sleep(120)
    answers = [ask(other, heartbeat(0))]
    try:
        end = quiet.recv(1)
    except OSError:
        end = None
    took = time.time() - begun
    answers.append(ask(other, heartbeat(1)))
    quiet.close(), other.close()
    status, text = run.wait(30)
    run.end()
    good = end == b"" and 179 < took < 185 and all(len(it) == 20 for it in answers) and status == 0
    good = good and text.startswith("session 1 idle read=0 ") and "session 2 ended read=30 " in text
    return say("idle", f"the quiet peer saw the end after {took:.1f} s, the other was answered behind it; status {status}", good)


def passed():
    if shutil.which("strace") is None:
        return say("passed", "no strace on this machine", False)
    good = True
    for error in ("ECONNABORTED", "EPROTO", "EPERM", "ENETDOWN", "EHOSTUNREACH", "ENOBUFS"):
        # The third accept and the two behind it fail before the system takes a connection.
        inject = f"inject=accept4:error={error}:when=3..5"
        run, port = platform(4, under=("strace", "-f", "-qq", "-o", "/dev/null", "-e", "trace=accept4", "-e", inject))
        links = [connect(port, 20) for _ in range(4)]
        begun = time.time()
        try:
            answers = [len(ask(link, heartbeat())) for link in links]
        except TimeoutError:
            answers = []
        took = time.time() - begun
        for link in links:
            link.close()
        status, text = run.wait(30)
        run.end()
        right = answers == [20] * 4 and status == 0 and text.count(" ended read=15") == 4
        good = say(f"passed {error}", f"{len(answers)} of 4 answered within {took:.1f} s; status {status}", right) and good
    return good


def threads_of_user():
    """How many threads the user who runs this has."""
    count = 0
    for name in glob.glob("/proc/[0-9]*/status"):
        try:
            text = open(name).read()
        except OSError:
            continue
        if int(re.search(r"^Uid:\s+(\d+)", text, re.M)[1]) == os.getuid():
            count += int(re.search(r"^Threads:\s+(\d+)", text, re.M)[1])
    return count


def answered(link, seconds):
    """Whether a heartbeat that was sent is answered in time."""
    return bool(select.select([link], [], [], seconds)[0]) and len(link.recv(4096)) == 20


def threads():
    room = 12
    run, port = platform(40, threads=room if os.geteuid() == 0 else threads_of_user() + room)
    served, waiting = [], None
    while waiting is None and len(served) < 2 * room:
        link = connect(port)
        link.sendall(heartbeat())
        if answered(link, 1.5):
            served.append(link)
        else:
            waiting = link
    first = len(served)
    # A thread ends: the link that waits gets one. The next likewise, though none of those that are open hangs up by itself.
    seen = []
    for _ in range(3):
        if waiting is None:
            break
        served.pop(0).close()
        seen.append(answered(waiting, 4))
        served.append(waiting)
        waiting = connect(port)
        waiting.sendall(heartbeat())
    # No thread ends: after about five seconds the platform serves the link without one.
    begun = time.time()
    alone = waiting is not None and answered(waiting, 20)
    took = time.time() - begun
    for link in served:
        link.close()
    if waiting:
        waiting.close()
    run.end()
    good = first < 2 * room and seen == [True] * 3 and alone and 3 < took < 12
    return say(
        "threads",
        f"{first} links were served at once, the next ones each as another hung up: {seen}; without that one was served after {took:.1f} s",
        good,
    )


def main():
    global PROGRAM
    trials = {it.__name__: it for it in (stopped, fenced, short, many, crowd, deaf, away, idle, passed, threads)}
    asked = command_line.Words(__doc__)
    asked.add_argument("program", metavar="PROGRAM", type=command_line.program)
    asked.add_argument("trials", metavar="TRIAL", nargs="*", type=command_line.one_of(trials), default=[], help="one of those above (default: all)")
    words = asked.parse_args()
    PROGRAM, wanted = words.program, words.trials or list(trials)
    if "passed" in wanted:
        command_line.want_command("strace", "strace")
    resource.setrlimit(resource.RLIMIT_NOFILE, (4096, resource.getrlimit(resource.RLIMIT_NOFILE)[1]))
    return 0 if all([trials[it]() for it in wanted]) else 1


if __name__ == "__main__":
    command_line.run(main)
