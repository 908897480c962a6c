#!/usr/bin/env python3
"""Says where the time of the gate goes.

    tools/gate_times.py --record LOG    runs `rt ci` and writes what it prints, and the seconds of its processes, to LOG
    tools/gate_times.py LOG           prints the table of the largest crates from such a LOG, in seconds of one processor

`rt ci` prints no times. So while it runs, its processes are looked at once a second: each names its crate, and whether it
proves the crate, proves its tests or tries an edit. Lines that begin with 'time:' are added to what it prints.
"""
import os
import re
import subprocess
import threading
import time

import command_line

TICKS = os.sysconf("SC_CLK_TCK")
PARTS = ("proof", "tests", "edits")
# Crates with fewer seconds than these stand in one row of the table.
LEAST = 400


def read(path):
    try:
        with open(path, errors="replace") as file:
            return file.read()
    except OSError:
        return ""


def processes():
    """Each process's parent, the seconds that it has used, and when it began: numbers of processes are used again."""
    found = {}
    for pid in filter(str.isdigit, os.listdir("/proc")):
        stat = read(f"/proc/{pid}/stat").rpartition(")")[2].split()
        if len(stat) > 19:
            found[int(pid)] = int(stat[1]), (int(stat[11]) + int(stat[12])) / TICKS, stat[19]
    return found


def below(pid, found):
    """Whether a process is this one, or was started by it."""
    while pid in found:
        if pid == os.getpid():
            return True
        pid = found[pid][0]
    return False


def job_of(pid):
    """The crate that a process works for, and at what: None where it works for none."""
    words = read(f"/proc/{pid}/cmdline").split("\0")
    if "--crate-name" not in words:
        return None
    crate = words[words.index("--crate-name") + 1]
    try:
        folder = os.readlink(f"/proc/{pid}/cwd")
    except OSError:
        return None
    if "rt-edit-" in folder:
        return crate, "edits"
    return crate, "tests" if "--test" in words else "proof"


def sample(used, jobs):
    """Keeps the most seconds that each process was seen with, and what it works at."""
    found = processes()
    for pid, (parent, seconds, began) in found.items():
        if not below(pid, found):
            continue
        above = found.get(parent)
        job = job_of(pid) or jobs.get((parent, above and above[2]))
        if job:
            jobs[pid, began] = job
            used[pid, began] = max(used.get((pid, began), 0.0), seconds)


def record(log):
    began = time.monotonic()
    ran = subprocess.Popen(["rt", "ci"], stdout=subprocess.PIPE, stderr=subprocess.STDOUT, text=True, errors="replace")
    used, jobs = {}, {}

    def watch():
        while ran.poll() is None:
            sample(used, jobs)
            time.sleep(1)

    watcher = threading.Thread(target=watch, daemon=True)
    watcher.start()
    with open(log, "w") as file:
        for line in ran.stdout:
            print(line, end="", file=file, flush=True)
        status = ran.wait()
        watcher.join()
        totals = {}
        for process, seconds in used.items():
            totals[jobs[process]] = totals.get(jobs[process], 0.0) + seconds
        for (crate, part), seconds in sorted(totals.items()):
            print(f"time: {crate} {part} {seconds:.0f}", file=file)
        print(f"time: whole elapsed {time.monotonic() - began:.0f}", file=file)
        print(*[it for it in read(log).splitlines() if it.endswith(" failed")][-1:], file=file)
    return status


def print_row(name, rows):
    sums = [sum(row[part] for row in rows) for part in PARTS]
    print(f"| {name} | {sums[0]} | {sums[1]} | {sums[2]} | {sum(sums)} |")


def table(log):
    rows, elapsed = {}, "?"
    for crate, part, seconds in re.findall(r"(?m)^time: (\w+) (\w+) (\d+)$", read(log)):
        if crate == "whole":
            elapsed = int(seconds)
        else:
            rows.setdefault(crate, dict.fromkeys(PARTS, 0))[part] = int(seconds)
    few = {crate for crate, row in rows.items() if sum(row.values()) < LEAST}
    print("| Crate | Proof | Tests | Edits | All |\n|---|---|---|---|---|")
    for crate, row in sorted(rows.items(), key=lambda it: -sum(it[1].values())):
        if crate not in few:
            print_row(crate, [row])
    print_row(f"{len(few)} others, each under {LEAST}", [rows[crate] for crate in few])
    print_row("all", rows.values())
    sums = [sum(row[part] for row in rows.values()) for part in PARTS]
    print(f"\nMinutes of one processor: {sum(sums) / 60:.0f}. Minutes by the clock: {elapsed / 60:.0f}." if rows else "no times in this log")


def main():
    asked = command_line.Words(__doc__)
    asked.add_argument("--record", action="store_true", help="run the gate and write LOG")
    asked.add_argument("log", metavar="LOG")
    words = asked.parse_args()
    if not words.record and not os.path.isfile(words.log):
        raise command_line.Mistake(f"{words.log} is not there: --record writes it")
    if not words.record:
        return table(words.log)
    command_line.want_kit()
    return record(words.log)


if __name__ == "__main__":
    command_line.run(main)
