#!/usr/bin/env python3
"""Proves and builds a program, with the crates that it stands on, side by side where neither stands on the other.

    tools/build.py [jt808|dewfelt]

It needs a Rattle kit (`rt` on the path). Without a name it is jt808. The crate with the most lines above it goes first, and a crate gets the processors that no other
waits for, as far as memory holds: as under `rt ci`, by the lanes of the kit's own rt. Where that has none, `rt all check` gives
each crate one processor. It says on standard error which crate of how many is proved, and how long after the start. What is
proved is kept: after an interrupt it goes on where it was. The exit status is 0, 1 where a crate is not proved, or 2 where no
program has that name or no kit is there.
"""
import argparse
import importlib.machinery
import importlib.util
import os
import re
import shutil
import signal
import subprocess
import sys
import tempfile
import threading
import time

import command_line

ROOT = os.path.dirname(os.path.dirname(os.path.realpath(__file__)))
PROGRAMS = ("jt808", "dewfelt")
# The program that is built, and its crate.
PROGRAM = PROGRAMS[0]
FOLDER = f"{ROOT}/crates/{PROGRAM}"
# What the check of a large crate takes, and that of the program, in bytes.
MEMORY_A_CRATE = 2_500_000_000
MEMORY_OF_THE_PROGRAM = 7_500_000_000
# The word by which this tool calls itself to prove in lanes, in a process of its own, whose interrupt loses nothing.
IN_LANES = "in-lanes"


def crates():
    """The crates of the repository that the program stands on, and the program."""
    listed = {}
    with open(f"{ROOT}/crates.txt") as file:
        for line in file:
            name, colon, libraries = line.partition("#")[0].partition(":")
            if colon:
                listed[name.strip()] = libraries.split()
    found, ahead = set(), [PROGRAM]
    while ahead:
        name = ahead.pop()
        if name in listed and name not in found:
            found.add(name)
            ahead += listed[name]
    return found


def lanes():
    """How many crates are proved at a time where each gets one processor."""
    with open("/proc/meminfo") as file:
        free = next(1024 * int(line.split()[1]) for line in file if line.startswith("MemAvailable:"))
    return max(1, min(len(os.sched_getaffinity(0)), free // MEMORY_A_CRATE))


def say(text):
    print(f"{PROGRAM}: {text}", file=sys.stderr, flush=True)


def kit():
    """The kit's rt as a module, or None where it has not all that is called here."""
    try:
        loader = importlib.machinery.SourceFileLoader("rt", os.path.realpath(shutil.which("rt")))
        rt = importlib.util.module_from_spec(importlib.util.spec_from_loader("rt", loader))
        loader.exec_module(rt)
        called = ("crates_below", "guarded", "lock", "stop_on_links", "stop_on_unread")
        return rt if callable(rt.in_lanes) and callable(rt.share_work) and all(hasattr(rt.rtlib, it) for it in called) else None
    except (AttributeError, ImportError, OSError, SyntaxError):
        return None


def task(crate, printing):
    """A crate as a task of rt's lanes: what it waits for, its work, its memory, and a call that proves it and prints what was said."""

    def prove(given, jobs):
        if not all(given[it.name, "proof"] for it in crate.below()):
            # (it was not tried)
            return None
        os.makedirs(f"{crate.folder}/out", exist_ok=True)
        with tempfile.TemporaryFile("a+", errors="replace") as crate.out:
            flags = ["--jobs", str(jobs)]
            status = crate.check(flags) if crate.is_program else crate.build_rlib(flags, anew=False)
            crate.out.seek(0)
            ended = "" if status else f"== {crate.name}\n"
            with printing:
                print(f"{ended}{crate.out.read()}", end="", flush=True)
        return not status

    memory = MEMORY_OF_THE_PROGRAM if crate.is_program else MEMORY_A_CRATE
    return [(it.name, "proof") for it in crate.below()], crate.count(rb"\n"), memory, prove


def prove_in_lanes():
    """Proves all crates in this process. Prints a line `== NAME` for each that is proved. Gives the exit status."""
    rt = kit()
    # Python's own handler would wait for the lanes.
    signal.signal(signal.SIGINT, signal.SIG_DFL)
    # (its first call sets a signal's handler, which only the main thread may)
    rt.rtlib.guarded()
    os.chdir(FOLDER)
    every = rt.rtlib.crates_below(FOLDER)
    # (until this process ends)
    rt.rtlib.lock(every)
    for crate in every:
        rt.rtlib.stop_on_links(crate.folder)
        rt.rtlib.stop_on_unread(crate.folder, every)
    rt.share_work(True)
    printing = threading.Lock()
    given = rt.in_lanes({(crate.name, "proof"): task(crate, printing) for crate in every})
    print("== summary", *[f"{name}: failed" for (name, _), is_proved in given.items() if is_proved is False], sep="\n", flush=True)
    return 0 if all(given.values()) else 1


def prove(names, began):
    """Proves all crates of these names. Gives the status and all that was said."""
    words = [sys.executable, os.path.realpath(__file__), PROGRAM, IN_LANES] if kit() else ["rt", "all", "check", "--jobs", str(lanes())]
    how = {"cwd": FOLDER, "stdin": subprocess.DEVNULL, "stdout": subprocess.PIPE, "stderr": subprocess.STDOUT}
    said, count = [], 0
    with subprocess.Popen(words, text=True, errors="replace", **how) as ran:
        try:
            for line in ran.stdout:
                said.append(line)
                ended = re.fullmatch(r"== (\w+)\n", line)
                if ended and ended[1] in names:
                    count += 1
                    say(f"{count} of {len(names)}: {ended[1]}, {time.monotonic() - began:.0f} s after the start")
        except KeyboardInterrupt:
            ran.terminate()
            say("what is proved is kept, and the next run goes on from there")
            raise
    return ran.returncode, "".join(said)


def link():
    """Builds the program of what is proved. Gives what was said where it is not there afterwards."""
    how = {"cwd": FOLDER, "stdin": subprocess.DEVNULL, "stdout": subprocess.PIPE, "stderr": subprocess.STDOUT}
    ran = subprocess.run(["rt", "run", "--jobs", str(lanes()), "--", "--help"], text=True, errors="replace", **how)
    # The program's own status says nothing of its proof: what counts is that it is there.
    return None if os.access(f"{FOLDER}/out/{PROGRAM}", os.X_OK) else ran.stdout


def read_words():
    """Whether this process is to prove in lanes. Takes the program's name."""
    global PROGRAM, FOLDER
    asked = command_line.Words(__doc__)
    asked.add_argument("program", metavar="jt808|dewfelt", nargs="?", type=command_line.one_of(PROGRAMS), default=PROGRAM)
    asked.add_argument("step", nargs="?", type=command_line.one_of([IN_LANES]), help=argparse.SUPPRESS)
    words = asked.parse_args()
    PROGRAM, FOLDER = words.program, f"{ROOT}/crates/{words.program}"
    return words.step == IN_LANES


def main():
    if read_words():
        return prove_in_lanes()
    command_line.want_kit()
    began = time.monotonic()
    status, said = prove(crates(), began)
    if status:
        print(said, file=sys.stderr)
        for name in re.findall(r"(?m)^(\w+): failed", said):
            say(f"{name} is not proved")
        return 1
    failed = link()
    if failed is not None:
        print(failed, file=sys.stderr)
        say(f"{PROGRAM} is not proved")
        return 1
    say(f"proved and built in {time.monotonic() - began:.0f} s")
    return 0


if __name__ == "__main__":
    command_line.run(main)
