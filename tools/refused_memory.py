#!/usr/bin/env python3
"""Refuses the built program its memory, one allocation at a time:

    tools/refused_memory.py [--program jt808] [--most 400]

For each case (a heartbeat that is viewed, a script in which a platform starts anew, a platform with one session, a report without
a link) the program first runs as it is, and its allocations are counted. Then it runs once for each of them, the first 400 at
most, and that one is refused. Each run has to end as the whole one did, or with status 8 and a front of the whole one's text, the totals of no session, or
a session's line that tells of it (`session 1 memory ..`); a store that is refused its memory may say `store fault`. A run that is
killed by a signal, hangs, or prints anything else is wrong, and so is a case whose whole run does not end as it should. It prints a
row for each case. Wants a C compiler.
"""
import collections
import contextlib
import os
import re
import subprocess
import sys
import tempfile
import time

import command_line
import kill_loop
import link_trials

# A unit is stored, the platform starts anew, and the unit comes again.
SCRIPT = b"open\nrun\nfix 0\ntick 0\nup 1 all\nrestart platform\nopen\nrun\n"

SHIM = r"""
#define _GNU_SOURCE
#include <dlfcn.h>
#include <errno.h>
#include <fcntl.h>
#include <stdatomic.h>
#include <stdlib.h>
#include <unistd.h>

/* Which allocation of the program itself is refused, and how many there were. */
static atomic_long made;
static long refused = -1;
static int count = -1;

__attribute__((constructor)) static void begin(void) {
    const char *said = getenv("REFUSED_ALLOCATION");
    const char *path = getenv("COUNT_ALLOCATIONS");
    refused = said ? atol(said) : 0;
    count = path ? open(path, O_CREAT | O_WRONLY, 0600) : -1;
    atomic_store(&made, 0);
}

static int is_refused(void) {
    if (refused < 0) return 0;
    long number = atomic_fetch_add(&made, 1) + 1;
    /* The program ends without the exit of the C library, so the number is kept at each allocation. */
    if (count >= 0 && pwrite(count, &number, sizeof number, 0) < 0) abort();
    if (number != refused) return 0;
    errno = ENOMEM;
    return 1;
}

#define REAL(name, type) static __typeof__(type) *real; if (!real) real = (__typeof__(type) *)dlsym(RTLD_NEXT, name)

void *malloc(size_t size) {
    REAL("malloc", void *(size_t));
    return is_refused() ? NULL : real(size);
}

void *realloc(void *old, size_t size) {
    REAL("realloc", void *(void *, size_t));
    return is_refused() ? NULL : real(old, size);
}

void *aligned_alloc(size_t alignment, size_t size) {
    REAL("aligned_alloc", void *(size_t, size_t));
    return is_refused() ? NULL : real(alignment, size);
}

int posix_memalign(void **place, size_t alignment, size_t size) {
    REAL("posix_memalign", int (void **, size_t, size_t));
    return is_refused() ? ENOMEM : real(place, alignment, size);
}
"""

# What `platform` prints where no session began.
NO_SESSIONS = b"entries=0 stored=0 repeat=0 renumbered=0\n"

# What a session's line says where it ended for want of memory.
ENDED_FOR_MEMORY = re.compile(rb"^session \d+ memory read=", re.M)

ROOT = os.path.dirname(os.path.dirname(os.path.realpath(__file__)))

Ran = collections.namedtuple("Ran", "status text made")


class Case:
    """What is run: words, what it reads, what a peer says to it, and the status of the whole run."""

    def __init__(self, name, words, given=b"", peer=None, status=0):
        self.name, self.words, self.given, self.peer, self.status = name, words, given, peer, status

    def run(self, asked, refused):
        with tempfile.TemporaryDirectory() as folder:
            port = link_trials.free_port()
            count = f"{folder}/count"
            env = {**os.environ, "LD_PRELOAD": asked.shim, "REFUSED_ALLOCATION": str(refused), "COUNT_ALLOCATIONS": count}
            words = [asked.program, *(it.replace("PORT", str(port)) for it in self.words)]
            pipes = {"stdin": subprocess.PIPE, "stdout": subprocess.PIPE, "stderr": subprocess.PIPE}
            ran = subprocess.Popen(words, cwd=folder, env=env, **pipes)
            # A program that is refused its memory may end before it reads.
            with contextlib.suppress(BrokenPipeError):
                ran.stdin.write(self.given)
            with contextlib.suppress(BrokenPipeError):
                ran.stdin.close()
            ran.stdin = None
            if self.peer:
                self.peer(ran, port)
            try:
                text = ran.communicate(timeout=20)[0]
            except subprocess.TimeoutExpired:
                ran.kill()
                return Ran("hangs", ran.communicate()[0], 0)
            made = int.from_bytes(open(count, "rb").read(), "little") if os.path.exists(count) else 0
            return Ran(ran.returncode, text, made)


def speak(ran, port):
    """A terminal that registers, authenticates itself, sends a unit and goes away."""
    while ran.poll() is None and not kill_loop.listens(port):
        time.sleep(0.002)
    if ran.poll() is not None:
        return
    try:
        with link_trials.connect(port) as peer:
            peer.settimeout(5)
            for sent in (link_trials.registration(0), link_trials.authentication(1), link_trials.position(2)):
                peer.sendall(sent)
                if not peer.recv(4096):
                    return
    except OSError:
        pass


def cases():
    report = ["report", "--host", "127.0.0.1", "--port", "PORT", *link_trials.REPORT.split(), "--tries", "1"]
    return [
        Case("a heartbeat, `view`", ["view"], link_trials.heartbeat()),
        Case("a platform that starts anew, `rehearse`", ["rehearse"], SCRIPT),
        Case("one session, `platform`", ["platform", "--port", "PORT", "--sessions", "1"], link_trials.FLEET, speak),
        Case("no link, `report`", report, link_trials.FIX, status=7),
    ]


def kind(ran, whole):
    """What came of a run from which memory was withheld, or None where that is wrong."""
    if (ran.status, ran.text) == (whole.status, whole.text):
        return "as whole"
    is_told = ran.text == NO_SESSIONS or ENDED_FOR_MEMORY.search(ran.text)
    if ran.status == 8 and (is_told or whole.text.startswith(ran.text)):
        return "status 8"
    if ran.status == 5 and ran.text.splitlines()[-1:] == [b"store fault"]:
        return "store fault"
    return None


def tried(asked, case):
    """A row, and whether all was right."""
    whole = case.run(asked, 0)
    found, wrong = collections.Counter(), []
    for number in range(1, min(whole.made, asked.most) + 1):
        ran = case.run(asked, number)
        came = kind(ran, whole)
        found[came] += 1
        if came is None:
            wrong.append((number, ran.status, ran.text[-200:]))
    told = ", ".join(f"{count} {came}" for came, count in found.most_common() if came)
    print(f"| {case.name} | {whole.made} | {sum(found.values())} | {told} | {len(wrong)} |", flush=True)
    for it in wrong[:5]:
        print(f"wrong: {it}", file=sys.stderr)
    if whole.status != case.status:
        print(f"wrong: the whole run ended with {whole.status}: {whole.text[-200:]}", file=sys.stderr)
    return not wrong and whole.made > 0 and whole.status == case.status


def main():
    asked = command_line.Words(__doc__)
    asked.add_program("crates/jt808/out/jt808", "default: crates/jt808/out/jt808")
    asked.add_argument("--most", type=command_line.positive, default=400)
    asked = asked.parse_args()
    command_line.want_command("cc", "gcc")
    with tempfile.TemporaryDirectory() as folder:
        asked.shim, asked.program = f"{folder}/shim.so", os.path.realpath(asked.program)
        words = ["cc", "-shared", "-fPIC", "-O1", "-o", asked.shim, "-xc", "-", "-ldl"]
        subprocess.run(words, input=SHIM, text=True, check=True)
        print("| Case | Allocations | Refused in turn | What came of it | Wrong |")
        print("|---|---|---|---|---|")
        return 0 if all([tried(asked, it) for it in cases()]) else 1


if __name__ == "__main__":
    command_line.run(main)
