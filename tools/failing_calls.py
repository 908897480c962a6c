#!/usr/bin/env python3
"""Lets one call on the disk fail in a run of `report`, each call in turn, and looks what the file then has.

    tools/failing_calls.py [--program jt808] [--most 40]

By strace the k-th fdatasync or fsync answers EIO, or the k-th pwrite64 ENOSPC, for k from 1 to the first that is not reached or
to the most. A run of eight fixes without a platform either ends with `store fault`, status 5, or has recorded all; what the file
has are the first fixes, and the next run, without the fault, goes on with as many. It prints how often each end was seen; the
status is 1 where one is wrong.
"""
import collections
import os
import sqlite3
import subprocess
import tempfile

import command_line
import kill_loop
import refused_files

FIXES = "".join(f"{kill_loop.fix(1, place).hex()}\n" for place in range(8))
CALLS = {"fdatasync": "EIO", "fsync": "EIO", "pwrite64": "ENOSPC"}


def report(folder, before, given):
    """The status and the last line of a run."""
    ran = subprocess.run([*before, *refused_files.words_of_report(9)], cwd=folder, input=given, capture_output=True, text=True)
    return ran.returncode, (ran.stdout.splitlines() or [""])[-1]


def recorded(path):
    """How many fixes a file has, or None where they are not the first ones. A file that is not made yet has none."""
    try:
        (bodies,) = kill_loop.look(path, "SELECT body FROM fix ORDER BY place")
    except sqlite3.DatabaseError:
        return 0
    found = [kill_loop.origin(body) for (body,) in bodies]
    return len(found) if found == [(1, place) for place in range(len(found))] else None


def end_of(program, call, number):
    """How a run ended whose call of this number failed, and whether that is right; or None where there was no such call."""
    with tempfile.TemporaryDirectory(prefix="failing-calls-") as folder:
        inject = f"inject={call}:error={CALLS[call]}:when={number}"
        status, last = report(folder, ["strace", "-f", "-o", "trace", "-e", f"trace={call}", "-e", inject, program], FIXES)
        with open(f"{folder}/trace") as trace:
            if "INJECTED" not in trace.read():
                return None
        count = recorded(f"{folder}/terminal.db")
        is_right = (status, last) in ((5, "store fault"), (7, "accepted=0 of 8")) and count is not None
        return last, is_right and report(folder, [program], "") in ((7, f"accepted=0 of {count}"), (0, "accepted=0 of 0"))


def main():
    asked = command_line.Words(__doc__)
    asked.add_program()
    asked.add_argument("--most", type=command_line.positive, default=40)
    asked = asked.parse_args()
    command_line.want_command("strace", "strace")
    ends = collections.Counter()
    for call in CALLS:
        for number in range(1, asked.most + 1):
            end = end_of(os.path.realpath(asked.program), call, number)
            if end is None:
                break
            ends[(call, *end)] += 1
    for (call, last, is_right), count in sorted(ends.items()):
        print(f"{call}: {count} times {last!r}, {'right' if is_right else 'WRONG'}")
    return 0 if all(is_right for _, _, is_right in ends) else 1


if __name__ == "__main__":
    command_line.run(main)
