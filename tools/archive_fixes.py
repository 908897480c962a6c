#!/usr/bin/python3
"""Prints the fixes of a phone that a terminal.db has not recorded, from the database that tools/archive.py filled, for `report`.

    tools/archive_fixes.py --phone D --name A --database DSN [--terminal terminal.db] > fixes && jt808 report .. < fixes

It does what `relay` does, where rows have left the platform's file: it takes the fixes of the phone's rows in order and passes over
as many as the file of the terminal has recorded; where that is not there, over none. So both may be killed and run again, one after
the other, as long as nothing else records in that terminal.db. (By a file and not by a pipe: a line that is cut off by a kill may
still be a fix.) Rows that were not copied into the database are not among them: run `tools/archive.py --copy` before.

The status is 0; 1 where something is in the way, which is told with what to do; 2 where the words are wrong.
"""
import contextlib
import os
import sqlite3
import sys
import tempfile

sys.dont_write_bytecode = True
import command_line  # noqa: E402
import positions  # noqa: E402
from archive_database import Link  # noqa: E402
from archive_rows import Stop  # noqa: E402

FIXES = "FROM jt808.position JOIN jt808.platform ON id = platform WHERE name = %s AND phone = %s AND count > 0"


def recorded_in(path):
    """How many fixes a terminal's file has recorded. It is looked at in a copy, and may be in use."""
    if not os.path.exists(path):
        return 0
    with tempfile.TemporaryDirectory(prefix="archive-fixes-") as folder:
        with contextlib.closing(sqlite3.connect(positions.copy(path, folder))) as base:
            if base.execute("SELECT COUNT(*) FROM sqlite_schema").fetchone()[0] == 0:
                return 0
            return base.execute("SELECT COALESCE(MAX(place), -1) + 1 FROM fix").fetchone()[0]


def write(link, words, recorded):
    phone = words.phone.lstrip("0") or "0"
    if link.one("SELECT to_regclass('jt808.position')") is None:
        raise Stop("the database has no rows yet", "Run tools/archive.py --copy over the platform's file")
    with link.transaction():
        link.execute("SET TRANSACTION ISOLATION LEVEL REPEATABLE READ")
        count = link.one(f"SELECT count(*) {FIXES}", (words.name, phone))
        if count < recorded:
            raise Stop(
                f"{words.terminal} has recorded {recorded} fixes, and the database has {count} of this phone",
                "Where rows are not copied yet, run tools/archive.py --copy; otherwise this terminal.db is not of these rows",
            )
        link.execute(f"DECLARE fixes NO SCROLL CURSOR FOR SELECT octets {FIXES} ORDER BY number, place OFFSET {recorded}", (words.name, phone))
        while True:
            found = link.execute("FETCH 10000 FROM fixes")
            sys.stdout.writelines(f"{bytes(octets).hex()}\n" for octets, in found)
            if not found:
                break
    sys.stdout.flush()


def words_of(given):
    asked = command_line.Words(__doc__)
    asked.add_argument("--phone", required=True, help="its digits; zeros at its front may be left out")
    asked.add_argument("--name", required=True, help="of the platform in the database")
    asked.add_argument("--database", required=True, metavar="DSN")
    asked.add_argument("--terminal", default="terminal.db", metavar="FILE", help="of the terminal that reports them (default: terminal.db)")
    return asked.parse_args(given)


def main(given):
    words = words_of(given)
    try:
        with contextlib.closing(Link(words.database)) as link:
            write(link, words, recorded_in(words.terminal))
        return 0
    except BrokenPipeError:
        # (the lines that were not written are wanted)
        os.dup2(os.open(os.devnull, os.O_WRONLY), 1)
        return 1
    except Stop as stop:
        what, remedy = str(stop), stop.remedy
    except (OSError, sqlite3.Error, positions.Unread) as error:
        what, remedy = f"{words.terminal}: {error}", "Name the terminal.db of the terminal that reports these fixes"
    print(f"archive_fixes: {what}\narchive_fixes: to do: {remedy}", file=sys.stderr)
    return 1


if __name__ == "__main__":
    command_line.run(main, sys.argv[1:])
