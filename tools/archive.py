#!/usr/bin/python3
"""Moves rows of a platform's file into a PostgreSQL database, into SQLite files by month, or into both.

    tools/archive.py platform.db --name A --database DSN [--into FOLDER] [--rows N | --exact] [--wait SECONDS] [--dry-run]
    tools/archive.py platform.db --name A --database DSN [--into FOLDER] --copy
    tools/archive.py FILE --name A --database DSN --refill

The first form copies all rows that were not copied before, looks whether those that are to go stand in each target as in the file,
and then removes them from it. Of each phone the last rows stay. It reads a copy of the file, so a platform may run meanwhile; for
the removal alone none may: at a locked file it ends with nothing removed, or it waits with --wait. The second form copies and
removes nothing. The third one puts all rows of a file into a database again: of the files by month after the database lost some.

Each row goes exactly once, whatever is killed: run the tool again. What was copied is committed first. Then counts and sums of all
that is to go are compared between the file and each target; only then it is removed, in one transaction. Where the database is away
rows wait in the file, and terminals notice nothing. The copy of the file stands in TMPDIR (/tmp); the removal wants as much free
disk as the file has, and as much memory, up to 1 GB. One file has one name.

Which rows have to stay: a terminal gets the same octets in any case. A platform looks for a unit that comes again among the rows up
to 32,768 below the last one's number, and at no other row (docs/WIRE.md): with --exact nothing changes at all. At a row each half
minute these are 11 days. A terminal of this program has at most 16 units that are not accepted, so 16 rows are enough for it; what
those of other makers have is not known. Where a unit comes again whose row has left the file, it is stored a second time, under a
later number: jt808.twice names both. left808 in platform.db says of each phone up to which number rows left.

The tables are made at the first run, in the schema jt808 of PostgreSQL 14 or later. A phone has no zeros at its front there:

    position            each position, in a table a day: platform, phone, day, number of its row, place in it and their count, octets
                        as they came; read of them time, latitude, longitude, altitude, speed, direction, alarm, status, mileage, items
    platform            the name of each platform's number
    last_position       the last stored position of each phone
    track               positions that were located and have a moment, with that of the one before it that day, and the metres from
                        there (time_before, metres_before)
    mileage_a_day       of each phone and day: km by positions and by odometer, top speed
    stay                where a vehicle was below 1 km/h for five minutes or more
    twice               rows that stand twice
    position_shape, track_shape     points and lines for QGIS, from the first run after CREATE EXTENSION postgis on

A day is one of the terminal's clock, in China. A position without a moment stands under the day of the first of its row that has
one, or 1970-01-01. Always ask for a day, and where you can for a phone: a lorry's day of 2,880 positions is one look-up. DROP TABLE
jt808.position_20251130 takes a day away at once, when its rows have left the file. Readers want GRANT USAGE ON SCHEMA jt808 and
GRANT SELECT ON ALL TABLES IN SCHEMA jt808. Beyond some 10,000 terminals and a year PostgreSQL is shared out by the phone, which
stands first in the key (Citus), or by the day (Timescale); neither was tried.

After a loss: a file that was put back from a backup goes under a new name, since its numbers go other ways from there on; the old
one is refused. So is a database that was put back, with the phone named: rows have left the file that it lacks. Put them there again
from the files by month (so have both targets), in any order; without those files go on under a new name with --from-here:

    for month in old/a-[2n]*.db; do tools/archive.py "$month" --name a --database dbname=fleet --refill; done

`jt808 relay` wants all rows of its phone: it counts fixes from the first row on, and once rows have left the file it ends with
`store fault`. So where terminal.db stands beside the file nothing is removed, unless --no-relay says that nobody uses relay there.
From then on tools/archive_fixes.py takes its place.

The status is 0; 1 where something is in the way, which is told with what to do; 2 where the words are wrong.
"""
import bisect
import contextlib
import fcntl
import functools
import hashlib
import os
import shutil
import sqlite3
import sys
import tempfile
import time
import urllib.parse

sys.dont_write_bytecode = True
import command_line  # noqa: E402
import positions  # noqa: E402
from archive_database import Database  # noqa: E402
from archive_folder import Folder, sync  # noqa: E402
from archive_rows import Stop, Unit, digits_of  # noqa: E402

# How far below the last row's number a platform looks for a unit that comes again.
LOOKED_AT = 32_768
# A terminal of this program has at most so many units that are not accepted.
WINDOW = 16
# Without a word so many rows of a phone stay, fewer where all phones together would keep more than a file opens in a second.
STAY, STAY_OF_ALL, STAY_LEAST = 1_000, 200_000, 64
OCTETS_A_TRANSACTION = 1_000_000
MOST_MEMORY = 2**30
SPARE_PAGES = 16
LEFT = "CREATE TABLE IF NOT EXISTS left808 (phone BLOB PRIMARY KEY, number INTEGER, rows INTEGER, fixes INTEGER)"
LEAVE = """INSERT INTO left808 VALUES (?, ?, ?, ?) ON CONFLICT (phone) DO UPDATE SET number = excluded.number,
rows = left808.rows + excluded.rows, fixes = left808.fixes + excluded.fixes"""
OTHER_FILE = "A file that is new, or was put back from a backup, gets a name of its own by --name"


# The file


def check_version(base):
    try:
        found = base.execute("SELECT version FROM meta").fetchall()
    except sqlite3.DatabaseError as error:
        raise Stop(f"this is no file of a platform: {error}", "Name the platform.db of a platform") from error
    if found == [(1,)]:
        raise Stop("this is a file of version 1", "Start the platform over it once, and let one terminal dial: that moves it to version 2")
    if found != [(2,)]:
        raise Stop(f"this is a file of version {found}, and version 2 is known here", "Take the archive.py that came with the program")


def phones_in(base):
    """All phones with rows, by the index alone."""
    phone = b""
    while True:
        found = base.execute("SELECT phone FROM rows808 WHERE phone > ? ORDER BY phone LIMIT 1", (phone,)).fetchone()
        if found is None:
            return
        phone = found[0]
        yield phone


def count_of(base, phone, behind=-1):
    return base.execute("SELECT COUNT(*) FROM rows808 WHERE phone = ? AND number > ?", (phone, behind)).fetchone()[0]


def left_in(base):
    """Up to which number rows of each phone have left the file, by the file itself."""
    if base.execute("SELECT 1 FROM sqlite_schema WHERE name = 'left808'").fetchone() is None:
        return {}
    return dict(base.execute("SELECT phone, number FROM left808"))


@contextlib.contextmanager
def alone(path):
    """Keeps a second tool out of the folder of a file."""
    folder = os.open(os.path.dirname(path), os.O_RDONLY)
    try:
        try:
            fcntl.flock(folder, fcntl.LOCK_EX | fcntl.LOCK_NB)
        except BlockingIOError as error:
            raise Stop("another archive.py works in the folder of this file", "Wait until it ended, and run this again") from error
        yield
    finally:
        os.close(folder)


@contextlib.contextmanager
def copied(path):
    """A copy of the file and its log as they stand together. What a tool that was killed left here goes first."""
    name = hashlib.sha256(path.encode()).hexdigest()[:16]
    folder = os.path.join(tempfile.gettempdir(), f"archive-{os.getuid()}-{name}")
    shutil.rmtree(folder, ignore_errors=True)
    try:
        os.mkdir(folder, 0o700)
        copy = positions.copy(path, folder)
        # What was copied is on the disk before anything else learns of it.
        sync(f"{path}-wal")
        sync(path)
        with contextlib.closing(sqlite3.connect(copy)) as base:
            # Rows of a phone stand far from one another.
            base.execute(f"PRAGMA mmap_size = {MOST_MEMORY}")
            check_version(base)
            yield base
    finally:
        shutil.rmtree(folder, ignore_errors=True)


def take(base, wait):
    """Locks the file. Asked for every few milliseconds, it is had between two runs of a platform."""
    until = time.monotonic() + wait
    while True:
        try:
            base.execute("PRAGMA locking_mode = EXCLUSIVE")
            base.execute("PRAGMA synchronous = FULL")
            base.execute("BEGIN EXCLUSIVE")
            base.execute("COMMIT")
            return
        except sqlite3.OperationalError as error:
            if "locked" not in str(error):
                raise
            if time.monotonic() > until:
                raise Stop(
                    "the file is locked: a platform runs, or another program reads it. All is copied and checked; nothing removed",
                    "End the run and call this again, or let it wait for the end by --wait SECONDS",
                ) from error
        time.sleep(0.002)


@contextlib.contextmanager
def held(path, wait):
    """The file itself, held so that no platform opens it meanwhile."""
    name = f"file:{urllib.parse.quote(path)}?mode=rw"
    with contextlib.closing(sqlite3.connect(name, uri=True, isolation_level=None, timeout=0)) as base:
        take(base, wait)
        check_version(base)
        # Room for all pages: so each is written into the log once.
        base.execute(f"PRAGMA cache_size = -{min(os.path.getsize(path) + 2 ** 25, MOST_MEMORY) // 1024}")
        yield base


# Copying


class Progress:
    """Tells on a terminal how far something is."""

    def __init__(self, what, total):
        self.what, self.total, self.count, self.began, self.shown = what, total, 0, time.monotonic(), 0

    def add(self, count):
        self.count += count
        now = time.monotonic()
        if sys.stderr.isatty() and now > self.shown + 0.5:
            self.shown = now
            speed = self.count / max(now - self.began, 0.001)
            print(f"\r\x1b[K{self.what}: {self.count:,} of {self.total:,} rows, {speed:,.0f} a second", end="", file=sys.stderr, flush=True)

    def end(self):
        if self.shown:
            print("\r\x1b[K", end="", file=sys.stderr, flush=True)
        return f"{time.monotonic() - self.began:.1f} s"


def check_marks(base, target, marks, from_here):
    """A file that is not the one which stands in the target, and a target that lost rows, are both in the way."""
    left = left_in(base)
    for phone in phones_in(base):
        digits = digits_of(phone)
        number, total = marks.get(digits, (None, None))
        gone = left.get(phone, -1)
        if gone >= 0 and (number is None and not from_here or number is not None and number < gone):
            raise Stop(
                f"phone {digits}: rows up to {gone} have left the file, and {target} has {'none' if number is None else f'those up to {number}'}",
                "Where it lost them, fill it from the files by month with --refill. A new one may lack them: --from-here",
            )
        if number is None or number <= gone:
            continue
        row = base.execute("SELECT number, id, body FROM rows808 WHERE phone = ? AND number = ?", (phone, number)).fetchone()
        if row is None or Unit(*row).sum() != total:
            found = "none" if row is None else "another one"
            raise Stop(f"phone {digits}: the last row of {target} is {number}, and the file has {found} there", OTHER_FILE)


def rows_behind(base, marks):
    for phone in phones_in(base):
        number, _ = marks.get(digits_of(phone), (-1, 0))
        for row in base.execute("SELECT number, id, body FROM rows808 WHERE phone = ? AND number > ? ORDER BY number", (phone, number)):
            yield phone, *row


def pieces(rows):
    """The rows in lists, each of a transaction."""
    some, octets = [], 0
    for row in rows:
        some.append(row)
        octets += len(row[3]) + 20
        if octets > OCTETS_A_TRANSACTION:
            yield some
            some, octets = [], 0
    if some:
        yield some


def copy_out(base, target, words):
    marks = target.marks()
    if words.refill:
        # What stands there is found by its key, and compared.
        marks = {}
    else:
        check_marks(base, target, marks, words.from_here)
    total = sum(count_of(base, phone, marks.get(digits_of(phone), (-1, 0))[0]) for phone in phones_in(base))
    if words.dry_run:
        print(f"{target}: {total:,} rows would be copied")
        return
    progress = Progress(f"copying into {target}", total)
    put = functools.partial(target.put, again=True) if words.refill else target.put
    for rows in pieces(rows_behind(base, marks)):
        put(rows)
        progress.add(len(rows))
    print(f"{target}: {total:,} rows copied in {progress.end()}", flush=True)


# Removing


class Plan:
    """The rows of a phone that are to go: from its first to the one before `cut`."""

    def __init__(self, phone, cut):
        self.phone, self.cut, self.first, self.last = phone, cut, None, None
        self.rows = self.entries = self.fixes = self.sum = 0
        self.days, self.months = set(), set()

    def add(self, unit):
        self.first = unit.number if self.first is None else self.first
        self.last = unit.number
        self.rows += 1
        self.entries += len(unit.entries)
        self.fixes += unit.count
        self.sum += unit.sum()
        self.days.update(unit.days())
        self.months.add(unit.month())


def rows_to_stay(base, words):
    """How many rows of each phone stay, or None where the numbers alone say it."""
    if words.exact or words.rows is not None:
        return words.rows
    counts = [count_of(base, phone) for phone in phones_in(base)]
    over = lambda rows: sum(min(it, rows) for it in counts) > STAY_OF_ALL
    return max(STAY_LEAST, bisect.bisect_left(range(STAY + 1), True, key=over) - 1)


def cut_of(base, phone, stay):
    """The least number that stays. None that a platform does not look at ever has to."""
    last = base.execute("SELECT number FROM rows808 WHERE phone = ? ORDER BY number DESC LIMIT 1", (phone,)).fetchone()[0]
    if stay is None:
        return last - LOOKED_AT
    found = base.execute("SELECT number FROM rows808 WHERE phone = ? ORDER BY number DESC LIMIT 1 OFFSET ?", (phone, stay - 1)).fetchone()
    return last - LOOKED_AT if found is None else max(last - LOOKED_AT, found[0])


def plans_of(base, stay):
    cuts = {phone: cut_of(base, phone, stay) for phone in phones_in(base)}
    counts = {phone: count_of(base, phone) - count_of(base, phone, cut - 1) for phone, cut in cuts.items()}
    progress, found = Progress("looking at what is to go", sum(counts.values())), []
    for phone, cut in cuts.items():
        if not counts[phone]:
            continue
        plan = Plan(phone, cut)
        for row in base.execute("SELECT number, id, body FROM rows808 WHERE phone = ? AND number < ? ORDER BY number", (phone, cut)):
            plan.add(Unit(*row))
        found.append(plan)
        progress.add(plan.rows)
    progress.end()
    return found


def remove(base, plans):
    """One transaction: the rows go, and the file says up to where."""
    base.execute("BEGIN IMMEDIATE")
    base.execute(LEFT)
    gone = 0
    for plan in plans:
        gone += base.execute("DELETE FROM rows808 WHERE phone = ? AND number < ?", (plan.phone, plan.cut)).rowcount
        base.execute(LEAVE, (plan.phone, plan.last, plan.rows, plan.fixes))
    if gone != sum(plan.rows for plan in plans):
        base.execute("ROLLBACK")
        raise Stop("the file changed meanwhile; nothing removed", "Look whether another program deletes rows, and run this again")
    base.execute("COMMIT")


def is_loose(base):
    """Whether pages are free in the file: of rows that went now, or in a run that was killed behind its removal."""
    return base.execute("PRAGMA freelist_count").fetchone()[0] > SPARE_PAGES


def shrink(base):
    """Gives free pages back to the disk."""
    try:
        base.execute("VACUUM")
        base.execute("PRAGMA wal_checkpoint(TRUNCATE)")
    except sqlite3.Error as error:
        raise Stop(
            f"the rows are removed, and the file could not be made smaller: {error}",
            "Make as much room on its disk as it has octets, and run this again",
        ) from error


def check_relay(words):
    beside = os.path.join(os.path.dirname(words.file), "terminal.db")
    if os.path.exists(beside) and not words.no_relay:
        raise Stop(
            "terminal.db stands beside the file: `relay` counts all fixes from the first row on, and would leave fixes out once rows are"
            " gone. Nothing removed",
            "Say --no-relay where nobody uses relay here; tools/archive_fixes.py takes its place",
        )


def move(words, targets):
    # All that takes long is done over a copy. Rows never change, and what may go once may always go.
    with copied(words.file) as base:
        for target in targets:
            copy_out(base, target, words)
        if words.copy or words.refill:
            return
        stay = rows_to_stay(base, words)
        plans, loose = plans_of(base, stay), is_loose(base)
    total = sum(plan.rows for plan in plans)
    kept = f"the last {stay:,} of each phone stay" if stay else f"of each phone those at most {LOOKED_AT:,} below the last stay"
    if words.dry_run:
        print(f"{total:,} rows of {len(plans):,} phones would go; {kept}")
        return
    if not plans and not loose:
        print(f"no row is to go; {kept}")
        return
    if plans:
        check_relay(words)
        began = time.monotonic()
        for target in targets:
            target.verify(plans)
        print(f"checked {total:,} rows in {time.monotonic() - began:.1f} s", flush=True)
    let_go(words, plans, f"removed {total:,} rows of {len(plans):,} phones; {kept}")


def let_go(words, plans, told):
    with held(words.file, words.wait) as base:
        began = time.monotonic()
        if plans:
            remove(base, plans)
        if is_loose(base):
            shrink(base)
        seconds = time.monotonic() - began
    print(f"{told}; the file was held {seconds:.1f} s and has {os.path.getsize(words.file):,} octets", flush=True)


# Words


def parser():
    asked = command_line.Words(__doc__)
    asked.add_argument("file", nargs="?", default="platform.db", help="the platform's file (default: platform.db)")
    asked.add_argument("--name", required=True, help="of the platform in the database and in the folder: one file, one name")
    asked.add_argument("--database", metavar="DSN", help='of PostgreSQL, as "host=db dbname=fleet user=jt808"; "" where the environment says it')
    asked.add_argument("--into", metavar="FOLDER", help="of SQLite files by month")
    form = asked.add_mutually_exclusive_group()
    form.add_argument("--copy", action="store_true", help="copy, and remove nothing")
    form.add_argument("--refill", action="store_true", help="put all rows of the file into the database again, and remove nothing")
    stay = asked.add_mutually_exclusive_group()
    fewer = f"{STAY}, and fewer, but {STAY_LEAST} at least, where all phones together would keep more than {STAY_OF_ALL}"
    stay.add_argument("--rows", type=int, metavar="N", help=f"that stay of each phone, at least {WINDOW} (default: {fewer})")
    exact = f"all rows stay that a platform ever looks at: those at most {LOOKED_AT} below a phone's last"
    stay.add_argument("--exact", action="store_true", help=exact)
    asked.add_argument("--wait", type=float, default=0, metavar="SECONDS", help="wait so long for the end of a platform's run")
    asked.add_argument("--dry-run", action="store_true", help="say what would be done, and do nothing")
    asked.add_argument("--from-here", action="store_true", help="let a new target begin with the rows that are still in the file")
    asked.add_argument("--no-relay", action="store_true", help="remove also where terminal.db stands beside the file")
    return asked


def words_of(given):
    asked = parser()
    words = asked.parse_args(given)
    if words.database is None and words.into is None:
        asked.error("say where the rows are to go: --database DSN, --into FOLDER, or both")
    if words.refill and words.into is not None:
        asked.error("--refill puts rows into the database alone")
    if words.rows is not None and words.rows < WINDOW:
        asked.error(f"--rows: at least {WINDOW} have to stay, as many as a terminal may have on the way")
    if not words.name.replace("-", "").replace("_", "").isalnum():
        asked.error("--name: letters, digits, - and _")
    return words


def targets_of(words, stack):
    found = []
    for kind, where in ((Database, words.database), (Folder, words.into)):
        if where is not None:
            found.append(stack.enter_context(contextlib.closing(kind(where, words.name, may_write=not words.dry_run))))
    return found


def remedy_of(error):
    """What to do about an error of SQLite or of the system."""
    text = str(error)
    if "full" in text or "No space" in text:
        place = tempfile.gettempdir()
        return f"Make room: for a copy of the file in {place} (TMPDIR names another place), and for as much beside it. Then run this again"
    if "locked" in text:
        return "Another program has it open: end that, and run this again"
    return "The file has all that was not removed. Mend this, and run it again"


def main(given):
    words = words_of(given)
    try:
        if not os.path.isfile(words.file):
            raise Stop("there is no such file", "Name the platform's file, or go to its folder")
        # Its log stands beside the file itself, not beside a link to it.
        words.file = os.path.realpath(words.file)
        with contextlib.ExitStack() as stack:
            stack.enter_context(alone(words.file))
            move(words, targets_of(words, stack))
        return 0
    except Stop as stop:
        what, remedy = str(stop), stop.remedy
    except (OSError, sqlite3.Error, positions.Unread) as error:
        what, remedy = str(error), remedy_of(error)
    except KeyboardInterrupt:
        what, remedy = "interrupted", "Each row stands in the file or in every target: run this again"
    print(f"archive: {words.file}: {what}\narchive: to do: {remedy}", file=sys.stderr)
    return 1


if __name__ == "__main__":
    command_line.run(main, sys.argv[1:])
