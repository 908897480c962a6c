"""A PostgreSQL database as a target of tools/archive.py."""
import contextlib
import datetime
import importlib
import io
import json
import os
import sys
import time

from archive_rows import CHINA, FIXED, SOUTH, WEST, Stop, Unit, digits_of, items_of

HERE = os.path.dirname(os.path.abspath(__file__))
# A day gets a table of its own where it is so many days before today at most, and tomorrow at the latest.
OWN_DAYS = 400
LOCK_SECONDS = 15
OLDEST_VERSION = 14
# Of a dead server or line one learns within two minutes.
ALIVE = {"keepalives_idle": 60, "keepalives_interval": 10, "keepalives_count": 5, "tcp_user_timeout": 110_000}
SHORT = json.JSONEncoder(separators=(",", ":")).encode
AGAIN = "What is committed stands there once; nothing was removed that does not. Run this again when the database is well"


def driver():
    for name in ("psycopg", "psycopg2"):
        with contextlib.suppress(ImportError):
            return importlib.import_module(name)
    raise Stop(
        f"neither psycopg nor psycopg2 is there for {sys.executable}",
        "Install it (`sudo apt-get install python3-psycopg2`) and run the tool by /usr/bin/python3",
    )


class Link:
    """A connection by psycopg or psycopg2. What fails is told as Stop."""

    def __init__(self, dsn):
        self.driver = driver()
        os.environ.setdefault("PGCONNECT_TIMEOUT", "10")
        try:
            self.base = self.driver.connect(dsn, **ALIVE)
            self.base.autocommit = True
        except self.driver.Error as error:
            raise Stop(
                f"the database does not let this in: {flat(error)}",
                "Look whether the server runs and --database names its host, user and database; a password can stand in ~/.pgpass",
            ) from error
        self.cursor = self.base.cursor()

    def execute(self, text, values=None):
        try:
            self.cursor.execute(text, values)
            return self.cursor.fetchall() if self.cursor.description else []
        except self.driver.Error as error:
            raise Stop(f"the database: {flat(error)}", AGAIN) from error

    def one(self, text, values=None):
        """The first value of the first row, or None where there is no row."""
        found = self.execute(text, values)
        return found[0][0] if found else None

    @property
    def count(self):
        return self.cursor.rowcount

    def copy(self, table, lines):
        text = f"COPY {table} FROM STDIN"
        try:
            if self.driver.__name__ == "psycopg2":
                self.cursor.copy_expert(text, io.StringIO("".join(lines)))
            else:
                with self.cursor.copy(text) as copy:
                    copy.write("".join(lines))
        except self.driver.IntegrityError as error:
            raise Stop(
                f"a row that is to be copied stands in the database already: {flat(error)}",
                "Where marks were lost there, --refill compares and goes on; another file needs a name of its own by --name",
            ) from error
        except self.driver.Error as error:
            raise Stop(f"the database: {flat(error)}", AGAIN) from error

    @contextlib.contextmanager
    def transaction(self):
        self.execute("BEGIN")
        try:
            yield
        except BaseException:
            with contextlib.suppress(Stop):
                self.execute("ROLLBACK")
            raise
        self.execute("COMMIT")

    def close(self):
        with contextlib.suppress(self.driver.Error):
            self.base.close()


def flat(error):
    return " ".join(str(error).split()) or type(error).__name__


def script(name):
    with open(os.path.join(HERE, name), encoding="utf-8") as file:
        return file.read()


class Database:
    def __init__(self, dsn, name, may_write=True):
        self.name, self.link, self.days = name, Link(dsn), set()
        try:
            self.check()
            if may_write:
                self.make()
            self.platform = self.platform_of(may_write)
            self.lock()
        except BaseException:
            self.link.close()
            raise

    def __str__(self):
        return "the database"

    def check(self):
        self.link.execute("SET synchronous_commit = on; SET search_path = jt808, public; SET client_min_messages = warning; SET DateStyle = ISO")
        version = int(self.link.one("SHOW server_version_num")) // 10_000
        if version < OLDEST_VERSION:
            raise Stop(f"the server is PostgreSQL {version}", f"Take one of version {OLDEST_VERSION} or later")
        for setting in ("fsync", "full_page_writes"):
            if self.link.one(f"SHOW {setting}") != "on":
                raise Stop(f"the database runs with {setting} off, so what it commits may be lost", f"Set {setting} = on in postgresql.conf, and reload it")

    def make(self):
        """Makes the schema, and the shapes once PostGIS is there."""
        with self.link.transaction():
            self.link.execute("SELECT pg_advisory_xact_lock(808, 0)")
            if self.link.one("SELECT to_regclass('jt808.position')") is None:
                self.link.execute(script("archive.sql"))
            found = self.link.one("SELECT extnamespace::regnamespace::text FROM pg_extension WHERE extname = 'postgis'")
            if found is not None and self.link.one("SELECT to_regclass('jt808.track_shape')") is None:
                self.link.execute(f"SET LOCAL search_path = jt808, public, {found}")
                self.link.execute(script("archive_postgis.sql"))

    def platform_of(self, may_write):
        if self.link.one("SELECT to_regclass('jt808.platform')") is None:
            return None
        found = self.link.one("SELECT id FROM platform WHERE name = %s", (self.name,))
        if found is None and may_write:
            self.link.execute("INSERT INTO platform (name) VALUES (%s) ON CONFLICT DO NOTHING", (self.name,))
            found = self.link.one("SELECT id FROM platform WHERE name = %s", (self.name,))
        return found

    def lock(self):
        """Keeps out a second tool of this name. A server may take some seconds to see that a tool was killed."""
        until = time.monotonic() + LOCK_SECONDS
        while self.platform is not None and not self.link.one("SELECT pg_try_advisory_lock(808, %s)", (self.platform,)):
            if time.monotonic() > until:
                raise Stop(f"another archive.py of the name {self.name} works in the database", "Wait until it ended, and run this again")
            time.sleep(0.2)

    def marks(self):
        """Of each phone the number of the last row that stands here, and the sum of it."""
        if self.platform is None:
            return {}
        found = self.link.execute("SELECT phone, number, sum FROM mark WHERE platform = %s", (self.platform,))
        return {phone: (number, int(total)) for phone, number, total in found}

    def make_days(self, days):
        """Makes tables for days. Positions that came when their day was too far off for one stay where they are, with all others of that day."""
        today = datetime.datetime.now(CHINA).date()
        for day in sorted(days - self.days):
            if today - datetime.timedelta(OWN_DAYS) <= day <= today + datetime.timedelta(1):
                with self.link.transaction():
                    self.make_day(day)
            self.days.add(day)

    def make_day(self, day):
        table = f"jt808.position_{day:%Y%m%d}"
        self.link.execute("SELECT pg_advisory_xact_lock(808, 0)")
        if self.link.one("SELECT to_regclass(%s)", (table,)) is not None:
            return
        if self.link.one("SELECT 1 FROM position_rest WHERE day = %s LIMIT 1", (day,)):
            return
        # A table that is attached keeps nobody from reading the others.
        self.link.execute(f"CREATE TABLE {table} (LIKE jt808.position INCLUDING ALL)")
        self.link.execute(f"ALTER TABLE jt808.position ATTACH PARTITION {table} FOR VALUES FROM ('{day}') TO ('{day + datetime.timedelta(1)}')")

    def put(self, rows, again=False):
        """Puts rows of (phone, number, message, body) in, in order, and marks them, in one transaction. With `again` some may stand
        here already."""
        lines, marks, days = [], {}, set()
        for phone, number, message, body in rows:
            unit, digits = Unit(number, message, body), digits_of(phone)
            lines += self.lines(digits, unit)
            days.update(unit.days())
            marks[digits] = unit
        self.make_days(days)
        with self.link.transaction():
            if again:
                self.add(lines)
            else:
                self.link.copy("position", lines)
            self.mark(marks)

    def add(self, lines):
        self.link.execute("CREATE TEMP TABLE IF NOT EXISTS stage (LIKE position) ON COMMIT DELETE ROWS")
        self.link.copy("stage", lines)
        self.link.execute("INSERT INTO position SELECT * FROM stage ON CONFLICT DO NOTHING")
        if self.link.count != len(lines):
            self.compare()

    def mark(self, units):
        found = [(digits, unit.number, unit.entries[-1][0], unit.sum()) for digits, unit in sorted(units.items())]
        self.link.execute(
            "INSERT INTO mark SELECT %s, * FROM unnest(%s::text[], %s::bigint[], %s::date[], %s::numeric[])"
            " ON CONFLICT (platform, phone) DO UPDATE SET (number, day, sum) = (excluded.number, excluded.day, excluded.sum)"
            " WHERE mark.number < excluded.number",
            (self.platform, *map(list, zip(*found))),
        )

    def compare(self):
        """Where a key stood here already, all else has to be as it is staged."""
        found = self.link.execute(
            "SELECT stage.phone, stage.number FROM stage LEFT JOIN position ON (position.phone, position.platform, position.day,"
            " position.number, position.place) = (stage.phone, stage.platform, stage.day, stage.number, stage.place)"
            " WHERE (position.message, position.count, position.kind, position.octets) IS DISTINCT FROM"
            " (stage.message, stage.count, stage.kind, stage.octets) ORDER BY 1, 2 LIMIT 1"
        )
        if found:
            raise Stop(
                f"row {found[0][1]} of phone {found[0][0]} stands in the database with other octets",
                "This is another file, or an older copy of it: give it a name of its own by --name",
            )

    def lines(self, digits, unit):
        """A line of COPY for each entry."""
        behind = f"{unit.message}\t{unit.count}\t{unit.kind}"
        return [
            f"{self.platform}\t{digits}\t{day}\t{unit.number}\t{place}\t{behind}\t\\\\x{octets.hex()}\t{columns(unit.count, day, clock, octets)}\n"
            for place, (day, clock, octets) in enumerate(unit.entries)
        ]

    def verify(self, plans):
        """Whether the rows of these plans stand here as in the file, by counts and sums."""
        with self.link.transaction():
            going = 'phone text COLLATE "C", first bigint, cut bigint, count bigint, sum numeric'
            self.link.execute(f"CREATE TEMP TABLE going ({going}) ON COMMIT DROP")
            self.link.copy("going", (f"{digits_of(it.phone)}\t{it.first}\t{it.cut}\t{it.entries}\t{it.sum}\n" for it in plans))
            self.link.execute("ANALYZE going")
            found = self.link.execute(
                "SELECT going.phone, going.count, found.count FROM going LEFT JOIN (SELECT position.phone, count(*) AS count,"
                " sum(digest(number, place, message, position.count, kind, octets)) AS sum FROM going JOIN position USING (phone)"
                " WHERE platform = %s AND day = ANY (%s) AND number >= first AND number < cut GROUP BY position.phone) found USING (phone)"
                " WHERE (going.count, going.sum) IS DISTINCT FROM (found.count, found.sum) ORDER BY 1 LIMIT 1",
                (self.platform, sorted(set().union(*(it.days for it in plans)))),
            )
        if found:
            raise Stop(
                f"phone {found[0][0]}: {found[0][1]} entries are to go, and the database has {found[0][2] or 0} there, or other ones; nothing removed",
                "Where rows were deleted in the database, --refill puts them there again",
            )

    def close(self):
        self.link.close()


def columns(count, day, clock, octets):
    """The columns that are read of a position, as COPY wants them. None of them where it does not read."""
    if count == 0:
        return "\\N\t\\N\t\\N\t\\N\t\\N\t\\N\t\\N\t\\N\t\\N\t\\N"
    alarm, status, latitude, longitude, altitude, speed, direction, _ = FIXED.unpack_from(octets)
    moment = "\\N" if clock is None else f"{day} {clock}+08"
    items = items_of(octets) if len(octets) > FIXED.size else None
    mileage = items.get("mileage", "\\N") if items else "\\N"
    mileage = mileage[-1] if isinstance(mileage, list) else mileage
    shown = SHORT(items) if items else "\\N"
    north, east = (-latitude if status & SOUTH else latitude) / 1e6, (-longitude if status & WEST else longitude) / 1e6
    return f"{moment}\t{north}\t{east}\t{altitude}\t{speed / 10}\t{direction}\t{alarm}\t{status}\t{mileage}\t{shown}"
