"""A folder of SQLite files, one a month, as a target of tools/archive.py. They have the form of a platform's file."""
import os
import sqlite3

from archive_rows import Stop, Unit, digits_of

MAKE = """CREATE TABLE IF NOT EXISTS meta (version INTEGER);
CREATE TABLE IF NOT EXISTS rows808 (phone BLOB, number INTEGER, id INTEGER, body BLOB, PRIMARY KEY (phone, number));
INSERT INTO meta (version) SELECT 2 WHERE NOT EXISTS (SELECT 1 FROM meta)"""
MARKS = "CREATE TABLE IF NOT EXISTS mark (phone BLOB PRIMARY KEY, number INTEGER, sum TEXT)"
ADD = "INSERT INTO rows808 VALUES (?, ?, ?, ?) ON CONFLICT DO NOTHING"
MARK = """INSERT INTO mark VALUES (?, ?, ?) ON CONFLICT (phone) DO UPDATE SET number = excluded.number, sum = excluded.sum
WHERE number < excluded.number"""
BETWEEN = "SELECT number, id, body FROM rows808 WHERE phone = ? AND number >= ? AND number < ?"
SAME = "SELECT 1 FROM rows808 WHERE (phone, number, id, body) = (?, ?, ?, ?)"


def sync(path):
    """Has what stands in a file, or the names of a folder, written to the disk."""
    if os.path.exists(path):
        file = os.open(path, os.O_RDONLY)
        try:
            os.fsync(file)
        finally:
            os.close(file)


class Folder:
    def __init__(self, folder, name, may_write=True):
        self.folder, self.name, self.bases, self.may_write = folder, name, {}, may_write
        if may_write:
            os.makedirs(folder, exist_ok=True)
            sync(os.path.dirname(os.path.abspath(folder)))

    def __str__(self):
        return f"the folder {self.folder}"

    def path(self, part):
        return os.path.join(self.folder, f"{self.name}-{part}.db")

    def base(self, part):
        """The file of a month, or that of the marks."""
        if part not in self.bases:
            base = sqlite3.connect(self.path(part), isolation_level=None, timeout=5)
            base.execute("PRAGMA synchronous = FULL")
            base.executescript(f"BEGIN; {MARKS if part == 'marks' else MAKE}; COMMIT")
            sync(self.folder)
            self.bases[part] = base
        return self.bases[part]

    def marks(self):
        """Of each phone the number of the last row that stands here, and the sum of it."""
        if not self.may_write and not os.path.exists(self.path("marks")):
            return {}
        return {digits_of(phone): (number, int(total)) for phone, number, total in self.base("marks").execute("SELECT phone, number, sum FROM mark")}

    def put(self, rows):
        """Puts rows of (phone, number, message, body) in, in order. The marks are behind what stands, never before it."""
        months, marks = {}, {}
        for row in rows:
            unit = Unit(*row[1:])
            months.setdefault(unit.month(), []).append(row)
            marks[row[0]] = unit
        for month, some in sorted(months.items()):
            self.add(self.base(month), some)
        base = self.base("marks")
        base.execute("BEGIN IMMEDIATE")
        base.executemany(MARK, [(phone, unit.number, str(unit.sum())) for phone, unit in sorted(marks.items())])
        base.execute("COMMIT")

    def add(self, base, rows):
        base.execute("BEGIN IMMEDIATE")
        if base.executemany(ADD, rows).rowcount != len(rows):
            for row in rows:
                if base.execute(SAME, row).fetchone() is None:
                    base.execute("ROLLBACK")
                    raise Stop(
                        f"row {row[1]} of phone {digits_of(row[0])} stands in {self} with other octets",
                        "This is another file, or an older copy of it: give it a name of its own by --name",
                    )
        base.execute("COMMIT")

    def verify(self, plans):
        """Whether the rows of these plans stand here as in the file, by counts and sums."""
        for plan in plans:
            count = total = 0
            for month in plan.months:
                for row in self.base(month).execute(BETWEEN, (plan.phone, plan.first, plan.cut)):
                    unit = Unit(*row)
                    count += len(unit.entries)
                    total += unit.sum()
            if (count, total) != (plan.entries, plan.sum):
                raise Stop(
                    f"phone {digits_of(plan.phone)}: {plan.entries} entries are to go, and {self} has {count} there, or other ones; nothing removed",
                    "Where one of its files was lost, --refill puts its rows there again",
                )

    def close(self):
        for base in self.bases.values():
            base.close()
