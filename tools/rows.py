#!/usr/bin/env python3
"""Follows a running `dewfelt serve` and writes each row that it stores into a file, exactly once. An example of a client.

    tools/rows.py FILE.jsonl --dir DIR [--http 127.0.0.1:8080] [--once]

A line of the file is a row as the interface gives it: {"phone":"013912345678","number":2,"id":"0x0704","body":"001801.."}. Of each
phone the lines stand in the order of their numbers. DIR is the service's folder, of which the token is read (http.read.token, which
may look only, or http.token); --token FILE names another file with a token.

What it has is the last number of each phone in the file, and nothing else: it asks `changes` which phones have a later one, and of
those `rows` from there on. So it may be stopped or killed at any moment and started again; a last line that was cut off is taken out
of the file then, and asked for again. While the service is away it tries again, after 1 second and then up to 30. --once ends as soon
as nothing more is there, or at once where the service does not answer.

The status is 0 with --once; 1 where the service does not answer or refuses (said on standard error); 2 where the words or the file
are wrong. Without --once it runs until it is stopped, or refused.
"""
import contextlib
import fcntl
import http.client
import json
import os
import sys
import time
import urllib.parse

import command_line

API = "/api/v1"
TOKENS = ("http.read.token", "http.token")
PAUSE, LONGEST_PAUSE = 2, 30
# Rows and vehicles of an answer.
MOST_ROWS, MOST_VEHICLES = 1000, 2000
# What may be well again a little later: not ready, too many connections.
BUSY = 503


class Refused(Exception):
    """Why the service does not give what was asked."""


class Away(Refused):
    """Why there is no answer now."""


class Wrong(Exception):
    """Why the file is none that this writes."""


def token_in(folder):
    """The token in a service's folder; that which may look only, where it is there."""
    for name in TOKENS:
        with contextlib.suppress(FileNotFoundError), open(os.path.join(folder, name), encoding="ascii") as file:
            return file.read().strip()
    raise command_line.Mistake(f"{folder} has neither {' nor '.join(TOKENS)}: name the folder of a service with an interface by --dir")


def why(status, body):
    """What a problem's text says (RFC 9457)."""
    try:
        problem = json.loads(body)
        return f"{status} {problem['title']}: {problem['detail']}"
    except (ValueError, KeyError, TypeError):
        return str(status)


class Service:
    """The interface of a running service."""

    def __init__(self, address, token):
        try:
            self.link = http.client.HTTPConnection(address, timeout=30)
        except http.client.InvalidURL as error:
            raise Refused(error) from None
        self.headers = {"Authorization": f"Bearer {token}"}

    def ask(self, path, **query):
        """The headers and the body of an answer."""
        query = {name: value for name, value in query.items() if value is not None}
        try:
            self.link.request("GET", API + path + (f"?{urllib.parse.urlencode(query)}" if query else ""), headers=self.headers)
            answer = self.link.getresponse()
            body = answer.read()
        except (OSError, http.client.HTTPException) as error:
            self.link.close()
            raise Away(f"no answer: {error or type(error).__name__}") from None
        if answer.status == BUSY:
            raise Away(why(BUSY, body))
        if answer.status != 200:
            raise Refused(why(answer.status, body))
        return answer.headers, body

    def vehicles(self):
        """Each registered phone, as an object."""
        after = None
        while True:
            found = json.loads(self.ask("/vehicles", after=after, limit=MOST_VEHICLES)[1])
            yield from found["vehicles"]
            after = found["next"]
            if after is None:
                return

    def changes(self, cursor):
        """The phones that changed behind a cursor with the number of their last row, the next cursor, and whether there are more."""
        found = json.loads(self.ask("/changes", since=cursor, limit=MOST_VEHICLES)[1])
        phone, number = map(found["columns"].index, ("phone", "number"))
        return [(row[phone], row[number]) for row in found["vehicles"]], found["cursor"], found["more"]

    def rows(self, phone, first):
        """The lines of a phone's rows from a number on, in pieces."""
        more = True
        while more:
            headers, body = self.ask(f"/vehicles/{phone}/rows", **{"from": first, "limit": MOST_ROWS})
            yield body
            first, more = int(headers["Dewfelt-Next"]), headers["Dewfelt-More"] == "true"


def named(line):
    """The phone and the number of a line."""
    row = json.loads(line)
    return row["phone"], row["number"]


class Output:
    """The file, and the last number that it has of each phone."""

    def __init__(self, path):
        self.last = {}
        self.file = open(path, "a+b", buffering=0)
        try:
            fcntl.flock(self.file, fcntl.LOCK_EX | fcntl.LOCK_NB)
        except OSError:
            raise Wrong("another process writes it") from None
        self.read()

    def read(self):
        self.file.seek(0)
        whole = 0
        for at, line in enumerate(open(self.file.fileno(), "rb", closefd=False), 1):
            if not line.endswith(b"\n"):
                print(f"rows: line {at} was cut off, and is taken out", file=sys.stderr)
                self.file.truncate(whole)
                break
            whole += len(line)
            try:
                self.note(line)
            except (ValueError, KeyError, TypeError) as error:
                raise Wrong(f"line {at} is no row behind those before it: {error}") from None

    def note(self, line):
        phone, number = named(line)
        if number <= self.last.get(phone, -1):
            raise ValueError(f"row {number} of {phone} behind row {self.last[phone]}")
        self.last[phone] = number

    def add(self, lines):
        """Writes lines. What a write leaves out, or a kill cuts off, is not noted."""
        for line in lines.splitlines(keepends=True):
            self.note(line)
        while lines:
            lines = lines[self.file.write(lines) :]


def take(service, output, cursor):
    """Writes what is new behind a cursor. Gives the next cursor, and whether there is more."""
    changed, cursor, more = service.changes(cursor)
    for phone, number in changed:
        if number is not None and number > output.last.get(phone, -1):
            for lines in service.rows(phone, output.last.get(phone, -1) + 1):
                output.add(lines)
    return cursor, more


def follow(service, output, is_once):
    cursor, pause = None, 1
    while True:
        try:
            cursor, more = take(service, output, cursor)
            pause = 1
        except Away as error:
            if is_once:
                raise Refused(error) from None
            print(f"rows: {error}; again in {pause} s", file=sys.stderr)
            time.sleep(pause)
            pause = min(2 * pause, LONGEST_PAUSE)
            continue
        if not more and is_once:
            return
        if not more:
            time.sleep(PAUSE)


def words():
    asked = command_line.Words(__doc__)
    asked.add_argument("file", metavar="FILE.jsonl")
    token = asked.add_mutually_exclusive_group(required=True)
    token.add_argument("--dir", help="the folder of the service")
    token.add_argument("--token", metavar="FILE", help="a file with a token")
    asked.add_argument("--http", default="127.0.0.1:8080", metavar="ADDRESS:PORT")
    asked.add_argument("--once", action="store_true", help="end when nothing more is there")
    return asked.parse_args()


def main():
    asked = words()
    try:
        token = token_in(asked.dir) if asked.dir else open(asked.token, encoding="ascii").read().strip()
        follow(Service(asked.http, token), Output(asked.file), asked.once)
        return 0
    except (Wrong, OSError) as error:
        print(f"rows: {asked.file}: {error}", file=sys.stderr)
        return 2
    except (Refused, ValueError) as error:
        print(f"rows: {asked.http}: {error}", file=sys.stderr)
        return 1


if __name__ == "__main__":
    command_line.run(main)
