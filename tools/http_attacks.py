#!/usr/bin/python3
"""Sends a running service what an attacker or a broken client would, and compares each answer with the one that is to come:

    tools/http_attacks.py DIR [--http 127.0.0.1:8080] [--only WORD]

DIR is the folder of the service, of which the tokens are read. It prints a line for each attack: what was to come, what came, how
long it took. What is to come is a status, several in a row, or `closed` without one; `|` stands between those that are as good.
Bodies are tried on fences, where the service has them: one is kept, and deleted again. It takes about a minute, most of it slow
requests. The metrics are read by Debian's python3-prometheus-client. The status is 1 where another answer came.
"""
import contextlib
import json
import os
import re
import resource
import secrets
import socket
import stat
import time

import command_line

CONNECTIONS = 1000
# So long a slow request may last, and an idle connection (seconds; the service's 10 and 5, and some more on a busy machine).
SLOW, IDLE = 16, 9
# So long a slow request is gone on with.
WAITED = 25
CLOSED = "closed"


class Target:
    """The service that is attacked."""

    def __init__(self, folder, address):
        self.host, _, port = address.rpartition(":")
        self.address, self.port, self.folder = address, int(port), folder
        self.tokens = {name: self.token(f"http.{file}") for name, file in (("operate", "token"), ("read", "read.token"))}

    def token(self, name):
        with open(os.path.join(self.folder, name), encoding="ascii") as file:
            return file.read().strip()

    def connect(self, seconds=20):
        return socket.create_connection((self.host, self.port), timeout=seconds)

    def head(self, line, *headers, host=None, token="operate", last=True):
        """The octets of a request's head."""
        lines = [line, f"Host: {self.address if host is None else host}"] if host != "" else [line]
        lines += [f"Authorization: Bearer {self.tokens.get(token, token)}"] if token else []
        lines += [*headers, *(["Connection: close"] if last else [])]
        return "\r\n".join(lines).encode("latin-1") + b"\r\n\r\n"

    def send(self, octets, seconds=20):
        """All that comes back, until the service hangs up or has nothing more to say."""
        parts = []
        with self.connect(seconds) as link, contextlib.suppress(OSError):
            link.sendall(octets)
            while part := link.recv(65536):
                parts.append(part)
        return b"".join(parts)

    def get(self, path, token="operate", **more):
        """The status and the body of an answer."""
        answers = list(answers_in(self.send(self.head(f"GET {path} HTTP/1.1", token=token, **more))))
        return answers[0] if answers else (CLOSED, b"")


def answers_in(octets):
    """The statuses and bodies of answers, one behind the other."""
    while found := re.match(rb"HTTP/1\.1 (\d{3}) [^\r\n]*\r\n((?:[^\r\n]+\r\n)*)\r\n", octets):
        length = re.search(rb"(?im)^content-length: *(\d+)", found[2])
        end = found.end() + (int(length[1]) if length else 0)
        yield found[1].decode(), octets[found.end() : end]
        octets = octets[end:]
    if octets:
        yield "no answer of HTTP", octets


def statuses(octets):
    """What came, as the table has it."""
    found = [status for status, _ in answers_in(octets)]
    if len(found) > 1 and len(set(found)) == 1:
        return f"{len(found)} x {found[0]}"
    return " ".join(found) or CLOSED


# ---- the attacks: each a name, what is to come, and what is done

def paths(target):
    for path in ("/api/v1/../healthz", "/api/v1/%2e%2e/healthz", "/../../etc/passwd", "/..%2f..%2fetc/passwd", "/%2e%2e/http.token", "/http.token", "/platform.db",
                 "/api/v1/server/", "/api/v1//server", "/API/v1/server", "/api/v1/%73erver", "/api/v1/server;x=1", "/api/v1/server%00", "/app.js/", "/./app.js",
                 "/api/v1/vehicles/../server", "/api/v1/vehicles/-1", "/api/v1/vehicles/" + "9" * 21, "/api/v1/vehicles/" + "9" * 4000):
        yield f"path {path[:40]}", "404", lambda path=path: target.send(target.head(f"GET {path} HTTP/1.1"))
    for line in ("GET //evil.example/ HTTP/1.1", "GET /api/v1\\server HTTP/1.1"):
        yield line, "400|404", lambda line=line: target.send(target.head(line))
    for line in (f"GET http://{target.address}/healthz HTTP/1.1", "GET http://evil.example/healthz HTTP/1.1", "OPTIONS * HTTP/1.1", "CONNECT evil.example:443 HTTP/1.1", "GET  /healthz HTTP/1.1",
                 "GET /health z HTTP/1.1", "GET /healthz", "GET /\x00 HTTP/1.1", "G\xc4T / HTTP/1.1"):
        yield f"line {line!r}"[:60], "400", lambda line=line: target.send(target.head(line))
    yield "line of version 3.0", "400|505", lambda: target.send(target.head("GET /healthz HTTP/3.0"))
    yield "target of 20,000 octets", "414|431", lambda: target.send(target.head("GET /" + "a" * 20_000 + " HTTP/1.1"))
    for method in ("POST", "PUT", "DELETE", "PATCH", "TRACE", "QUERY"):
        yield f"{method} to vehicles", "405", lambda method=method: target.send(target.head(f"{method} /api/v1/vehicles HTTP/1.1", "Content-Length: 0"))


def bodies(target):
    line = "POST /api/v1/vehicles HTTP/1.1"
    yield "body of 65,537 octets", "413", lambda: target.send(target.head(line, "Content-Length: 65537") + b"x" * 65537)
    yield "body said to have 10^18 octets", "413", lambda: target.send(target.head(line, "Content-Length: 1000000000000000000"))
    yield "body said to have 10^40 octets", "400|413", lambda: target.send(target.head(line, "Content-Length: 1" + "0" * 40))
    yield "chunks above the limit", "413", lambda: target.send(target.head(line, "Transfer-Encoding: chunked") + (b"4000\r\n" + b"x" * 0x4000 + b"\r\n") * 5 + b"0\r\n\r\n")
    yield "a chunk said to have 2^64 octets", "400|413", lambda: target.send(target.head(line, "Transfer-Encoding: chunked") + b"10000000000000000\r\n")
    for length in ("-1", "+5", "0x5", "5 5", "5,6", ""):
        yield f"Content-Length: {length}", "400", lambda length=length: target.send(target.head(line, f"Content-Length: {length}") + b"12345")
    yield "two lengths", "400", lambda: target.send(target.head(line, "Content-Length: 5", "Content-Length: 6") + b"123456")
    yield "a length and chunks", "400", lambda: target.send(target.head(line, "Content-Length: 5", "Transfer-Encoding: chunked") + b"0\r\n\r\n")
    yield "an encoding that is none", "400|501", lambda: target.send(target.head(line, "Transfer-Encoding: gzip, chunked, x") + b"0\r\n\r\n")
    inner = target.head("GET /metrics HTTP/1.1")
    yield "a request within a body", "405 200", lambda: target.send(target.head(line, f"Content-Length: {len(inner)}", last=False) + inner + target.head("GET /healthz HTTP/1.1"))


def heads(target):
    many = [f"X-{number}: 1" for number in range(200)]
    yield "200 headers", "431", lambda: target.send(target.head("GET /healthz HTTP/1.1", *many))
    yield "a header of 20,000 octets", "431", lambda: target.send(target.head("GET /healthz HTTP/1.1", "X: " + "x" * 20_000))
    yield "a header line without an end", "431", lambda: target.send(b"GET /healthz HTTP/1.1\r\nX: " + b"x" * 1_000_000)
    for name, header in (("a space before the colon", "X : 1"), ("a folded header", "X: 1\r\n 2"), ("a NUL in a header", "X: \0"), ("a header without a name", ": 1")):
        yield name, "400", lambda header=header: target.send(target.head("GET /healthz HTTP/1.1", header))
    yield "a million octets by chance", "400|431", lambda: target.send(secrets.token_bytes(1_000_000))
    yield "the start of TLS", f"400|{CLOSED}", lambda: target.send(bytes.fromhex("160301020001000001fc0303") + secrets.token_bytes(500))


def pipelines(target):
    ask = target.head("GET /healthz HTTP/1.1", last=False)
    yield "100 requests at once", "100 x 200", lambda: target.send(ask * 99 + target.head("GET /healthz HTTP/1.1"))
    yield "a request behind a close", "200", lambda: target.send(target.head("GET /healthz HTTP/1.1") * 2)
    yield "a request behind a wrong one", "400", lambda: target.send(target.head("GET /health z HTTP/1.1") + ask)

    def unread():
        """Asks for 10,000 lists of vehicles and reads none; others are answered meanwhile."""
        with target.connect(3) as link, contextlib.suppress(OSError):
            link.setsockopt(socket.SOL_SOCKET, socket.SO_RCVBUF, 4096)
            link.sendall(target.head("GET /api/v1/vehicles HTTP/1.1", last=False) * 10_000)
        return target.send(target.head("GET /healthz HTTP/1.1"), 5)
    yield "answers that nobody reads", "200", unread


def slow(target):
    def octet_a_second():
        began = time.monotonic()
        with target.connect(30) as link, contextlib.suppress(OSError):
            for octet in target.head("GET /healthz HTTP/1.1")[:WAITED]:
                link.sendall(bytes([octet]))
                time.sleep(1)
        return said_after(time.monotonic() - began, SLOW)

    def idle():
        began = time.monotonic()
        octets = target.send(b"", 30)
        return octets or said_after(time.monotonic() - began, IDLE)

    def body_a_second():
        began = time.monotonic()
        with target.connect(30) as link, contextlib.suppress(OSError):
            link.sendall(target.head("POST /api/v1/vehicles HTTP/1.1", "Content-Length: 60000"))
            while time.monotonic() - began < WAITED:
                link.sendall(b"x")
                time.sleep(1)
        return said_after(time.monotonic() - began, SLOW)

    yield "an octet a second", CLOSED, octet_a_second
    yield "a body of an octet a second", CLOSED, body_a_second
    yield "a connection that says nothing", CLOSED, idle


def said_after(seconds, most):
    return b"" if seconds < most else f"still open after {seconds:.0f} s".encode()


def who(target):
    def server(**more):
        return lambda: target.send(target.head("GET /api/v1/server HTTP/1.1", **more))
    for host in ("evil.example", f"evil.example:{target.port}", target.host, f"{target.address}.evil.example", "[::1]"):
        yield f"Host: {host}", "400|421" if host.startswith(target.address) else "421", server(host=host)
    yield "the page by another host", "421", lambda: target.send(target.head("GET / HTTP/1.1", token=None, host="evil.example"))
    yield "health by another host", "421", lambda: target.send(target.head("GET /healthz HTTP/1.1", token=None, host="evil.example"))
    yield "no Host", "400|421", server(host="")
    for header in (f"Host: {target.address}", "Host: evil.example"):
        yield f"a second {header}"[:40], "400", lambda header=header: target.send(target.head("GET /api/v1/server HTTP/1.1", header))
    for origin in ("http://evil.example", "null", f"http://{target.address}.evil.example", f"https://{target.host}:1"):
        yield f"Origin: {origin}", "403", lambda origin=origin: target.send(target.head("GET /api/v1/server HTTP/1.1", f"Origin: {origin}"))
    good = target.tokens["operate"]
    for name, token in (("no token", None), ("the token of another run", secrets.token_hex(32)), ("an empty token", " "), ("a token cut off", good[:-1]), ("a token and more", good + "0"), ("the token in capitals", good.upper())):
        yield name, "401", server(token=token)
    for name, headers in (("by a cookie", (f"Cookie: token={good}",)), ("as Basic", (f"Authorization: Basic {good}",)), ("as bearer in small letters", (f"Authorization: bearer {good}",))):
        yield f"the token {name}", "401", lambda headers=headers: target.send(target.head("GET /api/v1/server HTTP/1.1", *headers, token=None))
    yield "the token in the query", "401", lambda: target.send(target.head(f"GET /api/v1/server?token={good} HTTP/1.1", token=None))
    yield "metrics without a token", "401", lambda: target.send(target.head("GET /metrics HTTP/1.1", token=None))
    yield "a path that is none, without a token", "401", lambda: target.send(target.head("GET /api/v1/nothing HTTP/1.1", token=None))
    for name in ("http.token", "http.read.token"):
        yield f"others may read {name}", "no", lambda name=name: b"yes" if stat.S_IMODE(os.stat(os.path.join(target.folder, name)).st_mode) & 0o077 else b"no"


def queries(target):
    for query in ("limit=0", "limit=2001", "limit=-1", "limit=1e3", "limit=" + "9" * 30, "limit=1&limit=1", "since=x", "since=%00", "since=" + "f" * 200, "x=1", "limit"):
        yield f"changes?{query[:30]}", "400", lambda query=query: target.send(target.head(f"GET /api/v1/changes?{query} HTTP/1.1"))


def fences(target):
    tag = re.search(rb"(?im)^etag: *(.*?)\r", target.send(target.head("GET /api/v1/fences HTTP/1.1")))[1].decode()
    ring = [[1, 1], [2, 1], [2, 2], [1, 1]]

    def put(body, *more, token="operate", tag=tag):
        body = body if isinstance(body, bytes) else json.dumps(body).encode()
        more = [*more, *([f"If-Match: {tag}"] if tag else [])]
        return lambda: target.send(target.head("PUT /api/v1/fences/999999 HTTP/1.1", "Content-Type: application/geo+json", f"Content-Length: {len(body)}", *more, token=token) + body)

    def fence(**more):
        return {"type": "Feature", "properties": {"name": "x"}, "geometry": {"type": "Polygon", "coordinates": [ring]}, **more}
    yield "no JSON", "400", put(b"{")
    yield "JSON and more", "400", put(json.dumps(fence()).encode() + b"x")
    yield "a key twice", "400", put(b'{"type":"Feature","type":"Feature"}')
    yield "10,000 brackets", "400", put(b"[" * 10_000)
    yield "no UTF-8", "400", put(b'{"type":"\xff"}')
    yield "half a surrogate", "400|422", put(b'{"type":"Feature","properties":{"name":"\\ud800"}}')
    yield "no Feature", "422", put({"type": "x"})
    yield "a ring of 300 corners", "422", put(fence(geometry={"type": "Polygon", "coordinates": [[[1 + at / 1000, 1] for at in range(300)]]}))
    yield "a corner of 10^400", "400|422", put(json.dumps(fence()).replace("[1, 1]", "[1e400, 1]").encode())
    yield "a fence with the reading token", "403", put(fence(), token="read")
    yield "a fence without If-Match", "428", put(fence(), tag=None)
    yield "a fence from another page", "403", put(fence(), "Origin: http://evil.example")
    yield "another type of content", "415", lambda: target.send(target.head("PUT /api/v1/fences/999999 HTTP/1.1", "Content-Type: text/plain", f"If-Match: {tag}", "Content-Length: 2") + b"{}")
    yield "a fence named as markup", "1 name as it was", lambda: markup(target, put, fence, tag)


def markup(target, put, fence, tag):
    """Keeps a fence whose name is markup, reads it, and deletes it."""
    name = '<img src=x onerror=alert(1)>"\\u2028'
    kept = put(fence(properties={"name": name}))()
    found = [it for it in json.loads(target.get("/api/v1/fences")[1])["features"] if it["properties"]["name"] == name]
    tag = re.search(rb"(?im)^etag: *(.*?)\r", kept)[1].decode()
    target.send(target.head("DELETE /api/v1/fences/999999 HTTP/1.1", f"If-Match: {tag}"))
    return f"{len(found)} name as it was".encode()


def connections(target):
    def many():
        """1,000 connections that say nothing; then one that asks, a while after they are gone."""
        links = []
        with contextlib.suppress(OSError):
            for _ in range(CONNECTIONS):
                links.append(target.connect(5))
        full = statuses(target.send(target.head("GET /healthz HTTP/1.1"), 8))
        for link in links:
            link.close()
        if full not in ("503", "200", CLOSED):
            return f"{full} while {len(links)} are open".encode()
        until = time.monotonic() + 10
        while time.monotonic() < until:
            if target.get("/healthz")[0] == "200":
                return b"HTTP/1.1 200 OK\r\n\r\n"
            time.sleep(0.2)
        return b"no answer for 10 s behind them"
    yield f"{CONNECTIONS} connections", "200", many


def metrics(target):
    def read():
        from prometheus_client.parser import text_string_to_metric_families
        families = {it.name: it for it in text_string_to_metric_families(target.get("/metrics", token="read")[1].decode())}
        vehicles = json.loads(target.get("/api/v1/server")[1])["vehicles"]
        return b"as the server says" if families["dewfelt_vehicles"].samples[0].value == vehicles else b"other"
    yield "metrics, read by prometheus_client", "as the server says", read


def took(attack):
    began = time.monotonic()
    try:
        octets = attack()
    except Exception as error:
        return f"{type(error).__name__}: {error}", time.monotonic() - began
    text = octets.decode("latin-1").split("\n")[0]
    return text if text and not text.startswith("HTTP/") else statuses(octets), time.monotonic() - began


def main():
    asked = command_line.Words(__doc__)
    asked.add_argument("dir", metavar="DIR", type=command_line.folder)
    asked.add_argument("--http", type=command_line.address, default="127.0.0.1:8080", metavar="ADDRESS:PORT")
    asked.add_argument("--only", default="", help="attacks with this word in their names")
    asked = asked.parse_args()
    command_line.want_module("prometheus_client", "python3-prometheus-client")
    resource.setrlimit(resource.RLIMIT_NOFILE, (min(4096, resource.getrlimit(resource.RLIMIT_NOFILE)[1]),) * 2)
    target, other, count = Target(asked.dir, asked.http), 0, 0
    try:
        has = json.loads(target.get("/api/v1/server")[1])["has"]
    except (OSError, ValueError, KeyError) as why:
        raise command_line.Mistake(f"no service of {asked.dir} answers at {asked.http} ({why}): start it, or name its address by --http") from None
    groups = [paths, bodies, heads, pipelines, who, queries, *([fences] if "fences" in has else []), slow, connections, metrics]
    print(f"{'attack':45} {'to come':20} {'came':20} seconds")
    for group in groups:
        for name, wanted, attack in group(target):
            if asked.only not in name:
                continue
            came, seconds = took(attack)
            is_so = came in wanted.split("|")
            other, count = other + (not is_so), count + 1
            print(f"{name[:45]:45} {wanted:20} {came[:60]:20} {seconds:.2f}{'' if is_so else '  <-- another'}", flush=True)
    print(f"attacks={count} other={other}")
    return 1 if other else 0


if __name__ == "__main__":
    command_line.run(main)
