"""The server: HTTP on 127.0.0.1 alone, for the page that it sends and for nothing else.

Each path begins with a token that is made at the start, or that the file of --address had before. `Host` has to be this address, which no page of
another name can send; `Origin` and `Sec-Fetch-Site` have to be those of the page itself; what is posted is JSON. So no other page that is open in the
browser can ask for anything. One request may come from elsewhere: a tab that opens the page itself, with the token, as the file of --address does. It
reveals nothing to whoever has opened the tab, since the answer comes into that tab alone.
"""

import errno
import hmac
import json
import re
import secrets
import selectors
import socket
import time
from urllib.parse import parse_qsl

from answers import saved
from loop import Late
from signs import Refused

HEAD_MOST = 16_000          # bytes of a request's first lines
BODY_MOST = 16_000_000
CONNECTIONS_MOST = 32
FIRST_SECONDS, IDLE_SECONDS, SLOW_SECONDS = 5, 60, 20      # for a first head; until a later one begins; for what has begun
STATUSES = {200: "OK", 400: "Bad Request", 403: "Forbidden", 404: "Not Found", 405: "Method Not Allowed", 410: "Gone", 413: "Content Too Large",
            415: "Unsupported Media Type", 431: "Request Header Fields Too Large", 500: "Internal Server Error", 501: "Not Implemented",
            503: "Service Unavailable", 504: "Gateway Timeout", 507: "Insufficient Storage"}
HEADERS = ("Cache-Control: no-store", "X-Content-Type-Options: nosniff", "Referrer-Policy: no-referrer",
           "Cross-Origin-Resource-Policy: same-origin", "Cross-Origin-Opener-Policy: same-origin", "X-Frame-Options: DENY")


class Gone(Exception):
    """The browser has closed the connection, or is too slow."""


class Connection:
    """A connection of a browser, read and written without blocking."""

    def __init__(self, loop, socket_):
        self.loop, self.socket, self.held = loop, socket_, b""
        self.answered = 0
        self.fall_silent()

    def fall_silent(self):
        """No answer is due on this connection now."""
        self.is_silent, self.since = True, time.monotonic()

    async def more(self, seconds):
        try:
            await self.loop.when(self.socket, selectors.EVENT_READ, seconds)
            piece = self.socket.recv(1 << 18)
        except (Late, OSError):
            raise Gone from None
        if not piece:
            raise Gone
        self.held += piece

    async def head(self):
        """The first lines of the next request. Until all of them are there the connection is silent, however slowly they come."""
        until = self.since + (IDLE_SECONDS if self.answered else FIRST_SECONDS)
        while (size := self.held.find(b"\r\n\r\n")) < 0 and len(self.held) <= HEAD_MOST:
            await self.more(max(0, until - time.monotonic()))
        self.is_silent = False
        self.answered += 1
        if not 0 <= size <= HEAD_MOST:
            raise Refused("a request with too long a head", 431)
        head, self.held = self.held[:size], self.held[size + 4:]
        return head.decode("latin-1")

    async def body(self, length):
        pieces, size = [self.held], len(self.held)
        while size < length:
            self.held = b""
            await self.more(SLOW_SECONDS)
            pieces.append(self.held)
            size += len(self.held)
        text = b"".join(pieces)
        self.held = text[length:]
        return text[:length]

    async def send(self, data):
        view = memoryview(data)
        while view:
            try:
                view = view[self.socket.send(view[:1 << 20]):]
            except BlockingIOError:
                try:
                    await self.loop.when(self.socket, selectors.EVENT_WRITE, SLOW_SECONDS)
                except Late:
                    raise Gone from None
            except OSError:
                raise Gone from None

    async def part(self):
        """Ends the connection so that what was sent last gets there: what the browser still sends is read and dropped."""
        try:
            self.socket.shutdown(socket.SHUT_WR)
            for _ in range(200):
                self.held = b""
                await self.more(2)
        except (Gone, OSError):
            pass


def take_first(listener, ports):
    """Takes the first of these ports that is free; 0 is any port that is free."""
    for port in ports:
        try:
            return listener.bind(("127.0.0.1", port))
        except OSError as error:
            if error.errno != errno.EADDRINUSE or port == ports[-1]:
                raise


class Server:
    """Serves the page and the answers to its requests."""

    def __init__(self, loop, port, answers, page, rule, token=None):
        self.loop, self.answers, self.page, self.rule = loop, answers, page, rule
        self.listener = socket.socket(socket.AF_INET, socket.SOCK_STREAM)
        self.listener.setsockopt(socket.SOL_SOCKET, socket.SO_REUSEADDR, 1)
        take_first(self.listener, port)
        self.listener.listen(CONNECTIONS_MOST)
        self.listener.setblocking(False)
        port = self.listener.getsockname()[1]
        self.token = token or secrets.token_hex(12)
        self.hosts = {f"127.0.0.1:{port}", f"localhost:{port}"}
        self.origins = {"http://" + host for host in self.hosts}
        self.address = f"http://127.0.0.1:{port}/{self.token}/"
        self.connections, self.is_listening = set(), False
        self.listen(True)

    def is_full(self):
        return len(self.connections) >= CONNECTIONS_MOST

    def make_room(self, newest=None):
        """If no place is left, ends the connection that has been silent for longest, first among those that were never answered. Until a place is
        free the next ones wait."""
        self.listen(not self.is_full())
        silent = [connection for connection in self.connections if connection.is_silent and connection is not newest]
        if silent and self.is_full():
            oldest = min(silent, key=lambda connection: (connection.answered > 0, connection.since))
            oldest.is_silent = False        # the loop closes it in its turn, and it is not chosen again
            try:
                oldest.socket.shutdown(socket.SHUT_RDWR)
            except OSError:
                pass

    def listen(self, is_on):
        """Goes on with accepting connections, or lets them wait."""
        if is_on and not self.is_listening:
            self.loop.selector.register(self.listener, selectors.EVENT_READ, lambda _: self.accept())
        elif not is_on and self.is_listening:
            self.loop.selector.unregister(self.listener)
        self.is_listening = is_on

    def accept(self):
        try:
            made, _ = self.listener.accept()
        except BlockingIOError:
            return
        except OSError:     # no file can be opened any more: the next one waits for a second
            self.listen(False)
            self.loop.at(time.monotonic() + 1, lambda: self.listen(not self.is_full()))
            return
        made.setblocking(False)
        made.setsockopt(socket.IPPROTO_TCP, socket.TCP_NODELAY, 1)      # else an answer may wait 40 ms for the browser's acknowledgement
        connection = Connection(self.loop, made)
        self.connections.add(connection)
        self.make_room(connection)
        self.loop.start(self.serve(connection))

    async def serve(self, connection):
        try:
            goes_on = True
            while goes_on:
                goes_on = await self.one(connection)
                connection.fall_silent()
                self.make_room()
            await connection.part()
        except Gone:
            pass
        finally:
            connection.socket.close()
            self.connections.discard(connection)
            self.listen(True)

    async def one(self, connection):
        """Answers a request; returns whether another one may follow."""
        goes_on = False
        kind, more, method = "application/json", (), "GET"
        try:
            method, target, headers = parse(await connection.head())
            path, query = self.looked_at(method, target, headers)
            body = await self.body_of(connection, headers) if method == "POST" else b""
            goes_on = headers.get("connection", "").lower() != "close"
            if path == "":
                status, text, kind, more = 200, self.page, "text/html; charset=utf-8", (f"Content-Security-Policy: {self.rule}",)
            elif path == "api/save" and self.answers.saves:
                status, text, kind = 200, saved(self.answers.store.find(query.get("id"))), "application/zip"
                more = ("Content-Disposition: attachment; filename=ibm1620-session.zip",)
            else:
                status, text = 200, as_json(await self.work(path, query, body, method))
        except Refused as why:
            status, text = why.status, as_json({"error": str(why)})
        except Gone:
            raise
        except Exception as error:      # a slip of the console's own is said, and the server goes on
            status, text = 500, as_json({"error": f"the console itself failed: {type(error).__name__}: {error}"})
        lines = [f"HTTP/1.1 {status} {STATUSES[status]}", f"Content-Type: {kind}", f"Content-Length: {len(text)}", *HEADERS, *more]
        lines += [] if goes_on else ["Connection: close"]
        await connection.send(("\r\n".join(lines) + "\r\n\r\n").encode("latin-1") + (b"" if method == "HEAD" else text))
        return goes_on

    def looked_at(self, method, target, headers):
        """The path behind the token, and the query, of a request that comes from our page."""
        if headers.get("host") not in self.hosts:
            raise Refused("this console answers to its own address alone", 403)
        path, _, query = target.partition("?")
        parts = path.split("/")
        is_ours = headers.get("sec-fetch-site", "none") in ("same-origin", "none") or opens_page(method, parts, headers)
        if headers.get("origin", next(iter(self.origins))) not in self.origins or not is_ours:
            raise Refused("a request from another page", 403)
        if len(parts) < 3 or not hmac.compare_digest(parts[1].encode("latin-1"), self.token.encode()):
            raise Refused("not here: use the address that the console has printed at its start", 404)
        if method not in ("GET", "HEAD", "POST"):
            raise Refused("no such request", 405)
        path = "/".join(parts[2:])
        if not re.fullmatch(r"|api/[a-z]+", path) or (method == "POST") != (path in ("api/inputs", "api/act")):
            raise Refused("no such page", 404)
        try:
            return path, dict(parse_qsl(query, max_num_fields=20))
        except ValueError:
            raise Refused("too long a query") from None

    @staticmethod
    async def body_of(connection, headers):
        if "transfer-encoding" in headers:
            raise Refused("a request has its length in front", 501)
        length = headers.get("content-length", "")
        if not re.fullmatch(r"\d{1,12}", length):
            raise Refused("a request has its length in front")
        if int(length) > BODY_MOST:
            raise Refused(f"a request has at most {BODY_MOST:,} bytes", 413)
        if not re.fullmatch(r"application/json(;.*)?", headers.get("content-type", "")):
            raise Refused("a request is JSON", 415)
        if headers.get("expect", "").lower() == "100-continue":
            await connection.send(b"HTTP/1.1 100 Continue\r\n\r\n")
        return await connection.body(int(length))

    async def work(self, path, query, body, method):
        if method != "POST":
            return await self.answers.get(path[4:], query)
        try:
            found = json.loads(body)
        except (ValueError, RecursionError):
            raise Refused("a request is JSON") from None
        if not isinstance(found, dict):
            raise Refused("a request is a table of values in JSON")
        return await self.answers.post(path[4:], found)


def opens_page(method, parts, headers):
    """Whether a browser opens the page itself, as a tab of its own and in no frame."""
    return method == "GET" and len(parts) == 3 and not parts[2] and headers.get("sec-fetch-mode") == "navigate" and \
        headers.get("sec-fetch-dest") == "document"


def as_json(value):
    return json.dumps(value, separators=(",", ":")).encode()


def parse(head):
    """The method, the target and the headers of a request, with their names in small letters."""
    first, *lines = head.split("\r\n")
    found = re.fullmatch(r"([A-Z]{1,10}) (/[!-~]*) HTTP/1\.[01]", first)
    if not found or len(lines) > 100:
        raise Refused("no request of HTTP/1.1")
    headers = {}
    for line in lines:
        name, colon, value = line.partition(":")
        name = name.lower()
        if not colon or not re.fullmatch(r"[!#$%&'*+.^_`|~0-9a-z-]+", name) or name in headers and name in ("host", "origin", "content-length",
                                                                                                            "content-type"):
            raise Refused("a header that is none, or stands there twice")
        headers[name] = value.strip(" \t")
    return found[1], found[2], headers
