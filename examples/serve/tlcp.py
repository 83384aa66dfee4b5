"""A small client of TLCP 2.1 over HTTP and over WebSocket, and a feed.

    feed = Feed(8081, adapter=1)
    session = Session(Address("127.0.0.1", 8080))
    session.add(1, ["quote"], ["last", "time"], "MERGE", snapshot="true")
    feed.publish("quote", last="3.04", time="20:00:33")
    session.until(lambda told: told.row(1, 1) == ["3.04", "20:00:33"])

`Told` is what a client knows by the lines that it was told. It decodes every line of the protocol, and raises `Wrong`
where a line can't be right after those before it. `Session` holds the connection, sends requests and binds again. It
doesn't bind by itself.

It stands on Python's standard library alone. docs/SERVE.md describes what is spoken here.
"""

import base64
import collections
import hashlib
import os
import re
import socket
import ssl
import struct
import time
import urllib.parse

VERSION = "TLCP-2.1.0"
COUNTED = {"SUBOK", "SUBCMD", "CONF", "UNSUB", "EOS", "CS", "OV", "U", "MSGDONE", "MSGFAIL"}
ANSWERS = {"REQOK", "REQERR", "ERROR", "CONERR", "WSOK"}
# Comes after a WebSocket's key before it is hashed (RFC 6455, section 1.3).
WEBSOCKET_TEXT = b"258EAFA5-E914-47DA-95CA-C5AB0DC85B11"
PIECE = 65536


class Wrong(Exception):
    """The server said what it may not say here."""


class Refused(Exception):
    """A request was refused by a line of the protocol, or by an HTTP status."""

    def __init__(self, code, message):
        super().__init__(f"{code} {message}")
        self.code = code
        self.message = message


class Closed(Exception):
    """The connection was closed by the server, or lost."""


# Coded fields


def decoded(previous, coded, fields):
    """The row of so many fields that a `U` line tells after the previous row, which is None before the first.

    A value is None for null, else a text.
    """
    row = []
    for token in coded.split("|"):
        left = fields - len(row)
        if left <= 0:
            raise Wrong(f"more than {fields} fields: {coded}")
        run = 1 if token == "" else run_of(token, left)
        if run:
            if previous is None:
                raise Wrong(f"a field is unchanged before there is a row: {coded}")
            row += previous[len(row):len(row) + run]
        elif token == "#":
            row.append(None)
        elif token == "$":
            row.append("")
        else:
            row.append(urllib.parse.unquote_to_bytes(token).decode("utf-8"))
    if len(row) != fields:
        raise Wrong(f"{len(row)} of {fields} fields: {coded}")
    return row


def run_of(token, left):
    """How many fields a token `^n` says are unchanged; 0 where it is no such token."""
    if not token.startswith("^"):
        return 0
    if not re.fullmatch(r"\^[1-9][0-9]{0,8}", token) or int(token[1:]) > left:
        raise Wrong(f"a run that can't be: {token}")
    return int(token[1:])


# What a client knows


class Item:
    """What a client knows of one item of a subscription."""

    def __init__(self):
        self.row = None
        self.keys = {}
        self.updates = 0
        self.lost = 0
        self.cleared = 0
        self.snapshot_over = False


class Subscription:
    """A live subscription: its numbers of items and fields, the places of key and command, and what its items told."""

    def __init__(self, items, fields, key=None, command=None):
        self.fields = fields
        self.key = key
        self.command = command
        self.frequency = None
        self.items = [Item() for _ in range(items)]


class Told:
    """What a client knows by the lines of one session, over all its streams."""

    def __init__(self):
        self.session = None
        self.keepalive = None
        self.bandwidth = None
        self.count = 0
        self.looped = False
        self.end = None
        self.subscriptions = {}

    def row(self, sub, rank):
        """The last row of an item, by its rank from 1 in the subscription; None before there is one."""
        return self.subscriptions[sub].items[rank - 1].row if sub in self.subscriptions else None

    def keys(self, sub, rank):
        """The rows by key of an item in mode COMMAND."""
        return self.subscriptions[sub].items[rank - 1].keys

    def hear(self, line):
        """Takes one line in, and gives its tag."""
        tag, _, rest = line.partition(",")
        if tag in COUNTED:
            self.count += 1
        heard = getattr(self, "_" + tag.lower(), None)
        if heard is not None:
            heard(rest)
        elif tag not in ANSWERS and tag not in ("SERVNAME", "PROBE"):
            raise Wrong(f"an unknown line: {line}")
        return tag

    def _conok(self, rest):
        session, limit, keepalive, link = rest.split(",")
        if (limit, link) != ("50000", "*") or self.session not in (None, session):
            raise Wrong(f"CONOK,{rest}")
        self.session = session
        self.keepalive = int(keepalive)
        self.looped = False

    def _cons(self, rest):
        self.bandwidth = rest

    def _prog(self, rest):
        if int(rest) != self.count:
            raise Wrong(f"PROG,{rest} after {self.count} counted lines")

    def _loop(self, rest):
        if rest != "0":
            raise Wrong(f"LOOP,{rest}")
        self.looped = True

    def _end(self, rest):
        code, _, message = rest.partition(",")
        self.end = (int(code), message)

    def _subok(self, rest):
        sub, items, fields = map(int, rest.split(","))
        self._begin(sub, Subscription(items, fields))

    def _subcmd(self, rest):
        sub, items, fields, key, command = map(int, rest.split(","))
        self._begin(sub, Subscription(items, fields, key - 1, command - 1))

    def _begin(self, sub, subscription):
        if sub in self.subscriptions:
            raise Wrong(f"subscription {sub} begins twice")
        self.subscriptions[sub] = subscription

    def _conf(self, rest):
        sub, frequency, filtering = rest.split(",")
        if filtering not in ("filtered", "unfiltered"):
            raise Wrong(f"CONF,{rest}")
        self._live(int(sub)).frequency = frequency

    def _unsub(self, rest):
        self._live(int(rest))
        del self.subscriptions[int(rest)]

    def _eos(self, rest):
        item = self._item(*rest.split(","))
        if item.snapshot_over:
            raise Wrong(f"a second EOS,{rest}")
        item.snapshot_over = True

    def _cs(self, rest):
        item = self._item(*rest.split(","))
        item.keys = {}
        item.cleared += 1

    def _ov(self, rest):
        sub, rank, lost = rest.split(",")
        self._item(sub, rank).lost += int(lost)

    def _u(self, rest):
        sub, rank, coded = rest.split(",", 2)
        subscription = self._live(int(sub))
        item = self._item(sub, rank)
        item.row = decoded(item.row, coded, subscription.fields)
        item.updates += 1
        if subscription.key is not None:
            self._keyed(item, item.row, subscription.key, subscription.command)

    def _keyed(self, item, row, key_place, command_place):
        key, command = row[key_place], row[command_place]
        known = key in item.keys
        if key is None or command not in ("ADD", "UPDATE", "DELETE") or known != (command != "ADD"):
            raise Wrong(f"{command} of key {key}, which is {'there' if known else 'not there'}")
        if command == "DELETE":
            del item.keys[key]
        else:
            item.keys[key] = row

    def _live(self, sub):
        if sub not in self.subscriptions:
            raise Wrong(f"subscription {sub} isn't live")
        return self.subscriptions[sub]

    def _item(self, sub, rank):
        items = self._live(int(sub)).items
        if not 1 <= int(rank) <= len(items):
            raise Wrong(f"subscription {sub} has no item {rank}")
        return items[int(rank) - 1]


# Connections


class Address:
    """Where clients connect: a host, a port, and whether by TLS."""

    def __init__(self, host, port, tls=False):
        self.host = host
        self.port = port
        self.tls = tls

    def __str__(self):
        return f"{'https' if self.tls else 'http'}://{self.host}:{self.port}"

    def connected(self, timeout, receive_buffer=None):
        """A connected socket."""
        sock = socket.socket()
        sock.settimeout(timeout)
        if receive_buffer is not None:
            sock.setsockopt(socket.SOL_SOCKET, socket.SO_RCVBUF, receive_buffer)
        sock.connect((self.host, self.port))
        sock.setsockopt(socket.IPPROTO_TCP, socket.TCP_NODELAY, 1)
        if self.tls:
            # The certificate is one that was made for the trial.
            context = ssl.SSLContext(ssl.PROTOCOL_TLS_CLIENT)
            context.check_hostname = False
            context.verify_mode = ssl.CERT_NONE
            sock = context.wrap_socket(sock)
        return sock


class Plain:
    """A body that ends with its connection, or after so many bytes."""

    def __init__(self, length=None):
        self.left = length
        self.over = length == 0

    def take(self, data):
        """The bytes of the body among these."""
        if self.left is not None:
            data = data[:self.left]
            self.left -= len(data)
            self.over = self.left == 0
        return data


class Chunked:
    """A body in chunks (RFC 9112, section 7.1). A proxy may make them; the server doesn't."""

    def __init__(self):
        self.rest = b""
        self.left = 0
        self.over = False

    def take(self, data):
        """The bytes of the body among these."""
        self.rest += data
        body = []
        while self.rest and not self.over:
            if self.left > 2:
                piece = self.rest[:self.left - 2]
                body.append(piece)
                self.left -= len(piece)
                self.rest = self.rest[len(piece):]
            elif self.left:
                # The CR LF after a chunk.
                ended = len(self.rest[:self.left])
                self.left -= ended
                self.rest = self.rest[ended:]
            elif b"\r\n" in self.rest:
                size, _, self.rest = self.rest.partition(b"\r\n")
                self.over = int(size, 16) == 0
                self.left = int(size, 16) + 2
            else:
                break
        return b"".join(body)


class Frames:
    """The text messages of a WebSocket. It answers pings."""

    def __init__(self, sock):
        self.sock = sock
        self.rest = b""
        self.over = False

    def take(self, data):
        """The payloads of the messages that end in these bytes."""
        self.rest += data
        payloads = []
        while not self.over:
            frame = self._frame()
            if frame is None:
                break
            kind, payload = frame
            if kind == 0x1:
                if not payload.endswith(b"\r\n") or payload.count(b"\n") != 1:
                    raise Wrong(f"a message that isn't one line: {payload!r}")
                payloads.append(payload)
            elif kind == 0x8:
                self.over = True
            elif kind == 0x9:
                self.sock.sendall(framed(payload, 0xA))
            elif kind != 0xA:
                raise Wrong(f"a frame of kind {kind}")
        return b"".join(payloads)

    def _frame(self):
        rest = self.rest
        if len(rest) < 2:
            return None
        if rest[0] & 0xF0 != 0x80 or rest[1] & 0x80:
            raise Wrong("a frame that isn't final, has reserved bits or is masked")
        length, begin = rest[1], 2
        if length >= 126:
            width = 2 if length == 126 else 8
            if len(rest) < 2 + width:
                return None
            length, begin = int.from_bytes(rest[2:2 + width], "big"), 2 + width
        if len(rest) < begin + length:
            return None
        self.rest = rest[begin + length:]
        return rest[0] & 0x0F, rest[begin:begin + length]


def framed(payload, kind=0x1, masked=True):
    """A final frame of a client (RFC 6455, section 5.2)."""
    flag = 0x80 if masked else 0
    if len(payload) < 126:
        head = bytes([0x80 | kind, flag | len(payload)])
    elif len(payload) < 65536:
        head = bytes([0x80 | kind, flag | 126]) + struct.pack(">H", len(payload))
    else:
        head = bytes([0x80 | kind, flag | 127]) + struct.pack(">Q", len(payload))
    if not masked:
        return head + payload
    mask = os.urandom(4)
    stretched = mask * (len(payload) // 4 + 1)
    return head + mask + bytes(a ^ b for a, b in zip(payload, stretched))


class Lines:
    """The lines that come over a connection, each without its CR LF."""

    def __init__(self, sock, body, first=b""):
        self.sock = sock
        self.body = body
        self.rest = b""
        self.ready = collections.deque()
        self.over = False
        self._take(first)

    def fileno(self):
        return self.sock.fileno()

    def receive(self, most=PIECE):
        """Reads once, at most so many bytes. Lines that are whole are then ready. Raises Closed at the end."""
        try:
            data = self.sock.recv(most)
        except (ConnectionError, ssl.SSLError) as lost:
            self.over = True
            raise Closed(str(lost)) from lost
        if not data:
            self.over = True
            raise Closed("the connection has ended")
        self._take(data)

    def _take(self, data):
        *whole, self.rest = (self.rest + self.body.take(data)).split(b"\n")
        for line in whole:
            if not line.endswith(b"\r"):
                raise Wrong(f"a line without CR: {line!r}")
            self.ready.append(line[:-1].decode("utf-8"))
        self.over = self.over or self.body.over

    def line(self, timeout=20.0):
        """The next line. Raises Closed where there is none any more, TimeoutError where none comes in that many
        seconds."""
        until = time.monotonic() + timeout
        while not self.ready:
            if self.over:
                raise Closed("no line is left")
            self.sock.settimeout(max(0.001, until - time.monotonic()))
            self.receive()
        return self.ready.popleft()

    def close(self, abruptly=False):
        """Closes the connection; abruptly with a reset, so that the server isn't told an end of input."""
        try:
            if abruptly:
                self.sock.setsockopt(socket.SOL_SOCKET, socket.SO_LINGER, struct.pack("ii", 1, 0))
            self.sock.close()
        except OSError:
            pass


def read_head(sock):
    """The status, the fields by their names in lower case, and the bytes after the head."""
    data = b""
    while b"\r\n\r\n" not in data:
        piece = sock.recv(PIECE)
        if not piece:
            raise Closed(f"the connection ended inside a head: {data!r}")
        data += piece
    head, _, rest = data.partition(b"\r\n\r\n")
    first, *lines = head.decode("ascii").split("\r\n")
    fields = {}
    for line in lines:
        name, _, value = line.partition(":")
        fields[name.lower()] = value.strip()
    return int(first.split(" ")[1]), fields, rest


def parameters(pairs):
    """A parameter text. A name gets `LS_` before it where it doesn't begin with it; one whose value is None is left
    out."""
    full = [(name if name.startswith("LS_") else "LS_" + name, value) for name, value in pairs.items()]
    return urllib.parse.urlencode([(name, value) for name, value in full if value is not None])


def post(address, name, body, timeout=20.0, receive_buffer=None):
    """Sends a request over HTTP, and gives the lines of the answer. Raises Refused for a status other than 200."""
    sock = address.connected(timeout, receive_buffer)
    text = body.encode("utf-8")
    head = (f"POST /lightstreamer/{name}.txt?LS_protocol={VERSION} HTTP/1.1\r\n"
            f"Host: {address.host}:{address.port}\r\nContent-Length: {len(text)}\r\n\r\n")
    try:
        sock.sendall(head.encode("ascii") + text)
        status, fields, rest = read_head(sock)
    except (ConnectionError, ssl.SSLError) as lost:
        sock.close()
        raise Closed(str(lost)) from lost
    if status != 200:
        sock.close()
        raise Refused(status, "by HTTP")
    if fields.get("transfer-encoding") == "chunked":
        return Lines(sock, Chunked(), rest)
    length = fields.get("content-length")
    return Lines(sock, Plain(None if length is None else int(length)), rest)


def upgraded(address, timeout=20.0, receive_buffer=None):
    """The lines of a new WebSocket."""
    sock = address.connected(timeout, receive_buffer)
    key = base64.b64encode(os.urandom(16))
    head = (f"GET /lightstreamer HTTP/1.1\r\nHost: {address.host}:{address.port}\r\n"
            "Connection: keep-alive, Upgrade\r\nUpgrade: websocket\r\nSec-WebSocket-Version: 13\r\n"
            f"Sec-WebSocket-Key: {key.decode()}\r\nSec-WebSocket-Protocol: {VERSION}.lightstreamer.com\r\n\r\n")
    sock.sendall(head.encode("ascii"))
    status, fields, rest = read_head(sock)
    if status != 101:
        sock.close()
        raise Refused(status, "by HTTP")
    accepted = base64.b64encode(hashlib.sha1(key + WEBSOCKET_TEXT).digest()).decode()
    if (fields.get("sec-websocket-accept"), fields.get("sec-websocket-protocol")) != \
            (accepted, f"{VERSION}.lightstreamer.com"):
        raise Wrong(f"the reply to an upgrade: {fields}")
    return Lines(sock, Frames(sock), rest)


# Sessions


class Session:
    """A session of a client, and the connection of its stream. Each line that it hears is also handed to `watch`, where
    that is set, with the session."""

    def __init__(self, address, ws=False, receive_buffer=None, **create):
        self.address = address
        self.ws = ws
        self.told = Told()
        self.requests = 0
        self.answers = {}
        self.lines = None
        self.watch = None
        self._stream("create_session", create, receive_buffer)

    def _stream(self, name, pairs, receive_buffer=None):
        """Begins a stream on a new connection, and hears its first line."""
        if self.ws:
            self.lines = upgraded(self.address, receive_buffer=receive_buffer)
            self.lines.sock.sendall(framed(f"{name}\r\n{parameters(pairs)}\r\n".encode()))
        else:
            self.lines = post(self.address, name, parameters(pairs), receive_buffer=receive_buffer)
        first = self.hear()
        if not first.startswith("CONOK,"):
            raise Wrong(f"a stream begins with {first}")

    def hear(self, timeout=20.0):
        """Hears the next line, and gives it. A refusal of the stream raises Refused."""
        return self.heard(self.lines.line(timeout))

    def heard(self, line):
        """Takes in a line that came over the connection."""
        tag = self.told.hear(line)
        if tag == "CONERR":
            _, code, message = line.split(",", 2)
            raise Refused(int(code), message)
        if tag in ("REQOK", "REQERR"):
            self.answers[line.split(",")[1]] = line
        elif tag in ("ERROR", "WSOK"):
            self.answers[tag] = line
        if self.watch is not None:
            self.watch(self, line)
        return line

    def until(self, wanted, timeout=60.0):
        """Hears lines until something is so."""
        ends = time.monotonic() + timeout
        while not wanted(self.told):
            self.hear(max(0.001, ends - time.monotonic()))

    def control(self, op, **pairs):
        """Sends a control request. Raises Refused with its code where it isn't done."""
        self.requests += 1
        request = str(self.requests)
        text = parameters({"reqId": request, "session": self.told.session, "op": op, **pairs})
        if self.ws:
            self.lines.sock.sendall(framed(f"control\r\n{text}\r\n".encode()))
            while request not in self.answers and "ERROR" not in self.answers:
                self.hear()
            answer = self.answers.pop(request, None) or self.answers.pop("ERROR")
        else:
            answer = self.answered(text)
        if answer != f"REQOK,{request}":
            code, message = answer.split(",")[-2:]
            raise Refused(int(code), message)

    def answered(self, text):
        """The answer to a control request over HTTP, on a connection of its own."""
        lines = post(self.address, "control", text)
        answer = lines.line()
        lines.close()
        return answer

    def add(self, sub, items, fields, mode, **pairs):
        """Subscribes."""
        self.control("add", subId=sub, group=" ".join(items), schema=" ".join(fields), mode=mode, **pairs)

    def bind(self, recover=True, receive_buffer=None, **pairs):
        """Binds the session again on a new connection, after the lines that were counted, or after the last one that
        was given."""
        count = self.told.count if recover else None
        self._stream("bind_session", {"session": self.told.session, "recovery_from": count, **pairs}, receive_buffer)
        if recover:
            opening = [self.hear() for _ in range(3)]
            if [line.split(",")[0] for line in opening] != ["SERVNAME", "CONS", "PROG"]:
                raise Wrong(f"a recovered stream begins with {opening}")

    def close(self, abruptly=False):
        self.lines.close(abruptly)


# Feeds


class Feed:
    """A feed's connection. Its seqs rise by one."""

    def __init__(self, port, adapter):
        self.sock = socket.create_connection(("127.0.0.1", port), timeout=20.0)
        self.sock.setsockopt(socket.IPPROTO_TCP, socket.TCP_NODELAY, 1)
        self.sock.sendall(f"feed {adapter}\n".encode())
        self.seq = 0
        self.waiting = 0
        self.rest = b""
        self.ready = collections.deque()

    def send(self, item, event=None, **fields):
        """Publishes without waiting for the reply. The event is a text, or a value for each field: None is null."""
        self.seq += 1
        if event is None:
            event = "&".join(f"{name}={event_value(value)}" for name, value in fields.items())
        self.sock.sendall(f"{item} {self.seq} {event}\n".encode())
        self.waiting += 1

    def reply(self):
        """The reply to the earliest line that has none yet."""
        while not self.ready:
            data = self.sock.recv(PIECE)
            if not data:
                raise Closed("the feed's connection has ended")
            *whole, self.rest = (self.rest + data).split(b"\n")
            self.ready.extend(line.decode("ascii") for line in whole)
        self.waiting -= 1
        return self.ready.popleft()

    def number(self):
        """The number of the earliest event that has no reply yet. Raises Wrong where it was refused."""
        reply = self.reply()
        if not reply.startswith("ok "):
            raise Wrong(f"a feed is told {reply}")
        return int(reply[3:])

    def publish(self, item, event=None, **fields):
        """Publishes, and gives the event's number."""
        self.send(item, event, **fields)
        return self.number()

    def close(self):
        self.sock.close()


def event_value(value):
    """A value in the text of an event."""
    if value is None:
        return "#"
    return urllib.parse.quote(str(value), safe="") or "$"
