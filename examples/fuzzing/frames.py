"""Frames and messages over WebSockets: what is answered, and what comes on the streams, by docs/SERVE.md ("Clients over
WebSocket") and RFC 6455."""

import collections
import time
from concurrent.futures import ThreadPoolExecutor

import asked as requests
import lanes
from codes import MOST_SESSIONS
from heads import upgrade_reply
from served import World
from trying import Differs, HANG, PIECE, connected, send, serving

# A case is a message.
CASES_OF_UNIT = 1000
LANES = 8
LONGEST_MESSAGE = 50000
LONGEST_FRAME = 16 * 2 ** 20
TEXT, BINARY, CLOSE, PING, PONG = 1, 2, 8, 9, 10
MALFORMED = "ERROR,65,Malformed request"
ANSWERS = ("REQOK", "REQERR", "ERROR", "CONERR", "WSOK")
KEY = b"dGhlIHNhbXBsZSBub25jZQ=="
UPGRADE = (b"GET /lightstreamer HTTP/1.1\r\nHost: localhost\r\nConnection: Upgrade\r\nUpgrade: websocket\r\n"
           b"Sec-WebSocket-Version: 13\r\nSec-WebSocket-Key: " + KEY + b"\r\n"
           b"Sec-WebSocket-Protocol: TLCP-2.1.0.lightstreamer.com\r\n\r\n")


# The rules of frames


def unmasked(payload, mask):
    size = len(payload)
    stretched = (mask * (size // 4 + 1))[:size]
    return (int.from_bytes(payload, "big") ^ int.from_bytes(stretched, "big")).to_bytes(size, "big")


class Reader:
    """What a server reads of the bytes that a client sends: messages and pings, up to what ends the connection. `ended`
    says whether that came, and `must_end` whether it came whole. RFC 6455 forbids what came at `may_end`, but a server
    may go on."""

    def __init__(self, data):
        self.data, self.at = data, 0
        self.read = []
        self.begun, self.kind = None, None
        self.ended = self.must_end = False
        self.may_end = None
        while not self.ended and self._frame():
            pass

    def _frame(self):
        """Reads one frame, if it is whole."""
        head = self.data[self.at:self.at + 10]
        if len(head) < 2:
            return False
        width = {126: 2, 127: 8}.get(head[1] & 127, 0)
        size = int.from_bytes(head[2:2 + width], "big") if width else head[1] & 127
        begin = self.at + 2 + width + 4
        is_whole = len(head) >= 2 + width and len(self.data) >= begin + size
        if self._is_wrong(head, len(head) >= 2 + width, size):
            self.ended, self.must_end = True, is_whole
        if self.ended or not is_whole:
            return False
        if width and size < (126 if width == 2 else 65536) and self.may_end is None:
            self.may_end = len(self.read)
        payload = unmasked(self.data[begin:begin + size], self.data[begin - 4:begin])
        self.at = begin + size
        self._take(head[0] & 15, head[0] & 0x80, payload)
        return True

    def _is_wrong(self, head, has_size, size):
        """Whether a frame's head is one that ends the connection."""
        kind, is_last = head[0] & 15, head[0] & 0x80
        if head[0] & 0x70 or not head[1] & 0x80 or kind not in (0, TEXT, BINARY, CLOSE, PING, PONG):
            return True
        if kind >= CLOSE:
            return not is_last or head[1] & 127 > 125
        return (kind == 0) == (self.begun is None) or has_size and size > LONGEST_FRAME

    def _take(self, kind, is_last, payload):
        if kind == CLOSE:
            self.ended = self.must_end = True
        elif kind in (PING, PONG):
            self.read += [(PING, payload)] if kind == PING else []
        else:
            if kind:
                self.begun, self.kind = b"", kind
            self.begun += payload
            if is_last:
                self._message(self.begun)
                self.begun = None
            elif self.kind == TEXT and not may_be_text(self.begun) and self.may_end is None:
                self.may_end = len(self.read)

    def _message(self, payload):
        if self.kind == TEXT:
            try:
                payload.decode("utf-8")
            except UnicodeDecodeError:
                self.ended = self.must_end = True
                return
        self.read.append((self.kind, payload))


def may_be_text(data):
    """Whether bytes may be the beginning of a text."""
    try:
        data.decode("utf-8")
        return True
    except UnicodeDecodeError as error:
        return error.reason == "unexpected end of data"


def requests_of(kind, payload):
    """The requests of a message, as they are read; None for one that is answered as malformed."""
    if kind == BINARY or len(payload) > LONGEST_MESSAGE:
        return [None]
    first, *rest = payload.split(b"\n")
    lines = [without_cr(line) for line in rest[:-1]] + rest[-1:]
    name = without_cr(first) if rest else first
    full = [line for line in lines if line]
    if name == b"control" and full:
        return [requests.read("ws", name, line) for line in full]
    return [requests.read("ws", name, lines[0] if lines else b"")]


def without_cr(line):
    return line[:-1] if line.endswith(b"\r") else line


# A connection


class Connection:
    """A WebSocket, and what has still to come on it: answers to requests, pongs, and lines of streams."""

    def __init__(self, port, world, told, draw):
        self.world, self.told, self.draw = world, told, draw
        self.sock = connected(port)
        self.sent, self.rest = b"", b""
        self.is_open, self.has_upgraded, self.was_reset = True, False, False
        self.waiting = collections.deque()
        self.pings = collections.deque()
        self.stream = None
        self.unbegun = collections.deque()
        self.own = None

    def write(self, data):
        self.sent += data
        is_gone = send(self.sock, self.draw.pieces(data), False, self.draw.choice([0, 0, 0, 0, 0.002]))
        self.was_reset = self.was_reset or is_gone

    def expect(self, reader):
        """What was read by the server of what was sent has its answers."""
        for kind, payload in reader:
            if kind == PING:
                self.pings.append(payload)
            else:
                self.waiting.extend(requests_of(kind, payload))

    def hear_until(self, done):
        """Reads until something is so, or the connection has ended."""
        until = time.monotonic() + HANG
        try:
            while self.is_open and not done():
                self.sock.settimeout(max(0.01, until - time.monotonic()))
                self._receive()
        except TimeoutError as late:
            got = f"nothing in {HANG} s after {self.rest!r}"
            raise Differs("frames", self.sent, self._missing(), got) from late
        except ValueError as wrong:
            raise Differs("frames", self.sent, "lines of the rules", str(wrong)) from wrong

    def _missing(self):
        session = self.stream and self.stream.session
        return (f"answers to {list(self.waiting)[:2]}, pongs {list(self.pings)[:2]}, streams {len(self.unbegun)}, "
                f"lines {session and (session.owed, session.asked_lines, session.end)}")

    def _receive(self):
        try:
            data = self.sock.recv(PIECE)
        except ConnectionError:
            data, self.was_reset = b"", True
        if not data:
            self.is_open = False
            return
        self.rest += data
        if not self.has_upgraded:
            self._upgrade()
        while self.has_upgraded and (frame := self._frame()) is not None:
            self._heard(*frame)

    def _upgrade(self):
        wanted = upgrade_reply(KEY)
        if len(self.rest) >= len(wanted):
            if not self.rest.startswith(wanted):
                raise ValueError(self.rest[:len(wanted)])
            self.rest, self.has_upgraded = self.rest[len(wanted):], True

    def _frame(self):
        """The kind and the payload of the next frame of the server's, which is final and unmasked."""
        if len(self.rest) < 2:
            return None
        width = {126: 2, 127: 8}.get(self.rest[1], 0)
        size = int.from_bytes(self.rest[2:2 + width], "big") if width else self.rest[1]
        if self.rest[0] not in (0x80 | TEXT, 0x80 | CLOSE, 0x80 | PONG) or self.rest[1] & 0x80:
            raise ValueError(f"a frame {self.rest[:10]!r}")
        end = 2 + width + size
        if len(self.rest) < end:
            return None
        payload, kind = self.rest[2 + width:end], self.rest[0] & 15
        self.rest = self.rest[end:]
        return kind, payload

    def _heard(self, kind, payload):
        if kind == PONG:
            # Only the last of some pings need be answered.
            while self.pings and self.pings[0] != payload:
                self.pings.popleft()
            if not self.pings:
                raise ValueError(f"a pong {payload!r}")
            self.pings.popleft()
        elif kind == TEXT:
            line = payload.decode("ascii")
            if not line.endswith("\r\n") or "\n" in line[:-1]:
                raise ValueError(f"a message {payload!r}")
            self._line(line[:-2])

    def _line(self, line):
        if line.split(",")[0] in ANSWERS:
            self._answer(line)
            return
        if line.startswith("CONOK,"):
            while self.waiting and not self.unbegun:
                self._accept()
            self.stream = self.unbegun.popleft()
            while self.unbegun and self.stream.is_over:
                self.stream = self.unbegun.popleft()
        elif self.unbegun and self.unbegun[-1].session.end:
            self.stream = self.unbegun.pop()
        if self.stream is None or self.stream.is_over:
            raise ValueError(f"{line} without a stream")
        self.stream.hear(line)

    def _accept(self):
        """The next request that waits has opened a stream."""
        asked = self.waiting.popleft()
        if asked is None or asked.name not in ("create_session", "bind_session") or 0 not in self.world.allowed(asked):
            raise ValueError(f"a stream for {asked}")
        stream = self.world.open(asked, True)
        if self.own is not None and self.own is not stream.session:
            self.own.free()
        self.own = stream.session
        self.unbegun.append(stream)
        self.told["streams"] += 1

    def _answer(self, line):
        while self.waiting and self.waiting[0] is not None and self._may_open(self.waiting[0], line):
            self._accept()
        if not self.waiting:
            raise ValueError(f"{line} to no request")
        asked = self.waiting.popleft()
        if asked is None:
            if line != MALFORMED:
                raise ValueError(f"{line} for {MALFORMED}")
            self.told["code 65"] += 1
        else:
            self.told[self.world.answer(asked, self.own, line)] += 1

    def _may_open(self, asked, line):
        """Whether a request has opened a stream, since a line that comes isn't its answer."""
        if asked.name not in ("create_session", "bind_session"):
            return False
        codes = self.world.allowed(asked)
        return 0 in codes and line not in [requests.refused(asked, code) for code in codes if code]

    def is_answered(self):
        return not self.waiting and not self.pings and not self.unbegun

    def is_quiet(self):
        return self.is_answered() and (self.own is None or self.own.is_quiet())

    def end(self, reader):
        """Hears the connection to its end, and looks whether all came before that. Gives whether the lane still knows
        what the server has."""
        self.hear_until(lambda: False)
        self.sock.close()
        knows = reader.may_end is None
        try:
            while knows and self.waiting:
                knows = self._unanswered()
        except ValueError as wrong:
            raise Differs("frames", self.sent, "all answers before the end", str(wrong)) from wrong
        for session in self.world.sessions:
            session.free(lost=True)
        return knows

    def _unanswered(self):
        """A request was read, and no answer came: it opened a stream, or a reset kept the answer away. Gives whether it
        is known what was done."""
        asked = self.waiting[0]
        allowed = {65} if asked is None else self.world.allowed(asked, self.own)
        opens = asked is not None and asked.name in ("create_session", "bind_session") and 0 in allowed
        if opens:
            self._accept()
        elif not self.was_reset:
            raise ValueError(f"no answer to {asked}")
        else:
            self.waiting.popleft()
            if allowed == {0} and asked.name == "control":
                self.world.do(self.world.named(asked, self.own), asked)
        return len(allowed) == 1


# What is drawn

NAMES = [b"wsok", b"wsok", b"msg", b"heartbeat", b"Control", b" control", b"control ", b"", b"create_session.txt",
         "\u00e9".encode()]


def drawn_message(draw, facts, number):
    """A kind and a payload. A connection without a session asks for one more often."""
    opens = 1 if facts.own else 10
    way = draw.by_weight({"control": 60, "bind_session": 6 * opens, "create_session": 4 * opens, "other": 6, "odd": 6})
    end = draw.choice([b"\r\n", b"\n"])
    if way == "control":
        many = draw.choice([1, 1, 1, 2, 6])
        lines = [lanes.drawn(draw, facts, b"r%d" % (100 * number + line)) for line in range(many)]
        if draw.chance(0.05):
            lines.insert(draw.randint(0, len(lines)), draw.choice([b"", b"\r", b" ", b"&"]))
        payload = b"control" + end + end.join(lines) + draw.choice([b"", end])
    elif way == "other":
        payload = draw.choice(NAMES) + draw.choice([b"", end, end + b"a=1" + end, end + b"a&a", b"\r"])
    elif way == "odd":
        return odd_message(draw)
    else:
        payload = way.encode() + draw.choice([end, end * 2, b"", end]) + draw.form(draw.opening(facts, way.encode()))
    return (TEXT, draw.mutated(payload, 1)) if draw.chance(0.03) else (TEXT, payload)


def odd_message(draw):
    text = b"control\nLS_reqId=1&x="
    size = LONGEST_MESSAGE - len(text) + draw.randint(0, 1)
    return draw.choice([(BINARY, b"wsok"), (BINARY, b""), (TEXT, b""), (TEXT, b"\n"), (TEXT, b"control"),
                        (TEXT, b"control\r\n\r\n\n"), (TEXT, b"wsok\r"), (TEXT, text + b"y" * size),
                        (BINARY, b"z" * 70000)])


def frame(draw, kind, payload, is_last=True):
    size = len(payload)
    mask = draw.choice([draw.randbytes(4), bytes(4)])
    head = bytes([(0x80 if is_last else 0) | kind])
    if size < 126:
        head += bytes([0x80 | size])
    else:
        head += bytes([0xfe]) + size.to_bytes(2, "big") if size < 65536 else bytes([0xff]) + size.to_bytes(8, "big")
    return head + mask + unmasked(payload, mask)


def frames_of(draw, kind, payload):
    """The frames of a message, perhaps in fragments, and with pings and pongs between them."""
    pieces = draw.pieces(payload) if draw.chance(0.3) else [payload]
    data = b""
    for number, piece in enumerate(pieces):
        data += frame(draw, 0 if number else kind, piece, number == len(pieces) - 1)
        if draw.chance(0.04):
            data += frame(draw, draw.choice([PING, PING, PONG]), draw.randbytes(draw.choice([0, 1, 4, 125])))
    return data


def ending(draw, data):
    """These bytes, and some that end the connection, or may."""
    way = draw.randrange(12)
    if way < 3:
        code = draw.choice([1000, 1001, 999, 1005, 1015, 3000, 5000]).to_bytes(2, "big")
        return data + frame(draw, CLOSE, draw.choice([b"", code, b"\x03", code + b"bye", code + b"\xff"]))
    if way < 6:
        return draw.mutated(data, 2)
    if way == 6:
        return data[:draw.randint(0, len(data))]
    wrong = bytearray(frame(draw, TEXT, b"wsok"))
    if way == 7:
        wrong[0] ^= draw.choice([0x10, 0x20, 0x40, 0x02, 0x04, 0x08])
    elif way == 8:
        wrong[1] &= 0x7f
    elif way == 9:
        wrong = frame(draw, PING, b"p" * draw.choice([10, 126]), draw.chance(0.5))
    elif way == 10:
        wrong = draw.choice([frame(draw, TEXT, b"a\xff"), frame(draw, TEXT, b"\xc3", False) + frame(draw, 0, b"("),
                             frame(draw, 0, b"wsok"), frame(draw, TEXT, b"ws", False) + frame(draw, TEXT, b"ok")])
    else:
        wrong = draw.choice([b"\x81\xff" + (LONGEST_FRAME + 1).to_bytes(8, "big"), b"\x81\xff" + b"\xff" * 8,
                             b"\x81\xfe\x00\x04" + bytes(4) + b"wsok"]) + bytes(8)
    return data + bytes(wrong) + draw.choice([b"", frame(draw, TEXT, b"wsok")])


class Lane:
    """Connections that are made one after another, on sessions of their own."""

    def __init__(self, port, items, draw, told, alone):
        self.port, self.draw, self.told = port, draw, told
        self.world = World(items, lanes.SET_NAME, alone)
        self.number = 0

    def run(self, count):
        """Sends so many messages. Gives how many were sent."""
        while self.number < count:
            self._connection()
        return self.number

    def fill(self):
        """Makes more sessions than there may be, one after another on one connection."""
        connection = Connection(self.port, self.world, self.told, self.draw)
        connection.write(UPGRADE)
        create = frame(self.draw, TEXT, b"create_session\n")
        for _ in range(MOST_SESSIONS + 3):
            self.world.forget()
            connection.expect(Reader(create).read)
            connection.write(create)
            connection.hear_until(connection.is_answered)
            self.number += 1
        connection.write(frame(self.draw, CLOSE, b""))
        connection.end(Reader(b""))

    def _connection(self):
        """Batches of messages, up to one that ends the connection."""
        draw = self.draw
        connection = Connection(self.port, self.world, self.told, draw)
        data, ends = UPGRADE, False
        while not ends:
            if connection.has_upgraded or draw.chance(0.5):
                ends = draw.chance(0.08)
                batch, reader = self._batch(connection, ends)
                connection.expect(reader.read)
                data += batch
            connection.write(data)
            data = b""
            if not ends:
                connection.hear_until(lambda: connection.has_upgraded and connection.is_quiet())
                if not connection.is_open:
                    raise Differs("frames", connection.sent, "a connection that goes on", "its end")
        if not reader.must_end or draw.chance(0.5):
            connection.was_reset |= send(connection.sock, [], True)
        if not connection.end(reader):
            self.world.sessions, self.world.alone = [], False

    def _batch(self, connection, ends):
        """Some messages as frames, and what the server reads of them."""
        draw = self.draw
        self.world.forget()
        while True:
            facts = lanes.Facts(draw, self.world, "ws", connection.own)
            data = b""
            for _ in range(draw.choice([1, 1, 2, 5, 20])):
                self.number += 1
                data += frames_of(draw, *drawn_message(draw, facts, self.number))
            data = ending(draw, data) if ends else data + frame(draw, TEXT, b"wsok")
            reader = Reader(data)
            if self._is_apart(reader) and (ends or not reader.ended and reader.may_end is None):
                return data, reader

    def _is_apart(self, reader):
        """Whether what is read touches no other lane, and opens one stream at most."""
        read = [asked for kind, payload in reader.read if kind != PING for asked in requests_of(kind, payload)]
        opens = [asked for asked in read if asked and asked.name.endswith("_session") and asked.op != "malformed"]
        return len(opens) < 2 and all(asked is None or lanes.is_apart(self.world, asked) for asked in read)


def unit(draw, count, told):
    """Tries so many messages, and gives how many they were. `told` counts what they are answered."""
    items = lanes.new_items()
    alone = draw.chance(0.2)
    many = 1 if alone else LANES
    with serving(lanes.config(items)) as server, ThreadPoolExecutor(many) as several:
        lanes.publish_states(server, items, draw)
        each = [Lane(server.port, items, lanes.lane_draw(draw, number), told, alone) for number in range(many)]
        if alone and draw.chance(0.2):
            each[0].fill()
        return sum(several.map(lambda lane: lane.run(-(-count // many)), each))
