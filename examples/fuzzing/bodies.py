"""Bodies of requests over HTTP: what each request is answered, and what comes on the streams.

docs/SERVE.md has the rules ("Clients over HTTP")."""

import select
import time
from concurrent.futures import ThreadPoolExecutor

import asked as requests
import lanes
from heads import STREAM_HEAD, answer, lines_in, without_end
from served import World
from trying import Differs, HANG, PIECE, answer_to, connected, receive, send, serving

# A case is a request.
CASES_OF_UNIT = 1000
LANES = 4
LONGEST_BODY = 50000
LINES_OF_BODY = [1, 1, 2, 5, 20, 60, 200]
ODD_LINES = [b"", b"\r", b" ", b"&", b"nonsense", b"LS_reqId=1", b"\0", b"\xff", b"LS_reqId=1&LS_reqId=1"]


def request(name, body):
    return (f"POST /lightstreamer/{name}.txt?LS_protocol=TLCP-2.1.0 HTTP/1.1\r\nHost: localhost\r\n"
            f"Content-Length: {len(body)}\r\n\r\n").encode() + body


class HttpStream:
    """A stream that is open, and the connection that it comes on."""

    def __init__(self, sock, rest):
        self.sock, self.rest = sock, rest
        self.stream = None

    def hear(self, seconds):
        """Takes in the lines that come in so many seconds at most. Gives whether the stream goes on."""
        if self.rest and self._take(b""):
            return True
        if not select.select([self.sock], [], [], seconds)[0]:
            return True
        try:
            data = self.sock.recv(PIECE)
        except ConnectionError as reset:
            raise ValueError("a reset") from reset
        self._take(data)
        if not data:
            self.sock.close()
        return bool(data)

    def _take(self, data):
        """Takes in the whole lines of what came. Gives how many there were."""
        *lines, self.rest = (self.rest + data).split(b"\n")
        for line in lines:
            if not line.endswith(b"\r"):
                raise ValueError(f"a line {line!r}")
            self.stream.hear(line[:-1].decode("ascii"))
        return len(lines)


class Lane:
    """Requests that are made one after another, on sessions that no other lane touches."""

    def __init__(self, port, items, draw, told, alone):
        self.port, self.draw, self.told = port, draw, told
        self.world = World(items, lanes.SET_NAME, alone)
        self.number = 0
        self.open = []
        # Some lanes come to a limit first.
        self.is_full = alone and draw.chance(0.7)

    def run(self, count):
        """Makes so many requests. Gives how many were made."""
        try:
            if self.is_full:
                self._fill()
            while self.number < count:
                self.world.forget()
                self._some()
                self._hear_all()
        except ValueError as wrong:
            raise Differs("bodies", self.sent, "lines of the rules", str(wrong)) from wrong
        for one in self.open:
            one.sock.close()
        return self.number

    def _some(self):
        rare = 0.2 if self.is_full else 4
        create = 1 if self.open or self.is_full and self.world.sessions else 20
        way = self.draw.by_weight({"control": 10, "create": create, "bind": rare, "close": rare / 8})
        getattr(self, "_" + way)()

    def _facts(self):
        known = self.world.sessions[:1] if self.is_full else [one.stream.session for one in self.open]
        own = self.draw.choice(known) if known and self.draw.chance(0.9) else None
        return lanes.Facts(self.draw, self.world, "http", own)

    # Streams

    def _create(self):
        self._opening(b"create_session")

    def _bind(self):
        self._opening(b"bind_session")

    def _opening(self, name):
        """Draws a request that opens a stream, and does it."""
        draw, facts = self.draw, self._facts()
        body = draw.form(draw.opening(facts, name)) + draw.choice([b"", b"\n", b"\r\n"])
        asked = requests.read("http", name, without_end(body))
        if lanes.is_apart(self.world, asked):
            self.number += 1
            self._open(name, body, asked)

    def _open(self, name, body, asked):
        self.sent = request(name.decode(), body)
        sock = connected(self.port)
        send(sock, self.draw.pieces(self.sent), False)
        until = time.monotonic() + HANG
        got = self._head_of(sock, until)
        session = self.world.named(asked) if asked.name == "bind_session" else None
        older = [one for one in self.open if one.stream.session is session]
        if got.startswith(STREAM_HEAD) and older:
            self._hear_end(older[0])
        codes = self.world.allowed(asked)
        if not got.startswith(STREAM_HEAD):
            self._refused(sock, until, got, [answer([requests.refused(asked, code)]) for code in codes if code])
            return
        if 0 not in codes:
            raise ValueError(f"a stream for {codes}")
        one = HttpStream(sock, got[len(STREAM_HEAD):])
        one.stream = self.world.open(asked, False)
        self.open.append(one)
        self.told["streams"] += 1

    def _head_of(self, sock, until):
        """Reads up to the end of a head."""
        got = b""
        while b"\r\n\r\n" not in got:
            piece = self._receive(sock, until)
            if not piece:
                raise ValueError(f"the end after {got!r}")
            got += piece
        return got

    def _receive(self, sock, until):
        try:
            return receive(sock, until)
        except TimeoutError as late:
            raise Differs("bodies", self.sent, "an answer", f"nothing in {HANG} s") from late

    def _refused(self, sock, until, got, wanted):
        while piece := self._receive(sock, until):
            got += piece
        sock.close()
        if got not in wanted:
            raise ValueError(f"{got!r} for {wanted}")
        self.told["CONERR"] += 1

    def _hear_end(self, one):
        """Hears a stream to its end, in whose place another one has come."""
        until = time.monotonic() + HANG
        while one.hear(0.1):
            if time.monotonic() > until:
                raise ValueError("a stream that another one took the place of goes on")
        self.open.remove(one)

    def _close(self):
        """Closes a stream as a client that goes away."""
        if self.open:
            one = self.open.pop(self.draw.randrange(len(self.open)))
            one.stream.session.free(lost=True)
            one.sock.close()

    def _hear_all(self):
        """Hears all that has to come on the streams."""
        until = time.monotonic() + HANG
        for one in list(self.open):
            session = one.stream.session
            goes_on = True
            while goes_on and (one.stream.is_over or not session.is_quiet()):
                goes_on = one.hear(0.05)
                if time.monotonic() > until:
                    missing = session.owed[:2], session.asked_lines[:2], session.end
                    raise ValueError(f"nothing in {HANG} s; still to come {missing}")
            if not goes_on:
                if not one.stream.is_over:
                    raise ValueError("a stream ended")
                self.open.remove(one)

    def _fill(self):
        """Comes close to a limit, and past it: of lines that wait for a stream, of subscriptions of a session, or of
        slots."""
        self._open(b"create_session", b"", requests.read("http", b"create_session", b""))
        self._hear_all()
        number = self.world.sessions[0].number
        way = self.draw.randrange(3)
        if way == 0:
            self._send_control([add_line(number, 1, 1), f"LS_reqId=f&LS_session=S{number}&LS_op=force_rebind"])
            self._hear_all()
            reconf = f"LS_reqId=c&LS_session=S{number}&LS_op=reconf&LS_subId=1&LS_requested_max_frequency=unlimited"
            lines = [reconf] * self.draw.randint(508, 515)
        elif way == 1:
            lines = [add_line(number, sub, 1) for sub in range(1, self.draw.randint(256, 260))]
        else:
            # The client beside has a slot, too.
            sizes = [64] * 63 + [self.draw.randint(62, 64), 1, 1]
            lines = [add_line(number, sub, size) for sub, size in enumerate(sizes, 1)]
        for first in range(0, len(lines), 60):
            self._send_control(lines[first:first + 60])
            self._hear_all()

    # Controls

    def _send_control(self, lines):
        self._do_control("\n".join(lines).encode())

    def _control(self):
        draw, facts = self.draw, self._facts()
        lines = [self._line(facts) for _ in range(draw.choice(LINES_OF_BODY))]
        ends = [draw.choice([b"\n", b"\r\n", b"\n", b"\n\r\n"]) for _ in lines]
        body = b"".join(line + end for line, end in zip(lines, ends))
        body = body[:-1] if draw.chance(0.3) else body
        if len(body) > LONGEST_BODY or not all(lanes.is_apart(self.world, asked) for asked in controls(body)):
            return
        self._do_control(body)

    def _do_control(self, body):
        self.sent = request("control", body)
        try:
            got = answer_to(self.port, self.draw.pieces(self.sent), self.draw.chance(0.3))
        except TimeoutError as late:
            raise Differs("bodies", self.sent, "an answer", f"none in {HANG} s") from late
        answers = got[got.find(b"\r\n\r\n") + 4:].decode("ascii").split("\r\n")[:-1]
        if got != answer(answers):
            raise ValueError(f"an answer {got!r}")
        self._answered(controls(body), answers)

    def _answered(self, read, answers):
        if len(read) != len(answers):
            raise ValueError(f"{len(answers)} answers to {len(read)} requests")
        for asked, line in zip(read, answers):
            self.number += 1
            self.told[self.world.answer(asked, None, line)] += 1

    def _line(self, facts):
        draw = self.draw
        if draw.chance(0.02):
            return draw.choice(ODD_LINES)
        text = lanes.drawn(draw, facts, b"r%d" % self.number)
        return draw.mutated(text, 1).replace(b"\n", b"") if draw.chance(0.03) else text


def add_line(session, sub, size):
    """A control that subscribes to so many items."""
    group = "+".join(f"i{number}" for number in range(size))
    return f"LS_reqId=a&LS_session=S{session}&LS_op=add&LS_subId={sub}&LS_mode=MERGE&LS_schema=a&LS_group={group}"


def controls(body):
    """The requests of a control's body."""
    return [requests.read("http", b"control", line) for line in lines_in(body) if line]


def unit(draw, count, told):
    """Tries so many requests, and gives how many they were. `told` counts what they are answered."""
    items = lanes.new_items()
    alone = draw.chance(0.4)
    many = 1 if alone else LANES
    with serving(lanes.config(items)) as server, ThreadPoolExecutor(many) as several:
        lanes.publish_states(server, items, draw)
        each = [Lane(server.port, items, lanes.lane_draw(draw, number), told, alone) for number in range(many)]
        return sum(several.map(lambda lane: lane.run(-(-count // many)), each))
