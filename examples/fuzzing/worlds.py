"""A run of `tlcpd replay`, by docs/SCRIPT.md: which line of a script is the first bad one, and what is printed."""

from bisect import bisect_left

import asked as requests
import codes
from forms import BadEvent, event, is_name, is_utf8, item, printed, script_number
from items import Item, Refused
from slots import Slot

MOST_ITEMS = 4096
MOST_CONNECTIONS = 65536
MOST_LAG = 64
KEPT_LINES = 1024
KEPT_BYTES = 262144
TIME_OUT = 30000


class BadLine(Exception):
    """A line of a script that has none of its forms, or names what isn't declared."""


class Session:
    """A session with all its numbered lines. `sent` of them were given, and those after `given_up` are kept."""

    def __init__(self, number, rate, now):
        self.number = number
        self.epoch = 0
        self.bound, self.since = False, now
        self.subs = {}
        self.round = []
        self.lines, self.sizes = [], [0]
        self.sent = self.given_up = 0
        self.owed, self.loops = [], False
        self.length, self.given_bytes = None, 0
        self.end, self.end_given = None, False
        self.set_rate(rate, now)

    # What codes.py asks

    def unsent(self):
        return (len(self.lines) - self.sent,) * 2

    def owes(self):
        return (len(self.owed),) * 2

    def lacks(self, count):
        return count is not None and not self.given_up <= count <= len(self.lines)

    # Streams

    def begin(self, values):
        """A new stream."""
        self.epoch += 1
        self.bound, self.loops = True, False
        self.length, self.given_bytes = values["length"], 0
        self.owed = [f"CONOK,S{self.number},50000,{values['keepalive']},*", "SERVNAME,tlcpd",
                     f"CONS,{printed(self.rate)}"]
        if values.get("count") is not None:
            self.sent = values["count"]
            self.owed.append(f"PROG,{self.sent}")

    def unbind(self, now):
        self.bound, self.since = False, now

    def count_line(self, text):
        """Numbers a line."""
        self.lines.append(text)
        self.sizes.append(self.sizes[-1] + len(text))
        self._give_up()

    def _give_up(self):
        last = len(self.lines)
        least = bisect_left(self.sizes, self.sizes[-1] - KEPT_BYTES)
        self.given_up = max(self.given_up, min(self.sent, max(least, last - KEPT_LINES)))

    def next_counted(self):
        """The next numbered line that wasn't given."""
        self.sent += 1
        text = self.lines[self.sent - 1]
        self._give_up()
        return text

    # Bandwidth: the credit in millionths of a bit

    def set_rate(self, rate, now):
        self.rate = rate
        self.credit, self.credit_at = 1000 * (rate or 0), now

    def grown(self, now):
        return min(self.credit + self.rate * (now - self.credit_at), 1000 * self.rate)

    def spend(self, size, now):
        if self.rate is not None:
            self.credit, self.credit_at = self.grown(now) - 8000 * size, now

    def credit_tick(self, now):
        """The first tick from now on at which the credit is above 0."""
        if self.rate is None or self.grown(now) > 0:
            return now
        return now + -self.grown(now) // self.rate + 1

    def due(self, slot, now):
        ready = 0
        if slot.frequency is not None and slot.last_update is not None:
            ready = slot.last_update + -(-1000000 // slot.frequency)
        return max(self.credit_tick(now), ready)


class Connection:
    def __init__(self, link):
        self.link = link
        self.session, self.epoch = None, 0


class World:
    """What a script has made so far. `do` does a line and gives what it prints, in bytes."""

    def __init__(self):
        self.set_name = b"DEFAULT"
        self.items, self.connections, self.sessions = {}, {}, []
        self.item_slots = {}
        self.now = 0
        self.number = 0

    # What codes.py asks

    def live(self):
        return (sum(session.end is None for session in self.sessions),) * 2

    def slots(self):
        return (sum(map(len, self.item_slots.values())),) * 2

    # Lines

    def do(self, line):
        """Does the next line, and gives the texts that it prints. Raises BadLine."""
        self.number += 1
        if not line or line.startswith(b"#"):
            return []
        words = line.split(b" ")
        if words[0] == b"req":
            return self._req(line)
        if b"" in words:
            raise BadLine
        step = STEPS.get(words[0])
        if step is None:
            raise BadLine
        return step(self, words[1:])

    def _set(self, words):
        if len(words) != 1 or not is_name(words[0]):
            raise BadLine
        self.set_name = words[0]
        return []

    def _item(self, words):
        found = item(words)
        if found is None or found[0] in self.items or len(self.items) == MOST_ITEMS:
            raise BadLine
        self.items[found[0]] = Item(*found)
        self.item_slots[found[0]] = {}
        return []

    def _conn(self, words):
        if len(words) != 2 or words[1] not in (b"ws", b"http"):
            raise BadLine
        self._declare(words[0], words[1].decode())
        return []

    def _declare(self, name, link):
        if not is_name(name) or name in self.connections or len(self.connections) == MOST_CONNECTIONS:
            raise BadLine
        self.connections[name] = Connection(link)

    def _open(self, words):
        if len(words) != 1:
            raise BadLine
        self._declare(words[0], "ws")
        return self._request(words[0], requests.read("ws", b"create_session", b""))

    def _connection(self, name):
        if name not in self.connections:
            raise BadLine
        return self.connections[name]

    def _tick(self, words):
        now = script_number(words[0], self.now) if len(words) == 1 else None
        if now is None:
            raise BadLine
        self.now = now
        for session in self.sessions:
            if session.end is None and not session.bound and now - session.since >= TIME_OUT:
                self._end(session, 73)
        return []

    def _end(self, session, code):
        session.end = code
        for sub in list(session.subs):
            self._leave(session, sub)

    def _leave(self, session, sub):
        for slot in session.subs.pop(sub):
            session.round.remove(slot)
            del self.item_slots[slot.item.name][slot.number]

    # Publishing

    def _pub(self, words):
        if len(words) != 4 or words[3] == b"!":
            raise BadLine
        return self._publish(words, words[3])

    def _clear(self, words):
        if len(words) != 3:
            raise BadLine
        return self._publish(words, b"!")

    def _publish(self, words, text):
        adapter, seq = script_number(words[0], 1, 64), script_number(words[1], 1)
        if adapter is None or seq is None or words[2] not in self.items:
            raise BadLine
        found = self.items[words[2]]
        try:
            cells = event(text, found.fields)
        except BadEvent as bad:
            raise BadLine from bad
        try:
            return [f"-no {found.publish(adapter, seq, cells, lambda: self._look_at_lags(found))}"]
        except Refused as refused:
            return [f"-{refused.why}" + ("" if refused.number is None else f" {refused.number}")]

    def _look_at_lags(self, found):
        for number in sorted(self.item_slots[found.name]):
            if self.item_slots[found.name][number].lag() == MOST_LAG:
                raise Refused("backlog", number)

    # Requests

    def _req(self, line):
        words = line.split(b" ", 3)
        if len(words) < 3 or not is_name(words[2]):
            raise BadLine
        link = self._connection(words[1]).link
        return self._request(words[1], requests.read(link, words[2], words[3] if len(words) == 4 else b""))

    def _add(self, words):
        if not 5 <= len(words) <= 8 or words[4] not in requests.MODES:
            raise BadLine
        self._connection(words[0])
        given = {b"LS_reqId": str(self.number).encode(), b"LS_op": b"add", b"LS_subId": words[1],
                 b"LS_group": words[2].replace(b",", b" "), b"LS_schema": words[3].replace(b",", b" "),
                 b"LS_mode": words[4]}
        left = [(b"snapshot=", b"LS_snapshot"), (b"buffer=", b"LS_requested_buffer_size"),
                (b"frequency=", b"LS_requested_max_frequency")]
        for word in words[5:]:
            while left and not word.startswith(left[0][0]):
                left.pop(0)
            if not left:
                raise BadLine
            begin, name = left.pop(0)
            given[name] = word[len(begin):]
        return self._request(words[0], read_add(given))

    def _request(self, name, asked):
        """Does a request on a connection, and gives its answer."""
        connection = self.connections[name]
        session = self._asked_session(connection, asked)
        code, = codes.allowed(codes.of_request(self, session, asked))
        if code:
            return [self._on(name, requests.refused(asked, code))]
        if asked.name == "wsok":
            return [self._on(name, "WSOK")]
        if asked.name == "control":
            DEEDS[asked.op](self, session, asked.values)
            return [self._on(name, f"REQOK,{asked.request}")]
        if asked.name == "create_session":
            session = Session(len(self.sessions) + 1, asked.values["bandwidth"], self.now)
            self.sessions.append(session)
        session.begin(asked.values)
        connection.session, connection.epoch = session, session.epoch
        return []

    def _on(self, name, text):
        return f"{name.decode()}:{text}"

    def _asked_session(self, connection, asked):
        if asked.session is None:
            session = connection.session
        else:
            session = self.sessions[asked.session - 1] if 0 < asked.session <= len(self.sessions) else None
        return None if session is None or session.end is not None else session

    def _do_add(self, session, values):
        session.subs[values["sub"]] = [self._join(session, values, rank + 1, name)
                                       for rank, name in enumerate(values["group"])]
        for text in opening_lines(values):
            session.count_line(text)

    def _join(self, session, values, rank, name):
        there = self.item_slots[name]
        number = next(number for number in range(1, len(there) + 2) if number not in there)
        slot = Slot(session, values["sub"], rank, self.items[name], values, number)
        there[number] = slot
        session.round.append(slot)
        return slot

    def _do_delete(self, session, values):
        self._leave(session, values["sub"])
        session.count_line(f"UNSUB,{values['sub']}")

    def _do_reconf(self, session, values):
        slots = session.subs[values["sub"]]
        for slot in slots:
            if slot.mode != b"RAW":
                slot.frequency = values["frequency"]
        session.count_line(frequency_line(values["sub"], slots[0].mode, slots[0].frequency))

    def _do_constrain(self, session, values):
        session.set_rate(values["bandwidth"], self.now)
        session.owed.append(f"CONS,{printed(session.rate)}")

    def _do_force_rebind(self, session, _values):
        session.loops = session.bound

    def _do_destroy(self, session, _values):
        self._end(session, 31)

    # Slots and streams

    def _enq(self, words):
        if not 3 <= len(words) <= 4:
            raise BadLine
        session = self._connection(words[0]).session
        sub, rank = script_number(words[1]), script_number(words[2])
        times = script_number(words[3], 1, 1000) if len(words) == 4 else 1
        if None in (sub, rank, times):
            raise BadLine
        slots = session.subs.get(sub, []) if session else []
        if not 0 < rank <= len(slots):
            return ["-noslot"]
        slot = slots[rank - 1]
        moved = min(times, slot.lag())
        texts = [f"-moved {slot.upto + more}" for more in range(1, moved + 1)]
        slot.upto += moved
        return texts + (["-uptodate"] if moved < times else [])

    def _take(self, words):
        if not 1 <= len(words) <= 2:
            raise BadLine
        connection = self._connection(words[0])
        times = script_number(words[1], 1, 1000) if len(words) == 2 else 1
        if times is None:
            raise BadLine
        texts = []
        for _ in range(times):
            text, note = self._turn(connection)
            texts.append(note if text is None else self._on(words[0], text))
            if text is None:
                break
        return texts

    def _turn(self, connection):
        """The next line of a connection's session, or a note why there is none."""
        session = connection.session
        if session is None:
            return None, "-none"
        if connection.epoch < session.epoch:
            return None, f"-superseded {session.epoch}"
        if session.end is not None and (session.end_given or not session.bound):
            return None, f"-ended {session.end}"
        if not session.bound:
            return None, "-unbound"
        text, note = self._given(session)
        if text is not None:
            session.given_bytes += len(text) + 2
            session.loops = session.loops or session.length is not None and session.given_bytes >= session.length
        return text, note

    def _given(self, session):
        if session.end is not None:
            session.end_given = True
            return f"END,{session.end},{requests.MESSAGES[session.end]}", None
        if session.owed:
            return session.owed.pop(0), None
        if session.loops:
            session.unbind(self.now)
            return "LOOP,0", None
        if session.sent < len(session.lines):
            return session.next_counted(), None
        return self._round(session)

    def _round(self, session):
        """The first line that the session's slots have to tell."""
        due = []
        for slot in session.round:
            tick = session.due(slot, self.now)
            if tick > self.now:
                due += [tick] if slot.is_pending() else []
                continue
            text = slot.line()
            if text is not None:
                self._spend(session, slot, text)
                return text, None
        return None, f"-notdue {min(due)}" if due else "-idle"

    def _spend(self, session, slot, text):
        session.count_line(text)
        session.next_counted()
        session.round.remove(slot)
        session.round.append(slot)
        if text.startswith("U,"):
            session.spend(len(text) + 2, self.now)
            slot.last_update = self.now

    def _lose(self, words):
        if len(words) != 1:
            raise BadLine
        connection = self._connection(words[0])
        session = connection.session
        if session is None:
            return ["-none"]
        if connection.epoch < session.epoch:
            return [f"-superseded {session.epoch}"]
        if not session.bound:
            return ["-unbound"]
        session.unbind(self.now)
        return ["-lost"]


STEPS = {b"set": World._set, b"item": World._item, b"tick": World._tick, b"conn": World._conn, b"open": World._open,
         b"add": World._add, b"pub": World._pub, b"clear": World._clear, b"enq": World._enq, b"take": World._take,
         b"lose": World._lose}
DEEDS = {"add": World._do_add, "delete": World._do_delete, "reconf": World._do_reconf,
         "constrain": World._do_constrain, "force_rebind": World._do_force_rebind, "destroy": World._do_destroy}


def read_add(given):
    """What an `add` line asks for. Its words stand for themselves."""
    if not all(map(is_utf8, given.values())):
        return requests.Asked("control", op="malformed")
    return requests.read_found("ws", b"control", given)


def opening_lines(values):
    """The lines with which a subscription begins."""
    sub, schema = values["sub"], values["schema"]
    sizes = f"{sub},{len(values['group'])},{len(schema)}"
    if values["mode"] == b"COMMAND":
        yield f"SUBCMD,{sizes},{schema.index(b'key') + 1},{schema.index(b'command') + 1}"
    else:
        yield f"SUBOK,{sizes}"
    yield frequency_line(sub, values["mode"], values["frequency"])


def frequency_line(sub, mode, frequency):
    if mode == b"RAW":
        return f"CONF,{sub},unlimited,unfiltered"
    return f"CONF,{sub},{printed(frequency)},filtered"


def replay(script):
    """What a script prints, the status, and the fault."""
    lines = script.split(b"\n")
    if not lines[-1]:
        lines.pop()
    world, output = World(), []
    for number, line in enumerate(lines, 1):
        try:
            output += world.do(line)
        except BadLine:
            return output, 3, f"tlcpd: bad script line {number}\n"
    return output, 0, ""
