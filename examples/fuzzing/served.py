"""Sessions of a server, as a client knows them by its requests and their answers: which answers are allowed, and which
lines may come on a stream.

A lane makes requests one after another, on sessions of its own that no other lane touches, and items don't change
meanwhile. Over a WebSocket answers and lines come in one order. So what isn't heard before an answer wasn't given
before it either, and all is known: such a stream is strict. Over HTTP the server may be further than what was heard.
"""

import time

import codes
from asked import MESSAGES, refused
from forms import printed
from slots import spelled
from worlds import KEPT_BYTES, KEPT_LINES, frequency_line, opening_lines

COUNTED = ("SUBOK", "SUBCMD", "CONF", "UNSUB", "EOS", "U")
LONGEST_LINE = 500
# A session without a stream lives for 30 s.
SOON = 20


class Subscription:
    """A subscription, and the lines of its items' snapshots that are still to come, by rank, each in order."""

    def __init__(self, values, items):
        self.values = values
        self.rows = {rank: snapshot_lines(values, rank, item) for rank, item in enumerate(items, 1)}
        self.limited = values["frequency"] is not None and values["mode"] != b"RAW"

    def left(self):
        return sum(map(len, self.rows.values()))


def snapshot_lines(values, rank, item):
    """The lines by which a subscription is told an item's snapshot."""
    if values["mode"] == b"RAW" or values["snapshot"] == 0:
        return []
    if values["mode"] == b"MERGE":
        rows = item.rows[-1:] if item.number() else []
    elif values["mode"] == b"DISTINCT":
        rows = [item.own_row(number) for number in item.recent()[-values["snapshot"]:]]
    else:
        command = item.fields.index(b"command")
        rows = [row[:command] + [b"ADD"] + row[command + 1:] for _, row in sorted(item.keys.items())]
    places = [item.fields.index(name) for name in values["schema"]]
    lines, before = [], None
    for row in rows:
        row = [row[place] for place in places]
        lines.append(f"U,{values['sub']},{rank},{spelled(before, row)}")
        before = row
    return lines + ([] if values["mode"] == b"MERGE" else [f"EOS,{values['sub']},{rank}"])


class Session:
    """A session. `lines` are the numbered ones that were heard, `asked_lines` those of requests that weren't. `at` is
    the number of the last one that came on the last stream. A session whose client closed its stream `is_lost`: the
    server may have given more lines than were heard."""

    def __init__(self, rate):
        self.number = None
        self.rate = rate
        self.limited = rate is not None
        self.subs, self.gone = {}, []
        self.lines, self.asked_lines, self.size = [], [], 0
        self.stream, self.is_lost, self.at, self.owed = None, False, 0, []
        self.end, self.since = None, time.monotonic()

    def is_exact(self):
        return self.stream.strict if self.stream else not self.is_lost

    # What codes.py asks

    def unsent(self):
        return self._up_to(len(self.asked_lines) + len(self.lines) - self.at)

    def owes(self):
        return self._up_to(len(self.owed))

    def _up_to(self, most):
        return (most if self.is_exact() else 0, most)

    def lacks(self, count):
        if count is None:
            return False
        least = len(self.lines) + len(self.asked_lines)
        most = least + (0 if self.is_exact() else sum(sub.left() for sub in [*self.subs.values(), *self.gone]))
        if count > least:
            return True if count > most else None
        kept = most <= KEPT_LINES and self.size + LONGEST_LINE * (most - len(self.lines)) <= KEPT_BYTES
        return False if kept or self.is_exact() and count >= self.at else None

    def next_asked(self):
        """Takes the next line of a request. No line of a subscription comes after its UNSUB."""
        line = self.asked_lines.pop(0)
        if line.startswith("UNSUB,"):
            self.gone.remove(next(sub for sub in self.gone if line == f"UNSUB,{sub.values['sub']}"))
        return line

    def is_quiet(self):
        """Whether all came on its stream that has to."""
        if self.stream is None:
            return True
        if self.end or self.stream.leaves or self.owed or self.asked_lines or self.at < len(self.lines):
            return False
        return self.limited or not any(sub.left() for sub in self.subs.values() if not sub.limited)

    def free(self, lost=False):
        """It has no stream from now on."""
        if self.stream:
            self.stream.is_over, self.stream, self.is_lost, self.since = True, None, lost, time.monotonic()


class Stream:
    """A stream of a session. `opening` of the lines that it owes come before all others."""

    def __init__(self, session, values, strict):
        self.session, self.strict = session, strict
        self.length, self.bytes = values["length"], 0
        self.leaves = self.is_over = False
        count = values.get("count")
        session.free()
        session.at = session.at if count is None else count
        # A client may say that it has lines which it never heard.
        while len(session.lines) < session.at:
            session.lines.append(session.next_asked())
        session.owed = [f"50000,{values['keepalive']},*", "SERVNAME,tlcpd", f"CONS,{printed(session.rate)}"]
        session.owed += [] if count is None else [f"PROG,{count}"]
        session.stream, session.is_lost = self, False
        self.opening = len(session.owed)

    def hear(self, line):
        """Takes in a line. Raises ValueError where it may not come."""
        session = self.session
        waits = self.opening or session.owed and self.strict
        if line == "PROBE" and not self.opening:
            return
        if session.end and line == f"END,{session.end},{MESSAGES[session.end]}":
            session.free()
        elif session.end and self.strict:
            raise ValueError(f"{line} after the end")
        elif line == "LOOP,0" and not waits and (self.leaves or self._is_long()):
            session.free()
        elif session.owed and self._is_owed(line, session.owed[0]):
            session.owed.pop(0)
            self.opening = max(0, self.opening - 1)
        elif line.split(",")[0] in COUNTED and not waits and not self._is_long() and not (self.strict and self.leaves):
            self._counted(line)
        else:
            raise ValueError(f"{line}, owed are {session.owed}")
        self.bytes += len(line) + 2

    def _is_long(self):
        return self.length is not None and self.bytes >= self.length

    def _is_owed(self, line, owed):
        if not owed.startswith("50000,"):
            return line == owed
        tag, number, rest = line.split(",", 2)
        if (tag, rest) != ("CONOK", owed) or self.session.number not in (None, int(number[1:])):
            return False
        self.session.number = int(number[1:])
        return True

    def _counted(self, line):
        session = self.session
        session.at += 1
        if session.at <= len(session.lines):
            if line != session.lines[session.at - 1]:
                raise ValueError(f"{line} for {session.lines[session.at - 1]}")
            return
        session.lines.append(line)
        session.size += len(line)
        if line.startswith(("U,", "EOS,")):
            self._row(line)
        elif session.asked_lines and line == session.asked_lines[0]:
            session.next_asked()
        else:
            raise ValueError(f"{line} for {session.asked_lines[:1]}")

    def _row(self, line):
        """A line of a snapshot, whose subscription has begun."""
        session = self.session
        sub, rank = map(int, line.split(",")[1:3])
        begins = (f"SUBOK,{sub},", f"SUBCMD,{sub},")
        if session.asked_lines and (self.strict or session.asked_lines[0].startswith(begins)):
            raise ValueError(f"{line} for {session.asked_lines[0]}")
        for one in session.gone + [session.subs.get(sub)]:
            rows = one.rows.get(rank) if one and one.values["sub"] == sub else None
            if rows:
                if rows[0] != line:
                    raise ValueError(f"{line} for {rows[0]}")
                rows.pop(0)
                return
        raise ValueError(f"{line}, which no snapshot has")


class World:
    """What a lane knows of the server. Where it is `alone` with the client beside, it knows how many sessions and slots
    there are."""

    def __init__(self, items, set_name, alone):
        self.items, self.set_name, self.alone = items, set_name, alone
        self.sessions = []

    def forget(self):
        """Forgets sessions that may soon end by time."""
        until = time.monotonic() - SOON
        known = [session for session in self.sessions if session.end or session.stream or session.since > until]
        self.alone = self.alone and len(known) == len(self.sessions)
        self.sessions = known

    def live(self):
        live = 1 + sum(session.end is None for session in self.sessions)
        return (live, live if self.alone else live + 500)

    def slots(self):
        slots = 1 + sum(len(sub.rows) for session in self.sessions for sub in session.subs.values())
        return (slots, slots if self.alone else slots + 2000)

    def by_number(self, number):
        """A session of this lane that hasn't ended."""
        for session in self.sessions:
            if session.number == number and session.end is None:
                return session
        return None

    def named(self, asked, own=None):
        """The session that a request is on, if it is there."""
        session = own if asked.session is None else self.by_number(asked.session)
        return None if session is None or session.end else session

    def allowed(self, asked, own=None):
        """The codes that a request may be answered; 0 is that it is done."""
        return codes.allowed(codes.of_request(self, self.named(asked, own), asked))

    def answer(self, asked, own, line):
        """Takes in the answer to a request that opens no stream. Raises ValueError where it may not come. Gives a word
        for it."""
        done = "WSOK" if asked.name == "wsok" else f"REQOK,{asked.request}"
        texts = {refused(asked, code) if code else done: code for code in self.allowed(asked, own)}
        if line not in texts:
            raise ValueError(f"{line} for {list(texts)}")
        if texts[line] == 0 and asked.name == "control":
            self.do(self.named(asked, own), asked)
        return f"code {texts[line]}" if texts[line] else done.split(",")[0]

    def do(self, session, asked):
        """What a control does that is accepted."""
        values, lines = asked.values, session.asked_lines
        if asked.op == "add":
            session.subs[values["sub"]] = Subscription(values, [self.items[name] for name in values["group"]])
            lines += opening_lines(values)
        elif asked.op == "delete":
            session.gone.append(session.subs.pop(values["sub"]))
            lines.append(f"UNSUB,{values['sub']}")
        elif asked.op == "reconf":
            sub = session.subs[values["sub"]]
            sub.limited = sub.limited or values["frequency"] is not None
            lines.append(frequency_line(values["sub"], sub.values["mode"], values["frequency"]))
        elif asked.op == "constrain":
            session.rate = values["bandwidth"]
            session.limited = session.limited or session.rate is not None
            session.owed.append(f"CONS,{printed(session.rate)}")
        elif asked.op == "force_rebind" and session.stream:
            session.stream.leaves = True
        elif asked.op == "destroy":
            session.gone += session.subs.values()
            session.end, session.subs = 31, {}

    def open(self, asked, strict):
        """The stream that an accepted opening begins."""
        if asked.name == "create_session":
            self.sessions.append(Session(asked.values["bandwidth"]))
            return Stream(self.sessions[-1], asked.values, strict)
        return Stream(self.by_number(asked.session), asked.values, strict)
