"""Feeds: the reply to each line, and what clients are told of it, by docs/SERVE.md ("Feeds")."""

import threading
import time
from concurrent.futures import ThreadPoolExecutor

from forms import BadEvent, event, whole
from items import Item, Refused
from tlcp import Session
from trying import Differs, HANG, all_of, connected, send, serving

# A case is a line.
CASES_OF_UNIT = 2000
FEEDS = 4
LONGEST_LINE = 16384
MOST_SEQ = 2 ** 64 - 1
KINDS = [(b"m", b"MERGE", [b"a", b"b", b"c"]), (b"d", b"DISTINCT", [b"a", b"b"]),
         (b"k", b"COMMAND", [b"key", b"command", b"a"]), (b"w", b"MERGE", [b"f%d" % number for number in range(64)])]
REFUSALS = {"nokey": "bad 4", "badcommand": "bad 5", "toomanykeys": "bad 6", "toolong": "bad 7"}
# Each feed publishes on items of its own, and all of them on one more.
SHARED = b"all"
ODD_LINES = [b"", b" ", b"  ", b"a", b"! ! !", b"\r", b"\0", b"feed 1", b"\xff 1 a=1", b"x" * 16384,
             b"x" * 300 + b" 1 a=1", b"m0  1 a=1", b" 1 a=1", b"m0 1 ", b"m0 1 a=1 ", b"m0 1 a=1 b=1", b"M0 1 a=1"]
NO_HELLOS = [b"feed", b"feed 0", b"feed 65", b"Feed 1", b"feed  1", b"feed 1 ", b"feed 01", b"", b"feed 1\r",
             b"feed 1 1", b"feed \xff", b"x" * 17000]
SEQS = [b"", b"0", b"-1", b"+1", b"01", b"x", b"1.0", b"18446744073709551615", b"18446744073709551616", b"9" * 40,
        b"1\t"]


def declared(item):
    """The line of a config that declares an item."""
    return f"{item.name.decode()} {item.kind.decode()} {b','.join(item.fields).decode()}\n"


class Rules:
    """What a feed is replied. It has the items that are its own, and a set of all names."""

    def __init__(self, own, names):
        self.items = own
        self.names = names

    def reply(self, adapter, line):
        """The reply to a line; `ok` alone for one on the shared item, whose number isn't known."""
        words = line.split(b" ")
        seq = whole(words[1], 1, MOST_SEQ) if len(words) == 3 and b"" not in words else None
        if seq is None:
            return "bad 1"
        if words[0] == SHARED:
            return "ok"
        if words[0] not in self.names:
            return "bad 2"
        try:
            found = self.items[words[0]]
            return f"ok {found.publish(adapter, seq, event(words[2], found.fields))}"
        except BadEvent as bad:
            return "bad 3" if bad.args[0] == "field" else "bad 1"
        except Refused as refused:
            return f"repeated {refused.number}" if refused.why == "repeated" else REFUSALS[refused.why]


def adapter_of(hello):
    """The adapter that a hello names, or None."""
    words = hello.split(b" ")
    return whole(words[1], 1, 64) if len(words) == 2 and words[0] == b"feed" else None


class Feed:
    """One feed of a unit: its items, and the connections that it makes one after another."""

    def __init__(self, draw, number, names, told):
        self.draw, self.number, self.told = draw, number, told
        own = {b"%s%d" % (begin, number): (kind, fields) for begin, kind, fields in KINDS}
        self.items = {name: Item(name, *of) for name, of in own.items()}
        self.rules = Rules(self.items, names)
        self.seqs, self.shared_seq = {}, 0
        # The numbers of its events on the shared item.
        self.shared = []

    def run(self, port, count):
        """Sends so many lines that are replied to. Gives how many they were."""
        done = 0
        while done < count:
            done += self.connection(port, self.draw.choice([1, 5, 50, 300, 1000]))
        return done

    def connection(self, port, count):
        """A connection with so many lines. Gives how many were replied to."""
        draw = self.draw
        hello = b"feed %d" % (16 * self.number + draw.randint(1, 3))
        if draw.chance(0.05):
            hello = draw.choice(NO_HELLOS + [draw.mutated(hello).replace(b"\n", b"")] * 3)
        lines = self.many_keys() if draw.chance(0.02) else [self.line() for _ in range(count)]
        last = self.line()[:draw.randint(0, 20)] if draw.chance(0.3) else b""
        data = b"\n".join([hello] + lines) + b"\n" + last
        wanted = self.wanted(hello, lines, last)
        self.compare(data, wanted, self.sent(port, data))
        return len(wanted)

    def wanted(self, hello, lines, last):
        """The reply to each line, up to the one that ends the connection."""
        adapter = adapter_of(hello) if len(hello) <= LONGEST_LINE else None
        if adapter is None:
            self.told["hellos refused"] += 1
            return []
        wanted = []
        for line in lines:
            if len(line) > LONGEST_LINE:
                return wanted + ["bad 1"]
            wanted.append(self.rules.reply(adapter, line))
        return wanted + (["bad 1"] if len(last) > LONGEST_LINE else [])

    def sent(self, port, data):
        """Sends it all while the replies are read. Gives them."""
        with connected(port) as sock, ThreadPoolExecutor(1) as sender:
            sender.submit(send, sock, self.draw.pieces(data), True)
            try:
                return all_of(sock, 3 * HANG)[0]
            except TimeoutError as late:
                raise Differs("feed", data, "an end", f"none in {3 * HANG} s") from late

    def compare(self, data, wanted, got):
        *replies, rest = got.decode("latin-1").split("\n")
        if rest:
            raise Differs("feed", data, "whole lines", got[-100:])
        for number, (right, reply) in enumerate(zip(wanted, replies), 1):
            if right == "ok" and reply.startswith("ok "):
                self.shared.append(int(reply[3:]))
            elif reply != right:
                raise Differs("feed", data, f"{right} to line {number} after the hello", reply)
            self.told[" ".join(reply.split(" ")[:2 if reply.startswith("bad") else 1])] += 1
        if len(wanted) != len(replies):
            raise Differs("feed", data, f"{len(wanted)} replies", f"{len(replies)}")

    def line(self):
        """A line that names no item of another feed."""
        while True:
            line = self.any_line()
            name = line.split(b" ")[0]
            if name not in self.rules.names or name in self.items or name == SHARED:
                return line

    def many_keys(self):
        """Lines by which an item has as many keys as it may, and some more."""
        name = b"k%d" % self.number
        seq = self.seqs[name] = self.seqs.get(name, 0) + 2000
        lines = [b"%s %d key=x%d&command=ADD" % (name, seq + key, key) for key in range(1030)]
        long = b"&a=" + b"y" * 4096
        lines += [b"%s %d key=x%d&command=ADD%s" % (name, seq + 1100 + key, key, long) for key in (1, 1040)]
        return lines + [b"%s %d key=x1&command=DELETE" % (name, seq + 1110),
                        b"%s %d key=z&command=UPDATE" % (name, seq + 1111)]

    def any_line(self):
        draw = self.draw
        if draw.chance(0.03):
            return draw.choice(ODD_LINES)
        if draw.chance(0.08):
            self.shared_seq += 1
            return b"%s %d a=%d.%d" % (SHARED, self.shared_seq, self.number, self.shared_seq)
        name = draw.choice(list(self.items))
        seq = self.seqs.get(name, 0) + draw.choice([0, 1, 1, 1, 1, 1, 1, 2, 100])
        self.seqs[name] = seq
        text = draw.event(self.items[name].kind, self.items[name].fields)
        line = b"%s %s %s" % (name, draw.choice(SEQS) if draw.chance(0.02) else b"%d" % seq, text)
        if draw.chance(0.0015):
            line += b"&a=" + b"y" * (draw.choice([16383, 16384, 16385, 20000]) - len(line) - 3)
        return draw.mutated(line, 2).replace(b"\n", b"") if draw.chance(0.05) else line


# What clients are told


def told_rows(session, sub):
    """The rows of a subscription's item as bytes, in their order, None for null; and how many were lost in between."""
    return [row if isinstance(row, int) else [None if value is None else value.encode() for value in row]
            for row in session.rows.get(sub, [])]


def keep_row(session, line):
    """Keeps each row that comes, and each count of lost updates."""
    if line.startswith(("U,", "OV,")):
        tag, sub, rank, *rest = line.split(",")
        rows = session.rows.setdefault(int(sub), [])
        rows.append(list(session.told.row(int(sub), int(rank))) if tag == "U" else int(rest[0]))


def updates_of(item):
    """The numbers of an item's updates."""
    return [number for number, entry in enumerate(item.entries, 1) if entry.cells is not None]


class Client:
    """A client of all items in mode RAW, from before the feeds begin."""

    def __init__(self, address, items, shared):
        self.items = items
        self.session = Session(address)
        self.session.rows, self.session.watch = {}, keep_row
        for sub, item in enumerate(items + [shared], 1):
            self.session.add(sub, [item.name.decode()], [name.decode() for name in item.fields], "RAW")
        self.wanted, self.fault = None, None
        self.thread = threading.Thread(target=self._hear)
        self.thread.start()

    def _hear(self):
        """Hears lines until as many updates are told as are wanted, and no longer than 10 s after the last one."""
        try:
            until = time.monotonic() + HANG
            while self.wanted is None or not self._has_all() and time.monotonic() < until:
                try:
                    line = self.session.hear(0.2)
                except TimeoutError:
                    continue
                if line != "PROBE":
                    until = time.monotonic() + HANG
        except Exception as fault:
            self.fault = fault

    def _has_all(self):
        told = [self.session.told.subscriptions[sub].items[0] for sub in self.wanted]
        return all(known.updates + known.lost == count for known, count in zip(told, self.wanted.values()))

    def judge(self, shared_count):
        """Compares what came with the items' updates."""
        counts = [len(updates_of(item)) for item in self.items] + [shared_count]
        self.wanted = dict(enumerate(counts, 1))
        self.thread.join()
        if self.fault:
            raise Differs("client", b"", "lines", repr(self.fault))
        for sub, item in enumerate(self.items, 1):
            rest = iter(updates_of(item))
            for row in told_rows(self.session, sub):
                passed = [next(rest, None) for _ in range(row if isinstance(row, int) else 1)]
                if None in passed or not isinstance(row, int) and item.own_row(passed[0]) != row:
                    raise Differs(f"client of {item.name}", b"", passed and passed[0] and item.own_row(passed[0]), row)
            if next(rest, None) is not None:
                raise Differs(f"client of {item.name}", b"", f"{len(updates_of(item))} updates", "fewer")


def judge_states(address, items):
    """Compares the snapshots of all items with their states."""
    session = Session(address)
    session.rows, session.watch = {}, keep_row
    for sub, item in enumerate(items, 1):
        fields = [name.decode() for name in item.fields]
        session.add(sub, [item.name.decode()], fields, item.kind.decode(), snapshot="true")
    try:
        session.until(lambda told: len(told.subscriptions) == len(items) and all(
            told.subscriptions[sub].frequency and is_over(told.subscriptions[sub].items[0], item)
            for sub, item in enumerate(items, 1)), HANG)
    except TimeoutError as late:
        raise Differs("snapshots", b"", "all of them", "not all") from late
    for sub, item in enumerate(items, 1):
        got = told_rows(session, sub)
        if item.kind == b"DISTINCT":
            wanted = [item.own_row(number) for number in item.recent()]
        elif item.kind == b"MERGE":
            wanted = item.rows[-1:] if item.number() else []
        else:
            command = item.fields.index(b"command")
            wanted = [row[:command] + [b"ADD"] + row[command + 1:] for _, row in sorted(item.keys.items())]
        if got != wanted:
            raise Differs(f"snapshot of {item.name}", b"", wanted, got)
    session.close()


def is_over(known, item):
    """Whether a client knows all of an item's snapshot."""
    return (known.updates > 0 or item.number() == 0) if item.kind == b"MERGE" else known.snapshot_over


def count_shared(feeds):
    """How many events were published on the shared item. Each has a number of its own."""
    numbers = [number for feed in feeds for number in feed.shared]
    count = len(numbers)
    if len(set(numbers)) < len(numbers) or not set(numbers) <= set(range(1, count + 1)):
        raise Differs("the shared item", b"", f"numbers from 1 to {count}, each once", sorted(numbers))
    return count


def judge_shared(rows, count):
    """Compares what came of the shared item with what was published on it: of each feed its updates in order."""
    last = {}
    for row in rows:
        if not isinstance(row, int):
            feed, seq = map(int, row[0].split(b"."))
            if seq <= last.get(feed, 0):
                raise Differs("the shared item", b"", f"more than {last[feed]}", seq)
            last[feed] = seq
    if sum(row if isinstance(row, int) else 1 for row in rows) != count:
        raise Differs("the shared item", b"", f"{count} updates", rows)


def unit(draw, count, told):
    """Tries so many lines, over some feeds at once, and gives how many they were. `told` counts the replies."""
    names = {b"%s%d" % (begin, number) for begin, _, _ in KINDS for number in range(FEEDS)}
    feeds = [Feed(type(draw)(draw.words, number), number, names, told) for number in range(FEEDS)]
    items = [item for feed in feeds for item in feed.items.values()]
    shared = Item(SHARED, b"MERGE", [b"a"])
    with serving("".join(map(declared, items + [shared]))) as server, ThreadPoolExecutor(FEEDS) as several:
        client = Client(server.address, items, shared)
        done = sum(several.map(lambda feed: feed.run(server.feed_port, -(-count // FEEDS)), feeds))
        shared_count = count_shared(feeds)
        client.judge(shared_count)
        judge_states(server.address, items)
        judge_shared(told_rows(client.session, len(items) + 1), shared_count)
        client.session.close()
        return done
