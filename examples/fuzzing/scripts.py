"""Scripts of `tlcpd replay`: what they print, the status and the fault, by worlds.py. And configs of `tlcpd serve`, and
words that are no command."""

import re
import subprocess

from draw import POOLS
from forms import is_name, item
from trying import Differs, HANG, program
from worlds import MOST_CONNECTIONS, MOST_ITEMS, BadLine, World

# A case is a line.
CASES_OF_UNIT = 1000
LINES_OF_SCRIPT = [0, 1, 5, 20, 40, 80, 160, 300]
WEIGHTS = {"pub": 20, "enq": 22, "take": 18, "req": 14, "add": 9, "clear": 2, "lose": 1.5, "tick": 5, "conn": 1,
           "open": 1, "item": 1, "set": 0.3, "comment": 1, "burst": 0.3}
CONTROLS = {b"add": 6, b"delete": 3, b"reconf": 3, b"constrain": 2, b"force_rebind": 0.5, b"destroy": 0.3}
OTHER_NAMES = [b"wsok", b"wsok", b"msg", b"heartbeat", b"Control", b"control.txt", b"-"]
WIDE = b",".join(b"f%d" % number for number in range(9))
OPENING = [b"item q MERGE a,b,c", b"item w MERGE " + WIDE, b"item d DISTINCT a,b", b"item k COMMAND key,command,a,b",
           b"open c", b"conn h http", b"req h create_session LS_content_length=2000",
           b"add c 1 q a,b MERGE snapshot=true", b"add c 2 d b,a DISTINCT",
           b"add c 3 k a,key,command COMMAND snapshot=true", b"add h 4 q,d a RAW",
           b"add c 5 w %s MERGE buffer=3" % WIDE]
BAD_LINES = [b"nonsense", b"take", b"take c 0", b"take c 1001", b"take c 01", b"take  c", b" take c", b"take c ",
             b"enq c 1", b"enq c 1 1 0", b"enq c 1 1 1001", b"pub 0 1 q a=1", b"pub 65 1 q a=1", b"pub 1 0 q a=1",
             b"clear 1 999", b"item n FOO a", b"item n MERGE", b"item n MERGE a,a", b"item n MERGE a,",
             b"item n COMMAND key,a", b"item n!w MERGE a", b"item " + b"n" * 65 + b" MERGE a", b"tick", b"tick -1",
             b"conn n", b"conn n tcp", b"open", b"set", b"set a b", b"req c", b"req c ", b"req  c wsok", b"\r", b"\0",
             b"\xef\xbb\xbf# mark", b"take c\r", b"#\n\r", b"pub 1 1000000000000000000 q a=1",
             b"tick 1000000000000000000", b"lose c d"]


class Facts:
    """What a world has, for requests that are drawn on a connection."""

    groups = [1, 1, 2, 4]

    def __init__(self, draw, world, name):
        self.draw, self.world = draw, world
        self.items, self.set_name = world.items, world.set_name
        connection = world.connections[name]
        self.link = connection.link
        self.own = connection.session

    def session(self):
        if self.own is not None and self.draw.chance(0.8):
            return b"S%d" % self.own.number
        return b"S%d" % self.draw.randint(0, len(self.world.sessions) + 1)

    def sub(self):
        if self.own is not None and self.own.subs and self.draw.chance(0.5):
            return self.draw.choice(list(self.own.subs))
        return self.draw.choice([1, 2, 3, 4, 5, 6, 999999999])

    def count(self):
        if self.own is None:
            return b"0"
        last, given_up = len(self.own.lines), self.own.given_up
        if given_up and self.draw.chance(0.6):
            return b"%d" % (given_up + self.draw.randint(-1, 1))
        return b"%d" % max(0, self.draw.choice([0, 1, last, last - 1, last + 1, last // 2]))


class Maker:
    """Draws a script line by line, and does each line in a world of its own."""

    def __init__(self, draw):
        self.draw, self.world = draw, World()
        self.lines, self.output, self.bad = [], [], None
        self.seqs = {}
        # How many lines came in bursts.
        self.burst = 0

    def add_line(self, line, keep_bad=0.015):
        """Adds a line. One that is bad is kept with this probability, and ends the script."""
        before = self.world.number
        try:
            self.output += self.world.do(line)
        except BadLine:
            if not self.draw.chance(keep_bad):
                self.world.number = before
                return
            self.bad = self.world.number
        self.lines.append(line)

    def small(self, count):
        """Draws so many lines. After a bad one some more come, which nothing is to be seen of."""
        for line in OPENING:
            if self.bad is None and self.draw.chance(0.95):
                self.add_line(line)
        while len(self.lines) < count + self.burst and self.bad is None:
            for line in self.drawn().split(b"\n"):
                if self.bad is None:
                    self.add_line(line)
        if self.bad is not None and self.draw.chance(0.7):
            self.lines += [b"item late MERGE a", b"take c 9", b"nonsense"][:self.draw.randint(1, 3)]

    def large(self):
        """Declares as many names as may be, or one more."""
        form, most = self.draw.choice([(b"item i%d MERGE a", MOST_ITEMS), (b"conn i%d ws", MOST_CONNECTIONS)])
        for number in range(most + self.draw.randint(-1, 1)):
            self.add_line(form % number)
        for line in (form % 99999, b"conn i1 ws", b"nonsense"):
            if self.bad is None:
                self.add_line(line, keep_bad=1)

    def drawn(self):
        """The next line, or some lines."""
        draw = self.draw
        if draw.chance(0.01):
            return draw.choice(BAD_LINES)
        line = getattr(self, "_" + draw.by_weight(WEIGHTS))()
        return draw.mutated(line, 2) if draw.chance(0.03) else line

    def _any(self, names, fallback):
        return self.draw.choice(list(names)) if names else fallback

    def _connection(self):
        """A connection, most of the time one that has a session."""
        having = [name for name, connection in self.world.connections.items() if connection.session is not None]
        return self._any(having if self.draw.chance(0.9) else self.world.connections, b"c")

    def _pub(self):
        found = self._any(self.world.items, b"q")
        if found not in self.world.items:
            return b"pub 1 1 q a=1"
        kind, fields = self.world.items[found].kind, self.world.items[found].fields
        times = self.draw.choice([1] * 12 + [3, 10, 70])
        return b"\n".join(b"pub %s %s" % (self._seq(found), self.draw.event(kind, fields)) for _ in range(times))

    def _burst(self):
        """Many lines on a new item and a new session, up to a limit and past it. Then it is bound again some times."""
        name, before = b"b%d" % self.world.number, len(self.lines)
        kind, mode = self.draw.choice([(b"MERGE", b"MERGE"), (b"DISTINCT", b"DISTINCT"), (b"MERGE", b"RAW")])
        size = self.draw.randint(254, 257)
        for line in (b"item %s %s a,b" % (name, kind), b"open " + name,
                     b"add %s 1 %s a,b %s buffer=%d" % (name, name, mode, size)):
            self.add_line(line)
        session = self.world.connections[name].session
        if session is not None:
            self.draw.choice([self._many_requests, self._many_updates, self._long_updates])(name, session.number)
            self.add_line(b"take %s 1000" % name)
            for _ in range(self.draw.randint(0, 4)):
                self._bind_near(name, session)
        self.burst += len(self.lines) - before
        return b"# burst"

    def _many_requests(self, name, number):
        """More requests than may wait, perhaps with takes between them."""
        ops = [b"reconf&LS_subId=1&LS_requested_max_frequency=unlimited",
               b"constrain&LS_requested_max_bandwidth=unlimited"]
        for op in self.draw.choices(ops, [9, 1], k=self.draw.choice([520, 1500])):
            self.add_line(b"req %s control LS_reqId=1&LS_session=S%d&LS_op=%s" % (name, number, op))
            if self.draw.chance(0.01):
                self.add_line(b"take %s 300" % name)

    def _many_updates(self, name, _number):
        """As many updates as a slot keeps, or some more."""
        for seq in range(1, self.draw.randint(255, 260)):
            self.add_line(b"pub 1 %d %s a=%d" % (seq, name, seq))
            self.add_line(b"enq %s 1 1" % name)

    def _long_updates(self, name, _number):
        """Updates whose lines have as many bytes as are kept, or some more."""
        for seq in range(1, self.draw.randint(60, 80)):
            self.add_line(b"pub 1 %d %s a=%d%s" % (seq, name, seq, b"v" * 4000))
            self.add_line(b"enq %s 1 1" % name)
            self.add_line(b"take %s 4" % name)

    def _bind_near(self, name, session):
        """Binds a session with a count about the least or the greatest that can be had, and takes lines."""
        near = self.draw.choice([session.given_up, session.given_up, len(session.lines)])
        count = max(0, near + self.draw.randint(-1, 1))
        self.add_line(b"req %s bind_session LS_session=S%d&LS_recovery_from=%d" % (name, session.number, count))
        self.add_line(b"take %s %d" % (name, self.draw.choice([5, 1000])))

    def _clear(self):
        return b"clear " + self._seq(self._any(self.world.items, b"q"))

    def _seq(self, found):
        """An adapter, a seq and an item."""
        adapter = self.draw.choice([1, 1, 1, 2, 64])
        seq = self.seqs.get((adapter, found), 0) + self.draw.choice([0, 1, 1, 1, 1, 1, 1, 1, 2, 10])
        self.seqs[adapter, found] = seq
        return b"%d %d %s" % (adapter, seq, found)

    def _enq(self):
        name = self._connection()
        session = self.world.connections[name].session if name in self.world.connections else None
        sub = self._any(session.subs if session else None, 1)
        rank = self.draw.randint(0, 2) if self.draw.chance(0.2) else 1
        times = self.draw.choice([b"", b" 1", b" 3", b" 64", b" 65", b" 1000"])
        return b"enq %s %d %d%s" % (name, sub, rank, times)

    def _take(self):
        return b"take %s%s" % (self._connection(), self.draw.choice([b"", b" 1", b" 4", b" 9", b" 100", b" 1000"]))

    def _lose(self):
        return b"lose " + self._connection()

    def _tick(self):
        return b"tick %d" % (self.world.now + self.draw.choice([0, 1, 10, 100, 500, 1000, 10000, 29999, 30000, -1]))

    def _conn(self):
        return b"conn %s %s" % (self.draw.name(4), self.draw.choice([b"ws", b"http"]))

    def _open(self):
        return b"open " + self.draw.name(3)

    def _set(self):
        return b"set " + self.draw.choice([b"DEFAULT", b"DEMO", self.draw.name(64)])

    def _comment(self):
        return self.draw.choice([b"", b"# comment", b"#\xff\xfe\0", b"#" * 3000])

    def _item(self):
        kind = self.draw.choice([b"MERGE", b"DISTINCT", b"COMMAND"])
        fields = [b"f%d" % number for number in range(self.draw.choice([1, 2, 3, 5, 62, 63, 64, 65]))]
        if kind == b"COMMAND":
            fields[:2] = [b"key", b"command"]
        self.draw.shuffle(fields)
        return b"item %s %s %s" % (self.draw.name(5), kind, b",".join(fields))

    def _add(self):
        draw, name = self.draw, self._connection()
        if name not in self.world.connections or not self.world.items:
            return b"add c 1 q a MERGE"
        facts = Facts(draw, self.world, name)
        mode, group, schema = draw.subscription(facts)
        words = [b"add", name, b"%d" % facts.sub(), b",".join(group) or b",", b",".join(schema) or b",", mode]
        for begin, pool in ((b"snapshot=", b"LS_snapshot"), (b"buffer=", b"LS_requested_buffer_size"),
                            (b"frequency=", b"LS_requested_max_frequency")):
            if draw.chance(0.3):
                words.append(begin + draw.choice(POOLS[pool][draw.chance(0.05)]).replace(b" ", b""))
        if draw.chance(0.02):
            at = draw.randrange(2, len(words))
            words[at] = draw.mutated(words[at], 1)
        return b" ".join(words)

    def _req(self):
        draw, name = self.draw, self._connection()
        if name not in self.world.connections or not self.world.items:
            return b"req c wsok"
        facts = Facts(draw, self.world, name)
        request = draw.by_weight({b"control": 12, b"create_session": 2, b"bind_session": 5, b"": 1})
        if request == b"":
            return b"req %s %s%s" % (name, draw.choice(OTHER_NAMES), draw.choice([b"", b" ", b" a=1", b" a&a"]))
        if request == b"control":
            pairs = draw.control(facts, draw.by_weight(CONTROLS), b"r%d" % len(self.lines))
        else:
            pairs = draw.opening(facts, request)
        text = draw.form(pairs)
        if draw.chance(0.002):
            text += b"&x=" + b"y" * draw.choice([50000 - len(text) - 3, 50001 - len(text) - 3, 100000])
        return b"req %s %s %s" % (name, request, text)


def script(draw, count):
    """A script, and what it prints: how many lines it has, and what came of it."""
    maker = Maker(draw)
    is_large = draw.chance(0.003)
    if is_large:
        maker.large()
    else:
        maker.small(min(count, draw.choice(LINES_OF_SCRIPT)))
    text = b"\n".join(maker.lines) + draw.choice([b"", b"\n"]) if maker.lines else b""
    output = "".join(text + "\n" for text in maker.output).encode()
    fault = b"" if maker.bad is None else b"tlcpd: bad script line %d\n" % maker.bad
    tried("script", ["replay"], text, 0 if maker.bad is None else 3, lambda got: got == output, output, fault)
    # The many lines of a large one are alike.
    return 1 if is_large else len(maker.lines), "scripts to the end" if maker.bad is None else "bad scripts"


# Configs


ODD_CONFIG_LINES = [b"", b"#", b"# \xff", b"set A", b" ", b"x", b"set  A", b"set MERGE a", b"a MERGE a b", b"\r"]
SERVED = re.compile(rb"listening [1-9][0-9]* [1-9][0-9]*\nstopped\n")


def bad_line(lines):
    """The first line of a config that is refused, or None."""
    declared, first = set(), True
    for number, line in enumerate(lines, 1):
        if not line or line.startswith(b"#"):
            continue
        words = line.split(b" ")
        if not (first and len(words) == 2 and words[0] == b"set" and is_name(words[1])):
            found = item(words)
            if found is None or found[0] in declared or len(declared) == MOST_ITEMS:
                return number
            declared.add(found[0])
        first = False
    return None


def config_line(draw, number):
    """A line of a config, most of the time a good one."""
    if draw.chance(0.03):
        return draw.choice(ODD_CONFIG_LINES)
    kind = draw.choice([b"MERGE", b"DISTINCT", b"COMMAND"])
    fields = draw.sample([b"a", b"b", b"c", b"d", b"e.-_9"], draw.randint(1, 4))
    if kind == b"COMMAND":
        fields = draw.sample(fields + [b"key", b"command"], len(fields) + 2)
    line = b"%s %s %s" % (b"i%d" % number if draw.chance(0.99) else draw.name(65), kind, b",".join(fields))
    return draw.mutated(line, 1) if draw.chance(0.03) else line


def config(draw, count):
    lines = [b"set " + draw.name(64)] if draw.chance(0.5) else []
    most = 4099 if draw.chance(0.01) else min(count, draw.choice([0, 1, 3, 10, 30, 100]))
    while len(lines) < most:
        lines += config_line(draw, len(lines)).split(b"\n")
    text = b"\n".join(lines) + draw.choice([b"", b"\n"]) if lines else b""
    bad = bad_line(lines)
    if bad is None:
        tried("config", ["serve", "0", "0", "0"], text, 0, SERVED.fullmatch, SERVED.pattern, b"")
    else:
        tried("config", ["serve", "0", "0", "0"], text, 8, lambda got: got == b"", b"",
              b"tlcpd: bad config line %d\n" % bad)
    return len(lines), "configs that are served" if bad is None else "bad configs"


# Words

NO_COMMANDS = [[], ["replay", "x"], ["Replay"], ["serve"], ["serve", "0"], ["serve", "0", "0", "0", "0"],
               ["serve", "65536", "0"], ["serve", "0", "-1"], ["serve", "0", "0", "x"],
               ["serve", "0", "0", "1000000000000000000"], ["serve", "", "0"], ["soak"], ["soak", "1"],
               ["soak", "1", "1000001"], ["soak", "01", "1"], ["soak", "1", "01"], ["soak", "-1", "1"],
               ["soak", "1000000000000000000", "1"], ["soak", "1", "1", "1"], ["--help", "x"], ["replay", "--help"],
               ["-h"], ["--", "replay"], ["tap"], ["relay"], ["\u00e9"], [" replay"], [""]]


def no_command(draw, _count):
    words = draw.choice(NO_COMMANDS)
    tried(f"words {words}", words, b"item q MERGE a\n", 2, lambda got: got == b"", b"", b"tlcpd: usage\n")
    return 1, "words that are no command"


def tried(name, words, text, status, is_right, output, fault):
    """Runs the program, and compares what comes."""
    try:
        run = subprocess.run(program() + words, input=text, capture_output=True, timeout=HANG, check=False)
    except subprocess.TimeoutExpired as late:
        raise Differs(name, text, "an end", f"none in {HANG} s") from late
    if (run.returncode, run.stderr) != (status, fault):
        raise Differs(name, text, (status, fault), (run.returncode, run.stderr))
    if not is_right(run.stdout):
        raise Differs(name, text, *first_difference(output, run.stdout))


def first_difference(wanted, got):
    """The first lines that differ, with their numbers."""
    wanted, got = wanted.split(b"\n"), got.split(b"\n")
    for number, pair in enumerate(zip(wanted, got), 1):
        if pair[0] != pair[1]:
            return (number, pair[0]), (number, pair[1])
    return f"{len(wanted)} lines", f"{len(got)} lines"


def unit(draw, count, told):
    """Tries so many lines, and gives how many they were. `told` counts what came of them."""
    done = 0
    while done < count:
        kind = draw.by_weight({script: 85, config: 12, no_command: 3})
        lines, what = kind(draw, count - done)
        done += lines
        told[what] += 1
    return done
