"""What lanes of requests share: a config with items that have states, and what requests that are drawn may name."""

from draw import Draw
from feeds import declared
from items import Item
from tlcp import Feed

SET_NAME = b"SET"
# Items with and without states, and enough of them for the longest group.
KINDS = [(b"q", b"MERGE", [b"a", b"b", b"c"], 3), (b"e", b"MERGE", [b"a", b"b"], 0),
         (b"d", b"DISTINCT", [b"a", b"b"], 40), (b"n", b"DISTINCT", [b"a"], 0),
         (b"k", b"COMMAND", [b"key", b"command", b"a"], 12), (b"o", b"COMMAND", [b"command", b"b", b"key"], 0)]
MANY = 66
OPS = {b"add": 10, b"delete": 4, b"reconf": 4, b"constrain": 2, b"force_rebind": 0.3, b"destroy": 0.1}
OWN = 900


def config(items):
    return f"set {SET_NAME.decode()}\n" + "".join(map(declared, items.values()))


def new_items():
    """Items by their names, without events."""
    items = {name: Item(name, kind, fields) for name, kind, fields, _ in KINDS}
    items.update({b"i%d" % number: Item(b"i%d" % number, b"MERGE", [b"a"]) for number in range(MANY)})
    return items


def publish_states(server, items, draw):
    """Gives some items a state."""
    feed = Feed(server.feed_port, adapter=1)
    for name, kind, fields, count in KINDS:
        for number in range(count):
            cells = {field: b"%d" % draw.randrange(100) for field in fields}
            if kind == b"COMMAND":
                cells.update({b"key": b"k%d" % draw.randrange(9), b"command": b"UPDATE"})
            feed.publish(name.decode(), b"&".join(b"%s=%s" % pair for pair in cells.items()).decode())
            items[name].publish(1, number + 1, cells)
    feed.close()


class Facts:
    """What requests that are drawn for a lane may name. `own` is the session of a connection."""

    set_name = SET_NAME

    def __init__(self, draw, world, link, own):
        self.draw, self.world, self.link, self.own = draw, world, link, own
        # Lanes that go on at once stay below the limits of the server.
        self.subs, self.groups = (400, [1, 2, 30, 63, 64, 65]) if world.alone else (12, [1, 1, 2, 4])
        self.items = world.items if world.alone and draw.chance(0.5) else {
            name: item for name, item in world.items.items() if not name.startswith(b"i") or name == b"i0"}

    def session(self):
        """The name of a session, most of the time of one that is there."""
        known = [session for session in self.world.sessions if session.number is not None]
        if self.own is not None and self.own.number is not None and self.draw.chance(0.7):
            return b"S%d" % self.own.number
        if known and self.draw.chance(0.8):
            return b"S%d" % self.draw.choice(known).number
        return b"S%d" % (OWN + self.draw.randrange(100))

    def sub(self):
        return self.draw.randint(1, self.subs) if self.draw.chance(0.97) else 999999999

    def count(self):
        sessions = [session for session in self.world.sessions if session.end is None]
        session = self.own or (self.draw.choice(sessions) if sessions else None)
        last = len(session.lines) if session else 0
        return b"%d" % max(0, self.draw.choice([0, last, last, last, last - 1, last + 1, last // 2]))


def is_apart(world, asked):
    """Whether a request touches no session of another lane. A bind of a session whose last stream may have given more
    than was heard has to say a count that was heard."""
    if not asked.session or asked.session > OWN:
        return True
    session = next((session for session in world.sessions if session.number == asked.session), None)
    if session is None:
        return False
    if asked.name != "bind_session" or session.is_exact():
        return True
    count = asked.values.get("count")
    return count is not None and count <= len(session.lines)


def drawn(draw, facts, request):
    """The pairs of a control that is drawn."""
    return draw.form(draw.control(facts, draw.by_weight(OPS), request))


def lane_draw(draw, number):
    """A source of what one lane of a unit draws."""
    return Draw(draw.words, number)
