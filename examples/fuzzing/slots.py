"""Slots, by docs/SCRIPT.md and docs/TLCP.md ("Modes"): what a slot has to tell next, and how it is written."""

from urllib.parse import quote_from_bytes

MOST_RAW = 256
# What stands for itself in a coded value: all of ASCII that can be seen, and the space, except `%` and `|`.
PLAIN = "".join(chr(byte) for byte in range(32, 127) if chr(byte) not in "%|")


class Slot:
    """An item of a subscription. `upto` is the number of the event that it enqueued last, and `place` that up to which
    its lines tell of the item. In COMMAND `place` is that of the last Clear that was told, and each key that had a turn
    has a place of its own."""

    def __init__(self, session, sub, rank, item, asked, number):
        self.session, self.sub, self.rank, self.item = session, sub, rank, item
        self.number = number
        self.mode = asked["mode"]
        self.size = asked["buffer"] or (256 if self.mode == b"DISTINCT" else 1)
        self.places = [item.fields.index(name) for name in asked["schema"]]
        self.frequency = None if self.mode == b"RAW" else asked["frequency"]
        self.last_update = None
        self.upto = self.place = self.base = item.number()
        self.owed, self.owes_end = [], False
        self.row, self.told_first, self.table, self.key_places = None, False, {}, {}
        self._owe(asked["snapshot"])

    def _owe(self, rows):
        if self.mode == b"RAW" or rows == 0:
            return
        if self.mode == b"MERGE":
            self.place = max(self.base - 1, 0)
        else:
            self.owed = sorted(self.item.keys) if self.mode == b"COMMAND" else self.item.recent()[-rows:]
            self.owes_end = True

    def lag(self):
        return self.item.number() - self.upto

    def is_pending(self):
        """Whether anything is enqueued that wasn't told, or owed of a snapshot."""
        if self.owed or self.owes_end:
            return True
        if self.mode == b"COMMAND":
            return self.clear() is not None or next(self._touched(self.place), None) is not None
        return self.place < self.upto

    def clear(self):
        """The last Clear that is still to be told."""
        return self.item.last_clear(self.place, self.upto)

    def line(self):
        """The text of the next line, where there is one. What makes no line is passed."""
        if self.mode == b"MERGE":
            return self._merge()
        if self.mode == b"RAW":
            return self._raw()
        clear = self.clear()
        if self.owes_end and (clear or not self.owed):
            self.owed, self.owes_end = [], False
            return self._text("EOS")
        if clear:
            self.place, self.table, self.key_places = clear, {}, {}
            return self._text("CS")
        return self._distinct() if self.mode == b"DISTINCT" else self._command()

    def _updates(self):
        """The numbers of the updates that wait."""
        entries = self.item.entries
        return [number for number in range(self.place + 1, self.upto + 1) if entries[number - 1].cells is not None]

    def _raw(self):
        waiting = self._updates()
        lost = len(waiting) - MOST_RAW
        if lost > 0:
            self.place = waiting[lost] - 1
            return self._text("OV") + f",{lost}"
        return self._own(waiting[0]) if waiting else None

    def _own(self, number):
        self.place = number
        return self._update(self.item.own_row(number))

    def _distinct(self):
        if self.owed:
            return self._update(self.item.own_row(self.owed.pop(0)))
        waiting = self._updates()[-self.size:]
        return self._own(waiting[0]) if waiting else None

    def _merge(self):
        while self.place < self.upto:
            self.place = max(self.place, self.upto - self.size) + 1
            row = self.item.rows[self.place]
            if not self.told_first or self._projected(row) != self.row:
                self.told_first = True
                return self._update(row)
        return None

    def _touched(self, after):
        """The keys that events after a number touch, up to the last one enqueued, by their first touch after their own
        places. Those that are owed have their turn already."""
        seen = set(self.owed)
        for number in range(after + 1, self.upto + 1):
            key = self.item.entries[number - 1].key
            if key is not None and key not in seen and number > self.key_places.get(key, 0):
                seen.add(key)
                yield key

    def _command(self):
        while True:
            key = self.owed.pop(0) if self.owed else next(self._touched(self.place), None)
            if key is None:
                return None
            self.key_places[key] = self.upto
            line = self._turn(key)
            if line is not None:
                return line
            if not self.owed and self.owes_end:
                return self.line()

    def _turn(self, key):
        """The line of a key's turn, if there is one."""
        row, had = self.item.key_row(key, self.upto), self.table.get(key)
        if row is None and had is None:
            return None
        told = [None] * len(self.item.fields) if row is None else list(row)
        word = b"DELETE" if row is None else b"ADD" if had is None else b"UPDATE"
        if word == b"UPDATE" and self._projected(told) == had:
            return None
        self.table[key] = self._projected(told)
        if row is None:
            del self.table[key]
        told[self.item.fields.index(b"key")] = key
        told[self.item.fields.index(b"command")] = word
        return self._update(told)

    def _projected(self, row):
        return [row[place] for place in self.places]

    def _text(self, tag):
        return f"{tag},{self.sub},{self.rank}"

    def _update(self, row):
        row = self._projected(row)
        coded = spelled(self.row, row)
        self.row = row
        return self._text("U") + "," + coded


def escaped(value):
    """A value as a coded field."""
    if value is None:
        return "#"
    if value == b"":
        return "$"
    first = f"%{value[0]:02X}" if value[:1] in (b"#", b"$", b"^") else quote_from_bytes(value[:1], PLAIN)
    return first + quote_from_bytes(value[1:], PLAIN)


def spelled(previous, row):
    """The coded fields of a row after the previous one, which is None before the first."""
    tokens, run = [], 0
    for place, value in enumerate(row):
        if previous is not None and previous[place] == value:
            run += 1
            continue
        tokens += unchanged(run)
        run = 0
        tokens.append(escaped(value))
    return "|".join(tokens + unchanged(run))


def unchanged(run):
    return [f"^{run}"] if run > 2 else [""] * run
