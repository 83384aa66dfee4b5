"""Items and their histories, by docs/SCRIPT.md: what a publish is answered, and the states that an item had."""

from dataclasses import dataclass

MOST_BYTES = 4096
MOST_KEYS = 1024
SNAPSHOT_ROWS = 32


class Refused(Exception):
    """Why a publish is refused: `repeated`, `nokey`, `badcommand`, `toolong` or `toomanykeys`, and a number."""

    def __init__(self, why, number=None):
        super().__init__(why)
        self.why = why
        self.number = number


@dataclass
class Entry:
    """An event of a history: an update's values by the names of fields, or None for a Clear; and the key it names."""

    cells: object
    key: object = None


def bytes_of(row):
    """How many bytes the texts of some values have."""
    return sum(len(text) for text in row if text is not None)


class Item:
    """An item with its whole history, whose numbers begin at 1."""

    def __init__(self, name, kind, fields):
        self.name = name
        self.kind = kind
        self.fields = fields
        self.entries = []
        self.seqs = {}
        # MERGE: the row after each number. COMMAND: the rows by key, now, and each key's rows by number.
        self.rows = [[None] * len(fields)]
        self.keys = {}
        self.changes = {}
        self.clears = []

    def number(self):
        return len(self.entries)

    def own_row(self, number):
        """The row of an update by itself: what it doesn't name is null."""
        cells = self.entries[number - 1].cells
        return [cells.get(name) for name in self.fields]

    def publish(self, adapter, seq, cells, allowed=lambda: None):
        """The number of the event. Raises Refused. What `allowed` raises is raised after every other cause."""
        if seq <= self.seqs.get(adapter, 0):
            raise Refused("repeated", self.seqs[adapter])
        row = self._row_after(cells)
        allowed()
        self.seqs[adapter] = seq
        self._add(cells, row)
        return self.number()

    def _row_after(self, cells):
        """The row that an event makes: of the item in MERGE, of its key in COMMAND; None where it makes none."""
        if cells is None:
            return [None] * len(self.fields) if self.kind == b"MERGE" else None
        row = None
        if self.kind == b"MERGE":
            row = [cells.get(name, old) for name, old in zip(self.fields, self.rows[-1])]
        if self.kind == b"COMMAND":
            row = self._key_row_after(cells)
        most = max(bytes_of(cells.values()), bytes_of(row or []))
        if most > MOST_BYTES:
            raise Refused("toolong", most)
        if self.kind == b"COMMAND" and row and cells[b"key"] not in self.keys and len(self.keys) == MOST_KEYS:
            raise Refused("toomanykeys")
        return row

    def _key_row_after(self, cells):
        if cells.get(b"key") is None:
            raise Refused("nokey")
        if cells.get(b"command") not in (b"ADD", b"UPDATE", b"DELETE"):
            raise Refused("badcommand")
        if cells[b"command"] == b"DELETE":
            return None
        old = self.keys.get(cells[b"key"], [None] * len(self.fields))
        row = [cells.get(name, value) for name, value in zip(self.fields, old)]
        row[self.fields.index(b"command")] = None
        return row

    def _add(self, cells, row):
        key = cells[b"key"] if cells is not None and self.kind == b"COMMAND" else None
        self.entries.append(Entry(cells, key))
        if cells is None:
            self.clears.append(self.number())
            self.keys = {}
        elif key is not None:
            self.changes.setdefault(key, []).append((self.number(), row))
            self.keys[key] = row
            if row is None:
                del self.keys[key]
        if self.kind == b"MERGE":
            self.rows.append(row)

    def recent(self):
        """The numbers of the last 32 updates since the last Clear."""
        first = (self.clears or [0])[-1] + 1
        return list(range(max(first, self.number() - SNAPSHOT_ROWS + 1), self.number() + 1))

    def last_clear(self, after, upto):
        """The number of the last Clear in (after, upto], or None."""
        for number in reversed(self.clears):
            if number <= upto:
                return number if number > after else None
        return None

    def key_row(self, key, upto):
        """The row of a key after a number, or None."""
        for number, row in reversed(self.changes.get(key, [])):
            if number <= upto:
                return row if self.last_clear(number, upto) is None else None
        return None
