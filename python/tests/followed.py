"""What `follow` makes of packets, worked out anew: packets read byte by byte as docs/JOURNAL.md spells them, and the commits
that fit, one after the other, over tables that keep of each row whether it stands."""
import re

KEYWORDS = set(("CREATE TABLE KEY VALID INT TEXT PUT REMOVE SELECT FROM WHERE AND OR AS OF AT COUNT SUM AVG MIN MAX BY OVER "
                "SYSTEM ALL TO JOIN WITH ON FOREVER valid_from valid_to").split())
HEADER = b"timeline journal"
MOST_ROWS, MOST_VERSIONS, MOST_TABLES = 16_777_216, 16_777_215, 64


class NoPacket(Exception):
    """No packet begins there."""


class Bytes:
    """Reads bytes from a place on."""

    def __init__(self, given, at):
        self.given, self.at = given, at

    def take(self, count):
        if self.at + count > len(self.given):
            raise NoPacket
        self.at += count
        return self.given[self.at - count:self.at]

    def number(self, size, signed=False):
        return int.from_bytes(self.take(size), "big", signed=signed)

    def one_of(self, *values):
        value = self.number(1)
        if value not in values:
            raise NoPacket
        return value

    def name(self):
        word = self.take(self.number(1))
        if not re.fullmatch(rb"[A-Za-z_][A-Za-z0-9_]{0,63}", word) or word.decode() in KEYWORDS:
            raise NoPacket
        return word

    def schema(self):
        name, valid = self.name(), self.one_of(0, 1)
        columns = [(self.name(), self.one_of(1, 2)) for _ in range(self.one_of(*range(1, 17)))]
        if len({it for it, _ in columns}) < len(columns) or self.number(1) >= len(columns):
            raise NoPacket
        return name, valid, [kind for _, kind in columns]

    def cell(self):
        kind = self.one_of(1, 2)
        if kind == 1:
            self.take(8)
        else:
            try:
                self.take(self.number(2)).decode("utf-8")
            except UnicodeDecodeError:
                raise NoPacket from None
        return kind

    def row(self):
        kinds, valid = [self.cell() for _ in range(self.one_of(*range(1, 17)))], self.one_of(0, 1)
        if valid and self.number(8, True) >= self.number(8, True):
            raise NoPacket
        return kinds, valid

    def change(self):
        table, closes = self.number(2), [self.number(4) for _ in range(self.number(4))]
        if any(one >= other for one, other in zip(closes, closes[1:])):
            raise NoPacket
        return table, closes, [self.row() for _ in range(self.number(4))]

    def body(self):
        kind = self.one_of(1, 2, 4, 5)
        if kind == 1:
            return kind, self.schema()
        if kind == 2:
            return kind, self.change()
        if kind == 4:
            return kind, self.number(8, True)
        return kind, (self.number(2), self.number(4))

    def packet(self):
        """A version, a record and what it does."""
        version = self.number(4)
        if not 1 <= version <= MOST_VERSIONS:
            raise NoPacket
        start = self.at
        self.take(4)
        body = self.body()
        return version, self.given[start:self.at], body


class Tables:
    """The tables after some commits: of each its name, whether its rows have a period, what its columns hold, of each row
    whether it stands, and the floor."""

    def __init__(self):
        self.tables, self.moments, self.records = [], [], []

    def goes_on(self, record, body):
        """Whether a commit fits; the tables then have it."""
        kind, what = body
        if len(self.records) >= MOST_VERSIONS or not (self.made, self.changed, None, self.stated, self.floored)[kind - 1](what):
            return False
        self.records.append(record)
        return True

    def made(self, schema):
        if len(self.tables) >= MOST_TABLES or any(it["name"] == schema[0] for it in self.tables):
            return False
        self.tables.append({"name": schema[0], "valid": schema[1], "kinds": schema[2], "rows": [], "floor": 0})
        return True

    def changed(self, change):
        number, closes, opens = change
        if number >= len(self.tables):
            return False
        table = self.tables[number]
        rows = table["rows"]
        fits = all(it < len(rows) and rows[it] for it in closes) and len(rows) + len(opens) <= MOST_ROWS
        if not fits or any(it != (table["kinds"], table["valid"]) for it in opens):
            return False
        for it in closes:
            rows[it] = False
        rows += [True] * len(opens)
        return True

    def stated(self, moment):
        if self.moments and moment <= self.moments[-1]:
            return False
        self.moments.append(moment)
        return True

    def floored(self, asked):
        number, floor = asked
        if number >= len(self.tables) or not self.tables[number]["floor"] < floor <= len(self.records):
            return False
        self.tables[number]["floor"] = floor
        return True

    def journal(self):
        """The journal of these commits."""
        return HEADER + b"".join(b"\1" + it for it in self.records) + b"\0"


def follow(given):
    """The status of `follow` onto an empty journal, what it writes, and the journal that is then there."""
    reader, first, at = Bytes(given, 0), {}, 0
    while at < len(given):
        try:
            version, record, body = reader.packet()
        except NoPacket:
            return 10, b"! packet %d\n" % at, Tables().journal()
        first.setdefault(version, (at, record, body))
        at = reader.at
    tables = Tables()
    while len(tables.records) + 1 in first:
        at, record, body = first[len(tables.records) + 1]
        if not tables.goes_on(record, body):
            return 10, b"! packet %d\n" % at, Tables().journal()
    return 0, b"follow @%d\n" % len(tables.records), tables.journal()
