#!/usr/bin/env python3
"""Loads the same data into `timeline` and into those of SQLite, PostgreSQL, MariaDB and ClickHouse that are there, asks the same
questions of each, compares the answers row for row, and prints the seconds that each took. It is run by hand. Servers
are started before, for example in a folder DIR, a whole path, by another user than root:

    initdb -D DIR/pg -U postgres -A trust
    postgres -D DIR/pg -k DIR -c listen_addresses= -c shared_buffers=512MB &
    mariadb-install-db --no-defaults --datadir=DIR/my --auth-root-authentication-method=normal
    mariadbd --no-defaults --datadir=DIR/my --socket=DIR/socket --skip-networking --innodb-buffer-pool-size=512M &
    clickhouse-server --config-file=CONFIG &
    python3 examples/beside_sql.py --postgresql DIR --mariadb DIR/socket --clickhouse PORT

A schema `beside_sql` is made in each, and dropped in the end. A server without its option is left out. Ends with 1 where
two answers differ.

Plain data: 100,000 rows `item (id, grp, val)` in 200 versions of 500 lines, half of which take the place of an earlier
row, and `rate (grp, pct)`, a row for each of 100 groups, of which 20 change every 20 versions. Valid data: `price (item,
cents)` with valid periods, 200 items, from 800 lines in one version and 20,000 in 200 versions of 100.

In SQL a row also has its place in the order in which rows were put, `from_version`, and `to_version`, which is
2147483647 while the row stands; a price has `valid_from` and `valid_to`. The plain rows are loaded version by version,
a transaction each: an UPDATE ends the rows whose keys come again, an INSERT puts the new ones. What a line does to
older periods of a price is worked out here and not timed: SQL is spared that work, and gets the rows with both versions
at once; so does ClickHouse those of plain data too, since it changes no rows: a version's rows with both versions, an INSERT
each, into a table that is sorted by group, and by the version where rows begin; prices by where their periods begin. Each
system but ClickHouse syncs each commit. Loading has the indexes (see `indexes`) and ANALYZE in it. Last, 1,000 statements of
one row are kept all or none: by `timeline group`, and as INSERTs of one transaction, into a table with an index, in SQL.
And 1,000 statements of one row, each with the sum of each of 10 groups of 20,000 rows after it: by `timeline watch`, and
in SQL by triggers that keep the sums in a table, in one transaction, over a table that keeps no earlier rows. The items
are also loaded with a moment before each version, and asked AS OF moments: beside MariaDB's system versioning, where each
version is a transaction of one second.

The seconds are by the clock, of a question the best of several. `timeline`, `psql` and `mariadb` are a process for each
question, which reads it from a file and prints to a file. The seconds of a question are without those of an empty
script; of `timeline`, which opens the journal in them, `whole` is with them. SQLite runs in this process."""
import argparse
import itertools
import os
import random
import shutil
import sqlite3
import subprocess
import sys
import tempfile
import time

STANDS = 2**31 - 1       # the to_version of a row that stands
FOREVER = 2**63 - 1
DAYS = 4000              # periods begin from 0 to here
COLUMNS = {"item": ("id", "grp", "val"), "rate": ("grp", "pct"), "price": ("item", "cents", "valid_from", "valid_to")}


# The data: commits, each a table and its lines, or None for the commit that makes it. The first one makes version 1.

def plain_commits(batches, size):
    """A batch has 500 lines, or as many times more as the size says."""
    chance, half = random.Random(1), 250 * size
    commits, known = [("item", None), ("rate", None)], 0
    for batch in range(batches):
        if batch % 20 == 0:
            groups = chance.sample(range(100), 20) if batch else range(100)
            commits.append(("rate", [(group, chance.randrange(100)) for group in groups]))
        again = chance.sample(range(known), half) if known else []
        keys = again + list(range(known, known + 2 * half - len(again)))
        known += 2 * half - len(again)
        chance.shuffle(keys)
        commits.append(("item", [(key, chance.randrange(100), chance.randrange(-1000, 10000)) for key in keys]))
    return commits


def valid_commits(batches, size):
    chance = random.Random(2)
    ends = [0, 1000, 2000, 3000, FOREVER]
    lines = [(item, chance.randrange(100, 1000), *ends[at:at + 2]) for item in range(200) for at in range(4)]
    commits = [("price", None), ("price", lines)]
    for _ in range(batches):
        days = [chance.randrange(DAYS) for _ in range(100 * size)]
        lines = [(chance.randrange(200), chance.randrange(100, 1000), it, it + chance.randrange(1, 120)) for it in days]
        commits.append(("price", lines))
    return commits


def left(period, others):
    """What other periods leave of a period."""
    parts = [period]
    for begin, end in others:
        cut = [part for low, high in parts for part in ((low, min(high, begin)), (max(low, end), high))]
        parts = [(low, high) for low, high in cut if low < high]
    return parts


def valid_rows(commits):
    """The rows of `price` in their order, ended ones too: place, item, cents, period, from and to version."""
    rows, standing = [], {}
    for version, (_, lines) in enumerate(commits, 1):
        old, new, behind = [], [], {}
        for item, cents, *period in reversed(lines or []):
            new[:0] = [(item, cents, *part) for part in left(tuple(period), behind.get(item, []))]
            behind.setdefault(item, []).append(period)
        for place in sorted(place for item in behind for place in standing.get(item, ())):
            _, item, cents, *period = rows[place][:5]
            parts = left(tuple(period), behind[item])
            if parts != [tuple(period)]:
                rows[place][6] = version
                standing[item].discard(place)
                old += [(item, cents, *part) for part in parts]
        for row in old + new:
            standing.setdefault(row[0], set()).add(len(rows))
            rows.append([len(rows), *row, version, STANDS])
    return rows


def load_timeline(commits):
    """The statements of `timeline` that make the commits."""
    creates = {"item": "(id INT, grp INT, val INT) KEY id", "rate": "(grp INT, pct INT) KEY grp",
               "price": "(item INT, cents INT) KEY item VALID"}
    return [f"CREATE TABLE {table} {creates[table]}" if lines is None else
            "\n".join([f"PUT {table}", *(",".join(map(str, it)) for it in (COLUMNS[table], *lines)), "\\."])
            for table, lines in commits]


def load_sql(system, kind, commits):
    """The statements of SQL that make the tables, their indexes and their rows."""
    def insert(table, rows):
        texts = [f"({','.join(map(str, row))})" for row in rows]
        return [f"INSERT INTO {table} VALUES {','.join(texts[at:at + 500])}" for at in range(0, len(rows), 500)]

    statements, load, placed = [], [], {}
    for version, (table, lines) in enumerate(commits, 1):
        if lines is None:
            placed[table] = 0
            columns = (*COLUMNS[table], "from_version", "to_version")
            cells = [f"{it} {'BIGINT' if it.startswith('valid') else 'INTEGER'} NOT NULL" for it in columns]
            statements.append(f"CREATE TABLE {table} (place INTEGER PRIMARY KEY, {', '.join(cells)})")
        elif kind == "plain":
            rows = [(place, *line, version, STANDS) for place, line in enumerate(lines, placed[table])]
            placed[table] += len(lines)
            keys = f"{COLUMNS[table][0]} IN ({','.join(str(line[0]) for line in lines)})"
            load += ["BEGIN", f"UPDATE {table} SET to_version = {version} WHERE to_version = {STANDS} AND {keys}",
                     *insert(table, rows), "COMMIT"]
    if kind == "plain":
        statements += indexes(system, kind) + load
    else:
        statements += ["BEGIN", *insert("price", valid_rows(commits)), "COMMIT", *indexes(system, kind)]
    analyze = {"SQLite": "ANALYZE", "PostgreSQL": "VACUUM ANALYZE", "MariaDB": "ANALYZE TABLE"}[system]
    return statements + [f"{analyze} {table}" for table in placed]


def plain_rows(commits):
    """The rows of `item` and `rate` by the version that put them: table, and for each row its place, cells and versions."""
    ends, standing, placed, made = {}, {}, {"item": 0, "rate": 0}, []
    for version, (table, lines) in enumerate(commits, 1):
        rows = []
        for line in lines or []:
            place, key = placed[table], (table, line[0])
            placed[table] += 1
            if key in standing:
                ends[standing[key]] = version
            standing[key] = (table, place)
            rows.append((place, *line, version))
        made.append((table, rows))
    return [(table, [(*row, ends.get((table, row[0]), STANDS)) for row in rows]) for table, rows in made if rows]


def load_columns(kind, commits):
    """The statements that load the rows into ClickHouse."""
    sorted_by = {"item": "grp, from_version", "rate": "grp, from_version", "price": "valid_from"}
    made = []
    for table in dict.fromkeys(table for table, _ in commits):
        cells = [f"{it} {'Int64' if it.startswith('valid') else 'Int32'}" for it in (*COLUMNS[table], "from_version", "to_version")]
        made.append(f"CREATE TABLE {table} (place Int32, {', '.join(cells)}) ENGINE = MergeTree ORDER BY ({sorted_by[table]})")
    batches = plain_rows(commits) if kind == "plain" else [("price", valid_rows(commits))]
    made += [f"INSERT INTO {table} VALUES " + ",".join(f"({','.join(map(str, row))})" for row in rows) for table, rows in batches]
    return made + [f"OPTIMIZE TABLE {table} FINAL" for table in dict.fromkeys(table for table, _ in commits)]


def indexes(system, kind):
    """The indexes. Of the rows that stand: by key, and of prices by period. Of items that ended: by version. Where a
    system has no indexes of some rows, as MariaDB, these are of all rows. Of all rows: by group, and of items by the
    version where they begin; and of prices by both times, an R-tree, or in PostgreSQL a GiST index of ranges."""
    partial = system != "MariaDB"
    stands, ended = (f" WHERE to_version {sign} {STANDS}" if partial else "" for sign in "=<")
    behind, before = ("", "") if partial else (", to_version", "to_version, ")
    if kind == "plain":
        return [f"CREATE UNIQUE INDEX item_stands ON item (id{behind}){stands}",
                f"CREATE UNIQUE INDEX rate_stands ON rate (grp{behind}){stands}",
                f"CREATE INDEX item_ends ON item (to_version, grp, val){ended}",
                "CREATE INDEX item_begins ON item (from_version, grp, val)",
                "CREATE INDEX item_grp ON item (grp, from_version, to_version)",
                "CREATE INDEX rate_grp ON rate (grp, from_version, to_version)"]
    box = {"SQLite": [
        "CREATE VIRTUAL TABLE box USING rtree_i32 (place, valid_from, valid_last, from_version, last_version)",
        "INSERT INTO box SELECT place, valid_from, least(valid_to - 1, 2147483647), from_version, to_version - 1 FROM price"
    ], "PostgreSQL": [
        "CREATE INDEX box ON price USING gist (int8range(valid_from, valid_to), int4range(from_version, to_version))"
    ], "MariaDB": [
        "CREATE TABLE box (place INTEGER PRIMARY KEY, area LINESTRING NOT NULL, SPATIAL INDEX (area))",
        "INSERT INTO box SELECT place, LineString(Point(valid_from, from_version),"
        " Point(least(valid_to, 2147483647) - 0.5, to_version - 0.5)) FROM price"]}
    return [f"CREATE INDEX price_stands ON price ({before}valid_from, valid_to, cents){stands}", *box[system]]


# The questions: a name, statements of `timeline`, and as many statements of SQL.

SUM_OR_NONE = "CASE WHEN n > 0 THEN total END"
JOIN = """SELECT greatest(i.from_version, r.from_version) AS begins, least(i.to_version, r.to_version, {}) AS ends,
    i.id, i.grp, i.val, r.grp, r.pct FROM item i JOIN rate r
    ON r.grp = i.grp AND r.from_version < i.to_version AND i.from_version < r.to_version ORDER BY begins, i.place, r.place"""
VALID_AT = {"SQLite": "JOIN box b ON b.place = p.place WHERE b.valid_from <= {0} AND b.valid_last >= {0}"
                      " AND b.from_version <= {1} AND b.last_version >= {1}",
            "PostgreSQL": "WHERE int8range(valid_from, valid_to) @> {0}::bigint AND int4range(from_version, to_version) @> {1}",
            "MariaDB": "JOIN box b ON b.place = p.place WHERE MBRContains(b.area, Point({0}.25, {1}.25))", "timeline": "",
            "ClickHouse": "WHERE valid_from <= {0} AND valid_to > {0} AND from_version <= {1} AND to_version > {1}"}
JOIN_COLUMNS = """SELECT greatest(from_version, r_from) AS begins, least(least(to_version, r_to), {}) AS ends, id, grp, val, grp, pct
    FROM item ALL INNER JOIN (SELECT grp, pct, place AS r_place, from_version AS r_from, to_version AS r_to FROM rate) USING grp
    WHERE r_from < to_version AND from_version < r_to ORDER BY begins, place, r_place"""


def runs(events, end, value, key=""):
    """SQL for the longest runs of moments with one value, from events: moment, change of the number of rows, change of
    the total. With a key, which is a column and a comma, events have it first, and so have the runs."""
    over = f"OVER (PARTITION BY {key[:-2]} ORDER BY moment)" if key else "OVER (ORDER BY moment)"
    return f"""WITH event ({key}moment, n, total) AS ({" UNION ALL ".join(events)}),
step AS (SELECT {key}moment, SUM(n) AS n, SUM(total) AS total FROM event GROUP BY {key}moment),
state AS (SELECT {key}moment, SUM(n) {over} AS n, SUM(total) {over} AS total FROM step),
beside AS (SELECT {key}moment, n, total, LAG(n) {over} AS n_before, LAG(total) {over} AS total_before FROM state),
run AS (SELECT {key}moment, COALESCE(LEAD(moment) {over}, {end}) AS ends, n, total FROM beside
    WHERE n_before IS NULL OR (n = 0) <> (n_before = 0) OR total <> total_before)
SELECT {key}moment, ends, {value} FROM run {"WHERE n > 0" if key else ""} ORDER BY {key}moment"""


def column_runs(events, end, value, key=""):
    """The same in ClickHouse, by arrays: the numbers and totals after each moment, and the places where they change."""
    changed = "arrayFilter(i -> i = 1 OR (ns[i] = 0) != (ns[i - 1] = 0) OR totals[i] != totals[i - 1], arrayEnumerate(moments))"
    value = {"n": "if(ns[i] > 0, totals[i], 0)", "total": "totals[i]", SUM_OR_NONE: "if(ns[i] > 0, toString(totals[i]), '')"}[value]
    return f"""SELECT {key}moments[i] AS moment, if(k < length(places), moments[places[k + 1]], {end}), {value} FROM (
SELECT {key}moments, ns, totals, {changed} AS places FROM (
SELECT {key}groupArray(moment) AS moments, arrayCumSum(groupArray(n)) AS ns, arrayCumSum(groupArray(total)) AS totals FROM (
SELECT {key}moment, sum(n) AS n, sum(total) AS total FROM ({" UNION ALL ".join(events)}) GROUP BY {key}moment ORDER BY {key}moment)
{f"GROUP BY {key[:-2]}" if key else ""}))
ARRAY JOIN places AS i, arrayEnumerate(places) AS k {"WHERE ns[i] > 0" if key else ""} ORDER BY {key}moment"""


def version_runs(system, change, end, value):
    if system == "ClickHouse":
        return column_runs(["SELECT toInt64(0) AS moment, toInt64(0) AS n, toInt64(0) AS total",
                            f"SELECT toInt64(from_version) AS moment, toInt64(1) AS n, toInt64({change}) AS total FROM item",
                            f"SELECT toInt64(to_version) AS moment, toInt64(-1) AS n, toInt64(-{change}) AS total FROM item WHERE to_version < {STANDS}"],
                           end, value)
    ended = f"FROM item WHERE to_version < {STANDS} GROUP BY to_version"
    return runs(["SELECT 0, 0, 0", f"SELECT from_version, COUNT(*), SUM({change}) FROM item GROUP BY from_version",
                 f"SELECT to_version, -COUNT(*), -SUM({change}) {ended}"], end, value)


def group_runs(system, end):
    """In SQLite an event is the sum of a group's rows at a version, in the others a row: each is faster so."""
    if system == "ClickHouse":
        return column_runs(["SELECT grp, toInt64(from_version) AS moment, toInt64(1) AS n, toInt64(val) AS total FROM item",
                            f"SELECT grp, toInt64(to_version) AS moment, toInt64(-1) AS n, toInt64(-val) AS total FROM item WHERE to_version < {STANDS}"],
                           end, "total", "grp, ")
    n, val = ("COUNT(*)", "SUM(val)") if system == "SQLite" else ("1", "val")
    begins, ends = (f" GROUP BY grp, {it}" if system == "SQLite" else "" for it in ("from_version", "to_version"))
    return runs([f"SELECT grp, from_version, {n}, {val} FROM item{begins}",
                 f"SELECT grp, to_version, -{n}, -{val} FROM item WHERE to_version < {STANDS}{ends}"], end, "total", "grp, ")


def valid_runs(system, begin, end):
    if system == "ClickHouse":
        stands = f"FROM price WHERE to_version = {STANDS} AND valid_from < {end} AND valid_to > {begin}"
        return column_runs([f"SELECT toInt64({begin}) AS moment, toInt64(0) AS n, toInt64(0) AS total",
                            f"SELECT greatest(valid_from, toInt64({begin})) AS moment, toInt64(1) AS n, toInt64(cents) AS total {stands}",
                            f"SELECT valid_to AS moment, toInt64(-1) AS n, toInt64(-cents) AS total {stands} AND valid_to < {end}"], end, SUM_OR_NONE)
    rows = f"FROM price WHERE to_version = {STANDS} AND valid_from < {end} AND valid_to > {begin}"
    return runs([f"SELECT {begin}, 0, 0", f"SELECT greatest(valid_from, {begin}), COUNT(*), SUM(cents) {rows} GROUP BY 1",
                 f"SELECT valid_to, -COUNT(*), -SUM(cents) {rows} AND valid_to < {end} GROUP BY 1"], end, SUM_OR_NONE)


def questions(system, kind, last):
    """The questions of one kind of data, whose last version is given."""
    chance, end = random.Random(3), last + 1
    if kind == "plain":
        looks = [(chance.randrange(100), chance.randrange(3, end)) for _ in range(100)]
        stood = "FROM item WHERE from_version <= {0} AND to_version > {0}"
        return [
            ("100 SELECT .. WHERE grp = g AS OF v", [f"SELECT id, val FROM item WHERE grp = {g} AS OF {v}" for g, v in looks],
             [f"SELECT id, val {stood.format(v)} AND grp = {g} ORDER BY place" for g, v in looks]),
            ("10 SELECT * .. AS OF v", [f"SELECT * FROM item AS OF {v}" for _, v in looks[:10]],
             [f"SELECT id, grp, val {stood.format(v)} ORDER BY place" for _, v in looks[:10]]),
            ("10 COUNT .. OVER SYSTEM ALL", ["COUNT FROM item OVER SYSTEM ALL"] * 10, [version_runs(system, "1", end, "n")] * 10),
            ("10 SUM .. OVER SYSTEM ALL", ["SUM val FROM item OVER SYSTEM ALL"] * 10,
             [version_runs(system, "val", end, SUM_OR_NONE)] * 10),
            ("10 SUM .. BY .. OVER SYSTEM ALL", ["SUM val FROM item BY grp OVER SYSTEM ALL"] * 10,
             [group_runs(system, end)] * 10),
            ("JOIN .. OVER SYSTEM ALL", ["JOIN item WITH rate ON grp = grp OVER SYSTEM ALL"], [(JOIN_COLUMNS if system == "ClickHouse" else JOIN).format(end)])]
    ranges = [sorted(chance.sample(range(DAYS), 2)) for _ in range(10)]
    points = [(chance.randrange(DAYS), chance.randrange(2, end)) for _ in range(100)]
    cells = "p.item, p.cents, p.valid_from, p.valid_to FROM price p"
    return [
        ("10 SUM .. OVER VALID a TO b", [f"SUM cents FROM price OVER VALID {low} TO {high}" for low, high in ranges],
         [valid_runs(system, low, high) for low, high in ranges]),
        ("100 SELECT * .. VALID AT t AS OF v", [f"SELECT * FROM price VALID AT {day} AS OF {v}" for day, v in points],
         [f"SELECT {cells} {VALID_AT[system].format(day, v)} ORDER BY p.place" for day, v in points])]


MOMENTS = 1_000_000_000   # the second of version 0, from which on each version has ten of its own


def stamped_load(system, commits):
    """The statements that load the batches of items, a moment before each."""
    batches = [lines for table, lines in commits if table == "item" and lines]
    if system == "timeline":
        made = load_timeline([("item", None), *(("item", lines) for lines in batches)])
        return made[:1] + [it for at, batch in enumerate(made[1:]) for it in (f"MOMENT {MOMENTS + 10 * at}", batch)]
    made, place = [f"CREATE TABLE stamped (place INTEGER NOT NULL, {', '.join(f'{it} INTEGER NOT NULL' for it in COLUMNS['item'])},"
                   " begins TIMESTAMP(6) GENERATED ALWAYS AS ROW START, ends TIMESTAMP(6) GENERATED ALWAYS AS ROW END,"
                   " PERIOD FOR SYSTEM_TIME (begins, ends), PRIMARY KEY (id), KEY (grp, begins, ends)) WITH SYSTEM VERSIONING"], 0
    for at, lines in enumerate(batches):
        rows = ",".join(f"({place},{','.join(map(str, line))})" for place, line in enumerate(lines, place))
        place += len(lines)
        made += [f"SET timestamp = {MOMENTS + 10 * at}", "BEGIN", "INSERT INTO stamped (place, id, grp, val) VALUES " + rows
                 + " ON DUPLICATE KEY UPDATE place = VALUES(place), grp = VALUES(grp), val = VALUES(val)", "COMMIT"]
    return made + ["SET timestamp = DEFAULT", "ANALYZE TABLE stamped"]


def stamped_questions(batches):
    chance = random.Random(4)
    looks = [(chance.randrange(100), MOMENTS + 5 + 10 * chance.randrange(batches)) for _ in range(100)]
    stood = "FROM stamped FOR SYSTEM_TIME AS OF FROM_UNIXTIME({})"
    return [("100 SELECT .. WHERE grp = g AS OF MOMENT m", [f"SELECT id, val FROM item WHERE grp = {g} AS OF MOMENT {m}" for g, m in looks],
             [f"SELECT id, val {stood.format(m)} WHERE grp = {g} ORDER BY place" for g, m in looks]),
            ("10 SELECT * .. AS OF MOMENT m", [f"SELECT * FROM item AS OF MOMENT {m}" for _, m in looks[:10]],
             [f"SELECT id, grp, val {stood.format(m)} ORDER BY place" for _, m in looks[:10]])]


def kept_totals(system, name, rows):
    """The statements that make a table with triggers that keep the sum and the number of its rows by group."""
    change = ("total = total + CASE WHEN grp = NEW.grp THEN NEW.val ELSE 0 END - CASE WHEN grp = OLD.grp THEN OLD.val ELSE 0 END,"
              " n = n + CASE WHEN grp = NEW.grp THEN 1 ELSE 0 END - CASE WHEN grp = OLD.grp THEN 1 ELSE 0 END WHERE grp IN (OLD.grp, NEW.grp)")
    steps = {"INSERT": f"UPDATE {name}_sums SET total = total + NEW.val, n = n + 1 WHERE grp = NEW.grp", "UPDATE": f"UPDATE {name}_sums SET {change}"}
    made = [f"CREATE TABLE {name} (id INTEGER PRIMARY KEY, grp INTEGER NOT NULL, val INTEGER NOT NULL)",
            f"CREATE TABLE {name}_sums (grp INTEGER PRIMARY KEY, total BIGINT NOT NULL, n INTEGER NOT NULL)",
            f"INSERT INTO {name} VALUES " + ",".join(map(str, rows)), f"INSERT INTO {name}_sums SELECT grp, SUM(val), COUNT(*) FROM {name} GROUP BY grp"]
    for event, step in steps.items():
        made.append({"SQLite": f"CREATE TRIGGER {name}_{event} AFTER {event} ON {name} BEGIN {step}; END",
                     "MariaDB": f"CREATE TRIGGER {name}_{event} AFTER {event} ON {name} FOR EACH ROW {step}",
                     "PostgreSQL": f"CREATE FUNCTION {name}_{event}() RETURNS trigger LANGUAGE plpgsql AS $$ BEGIN {step}; RETURN NULL; END $$;\n"
                                   f"CREATE TRIGGER {name}_{event} AFTER {event} ON {name} FOR EACH ROW EXECUTE FUNCTION {name}_{event}()"}[system])
    return made


# The systems. Each has `run(kind, statements)`: the seconds, and the rows of all answers.

class SQLite:
    name = "SQLite"

    def __init__(self, folder):
        self.database = sqlite3.connect(f"{folder}/sqlite.db", isolation_level=None)
        self.run("", [f"PRAGMA {it}" for it in ("journal_mode = WAL", "synchronous = FULL", "cache_size = -262144")])

    def run(self, _, statements):
        statements = [it.replace("greatest(", "max(").replace("least(", "min(") for it in statements]
        begins = time.perf_counter()
        answers = [self.database.execute(statement).fetchall() for statement in statements]
        seconds = time.perf_counter() - begins
        return seconds, [",".join("" if it is None else str(it) for it in row) for rows in answers for row in rows]


class Client:
    """A process for each script. `form` makes a statement into a part of the script, and `setting` stands before it.
    `init` are words that are run, and timed, before the first script of a kind, in a folder of that kind."""

    def __init__(self, name, folder, words, form="{};\n", setting="", init=None):
        self.name, self.folder, self.words, self.form, self.setting, self.init = name, folder, words, form, setting, init

    def process(self, words, script, room=None):
        """The seconds of a process, and the lines that it prints."""
        with open(f"{self.folder}/script", "w") as given:
            given.write(script)
        with open(f"{self.folder}/script") as given, open(f"{self.folder}/printed", "w+") as printed:
            begins = time.perf_counter()
            subprocess.run(words, stdin=given, stdout=printed, cwd=room, check=True)
            seconds = time.perf_counter() - begins
            printed.seek(0)
            return seconds, printed.read().splitlines()

    def run(self, kind, statements):
        room, before = f"{self.folder}/{kind}" if self.init else None, 0.0
        if room and not os.path.exists(room):
            os.mkdir(room)
            before = self.process(self.init, "", room)[0]
        seconds, lines = self.process(self.words, self.setting + "".join(map(self.form.format, statements)), room)
        if refused := [line for line in lines if " ! " in line]:
            sys.exit(f"{self.name}: {refused[0]}")
        rows = [line.replace("\t", ",").replace("NULL", "") for line in lines if "@" not in line]
        return before + seconds, [row.replace("FOREVER", str(FOREVER)) for row in rows]


def measure(systems, commits, times):
    """Loads and asks. Gives the lines of the table, each a name, a number of rows, the seconds of each system and those
    of an empty script, and the number of answers that differ."""
    lines, differing = [], 0
    for kind, made in commits.items():
        loads = [load_timeline(made) if it.name == "timeline" else load_columns(kind, made) if it.name == "ClickHouse"
                 else load_sql(it.name, kind, made) for it in systems]
        lines.append((f"load, {kind}", "", [it.run(kind, load)[0] for it, load in zip(systems, loads)], None))
        empty = [min(it.run(kind, [])[0] for _ in range(times)) for it in systems]
        lines.append((f"an empty script, {kind}", "", empty, None))
        for asked in zip(*(questions(it.name, kind, len(made)) for it in systems)):
            seconds, wanted = [], None
            for system, (name, statements, sql) in zip(systems, asked):
                taken = [system.run(kind, statements if system.name == "timeline" else sql) for _ in range(times)]
                seconds.append(min(it[0] for it in taken))
                rows = taken[0][1]
                wanted = rows if wanted is None else wanted
                if rows != wanted:
                    differing += 1
                    at = next(at for at, pair in enumerate(itertools.zip_longest(wanted, rows)) if pair[0] != pair[1])
                    print(f"{name}: row {at + 1} is {wanted[at:at + 1]} in {systems[0].name}, {rows[at:at + 1]} in {system.name}")
            lines.append((name, len(wanted), seconds, empty))
    return lines, differing


def measure_group(systems, times):
    """The line of 1,000 statements of one row that are kept all or none: a group of commits, or a transaction in SQL."""
    rows, seconds = [(key, key % 100) for key in range(1000)], []
    for system in systems:
        taken = []
        for it in range(times if system.name != "ClickHouse" else 0):
            if system.name == "timeline":
                room = f"{system.folder}/group{it}"
                os.mkdir(room)
                system.process(system.init, "", room)
                system.process(system.words, "a> CREATE TABLE t (k INT, x INT) KEY k\n", room)
                script = "".join(f"a> PUT t\nk,x\n{key},{cell}\n\\.\n" for key, cell in rows)
                taken.append(system.process([system.words[0], "group"], script, room)[0])
            else:
                columns = ", ".join(f"{name} INTEGER NOT NULL" for name in ("k", "x", "from_version", "to_version"))
                system.run("", [f"CREATE TABLE group{it} (place INTEGER PRIMARY KEY, {columns})", f"CREATE INDEX group{it}_k ON group{it} (k)"])
                inserts = [f"INSERT INTO group{it} VALUES ({place}, {key}, {cell}, {place + 2}, {STANDS})" for place, (key, cell) in enumerate(rows)]
                taken.append(system.run("", ["BEGIN", *inserts, "COMMIT"])[0])
        seconds.append(min(taken, default=None))
    return "1,000 statements of one row, all or none", "", seconds, None


def measure_totals(systems, times):
    """The line of 1,000 statements of one row with the sums of all groups after each, and whether answers differ."""
    chance = random.Random(5)
    first = [(key, key % 10, chance.randrange(10000)) for key in range(20000)]
    changes = [(chance.randrange(30000), chance.randrange(10), chance.randrange(10000)) for _ in range(1000)]
    seconds, wanted, differing = [], None, 0
    for system in systems:
        taken = []
        if system.name == "ClickHouse":
            seconds.append(None)
            continue
        for it in range(times):
            if system.name == "timeline":
                room = f"{system.folder}/totals{it}"
                os.mkdir(room)
                system.process(system.init, "", room)
                system.process(system.words, "".join(f"a> {it}\n" for it in load_timeline([("item", None), ("item", first)])), room)
                script = "".join(f"a> {it}\n" for it in load_timeline([("item", [change]) for change in changes]))
                took, lines = system.process([system.words[0], "watch", "SUM val FROM item BY grp OVER SYSTEM ALL"], script, room)
                taken.append((took, [line for line in lines if "@" not in line]))
            else:
                name = f"totals{it}"
                system.run("", kept_totals(system.name, name, first))
                again = {"MariaDB": "ON DUPLICATE KEY UPDATE grp = VALUES(grp), val = VALUES(val)"}.get(
                    system.name, "ON CONFLICT (id) DO UPDATE SET grp = excluded.grp, val = excluded.val")
                asked = [step for change in changes for step in (f"INSERT INTO {name} VALUES {change} {again}", f"SELECT grp, total, n FROM {name}_sums ORDER BY grp")]
                taken.append(system.run("", ["BEGIN", *asked, "COMMIT"]))
        seconds.append(min(it[0] for it in taken))
        wanted = taken[0][1] if wanted is None else wanted
        differing += taken[0][1] != wanted
    if differing:
        print(f"sums of groups after 1,000 statements: {differing} systems differ from {systems[0].name}")
    return ("1,000 statements of one row, sums after each", len(wanted), seconds, None), differing


def measure_moments(systems, commits, times):
    """The lines of items AS OF moments, by those systems that have versions of rows."""
    lines, differing, asked = [], 0, [it for it in systems if it.name in ("timeline", "MariaDB")]
    batches = sum(1 for table, made in commits if table == "item" and made)

    def line(name, rows, taken, empty):
        each = lambda values: [values[asked.index(it)] if it in asked else None for it in systems]
        lines.append((name, rows, each(taken), each(empty) if empty else None))

    line("load, a moment before each version", "", [it.run("stamped", stamped_load(it.name, commits))[0] for it in asked], None)
    empty = [min(it.run("stamped", [])[0] for _ in range(times)) for it in asked]
    for name, statements, sql in stamped_questions(batches):
        taken = [[it.run("stamped", statements if it.name == "timeline" else sql) for _ in range(times)] for it in asked]
        rows = [it[0][1] for it in taken]
        if any(it != rows[0] for it in rows):
            differing += 1
            print(f"{name}: the answers differ")
        line(name, len(rows[0]), [min(it[0] for it in each) for each in taken], empty)
    return lines, differing


def main():
    words = argparse.ArgumentParser(description="Loads, asks and times the same in timeline and in SQL; see the file's head.")
    words.add_argument("--program", default=os.path.dirname(os.path.abspath(__file__)) + "/../crates/timeline/out/timeline")
    words.add_argument("--postgresql", metavar="FOLDER", default="", help="the folder of a running server's socket")
    words.add_argument("--mariadb", metavar="SOCKET", default="", help="the socket of a running server")
    words.add_argument("--clickhouse", metavar="PORT", default="", help="the port of a running server")
    words.add_argument("--folder", help="where a folder with journals and SQLite's file is made, and removed in the end")
    words.add_argument("--batches", type=int, default=200, help="how many versions of 500 lines, and of 100 periods")
    words.add_argument("--size", type=int, default=1, help="how many times as many lines each version has")
    words.add_argument("--times", type=int, default=3, help="how often each question is asked")
    given = words.parse_args()
    commits = {"plain": plain_commits(given.batches, given.size), "valid": valid_commits(given.batches, given.size)}
    with tempfile.TemporaryDirectory(dir=given.folder) as folder:
        program = os.path.abspath(given.program)
        psql = ["psql", "-XqAt", "-F,", "-v", "ON_ERROR_STOP=1", "-U", "postgres", "-h", os.path.abspath(given.postgresql)]
        mariadb = ["mariadb", "--no-defaults", "--batch", "--skip-column-names", "--user=root", f"--socket={given.mariadb}"]
        servers = [
            Client("PostgreSQL", folder, psql, setting="SET client_min_messages = warning;\nSET work_mem = '256MB';\n"
                                                       "SET search_path = beside_sql;\n"),
            Client("MariaDB", folder, mariadb, setting="SET sort_buffer_size = 67108864;\nUSE beside_sql;\n"),
            Client("ClickHouse", folder, ["clickhouse-client", "--multiquery", "--port", given.clickhouse], setting="USE beside_sql;\n")]
        systems = [Client("timeline", folder, [program, "run"], "a> {}\n", init=[program, "init"]), SQLite(folder), *servers]
        for system, there, lacks in ((systems[0], os.path.exists(program), f"{program} is not there"),
                                     (servers[0], given.postgresql, "no socket is given"),
                                     (servers[1], given.mariadb, "no socket is given"),
                                     (servers[2], given.clickhouse, "no port is given")):
            if not there or not shutil.which(system.words[0]):
                print(f"{system.name} is left out: {lacks if not there else system.words[0] + ' is not installed'}")
                systems.remove(system)
        made = []
        try:
            for server in servers:
                if server in systems:
                    server.process(server.words, f"CREATE {'DATABASE' if server.name == 'ClickHouse' else 'SCHEMA'} beside_sql;\n")
                    made.append(server)
            lines, differing = measure(systems, commits, given.times)
            more, wrong = measure_moments(systems, commits["plain"], given.times)
            lines += [*more, measure_group(systems, given.times)]
            totals, not_same = measure_totals(systems, given.times)
            lines.append(totals)
            differing += wrong + not_same
        finally:
            for server in made:
                drop = "DROP DATABASE beside_sql" if server.name == "ClickHouse" else f"DROP SCHEMA beside_sql{' CASCADE' * (server is servers[0])}"
                server.run("", [drop])
    has_whole = systems[0].name == "timeline"
    print(f"{'seconds':46}{'rows':>8}" + "".join(f"{it.name:>12}" for it in systems) + f"{'whole':>12}" * has_whole)
    for name, rows, seconds, empty in lines:
        shown = [it and it - (empty[at] if empty else 0) for at, it in enumerate(seconds)] + seconds[:1] * bool(has_whole and empty)
        print(f"{name:46}{rows:>8}" + "".join(f"{'':>12}" if it is None else f"{it:12.3f}" for it in shown))
    print(f"{differing} answers differ" if differing else "all answers are the same")
    return 1 if differing else 0


sys.exit(main())
