#!/usr/bin/env -S python3 -B
"""Prints a random run for `hippo run` and for second_engine.py.

A small clinic is followed by lines of every kind that is carried out. Most of them are right, the
others are refused for one cause or another, or broken.

usage: random_lines.py SEED COUNT
"""
import random
import sys

TABLES = {"patient": [("pid", "INTEGER"), ("name", "TEXT"), ("phone", "TEXT"), ("zip", "INTEGER")],
          "visit": [("vno", "INTEGER"), ("pid", "INTEGER"), ("ward", "TEXT"), ("seen", "DATE")],
          "ward": [("site", "TEXT"), ("room", "INTEGER"), ("beds", "INTEGER")],
          "note": [("nid", "INTEGER"), ("pid", "INTEGER"), ("body", "TEXT")]}
KEYS = {"patient": ["pid"], "visit": ["vno"], "ward": ["site", "room"], "note": ["nid"]}
CREATED = {
    "patient": "CREATE TABLE patient (pid INTEGER, name TEXT, phone TEXT, zip INTEGER, "
               "PRIMARY KEY (pid), SUBJECT pid)",
    "visit": "CREATE TABLE visit (vno INTEGER, pid INTEGER, ward TEXT, seen DATE, "
             "PRIMARY KEY (vno), SUBJECT pid)",
    "ward": "CREATE TABLE ward (site TEXT, room INTEGER, beds INTEGER NOT NULL, "
            "PRIMARY KEY (room, site))",
    "note": "CREATE TABLE note (nid INTEGER, pid INTEGER NOT NULL, body TEXT NOT NULL, "
            "PRIMARY KEY (nid), SUBJECT pid)"}
PURPOSES, RECIPIENTS = ["treatment", "billing", "care"], ["nurse", "clerk"]
ITEMS, USERS = ["calls", "mail", "post"], ["ann", "bea", "carl"]
TEXTS = ["'Ada'", "'Bob'", "'555-1'", "'south'", "'north'", "''", "'O''Hara'", "'\u00e9'",
         "'DENIED(0)'"]
NUMBERS = [1, 1, 1, 1, 2, 2, 2, 3, 3, 4, 0, -1, 7, 95120, 9223372036854775807, -9223372036854775808]
DAYS = ["DATE '2024-03-01'", "DATE '2024-02-29'", "date  '0001-01-01'", "DATE '9999-12-31'"]


COMPARES = ["=", "=", "<>", "!=", "<", "<=", ">", ">="]
FIRST_DAYS = ["0001-01-01", "2024-01-01", "2024-01-02", "2024-01-20", "2024-02-10"]
LAST_DAYS = ["2024-01-15", "2024-03-01", "9999-12-31"]
# Fields of records: odd ones for a number, then texts and days.
ODD_FIELDS = ["007", "-0", "+1", "1x", "9223372036854775808"]
TEXT_FIELDS = ["Ada", "Bob", '"O\'Hara, Pat"', '"say ""hi"""', "a\tb", " x", "\u00e9", '"x', 'a"b']
DATE_FIELDS = ["2024-03-01", "2024-02-30", "0001-01-01", '"2024-02-29"']
# What is put into a line to break it.
ODD = [" ", "  ", "~", "'", "(", ")", ";", "x", "0", ",", "\t", " drop ", " sum ", "--", "\u00e9"]
OTHERS = [
    "", "   ", "# a comment", "hello", "65 logout", "01 logout", "0 logout", "1 fetch 5 1",
    "0 step 1 5", "0 drop 1", "0 unwatch 9", "0 load patient 1,x,,", "0 load patient", "at",
    "at yesterday", "1", "0 ", " 1 logout", "1 SELECT DISTINCT name FROM patient GROUP BY name",
    "1 SELECT MAX(pid) FROM patient", "0 EXPLAIN 3", "1 EXTRACT SELECT name FROM patient",
    "0 DROP TABLE patient", "1\tlogout", "1 logout\r",
    "0 WATCH DURING '' TO '' AUDIT name FROM patient",
    "0 BEGIN AUDIT DURING '' TO '' AUDIT name FROM patient",
]


def columns_in(table):
    """The columns of a table; those of `patient` for an unknown one."""
    return [column for column, _ in TABLES.get(table, TABLES["patient"])]


def kinds_in(table):
    return [kind for _, kind in TABLES.get(table, TABLES["patient"])]


class Lines:
    def __init__(self, seed):
        self.random = random.Random(seed)
        self.second = 0

    def pick(self, members):
        return self.random.choice(members)

    def chance(self, share):
        return self.random.random() < share

    def maybe(self, share, text):
        return text if self.chance(share) else ""

    def some(self, members, low=1):
        return self.random.sample(members, self.random.randint(low, len(members)))

    def number(self):
        return str(self.pick(NUMBERS))

    def value(self, kind):
        if self.chance(0.07):
            return "NULL"
        if self.chance(0.03):
            kind = self.pick(["INTEGER", "TEXT", "DATE"])
        if kind == "INTEGER":
            return self.number()
        return self.pick(TEXTS if kind == "TEXT" else DAYS)

    def table(self):
        return "nobody" if self.chance(0.02) else self.pick(list(TABLES))

    def kind_of(self, table, column):
        return dict(TABLES.get(table, [])).get(column, "INTEGER")

    def column(self, table):
        if self.chance(0.02):
            return "nocol"
        return self.pick(columns_in(table))

    def columns(self, table):
        columns = self.some(columns_in(table))
        if self.chance(0.03):
            columns.append(self.pick(columns + ["nocol"]))
        return ", ".join(columns)

    def keys(self, table):
        names = list(KEYS.get(table, ["pid"]))
        self.random.shuffle(names)
        if self.chance(0.05):
            names.append(self.column(table))
        if self.chance(0.03):
            names.pop()
            names = names or [self.column(table)]
        return " AND ".join("%s = %s" % (n, self.value(self.kind_of(table, n))) for n in names)

    def pair(self):
        purpose = "walk" if self.chance(0.03) else self.pick(PURPOSES)
        return purpose, "cook" if self.chance(0.03) else self.pick(RECIPIENTS)

    def change(self):
        table, pair = self.table(), self.pair()
        kind = self.random.random()
        if kind < 0.36:
            values = ", ".join(self.value(kind) for kind in kinds_in(table))
            return "INSERT INTO %s VALUES (%s%s)" % (table, values, self.maybe(0.02, ", NULL"))
        if kind < 0.52:
            return self.update(table)
        if kind < 0.60:
            return "DELETE FROM %s WHERE %s" % (table, self.keys(table))
        if kind < 0.76:
            rest = " WITH " + self.pick(ITEMS) if self.chance(0.4) else ""
            rest += " RETAIN %d DAYS" % self.pick([1, 2, 30, 36500]) if self.chance(0.2) else ""
            return "ALLOW %s TO %s ON %s (%s)%s" % (*pair, table, self.columns(table), rest)
        if kind < 0.82:
            return "REVOKE %s TO %s ON %s (%s)" % (*pair, table, self.columns(table))
        if kind < 0.92:
            subject, item = self.number(), self.pick(ITEMS)
            return "CHOICE %s ON %s IS %s" % (subject, item, self.pick(["YES", "NO"]))
        if kind < 0.96:
            word = self.pick(["AUTHORIZE", "AUTHORIZE", "DEAUTHORIZE"])
            return "%s %s FOR %s, %s" % (word, self.pick(USERS), *pair)
        return self.create()

    def update(self, table):
        names = self.some([c for c in columns_in(table) if c not in KEYS.get(table, [])])
        if self.chance(0.05):
            names.append(self.column(table))
        sets = ", ".join("%s = %s" % (n, self.value(self.kind_of(table, n))) for n in names)
        return "UPDATE %s SET %s WHERE %s" % (table, sets, self.keys(table))

    def create(self):
        return self.pick([
            "CREATE PURPOSE " + self.pick(PURPOSES),
            "CREATE RECIPIENT " + self.pick(RECIPIENTS),
            "CREATE ITEM %s OPT %s" % (self.pick(ITEMS), self.pick(["IN", "OUT"])),
            CREATED[self.pick(list(CREATED))],
            "CREATE TABLE t (a INTEGER, b TEXT, PRIMARY KEY (b), SUBJECT a)",
            "CREATE TABLE t (a TEXT, PRIMARY KEY (a), SUBJECT a)",
        ])

    def operand(self, tables, kind):
        if self.chance(0.6):
            columns = [(t, c, k) for t in tables for c, k in TABLES.get(t, [])]
            homes = [(t, c) for t, c, k in columns if k == kind or self.chance(0.02)]
            if homes:
                table, column = self.pick(homes)
                return "%s.%s" % (table, column) if self.chance(0.6) or len(tables) > 1 else column
        return self.value(kind)

    def test(self, tables):
        kind = self.pick(["INTEGER", "INTEGER", "TEXT", "DATE"])
        left = self.operand(tables, kind)
        form = self.random.random()
        if form < 0.5:
            return "%s %s %s" % (left, self.pick(COMPARES), self.operand(tables, kind))
        if form < 0.65:
            turn, low = self.pick(["", "NOT "]), self.operand(tables, kind)
            return "%s %sBETWEEN %s AND %s" % (left, turn, low, self.operand(tables, kind))
        if form < 0.8:
            count = self.random.randint(1, 4)
            members = ", ".join(self.operand(tables, kind) for _ in range(count))
            return "%s %sIN (%s)" % (left, self.pick(["", "NOT "]), members)
        return "%s IS %sNULL" % (left, self.pick(["", "NOT "]))

    def condition(self, tables, depth=0):
        if depth < 3 and self.chance(0.45):
            form = self.random.random()
            if form < 0.3:
                return "NOT (%s)" % self.condition(tables, depth + 1)
            parts = [self.condition(tables, depth + 1) for _ in range(self.random.randint(2, 3))]
            joined = self.pick([" AND ", " OR "]).join(parts)
            return "(%s)" % joined if self.chance(0.7) else joined
        return self.test(tables)

    def select(self):
        tables = [self.table() for _ in range(self.pick([1, 1, 1, 1, 2, 2, 3]))]
        if not self.chance(0.03):
            tables = list(dict.fromkeys(tables))
        items = "*"
        if self.chance(0.9):
            items = ", ".join(self.item(tables) for _ in range(self.random.randint(1, 4)))
        sources = tables[0]
        for place in range(1, len(tables)):
            if self.chance(0.5):
                sources += ", " + tables[place]
            else:
                inner, on = self.pick(["", " INNER"]), self.test(tables[:place + 1])
                sources += "%s JOIN %s ON %s" % (inner, tables[place], on)
        where = " WHERE " + self.condition(tables) if self.chance(0.7) else ""
        if self.chance(0.2):
            return self.grouped(tables, sources, where)
        return "SELECT %s%s FROM %s%s" % (self.maybe(0.2, "DISTINCT "), items, sources, where)

    def grouped(self, tables, sources, where):
        """A select with GROUP BY, most of whose columns are those of its list."""
        by = [self.column_of(tables) for _ in range(self.random.randint(1, 2))]
        outs = list(by)
        for _ in range(self.random.randint(0, 3)):
            outs.append("%s(%s)" % (self.pick(["MIN", "MAX"]), self.column_of(tables)))
        self.random.shuffle(outs)
        if self.chance(0.05):
            outs.append(self.column_of(tables))
        if self.chance(0.05):
            by.append(self.column_of(tables))
        return "SELECT %s FROM %s%s GROUP BY %s" % (", ".join(outs), sources, where, ", ".join(by))

    def item(self, tables):
        return self.pick(tables) + ".*" if self.chance(0.08) else self.column_of(tables)

    def column_of(self, tables):
        table = self.pick(tables)
        column = self.column(table)
        return "%s.%s" % (table, column) if len(tables) > 1 and self.chance(0.9) else column

    def audit(self):
        """An audit expression over tables whose columns questions name, most of it right."""
        tables = list(dict.fromkeys(self.table() for _ in range(self.pick([1, 1, 2]))))
        columns = ", ".join(self.column_of(tables) for _ in range(self.pick([1, 1, 1, 2])))
        first, last = sorted(self.pick(FIRST_DAYS) for _ in range(2))
        first, last = first + "T00:00:00Z", self.pick([*LAST_DAYS, last]) + "T23:59:59Z"
        if self.chance(0.03):
            first, last = last, self.pick([first, "yesterday"])
        exempt = ""
        if self.chance(0.15):
            pairs = ("(%s, %s)" % self.pair() for _ in range(self.pick([1, 1, 2])))
            exempt = " OTHERTHAN " + ", ".join(pairs)
        where = " WHERE " + self.condition(tables) if self.chance(0.5) else ""
        shown = self.maybe(0.3, "SHOWN ") + columns
        period = "DURING '%s' TO '%s'%s" % (first, last, exempt)
        return "%s AUDIT %s FROM %s%s" % (period, shown, ", ".join(tables), where)

    def looking_back(self):
        kind = self.random.random()
        if kind < 0.35:
            return "0 " + self.in_case(self.audit()) + self.pick(["", "", ";"])
        if kind < 0.45:
            return "0 BEGIN AUDIT " + self.audit()
        if kind < 0.65:
            job = self.pick([1, 1, 1, 2, 3, 8])
            return "0 step %d %d" % (job, self.pick([1, 3, 10, 40, 1000000]))
        if kind < 0.68:
            return "0 drop %d" % self.pick([1, 1, 2, 3])
        if kind < 0.76:
            return "0 %s %s" % (self.pick(["WATCH", "watch"]), self.audit())
        if kind < 0.79:
            return "0 unwatch %d" % self.pick([1, 1, 2, 3])
        return "0 EXPLAIN %d" % self.random.randint(-1, 160)

    def in_record(self, kind):
        if self.chance(0.1):
            return ""
        if self.chance(0.05):
            kind = self.pick(["INTEGER", "TEXT", "DATE"])
        if kind == "INTEGER":
            return self.pick([self.number(), self.number(), *ODD_FIELDS])
        return self.pick(TEXT_FIELDS if kind == "TEXT" else DATE_FIELDS)

    def load(self):
        table = self.table()
        record = ",".join(self.in_record(kind) for kind in kinds_in(table))
        if self.chance(0.05):
            record = self.pick(["", "1", record + ",", record + "\r", "\r" + record, "1\r2",
                                "\ufeff" + record])
        return "0 load %s %s" % (table, record)

    def broken(self, text):
        """The text with one place changed."""
        place = self.random.randrange(len(text) + 1)
        odd = self.pick(ODD)
        if self.chance(0.4):
            return text[:place] + odd + text[place:]
        return text[:place] + text[place + self.random.randint(1, 4):]

    def in_case(self, text):
        if self.chance(0.85) or "'" in text:
            return text
        return self.pick([text.lower(), text.upper(), text.title()])

    def line(self):
        kind = self.random.random()
        number = self.pick([1] * 12 + [2, 2, 64])
        if kind < 0.28:
            return "%d %s" % (0 if not self.chance(0.02) else number, self.in_case(self.change()))
        if kind < 0.33:
            return self.load()
        if kind < 0.54:
            who, select = 0 if self.chance(0.02) else number, self.in_case(self.select())
            return "%d %s" % (who, select + self.pick(["", "", "", ";", " "]))
        if kind < 0.58:
            return "%d EXTRACT %s" % (number, self.in_case(self.select()))
        if kind < 0.70:
            return self.looking_back()
        if kind < 0.75:
            return "%d OPEN %s" % (number, self.in_case(self.select()))
        if kind < 0.81:
            cursor = self.random.randint(1, 4)
            return "%d fetch %d %d" % (number, cursor, self.pick([1, 2, 3, 100000]))
        if kind < 0.83:
            return "%d close %d" % (number, self.random.randint(1, 5))
        if kind < 0.915:
            pair = ("treatment", "nurse") if self.chance(0.6) else self.pair()
            word, user = self.pick(["login", "LOGIN"]), self.pick(USERS)
            return "%d %s %s %s %s" % (number, word, user, *pair)
        if kind < 0.92:
            return "%d logout" % number
        return self.at() if kind < 0.96 else self.pick(OTHERS)

    def at(self):
        self.second += self.pick([0, 1, 3600, 86400, 86399, -1])
        day, second = divmod(max(self.second, 0), 86400)
        date = "2024-%02d-%02d" % (day // 28 % 12 + 1, day % 28 + 1)
        return "at %sT%02d:%02d:%02dZ" % (date, second // 3600, second // 60 % 60, second % 60)

    def clinic(self):
        """What creates the clinic; now and then a line of it is missing."""
        lines = list(CREATED.values())
        lines += ["CREATE PURPOSE " + purpose for purpose in PURPOSES]
        lines += ["CREATE RECIPIENT " + recipient for recipient in RECIPIENTS]
        lines += ["CREATE ITEM calls OPT IN", "CREATE ITEM mail OPT OUT"]
        lines += ["AUTHORIZE %s FOR treatment, nurse" % user for user in USERS]
        for line in lines:
            if not self.chance(0.1):
                yield "0 " + line
        for table in TABLES:
            columns = ", ".join(columns_in(table))
            yield "0 ALLOW treatment TO nurse ON %s (%s)" % (table, columns)

    def all(self, count):
        yield "at 2024-01-01T00:00:00Z"
        yield from self.clinic()
        yield "1 login ann treatment nurse"
        for _ in range(count):
            line = self.line()
            yield self.broken(line) if self.chance(0.06) else line


def main():
    seed, count = int(sys.argv[1]), int(sys.argv[2])
    for line in Lines(seed).all(count):
        sys.stdout.buffer.write(line.encode() + b"\n")


if __name__ == "__main__":
    main()
