"""A random clinic for tools/random_questions.py: its tables, rules, choices and rows.

The clinic is written twice: as lines for `hippo run`, and as a SQLite database in memory with two
views for each table and purpose:
- `lab_billing` is what the purpose may see: a denied cell is NULL, and a row whose key is denied is
  absent;
- `lab_billing_ruled` has these rows and one column more for each column: `value_rule` is the entry
  of the rule that denies the cell (0 if there is no rule), or NULL if the cell is shown.
"""
import sqlite3

# The columns of each table, with the values that rows and conditions use.
TESTS = [f"test {number}" for number in range(18)] + ["Crohn's marker", "Natrium, mmol/l (µ)"]
EVENTS = ["admitted", "discharged", "moved", "operated", "called", "X-ray", "patient's visit"]
DAYS = range(3650)
COLUMNS = {
    "person": {"pid": (), "born": range(1920, 2024), "male": range(2), "height": range(140, 200),
               "weight": range(40, 130), "zip": range(1000), "pulse": range(50, 120),
               "doctor": range(40)},
    "lab": {"pid": (), "n": range(1, 6), "what": TESTS, "days": DAYS, "value": range(500)},
    "event": {"pid": (), "n": range(1, 6), "kind": EVENTS, "days": DAYS},
}
KEYS = {"person": ["pid"], "lab": ["pid", "n"], "event": ["pid", "n"]}
SHARE_OF_NULLS = 0.1
# How a missing choice on an item counts.
ITEMS = {"study": ("OPT IN", 0), "share": ("OPT OUT", 1)}
MOMENT = "2024-03-01T08:00:00Z"


def literal(value):
    """A value as both languages write it."""
    if value is None:
        return "NULL"
    return str(value) if isinstance(value, int) else "'" + value.replace("'", "''") + "'"


def is_text(table, column):
    return isinstance(COLUMNS[table][column], list)


class Purpose:
    """A purpose with its only user and recipient, and what it may see: the item of each column."""

    def __init__(self, session, name, user, recipient, items):
        self.session, self.name, self.user, self.recipient = session, name, user, recipient
        self.items, self.rules = items, {}

    def allowed(self):
        """The statements that set its rules, each with the columns that it allows."""
        for table, item in sorted({(table, item) for (table, _), item in self.items.items()}):
            cells = [cell for cell, has in self.items.items() if (cell[0], has) == (table, item)]
            columns = ", ".join(column for _, column in cells)
            choice = f" WITH {item}" if item else ""
            yield cells, f"ALLOW {self.name} TO {self.recipient} ON {table} ({columns}){choice}"

    def shown(self, table, column):
        """Whether a cell is shown, in SQL."""
        item = self.items.get((table, column))
        if not item:
            return "0" if item is None else "1"
        chosen = f"SELECT yes FROM choices WHERE item = '{item}' AND subject = pid"
        return f"coalesce(({chosen}), {ITEMS[item][1]})"

    def cell(self, table, column):
        shown = self.shown(table, column)
        if column in KEYS[table] or shown == "1":
            return column
        return f"CASE WHEN {shown} THEN {column} END AS {column}"

    def rule_of(self, table, column):
        """The rule that denies a cell, in SQL."""
        shown = self.shown(table, column)
        rule = self.rules.get((table, column), 0)
        if column in KEYS[table] or shown == "1":
            return f"NULL AS {column}_rule"
        return f"CASE WHEN NOT {shown} THEN {rule} END AS {column}_rule"

    def views(self, table):
        """The SQL that makes both views of a table."""
        cells = [self.cell(table, column) for column in COLUMNS[table]]
        rules = [self.rule_of(table, column) for column in COLUMNS[table]]
        guards = {self.shown(table, column) for column in KEYS[table]} - {"1"}
        where = f" WHERE {' AND '.join(sorted(guards))}" if guards else ""
        for suffix, listed in (("", cells), ("_ruled", cells + rules)):
            select = f"SELECT {', '.join(listed)} FROM {table}_rows{where}"
            yield f"CREATE VIEW {table}_{self.name}{suffix} AS {select}"


def made_purposes(dice):
    """Three purposes: one sees everything, two depend on items of the patients."""
    every = {(table, column): "" for table, columns in COLUMNS.items() for column in columns}
    cells = [(table, column) for table, column in every if column not in KEYS[table]]
    dice.shuffle(cells)
    research = every | {cell: "study" for cell in cells[:len(cells) // 2]}
    del research[cells[-1]]
    chosen = dice.choice(list(KEYS))
    billing = every | {(chosen, column): "share" for column in KEYS[chosen]}
    return [Purpose(1, "treatment", "ann", "nurse", every),
            Purpose(2, "research", "ben", "scholar", research),
            Purpose(3, "billing", "carl", "clerk", billing)]


def made_rows(dice, table, count, people):
    """Rows of a table, some of which have patients without a row of `person`."""
    numbers = {}
    for place in range(count):
        pid = place + 1 if table == "person" else dice.randint(1, people + people // 50)
        numbers[pid] = numbers.get(pid, 0) + 1
        row = [pid] if table == "person" else [pid, numbers[pid]]
        for column in list(COLUMNS[table])[len(row):]:
            is_null = dice.random() < SHARE_OF_NULLS
            row.append(None if is_null else dice.choice(COLUMNS[table][column]))
        yield tuple(row)


class Clinic:
    """Everything that is entered before the first question."""

    def __init__(self, dice, people, labs, events):
        self.people, self.purposes = people, made_purposes(dice)
        counts = {"person": people, "lab": labs, "event": events}
        self.rows = {table: list(made_rows(dice, table, count, people))
                     for table, count in counts.items()}
        self.choices = [(dice.choice(list(ITEMS)), dice.randint(1, people), dice.randint(0, 1))
                        for _ in range(people * 8000 // 17500)]
        self.changes = [*self.created(), *self.chosen(), *self.inserted()]

    def created(self):
        """The statements that make tables, names and rules. They are the first entries."""
        made = [created_table(table) for table in COLUMNS]
        made += [f"CREATE ITEM {item} {opt}" for item, (opt, _) in ITEMS.items()]
        for purpose in self.purposes:
            pair = f"{purpose.name}, {purpose.recipient}"
            made += [f"CREATE PURPOSE {purpose.name}", f"CREATE RECIPIENT {purpose.recipient}",
                     f"AUTHORIZE {purpose.user} FOR {pair}"]
            for cells, rule in purpose.allowed():
                made.append(rule)
                purpose.rules |= dict.fromkeys(cells, len(made))
        return made

    def chosen(self):
        for item, subject, yes in self.choices:
            yield f"CHOICE {subject} ON {item} IS {'YES' if yes else 'NO'}"

    def inserted(self):
        for table, rows in self.rows.items():
            for row in rows:
                yield f"INSERT INTO {table} VALUES ({', '.join(map(literal, row))})"

    def logins(self):
        return [f"{purpose.session} login {purpose.user} {purpose.name} {purpose.recipient}"
                for purpose in self.purposes]

    def database(self):
        """The clinic in SQLite."""
        connection = sqlite3.connect(":memory:", isolation_level=None)
        for table, rows in self.rows.items():
            connection.execute(created_rows(table))
            marks = ", ".join("?" * len(COLUMNS[table]))
            connection.executemany(f"INSERT INTO {table}_rows VALUES ({marks})", rows)
        connection.execute("CREATE TABLE choices (item TEXT, subject INTEGER, yes INTEGER, "
                           "PRIMARY KEY (item, subject)) WITHOUT ROWID")
        connection.executemany("INSERT OR REPLACE INTO choices VALUES (?, ?, ?)", self.choices)
        for view in (view for purpose in self.purposes for table in COLUMNS
                     for view in purpose.views(table)):
            connection.execute(view)
        connection.execute("ANALYZE")
        return connection


def declared(table):
    kinds = (f"{column} {'TEXT' if is_text(table, column) else 'INTEGER'}"
             for column in COLUMNS[table])
    return f"{', '.join(kinds)}, PRIMARY KEY ({', '.join(KEYS[table])})"


def created_table(table):
    return f"CREATE TABLE {table} ({declared(table)}, SUBJECT pid)"


def created_rows(table):
    keyless = "" if len(KEYS[table]) == 1 else " WITHOUT ROWID"
    return f"CREATE TABLE {table}_rows ({declared(table)}){keyless}"
