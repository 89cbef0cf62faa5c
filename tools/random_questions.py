"""Random questions and audits of a random clinic (tools/random_clinic.py), for both languages.

A question joins one to three tables in any order, bounds the pid of one of them to at most 400
people, and has one or two more conditions. Half of the questions are plain selects, a quarter has
DISTINCT, and a quarter GROUP BY with MIN and MAX.
"""
import re

from random_clinic import COLUMNS, KEYS, is_text, literal

MOST_PEOPLE = 400
PERIOD = "DURING '2024-03-01T00:00:00Z' TO '2024-03-01T23:59:59Z'"


# ---------------------------------------------------------------- conditions


def any_column(dice, tables):
    table = dice.choice(tables)
    return table, dice.choice([column for column in COLUMNS[table] if column != "pid"])


def any_literal(dice, table, column):
    return literal(dice.choice(COLUMNS[table][column]))


def compared(dice, tables, table, column):
    """A comparison of a column with a literal, or with another column of its kind."""
    word = dice.choice(["=", "<>", "!=", "<", "<=", ">", ">="])
    other = any_column(dice, tables)
    if dice.random() < 0.15 and is_text(*other) == is_text(table, column):
        return f"{table}.{column} {word} {'.'.join(other)}"
    value = any_literal(dice, table, column)
    if dice.random() < 0.1:
        return f"{value} {word} {table}.{column}"
    return f"{table}.{column} {word} {value}"


def between(dice, table, column):
    low, high = sorted(dice.choice(COLUMNS[table][column]) for _ in range(2))
    word = dice.choice(["BETWEEN", "BETWEEN", "NOT BETWEEN"])
    return f"{table}.{column} {word} {literal(low)} AND {literal(high)}"


def listed(dice, table, column):
    values = [any_literal(dice, table, column) for _ in range(dice.randint(1, 6))]
    if dice.random() < 0.05:
        values.append("NULL")
    word = dice.choice(["IN", "IN", "NOT IN"])
    return f"{table}.{column} {word} ({', '.join(values)})"


def simple_condition(dice, tables):
    table, column = any_column(dice, tables)
    kind = dice.random()
    if kind < 0.5:
        return compared(dice, tables, table, column)
    if kind < 0.65:
        return between(dice, table, column)
    if kind < 0.8:
        return listed(dice, table, column)
    word = "IS NOT NULL" if column in KEYS[table] or dice.random() < 0.6 else "IS NULL"
    return f"{table}.{column} {word}"


def condition(dice, tables, depth=2):
    """A condition with NOT, and with AND and OR up to a depth."""
    kind = dice.random()
    if depth == 0 or kind < 0.5:
        return simple_condition(dice, tables)
    if kind < 0.6:
        return f"NOT {condition(dice, tables, depth - 1)}"
    parts = [condition(dice, tables, depth - 1) for _ in range(dice.randint(2, 3))]
    return f"({dice.choice([' AND ', ' OR ']).join(parts)})"


# ---------------------------------------------------------------- questions


class Question:
    """A question of a purpose: its tables in the order of FROM, its list and its conditions.

    A member of the list is a function, which is empty for a column, and the column.
    """

    def __init__(self, dice, purpose, people):
        self.purpose = purpose
        self.tables = dice.sample(list(COLUMNS), dice.choice([1, 2, 2, 3]))
        self.form = dice.choice(["plain", "plain", "DISTINCT", "GROUP BY"])
        self.has_star = self.form == "plain" and dice.random() < 0.15
        self.items = self.made_items(dice)
        self.joins = [f"{dice.choice(self.tables[:place])}.pid = {table}.pid"
                      for place, table in enumerate(self.tables) if place > 0]
        self.is_joined_by_words = dice.random() < 0.3
        self.parts = [] if self.is_joined_by_words else list(self.joins)
        self.bounded = dice.choice(self.tables)
        self.parts += [self.made_range(dice, people)]
        self.parts += [condition(dice, self.tables) for _ in range(dice.randint(1, 2))]
        dice.shuffle(self.parts)

    def made_items(self, dice):
        columns = [(table, column) for table in self.tables for column in COLUMNS[table]]
        if self.has_star:
            return [("", column) for column in columns]
        if self.form != "GROUP BY":
            return [("", column) for column in dice.sample(columns, dice.randint(1, 4))]
        items = [("", column) for column in dice.sample(columns, dice.randint(1, 2))]
        taken = dice.sample(columns, dice.randint(1, 2))
        items += [(dice.choice(["MIN", "MAX"]), column) for column in taken]
        dice.shuffle(items)
        return items

    def made_range(self, dice, people):
        width = dice.randint(1, min(people, MOST_PEOPLE))
        low = dice.randint(1, people - width + 1)
        return f"{self.bounded}.pid BETWEEN {low} AND {low + width - 1}"

    def sources(self, suffix=""):
        """FROM and WHERE, over the tables or over views whose names end in a suffix."""
        tables = [f"{table}{suffix} AS {table}" if suffix else table for table in self.tables]
        if self.is_joined_by_words:
            joins = zip(tables[1:], self.joins)
            tables = [" ".join([tables[0], *(f"JOIN {table} ON {on}" for table, on in joins)])]
        return f"FROM {', '.join(tables)} WHERE {' AND '.join(self.parts)}"

    def select(self, sources):
        """The question over sources."""
        items = [f"{word}({'.'.join(column)})" if word else ".".join(column)
                 for word, column in self.items]
        distinct = "DISTINCT " if self.form == "DISTINCT" else ""
        text = f"SELECT {distinct}{'*' if self.has_star else ', '.join(items)} {sources}"
        if self.form == "GROUP BY":
            text += f" GROUP BY {', '.join(item for item in items if '(' not in item)}"
        return text

    def line(self):
        return f"{self.purpose.session} {self.select(self.sources())}"

    def timed(self):
        """The question as SQLite is asked it when it is timed."""
        return self.select(self.sources(f"_{self.purpose.name}"))

    def named(self):
        """The columns that the question names."""
        found = re.findall(rf"\b({'|'.join(COLUMNS)})\.(\w+)", self.line())
        return {*found, *(column for _, column in self.items)}

    def ruled(self, more=""):
        return self.sources(f"_{self.purpose.name}_ruled") + more

    def checked(self, more=""):
        """The SQL for the answer in hippo's order, with the rule that denies it after each cell."""
        cells = [f"{table}.{column} AS v{place}, {table}.{column}_rule AS r{place}"
                 for place, (_, (table, column)) in enumerate(self.items)]
        keys = [f"{table}.{column}" for table in self.tables for column in KEYS[table]]
        order = f"row_number() OVER (ORDER BY {', '.join(keys)}) AS place"
        inner = f"SELECT {', '.join(cells)}, {order} {self.ruled(more)}"
        words = [word for word, _ in self.items]
        found = [f"{word}(v{place}), NULL" if word else f"v{place}, r{place}"
                 for place, word in enumerate(words)]
        if self.form == "plain":
            return f"SELECT {', '.join(found)} FROM ({inner}) ORDER BY place"
        groups = [f"v{place}, r{place}" for place, word in enumerate(words) if not word]
        return (f"SELECT {', '.join(found)} FROM ({inner}) "
                f"GROUP BY {', '.join(groups)} ORDER BY MIN(place)")


# ---------------------------------------------------------------- audits


class Audit:
    """An audit of one column in the rows of one patient."""

    def __init__(self, table, column, patient, is_shown=False):
        self.table, self.column = table, column
        self.patient, self.is_shown = patient, is_shown

    def expression(self):
        shown = "SHOWN " if self.is_shown else ""
        return (f"AUDIT {shown}{self.table}.{self.column} FROM {self.table} "
                f"WHERE {self.table}.pid = {self.patient}")

    def line(self):
        return f"0 {PERIOD} {self.expression()}"

    def with_patient(self):
        return f" AND {self.table}.pid = {self.patient}"

    def with_key(self, key):
        pairs = zip(KEYS[self.table], key)
        return " AND ".join(f"{self.table}.{column} = {value}" for column, value in pairs)


def made_audits(dice, clinic, count):
    """Audits of lab values and of a column of people, in turn. The first two are of nobody."""
    cells = [("lab", "value"), ("person", dice.choice(list(COLUMNS["person"])))]
    audits = [Audit(*cell, 0) for cell in cells]
    for number in range(count):
        table, column = cells[number % 2]
        patient = dice.choice(clinic.rows[table])[0]
        audits.append(Audit(table, column, patient, dice.random() < 0.3))
    return audits
