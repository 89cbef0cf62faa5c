"""Texts, values and conditions of the second engine."""
import pathlib
import re
import sys

sys.path.insert(0, str(pathlib.Path(__file__).resolve().parent.parent / "readers"))
from second_reader import BadSyntax, Reader
from second_tokens import (Fault, KEYWORDS, UNSUPPORTED, check_words, cut, days_before, days_in,
                           read_day)

NUMBER = re.compile(r"(0|[1-9][0-9]*)\Z")
MOMENT = re.compile(rb"([0-9]{4}-[0-9]{2}-[0-9]{2})T([0-9]{2}):([0-9]{2}):([0-9]{2})Z\Z")
NAME = re.compile(r"[A-Za-z][A-Za-z0-9_]{0,62}\Z")
FAULTS = {"BadToken": "12", "NumberTooLarge": "16", "BadDate": "17"}
FALSE, UNKNOWN, TRUE = 0, 1, 2


class Refused(Exception):
    """A refusal: its code with its name, and what it names."""


def field(record, name):
    return dict(record.fields)[name]


def fields(record, *names):
    return [field(record, name) for name in names]


def ascii_lower(text):
    return "".join(c.lower() if "A" <= c <= "Z" else c for c in text)


def name_of(word):
    """A word of a line as a name, or None where it is none."""
    folded = ascii_lower(word)
    if not NAME.match(word) or folded in KEYWORDS or folded in UNSUPPORTED:
        return None
    return folded


def number_in(low, high, word):
    return int(word) if NUMBER.match(word) and len(word) < 10 and low <= int(word) <= high else None


def read_moment(text):
    """Seconds since 1970-01-01T00:00:00Z, or None."""
    m = MOMENT.match(text)
    if not m:
        return None
    day = read_day(m.group(1))
    hour, minute, second = (int(m.group(i)) for i in (2, 3, 4))
    if day is None or hour > 23 or minute > 59 or second > 59:
        return None
    return day * 86400 + hour * 3600 + minute * 60 + second


def day_text(day):
    number = day + days_before(1970)
    year = number * 400 // 146097 + 2
    while days_before(year) > number:
        year -= 1
    rest = number - days_before(year)
    month = 1
    while True:
        size = days_in(year, month)
        if rest < size:
            return "%04d-%02d-%02d" % (year, month, rest + 1)
        rest -= size
        month += 1


def moment_text(moment):
    day, second = divmod(moment, 86400)
    return "%sT%02d:%02d:%02dZ" % (day_text(day), second // 3600, second // 60 % 60, second % 60)


def read_statement(data):
    """The statement that a text is; raises the first refusal."""
    try:
        tokens = cut(data)
    except Fault as fault:
        raise Refused(FAULTS[fault.name] + " " + fault.name, fault.place)
    words = check_words(tokens)
    if words == "TooDeep":
        raise Refused("15 TooDeep", None)
    if words is not None:
        raise Refused("14 Unsupported", tokens[int(words[12:-1])][1].upper())
    reader = Reader(tokens)
    try:
        statement = reader.statement()
        reader.all_read()
    except BadSyntax:
        raise Refused("13 BadSyntax", None)
    return statement


def select_of(text):
    """The select that a logged text writes."""
    return field(Reader(cut(text.encode())).statement(), "select")


# ---------------------------------------------------------------- values

# A value is (kind, value), and NULL is None. A denied cell is the number of its rule, in a list.


def value_of(literal):
    if literal.name == "Null":
        return None
    if literal.name == "Day":
        return ("Date", field(literal.args[0], "day"))
    return ({"Int": "Integer", "Text": "Text"}[literal.name], literal.args[0])


def order_of(value):
    kind, inner = value
    return inner.encode() if kind == "Text" else inner


def printed(cell):
    if isinstance(cell, list):
        return "DENIED(%d)" % cell[0]
    if cell is None:
        return "NULL"
    kind, inner = cell
    if kind == "Text":
        return "'" + inner.replace("'", "''") + "'"
    return day_text(inner) if kind == "Date" else str(inner)


def tuple_text(shared):
    return " ".join("%s(%s)" % (table, ", ".join(map(printed, key))) for table, key in shared)


def in_field(cell):
    """A cell as a field of CSV."""
    if cell is None:
        return ""
    return cell[1] if isinstance(cell, tuple) and cell[0] == "Text" else printed(cell)


def in_json(value):
    if value is None:
        return None
    return day_text(value[1]) if value[0] == "Date" else value[1]


def is_bad_text(value):
    if value is None or value[0] != "Text":
        return False
    return len(value[1].encode()) > 4096 or any(ord(c) < 32 or ord(c) == 127 for c in value[1])


# ---------------------------------------------------------------- conditions


def operands(condition):
    """The lists of operands that are compared with one another, in text order."""
    kind = condition.name
    if kind in ("All", "Any"):
        return [part for inner in condition.args[0] for part in operands(inner)]
    if kind == "Not":
        return operands(condition.args[0])
    if kind == "Compare":
        return [[field(condition, "left"), field(condition, "right")]]
    if kind == "Between":
        return [[field(condition, "value"), field(condition, "low"), field(condition, "high")]]
    if kind == "Among":
        return [[field(condition, "value")] + field(condition, "list")]
    return [[field(condition, "value")]]


def compare(op, left, right):
    if left is None or right is None:
        return UNKNOWN
    a, b = order_of(left), order_of(right)
    holds = {"Eq": a == b, "Ne": a != b, "Lt": a < b, "Le": a <= b, "Gt": a > b, "Ge": a >= b}
    return TRUE if holds[op] else FALSE


def truth(condition, look):
    kind = condition.name
    if kind == "All":
        return min([truth(part, look) for part in condition.args[0]], default=TRUE)
    if kind == "Any":
        return max([truth(part, look) for part in condition.args[0]], default=FALSE)
    if kind == "Not":
        return 2 - truth(condition.args[0], look)
    if kind == "Compare":
        left, right = look(field(condition, "left")), look(field(condition, "right"))
        return compare(field(condition, "op").name, left, right)
    value = look(field(condition, "value"))
    if kind == "Between":
        low, high = look(field(condition, "low")), look(field(condition, "high"))
        return min(compare("Ge", value, low), compare("Le", value, high))
    if kind == "Among":
        return max(compare("Eq", value, look(other)) for other in field(condition, "list"))
    return TRUE if value is None else FALSE
