"""Words, days, tokens and printed forms of the second reader."""
import re
import unicodedata

# ---------------------------------------------------------------- word lists

# The words of the language, in the order in which random texts pick them.
KEYWORDS = dict.fromkeys("""
    and allow audit authorize begin between choice create date deauthorize
    delete distinct during explain for from group in inner insert integer into
    is item join key max min no not null on open opt otherthan out primary
    purpose recipient revoke select set shown subject table text to update
    values where with yes or
""".split())

UNSUPPORTED = dict.fromkeys("""
    all alter any as avg case cast count cross drop except exists full having
    intersect left like limit natural offset order outer right sum union using
    window
""".split())

SYMBOLS = {
    b"(": "LeftParen", b")": "RightParen", b",": "Comma", b".": "Dot",
    b"*": "Star", b"=": "Equal", b"<>": "NotEqual", b"!=": "NotEqual",
    b"<": "Less", b"<=": "LessEqual", b">": "Greater", b">=": "GreaterEqual",
    b";": "Semicolon",
}

COMPARE = {"Equal": "Eq", "NotEqual": "Ne", "Less": "Lt", "LessEqual": "Le",
           "Greater": "Gt", "GreaterEqual": "Ge"}

# ---------------------------------------------------------------- Rust's Debug


class Unit:
    """A variant without fields."""
    __slots__ = ("name",)

    def __init__(self, name):
        self.name = name


class Tup:
    """A variant (or Some) with fields by place."""
    __slots__ = ("name", "args")

    def __init__(self, name, *args):
        self.name = name
        self.args = args


class Rec:
    """A struct or a variant with named fields."""
    __slots__ = ("name", "fields")

    def __init__(self, name, *fields):
        self.name = name
        self.fields = fields


PLAIN = re.compile(r'[ !#-\[\]-~]*\Z')
SHORT = {'"': '\\"', "\\": "\\\\", "\t": "\\t", "\r": "\\r", "\n": "\\n",
         "\0": "\\0"}


def debug_text(s):
    if PLAIN.match(s):
        return '"' + s + '"'
    out = ['"']
    for c in s:
        if c in SHORT:
            out.append(SHORT[c])
        elif " " <= c <= "~":
            out.append(c)
        elif unicodedata.category(c) in ("Cc", "Cf", "Cs", "Co", "Cn", "Zl",
                                         "Zp", "Zs", "Mn", "Me"):
            # not printable, or extends the character before it
            out.append("\\u{%x}" % ord(c))
        else:
            out.append(c)
    out.append('"')
    return "".join(out)


def joined(members, front, end):
    return front + ", ".join(members) + end


def debug(x):
    """A value as Rust's Debug prints it."""
    if isinstance(x, str):
        return debug_text(x)
    if isinstance(x, bool):
        return "true" if x else "false"
    if isinstance(x, int):
        return str(x)
    if isinstance(x, list):
        return joined(map(debug, x), "[", "]")
    if isinstance(x, Unit):
        return x.name
    if isinstance(x, Tup):
        return joined(map(debug, x.args), x.name + "(", ")")
    if isinstance(x, Rec):
        fields = (field + ": " + debug(member) for field, member in x.fields)
        return joined(fields, x.name + " { ", " }")
    raise TypeError(x)


# ---------------------------------------------------------------- days

DAYS_IN = (31, 28, 31, 30, 31, 30, 31, 31, 30, 31, 30, 31)
DAY_FORM = re.compile(rb"([0-9]{4})-([0-9]{2})-([0-9]{2})\Z")


def leap(year):
    return year % 4 == 0 and (year % 100 != 0 or year % 400 == 0)


def days_in(year, month):
    return DAYS_IN[month - 1] + (1 if month == 2 and leap(year) else 0)


def days_before(year):
    """Days from 0001-01-01 to the first day of `year`."""
    past = year - 1
    return 365 * past + past // 4 - past // 100 + past // 400


def read_day(text):
    """The day number of exactly YYYY-MM-DD, or None."""
    m = DAY_FORM.match(text)
    if not m:
        return None
    year, month, day = int(m.group(1)), int(m.group(2)), int(m.group(3))
    if year < 1 or not 1 <= month <= 12:
        return None
    if not 1 <= day <= days_in(year, month):
        return None
    number = days_before(year) + sum(DAYS_IN[:month - 1]) + day - 1
    if month > 2 and leap(year):
        number += 1
    return number - days_before(1970)


# ---------------------------------------------------------------- tokens

# A token is (kind, value, start, end) with the kinds word, keyword,
# unsupported, number, quoted, day, symbol.


class Fault(Exception):
    def __init__(self, name, place):
        self.name = name
        self.place = place


BLANKS = re.compile(rb"[ \t]*")
WORD = re.compile(rb"[A-Za-z][A-Za-z0-9_]*")
NUMBER = re.compile(rb"-?[0-9]+")
LETTER = re.compile(rb"[A-Za-z_]")
SYMBOL = re.compile(rb"<>|!=|<=|>=|[(),.*=<>;]")


def quoted_end(text, at):
    """The place after the closing quote of the text that opens at `at`; None where it is open."""
    place = at + 1
    while True:
        place = text.find(b"'", place)
        if place < 0:
            return None
        if text[place + 1:place + 2] == b"'":
            place += 2
        else:
            return place + 1


def inner(text, at, end):
    return text[at + 1:end - 1].replace(b"''", b"'")


def cut_day(text, at, end):
    """The day of the word DATE that ends at `end`; None where no text follows."""
    quote = BLANKS.match(text, end).end()
    close = quoted_end(text, quote) if text[quote:quote + 1] == b"'" else None
    if close is None:
        return None
    day = read_day(inner(text, quote, close))
    if day is None:
        raise Fault("BadDate", at)
    return ("day", day, at, close)


def cut_word(text, at, end):
    if end - at > 63:
        raise Fault("BadToken", at)
    word = text[at:end].decode("ascii").lower()
    day = cut_day(text, at, end) if word == "date" else None
    if day is not None:
        return day
    if word in KEYWORDS:
        return ("keyword", word, at, end)
    return ("unsupported" if word in UNSUPPORTED else "word", word, at, end)


def cut_number(text, at, end):
    digits = text[at:end].lstrip(b"-").lstrip(b"0")
    value = 10 ** 19 if len(digits) > 19 else int(digits or b"0")
    if text[at:at + 1] == b"-":
        value = -value
    if not -2 ** 63 <= value <= 2 ** 63 - 1:
        raise Fault("NumberTooLarge", at)
    if LETTER.match(text, end):
        raise Fault("BadToken", end)
    return ("number", value, at, end)


def cut_quoted(text, at):
    end = quoted_end(text, at)
    if end is None:
        raise Fault("BadToken", at)
    return ("quoted", inner(text, at, end).decode("utf-8"), at, end)


def cut_one(text, at):
    """The token at a place."""
    word = WORD.match(text, at)
    if word:
        return cut_word(text, at, word.end())
    number = NUMBER.match(text, at)
    if number:
        return cut_number(text, at, number.end())
    if text[at:at + 1] == b"'":
        return cut_quoted(text, at)
    symbol = SYMBOL.match(text, at)
    if symbol:
        return ("symbol", SYMBOLS[symbol.group()], at, symbol.end())
    raise Fault("BadToken", at)


def cut(text):
    """The tokens of a text (bytes); raises Fault at the leftmost one."""
    found = []
    at = BLANKS.match(text).end()
    while at < len(text):
        token = cut_one(text, at)
        found.append(token)
        at = BLANKS.match(text, token[3]).end()
    return found


def day_number(day):
    return Rec("DayNumber", ("day", day))


def token_debug(token):
    kind, value, start, end = token
    if kind == "word":
        shape = Tup("Word", value)
    elif kind == "keyword":
        shape = Tup("Keyword", Unit("K" + value[0].upper() + value[1:]))
    elif kind == "unsupported":
        shape = Tup("Unsupported", value)
    elif kind == "number":
        shape = Tup("Number", value)
    elif kind == "quoted":
        shape = Tup("Quoted", value)
    elif kind == "day":
        shape = Tup("Day", day_number(value))
    else:
        shape = Tup("Symbol", Unit(value))
    return Rec("Token", ("kind", shape), ("start", start), ("end", end))


def check_words(tokens):
    """The fault of the words, as it is printed, or None."""
    depth = nots = 0
    for kind, value, _, _ in tokens:
        if kind == "symbol":
            depth += {"LeftParen": 1, "RightParen": -1}.get(value, 0)
        nots += kind == "keyword" and value == "not"
        if depth > 64 or nots > 64:
            return "TooDeep"
    for place, token in enumerate(tokens):
        if token[0] == "unsupported":
            return "Unsupported(%d)" % place
    return None
