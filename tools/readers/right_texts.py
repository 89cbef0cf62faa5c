"""Random texts of the statement language that are right, and the words that texts are made of."""
import random

from second_tokens import KEYWORDS, UNSUPPORTED

KEYWORDS, UNSUPPORTED = list(KEYWORDS), list(UNSUPPORTED)
# Words that have a meaning in one place and are names in all others.
PLACED = "retain days by watch extract".split()
COMPARES = "= <> != < <= > >=".split()


NAMES = """a b c t u v w p q r i x y pid name phone zip ward visit patient seen
    vno site room ann bea treatment billing nurse clerk contact calls care
    retain watch extract by days unwatch load at step login
    selects dates datex fromm nota orr in_ is_null ands nul no_ a1 b_2 c__ d9
    o on1 tex integers key_ sums maxi counts lefty asc mins groups distinct_
    retains day byy watcher extracts""".split()

INSIDE = ["a", "b", "Z", "0", "9", " ", "  ", "\t", "''", "\"", "\\", "é",
          "日", "\U0001f642", "\u212a", "\u017f", ";", "--", "(", ")", ",",
          "~", "%", "\x01", "\x1f", "\x7f", "NULL", "DATE", "n", "u{7}"]
MOMENTS = ["2024-01-02T08:00:00Z", "2023-12-31T23:59:59Z", "x", "", "it''s",
           "2024-13-01T00:00:00Z", "0001-01-01T00:00:00Z"]
GOOD_DAYS = ["2024-02-29", "2000-02-29", "1600-02-29", "2023-02-28",
             "1970-01-01", "1969-12-31", "1970-01-02", "0001-01-01",
             "9999-12-31", "0400-02-29", "1900-02-28", "1900-03-01",
             "2024-12-31", "2024-03-01", "0001-12-31", "0004-02-29"]
BAD_DAYS = ["2023-02-29", "1900-02-29", "2100-02-29", "2024-02-30",
            "2024-04-31", "2024-13-01", "2024-00-10", "2024-01-00",
            "2024-01-32", "0000-01-01", "0000-12-31", "24-01-01", "2024-1-01",
            "2024-01-1", "2024/01/01", "20240101", " 2024-01-01",
            "2024-01-01 ", "2024-01-01T00:00:00Z", "x", "", "''", "10000-01-01",
            "-001-01-01", "+2024-01-01", "2024-01-0a", "2O24-01-01",
            "2024-01-01''", "\u0662024-01-01", "2024-01-\u0661\u0661", "2024-0\u06611-01",
            "99999-1-01", "2024-01-010", "9999-12-32", "2024--1-01", "2024-01- 1"]
LIMITS = [2 ** 63 - 1, -2 ** 63, 2 ** 63 - 2, -2 ** 63 + 1, 2 ** 62, 10 ** 18,
          -10 ** 18]


class RightTexts:
    def __init__(self, seed):
        self.random = random.Random(seed)

    # ---- small choices

    def chance(self, share):
        return self.random.random() < share

    def pick(self, among):
        return self.random.choice(among)

    def some(self, low, high):
        return self.random.randint(low, high)

    def few(self, most=6):
        """1 to `most`, small ones more often."""
        n = 1
        while n < most and self.chance(0.45):
            n += 1
        return n

    def cased(self, word):
        style = self.random.random()
        if style < 0.5:
            return word.upper()
        if style < 0.75:
            return word
        return "".join(self.pick((c.lower(), c.upper())) for c in word)

    def words(self, text):
        """Keywords as tokens."""
        return [self.cased(word) for word in text.split()]

    # ---- tokens

    def long_word(self, size):
        first = self.pick("abcXYZ")
        return first + "".join(self.pick("abcdeXYZ019_") for _ in range(size - 1))

    def name(self):
        style = self.random.random()
        if style < 0.55:
            return self.pick("abctuvwpqrixy")
        if style < 0.9:
            word = self.pick(NAMES)
            return self.cased(word) if self.chance(0.3) else word
        if style < 0.95:
            return self.cased(self.pick(PLACED))
        if style < 0.975:
            return self.pick(KEYWORDS + UNSUPPORTED) + self.pick(("_", "1", "x_", "0z"))
        return self.long_word(self.some(60, 63))

    def number(self):
        style = self.random.random()
        if style < 0.5:
            return str(self.some(0, 99))
        if style < 0.7:
            return str(-self.some(0, 99))
        if style < 0.8:
            return str(self.some(-2 ** 63, 2 ** 63 - 1))
        if style < 0.88:
            n = self.pick(LIMITS)
            zeros = "0" * self.pick((0, 0, 1, 3, 25))
            return ("-" if n < 0 else "") + zeros + str(abs(n))
        if style < 0.98:
            return self.pick(("", "-")) + "0" * self.some(1, 5) + str(self.some(0, 200))
        return self.pick(("0", "-0", "00", "-00", "0" * 40))

    def quoted(self):
        style = self.random.random()
        if style < 0.3:
            return "'" + self.pick(("Ada", "x", "p12", "555-1", "north", "")) + "'"
        if style < 0.4:
            return "'" + self.pick(("''", "it''s", "''''", "a''''b", "''x''",
                                    "a''", "''a")) + "'"
        if style < 0.45:
            return "'" + self.pick(GOOD_DAYS + BAD_DAYS) + "'"
        return "'" + "".join(self.pick(INSIDE) for _ in range(self.some(0, 8))) + "'"

    def gap(self):
        return self.pick(("", " ", " ", " ", "  ", "\t", " \t ", "\t\t"))

    def day(self):
        style = self.random.random()
        if style < 0.4:
            text = self.pick(GOOD_DAYS)
        else:
            text = "%04d-%02d-%02d" % (self.some(1, 9999), self.some(1, 12),
                                       self.some(1, 28))
        return self.cased("date") + self.gap() + "'" + text + "'"

    def bad_day(self):
        style = self.random.random()
        if style < 0.6:
            text = self.pick(BAD_DAYS)
        elif style < 0.9:
            text = "%04d-%02d-%02d" % (self.some(0, 9999), self.some(0, 13),
                                       self.some(0, 32))
        else:
            text = self.quoted()[1:-1]
        return self.cased("date") + self.gap() + "'" + text + "'"

    def literal(self):
        style = self.random.random()
        if style < 0.45:
            return [self.number()]
        if style < 0.7:
            return [self.quoted()]
        if style < 0.85:
            return [self.day()]
        return self.words("null")

    def column(self):
        if self.chance(0.3):
            return [self.name(), ".", self.name()]
        return [self.name()]

    def operand(self):
        return self.column() if self.chance(0.55) else self.literal()

    def listed(self, one, most=6):
        found = one()
        for _ in range(self.few(most) - 1):
            found += [","] + one()
        return found

    def in_parens(self, one, most=6):
        return ["("] + self.listed(one, most) + [")"]

    def one_name(self):
        return [self.name()]

    def names_in_parens(self):
        return self.in_parens(self.one_name)

    # ---- conditions

    def primary(self, depth):
        if depth > 0 and self.chance(0.35):
            return ["("] + self.nested(depth - 1) + [")"]
        left = self.operand()
        style = self.random.random()
        turn = self.words("not") if self.chance(0.35) else []
        if style < 0.55:
            return left + [self.pick(COMPARES)] + self.operand()
        if style < 0.7:
            return (left + turn + self.words("between") + self.operand()
                    + self.words("and") + self.operand())
        if style < 0.85:
            return left + turn + self.words("in") + self.in_parens(self.operand)
        return left + self.words("is") + turn + self.words("null")

    def negation(self, depth):
        found = []
        while self.chance(0.15):
            found += self.words("not")
        return found + self.primary(depth)

    def conjunction(self, depth):
        found = self.negation(depth)
        while self.chance(0.3):
            found += self.words("and") + self.negation(depth)
        return found

    def nested(self, depth):
        found = self.conjunction(depth)
        while self.chance(0.22):
            found += self.words("or") + self.conjunction(depth)
        return found

    def condition(self):
        return self.nested(self.some(0, 4))

    def where(self, p=0.6):
        return self.words("where") + self.condition() if self.chance(p) else []

    # ---- the other rules

    def item(self):
        if self.chance(0.2):
            return [self.name(), ".", "*"]
        return self.column()

    def sources(self):
        found = [self.name()]
        while self.chance(0.35):
            style = self.random.random()
            if style < 0.4:
                found += [",", self.name()]
            else:
                found += self.words("join" if style < 0.7 else "inner join")
                found += [self.name()] + self.words("on") + self.condition()
        return found + self.where()

    def group_item(self):
        style = self.random.random()
        if style < 0.5:
            return self.column()
        return (self.words("min" if style < 0.75 else "max") + ["("] + self.column()
                + [")"])

    def grouped(self):
        return (self.words("select") + self.listed(self.group_item) + self.words("from")
                + self.sources() + self.words("group by") + self.listed(self.column))

    def select(self):
        if self.chance(0.3):
            return self.grouped()
        found = self.words("select")
        if self.chance(0.25):
            found += self.words("distinct")
        found += ["*"] if self.chance(0.2) else self.listed(self.item)
        return found + self.words("from") + self.sources()

    def pair(self):
        return ["(", self.name(), ",", self.name(), ")"]

    def moment(self):
        return ["'" + self.pick(MOMENTS) + "'"] if self.chance(0.8) else [self.quoted()]

    def audit(self):
        found = self.words("during") + self.moment() + self.words("to") + self.moment()
        if self.chance(0.4):
            found += self.words("otherthan") + self.listed(self.pair)
        found += self.words("audit shown" if self.chance(0.3) else "audit")
        found += self.listed(self.column)
        found += self.words("from") + self.listed(self.one_name, 4)
        return found + self.where()

    def set_part(self):
        return [self.name(), "="] + self.literal()

    def keys(self):
        found = self.set_part()
        while self.chance(0.35):
            found += self.words("and") + self.set_part()
        return found

    def column_definition(self):
        found = [self.name()] + self.words(self.pick(("integer", "text", "date")))
        return found + (self.words("not null") if self.chance(0.35) else [])

    def days(self):
        style = self.random.random()
        if style < 0.5:
            return str(self.some(1, 400))
        if style < 0.8:
            return str(self.some(1, 36500))
        return "0" * self.pick((0, 0, 1, 30)) + self.pick(("1", "2", "36499", "36500"))

    def retention(self):
        return self.words("retain") + [self.days()] + self.words("days")

    def table(self):
        found = self.words("create table") + [self.name(), "("]
        found += self.listed(self.column_definition)
        found += [","] + self.words("primary key") + self.names_in_parens()
        if self.chance(0.5):
            found += [","] + self.words("subject") + [self.name()]
        return found + [")"]

    def rule(self, word):
        """ALLOW or REVOKE, up to the columns."""
        return (self.words(word) + [self.name()] + self.words("to") + [self.name()]
                + self.words("on") + [self.name()] + self.names_in_parens())

    def allow(self):
        found = self.rule("allow")
        found += self.words("with") + [self.name()] if self.chance(0.5) else []
        return found + (self.retention() if self.chance(0.5) else [])

    def console(self):
        style = self.some(0, 18)
        if style <= 2:
            return self.table()
        if style <= 4:
            word = "create purpose" if style == 3 else "create recipient"
            return self.words(word) + [self.name()]
        if style == 5:
            return (self.words("create item") + [self.name()] + self.words("opt")
                    + self.words(self.pick(("in", "out"))))
        if style <= 7:
            return (self.words("authorize" if style == 6 else "deauthorize")
                    + [self.name()] + self.words("for")
                    + [self.name(), ",", self.name()])
        if style <= 9:
            return self.allow()
        if style == 10:
            return self.rule("revoke")
        return self.change(style) if style <= 14 else self.looking_back(style)

    def change(self, style):
        """A choice or a change of a row."""
        if style == 11:
            return (self.words("choice") + [self.number()] + self.words("on")
                    + [self.name()] + self.words("is")
                    + self.words(self.pick(("yes", "no"))))
        if style == 12:
            return (self.words("insert into") + [self.name()] + self.words("values")
                    + self.in_parens(self.literal))
        if style == 13:
            return (self.words("update") + [self.name()] + self.words("set")
                    + self.listed(self.set_part) + self.words("where")
                    + self.keys())
        return (self.words("delete from") + [self.name()] + self.words("where")
                + self.keys())

    def looking_back(self, style):
        """EXPLAIN, or an audit in one of its forms."""
        if style == 15:
            return self.words("explain") + [self.number()]
        if style == 16:
            return self.audit()
        return self.words("begin audit" if style == 17 else "watch") + self.audit()

    def statement(self):
        style = self.random.random()
        if style < 0.3:
            found = self.select()
        elif style < 0.37:
            found = self.words("open") + self.select()
        elif style < 0.44:
            found = self.words("extract") + self.select()
        elif style < 0.54:
            found = self.words(self.pick(("", "begin audit", "watch"))) + self.audit()
        else:
            found = self.console()
        return found + ([";"] if self.chance(0.3) else [])

    def of_rule(self, what):
        if what == "select":
            return self.select()
        if what == "condition":
            return self.condition()
        if what == "audit":
            return self.audit()
        return self.statement()

    # ---- from tokens to a text

    @staticmethod
    def must_part(a, b):
        """Whether two tokens would run together without a blank."""
        x, y = a[-1:], b[:1]
        if (x.isascii() and (x.isalnum() or x == "_")
                and y.isascii() and (y.isalnum() or y == "_")):
            return True
        if x == "'" and y == "'":
            return True
        return a in ("<", ">", "!") and y in ("=", ">")

    def blank(self):
        return self.pick((" ", " ", " ", "\t", "  ", "\t ", "   ", " \t\t"))

    def text(self, tokens):
        style = self.random.random()
        out = []
        if self.chance(0.08):
            out.append(self.blank())
        before = None
        for token in tokens:
            if before is not None:
                must = self.must_part(before, token)
                if style < 0.35:                       # as a person writes it
                    tight = (token in (",", ")", ";", ".")
                             or before in ("(", "."))
                    if must or not tight:
                        out.append(" ")
                elif style < 0.6:                      # as short as it goes
                    if must:
                        out.append(" ")
                elif style < 0.75:                     # one blank each
                    out.append(" ")
                elif must or self.chance(0.5):         # wild
                    out.append(self.blank())
            out.append(token)
            before = token
        if self.chance(0.08):
            out.append(self.blank())
        return "".join(out)

    # ---- right lines

    def right(self):
        style = self.random.random()
        if style < 0.62:
            what = "statement"
        elif style < 0.74:
            what = "select"
        elif style < 0.86:
            what = "condition"
        elif style < 0.93:
            what = "audit"
        else:
            return "tokens", self.text(self.of_rule(self.pick(
                ("statement", "select", "condition", "audit"))))
        return what, self.text(self.of_rule(what))
