"""Random texts of the statement language that are broken or odd."""
from right_texts import KEYWORDS, PLACED, UNSUPPORTED, RightTexts

SYMBOLS = "( ) , . * = <> != < <= > >= ;".split()
ODD = ["~", "!", "\"", "#", "$", "%", "&", "+", "-", "/", ":", "?", "@", "[",
       "\\", "]", "^", "_", "`", "{", "|", "}", "'", "''", "(", ")", ",", ".",
       "*", "=", "<", ">", ";", " ", "\t", "0", "7", "a", "Z", "é", "日",
       "\U0001f642", "\u212a", "\u017f", "\x01", "\x0b", "\x0c", "\x1b",
       "\x1f", "\x7f", "\u00df", "\uff21", "\u0661", "\u20ac"]
BEYOND = ["9223372036854775808", "-9223372036854775809", "9223372036854775810",
          "10000000000000000000", "18446744073709551615",
          "18446744073709551616", "18446744073709551617",
          "-18446744073709551615", "99999999999999999999",
          "-99999999999999999999", "0009223372036854775808",
          "-0009223372036854775809", "340282366920938463463374607431768211456",
          "27670116110564327424", "92233720368547758070"]
# What makes odd texts after a number and after DATE, and odd tokens with a minus.
AFTER_NUMBERS = ("x", "_", "abc", "E5", "_1", "select", "é", "date'2024-01-01'")
AFTER_DATE = ("'", "'x", "'2024-01-01", "'2024-01-01''", "'2024-01-01'''",
              "'2024-01-01'''''", "", ",", "5", "=", "date '2024-01-01'",
              "'2024-01-01''2024-01-01'", "'2024-01-01' '2024-01-01'",
              "\"2024-01-01\"", ". '2024-01-01'", "é'2024-01-01'",
              "\x0b'2024-01-01'", "\u00a0'2024-01-01'")
ODD_MINUSES = ("-", "--", "- 3", "--3", "3-4", "3--4", "-x", "-'a'", "3 -4", "a-1", "-0", "-(",
               "-_", "1-", "-é", "3-4-5")
MORE_ODD = ["date", "'2024-01-01'", "not", "12", "x9", "''"]


class BrokenTexts(RightTexts):
    # ---- parts

    def any_token(self):
        style = self.random.random()
        if style < 0.3:
            return self.cased(self.pick(KEYWORDS))
        if style < 0.38:
            return self.cased(self.pick(UNSUPPORTED))
        if style < 0.44:
            return self.cased(self.pick(PLACED))
        if style < 0.67:
            return self.pick(SYMBOLS)
        if style < 0.8:
            return self.name()
        if style < 0.88:
            return self.number()
        if style < 0.94:
            return self.quoted()
        return self.day()

    def likely_word(self):
        """A keyword that is frequent, as a wrong token at a likely place."""
        return self.cased(self.pick(("not", "and", "or", "null", "is", "in",
                                     "between", "where", "from", "on", "join",
                                     "inner", "select", "open", "shown", "date",
                                     "audit", "with", "to", "for", "key",
                                     "distinct", "group", "min", "max", "retain",
                                     "days", "by", "watch", "extract")))

    def place(self, tokens):
        return self.some(0, len(tokens) - 1)

    def name_place(self, tokens):
        reserved = KEYWORDS + UNSUPPORTED
        places = [n for n, t in enumerate(tokens)
                  if t[0].isascii() and t[0].isalpha() and "'" not in t
                  and t.lower() not in reserved]
        return self.pick(places) if places else self.place(tokens)

    def insert_char(self, text, odd):
        at = self.some(0, len(text))
        return text[:at] + odd + text[at:]

    def deep(self):
        """A condition with 63 to 66 of something that counts."""
        n = self.some(63, 66)
        m = self.pick((0, 0, 1, self.some(62, 66)))
        style = self.some(0, 9)
        core = self.primary(0)
        if style == 0:
            return ["("] * n + core + [")"] * n
        if style == 1:
            return self.words("not") * n + core
        if style == 2:
            return self.words("not") * m + ["("] * n + core + [")"] * n
        if style == 3:
            return self.deep_mixed(n, m, core)
        if style == 4:
            return self.deep_nots(n)
        if style == 5:
            return self.closing_parts(n)
        if style == 6:                                 # an IN list deep inside
            return (["("] * n + [self.name()] + self.words("in") + ["(", "1", ")"]
                    + [")"] * n)
        if style == 7:                                 # the count below zero first
            d = self.some(1, 4)
            return [")"] * d + ["("] * (n + d) + core + [")"] * n
        if style == 8:                                 # nothing but parentheses
            return ["("] * n + [self.pick(UNSUPPORTED)] * self.some(0, 1)
        shut = self.some(0, n)
        return (["("] * shut + core + [")"] * shut + self.words("and")
                + ["("] * n + self.primary(0) + [")"] * n)

    def deep_mixed(self, n, m, core):
        """Parentheses, with NOT before the inner ones."""
        found = core
        for k in range(n):
            found = ["("] + found + [")"]
            if k < m:
                found = self.words("not") + found
        return found

    def deep_nots(self, n):
        """Tests with NOT, one too few or too many."""
        found = []
        for k in range(n):
            found += (self.words("and") if k else []) + [self.name()] + self.pick(
                (self.words("is not null"), self.words("not in") + ["(", "1", ")"],
                 self.words("not between 1 and 2")))
        return found

    def closing_parts(self, n):
        """Parts whose parentheses close again."""
        found = []
        for k in range(n):
            found += self.words(self.pick(("and", "or"))) if k else []
            found += ["("] + self.primary(0) + [")"]
        return found

    def deep_text(self):
        style = self.random.random()
        if style < 0.4:
            return "condition", self.deep()
        if style < 0.55:
            return "statement", (self.words("select") + ["*"] + self.words("from")
                                 + [self.name()] + self.words("where") + self.deep())
        if style < 0.65:
            return "select", (self.words("select") + [self.name()] + self.words("from")
                              + [self.name()] + self.words("join") + [self.name()]
                              + self.words("on") + self.deep())
        if style < 0.7:
            return "select", (self.words("select") + self.group_item() + self.words("from")
                              + [self.name()] + self.words("where") + self.deep()
                              + self.words("group by") + self.column())
        if style < 0.75:
            return "audit", (self.words("during") + ["'x'"] + self.words("to") + ["'y'"]
                             + self.words("audit") + ["c"] + self.words("from") + ["t"]
                             + self.words("where") + self.deep())
        if style < 0.95:
            return "statement", self.many_columns()
        return "statement", self.words("select sum from t where") + ["("] * self.some(63, 66)

    def many_columns(self):
        """A table with 63 to 66 columns that are NOT NULL."""
        n = self.some(63, 66)
        found = self.words("create table") + [self.name(), "("]
        for k in range(n):
            found += ["c%d" % k] + self.words(self.pick(("integer", "text", "date")))
            found += self.words("not null") + [","]
        found += self.words("primary key") + ["(", "c0", ")", ")"]
        if self.chance(0.2):
            self.put(found, self.any_token())
        return found

    def long_text(self):
        """A text of some thousand bytes."""
        style = self.some(0, 6)
        size = self.some(1500, 5000)
        if style == 0:
            digits = "0" * size + self.pick((str(self.some(0, 9)), "9223372036854775807",
                                             "9223372036854775808", "7x"))
            return "statement", "EXPLAIN " + self.pick(("", "-")) + digits
        if style == 1:
            text = "INSERT INTO t VALUES ('" + "b''" * (size // 3)
            return "statement", text + self.pick(("')", "'')", "'"))
        if style == 2:
            items = ["c%d" % k for k in range(size // 6)]
            text = "SELECT " + ", ".join(items) + " FROM t"
            return "select", text + self.pick(("", ";", ",", " WHERE"))
        if style == 3:
            parts = ["c%d = %d" % (k, -k) for k in range(size // 16)]
            text = self.pick((" AND ", " OR ")).join(parts)
            return "condition", text + self.pick(("", " AND", " x"))
        if style == 4:
            values = ["%d" % k for k in range(size // 6)]
            text = "x IN (" + ", ".join(values)
            return "condition", text + self.pick((")", "", ",)", "))"))
        if style == 5:
            found = []
            while len(found) < size // 6:
                found += (self.words(self.pick(("and", "or"))) if found else []) + self.negation(2)
            found = found[:size // 4]
            return "condition", self.text(found)
        return "tokens", self.text([self.any_token() for _ in range(size // 8)])

    def near_rule(self):
        """What is nearly a rule with a retention."""
        front = self.rule("allow")
        item = self.words("with") + [self.name()]
        number = self.pick(("0", "-0", "-1", "-36500", "36501", "36500", "1", "00",
                            "036500", "036501", "65536", "2147483648",
                            "4294967296", "4294967297", "4294967326",
                            "9223372036854775807", "-9223372036854775808",
                            "9223372036854775808", "'30'", "30.", "NULL", "a"))
        days = self.words("retain") + [number] + self.words("days")
        return front + self.pick((
            days, item + days, days + item, days + days, item + item,
            item + days + item, days[:2], days[:1], days[1:], days[:1] + days[2:],
            item[:1] + days, self.words("with retain") + days, self.words("with retain"),
            self.words("with days"), self.words("with retain") + days[1:],
            self.words("retain") + [number] + self.words("day"),
            self.words("retain") + [number] + self.words("days days"),
            self.words("retain") + [number, ","] + self.words("days"),
            self.words("retain") + ["(", number] + self.words("days") + [")"]))

    def near_group(self):
        """What is nearly a distinct or a grouped select."""
        columns = self.listed(self.column)
        mixed = self.listed(self.group_item)
        end = self.words("from") + self.sources()
        by = self.words("group by") + self.listed(self.column)
        table = [self.name(), ".", "*"]
        least = self.words("min") + ["("]
        return self.words("select") + self.pick((
            self.words("distinct") + mixed + end + by, self.words("distinct") + mixed + end,
            mixed + end, mixed + end + by[:1], mixed + end + by[1:],
            mixed + end + by[:2], ["*"] + end + by, table + end + by,
            columns + [","] + table + end + by, columns + end + by,
            columns + end + self.words("group") + by[2:],
            mixed + end + by + self.words("where") + self.condition(),
            mixed + end + by + by, mixed + end + by + self.words("or by"),
            mixed + end + by + [","] + self.group_item(),
            mixed + self.words("from") + [self.name()] + by,
            columns + self.words("distinct") + end,
            columns + [","] + self.words("distinct") + columns + end,
            self.words("distinct distinct") + columns + end,
            self.words("distinct") + ["*"] + end, self.words("distinct") + table + end,
            self.words("distinct") + ["("] + columns + [")"] + end,
            self.words("distinct") + end, end + by,
            least + self.words("distinct") + self.column() + [")"] + end + by,
            least + ["*", ")"] + end + by, least + ["1", ")"] + end + by,
            least + [")"] + end + by, least + columns + [")"] + end + by,
            least + self.group_item() + [")"] + end + by,
            self.words("min") + self.column() + end + by, self.words("max") + end + by,
            ["count", "(", "*", ")"] + end + by, ["sum", "("] + mixed + [")"] + end + by,
            mixed + end + self.words("group") + ["("] + columns + [")"],
            mixed + end + by + self.words("having") + self.condition()))

    def near_front(self):
        """What is nearly a statement with a word before it."""
        body = self.pick((self.select, self.audit, self.console))()
        front = self.pick(("watch", "extract", "open", "begin audit", "begin",
                           "watch audit", "watch watch", "extract extract",
                           "open extract", "extract open", "begin watch",
                           "watch extract", "retain", "by", "days", "unwatch"))
        found = self.words(front) + (body if self.chance(0.85) else [])
        return found + [";"] * self.pick((0, 0, 0, 1, 1, 2))

    # ---- ways to break a text: each changes its tokens, or returns the word of a rule and a text

    def put(self, tokens, token):
        """A token in the place of one of the others."""
        tokens[self.place(tokens)] = token

    def put_name(self, tokens, token):
        """A token in the place of a name, if there is one."""
        tokens[self.name_place(tokens)] = token

    def drop_token(self, what, tokens):
        del tokens[self.place(tokens)]

    def double_token(self, what, tokens):
        n = self.place(tokens)
        tokens.insert(n, tokens[n])

    def swap_neighbours(self, what, tokens):
        n = self.place(tokens)
        m = min(n + 1, len(tokens) - 1)
        tokens[n], tokens[m] = tokens[m], tokens[n]

    def swap_tokens(self, what, tokens):
        n, m = self.place(tokens), self.place(tokens)
        tokens[n], tokens[m] = tokens[m], tokens[n]

    def replace_token(self, what, tokens):
        self.put(tokens, self.any_token())

    def add_token(self, what, tokens):
        tokens.insert(self.some(0, len(tokens)), self.any_token())

    def add_word(self, what, tokens):
        tokens.insert(self.some(0, len(tokens)), self.likely_word())

    def replace_word(self, what, tokens):
        places = [n for n, token in enumerate(tokens) if token.isalpha()]
        if places:
            tokens[self.pick(places)] = self.likely_word()

    def cut_off(self, what, tokens):
        del tokens[self.some(0, len(tokens)):]

    def join_halves(self, what, tokens):
        first = tokens[:self.some(0, len(tokens))]
        return what, first + self.of_rule(what)[self.some(0, 6):]

    def add_characters(self, what, tokens):
        text = self.text(tokens)
        for _ in range(self.few(3)):
            text = self.insert_char(text, self.pick(ODD))
        return what, text

    def drop_character(self, what, tokens):
        text = self.text(tokens)
        n = self.some(0, len(text) - 1)
        return what, text[:n] + text[n + 1:]

    def replace_character(self, what, tokens):
        text = self.text(tokens)
        n = self.some(0, len(text) - 1)
        return what, text[:n] + self.pick(ODD) + text[n + 1:]

    def use_unsupported(self, what, tokens):
        n = self.name_place(tokens)
        for _ in range(self.few(3)):
            word = self.cased(self.pick(UNSUPPORTED))
            if self.chance(0.5):
                tokens[n] = word
            else:
                tokens.insert(n, word)
            n = self.some(0, len(tokens) - 1)

    def name_by_keyword(self, what, tokens):
        self.put_name(tokens, self.cased(self.pick(KEYWORDS)))

    def name_by_placed_word(self, what, tokens):
        self.put_name(tokens, self.cased(self.pick(PLACED)))

    def name_at_limit(self, what, tokens):
        self.put_name(tokens, self.long_word(self.some(62, 65)))

    def letter_after_number(self, what, tokens):
        number = self.pick((self.number(), self.pick(BEYOND)))
        self.put(tokens, number + self.pick(AFTER_NUMBERS))

    def odd_minus(self, what, tokens):
        self.put(tokens, self.pick(ODD_MINUSES))

    def open_quote(self, what, tokens):
        places = [n for n, token in enumerate(tokens) if "'" in token]
        if places:
            n = self.pick(places)
            tokens[n] = self.pick((tokens[n][:-1], tokens[n] + "'", "'" + tokens[n]))
        else:
            self.put(tokens, self.pick(("'", "'''", "'a", "'a''", "'a''b''")))

    def put_bad_day(self, what, tokens):
        self.put(tokens, self.bad_day())

    def odd_date(self, what, tokens):
        self.put(tokens, self.cased("date") + self.gap() + self.pick(AFTER_DATE))

    def add_semicolons(self, what, tokens):
        more = self.pick(([";"], [";", ";"], [";", "x"], [";", "'a"],
                          [";"] + self.of_rule(what), [";", "~"], [";", "sum"]))
        tokens = more + tokens if self.chance(0.3) else tokens + more
        return what, more if self.chance(0.1) else tokens

    def be_deep(self, what, tokens):
        what, tokens = self.deep_text()
        if self.chance(0.1):
            self.add_token(what, tokens)
        return what, tokens

    def put_beyond(self, what, tokens):
        self.put(tokens, self.pick(BEYOND))

    def be_tokens(self, what, tokens):
        return what, [self.any_token() for _ in range(self.some(0, 25))]

    def be_characters(self, what, tokens):
        what, among = self.pick(("tokens", "tokens", what)), ODD + MORE_ODD
        return what, "".join(self.pick(among) for _ in range(self.some(0, 20)))

    def be_other_rule(self, what, tokens):
        tokens = self.of_rule(self.pick(("statement", "select", "condition", "audit")))
        return self.pick(("statement", "select", "condition", "audit", "tokens")), tokens

    def be_near_rule(self, what, tokens):
        return "statement", self.near_rule()

    def be_near_group(self, what, tokens):
        tokens = self.near_group()
        what = self.pick(("select", "statement"))
        if what == "statement":
            tokens = self.words(self.pick(("", "", "open", "extract"))) + tokens
        return what, tokens

    def be_near_front(self, what, tokens):
        return "statement", self.near_front()

    def be_long(self, what, tokens):
        """A long text at times, else several small faults."""
        if self.chance(0.12):
            return self.long_text()
        for _ in range(self.some(2, 5)):
            n, style = self.place(tokens), self.some(0, 3)
            if style == 0 and len(tokens) > 1:
                del tokens[n]
            elif style == 1:
                tokens.insert(n, tokens[n])
            elif style == 2:
                tokens[n] = self.any_token()
            else:
                tokens.insert(n, self.any_token())

    WAYS = (
        drop_token, double_token, swap_neighbours, swap_tokens, replace_token, add_token, add_word,
        replace_word, cut_off, join_halves, add_characters, add_characters, drop_character,
        replace_character, use_unsupported, name_by_keyword, name_at_limit, letter_after_number,
        odd_minus, open_quote, put_bad_day, put_bad_day, odd_date, add_semicolons, be_deep,
        put_beyond, be_tokens, be_characters, be_other_rule, be_long, be_near_rule, be_near_rule,
        be_near_group, be_near_group, be_near_front, name_by_placed_word,
    )

    def broken(self):
        """The word of a rule, and a text that is broken in one way."""
        what = self.pick(("statement",) * 7 + ("select", "select", "condition",
                                               "condition", "audit", "tokens"))
        tokens = self.of_rule(what)
        way = self.WAYS[self.some(0, len(self.WAYS) - 1)]
        what, found = way(self, what, tokens) or (what, tokens)
        return what, found if isinstance(found, str) else self.text(found)
