#!/usr/bin/env -S python3 -B
"""A second reader of the statement language, written from the grammar only.

It shares no code with the proved reader. Each line of standard input is the word of a rule (tokens,
statement, select, condition or audit), a space and a text. What the text is by that rule, or why it
is nothing, is printed as one line, in the form that hippo_try_reading has.
"""
import sys

from second_tokens import (COMPARE, Fault, Rec, Tup, Unit, check_words, cut, day_number, debug,
                           token_debug)

sys.setrecursionlimit(20000)

# ---------------------------------------------------------------- grammar


class BadSyntax(Exception):
    pass


END = ("end", None, 0, 0)


class Reader:
    def __init__(self, tokens):
        self.tokens = tokens
        self.count = len(tokens)
        self.at = 0

    # single tokens

    def peek(self, ahead=0):
        place = self.at + ahead
        return self.tokens[place] if place < self.count else END

    def sees(self, kind, value, ahead=0):
        token = self.peek(ahead)
        return token[0] == kind and token[1] == value

    def sees_word(self, word):
        return self.sees("keyword", word)

    def sees_symbol(self, symbol):
        return self.sees("symbol", symbol)

    def may(self, kind, value):
        if self.sees(kind, value):
            self.at += 1
            return True
        return False

    def may_word(self, word):
        return self.may("keyword", word)

    def may_name(self, name):
        """A word that stands for itself here, though it is a name elsewhere."""
        return self.may("word", name)

    def may_symbol(self, symbol):
        return self.may("symbol", symbol)

    def word(self, *words):
        """The given keywords, in this order."""
        for word in words:
            if not self.may("keyword", word):
                raise BadSyntax

    def symbol(self, symbol):
        if not self.may("symbol", symbol):
            raise BadSyntax

    def take(self, kind):
        token = self.peek()
        if token[0] != kind:
            raise BadSyntax
        self.at += 1
        return token[1]

    def name(self):
        return self.take("word")

    def number(self):
        return self.take("number")

    def quoted(self):
        return self.take("quoted")

    def all_read(self):
        if self.at != self.count:
            raise BadSyntax

    # lists

    def listed(self, one):
        """one {"," one}"""
        found = [one()]
        while self.may_symbol("Comma"):
            found.append(one())
        return found

    def in_parens(self, one):
        """"(" one {"," one} ")" """
        self.symbol("LeftParen")
        found = self.listed(one)
        self.symbol("RightParen")
        return found

    # operands

    def literal(self):
        kind, value, _, _ = self.peek()
        if kind == "number":
            shape = Tup("Int", value)
        elif kind == "quoted":
            shape = Tup("Text", value)
        elif kind == "day":
            shape = Tup("Day", day_number(value))
        elif kind == "keyword" and value == "null":
            shape = Unit("Null")
        else:
            raise BadSyntax
        self.at += 1
        return shape

    def column(self):
        first = self.name()
        if self.may_symbol("Dot"):
            table, column = Tup("Some", first), self.name()
        else:
            table, column = Unit("None"), first
        return Rec("RawColumn", ("table", table), ("column", column))

    def operand(self):
        if self.peek()[0] == "word":
            return Tup("Column", self.column())
        return Tup("Literal", self.literal())

    # conditions

    def condition(self):
        parts = [self.conjunction()]
        while self.may_word("or"):
            parts.append(self.conjunction())
        return parts[0] if len(parts) == 1 else Tup("Any", parts)

    def conjunction(self):
        parts = [self.negation()]
        while self.may_word("and"):
            parts.append(self.negation())
        return parts[0] if len(parts) == 1 else Tup("All", parts)

    def negation(self):
        nots = 0
        while self.may_word("not"):
            nots += 1
        shape = self.primary()
        for _ in range(nots):
            shape = Tup("Not", shape)
        return shape

    def primary(self):
        if self.may_symbol("LeftParen"):
            shape = self.condition()
            self.symbol("RightParen")
            return shape
        return self.test(self.operand())

    def test(self, left):
        """A test of an operand that is read already."""
        kind, value, _, _ = self.peek()
        if kind == "symbol" and value in COMPARE:
            self.at += 1
            right = self.operand()
            return Rec("Compare", ("op", Unit(COMPARE[value])), ("left", left),
                       ("right", right))
        is_missing = self.may_word("is")
        turned = self.may_word("not")
        if is_missing:
            self.word("null")
            shape = Rec("Missing", ("value", left))
        elif self.may_word("between"):
            low = self.operand()
            self.word("and")
            high = self.operand()
            shape = Rec("Between", ("value", left), ("low", low), ("high", high))
        else:
            self.word("in")
            among = self.in_parens(self.operand)
            shape = Rec("Among", ("value", left), ("list", among))
        return Tup("Not", shape) if turned else shape

    # selects

    def item(self):
        if (self.peek()[0] == "word" and self.sees("symbol", "Dot", 1)
                and self.sees("symbol", "Star", 2)):
            table = self.name()
            self.at += 2
            return Tup("AllOf", table)
        return Tup("One", self.column())

    def items(self):
        if self.may_symbol("Star"):
            return [Unit("All")]
        return self.listed(self.item)

    def group_item(self):
        for word, shape in (("min", "Min"), ("max", "Max")):
            if self.may_word(word):
                self.symbol("LeftParen")
                column = self.column()
                self.symbol("RightParen")
                return Tup(shape, column)
        return Tup("Column", self.column())

    def sources(self):
        """The tables, and the conditions of ON and WHERE."""
        tables = [self.name()]
        conds = []
        while True:
            if self.may_symbol("Comma"):
                tables.append(self.name())
            elif self.sees_word("inner") or self.sees_word("join"):
                self.may_word("inner")
                self.word("join")
                tables.append(self.name())
                self.word("on")
                conds.append(self.condition())
            else:
                break
        if self.may_word("where"):
            conds.append(self.condition())
        return tables, whole(conds)

    def grouped(self):
        """The second form of a select, after SELECT."""
        outs = self.listed(self.group_item)
        self.word("from")
        tables, cond = self.sources()
        self.word("group")
        if not self.may_name("by"):
            raise BadSyntax
        by = self.listed(self.column)
        form = Rec("Grouped", ("outs", outs), ("by", by))
        return Rec("RawSelect", ("items", []), ("tables", tables),
                   ("cond", cond), ("form", form))

    def ungrouped(self):
        """The first form of a select, after SELECT."""
        form = Unit("Distinct" if self.may_word("distinct") else "Plain")
        items = self.items()
        self.word("from")
        tables, cond = self.sources()
        return Rec("RawSelect", ("items", items), ("tables", tables),
                   ("cond", cond), ("form", form))

    def select(self):
        self.word("select")
        after = self.at
        try:
            return self.grouped()
        except BadSyntax:
            self.at = after
            return self.ungrouped()

    # audits

    def pair(self):
        self.symbol("LeftParen")
        purpose = self.name()
        self.symbol("Comma")
        recipient = self.name()
        self.symbol("RightParen")
        return Rec("Pair", ("purpose", purpose), ("recipient", recipient))

    def audit(self):
        self.word("during")
        begin = self.quoted()
        self.word("to")
        end = self.quoted()
        exempt = self.listed(self.pair) if self.may_word("otherthan") else []
        self.word("audit")
        shown = self.may_word("shown")
        columns = self.listed(self.column)
        self.word("from")
        tables = self.listed(self.name)
        conds = [self.condition()] if self.may_word("where") else []
        return Rec("RawAudit", ("from", begin), ("to", end), ("exempt", exempt),
                   ("shown", shown), ("columns", columns), ("tables", tables),
                   ("cond", whole(conds)))

    # statements

    def set_part(self):
        column = self.name()
        self.symbol("Equal")
        return column, self.literal()

    def keys(self):
        parts = [self.set_part()]
        while self.may_word("and"):
            parts.append(self.set_part())
        return [c for c, _ in parts], [v for _, v in parts]

    def column_definition(self):
        name = self.name()
        if self.may_word("integer"):
            kind = "Integer"
        else:
            kind = "Text" if self.either("text", "date") else "Date"
        not_null = self.may_word("not")
        if not_null:
            self.word("null")
        return Rec("Column", ("name", name), ("kind", Unit(kind)),
                   ("not_null", not_null))

    def create(self):
        if self.may_word("purpose"):
            return Tup("CreatePurpose", self.name())
        if self.may_word("recipient"):
            return Tup("CreateRecipient", self.name())
        if self.may_word("item"):
            item = self.name()
            self.word("opt")
            kind = "OptIn" if self.either("in", "out") else "OptOut"
            return Rec("CreateItem", ("item", item), ("kind", Unit(kind)))
        self.word("table")
        return self.create_table()

    def create_table(self):
        table = self.name()
        self.symbol("LeftParen")
        columns = [self.column_definition()]
        self.symbol("Comma")
        while not self.sees_word("primary"):
            columns.append(self.column_definition())
            self.symbol("Comma")
        self.word("primary", "key")
        key = self.in_parens(self.name)
        subject = Unit("None")
        if self.may_symbol("Comma"):
            self.word("subject")
            subject = Tup("Some", self.name())
        self.symbol("RightParen")
        return Rec("CreateTable", ("table", table), ("columns", columns),
                   ("key", key), ("subject", subject))

    def authorize(self, shape="Authorize"):
        user = self.name()
        self.word("for")
        purpose = self.name()
        self.symbol("Comma")
        recipient = self.name()
        return Rec(shape, ("user", user), ("purpose", purpose),
                   ("recipient", recipient))

    def deauthorize(self):
        return self.authorize("Deauthorize")

    def revoke(self):
        return Rec("Revoke", *self.rule())

    def explain(self):
        return Tup("Explain", self.number())

    def rule(self):
        """The fields that ALLOW and REVOKE have in common."""
        purpose = self.name()
        self.word("to")
        recipient = self.name()
        self.word("on")
        table = self.name()
        columns = self.in_parens(self.name)
        return [("purpose", purpose), ("recipient", recipient),
                ("table", table), ("columns", columns)]

    def retention(self):
        """[RETAIN n DAYS]"""
        if not self.may_name("retain"):
            return Unit("None")
        days = self.number()
        if not 1 <= days <= 36500 or not self.may_name("days"):
            raise BadSyntax
        return Tup("Some", days)

    def allow(self):
        fields = self.rule()
        item = Tup("Some", self.name()) if self.may_word("with") else Unit("None")
        return Rec("Allow", *fields, ("item", item), ("days", self.retention()))

    def either(self, word, other):
        """Whether the first of two keywords is here, of which one must be."""
        if self.may_word(word):
            return True
        self.word(other)
        return False

    def choice(self):
        subject = self.number()
        self.word("on")
        item = self.name()
        self.word("is")
        yes = self.either("yes", "no")
        return Rec("Choice", ("subject", subject), ("item", item), ("yes", yes))

    def insert(self):
        self.word("into")
        table = self.name()
        self.word("values")
        return Rec("Insert", ("table", table), ("values", self.in_parens(self.literal)))

    def update(self):
        table = self.name()
        self.word("set")
        parts = self.listed(self.set_part)
        self.word("where")
        key_columns, key_values = self.keys()
        return Rec("Update", ("table", table), ("columns", [column for column, _ in parts]),
                   ("values", [value for _, value in parts]), ("key_columns", key_columns),
                   ("key_values", key_values))

    def delete(self):
        self.word("from")
        table = self.name()
        self.word("where")
        key_columns, key_values = self.keys()
        return Rec("Delete", ("table", table), ("key_columns", key_columns),
                   ("key_values", key_values))

    def begin_audit(self):
        self.word("audit")
        return Tup("BeginAudit", self.audit())

    def console(self):
        """A statement of the console, by its first word."""
        if self.sees_word("during"):
            return Tup("Audit", self.audit())
        if self.may_name("watch"):
            return Tup("Watch", self.audit())
        for word in ("create", "authorize", "deauthorize", "allow", "revoke", "choice", "insert",
                     "update", "delete", "explain"):
            if self.may_word(word):
                return getattr(self, word)()
        self.word("begin")
        return self.begin_audit()

    def with_text(self, shape):
        """A select, with the place of its first byte and the place after its last."""
        start = self.peek()[2]
        select = self.select()
        end = self.tokens[self.at - 1][3]
        return Rec(shape, ("select", select), ("start", start), ("end", end))

    def statement(self):
        if self.sees_word("select"):
            shape = self.with_text("Select")
        elif self.may_word("open"):
            shape = self.with_text("Ask")
        elif self.may_name("extract"):
            shape = self.with_text("Extract")
        else:
            shape = self.console()
        self.may_symbol("Semicolon")
        return shape


def whole(conds):
    """The whole condition: the parts of ON and WHERE under one All."""
    parts = []
    for cond in conds:
        if cond.name == "All":
            parts.extend(cond.args[0])
        else:
            parts.append(cond)
    return Tup("All", parts)


# ---------------------------------------------------------------- lines

RULES = {"statement": Reader.statement, "select": Reader.select,
         "condition": Reader.condition, "audit": Reader.audit}


def answer(line):
    """The answer to one line of bytes, without its LF."""
    what, _, text = line.partition(b" ")
    what = what.decode("ascii", "replace")
    if what != "tokens" and what not in RULES:
        return "NoSuchWhat"
    try:
        text.decode("utf-8")
    except UnicodeDecodeError:
        return "NotUtf8"
    try:
        tokens = cut(text)
    except Fault as fault:
        return "%s(%d)" % (fault.name, fault.place)
    if what == "tokens":
        return debug([token_debug(t) for t in tokens])
    fault = check_words(tokens)
    if fault is not None:
        return fault
    reader = Reader(tokens)
    try:
        shape = RULES[what](reader)
        reader.all_read()
    except BadSyntax:
        return "BadSyntax"
    return debug(shape)


def main():
    out = sys.stdout.buffer
    for line in sys.stdin.buffer:
        if line.endswith(b"\n"):
            line = line[:-1]
        out.write(answer(line).encode("utf-8") + b"\n")
    out.flush()


if __name__ == "__main__":
    main()
