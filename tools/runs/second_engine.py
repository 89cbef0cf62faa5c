#!/usr/bin/env -S python3 -B
"""A second engine for `hippo run`, written from the rules of the language only.

It shares no code with the proved engine. It searches lists where that has maps and plans, and
audits by removing each tuple from whole products. It reads statements with the second reader.

Standard input is the input of a run; the replies are printed.
usage: second_engine.py [text|json|csv], the format of flags
"""
import itertools
import json
import sys

from second_queries import (audited_cells, bag, check_counts, check_grouped, check_kinds,
                            check_texts, column_in, columns_shown, find_all, finder, fit,
                            group_cell, named, passing, repeated)
from second_records import field_value, records, written
from second_values import (Refused, ascii_lower, field, fields, in_field, in_json, moment_text,
                           name_of, number_in, operands, order_of, printed, read_day, read_moment,
                           read_statement, select_of, tuple_text, value_of)

SHORT_WORDS = ("login", "logout", "fetch", "close", "step", "drop", "unwatch", "load")
CHANGES = ("CreateTable", "CreatePurpose", "CreateRecipient", "CreateItem", "Authorize",
           "Deauthorize", "Allow", "Revoke", "Choice", "Insert", "Update", "Delete")
VERSIONS = ("Insert", "Update", "Delete")
BAD_LINE = "- no 10 BadLine"


class Engine:
    def __init__(self, format_of_flags="text"):
        self.clock = -62135596800
        self.entries = []  # (moment, act); the number is the place, from 1
        self.sessions = {}
        self.jobs = {}  # number: audit, length, place
        self.watches = {}  # number: audit
        self.format = format_of_flags

    def last(self, test):
        """The last entry that passes, with its number; (0, None) where none does."""
        for place in range(len(self.entries) - 1, -1, -1):
            if test(self.entries[place][1]):
                return place + 1, self.entries[place][1]
        return 0, None

    def table(self, name):
        for _, act in self.entries:
            if act[0] == "Create" and act[1] == name:
                return act
        return None

    def tables(self):
        return [act for _, act in self.entries if act[0] == "Create"]

    def exists(self, kind, name):
        return any(act[0] == kind and act[1] == name for _, act in self.entries)

    def key_of(self, table, row):
        return tuple(row[place] for place in table[3])

    def live(self, table, key):
        """The row with a key, the moment of its birth and the number of its last entry; or None."""
        row = born = number = None
        for place, (moment, act) in enumerate(self.entries):
            if act[0] not in VERSIONS or act[1] != table[1]:
                continue
            if act[0] == "Delete" and act[2] == key:
                row = born = number = None
            elif act[0] != "Delete" and self.key_of(table, act[2]) == key:
                row, number = act[2], place + 1
                born = moment if act[0] == "Insert" else born
        return None if row is None else (row, born, number)

    def rows(self, table):
        keys = {self.key_of(table, act[2]) for _, act in self.entries
                if act[0] in ("Insert", "Update") and act[1] == table[1]}
        found = [(key, self.live(table, key)) for key in keys]
        found = [(key, row) for key, row in found if row is not None]
        found.sort(key=lambda pair: [order_of(value) for value in pair[0]])
        return [(row[0], row[1]) for _, row in found]

    def authorized(self, user, purpose, recipient):
        asked, kinds = (user, purpose, recipient), ("Authorize", "Deauthorize")
        number, act = self.last(lambda act: act[0] in kinds and act[1:] == asked)
        if act is None or act[0] == "Deauthorize":
            raise Refused("23 NotAuthorized", number)

    def verdict(self, purpose, recipient, table, row, born, place):
        """None where the cell is shown, else the number of the rule that denies it."""
        cells, kinds = (purpose, recipient, table[1]), ("Allow", "Revoke")
        number, rule = self.last(
            lambda act: act[0] in kinds and act[1:4] == cells and place in act[4]
        )
        if rule is None or rule[0] == "Revoke":
            return number
        item, days = rule[5], rule[6]
        if days is not None and self.clock - born >= days * 86400:
            return number
        if item is not None:
            asked = (row[table[4]][1], item)
            _, choice = self.last(lambda act: act[0] == "Choice" and act[1:3] == asked)
            if not (choice[3] if choice is not None else self.is_opt_out(item)):
                return number
        return None

    def is_opt_out(self, item):
        return any(act[:3] == ("Item", item, "OptOut") for _, act in self.entries)

    def view(self, purpose, recipient, table):
        seen = []
        for row, born in self.rows(table):
            rules = [self.verdict(purpose, recipient, table, row, born, place)
                     for place in range(len(row))]
            if all(rules[place] is None for place in table[3]):
                seen.append([cell if rule is None else [rule] for cell, rule in zip(row, rules)])
        return seen

    # ------------------------------------------------------------ selects

    def resolve(self, select):
        """What a select asks for, once its names are found; raises the first refusal."""
        names, items = field(select, "tables"), field(select, "items")
        condition, form = field(select, "cond"), field(select, "form")
        outs, by = (field(form, "outs"), field(form, "by")) if form.name == "Grouped" else ([], [])
        tables = self.tables_named(names)
        repeated(names)
        find = finder(tables)
        shown = columns_shown(items, tables, find)
        outs_found = [(out.name, find(out.args[0])) for out in outs]
        compared = operands(condition)
        find_all(compared, find)
        by_found = [find(column) for column in by]
        check_grouped(outs, by, find)
        check_kinds(tables, find, compared)
        check_texts(compared)
        check_counts((4, names), (128, items), (128, outs), (128, by))
        return {"tables": tables, "shown": shown, "find": find, "condition": condition,
                "form": form.name, "outs": outs_found, "by": by_found}

    def tables_named(self, names):
        for name in names:
            if self.table(name) is None:
                raise Refused("30 UnknownTable", name)
        return [self.table(name) for name in names]

    def answer(self, session, asked):
        pair = (session["purpose"], session["recipient"])
        views = [self.view(*pair, table) for table in asked["tables"]]
        return self.rows_of(asked, passing(asked, views))

    def rows_of(self, asked, found):
        """The rows that a query makes of the combinations that pass."""
        if asked["form"] == "Grouped":
            return self.groups(asked, found)
        rows = [[combination[place][at] for place, at in asked["shown"]] for combination in found]
        if asked["form"] == "Distinct":
            return [row for place, row in enumerate(rows) if row not in rows[:place]]
        return rows

    def groups(self, asked, found):
        """A row for each different list of the cells of BY, in the order of their first members."""
        keys = [[combination[place][at] for place, at in asked["by"]] for combination in found]
        rows = []
        for first, key in enumerate(keys):
            if key in keys[:first]:
                continue
            members = [combination for other, combination in zip(keys, found) if other == key]
            rows.append([group_cell(kind, [member[place][at] for member in members])
                         for kind, (place, at) in asked["outs"]])
        return rows

    # ------------------------------------------------------------ audits

    def before(self, number):
        """The engine as it was before an entry, at the moment of the entry."""
        past = Engine()
        past.clock = self.entries[number - 1][0]
        past.entries = self.entries[:number - 1]
        return past

    def audit(self, number, expression):
        """What an audit asks for, once its names are found; raises the first refusal."""
        if number != 0:
            raise Refused("24 ConsoleOnly", None)
        names, condition = field(expression, "tables"), field(expression, "cond")
        exempt = field(expression, "exempt")
        tables = self.tables_named(names)
        for pair in exempt:
            self.known_pair(pair)
        repeated(names)
        find = finder(tables)
        columns = [find(column) for column in field(expression, "columns")]
        compared = operands(condition)
        find_all(compared, find)
        check_kinds(tables, find, compared)
        check_texts(compared)
        check_counts((4, names), (128, columns), (64, exempt))
        begin, end = (read_moment(field(expression, word).encode()) for word in ("from", "to"))
        if begin is None or end is None:
            raise Refused("18 BadMoment", None)
        if end < begin:
            raise Refused("56 PeriodBack", None)
        exempt = [(field(pair, "purpose"), field(pair, "recipient")) for pair in exempt]
        return {"names": names, "tables": tables, "columns": columns, "find": find,
                "condition": condition, "begin": begin, "end": end, "exempt": exempt,
                "seen": field(expression, "shown")}

    def in_period(self, audit, number):
        """Whether an entry is a question that an audit looks at."""
        moment, act = self.entries[number - 1]
        if act[0] != "Asked" or not audit["begin"] <= moment <= audit["end"]:
            return False
        return act[2:4] not in audit["exempt"]

    def shared(self, audit, number):
        """The first virtual tuple of an audit that the question of an entry accessed; or None."""
        if not self.in_period(audit, number):
            return None
        act, past = self.entries[number - 1][1], self.before(number)
        asked = past.resolve(select_of(act[4]))
        wanted = {(audit["names"][place], at) for place, at in audit["columns"]}
        if not wanted <= named(asked):
            return None
        names = [table[1] for table in asked["tables"]]
        common = [table for table in audit["tables"] if table[1] in names]
        views = [past.view(act[2], act[3], table) for table in asked["tables"]]
        answered, audited = passing(asked, views), passing(audit, past.rows_in(audit["tables"]))
        answer, cells = bag(past.rows_of(asked, answered)), audited_cells(audit, audited)
        for rows in itertools.product(*past.rows_in(common)):
            chosen = {table[1]: past.key_of(table, row) for table, row in zip(common, rows)}
            left = past.without(chosen, asked["tables"], answered)
            if bag(past.rows_of(asked, left)) == answer:
                continue
            left = past.without(chosen, audit["tables"], audited)
            if audited_cells(audit, left) == cells:
                continue
            if not audit["seen"] or past.were_seen(act, audit, chosen):
                return list(chosen.items())
        return None

    def rows_in(self, tables):
        """The rows of each table, without their births."""
        return [[row for row, _ in self.rows(table)] for table in tables]

    def without(self, chosen, tables, combinations):
        """The combinations that do not have all chosen rows."""
        def has_chosen(rows):
            return all(self.key_of(table, row) == chosen[table[1]]
                       for table, row in zip(tables, rows) if table[1] in chosen)
        return [rows for rows in combinations if not has_chosen(rows)]

    def were_seen(self, act, audit, chosen):
        """Whether each audited cell of the chosen rows was shown to a question."""
        tables = audit["tables"]
        return all(self.was_seen(act, tables[place], chosen, at) for place, at in audit["columns"])

    def was_seen(self, act, table, chosen, at):
        row, born, _ = self.live(table, chosen[table[1]])
        return self.verdict(act[2], act[3], table, row, born, at) is None

    def flags(self, audit, above, upto):
        found = []
        for number in range(above + 1, upto + 1):
            shared = self.shared(audit, number)
            if shared is not None:
                found.append("0 flag " + self.flag(number, shared))
        return found

    def flag(self, number, shared):
        moment, act = self.entries[number - 1]
        if self.format == "json":
            keys = [[table, [in_json(value) for value in key]] for table, key in shared]
            members = {"moment": moment_text(moment), "pair": [act[2], act[3]], "query": number,
                       "shared": keys, "user": act[1]}
            return json.dumps(members, separators=(",", ":"), ensure_ascii=False)
        parts = [str(number), moment_text(moment), act[1], act[2], act[3], tuple_text(shared)]
        return written(parts) if self.format == "csv" else " ".join(parts)

    def alarms(self, number):
        """What the watches report of an entry."""
        watches = sorted(self.watches.items())
        found = [(watch, self.shared(audit, number)) for watch, audit in watches]
        return ["0 alarm %d %d %s" % (watch, number, tuple_text(shared))
                for watch, shared in found if shared is not None]

    def explain(self, number, asked_for):
        if number != 0:
            raise Refused("24 ConsoleOnly", None)
        is_entry = 1 <= asked_for <= len(self.entries)
        if not is_entry or self.entries[asked_for - 1][1][0] != "Asked":
            raise Refused("58 NoSuchQuery", asked_for)
        act, past = self.entries[asked_for - 1][1], self.before(asked_for)
        asked = past.resolve(select_of(act[4]))
        lines = ["0 denied %s %s %d" % cell for cell in past.denied_cells(act, asked)]
        if len(lines) > 100000:
            raise Refused("51 TooManyRows", None)
        return lines + ["0 end %d" % len(lines)]

    def denied_cells(self, act, asked):
        """The row, the column and the rule of each cell that was denied to a question."""
        for table in asked["tables"]:
            for row, born in self.rows(table):
                for at in range(len(row)):
                    if at in table[3] or (table[1], at) in named(asked):
                        rule = self.verdict(act[2], act[3], table, row, born, at)
                        if rule is not None:
                            where = tuple_text([(table[1], self.key_of(table, row))])
                            yield where, table[2][at][0], rule

    def begin(self, number, expression):
        audit = self.audit(number, expression)
        free = next((j for j in range(1, 9) if j not in self.jobs), None)
        if free is None:
            raise Refused("54 JobLimit", None)
        self.jobs[free] = {"audit": audit, "length": len(self.entries), "place": 0}
        return ["0 job %d" % free]

    def step(self, number, job, count):
        if number != 0:
            raise Refused("24 ConsoleOnly", None)
        if job not in self.jobs:
            raise Refused("55 NoJob", job)
        held = self.jobs[job]
        upto = min(held["place"] + count, held["length"])
        found = self.flags(held["audit"], held["place"], upto)
        held["place"] = upto
        if upto < held["length"]:
            return found + ["0 part %d" % upto]
        return found + ["0 end %d" % len(self.flags(held["audit"], 0, upto))]

    def watch(self, number, expression):
        audit = self.audit(number, expression)
        free = next((w for w in range(1, 9) if w not in self.watches), None)
        if free is None:
            raise Refused("63 WatchLimit", None)
        self.watches[free] = audit
        return ["0 watch %d" % free]

    def drop(self, number, held, at, missing):
        if number != 0:
            raise Refused("24 ConsoleOnly", None)
        if at not in held:
            raise Refused(missing, at)
        del held[at]
        return ["0 ok"]

    def load(self, number, name, text):
        """Inserts the row that a record writes."""
        if number != 0:
            raise Refused("24 ConsoleOnly", None)
        table = self.table(name)
        if table is None:
            raise Refused("30 UnknownTable", name)
        found = records(text)
        if len(found) != 1:
            raise Refused("61 BadRecord", None)
        if len(found[0]) != len(table[2]):
            raise Refused("42 WrongCount", len(table[2]))
        row = [field_value(kind, inside, read_day)
               for inside, (_, kind, _) in zip(found[0], table[2])]
        for value, (column, _, _) in zip(row, table[2]):
            if isinstance(value, list):
                raise Refused("62 BadField", column)
        self.entries.append((self.clock, self.inserted(table, row)))
        return ["0 ok %d" % len(self.entries)]

    # ------------------------------------------------------------ questions

    def question(self, number, select, text):
        """The session that asks, and what it asks, resolved."""
        session = self.session(number)
        self.authorized(session["user"], session["purpose"], session["recipient"])
        return session, self.resolve(select)

    def log(self, session, text):
        act = ("Asked", session["user"], session["purpose"], session["recipient"], text)
        self.entries.append((self.clock, act))

    # ------------------------------------------------------------ changes

    def change(self, statement):
        act = getattr(self, "do_" + statement.name)(statement)
        self.entries.append((self.clock, act))
        return ["0 ok %d" % len(self.entries)]

    def known_table(self, statement):
        table = self.table(field(statement, "table"))
        if table is None:
            raise Refused("30 UnknownTable", field(statement, "table"))
        return table

    def known_pair(self, statement):
        if not self.exists("Purpose", field(statement, "purpose")):
            raise Refused("33 UnknownPurpose", field(statement, "purpose"))
        if not self.exists("Recipient", field(statement, "recipient")):
            raise Refused("34 UnknownRecipient", field(statement, "recipient"))

    def new(self, kind, name):
        if self.exists(kind, name):
            raise Refused("36 AlreadyThere", name)

    def do_CreateTable(self, statement):
        columns = [(field(column, "name"), field(column, "kind").name, field(column, "not_null"))
                   for column in field(statement, "columns")]
        names, key = [c[0] for c in columns], field(statement, "key")
        subject = field(statement, "subject")
        subject = subject.args[0] if subject.name == "Some" else None
        repeated(names)
        repeated(key)
        for name in key + ([subject] if subject is not None else []):
            if name not in names:
                raise Refused("31 UnknownColumn", name)
        if subject is not None and columns[names.index(subject)][1] != "Integer":
            raise Refused("40 TypeMismatch", None)
        if len(columns) > 64:
            raise Refused("50 TooManyParts", 64)
        if len(self.tables()) >= 64:
            raise Refused("50 TooManyParts", 64)
        self.new("Create", field(statement, "table"))
        columns = [(n, k, required or n in key or n == subject) for n, k, required in columns]
        return ("Create", field(statement, "table"), columns, [names.index(n) for n in key],
                None if subject is None else names.index(subject))

    def do_CreatePurpose(self, statement):
        self.new("Purpose", statement.args[0])
        return ("Purpose", statement.args[0])

    def do_CreateRecipient(self, statement):
        self.new("Recipient", statement.args[0])
        return ("Recipient", statement.args[0])

    def do_CreateItem(self, statement):
        self.new("Item", field(statement, "item"))
        return ("Item", field(statement, "item"), field(statement, "kind").name)

    def do_Authorize(self, statement):
        self.known_pair(statement)
        return (statement.name, *fields(statement, "user", "purpose", "recipient"))

    do_Deauthorize = do_Authorize

    def rule_places(self, table, statement):
        columns = field(statement, "columns")
        repeated(columns)
        return [column_in(table, name) for name in columns]

    def do_Allow(self, statement):
        table = self.known_table(statement)
        self.known_pair(statement)
        item, days = field(statement, "item"), field(statement, "days")
        item = item.args[0] if item.name == "Some" else None
        if item is not None and not self.exists("Item", item):
            raise Refused("35 UnknownItem", item)
        places = self.rule_places(table, statement)
        if item is not None and table[4] is None:
            raise Refused("46 NoSubject", table[1])
        days = days.args[0] if days.name == "Some" else None
        return ("Allow", *fields(statement, "purpose", "recipient"), table[1], places, item, days)

    def do_Revoke(self, statement):
        table = self.known_table(statement)
        self.known_pair(statement)
        places = self.rule_places(table, statement)
        return ("Revoke", *fields(statement, "purpose", "recipient"), table[1], places)

    def do_Choice(self, statement):
        if not self.exists("Item", field(statement, "item")):
            raise Refused("35 UnknownItem", field(statement, "item"))
        return ("Choice", *fields(statement, "subject", "item", "yes"))

    def do_Insert(self, statement):
        table = self.known_table(statement)
        row = [value_of(v) for v in field(statement, "values")]
        if len(row) != len(table[2]):
            raise Refused("42 WrongCount", len(table[2]))
        return self.inserted(table, row)

    def inserted(self, table, row):
        fit(table, list(zip(range(len(row)), row)))
        found = self.live(table, self.key_of(table, row))
        if found is not None:
            raise Refused("43 KeyThere", found[2])
        return ("Insert", table[1], row)

    def key_written(self, table, statement):
        columns = field(statement, "key_columns")
        places = [column_in(table, name) for name in columns]
        return places, [value_of(v) for v in field(statement, "key_values")]

    def do_Update(self, statement):
        table = self.known_table(statement)
        columns = field(statement, "columns")
        repeated(columns)
        repeated(field(statement, "key_columns"))
        set_places = [column_in(table, name) for name in columns]
        places, key_values = self.key_written(table, statement)
        if sorted(places) != sorted(table[3]):
            raise Refused("48 NotTheKey", None)
        for place in set_places:
            if place in table[3]:
                raise Refused("45 KeyChanged", table[2][place][0])
        values = [value_of(v) for v in field(statement, "values")]
        fit(table, list(zip(set_places, values)) + list(zip(places, key_values)))
        found = self.live(table, tuple(key_values[places.index(place)] for place in table[3]))
        if found is None:
            raise Refused("44 KeyMissing", None)
        row = list(found[0])
        for place, value in zip(set_places, values):
            row[place] = value
        return ("Update", table[1], row)

    def do_Delete(self, statement):
        table = self.known_table(statement)
        repeated(field(statement, "key_columns"))
        places, key_values = self.key_written(table, statement)
        if sorted(places) != sorted(table[3]):
            raise Refused("48 NotTheKey", None)
        fit(table, list(zip(places, key_values)))
        key = tuple(key_values[places.index(place)] for place in table[3])
        if self.live(table, key) is None:
            raise Refused("44 KeyMissing", None)
        return ("Delete", table[1], key)

    # ------------------------------------------------------------ lines

    def session(self, number):
        if number == 0:
            raise Refused("25 SessionsOnly", None)
        if number not in self.sessions:
            raise Refused("20 NoSession", None)
        return self.sessions[number]

    def short_word(self, number, word, words):
        """The replies to a short word; None where its words are wrong."""
        if word in ("login", "logout", "fetch", "close", "step"):
            return getattr(self, "word_" + word)(number, words)
        at = number_in(1, 8, words[0]) if len(words) == 1 else None
        if at is None:
            return None
        held, missing = (self.jobs, "55 NoJob") if word == "drop" else (self.watches, "64 NoWatch")
        return self.drop(number, held, at, missing)

    def word_login(self, number, words):
        names = [name_of(word) for word in words]
        if len(words) != 3 or None in names:
            return None
        if number == 0:
            raise Refused("25 SessionsOnly", None)
        if number in self.sessions:
            raise Refused("21 SessionOpen", None)
        self.authorized(*names)
        session = dict(zip(("user", "purpose", "recipient"), names))
        self.sessions[number] = session | {"cursors": {}}
        return ["%d ok" % number]

    def word_logout(self, number, words):
        if words:
            return None
        self.session(number)
        del self.sessions[number]
        return ["%d ok" % number]

    def word_fetch(self, number, words):
        cursor = number_in(1, 4, words[0]) if len(words) == 2 else None
        count = number_in(1, 100000, words[1]) if len(words) == 2 else None
        if cursor is None or count is None:
            return None
        held = self.cursor(number, cursor)
        rows = held["rows"][held["given"]:held["given"] + count]
        held["given"] += len(rows)
        word = "part" if held["given"] < len(held["rows"]) else "end"
        return row_lines(number, rows) + ["%d %s %d" % (number, word, held["given"])]

    def word_close(self, number, words):
        cursor = number_in(1, 4, words[0]) if len(words) == 1 else None
        if cursor is None:
            return None
        self.cursor(number, cursor)
        del self.sessions[number]["cursors"][cursor]
        return ["%d ok" % number]

    def word_step(self, number, words):
        job = number_in(1, 8, words[0]) if len(words) == 2 else None
        count = number_in(1, 1000000, words[1]) if len(words) == 2 else None
        return None if job is None or count is None else self.step(number, job, count)

    def cursor(self, number, cursor):
        cursors = self.session(number)["cursors"]
        if cursor not in cursors:
            raise Refused("53 NoCursor", cursor)
        return cursors[cursor]

    def statement(self, number, text):
        data = text.encode()
        statement = read_statement(data)
        kind = statement.name
        if kind in CHANGES:
            if number != 0:
                raise Refused("24 ConsoleOnly", None)
            return self.change(statement)
        if kind == "Explain":
            return self.explain(number, statement.args[0])
        if kind == "BeginAudit":
            return self.begin(number, statement.args[0])
        if kind == "Watch":
            return self.watch(number, statement.args[0])
        if kind == "Audit":
            found = self.flags(self.audit(number, statement.args[0]), 0, len(self.entries))
            return found + ["0 end %d" % len(found)]
        asked = data[field(statement, "start"):field(statement, "end")].decode()
        session, resolved = self.question(number, field(statement, "select"), asked)
        free = next((c for c in (1, 2, 3, 4) if c not in session["cursors"]), None)
        if kind == "Ask" and free is None:
            raise Refused("52 CursorLimit", None)
        rows = self.answer(session, resolved)
        self.log(session, asked)
        return self.handed_out(number, kind, session, free, rows) + self.alarms(len(self.entries))

    def handed_out(self, number, kind, session, free, rows):
        if len(rows) > 100000:
            return ["%d no 51 TooManyRows" % number]
        if kind == "Ask":
            session["cursors"][free] = {"rows": rows, "given": 0}
            return ["%d cursor %d" % (number, free)]
        end = ["%d end %d" % (number, len(rows))]
        if kind == "Extract":
            texts = (written([in_field(cell) for cell in row]) for row in rows)
            return ["%d csv %s" % (number, text) for text in texts] + end
        return row_lines(number, rows) + end

    def at(self, word):
        moment = read_moment(word.encode())
        if moment is None:
            raise Refused("18 BadMoment", None)
        if moment < self.clock:
            raise Refused("19 MomentBack", moment_text(self.clock))
        self.clock = moment
        return ["- ok"]

    def line(self, data):
        """The lines of the reply to a line of the input."""
        if len(data) > 65536:
            return ["- no 11 LineTooLong"]
        try:
            text = data.removesuffix(b"\r").decode()
        except UnicodeDecodeError:
            return [BAD_LINE]
        if text.strip(" ") == "" or text.startswith("#"):
            return []
        words = [word for word in text.split(" ") if word]
        if text.startswith(" "):
            return [BAD_LINE]
        if ascii_lower(words[0]) == "at":
            is_whole = len(words) == 2
            return guarded("-", lambda: self.at(words[1])) if is_whole else [BAD_LINE]
        number = number_in(0, 64, words[0])
        if number is None or len(words) < 2:
            return [BAD_LINE]
        word, rest = ascii_lower(words[1]), text[len(words[0]) + 1:]
        if word == "load":
            return self.load_line(number, rest)
        if word in SHORT_WORDS:
            replies = guarded(number, lambda: self.short_word(number, word, words[2:]))
            return [BAD_LINE] if replies is None else replies
        return guarded(number, lambda: self.statement(number, rest))

    def load_line(self, number, text):
        """The reply to a line of the word `load`, a table and a record."""
        table, space, record = text.lstrip(" ")[4:].lstrip(" ").partition(" ")
        name = name_of(table)
        if not space or name is None:
            return [BAD_LINE]
        return guarded(number, lambda: self.load(number, name, record))


def guarded(who, call):
    try:
        return call()
    except Refused as refused:
        title, detail = refused.args
        return ["%s no %s%s" % (who, title, "" if detail is None else " %s" % detail)]


def row_lines(number, rows):
    return ["%d row %s" % (number, ", ".join(map(printed, row))) for row in rows]


def main():
    engine = Engine(*sys.argv[1:2])
    data = sys.stdin.buffer.read()
    lines = data.split(b"\n")
    if lines[-1] == b"":
        lines.pop()
    out = sys.stdout.buffer
    for line in lines:
        for reply in engine.line(line):
            out.write(reply.encode() + b"\n")
    out.flush()


if __name__ == "__main__":
    main()
