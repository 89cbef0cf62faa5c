#!/usr/bin/env -S python3 -B
"""Who has seen what of a patient, by the second engine: from the rules of the language only.

Standard input is the input of a run, such as `hippo_history --store clinic.db --script` writes of a
store. For each logged query, each of its tables with a SUBJECT and each row there about the
patient, a record is printed if the query used the row: without the row its answer, as a bag, is
another one. A record has the columns that were shown, those that were named in conditions only
(tested), and those that were denied, with the entry of the rule.

It searches lists and makes whole products, so it is for short histories. A script's line of more
than 65,536 bytes is refused; the entries after it then have other numbers than in the store.
usage: second_disclosures.py PATIENT [FIRST LAST [text|json|csv]]   FIRST and LAST are entries
       second_disclosures.py --audits [RUNS [LINES_OF_EACH]]   compares the records of random runs
           with audits: a column is shown or tested exactly where AUDIT SHOWN of the row flags it
"""
import json
import random
import sys

from random_lines import KEYS, TABLES, Lines
from second_engine import Engine
from second_queries import bag, named, passing
from second_records import written
from second_values import in_json, moment_text, printed, read_statement, select_of

ALL_TIME = "DURING '0001-01-01T00:00:00Z' TO '9999-12-31T23:59:59Z'"
HEADER = "entry,moment,user,purpose,recipient,table,key,shown,tested,denied"


def selected(asked):
    """The columns in the select list, in GROUP BY and in MIN and MAX, by table and place."""
    places = list(asked["shown"]) + [at for _, at in asked["outs"]] + asked["by"]
    return {(asked["tables"][place][1], at) for place, at in places}


def cells(past, act, asked, table, row, born):
    """The columns of a row that were shown, that were tested, and that were denied."""
    shown, tested, denied = [], [], []
    for at, column in enumerate(table[2]):
        if (table[1], at) not in named(asked):
            continue
        rule = past.verdict(act[2], act[3], table, row, born, at)
        if rule is not None:
            denied.append((column[0], rule))
        elif (table[1], at) in selected(asked):
            shown.append((column[0], row[at]))
        else:
            tested.append((column[0], row[at]))
    return shown, tested, denied


def disclosures(engine, patient, first, last):
    for number, (moment, act) in enumerate(engine.entries, 1):
        if act[0] != "Asked" or not first <= number <= last:
            continue
        past = engine.before(number)
        asked = past.resolve(select_of(act[4]))
        answered = passing(asked, [past.view(act[2], act[3], table) for table in asked["tables"]])
        answer = bag(past.rows_of(asked, answered))
        for table in asked["tables"]:
            for row, born in past.rows(table):
                if table[4] is None or row[table[4]] != ("Integer", patient):
                    continue
                key = past.key_of(table, row)
                left = past.without({table[1]: key}, asked["tables"], answered)
                if bag(past.rows_of(asked, left)) != answer:
                    had = cells(past, act, asked, table, row, born)
                    yield (number, moment_text(moment), *act[1:4], table[1], key, *had)


def listed(columns, value_text):
    return ", ".join("%s %s" % (column, value_text(value)) for column, value in columns)


def text_line(found):
    *asking, table, key, shown, tested, denied = found
    line = " ".join(map(str, asking)) + " %s(%s)" % (table, ", ".join(map(printed, key)))
    for word, columns, text in ("shown", shown, printed), ("tested", tested, printed), \
            ("denied", denied, str):
        if columns:
            line += " %s %s" % (word, listed(columns, text))
    return line


def json_line(found):
    entry, moment, user, purpose, recipient, table, key, shown, tested, denied = found
    had = {name: [{"column": column, "value": in_json(value)} for column, value in columns]
           for name, columns in (("shown", shown), ("tested", tested))}
    members = {"entry": entry, "moment": moment, "user": user, "purpose": purpose,
               "recipient": recipient, "table": table, "key": [in_json(value) for value in key],
               "denied": [{"column": column, "rule": rule} for column, rule in denied], **had}
    return json.dumps(members, sort_keys=True, separators=(",", ":"), ensure_ascii=False)


def csv_line(found):
    *asking, table, key, shown, tested, denied = found
    lists = [listed(shown, printed), listed(tested, printed), listed(denied, str)]
    return written([*map(str, asking), table, ", ".join(map(printed, key)), *lists])


def lines(found, form):
    if form == "csv":
        yield HEADER
    line_of = {"text": text_line, "json": json_line, "csv": csv_line}[form]
    yield from map(line_of, found)


def audit_of(engine, table, key, column):
    """An audit of a column that was shown, for the row with a key."""
    names = [table[2][place][0] for place in table[3]]
    tests = " AND ".join("%s = %s" % (name, literal(value)) for name, value in zip(names, key))
    text = "%s AUDIT SHOWN %s FROM %s WHERE %s" % (ALL_TIME, column, table[1], tests)
    return engine.audit(0, read_statement(text.encode()).args[0])


def literal(value):
    return ("DATE '%s'" if value[0] == "Date" else "%s") % printed(value)


def rows_before(engine, number):
    """The rows of the tables with a SUBJECT before an entry, by the table and the patient."""
    past = engine.before(number)
    for table in past.tables():
        if table[4] is not None:
            for row, _ in past.rows(table):
                yield table, row[table[4]][1], past.key_of(table, row)


def lines_with_rules(seed, count):
    """The lines of a random run, with rules on columns outside the keys and choices among them."""
    chosen = random.Random(seed)
    for number, line in enumerate(Lines(seed).all(count)):
        yield line
        table = chosen.choice(sorted(TABLES))
        column = chosen.choice([name for name, _ in TABLES[table] if name not in KEYS[table]])
        if number % 9 == 0:
            word = chosen.choice(["REVOKE", "REVOKE", "ALLOW"])
            item = " WITH mail" if word == "ALLOW" and table != "ward" else ""
            yield "0 %s treatment TO nurse ON %s (%s)%s" % (word, table, column, item)
        if number % 11 == 0:
            yield "0 CHOICE %d ON mail IS %s" % (chosen.randint(1, 3), chosen.choice(["YES", "NO"]))


def compare_with_audits(seed, count):
    """How many audits of a random run agree with its records, and how many records there are."""
    engine, had, number_of = Engine(), {}, 0
    for line in lines_with_rules(seed, count):
        engine.line(line.encode())
    asked = [at for at, (_, act) in enumerate(engine.entries, 1) if act[0] == "Asked"]
    rows = [(at, *row) for at in asked for row in rows_before(engine, at)]
    for patient in {patient for _, _, patient, _ in rows}:
        for found in disclosures(engine, patient, 1, len(engine.entries)):
            had[found[0], found[5], found[6]] = {column for column, _ in found[7] + found[8]}
    for at, table, _, key in rows:
        for column in table[2]:
            flagged = engine.shared(audit_of(engine, table, key, column[0]), at) is not None
            number_of += 1
            if flagged != (column[0] in had.get((at, table[1], key), ())):
                sys.exit("run %d: entry %d, %s%s, %s" % (seed, at, table[1], key, column[0]))
    return number_of, len(had)


def compare_all(runs, count):
    found = [compare_with_audits(seed, count) for seed in range(1, runs + 1)]
    audits, records = (sum(numbers) for numbers in zip(*found))
    print("%d runs: %d records agree with %d audits" % (runs, records, audits))


def main():
    words = sys.argv[1:]
    if words[:1] == ["--audits"]:
        runs, count = words[1:2] or ["20"], words[2:3] or ["150"]
        return compare_all(int(runs[0]), int(count[0]))
    if len(words) not in (1, 3, 4):
        sys.exit(__doc__)
    first, last = map(int, words[1:3] or ["1", "4000000"])
    engine = Engine()
    for line in sys.stdin.buffer.read().split(b"\n")[:-1]:
        engine.line(line)
    found = disclosures(engine, int(words[0]), first, last)
    for line in lines(found, words[3] if len(words) > 3 else "text"):
        sys.stdout.buffer.write(line.encode() + b"\n")


if __name__ == "__main__":
    main()
