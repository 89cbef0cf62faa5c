"""Names, columns and combinations of rows in the queries of the second engine."""
import itertools

from second_values import TRUE, Refused, field, is_bad_text, operands, order_of, truth, value_of


def finder(tables):
    """What finds the one column that a reference names."""
    def find(column):
        qualifier = field(column, "table")
        wanted = qualifier.args[0] if qualifier.name == "Some" else None
        name = field(column, "column")
        homes = [(place, at) for place, table in enumerate(tables) if wanted in (None, table[1])
                 for at, other in enumerate(table[2]) if other[0] == name]
        if not homes:
            raise Refused("31 UnknownColumn", name if wanted is None else wanted + "." + name)
        if len(homes) > 1:
            raise Refused("32 AmbiguousColumn", name)
        return homes[0]
    return find


def columns_shown(items, tables, find):
    """The columns that the items of a select show, by the table's place and the column's."""
    shown = []
    for item in items:
        if item.name == "One":
            shown.append(find(item.args[0]))
            continue
        wanted = item.args[0] if item.name == "AllOf" else None
        if wanted is not None and wanted not in [table[1] for table in tables]:
            raise Refused("31 UnknownColumn", wanted + ".*")
        for place, table in enumerate(tables):
            if wanted in (None, table[1]):
                shown.extend((place, at) for at in range(len(table[2])))
    return shown


def find_all(compared, find):
    """The columns among operands, found one after the other."""
    return [find(operand.args[0]) for group in compared for operand in group
            if operand.name == "Column"]


def check_grouped(outs, by, find):
    plain = [out.args[0] for out in outs if out.name == "Column"]
    for some, others in ((plain, by), (by, plain)):
        for column in some:
            if find(column) not in [find(other) for other in others]:
                raise Refused("60 NotGrouped", field(column, "column"))


def check_counts(*parts):
    """Refuses a list that has more members than the number before it."""
    for most, members in parts:
        if len(members) > most:
            raise Refused("50 TooManyParts", most)


def check_kinds(tables, find, compared):
    def kind_of(operand):
        if operand.name == "Column":
            place, at = find(operand.args[0])
            return tables[place][2][at][1]
        value = value_of(operand.args[0])
        return None if value is None else value[0]
    for group in compared:
        if len({kind_of(operand) for operand in group} - {None}) > 1:
            raise Refused("40 TypeMismatch", None)


def check_texts(compared):
    for group in compared:
        for operand in group:
            if operand.name == "Literal" and is_bad_text(value_of(operand.args[0])):
                raise Refused("47 BadText", None)


def passing(asked, tables):
    """The combinations of rows of which a condition is true."""
    found = []
    for combination in itertools.product(*tables):
        def look(operand):
            if operand.name == "Literal":
                return value_of(operand.args[0])
            place, at = asked["find"](operand.args[0])
            cell = combination[place][at]
            return None if isinstance(cell, list) else cell
        if truth(asked["condition"], look) == TRUE:
            found.append(combination)
    return found


def bag(rows):
    return sorted(repr(row) for row in rows)


def group_cell(kind, cells):
    """A cell of a group, from its members' cells."""
    values = [cell for cell in cells if cell is not None and not isinstance(cell, list)]
    if kind == "Column":
        return cells[0]
    return (min if kind == "Min" else max)(values, key=order_of) if values else None


def audited_cells(audit, combinations):
    return bag([[rows[place][at] for place, at in audit["columns"]] for rows in combinations])


def named(asked):
    """The columns that a query names anywhere, by table and place."""
    places = list(asked["shown"]) + [at for _, at in asked["outs"]] + asked["by"]
    places += find_all(operands(asked["condition"]), asked["find"])
    return {(asked["tables"][place][1], at) for place, at in places}


def repeated(names):
    for place, name in enumerate(names):
        if name in names[:place]:
            raise Refused("37 RepeatedName", name)


def column_in(table, name):
    for place, column in enumerate(table[2]):
        if column[0] == name:
            return place
    raise Refused("31 UnknownColumn", name)


def fit(table, values):
    """Whether values fit the columns at these places: kinds, then NULLs, then texts."""
    for place, value in values:
        if value is not None and value[0] != table[2][place][1]:
            raise Refused("40 TypeMismatch", None)
    for place, value in values:
        if value is None and table[2][place][2]:
            raise Refused("41 NullNotAllowed", table[2][place][0])
    for place, value in values:
        if is_bad_text(value):
            raise Refused("47 BadText", None)
