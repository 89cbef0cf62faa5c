"""Records of CSV (RFC 4180) as a run reads and writes them, written from the rules only."""
import re

INTEGER = re.compile(r"-?[0-9]+\Z")


def records(text):
    """The records of a text, each a list of fields. An empty line is no record. A quote that is not
    closed ends with the text."""
    found, fields, here, quoted = [], [], None, False
    at = 1 if text.startswith("\ufeff") else 0
    while at < len(text):
        c = text[at]
        at += 1
        if quoted and c == '"' and text[at:at + 1] == '"':
            here += c
            at += 1
        elif quoted and c == '"':
            quoted = False
        elif quoted:
            here += c
        elif c in "\r\n":
            if here is not None or fields:
                found.append(fields + [here or ""])
            fields, here = [], None
        elif c == ",":
            fields, here = fields + [here or ""], None
        elif c == '"' and here is None:
            here, quoted = "", True
        else:
            here = (here or "") + c
    if here is not None or fields:
        found.append(fields + [here or ""])
    return found


def field_value(kind, text, read_day):
    """The value of a field; its text in a list where it does not have the form of the column."""
    if text == "":
        return None
    if kind == "Integer":
        fits = INTEGER.match(text) and -2 ** 63 <= int(text) < 2 ** 63
        return ("Integer", int(text)) if fits else [text]
    if kind == "Date":
        day = read_day(text.encode())
        return [text] if day is None else ("Date", day)
    return ("Text", text)


def written(fields):
    """A record without its line end."""
    if fields == [""]:
        return '""'
    return ",".join(map(written_field, fields))


def written_field(text):
    return '"%s"' % text.replace('"', '""') if re.search('[",\r\n]', text) else text
