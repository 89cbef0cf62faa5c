"""What was disclosed of a patient as an HTML page, by the second engine. Names and values are
escaped by Python's own `html`."""
import collections
import html

from second_values import printed

TOP = """<!DOCTYPE html>
<html lang="en">
<head>
<meta charset="utf-8">
<meta http-equiv="Content-Security-Policy" content="default-src 'none'; style-src 'unsafe-inline'">
<title>What was disclosed of patient %d</title>
<style>
body { font-family: sans-serif; margin: 2em; }
table { border-collapse: collapse; }
thead { display: table-header-group; }
tr { break-inside: avoid; }
th, td { border: 1px solid #999; padding: 0.2em 0.5em; text-align: left; vertical-align: top; }
td:nth-child(n+7) { overflow-wrap: anywhere; }
svg { width: 16em; height: 1em; }
rect { fill: #357; }
</style>
</head>
<body>
<h1>What was disclosed of patient %d</h1>
<p>From %s to %s. Number of accesses: %d.</p>
"""
BAR = '<svg preserveAspectRatio="none" viewBox="0 0 %d 1"><rect height="1" width="%d"/></svg>'


def escaped(text):
    return html.escape(text).replace("&#x27;", "&#39;")


def row(texts, more=""):
    return "<tr>%s%s</tr>\n" % ("".join("<td>%s</td>" % escaped(text) for text in texts), more)


def table(title, names, rows):
    heads = "".join("<th>%s</th>" % name for name in names)
    return "<h2>%s</h2>\n<table>\n<thead><tr>%s</tr></thead>\n<tbody>\n%s</tbody>\n</table>\n" % (
        title, heads, "".join(rows))


def counted(counts):
    """Rows of texts with their counts, in the order in which they come first."""
    total = sum(counts.values())
    return [row([*texts, str(count)], "<td>%s</td>" % (BAR % (total, count)))
            for texts, count in counts.items()]


def listed(columns, text_of):
    return ", ".join("%s %s" % (column, text_of(value)) for column, value in columns)


def record(found):
    *asking, key, shown, tested, denied = found
    return row([*map(str, asking), ", ".join(map(printed, key)), listed(shown, printed),
                listed(tested, printed), listed(denied, str)])


def page(found, patient, first, last):
    """The page about these records, with the ends of their stretch in words."""
    found = list(found)
    askers = collections.Counter((user, purpose) for _, _, user, purpose, *_ in found)
    days = collections.Counter((moment[:10],) for _, moment, *_ in found)
    fields = ("Entry", "Moment", "User", "Purpose", "Recipient", "Table", "Key", "Shown", "Tested",
              "Denied, with the rule")
    return (TOP % (patient, patient, escaped(first), escaped(last), len(found))
            + table("Accesses by user and purpose", ("User", "Purpose", "Accesses", "Share"),
                    counted(askers))
            + table("Accesses by day", ("Day", "Accesses", "Share"), counted(days))
            + table("Accesses", fields, map(record, found)) + "</body>\n</html>\n")
