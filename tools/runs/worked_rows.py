"""Writes the input of each worked row of hippo_try_runs that is a run without faults, a file a row.

usage: worked_rows.py FOLDER
"""
import pathlib
import re
import sys

sys.path.insert(0, str(pathlib.Path(__file__).resolve().parent.parent))
from common import CRATES

ROWS = CRATES / "hippo_try_runs"
FAULTS = {"reads", "writes", "fails", "keeps", "room"}


def clinic():
    """The lines of the clinic, as the program has them."""
    source = (ROWS / "src/cases.rt").read_text()
    start = source.index("const CLINIC")
    block = source[start : source.index("];", start)]
    return re.findall(r'^    "(.*)",$', block, re.M)


def lines(members):
    return "".join(f"{line}\n" for line in members).encode()


def input_of(word, text):
    """What a line of a row adds to the input; None where it adds nothing."""
    if word == "line":
        return lines([text])
    if word == "part":
        return text.encode()
    if word == "bytes":
        return bytes(map(int, text.split()))
    if word == "clinic":
        return lines(clinic())
    count, _, rest = text.partition(" ")
    if word == "times":
        return rest.encode() * int(count)
    if word == "numbered":
        front, _, end = rest.partition("#")
        return lines(f"{front}{number}{end}" for number in range(int(count)))
    return None


def rows():
    """The input of each row that is a run from nothing."""
    words, parts, failing = [], [], False
    for row in (ROWS / "stdin").read_text().splitlines():
        word, _, text = row.partition(" ")
        part = input_of(word, text)
        if word == "word":
            words.append(text)
        elif part is not None:
            parts.append(part)
        elif word in FAULTS:
            failing = True
        elif word in ("call", "again"):
            if word == "call" and words[:1] == ["run"] and not failing:
                yield b"".join(parts)
            words, parts, failing = [], [], False


def main():
    folder = pathlib.Path(sys.argv[1])
    for number, text in enumerate(rows(), 1):
        (folder / f"{number:04}").write_bytes(text)


main()
