#!/usr/bin/env -S python3 -B
"""Prints random texts for hippo_try_reading and second_reader.py, each after the word of a rule.

About half of the texts are right, the others are broken or odd. A third word prints one half only.
usage: random_texts.py SEED COUNT [right|broken]
"""
import sys

from broken_texts import BrokenTexts


def line(texts, half):
    if half is None:
        half = "right" if texts.chance(0.5) else "broken"
    what, text = texts.right() if half == "right" else texts.broken()
    text = text.replace("\n", " ").replace("\r", " ").replace("\0", " ")
    return what + " " + text


def main():
    if len(sys.argv) not in (3, 4):
        sys.exit("usage: random_texts.py SEED COUNT [right|broken]")
    texts = BrokenTexts(int(sys.argv[1]))
    half = sys.argv[3] if len(sys.argv) == 4 else None
    out = sys.stdout.buffer
    for _ in range(int(sys.argv[2])):
        out.write(line(texts, half).encode("utf-8") + b"\n")


if __name__ == "__main__":
    main()
