"""Reads a TextMate grammar and colours the lines of files by it: the leftmost match, of several the first in the grammar's order."""

import json
import re
import sys

with open(sys.argv[1], encoding="utf-8") as file:
    grammar = json.load(file)
patterns = [(pattern["name"], re.compile(pattern["match"])) for pattern in grammar["patterns"]]
if "firstLineMatch" in grammar:
    re.compile(grammar["firstLineMatch"])


def coloured(line):
    at = 0
    while at < len(line):
        found = [(match.start(), order, match) for order, (_, pattern) in enumerate(patterns) if (match := pattern.search(line, at))]
        if not found:
            return
        start, order, match = min(found, key=lambda one: one[:2])
        for column in range(start, match.end()):
            yield column, patterns[order][0]
        at = max(match.end(), start + 1)


with open(sys.argv[2], encoding="utf-8") as file:
    for number, line in enumerate(file.read().splitlines(), 1):
        for column, name in coloured(line):
            print(number, column + 1, name)
