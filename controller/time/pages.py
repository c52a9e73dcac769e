#!/usr/bin/env python3
"""Holds the pages to the bounds of bound.py: controller/README.md and include/fairleadow.h have them beside the longest calls found, which
docs/MEASUREMENTS.md has, and no call was found to take longer than its bound.

    pages.py            fails where a page states anything else
    pages.py --write    puts bounds and longest calls into controller/README.md and include/fairleadow.h
"""
import os
import re
import sys

sys.dont_write_bytecode = True
import bound  # noqa: E402, this is beside it

CONTROLLERS, HEADER, MEASURED, SHORT = "controller/README.md", "include/fairleadow.h", "docs/MEASUREMENTS.md", "README.md"
CYCLES = 16_000  # a millisecond
# by processors: the head of the table in docs/MEASUREMENTS.md, and by its columns of milliseconds the measures of bound.py
COLUMNS = {
    "thumbv7m": ("Cortex-M3:", [("counted", "longest")]),
    "thumbv6m": ("Cortex-M0:", [("counted", "longest"), ("slow counted", "slow longest")]),
}
HEADS = "| Call | Cortex-M3, bound | found | Cortex-M0, product in 1 cycle, bound | found | in 32 cycles, bound | found |"


def read(path):
    with open(path, encoding="utf-8") as page:
        return page.read()


def longest_found(processor):
    """Of each call on a prepared table and on any bytes the most instructions found, and the longest milliseconds of each column."""
    head, columns = COLUMNS[processor]
    section = read(MEASURED).partition("\n## On a controller\n")[2].partition(f"\n{head}\n")[2]
    found = {}
    for line in section.strip().split("\n"):
        if not line.startswith("|"):
            break
        if line.startswith("|---"):
            continue
        call, name, origin, _, instructions, *milliseconds = (cell.strip() for cell in line.strip("| ").split(" |"))
        call = call.partition(" ")[0]
        if call not in bound.CALLS or not origin:
            continue
        numbers = [int(instructions.replace(",", "")), *(float(each) for each in milliseconds)]
        key = call + (" on any bytes" if "whole table" in name else "")
        found[key] = [max(pair) for pair in zip(numbers, found.get(key, [0] * len(numbers)))]
        if len(numbers) != 1 + len(columns):
            sys.exit(f"{MEASURED}: {line}")
    return found


def rounded_up(cycles):
    """Milliseconds with two decimals."""
    return f"{-(-cycles * 100 // CYCLES) / 100:.2f}"


def rows(bounds, faults):
    """Of each call the milliseconds of its bounds, each with those of the longest that was found beside it."""
    found = {processor: longest_found(processor) for processor in COLUMNS}
    told = {}
    for key in found["thumbv7m"]:
        told[key] = []
        for processor, (_, columns) in COLUMNS.items():
            costs, (instructions, *milliseconds) = bounds[processor][key], found[processor][key]
            if instructions > costs["instructions"]:
                faults.append(f"{key} on {processor} took {instructions:,} instructions, above its bound, {costs['instructions']:,}")
            for (counted, longest), taken in zip(columns, milliseconds):
                if taken * CYCLES > costs[counted]:
                    faults.append(f"{key} on {processor} took {taken} ms, above its bound, {rounded_up(costs[counted])}")
                told[key] += [rounded_up(costs[longest]), f"{taken:.2f}"]
    return told


def name_of(key):
    """A call as the pages name it."""
    call, _, others = key.partition(" ")
    words = bound.CALLS[call].get("words")
    return call + (f" of {words} words" if words else "") + (", " + others if others else "")


def row_of_table(name, cells):
    return f"| {name} | " + " | ".join(cells) + " |"


def row_of_comment(name, cells):
    return f" *    {name:<36}" + "".join(f"{cell:>9}" for cell in cells)


class Pages:
    """What the pages state: a fault for each thing that is not so, or, where it is written, the bounds."""

    def __init__(self, told, write, faults):
        self.told, self.write, self.faults = told, write, faults

    def put(self, path, begins, line):
        """The lines of a page from the one that begins so on, one for each call."""
        lines = read(path).split("\n")
        start = 1 + next(place for place, each in enumerate(lines) if each.startswith(begins))
        start += lines[start].startswith("|---")
        end = next(place for place in range(start, len(lines)) if not re.match(r"\| [a-z]| \*    [a-z]", lines[place]))
        wanted = [line(name_of(key), cells) for key, cells in self.told.items()]
        if self.write:
            lines[start:end] = wanted
            with open(path, "w", encoding="utf-8") as page:
                page.write("\n".join(lines))
        elif lines[start:end] != wanted:
            self.faults.append(f"{path} does not say:\n" + "\n".join(wanted))

    def say(self, path, words, *numbers):
        """A sentence of a page, with the numbers that are to stand in it."""
        page, wanted = read(path), words.format(*numbers)
        stated = re.compile(r"[\d.]*\d".join(map(re.escape, words.split("{}"))))
        if self.write and stated.search(page):
            with open(path, "w", encoding="utf-8") as out:
                out.write(stated.sub(wanted, page))
        elif wanted not in page:
            self.faults.append(f"{path} does not say: {wanted}")

    def sentences(self):
        """What the pages say of a tick by its bounds, and of how far these are above the longest calls found."""
        prepared, other = self.told["live_tick"][::2], self.told["live_tick on any bytes"][::2]
        self.say(CONTROLLERS, "A tick's period is to be at least {}, {} or {} ms, and {}, {} or {} where", *prepared, *other)
        ratios = [float(most) / float(taken) for cells in self.told.values() for most, taken in zip(cells[::2], cells[1::2])]
        self.say(CONTROLLERS, "The bounds are {} to {} times the longest calls found", f"{min(ratios):.2f}", f"{max(ratios):.2f}")
        pairs = [number for pair in zip(prepared, other) for number in pair]
        self.say(SHORT, "on any bytes | {} ms; {} ms | {} ms; {} ms, where a product takes 32 cycles {} ms; {} ms |", *pairs)


def main():
    os.chdir(os.path.join(os.path.dirname(os.path.abspath(__file__)), "../.."))
    faults = []
    try:
        told = rows(bound.every_bound(), faults)
    except bound.Refused as refused:
        sys.exit(f"controller/time/bound.py: {refused}")
    pages = Pages(told, sys.argv[1:] == ["--write"], faults)
    pages.put(CONTROLLERS, HEADS, row_of_table)
    pages.put(HEADER, " *    at most and found, in milliseconds", row_of_comment)
    pages.sentences()
    if faults:
        sys.exit("\n".join(faults))
    print("no call was found to take longer than its bound, and the pages state both")


if __name__ == "__main__":
    main()
