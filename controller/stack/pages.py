#!/usr/bin/env python3
"""Holds the pages to the bounds of bound.py: controller/README.md for controllers, for x86-64 include/fairleadow.h and
docs/MEASUREMENTS.md; and what these pages and README.md say of memory to the bounds and budgets of their tables.

    pages.py            fails where a page states less than a bound, or a budget that is below what it states
    pages.py --write    puts the bounds into the pages
"""
import os
import re
import sys

sys.dont_write_bytecode = True
import bound  # noqa: E402, this is beside it

CONTROLLERS, HEADER, OTHERS = "controller/README.md", "include/fairleadow.h", "docs/MEASUREMENTS.md"
SHORT = "README.md"
# the lathe's memory, the longest image, the largest table, a line and a state, in bytes
MEMORY, IMAGE_TEXT, TABLE, LINE, STATE, SPINDLES = 65_536, 29_831, 12_970, 23, 130, 4
# calls that docs/MEASUREMENTS.md names otherwise than with spaces in their names
NAMES = {"list of rows": "list_rows", "count of fillings": "count_fillings", "check of a table": "check_table"}


def number(cell):
    return int(cell.replace(",", ""))


def of_table(lines, beginning):
    """The lines of a page's table that begins so, by their places, and its heads."""
    start = next(place for place, line in enumerate(lines) if line.startswith(beginning))
    end = next(place for place in range(start, len(lines)) if not lines[place].startswith("|"))
    return range(start + 2, end), cells_of(lines[start])


def lines_fitting_twice(stack):
    """How many lines an image may have so that it fits twice beside so much stack."""
    return (MEMORY - stack) // (2 * LINE)


def cells_of(line):
    return [cell.strip() for cell in line.strip().split("|")]


class Pages:
    """What the pages state: a fault for each thing that is not so, or, where it is written, the bounds."""

    def __init__(self, found, write):
        self.found, self.write, self.faults, self.budgets = found, write, [], {}

    def hold(self, path, call, processor, stated):
        """The number that is to stand on a page."""
        bytes_taken = self.found[processor][call]
        if not self.write and stated < bytes_taken:
            self.faults.append(f"{path}: {call} takes up to {bytes_taken:,} bytes of stack on {processor}")
        return bytes_taken if self.write else stated

    def change(self, path, changed):
        with open(path, encoding="utf-8") as page:
            lines = page.read().split("\n")
        changed(lines)
        if self.write:
            with open(path, "w", encoding="utf-8") as page:
                page.write("\n".join(lines))

    def controllers(self, lines):
        places, heads = of_table(lines, "| Call | Bound, ")
        calls = set()
        for place in places:
            cells = cells_of(lines[place])
            call, budget = cells[1], number(cells[heads.index("Budget")])
            calls.add(call)
            self.budgets[call] = budget
            for processor in self.found:
                if processor.endswith(bound.SMALLER):
                    self.hold(CONTROLLERS, call, processor, budget)
                elif processor != "x86_64":
                    at, seen = heads.index(f"Bound, {processor}"), heads.index(f"Seen, {processor}")
                    stated = self.hold(CONTROLLERS, call, processor, number(cells[at]))
                    if not number(cells[seen]) <= stated <= budget:
                        self.faults.append(f"{CONTROLLERS}: {call} on {processor} is not seen, bound, budget in this order")
                    cells[at] = f"{stated:,}"
            lines[place] = ("| " + " | ".join(cells[1:-1]) + " |").replace("|  |", "| |")
        self.all_there(CONTROLLERS, calls)

    def header(self, lines):
        calls = set()

        def stated(match):
            calls.add(match.group(1))
            return f"{match.group(1)}{self.hold(HEADER, match.group(1), 'x86_64', number(match.group(2))):>{len(match.group(2))},}"

        for place, line in enumerate(lines):
            if re.fullmatch(r" \*    (?: *[a-z_]+ +[\d,]+)+", line):
                lines[place] = re.sub(r"([a-z_]+)( +[\d,]+)", stated, line)
        self.all_there(HEADER, calls)

    def others(self, lines):
        places, _ = of_table(lines, "| Call | Bound | ")
        for place in places:
            cells = lines[place].split("|")
            name = cells[1].strip()
            call = NAMES.get(name, name.replace(" ", "_"))
            bytes_taken = self.hold(OTHERS, call, "x86_64", number(cells[2]))
            cells[2] = f" {bytes_taken:,} "
            lines[place] = "|".join(cells)
            self.row(lines[place], bytes_taken)

    def row(self, line, bytes_taken):
        """What a row of docs/MEASUREMENTS.md reckons of its own numbers."""
        name, _, seen, beside, together = cells_of(line)[1:6]
        seen, told = number(seen), re.findall(r"\d[\d,]*", beside)
        sums = [(seen + sum(map(number, told[-1:])), number(together))]
        if "by the bound" in beside:
            fit = [lines_fitting_twice(seen), lines_fitting_twice(bytes_taken)]
            sums += zip([*fit, 2 * LINE * fit[0]], map(number, told))
        if any(reckoned != stated for reckoned, stated in sums):
            self.faults.append(f"{OTHERS}: {name} is {sums}, reckoned and stated")

    def sentences(self):
        """What the pages say of memory by the bounds and the budgets."""
        budgets, minimise = self.budgets, {name: bounds["minimise"] for name, bounds in self.found.items()}
        prepare, tick = TABLE + budgets["prepare"], TABLE + budgets["live_tick"]
        self.say(SHORT, f"| {prepare:,} bytes, {budgets['prepare']:,} of them stack |")
        self.say(SHORT, f"| {tick:,} bytes, {budgets['live_tick']:,} of them stack, and the state's {STATE} |")
        self.say(CONTROLLERS, f"a preparation takes {prepare:,} bytes of memory, and each tick after it {tick:,}, ")
        self.say(CONTROLLERS, f"stack of a live_spin that is {SPINDLES * (TABLE + STATE) + budgets['live_spin']:,} bytes")
        self.say(CONTROLLERS, f"By its budget both fit up to {lines_fitting_twice(budgets['minimise']):,} lines each")
        self.say(CONTROLLERS, f"then takes {IMAGE_TEXT + budgets['minimise']:,} of memory with the stack")
        by_processor = [lines_fitting_twice(minimise[name]) for name in ("thumbv7m", "thumbv6m")]
        self.say(OTHERS, "texts of up to {:,} lines on a Cortex-M3 and {:,} on a Cortex-M0".format(*by_processor))

    def say(self, path, words):
        with open(path, encoding="utf-8") as page:
            if words not in page.read():
                self.faults.append(f"{path} does not say: {words}")

    def all_there(self, path, calls):
        missing = sorted(set(self.found["x86_64"]) - calls)
        if missing:
            self.faults.append(f"{path}: there is no bound of {', '.join(missing)}")


def main():
    os.chdir(os.path.join(os.path.dirname(os.path.abspath(__file__)), "../.."))
    try:
        pages = Pages(bound.every_bound(), sys.argv[1:] == ["--write"])
    except bound.Refused as refused:
        sys.exit(f"controller/stack/bound.py: {refused}")
    pages.change(CONTROLLERS, pages.controllers)
    pages.change(HEADER, pages.header)
    pages.change(OTHERS, pages.others)
    pages.sentences()
    if pages.faults:
        sys.exit("\n".join(pages.faults))
    print("no call can take more stack than its page states, and no page states more than a budget")


if __name__ == "__main__":
    main()
