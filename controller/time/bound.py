#!/usr/bin/env python3
"""How long the calls of a machine's loop, and a preparation, can take at most on the ARM processors, counted and not searched.

The texts are those that controller/build and controller/programs write; they hold them to the code that is linked. The longest way through
each call, with the board's caller around it (controller/board/board.c), goes through each loop as often as loops.txt allows. What cannot
be counted is refused: a loop without a bound, an instruction that is not known, a jump by a pointer, a circle of calls.

    bound.py    prints the bounds of all calls, in instructions and in cycles
"""
import os
import re
import sys

sys.dont_write_bytecode = True
from paths import Paths  # noqa: E402, these are beside it
from thumb import DIVISIONS, LONG_PRODUCTS, Refused, functions_of  # noqa: E402

PREFIX, MODULE, LOOPS = "fairleadow_", "target/staticlib/module.ll", "controller/time/loops.txt"
# what the words of loops.txt stand for (crates/text/src/frames/sizes.rt), but for the rows of a label: those of an accepted image have its
# rows, 1,024 at most; by any bytes whose header is not refused (11) they may be all frames
SIZES = {"places": 32, "schemes": 16, "labels": 256, "frames": 1297, "table": 12970, "words": 1}
ROWS = {"": 1024, " on any bytes": 1297}
# the calls, and what else is said of their input
CALLS = {"live_tick": {}, "live_run": {"words": 64}, "live_spin": {}, "live_rebind": {}, "prepare": {}}


class Measure:
    """What an instruction costs, and what it costs besides where it jumps."""

    def __init__(self, instruction, jump=lambda instruction: 0):
        self.instruction, self.jump = instruction, jump


def counted(instruction, product):
    """The cycles of the model by which docs/MEASUREMENTS.md has what was carried out; a product may take more than one."""
    more = 6 if instruction.name in DIVISIONS else 3 if instruction.name in LONG_PRODUCTS else 0
    return 1 + instruction.accesses + more + (product - 1 if instruction.name == "mul" else 0)


def longest_on_m3(instruction):
    """By the manual of the Cortex-M3 where all that it leaves open is at its longest: a division takes up to 12 cycles, a long product up
    to 7, and an access where bytes are not aligned is made in up to three."""
    more = 11 if instruction.name in DIVISIONS else 6 if instruction.name in LONG_PRODUCTS else 0
    return 1 + instruction.accesses + instruction.split_accesses + more


def jump_on_m0(instruction):
    """By the manual of the Cortex-M0, where a call and a return from the stack take a cycle more than other jumps."""
    return 3 if instruction.name in ("bl", "pop") else 2


def on_m0(product):
    return {
        "counted": Measure(lambda instruction: counted(instruction, product), lambda instruction: 2),
        "longest": Measure(lambda instruction: counted(instruction, product), jump_on_m0),
    }


INSTRUCTIONS = Measure(lambda instruction: 1)
MEASURES = {
    "thumbv7m": {
        "instructions": INSTRUCTIONS,
        "counted": Measure(lambda instruction: counted(instruction, 1), lambda instruction: 2),
        # a jump takes one to three cycles to fill the pipeline
        "longest": Measure(longest_on_m3, lambda instruction: 3),
    },
    "thumbv6m": {"instructions": INSTRUCTIONS, **on_m0(1), **{"slow " + name: measure for name, measure in on_m0(32).items()}},
}


class Bounds:
    """What loops.txt states, and which of it was asked for."""

    def __init__(self, path):
        self.stated, self.used = {}, set()
        with open(path, encoding="utf-8") as lines:
            for line in lines:
                if line.strip() and not line.startswith("#"):
                    self.state(*(cell.strip() for cell in line.split("|")))

    def state(self, name, turns, scope, clause, _):
        if name in self.stated:
            raise Refused(f"the loop of {name} has two bounds")
        path, _, words = clause.partition(": ")
        with open(path, encoding="utf-8") as text:
            if words not in text.read():
                raise Refused(f"{path} does not say what bounds the loop of {name}: {words}")
        scope, _, word = scope.partition(", ")
        self.stated[name] = turns, scope, word or name

    def asked(self, sizes):
        """What Paths asks, for an input of some sizes."""

        def turns_of(name, caller, constants, around):
            found = next((each for each in (f"{name} by {caller}", name) if each in self.stated), None)
            if not found and name.endswith("()"):
                return None, None, None
            if not found:
                raise Refused(f"the loop of {name} has no bound, in what {caller} calls")
            self.used.add(found)
            turns, scope, word = self.stated[found]
            try:
                number = eval(turns.replace("/", "//"), {"__builtins__": {}}, {**sizes, **constants})
            except NameError as unknown:
                raise Refused(f"how often the loop of {name} turns is not told where {caller} calls it: {unknown}")
            return number, scope if scope in around else None, word

        return turns_of

    def refuse_unused(self):
        unused = sorted(set(self.stated) - self.used)
        if unused:
            raise Refused("no loop is that of " + ", ".join(unused))


def functions_in(path):
    """The names of the functions that a module defines, in their order."""
    with open(path, encoding="utf-8") as module:
        return [name.strip('"') for name in re.findall(r'^define [^@]*@("[^"]+"|[\w.$]+)', module.read(), re.MULTILINE)]


class Sources:
    """Tells whose loops and instructions were before functions were taken into others, of functions that have these names."""

    def __init__(self, names):
        self.names = names

    def name(self, place):
        return self.names[int(place.partition(":")[2]) - 1]

    def functions(self, instruction):
        """The functions that an instruction comes from."""
        return {self.name(place) for place in instruction.sources if place.startswith("module:")}

    def loop(self, function, instructions, back):
        """In whose source the loop of these instructions stands, and how many turns of it one is: that is noted at its jumps back, where
        these are of that source, while other instructions may have been moved into it."""
        placed = [each for each in instructions if each.sources and not each.is_way_out]
        chains = [instruction.sources[::-1] for instruction in placed]
        if not chains or not chains[0][0].startswith("module:"):
            return function.name, min((instruction.unrolled for instruction in placed), default=1)
        shared = os.path.commonprefix(chains)
        if not shared:
            raise Refused(f"a loop in {function.name} is of no one function")
        if not all(instruction.sources and instruction.sources[0] == shared[-1] for instruction in back):
            back = [instruction for instruction in placed if instruction.sources[0] == shared[-1]]
        return self.name(shared[-1]), min((instruction.unrolled for instruction in back), default=1)


def bounds_of(functions, names, bounds, measures):
    """The bounds of all calls by all measures."""
    others = {name for name in functions if name.startswith(PREFIX)} | {"dry_run", "priced_run", "take_known_stack"}
    sources, found = Sources(names), {}
    for call, sizes in CALLS.items():
        for kind, rows in ROWS.items():
            turns_of = bounds.asked({**SIZES, **sizes, "rows": rows})
            found[call + kind] = {
                name: Paths(functions, measure, turns_of, sources).function("make_call", others - {PREFIX + call})
                for name, measure in measures.items()
            }
    return found


def every_bound():
    """The bounds of all calls, by processors."""
    names, bounds, found = functions_in(MODULE), Bounds(LOOPS), {}
    for processor, measures in MEASURES.items():
        functions = {}
        for text in ("fairleadow.s", "support.s", "board.s"):
            functions.update(functions_of(f"target/arm/{processor}/{text}"))
        found[processor] = bounds_of(functions, names, bounds, measures)
    bounds.refuse_unused()
    return found


def main():
    os.chdir(os.path.join(os.path.dirname(os.path.abspath(__file__)), "../.."))
    try:
        found = every_bound()
    except Refused as refused:
        sys.exit(f"controller/time/bound.py: {refused}")
    for processor, calls in found.items():
        for call, costs in calls.items():
            print(f"{processor} {call}:", ", ".join(f"{name} {cost:,}" for name, cost in costs.items()))


if __name__ == "__main__":
    main()
