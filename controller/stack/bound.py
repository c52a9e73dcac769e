#!/usr/bin/env python3
"""How many bytes of stack each call of the library can take at most, counted on the compiler's text.

controller/build and controller/programs write the texts, beside the archives. On a controller the frame of the board's caller counts too
(controller/board/board.c). Prints the bounds of all calls on all processors; pages.py holds the pages to them.

Beside each text lies what the compiler wrote of its frames (-fstack-usage, TEXT.su). A call's bound is the largest sum of frames on a
way of calls. A function that calls itself counts as often as its contract, or for one of them its only caller, allows. What cannot be
counted is refused: a frame without a fixed size, a call by a pointer, a function without a frame, any other circle of calls.
"""
import glob
import os
import re
import sys

# How often a function can stand on the stack that calls itself, by its contract, or by its only caller.
DEPTHS = {
    "chart_rows::paths::count_paths": 17,  # each adds a number to those that were tested, and there are 16
    "translator::path_text::put_forks": 17,  # likewise
    # a word fewer each, of at most 16: without conditions, where there may be more, it is not called (fillings/src/counting.rt)
    "fillings::fill_lists::tally_all": 17,
    "little_fetch::little_seek::seek": 3,  # a place further each, from the second to the last of at most 4 frames
}


PREFIX = "fairleadow_"


class Processor:
    """What its text looks like, and what a call takes besides the frame."""

    def __init__(self, branches, calls_by_pointer, jumps_by_pointer, returned=0, below=0, library=()):
        self.branches = re.compile(branches)
        self.calls_by_pointer = re.compile(calls_by_pointer)
        self.jumps_by_pointer = re.compile(jumps_by_pointer)
        self.returned = returned
        # what a function may use below its frame where it calls nothing
        self.below = below
        # functions of a library that is not compiled here, which call nothing
        self.library = frozenset(library)


CONDITION = "(?:eq|ne|cs|cc|hs|lo|mi|pl|vs|vc|hi|ls|ge|lt|gt|le)?"
THUMB = Processor(
    rf"bl?{CONDITION}(?:\.[wn])?\t",
    rf"blx{CONDITION}\t",
    rf"(?:add|mov|ldr){CONDITION}(?:\.[wn])?\tpc\b|bx{CONDITION}\t(?!lr$)",
)
X86 = Processor(r"(?:callq?|j\w+)\t", r"callq?\t\*", r"jmpq?\t\*", returned=8, below=128, library=("memcpy", "memset"))
RISCV = Processor(r"(?:call|tail|jal|jump|j|b\w+)\t", r"jalr\t", r"jr\t(?!ra$)")
PROCESSORS = {"thumbv7m": THUMB, "thumbv6m": THUMB, "riscv32imac": RISCV, "x86_64": X86}
FOLDERS = {"x86_64": "target/staticlib", "riscv32imac": "target/riscv/riscv32imac"}
SMALLER = "-size"  # what `controller/build --size` makes, where it was run


class Refused(Exception):
    pass


def frames_of(path):
    """The bytes of each function's frame."""
    frames = {}
    for line in open(path, encoding="utf-8"):
        place, size, kind = line.rstrip("\n").split("\t")
        # the file, in C the line too, then the name, which may hold colons
        name = re.sub(r"^[^:]*:(?:\d+:)?", "", place)
        if kind != "static":
            raise Refused(f"{name} has a frame without a fixed size ({kind})")
        frames[name] = int(size)
    return frames


def functions_of(path, frames):
    """The lines of each function of a text, without remarks."""
    functions, lines = {}, []
    for line in open(path, encoding="utf-8"):
        label = re.match(r'(?:"([^"]+)"|([\w$]+)):', line)
        if label:
            name = label.group(1) or label.group(2)
            # what stands before the first function, or after data, is of none
            lines = functions.setdefault(name, []) if name in frames else []
        lines.append(re.sub(r"(?:\s*@ |(?:^|\s+)#).*", "", line.strip()))
    return functions


def called_by(name, lines, processor):
    """The functions that a function calls, or leaves for."""
    calls = set()
    # a jump by a pointer is one by a table of places in the function; one to another function would be a call in the module
    tables = any(".LJTI" in line for line in lines)
    for line in lines:
        if processor.calls_by_pointer.match(line) or processor.jumps_by_pointer.match(line) and not tables:
            raise Refused(f"{name} calls by a pointer: {line}")
        if processor.jumps_by_pointer.match(line):
            continue
        if processor.branches.match(line):
            # a name in quotes may hold commas
            quoted = re.search(r'"([^"]+)"', line)
            target = quoted.group(1) if quoted else re.split(r"[\t,] *", line)[-1].replace("@PLT", "")
            if not target.startswith(".L"):
                calls.add(target)
    return calls


def check_module(path):
    """The module calls every function by its name."""
    for line in open(path, encoding="utf-8"):
        if re.match(r"[^;]*\b(?:call|invoke)\b[^@%\"]*%", line):
            raise Refused("the module calls by a pointer: " + line.strip())


def bounds(processor, paths):
    """The bound of each call of some texts, and the frames and the calls of all functions."""
    frames, calls = {}, {}
    for path in paths:
        own = frames_of(re.sub(r"s$", "su", path))
        frames.update(own)
        calls.update({name: called_by(name, lines, processor) for name, lines in functions_of(path, own).items()})
    known, above = {}, []

    def bound(name):
        if name in known:
            return known[name]
        if name in processor.library:
            return processor.returned + processor.below
        if name not in frames:
            raise Refused(f"{above[-1]} calls {name}, whose frame is not known")
        if name in above:
            raise Refused("a circle of calls: " + ", ".join(above[above.index(name):]))
        above.append(name)
        times = 1
        if name in calls[name]:
            if name not in DEPTHS:
                raise Refused(f"{name} calls itself, and how often is not stated")
            times = DEPTHS[name]
        deepest = max([processor.below] + [bound(other) for other in calls[name] if other != name])
        above.pop()
        known[name] = times * (frames[name] + processor.returned) + deepest
        return known[name]

    return {name: bound(name) for name in frames if name.startswith(PREFIX)}, frames, calls


def call_bounds(name, paths):
    """The bound of each call, with the frame of the board's caller where its text is there."""
    found, frames, calls = bounds(PROCESSORS[name], paths)
    callers = ["make_call", "dry_run", "priced_run"] if "make_call" in frames else []
    below = {} if callers else dict.fromkeys(found, 0)
    for caller in callers:
        before = frames["make_call"] + (frames[caller] if caller != "make_call" else 0)
        below.update({call: before for call in calls[caller] if call in found})
    missing = sorted(set(found) - set(below))
    if missing:
        raise Refused("the board's caller does not call " + ", ".join(missing))
    return {call[len(PREFIX):]: found[call] + before for call, before in below.items()}


def every_bound():
    """The bounds of all calls, by processors; those of smaller code where it was made and linked."""
    check_module("target/staticlib/module.ll")
    found = {}
    for name in PROCESSORS:
        folder = FOLDERS.get(name, f"target/arm/{name}")
        found[name] = call_bounds(name, sorted(glob.glob(folder + "/*.s")))
        if os.path.exists(f"{folder}{SMALLER}/board.s"):
            found[name + SMALLER] = call_bounds(name, sorted(glob.glob(f"{folder}{SMALLER}/*.s")))
    return found


def main():
    os.chdir(os.path.join(os.path.dirname(os.path.abspath(__file__)), "../.."))
    try:
        found = every_bound()
    except Refused as refused:
        sys.exit(f"controller/stack/bound.py: {refused}")
    for call in sorted(found["x86_64"]):
        print(call, *(f"{name} {found[name][call]}" for name in found))


if __name__ == "__main__":
    main()
