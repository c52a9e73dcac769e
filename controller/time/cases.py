#!/usr/bin/env python3
"""Cases for bound.py: texts whose bound is known, texts that it has to refuse, and a module whose loops it has to know, compiled by the
compiler whose words are given.

    cases.py PROCESSOR COMPILER WORDS...
"""
import os
import re
import subprocess
import sys
import tempfile

sys.dont_write_bytecode = True
import bound  # noqa: E402, these are beside it
from lines import with_lines  # noqa: E402
from paths import Paths  # noqa: E402
from thumb import Refused, functions_of  # noqa: E402

HEADER = "@ =>This Inner Loop Header: Depth=1"
# a clause that this file has
CLAUSE = "controller/time/cases.py: HEADER"


def written(*functions):
    """A text of functions, each its name and its lines."""
    told = [f"\t.type\t{name},%function\n{name}:\n" + "\n".join(lines) + "\n.Lfunc_end0:\n" for name, *lines in functions]
    return "".join(told)


LOOP = ("f", ".LBB0_1: " + HEADER, "\tsubs\tr0, #1", "\tbne\t.LBB0_1", "\tbx\tlr")
CALL = ("g", "\tpush\t{r4, lr}", "\tbl\tf", "\tpop\t{r4, pc}")

# what is refused, the bounds that are stated for it, and a word of why
REFUSED = [
    (written(LOOP), [], "the loop of f has no bound"),
    (written(LOOP), ["f | 5 | | %s | ", "g | 5 | | %s | "], "no loop is that of g"),
    (written(LOOP), ["f | 5 | | %s | ", "f | 6 | | %s | "], "two bounds"),
    (written(LOOP), ["f | 5 | | controller/time/cases.py: no " + "clause | "], "does not say what bounds the loop of f"),
    (written(("f", "\twfi", "\tbx\tlr")), [], "an instruction that is not known: wfi"),
    (written(("f", "\tblx\tr3", "\tbx\tlr")), [], "an instruction that is not known: blx"),
    (written(("f", "\t.inst.n\t0xde00", "\tbx\tlr")), [], "data among its instructions"),
    (written(("f", "\tbx\tr3")), [], "by a pointer"),
    (written(("f", "\tmov\tpc, r3")), [], "by a pointer"),
    (written(("f", "\tbeq\t.LBB0_1", "\tbx\tlr")), [], "to where no label is"),
    (written(("f", "\tmovs\tr0, #1")), [], "runs past its end"),
    (written(("f", ".LBB0_1: " + HEADER, "\tb\t.LBB0_1")), ["f | 5 | | %s | "], "does not return"),
    (written(("f", ".LBB0_1:", "\tsubs\tr0, #1", "\tbne\t.LBB0_1", "\tbx\tlr")), ["f | 5 | | %s | "], "than the compiler remarks"),
    (written(("f", "\tbeq\t.LBB0_2", ".LBB0_1: ", "\tsubs\tr0, #1", ".LBB0_2:", "\tbne\t.LBB0_1", "\tbx\tlr")), [], "at two places"),
    (written(("f", "\tb\tg")), [], "whose text is not known"),
    (written(CALL, ("f", "\tb\tg")), [], "a circle of calls"),
    # what a register holds is lost in a call
    (written(("g", "\tmovs\tr0, #3", "\tbl\th", "\tbl\tf", "\tbx\tlr"), ("h", "\tbx\tlr"), LOOP), ["f | r0 | | %s | "], "where g calls it"),
]

# f turns five times in the loop of "outer", and in that of "inner", four of whose turns are one, as its jump back alone tells, nine times
# in all; there it calls h once
NESTED = written(
    (
        "f", "\tpush\t{r4, r5, lr}", "\t.loc\t1 2 0 @ module:2", ".LBB0_1: @ =>This Loop Header: Depth=1", "\tldr\tr1, [r0]",
        "\tcbz\tr1, .LBB0_2", "\tbl\th", "\t.loc\t1 1 0 @ module:1 @[ module:2 ]", ".LBB0_2: " + HEADER, "\tmuls\tr1, r2, r1",
        "\t.loc\t1 1 0 discriminator 17 @ module:1 @[ module:2 ]", "\tbls\t.LBB0_2", "\t.loc\t1 2 0 @ module:2", "\tsubs\tr0, #1", "\tbne.w\t.LBB0_1",
        "\t.loc\t1 3 0 @ module:3", "\tpop\t{r4, r5, pc}",
    ),
    ("h", "\tudiv\tr0, r1, r2", "\tit\tne", "\tbxne\tlr", "\tbx\tlr"),
)
# ten turns in the loop of "outer", of which three go through "inner", or in their place four in that of "third"
SHARED = written(
    (
        "f", "\t.loc\t1 2 0 @ module:2", ".LBB0_1: " + HEADER, "\tsubs\tr0, #1", "\tbeq\t.LBB0_2",
        "\t.loc\t1 1 0 @ module:1 @[ module:2 ]", "\tldr\tr1, [r2]", "\tldr\tr1, [r2]", "\t.loc\t1 2 0 @ module:2", ".LBB0_2:",
        "\tcmp\tr0, #0", "\tbne\t.LBB0_1", "\t.loc\t1 3 0 @ module:3", ".LBB0_3: " + HEADER, "\tsubs\tr3, #1", "\tbne\t.LBB0_3",
        "\tbx\tlr",
    ),
)
# nine turns in the loop of "inner", four of which are one, as the comparison tells by which the function around it returns from it
RETURNING = written(
    (
        "f", "\t.loc\t1 2 0 @ module:2", "\tb\t.LBB0_2", "\t.loc\t1 1 0 discriminator 17 @ module:1 @[ module:2 ]", ".LBB0_1:", "\tcmp\tr0, r1",
        "\t.loc\t1 1 0 @ module:1 @[ module:2 ]", "\tadds\tr0, #4", "\t.loc\t1 2 0 @ module:2", "\tit\teq", "\tbxeq\tlr",
        "\t.loc\t1 1 0 @ module:1 @[ module:2 ]", ".LBB0_2: " + HEADER, "\tsubs\tr2, #1", "\tb\t.LBB0_1",
    ),
)
# f calls h with 3, twice, and with 5
HANDED = written(
    (
        "f", "\tpush\t{r4, lr}", "\tmovs\tr2, #3", "\tstr\tr2, [sp, #4] @ 4-byte Spill", "\tbl\th", "\tldr\tr2, [sp, #4] @ 4-byte Reload",
        "\tbl\th", "\tldr\tr2, .LCPI0_0", "\tbl\th", "\tpop\t{r4, pc}", ".LCPI0_0:", "\t.long\t5",
    ),
    ("h", ".LBB1_1: " + HEADER, "\tsubs\tr2, #1", "\tbne\t.LBB1_1", "\tbx\tlr"),
)
# what is stated for each, and what it takes, reckoned by hand: what stands before and behind the loops, the turns, and the last ones
NAMES = ["inner", "outer", "third"]
TAKEN = [
    (
        NESTED, ["outer | 5 | | %s | ", "inner | 9 | outer | %s | ", "h() | 1 | outer | %s | "],
        {
            "thumbv7m": {
                "instructions": 2 + 5 * 7 + 7 + 3 * 2 + 4,
                "counted": 10 + 5 * 12 + 10 + 3 * 4 + 12,
                "longest": 11 + 5 * 16 + 13 + 3 * 5 + 18,
            },
            "thumbv6m": {
                "instructions": 2 + 5 * 7 + 7 + 3 * 2 + 4,
                "counted": 10 + 5 * 12 + 10 + 3 * 4 + 12,
                "longest": 11 + 5 * 13 + 11 + 3 * 4 + 12,
                "slow counted": 104 + 9 * 31,
                "slow longest": 111 + 9 * 31,
            },
        },
    ),
    (
        SHARED, ["outer | 10 | | %s | ", "inner() | 3 | f(), either | %s | ", "third | 4 | f(), either | %s | "],
        {
            "thumbv7m": {
                "instructions": 1 + 10 * 4 + 6 + 4 * 2 + 2,
                "counted": 3 + 10 * 8 + 8 + 4 * 4 + 2,
                "longest": 4 + 10 * 10 + 12 + 4 * 5 + 2,
            },
            "thumbv6m": {
                "instructions": 1 + 10 * 4 + 6 + 4 * 2 + 2,
                **dict.fromkeys(("counted", "longest", "slow counted", "slow longest"), 3 + 10 * 8 + 8 + 4 * 4 + 2),
            },
        },
    ),
    (
        RETURNING, ["inner | 9 | | %s | "],
        {
            "thumbv7m": {"instructions": 1 + 3 * 6 + 6, "counted": 3 + 3 * 8 + 10, "longest": 4 + 3 * 9 + 12},
            "thumbv6m": {
                "instructions": 1 + 3 * 6 + 6,
                **dict.fromkeys(("counted", "longest", "slow counted", "slow longest"), 3 + 3 * 8 + 10),
            },
        },
    ),
    (
        HANDED, ["h | r2 | | %s | "],
        {
            "thumbv7m": {"instructions": 9 + 11 * 2 + 3 * 3, "counted": 24 + 11 * 4 + 3 * 5, "longest": 28 + 11 * 5 + 3 * 6},
            "thumbv6m": {
                "instructions": 9 + 11 * 2 + 3 * 3,
                **dict.fromkeys(("counted", "slow counted"), 24 + 11 * 4 + 3 * 5),
                **dict.fromkeys(("longest", "slow longest"), 28 + 11 * 4 + 3 * 5),
            },
        },
    ),
]

# the loop of one function in that of another
SOURCE = """
static int skip(const char *p, int f, int end, int w) {
    for (; f < end; f++)
        if (p[f] == w) return f;
    return f;
}
int find(const char *p, int f, int end, int w) {
    int found = 0;
    for (; f < end; f++) {
        if (p[f] > w) found++;
        f = skip(p, f + 1, end, w);
    }
    return found;
}
"""


def longest(text, folder, stated, measures, top="f", names=()):
    """What a function of a text takes at most by some measures."""
    path, loops = os.path.join(folder, "text.s"), os.path.join(folder, "loops.txt")
    for file, words in ((path, text), (loops, "\n".join(line.replace("%s", CLAUSE) for line in stated))):
        with open(file, "w", encoding="utf-8") as out:
            out.write(words)
    bounds, functions = bound.Bounds(loops), functions_of(path)
    sources = bound.Sources(names)
    found = {name: Paths(functions, measure, bounds.asked(bound.SIZES), sources).function(top) for name, measure in measures.items()}
    bounds.refuse_unused()
    return found


def check_refused(folder, measures):
    for text, stated, why in REFUSED:
        try:
            found = longest(text, folder, stated, measures, "g" if "\ng:" in text else "f")
        except Refused as refused:
            if why in str(refused):
                continue
            found = refused
        sys.exit(f"controller/time/bound.py says {found} of:\n{text}")


def check_lines(folder, measures, compiler):
    """A module's loops have their own names where one function was taken into another, and lines change no instruction."""

    def compiled(text, *words):
        command = [*compiler, "-O2", "-S", "-o", "-", "-x", *words, "-"]
        return subprocess.run(command, input=text, universal_newlines=True, check=True, stdout=subprocess.PIPE).stdout

    module = compiled(SOURCE, "c", "-ffreestanding", "-Xclang", "-disable-llvm-passes", "-emit-llvm")
    texts = [compiled(text, "ir") for text in (module, with_lines(module))]
    path = os.path.join(folder, "module.ll")
    with open(path, "w", encoding="utf-8") as out:
        out.write(module)
    stated = ["find | 5 | | %s | ", "skip | 9 | find | %s | "]
    longest(texts[1], folder, stated, measures, "find", bound.functions_in(path))
    bare = [re.findall(r"^\t([a-z][^@\n]*)", text, re.MULTILINE) for text in texts]
    if [line.strip() for line in bare[0]] != [line.strip() for line in bare[1]]:
        sys.exit("controller/time/lines.py changes the code")


def main():
    os.chdir(os.path.join(os.path.dirname(os.path.abspath(__file__)), "../.."))
    processor, compiler = sys.argv[1], sys.argv[2:]
    measures = bound.MEASURES[processor]
    with tempfile.TemporaryDirectory() as folder:
        check_refused(folder, measures)
        for text, stated, taken in TAKEN:
            found = longest(text, folder, stated, measures, "f", NAMES)
            if found != taken[processor]:
                sys.exit(f"controller/time/bound.py says {found} and not {taken[processor]} on {processor} of:\n{text}")
        check_lines(folder, measures, compiler)


main()
