#!/usr/bin/env python3
"""Cases for bound.py: texts whose bound is known, and texts that it has to refuse, compiled from C by the compiler whose words are given.

    cases.py PROCESSOR COMPILER WORDS...
"""
import os
import subprocess
import sys
import tempfile

sys.dont_write_bytecode = True
import bound  # noqa: E402, this is beside it

KEPT = "void use(volatile char *bytes) { bytes[0] = 1; }\n__attribute__((noinline)) "

# what is refused, and a word of why
REFUSED = {
    "int fairleadow_a(int (*f)(int)) { return f(1) + 1; }": "by a pointer",
    "void fairleadow_a(int n) { volatile char held[n]; held[0] = 1; }": "without a fixed size",
    KEPT + "int down(int n) { volatile char held[9]; use(held); return n ? down(n - 1) + n * held[0] : 0; }\n"
    "int fairleadow_a(int n) { return down(n) + 1; }": "how often is not stated",
    "int even(int);\n"
    "__attribute__((noinline)) int odd(int n) { volatile char held[9]; held[0] = 1; return n ? even(n - 1) + held[0] : 0; }\n"
    "__attribute__((noinline)) int even(int n) { volatile char held[9]; held[0] = 1; return n ? odd(n - 1) + held[0] : 1; }\n"
    "int fairleadow_a(int n) { return odd(n) + 1; }": "a circle of calls",
    "int other(int);\nint fairleadow_a(int n) { return other(n) + 1; }": "whose frame is not known",
    "int make_call(int n) { return n; }\nint dry_run(int n) { return n; }\nint priced_run(int n) { return n; }\n"
    "int fairleadow_a(int n) { return n + 1; }": "caller does not call fairleadow_a",
}

# two ways of calls, of which the one with fewer frames takes more
TAKEN = """
__attribute__((noinline)) int small(int n) { volatile char held[16]; held[0] = n; return held[0] + 1; }
__attribute__((noinline)) int middle(int n) { volatile char held[16]; held[0] = n; return small(held[0]) + 1; }
__attribute__((noinline)) int large(int n) { volatile char held[1024]; held[n & 1023] = 1; return held[n & 7] + 1; }
int fairleadow_a(int n) { volatile char held[16]; held[0] = n; return middle(n) + large(n) + held[0]; }
"""

# single lines, most of which the compiler was not seen to write: calls by a name, and calls and jumps by a pointer
NAMED = {"thumbv7m": ["blne\tlarge", "bl\tlarge", "beq.w\tlarge", "ble\tlarge"], "riscv32imac": ["jal\tlarge", "jal\tra, large"]}
POINTED = {"thumbv7m": ["blxne\tr3", "bxne\tr3", "ldrne.w\tpc, [r3]"], "riscv32imac": ["jalr\ta5", "jr\ta5"]}


def check_lines(processor):
    """What is told of single lines."""
    kind = bound.PROCESSORS[processor]
    for line in NAMED.get(processor, []):
        calls = bound.called_by("f", [line], kind)
        if calls != {"large"}:
            sys.exit(f"controller/stack/bound.py says on {processor} that {line!r} calls {calls}")
    for line in POINTED.get(processor, []):
        try:
            calls = bound.called_by("f", [line], kind)
        except bound.Refused:
            continue
        sys.exit(f"controller/stack/bound.py takes {line!r} on {processor}, and {calls} for what it calls")


def compiled(folder, compiler, source):
    text = os.path.join(folder, "case.s")
    words = ["-std=c11", "-O1", "-ffreestanding", "-fstack-usage", "-S", "-x", "c", "-", "-o", text]
    subprocess.run(compiler + words, input=source, text=True, check=True)
    return text


def main():
    processor, compiler = sys.argv[1], sys.argv[2:]
    check_lines(processor)
    with tempfile.TemporaryDirectory() as folder:
        for source, why in REFUSED.items():
            try:
                bounds = bound.call_bounds(processor, [compiled(folder, compiler, source)])
            except bound.Refused as refused:
                if why in str(refused):
                    continue
                bounds = refused
            sys.exit(f"controller/stack/bound.py says {bounds} on {processor} of:\n{source}")
        text = compiled(folder, compiler, TAKEN)
        frames = bound.frames_of(text.replace(".s", ".su"))
        least = frames["fairleadow_a"] + frames["large"]
        told = bound.call_bounds(processor, [text])["a"]
        kind = bound.PROCESSORS[processor]
        least += 2 * kind.returned + kind.below
        if told != least or told < 1024:
            sys.exit(f"controller/stack/bound.py says {told} and not {least} on {processor}")


main()
