#!/usr/bin/env python3
"""Holds docs/MEASUREMENTS.md to the stack that calls take as the toolchain's own compiler makes them (`./archive --second`).

The compiler tells how much a call takes at most where no function calls itself, and what each further level of one that does adds. With
as many levels as bound.py allows, all of them together are a bound of every call. It is told beside that of the published archive.
"""
import os
import re
import sys

sys.dont_write_bytecode = True
import bound  # noqa: E402, this is beside it

TOLD, HEADER, PAGE = "target/second/built", "include/fairleadow.h", "docs/MEASUREMENTS.md"


def read(path):
    with open(path, encoding="utf-8") as text:
        return text.read()


def bound_of(told):
    """The bytes of stack that no call passes."""
    levels = {name: int(size) for name, size in re.findall(r"`([\w:]+)` may call itself.* adds at most (\d+) bytes", told)}
    if set(levels) != set(bound.DEPTHS):
        sys.exit(f"controller/stack/second.py: {sorted(levels)} call themselves")
    (once,) = re.findall(r" stack-bytes=(\d+)\+ ", told)
    return int(once) + sum((bound.DEPTHS[name] - 1) * size for name, size in levels.items())


def main():
    os.chdir(os.path.join(os.path.dirname(os.path.abspath(__file__)), "../.."))
    taken = bound_of(read(TOLD))
    rows = re.findall(r"^ \*    (?: *[a-z_]+ +[\d,]+)+$", read(HEADER), re.MULTILINE)
    published = max(int(size.replace(",", "")) for row in rows for size in re.findall(r"[\d,]+", row))
    print(f"second compiler: no call takes more than {taken:,} bytes of stack; {published:,} as clang makes it")
    words = f"no call takes more than {taken:,} bytes of stack"
    if words not in read(PAGE):
        sys.exit(f"{PAGE} does not say: {words}")


main()
