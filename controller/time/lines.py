#!/usr/bin/env python3
"""Gives each function of a module, read as text, a line of its own: the n-th that the module defines has line n.

Compiled with these lines, the code is the same, and its text says of each instruction which functions it comes from, also where one was
taken into another. So bound.py knows of a loop of the code whose loop it is.
"""
import re
import sys

FILE = """
!llvm.dbg.cu = !{!%(unit)d}
!%(unit)d = distinct !DICompileUnit(language: DW_LANG_C, file: !%(file)d, emissionKind: LineTablesOnly, debugInfoForProfiling: true)
!%(file)d = !DIFile(filename: "module", directory: "")
!%(type)d = !DISubroutineType(types: !{null})
!%(flag)d = !{i32 2, !"Debug Info Version", i32 3}
"""
FUNCTION = """!%(function)d = distinct !DISubprogram(name: "%(line)d", scope: !%(file)d, file: !%(file)d, line: %(line)d, type: !%(type)d, \
spFlags: DISPFlagDefinition, unit: !%(unit)d)
!%(place)d = !DILocation(line: %(line)d, scope: !%(function)d)
"""


def with_lines(text):
    free = 1 + max([int(number) for number in re.findall(r"^!(\d+) = ", text, re.MULTILINE)], default=0)
    names = {"unit": free, "file": free + 1, "type": free + 2, "flag": free + 3}
    lines, told, open_switch = [], [], False
    for line in text.split("\n"):
        if line.startswith("define "):
            names["line"] = len(told) + 1
            names["function"] = free + 4 + 2 * len(told)
            names["place"] = names["function"] + 1
            told.append(FUNCTION % names)
            line = re.sub(r"\{$", "!dbg !%(function)d {" % names, line)
        elif line.startswith("  "):
            # the choices of a switch stand in lines of their own, and the last of these ends it
            open_switch = line.endswith("[") or open_switch and not line.startswith("  ]")
            if not open_switch:
                line += ", !dbg !%(place)d" % names
        lines.append(line)
    text = "\n".join(lines)
    flags = re.compile(r"^(!llvm\.module\.flags = !\{)(.*)\}$", re.MULTILINE)
    if not flags.search(text):
        text += "!llvm.module.flags = !{}\n"
    flag = "!%(flag)d" % names
    text = flags.sub(lambda found: found.group(1) + (found.group(2) + ", " if found.group(2) else "") + flag + "}", text)
    return text + FILE % names + "".join(told)


if __name__ == "__main__":
    sys.stdout.write(with_lines(sys.stdin.read()))
