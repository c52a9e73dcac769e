"""The laws that docs/TRACE.md names, each as the file of proofs where it stands and its name."""

import os
import re

NAMES = r"((?:`[^`]+`(?:, | and )?)+)"


def names_in(text):
    return re.findall("`([^`]+)`", text)


def declaring(program):
    """The files of proofs with a line that may declare a public law, by its name."""
    found = {}
    for path, text in program.texts.items():
        if "/proofs/" in path:
            for name in re.findall(r"^ *pub ([^\s:]+) *:", text, re.M):
                found.setdefault(name, set()).add(path[len("crates/") : -len(".antt")])
    return found


def files_of(row, program):
    """The files of proofs that a row names by their paths, or beside one of its folder by their names."""
    paths = set(re.findall(r"\w+/proofs/[\w/]+", row))
    words = re.findall(r"\b[A-Z]\w+", re.sub("`[^`]*`", "", row))
    paths |= {os.path.dirname(path) + "/" + word for path in paths for word in words}
    return {path for path in paths if program.file(path)}


def declares(program, file, name):
    items = program.file(file).items
    return name in items and items[name].kind == "law"


def proved_as(row):
    return set(names_in(" ".join(re.findall("(?:proved|computed) as " + NAMES, row))))


def laws_in(row, program, files_with):
    """The laws that a row of a page names. A name is a law's if a file of the row declares it, if it has a dash, or if it stands behind
    `proved as`. It stands in a file of the row, else in a crate of the row, else anywhere. A file that a row names with none of its laws
    stands for all of them."""
    files, named = files_of(row, program), set()
    crates = set(re.findall(r"(\w+)/(?:specs|proofs|src)/", row))
    proved, here = proved_as(row), set()
    for name in names_in(row):
        inside = {(file, name) for file in files if declares(program, file, name)}
        if not inside and ("-" in name or name in proved):
            places = {file for file in files_with.get(name, ()) if name in program.file(file).public}
            near = {file for file in places if file.split("/")[0] in crates}
            named |= {(file, name) for file in near or places}
        here |= inside
    for file in files - {file for file, _ in here}:
        here |= {(file, name) for name in program.file(file).public}
    return named | here


def laws_of(row, program, files_with):
    """The same of a row of docs/TRACE.md, where a name that stands for no law is told, and a file without one."""
    named = laws_in(row, program, files_with)
    astray = [f"a law of {file}" for file in files_of(row, program) - {file for file, _ in named}]
    astray += [name for name in proved_as(row) if name not in {other for _, other in named}]
    for names, file in re.findall(NAMES + r" \((\w+/proofs/[\w/]+)", row):
        astray += [f"{file}.{name}" for name in names_in(names) if not program.file(file) or name not in program.file(file).items]
    program.unknown.update(f"{name}, which docs/TRACE.md names" for name in astray)
    return named


def named_laws(program):
    """The laws that docs/TRACE.md names."""
    files_with = declaring(program)
    return {law for row in program.texts["docs/TRACE.md"].splitlines() for law in laws_of(row, program, files_with)}
