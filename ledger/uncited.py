"""Which laws and definitions of `proofs/` nothing cites.

Read are the answers and invariants that the checker asks for, the sets of rules that a function's attribute names, the laws that a page
names, and the cases: laws without premises that are computed. All that these cite is read too, and so on. A name stands for what it is
imported from, so of two laws with one name the one that is cited is told from the other; a name that an item binds itself cites nothing."""

import re

from laws import declaring, laws_in

# the history of the port tells what it found, and not what is there
HISTORY = "docs/landings/port.md"
# what ends the names behind a word, and what does where the word binds them
ENDS = {"(", ")", "{", "}", ":", ";", ",", "=", "\n", "λ", "→", "↦", "|"}
BINDING = {"(": ":", "{": ":", "|": "↦", "\n": ":=", "let": ":=", "λ": ""}


def is_asked_for(file):
    """Whether a file answers goals of a function, or gives what the checker is to know of its loops."""
    return any(each.path[-1] in ("Goals", "Given") for each in file.imports)


def bound(item):
    """The names that an item binds: its parameters, those of `λ` and `let`, and those of equations and cases."""
    names, words = set(), item.words
    for at, word in enumerate(words):
        if word in BINDING and words[at + 1 : at + 2] != ["unfolding"]:
            stop = at + 1
            while stop < len(words) and words[stop] not in ENDS and not words[stop].startswith("."):
                stop += 1
            if word == "λ" or words[stop : stop + 1] and words[stop] in BINDING[word]:
                names |= set(words[at + 1 : stop])
    return names - {item.name}


def is_computed_case(item):
    """A law without premises, as one of a value that is computed."""
    return item.kind == "law" and not {"module", "→"} & set(item.statement) and item.words[-1] == "refl"


def told(crate, code):
    """The sets of rules that attributes of a crate's code tell the checker to use, as files and names."""
    for paths in re.findall(r"\busing\(([^)]*)\)", code):
        for path in paths.split(","):
            first, *folders, name = path.strip().split("::")
            yield "/".join([crate if first == "crate" else first] + folders), name


def begun(program):
    """What stands for itself, as files and names."""
    files_with = declaring(program)
    for path, text in program.texts.items():
        where = path[len("crates/") : -len(".antt")]
        if path.endswith(".md") and path != HISTORY:
            for row in text.splitlines():
                yield from laws_in(row, program, files_with)
        elif path.endswith(".rt"):
            yield from told(path.split("/")[1], text)
        elif "/proofs/" in path:
            file = program.file(where)
            for name, item in file.items.items():
                if is_computed_case(item) or is_asked_for(file) and (item.kind != "law" or name in file.public):
                    yield where, name


def uncited(ledger):
    """What is to be told of each law and definition of `proofs/` that nothing cites."""
    program, cited, waiting = ledger.program, set(), list(begun(ledger.program))
    while waiting:
        where, name = waiting.pop()
        if (where, name) not in cited:
            cited.add((where, name))
            item = program.file(where).items[name]
            hidden = bound(item)
            _, rests = ledger.scope(where).resolved([word for word in item.words if word not in hidden])
            waiting += [rest[1:] for rest in rests if rest[0] == "definition" and "/proofs/" in rest[1]]
    files = sorted(path[len("crates/") : -len(".antt")] for path in program.texts if "/proofs/" in path)
    return [f"cited by nothing: {where}.{name}" for where in files for name in program.file(where).items if (where, name) not in cited]
