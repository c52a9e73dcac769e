"""Which laws that docs/TRACE.md names are no promises but steps of a proof, and which of them no row calls so.

A law is a promise where a reader can tell what it says from the definitions to believe. Where its statement speaks of a definition of
`proofs/` or `specs/inner/` it is a step, and the row says so: the word stands before it, behind no semicolon, or heads the table."""

import re

from laws import declaring, laws_of


def is_unbelieved(ledger, each, where):
    """Whether a definition is none to believe. A file's own short name for what is believed is read with its laws."""
    if each[0] != "definition" or ledger.lines[each].kind != "inner":
        return False
    if each[1] == where and ledger.program.file(where).items[each[2]].kind == "abbrev":
        return any(is_unbelieved(ledger, name, where) for name in ledger.lines[each].names)
    return True


def speaks_of(ledger, where, law):
    """The definitions not to believe that a law's statement speaks of."""
    names = ledger.lines["law", where, law].names
    return sorted(each[2] for each in names if is_unbelieved(ledger, each, where))


def is_called_step(row, where, law):
    """Whether each place of a row that names a law, or else its file with all of its laws, comes behind the word."""
    for part in (f"`{re.escape(law)}`", rf"{where}\b", rf"(?<!/)\b{where.split('/')[-1]}\b"):
        places = [found.start() for found in re.finditer(part, row)]
        if places:
            break
    for at in places:
        before = re.split("[;|]", row[:at])[-1]
        if not re.search(r"\b[Ss]teps?\b", re.sub("`[^`]*`", "", before)):
            return False
    return True


def uncalled_steps(ledger):
    """What is to be told of rows that name a step and do not call it one."""
    files_with, told, heads_steps = declaring(ledger.program), [], False
    for row in ledger.program.texts["docs/TRACE.md"].splitlines():
        heads_steps = row.startswith("| Step |") or heads_steps and row.startswith("|")
        for where, law in sorted(laws_of(row, ledger.program, files_with)):
            inner = speaks_of(ledger, where, law)
            if inner and not heads_steps and not is_called_step(row, where, law):
                told.append(f"no promise: {where}.{law}, which docs/TRACE.md does not call a step, speaks of {', '.join(inner)}")
    return told
