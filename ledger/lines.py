"""The lines of the ledger: what is promised, with digests of its own text and of all that it rests on."""

import hashlib
import re
from collections import namedtuple

from held import sentences, tests_of
from laws import named_laws
from program import Program
from scope import Scope, resolved_code

HEAD = """\
# What is promised, made by ./promises: the kind, the path, and digests of its words, of these with each name in full, and of the texts
# of all that it rests on.
# contract: of a public function. theorem: a clause of a function without parameters. law: a statement that docs/TRACE.md names.
# definition: to be believed. declared: a type, a trait or a constant of the code. inner: what one of these rests on beside them.
# sentences: of a section of docs/TRACE.md. tests: which of a file are run.
"""


def digest(parts):
    return hashlib.sha256("\0".join(parts).encode()).hexdigest()[:16]


def short(word):
    """A name without the path to it."""
    return re.sub("[^@&~#]+", lambda path: re.split("::|[.]", path[0])[-1], word) if word.startswith("@") else word


class Line:
    """A promise, or what one rests on: a digest of its words, one of its text, which has each name in full, and what it names."""

    def __init__(self, kind, path, text, names):
        self.kind, self.path, self.names = kind, path, names
        self.words, self.own = digest([short(word) for word in text]), digest(text)

    def key(self):
        return f"{self.kind} {self.path}"


Entry = namedtuple("Entry", "words own whole below")


class Ledger:
    def __init__(self, texts):
        self.program = Program(texts)
        self.scopes, self.lines = {}, {}
        for each in self.promised():
            self.line(each)

    def promised(self):
        """All that has a line for its own sake."""
        for crate in self.program.crates:
            yield from self.promised_code(self.program.code[crate])
        for path in self.program.texts:
            where = path[len("crates/") : -len(".antt")]
            if "/specs/" in path and "/inner/" not in path:
                for name in self.program.file(where).items:
                    yield "definition", where, name
        for where, name in named_laws(self.program):
            yield "law", where, name
        for heading in sentences(self.program.texts["docs/TRACE.md"]):
            yield "sentences", heading
        for path, text in self.program.texts.items():
            if tests_of(path, text):
                yield "tests", path

    def promised_code(self, module):
        for child in module.children.values():
            yield from self.promised_code(child)
        for item in list(module.items.values()) + [item for block in module.blocks for item in block.items]:
            if item.is_theorem:
                for at, clause in enumerate(item.clauses):
                    if clause.kind == "ensures":
                        yield "clause", item, at
            elif item.public or item.block and not item.block.is_inherent():
                yield "code", item
        for block in module.blocks:
            if block.is_of_trait:
                yield "block", block

    # ---- one line
    def line(self, each):
        """The line of a thing, and those of all that it names."""
        waiting = [each]
        while waiting:
            one = waiting.pop()
            if one not in self.lines:
                self.lines[one] = getattr(self, one[0])(*one[1:])
                waiting += self.lines[one].names

    def scope(self, where):
        if where not in self.scopes:
            self.scopes[where] = Scope(self.program, self.program.file(where).imports, own=where)
        return self.scopes[where]

    def clauses_scope(self, module):
        if module not in self.scopes:
            self.scopes[module] = Scope(self.program, module.ghosts, module=module)
        return self.scopes[module]

    def definition(self, where, name):
        is_inner = "/proofs/" in where or "/inner/" in where
        text, names = self.scope(where).resolved(self.program.file(where).items[name].words)
        return Line("inner" if is_inner else "definition", f"{where}.{name}", text, names - {("definition", where, name)})

    def law(self, where, name):
        text, names = self.scope(where).resolved(self.program.file(where).items[name].statement)
        # what a theorem may say in the same words begins behind the name
        text = text[4:] if text[:2] == ["\n", "pub"] and text[3] == ":" else text
        return Line("law", f"{where}.{name}", text, names - {("definition", where, name)})

    def clause_text(self, module, clauses):
        text, names = [], set()
        for clause in clauses:
            words, more = self.clauses_scope(module).resolved(clause.words)
            text += [clause.kind, clause.name, "{"] + words + ["}"]
            names |= more
        return text, names

    def clause(self, item, at):
        """A theorem: the clause, with all that the function requires."""
        text, names = self.clause_text(item.module, [each for each in item.clauses if each.kind != "ensures"])
        fact, others = self.clauses_scope(item.module).resolved(item.clauses[at].words)
        title = item.clauses[at].name
        return Line("theorem", item.key() + ("." + title if title else ""), text + fact, names | others)

    def code(self, item):
        """A function's contract with its signature, or a type, a trait or a constant."""
        around = item.block.head if item.block else []
        text, names = resolved_code(self.program, item.module, around + item.words)
        more, others = self.clause_text(item.module, item.clauses)
        names |= others | {("block", block) for block in item.blocks}
        is_public = item.public or item.block and not item.block.is_inherent()
        kind = "inner" if not is_public else "contract" if item.kind == "fn" else "declared"
        return Line(kind, item.key(), text + more, names - {("code", item)})

    def block(self, block):
        """What a trait, or an `impl` of one, says beside the contracts of its functions."""
        text, names = resolved_code(self.program, block.module, block.head)
        words, others = self.clauses_scope(block.module).resolved(block.words)
        return Line("declared", block.key() + "::ghost", text + words, names | others | {("code", item) for item in block.items})

    def sentences(self, heading):
        return Line("sentences", f"docs/TRACE.md#{heading}", sentences(self.program.texts["docs/TRACE.md"])[heading], set())

    def tests(self, path):
        return Line("tests", path, tests_of(path, self.program.texts[path]), set())

    # ---- all of them
    def below(self, each):
        """All that a thing rests on, beside itself."""
        reached, waiting = set(), [each]
        while waiting:
            for name in self.lines[waiting.pop()].names:
                if name not in reached:
                    reached.add(name)
                    waiting.append(name)
        return reached - {each}

    def place(self, line):
        """Where a line stands: by the order of crates, then by its path. What is of no crate comes last."""
        crates, first = self.program.crates, re.match(r"\w*", line.path)[0]
        return crates.index(first) if first in crates else len(crates), line.path, line.kind

    def entries(self):
        """The lines in their order, by kind and path: their three digests, and the keys of what they rest on."""
        entries = {}
        for each, line in sorted(self.lines.items(), key=lambda pair: self.place(pair[1])):
            rest = sorted((self.lines[name] for name in self.below(each)), key=Line.key)
            whole = digest([part for other in rest for part in (other.key(), other.own)]) if rest else "-" * 16
            if line.key() in entries:
                raise SystemExit(f"promises: there are two of {line.key()}")
            entries[line.key()] = Entry(line.words, line.own, whole, {other.key() for other in rest})
        return entries


def page(entries):
    """The text of docs/promises.txt."""
    return HEAD + "".join("{:<10} {} {} {} {}\n".format(*key.split(" ", 1), *entry[:3]) for key, entry in entries.items())
