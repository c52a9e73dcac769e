"""The code of a crate (.rt), read: its modules, types and constants, and the contracts of its functions."""

import re

from definitions import imports_of
from words import code_words, definition_words, end_of_group

DECLARING = {"const", "static", "type", "struct", "enum"}
CLAUSES = {"requires", "ensures", "ghost"}
BEFORE_FN = {"unsafe", "extern", "const", "async", '"C"'}


class Clause:
    """A clause: its word, its name if it has one, and the words of its fact."""

    def __init__(self, kind, name, words):
        self.kind, self.name, self.words = kind, name, words


class Item:
    """A type, a trait, a constant or a function: the words of the code that it promises, and the clauses of a function."""

    def __init__(self, kind, name, module, block, words, public):
        self.kind, self.name, self.module, self.block, self.words, self.public = kind, name, module, block, words, public
        self.clauses, self.is_theorem = [], False
        # of a type or a trait what stands in its `impl` and its own block, by name, and the blocks that say more of it
        self.members, self.blocks = {}, []

    def key(self):
        return f"{self.block.key()}::{self.name}" if self.block else "::".join(self.module.path + [self.name])


class Block:
    """An `impl` or a `trait`: its head, its items, and the words of what else stands in it, which define what clauses speak of."""

    def __init__(self, head, module):
        self.head, self.module = head, module
        self.items, self.words, self.owner = [], [], None
        plain = " ".join(head).replace(" :: ", "::")
        while plain != re.sub("<[^<>]*>", "", plain):
            plain = re.sub("<[^<>]*>", "", plain)
        plain = plain.split(" where ")[0].split()
        self.is_trait, self.is_of_trait = plain[0] == "trait", "for" in plain
        self.trait = plain[1]
        self.type = "".join(plain[plain.index("for") + 1 :] if self.is_of_trait else plain[1:2])

    def is_inherent(self):
        return not self.is_trait and not self.is_of_trait

    def key(self):
        if self.owner and not self.is_of_trait:
            return self.owner.key()
        whole = "".join(self.head[self.head.index("for") :] if self.is_of_trait else [])
        return "::".join(self.module.path + [self.trait + whole.replace("for", "-for-", 1)])


class Module:
    def __init__(self, path, parent):
        self.path, self.parent = path, parent
        self.items, self.children, self.uses, self.all_of, self.ghosts, self.blocks = {}, {}, {}, [], [], []


def used(words, path, into, all_of):
    """What stands behind `use`, as names with their paths."""
    at = 0
    while at < len(words) and words[at] not in ("{", ",", "as", "*"):
        if words[at] != "::":
            path = path + [words[at]]
        at += 1
    if words[at:] == ["*"]:
        all_of.append(path)
    elif words[at : at + 1] == ["{"]:
        depth, part = 0, []
        for word in words[at + 1 : -1] + [","]:
            depth += (word == "{") - (word == "}")
            if word == "," and depth == 0:
                if part:
                    used(part, path, into, all_of)
                part = []
            else:
                part.append(word)
    else:
        path = path[:-1] if path[-1] == "self" else path
        into[words[-1] if words[at : at + 1] == ["as"] else path[-1]] = path


class Reader:
    """Reads a file into its module, and the files of the modules that it declares."""

    def __init__(self, texts, folder):
        self.texts, self.folder = texts, folder

    def file(self, path, module):
        self.text = self.texts[path]
        self.words = code_words(self.text)
        self.items(0, len(self.words), module, None)

    def texts_of(self, at, end):
        return [word.text for word in self.words[at:end]]

    def facts(self, at, end):
        """The words between two places, as those of a clause."""
        return definition_words(self.text[self.words[at].start : self.words[end].start])

    def find(self, at, *texts):
        """Where one of these comes next, not counting what stands in other brackets."""
        while self.words[at].text not in texts:
            at = end_of_group(self.words, at) if self.words[at].text in ("(", "[", "{") else at + 1
        return at

    def items(self, at, end, module, block):
        attributes = []
        while at < end:
            start = at
            if self.words[at].text == "#":
                opening = self.find(at, "[")
                at = end_of_group(self.words, opening)
                if opening == start + 1 and self.words[opening + 1].text != "tactic":
                    attributes += self.texts_of(start, at)
                continue
            public = self.words[at].text == "pub"
            at += public
            if public and self.words[at].text == "(":
                at, public = end_of_group(self.words, at), False
            is_test = "cfg" in attributes and "test" in attributes
            at = self.item(start, at, module, block, attributes, public and not is_test, is_test)
            attributes = []

    def item(self, start, at, module, block, attributes, public, is_test):
        """Reads what begins at a place, behind `pub`, and tells where it ends."""
        word, following = (self.texts_of(at, at + 2) + [""])[:2]
        function = next(k for k in range(at, len(self.words)) if self.words[k].text not in BEFORE_FN)
        if word == "ghost" and following == "use":
            stop = self.find(at, ";")
            module.ghosts += imports_of(self.facts(at + 1, stop))
        elif word == "ghost" and block is not None:
            stop = self.find(at, ";")
            block.words += self.facts(at, stop) + [";"]
        elif word == "use":
            stop = self.find(at, "{", ";")
            stop = self.find(stop, ";") if self.words[stop].text == "{" else stop
            used(self.texts_of(at + 1, stop), [], module.uses, module.all_of)
        elif word == "mod":
            stop = self.find(at, ";", "{")
            inline = self.words[stop].text == "{"
            child = Module(module.path + [following], module)
            if not is_test:
                module.children[following] = child
                if not inline:
                    read_module(self.texts, self.folder, child)
            if inline:
                stop = end_of_group(self.words, stop) - 1
                self.items(self.find(at, "{") + 1, stop, child, None)
        elif self.words[function].text == "fn":
            return self.function(at, function, module, block, public, attributes)
        elif word in DECLARING:
            stop = self.find(at, ";", "{") if word in ("struct", "enum") else self.find(at, ";")
            stop = end_of_group(self.words, stop) - 1 if self.words[stop].text == "{" else stop
            self.keep(Item(word, following, module, block, attributes + self.texts_of(start, stop + 1), public))
        elif word in ("impl", "trait"):
            return end_of_group(self.words, self.find(at, "{")) if is_test else self.block(at, module, public)
        else:
            return end_of_group(self.words, at) if word in ("(", "[", "{") else at + 1
        return stop + 1

    @staticmethod
    def keep(item):
        if item.block is None:
            item.module.items[item.name] = item
        else:
            item.block.items.append(item)

    def block(self, at, module, public):
        opening = self.find(at, "{")
        end = end_of_group(self.words, opening)
        block = Block(self.texts_of(at, opening), module)
        module.blocks.append(block)
        if block.is_trait:
            block.owner = module.items[block.trait] = Item("trait", block.trait, module, None, block.head, public)
            block.owner.blocks.append(block)
        self.items(opening + 1, end - 1, module, block)
        return end

    def function(self, at, function, module, block, public, attributes):
        name, start = self.words[function + 1].text, function + 2
        if self.words[start].text == "<":
            start = end_of_group(self.words, start)
        inside = self.find(start, "(")
        end = end_of_group(self.words, inside)
        head = self.find(end, "{", ";", *CLAUSES)
        item = Item("fn", name, module, block, attributes + self.texts_of(at, head), public)
        while self.words[head].text in CLAUSES:
            opening = self.find(head, "{")
            stop = end_of_group(self.words, opening)
            fact = self.facts(opening + 1, stop - 1)
            item.clauses.append(Clause(self.words[head].text, " ".join(self.texts_of(head + 1, opening)), fact))
            head = stop
        # a theorem is said of nothing that is handed in, and hands nothing out
        is_bare = end == inside + 2 and self.words[end].text in CLAUSES
        item.is_theorem = public and is_bare and any(clause.kind == "ensures" for clause in item.clauses)
        self.keep(item)
        end = head + 1 if self.words[head].text == ";" else end_of_group(self.words, head)
        if "const" in self.texts_of(at, function):
            # a constant may be what it gives
            item.words += self.texts_of(head, end)
        return end


def read_module(texts, folder, module):
    """A module below the crate's root, from its file."""
    name = "/".join([folder] + module.path[1:])
    path = name + ".rt" if name + ".rt" in texts else name + "/mod.rt"
    Reader(texts, folder).file(path, module)


def read_crate(texts, name):
    """The root module of a crate, if it has code."""
    folder = f"crates/{name}/src"
    root = Module([name], None)
    for path in (f"{folder}/lib.rt", f"{folder}/main.rt"):
        if path in texts:
            Reader(texts, folder).file(path, root)
            return root
    return root
