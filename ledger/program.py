"""All crates of the repository, and what a name of them stands for."""

import re

from definitions import DefinitionFile
from functions import Module, read_crate

GATHERED = {"TheConstants", "TheVariants", "TheInside"}


class Meaning:
    """What a name stands for: its full path as a word, and what has to be read to know it."""

    def __init__(self, word, rests=()):
        self.word, self.rests = word, rests


class Program:
    """The texts of the repository by their paths."""

    def __init__(self, texts):
        self.texts = texts
        names = [line.split(":")[0].split()[0] for line in texts["crates.txt"].splitlines() if re.match(r"\w+.*:", line)]
        self.crates = names
        self.code = {name: read_crate(texts, name) for name in names}
        self.read, self.unknown = {}, set()
        for name in names:
            self.settle(self.code[name])

    def settle(self, module):
        """Tells each `impl` whose it is, and each type and trait what its blocks say of it."""
        for child in module.children.values():
            self.settle(child)
        for block in module.blocks:
            block.owner = block.owner or self.item(module, block.type.split("::"))
            if block.is_of_trait:
                for one in (block.owner, self.item(module, block.trait.split("::"))):
                    if one:
                        one.blocks.append(block)
            elif block.owner:
                block.owner.members.update((item.name, item) for item in block.items)

    def unresolved(self, name):
        """A name that stands for nothing is told, and changes what cites it."""
        self.unknown.add(name)
        return Meaning("?" + name)

    # ---- names of the code
    def find(self, module, name, seen=()):
        """What a name stands for in a module of code, an item or a module, and what is left of its path: the case of an enum."""
        if (module, name) in seen:
            return None, []
        seen = seen + ((module, name),)
        if name in module.items:
            return module.items[name], []
        if name in module.children:
            return module.children[name], []
        if name in module.uses:
            return self.follow(module, module.uses[name], seen)
        for path in module.all_of:
            other, rest = self.follow(module, path, seen)
            found = self.find(other, name, seen) if isinstance(other, Module) and not rest else (None, [])
            if found[0]:
                return found
        return None, []

    def follow(self, module, path, seen=()):
        """How far a path leads, and what is left of it."""
        first, left = path[0], []
        if first == "crate":
            at = self.code[module.path[0]]
        elif first == "self":
            at = module
        elif first == "super":
            at = module.parent
        else:
            at, left = self.find(module, first, seen)
            at = at or self.code.get(first)
        rest = left + list(path[1:])
        while at is not None and rest:
            if isinstance(at, Module):
                inside, left = (at.parent, []) if rest[0] == "super" else self.find(at, rest[0], seen)
            else:
                inside, left = at.members.get(rest[0]), []
            if inside is None:
                break
            at, rest = inside, left + rest[1:]
            if left:
                break
        return at, rest

    def item(self, module, path):
        found, rest = self.follow(module, path)
        return None if isinstance(found, Module) or rest else found

    def declared(self, crate, path):
        """A type, a constant, a case or a function of the code, by the path that definitions cite it by."""
        path = [part for part in path if part not in GATHERED]
        found, rest = self.follow(self.code[crate], ["self"] + path)
        if found is None or isinstance(found, Module):
            return self.unresolved(f"{crate}::{'::'.join(path)}")
        if rest == [found.name]:
            rest = []
        return Meaning("::".join([found.key()] + rest), (("code", found),))

    # ---- names of definitions and laws
    def file(self, path):
        """The file of definitions or laws at crate/specs/.. or crate/proofs/.., if there is one."""
        if path not in self.read:
            text = self.texts.get(f"crates/{path}.antt")
            self.read[path] = None if text is None else DefinitionFile(text)
        return self.read[path]

    def named(self, path):
        """What a path that an import names stands for; nothing, if it is a file or a folder, whose names are to follow."""
        if path[0] != "Rattle" or path[1] not in self.crates:
            return Meaning(".".join(path))
        crate, part, rest = path[1], path[2], path[3:]
        if part == "specs" and rest[0] in ("declared", "contracts"):
            module, left = self.follow(self.code[crate], ["self"] + [each for each in rest[1:] if each not in GATHERED])
            return None if isinstance(module, Module) and not left else self.declared(crate, rest[1:])
        for at in range(len(rest), 0, -1):
            where = "/".join([crate, part] + rest[:at])
            file = self.file(where)
            if file is not None and at == len(rest):
                return None
            if file is not None and file.has(rest[at]):
                return self.member(where, rest[at], rest[at + 1 :])
        if self.is_folder("/".join([crate, part] + rest)):
            return None
        # what the check writes of a function, in place of a file: the function's contract says it all; what follows the name of a module or of
        # a function alone is still to come
        function = [each.lstrip("+") for each in rest if each not in ("Reads", "Goals", "Given")]
        found, left = self.follow(self.code[crate], ["self"] + function)
        if part == "proofs" and len(function) == len(rest) and found is not None and not left:
            return None
        return Meaning(".".join(path), self.declared(crate, function).rests)

    def is_folder(self, path):
        return any(name.startswith(f"crates/{path}/") for name in self.texts)

    def member(self, where, name, behind=()):
        """A name of a file: a definition, a case of one, or what the file hands on, of that what stands behind the name."""
        file = self.file(where)
        if name in file.items:
            return Meaning(f"{where}.{name}", (("definition", where, name),))
        if name in file.cases:
            return Meaning(f"{where}.{name}", (("definition", where, file.cases[name]),))
        for each in file.imports:
            if each.local == name:
                return self.named([*each.path, *behind])
        return self.unresolved(f"{where}.{name}")
