"""A file of definitions or of laws (.antt), read: what it imports, and what it declares."""

from words import CLOSERS, definition_words

KINDS = {"abbrev", "unfoldable", "opaque", "record", "data", "ruleset", "pub"}


class Import:
    """A name of another file, or a file, and what it is called here."""

    def __init__(self, path, local, public):
        self.path, self.local, self.public = path, local, public


def imports_of(words):
    """What a line `use A.B.{c, d as e}` or `use A.B as z` imports; the words may begin with `pub`."""
    public = words[0] == "pub"
    words = words[words.index("use") + 1 :]
    stop = next((at for at, word in enumerate(words) if word in (".", "as")), len(words))
    path = [word.lstrip(".") for word in words[:stop]]
    rest = words[stop:]
    if rest[:1] != ["."]:
        return [Import(path, rest[1] if rest else path[-1], public)]
    found = []
    for name in " ".join(rest[2 : rest.index("}")]).split(","):
        parts = name.split()
        if parts:
            found.append(Import(path + [parts[0]], parts[-1], public))
    return found


class Item:
    """A definition or a law. A break in its words is the beginning of an equation, a field or a case, which layout alone tells."""

    def __init__(self, kind, name, statement, words):
        self.kind, self.name, self.statement, self.words = kind, name, statement, words


class Lines:
    """The lines of a text that say something, with how far each is set in."""

    def __init__(self, text):
        self.at = 0
        self.lines = []
        for line in text.splitlines():
            words = definition_words(line)
            if words:
                self.lines.append((len(line) - len(line.lstrip()), words))

    def depth(self):
        return self.lines[self.at][0] if self.at < len(self.lines) else -1

    def words(self):
        return self.lines[self.at][1]

    def take(self):
        self.at += 1
        return self.lines[self.at - 1]


def is_import(words):
    return words[0] in ("use", "module", "mod") or words[:2] in (["pub", "use"], ["pub", "mod"])


def begins(words):
    """Whether a line begins an item: `pub NAME`, `NAME : ..`."""
    return is_import(words) or words[0] in KINDS or words[1:2] == [":"]


def with_breaks(lines):
    """The words of an item's lines, with a break before each that begins an equation, a field or a case."""
    words, blocks = [], [lines[0][0]]
    for depth, line in lines:
        while depth < blocks[-1]:
            blocks.pop()
        if words[-1:] == ["where"]:
            blocks.append(depth)
        if depth == blocks[-1] and line[0] not in CLOSERS:
            words.append("\n")
        words += line
    return words


class DefinitionFile:
    """All that a file imports, and its items by name; those of one name, in several of its modules, together."""

    def __init__(self, text):
        self.imports, self.items, self.cases, self.public = [], {}, {}, []
        self.read(Lines(text), 0, [])

    def has(self, name):
        return name in self.items or name in self.cases or any(each.local == name for each in self.imports)

    def read(self, lines, depth, around):
        """The lines that are set in as far; around them stand modules, whose parameters are premises of what they hold."""
        while lines.depth() >= depth:
            here, words = lines.take()
            if words[0] == "module":
                while words[-1] != "where" and lines.depth() > here:
                    words = words + lines.take()[1]
                if lines.depth() > here:
                    self.read(lines, lines.depth(), around + words)
            elif "use" in words[:2]:
                while lines.depth() > here:
                    words = words + lines.take()[1]
                self.imports += imports_of(words)
            elif not is_import(words):
                self.declare(here, words, lines, around)

    def declare(self, depth, words, lines, around):
        """An item: the lines that are set in further, and the equations and brackets below its head."""
        taken = [(depth, words)]
        while lines.depth() > depth or lines.depth() == depth and not begins(lines.words()):
            taken.append(lines.take())
        kinds = [word for word in words[:2] if word in KINDS and word != "pub"]
        kind, name = kinds[0] if kinds else "law", next(word for word in words if word not in KINDS)
        starts = (at for at, (here, line) in enumerate(taken) if at and here == depth and line[0] in (name, "unfolding"))
        body = next(starts, len(taken))
        statement, whole = around + with_breaks(taken[:body]), around + with_breaks(taken)
        if name in self.items:
            statement, whole = self.items[name].statement + statement, self.items[name].words + whole
        self.items[name] = Item(kind, name, statement, whole)
        if kind == "law" and words[0] == "pub":
            self.public.append(name)
        if kind == "data":
            self.cases.update((line[0], name) for here, line in taken[1:] if here == taken[1][0])
