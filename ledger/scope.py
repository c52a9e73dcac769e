"""The words of a text with each name as the full path of what it stands for."""

from program import Meaning
from words import settled, settled_code


class Scope:
    """What names mean in a file of definitions, or in the clauses of a file of code."""

    def __init__(self, program, imports, own=None, module=None):
        self.program, self.module = program, module
        self.words, self.files = {}, {}
        for each in imports:
            meaning = program.named(each.path)
            if meaning is None:
                self.files[each.local] = each.path
            else:
                self.name(each.local, meaning)
        if own:
            file = program.file(own)
            for name in list(file.items) + list(file.cases):
                self.name(name, program.member(own, name))

    def name(self, local, meaning):
        """An operator's parts stand for it too: `if`, `then` and `else` for `if◌then◌else◌`."""
        self.words.setdefault(local, []).append(meaning)
        parts = [part for part in local.split("◌") if part]
        if "◌" in local:
            for at, part in enumerate(parts):
                self.words.setdefault(part, []).append(meaning if len(parts) == 1 else Meaning(f"{meaning.word}#{at}", meaning.rests))

    def meanings(self, words, at):
        """What the word at a place means, and how many words it takes: a file with the name that follows counts as one."""
        word = words[at]
        if word in self.words:
            return self.words[word], 1
        if word in self.files:
            path = list(self.files[word])
            for taken in range(1, len(words) - at):
                if not words[at + taken].startswith("."):
                    break
                path.append(words[at + taken][1:])
                meaning = self.program.named(path)
                if meaning:
                    return [meaning], taken + 1
        if self.module:
            item, left = self.program.find(self.module, word)
            if getattr(item, "kind", "fn") != "fn":
                return [Meaning("::".join([item.key()] + left), (("code", item),))], 1
        return None, 1

    def resolved(self, words):
        """The words with their meanings, and what has to be read to know these. A label of a record stays."""
        words = settled(words)
        text, rests, spellings, at = [], set(), {}, 0
        while at < len(words):
            after = words[at + 1] if at + 1 < len(words) else ""
            before = words[at - 1] if at else ""
            is_label = (after == "=" and before in ("{", ";")) or (after == ":" and before == "pub")
            meanings, taken = (None, 1) if is_label else self.meanings(words, at)
            if meanings:
                word = "@" + "&".join(sorted(meaning.word for meaning in meanings))
                # two names for one thing are told apart, by which comes first
                known = spellings.setdefault(word, [])
                spelling = words[at : at + taken]
                if spelling not in known:
                    known.append(spelling)
                text.append(word + "~" * known.index(spelling))
                rests.update(rest for meaning in meanings for rest in meaning.rests)
            else:
                text += words[at : at + taken]
            at += taken
        return text, rests


def resolved_code(program, module, words):
    """The same of words of code: a path counts as one, and what stands before `:` is a label."""
    words = settled_code(words)
    text, rests, at = [], set(), 0
    while at < len(words):
        path = [words[at]]
        while words[at + 1 : at + 2] == ["::"] and at + 2 < len(words):
            path.append(words[at + 2])
            at += 2
        at += 1
        is_label = len(path) == 1 and words[at : at + 1] == [":"]
        named = path[0].isidentifier() and not is_label
        found, left = program.follow(module, path) if named else (None, [])
        if found is not None and hasattr(found, "key"):
            text.append("@" + "::".join([found.key()] + left))
            rests.add(("code", found))
        elif named and path[0] in module.uses:
            text.append("@" + "::".join(module.uses[path[0]] + path[1:]))
        else:
            text.append("::".join(path))
    return text, rests
