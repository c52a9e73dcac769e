"""The words of a text, without its layout and its comments: of definitions and clauses, and of code."""

import re

# A field is one word with its dot: `.mask` in `t.mask`, where `. ` ends what λ binds.
DEFINITION = re.compile(
    r"""\s+|--[^\n]*|(?P<word>"(?:[^"\\]|\\.)*"|\{-|\[\]|\.[^\s(){}\[\];,."]+|[(){}\[\];,.]|[^\s(){}\[\];,."]+)"""
)
CODE = re.compile(
    r"""\s+|//[^\n]*|(?P<word>/\*|[bc]*r#*"|[bc]?"(?:[^"\\]|\\.)*"|b?'(?:\\.[^']*|[^'\\\n])'|'\w+|\w+|::|->|=>|\S)""", re.S
)

CLOSING = {"(": ")", "[": "]", "{": "}", "<": ">"}
CLOSERS = (")", "]", "}")


def stop_at(unread, where):
    """What the reader does not follow might hide a promise."""
    if unread:
        raise SystemExit(f"promises: {unread} stands in {where}; comments in brackets and raw strings are not read")


def definition_words(text):
    """The words of definitions and clauses. A comment in brackets is not read, and may not stand there."""
    words = [found["word"] for found in DEFINITION.finditer(text) if found["word"]]
    stop_at("{-" if "{-" in words else None, "a definition or a clause")
    return words


def settled(words):
    """The words without those that the layout adds: what separates the last part from the end, and the first case from the beginning."""
    kept = []
    for at, word in enumerate(words):
        after = next((other for other in words[at + 1 : at + 3] if other != "\n"), "")
        if word in (";", ",") and after in CLOSERS or word == "|" and kept[-1:] == ["["]:
            continue
        kept.append(word)
    return kept


def settled_code(words):
    """The same of code, where `(T,)` is not `(T)`: a list of parameters stands behind a name or its own parameters."""
    kept, before = [], []
    for at, word in enumerate(words):
        if word == "(":
            before.append(kept[-1] if kept else "")
        elif word == ")":
            before.pop()
        after = words[at + 1] if at + 1 < len(words) else ""
        if word == "," and (after in ("]", "}") or after == ")" and (before[-1].isidentifier() or before[-1] == ">")):
            continue
        kept.append(word)
    return kept


class CodeWord:
    """A word of code, and where it stands."""

    def __init__(self, found):
        self.text = found["word"]
        self.start, self.end = found.span()


def code_words(text):
    """The words of code. A comment in brackets, which may nest, and a raw string are not read, and may not stand there."""
    words = [CodeWord(found) for found in CODE.finditer(text) if found["word"]]
    stop_at(next((word.text for word in words if re.fullmatch(r'/\*|[bc]*r#*"', word.text)), None), "code")
    return words


def end_of_group(words, at):
    """Behind the bracket that closes the one at a place of a list of code's words."""
    opening, depth = words[at].text, 0
    while at < len(words):
        depth += (words[at].text == opening) - (words[at].text == CLOSING[opening])
        at += 1
        if depth == 0:
            break
    return at
