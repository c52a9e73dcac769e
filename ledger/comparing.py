"""What differs between a ledger that was written and the one that the texts make, in words."""

import re

from lines import Entry

WORDS = {
    "theorem": "theorem",
    "contract": "the contract of",
    "law": "law",
    "definition": "definition",
    "declared": "the type, trait or constant",
    "inner": "inner definition",
    "sentences": "the sentences of",
    "tests": "the tests of",
}
ORDER = list(WORDS)


def name(key):
    return re.split("::|[.]", key)[-1]


def words(key):
    kind, path = key.split(" ", 1)
    return f"{WORDS[kind]} {path}"


def written(text):
    """The lines of docs/promises.txt by kind and path, each with its digests."""
    found = {}
    for line in text.splitlines():
        if line and not line.startswith("#"):
            kind, path, *digests = line.split()
            found[f"{kind} {path}"] = Entry(*(digests + [""] * 3)[:3], below=())
    return found


def among(keys, new):
    """The first of what rests on a change: theorems and contracts before others, and of these what rests on the most."""
    keys = sorted(keys, key=lambda key: (ORDER.index(key.split()[0]), -len(new[key].below), key))
    named = ", ".join(words(key) for key in keys[:4])
    return f"{named}, {len(keys) - 4} more" if len(keys) > 4 else named


def moves(went, came, old, new):
    """What came with the words and the name of a thing that went, as pairs of both."""
    left = {}
    for key in went:
        left.setdefault((name(key), old[key].words), []).append(key)
    alike = ((key, left.get((name(key), new[key].words))) for key in came)
    return {key: others.pop(0) for key, others in alike if others}


def differences(old, new):
    """A line for each thing that went, came or has another text. A thing whose text is as it was, but not all that it rests on, is told
    below the lowest changes that it rests on."""
    went = [key for key in old if key not in new]
    came = [key for key in new if key not in old]
    moved = moves(went, came, old, new)
    told = [f"went: {words(key)}" for key in went if key not in moved.values()]
    laws = {entries[key].own: key for entries in (old, new) for key in entries if key.startswith("law ")}
    texts = {key: f"came: {words(key)}" for key in came}
    for key in came:
        if key.startswith("theorem ") and new[key].own in laws:
            texts[key] += f", in the words of {words(laws[new[key].own])}"
    texts.update((key, f"moved: {words(other)} is now {words(key)}") for key, other in moved.items())
    for key in new:
        if key in old and old[key].own != new[key].own:
            same = old[key].words == new[key].words
            texts[key] = f"changed: {words(key)}" + ", where a name stands for what stands elsewhere" * same
    lowest = {key for key in texts if not new[key].below & texts.keys()}
    resting = {}
    for key in new:
        if key not in texts and new[key].whole != old[key].whole:
            reasons = new[key].below & texts.keys()
            for reason in reasons & lowest or reasons:
                resting.setdefault(reason, []).append(key)
    for key, text in texts.items():
        told.append(text)
        if key in resting:
            told.append(f"    which changes what rests on it: {among(resting[key], new)}")
    return told
