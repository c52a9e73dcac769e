"""What holds promises beside the checker: the tests that are run, and the sentences for which docs/TRACE.md names what carries them."""

import re

# what tells of a file of Rust or of code which of its tests are run, and of a manifest whose tests are
TELLING = r"#!?\[(test|cfg|ignore|should_panic|path)|(pub(\(\w+\))? )?mod \w+"
SCRIPTS = ("test", ".ci/run", "controller/test", "examples/c/check", "release/test", "second_compiler")
MANIFEST = r"(default-)?members|exclude|autotests|test|harness|path|required-features|\[+(lib|test|bin)\b"


def tests_of(path, text):
    """What says which tests of a file are run, their names among it."""
    lines = [line.strip() for line in text.splitlines()]
    if path in SCRIPTS:
        return [line for line in lines if line and not line.startswith("#")]
    if path.endswith(".toml"):
        return [line for line in lines if re.match(MANIFEST, line)]
    if "#[test]" not in text and "#[cfg(test)]" not in text and "/tests/" not in path:
        return []
    told, is_test = [], False
    for line in lines:
        if re.match(TELLING, line) or is_test and re.match(r"(pub )?fn ", line):
            told.append(line)
            is_test = line == "#[test]" or is_test and line.startswith("#")
    return told


def sentences(page):
    """The sentences of each section of the page, which the first cells of its rows are, by the section's heading."""
    found, heading = {}, ""
    for line in page.splitlines():
        if line.startswith("#"):
            heading = re.sub(r"\W+", "-", re.sub(r"\]\(.*?\)", "", line)).strip("-").lower()
        elif line.startswith("|") and not line.startswith("|---"):
            first, *others = (cell.strip() for cell in line.split("|")[1:-1])
            found.setdefault(heading, set()).add(first if any(others) else f"{first}, carried by nothing")
    return {heading: sorted(cells) for heading, cells in found.items()}
