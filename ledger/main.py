"""Writes docs/promises.txt, or with --check compares it with what the texts promise."""

import sys
from pathlib import Path

from comparing import differences, written
from held import SCRIPTS
from lines import Ledger, page
from steps import uncalled_steps
from uncited import uncited

ROOT = Path(__file__).resolve().parent.parent
LEDGER = "docs/promises.txt"


def texts_of(root):
    """The texts that promise something, by their paths: code, definitions, laws, tests, and the pages that name crates and laws."""
    paths = [root / "crates.txt", *root.glob("*.md"), *root.glob("controller/*.md"), *root.glob("docs/**/*.md")]
    for part in ("src", "specs", "proofs"):
        for ending in ("rt", "antt"):
            paths += root.glob(f"crates/*/{part}/**/*.{ending}")
    paths += [root / script for script in SCRIPTS if (root / script).exists()]
    paths += [*root.glob("rust/Cargo.toml"), *root.glob("rust/*/Cargo.toml")]
    for part in ("src", "tests", "examples"):
        paths += root.glob(f"rust/*/{part}/**/*.rs")
    return {path.relative_to(root).as_posix(): path.read_text(encoding="utf-8") for path in sorted(paths)}


def main(arguments):
    if arguments not in ([], ["--check"]):
        return "usage: ./promises [--check]"
    old = (ROOT / LEDGER).read_text(encoding="utf-8") if (ROOT / LEDGER).exists() else ""
    ledger = Ledger(texts_of(ROOT))
    entries = ledger.entries()
    for line in differences(written(old), entries):
        print(line)
    for name in sorted(ledger.program.unknown):
        print(f"not there: {name}")
    if ledger.program.unknown:
        return f"the texts name what is not there, so {LEDGER} cannot be made"
    steps = uncalled_steps(ledger)
    for line in steps:
        print(line)
    if steps:
        return "docs/TRACE.md names as promises what a reader cannot tell from the definitions to believe"
    needless = uncited(ledger)
    for line in needless:
        print(line)
    if needless:
        return "proofs say what no answer, law or page cites"
    if not arguments:
        (ROOT / LEDGER).write_text(page(entries), encoding="utf-8")
    elif page(entries) != old:
        return f"{LEDGER} says otherwise. If each of these is meant, run ./promises, look at its diff, and say in the commit why."
    return 0


if __name__ == "__main__":
    sys.exit(main(sys.argv[1:]))
