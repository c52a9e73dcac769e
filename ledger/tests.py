"""What the ledger sees and what it does not: a small program in texts, and edits of the repository's own."""

import re
import unittest

from comparing import differences
from lines import Ledger, page
from main import ROOT, texts_of
from steps import uncalled_steps
from uncited import uncited

NUMBERS = """\
-- Numbers, and what is told of them.
use Rattle.std.specs.Prelude.{ℕ, ◌+◌, Bool, true, false, ◌≡◌, eqb, if◌then◌else◌}
use Rattle.low.specs.declared.TheConstants.{MOST, LEAST}
use Rattle.low.specs.inner.Halves.{half}

-- what a number is worth
abbrev pub worth : ℕ → ℕ
worth n = if eqb n LEAST then half n else n + MOST

pub data Told : Type 0 where
  nothing : Told
  worth_of : ℕ → Told

pub record Gives (n r : ℕ) : Type 0 where
  pub worth : r ≡ worth n
  pub least : eqb r LEAST ≡ false

unfoldable pub Always : Type 0
Always = (n : ℕ) → Gives n (worth n)
"""

TEXTS = {
    "crates.txt": "## numbers\n# what they are worth\nlow:\ntop: low\n",
    "crates/low/specs/Numbers.antt": NUMBERS,
    "crates/low/specs/inner/Halves.antt": "use Rattle.std.specs.Prelude.{ℕ, ◌/◌}\n\nabbrev pub half : ℕ → ℕ\nhalf n = n / 2\n",
    "crates/low/src/lib.rt": """\
//! Numbers.
#![tactic(auto)]
ghost use Rattle.std.specs.Prelude.{◌≡◌};
ghost use Rattle.low.specs.Numbers.{Gives};

mod inside;
pub mod streams;
pub use inside::worth;

pub const MOST: u8 = 9;
pub const LEAST: u8 = 1;

// A number that was told.
#[derive(Clone, Copy)]
pub enum Told {
    Nothing,
    Number(u8),
}

impl Told {
    pub fn least(self) -> bool
        ensures { result ≡ true }
    {
        true
    }
}
""",
    "crates/low/src/inside.rt": """\
ghost use Rattle.std.specs.Prelude.{◌≡◌, ◌<◌};
ghost use Rattle.low.specs.Numbers.{Gives};
use crate::{MOST, Told};

// What a number is worth.
pub fn worth(n: u8, told: Told) -> u8
    ensures most { result < MOST }
    ensures given { Gives n result }
{
    n
}
""",
    "crates/low/proofs/Laws.antt": """\
use Rattle.low.specs.Numbers.{Gives, worth, Always}
use Prim.Native.Nat.{ℕ}

pub all-worth : Always
unfolding Always
all-worth n = always-worth n

module _ (n : ℕ) where
  pub always-worth : Gives n (worth n)
  unfolding Gives
  always-worth = by_hand
    where
      by_hand : ℕ
      by_hand = n
""",
    "crates/low/src/streams.rt": """\
ghost use Rattle.std.specs.Prelude.{◌≡◌, List, ℕ};
ghost use Rattle.low.specs.Numbers.{worth};

pub trait Source {
    // What is left.
    ghost left: { Self → List ℕ };

    fn next(&mut self) -> [u8; 2]
        ensures { left self.new ≡ left self.old };
}

impl Source for &[u8] {
    ghost left = { λ s. s.now };

    fn next(&mut self) -> [u8; 2] {
        [0; 2]
    }
}

pub fn two<F: Fn(u8) -> [u8; 2], S: Source>(one: F, source: &mut S) -> [u8; 2]
    requires { worth 0 ≡ 1 }
    ensures { S.left source.new ≡ S.left source.old }
{
    source.next()
}

const fn three() -> u8 {
    3
}

pub const THREE: u8 = three();
""",
    "crates/top/src/lib.rt": """\
ghost use Rattle.low.specs.Numbers.{Always, worth};

/// What is always so.
pub fn it_always_holds()
    ensures always { Always }
    ensures twice { Always → Always }
{}
""",
    "docs/TRACE.md": """\
## Numbers
| a number is worth something | `Gives`; `all-worth`, `always-worth` (low/proofs/Laws) |
| that is all | `Gives` |
""",
    "rust/low/Cargo.toml": "[package]\nname = 'low'\n",
    "rust/low/tests/cases.rs": """\
mod inside;

#[test]
fn one() {}

#[test]
fn two() {
    let two = 2;
    assert_eq!(inside::two(), two);
}
""",
}

SPECS, LAWS, TRACE = "crates/low/specs/Numbers.antt", "crates/low/proofs/Laws.antt", "docs/TRACE.md"
CASES, MANIFEST = "rust/low/tests/cases.rs", "rust/low/Cargo.toml"
LIB, INSIDE, STREAMS, TOP = (f"crates/{name}.rt" for name in ("low/src/lib", "low/src/inside", "low/src/streams", "top/src/lib"))


def edited(texts, *edits):
    """The texts with a piece that stands once in a file replaced, for each edit."""
    texts = dict(texts)
    for path, old, new in edits:
        if texts[path].count(old) != 1:
            raise ValueError(f"{old} does not stand once in {path}")
        texts[path] = texts[path].replace(old, new)
    return texts


class SmallProgram(unittest.TestCase):
    def told(self, *edits):
        """What the ledger tells of edits, but for what rests on each change."""
        lines = differences(Ledger(TEXTS).entries(), Ledger(edited(TEXTS, *edits)).entries())
        return [line for line in lines if not line.startswith(" ")]

    def unseen(self, *edits):
        self.assertEqual(page(Ledger(edited(TEXTS, *edits)).entries()), page(Ledger(TEXTS).entries()))

    def test_what_hides_code_is_seen(self):
        for hiding in ("/* /* */", 'const X: &str = r#""#;'):
            with self.assertRaises(SystemExit):
                Ledger(edited(TEXTS, (TOP, "/// What is always so.", hiding)))
        for edit in ((LAWS, "pub all-worth", "{-\npub all-worth"), (TOP, "{ Always → Always }", "{ {- Always → -} Always }")):
            with self.assertRaises(SystemExit):
                Ledger(edited(TEXTS, edit))
        marks = """const {}: [char; 2] = [' ','"'];\n"""
        self.unseen((TOP, "/// What is always so.\n", marks.format("BEFORE")), (TOP, "{}\n", "{}\n" + marks.format("BEHIND")))
        went = self.told((STREAMS, "impl Source for", "#[cfg(test)]\nimpl Source for"))
        self.assertIn("went: the contract of low::streams::Source-for-&[u8]::next", went)

    def uncalled(self, row, *edits):
        """The laws that a row of the trace names and has to call steps."""
        texts = {**edited(TEXTS, *edits), TRACE: row + "\n"}
        return [line.split()[2].rstrip(",") for line in uncalled_steps(Ledger(texts))]

    def test_a_law_that_speaks_of_what_is_not_to_be_believed_is_called_a_step(self):
        edits = [
            (LAWS, "use Prim", "use Rattle.low.specs.inner.Halves.{half}\nuse Prim"),
            (LAWS, "  pub always-worth : Gives n (worth n)", "  pub always-worth : Gives n (half n)"),
        ]
        self.assertEqual(self.uncalled("| a | `always-worth` (low/proofs/Laws) |", *edits), ["low/proofs/Laws.always-worth"])
        self.assertEqual(self.uncalled("| a | by the step; `always-worth` (low/proofs/Laws) |", *edits), ["low/proofs/Laws.always-worth"])
        self.assertEqual(self.uncalled("| a | low/proofs/Laws |", *edits), ["low/proofs/Laws.always-worth"])
        self.assertEqual(self.uncalled("| a | by the step `always-worth` (low/proofs/Laws) |", *edits), [])
        self.assertEqual(self.uncalled("| Step | Law |\n|---|---|\n| a | `always-worth` (low/proofs/Laws) |", *edits), [])
        self.assertEqual(self.uncalled("| a | `all-worth`, `always-worth` (low/proofs/Laws) |"), [])

    def needless(self, *edits, **more):
        """What nothing cites after edits, with further files of proofs of the crate low, by their names."""
        texts = {**edited(TEXTS, *edits), **{f"crates/low/proofs/{name}.antt": text for name, text in more.items()}}
        return [line.split("/")[-1] for line in uncited(Ledger(texts))]

    def test_what_nothing_cites_is_told(self):
        planted = "pub planted : (n : ℕ) → Gives n n\nplanted n = always-worth n\n\n"
        plant = (LAWS, "pub all-worth : Always", planted + "pub all-worth : Always")
        self.assertEqual(self.needless(), [])
        self.assertEqual(self.needless(plant), ["Laws.planted"])
        self.assertEqual(self.needless(plant, (LAWS, "all-worth n = always-worth n", "all-worth n = planted n")), [])
        self.assertEqual(self.needless(plant, (TRACE, "`always-worth`", "`always-worth`, `planted`")), [])
        self.assertEqual(self.needless((TRACE, ", `always-worth`", "")), [])
        self.assertEqual(self.needless((TRACE, "`all-worth`, ", ""), (LAWS, "= by_hand", "= by_hand all-worth")), [])
        self.assertEqual(self.needless((TRACE, "`all-worth`, ", "")), ["Laws.all-worth"])

    def test_what_cites_itself_or_stands_behind_what_nothing_cites_is_told(self):
        again = "pub first : (n : ℕ) → Gives n n\nfirst n = second n\n\npub second : (n : ℕ) → Gives n n\nsecond n = first n\n"
        self.assertEqual(self.needless(Again=again), ["Again.first", "Again.second"])
        self.assertEqual(self.needless(Again="pub record Held (n : ℕ) : Type 0 where\n  pub low : n ≤ 9\n"), ["Again.Held"])

    def test_what_an_answer_cites_is_told_by_its_file(self):
        law = "pub low : (n : ℕ) → n ≤ 9\nlow n = omega arith\n"
        answer = "use Rattle.low.proofs.worth.Goals as goal\n\npub returns : goal.returns\nreturns c = low c.args.n\n"
        answer = "use Rattle.low.proofs.One.{low}\n" + answer
        self.assertEqual(self.needless(One=law, Other=law, **{"worth/Answers": answer}), ["Other.low"])
        self.assertEqual(self.needless(One=law, **{"worth/Answers": answer.replace("returns c = low", "returns low = low")}), ["One.low"])
        measure = answer.replace("Goals", "Given").replace("pub returns", "abbrev pub decreases").replace("returns c", "decreases c")
        self.assertEqual(self.needless(One=law, **{"worth/Invariants": measure}), [])

    def test_a_computed_case_stands_for_itself(self):
        case = "third : worth 3 ≡ 1\nunfolding worth\nthird = refl\n"
        self.assertEqual(self.needless(Cases=case), [])
        self.assertEqual(self.needless(Cases=case.replace("third :", "third : (n : ℕ) →")), ["Cases.third"])

    def test_each_promise_has_a_line(self):
        self.assertEqual(
            [" ".join(line.split()[:2]) for line in page(Ledger(TEXTS).entries()).splitlines() if not line.startswith("#")],
            [
                "law low/proofs/Laws.all-worth",
                "law low/proofs/Laws.always-worth",
                "definition low/specs/Numbers.Always",
                "definition low/specs/Numbers.Gives",
                "definition low/specs/Numbers.Told",
                "definition low/specs/Numbers.worth",
                "inner low/specs/inner/Halves.half",
                "declared low::LEAST",
                "declared low::MOST",
                "declared low::Told",
                "contract low::Told::least",
                "contract low::inside::worth",
                "declared low::streams::Source",
                "declared low::streams::Source-for-&[u8]::ghost",
                "contract low::streams::Source-for-&[u8]::next",
                "declared low::streams::Source::ghost",
                "contract low::streams::Source::next",
                "declared low::streams::THREE",
                "inner low::streams::three",
                "contract low::streams::two",
                "theorem top::it_always_holds.always",
                "theorem top::it_always_holds.twice",
                "sentences docs/TRACE.md#numbers",
                "tests rust/low/tests/cases.rs",
            ],
        )

    def test_layout_and_comments_are_not_seen(self):
        self.unseen((SPECS, "if eqb n LEAST then half n else n + MOST", "if eqb n LEAST -- the least\n\n    then half n\n  else n + MOST"))
        self.unseen((SPECS, "-- what a number is worth\n", ""), (INSIDE, "// What a number is worth.\n", "/// Another word.\n"))
        self.unseen((INSIDE, "(n: u8, told: Told)", "(\n    n: u8,\n    told: Told,\n)"), (LIB, "    Number(u8),\n", "    Number(u8)"))
        self.unseen((LIB, "#![tactic(auto)]\n", ""), (INSIDE, "    n\n", "    n + 0\n"))

    def test_a_renamed_import_is_not_seen(self):
        self.unseen((SPECS, "Halves.{half}", "Halves.{half as h}"), (SPECS, "then half n", "then h n"))
        self.unseen((SPECS, "Halves.{half}", "Halves as halves"), (SPECS, "then half n", "then halves.half n"))
        self.unseen((INSIDE, "{MOST, Told}", "{MOST, Told as Other}"), (INSIDE, "told: Told", "told: Other"))
        self.unseen((INSIDE, "Numbers.{Gives}", "Numbers.{Gives as Has}"), (INSIDE, "{ Gives n", "{ Has n"))

    def test_the_order_of_imports_and_of_definitions_is_not_seen(self):
        first, second = NUMBERS.splitlines()[2:4]
        self.unseen((SPECS, f"{first}\n{second}\n", f"{second}\n{first}\n"))
        self.unseen((LIB, "pub const MOST: u8 = 9;\npub const LEAST: u8 = 1;\n", "pub const LEAST: u8 = 1;\npub const MOST: u8 = 9;\n"))

    def test_a_proof_is_not_seen(self):
        self.unseen((LAWS, "= by_hand", "= by_another"), (LAWS, "  unfolding Gives\n", ""))

    def test_a_law_that_is_deleted_or_named_no_more(self):
        text = TEXTS[LAWS]
        self.assertEqual(self.told((LAWS, text[text.index("  pub always") :], "")), ["went: law low/proofs/Laws.always-worth"])
        self.assertEqual(self.told((TRACE, ", `always-worth`", "")), ["went: law low/proofs/Laws.always-worth"])

    def test_a_premise_of_a_law(self):
        changed = ["changed: law low/proofs/Laws.always-worth"]
        self.assertEqual(self.told((LAWS, "pub always-worth : ", "pub always-worth : n ≡ 0 → ")), changed)
        self.assertEqual(self.told((LAWS, "module _ (n : ℕ) where", "module _ (n : ℕ) (e : n ≡ 0) where")), changed)

    def test_a_theorem(self):
        changed = ["changed: theorem top::it_always_holds.always", "changed: theorem top::it_always_holds.twice"]
        self.assertEqual(self.told((TOP, "    ensures twice { Always → Always }\n", "")), ["went: theorem top::it_always_holds.twice"])
        self.assertEqual(self.told((TOP, "always { Always }", "always { worth 0 ≡ 1 → Always }")), changed[:1])
        self.assertEqual(self.told((TOP, "    ensures always", "    requires { worth 0 ≡ 1 }\n    ensures always")), changed)

    def test_a_theorem_that_says_what_a_law_says(self):
        before = edited(TEXTS, (TOP, "    ensures always { Always }\n", ""))
        told = differences(Ledger(before).entries(), Ledger(TEXTS).entries())
        self.assertEqual(told, ["came: theorem top::it_always_holds.always, in the words of law low/proofs/Laws.all-worth"])

    def test_a_definition_that_says_less(self):
        self.assertEqual(self.told((SPECS, "Gives n (worth n)\n", "Gives n n\n")), ["changed: definition low/specs/Numbers.Always"])
        self.assertEqual(self.told((SPECS, "  pub least : eqb r LEAST ≡ false\n", "")), ["changed: definition low/specs/Numbers.Gives"])
        self.assertEqual(self.told((SPECS, "  nothing : Told\n", "")), ["changed: definition low/specs/Numbers.Told"])
        inner = ("crates/low/specs/inner/Halves.antt", "n / 2", "n / 3")
        self.assertEqual(self.told(inner), ["changed: inner definition low/specs/inner/Halves.half"])

    def test_constants_that_are_swapped(self):
        changed = ["changed: the type, trait or constant low::LEAST", "changed: the type, trait or constant low::MOST"]
        self.assertEqual(self.told((LIB, "MOST: u8 = 9", "MOST: u8 = 1"), (LIB, "LEAST: u8 = 1", "LEAST: u8 = 9")), changed)
        self.assertEqual(self.told((SPECS, "eqb n LEAST", "eqb n MOST")), ["changed: definition low/specs/Numbers.worth"])

    def test_a_name_that_stands_for_another_thing(self):
        import_of_other = (SPECS, "{MOST, LEAST}", "{MOST as LEAST, LEAST as MOST}")
        changed = ["changed: definition low/specs/Numbers.Gives", "changed: definition low/specs/Numbers.worth"]
        self.assertEqual(self.told(import_of_other), changed)

    def test_what_moves_is_told_as_moved_and_not_as_another_text(self):
        half = "\nabbrev pub half : ℕ → ℕ\nhalf n = n / 2\n"
        moved = (("crates/low/specs/inner/Halves.antt", half, ""), (SPECS, "\n-- what a number", half + "\n-- what a number"))
        imports = ((SPECS, "use Rattle.low.specs.inner.Halves.{half}\n", ""), (SPECS, "◌+◌, Bool", "◌+◌, ◌/◌, Bool"))
        self.assertEqual(
            self.told(*moved, *imports),
            [
                "moved: inner definition low/specs/inner/Halves.half is now definition low/specs/Numbers.half",
                "changed: definition low/specs/Numbers.worth, where a name stands for what stands elsewhere",
            ],
        )

    def test_a_contract(self):
        changed = ["changed: the contract of low::inside::worth"]
        self.assertEqual(self.told((INSIDE, "    ensures given { Gives n result }\n", "")), changed)
        self.assertEqual(self.told((INSIDE, "    ensures most", "    requires { n < 5 }\n    ensures most")), changed)
        self.assertEqual(self.told((INSIDE, "n: u8, told", "n: u16, told")), changed)
        turned = self.told((LIB, "{ result ≡ true }", "{ true ≡ result }"))
        self.assertEqual(turned, ["changed: the contract of low::Told::least"])

    def test_a_trait_and_what_gives_it(self):
        contract = self.told((STREAMS, "{ left self.new ≡ left", "{ left self.old ≡ left"))
        self.assertEqual(contract, ["changed: the contract of low::streams::Source::next"])
        given = self.told((STREAMS, "λ s. s.now", "λ s. []"))
        self.assertEqual(given, ["changed: the type, trait or constant low::streams::Source-for-&[u8]::ghost"])
        self.assertEqual(self.told((STREAMS, "    requires { worth 0 ≡ 1 }\n", "")), ["changed: the contract of low::streams::two"])
        self.unseen((STREAMS, "    source.next()\n", "    [0; 2]\n"))
        self.assertEqual(self.told((STREAMS, "    3\n", "    4\n")), ["changed: inner definition low::streams::three"])

    def test_what_the_trace_names_is_there(self):
        other = edited(TEXTS, (TRACE, "`always-worth`", "`ever-worth`"))
        self.assertEqual(Ledger(other).program.unknown, {"low/proofs/Laws.ever-worth, which docs/TRACE.md names"})

    def test_a_file_that_the_trace_names_has_a_public_law(self):
        private = ((LAWS, "pub all-worth", "all-worth"), (LAWS, "pub always-worth", "always-worth"))
        other = edited(TEXTS, (TRACE, "`Gives`; `all-worth`, `always-worth` (low/proofs/Laws)", "low/proofs/Laws"), *private)
        self.assertEqual(Ledger(other).program.unknown, {"a law of low/proofs/Laws, which docs/TRACE.md names"})

    def test_a_crate_that_is_listed_no_more(self):
        self.assertIn("went: theorem top::it_always_holds.always", self.told(("crates.txt", "top: low\n", "")))

    def test_a_sentence_of_the_trace(self):
        changed = ["changed: the sentences of docs/TRACE.md#numbers"]
        row = "| that is all | `Gives` |\n"
        self.assertEqual(self.told((TRACE, row, "")), changed)
        self.assertEqual(self.told((TRACE, row, row.replace("is all", "is some"))), changed)
        self.assertEqual(self.told((TRACE, row, row.replace("`Gives`", ""))), changed)
        self.unseen((TRACE, row, row.replace("`Gives`", "`Gives`, `Told`")))

    def test_a_test_that_is_run_no_more(self):
        changed = [f"changed: the tests of {CASES}"]
        self.assertEqual(self.told((CASES, "#[test]\nfn two", "fn two")), changed)
        self.assertEqual(self.told((CASES, "#[test]\nfn two", "#[test]\n#[ignore]\nfn two")), changed)
        self.assertEqual(self.told((CASES, "mod inside;\n", "")), changed)
        self.unseen((CASES, "let two = 2;", "let two = 1 + 1;"))
        renamed = {path + "_" * (path == CASES): text for path, text in TEXTS.items()}
        self.assertIn(f"went: the tests of {CASES}", differences(Ledger(TEXTS).entries(), Ledger(renamed).entries()))
        self.assertEqual(self.told((MANIFEST, "[package]\n", "[package]\nautotests = false\n")), [f"came: the tests of {MANIFEST}"])

    def test_what_rests_on_a_change_is_told_below_the_lowest(self):
        inner = ("crates/low/specs/inner/Halves.antt", "n / 2", "n / 3")
        told = differences(Ledger(TEXTS).entries(), Ledger(edited(TEXTS, inner, (SPECS, "n + MOST", "MOST + n"))).entries())
        self.assertEqual(told[0], "changed: definition low/specs/Numbers.worth")
        self.assertEqual(told[1], "changed: inner definition low/specs/inner/Halves.half")
        self.assertIn("theorem top::it_always_holds.always", told[2])
        self.assertEqual(len(told), 3)


class Repository(unittest.TestCase):
    """Changes of the repository's own texts, all at once: each is named."""

    def setUp(self):
        self.texts = texts_of(ROOT)
        self.ledger = Ledger(self.texts)
        self.edits, self.wanted = [], []

    def edit(self, path, old, new, *wanted):
        self.edits.append((path, old, new))
        self.wanted += wanted

    def first(self, pattern, part):
        """Where a pattern first matches in a file of some kind."""
        found = ((path, re.search(pattern, text, re.M)) for path, text in self.texts.items() if part in path)
        return next((path, match) for path, match in found if match)

    def laws(self):
        """The laws that begin on one line, with that line."""
        for line in self.ledger.lines.values():
            where, _, name = line.path.partition(".")
            if line.kind == "law" and f"\npub {name} : " in self.texts[f"crates/{where}.antt"]:
                yield line.path, f"crates/{where}.antt", f"\npub {name} : "

    def test_changes_are_named(self):
        laws = sorted(self.laws())
        law, path, head = laws[0]
        self.edit(path, self.texts[path][self.texts[path].index(head) :].split("\n\n")[0], "", f"went: law {law}")
        law, path, head = laws[-1]
        self.edit(path, head, head + "1 ≡ 0 → ", f"changed: law {law}")
        path, match = self.first(r"^unfoldable pub (\w+) : Type 0\n\1 =", "/specs/")
        where = path[len("crates/") : -len(".antt")]
        self.edit(path, match[0], match[0] + " ⊤ ⊎", f"changed: definition {where}.{match[1]}")
        path, match = self.first(
            r"^pub const (\w+): u8 = (\d+);\n+(?:///.*\n)*pub const (\w+): u8 = (\d+);", "/frames/refusals.rt"
        )
        swapped = f"pub const {match[1]}: u8 = {match[4]}; pub const {match[3]}: u8 = {match[2]};"
        constants = (f"changed: the type, trait or constant text::frames::refusals::{match[at]}" for at in (1, 3))
        self.edit(path, match[0], swapped, *constants)
        turned = ("crates/text/src/digits.rt", "ensures { result ≡ digit_of c }", "ensures { digit_of c ≡ result }")
        self.edit(*turned, "changed: the contract of text::digits::digit")
        told = differences(self.ledger.entries(), Ledger(edited(self.texts, *self.edits)).entries())
        for line in self.wanted:
            self.assertIn(line, told)

    def test_no_handle_is_allowed(self):
        self.assertFalse((ROOT / "HANDLES").exists())


if __name__ == "__main__":
    unittest.main()
