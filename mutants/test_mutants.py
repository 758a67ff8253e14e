"""What may be changed, and what may not. Run: python3 -m unittest discover mutants"""

import os
import sys
import unittest

sys.dont_write_bytecode = True
sys.path.insert(0, os.path.dirname(os.path.abspath(__file__)))

import antt  # noqa: E402
import rattle  # noqa: E402
from code_operators import Body  # noqa: E402
from definition_operators import Right  # noqa: E402
from operators import Mutant  # noqa: E402
from said import heard, noticed_by  # noqa: E402
from sample import drawn, is_table  # noqa: E402

CODE = """// A comment with 1 + 2.
ghost use Rattle.std.specs.Prelude.{◌+◌, ◌≤◌};
pub const BLOCKED: u8 = 3;
const ROOM: usize = 2 * BLOCKED as usize + 1;
pub struct Pod { pub here: u8, pub there: u8, pub open: bool }

fn least(a: u8, b: u8) -> u8
    ensures { result ≤ 7 + b }
{
    if a < b { a } else { b }
}

pub fn told(p: Pod, m: &[u8; 9]) -> bool
    requires low { 1 ≤ 2 }
{
    let c = p;
    p.open & (least(c.here, 0x0F) != 3) & !p.open & (c.there == BLOCKED)
}

fn numbered(n: u32, p: Pod) -> u8 {
    match n {
        1 => opened(p),
        2 => closed(p),
        _ => none(p),
    }
}
"""
DEFINITIONS = """-- A comment with 1 + 2.
use Rattle.std.specs.Prelude.{ℕ, Bool, ◌&&◌, eqb, leb}
use Rattle.lists.specs.Lists.{every}

pub record Pod : Type 0 where
  pub here : ℕ
  pub there : ℕ

-- 3 of them
abbrev pub told : Pod → ℕ → Bool
told p n = eqb p.here 3
    && leb 1 n
"""


def code_mutants():
    module = rattle.read(CODE)
    functions = {function.name: function.params for function in module.functions}
    constants = rattle.values([module])
    lines = CODE.split("\n")
    bodies = [Body("crates/c/src/lib.rt", lines, f, module.structs, functions, constants) for f in module.functions]
    return [m for body in bodies for m in body.mutants()]


def definition_mutants():
    module = antt.read(DEFINITIONS)
    lines = DEFINITIONS.split("\n")
    rights = [Right("crates/c/specs/C.antt", lines, e, module, module.records, {}) for e in module.equations]
    return [m for right in rights for m in right.mutants()]


class Changes(unittest.TestCase):
    def test_code(self):
        self.assertEqual(
            {(m.line, m.old, m.new) for m in code_mutants()},
            {
                (10, "<", "<="), (10, "a < b", "!(a < b)"),
                (17, "p.open", "!p.open"), (17, "&", "|"), (17, "!=", "=="), (17, "!", ""), (17, "here", "there"),
                (17, "c.here, 0x0F", "0x0F, c.here"), (17, "0x0F", "0x10"), (17, "0x0F", "0x0E"),
                (17, "3", "4"), (17, "3", "2"), (17, "there", "here"), (17, "==", "!="),
                (17, "BLOCKED", "4"), (17, "BLOCKED", "2"),
                (22, "1", "0"), (22, "opened", "closed"), (23, "2", "3"),
            },
        )

    def test_a_constant_is_reckoned(self):
        self.assertEqual(rattle.values([rattle.read(CODE)]), {"BLOCKED": 3, "ROOM": 7})

    def test_definitions(self):
        self.assertEqual(
            {(m.line, m.old, m.new) for m in definition_mutants()},
            {
                (11, "eqb", "leb"), (11, "eqb p.here 3", "not (eqb p.here 3)"), (11, ".here", ".there"),
                (11, "3", "4"), (11, "3", "2"),
                (12, "&&", "||"), (12, "leb", "ltb"), (12, "leb", "eqb"), (12, "leb 1 n", "not (leb 1 n)"),
                (12, "1", "2"), (12, "1", "0"), (12, "1 n", "n 1"),
            },
        )

    def test_a_name_that_the_change_needs_is_taken(self):
        other = next(m for m in definition_mutants() if m.new == "||")
        self.assertIn(
            "use Rattle.std.specs.Prelude.{ℕ, Bool, ◌&&◌, eqb, leb, ◌||◌}\n", other.changed(DEFINITIONS)
        )

    def test_a_moved_text_is_not_changed(self):
        with self.assertRaises(ValueError):
            Mutant("crates/c/src/lib.rt", 10, 1, "<", "<=", "comparison").changed(CODE)

    def test_the_order_is_the_seeds(self):
        orders = [[m.key for m in drawn(code_mutants(), seed)] for seed in ("1", "1", "2")]
        self.assertEqual(orders[0], orders[1])
        self.assertNotEqual(orders[0], orders[2])


class Theorems(unittest.TestCase):
    def test_a_file_without_its_code_has_its_structs(self):
        text = (
            "// A pod.\nghost use Rattle.std.specs.Prelude.{◌≤◌};\nuse crate::choose::first;\nuse crate::name::Name;\n\n"
            "pub struct Pod {\n    pub name: Name,\n}\n\n"
            "impl Pod {\n    fn here(self) -> bool {\n        true\n    }\n}\n\n"
            "#[unsafe(no_mangle)]\npub fn told(p: Pod) -> u8\n    ensures { result ≤ 7 }\n{\n    1\n}\n"
        )
        left = "// A pod.\nuse crate::name::Name;\n\npub struct Pod {\n    pub name: Name,\n}\n\n\n"
        self.assertEqual(rattle.without_code(text), left)

    def test_tables_are_no_definitions(self):
        self.assertTrue(is_table("crates/rules/specs/PairsBuffer.antt"))
        self.assertFalse(is_table("crates/rules/specs/Buffer.antt"))


class Words(unittest.TestCase):
    def test_a_refusal_names_the_first_cause(self):
        text = (
            "./proofs/Earned.antt:9:1: error: `told`: `trail` was not admitted (it has holes or so), so\n"
            "./proofs/TwelveRows.antt:22:15: error: `twelve_rows`: expected\n"
            "fn rules::a: not proved\n"
            "fn rules::b: not proved; it calls `rules::a`, which is not proved\n"
            "logic=not-proved\n"
        )
        said = heard(1, text, "crates/rules")
        self.assertEqual((said.verdict, said.functions), ("refused", ["rules::a"]))
        self.assertEqual(said.first, "crates/rules/proofs/TwelveRows.antt:22: `twelve_rows`: expected")
        self.assertEqual(noticed_by("rules", said, {"rows"}), ["the twelve rows"])

    def test_text_that_is_no_code_is_uncompiled(self):
        code = "src/a.rt:1:2: error[unknown-name]: cannot find\n"
        definition = "./specs/A.antt:1:2: error: `a`: expected\nlogic=not-proved\n"
        self.assertEqual(heard(1, code, "crates/c").verdict, "uncompiled")
        self.assertEqual(heard(1, definition, "crates/c").verdict, "uncompiled")

    def test_what_could_not_be_shown(self):
        words = "it is not proved that what the function ensures holds when it returns (`returns`)"
        note = f"note: src/a.rt:4:1: {words}\n"
        index = "./proofs/f/Answers.antt:9:1: error: `bounds-a-i`: `omega`: the goal does not follow\n"
        for text, need in ((note, "what it ensures"), (index, "safety")):
            self.assertEqual(heard(1, text + "logic=not-proved\n", "crates/c").need, need)

    def test_only_a_proof_is_proved(self):
        self.assertEqual(heard(0, "logic=proved functions=3\n", "crates/c").verdict, "proved")
        itself_failed = "logic=proved functions=3\nrt: chose --jobs 2 for c\nlogic=not-proved\n"
        below_failed = "logic=not-proved\nrt: the library records did not build, so nothing above it was checked\n"
        self.assertEqual(heard(1, itself_failed, "crates/c").verdict, "refused")
        self.assertEqual(heard(1, below_failed, "crates/c").verdict, "unclear")
        self.assertEqual(heard(2, "rt: the toolchain failed\n", "crates/c").verdict, "unclear")
        self.assertEqual(heard(0, "", "crates/c").verdict, "unclear")


if __name__ == "__main__":
    unittest.main()
