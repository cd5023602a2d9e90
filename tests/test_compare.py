#!/usr/bin/env python3
"""tools/compare on two made-up trees with known answers. usage: python3 tests/test_compare.py"""
import importlib.machinery
import importlib.util
import os
import unittest

HERE = os.path.dirname(os.path.abspath(__file__))
LOADER = importlib.machinery.SourceFileLoader("compare", os.path.join(HERE, "..", "tools", "compare"))
SPEC = importlib.util.spec_from_loader("compare", LOADER)
compare = importlib.util.module_from_spec(SPEC)
LOADER.exec_module(compare)

OLD = {
    "crates/a/specs/Shapes.antt": """-- what a shape is
use Rattle.std.specs.Prelude.{◌≡◌}
use Rattle.std.specs.Old.{size}

pub data Side : Type 0 where
  left right : Side

-- a comment
unfoldable pub area : ℕ → ℕ → ℕ
area w h = w * h

abbrev pub twice : ℕ → ℕ
twice n = n + n

abbrev pub sized : ℕ → ℕ
sized n = size n

pub record Demand3 (n : ℕ) : Type 0 where
  pub linked : n ≡ 1
  pub tiled : n ≡ 2
  pub gone : n ≡ 3
""",
    "crates/a/specs/Gone.antt": """abbrev pub carried_along : ℕ
carried_along = 7
""",
    "crates/a/proofs/Laws.antt": """use Rattle.a.specs.Shapes.{area, twice}
use Rattle.a.specs.Gone.{carried_along}

module _ (n : ℕ) where
  pub law : area n 0 ≡ 0
  unfolding area
  law = refl

  helper : n ≡ n
  helper = refl

pub kept : carried_along ≡ 7
kept = go tt
  where
    go : Unit → carried_along ≡ 7
    go u = refl

pub goes : twice 1 ≡ 2
goes = refl

bound : ℕ
bound = 9

pub below : twice 1 < bound
below = lit
""",
    "crates/a/proofs/turn/Answers.antt": """use Rattle.a.proofs.turn.Goals as goal

returns : goal.returns
returns c = search rules
""",
    "crates/grid/src/lib.rt": """// the calls
#![tactic(auto)]

ghost use Rattle.a.specs.Shapes.{area};
use a::parts::put;

pub struct Header {
    pub rows: u32,
}

pub fn check(rows: u32) -> u32
    ensures { result ≡ area rows 1 }
{
    rows
}

pub fn build(rows: u32) -> u32
    requires { rows < 5 }
    ensures same { result ≡ rows }
{
    rows
}

fn quiet(a: u8) -> u8
    ensures { result ≡ a }
{
    put(a, [1, 2, 3]);
    a
}
""",
    "docs/PROMISES.md": """| Sentence | Answered by |
|---|---|
| an area | `a/specs/Shapes`: `area` |
| a law | `a/proofs/Laws`: `law`, `kept` |
""",
}

NEW = {
    # a changed definition, an import from elsewhere, a field changed, one added, one removed; comments and layout that do not count
    "crates/a/specs/Shapes.antt": """use Rattle.std.specs.Prelude.{◌≡◌}
use Rattle.std.specs.New.{size}

pub data Side : Type 0 where
  left right : Side

-- another comment
unfoldable pub area : ℕ → ℕ → ℕ
area w h =
    -- the other way round
    h * w

abbrev pub twice :
    ℕ → ℕ
twice n =
    n + n

abbrev pub sized : ℕ → ℕ
sized n = size n

pub record Demand3 (n : ℕ) : Type 0 where
  pub linked : n ≡ 4
  pub tiled : n ≡ 2
  pub new : n ≡ 3
""",
    # a renamed file
    "crates/a/specs/Kept.antt": """abbrev pub carried_along : ℕ
carried_along = 7
""",
    # the module's parameters change what stands in it; a proof that changed alone; a lemma that moved; a definition among the proofs
    "crates/a/proofs/Laws.antt": """use Rattle.a.specs.Shapes.{area, twice}
use Rattle.a.specs.Kept.{carried_along}

module _ (n m : ℕ) where
  pub law : area n 0 ≡ 0
  unfolding area
  law = refl

  helper : n ≡ n
  helper = refl

pub kept : carried_along ≡ 7
kept = go tt
  where
    go : Unit → carried_along ≡ 7
    go u = sym refl

bound : ℕ
bound = 10

pub below : twice 1 < bound
below = lit
""",
    "crates/a/proofs/Twice.antt": """use Rattle.a.specs.Shapes.{twice}

-- moved here
pub goes : twice 1 ≡ 2
goes = refl
""",
    "crates/a/proofs/turn/Answers.antt": """use Rattle.a.proofs.turn.Goals as goal

returns : goal.returns
returns c = omega arith
""",
    # a contract changed, a body changed, a trailing comma that does not count
    "crates/grid/src/lib.rt": """#![tactic(auto)]

ghost use Rattle.a.specs.Shapes.{area};
use a::parts::put;

pub struct Header {
    pub rows: u32,
    pub columns: u32,
}

pub fn check(rows: u32) -> u32
    ensures { result ≡ area rows 1 }
{
    rows + 0
}

pub fn build(rows: u32) -> u32
    requires { rows < 6 }
    ensures same { result ≡ rows }
{
    rows
}

fn quiet(a: u8) -> u8
    ensures { result ≡ a }
{
    put(
        a,
        [
            1,
            2,
            3,
        ],
    );
    a
}
""",
    "docs/PROMISES.md": OLD["docs/PROMISES.md"],
}


def names(found, kind, way):
    return sorted((b or a).name for a, b in found[kind][way])


class Compared(unittest.TestCase):
    maxDiff = None

    def setUp(self):
        self.found = compare.compare(OLD, NEW)

    def said(self, kind, **ways):
        want = {way: sorted(ways.get(way, [])) for way in compare.WAYS}
        self.assertEqual({way: names(self.found, kind, way) for way in compare.WAYS}, want)

    def test_definitions(self):
        self.said(
            "definition",
            changed=["area", "sized", "Demand3.linked"],
            added=["Demand3.new"],
            removed=["Demand3.gone"],
            moved=["carried_along"],
            untouched=["Side", "twice", "Demand3", "Demand3.tiled"],
        )

    def test_contracts(self):
        self.said("contract", changed=["build"], untouched=["check", "quiet"])
        self.said("function", changed=["check"], untouched=["quiet"])
        self.said("type", changed=["Header"])

    def test_statements(self):
        # `bound` is named in a statement, so its body is part of what is said
        self.said("statement", changed=["law", "helper", "bound"], moved=["goes"], untouched=["kept", "below", "returns"])
        self.said("proof", changed=["kept", "returns"], moved=["goes"], untouched=["below"])

    def test_the_same(self):
        found = compare.compare(OLD, OLD)
        for kind in compare.KINDS:
            for way in compare.WAYS[:-1]:
                self.assertEqual(found[kind][way], [])

    def test_fields_in_another_order(self):
        text = OLD["crates/a/specs/Shapes.antt"]
        one, two = "  pub linked : n ≡ 1\n", "  pub tiled : n ≡ 2\n"
        found = compare.compare(OLD, dict(OLD, **{"crates/a/specs/Shapes.antt": text.replace(one + two, two + one)}))
        self.assertEqual(names(found, "definition", "changed"), ["Demand3"])

    def changed(self, path, *turned):
        """The contracts and statements that are changed where a text of OLD is another."""
        text = OLD[path]
        for one, two in turned:
            self.assertIn(one, text)
            text = text.replace(one, two)
        found = compare.compare(OLD, dict(OLD, **{path: text}))
        return [names(found, kind, "changed") for kind in ("contract", "statement")]

    def test_clauses(self):
        code = "crates/grid/src/lib.rt"
        self.assertEqual(self.changed(code, ("same {", "equal {")), [["build"], []])
        self.assertEqual(self.changed(code, ("    ensures same { result ≡ rows }\n", "")), [["build"], []])
        self.assertEqual(self.changed(code, ("a.specs.Shapes", "a.specs.Others")), [["check"], []])
        self.assertEqual(self.changed(code, ("pub rows: u32,", "pub rows: u64,")), [[], []])

    def test_names_from_elsewhere(self):
        laws = "crates/a/proofs/Laws.antt"
        self.assertEqual(self.changed(laws, ("specs.Gone", "specs.Others")), [[], ["kept"]])
        whole = ("{area, twice}", "{area, twice, kind}"), ("twice 1 ≡ 2", "kind.first ≡ 2")
        with_kind = dict(OLD, **{laws: OLD[laws].replace(*whole[0]).replace(*whole[1])})
        other = dict(with_kind, **{laws: with_kind[laws].replace(", kind}", "}\nuse Rattle.a.specs.Others.{kind}")})
        self.assertEqual(names(compare.compare(with_kind, other), "statement", "changed"), ["goes"])
        self.assertEqual(names(compare.compare(with_kind, with_kind), "statement", "changed"), [])

    def test_operators(self):
        shapes = "crates/a/specs/Shapes.antt"
        other = dict(OLD, **{shapes: OLD[shapes].replace("std.specs.Prelude", "std.specs.Other")})
        self.assertEqual(names(compare.compare(OLD, other), "definition", "changed"), ["Demand3.gone", "Demand3.linked", "Demand3.tiled"])

    def test_blocks(self):
        """Methods by their type, whatever lifetimes, traits and ghost items stand around them, and what follows a block."""
        text = """
pub trait Sink: Sized {
    ghost took: { Self → Self };

    fn take(&mut self, n: u16)
        ensures { took self.old ≡ self.new };
}

impl Sink for Numbers<'_> {
    ghost took = { kept };

    fn take(&mut self, n: u16) {
        self.at += 1;
    }
}

impl<T: Copy> Scan<'_, T> {
    ghost use Rattle.std.specs.Prelude.{length};

    pub fn count(&self) -> usize
        ensures { result ≡ 1 }
    {
        1
    }
}

pub fn after(x: u32) -> u32 {
    x
}
"""
        names = [item.name for item in compare.code_items(("a", "src", "lib"), text)]
        self.assertEqual(names, ["Sink", "Numbers::take", "Scan::count", "after"])

    def test_report(self):
        text = compare.report(self.found, OLD["docs/PROMISES.md"], NEW["docs/PROMISES.md"], False)
        self.assertIn("| definitions | 3 | 1 | 1 | 1 | 4 |", text)
        self.assertIn("- definition changed: `a/specs/Shapes`: `area` (an area)", text)
        self.assertIn("- contract changed: `grid/src/lib`: `build` (public call)", text)
        self.assertIn("- definition changed: `a/specs/Shapes`: `Demand3.linked` (field of `Demand3`)", text)
        self.assertIn("**`kept`**", text)
        self.assertNotIn("untouched (", text)
        self.assertIn("untouched (", compare.report(self.found, "", "", True))


if __name__ == "__main__":
    unittest.main()
