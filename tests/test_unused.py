#!/usr/bin/env python3
"""tools/unused on a made-up tree: what is needed, what is not, and imports. usage: python3 tests/test_unused.py"""
import importlib.machinery
import importlib.util
import os
import unittest

HERE = os.path.dirname(os.path.abspath(__file__))
LOADER = importlib.machinery.SourceFileLoader("unused", os.path.join(HERE, "..", "tools", "unused"))
SPEC = importlib.util.spec_from_loader("unused", LOADER)
unused = importlib.util.module_from_spec(SPEC)
LOADER.exec_module(unused)

SPECS = """-- A head.
use Rattle.std.specs.Prelude.{ℕ, ◌+◌}

abbrev pub size : ℕ → ℕ
size n = n + n

infix 20 ◌of◌
abbrev pub ◌of◌ : ℕ → ℕ → ℕ
n of m = n

pub record Sound (n : ℕ) : Type 0 where
  pub low : size n ≡ n

pub data Way (n : ℕ) : Type 0 where
  w-here : Way n
"""
CODE = """#![tactic(auto)]

ghost use Rattle.std.specs.Prelude.{◌≡◌};
ghost use Rattle.a.specs.Size.{size};
// `Sound` is named in a comment alone
pub fn twice(n: u32) -> u32
    ensures { result ≡ size n }
{
    n + n
}
"""
LAWS = """use Rattle.std.specs.Prelude.{ℕ, ◌≡◌}
use mathlib.Core.Path.{refl}
use Rattle.a.specs.Size.{size}

module _ (n : ℕ) where
  pub size-same : size n ≡ size n
  unfolding size
  size-same = go
    where
      go : size n ≡ size n
      go = refl

  pub size-again : size n ≡ size n
  size-again = size-same
"""
ANSWERS = """use Rattle.a.proofs.Laws.{size-same}
use Rattle.a.proofs.twice.Goals as goal

pub returns-then-small : goal.returns-then-small
returns-then-small c = search rules

pub returns : goal.returns
returns c = size-same _
"""
INVARIANTS = """use Rattle.a.proofs.Laws.{size-again}
use Rattle.a.proofs.twice.Given as goal

abbrev half : ℕ → ℕ
half n = n

abbrev pub decreases-loop-i : goal.decreases-loop-i
decreases-loop-i l = size-again l.n
"""


def tree(changes=(), documents=("",), **more):
    texts = {
        "crates/a/specs/Size.antt": SPECS,
        "crates/a/src/lib.rt": CODE,
        "crates/a/proofs/Laws.antt": LAWS,
        "crates/a/proofs/twice/Answers.antt": ANSWERS,
        **more,
    }
    for path, old, new in changes:
        assert old in texts[path]
        texts[path] = texts[path].replace(old, new)
    return unused.Tree(texts, list(documents))


class Unused(unittest.TestCase):
    def names(self, *words, **more):
        return [name for _, name in tree(*words, **more).unneeded()]

    def test_unneeded(self):
        self.assertEqual(self.names(), ["size-again", "◌of◌", "Sound", "Way"])

    def test_what_only_an_unneeded_law_uses(self):
        self.assertEqual(self.names([("crates/a/proofs/twice/Answers.antt", "size-same _", "search rules")]), ["size-same", "size-again", "◌of◌", "Sound", "Way"])

    def test_what_answers_a_goal(self):
        # a measure and what it needs; beside it a definition that nothing needs
        path = "crates/a/proofs/twice/Invariants.antt"
        self.assertEqual(self.names(**{path: INVARIANTS}), ["half", "◌of◌", "Sound", "Way"])
        self.assertEqual(self.names([(path, "size-again l.n", "half l.n")], **{path: INVARIANTS}), ["size-again", "◌of◌", "Sound", "Way"])
        # a file of laws by the same name
        self.assertEqual(self.names(**{"crates/a/proofs/Answers.antt": "pub law : goal.law\nlaw = 1\n"}), ["law", "size-again", "◌of◌", "Sound", "Way"])

    def test_handed_to_the_search(self):
        head = "#[tactic(auto, using(crate::proofs::Laws::{}), unfolding(crate::specs::Size::{}))]\npub fn twice"
        path = "crates/a/src/lib.rt"
        laws = [("crates/a/proofs/Laws.antt", "size-again", "size_again")]
        self.assertEqual(self.names([*laws, (path, "pub fn twice", head.format("size_again", "Way"))]), ["◌of◌", "Sound"])

    def test_clauses(self):
        path = "crates/a/src/lib.rt"
        self.assertEqual(self.names([(path, "ensures { result ≡ size n }", "ensures known { Sound n }"), (path, "{size}", "{size, Sound}")]), ["size-again", "◌of◌", "Way"])
        self.assertEqual(tree([(path, "ensures { result", "ensures { result.0")]).idle_imports(), [])
        self.assertEqual(tree([(path, "ensures { result ≡ size n }", "ensures { IsOk result }")]).idle_imports(), [(path, "◌≡◌"), (path, "size")])

    def test_cited(self):
        self.assertEqual(self.names(documents=["| a row | `a/specs/Size`: `Sound.low`, `size-again` |", "`◌of◌`"]), ["Way"])

    def test_by_a_part(self):
        change = [("crates/a/proofs/Laws.antt", "go = refl", "go = refl-of (low, w-here, n of n)"), ("crates/a/proofs/Laws.antt", "{size}", "{size, low, w-here, ◌of◌}")]
        self.assertEqual(self.names(change), ["size-again"])

    def test_a_module_imported_whole(self):
        change = [("crates/a/proofs/twice/Answers.antt", "Laws.{size-same}", "Laws as L"), ("crates/a/proofs/twice/Answers.antt", "size-same _", "L.size-again _")]
        self.assertEqual(self.names(change), ["◌of◌", "Sound", "Way"])

    def test_imports(self):
        self.assertEqual(tree().idle_imports(), [])
        change = [("crates/a/proofs/Laws.antt", "{ℕ, ◌≡◌}", "{ℕ, ◌≡◌, ◌∙◌, sym as back}"), ("crates/a/src/lib.rt", "{size}", "{size, Sound}")]
        self.assertEqual(sorted(tree(change).idle_imports()), [("crates/a/proofs/Laws.antt", "back"), ("crates/a/proofs/Laws.antt", "◌∙◌"), ("crates/a/src/lib.rt", "Sound")])

    def test_report(self):
        lines, found = unused.report(tree())
        self.assertTrue(found)
        self.assertEqual(lines[0], "crates/a/proofs/Laws.antt: size-again is not needed")
        self.assertEqual(lines[-1], "8 declarations and 10 imports read, 4 declarations not needed, 0 imports not used")
        self.assertFalse(unused.report(tree(documents=["`size-again` `◌of◌` `Sound` `Way`"]))[1])


if __name__ == "__main__":
    unittest.main()
