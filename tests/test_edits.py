#!/usr/bin/env python3
"""tools/edits on made-up lines of rt, one for each way in which an edit can be refused. usage: python3 tests/test_edits.py"""
import contextlib
import importlib.machinery
import importlib.util
import io
import os
import sys
import tempfile
import unittest
from unittest import mock

HERE = os.path.dirname(os.path.abspath(__file__))
LOADER = importlib.machinery.SourceFileLoader("edits", os.path.join(HERE, "..", "tools", "edits"))
SPEC = importlib.util.spec_from_loader("edits", LOADER)
edits = importlib.util.module_from_spec(SPEC)
LOADER.exec_module(edits)

DIFFER = "./proofs/A.antt:3:4: error: `law`: as printed, the two types differ only where one has `8` (expected) and the other has `0` (found)"
FACTS = {
    DIFFER: "law: two types differ: `8` and `0`",
    "./proofs/A.antt:3:4: error: `law`: as printed, the two types first differ where one has `8` (expected), right after `{A = ℕ} (`, and the other has `0`": "law: two types differ: `8` and `0`",
    "./proofs/A.antt:3:4: error: `law`: computed as far as they go, the two types differ only where one has `c.args.n` (expected), right after `… (Rattle.a": "law: two types differ",
    "./proofs/A.antt:3:4: error: `law`: as printed, the two sides differ only where one has `size n` (left), right ": "law: two sides differ",
    "./proofs/A.antt:3:4: error: `law`: expected type `n ≤ 5`, but this has type `n ≤ 6`": "law: two types differ",
    "./proofs/f/Answers.antt:11:90: error: `returns`: computed as a goal is, one side reads `Prim.Native.Nat.suc (Prim.Native.Nat.◌-◌ (lib.L": "returns: two sides differ",
    "./proofs/f/Answers.antt:10:85: error: `returns`: `borrow.Table.Row.get 8 (Rattle.grid.proofs.count.Lts.T18).locals (Rattle.grid.proofs.cou": "returns: two sides differ",
    "./proofs/f/Answers.antt:3:4: error: `loop-i-preserved`: `omega`: the goal does not follow from what it read.": "loop-i-preserved: omega: the goal does not follow",
    "./proofs/f/Answers.antt:3:4: error: `overflow_cast-n`: `omega`: the part `.fits` of the goal does not follow from what it read. All of tha": "overflow_cast-n: omega: the goal does not follow",
    "./proofs/f/Answers.antt:5:4: error: `returns`: `search`: no proof of `Post`": "returns: search: no proof",
    "./proofs/f/Answers.antt:5:4: error: `returns`: `grind`: no proof of `Post`": "returns: grind: no proof",
    "./proofs/A.antt:3:4: error: `law`: `cc`: no chain of what is known leads from `a` to `b`": "law: cc: the two sides are not joined",
    "./proofs/A.antt:3:4: error: `law`: give a proof of that as the last argument, `rw L t` (`rw L ?` shows it as a hole's goal), or add what is mis": "law: the equation that is left does not hold",
    "note: src/lib.rt:3:1: it is not proved that what the function ensures holds when it returns (`returns-then-x`)": "not proved that what the function ensures holds when it returns (`returns-then-x`)",
    "note: src/lib.rt:3:1: it is not proved that what the function ensures holds when it returns (`returns`); the facts known there allow values at whi": "not proved that what the function ensures holds when it returns (`returns`)",
}
NO_FACTS = {
    "./specs/A.antt:3:4: error: `area`: `some` is not in scope": "a name that is not in scope",
    "./proofs/A.antt:13:1: error: this line starts at column 1, at or left of the enclosing block's column 1": "a text that does not parse",
    "./proofs/f/Answers.antt:8:14: error: `overflow_mul`: `goal.overflow_mul`: module `Rattle.a.proofs.f.Goals` has no `overflow_mul` that can be named": "a name that is not there",
    "./proofs/f/Answers.antt:8:14: error: `returns`: record `Rattle.a.proofs.f.Goals.Then1` has no field `args`": "a name that is not there",
    "./proofs/f/Answers.antt:9:4: error: `returns`: expected type `goal.add-k`, but this has type `goal.read`": "a part too many or too few",
    "./proofs/A.antt:3:4: error: `law`: `rw`: no occurrence of the path's left endpoint in the goal": "a rewriting that finds nothing",
    "./proofs/B.antt:9:1: error: `later`: `law` was not admitted (it has holes), so this cannot be checked": "what another error leads to",
    "./proofs/A.antt:3:4: error: `law`: `tally` counts no further": "something that this script does not know",
}
OTHERS = {
    "refused, as it must be": "something that this script does not know",
    "refused, as it must be (only because a proof file names what the edit took away, so this says little of the contract: change a value and keep "
    "the names): ./proofs/A.antt:3:4: error: `law`: record `Area` has no field `size`": "a name that is not there",
    "refused, as it must be (only by a limit of the prover, which gave no verdict, so this says less of the contract: choose a change that it refuses "
    "sooner): ./proofs/A.antt:3:4: error: antt ran out of stack": "a limit of the prover",
    "BAD EDIT: the prover cannot read the edited text, so no contract was tried: ./specs/A.antt:3:4: error: `area`: `some` is not in scope": "a text that does not parse, or a name that is not in scope",
    "BAD EDIT: an 'old:' text is in src/lib.rt 0 times, and not once": "not an edit that can be tried",
    "NOT TRIED: its check was killed, most likely for memory, so nothing is known of it: run this again": "not tried",
    "NOT REFUSED: the crate is still proved with this edit (one that means the same as before cannot be refused: remove it)": "not refused by the prover",
}
# what rt prints besides
NOISE = "rt: a: begins with what a check kept in /elsewhere/crates/a\ncrate a: modules loaded=3 checked=1\nlogic=proved functions=2\n"


class Judged(unittest.TestCase):
    def said(self, text):
        return edits.judge(edits.verdicts(NOISE + "rt: must-fail a/e.edit: " + text + "\n")["a", "e"])

    def test_facts(self):
        for text, want in FACTS.items():
            self.assertEqual(self.said("refused, as it must be: " + text)[1:], (want, True))

    def test_no_facts(self):
        for text, want in NO_FACTS.items():
            self.assertEqual(self.said("refused, as it must be: " + text)[1:], (want, False))

    def test_not_refused(self):
        for text, want in OTHERS.items():
            self.assertEqual(self.said(text), ("", want, False))

    def test_places(self):
        self.assertEqual(self.said("refused, as it must be: " + DIFFER)[0], "proofs/A.antt:3:4")
        self.assertEqual(self.said("refused, as it must be: note: src/lib.rt:3:1: it is not proved that the call may be made (`g-requires`)")[0], "src/lib.rt:3:1")

    def run_all(self, said, *names):
        """The status and the lines of the whole script, with an rt that says this."""
        with tempfile.TemporaryDirectory() as root:
            for path in ("crates/a/must-fail/e.edit", "crates/a/must-fail/f.edit", "crates/b/must-fail/g.edit"):
                os.makedirs(os.path.dirname(os.path.join(root, path)), exist_ok=True)
                open(os.path.join(root, path), "w", encoding="utf-8").close()
            with open(os.path.join(root, "rt"), "w", encoding="utf-8") as rt:
                rt.write("#!/bin/sh\necho \"$*\" >asked\ncat <<'END'\n" + NOISE + said + "END\nexit %d\n" % (said == ""))
            os.chmod(rt.name, 0o755)
            out = io.StringIO()
            path = root + os.pathsep + os.environ["PATH"]
            with mock.patch.object(edits, "ROOT", root), mock.patch.object(sys, "argv", ["edits", *names]), mock.patch.dict(os.environ, {"PATH": path}):
                with contextlib.redirect_stdout(out), contextlib.redirect_stderr(io.StringIO()), self.assertRaises(SystemExit) as ended:
                    edits.main()
            with open(os.path.join(root, "asked"), encoding="utf-8") as asked:
                self.assertEqual(asked.read().split(), ["must-fail", *names])
        return ended.exception.code, out.getvalue().splitlines()

    def test_all(self):
        refused = "rt: must-fail a/%s.edit: refused, as it must be: " + DIFFER + "\n"
        good = "   a/e: proofs/A.antt:3:4: law: two types differ: `8` and `0`"
        self.assertEqual(
            self.run_all(refused % "e" + "rt: must-fail a/f.edit: NOT REFUSED: the crate is still proved\n"),
            (1, [good, "NO a/f: not refused by the prover", "NO b/g: not tried", "3 edits read, 1 refused by a fact, 2 not"]),
        )
        self.assertEqual(self.run_all(refused % "e" + refused % "f", "a"), (0, [good, good.replace("/e", "/f"), "2 edits read, 2 refused by a fact, 0 not"]))
        self.assertEqual(self.run_all("", "c"), (1, ["0 edits read, 0 refused by a fact, 0 not"]))
        self.assertEqual(self.run_all(""), (1, ["NO a/e: not tried", "NO a/f: not tried", "NO b/g: not tried", "3 edits read, 0 refused by a fact, 3 not"]))


if __name__ == "__main__":
    unittest.main()
