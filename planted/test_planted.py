#!/usr/bin/env python3
"""Tests planted.py on a small repository of one crate: an edit that is refused, one that is proved, one that doesn't compile and
one that no longer applies; and what it reads in a check's lines. Run it as planted/test_planted.py; it takes about two minutes."""
import importlib.util
import os
import shutil
import subprocess
import sys
import tempfile
import types
import unittest

sys.dont_write_bytecode = True
HERE = os.path.dirname(os.path.realpath(__file__))
CODE = """//! Two numbers.
#![tactic(auto)]

ghost use Rattle.std.specs.Prelude.{◌≡◌, ◌≤◌};

/// The larger of two numbers.
pub fn larger(a: u8, b: u8) -> u8
    ensures a_in { a ≤ result }
    ensures b_in { b ≤ result }
{
    if a < b { b } else { a }
}

/// Zero.
pub fn zero() -> u8
    ensures { result ≡ 0 }
{
    0
}
"""
SMALLER = "file: src/lib.rt\nold: if a < b { b } else { a }\nnew: if a < b { a } else { b }\n"
ONE = "file: src/lib.rt\nold:     0\nnew:     1\n"
TOP_OF_ALL = "file: src/lib.rt\nold: if a < b { b } else { a }\nnew: if a < b { b } else if a > b { 255 } else { a }\n"
NO_CODE = "file: src/lib.rt\nold: if a < b { b } else { a }\nnew: if a < b { c } else { a }\n"
TWO = """use Rattle.std.specs.Prelude.{ℕ, ◌+◌}

abbrev pub two : ℕ
two = 2
"""
LAW = """
ghost use Rattle.small.specs.Two.{two};

/// Two is two.
pub fn law_two()
    ensures { two ≡ 2 }
{}
"""
THREE = "file: specs/Two.antt\nold: two = 2\nnew: two = 3\n"
SUM = "file: specs/Two.antt\nold: two = 2\nnew: two = 1 + 1\n"
CONSTANT = """
const NOTHING: u8 = 0;

/// Zero again.
pub fn nothing() -> u8
    ensures { result ≡ 0 }
{
    NOTHING
}
"""
SOMETHING = "file: src/lib.rt\nold: const NOTHING: u8 = 0;\nnew: const NOTHING: u8 = 1;\n"
ALSO_NOTHING = "file: src/lib.rt\nold:     NOTHING\nnew:     if NOTHING < 1 { NOTHING } else { 0 }\n"
CALLER = """
/// Zero, by a call.
pub fn again() -> u8
    ensures { result ≡ 0 }
{
    zero()
}
"""
SAME_CALLER = "file: src/lib.rt\nold:     zero()\nnew:     if zero() < 1 { zero() } else { 0 }\n"
TYPES = """impl Table {
    /// Puts it.
    pub fn put(&mut self, value: u8) -> bool
        ensures { result ≡ true }
    {
        true
    }
}

impl From<Failed> for Error {
    fn from(_failed: Failed) -> Error {
        Error::Memory
    }
}

#[cycle(parity)]
fn even(n: u8) -> bool
    ensures { result ≡ spec.even n }
{
    n == 0 || odd(n - 1)
}

#[cycle(parity)]
fn odd(n: u8) -> bool
    ensures { result ≡ spec.odd n }
{
    n > 0 && even(n - 1)
}
"""
BLOCKS = """impl Stack<Seq<u32>> {
    pub fn add(&mut self, number: u32) {
        self.push(number)
    }
}

impl<T: Drop> Stack<T> {
    pub fn len(&self) -> usize
        ensures { result ≡ length self.now }
    {
        self.items.len()
    }
}

impl<'a> fmt::Display for Stack<'a> {
    fn fmt(&self, to: &mut Formatter<'_>) -> fmt::Result {
        to.write_str("stack")
    }
}

pub trait Sink {
    /// Writes bytes.
    fn write(&mut self, bytes: &[u8]) -> bool
        ensures { result ≡ true };

    /// Writes bytes twice.
    final fn write_all(&mut self, bytes: &[u8]) -> bool
        ensures { result ≡ true }
    {
        self.write(bytes) && self.write(bytes)
    }
}
"""
GONE = "file: src/lib.rt\nold: if a <= b { b } else { a }\nnew: a\n"


def the_script():
    made = importlib.util.module_from_spec(importlib.util.spec_from_file_location("planted", f"{HERE}/planted.py"))
    made.__spec__.loader.exec_module(made)
    return made


class Planted(unittest.TestCase):
    def setUp(self):
        self.top = tempfile.mkdtemp(prefix="planted-test-")
        for folder in ("planted/small", "crates/small/src", "crates/small/must-fail"):
            os.makedirs(f"{self.top}/{folder}")
        shutil.copy(f"{HERE}/planted.py", f"{self.top}/planted")
        self.write("crates.txt", "small:\n")
        self.write("HANDLES", "Handles allowed: none.\n")
        self.write(".gitignore", "out/\n")
        self.write("crates/small/src/lib.rt", CODE)
        subprocess.run(["git", "init", "-q", self.top], check=True)
        subprocess.run(["git", "-C", self.top, "add", "-A"], check=True)

    def tearDown(self):
        shutil.rmtree(self.top)

    def write(self, path, text):
        with open(f"{self.top}/{path}", "w", encoding="utf-8") as it:
            it.write(text)

    def edit(self, name, text, folder="planted/small"):
        self.write(f"{folder}/{name}.edit", text)

    def tried(self, *words):
        """Returns the status, the last line and the whole of what planted.py says."""
        ran = subprocess.run(["python3", f"{self.top}/planted/planted.py", *words], capture_output=True, text=True)
        return ran.returncode, ran.stdout.rstrip("\n").split("\n")[-1], ran.stdout + ran.stderr

    def test_edits_apply(self):
        self.edit("smaller", SMALLER)
        self.edit("one", ONE, "crates/small/must-fail")
        self.assertEqual(self.tried("fast")[:2], (0, "2 edits looked at, 0 failed"))

    def test_an_edit_that_no_longer_applies(self):
        self.edit("gone", GONE)
        status, last, said = self.tried("fast")
        self.assertEqual((status, last), (1, "1 edits looked at, 1 failed"))
        self.assertIn("planted/small/gone.edit", said)
        status, last, _ = self.tried("together", "small")
        self.assertEqual((status, last), (1, "0 refused, 1 failed"))

    def test_the_same_edit_twice(self):
        self.edit("smaller", SMALLER)
        self.edit("again", SMALLER)
        self.assertEqual(self.tried("fast")[:2], (1, "2 edits looked at, 1 failed"))

    def test_a_folder_of_no_crate(self):
        os.makedirs(f"{self.top}/planted/large")
        self.assertEqual(self.tried("fast")[:2], (1, "0 edits looked at, 1 failed"))

    def test_refused_in_one_check(self):
        self.edit("smaller", SMALLER)
        self.edit("one", ONE, "crates/small/must-fail")
        status, last, said = self.tried("together", "--jobs", "2", "--all")
        self.assertEqual((status, last), (0, "2 refused, 0 failed"))
        self.assertIn("small: 2 edits, 1 checks of many, 0 of one", said)

    def test_one_that_is_proved_is_told(self):
        self.edit("proved", TOP_OF_ALL)
        self.edit("one", ONE)
        status, last, said = self.tried("together", "small")
        self.assertEqual((status, last), (1, "1 refused, 1 failed"))
        self.assertIn("small/proved.edit: NOT REFUSED", said)

    def test_one_that_does_not_compile_is_told(self):
        self.edit("no_code", NO_CODE)
        self.edit("one", ONE)
        status, last, said = self.tried("together", "small")
        self.assertEqual((status, last), (1, "1 refused, 1 failed"))
        self.assertIn("small/no_code.edit: BAD EDIT", said)

    def test_the_kits_own_way(self):
        self.edit("smaller", SMALLER)
        self.edit("proved", TOP_OF_ALL)
        self.assertEqual(self.tried("run", "small")[:2], (1, "1 refused, 1 failed"))

    def test_edits_of_a_definition(self):
        os.makedirs(f"{self.top}/crates/small/specs")
        self.write("crates/small/specs/Lib.antt", "pub mod Two\n")
        self.write("crates/small/specs/Two.antt", TWO)
        self.write("crates/small/src/lib.rt", CODE + LAW)
        self.edit("three", "only: small::law_two\n" + THREE)
        self.edit("one", ONE)
        status, last, said = self.tried("together", "small")
        self.assertEqual((status, last), (0, "2 refused, 0 failed"))
        self.assertIn("small/three.edit: refused by small::law_two", said)
        self.edit("sum", "only: small::law_two\n" + SUM)
        self.edit("lawless", THREE)
        status, last, said = self.tried("fast")
        self.assertEqual((status, last), (1, "4 edits looked at, 1 failed"))
        self.assertIn("planted/small/lawless.edit: it turns a definition", said)
        os.remove(f"{self.top}/planted/small/lawless.edit")
        status, last, said = self.tried("together", "small")
        self.assertEqual((status, last), (1, "2 refused, 1 failed"))
        self.assertIn("small/sum.edit: NOT REFUSED by small::law_two", said)

    def test_a_caller_is_not_refused_for_what_it_calls(self):
        self.write("crates/small/src/lib.rt", CODE + CALLER)
        self.edit("one", ONE)
        self.edit("same_caller", SAME_CALLER)
        status, last, said = self.tried("together", "small")
        self.assertEqual((status, last), (1, "1 refused, 1 failed"), said)
        self.assertIn("small/same_caller.edit: NOT REFUSED", said)

    def test_an_edit_of_a_constant_shares_no_check(self):
        self.write("crates/small/src/lib.rt", CODE + CONSTANT)
        self.edit("something", SOMETHING)
        self.edit("also_nothing", ALSO_NOTHING)
        self.edit("smaller", SMALLER)
        status, last, said = self.tried("together", "small")
        self.assertEqual((status, last), (1, "2 refused, 1 failed"))
        self.assertIn("small/something.edit: refused", said)
        self.assertIn("small/also_nothing.edit: NOT REFUSED", said)
        os.remove(f"{self.top}/planted/small/also_nothing.edit")
        self.edit("something", "only: small::nothing\n" + SOMETHING)
        status, last, said = self.tried("together", "small")
        self.assertEqual((status, last), (0, "2 refused, 0 failed"))
        self.assertIn("small/something.edit: refused by small::nothing", said)

    def test_what_changed(self):
        subprocess.run(["git", "-C", self.top, "-c", "user.name=t", "-c", "user.email=t@t", "commit", "-qm", "a"], check=True)
        self.assertEqual(self.tried("together", "--since", "HEAD")[:2], (0, "0 refused, 0 failed"))
        self.edit("one", ONE)
        self.assertEqual(self.tried("together", "--since", "HEAD")[:2], (0, "1 refused, 0 failed"))

    def test_wrong_words(self):
        for words in ((), ("faster",), ("together", "large"), ("fast", "small")):
            self.assertEqual(self.tried(*words)[0], 1)


class Complaints(unittest.TestCase):
    """Which function a line of a check complains of; no prover is asked."""

    def setUp(self):
        self.planted = the_script()
        self.put, self.convert, self.even, self.odd = self.planted.functions(TYPES, "src/table/putting.rt")

    def complains(self, where, place, what="error: `returns`: it does not follow"):
        return self.planted.complains(f"{where}: {what}", place)

    def test_where_bodies_begin(self):
        lines = TYPES.split("\n")
        self.assertEqual(lines[self.put.body - 1], "    {")
        self.assertEqual(lines[self.convert.body - 1], "    fn from(_failed: Failed) -> Error {")
        self.assertEqual(lines[self.odd.first - 1], "#[cycle(parity)]")

    def test_a_methods_proof_stands_with_its_type(self):
        self.assertTrue(self.complains("./proofs/table/Table/put/Answers.antt:7:5", self.put))
        self.assertTrue(self.complains("proofs/table/Table+bool/put/Answers.antt:7:5", self.put))
        self.assertTrue(self.complains("./proofs/errors/ErrorFromFailed/from/Answers.antt:7:5", self.convert))
        for other in ("table/Other/put", "table/Table/put_all", "table/putting/put", "errors/Error/from", "table/TableFrom/put"):
            self.assertFalse(self.complains(f"./proofs/{other}/Answers.antt:7:5", self.put), other)

    def test_what_is_no_complaint(self):
        own = "./proofs/table/Table/put/Answers.antt:7:5"
        self.assertFalse(self.complains(own, self.put, "error: `returns`: record `At` has no field `x`"))
        self.assertTrue(self.planted.complains(f"{own}: error: `returns`: record `At` has no field `x`", self.put, is_gone=True))
        self.assertFalse(self.planted.complains(f"{own}: error: `returns`: it does not follow", self.put, is_gone=True))
        self.assertFalse(self.complains(own, self.put, "error: `returns`: `other_spec` was not admitted"))
        self.assertFalse(self.complains(own, self.put, "note: the two sides may be different"))
        self.assertFalse(self.complains("note: src/table/putting.rt:3:5", self.put, "advice"))
        self.assertTrue(self.complains("note: src/table/putting.rt:3:5", self.put, "it is not proved that it holds (`returns`)"))
        self.assertTrue(self.complains("note: src/table/putting.rt:3:5", self.put, "`search` found no proof (`invariant_of-result`)"))
        self.assertFalse(self.complains("note: src/table/putting.rt:99:5", self.put, "it is not proved that it holds"))

    def test_what_the_prover_is_asked_for(self):
        crate = types.SimpleNamespace(name="small")
        names = [self.planted.name_of(crate, it) for it in (self.put, self.convert, self.even)]
        self.assertEqual(names, ["Table::put", "ErrorFromFailed::from", "small::table::putting::even"])
        root = self.planted.functions(CODE, "src/lib.rt")[0]
        self.assertEqual(self.planted.name_of(crate, root), "small::larger")

    def test_instances_and_what_a_trait_provides(self):
        add, sized, shown, all_of = self.planted.functions(BLOCKS, "src/stack.rt")
        crate = types.SimpleNamespace(name="small")
        names = [self.planted.name_of(crate, it) for it in (add, sized, shown, all_of)]
        self.assertEqual(names, ["Stack+Seq+u32::add", "Stack::len", "StackDisplay::fmt", "Sink::write_all"])
        self.assertTrue(self.complains("./proofs/stack/temporaries/Stack+Seq+u32/add/Answers.antt:7:5", add))
        self.assertTrue(self.complains("./proofs/stack/Sink/write_all/Answers.antt:7:5", all_of))

    def test_what_two_edits_can_have_caused_tells_of_none(self):
        lines = ["./proofs/table/putting/+parity/Answers.antt:7:5: error: `even-returns`: it does not follow"]
        self.assertEqual(self.planted.told_by(lines, {"a": {self.even}, "b": {self.put}}), {"a"})
        self.assertEqual(self.planted.told_by(lines, {"a": {self.even}, "b": {self.odd}}), set())
        lines.append("note: src/table/putting.rt:26:5: it is not proved that it holds (`returns`)")
        self.assertEqual(self.planted.told_by(lines, {"a": {self.even}, "b": {self.odd}}), {"b"})


if __name__ == "__main__":
    unittest.main()
