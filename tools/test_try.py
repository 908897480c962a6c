#!/usr/bin/env python3
"""Tests of tools/try.py and tools/try_tests.py that build nothing: tools/test_try.py."""
import importlib.machinery
import importlib.util
import os
import subprocess
import sys
import tempfile
import unittest
import unittest.mock

HERE = os.path.dirname(os.path.realpath(__file__))
sys.dont_write_bytecode = True
import try_tests  # noqa: E402
import unproved  # noqa: E402

# (`try` is a word of Python)
LOADER = importlib.machinery.SourceFileLoader("trying", f"{HERE}/try.py")
trying = importlib.util.module_from_spec(importlib.util.spec_from_loader("trying", LOADER))
LOADER.exec_module(trying)

PROGRAMS = [
    ("view", "jt808-view"), ("check --hex", "jt808-view"), ("view --hex --hex", "jt808"), ("view --hexa", "jt808"),
    ("rehearse", "jt808-alone"), ("orders", "jt808-alone"), ("make 20000", "jt808-alone"), ("make 20001", "jt808"), ("make 0", "jt808"),
    ("make 07", "jt808"), ("make ²", "jt808"), ("rehearse twice", "jt808"), ("platform --port 1 --sessions 1", "jt808"), ("--help", "jt808"),
]


class Try(unittest.TestCase):
    def test_the_program_that_words_want(self):
        for words, name in PROGRAMS:
            with self.subTest(words):
                self.assertEqual(trying.part_of(words.split()).name, name)

    def test_a_part_stands_on_fewer_crates(self):
        view, alone, whole = (trying.part_of([it]).crates for it in ("view", "rehearse", "report"))
        self.assertTrue({"jt_view", "jt_codec"} <= set(view) < set(alone) < set(whole))
        self.assertNotIn("jt_sql", alone)

    def test_a_part_is_a_repository_of_its_own(self):
        part = trying.part_of(["view"])
        with tempfile.TemporaryDirectory() as room:
            self.assertEqual(part.place(room), f"{room}/crates/jt808")
            self.assertEqual(sorted(os.listdir(f"{room}/crates")), sorted([*part.crates, "jt808"]))
            with open(f"{room}/crates.txt") as file:
                self.assertEqual(sorted(line.partition(":")[0] for line in file), sorted([*part.crates, "jt808"]))

    def test_what_is_kept_is_taken(self):
        with tempfile.TemporaryDirectory() as kept:
            with unittest.mock.patch.object(trying, "KEPT", kept):
                place = trying.place_of(trying.part_of(["view"]))
                with open(place, "w"):
                    os.chmod(place, 0o755)
                self.assertTrue(trying.is_there(trying.part_of(["check"])))
                self.assertFalse(trying.is_there(trying.part_of(["fence"])))

    def test_other_sources_are_another_program(self):
        part = trying.part_of(["view"])
        before = trying.place_of(part)
        part.main += "\n"
        self.assertNotEqual(trying.place_of(part), before)


class Tests(unittest.TestCase):
    def test_every_crate_with_tests(self):
        found = try_tests.crates()
        self.assertEqual(len(found), len(set(found)))
        grepped = subprocess.run(["grep", "-rlF", "#[test]", "--include=*.rt", "crates"], cwd=unproved.ROOT, capture_output=True, text=True).stdout
        self.assertEqual({line.split("/")[1] for line in grepped.splitlines() if "/src/" in line}, set(found))

    def test_results_are_counted(self):
        said = "test a::b ... ok\ntest c ... FAILED\nnot a test ... ok at all\ntest result: FAILED. 1 passed; 1 failed\n"
        self.assertEqual(try_tests.RESULT.findall(said), ["ok", "FAILED"])

    def test_a_crate_that_is_not_built_counts_as_one_that_failed(self):
        for said, counted in ((("error: no", False), (0, 1)), (("test a ... ok\n", False), (1, 1)), (("test a ... FAILED\n", False), (0, 1)), (("test a ... ok\n", True), (1, 0))):
            run = try_tests.Run(["jt_value"])
            with unittest.mock.patch.object(run, "try_one", return_value=said), unittest.mock.patch("builtins.print"), unittest.mock.patch.object(try_tests, "tell"):
                run.run("jt_value")
            self.assertEqual((run.passed, run.failed), counted)


if __name__ == "__main__":
    unittest.main()
