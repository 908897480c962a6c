#!/usr/bin/env python3
"""Tests of the words of all tools, by hand: tools/test_command_line.py. None of them runs what a tool is for."""
import ast
import glob
import os
import subprocess
import sys
import tempfile
import unittest

HERE = os.path.dirname(os.path.realpath(__file__))
# (tests have the words of unittest, but test_page.py)
TESTS = {os.path.basename(name) for name in glob.glob(f"{HERE}/test_*.py")} - {"test_page.py"}
TOOLS = sorted(name for name in map(os.path.basename, glob.glob(f"{HERE}/*.py")) if os.access(f"{HERE}/{name}", os.X_OK) and name not in TESTS)
# A tool, its words, and what its line says.
MISTAKES = [
    ("archive.py platform.db --name a", "say where the rows are to go"),
    ("archive_fixes.py --phone 1", "--name, --database"),
    ("believed.py nowhere", "nowhere"),
    ("believed.py jt_view:nothing", "jt_view has no public call nothing"),
    ("believed.py --claim jt_view:nothing", "jt_view has no public call nothing"),
    ("believed.py --print", "say which name"),
    ("believed.py --print NothingOfThis", "specs/ defines no NothingOfThis"),
    ("build.py jt809", "jt809 is none of: jt808, dewfelt"),
    ("clauses.py", "say which crate"),
    ("clauses.py nowhere", "crates/ has no crate nowhere"),
    ("clauses.py jt_view nothing", "jt_view has no public call nothing"),
    ("compare_fences.py --program nothing", "nothing is not there"),
    ("compare_fences.py --tracks 0", "0 is no whole number from 1 on"),
    ("compare_languages.py one.md", "name two files, or none"),
    ("compare_languages.py one.md two.md", "one.md"),
    ("fence_picture.py --program /bin/true", "fence prints nothing"),
    ("fix.py nothing.csv", "nothing.csv"),
    ("fleet_trial.py", "PROGRAM"),
    ("page_cost.py", "PROGRAM"),
    ("fleet_trial.py README", "README is no program"),
    ("gate_times.py nothing.log", "nothing.log"),
    ("http_attacks.py nowhere", "nowhere is no folder"),
    ("http_attacks.py . --http here", "here is no ADDRESS:PORT"),
    ("kill_archive.py --kills some", "some is no whole number from 0 on"),
    ("kill_loop.py --edition 2011", "2011"),
    ("link_trials.py /bin/true drowned", "drowned is none of: stopped"),
    ("lock_model.py many", "many is no whole number from 1 on"),
    ("make_samples.py nowhere", "nowhere is no folder"),
    ("more_edits.py --look nowhere", "more-edits/nowhere has no edits"),
    ("open_times.py --phones 0", "0 is no whole number from 1 on"),
    ("package.py --version v1", "v1 is no version"),
    ("package.py --to nowhere", "nowhere is no folder"),
    ("package_trial.py old.deb new.deb", "old.deb is not there: tools/package.py makes it"),
    ("positions.py nothing.db", "nothing.db"),
    ("prose.py nowhere", "nowhere is no folder"),
    ("rows.py out.jsonl", "--dir"),
    ("rows.py out.jsonl --dir nowhere", "nowhere has neither http.read.token nor http.token"),
    ("run_documents.py --jt808 nothing", "nothing is not there"),
    ("run_documents.py --list nothing.md", "nothing.md"),
    ("store_share.py /bin/true /bin/true . --loads many", "many is no list of loads"),
    ("try.py jt809", "jt809 is none of: jt808, dewfelt"),
    ("try_tests.py nothing", "nothing is none of: "),
    ("unit_trial.py", "PROGRAM"),
    ("wrong_stores.py nothing", "nothing is none of: as it is"),
]


def run(words, folder, **more):
    """The status, and what was printed on standard output and standard error."""
    name, *others = words.split()
    ran = subprocess.run([sys.executable, f"{HERE}/{name}", *others], cwd=folder, stdin=subprocess.DEVNULL, capture_output=True, text=True, timeout=60, **more)
    return ran.returncode, ran.stdout, ran.stderr


class Words(unittest.TestCase):
    def setUp(self):
        self.folder = self.enterContext(tempfile.TemporaryDirectory(prefix="test-command-line-"))
        with open(f"{self.folder}/README", "w", encoding="ascii"):
            pass

    def mistake(self, words, text, **more):
        status, printed, said = run(words, self.folder, **more)
        self.assertEqual((status, printed), (2, ""), said)
        self.assertIn(text, said)
        self.assertEqual(said.count("\n"), 1, said)
        self.assertTrue(said.startswith(f"{words.partition('.py')[0]}: "), said)

    def test_help(self):
        for name in TOOLS:
            with self.subTest(name), open(f"{HERE}/{name}", encoding="utf-8") as file:
                head = ast.get_docstring(ast.parse(file.read()), clean=False).splitlines()[0]
                status, printed, said = run(f"{name} --help", self.folder)
                self.assertEqual((status, said), (0, ""))
                self.assertTrue(printed.startswith("usage: "), printed)
                self.assertIn(head, printed)

    def test_a_wrong_word(self):
        for name in TOOLS:
            with self.subTest(name):
                self.mistake(f"{name} --no-such-word", "--help has the words")

    def test_mistakes(self):
        for words, text in MISTAKES:
            with self.subTest(words):
                self.mistake(words, text)

    def test_no_kit(self):
        for words in ("build.py", "try.py dewfelt", "try_tests.py", "more_edits.py jt_value", "wrong_stores.py", "gate_times.py --record log"):
            with self.subTest(words):
                self.mistake(words, "rt, the command of a Rattle kit, is not on the path", env={**os.environ, "PATH": "/nowhere"})

    def test_what_reads_stops(self):
        ran = subprocess.Popen([sys.executable, f"{HERE}/believed.py"], stdout=subprocess.PIPE, stderr=subprocess.PIPE)
        ran.stdout.close()
        self.assertEqual((ran.stderr.read(), ran.wait()), (b"", 0))
        ran.stderr.close()


if __name__ == "__main__":
    unittest.main()
