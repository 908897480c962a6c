#!/usr/bin/env python3
"""Tests of tools/run_documents.py and tools/compare_languages.py, by hand: tools/test_documents.py. They want neither program."""
import os
import subprocess
import sys
import tempfile
import unittest

HERE = os.path.dirname(os.path.realpath(__file__))
sys.path.insert(0, HERE)
sys.dont_write_bytecode = True
import compare_languages  # noqa: E402
import run_documents  # noqa: E402

# In place of both programs: it serves on, or says its words.
PROGRAM = """#!/bin/sh
case "$1" in
serve) echo "http://127.0.0.1:8080/#token=12ab"; echo "time=2026-12-02T15:52:02+08:00 event=start milliseconds=7"; sleep 1; echo "session 1 ended"; exec sleep 100 ;;
fails) cat; exit 3 ;;
*) echo "said $*" ;;
esac
"""
# What prints what stands there.
RIGHT = r"""
    $ mkdir mine && cd mine           # a comment
    $ cat > fleet <<'END'
    secret 12
    END
    $ jt808 fails < fleet             # status 3
    secret 12
    $ word=7
    $ dewfelt page "$word" \
        --more
    said page 7 ..re
    $ ls ../jt808 ../samples/fleet ../tools/fix.py
    ..
    ../tools/fix.py
    $ dewfelt serve .
    http://127.0.0.1:8080/#token=5f0c..
    time=2026-12-01T15:52:02+08:00 event=start milliseconds=..

It prints

    ..
    session 1 ended

    $ sudo rm fleet
    $ printf 'a\n\nb\n'; pwd
    a
    b
    ..clone/mine

```
$ DEWFELT_PROGRAM=dewfelt ../try --version
said --version
```

    not run
"""
# What differs, and why.
WRONG = [
    ("$ echo one\n    two", "prints something else"),
    ("$ echo one", "prints something else"),
    ("$ true\n    one", "prints something else"),
    ("$ printf 'one\\ntwo\\n'\n    one", "prints something else"),
    ("$ false", "status 1"),
    ("$ true      # status 1", "status 0"),
    ("..\n    never", "nothing serves on"),
]


class Run(unittest.TestCase):
    def setUp(self):
        self.folder = self.enterContext(tempfile.TemporaryDirectory(prefix="test-documents-"))
        self.program = f"{self.folder}/program"
        with open(self.program, "w", encoding="ascii") as file:
            file.write(PROGRAM)
        os.chmod(self.program, 0o755)

    def run_text(self, text):
        with open(f"{self.folder}/TEXT.md", "w", encoding="utf-8") as file:
            file.write(text)
        words = [f"{HERE}/run_documents.py", f"{self.folder}/TEXT.md", "--jt808", self.program, "--dewfelt", self.program]
        ran = subprocess.run(words, capture_output=True, text=True)
        return ran.returncode, ran.stdout.splitlines(), ran.stderr

    def test_right(self):
        status, lines, said = self.run_text(RIGHT)
        self.assertEqual((status, lines[-1], said), (0, "10 ran, 0 differ", ""), "\n".join(lines))
        self.assertIn("not run, wants root: sudo rm fleet", "\n".join(lines))

    def test_wrong(self):
        status, lines, said = self.run_text("\n".join(f"\n    {it}\n" for it, _ in WRONG))
        self.assertEqual((status, lines[-1], said), (1, f"{len(WRONG) - 1} ran, {len(WRONG)} differ", ""), "\n".join(lines))
        why = [it.partition("DIFFERS (")[2].partition(")")[0] for it in lines if "DIFFERS" in it]
        self.assertEqual(why, [it for _, it in WRONG])

    def test_what_serves_on_and_prints_something_else(self):
        lines, run_documents.LINES = run_documents.LINES, 1
        try:
            served = run_documents.Served(f"{self.program} serve", self.folder, dict(os.environ))
            self.assertFalse(served.wait(["http://127.0.0.1:8080/", ".."]))
            self.assertTrue(served.wait(["..", "time=2026-01-01T00:00:00+08:00 event=start milliseconds=1"]))
            served.stop()
        finally:
            run_documents.LINES = lines


ENGLISH = """# Name

Text with `one`, of 1,024.

## Run

    $ jt808 view      # a comment
    frames=1

| What | How |
|---|---|
| first | `--first`, 3 MB |
| last | `--last`, `a|b` |

### Within

See [there](OTHER.md#place).

## Not in Chinese

`two`
"""
CHINESE = ENGLISH[: ENGLISH.index("## Not")].replace("Name", "名").replace("## Run", "## 运行").replace("a comment", "注").replace("first |", "一 |", 1)
CHINESE = CHINESE.replace("OTHER.md#place", "OTHER.zh-CN.md#处")
# A change of the Chinese text, and what is said of it.
CHANGES = [
    ("`one`", "one", "`one` in the section's text: not in CHINESE"),
    ("1,024", "1,025", "1,024 in the section's text: not in CHINESE"),
    ("3 MB", "4 MB", "3 in column 2: not in CHINESE"),
    ("$ jt808 view ", "$ jt808 check ", "the line $ jt808 check: not in ENGLISH"),
    ("frames=1\n", "", "the line frames=1: not in CHINESE"),
    ("`--last`", "`--first`", "`--last` in column 2: not in CHINESE"),
    ("| last | `--last`, `a|b` |\n", "", "a table of 2 rows, of 1 in CHINESE:10"),
    ("### Within\n", "", "the heading ### Within: not in CHINESE"),
    ("### Within\n", "## Within\n", "the heading ### Within: not in CHINESE"),
    ("OTHER.zh-CN.md", "THIRD.md", "a link to OTHER.md in the section: not in CHINESE"),
]


class Compare(unittest.TestCase):
    def compared(self, chinese):
        found = compare_languages.Compared(("ENGLISH", "CHINESE"))
        said = []
        found.say = lambda side, line, text: said.append(text)
        found.compare([compare_languages.part_of(compare_languages.sections(ENGLISH), "Run"), compare_languages.sections(chinese)])
        return said

    def test_nothing_is_lacking(self):
        self.assertEqual(self.compared(CHINESE), [])

    def test_what_is_lacking_is_said(self):
        for old, new, text in CHANGES:
            with self.subTest(text):
                self.assertIn(old, CHINESE)
                self.assertIn(text, self.compared(CHINESE.replace(old, new)))

    def test_the_documents_are_like_themselves(self):
        for name in run_documents.DOCUMENTS:
            found = compare_languages.Compared((name, name))
            found.compare([compare_languages.read(name), compare_languages.read(name)])
            self.assertEqual(found.differ, 0)

    def test_the_chinese_documents_have_what_the_english_ones_have(self):
        ran = subprocess.run([sys.executable, f"{HERE}/compare_languages.py"], capture_output=True, text=True)
        self.assertRegex(ran.stdout, r"^\d+ sections, \d+ tables, 0 differ\n$")


if __name__ == "__main__":
    unittest.main()
