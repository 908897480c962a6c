#!/usr/bin/env python3
"""Tests of tools/prose.py, and that docs/PROMISES.md has the figures of tools/believed.py --claim; by hand: tools/test_prose.py."""
import os
import re
import subprocess
import sys
import tempfile
import unittest

HERE = os.path.dirname(os.path.realpath(__file__))
sys.path.insert(0, HERE)
sys.dont_write_bytecode = True
import prose  # noqa: E402

TEXT = """# A heading of five words

One two three. Four `a.b! c` five, 1.5 of it ..
and ``six``! (Seven eight.) Nine.

    code in four words

- an item
  that goes on
- another one. With two sentences

| a | b c |
|---|---|
| d | e |

```
fenced code
```
## The HTTP interface
not counted here
### Nor here
aside
## Behind
it counts
"""


class Prose(unittest.TestCase):
    def test_paragraphs(self):
        file = prose.File("docs/OTHER.md", TEXT)
        self.assertEqual([line for line, _ in file.paragraphs], [3, 8, 10, 20, 22, 24])
        self.assertEqual([text for _, text in file.paragraphs][1:3], ["an item that goes on", "another one. With two sentences"])

    def test_words(self):
        file = prose.File("docs/OTHER.md", TEXT)
        self.assertEqual((file.words["tables"], file.words["code"], file.words["aside"]), (5, 6, 0))
        aside = prose.File("docs/MANUAL.md", TEXT)
        self.assertEqual(aside.words["aside"], 3 + 3 + 2 + 1)
        self.assertEqual(aside.counted() + aside.words["aside"], file.counted())

    def test_sentences(self):
        said = prose.sentences(prose.File("docs/OTHER.md", TEXT).paragraphs[0][1])
        self.assertEqual(said, ["One two three.", "Four `a.b! c` five, 1.5 of it .. and ``six``!", "(Seven eight.)", "Nine."])

    def ends(self, text):
        """The status, and what was printed."""
        with tempfile.TemporaryDirectory(prefix="test-prose-") as folder:
            os.mkdir(f"{folder}/docs")
            for name in ("README.md", "README.zh-CN.md", "docs/A.zh-CN.md"):
                with open(f"{folder}/{name}", "w", encoding="utf-8") as file:
                    file.write(text if name == "README.md" else "word " * 200)
            ran = subprocess.run([sys.executable, f"{HERE}/prose.py", "--short", folder], capture_output=True, text=True, timeout=60)
            return ran.returncode, ran.stdout.splitlines()

    def test_limits(self):
        self.assertEqual(self.ends("word " * 40 + "\n"), (0, [f"words=40 of {prose.WORDS}"]))
        self.assertEqual(self.ends("word " * 41 + "\n"), (1, ["README.md:1: a sentence of 41 words: word word word word word word ..", f"words=41 of {prose.WORDS}"]))
        self.assertEqual(self.ends("\nGo on. " * 60 + "\n\nA table\n\n| " + "word " * 60 + "|\n")[0], 0)
        self.assertEqual(self.ends("\nGo on now. " * 41 + "\n")[1][0], "README.md:2: a paragraph of 123 words: Go on now. Go on now. ..")
        self.assertEqual(self.ends("Go on.\n\n" * (prose.WORDS // 2 + 1))[0], 1)


class Figures(unittest.TestCase):
    def test_promises(self):
        ran = subprocess.run([sys.executable, f"{HERE}/believed.py", "--claim"], capture_output=True, text=True, timeout=120, check=True)
        told = re.findall(r"^(.*) \((\S+)\): \d+ files, (\d+) lines, and of types \d+ files, (\d+) lines$", ran.stdout, re.M)
        with open(f"{HERE}/../docs/PROMISES.md", encoding="utf-8") as file:
            rows = re.findall(r"^\| (.*?) \| `(\w+:\w+)` \| ([\d,]+) \| ([\d,]+) \|$", file.read(), re.M)
        self.assertEqual([(name, root, lines.replace(",", ""), types.replace(",", "")) for name, root, lines, types in rows], told)


if __name__ == "__main__":
    unittest.main()
