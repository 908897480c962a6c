#!/usr/bin/env python3
"""Tests of the pages and completions of tools/package.py, and of a package of programs that only say their words: tools/test_package.py."""
import os
import subprocess
import sys
import tempfile
import unittest

HERE = os.path.dirname(os.path.realpath(__file__))
sys.dont_write_bytecode = True
import completions  # noqa: E402
import manual_pages  # noqa: E402

MANUAL = """# Manual

[In another language](MANUAL.zh-CN.md)

For those who run it.

## serve

    alpha serve DIR --port P < FILE

`alpha` **serves**. See [the wire](WIRE.md).

| Word | What |
|---|---|
| `--port P` | the port |
| `a|b` | one of both |

- an item
- .another-one

## view

    $ beta view
    .a line

### Names

| Id | Name | Id | Name |
|---|---|---|---|
| 1 | one | 2 | two |
| 3 | three | | |

## Files

What both have.

## A tool

    tools/rows.py
"""
HELP = """alpha: a program

  alpha serve DIR [OPTIONS]   serve a folder
  alpha copy DIR FILE         copy it, [quickly]
  alpha --help                this text

Options.

  --port N                    the port: a number
  --quick                     don't wait
"""


class Pages(unittest.TestCase):
    def test_each_section_stands_where_it_belongs(self):
        for program, has, lacks in (("dewfelt", ["Files"], ["view", "A tool"]), ("jt808", ["Files"], ["serve", "A tool"])):
            page = manual_pages.page(MANUAL.replace("alpha", "dewfelt").replace("beta", "jt808"), program, "a program", ["x"], "1", "2026-12-02")
            for title in has:
                self.assertIn(f'.SH "{title.upper()}"\n', page)
            for title in lacks:
                self.assertNotIn(f'.SH "{title.upper()}"\n', page)
            self.assertIn(".SH DESCRIPTION\n.PP\nFor those who run it.\n", page)

    def test_marks_and_links(self):
        self.assertEqual(manual_pages.inline("`a-b` is **so**, [there](x.md)"), "\\fBa\\-b\\fR is \\fBso\\fR, there")
        self.assertEqual(manual_pages.inline(".a point\\"), "\\&.a point\\e")

    def test_code_is_printed_as_it_is(self):
        body = "\n".join(manual_pages.body("    $ beta view\n    .a line\n"))
        self.assertIn(".EX\n$ beta view\n\\&.a line\n.EE", body)

    def test_a_table_whose_columns_come_again(self):
        found = manual_pages.table(["| Id | Name | Id | Name |", "|---|---|---|---|", "| 1 | one | 2 | two |", "| 3 | three | | |"])
        self.assertEqual(found, [".TP", "1", "one", ".TP", "2", "two", ".TP", "3", "three"])

    def test_a_bar_within_code_ends_no_cell(self):
        self.assertEqual(manual_pages.cells("| `a|b` | one of both |"), ["`a|b`", "one of both"])

    def test_items(self):
        self.assertEqual(manual_pages.body("- an item\n- .another-one\n1. first\n"),
                         [".IP \\(bu 4", "an item", ".IP \\(bu 4", "\\&.another\\-one", ".IP 1. 4", "first"])


class Completions(unittest.TestCase):
    def test_words_of_a_help(self):
        words = completions.of_help("alpha", HELP)
        self.assertEqual(words.commands, {"serve": (["--port", "--quick", "DIR"], "serve a folder"), "copy": (["DIR", "FILE"], "copy it, [quickly]"), "--help": ([], "this text")})
        self.assertEqual(words.options, [("--port", "N", "the port: a number"), ("--quick", "", "don't wait")])

    def test_words_of_a_usage_line(self):
        words = completions.of_usage("alpha", "usage: alpha serve|make\n", MANUAL)
        self.assertEqual(words.commands, {"serve": (["--port"], ""), "make": ([], "")})
        self.assertEqual(words.options, [("--port", "P", "")])

    def test_bash_completes(self):
        text = completions.bash(completions.of_help("alpha", HELP))
        for line, wanted in (("alpha s", "serve"), ("alpha serve --p", "--port"), ("alpha serve --port 1", ""), ("alpha copy --p", "")):
            with self.subTest(line):
                script = f'{text}COMP_WORDS=({line}); COMP_CWORD={line.count(" ")}; _alpha; echo "${{COMPREPLY[*]}}"'
                self.assertEqual(subprocess.run(["bash", "-c", script], capture_output=True, text=True).stdout.strip(), wanted)

    def test_texts_are_quoted(self):
        words = completions.of_help("alpha", HELP)
        self.assertIn("'--port[the port\\: a number]:N: '", completions.zsh(words))
        self.assertIn("'copy:copy it, \\[quickly\\]'", completions.zsh(words))
        self.assertIn("-l quick -d 'don\\'t wait'", completions.fish(words))


class Package(unittest.TestCase):
    def setUp(self):
        self.folder = self.enterContext(tempfile.TemporaryDirectory(prefix="test-package-"))
        self.program("dewfelt", "[ \"$1\" = --version ] && echo 'dewfelt 0.1.0' || printf '  dewfelt serve DIR [OPTIONS]   serves\\n\\n  --links N   links\\n'")
        self.program("jt808", "echo 'usage: jt808 view|report'; exit 2")

    def program(self, name, text):
        with open(f"{self.folder}/{name}", "w", encoding="ascii") as file:
            file.write(f"#!/bin/sh\n{text}\n")
        os.chmod(f"{self.folder}/{name}", 0o755)

    def make(self, *words):
        named = ["--to", self.folder, "--dewfelt", f"{self.folder}/dewfelt", "--jt808", f"{self.folder}/jt808"]
        return subprocess.run([sys.executable, f"{HERE}/package.py", *named, *words], capture_output=True, text=True)

    def test_a_package(self):
        made = self.make("--version", "1.2")
        self.assertEqual((made.stdout, made.stderr), (f"{self.folder}/dewfelt_1.2_amd64.deb\n", ""))
        listed = subprocess.run(["dpkg-deb", "--contents", made.stdout.strip()], capture_output=True, text=True).stdout
        for name in ("usr/bin/dewfelt", "usr/bin/jt808", "usr/share/man/man1/jt808.1.gz", "usr/lib/systemd/system/dewfelt.service", "etc/default/dewfelt",
                     "usr/share/doc/dewfelt/copyright", "usr/share/doc/dewfelt/examples/service/dewfelt.toml", "usr/share/zsh/vendor-completions/_dewfelt"):
            self.assertRegex(listed, rf"root/root .* \./{name}\n")
        self.assertNotIn("var/lib", listed)
        told = subprocess.run(["dpkg-deb", "--field", made.stdout.strip()], capture_output=True, text=True).stdout
        self.assertIn("Version: 1.2\n", told)
        self.assertIn("may not be proved", told)

    def test_the_version_of_a_commit_comes_later_than_that_of_the_program(self):
        version = self.make().stdout.strip().split("_")[-2]
        self.assertRegex(version, r"^0\.1\.0\+\d{8}\.\d{6}\.[0-9a-f]{8}$")
        self.assertEqual(subprocess.run(["dpkg", "--compare-versions", version, "gt", "0.1.0"]).returncode, 0)

    def test_the_same_octets_at_each_time(self):
        one = self.make("--version", "1").stdout.strip()
        with open(one, "rb") as file:
            before = file.read()
        self.make("--version", "1")
        with open(one, "rb") as file:
            self.assertEqual(file.read(), before)

    def test_what_is_not_built(self):
        os.makedirs(f"{self.folder}/other/docs")
        with open(f"{self.folder}/other/docs/MANUAL.md", "w") as file:
            file.write(MANUAL)
        made = subprocess.run([sys.executable, f"{HERE}/package.py", "--in", f"{self.folder}/other"], capture_output=True, text=True)
        self.assertEqual((made.returncode, made.stdout), (2, ""))
        self.assertIn("crates/dewfelt/out/dewfelt is not built: tools/build.py dewfelt proves and builds it", made.stderr)


if __name__ == "__main__":
    unittest.main()
