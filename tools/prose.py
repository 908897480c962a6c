#!/usr/bin/env python3
"""Counts the words of README and docs, and lists what is too long to read: sentences over 40 words, paragraphs over 120.

    tools/prose.py             of this repository
    tools/prose.py FOLDER      of README.md and docs/*.md of another folder

A line a file: its words outside tables and code, in tables, in code, all of them, and its longest sentence and paragraph. Then each
sentence and paragraph that is too long, with file and line; tables and code have none. A sentence ends at a full stop, an exclamation
mark or a question mark before a space; an item of a list is a paragraph. Words are what stands between spaces and has a letter or a
digit, so that wc -w counts more in tables. Texts in Chinese (*.zh-CN.md) are left out, and of docs/MANUAL.md the words under the
heading 'The HTTP interface' do not count.

Status 1 where a sentence or paragraph is too long, or where all words are more than the limit. It runs behind `rt ci` in .ci/run.
"""
import glob
import os
import re
import sys

HERE = os.path.dirname(os.path.realpath(__file__))
sys.path.insert(0, HERE)
sys.dont_write_bytecode = True
import command_line  # noqa: E402

SENTENCE, PARAGRAPH = 40, 120
# The limit is to be 15,000. Until documents are as short, it is the figure that they have reached: lower it with each that is cut.
WORDS = 17_300
ASIDE = ("docs/MANUAL.md", "The HTTP interface")
HEADING = re.compile(r"(#+)\s+(.*?)\s*#*$")
PICTURE = re.compile(r"\s*(!\[[^\]]*\]\([^)]*\)|<[^>]*>)\s*$")
ITEM = re.compile(r"^\s*(?:[-*+]|\d+\.)\s+")
END = re.compile(r"(?<=[^.\s][.!?])[*)'\"]*\s+|(?<=[^.\s][.!?])[*)'\"]+$")


def count(text):
    """The words of a text; signs alone, as the bars of a table, are none."""
    return sum(any(map(str.isalnum, word)) for word in text.split())


class File:
    """A document: its words by kind, and its paragraphs outside tables and code, each with the line at which it begins."""

    def __init__(self, name, text):
        self.name, self.paragraphs = name, []
        self.words = {"text": 0, "tables": 0, "code": 0, "aside": 0}
        fenced, in_list, aside, before = False, False, 0, "blank"
        for number, line in enumerate(text.split("\n"), 1):
            heading = None if fenced else HEADING.match(line)
            if heading and name == ASIDE[0]:
                depth = len(heading.group(1))
                aside = depth if heading.group(2) == ASIDE[1] else 0 if depth <= aside else aside
            fence = line.lstrip().startswith("```")
            fenced ^= fence
            if not line.strip():
                before = "blank" if not fenced else before
                continue
            indented = line.startswith("    ") and not in_list and before in ("blank", "code")
            kind = "code" if fence or fenced or indented else "tables" if line.startswith("|") else "text"
            self.words["aside" if aside else kind] += count(line)
            if kind != "text" or heading or PICTURE.match(line):
                in_list = in_list and kind == "code"
                before = kind if kind != "text" else "heading"
                continue
            if ITEM.match(line):
                self.paragraphs.append([number, ITEM.sub("", line)])
                in_list = True
            elif before == "text":
                self.paragraphs[-1][1] += " " + line.strip()
            else:
                self.paragraphs.append([number, line.strip()])
                in_list = in_list and line.startswith(" ")
            before = "text"

    def counted(self):
        """The words that count."""
        return self.words["text"] + self.words["tables"] + self.words["code"]


def sentences(paragraph):
    """The sentences of a paragraph. What stands in code has no end of a sentence."""
    masked = re.sub(r"`[^`]*`", lambda code: re.sub(r"[.!?]", "_", code.group()), paragraph)
    ends = [0, *(found.end() for found in END.finditer(masked)), len(masked)]
    return [paragraph[start:end].strip() for start, end in zip(ends, ends[1:]) if paragraph[start:end].strip()]


def documents(folder):
    """README.md and docs/*.md, those in Chinese left out."""
    names = ["README.md", *sorted(os.path.relpath(name, folder) for name in glob.glob(os.path.join(folder, "docs", "*.md")))]
    files = []
    for name in names:
        if not name.endswith(".zh-CN.md"):
            with open(os.path.join(folder, name), encoding="utf-8") as file:
                files.append(File(name, file.read()))
    return files


def too_long(file):
    """What is too long in a file, as (line, words, what, first words)."""
    for line, paragraph in file.paragraphs:
        if count(paragraph) > PARAGRAPH:
            yield line, count(paragraph), "paragraph", paragraph
        for sentence in sentences(paragraph):
            if count(sentence) > SENTENCE:
                yield line, count(sentence), "sentence", sentence


def main(given):
    asked = command_line.Words(__doc__)
    asked.add_argument("--short", action="store_true", help="what is too long, and the sum, alone")
    asked.add_argument("folder", metavar="FOLDER", nargs="?", type=command_line.folder, default=command_line.ROOT, help="default: this repository")
    read = asked.parse_args(given)
    files = documents(read.folder)
    failed = False
    if not read.short:
        print("  text tables  code   all  longest sentence and paragraph")
    for file in [] if read.short else files:
        longest = max((count(sentence) for _, paragraph in file.paragraphs for sentence in sentences(paragraph)), default=0)
        widest = max((count(paragraph) for _, paragraph in file.paragraphs), default=0)
        words = file.words
        print(f"{words['text']:6} {words['tables']:6} {words['code']:5} {file.counted():5}  {longest:3} {widest:3}  {file.name}"
              + (f" ({words['aside']} aside)" if words["aside"] else ""))
    for file in files:
        for line, length, what, text in too_long(file):
            failed = True
            print(f"{file.name}:{line}: a {what} of {length} words: {' '.join(text.split()[:6])} ..")
    total = sum(file.counted() for file in files)
    print(f"words={total} of {WORDS}")
    return 1 if failed or total > WORDS else 0


if __name__ == "__main__":
    command_line.run(main, sys.argv[1:])
