#!/usr/bin/env python3
"""Compares README.md with README.zh-CN.md, and of docs/MANUAL.md its head and 'Run it' with docs/MANUAL.zh-CN.md.

    tools/compare_languages.py                     both pairs
    tools/compare_languages.py ENGLISH CHINESE     two files, whole

Compared are the headings (their levels, order and number), and in each section: the lines of its blocks of code but for their comments,
the number of its tables and of their columns and rows, the words in `` and the figures of each cell of a table, those of the text, and
where links and pictures lead. A figure is written in digits; those in `` and in links do not count. What one lacks is said with its file
and line, a line each; the last line is 'N sections, N tables, N differ'. A link to a file in Chinese counts as one to the English file.
Status 1 where one lacks something.
"""
import difflib
import os
import re
import sys

sys.path.insert(0, os.path.dirname(os.path.realpath(__file__)))
sys.dont_write_bytecode = True
import command_line  # noqa: E402

# The files, and the section of the English one to which the Chinese one keeps, besides what stands before all sections.
PAIRS = [("README.md", "README.zh-CN.md", None), ("docs/MANUAL.md", "docs/MANUAL.zh-CN.md", "Run it")]
CODE = re.compile(r"`([^`]+)`")
LINK = re.compile(r"\]\(([^)\s]+)\)")
WHOLE_LINK = re.compile(r"\[[^\]]*\]\([^)]*\)")
FIGURE = re.compile(r"\d(?:[\d,.]*\d)?")
HEADING = re.compile(r"(#+) +(.*?) *$")


class Table:
    def __init__(self, line, row):
        self.line, self.rows = line, [row]

    def width(self):
        return len(self.rows[0])


class Section:
    """A heading with what stands up to the next one."""

    def __init__(self, line, level, title):
        self.line, self.level, self.title = line, level, title
        self.code, self.tables, self.words, self.links, self.figures = [], [], set(), set(), set()

    def shape(self):
        """What of it is the same in each language: the level, the code, how large tables are."""
        return self.level, tuple(it for _, it in self.code), tuple((it.width(), len(it.rows)) for it in self.tables)


def cells(line):
    """The cells of a row. A `|` within `` ends none."""
    return [it.strip() for it in re.split(r"\|(?=(?:[^`]*`[^`]*`)*[^`]*$)", line.strip().removeprefix("|").removesuffix("|"))]


def figures(text):
    """The figures of a text, but for those in `` and in links."""
    return set(FIGURE.findall(WHOLE_LINK.sub("", CODE.sub("", text))))


def without_comment(line):
    """A line of code without its comment. A comment that says the status stays."""
    return line.rstrip() if re.search(r"#\s*status \d+\s*$", line) else re.sub(r"\s+#\s.*$|^#\s.*$", "", line).rstrip()


def leads(target):
    """Where a link leads: the file in English. A place in a file is named in its language."""
    return target.replace(".zh-CN.md", ".md").split("#")[0]


def sections(text):
    """A document in sections."""
    found, fenced, table, before_blank, in_code = [Section(1, 0, "")], False, None, True, False
    for number, line in enumerate(text.split("\n"), 1):
        now, heading = found[-1], HEADING.match(line)
        fence = line.lstrip().startswith("```")
        indented = not fenced and line.startswith("    ") and (before_blank or in_code)
        fenced ^= fence
        in_code = fenced or indented
        before_blank = not line.strip()
        if not in_code and line.startswith("|"):
            if table is None:
                table = Table(number, cells(line))
                now.tables.append(table)
            else:
                table.rows.append(cells(line))
            now.links |= {leads(it) for it in LINK.findall(line)}
            continue
        table = None
        if fence:
            continue
        if in_code:
            if without_comment(line).strip():
                now.code.append((number, without_comment(line)))
        elif heading:
            found.append(Section(number, len(heading[1]), heading[2]))
        else:
            now.words |= set(CODE.findall(line))
            now.figures |= figures(line)
            now.links |= {leads(it) for it in LINK.findall(line)}
    return found


def part_of(found, title):
    """What stands before the first section of level 2, and that section of level 2 which has this title, with those within it."""
    begins = next((at for at, it in enumerate(found) if it.level == 2 and it.title == title), None)
    if begins is None:
        raise command_line.Mistake(f"no section '{title}'")
    head = next((at for at, it in enumerate(found) if it.level >= 2), len(found))
    ends = next((at for at in range(begins + 1, len(found)) if found[at].level <= 2), len(found))
    return found[:head] + found[begins:ends]


class Compared:
    def __init__(self, names):
        self.names, self.differ, self.sections, self.tables = names, 0, 0, 0

    def say(self, side, line, text):
        self.differ += 1
        print(f"{self.names[side]}:{line}: {text}")

    def lacks(self, side, line, what):
        """The other file lacks what stands at this line."""
        self.say(side, line, f"{what}: not in {os.path.basename(self.names[1 - side])}")

    def pairs(self, both):
        """The sections of two documents that belong together. What has no other is said."""
        if [it.level for it in both[0]] == [it.level for it in both[1]]:
            return list(zip(*both))
        shapes = [[it.shape() for it in one] for one in both]
        found = []
        for kind, a, b, c, d in difflib.SequenceMatcher(None, *shapes, autojunk=False).get_opcodes():
            left, right = both[0][a:b], both[1][c:d]
            if kind == "equal" or [it.level for it in left] == [it.level for it in right]:
                found += zip(left, right)
                continue
            # of those that differ as many as can be are paired by their level
            levels = [[it.level for it in one] for one in (left, right)]
            for how, e, f, g, h in difflib.SequenceMatcher(None, *levels, autojunk=False).get_opcodes():
                if how == "equal":
                    found += zip(left[e:f], right[g:h])
                    continue
                for side, rest in ((0, left[e:f]), (1, right[g:h])):
                    for it in rest:
                        self.lacks(side, it.line, f"the heading {'#' * it.level} {it.title}")
        return found

    def code(self, both):
        lines = [[it for _, it in one.code] for one in both]
        for kind, a, b, c, d in difflib.SequenceMatcher(None, *lines, autojunk=False).get_opcodes():
            if kind != "equal":
                for side, rest in ((0, both[0].code[a:b]), (1, both[1].code[c:d])):
                    for number, line in rest:
                        self.lacks(side, number, f"the line {line.strip()}")

    def table(self, left, right):
        self.tables += 1
        for what, one, other in (("columns", left.width(), right.width()), ("rows", len(left.rows) - 2, len(right.rows) - 2)):
            if one != other:
                self.say(0, left.line, f"a table of {one} {what}, of {other} in {os.path.basename(self.names[1])}:{right.line}")
                if what == "columns":
                    return
        for at, (row, same) in enumerate(zip(left.rows, right.rows)):
            for column, (cell, its) in enumerate(zip(row, same)):
                for side, have, other, line in ((0, cell, its, left.line), (1, its, cell, right.line)):
                    for word in sorted(set(CODE.findall(have)) - set(CODE.findall(other))):
                        self.lacks(side, line + at, f"`{word}` in column {column + 1}")
                    for figure in sorted(figures(have) - figures(other)):
                        self.lacks(side, line + at, f"{figure} in column {column + 1}")

    def section(self, both):
        self.sections += 1
        self.code(both)
        if len(both[0].tables) != len(both[1].tables):
            self.say(0, both[0].line, f"a section of {len(both[0].tables)} tables, of {len(both[1].tables)} in {os.path.basename(self.names[1])}:{both[1].line}")
        for left, right in zip(both[0].tables, both[1].tables):
            self.table(left, right)
        for side in (0, 1):
            for word in sorted(both[side].words - both[1 - side].words):
                self.lacks(side, both[side].line, f"`{word}` in the section's text")
            for figure in sorted(both[side].figures - both[1 - side].figures):
                self.lacks(side, both[side].line, f"{figure} in the section's text")
            for link in sorted(both[side].links - both[1 - side].links):
                self.lacks(side, both[side].line, f"a link to {link} in the section")

    def compare(self, both):
        for pair in self.pairs(both):
            self.section(pair)


def read(name):
    path = name if os.path.isfile(name) else f"{command_line.ROOT}/{name}"
    with open(path, encoding="utf-8") as file:
        return sections(file.read())


def main():
    asked = command_line.Words(__doc__)
    asked.add_argument("files", metavar="FILE", nargs="*", help="an English file and its Chinese one")
    given = asked.parse_args().files
    if given and len(given) != 2:
        asked.error("name two files, or none")
    counted = [0, 0, 0]
    for english, chinese, part in [(*given, None)] if given else PAIRS:
        found = Compared((english, chinese))
        both = [read(english), read(chinese)]
        if part is not None:
            both[0] = part_of(both[0], part)
        found.compare(both)
        counted = [one + other for one, other in zip(counted, (found.sections, found.tables, found.differ))]
    print(f"{counted[0]} sections, {counted[1]} tables, {counted[2]} differ")
    return 1 if counted[2] else 0


if __name__ == "__main__":
    command_line.run(main)
