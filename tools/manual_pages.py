"""Pages for man, made of docs/MANUAL.md.

A section of the manual stands in the page of the program whose command comes first in it, in both where it has none, and in neither
where that is a tool of the repository.
"""
import re

COMMAND = re.compile(r"^    (?:\$ )?(?:.*\| *)?(?:/\S+/)?(dewfelt|jt808|tools/\w+\.py)\b", re.M)
LINK = re.compile(r"!?\[([^\]]*)\]\(([^)]*)\)")
MARKED = re.compile(r"\*\*(.+?)\*\*|`([^`]+)`")
ITEM = re.compile(r"(?:- |\d+\. )")
# The line that leads to the manual in another language, which is no part of the page.
OTHER_LANGUAGE = re.compile(r"^\[[^\]]*\]\(\S+\.zh-CN\.md\)\n+", re.M)


def sections(manual):
    """What stands before the first section, and each section as (title, text)."""
    head, *found = re.split(r"^## ", manual, flags=re.M)
    return OTHER_LANGUAGE.sub("", head.partition("\n")[2]).strip(), [tuple(it.split("\n", 1)) for it in found]


def is_of(text, program):
    command = COMMAND.search(text)
    return command is None or command[1] == program


def plain(text):
    """Text that roff prints as it is."""
    text = text.replace("\\", "\\e").replace("-", "\\-")
    return f"\\&{text}" if text[:1] in (".", "'") else text


def inline(text):
    """A text with its marks as fonts; of links the text alone."""
    text, found, at = LINK.sub(r"\1", text), [], 0
    for mark in MARKED.finditer(text):
        found += [plain(text[at : mark.start()]), f"\\fB{plain((mark[1] or mark[2]).replace('`', ''))}\\fR"]
        at = mark.end()
    line = "".join([*found, plain(text[at:])])
    # (a mark at the front hides nothing of a line that begins with a point)
    return f"\\&{line}" if line[:1] in (".", "'") else line


def cells(line):
    """The cells of a row. A `|` within `` does not end one."""
    return [it.strip() for it in re.split(r"\|(?=(?:[^`]*`[^`]*`)*[^`]*$)", line.strip().strip("|"))]


def table(lines):
    """Each row as a paragraph: its first cell, and the others behind it. A table whose columns come again has so many rows more."""
    names, rows = cells(lines[0]), [cells(it) for it in lines[2:]]
    width = next(it for it in range(1, len(names) + 1) if names == (names[:it] * len(names))[: len(names)])
    found = []
    for row in rows:
        for at in range(0, len(names), width):
            part = row[at : at + width]
            if any(part):
                others = [it if width == 2 else f"{name}: {it}" for name, it in zip(names[1:width], part[1:]) if it]
                found += [".TP", inline(part[0]), inline("; ".join(others)) or "\\&"]
    return found


def blocks(text):
    """The text in parts, as (kind, lines)."""
    found, kind = [], None
    for line in text.split("\n"):
        if line.startswith("    "):
            now = "code"
        elif line.startswith("|"):
            now = "table"
        elif line.startswith("### "):
            now = "heading"
        elif ITEM.match(line):
            now = "item"
        else:
            now = "text" if line.strip() and not line.startswith("![") else None
        if now is None:
            kind = None
        elif now == kind and now != "item":
            found[-1][1].append(line)
        else:
            found.append((now, [line]))
            kind = now
    return found


def block(kind, lines):
    """The lines of roff of one part."""
    if kind == "code":
        return [".PP", ".in +4n", ".EX", *(plain(it[4:]) for it in lines), ".EE", ".in"]
    if kind == "table":
        return table(lines)
    if kind == "heading":
        return [f'.SS "{inline(lines[0][4:])}"']
    if kind == "item":
        mark = "\\(bu" if lines[0].startswith("- ") else lines[0].split(" ")[0]
        return [f".IP {mark} 4", inline(lines[0].split(" ", 1)[1])]
    return [".PP", *(inline(it) for it in lines)]


def body(text):
    return [line for kind, lines in blocks(text) for line in block(kind, lines)]


def page(manual, program, about, synopsis, version, day):
    """The page of a program. Of `synopsis` each line is a form of its words."""
    head, every = sections(manual)
    found = [f'.TH {program.upper()} 1 "{day}" "dewfelt {version}" "User Commands"', ".SH NAME", f"{program} \\- {about}", ".SH SYNOPSIS", ".nf"]
    found += [*(plain(it) for it in synopsis), ".fi", ".SH DESCRIPTION", *body(head)]
    for title, text in every:
        if is_of(text, program):
            found += [f'.SH "{inline(title).upper() if title.isascii() else inline(title)}"', *body(text)]
    found += [".SH SEE ALSO", f"\\fB{'jt808' if program == 'dewfelt' else 'dewfelt'}\\fR(1), /usr/share/doc/dewfelt"]
    return "\n".join(found) + "\n"
