#!/usr/bin/env python3
"""Writes the files of page/ as constants into crates/dewfelt_page/src/files.rt, from which the service sends them.

    tools/make_page.py            writes the constants
    tools/make_page.py --check    ends with 1 where they are not those of the files
"""
import hashlib
import pathlib

import command_line

TOP = pathlib.Path(__file__).resolve().parent.parent
MADE = TOP / "crates/dewfelt_page/src/files.rt"
FILES = (("INDEX", "index.html"), ("STYLE", "style.css"), ("APP", "app.js"), ("MAP", "map.js"), ("WORDS", "words.js"), ("ICON", "icon.svg"))
ESCAPED = (("\\", "\\\\"), ('"', '\\"'), ("\n", "\\n"))


def constants():
    parts = ["//! The files of the page, as they are sent. tools/make_page.py writes this file from page/.\n"]
    for name, file in FILES:
        text = (TOP / "page" / file).read_text(encoding="utf-8")
        tag = hashlib.sha256(text.encode()).hexdigest()[:16]
        for octet, escaped in ESCAPED:
            text = text.replace(octet, escaped)
        parts.append(f'\npub const {name}: &str =\n    "{text}";\n\npub const {name}_TAG: &str = "\\"{tag}\\"";\n')
    return "".join(parts)


def main():
    asked = command_line.Words(__doc__)
    asked.add_argument("--check", action="store_true", help="write nothing")
    is_check, made = asked.parse_args().check, constants()
    if is_check:
        if MADE.read_text(encoding="utf-8") != made:
            print("crates/dewfelt_page/src/files.rt is not made of page/: run tools/make_page.py")
            return 1
        return 0
    MADE.write_text(made, encoding="utf-8")
    return 0


if __name__ == "__main__":
    command_line.run(main)
