#!/usr/bin/env python3
"""Writes the table by which dewfelt shows plates: which character each pair of octets of GBK stands for, after Python's own codec.

    tools/make_gbk.py          writes crates/dewfelt_log/src/gbk_characters.rt
    tools/make_gbk.py --check  says whether that file is what it would write; status 1 where it is not
"""
import os

import command_line

TO = os.path.join(os.path.dirname(os.path.dirname(os.path.realpath(__file__))), "crates/dewfelt_log/src/gbk_characters.rt")
HEAD = """//! The characters of GBK. Written by tools/make_gbk.py; do not edit.

/// For each first octet from 81 to fe (in hexadecimal digits) the characters of the second octets from 40 to fe, without 7f; 0 where
/// there is none.
#[rattlefmt::skip]
static CHARACTERS: [u16; %d] = [
"""
TAIL = """];

// The table. (in a function of its own: nothing that calls it is to compute with so many numbers)
pub(crate) fn characters() -> &'static [u16] {
    &CHARACTERS
}
"""
FIRST = range(0x81, 0xFF)
SECOND = [octet for octet in range(0x40, 0xFF) if octet != 0x7F]
IN_A_LINE = 19


def character(first, second):
    """The number of the character of two octets, or 0."""
    try:
        found = bytes((first, second)).decode("gbk")
    except UnicodeDecodeError:
        return 0
    # (no private ones, and none that a font of text has no sign for)
    return ord(found) if len(found) == 1 and found.isprintable() else 0


def text():
    """The whole file."""
    numbers = [character(first, second) for first in FIRST for second in SECOND]
    lines = [numbers[at : at + IN_A_LINE] for at in range(0, len(numbers), IN_A_LINE)]
    return HEAD % len(numbers) + "".join("    " + " ".join(f"{number}," for number in line) + "\n" for line in lines) + TAIL


def main():
    parser = command_line.Words(__doc__)
    parser.add_argument("--check", action="store_true", help="write nothing")
    if parser.parse_args().check:
        with open(TO, encoding="utf-8") as file:
            return 0 if file.read() == text() else 1
    with open(TO, "w", encoding="utf-8") as file:
        file.write(text())
    return 0


if __name__ == "__main__":
    command_line.run(main)
