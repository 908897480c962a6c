#!/usr/bin/env python3
"""Tries wrong bodies of the stores in files that no clause can refuse, since no contract says what their tables hold: a test of
sql_tests has to fail at each.

    tools/wrong_stores.py [NAME..]

It copies the crates that the tests stand on into a temporary folder, changes one line of jt_sql or jt_store_answers, and runs
`rt try --test` in sql_tests there (some three minutes of one processor each), over the tests of what the tables hold: those of
stops and of other files take longer, and are left out. First it runs these tests over the stores as they are, where they have to
pass. The status is 0 only where each wrong body fails a test.
"""
import os
import re
import shutil
import subprocess
import sys
import tempfile

import command_line

ROOT = os.path.dirname(os.path.dirname(os.path.realpath(__file__)))
CRATES = ("jt_value", "jt_layout", "jt_position", "jt_store", "jt_relay", "jt_store_answers", "jt_sql", "store_tests", "sql_tests")
MODULES = ("connections", "files")
TESTS = ("keeper_tests", "left_tests", "table_tests", "vault_tests")
# The file, what stands there once, and what is put in its place.
WRONG = {
    "two rows in place of one": (
        "jt_sql/src/rows.rt",
        "    add(work, phone, row)?;\n    Ok(Adding::Done)",
        "    add(work, phone, row)?;\n    change(work, ADD, params![phone, i64::MAX, 0i64, row.body.as_slice()])?;\n    Ok(Adding::Done)",
    ),
    "an append that answers before its commit": (
        "jt_sql/src/keeping.rt",
        "    let adding = rows::append(&mut work, phone.digits.as_slice(), row);\n    settled(work, adding)",
        "    rows::append(&mut work, phone.digits.as_slice(), row)",
    ),
    "a fix that is answered before its commit": (
        "jt_sql/src/vaulting.rt",
        "    let adding = note_within(&mut work, fix);\n    settled(work, adding)",
        "    note_within(&mut work, fix)",
    ),
    "an acceptance that leaves the mark": (
        "jt_sql/src/vaulting.rt",
        "    state::set_accepted(work, units, fixes, unit.serial)",
        "    state::set_accepted(work, units, fixes, state.mark)",
    ),
    "a load that counts units by the last place": (
        "jt_sql/src/vaulting.rt",
        "    let count = units::count_all(work)?;",
        "    let count = units::count(work)?;",
    ),
    "a load that counts fixes by the last place": (
        "jt_sql/src/vaulting.rt",
        "    let recorded = fixes::count_all(work)?;",
        "    let recorded = fixes::count(work)?;",
    ),
    "a batch that is accepted as one fix": (
        "jt_sql/src/vaulting.rt",
        "state.fixes_accepted.saturating_add(i64::from(unit.count))",
        "state.fixes_accepted.saturating_add(i64::from(unit.count.min(1)))",
    ),
    "a batch that is formed as one fix": (
        "jt_sql/src/units.rt",
        "params![place, serial, i64::from(unit.id), body, unit.count]",
        "params![place, serial, i64::from(unit.id), body, unit.count.min(1)]",
    ),
    "a load that believes the count of accepted fixes": (
        "jt_sql/src/vaulting.rt",
        "carried == state.fixes_accepted && are_all(",
        "0 <= carried && are_all(",
    ),
    "a load that believes the count of a unit": (
        "jt_store_answers/src/order.rt",
        "unit.count == said(unit)",
        "said(unit) >= 1",
    ),
    "a unit that counts others than its body says, and is formed": (
        "jt_sql/src/vaulting.rt",
        "if !is_unit(unit) || !may_form(",
        "if (unit.count == 0 && !is_unit(unit)) || !may_form(",
    ),
    "a registration anew that keeps the terminal id": (
        "jt_sql/src/registrations.rt",
        "DO UPDATE SET plate = excluded.plate, terminal = excluded.terminal",
        "DO UPDATE SET plate = excluded.plate",
    ),
    "a registration anew that keeps the plate": (
        "jt_sql/src/registrations.rt",
        "DO UPDATE SET plate = excluded.plate, terminal = excluded.terminal",
        "DO UPDATE SET terminal = excluded.terminal",
    ),
    "rows that left, of a table that has no number of them": (
        "jt_sql/src/rows.rt",
        "    has_row(work, LEFT, params![phone, number])\n",
        "    Ok(has_row(work, LEFT, params![phone, number]).unwrap_or(false))\n",
    ),
    "rows that left, of a table whose name is in capitals": (
        "jt_sql/src/rows.rt",
        "WHERE name = 'left808' COLLATE NOCASE",
        "WHERE name = 'left808'",
    ),
}


def copied(to):
    """Copies the crates without what checks kept."""
    with open(f"{ROOT}/crates.txt") as file:
        lines = [line for line in file if line.partition(":")[0] in CRATES]
    with open(f"{to}/crates.txt", "w") as file:
        file.writelines(lines)
    for it in CRATES:
        shutil.copytree(f"{ROOT}/crates/{it}", f"{to}/crates/{it}", ignore=shutil.ignore_patterns("out"))
    shutil.copyfile(f"{ROOT}/HANDLES", f"{to}/HANDLES")
    tests = f"{to}/crates/sql_tests/src"
    for it in os.listdir(tests):
        if it.removesuffix(".rt") not in MODULES + TESTS:
            os.remove(f"{tests}/{it}")
    with open(f"{tests}/lib.rt", "w") as file:
        file.write("//! Tests of what the tables hold.\n#![tactic(auto)]\n\n")
        file.writelines(f"pub mod {it};\n" for it in MODULES)
        file.writelines(f"#[cfg(test)]\nmod {it};\n" for it in TESTS)


def tried(root):
    """Which tests failed, and whether all ran."""
    words = ["rt", "try", "--test", "--seconds", "600"]
    ran = subprocess.run(words, cwd=f"{root}/crates/sql_tests", stdin=subprocess.DEVNULL, capture_output=True, text=True)
    told = ran.stdout + ran.stderr
    return re.findall(r"test (\S+) \.\.\. FAILED", told), "test result:" in told


NAMES = ["as it is", *WRONG]


def main():
    asked = command_line.Words(f"{__doc__}\nNames: {'; '.join(NAMES)}")
    asked.add_argument("names", metavar="NAME", nargs="*", type=command_line.one_of(NAMES), default=[], help="one of those above (default: all)")
    wrong, names = 0, asked.parse_args().names or NAMES
    command_line.want_kit()
    for name in names:
        with tempfile.TemporaryDirectory(prefix="wrong-stores-") as root:
            copied(root)
            if name in WRONG:
                file, old, new = WRONG[name]
                path = f"{root}/crates/{file}"
                with open(path) as source:
                    text = source.read()
                if text.count(old) != 1:
                    sys.exit(f"wrong_stores: {name} no longer fits {file}")
                with open(path, "w") as source:
                    source.write(text.replace(old, new))
            failed, ran = tried(root)
        is_right = ran and bool(failed) == (name in WRONG)
        wrong += not is_right
        print(f"{name}: {'right' if is_right else 'WRONG'}, {', '.join(failed) or 'no test'} failed", flush=True)
    return 1 if wrong else 0


if __name__ == "__main__":
    command_line.run(main)
