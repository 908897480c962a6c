#!/usr/bin/env python3
"""Prints the public calls of a crate with what is promised of them, from the sources.

    tools/clauses.py CRATE ..          every public call of these crates: its `///` lines, its signature and its clauses
    tools/clauses.py CRATE CALL ..     of one crate only these calls, as `run`, `Hub::act` or all of `Hub`
    tools/clauses.py --list CRATE ..   one line a call: its name, and the names of its clauses
    tools/clauses.py --layers          each crate with its layer and its job, lowest first

Public is what src/lib.rt passes on with `pub use`: functions, methods of types, methods and ghost members of traits, and what an
impl of a trait says itself; where it says nothing, the trait's clauses hold as they are. A clause without a name is printed as
'(one)'. What is passed on of another crate is named at the end. A crate stands in the layer above the highest one that it uses, by crates.txt; its job is what its lib.rt, or its
main.rt, says first.
"""
import os
import re
import sys

import command_line

ROOT = os.path.dirname(os.path.dirname(os.path.realpath(__file__)))
BLOCK = re.compile(r"^(pub )?(?:unsafe )?(impl|trait)\b")
CALL = re.compile(r"^\s*(pub )?(?:const )?(?:unsafe )?fn (\w+)")
MEMBER = re.compile(r"^\s+ghost (\w+): \{(.*)\};")
CLAUSE = re.compile(r"(requires|ensures|decreases|returns|diverges)\b\s*(\w*)\s*\{")
ITEM = re.compile(r"^pub (?:struct|enum|trait|type|const) (\w+)")


class Call:
    """A call of a crate: where it stands, what is said of it, and its clauses as (kind, name, text)."""

    def __init__(self, crate, path, owner, trait, name, public):
        self.crate, self.path, self.owner, self.trait, self.fn = crate, path, owner, trait, name
        self.public = public
        self.doc, self.signature, self.clauses, self.line = [], "", [], 0

    @property
    def name(self):
        return f"{self.owner}::{self.fn}" if self.owner else self.fn

    def clause_names(self):
        kinds = [kind for kind, _, _ in self.clauses]
        if kinds == ["ghost"]:
            return ["(ghost member)"]
        return [name or "(one)" for kind, name, _ in self.clauses if kind == "ensures"]


def closing(text, start):
    """The place behind the brace that closes the one at `start`."""
    depth, i = 0, start
    while i < len(text):
        if text.startswith("//", i):
            i = text.find("\n", i)
            if i < 0:
                return len(text)
        elif text[i] == "{":
            depth += 1
        elif text[i] == "}":
            depth -= 1
            if depth == 0:
                return i + 1
        i += 1
    return len(text)


def skip_space(text, i, comments):
    """Passes over space and comments; the comments are added to the list."""
    while i < len(text):
        if text[i].isspace():
            i += 1
        elif text.startswith("//", i):
            end = text.find("\n", i)
            comments.append(text[i:end].strip())
            i = end
        else:
            break
    return i


def signature_end(text, start):
    """Where the signature ends: at its first clause, its body or its semicolon."""
    depth, i = 0, start
    while i < len(text):
        if text.startswith("//", i):
            i = text.find("\n", i)
            continue
        if text[i] in "([":
            depth += 1
        elif text[i] in ")]":
            depth -= 1
        elif depth == 0 and (text[i] in "{;" or (text[i - 1].isspace() and CLAUSE.match(text, i))):
            return i
        i += 1
    return i


def owner_of(head):
    """The type and the trait of a block: of `impl<T> Teller for Line<T>` Line and Teller."""
    flat = re.sub(r"<[^<>]*>", "", re.sub(r"<[^<>]*>", "", re.sub(r"<[^<>]*>", "", head)))
    words = re.sub(r"\b(where|requires|ensures)\b.*", "", flat)
    words = re.sub(r"[{:].*", "", words).replace("impl", " ").replace("pub", " ").replace("trait", " ")
    parts = re.split(r"\bfor\b", words)
    names = [re.findall(r"\w+", part)[-1] for part in parts if re.findall(r"\w+", part)]
    return (names[-1], names[0] if len(names) > 1 else None) if names else (None, None)


def block_head(lines, i):
    """The first lines of a block, up to its opening brace."""
    head = []
    while i < len(lines):
        head.append(lines[i])
        if "{" in lines[i] or lines[i].rstrip().endswith(";"):
            break
        i += 1
    return " ".join(head)


def tidy(signature):
    """A signature on one line, spaced as Rust is."""
    flat = re.sub(r"\s+", " ", signature).strip()
    return re.sub(r"([(<]) ", r"\1", re.sub(r",? ([)>])(?!=)", r"\1", flat).replace(" -> ", "\0")).replace("\0", " -> ")


def read_call(text, call, start):
    """Reads the signature and the clauses of the call that begins at `start`."""
    end = signature_end(text, start)
    first = re.findall(r"//.*", text[start:end])
    call.signature = tidy(re.sub(r"//.*", "", text[start:end]))
    while True:
        comments, first = first, []
        at = skip_space(text, end, comments)
        found = CLAUSE.match(text, at)
        if not found:
            return
        close = closing(text, found.end() - 1)
        said = re.sub(r"\s+", " ", text[found.end():close - 1]).strip()
        call.clauses += [("//", "", comment) for comment in comments]
        call.clauses.append((found.group(1), found.group(2), said))
        end = close


def calls_of_file(crate, path):
    """All calls of a file, public or not, with their `///` lines."""
    with open(os.path.join(ROOT, path), encoding="utf-8") as file:
        text = file.read()
    calls, doc, block, lines, at = [], [], (None, None, False), text.split("\n"), 0
    for i, line in enumerate(lines):
        if BLOCK.match(line):
            head = block_head(lines, i)
            block = owner_of(head) + (line.startswith("pub trait"),)
            doc = []
        elif line.startswith("}"):
            block = (None, None, False)
        found, member = CALL.match(line), MEMBER.match(line)
        if member and block[2]:
            call = Call(crate, path, block[0], None, member.group(1), True)
            call.doc, call.line, call.signature = doc, i + 1, "ghost member of the trait"
            call.clauses, doc = [("ghost", member.group(1), member.group(2).strip())], []
            calls.append(call)
        elif line.strip().startswith("///"):
            doc.append(line.strip()[3:].strip())
        elif found and (block[0] or not line.startswith(" ")):
            public = bool(found.group(1)) or block[2] or block[1] is not None
            call = Call(crate, path, block[0], block[1], found.group(2), public)
            call.doc, call.line = doc, i + 1
            read_call(text, call, at + line.index("fn "))
            calls.append(call)
            doc = []
        elif not line.strip().startswith("#["):
            doc = []
        at += len(line) + 1
    return calls


def passed_on(crate):
    """What lib.rt passes on: names of this crate, and of other crates with the crate's name."""
    with open(os.path.join(ROOT, "crates", crate, "src", "lib.rt"), encoding="utf-8") as file:
        text = file.read()
    own, others = set(re.findall(r"^pub (?:fn|struct|enum|trait) (\w+)", text, re.M)), []
    modules = set(re.findall(r"^(?:pub )?mod (\w+)", text, re.M))
    for place, names in re.findall(r"^pub use ([\w:]+?)::(\{[^}]*\}|\w+);", text, re.M | re.S):
        words = re.findall(r"\w+", names)
        if place.split("::")[0] in modules | {"crate", "self"}:
            own.update(words)
        else:
            others.append((place, words))
    return own, others, set(re.findall(r"^pub mod (\w+)", text, re.M))


def public_calls(crate):
    """The public calls of a crate, by file, in the order in which they stand."""
    own, _, open_modules = passed_on(crate)
    folder, found = os.path.join("crates", crate, "src"), []
    for base, _, files in sorted(os.walk(os.path.join(ROOT, folder))):
        for name in sorted(files):
            if name.endswith(".rt"):
                path = os.path.relpath(os.path.join(base, name), ROOT)
                is_open = name[:-3] in open_modules
                for call in calls_of_file(crate, path):
                    shown = call.owner in own if call.owner else call.fn in own
                    said = call.trait is None or call.clauses
                    if call.public and said and (shown or is_open):
                        found.append(call)
    return found


def show(call):
    """The call as text."""
    of = f" (as {call.trait})" if call.trait else ""
    lines = [f"{call.name}{of}    {call.path}:{call.line}"]
    lines += [f"    {line}" if line else "" for line in call.doc]
    lines.append(f"    {call.signature}")
    for kind, name, said in call.clauses:
        lines.append(f"      {said}" if kind == "//" else f"      {kind} {name or '(one)'}: {said}")
    return "\n".join(lines)


def layers():
    """Each crate with its layer, lowest first."""
    with open(os.path.join(ROOT, "crates.txt"), encoding="utf-8") as file:
        below = {name: used.split() for name, _, used in (line.partition(":") for line in file.read().splitlines()) if name}
    known = {}

    def layer(name):
        if name not in known:
            known[name] = 1 + max((layer(used) for used in below[name] if used in below), default=0)
        return known[name]

    return sorted(((layer(name), name) for name in below), key=lambda found: found[0])


def job(crate):
    """The first sentence of a crate's lib.rt, or main.rt."""
    paths = [os.path.join(ROOT, "crates", crate, "src", name) for name in ("lib.rt", "main.rt")]
    with open(next(path for path in paths if os.path.isfile(path)), encoding="utf-8") as file:
        head = " ".join(line[3:].strip() for line in file.read().splitlines() if line.startswith("//!"))
    return head.partition(". ")[0].rstrip(".")


def read_words(given):
    """What was asked for."""
    asked = command_line.Words(__doc__)
    asked.add_argument("--list", action="store_true", help="one line a call")
    asked.add_argument("--layers", action="store_true", help="one line a crate: its layer and its job")
    asked.add_argument("words", metavar="CRATE|CALL", nargs="*")
    read = asked.parse_args(given)
    if not read.words and not read.layers:
        asked.error("say which crate")
    return read


def main(given):
    read = read_words(given)
    if read.layers:
        for layer, name in layers():
            print(f"{layer:2} {name}: {job(name)}")
        return
    words, brief = read.words, read.list
    crates = [word for word in words if os.path.isdir(os.path.join(ROOT, "crates", word))]
    names = [word for word in words if word not in crates]
    if not crates or (names and len(crates) > 1):
        raise command_line.Mistake(f"crates/ has no crate {' '.join(names) or ' '.join(words)}: crates.txt has their names")
    for crate in crates:
        calls = [call for call in public_calls(crate) if not names or {call.name, call.fn, call.owner} & set(names)]
        if not calls:
            if names:
                raise command_line.Mistake(f"{crate} has no public call {' '.join(names)}: tools/clauses.py --list {crate} has them")
        for call in calls:
            print(f"{crate} {call.name}: {' '.join(call.clause_names())}" if brief else show(call) + "\n")
        for place, passed in passed_on(crate)[1]:
            print(f"{crate} passes on of {place}: {' '.join(passed)}") if not names else None


if __name__ == "__main__":
    command_line.run(main, sys.argv[1:])
