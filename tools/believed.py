#!/usr/bin/env python3
"""Lists what has to be believed: the definitions to which the clauses of public calls lead, in the order in which to read them.

    tools/believed.py                  of `run`, `serve`, the calls of jt_codec, and the law of the world of octets, each and together
    tools/believed.py CRATE:CALL ..    of these calls alone; CRATE alone stands for all public calls of the crate
    tools/believed.py --short ..       the sums alone
    tools/believed.py --claim          a line for each claim, and for each command: the lines to read
    tools/believed.py --claim CRATE:NAME ..   what these lead to, a call or a definition of specs/, as KeptWhole of jt_world
    tools/believed.py --print NAME ..  the definitions of these names, as KeptWhole or jt_world:KeptWhole, with file and line

It begins at the names that the clauses use and the file imports from specs/, and at what the `ghost view` of each type uses that a
call's signature names, with the views of the fields that this view shows; and it follows the `use` lines of the files in specs/. A
line for each file, lowest first, so that a file stands behind all that it uses: how many of its lines are definitions (with their
comments) that are reached name by name, its lines in all, a mark, and its path. A name is reached where its text stands in what
was reached before, so too much may be counted; 0 says that the file is imported for definitions that are not.
Marks: 'steps' are files whose head says that they are for the proofs, 'partly' those that are so but for what the head names, and
'?' those whose head says neither. Types (`declared`) are the program's own; they and the kit's definitions are not in the list. With `--claim` types and constants
that definitions name are, marked 'type': the lines of the declaration and of the view, and what the view uses is followed too.
"""
import functools
import os
import re
import sys

HERE = os.path.dirname(os.path.realpath(__file__))
sys.path.insert(0, HERE)
sys.dont_write_bytecode = True
import clauses  # noqa: E402
import command_line  # noqa: E402

ROOTS = {
    "run": ["jt_cli:run"],
    "serve": ["jt_server:serve"],
    "the codec": ["jt_codec"],
    "the world of octets": ["jt_octets:law_world"],
}
# Of each claim, and of each command, the definition or the call that says it.
CLAIMS = {
    "delivery, of messages": "jt_delivery:law_kept_delivery",
    "delivery, of octets": "jt_octets:law_world",
    "delivery, of a rehearsal": "jt_world:KeptWhole",
    "a gateway's": "jt_gateway_command:PassedWhole",
    "orders, of messages": "jt_obeying:law_obeyed",
    "orders, of octets": "jt_order_octets:law_order_world",
    "orders, of a script": "jt_order_command:ObeyedWhole",
    "alarms": "jt_fence:law_alarms",
    "view, check": "jt_view:report",
    "rehearse": "jt_world:rehearse",
    "fence": "jt_fence_command:fence",
    "relay": "jt_relay_command:relay",
    "gateway": "jt_gateway_command:gateway",
    "orders": "jt_order_command:orders",
    "report": "jt_report_command:report",
    "platform": "jt_platform_command:platform",
    "a session over a link": "jt_session:serve_link",
}
USE = re.compile(r"^\s*(?:pub |ghost )*use (Rattle\.[\w.]+?)(?:\.\{([^}]*)\}| as (\w+))?;?\s*$", re.M)
DECLARED = re.compile(r"^(?:  )?(?:(?:abbrev|unfoldable)(?: pub)? |pub (?:record |data )?|record |data )(\S+)")
TYPES = re.compile(r"^\s*use Rattle\.(\w+)\.specs\.declared\.([\w.]+?)(?:\.\{([^}]*)\}| as (\w+))?;?\s*$", re.M)
DECLARATION = re.compile(r"((?:^ *(?:///|//|#\[).*\n)*)^ *(?:pub(?:\([a-z]+\))? )?(struct|enum|const|static) (\w+)", re.M)
FIELD = re.compile(r"^ +pub \S+ :")
MEMBER = re.compile(r"^ {2,}(?:pub )?((?:[^\s(){}=]+ )+):")
MODEL = re.compile(r"^impl(?:<[^{]*>)? Model for (\w+)[^{]*\{", re.M)
VIEW = re.compile(r"ghost (?:view|Value) = \{(.*?)\};[ ]*$", re.M | re.S)
FIELD_OF = re.compile(r"^\s+(?:pub(?:\([a-z]+\))? )?(\w+): (.*?),?$", re.M)
STEPS = re.compile(r"\bsteps?\b|\bfor (the )?proofs\b", re.I)
BELIEVED = re.compile(r"(?<!needs )to be believed", re.I)


def spec_file(module):
    """The file of a module of specs/ in this repository, or None."""
    found = re.match(r"Rattle\.(\w+)\.specs\.([\w.]+)$", module)
    if not found or found.group(2).startswith("declared."):
        return None
    path = os.path.join("crates", found.group(1), "specs", found.group(2).replace(".", "/") + ".antt")
    return path if os.path.isfile(os.path.join(clauses.ROOT, path)) else None


@functools.lru_cache(None)
def read(path):
    with open(os.path.join(clauses.ROOT, path), encoding="utf-8") as file:
        return file.read()


def uses(text):
    """What a text imports: (file, names as (there, here), the alias of the whole module)."""
    found = []
    for module, names, alias in USE.findall(text):
        path = spec_file(module)
        if path:
            pairs = [name.split(" as ") for name in (part.strip() for part in names.split(",")) if name]
            found.append((path, [(pair[0].strip(), pair[-1].strip()) for pair in pairs], alias))
    return found


def words_in(text):
    """The words of a text without its comments; of `a.b` both parts and the whole."""
    bare = re.sub(r"(^|\s)--[^\n]*", " ", text)
    found = set(re.findall(r"[^\s(){},;]+", bare))
    return found | {part for word in found for part in word.split(".")}


def types_in(text):
    """The types and constants of src/ that a text imports: (crate, name there, names here)."""
    found = []
    for crate, module, names, alias in TYPES.findall(text):
        last = module.split(".")[-1]
        for pair in (part.strip().split(" as ") for part in names.split(",") if part.strip()):
            there, here = pair[0].strip(), pair[-1].strip()
            found.append((crate, module.split(".")[-2] if last == "TheVariants" else there, {here}))
        if alias:
            found.append((crate, last, {alias}))
    return found


def stands_in(name, words):
    """Whether a name, or a part of an operator, is one of the words."""
    return any(part in words for part in name.split("◌") if part)


class Spec:
    """A file of specs/, cut into its definitions."""

    def __init__(self, path):
        self.path, self.uses, self.types = path, uses(read(path)), types_in(read(path))
        self.chunks, self.names, self.at = [], [], []
        chunk, comments = [], []
        for number, line in enumerate(read(path).split("\n"), 1):
            if USE.match(line) or re.match(r"\s*(module|infix)", line):
                comments = []
                continue
            if line.strip().startswith("--") or not line.strip():
                comments.append(line)
                continue
            named = None if FIELD.match(line) else DECLARED.match(line)
            if named:
                chunk = [held for held in comments if held.strip()] + [line]
                self.chunks.append(chunk)
                self.at.append(number)
                self.names.append({named.group(1)})
            elif self.chunks:
                chunk += [held for held in comments if held.strip()] + [line]
                member = MEMBER.match(line)
                if member:
                    self.names[-1].update(member.group(1).split())
            comments = []
        self.words = [words_in("\n".join(chunk)) for chunk in self.chunks]


@functools.lru_cache(None)
def spec(path):
    return Spec(path)


def imported(listed, words):
    """The (file, name) that words name, of what is imported; the name is None for a whole file."""
    for path, names, alias in listed:
        if alias:
            for word in words:
                if word.startswith(alias + "."):
                    yield path, word.split(".")[1]
            if alias in words and not any(word.startswith(alias + ".") for word in words):
                yield path, None
        for there, here in names:
            if stands_in(here, words):
                yield path, there
        if not alias and not names:
            yield path, None


def reach(starts, types=None):
    """The definitions, as (file, number), to which these names lead; where a set of types is given, also through types, which are put there."""
    found, waiting = set(), list(starts)
    while waiting:
        path, name = waiting.pop()
        file = spec(path)
        for number, names in enumerate(file.names):
            if (path, number) in found or not (name is None or name in names):
                continue
            found.add((path, number))
            words = file.words[number]
            waiting += imported(file.uses, words)
            waiting += [(path, own) for all_names in file.names for own in all_names if stands_in(own, words)]
            if types is not None:
                for crate, there, here in file.types:
                    if here & words:
                        waiting += through(crate, there, types)
    return found


def through(crate, name, types):
    """What the view of a type uses, as (file, name), with those of the types in it; the types are put into the set."""
    place = declared(clauses.ROOT).get((crate, name))
    if place is None or (crate, name) in types:
        return []
    types.add((crate, name))
    model = models(clauses.ROOT).get((crate, name))
    if model is None:
        words, found, crates = re.findall(r"\w+", place.text), [], place.crates
    else:
        words = words_in(model.shown)
        found, crates = list(imported(model.uses, words)), model.crates
        words = re.findall(r"\w+", " ".join(kind for field, kind in model.fields.items() if field in words))
    for word in words:
        other = crates.get(word)
        found += through(crate if other in (None, "crate", "self", "super") else other, word, types)
    return found


class Declared:
    """A type or a constant of src/: its file and line, its text, its lines with those of its view, and what its file imports."""

    def __init__(self, path, text, head):
        self.path, self.line = path, text.count("\n", 0, head.start(2)) + 1
        ends = [place for place in (text.find(";", head.end()), text.find("{", head.end())) if place >= 0]
        end = min(ends, default=len(text) - 1)
        end = clauses.closing(text, end) if text[end] == "{" else end + 1
        self.text = text[head.start(2):end]
        self.lines = text[head.start():end].strip("\n").count("\n") + 1
        for found in MODEL.finditer(text):
            if found.group(1) == head.group(3):
                self.lines += text[found.start():clauses.closing(text, found.end() - 1)].count("\n") + 1
        self.crates = dict_of_names(text)


@functools.lru_cache(None)
def declared(root):
    """The types and constants of src/, as a table of (crate, name)."""
    found = {}
    for crate in sorted(os.listdir(os.path.join(root, "crates"))):
        for base, _, files in sorted(os.walk(os.path.join(root, "crates", crate, "src"))):
            for file in sorted(name for name in files if name.endswith(".rt")):
                path = os.path.relpath(os.path.join(base, file), root)
                text = read(path)
                for head in DECLARATION.finditer(text):
                    found.setdefault((crate, head.group(3)), Declared(path, text, head))
    return found


def definitions(word):
    """The definitions of a name, as (file, number)."""
    crate, _, name = word.rpartition(":")
    found = []
    for place in [crate] if crate else sorted(os.listdir(os.path.join(clauses.ROOT, "crates"))):
        for base, _, files in sorted(os.walk(os.path.join(clauses.ROOT, "crates", place, "specs"))):
            for file in sorted(file for file in files if file.endswith(".antt")):
                path = os.path.relpath(os.path.join(base, file), clauses.ROOT)
                if name in read(path):
                    found += [(path, number) for number, names in enumerate(spec(path).names) if name in names]
    return found


def claimed(root):
    """What a claim begins at: what the clauses of its call use, or else the definitions of its name."""
    crate, _, name = root.partition(":")
    found = {(path, name) for path, _ in definitions(root)} if name else set()
    if found and not any(name in (call.name, call.fn) for call in clauses.public_calls(crate)):
        return found
    return starts_of(root)


def of_claim(starts):
    """Of each file the lines that are reached, in the order in which to read them: files of specs/, then types of src/ by file."""
    types, counts = set(), {}
    for path, number in reach(starts, types):
        counts[path] = counts.get(path, 0) + len(spec(path).chunks[number])
    shown = {}
    for key in types:
        place = declared(clauses.ROOT)[key]
        shown[place.path] = shown.get(place.path, 0) + place.lines
    return [(path, counts[path], mark(path)) for path in order(counts) if path in counts], [(path, shown[path], "type") for path in sorted(shown)]


def print_claims(words):
    """The sums of the claims, or of these; with the files where some are named."""
    for name, root in {word: word for word in words}.items() if words else CLAIMS.items():
        specs, shown = of_claim(claimed(root))
        for path, lines, marked in (specs + shown) if words else ():
            print(f"{lines:5} {marked:7} {path}")
        print(f"{name} ({root}): {len(specs)} files, {sum(lines for _, lines, _ in specs)} lines, "
              f"and of types {len(shown)} files, {sum(lines for _, lines, _ in shown)} lines")


def print_definitions(words):
    """The definitions of these names, with file and line."""
    for word in words:
        found = definitions(word)
        if not found:
            raise command_line.Mistake(f"specs/ defines no {word}: rt lemma finds one by a part of its name")
        for path, number in found:
            print(f"{path}:{spec(path).at[number]}", *spec(path).chunks[number], "", sep="\n")


class Model:
    """What a type of src/ shows: the text of its view, what that text imports, its fields, and the types that its file names."""

    def __init__(self, crate, text, name, block):
        self.crate = crate
        self.shown = " ".join(VIEW.findall(block))
        self.uses = uses(block) + uses(text.replace(block, ""))
        struct = re.search(rf"^(?:pub(?:\([a-z]+\))? )?struct {name}\b[^;{{]*\{{(.*?)^\}}", text, re.M | re.S)
        self.fields = dict(FIELD_OF.findall(struct.group(1))) if struct else {}
        self.crates = dict_of_names(text)


def dict_of_names(text):
    """Of each name that a file of src/ takes from another crate, the crate."""
    found = {}
    for crate, names in re.findall(r"^use (\w+)::([^;]*);", text, re.M):
        for name in re.findall(r"\w+", names):
            found[name] = crate
    return found


@functools.lru_cache(None)
def models(root):
    """The types that have a view, as a table of (crate, name)."""
    found = {}
    for crate in sorted(os.listdir(os.path.join(root, "crates"))):
        for base, _, files in sorted(os.walk(os.path.join(root, "crates", crate, "src"))):
            for file in sorted(name for name in files if name.endswith(".rt")):
                with open(os.path.join(base, file), encoding="utf-8") as opened:
                    text = opened.read()
                for head in MODEL.finditer(text):
                    block = text[head.start():clauses.closing(text, head.end() - 1)]
                    found[crate, head.group(1)] = Model(crate, text, head.group(1), block)
    return found


def shown_by(types, crate, crates, seen):
    """The names of specs/ by which values of these types show what clauses see of them."""
    found, known = set(), models(clauses.ROOT)
    for place, name in re.findall(r"(?:(\w+)::)?(\w+)", types):
        key = next((key for key in ((place, name), (crate, name), (crates.get(name), name)) if key in known), None)
        if key is None or key in seen:
            continue
        seen.add(key)
        model = known[key]
        words = words_in(model.shown)
        found.update(imported(model.uses, words))
        for field, kind in model.fields.items():
            if field in words:
                found |= shown_by(kind, key[0], model.crates, seen)
    return found


def starts_of(root):
    """The names of specs/ that the clauses of these calls use, and those by which their values show what clauses see, as (file, name)."""
    crate, _, name = root.partition(":")
    calls = [call for call in clauses.public_calls(crate) if not name or name in (call.name, call.fn)]
    if not calls:
        raise command_line.Mistake(f"{crate} has no public call {name}: tools/clauses.py --list {crate} has them")
    found = set()
    for call in calls:
        words = words_in(" ".join(said for kind, _, said in call.clauses if kind != "//"))
        found.update(imported(uses(read(call.path)), words))
        found |= shown_by(f"{call.owner} {call.signature}", crate, dict_of_names(read(call.path)), set())
    return found


def order(files):
    """The files and all that they use, each behind what it uses."""
    listed, seen = [], set()

    def visit(path):
        if path not in seen:
            seen.add(path)
            for used in sorted({used for used, _, _ in uses(read(path))}):
                visit(used)
            listed.append(path)

    for path in sorted(files):
        visit(path)
    return listed


def mark(path):
    """What the head of a file says of it."""
    head = []
    for line in read(path).split("\n"):
        if not line.startswith("--"):
            break
        head.append(line[2:].strip())
    said = " ".join(head)
    if BELIEVED.search(said):
        return "partly" if re.search(r"for (the )?proofs", said, re.I) else ""
    return "steps" if STEPS.search(said) or "needs to be believed" in said else "?"


def lines_in(path):
    return read(path).count("\n")


def reached_lines(found):
    """Of each file how many lines of definitions are reached."""
    counts = {}
    for path, number in found:
        counts[path] = counts.get(path, 0) + len(spec(path).chunks[number])
    return counts


def sums(starts):
    """The sums of files and lines, whole and as reached."""
    files, counts = order({path for path, _ in starts}), reached_lines(reach(starts))
    steps = [path for path in files if mark(path) == "steps"]
    return (f"{len(files)} files, {sum(map(lines_in, files))} lines, of which {sum(counts.values())} are reached; "
            f"{len(steps)} are steps, {sum(map(lines_in, steps))} lines, "
            f"of which {sum(counts.get(path, 0) for path in steps)} are reached")


def main(given):
    asked = command_line.Words(__doc__)
    asked.add_argument("--short", action="store_true", help="the sums alone")
    asked.add_argument("--claim", action="store_true", help="what each claim and each command leads to, through types too")
    asked.add_argument("--print", action="store_true", help="the definitions of these names")
    asked.add_argument("words", metavar="CRATE:NAME", nargs="*")
    read = asked.parse_args(given)
    short, words = read.short, read.words
    if read.print and not words:
        asked.error("say which name")
    if read.claim or read.print:
        return (print_definitions if read.print else print_claims)(words)
    groups = {word: [word] for word in words} or ROOTS
    starts = {name: set().union(*map(starts_of, roots)) for name, roots in groups.items()}
    together = set().union(*starts.values())
    if not short:
        counts = reached_lines(reach(together))
        for path in order({path for path, _ in together}):
            print(f"{counts.get(path, 0):5} {lines_in(path):5} {mark(path):7} {path}")
    for name, found in starts.items():
        print(f"{name}: {sums(found)}")
    if len(starts) > 1:
        print(f"together: {sums(together)}")


if __name__ == "__main__":
    command_line.run(main, sys.argv[1:])
