#!/usr/bin/env python3
"""Counts the definitions that a reader of the promises has to believe, and finds those in the wrong folder.

A promise is a clause of the contract of a public call. From the clauses of every crate's public calls, from what a public type
is seen as (its `ghost Value` and `ghost view`), and from what it gives as the ghost members of a trait of these crates, this
follows each definition of `specs/` that is cited, and those that it cites in turn, through all crates. It counts the lines of
these that are neither empty, nor a comment, nor a `use`. The kit's own definitions of lists, numbers and maps are not counted.

The definitions that only private steps cite stand in `specs/steps/`. It ends with status 1 where a public contract reaches
one of these, and where a definition in `specs/` itself is reached by none.

    python3 bench/believed.py [--files] [--names]
"""
import collections
import functools
import pathlib
import re
import sys

CRATES = pathlib.Path(__file__).resolve().parent.parent / "crates"
# where the definitions stand that only private steps cite
PRIVATE = "steps"

USE = re.compile(r"\buse Rattle\.(xp\w*)\.specs\.([\w.]+?)(?:\.\{([^}]*)\}| as (\w+))")
DEFINITION = re.compile(r"( *)(?:abbrev |unfoldable )?pub (?:record |data )?([\w']+)")
WORD = re.compile(r"[A-Za-z_][\w']*(?:\.[A-Za-z_][\w']*)?")
FUNCTION = re.compile(r"\s*(pub )?(?:const )?(?:unsafe )?fn (\w+)")
ITEM = re.compile(r"(?:pub )?(impl|trait)\b")


class Definition:
    """A definition of `specs/`: its crate, its file, its name, the lines to believe, and the names that it cites."""

    def __init__(self, path, name):
        self.path, self.name, self.lines = path, name, []

    def key(self):
        return (self.path, self.name)

    def count(self):
        return sum(1 for line in self.lines if line.strip() and not line.strip().startswith("--"))

    def words(self):
        return words_of("\n".join(line.split(" --")[0] for line in self.lines if not line.strip().startswith("--")))


def words_of(text):
    """The words of a clause or a definition; of `alias.name` also its two halves."""
    found = set()
    for word in WORD.findall(text):
        found.add(word)
        found.update(word.split("."))
    return found


def imported_by(text):
    """What each word stands for that a file's `use` lines bring in: a file and a name, or a whole file."""
    known = {}
    for crate, module, names, alias in USE.findall(text):
        if module.startswith("declared."):
            parts = module.split(".")[1:]
            for name in filter(None, (part.strip() for part in (names or "").split(","))):
                known[name.split(" as ")[-1]] = ("type", crate, parts)
            if alias:
                known[alias] = ("type", crate, parts)
            continue
        path = CRATES / crate / "specs" / (module.replace(".", "/") + ".antt")
        for name in filter(None, (part.strip() for part in (names or "").split(","))):
            first, _, last = name.partition(" as ")
            known[last or first] = ("definition", path, first)
        if alias:
            known[alias] = ("file", path, None)
    return known


class Specs:
    """One file of definitions."""

    def __init__(self, path):
        self.path, text = path, path.read_text()
        self.known = imported_by(text)
        self.own = collections.OrderedDict()
        current = None
        for line in text.splitlines():
            begins = DEFINITION.match(line)
            if begins and line.startswith(("pub mod ", "pub use ")):
                continue
            if begins and len(begins[1]) <= 2 and not (current and is_field(line, begins, current)):
                current = Definition(path, begins[2])
                current.indent, current.is_record = len(begins[1]), "pub record" in line or "pub data" in line
                self.own[current.name] = current
            elif re.match(r"(module|use|pub use)\b", line):
                current = None
            if current:
                current.lines.append(line)

    def cited_by(self, definition):
        return resolved(definition.words(), self.known, self.own)


def is_field(line, begins, current):
    """Whether a line that begins like a definition is a field of the record before it."""
    return current.is_record and len(begins[1]) > current.indent


def resolved(words, known, own):
    """The definitions and types that words stand for."""
    for word in words:
        head, _, tail = word.partition(".")
        if word in own:
            yield ("definition", own[word].path, word)
        elif tail and known.get(head, ("",))[0] == "file":
            yield ("definition", known[head][1], tail)
        elif word in known and known[word][0] != "file":
            yield known[word]


def exported(crate):
    """The names that a crate's root makes public, and its public modules."""
    root = crate / "src/lib.rt"
    if not root.exists():
        return None, set()
    names, modules = set(), set()
    text = root.read_text()
    for group in re.findall(r"^pub use [\w:]+?(?:::\{([^}]*)\}|::(\w+));", text, re.M | re.S):
        names.update(part.strip() for part in (group[0] or group[1]).split(",") if part.strip())
    modules.update(re.findall(r"^pub mod (\w+);", text, re.M))
    return names, modules


def contracts_of(path, names, is_public_module):
    """The text of the clauses of a file's public calls."""
    owner, is_trait, is_trait_impl, clauses, signature = None, False, False, [], None
    for line in path.read_text().splitlines():
        if re.match(r"(pub(\([a-z]+\))? )?(unsafe )?(impl|trait)\b", line):
            is_trait = " trait " in " " + line.split("<")[0] + " "
            is_trait_impl = " for " in line
            owner = owner_of(line)
        elif line.startswith("}"):
            owner = None
        if signature is None:
            begins = FUNCTION.match(line)
            if begins:
                is_open = bool(begins[1]) or (owner and (is_trait or is_trait_impl))
                name = owner if owner else begins[2]
                is_public = names is None or name in names or is_public_module
                signature = [] if is_open and is_public else None
                begun = signature is not None
                if not begun:
                    continue
        if signature is not None:
            signature.append(line)
            if line.strip() in ("{", "{}") or line.rstrip().endswith((" {", "{}")) and not is_clause(line) or line.rstrip().endswith(";"):
                clauses += signature
                signature = None
    return "\n".join(line for line in clauses if is_clause(line) or re.match(r"\s*(→|×|\(|\{|=)", line))


def is_clause(line):
    return line.strip().startswith(("requires", "ensures"))


def owner_of(line):
    """The type that an `impl` is for, or a trait's name."""
    text = re.sub(r"<[^<>]*>", "", re.sub(r"<[^<>]*>", "", re.sub(r"<[^<>]*>", "", line)))
    words = re.findall(r"\w+", text.split(" for ")[-1] if " for " in text else text)
    words = [word for word in words if word not in ("pub", "unsafe", "impl", "trait", "crate", "mut", "a")]
    return words[0] if words else None


@functools.cache
def own_traits():
    """The names of the traits of all crates."""
    return {name for path in CRATES.glob("*/src/**/*.rt") for name in re.findall(r"^(?:pub )?trait (\w+)", path.read_text(), re.M)}


def views_of(path, names, is_public_module):
    """What the public types of a file are seen as, and what they give as the ghost members of traits."""
    seen = []
    for found in re.finditer(r"^impl[^\n]*\b(\w+)(?:<[^\n]*>)? for (\w+)(.*?)^\}", path.read_text(), re.M | re.S):
        if names is None or found[2] in names or is_public_module:
            # A model's invariant is for private steps, and so is what a trait of the kit asks.
            members = r"Value|view" if found[1] == "Model" else r"\w+ =" if found[1] in own_traits() else r"(?!)"
            seen += re.findall(rf"ghost (?:{members}).*", found[3])
    return "\n".join(seen)


def model_of(crate, parts):
    """What a type that a definition names is seen as, with the words that its file knows."""
    path = CRATES / crate / "src" / ("/".join(part for part in parts[:-1] if part[0].islower()) + ".rt")
    if not path.exists():
        return set(), {}
    text = path.read_text()
    name = next((part for part in parts if part[0].isupper()), parts[-1])
    block = re.search(rf"^impl[^\n]*\bModel for {name}\b(.*?)^\}}", text, re.M | re.S)
    if not block:
        return set(), {}
    return words_of("\n".join(re.findall(r"ghost (?:Value|view)\b.*", block[1]))), imported_by(text)


def main():
    files = {path: Specs(path) for path in sorted(CRATES.glob("*/specs/**/*.antt"))}
    due, reached, by = [], set(), {}
    for crate in sorted(CRATES.iterdir()):
        names, modules = exported(crate)
        for path in sorted((crate / "src").rglob("*.rt")):
            is_public_module = path.stem in modules
            text = contracts_of(path, names, is_public_module) + "\n" + views_of(path, names, is_public_module)
            for it in resolved(words_of(text), imported_by(path.read_text()), {}):
                due.append((it, str(path.relative_to(CRATES))))
    while due:
        (kind, first, second), source = due.pop()
        if kind == "type":
            key = ("type", first, tuple(second))
            if key in reached:
                continue
            reached.add(key)
            words, known = model_of(first, second)
            due += [(it, f"{first}: the model of {second[-1]}") for it in resolved(words, known, {})]
            continue
        if (first, second) in reached or first not in files or second not in files[first].own:
            continue
        reached.add((first, second))
        by[(first, second)] = source
        definition = files[first].own[second]
        due += [(it, f"{first.relative_to(CRATES)}: {second}") for it in files[first].cited_by(definition)]
    return tell(files, reached, by)


def tell(files, reached, by):
    """Prints the counts and what stands in the wrong folder, and returns the exit status."""
    totals, faults = collections.OrderedDict(), []
    for path, specs in files.items():
        crate, is_private = path.relative_to(CRATES).parts[0], PRIVATE in path.relative_to(CRATES).parts
        believed = [it for it in specs.own.values() if it.key() in reached]
        total = totals.setdefault(crate, [0, 0, 0, []])
        if believed and not is_private:
            total[0] += 1
            total[1] += len(believed)
            total[2] += sum(it.count() for it in believed)
            total[3].append((path, believed))
        if is_private:
            faults += [f"{path.relative_to(CRATES)}: {it.name} is reached by {by[it.key()]}" for it in believed]
        else:
            faults += [f"{path.relative_to(CRATES)}: {it.name} is reached by no public contract" for it in specs.own.values() if it.key() not in reached]
    for crate, (count, definitions, lines, paths) in totals.items():
        print(f"{crate:15} {count:3} files {definitions:4} definitions {lines:5} lines")
        for path, believed in paths if "--files" in sys.argv[1:] or "--names" in sys.argv[1:] else []:
            print(f"    {path.stem:22} {sum(it.count() for it in believed):5}")
            if "--names" in sys.argv[1:]:
                print("        " + " ".join(it.name for it in believed))
    print(f"{'in all':15} {sum(it[0] for it in totals.values()):3} files {sum(it[1] for it in totals.values()):4} definitions {sum(it[2] for it in totals.values()):5} lines")
    for fault in faults:
        print(fault, file=sys.stderr)
    return 1 if faults else 0


if __name__ == "__main__":
    sys.exit(main())
