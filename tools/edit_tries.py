"""Tries of edits for tools/edits.py: one edit alone, and several of a crate at once."""

import hashlib
import pathlib
import re

from functions import Source

# The functions that are tried at most because they name the one that is changed.
MOST_CALLERS = 12
# The status of a check of a function that the prover has not, or of which it has several.
UNKNOWN_NAME = 2
ONE_JOB = ["--jobs", "1"]
# Names that tell nothing of who calls a function.
METHODS_OF_TRAITS = {"clone", "default", "drop", "eq", "fmt", "from", "hash", "new", "next"}
# An open goal, or an error of a proof.
OPEN = re.compile(r"note: \S+:\d+:\d+: |\S+:\d+:\d+: error|note: `\S+` of \S+ must prove")
# A proof that only cites a name which the edit took away says nothing of the contract.
LOST_NAME = re.compile(r"has no field|is not in scope|has no `|was not admitted")


class Earlier:
    """The edits of a crate that earlier runs on this machine saw refused. A name of the kit's store is a sum of all that the try rests on."""

    def __init__(self, kept, crate):
        self.kept = kept
        self.sum = hashlib.sha256(pathlib.Path(__file__).read_bytes()).hexdigest() + kept.key(crate)

    def refusal(self, edit):
        """What was said as this edit was refused, if it was."""
        kind, said = self.kept.tried(self.kept.of_edit(str(edit), self.sum)) or (None, None)
        return said if kind else None

    def keep(self, gate, edit, said):
        self.kept.keep_tried(self.kept.of_edit(str(edit), self.sum), gate.REFUSED, said)


def refusals(gate):
    """What the gate's own try of an edit tells where the prover refuses it: some kits have words for that."""
    return {True, *(getattr(gate, name) for name in ("REFUSED", "AT_LIMIT") if hasattr(gate, name))}


class Try:
    """A try of one edit: what it came to, and how."""

    def __init__(self, gate, crate, edit, earlier):
        self.gate, self.crate, self.edit, self.earlier = gate, crate, edit, earlier
        self.label = f"{crate.name}/{edit.name}"

    def run(self):
        """Tries the edit alone. Returns what came of it, by itself."""
        if told := self.refused_before():
            return {self: (True, told)}
        try:
            is_refused, said = self.tried()
        except Exception as error:  # pylint: disable=broad-except
            is_refused, said = False, f"NOT TRIED: {error}"
        if is_refused:
            self.keep(said)
        return {self: (is_refused, said)}

    @staticmethod
    def left(_results):
        """What has still to be tried: nothing."""
        return []

    def refused_before(self):
        """What an earlier run on this machine said as it saw the edit refused, if one did."""
        told = self.earlier and self.earlier.refusal(self.edit)
        return told and f"an earlier run on this machine: {told}"

    def keep(self, said):
        """Keeps that the edit was refused."""
        if self.earlier:
            self.earlier.keep(self.gate, self.edit, said)

    def tried(self):
        """Tries the edit. Returns whether it is refused, and what to say of it."""
        texts, why = self.gate.read_edit(str(self.edit), self.crate.folder)
        if why:
            return False, f"BAD EDIT: {why}"
        notes = ""
        for how, functions in self.steps():
            ran = self.only(texts, functions) if functions else None
            refusal = ran and self.refusal(ran, texts)
            if refusal:
                return True, f"{how}: {refusal}"
            if ran and ran.returncode == UNKNOWN_NAME:
                notes += f" (the prover has no one function of each name: {' '.join(functions)})"
        # The judgement of the whole crate is the gate's own.
        kind, said = self.gate.must_fail(self.crate, str(self.edit), ONE_JOB)
        said = said.partition(": ")[2]
        return kind in refusals(self.gate), f"the whole crate{notes}: {said}"

    def run_unedited(self):
        """Returns whether the functions that the edit changes are proved as they stand."""
        _, functions = next(self.steps())
        ran = self.only({}, functions)
        return ran.returncode == 0, ran.stdout.rstrip("\n").split("\n")[-1]

    def steps(self):
        """The functions that the edit changes, and then those that name one of them, or a constant that it changes."""
        changed, names = self.changed()
        yield "the function", changed
        naming = {it for file in self.sources() for it in file.naming(names)} - set(changed)
        if naming and len(naming) <= MOST_CALLERS:
            yield "what names it", sorted(naming)

    def sources(self):
        folder = pathlib.Path(self.crate.folder) / "src"
        return [Source(folder, it) for it in sorted(folder.rglob("*.rt"))]

    def changed(self):
        """The functions that the texts behind `old:` stand in, and the names of these and of constants that are changed."""
        folder, found, names, source = pathlib.Path(self.crate.folder) / "src", [], set(), None
        for line in self.edit.read_text(encoding="utf-8").split("\n"):
            if line.startswith("file: "):
                path = pathlib.Path(self.crate.folder) / line[len("file: ") :].strip()
                source = Source(folder, path) if path.is_relative_to(folder) else None
            elif line.startswith("old: ") and source:
                function, constant = source.function_with(line[len("old: ") :]), source.constant_with(line[len("old: ") :])
                found += [function] if function and function not in found else []
                names |= {it for it in (constant, function and function.rpartition("::")[2]) if it}
        return found, names - METHODS_OF_TRAITS

    def only(self, texts, functions):
        words = [word for it in functions for word in ("--only", it)]
        return self.gate.checked(self.crate, texts, [*ONE_JOB, *words], None)

    def refusal(self, ran, texts):
        """Returns the first open goal or error of a check of some functions, if it is the contract that refuses them."""
        lines = ran.stdout.rstrip("\n").split("\n")
        proved = re.fullmatch(r"only=(\d+) proved=(\d+)", lines[-1])
        if ran.returncode != 1 or not proved or int(proved[1]) <= int(proved[2]):
            return None
        if any(self.gate.unread(it, texts) for it in lines):
            return None
        told = [it for it in lines if OPEN.match(it) and not LOST_NAME.search(it)]
        return told[0][:150] if told else None


# Several tries ---------------------------------------------------------------------------------------------------


def pairs_of(edit):
    """The changes of an edit: the file, the old text and the new one of each."""
    path, old, found = None, None, []
    for line in edit.read_text(encoding="utf-8").split("\n"):
        word, _, rest = line.partition(": ")
        if word == "file":
            path = rest.strip()
        elif word == "old":
            old = rest
        elif line.startswith("new:"):
            found.append((path, old, rest))
    return found


class Batch:
    """Edits of a crate that change functions of their own, and are made together."""

    def __init__(self, crate):
        self.crate, self.tries, self.texts, self.functions = crate, [], {}, {}

    def take(self, one):
        """Takes an edit, and returns whether it could: its functions are no others', and its texts are there once."""
        functions, _ = one.changed()
        if not functions or set(functions) & set(self.functions) or one.gate.read_edit(str(one.edit), self.crate.folder)[1]:
            return False
        texts = dict(self.texts)
        for path, old, new in pairs_of(one.edit):
            text = texts.get(path) or (pathlib.Path(self.crate.folder) / path).read_text(encoding="utf-8")
            if text.count(old) != 1:
                return False
            texts[path] = text.replace(old, new)
        self.texts = texts
        self.functions |= dict.fromkeys(functions, one)
        self.tries.append(one)
        return True

    def run(self):
        """Tries the edits at once. Returns those that are refused so, or were by an earlier run, with what to say."""
        results = {it: (True, told) for it in self.tries if (told := it.refused_before())}
        left = self.left(results)
        if len(left) < 2:
            return results
        # A function is proved over the contracts of those that it calls, so what another edit does to their bodies is nothing to it.
        functions = {name: it for name, it in self.functions.items() if it in left}
        ran = left[0].only(self.texts, functions)
        lines = ran.stdout.rstrip("\n").split("\n")
        if ran.returncode == 1 and not any(left[0].gate.unread(it, self.texts) for it in lines):
            for name, it in functions.items():
                if told := open_goal(lines, self.crate.name, name):
                    results[it] = True, f"the function: {told}"
                    it.keep(results[it][1])
        return results

    def left(self, results):
        return [it for it in self.tries if it not in results]


def open_goal(lines, crate, name):
    """What is told of an open goal of the function with this name, if there is one and one function alone has this name."""
    told = [it for it in (re.fullmatch(r"fn (\S+): (proved|not proved|no proof: .*)", line) for line in lines) if it]
    named = [it for it in told if it[1] == f"{crate}::{name}" or it[1].endswith(f"::{name}")]
    if len(named) != 1 or named[0][2] == "proved":
        return None
    if named[0][2].startswith("no proof"):
        return named[0][0][:150]
    folder = "/".join(named[0][1].split("::")[1:])
    goals = [it for it in lines if f"proofs/{folder}/" in it and OPEN.match(it) and not LOST_NAME.search(it)]
    return goals[0][:150] if goals else None


def batches_of(tries):
    """The tries in batches, a crate each, and those alone that their crate's batch cannot take. They stay in their order."""
    found, batches = [], {}
    for it in tries:
        batch = batches.get(it.crate.name)
        if batch is None:
            batch = batches[it.crate.name] = Batch(it.crate)
            found.append(batch)
        if not batch.take(it):
            found.append(it)
    return [it for it in found if not isinstance(it, Batch) or it.tries]
