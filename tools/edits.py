#!/usr/bin/env python3
"""Tries the edits of crates/*/edits, each of which the prover has to refuse.

An edit is a file as in must-fail/ (CONTRIBUTING.md). Those of must-fail/ are tried by the gate, which proves their crates once more from nothing.
Those of edits/ are tried here, in a copy of the crates, over the libraries that `rt ci` or `./xp prove` left on this machine. Edits of a crate that
change functions of their own are made together, and only these functions are proved: an edit is refused where its own function has an open goal.
What is not refused so is tried alone: in its function, then in the functions of the crate that name it, and then in the whole crate. One that is still proved, that cannot be applied or read, or that was not tried, fails.

That an edit was refused is kept on this machine, where the kit keeps what `rt ci` proved, until the edit, its crate, a library below or this tool
changes.

    tools/edits.py [--list] [--unedited] [--anew] [--jobs N] [CRATE | CRATE/EDIT ..]

It prints a line for each edit, as it ends, and last `N passed, M failed`; the exit status is 1 where one failed.
"""

import argparse
import contextlib
import importlib.machinery
import importlib.util
import os
import pathlib
import re
import shutil
import subprocess
import sys
import tempfile
import time
from concurrent.futures import FIRST_COMPLETED, ThreadPoolExecutor, wait

from edit_tries import Earlier, Try, batches_of
from kit import without_repeats

TOP = pathlib.Path(__file__).resolve().parent.parent
NAME = re.compile(r"[A-Za-z0-9_-][A-Za-z0-9_.-]*\.edit")

# The most that a try was seen to take, in octets.
MEMORY_OF_A_TRY = 1_800_000_000


def load_gate():
    """Returns the module that the kit's command rt is."""
    page = subprocess.run(["rt", "doc"], stdout=subprocess.PIPE, text=True, check=True)
    file = f"{os.path.dirname(page.stdout.strip())}/bin/rt"
    # The kit's folder is left as it is.
    sys.dont_write_bytecode = True
    loader = importlib.machinery.SourceFileLoader("rt_gate", file)
    gate = importlib.util.module_from_spec(importlib.util.spec_from_loader("rt_gate", loader))
    loader.exec_module(gate)
    for name in ("below", "stamp"):
        setattr(gate.rtlib.Crate, name, without_repeats(getattr(gate.rtlib.Crate, name)))
    return gate


def found_edits(names):
    """Returns the edits with these names, all if there are none, and the files beside them that are no edits."""
    edits, others = [], []
    for path in sorted(TOP.glob("crates/*/edits/*")):
        crate = path.parent.parent.name
        if names and crate not in names and f"{crate}/{path.stem}" not in names and f"{crate}/{path.name}" not in names:
            continue
        (edits if path.is_file() and NAME.fullmatch(path.name) else others).append(path)
    return edits, [it for it in others if it.suffix != ".md"]


# The libraries below ---------------------------------------------------------------------------------------------


def copy_crates(root):
    """Copies the crates, without what was made of them, and what says how they belong together."""
    shutil.copytree(TOP / "crates", f"{root}/crates", ignore=lambda at, _: ["out"] if pathlib.Path(at).parent == TOP / "crates" else [])
    for name in ("crates.txt", "HANDLES"):
        shutil.copy(TOP / name, root)


def link_or_copy(file, to):
    """Links a file, or copies it where it is on another disk."""
    try:
        os.link(file, to)
    except OSError:
        shutil.copy2(file, to)


class Libraries:
    """A copy of the crates, with the libraries that are needed, as they were proved from the same sources."""

    def __init__(self, gate, room, names):
        self.gate, self.root = gate, f"{room}/repo"
        copy_crates(self.root)
        # The copy is the top of a repository.
        os.mkdir(f"{self.root}/.git")
        os.chdir(self.root)
        gate.Crate.allowed = gate.handles_of(self.root)
        gate.rtlib.Crate = gate.Crate
        self.crates = {it.name: it for it in gate.rtlib.crates_below(self.root)}
        self.needed = {below.name for name in names for below in self.crates[name].below()}
        # What this machine keeps of earlier runs, once all libraries are from there.
        self.kept = None

    def bring(self):
        """Brings the libraries, all from one source. Returns those that no source has whole, as the best source told."""
        sources = [lambda: self.from_tree(self.is_built_in_tree), lambda: self.from_tree(self.is_left_by_gate)]
        if hasattr(self.gate, "Kept"):
            sources.insert(0, self.from_store)
        lacking = []
        for source in sources:
            lacking.append(source())
            if not lacking[-1]:
                return []
        return min(lacking, key=len)

    def from_store(self):
        """What `rt ci` keeps on this machine, by the sum of all that it was made from, where the kit has a store."""
        kept, lacking = self.gate.Kept([*self.crates.values()]), []
        for crate in self.crates.values():
            if crate.name in self.needed:
                if lacking or not kept.give(crate, False, kept.key(crate)):
                    lacking.append(crate.name)
                else:
                    kept.is_built(crate)
        self.kept = None if lacking else kept
        return lacking

    def earlier(self, crate):
        """What earlier runs came to with the edits of a crate, where it is kept."""
        return self.kept and Earlier(self.kept, crate)

    def from_tree(self, is_current):
        known = {}
        own = {it: self.gate.rtlib.Crate(f"{TOP}/crates/{it}", str(TOP), known) for it in sorted(self.needed)}
        lacking = [name for name, crate in own.items() if not is_current(crate)]
        for name in self.needed if not lacking else ():
            to = f"{self.crates[name].folder}/out/rlib"
            shutil.rmtree(to, ignore_errors=True)
            shutil.copytree(f"{own[name].folder}/out/rlib", to, copy_function=link_or_copy)
        return lacking

    @staticmethod
    def is_built_in_tree(crate):
        # What a crate was made from is summed up anew for each that stands on it, so only where there is a sum to compare.
        return os.path.isfile(f"{crate.folder}/out/rlib/stamp") and crate.is_built()

    def is_left_by_gate(self, crate):
        """A library that `rt ci` built in this tree has no stamp, and is younger than all that it was made from."""
        made = pathlib.Path(crate.rlib) / "format"
        if not made.is_file() or (made.parent.parent / "stamp").exists():
            return False
        sources = [file for it in [crate, *crate.below()] for file in self.gate.rtlib.files_of(it.folder)]
        return made.stat().st_mtime > max(os.stat(it).st_mtime for it in sources)


# All of them -----------------------------------------------------------------------------------------------------


def most_at_once(gate):
    """Returns how many tries run at a time: one a processor, as many as the free memory holds."""
    return max(1, min(gate.processors(), int(gate.free() // MEMORY_OF_A_TRY)))


def timed(call):
    began = time.monotonic()
    return call(), time.monotonic() - began


def try_all(batches, at_once):
    """Tries the edits of these batches side by side, a line for each as it ends. Returns how many failed. What a batch does not settle is tried alone."""
    failed = 0
    with ThreadPoolExecutor(at_once) as pool:
        running = {pool.submit(timed, it.run): it for it in batches}
        while running:
            for ended in wait(running, return_when=FIRST_COMPLETED).done:
                batch, (results, seconds) = running.pop(ended), ended.result()
                for it, (holds, said) in results.items():
                    failed += not holds
                    print(f"{'ok  ' if holds else 'FAIL'} edit {it.label} ({seconds:.0f} s): {said}", flush=True)
                running |= {pool.submit(timed, it.run): it for it in batch.left(results)}
    return failed


def try_unedited(tries):
    """Proves the functions that each edit changes, as they stand. Returns how many edits have one that is not proved."""
    failed = 0
    for it in tries:
        holds, said = it.run_unedited()
        failed += not holds
        print(f"{'ok  ' if holds else 'FAIL'} edit {it.label}: {said}", flush=True)
    return failed


def main():
    parser = argparse.ArgumentParser(description=__doc__.splitlines()[0])
    parser.add_argument("names", nargs="*", metavar="NAME", help="a crate, or CRATE/EDIT (default: all)")
    parser.add_argument("--list", action="store_true", help="list the edits, and try none")
    parser.add_argument("--unedited", action="store_true", help="try the functions as they stand: each has to be proved")
    parser.add_argument("--anew", action="store_true", help="try those again that an earlier run saw refused")
    parser.add_argument("--jobs", type=int, help="tries at a time (default: one a processor, as the memory allows)")
    arguments = parser.parse_args()

    edits, others = found_edits(arguments.names)
    if arguments.list:
        print("\n".join(f"{it.parent.parent.name}/{it.stem}" for it in edits))
        return 0
    for it in others:
        print(f"FAIL edit {it.relative_to(TOP)}: BAD EDIT: its name does not end in .edit")
    failed = len(others) + (not edits)
    with contextlib.chdir(TOP), tempfile.TemporaryDirectory(prefix=f"rt-edits-{os.getpid()}-") as room:
        gate = load_gate()
        # This starts the process that ends every try when this one ends. It has to be there before any thread.
        gate.rtlib.guarded()
        libraries = Libraries(gate, room, {it.parent.parent.name for it in edits})
        lacking = libraries.bring()
        if lacking:
            print(f"edits: the libraries below are not proved as they stand here: {' '.join(lacking)}; run rt ci, or ./xp prove, first")
            failed += len(edits)
        else:
            crates = [libraries.crates[it.parent.parent.name] for it in edits]
            earlier = {it.name: None if arguments.anew else libraries.earlier(it) for it in crates}
            tries = [Try(gate, crate, it, earlier[crate.name]) for crate, it in zip(crates, edits)]
            # The dearest begin first.
            tries.sort(key=lambda it: -len(it.crate.below()))
            at_once = min(arguments.jobs or gate.processors(), most_at_once(gate))
            failed += try_unedited(tries) if arguments.unedited else try_all(batches_of(tries), at_once)
        os.chdir(TOP)
    print(f"{len(edits) + len(others) - min(failed, len(edits) + len(others))} passed, {failed} failed")
    return 1 if failed else 0


if __name__ == "__main__":
    sys.exit(main())
