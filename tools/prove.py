#!/usr/bin/env python3
"""Proves and builds the program xp, and before it the libraries it stands on: side by side where none stands on another.

    tools/prove.py [--keep]

A run of the kit's command rt keeps every other one out of its crate and of all libraries below, so two runs of
`rt lib` would wait for each other. So this takes the module that rt itself is made of, keeps other runs out of
all the crates once, and builds each library and the program with it.

A crate is proved from nothing, as the gate does it, and what stands on it reads its statements alone. With --keep, and where
a check by rt has kept work in a crate's out/incremental, all is built as `rt lib` and `rt run` do: from then on
a check of a crate proves what has changed. That takes longer the first time.

A run after one that was cut off goes on behind the crates that are proved.
"""

import argparse
import hashlib
import os
import queue
import resource
import shutil
import signal
import subprocess
import sys
import threading
import time

from kit import load_kit

TOP = os.path.dirname(os.path.dirname(os.path.realpath(__file__)))
PROGRAM = f"{TOP}/crates/xp"
# What the program is run on once it is built.
EXAMPLE = f"{TOP}/examples/three-stations.toml"

# Bytes, the most that the proof of a crate was seen to take: xp_console 3.9 GB, xp_lock 3.3, xp_lines 2.8, most others below 2.
# So four proofs at once fit into 16 GB. rt plans two to three times as much.
MEMORY_OF_A_PROOF = 4_000_000_000
# Lines from which a crate is proved sooner by several jobs, and how many: a crate of 800 lines took longer by four jobs than by one, and a
# large one by four took three times the processors' time that it takes by one.
LARGE, JOBS = 1000, 2
# Seconds after which a line says what is still running.
SILENCE = 60
LINES_SHOWN = 40


def say(text):
    print(f"xp: {text}", file=sys.stderr, flush=True)


def most_at_once(kit):
    """Returns how many proofs run at a time: one a processor, as many as the free memory holds."""
    found = 1
    while kit.fits(*[MEMORY_OF_A_PROOF] * (found + 1)):
        found += 1
    return found


def lines_of(kit, crate):
    return sum(kit.text_of(it).count("\n") for it in kit.files_of(crate.folder))


def processor_minutes():
    """The processor time of all proofs that have ended."""
    used = resource.getrusage(resource.RUSAGE_CHILDREN)
    return (used.ru_utime + used.ru_stime) / 60


def longest_chains(lines):
    """Returns for each crate the lines of the longest chain of crates that starts at it, each standing on the one before.

    It is given the lines of each crate, which come after those of the crates that it stands on."""
    above = dict.fromkeys(lines, 0)
    chains = {}
    for crate in reversed(list(lines)):
        chains[crate] = lines[crate] + above[crate]
        for below in crate.deps:
            above[below] = max(above[below], chains[crate])
    return chains


class KeptWork:
    """Libraries and the program built over what earlier checks kept in out/incremental, as by `rt lib` and `rt run`."""

    def __init__(self, kit):
        self.kit = kit

    @staticmethod
    def is_built(crate):
        return crate.is_built()

    @staticmethod
    def build(crate, jobs):
        return crate.build_rlib(["--jobs", str(jobs)], anew=False)

    def build_program(self, crate, jobs):
        run = [sys.executable, f"{TOP}/tools/kit.py", "run", "--jobs", str(jobs)]
        words = [*self.kit.guarded(), *run, "--", "check", EXAMPLE]
        return subprocess.run(words, cwd=crate.folder, stdin=subprocess.DEVNULL, stdout=crate.out, stderr=crate.out).returncode


class Statements:
    """Libraries and the program built from nothing. A library has its statements, and not its checked proofs."""

    def __init__(self, kit):
        self.kit = kit

    @staticmethod
    def mark_of(crate):
        """The file that says what a library was built from. A library that rt builds in its place has none."""
        return f"{crate.folder}/out/rlib/statements"

    def sum_of(self, crate):
        """A sum of what a library is built from. It fits only the very libraries that it was built over."""
        below = [self.kit.text_of(self.mark_of(it)) or "" for it in crate.deps]
        return hashlib.sha256("\n".join([crate.stamp(), *below]).encode()).hexdigest()

    def is_built(self, crate):
        return os.path.isdir(crate.rlib) and self.kit.text_of(self.mark_of(crate)) == self.sum_of(crate)

    def build(self, crate, jobs):
        made_from = self.sum_of(crate)
        shutil.rmtree(os.path.dirname(crate.rlib), ignore_errors=True)
        os.makedirs(os.path.dirname(crate.rlib))
        words = [*crate.words(["--jobs", str(jobs)], keeps=False), "--statements"]
        status = crate.call(self.kit.RATTLE, "build", *words, "-o", crate.rlib)
        if status == 0 and made_from == self.sum_of(crate):
            with open(self.mark_of(crate), "w", encoding="utf-8") as mark:
                mark.write(made_from)
        return status

    def build_program(self, crate, jobs):
        """Proves and compiles the program, links it as `rt run` does, and runs it once."""
        toolchain = ["--toolchain", f"{self.kit.KIT}/toolchain"]
        words = [*crate.words(["--jobs", str(jobs)], keeps=False), *toolchain, "--backend", "llvm"]
        status = crate.call(self.kit.RATTLE, "build", *words, "-o", "out/xp.o")
        if status:
            return status
        parts = ["out/xp.o", *(f"{self.kit.KIT}/c/{it}" for it in ("libos_c.a", "liblibc_c.a"))]
        words = ["--target", "x86_64-unknown-linux-gnu", *toolchain, "-o", "out/xp", *parts]
        return crate.call(f"{self.kit.KIT}/bin/rattle-link", *words) or crate.call(f"{crate.folder}/out/xp", "check", EXAMPLE)


class Proof:
    """The proof of all crates: which are done, which are running since when, and which are left."""

    def __init__(self, kit, keeps):
        self.kit = kit
        self.program = kit.Crate(PROGRAM, TOP, {})
        self.at_once = most_at_once(kit)
        # Each crate comes after those that it stands on.
        self.lines = {it: lines_of(kit, it) for it in [*self.program.below(), self.program]}
        self.way = KeptWork(kit) if keeps or any(it.has_kept() for it in self.lines) else Statements(kit)
        self.chains = longest_chains(self.lines)
        self.left = sorted(self.lines, key=lambda it: -self.chains[it])
        self.done = set()
        self.running = {}
        self.finished = queue.Queue()
        self.began = time.time()

    def log_of(self, crate):
        return f"{crate.folder}/out/xp.log"

    def run(self):
        """Proves all crates, and returns those that are not proved. What does not stand on these is proved all the same."""
        # This starts the process that ends every proof when this one ends, however it ends. It has to be there before any thread.
        self.kit.guarded()
        self.held = self.kit.lock(self.program.below())
        for crate in self.lines:
            self.kit.stop_on_links(crate.folder)
        self.skip_what_is_built()
        news, failed = f"{len(self.done)} from before" if self.done else "", []
        self.start_what_can_run()
        while self.running:
            self.tell(news)
            crate, status, seconds = self.next_finished()
            if status:
                failed.append(crate)
                news = f"{crate.name} is not proved"
            else:
                self.done.add(crate)
                news = f"{crate.name} took {seconds:.0f} s"
            self.start_what_can_run()
        self.tell(f"{news}; {processor_minutes():.0f} processor minutes")
        return failed

    def skip_what_is_built(self):
        for crate in self.program.below():
            # What stands on a library that is built anew is built anew too.
            if self.done.issuperset(crate.deps) and self.way.is_built(crate):
                self.done.add(crate)
        self.left = [it for it in self.left if it not in self.done]

    def start_what_can_run(self):
        for crate in list(self.left):
            if len(self.running) < self.at_once and self.done.issuperset(crate.deps):
                self.left.remove(crate)
                self.running[crate] = time.time()
                threading.Thread(target=self.build, args=[crate, self.jobs_for(crate)], daemon=True).start()

    def jobs_for(self, crate):
        """Returns in how many processes the crate is proved: more than one where it has the longest chain."""
        leads = all(self.chains[crate] >= self.chains[it] for it in self.running)
        return min(JOBS, self.at_once) if leads and self.lines[crate] >= LARGE else 1

    def build(self, crate, jobs):
        status = 1
        try:
            os.makedirs(f"{crate.folder}/out", exist_ok=True)
            with open(self.log_of(crate), "w", encoding="utf-8", errors="replace") as crate.out:
                if crate is self.program:
                    # Nothing else runs by now. Where rt builds the program, it keeps other runs out itself.
                    for it in self.held:
                        os.close(it)
                    status = self.way.build_program(crate, jobs)
                else:
                    status = self.way.build(crate, jobs)
        finally:
            self.finished.put((crate, status))

    def next_finished(self):
        """Waits for a crate to finish, and returns it, its status and how long it took. Says now and then what is running."""
        while True:
            try:
                crate, status = self.finished.get(timeout=SILENCE)
                return crate, status, time.time() - self.running.pop(crate)
            except queue.Empty:
                self.tell("")

    def tell(self, news):
        minutes = (time.time() - self.began) / 60
        parts = [f"{len(self.done)} of {len(self.lines)} proved after {minutes:.0f} min", news]
        since = [f"{it.name} since {time.strftime('%H:%M', time.localtime(at))}" for it, at in self.running.items()]
        parts.append(f"running: {', '.join(since)}" if since else "")
        say("; ".join(filter(None, parts)))


def show_end(log):
    with open(log, encoding="utf-8", errors="replace") as it:
        sys.stderr.writelines(it.readlines()[-LINES_SHOWN:])


def main():
    parser = argparse.ArgumentParser(description="Proves and builds the program xp, and the libraries it stands on.")
    parser.add_argument("--keep", action="store_true", help="keep what checks by rt go on from (default: where they have kept something)")
    keeps = parser.parse_args().keep
    try:
        proof = Proof(load_kit(), keeps)
        failed = proof.run()
    except KeyboardInterrupt:
        say("stopped; the next run goes on from here")
        # The shell that waits for this then ends too.
        signal.signal(signal.SIGINT, signal.SIG_DFL)
        os.kill(os.getpid(), signal.SIGINT)
    for crate in failed:
        show_end(proof.log_of(crate))
        say(f"the program was not built, since {crate.name} was not; {proof.log_of(crate)} has the whole")
    return 1 if failed else 0


if __name__ == "__main__":
    sys.exit(main())
