#!/usr/bin/env python3
"""The file of call detail records of an exchange is moved, removed or rotated while calls come and go: a new one is begun at its path.

README.md says what is checked.
"""

import concurrent.futures
import contextlib
import gzip
import os
import pathlib
import shutil
import subprocess
import threading
import time

import server
from disk import library_in, numbers
from records_file import refused_call, rows_of
from served import Served, require, run_script, station, until

TOP = server.HERE.parent.parent

# Lines that call at the same time.
LINES = 4

# How often a file is renamed.
TIMES = 10

# Seconds of calls between what happens to a file.
BETWEEN = 0.5

# Seconds within which it is told that a new file is begun, and some for a machine that does other things too.
TOLD = 1 + 2

BEGUN = "cdr: the file was moved or removed: a new one is begun at its path"
NOT_BEGUN = "cdr: a new file can't be begun: holds something else than call detail records"


class Calling(Served):
    """An exchange whose lines make calls to an address that nobody has, one after the other, and whose records go to a file."""

    def __init__(self, program, folder, details, environment=None):
        self.base, self.made, self.is_over = server.free_ports(LINES), [0] * LINES, threading.Event()
        lines = [(f"b{place}", self.base + place, "") for place in range(LINES)]
        super().__init__(program, folder, station("200002", *lines), "--cdr", details, environment=environment)

    def call(self, place, line):
        while not self.is_over.is_set():
            refused_call(line)
            self.made[place] += 1

    @contextlib.contextmanager
    def calls(self):
        """Calls come and go until the block ends, and then the exchange ends."""
        lines = [self.rise(self.base + place) for place in range(LINES)]
        with concurrent.futures.ThreadPoolExecutor(LINES) as pool:
            callers = [pool.submit(self.call, place, line) for place, line in enumerate(lines)]
            try:
                time.sleep(BETWEEN)
                yield
                time.sleep(BETWEEN)
            finally:
                self.is_over.set()
            for caller in callers:
                caller.result()
        require(self.end() == 0, f"it ended badly; {self.said()}")
        require(self.printed() == "", "it has printed something")

    def wait_until_begun(self, count, most=TOLD):
        """It has to tell soon that a new file is begun, for the so manieth time."""
        until(lambda: self.told().count(BEGUN) == count, f"the new file {count} is not told; {self.said()}", most)


def require_all(exchange, files):
    """The files have the record of each call once, in order, and each has some. `files` are the numbers in each of them."""
    wanted = list(range(1, sum(exchange.made) + 1))
    found = sum(files, [])
    require(found == wanted, f"{len(found)} records are there of {len(wanted)} calls, or in another order")
    require(all(files), f"the files have {[len(it) for it in files]} records")


def renamed(program, folder):
    """The file is renamed ten times under calls: each time a new one is begun and told, and they have each record once, in order."""
    details = pathlib.Path(folder) / "renamed.csv"
    moved = [pathlib.Path(folder) / f"renamed-{place}.csv" for place in range(TIMES)]
    with Calling(program, folder, details) as exchange, exchange.calls():
        for count, path in enumerate(moved, 1):
            details.rename(path)
            exchange.wait_until_begun(count)
            time.sleep(BETWEEN)
    require_all(exchange, [numbers(rows_of(path)) for path in (*moved, details)])
    require(exchange.told().count(BEGUN) == TIMES, f"it is told otherwise; {exchange.said()}")


def removed(program, folder):
    """The file is removed once under calls: a new one is begun and told, and has all records that were not in the old one."""
    details = pathlib.Path(folder) / "removed.csv"
    with Calling(program, folder, details) as exchange, exchange.calls():
        # A write may be under way.
        last = details.read_text().count("\n") - 1
        details.unlink()
        exchange.wait_until_begun(1)
        ended = sum(exchange.made) + LINES
    found = numbers(rows_of(details))
    require(found == list(range(found[0], sum(exchange.made) + 1)), "the new file lacks records, or has them in another order")
    require(last < found[0] <= ended + 1, f"the new file begins with {found[0]}, the old one had {last}, {ended} had ended")


def something_else(program, folder):
    """Something else takes the file's place: it is told once and left alone, and the moved file goes on until the path is free."""
    details, moved = (pathlib.Path(folder) / name for name in ("else.csv", "else-moved.csv"))
    other = pathlib.Path(folder) / "note"
    other.write_text("a note")
    with Calling(program, folder, details) as exchange, exchange.calls():
        os.link(details, moved)
        other.replace(details)
        exchange.wait_until_told(NOT_BEGUN)
        time.sleep(2)
        require(exchange.told().count("can't be begun") == 1, f"it is not told once; {exchange.said()}")
        require(details.read_text() == "a note", "what was at the path has changed")
        details.unlink()
        # It is tried again each second.
        exchange.wait_until_begun(1, 1 + TOLD)
    require_all(exchange, [numbers(rows_of(path)) for path in (moved, details)])


def as_syncs_fail(program, folder):
    """The file is moved while what was written to it is in doubt: that is put right there, and then a new file is begun at its path, once that is free."""
    for is_taken in (False, True):
        details, moved = (pathlib.Path(folder) / f"{name}-{is_taken}.csv" for name in ("failing", "failing-moved"))
        other = pathlib.Path(folder) / "failing-note"
        other.write_text("a note")
        # The syncs are those of the file at the path. The last one may be that of the new file.
        disk = {"LD_PRELOAD": str(library_in(folder)), "XP_DISK_FILE": str(details), "XP_DISK_SYNCS": "3,4,5"}
        with Calling(program, folder, details, disk) as exchange, exchange.calls():
            exchange.wait_until_told("call detail records wait: ")
            if is_taken:
                os.link(details, moved)
                other.replace(details)
            else:
                details.rename(moved)
            exchange.wait_until_told("call detail records are written again")
            if is_taken:
                exchange.wait_until_told(NOT_BEGUN)
                require(details.read_text() == "a note", "what was at the path has changed")
                details.unlink()
            # Both are tried again each second.
            exchange.wait_until_begun(1, 3 + TOLD)
        require_all(exchange, [numbers(rows_of(path)) for path in (moved, details)])


def unpacked(path):
    """The path of a file that may be packed, unpacked."""
    if path.suffix != ".gz":
        return path
    made = path.with_suffix("")
    made.write_bytes(gzip.decompress(path.read_bytes()))
    return made


def by_logrotate(program, folder):
    """logrotate rotates the file twice, by examples/logrotate.conf: three files have each record once, in order, the first one packed."""
    command = shutil.which("logrotate", path=f"{os.environ['PATH']}:/usr/sbin")
    if command is None:
        print("by_logrotate: passed over, since no logrotate is here", flush=True)
        return
    place = pathlib.Path(folder) / "logrotate"
    place.mkdir()
    details, configuration = place / "calls.csv", pathlib.Path(folder) / "logrotate.conf"
    text = (TOP / "examples/logrotate.conf").read_text().replace("/var/lib/xp/calls.csv", str(details))
    # So that two files of one day have names of their own.
    configuration.write_text(text.replace("dateext", "dateext\n    dateformat -%Y%m%d-%s"))
    words = [command, "--force", "--state", pathlib.Path(folder) / "logrotate.state", configuration]
    with Calling(program, folder, details) as exchange, exchange.calls():
        for count in (1, 2):
            subprocess.run(words, check=True)
            exchange.wait_until_begun(count)
            time.sleep(1.1)
    files = sorted(place.glob("calls.csv-*"))
    require([path.suffix == ".gz" for path in files] == [True, False], f"logrotate has left {files}")
    require_all(exchange, [numbers(rows_of(unpacked(path))) for path in (*files, details)])


CHECKS = (renamed, removed, something_else, as_syncs_fail, by_logrotate)


if __name__ == "__main__":
    run_script(__doc__, CHECKS)
