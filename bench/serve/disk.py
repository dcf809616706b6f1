#!/usr/bin/env python3
"""Disks that fail under the file of call detail records, and outputs that take nothing: no record is lost, and no line waits.

A small library (disk.c, built by `cc`) stands before the C library: it has some syncs of the file fail, and loses what the last good
one had not brought to the disk; or it has a write of the file never end.
"""

import os
import pathlib
import re
import subprocess
import time

import server
from records_file import refused_call, rows_of, seconds_of, waiting
from routers import Wrong
from served import Served, require, run_script, station, until

# Calls of a check, of which each is refused, and so ends at once.
CALLS = 200

# Seconds after which a thread that keeps records is given up, and some for a machine that does other things too.
GIVEN_UP = 10 + 20


class Disk(Served):
    """An exchange of one line whose file of call detail records lies on a disk that fails as the words say."""

    def __init__(self, program, folder, details, library, **fails):
        self.port = server.free_ports(2)
        self.console = self.port + 1
        environment = {"LD_PRELOAD": str(library), "XP_DISK_FILE": str(details), **fails}
        words = ["--cdr", details, "--console", f"127.0.0.1:{self.console}"]
        super().__init__(program, folder, station("200002", ("b1", self.port, "")), *words, environment=environment)

    def line(self):
        return self.rise(self.port)

    def end_late(self):
        """Its status, where it may wait for a thread that it gives up."""
        self.process.stdin.close()
        try:
            status = self.process.wait(GIVEN_UP)
        except subprocess.TimeoutExpired:
            raise Wrong(f"it has not ended in {GIVEN_UP} seconds") from None
        for reader in self.readers:
            reader.join(5)
        return status


def library_in(folder):
    made = pathlib.Path(folder) / "disk.so"
    words = ["cc", "-O2", "-shared", "-fPIC", "-o", str(made), str(server.HERE / "disk.c")]
    subprocess.run(words, check=True)
    return made


def numbers(rows):
    return [int(row["number"]) for row in rows]


def printed_numbers(exchange):
    """The numbers of the call detail records that it has printed."""
    return [int(line.split(",")[1]) for line in exchange.printed().splitlines()]


# ---- syncs that fail


def syncs_that_fail(program, folder):
    """The 2nd, 4th and 7th sync fail and lose what was not on the disk: the file has each record once, in order."""
    details = pathlib.Path(folder) / "syncs.csv"
    with Disk(program, folder, details, library_in(folder), XP_DISK_SYNCS="2,4,7") as exchange:
        line = exchange.line()
        for place in range(CALLS):
            refused_call(line)
            # So that there are several syncs.
            if place % 20 == 0:
                time.sleep(0.3)
        # The 3rd and the 5th are of the file that is opened anew, so the first two failures are told as one.
        exchange.wait_until_told("call detail records are written again", 2)
        until(lambda: waiting(exchange.connect(exchange.console)) == 0, "records wait that were written")
        require(exchange.told().count("call detail records wait: ") == 2, f"the failures are told otherwise; {exchange.said()}")
        require(exchange.end_late() == 0, f"it ended badly; {exchange.said()}")
        require(exchange.printed() == "", "it has printed something")
    require(numbers(rows_of(details)) == list(range(1, CALLS + 1)), f"the file has {numbers(rows_of(details))}")


def syncs_that_go_on_to_fail(program, folder):
    """From the 3rd on each sync fails: the console counts the records behind as waiting, and the end prints them, with status 5."""
    details = pathlib.Path(folder) / "doubt.csv"
    with Disk(program, folder, details, library_in(folder), XP_DISK_SYNCS="3-") as exchange:
        line = exchange.line()
        refused_call(line)
        until(lambda: waiting(exchange.connect(exchange.console)) == 0, "the first record is not kept")
        for _ in range(CALLS):
            refused_call(line)
        # So the alert of records that wait is also one of syncs that fail.
        until(lambda: waiting(exchange.connect(exchange.console)) == CALLS, "records do not wait that were not synced")
        require(exchange.end_late() == 5, f"it ended otherwise; {exchange.said()}")
        require("xp: cdr" in exchange.told(), f"it has not told it; {exchange.said()}")
        require(printed_numbers(exchange) == list(range(2, CALLS + 2)), f"it has printed {printed_numbers(exchange)}")
    require(numbers(rows_of(details))[:1] == [1], f"the file has {numbers(rows_of(details))}")


# ---- what never ends


def write_that_hangs(program, folder):
    """A write of the file never ends: calls go on, the console tells what waits, and the end prints it, with status 5."""
    details = pathlib.Path(folder) / "hung.csv"
    # The first write is that of the names of the columns.
    with Disk(program, folder, details, library_in(folder), XP_DISK_WRITE="3") as exchange:
        line = exchange.line()
        refused_call(line)
        until(lambda: waiting(exchange.connect(exchange.console)) == 0, "the first record is not kept")
        begun = time.monotonic()
        for _ in range(CALLS):
            refused_call(line)
        require(time.monotonic() - begun < 30, "calls wait for the file")
        until(lambda: waiting(exchange.connect(exchange.console)) == CALLS, "the console shows otherwise what waits")
        require(exchange.end_late() == 5, f"it ended otherwise; {exchange.said()}")
        require("xp: cdr" in exchange.told(), f"it has not told it; {exchange.said()}")
        require(printed_numbers(exchange) == list(range(2, CALLS + 2)), f"it has printed {printed_numbers(exchange)}")
    require(numbers(rows_of(details)) == [1], f"the file has {numbers(rows_of(details))}")


def output_that_nobody_reads(program, folder):
    """Nobody reads the records that are printed: calls go on, and the end tells how many were lost with standard output."""
    port, calls = server.free_ports(1), 3_000
    read, written = os.pipe()
    try:
        with Served(program, folder, station("200002", ("b1", port, "")), output=written) as exchange:
            line = exchange.rise(port)
            for _ in range(calls):
                refused_call(line)
            exchange.process.stdin.close()
            status = exchange.process.wait(GIVEN_UP)
            exchange.readers[0].join(5)
            require(status == 5, f"it ended with {status}; {exchange.said()}")
            lost = re.search(r"standard output takes nothing: (\d+) charging records were lost", exchange.told())
            require(lost and 0 < int(lost[1]) < calls, f"it has told it so: {exchange.told()}")
            require("xp: output" in exchange.told(), f"it has not told why it ended: {exchange.told()}")
    finally:
        os.close(read)
        os.close(written)


# ---- two runs


def two_runs_of_one_second(program, folder):
    """Runs that begin in the same second have moments of their own, a second apart."""
    details = pathlib.Path(folder) / "runs.csv"
    for _ in range(3):
        with Disk(program, folder, details, library_in(folder)) as exchange:
            refused_call(exchange.line())
            require(exchange.end_late() == 0, f"it ended badly; {exchange.said()}")
    begun = [seconds_of(row["started"]) for row in rows_of(details)]
    require(begun == sorted(set(begun)) and len(begun) == 3, f"the runs began at {begun}")


CHECKS = (syncs_that_fail, syncs_that_go_on_to_fail, write_that_hangs, output_that_nobody_reads, two_runs_of_one_second)


if __name__ == "__main__":
    run_script(__doc__, CHECKS)
