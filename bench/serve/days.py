#!/usr/bin/env python3
"""Call detail records by the day: over a midnight under calls, at a kill, and where the directory takes no more or is not there.

A small library (midnight.c, built by `cc`) stands before the C library: the time of day of the program begins some seconds before
midnight. README.md says what is checked.
"""

import concurrent.futures
import contextlib
import csv
import datetime
import os
import pathlib
import subprocess
import threading
import time

import server
from disk import numbers
from endings import HEADER
from records_file import NAMES, refused_call, rows_of, seconds_of
from served import Served, refused, require, run_script, station, until

# Lines that call at the same time, and the seconds between two calls of one: with 100,000 records that wait an exchange stops.
LINES, PAUSE = 4, 0.005

DAY = datetime.date(2026, 11, 28)

# Seconds after midnight within which the new file is begun where no call ends, and some for a machine that does other things too.
BEGUN = 5 + 4

# The file of live calls in the directory (live_days.py).
LIVE = "calls.live"

TORN = "2026-11-28T20:00:00Z,7,b0,2000"


def library_in(folder):
    made = pathlib.Path(folder) / "midnight.so"
    words = ["cc", "-O2", "-shared", "-fPIC", "-o", str(made), str(server.HERE / "midnight.c")]
    subprocess.run(words, check=True)
    return made


def name_of(later=0):
    """The name of the file of the day that is so many days after the first."""
    return f"calls-{DAY + datetime.timedelta(later)}.csv"


def moment(later, text):
    """The second of this time of the day that is so many days after the first."""
    return int(datetime.datetime.fromisoformat(f"{DAY + datetime.timedelta(later)}T{text}+00:00").timestamp())


class ByDay(Served):
    """An exchange whose records go to a directory, and whose time of day begins at a moment."""

    def __init__(self, program, folder, directory, begins, *words, limit=None):
        self.base, self.made, self.is_over = server.free_ports(LINES), [0] * LINES, threading.Event()
        lines = [(f"b{place}", self.base + place, "") for place in range(LINES)]
        environment = {"LD_PRELOAD": str(library_in(folder)), "XP_CLOCK": str(begins)}
        super().__init__(program, folder, station("200002", *lines), "--cdr-dir", directory, *words, limit=limit, environment=environment)

    def line(self, place=0):
        return self.rise(self.base + place)

    def call(self, place, line):
        while not self.is_over.is_set():
            refused_call(line)
            self.made[place] += 1
            time.sleep(PAUSE)

    @contextlib.contextmanager
    def calls(self):
        """Calls come and go until the block ends."""
        lines = [self.line(place) for place in range(LINES)]
        with concurrent.futures.ThreadPoolExecutor(LINES) as pool:
            callers = [pool.submit(self.call, place, line) for place, line in enumerate(lines)]
            try:
                yield
            finally:
                self.is_over.set()
            for caller in callers:
                caller.result()

    def end_well(self):
        require(self.end() == 0, f"it ended badly; {self.said()}")
        require(self.printed() == "", "it has printed something")


def stamp(path):
    """What changes of a file that is touched."""
    now = path.stat()
    return now.st_ino, now.st_size, now.st_mtime_ns


def require_days(exchange, directory, count):
    """The files of so many days have the record of each call once, in order, each in the file of its day, and nothing else."""
    names = sorted(path.name for path in directory.iterdir() if path.name != LIVE)
    require(names == [name_of(later) for later in range(count)], f"the directory has {names}")
    found = []
    for name in names:
        rows = rows_of(directory / name)
        require((directory / name).read_text().count(NAMES) == 1, f"{name} has several headers")
        require(all(f"calls-{row['ended'][:10]}.csv" == name for row in rows), f"{name} has records of other days")
        found += numbers(rows)
    wanted = list(range(1, sum(exchange.made) + 1))
    require(found == wanted, f"{len(found)} records are there of {len(wanted)} calls, or in another order")


def fresh(folder, name):
    made = pathlib.Path(folder) / name
    made.mkdir()
    return made


def over_midnight(program, folder):
    """Over a midnight under calls each record is in the file of its day, once and in order, and the old file is not touched again."""
    directory = fresh(folder, "over")
    old, new = (directory / name_of(later) for later in (0, 1))
    with ByDay(program, folder, directory, moment(0, "23:59:55")) as exchange:
        with exchange.calls():
            until(new.exists, "no new file is begun", 15)
            exchange.wait_until_told(f"cdr: {name_of(1)} is begun")
            before = stamp(old)
            time.sleep(3)
        exchange.end_well()
    require(stamp(old) == before, "the old file was touched")
    require(exchange.told().count("is begun") == 1, f"it is told otherwise; {exchange.said()}")
    require_days(exchange, directory, 2)
    require(min(len(rows_of(path)) for path in (old, new)) > 10, "one of the files has few records")


def without_calls(program, folder):
    """Where no call ends, the new file is begun some seconds after midnight, with its header, and the old one has its header alone."""
    directory = fresh(folder, "idle")
    with ByDay(program, folder, directory, moment(0, "23:59:58")) as exchange:
        exchange.line()
        until((directory / name_of()).exists, "there is no file")
        time.sleep(2 + 3)
        require(not (directory / name_of(1)).exists(), "the new file is begun too soon")
        until((directory / name_of(1)).exists, "no new file is begun", BEGUN)
        exchange.wait_until_told(f"cdr: {name_of(1)} is begun")
        told = next(line for line in exchange.told().splitlines() if "is begun" in line)
        require("[INFO" in told and f"{DAY + datetime.timedelta(1)}T00:00:0" in told, f"it is told so: {told}")
        exchange.end_well()
    require_days(exchange, directory, 2)


def a_quiet_one(program, folder):
    """With `--quiet` a new day is not told."""
    directory = fresh(folder, "quiet")
    with ByDay(program, folder, directory, moment(0, "23:59:59"), "--quiet") as exchange:
        until((directory / name_of(1)).exists, "no new file is begun", 15)
        exchange.end_well()
    require("is begun" not in exchange.told(), f"it tells; {exchange.said()}")


def killed(program, folder):
    """After a kill the next start, on the next day, cuts a torn line off the file of the day before, and no record is there twice."""
    directory = fresh(folder, "killed")
    old = directory / name_of()
    with ByDay(program, folder, directory, moment(0, "20:00:00")) as exchange:
        with contextlib.suppress(Exception), exchange.calls():
            until(lambda: old.exists() and old.read_text().count("\n") > 50, "there are no records")
            exchange.process.kill()
        exchange.process.wait()
    text = old.read_text()
    whole = text[:text.rindex("\n") + 1]
    old.write_text(whole + TORN)
    first = numbers(rows_of_text(whole))
    require(first == list(range(1, len(first) + 1)) and len(first) >= 50, f"the file has {len(first)} records, or in another order")
    with ByDay(program, folder, directory, moment(1, "09:00:00")) as exchange:
        line = exchange.line()
        exchange.wait_until_told(f"cdr: a torn last line of {len(TORN)} octets was cut off")
        exchange.wait_until_told(f"cdr: {name_of(1)} is begun")
        require(old.read_text() == whole, "the old file has changed")
        before = stamp(old)
        refused_call(line)
        exchange.end_well()
    rows = rows_of(directory / name_of(1))
    require(numbers(rows) == [1] and stamp(old) == before, f"the new file has {rows}, or the old one was touched")
    # A run that begins in the same second begins a second later by its records.
    with ByDay(program, folder, directory, moment(1, "09:00:00")) as exchange:
        refused_call(exchange.line())
        exchange.end_well()
    started = [seconds_of(row["started"]) for row in rows_of(directory / name_of(1))]
    require(len(started) == 2 and started[1] == started[0] + 1, f"the runs began at {started}")


def rows_of_text(text):
    require(text.startswith(NAMES), f"the file is {text[:200]!r}")
    return [dict(zip(HEADER, row, strict=True)) for row in csv.reader(text.splitlines()[1:])]


def other_names(program, folder):
    """Files of later days, and those with other names, are left alone: the newest file up to today goes on."""
    directory = fresh(folder, "others")
    others = {name_of(7): NAMES, "calls-2026-11-2.csv": "x", "calls-20261127.csv": "y", "calls-2026-02-30.csv": "z", "note": "a note", name_of(-1): NAMES}
    for name, text in others.items():
        (directory / name).write_text(text)
    with ByDay(program, folder, directory, moment(0, "12:00:00")) as exchange:
        refused_call(exchange.line())
        exchange.end_well()
    require(numbers(rows_of(directory / name_of())) == [1], "the record is not in the file of its day")
    require(all((directory / name).read_text() == text for name, text in others.items()), "another file was changed")


def refusals(program, folder):
    """A directory that is not there, one that is none, one in use, and a file beside it: each is refused, and told."""
    directory = fresh(folder, "refused")
    note = pathlib.Path(folder) / "a-note"
    note.write_text("a note")
    text = station("200002", ("b0", server.free_ports(1), ""))
    for path, why in ((directory / "none", "No such file or directory"), (note, "Not a directory")):
        status, printed, told = refused(program, folder, text, "--cdr-dir", path)
        require((status, printed) == (5, "") and told.startswith("xp: cdr: the directory cannot be read: ") and why in told, f"{path} ends with {status}: {told}")
    status, printed, told = refused(program, folder, text, "--cdr-dir", directory, "--cdr", note)
    require((status, printed) == (2, "") and "--cdr and --cdr-dir do not go together" in told, f"both end with {status}: {told}")
    require(not list(directory.iterdir()) and note.read_text() == "a note", "a file was made or changed")
    with ByDay(program, folder, directory, moment(0, "23:59:57")) as exchange:
        line = exchange.line()
        for later, begins in ((0, "23:59:59"), (1, "00:00:30")):
            until((directory / name_of(later)).exists, "the file is not begun", 20)
            time.sleep(0.5)
            run = second(program, folder, directory, moment(later, begins))
            require(run == (5, "", "xp: cdr: is in use by another exchange\n"), f"a second one ends with {run}")
        refused_call(line)
        exchange.end_well()
    require(numbers(rows_of(directory / name_of(1))) == [1], "the record is not there")


def second(program, folder, directory, begins):
    """How a second exchange at the same directory ends, which begins at this moment."""
    os.environ |= {"LD_PRELOAD": str(library_in(folder)), "XP_CLOCK": str(begins)}
    try:
        return refused(program, folder, station("200003", ("c0", server.free_ports(1), "")), "--cdr-dir", directory)
    finally:
        del os.environ["LD_PRELOAD"], os.environ["XP_CLOCK"]


def full_disk(program, folder):
    """A disk that is full over a midnight: the records wait, and then each is in the file of its day, once and in order."""
    directory = fresh(folder, "full")
    with ByDay(program, folder, directory, moment(0, "23:59:56"), limit=len(NAMES) + 150) as exchange:
        with exchange.calls():
            exchange.wait_until_told("call detail records wait: ")
            time.sleep(7)
            require(not (directory / name_of(1)).exists(), "the new file is begun while records of the old one wait")
            exchange.limit_files(None)
            exchange.wait_until_told("call detail records are written again")
            time.sleep(1)
        exchange.end_well()
    require(exchange.told().count("call detail records wait: ") == 1, f"it is not told once; {exchange.said()}")
    require_days(exchange, directory, 2)


def directory_gone(program, folder):
    """A directory that is moved away over a midnight: the records wait, that is told, and all are there once it is back."""
    directory, moved = fresh(folder, "gone"), pathlib.Path(folder) / "gone-elsewhere"
    with ByDay(program, folder, directory, moment(0, "23:59:57")) as exchange:
        with exchange.calls():
            until(lambda: (directory / name_of()).read_text().count("\n") > 10, "there are no records")
            directory.rename(moved)
            exchange.wait_until_told("call detail records wait: a new file can't be begun: ", most=20)
            moved.rename(directory)
            exchange.wait_until_told("call detail records are written again")
            time.sleep(1)
        exchange.end_well()
    require_days(exchange, directory, 2)


def removed(program, folder):
    """The open file is removed under calls: a new one is begun at its path, and told."""
    directory = fresh(folder, "removed")
    path = directory / name_of()
    with ByDay(program, folder, directory, moment(0, "12:00:00")) as exchange:
        with exchange.calls():
            until(lambda: path.exists() and path.read_text().count("\n") > 10, "there are no records")
            path.unlink()
            exchange.wait_until_told("cdr: the file was moved or removed: a new one is begun at its path")
            time.sleep(0.5)
        exchange.end_well()
    found = numbers(rows_of(path))
    require(found == list(range(found[0], sum(exchange.made) + 1)), "the new file lacks records, or has them in another order")


# Moments at which an exchange begins, and their texts in a record: leap years, the last one that has a date, and one behind it.
MOMENTS = (
    (0, "1970-01-01T00:0"), (951_782_400, "2000-02-29T00:0"), (4_107_541_800, "2100-02-28T23:5"), (4_107_542_400, "2100-03-01T00:0"),
    (1_798_761_000, "2026-12-31T23:5"), (253_402_206_600, "9999-12-30T21:5"), (253_402_207_201, "2534022"),
)


def moments(program, folder):
    """An exchange that begins at a moment far off has the date of it in its records, and the number behind the last one that has a date."""
    environment = {"LD_PRELOAD": str(library_in(folder))}
    for begins, wanted in MOMENTS:
        details, port = pathlib.Path(folder) / f"moment-{begins}.csv", server.free_ports(1)
        text, environment["XP_CLOCK"] = station("200002", ("b0", port, "")), str(begins)
        with Served(program, folder, text, "--cdr", details, environment=environment) as exchange:
            refused_call(exchange.rise(port))
            require(exchange.end() == 0, f"it ended badly; {exchange.said()}")
        row = rows_of(details)[0]
        for name in ("started", "requested", "ended"):
            require(row[name].startswith(wanted) and row[name].endswith("Z") == (begins <= 253_402_207_200), f"{name} is {row[name]} at {begins}")


CHECKS = (over_midnight, without_calls, a_quiet_one, killed, other_names, refusals, full_disk, directory_gone, removed, moments)


if __name__ == "__main__":
    run_script(__doc__, CHECKS)
