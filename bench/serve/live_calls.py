#!/usr/bin/env python3
"""The file of live calls of an exchange: what it holds while calls are live, and what a next start makes of it after a kill.

README.md says what is checked.
"""

import os
import pathlib
import random
import signal
import time

import server
from disk import library_in
from endings import HEADER
from records_file import LINES, NAMES, REVERSE, Recorded, metric, refused_call, rows_of, seconds_of, subscriptions
from routers import ACCEPTED, CALL
from server import call_request
from served import data, refused, require, run_script, until

# Kills of an exchange that has just been started.
KILLS = 30

# The records of a large file, which the program before any proof reads much slower.
RECORDS = 100_000


def folder_of(folder, name):
    """A folder of its own, with the paths of the records and of the live calls in it."""
    own = pathlib.Path(folder) / name
    own.mkdir()
    return own / "calls.csv", own / "calls.csv.live"


def connect_call(caller, called, number, facilities=b""):
    caller.send(call_request(number, facilities))
    called.expect(CALL)
    called.accept()
    caller.expect(ACCEPTED)


def two_calls(exchange):
    """Two calls that are connected: with two segments from a caller, and with three from a called line, which pays."""
    a1, b1, h1, h2 = lines = [exchange.line(name) for name in ("a1", "b1", "h1", "h2")]
    connect_call(a1, h1, "200003")
    for place in range(2):
        a1.send(data(place, 64 * b"x"))
        h1.receive()
    connect_call(b1, h2, "200032", REVERSE)
    for place, octets in enumerate((128 * b"y", b"y")):
        h2.send(data(place, octets))
        b1.receive()
    return lines


# What the partial records of the two calls have, but for their moments.
TOLD = [
    {"number": "1", "caller_line": "a1", "caller_address": "200001", "called_line": "h1", "called_address": "200003", "dialled": "200003", "payer": "caller",
     "segments_from_caller": "2", "segments_from_called": "0", "cause": "09", "diagnostic": "0", "exchange": "x-1.net", "ended_by": "partial"},
    {"number": "2", "caller_line": "b1", "caller_address": "200002", "called_line": "h2", "called_address": "200032", "dialled": "200032", "payer": "called",
     "segments_from_caller": "0", "segments_from_called": "3", "cause": "09", "diagnostic": "0", "exchange": "x-1.net", "ended_by": "partial"},
]
MOMENTS = ("started", "requested", "connected", "ended", "seconds")


def told_of(rows):
    return [{name: text for name, text in row.items() if name not in MOMENTS} for row in rows]


def has_two(live):
    """Whether the file of live calls has the two calls with all their segments."""
    return live.is_file() and told_of(rows_of(live)) == TOLD


def killed(program, details, live, *words):
    """Kills an exchange that has the two calls, once they are in the file of live calls."""
    with Recorded(program, details.parent, details, *words) as exchange:
        lines = two_calls(exchange)
        until(lambda: has_two(live), lambda: f"the live calls are {live.read_text() if live.is_file() else 'not there'}; {exchange.said()}")
        exchange.process.send_signal(signal.SIGKILL)
        exchange.process.wait()
        for line in lines:
            line.close()


def started_and_ended(program, details, *words):
    """An exchange that starts and ends without a call. Returns what it told."""
    with Recorded(program, details.parent, details, *words) as exchange:
        exchange.line("b1")
        require(exchange.end() == 0, f"it ended badly; {exchange.said()}")
    return exchange.told()


# ---- while calls are live


def live_calls(program, folder):
    """The file has the connected calls, and none that rings, in the order of their callers' lines, and at last the names of the columns alone."""
    details, live = folder_of(folder, "live")
    begun = int(time.time())
    with Recorded(program, details.parent, details) as exchange:
        a1, b1, h1, h2 = two_calls(exchange)
        until(lambda: has_two(live), lambda: f"the live calls are {live.read_text()}")
        for row in rows_of(live):
            order = [begun, *(seconds_of(row[name]) for name in ("started", "requested", "connected", "ended")), time.time() + 1]
            require(order == sorted(order), f"the moments of {row} are in no order")
            require(int(row["seconds"]) == seconds_of(row["ended"]) - seconds_of(row["connected"]), f"{row} has other seconds")
        ended = rows_of(live)[0]["ended"]
        until(lambda: rows_of(live)[0]["ended"] > ended, "the live calls are not written again")
        a1.clear()
        h1.cleared()
        h1.clear()
        until(lambda: [row["number"] for row in rows_of(live)] == ["2"], lambda: f"the live calls are {live.read_text()}")
        require(len(rows_of(details)) == 1, "a call is live no more that has no record")
        a1.send(call_request("200003"))
        h1.expect(CALL)
        time.sleep(2)
        require([row["number"] for row in rows_of(live)] == ["2"], f"the live calls are {live.read_text()}")
        a1.clear()
        h1.cleared()
        h1.clear()
        b1.clear()
        h2.cleared()
        h2.clear()
        until(lambda: live.read_text() == NAMES, lambda: f"the live calls are {live.read_text()}")
        was = live.stat()
        time.sleep(2.5)
        require(live.stat().st_mtime_ns == was.st_mtime_ns, "the file is written without a live call")
        require(exchange.end() == 0, f"it ended badly; {exchange.said()}")
    require(live.read_text() == NAMES and not live.with_suffix(".live.new").exists(), "a stop leaves live calls")


def stopped(program, folder):
    """A stop leaves each call with its record, and no live call."""
    details, live = folder_of(folder, "stopped")
    with Recorded(program, details.parent, details) as exchange:
        two_calls(exchange)
        until(lambda: has_two(live), lambda: f"the live calls are {live.read_text()}")
        require(exchange.end() == 0, f"it ended badly; {exchange.said()}")
    require(live.read_text() == NAMES, f"the live calls are {live.read_text()}")
    require([row["ended_by"] for row in rows_of(details)] == ["stop", "stop"], f"the records are {rows_of(details)}")
    require("partial" not in started_and_ended(program, details), "calls of a run that was stopped got partial records")


# ---- after a kill


def kill(program, folder):
    """The next start gives each live call a partial record, once, and counts it; it begins later than the run that was killed."""
    details, live = folder_of(folder, "killed")
    killed(program, details, live)
    require(rows_of(details) == [], "the records were written before the kill")
    lines, console = live.read_text(), server.free_ports(1)
    with Recorded(program, details.parent, details, "--console", f"127.0.0.1:{console}") as exchange:
        exchange.line("b1")
        count = metric(exchange.connect(console), "partial_records")
        require(exchange.end() == 0, f"it ended badly; {exchange.said()}")
    told = exchange.told()
    require(told.count("cdr: 2 calls of the run before got a partial record\n") == 1, f"it has told: {told}")
    require(count == 2, f"the metrics have {count} partial records")
    require(details.read_text() == lines and told_of(rows_of(details)) == TOLD, f"the records are {details.read_text()}")
    require(live.read_text() == NAMES, f"the live calls are {live.read_text()}")
    with Recorded(program, details.parent, details) as exchange:
        refused_call(exchange.line("b1"))
        require(exchange.end() == 0 and "partial" not in exchange.told(), f"it ended badly; {exchange.said()}")
    rows = rows_of(details)
    require(len(rows) == 3 and seconds_of(rows[2]["started"]) > seconds_of(rows[0]["started"]), f"the records are {rows}")


def kill_with_records(program, folder):
    """A live call that has a record already gets no other, whatever the record is of; the others get theirs, behind it."""
    details, live = folder_of(folder, "records")
    killed(program, details, live)
    lines = live.read_text().splitlines(keepends=True)
    own = lines[1].replace(",09,0,x-1.net,partial", ",00,0,x-1.net,call")
    # Of another run, with another number that begins so, and its own.
    others = [lines[2].replace("20", "19", 1), lines[2].replace(",2,", ",21,", 1), own]
    details.write_text(NAMES + "".join(others))
    told = started_and_ended(program, details)
    require("cdr: 1 call of the run before got a partial record\n" in told, f"it has told: {told}")
    require(details.read_text() == NAMES + "".join(others) + lines[2], f"the records are {details.read_text()}")


def killed_as_it_starts(program, folder):
    """Killed again and again as it starts, between the partial records and the empty file of live calls too: none is told twice."""
    details, live = folder_of(folder, "starts")
    killed(program, details, live)
    lines = live.read_text()
    choose = random.Random(1)
    for _ in range(KILLS):
        with Recorded(program, details.parent, details) as exchange:
            time.sleep(choose.uniform(0, 0.15))
            exchange.process.send_signal(signal.SIGKILL)
            exchange.process.wait()
    started_and_ended(program, details)
    require(details.read_text() == lines, f"the records are {details.read_text()}")
    # As if it had been killed behind the partial records.
    live.write_text(lines)
    require("partial" not in started_and_ended(program, details) and details.read_text() == lines, f"the records are {details.read_text()}")
    # And within them.
    live.write_text(lines)
    details.write_text(lines[:-20])
    told = started_and_ended(program, details)
    require("cdr: 1 call of the run before got a partial record\n" in told and details.read_text() == lines, f"the records are {details.read_text()}; {told}")


def large_file(program, folder):
    """A start looks through many records in some seconds."""
    details, live = folder_of(folder, "large")
    killed(program, details, live)
    lines = live.read_text().splitlines(keepends=True)
    with details.open("w") as file:
        file.write(NAMES)
        file.writelines(lines[1].replace(",1,", f",{number},", 1) for number in range(10, RECORDS + 10))
    begun = time.monotonic()
    told = started_and_ended(program, details)
    seconds = time.monotonic() - begun
    require("cdr: 2 calls of the run before got a partial record\n" in told, f"it has told: {told}")
    require(seconds < 30, f"a start has taken {seconds:.1f} seconds over {RECORDS:,} records")


# ---- files that are none


def files_that_are_refused(program, folder):
    """What is no whole file of live calls, is in use, or is no regular file: each is told, with status 5, and left as it was."""
    details, live = folder_of(folder, "refused")
    killed(program, details, live)
    text, whole = subscriptions(server.free_ports(len(LINES))), live.read_text()
    others = ("a note", NAMES[:-1], whole[:-1], whole[:-100], whole + "\n", whole + "1,2,partial\n", whole.replace("partial", "call"))
    for other in others:
        live.write_text(other)
        run = refused(program, details.parent, text, "--cdr", details)
        require(run == (5, "", "xp: live: holds something else than live calls: look at it, and move it away\n"), f"{other[-60:]!r} ends with {run}")
        require((live.read_text(), details.read_text()) == (other, NAMES), f"{other[-60:]!r} was changed")
    live.unlink()
    with Recorded(program, details.parent, details) as exchange:
        exchange.line("b1")
        until(live.is_file, "there is no file of live calls")
        run = refused(program, details.parent, text, "--cdr", details.with_name("other.csv"), "--live", live)
        require(run == (5, "", "xp: live: is in use by another exchange\n"), f"a file in use ends with {run}")
        require(exchange.end() == 0, f"it ended badly; {exchange.said()}")
    for path in ("/dev/null", details.parent):
        run = refused(program, details.parent, text, "--cdr", details, "--live", path)
        require(run == (5, "", "xp: live: is no regular file\n"), f"{path} ends with {run}")
    require(pathlib.Path("/dev/null").is_char_device(), "/dev/null was replaced")


def places(program, folder):
    """`--live` names another file, `--no-live` has none and leaves one as it is, and an empty one holds no call."""
    details, live = folder_of(folder, "places")
    other = details.with_name("elsewhere")
    other.touch()
    killed(program, details, other, "--live", other)
    require(not live.exists(), "there are two files of live calls")
    lines = other.read_text()
    told = started_and_ended(program, details, "--no-live")
    require((other.read_text(), details.read_text()) == (lines, NAMES) and not live.exists() and "partial" not in told, "--no-live has done something")
    started_and_ended(program, details, "--live", other)
    require(details.read_text() == lines and other.read_text() == NAMES, f"the records are {details.read_text()}")


# ---- disks


def no_such_folder(program, folder):
    """A file of live calls that cannot be written is told once; calls go on; once it can be, that is told, and it is there."""
    details, _ = folder_of(folder, "nowhere")
    live = details.parent / "later" / "live"
    with Recorded(program, details.parent, details, "--live", live) as exchange:
        two_calls(exchange)
        exchange.wait_until_told("live: live calls are not kept: ")
        time.sleep(2.5)
        require(exchange.told().count("live: live calls are not kept: ") == 1, f"it is not told once; {exchange.said()}")
        live.parent.mkdir()
        exchange.wait_until_told("live: live calls are kept again")
        until(lambda: has_two(live), lambda: f"the live calls are {live.read_text()}")
        require(exchange.end() == 0, f"it ended badly; {exchange.said()}")


def full_disk(program, folder):
    """A disk that is full leaves the last file of live calls whole; once there is room it is written again."""
    details, live = folder_of(folder, "full")
    with Recorded(program, details.parent, details, limit=len(NAMES) + 10) as exchange:
        two_calls(exchange)
        exchange.wait_until_told("live: live calls are not kept: ")
        require(live.read_text() == NAMES, f"the live calls are {live.read_text()}")
        exchange.limit_files(None)
        exchange.wait_until_told("live: live calls are kept again")
        until(lambda: has_two(live), lambda: f"the live calls are {live.read_text()}")
        require(exchange.end() == 0, f"it ended badly; {exchange.said()}")


def records_that_are_not_synced(program, folder):
    """A call whose record is not on the disk stays among the live calls, so that a kill leaves it with a record."""
    details, live = folder_of(folder, "unsynced")
    library = library_in(details.parent)
    os.environ.update(LD_PRELOAD=str(library), XP_DISK_FILE=str(details), XP_DISK_SYNCS="2-")
    try:
        with Recorded(program, details.parent, details) as exchange:
            a1, _, h1, _ = two_calls(exchange)
            until(lambda: has_two(live), lambda: f"the live calls are {live.read_text()}")
            a1.clear()
            h1.cleared()
            h1.clear()
            exchange.wait_until_told("call detail records wait: ")
            time.sleep(2.5)
            require(has_two(live), f"the live calls are {live.read_text()}")
            exchange.process.send_signal(signal.SIGKILL)
            exchange.process.wait()
    finally:
        for name in ("LD_PRELOAD", "XP_DISK_FILE", "XP_DISK_SYNCS"):
            del os.environ[name]
    started_and_ended(program, details)
    require(sorted(row["number"] for row in rows_of(details)) == ["1", "2"], f"the records are {details.read_text()}")


CHECKS = (
    live_calls, stopped, kill, kill_with_records, killed_as_it_starts, large_file, files_that_are_refused, places, no_such_folder, full_disk,
    records_that_are_not_synced,
)


if __name__ == "__main__":
    run_script(__doc__, CHECKS)
