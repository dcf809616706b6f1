#!/usr/bin/env python3
"""The file of call detail records of an exchange: its columns, its first and its last line, and a disk that takes no more.

README.md says what is checked.
"""

import csv
import datetime
import pathlib
import re
import time

import server
from endings import HEADER
from routers import ACCEPTED, CALL
from server import call_request
from served import Served, answer_to_reload, data, refused, require, run_script, station, until

NAMES = ",".join(HEADER) + "\n"

# A line of a run that ended long ago.
OLD = "2026-11-26T12:00:00Z,2,b1,200002,,,99999999,caller,0,0,2026-11-26T12:15:00Z,,2026-11-26T12:15:00Z,0,0d,67,x-1,call\n"

REVERSE = bytes.fromhex("0101")

# The hunt group of the last station: h2 has an address of its own.
LINES = ("a1", "b1", "h1", "h2", "r1")


def subscriptions(base):
    """Five lines, each on the next port: the calls to 200005 are redirected to 200003, since its line is out of service."""
    ports = dict(zip(LINES, range(base, base + len(LINES))))
    return (
        station("200001", ("a1", ports["a1"], "")) + station("200002", ("b1", ports["b1"], ""))
        + station("200003", ("h1", ports["h1"], ""), ("h2", ports["h2"], ', address = "200032"'), more="reverse_charging = true\n")
        + station("200005", ("r1", ports["r1"], ""), more='reverse_charging = true\nredirect = { to = "200003", out_of_order = true }\n')
    )


class Recorded(Served):
    """An exchange whose call detail records go to a file."""

    def __init__(self, program, folder, details, *words, limit=None, name="x-1.net", own_name=None):
        self.base = server.free_ports(len(LINES) + 1)
        named = ("--name", name) if name else ()
        keys = f'name = "{own_name}"\n' if own_name else ""
        super().__init__(program, folder, keys + subscriptions(self.base), "--cdr", details, *named, *words, limit=limit)

    def line(self, name):
        return self.rise(self.base + LINES.index(name))


def refused_call(line):
    """A call to an address that nobody has."""
    line.send(call_request("99999999"))
    require(line.cleared() == (0x0D, 67), "a call to an address that nobody has is not refused so")


def rows_of(path):
    """The rows of a file behind the names of its columns, each by these names."""
    text = path.read_text()
    require(text.startswith(NAMES) and text.endswith("\n"), f"the file is {text!r}")
    require('"' not in text and "\r" not in text, "the file has quotes or carriage returns")
    return [dict(zip(HEADER, row, strict=True)) for row in csv.reader(text.splitlines()[1:])]


def seconds_of(moment):
    require(re.fullmatch(r"\d{4}-\d\d-\d\dT\d\d:\d\d:\d\dZ", moment), f"{moment} is no moment")
    return datetime.datetime.fromisoformat(moment.replace("Z", "+00:00")).timestamp()


# ---- the columns

# What the records of the calls of `make_calls` have, but for their moments: the call is connected or not, the columns.
WANTED = (
    (True, "1,a1,200001,h2,200032,200003,caller,3,1,00,0,x-1.net,call"),
    (False, "2,b1,200002,,,99999999,caller,0,0,0d,67,x-1.net,call"),
    (False, "3,a1,200001,h2,200032,200003,called,0,0,ff,255,x-1.net,call"),
    (True, "4,a1,200001,h2,200032,200005,called,0,2,80,1,x-1.net,call"),
    (False, "5,b1,200002,,,,caller,0,0,0d,67,x-1.net,call"),
)
COUNTED = [name for name in HEADER if name not in ("started", "requested", "connected", "ended", "seconds")]


def make_calls(exchange):
    """Five calls, of which three ring on h2, the only line of its hunt group in service."""
    a1, b1, h2 = (exchange.line(name) for name in ("a1", "b1", "h2"))
    # It is connected for a second at least. Three segments go one way, and one the other.
    a1.send(call_request("200003"))
    h2.expect(CALL)
    h2.accept()
    a1.expect(ACCEPTED)
    for place, octets in enumerate((64 * b"x", 65 * b"y")):
        a1.send(data(place, octets))
        h2.receive()
    h2.send(b"\x10\x01\x40z")
    a1.receive()
    time.sleep(1.1)
    a1.clear()
    h2.cleared()
    h2.clear()
    # No station has the address.
    refused_call(b1)
    # It rings, with reverse charging, and is never answered: the caller clears with a cause and a diagnostic of its own.
    a1.send(call_request("200003", REVERSE))
    h2.expect(CALL)
    a1.send(bytes.fromhex("100113ffff"))
    a1.expect(0x17)
    h2.cleared()
    h2.clear()
    # It is redirected, with reverse charging, and the called line clears.
    a1.send(call_request("200005", REVERSE))
    h2.expect(CALL)
    h2.accept()
    a1.expect(ACCEPTED)
    h2.send(data(0, 128 * b"z"))
    a1.receive()
    h2.send(bytes.fromhex("1001138001"))
    h2.expect(0x17)
    a1.cleared()
    # The caller dials nothing.
    b1.send(call_request(""))
    require(b1.cleared() == (0x0D, 67), "a call to no address is not refused so")


def columns(program, folder):
    """Five kinds of calls have in each column what is to be there, and the moments are those of the calls."""
    details = pathlib.Path(folder) / "columns.csv"
    begun = int(time.time())
    with Recorded(program, folder, details) as exchange:
        exchange.line("r1").close()
        exchange.wait_until_told("line r1: down")
        make_calls(exchange)
        require(exchange.end() == 0, f"it ended badly; {exchange.said()}")
        require(exchange.printed() == "", "it has printed something")
    rows = rows_of(details)
    for row, (is_connected, wanted) in zip(rows, WANTED, strict=True):
        require(",".join(row[name] for name in COUNTED) == wanted, f"{row} is there in place of {wanted}")
        moments = [row["requested"], *([row["connected"]] if is_connected else []), row["ended"]]
        order = [begun, seconds_of(row["started"]), *map(seconds_of, moments), time.time() + 1]
        require(order == sorted(order), f"the moments of {row} are in no order")
        took = seconds_of(row["ended"]) - seconds_of(row["connected"]) if is_connected else 0
        require(row["seconds"] == str(int(took)), f"{row} has other seconds than {took}")
        require(is_connected or row["connected"] == "", f"{row} was never connected")
    require(int(rows[0]["seconds"]) >= 1, "the first call has lasted a second")
    require(len({row["started"] for row in rows}) == 1, "the records of one run have two beginnings")


def origins(program, folder):
    """Without any other name the exchange has that of its host. A call that a stop ends is told so, and one that has ended before is not."""
    details = pathlib.Path(folder) / "origins.csv"
    with Recorded(program, folder, details, name=None) as exchange:
        a1, b1, h2 = (exchange.line(name) for name in ("a1", "b1", "h2"))
        refused_call(b1)
        until(lambda: len(rows_of(details)) == 1, "the record of the refused call")
        a1.send(call_request("200003"))
        h2.expect(CALL)
        h2.accept()
        a1.expect(ACCEPTED)
        require(exchange.end() == 0, f"it ended badly; {exchange.said()}")
    host = re.sub(r"[^A-Za-z0-9.-]", "-", pathlib.Path("/proc/sys/kernel/hostname").read_text().strip())[:64]
    found = [(row["caller_line"], row["exchange"], row["ended_by"]) for row in rows_of(details)]
    require(found == [("b1", host, "call"), ("a1", host, "stop")], f"the records tell {found}")


# The longest name that an exchange can have.
LONGEST = 6 * "0123456789" + "a.-Z"


def names(program, folder):
    """The exchange has the name that `--name` gives it, of 1 to 64 characters, else the one of its subscription file."""
    for name, wanted in ((None, "Bern1"), ("x-1.net", "x-1.net"), ("A", "A"), (LONGEST, LONGEST)):
        details = pathlib.Path(folder) / f"names-{wanted}.csv"
        with Recorded(program, folder, details, name=name, own_name="Bern1") as exchange:
            refused_call(exchange.line("b1"))
            require(exchange.end() == 0, f"it ended badly; {exchange.said()}")
        found = [row["exchange"] for row in rows_of(details)]
        require(found == [wanted], f"with --name {name} the records are of {found}")


# ---- the file as it is found


def one_call(program, folder, details):
    """A run with one call, which is refused. Returns what was told, and the line that it has written."""
    with Recorded(program, folder, details) as exchange:
        refused_call(exchange.line("b1"))
        require(exchange.end() == 0, f"it ended badly; {exchange.said()}")
    row = rows_of(details)[-1]
    require((row["number"], row["caller_line"], row["dialled"]) == ("1", "b1", "99999999"), f"the last line is {row}")
    return exchange.told(), ",".join(row.values()) + "\n"


def new_and_old_file(program, folder):
    """A new file begins with the names of the columns; the next run goes on behind the last line."""
    details = pathlib.Path(folder) / "new.csv"
    told, first = one_call(program, folder, details)
    require(details.read_text() == NAMES + first and "torn" not in told, f"a new file is {details.read_text()!r}")
    told, second = one_call(program, folder, details)
    require(details.read_text() == NAMES + first + second and "torn" not in told, f"an old file is {details.read_text()!r}")


# What a loss of power may leave: what is whole, and what is torn.
TORN = (
    (NAMES, "2026-11-26T12:00:00Z,1,a1"),
    ("", "started,number,caller_li"),
    ("", NAMES[:-1]),
    # Longer than what is read at once.
    (NAMES + OLD, 10_000 * "x"),
)


def torn_line(program, folder):
    """A torn last line, or torn names of the columns, are cut off, and the octets of them are told."""
    details = pathlib.Path(folder) / "torn.csv"
    for whole, torn in TORN:
        details.write_text(whole + torn)
        told, line = one_call(program, folder, details)
        require(details.read_text() == (whole or NAMES) + line, f"{torn[:40]} has led to {details.read_text()[:400]!r}")
        require(told.count(f"cdr: a torn last line of {len(torn)} octets was cut off\n") == 1, f"{torn[:40]} is told so: {told}")


# What files began with before they told their exchange and by what a call ended, and the last line of one.
OLD_NAMES = ",".join(HEADER[:16]) + "\n"
OLD_LINE = "2026-11-26T12:00:00Z,2,b1,200002,,,99999999,caller,0,0,2026-11-26T12:15:00Z,,2026-11-26T12:15:00Z,0,0d,67\n"


def old_columns(program, folder):
    """A file with fewer columns is moved aside as it is, and told; the run's records go to a new one. Where one was moved aside before, it is refused."""
    details, moved = (pathlib.Path(folder) / name for name in ("old.csv", "old.csv.16-columns"))
    details.write_text(OLD_NAMES + OLD_LINE)
    told, line = one_call(program, folder, details)
    require(moved.read_text() == OLD_NAMES + OLD_LINE, f"what was moved is {moved.read_text()!r}")
    require(details.read_text() == NAMES + line, f"the new file is {details.read_text()!r}")
    require(told.count("cdr: a file of 16 columns was moved to the same path with .16-columns behind it, and a new one is begun\n") == 1, f"it is told so: {told}")
    details.write_text(OLD_NAMES)
    status, printed, told = refused(program, folder, subscriptions(server.free_ports(len(LINES))), "--cdr", details)
    require((status, printed) == (5, "") and told.startswith("xp: cdr: has the 16 columns of an earlier version, and cannot be moved "), f"a second one ends with status {status}: {told}")
    require((details.read_text(), moved.read_text()) == (OLD_NAMES, OLD_NAMES + OLD_LINE), "a file was changed")


# What a file has, and when the run behind it begins by its records: now, where the last whole line does not begin with a moment.
LATEST, BEHIND = "2099-01-01T00:01:00Z", "2099-01-01T00:01:01Z"
LAST = (
    (NAMES, None),
    (NAMES + f"{LATEST},1\n", BEHIND),
    (NAMES + f"2026-11-26T12:00:00Z,1\n{LATEST},2\n2098-01-01", BEHIND),
    (NAMES + f"{LATEST},1\n2099-01-01T00:01:00+00:00,2\n", None),
    (NAMES + f"{LATEST},1\n{LATEST}\n", None),
    (NAMES + f"{LATEST},1\n\n", None),
    (OLD_NAMES + f"{LATEST},1\n", BEHIND),
)


def begins_behind_the_last(program, folder):
    """A run begins a second later than that of the last whole line of the file, if this has begun later, also where the file has fewer columns."""
    for place, (text, wanted) in enumerate(LAST):
        details, begun = pathlib.Path(folder) / f"begins-{place}.csv", int(time.time())
        details.write_text(text)
        with Recorded(program, folder, details) as exchange:
            refused_call(exchange.line("b1"))
            require(exchange.end() == 0, f"it ended badly; {exchange.said()}")
        started = details.read_text().splitlines()[-1].partition(",")[0]
        is_so = started == wanted if wanted else begun <= seconds_of(started) <= time.time() + 1
        require(is_so, f"behind {text[-60:]!r} a run begins at {started} in place of {wanted or 'now'}")


OTHERS = ("started\n", "a note", "started,number\n1,2\n")


def files_that_are_refused(program, folder):
    """A file with other content, one that another exchange has open, and one that cannot be opened: each is told, and left as it was."""
    details = pathlib.Path(folder) / "other.csv"
    text = subscriptions(server.free_ports(len(LINES)))
    for other in OTHERS:
        details.write_text(other)
        run = refused(program, folder, text, "--cdr", details)
        require(run == (5, "", "xp: cdr: holds something else than call detail records\n"), f"{other!r} ends with {run}")
        require(details.read_text() == other, f"{other!r} was changed")
    details.unlink()
    with Recorded(program, folder, details) as exchange:
        exchange.line("b1")
        run = refused(program, folder, text, "--cdr", details)
        require(run == (5, "", "xp: cdr: is in use by another exchange\n"), f"a file in use ends with {run}")
        require(exchange.end() == 0, f"it ended badly; {exchange.said()}")
    one_call(program, folder, details)
    for path in (pathlib.Path(folder) / "no-such-folder/calls.csv", folder):
        status, printed, told = refused(program, folder, text, "--cdr", path)
        is_told = told.startswith("xp: cdr: cannot be opened: ")
        require((status, printed, is_told) == (5, "", True), f"{path} ends with status {status}: {told}")


# ---- a disk that takes no more


def metric(console, name):
    """The value of a metric without labels, by the console."""
    with console as connection:
        connection.sendall(b"GET /metrics HTTP/1.1\r\nHost: localhost\r\n\r\n")
        text = b""
        while more := connection.recv(65_536):
            text += more
    return int(re.search(rb"\ngonukire_%s (\d+)\n" % name.encode(), text)[1])


def waiting(console):
    """How many records wait, by the console."""
    return metric(console, "records_waiting")


def full_disk(program, folder):
    """A disk gets full within a record: those that wait are told and counted, and once there is room the file has each, once, in order."""
    details = pathlib.Path(folder) / "full.csv"
    console = server.free_ports(1)
    with Recorded(program, folder, details, "--console", f"127.0.0.1:{console}", limit=len(NAMES) + 150) as exchange:
        b1 = exchange.line("b1")
        refused_call(b1)
        until(lambda: waiting(exchange.connect(console)) == 0, "the first record is not kept")
        for _ in range(2):
            refused_call(b1)
        exchange.wait_until_told("call detail records wait: ")
        text = details.read_text()
        require(len(text) == len(NAMES) + 150 and text.count("\n") == 2, f"the file has {text!r}")
        until(lambda: waiting(exchange.connect(console)) == 2, f"the console shows {waiting(exchange.connect(console))} records that wait")
        refused_call(b1)
        until(lambda: waiting(exchange.connect(console)) == 3, f"the console shows {waiting(exchange.connect(console))} records that wait")
        time.sleep(1.5)
        require(exchange.told().count("call detail records wait: ") == 1, f"it is not told once; {exchange.said()}")
        exchange.limit_files(None)
        exchange.wait_until_told("call detail records are written again")
        until(lambda: waiting(exchange.connect(console)) == 0, "records wait that were written")
        rows = rows_of(details)
        require(details.read_text().startswith(text), "what was written has changed")
        require([row["number"] for row in rows] == ["1", "2", "3", "4"], f"the file has {rows}")
        require(exchange.end() == 0, f"it ended badly; {exchange.said()}")
        require(exchange.printed() == "", "it has printed something")


def renamed_while_records_wait(program, folder):
    """A line gets another address while a record waits: each is told by the subscriptions by which its call has ended, in order."""
    details = pathlib.Path(folder) / "renamed.csv"
    console = server.free_ports(1)
    with Recorded(program, folder, details, "--console", f"127.0.0.1:{console}", limit=len(NAMES)) as exchange:
        a1, b1 = exchange.line("a1"), exchange.line("b1")
        for number, address in enumerate(("200002", "200009"), 1):
            a1.send(call_request(address))
            b1.expect(CALL)
            b1.accept()
            a1.expect(ACCEPTED)
            a1.clear()
            b1.cleared()
            b1.clear()
            until(lambda: waiting(exchange.connect(console)) == number, f"{number} records do not wait")
            if number == 1:
                exchange.wait_until_told("call detail records wait: ")
                file = pathlib.Path(folder) / "subscriptions.toml"
                file.write_text(file.read_text().replace('"200002"', '"200009"'))
                answer = answer_to_reload(console)
                require(answer[0] == 200, f"a reload is answered {answer}")
        require(details.read_text() == NAMES, f"the file has {details.read_text()!r}")
        exchange.limit_files(None)
        until(lambda: waiting(exchange.connect(console)) == 0, "records wait that can be written")
        require(exchange.end() == 0, f"it ended badly; {exchange.said()}")
    found = [(row["number"], row["called_line"], row["called_address"], row["dialled"]) for row in rows_of(details)]
    require(found == [("1", "b1", "200002", "200002"), ("2", "b1", "200009", "200009")], f"the records are {found}")


def full_disk_at_the_end(program, folder):
    """An exchange that stops while records wait prints the lines that the file does not hold whole, and ends with status 5."""
    details = pathlib.Path(folder) / "last.csv"
    console = server.free_ports(1)
    with Recorded(program, folder, details, "--console", f"127.0.0.1:{console}", limit=len(NAMES) + 150) as exchange:
        b1 = exchange.line("b1")
        refused_call(b1)
        until(lambda: waiting(exchange.connect(console)) == 0, "the first record is not kept")
        for _ in range(2):
            refused_call(b1)
        exchange.wait_until_told("call detail records wait: ")
        status = exchange.end()
        require((status, exchange.told().splitlines()[-1]) == (5, "xp: cdr"), f"it ended with status {status}; {exchange.said()}")
        text = details.read_text()
        whole = text[:text.rindex("\n") + 1]
        # The last whole line of the file and the lines that are printed make up the three records.
        details.write_text(whole + exchange.printed())
        require(exchange.printed().startswith(text[len(whole):]), f"{exchange.printed()} is printed, and the file ends with {text[-200:]}")
        require([row["number"] for row in rows_of(details)] == ["1", "2", "3"], "the file and what was printed are not the three records")


CHECKS = (
    columns, origins, names, new_and_old_file, torn_line, old_columns, begins_behind_the_last, files_that_are_refused, full_disk,
    renamed_while_records_wait, full_disk_at_the_end,
)


if __name__ == "__main__":
    run_script(__doc__, CHECKS)
