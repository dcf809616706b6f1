#!/usr/bin/env python3
"""The file of live calls beside call detail records by the day: what a start after a kill makes of it, and over a midnight.

The time of day of the program begins at a moment of the test (midnight.c). README.md says what is checked.
"""

import signal
import time

import server
from days import BEGUN, LIVE, fresh, library_in, moment, name_of
from live_calls import TOLD, has_two, told_of, two_calls
from records_file import LINES, NAMES, rows_of, subscriptions
from served import Served, refused, require, run_script, until


class ByDay(Served):
    """An exchange whose records go to a directory, and whose time of day begins at a moment."""

    def __init__(self, program, folder, directory, begins, *words):
        self.base = server.free_ports(len(LINES) + 1)
        environment = {"LD_PRELOAD": str(library_in(folder)), "XP_CLOCK": str(begins)}
        words = ("--cdr-dir", directory, "--name", "x-1.net", *words)
        super().__init__(program, folder, subscriptions(self.base), *words, environment=environment)

    def line(self, name):
        return self.rise(self.base + LINES.index(name))

    def kill(self):
        self.process.send_signal(signal.SIGKILL)
        self.process.wait()


def killed(program, folder, directory, begins):
    """Kills an exchange that has two calls, once they are in the file of live calls. Returns what that file has."""
    live = directory / LIVE
    with ByDay(program, folder, directory, begins) as exchange:
        lines = two_calls(exchange)
        until(lambda: has_two(live), lambda: f"the live calls are {live.read_text() if live.is_file() else 'not there'}; {exchange.said()}")
        exchange.kill()
        for line in lines:
            line.close()
    return live.read_text()


def started_and_ended(program, folder, directory, begins):
    """An exchange that starts at this moment, and ends without a call. Returns what it told."""
    with ByDay(program, folder, directory, begins) as exchange:
        exchange.line("b1")
        require(exchange.end() == 0, f"it ended badly; {exchange.said()}")
    return exchange.told()


def killed_the_day_before(program, folder):
    """A start on the next day writes partial records to the file of the day before, which it then closes, and begins its own."""
    directory = fresh(folder, "before")
    text = killed(program, folder, directory, moment(0, "20:00:00"))
    require((directory / name_of()).read_text() == NAMES, "there are records before the kill")
    with ByDay(program, folder, directory, moment(1, "09:00:00")) as exchange:
        exchange.wait_until_told("cdr: 2 calls of the run before got a partial record")
        exchange.wait_until_told(f"cdr: {name_of(1)} is begun")
        require(exchange.end() == 0, f"it ended badly; {exchange.said()}")
    require((directory / name_of()).read_text() == text, f"the old file has {(directory / name_of()).read_text()}")
    require((directory / name_of(1)).read_text() == NAMES, f"the new file has {(directory / name_of(1)).read_text()}")
    require((directory / LIVE).read_text() == NAMES, "calls are live that have a record")
    names = sorted(path.name for path in directory.iterdir())
    require(names == sorted([name_of(), name_of(1), LIVE]), f"the directory has {names}")
    again = started_and_ended(program, folder, directory, moment(1, "09:10:00"))
    require("partial" not in again, f"a second start has told: {again}")


def record_in_the_file_before(program, folder):
    """A call whose record is in the file of the day before gets no partial record in that of the new day."""
    directory = fresh(folder, "record")
    text = killed(program, folder, directory, moment(0, "23:00:00"))
    first, second = text.splitlines(keepends=True)[1:]
    own = NAMES + first.replace(",09,0,x-1.net,partial", ",00,0,x-1.net,call")
    (directory / name_of()).write_text(own)
    (directory / name_of(1)).write_text(NAMES)
    told = started_and_ended(program, folder, directory, moment(1, "00:00:20"))
    require("cdr: 1 call of the run before got a partial record\n" in told, f"it has told: {told}")
    require((directory / name_of()).read_text() == own, f"the old file has {(directory / name_of()).read_text()}")
    require((directory / name_of(1)).read_text() == NAMES + second, f"the new file has {(directory / name_of(1)).read_text()}")


def over_midnight(program, folder):
    """Calls that were connected before midnight, and are live at a kill after it, have partial records in the file of the new day."""
    directory = fresh(folder, "over")
    live, new = directory / LIVE, directory / name_of(1)
    with ByDay(program, folder, directory, moment(0, "23:59:55")) as exchange:
        two_calls(exchange)
        until(new.exists, "no new file is begun", 5 + BEGUN + 5)
        day = name_of(1)[6:16]
        until(lambda: all(row["ended"].startswith(day) for row in rows_of(live)), lambda: f"the live calls are {live.read_text()}")
        exchange.kill()
    started_and_ended(program, folder, directory, moment(1, "00:10:00"))
    rows = rows_of(new)
    require(told_of(rows) == TOLD and rows_of(directory / name_of()) == [], f"the records are {rows}")
    require(all(not row["connected"].startswith(day) and int(row["seconds"]) > 0 for row in rows), f"the records are {rows}")


def stopped(program, folder):
    """A stop over a midnight leaves no live call; with --no-live there is no file of them."""
    directory = fresh(folder, "stopped")
    with ByDay(program, folder, directory, moment(0, "12:00:00")) as exchange:
        two_calls(exchange)
        until(lambda: has_two(directory / LIVE), "the calls are not live")
        require(exchange.end() == 0, f"it ended badly; {exchange.said()}")
    require((directory / LIVE).read_text() == NAMES, "a stop leaves live calls")
    require([row["ended_by"] for row in rows_of(directory / name_of())] == ["stop", "stop"], "the calls are not recorded")
    other = fresh(folder, "none")
    with ByDay(program, folder, other, moment(0, "12:00:00"), "--no-live") as exchange:
        two_calls(exchange)
        time.sleep(2)
        require(exchange.end() == 0, f"it ended badly; {exchange.said()}")
    require([path.name for path in other.iterdir()] == [name_of()], "there is a file of live calls")


def other_content(program, folder):
    """A file of live calls that holds something else ends a start, and all files stay as they were."""
    directory = fresh(folder, "other")
    (directory / LIVE).write_text("a note")
    run = refused(program, folder, subscriptions(server.free_ports(len(LINES))), "--cdr-dir", directory)
    require(run == (5, "", "xp: live: holds something else than live calls: look at it, and move it away\n"), f"it ends with {run}")
    require((directory / LIVE).read_text() == "a note", "the file was changed")


CHECKS = (killed_the_day_before, record_in_the_file_before, over_midnight, stopped, other_content)


if __name__ == "__main__":
    run_script(__doc__, CHECKS)
