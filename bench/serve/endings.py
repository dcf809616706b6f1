#!/usr/bin/env python3
"""An exchange that is killed, or stopped, under a load of calls: what its file of call detail records has then.

Each round starts `xp serve --cdr`, has calls come and go at random, and ends the exchange at a random moment: by SIGKILL,
or by SIGTERM to the launcher. Then each call that must have a record has to have one, once, with what its hosts saw.
README.md says what is checked. All rounds write to one file, so that each also shows what the ones before left.
"""

import argparse
import collections
import csv
import functools
import pathlib
import random
import shlex
import signal
import sys
import tempfile
import time

import calls
import server
import soak

LAUNCHER = server.HERE.parent.parent / "xp"

HEADER = (
    "started,number,caller_line,caller_address,called_line,called_address,dialled,payer,segments_from_caller,"
    "segments_from_called,requested,connected,ended,seconds,cause,diagnostic,exchange,ended_by"
).split(",")

# A call that was over so many seconds before a kill has its record on the disk.
SAFE = 1

# Seconds before a kill of which at least the live calls have the segments: the file of live calls is written each second, and some for
# a machine that does other things too.
LIVE = 1 + 0.5

# The most packets that an end of a call sends, so that many calls are connected for some seconds.
PACKETS = 90

# Seconds that a stop may take.
STOP = 6


class Details:
    """Where an exchange writes its call detail records: in a file, or by the day in files of a directory."""

    def __init__(self, folder, is_by_day):
        self.place = pathlib.Path(folder) / ("cdr" if is_by_day else "calls.csv")
        self.words = ["--cdr-dir" if is_by_day else "--cdr", self.place]
        self.live = self.place / "calls.live" if is_by_day else self.place.with_name("calls.csv.live")
        if is_by_day:
            self.place.mkdir()

    def files(self):
        return sorted(self.place.glob("calls-*.csv")) if self.place.is_dir() else [self.place]

    def records(self):
        """The records of all files, in order."""
        return [record for file in self.files() for record in read_details(file)]

    def remove(self):
        for path in (*self.files(), self.live):
            path.unlink()


class Exchange(server.Process):
    """An exchange over so many pairs of lines, which writes its call detail records there."""

    def __init__(self, program, folder, pairs, details):
        self.base = server.free_ports(2 * pairs)
        file = pathlib.Path(folder) / "subscriptions.toml"
        file.write_text(server.subscriptions(pairs, self.base))
        super().__init__([*shlex.split(str(program)), "serve", file, *details.words], folder)


class Interrupted(soak.Soak):
    """Calls that come and go until the exchange ends, which it may at any moment from the signal on."""

    def __init__(self, exchange, pairs, seconds, seed):
        super().__init__(exchange, pairs, int(soak.RATE * pairs * seconds), seconds, seed)
        self.is_ending = False
        # Of each call the segments that had passed at each moment at which some did.
        self.passed = collections.defaultdict(list)
        # The calls whose requests crossed a call to their line, and those of them of which the exchange may not know.
        self.crossed, self.doubtful = set(), set()

    def receive_call(self, line, packet):
        if line.state == soak.CALLING:
            self.crossed.add(line.call)
        super().receive_call(line, packet)

    def receive_clear(self, line, packet):
        """The clear indication may be that of the call that crossed the line's own. A call request that comes behind it is dropped (X.25
        Annex C, table C-2: state p7)."""
        if line.state == soak.CALLING and line.call in self.crossed:
            self.doubtful.add(line.call)
        super().receive_clear(line, packet)

    def receive_data(self, line, packet):
        call = line.call
        super().receive_data(line, packet)
        self.passed[call].append((time.monotonic(), tuple(call.delivered)))

    def passed_before(self, call, moment):
        """The segments of a call that had passed by this moment."""
        return max((counts for at, counts in self.passed[call] if at <= moment), default=(0, 0), key=sum)

    def connect(self, line):
        if not self.is_ending:
            super().connect(line)

    def begin_calls(self):
        if not self.is_ending:
            super().begin_calls()

    def closed(self, line):
        if not self.is_ending:
            super().closed(line)
        elif line.state != soak.DOWN:
            self.disconnect(line)

    def run_for(self, seconds):
        """Calls come and go for so many seconds."""
        for line in self.lines:
            self.connect(line)
        self.run_until(lambda: all(line.state == soak.IDLE for line in self.lines), 60)
        self.begun = time.monotonic()
        end = self.begun + seconds
        self.begin_calls()
        self.run_until(lambda: time.monotonic() >= end, seconds + 60)

    def end_by(self, kind):
        """Sends the signal, and reads what comes until all connections are closed. Returns the status and the seconds."""
        self.is_ending, sent_at = True, time.monotonic()
        self.exchange.process.send_signal(kind)
        self.run_until(lambda: all(line.state == soak.DOWN for line in self.lines), 30)
        status = self.exchange.process.wait(30)
        return status, time.monotonic() - sent_at


def read_details(path):
    """The records of the file. Each line has to be whole."""
    text = pathlib.Path(path).read_text()
    if not text.endswith("\n"):
        sys.exit("the file's last line is torn")
    header, *rows = csv.reader(text.splitlines())
    if header != HEADER or HEADER in rows or any(len(row) != len(HEADER) for row in rows):
        sys.exit("the file has lines that are no call detail records")
    return [read_detail(dict(zip(HEADER, row))) for row in rows]


def read_detail(row):
    if row["ended_by"] == "partial" and (row["cause"], row["diagnostic"]) != ("09", "0"):
        sys.exit(f"a partial record has another cause: {row}")
    counts = int(row["segments_from_caller"]), int(row["segments_from_called"])
    ending = int(row["cause"], 16), int(row["diagnostic"]), int(row["seconds"])
    record = server.Record(
        int(row["number"]), row["caller_line"], row["called_line"] or "-", row["dialled"], row["payer"], *counts, *ending
    )
    return row["started"], row["ended_by"], record


def is_known(call):
    """The hosts saw that the exchange took the call."""
    return call.called is not None or call.told is not None or call.connected_at is not None


def fits_partial(call, record, passed):
    """Whether this partial record is of a call of which so many segments had passed before."""
    return (
        (record.dialled, record.payer) == (call.dialled, "caller")
        and call.accepted_at is not None
        and call.called is not None and record.called == call.called.name
        and passed[0] <= record.sent <= call.sent[0]
        and passed[1] <= record.received <= call.sent[1]
        and record.seconds <= call.seconds()[1]
    )


def taken(of_line, records, doubtful):
    """The calls of a line, less those that the exchange may not know and has no record of."""
    found = []
    for call in of_line:
        record = records[len(found)] if len(found) < len(records) else None
        if call not in doubtful or record is not None and record.dialled == call.dialled:
            found.append(call)
    return found


def check(load, ended, must_have, passed_of, kind):
    """The records of each caller are those of its first calls, in order. Returns how many of them had to be there."""
    records = [record for _, record in ended]
    partial, stopped = ({record.number for by, record in ended if by == word} for word in ("partial", "stop"))
    if len({record.number for record in records}) != len(records):
        sys.exit(f"{kind}: a record is there twice")
    by_caller, found = collections.defaultdict(list), collections.defaultdict(list)
    for call in load.calls:
        by_caller[call.caller.name].append(call)
    for record in sorted(records):
        found[record.caller].append(record)
    sure = 0
    for name, of_line in by_caller.items():
        of_line = taken(of_line, found[name], load.doubtful)
        wanted = [place for place, call in enumerate(of_line) if must_have(call)]
        sure += len(wanted)
        if wanted and len(found[name]) <= wanted[-1]:
            sys.exit(f"{kind}: {len(found[name])} records of {name}, whose call {wanted[-1] + 1} must have one")
        if len(found[name]) > len(of_line):
            sys.exit(f"{kind}: {len(found[name])} records of the {len(of_line)} calls of {name}")
        for call, record in zip(of_line, found[name]):
            if record.number in partial:
                if not fits_partial(call, record, passed_of(call)):
                    sys.exit(f"{kind}: the partial {record} is not of the call with {passed_of(call)} to {call.sent} segments to {call.called}")
            elif not (call.fits(record, record.number in stopped) if is_known(call) else call.dialled == record.dialled):
                sys.exit(f"{kind}: {record} is not of the call with {call.accepted()} to {call.sent} segments, told {call.told}")
    return sure


def play(program, folder, details, pairs, seed, kind):
    """A round. Returns its figures."""
    choose = random.Random(seed)
    with Exchange(program, folder, pairs, details) as exchange:
        load = Interrupted(exchange, pairs, 60, seed)
        load.run_for(choose.uniform(1, 6))
        status, seconds = load.end_by(kind)
        ended_at = time.monotonic() - seconds
        said = exchange.said()
    for call in load.calls:
        if call.left_at is None:
            call.left_at = time.monotonic()
    if kind == signal.SIGTERM and (status != 0 or seconds > STOP):
        sys.exit(f"SIGTERM: status {status} after {seconds:.1f} seconds; {said}")
    def must_have(call):
        """After a kill the calls that were over, and those that were connected, a little before."""
        if kind == signal.SIGTERM:
            return is_known(call)
        is_over = call.ends == 0 and call.left_at < ended_at - SAFE
        return is_over or (call.connected_at is not None and call.connected_at < ended_at - LIVE)

    return load, must_have, lambda call: load.passed_before(call, ended_at - LIVE), seconds


def main():
    parser = argparse.ArgumentParser(description=__doc__.splitlines()[0])
    parser.add_argument("--rounds", type=int, default=20, help="rounds of each kind (default: 20)")
    parser.add_argument("--xp", default=str(server.PROGRAM), help=f"the built program, which is killed ({server.DEFAULT})")
    parser.add_argument("--launcher", default=str(LAUNCHER), help="the launcher, which is stopped, with its first words (default: ./xp)")
    parser.add_argument("--by-day", action="store_true", help="the records go to a directory, by the day")
    parser.add_argument("--pairs", type=int, default=32, help="pairs of lines (default: 32)")
    parser.add_argument("--seed", type=int, help="what the choices follow from (default: at random)")
    arguments = parser.parse_args()

    calls.PACKETS = PACKETS
    seed = random.SystemRandom().randrange(1 << 32) if arguments.seed is None else arguments.seed
    print(f"seed {seed}, {2 * arguments.pairs} lines", flush=True)
    kinds = ((signal.SIGKILL, arguments.xp), (signal.SIGTERM, arguments.launcher))
    with tempfile.TemporaryDirectory() as folder:
        details = Details(folder, arguments.by_day)
        for kind, program in kinds:
            figures = []
            for number in range(arguments.rounds):
                load, must_have, passed_of, seconds = play(program, folder, details, arguments.pairs, seed + number, kind)
                # The next start cuts off a torn line, and gives the live calls their records.
                with Exchange(arguments.xp, folder, 1, details) as again:
                    again.connect(again.base).close()
                runs = details.records()
                last = max((started for started, *_ in runs), default="")
                ended = [(by, record) for started, by, record in runs if started == last]
                partial = sum(by == "partial" for by, _ in ended)
                if kind == signal.SIGTERM and (partial or details.live.read_text() != ",".join(HEADER) + "\n"):
                    sys.exit(f"a stop has left {partial} partial records and the live calls {details.live.read_text()}")
                figures.append((len(load.calls), len(ended), partial, check(load, ended, must_have, passed_of, kind.name), seconds))
                details.remove()
                time.sleep(1)
            total = [sum(column) for column in zip(*figures)]
            print(
                f"{kind.name}, {arguments.rounds} rounds: {total[0]:,} calls begun, {total[1]:,} records, {total[2]:,} of them partial, each once;"
                f" all {total[3]:,} that had to be there; {max(row[4] for row in figures):.1f} seconds at most", flush=True
            )


if __name__ == "__main__":
    main()
