#!/usr/bin/env python3
"""Other subscriptions come into force while calls of data run: no octet and no call is lost, and each call has its record.

Files that allow other calls alternate with files that are refused. After each answer of the console a call is decided by those in force.
README.md says what is checked.
"""

import argparse
import csv
import itertools
import selectors
import sys
import tempfile
import threading
import time

import server
from moduli import STATIONS, End, Station
from routers import ACCEPTED, CALL, CLEAR, Wrong, XotCall
from server import CLEAR_CONFIRMATION, call_request
from served import Served, answer_to_reload, require, run_checks, station, until

# Pairs of lines whose calls last from before the first reload until after the last one.
PAIRS = 16
WINDOW = 2
BARRED, NOT_OBTAINABLE = (0x0B, 0), (0x0D, 67)

# What the stations of three lines are by day and by night: x calls y, or z at another address.
GROUP = '[[station.group]]\nname = "{name}"\nindex = 1\n'


def decided(base, x, y, z):
    """The stations of the lines x, y and z, each with a group and an address."""
    lines = zip(("x", "y", "z"), (x, y, z), itertools.count(base))
    return "".join(station(number, (name, port, ""), more="preferential = 1\n") + GROUP.format(name=group) for name, (number, group), port in lines)


def talking(base, tail=""):
    """The stations of the pairs whose calls run. The last of them may have another text."""
    texts = []
    for pair in range(PAIRS):
        for place, (side, number) in enumerate((("a", f"20{pair:04}"), ("b", f"30{pair:04}"))):
            texts.append(station(number, (f"{side}{pair}", base + 2 * pair + place, "")))
    return "".join(texts) if not tail else "".join(texts[:-1]) + tail


class Files:
    """The texts that the subscription file has in turn."""

    def __init__(self, base):
        own = base + 2 * PAIRS
        day = decided(own, ("400001", "1"), ("400010", "1"), ("400020", "2"))
        night = decided(own, ("400001", "2"), ("400010", "1"), ("400021", "2"))
        last = base + 2 * PAIRS - 1
        self.day, self.night = talking(base) + day, talking(base) + night
        # Each refused, with the beginning of what is told of it.
        self.refused = (
            (talking(base) + day.replace('address = "400010"', 'address = "400001"'), "xp: subscriptions: twice address"),
            (talking(base, station("309999", ("b15", last, ""))) + day, "xp: reload: line b15: in a call"),
            (talking(base, station("300015", ("b15", last, ", modulus = 128"))) + day, "xp: reload: needs a stop: line b15: "),
            ("station = ", "xp: subscriptions: "),
        )


class Reloaded(Served):
    def __init__(self, program, folder):
        self.base = server.free_ports(2 * PAIRS + 4)
        self.console = self.base + 2 * PAIRS + 3
        self.files = Files(self.base)
        self.path = f"{folder}/subscriptions.toml"
        self.records_path = f"{folder}/calls.csv"
        super().__init__(program, folder, self.files.day, "--console", f"127.0.0.1:{self.console}", "--cdr", self.records_path)

    def put(self, text):
        with open(self.path, "w", encoding="ascii") as file:
            file.write(text)

    def reload(self, text):
        """Has it read its file, which has this text now. Returns the status and the text of the answer."""
        self.put(text)
        return answer_to_reload(self.console)

    def records(self):
        with open(self.records_path, newline="", encoding="ascii") as file:
            return list(csv.DictReader(file))


# The calls whose data goes on ---------------------------------------------------------------------------------


class Talker(End):
    """An end that sends as much data as it may until it is told to finish, and checks all that comes."""

    def __init__(self, name, connection):
        super().__init__(name, connection)
        self.far, self.window = None, WINDOW
        self.sent = self.acknowledged = self.heard = self.told = self.most_under_way = 0
        self.segments = 0
        self.is_finishing = False

    def packet_of(self, place):
        """The data of a packet of this end: its length and octets follow from its place."""
        return (f"{self.name} {place} ".encode() * 20)[: 1 + place * 37 % 128]

    def hear(self, packet):
        require(packet.kind in ("data", "ready"), f"{self.name} got {packet} during its call")
        counts = [count for count in range(self.acknowledged, self.sent + 1) if count % 8 == packet.pr]
        require(counts, f"{self.name} got P(R) {packet.pr}, of {self.acknowledged} to {self.sent} packets")
        self.acknowledged = counts[0]
        if packet.kind == "data":
            require(packet.ps == self.heard % 8, f"{self.name} got P(S) {packet.ps} after {self.heard} packets")
            require(packet.octets == self.far.packet_of(self.heard), f"{self.name} got other data than was sent to it")
            self.heard += 1

    def answer(self):
        while not self.is_finishing and self.sent - self.acknowledged < self.window:
            octets = self.packet_of(self.sent)
            self.send("data", ps=self.sent % 8, pr=self.heard % 8, octets=octets)
            self.sent, self.told = self.sent + 1, self.heard
            self.segments += -(-len(octets) // 64)
        if self.told < self.heard:
            self.send("ready", pr=self.heard % 8)
            self.told = self.heard

    def is_through(self):
        return self.is_finishing and self.sent == self.acknowledged and self.heard == self.told == self.far.sent


class Talks(threading.Thread):
    """The calls of all pairs, which go on until they are asked to finish."""

    def __init__(self, exchange):
        super().__init__(daemon=True)
        self.failure, self.asked, self.ends = None, threading.Event(), []
        for pair in range(PAIRS):
            pair_ends = []
            for place, (side, number) in enumerate((("a", f"20{pair:04}"), ("b", f"30{pair:04}"))):
                STATIONS[f"{side}{pair}"] = Station(number, 8)
                end = Talker(f"{side}{pair}", exchange.connect(exchange.base + 2 * pair + place))
                end.rise()
                pair_ends.append(end)
            caller, called = pair_ends
            caller.far, called.far = called, caller
            caller.connection.sendall(server.frame(call_request(called.address)))
            called.receive("call")
            called.send("accepted")
            caller.receive("accepted")
            self.ends += pair_ends

    def run(self):
        try:
            self.talk()
        except (Wrong, OSError, SystemExit) as failure:
            self.failure = failure

    def talk(self):
        with selectors.DefaultSelector() as selector:
            for end in self.ends:
                selector.register(end.connection, selectors.EVENT_READ, end)
                end.turn()
            while not all(end.is_through() for end in self.ends):
                if self.asked.is_set():
                    for end in self.ends:
                        end.is_finishing = True
                for key, _ in selector.select(0.05):
                    key.data.fill()
                    key.data.turn()

    def finish(self):
        """Lets all data arrive, and clears the calls. Returns the segments of each, sent and received."""
        self.asked.set()
        self.join(60)
        require(self.failure is None, f"a call broke: {self.failure}")
        require(not self.is_alive(), "data is still under way")
        counted = {}
        for caller, called in zip(self.ends[::2], self.ends[1::2]):
            caller.send("clear", cause=0, diagnostic=7)
            caller.receive("clear confirmation")
            called.receive("clear")
            called.send("clear confirmation")
            counted[caller.name] = (caller.segments, called.segments)
        return counted


# What is decided ------------------------------------------------------------------------------------------------


def call(x, called, number, wanted):
    """x calls a number. Either the called line has the call, which x clears then, or x is told a cause and a diagnostic."""
    x.send(call_request(number))
    if wanted is None:
        called.expect(CALL)
        called.accept()
        x.expect(ACCEPTED)
        x.clear()
        called.expect(CLEAR)
        called.send(CLEAR_CONFIRMATION)
    else:
        told = x.expect(CLEAR)
        x.send(CLEAR_CONFIRMATION)
        require((told[3], told[4]) == wanted or wanted == BARRED and told[3] == BARRED[0], f"{number} is told {told.hex()}")


class Decided:
    """The lines x, y and z, and the calls between them."""

    def __init__(self, exchange):
        base = exchange.base + 2 * PAIRS
        self.x, self.y, self.z = (exchange.rise(base + place) for place in range(3))
        self.made = []

    def look(self, is_day):
        """Calls by the subscriptions in force: by day y is reached, by night z, at another address than by day."""
        plan = (
            (("y", "400010", None), ("-", "400020", BARRED), ("-", "400021", NOT_OBTAINABLE))
            if is_day
            else (("z", "400021", None), ("-", "400010", BARRED), ("-", "400020", NOT_OBTAINABLE))
        )
        for name, number, wanted in plan:
            call(self.x, getattr(self, name, None), number, wanted)
            self.made.append((name if wanted is None else "", number))


def reload_under_calls(exchange, count):
    """Data of 16 calls goes on through reloads, half of which are refused; each call is decided by the subscriptions in force."""
    talks = Talks(exchange)
    lines = Decided(exchange)
    lines.look(is_day=True)
    talks.start()
    is_day, took = True, []
    for number in range(count):
        began = time.monotonic()
        if number % 2:
            text, wanted = exchange.files.refused[number // 2 % len(exchange.files.refused)]
            status, told = exchange.reload(text)
            require(status == 409 and told.startswith(wanted), f"reload {number} is answered {status}: {told}, where {wanted} is due")
        else:
            is_day = not is_day
            status, told = exchange.reload(exchange.files.day if is_day else exchange.files.night)
            require((status, told) == (200, "reloaded: 2 stations changed"), f"reload {number} is answered {status}: {told}")
        took.append(time.monotonic() - began)
        if number % 10 < 2:
            lines.look(is_day)
        require(talks.is_alive(), f"the calls ended: {talks.failure}")
    counted = talks.finish()
    took.sort()
    octets = sum(sent + received for sent, received in counted.values())
    print(f"{count} reloads, each answered within {took[len(took) // 2] * 1000:.0f} ms in the median and {took[-1] * 1000:.0f} at most;")
    print(f"{octets:,} segments of {len(counted)} calls; {len(lines.made)} calls were decided meanwhile")
    return counted, lines


def check_records(exchange, counted, lines):
    """Each call has one record, with its exact segments, told by the subscriptions in force as it ended."""
    records = exchange.records()
    require(len(records) == len(counted) + len(lines.made), f"{len(records)} records of {len(counted) + len(lines.made)} calls")
    for record in records:
        caller = record["caller_line"]
        if caller in counted:
            told = int(record["segments_from_caller"]), int(record["segments_from_called"])
            require(told == counted.pop(caller), f"{caller} is charged {told}")
        else:
            called, number = lines.made.pop(0)
            require((record["called_line"], record["dialled"]) == (called, number), f"{record} is not of the call of {called} at {number}")
            if called:
                require(record["called_address"] == number, f"{record}: the called line has {number}")
    require(not counted and not lines.made, "calls without a record")


def main():
    parser = argparse.ArgumentParser(description=__doc__.splitlines()[0])
    parser.add_argument("--xp", default=str(server.PROGRAM), help=f"the program ({server.DEFAULT})")
    parser.add_argument("--reloads", type=int, default=1_000, help="how often the file is read again (default: 1000)")
    arguments = parser.parse_args()
    with tempfile.TemporaryDirectory() as folder:
        exchange = Reloaded(arguments.xp, folder)
        with exchange:
            try:
                counted, lines = reload_under_calls(exchange, arguments.reloads)
                exchange.put(exchange.files.day)
                exchange.process.stdin.write("reload\n")
                exchange.process.stdin.flush()
                until(lambda: exchange.told().count("reloaded: ") >= arguments.reloads // 2 + 1, "a line on standard input asks for nothing")
                require(exchange.end() == 0, "it ended badly")
                check_records(exchange, counted, lines)
            except (Wrong, OSError) as wrong:
                sys.exit(f"{wrong}; {exchange.said()}")
    print("each call has its record, and a line on standard input asks for a reload as well")


if __name__ == "__main__":
    main()
