#!/usr/bin/env python3
"""Calls of many routers, behind each of which many stations have lines: each call has a line of the station that its calling address names.

40 routers have 100 stations each, and 4,096 lines in all. Each call is to an address of its own that nobody has, by which its record is
found.
"""

import argparse
import collections
import random
import socket
import sys
import tempfile
import threading
import time

import server
from packets import Block, Packet, written
from routers import CLEAR_CONFIRMATION, PATIENCE, Wrong, XotCall
from served import Served, require

EXCHANGE = "127.0.0.1"
ROUTERS, STATIONS, LINES = 40, 100, 4_096

# What a call to an address that nobody has is told.
NOT_OBTAINABLE = (0x0D, 67)

# How often a call is tried whose station has no free line yet, and the seconds between two tries.
TRIES, PAUSE = 200, 0.01
NO_FREE_LINE = (0x01, 71)

# Where the stations of a router and the addresses that nobody has begin.
FIRST_STATION, FIRST_NOBODY = 3_000_000, 90_000_000


def router_of(place):
    """The address of a router."""
    return f"127.0.7.{place + 1}"


def address_of(router, station):
    return str(FIRST_STATION + 1_000 * router + station)


def subscriptions(xot_port):
    """The stations of all routers. The first of them have two lines, the others one."""
    places = [(router, station) for router in range(ROUTERS) for station in range(STATIONS)]
    text, with_two = f'host = "{EXCHANGE}"\nxot_port = {xot_port}\n', LINES - len(places)
    for place, (router, station) in enumerate(places):
        names = [f"r{router}x{station}"] + [f"r{router}x{station}x1"] * (place < with_two)
        lines = ", ".join(f'{{ name = "{name}", router = "{router_of(router)}" }}' for name in names)
        text += f'[[station]]\naddress = "{address_of(router, station)}"\nline = [{lines}]\n'
    return text


class Caller(threading.Thread):
    """Calls one after the other, of random stations. What is wrong ends it."""

    def __init__(self, port, numbers, seed):
        super().__init__(daemon=True)
        self.port, self.numbers, self.choose = port, numbers, random.Random(seed)
        self.calls, self.wrong = {}, None

    def run(self):
        try:
            for number in self.numbers:
                self.place(str(FIRST_NOBODY + number))
        except (Wrong, OSError) as wrong:
            self.wrong = wrong

    def place(self, dialled):
        """A call, which a line of its station has to take."""
        router, station = self.choose.randrange(ROUTERS), self.choose.randrange(STATIONS)
        self.calls[dialled] = f"r{router}x{station}"
        for _ in range(TRIES):
            told = self.told_to(router, address_of(router, station), dialled)
            if told != NO_FREE_LINE:
                require(told == NOT_OBTAINABLE, f"the call to {dialled} is told {told}")
                return
            time.sleep(PAUSE)
        raise Wrong(f"no line of {address_of(router, station)} has become free")

    def told_to(self, router, calling, dialled):
        """What a call is told by a clear indication, which is confirmed."""
        call = XotCall(socket.create_connection((EXCHANGE, self.port), PATIENCE, (router_of(router), 0)))
        call.send(written(8, 1, Packet("call", block=Block(dialled, calling, b"", b""))))
        packet = call.receive()
        require(packet[2:3] == b"\x13", f"{packet.hex() or 'the end of the connection'} came in place of a clear indication")
        call.send(CLEAR_CONFIRMATION)
        call.ends()
        return packet[3], packet[4]


def play(port, calls, at_once):
    """So many calls, some of them at once. Returns the name of the first line of the station that placed each."""
    callers = [Caller(port, range(place, calls, at_once), place) for place in range(at_once)]
    for caller in callers:
        caller.start()
    for caller in callers:
        caller.join()
    wrong = next((caller.wrong for caller in callers if caller.wrong), None)
    if wrong:
        raise wrong
    return {dialled: name for caller in callers for dialled, name in caller.calls.items()}


def main():
    parser = argparse.ArgumentParser(description=__doc__.splitlines()[0])
    parser.add_argument("--xp", default=str(server.PROGRAM), help=f"the program ({server.DEFAULT})")
    parser.add_argument("--calls", type=int, default=10_000, help="how many calls (default: 10,000)")
    parser.add_argument("--at-once", type=int, default=8, help="how many at once (default: 8)")
    arguments = parser.parse_args()

    port = server.free_ports(1)
    with tempfile.TemporaryDirectory() as folder, Served(arguments.xp, folder, subscriptions(port), "--quiet") as exchange:
        exchange.connect(port).close()
        begun = time.monotonic()
        try:
            placed = play(port, arguments.calls, arguments.at_once)
            took = time.monotonic() - begun
            require(exchange.end() == 0, f"it ended badly; {exchange.said()}")
        except Wrong as wrong:
            sys.exit(str(wrong))
        records = [server.read_record(line.rstrip("\n")) for line in exchange.lines_printed]
        counts = collections.Counter(record.dialled for record in records)
        if counts != collections.Counter(placed.keys()):
            sys.exit(f"there are {len(records)} records of {len(placed)} calls")
        for record in records:
            name = placed[record.dialled]
            if record.caller not in (name, f"{name}x1"):
                sys.exit(f"the call to {record.dialled} is of {name}, and its record of {record.caller}")
    print(f"{len(placed):,} calls of {ROUTERS * STATIONS:,} stations behind {ROUTERS} routers, {len(placed) / took:,.0f} a second")
    print("each has a record of its own station")


if __name__ == "__main__":
    main()
