#!/usr/bin/env python3
"""Ports that move from one line to another again and again while connections come: each connection is served by a line that has the port,
or closed.

Two lines change their ports by each reload. README.md says what is checked.
"""

import argparse
import csv
import dataclasses
import socket
import tempfile
import threading
import time

import server
from changing import Changing, own
from router_calls import NOT_OBTAINABLE
from routers import CLEAR, Wrong, XotCall
from server import call_request
from served import require, run_checks, until

# The ports, by the letters of the lines that have them at first, and the lines that have them behind each even and each odd reload.
PORTS = "bc"
OWNERS = (("b1", "c1"), ("c1", "b1"))

# Seconds for which a connection and its answer are waited for, on a machine that does other things too.
PATIENT = 30

# Seconds between two connections to a port, so that the exchange can tell of each.
PAUSE = 0.002


@dataclasses.dataclass(frozen=True)
class Knock:
    """A connection: its port, the number that it has dialled, the last reload that was answered as it began and the last one that was
    asked for as it ended, and whether it was served."""

    port: int
    dialled: str
    first: int
    last: int
    is_served: bool

    def lines(self):
        """The lines that had its port meanwhile."""
        return {OWNERS[reload % 2][self.port] for reload in range(self.first, self.last + 1)}


class Knocker(threading.Thread):
    """Connects to a port again and again, and calls an address that nobody has. What is wrong ends it."""

    def __init__(self, exchange, port):
        super().__init__(daemon=True)
        self.exchange, self.port = exchange, port
        self.is_over, self.wrong, self.knocks, self.served_behind = threading.Event(), None, [], -1

    def run(self):
        try:
            while not self.is_over.is_set():
                self.knock(f"99{self.port}{len(self.knocks):07}")
                time.sleep(PAUSE)
        except (Wrong, OSError) as wrong:
            self.wrong = wrong

    def knock(self, dialled):
        """A connection, which the system has to make: the port is open all the time."""
        first = self.exchange.done
        connection = socket.create_connection(("127.0.0.1", self.exchange.port(PORTS[self.port])), timeout=PATIENT)
        is_served = has_answer(XotCall(connection), dialled)
        self.knocks.append(Knock(self.port, dialled, first, self.exchange.begun, is_served))
        connection.close()
        if is_served:
            self.served_behind = first


def has_answer(line, dialled):
    """Calls, and tells whether the call is refused, as it has to be. Else the connection was closed."""
    try:
        line.send(call_request(dialled))
    except ConnectionError:
        return False
    packet = line.receive(PATIENT)
    require(not packet or (packet[2], (packet[3], packet[4])) == (CLEAR, NOT_OBTAINABLE), f"{packet.hex()} came as a call to {dialled} is refused")
    return bool(packet)


class Moving(Changing):
    """An exchange of two lines that change their ports by each reload."""

    def __init__(self, program, folder, *words):
        self.begun = self.done = 0
        super().__init__(program, folder, self.stations(0), words=words)

    def stations(self, reload):
        """The stations of both lines behind so many reloads."""
        return [own(name, port=PORTS[port]) for port, name in enumerate(OWNERS[reload % 2])]

    def move(self):
        """Both lines change their ports."""
        self.begun += 1
        answer = self.reload(self.stations(self.begun))
        require(answer == (200, "reloaded: 2 stations changed"), f"reload {self.begun} is answered {answer}")
        self.done = self.begun

    def wait_for(self, knocker):
        """A connection that has begun behind the last reload is served."""
        until(
            lambda: knocker.wrong or knocker.served_behind == self.done,
            lambda: f"behind reload {self.done} no connection to port {PORTS[knocker.port]} is served", PATIENT,
        )
        require(knocker.wrong is None, f"{knocker.wrong}; {self.said()[-1500:]}")

    def records(self):
        """The number that each call has dialled, and the line that it came from."""
        with open(self.records_path, newline="", encoding="ascii") as file:
            return [(row["dialled"], row["caller_line"]) for row in csv.DictReader(file)]


def check_knocks(knocks, records):
    """Each call came from a line that had the port of its connection, and each connection that was served has one record."""
    waiting = {knock.dialled: knock for knock in knocks}
    for dialled, line in records:
        require(dialled in waiting, f"a call to {dialled} has two records, or nobody has made it")
        knock = waiting.pop(dialled)
        require(line in knock.lines(), f"{knock} was served by {line}, and {sorted(knock.lines())} had its port")
    served = [knock for knock in waiting.values() if knock.is_served]
    require(not served, f"{served[:3]} have no record")


def moves(count, words, program, folder):
    with Moving(program, folder, *words) as exchange:
        exchange.wait_until_told("serving ", most=PATIENT)
        knockers = [Knocker(exchange, port) for port in range(len(PORTS))]
        for knocker in knockers:
            knocker.start()
            exchange.wait_for(knocker)
        for _ in range(count):
            exchange.move()
            for knocker in knockers:
                exchange.wait_for(knocker)
        for knocker in knockers:
            knocker.is_over.set()
            knocker.join(PATIENT)
            require(knocker.wrong is None and not knocker.is_alive(), f"{knocker.wrong}; {exchange.said()[-1500:]}")
        require(exchange.end() == 0, f"it ended badly; {exchange.said()[-1500:]}")
        knocks = [knock for knocker in knockers for knock in knocker.knocks]
        check_knocks(knocks, exchange.records())
    met = sum(knock.first != knock.last for knock in knocks)
    print(f"  {count} reloads, {len(knocks)} connections, of which {sum(knock.is_served for knock in knocks)} were served and {met} met a reload")


def main():
    parser = argparse.ArgumentParser(description=__doc__.splitlines()[0])
    parser.add_argument("--xp", default=str(server.PROGRAM), help=f"the program ({server.DEFAULT})")
    parser.add_argument("--reloads", type=int, default=100, help="how often the ports move (default: 100)")
    arguments = parser.parse_args()

    def by_one_thread(program, folder):
        """Two ports change their lines again and again, which one thread serves: each connection has a line that has the port, or none."""
        moves(arguments.reloads, (), program, folder)

    def by_two_threads(program, folder):
        """The same where each line has a thread of its own."""
        moves(arguments.reloads, ("--threads", "lines"), program, folder)

    with tempfile.TemporaryDirectory() as folder:
        run_checks((by_one_thread, by_two_threads), arguments.xp, folder)


if __name__ == "__main__":
    main()
