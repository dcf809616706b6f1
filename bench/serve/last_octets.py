#!/usr/bin/env python3
"""The last octets that the exchange writes: as it stops, or ends a connection, its peer reads all of them and then the end, and no reset,
also where the peer is in the middle of a transfer.

README.md says what is checked.
"""

import argparse
import functools
import pathlib
import random
import socket
import sys
import tempfile
import time

import server
import transfer
from links import CALLED, ROUTED, Routed
from routers import ACCEPTED, CALL, PATIENCE
from server import CLEAR_CONFIRMATION, CLEAR_REQUEST, call_request, frame
from served import Served, require, rest_of, run_checks, station

# What a line is told whose far end went down first, and one that calls an address that nobody has.
GONE, NOT_OBTAINABLE = (0x09, 0), bytes.fromhex("1001130d43")

# Octets that belong to no call, far more than the exchange reads at once.
SPARE = 1_048_576 * b"x"

# Seconds of a transfer before a stop.
TRANSFER = 0.2

# How often a line closes its connection in one segment with its last octets, and the seconds in which half of these ends are seen at most.
# A line on which nothing is heard has a turn each half a second, so an end that waited for that would be seen later.
ENDS, SEEN = 15, 0.1

# Seconds that a stop takes, at least and at most, where peers stay.
LEAST_SECONDS, MOST_SECONDS = 1.5, 6


# ---- stops in the middle of transfers


class Transfers(Served):
    """An exchange whose calls transfer data."""

    @property
    def ends(self):
        return [end for call in self.calls for end in call]

    def stop(self, seconds):
        """Has it stop in the middle of the transfers, which go on until each connection has ended."""
        transfer.run_for(self.ends, seconds)
        self.process.stdin.close()
        for end in self.ends:
            end.pushes = True
        transfer.run(self.ends, lambda: all(end.is_through() for end in self.ends), PATIENCE)

    def go_on(self):
        """What the ends write to connections that the exchange has ended is read, and answered by no reset."""
        for end in self.ends:
            if not end.fault:
                end.write()

    def leave(self):
        """The ends close their connections, and the exchange ends."""
        for end in self.ends:
            end.connection.close()
        require(self.end(is_asked=False) == 0, f"it ended badly; {self.said()}")


class Pairs(Transfers):
    """The calls are between so many pairs of lines."""

    def __init__(self, program, folder, pairs):
        base = server.free_ports(2 * pairs)
        super().__init__(program, folder, server.subscriptions(pairs, base))
        lines = [(self.rise(base + 2 * pair), self.rise(base + 2 * pair + 1)) for pair in range(pairs)]
        self.calls = [transfer.connect_call(*both, server.address(pair)) for pair, both in enumerate(lines)]


class OfRouters(Transfers, Routed):
    """One call is of a router, and one is to another router."""

    def __init__(self, program, folder):
        super().__init__(program, folder)
        self.third.listen()
        self.c.send(call_request(ROUTED, transfer.SIZES))
        called, _ = self.third.called()
        self.calls = [transfer.ends_of(self.c, called), transfer.connect_call(self.first.connect(), self.d, CALLED)]


def fault_of(call):
    """What is wrong with how the ends of a call ended. The line that goes down first is told nothing, and the other one that it is gone."""
    faults = [end.fault for end in call if end.fault]
    told = [end.told for end in call if end.told]
    if not faults and told != [GONE]:
        faults.append(f"the ends were told {told} in place of 09/0 at one of them")
    return "; ".join(faults)


def faults_after(exchange):
    """What is wrong with how its calls ended, also where the ends have written on for a while. Then they close their connections."""
    for _ in range(2):
        time.sleep(0.1)
        exchange.go_on()
    exchange.leave()
    return [*filter(None, map(fault_of, exchange.calls))]


def check_records(exchange):
    """Each call has one record, of an end that went, with segments that were delivered or on their way."""
    records = {record.caller: record for record in map(server.read_record, exchange.printed().splitlines())}
    require(len(exchange.printed().splitlines()) == len(records) == len(exchange.calls), f"the records are {exchange.printed()}")
    for pair, (caller, called) in enumerate(exchange.calls):
        record = records[f"a{pair}"]
        is_counted = called.received <= record.sent / transfer.SEGMENTS <= caller.sent
        is_counted &= caller.received <= record.received / transfer.SEGMENTS <= called.sent
        require(is_counted and (record.cause, record.diagnostic) == GONE, f"{record} is not of its call")


def stops(program, folder, count, pairs, seed):
    """Calls in the middle of transfers as the exchange stops: the last frame of the one end is 09/0, and both read the end, and no reset."""
    choose, faults, packets = random.Random(seed), [], 0
    for number in range(count):
        place = pathlib.Path(folder) / f"stop{number}"
        place.mkdir()
        with Pairs(program, place, pairs) as exchange:
            exchange.stop(choose.uniform(0.2, 0.8))
            faults += faults_after(exchange)
            packets += sum(end.received for end in exchange.ends)
            check_records(exchange)
    print(f"{count} stops under {packets:,} data packets: {count * pairs - len(faults)} of {count * pairs} calls ended as they have to", flush=True)
    require(not faults, f"{len(faults)} of {count * pairs} calls ended otherwise, as: {faults[:1]}")


def stops_of_routers(program, folder):
    """A call of a router, and one to a router, end in the same way as the exchange stops in the middle of their transfers."""
    for _ in range(3):
        with OfRouters(program, folder) as exchange:
            exchange.stop(TRANSFER)
            faults = faults_after(exchange)
            require(not faults, f"a call ended so: {faults[:1]}")


# ---- other ends


def reads_to_the_end(line, packet):
    """This packet comes to a connection, and then its end. What is written to it then is answered by no reset."""
    require(rest_of(line.connection) == frame(packet), "other octets came before the end")
    for _ in range(3):
        line.connection.sendall(b"x")
        time.sleep(0.05)
    line.close()


def behind_a_bad_header(program, folder):
    """A line that sends a header that no frame has, and much behind it, reads what it was sent before, and then the end."""
    port = server.free_ports(1)
    with Served(program, folder, station("200002", ("b1", port, ""))) as exchange:
        for count in range(1, 6):
            line = exchange.rise(port)
            line.send(call_request("99"))
            # The answer is there, and is not read yet.
            require(line.connection.recv(1, socket.MSG_PEEK), "the call is not answered")
            line.connection.sendall(b"\xff\xff\xff\xff" + SPARE)
            reads_to_the_end(line, NOT_OBTAINABLE)
            exchange.wait_until_told("line b1: down: no frame of RFC 1613 (version 65535 found)\n", count)
        require(exchange.end() == 0, f"it ended badly; {exchange.said()}")


def with_the_last_octets(program, folder):
    """An end that comes in one segment with the last octets of a line is seen at once."""
    port, times = server.free_ports(1), []
    with Served(program, folder, station("200003", ("c1", port, ""))) as exchange:
        for _ in range(ENDS):
            line = exchange.rise(port)
            line.send(call_request("99"))
            require(line.connection.recv(1, socket.MSG_PEEK), "the call is not answered")
            line.connection.send(frame(CLEAR_CONFIRMATION), socket.MSG_MORE)
            begun = time.monotonic()
            line.connection.shutdown(socket.SHUT_WR)
            require(rest_of(line.connection) == frame(NOT_OBTAINABLE), "other octets came before the end")
            times.append(time.monotonic() - begun)
            line.close()
        require(sorted(times)[ENDS // 2] < SEEN, f"the ends were seen after {', '.join(f'{it:.2f}' for it in sorted(times))} seconds")
        require(exchange.end() == 0, f"it ended badly; {exchange.said()}")


def behind_a_clear(program, folder):
    """A router that sends much behind its clear request reads the confirmation, and then the end."""
    with Routed(program, folder) as exchange:
        for _ in range(5):
            theirs = exchange.third.place(CALLED, b"")
            exchange.d.expect(CALL)
            exchange.d.accept()
            theirs.expect(ACCEPTED)
            theirs.connection.sendall(frame(CLEAR_REQUEST) + SPARE)
            reads_to_the_end(theirs, CLEAR_CONFIRMATION)
            exchange.d.cleared()
            exchange.d.clear()
        exchange.finish(5)


def peers_that_stay(program, folder):
    """A stop waits two seconds for peers that stay and go on to write, and then ends."""
    with Pairs(program, folder, 2) as exchange:
        exchange.stop(TRANSFER)
        begun = time.monotonic()
        while exchange.process.poll() is None and (took := time.monotonic() - begun) < PATIENCE:
            exchange.go_on()
            faults = [*filter(None, map(fault_of, exchange.calls))]
            require(took > LEAST_SECONDS or not faults, f"{took:.1f} seconds behind the end of its connections: {faults[:1]}")
            time.sleep(0.05)
        took = time.monotonic() - begun
        require(LEAST_SECONDS <= took <= MOST_SECONDS, f"the exchange has ended {took:.1f} seconds behind its connections")
        exchange.leave()


def main():
    parser = argparse.ArgumentParser(description=__doc__.splitlines()[0])
    parser.add_argument("--xp", default=str(server.PROGRAM), help=f"the program ({server.DEFAULT})")
    parser.add_argument("--stops", type=int, default=10, help="how often an exchange is stopped (default: 10)")
    parser.add_argument("--pairs", type=int, default=5, help="calls of each exchange (default: 5)")
    parser.add_argument("--seed", type=int, help="what the moments of the stops follow from (default: at random)")
    arguments = parser.parse_args()
    seed = random.SystemRandom().randrange(1 << 32) if arguments.seed is None else arguments.seed
    print(f"seed {seed}", flush=True)
    stopping = functools.partial(stops, count=arguments.stops, pairs=arguments.pairs, seed=seed)
    functools.update_wrapper(stopping, stops)
    with tempfile.TemporaryDirectory() as folder:
        run_checks((stopping, stops_of_routers, behind_a_bad_header, with_the_last_octets, behind_a_clear, peers_that_stay), arguments.xp, folder)


if __name__ == "__main__":
    sys.exit(main())
