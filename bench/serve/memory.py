#!/usr/bin/env python3
"""The memory of `xp serve` in a long run: under calls of data, and under calls that come and go.

It must not grow with what was served. README.md says what is compared.
"""

import argparse
import itertools
import json
import multiprocessing
import os
import pathlib
import select
import socket
import subprocess
import sys
import tempfile
import time

import server

PAIRS, WINDOW = 16, 7
ACCEPTED = bytes.fromhex("10010f")
# Packets that the lines hand in for a call that is set up and cleared: request, acceptance, clear, two confirmations.
EVENTS_OF_A_CALL = 4


class Exchange(server.Process):
    """An exchange over so many pairs of lines, which writes its call detail records to a file."""

    def __init__(self, program, folder, pairs):
        self.base = server.free_ports(2 * pairs)
        self.details = pathlib.Path(folder) / "calls.csv"
        self.seen = self.octets = 0
        file = pathlib.Path(folder) / "subscriptions.toml"
        file.write_text(server.subscriptions(pairs, self.base))
        super().__init__([program, "serve", file, "--cdr", self.details], folder)

    def records(self):
        """How many call detail records its file has, behind the header."""
        with self.details.open("rb") as file:
            file.seek(self.octets)
            more = file.read()
        self.octets += len(more)
        self.seen += more.count(b"\n")
        return max(0, self.seen - 1)


class Samples:
    """The memory of an exchange, with how far a run had come."""

    def __init__(self, what, exchange, first, most):
        self.what, self.exchange, self.first, self.most = what, exchange, first, most
        self.early = self.last = None

    def take(self, done):
        memory = self.exchange.memory()
        if self.early is None and done >= self.first:
            self.early = done, memory
        self.last = done, memory

    def tell(self, unit):
        """Compares the memory after the first so many with that in the end."""
        growth = 100 * (self.last[1] - self.early[1]) / self.early[1]
        print(
            f"{self.what}: {self.early[1]:,} octets after {self.early[0]:,} {unit}, {self.last[1]:,} after {self.last[0]:,}:"
            f" {growth:+.1f} %, at most {self.most:g}", flush=True
        )
        return growth <= self.most


def data(arguments, load, folder):
    """Sixteen calls send data as fast as their windows let them. A short run tells for how long."""
    def run(exchange, seconds, while_running):
        command = [str(part) for part in (load, exchange.base, PAIRS, WINDOW, f"{seconds:.2f}", min(os.cpu_count(), PAIRS))]
        begun = time.monotonic()
        with subprocess.Popen(command, stdout=subprocess.PIPE, text=True) as running:
            while running.poll() is None:
                while_running(time.monotonic() - begun)
                time.sleep(0.1)
            told = json.loads(running.stdout.read())
        return 2 * sum(told["packets"]) / told["seconds"]

    with Exchange(arguments.xp, folder, PAIRS) as exchange:
        rate = run(exchange, 2, lambda _: None)
    with Exchange(arguments.xp, folder, PAIRS) as exchange:
        samples = Samples("data", exchange, arguments.first, arguments.most)
        rate = run(exchange, arguments.events / rate, lambda passed: samples.take(int(passed * rate)))
        return samples.tell("events")


def calls_of(pair, base, wanted, done, refused):
    """So many calls of a pair of lines, one after the other: accepted, and cleared by the caller. Counts them, and the tries that
    were refused."""
    ends = [socket.create_connection(("127.0.0.1", base + 2 * pair + side)) for side in range(2)]
    for end in ends:
        end.setsockopt(socket.IPPROTO_TCP, socket.TCP_NODELAY, 1)
        end.sendall(server.frame(server.CLEAR_REQUEST))
        receive(end, 0x17)
    caller, called = ends
    request = server.frame(server.call_request(server.address(pair)))
    accepted, clear, confirmation = (server.frame(packet) for packet in (ACCEPTED, server.CLEAR_REQUEST, server.CLEAR_CONFIRMATION))
    for _ in range(wanted):
        refused[pair] += ring(caller, called, request, confirmation)
        called.sendall(accepted)
        receive(caller, 0x0F)
        caller.sendall(clear)
        receive(called, 0x13)
        called.sendall(confirmation)
        receive(caller, 0x17)
        done[pair] += 1


def ring(caller, called, request, confirmation):
    """Calls until the called line rings: it is busy for as long as its clear confirmation is under way. Returns how many tries were
    refused."""
    for refused in itertools.count():
        caller.sendall(request)
        ready, _, _ = select.select([caller, called], [], [])
        if called in ready:
            receive(called, 0x0B)
            return refused
        receive(caller, 0x13)
        caller.sendall(confirmation)


def receive(end, kind):
    head = end.recv(4, socket.MSG_WAITALL)
    packet = end.recv(int.from_bytes(head[2:4], "big"), socket.MSG_WAITALL)
    if packet[2] != kind:
        sys.exit(f"got {packet.hex()} where {kind:02x} is due")


class Lag:
    """How far the file of call detail records lagged behind the calls that ended."""

    def __init__(self, exchange):
        self.exchange, self.most, self.longest, self.last, self.moved = exchange, 0, 0, 0, time.monotonic()

    def take(self, ended):
        """There were so many records to write, at least. Returns how many the file has not."""
        now, records = time.monotonic(), self.exchange.records()
        lag = max(0, ended - records)
        self.most = max(self.most, lag)
        if lag == 0 or records > self.last:
            self.last, self.moved = records, now
        self.longest = max(self.longest, now - self.moved)
        return lag


def calls(arguments, folder):
    """Pairs of lines have calls that come and go, one after the other. Each call has a record in the end, and so has each try that
    was refused."""
    with Exchange(arguments.xp, folder, PAIRS) as exchange:
        exchange.connect(exchange.base).close()
        time.sleep(1)
        samples = Samples("calls", exchange, arguments.first // EVENTS_OF_A_CALL, arguments.most)
        lag = Lag(exchange)
        done, refused = (multiprocessing.Array("Q", PAIRS, lock=False) for _ in range(2))
        playing = [
            multiprocessing.Process(target=calls_of, args=(pair, exchange.base, arguments.calls // PAIRS, done, refused))
            for pair in range(PAIRS)
        ]
        for it in playing:
            it.start()
        while any(it.is_alive() for it in playing):
            samples.take(sum(done))
            lag.take(sum(done) + sum(refused))
            time.sleep(0.1)
        if any(it.exitcode for it in playing):
            sys.exit(f"calls failed; {exchange.said()}")
        samples.take(sum(done))
        ended = sum(done) + sum(refused)
        patience = time.monotonic() + 60
        while lag.take(ended) and time.monotonic() < patience:
            time.sleep(0.1)
        print(
            f"calls: {sum(done):,} and {sum(refused):,} tries that were refused; {exchange.records():,} records, of which the file"
            f" lacked {lag.most:,} at most, and took none for {lag.longest:.1f} s at most", flush=True
        )
        if exchange.records() != ended:
            sys.exit(f"{ended:,} records are due")
        return samples.tell("calls")


def main():
    parser = argparse.ArgumentParser(description=__doc__.splitlines()[0])
    parser.add_argument("--xp", default=str(server.PROGRAM), help=f"the built program ({server.DEFAULT})")
    parser.add_argument("--events", type=int, default=5_000_000, help="events of data (default: 5,000,000; 0: none)")
    parser.add_argument("--calls", type=int, default=1_000_000, help="calls that come and go (default: 1,000,000; 0: none)")
    parser.add_argument("--first", type=int, default=100_000, help="events after which the memory is looked at first (default: 100,000)")
    parser.add_argument("--most", type=float, default=2, help="percent by which it may have grown in the end (default: 2)")
    arguments = parser.parse_args()

    holds = []
    if arguments.events:
        with tempfile.TemporaryDirectory() as folder:
            holds.append(data(arguments, server.compiled("load", folder), folder))
    if arguments.calls:
        with tempfile.TemporaryDirectory() as folder:
            holds.append(calls(arguments, folder))
    if not all(holds):
        sys.exit("the memory grows with what is served")


if __name__ == "__main__":
    main()
