#!/usr/bin/env python3
"""Measures what grows with the number of lines: so many lines are connected, of which some talk and the others are idle.

For each number of lines it tells how long the program takes to start, its memory, a call's round trip, the packets a second of up to 256
calls, and what it costs a call that the console is asked: many short runs of a call in turn, of which every other has one question for the
metrics and one for the page's status. A run's longest round trip is what it waits at worst, and the two medians of that are told, with what
nine runs of ten stay below. README.md says what the figures mean.
"""

import argparse
import http.client
import json
import os
import pathlib
import socket
import subprocess
import sys
import tempfile
import threading
import time

import server
from served import Served

# Numbers of lines, of which the growth is told.
LINES = (2, 64, 512, 4_096)

# The most calls that send data at once.
CALLS = 256

# What a reader of the console asks for.
PATHS = ("/metrics", "/status.json")

# The runs with and without questions, how long each sends, and when it is asked, in seconds.
RUNS, RUN_SECONDS, ASKED_AFTER = 40, 0.3, 0.65

# Seconds until the exchange has seen the ends of the connections of the run before: an end right behind the last octets is seen within
# half a second.
SETTLING = 0.6

TITLES = ("lines", "start s", "memory", "idle %", "trip", "99 %", "longest", "90 %", "asked", "90 %", "packets/s", "metrics ms", "status ms", "octets")


def spread(text):
    """The subscriptions with the pairs that talk, the first ones, at even distances among the others: a thread serves lines that follow one
    another."""
    head, *stations = text.split("[[station]]")
    pairs = [stations[place : place + 2] for place in range(0, len(stations), 2)]
    step = max(1, len(pairs) // CALLS)
    talking, idle = iter(pairs[:CALLS]), iter(pairs[CALLS:])
    ordered = [next(talking if place % step == 0 else idle) for place in range(len(pairs))]
    return "[[station]]".join([head, *(station for pair in ordered for station in pair)])


class Many(Served):
    """An exchange over so many lines, all of them in pairs."""

    def __init__(self, program, folder, lines):
        self.count = lines
        self.base = server.free_ports(lines + 1)
        self.console = self.base + lines
        begun = time.monotonic()
        super().__init__(
            program, folder, spread(server.subscriptions(lines // 2, self.base)), "--quiet", "--console", f"127.0.0.1:{self.console}"
        )
        self.connect(self.base + lines - 1).close()
        self.start = time.monotonic() - begun
        # The line of that port takes its next connection once the end of this one was seen.
        time.sleep(1)
        self.connections = []

    def raise_from(self, first):
        """Connects the lines from this one on, and waits until each is in service."""
        for line in range(first, self.count):
            self.connections.append(self.connect(self.base + line))
        for connection in self.connections:
            connection.sendall(server.frame(server.CLEAR_REQUEST))
        wanted = server.frame(server.CLEAR_CONFIRMATION)
        for line, connection in enumerate(self.connections, first):
            if connection.recv(len(wanted), socket.MSG_WAITALL) != wanted:
                sys.exit(f"line {line} is not in service")

    def leave(self, count):
        """Closes the first so many of the connections."""
        for connection in self.connections[:count]:
            connection.close()
        del self.connections[:count]

    def ask(self, path):
        """What the console answers, and after how many seconds."""
        begun = time.monotonic()
        asking = http.client.HTTPConnection("127.0.0.1", self.console, timeout=60)
        asking.request("GET", path)
        text = asking.getresponse().read()
        asking.close()
        return text, time.monotonic() - begun


def share(values, hundredths):
    """The value below which so many hundredths of the values are."""
    return sorted(values)[(len(values) - 1) * hundredths // 100]


def play(load, exchange, pairs, window, seconds, gap=0):
    """What the load generator tells of calls on the first so many pairs."""
    threads = min(os.cpu_count(), pairs)
    command = [load, exchange.base, pairs, window, seconds, threads, *([gap] if gap else [])]
    # A connection to the port of a line whose last one has yet to be seen as ended is closed.
    time.sleep(SETTLING)
    run = subprocess.run([str(part) for part in command], capture_output=True, text=True)
    if run.returncode != 0:
        sys.exit(f"the load ended with status {run.returncode}: {run.stderr.strip()}; {exchange.said()}")
    told = json.loads(run.stdout)
    return {**told, "rate": sum(told["packets"]) / told["seconds"]}


def idle_share(exchange, seconds):
    """The share of a core that it takes while nothing comes."""
    time.sleep(1)
    before, begun = exchange.processor(), time.monotonic()
    time.sleep(seconds)
    return 100 * (exchange.processor() - before) / (time.monotonic() - begun)


def asked_once(exchange, times):
    """Asks the console for each path once, after a moment, and adds how long each answer took."""
    time.sleep(ASKED_AFTER)
    for path in PATHS:
        times[path].append(exchange.ask(path)[1])


def longest(load, exchange):
    """The longest round trip of each run, in microseconds, without questions and with them, and how long the answers took."""
    quiet, asked, times = [], [], {path: [] for path in PATHS}
    for _ in range(RUNS):
        quiet.append(play(load, exchange, 1, 1, RUN_SECONDS)["most"])
        asking = threading.Thread(target=asked_once, args=(exchange, times))
        asking.start()
        asked.append(play(load, exchange, 1, 1, RUN_SECONDS)["most"])
        asking.join()
    return quiet, asked, times


def measure(program, load, folder, lines, seconds):
    """The figures of so many lines."""
    pairs = min(CALLS, lines // 2)
    with Many(program, folder, lines) as exchange:
        # One call, with all other lines connected.
        exchange.raise_from(2)
        memory = exchange.memory()
        idle = idle_share(exchange, seconds) if lines > 2 else 0
        alone = play(load, exchange, 1, 1, seconds)
        quiet, asked, times = longest(load, exchange)
        # Many calls: their lines are those of the load.
        exchange.leave(2 * pairs - 2)
        time.sleep(0.5)
        many = play(load, exchange, pairs, 7, seconds)
        octets = len(exchange.ask("/status.json")[0])
        exchange.leave(len(exchange.connections))
        if exchange.end() != 0:
            sys.exit(f"it has ended badly; {exchange.said()}")
        records = len(exchange.lines_printed)
        calls = pairs + 1 + 2 * RUNS
        if records != calls:
            sys.exit(f"there are {records} records of {calls} calls")
    trips = [f"{share(runs, part):,.0f}" for runs in (quiet, asked) for part in (50, 90)]
    answers = [f"{1_000 * share(times[path], 50):.1f}" for path in PATHS]
    return (
        f"{lines:,}", f"{exchange.start:.2f}", f"{memory:,}", f"{idle:.2f}", f"{alone['mean']:.0f}", f"{alone['p99']:.0f}", *trips,
        f"{many['rate']:,.0f}", *answers, f"{octets:,}",
    )


def row(fields):
    print("".join(f"{field:>12}" for field in fields), flush=True)


def main():
    parser = argparse.ArgumentParser(description=__doc__.splitlines()[0])
    parser.add_argument("--xp", default=str(server.PROGRAM), help=f"the built program ({server.DEFAULT})")
    parser.add_argument("--seconds", type=float, default=5, help="how long each run sends (default: 5)")
    parser.add_argument("--lines", type=int, action="append", help="so many lines, an even number; may be given again")
    arguments = parser.parse_args()

    with tempfile.TemporaryDirectory() as folder:
        load = server.compiled("load", folder)
        row(TITLES)
        for lines in arguments.lines or LINES:
            row(measure(arguments.xp, load, pathlib.Path(folder), lines, arguments.seconds))


if __name__ == "__main__":
    main()
