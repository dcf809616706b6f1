#!/usr/bin/env python3
"""Measures what it costs calls that other subscriptions come into force while the exchange serves.

First the packets a second of 128 calls, in runs by turns without reloads and with one each second. Then, with 4,096 lines, a call's longest
round trip in short runs by turns without a reload and with one: the exchange's lock is held no longer than the two differ. README.md says
what the figures mean.
"""

import argparse
import http.client
import pathlib
import statistics
import sys
import tempfile
import threading
import time

import server
from many import Many, play, share

CALLS = 128
LEAST_SHARE = 0.95

LINES = 4_096
# The runs with and without a reload, how long each sends, and when the reload is asked for, in seconds.
RUNS, RUN_SECONDS, ASKED_AFTER = 20, 1.5, 0.8
# Milliseconds for which a reload may hold up a call.
MOST = 5


class Reloaded(Many):
    """An exchange whose file has two texts by turns: they differ in a right of the last station, which is in no call."""

    def __init__(self, program, folder, lines):
        super().__init__(program, folder, lines)
        self.path = pathlib.Path(folder) / "subscriptions.toml"
        text = self.path.read_text(encoding="ascii")
        head, last = text.rsplit("\naddress", 1)
        self.texts = [f"{head}\nreverse_charging = true\naddress{last}", text]

    def reload(self):
        self.texts.reverse()
        self.path.write_text(self.texts[1], encoding="ascii")
        begun = time.monotonic()
        asking = http.client.HTTPConnection("127.0.0.1", self.console, timeout=30)
        asking.request("POST", "/reload", headers={"X-Gonukire": "reload"})
        answer = asking.getresponse()
        told = answer.status, answer.read().decode().strip()
        asking.close()
        if told != (200, "reloaded: 1 station changed"):
            sys.exit(f"a reload is answered {told}")
        return time.monotonic() - begun


class EachSecond(threading.Thread):
    """A reload each second, until it is ended."""

    def __init__(self, exchange):
        super().__init__(daemon=True)
        self.exchange, self.is_over, self.count = exchange, threading.Event(), 0
        self.start()

    def run(self):
        while not self.is_over.wait(1):
            self.exchange.reload()
            self.count += 1

    def end(self):
        self.is_over.set()
        self.join()
        return self.count


def measure_packets(program, load, folder, rounds, seconds):
    """The packets a second of many calls, without reloads and with them."""
    with Reloaded(program, folder, 2 * CALLS) as exchange:
        rates = {False: [], True: []}
        for number in range(2 * rounds):
            is_reloaded = number % 2 == 1
            reloads = EachSecond(exchange) if is_reloaded else None
            rates[is_reloaded].append(play(load, exchange, CALLS, 7, seconds)["rate"])
            if reloads and reloads.end() < seconds / 2:
                sys.exit("there were too few reloads")
        if exchange.end() != 0:
            sys.exit(f"it has ended badly; {exchange.said()}")
    without, under = (statistics.median(rates[key]) for key in (False, True))
    print(f"{CALLS} calls: {without:,.0f} packets/s without reloads, {under:,.0f} with one each second: {under / without:.3f}", flush=True)
    return under >= LEAST_SHARE * without


def measure_trips(program, load, folder):
    """The longest round trip of a call in short runs, without a reload and with one."""
    quiet, reloaded, took = [], [], []
    with Reloaded(program, folder, LINES) as exchange:
        exchange.raise_from(2)

        def reload_once():
            time.sleep(ASKED_AFTER)
            took.append(exchange.reload())

        for _ in range(RUNS):
            quiet.append(play(load, exchange, 1, 1, RUN_SECONDS)["most"])
            asking = threading.Thread(target=reload_once)
            asking.start()
            reloaded.append(play(load, exchange, 1, 1, RUN_SECONDS)["most"])
            asking.join()
        exchange.leave(len(exchange.connections))
        if exchange.end() != 0:
            sys.exit(f"it has ended badly; {exchange.said()}")
    medians = [share(runs, 50) / 1_000 for runs in (quiet, reloaded)]
    print(
        f"{LINES:,} lines: longest round trip of a run {medians[0]:.1f} ms without a reload, {medians[1]:.1f} ms with one, in the median;"
        f" a reload takes {1_000 * share(took, 50):.0f} ms",
        flush=True,
    )
    return medians[1] - medians[0] < MOST


def main():
    parser = argparse.ArgumentParser(description=__doc__.splitlines()[0])
    parser.add_argument("--xp", default=str(server.PROGRAM), help=f"the built program ({server.DEFAULT})")
    parser.add_argument("--seconds", type=float, default=5, help="how long each run of many calls sends (default: 5)")
    parser.add_argument("--rounds", type=int, default=5, help="runs of each kind, of which the median is told (default: 5)")
    arguments = parser.parse_args()
    with tempfile.TemporaryDirectory() as folder:
        load = server.compiled("load", folder)
        reached = [
            measure_packets(arguments.xp, load, folder, arguments.rounds, arguments.seconds),
            measure_trips(arguments.xp, load, folder),
        ]
    if not all(reached):
        sys.exit("a goal was missed")


if __name__ == "__main__":
    main()
