#!/usr/bin/env python3
"""Measures what it costs a line that the console is asked: 4,096 lines are connected, of which one pair has a call.

For each of /metrics and /status.json forty short runs of the call take turns, one without a question and one with it. A run's longest round
trip is what the line waits at worst; the median of them is told, and what nine runs of ten stay below. With --control a stand-in answers,
with the same octets, and the exchange is asked nothing: what is left then is what asking costs on the same machine. README.md says what the
figures mean.
"""

import argparse
import http.client
import http.server
import multiprocessing
import pathlib
import sys
import tempfile
import threading
import time

import server
from many import ASKED_AFTER, LINES, PATHS, RUN_SECONDS, RUNS, Many, play, row, share

TITLES = ("asked for", "octets", "answer ms", "quiet ms", "90 %", "asked ms", "90 %", "costs ms")

# Seconds for which the stand-in is waited for.
PATIENCE = 5


def stand_in(port, texts):
    """Answers each path with its text, as the console does, until it is ended."""

    class Answers(http.server.BaseHTTPRequestHandler):
        def do_GET(self):
            text = texts[self.path]
            self.send_response(200)
            self.send_header("Content-Length", str(len(text)))
            self.end_headers()
            self.wfile.write(text)

        def log_message(self, *_):
            pass

    http.server.HTTPServer(("127.0.0.1", port), Answers).serve_forever()


def wait_for(port):
    """Waits until something listens there."""
    end = time.monotonic() + PATIENCE
    while server.is_free(port):
        if time.monotonic() > end:
            sys.exit("the stand-in does not listen")
        time.sleep(0.05)


def ask(port, path):
    """The octets of an answer, and after how many seconds it was whole."""
    begun = time.monotonic()
    asking = http.client.HTTPConnection("127.0.0.1", port, timeout=60)
    asking.request("GET", path)
    text = asking.getresponse().read()
    asking.close()
    return text, time.monotonic() - begun


def ask_later(port, path, times):
    """Asks once, after a moment, and adds how long the answer took."""
    time.sleep(ASKED_AFTER)
    times.append(ask(port, path)[1])


def longest(load, exchange, port, path, runs):
    """The longest round trip of each run in microseconds, without a question and with one, and how long the answers took."""
    quiet, asked, times = [], [], []
    for _ in range(runs):
        quiet.append(play(load, exchange, 1, 1, RUN_SECONDS)["most"])
        asking = threading.Thread(target=ask_later, args=(port, path, times))
        asking.start()
        asked.append(play(load, exchange, 1, 1, RUN_SECONDS)["most"])
        asking.join()
    return quiet, asked, times


def measure(load, exchange, port, texts, runs):
    """Prints the figures of each path."""
    row(TITLES)
    for path in PATHS:
        quiet, asked, times = longest(load, exchange, port, path, runs)
        shares = [share(values, part) / 1_000 for values in (quiet, asked) for part in (50, 90)]
        figures = [f"{value:.2f}" for value in (1_000 * share(times, 50), *shares, shares[2] - shares[0])]
        row((path, f"{len(texts[path]):,}", *figures))


def main():
    parser = argparse.ArgumentParser(description=__doc__.splitlines()[0])
    parser.add_argument("--xp", default=str(server.PROGRAM), help=f"the built program ({server.DEFAULT})")
    parser.add_argument("--lines", type=int, default=LINES[-1], help=f"how many lines, an even number (default: {LINES[-1]})")
    parser.add_argument("--runs", type=int, default=RUNS, help=f"how many runs of each kind (default: {RUNS})")
    parser.add_argument("--control", action="store_true", help="a stand-in answers, and the exchange is asked nothing")
    arguments = parser.parse_args()
    with tempfile.TemporaryDirectory() as folder:
        load = server.compiled("load", folder)
        with Many(arguments.xp, pathlib.Path(folder), arguments.lines) as exchange:
            exchange.raise_from(2)
            texts = {path: exchange.ask(path)[0] for path in PATHS}
            if arguments.control:
                port = server.free_ports(1)
                answering = multiprocessing.Process(target=stand_in, args=(port, texts), daemon=True)
                answering.start()
                wait_for(port)
                measure(load, exchange, port, texts, arguments.runs)
                answering.terminate()
            else:
                measure(load, exchange, exchange.console, texts, arguments.runs)
            exchange.leave(len(exchange.connections))
            if exchange.end() != 0:
                sys.exit(f"it has ended badly; {exchange.said()}")


if __name__ == "__main__":
    main()
