#!/usr/bin/env python3
"""The console's page as a browser shows it: the rows of its tables, what its filter lets through, and that nothing of it is cut.

    python3 bench/serve/page.py

It takes the page from an exchange, and has a Chromium without a window load it from here, with a status that is made up, in windows of
several widths. Where there is no Chromium, each check is left out, and that is told.
"""

import argparse
import html
import http.server
import json
import pathlib
import re
import shutil
import sys
import tempfile
import threading
import urllib.parse

import server
from checks import LeftOut, told_by, try_all
from console import Shown, shown
from served import require

WIDTHS = (1280, 1024, 500)
BROWSERS = ("chromium", "chromium-browser", "google-chrome")

# The moment that is shown, 2026-11-28 21:06:40 UTC.
NOW = 1_795_900_000
DAY = 86_400

CAUSES = ((0, "DTE originated"), (25, "reverse charging acceptance not subscribed"), (41, "fast select acceptance not subscribed"))

# What is done in the page once it has shown the status: each of these words is looked for, and the title says what is there then.
REPORT = """<script>
setTimeout(() => {
  const cells = (id) => Array.from(document.getElementById(id).tBodies[0].rows, (row) => Array.from(row.cells, (cell) => cell.textContent));
  document.title = JSON.stringify(%s.map((word) => {
    wanted.value = word;
    show();
    return {
      is_wide: document.documentElement.scrollWidth > window.innerWidth,
      cut: Array.from(document.querySelectorAll(".table")).filter((one) => one.scrollWidth > one.clientWidth).map((one) => one.ariaLabel),
      captions: Array.from(document.querySelectorAll("caption"), (one) => one.textContent),
      counts: Array.from(document.querySelectorAll("dl div"), (one) => [one.firstChild.textContent, one.lastChild.textContent]),
      lines: cells("lines"), calls: cells("calls"), recent: cells("recent"),
    };
  }));
}, 1500);
</script>
</body>"""


def line(name, address, station=None, since=None, peer="127.0.0.1:40000"):
    return {
        "address": address, "call": None, "name": name, "peer": peer, "router_unreachable_since": since, "since": NOW - 60, "state": "ready",
        "station": station or address,
    }


LINES = [
    line("a1", "208012345678010"), line("terminal-north-1", "208012345678032", station="208012345678030"),
    line("r1", "208012345678040", since=NOW - 3600, peer=None), line("r2", "208012345678040", since=NOW - 3 * DAY),
]


def party(place):
    return {"address": LINES[place]["address"], "line": LINES[place]["name"]}


def call(number, caller, called):
    return {
        "called": None if called is None else party(called), "caller": party(caller), "connected": NOW - 90, "number": number,
        "requested": NOW - 100, "seconds": 90, "segments": {"from_called": 7_654_321, "from_caller": 12_345_678},
    }


def ended(number, caller, called, cause, dialled):
    cleared = {"cause": CAUSES[cause][0], "diagnostic": 128 + number, "words": CAUSES[cause][1]}
    return call(number, caller, called) | {"cleared": cleared, "dialled": dialled, "ended": NOW - 10, "payer": "called"}


STATUS = {
    "calls": [call(8, 0, 1), call(9, 0, 2)], "lines": LINES, "moment": NOW,
    "recent": [
        ended(1, 0, 1, 0, "208012345678032"), ended(2, 1, None, 1, "208012345678040"), ended(3, 2, 0, 2, "208012345678010"),
    ],
    "started": NOW - 3 * DAY, "stations": [],
    "totals": {
        "calls": 5, "events": 40_000, "octets_received": 88_888_888_888, "octets_sent": 99_999_999_999, "partial_records": 0, "records_waiting": 0,
        "refused": [{"cause": 25, "count": 1, "words": CAUSES[1][1]}], "router_failures": 17, "router_refusals": [],
        "segments_from_called": 200, "segments_from_callers": 100, "stalls": 0,
    },
}

# What is looked for, and then the names of the lines, the numbers of the live calls and those of the ended calls that are shown.
FILTERS = (
    ("", ["a1", "terminal-north-1", "r1", "r2"], ["8", "9"], ["3", "2", "1"]),
    ("678032", ["terminal-north-1"], ["8"], ["2", "1"]),
    ("678030", ["terminal-north-1"], [], []),
    ("678040", ["r1", "r2"], ["9"], ["3", "2"]),
    ("NORTH", ["terminal-north-1"], ["8"], ["2", "1"]),
    ("fast select", [], [], ["3"]),
    ("unreachable", ["r1", "r2"], [], []),
    ("nobody", [], [], []),
)


class Browser:
    """A browser, and a server of the page and the status from which it loads them."""

    def __init__(self, page):
        self.command = next((it for it in BROWSERS if shutil.which(it)), None)
        self.page = page
        handler = type("Handler", (Pages,), {"page": page})
        self.server = http.server.ThreadingHTTPServer(("127.0.0.1", 0), handler)
        threading.Thread(target=self.server.serve_forever, daemon=True).start()

    def load(self, width, *words):
        """What the page shows in a window of this width, as each of these words is looked for."""
        if self.command is None:
            raise LeftOut(f"there is no command {BROWSERS[0]}")
        address = f"http://127.0.0.1:{self.server.server_port}/?{urllib.parse.quote(json.dumps(words))}"
        with tempfile.TemporaryDirectory() as profile:
            text = told_by(
                self.command, "--headless", "--no-sandbox", "--disable-gpu", f"--user-data-dir={profile}", f"--window-size={width},900",
                "--virtual-time-budget=4000", "--dump-dom", address,
            )
        title = re.search(r"<title>(\[.*\])</title>", text)
        require(title is not None, f"the page does not come to its end: {text[-1000:]}")
        return json.loads(html.unescape(title[1]))


class Pages(http.server.BaseHTTPRequestHandler):
    def do_GET(self):
        place = urllib.parse.urlsplit(self.path)
        if place.path == "/":
            report = REPORT % urllib.parse.unquote(place.query)
            self.say("text/html; charset=utf-8", self.page.replace("</body>", report))
        else:
            self.say("application/json", json.dumps(STATUS))

    def say(self, kind, text):
        octets = text.encode()
        self.send_response(200)
        self.send_header("content-type", kind)
        self.send_header("content-length", str(len(octets)))
        self.end_headers()
        self.wfile.write(octets)

    def log_message(self, *_):
        pass


def rows(browser):
    """each line has its address, its station where that has another one, and since when its router is unreachable"""
    came, = browser.load(1280, "")
    peers = [
        "127.0.0.1:40000", "127.0.0.1:40000", "router unreachable since 20:06:40",
        "127.0.0.1:40000, router unreachable since 2026-11-25 21:06:40",
    ]
    addresses = ["208012345678010", "208012345678032, station 208012345678030", "208012345678040", "208012345678040"]
    require([row[1] for row in came["lines"]] == addresses, f"the addresses are {came['lines']}")
    require([row[5] for row in came["lines"]] == peers, f"the peers are {came['lines']}")
    causes = [f"{cause:02x} {words}" for cause, words in reversed(CAUSES)]
    require([row[9] for row in came["recent"]] == causes, f"the ended calls are {came['recent']}")


def totals(browser):
    """the totals say which of them are sums over the calls that have ended"""
    came, = browser.load(1280, "")
    counts = dict(came["counts"])
    wanted = {
        "segments of ended calls, from callers": "100", "segments of ended calls, from called": "200", "failed connections to routers": "17",
    }
    require(wanted.items() <= counts.items(), f"the counts are {counts}")


def filtered(browser):
    """the filter looks at names, addresses, states and causes, of lines, of live calls and of ended calls"""
    loaded = browser.load(1280, *(word for word, *_ in FILTERS))
    for (word, lines, calls, recent), came in zip(FILTERS, loaded, strict=True):
        there = tuple([row[0] for row in came[table]] for table in ("lines", "calls", "recent"))
        require(there == (lines, calls, recent), f"with {word!r} it shows {there}")
        of = f"{len(recent)} of the last 3" if word else "the last 3"
        require(came["captions"][2].startswith(f"Ended calls {of}"), f"with {word!r} the captions are {came['captions']}")


def widths(browser):
    """nothing is cut in windows of 1280, 1024 and 500 pixels, where names, addresses and causes are long"""
    for width in WIDTHS:
        came, = browser.load(width, "")
        require(not came["cut"] and not came["is_wide"], f"at {width} pixels these tables are cut: {came['cut']}")


def main():
    parser = argparse.ArgumentParser(description=__doc__, formatter_class=argparse.RawDescriptionHelpFormatter)
    parser.add_argument("--xp", default=str(server.PROGRAM), help=f"the program ({server.DEFAULT})")
    program = pathlib.Path(parser.parse_args().xp)
    with tempfile.TemporaryDirectory() as folder, Shown(program, folder) as exchange:
        browser = Browser(shown(exchange, b"/"))
    try_all((rows, totals, filtered, widths), browser)


if __name__ == "__main__":
    main()
