#!/usr/bin/env python3
"""The console of an exchange: what each request is answered, what it shows of an exchange whose state is known, and its stop.

README.md says what is checked.
"""

import contextlib
import json
import os
import pathlib
import socket
import subprocess
import time

import metrics_format
import server
from console_forms import wanted_metrics, wanted_table
from days import library_in
from routers import ACCEPTED, CALL, CLEAR, FIRST, PATIENCE, Router
from server import call_request, frame
from served import OUT_OF_ORDER, Served, answer_to_reload, data, require, rest_of, run_script, station, until

GET = b"GET %s HTTP/1.1\r\nHost: localhost\r\n\r\n"
STOP = b"POST /stop HTTP/1.1\r\nHost: localhost\r\nx-gonukire: stop\r\nContent-Length: 0\r\n\r\n"
RELOAD = b"POST /reload HTTP/1.1\r\nHost: localhost\r\nX-Gonukire: reload\r\nContent-Length: 0\r\n\r\n"
STOPPING = (
    b"HTTP/1.1 202 Accepted\r\ncontent-type: text/plain; charset=utf-8\r\ncache-control: no-store\r\nx-content-type-options: nosniff\r\n"
    b"content-security-policy: default-src 'none'; style-src 'unsafe-inline'; script-src 'unsafe-inline'; connect-src 'self'; "
    b"base-uri 'none'; form-action 'none'; frame-ancestors 'none'\r\nconnection: close\r\ncontent-length: 9\r\n\r\nstopping\n"
)

# Requests, with the beginning of what they are answered.
ANSWERS = (
    (b"GET / HTTP/1.1\r\nHost: localhost\r\n\r\n", b"HTTP/1.1 200 OK\r\ncontent-type: text/html"),
    (b"HEAD / HTTP/1.1\r\nHost: localhost\r\n\r\n", b"HTTP/1.1 200 OK\r\n"),
    (b"GET /status.json HTTP/1.1\r\nHost: 127.0.0.1:9980\r\n\r\n", b"HTTP/1.1 200 OK\r\ncontent-type: application/json\r\n"),
    (b"GET /status.json?again HTTP/1.1\r\nHost: 127.9.9.9\r\n\r\n", b"HTTP/1.1 200 OK\r\n"),
    (b"GET /status.txt HTTP/1.1\r\nHost: LocalHost:1\r\n\r\n", b"HTTP/1.1 200 OK\r\n"),
    (b"GET /metrics HTTP/1.1\r\nHost: localhost\r\n\r\n", b"HTTP/1.1 200 OK\r\ncontent-type: text/plain; version=0.0.4"),
    (b"GET /healthz HTTP/1.1\r\nHost: [::1]:9980\r\n\r\n", b"HTTP/1.1 200 OK\r\n"),
    (b"GET /healthz HTTP/1.1\r\nHost: [::1]\r\n\r\n", b"HTTP/1.1 200 OK\r\n"),
    (b"GET /healthz HTTP/1.1\r\nHost: [::2]\r\n\r\n", b"HTTP/1.1 421 "),
    (b"GET /healthz HTTP/1.1\r\nHost: 10.0.0.2\r\n\r\n", b"HTTP/1.1 421 "),
    (b"GET /healthz HTTP/1.1\r\nHost: localhost.evil.example\r\n\r\n", b"HTTP/1.1 421 "),
    (b"GET /healthz HTTP/1.1\r\nHost: evil.example\r\n\r\n", b"HTTP/1.1 421 "),
    (b"GET http://evil.example/healthz HTTP/1.1\r\nHost: localhost\r\n\r\n", b"HTTP/1.1 421 "),
    (b"GET /healthz HTTP/1.0\r\n\r\n", b"HTTP/1.0 421 "),
    (b"GET /healthz HTTP/1.1\r\n\r\n", b"HTTP/1.1 400 "),
    (b"GET /healthz HTTP/1.1\r\nHost: a\r\nHost: localhost\r\n\r\n", b"HTTP/1.1 400 "),
    (b"GET /nothing HTTP/1.1\r\nHost: localhost\r\n\r\n", b"HTTP/1.1 404 "),
    (b"GET /status.json/ HTTP/1.1\r\nHost: localhost\r\n\r\n", b"HTTP/1.1 404 "),
    (b"OPTIONS * HTTP/1.1\r\nHost: localhost\r\n\r\n", b"HTTP/1.1 404 "),
    (b"POST / HTTP/1.1\r\nHost: localhost\r\nContent-Length: 0\r\n\r\n", b"HTTP/1.1 405 "),
    (b"get / HTTP/1.1\r\nHost: localhost\r\n\r\n", b"HTTP/1.1 405 "),
    (b"GET /stop HTTP/1.1\r\nHost: localhost\r\nX-Gonukire: stop\r\n\r\n", b"HTTP/1.1 405 "),
    (b"POST /stop HTTP/1.1\r\nHost: localhost\r\nContent-Length: 0\r\n\r\n", b"HTTP/1.1 403 "),
    (b"POST /stop HTTP/1.1\r\nHost: localhost\r\nX-Gonukire: Stop\r\nContent-Length: 0\r\n\r\n", b"HTTP/1.1 403 "),
    (b"POST /stop HTTP/1.1\r\nHost: evil.example\r\nX-Gonukire: stop\r\nContent-Length: 0\r\n\r\n", b"HTTP/1.1 421 "),
    (b"GET /reload HTTP/1.1\r\nHost: localhost\r\nX-Gonukire: reload\r\n\r\n", b"HTTP/1.1 405 "),
    (b"POST /reload HTTP/1.1\r\nHost: localhost\r\nContent-Length: 0\r\n\r\n", b"HTTP/1.1 403 "),
    (b"POST /reload HTTP/1.1\r\nHost: localhost\r\nX-Gonukire: stop\r\nContent-Length: 0\r\n\r\n", b"HTTP/1.1 403 "),
    (b"POST /stop HTTP/1.1\r\nHost: localhost\r\nX-Gonukire: reload\r\nContent-Length: 0\r\n\r\n", b"HTTP/1.1 403 "),
    (b"POST /reload HTTP/1.1\r\nHost: localhost\r\nX-Gonukire: reload\r\nContent-Length: 4\r\n\r\nfile", b"HTTP/1.1 400 "),
    (b"POST /reload HTTP/1.1\r\nHost: evil.example\r\nX-Gonukire: reload\r\nContent-Length: 0\r\n\r\n", b"HTTP/1.1 421 "),
    (b"GET /hea", b"HTTP/1.1 400 "),
)

# At a console that listens at 0.0.0.0, which is no address of this machine alone.
OWN_ADDRESS = ((b"0.0.0.0:9980", b"HTTP/1.1 200 "), (b"0.0.0.0", b"HTTP/1.1 200 "), (b"10.0.0.1:9980", b"HTTP/1.1 421 "))

REFUSALS = (
    (1, "number busy"), (3, "invalid facility request"), (5, "network congestion"), (9, "out of order"), (11, "access barred"),
    (13, "not obtainable"), (17, "remote procedure error"), (19, "local procedure error"),
    (25, "reverse charging acceptance not subscribed"), (41, "fast select acceptance not subscribed"),
)
READY = bytes.fromhex("100121")
REVERSE = bytes.fromhex("0101")

# Events of the lines in the state that is looked at: see bring_to_a_known_state.
EVENTS = 19


def ask(exchange, octets, ends=False, seconds=PATIENCE):
    """What the console answers to these octets, until it closes the connection. With `ends` nothing comes behind them."""
    with exchange.reach() as connection:
        connection.settimeout(seconds)
        connection.sendall(octets)
        if ends:
            connection.shutdown(socket.SHUT_WR)
        return rest_of(connection)


def shown(exchange, path):
    head, _, body = ask(exchange, GET % path).partition(b"\r\n\r\n")
    require(head.startswith(b"HTTP/1.1 200 "), f"{path} is answered {head}")
    return body.decode()


class Shown(Served):
    """An exchange of three stations with a console. `barred` and `paying` are further keys of the second station and of the third."""

    def __init__(self, program, folder, host="127.0.0.1", barred="", paying=""):
        self.program, self.path = program, pathlib.Path(folder) / "subscriptions.toml"
        self.base = server.free_ports(5)
        self.console = self.base + 4
        text = (
            station("200001", ("a1", self.base, "")) + station("200002", ("b1", self.base + 1, ""), more=barred)
            + station("200003", ("h1", self.base + 2, ""), ("h2", self.base + 3, ', address = "200032"'), more=paying)
        )
        super().__init__(program, folder, text, "--console", f"{host}:{self.console}")

    def status(self):
        """What `/status.json` has."""
        return json.loads(shown(self, b"/status.json"))

    def shown_lines(self):
        """What `/status.json` has of each line, by its name."""
        return {line["name"]: line for line in json.loads(shown(self, b"/status.json"))["lines"]}

    def reach(self):
        """A connection to the console."""
        connection = self.connect(self.console)
        connection.settimeout(PATIENCE)
        return connection

    def asked(self, word, address=None):
        """`xp status` or `xp stop` at this exchange, or at another address."""
        command = [str(self.program), word, address or f"127.0.0.1:{self.console}"]
        run = subprocess.run(command, stdin=subprocess.DEVNULL, capture_output=True, text=True, timeout=PATIENCE)
        return run.returncode, run.stdout, run.stderr


class ShownRouter(Shown):
    """An exchange of a station with a port, and of two stations with three lines behind one router, with a console."""

    def __init__(self, program, folder, environment=None):
        self.program = program
        self.base = server.free_ports(3)
        self.console = self.base + 2
        self.router = Router(FIRST, self.base + 1)
        behind = lambda name: f'{{ name = "{name}", router = "{FIRST}:{self.router.port}" }}'
        text = (
            f"xot_port = {self.base + 1}\n" + station("200001", ("a1", self.base, ""))
            + f'[[station]]\naddress = "300001"\nline = [{behind("x1")}, {behind("x2")}]\n'
            + f'[[station]]\naddress = "300002"\nline = [{behind("y1")}]\n'
        )
        Served.__init__(self, program, folder, text, "--console", f"127.0.0.1:{self.console}", environment=environment)

    def __exit__(self, *gone):
        with contextlib.suppress(AttributeError, OSError):
            self.router.leave()
        super().__exit__(*gone)


# ---- requests


def answers(program, folder):
    """32 requests with right and wrong hosts, methods, paths and headers, half a request, a head of 64 KiB: each has its answer."""
    with Shown(program, folder) as exchange:
        for request, wanted in ANSWERS:
            came = ask(exchange, request, ends=not request.endswith(b"\r\n\r\n"))
            require(came.startswith(wanted), f"{request} is answered {came[:200]}")
        require(ask(exchange, ANSWERS[1][0]).endswith(b"\r\n\r\n"), "HEAD is answered a body")
        came = ask(exchange, b"PUT / HTTP/1.1\r\nHost: localhost\r\nContent-Length: 0\r\n\r\n")
        require(b"\r\nallow: GET, HEAD\r\n" in came, f"PUT is answered {came}")
        came = ask(exchange, b"PUT /reload HTTP/1.1\r\nHost: localhost\r\nContent-Length: 0\r\n\r\n")
        require(b"\r\nallow: POST\r\n" in came, f"PUT is answered {came}")
        came = ask(exchange, b"GET / HTTP/1.1\r\nHost: localhost\r\nX: " + 65_536 * b"a")
        require(came.startswith(b"HTTP/1.1 431 "), f"a head of 64 KiB is answered {came[:200]}")
        require("stopping" not in exchange.told(), "the exchange is stopping")
        require(exchange.end() == 0, f"it ended badly; {exchange.said()}")


def own_address(program, folder):
    """A console that listens at another address than those of this machine alone has that name too, and no other."""
    with Shown(program, folder, "0.0.0.0") as exchange:
        for name, wanted in OWN_ADDRESS:
            came = ask(exchange, b"GET /healthz HTTP/1.1\r\nHost: %s\r\n\r\n" % name)
            require(came.startswith(wanted), f"the host {name} is answered {came[:200]}")


def crowd(program, folder):
    """Of 33 connections, 31 with half a request, the 32nd is answered, and the 33rd is closed."""
    with Shown(program, folder) as exchange, contextlib.ExitStack() as opened:
        made = [opened.enter_context(exchange.reach()) for _ in range(31)]
        for connection in made:
            connection.sendall(b"GET /healthz HTTP/1.1\r\nHost: local")
        last = opened.enter_context(exchange.reach())
        one_more = opened.enter_context(exchange.reach())
        require(rest_of(one_more) == b"", "the 33rd connection is answered")
        last.sendall(GET % b"/healthz")
        require(rest_of(last).endswith(b"\r\n\r\nok\n"), "the 32nd connection is not answered")
        made[0].sendall(b"host\r\n\r\n")
        require(rest_of(made[0]).endswith(b"\r\n\r\nok\n"), "the other half of a request is not answered")


def one_stop(program, folder):
    """Of two stops that are sent at once the first is answered, and the exchange ends well. The console is at `localhost`."""
    with Shown(program, folder, "localhost") as exchange:
        came = ask(exchange, 2 * STOP)
        require(came == STOPPING, f"two stops are answered {came}")
        require(exchange.end(is_asked=False) == 0, f"it ended badly; {exchange.said()}")
        require(exchange.told().count("stopping: the console was asked to") == 1, exchange.said())


def address_in_use(program, folder):
    """A console whose address is in use, or is none, is told, and nothing is served."""
    with socket.create_server(("127.0.0.1", 0)) as taken:
        for address, wanted in (
            (f"127.0.0.1:{taken.getsockname()[1]}", "xp: console: the console's address can't be listened on\n"),
            ("localhost", 'xp: console: "localhost" is no ADDRESS:PORT\n'),
        ):
            with Served(program, folder, station("200001", ("a1", server.free_ports(1), "")), "--console", address) as exchange:
                status = exchange.end(is_asked=False)
                require((status, exchange.told()) == (5, wanted), f"status {status}; {exchange.said()}")


# ---- what is shown


def call(caller, called, dialled, facilities=b""):
    """A call that is answered, with a data packet of two segments from the caller and one of one segment from the called line."""
    caller.send(call_request(dialled, facilities))
    called.expect(CALL)
    called.accept()
    caller.expect(ACCEPTED)
    for sender, receiver, packet in (
        (caller, called, data(0, 100 * b"x")), (called, caller, b"\x10\1\x20yes"), (caller, called, READY)
    ):
        sender.send(packet)
        require(receiver.receive() == packet, f"another packet came than {packet.hex()}")


def bring_to_a_known_state(exchange):
    """Three calls: the first refused, since b1 is out of service; the second ended; the third goes on. Returns the lines a1 and h1."""
    a1 = exchange.rise(exchange.base)
    a1.send(call_request("200002"))
    require(a1.cleared() == (0x09, 0), "a call to a line out of service is not refused as out of order")
    h1 = exchange.rise(exchange.base + 2)
    call(a1, h1, "200003")
    clear(a1, h1)
    call(a1, h1, "200003")
    return a1, h1


def clear(caller, called):
    """The caller clears. Then the called line may be called again."""
    caller.clear()
    called.cleared()
    called.clear()


def wanted_status(came, a1, h1):
    """What `/status.json` has to show in the known state, with the moments that came: these are looked at on their own."""
    addresses = {"a1": "200001", "b1": "200002", "h1": "200003", "h2": "200032"}
    parties = {name: {"address": addresses[name], "line": name} for name in ("a1", "h1")}
    peers = {name: "%s:%d" % line.connection.getsockname() for name, line in (("a1", a1), ("h1", h1))}
    lines = [
        {"address": addresses[name], "call": 3 if name in peers else None, "name": name, "peer": peers.get(name),
         "router_unreachable_since": None, "since": told["since"], "state": "data transfer" if name in peers else "out of service",
         "station": "200003" if name == "h2" else addresses[name]}
        for name, told in zip(("a1", "b1", "h1", "h2"), came["lines"])
    ]
    live, (refused, ended) = came["calls"][0], came["recent"]
    return {
        "calls": [
            {"called": parties["h1"], "caller": parties["a1"], "connected": live["connected"], "number": 3, "requested": live["requested"],
             "seconds": live["seconds"], "segments": {"from_called": 1, "from_caller": 2}}
        ],
        "lines": lines, "moment": came["moment"],
        "recent": [
            {"called": None, "caller": parties["a1"], "cleared": {"cause": 9, "diagnostic": 0, "words": "out of order"}, "connected": None,
             "dialled": "200002", "ended": refused["ended"], "number": 1, "payer": "caller", "requested": refused["requested"],
             "seconds": 0, "segments": {"from_called": 0, "from_caller": 0}},
            {"called": parties["h1"], "caller": parties["a1"], "cleared": {"cause": 0, "diagnostic": 0, "words": "DTE originated"},
             "connected": ended["connected"], "dialled": "200003", "ended": ended["ended"], "number": 2, "payer": "caller",
             "requested": ended["requested"], "seconds": ended["seconds"], "segments": {"from_called": 1, "from_caller": 2}},
        ],
        "reloads": {"done": 0, "last": None, "refused": 0}, "started": came["started"],
        "stations": [
            {"address": "200001", "from": 2, "refused": 1, "to": 0}, {"address": "200002", "from": 0, "refused": 0, "to": 0},
            {"address": "200003", "from": 0, "refused": 0, "to": 1},
        ],
        "totals": {
            "calls": 3, "events": EVENTS, "octets_received": came["totals"]["octets_received"], "octets_sent": came["totals"]["octets_sent"],
            "partial_records": 0, "records_waiting": 0, "refused": [{"cause": cause, "count": int(cause == 9), "words": words} for cause, words in REFUSALS],
            "router_failures": 0, "router_refusals": [{"cause": cause, "count": 0, "words": words} for cause, words in REFUSALS],
            "segments_from_called": 1, "segments_from_callers": 2, "stalls": 0,
        },
    }


def check_moments(came):
    """The moments of the known state, in the order in which they were."""
    live, (refused, ended) = came["calls"][0], came["recent"]
    order = [
        came["started"], refused["requested"], refused["ended"], ended["requested"], ended["connected"], ended["ended"], live["requested"],
        live["connected"], came["moment"],
    ]
    require(order == sorted(order), f"the moments are {order}")
    for line, since in zip(came["lines"], (live["requested"], came["started"], live["requested"], came["started"])):
        require(since <= line["since"] <= since + PATIENCE, f"{line} is since {since}")
    require(live["seconds"] == came["moment"] - live["connected"], f"the live call is {live}")
    require(ended["seconds"] == ended["ended"] - ended["connected"], f"the ended call is {ended}")


def at(status, moment):
    """The status of a quiet exchange at another moment."""
    calls = [live | {"seconds": moment - live["connected"]} for live in status["calls"]]
    return status | {"moment": moment, "calls": calls}


def check_form(exchange, take, form):
    """What `take` gets has to be this form of the status at one of the moments at which it may have been taken."""
    before, taken, after = shown(exchange, b"/status.json"), take(), shown(exchange, b"/status.json")
    before, after = json.loads(before), json.loads(after)
    require(at(before, after["moment"]) == after, f"the status has changed from {before} to {after}")
    wanted = [form(at(before, moment)) for moment in range(before["moment"], after["moment"] + 1)]
    require(taken in wanted, f"it shows\n{taken}\nin place of\n{wanted[0]}")
    return taken


def status(program, folder):
    """The JSON, the metrics and the tables of an exchange whose state is known are to the octet what they are to be."""
    with Shown(program, folder) as exchange:
        a1, h1 = bring_to_a_known_state(exchange)
        until(lambda: json.loads(shown(exchange, b"/status.json"))["totals"]["events"] >= EVENTS, "events are missing")
        text = shown(exchange, b"/status.json")
        came = json.loads(text)
        require(text == json.dumps(came, separators=(",", ":"), sort_keys=True), f"the JSON is not in its one spelling: {text}")
        wanted = wanted_status(came, a1, h1)
        require(came == wanted, f"the status is\n{came} in place of\n{wanted}")
        check_moments(came)
        octets = came["totals"]["octets_received"], came["totals"]["octets_sent"]
        require(octets == octets_of_the_known_state(), f"the octets are {octets} in place of {octets_of_the_known_state()}")
        metrics = check_form(exchange, lambda: shown(exchange, b"/metrics"), wanted_metrics)
        faults = metrics_format.Metrics().read(metrics)
        require(not faults, f"the metrics have faults: {faults}")
        check_form(exchange, lambda: shown(exchange, b"/status.txt"), wanted_table)
        for address in (None, f"http://localhost:{exchange.console}/"):
            check_form(exchange, lambda: exchange.asked("status", address), lambda status: (0, wanted_table(status), ""))


def reloads(exchange):
    """Has the file read again as it is, and once more with a fault. Returns the seconds between which the first is done."""
    before, text = int(time.time()), exchange.path.read_text()
    came = ask(exchange, RELOAD)
    after = time.time()
    require(came.startswith(b"HTTP/1.1 200 OK\r\n") and came.endswith(b"\r\n\r\nreloaded: nothing changed\n"), f"a reload is answered {came}")
    exchange.path.write_text("station = ")
    answer = answer_to_reload(exchange.console)
    require(answer[0] == 409 and answer[1].startswith("xp: subscriptions: "), f"a reload of a faulty file is answered {answer}")
    exchange.path.write_text(text)
    return before, after


def other_states(program, folder):
    """A line that went, one that has to confirm a clear, a call that is barred, one that is paid for, a live one, reloads: each is shown so."""
    with Shown(program, folder, barred="incoming_barred = true\n", paying="reverse_charging = true\n") as exchange:
        a1, b1, h1 = (exchange.rise(exchange.base + place) for place in range(3))
        b1.close()
        exchange.wait_until_told("line b1: down: closed by the peer\n")
        a1.send(call_request("200002"))
        require(a1.cleared() == (0x0B, 70), "a call to a station that takes none is not refused as barred")
        call(a1, h1, "200003", REVERSE)
        a1.clear()
        h1.expect(CLEAR)
        h2 = exchange.rise(exchange.base + 3)
        call(a1, h2, "200032")
        before, after = reloads(exchange)
        until(lambda: len(exchange.status()["recent"]) == 2, "records are missing")
        came = exchange.status()
        states = ["data transfer", "out of service", "DCE clear indication", "data transfer"]
        peers = [line and "%s:%d" % line.connection.getsockname() for line in (a1, None, h1, h2)]
        shown_lines = [(line["state"], line["call"], line["peer"]) for line in came["lines"]]
        require(shown_lines == list(zip(states, (3, None, None, 3), peers)), f"the lines are {shown_lines}")
        require(all(line["since"] >= came["started"] for line in came["lines"]), f"the lines are {came['lines']}")
        ended = [(one["number"], one["called"] and one["called"]["line"], one["payer"], one["cleared"]["cause"], one["cleared"]["diagnostic"]) for one in came["recent"]]
        require(ended == [(1, None, "caller", 0x0B, 70), (2, "h1", "called", 0, 0)], f"the ended calls are {ended}")
        live = [(one["number"], one["caller"]["line"], one["called"]["line"], one["called"]["address"], one["segments"]) for one in came["calls"]]
        require(live == [(3, "a1", "h2", "200032", {"from_called": 1, "from_caller": 2})], f"the live calls are {live}")
        counted = [(one["address"], one["from"], one["to"], one["refused"]) for one in came["stations"]]
        require(counted == [("200001", 2, 0, 1), ("200002", 0, 0, 0), ("200003", 0, 1, 0)], f"the stations are {counted}")
        refused = {one["words"]: one["count"] for one in came["totals"]["refused"] if one["count"]}
        require((refused, came["totals"]["calls"]) == ({"access barred": 1}, 3), f"the totals are {came['totals']}")
        done = came["reloads"]
        require((done["done"], done["refused"]) == (1, 1) and before <= done["last"] <= after, f"the reloads are {done}, of {before} to {after}")
        check_form(exchange, lambda: shown(exchange, b"/metrics"), wanted_metrics)
        check_form(exchange, lambda: shown(exchange, b"/status.txt"), wanted_table)


# Seconds within which a reload is answered that waits for its file, and some for a machine that does other things too.
RELOAD_WAITS, MORE = 10, 30


def has_reloaded(exchange):
    """Whether the console shows a reload. It may not answer while the file is read."""
    head, _, body = ask(exchange, GET % b"/status.json").partition(b"\r\n\r\n")
    return head.startswith(b"HTTP/1.1 200 ") and json.loads(body)["reloads"]["done"] == 1


def reload_that_waits(program, folder):
    """A reload that brings no answer in ten seconds is answered 503, and one behind it at once. Once its file can be read it comes, and so does the next."""
    with Shown(program, folder) as exchange:
        a1 = exchange.rise(exchange.base)
        text = exchange.path.read_text()
        exchange.path.unlink()
        os.mkfifo(exchange.path)
        # Whoever opens the pipe waits for one that writes to it.
        for least, most in ((RELOAD_WAITS - 1, RELOAD_WAITS + MORE), (0, RELOAD_WAITS - 1)):
            begun = time.monotonic()
            came = ask(exchange, RELOAD, seconds=RELOAD_WAITS + MORE)
            took = time.monotonic() - begun
            require(came.startswith(b"HTTP/1.1 503 ") and b"\r\nretry-after: 10\r\n" in came.lower(), f"a reload that waits is answered {came}")
            require(least <= took <= most, f"a reload is answered 503 after {took:.1f} seconds, which are to be {least} to {most}")
        a1.clear()
        exchange.path.write_text(text)
        until(lambda: has_reloaded(exchange), "the reload that has waited does not come")
        exchange.path.unlink()
        exchange.path.write_text(text)
        answer = answer_to_reload(exchange.console)
        require(answer == (200, "reloaded: nothing changed"), f"the next reload is answered {answer}")
        require(exchange.end() == 0, f"it ended badly; {exchange.said()}")


def octets_of_the_known_state():
    """The octets that both lines have sent and got, with the four octets before each packet."""
    requested, incoming, connected, accepted, packets = 12, 21, 15, 7, 107 + 10 + 7
    confirmation, cleared = 7, 9
    received = cleared + requested + confirmation + cleared + 2 * (requested + accepted + packets) + cleared + confirmation + cleared
    sent = confirmation + cleared + confirmation + 2 * (incoming + connected + packets) + confirmation + cleared + confirmation
    return received, sent


def fail_to_connect(exchange, a1, times):
    """A call to each of these stations in turn, whose router takes no connection. It is told."""
    for number in ("300001", "300002"):
        a1.send(call_request(number))
        require(a1.cleared() == (0x09, 0), "a call to a router that takes no connection is not cleared as out of order")
        a1.clear()
    exchange.wait_until_told("no connection to the router: refused", times)


def router_failures(program, folder):
    """A router that takes no connection is shown at each of its lines, and its failures are counted, until a connection is made."""
    with ShownRouter(program, folder) as exchange:
        a1 = exchange.rise(exchange.base)
        require(all(line["router_unreachable_since"] is None for line in exchange.shown_lines().values()), "a router has failed before a call")
        begun = int(time.time())
        fail_to_connect(exchange, a1, 2)
        until(lambda: "gonukire_router_failures_total 2\n" in shown(exchange, b"/metrics"), "the metrics do not count two failures")
        first = {name: line["router_unreachable_since"] for name, line in exchange.shown_lines().items()}
        require(first.pop("a1") is None, "a line with a port has an unreachable router")
        require(set(first) == {"x1", "x2", "y1"} and len(set(first.values())) == 1, f"the lines of one router show {first}")
        require(begun - 1 <= first["x1"] <= time.time() + 1, f"the router has been unreachable since {first['x1']}, and not since {begun}")
        text = check_form(exchange, lambda: shown(exchange, b"/status.txt"), wanted_table)
        require(text.count("-, router unreachable since ") == 3, f"the table does not tell the router of three lines:\n{text}")
        time.sleep(1)
        fail_to_connect(exchange, a1, 4)
        until(lambda: "gonukire_router_failures_total 4\n" in shown(exchange, b"/metrics"), "the metrics do not count four failures")
        again = {name: line["router_unreachable_since"] for name, line in exchange.shown_lines().items() if name != "a1"}
        require(again == first, f"the lines show {again} after {first}")
        require(not metrics_format.Metrics().read(shown(exchange, b"/metrics")), "the metrics have faults")
        exchange.router.listen()
        a1.send(call_request("300002"))
        call, _ = exchange.router.called()
        exchange.lines.append(call)
        until(lambda: all(line["router_unreachable_since"] is None for line in exchange.shown_lines().values()), "the router is still unreachable")
        require("router unreachable" not in shown(exchange, b"/status.txt"), "the table tells of the router that has a connection")
        require("gonukire_router_failures_total 4\n" in shown(exchange, b"/metrics"), "the failures are forgotten")


# How much later the program is told that it is, in seconds: 1d 2:03:04.
LATER = 93_784


def days(program, folder):
    """An exchange that has served for a day and more, with a router that has failed as long, tells days."""
    later = pathlib.Path(folder) / "later"
    environment = {"LD_PRELOAD": str(library_in(folder)), "XP_CLOCK_LATER": str(later)}
    with ShownRouter(program, folder, environment) as exchange:
        a1 = exchange.rise(exchange.base)
        fail_to_connect(exchange, a1, 2)
        # Since when a line is in its state is known from the first look on.
        require(exchange.shown_lines()["a1"]["state"] == "ready", "the line a1 is not ready")
        later.write_text(str(LATER))
        until(lambda: exchange_age(exchange) >= LATER, "the exchange does not get older")
        text = check_form(exchange, lambda: shown(exchange, b"/status.txt"), wanted_table)
        require(text.startswith("serving for 1d 2:0"), f"the table begins with\n{text[:100]}")
        require(text.count(", router unreachable for 1d 2:0") == 3, f"the table does not tell for how long a router is unreachable\n{text}")
        require(len([row for row in text.splitlines() if row.startswith("a1 ") and " 1d 2:0" in row]) == 1, f"the line a1 has no days\n{text}")
        require(exchange.end() == 0, f"it ended badly; {exchange.said()}")


def exchange_age(exchange):
    status = json.loads(shown(exchange, b"/status.json"))
    return status["moment"] - status["started"]


def stations(program, folder):
    """Each station has the count of its ended calls in both directions and of its refused call requests, in the JSON and the metrics."""
    with Shown(program, folder) as exchange:
        a1, b1, h1 = (exchange.rise(exchange.base + place) for place in range(3))
        for caller, called, dialled in ((a1, b1, "200002"), (a1, h1, "200003"), (b1, a1, "200001")):
            call(caller, called, dialled)
            clear(caller, called)
        for dialled in ("200032", "99"):
            h1.send(call_request(dialled))
            h1.cleared()
            h1.clear()
        wanted = [("200001", 2, 0, 1), ("200002", 1, 0, 1), ("200003", 2, 2, 1)]
        counts = lambda: [
            (one["address"], one["from"], one["refused"], one["to"]) for one in json.loads(shown(exchange, b"/status.json"))["stations"]
        ]
        until(lambda: counts() == wanted, lambda: f"the stations are {counts()} in place of {wanted}")
        check_form(exchange, lambda: shown(exchange, b"/metrics"), wanted_metrics)


def stop(program, folder):
    """`xp stop` ends the exchange and its live call, and nobody is at the address then."""
    with Shown(program, folder) as exchange:
        a1, h1 = bring_to_a_known_state(exchange)
        require(exchange.asked("stop") == (0, "", ""), "`xp stop` failed")
        # The line that goes down first is told nothing, and the other one that its far end is gone.
        last = sorted(rest_of(line.connection) for line in (a1, h1))
        require(last == [b"", frame(OUT_OF_ORDER)], f"{last} came as the exchange stopped")
        for line in (a1, h1):
            line.close()
        require(exchange.end(is_asked=False) == 0, f"it ended badly; {exchange.said()}")
        require(exchange.told().count("stopping: the console was asked to") == 1, exchange.said())
        records = [line.split(" ")[:10] for line in exchange.printed().splitlines()]
        wanted = "record 3 a1 h1 200003 caller 2 1 09 0".split(" ")
        require(len(records) == 3 and records[2] == wanted, f"the records are {records}")
        for address, wanted in ((None, "no console answers there"), ("nowhere", '"nowhere" is no ADDRESS:PORT')):
            run = exchange.asked("status", address)
            require(run == (5, "", f"xp: console: {wanted}\n"), f"`xp status` of nobody ends with {run}")


CHECKS = (answers, own_address, crowd, one_stop, address_in_use, status, other_states, reload_that_waits, router_failures, days, stations, stop)


if __name__ == "__main__":
    run_script(__doc__, CHECKS)
