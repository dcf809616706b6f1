#!/usr/bin/env python3
"""What the log tells of lines that go down, and of calls that are refused or cleared for a fault.

README.md says what is checked.
"""

import contextlib
import re
import socket
import struct

import server
from links import ROUTED, UNKNOWN, Routed
from routers import ACCEPTED, CALL, CLEAR
from server import CLEAR_REQUEST, call_request, frame
from served import Served, data, require, run_script, station

# The lines, of which b1 names its hosts, and what else their stations have. c1 is never up.
LINES = {"a1": ("200001", ""), "b1": ("200002", ', from = "127.0.0.1"'), "c1": ("200003", ""), "d1": ("200004", "")}
BARRED = 'incoming_barred = true\n'

# What a peer sends that is none of X.25, and what is told of it.
STRANGE = (
    (b"GET / HTTP/1.1\r\nHost: localhost\r\n\r\n", "version 18245"),
    (b"\xff\xfd\x18\xff\xfd\x20", "version 65533"),
    (frame(CLEAR_REQUEST) + b"\0\1\0\3\x10\1\x0b", "version 1"),
    (b"\0\0\0\2\x10\1", "length 2"),
    (frame(CLEAR_REQUEST) + b"\0\0\4\5", "length 1029"),
)

# Calls that the exchange refuses: what is dialled, the facilities, and what is told.
REFUSED = (
    ("99", b"", "call to 99 refused: cause 0d not obtainable, diagnostic 67 invalid called address"),
    ("", b"", "call to no address refused: cause 0d not obtainable, diagnostic 67 invalid called address"),
    ("200003", b"", "call to 200003 refused: cause 09 out of order, diagnostic 0 no additional information"),
    ("200004", b"", "call to 200004 refused: cause 0b access barred, diagnostic 70 incoming call barred"),
    ("200002", b"\x3f\x01", "call to 200002 refused: cause 03 invalid facility request, diagnostic 65 facility code not allowed"),
    ("123456789012", b"", "call to 123456789012 refused: cause 0d not obtainable, diagnostic 67 invalid called address"),
)

# As many clear requests as a peer sends at once, each of which the exchange confirms.
FLOOD = 10_000


class Lines(Served):
    """An exchange of four lines."""

    def __init__(self, program, folder, *words):
        base = server.free_ports(len(LINES))
        self.ports = dict(zip(LINES, range(base, base + len(LINES))))
        text = "".join(
            station(number, (name, self.ports[name], more), more=BARRED if name == "d1" else "") for name, (number, more) in LINES.items()
        )
        super().__init__(program, folder, text, *words)

    def line(self, name):
        return self.rise(self.ports[name])

    def facts(self, name):
        """What it has told of a line, without its connections."""
        return [fact for fact in re.findall(rf" line {name}: (.*)\n", self.told()) if not fact.startswith("up from")]

    def facts_are(self, name, *wanted):
        for fact in wanted:
            self.wait_until_told(f"line {name}: {fact}\n")
        require(self.facts(name) == list(wanted), f"of {name} it has told {self.facts(name)}")


# ---- lines that go down


def closed_and_reset(program, folder):
    """A peer that closes its connection, one that resets it, one that another one replaces, and one that the exchange gives up as it ends."""
    with Lines(program, folder) as exchange:
        exchange.line("a1").close()
        exchange.facts_are("a1", "down: closed by the peer")
        reset = exchange.line("c1")
        reset.connection.setsockopt(socket.SOL_SOCKET, socket.SO_LINGER, struct.pack("ii", 1, 0))
        reset.close()
        exchange.facts_are("c1", "down: reset by the peer")
        exchange.line("b1")
        newcomer = exchange.line("b1")
        peer = "%s:%d" % newcomer.connection.getsockname()
        exchange.facts_are("b1", f"replaced by a connection from {peer}", "down: replaced by another connection")
        exchange.line("d1")
        require(exchange.end() == 0, f"it ended badly; {exchange.said()}")
        exchange.facts_are("d1", "down: given up by the exchange")


def strange_octets(program, folder):
    """Peers that send no frames, at once or behind some: the version or the length that was found is told."""
    with Lines(program, folder) as exchange:
        wanted = []
        for octets, found in STRANGE:
            stranger = exchange.connect(exchange.ports["a1"])
            stranger.sendall(octets)
            wanted.append(f"down: no frame of RFC 1613 ({found} found)")
            exchange.facts_are("a1", *wanted)
            stranger.close()
        # A header in two pieces.
        stranger = exchange.connect(exchange.ports["a1"])
        stranger.sendall(b"\0")
        exchange.wait_until_told("line a1: up from %s:%d\n" % stranger.getsockname())
        stranger.sendall(b"\2\0\3")
        exchange.facts_are("a1", *wanted, "down: no frame of RFC 1613 (version 2 found)")
        stranger.close()
        require(exchange.end() == 0, f"it ended badly; {exchange.said()}")


def peer_that_floods(program, folder):
    """A peer that asks for more at once than the exchange keeps for a line is given up, and told so."""
    with Lines(program, folder) as exchange:
        line = exchange.line("a1")
        with contextlib.suppress(OSError):
            line.connection.sendall(FLOOD * frame(CLEAR_REQUEST))
        exchange.facts_are("a1", "down: given up by the exchange")
        line.close()
        require(exchange.end() == 0, f"it ended badly; {exchange.said()}")


# ---- calls


def refused_calls(program, folder):
    """Calls that the exchange refuses are told, with what was dialled, the cause and the diagnostic."""
    with Lines(program, folder) as exchange:
        a1, _ = exchange.line("a1"), exchange.line("b1")
        exchange.line("d1")
        for dialled, facilities, _ in REFUSED:
            a1.send(call_request(dialled, facilities))
            a1.cleared()
        exchange.facts_are("a1", *(told for *_, told in REFUSED))
        a1.send(bytes.fromhex("1001 0b 05 200000 00"))
        a1.cleared()
        exchange.wait_until_told("line a1: call to 20000 refused: cause 0d not obtainable, diagnostic 67 invalid called address\n")
        require(exchange.facts("b1") == [], f"of b1 it has told {exchange.facts('b1')}")
        require(exchange.end() == 0, f"it ended badly; {exchange.said()}")


def calls_cleared(program, folder):
    """Of calls that end those alone are told that end by a fault, at the line of the caller."""
    with Lines(program, folder) as exchange:
        a1, b1 = exchange.line("a1"), exchange.line("b1")

        def call(accepts):
            a1.send(call_request(LINES["b1"][0]))
            b1.expect(CALL)
            if accepts:
                b1.accept()
                a1.expect(ACCEPTED)

        # The caller clears, the called line clears, and the called line refuses: none is told.
        call(True)
        a1.clear()
        require(b1.cleared()[0] == 0, "b1 is told a fault")
        # As this is confirmed, b1 is free again.
        b1.clear()
        for accepts in (True, False):
            call(accepts)
            b1.clear()
            require(a1.cleared()[0] == 0, "a1 is told a fault")
        require(exchange.facts("a1") == exchange.facts("b1") == [], f"it has told {exchange.told()}")
        # The called line goes out of service, connected and not, and with data in a frame of many pieces before.
        told = []
        for accepts, word in ((True, "cleared"), (False, "refused")):
            call(accepts)
            if accepts:
                for octet in frame(data(0, 100 * b"x")):
                    a1.connection.sendall(bytes([octet]))
                b1.receive()
            b1.close()
            a1.cleared()
            told.append(f"call to 200002 {word}: cause 09 out of order, diagnostic 0 no additional information")
            exchange.facts_are("a1", *told)
            b1 = exchange.line("b1")
        # What comes in is told at the line of the caller alone.
        a1.clear()
        b1.send(call_request(LINES["a1"][0]))
        a1.expect(CALL)
        a1.accept()
        b1.expect(ACCEPTED)
        b1.send(bytes.fromhex("1001 0b 00"))
        cause, diagnostic = b1.cleared()
        require((cause, diagnostic) == (0x13, 23), f"b1 is told {cause:02x}/{diagnostic}")
        require(a1.expect(CLEAR)[3] != 0, "a1 is told no fault")
        exchange.facts_are("a1", *told)
        require(exchange.end() == 0, f"it ended badly; {exchange.said()}")


def router_calls(program, folder):
    """A call of a router that is refused is told at its line; of a call to a router at the line of its caller."""
    with Routed(program, folder) as exchange:
        exchange.third.listen()
        call = exchange.third.place(UNKNOWN, b"")
        call.cleared()
        call.ends()
        exchange.wait_until_told(f"line z: call to {UNKNOWN} refused: cause 0d not obtainable, diagnostic 67 invalid called address\n")
        call = exchange.connect_calls(exchange.c)
        call.connection.close()
        exchange.c.cleared()
        exchange.wait_until_told("line z: down: closed by the peer\n")
        exchange.wait_until_told(f"line c: call to {ROUTED} cleared: cause 09 out of order, diagnostic 0 no additional information\n")
        require(exchange.told().count(": call to ") == 2, f"it has told {exchange.told()}")
        require(exchange.end() == 0, f"it ended badly; {exchange.said()}")


CHECKS = (closed_and_reset, strange_octets, peer_that_floods, refused_calls, calls_cleared, router_calls)


if __name__ == "__main__":
    run_script(__doc__, CHECKS)
