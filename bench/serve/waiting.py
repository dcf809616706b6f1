#!/usr/bin/env python3
"""Connections of routers before their first frame is whole: each waits with the door, and holds no line.

README.md says what is checked.
"""

import contextlib
import json
import select
import socket
import time
import urllib.request

import server
from links import CALLED, SIBLINGS, Routed, is_busy, peer_of, serve
from routers import ACCEPTED, BEHIND_FIRST, BREATH, CALL, CONFIRMATION, FIRST, STRANGER, THIRD, XotCall, token_in
from server import CLEAR_REQUEST, call_request, frame
from served import require, run_script, until

# The user data of a call, and a router's call request with it.
TOKEN = bytes.fromhex("c000000042")
REQUEST = frame(call_request(CALLED, user=TOKEN))

# Headers that no frame has: lengths that no packet has, and other versions.
NO_HEADERS = tuple(bytes.fromhex(octets) for octets in ("00000002", "00000000", "00000405", "0000ffff", "00010003", "01000003"))

# How many connections wait at most.
MOST = 256

# The seconds after which a connection without a whole frame is closed, at least and at most.
LEAST_SECONDS, MOST_SECONDS = 9, 12.5

# Seconds within which a call to a router is answered.
AT_ONCE = 1


class Waited(Routed):
    """An exchange with lines behind routers, and a console."""

    def __init__(self, program, folder):
        self.console = server.free_ports(1)
        super().__init__(program, folder, "--console", f"127.0.0.1:{self.console}")

    def __exit__(self, *gone):
        with contextlib.suppress(AttributeError, OSError):
            self.first.leave()
        super().__exit__(*gone)

    def states(self):
        """The state of each line behind a router."""
        with urllib.request.urlopen(f"http://127.0.0.1:{self.console}/status.json", timeout=10) as answer:
            status = json.load(answer)
        return {line["name"]: line["state"] for line in status["lines"] if line["name"] in ("z", *SIBLINGS)}

    def wait_until_all_are_ready(self):
        until(lambda: set(self.states().values()) == {"ready"}, lambda: f"the lines are {self.states()}")

    def require_no_line_for(self, *calls):
        """None of these connections was given to a line, so far as was told."""
        for call in calls:
            require(f"up from {peer_of(call)}\n" not in self.told(), f"{peer_of(call)} has a line; {self.said()}")

    def wait_until_told_of(self, peer, what):
        """Waits until this is told of a connection with the door."""
        self.wait_until_told(f"routers: connection from {peer} {what}\n")


NO_LINE = "refused: no line is free"
TOO_MANY = "refused: too many wait for their first frame"
NO_FRAME = "closed: no frame of RFC 1613"
TOO_LATE = "closed: no whole frame came in 10 seconds"
TOO_EARLY = "ended before its first frame was whole"


def begun(router, octets):
    """A connection of a router that has brought these octets."""
    call = router.connect()
    # It may be closed already.
    with contextlib.suppress(ConnectionError):
        call.connection.sendall(octets)
    return call


def is_open(call):
    """Whether a connection has brought nothing, nor its end."""
    ready, _, _ = select.select([call.connection], [], [], 0)
    return not ready


def is_closed(exchange, call, why):
    """The connection has to be closed soon, and that is told."""
    peer = peer_of(call)
    call.ends()
    exchange.wait_until_told_of(peer, why)


# ---- calls meanwhile


def half_a_frame(program, folder):
    """A router has sent one octet as it is called: the call is answered within a second, by a connection of its own; then the router's own is."""
    with Waited(program, folder) as exchange:
        exchange.third.listen()
        theirs = begun(exchange.third, REQUEST[:1])
        time.sleep(BREATH)
        called_at = time.monotonic()
        call = exchange.connect_calls(exchange.c)
        took = time.monotonic() - called_at
        require(took < AT_ONCE, f"the call was answered after {took:.1f} seconds")
        exchange.c.clear()
        call.cleared()
        call.ends()
        exchange.wait_until_told("line z: connection closed\n")
        exchange.wait_until_all_are_ready()
        exchange.require_no_line_for(theirs)
        theirs.connection.sendall(REQUEST[1:])
        serve(exchange, theirs)
        exchange.finish(2)


def silent_router(program, folder):
    """With as many silent connections as lines a call of the router and calls to it pass, and no line is held."""
    with Waited(program, folder) as exchange:
        first = exchange.first
        first.listen()
        silent = [first.connect() for _ in SIBLINGS]
        time.sleep(BREATH)
        exchange.wait_until_all_are_ready()
        theirs = begun(first, REQUEST)
        exchange.d.expect(CALL)
        exchange.d.accept()
        theirs.expect(ACCEPTED)
        exchange.wait_until_told(f"line {SIBLINGS[0]}: up from {peer_of(theirs)}\n")
        exchange.c.send(call_request(BEHIND_FIRST))
        call, _ = first.called()
        call.accept()
        exchange.c.expect(ACCEPTED)
        exchange.wait_until_told(f": connected to {FIRST}:{first.port}\n")
        for clears, is_told in ((exchange.c, call), (theirs, exchange.d)):
            clears.clear()
            is_told.cleared()
        for ends in (call, theirs):
            ends.ends()
        exchange.require_no_line_for(*silent)
        require(all(map(is_open, silent)), "a silent connection was closed before its time")
        exchange.finish(2)


def no_line_free(program, folder):
    """A frame that is whole while no line is free: its call is refused and told, a connection without a call is closed, and the call goes on."""
    with Waited(program, folder) as exchange:
        exchange.third.listen()
        theirs = begun(exchange.third, REQUEST[:-1])
        call = exchange.connect_calls(exchange.c)
        exchange.require_no_line_for(theirs)
        theirs.connection.sendall(REQUEST[-1:])
        is_busy(exchange, theirs)
        is_closed(exchange, begun(exchange.third, frame(CLEAR_REQUEST)), NO_LINE)
        exchange.c.clear()
        call.cleared()
        call.ends()
        exchange.finish(1)


# ---- the first frame


def pieces(program, folder):
    """A first frame that comes an octet at a time, cut anywhere, or with more behind it, is read by the line from its first octet on."""
    with Waited(program, folder) as exchange:
        theirs = exchange.third.connect()
        for octet in REQUEST[:-1]:
            theirs.connection.sendall(bytes([octet]))
            time.sleep(0.005)
        time.sleep(2 * BREATH)
        exchange.require_no_line_for(theirs)
        theirs.connection.sendall(REQUEST[-1:])
        require(token_in(exchange.d.expect(CALL)) == TOKEN, "another call has come")
        exchange.d.accept()
        theirs.expect(ACCEPTED)
        theirs.clear()
        theirs.ends()
        exchange.d.cleared()
        for cut in range(1, len(REQUEST)):
            theirs = begun(exchange.third, REQUEST[:cut])
            time.sleep(0.01)
            theirs.connection.sendall(REQUEST[cut:] + frame(CLEAR_REQUEST))
            require(token_in(exchange.d.expect(CALL)) == TOKEN, f"another call has come, cut behind {cut} octets")
            exchange.d.cleared()
            theirs.expect(CONFIRMATION)
            theirs.ends()
            # Then it may be called again.
            exchange.d.clear()
        exchange.finish(len(REQUEST))


def bad_header(program, folder):
    """A connection that begins with a header that no frame has is closed and told, and has no line, in one piece or in two."""
    with Waited(program, folder) as exchange:
        for header in NO_HEADERS:
            is_closed(exchange, begun(exchange.third, header), NO_FRAME)
            theirs = begun(exchange.third, header[:1])
            time.sleep(BREATH)
            theirs.connection.sendall(header[1:])
            is_closed(exchange, theirs, NO_FRAME)
        require(f"up from {THIRD}:" not in exchange.told(), f"a line was given away; {exchange.said()}")
        serve(exchange, begun(exchange.third, REQUEST))
        exchange.finish(1)


# ---- connections that bring none


def half_closed(call):
    call.connection.shutdown(socket.SHUT_WR)


# How a router ends a connection, and how many octets of a frame have come before.
ENDS = (XotCall.close, XotCall.cut, half_closed)
PARTS = (1, 3, 4, len(REQUEST) - 1)


def ten_seconds(program, folder):
    """A connection that brings no whole frame is closed after ten seconds, and told, also where a part has come, or comes, or it has ended."""
    with Waited(program, folder) as exchange:
        gone = [(begun(exchange.third, REQUEST[:count]), end) for count in PARTS for end in ENDS]
        waits = {begun(exchange.third, REQUEST[:count]): time.monotonic() for count in (0, *PARTS)}
        slow, in_time = exchange.third.connect(), begun(exchange.third, REQUEST[:-1])
        waits[slow] = time.monotonic()
        peers = [peer_of(call) for call in (*waits, *(call for call, _ in gone))]
        time.sleep(BREATH)
        for call, end in gone:
            end(call)
        for octet in REQUEST[:8]:
            slow.connection.sendall(bytes([octet]))
            time.sleep(1)
        # Eight seconds have passed.
        require("routers: " not in exchange.told(), f"it has told something; {exchange.said()}")
        in_time.connection.sendall(REQUEST[-1:])
        serve(exchange, in_time)
        while waits:
            ready, _, _ = select.select([call.connection for call in waits], [], [], MOST_SECONDS)
            require(ready, f"{len(waits)} connections without a whole frame stay open")
            for call in [call for call in waits if call.connection in ready]:
                passed = time.monotonic() - waits.pop(call)
                call.ends()
                require(LEAST_SECONDS <= passed <= MOST_SECONDS, f"a connection without a whole frame was closed after {passed:.1f} seconds")
        for peer in peers:
            exchange.wait_until_told_of(peer, TOO_LATE)
            require(f"up from {peer}\n" not in exchange.told(), f"{peer} has a line; {exchange.said()}")
        exchange.wait_until_all_are_ready()
        exchange.finish(1)


def ended_before(program, folder):
    """A connection that ends without an octet is told at once, and has no line; one that ends behind its first frame has its call."""
    with Waited(program, folder) as exchange:
        for end in ENDS:
            theirs = exchange.third.connect()
            time.sleep(BREATH)
            peer = peer_of(theirs)
            end(theirs)
            exchange.wait_until_told_of(peer, TOO_EARLY)
        require(f"up from {THIRD}:" not in exchange.told(), f"a line was given away; {exchange.said()}")
        exchange.wait_until_all_are_ready()
        begun(exchange.third, REQUEST).close()
        exchange.d.expect(CALL)
        require(exchange.d.cleared() == (0x09, 0), "the called line is told something else")
        exchange.finish(1)


# ---- more than may wait


def too_many(program, folder):
    """Of 257 connections one is closed at once, and told; where one of the 256 ends, or has its frame, there is room for another one."""
    with Waited(program, folder) as exchange:
        routers = exchange.first, exchange.third
        waiting = [routers[place % 2].connect() for place in range(MOST)]
        for router in routers:
            is_closed(exchange, begun(router, REQUEST), TOO_MANY)
        stranger = socket.socket()
        stranger.bind((STRANGER, 0))
        stranger.connect(("127.0.0.1", exchange.base + 2))
        is_closed(exchange, XotCall(stranger), "refused: no line is behind this router")
        gone = waiting.pop(0)
        peer = peer_of(gone)
        gone.close()
        exchange.wait_until_told_of(peer, TOO_EARLY)
        waiting.append(exchange.first.connect())
        is_closed(exchange, exchange.first.connect(), TOO_MANY)
        whole = waiting.pop()
        whole.connection.sendall(REQUEST)
        serve(exchange, whole)
        serve(exchange, begun(exchange.third, REQUEST))
        require(all(map(is_open, waiting)), "a connection was closed that waits")
        exchange.require_no_line_for(*waiting)
        exchange.finish(2)


CHECKS = (half_a_frame, silent_router, no_line_free, pieces, bad_header, ten_seconds, ended_before, too_many)


if __name__ == "__main__":
    run_script(__doc__, CHECKS)
