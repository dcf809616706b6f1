#!/usr/bin/env python3
"""The connections of lines behind routers, one situation after the other: which line a connection is given to, when it ends, what is dropped
behind a call, and a router that connects as it is called. `routers.py` has the same at random and in number, `waiting.py` what becomes of a
connection before its first frame is whole, and `callers.py` routers behind which several stations have lines.

README.md says what is checked.
"""

import contextlib
import os
import pathlib
import signal
import socket
import time

import server
import traces
from routers import (
    ACCEPTED, BEHIND_FIRST, BREATH, CALL, CLEAR, CONFIRMATION, FIRST, PATIENCE, STRANGER, THIRD, Router, XotCall
)
from server import CLEAR_CONFIRMATION, CLEAR_REQUEST, call_request, frame
from served import ACCEPTED as CALL_ACCEPTED
from served import Served, require, run_script, station

# The addresses of c, of z, behind the third router, and of d.
CALLER, ROUTED, CALLED = "200001", "300003", "200002"

# Behind the first router.
SIBLINGS = ("x0", "x1", "x2")

# An address that nobody has, and what a call to it is told.
UNKNOWN, NOT_OBTAINABLE = "99", (0x0D, 67)

# What a call of a router is told for which no line is free.
BUSY = (0x01, 71)


class Routed(Served):
    """An exchange with the lines c and d, which have ports of their own, and between them z and others behind routers."""

    def __init__(self, program, folder, *words):
        self.base = server.free_ports(3)
        self.first, self.third = (Router(address, self.base + 2) for address in (FIRST, THIRD))
        behind = lambda name, router: f'{{ name = "{name}", router = "{router.address}:{router.port}" }}'
        text = (
            f"xot_port = {self.base + 2}\n" + station(CALLER, ("c", self.base, ""))
            + f'[[station]]\naddress = "{ROUTED}"\nline = [{behind("z", self.third)}]\n' + station(CALLED, ("d", self.base + 1, ""))
            + f'[[station]]\naddress = "{BEHIND_FIRST}"\nline = [{", ".join(behind(name, self.first) for name in SIBLINGS)}]\n'
        )
        super().__init__(program, folder, text, *words)
        self.c, self.d = self.rise(self.base), self.rise(self.base + 1)

    def __exit__(self, *gone):
        with contextlib.suppress(AttributeError, OSError):
            self.third.leave()
        super().__exit__(*gone)

    def call_router(self, line):
        """Calls z. Returns the router's end of the call, which it has yet to accept."""
        line.send(call_request(ROUTED))
        call, _ = self.third.called()
        self.lines.append(call)
        return call

    def connect_calls(self, line):
        """Calls z, and the router accepts."""
        call = self.call_router(line)
        call.accept()
        line.expect(ACCEPTED)
        return call

    @contextlib.contextmanager
    def held(self):
        """The exchange stands still, so that what comes meanwhile finds it at once."""
        self.process.send_signal(signal.SIGSTOP)
        os.waitid(os.P_PID, self.process.pid, os.WSTOPPED | os.WNOWAIT)
        yield
        time.sleep(BREATH)
        self.process.send_signal(signal.SIGCONT)

    def finish(self, records):
        """Stops it. It has to have so many records, each of another call."""
        require(self.end() == 0, f"it ended badly; {self.said()}")
        numbers = [server.read_record(line.rstrip("\n")).number for line in self.lines_printed]
        require(sorted(numbers) == list(range(1, records + 1)), f"the records are {self.printed()} of {records} calls")


def peer_of(call):
    return "%s:%d" % call.connection.getsockname()


# ---- which line


def take_line(exchange, router, name):
    """A call of a router, which has to be given to this line. It is refused, and holds the line until the router confirms that."""
    call = router.place(UNKNOWN, b"")
    exchange.lines.append(call)
    exchange.wait_until_told(f"line {name}: up from {peer_of(call)}\n")
    packet = call.expect(CLEAR)
    require((packet[3], packet[4]) == NOT_OBTAINABLE, f"the call is told {packet.hex()}")
    return call


def is_busy(exchange, call):
    """No line is free for the call: it is refused by a clear indication, which is told, and its connection ends as that is confirmed."""
    peer = peer_of(call)
    require(call.cleared() == BUSY, "a call for which no line is free is told something else")
    call.ends()
    exchange.wait_until_told(f"routers: connection from {peer} refused: no line is free\n")


def lowest_free_line(program, folder):
    """A router's call is given to its lowest line that is free; one more is refused, and a connection of a stranger closed and told."""
    with Routed(program, folder) as exchange:
        first = [take_line(exchange, exchange.first, name) for name in SIBLINGS]
        take_line(exchange, exchange.third, "z")
        is_busy(exchange, exchange.first.place(UNKNOWN, b""))
        for place in (1, 0):
            first[place].send(CLEAR_CONFIRMATION)
            first[place].ends()
            exchange.wait_until_told(f"line {SIBLINGS[place]}: connection closed\n")
            first[place] = take_line(exchange, exchange.first, SIBLINGS[place])
        stranger = socket.socket()
        stranger.bind((STRANGER, 0))
        stranger.connect(("127.0.0.1", exchange.base + 2))
        peer = peer_of(XotCall(stranger))
        XotCall(stranger).ends()
        exchange.wait_until_told(f"routers: connection from {peer} refused: no line is behind this router\n")
        exchange.finish(6)


# ---- calls of the router, and to it


def calls_of_the_router(program, folder):
    """The router calls and clears. What comes behind its clear is dropped, the connection is closed, and the line has the next call."""
    with Routed(program, folder) as exchange:
        for _ in range(2):
            call = exchange.third.place(CALLED, b"")
            exchange.d.expect(CALL)
            exchange.d.accept()
            call.expect(ACCEPTED)
            call.connection.sendall(frame(CLEAR_REQUEST) + frame(call_request(CALLER)))
            call.expect(CONFIRMATION)
            call.ends()
            exchange.d.cleared()
            exchange.d.clear()
        exchange.c.clear()  # and no call has come to c
        unused = exchange.third.connect()
        peer = peer_of(unused)
        unused.close()
        exchange.wait_until_told(f"routers: connection from {peer} ended before its first frame was whole\n")
        require(f"up from {peer}" not in exchange.told(), f"it has had a line; {exchange.said()}")
        exchange.finish(2)


def cleared_by_the_exchange(program, folder):
    """The caller of a router clears. What comes behind the router's confirmation is dropped, and the next call has a new connection."""
    with Routed(program, folder) as exchange:
        exchange.third.listen()
        for _ in range(2):
            call = exchange.connect_calls(exchange.c)
            exchange.c.clear()
            call.expect(CLEAR)
            call.connection.sendall(frame(CLEAR_CONFIRMATION) + frame(call_request(CALLED)))
            call.ends()
        exchange.d.clear()  # and no call has come to d
        exchange.finish(2)


def cleared_by_the_router(program, folder):
    """The router clears, and the next call to it comes at once: it has the confirmation, then the end, then the call by a new connection."""
    with Routed(program, folder) as exchange:
        exchange.third.listen()
        call = exchange.connect_calls(exchange.c)
        with exchange.held():
            call.connection.sendall(frame(CLEAR_REQUEST) + frame(call_request(CALLED)))
            exchange.d.send(call_request(ROUTED))
        call.expect(CONFIRMATION)
        call.ends()
        exchange.c.cleared()
        following, _ = exchange.third.called()
        following.accept()
        exchange.d.expect(ACCEPTED)
        exchange.finish(2)


def cleared_by_both(program, folder):
    """The caller and the router clear at once: the one whose clear counts first has a confirmation, the other the clear, which it does not
    confirm. The connection ends, and the next call has a new one."""
    with Routed(program, folder) as exchange:
        exchange.third.listen()
        call = exchange.connect_calls(exchange.c)
        with exchange.held():
            exchange.c.send(CLEAR_REQUEST)
            call.send(CLEAR_REQUEST)
        told = exchange.c.receive()[2], call.receive()[2]
        require(told in ((CONFIRMATION, CLEAR), (CLEAR, CONFIRMATION)), f"they are told {told[0]:02x} and {told[1]:02x}")
        call.ends()
        call = exchange.connect_calls(exchange.c)
        exchange.finish(2)


def cut_by_the_router(program, folder):
    """The router ends a connection before its call is cleared: the caller is told, and the line has the next call."""
    with Routed(program, folder) as exchange:
        exchange.third.listen()
        exchange.call_router(exchange.c).close()
        require(exchange.c.cleared() == (0x09, 0), "the caller is told something else")
        time.sleep(BREATH)
        exchange.connect_calls(exchange.c)
        exchange.finish(2)


def nobody_listens(program, folder):
    """A router that refuses connections is told by its line, and so is each connection that is made."""
    with Routed(program, folder) as exchange:
        exchange.c.send(call_request(ROUTED))
        require(exchange.c.cleared() == (0x09, 0), "the caller is told something else")
        exchange.wait_until_told("line z: no connection to the router: refused\n")
        time.sleep(BREATH)
        exchange.third.listen()
        exchange.connect_calls(exchange.c)
        exchange.wait_until_told(f"line z: connected to {THIRD}:{exchange.third.port}\n")
        exchange.finish(2)


# ---- both at once


def connected_and_called(program, folder):
    """A router has connected and sent nothing yet, as it is called: the call has a connection of its own, and the router's waits for its call."""
    with Routed(program, folder) as exchange:
        exchange.third.listen()
        theirs, too_early = exchange.third.connect(), exchange.third.connect()
        call = exchange.connect_calls(exchange.c)
        too_early.send(call_request(CALLED))
        is_busy(exchange, too_early)
        exchange.c.clear()
        call.cleared()
        call.ends()
        theirs.send(call_request(CALLED))
        serve(exchange, theirs)
        exchange.finish(2)


def serve(exchange, theirs):
    """The router's call, which is to come to d: answered, and cleared by the router. Returns the call connected packet."""
    exchange.d.expect(CALL)
    exchange.d.accept()
    connected = theirs.expect(ACCEPTED)
    theirs.clear()
    theirs.ends()
    exchange.d.cleared()
    # Its answer shows that the confirmation before it was read, and so that d is free for the next call.
    exchange.d.clear()
    return connected


def connecting_and_called(program, folder):
    """A router calls while the exchange waits for its own connection to it: the router's call is refused, and the call to it comes."""
    with Routed(program, folder) as exchange:
        third = exchange.third
        # A listener whose queue is full: connections to it are neither made nor refused, until some are taken.
        with socket.create_server((third.address, third.port), backlog=0) as full, contextlib.ExitStack() as waiting:
            for _ in range(4):
                connection = waiting.enter_context(socket.socket())
                connection.bind((STRANGER, 0))
                connection.setblocking(False)
                connection.connect_ex((third.address, third.port))
            time.sleep(BREATH)
            exchange.c.send(call_request(ROUTED))
            time.sleep(BREATH)
            is_busy(exchange, third.place(CALLED, b""))
            full.settimeout(PATIENCE)
            call = take_call(full)
        exchange.lines.append(call)
        call.accept()
        exchange.c.expect(ACCEPTED)
        exchange.finish(1)


def take_call(listener):
    """Takes connections until the exchange's comes, with its call."""
    while True:
        connection, (address, _) = listener.accept()
        if address != STRANGER:
            call = XotCall(connection)
            call.expect(CALL)
            return call


def calls_that_meet(program, folder):
    """The front of the router's call has come as it is called: each call has a connection of its own, and gets what is for it alone."""
    path = pathlib.Path(folder) / "z.pcap"
    with Routed(program, folder, "--trace", path, "--trace-lines", "z") as exchange:
        exchange.third.listen()
        theirs, request = exchange.third.connect(), frame(call_request(CALLED))
        theirs.connection.sendall(request[:6])
        time.sleep(BREATH)
        exchange.c.send(call_request(ROUTED))
        call, incoming = exchange.third.called()
        call.accept()
        exchange.c.expect(ACCEPTED)
        exchange.c.clear()
        indication = call.expect(CLEAR)
        call.send(CLEAR_CONFIRMATION)
        call.ends()
        theirs.connection.sendall(request[6:])
        connected = serve(exchange, theirs)
        exchange.finish(2)
    pieces, _ = traces.pieces_in(path.read_bytes())
    traces.check_sequences(pieces)
    to_router = [
        (traces.TO_LINE, frame(incoming)), (traces.FROM_LINE, frame(CALL_ACCEPTED)), (traces.TO_LINE, frame(indication)),
        (traces.FROM_LINE, frame(CLEAR_CONFIRMATION)),
    ]
    from_router = [
        (traces.FROM_LINE, request), (traces.TO_LINE, frame(connected)), (traces.FROM_LINE, frame(CLEAR_REQUEST)),
        (traces.TO_LINE, frame(CLEAR_CONFIRMATION)),
    ]
    wanted, streams = [(1, 0, to_router), (1, 1, from_router)], traces.streams_of(pieces)
    require(streams == wanted, f"{streams} is traced in place of {wanted}")


CHECKS = (
    lowest_free_line, calls_of_the_router, cleared_by_the_exchange, cleared_by_the_router, cleared_by_both, cut_by_the_router, nobody_listens,
    connected_and_called, connecting_and_called, calls_that_meet,
)


if __name__ == "__main__":
    run_script(__doc__, CHECKS)
