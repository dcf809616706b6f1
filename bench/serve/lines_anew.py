"""Hosts of pairs of lines that connect to one address, and connect anew when they hear nothing, for two_machines.py."""

import contextlib
import errno
import selectors
import socket
import time

from routers import Wrong
from served import data
from server import CLEAR_CONFIRMATION, CLEAR_REQUEST, address, call_request, frame

CALL, ACCEPTED, CLEAR, CONFIRMATION, READY = 0x0B, 0x0F, 0x13, 0x17, 0x01

# What a line's socket asks of the system, in milliseconds and seconds: it is given up when octets were not acknowledged for so long, or
# when its peer was silent for so long and then did not answer so many times, a second apart.
UNACKNOWLEDGED, SILENCE, INTERVAL, COUNT = 1_000, 1, 1, 1

# Seconds after which a connection that was not made is tried anew, and between two tries.
ATTEMPT, AGAIN = 0.4, 0.1

# Seconds within which calls are connected, and cleared.
SOON = 20

# Data packets that may wait for their acknowledgement, and seconds between two.
WINDOW, GAP = 2, 0.05

# What a caller knows of its call. Ending: it sends no more, and clears once its data was acknowledged.
CALLING, TALKING, ENDING, CLEARING, CLEARED, LOST = range(6)


class Call:
    """A call as its caller sees it."""

    def __init__(self, caller):
        self.caller, self.state, self.sent = caller, CALLING, 0
        # When each data packet was acknowledged.
        self.acknowledged = []


class Line:
    """A line as its host sees it. It is connected whenever that can be."""

    def __init__(self, selector, name, where):
        self.selector, self.name, self.where = selector, name, where
        self.connection, self.tried_at, self.own_call = None, 0, None
        self.begin()

    def begin(self):
        self.is_made = self.is_up = self.is_called = False
        self.up_at, self.buffer, self.received, self.sent_at = None, b"", 0, 0

    def connect(self):
        self.begin()
        self.tried_at = time.monotonic()
        self.connection = socket.socket()
        self.connection.setblocking(False)
        self.connection.setsockopt(socket.SOL_SOCKET, socket.SO_KEEPALIVE, 1)
        options = {socket.TCP_NODELAY: 1, socket.TCP_USER_TIMEOUT: UNACKNOWLEDGED}
        options |= {socket.TCP_KEEPIDLE: SILENCE, socket.TCP_KEEPINTVL: INTERVAL, socket.TCP_KEEPCNT: COUNT}
        for option, value in options.items():
            self.connection.setsockopt(socket.IPPROTO_TCP, option, value)
        self.selector.register(self.connection, selectors.EVENT_WRITE, self)
        if self.connection.connect_ex(self.where) not in (0, errno.EINPROGRESS):
            self.lose()

    def lose(self):
        """The connection is gone, and a call on it is over."""
        self.selector.unregister(self.connection)
        self.connection.close()
        self.connection, self.is_up = None, False
        self.leave()

    def leave(self, state=LOST):
        """Its call, if it has one, is over."""
        if self.own_call:
            self.own_call.state = state
        self.own_call = None

    def send(self, packet):
        """Few octets wait at any time, so that the connection takes all of them."""
        self.connection.sendall(frame(packet))

    def is_ready(self):
        """The system has something for it."""
        if not self.is_made:
            if error := self.connection.getsockopt(socket.SOL_SOCKET, socket.SO_ERROR):
                raise OSError(error, "no connection")
            self.is_made = True
            self.selector.modify(self.connection, selectors.EVENT_READ, self)
            self.send(CLEAR_REQUEST)
            return
        more = self.connection.recv(65_536)
        if not more:
            raise ConnectionError
        self.buffer += more
        while len(self.buffer) >= 4 and len(self.buffer) >= 4 + (length := int.from_bytes(self.buffer[2:4], "big")):
            packet, self.buffer = self.buffer[4:4 + length], self.buffer[4 + length:]
            self.hear(packet)

    def hear(self, packet):
        kind, call = packet[2], self.own_call
        if not self.is_up:
            if kind != CONFIRMATION:
                raise Wrong(f"{self.name} was told {packet.hex()} before its clear was confirmed")
            self.is_up, self.up_at = True, time.monotonic()
        elif kind == CALL:
            self.is_called, self.received = True, 0
            self.send(b"\x10\x01\x0f")
        elif kind == ACCEPTED:
            call.state = TALKING
        elif kind & 1 == 0:
            self.received += 1
            self.send(bytes([0x10, 1, self.received % 8 << 5 | READY]))
        elif kind & 0x1F == READY:
            count = (kind // 32 - len(call.acknowledged)) % 8
            call.acknowledged += [time.monotonic()] * count
        elif kind == CLEAR:
            self.leave()
            self.send(CLEAR_CONFIRMATION)
            # Its confirmation tells that the exchange has taken the one before, so that the line is free.
            if self.is_called:
                self.send(CLEAR_REQUEST)
        elif kind == CONFIRMATION and self.is_called:
            self.is_called = False
        elif kind == CONFIRMATION:
            self.leave(CLEARED)
        else:
            raise Wrong(f"{self.name} was told {packet.hex()}")

    def go_on(self):
        """What it does of itself."""
        now = time.monotonic()
        if self.connection is None:
            if now >= self.tried_at + AGAIN:
                self.connect()
        elif not self.is_made:
            if now >= self.tried_at + ATTEMPT:
                self.lose()
        elif self.own_call:
            self.go_on_with(self.own_call, now)

    def go_on_with(self, call, now):
        waiting = call.sent - len(call.acknowledged)
        if call.state == TALKING and waiting < WINDOW and now >= self.sent_at + GAP:
            self.sent_at = now
            self.send(data(call.sent, b"data"))
            call.sent += 1
        elif call.state == ENDING and not waiting:
            call.state = CLEARING
            self.send(CLEAR_REQUEST)

    def call(self, number):
        self.own_call = Call(self)
        self.send(call_request(number))
        return self.own_call


class Hosts:
    """The hosts of so many pairs of lines: a0 calls b0."""

    def __init__(self, pairs, host, base):
        self.selector = selectors.DefaultSelector()
        self.callers = [Line(self.selector, f"a{pair}", (host, base + 2 * pair)) for pair in range(pairs)]
        self.lines = self.callers + [Line(self.selector, f"b{pair}", (host, base + 2 * pair + 1)) for pair in range(pairs)]

    def go_on(self):
        for key, _ in self.selector.select(0.01):
            with self.losing(key.data):
                key.data.is_ready()
        for line in self.lines:
            with self.losing(line):
                line.go_on()

    @contextlib.contextmanager
    def losing(self, line):
        try:
            yield
        except OSError:
            line.lose()

    def run_until(self, holds, what, seconds):
        """Goes on until it holds, which has to be within so many seconds."""
        end = time.monotonic() + seconds
        while not holds():
            if time.monotonic() > end:
                raise Wrong(f"not within {seconds} seconds: {what}")
            self.go_on()

    def run_for(self, seconds):
        end = time.monotonic() + seconds
        while time.monotonic() < end:
            self.go_on()

    def are_up_since(self, moment):
        """All lines have come up behind this moment."""
        return all(line.is_up and line.up_at > moment for line in self.lines)

    def call(self):
        """Each caller calls, and the calls are connected."""
        calls = [line.call(address(pair)) for pair, line in enumerate(self.callers)]
        self.run_until(lambda: all(it.state == TALKING for it in calls), "each call is connected", SOON)
        return calls

    def clear(self, calls):
        """Each caller clears its call, once its data was acknowledged, and the called line is free."""
        for it in calls:
            it.state = ENDING
        self.run_until(lambda: all(it.state == CLEARED for it in calls), "each call is cleared by its caller", SOON)
        self.run_until(lambda: not any(it.is_called for it in self.lines), "each called line is free", SOON)
