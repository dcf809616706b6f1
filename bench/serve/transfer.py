"""Both ends of calls that send data as fast as their windows let them, in both directions at once, and read all that comes."""

import selectors
import time

from routers import ACCEPTED, CALL, CLEAR, Wrong
from server import CLEAR_CONFIRMATION, call_request, frame

# What a call asks for here, its data packets in octets and in segments, and both of its windows.
SIZES = bytes.fromhex("420a0a430707")
OCTETS, SEGMENTS, WINDOW = 1_024, 16, 7

READY = 0x01

# An end that pushes has so many octets at least that wait to be written.
PUSHED = 4_096


class End:
    """An end of a connected call. It notes what it is told as the call is cleared, and how its connection ends."""

    def __init__(self, line):
        self.line, self.connection = line, line.connection
        self.unread, self.unwritten = b"", bytearray()
        self.sent = self.acknowledged = self.received = 0  # data packets
        # It acknowledges again and again what it did before, which is lawful, so that its connection is never drained.
        self.pushes = False
        self.told, self.is_ended, self.fault = None, False, None

    def packet(self, kind, octets=b""):
        return frame(bytes([0x10, 1, self.received % 8 << 5 | kind]) + octets)

    # What comes ----------------------------------------------------------------------------------------------------

    def hear(self, packet):
        kind = packet[2]
        if self.told:
            self.fault = f"{packet[:20].hex()} came behind the clear indication"
        elif kind == CLEAR:
            self.told = packet[3], packet[4]
        elif kind & 1 == 0:
            self.hear_data(packet)
        elif kind & 0x1F == READY:
            self.acknowledge(kind >> 5)
        else:
            self.fault = f"{packet[:20].hex()} came during the call"

    def hear_data(self, packet):
        if packet[2] >> 1 & 7 != self.received % 8 or packet[3:] != data_of(self.received):
            self.fault = f"{packet[:20].hex()} came in place of data packet {self.received}"
        self.received += 1
        self.acknowledge(packet[2] >> 5)
        self.unwritten += self.packet(READY)

    def acknowledge(self, number):
        self.acknowledged += (number - self.acknowledged) % 8

    def read(self):
        try:
            octets = self.connection.recv(65_536)
        except BlockingIOError:
            return
        except OSError as error:
            self.fault = f"the connection was not ended, but failed: {error.strerror}"
            octets = b""
        self.unread += octets
        while len(self.unread) >= 4 and len(self.unread) >= (end := 4 + int.from_bytes(self.unread[2:4], "big")):
            packet, self.unread = self.unread[4:end], self.unread[end:]
            self.hear(packet)
        self.is_ended = not octets
        if self.is_ended and self.unread:
            self.fault = f"the connection ended within a frame: {self.unread[:20].hex()}"

    # What goes -----------------------------------------------------------------------------------------------------

    def write(self):
        while not self.told and self.sent - self.acknowledged < WINDOW:
            self.unwritten += self.packet(self.sent % 8 << 1, data_of(self.sent))
            self.sent += 1
        while self.pushes and len(self.unwritten) < PUSHED:
            self.unwritten += self.packet(READY)
        if self.unwritten:
            try:
                del self.unwritten[:self.connection.send(self.unwritten)]
            except BlockingIOError:
                pass
            except OSError as error:
                self.fault = f"nothing more could be written: {error.strerror}"

    def turn(self):
        self.read()
        if not self.is_ended:
            self.write()

    def is_through(self):
        """It has no more turns."""
        return self.is_ended or self.fault is not None

    def confirm(self):
        """Confirms that its call is cleared. The line waits for answers again."""
        self.connection.setblocking(True)
        self.connection.sendall(self.unwritten + frame(CLEAR_CONFIRMATION))


def data_of(number):
    """The octets of the data packet of this number, in either direction."""
    return number.to_bytes(4, "big") + (OCTETS - 4) * b"x"


def connect_call(caller, called, dialled):
    """A call between two lines that are up. Returns its ends."""
    caller.send(call_request(dialled, SIZES))
    called.expect(CALL)
    return ends_of(caller, called)


def ends_of(caller, called):
    """The ends of a call that has come to its called line, which accepts it."""
    called.accept()
    caller.expect(ACCEPTED)
    for line in (caller, called):
        line.connection.setblocking(False)
    return End(caller), End(called)


def run(ends, is_done, seconds):
    """The ends send and read until it is done, for so many seconds at most."""
    most = time.monotonic() + seconds
    with selectors.DefaultSelector() as selector:
        for end in ends:
            events = selectors.EVENT_READ | selectors.EVENT_WRITE if end.pushes else selectors.EVENT_READ
            selector.register(end.connection, events, end)
            end.turn()
        while not is_done():
            if time.monotonic() > most:
                raise Wrong(f"it is not done after {seconds} seconds: {sum(end.is_ended for end in ends)} of {len(ends)} connections have ended")
            for key, _ in selector.select(0.1):
                key.data.turn()
                if key.data.is_through():
                    selector.unregister(key.fileobj)


def run_for(ends, seconds):
    """The ends send and read for so many seconds, and go on then."""
    until = time.monotonic() + seconds
    run(ends, lambda: time.monotonic() > until, seconds + 1)
    for end in ends:
        if end.is_through():
            raise Wrong(end.fault or "the exchange has ended a connection during its call")
