#!/usr/bin/env python3
"""Calls over TCP between lines that number unlike, and between two lines with windows of 15.

Two lines number modulo 128 and one modulo 8. Each call sends data packets in both directions at once, and both ends check
all that they read: numbers by the modulus of their own line, windows, the data itself, what the payer is told. In the end
the records of `xp serve` must be those of the calls. README.md says what is checked.
"""

import argparse
import collections
import pathlib
import random
import selectors
import socket
import sys
import tempfile
import time

import server
from calls import TOLERANCE, segments

sys.path.append(str(pathlib.Path(__file__).resolve().parent.parent))
from model import cut
from packets import Block, Packet, Wrong, framed, read, written

# Each line stands in a station of its own.
Station = collections.namedtuple("Station", "address modulus")
STATIONS = {"a1": Station("2080010", 128), "b1": Station("2080020", 8), "c1": Station("2080030", 128)}

# A call: who calls whom, the windows that it asks for, and those that it gets.
Plan = collections.namedtuple("Plan", "caller called asked window")
PLANS = (
    Plan("a1", "b1", 7, 7),
    Plan("a1", "b1", 15, 7),  # lowered for the called line
    Plan("b1", "a1", 7, 7),
    Plan("a1", "c1", 15, 15),
)

# A window that a line of modulo 8 may not ask for, and what it is told.
REFUSED = Plan("b1", "a1", 8, None)
REFUSAL = 0x03, 66

# Seconds that an answer of the exchange may take.
PATIENCE = 30

# Octets of a data packet, at most.
MOST_OCTETS = 128

DURATION, SEGMENTS = 0xC1, 0xC2
ASKS_FOR_CHARGING = bytes([0x04, 1])


def require(holds, what):
    if not holds:
        sys.exit(what)


def subscriptions(base):
    stations = enumerate(STATIONS.items(), base)
    return "\n".join(
        f'[[station]]\naddress = "{address}"\nline = [{{ name = "{name}", port = {port}, modulus = {modulus} }}]'
        for port, (name, (address, modulus)) in stations
    )


class End:
    """A line as its host sees it."""

    def __init__(self, name, connection):
        self.name, self.connection, self.buffer = name, connection, b""
        self.address, self.modulus = STATIONS[name]
        connection.settimeout(PATIENCE)
        connection.setsockopt(socket.IPPROTO_TCP, socket.TCP_NODELAY, 1)

    # Packets --------------------------------------------------------------------------------------------------

    def send(self, kind, **fields):
        self.connection.sendall(framed(written(self.modulus, 1, Packet(kind, **fields))))

    def fill(self):
        try:
            octets = self.connection.recv(65_536)
        except TimeoutError:
            sys.exit(f"nothing more comes to {self.name}")
        require(octets, f"the exchange closed the connection of {self.name}")
        self.buffer += octets

    def next_packet(self):
        """The next packet that came whole, or none. It has to be written as the line's modulus says, in the one spelling."""
        end = 4 + int.from_bytes(self.buffer[2:4], "big")
        if len(self.buffer) < max(4, end):
            return None
        octets, self.buffer = self.buffer[4:end], self.buffer[end:]
        try:
            identifier, packet = read(self.modulus, octets)
        except Wrong as wrong:
            sys.exit(f"{self.name} got {octets.hex()}, which is no packet: {wrong.diagnostic}")
        require(identifier == 1 and written(self.modulus, 1, packet) == octets, f"{self.name} got {octets.hex()}")
        return packet

    def receive(self, kind):
        """Waits for the next packet, which has to be of this kind."""
        while (packet := self.next_packet()) is None:
            self.fill()
        require(packet.kind == kind, f"{self.name} got {packet} where a {kind} packet is due")
        return packet

    def rise(self):
        """Waits until the line is up: a clear request of a line without a call is confirmed, and counts for nothing."""
        self.send("clear", cause=0, diagnostic=0)
        self.receive("clear confirmation")

    # Data -----------------------------------------------------------------------------------------------------

    def begin(self, far, window, data):
        self.far, self.window, self.data = far, window, data
        self.sent = self.acknowledged = 0  # data packets of this end
        self.heard = self.told = 0  # those of the far end, and how many of them this end acknowledged
        self.most_under_way = 0

    def is_through(self):
        return self.sent == self.acknowledged == len(self.data) and self.heard == self.told == len(self.far.data)

    def hear(self, packet):
        require(packet.kind in ("data", "ready"), f"{self.name} got {packet} during its call")
        counts = [count for count in range(self.acknowledged, self.sent + 1) if count % self.modulus == packet.pr]
        require(counts, f"{self.name} got P(R) {packet.pr}, of {self.acknowledged} to {self.sent} packets")
        self.acknowledged = counts[0]
        if packet.kind == "data":
            require(packet.ps == self.heard % self.modulus, f"{self.name} got P(S) {packet.ps} after {self.heard} packets")
            require(packet.octets == self.far.data[self.heard], f"{self.name} got other data than was sent to it")
            require(self.heard - self.told < self.window, f"{self.name} got more than a window of {self.window}")
            self.heard += 1

    def answer(self):
        """Sends as much as the window lets through, and acknowledges what no data packet did."""
        while self.sent < len(self.data) and self.sent - self.acknowledged < self.window:
            self.send("data", ps=self.sent % self.modulus, pr=self.heard % self.modulus, octets=self.data[self.sent])
            self.sent, self.told = self.sent + 1, self.heard
        self.most_under_way = max(self.most_under_way, self.sent - self.acknowledged)
        if self.told < self.heard:
            self.send("ready", pr=self.heard % self.modulus)
            self.told = self.heard

    def turn(self):
        while packet := self.next_packet():
            self.hear(packet)
        self.answer()


# A call -------------------------------------------------------------------------------------------------------


def window_in(packet):
    """The windows that a packet tells, from the called and from the calling end."""
    return tuple(dict(cut(packet.block.facilities))[0x43])


def request(caller, called, window):
    asked = ASKS_FOR_CHARGING + bytes([0x43, window, window])
    caller.send("call", block=Block(called.address, "", asked, b""))


def set_up(caller, called, plan):
    """Calls and accepts. The moments before which the call was not connected, and from which on it was."""
    request(caller, called, plan.asked)
    for_windows = (plan.window, plan.window)
    incoming = called.receive("call")
    require(incoming.block.calling == caller.address, f"{called.name} is called by {incoming.block.calling}")
    require(window_in(incoming) == for_windows, f"{called.name} is told windows of {window_in(incoming)}")
    before = time.monotonic()
    called.send("accepted")
    connected = caller.receive("accepted")
    require(window_in(connected) == for_windows, f"{caller.name} is told windows of {window_in(connected)}")
    return before, time.monotonic()


def talk(ends):
    """Both ends send all their data."""
    with selectors.DefaultSelector() as selector:
        for end in ends:
            selector.register(end.connection, selectors.EVENT_READ, end)
            end.turn()
        while not all(end.is_through() for end in ends):
            ready = selector.select(PATIENCE)
            require(ready, f"nothing more comes: {[(end.name, end.sent, end.acknowledged, end.heard) for end in ends]}")
            for key, _ in ready:
                key.data.fill()
                key.data.turn()
    for end in ends:
        require(end.most_under_way == end.window, f"{end.name} had {end.most_under_way} of {end.window} packets under way")


def charged(packet):
    """The seconds and the segments, sent to the line and received from it, that a clear confirmation tells the payer."""
    told = dict(cut(packet.block.facilities if packet.block else b""))
    require(list(told) == [DURATION, SEGMENTS], f"the payer is told {packet}")
    days, hours, minutes, seconds = (int(f"{octet:02x}") for octet in told[DURATION])
    digits = told[SEGMENTS].hex()
    return ((days * 24 + hours) * 60 + minutes) * 60 + seconds, int(digits[:8]), int(digits[8:])


def clear(caller, called, diagnostic):
    """The caller, which pays, clears. What it is told of the call's charge."""
    caller.send("clear", cause=0, diagnostic=diagnostic)
    confirmation = caller.receive("clear confirmation")
    indication = called.receive("clear")
    require((indication.cause, indication.diagnostic, indication.block) == (0, diagnostic, None), f"{called.name} got {indication}")
    called.send("clear confirmation")
    called.rise()  # now it may be called again
    return charged(confirmation)


def play(ends, number, plan, packets, seconds):
    """One call, and the record that it has to have."""
    caller, called = ends[plan.caller], ends[plan.called]
    before, after = set_up(caller, called, plan)
    for end, far in ((caller, called), (called, caller)):
        end.begin(far, plan.window, [random.randbytes(random.randrange(MOST_OCTETS + 1)) for _ in range(packets)])
    talk((caller, called))
    took = time.monotonic() - after
    time.sleep(max(0, seconds - took))
    fewest = time.monotonic() - after - TOLERANCE
    duration, received, sent = clear(caller, called, number)
    most = time.monotonic() - before + TOLERANCE
    require(fewest <= duration <= most, f"the payer is told {duration} seconds of {fewest:.1f} to {most:.1f}")
    counted = [sum(segments(data) for data in end.data) for end in (caller, called)]
    require(counted == [sent, received], f"the payer is told {sent} and {received} segments of {counted}")
    print(
        f"{caller.name} (modulo {caller.modulus}) calls {called.name} (modulo {called.modulus}): windows of {plan.window}"
        f" for {plan.asked} asked, {packets:,} data packets each way in {took:.2f} s",
        flush=True,
    )
    return server.Record(number, caller.name, called.name, called.address, "caller", sent, received, 0, number, duration)


def refuse(ends, number):
    """A call that is refused. Its record is the last one that the exchange waits for."""
    caller, called = ends[REFUSED.caller], ends[REFUSED.called]
    request(caller, called, REFUSED.asked)
    print(f"{caller.name} (modulo {caller.modulus}) asks for windows of {REFUSED.asked}, and is refused")
    return server.Record(number, caller.name, "-", called.address, "caller", 0, 0, *REFUSAL, 0)


# The codec ----------------------------------------------------------------------------------------------------

# Packets as X.25 clauses 5.3 and 5.4 draw them, by modulus.
DRAWN = (
    (8, "1001464142", Packet("data", ps=3, pr=2, octets=b"AB")),
    (8, "d00110", Packet("data", q=True, d=True, more=True)),
    (8, "1001e1", Packet("ready", pr=7)),
    (8, "100125", Packet("not ready", pr=1)),
    (8, "100169", Packet("reject", pr=3)),
    (128, "200114ff4142", Packet("data", ps=10, pr=127, more=True, octets=b"AB")),
    (128, "e001fe00", Packet("data", q=True, d=True, ps=127)),
    (128, "20010110", Packet("ready", pr=8)),
    (128, "200105fe", Packet("not ready", pr=127)),
    (128, "20010902", Packet("reject", pr=1)),
    (128, "20010f", Packet("accepted")),
    (128, "2001130042", Packet("clear", cause=0, diagnostic=66)),
)
# Octets that are no packets, by modulus, with their diagnostics.
UNDRAWN = ((8, "200101", 40), (128, "100101", 40), (128, "200100", 38), (128, "200101", 38), (128, "20012100", 33), (128, "2001010000", 39))


def try_codec():
    """Reads and writes packets of both moduli, those above and all numbers."""
    for modulus, octets, packet in DRAWN:
        require(written(modulus, 1, packet).hex() == octets, f"{packet} is written {written(modulus, 1, packet).hex()}")
        require(read(modulus, bytes.fromhex(octets)) == (1, packet), f"{octets} is read {read(modulus, bytes.fromhex(octets))}")
    for modulus, octets, diagnostic in UNDRAWN:
        try:
            sys.exit(f"{octets} is read {read(modulus, bytes.fromhex(octets))}")
        except Wrong as wrong:
            require(wrong.diagnostic == diagnostic, f"{octets} is told {wrong.diagnostic}")
    require(read(128, bytes.fromhex("20010111")) == (1, Packet("ready", pr=8)), "bit 1 of octet 4 is not ignored")
    for modulus in (8, 128):
        numbered = [Packet(kind, pr=pr) for pr in range(modulus) for kind in ("ready", "not ready", "reject")]
        numbered += [Packet("data", more=bool(pr % 3), ps=ps, pr=pr, octets=b"A") for ps in range(modulus) for pr in range(modulus)]
        spelled = {written(modulus, 0xABC, packet): packet for packet in numbered}
        require(len(spelled) == len(numbered), f"two packets modulo {modulus} have one spelling")
        require(all(read(modulus, octets) == (0xABC, packet) for octets, packet in spelled.items()), f"a packet modulo {modulus}")


# The whole ----------------------------------------------------------------------------------------------------


def main():
    parser = argparse.ArgumentParser(description=__doc__.splitlines()[0])
    parser.add_argument("--xp", default=str(server.PROGRAM), help=f"the built program ({server.DEFAULT})")
    parser.add_argument("--packets", type=int, default=1_000, help="data packets each way in a call (default: 1000)")
    parser.add_argument("--seconds", type=float, default=4, help="how long a call lasts at least (default: 4)")
    parser.add_argument("--codec", action="store_true", help="try the packets of both moduli alone, without a program")
    arguments = parser.parse_args()

    try_codec()
    if arguments.codec:
        return print("packets of both moduli are read and written as they are drawn")
    require(arguments.packets >= 15, "a call has to have the packets of a window")
    wanted = len(PLANS) + 1
    with tempfile.TemporaryDirectory() as folder, server.Serving(arguments.xp, folder, len(STATIONS), subscriptions, wanted) as exchange:
        ends = {name: End(name, exchange.connect(exchange.base + place)) for place, name in enumerate(STATIONS)}
        for end in ends.values():
            end.rise()
        made = [play(ends, number, plan, arguments.packets, arguments.seconds) for number, plan in enumerate(PLANS, 1)]
        made.append(refuse(ends, wanted))
        records = exchange.records()
    require(records == made, "the records are not those of the calls:\n" + "\n".join(f"{record}" for record in (*records, *made)))
    print(f"{len(records)} records, with the segments and the seconds that the payer was told")


if __name__ == "__main__":
    main()
