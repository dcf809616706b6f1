#!/usr/bin/env python3
"""What a script comes to, by a plain model of the exchange (docs/PROTOCOL.md), written beside the program and not from it.

It is whole for a call's data transfer and its charging: both moduli, windows, flow control, interrupts, resets, segments,
duration. Of the rest it knows what calls need: lines that come and go, also as other subscriptions come into force, calls
between stations without groups and redirection, refusals, fast select, packet and window sizes, clearing, procedure errors.
A script that asks for more is beyond it, and it says so.

    model.py FOLDER ..          compares what rows expect with what the model says
    model.py --write FOLDER ..  writes that as what they expect
"""

import argparse
import pathlib
import sys
import tomllib
from dataclasses import dataclass, field

from packets import Block, Packet, Wrong, framed, read, written

USUAL_SIZES, USUAL_WINDOWS = (7, 7), (2, 2)
MOST_SEGMENTS = 99_999_999
LARGEST_WINDOWS = {8: 7, 128: 15}  # of a line's modulus
MOST_SECONDS = 100 * 24 * 60 * 60 - 1  # that are told: 99 days, 23:59:59
KNOWN_KEYS = {"address", "line", "fast_select", "reverse_charging"}  # of a station that takes and makes calls


class Beyond(Exception):
    """The model does not know what comes of this."""


# A call

IDLE, HELD, PUT_OUT = "idle", "held", "put out"


@dataclass
class Direction:
    """What one end sends to the other, since the call was last reset."""

    size: int  # most octets of a packet
    window: int
    modulus: int  # the sender's
    far_modulus: int  # the receiver's
    accepted: list = field(default_factory=list)
    put: int = 0  # how many of them were put out to the receiver
    acknowledged: int = 0  # how many of those it acknowledged
    interrupt: str = IDLE
    interruption: bytes = b""
    ready: bool = True  # the receiver's state
    owes: bool = False  # the receiver owes a reset confirmation
    segments: int = 0  # since the call began

    def reset(self, owes):
        self.accepted, self.put, self.acknowledged = [], 0, 0
        self.interrupt, self.ready, self.owes = IDLE, True, owes

    def counts(self, number):
        """What a P(R) of the receiver may stand for."""
        return [count for count in range(self.acknowledged, self.put + 1) if count % self.far_modulus == number]


@dataclass
class Call:
    number: int
    caller: object
    called: object
    dialled: str
    sizes: tuple  # from the called, from the calling end
    windows: tuple
    reverse: bool
    fast: int  # bits 8 and 7 of the facility: 2 where fast select is unrestricted, 3 where it is restricted
    charging: set  # the ends that asked for charging information
    sent_by: dict = None  # a Direction for each end, once the call is answered
    connected: int = 0  # the moment at which it was answered

    def far(self, line):
        return self.called if line is self.caller else self.caller


class Transfer:
    """What one packet of one end does during a call. What it puts out stands in `here` and `there`."""

    def __init__(self, sent, received):
        self.sent, self.received = sent, received
        self.here, self.there = [], []

    def act(self, packet):
        name = packet.kind
        if self.received.owes and name not in ("reset", "reset confirmation"):
            return
        {
            "data": self.data,
            "ready": self.flow,
            "not ready": self.flow,
            "reject": lambda _: self.error(37),
            "interrupt": self.interrupt,
            "interrupt confirmation": self.confirm_interrupt,
            "reset": self.reset,
            "reset confirmation": self.confirm_reset,
        }[name](packet)

    def fault_of(self, packet):
        """The diagnostic of a data packet that is not accepted."""
        sent = self.sent
        if packet.ps != len(sent.accepted) % sent.modulus or len(sent.accepted) - sent.acknowledged >= sent.window:
            return 1
        if not self.received.counts(packet.pr):
            return 2
        return 39 if len(packet.octets) > sent.size else None

    def data(self, packet):
        fault = self.fault_of(packet)
        if fault:
            return self.error(fault)
        sent, received = self.sent, self.received
        sent.accepted.append(packet)
        before, received.acknowledged = received.acknowledged, received.counts(packet.pr)[0]
        self.there += released(sent, received.acknowledged)
        if received.acknowledged != before and not self.there:
            self.tell()

    def flow(self, packet):
        received = self.received
        counts = received.counts(packet.pr)
        if not counts:
            return self.error(2)
        before = received.acknowledged, received.ready
        received.acknowledged, received.ready = counts[0], packet.kind == "ready"
        self.here += released(received, self.sent.acknowledged)
        if (received.acknowledged, received.ready) != before:
            self.tell()

    def tell(self):
        """The far end is told of this end's count and whether it is ready."""
        if not self.sent.owes:
            self.there.append(flow_packet(self.received))

    def interrupt(self, packet):
        sent = self.sent
        if sent.interrupt != IDLE:
            return self.error(44)
        sent.interruption = packet.octets
        sent.interrupt = HELD if sent.owes else PUT_OUT
        if not sent.owes:
            self.there.append(packet)

    def confirm_interrupt(self, packet):
        if self.received.interrupt != PUT_OUT:
            return self.error(43)
        self.received.interrupt = IDLE
        self.there.append(packet)

    def error(self, diagnostic):
        self.here.append(Packet("reset", cause=5, diagnostic=diagnostic))
        self.indicate(3, diagnostic)
        self.sent.reset(owes=True)
        self.received.reset(owes=True)

    def indicate(self, cause, diagnostic):
        if not self.sent.owes:
            self.there.append(Packet("reset", cause=cause, diagnostic=diagnostic))

    def reset(self, packet):
        if self.received.owes:
            return self.settle()
        self.here.append(Packet("reset confirmation"))
        self.indicate(packet.cause if packet.cause >= 0x80 else 0, packet.diagnostic or 0)
        self.sent.reset(owes=True)
        self.received.reset(owes=False)

    def confirm_reset(self, packet):
        return self.settle() if self.received.owes else self.error(27)

    def settle(self):
        """This end owes no reset confirmation any more, and gets what was held for it."""
        received = self.received
        received.owes = False
        if not self.sent.ready:
            self.here.append(flow_packet(self.sent))
        if received.interrupt == HELD:
            received.interrupt = PUT_OUT
            self.here.append(Packet("interrupt", octets=received.interruption))
        self.here += released(received, self.sent.acknowledged)


def flow_packet(direction):
    """What tells the sender of its receiver."""
    return Packet("ready" if direction.ready else "not ready", pr=direction.acknowledged % direction.modulus)


def released(direction, acknowledged):
    """The data that goes out now, where its receiver takes data, numbered as the receiver numbers."""
    if direction.owes or not direction.ready:
        return []
    first, direction.put = direction.put, len(direction.accepted)
    numbered, modulus = enumerate(direction.accepted[first:], first), direction.far_modulus
    return [packet._replace(ps=count % modulus, pr=acknowledged % modulus) for count, packet in numbered]


# The exchange

@dataclass(eq=False)
class Line:
    name: str
    address: str
    station: dict
    modulus: int
    access: object  # its port or its router
    state: str = "off"
    identifier: int = 1
    stream: bytes = b""
    call: Call = None


class Refused(Exception):
    """A call request or an answer is not taken, for this reason."""

    def __init__(self, cause, diagnostic):
        self.cause, self.diagnostic = cause, diagnostic


OFFERED = {0x01, 0x02, 0x03, 0x04, 0x09, 0x42, 0x43, 0x47, 0x48}
KNOWN_CODES = {0x01, 0x04, 0x42, 0x43}
MARKS = {b"\x00", b"\x0f", b"\xff"}


def cut(field):
    """The items of a facility field, as codes and values."""
    found = []
    while field:
        code = field[0]
        length = 2 + (code >> 6) if code < 0xC0 else 2 + (field[1] if len(field) > 1 else 0)
        if len(field) < length:
            raise Refused(0x13, 69)
        found.append((code, field[1 if code < 0xC0 else 2 : length]))
        field = field[length:]
    return found


def items(field):
    """The values of fast select and reverse charging, packet sizes, window sizes and the request of charging information."""
    listed = cut(field)
    marks = [place for place, (code, _) in enumerate(listed) if code == 0]
    found = dict(listed[: marks[0]] if marks else listed)
    if found.keys() - OFFERED:
        raise Refused(0x03, 65)
    if any(value not in MARKS for code, value in listed if code == 0):
        raise Refused(0x03, 66)
    for code, lawful in ((0x42, range(4, 13)), (0x43, range(1, 16))):
        if any(octet not in lawful for octet in found.get(code, b"")):
            raise Refused(0x03, 66)
    if marks or found.keys() - KNOWN_CODES:
        raise Beyond(f"facilities {field.hex()}")
    return {code: tuple(value) for code, value in found.items()}


class Exchange:
    def __init__(self, subscriptions, tables):
        """`tables` are the subscriptions that lines of the script may bring, by their names."""
        self.tables = tables
        # The line of each place, and the places' moduli.
        self.places = self.read(subscriptions)
        self.moduli = [line.modulus for line in self.places]
        for key, modulus in (("spare_lines", 8), ("spare_lines_128", 128)):
            self.moduli += [modulus] * subscriptions.get(key, 0)
        self.places += [None] * (len(self.moduli) - len(self.places))
        self.limit = subscriptions.get("segment_limit", MOST_SEGMENTS)
        self.calls = self.moment = 0

    def read(self, subscriptions, known_lines=()):
        """The lines of subscriptions, which are in force from now on. A line that stays is one of those that are known."""
        stay = {(line.name, line.access): line for line in known_lines if line}
        self.lines, self.beyond, self.targets = {}, set(), {}
        for station in subscriptions["station"]:
            known = not station.keys() - KNOWN_KEYS
            for entry in station["line"]:
                own, access = entry.get("address", station["address"]), entry.get("port") or entry["router"]
                line = stay.get((entry["name"], access)) or Line(entry["name"], None, station, entry.get("modulus", 8), access)
                line.address, line.station = own if known else None, station
                self.lines[line.name] = line
                for address in {station["address"], own}:
                    self.targets.setdefault(address, []).append(line)
                if not known:
                    self.beyond |= {station["address"], own}
        return list(self.lines.values())

    def reload(self, subscriptions):
        """Other subscriptions come into force: the lines that go are given up, in the order of places, and then others come."""
        if any(station.keys() - KNOWN_KEYS for station in subscriptions["station"]):
            raise Beyond("keys of subscriptions that come into force")
        entries = {entry["name"]: entry for station in subscriptions["station"] for entry in station["line"]}
        for line in filter(None, self.places):
            entry = entries.get(line.name)
            if not entry or (entry.get("port") or entry["router"]) != line.access:
                self.down(line)
        before, self.places = self.places, [None] * len(self.places)
        later = []
        for line in self.read(subscriptions, before):
            was = [place for place, old in enumerate(before) if old and old.name == line.name]
            if was and self.moduli[was[0]] != line.modulus:
                raise Beyond("a line of another modulus")
            if was:
                self.places[was[0]] = line
            else:
                later.append(line)
        for line in later:
            free = [place for place, other in enumerate(self.places) if not other and self.moduli[place] == line.modulus]
            if not free:
                raise Beyond("a line without a place")
            self.places[free[0]] = line

    def play(self, text):
        """What a line of a script comes to, as lines."""
        words = text.split()
        if not words or text.startswith("#"):
            return []
        self.told = []
        if words[0] == "at":
            self.moment = int(words[1])
            return []
        if words[0] == "tables":
            self.reload(self.tables[words[1]])
            return self.told
        line = self.lines[words[1]]
        if words[0] == "up" and line.state == "off":
            line.state, line.identifier, line.stream = "p1", 1, b""
        elif words[0] == "down":
            self.down(line)
        elif words[0] == "expire" and line.state == "p3":
            self.fail(line, 49, charged=False)
        elif words[0] == "in" and line.state != "off":
            self.feed(line, bytes.fromhex(words[2]))
        return self.told

    def feed(self, line, octets):
        line.stream += octets
        while len(line.stream) >= 4:
            version, length = line.stream[:2], int.from_bytes(line.stream[2:4], "big")
            if version != b"\0\0" or not 3 <= length <= 1028:
                return self.down(line)
            if len(line.stream) < 4 + length:
                return
            packet, line.stream = line.stream[4 : 4 + length], line.stream[4 + length :]
            self.take(line, packet)

    def out(self, line, packet):
        self.told.append(f"out {line.name} {framed(written(line.modulus, line.identifier, packet)).hex()}")

    def take(self, line, octets):
        if line.state == "p7":
            if self.is_freeing(line, octets):
                line.state = "p1"
            return
        try:
            identifier, packet = read(line.modulus, octets)
        except Wrong as wrong:
            return self.fail(line, wrong.diagnostic)
        kind = packet.kind
        if kind == "clear":
            self.clear(line, packet)
        elif kind == "call" and line.state in ("p1", "p3"):
            self.request(line, identifier, packet)
        elif kind == "accepted" and line.state == "p3":
            self.answer(line, packet)
        elif line.state == "p4" and kind not in ("call", "accepted", "clear confirmation"):
            self.transfer(line, packet)
        else:
            self.fail(line, {"p1": 20, "p2": 21, "p3": 22, "p4": 23}[line.state])

    @staticmethod
    def is_freeing(line, octets):
        try:
            return read(line.modulus, octets)[1].kind in ("clear", "clear confirmation")
        except Wrong:
            return False

    def request(self, line, identifier, packet):
        if line.state != "p1" or line.address is None:
            raise Beyond("this call request")
        self.calls += 1
        line.identifier = identifier
        try:
            self.ring(line, packet)
        except Refused as refused:
            cause, diagnostic = refused.cause, refused.diagnostic
            self.indicate_clear(line, cause, diagnostic)
            dialled = packet.block.called or "-"
            self.told.append(f"record {self.calls} {line.name} - {dialled} caller 0 0 {cause:02x} {diagnostic} 0")

    def ring(self, line, packet):
        """The call goes to the line of the dialled address, or is refused."""
        block = packet.block
        asked = items(block.facilities)
        fast, reverse = asked.get(0x01, (0,))[0] >> 6, asked.get(0x01, (0,))[0] & 1
        fast = fast if fast > 1 else 0
        windows = asked.get(0x43, USUAL_WINDOWS)
        if max(windows) > LARGEST_WINDOWS[line.modulus]:
            raise Refused(0x03, 66)
        if len(block.user) > 16 and not fast:
            raise Refused(0x13, 39)
        found = self.taken(line, block.called, fast, reverse)
        sizes = tuple(min(size, 10) for size in asked.get(0x42, USUAL_SIZES))
        windows = tuple(min(window, LARGEST_WINDOWS[found.modulus]) for window in windows)
        charging = {line} if asked.get(0x04, (0,))[0] & 1 else set()
        call = Call(self.calls, line, found, block.called, sizes, windows, bool(reverse), fast, charging)
        line.call = found.call = call
        line.state, found.state, found.identifier = "p2", "p3", 1
        told = (bytes([1, fast << 6 | reverse]) if fast or reverse else b"") + self.told_sizes(call)
        self.out(found, packet._replace(block=Block(found.address, line.address, told, block.user)))

    def taken(self, caller, address, fast, reverse):
        """The line that rings: the first idle one of the address."""
        if address in self.beyond:
            raise Beyond("this address")
        lines = self.targets.get(address)
        if not lines:
            raise Refused(0x0D, 67)
        if reverse and not lines[0].station.get("reverse_charging"):
            raise Refused(0x19, 0)
        if fast and not lines[0].station.get("fast_select"):
            raise Refused(0x29, 0)
        for line in lines:
            if line.state == "p1" and line is not caller:
                return line
        raise Refused(0x09, 0) if all(line.state == "off" for line in lines) else Refused(0x01, 71)

    @staticmethod
    def told_sizes(call):
        return bytes([0x42, *call.sizes, 0x43, *call.windows])

    def answer(self, line, packet):
        call, block = line.call, packet.block or Block("", "", b"", b"")
        if call.fast == 3:
            return self.fail(line, 42)
        try:
            given = items(block.facilities)
        except Refused as refused:
            return self.fail(line, refused.diagnostic)
        if block.user and not call.fast:
            return self.fail(line, 39)
        for code, mine, usual in ((0x42, call.sizes, USUAL_SIZES), (0x43, call.windows, USUAL_WINDOWS)):
            for value, told, plain in zip(given.get(code, mine), mine, usual):
                if not min(told, plain) <= value <= max(told, plain):
                    return self.fail(line, 66)
        call.sizes, call.windows = given.get(0x42, call.sizes), given.get(0x43, call.windows)
        if given.get(0x04, (0,))[0] & 1:
            call.charging.add(line)
        agreed = zip((call.called, call.caller), call.sizes, call.windows)
        call.sent_by = {
            end: Direction(2**size, window, end.modulus, call.far(end).modulus) for end, size, window in agreed
        }
        call.connected, call.caller.state, line.state = self.moment, "p4", "p4"
        address, modified = (line.address, b"\x08\x07") if line.address != call.dialled else ("", b"")
        told = Block(address, "", modified + self.told_sizes(call), block.user)
        self.out(call.caller, Packet("accepted", d=packet.d, block=told))

    def transfer(self, line, packet):
        call = line.call
        far = call.far(line)
        turn = Transfer(call.sent_by[line], call.sent_by[far])
        accepted = packet.kind == "data" and not turn.received.owes and not turn.fault_of(packet)
        if accepted and not self.counted(turn.sent, packet):
            return self.congested(line, far)
        turn.act(packet)
        for end, packets in ((line, turn.here), (far, turn.there)):
            for each in packets:
                self.out(end, each)

    def counted(self, sent, packet):
        """Counts a packet that is accepted; says whether the limit allows it."""
        more = max(1, -(-len(packet.octets) // 64))
        if sent.segments + more > self.limit:
            return False
        sent.segments += more
        return True

    def congested(self, line, far):
        for end in (line, far):
            self.indicate_clear(end, 5, 0, self.charge_of(line.call, end))
        self.end(line.call, 5, 0)

    # Endings

    def charge_of(self, call, line):
        """The facility field that tells the payer what the call cost."""
        payer = call.called if call.reverse else call.caller
        if not call.sent_by or line is not payer or line not in call.charging:
            return b""
        minutes, seconds = divmod(min(self.seconds_of(call), MOST_SECONDS), 60)
        hours, minutes = divmod(minutes, 60)
        days, hours = divmod(hours, 24)
        duration = f"{days:02}{hours:02}{minutes:02}{seconds:02}"
        segments = f"{call.sent_by[call.far(line)].segments:08}{call.sent_by[line].segments:08}"
        return b"\xc1\x04" + bytes.fromhex(duration) + b"\xc2\x08" + bytes.fromhex(segments)

    def seconds_of(self, call):
        """How long a call that ends now was connected."""
        return max(self.moment - call.connected, 0) if call.sent_by else 0

    def indicate_clear(self, line, cause, diagnostic, facilities=b"", user=b""):
        block = Block("", "", facilities, user) if facilities or user else None
        self.out(line, Packet("clear", cause=cause, diagnostic=diagnostic, block=block))
        line.state = "p7"

    def clear(self, line, packet):
        call, cause = line.call, packet.cause if packet.cause >= 0x80 else 0
        facilities = self.charge_of(call, line) if call else b""
        self.out(line, Packet("clear confirmation", block=Block("", "", facilities, b"") if facilities else None))
        line.state = "p1"
        if call:
            block = packet.block if call.fast else None
            if block and block.facilities:
                raise Beyond("facilities of a clear request")
            self.end_for(call.far(line), cause, packet.diagnostic or 0, block.user if block else b"")

    def fail(self, line, diagnostic, charged=True):
        """A procedure error, or with 49 an expiry."""
        call = line.call
        self.indicate_clear(line, 0x13, diagnostic, self.charge_of(call, line) if call and charged else b"")
        if call:
            self.end_for(call.far(line), 0x11, diagnostic)

    def down(self, line):
        call, was = line.call, line.state
        line.state = "off"
        if call and was != "off":
            self.end_for(call.far(line), 9, 0)

    def end_for(self, far, cause, diagnostic, user=b""):
        self.indicate_clear(far, cause, diagnostic, self.charge_of(far.call, far), user)
        self.end(far.call, cause, diagnostic)

    def end(self, call, cause, diagnostic):
        segments = [call.sent_by[end].segments if call.sent_by else 0 for end in (call.caller, call.called)]
        payer = "called" if call.reverse else "caller"
        names = f"{call.caller.name} {call.called.name} {call.dialled} {payer}"
        self.told.append(f"record {call.number} {names} {segments[0]} {segments[1]} {cause:02x} {diagnostic} {self.seconds_of(call)}")
        call.caller.call = call.called.call = None


def text_of(folder):
    """What the script of a row comes to."""
    if (folder / "status").exists():
        raise Beyond("a replay that ends with a fault")
    tables = {path.name: tomllib.loads(path.read_text()) for path in folder.glob("tables/*")}
    exchange = Exchange(tomllib.loads((folder / "subs.toml").read_text()), tables)
    lines = (folder / "script").read_text().splitlines()
    return "".join(told + "\n" for line in lines for told in exchange.play(line))


def main():
    parser = argparse.ArgumentParser(description=__doc__.splitlines()[0])
    parser.add_argument("folders", nargs="+", type=pathlib.Path, metavar="FOLDER", help="rows, as in crates/xp_rows/data")
    parser.add_argument("--write", action="store_true", help="write what the model says as what the row expects")
    arguments = parser.parse_args()
    other = 0
    for folder in arguments.folders:
        try:
            text = text_of(folder)
        except (Beyond, OSError, ValueError, KeyError, IndexError) as reason:
            print(f"{folder.name}: beyond the model: {reason!r}")
            continue
        if arguments.write:
            (folder / "expected").write_text(text)
        same = text == (folder / "expected").read_text()
        other += not same
        print(f"{folder.name}: {'as expected' if same else 'the model says another thing'}")
    sys.exit(1 if other else 0)


if __name__ == "__main__":
    main()
