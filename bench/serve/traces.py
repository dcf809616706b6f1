#!/usr/bin/env python3
"""The trace of an exchange: the capture file of what lines send and get, the lines that are named, and a file that takes no more.

README.md says what is checked.
"""

import collections
import ipaddress
import os
import pathlib
import struct
import threading
import time

import server
from records_file import NAMES
from routers import ACCEPTED, CALL, CLEAR, CONFIRMATION, Router, XotCall
from server import CLEAR_CONFIRMATION, CLEAR_REQUEST, call_request, frame
from served import Served, data, refused, require, run_script, station

# The header of a capture file: version 2.4, big-endian, octets of IPv4.
FILE_HEADER = bytes.fromhex("a1b2c3d4 0002 0004 00000000 00000000 0000ffff 000000e4")
EXCHANGE, EXCHANGE_PORT = "10.0.0.1", 1998
FIRST_LINE, FIRST_PORT = ipaddress.IPv4Address("10.1.0.0"), 49152

FROM_LINE, TO_LINE = "from the line", "to the line"
ROUTER = "127.0.0.4"

# A packet of a capture file: its moment, the place of its line, the number of that line's connection, and the segment.
Piece = collections.namedtuple("Piece", "moment line connection way sequence acknowledged octets")


def checksum(octets):
    total = sum(struct.unpack(f">{len(octets) // 2}H", octets if len(octets) % 2 == 0 else octets[:-1]))
    total += octets[-1] << 8 if len(octets) % 2 else 0
    while total > 0xFFFF:
        total = (total & 0xFFFF) + (total >> 16)
    return total ^ 0xFFFF


def piece_of(moment, packet):
    """A packet of IPv4 with a segment of TCP, each field of which is looked at."""
    fixed, length, identifier, fragment, alive, protocol, _, source, target = struct.unpack(">HHHHBBH4s4s", packet[:20])
    require((fixed, length, identifier, fragment, alive, protocol) == (0x4500, len(packet), 0, 0x4000, 64, 6), f"a packet is {packet.hex()}")
    require(checksum(packet[:20]) == 0, f"the checksum of {packet[:20].hex()} is wrong")
    from_port, to_port, sequence, acknowledged, flags, window, _, urgent = struct.unpack(">HHIIHHHH", packet[20:40])
    require((flags, window, urgent) == (0x5018, 0xFFFF, 0), f"a segment is {packet[20:].hex()}")
    require(checksum(source + target + struct.pack(">HH", 6, length - 20) + packet[20:]) == 0, f"the checksum of {packet[20:].hex()} is wrong")
    ends = [(str(ipaddress.IPv4Address(address)), port) for address, port in ((source, from_port), (target, to_port))]
    way = TO_LINE if ends[0] == (EXCHANGE, EXCHANGE_PORT) else FROM_LINE
    line, exchange = ends if way == FROM_LINE else reversed(ends)
    require(exchange == (EXCHANGE, EXCHANGE_PORT), f"a segment goes from {ends[0]} to {ends[1]}")
    place = int(ipaddress.IPv4Address(line[0])) - int(FIRST_LINE)
    return Piece(moment, place, line[1] - FIRST_PORT, way, sequence, acknowledged, packet[40:])


def pieces_in(octets):
    """The pieces of a capture file, and how many octets stand behind the last whole one."""
    require(octets.startswith(FILE_HEADER), f"the file begins with {octets[:24].hex()}")
    pieces, rest = [], octets[24:]
    while len(rest) >= 16:
        moment, fraction, kept, length = struct.unpack(">IIII", rest[:16])
        require((fraction, kept) == (0, length), f"a packet's head is {rest[:16].hex()}")
        if len(rest) < 16 + kept:
            break
        pieces.append(piece_of(moment, rest[16:16 + kept]))
        rest = rest[16 + kept:]
    return pieces, len(rest)


def check_sequences(pieces):
    """Of each connection the octets of both ways go on from piece to piece, and each piece knows how far the other way is."""
    so_far = {}
    for piece in pieces:
        begins = 1 + 65_536 * piece.connection
        ways = so_far.setdefault((piece.line, piece.connection), {FROM_LINE: begins, TO_LINE: begins})
        other = TO_LINE if piece.way == FROM_LINE else FROM_LINE
        require((piece.sequence, piece.acknowledged) == (ways[piece.way], ways[other]), f"{piece} comes at {ways}")
        ways[piece.way] += len(piece.octets)


def streams_of(pieces):
    """Of each connection, in the order of the first pieces: its line, its number, and what passed, each way as long as it lasts."""
    streams = {}
    for piece in pieces:
        passed = streams.setdefault((piece.line, piece.connection), [])
        if passed and passed[-1][0] == piece.way:
            passed[-1] = piece.way, passed[-1][1] + piece.octets
        else:
            passed.append((piece.way, piece.octets))
    return [(line, connection, passed) for (line, connection), passed in streams.items()]


LINES = ("a1", "b1", "h1", "h2", "h3")


def subscriptions(base):
    ports = dict(zip(LINES, range(base, base + len(LINES))))
    return (
        station("200001", ("a1", ports["a1"], "")) + station("200002", ("b1", ports["b1"], ""))
        + station("200003", *((name, ports[name], "") for name in LINES[2:]))
    )


class Traced(Served):
    """An exchange of five lines that are traced into a file."""

    def __init__(self, program, folder, path, *words, limit=None):
        self.base = server.free_ports(len(LINES))
        super().__init__(program, folder, subscriptions(self.base), "--trace", path, *words, limit=limit)

    def line(self, name):
        return Watched(self.rise(self.base + LINES.index(name)).connection)


class Watched(XotCall):
    """A line that notes what it has sent and got, since it was up."""

    def __init__(self, connection):
        super().__init__(connection)
        self.passed = [(FROM_LINE, frame(CLEAR_REQUEST)), (TO_LINE, frame(CLEAR_CONFIRMATION))]

    def note(self, way, packet):
        if self.passed[-1][0] == way:
            self.passed[-1] = way, self.passed[-1][1] + frame(packet)
        else:
            self.passed.append((way, frame(packet)))

    def send(self, packet):
        super().send(packet)
        self.note(FROM_LINE, packet)

    def receive(self, *words):
        packet = super().receive(*words)
        if packet:
            self.note(TO_LINE, packet)
        return packet


def whole_call(caller, called, number="200002"):
    """A call with data, from its request to the last confirmation."""
    caller.send(call_request(number, user=b"\1\0\0\0"))
    called.expect(CALL)
    called.accept()
    caller.expect(ACCEPTED)
    for place in range(2):
        caller.send(data(place, 100 * b"x"))
        require(called.receive() == data(place, 100 * b"x"), "other data came")
    caller.clear()
    called.cleared()


# ---- the checks


def lines_of_their_own(program, folder):
    """The capture file of a line has what it sent and got, in order, of each of its connections, and has it while the exchange serves."""
    path = pathlib.Path(folder) / "own.pcap"
    path.write_bytes(FILE_HEADER + 100 * b"an older trace, which is replaced")
    begun = int(time.time())
    with Traced(program, folder, path, "--trace-lines", "a1") as exchange:
        lines, b1 = [exchange.line("a1")], exchange.line("b1")
        whole_call(lines[0], b1)
        lines[0].close()
        exchange.wait_until_told("line a1: down")
        lines.append(exchange.line("a1"))
        whole_call(lines[1], b1)
        time.sleep(0.5)
        is_there = path.read_bytes()
        require(exchange.end() == 0, f"it ended badly; {exchange.said()}")
        require(path.read_bytes() == is_there, "half a second behind the last packet the file has not had all")
    pieces, torn = pieces_in(is_there)
    check_sequences(pieces)
    wanted = [(0, number, line.passed) for number, line in enumerate(lines)]
    require((streams_of(pieces), torn) == (wanted, 0), f"the file has\n{streams_of(pieces)} in place of\n{wanted}")
    moments = [begun, *(piece.moment for piece in pieces), int(time.time())]
    require(moments == sorted(moments), f"the moments are {moments}")


# Words that name lines, and the lines that are traced then.
NAMED = (
    (("--trace-lines", "h3,b1"), "b1 h3"),
    (("--trace-lines", "a1,a1"), "a1"),
    (("--trace-lines", "a1,b1,h1,h2,h3"), "a1 b1 h1 h2 h3"),
    ((), "a1 b1 h1 h2 h3"),
)

# Names that no line has, and how they are told.
UNNAMED = (("", ""), ("a1,", ""), ("a1,c9,d9", "c9"), ("a1 ,b1", "a1 "), ("A1", "A1"))


def names(program, folder):
    """The lines that are named are traced, and no others; without names all are. A name that no line has is told, and nothing is served."""
    path = pathlib.Path(folder) / "names.pcap"
    for words, wanted in NAMED:
        with Traced(program, folder, path, *words) as exchange:
            for name in LINES:
                exchange.line(name)
            require(exchange.end() == 0, f"it ended badly; {exchange.said()}")
        pieces, _ = pieces_in(path.read_bytes())
        check_sequences(pieces)
        traced = " ".join(LINES[place] for place in sorted({piece.line for piece in pieces}))
        require(traced == wanted, f"with {words} the lines {traced} are traced")
    for text, told in UNNAMED:
        run = refused(program, folder, subscriptions(server.free_ports(len(LINES))), "--trace", path, "--trace-lines", text)
        require(run == (5, "", f"xp: trace-lines {told}\nno line of the subscription file has this name\n"), f"the names {text!r} end with {run}")
    status, printed, _ = refused(program, folder, subscriptions(server.free_ports(len(LINES))), "--trace-lines", "a1")
    require((status, printed) == (2, ""), f"names of lines without a file end with status {status}")


def lines_behind_a_router(program, folder):
    """Of a line behind a router each call's connection is traced, without the octets that come behind the call."""
    path = pathlib.Path(folder) / "router.pcap"
    base = server.free_ports(2)
    router = Router(ROUTER, base)
    text = (
        f"xot_port = {base}\n" + station("200002", ("b1", base + 1, ""))
        + f'[[station]]\naddress = "200004"\nline = [{{ name = "z", router = "{ROUTER}:{router.port}" }}]\n'
    )
    wanted = []
    with Served(program, folder, text, "--trace", path, "--trace-lines", "z") as exchange:
        b1 = exchange.rise(base + 1)
        router.listen()
        # A call of the router. What stands behind its clear belongs to no call.
        request = call_request("200002")
        call = router.connect()
        call.send(request)
        b1.expect(CALL)
        b1.accept()
        connected = call.expect(ACCEPTED)
        call.connection.sendall(frame(CLEAR_REQUEST) + frame(request))
        call.expect(CONFIRMATION)
        call.ends()
        b1.cleared()
        b1.clear()
        wanted.append([
            (FROM_LINE, frame(request)), (TO_LINE, frame(connected)), (FROM_LINE, frame(CLEAR_REQUEST)), (TO_LINE, frame(CLEAR_CONFIRMATION))
        ])
        # A call to the router.
        b1.send(call_request("200004"))
        call, incoming = router.called()
        call.accept()
        b1.expect(ACCEPTED)
        b1.clear()
        indication = call.expect(CLEAR)
        call.connection.sendall(frame(CLEAR_CONFIRMATION) + frame(request))
        call.ends()
        wanted.append([
            (TO_LINE, frame(incoming)), (FROM_LINE, frame(bytes.fromhex("10010f"))), (TO_LINE, frame(indication)),
            (FROM_LINE, frame(CLEAR_CONFIRMATION)),
        ])
        require(exchange.end() == 0, f"it ended badly; {exchange.said()}")
        router.leave()
    pieces, torn = pieces_in(path.read_bytes())
    check_sequences(pieces)
    wanted = [(1, number, passed) for number, passed in enumerate(wanted)]
    require((streams_of(pieces), torn) == (wanted, 0), f"the file has\n{streams_of(pieces)} in place of\n{wanted}")


def full_disk(program, folder):
    """A file that takes no more has all that was written before; it is told once, nothing is traced any more, and calls go on."""
    for path, told in ((pathlib.Path(folder) / "no-such-folder/a1.pcap", "cannot be made: "), ("/dev/full", "cannot be written")):
        status, printed, came = refused(program, folder, subscriptions(server.free_ports(len(LINES))), "--trace", path)
        require((status, printed) == (5, "") and came.startswith(f"xp: trace: {told}"), f"{path} ends with status {status}: {came}")
    path = pathlib.Path(folder) / "full.pcap"
    first = 24 + 16 + 40 + 9  # the octets of the file to the end of its first piece, a clear request
    for limit, has_room_again in ((first - 5, False), (first, False), (first + 60, False), (first + 300, True)):
        with Traced(program, folder, path, "--trace-lines", "a1", limit=limit) as exchange:
            a1, b1 = exchange.line("a1"), exchange.line("b1")
            for _ in range(3):
                whole_call(a1, b1)
                b1.clear()
            exchange.wait_until_told("trace: cannot be written: no line is traced any more")
            most = len(passed_of(a1, FROM_LINE))
            if has_room_again:
                exchange.limit_files(None)
            whole_call(a1, b1)
            require(exchange.end() == 0, f"it ended badly; {exchange.said()}")
            require(exchange.told().count("trace: ") == 1, f"it is not told once; {exchange.said()}")
        # As the file is closed, the piece at which it failed is written to its end, if there is room.
        size = path.stat().st_size
        require(size == limit or has_room_again and size > limit, f"the file has {size} octets of {limit}")
        pieces, _ = pieces_in(path.read_bytes())
        check_sequences(pieces)
        for way in (FROM_LINE, TO_LINE):
            traced = b"".join(piece.octets for piece in pieces if piece.way == way)
            require(passed_of(a1, way).startswith(traced) and len(traced) <= most, f"{traced.hex()} is no front of what passed {way}")


def passed_of(line, wanted):
    return b"".join(octets for way, octets in line.passed if way == wanted)


def files_that_are_kept(program, folder):
    """A file that is no capture, that is in use, or the file of call detail records: each is told, and is as it was; nothing is served."""
    def is_refused(path, why, *words):
        before = path.read_bytes()
        run = refused(program, folder, subscriptions(server.free_ports(len(LINES))), "--trace", path, *words)
        require(run == (5, "", f"xp: trace: {why}\n"), f"a trace to {path} ends with {run}")
        require(path.read_bytes() == before, f"{path} was changed")

    details, path = pathlib.Path(folder) / "calls.csv", pathlib.Path(folder) / "kept.pcap"
    details.write_text(NAMES)
    is_refused(details, "holds something else than a capture")
    is_refused(details, "is in use", "--cdr", details)
    other = pathlib.Path(folder) / "other.toml"
    other.write_text(subscriptions(server.free_ports(len(LINES))))
    is_refused(other, "holds something else than a capture")
    path.write_bytes(FILE_HEADER[:3])
    is_refused(path, "holds something else than a capture")
    path.unlink()
    with Traced(program, folder, path, "--trace-lines", "a1") as exchange:
        a1, b1 = exchange.line("a1"), exchange.line("b1")
        whole_call(a1, b1)
        # What waits for the file has been written by then.
        time.sleep(0.5)
        is_refused(path, "is in use")
        b1.clear()
        whole_call(a1, b1)
        require(exchange.end() == 0, f"it ended badly; {exchange.said()}")
    pieces, torn = pieces_in(path.read_bytes())
    require(torn == 0 and streams_of(pieces) == [(0, 0, a1.passed)], "the trace of the exchange that runs was cut off")
    # A port that is in use is told before the older trace goes.
    before = path.read_bytes()
    with server.socket.socket() as taken:
        taken.bind(("127.0.0.1", 0))
        taken.listen()
        base = taken.getsockname()[1]
        run = refused(program, folder, station("200001", ("a1", base, "")), "--trace", path)
    require(run == (5, "", f"xp: port a1\n127.0.0.1:{base}: Address already in use (os error 98)\n"), f"a port in use ends with {run}")
    require(path.read_bytes() == before, "the older trace is gone, and nothing was served")


def named_pipe(program, folder):
    """A trace goes to a named pipe as to a file."""
    path = pathlib.Path(folder) / "pipe"
    os.mkfifo(path)
    read = []
    reader = threading.Thread(target=lambda: read.append(path.read_bytes()), daemon=True)
    reader.start()
    with Traced(program, folder, path, "--trace-lines", "a1") as exchange:
        a1, b1 = exchange.line("a1"), exchange.line("b1")
        whole_call(a1, b1)
        require(exchange.end() == 0, f"it ended badly; {exchange.said()}")
    reader.join(10)
    pieces, torn = pieces_in(read[0])
    require(torn == 0 and streams_of(pieces) == [(0, 0, a1.passed)], f"the pipe got {read}")


CHECKS = (lines_of_their_own, names, lines_behind_a_router, full_disk, files_that_are_kept, named_pipe)


if __name__ == "__main__":
    run_script(__doc__, CHECKS)
