#!/usr/bin/env python3
"""Lines behind XOT routers, which have a TCP connection for each call (RFC 1613): their calls in both directions, calls from
both sides at once, and connections that are cut.

The routers are at 127.0.0.2, 127.0.0.3 and 127.0.0.4, and the exchange at 127.0.0.1. README.md says what is checked.
"""

import argparse
import collections
import contextlib
import itertools
import pathlib
import queue
import random
import socket
import subprocess
import sys
import tempfile
import threading
import time

import server
from server import CLEAR_CONFIRMATION, CLEAR_REQUEST, call_request, frame

EXCHANGE, FIRST, SECOND, THIRD, STRANGER = (f"127.0.0.{number}" for number in (1, 2, 3, 4, 9))

# The lines behind each of the first two routers.
LINES = 8

# Seconds for which an answer is waited for, and within which a connection that is to end has to.
PATIENCE, SOON = 10, 2

# Seconds within which a caller has to be told that a router can't be reached.
UNREACHABLE = 6

# Seconds for which a router is waited for, at least.
PATIENT = 4

# Seconds after which a line is in service again.
BREATH = 0.1

# The most seconds between two calls from both sides.
SPREAD = 0.002

CALL, ACCEPTED, CLEAR, CONFIRMATION = 0x0B, 0x0F, 0x13, 0x17

# What a call is told for which no line is free, and one to a line that calls itself.
BUSY, COLLIDED = (0x01, 71), (0x01, 72)


class Wrong(Exception):
    """What the exchange did is not what it has to do."""


class XotCall:
    """A connection with one call at a time: a router's, or that of a line with a port of its own."""

    def __init__(self, connection):
        self.connection = connection
        connection.setsockopt(socket.IPPROTO_TCP, socket.TCP_NODELAY, 1)

    def send(self, packet):
        self.connection.sendall(frame(packet))

    def octets(self, count, seconds):
        self.connection.settimeout(seconds)
        taken = b""
        while len(taken) < count:
            try:
                more = self.connection.recv(count - len(taken))
            except ConnectionError:
                return b""
            except TimeoutError:
                raise Wrong(f"nothing came in {seconds} seconds") from None
            if not more:
                return b""
            taken += more
        return taken

    def receive(self, seconds=PATIENCE):
        """The next packet; none at the end of the connection."""
        head = self.octets(4, seconds)
        return self.octets(int.from_bytes(head[2:], "big"), seconds) if head else b""

    def expect(self, kind, seconds=PATIENCE):
        """The next packet, which has to be of this kind."""
        packet = self.receive(seconds)
        if packet[2:3] != bytes([kind]):
            raise Wrong(f"{packet.hex() or 'the end of the connection'} came in place of a packet {kind:02x}")
        return packet

    def accept(self):
        self.send(b"\x10\x01\x0f")

    def clear(self):
        """Clears the call, which the exchange has to confirm."""
        self.send(CLEAR_REQUEST)
        self.expect(CONFIRMATION)

    def cleared(self):
        """The clear indication that comes, confirmed. Returns its cause and diagnostic."""
        packet = self.expect(CLEAR)
        self.send(CLEAR_CONFIRMATION)
        return packet[3], packet[4]

    def ends(self):
        """The exchange has to close the connection soon."""
        if packet := self.receive(SOON):
            raise Wrong(f"{packet.hex()} came in place of the end of the connection")
        self.connection.close()

    def close(self):
        self.connection.close()

    def drain(self):
        """Reads what comes until the connection ends, and closes it, as a host does. One that is closed already is left."""
        if self.connection.fileno() < 0:
            return
        self.connection.settimeout(PATIENCE)
        with contextlib.suppress(ConnectionError):
            while self.connection.recv(65_536):
                pass
        self.connection.close()

    def cut(self):
        """Ends the connection with a reset."""
        self.connection.setsockopt(socket.SOL_SOCKET, socket.SO_LINGER, b"\1\0\0\0\0\0\0\0")
        self.connection.close()


def token_in(packet):
    """The user data of an incoming call, which tells whose call it is."""
    lengths = packet[3]
    facilities = 4 + (lengths // 16 + lengths % 16 + 1) // 2
    return packet[facilities + 1 + packet[facilities]:]


class Router:
    """A router: it takes the exchange's connections at its address, and makes its own from there."""

    def __init__(self, address, exchange_port):
        self.address, self.exchange_port = address, exchange_port
        self.listener, self.calls = None, queue.Queue()
        with socket.create_server((address, 0)) as tried:
            self.port = tried.getsockname()[1]

    def listen(self):
        self.listener = socket.create_server((self.address, self.port), backlog=64)
        threading.Thread(target=self.take, args=(self.listener,), daemon=True).start()

    def leave(self):
        """Connections to it are refused from now on."""
        self.listener.shutdown(socket.SHUT_RDWR)  # ends the thread's accept
        self.listener.close()

    def take(self, listener):
        with contextlib.suppress(OSError):
            while True:
                self.calls.put(XotCall(listener.accept()[0]))

    def called(self):
        """The next call that the exchange places, with its incoming call packet."""
        try:
            call = self.calls.get(timeout=PATIENCE)
        except queue.Empty:
            raise Wrong(f"no connection came to {self.address}") from None
        if call is None:
            raise Wrong("no connection is to come")
        return call, call.expect(CALL)

    def connect(self):
        connection = socket.socket()
        connection.setsockopt(socket.SOL_SOCKET, socket.SO_REUSEADDR, 1)
        connection.bind((self.address, 0))
        connection.settimeout(PATIENCE)
        connection.connect((EXCHANGE, self.exchange_port))
        return XotCall(connection)

    def place(self, number, token):
        call = self.connect()
        with contextlib.suppress(ConnectionError):
            call.send(call_request(number, user=token))
        return call


class Exchange(server.Process):
    """`xp serve` over lines with ports of their own and lines behind routers, until its standard input ends."""

    def __init__(self, program, folder, stations):
        """`stations` makes the stations' text of the first port and of the routers' port."""
        if not pathlib.Path(program).is_file():
            sys.exit(f"there is no program {program}")
        self.base = server.free_ports(3)
        self.xot_port = self.base + 2
        self.errors, self.output = pathlib.Path(folder) / "errors", pathlib.Path(folder) / "output"
        self.routers = [Router(address, self.xot_port) for address in (FIRST, SECOND, THIRD)]
        file = pathlib.Path(folder) / "subscriptions.toml"
        file.write_text(f'host = "{EXCHANGE}"\nxot_port = {self.xot_port}\n\n' + stations(self.base, self.routers))
        with self.errors.open("w") as errors, self.output.open("w") as output:
            command = [str(program), "serve", str(file), "--until-eof"]
            self.process = subprocess.Popen(command, stdin=subprocess.PIPE, stdout=output, stderr=errors)

    def line(self, place):
        """The line with this port of its own, once it is up: a clear request without a call is confirmed, and counts for nothing. A
        connection that comes before the exchange has seen the end of the last one is refused, and is tried again."""
        for _ in range(100):
            line = XotCall(self.connect(self.base + place))
            with contextlib.suppress(ConnectionError):
                line.send(CLEAR_REQUEST)
            if packet := line.receive():
                if packet[2] != CONFIRMATION:
                    raise Wrong(f"{packet.hex()} came as a line was to be up")
                return line
            line.close()
            time.sleep(BREATH)
        raise Wrong("a line takes no connection")

    def stop(self):
        """Stops it. Returns its records."""
        self.process.stdin.close()
        try:
            status = self.process.wait(PATIENCE)
        except subprocess.TimeoutExpired:
            raise Wrong(f"it has not stopped in {PATIENCE} seconds") from None
        if status != 0:
            raise Wrong(f"it ended with status {status}; {self.said()}")
        return [server.read_record(line) for line in self.output.read_text().splitlines()]


def station(number, *lines):
    return f'[[station]]\naddress = "{number}"\nline = [{", ".join(lines)}]\n'


def own(name, port):
    return f'{{ name = "{name}", port = {port} }}'


def behind(name, router):
    return f'{{ name = "{name}", router = "{router.address}:{router.port}" }}'


# The addresses: two lines with ports, and those behind the routers.
CALLER, CALLED, BEHIND_FIRST, BEHIND_SECOND, BEHIND_THIRD = "200001", "200002", "300001", "300002", "300003"


def many_lines(base, routers):
    """Eight lines behind each of the first two routers, and one behind the third."""
    first, second = ([behind(f"{name}{number}", router) for number in range(LINES)] for name, router in zip("xy", routers))
    return (
        station(CALLER, own("c", base)) + station(CALLED, own("d", base + 1))
        + station(BEHIND_FIRST, *first) + station(BEHIND_SECOND, *second)
        + station(BEHIND_THIRD, behind("z", routers[2]))
    )


def one_line(base, routers):
    """One line behind the third router."""
    return station(CALLER, own("c", base)) + station(CALLED, own("d", base + 1)) + station(BEHIND_THIRD, behind("z", routers[2]))


TOKENS = (b"\xc0\0\0\0" + number.to_bytes(4, "big") for number in itertools.count())


def whole_call(caller, number, router):
    """A call from a line with a port of its own to a line behind a router: answered, and cleared by the caller."""
    token = next(TOKENS)
    caller.send(call_request(number, user=token))
    call, packet = router.called()
    if token_in(packet) != token:
        raise Wrong("the router got another call")
    call.accept()
    caller.expect(ACCEPTED)
    caller.clear()
    call.cleared()
    call.ends()


# ---- the checks. Each returns how many records its calls have.


def eight_at_once(exchange):
    """Each of eight calls from one router to another has two connections of its own. A ninth is refused."""
    first, second, _ = exchange.routers
    tokens = [next(TOKENS) for _ in range(LINES)]
    callers = {token: first.place(BEHIND_SECOND, token) for token in tokens}
    called = {}
    for _ in tokens:
        call, packet = second.called()
        if token_in(packet) not in callers or token_in(packet) in called:
            raise Wrong("a call came twice, or is none of the eight")
        called[token_in(packet)] = call
        call.accept()
    for token in tokens:
        callers[token].expect(ACCEPTED)
    ninth = first.place(BEHIND_SECOND, next(TOKENS))
    if ninth.cleared() != BUSY:
        raise Wrong("a call of a router whose lines all have one was not refused as busy")
    ninth.ends()
    caller = exchange.line(0)
    caller.send(call_request(BEHIND_SECOND))
    if caller.cleared() != BUSY:
        raise Wrong("a call to a router whose lines all have one was not refused as busy")
    for token in tokens:
        callers[token].send(bytes.fromhex("100100") + token)
        if called[token].receive()[3:] != token:
            raise Wrong("data came by another call")
    for place, token in enumerate(tokens):
        # Either end clears, and the exchange closes both connections.
        ends = [callers[token], called[token]]
        clears, is_told = ends if place % 2 == 0 else reversed(ends)
        clears.send(CLEAR_REQUEST)
        while clears.receive()[2:3] != bytes([CONFIRMATION]):
            pass  # the acknowledgement of its data
        is_told.cleared()
        clears.ends()
        is_told.ends()
    caller.close()
    return LINES + 1


def one_after_the_other(exchange):
    """A call follows the one before at once, in both directions, and each finds its line."""
    caller, (first, second, third) = exchange.line(0), exchange.routers
    third.listen()
    for _ in range(200):
        whole_call(caller, BEHIND_THIRD, third)
    for _ in range(200):
        token = next(TOKENS)
        call = third.place(BEHIND_FIRST, token)
        at_first, packet = first.called()
        if token_in(packet) != token:
            raise Wrong("the router got another call")
        at_first.accept()
        call.expect(ACCEPTED)
        at_first.clear()
        call.cleared()
        call.ends()
        at_first.ends()
    third.leave()
    caller.close()
    return 400


def not_listening(exchange):
    """A router that refuses connections, or does not answer: its caller is told, and the line serves the next call."""
    caller, third = exchange.line(0), exchange.routers[2]
    begun = time.monotonic()
    caller.send(call_request(BEHIND_THIRD))
    if caller.cleared() != (0x09, 0):
        raise Wrong("a router that refuses connections is not out of order")
    refused = time.monotonic() - begun
    time.sleep(BREATH)
    # A listener whose queue is full: connections to it are neither made nor refused.
    with socket.create_server((third.address, third.port), backlog=0) as full, contextlib.ExitStack() as waiting:
        for _ in range(4):
            connection = waiting.enter_context(socket.socket())
            connection.setblocking(False)
            connection.connect_ex((third.address, third.port))
        time.sleep(BREATH)
        begun = time.monotonic()
        caller.send(call_request(BEHIND_THIRD))
        if caller.cleared() != (0x09, 0):
            raise Wrong("a router that does not answer is not out of order")
        silent = time.monotonic() - begun
        full.close()
    if max(refused, silent) > UNREACHABLE or silent < PATIENT:
        raise Wrong(f"the caller was told after {refused:.1f} and {silent:.1f} seconds")
    time.sleep(BREATH)
    third.listen()
    whole_call(caller, BEHIND_THIRD, third)
    third.leave()
    caller.close()
    print(f"  told after {refused:.1f} and {silent:.1f} seconds")
    return 3


def stranger(exchange):
    """A connection from an address that is no router's is closed at once."""
    connection = socket.socket()
    connection.bind((STRANGER, 0))
    connection.connect((EXCHANGE, exchange.xot_port))
    XotCall(connection).ends()
    time.sleep(1)
    if STRANGER not in exchange.errors.read_text():
        raise Wrong("the log does not tell of it")
    return 0


def cut_in_each_state(exchange):
    """A connection is cut in each state of its line. Then the line serves the next call."""
    caller, called, third = exchange.line(0), exchange.line(1), exchange.routers[2]
    third.listen()
    records = 0

    def next_call():
        nonlocal records
        time.sleep(BREATH)
        whole_call(caller, BEHIND_THIRD, third)
        records += 1

    for cut in (XotCall.close, XotCall.cut):
        # The line is in p1, and the connection has brought no octet, or a part of a header.
        cut(third.connect())
        next_call()
        call = third.connect()
        call.connection.sendall(b"\0\0\0")
        time.sleep(BREATH)
        cut(call)
        next_call()
        # p2: the router's call rings.
        call = third.place(CALLED, next(TOKENS))
        called.expect(CALL)
        cut(call)
        if called.cleared() != (0x09, 0):
            raise Wrong("the called line was not told that the caller's router is gone")
        next_call()
        # p3: the router is called.
        caller.send(call_request(BEHIND_THIRD))
        call, _ = third.called()
        cut(call)
        if caller.cleared() != (0x09, 0):
            raise Wrong("the caller was not told that the router is gone")
        next_call()
        # p4, and p7: the call is connected, or cleared and not confirmed.
        for is_cleared in (False, True):
            caller.send(call_request(BEHIND_THIRD))
            call, _ = third.called()
            call.accept()
            caller.expect(ACCEPTED)
            if is_cleared:
                caller.clear()
                call.expect(CLEAR)
                cut(call)
            else:
                cut(call)
                if caller.cleared() != (0x09, 0):
                    raise Wrong("the caller was not told that the router is gone")
            next_call()
        # The router clears, and does not wait for the confirmation.
        caller.send(call_request(BEHIND_THIRD))
        call, _ = third.called()
        call.accept()
        caller.expect(ACCEPTED)
        call.send(CLEAR_REQUEST)
        call.close()
        if caller.cleared()[0] != 0x00:
            raise Wrong("the caller was not told that the router has cleared")
        next_call()
        records += 5
    third.leave()
    caller.close()
    called.close()
    return records


def collect(line, tokens, cleared):
    """Accepts each call to a line with a port of its own, and confirms that it is cleared, which is counted."""
    with contextlib.suppress(Wrong, OSError):
        while packet := line.receive(3600):
            if packet[2] == CALL:
                tokens.append(token_in(packet))
                line.accept()
            elif packet[2] == CLEAR:
                line.send(CLEAR_CONFIRMATION)
                cleared.release()


def glare_round(exchange, caller, delay):
    """A call to the router's line and one from the router. Returns what became of both, and the token of the second."""
    third, (ours, theirs) = exchange.routers[2], (next(TOKENS), next(TOKENS))
    outcome = {}

    def from_router():
        try:
            time.sleep(max(0, delay))
            call = third.place(CALLED, theirs)
            peer = "%s:%d" % call.connection.getsockname()
            answer = call.receive()
            if answer[2:3] == bytes([ACCEPTED]):
                call.clear()
                call.ends()
                outcome["router"] = "connected"
            elif answer[2:3] == bytes([CLEAR]) and (answer[3], answer[4]) == BUSY:
                call.send(CLEAR_CONFIRMATION)
                call.ends()
                outcome["router"], outcome["refused"] = "refused 01/71", peer
            else:
                raise Wrong(f"the router's call was answered by {answer.hex() or 'the end of its connection'}")
        except Wrong as wrong:
            outcome["wrong"] = wrong
            outcome["router"] = "wrong"

    def at_router():
        try:
            call, packet = third.called()
            if token_in(packet) != ours:
                raise Wrong("the router got another call")
            call.accept()
            call.cleared()
            call.ends()
        except Wrong as wrong:
            outcome["wrong at router"] = wrong

    router = threading.Thread(target=from_router)
    router.start()
    time.sleep(max(0, -delay))
    caller.send(call_request(BEHIND_THIRD, user=ours))
    taker = threading.Thread(target=at_router)
    taker.start()
    answer = caller.receive()
    if answer[2:3] == bytes([ACCEPTED]):
        caller.clear()
        outcome["caller"] = "connected"
    elif answer[2:3] == bytes([CLEAR]) and (answer[3], answer[4]) in (BUSY, COLLIDED):
        caller.send(CLEAR_CONFIRMATION)
        outcome["caller"] = f"refused {answer[3]:02x}/{answer[4]}"
        third.calls.put(None)
    else:
        raise Wrong(f"the caller was answered by {answer.hex() or 'the end of its connection'}")
    taker.join()
    router.join()
    if outcome["caller"] != "connected":
        outcome.pop("wrong at router", None)
    for wrong in ("wrong", "wrong at router"):
        if wrong in outcome:
            raise outcome[wrong]
    return outcome, theirs


def glare(exchange, rounds, choose):
    """The router calls while it is called, again and again: each call is served or refused, once, and by its own line."""
    caller, called, third = exchange.line(0), exchange.line(1), exchange.routers[2]
    third.listen()
    taken, outcomes, expected, refused, cleared = [], collections.Counter(), [], [], threading.Semaphore(0)
    threading.Thread(target=collect, args=(called, taken, cleared), daemon=True).start()
    for _ in range(rounds):
        outcome, theirs = glare_round(exchange, caller, choose.uniform(-SPREAD, SPREAD))
        outcomes[outcome["caller"], outcome["router"]] += 1
        if outcome["router"] == "refused 01/71":
            refused.append(outcome["refused"])
        if outcome["router"] == "connected":
            expected.append(theirs)
            if not cleared.acquire(timeout=PATIENCE):
                raise Wrong("the called line was not told that the router has cleared")
        time.sleep(SPREAD)
    if taken != expected:
        raise Wrong(f"{len(taken)} calls of the router came to the called line, and {len(expected)} were answered")
    for (ours, theirs), count in sorted(outcomes.items()):
        print(f"  {count:5} times: the call to the router {ours}, the router's own {theirs}")
    third.leave()
    caller.close()
    called.close()
    return rounds + len(expected) + len(refused) - count_without_line(exchange, refused)


def count_without_line(exchange, peers):
    """How many of these connections were refused since no line was free, as is told. Their calls have no record."""
    time.sleep(0.5)
    told = exchange.errors.read_text()
    return sum(f"routers: connection from {peer} refused: no line is free\n" in told for peer in peers)


def play(program, stations, checks):
    """Runs checks against one exchange, whose records have to be those of their calls."""
    with tempfile.TemporaryDirectory() as folder, Exchange(program, folder, stations) as exchange:
        first, second, _ = exchange.routers
        first.listen()
        second.listen()
        exchange.line(0).close()
        time.sleep(0.5)
        wanted = 0
        for check in checks:
            try:
                wanted += check(exchange)
            except Wrong as wrong:
                sys.exit(f"{check.__name__}: {wrong}; {exchange.said()[-1500:]}")
            print(f"{check.__name__}: {check.__doc__}", flush=True)
        try:
            records = exchange.stop()
        except Wrong as wrong:
            sys.exit(str(wrong))
        if len(records) != wanted or len({record.number for record in records}) != wanted:
            sys.exit(f"{len(records)} records of {wanted} calls")
        print(f"{wanted:,} calls, each with one record")


def main():
    parser = argparse.ArgumentParser(description=__doc__.splitlines()[0])
    parser.add_argument("--xp", default=str(server.PROGRAM), help=f"the built program ({server.DEFAULT})")
    parser.add_argument("--rounds", type=int, default=1_000, help="calls from both sides at once (default: 1,000)")
    parser.add_argument("--seed", type=int, help="what the delays follow from (default: at random)")
    arguments = parser.parse_args()

    seed = random.SystemRandom().randrange(1 << 32) if arguments.seed is None else arguments.seed
    print(f"seed {seed}", flush=True)

    def both_sides(exchange):
        return glare(exchange, arguments.rounds, random.Random(seed))

    both_sides.__doc__ = glare.__doc__
    both_sides.__name__ = glare.__name__
    play(arguments.xp, many_lines, (eight_at_once, one_after_the_other, not_listening, stranger, cut_in_each_state))
    play(arguments.xp, one_line, (both_sides,))


if __name__ == "__main__":
    main()
