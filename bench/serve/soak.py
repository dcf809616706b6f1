#!/usr/bin/env python3
"""A long run of `xp serve` with calls that come and go at random, and random data in both directions.

In the end each call must have one record, with the segments that were sent and the seconds that it was connected, and
the memory must have grown by the records alone. README.md says what is checked. The seed fixes what is chosen, not when the exchange answers.
"""

import argparse
import heapq
import itertools
import random
import selectors
import socket
import sys
import tempfile
import time

import calls
import server

# What a host knows of its line. Rising: connected, and not known to be up yet.
DOWN, RISING, IDLE, CALLING, TALKING, CLEARING = range(6)

CALL, ACCEPTED, CLEAR, CONFIRMATION, READY = 0x0B, 0x0F, 0x13, 0x17, 0x01

# Calls begun in a second for each pair of lines, at most; seconds between two packets of an end, on average.
RATE, GAP = 0.8, 0.04

# Seconds after which a line connects again whose connection was refused, since the exchange had yet to see the end of the last one.
AGAIN = 0.05

# The most memory for an event: a call's record is kept until serving ends, one for some fifty events.
OCTETS = 20

SAMPLES = 20

# The threads that serve no line: they take the records, keep them, and attend to the lines.
OTHER_THREADS = 3

# Seconds within which all threads have to be there.
PATIENCE = 60


class Line:
    """A line as its host sees it."""

    def __init__(self, name, number, port):
        self.name, self.number, self.port = name, number, port
        self.state, self.socket, self.buffer, self.was_up = DOWN, None, b"", False
        self.leave()

    def enter(self, call, side, state):
        self.call, self.side, self.state = call, side, state
        self.sent = self.acknowledged = self.received = 0  # data packets
        self.window = 2

    def leave(self):
        self.call = self.side = None


class Soak:
    def __init__(self, exchange, pairs, wanted, seconds, seed):
        self.exchange, self.wanted, self.seconds = exchange, wanted, seconds
        self.choose = random.Random(seed)
        self.lines = [
            Line(f"{side}{pair}", f"{address}{pair:04}", exchange.base + 2 * pair + place)
            for pair in range(pairs)
            for place, (side, address) in enumerate((("a", "20"), ("b", "30")))
        ]
        self.calls, self.over, self.events = [], 0, 0
        self.timers, self.order = [], itertools.count()
        self.selector = selectors.DefaultSelector()
        self.samples = []

    # Time -----------------------------------------------------------------------------------------------------

    def after(self, seconds, act, *given):
        heapq.heappush(self.timers, (time.monotonic() + seconds, next(self.order), act, given))

    def run_until(self, is_done, patience):
        """Acts on what comes and what is due."""
        last = time.monotonic() + patience
        while not is_done():
            now = time.monotonic()
            if now > last:
                self.fail("nothing more comes")
            while self.timers and self.timers[0][0] <= now:
                _, _, act, given = heapq.heappop(self.timers)
                act(*given)
            pause = max(0, self.timers[0][0] - time.monotonic()) if self.timers else 1
            for key, _ in self.selector.select(min(pause, 1)):
                self.read(key.data)

    def fail(self, what):
        sys.exit(f"soak: {what}; {len(self.calls)} calls begun, {self.over} over; {self.exchange.said()}")

    # Connections ----------------------------------------------------------------------------------------------

    def connect(self, line):
        if self.all_begun():
            return
        line.socket, line.buffer, line.state = self.exchange.connect(line.port), b"", RISING
        line.socket.setsockopt(socket.IPPROTO_TCP, socket.TCP_NODELAY, 1)
        self.selector.register(line.socket, selectors.EVENT_READ, line)
        self.events += 1
        self.send(line, server.CLEAR_REQUEST)

    def disconnect(self, line):
        self.selector.unregister(line.socket)
        line.socket.close()
        line.state = DOWN
        self.events += 1
        self.break_off(line)
        self.leave(line)

    def closed(self, line):
        """The exchange closes connections of itself only when its last record is made, or where it has yet to see the end of the line's
        last one."""
        if line.state == RISING and line.was_up:
            self.after(AGAIN, self.connect, line)
        elif not self.all_begun():
            self.fail(f"the exchange closed the connection of {line.name}")
        if line.state != DOWN:
            self.disconnect(line)

    def send(self, line, packet):
        self.events += 1
        try:
            line.socket.sendall(server.frame(packet))
        except OSError:
            self.closed(line)

    def read(self, line):
        try:
            octets = line.socket.recv(65_536)
        except OSError:
            octets = b""
        if not octets:
            return self.closed(line)
        line.buffer += octets
        while line.state != DOWN and len(line.buffer) >= 4:
            end = 4 + int.from_bytes(line.buffer[2:4], "big")
            if len(line.buffer) < end:
                break
            packet, line.buffer = line.buffer[4:end], line.buffer[end:]
            self.receive(line, packet)

    # Calls ----------------------------------------------------------------------------------------------------

    def all_begun(self):
        return len(self.calls) == self.wanted

    def begin_calls(self):
        """As many as are due by now; where no line is idle they wait."""
        due = min(self.wanted, int((time.monotonic() - self.begun) * self.wanted / self.seconds) + 1)
        idle = [line for line in self.lines if line.state == IDLE]
        self.choose.shuffle(idle)
        while len(self.calls) < due and len(idle) > 1:
            self.begin(idle.pop(), idle.pop().number)
        if not self.all_begun():
            self.after(0.01, self.begin_calls)

    def begin(self, caller, dialled):
        """One in twenty-five calls is to nobody, and one to a line that may be in a call."""
        chance = self.choose.randrange(25)
        if chance == 0:
            dialled = "99"
        elif chance == 1:
            dialled = self.choose.choice([line for line in self.lines if line is not caller]).number
        call = calls.Call(len(self.calls), caller, dialled, self.choose)
        self.calls.append(call)
        caller.enter(call, 0, CALLING)
        window = self.choose.randrange(8)
        facilities = bytes([0x43, window, window]) if window else b""
        self.send(caller, server.call_request(dialled, facilities, call.number.to_bytes(4, "big")))

    def leave(self, line):
        call = line.call
        line.leave()
        if call:
            call.ends -= 1
            call.left_at = time.monotonic()
            self.over += call.ends == 0

    def break_off(self, line):
        """The line ends its call, if it is in one and its far end did not before."""
        if line.call and line.call.broken_at is None:
            line.call.broken_at = time.monotonic()

    def talk(self, line):
        """The line's end of its call is connected."""
        call, line.state = line.call, TALKING
        call.talking += 1
        self.after(self.choose.expovariate(1 / GAP), self.send_data, line, call)
        if call.plan in ("abrupt", "cut") and line.side == call.breaks:
            self.after(self.choose.uniform(0, GAP * calls.PACKETS / 2), self.end, line, call)
        self.end_if_all_is_delivered(call)

    def end_if_all_is_delivered(self, call):
        """Then one end clears, if none did before, whatever the plan."""
        if call.talking == 2 and not any(call.left) and not any(call.under_way):
            self.after(self.choose.uniform(0, GAP), self.end, self.choose.choice([call.caller, call.called]), call)

    def end(self, line, call):
        if line.call is not call or line.state != TALKING:
            return
        if call.plan == "cut":
            self.disconnect(line)
            self.after(self.choose.uniform(0.05, 0.5), self.connect, line)
        else:
            self.clear(line)

    def clear(self, line):
        """What the line sent before is accepted before its clear request is."""
        line.state = CLEARING
        line.call.before_clear[line.side] = line.call.sent[line.side]
        self.break_off(line)
        self.send(line, bytes([0x10, 1, CLEAR, 0, self.choose.randrange(256)]))

    def send_data(self, line, call):
        if line.call is not call or line.state != TALKING or call.left[line.side] == 0:
            return
        if line.sent - line.acknowledged < line.window:
            data = self.choose.randbytes(self.choose.randrange(129))
            head = bytes([0x10, 1, line.received % 8 << 5 | line.sent % 8 << 1])
            line.sent += 1
            call.left[line.side] -= 1
            call.sent[line.side] += calls.segments(data)
            call.under_way[line.side].append(data)
            self.send(line, head + data)
        self.after(self.choose.expovariate(1 / GAP), self.send_data, line, call)

    # Packets --------------------------------------------------------------------------------------------------

    def receive(self, line, packet):
        kind = packet[2]
        if kind & 1 == 0:
            self.receive_data(line, packet)
        elif kind & 0x1F == READY and line.state in (TALKING, CLEARING):
            self.acknowledge(line, kind >> 5)
        elif kind == CALL:
            self.receive_call(line, packet)
        elif kind == ACCEPTED and line.state == CALLING:
            line.window, line.call.connected_at = packet[-1], time.monotonic()
            self.talk(line)
        elif kind == CLEAR:
            self.receive_clear(line, packet)
        elif kind == CONFIRMATION and line.state in (RISING, CLEARING):
            line.state, line.was_up = IDLE, True
            self.leave(line)
        else:
            self.fail(f"{line.name} got {packet.hex()}, which is not due")

    def receive_call(self, line, packet):
        """A line that has just called, or asked whether it is up, prevails over a call to it."""
        if line.state in (CALLING, RISING):
            return
        if line.state != IDLE:
            self.fail(f"{line.name} got a call while in one")
        digits = (packet[3] & 15) + (packet[3] >> 4)
        facilities = 4 + (digits + 1) // 2
        user = facilities + 1 + packet[facilities]
        call = self.calls[int.from_bytes(packet[user:], "big")]
        if call.called or call.dialled != line.number:
            self.fail(f"{line.name} got the call {call.number} to {call.dialled}")
        call.called, call.ends = line, call.ends + 1
        line.enter(call, 1, IDLE)
        if call.plan == "refused":
            return self.clear(line)
        line.window, call.accepted_at = packet[user - 1], time.monotonic()
        self.send(line, bytes([0x10, 1, ACCEPTED]))
        if line.call is call:
            self.talk(line)

    def receive_clear(self, line, packet):
        """Through with the call, unless the line's own clear request is on its way: then the exchange takes this for
        the confirmation."""
        if line.call is None:
            self.fail(f"{line.name} got {packet.hex()} without a call")
        line.call.told = packet[3], packet[4]
        if line.state != CLEARING:
            self.send(line, server.CLEAR_CONFIRMATION)
        if line.state != DOWN:
            line.state = IDLE
            self.leave(line)

    def receive_data(self, line, packet):
        if line.state not in (TALKING, CLEARING):
            self.fail(f"{line.name} got data without a call")
        far, call = 1 - line.side, line.call
        is_next = packet[2] >> 1 & 7 == line.received % 8
        if not is_next or not call.under_way[far] or call.under_way[far].popleft() != packet[3:]:
            self.fail(f"{line.name} got other data than was sent to it: {packet.hex()}")
        call.delivered[far] += calls.segments(packet[3:])
        line.received += 1
        self.acknowledge(line, packet[2] >> 5)
        if line.state == TALKING:
            self.send(line, bytes([0x10, 1, line.received % 8 << 5 | READY]))
        self.end_if_all_is_delivered(call)

    def acknowledge(self, line, number):
        line.acknowledged += (number - line.acknowledged) % 8
        if line.acknowledged > line.sent:
            self.fail(f"{line.name} had a packet acknowledged that it has not sent")

    # The whole ------------------------------------------------------------------------------------------------

    def sample(self):
        passed, memory = time.monotonic() - self.begun, self.exchange.memory()
        live = sum(line.state == TALKING for line in self.lines) // 2
        print(f"{passed:>8.1f} s {self.events:>12,} events {len(self.calls):>9,} calls {live:>5} live {memory:>15,} octets", flush=True)
        self.samples.append((self.events, memory))
        if not self.all_begun():
            self.after(self.seconds / SAMPLES, self.sample)

    def run(self):
        for line in self.lines:
            self.connect(line)
        self.run_until(lambda: all(line.state == IDLE for line in self.lines), 60)
        self.begun = time.monotonic()
        self.sample()
        self.begin_calls()
        self.run_until(lambda: self.over == self.wanted, 1.5 * self.seconds + 120)


def check_memory(samples, most):
    """The octets for an event in each half of the run. What the threads take at first is in the first half."""
    halves = [samples[0], samples[len(samples) // 2], samples[-1]]
    growth = [(end[1] - begin[1]) / max(1, end[0] - begin[0]) for begin, end in zip(halves, halves[1:])]
    print(f"memory: {growth[0]:,.0f} octets an event in the first half, {growth[1]:,.0f} in the second, at most {most:,}")
    if growth[1] > most:
        sys.exit("the memory grows by more than the records")


def check_threads(exchange, asked, lines):
    """There are as many threads as were asked for, beside those that serve no line."""
    if asked is None:
        return
    wanted = lines if asked == "lines" else min(int(asked), lines)
    last = time.monotonic() + PATIENCE
    while exchange.threads() != wanted + OTHER_THREADS:
        if time.monotonic() > last:
            sys.exit(f"soak: {exchange.threads()} threads, not {wanted} for the lines and {OTHER_THREADS} others; {exchange.said()}")
        time.sleep(0.05)


def main():
    parser = argparse.ArgumentParser(description=__doc__.splitlines()[0])
    parser.add_argument("seconds", type=float, help="how long calls begin")
    parser.add_argument("--xp", default=str(server.PROGRAM), help=f"the built program ({server.DEFAULT})")
    parser.add_argument("--pairs", type=int, default=server.MOST_PAIRS, help="pairs of lines (default: 128)")
    parser.add_argument("--seed", type=int, help="what the choices follow from (default: at random)")
    parser.add_argument("--threads", help="`--threads` of the exchange (default: without it)")
    parser.add_argument("--growth", type=int, default=OCTETS, help=f"octets of memory for an event in the second half (default: {OCTETS})")
    arguments = parser.parse_args()

    seed = random.SystemRandom().randrange(1 << 32) if arguments.seed is None else arguments.seed
    wanted = max(1, int(RATE * arguments.pairs * arguments.seconds))
    print(f"seed {seed}, {2 * arguments.pairs} lines, {wanted:,} calls in {arguments.seconds:g} seconds", flush=True)
    words = ("--threads", arguments.threads) if arguments.threads else ()
    with tempfile.TemporaryDirectory() as folder, server.Exchange(arguments.xp, folder, arguments.pairs, wanted, words) as exchange:
        soak = Soak(exchange, arguments.pairs, wanted, arguments.seconds, seed)
        check_threads(exchange, arguments.threads, 2 * arguments.pairs)
        soak.run()
        records = exchange.records()
    calls.check(soak.calls, records)
    calls.tell(soak.calls, records)
    check_memory(soak.samples, arguments.growth)


if __name__ == "__main__":
    main()
