#!/usr/bin/env python3
"""A good pair of lines beside hostile ones.

Twelve lines send frames, broken frames, calls and data as fast as they can, and one port is flooded with connections.
Beside them the two lines of a good pair have calls, one after the other, with data in both directions. Each octet has to
arrive, the packets of the good pair must not wait long, and the exchange's memory must stay as it was. README.md says what
is checked.
"""

import argparse
import multiprocessing
import os
import random
import socket
import struct
import sys
import tempfile
import time

import server
from server import CLEAR_CONFIRMATION, CLEAR_REQUEST, call_request, frame

HOSTILE = 12
ACCEPTED, READY = bytes.fromhex("10010f"), 0x01
WINDOW = 7
# Seconds that the good pair waits for a packet at most.
PATIENCE = 30


def subscriptions(base):
    """A good pair, g0 and g1, then the hostile lines, and the line whose port is flooded."""
    names = ["g0", "g1", *(f"x{number}" for number in range(HOSTILE)), "f0"]
    return "\n".join(
        f'[[station]]\naddress = "20{place:04}"\nline = [{{ name = "{name}", port = {base + place} }}]'
        for place, name in enumerate(names)
    )


def reset_on_close(connection):
    connection.setsockopt(socket.SOL_SOCKET, socket.SO_LINGER, struct.pack("ii", 1, 0))


# The hostile ones -----------------------------------------------------------------------------------------------


def nonsense(choose):
    """Many frames at once: packets of each kind, octets that are no packet, calls, data, now and then a broken head."""
    made = []
    for _ in range(100):
        kind = choose.randrange(6)
        if kind == 0:
            made.append(frame(call_request(f"20{choose.randrange(2, HOSTILE + 2):04}")))
        elif kind == 1:
            made.append(frame(bytes([0x10, 1, choose.randrange(256)]) + choose.randbytes(choose.randrange(130))))
        elif kind == 2:
            made.append(frame(choose.randbytes(choose.randrange(3, 40))))
        elif kind == 3:
            made.append(frame(ACCEPTED))
        elif kind == 4:
            made.append(frame(bytes([0x10, 1, choose.randrange(128) << 1]) + choose.randbytes(128)))
        else:
            made.append(frame(choose.choice((CLEAR_REQUEST, CLEAR_CONFIRMATION))))
    if choose.randrange(20) == 0:
        made.append(choose.randbytes(8))
    return b"".join(made)


def yield_to_others():
    """The hostile ones stand for other machines, so the processors are first for the exchange and the good pair."""
    os.nice(19)


def attack(port, seed, until):
    yield_to_others()
    choose = random.Random(seed)
    while time.monotonic() < until:
        try:
            with socket.create_connection(("127.0.0.1", port), timeout=1) as connection:
                connection.setblocking(False)
                send_all(connection, choose, until)
                if choose.randrange(2):
                    reset_on_close(connection)
        except OSError:
            time.sleep(0.001)


def send_all(connection, choose, until):
    """Sends as fast as the connection takes it, and reads little of what comes, until it is closed or long."""
    rest = b""
    for _ in range(choose.randrange(1, 20_000)):
        if time.monotonic() >= until:
            return
        rest = rest or nonsense(choose)
        try:
            rest = rest[connection.send(rest) :]
        except BlockingIOError:
            time.sleep(0.0005)
        if choose.randrange(2):
            try:
                if not connection.recv(65_536):
                    return
            except BlockingIOError:
                pass


def flood(port, until):
    """Opens connections as fast as it can, and drops them."""
    yield_to_others()
    while time.monotonic() < until:
        opened = []
        for _ in range(50):
            try:
                opened.append(socket.create_connection(("127.0.0.1", port), timeout=1))
            except OSError:
                break
        for connection in opened:
            reset_on_close(connection)
            connection.close()
        time.sleep(0.001)


# The good pair --------------------------------------------------------------------------------------------------


class End:
    def __init__(self, connection):
        self.connection, self.buffer = connection, b""
        connection.settimeout(PATIENCE)
        connection.setsockopt(socket.IPPROTO_TCP, socket.TCP_NODELAY, 1)

    def send(self, packet):
        self.connection.sendall(frame(packet))

    def receive(self):
        while len(self.buffer) < 4 or len(self.buffer) < 4 + int.from_bytes(self.buffer[2:4], "big"):
            octets = self.connection.recv(65_536)
            if not octets:
                sys.exit("the connection of a good line was closed")
            self.buffer += octets
        end = 4 + int.from_bytes(self.buffer[2:4], "big")
        packet, self.buffer = self.buffer[4:end], self.buffer[end:]
        return packet

    def expect(self, kind):
        packet = self.receive()
        if packet[2] != kind:
            sys.exit(f"a good line got {packet.hex()} where a packet of type {kind:02x} is due")
        return packet


def exchange_packet(sender, receiver, count, octets):
    """One data packet and its acknowledgement, and how long both took."""
    begun = time.monotonic()
    sender.send(bytes([0x10, 1, (count % 8) << 1]) + octets)
    packet = receiver.receive()
    if packet[3:] != octets or (packet[2] >> 1) & 7 != count % 8:
        sys.exit(f"{packet.hex()} came where {octets.hex()} was sent")
    receiver.send(bytes([0x10, 1, READY | ((count + 1) % 8) << 5]))
    sender.expect(READY | ((count + 1) % 8) << 5)
    return time.monotonic() - begun


def call(caller, called, choose, packets):
    """A call with so many packets from the caller. How long each took."""
    caller.send(call_request("200001"))
    called.expect(0x0B)
    called.send(ACCEPTED)
    caller.expect(0x0F)
    times = [exchange_packet(caller, called, count, choose.randbytes(128)) for count in range(packets)]
    caller.send(CLEAR_REQUEST)
    caller.expect(0x17)
    called.expect(0x13)
    called.send(CLEAR_CONFIRMATION)
    # a line without a call has its clear request confirmed: the line may be called again then
    called.send(CLEAR_REQUEST)
    called.expect(0x17)
    return times


def good_pair(exchange, seconds, packets, choose):
    ends = [End(exchange.connect(exchange.base + place)) for place in (0, 1)]
    for end in ends:
        end.send(CLEAR_REQUEST)
        end.expect(0x17)
    begun, told, times, calls, memory = time.monotonic(), 0, [], 0, []
    while (passed := time.monotonic() - begun) < seconds:
        times += call(*ends, choose, packets)
        calls += 1
        if passed >= told:
            memory.append(exchange.memory())
            mean = 1_000 * sum(times) / len(times)
            print(f"{passed:>7.0f} s {calls:>8,} calls {len(times):>10,} packets, {mean:.2f} ms in the mean, {memory[-1]:>13,} octets", flush=True)
            told += max(1, seconds / 20)
    return times, calls, memory


def main():
    parser = argparse.ArgumentParser(description=__doc__.splitlines()[0])
    parser.add_argument("seconds", type=float, help="how long")
    parser.add_argument("--xp", default=str(server.PROGRAM), help=f"the built program ({server.DEFAULT})")
    parser.add_argument("--packets", type=int, default=20, help="data packets of a good call (default: 20)")
    parser.add_argument("--most", type=float, default=5, help="milliseconds that an exchange of packets may take in the mean (default: 5)")
    parser.add_argument("--growth", type=float, default=10, help="percent by which the memory may grow after the first quarter (default: 10)")
    parser.add_argument("--seed", type=int, default=1)
    arguments = parser.parse_args()

    with tempfile.TemporaryDirectory() as folder, server.Serving(arguments.xp, folder, HOSTILE + 3, subscriptions, 10**12) as exchange:
        exchange.connect(exchange.base).close()
        time.sleep(1)
        until = time.monotonic() + arguments.seconds + 2
        hostile = [
            multiprocessing.Process(target=attack, args=(exchange.base + 2 + number, arguments.seed + number, until), daemon=True)
            for number in range(HOSTILE)
        ]
        hostile.append(multiprocessing.Process(target=flood, args=(exchange.base + 2 + HOSTILE, until), daemon=True))
        for one in hostile:
            one.start()
        times, calls, memory = good_pair(exchange, arguments.seconds, arguments.packets, random.Random(arguments.seed))
        used = exchange.processor()
        for one in hostile:
            one.join(10)
    times.sort()
    mean = 1_000 * sum(times) / len(times)
    print(f"{calls:,} calls and {len(times):,} packets of the good pair arrived; {mean:.2f} ms in the mean, {1_000 * times[len(times) * 99 // 100]:.2f} ms for 99 in 100")
    print(f"memory: {memory[len(memory) // 4]:,} octets after a quarter, {memory[-1]:,} in the end; {used:.0f} s of processor time on {os.cpu_count()} processors")
    if mean > arguments.most:
        sys.exit(f"an exchange of packets took more than {arguments.most} ms in the mean")
    if memory[-1] > memory[len(memory) // 4] * (1 + arguments.growth / 100):
        sys.exit(f"the memory grew by more than {arguments.growth:g} % after the first quarter")


if __name__ == "__main__":
    main()
