#!/usr/bin/env python3
"""Places a call over TCP: client.py PORT ADDRESS, as client.py 19981 2080020 for the line a1 of three-stations.toml. Where the exchange is
on another machine, HOST:PORT takes the place of PORT.

It sends some data once the call is accepted, and clears. Where the call is refused, it tells the cause and the diagnostic as
docs/PROTOCOL.md writes them.
"""
import socket
import sys

USAGE = "usage: python3 {0} [HOST:]PORT ADDRESS, as python3 {0} 19981 2080020"
NOBODY = "nobody listens at {}:{}: start the exchange first: ./xp serve examples/three-stations.toml"


def receive(line):
    """The next packet. It comes as a frame: version 0, the packet's length, the packet."""
    head = line.recv(4, socket.MSG_WAITALL)
    packet = line.recv(int.from_bytes(head[2:], "big"), socket.MSG_WAITALL)
    if not packet or len(packet) < int.from_bytes(head[2:], "big"):
        raise ConnectionError
    return packet


def ask(line, what, packet):
    """Sends a packet as a frame, and shows what comes back."""
    print(f"{what:<14}{packet.hex()}")
    line.sendall(bytes([0, 0, 0, len(packet)]) + packet)
    answer = receive(line)
    print(f"  answered by {answer.hex()}")
    if answer[2] == 0x13:  # clear indication
        print(f"{'refused' if what == 'call request' else 'cleared'}: cause {answer[3]:02x}, diagnostic {answer[4]}")
    return answer


def place_call(line, address):
    digits = bytes.fromhex(address + "0" * (len(address) % 2))
    connected = ask(line, "call request", bytes([0x10, 1, 0x0B, len(address)]) + digits + b"\0")
    if connected[2] == 0x0F:
        ask(line, "data", b"\x10\x01\x00" + b"Hello over X.25")  # answered once the far end has taken it
        ask(line, "clear request", b"\x10\x01\x13\0\0")


def main(words):
    try:
        word, address = words
        host, _, port = word.rpartition(":")
        where = host.strip("[]") or "127.0.0.1", int(port)
        if not (0 < where[1] < 65536 and address.isascii() and address.isdigit() and len(address) <= 15):
            raise ValueError
    except ValueError:
        print(USAGE.format(sys.argv[0]), file=sys.stderr)
        return 2
    try:
        line = socket.create_connection(where)
    except ConnectionRefusedError:
        return NOBODY.format(*where)
    with line:
        try:
            place_call(line, address)
        except ConnectionError:
            return "the exchange has closed the connection"
    return 0


if __name__ == "__main__":
    try:
        sys.exit(main(sys.argv[1:]))
    except KeyboardInterrupt:
        sys.exit("stopped")
