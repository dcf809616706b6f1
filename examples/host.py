#!/usr/bin/env python3
"""Takes calls over TCP: host.py PORT, as host.py 19982 for the line b1 of three-stations.toml, or host.py ADDRESS:PORT.

The exchange opens connections to XOT routers alone, so a host that wants to be called keeps its line connected: it connects anew when its
connection is gone. It accepts each incoming call, acknowledges what it gets, and confirms that the call is cleared; then the next call may
come. Ctrl-C ends it.
"""
import socket
import sys
import time

USAGE = "usage: python3 {0} [ADDRESS:]PORT, as python3 {0} 19982"
NOBODY = "nobody listens at {}:{}: start the exchange first: ./xp serve examples/three-stations.toml"

# A machine that has lost its power tells nobody. So the system asks it after so many seconds of silence, again each second, and gives the
# connection up where nothing is answered or acknowledged for so many milliseconds.
ASKING = {socket.TCP_KEEPIDLE: 2, socket.TCP_KEEPINTVL: 1, socket.TCP_KEEPCNT: 2, socket.TCP_USER_TIMEOUT: 3000}


def receive(line):
    """The next packet, or no octets at the end of the connection. It comes as a frame: version 0, the packet's length, the packet."""
    head = line.recv(4, socket.MSG_WAITALL)
    packet = line.recv(int.from_bytes(head[2:], "big"), socket.MSG_WAITALL)
    if 0 < len(head) < 4 or len(packet) < int.from_bytes(head[2:], "big"):
        raise ConnectionError
    return packet


def send(line, packet):
    line.sendall(bytes([0, 0, 0, len(packet)]) + packet)


def take_calls(line):
    while packet := receive(line):
        channel, kind = packet[:2], packet[2]
        if kind == 0x0B:  # incoming call
            print("called, by", packet.hex())
            send(line, b"\x10" + channel[1:] + b"\x0f")  # call accepted
        elif kind & 1 == 0:  # data, with P(S) in bits 4 to 2
            print("data:", packet[3:])
            following = ((kind >> 1) + 1) % 8
            send(line, b"\x10" + channel[1:] + bytes([following << 5 | 0x01]))  # receive ready, with P(R) in bits 8 to 6
        elif kind == 0x13:  # clear indication
            print(f"cleared: cause {packet[3]:02x}, diagnostic {packet[4]}")
            send(line, b"\x10" + channel[1:] + b"\x17")  # clear confirmation
        elif kind == 0x1B:  # reset indication
            send(line, b"\x10" + channel[1:] + b"\x1f")  # reset confirmation


def connect(where):
    line = socket.create_connection(where, timeout=2)
    line.settimeout(None)
    line.setsockopt(socket.SOL_SOCKET, socket.SO_KEEPALIVE, 1)
    for option, value in ASKING.items():
        line.setsockopt(socket.IPPROTO_TCP, option, value)
    print("connected, and waiting for a call", flush=True)
    return line


def connect_anew(where):
    while True:
        time.sleep(0.5)
        try:
            return connect(where)
        except OSError:
            pass


def main(words):
    try:
        [word] = words
        address, _, port = word.rpartition(":")
        where = address.strip("[]") or "127.0.0.1", int(port)
        if not 0 < where[1] < 65536:
            raise ValueError
    except ValueError:
        print(USAGE.format(sys.argv[0]), file=sys.stderr)
        return 2
    try:
        line = connect(where)
    except ConnectionRefusedError:
        return NOBODY.format(*where)
    while True:
        with line:
            try:
                take_calls(line)
                print("the exchange has closed the connection: connecting anew", flush=True)
            except OSError:
                print("the connection broke off: connecting anew", flush=True)
        line = connect_anew(where)


if __name__ == "__main__":
    try:
        sys.exit(main(sys.argv[1:]))
    except KeyboardInterrupt:
        sys.exit("stopped")
