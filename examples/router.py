#!/usr/bin/env python3
"""A small XOT router: router.py OWN EXCHANGE [[CALLER:]ADDRESS ..], as router.py 127.0.0.2:1998 127.0.0.1:1998 2080010:2080020.

Each call has a TCP connection of its own, which the side opens that places the call (RFC 1613). The router takes calls at its
own address and port, accepts each, and acknowledges what it gets. It places a call to each ADDRESS at the exchange's
`xot_port`, from its own address, by which the exchange knows it; sends some data, and clears. Then it goes on taking calls.
Lines behind it have `router = "127.0.0.2:1998"` in the subscription file. Where these are lines of several stations, the
calling address CALLER says whose the call is; without it the call is the `default_caller`'s.
"""
import socket
import sys
import threading


def receive(call):
    """The next packet, or no octets at the end of the connection."""
    head = call.recv(4, socket.MSG_WAITALL)
    return call.recv(int.from_bytes(head[2:], "big"), socket.MSG_WAITALL)


def send(call, packet):
    call.sendall(bytes([0, 0, 0, len(packet)]) + packet)  # as a frame: version 0 and the packet's length


def ask(call, what, packet):
    """Sends a packet, and shows what comes back."""
    send(call, packet)
    answer = receive(call)
    print(f"{what:<14}{packet.hex()}\n  answered by {answer.hex() or 'the end of the connection'}")
    return answer


def take(call):
    """One call that the exchange has placed: the first packet is the incoming call."""
    with call:
        while packet := receive(call):
            channel, kind = packet[:2], packet[2]
            if kind == 0x0B:  # incoming call
                print("called, by", packet.hex())
                send(call, channel + b"\x0f")  # call accepted
            elif kind & 1 == 0:  # data, with P(S) in bits 4 to 2
                print("data:", packet[3:])
                following = ((kind >> 1) + 1) % 8
                send(call, b"\x10" + channel[1:] + bytes([following << 5 | 0x01]))  # receive ready, with P(R) in bits 8 to 6
            elif kind == 0x13:  # clear indication
                print(f"cleared, cause {packet[3]:02x}, diagnostic {packet[4]}")
                send(call, channel + b"\x17")  # clear confirmation, after which the exchange closes the connection
            elif kind == 0x1B:  # reset indication
                send(call, channel + b"\x1f")  # reset confirmation


def place(own, exchange, addresses):
    """A call of the router's own, to an address, with a calling address in front or without."""
    caller, _, address = addresses.rpartition(":")
    with socket.create_connection(exchange, source_address=(own, 0)) as call:
        digits = address + caller
        lengths = 16 * len(caller) + len(address)
        octets = bytes.fromhex(digits + "0" * (len(digits) % 2))
        answer = ask(call, "call request", bytes([0x10, 1, 0x0B, lengths]) + octets + b"\0")
        if answer[2:3] == b"\x0f":
            ask(call, "data", b"\x10\x01\x00" + b"Hello over X.25")  # answered once the far end has taken it
            ask(call, "clear request", b"\x10\x01\x13\0\0")
        elif answer[2:3] == b"\x13":
            print(f"refused, cause {answer[3]:02x}, diagnostic {answer[4]}")
            send(call, b"\x10\x01\x17")
        while call.recv(4096):  # the exchange closes the connection once the call is cleared
            pass


def host_and_port(text):
    host, port = text.rsplit(":", 1)
    return host.strip("[]"), int(port)


own, exchange = host_and_port(sys.argv[1]), host_and_port(sys.argv[2])
with socket.create_server(own, family=socket.AF_INET6 if ":" in own[0] else socket.AF_INET) as calls:
    print(f"takes calls at {sys.argv[1]}")
    for addresses in sys.argv[3:]:
        threading.Thread(target=place, args=(own[0], exchange, addresses)).start()
    while True:
        threading.Thread(target=take, args=(calls.accept()[0],), daemon=True).start()
