#!/usr/bin/env python3
"""Three peers of `xp serve` that are gone without a word: their lines must go down, and take their next connections.

The peers are in a network namespace, whose one link to this machine is cut. One of them is silent before, one is sent a call
as it is gone, and one has a line that names the addresses of its host. It takes root, and the programs of iproute2. README.md
says what is checked.
"""

import argparse
import os
import re
import select
import signal
import socket
import subprocess
import sys
import tempfile
import time

import run
import server
from server import call_request, frame

# The network of the link, of addresses for examples (RFC 5737), which no other link should have, and the ends of the link in it.
NETWORK = "198.51.100.0/30"
HERE, THERE = "198.51.100.1", "198.51.100.2"

# The seconds within which a line whose peer is gone has to take its next connection, and those that have to pass before. A line
# that names the addresses of its host takes it at once.
MOST, LEAST, SOON = 95, 30, 5

OUT_OF_ORDER = frame(bytes.fromhex("1001130900"))


def ip(*words):
    """Runs a command of iproute2."""
    subprocess.run(["ip", *words], check=True)


def remove_what_is_left():
    """Removes the namespaces and links of runs that were killed: another link with these addresses would take the octets of this one."""
    names = subprocess.run(["ip", "netns", "list"], check=True, capture_output=True, text=True).stdout.split()
    for number in [it.removeprefix("xp-") for it in names if re.fullmatch(r"xp-\d+", it)]:
        if not os.path.exists(f"/proc/{number}"):
            subprocess.run(["ip", "link", "delete", f"xpn{number}"], stderr=subprocess.DEVNULL)
            ip("netns", "delete", f"xp-{number}")


class Network:
    """A network namespace with one link to this machine, for as long as the block."""

    def __init__(self):
        number = os.getpid()
        self.name, self.near, self.far = f"xp-{number}", f"xpn{number}", f"xpf{number}"

    def __enter__(self):
        remove_what_is_left()
        routes = subprocess.run(["ip", "route", "show", "exact", NETWORK], check=True, capture_output=True, text=True).stdout
        if routes:
            sys.exit(f"another link has the network {NETWORK}: {routes.strip()}")
        ip("netns", "add", self.name)
        try:
            ip("link", "add", self.near, "type", "veth", "peer", "name", self.far, "netns", self.name)
            ip("address", "add", f"{HERE}/30", "dev", self.near)
            ip("link", "set", self.near, "up")
            ip("-n", self.name, "address", "add", f"{THERE}/30", "dev", self.far)
            ip("-n", self.name, "link", "set", self.far, "up")
        except subprocess.CalledProcessError:
            self.__exit__()
            raise
        return self

    def __exit__(self, *_):
        # The connections of the peers keep the namespace, and its end of the link, for a while after it is deleted.
        subprocess.run(["ip", "link", "delete", self.near])
        ip("netns", "delete", self.name)

    def cut(self):
        """Neither end hears anything of the other from now on, and neither is told."""
        ip("-n", self.name, "link", "set", self.far, "down")


class Peer:
    """A process in the namespace, connected to a port of the exchange. It says nothing once its line is up."""

    def __init__(self, network, port):
        command = ["ip", "netns", "exec", network.name, sys.executable, __file__, "--as-peer-of", str(port)]
        self.process = subprocess.Popen(command, stdin=subprocess.PIPE, stdout=subprocess.PIPE, text=True)

    def __enter__(self):
        if self.process.stdout.readline() != "up\n":
            sys.exit("a line to the namespace has not come up")
        return self

    def __exit__(self, *_):
        self.process.kill()
        self.process.wait()


def be_peer(port):
    """What the process in the namespace does: its line is up until it is killed."""
    connection = socket.create_connection((HERE, port), timeout=30)
    run.rise(connection)
    print("up", flush=True)
    sys.stdin.read()


def subscriptions(base):
    """Two pairs of lines, of which the caller of the second names the addresses of its host."""
    named = server.subscriptions(2, base).replace(f"port = {base + 2} ", f'port = {base + 2}, from = ["{THERE}", "127.0.0.1"] ')
    return f'host = "0.0.0.0"\n{named}'


def is_taken(exchange, port):
    """Whether a line takes a connection: it answers whether it is up. While it has another one, it may refuse it."""
    confirmation = frame(server.CLEAR_CONFIRMATION)
    with exchange.connect(port) as connection:
        connection.settimeout(SOON)
        try:
            connection.sendall(frame(server.CLEAR_REQUEST))
            return connection.recv(len(confirmation), socket.MSG_WAITALL) == confirmation
        except (ConnectionError, TimeoutError):
            return False


def is_cleared(caller):
    """Whether the caller has been told that its call is over."""
    ready, _, _ = select.select([caller], [], [], 0)
    if ready and caller.recv(len(OUT_OF_ORDER), socket.MSG_WAITALL) != OUT_OF_ORDER:
        sys.exit("other octets have come to the caller")
    return bool(ready)


def check_times(awaited, since):
    """Each thing that is awaited has come in its time, and not before: `awaited` has what tells that it has come, and its times."""
    while awaited:
        for what, (has_come, least, most) in list(awaited.items()):
            came, passed = has_come(), time.monotonic() - since
            if came:
                del awaited[what]
                print(f"{what}: after {passed:.1f} seconds", flush=True)
            if came and passed < least or passed > most:
                sys.exit(f"{what}: not between {least} and {most} seconds")
        time.sleep(1)


def lose_peers(exchange, network, caller, called, silent, named):
    """Cuts the link, calls one of the peers, and waits until the lines of all take their next connections."""
    network.cut()
    since = time.monotonic()
    caller.sendall(frame(call_request(server.address(0))))
    check_times({
        "the line that names its host takes its next connection": (lambda: is_taken(exchange, named), 0, SOON),
        "the call to a peer that is gone is cleared": (lambda: is_cleared(caller), LEAST, MOST),
        "the line that was called takes its next connection": (lambda: is_taken(exchange, called), LEAST, MOST),
        "the silent line takes its next connection": (lambda: is_taken(exchange, silent), LEAST, MOST),
    }, since)


def main():
    parser = argparse.ArgumentParser(description=__doc__.splitlines()[0])
    parser.add_argument("--xp", default=str(server.PROGRAM), help=f"the built program ({server.DEFAULT})")
    parser.add_argument("--as-peer-of", type=int, help=argparse.SUPPRESS)
    arguments = parser.parse_args()
    if arguments.as_peer_of is not None:
        return be_peer(arguments.as_peer_of)
    # A run that is told to end removes its namespace too.
    signal.signal(signal.SIGTERM, lambda number, _: sys.exit(128 + number))

    with tempfile.TemporaryDirectory() as folder, server.Serving(arguments.xp, folder, 4, subscriptions, 2) as exchange, Network() as network:
        calling, called, named, silent = range(exchange.base, exchange.base + 4)
        caller = exchange.connect(calling)
        caller.settimeout(2 * MOST)
        run.rise(caller)
        with Peer(network, called), Peer(network, silent), Peer(network, named):
            lose_peers(exchange, network, caller, called, silent, named)


if __name__ == "__main__":
    main()
