#!/usr/bin/env python3
"""Lines come and go while the exchange serves: a line that comes is connected and calls at once; one that goes is closed, its call is
charged, and the far end of that is told.

The exchange reads its subscription file again for each change, by its console. README.md says what is checked.
"""

import argparse
import functools
import socket
import tempfile
import time

import server
from changing import ADDRESSES, Changing, behind_router, connected, lives, own, plain
from router_calls import NO_CALLER, NOT_OBTAINABLE
from routers import ACCEPTED, CALL, CLEAR, CONFIRMATION, FIRST, SOON, XotCall
from server import CLEAR_REQUEST, call_request
from served import require, run_checks, until

# Seconds within which a line that comes has its connection and its call.
AT_ONCE = 1

# What the far end of a call is told whose line goes, and the record of that call.
GONE = (0x09, 0)

# How often a file is refused while octets come.
REFUSALS = 10


# ---- lines that come


def a_line_comes(program, folder):
    """A line that comes takes its connection and its call within a second, whichever modulus it has, and goes again."""
    with Changing(program, folder, plain("a1", "b1")) as exchange:
        caller, _ = exchange.rise_all("a1", "b1")
        for modulus in (8, 128):
            exchange.comes(own("a1"), own("b1"), own("c1", f", modulus = {modulus}"), new=1)
            begun = time.monotonic()
            c1 = exchange.rise_of("c1", modulus)
            exchange.call(caller, c1, ADDRESSES["c"])
            took = time.monotonic() - begun
            require(took < AT_ONCE, f"a line of modulo {modulus} had its call after {took:.1f} seconds")
            exchange.shows("a1", "b1", "c1")
            exchange.comes(own("a1"), own("b1"), gone=1)
            c1.ends()
            exchange.shows("a1", "b1")
        exchange.ends_with(("a1", "c1", (0, 0)), ("a1", "c1", (0, 0)))


def places_are_counted(program, folder):
    """A file with more lines than places is refused whole; the metrics have the places that are left."""
    with Changing(program, folder, plain("a1", "b1"), "spare_lines = 2\n") as exchange:
        caller, called = exchange.rise_all("a1", "b1")
        exchange.has_spare(2)
        connected(caller, called, ADDRESSES["b"])
        exchange.refuses(*map(own, ("a1", "b1", "c1", "d1", "e1")), told="xp: reload: no spare place for line e1")
        exchange.refuses(own("a1"), own("b1"), own("c1", ", modulus = 128"), told="xp: reload: no spare place for line c1")
        exchange.refuses(own("a1"), own("b1", ", modulus = 128"), told="xp: reload: needs a stop: line b1: modulus")
        exchange.has_spare(2)
        exchange.is_closed("c1")
        exchange.comes(*map(own, ("a1", "b1", "c1", "d1")), new=2)
        exchange.has_spare(0)
        # The places of lines that go are free for lines that come with them.
        exchange.comes(*map(own, ("a1", "b1", "e1", "f1")), new=2, gone=2)
        exchange.rise_all("e1", "f1")
        exchange.comes(own("a1"), own("b1"), gone=2)
        exchange.has_spare(2)
        lives(caller, called)
        caller.clear()
        called.cleared()
        exchange.ends_with(("a1", "b1", (0, 0)))


def a_port_is_taken(program, folder):
    """Where a port cannot be had, a reload is refused whole: no line comes, none goes, no address moves."""
    with Changing(program, folder, plain("a1", "b1", "c1")) as exchange:
        caller, called, c1 = exchange.rise_all("a1", "b1", "c1")
        connected(caller, called, ADDRESSES["b"])
        next_file = (own("a1"), own("b1", more="incoming_barred = true\n"), own("d1"), own("e1"))
        with socket.create_server(("127.0.0.1", exchange.port("e1"))):
            exchange.refuses(*next_file, told="port e1")
            exchange.shows("a1", "b1", "c1")
            exchange.is_closed("d1")
        lives(caller, called)
        c1.clear()
        exchange.comes(*next_file, new=2, gone=1)
        c1.ends()
        exchange.rise_all("d1", "e1")
        lives(caller, called)
        caller.clear()
        called.cleared()
        exchange.ends_with(("a1", "b1", (0, 0)))


def refused_behind_its_ports(program, folder):
    """A file that is refused for a line in a call leaves a line alone that was to go: octets that came meanwhile are heard, no port is open."""
    with Changing(program, folder, plain("a1", "b1", "c1")) as exchange:
        caller, called, c1 = exchange.rise_all("a1", "b1", "c1")
        connected(caller, called, ADDRESSES["b"])
        for _ in range(REFUSALS):
            c1.send(CLEAR_REQUEST)
            exchange.refuses(own("a1"), own("b1", address=ADDRESSES["h"]), own("d1"), own("e1", port="c"), told="xp: reload: line b1: in a call")
            c1.expect(CONFIRMATION)
            exchange.is_closed("d1")
            lives(caller, called)
        exchange.shows("a1", "b1", "c1")
        caller.clear()
        called.cleared()
        exchange.call(caller, c1, ADDRESSES["c"])
        exchange.ends_with(("a1", "b1", (0, 0)), ("a1", "c1", (0, 0)))


# ---- lines that go


def nothing(line, far):
    """The line is in no call."""


def calls(line, far):
    """The line has called, and waits for an answer."""
    line.send(call_request(ADDRESSES["b"]))
    far.expect(CALL)


def rings(line, far):
    """The line is called, and has not answered."""
    far.send(call_request(ADDRESSES["a"]))
    line.expect(CALL)


def has_called(line, far):
    """The line has called, and is connected."""
    connected(line, far, ADDRESSES["b"])
    lives(line, far)


def was_called(line, far):
    """The line was called, and is connected."""
    connected(far, line, ADDRESSES["a"])
    lives(far, line)


def was_cleared(line, far):
    """The line has not confirmed that its call was cleared."""
    connected(line, far, ADDRESSES["b"])
    far.clear()
    line.expect(CLEAR)


# How a line is as it goes, whether its far end is told, and the record of its call.
STATES = (
    (nothing, False, None), (calls, True, ("a1", "b1", GONE)), (rings, True, ("b1", "a1", GONE)), (has_called, True, ("a1", "b1", GONE)),
    (was_called, True, ("b1", "a1", GONE)), (was_cleared, False, ("a1", "b1", (0, 0))),
)


def a_line_goes(program, folder):
    """A line that goes in each state is closed. Its call ends with its record, and its far end is told 09/0. Then its port is closed."""
    with Changing(program, folder, plain("a1", "b1", "c1")) as exchange:
        far, other = exchange.rise_all("b1", "c1")
        records = []
        for bring, is_told, record in STATES:
            line = exchange.rise_of("a1")
            bring(line, far)
            exchange.comes(own("b1"), own("c1"), gone=1)
            line.ends()
            if is_told:
                require(far.cleared() == GONE, "the far end of a line that goes is told otherwise")
            exchange.is_closed("a1")
            # Nobody has its address any more; the far end is free.
            exchange.is_told(other, ADDRESSES["a"], NOT_OBTAINABLE)
            exchange.call(other, far, ADDRESSES["b"])
            exchange.comes(*map(own, ("a1", "b1", "c1")), new=1)
            records += [record] if record else []
            records += [("c1", "", NOT_OBTAINABLE), ("c1", "b1", (0, 0))]
        exchange.ends_with(*records)


def both_ends_go(program, folder):
    """Both lines of a call go at once, as do lines of four calls: each call has one record, and other calls go on."""
    names = [f"{letter}1" for letter in "abcdefgh"]
    with Changing(program, folder, plain("y1", "z1", *names)) as exchange:
        caller, called = exchange.rise_all("y1", "z1")
        connected(caller, called, ADDRESSES["z"])
        lines = exchange.rise_all(*names)
        for place in range(0, len(lines), 2):
            connected(lines[place], lines[place + 1], ADDRESSES[names[place + 1][0]])
        exchange.comes(own("y1"), own("z1"), gone=len(names))
        for line in lines:
            # One that is given up first may be told of the other's end, or not.
            until_closed(line)
        lives(caller, called)
        caller.clear()
        called.cleared()
        pairs = zip(names[::2], names[1::2])
        exchange.ends_with(*((one, other, GONE) for one, other in pairs), ("y1", "z1", (0, 0)))


def until_closed(line):
    """Its connection ends, behind a clear indication at most."""
    packet = line.receive(SOON)
    if packet:
        require((packet[2], packet[3], packet[4]) == (CLEAR, *GONE), f"{packet.hex()} came in place of the end of the connection")
        line.ends()


# ---- lines that change


def a_line_is_renamed(program, folder):
    """A line with another name is another line: its call ends under the old name, and the new one takes its port."""
    with Changing(program, folder, plain("a1", "b1")) as exchange:
        caller, called = exchange.rise_all("a1", "b1")
        connected(caller, called, ADDRESSES["b"])
        exchange.comes(own("a1"), own("b2"), new=1, gone=1)
        called.ends()
        require(caller.cleared() == GONE, "the far end of a renamed line is told otherwise")
        called = exchange.rise_of("b2")
        exchange.shows("a1", "b2")
        exchange.call(caller, called, ADDRESSES["b"])
        exchange.ends_with(("a1", "b1", GONE), ("a1", "b2", (0, 0)))


def a_port_changes(program, folder):
    """A line with another port is closed at the old one, and connected at the new one; two lines may change their ports."""
    with Changing(program, folder, plain("a1", "b1", "c1")) as exchange:
        caller, called, c1 = exchange.rise_all("a1", "b1", "c1")
        connected(caller, called, ADDRESSES["b"])
        exchange.changes(own("a1"), own("b1", port="c"), own("c1", port="b"))
        for line in (called, c1):
            line.ends()
        require(caller.cleared() == GONE, "the far end of a line with another port is told otherwise")
        called = exchange.rise(exchange.port("c1"))
        exchange.call(caller, called, ADDRESSES["b"])
        exchange.changes(own("a1"), own("b1", port="d"), own("c1", port="b"))
        called.ends()
        exchange.is_closed("c1")
        called = exchange.rise(exchange.port("d1"))
        exchange.call(caller, called, ADDRESSES["b"])
        exchange.ends_with(("a1", "b1", GONE), ("a1", "b1", (0, 0)), ("a1", "b1", (0, 0)))


def an_address_moves(program, folder):
    """An address moves from one line to another while neither is in a call, and from a line that goes to one that comes though it is."""
    with Changing(program, folder, plain("a1", "b1", "c1")) as exchange:
        caller, b1, c1 = exchange.rise_all("a1", "b1", "c1")
        moved = own("a1"), own("b1", address=ADDRESSES["c"]), own("c1", address=ADDRESSES["b"])
        connected(caller, b1, ADDRESSES["b"])
        exchange.refuses(*moved, told="xp: reload: line b1: in a call")
        lives(caller, b1)
        caller.clear()
        b1.cleared()
        exchange.changes(*moved)
        exchange.call(caller, c1, ADDRESSES["b"])
        exchange.call(caller, b1, ADDRESSES["c"])
        connected(caller, c1, ADDRESSES["b"])
        exchange.comes(own("a1"), own("b1", address=ADDRESSES["c"]), own("d1", address=ADDRESSES["b"]), new=1, gone=1)
        c1.ends()
        require(caller.cleared() == GONE, "the far end of a line that goes is told otherwise")
        exchange.call(caller, exchange.rise_of("d1"), ADDRESSES["b"])
        exchange.ends_with(
            ("a1", "b1", (0, 0)), ("a1", "c1", (0, 0)), ("a1", "b1", (0, 0)), ("a1", "c1", GONE), ("a1", "d1", (0, 0)),
        )


def sources_change(program, folder):
    """Another `from` counts for the connections that come later: the one that is there stays, with its call."""
    here, there = "127.0.0.1", "127.0.0.5"
    with Changing(program, folder, (own("a1"), own("b1", f', from = "{here}"'))) as exchange:
        caller, called = exchange.rise_of("a1"), exchange.rise(exchange.port("b1"), here)
        connected(caller, called, ADDRESSES["b"])
        exchange.changes(own("a1"), own("b1", f', from = "{there}"'))
        lives(caller, called)
        stranger = XotCall(exchange.connect(exchange.port("b1"), here))
        require(stranger.receive(SOON) == b"", "an address that `from` names no more is let in")
        lives(caller, called)
        # The newest connection counts, from an address that is named now.
        newest = XotCall(exchange.connect(exchange.port("b1"), there))
        require(caller.cleared() == GONE, "the line's connection is not replaced")
        called.ends()
        newest.send(CLEAR_REQUEST)
        newest.expect(CONFIRMATION)
        exchange.lines.append(newest)
        exchange.call(caller, newest, ADDRESSES["b"])
        exchange.ends_with(("a1", "b1", GONE), ("a1", "b1", (0, 0)))


# ---- lines behind a router


def lines_behind_a_router(program, folder):
    """A line behind a router comes, calls and is called, and goes in the middle of a call; other lines of its router stay."""
    with Changing(program, folder, plain("a1")) as exchange:
        router = exchange.router(FIRST)
        host = exchange.rise_of("a1")
        exchange.comes(own("a1"), behind_router(exchange, "r1"), new=1)
        begun = time.monotonic()
        call = exchange.place(router, ADDRESSES["r"], ADDRESSES["a"])
        host.expect(CALL)
        host.accept()
        call.expect("accepted")
        require(time.monotonic() - begun < AT_ONCE, "a line behind a router had its call late")
        exchange.comes(own("a1"), behind_router(exchange, "r1", "r2"), new=1)
        second = exchange.place(router, ADDRESSES["r"], "99")
        exchange.wait_until_told(f"line r2: up from {second.peer}\n")
        second.is_told(NOT_OBTAINABLE)
        second.confirm()
        # The first of them goes with its call; the other is called.
        exchange.comes(own("a1"), behind_router(exchange, "r2"), gone=1)
        require(host.cleared() == GONE, "the far end of a line behind a router is told otherwise")
        until_closed(call.link)
        host.send(call_request(ADDRESSES["r"]))
        link, _ = router.called()
        link.accept()
        host.expect(ACCEPTED)
        host.clear()
        link.cleared()
        link.ends()
        exchange.comes(own("a1"), gone=1)
        exchange.is_told(host, ADDRESSES["r"], NOT_OBTAINABLE)
        exchange.ends_with(("r2", "", NOT_OBTAINABLE), ("r1", "a1", GONE), ("a1", "r2", (0, 0)), ("a1", "", NOT_OBTAINABLE))


def callers_change(program, folder):
    """Which line takes a call of a router follows the subscriptions in force: its address, its station's, and the default caller."""

    def stations(r_address, s_address, default, r_lines=("r1",)):
        return (
            own("a1"), behind_router(exchange, *r_lines, address=r_address, is_default=default == "r"),
            behind_router(exchange, "s1", address=s_address, is_default=default == "s"),
        )

    def takes(calling, name):
        call = exchange.place(router, calling, "99")
        if name is None:
            call.is_refused(*NO_CALLER.told)
        else:
            exchange.wait_until_told(f"line {name}: up from {call.peer}\n")
            call.is_told(NOT_OBTAINABLE)
            records.append((name, "", NOT_OBTAINABLE))
        call.confirm()

    records = []
    with Changing(program, folder, plain("a1")) as exchange:
        router = exchange.router(FIRST)
        exchange.rise_of("a1")
        exchange.comes(*stations("300001", "300002", "r"), new=2)
        for calling, name in (("300001", "r1"), ("300002", "s1"), ("", "r1"), ("999", "r1")):
            takes(calling, name)
        exchange.changes(*stations("300001", "300002", "s"))
        for calling, name in (("300001", "r1"), ("300002", "s1"), ("", "s1"), ("999", "s1")):
            takes(calling, name)
        # Both addresses move.
        exchange.changes(*stations("300002", "300001", "s"))
        for calling, name in (("300001", "s1"), ("300002", "r1"), ("", "s1")):
            takes(calling, name)
        exchange.changes(*stations("300002", "300003", None))
        for calling, name in (("300001", None), ("300003", "s1"), ("", None)):
            takes(calling, name)
        exchange.ends_with(*records)


# ---- many reloads


def reloads_by_turns(count, program, folder):
    """Lines come and go by turns under a call that goes on: each is connected, calls and goes, and no file stays open."""
    texts = [tuple(map(own, names)) for names in (("a1", "b1", "c1", "d1"), ("a1", "b1", "e1", "f1"))]
    with Changing(program, folder, texts[0]) as exchange:
        caller, called = exchange.rise_all("a1", "b1")
        connected(caller, called, ADDRESSES["b"])
        records, settled = [], 0
        for number in range(count):
            names = (("c1", "d1"), ("e1", "f1"))[number % 2]
            one, other = exchange.rise_all(*names)
            if number % 3:
                connected(one, other, ADDRESSES[names[1][0]])
                records.append((*names, GONE))
            lives(caller, called)
            exchange.comes(*texts[(number + 1) % 2], new=2, gone=2)
            for line in (one, other):
                until_closed(line)
            lives(caller, called)
            until(lambda: not exchange.takes(names[0]), f"the port of {names[0]} is open still")
            if number == 1:
                # The connections of the console are closed by then.
                time.sleep(0.5)
                settled = exchange.open_files()
        until(lambda: exchange.open_files() <= settled or count < 3, lambda: f"{exchange.open_files()} files are open, which were {settled}")
        caller.clear()
        called.cleared()
        exchange.ends_with(*records, ("a1", "b1", (0, 0)))


CHECKS = (
    a_line_comes, places_are_counted, a_port_is_taken, refused_behind_its_ports, a_line_goes, both_ends_go, a_line_is_renamed,
    a_port_changes, an_address_moves, sources_change, lines_behind_a_router, callers_change,
)


def main():
    parser = argparse.ArgumentParser(description=__doc__.splitlines()[0])
    parser.add_argument("--xp", default=str(server.PROGRAM), help=f"the program ({server.DEFAULT})")
    parser.add_argument("--reloads", type=int, default=20, help="how often lines come and go by turns (default: 20)")
    arguments = parser.parse_args()
    turns = functools.update_wrapper(functools.partial(reloads_by_turns, arguments.reloads), reloads_by_turns)
    with tempfile.TemporaryDirectory() as folder:
        run_checks((*CHECKS, turns), arguments.xp, folder)


if __name__ == "__main__":
    main()
