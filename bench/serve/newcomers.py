#!/usr/bin/env python3
"""Connections to the port of a line that has one: a host that connects anew, strangers, and how many of them are told.

README.md says what is checked.
"""

import os
import re
import time

import server
import transfer
from ports import connection_from
from routers import ACCEPTED, CALL, PATIENCE, XotCall
from server import call_request
from served import Served, data, require, rest_of, run_script, station, until

# Addresses from which a line may be connected that names them, and one from which it may not.
NAMED, ALSO_NAMED, UNNAMED = "127.0.0.9", "127.0.0.10", "127.0.0.8"
SOURCES = f', from = ["{NAMED}", "{ALSO_NAMED}"]'

# The lines, their addresses, and what else their tables have.
LINES = {"a1": ("200001", ""), "b1": ("200002", SOURCES), "e1": ("200003", ""), "f1": ("200004", SOURCES), "g1": ("200005", "")}

# What the caller is told whose called line has lost its connection.
GONE = 0x09, 0

# The seconds within which a host has its line again, and those of a transfer before.
AT_ONCE, TRANSFER = 1, 0.2

# How often a host connects anew, and how many connections come at once.
RESTARTS, BURST = 10, 30

# Seconds behind a burst in which nothing more is told of it, and within which it has to be.
QUIET_SECONDS, MOST_SECONDS = 8, 12.5


class Lines(Served):
    """An exchange of five lines, of which b1 and f1 name the addresses of their hosts."""

    def __init__(self, program, folder):
        base = server.free_ports(len(LINES))
        self.ports = dict(zip(LINES, range(base, base + len(LINES))))
        text = "".join(station(number, (name, self.ports[name], more)) for name, (number, more) in LINES.items())
        super().__init__(program, folder, text)

    def line(self, name, source=None):
        return self.rise(self.ports[name], source)

    def newcomer(self, name, source):
        """A connection to the port of a line, and the address from which it comes."""
        line = XotCall(connection_from(source, self.ports[name]))
        return line, "%s:%d" % line.connection.getsockname()

    def facts(self, name):
        """What it has told of a line."""
        return re.findall(rf" line {name}: (.*)\n", self.told())

    def descriptors(self):
        return len(os.listdir(f"/proc/{self.process.pid}/fd"))

    def finish(self, *wanted):
        """Stops it. Its records have to be these, without their seconds."""
        require(self.end() == 0, f"it ended badly; {self.said()}")
        records = [line.rpartition(" ")[0] for line in self.printed().splitlines()]
        require(records == [f"record {number} {record}" for number, record in enumerate(wanted, 1)], f"the records are {self.printed()}")


def call(caller, called, name):
    """A call to a line, which accepts it."""
    caller.send(call_request(LINES[name][0]))
    called.expect(CALL)
    called.accept()
    caller.expect(ACCEPTED)


def send(sender, receiver, *packets):
    for packet in packets:
        sender.send(packet)
        came = receiver.receive()
        require(came == packet, f"{came.hex()} came in place of {packet.hex()}")


def clear(caller, called):
    caller.clear()
    called.cleared()
    called.clear()


# ---- a host that connects anew


def replaced(program, folder):
    """A connection from an address that the line names takes its line from another one: the call ends with its record, and the next one comes."""
    with Lines(program, folder) as exchange:
        a1, b1 = exchange.line("a1"), exchange.line("b1", NAMED)
        call(a1, b1, "b1")
        send(a1, b1, *(data(place, 100 * b"x") for place in range(2)))
        send(b1, a1, data(0, 64 * b"y"))
        begun = time.monotonic()
        newcomer, peer = exchange.newcomer("b1", ALSO_NAMED)
        newcomer.clear()
        require(a1.cleared() == GONE, "the caller is told something else")
        require(time.monotonic() - begun < AT_ONCE, "the host has not had its line at once")
        require(rest_of(b1.connection) == b"", "the connection before was sent something at its end")
        exchange.wait_until_told(f"line b1: up from {peer}\n")
        facts = exchange.facts("b1")[-3:]
        require(facts == [f"replaced by a connection from {peer}", "down: replaced by another connection", f"up from {peer}"], f"it has told {facts}")
        call(a1, newcomer, "b1")
        send(a1, newcomer, data(0, 64 * b"z"))
        clear(a1, newcomer)
        newcomer.close()
        exchange.finish("a1 b1 200002 caller 4 1 09 0", "a1 b1 200002 caller 1 0 00 0")


def host_that_restarts(program, folder):
    """A host connects anew in the middle of transfers, again and again, and closes nothing: each call has its record, and no socket stays."""
    with Lines(program, folder) as exchange:
        a1, b1 = exchange.line("a1"), exchange.line("b1", NAMED)
        files, kept, calls = exchange.descriptors(), [b1], []
        for _ in range(RESTARTS):
            caller, called = ends = transfer.connect_call(a1, b1, LINES["b1"][0])
            transfer.run_for(ends, TRANSFER)
            b1, _ = exchange.newcomer("b1", NAMED)
            transfer.run(ends, lambda: caller.told and called.is_through(), PATIENCE)
            require(not (caller.is_through() or called.fault), f"a call ended so: {caller.fault}, {called.fault}")
            require((caller.told, called.told) == (GONE, None), f"the ends were told {caller.told} and {called.told}")
            caller.confirm()
            b1.clear()
            kept.append(b1)
            calls.append(ends)
        until(lambda: exchange.descriptors() == files, lambda: f"it has {exchange.descriptors()} files open, and had {files}")
        exchange.lines.append(b1)
        require(exchange.end() == 0, f"it ended badly; {exchange.said()}")
        records = [server.read_record(line) for line in exchange.printed().splitlines()]
        require([record.number for record in records] == list(range(1, RESTARTS + 1)), f"the records are {exchange.printed()}")
        for record, (caller, called) in zip(records, calls):
            is_counted = called.received <= record.sent / transfer.SEGMENTS <= caller.sent
            is_counted &= caller.received <= record.received / transfer.SEGMENTS <= called.sent
            require(is_counted and (record.cause, record.diagnostic) == GONE, f"{record} is not of its call")


def newest_of_many(program, folder):
    """Of connections that come at once to a line that names them the newest has the line, and the others are ended."""
    with Lines(program, folder) as exchange:
        a1, b1 = exchange.line("a1"), exchange.line("b1", NAMED)
        *others, (newest, peer) = [exchange.newcomer("b1", NAMED) for _ in range(BURST)]
        newest.clear()
        for line in (b1, *(line for line, _ in others)):
            require(rest_of(line.connection) == b"", "a connection that was replaced was sent something")
            line.close()
        exchange.wait_until_told(f"line b1: up from {peer}\n")
        require(exchange.facts("b1")[-1] == f"up from {peer}", f"it has told {exchange.facts('b1')[-3:]}")
        call(a1, newest, "b1")
        clear(a1, newest)
        exchange.lines.append(newest)
        exchange.finish("a1 b1 200002 caller 0 0 00 0")


# ---- connections that are refused


def refused_meanwhile(program, folder):
    """A connection that may not have a line which is in a call is closed at once and told, and the call goes on to its record."""
    with Lines(program, folder) as exchange:
        a1 = exchange.line("a1")
        for name, named, source, why in (("b1", NAMED, UNNAMED, "refused"), ("e1", None, NAMED, "refused: the line has one")):
            line = exchange.line(name, named)
            call(a1, line, name)
            send(a1, line, data(0, 100 * b"x"))
            newcomer, peer = exchange.newcomer(name, source)
            newcomer.ends()
            exchange.wait_until_told(f"line {name}: connection from {peer} {why}\n")
            send(a1, line, data(1, 100 * b"y"))
            send(line, a1, data(0, 64 * b"z"))
            clear(a1, line)
            require(len(exchange.facts(name)) == 2, f"of {name} it has told {exchange.facts(name)}")
            line.close()
            exchange.wait_until_told(f"line {name}: down: closed by the peer\n")
            exchange.line(name, named)
        exchange.finish(*(f"a1 {name} {LINES[name][0]} caller 4 1 00 0" for name in ("b1", "e1")))


def refused_in_number(program, folder):
    """30 connections that are refused in a burst are told once, and after ten seconds how many more there were; a single one is told once."""
    with Lines(program, folder) as exchange:
        exchange.line("b1", NAMED), exchange.line("e1"), exchange.line("g1")
        burst = {}
        # The line f1 has no connection.
        for name, source in (("b1", UNNAMED), ("e1", UNNAMED), ("f1", UNNAMED)):
            burst[name] = [exchange.newcomer(name, source) for _ in range(BURST)]
        burst["g1"] = [exchange.newcomer("g1", UNNAMED)]
        begun = time.monotonic()
        for newcomers in burst.values():
            for line, _ in newcomers:
                line.ends()
        why = {"b1": "", "e1": ": the line has one", "f1": "", "g1": ": the line has one"}
        first = {name: f"connection from {newcomers[0][1]} refused{why[name]}" for name, newcomers in burst.items()}
        told = lambda: {name: [fact for fact in exchange.facts(name) if "refused" in fact] for name in burst}
        is_told = lambda: f"it has told {told()}"
        until(lambda: told() == {name: [fact] for name, fact in first.items()}, is_told)
        time.sleep(max(0, begun + QUIET_SECONDS - time.monotonic()))
        require(told() == {name: [fact] for name, fact in first.items()}, is_told())
        wanted = {name: [fact, *([] if name == "g1" else [f"{BURST - 1} more connections refused"])] for name, fact in first.items()}
        until(lambda: told() == wanted, is_told, begun + MOST_SECONDS - time.monotonic())
        time.sleep(1)
        require(told() == wanted, is_told())
        exchange.finish()


CHECKS = (replaced, host_that_restarts, newest_of_many, refused_meanwhile, refused_in_number)


if __name__ == "__main__":
    run_script(__doc__, CHECKS)
