#!/usr/bin/env python3
"""Calls of routers behind which several stations have lines: a call has a line of the station that its calling address names, and one that
no line takes is refused by a clear indication.

README.md says what is checked.
"""

import argparse
import collections
import contextlib
import functools
import json
import random
import socket
import sys
import tempfile
import threading
import time

import server
from packets import Block, read
from router_calls import (
    ADDRESSES, AT_ONCE, BARRED, INSIDE, MANY, NO_CALLER, NO_FREE_LINE, NOBODY, NOT_OBTAINABLE, OUTSIDE, Behind, RouterCall, lines_for
)
from routers import ACCEPTED, BREATH, CALL, FIRST, PATIENCE, SECOND, THIRD, Wrong
from served import require, run_checks

# The seconds after which a connection ends whose router does not confirm that its call is refused, at least and at most.
LEAST_SECONDS, MOST_SECONDS = 1.9, 4


# ---- which line

# Of calls of routers the router, the calling address, the dialled one and the modulus; then the line that takes the call, and what it is
# told, where it is not connected.
CALLS = (
    # Of a station, which calls inside its group alone, and of its line with an address of its own.
    (FIRST, "300010", INSIDE, 8, "a0", None), (FIRST, "300010", OUTSIDE, 8, "a0", BARRED), (FIRST, "300010", INSIDE, 128, "a2", None),
    (FIRST, "300012", INSIDE, 8, "a1", None), (FIRST, "300012", OUTSIDE, 8, "a1", BARRED),
    # Of one that makes no calls, and of one without groups.
    (FIRST, "300020", INSIDE, 8, "b0", BARRED), (FIRST, "300020", OUTSIDE, 8, "b0", BARRED),
    (FIRST, "300030", OUTSIDE, 8, "c0", None), (FIRST, "300030", INSIDE, 8, "c0", BARRED),
    # Of nobody, and of addresses that are nearly those of a station.
    (FIRST, "", OUTSIDE, 8, "c0", None), (FIRST, "", INSIDE, 8, "c0", BARRED), (FIRST, "999999999999999", OUTSIDE, 8, "c0", None),
    (FIRST, "30001", OUTSIDE, 8, "c0", None), (FIRST, "3000100", OUTSIDE, 8, "c0", None), (FIRST, "0300010", OUTSIDE, 8, "c0", None),
    # Of stations and lines that are elsewhere.
    (FIRST, INSIDE, OUTSIDE, 8, "c0", None), (FIRST, "300040", OUTSIDE, 8, "c0", None), (FIRST, "300041", OUTSIDE, 8, "c0", None),
    (FIRST, "300060", OUTSIDE, 8, "c0", None), (FIRST, "300061", INSIDE, 8, "c0", BARRED),
    # Behind a router without a default caller.
    (SECOND, "300010", INSIDE, 8, "a4", None), (SECOND, "300010", OUTSIDE, 8, "a4", BARRED), (SECOND, "300040", OUTSIDE, 8, "f0", None),
    (SECOND, "300040", OUTSIDE, 128, "f1", None), (SECOND, "300041", OUTSIDE, 128, "f1", None),
    # Behind a router of one station.
    (THIRD, "300060", OUTSIDE, 8, "g0", None), (THIRD, "300061", OUTSIDE, 8, "g1", None), (THIRD, "", OUTSIDE, 8, "g0", None),
    (THIRD, "300010", OUTSIDE, 8, "g0", None), (THIRD, "300020", OUTSIDE, 8, "g0", None), (THIRD, "30006", INSIDE, 8, "g0", BARRED),
)

# Those that have no line there, and those whose lines there have the other modulus.
OF_NOBODY = ("", "999999999999999", "300012", "300020", "300030", "30004", "3000400", OUTSIDE)
OF_OTHER_MODULUS = ((FIRST, "", 128), (FIRST, "300012", 128), (SECOND, "300041", 8), (SECOND, "300010", 128), (THIRD, "999", 128))


def whole_call(exchange, router, calling, dialled, modulus, name, told):
    """A call, which this line has to take, by its station's rights. Returns what its record has to say."""
    call = exchange.place(router, calling, dialled, modulus)
    exchange.wait_until_told(f"line {name}: up from {call.peer}\n")
    if told:
        call.is_told(told)
        call.confirm()
    else:
        connect(exchange, call, dialled, name)
        disconnect(exchange, call, dialled)
    return (name, "-", told) if told else (name, {INSIDE: "d", OUTSIDE: "e"}[dialled], (0, 0))


def connect(exchange, call, dialled, name):
    """The host at the dialled address answers the call, and is told the address of the line that has taken it."""
    host = exchange.hosts[dialled]
    _, incoming = read(8, host.expect(CALL))
    require(incoming.block.calling == ADDRESSES[name], f"the call is of {incoming.block.calling} in place of {ADDRESSES[name]}")
    host.accept()
    call.expect("accepted")


def disconnect(exchange, call, dialled):
    """The router clears the call. Then the host may be called again."""
    call.put(call.written("clear", cause=0, diagnostic=0))
    call.expect("clear confirmation")
    call.ends()
    exchange.hosts[dialled].cleared()
    exchange.hosts[dialled].clear()


def lines_of_callers(program, folder):
    """Calls with each kind of calling address have the line, the rights and the address of their caller, and a record that names it."""
    with Behind(program, folder) as exchange:
        records = [whole_call(exchange, *call) for call in CALLS]
        # A refused call has no number and no record, so the next one follows the last.
        for calling in OF_NOBODY:
            call = exchange.place(SECOND, calling, OUTSIDE)
            exchange.refuses(call, NO_CALLER)
            call.confirm()
        for router, calling, modulus in OF_OTHER_MODULUS:
            call = exchange.place(router, calling, OUTSIDE, modulus)
            exchange.refuses(call, NO_FREE_LINE)
            call.confirm()
        records += [whole_call(exchange, *call) for call in CALLS[:3]]
        exchange.finish(records)


def routers_by_ipv6(program, folder):
    """A router whose connections come by a socket of IPv6 has its lines by the same rule."""
    with Behind(program, folder, host="::") as exchange:
        records = []
        for router, calling, name in ((FIRST, "300012", "a1"), (FIRST, "", "c0"), (SECOND, "300040", "f0")):
            call = exchange.place(router, calling)
            call.is_told(NOT_OBTAINABLE)
            call.confirm()
            records.append((name, "-", NOT_OBTAINABLE))
        call = exchange.place(SECOND, "")
        call.is_refused(*NO_CALLER.told)
        call.confirm()
        exchange.refusals[NO_CALLER.words] += 1
        exchange.finish(records)


def lowest_free_line(program, folder):
    """A call has the lowest free line of its caller and of its modulus. Where none is free it is refused, though others there are."""
    with Behind(program, folder) as exchange:
        place, wanted = functools.partial(exchange.place, FIRST), []

        def has(name, told, *call):
            wanted.append((name, "-", told))
            return exchange.holds(place(*call), name, told)

        calls = {name: has(name, NOT_OBTAINABLE, "300010") for name in ("a0", "a1")}
        for calling in ("300010", "300012"):
            exchange.refuses(place(calling), NO_FREE_LINE)
        has("a2", NOT_OBTAINABLE, "300010", NOBODY, 128)
        exchange.refuses(place("300010", NOBODY, 128), NO_FREE_LINE)
        calls |= {name: has(name, NOT_OBTAINABLE, calling) for name, calling in (("c0", ""), ("c1", "300030"))}
        for calling in ("", "300030", "999", "300040"):
            exchange.refuses(place(calling), NO_FREE_LINE)
        has("b0", BARRED, "300020")
        exchange.refuses(place("300020"), NO_FREE_LINE)
        # A line that is free again has the next call of its caller, and of nobody else.
        calls.pop("a1").confirm()
        exchange.refuses(place("999"), NO_FREE_LINE)
        calls["a1"] = has("a1", NOT_OBTAINABLE, "300010")
        for name in ("a0", "a1"):
            calls.pop(name).confirm()
        has("a1", NOT_OBTAINABLE, "300012")
        has("a0", NOT_OBTAINABLE, "300010")
        # Behind a router of one station too a line's own address is that of the line alone.
        for calling, name in (("300061", "g1"), ("", "g0")):
            exchange.holds(exchange.place(THIRD, calling), name)
            wanted.append((name, "-", NOT_OBTAINABLE))
            exchange.refuses(exchange.place(THIRD, calling), NO_FREE_LINE)
        exchange.finish(wanted)


# ---- refusals


def refusals_to_the_octet(program, folder):
    """A refusal has the modulus and the channel of its call, whatever else the call has, comes at once, and ends as it is confirmed."""
    with Behind(program, folder) as exchange:
        for identifier in (0, 1, 255, 256, 4095):
            for modulus in (8, 128):
                for d in (False, True):
                    call = exchange.place(SECOND, "999", OUTSIDE, modulus, identifier, d)
                    exchange.refuses(call, NO_CALLER)
                    call.confirm()
            call = exchange.place(SECOND, "300041", OUTSIDE, 8, identifier)
            exchange.refuses(call, NO_FREE_LINE)
            call.confirm()
        # In pieces: nothing comes before the request is whole.
        call = RouterCall(exchange.routers[SECOND], "999")
        for octet in call.request[:-1]:
            call.put(bytes([octet]))
            time.sleep(0.005)
        call.link.connection.settimeout(2 * BREATH)
        with contextlib.suppress(TimeoutError):
            raise Wrong(f"{call.link.connection.recv(9).hex()} came before the request was whole")
        call.put(call.request[-1:])
        exchange.refuses(call, NO_CALLER)
        call.confirm()
        # With the confirmation behind it, as from a router that gives up.
        call = RouterCall(exchange.routers[SECOND], "")
        call.put(call.request + call.written("clear confirmation"))
        exchange.refuses(call, NO_CALLER)
        call.ends()
        exchange.finish([])


def how_refusals_end(program, folder):
    """A refused call ends with a clear or an end of its router, or two seconds later, also where its router sends other packets."""
    with Behind(program, folder) as exchange:
        silent, talking = ([exchange.place(SECOND, calling) for calling in ("", "999")] for _ in range(2))
        gone, crossed, halved = (exchange.place(SECOND, "") for _ in range(3))
        for call in (*silent, *talking, gone, crossed, halved):
            exchange.refuses(call, NO_CALLER)
        for call in talking:
            call.put(call.request + call.written("ready", pr=0) + call.written("call", block=Block(INSIDE, "300010", b"", b"")))
        gone.link.close()
        crossed.put(crossed.written("clear", cause=0, diagnostic=0))
        crossed.ends()
        halved.link.connection.shutdown(socket.SHUT_WR)
        halved.ends()
        for call in (*silent, *talking):
            call.ends(call.told_at, LEAST_SECONDS, MOST_SECONDS)
        exchange.finish([])


def refused_calls_hold_nothing(program, folder):
    """Forty refused calls that are not confirmed hold no line: calls of their router and to it are answered meanwhile."""
    with Behind(program, folder) as exchange:
        second = exchange.routers[SECOND]
        second.listen()
        calls = [exchange.place(SECOND, "") for _ in range(40)]
        for call in calls:
            exchange.refuses(call, NO_CALLER)
        states = {line["name"]: line["state"] for line in json.loads(exchange.asked("status.json"))["lines"]}
        require({states[name] for name in ("a4", "f0", "f1")} == {"ready"}, f"the lines are {states}")
        begun = time.monotonic()
        theirs = exchange.place(SECOND, "300010", INSIDE)
        connect(exchange, theirs, INSIDE, "a4")
        ours = called_at(exchange, SECOND, OUTSIDE, "300040")
        took = time.monotonic() - begun
        require(took < AT_ONCE, f"two calls were answered after {took:.1f} seconds")
        disconnect(exchange, theirs, INSIDE)
        exchange.hosts[OUTSIDE].clear()
        ours.cleared()
        ours.ends()
        for call in calls:
            call.ends(call.told_at, 0, MOST_SECONDS)
        exchange.finish([("a4", "d", (0, 0)), ("e", "f0", (0, 0))])


def called_at(exchange, router, caller, number):
    """A call of a host to a line behind a router, which accepts it: it has the number that was dialled. Returns the router's end."""
    exchange.hosts[caller].send(server.call_request(number))
    call, packet = exchange.routers[router].called()
    exchange.lines.append(call)
    _, incoming = read(8, packet)
    require((incoming.block.called, incoming.block.calling) == (number, caller), f"the call is {incoming.block}")
    call.accept()
    exchange.hosts[caller].expect(ACCEPTED)
    return call


def calls_to_the_router(program, folder):
    """A call to a line behind the router has the called address by which that finds its terminal; the router's own calls have other lines."""
    with Behind(program, folder) as exchange:
        exchange.routers[FIRST].listen()
        wanted = []
        for number, name, other in (("300012", "a1", "a0"), ("300010", "a0", "a1")):
            ours = called_at(exchange, FIRST, INSIDE, number)
            # The line has a call, so a call of its station has another line, and one of its own address has none.
            exchange.holds(exchange.place(FIRST, "300010"), other).confirm()
            if name == "a1":
                exchange.refuses(exchange.place(FIRST, number), NO_FREE_LINE)
            exchange.hosts[INSIDE].clear()
            ours.cleared()
            ours.ends()
            wanted += [("d", name, (0, 0)), (other, "-", NOT_OBTAINABLE)]
        exchange.finish(wanted)


def no_call_request(program, folder):
    """What opens with no call request has the lowest free line, which answers it. Where none is free it is closed, and told."""
    with Behind(program, folder) as exchange:
        malformed = server.frame(bytes.fromhex("1001 0b 62 99 30001f 00"))
        for octets, told in ((server.frame(server.CLEAR_REQUEST), None), (malformed, (0x13, 67)), (server.frame(b"\x10\x01\x00"), (0x13, 20))):
            call = RouterCall(exchange.routers[FIRST], "")
            call.put(octets)
            exchange.wait_until_told(f"line b0: up from {call.peer}\n")
            if told:
                call.is_told(told)
                call.confirm()
            else:
                call.expect("clear confirmation")
                call.ends()
        held = [exchange.holds(exchange.place(THIRD, ""), name) for name in ("g0", "g1")]
        call = RouterCall(exchange.routers[THIRD], "")
        call.put(server.frame(server.CLEAR_REQUEST))
        require(call.link.receive() == b"", "a connection without a call is answered where no line is free")
        exchange.wait_until_told(f"routers: {NO_FREE_LINE.text.format(call.peer)}\n")
        for call in held:
            call.confirm()
        require(exchange.end() == 0, f"it ended badly; {exchange.said()}")
        callers = sorted(record.caller for record in exchange.records())
        require(callers == ["g0", "g1"], f"the records are {exchange.printed()}")


# ---- many at once

# Calling addresses that the calls have.
CALLING = ("", "300010", "300012", "300020", "300030", "300040", "300041", "300060", "300061", "999", INSIDE)


class Caller(threading.Thread):
    """Calls one after the other, each to an address that nobody has, by which its record is found. What is wrong ends it."""

    def __init__(self, exchange, numbers, seed):
        super().__init__(daemon=True)
        self.exchange, self.numbers, self.choose = exchange, numbers, random.Random(seed)
        self.lines, self.refusals, self.wrong = {}, collections.Counter(), None

    def run(self):
        try:
            for number in self.numbers:
                self.call(f"99{number:08}")
        except (Wrong, OSError) as wrong:
            self.wrong = wrong

    def call(self, dialled):
        router, calling, modulus = self.choose.choice((FIRST, SECOND, THIRD)), self.choose.choice(CALLING), self.choose.choice((8, 8, 8, 128))
        lines = lines_for(router, calling, modulus)
        if lines:
            self.lines[dialled] = lines
        while True:
            call = RouterCall(self.exchange.routers[router], calling, dialled, modulus, self.choose.randrange(4096))
            call.put(call.request)
            packet = call.expect("clear")
            call.confirm(PATIENCE)
            told, refusal = (packet.cause, packet.diagnostic), NO_CALLER if lines is None else NO_FREE_LINE
            if told != refusal.told:
                wanted = BARRED if any(name.startswith("b") for name in lines or ()) else NOT_OBTAINABLE
                require(lines and told == wanted, f"a call of {calling or 'nobody'} from {router}, modulo {modulus}, is told {told}")
                return
            self.refusals[refusal.words] += 1
            if not lines:
                return
            time.sleep(0.005)  # its lines all have a call


def many_at_once(program, folder, calls, at_once, seed):
    """Calls of three routers with calling addresses at random, at once: each is answered, and each record is of a line of its caller."""
    with Behind(program, folder, MANY) as exchange:
        callers = [Caller(exchange, range(place, calls, at_once), seed + place) for place in range(at_once)]
        for caller in callers:
            caller.start()
        for caller in callers:
            caller.join()
            require(caller.wrong is None, f"{caller.wrong}; {exchange.said()[-1500:]}")
        wanted = {dialled: lines for caller in callers for dialled, lines in caller.lines.items()}
        refusals = sum((caller.refusals for caller in callers), collections.Counter())
        if "notices of lines were left out" not in exchange.told():
            exchange.has_counted(refusals)
        require(exchange.end() == 0, f"it ended badly; {exchange.said()[-1500:]}")
        records = exchange.records()
        require(sorted(record.number for record in records) == list(range(1, len(wanted) + 1)), f"{len(records)} records of {len(wanted)} calls")
        found = {record.dialled: record.caller for record in records}
        strangers = [record for record in records if record.caller not in wanted.get(record.dialled, ())]
        require(len(found) == len(wanted) and not strangers, f"of {len(records)} records of {len(wanted)} calls, {strangers[:3]} are of others")
    print(f"  seed {seed}: {calls:,} calls, of which {len(wanted):,} had a line; {sum(refusals.values()):,} refusals")


def main():
    parser = argparse.ArgumentParser(description=__doc__.splitlines()[0])
    parser.add_argument("--xp", default=str(server.PROGRAM), help=f"the program ({server.DEFAULT})")
    parser.add_argument("--calls", type=int, default=10_000, help="calls with calling addresses at random (default: 10,000)")
    parser.add_argument("--at-once", type=int, default=8, help="how many of them at once (default: 8)")
    parser.add_argument("--seed", type=int, help="what the calling addresses follow from (default: at random)")
    arguments = parser.parse_args()
    seed = random.SystemRandom().randrange(1 << 32) if arguments.seed is None else arguments.seed
    many = functools.partial(many_at_once, calls=arguments.calls, at_once=arguments.at_once, seed=seed)
    functools.update_wrapper(many, many_at_once)
    checks = (
        lines_of_callers, routers_by_ipv6, lowest_free_line, refusals_to_the_octet, how_refusals_end, refused_calls_hold_nothing,
        calls_to_the_router, no_call_request, many,
    )
    with tempfile.TemporaryDirectory() as folder:
        run_checks(checks, arguments.xp, folder)


if __name__ == "__main__":
    sys.exit(main())
