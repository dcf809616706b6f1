#!/usr/bin/env python3
"""Measures `xp serve` beside a bare relay of octets: packets per second, round trips, crossings, what idle lines cost.

Both are played the same octets over loopback, in turn, in one run. README.md says what the figures mean.
"""

import argparse
import collections
import json
import os
import socket
import statistics
import subprocess
import sys
import tempfile
import time

import server

# Pairs of lines, window, milliseconds between packets (0: as many as the window lets through), threads of the load, words of `xp serve`,
# and on how many of the machine's first processors what serves runs, and on how many of its last ones the load does (0: on all).
Load = collections.namedtuple("Load", "pairs window gap threads words serving loading", defaults=(0, os.cpu_count(), (), 0, 0))

PROCESSORS = sorted(os.sched_getaffinity(0))

# Threads of the load where calls press on a server that has all processors.
PRESSING = 32

LOADS = {
    "window-1": Load(1, 1),
    "window-7": Load(1, 7),
    "calls-16": Load(16, 7),
    "calls-128": Load(128, 7),
    "crossing-10": Load(1, 1, 10),
    "crossing-100": Load(1, 1, 100),
}
# These have to be named, or asked for by `--pinned`.
PINNED = {
    "one-core": Load(32, 7, serving=1, loading=3, threads=PRESSING),
    "two-cores": Load(32, 7, serving=2, loading=2, threads=PRESSING),
    "four-threads": Load(32, 7, threads=PRESSING),
    "two-threads": Load(32, 7, threads=PRESSING, words=("--threads", 2)),
    "lines-threads": Load(32, 7, threads=PRESSING, words=("--threads", "lines")),
}
IDLE = "idle"

# The round trip at window 1 may take so many times the relay's.
MOST_TIMES = 1.35
# Of the relay's packets a second so many have to pass.
LEAST_SHARES = {"calls-16": 0.8, "calls-128": 0.7, "one-core": 0.85, "four-threads": 0.8}

# So many times as many rounds as are wanted may be left out.
MOST_OTHERS = 20

# What is charged for a packet of 128 octets.
SEGMENTS = 2

TITLES = ("", "", "packets/s", "mean", "median", "99 %", "most", "processor", "stolen %")


def play(program, served, load, seconds):
    """What the load generator tells of one run, and the processor time of the program that was served, for a packet."""
    command = [program, served.base, load.pairs, load.window, seconds, min(load.threads, load.pairs), *([load.gap] if load.gap else [])]
    before, stolen, begun = served.processor(), server.stolen(), time.monotonic()
    run = subprocess.run(server.on(PROCESSORS[-load.loading :] if load.loading else (), command), capture_output=True, text=True)
    if run.returncode != 0:
        sys.exit(f"the load ended with status {run.returncode}: {run.stderr.strip()}; {served.said()}")
    told = json.loads(run.stdout)
    packets = sum(told["packets"])
    told["rate"] = packets / told["seconds"]
    told["processor"] = (served.processor() - before) / packets * 1e6
    told["stolen"] = 100 * (server.stolen() - stolen) / (time.monotonic() - begun) / os.cpu_count()
    return told


def check_records(records, packets):
    """Each call has one record, of what its caller sent."""
    found = sorted((record.caller, record.called, record.sent, record.received, record.cause) for record in records)
    wanted = sorted((f"a{pair}", f"b{pair}", SEGMENTS * count, 0, 0) for pair, count in enumerate(packets))
    if found != wanted:
        sys.exit(f"the records are not those of the calls: {found} for {wanted}")


def measure(programs, load, seconds, folder):
    """One run of a load over the relay, and one over the exchange."""
    processors = PROCESSORS[: load.serving]
    threads = min(len(processors or PROCESSORS), load.pairs)
    with server.Relay(programs["relay"], folder, load.pairs, threads, processors) as relay:
        over_relay = play(programs["load"], relay, load, seconds)
    with server.Exchange(programs["xp"], folder, load.pairs, load.pairs, load.words, processors) as exchange:
        over_exchange = play(programs["load"], exchange, load, seconds)
        check_records(exchange.records(), over_exchange["packets"])
    return over_relay, over_exchange


def middle(runs):
    """The median of each figure over the rounds, but the most of the greatest times."""
    figures = {name: statistics.median(run[name] for run in runs) for name in ("rate", "mean", "median", "p99", "processor", "stolen")}
    return {**figures, "most": max(run["most"] for run in runs)}


def row(*fields):
    print("{:<14}{:<10}{:>12}{:>10}{:>10}{:>10}{:>10}{:>11}{:>10}".format(*fields), flush=True)


def tell(name, of, figures):
    columns = ("rate", "mean", "median", "p99", "most", "processor")
    row(name, of, *(f"{figures[column]:,.0f}" for column in columns), f"{figures['stolen']:.1f}")


def tell_goal(what, is_reached):
    print(f"{'':<14}{what}: {'reached' if is_reached else 'MISSED'}", flush=True)


def tell_goals(name, relay, exchange):
    share, times = exchange["rate"] / relay["rate"], exchange["mean"] / relay["mean"]
    if name.startswith("crossing"):
        tell_goal(f"99 % cross in {exchange['p99']:,.0f} microseconds, under 1,000", exchange["p99"] < 1_000)
    elif name == "window-1":
        tell_goal(f"round trip {times:.2f} times the relay's, at most {MOST_TIMES}", times <= MOST_TIMES)
    elif name in LEAST_SHARES:
        least = LEAST_SHARES[name]
        tell_goal(f"{share:.2f} of the relay's packets, at least {least}", share >= least)
    else:
        print(f"{'':<14}{share:.2f} of the relay's packets", flush=True)


def quiet_rounds(programs, load, arguments, folder):
    """So many rounds in which the host took no more than the share that is let pass, and how many others there were."""
    kept, others = [], 0
    while len(kept) < arguments.rounds:
        runs = measure(programs, load, arguments.seconds, folder)
        if max(run["stolen"] for run in runs) <= arguments.stolen:
            kept.append(runs)
        else:
            others += 1
            if others == MOST_OTHERS * arguments.rounds:
                sys.exit(f"the host took more than {arguments.stolen:g} % of the processors in {others} rounds")
    return kept, others


def compare(programs, name, load, arguments, folder):
    runs, others = quiet_rounds(programs, load, arguments, folder)
    relay, exchange = (middle(of) for of in zip(*runs))
    tell(name, "relay", relay)
    tell("", "exchange", exchange)
    if others > 0:
        print(f"{'':<14}{others} more rounds left out, in which the host took more than {arguments.stolen:g} %")
    tell_goals(name, relay, exchange)


def rise(connection):
    """Waits until a line is up: a clear request of a line without a call is confirmed, and counts for nothing."""
    connection.sendall(server.frame(server.CLEAR_REQUEST))
    confirmation = server.frame(server.CLEAR_CONFIRMATION)
    if connection.recv(len(confirmation), socket.MSG_WAITALL) != confirmation:
        sys.exit("a line without a call has not had its clear request confirmed")


def idle(programs, seconds, folder):
    """The share of a core that the exchange takes while all lines are connected and nothing comes. In the end a call
    to nobody makes the record that ends it."""
    with server.Exchange(programs["xp"], folder, server.MOST_PAIRS, 1) as exchange:
        connections = [exchange.connect(exchange.base + line) for line in range(2 * server.MOST_PAIRS)]
        for connection in connections:
            rise(connection)
        time.sleep(0.5)
        before, begun = exchange.processor(), time.monotonic()
        time.sleep(seconds)
        share = 100 * (exchange.processor() - before) / (time.monotonic() - begun)
        connections[0].sendall(server.frame(server.call_request("99")))
        refused = [(record.called, record.cause) for record in exchange.records()]
        if refused != [("-", 0x0D)]:
            sys.exit(f"the call to nobody is recorded as {refused}")
        for connection in connections:
            connection.close()
    return share


def tell_idle(programs, seconds, rounds, folder):
    share = statistics.median(idle(programs, seconds, folder) for _ in range(rounds))
    print(f"{IDLE:<14}{2 * server.MOST_PAIRS} connected lines take {share:.2f} % of a core")
    tell_goal("under 5 %", share < 5)


def main():
    parser = argparse.ArgumentParser(description=__doc__.splitlines()[0])
    parser.add_argument("--xp", default=str(server.PROGRAM), help=f"the built program ({server.DEFAULT})")
    parser.add_argument("--seconds", type=float, default=5, help="how long each run sends (default: 5)")
    parser.add_argument("--rounds", type=int, default=3, help="runs of each measurement, of which the median is told (default: 3)")
    parser.add_argument("--stolen", type=float, default=100, help="leave rounds out in which the host of a virtual machine took more than so many percent of its processors")
    parser.add_argument("--only", choices=[*LOADS, *PINNED, IDLE], action="append", help="this measurement only; may be given again")
    parser.add_argument("--pinned", action="store_true", help="the measurements with processors and threads of their own, on four processors at least")
    arguments = parser.parse_args()

    with tempfile.TemporaryDirectory() as folder:
        programs = {name: server.compiled(name, folder) for name in ("relay", "load")}
        programs["xp"] = arguments.xp
        print(f"rounds of {arguments.seconds:g} seconds: {arguments.rounds}; times in microseconds; processor: microseconds a packet")
        row(*TITLES)
        for name in arguments.only or (PINNED if arguments.pinned else [*LOADS, IDLE]):
            if name == IDLE:
                tell_idle(programs, arguments.seconds, arguments.rounds, folder)
            else:
                compare(programs, name, {**LOADS, **PINNED}[name], arguments, folder)


if __name__ == "__main__":
    main()
