#!/usr/bin/env python3
"""Measures calls by XOT routers, each in connections of its own, beside a bare TCP proxy that opens a connection for each connection.

Both are played the same octets over loopback, in turn, in one run. README.md says what the figures mean.
"""

import argparse
import json
import os
import pathlib
import statistics
import subprocess
import sys
import tempfile
import time

import server

EXCHANGE, CALLER, CALLED = "127.0.0.1", "127.0.0.2", "127.0.0.3"
CALLER_ADDRESS, CALLED_ADDRESS = "300001", "300002"

# A line of a call that has just ended may not be free yet when the next one comes, so there are more lines than calls at once.
LINES = 32

# What is charged for a packet of 128 octets.
SEGMENTS = 2

# Seconds in which an exchange has to stop.
PATIENCE = 10

GOAL = 0.4


class Proxy(server.Process):
    """The bare proxy, to a port of the called router."""

    def __init__(self, program, folder, calls, to):
        self.port = server.free_ports(1)
        super().__init__([program, self.port, CALLED, to, calls + LINES], folder)


class Exchange(server.Process):
    """`xp serve` over lines behind the two routers, until its standard input ends."""

    def __init__(self, program, folder, to):
        if not pathlib.Path(program).is_file():
            sys.exit(f"there is no program {program}")
        self.port = server.free_ports(1)
        self.errors, self.output = pathlib.Path(folder) / "errors", pathlib.Path(folder) / "output"
        file = pathlib.Path(folder) / "subscriptions.toml"
        file.write_text(f'host = "{EXCHANGE}"\nxot_port = {self.port}\n' + stations(to))
        with self.errors.open("w") as errors, self.output.open("w") as output:
            command = [str(program), "serve", str(file), "--until-eof"]
            self.process = subprocess.Popen(command, stdin=subprocess.PIPE, stdout=output, stderr=errors)

    def records(self):
        """Stops it, and returns its records."""
        self.process.stdin.close()
        if self.process.wait(PATIENCE) != 0:
            sys.exit(f"the exchange ended badly; {self.said()}")
        return [server.read_record(line) for line in self.output.read_text().splitlines()]


def stations(to):
    """The stations of both routers."""
    text = ""
    for address, name, router in ((CALLER_ADDRESS, "x", CALLER), (CALLED_ADDRESS, "y", f"{CALLED}:{to}")):
        lines = ", ".join(f'{{ name = "{name}{number}", router = "{router}" }}' for number in range(LINES))
        text += f'\n[[station]]\naddress = "{address}"\nline = [{lines}]\n'
    return text


def play(program, served, to, arguments):
    """What the load tells of one run, and the processor time of the program that was served, for a call."""
    served.connect(served.port).close()
    command = [program, EXCHANGE, served.port, CALLER, CALLED, to, CALLED_ADDRESS, arguments.calls, arguments.data, arguments.seconds]
    before, stolen, begun = served.processor(), server.stolen(), time.monotonic()
    run = subprocess.run([str(part) for part in command], capture_output=True, text=True)
    if run.returncode != 0:
        sys.exit(f"the load ended with status {run.returncode}: {run.stderr.strip()}; {served.said()[-1500:]}")
    told = json.loads(run.stdout)
    told["rate"] = told["calls"] / told["seconds"]
    told["processor"] = (served.processor() - before) / told["calls"] * 1e6
    told["stolen"] = 100 * (server.stolen() - stolen) / (time.monotonic() - begun) / os.cpu_count()
    return told


def check_records(records, told, data):
    """Each call that was answered has one record, with its segments. A call that was turned away has at most one."""
    answered = [record for record in records if record.cause == 0]
    if len(answered) != told["calls"] or any((record.sent, record.received) != (SEGMENTS * data, 0) for record in answered):
        sys.exit(f"{len(answered)} records of {told['calls']} calls, or others than theirs")
    if len(records) - len(answered) > told["turned_away"] or len({record.number for record in records}) != len(records):
        sys.exit("there are records of no call")


def measure(programs, arguments, folder):
    """One run over the proxy, and one over the exchange."""
    to = server.free_ports(1)
    with Proxy(programs["proxy"], folder, arguments.calls, to) as proxy:
        over_proxy = play(programs["router_load"], proxy, to, arguments)
    to = server.free_ports(1)
    with Exchange(arguments.xp, folder, to) as exchange:
        over_exchange = play(programs["router_load"], exchange, to, arguments)
        check_records(exchange.records(), over_exchange, arguments.data)
    return over_proxy, over_exchange


def tell(of, runs):
    rate, mean, processor, stolen = (statistics.median(run[name] for run in runs) for name in ("rate", "mean", "processor", "stolen"))
    slow, turned = max(run["p99"] for run in runs), sum(run["turned_away"] for run in runs)
    print(f"{of:<10}{rate:>10,.0f}{mean:>10,.0f}{slow:>10,.0f}{turned:>13,}{processor:>11,.0f}{stolen:>10.1f}", flush=True)
    return rate


def main():
    parser = argparse.ArgumentParser(description=__doc__.splitlines()[0])
    parser.add_argument("--xp", default=str(server.PROGRAM), help=f"the built program ({server.DEFAULT})")
    parser.add_argument("--calls", type=int, default=8, help="calls at once (default: 8)")
    parser.add_argument("--data", type=int, default=2, help="data packets of each call, 0 to 7 (default: 2)")
    parser.add_argument("--seconds", type=float, default=4, help="how long each run places calls (default: 4)")
    parser.add_argument("--rounds", type=int, default=3, help="runs, of which the median is told (default: 3)")
    arguments = parser.parse_args()

    with tempfile.TemporaryDirectory() as folder:
        programs = {name: server.compiled(name, folder) for name in ("proxy", "router_load")}
        runs = [measure(programs, arguments, folder) for _ in range(arguments.rounds)]
    print(f"{arguments.calls} calls at once, each with {arguments.data} data packets; times in microseconds")
    print(f"{'':<10}{'calls/s':>10}{'mean':>10}{'99 %':>10}{'turned away':>13}{'processor':>11}{'stolen %':>10}")
    over_proxy, over_exchange = (tell(of, of_runs) for of, of_runs in zip(("proxy", "exchange"), zip(*runs)))
    share = over_exchange / over_proxy
    print(f"{share:.2f} of the proxy's calls a second, at least {GOAL}: {'reached' if share >= GOAL else 'MISSED'}")


if __name__ == "__main__":
    main()
