#!/usr/bin/env python3
"""Two machines with an exchange each, and an address that keepalived moves between them, by examples/keepalived.conf.

Each machine and the hosts of the lines have a network namespace, joined by a bridge. Calls are made while one machine is killed, comes
back, gives the address away and loses its network. It takes root, keepalived and the programs of iproute2 and util-linux; where one of
these is not here, that is told, and nothing is looked at. README.md says what is checked.
"""

import argparse
import collections
import csv
import ctypes
import os
import pathlib
import re
import signal
import subprocess
import sys
import tempfile
import time

import server
from checks import LeftOut, need, need_root
from lines_anew import Hosts
from machine import Machine, be_first, ip
from routers import Wrong
from served import require, until

CONFIGURATION = server.HERE.parent.parent / "examples/keepalived.conf"

# The network of the namespaces, of addresses for examples (RFC 5737): that of the hosts, that which moves, and those of the machines.
HOSTS, SHARED, OWN = "198.51.100.9", "198.51.100.1", {"first": "198.51.100.2", "second": "198.51.100.3"}

# The ports of the lines, and how many pairs there are.
BASE, PAIRS = 19_981, 16

# Seconds within which all lines have to be back, after the address had to move.
BACK = 5

# Seconds that programs may take to start, or to stop where nobody hears them.
PATIENCE = 40

# How long calls go on, in seconds, before something happens to them: what lives on through a kill is a second old at most.
LONG, OLD = 2.2, 2

# By which a run that was killed is told: a namespace has its process id in its name.
NAMESPACE = re.compile(r"xp2-(\d+)(-\w+)?")

CLONE_NEWNET = 0x40000000

Told = collections.namedtuple("Told", "calls exchange ended_by cause moment")


def remove_what_is_left():
    """Removes the namespaces of runs that were killed. Their processes have ended with them."""
    for name in subprocess.run(["ip", "netns", "list"], check=True, capture_output=True, text=True).stdout.split():
        if (found := NAMESPACE.fullmatch(name)) and not os.path.exists(f"/proc/{found[1]}"):
            ip("netns", "delete", name)


def enter(space):
    """From now on this process's connections are in that network namespace."""
    with open(f"/run/netns/{space}", "rb") as opened:
        if ctypes.CDLL(None, use_errno=True).setns(opened.fileno(), CLONE_NEWNET):
            raise OSError(ctypes.get_errno(), f"setns to {space}")


def configuration(priority, program):
    """That of examples/keepalived.conf for these machines."""
    text = CONFIGURATION.read_text(encoding="utf-8")
    changes = {"192.0.2.1": SHARED, "priority 150": f"priority {priority}", "/usr/bin/xp status": f"{program} status"}
    # A machine that does other things too may have the exchange answer late.
    changes["fall 3"] = "fall 12"
    for old, new in changes.items():
        require(old in text, f"{CONFIGURATION.name} has no {old}")
        text = text.replace(old, new)
    return text


class Network:
    """The namespace of the hosts with a bridge, and both machines at it, for as long as the block."""

    def __init__(self, program, folder):
        self.program, self.space = pathlib.Path(program).absolute(), f"xp2-{os.getpid()}"
        subscriptions = server.subscriptions(PAIRS, BASE).replace(" }]", f', from = ["{HOSTS}"] }}]')
        (folder / "subscriptions.toml").write_text(f'host = "{SHARED}"\n{subscriptions}')
        self.machines = {name: Machine(name, self.space, own, folder) for name, own in OWN.items()}
        for name, priority in (("first", 150), ("second", 100)):
            (folder / name / "keepalived.conf").write_text(configuration(priority, self.program))

    def __enter__(self):
        remove_what_is_left()
        ip("netns", "add", self.space)
        try:
            ip("-n", self.space, "link", "add", "bridge", "type", "bridge")
            ip("-n", self.space, "address", "add", f"{HOSTS}/24", "dev", "bridge")
            ip("-n", self.space, "link", "set", "bridge", "up")
            for name, state in (("first", "MASTER"), ("second", "BACKUP")):
                self.start(name)
                until(lambda it=self.machines[name], state=state: it.state() == state, f"the {name} machine is no {state}", PATIENCE)
        except BaseException:
            self.__exit__()
            raise
        return self

    def __exit__(self, *_):
        for it in self.machines.values():
            it.remove()
        ip("netns", "delete", self.space)

    def start(self, name):
        """Starts a machine, as it starts after a loss of power."""
        machine = self.machines[name]
        machine.start(__file__, self.program)
        for which in ("exchange", "keepalived"):
            machine.ask(f"start {which}")
            until(machine.has_done, f"the {name} machine does not start its {which}", PATIENCE)
            # So keepalived finds that it answers at its first look.
            until(machine.is_serving, f"the exchange of the {name} machine does not serve", PATIENCE)

    def holders(self):
        """The machines that have the address."""
        return [name for name, it in self.machines.items() if it.is_on() and it.has(SHARED)]


class Trial:
    """What happens to the machines, one thing after the other, and the calls that there were."""

    def __init__(self, network, hosts, has_partial):
        self.network, self.hosts, self.has_partial = network, hosts, has_partial
        self.first, self.second = network.machines.values()
        self.told = []

    def expect(self, calls, exchange, ended_by, cause="00", moment=None):
        """These calls have their records there, since they ended so, or were live at that moment."""
        self.told.append(Told(calls, exchange, ended_by, cause, moment))

    def is_told(self, told):
        """Whether these calls have records."""
        return told.ended_by != "partial" or self.has_partial

    def back(self, what, since, *holders, seconds=BACK):
        """All lines come back, and it is told when. These machines have the address then."""
        self.hosts.run_until(lambda: self.hosts.are_up_since(since), f"all lines are up after {what}", seconds)
        last = max(it.up_at for it in self.hosts.lines) - since
        require(self.network.holders() == list(holders), f"the address is with {self.network.holders()} after {what}")
        print(f"{what}: all {len(self.hosts.lines)} lines are up after {last:.1f} seconds", flush=True)

    def whole_calls(self, exchange):
        """Each caller has a call, from its request to its clearing."""
        calls = self.hosts.call()
        self.hosts.run_for(0.5)
        self.hosts.clear(calls)
        self.expect(calls, exchange, "call")

    def live_calls(self, standby=None):
        """Each caller has a call that goes on. This machine could take the address."""
        calls = self.hosts.call()
        self.hosts.run_for(LONG)
        if standby:
            self.hosts.run_until(lambda: standby.state() == "BACKUP", f"the {standby.name} machine could take the address", PATIENCE)
        return calls

    def ask(self, machine, words):
        """Has a machine start or stop something, while the lines go on."""
        machine.ask(words)
        self.hosts.run_until(machine.has_done, f"the {machine.name} machine does: {words}", PATIENCE)

    def records_of(self, machine):
        file = machine.folder / "calls.csv"
        return list(csv.DictReader(file.read_text().splitlines())) if file.exists() else []

    def until_records(self, machine, count):
        self.hosts.run_until(lambda: len(self.records_of(machine)) >= count, f"{count} records of the {machine.name} machine", PATIENCE)

    def begin(self):
        """both machines start: the lines are at the first, and have calls"""
        self.back("the start of both", time.monotonic(), "first", seconds=PATIENCE)
        self.whole_calls("first")

    def kill(self):
        """the first is killed under 16 calls: the lines are back on the second within 5 seconds, and call anew"""
        calls, moment = self.live_calls(self.second), time.monotonic()
        self.first.kill()
        self.expect(calls, "first", "partial", "09", moment)
        self.back("the first machine is killed", moment, "second")
        self.whole_calls("second")

    def come_back(self):
        """the first comes back: the address stays, and calls go on"""
        calls = self.live_calls()
        self.first.remove()
        self.network.start("first")
        self.hosts.run_until(lambda: self.first.state() == "BACKUP", "the first machine could take the address", PATIENCE)
        self.hosts.run_for(1)
        if self.has_partial:
            self.until_records(self.first, 2 * PAIRS)
        require(self.network.holders() == ["second"], f"the address is with {self.network.holders()}")
        self.hosts.clear(calls)
        self.expect(calls, "second", "call")

    def give_away(self):
        """the second gives the address away, after a clean stop of its exchange"""
        calls, moment = self.live_calls(self.first), time.monotonic()
        for words in ("stop exchange", "stop keepalived", "start keepalived", "start exchange"):
            self.ask(self.second, words)
        self.expect(calls, "second", "stop", "09")
        self.back("the second gives the address away", moment, "first")
        self.whole_calls("first")

    def lose_network(self):
        """the first loses its network, and not its power: its exchange is told, and its calls have their records"""
        calls, moment = self.live_calls(self.second), time.monotonic()
        self.first.unplug()
        self.expect(calls, "first", "call", "09")
        self.back("the first machine loses its network", moment, "second")
        self.until_records(self.first, sum(len(it.calls) for it in self.told if it.exchange == "first" and self.is_told(it)))
        self.first.plug()
        self.whole_calls("second")
        require(self.network.holders() == ["second"], f"the address is with {self.network.holders()}")

    def part(self):
        """the second hears nobody, and keeps the address; as it hears the first again, it gives it up, and its calls have their records"""
        calls, moment = self.live_calls(self.first), time.monotonic()
        self.second.detach()
        self.expect(calls, "second", "call", "09")
        self.back("the second machine hears nobody", moment, "first", "second")
        self.whole_calls("first")
        self.second.attach()
        self.until_records(self.second, sum(len(it.calls) for it in self.told if it.exchange == "second"))
        self.hosts.run_until(lambda: self.network.holders() == ["first"], "the address is with the first machine alone", PATIENCE)

    def joined(self):
        """both exchanges stop: their records, joined, have every call once"""
        for it in self.network.machines.values():
            self.ask(it, "stop keepalived")
            self.ask(it, "stop exchange")
        records, names = collections.defaultdict(list), set()
        for machine in self.network.machines.values():
            for row in self.records_of(machine):
                require(row.setdefault("exchange", machine.name) == machine.name, f"a record of another exchange: {row}")
                names.add((row["exchange"], row["started"], row["number"]))
                records[row["caller_line"]].append(row)
        wanted = [it for it in self.told if self.is_told(it)]
        require(len(names) == sum(map(len, records.values())), "a record is there twice")
        require(set(records) == {it.name for it in self.hosts.callers}, "a caller has no records, or a line that has called nobody has one")
        for place, line in enumerate(self.hosts.callers):
            rows = sorted(records[line.name], key=lambda row: (row["requested"], row["started"], int(row["number"])))
            require(len(rows) == len(wanted), f"{len(rows)} records of the {len(wanted)} calls of {line.name}")
            for row, told in zip(rows, wanted):
                check(row, told.calls[place], told)
        left_out = "" if self.has_partial else f"; the {PAIRS} that were live at the kill have none, as this program writes no partial records"
        print(f"{len(names)} records of {sum(len(it.calls) for it in self.told)} calls{left_out}", flush=True)


def check(row, call, told):
    """The record is of this call."""
    segments, most = int(row["segments_from_caller"]), call.sent
    least = len(call.acknowledged)
    if told.ended_by == "partial":
        least = sum(moment < told.moment - OLD for moment in call.acknowledged)
    require(row["exchange"] == told.exchange, f"the call is not of the exchange {told.exchange}: {row}")
    require(least <= segments <= most, f"the call has {least} to {most} segments: {row}")
    require(row["cause"] == told.cause, f"the call has the cause {told.cause}: {row}")
    require(row.get("ended_by", told.ended_by) == told.ended_by, f"the call was ended by {told.ended_by}: {row}")


def try_all(program, folder):
    help_of_serve = subprocess.run([program, "serve", "--help"], capture_output=True, text=True)
    network, step = Network(program, folder), "start"
    try:
        with network:
            enter(network.space)
            trial = Trial(network, Hosts(PAIRS, SHARED, BASE), "--live" in help_of_serve.stdout + help_of_serve.stderr)
            for it in (trial.begin, trial.kill, trial.come_back, trial.give_away, trial.lose_network, trial.part, trial.joined):
                step = it.__name__
                it()
                print(f"{step}: {it.__doc__}", flush=True)
    except (Wrong, OSError, subprocess.CalledProcessError) as wrong:
        sys.exit("\n".join([f"{step}: {wrong}", *(machine.said() for machine in network.machines.values())]))


def main():
    parser = argparse.ArgumentParser(description=__doc__.splitlines()[0])
    parser.add_argument("--xp", default=str(server.PROGRAM), help=f"the built program ({server.DEFAULT})")
    parser.add_argument("--as-first-of", help=argparse.SUPPRESS)
    parser.add_argument("--folder", type=pathlib.Path, help=argparse.SUPPRESS)
    arguments = parser.parse_args()
    if arguments.as_first_of:
        return be_first(arguments.as_first_of, arguments.folder, arguments.xp)
    try:
        need_root()
        need("keepalived", "ip", "ss", "unshare", "setpriv")
    except LeftOut as why:
        print(f"left out: {why}")
        return None
    if not pathlib.Path(arguments.xp).is_file():
        sys.exit(f"there is no program {arguments.xp}")
    # A run that is told to end removes its namespaces too.
    signal.signal(signal.SIGTERM, lambda number, _: sys.exit(128 + number))
    with tempfile.TemporaryDirectory() as folder:
        try_all(arguments.xp, pathlib.Path(folder))
    return None


if __name__ == "__main__":
    main()
