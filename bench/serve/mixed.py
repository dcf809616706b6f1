#!/usr/bin/env python3
"""Plays rows of behaviour over TCP with hosts and a router mixed: the line b1 is behind a router (RFC 1613), and has a connection for
each call; the other lines are hosts', with a port of their own. What comes has to be what `xp replay` tells of the row.

README.md says which rows can be played so.
"""

import argparse
import collections
import pathlib
import re
import socket
import subprocess
import sys
import tempfile
import time
import tomllib
from concurrent.futures import ThreadPoolExecutor

import server
from routers import CLEAR, Router, Wrong, XotCall

ROWS = server.HERE.parent.parent / "crates/xp_rows/data"
EXCHANGE, ROUTER, ROUTER_LINE = "127.0.0.1", "127.0.0.3", "b1"

# Seconds in which the exchange has to stop.
PATIENCE = 10

# Seconds after an event of which nothing comes, so that the next one, of another line, is not taken before it.
BREATH = 0.05

CLEAR_CONFIRMATION = 0x17


class Unfit(Exception):
    """A row that can't be played so, and why."""


class Row:
    """A row of behaviour, with what `xp replay` tells of each line of its script."""

    def __init__(self, folder):
        try:
            self.file = (folder / "subs.toml").read_text()
        except (FileNotFoundError, UnicodeDecodeError):
            raise Unfit("no subscription file that can be read") from None
        if not (folder / "script").is_file():
            raise Unfit("no script")
        self.script = [line for line in (folder / "script").read_text(errors="replace").splitlines() if line and not line.startswith("#")]

    def check(self):
        """Tells why the row can't be played, if so."""
        words = [line.split(" ") for line in self.script]
        if f'"{ROUTER_LINE}"' not in self.file:
            raise Unfit(f"no line {ROUTER_LINE}")
        if "journal" in self.file or "router" in self.file:
            raise Unfit("a journal that gets full, or routers of its own")
        for line in words:
            if line[0] == "at":
                raise Unfit("moments of its own")
            if line[0] not in ("up", "down", "in"):
                raise Unfit("a time that is over, or a faulty line")
            if line[0] == "down" and line[1] == ROUTER_LINE:
                raise Unfit("the router's line goes down")
        first = next((place for place, line in enumerate(words) if line[0] == "in"), len(words))
        if [line for line in words[:first] if line == ["up", ROUTER_LINE]] != [["up", ROUTER_LINE]]:
            raise Unfit("the router's line is out of service at first")
        if any(line[:2] == ["up", ROUTER_LINE] for line in words[first:]):
            raise Unfit("the router's line comes up again")

    def replayed(self, program, file):
        """What comes of each line of the script: frames by line, and records."""
        outcome, before = [], 0
        for end in range(1, len(self.script) + 1):
            text = "\n".join(self.script[:end]) + "\n"
            run = subprocess.run([program, "replay", file], input=text, capture_output=True, text=True)
            if run.returncode != 0:
                raise Unfit("a script that is refused")
            told = run.stdout.splitlines()
            outcome.append(told[before:])
            before = len(told)
        return outcome


def without_seconds(frame):
    """A frame, without the seconds of a call's duration (facility C1): in the replay a call takes no time, and here it takes some."""
    return re.sub(rb"(\xc1\x04\0\0\0).", rb"\1\0", frame, flags=re.DOTALL)


def frames_in(octets):
    """The packets of whole frames. A header that no frame has makes the row unfit."""
    packets = []
    while octets:
        length = int.from_bytes(octets[2:4], "big")
        if len(octets) < 4 + length or octets[:2] != b"\0\0" or not 3 <= length <= 1028:
            raise Unfit("frames in pieces, or a header that no frame has")
        packets.append(octets[4:4 + length])
        octets = octets[4 + length:]
    return packets


class Play:
    """One row over sockets."""

    def __init__(self, program, folder, row):
        self.row = row
        lines = [line for station in tomllib.loads(row.file)["station"] for line in station["line"]]
        self.long = {line["name"] for line in lines if line.get("modulus") == 128}
        names = re.findall(r'name = "([a-z0-9]+)", port = \d+', row.file)
        self.base = server.free_ports(len(names) + 1)
        self.xot_port = self.base + len(names)
        self.router = Router(ROUTER, self.xot_port)
        self.ports = {name: self.base + place for place, name in enumerate(names)}
        self.connections = {}
        # Whether the router's line was told to clear, and has not confirmed it.
        self.is_cleared = False
        self.file = folder / "subscriptions.toml"
        self.file.write_text(f'host = "{EXCHANGE}"\nxot_port = {self.xot_port}\n' + re.sub(r'name = "([a-z0-9]+)", port = \d+', self.access, row.file))
        self.process = Served(program, folder, self.file)

    def access(self, found):
        name = found[1]
        where = f'router = "{ROUTER}:{self.router.port}"' if name == ROUTER_LINE else f"port = {self.ports[name]}"
        return f'name = "{name}", {where}'

    def come_up(self, name):
        if name == ROUTER_LINE:
            return
        if name in self.connections:
            raise Unfit("a line that is up comes up")
        line = XotCall(self.process.connect(self.ports[name]))
        # A clear request of a line without a call is confirmed, and counts for nothing: then the line is up.
        line.send(bytes([0x20 if name in self.long else 0x10]) + server.CLEAR_REQUEST[1:])
        line.expect(CLEAR_CONFIRMATION)
        self.connections[name] = line

    def go_down(self, name):
        if name not in self.connections:
            raise Unfit("a line that is down goes down")
        self.connections.pop(name).close()

    def hand_in(self, name, octets):
        packets = frames_in(octets) if name == ROUTER_LINE else []
        if name == ROUTER_LINE and name not in self.connections:
            self.connections[name] = self.router.connect()
        if name not in self.connections:
            raise Unfit("a line that is down sends")
        self.connections[name].connection.sendall(octets)
        # A clear request that meets a clear indication takes the place of its confirmation.
        endings = (CLEAR_CONFIRMATION, CLEAR) if self.is_cleared else (CLEAR_CONFIRMATION,)
        return name == ROUTER_LINE and any(packet[2] in endings for packet in packets)

    def take(self, name, frame):
        """The next frame that comes to a line."""
        if name == ROUTER_LINE and name not in self.connections:
            self.connections[name] = XotCall(self.router.listener.accept()[0])
        came = self.connections[name].octets(len(frame), PATIENCE)
        if without_seconds(came) != without_seconds(frame):
            raise Wrong(f"{name} was put {came.hex()} in place of {frame.hex()}")
        if name == ROUTER_LINE:
            self.is_cleared |= frame[6] == CLEAR
        return name == ROUTER_LINE and frame[6] == CLEAR_CONFIRMATION

    def play(self, outcome):
        """Plays the script. Returns its records."""
        records = []
        for line, told in zip(self.row.script, outcome):
            word, *rest = line.split(" ")
            is_over = False
            if word == "up":
                self.come_up(rest[0])
            elif word == "down":
                self.go_down(rest[0])
            elif word == "in":
                is_over = self.hand_in(rest[0], bytes.fromhex(rest[1]))
            if not told:
                time.sleep(BREATH)
            for text in told:
                kind, *fields = text.split(" ")
                if kind == "out":
                    is_over |= self.take(fields[0], bytes.fromhex(fields[1]))
                else:
                    records.append(text)
            if is_over:
                self.connections.pop(ROUTER_LINE).ends()
                self.is_cleared = False
        return records

    def end(self, wanted):
        came = self.process.stop(self.connections.values())
        without_seconds = [[text.rsplit(" ", 1)[0] for text in records] for records in (came[:len(wanted)], wanted)]
        if without_seconds[0] != without_seconds[1]:
            raise Wrong(f"the records are {came} in place of {wanted}")


class Served(server.Process):
    """`xp serve` on a file, until its standard input ends."""

    def __init__(self, program, folder, file):
        self.errors, self.output = folder / "errors", folder / "output"
        with self.errors.open("w") as errors, self.output.open("w") as output:
            self.process = subprocess.Popen([program, "serve", str(file), "--until-eof"], stdin=subprocess.PIPE, stdout=output, stderr=errors)

    def stop(self, connections):
        """Stops it. Its peers close their connections as it ends them. Returns the text of its records."""
        self.process.stdin.close()
        for connection in connections:
            connection.drain()
        if self.process.wait(PATIENCE) != 0:
            raise Wrong(f"it ended badly; {self.said()}")
        return self.output.read_text().splitlines()


def play(program, row, folder):
    row.check()
    original = folder / "original.toml"
    original.write_text(row.file)
    outcome = row.replayed(program, original)
    played = Play(program, folder, row)
    with played.process:
        with socket.create_server((ROUTER, played.router.port)) as played.router.listener:
            played.router.listener.settimeout(PATIENCE)
            played.end(played.play(outcome))


def outcome_of(program, place, most_lines):
    """Plays the row of this folder. Returns why it is not played and what went wrong, if so."""
    with tempfile.TemporaryDirectory() as folder:
        try:
            row = Row(place)
            if most_lines and len(row.script) > most_lines:
                return f"more than {most_lines} lines", None
            play(program, row, pathlib.Path(folder))
        except Unfit as why:
            return str(why), None
        except (Wrong, OSError) as why:
            return None, f"{place.name}: {why}"
    return None, None


def main():
    parser = argparse.ArgumentParser(description=__doc__.splitlines()[0])
    parser.add_argument("--xp", default=str(server.PROGRAM), help=f"the built program ({server.DEFAULT})")
    parser.add_argument("--row", action="append", help="this row only; may be given again")
    parser.add_argument("--most-lines", type=int, help="leave out rows whose script has more lines (default: none)")
    parser.add_argument("--jobs", type=int, default=1, help="rows that are played side by side (default: 1)")
    arguments = parser.parse_args()

    places = [it for it in sorted(ROWS.iterdir()) if not arguments.row or it.name in arguments.row]
    unfit, wrong, count = collections.Counter(), [], 0
    with ThreadPoolExecutor(arguments.jobs) as pool:
        for place, (left_out, fault) in zip(places, pool.map(lambda it: outcome_of(arguments.xp, it, arguments.most_lines), places)):
            if left_out:
                unfit[left_out] += 1
            elif fault:
                wrong.append(place.name)
                print(fault, flush=True)
            else:
                count += 1
    for why, rows in unfit.most_common():
        print(f"{rows:4} rows left out: {why}")
    print(f"{count:4} rows came out as `xp replay` tells them, with {ROUTER_LINE} behind a router")
    if wrong:
        sys.exit(f"{len(wrong)} rows did not: {' '.join(wrong)}")


if __name__ == "__main__":
    main()
