#!/usr/bin/env python3
"""Counts the instructions that `xp replay` takes for an event, with valgrind's callgrind.

Scripts of two lengths are replayed, and the difference of the counts is divided by that of the events, so that the
start of the program does not count. A count of instructions is the same on every machine and at every load, where a
time is not.
"""

import argparse
import pathlib
import re
import subprocess
import sys
import tempfile

from program import DEFAULT, PROGRAM

FEW, MANY = 1_000, 3_000


def frame(octets):
    """A packet as a frame (RFC 1613), in hexadecimal."""
    packet = bytes.fromhex(octets)
    return (b"\0\0" + len(packet).to_bytes(2, "big") + packet).hex()


ACCEPTED = frame("10010f")
CLEAR = frame("1001130000")
CONFIRMATION = frame("100117")


def request(pair):
    """A call request to the called line of a pair, without a calling address, facilities or user data."""
    return frame(f"10010b0630{pair:04}00")


def subscriptions(pairs):
    """A subscription file of so many pairs of lines, those that call and those that are called."""
    stations = []
    for pair in range(pairs):
        if pair % 2 == 0:
            both = [place for place in (pair, pair + 1) if place < pairs]
            callers = ", ".join(f'{{ name = "a{place}", port = {10_000 + 2 * place} }}' for place in both)
            called = ", ".join(
                f'{{ name = "b{place}", port = {10_001 + 2 * place}, address = "30{place:04}" }}' for place in both
            )
            stations.append(f'[[station]]\naddress = "20{pair:04}"\nline = [{callers}]')
            stations.append(f'[[station]]\naddress = "9{pair:05}"\nline = [{called}]')
    return "\n".join(["journal = 10000000", *stations]) + "\n"


def begin(pair):
    return [f"in a{pair} {request(pair)}", f"in b{pair} {ACCEPTED}"]


def end(pair):
    return [f"in a{pair} {CLEAR}", f"in b{pair} {CONFIRMATION}"]


def script(calls, pairs, live):
    """So many calls, over the pairs in turn. If live, every pair has one all along, and each ends as the next begins."""
    lines = [f"up {side}{pair}" for pair in range(pairs) for side in "ab"]
    if live:
        lines += [line for pair in range(pairs) for line in begin(pair)]
    for call in range(calls):
        pair = call % pairs
        lines += end(pair) + begin(pair) if live else begin(pair) + end(pair)
    return lines


def instructions(program, folder, lines, profile):
    """How many instructions the replay of a script takes, its start included."""
    path = folder / "script"
    path.write_text("\n".join(lines) + "\n")
    command = ["valgrind", "--tool=callgrind", f"--callgrind-out-file={profile}", program, "replay", str(folder / "subscriptions.toml")]
    with path.open() as source:
        run = subprocess.run(command, stdin=source, stdout=subprocess.DEVNULL, stderr=subprocess.PIPE, text=True)
    found = re.search(r"Collected : (\d+)", run.stderr)
    if run.returncode != 0 or not found:
        sys.exit(f"status {run.returncode}: {run.stderr}")
    return int(found.group(1))


def main():
    parser = argparse.ArgumentParser(description=__doc__.splitlines()[0])
    parser.add_argument("--xp", default=str(PROGRAM), help=f"the built program ({DEFAULT})")
    parser.add_argument("--profile", type=pathlib.Path, help="a folder for callgrind's profiles, for callgrind_annotate")
    arguments = parser.parse_args()

    with tempfile.TemporaryDirectory() as made:
        folder = pathlib.Path(made)
        profiles = arguments.profile or folder
        profiles.mkdir(parents=True, exist_ok=True)
        for name, pairs, live in (("one call at a time", 1, False), ("256 calls live", 256, True)):
            (folder / "subscriptions.toml").write_text(subscriptions(pairs))
            profile = profiles / f"callgrind.{name.replace(' ', '-')}"
            few, many = script(FEW, pairs, live), script(MANY, pairs, live)
            counts = [instructions(arguments.xp, folder, lines, profile) for lines in (few, many)]
            print(f"{name}: {(counts[1] - counts[0]) / (len(many) - len(few)):.0f} instructions an event")


if __name__ == "__main__":
    main()
