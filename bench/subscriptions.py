#!/usr/bin/env python3
"""Times `xp check` on the largest subscription file, and on one of half its size.

The largest has 4,096 stations with a line each, and 64 closed user groups in each station: 262,144 memberships.
Reading takes time in proportion to the file: groups are looked for by hashing, and only those of one station are compared
with one another. It fails where twice the file takes more than three times the processor time, and where a run prints other
counts than the file has.
"""

import argparse
import pathlib
import resource
import subprocess
import sys
import tempfile

from program import DEFAULT, PROGRAM

LINES_OF_STATION = 1
GROUPS_OF_STATION = 64
# A file of twice the size may take so many times the time. Every pair compared would take four times.
MOST_RATIO = 3


def station(number, distinct):
    """The table of a station, in which nothing is used twice."""
    lines = []
    for place in range(LINES_OF_STATION):
        line = number * LINES_OF_STATION + place
        lines.append(f'  {{ name = "line{line}", port = {10_000 + line}, address = "3{line:05}" }},')
    groups = []
    for place in range(GROUPS_OF_STATION):
        name = f"G{number}x{place}" if distinct else f"G{place}"
        groups.append(f'  {{ name = "{name}", index = {place} }},')
    return "\n".join(
        ["[[station]]", f'address = "2{number:05}"', "line = [", *lines, "]", "group = [", *groups, "]"]
    )


def file_of(stations, distinct):
    """A subscription file of so many stations; their groups are all different, or the same 64 in each."""
    return "\n".join(station(number, distinct) for number in range(stations)) + "\n"


def time_of_children():
    """The processor time of all runs so far, in seconds. The kernel knows the sum exactly, and guesses which part of it is the system's."""
    usage = resource.getrusage(resource.RUSAGE_CHILDREN)
    return usage.ru_utime + usage.ru_stime


def best_time(program, path, runs, expected):
    """The least processor time in seconds of some runs, each of which has to print what is expected."""
    times = []
    for _ in range(runs):
        start = time_of_children()
        run = subprocess.run([program, "check", str(path)], capture_output=True, text=True, check=False)
        times.append(time_of_children() - start)
        if run.returncode != 0 or run.stdout != expected:
            sys.exit(f"{path.name}: status {run.returncode}, {run.stdout!r}, {run.stderr!r}; wanted {expected!r}")
    return min(times)


def main():
    parser = argparse.ArgumentParser(description=__doc__.splitlines()[0])
    parser.add_argument("--xp", default=str(PROGRAM), help=f"the built program ({DEFAULT})")
    parser.add_argument("--runs", type=int, default=3, help="how often each file is read; the least time counts")
    parser.add_argument("--stations", type=int, default=4_096, help="stations of the largest file (default: 4,096)")
    parser.add_argument("--keep", type=pathlib.Path, help="a folder for the files, which then stay")
    arguments = parser.parse_args()

    with tempfile.TemporaryDirectory() as made:
        folder = arguments.keep or pathlib.Path(made)
        folder.mkdir(parents=True, exist_ok=True)
        for label, distinct in (("the same 64 groups in each station", False), ("64 groups of its own in each station", True)):
            print(label)
            times = []
            for stations in (arguments.stations // 2, arguments.stations):
                text = file_of(stations, distinct)
                path = folder / f"{stations}-{'own' if distinct else 'same'}.toml"
                path.write_text(text)
                lines = stations * LINES_OF_STATION
                groups = stations * GROUPS_OF_STATION if distinct else GROUPS_OF_STATION
                expected = f"stations {stations} lines {lines} groups {groups}\n"
                seconds = best_time(arguments.xp, path, arguments.runs, expected)
                times.append(seconds)
                print(f"  {stations:3} stations, {lines:3} lines, {groups:5} groups, {len(text):7} octets: {seconds:.3f} s")
            if times[1] > MOST_RATIO * times[0]:
                sys.exit(f"twice the file took {times[1] / times[0]:.1f} times the time")


if __name__ == "__main__":
    main()
