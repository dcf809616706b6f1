#!/usr/bin/env python3
"""A replay whose every read is interrupted: it has to try again, and to give up after 1,000,000,000 reads.

A small library (interrupted.c, built by `cc`) stands before the C library, and has each read of standard input fail as interrupted.
`xp replay` has to end with `xp: input` and status 5, after exactly so many reads. The proved program takes some ten seconds; one
with a sanitizer takes several minutes.
"""

import argparse
import os
import pathlib
import subprocess
import sys
import tempfile
import time

from program import PROGRAM

HERE = pathlib.Path(__file__).resolve().parent
SUBSCRIPTIONS = HERE.parent / "examples" / "three-stations.toml"
READS = 1_000_000_000


def interrupted(program, folder, seconds):
    """How the replay ended, and how many reads it made."""
    library, told = folder / "interrupted.so", folder / "reads"
    subprocess.run(["cc", "-O2", "-shared", "-fPIC", "-o", library, HERE / "interrupted.c"], check=True)
    environment = {**os.environ, "LD_PRELOAD": str(library), "READS_TOLD_IN": str(told)}
    words = [program, "replay", str(SUBSCRIPTIONS)]
    try:
        ran = subprocess.run(words, stdin=subprocess.DEVNULL, capture_output=True, text=True, env=environment, timeout=seconds)
    except subprocess.TimeoutExpired:
        sys.exit(f"it had not given up after {seconds} seconds")
    return (ran.returncode, ran.stdout, ran.stderr), int.from_bytes(told.read_bytes(), sys.byteorder) if told.exists() else 0


def main():
    parser = argparse.ArgumentParser(description=__doc__.splitlines()[0])
    parser.add_argument("--program", default=str(PROGRAM), help="the built program (default: XP_PROGRAM, else the one that ./xp built)")
    parser.add_argument("--seconds", type=float, default=300, help="how long it may take (default: 300)")
    arguments = parser.parse_args()

    begun = time.monotonic()
    with tempfile.TemporaryDirectory() as made:
        ended, reads = interrupted(arguments.program, pathlib.Path(made), arguments.seconds)
    if ended != (5, "", "xp: input\n") or reads != READS:
        sys.exit(f"status, output, error {ended} after {reads} reads; wanted {(5, '', 'xp: input')} after {READS}")
    print(f"given up after {reads} reads, in {time.monotonic() - begun:.1f} s")
    return 0


if __name__ == "__main__":
    sys.exit(main())
