#!/usr/bin/env python3
"""Has a build of xp_rows try the rows of behaviour, and compares the line of each with crates/xp_rows/stdout.

    python3 tools/rows.py PROGRAM [--part K --of N]

With --part, every N-th row is tried, from the K-th on, so that parts can be tried beside one another. The rows are copied to a folder of their own.
It prints each line that is not as it has to be, and last how many rows were tried. Exit status 1: a line differs, or a row has no line.
"""

import argparse
import pathlib
import shutil
import subprocess
import sys
import tempfile

ROWS = pathlib.Path(__file__).resolve().parent.parent / "crates/xp_rows"


def wanted_lines():
    """The line that is due for each row, by its name."""
    lines = (ROWS / "stdout").read_text(encoding="utf-8").splitlines()
    return {line.partition(":")[0]: line for line in lines}


def tell(program, names):
    """What the program tells of these rows, by name, and its exit status."""
    with tempfile.TemporaryDirectory() as folder:
        for name in names:
            shutil.copytree(ROWS / "data" / name, pathlib.Path(folder) / name)
        ran = subprocess.run([pathlib.Path(program).resolve()], cwd=folder, stdin=subprocess.DEVNULL, stdout=subprocess.PIPE, text=True, check=False)
    return {line.partition(":")[0]: line for line in ran.stdout.splitlines()}, ran.returncode


def main():
    parser = argparse.ArgumentParser(description=__doc__, formatter_class=argparse.RawDescriptionHelpFormatter)
    parser.add_argument("program", help="the build of xp_rows")
    parser.add_argument("--part", type=int, default=1, help="which part of the rows is tried (default: 1)")
    parser.add_argument("--of", type=int, default=1, help="how many parts there are (default: 1)")
    arguments = parser.parse_args()

    wanted, folders = wanted_lines(), {it.name for it in (ROWS / "data").iterdir() if it.is_dir()}
    faults = [f"{name}: it has no line in crates/xp_rows/stdout" for name in sorted(folders - set(wanted))]
    faults += [f"{name}: it has no folder in crates/xp_rows/data" for name in sorted(set(wanted) - folders)]
    names = sorted(folders)[arguments.part - 1 :: arguments.of]
    told, status = tell(arguments.program, names)
    faults += [f"the program ended with status {status}"] if status else []
    for name in names:
        if told.get(name) != wanted.get(name):
            faults.append(f"told:   {told.get(name, name + ' is not told')}\nwanted: {wanted.get(name)}")
    print("\n".join([*faults, f"{len(names)} rows, {len(faults)} faults"]))
    return 1 if faults or not names else 0


if __name__ == "__main__":
    sys.exit(main())
