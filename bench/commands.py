#!/usr/bin/env python3
"""Runs the rows of bench/commands: what the program prints, and its exit status, for the words and files of each row.

    python3 bench/commands.py [--program PROGRAM] [--jobs N] [NAME ..]

Each folder of bench/commands is a row. Its files, beside those that the program is given under their own names:

    args            the words of the command, read as a shell reads them; files by their names
    stdin           standard input (without it: nothing)
    stdout, stderr  what has to be printed there, octet by octet (without it: nothing)
    status          the exit status (without it: 0)
    NAME.expected   what the file NAME has to have in the end

A folder with a file `cases` is a table. Behind `== ` a case begins: its text goes from there to the next line `-- FILE`, behind
which the case's own text of that file follows, to the next such line. The case's text, without its last line feed, stands for each
`@@` in the files of the folder, and the case's own files stand for the folder's. A line `%% ..` is a comment.

Each row is run in a copy of its folder. A line is printed for what differs, and at the end `N passed, M failed`.
"""

import argparse
import concurrent.futures
import difflib
import os
import pathlib
import shlex
import subprocess
import sys
import tempfile
from dataclasses import dataclass

from program import PROGRAM

ROWS = pathlib.Path(__file__).resolve().parent / "commands"
PLACE = b"@@"
SECONDS = 60


@dataclass(frozen=True)
class Row:
    name: str
    files: dict  # from names to octets

    def wanted(self):
        """What has to come of it, by name."""
        told = {name: self.files.get(name, b"") for name in ("stdout", "stderr")}
        told["status"] = self.files.get("status", b"0").strip()
        ended = {name: octets for name, octets in self.files.items() if name.endswith(".expected")}
        return told | {name.removesuffix(".expected"): octets for name, octets in ended.items()}


# Reading rows


def rows_in(folder):
    """The rows of a folder: one, or one for each of its cases."""
    files = {path.name: path.read_bytes() for path in sorted(folder.iterdir())}
    if "args" not in files and "cases" not in files:
        sys.exit(f"{folder}: neither args nor cases")
    cases = files.pop("cases", None)
    if cases is None:
        return [Row(folder.name, files)]
    return [row_of(folder.name, number, files, case) for number, case in enumerate(cases_of(cases), 1)]


def cases_of(table):
    """The cases of a table: of each its text, and its own files."""
    cases = []
    for line in table.splitlines(keepends=True):
        if line.startswith(b"%% "):
            continue
        if line.startswith(b"== ") or line.rstrip() == b"==":
            cases.append({"": line[3:]})
            section = ""
        elif line.startswith(b"-- ") and cases:
            section = line[3:].strip().decode()
            cases[-1][section] = b""
        elif cases:
            cases[-1][section] += line
        elif line.strip():
            sys.exit(f"a table begins with `== `, not with {line!r}")
    return cases


def row_of(table, number, files, case):
    """The row of a case, over the files of its folder."""
    text = case[""].removesuffix(b"\n")
    own = {name: octets for name, octets in case.items() if name}
    filled = {name: octets.replace(PLACE, text) for name, octets in files.items()}
    first = text.decode(errors="replace").splitlines()
    return Row(f"{table} {number} ({first[0] if first else ''})", filled | own)


# Running them


def differences(program, row):
    """What a run tells that was not wanted: nothing where the row passes."""
    with tempfile.TemporaryDirectory() as made:
        folder = pathlib.Path(made)
        wanted = row.wanted()
        for name, octets in row.files.items():
            if name not in ("args", "status", "stdout", "stderr") and not name.endswith(".expected"):
                (folder / name).write_bytes(octets)
        words = shlex.split(row.files["args"].decode())
        with open(folder / "stdin" if "stdin" in row.files else os.devnull, "rb") as source:
            try:
                ran = subprocess.run([program, *words], stdin=source, capture_output=True, cwd=folder, timeout=SECONDS)
            except subprocess.TimeoutExpired:
                return [f"it had not ended after {SECONDS} seconds"]
        told = {"stdout": ran.stdout, "stderr": ran.stderr, "status": str(ran.returncode).encode()}
        for name in wanted.keys() - told.keys():
            path = folder / name
            told[name] = path.read_bytes() if path.is_file() else b"(no such file)"
    return [line for name in wanted for line in difference(name, wanted[name], told[name])]


def difference(name, wanted, told):
    """How the octets of a file differ, as lines."""
    if wanted == told:
        return []
    if not is_text(wanted) or not is_text(told):
        place = next((at for at, pair in enumerate(zip(wanted, told)) if pair[0] != pair[1]), min(len(wanted), len(told)))
        return [f"{name}: from octet {place} wanted {wanted[place:place + 16].hex()}, told {told[place:place + 16].hex()}"]
    pair = [[repr(line)[1:-1] for line in octets.decode().splitlines(keepends=True)] for octets in (wanted, told)]
    return list(difflib.unified_diff(*pair, f"{name}: wanted", f"{name}: told", n=1, lineterm=""))


def is_text(octets):
    try:
        return "\0" not in octets.decode()
    except UnicodeDecodeError:
        return False


def main():
    parser = argparse.ArgumentParser(description=__doc__.splitlines()[0])
    parser.add_argument("--program", default=str(PROGRAM), help="the built program (default: XP_PROGRAM, else the one that ./xp built)")
    parser.add_argument("--jobs", type=int, default=os.cpu_count(), help="how many rows are run side by side")
    parser.add_argument("names", metavar="NAME", nargs="*", help="folders of bench/commands (default: all)")
    arguments = parser.parse_args()

    if not os.access(arguments.program, os.X_OK):
        sys.exit(f"{arguments.program}: no program to run")
    folders = [ROWS / name for name in arguments.names] or sorted(path for path in ROWS.iterdir() if path.is_dir())
    rows = [row for folder in folders for row in rows_in(folder)]
    failed = 0
    program = os.path.abspath(arguments.program)
    with concurrent.futures.ThreadPoolExecutor(arguments.jobs) as pool:
        for row, told in zip(rows, pool.map(lambda row: differences(program, row), rows), strict=True):
            if told:
                failed += 1
                print(f"FAIL {row.name}", *told, sep="\n  ", flush=True)
    print(f"{len(rows) - failed} passed, {failed} failed")
    return 1 if failed or not rows else 0


if __name__ == "__main__":
    sys.exit(main())
