#!/usr/bin/env python3
"""Scripts that come in pieces: a replay has to tell the same of a faulty line, wherever it lies and however the script is read.

A small library (pieces.c, built by `cc`) stands before the C library, and has each read of standard input give few octets at most. The
faulty line is in the first, the second and the third piece of 4,096 octets, and across the ends of these; before it may come other
subscriptions, by which lines are named then.
"""

import argparse
import os
import pathlib
import subprocess
import sys
import tempfile

from program import PROGRAM

HERE = pathlib.Path(__file__).resolve().parent

# Seconds that a replay may take.
PATIENCE = 60

STATION = '[[station]]\naddress = "{address}"\nline = [{{ name = "{name}", port = {port} }}]\n'
FIRST = STATION.format(address="2080010", name="a1", port=19981) + STATION.format(address="2080020", name="b1", port=19982)
OTHERS = STATION.format(address="2080010", name="a1", port=19981) + STATION.format(address="2080030", name="c1", port=19983)
FILES = {"first.toml": FIRST, "others.toml": OTHERS}

COMMENT = "# a comment of sixty-four octets, with the line feed behind it.\n"
# The fourth of these lines is faulty.
LINES = "up a1\nat 12\nin a1 0001000000\nup x9\nup b1\ndown y8\n"

# How many comments stand before the lines, and how many octets a read gives at most.
COMMENTS, PIECES = (0, 62, 63, 64, 127, 128, 200), (1, 7, 64, 4095, 4096)
COMMENTS_BEHIND_TABLES, PIECES_BEHIND_TABLES = (0, 64, 200), (7, 64, 4096)

# Scripts of several subscriptions, the number of the faulty line, and the name that no line has there.
TABLES = (("tables others\nup a1\nup b1\n", 3, "b1"), ("tables others\ntables first\nup b1\nup c1\n", 4, "c1"))


# The words that name subscriptions for lines `tables NAME`. Without them no line can bring any, and the lines are not counted.
NAMED = ("--tables", "first=first.toml", "--tables", "others=others.toml")


def scripts():
    """Each script with the words that name subscriptions, the octets of a read, the number of its faulty line, and the name that no line has."""
    for named in ((), NAMED):
        for comments in COMMENTS:
            for most in PIECES:
                yield comments * COMMENT + LINES, named, most, comments + 4, "x9"
    for comments in COMMENTS_BEHIND_TABLES:
        for most in PIECES_BEHIND_TABLES:
            yield "tables others\n" + comments * COMMENT + LINES, NAMED, most, comments + 5, "x9"
    for script, number, name in TABLES:
        for most in (1, 4096):
            yield script, NAMED, most, number, name


def replayed(program, folder, script, named, most):
    """The exit status of the replay of a script, what it prints, and what it tells."""
    (folder / "script").write_text(script)
    environment = {**os.environ, "LD_PRELOAD": str(folder / "pieces.so"), "XP_PIECE": str(most)}
    words = [program, "replay", "first.toml", *named]
    with open(folder / "script", "rb") as source:
        ran = subprocess.run(words, stdin=source, capture_output=True, text=True, env=environment, cwd=folder, timeout=PATIENCE)
    return ran.returncode, ran.stdout, ran.stderr


def main():
    parser = argparse.ArgumentParser(description=__doc__.splitlines()[0])
    parser.add_argument("--program", default=str(PROGRAM), help="the built program (default: XP_PROGRAM, else the one that ./xp built)")
    program = os.path.abspath(parser.parse_args().program)
    count = 0
    with tempfile.TemporaryDirectory() as made:
        folder = pathlib.Path(made)
        subprocess.run(["cc", "-O2", "-shared", "-fPIC", "-o", folder / "pieces.so", HERE / "pieces.c"], check=True)
        for name, text in FILES.items():
            (folder / name).write_text(text)
        for script, named, most, number, name in scripts():
            wanted = (2, "", f'xp: script line {number}\nno line is named "{name}"\n')
            came = replayed(program, folder, script, named, most)
            if came != wanted:
                sys.exit(f"a script of {len(script)} octets, {most} a read, {len(named)} words of tables, ends with {came} in place of {wanted}")
            count += 1
    print(f"{count} replays have told their faulty line")
    return 0


if __name__ == "__main__":
    sys.exit(main())
