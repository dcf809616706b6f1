#!/usr/bin/env python3
"""Standard input and output that fail at each of their calls: how a replay ends, and what it has printed then; and want of memory.

A small library (failing.c, built by `cc`) stands before the C library. A read of standard input gives one octet, and a write takes one;
the call behind so many octets fails, or is interrupted, or takes nothing. Each number of octets is tried, in each form in which a script
is told.
"""

import argparse
import concurrent.futures
import errno
import os
import pathlib
import subprocess
import sys
import tempfile

from program import DEFAULT, PROGRAM

HERE = pathlib.Path(__file__).resolve().parent

# Seconds that a run may take.
PATIENCE = 60

# The most octets that a request for memory has, where larger ones are refused.
LARGEST = 1 << 20

STATIONS = "".join(f"[[station]]\naddress = '{address}'\nline = [{{ name = '{name}', port = {port} }}]\n"
                   for address, name, port in (("2080010", "a1", 1), ("2080020", "b1", 2)))

# a1 calls b1, which accepts; a1 clears the call, and b1 confirms it. Behind each line of the script stands what comes of it.
CALL = (
    ("up a1", ""),
    ("up b1", ""),
    ("in a1 0000000d10010b07208002000001000000", "out b1 0000001610010b77208002020800100642070743020201000000\n"),
    ("in b1 0000000310010f", "out a1 0000000b10010f0006420707430202\n"),
    ("in a1 000000051001130000", "out a1 00000003100117\nout b1 000000051001130000\nrecord 1 a1 b1 2080020 caller 0 0 00 0 0\n"),
    ("in b1 000000051001130000", ""),
)
SCRIPT = "".join(f"{line}\n" for line, _ in CALL)
TEXT = "".join(text for _, text in CALL).encode()

# A call that is refused.
REFUSED = "up a1\nin a1 0000000710010b03999000\n"

WHOLE, INPUT = (0, ""), (5, "xp: input\n")

# What is told of a write that fails by this error, or takes nothing (docs/OPERATING.md): of a pipe that nobody reads any more, nothing.
TOLD = {errno.ENOSPC: "xp: output\n{name}: no storage space\n", errno.EPIPE: "", 0: "xp: output\n"}


def output(error, name="standard output"):
    return 5, TOLD[error].format(name=name)


class Runs:
    """Runs of the program under the library."""

    def __init__(self, program, folder):
        self.program, self.folder = program, pathlib.Path(folder)
        self.library = self.folder / "failing.so"
        subprocess.run(["cc", "-O2", "-shared", "-fPIC", "-o", str(self.library), str(HERE / "failing.c")], check=True)
        self.stations = self.folder / "stations.toml"
        self.stations.write_text(STATIONS)

    def run(self, words, script, file="stations.toml", **fails):
        """The status and what is told on standard error, and what is printed."""
        environment = os.environ | {"LD_PRELOAD": str(self.library)} | fails
        words = [str(self.program), *words, str(self.folder / file)]
        ran = subprocess.run(words, input=script.encode(), capture_output=True, env=environment, timeout=PATIENCE)
        return (ran.returncode, ran.stderr.decode()), ran.stdout

    def captured(self, name, script, **fails):
        """The same, where the output is a capture file."""
        path = self.folder / f"{name}.pcap"
        path.unlink(missing_ok=True)
        ended, printed = self.run(["replay", "--pcap", str(path)], script, XP_OUTPUT=str(path), **fails)
        return (ended[0], ended[1].replace(str(path), "PATH")), path.read_bytes() if path.exists() else b""


def at(octets, error):
    return f"{octets}:{error}"


def require(holds, text):
    if not holds:
        raise AssertionError(text)


def reader(runs, octets):
    """A read that fails: what came of the lines before is printed. One that is interrupted is made again."""
    lines = SCRIPT[:octets].count("\n")
    front = "".join(text for _, text in CALL[:lines]).encode()
    ran = runs.run(["replay"], SCRIPT, XP_READ=at(octets, errno.EIO))
    require(ran == (INPUT, front), f"a read that fails behind {octets} octets: {ran}")
    ran = runs.run(["replay"], SCRIPT, XP_READ=at(octets, errno.EINTR))
    require(ran == (WHOLE, TEXT), f"a read that is interrupted behind {octets} octets: {ran}")


def writer(runs, octets):
    """A write that fails, or takes nothing: no more is printed. One that is interrupted is made again."""
    for error in TOLD:
        ran = runs.run(["replay"], SCRIPT, XP_WRITE=at(octets, error))
        require(ran == (output(error), TEXT[:octets]), f"a write behind {octets} octets, by {error}: {ran}")
    ran = runs.run(["replay"], SCRIPT, XP_WRITE=at(octets, errno.EINTR))
    require(ran == (WHOLE, TEXT), f"a write that is interrupted behind {octets} octets: {ran}")


def form_of(form, whole):
    """A write that fails anywhere, where a script is told in this form."""
    def fails(runs, octets):
        ran = runs.run(["replay", form], REFUSED, XP_WRITE=at(octets, errno.EPIPE))
        require(ran == (output(errno.EPIPE), whole[:octets]), f"{form}: a write behind {octets} octets: {ran}")
    return fails


def capture_of(whole):
    """The same, of a capture file."""
    def fails(runs, octets):
        ran = runs.captured(f"at-{octets}", REFUSED, XP_WRITE=at(octets, errno.ENOSPC))
        require(ran == (output(errno.ENOSPC, "PATH"), whole[:octets]), f"a capture: a write behind {octets} octets: {ran}")
    return fails


def readers_of_forms(runs, _):
    """A read that fails behind the first line, where a script is told in another form: it is read first, so nothing is told."""
    for form in ("--words", "--ladder"):
        ran = runs.run(["replay", form], SCRIPT, XP_READ=at(6, errno.EIO))
        require(ran == (INPUT, b""), f"{form}: a read that fails: {ran}")
    ran = runs.captured("broken", SCRIPT, XP_READ=at(6, errno.EIO))
    require(ran == (INPUT, b""), f"a capture: a read that fails: {ran}")


def full_output(runs, _):
    """A task that does all, and cannot hand it on, also where its script has a faulty line."""
    for words, script in ((["check"], ""), (["replay"], SCRIPT), (["replay"], SCRIPT + "up a2\n")):
        with open("/dev/full", "wb") as full:
            ran = subprocess.run([str(runs.program), *words, str(runs.stations)], input=script.encode(), stdout=full, stderr=subprocess.PIPE, check=False)
        require((ran.returncode, ran.stderr.decode()) == output(errno.ENOSPC), f"{words} of {script!r}: {ran}")


def want_of_memory(runs, _):
    """A subscription file of more octets than there is memory for: a megabyte, where the program has an address sanitizer or not."""
    runs.stations.with_name("long.toml").write_text(f"# {LARGEST * 'x'}\n{STATIONS}")
    fails = {"XP_LARGEST": str(LARGEST), "ASAN_OPTIONS": "allocator_may_return_null=1:max_allocation_size_mb=1"}
    for words in (["check"], ["replay"], ["replay", "--words"]):
        (status, told), printed = runs.run(words, SCRIPT, file="long.toml", **fails)
        # A sanitizer tells of it too.
        told = "".join(line for line in told.splitlines(True) if not line.startswith("=="))
        require((status, told, printed) == (4, "xp: memory\n", b""), f"{words} without memory: {status}, {told!r}, {printed}")


def trials(runs):
    """What is tried, each with the number of octets."""
    yield from ((reader, octets) for octets in range(len(SCRIPT) + 1))
    yield from ((writer, octets) for octets in range(len(TEXT)))
    for form in ("--words", "--ladder"):
        ended, whole = runs.run(["replay", form], REFUSED)
        require(ended == WHOLE and whole, f"{form}: {ended}")
        yield from ((form_of(form, whole), octets) for octets in range(len(whole)))
    ended, whole = runs.captured("whole", REFUSED)
    require(ended == WHOLE and whole, f"a capture: {ended}")
    yield from ((capture_of(whole), octets) for octets in range(len(whole)))
    yield from ((trial, 0) for trial in (readers_of_forms, full_output, want_of_memory))


def main():
    parser = argparse.ArgumentParser(description=__doc__.splitlines()[0])
    parser.add_argument("--program", default=str(PROGRAM), help=f"the program ({DEFAULT})")
    parser.add_argument("--jobs", type=int, default=os.cpu_count() or 1, help="runs side by side (default: one a processor)")
    arguments = parser.parse_args()
    with tempfile.TemporaryDirectory() as folder, concurrent.futures.ThreadPoolExecutor(arguments.jobs) as pool:
        runs = Runs(arguments.program, folder)
        wanted = list(trials(runs))
        for tried in [pool.submit(trial, runs, octets) for trial, octets in wanted]:
            try:
                tried.result()
            except AssertionError as error:
                pool.shutdown(cancel_futures=True)
                sys.exit(str(error))
    print(f"{len(wanted)} trials passed")
    return 0


if __name__ == "__main__":
    sys.exit(main())
