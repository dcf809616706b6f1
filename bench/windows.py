#!/usr/bin/env python3
"""Each window of a call, and the numbers of its packets, between lines of like and unlike moduli.

For each pair of lines, of modulo 8 and of modulo 128, and each window that both may have, a call carries data ten times round 128
numbers: each packet goes out once, numbered by the line that it goes to, and each acknowledgement too. Wherever the window is full
a further packet resets the call, also behind some packets that were acknowledged one by one. Last, a window that waits for a line
that is not ready is put out at once, across the last of the numbers. What has to come out is counted here, line by line; `xp
replay` has to write it.
"""

import argparse
import pathlib
import subprocess
import sys
import tempfile

from packets import Block, Packet, framed, written
from program import PROGRAM

LINES = {"a8": ("2080010", 8), "b8": ("2080020", 8), "a128": ("2080030", 128), "b128": ("2080040", 128)}
SUBSCRIPTIONS = "journal = 10000000\n" + "".join(
    f'[[station]]\naddress = "{address}"\nline = [{{ name = "{name}", port = {19981 + place}, modulus = {modulus} }}]\n'
    for place, (name, (address, modulus)) in enumerate(LINES.items())
)
NUMBERS = 128
SIZES = bytes([0x42, 7, 7])


def data(number, modulus):
    return Packet("data", ps=number % modulus, octets=number.to_bytes(2, "big"))


def ready(number, modulus, kind="ready"):
    return Packet(kind, pr=number % modulus)


class Run:
    """A script, and the text that has to come of it."""

    def __init__(self):
        self.script, self.text, self.calls = [f"up {name}" for name in LINES], [], 0

    def send(self, name, packet):
        self.script.append(f"in {name} {self.octets(name, packet)}")

    def out(self, name, packet):
        self.text.append(f"out {name} {self.octets(name, packet)}")

    @staticmethod
    def octets(name, packet):
        return framed(written(LINES[name][1], 1, packet)).hex()


class Call:
    """A call of a window, the packets of which the caller sends."""

    def __init__(self, run, caller, called, window):
        self.run, self.caller, self.called, self.window = run, caller, called, window
        self.modulus, self.far = LINES[caller][1], LINES[called][1]
        self.count = self.acknowledged = self.taken = 0
        (here, _), (there, _) = LINES[caller], LINES[called]
        windows = bytes([0x43, window, window])
        run.calls += 1
        run.send(caller, Packet("call", block=Block(there, "", windows, b"")))
        run.out(called, Packet("call", block=Block(there, here, SIZES + windows, b"")))
        run.send(called, Packet("accepted"))
        run.out(caller, Packet("accepted", block=Block("", "", SIZES + windows, b"")))

    def carry(self):
        """A packet goes out once, by the number that its receiver counts."""
        self.run.send(self.caller, data(self.count, self.modulus))
        self.run.out(self.called, data(self.count, self.far))
        self.count += 1
        self.taken += 1

    def acknowledge(self):
        self.run.send(self.called, ready(self.count, self.far))
        self.run.out(self.caller, ready(self.count, self.modulus))
        self.acknowledged = self.count

    def fill(self):
        while self.count < self.acknowledged + self.window:
            self.carry()

    def go_round(self, rounds):
        """Whole windows, so many times round the numbers."""
        for _ in range(rounds * NUMBERS):
            self.carry()
            if self.count == self.acknowledged + self.window:
                self.acknowledge()

    def go_beyond(self):
        """One packet more than the window resets the call: invalid P(S)."""
        self.fill()
        self.run.send(self.caller, data(self.count, self.modulus))
        for name, cause in ((self.caller, 5), (self.called, 3)):
            self.run.out(name, Packet("reset", cause=cause, diagnostic=1))
        for name in (self.caller, self.called):
            self.run.send(name, Packet("reset confirmation"))
        self.count = self.acknowledged = 0

    def go_one_by_one(self, count):
        for _ in range(count):
            self.carry()
            self.acknowledge()

    def wait(self):
        """The window waits for a line that is not ready, and is put out behind its RR, before the caller hears of that."""
        self.run.send(self.called, ready(self.count, self.far, "not ready"))
        self.run.out(self.caller, ready(self.count, self.modulus, "not ready"))
        waiting = range(self.count, self.count + self.window)
        for number in waiting:
            self.run.send(self.caller, data(number, self.modulus))
        self.run.send(self.called, ready(self.count, self.far))
        for number in waiting:
            self.run.out(self.called, data(number, self.far))
        self.run.out(self.caller, ready(self.count, self.modulus))
        self.taken += self.window

    def end(self):
        """The record has a segment for each packet that was taken."""
        self.run.send(self.caller, Packet("clear", cause=0, diagnostic=0))
        self.run.out(self.caller, Packet("clear confirmation"))
        self.run.out(self.called, Packet("clear", cause=0, diagnostic=0))
        self.run.text.append(
            f"record {self.run.calls} {self.caller} {self.called} {LINES[self.called][0]} caller {self.taken} 0 00 0 0"
        )
        self.run.send(self.called, Packet("clear confirmation"))


def made_of(rounds, step):
    """The script of all calls; a window is passed behind each `step`-th number of packets to 127."""
    run = Run()
    for caller in ("a8", "a128"):
        for called in ("b8", "b128"):
            most = 15 if LINES[caller][1] == LINES[called][1] == 128 else 7
            for window in range(1, most + 1):
                call = Call(run, caller, called, window)
                call.go_round(rounds)
                call.go_beyond()
                for count in range(window % step, NUMBERS, step):
                    call.go_one_by_one(count)
                    call.go_beyond()
                call.go_one_by_one(NUMBERS - min(4, window))
                call.wait()
                call.end()
    return run


def main():
    parser = argparse.ArgumentParser(description=__doc__.splitlines()[0])
    parser.add_argument("--program", default=str(PROGRAM), help="the built program (default: XP_PROGRAM, else the one that ./xp built)")
    parser.add_argument("--rounds", type=int, default=10, help="how often the numbers to 127 come round (default: 10)")
    parser.add_argument("--step", type=int, default=16, help="behind how many more packets each the window is passed (default: 16)")
    arguments = parser.parse_args()

    run = made_of(arguments.rounds, arguments.step)
    with tempfile.TemporaryDirectory() as made:
        path = pathlib.Path(made) / "subs.toml"
        path.write_text(SUBSCRIPTIONS)
        script = "".join(f"{line}\n" for line in run.script)
        ran = subprocess.run([arguments.program, "replay", str(path)], input=script, capture_output=True, text=True)
    if ran.returncode != 0:
        sys.exit(f"status {ran.returncode}: {ran.stderr}")
    found = ran.stdout.splitlines()
    for number, (wanted, told) in enumerate(zip(run.text, found), 1):
        if wanted != told:
            sys.exit(f"line {number} of the output is\n  {told}\nand should be\n  {wanted}")
    if len(found) != len(run.text):
        sys.exit(f"the output has {len(found)} lines, and should have {len(run.text)}")
    print(f"{run.calls} calls, {len(run.script)} lines of script: {len(found)} lines as they should be")
    return 0


if __name__ == "__main__":
    sys.exit(main())
