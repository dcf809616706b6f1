#!/usr/bin/env python3
"""A long random exchange: both ends of calls between lines of both moduli, replayed by the program and compared with the model.

Half of the calls are between lines of unlike moduli. The ends are lawful but for a fault now and then, and read what they
are given with a delay, so packets cross. Their script and its text come from the model (model.py); the ends check what
they are given, and an observer checks what comes out for what goes in. Then `xp replay` has to write the same text.
"""

import argparse
import pathlib
import random
import subprocess
import sys
import tempfile
import time
from collections import Counter

import model
from packets import Block, Packet, framed, read, written
from program import DEFAULT, PROGRAM

ADDRESSES = {"a1": "2080010", "b1": "2080020", "c1": "2080030", "d1": "2080040"}
MODULI = {"a1": 8, "b1": 8, "c1": 128, "d1": 128}
SUBSCRIPTIONS = "journal = 10000000\n" + "".join(
    f'[[station]]\naddress = "{address}"\nreverse_charging = true\n'
    f'line = [{{ name = "{name}", port = {19981 + place}, modulus = {MODULI[name]} }}]\n'
    for place, (name, address) in enumerate(ADDRESSES.items())
)
MOST_OF_A_LINE = 4_000  # octets; a line of a script has at most 8,192


def require(holds, what):
    if not holds:
        raise AssertionError(what)


class Dte:
    """One end: what it knows of a call is what it has sent and has read."""

    def __init__(self, name, chance):
        self.name, self.modulus, self.chance, self.inbox = name, MODULI[name], chance, []

    def begin(self, terms, far):
        """A call of these terms to that far end; the rates of what happens are its own."""
        self.size, self.window = terms["sizes"][self.name], terms["windows"][self.name]
        self.most_heard, self.far_window = terms["sizes"][far], terms["windows"][far]
        self.resets, self.faults = self.chance.choice((0, 0.002, 0.05)), self.chance.choice((0, 0.002, 0.02))
        self.slowness = self.chance.random()
        self.cleared = False
        self.anew()

    def anew(self):
        self.sent = self.acknowledged = self.heard = self.given = 0
        self.unconfirmed = self.to_confirm = self.resetting = self.owes = False
        self.ready = self.far_ready = True

    # What it reads

    def hear(self, packet):
        kind = packet.kind
        if kind == "clear":
            self.cleared = True
        elif kind == "reset":
            answered = self.resetting  # requests that cross confirm each other
            self.anew()
            self.owes = not answered
        elif kind == "reset confirmation":
            require(self.resetting, "a reset confirmation that was not asked for")
            self.anew()
        elif not self.resetting and not self.cleared:
            require(not self.owes, f"{kind} before the reset was confirmed")
            self.hear_during_transfer(packet)

    def hear_during_transfer(self, packet):
        kind = packet.kind
        if kind == "interrupt":
            require(not self.to_confirm, "a second interrupt")
            self.to_confirm = True
        elif kind == "interrupt confirmation":
            require(self.unconfirmed, "an interrupt confirmation that was not awaited")
            self.unconfirmed = False
        else:
            counts = [count for count in range(self.acknowledged, self.sent + 1) if count % self.modulus == packet.pr]
            require(counts, "an invalid P(R)")
            self.acknowledged = counts[0]
            if kind == "data":
                require(packet.ps == self.heard % self.modulus, "data out of order")
                require(self.heard - self.given < self.far_window, "more data than the window")
                require(len(packet.octets) <= self.most_heard, "data that is too long")
                self.heard += 1
            else:
                self.far_ready = kind == "ready"

    # What it sends

    def burst(self):
        """Some packets that it sends in one go."""
        packets, octets, self.erred = [], 0, False
        while self.chance.random() < 0.7 and octets < MOST_OF_A_LINE - 1_100 and not self.erred:
            packet = self.packet(first=not packets)
            if packet is None:
                break
            packets.append(packet)
            octets += 7 + len(packet.octets)
        return packets

    def packet(self, first):
        if self.resetting:
            return None
        if self.owes:
            return self.confirm_reset()
        drawn = self.chance.random()
        if drawn < self.resets:
            self.resetting = True
            return self.reset()
        if drawn < self.resets + self.faults and first and not self.inbox:
            return self.fault()
        return self.chance.choice((*[self.data] * 5, self.flow, self.interrupt, self.confirm_interrupt))()

    def confirm_reset(self):
        self.owes = False
        return self.reset() if self.chance.random() < 0.1 else Packet("reset confirmation")

    def reset(self):
        cause = self.chance.choice((0, 0, 5, 0x80, 0xFF))
        return Packet("reset", cause=cause, diagnostic=self.chance.choice((None, 0, self.chance.randrange(256))))

    def count(self):
        """Acknowledges some of what was heard."""
        slow = self.chance.random() < self.slowness
        self.given = self.chance.randint(self.given, self.heard) if slow else self.heard
        return self.given % self.modulus

    def data(self):
        if self.sent - self.acknowledged >= self.window or not (self.far_ready or self.chance.random() < 0.1):
            return None
        self.sent += 1
        return self.data_of(self.sent - 1, self.octets(self.size))

    def octets(self, most):
        few = self.chance.randint(0, min(most, 64))
        return self.chance.randbytes(self.chance.choice((0, 1, most - 1, most, few, few)))

    def data_of(self, count, octets):
        q, d, more = (self.chance.random() < 0.2 for _ in range(3))
        return Packet("data", q=q, d=d, more=more, ps=count % self.modulus, pr=self.count(), octets=octets)

    def flow(self):
        self.ready = self.chance.random() < (0.7 if self.ready else 0.5)
        return Packet("ready" if self.ready else "not ready", pr=self.count())

    def interrupt(self):
        if self.unconfirmed:
            return None
        self.unconfirmed = True
        return Packet("interrupt", octets=self.chance.randbytes(self.chance.choice((1, 32, self.chance.randint(1, 32)))))

    def confirm_interrupt(self):
        if not self.to_confirm:
            return None
        self.to_confirm = False
        return Packet("interrupt confirmation")

    def fault(self):
        """A procedure error. It has read all that it was given, so it is one. It sends nothing more before it reads on."""
        self.erred = True
        faults = [self.out_of_order, self.too_much, self.too_long]
        faults += [lambda: Packet("reject", pr=self.chance.randrange(self.modulus)), lambda: Packet("reset confirmation")]
        most = self.given + self.modulus - 1
        if self.heard < most:
            faults.append(lambda: Packet("ready", pr=self.chance.randint(self.heard + 1, most) % self.modulus))
        if self.unconfirmed:
            faults.append(lambda: Packet("interrupt", octets=b"again"))
        if not self.to_confirm:
            faults.append(lambda: Packet("interrupt confirmation"))
        return self.chance.choice(faults)()

    def out_of_order(self):
        return self.data_of(self.sent + self.chance.randrange(1, self.modulus), b"out of order")

    def too_much(self):
        return self.data_of(self.sent + (0 if self.sent - self.acknowledged >= self.window else 1), b"too much")

    def too_long(self):
        return self.data_of(self.sent, bytes(self.size + 1)) if self.size < 1024 else self.out_of_order()


class Observer:
    """What comes out of the exchange for what goes in, of one call, seen from outside."""

    def __init__(self, terms, one, two):
        self.windows, self.far = terms["windows"], {one: two, two: one}
        self.owes = dict.fromkeys(self.far, False)
        self.reset()

    def reset(self):
        self.accepted = {name: [] for name in self.far}
        self.delivered = dict.fromkeys(self.far, 0)  # of what the line sent
        self.acknowledged = dict.fromkeys(self.far, 0)  # of what the line sent
        self.ready = dict.fromkeys(self.far, True)
        self.told = dict.fromkeys(self.far, (0, True))  # the number of what was acknowledged, and whether the far end is ready
        self.interrupts = dict.fromkeys(self.far)  # that the line sent and that were not put out yet

    def see(self, line, packet, outputs, erred):
        """A packet of a line, and what is put out: pairs of a line and a packet."""
        far = self.far[line]
        kinds = [each.kind for _, each in outputs]
        errors = [name for name, each in outputs if each.kind == "reset" and each.cause == 5]
        require(errors == ([line] if erred else []), "another reset than by an error")
        if packet.kind in ("reset", "reset confirmation") and self.owes[line]:
            self.owes[line] = False
        elif "reset" in kinds or "reset confirmation" in kinds:
            self.reset()
        elif not self.owes[line] and packet.kind in ("data", "ready", "not ready"):
            self.acknowledge(far, packet.pr)
            if packet.kind == "data":
                self.accepted[line].append(packet)
            else:
                self.ready[line] = packet.kind == "ready"
        elif not self.owes[line] and packet.kind == "interrupt":
            self.interrupts[line] = packet
        for name, each in outputs:
            if each.kind == "reset":
                self.owes[name] = True
            elif each.kind == "interrupt":
                require(each == self.interrupts[self.far[name]], "another interrupt than was sent")
                self.interrupts[self.far[name]] = None
            elif each.kind == "data":
                self.deliver(self.far[name], each)
                self.told[name] = each.pr, self.told[name][1]
            elif each.kind in ("ready", "not ready"):
                self.told[name] = each.pr, each.kind == "ready"
        self.look()

    def acknowledge(self, sender, number):
        modulus = MODULI[self.far[sender]]
        counts = [count for count in range(self.acknowledged[sender], self.delivered[sender] + 1) if count % modulus == number]
        require(counts, "an invalid P(R) was taken")
        self.acknowledged[sender] = counts[0]

    def deliver(self, sender, packet):
        """The next of what was accepted, whole, with its number."""
        count = self.delivered[sender]
        receiver = self.far[sender]
        require(self.ready[receiver] and not self.owes[receiver], "data for a line that does not take it")
        require(count < len(self.accepted[sender]), "data that nobody sent")
        require(packet._replace(ps=0, pr=0) == self.accepted[sender][count]._replace(ps=0, pr=0), "other data than was sent")
        require(packet.ps == count % MODULI[receiver], "another P(S)")
        self.delivered[sender] += 1

    def look(self):
        for sender, receiver in self.far.items():
            accepted = len(self.accepted[sender])
            require(accepted - self.acknowledged[sender] <= self.windows[sender], "more than a window is unacknowledged")
            told = self.acknowledged[sender] % MODULI[sender], self.ready[receiver]
            require(self.owes[sender] or self.told[sender] == told, "another count or ready state is told")
            require(self.owes[receiver] or not self.interrupts[sender], "an interrupt is held for a line that takes it")
            if self.ready[receiver] and not self.owes[receiver]:
                require(self.delivered[sender] == accepted, "data is held for a line that takes it")


class Run:
    """The script in the making, and its text."""

    def __init__(self, seed):
        self.chance = random.Random(seed)
        self.exchange = model.Exchange(model.tomllib.loads(SUBSCRIPTIONS), {})
        self.script, self.text, self.kinds = [], [], Counter()
        self.origins = []  # the line of the script, about, from which each line of the text comes
        self.dtes = {name: Dte(name, self.chance) for name in ADDRESSES}
        self.moment = self.calls = 0

    def event(self, line):
        """Plays a line of a script, and hands on what is put out."""
        outputs = []
        for told in self.exchange.play(line):
            self.text.append(told)
            self.origins.append(len(self.script) + 1)
            word, name, digits = told.split()[:3]
            if word == "out":
                packet = read(MODULI[name], bytes.fromhex(digits)[4:])[1]
                outputs.append((name, packet))
                self.dtes[name].inbox.append(packet)
                by_error = packet.kind == "reset" and packet.cause in (3, 5)
                self.kinds[f"{packet.kind} with {packet.diagnostic}" if by_error else packet.kind] += 1
        return outputs

    def send(self, name, packets, observer=None, erred=False):
        """Sends packets of a line, in one line of the script or cut anywhere; one alone may be a procedure error."""
        octets = b""
        for packet in packets:
            frame = packet if isinstance(packet, bytes) else framed(written(MODULI[name], 1, packet))
            outputs = self.event(f"in {name} {frame.hex()}")
            if observer:
                observer.see(name, packet, outputs, erred)
            octets += frame
        while octets:
            cut = self.chance.randint(1, len(octets)) if self.chance.random() < 0.1 else len(octets)
            self.script.append(f"in {name} {octets[:cut].hex()}")
            octets = octets[cut:]

    def bare(self, line):
        self.script.append(line)
        self.event(line)

    def pass_time(self):
        """Time goes on, or back, or stands still."""
        later = self.chance.choice((0, 1, 59, 3_600, 100_000, 10_000_000))
        back = min(self.chance.choice((0, 0, 0, 50_000)), self.moment)
        self.moment += self.chance.randint(0, later) - self.chance.randint(0, back)
        self.bare(f"at {self.moment}")

    def call(self, most):
        """A call with at most so many packets, every other one between lines of unlike moduli; tells how many there were."""
        caller = self.chance.choice(list(ADDRESSES))
        unlike = self.calls % 2 == 1
        far = [name for name in ADDRESSES if name != caller and (MODULI[name] != MODULI[caller]) == unlike]
        ends = caller, self.chance.choice(far)
        self.calls += 1
        terms = self.connect(*ends)
        for name in ends:
            self.dtes[name].inbox.clear()
        for name, far in (ends, ends[::-1]):
            self.dtes[name].begin(terms, far)
        count = self.transfer(ends, min(most, self.chance.choice((1, 10, 200, 2_000))), Observer(terms, *ends))
        self.end(*self.chance.sample(ends, 2))
        return count + 4

    def connect(self, caller, called):
        """A call request and its answer; tells the sizes and windows that they come to."""
        chance, largest = self.chance, {name: 15 if MODULI[name] == 128 else 7 for name in (caller, called)}
        sizes = [chance.randint(4, 10) for _ in range(2)]
        windows = [chance.randint(1, largest[caller]) for _ in range(2)]
        paying = bytes([0x01, chance.randrange(2), 0x04, chance.randrange(2)])
        asked = paying + bytes([0x42, *sizes, 0x43, *windows])
        self.pass_time()
        self.send(caller, [Packet("call", block=Block(ADDRESSES[called], "", asked, b""))])
        windows = [min(window, largest[called]) for window in windows]
        if chance.random() < 0.5:
            sizes = [chance.randint(*sorted((size, 7))) for size in sizes]
            windows = [chance.randint(*sorted((window, 2))) for window in windows]
        answered = bytes([0x04, chance.randrange(2), 0x42, *sizes, 0x43, *windows])
        self.pass_time()
        self.send(called, [Packet("accepted", block=Block("", "", answered, b""))])
        return {"sizes": {called: 2 ** sizes[0], caller: 2 ** sizes[1]}, "windows": {called: windows[0], caller: windows[1]}}

    def transfer(self, ends, most, observer):
        count, speed = 0, {name: self.chance.uniform(0.1, 1) for name in ends}
        while count < most:
            dte = self.dtes[self.chance.choice(ends)]
            while dte.inbox and self.chance.random() < speed[dte.name]:
                dte.hear(dte.inbox.pop(0))
            packets = dte.burst()
            self.send(dte.name, packets, observer, dte.erred)
            count += len(packets)
        for name in ends:
            while self.dtes[name].inbox:
                self.dtes[name].hear(self.dtes[name].inbox.pop(0))
        return count

    def end(self, ender, far):
        """One end clears, sends what is no packet, or is gone, while the other still sends."""
        way = self.chance.choice(("clear", "clear", "wrong", "down"))
        self.pass_time()
        if way == "down":
            self.bare(f"down {ender}")
            self.bare(f"up {ender}")
        else:
            clear = Packet("clear", cause=0, diagnostic=self.chance.randrange(256))
            self.send(ender, [clear if way == "clear" else framed(b"\x10\x01\xff")])
        self.send(far, self.dtes[far].burst())
        for name in (far, ender) if way == "wrong" else (far,):
            self.send(name, [Packet("clear confirmation")])


def first_difference(run, found):
    for number, (wanted, line) in enumerate(zip(run.text, found)):
        if wanted != line:
            place = f"line {number + 1} of the output, from about line {run.origins[number]} of the script"
            return f"{place}, is\n  {line[:200]}\nand should be\n  {wanted[:200]}"
    return f"the output has {len(found)} lines, and should have {len(run.text)}"


def made_of(seed, packets):
    """A script of so many packets."""
    run = Run(seed)
    for name in ADDRESSES:
        run.bare(f"up {name}")
    count = 0
    while count < packets:
        count += run.call(packets - count)
    print(f"{count} packets of {run.calls} calls, {len(run.script)} lines of script, {len(run.text)} lines of text")
    print("put out:", ", ".join(f"{number} {kind}" for kind, number in sorted(run.kinds.items())))
    return run


def compare(program, folder, run):
    """Replays the script, and compares what is written."""
    start = time.perf_counter()
    with (folder / "script").open() as source:
        ran = subprocess.run([program, "replay", str(folder / "subs.toml")], stdin=source, capture_output=True, text=True)
    seconds = time.perf_counter() - start
    if ran.returncode != 0:
        sys.exit(f"status {ran.returncode}: {ran.stderr}")
    found = ran.stdout.splitlines()
    if found != run.text:
        sys.exit(first_difference(run, found))
    print(f"the program writes the same, in {seconds:.1f} s")


def main():
    parser = argparse.ArgumentParser(description=__doc__.splitlines()[0])
    parser.add_argument("--packets", type=int, default=100_000, help="how many packets the two ends send (default: 100,000)")
    parser.add_argument("--seed", type=int, help="what the choices follow from (default: another each time)")
    parser.add_argument("--xp", default=str(PROGRAM), help=f"the built program ({DEFAULT})")
    parser.add_argument("--no-program", action="store_true", help="make and check the script by the model alone")
    parser.add_argument("--keep", type=pathlib.Path, help="a folder for the script and its text, which then stay")
    arguments = parser.parse_args()

    seed = random.SystemRandom().randrange(10**9) if arguments.seed is None else arguments.seed
    print(f"seed {seed}", flush=True)
    run = made_of(seed, arguments.packets)
    with tempfile.TemporaryDirectory() as made:
        folder = arguments.keep or pathlib.Path(made)
        folder.mkdir(parents=True, exist_ok=True)
        (folder / "subs.toml").write_text(SUBSCRIPTIONS)
        (folder / "script").write_text("\n".join(run.script) + "\n")
        (folder / "expected").write_text("\n".join(run.text) + "\n")
        if model.text_of(folder) != (folder / "expected").read_text():
            sys.exit("the model says another thing of the script as it is cut into lines")
        if not arguments.no_program:
            compare(arguments.xp, folder, run)


if __name__ == "__main__":
    main()
