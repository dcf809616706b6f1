#!/usr/bin/env python3
"""Reads the words of every row of crates/xp_rows back, and compares the packets with those of the hexadecimal text.

    python3 bench/words.py [COMMAND ..]

The command, that of bench/program.py if none is given, is called as `COMMAND replay subs.toml --words`, with the row's script as
standard input. Each line of words is read back into an event or a packet: its line, direction, channel and type, and all that it
says. The same is read from the octets of the script, and of the frames that the row expects, as docs/FORMATS.md says. Exit status 0:
in every row they are the same, in the same order.
"""
import collections
import os
import re
import subprocess
import sys
import tomllib

from program import PROGRAM

TOP = os.path.join(os.path.dirname(os.path.abspath(__file__)), "..")
ROWS = os.path.join(TOP, "crates", "xp_rows", "data")
NAMES = os.path.join(TOP, "crates", "xp_words", "specs", "Names.antt")

# what a line of words is about: the direction, the line and what it tells
Told = collections.namedtuple("Told", "direction line what")


def table(name):
    """A table of names: from codes to names."""
    with open(NAMES, encoding="utf-8") as file:
        body = re.search(rf"^{name} =\s*(.*?)∷ \[\]", file.read(), re.M | re.S).group(1)
    return {int(code, 0): words for code, words in re.findall(r'\((\w+), codes "([^"]*)"\)', body)}


FACILITIES = table("facilities")
REASONS = table("reasons")
DIAGNOSTICS = table("diagnostics")
TYPES = {
    0x0B: ("call request", "incoming call"),
    0x0F: ("call accepted", "call connected"),
    0x13: ("clear request", "clear indication"),
    0x17: ("clear confirmation", "clear confirmation"),
    0x23: ("interrupt", "interrupt"),
    0x27: ("interrupt confirmation", "interrupt confirmation"),
    0x1B: ("reset request", "reset indication"),
    0x1F: ("reset confirmation", "reset confirmation"),
}
FLOW = {1: "RR", 5: "RNR", 9: "REJ"}


class Wrong(Exception):
    """Octets that are no packet, with the diagnostic."""


# ---- octets into packets


def decoded(octets, modulus, way):
    """What the octets of a frame are: a dictionary of a packet."""
    if len(octets) < 3:
        raise Wrong(38)
    bits, kind = octets[0] >> 4, octets[2]
    name = type_of(kind, modulus)
    q, d = bool(bits & 8), bool(bits & 4)
    if bits & 3 != (1 if modulus == 8 else 2) or q and name != "data" or d and name not in ("data", 0x0B, 0x0F):
        raise Wrong(40)
    if name is None:
        raise Wrong(33)
    packet = {"channel": (octets[0] & 15) * 256 + octets[1], "type": name if isinstance(name, str) else TYPES[name][way]}
    rest = octets[3:]
    if name == "data" or name in FLOW.values():
        return packet | numbered(name, kind, rest, modulus, q, d)
    return packet | of_kind(name, rest, d)


def type_of(kind, modulus):
    if kind & 1 == 0:
        return "data"
    flow = kind & 0x1F if modulus == 8 else kind
    if flow in FLOW:
        return FLOW[flow]
    return kind if kind in TYPES else None


def numbered(name, kind, rest, modulus, q, d):
    """Data, RR, RNR and REJ."""
    if modulus == 8:
        pr, more, ps = kind >> 5, bool(kind & 16), kind >> 1 & 7
    else:
        if not rest:
            raise Wrong(38)
        pr, more, ps, rest = rest[0] >> 1, bool(rest[0] & 1), kind >> 1, rest[1:]
    if name != "data":
        if rest:
            raise Wrong(39)
        return {"pr": pr}
    if len(rest) > 1024:
        raise Wrong(39)
    return {"ps": ps, "pr": pr, "bits": " Q" * q + " D" * d + " M" * more, "octets": rest}


def of_kind(kind, rest, d):
    """All other packets."""
    if kind in (0x27, 0x1F):
        if rest:
            raise Wrong(39)
        return {}
    if kind == 0x23:
        if not rest:
            raise Wrong(38)
        if len(rest) > 32:
            raise Wrong(39)
        return {"octets": rest}
    if kind in (0x13, 0x1B):
        if not rest:
            raise Wrong(38)
        found = {"cause": rest[0], "diagnostic": rest[1] if len(rest) > 1 else None}
        if kind == 0x1B:
            if len(rest) > 2:
                raise Wrong(39)
            return found
        return found | (block(rest[2:], 128) if len(rest) > 2 else {})
    if kind == 0x0B and not rest:
        raise Wrong(38)
    found = {"d": True} if d else {}
    return found | (block(rest, 0 if kind == 0x17 else 128) if rest else {})


def block(rest, most):
    """The addresses, facilities and user data; what is not there is left out."""
    calling, called = rest[0] >> 4, rest[0] & 15
    count = (calling + called + 1) // 2
    halves = [half for octet in rest[1:1 + count] for half in (octet >> 4, octet & 15)]
    if len(rest) < 1 + count or any(half > 9 for half in halves[:calling + called]) or any(halves[calling + called:]):
        raise Wrong(67)
    digits = "".join(map(str, halves))
    found = {"to": digits[:called], "from": digits[called:called + calling]}
    behind = rest[1 + count:]
    if behind:
        if behind[0] > 109 or len(behind) < 1 + behind[0]:
            raise Wrong(69)
        found["facilities"] = facilities(behind[1:1 + behind[0]])
        found["user"] = behind[1 + behind[0]:]
        if len(found["user"]) > most:
            raise Wrong(39)
    return {key: value for key, value in found.items() if value}


def facilities(field):
    """What a facility field says, item by item up to its first marker."""
    found = []
    while field:
        code = field[0]
        if len(field) == 1:
            return found + [("cut off", field)]
        if code == 0:
            return found + [("marker", field[1], field[2:])]
        count, start = (code // 64 + 1, 1) if code < 192 else (field[1], 2)
        if len(field) < start + count:
            return found + [("cut off", field)]
        found.append(facility(code, field[start:start + count]))
        field = field[start + count:]
    return found


def facility(code, parameters):
    if len(parameters) == 1 and code == 0x01:
        select = {2: "fast select", 3: "restricted fast select"}.get(parameters[0] >> 6, "no fast select")
        return ("select", bool(parameters[0] & 1), select)
    if len(parameters) == 1 and code == 0x04:
        return ("charging information", bool(parameters[0] & 1))
    if len(parameters) == 1 and code == 0x08:
        return ("modified", parameters[0])
    if len(parameters) == 2 and code == 0x42:
        return ("packet size", *(2 ** power if 4 <= power <= 12 else f"{power:02x}" for power in parameters))
    if len(parameters) == 2 and code == 0x43:
        return ("window", *parameters)
    if len(parameters) > 2 and code == 0xC3:
        digits = parameters[2:].hex()
        return ("redirection", parameters[0], digits[:parameters[1]] if parameters[1] % 2 and parameters[1] < len(digits) else digits)
    return (FACILITIES.get(code, f"facility {code:02x}"), parameters)


# ---- words into packets


class Words:
    """A line of words that is read from its front."""

    def __init__(self, text):
        self.text = text

    def take(self, pattern):
        """The groups of a pattern at the front, or None."""
        found = re.match(pattern, self.text, re.S)
        if found:
            self.text = self.text[found.end():]
        return found

    def octets(self):
        """Octets in hexadecimal, and then as text, which have to agree."""
        found = self.take(r'((?:[0-9a-f]{2})+) "')
        octets = bytes.fromhex(found[1])
        shown = "".join(chr(octet) if 32 <= octet <= 126 else "." for octet in octets)
        assert self.text.startswith(shown + '"'), self.text
        self.text = self.text[len(shown) + 1:]
        return octets


def read_packet(text):
    """The packet that words tell."""
    words = Words(text)
    packet = {"channel": int(words.take(r"channel (\d+): ")[1])}
    names = sorted({name for pair in TYPES.values() for name in pair} | {"data", *FLOW.values()}, key=len, reverse=True)
    packet["type"] = words.take("|".join(names))[0]
    if found := words.take(r" P\(S\)=(\d+) P\(R\)=(\d+)((?: [QDM])*), "):
        packet |= {"ps": int(found[1]), "pr": int(found[2]), "bits": found[3], "octets": read_octets(words)}
    elif found := words.take(r" P\(R\)=(\d+)"):
        packet["pr"] = int(found[1])
    elif packet["type"] == "interrupt":
        words.take(", ")
        packet["octets"] = read_octets(words)
    else:
        packet |= read_body(words)
    assert not words.text, words.text
    return packet


def read_octets(words):
    if words.take("no octets"):
        return b""
    count = int(words.take(r"(\d+) octets? ")[1])
    octets = words.octets()
    assert len(octets) == count, count
    return octets


def read_body(words):
    packet = {}
    if found := words.take(r", cause ([0-9a-f]{2})(?: [A-Za-z][A-Za-z ]*)?"):
        packet |= {"cause": int(found[1], 16), "diagnostic": None}
        if found := words.take(r", diagnostic (\d+)"):
            packet["diagnostic"] = int(found[1])
            words.take(re.escape(" " + DIAGNOSTICS.get(packet["diagnostic"], "none")))
    if found := words.take(r" from (\d+)"):
        packet["from"] = found[1]
    if found := words.take(r" to (\d+)"):
        packet["to"] = found[1]
    if words.take(r" D"):
        packet["d"] = True
    items = []
    while item := read_facility(words):
        items.append(item)
    if items:
        packet["facilities"] = items
    if words.take(", user data "):
        packet["user"] = words.octets()
    return packet


def value(text):
    return bytes.fromhex(text or "")


def read_facility(words):
    """The next facility that words tell, if there is one."""
    reasons = {name: code for code, name in REASONS.items()}
    if found := words.take(r", (reverse charging, )?((?:restricted |no )?fast select)"):
        return ("select", bool(found[1]), found[2])
    if found := words.take(r", charging information (not )?requested"):
        return ("charging information", not found[1])
    if found := words.take(r", called line address modified \(([^)]*)\)"):
        return ("modified", reasons[found[1]] if found[1] in reasons else int(found[1], 16))
    if found := words.take(r", call redirection \(([^)]*)\) from ([0-9a-f]*)"):
        return ("redirection", reasons[found[1]] if found[1] in reasons else int(found[1], 16), found[2])
    if found := words.take(r", packet size (\d+|[0-9a-f]{2})/(\d+|[0-9a-f]{2})(?![0-9a-f])"):
        return ("packet size", *(size if len(size) == 2 and size not in ("16", "32", "64") else int(size) for size in found.groups()))
    if found := words.take(r", window (\d+)/(\d+)"):
        return ("window", int(found[1]), int(found[2]))
    if found := words.take(r", marker ([0-9a-f]{2})(?: ((?:[0-9a-f]{2})+))?"):
        return ("marker", int(found[1], 16), value(found[2]))
    if found := words.take(r", cut off ((?:[0-9a-f]{2})+)"):
        return ("cut off", value(found[1]))
    names = sorted(set(FACILITIES.values()), key=len, reverse=True)
    if found := words.take(rf", ({'|'.join(names)}|facility [0-9a-f]{{2}})(?: ((?:[0-9a-f]{{2}})+))?(?=,|$)"):
        return (found[1], value(found[2]))
    return None


# ---- rows


def from_words(text):
    """What the lines of words tell, in order: what came, and what went."""
    came, went = [], []
    for line in text.splitlines():
        if re.match(r"\d+  (record of call \d+: |tables \w+ are in force)", line):
            continue
        found = re.match(r"\d+  (?:(\w+) → exchange|exchange → (\w+))  (.*)$", line, re.S)
        what = found[3]
        if what in ("given up", "connection closed"):
            continue
        if found[2]:
            went.append(Told("to", found[2], read_packet(what)))
        elif what in ("connection comes", "connection goes", "no answer in time (T11)"):
            came.append(Told("from", found[1], what))
        elif wrong := re.match(r"frame without a packet, diagnostic (\d+)", what):
            came.append(Told("from", found[1], int(wrong[1])))
        else:
            came.append(Told("from", found[1], read_packet(what)))
    return came, went


def lines_of(file):
    """The lines of a subscription file by their names, each with its modulus and its port or router."""
    with open(file, "rb") as text:
        stations = tomllib.load(text)["station"]
    return {line["name"]: (line.get("modulus", 8), line.get("port", line.get("router"))) for station in stations for line in station["line"]}


def events_of(lines, folder):
    """What comes in by the lines of a script, as docs/FORMATS.md has it."""
    came, streams, force = [], {}, lines_of(os.path.join(folder, "subs.toml"))
    for line in lines:
        verb, _, rest = line.partition(b" ")
        name, _, digits = rest.partition(b" ")
        name = name.decode(errors="replace")
        if verb == b"up":
            streams.setdefault(name, b"")
            came.append(Told("from", name, "connection comes"))
        elif verb == b"down":
            streams.pop(name, None)
            came.append(Told("from", name, "connection goes"))
        elif verb == b"expire":
            came.append(Told("from", name, "no answer in time (T11)"))
        elif verb == b"tables":
            before, force = force, lines_of(os.path.join(folder, "tables", name))
            # A line that goes is out of service.
            streams = {line: octets for line, octets in streams.items() if force.get(line) == before[line]}
        elif verb == b"in" and name in streams:
            frames_of(name, streams, bytes.fromhex(digits.decode()), force[name][0], came)
    return came


def frames_of(name, streams, octets, modulus, came):
    """The frames that octets end on a line, and that the line goes down at a bad header."""
    rest = streams[name] + octets
    while len(rest) >= 4:
        version, length = int.from_bytes(rest[:2], "big"), int.from_bytes(rest[2:4], "big")
        if version or not 3 <= length <= 1028:
            del streams[name]
            came.append(Told("from", name, "connection goes"))
            return
        if len(rest) < 4 + length:
            break
        try:
            came.append(Told("from", name, decoded(rest[4:4 + length], modulus, 0)))
        except Wrong as wrong:
            came.append(Told("from", name, wrong.args[0]))
        rest = rest[4 + length:]
    streams[name] = rest


def tables_of(folder):
    """The files of subscriptions that the script may bring into force, by their names."""
    tables = os.path.join(folder, "tables")
    return {name: os.path.join(tables, name) for name in sorted(os.listdir(tables))} if os.path.isdir(tables) else {}


def from_octets(folder):
    """The same from the octets of a row: its script, and the frames that it expects."""
    files = [os.path.join(folder, "subs.toml"), *tables_of(folder).values()]
    moduli = {name: modulus for file in files for name, (modulus, _) in lines_of(file).items()}
    with open(os.path.join(folder, "script"), "rb") as file:
        came = events_of(file.read().split(b"\n"), folder)
    went = []
    with open(os.path.join(folder, "expected"), encoding="utf-8") as file:
        for line in file:
            verb, name, digits = (line.split() + ["", ""])[:3]
            if verb == "out":
                went.append(Told("to", name, decoded(bytes.fromhex(digits)[4:], moduli[name], 1)))
    return came, went


def main():
    command = sys.argv[1:] or [PROGRAM]
    count = packets = faults = 0
    for row in sorted(os.listdir(ROWS)):
        folder = os.path.join(ROWS, row)
        # the rows that are wrong on purpose expect what is not told
        if row.startswith("wrong_on_purpose") or not os.path.exists(os.path.join(folder, "script")) or not os.path.exists(os.path.join(folder, "expected")):
            continue
        with open(os.path.join(folder, "script"), "rb") as script:
            words = [word for name, file in tables_of(folder).items() for word in ("--tables", f"{name}={file}")]
            run = subprocess.run([*command, "replay", os.path.join(folder, "subs.toml"), "--words", *words], stdin=script, capture_output=True, check=False)
        if run.returncode:
            print(f"{row}: not told to its end: {run.stderr.decode().strip()}")
            continue
        count += 1
        told, read = from_words(run.stdout.decode()), from_octets(folder)
        for words, octets in zip(told, read):
            packets += len(octets)
            if words != octets:
                faults += 1
                place = next((at for at, pair in enumerate(zip(words, octets)) if pair[0] != pair[1]), min(len(words), len(octets)))
                print(f"{row}: place {place}\n    words  {words[place:place + 1]}\n    octets {octets[place:place + 1]}")
    print(f"{count} rows, {packets} events and packets, {faults} faults")
    return 1 if faults or not count else 0


if __name__ == "__main__":
    sys.exit(main())
