#!/usr/bin/env python3
"""Compares the words of every row of crates/xp_rows with what Wireshark's dissector makes of the row's capture.

    python3 bench/words_tshark.py [PROGRAM]

PROGRAM, that of bench/program.py if none is given, replays each row with --words and with --pcap; `tshark` reads the capture. Both must
have the same packets in the same order: the way, the line, the channel, the type, and the numbers of data and flow control.

What the dissector (Wireshark 4.0) calls malformed is compared by its way and its line alone: clear and reset requests without a
diagnostic, which X.25 allows, and packets that rows break on purpose. Of data with modulo 128 it names the third octet P(R) and the
fourth P(S), where X.25 has P(S) first: these two are exchanged. Rows that end with a fault are left out. Exit status 0: no difference.
"""
import os
import re
import subprocess
import sys
import tempfile
import tomllib

from program import PROGRAM

TOP = os.path.join(os.path.dirname(os.path.abspath(__file__)), "..")
ROWS = os.path.join(TOP, "crates", "xp_rows", "data")
EXCHANGE = "10.0.0.1"

# what Wireshark calls the types of packets, which it does not tell apart by the way they go
TYPES = {
    "call request": "call", "incoming call": "call", "call accepted": "accepted", "call connected": "accepted",
    "clear request": "clear", "clear indication": "clear", "clear confirmation": "clear confirmation",
    "interrupt": "interrupt", "interrupt confirmation": "interrupt confirmation",
    "reset request": "reset", "reset indication": "reset", "reset confirmation": "reset confirmation",
    "data": "data", "RR": "RR", "RNR": "RNR", "REJ": "REJ",
}
INFO = {
    "Inc. call/Call req.": "call", "Call conn./Call acc.": "accepted", "Clear ind./Clear req.": "clear",
    "Clear Conf.": "clear confirmation", "Interrupt": "interrupt", "Interrupt Conf.": "interrupt confirmation",
    "Reset ind./Reset req.": "reset", "Reset conf.": "reset confirmation",
    "Data": "data", "RR": "RR", "RNR": "RNR", "REJ": "REJ",
}


def lines_of(folder):
    """The names of the lines of a row with their moduli, in order."""
    with open(os.path.join(folder, "subs.toml"), "rb") as file:
        return [(line["name"], line.get("modulus", 8)) for station in tomllib.load(file).get("station", []) for line in station["line"]]


def from_words(text):
    """The packets that lines of words tell of: (line, is from the exchange, channel, type, numbers), or None for what is no packet."""
    for line in text.splitlines():
        found = re.match(r"\d+  (\S+) → (\S+)  (.*)", line)
        if not found:
            continue
        first, second, what = found.groups()
        is_out = first == "exchange"
        name = second if is_out else first
        packet = re.match(r"channel (\d+): ([^,]*?)(?: from .*| to .*|,.*)?$", what)
        if packet:
            kind = next((TYPES[it] for it in sorted(TYPES, key=len, reverse=True) if packet[2].startswith(it)), None)
            numbers = tuple(sorted((key, int(value)) for key, value in re.findall(r"P\(([SR])\)=(\d+)", what)))
            yield name, is_out, int(packet[1]), kind, numbers
        elif "malformed" in what or "no packet" in what:
            yield name, is_out, None, None, ()


def from_capture(path, lines):
    """The same of a capture, as tshark reads it. What it calls malformed has no type."""
    command = ["tshark", "-r", path, "--disable-protocol", "x29", "-T", "fields", "-e", "ip.src", "-e", "ip.dst", "-e", "_ws.col.Info"]
    read = subprocess.run(command, capture_output=True, text=True, check=True).stdout
    for line in read.splitlines():
        source, target, info = (line.split("\t") + ["", ""])[:3]
        is_out = source == EXCHANGE
        octets = [int(it) for it in (target if is_out else source).split(".")]
        number = ((octets[0] << 24) + (octets[1] << 16) + (octets[2] << 8) + octets[3]) - (10 << 24) - (1 << 16)
        name, modulus = lines[number]
        if "Malformed" in info:
            yield name, is_out, None, None, ()
            continue
        if modulus == 128 and info.startswith("Data"):
            info = re.sub(r"P\(S\):(\d+) P\(R\):(\d+)", r"P(S):\2 P(R):\1", info)
        kind = next((INFO[it] for it in sorted(INFO, key=len, reverse=True) if info.startswith(it)), None)
        channel = re.search(r"VC:(\d+)", info)
        numbers = tuple(sorted((key, int(value)) for key, value in re.findall(r"P\(([SR])\):(\d+)", info)))
        yield name, is_out, int(channel[1]) if channel else None, kind, numbers


def differ(words, read):
    """The place of the first packet of which the two differ, or None."""
    for place in range(max(len(words), len(read))):
        one, other = words[place:place + 1], read[place:place + 1]
        if not one or not other or one[0][:2] != other[0][:2] or (other[0][3] and one[0] != other[0]):
            return place
    return None


def replay(program, folder, *words):
    with open(os.path.join(folder, "script"), "rb") as script:
        return subprocess.run([program, "replay", os.path.join(folder, "subs.toml"), *words], stdin=script, capture_output=True, check=False)


def main():
    program = sys.argv[1] if len(sys.argv) > 1 else PROGRAM
    rows = packets = skipped = faults = 0
    with tempfile.TemporaryDirectory() as room:
        for row in sorted(os.listdir(ROWS)):
            folder = os.path.join(ROWS, row)
            if not os.path.isfile(os.path.join(folder, "script")):
                continue
            told = replay(program, folder, "--words")
            capture = os.path.join(room, "row.pcap")
            if told.returncode or replay(program, folder, "--pcap", capture).returncode:
                skipped += 1
                continue
            rows += 1
            words = [it for it in from_words(told.stdout.decode()) if it[3]]
            read = list(from_capture(capture, lines_of(folder)))
            packets += len(words)
            at = differ(words, read)
            if at is not None:
                faults += 1
                print(f"{row}: packet {at + 1}: words {words[at:at + 1]}, tshark {read[at:at + 1]}; {len(words)} and {len(read)} packets")
    print(f"{rows} rows, {packets} packets, {faults} rows differ; {skipped} rows end with a fault and are left out")
    return 1 if faults else 0


if __name__ == "__main__":
    sys.exit(main())
