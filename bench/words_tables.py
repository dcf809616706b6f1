#!/usr/bin/env python3
"""Compares the names of causes and diagnostics in docs/PROTOCOL.md with those of crates/xp_words/specs/Names.antt.

    python3 bench/words_tables.py            exit status 0: they agree
    python3 bench/words_tables.py --write    prints the tables for docs/PROTOCOL.md

Each code that the tables of docs/PROTOCOL.md or the constants of xp_causes use has to have a name too.
"""
import os
import re
import sys

TOP = os.path.join(os.path.dirname(os.path.abspath(__file__)), "..")
HEADINGS = {
    "### Clearing causes": ("clearing_causes", 16),
    "### Resetting causes": ("resetting_causes", 16),
    "### Diagnostics": ("diagnostics", 10),
}


def read(*path):
    with open(os.path.join(TOP, *path), encoding="utf-8") as file:
        return file.read()


def spec_table(text, name):
    """The rows of a table of Names.antt: code and name."""
    body = re.search(rf"^{name} =\s*(.*?)∷ \[\]", text, re.M | re.S).group(1)
    return [(int(code, 0), words) for code, words in re.findall(r'\((\w+), codes "([^"]*)"\)', body)]


def section(text, heading):
    """The text below a heading, up to the next heading."""
    behind = text.split("\n" + heading + "\n", 1)
    return re.split(r"^#", behind[1], maxsplit=1, flags=re.M)[0] if len(behind) == 2 else ""


def doc_table(text, heading, base):
    return [(int(code, base), words) for code, words in re.findall(r"^\| (\w+) \| ([^|]+?) \|$", section(text, heading), re.M)
            if re.fullmatch(r"[0-9a-f]+", code)]


def used_codes(protocol):
    """The causes and the diagnostics of the tables that tell why a call ended or is refused."""
    causes, diagnostics = set(), set()
    for heading, column in ("### Why a call ended", 0), ("## Why a call is refused", 1):
        for row in re.findall(r"^\|(.*)\|$", section(protocol, heading), re.M):
            cause, diagnostic = [cell.strip() for cell in row.split("|")][column:column + 2]
            if re.fullmatch(r"[0-9a-f]{2}", cause):
                causes.add(int(cause, 16))
            if re.fullmatch(r"\d+(, \d+)*", diagnostic):
                diagnostics.update(int(number) for number in diagnostic.split(", "))
    return causes, diagnostics


def constants(text, module):
    return {int(code, 0) for code in re.findall(rf"{module}\.\w+ ≡ (\w+)", text)}


def main():
    names = read("crates", "xp_words", "specs", "Names.antt")
    tables = {heading: spec_table(names, name) for heading, (name, _) in HEADINGS.items()}
    if "--write" in sys.argv[1:]:
        for heading, rows in tables.items():
            form = "{:02x}" if HEADINGS[heading][1] == 16 else "{}"
            print(f"{heading}\n\n| Code | Name |\n|---|---|")
            print("\n".join(f"| {form.format(code)} | {words} |" for code, words in rows) + "\n")
        return 0
    protocol = read("docs", "PROTOCOL.md")
    coding = read("crates", "xp_causes", "specs", "Coding.antt")
    faults = []
    for heading, (_, base) in HEADINGS.items():
        told = doc_table(protocol, heading, base)
        for row in sorted(set(told) ^ set(tables[heading])):
            faults.append(f"{heading}: {row} is in {'docs/PROTOCOL.md' if row in told else 'Names.antt'} alone")
    causes, diagnostics = used_codes(protocol)
    known = {name: {code for code, _ in tables[heading]} for heading, (name, _) in HEADINGS.items()}
    needed = [
        ("clearing_causes", (causes | constants(coding, "clearing")) - {cause for cause in causes if cause >= 0x80}),
        ("resetting_causes", constants(coding, "resetting")),
        ("diagnostics", diagnostics | constants(coding, "diagnostic")),
    ]
    for name, codes in needed:
        if not codes:
            faults.append(f"{name}: no code was found to compare")
        faults += [f"{name}: {code} has no name" for code in sorted(codes - known[name])]
    for fault in faults:
        print(fault)
    print(f"{sum(len(rows) for rows in tables.values())} names, {len(faults)} faults")
    return 1 if faults else 0


if __name__ == "__main__":
    sys.exit(main())
