#!/usr/bin/env python3
"""How often `xp serve` asks for memory while calls send data: requests for each data packet with its acknowledgement (RR)."""

import argparse
import json
import os
import pathlib
import subprocess
import tempfile

import server

WINDOW = 7


def counting(folder):
    """The library that counts, and the file into which it does."""
    library = pathlib.Path(folder) / "allocations.so"
    subprocess.run(["cc", "-O2", "-shared", "-fPIC", "-o", library, server.HERE / "allocations.c"], check=True)
    counts = pathlib.Path(folder) / "count"
    counts.write_bytes(bytes(8))
    return library, counts


def counted(counts):
    return int.from_bytes(counts.read_bytes(), "little")


def measure(xp, pairs, seconds, folder):
    """Requests for memory and data packets of so many calls that send for so many seconds."""
    library, counts = counting(folder)
    load = server.compiled("load", folder)
    os.environ["LD_PRELOAD"], os.environ["ALLOCATIONS"] = str(library), str(counts)
    with server.Exchange(xp, folder, pairs, pairs) as exchange:
        del os.environ["LD_PRELOAD"]
        exchange.connect(exchange.base).close()
        # The line takes the next connection once the exchange has seen the end of that one.
        time.sleep(1)
        before = counted(counts)
        command = [str(part) for part in (load, exchange.base, pairs, WINDOW, seconds, min(os.cpu_count(), pairs))]
        told = json.loads(subprocess.run(command, stdout=subprocess.PIPE, check=True, text=True).stdout)
        return counted(counts) - before, sum(told["packets"])


def main():
    parser = argparse.ArgumentParser(description=__doc__)
    parser.add_argument("--xp", default=str(server.PROGRAM), help=f"the built program ({server.DEFAULT})")
    parser.add_argument("--seconds", type=int, default=3)
    arguments = parser.parse_args()
    for pairs in (1, 16, 128):
        with tempfile.TemporaryDirectory() as folder:
            requests, packets = measure(arguments.xp, pairs, arguments.seconds, folder)
            print(f"{pairs} calls: {requests:,} requests for memory, {packets:,} data packets: {requests / packets:.3f} each")


if __name__ == "__main__":
    main()
