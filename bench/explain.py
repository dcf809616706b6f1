#!/usr/bin/env python3
"""Whether `xp explain` tells what the exchange does, and the matrix of `xp check --words` what `xp explain` tells.

Random call requests are explained, and made by a replay. Each is made over a subscription file, or over a random one with
groups, hunt groups, rights and redirections. `xp explain` says which line rings, or the cause and the diagnostic of the refusal.
Then `xp replay` brings the same lines up, makes the same of them busy, and makes that request. Both have to say the same; where
several idle lines of a station could ring, each may say another.

Of further random files, the matrix of who may call whom is compared with what `xp explain` says for each pair of stations, of
the same file without its redirections: of a call request without facilities, of one with each selection of the caller's groups,
and, where none of these rings, of one with random facilities and user data.
"""

import argparse
import pathlib
import random
import re
import subprocess
import sys
import tempfile
import tomllib
from collections import Counter
from concurrent.futures import ThreadPoolExecutor
from dataclasses import dataclass

from packets import Block, Packet, framed, read, written
from program import DEFAULT, PROGRAM

GROUPS = ("Bank", "Till", "Audit")
RIGHTS = ("outgoing_barred", "incoming_barred", "reverse_charging", "fast_select", "outgoing_access", "incoming_access")
REASONS = ("systematic", "busy", "out_of_order")

# What a request asks for: mostly nothing, and now and then what is faulty.
SELECTIONS = 8 * ("",) + ("0301", "0302", "0309", "0901", "0902", "479999", "480001", "03010901")
OPTIONS = 6 * ("",) + ("0101", "0180", "01c1", "0100")
SIZES = 8 * ("",) + ("420707", "420c0c", "420303", "430303", "430808", "430f0f", "431010")
ENDS = 12 * ("",) + ("0401", "0208", "0800", "42", "000f0101", "0005")
USER_LENGTHS = (0, 0, 0, 0, 4, 16, 17, 128)


@dataclass(frozen=True)
class Line:
    name: str
    modulus: int
    station: int


@dataclass(frozen=True)
class Request:
    caller: Line
    dialled: str
    facilities: bytes
    user: bytes
    up: tuple  # lines in service; the caller's always is
    are_stated: bool  # whether `--up` says so; else all lines are
    busy: tuple  # those of them with a call


# Subscriptions


def random_file(chance, stations=12):
    """A subscription file of so many stations."""
    addresses = [f"20801{number:02}" for number in range(stations)]
    return "\n".join(random_station(chance, number, addresses) for number in range(len(addresses)))


def random_station(chance, number, addresses):
    lines = ["[[station]]", f'address = "{addresses[number]}"', "line = ["]
    for place in range(chance.choice((1, 1, 2, 3))):
        own = f', address = "2090{number:02}{place}"' if chance.random() < 0.3 else ""
        modulus = chance.choice((8, 8, 128))
        lines.append(f'  {{ name = "l{number}x{place}", port = {20_000 + 10 * number + place}{own}, modulus = {modulus} }},')
    lines.append("]")
    lines += [f"{right} = true" for right in RIGHTS if chance.random() < (0.1 if right.endswith("barred") else 0.5)]
    groups = chance.sample(GROUPS, chance.choice((0, 0, 1, 2, 3)))
    if groups and chance.random() < 0.6:
        lines.append(f"preferential = {chance.randint(1, len(groups))}")
    lines.append("group = [" + ", ".join(random_group(chance, index, name) for index, name in enumerate(groups, 1)) + "]")
    if chance.random() < 0.4:
        to = chance.choice([*addresses, "999"])
        reasons = "".join(f", {reason} = {str(chance.random() < 0.4).lower()}" for reason in REASONS)
        lines.append(f'redirect = {{ to = "{to}"{reasons} }}')
    return "\n".join(lines) + "\n"


def random_group(chance, index, name):
    barred = "".join(f", {key} = true" for key in ("outgoing_barred", "incoming_barred") if chance.random() < 0.25)
    return f'{{ name = "{name}", index = {index}{barred} }}'


def lines_and_addresses(text):
    """The lines of a subscription file, and the addresses that somebody may dial."""
    lines, addresses = [], ["999"]
    for number, station in enumerate(tomllib.loads(text)["station"]):
        addresses.append(station["address"])
        if "redirect" in station:
            addresses.append(station["redirect"]["to"])
        for line in station["line"]:
            lines.append(Line(line["name"], line.get("modulus", 8), number))
            addresses += [line["address"]] if "address" in line else []
    return lines, addresses


# Requests


def random_request(chance, lines, addresses):
    """A call request, and the states of the lines."""
    caller = chance.choice(lines)
    facilities, user = random_wishes(chance)
    share = chance.choice((0, 0, 0.3, 0.7))
    up = tuple(line for line in lines if line == caller or chance.random() >= share)
    most_busy = chance.choice((0, 0.2, 0.7))
    busy = tuple(line for line in up if line != caller and chance.random() < most_busy)
    return Request(caller, chance.choice(addresses), facilities, user, up, share > 0, busy)


def random_wishes(chance):
    """The facilities and the user data of a call request."""
    facilities = "".join(chance.choice(choices) for choices in (SELECTIONS, OPTIONS, SIZES, ENDS))
    return bytes.fromhex(facilities), chance.randbytes(chance.choice(USER_LENGTHS))


def explained(program, path, request):
    """What `xp explain` says: the name of a line, or a cause and a diagnostic."""
    words = [program, "explain", str(path), request.caller.name, request.dialled]
    words += ["--facilities", request.facilities.hex()] if request.facilities else []
    words += ["--user", request.user.hex()] if request.user else []
    words += ["--up", ",".join(line.name for line in request.up)] if request.are_stated else []
    words += ["--busy", ",".join(line.name for line in request.busy)] if request.busy else []
    ran = subprocess.run(words, capture_output=True, text=True)
    if ran.returncode != 0:
        sys.exit(f"{words}: status {ran.returncode}: {ran.stderr}")
    last = ran.stdout.splitlines()[-1].split()
    if last[0] == "line" and last[2:] == ["rings"]:
        return last[1]
    if last[:2] != ["refused:", "cause"]:
        sys.exit(f"{words}: no verdict: {ran.stdout}")
    return int(last[2], 16), int(last[last.index("diagnostic") + 1])


def script_of(request):
    """Brings up the lines, makes some of them busy, makes the request, and takes all lines down."""
    script = [f"up {line.name}" for line in request.up]
    for line in request.busy:
        # A clear confirmation is an error in p1: the line has to confirm its clearing, and is busy until it does.
        script.append(f"in {line.name} {framed(written(line.modulus, 1, Packet('clear confirmation'))).hex()}")
    block = Block(request.dialled, "", request.facilities, request.user)
    packet = written(request.caller.modulus, 1, Packet("call", block=block))
    script.append(f"in {request.caller.name} {framed(packet).hex()}")
    script += [f"down {line.name}" for line in request.up]
    return "".join(f"{line}\n" for line in script)


def replayed(program, path, requests, moduli):
    """What comes of each request in a replay: the name of a line, or a cause and a diagnostic."""
    script = "".join(map(script_of, requests))
    ran = subprocess.run([program, "replay", str(path)], input=script, capture_output=True, text=True)
    if ran.returncode != 0:
        sys.exit(f"replay: status {ran.returncode}: {ran.stderr}")
    # Each request has one record: as it is refused, or as a line of its call goes down.
    texts = re.split(r"^record .*\n", ran.stdout, flags=re.MULTILINE)
    return [verdict_in(text.splitlines(), request, moduli) for text, request in zip(texts, requests, strict=False)]


def verdict_in(outs, request, moduli):
    """What comes out behind the errors of the lines that were made busy."""
    _, name, digits = outs[len(request.busy)].split()
    _, packet = read(moduli[name], bytes.fromhex(digits)[4:])
    return name if packet.kind == "call" else (packet.cause, packet.diagnostic)


def is_same(told, done, request, stations):
    """The same refusal, or the same line or another idle one of its station."""
    if told == done or not (isinstance(told, str) and isinstance(done, str)):
        return told == done
    idle = {line.name for line in request.up} - {line.name for line in request.busy} - {request.caller.name}
    return stations[told] == stations[done] and {told, done} <= idle


def compare_requests(arguments, chance, path, pool):
    """Compares what is explained of random requests with what a replay does."""
    verdicts, program = Counter(), arguments.explain or arguments.xp
    for begun in range(0, arguments.requests, 100):
        path.write_text(arguments.file.read_text() if arguments.file else random_file(chance))
        lines, addresses = lines_and_addresses(path.read_text())
        moduli, stations = {l.name: l.modulus for l in lines}, {l.name: l.station for l in lines}
        requests = [random_request(chance, lines, addresses) for _ in range(min(100, arguments.requests - begun))]
        told = pool.map(lambda request: explained(program, path, request), requests)
        done = replayed(arguments.xp, path, requests, moduli)
        for request, said, came in zip(requests, told, done, strict=True):
            if not is_same(said, came, request, stations):
                sys.exit(f"{path.read_text()}\n{request}\nexplained {said}, replayed {came}")
            verdicts["a line rings" if isinstance(said, str) else "refused {:02x}/{}".format(*said)] += 1
    for verdict, count in sorted(verdicts.items()):
        print(f"{count:6} {verdict}")
    print(f"{arguments.requests} requests: explained as they were decided", flush=True)


# The matrix of who may call whom


@dataclass(frozen=True)
class Pair:
    row: int  # the caller's number, and its table of the file
    caller: dict
    column: int  # those of the called station
    called: dict
    line: str  # a line of the caller
    other: tuple  # facilities and user data of another request


def matrix(program, path):
    """The rows of the matrix that `xp check --words` prints, in letters."""
    ran = subprocess.run([program, "check", str(path), "--words"], capture_output=True, text=True)
    if ran.returncode != 0:
        sys.exit(f"check: status {ran.returncode}: {ran.stderr}")
    return re.findall(r"^ *\d+ ([xs.]+) \d+$", ran.stdout, flags=re.MULTILINE)


def selections(station):
    """The facility field for each selection of a group of the station."""
    indexes = [group["index"] for group in station["group"]]
    return [bytes.fromhex(f"{code}{index:04}") for index in indexes for code in ("47", "48")]


def letter(program, path, pair):
    """The letter that a pair of stations has by what is explained."""

    def is_put_through(facilities, user=b""):
        request = Request(Line(pair.line, 8, pair.row), pair.called["address"], facilities, user, (), False, ())
        return explained(program, path, request) in {line["name"] for line in pair.called["line"]}

    if is_put_through(b""):
        return "x"
    if any(is_put_through(selection) for selection in selections(pair.caller)):
        return "s"
    return "another request is put through" if is_put_through(*pair.other) else "."


def pairs_of(chance, text):
    """Each pair of stations of a subscription file."""
    stations = tomllib.loads(text)["station"]
    for row, caller in enumerate(stations):
        for column, called in enumerate(stations):
            line = chance.choice(caller["line"])["name"]
            yield Pair(row, caller, column, called, line, random_wishes(chance))


def compare_matrices(arguments, chance, path, pool):
    """Compares the matrices of random files with what is explained."""
    letters, program = Counter(), arguments.explain or arguments.xp
    for _ in range(arguments.matrices):
        text = random_file(chance, 8)
        path.write_text(text)
        rows = matrix(arguments.xp, path)
        path.write_text(re.sub(r"^redirect = .*\n", "", text, flags=re.MULTILINE))
        pairs = list(pairs_of(chance, text))
        for pair, said in zip(pairs, pool.map(lambda pair: letter(program, path, pair), pairs), strict=True):
            if rows[pair.row][pair.column] != said:
                sys.exit(f"{text}\n{pair}\nexplained {said}, in the matrix {rows[pair.row][pair.column]}")
            letters[said] += 1
    for said, count in sorted(letters.items()):
        print(f"{count:6} {said}")
    print(f"{sum(letters.values())} pairs of stations in {arguments.matrices} matrices: as they are explained")


def main():
    parser = argparse.ArgumentParser(description=__doc__.splitlines()[0])
    parser.add_argument("--requests", type=int, default=10_000, help="how many requests are made (default: 10,000)")
    parser.add_argument("--matrices", type=int, default=200, help="of how many random files the matrix is compared (default: 200)")
    parser.add_argument("--seed", type=int, help="what the choices follow from (default: another each time)")
    parser.add_argument("--file", type=pathlib.Path, help="a subscription file for the requests (default: a random one for each hundred)")
    parser.add_argument("--xp", default=str(PROGRAM), help=f"the built program ({DEFAULT})")
    parser.add_argument("--explain", help="a program that explains, where it is another one")
    parser.add_argument("--jobs", type=int, default=4, help="how many requests are made side by side (default: 4)")
    arguments = parser.parse_args()

    seed = random.SystemRandom().randrange(10**9) if arguments.seed is None else arguments.seed
    print(f"seed {seed}", flush=True)
    chance = random.Random(seed)
    with tempfile.TemporaryDirectory() as made, ThreadPoolExecutor(arguments.jobs) as pool:
        path = pathlib.Path(made) / "subs.toml"
        compare_requests(arguments, chance, path, pool)
        compare_matrices(arguments, chance, path, pool)


if __name__ == "__main__":
    main()
