"""The tests that `./test` runs: the table of scripts, the crates of tests, and the rows."""

import dataclasses
import os
import pathlib
import sys

from jobs import Job

TOP = pathlib.Path(__file__).resolve().parent.parent
UNPROVED, PROVED, UNPROVED_ROWS = TOP / "out/unproved/xp", TOP / "crates/xp/out/xp", TOP / "out/unproved/xp_rows"

# How many parts the rows are tried in, beside one another.
PARTS_OF_ROWS = 12

# An address sanitizer holds what was given back for a while. With little of it held, memory that grows is seen.
LITTLE_HELD = {"ASAN_OPTIONS": "quarantine_size_mb=1:thread_local_quarantine_size_kb=16"}


@dataclasses.dataclass
class Script:
    """A script of bench/, with the words that it gets, what it looks at, and the seconds that it takes about."""

    name: str
    words: str
    looks_at: str
    usual: int
    # Its words with the proved program, where they are others.
    proved_words: str | None = None
    # It says nothing of the program before any proof.
    proved_only: bool = False


SCRIPTS = [
    Script("believed.py", "", "public contracts cite no definition of private steps", 2),
    Script("words_tables.py", "", "causes and diagnostics have the names of PROTOCOL.md", 1),
    Script("commands.py", "--jobs 2", "the rows over the program: words, files, texts, exit status", 60),
    Script("launcher.py", "", "which program ./xp runs, and what it says", 15),
    Script("package.py", "--offline", "the Debian package: what it has, what it installs, how it comes and goes", 20),
    Script("documents.py", "", "the commands that README, OPERATING, FORMATS, xp.1 and the help show, typed", 25),
    Script("exchange.py", "--packets 10000", "10,000 packets of random calls in a replay, beside the model", 10, "--packets 50000"),
    Script("windows.py", "--rounds 2 --step 32", "each window of a call between lines of either modulus", 30, ""),
    Script("interrupted.py", "", "a replay whose every read is interrupted", 20, proved_only=True),
    Script("pieces.py", "", "scripts that come in pieces: what is told of a faulty line", 20),
    Script("failing.py", "--jobs 2", "standard input and outputs that fail at each of their calls", 60),
    Script("explain.py", "--requests 200 --matrices 1 --jobs 2", "what explain says of random requests is what a replay does, and the matrix what explain says", 80,
           "--requests 1000 --matrices 10 --jobs 2"),
    Script("words.py", "", "the words of each row say what its octets say", 60),
    Script("subscriptions.py", "--stations 32 --runs 1", "reading subscriptions takes time in proportion to them", 10, "--runs 5"),
    Script("serve/console.py", "", "the console: answers, what it shows, its stop", 60),
    Script("serve/reload.py", "--reloads 200", "other subscriptions come into force under calls of data", 30, ""),
    Script("serve/reload_lines.py", "--reloads 8", "lines that come and go while the exchange serves", 40, ""),
    Script("serve/moving_ports.py", "--reloads 40", "ports that move between lines while connections come", 30, ""),
    Script("serve/page.py", "", "the console's page in a browser, where there is one", 15),
    Script("serve/records_file.py", "", "the file of call detail records", 60),
    Script("serve/live_calls.py", "", "the file of live calls, and what the start after a kill makes of it", 70),
    Script("serve/live_days.py", "", "the file of live calls beside call detail records by the day", 50),
    Script("serve/rotation.py", "", "the file of call detail records moved, removed and rotated under calls", 40),
    Script("serve/days.py", "", "call detail records by the day, over a midnight of the clock", 90),
    Script("serve/traces.py", "", "the trace of lines", 40),
    Script("serve/disk.py", "", "disks that fail or hang, and outputs that nobody reads", 60),
    Script("serve/ports.py", "", "hosts, ports, strangers, and output that fails", 50),
    Script("serve/links.py", "", "the connections of lines behind routers", 40),
    Script("serve/waiting.py", "", "connections of routers before their first frame is whole", 20),
    Script("serve/callers.py", "--calls 1000", "calls of routers behind which several stations have lines", 30, ""),
    Script("serve/many_callers.py", "", "calls of thousands of stations behind 40 routers", 20, proved_only=True),
    Script("serve/newcomers.py", "", "connections to the port of a line that has one", 20),
    Script("serve/telling.py", "", "what the log tells of lines that go down, and of calls that are refused or cleared", 20),
    Script("serve/last_octets.py", "", "fifty calls in the middle of transfers as the exchange stops: the last octets", 30),
    Script("serve/endings.py", "--rounds 3 --launcher={launcher}", "three kills and three stops under calls: the records", 60),
    Script("serve/routers.py", "--rounds 50", "calls of routers in both directions, and from both sides at once", 60, "--rounds 300"),
    Script("serve/mixed.py", "--jobs 8 --most-lines 60", "the rows over TCP, with a router among hosts", 60, "--jobs 8"),
    Script("serve/moduli.py", "--packets 300 --seconds 2", "calls over TCP between lines of modulo 8 and 128", 15),
    Script("serve/hostile.py", "20 --most 2000", "a good pair beside hostile lines: octets, times, memory", 25, "20 --most 50"),
    Script("serve/memory.py", "--events 60000 --calls 4000 --first 16000 --most 10", "memory under data, and under calls that come and go", 90,
           "--events 1000000 --calls 100000 --most 3"),
    Script("serve/soak.py", "20 --pairs 32 --growth 20000 --threads lines", "calls that come and go at random, a thread for each line: octets and records", 40, "20 --threads lines"),
    Script("serve/metrics_format.py", "--serve", "the metrics of an exchange are in Prometheus' text format", 5),
    Script("serve/metrics_named.py", "", "alerts, dashboard and OPERATING.md name the metrics of an exchange", 5),
    Script("serve/two_machines.py", "", "two machines and an address that keepalived moves: lines, calls, records (takes root)", 45),
    Script("serve/dead_peer.py", "", "peers that are gone without a word (takes root)", 95),
]
# The scripts whose times depend on what else the machine does: those over sockets, and one that compares times.
TIMED = ("serve/", "documents.py", "subscriptions.py")

# Seconds that a script may take, and a build or a part of the rows, on a machine that does other things too.
MOST_OF_SCRIPT, MOST_OF_BUILD = 600, 1200

# The scripts of bench/ that are no tests: measurements, and what is read beside another program.
NO_TESTS = {"instructions.py", "model.py", "words_tshark.py", "serve/allocations.py", "serve/asked.py", "serve/many.py", "serve/reload_load.py", "serve/router_load.py", "serve/run.py"}


def launcher(is_proved):
    """The words that start the launcher."""
    return f"{TOP}/xp" if is_proved else f"{TOP}/xp --unproved"


def script_jobs(is_proved):
    """A job for each script, with the proved program or with the one before any proof."""
    program, after = (PROVED, ()) if is_proved else (UNPROVED, ("program",))
    environment = {"XP_PROGRAM": str(program), **LITTLE_HELD}
    jobs = []
    for it in SCRIPTS:
        words = it.proved_words if is_proved and it.proved_words is not None else it.words
        command = [sys.executable, TOP / "bench" / it.name, *(word.replace("{launcher}", launcher(is_proved)) for word in words.split())]
        if is_proved or not it.proved_only:
            is_timed = it.name.startswith(TIMED)
            jobs.append(Job(it.name, it.looks_at, command, it.usual, MOST_OF_SCRIPT, str(TOP), environment, after, is_timed))
    return jobs


def unlisted_scripts():
    """The scripts of bench/ that stand in neither table. What several scripts have in common is no script."""
    files = [it for it in (TOP / "bench").rglob("*.py") if "__main__" in it.read_text(encoding="utf-8")]
    found = {str(it.relative_to(TOP / "bench")) for it in files}
    return sorted(found - {it.name for it in SCRIPTS} - NO_TESTS)


def crates():
    """The crates that crates.txt names, in its order."""
    lines = (TOP / "crates.txt").read_text(encoding="utf-8").splitlines()
    return [line.split(":")[0].split()[0] for line in lines if ":" in line and not line.startswith("#")]


def crates_of_tests():
    """Those of tests."""
    return [it for it in crates() if it.endswith("_tests")]


def libraries():
    """Those that the program stands on: they come before it."""
    names = crates()
    return set(names[: names.index("xp")])


def jobs_before_proofs():
    """What is run with no proof before it."""
    build_rows = [sys.executable, TOP / "tools/build_rows.py", UNPROVED_ROWS]
    check = [TOP / "xp", "--unproved", "check", TOP / "examples/three-stations.toml"]
    jobs = [
        Job("program", "the program, as it is before any proof, is built and reads a file", check, 240, MOST_OF_BUILD),
        Job("program of rows", "the program of the rows, as it is before any proof, is built", build_rows, 230, MOST_OF_BUILD),
    ]
    for part in range(1, PARTS_OF_ROWS + 1):
        words = [sys.executable, TOP / "tools/rows.py", UNPROVED_ROWS, "--part", part, "--of", PARTS_OF_ROWS]
        looks_at = "a part of the rows, with each request for memory refused in turn"
        jobs.append(Job(f"rows {part} of {PARTS_OF_ROWS}", looks_at, words, 40, MOST_OF_BUILD, after=("program of rows",)))
    for name in crates_of_tests():
        environment = {"RT_SECONDS": "300"}
        looks_at = "the tests of this crate, before any proof (docs/TESTING.md)"
        jobs.append(Job(name, looks_at, ["rt", "try", "--test"], 150, MOST_OF_BUILD, str(TOP / "crates" / name), environment))
    return jobs


def processors():
    return len(os.sched_getaffinity(0))


def free_memory():
    for line in pathlib.Path("/proc/meminfo").read_text(encoding="ascii").splitlines():
        if line.startswith("MemAvailable:"):
            return 1024 * int(line.split()[1])
    return 0


def at_once(memory):
    """How many jobs of so much memory run beside one another: as many as there are processors, and as fit."""
    return max(1, min(processors(), free_memory() // memory))
