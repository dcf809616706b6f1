"""What the scripts of this folder have in common: a subscription file with free ports, as of pairs of lines, `xp serve`
started on it and looked at from outside, and the records that it prints."""

import collections
import functools
import os
import pathlib
import random
import resource
import socket
import subprocess
import sys
import time

sys.path.append(str(pathlib.Path(__file__).resolve().parent.parent))
from program import DEFAULT, PROGRAM

# An exchange has several files open for each line, which may be more than a process has by default.
MOST_FILES = resource.getrlimit(resource.RLIMIT_NOFILE)[1]
resource.setrlimit(resource.RLIMIT_NOFILE, (MOST_FILES, MOST_FILES))

HERE = pathlib.Path(__file__).resolve().parent

# As many pairs of lines as most measurements have, with a station for each line.
MOST_PAIRS = 128

Record = collections.namedtuple("Record", "number caller called dialled payer sent received cause diagnostic seconds")


def address(pair):
    """The address by which the called line of a pair is called."""
    return f"30{pair:04}"


def subscriptions(pairs, base):
    """A subscription file of so many pairs of lines: a0 calls, on the port `base`, b0 is called, on the next one."""
    stations = []
    for pair in range(pairs):
        for name, number, port in ((f"a{pair}", f"20{pair:04}", base + 2 * pair), (f"b{pair}", address(pair), base + 2 * pair + 1)):
            stations.append(f'[[station]]\naddress = "{number}"\nline = [{{ name = "{name}", port = {port} }}]')
    return "\n".join(stations) + "\n"


def is_free(port):
    with socket.socket() as tried:
        tried.setsockopt(socket.SOL_SOCKET, socket.SO_REUSEADDR, 1)
        try:
            tried.bind(("127.0.0.1", port))
        except OSError:
            return False
    return True


def free_ports(count):
    """The first of so many free ports in a row, below those that the system gives to connections of its own."""
    for _ in range(1_000):
        base = random.SystemRandom().randrange(10_000, 32_000 - count)
        if all(is_free(port) for port in range(base, base + count)):
            return base
    sys.exit("no row of free ports was found")


def compiled(name, folder):
    """A program of this folder, compiled into another one."""
    made = pathlib.Path(folder) / name
    command = ["cc", "-std=c11", "-O2", "-Wall", "-Wextra", "-pthread", "-o", str(made), str(HERE / f"{name}.c")]
    subprocess.run(command, check=True)
    return made


def frame(packet):
    """A packet as a frame (RFC 1613)."""
    return b"\0\0" + len(packet).to_bytes(2, "big") + packet


def call_request(number, facilities=b"", user=b""):
    """A call request to an address with an even number of digits."""
    return bytes([0x10, 1, 0x0B, len(number)]) + bytes.fromhex(number) + bytes([len(facilities)]) + facilities + user


CLEAR_REQUEST = bytes.fromhex("1001130000")
CLEAR_CONFIRMATION = bytes.fromhex("100117")


def stolen():
    """The seconds, over all processors, that a host which others share has kept from this machine since it began."""
    with open("/proc/stat") as told:
        fields = told.readline().split()
    return int(fields[8]) / os.sysconf("SC_CLK_TCK")


def on(processors, command):
    """A command that runs on these processors alone, if any are named."""
    words = [str(part) for part in command]
    return ["taskset", "--cpu-list", ",".join(map(str, processors)), *words] if processors else words


class Process:
    """A program that serves connections, started now and ended with the block at the latest."""

    def __init__(self, command, folder, processors=()):
        self.errors = pathlib.Path(folder) / "errors"
        self.output = pathlib.Path(folder) / "output"
        with self.errors.open("w") as errors, self.output.open("w") as output:
            self.process = subprocess.Popen(on(processors, command), stdin=subprocess.DEVNULL, stdout=output, stderr=errors)

    def __enter__(self):
        return self

    def __exit__(self, *_):
        if self.process.poll() is None:
            self.process.kill()
        self.process.wait()

    def connect(self, port, source=None):
        """A connection to one of its ports, which may not be open yet, from an address of this machine."""
        for _ in range(3_000):
            try:
                return socket.create_connection(("127.0.0.1", port), source_address=(source, 0) if source else None)
            except ConnectionRefusedError:
                if self.process.poll() is not None:
                    break
                time.sleep(0.02)
        sys.exit(f"no connection to port {port}; {self.said()}")

    def said(self):
        return f"the program that serves said: {self.errors.read_text().strip() or 'nothing'}"

    def processor(self):
        """The seconds that its threads had a processor, in the program and in the system for it. Told of a program
        that has ended as well, until that was waited for."""
        fields = pathlib.Path(f"/proc/{self.process.pid}/stat").read_text().rpartition(")")[2].split()
        return (int(fields[11]) + int(fields[12])) / os.sysconf("SC_CLK_TCK")

    def told_of(self, name):
        """What the system tells of it under this name, as a number; 0 where it has ended."""
        for line in pathlib.Path(f"/proc/{self.process.pid}/status").read_text().splitlines():
            if line.startswith(f"{name}:"):
                return int(line.split()[1])
        return 0

    def memory(self):
        """The octets of memory that it has in use."""
        return self.told_of("VmRSS") * 1024

    def threads(self):
        """How many threads it has."""
        return self.told_of("Threads")


class Relay(Process):
    """The bare relay over so many pairs of ports."""

    def __init__(self, program, folder, pairs, threads, processors=()):
        self.base = free_ports(2 * pairs)
        super().__init__([program, self.base, pairs, threads], folder, processors)


class Serving(Process):
    """`xp serve` over so many lines, until there are so many records. `subscriptions_on` makes its file, of the first of
    the lines' ports. `words` are further words of the command."""

    def __init__(self, program, folder, lines, subscriptions_on, records, words=(), processors=()):
        if not pathlib.Path(program).is_file():
            sys.exit(f"there is no program {program}")
        self.base = free_ports(lines)
        file = pathlib.Path(folder) / "subscriptions.toml"
        file.write_text(subscriptions_on(self.base))
        super().__init__([program, "serve", file, "--records", records, *words], folder, processors)

    def records(self, patience=60):
        """The records that it prints as it ends of itself. It has to end well."""
        try:
            status = self.process.wait(patience)
        except subprocess.TimeoutExpired:
            sys.exit(f"the exchange has not ended {patience} seconds after its last call; {self.said()}")
        if status != 0:
            sys.exit(f"the exchange ended with status {status}; {self.said()}")
        return [read_record(line) for line in self.output.read_text().splitlines()]


class Exchange(Serving):
    """The same over so many pairs of lines."""

    def __init__(self, program, folder, pairs, records, words=(), processors=()):
        super().__init__(program, folder, 2 * pairs, functools.partial(subscriptions, pairs), records, words, processors)


def read_record(line):
    """A line of the text of records (docs/FORMATS.md)."""
    word, *fields = line.split(" ")
    if word != "record" or len(fields) != len(Record._fields):
        sys.exit(f"no record: {line}")
    number, caller, called, dialled, payer, sent, received, cause, diagnostic, seconds = fields
    counts = int(sent), int(received), int(cause, 16), int(diagnostic), int(seconds)
    return Record(int(number), caller, called, dialled, payer, *counts)
