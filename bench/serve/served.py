"""An exchange that the scripts of this folder look at from outside, until its standard input ends: what it tells, what it prints, and how
it ends; and the lines that are connected to it."""

import argparse
import http.client
import os
import pathlib
import resource
import subprocess
import sys
import tempfile
import threading
import time

import server
from routers import CONFIRMATION, PATIENCE, Wrong, XotCall

# Packets of the calls of three stations, as X.25 clause 5.2 draws them, and a cause that has "out of order" in it.
ACCEPTED = bytes.fromhex("10010f")
OUT_OF_ORDER = bytes.fromhex("1001130900")


def require(holds, what):
    if not holds:
        raise Wrong(what)


def answer_to_reload(console):
    """Has the exchange of the console at this port read its file again. Returns the status and the text of the answer."""
    connection = http.client.HTTPConnection("127.0.0.1", console, timeout=PATIENCE)
    try:
        connection.request("POST", "/reload", headers={"X-Gonukire": "reload"})
        answer = connection.getresponse()
        return answer.status, answer.read().decode().rstrip("\n")
    finally:
        connection.close()


def data(place, octets):
    """The data packet of this place in its direction, modulo 8, of an end that got none."""
    return bytes([0x10, 1, place % 8 << 1]) + octets


def station(number, *lines, more=""):
    """The text of a station, each of its lines a name, a port and what else its table has."""
    tables = ", ".join(f'{{ name = "{name}", port = {port}{rest} }}' for name, port, rest in lines)
    return f'[[station]]\naddress = "{number}"\n{more}line = [{tables}]\n'


class Served(server.Process):
    """`xp serve` on a text of subscriptions with further words. Its standard streams are pipes, which are read as it runs, unless its
    standard output goes elsewhere. With `limit` its files may have so many octets: a write that goes further fails."""

    def __init__(self, program, folder, text, *words, output=subprocess.PIPE, limit=None, environment=None):
        if not pathlib.Path(program).is_file():
            sys.exit(f"there is no program {program}")
        file = pathlib.Path(folder) / "subscriptions.toml"
        file.write_text(text)
        command = [str(part) for part in (program, "serve", file, "--until-eof", *words)]
        self.process = subprocess.Popen(
            command, stdin=subprocess.PIPE, stdout=output, stderr=subprocess.PIPE, text=True,
            # The signal of a file that would get too long stays ignored, as this process has it.
            restore_signals=limit is None, env={**os.environ, **(environment or {})},
        )
        if limit is not None:
            self.limit_files(limit)
        self.lines, self.lines_told, self.lines_printed = [], [], []
        self.readers = [self.reading(self.process.stderr, self.lines_told)]
        if self.process.stdout:
            self.readers.append(self.reading(self.process.stdout, self.lines_printed))

    def reading(self, stream, lines):
        def read():
            for line in stream:
                lines.append(line)

        reader = threading.Thread(target=read, daemon=True)
        reader.start()
        return reader

    def limit_files(self, octets):
        """From now on its files may have so many octets."""
        most = resource.RLIM_INFINITY if octets is None else octets
        resource.prlimit(self.process.pid, resource.RLIMIT_FSIZE, (most, resource.RLIM_INFINITY))

    def told(self):
        """What it has told on standard error."""
        return "".join(self.lines_told)

    def printed(self):
        """What it has printed on standard output."""
        return "".join(self.lines_printed)

    def said(self):
        return f"the program that serves said: {self.told().strip() or 'nothing'}"

    def wait_until_told(self, text, count=1, most=PATIENCE):
        """Waits until it has told this text so often."""
        until(lambda: self.told().count(text) >= count, f"it has not told: {text}", most)

    def rise(self, port, source=None):
        """A connection to the port of a line, once the line is up: a clear request without a call is confirmed, and counts for
        nothing."""
        line = XotCall(self.connect(port, source))
        line.send(server.CLEAR_REQUEST)
        line.expect(CONFIRMATION)
        self.lines.append(line)
        return line

    def end(self, is_asked=True):
        """Waits until it has ended, as it is asked to by the end of its standard input. Returns its status. Its lines are closed as it
        ends them, as hosts do: for one that stays open it would wait two seconds."""
        if is_asked:
            self.process.stdin.close()
            for line in self.lines:
                line.drain()
        try:
            status = self.process.wait(PATIENCE)
        except subprocess.TimeoutExpired:
            raise Wrong(f"it has not ended in {PATIENCE} seconds") from None
        for reader in self.readers:
            reader.join(PATIENCE)
        return status


def until(holds, what, seconds=PATIENCE):
    """Waits until it holds. Else it is told what is so, by a text or by a function that says it then."""
    end = time.monotonic() + seconds
    while not holds():
        if time.monotonic() > end:
            raise Wrong(what() if callable(what) else what)
        time.sleep(0.01)


def rest_of(connection):
    """All that comes until the connection ends. A reset is an error."""
    taken = b""
    while more := connection.recv(65_536):
        taken += more
    return taken


def refused(program, folder, text, *words):
    """Has `xp serve` refuse to serve. Returns its status, what it printed and what it told."""
    return run_on(program, "serve", folder, text, *words)


def checked(program, folder, text, *words):
    """Has `xp check` look at a file of this text. Returns its status, what it printed and what it told."""
    return run_on(program, "check", folder, text, *words)


def run_on(program, subcommand, folder, text, *words):
    file = pathlib.Path(folder) / "refused.toml"
    file.write_text(text)
    command = [str(program), subcommand, str(file), *map(str, words)]
    run = subprocess.run(command, stdin=subprocess.DEVNULL, capture_output=True, text=True, timeout=PATIENCE)
    return run.returncode, run.stdout, run.stderr


def run_checks(checks, *given):
    """Runs checks, and tells of each what it has looked at. The first that fails ends the script."""
    for check in checks:
        try:
            check(*given)
        except (Wrong, OSError) as wrong:
            sys.exit(f"{check.__name__}: {wrong}")
        print(f"{check.__name__}: {check.__doc__.splitlines()[0]}", flush=True)


def run_script(document, checks):
    """Runs the checks of a script, which says what it looks at, over the program that its words name."""
    parser = argparse.ArgumentParser(description=document.splitlines()[0])
    parser.add_argument("--xp", default=str(server.PROGRAM), help=f"the program ({server.DEFAULT})")
    arguments = parser.parse_args()
    with tempfile.TemporaryDirectory() as folder:
        run_checks(checks, arguments.xp, folder)
