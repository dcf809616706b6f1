"""A machine of two_machines.py: namespaces of its own with a link to the network of the lines, in which an exchange and keepalived run.

Inside, the first process keeps both as systemd would, and does what it is told by its standard input, a line each. As it is killed, the
system kills all others of the machine.
"""

import pathlib
import re
import select
import socket
import subprocess
import sys
import time

from routers import Wrong

# The unit of an exchange starts it again after a second, and kills it where it has not stopped after so many.
AGAIN, STOP = 1, 15

NONLOCAL = pathlib.Path("/proc/sys/net/ipv4/ip_nonlocal_bind")


def ip(*words):
    """Runs a command of iproute2."""
    subprocess.run(["ip", *words], check=True)


class Unit:
    """A program as systemd runs it. It stops as its standard input ends, or by SIGTERM."""

    def __init__(self, command, log):
        self.command, self.log = command, log
        self.process, self.is_wanted, self.ended_at = None, False, None

    def start(self):
        self.is_wanted, self.ended_at = True, None
        with self.log.open("a") as log:
            self.process = subprocess.Popen(self.command, stdin=subprocess.PIPE, stdout=log, stderr=log)

    def stop(self):
        self.is_wanted = False
        if not self.process:
            return
        self.process.stdin.close()
        if "--until-eof" not in self.command:
            self.process.terminate()
        try:
            self.process.wait(STOP)
        except subprocess.TimeoutExpired:
            self.process.kill()
            self.process.wait()
        self.process = None

    def look(self):
        """Starts it again where it has ended."""
        if self.process and self.process.poll() is not None and self.is_wanted:
            self.ended_at = self.ended_at or time.monotonic()
            if time.monotonic() >= self.ended_at + AGAIN:
                self.start()


def be_first(name, folder, program):
    """What the first process of a machine does, until it is killed or asked nothing more."""
    socket.sethostname(name)
    # Without this, a program listens at no address that its machine does not have.
    NONLOCAL.write_text("1\n")
    words = ["--cdr", folder / "calls.csv", "--console", "127.0.0.1:9980", "--until-eof"]
    keepalived = ["keepalived", "--dont-fork", "--log-console", "--use-file", folder / "keepalived.conf"]
    for it in ("--pid", "--vrrp_pid", "--checkers_pid"):
        keepalived += [it, folder / f"{it}.pid"]
    units = {
        "exchange": Unit([program, "serve", folder.parent / "subscriptions.toml", *words], folder / "exchange"),
        "keepalived": Unit(keepalived, folder / "keepalived"),
    }
    while True:
        for unit in units.values():
            unit.look()
        if select.select([sys.stdin], [], [], 0.05)[0]:
            words = sys.stdin.readline().split()
            if not words:
                return
            what, which = words
            getattr(units[which], what)()
            print("done", flush=True)


class Machine:
    """A machine, from outside: its name, and where it stands on a network of that namespace."""

    def __init__(self, name, network, own_address, folder):
        self.name, self.network, self.own_address = name, network, own_address
        self.space, self.folder = f"{network}-{name}", folder / name
        self.folder.mkdir()
        self.process = None

    def start(self, script, program):
        """It gets its namespaces, and its first process. What was in memory alone is gone, as the numbers of processes in /run, and its logs."""
        for it in (*self.folder.glob("*.pid"), self.folder / "exchange", self.folder / "keepalived"):
            it.unlink(missing_ok=True)
        ip("netns", "add", self.space)
        ip("-n", self.network, "link", "add", self.name, "type", "veth", "peer", "name", "eth0", "netns", self.space)
        ip("-n", self.network, "link", "set", self.name, "master", "bridge", "up")
        ip("-n", self.space, "address", "add", f"{self.own_address}/24", "dev", "eth0")
        ip("-n", self.space, "link", "set", "lo", "up")
        self.plug()
        spaces = ["unshare", "--uts", "--pid", "--fork", "--kill-child", "--mount-proc"]
        command = ["setpriv", "--pdeathsig", "KILL", "ip", "netns", "exec", self.space, *spaces]
        command += [sys.executable, script, "--xp", program, "--as-first-of", self.name, "--folder", self.folder]
        self.process = subprocess.Popen([str(it) for it in command], stdin=subprocess.PIPE, stdout=subprocess.PIPE, text=True)

    def ask(self, words):
        """Has it start or stop something, as in "stop exchange"."""
        self.process.stdin.write(f"{words}\n")
        self.process.stdin.flush()

    def has_done(self):
        """Whether it has done what it was asked last. It is asked nothing more before."""
        if not select.select([self.process.stdout], [], [], 0)[0]:
            return False
        if self.process.stdout.readline() != "done\n":
            raise Wrong(f"the {self.name} machine has ended")
        return True

    def is_on(self):
        """Whether it runs."""
        return self.process is not None and self.process.poll() is None

    def plug(self):
        ip("-n", self.space, "link", "set", "eth0", "up")

    def unplug(self):
        """Neither end hears anything of the other from now on, and neither is told."""
        ip("-n", self.space, "link", "set", "eth0", "down")

    def detach(self):
        """What it sends goes nowhere, and nothing comes. Its own link is up."""
        ip("-n", self.network, "link", "set", self.name, "nomaster")

    def attach(self):
        ip("-n", self.network, "link", "set", self.name, "master", "bridge")

    def kill(self):
        """It loses its power. What its system sends as its processes end goes nowhere, and they do not see the link fail."""
        self.detach()
        self.process.kill()
        self.process.wait()
        self.unplug()

    def remove(self):
        """Its namespaces and its link are gone, as are what the connections of its exchange were."""
        if self.process:
            self.process.kill()
            self.process.wait()
        subprocess.run(["ip", "-n", self.network, "link", "delete", self.name], stderr=subprocess.DEVNULL)
        subprocess.run(["ip", "netns", "delete", self.space], stderr=subprocess.DEVNULL)

    def has(self, address):
        """Whether it has the address."""
        command = ["ip", "-n", self.space, "-o", "address", "show", "dev", "eth0"]
        return f" {address}/" in subprocess.run(command, check=True, capture_output=True, text=True).stdout

    def is_serving(self):
        """Whether its exchange has told that it serves."""
        return " serving " in (self.folder / "exchange").read_text()

    def state(self):
        """The state of its keepalived, as BACKUP, since that was started."""
        log = (self.folder / "keepalived").read_text() if self.is_on() else ""
        return [None, *re.findall(r"Entering (\w+) STATE", log.rpartition("Starting VRRP child")[2])][-1]

    def said(self):
        """The last of what its programs told."""
        files = [it for it in (self.folder / "exchange", self.folder / "keepalived") if it.exists()]
        return "\n".join(line for it in files for line in (f"{it.name} of the {self.name} machine:", *it.read_text().splitlines()[-15:]))
