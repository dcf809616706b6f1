"""A tree with the launcher, a program, the documents and the examples, and a shell in it into which commands are typed. Folders of the system
stand below a folder of their own, and free ports take the place of those that documents name."""

import os
import pathlib
import re
import select
import shlex
import shutil
import signal
import socket
import subprocess

from program import TOP

# Those of bench/serve.
import server
from routers import ACCEPTED, CALL, CONFIRMATION, Wrong, XotCall
from served import until

# Seconds that a command may take, and an exchange to begin or to end.
LIMIT = 30

# The ports that documents name, of the five lines of three-stations.toml and of the console.
PORTS = [*range(19981, 19986), 9980]
OF_DOCUMENTS = re.compile(rf"\b({'|'.join(map(str, PORTS))})\b")

# Folders of the system in a command.
OF_SYSTEM = re.compile(r"(?<![\w./-])(?=/(etc|run|usr|var)/)")
FOLDERS = """etc/xp etc/keepalived etc/sysctl.d etc/systemd/system run usr/bin usr/local/bin usr/local/src usr/share/doc usr/share/man/man1
    var/lib/xp""".split()
CLONE = "usr/local/src/gonukire"

# Another machine, which is this one.
SSH = '#!/bin/sh\nshift\nexec sh -c "$*"\n'
SCP = '#!/bin/sh\nexec cp -p "${2#*:}" "$3"\n'

CALL_REQUEST = bytes.fromhex("10010b072080020000")


class Tree:
    """What the commands of documents find: a clone, and what a package has installed."""

    def __init__(self, program, folder):
        self.folder, self.base = pathlib.Path(folder).resolve(), server.free_ports(len(PORTS))
        self.top = self.folder / CLONE
        for it in FOLDERS:
            (self.folder / it).mkdir(parents=True)
        for name in ("xp", "crates.txt", "CHANGELOG.md", "README.md", "tools/run_program.sh"):
            (self.top / name).parent.mkdir(parents=True, exist_ok=True)
            shutil.copy2(TOP / name, self.top / name)
        for name in ("docs", "examples"):
            shutil.copytree(TOP / name, self.top / name)
        for it in (self.top / "examples").glob("*.toml"):
            it.write_text(self.with_ports(it.read_text(encoding="utf-8")), encoding="utf-8")
        shutil.copy(self.top / "examples/three-stations.toml", self.top / "subscriptions.toml")
        (self.top / "crates/xp/out").mkdir(parents=True)
        (self.top / "crates/xp/out/xp").symlink_to(program)
        self.add_rest()

    def add_rest(self):
        """What the package has installed, a second clone, and commands that reach another machine."""
        package = {"usr/bin/xp": "xp", "usr/share/doc/gonukire": ".", "usr/share/man/man1/xp.1": "docs/xp.1", f"{CLONE}-2": "."}
        for link, target in package.items():
            (self.folder / link).symlink_to(self.top / target)
        (self.folder / "elsewhere").mkdir()
        for name, text in (("ssh", SSH), ("scp", SCP)):
            (self.folder / "elsewhere" / name).write_text(text)
            (self.folder / "elsewhere" / name).chmod(0o755)

    def port(self, port):
        """The free port in place of one that documents name."""
        return self.base + PORTS.index(port)

    def with_ports(self, text):
        return OF_DOCUMENTS.sub(lambda it: str(self.port(int(it[0]))), text)

    def here(self, text):
        """A command with the ports and folders that there are."""
        return OF_SYSTEM.sub(str(self.folder), self.with_ports(text))

    def there(self, text):
        """What a command printed, with the ports and folders that documents name."""
        text = text.replace(str(self.folder), "")
        return re.sub(r"\b\d{5}\b", lambda it: str(PORTS[int(it[0]) - self.base]) if 0 <= int(it[0]) - self.base < len(PORTS) else it[0], text)

    def environment(self):
        places = [self.folder / it for it in ("elsewhere", "usr/local/bin", "usr/bin")]
        path = os.pathsep.join([*map(str, places), os.environ["PATH"]])
        pages = f"{self.folder}/usr/local/share/man:{self.folder}/usr/share/man"
        return {**os.environ, "PATH": path, "HOME": str(self.folder), "MANPATH": pages, "LC_ALL": "C.UTF-8", "TERM": "dumb"}


# The shells that go on.
SHELLS = set()


def end_all(*_):
    """Ends all shells with what goes on in them, and the script, at a signal."""
    for it in list(SHELLS):
        os.killpg(it, signal.SIGKILL)
    os._exit(1)


class Shell:
    """A shell in the top folder of the tree. What goes on, an exchange and hosts, is in its background, and ends with it at the latest."""

    def __init__(self, tree):
        self.tree, self.count, self.exchange, self.log, self.console, self.hosts, self.outputs = tree, 0, None, None, "", [], []
        pipes = {"stdin": subprocess.PIPE, "stdout": subprocess.PIPE, "stderr": subprocess.DEVNULL}
        self.bash = subprocess.Popen(["bash"], cwd=tree.top, env=tree.environment(), text=True, bufsize=1, start_new_session=True, **pipes)
        SHELLS.add(self.bash.pid)

    def __enter__(self):
        return self

    def __exit__(self, *_):
        # The shell is the first of a session of its own, and of its group.
        os.killpg(self.bash.pid, signal.SIGKILL)
        SHELLS.remove(self.bash.pid)
        self.bash.wait()

    def ask(self, line):
        """Has the shell do a line, which prints a number on its own standard output."""
        self.bash.stdin.write(line + "\n")
        if not select.select([self.bash.stdout], [], [], LIMIT)[0]:
            self.bash.kill()
            raise Wrong(f"it has not ended in {LIMIT} seconds: nothing behind it is typed")
        return int(self.bash.stdout.readline() or -1)

    def file(self, text=""):
        self.count += 1
        made = self.tree.folder / f"file-{self.count}"
        made.write_text(self.tree.with_ports(text), encoding="utf-8")
        return made

    def type(self, text, given=""):
        """Types a command, and returns its status and what it printed on both streams."""
        source, output = self.file(given), self.file()
        status = self.ask(f"eval {shlex.quote(self.tree.here(text))} < {source} > {output} 2>&1; echo $?")
        printed = self.tree.there(output.read_text(encoding="utf-8", errors="replace"))
        self.outputs.append(printed)
        return status, printed

    def go_on(self, text, sign):
        """Types a command that goes on, and waits until it prints a sign. Returns its process and the file of what it prints."""
        log = self.file()
        process = self.ask(f"( exec {self.tree.here(text)}\n) < /dev/null > {log} 2>&1 & echo $!")
        until(lambda: sign in log.read_text() or not pathlib.Path(f"/proc/{process}").exists(), "it does not begin", LIMIT)
        if sign not in log.read_text():
            raise Wrong(f"it ends with status {self.ask(f'wait {process}; echo $?')}: {self.tree.there(log.read_text()).strip()}")
        return process, log

    def serve(self, text):
        """Types a command that serves, with a console, and has a call over its lines a1 and b1."""
        self.stop()
        self.console = "" if "--console" in text else "; console at 127.0.0.1:9980"
        self.exchange, self.log = self.go_on(f"{text} --console 127.0.0.1:9980" if self.console else text, " serving ")
        lines = [XotCall(socket.create_connection(("127.0.0.1", self.tree.port(it)))) for it in (19981, 19982)]
        for it in lines:
            it.clear()
        caller, called = lines
        caller.send(CALL_REQUEST)
        called.expect(CALL)
        called.accept()
        caller.expect(ACCEPTED)
        caller.clear()
        for it in lines:
            it.close()
        until(lambda: self.log.read_text().count(": down: ") == len(lines), "its lines do not go down")

    def add_host(self, text):
        """Types a host, which goes on until the exchange ends."""
        self.hosts.append(self.go_on(text, "connected")[0])

    def end(self, process):
        """Ends a process of the background, if it has not ended, and returns its status."""
        return self.ask(f"jobs -rp | grep -qx {process} && kill {process}; wait {process}; echo $?")

    def stop(self):
        """Stops the exchange by SIGTERM, where one goes on. It has to end well."""
        for it in self.hosts:
            self.end(it)
        self.hosts = []
        if self.exchange is not None:
            status = self.end(self.exchange)
            self.exchange = None
            self.outputs.append(self.tree.there(self.log.read_text()).replace(self.console, ""))
            if status != 0:
                raise Wrong(f"the exchange ends with status {status}: {self.log.read_text().strip()}")
