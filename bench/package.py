#!/usr/bin/env python3
"""Whether the Debian package of xp has what it should, and what it installs serves.

    python3 bench/package.py [--program PROGRAM] [--offline]

It makes the package of the program by tools/package.sh, unpacks it, and tries what is in it: commands, and a call that a SIGTERM ends.
Another package is made of a program that only prints its words, in a tree where it counts as proved. As root it installs, upgrades and
removes the package below a folder, and with debootstrap in an empty Debian 12 too, which it fetches unless --offline is given. Each
check that needs what is not here is told as left out. It takes some ten seconds, and the Debian a minute or two. Exit status 1: a
check failed, and is told.
"""

import argparse
import contextlib
import csv
import gzip
import hashlib
import os
import pathlib
import re
import shutil
import signal
import sys
import tempfile

import launcher
from checks import LeftOut, need, need_root, run, told_by, try_all
from program import DEFAULT, PROGRAM, TOP

# Those of bench/serve.
import server
from routers import ACCEPTED, CALL, PATIENCE, Wrong, XotCall
from served import require

# Seconds that the making of a Debian may take, and a look of lintian, on a machine that does other things too.
LIMIT_OF_DEBIAN, LIMIT_OF_LINTIAN = 600, 300

DOCUMENTS, UNIT = "usr/share/doc/gonukire", "usr/lib/systemd/system/xp.service"
EXECUTABLES = {"usr/bin/xp", "usr/lib/gonukire/xp"}
FILES = EXECUTABLES | {
    "usr/lib/gonukire/run_program.sh", "usr/lib/gonukire/version", UNIT,
    "usr/share/man/man1/xp.1.gz", "usr/share/lintian/overrides/gonukire",
    *(f"{DOCUMENTS}/{name}" for name in ("README.md", "CHANGELOG.md", "changelog.gz", "copyright")),
    *(f"{DOCUMENTS}/docs/{it.name}" for it in (TOP / "docs").iterdir() if it.suffix in (".md", ".png")),
    *(f"{DOCUMENTS}/examples/{it.name}" for it in (TOP / "examples").iterdir() if it.is_file() and it.name != "xp.service"),
}

# The libraries of glibc, and what the system itself gives a program. A sanitizer asks for one more, which libc6 brings with it.
GLIBC = re.compile(r"lib(c|m|dl|pthread|resolv|rt)\.so\.\d|ld-linux-x86-64\.so\.2|linux-vdso\.so\.1")

SANITIZER, OF_SANITIZER = b"__asan_init", {"libgcc_s.so.1"}

NONE_PROVED = "package: no program is proved here: ./xp prove proves and builds it, in about an hour\n"
OLDER = "package: the proved program is older than the sources: ./xp prove proves what changed\n"


def heading():
    """The version, as CHANGELOG.md's top heading has it."""
    return re.search(r"^## (.+)$", (TOP / "CHANGELOG.md").read_text(encoding="utf-8"), re.M)[1]


class Package:
    """The package that tools/package.sh makes of a program for a test, and its files, unpacked."""

    def __init__(self, program, folder):
        self.program, self.folder = pathlib.Path(program), pathlib.Path(folder)
        self.file, self.root = self.made("gonukire.deb"), self.folder / "unpacked"
        told_by("dpkg-deb", "-x", self.file, self.root)
        self.launcher = self.root / "usr/bin/xp"

    def made(self, name):
        """The package, made once more."""
        file = self.folder / name
        # To compress it well takes long.
        environment = {**os.environ, "DPKG_DEB_COMPRESSOR_LEVEL": "0"}
        told_by(TOP / "tools/package.sh", "--program", self.program, file, env=environment)
        return file

    def field(self, name):
        return told_by("dpkg-deb", "-f", self.file, name).rstrip("\n")


# ---- what the package has


def fields(package):
    """the package has CHANGELOG.md's top heading as its version, and asks for glibc alone, as the program does"""
    version = heading().replace("-", ".") + "~unproved"
    require(package.field("Version") == version, f"its version is {package.field('Version')}")
    require(package.field("Architecture") == "amd64", "it is for another processor")
    require(re.fullmatch(r"libc6 \(>= 2\.\d+\)", package.field("Depends")), f"it asks for {package.field('Depends')}")
    needed = set(re.findall(r"^\s*(?:\S*/)?(\S+\.so\.\d+)", told_by("ldd", package.program), re.M))
    known = OF_SANITIZER if SANITIZER in package.program.read_bytes() else set()
    require("libc.so.6" in needed and all(map(GLIBC.fullmatch, needed - known)), f"the program asks for {sorted(needed)}")


def files(package):
    """each file stands where it belongs with its rights, the program is as it was given, and none is in /etc or /var"""
    lines = told_by("dpkg-deb", "-c", package.file).splitlines()
    require(all(line.split()[1] == "root/root" for line in lines), "a file is not root's")
    found = {line.split()[5].removeprefix("./"): line.split()[0] for line in lines if not line.startswith("d")}
    require(set(found) == FILES, f"these are amiss: {sorted(set(found) ^ FILES)}")
    for name, rights in found.items():
        require(rights == ("-rwxr-xr-x" if name in EXECUTABLES else "-rw-r--r--"), f"{name} has the rights {rights}")
    folders = {line.split()[0] for line in lines if line.startswith("d")}
    require(folders == {"drwxr-xr-x"}, f"folders have the rights {folders}")
    program = package.root / "usr/lib/gonukire/xp"
    require(program.read_bytes() == package.program.read_bytes(), "the program is another one")


def documents(package):
    """the manual page, a changelog with a block for each version, the licences, and a sum of each file"""
    share = package.root / "usr/share"
    require(gzip.decompress((share / "man/man1/xp.1.gz").read_bytes()) == (TOP / "docs/xp.1").read_bytes(), "another manual page")
    changelog(package, gzip.decompress((package.root / DOCUMENTS / "changelog.gz").read_bytes()).decode("utf-8"))
    copyright_text = (package.root / DOCUMENTS / "copyright").read_text(encoding="utf-8")
    require("\nclap, " in copyright_text and "Permission is hereby granted" in copyright_text, "a licence of the kit's libraries is missing")
    told_by("dpkg-deb", "-e", package.file, package.folder / "control")
    sums = dict(line.split("  ")[::-1] for line in (package.folder / "control/md5sums").read_text().splitlines())
    require(sums == {it: hashlib.md5((package.root / it).read_bytes()).hexdigest() for it in FILES}, "its sums are others")


def changelog(package, text):
    """The changelog has a block for each heading of CHANGELOG.md, with its entries. The top one has the package's version."""
    _, *parts = re.split(r"^## (.*)$", (TOP / "CHANGELOG.md").read_text(encoding="utf-8"), flags=re.M)
    wanted = [(name.replace("-", "."), entries_of(entries)) for name, entries in zip(parts[::2], parts[1::2])]
    wanted[0] = (package.field("Version"), wanted[0][1])
    found = []
    for block in re.split(r"^(?=gonukire )", text, flags=re.M)[1:]:
        name = re.match(r"gonukire \((.*)\) unstable; urgency=medium\n\n  \* ", block)
        entries, _, signature = block.partition("\n -- ")
        require(name and signature.startswith(f"{package.field('Maintainer')}  "), f"its changelog has a block that is none of Debian: {block[:80]!r}")
        found.append((name[1], [entry.split() for entry in entries.split("\n  * ")[1:]]))
    require(found == wanted, "its changelog is not that of CHANGELOG.md")


def entries_of(text):
    return [line.removeprefix("- ").replace("**", "").split() for line in text.splitlines() if line.startswith("- ")]


def same_octets(package):
    """made again of the same program, the package has the same octets"""
    require(package.made("again.deb").read_bytes() == package.file.read_bytes(), "it has others")


def unit(package):
    """its unit for systemd is examples/xp.service with the launcher of the package"""
    of_clone, text = (TOP / "examples/xp.service").read_text(), (package.root / UNIT).read_text()
    starts = "ExecStart={} serve /etc/xp/subscriptions.toml --cdr /var/lib/xp/calls.csv\n"
    require(starts.format("/usr/local/bin/xp") in of_clone, "the unit of a clone starts something else")
    require(text == of_clone.replace(starts.format("/usr/local/bin/xp"), starts.format("/usr/bin/xp")), "the unit is another one")


def systemd(package):
    """systemd-analyze finds nothing in the unit, whose program is here"""
    need("systemd-analyze")
    tried = package.folder / "xp.service"
    tried.write_text((package.root / UNIT).read_text().replace("/usr/bin/xp ", f"{package.launcher} "))
    said = told_by("systemd-analyze", "verify", "--man=no", tried)
    require(not said, f"it says {said}")


def lintian(package):
    """lintian finds no error"""
    need("lintian")
    print(told_by("lintian", "--fail-on", "error", "--allow-root", package.file, timeout=LIMIT_OF_LINTIAN), end="")


# ---- what it installs


def version(package):
    """xp --version and xp -V tell the version, the commit, that the program is not proved, and the kit"""
    identity = told_by(TOP / "xp", "--version").splitlines()
    require(identity[0] == f"xp {heading()}", f"./xp --version tells {identity[0]}")
    for word in ("--version", "-V"):
        told = told_by(package.launcher, word).splitlines()
        require(told == [*identity[:2], "proved: no", identity[3]], f"{word} tells {told}")


def commands(package):
    """check and replay say what the program says, and the launcher has no words of its own but --version and -V"""
    examples = package.root / DOCUMENTS / "examples"
    script = (examples / "call.script").read_text()
    for words in (["check", examples / "three-stations.toml"], ["check", examples / "every-key.toml", "--words"], ["check", "/"]):
        require(run(package.launcher, *words) == run(package.program, *words), f"{words}: it says something else")
    replay = ["replay", examples / "three-stations.toml"]
    said = told_by(package.launcher, *replay, stdin=None, input=script)
    require(said.endswith("record 1 a1 b1 2080020 caller 0 0 00 0 0\n"), f"a replay says {said}")
    for words in (["prove"], ["--unproved", "check", "/"], ["serve"]):
        require(run(package.launcher, *words)[0] == 2, f"{words} are taken")


def terminate(launcher_id):
    """Sends a SIGTERM to the launcher and to its program, as systemd does to each process of a service."""
    children = pathlib.Path(f"/proc/{launcher_id}/task/{launcher_id}/children").read_text(encoding="ascii").split()
    require(len(children) == 1, f"the launcher has {len(children)} processes")
    for it in (*children, launcher_id):
        os.kill(int(it), signal.SIGTERM)


def serve_a_call(words, file, details, base, folder):
    """Has a launcher serve a pair of lines, and stops it in the middle of a call. It has to end well."""
    with server.Process([*words, "serve", file, "--cdr", details], folder) as exchange:
        caller, called = XotCall(exchange.connect(base)), XotCall(exchange.connect(base + 1))
        for line in (caller, called):
            line.clear()
        caller.send(server.call_request(server.address(0)))
        called.expect(CALL)
        called.accept()
        caller.expect(ACCEPTED)
        terminate(exchange.process.pid)
        status = exchange.process.wait(PATIENCE)
        require(status == 0, f"it ended with status {status}; {exchange.said()}")


def has_the_record(details):
    """The file has the record of the call that the stop has ended, and no other."""
    with open(details, encoding="ascii") as lines:
        found = [(row["caller_line"], row["called_line"], bool(row["connected"]), row["cause"]) for row in csv.DictReader(lines)]
    require(found == [("a0", "b0", True, "09")], f"the records are {found}")


def serving(package):
    """the launcher serves a call, and a SIGTERM ends it with its record and status 0"""
    base = server.free_ports(2)
    file, details = package.folder / "subscriptions.toml", package.folder / "calls.csv"
    file.write_text(server.subscriptions(1, base))
    serve_a_call([package.launcher], file, details, base, package.folder)
    has_the_record(details)


# ---- which program is packed


def proved_tree(folder):
    """A tree with the launcher, tools that build nothing, and what a package is made of."""
    tree = launcher.Tree(folder, TOP / "xp")
    for name in ("docs", "examples", "tools/package"):
        shutil.copytree(TOP / name, tree.top / name)
    for name in ("README.md", "tools/package.sh"):
        shutil.copy(TOP / name, tree.top / name)
    tree.write("tools/licences.py", "#!/bin/sh\necho licences\n")
    (tree.top / "tools/licences.py").chmod(0o755)
    return tree


def proved_alone(package):
    """the proved program alone is packed, with the kit that proved it; none is where sources are younger, or where none is proved"""
    with tempfile.TemporaryDirectory() as folder:
        tree = proved_tree(folder)
        environment = {**os.environ, "PATH": f"{tree.commands}:{os.environ['PATH']}", "GIT_CEILING_DIRECTORIES": folder}
        tool = tree.top / "tools/package.sh"
        require(run(tool, env=environment) == (1, NONE_PROVED), "a package is made where no program is proved")
        tree.run("prove")
        tree.set_kit("kit 2")
        told_by(tool, env=environment)
        told_by("dpkg-deb", "-x", tree.top / "out/gonukire_2026.11.27_amd64.deb", tree.top / "unpacked")
        told = told_by(tree.top / "unpacked/usr/bin/xp", "--version")
        require(told == "xp 2026-11-27\ncommit: unknown\nproved: yes\nkit: kit 1\n", f"its xp --version tells {told}")
        told = told_by(tree.top / "unpacked/usr/bin/xp", "check", "a file")
        require(told == launcher.output_of("proved", "check", "a file"), f"another program is packed: {told}")
        told_by(tool, "--program", tree.top / "crates/xp/out/xp", env=environment)
        told_by("dpkg-deb", "-x", tree.top / "out/gonukire_2026.11.27~unproved_amd64.deb", tree.top / "of a test")
        told = told_by(tree.top / "of a test/usr/bin/xp", "--version")
        require("\nproved: no\n" in told, f"the package of a test tells {told}")
        tree.write("crates/low/src/code.rt", "changed")
        require(run(tool, env=environment) == (1, OLDER), "a package is made where sources are younger")


def proved(package):
    """the package of the proved program says so, in its version too"""
    identity = told_by(TOP / "xp", "--version")
    if "\nproved: yes\n" not in identity:
        raise LeftOut("./xp --version tells of no proved program")
    file, root = package.folder / "proved.deb", package.folder / "proved"
    told_by(TOP / "tools/package.sh", file)
    found = told_by("dpkg-deb", "-f", file, "Version").rstrip("\n")
    require(f"{found}~unproved" == package.field("Version"), f"its version is {found}")
    told_by("dpkg-deb", "-x", file, root)
    require(told_by(root / "usr/bin/xp", "--version") == identity, "xp --version of the package tells something else")
    require((root / "usr/lib/gonukire/xp").read_bytes() == (TOP / "crates/xp/out/xp").read_bytes(), "another program is packed")


# ---- how it comes and goes


class Installed:
    """A root in which the package is installed, upgraded and removed, and what the operator has there."""

    def __init__(self, root, dpkg):
        self.root, self.dpkg = root, dpkg
        self.kept = {root / "etc/xp/subscriptions.toml": "the operator's\n", root / "var/lib/xp/calls.csv": "records\n"}

    def put_what_is_kept(self):
        for file, text in self.kept.items():
            file.parent.mkdir(parents=True, exist_ok=True)
            file.write_text(text)

    def do(self, *words):
        """Has dpkg do something, which must leave what the operator has as it is."""
        told_by(*self.dpkg, *words)
        for file, text in self.kept.items():
            require(file.read_text() == text, f"dpkg {words[0]} changes {file}")

    def come_and_go(self, file):
        """The package is installed over itself, removed, installed again and purged."""
        for words in (["-i", file], ["-r", "gonukire"], ["-i", file], ["-P", "gonukire"]):
            self.do(*words)
            there = {it for it in FILES if (self.root / it).exists()}
            require(there == (FILES if words[0] == "-i" else set()), f"dpkg {words[0]} leaves {len(there)} of {len(FILES)} files")


def removal(package):
    """an upgrade, a removal and a purge leave /etc/xp and /var/lib/xp as they are"""
    need_root()
    root = package.folder / "installed"
    (root / "var/lib/dpkg").mkdir(parents=True)
    (root / "var/lib/dpkg/status").touch()
    # Nothing else is installed below this folder, so the scripts of the package run outside of it, and are told where it is.
    how = ["--force-script-chrootless", "--force-depends", "--no-triggers"]
    installed = Installed(root, ["dpkg", f"--root={root}", f"--log={package.folder}/dpkg.log", *how])
    installed.put_what_is_kept()
    installed.do("-i", package.file)
    installed.come_and_go(package.file)


def debian(package):
    """in an empty Debian 12 it is installed, serves, and leaves what is the operator's"""
    need_root()
    need("debootstrap", "unshare")
    root = package.folder / "debian"
    told_by("debootstrap", "--variant=minbase", "bookworm", root, timeout=LIMIT_OF_DEBIAN)
    # A mount of /proc in a namespace of its own is gone as the command ends.
    inside = ["unshare", "--mount", "sh", "-c", 'mount -t proc proc "$0/proc" && exec chroot "$0" "$@"', root]
    shutil.copy(package.file, root / "gonukire.deb")
    told_by(*inside, "dpkg", "-i", "/gonukire.deb")
    require(run(*inside, "sh", "-c", "command -v rt")[0] != 0, "the kit is there")
    require(told_by(*inside, "xp", "--version") == told_by(package.launcher, "--version"), "xp --version tells something else")
    serve_in(root, inside, package.folder)
    installed = Installed(root, [*inside, "dpkg"])
    installed.kept = {file: file.read_text() for file in installed.kept}
    installed.come_and_go("/gonukire.deb")


def serve_in(root, inside, folder):
    """In this root the program checks the operator's file, replays a script, and serves a call."""
    base = server.free_ports(2)
    file, details = "/etc/xp/subscriptions.toml", "/var/lib/xp/calls.csv"
    for it in ("etc/xp", "var/lib/xp"):
        (root / it).mkdir()
    (root / file[1:]).write_text(server.subscriptions(1, base))
    told_by(*inside, "xp", "check", file)
    replay = f"xp replay /{DOCUMENTS}/examples/three-stations.toml < /{DOCUMENTS}/examples/call.script"
    require("record 1 a1 b1 2080020 " in told_by(*inside, "sh", "-c", replay), "a replay has no record")
    serve_a_call([*inside, "xp"], file, details, base, folder)
    has_the_record(root / details[1:])


CHECKS = (fields, files, documents, same_octets, unit, systemd, lintian, version, commands, serving, proved_alone, proved, removal)


def main():
    parser = argparse.ArgumentParser(description=__doc__, formatter_class=argparse.RawDescriptionHelpFormatter)
    parser.add_argument("--program", default=str(PROGRAM), help=f"the program to pack ({DEFAULT})")
    parser.add_argument("--offline", action="store_true", help="leave the Debian out that debootstrap fetches")
    arguments = parser.parse_args()
    if not pathlib.Path(arguments.program).is_file():
        sys.exit(f"there is no program {arguments.program}")
    with tempfile.TemporaryDirectory(ignore_cleanup_errors=True) as folder:
        # Others than root have to read the unpacked files.
        with contextlib.suppress(PermissionError):
            os.chmod(folder, 0o755)
        try:
            package = Package(arguments.program, folder)
        except Wrong as wrong:
            sys.exit(f"no package is made: {wrong}")
        try_all(CHECKS if arguments.offline else (*CHECKS, debian), package)


if __name__ == "__main__":
    main()
