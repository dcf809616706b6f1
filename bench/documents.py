#!/usr/bin/env python3
"""Whether what README.md, docs/OPERATING.md, docs/FORMATS.md, docs/xp.1 and the help of xp show is so: each command in them is typed.

    python3 bench/documents.py [--program PROGRAM]

The commands are taken out of the texts (documents_read.py), and are typed in order into a shell, in a tree with the launcher, the program,
the documents and the examples. Folders of the system, as /etc/xp, stand below a folder of their own, and free ports take the place of those
that the documents name. A command that serves goes on until the next one does, with a console. What a document shows as printed has to
be printed by one of its commands, or by what PRINTED_BY has for it. A command that is neither in TYPED nor in NOT_TYPED fails, and so do an
option or a subcommand that a text names and the program does not have, and those that docs/xp.1 leaves out. It takes some twenty seconds.
Exit status 1: something differs, and is told with its place.
"""

import argparse
import concurrent.futures
import contextlib
import csv
import datetime
import functools
import pathlib
import re
import shutil
import signal
import sys
import tempfile
import urllib.request

from checks import run
from documents_read import Document, Help, Page, options_in
from documents_shell import LIMIT, Shell, Tree, end_all
from program import DEFAULT, PROGRAM, TOP

# Those of bench/serve.
from routers import Wrong
from served import require

MARKDOWN = ("README.md", "docs/OPERATING.md", "docs/FORMATS.md")

# The commands that are typed, alone or beside others, as regular expressions. None changes anything outside of the tree.
TYPED = (
    r"(\./|/usr/bin/|crates/xp/out/)?xp (check|explain|replay|serve|status|stop|reload|--help|--version)\b.*",
    r"python3 (examples/)?(client|host|router)\.py .*",
    r"(awk|cat|cd|cp|echo|exec|grep|head|install|jq|less|ln|ls|man|mkdir|mkfifo|scp|sha256sum|sort|sqlite3|ssh|tail|umask|wc)( .*)?",
    r"rt (doc|version)",
)
# A path outside of the folders that stand in the tree.
OUTSIDE = re.compile(r"(?<![\w./-])/(?!(etc|run|usr|var)/)\w")

# The commands that are not typed, as regular expressions, and why.
NOT_TYPED = {
    r"\./test( --proofs)?": "it runs this script",
    r"rt ci": "it proves; ./test --proofs runs it",
    r"\./xp prove": "it proves for an hour; launcher.py types it over tools that build nothing",
    r"\./xp --unproved serve \.\.": "it builds for minutes; ./test and launcher.py type it",
    r"tools/package\.sh": "it takes a proved program; package.py types it",
    r"python3 bench/package\.py": "./test runs it",
    r"apt (install (\./gonukire_VERSION_amd64\.deb|keepalived)|remove gonukire)": "it changes the machine; package.py installs the package in a folder",
    r"systemctl ((enable --now|edit|reload|restart|start|status|stop) xp|stop)": "it takes root and systemd; package.py has systemd-analyze read the unit",
    r"systemctl (enable|restart) keepalived": "it takes root and systemd; serve/two_machines.py starts keepalived itself",
    r"keepalived --config-test": "it takes root; serve/two_machines.py runs examples/keepalived.conf",
    r"sysctl --system": "it takes root, and changes the machine",
    r"ip -brief address show dev eth0": "the interface is one of the operator's",
    r"ssh -L 9980:127\.0\.0\.1:9980 other": "it takes a second machine, and does not end",
    r"kill -9": "it names no process; serve/endings.py kills an exchange",
    r"tail -f -c \+1 a1\.pcap \| wireshark -k -i -": "it opens a window, and does not end",
}

# What stands for the words that a reader replaces, and for what a document leaves out.
REPLACED = {
    "replay ..": "replay examples/three-stations.toml < examples/call.script",
    "FILE CALLER DIALLED": "examples/three-stations.toml a1 2080020",
    "FILE": "examples/three-stations.toml",
    "ADDRESS": "127.0.0.1:9980",
    "new.toml --after old.toml": "examples/three-stations.toml --after examples/three-stations.toml",
    "python3 host.py 192.0.2.1": "python3 examples/host.py 127.0.0.1",
}

# Blocks that nothing prints, by their first words: a drawing, the forms of lines, and a line of a file of live calls.
FORMS = ("  terminal  ──XOT──┐", "out NAME DIGITS", "record NUMBER FROM TO ", "2026-11-26T12:00:00Z,4,a1,")

# A call over the lines a1 and b1, with moments, data and its end.
CALL_OF_A_MINUTE = """up b1
at 12
up a1
in a1 0000000d10010b07208002000001000000
at 14
in b1 0000000310010f
in a1 0000000810010068656c6c6f
at 60
in a1 000000051001130000
"""

# A file whose second station has a port that is none.
NO_PORT = """[[station]]
address = "2080010"
line = [{ name = "a1", port = 19981 }]
[[station]]
address = "2080020"
line = [{ name = "b1", port = "x" }]
"""

# The file examples/three-stations.toml with other addresses, rights and groups, and with another modulus.
CHANGED = """[[station]]
address = "2080011"
line = [{ name = "a1", port = 19981 }]

[[station]]
address = "2080020"
fast_select = true
outgoing_barred = true
group = [{ name = "trade", index = 1 }]
line = [{ name = "b1", port = 19982 }]

[[station]]
address = "2080030"
line = [
  { name = "h1", port = 19983 },
  { name = "h2", port = 19984, address = "2080032" },
  { name = "h3", port = 19985 },
]
"""
OTHER_MODULUS = CHANGED.replace("port = 19982", "port = 19982, modulus = 128")

# A file of one line with spare places, and one with a station more than a file with them, which is made of examples/three-stations.toml.
SPARE = """spare_lines = 20
spare_lines_128 = 4
[[station]]
address = "2080010"
line = [{ name = "a1", port = 19981 }]
"""
NEW_STATION = """[[station]]
address = "2080040"
line = [{ name = "d1", port = 19986 }]
"""
AFTER_SPARE = (
    "echo 'spare_lines = 1' | cat - examples/three-stations.toml > spare.toml; cat spare.toml - > more.toml; "
    "xp check more.toml --after spare.toml"
)

# What prints the blocks that no command of their document prints, by the document and their first words: a command, and its input.
PRINTED_BY = {
    ("docs/OPERATING.md", "xp: explain: a line that is named"): ("xp explain examples/three-stations.toml 2080030 2080020", ""),
    ("docs/OPERATING.md", "stations 3 lines 5 groups 1"): ("xp check - --after examples/three-stations.toml", CHANGED),
    ("docs/OPERATING.md", "needs a stop: line b1"): ("xp check - --after examples/three-stations.toml", OTHER_MODULUS),
    ("docs/OPERATING.md", "stations 1 lines 1 groups 0 spare"): ("xp check -", SPARE),
    ("docs/OPERATING.md", "d1: station 2080040 is new"): (AFTER_SPARE, NEW_STATION),
    ("docs/FORMATS.md", "xp: subscriptions: field port"): ("xp check -", NO_PORT),
    ("docs/FORMATS.md", "xp: script line 3"): ("xp replay examples/three-stations.toml", "up a1\n\nup x9\n"),
    ("docs/FORMATS.md", "12  a1 → exchange"): ("xp replay examples/three-stations.toml --words", CALL_OF_A_MINUTE),
    ("docs/FORMATS.md", "           a1      "): ("xp replay examples/three-stations.toml --ladder", CALL_OF_A_MINUTE),
}

# The calls of the block of call detail records, with its moments. The line h1 is out of service.
CALLS_OF_RECORDS = """up a1
up b1
up h2
up h3
at {requested[0]}
in a1 0000000d10010b07208002000001000000
at {connected[0]}
in b1 0000000310010f
in a1 00000083100100{octets}
in a1 0000000810010268656c6c6f
in b1 00000083100100{octets}
at {ended[0]}
in a1 000000051001130000
in b1 00000003100117
at {requested[1]}
in b1 0000000d10010b0f999999999999999000
in b1 00000003100117
at {requested[2]}
in a1 0000000910010b072080030000
at {ended[2]}
expire h2
"""

# What the launcher has beside the program.
OF_LAUNCHER, SUBCOMMANDS_OF_LAUNCHER = {"--unproved", "--version"}, {"prove"}

# Commands that may not be here.
OPTIONAL = ("jq", "less", "man", "rt", "sqlite3")

# How many documents are typed beside one another.
JOBS = 2

# What differs from run to run.
MOMENT = re.compile(r"\d{4}-\d\d-\d\dT\d\d:\d\d:\d\dZ")
PEER = re.compile(r"(?<=up from )\S+$", re.M)

# A path of the repository, and a document of the folder.
OF_REPOSITORY = re.compile(r"(bench|crates|docs|examples|tools)/[\w./-]+|[A-Z]+\.(md|txt)")

# The fields of a record of a call, as `record` lines have them.
OF_RECORD = "number caller_line called_line dialled payer segments_from_caller segments_from_called cause diagnostic seconds".split()


class Helps:
    """The texts of the program's help, and the options of each subcommand in them."""

    def __init__(self, program):
        first = Help("xp --help", help_of(program))
        rest = [Help(f"xp {it} --help", help_of(program, it)) for it in first.subcommands()]
        self.document = Help("the help of xp", "".join(it.text for it in (first, *rest)))
        self.options = {it.name.split()[1]: it.options() for it in rest}
        self.all_options = {option for options in self.options.values() for option in options}
        words = "|".join(sorted({*self.options, *SUBCOMMANDS_OF_LAUNCHER}))
        # A span that begins with a subcommand, and one that only names it or one of its options.
        self.subcommand = re.compile(rf"(?:(?:\./)?xp )?({words})\b")
        self.name = re.compile(rf"(?:\./)?xp ({words})( --[a-z-]+)?")


def help_of(program, *words):
    status, said = run(program, *words, "--help")
    require(status == 2, f"{' '.join(words)} --help ends with status {status}")
    return said


# ---- typing


def may_be_typed(text):
    """Whether each of the commands of a line is one of TYPED, and none names a path outside of the tree."""
    bare = re.sub(r"'[^']*'|\"[^\"]*\"", "''", text).removesuffix("&")
    parts = [it.strip() for it in re.split(r"\|\||\||&&|;|[()]", bare)]
    return not OUTSIDE.search(text) and all(any(re.fullmatch(it, part) for it in TYPED) for part in parts if part and not part.startswith(">"))


def filled(text):
    """A command with words in place of those that a reader replaces."""
    for word, there in REPLACED.items():
        text = re.sub(rf"(?<!\w){re.escape(word)}(?!\w)", lambda _: there, text)
    return text


class Typed:
    """The commands of a document, typed in order."""

    def __init__(self, document, helps, shell):
        self.document, self.helps, self.shell, self.faults, self.left_out = document, helps, shell, [], []

    def fault(self, line, what):
        self.faults.append(f"{self.document.name}:{line}: {what}")

    def attempt(self, command, do):
        """Does something for a command. What is wrong is told at its place."""
        try:
            do()
        except BrokenPipeError:
            raise
        except (Wrong, OSError) as wrong:
            self.fault(command.line, f"`{command.text}`: {wrong}")

    def type_all(self):
        """Types each command. What a block puts into the background has to end with the block. Where the shell has ended, this ends too."""
        waits, before = False, None
        with contextlib.suppress(BrokenPipeError):
            for it in self.document.commands():
                if waits and it.line != before.line + 1:
                    waits = False
                    self.attempt(before, self.wait)
                self.attempt(it, functools.partial(self.type, it))
                waits, before = waits or it.text.endswith("&"), it

    def wait(self):
        status = self.shell.ask("wait $!; echo $?")
        require(status == 0, f"what its block has put into the background ends with status {status}")

    def type(self, command):
        text = command.text
        missing = [it for it in OPTIONAL if re.search(rf"(^|\| ){it}( |$)", text) and not shutil.which(it)]
        if any(re.fullmatch(it, text) for it in NOT_TYPED) or self.helps.name.fullmatch(text):
            return
        if missing:
            self.left_out.append(f"`{text}`: there is no command {missing[0]}")
        elif not may_be_typed(text):
            raise Wrong("it is neither in TYPED nor in NOT_TYPED")
        elif re.search(r"xp serve (?!--help)", text) and not text.endswith("&"):
            self.shell.serve(filled(text))
        elif "host.py" in text:
            self.shell.add_host(filled(text))
        else:
            if text.endswith("&"):
                self.shell.stop()
            status, printed = self.shell.type(filled(text))
            require(status == 0, f"it ends with status {status}: {printed.strip()}")

    def look_at_shown(self):
        """Each block that shows what is printed has to be printed, each file to be read, and each request to be answered."""
        for block in self.document.shown():
            if block.text.startswith("started,number,"):
                self.look_at_records(block)
            elif not block.text.startswith(FORMS):
                made = next((how for (name, begin), how in PRINTED_BY.items() if name == self.document.name and block.text.startswith(begin)), None)
                printed = [self.shell.type(made[0], made[1])[1]] if made else self.shell.outputs
                difference = missing_in(block.text, printed)
                if difference is not None:
                    whose = f"`{made[0]}` does not print" if made else "no command of the document prints"
                    self.fault(block.line, f"{whose} this line behind those before it: {difference}")
        for file in self.document.files():
            status, said = self.shell.type("xp check -", file.text)
            if status != 0:
                self.fault(file.line, f"this file is refused: {said}")

    def look_at_records(self, block):
        """The names of the fields are those of a file that an exchange writes, and the records are those of a replay of the same calls."""
        self.shell.serve("./xp serve examples/three-stations.toml --cdr shown.csv")
        self.shell.stop()
        if not (self.shell.tree.top / "shown.csv").read_text().startswith(block.text.partition("\n")[0] + "\n"):
            self.fault(block.line, "an exchange writes other names of fields")
        rows = list(csv.DictReader(block.text.splitlines()))
        moments = {name: [seconds_of(row[name]) for row in rows] for name in ("requested", "connected", "ended")}
        _, printed = self.shell.type("xp replay examples/three-stations.toml", CALLS_OF_RECORDS.format(octets="00" * 128, **moments))
        found = [line for line in printed.splitlines() if line.startswith("record ")]
        wanted = [" ".join(["record", *(row[name] or "-" for name in OF_RECORD)]) for row in rows]
        if found != wanted:
            self.fault(block.line, f"a replay of these calls prints {found}, and not {wanted}")

    def look_at_requests(self):
        """Each request to the console has an answer."""
        for it in self.document.spans:
            if request := re.fullmatch(r"GET (/\S*)", it.text):
                try:
                    urllib.request.urlopen(f"http://127.0.0.1:{self.shell.tree.port(9980)}{request[1]}", timeout=LIMIT).close()
                except OSError as wrong:
                    self.fault(it.line, f"`{it.text}`: {wrong}")

    def look_at_paths(self):
        """Each file and folder of the repository that is named is there."""
        folders = TOP, (TOP / self.document.name).parent
        for it in self.document.spans:
            if OF_REPOSITORY.fullmatch(it.text) and "/out/" not in it.text and not any((folder / it.text).exists() for folder in folders):
                self.fault(it.line, f"`{it.text}` is not there")

    def look_at_options(self):
        """Each option that is named without a whole command is one of its subcommand, or of any."""
        for it in self.document.spans:
            subcommand = self.helps.subcommand.match(it.text)
            if subcommand or it.text.startswith("--"):
                known = self.helps.options.get(subcommand[1], set()) if subcommand else self.helps.all_options | OF_LAUNCHER
                if unknown := options_in(it.text) - known - {"--help"}:
                    self.fault(it.line, f"`{it.text}`: there is no option {' or '.join(sorted(unknown))}")


def seconds_of(moment):
    return int(datetime.datetime.fromisoformat(moment.replace("Z", "+00:00")).timestamp()) if moment else 0


def lines_of(text):
    return [PEER.sub("PEER", MOMENT.sub("MOMENT", line.rstrip())) for line in text.rstrip("\n").splitlines()]


def missing_in(text, printed):
    """The first line of a text that is not printed behind those before it, or None where all lines are, one after the other."""
    wanted, longest = lines_of(text), 0
    for lines in map(lines_of, printed):
        for begin in range(len(lines)):
            same = next((count for count, pair in enumerate(zip(wanted, lines[begin:])) if pair[0] != pair[1]), min(len(wanted), len(lines) - begin))
            longest = max(longest, same)
    return wanted[longest] if longest < len(wanted) else None


# ---- the manual page beside the help


def faults_of_page(page, helps):
    """How the subcommands and options of docs/xp.1 differ from those of the help and of the launcher."""
    wanted = {**helps.options, **dict.fromkeys(SUBCOMMANDS_OF_LAUNCHER, set()), "": OF_LAUNCHER}
    synopsis, (subcommands, options) = page.synopsis(), page.described()
    faults = [f"its synopsis and the help differ in the subcommand {it}" for it in sorted(synopsis.keys() ^ wanted.keys())]
    for it in sorted(synopsis.keys() & wanted.keys()):
        faults += [f"its synopsis of {it or 'the launcher'} and the help differ in {option}" for option in sorted(synopsis[it] ^ wanted[it])]
    faults += [f"its description and the help differ in the subcommand {it}" for it in sorted(subcommands ^ (wanted.keys() - {""}))]
    faults += [f"its description and the help differ in {it}" for it in sorted(options ^ (helps.all_options | OF_LAUNCHER))]
    return [f"{page.name}: {it}" for it in faults]


def faults_of_rest(documents, helps):
    """The options that no document in Markdown names, and the rows of the tables above that are of nothing in the documents."""
    named = {option for document in documents for it in document.spans + document.blocks for option in options_in(it.text)}
    faults = [f"neither {' nor '.join(MARKDOWN)} names the option {it}" for it in sorted(helps.all_options - named)]
    commands = [it.text for document in documents for it in document.commands()]
    faults += [f"no command is one of NOT_TYPED: {it}" for it in NOT_TYPED if not any(re.fullmatch(it, text) for text in commands)]
    shown = [(document.name, block.text) for document in documents for block in document.shown()]
    return faults + [f"no text of {name} begins as PRINTED_BY has it: {it}" for name, it in PRINTED_BY if not any(name == of and text.startswith(it) for of, text in shown)]


def look_at(document, helps, program):
    """Types a document into a shell of its own, and returns what came of it."""
    with tempfile.TemporaryDirectory(ignore_cleanup_errors=True) as folder, Shell(Tree(program, folder)) as shell:
        typed = Typed(document, helps, shell)
        typed.type_all()
        typed.look_at_requests()
        try:
            shell.stop()
            typed.look_at_shown()
        except (Wrong, OSError) as wrong:
            typed.fault(1, f"behind its commands: {wrong}")
        typed.look_at_options()
        typed.look_at_paths()
    return typed


def main():
    parser = argparse.ArgumentParser(description=__doc__, formatter_class=argparse.RawDescriptionHelpFormatter)
    parser.add_argument("--program", default=str(PROGRAM), help=f"the program to look at ({DEFAULT})")
    program = pathlib.Path(parser.parse_args().program).absolute()
    if not program.is_file():
        sys.exit(f"there is no program {program}")
    for it in (signal.SIGINT, signal.SIGTERM):
        signal.signal(it, end_all)
    helps = Helps(program)
    documents = [Document(name, (TOP / name).read_text(encoding="utf-8")) for name in MARKDOWN]
    page = Page("docs/xp.1", (TOP / "docs/xp.1").read_text(encoding="utf-8"))
    faults, texts = faults_of_page(page, helps), (*documents, page, helps.document)
    with concurrent.futures.ThreadPoolExecutor(JOBS) as pool:
        for document, typed in zip(texts, pool.map(lambda it: look_at(it, helps, program), texts)):
            faults += typed.faults
            print(f"{document.name}: {len(document.commands())} commands, {len(document.shown())} texts that are shown as printed", flush=True)
            for it in typed.left_out:
                print(f"{document.name}: left out: {it}", flush=True)
    faults += faults_of_rest(documents, helps)
    for it in faults:
        print(f"FAIL {it}")
    return 1 if faults else 0


if __name__ == "__main__":
    sys.exit(main())
