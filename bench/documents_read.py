"""What documents show: the commands to type, the blocks of text that programs print, and the options that they name. Those in Markdown are
the lines of blocks marked `sh`, the commands of units in blocks marked `ini`, and spans that begin with the name of a command; those of a
manual page are the lines of its displays; those of a help are its examples."""

import dataclasses
import re

# What a span begins with that is a command. Further words stand behind it, or it is a path.
NAMES = set("""
    xp rt apt apt-get awk bash busctl cat chmod chown cp curl cut date dd df dig diff docker dpkg dpkg-deb du echo env find git grep grafana-cli
    groupadd gunzip gzip head hostnamectl id install ip iptables journalctl jq keepalived kill killall less ln logger logrotate ls lsof man
    mandoc mkdir mkfifo mv nano nc netstat nft openssl ping pkill printf prometheus promtool ps python3 rm rmdir rsync scp sed sh sha256sum
    sleep socat sort sqlite3 ss ssh stat strace su sudo sysctl systemctl systemd-analyze tail tar tcpdump tee telnet timedatectl touch
    tr tshark ufw umask uname useradd vi vim watch wc wget wireshark xargs zcat
""".split())

FENCE = re.compile(r"^(?P<indent> *)```(?P<language>\w*)\n(?P<text>.*?)^(?P=indent)```$", re.M | re.S)
SPAN = re.compile(r"(?<!`)`([^`\n]+)`(?!`)")
COMMENT = re.compile(r"\s+# .*$")
OPTION = re.compile(r"(?<![\w-])--[a-z][a-z-]*")


@dataclasses.dataclass(frozen=True)
class Text:
    """A command, a span or a block of a document, and where it stands: the number of its first line."""

    text: str
    line: int
    language: str = "sh"


class Document:
    """A document in Markdown."""

    def __init__(self, name, text):
        self.name = name
        self.blocks = [self.block(text, it) for it in FENCE.finditer(text)]
        # A block has no spans. The lines stay where they are.
        prose = FENCE.sub(lambda it: "\n" * it[0].count("\n"), text)
        self.spans = [Text(it[1].replace(r"\|", "|"), line_of(prose, it.start())) for it in SPAN.finditer(prose)]

    def block(self, text, found):
        lines = [line.removeprefix(found["indent"]) for line in found["text"].splitlines()]
        return Text("\n".join(lines), line_of(text, found.start()), found["language"])

    def commands(self):
        """Its commands, in order."""
        found = [it for it in self.spans if is_command(it.text)]
        for block in self.blocks:
            rows = [Text(COMMENT.sub("", line), block.line + number) for number, line in enumerate(block.text.splitlines(), 1) if line.strip()]
            if block.language == "sh":
                found += rows
            elif block.language == "ini":
                found += [Text(it.text.removeprefix("ExecStart="), it.line) for it in rows if re.match("ExecStart=.", it.text)]
        return sorted(found, key=lambda it: it.line)

    def shown(self):
        """The blocks that are neither commands nor files."""
        return [it for it in self.blocks if not it.language]

    def files(self):
        """The subscription files that it shows."""
        return [it for it in self.blocks if it.language == "toml"]


class Page(Document):
    """A manual page in mdoc: the lines of its displays, and the command in its first comment."""

    def __init__(self, name, text):
        super().__init__(name, "")
        self.text = text
        self.spans = [Text(it[1], line_of(text, it.start())) for it in re.finditer(r"\bPa (\S+)$", text, re.M)]

    def commands(self):
        found, is_display = [], False
        for number, line in enumerate(self.text.splitlines(), 1):
            if line.startswith((".Bd", ".Ed")):
                is_display = line.startswith(".Bd")
            elif is_display or line.startswith((".Dl ", '.\\" ')):
                found.append(Text(line.removeprefix(".Dl ").rpartition(": ")[2] if line.startswith(".") else line, number))
        return found

    def synopsis(self):
        """Of each subcommand the options that the synopsis has, and of the launcher those without a subcommand, as ''."""
        text = re.search(r"^\.Sh SYNOPSIS\n(.*?)^\.Sh ", self.text, re.M | re.S)[1]
        found = {}
        for use in re.split(r"^\.Nm\n", text, flags=re.M)[1:]:
            subcommand = re.search(r"^\.Cm (\w+)", use, re.M)
            found.setdefault(subcommand[1] if subcommand else "", set()).update(flags(use))
        return found

    def described(self):
        """The subcommands and the options that have an entry or stand in the text, without the synopsis."""
        text = self.text.partition(".Sh DESCRIPTION\n")[2]
        return set(re.findall(r"^\.It Cm (\w+)", text, re.M)), flags(text)


class Help(Document):
    """The help of the program: the lines behind `Example:`."""

    def __init__(self, name, text):
        super().__init__(name, "")
        self.text = text

    def commands(self):
        examples = [(number, line) for number, line in enumerate(self.text.splitlines(), 1) if re.match(r"  xp [a-z]", line)]
        return [Text(line.strip(), number) for number, line in examples]

    def options(self):
        """The options of its list."""
        return set(re.findall(r"^ {2,6}(?:-\w, )?(--[a-z-]+)", self.text, re.M)) - {"--help"}

    def subcommands(self):
        return [it for it in re.findall(r"^  ([a-z]+)  +\S", self.text, re.M) if it != "help"]


def line_of(text, place):
    return text.count("\n", 0, place) + 1


def flags(text):
    """The options in mdoc with names of more than a letter."""
    return {f"-{it}" for it in re.findall(r"\bFl (-[a-z][a-z-]*)", text)}


def is_command(text):
    first, _, rest = text.partition(" ")
    name = first.rpartition("/")[2]
    if first.startswith(("./", "tools/", "bench/", "crates/")) and not name.endswith((".md", ".toml", ".txt", "/")):
        return bool(rest) or first == "./test" or first.endswith(".sh")
    return first in NAMES and bool(rest)


def options_in(text):
    return set(OPTION.findall(text))
