#!/usr/bin/env python3
"""Whether the launcher ./xp runs the program that it should, and says what it should.

    python3 bench/launcher.py [--launcher PATH]

A copy of the launcher, with what it reads of tools/ beside it, stands in a small tree of its own, with tools that build nothing: each writes a program that prints its name,
its words and its standard input. PATH has a command rt that only tells its version. It takes some seconds, and prints a line for
each case. Exit status 0: every case is as it should be.
"""

import argparse
import os
import pathlib
import select
import shutil
import signal
import subprocess
import sys
import tempfile
import time

TOP = pathlib.Path(__file__).resolve().parent.parent
# The commands that the launcher may use, beside rt.
COMMANDS = "awk bash cat dirname env find flock git kill mkdir readlink rm sed sha256sum sort xargs".split()
# Seconds after which a run counts as hung.
LIMIT = 60
PAUSE = 0.3

NOT_PROVED = "xp: not proved on this machine: ./xp prove proves and builds it, in about an hour\n"
ASKED = "xp: this is the program before any proof, as --unproved asks\n"
BUILDING = "xp: building the program before any proof, which takes about four minutes; it is kept until a source changes\n"
OLDER = "xp: the program is older than its {}: ./xp prove proves and builds it\n"
NO_SERVING = (
    "xp: serve runs the proved program, and none is here: ./xp prove proves and builds it, in about an hour\n"
    "xp: for a try of the program before any proof: ./xp --unproved serve lines.toml\n"
)

PROGRAM = """#!/usr/bin/env bash
echo {name}
printf '[%s]\\n' "$@"
cat
exit "${{WANTED_STATUS-0}}"
"""
# A tool in place of one that builds: it counts its runs, reads what it is given, waits for a file where it is to, and writes a
# program, or fails.
TOOL = """import os, pathlib, sys, time
top = pathlib.Path(__file__).parent.parent
with open(top / "{name}.runs", "a") as runs:
    runs.write("x")
sys.stdin.read()
while "WANTED_FILE" in os.environ and not (top / os.environ["WANTED_FILE"]).exists():
    time.sleep(0.01)
if "WANTED_FAILURE" in os.environ:
    sys.exit(1)
print("a line of the tool on standard output")
path = {path}
path.parent.mkdir(parents=True, exist_ok=True)
path.write_text({text!r})
path.chmod(0o755)
"""


class Tree:
    """A tree with a launcher and tools that build nothing, and how to run the launcher there."""

    def __init__(self, folder, launcher):
        self.top = pathlib.Path(folder) / "a tree"
        self.write("crates.txt", "# Crates.\nlow:\nhigh may_wait=4: low kit_library\nxp: high\n\nxp_tests: xp\n")
        for name in ("low", "high", "xp", "xp_tests"):
            self.write(f"crates/{name}/src/code.rt", name)
        self.write("crates/low/specs/Lib.antt", "a definition")
        self.write("CHANGELOG.md", "# Changes\n\n## 2026-11-27\n\n- One.\n\n## 2026-11-26\n")
        self.write_tool("prove.py", "proved", 'top / "crates/xp/out/xp"')
        self.write_tool("build_unproved.py", "unproved", "pathlib.Path(sys.argv[1])")
        shutil.copy(launcher, self.top / "xp")
        shutil.copy(pathlib.Path(launcher).parent / "tools/run_program.sh", self.top / "tools")
        self.commands = pathlib.Path(folder) / "commands"
        self.commands.mkdir()
        for name in COMMANDS:
            (self.commands / name).symlink_to(shutil.which(name))
        (self.commands / "python3").symlink_to(sys.executable)
        self.set_kit("kit 1")

    def write(self, name, text):
        path = self.top / name
        path.parent.mkdir(parents=True, exist_ok=True)
        path.write_text(text, encoding="utf-8")

    def write_tool(self, file, name, path):
        self.write(f"tools/{file}", TOOL.format(name=name, path=path, text=PROGRAM.format(name=name)))

    def set_kit(self, version):
        (self.commands / "rt").write_text(f'#!/usr/bin/env bash\n[ "$*" = version ] && echo "{version}"\n')
        (self.commands / "rt").chmod(0o755)

    def runs_of(self, name):
        path = self.top / f"{name}.runs"
        return len(path.read_text()) if path.exists() else 0

    def start(self, *words, **wanted):
        """Starts the launcher, with what is wanted of the tools and the program in its environment."""
        environment = {"PATH": str(self.commands), "HOME": str(self.top), "GIT_CEILING_DIRECTORIES": str(self.top.parent)}
        environment |= {f"WANTED_{key.upper()}": str(value) for key, value in wanted.items()}
        pipes = {"stdin": subprocess.PIPE, "stdout": subprocess.PIPE, "stderr": subprocess.PIPE}
        # From another folder than its own, by a link.
        link = self.top.parent / "link"
        if not link.exists():
            link.symlink_to(self.top / "xp")
        return subprocess.Popen([link, *words], cwd="/", env=environment, text=True, start_new_session=True, **pipes)

    def run(self, *words, given="", **wanted):
        """Runs the launcher, and returns its status, its output and what it told."""
        launcher = self.start(*words, **wanted)
        try:
            output, told = launcher.communicate(given, timeout=LIMIT)
        except subprocess.TimeoutExpired:
            os.killpg(launcher.pid, signal.SIGKILL)
            return None, "", f"the run of {words} hangs"
        return launcher.returncode, output, told


# What the launcher tells the program of SIGTERM before it closes its pipe.
TOLD_OF_SIGNAL = "TERM\n"


def output_of(name, *words, given=""):
    """What the program of this name prints."""
    return name + "\n" + "".join(f"[{word}]\n" for word in words) + given


def serve_until_terminated(tree, *words, before=(), **wanted):
    """Starts serving, sends signals to the launcher once the program runs, and returns the status, the output and what was told."""
    launcher = tree.start(*words, **wanted)
    select.select([launcher.stdout], [], [], LIMIT)
    # The launcher takes signals from the moment at which the program is started.
    for number in (*before, signal.SIGTERM):
        time.sleep(PAUSE)
        launcher.send_signal(number)
    try:
        output, told = launcher.communicate(timeout=LIMIT)
    except subprocess.TimeoutExpired:
        os.killpg(launcher.pid, signal.SIGKILL)
        return None, "", "serving does not end by a signal"
    return launcher.returncode, output, told


def serve_without_a_program(tree):
    yield tree.run("serve", "lines.toml"), (1, "", NO_SERVING)
    yield tree.runs_of("unproved") + tree.runs_of("proved"), 0
    # What serves nothing is told by the program before any proof.
    for words in ((), ("--help",), ("--cdr", "calls.csv")):
        status, output, told = tree.run("serve", *words, status=2)
        yield (status, output, told.endswith(NOT_PROVED)), (2, output_of("unproved", "serve", *words), True)


def version_without_a_program(tree):
    for word in ("--version", "-V"):
        yield tree.run(word), (0, "xp 2026-11-27\ncommit: unknown\nproved: no\nkit: kit 1\n", "")
    yield tree.runs_of("unproved") + tree.runs_of("proved"), 0


def version_of_the_program_is_the_newest(tree):
    """The program tells the same version as the launcher, which is the newest heading of CHANGELOG.md."""
    newest = next(line for line in (TOP / "CHANGELOG.md").read_text(encoding="utf-8").splitlines() if line.startswith("## "))
    texts = (TOP / "crates/xp_arguments/src/texts.rt").read_text(encoding="utf-8")
    yield f'VERSION: &str = "{newest.removeprefix("## ")}";' in texts, True


def unproved_is_built_once(tree):
    words = ("check", "a file.toml", "", "*", "it's")
    tool = "a line of the tool on standard output\n"
    begun = tree.run(*words, given="a script", status=3)
    yield begun, (3, output_of("unproved", *words, given="a script"), BUILDING + tool + NOT_PROVED)
    yield tree.run("replay", given="a script"), (0, output_of("unproved", "replay", given="a script"), NOT_PROVED)
    yield tree.run("status", "::1", status=5), (5, output_of("unproved", "status", "::1"), NOT_PROVED)
    yield tree.runs_of("unproved"), 1


def unproved_follows_what_it_is_made_of(tree):
    tree.run("check")
    for file in ("crates/xp_tests/src/code.rt", "crates/low/specs/Lib.antt"):
        tree.write(file, "changed")
        tree.run("check")
        yield (file, tree.runs_of("unproved")), (file, 1)
    tree.write("crates/low/src/code.rt", "changed")
    tree.run("check")
    yield tree.runs_of("unproved"), 2
    tree.write("crates/low/src/another.rt", "new")
    tree.run("check")
    yield tree.runs_of("unproved"), 3
    tree.set_kit("kit 2")
    tree.run("check")
    yield tree.runs_of("unproved"), 4


def unproved_that_cannot_be_built(tree):
    tree.run("check")
    tree.write("crates/low/src/code.rt", "broken")
    yield tree.run("check", failure="yes"), (1, "", BUILDING)
    # The one that was kept is not that of the sources, nor is it taken for it once they are as before.
    tree.write("crates/low/src/code.rt", "low")
    yield tree.run("check")[0], 0
    yield tree.runs_of("unproved"), 3


def unproved_serves_when_asked(tree):
    words = ("serve", "lines of mine.toml", "--until-eof")
    status, output, told = serve_until_terminated(tree, "--unproved", "serve", "lines of mine.toml")
    yield (status, output), (0, output_of("unproved", *words, given=TOLD_OF_SIGNAL))
    yield told.endswith(NOT_PROVED), True
    asked = tree.run("--unproved", "serve", "lines.toml", "--until-eof", status=4)
    yield asked, (4, output_of("unproved", "serve", "lines.toml", "--until-eof"), NOT_PROVED)


def two_at_once_build_once(tree):
    first = tree.start("check", file="go")
    for _ in range(LIMIT * 10):
        if not tree.runs_of("unproved"):
            time.sleep(0.1)
    second = tree.start("check", file="go")
    select.select([second.stderr], [], [], LIMIT)
    yield second.stderr.readline(), "xp: another run is building the program: waiting for it\n"
    tree.write("go", "")
    yield [(it.communicate("", timeout=LIMIT)[0], it.returncode) for it in (first, second)], [(output_of("unproved", "check"), 0)] * 2
    yield tree.runs_of("unproved"), 1


def proved_is_run(tree):
    status, output, _ = tree.run("prove")
    yield (status, output), (0, "")
    words = ("explain", "a file.toml", "", "*")
    yield tree.run(*words, status=2), (2, output_of("proved", *words), "")
    yield serve_until_terminated(tree, "serve", "lines.toml"), (0, output_of("proved", "serve", "lines.toml", "--until-eof", given=TOLD_OF_SIGNAL), "")
    yield tree.run("--version")[1].splitlines()[2], "proved: yes"
    yield tree.run("prove")[:2], (0, "")
    yield (tree.runs_of("proved"), tree.runs_of("unproved")), (1, 0)
    status, output, told = tree.run("--unproved", "check")
    yield (status, output, told.endswith(ASKED)), (0, output_of("unproved", "check"), True)


def serve_gets_the_launchers_word_behind_its_own(tree):
    tree.run("prove")
    for words, wanted in (
        (("f", "--cdr", "a file.csv"), ("f", "--cdr", "a file.csv", "--until-eof")),
        (("--quiet", "--trace", "t", "f"), ("--quiet", "--trace", "t", "f", "--until-eof")),
        (("--cdr=c", "--", "-f"), ("--cdr=c", "--until-eof", "--", "-f")),
        (("-",), ("-", "--until-eof")),
        (("",), ("", "--until-eof")),
    ):
        yield serve_until_terminated(tree, "serve", *words), (0, output_of("proved", "serve", *wanted, given=TOLD_OF_SIGNAL), "")


def serve_asks_for_a_reload_by_a_signal(tree):
    tree.run("prove")
    wanted = output_of("proved", "serve", "f", "--until-eof", given="reload\nreload\n" + TOLD_OF_SIGNAL)
    yield serve_until_terminated(tree, "serve", "f", before=(signal.SIGUSR1, signal.SIGUSR1)), (0, wanted, "")


def serve_without_a_file_has_no_word_of_the_launcher(tree):
    tree.run("prove")
    options = ("--cdr", "--cdr-dir", "--console", "--live", "--name", "--records", "--threads", "--trace", "--trace-lines", "--turns")
    for words in ((), ("--help",), ("--quiet", "--"), *((option, "x") for option in options), *((option,) for option in options)):
        yield tree.run("serve", *words, status=2), (2, output_of("proved", "serve", *words), "")
    yield tree.run("--unproved", "serve", status=2)[:2], (2, output_of("unproved", "serve"))


def proved_that_is_older_is_run(tree):
    tree.run("prove")
    tree.write("crates/low/specs/Lib.antt", "another definition")
    older = OLDER.format("source crates/low/specs/Lib.antt")
    yield tree.run("check", "f"), (0, output_of("proved", "check", "f"), older)
    yield serve_until_terminated(tree, "serve", "f", status=5), (5, output_of("proved", "serve", "f", "--until-eof", given=TOLD_OF_SIGNAL), older)
    yield tree.run("--version")[1].splitlines()[2], "proved: yes, but older than the sources"
    yield tree.run("prove", failure="yes")[:2], (1, "")
    yield tree.run("check", "f"), (0, output_of("proved", "check", "f"), older)
    yield tree.run("prove")[0], 0
    yield tree.run("check", "f"), (0, output_of("proved", "check", "f"), "")
    yield (tree.runs_of("proved"), tree.runs_of("unproved")), (3, 0)


def younger_source_is_named(tree):
    tree.run("prove")
    for file in ("crates/xp_tests/src/code.rt", "CHANGELOG.md"):
        tree.write(file, "changed")
        yield tree.run("check"), (0, output_of("proved", "check"), "")
    # The first one by its path, of the crates that the program stands on.
    for file in ("crates/xp/src/code.rt", "crates/low/src/a new one.rt", "crates/high/src/code.rt"):
        tree.write(file, "changed")
        yield tree.run("check"), (0, output_of("proved", "check"), OLDER.format(f"source {file}"))
    tree.run("prove")
    # Where one was removed, none is younger.
    (tree.top / "crates/low/src/a new one.rt").unlink()
    yield tree.run("check"), (0, output_of("proved", "check"), OLDER.format("sources"))
    tree.run("prove")
    tree.write("crates.txt", "low:\nxp: low\n")
    yield tree.run("check"), (0, output_of("proved", "check"), OLDER.format("source crates.txt"))


def proved_by_another_command(tree):
    tree.run("prove")
    (tree.top / "crates/xp/out/xp.stamp").unlink()
    yield tree.run("check"), (0, output_of("proved", "check"), "")
    yield tree.run("prove")[0], 0
    yield tree.runs_of("proved"), 1
    tree.write("crates/xp_tests/src/code.rt", "changed")
    yield tree.run("check"), (0, output_of("proved", "check"), "")
    tree.write("crates/low/src/code.rt", "changed")
    yield tree.run("check"), (0, output_of("proved", "check"), OLDER.format("source crates/low/src/code.rt"))
    # With a stamp it goes by what is in the files alone.
    yield tree.run("prove")[0], 0
    tree.write("crates/low/src/code.rt", "changed")
    yield tree.run("check"), (0, output_of("proved", "check"), "")
    yield tree.runs_of("proved"), 2


def kit_that_proved_is_told(tree):
    yield tree.run("--version")[1].splitlines()[3], "kit: kit 1"
    tree.run("prove")
    tree.set_kit("kit 2")
    yield tree.run("--version")[1].splitlines()[2:], ["proved: yes", "kit: kit 1"]
    (tree.commands / "rt").unlink()
    yield tree.run("--version")[1].splitlines()[2:], ["proved: yes", "kit: kit 1"]
    # Of a program that another command left, it is not known.
    tree.set_kit("kit 2")
    time.sleep(PAUSE)
    (tree.top / "crates/xp/out/xp").touch()
    yield tree.run("--version")[1].splitlines()[3], "kit: kit 2"


def prove_takes_no_words(tree):
    yield tree.run("prove", "it"), (2, "", "xp: prove takes no further words\n")
    yield tree.runs_of("proved"), 0


def no_kit(tree):
    (tree.commands / "rt").unlink()
    yield tree.run("check"), (1, "", "xp: the program is not built, and there is no command rt to build it\n")
    yield tree.run("prove"), (1, "", "xp: the program is not built, and there is no command rt to prove and build it\n")
    yield tree.run("--version")[1].splitlines()[2:], ["proved: no", "kit: none"]
    yield tree.runs_of("unproved") + tree.runs_of("proved"), 0


def commit_is_told(tree):
    git = ["git", "-C", tree.top, "-c", "user.name=a", "-c", "user.email=a"]
    for words in (["init", "-q"], ["add", "."], ["commit", "-q", "-m", "a"]):
        subprocess.run([*git, *words], check=True)
    commit = subprocess.run([*git, "rev-parse", "--short", "HEAD"], check=True, capture_output=True, text=True).stdout.strip()
    yield tree.run("--version")[1].splitlines()[1], f"commit: {commit}"
    tree.write("crates.txt", "xp:\n")
    yield tree.run("--version")[1].splitlines()[1], f"commit: {commit}-dirty"


CASES = (
    serve_without_a_program,
    version_without_a_program,
    version_of_the_program_is_the_newest,
    unproved_is_built_once,
    unproved_follows_what_it_is_made_of,
    unproved_that_cannot_be_built,
    unproved_serves_when_asked,
    two_at_once_build_once,
    proved_is_run,
    serve_gets_the_launchers_word_behind_its_own,
    serve_asks_for_a_reload_by_a_signal,
    serve_without_a_file_has_no_word_of_the_launcher,
    proved_that_is_older_is_run,
    younger_source_is_named,
    proved_by_another_command,
    kit_that_proved_is_told,
    prove_takes_no_words,
    no_kit,
    commit_is_told,
)


def main():
    parser = argparse.ArgumentParser(description=__doc__, formatter_class=argparse.RawDescriptionHelpFormatter)
    parser.add_argument("--launcher", default=TOP / "xp", help="the launcher (default: that of this repository)")
    launcher = parser.parse_args().launcher
    failed = 0
    for case in CASES:
        begun = time.monotonic()
        with tempfile.TemporaryDirectory() as folder:
            faults = [pair for pair in case(Tree(folder, launcher)) if pair[0] != pair[1]]
        for found, wanted in faults:
            print(f"{case.__name__}:\n    found  {found!r}\n    wanted {wanted!r}")
        failed += bool(faults)
        print(f"{'FAIL' if faults else 'ok  '} {case.__name__} ({time.monotonic() - begun:.1f} s)", flush=True)
    print(f"{len(CASES) - failed} passed, {failed} failed")
    return 1 if failed else 0


if __name__ == "__main__":
    sys.exit(main())
