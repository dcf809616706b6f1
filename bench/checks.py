"""What scripts have in common whose checks run commands, some of which may not be here: such a check is left out, and told."""

import os
import pathlib
import shutil
import subprocess
import sys

sys.path.append(str(pathlib.Path(__file__).resolve().parent / "serve"))

from routers import Wrong  # noqa: E402
from served import require  # noqa: E402

# Seconds that a command may take.
LIMIT = 60


def run(*words, **how):
    """Runs a command, and returns its status and what it said on both streams."""
    command = [str(it) for it in words]
    how = {"stdin": subprocess.DEVNULL, "stdout": subprocess.PIPE, "stderr": subprocess.STDOUT, "timeout": LIMIT, **how}
    try:
        done = subprocess.run(command, text=True, errors="replace", **how)
    except subprocess.TimeoutExpired:
        raise Wrong(f"{' '.join(command)} has not ended in {how['timeout']} seconds") from None
    return done.returncode, done.stdout


def told_by(*words, **how):
    """What a command says, which has to end well."""
    status, said = run(*words, **how)
    require(status == 0, f"{' '.join(map(str, words))}: status {status}: {said}")
    return said


class LeftOut(Exception):
    """A check needs something that is not here."""


def need(*commands):
    for it in commands:
        if not shutil.which(it):
            raise LeftOut(f"there is no command {it}")


def need_root():
    if os.geteuid() != 0:
        raise LeftOut("it takes root")


def try_all(checks, looked_at):
    """Tells of each check what it has looked at, or why it is left out. The first that fails ends the script."""
    for check in checks:
        try:
            check(looked_at)
            print(f"{check.__name__}: {check.__doc__}", flush=True)
        except LeftOut as why:
            print(f"{check.__name__}: left out: {why}", flush=True)
        except (Wrong, OSError) as wrong:
            sys.exit(f"{check.__name__}: {wrong}")
