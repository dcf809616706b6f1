"""Runs tests beside one another: each a command of its own, with the seconds that it may take. A line tells of each as it ends."""

import contextlib
import dataclasses
import os
import signal
import subprocess
import sys
import tempfile
import time

# Seconds between two looks at what runs.
PAUSE = 0.1
# Seconds that a command has to end in, once it was told to, before it is killed.
PATIENCE = 10
LINES_SHOWN = 30


@dataclasses.dataclass
class Job:
    """A test. `usual` is how long it takes, about, and orders the tests; `most` is how long it may take, in seconds."""

    name: str
    looks_at: str
    words: list
    usual: int
    most: int
    folder: str = "."
    environment: dict = dataclasses.field(default_factory=dict)
    # The names of the jobs that have to have passed before.
    after: tuple = ()
    # Whether what else runs can make it fail. Then it is tried once more, alone.
    is_timed: bool = False


class Running:
    """A job that runs, in a session of its own, with its output in a file."""

    def __init__(self, job):
        self.job, self.began, self.is_late = job, time.monotonic(), False
        self.output = tempfile.TemporaryFile("w+", errors="replace")
        environment = {**os.environ, **job.environment}
        how = {"stdin": subprocess.DEVNULL, "stdout": self.output, "stderr": subprocess.STDOUT, "start_new_session": True}
        self.process = subprocess.Popen([str(it) for it in job.words], cwd=job.folder, env=environment, **how)

    def seconds(self):
        return time.monotonic() - self.began

    def has_ended(self):
        if self.process.poll() is None and self.seconds() > self.job.most:
            self.is_late = True
            self.end()
        return self.process.poll() is not None

    def end(self):
        """Ends the command and what it started: told to first, so that it can remove what it made."""
        with contextlib.suppress(ProcessLookupError):
            os.killpg(self.process.pid, signal.SIGTERM)
        with contextlib.suppress(subprocess.TimeoutExpired):
            self.process.wait(PATIENCE)
        with contextlib.suppress(ProcessLookupError):
            os.killpg(self.process.pid, signal.SIGKILL)
        self.process.wait()

    def fault(self):
        """Why the job failed, or None."""
        if self.is_late:
            return f"it took more than {self.job.most} s"
        status = self.process.returncode
        return f"exit status {status}" if status else None

    def said(self):
        self.output.seek(0)
        return self.output.read().rstrip("\n").splitlines()[-LINES_SHOWN:]


class Board:
    """Which jobs are left, which run, and how those went that ended."""

    def __init__(self, jobs, at_once):
        self.left = sorted(jobs, key=lambda it: -it.usual)
        self.at_once, self.running, self.passed, self.failed, self.again = at_once, [], set(), set(), []

    def run(self):
        """Runs all jobs, and returns how many passed and how many failed."""
        try:
            while self.left or self.running or self.again:
                self.take_again()
                self.drop_what_cannot_run()
                self.start_what_can_run()
                for it in [it for it in self.running if it.has_ended()]:
                    self.running.remove(it)
                    self.tell(it.job, it.seconds(), it.fault(), it.said())
                time.sleep(PAUSE)
        finally:
            for it in self.running:
                it.end()
        return len(self.passed), len(self.failed)

    def take_again(self):
        """Takes one job that is to be tried alone, where nothing else runs."""
        if self.again and not self.left and not self.running:
            self.left.append(self.again.pop())

    def drop_what_cannot_run(self):
        for job in [it for it in self.left if self.failed.intersection(it.after)]:
            self.left.remove(job)
            self.tell(job, 0, f"not run, since {self.failed.intersection(job.after).pop()} failed", [])

    def start_what_can_run(self):
        # A job that others wait for goes first.
        waited_for = {name for it in self.left for name in it.after}
        ready = [it for it in self.left if self.passed.issuperset(it.after)]
        for job in sorted(ready, key=lambda it: it.name not in waited_for):
            if len(self.running) < self.at_once:
                self.left.remove(job)
                self.running.append(Running(job))

    def tell(self, job, seconds, fault, said):
        is_tried_again = fault and job.is_timed
        if is_tried_again:
            self.again.append(dataclasses.replace(job, is_timed=False))
        else:
            (self.failed if fault else self.passed).add(job.name)
        word = "AGAIN" if is_tried_again else "FAIL" if fault else "ok  "
        print(f"{word} {job.name} ({seconds:.0f} s){': ' + fault if fault else ''}", flush=True)
        for line in said if fault else ():
            print(f"       {line}", flush=True)


def stop_on_signals():
    """Has the signals that end a process end it by SystemExit, so that what runs is ended too."""
    for it in (signal.SIGINT, signal.SIGTERM, signal.SIGHUP):
        signal.signal(it, lambda number, _: sys.exit(128 + number))
