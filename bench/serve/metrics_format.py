"""Checks that standard input is metrics in Prometheus' text format, as `promtool check metrics` does, with the standard library
alone:

    curl -s http://127.0.0.1:9980/metrics | python3 bench/serve/metrics_format.py

With --serve it starts an exchange of its own with a console, has a call on it, and reads its metrics before, during and after the call:

    python3 bench/serve/metrics_format.py --serve

Each fault is told on a line. The exit status is 0 where there is none.
"""

import argparse
import pathlib
import re
import sys
import tempfile
import urllib.request

import server

NAME = re.compile(r"[a-zA-Z_:][a-zA-Z0-9_:]*\Z")
SAMPLE = re.compile(r"(?P<name>[a-zA-Z_:][a-zA-Z0-9_:]*)(?:\{(?P<labels>.*)\})? (?P<value>\S+)\Z")
LABEL = re.compile(r'(?P<name>[a-zA-Z_][a-zA-Z0-9_]*)="(?P<value>(?:[^"\\\n]|\\[\\"n])*)"(?:,|\Z)')
KINDS = {"counter", "gauge", "histogram", "summary", "untyped"}


def labels_of(text):
    """The labels of a sample, or None where they are not as they must be."""
    labels = {}
    while text:
        label = LABEL.match(text)
        if label is None or label["name"] in labels or label["name"].startswith("__"):
            return None
        labels[label["name"]] = label["value"]
        text = text[label.end():]
    return labels


class Metrics:
    """What has been read so far, and the faults in it."""

    def __init__(self):
        self.helps, self.kinds, self.sampled, self.series, self.faults = {}, {}, [], set(), []

    def fault(self, number, text):
        self.faults.append(f"line {number}: {text}")

    def read_help(self, number, name, text):
        if name in self.helps:
            self.fault(number, f"a second HELP of {name}")
        if name in self.sampled:
            self.fault(number, f"HELP of {name} behind its samples")
        if not text:
            self.fault(number, f"an empty HELP of {name}")
        self.helps[name] = text

    def read_type(self, number, name, kind):
        if name in self.kinds:
            self.fault(number, f"a second TYPE of {name}")
        if name in self.sampled:
            self.fault(number, f"TYPE of {name} behind its samples")
        if kind not in KINDS:
            self.fault(number, f"{name} is of no kind: {kind}")
        if (kind == "counter") != name.endswith("_total"):
            self.fault(number, f"{name} is a {kind}: a counter ends in _total, and nothing else does")
        self.kinds[name] = kind

    def read_comment(self, number, line):
        word, _, rest = line[2:].partition(" ")
        name, _, text = rest.partition(" ")
        if word not in ("HELP", "TYPE"):
            return
        if not NAME.match(name):
            self.fault(number, f"no name of a metric: {name}")
        elif word == "HELP":
            self.read_help(number, name, text)
        else:
            self.read_type(number, name, text)

    def read_sample(self, number, line):
        sample = SAMPLE.match(line)
        if sample is None:
            return self.fault(number, f"no sample: {line}")
        name, labels = sample["name"], labels_of(sample["labels"] or "")
        if labels is None:
            return self.fault(number, f"labels that are none: {sample['labels']}")
        if name not in self.kinds or name not in self.helps:
            self.fault(number, f"{name} has no TYPE or no HELP before it")
        if name in self.sampled and self.sampled[-1] != name:
            self.fault(number, f"the samples of {name} do not stand together")
        self.sampled.append(name)
        series = (name, tuple(sorted(labels.items())))
        if series in self.series:
            self.fault(number, f"a second sample of {line}")
        self.series.add(series)
        self.read_value(number, name, sample["value"])

    def read_value(self, number, name, text):
        try:
            value = float(text)
        except ValueError:
            return self.fault(number, f"no number: {text}")
        if self.kinds.get(name) == "counter" and not value >= 0:
            self.fault(number, f"the counter {name} is below 0")

    def read(self, text):
        if not text.endswith("\n"):
            self.faults.append("the last line has no line feed")
        for number, line in enumerate(text.split("\n"), 1):
            if line.startswith("# "):
                self.read_comment(number, line)
            elif line and not line.startswith("#"):
                self.read_sample(number, line)
        for name in self.kinds:
            if name not in self.sampled:
                self.faults.append(f"{name} has no sample")
        return self.faults


class Exchange(server.Process):
    """An exchange over a pair of lines, with a console."""

    def __init__(self, program, folder):
        self.base = server.free_ports(3)
        file = pathlib.Path(folder) / "subscriptions.toml"
        file.write_text(server.subscriptions(1, self.base))
        super().__init__([program, "serve", file, "--console", f"127.0.0.1:{self.base + 2}"], folder)

    def metrics(self):
        with urllib.request.urlopen(f"http://127.0.0.1:{self.base + 2}/metrics", timeout=10) as answer:
            return answer.read().decode("utf-8")


class Line:
    """A line's connection, on which a packet goes out and another one is due."""

    def __init__(self, exchange, place):
        self.connection = exchange.connect(exchange.base + place)
        self.connection.settimeout(10)

    def send(self, packet):
        self.connection.sendall(server.frame(packet))

    def expect(self, kind):
        head = self.connection.recv(4, server.socket.MSG_WAITALL)
        packet = self.connection.recv(int.from_bytes(head[2:4], "big"), server.socket.MSG_WAITALL)
        if packet[2] != kind:
            sys.exit(f"{packet.hex()} came where a packet of type {kind:02x} is due")


def read_while_serving(program):
    """The metrics of an exchange before, during and after a call."""
    with tempfile.TemporaryDirectory() as folder, Exchange(program, folder) as exchange:
        caller, called = Line(exchange, 0), Line(exchange, 1)
        for line in (caller, called):
            line.send(server.CLEAR_REQUEST)
            line.expect(0x17)
        texts = [exchange.metrics()]
        caller.send(server.call_request(server.address(0)))
        called.expect(0x0B)
        called.send(bytes.fromhex("10010f"))
        caller.expect(0x0F)
        texts.append(exchange.metrics())
        caller.send(server.CLEAR_REQUEST)
        caller.expect(0x17)
        called.expect(0x13)
        return [*texts, exchange.metrics()]


def main():
    parser = argparse.ArgumentParser(description="Checks metrics in Prometheus' text format, of standard input.")
    parser.add_argument("--serve", action="store_true", help="read those of an exchange that is started for it")
    parser.add_argument("--xp", default=str(server.PROGRAM), help="the program that serves, with --serve")
    arguments = parser.parse_args()
    texts = read_while_serving(arguments.xp) if arguments.serve else [sys.stdin.buffer.read().decode("utf-8")]
    found = 0
    for text in texts:
        metrics = Metrics()
        faults = metrics.read(text)
        found += len(faults)
        print("\n".join(faults or [f"{len(metrics.kinds)} metrics, {len(metrics.series)} series"]))
    return 1 if found else 0


if __name__ == "__main__":
    sys.exit(main())
