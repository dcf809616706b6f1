#!/usr/bin/env python3
"""Whether the metrics that examples/prometheus-alerts.yml, examples/grafana.json and docs/OPERATING.md name are those of an exchange.

    python3 bench/serve/metrics_named.py

It starts an exchange with a console, has a call on it, and reads its metrics. Each metric, label and label's value that an expression
of the alerts or of the dashboard names has to be one of the exchange's; the dashboard has to show each of its metrics, and the table of
docs/OPERATING.md to list each of them and no other. Where promtool is here, it reads the alerts and all expressions, and tries when the
alerts fire (alerts_test.yml). Each check is told, and the exit status is 1 at the first that fails.
"""

import argparse
import json
import pathlib
import re
import sys
import tempfile

import metrics_format
import server
from checks import need, told_by, try_all
from routers import Wrong
from served import require

TOP = server.HERE.parent.parent
ALERTS, DASHBOARD, PAGE = TOP / "examples/prometheus-alerts.yml", TOP / "examples/grafana.json", TOP / "docs/OPERATING.md"

# What Prometheus itself has of each exchange: whether it was scraped, and which it is.
OF_PROMETHEUS, OF_EACH = {"up"}, {"instance", "job"}

# A name of the package has its version there.
METRIC = re.compile(r"\bgonukire_[a-z][a-z_]*")
SELECTOR = re.compile(r"(?P<name>[a-zA-Z_:][\w:]*)\s*\{(?P<labels>[^}]*)\}")
LABEL = re.compile(r'(\w+)\s*(=~|!~|!=|=)\s*"([^"]*)"')
GROUPED = re.compile(r"\b(?:by|without|on|ignoring)\s*\(([^)]*)\)")
# A metric's name, where labels, times and numbers are gone. Behind a function's name stands its argument.
NAME = re.compile(r"[a-zA-Z_:][\w:]*\b(?!\s*\()")
KEYWORDS = {"and", "or", "unless", "by", "without", "on", "ignoring", "group_left", "group_right", "bool", "offset"}


class Exchange:
    """The metrics that an exchange has written: their names, and the values of each label of each."""

    def __init__(self, program):
        self.names, self.values = set(), {}
        for text in metrics_format.read_while_serving(program):
            metrics = metrics_format.Metrics()
            faults = metrics.read(text)
            require(not faults, "; ".join(faults))
            for name, labels in metrics.series:
                self.names.add(name)
                for label, value in labels:
                    self.values.setdefault((name, label), set()).add(value)

    def labels(self):
        return {label for _, label in self.values} | OF_EACH


def alert_expressions():
    """The expressions of the alerts, each of which stands on a line of its own."""
    found = re.findall(r"^\s+expr: (.+)$", ALERTS.read_text(encoding="utf-8"), re.M)
    require(len(found) == ALERTS.read_text(encoding="utf-8").count("- alert: "), "not every alert has its expression on a line")
    return found


def dashboard_expressions():
    """The expressions of the dashboard's panels."""
    read = json.loads(DASHBOARD.read_text(encoding="utf-8"))
    return [target["expr"] for panel in read["panels"] for target in panel["targets"]]


def queries():
    """By what the variables of the dashboard get their values from Prometheus."""
    read = json.loads(DASHBOARD.read_text(encoding="utf-8"))
    return [it["query"]["query"] for it in read["templating"]["list"] if it["type"] == "query"]


def names_in(expression):
    """The names of metrics in an expression."""
    bare = re.sub(r"\{[^}]*\}|\[[^]]*\]", " ", GROUPED.sub(" ", expression))
    return set(NAME.findall(re.sub(r"\b\d[\w.]*", " ", bare))) - KEYWORDS


def check_expression(exchange, expression):
    """Each metric, label and value of a label in it is one of the exchange's."""
    unknown = names_in(expression) - exchange.names - OF_PROMETHEUS
    require(not unknown, f"no exchange writes {sorted(unknown)}: {expression}")
    for selector in SELECTOR.finditer(expression):
        for label, operator, value in LABEL.findall(selector["labels"]):
            known = exchange.values.get((selector["name"], label), set())
            require(label in OF_EACH or known, f"{selector['name']} has no label {label}: {expression}")
            require(label in OF_EACH or operator in ("=~", "!~") or value in known, f"no {label} is {value!r}: {expression}")
    for group in GROUPED.findall(expression):
        unknown = set(re.findall(r"\w+", group)) - exchange.labels()
        require(not unknown, f"no metric has the labels {sorted(unknown)}: {expression}")


def alerts(exchange):
    """each alert is of metrics, labels and values that an exchange writes"""
    for it in alert_expressions():
        check_expression(exchange, it)


def dashboard(exchange):
    """each panel of the dashboard is of such metrics, and each metric of an exchange has its panel"""
    expressions = dashboard_expressions()
    for it in expressions:
        check_expression(exchange, it)
    named = set(METRIC.findall(" ".join(queries())))
    require(named and named <= exchange.names, f"a variable of the dashboard is of {sorted(named)}")
    missing = exchange.names - {name for it in expressions for name in names_in(it)}
    require(not missing, f"no panel shows {sorted(missing)}")


def page(exchange):
    """the table of OPERATING.md lists the metrics of an exchange and no other, and neither it nor the alerts name another one"""
    rows = re.findall(r"^\| `(gonukire_\w+)", PAGE.read_text(encoding="utf-8"), re.M)
    require(sorted(rows) == sorted(exchange.names), f"it differs in {sorted(set(rows) ^ exchange.names)}")
    for file in (ALERTS, PAGE):
        unknown = set(METRIC.findall(file.read_text(encoding="utf-8"))) - exchange.names
        require(not unknown, f"{file.name} names {sorted(unknown)}")


def promtool(_):
    """promtool takes the alerts, Prometheus' own file and all expressions of the dashboard, and the alerts fire when they should"""
    need("promtool")
    expressions = [it.replace("$__rate_interval", "1m") for it in dashboard_expressions()]
    with tempfile.TemporaryDirectory() as folder:
        rules = pathlib.Path(folder) / "dashboard.yml"
        records = "".join(f"      - {{record: panel_{number}, expr: {json.dumps(it)}}}\n" for number, it in enumerate(expressions))
        rules.write_text(f"groups:\n  - name: dashboard\n    rules:\n{records}")
        told_by("promtool", "check", "rules", ALERTS, rules)
        told_by("promtool", "check", "config", TOP / "examples/prometheus.yml")
        told_by("promtool", "test", "rules", server.HERE / "alerts_test.yml")


def main():
    parser = argparse.ArgumentParser(description=__doc__, formatter_class=argparse.RawDescriptionHelpFormatter)
    parser.add_argument("--xp", default=str(server.PROGRAM), help=f"the program ({server.DEFAULT})")
    try:
        exchange = Exchange(parser.parse_args().xp)
    except Wrong as wrong:
        sys.exit(f"the metrics of the exchange: {wrong}")
    try_all((alerts, dashboard, page, promtool), exchange)


if __name__ == "__main__":
    main()
