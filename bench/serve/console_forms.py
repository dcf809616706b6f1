"""What a console has to show of a status, which is its JSON: the metrics, and the tables for a terminal."""

import time

STATES = ("out of service", "ready", "DTE waiting", "DCE waiting", "data transfer", "DCE clear indication")

METRICS = (
    ("lines", "gauge", "Lines, by the state of their channel."),
    ("spare_lines", "gauge", "Places for lines that a reload may bring."),
    ("calls_live", "gauge", "Calls that have not ended."),
    ("calls_total", "counter", "Call requests, with those that were refused."),
    ("refused_total", "counter", "Call requests that were refused, by the clearing cause."),
    ("router_refusals_total", "counter", "Calls of routers that no line took, by the clearing cause."),
    ("router_failures_total", "counter", "Connections to routers that could not be made."),
    ("station_calls_total", "counter", "Ended calls, by the station that they came from or were offered to."),
    ("station_refusals_total", "counter", "Call requests that were refused, by the station that they came from."),
    ("segments_total", "counter", "Segments of ended calls, by the end that sent them."),
    ("link_octets_total", "counter", "Octets of the connections of lines."),
    ("events_total", "counter", "Events of lines."),
    ("stalls_total", "counter", "Lines taken out of service for not taking their output."),
    ("records_waiting", "gauge", "Records of ended calls that are not written yet."),
    ("partial_records", "gauge", "Calls of the run before that got a partial record."),
    ("reloads_total", "counter", "Reloads of the subscription file, by what became of them."),
)


def wanted_metrics(status):
    """The metrics of a status, of an exchange without a spare line."""
    totals, states = status["totals"], [line["state"] for line in status["lines"]]
    values = {
        "lines": [('{state="%s"}' % state, states.count(state)) for state in STATES],
        "spare_lines": [("", 0)],
        "calls_live": [("", len(status["calls"]))],
        "calls_total": [("", totals["calls"])],
        "refused_total": [('{cause="%s"}' % refused["words"], refused["count"]) for refused in totals["refused"]],
        "router_refusals_total": [('{cause="%s"}' % refused["words"], refused["count"]) for refused in totals["router_refusals"]],
        "router_failures_total": [("", totals["router_failures"])],
        "station_calls_total": [
            ('{address="%s",direction="%s"}' % (station["address"], direction), station[direction])
            for station in status["stations"] for direction in ("from", "to")
        ],
        "station_refusals_total": [('{address="%s"}' % station["address"], station["refused"]) for station in status["stations"]],
        "segments_total": [
            ('{direction="from_caller"}', totals["segments_from_callers"]), ('{direction="from_called"}', totals["segments_from_called"])
        ],
        "link_octets_total": [('{direction="received"}', totals["octets_received"]), ('{direction="sent"}', totals["octets_sent"])],
        "events_total": [("", totals["events"])],
        "stalls_total": [("", totals["stalls"])],
        "records_waiting": [("", totals["records_waiting"])],
        "partial_records": [("", totals["partial_records"])],
        "reloads_total": [('{result="%s"}' % result, status["reloads"][result]) for result in ("done", "refused")],
    }
    return "".join(
        f"# HELP gonukire_{name} {words}\n# TYPE gonukire_{name} {kind}\n"
        + "".join(f"gonukire_{name}{label} {value}\n" for label, value in values[name])
        for name, kind, words in METRICS
    )


def age(seconds):
    days, hours, minutes, seconds = seconds // 86_400, seconds // 3600 % 24, seconds // 60 % 60, seconds % 60
    return (f"{days}d " if days else "") + f"{hours}:{minutes:02}:{seconds:02}"


def row_of_line(line, moment):
    """The row of a line, with its station where that has another address, and what is told of its router."""
    number = "-" if line["call"] is None else line["call"]
    row = f"{line['name']:<16} {line['address']:<15} {line['state']:<20} {age(moment - line['since']):>10} {number:>8} {line['peer'] or '-'}"
    if line["station"] != line["address"]:
        row += f", station {line['station']}"
    since = line["router_unreachable_since"]
    if since is None:
        return row
    if moment - since >= 86_400:
        return f"{row}, router unreachable for {age(moment - since)}"
    return f"{row}, router unreachable since {time.strftime('%H:%M:%S', time.gmtime(since))}"


def wanted_table(status):
    """The tables of a status, for a terminal."""
    moment, totals = status["moment"], status["totals"]
    head = "line             address         state                       for     call peer"
    rows = [f"serving for {age(moment - status['started'])}", "", head]
    rows += [row_of_line(line, moment) for line in status["lines"]]
    rows += ["", "   call caller           called                  for  from caller  from called"]
    for live in status["calls"]:
        since = "ringing" if live["connected"] is None else age(live["seconds"])
        rows.append(f"{live['number']:>7} {live['caller']['line']:<16} {live['called']['line']:<16} {since:>10} " + segments(live))
    rows += ["", "  ended caller           called                  for  from caller  from called cause"]
    for ended in reversed(status["recent"]):
        called = ended["called"]["line"] if ended["called"] else "-"
        cleared = ended["cleared"]
        rows.append(
            f"{ended['number']:>7} {ended['caller']['line']:<16} {called:<16} {age(ended['seconds']):>10} {segments(ended)}"
            f" {cleared['cause']:02x} {cleared['diagnostic']}"
        )
    rows += [
        "",
        f"calls {totals['calls']}, refused {sum(refused['count'] for refused in totals['refused'])}, events {totals['events']},"
        f" stalls {totals['stalls']}, records waiting {totals['records_waiting']}",
        f"failed connections to routers {totals['router_failures']}",
        f"segments of ended calls from callers {totals['segments_from_callers']}, from called {totals['segments_from_called']}",
        f"octets received {totals['octets_received']}, sent {totals['octets_sent']}",
    ]
    return "\n".join(rows) + "\n"


def segments(of_call):
    return f"{of_call['segments']['from_caller']:>12} {of_call['segments']['from_called']:>12}"
