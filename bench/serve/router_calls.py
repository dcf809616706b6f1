"""Calls of routers behind which several stations have lines, and an exchange over such stations: for callers.py."""

import collections
import contextlib
import dataclasses
import json
import re
import time
import urllib.request

import server
from links import peer_of
from packets import FORMATS, Block, Packet, read, written
from routers import FIRST, PATIENCE, SECOND, THIRD, Router
from served import Served, require, rest_of, until

# Seconds within which a refusal has to come, and a connection to end whose call is cleared on both sides.
AT_ONCE = 1

# An address that nobody has, and what a call to it is told; what a station is told that may not call the one that it has dialled.
NOBODY, NOT_OBTAINABLE, BARRED = "99", (0x0D, 67), (0x0B, 0)


@dataclasses.dataclass
class Line:
    """A line behind the router of this address, or else with a port of its own."""

    name: str
    router: str | None = None
    own: str = ""
    modulus: int = 8


@dataclasses.dataclass
class Station:
    """A station, with its lines and what else its table has."""

    address: str
    lines: list
    more: str = ""
    is_default: bool = False


@dataclasses.dataclass(frozen=True)
class Refusal:
    """How a call is refused that no line takes, and what is told of it."""

    cause: int
    diagnostic: int
    words: str
    text: str

    @property
    def told(self):
        return self.cause, self.diagnostic


NO_CALLER = Refusal(0x0B, 68, "access barred", "call from {} refused: no line is of its calling address")
NO_FREE_LINE = Refusal(0x01, 71, "number busy", "connection from {} refused: no line is free")

# The stations with ports: the first one is called by those of its group alone, the second one by those without groups.
INSIDE, OUTSIDE = "200001", "200002"
BANK = 'group = [{ name = "Bank", index = 1 }]\npreferential = 1\n'

# Behind the first router are three stations, one of them the default caller; behind the second one two, and behind the third one alone. The
# lowest line of all is that of a station that makes no calls: a call that gets it by mistake is barred.
STATIONS = (
    Station("300020", [Line("b0", FIRST)], "outgoing_barred = true\n"),
    Station(
        "300010",
        [Line("a0", FIRST), Line("a1", FIRST, own="300012"), Line("a2", FIRST, modulus=128), Line("a3"), Line("a4", SECOND)], BANK,
    ),
    Station("300030", [Line("c0", FIRST), Line("c1", FIRST)], is_default=True),
    Station("300040", [Line("f0", SECOND), Line("f1", SECOND, own="300041", modulus=128)]),
    Station("300060", [Line("g0", THIRD), Line("g1", THIRD, own="300061")]),
    Station(INSIDE, [Line("d")], BANK),
    Station(OUTSIDE, [Line("e")]),
)

# The stations of many calls, with more lines, so that a call of a caller mostly finds one.
MANY = tuple(
    Station(station.address, [
        Line(f"{line.name}x{number}" if line.router else line.name, line.router, line.own if number == 0 else "", line.modulus)
        for line in station.lines for number in range(4 if line.router else 1)
    ], station.more, station.is_default)
    for station in STATIONS
)

# The address of each line: its own, or else its station's.
ADDRESSES = {line.name: line.own or station.address for station in STATIONS for line in station.lines}


def lines_for(router, calling, modulus):
    """The lines that may take a call: those of its modulus, of the first rule that finds any. None where no rule does."""
    there = [(station, line) for station in MANY for line in station.lines if line.router == router]
    rules = (
        lambda station, line: calling and line.own == calling,
        lambda station, line: station.address == calling,
        lambda station, line: len({id(it) for it, _ in there}) == 1,
        lambda station, line: station.is_default,
    )
    for rule in rules:
        if found := [line for station, line in there if rule(station, line)]:
            return {line.name for line in found if line.modulus == modulus}
    return None


def text_of(stations, routers, ports):
    """The text of stations, whose lines have these routers and these ports."""
    text = ""
    for station in stations:
        tables = []
        for line in station.lines:
            where = f'router = "{line.router}:{routers[line.router].port}"' if line.router else f"port = {ports[line.name]}"
            own = f', address = "{line.own}"' if line.own else ""
            tables.append(f'{{ name = "{line.name}", {where}, modulus = {line.modulus}{own} }}')
        default = "default_caller = true\n" if station.is_default else ""
        text += f'[[station]]\naddress = "{station.address}"\n{station.more}{default}line = [{", ".join(tables)}]\n'
    return text


class Behind(Served):
    """An exchange with a console, over stations of which some have lines behind routers."""

    def __init__(self, program, folder, stations=STATIONS, host="127.0.0.1"):
        names = [line.name for station in stations for line in station.lines if not line.router]
        self.console = server.free_ports(len(names) + 2)
        xot_port = self.console + 1
        self.ports = {name: xot_port + 1 + place for place, name in enumerate(names)}
        self.routers = {address: Router(address, xot_port) for address in (FIRST, SECOND, THIRD)}
        self.refusals = collections.Counter()
        text = f'host = "{host}"\nxot_port = {xot_port}\n' + text_of(stations, self.routers, self.ports)
        super().__init__(program, folder, text, "--console", f"127.0.0.1:{self.console}")
        self.hosts = {ADDRESSES[name]: self.rise(self.ports[name]) for name in ("d", "e")}

    def __exit__(self, *gone):
        for router in self.routers.values():
            with contextlib.suppress(AttributeError, OSError):
                router.leave()
        super().__exit__(*gone)

    def asked(self, path):
        """What the console answers."""
        with urllib.request.urlopen(f"http://127.0.0.1:{self.console}/{path}", timeout=PATIENCE) as answer:
            return answer.read().decode()

    def place(self, router, calling, *more):
        """A call of a router with this calling address, which is not answered yet."""
        call = RouterCall(self.routers[router], calling, *more)
        call.put(call.request)
        self.lines.append(call.link)
        return call

    def refuses(self, call, refusal):
        """No line takes the call: it is refused, which is told."""
        call.is_refused(*refusal.told)
        self.wait_until_told(f"routers: {refusal.text.format(call.peer)}\n")
        self.refusals[refusal.words] += 1

    def holds(self, call, name, told=NOT_OBTAINABLE):
        """The line of this name takes the call, which the exchange refuses. It has the line until that is confirmed."""
        self.wait_until_told(f"line {name}: up from {call.peer}\n")
        call.is_told(told)
        return call

    def finish(self, wanted):
        """Stops it, where it has counted its refusals. Its calls have to have these records: the caller, the called line and the cause."""
        self.has_counted(self.refusals)
        require(self.end() == 0, f"it ended badly; {self.said()}")
        records = sorted(self.records())
        require([record.number for record in records] == list(range(1, len(wanted) + 1)), f"{len(wanted)} calls have {self.printed()}")
        came = [(record.caller, record.called, (record.cause, record.diagnostic)) for record in records]
        require(came == wanted, f"the records are {came} in place of {wanted}")

    def records(self):
        return [server.read_record(line.rstrip("\n")) for line in self.lines_printed]

    def has_counted(self, refusals):
        """Both forms of the console come to show these refusals of calls of routers. Those of lines are counted elsewhere."""
        until(lambda: self.counted() == (refusals, refusals), lambda: f"{self.counted()} are counted of {refusals}")

    def counted(self):
        told = json.loads(self.asked("status.json"))["totals"]["router_refusals"]
        samples = re.findall(r'^gonukire_router_refusals_total\{cause="([^"]*)"\} (\d+)$', self.asked("metrics"), re.M)
        return {it["words"]: it["count"] for it in told if it["count"]}, {words: int(count) for words, count in samples if count != "0"}


class RouterCall:
    """A call of a router, in a connection of its own."""

    def __init__(self, router, calling, dialled=NOBODY, modulus=8, identifier=1, d=False):
        self.modulus, self.identifier = modulus, identifier
        self.link = router.connect()
        self.peer = peer_of(self.link)
        self.request = self.written("call", d=d, block=Block(dialled, calling, b"", b""))

    def written(self, kind, **more):
        return server.frame(written(self.modulus, self.identifier, Packet(kind, **more)))

    def put(self, octets):
        self.link.connection.sendall(octets)
        self.put_at = time.monotonic()

    def is_refused(self, cause, diagnostic):
        """It is told this by a clear indication, to the octet, at once."""
        wanted = bytes([0, 0, 0, 5, FORMATS[self.modulus] + self.identifier // 256, self.identifier % 256, 0x13, cause, diagnostic])
        came = self.link.octets(len(wanted), PATIENCE)
        self.told_at = time.monotonic()
        require(came == wanted, f"{came.hex() or 'the end of the connection'} came in place of {wanted.hex()}")
        require(self.told_at - self.put_at < AT_ONCE, f"it was refused after {self.told_at - self.put_at:.1f} seconds")

    def expect(self, kind):
        """The next packet, which has to be of this kind."""
        octets = self.link.receive()
        require(octets, f"the connection was closed without a word, where {kind} was to come")
        identifier, packet = read(self.modulus, octets)
        require((identifier, packet.kind) == (self.identifier, kind), f"{octets.hex()} came in place of {kind}")
        return packet

    def is_told(self, told):
        packet = self.expect("clear")
        require((packet.cause, packet.diagnostic) == told, f"it is told {packet.cause:02x}/{packet.diagnostic} in place of {told}")

    def confirm(self, most=AT_ONCE):
        """The router confirms that the call is cleared: the connection ends within so many seconds."""
        self.put(self.written("clear confirmation"))
        self.ends(most=most)

    def ends(self, since=None, least=0.0, most=AT_ONCE):
        """The connection ends between so many seconds after that moment, with no further octet and no reset."""
        begun = time.monotonic() if since is None else since
        self.link.connection.settimeout(PATIENCE)
        rest = rest_of(self.link.connection)
        took = time.monotonic() - begun
        require(not rest, f"{rest.hex()} came in place of the end of the connection")
        require(least <= took <= most, f"the connection has ended after {took:.1f} seconds")
        self.link.close()
