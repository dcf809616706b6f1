"""An exchange whose subscription file is written anew while it serves, so that lines come and go: for reload_lines.py and moving_ports.py."""

import csv
import dataclasses
import http.client
import json
import os
import pathlib
import re
import socket
import tempfile

import server
from router_calls import RouterCall
from routers import ACCEPTED, CALL, CLEAR, CONFIRMATION, FIRST, PATIENCE, Router, XotCall
from server import CLEAR_CONFIRMATION, call_request
from served import Served, answer_to_reload, require, until

LETTERS = "abcdefghrsyz"

# The address of the station of a line, by the first letter of its name.
ADDRESSES = {letter: f"{20000 + place:05}1" for place, letter in enumerate(LETTERS)}

# How many places are reserved where a check names no others.
PLACES = "spare_lines = 4\nspare_lines_128 = 1\n"


@dataclasses.dataclass(frozen=True)
class Own:
    """A station whose line has a port: that of this letter, or else of its name."""

    name: str
    rest: str = ""
    more: str = ""
    address: str = ""
    port: str = ""

    def text(self, exchange):
        port = exchange.port(self.port or self.name)
        address = self.address or ADDRESSES[self.name[0]]
        return f'[[station]]\naddress = "{address}"\n{self.more}line = [{{ name = "{self.name}", port = {port}{self.rest} }}]\n'


@dataclasses.dataclass(frozen=True)
class Behind:
    """A station whose lines are behind the router."""

    names: tuple
    router: str
    address: str
    is_default: bool

    def text(self, _):
        lines = ", ".join(f'{{ name = "{name}", router = "{self.router}" }}' for name in self.names)
        return f'[[station]]\naddress = "{self.address}"\ndefault_caller = {str(self.is_default).lower()}\nline = [{lines}]\n'


def own(name, rest="", more="", address="", port=""):
    return Own(name, rest, more, address, port)


def plain(*names):
    """A station for each of these lines."""
    return tuple(map(own, names))


def behind_router(exchange, *names, address="", is_default=False):
    router = exchange.router(FIRST)
    return Behind(names, f"{router.address}:{router.port}", address or ADDRESSES[names[0][0]], is_default)


class Long:
    """An end of a line of modulo 128, as `XotCall` is of one of modulo 8: its packets differ in the first octet."""

    def __init__(self, link):
        self.link = link

    def send(self, packet):
        self.link.send(bytes([packet[0] & 0xCF | 0x20]) + packet[1:])

    def expect(self, kind):
        packet = self.link.expect(kind)
        require(packet[0] & 0x30 == 0x20, f"{packet.hex()} is no packet modulo 128")
        return packet

    def accept(self):
        self.send(b"\x10\x01\x0f")

    def cleared(self):
        packet = self.expect(CLEAR)
        self.send(CLEAR_CONFIRMATION)
        return packet[3], packet[4]

    def ends(self):
        self.link.ends()


def connected(caller, called, number):
    """The caller calls a number, and the called line answers."""
    caller.send(call_request(number))
    called.expect(CALL)
    called.accept()
    caller.expect(ACCEPTED)


def lives(caller, called):
    """Both ends of a call have the other reset it: a call whose lines are there goes on so."""
    for one, other in ((caller, called), (called, caller)):
        one.send(bytes.fromhex("10011b0000"))
        one.expect(0x1F)
        other.expect(0x1B)
        other.send(bytes.fromhex("10011f"))


class Changing(Served):
    """An exchange with a console, over these stations, with spare places. The line of each letter has a port of its own."""

    def __init__(self, program, folder, stations, places=PLACES, words=()):
        self.folder = pathlib.Path(tempfile.mkdtemp(dir=folder))
        self.base = server.free_ports(len(LETTERS) + 2)
        self.console, self.xot_port = self.base + len(LETTERS), self.base + len(LETTERS) + 1
        self.places, self.routers = places, {}
        self.path, self.records_path = self.folder / "subscriptions.toml", self.folder / "calls.csv"
        super().__init__(program, self.folder, self.text(stations), "--console", f"127.0.0.1:{self.console}", "--cdr", self.records_path, *words)

    def __exit__(self, *gone):
        for router in self.routers.values():
            router.leave()
        super().__exit__(*gone)

    def text(self, stations):
        return f"xot_port = {self.xot_port}\n{self.places}" + "".join(it.text(self) for it in stations)

    def port(self, name):
        return self.base + LETTERS.index(name[0])

    def router(self, address):
        """The router at this address, which listens from the first time on that it is asked for."""
        if address not in self.routers:
            self.routers[address] = Router(address, self.xot_port)
            self.routers[address].listen()
        return self.routers[address]

    # ---- reloads

    def reload(self, stations):
        """Has it read its file, which has these stations now. Returns the status and the text of the answer."""
        self.path.write_text(self.text(stations), encoding="ascii")
        return answer_to_reload(self.console)

    def comes(self, *stations, new=0, gone=0):
        """These stations come into force, with so many new lines, and so many that are gone."""
        status, told = self.reload(stations)
        counted = {what: int(count) for count, what in re.findall(r"(\d+) lines? (new|gone)", told)}
        require(status == 200 and told.startswith("reloaded: "), f"a reload is answered {status}: {told}")
        require((counted.get("new", 0), counted.get("gone", 0)) == (new, gone), f"{new} lines come and {gone} go, and it tells: {told}")

    def changes(self, *stations):
        """These stations come into force, of the same lines."""
        self.comes(*stations)

    def refuses(self, *stations, told):
        """These stations are refused, which is told so."""
        status, text = self.reload(stations)
        require(status == 409 and told in text, f"a reload is answered {status}: {text}, where {told} is due")

    # ---- lines

    def rise_of(self, name, modulus=8):
        """The line of this name, connected."""
        if modulus == 8:
            return self.rise(self.port(name))
        line = Long(XotCall(self.connect(self.port(name))))
        self.lines.append(line.link)
        line.send(server.CLEAR_REQUEST)
        line.expect(CONFIRMATION)
        return line

    def rise_all(self, *names):
        return [self.rise_of(name) for name in names]

    def takes(self, name):
        """Whether the port of a line takes connections."""
        with socket.socket() as tried:
            return tried.connect_ex(("127.0.0.1", self.port(name))) == 0

    def is_closed(self, name):
        """The port of a line is closed soon."""
        until(lambda: not self.takes(name), f"the port of {name} is open still")

    def call(self, caller, called, number):
        """A whole call, which the caller clears."""
        connected(caller, called, number)
        caller.clear()
        require(called.cleared() == (0, 0), "a call is cleared otherwise")

    def is_told(self, caller, number, wanted):
        """A call that the exchange refuses so."""
        caller.send(call_request(number))
        told = caller.cleared()
        require(told == wanted, f"a call to {number} is told {told} in place of {wanted}")

    def place(self, router, calling, dialled):
        """A call of a router."""
        call = RouterCall(router, calling, dialled)
        call.put(call.request)
        self.lines.append(call.link)
        return call

    # ---- what it shows

    def asked(self, path):
        connection = http.client.HTTPConnection("127.0.0.1", self.console, timeout=PATIENCE)
        try:
            connection.request("GET", path)
            return connection.getresponse().read().decode()
        finally:
            connection.close()

    def shows(self, *names):
        """The console comes to show these lines and no others."""
        until(lambda: self.shown() == sorted(names), lambda: f"the console shows {self.shown()} in place of {sorted(names)}")

    def shown(self):
        return sorted(line["name"] for line in json.loads(self.asked("/status.json"))["lines"])

    def has_spare(self, count):
        """The metrics come to have so many spare places."""
        until(lambda: self.spare() == str(count), lambda: f"the metrics have {self.spare()} spare places in place of {count}")

    def spare(self):
        found = re.search(r"^gonukire_spare_lines (\d+)$", self.asked("/metrics"), re.M)
        return found and found[1]

    def open_files(self):
        return len(os.listdir(f"/proc/{self.process.pid}/fd"))

    def ends_with(self, *records):
        """It ends, and its calls have these records, in this order: the caller, the called line, and the cause with the diagnostic."""
        require(self.end() == 0, f"it ended badly; {self.said()}")
        with open(self.records_path, newline="", encoding="ascii") as file:
            came = [(it["caller_line"], it["called_line"], (int(it["cause"], 16), int(it["diagnostic"]))) for it in csv.DictReader(file)]
        require(came == list(records), f"the records are {came} in place of {list(records)}")
