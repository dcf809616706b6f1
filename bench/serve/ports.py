#!/usr/bin/env python3
"""The ports of an exchange: calls between lines of few and of many threads, connections that may not come, hosts and ports that cannot be
served, and output that fails.

README.md says what is checked.
"""

import errno
import itertools
import os
import resource
import socket

import server
from routers import CONFIRMATION, PATIENCE, XotCall
from server import CLEAR_CONFIRMATION, CLEAR_REQUEST, call_request
from served import ACCEPTED, OUT_OF_ORDER, Served, checked, refused, require, run_script, station

# What b1 gets as a1 calls it, and a1 as b1 accepts (X.25 clauses 5.2.1 and 5.2.2): addresses, packet sizes of 128, windows of 2, user data.
USER = b"\1\0\0\0"
INCOMING = bytes.fromhex("10010b 66 200002 200001 06 420707 430202") + USER
CONNECTED = bytes.fromhex("10010f 00 06 420707 430202")

# So many lines that several threads serve them, and so few that one does.
MANY, FEW = 64, 2

# Ports at which each line finds an address from which it may be connected, and others.
NAMED, UNNAMED = "127.0.0.9", "127.0.0.8"


def pair(base, lines=FEW, more=""):
    """Two lines, a1 the first and b1 the last of so many."""
    others = (station(f"30{place:04}", (f"x{place}", base + place, "")) for place in range(1, lines - 1))
    return station("200001", ("a1", base, more)) + "".join(others) + station("200002", ("b1", base + lines - 1, more))


def connection_from(address, port):
    """A connection from this address of the machine to a port."""
    is_long = ":" in address
    connection = socket.socket(socket.AF_INET6 if is_long else socket.AF_INET)
    connection.settimeout(PATIENCE)
    connection.bind((address, 0))
    connection.connect(("::1" if is_long else "127.0.0.1", port))
    return connection


def has_long_addresses():
    """Whether this machine has addresses of IPv6."""
    try:
        socket.create_server(("::1", 0), family=socket.AF_INET6).close()
    except OSError:
        return False
    return True


def comes(line, *packets):
    """These packets come next, to the octet; or the connection ends, where there are none."""
    for packet in packets:
        came = line.receive()
        require(came == packet, f"{came.hex()} came in place of {packet.hex()}")
    if not packets:
        line.ends()


def records_of(exchange):
    """What was printed, without the seconds of each call, of which it took none or one."""
    return [line.rpartition(" ")[0] for line in exchange.printed().splitlines()]


# ---- calls


def call_and_clear(exchange, a1, b1):
    a1.send(call_request("200002", user=USER))
    comes(b1, INCOMING)
    b1.send(ACCEPTED)
    comes(a1, CONNECTED)
    a1.send(CLEAR_REQUEST)
    comes(a1, CLEAR_CONFIRMATION)
    comes(b1, CLEAR_REQUEST)


def calls(program, folder):
    """A call that is cleared, and one whose called line hangs up, by one thread and by several: each octet, the records, and the end."""
    for lines in (FEW, MANY):
        base = server.free_ports(lines)
        with Served(program, folder, pair(base, lines), "--records", 2) as exchange:
            a1, b1 = exchange.rise(base), exchange.rise(base + lines - 1)
            call_and_clear(exchange, a1, b1)
            b1.send(CLEAR_CONFIRMATION)
            b1.clear()
            a1.send(call_request("200002", user=USER))
            comes(b1, INCOMING)
            b1.close()
            comes(a1, OUT_OF_ORDER)
            # With the last record that was wanted the exchange ends, and closes what is connected.
            comes(a1)
            require(exchange.end(is_asked=False) == 0, f"it ended badly; {exchange.said()}")
        wanted = ["record 1 a1 b1 200002 caller 0 0 00 0", "record 2 a1 b1 200002 caller 0 0 09 0"]
        require(records_of(exchange) == wanted, f"of {lines} lines the records are {exchange.printed()}")


def output_that_fails(program, folder):
    """An exchange whose records cannot be printed stops all lines, by one thread and by several, and ends with status 5."""
    unread, unwritten = os.pipe()
    os.close(unread)
    with open("/dev/full", "w") as full, open(unwritten, "w") as nobody_reads:
        for output, lines in ((full, FEW), (full, MANY), (nobody_reads, FEW)):
            base = server.free_ports(lines)
            with Served(program, folder, pair(base, lines), output=output) as exchange:
                a1, b1 = exchange.rise(base), exchange.rise(base + lines - 1)
                call_and_clear(exchange, a1, b1)
                comes(a1)
                comes(b1)
                status, last = exchange.end(is_asked=False), exchange.told().splitlines()[-1]
                require((status, last) == (5, "xp: output"), f"of {lines} lines it ended with status {status}; {exchange.said()}")


def output_that_ends(program, folder):
    """A reader of the records goes after the first one: the second one cannot be printed, and the exchange ends with status 5."""
    base = server.free_ports(FEW)
    read, written = os.pipe()
    with open(written, "w") as output, Served(program, folder, pair(base), output=output) as exchange:
        a1, b1 = exchange.rise(base), exchange.rise(base + 1)
        call_and_clear(exchange, a1, b1)
        b1.send(CLEAR_CONFIRMATION)
        first = b""
        while not first.endswith(b"\n"):
            first += os.read(read, 1)
        os.close(read)
        require(first.rpartition(b" ")[0] == b"record 1 a1 b1 200002 caller 0 0 00 0", f"the first record is {first}")
        b1.clear()
        call_and_clear(exchange, a1, b1)
        comes(a1)
        status, last = exchange.end(is_asked=False), exchange.told().splitlines()[-1]
        require((status, last) == (5, "xp: output"), f"it ended with status {status}; {exchange.said()}")


def at_localhost(program, folder):
    """The host `localhost` is 127.0.0.1."""
    base = server.free_ports(FEW)
    with Served(program, folder, 'host = "localhost"\n' + pair(base), "--records", 1) as exchange:
        call_and_clear(exchange, exchange.rise(base), exchange.rise(base + 1))
        require(exchange.end(is_asked=False) == 0, f"it ended badly; {exchange.said()}")
    require(records_of(exchange) == ["record 1 a1 b1 200002 caller 0 0 00 0"], f"the records are {exchange.printed()}")


# ---- what is refused

# Hosts at which the port of the line a1 is taken, and hosts that are no addresses, which are told before.
HOSTS = ("127.0.0.1", "localhost")
STRANGE_HOSTS = ("example.invalid", "")

# Sources of the line a1, with one that is none, and routers that are none.
SOURCES = (('"10.0.0"', "10.0.0"), ('["10.0.0.9", "10.0.0.999"]', "10.0.0.999"), ('["::1", "10:20"]', "10:20"), ('"10.0.0.0/33"', "10.0.0.0/33"))
ROUTERS = (("10.0.0", "10.0.0"), ("[::1::2]:1998", "::1::2"))


def in_use(port):
    """What the system tells of a port that is in use at 127.0.0.1."""
    return f"127.0.0.1:{port}: Address already in use (os error {errno.EADDRINUSE})\n"


def refused_files(port):
    """Files that cannot be served where this port is in use at 127.0.0.1, and what is told of each; first those that need no port for it."""
    behind = '[[station]]\naddress = "200004"\nline = [{ name = "z", router = "%s" }]\n'
    files = [
        (f'host = "{host}"\n' + station("200001", ("a1", port, "")), f'xp: host\nhost = "{host}": neither localhost nor an IP address\n') for host in STRANGE_HOSTS
    ]
    files += [
        (pair(server.free_ports(FEW), more=f", from = {texts}"), f'xp: from a1\nfrom = "{text}": neither an address nor a network\n') for texts, text in SOURCES
    ]
    files += [(behind % router, f'xp: router z\nrouter = "{text}": no IP address\n') for router, text in ROUTERS]
    own = server.free_ports(1)
    files.append((f"xot_port = {own}\n" + station("200001", ("a1", own, "")) + behind % "127.0.0.3", f"xp: xot_port\nport {own} is that of line a1 too\n"))
    ports = [(f'host = "{host}"\n' + station("200001", ("a1", port, "")), "xp: port a1\n" + in_use(port)) for host in HOSTS]
    ports.append((f"xot_port = {port}\n" + behind % "127.0.0.3", "xp: xot_port\n" + in_use(port)))
    return files, ports


def refusals(program, folder):
    """What cannot be served is told, and which, where and why, with status 5; `check` tells the same, with --serve or --ports, before."""
    with socket.create_server(("127.0.0.1", 0)) as taken:
        port = taken.getsockname()[1]
        files, ports = refused_files(port)
        for text, told in files + ports:
            words = ["--ports"] if (text, told) in ports else ["--serve"]
            run, looked_at = refused(program, folder, text), checked(program, folder, text, *words)
            require(run == looked_at == (5, "", told), f"{text} ends with {run}, and as it is checked with {looked_at}, in place of {told}")
        for text, _ in ports:
            run = checked(program, folder, text, "--serve")
            require((run[0], run[2]) == (0, ""), f"{text} ends with {run} without a look at its ports")
    for text, _ in ports:
        run = checked(program, folder, text, "--ports")
        require((run[0], run[2]) == (0, ""), f"{text} ends with {run} where its ports are free")


def strangers(program, folder):
    """A connection from an address that a line does not name is closed at once and told; one from a named address makes the line up."""
    base = server.free_ports(FEW)
    with Served(program, folder, pair(base, more=f', from = ["{NAMED}", "::1"]')) as exchange:
        for place, name in enumerate(("a1", "b1")):
            stranger = exchange.connect(base + place, UNNAMED)
            peer = "%s:%d" % stranger.getsockname()
            XotCall(stranger).ends()
            exchange.wait_until_told(f"line {name}: connection from {peer} refused\n")
            require(f"line {name}: up" not in exchange.told(), f"the stranger has the line {name}; {exchange.said()}")
            known = connection_from(NAMED, base + place)
            peer = "%s:%d" % known.getsockname()
            line = XotCall(known)
            line.clear()
            exchange.wait_until_told(f"line {name}: up from {peer}\n")
            line.close()
            exchange.wait_until_told(f"line {name}: down: closed by the peer\n")
        require(exchange.end() == 0, f"it ended badly; {exchange.said()}")
        require(exchange.told().count("stopping: standard input has ended\n") == 1, exchange.said())


# Sources of a line, and the addresses from which it may be connected and from which it may not. Of a network these are the first and the
# last one, and those beside them; bits behind the prefix mean nothing. Where the only address of IPv6 is ::1, the networks lie around it.
SOURCES_OF = (
    ('["127.0.0.9", "::1", "::ffff:127.0.0.7"]', ("127.0.0.9", "127.0.0.7", "::1"), ("127.0.0.8",)),
    ('"127.0.0.9"', ("127.0.0.9",), ("127.0.0.8", "127.0.0.10", "::1")),
    ('"::127.0.0.9"', (), ("127.0.0.9",)),
    ('"127.64.0.0/10"', ("127.64.0.1", "127.127.255.255"), ("127.63.255.255", "127.128.0.0", "::1")),
    ('"127.1.2.99/27"', ("127.1.2.96", "127.1.2.127"), ("127.1.2.95", "127.1.2.128")),
    ('"127.0.0.9/32"', ("127.0.0.9",), ("127.0.0.8", "127.0.0.10")),
    ('"0.0.0.0/0"', ("127.0.0.1", "127.255.255.254"), ("::1",)),
    ('"128.0.0.0/1"', (), ("127.255.255.254", "::1")),
    ('"::/0"', ("::1",), ("127.0.0.9",)),
    ('"::/32"', ("::1",), ("127.0.0.9",)),
    ('"0:0:1:2::3/32"', ("::1",), ()),
    ('"0:1::/32"', (), ("::1",)),
    ('"::/127"', ("::1",), ()),
    ('"::2/127"', (), ("::1",)),
    ('"::2/126"', ("::1",), ()),
    ('"::1/128"', ("::1",), ()),
    ('"::/128"', (), ("::1",)),
    ('"::2/128"', (), ("::1",)),
    ('["10.0.0.1", "10.0.0.2", "10.0.0.3", "10.0.0.4", "10.0.0.5", "10.0.0.6", "10.0.0.7", "127.0.0.9"]', ("127.0.0.9",), ("127.0.0.8",)),
)


def sources(program, folder):
    """Lines take connections from the addresses and networks that they name, by IPv4 and by IPv6, and by no others."""
    # An exchange at :: has the addresses of IPv4 as ::ffff:127.0.0.9.
    hosts = ("127.0.0.1", "::") if has_long_addresses() else ("127.0.0.1",)
    if len(hosts) == 1:
        print("sources: by IPv6: left out: this machine has no ::1", flush=True)
    for host in hosts:
        base = server.free_ports(len(SOURCES_OF))
        stations = (station(f"20{place:04}", (f"a{place}", base + place, f", from = {texts}")) for place, (texts, _, _) in enumerate(SOURCES_OF))
        with Served(program, folder, f'host = "{host}"\n' + "".join(stations)) as exchange:
            exchange.wait_until_told("serving ")
            for place, (texts, named, unnamed) in enumerate(SOURCES_OF):
                for address in filter(lambda it: host == "::" or ":" not in it, named + unnamed):
                    line = XotCall(connection_from(address, base + place))
                    if address in named:
                        line.clear()
                        line.close()
                    else:
                        require(line.receive() == b"", f"a line at {host} with from = {texts} has a connection from {address}")
            require(exchange.end() == 0, f"it ended badly; {exchange.said()}")


def first_and_last_lines(program, folder):
    """The log begins with what is served, and where, and it tells by what the exchange is stopped."""
    base = server.free_ports(MANY + 1)
    behind = '[[station]]\naddress = "200004"\nline = [{ name = "z", router = "127.0.0.3" }]\n'
    one = f"xot_port = {base}\n" + station("200001", ("a1", base + 1, "")) + behind
    several = [
        (pair(base), (), f"2 lines at 127.0.0.1, on ports {base} to {base + 1}; records on standard output"),
        (pair(base, MANY), ("--cdr", f"{folder}/calls.csv"), f"{MANY} lines at 127.0.0.1, on ports {base} to {base + MANY - 1}; records in {folder}/calls.csv"),
        (one, (), f"2 lines at 127.0.0.1, on port {base + 1}, routers on port {base}; records on standard output"),
    ]
    for (text, words, told), signal in zip(several, ("TERM", "INT", "HUP"), strict=True):
        with Served(program, folder, text, *words) as exchange:
            exchange.wait_until_told("serving ")
            exchange.process.stdin.write(f"{signal}\n")
            require(exchange.end() == 0, f"it ended badly; {exchange.said()}")
        first, last = exchange.lines_told[0], exchange.lines_told[-1]
        require(first.endswith(f" serving {told}\n"), f"its log begins with {first}")
        require(last.endswith(f" stopping: SIG{signal}\n"), f"its log ends with {last}")


def quiet(program, folder):
    """With `--quiet` facts are not told."""
    base = server.free_ports(FEW)
    with Served(program, folder, pair(base), "--quiet") as exchange:
        exchange.rise(base).close()
        require((exchange.end(), exchange.told()) == (0, ""), f"it has told something; {exchange.said()}")


def next_descriptor(pid):
    """The descriptor that the system gives to a process next."""
    used = {int(name) for name in os.listdir(f"/proc/{pid}/fd")}
    return next(number for number in itertools.count() if number not in used)


def no_descriptors(program, folder):
    """A line and the routers' port for whose connections there are no descriptors are told, and told again when they work."""
    base = server.free_ports(FEW + 1)
    text = f"xot_port = {base + FEW}\n" + pair(base) + '[[station]]\naddress = "200004"\nline = [{ name = "z", router = "127.0.0.3" }]\n'
    with Served(program, folder, text) as exchange:
        exchange.rise(base).close()
        exchange.wait_until_told("line a1: down: closed by the peer\n")
        pid, most = exchange.process.pid, resource.prlimit(exchange.process.pid, resource.RLIMIT_NOFILE)
        resource.prlimit(pid, resource.RLIMIT_NOFILE, (next_descriptor(pid), most[1]))
        line, router = (XotCall(connection_from(source, port)) for source, port in (("127.0.0.1", base), ("127.0.0.3", base + FEW)))
        # A connection of a router has a line with its first frame.
        router.send(CLEAR_REQUEST)
        exchange.wait_until_told("line a1: port fails: no connection can be accepted\n")
        exchange.wait_until_told("routers: port fails: no connection can be accepted\n")
        resource.prlimit(pid, resource.RLIMIT_NOFILE, most)
        exchange.wait_until_told("line a1: port works again\n")
        exchange.wait_until_told("routers: port works again\n")
        exchange.wait_until_told("line a1: up from 127.0.0.1:%d\n" % line.connection.getsockname()[1])
        exchange.wait_until_told("line z: up from 127.0.0.3:%d\n" % router.connection.getsockname()[1])
        line.clear()
        line.close()
        router.expect(CONFIRMATION)
        router.ends()
        require(exchange.told().count("port fails") == 2, f"it is not told once; {exchange.said()}")
        require(exchange.end() == 0, f"it ended badly; {exchange.said()}")


CHECKS = (calls, output_that_fails, output_that_ends, at_localhost, refusals, strangers, sources, first_and_last_lines, quiet, no_descriptors)


if __name__ == "__main__":
    run_script(__doc__, CHECKS)
