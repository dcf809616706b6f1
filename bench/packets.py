"""Packets of X.25 (clause 5, modulo 8 and 128) and their octets, for the model: docs/FORMATS.md."""

from collections import namedtuple

Packet = namedtuple(
    "Packet",
    "kind q d more ps pr cause diagnostic octets block",
    defaults=(False, False, False, 0, 0, 0, None, b"", None),
)
Block = namedtuple("Block", "called calling facilities user")

TYPES = {
    "call": 0x0B,
    "accepted": 0x0F,
    "clear": 0x13,
    "clear confirmation": 0x17,
    "interrupt": 0x23,
    "interrupt confirmation": 0x27,
    "reset": 0x1B,
    "reset confirmation": 0x1F,
}
FLOW_TYPES = {"ready": 0x01, "not ready": 0x05, "reject": 0x09}
FORMATS = {8: 0x10, 128: 0x20}  # bits 6 and 5 of the first octet


class Wrong(Exception):
    """Octets that are no packet, with the diagnostic."""

    def __init__(self, diagnostic):
        self.diagnostic = diagnostic


def packed(digits):
    """Digits as half-octets, filled with zero."""
    return bytes.fromhex(digits + "0" * (len(digits) % 2))


def written(modulus, identifier, packet):
    """The octets of a packet to a line of this modulus."""
    head = bytes([FORMATS[modulus] | packet.q << 7 | packet.d << 6 | identifier >> 8, identifier & 0xFF])
    kind, block = packet.kind, b""
    if packet.block:
        called, calling, facilities, user = packet.block
        block = bytes([len(calling) << 4 | len(called)]) + packed(called + calling) + bytes([len(facilities)]) + facilities + user
    if kind == "data" or kind in FLOW_TYPES:
        return head + numbers_written(modulus, packet) + packet.octets
    causes = b""
    if kind in ("clear", "reset"):
        causes = bytes([packet.cause]) + (b"" if packet.diagnostic is None else bytes([packet.diagnostic]))
    return head + bytes([TYPES[kind]]) + causes + packet.octets + block


def numbers_written(modulus, packet):
    """The type and the numbers of a packet that has numbers."""
    ps, pr, more, kind = packet.ps, packet.pr, packet.more, FLOW_TYPES.get(packet.kind, 0)
    if modulus == 128:
        return bytes([ps << 1 | kind, pr << 1 | more])
    return bytes([pr << 5 | more << 4 | ps << 1 | kind])


def framed(octets):
    """A packet as a frame (RFC 1613)."""
    return b"\0\0" + len(octets).to_bytes(2, "big") + octets


def read_block(octets, most_user):
    called, calling = octets[0] & 0xF, octets[0] >> 4
    end = 1 + (called + calling + 1) // 2
    digits = octets[1:end].hex()
    if end > len(octets) or not (digits + "0").isdecimal() or digits[called + calling :] not in ("", "0"):
        raise Wrong(67)
    rest = octets[end:] or b"\0"
    if rest[0] > 109 or rest[0] >= len(rest):
        raise Wrong(69)
    facilities, user = rest[1 : 1 + rest[0]], rest[1 + rest[0] :]
    if len(user) > most_user:
        raise Wrong(39)
    return Block(digits[:called], digits[called : called + calling], facilities, user)


def read(modulus, octets):
    """The identifier and the packet that octets of a line of this modulus are."""
    if len(octets) < 3:
        raise Wrong(38)
    first, number, kind = octets[:3]
    q, d, rest = bool(first & 0x80), bool(first & 0x40), octets[3:]
    if first & 0x30 != FORMATS[modulus] or q and kind % 2 or d and kind % 2 and kind not in (0x0B, 0x0F):
        raise Wrong(40)
    numbered = read_long if modulus == 128 else read_eight
    return (first & 0xF) << 8 | number, numbered(kind, q, d, rest) or read_typed(kind, d, rest)


def read_eight(kind, q, d, rest):
    """A packet that has numbers modulo 8."""
    if kind % 2 == 0:
        return short(rest, 1024, Packet("data", q=q, d=d, more=bool(kind & 0x10), ps=kind >> 1 & 7, pr=kind >> 5, octets=rest))
    name = next((name for name, octet in FLOW_TYPES.items() if octet == kind & 0x1F), None)
    return short(rest, 0, Packet(name, pr=kind >> 5)) if name else None


def read_long(kind, q, d, rest):
    """A packet that has numbers modulo 128: P(R) is in octet 4."""
    name = next((name for name, octet in FLOW_TYPES.items() if octet == kind), None)
    if not rest and (kind % 2 == 0 or name):
        raise Wrong(38)
    if kind % 2 == 0:
        packet = Packet("data", q=q, d=d, more=bool(rest[0] & 1), ps=kind >> 1, pr=rest[0] >> 1, octets=rest[1:])
        return short(packet.octets, 1024, packet)
    return short(rest, 1, Packet(name, pr=rest[0] >> 1)) if name else None


def read_typed(kind, d, rest):
    """A packet without numbers."""
    name = next((name for name, octet in TYPES.items() if octet == kind), None)
    if name is None:
        raise Wrong(33)
    if name in ("call", "clear", "interrupt", "reset") and not rest:
        raise Wrong(38)
    if name == "interrupt":
        return short(rest, 32, Packet(name, octets=rest))
    if name in ("clear", "reset"):
        packet = Packet(name, cause=rest[0], diagnostic=rest[1] if len(rest) > 1 else None)
        block = read_block(rest[2:], 128) if name == "clear" and len(rest) > 2 else None
        return packet._replace(block=block) if name == "clear" else short(rest, 2, packet)
    if name in ("call", "accepted", "clear confirmation"):
        return Packet(name, d=d, block=read_block(rest, 0 if name == "clear confirmation" else 128) if rest else None)
    return short(rest, 0, Packet(name))


def short(rest, most, packet):
    if len(rest) > most:
        raise Wrong(39)
    return packet
