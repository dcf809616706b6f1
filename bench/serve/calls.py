"""The calls of a soak, and whether the exchange's records are theirs."""

import collections
import sys

# How a call goes, and how many of a hundred go so. Orderly: one end clears when all was delivered. Abrupt: one end
# clears before. Cut: the connection of one end is cut off. Refused: the called line clears and does not accept.
PLANS = {"orderly": 82, "abrupt": 10, "cut": 3, "refused": 5}

# The most packets that an end sends.
PACKETS = 30

# Seconds by which a record may differ from what the hosts saw. Its moments are whole seconds, so that a call seems up to
# one longer or shorter, and a thread may have looked at its clock some time before it read a packet.
TOLERANCE = 2


def segments(data):
    return max(1, -(-len(data) // 64))


class Call:
    """A call as both of its ends know it. Pairs of numbers are for the caller and for the called line."""

    def __init__(self, number, caller, dialled, choose):
        self.number, self.caller, self.dialled, self.called = number, caller, dialled, None
        self.plan = choose.choices(list(PLANS), PLANS.values())[0]
        self.breaks = choose.randrange(2)  # the side that ends it before its time, where that is the plan
        self.left = [choose.randrange(PACKETS + 1) for _ in range(2)]  # packets still to be sent
        self.under_way = [collections.deque(), collections.deque()]  # the data sent and not delivered
        self.sent = [0, 0]  # segments
        self.delivered = [0, 0]  # segments
        self.before_clear = [0, 0]  # segments that the side sent and then its clear request, all of which are accepted
        self.told = None  # cause and diagnostic of the clear indication
        self.ends = 1  # lines that are in the call
        self.talking = 0  # lines that were connected
        # moments by the hosts' clock: the called line accepted, the caller heard of it, an end broke off, the last left
        self.accepted_at = self.connected_at = self.broken_at = self.left_at = None

    def accepted(self):
        """The segments that the exchange accepted for certain."""
        return [max(pair) for pair in zip(self.delivered, self.before_clear)]

    def seconds(self):
        """The fewest and the most for which the exchange had it connected."""
        if self.accepted_at is None:
            return 0, 0
        sure = self.broken_at - self.connected_at if self.connected_at and self.broken_at else 0
        return max(0, sure - TOLERANCE), self.left_at - self.accepted_at + TOLERANCE

    def lines_called(self):
        """The names that the record may give: none where the exchange refused the call."""
        if self.called:
            return [self.called.name]
        name = {"20": "a", "30": "b"}.get(self.dialled[:2])
        return ["-", f"{name}{int(self.dialled[2:])}"] if name else ["-"]

    def fits(self, record, is_stopped=False):
        """What was on its way when the far end broke the call off may or may not have been accepted, and so may be a clear request when
        the exchange was stopped, with what was sent before it."""
        least, (shortest, longest) = self.delivered if is_stopped else self.accepted(), self.seconds()
        return (
            record.dialled == self.dialled
            and record.called in self.lines_called()
            and record.payer == "caller"
            and least[0] <= record.sent <= self.sent[0]
            and least[1] <= record.received <= self.sent[1]
            and (record.cause, record.diagnostic) == (self.told or (record.cause, record.diagnostic))
            and shortest <= record.seconds <= longest
        )


def check(made, records):
    """One record for each call. A line has one call at a time, so that its calls are numbered in their order."""
    if len({record.number for record in records}) != len(made) or len(records) != len(made):
        sys.exit(f"{len(records)} records, with {len({record.number for record in records})} numbers, of {len(made)} calls")
    by_caller, found = collections.defaultdict(list), collections.defaultdict(list)
    for call in made:
        by_caller[call.caller.name].append(call)
    for record in sorted(records):
        found[record.caller].append(record)
    for name, of_line in by_caller.items():
        if len(found[name]) != len(of_line):
            sys.exit(f"{len(found[name])} records of the {len(of_line)} calls of {name}")
        for call, record in zip(of_line, found[name]):
            if not call.fits(record):
                fewest, most = call.seconds()
                sys.exit(
                    f"{record} is not of the call with {call.accepted()} to {call.sent} segments, {fewest:.1f} to {most:.1f} seconds,"
                    f" told {call.told}"
                )


def tell(made, records):
    joined = sum(call.talking == 2 for call in made)
    exact = sum(call.accepted() == call.sent for call in made)
    counted = sum(record.sent + record.received for record in records)
    print(f"{len(made):,} calls, {joined:,} of them connected: each has one record")
    print(f"{counted:,} segments recorded: as many as were sent in {exact:,} calls; in {len(made) - exact:,} calls, broken off")
    print("with data under way, no fewer than were delivered and no more than were sent")
    seconds = sum(record.seconds for record in records)
    print(f"{seconds:,} seconds recorded: of each call within {TOLERANCE} of those for which its hosts had it connected")
