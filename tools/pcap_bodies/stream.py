"""One TCP stream: its calls, the replies to them, and the bodies in both."""

from typing import NamedTuple

from .compound import CALLBACK, NFS, Asked, Body, walk_operations
from .rpc import CALL, REPLY, RPCSEC_GSS, Losses, Record, cut_records, read_call, read_reply
from .tcp import Held, Stream
from .xdr import Unfollowable

NFS_NUMBER, NFS_VERSION, COMPOUND = 100003, 4, 1
# The client chooses the number that it is called back under, among those that are nobody's own (RFC 5531). The version
# is 1 in the definitions, 4 in the text (RFC 8881).
CALLBACK_NUMBERS, CALLBACK_VERSIONS = range(0x40000000, 0x60000000), (1, 4)
FLEX_FILES = 4
TYPED = ("layout4", "cb_layoutrecall")  # the bodies that say their layout type themselves


class Found(NamedTuple):
    """A body with the place where it stood."""

    body: Body
    stream: Stream
    way: int
    record: Record
    operation: int  # place in the compound, counted from 0


def program_of(call):
    """The program whose COMPOUND is called, or None."""
    if call.procedure != COMPOUND:
        return None
    if (call.program, call.version) == (NFS_NUMBER, NFS_VERSION):
        return NFS
    return CALLBACK if call.program in CALLBACK_NUMBERS and call.version in CALLBACK_VERSIONS else None


class StreamReader:
    """Reads one stream: first the calls of both directions, then the replies to them."""

    def __init__(self, stream, capture, say):
        self.stream, self.say = stream, say
        self.held = [Held(direction, capture) for direction in stream.directions]
        self.losses = (Losses(), Losses())
        self.calls = ({}, {})  # by direction and xid: what was asked
        self.found = []
        self.compounds = self.secured = self.unmatched = 0

    def read(self):
        replies = []
        for way in (0, 1):
            for record in cut_records(self.held[way], self.losses[way]):
                if record.kind == CALL:
                    self.follow(record, way, self.read_call)
                elif record.kind == REPLY:
                    replies.append((record, way))
        for record, way in replies:
            asked = self.calls[1 - way].get(record.xid)
            if asked is None:
                self.unmatched += 1
            elif asked.is_wanted:
                self.follow(record, way, self.read_reply)
        self.report_losses()

    def follow(self, record, way, read):
        try:
            read(record, way)
        except Unfollowable as reason:
            direction = self.stream.directions[way]
            ends = f"{direction.source} > {direction.destination}"
            self.say(f"frame {record.frame}, {ends}, xid {record.xid:08x}: cannot be followed: {reason}")

    def read_call(self, record, way):
        call = read_call(record.read(self.held[way]))
        asked = self.calls[way][record.xid] = Asked(program_of(call))
        if not asked.program:
            return
        if call.flavor == RPCSEC_GSS:
            self.secured += 1
            return
        call.cursor.opaque()  # tag
        if call.cursor.number() == 0:
            return  # minor version 0 has no layouts
        if asked.program is CALLBACK:
            call.cursor.skip(4)  # a number that only version 4.0 uses
        self.compounds += 1
        asked.is_wanted = True  # to stay so if the walk ends early
        operations = self.walk(call.cursor, record, way, asked)
        asked.is_wanted = not operations.isdisjoint(asked.program.answered)

    def read_reply(self, record, way):
        cursor = read_reply(record.read(self.held[way]))
        if cursor:
            cursor.skip(4)  # status: that of the last operation
            cursor.opaque()  # tag
            self.walk(cursor, record, way, self.calls[1 - way][record.xid])

    def walk(self, cursor, record, way, asked):
        """The operations in the compound; their bodies are kept."""
        operations = set()

        def take(operation, place, bodies):
            operations.add(operation)
            for body in bodies:
                if body.kind in TYPED or body.layout_type == FLEX_FILES:
                    self.found.append(Found(body, self.stream, way, record, place))
                else:
                    passed_over = f"a {body.kind} body of layout type {body.layout_type} is passed over"
                    self.say(f"frame {record.frame}, operation {place}: {passed_over}")

        walk_operations(cursor, record.kind, asked, take)
        return operations

    def report_losses(self):
        for losses in self.losses:
            if losses.tls_frame:
                self.say(f"{self.stream}: TLS from frame {losses.tls_frame} on, which cannot be followed")
                break
        if self.secured:
            self.say(f"{self.stream}: {self.secured} calls under RPCSEC_GSS, which cannot be followed")
        if not self.compounds:
            return
        for direction, losses in zip(self.stream.directions, self.losses):
            if losses.records or losses.stray_bytes:
                lost = f"{losses.records} records with bytes missing, {losses.stray_bytes} bytes of no record"
                self.say(f"{self.stream}, from {direction.source}: passed over {lost}")
        if self.unmatched:
            self.say(f"{self.stream}: {self.unmatched} replies passed over whose calls are not in the capture")
