"""RPC records (RFC 5531) in the bytes of a TCP direction, and the headers of calls and replies."""

import re
import struct
from bisect import bisect_right
from typing import NamedTuple

from .xdr import Cursor, opaque

CALL, REPLY = 0, 1
RPC_VERSION = 2
LAST_FRAGMENT = 1 << 31
# Above what NFS uses; bytes that would need more are taken for something else.
RECORD_LIMIT = 1 << 24
FRAGMENTS_LIMIT = 4096
AUTH_LIMIT = 400
RPCSEC_GSS = 6

# A record mark, an xid, and a call of RPC version 2 or an accepted reply.
RECORD_START = re.compile(
    rb"(?=[\x00\x80][\x00-\xff]{7}(?:\x00\x00\x00\x00\x00\x00\x00\x02|\x00\x00\x00\x01\x00\x00\x00\x00))"
)
RECORD_START_LENGTH = 16
WINDOW = 1 << 20
TLS_RECORD_LIMIT = (1 << 14) + 2048


class Record(NamedTuple):
    position: int  # of its first record mark, in its direction
    frame: int  # in which it is complete
    delivered: int  # the frame that completes it and all before it
    xid: int
    kind: int
    fragments: list  # (position, length) of each

    def read(self, held):
        return b"".join(held.read(*fragment) for fragment in self.fragments)


class Losses:
    """What of a direction could not be followed."""

    def __init__(self):
        self.records = 0  # with bytes missing
        self.stray_bytes = 0  # that belong to no record
        self.tls_frame = None


def numbers_at(held, position, count):
    data = held.read(position, 4 * count)
    return None if data is None else struct.unpack(f">{count}I", data)


def starts_record(held, position):
    """Whether a call or reply can start here; where the bytes to tell by are not held, it can."""
    mark = numbers_at(held, position, 1)
    if mark is None:
        return True
    length = mark[0] % LAST_FRAGMENT
    if not length or length > RECORD_LIMIT:
        return False
    head = numbers_at(held, position + 4, min(3, length // 4))
    if head is None or len(head) < 3:
        return True
    return head[2] == RPC_VERSION if head[1] == CALL else head[1] == REPLY and head[2] in (0, 1)


def surely_starts_record(held, position):
    """As `starts_record`, for a place that was only found by its look."""
    head = numbers_at(held, position, 6)
    if head is None or not starts_record(held, position):
        return False
    length = head[0] % LAST_FRAGMENT
    if head[2] == CALL:
        call = numbers_at(held, position + 20, 4)  # version, procedure, flavor and length of the credential
        if call is None or length < 40 or call[0] > 255 or call[1] > 255 or call[3] > AUTH_LIMIT:
            return False
    elif length < 24 or head[5] > AUTH_LIMIT:
        return False
    return not head[0] & LAST_FRAGMENT or starts_record(held, position + 4 + length)


def find_record(held, position):
    """The next place from `position` on where a record surely starts, or None."""
    while position is not None:
        end = held.run_end(position)
        while position < end:
            window = held.read(position, min(WINDOW, end - position))
            for match in RECORD_START.finditer(window):
                if surely_starts_record(held, position + match.start()):
                    return position + match.start()
            if position + WINDOW >= end:
                break
            position += WINDOW - RECORD_START_LENGTH + 1
        position = held.next_held(end)
    return None


def is_tls(held, position):
    """Whether a TLS record starts here, and another behind it if that is held."""
    for first in (True, False):
        head = held.read(position, 5)
        if head is None:
            return not first
        length = struct.unpack(">H", head[3:])[0]
        if not (20 <= head[0] <= 23 and head[1] == 3 and head[2] <= 4 and 0 < length <= TLS_RECORD_LIMIT):
            return False
        position += 5 + length
    return True


def tls_frame(held, position):
    """The frame in which TLS starts at `position`, or at one of the next segments: it may be cut into there."""
    place = bisect_right(held.piece_starts, position)
    for start in [position] + held.piece_starts[place : place + 100]:
        if is_tls(held, start):
            return held.frame_of(start, 1)
    return None


def fragments_from(held, position):
    """The fragments (position, length) of the record here, and whether all record marks were held."""
    fragments, total = [], 0
    while True:
        mark = numbers_at(held, position, 1)
        if mark is None:
            return fragments, False
        length = mark[0] % LAST_FRAGMENT
        total += length
        if total > RECORD_LIMIT or len(fragments) == FRAGMENTS_LIMIT:
            return fragments, False
        fragments.append((position + 4, length))
        position += 4 + length
        if mark[0] & LAST_FRAGMENT:
            return fragments, True


def whole_record(held, position, fragments, delivered):
    """The record if all its bytes are held, else None."""
    if any(place + length > held.run_end(place) for place, length in fragments):
        return None
    end = sum(fragments[-1])
    frame = held.frame_of(position, end - position)
    record = Record(position, frame, max(frame, delivered), 0, 0, fragments)
    head = record.read(held)[:8] if fragments[0][1] < 8 else held.read(fragments[0][0], 8)
    xid, kind = struct.unpack(">II", head) if len(head) == 8 else (0, None)
    return record._replace(xid=xid, kind=kind)


def cut_records(held, losses):
    """Yields the whole records of a direction in their order, and counts what is left out."""
    expected = 0 if held.from_syn else None  # where a record starts, if that is known
    position, delivered = held.next_held(0), 0
    while position is not None:
        if position != expected or not starts_record(held, position):
            found = None if is_tls(held, position) else find_record(held, position)
            if found is None:
                losses.stray_bytes += held.runs[-1][1] - position
                losses.tls_frame = tls_frame(held, position)
                return
            losses.stray_bytes += found - position
            position = found
        fragments, marks_held = fragments_from(held, position)
        record = whole_record(held, position, fragments, delivered) if marks_held else None
        if record:
            delivered = record.delivered
            yield record
        else:
            losses.records += 1
        end = sum(fragments[-1]) if fragments else position + 1
        expected = end if marks_held else None
        position = held.next_held(end)


class Call(NamedTuple):
    program: int
    version: int
    procedure: int
    flavor: int
    cursor: Cursor  # at the arguments


def read_call(data):
    cursor = Cursor(data)
    cursor.skip(12)
    program, version, procedure, flavor = (cursor.number() for _ in range(4))
    cursor.walk((opaque, 4, opaque))  # credential and verifier
    return Call(program, version, procedure, flavor, cursor)


def read_reply(data):
    """A cursor at the results, or None if the reply has none."""
    cursor = Cursor(data)
    cursor.skip(8)
    if cursor.number() != 0:
        return None  # denied
    cursor.skip(4)
    cursor.opaque()
    return cursor if cursor.number() == 0 else None
