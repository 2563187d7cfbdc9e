"""COMPOUND calls and replies, those of callbacks too, operation by operation, and the bodies in them."""

from typing import NamedTuple

from .operations import BITMAP, CALLBACKS, OPERATIONS
from .rpc import CALL, REPLY
from .xdr import Unfollowable

GETDEVICEINFO, LAYOUTGET, LAYOUTRETURN = 47, 50, 51
CB_LAYOUTRECALL = 5
OF_FILE, OF_ALL = 1, 3  # what a return or a recall is of; 2 is a file system


class Body(NamedTuple):
    kind: str
    layout_type: int
    data: bytes
    facts: dict  # what the index says of this kind alone


class Asked:
    """What the reply to a call is read with."""

    def __init__(self, program):
        self.program = program
        self.is_wanted = False
        self.device_ids = {}  # by the place of a GETDEVICEINFO in the compound
        self.unanswered = {}  # by place: the facts that the operation's status belongs to


def read_layouts(cursor, place, asked):
    cursor.skip(4 + 16)  # return on close, stateid
    count = cursor.number()
    layouts = []
    for index in range(count):
        start = cursor.at
        cursor.skip(8 + 8 + 4)  # offset, length, iomode
        layout_type = cursor.number()
        cursor.opaque()
        facts = {"index_in_reply": index, "layouts_in_reply": count}
        layouts.append(Body("layout4", layout_type, cursor.data[start : cursor.at], facts))
    return layouts


def read_device_id(cursor, place, asked):
    asked.device_ids[place] = cursor.fixed(16).hex()
    cursor.walk((8, BITMAP))  # layout type, most bytes wanted, notifications
    return []


def read_device(cursor, place, asked):
    layout_type = cursor.number()
    body = cursor.opaque()
    cursor.walk(BITMAP)  # notifications
    return [Body("device_addr", layout_type, body, {"device_id": asked.device_ids.get(place)})]


def read_return(cursor, place, asked):
    cursor.skip(4)  # reclaim
    layout_type, iomode, return_type = (cursor.number() for _ in range(3))
    if not OF_FILE <= return_type <= OF_ALL:
        raise Unfollowable(f"the return type {return_type} is not known")
    if return_type != OF_FILE:
        return []
    facts = {"offset": cursor.long_number(), "length": cursor.long_number(), "iomode": iomode, "status": None}
    cursor.skip(16)  # stateid
    asked.unanswered[place] = facts
    return [Body("layoutreturn", layout_type, cursor.opaque(), facts)]


def read_recall(cursor, place, asked):
    start = cursor.at
    layout_type, iomode, changed, recall_type = (cursor.number() for _ in range(4))
    facts = {"recall_type": recall_type, "iomode": iomode, "changed": changed, "status": None}
    if not OF_FILE <= recall_type <= OF_ALL:
        raise Unfollowable(f"the recall type {recall_type} is not known")
    if recall_type == OF_FILE:
        cursor.opaque()  # filehandle
        facts.update(offset=cursor.long_number(), length=cursor.long_number())
    cursor.skip({1: 16, 2: 16, 3: 0}[recall_type])  # stateid, or file system
    asked.unanswered[place] = facts
    return [Body("cb_layoutrecall", layout_type, cursor.data[start : cursor.at], facts)]


class Program(NamedTuple):
    operations: dict
    readers: dict  # by kind of message and operation: those with a body, or with what the reply is read with
    answered: set  # operations for which a reply is read

    def name_of(self, operation):
        return self.operations[operation][0] if operation in self.operations else "unknown"


NFS = Program(
    OPERATIONS,
    {
        CALL: {GETDEVICEINFO: read_device_id, LAYOUTRETURN: read_return},
        REPLY: {LAYOUTGET: read_layouts, GETDEVICEINFO: read_device},
    },
    {LAYOUTGET, GETDEVICEINFO, LAYOUTRETURN},
)
CALLBACK = Program(CALLBACKS, {CALL: {CB_LAYOUTRECALL: read_recall}, REPLY: {}}, {CB_LAYOUTRECALL})


def fails(cursor, place, asked):
    """Whether the status here ends the compound, which its first error does. It is noted where it is wanted."""
    status = cursor.number()
    if place in asked.unanswered:
        asked.unanswered[place]["status"] = status
    return status != 0


def walk_operations(cursor, kind, asked, take):
    """Hands each operation's number, place and bodies to `take`."""
    count, program = cursor.number(), asked.program
    for place in range(count):
        operation = cursor.number()
        if kind == REPLY and fails(cursor, place, asked):
            return
        try:
            if operation in program.readers[kind]:
                take(operation, place, program.readers[kind][operation](cursor, place, asked))
                continue
            if operation not in program.operations:
                raise Unfollowable("its lengths are not known")
            cursor.walk(program.operations[operation][1 + kind])
            take(operation, place, [])
        except Unfollowable as reason:
            name = f"operation {place} (from 0, of {count}), {operation} {program.name_of(operation)}"
            raise Unfollowable(f"{name}: {reason}") from None
    if cursor.at != len(cursor.data):
        raise Unfollowable(f"{len(cursor.data) - cursor.at} bytes are left behind the compound")
