"""The frames in a capture: of a pcap file and of a pcapng file."""

import struct
from typing import NamedTuple

from .capture import Unreadable

# A pcap file's first four bytes give the byte order; the nanosecond kinds differ only in times, which are not read.
BYTE_ORDERS = {
    b"\xd4\xc3\xb2\xa1": "<",
    b"\xa1\xb2\xc3\xd4": ">",
    b"\x4d\x3c\xb2\xa1": "<",
    b"\xa1\xb2\x3c\x4d": ">",
}
FILE_HEADER = 24
FRAME_HEADER = 16

# The blocks of a pcapng file that are read. A section has its own byte order and interfaces.
SECTION, INTERFACE, OLD_PACKET, SIMPLE_PACKET, PACKET = 0x0A0D0D0A, 1, 2, 3, 6
PCAPNG = b"\x0a\x0d\x0d\x0a"
SECTION_ORDERS = {b"\x4d\x3c\x2b\x1a": "<", b"\x1a\x2b\x3c\x4d": ">"}
BLOCK_ENDS = 12  # a block's type, and its length in front and behind


class Frame(NamedTuple):
    number: int  # from 1
    link_type: int
    start: int  # in the file
    length: int  # that the file has of it
    original: int  # that it had


def read_frames(capture, say):
    """Yields the frames of either kind of file."""
    start = capture[:4]
    if start == PCAPNG:
        return PcapngReader(capture, say).read()
    if start not in BYTE_ORDERS:
        raise Unreadable("this is not a capture: neither pcap nor pcapng")
    if len(capture) < FILE_HEADER:
        raise Unreadable("the file ends within its header")
    return read_pcap(capture, BYTE_ORDERS[start], say)


def read_pcap(capture, order, say):
    link_type = struct.unpack_from(order + "I", capture, 20)[0] & 0xFFFF
    number, at = 0, FILE_HEADER
    while at < len(capture):
        number += 1
        start = at + FRAME_HEADER
        length, original = struct.unpack_from(order + "II", capture, at + 8) if start <= len(capture) else (0, 0)
        if start + length > len(capture):
            say(f"frame {number}: the file ends within it")
            return
        yield Frame(number, link_type, start, length, original)
        at = start + length


class PcapngReader:
    def __init__(self, capture, say):
        self.capture, self.say = capture, say
        self.order = "<"
        self.interfaces = []  # (link type, most bytes kept of a frame) of each, in this section
        self.frames = 0

    def read(self):
        at = 0
        while at < len(self.capture):
            length = self.block_length(at)
            if not length:
                self.say(f"behind frame {self.frames}: the file is damaged or ends within a block")
                return
            kind = self.number(at)
            if kind == SECTION:
                self.interfaces = []
            elif kind == INTERFACE:
                self.interfaces.append((self.number(at + 8, "H"), self.number(at + 12)))
            elif kind in (OLD_PACKET, SIMPLE_PACKET, PACKET):
                self.frames += 1
                frame = self.frame_in(kind, at, length)
                if frame:
                    yield frame
                else:
                    self.say(f"frame {self.frames}: its block is damaged")
            at += length

    def number(self, at, form="I"):
        return struct.unpack_from(self.order + form, self.capture, at)[0]

    def block_length(self, at):
        """Of the block here; 0 if it is none, or not whole."""
        if at + BLOCK_ENDS > len(self.capture):
            return 0
        if self.capture[at : at + 4] == PCAPNG:
            self.order = SECTION_ORDERS.get(self.capture[at + 8 : at + 12])
            if not self.order:
                raise Unreadable(f"the pcapng section at byte {at} has no known byte order")
        length = self.number(at + 4)
        least = BLOCK_ENDS + (8 if self.number(at) == INTERFACE else 0)
        if length < least or length % 4 or at + length > len(self.capture):
            return 0
        return length

    def frame_in(self, kind, at, block):
        """The frame in a packet block, or None if its numbers do not fit the block."""
        simple = kind == SIMPLE_PACKET
        head = 12 if simple else 28
        room = block - head - 4
        interface = 0 if simple or room < 0 else self.number(at + 8, "H" if kind == OLD_PACKET else "I")
        if room < 0 or interface >= len(self.interfaces):
            return None
        link_type, kept = self.interfaces[interface]
        if simple:
            original = self.number(at + 8)
            length = min(original, room, kept or original)
        else:
            length, original = self.number(at + 20), self.number(at + 24)
        return Frame(self.frames, link_type, at + head, length, original) if length <= room else None
