"""The TCP segment in each frame, through the link and IP headers."""

import ipaddress
import struct
from typing import NamedTuple

from .capture import Unreadable
from .frames import read_frames

HEADERS_READ = 512  # of a frame: link, IP and TCP headers are expected within these bytes

IPV4, IPV6 = 0x0800, 0x86DD
VLAN_TAGS = (0x8100, 0x88A8, 0x9100)
TCP = 6
FRAGMENT, AUTHENTICATION = 44, 51
EXTENSION_HEADERS = (0, 43, FRAGMENT, AUTHENTICATION, 60, 135)
SYN = 2


class Endpoint(NamedTuple):
    address: bytes
    port: int

    def __str__(self):
        address = ipaddress.ip_address(self.address)
        return f"[{address}]:{self.port}" if address.version == 6 else f"{address}:{self.port}"


class Segment(NamedTuple):
    frame: int
    source: Endpoint
    destination: Endpoint
    sequence: int
    syn: bool
    start: int  # of the payload, in the file
    end: int
    missing: int  # bytes of the payload that the file does not have


def short_at(head, at):
    return struct.unpack_from(">H", head, at)[0]


def past_tags(head, protocol, at):
    """Where the IP header starts, or None if the frame carries something else."""
    while protocol in VLAN_TAGS:
        protocol, at = short_at(head, at + 2), at + 4
    return at if protocol in (IPV4, IPV6) else None


LINK_TYPES = {
    0: lambda head: 4,  # loopback: the address family, in the byte order of some host
    108: lambda head: 4,  # OpenBSD's loopback
    1: lambda head: past_tags(head, short_at(head, 12), 14),  # Ethernet
    113: lambda head: past_tags(head, short_at(head, 14), 16),  # Linux cooked
    276: lambda head: past_tags(head, short_at(head, 0), 20),  # Linux cooked, version 2
}
LINK_TYPES.update({raw_ip: lambda head: 0 for raw_ip in (12, 14, 101, 228, 229)})


def ipv4_parts(head, at, frame_length):
    """Source, destination, start of the payload, end of the packet; None if it is not TCP."""
    total = short_at(head, at + 2) or frame_length - at  # 0: segmented by the network card later
    if head[at + 9] != TCP or short_at(head, at + 6) & 0x3FFF:
        return None
    return head[at + 12 : at + 16], head[at + 16 : at + 20], at + (head[at] & 15) * 4, at + total


def ipv6_parts(head, at, frame_length):
    """As `ipv4_parts`."""
    end = at + 40 + short_at(head, at + 4) if short_at(head, at + 4) else frame_length
    source, destination = head[at + 8 : at + 24], head[at + 24 : at + 40]
    following, at = head[at + 6], at + 40
    while following in EXTENSION_HEADERS:
        if following == FRAGMENT and short_at(head, at + 2) & 0xFFF9:
            return None
        unit, first = (4, 2) if following == AUTHENTICATION else (8, 1)
        length = 8 if following == FRAGMENT else (head[at + 1] + first) * unit
        following, at = head[at], at + length
    return (source, destination, at, end) if following == TCP else None


def segment_in(head, at, frame):
    """The TCP segment in the IP packet at `at`, or None."""
    parts = {4: ipv4_parts, 6: ipv6_parts}.get(head[at] >> 4)
    parts = parts and parts(head, at, max(frame.length, frame.original))
    if not parts:
        return None
    source, destination, tcp, packet_end = parts
    source_port, destination_port, sequence = struct.unpack_from(">HHI", head, tcp)
    payload = tcp + (head[tcp + 12] >> 4) * 4
    # Behind the packet there may be padding; before its end the frame may be cut off.
    payload_end = max(payload, min(packet_end, frame.length))
    return Segment(
        frame.number,
        Endpoint(source, source_port),
        Endpoint(destination, destination_port),
        sequence,
        bool(head[tcp + 13] & SYN),
        frame.start + payload,
        frame.start + payload_end,
        max(0, packet_end - payload_end),
    )


class SegmentReader:
    """Reads the segments of a capture, and says which frames it could not read whole."""

    def __init__(self, capture, say):
        self.capture, self.say = capture, say
        self.cut = []  # frames that were cut short when captured
        self.known = 0  # frames of a link type that is read
        self.unknown = {}  # how many frames of each other link type there are

    def read(self):
        """Yields the TCP segments, frame by frame."""
        for frame in read_frames(self.capture, self.say):
            if frame.link_type not in LINK_TYPES:
                self.unknown[frame.link_type] = self.unknown.get(frame.link_type, 0) + 1
                continue
            self.known += 1
            segment = self.segment_of(frame)
            if segment:
                yield segment
        self.report_losses()

    def segment_of(self, frame):
        head = self.capture[frame.start : frame.start + min(frame.length, HEADERS_READ)]
        try:
            ip = LINK_TYPES[frame.link_type](head)
            segment = None if ip is None else segment_in(head, ip, frame)
        except (struct.error, IndexError):
            segment = None  # too short for its headers
            if frame.length < frame.original:
                self.cut.append(frame)
        if segment and segment.missing:
            self.cut.append(frame)
        return segment

    def report_losses(self):
        for link_type, frames in self.unknown.items():
            if not self.known:
                raise Unreadable(f"the link type {link_type} is not one that is read here")
            self.say(f"{frames} frames of link type {link_type}, which is not read here, are passed over")
        if self.cut:
            first, most = self.cut[0].number, max(frame.length for frame in self.cut)
            frames = f"{len(self.cut)} frames, the first being frame {first}, were cut short when they were captured"
            self.say(f"{frames}, to at most {most} bytes; to have them whole, capture with tcpdump -s 0")
