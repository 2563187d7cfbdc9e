"""Pcap and pcapng files made of TCP segments. Checksums are left 0."""

import struct
from typing import NamedTuple

PORTS = (45000, 52000)  # neither is one that NFS is known by
FIRST_SEQUENCES = (4294967000, 77)  # the first wraps soon


class Segment(NamedTuple):
    way: int
    position: int
    payload: bytes
    syn: bool = False


SYNS = [Segment(0, -1, b"", True), Segment(1, -1, b"", True)]


def in_segments(way, data, size, position=0):
    return [Segment(way, position + at, data[at : at + size]) for at in range(0, len(data), size)]


def one_by_one(calls, replies):
    """Each call in a segment, then its reply in one."""
    segments, positions = [], [0, 0]
    for exchange in zip(calls, replies):
        for way, record in enumerate(exchange):
            segments.append(Segment(way, positions[way], record))
            positions[way] += len(record)
    return segments


def tcp(segment):
    ports = PORTS if segment.way == 0 else PORTS[::-1]
    sequence = (FIRST_SEQUENCES[segment.way] + 1 + segment.position) % 2**32
    flags = 2 if segment.syn else 16
    # A header of 24 bytes: 20, and 4 of options.
    return struct.pack(">HHIIBBHHHI", *ports, sequence, 0, 6 << 4, flags, 512, 0, 0, 0x01010101) + segment.payload


def addresses(way, length):
    pair = (b"\x20\x01" + b"\x01" * 14)[-length:], (b"\x20\x01" + b"\x02" * 14)[-length:]
    return b"".join(pair if way == 0 else pair[::-1])


def ipv4(segment):
    payload = tcp(segment)
    head = struct.pack(">BBHHHBBH", 0x45, 0, 20 + len(payload), 1, 0x4000, 64, 6, 0)
    return 0x0800, head + addresses(segment.way, 4) + payload


def ipv6(segment):
    payload = tcp(segment)
    return 0x86DD, struct.pack(">IHBB", 6 << 28, len(payload), 6, 64) + addresses(segment.way, 16) + payload


def ipv6_with_extensions(segment):
    """Hop-by-hop options of 16 bytes, then a fragment header of an unfragmented packet."""
    payload = struct.pack(">BB14s", 44, 1, b"") + struct.pack(">BBHI", 6, 0, 0, 9) + tcp(segment)
    return 0x86DD, struct.pack(">IHBB", 6 << 28, len(payload), 0, 64) + addresses(segment.way, 16) + payload


def ethernet(protocol, packet):
    return struct.pack(">12sH", b"", protocol) + packet + b"\xee" * 6  # padding that is no payload


def double_vlan(protocol, packet):
    return struct.pack(">12sHHHHH", b"", 0x88A8, 5, 0x8100, 6, protocol) + packet


LINKS = {
    "Ethernet": (1, ethernet),
    "two VLAN tags": (1, double_vlan),
    "Linux cooked": (113, lambda protocol, packet: struct.pack(">14sH", b"", protocol) + packet),
    "Linux cooked 2": (276, lambda protocol, packet: struct.pack(">H18s", protocol, b"") + packet),
    "raw IP": (101, lambda protocol, packet: packet),
    "loopback": (0, lambda protocol, packet: struct.pack("<I", 2 if protocol == 0x0800 else 30) + packet),
    "OpenBSD loopback": (108, lambda protocol, packet: struct.pack(">I", 2) + packet),
}


def pcap_file(segments, order="<", magic=0xA1B2C3D4, link="Ethernet", ip=ipv4, snap=262144):
    link_type, frame_of = LINKS[link]
    parts = [struct.pack(order + "IHHIIII", magic, 2, 4, 0, 0, snap, link_type)]
    for time, segment in enumerate(segments):
        frame = frame_of(*ip(segment))
        held = frame[:snap]
        parts.append(struct.pack(order + "IIII", time, 0, len(held), len(frame)) + held)
    return b"".join(parts)


def block(order, kind, body):
    """A block of a pcapng file: its type, its length in front and behind, its body padded."""
    body += bytes(-len(body) % 4)
    length = struct.pack(order + "I", 12 + len(body))
    return struct.pack(order + "I", kind) + length + body + length


def section(order="<"):
    # Byte order, version 1.0, a length that is not given; an option (opt_comment) and the end of options.
    head = struct.pack(order + "IHHq", 0x1A2B3C4D, 1, 0, -1)
    return block(order, 0x0A0D0D0A, head + struct.pack(order + "HH4sHH", 1, 3, b"why", 0, 0))


def interface(order="<", link="Ethernet", snap=0):
    return block(order, 1, struct.pack(order + "HHI", LINKS[link][0], 0, snap))


def enhanced_packet(order, number, frame, held, time=0):
    return block(order, 6, struct.pack(order + "IIIII", number, 0, time, len(held), len(frame)) + held)


def old_packet(order, number, frame, held, time=0):
    drops = 0xFFFF  # how many frames were lost before is not known
    return block(order, 2, struct.pack(order + "HHIIII", number, drops, 0, time, len(held), len(frame)) + held)


def simple_packet(order, number, frame, held, time=0):
    return block(order, 3, struct.pack(order + "I", len(frame)) + held)


def packets(segments, order="<", link="Ethernet", ip=ipv4, snap=262144, packet=enhanced_packet, number=0):
    frames = [LINKS[link][1](*ip(segment)) for segment in segments]
    return b"".join(packet(order, number, frame, frame[:snap], time) for time, frame in enumerate(frames))


def pcapng_file(segments, order="<", link="Ethernet", snap=262144, **others):
    # Behind the interface stands a block that is not read: statistics of it.
    statistics = block(order, 5, struct.pack(order + "III", 0, 0, 0))
    head = section(order) + interface(order, link, snap) + statistics
    return head + packets(segments, order, link, snap=snap, **others)
