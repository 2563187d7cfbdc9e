"""Files that should each have one body, and what they may be instead."""

import re
import sys

# What `answers` takes. No body is longer: a layout4 has at most 4,120 bytes, a device body 2,048, a return 6,856.
LONGEST_ASKED = 16_000

CAPTURES = {
    b"\xd4\xc3\xb2\xa1": "a packet capture (pcap)",
    b"\xa1\xb2\xc3\xd4": "a packet capture (pcap)",
    b"\x4d\x3c\xb2\xa1": "a packet capture (pcap)",
    b"\xa1\xb2\x3c\x4d": "a packet capture (pcap)",
    b"\x0a\x0d\x0d\x0a": "a packet capture (pcapng)",
}
COMPRESSED = {b"\x1f\x8b": "compressed by gzip", b"\xfd7zXZ\0": "compressed by xz"}
# A device body: a count of addresses, and the first one's netid behind its length.
DEVICE = re.compile(rb"\0{3}[\1-\x08]\0{3}[\3-\5](?:tcp|udp|rdma)", re.S)


def read_start(name):
    """The file's bytes, of a long file as many as show that it is too long; `-` is standard input. Raises OSError."""
    if name == "-":
        return sys.stdin.buffer.read(LONGEST_ASKED + 1)
    with open(name, "rb") as file:
        return file.read(LONGEST_ASKED + 1)


def said_name(name):
    return "standard input" if name == "-" else name or "the empty name"


def hint(data):
    """What a file that is refused looks like, and what to do with it; empty where it looks like nothing known."""
    for start, what in CAPTURES.items():
        if data.startswith(start):
            return f"it looks like {what}: cut the bodies out of it with tools/bodies"
    for start, what in COMPRESSED.items():
        if data.startswith(start):
            return f"it looks {what}: a packet capture goes to tools/bodies as it is, a body is unpacked first"
    if DEVICE.match(data):
        return "it looks like a device body: put it to the core with tools/ask device"
    return ""
