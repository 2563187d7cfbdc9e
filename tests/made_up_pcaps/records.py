"""RPC records: those in a captured pcap, and made-up ones."""

import struct

NFS = 100003
LAST = 1 << 31


def n(*values):
    """4-byte numbers."""
    return struct.pack(f">{len(values)}I", *values)


def nn(*values):
    """8-byte numbers."""
    return struct.pack(f">{len(values)}Q", *values)


def o(data=b"abcde"):
    """Variable opaque data."""
    return n(len(data)) + data + b"\0" * (-len(data) % 4)


STATEID = bytes(range(16))
WHOLE_FILE = nn(0, 2**64 - 1)


def mark(data, last=True):
    return n(len(data) | (LAST if last else 0)) + data


def call(xid, *operations, flavor=0, program=NFS, minor=2):
    head = n(xid, 0, 2, program, 4, 1, flavor, 0, 0, 0)
    return mark(head + o(b"tag") + n(minor, len(operations)) + b"".join(operations))


def callback(xid, *operations, program=0x40000000, version=1, minor=2):
    """A call of the server to the client."""
    head = n(xid, 0, 2, program, version, 1, 0, 0, 0, 0)
    return mark(head + o(b"tag") + n(minor, 0, len(operations)) + b"".join(operations))


def reply(xid, *results, status=0):
    return mark(n(xid, 1, 0, 0, 0, 0, status) + o(b"tag") + n(len(results)) + b"".join(results))


def layoutget():
    return n(50, 0, 4, 2) + WHOLE_FILE + nn(4096) + STATEID + n(4096)


def layoutget_result(*layouts):
    return n(50, 0, 1) + STATEID + n(len(layouts)) + b"".join(layouts)


def layoutreturn(body, layout_type=4):
    return n(51, 0, layout_type, 2, 1) + WHOLE_FILE + STATEID + o(body)


def layoutreturn_result():
    return n(51, 0, 1) + STATEID


def getdeviceinfo(device):
    return n(47) + device + n(4, 4096, 0)


def getdeviceinfo_result(body):
    return n(47, 0, 4) + o(body) + n(0)


def captured_directions(pcap):
    """The bytes of each direction of each stream in one of captures/: by (source, destination) addresses and ports.
    They are IPv4, little-endian, in order, on Ethernet or Linux cooked."""
    link = 14 if pcap[20] == 1 else 16
    directions, ends, at = {}, {}, 24
    while at < len(pcap):
        length = struct.unpack_from("<I", pcap, at + 8)[0]
        ip = pcap[at + 16 + link : at + 16 + length]
        tcp = ip[(ip[0] & 15) * 4 : struct.unpack_from(">H", ip, 2)[0]]
        key = ip[12:16] + tcp[0:2], ip[16:20] + tcp[2:4]
        sequence, payload = struct.unpack_from(">I", tcp, 4)[0], tcp[(tcp[12] >> 4) * 4 :]
        if payload and ends.get(key, sequence) == sequence:  # else it is repeated
            directions[key] = directions.get(key, b"") + payload
            ends[key] = (sequence + len(payload)) % 2**32
        at += 16 + length
    return directions


def records_in(data):
    """The records, each with its mark; all in captures/ have one fragment."""
    records, at = [], 0
    while at + 4 <= len(data):
        length = 4 + struct.unpack_from(">I", data, at)[0] % LAST
        records.append(data[at : at + length])
        at += length
    return records


def captured_exchanges(pcap):
    """The COMPOUND calls without an error, each with its reply."""
    directions = captured_directions(pcap)
    for (source, destination), data in directions.items():
        replies = {record[4:8]: record for record in records_in(directions.get((destination, source), b""))}
        for record in records_in(data):
            answer = replies.get(record[4:8])
            if record[8:28] == n(0, 2, NFS, 4, 1) and answer and answer[8:12] == n(1) and answer[28:32] == n(0):
                yield record, answer


def with_one_more(record, operation):
    """The record with an operation (or result) behind those in its compound."""
    at = 28  # a call's credential, or in a reply the compound's status
    if record[8:12] == n(0):
        for _ in ("credential", "verifier"):
            at += 8 + struct.unpack_from(">I", record, at + 4)[0]
        at += 8 + struct.unpack_from(">I", record, at)[0]  # tag, minor version
    else:
        at += 8 + struct.unpack_from(">I", record, at + 4)[0]  # status, tag
    count = struct.unpack_from(">I", record, at)[0] + 1
    return mark(record[4:at] + n(count) + record[at + 4 :] + operation)
