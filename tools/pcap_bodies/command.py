"""The command: reads a capture, writes the bodies and their index."""

import hashlib
import json
from pathlib import Path

from core_programs.words import asks_for_help, put, say, wrong_use

from .capture import ENDINGS, Unreadable, open_capture
from .packets import SegmentReader
from .stream import StreamReader
from .tcp import collect_streams

LETTERS = {"layout4": "lg", "device_addr": "gd", "layoutreturn": "lr", "cb_layoutrecall": "cr"}
PART = 1 << 20


class Taken(Exception):
    """The folder has something else under a name that would be written; the text says what."""


def find_bodies(path):
    """The bodies in the capture, in the order of the frames that deliver them."""
    capture = open_capture(path, say)
    found, compounds = [], 0
    for stream in collect_streams(SegmentReader(capture, say).read()):
        reader = StreamReader(stream, capture, say)
        reader.read()
        found += reader.found
        compounds += reader.compounds
    if not compounds:
        say("no call of NFS version 4.1 or 4.2 that can be followed is in the capture")
    # Within a direction this is the order of its bytes; the bodies of one record keep theirs.
    return sorted(found, key=lambda one: (one.record.delivered, one.stream.number, one.way, one.record.position))


def name_of(file):
    """The capture's name without its endings."""
    for ending in ENDINGS:
        file = file[: -len(ending)] if file.endswith(ending) else file
    return Path(file).stem


def sha256_of(path):
    digest = hashlib.sha256()
    with open(path, "rb") as file:
        while part := file.read(PART):
            digest.update(part)
    return digest.hexdigest()


def file_names(found, name):
    """A name for each body: LAYOUTGET results are numbered, not layouts."""
    next_number = dict.fromkeys(LETTERS, 0)
    for one in found:
        kind, index = one.body.kind, one.body.facts.get("index_in_reply")
        if not index:
            number = next_number[kind]
            next_number[kind] += 1
        place = "" if index is None else f"_{index}"
        yield f"{name}_{LETTERS[kind]}{number:03}{place}.bin"


def index_entry(one, file, pcap, digest):
    body, direction = one.body, one.stream.directions[one.way]
    return {
        "file": file,
        "kind": body.kind,
        "pcap": pcap.name,
        "pcap_sha256": digest,
        "frame": one.record.frame,
        "tcp_stream": one.stream.number,
        "stream_offset": one.record.position,
        "src": str(direction.source),
        "dst": str(direction.destination),
        "xid": f"{one.record.xid:08x}",
        "operation": one.operation,
        "layout_type": body.layout_type,
        "size": len(body.data),
        "sha256": hashlib.sha256(body.data).hexdigest(),
        **body.facts,
    }


def make_room(folder, pcap, digest, entries, files):
    """Removes what an earlier run on the same capture left. Nothing else is ever written over."""
    own = [entry for entry in entries if name_of(entry["pcap"]) == name_of(pcap.name)]
    for entry in own:
        if entry.get("pcap_sha256") != digest:
            other = f"it has bodies of another capture {entry['pcap']}, or of this one before it changed"
            raise Taken(f"{other}; choose another folder")
    left = {entry["file"] for entry in own}
    for file in files:
        if (folder / file).exists() and file not in left:
            raise Taken(f"it has a file {file} that its index does not list; choose another folder")
    for file in left.difference(files):
        if Path(file).name == file:
            (folder / file).unlink(missing_ok=True)
    return [entry for entry in entries if entry not in own]


def write_bodies(found, pcap, folder):
    folder.mkdir(parents=True, exist_ok=True)
    index = folder / "index.json"
    files = list(file_names(found, name_of(pcap.name)))
    digest = sha256_of(pcap)
    entries = make_room(folder, pcap, digest, json.loads(index.read_text()) if index.exists() else [], files)
    for one, file in zip(found, files):
        (folder / file).write_bytes(one.body.data)
        entries.append(index_entry(one, file, pcap, digest))
    index.write_text(json.dumps(entries, indent=1) + "\n")


def wrong_word(words):
    """What is wrong with them, or nothing."""
    if words and words[0].startswith("-"):
        return f"{words[0]!r} is no option (a file of that name is ./{words[0]})"
    if len(words) != 2:
        return f"it takes a CAPTURE and a FOLDER, not {len(words)} words"
    return "" if all(words) else "a name is empty"


def main(words, usage):
    if asks_for_help(words):
        put(f"{usage}\n")
        return 0
    if wrong := wrong_word(words):
        return wrong_use("tools/bodies", wrong, usage)
    pcap, folder = Path(words[0]), Path(words[1])
    try:
        found = find_bodies(pcap)
    except (OSError, Unreadable) as reason:
        say(f"{pcap}: cannot be read: {getattr(reason, 'strerror', None) or reason}")
        return 1
    try:
        write_bodies(found, pcap, folder)
    except (OSError, Taken, ValueError, KeyError, TypeError) as reason:
        say(f"{folder}: cannot be written: {getattr(reason, 'strerror', None) or reason}")
        return 1
    kinds = [one.body.kind for one in found]
    counts = tuple(kinds.count(kind) for kind in LETTERS)
    put("%d layouts, %d device bodies, %d layout returns, %d recalls written\n" % counts)
    return 0
