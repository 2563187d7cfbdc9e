"""The file of a capture, unpacked where it is compressed."""

import gzip
import lzma
import mmap
import os
import stat
import tempfile
import zlib

COMPRESSED = {b"\x1f\x8b": ("gzip", gzip.open), b"\xfd7zXZ\0": ("xz", lzma.open)}
UNPACKED_BY = {b"\x28\xb5\x2f\xfd": "zstd -d", b"BZh": "bunzip2", b"\x04\x22\x4d\x18": "lz4 -d"}
ENDINGS = (".gz", ".xz")
PART = 1 << 16


class Unreadable(Exception):
    """The file is not one that can be read; the text says why."""


def unpack(packed, kind, say):
    """A file with what comes out of `packed`: where its data is damaged, what stands before that."""
    whole = tempfile.TemporaryFile()
    try:
        while part := packed.read1(PART):
            whole.write(part)
    except (EOFError, gzip.BadGzipFile, zlib.error, lzma.LZMAError) as reason:
        if not whole.tell():
            raise Unreadable(f"the {kind} data is damaged: {reason}") from None
        say(f"the {kind} data is damaged or cut off behind {whole.tell()} unpacked bytes, which are read: {reason}")
    whole.flush()
    return whole


def map_bytes(file):
    if not os.fstat(file.fileno()).st_size:
        raise Unreadable("the file is empty")
    return mmap.mmap(file.fileno(), 0, access=mmap.ACCESS_READ)


def open_capture(path, say):
    """The capture's bytes, mapped."""
    with open(path, "rb") as file:
        if not stat.S_ISREG(os.fstat(file.fileno()).st_mode):
            raise Unreadable("this is no regular file")
        start = file.read(6)
        for magic, command in UNPACKED_BY.items():
            if start.startswith(magic):
                raise Unreadable(f"the file is compressed in a way that is not read here; unpack it first: {command}")
        file.seek(0)
        for magic, (kind, opened) in COMPRESSED.items():
            if start.startswith(magic):
                with opened(file) as packed, unpack(packed, kind, say) as whole:
                    return map_bytes(whole)
        return map_bytes(file)
