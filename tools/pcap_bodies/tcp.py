"""TCP streams put together from segments that may be out of order, repeated or missing."""

from bisect import bisect_right
from typing import NamedTuple


class Piece(NamedTuple):
    position: int  # in the direction's bytes
    frame: int
    start: int  # in the file
    length: int


class Direction:
    """One direction of a stream while its segments are collected."""

    def __init__(self):
        self.source = self.destination = None
        self.syn_sequence = None
        self.opening = None  # after a SYN: the position of the first byte there ever was
        self.latest = None  # (sequence number, position) that later numbers are counted from
        self.pieces = []

    def position_of(self, sequence):
        """The sequence number without its wrapping at 2^32."""
        if self.latest is None:
            self.latest = (sequence, 0)
        known, position = self.latest
        position += (sequence - known + 2**31) % 2**32 - 2**31
        if position > self.latest[1]:
            self.latest = (sequence, position)
        return position

    def starts_anew(self, segment):
        """Whether a SYN belongs to a later connection between the same ports."""
        if self.syn_sequence is not None:
            return self.syn_sequence != segment.sequence
        first_data = min(self.pieces, default=None)
        return first_data is not None and self.position_of(segment.sequence + 1) != first_data.position

    def add(self, segment):
        self.source, self.destination = segment.source, segment.destination
        sequence = segment.sequence
        if segment.syn:
            self.syn_sequence = sequence
            sequence += 1
            self.opening = self.position_of(sequence)
        position = self.position_of(sequence)
        if segment.end > segment.start:
            self.pieces.append(Piece(position, segment.frame, segment.start, segment.end - segment.start))


class Stream:
    """A connection: two directions, the first being that of its first segment."""

    def __init__(self, number):
        self.number = number
        self.directions = (Direction(), Direction())

    def __str__(self):
        ends = self.directions[0] if self.directions[0].source else self.directions[1]
        return f"stream {self.number} ({ends.source} - {ends.destination})"


def collect_streams(segments):
    """The streams in the order of their first frames."""
    streams, current = [], {}
    for segment in segments:
        ends = (segment.source, segment.destination)
        key = min(ends), max(ends)
        stream, first_source = current.get(key, (None, None))
        way = 0 if stream is None or segment.source == first_source else 1
        if stream is None or (segment.syn and stream.directions[way].starts_anew(segment)):
            stream, way = Stream(len(streams)), 0
            streams.append(stream)
            current[key] = (stream, segment.source)
        stream.directions[way].add(segment)
    return streams


class Held:
    """The bytes of one direction that the capture holds, by position."""

    def __init__(self, direction, capture):
        self.capture = capture
        self.pieces = []
        self.runs = []  # [start, end) of bytes without a hole
        self.from_syn = direction.opening is not None
        pieces = sorted(direction.pieces)
        # Positions count from the stream's first byte, or from the first one held.
        base = direction.opening if self.from_syn or not pieces else pieces[0].position
        for piece in pieces:
            self.append(piece._replace(position=piece.position - base) if base else piece)
        self.piece_starts = [piece.position for piece in self.pieces]
        self.run_starts = [start for start, _ in self.runs]

    def append(self, piece):
        """Takes of the next piece what is not held yet."""
        end = self.runs[-1][1] if self.runs else 0
        known = max(0, end - piece.position)
        if known >= piece.length:
            return
        if known:
            piece = Piece(end, piece.frame, piece.start + known, piece.length - known)
        self.pieces.append(piece)
        if self.runs and piece.position == end:
            self.runs[-1][1] += piece.length
        else:
            self.runs.append([piece.position, piece.position + piece.length])

    def next_held(self, position):
        """The first held position from `position` on, or None."""
        place = bisect_right(self.run_starts, position)
        if place and position < self.runs[place - 1][1]:
            return position
        return self.run_starts[place] if place < len(self.runs) else None

    def run_end(self, position):
        """Where the first hole from `position` on starts."""
        place = bisect_right(self.run_starts, position)
        return max(position, self.runs[place - 1][1]) if place else position

    def covering(self, position, length):
        """The pieces, with what is wanted of each, for bytes that are held."""
        place, end = bisect_right(self.piece_starts, position) - 1, position + length
        while position < end:
            piece = self.pieces[place]
            take = min(end, piece.position + piece.length) - position
            yield piece, position - piece.position, take
            position, place = position + take, place + 1

    def read(self, position, length):
        """The bytes, or None if one of them is not held."""
        if position + length > self.run_end(position):
            return None
        parts = [
            self.capture[piece.start + skip : piece.start + skip + take]
            for piece, skip, take in self.covering(position, length)
        ]
        return b"".join(parts)

    def frame_of(self, position, length):
        """The frame that completes these held bytes."""
        return max(piece.frame for piece, _, _ in self.covering(position, length))
