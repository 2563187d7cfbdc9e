"""XDR as needed to pass over what is not wanted: shapes of structures, and a cursor that walks them.

A shape is a number of bytes, a tuple of shapes one after another, or a function that moves a cursor.
"""

import struct


class Unfollowable(Exception):
    """The bytes are not of the expected shape; the text says how."""


class Cursor:
    def __init__(self, data):
        self.data = data
        self.at = 0

    def skip(self, length):
        if length > len(self.data) - self.at:
            raise Unfollowable("the record ends too early")
        self.at += length

    def number(self):
        self.skip(4)
        return struct.unpack_from(">I", self.data, self.at - 4)[0]

    def long_number(self):
        self.skip(8)
        return struct.unpack_from(">Q", self.data, self.at - 8)[0]

    def fixed(self, length):
        """Opaque data of a known length."""
        self.skip(length)
        return self.data[self.at - length : self.at]

    def opaque(self):
        """Variable opaque data, without length and padding."""
        length = self.number()
        start = self.at
        self.skip(length + -length % 4)
        return self.data[start : start + length]

    def walk(self, shape):
        if isinstance(shape, int):
            self.skip(shape)
        elif isinstance(shape, tuple):
            for part in shape:
                self.walk(part)
        else:
            shape(self)


def opaque(cursor):
    cursor.opaque()


def array(item):
    def walk(cursor):
        for _ in range(cursor.number()):
            cursor.walk(item)

    return walk


def union(cases, default=None):
    """By its discriminant; without a default the cases are all there are."""

    def walk(cursor):
        discriminant = cursor.number()
        shape = cases.get(discriminant, default)
        if shape is None:
            raise Unfollowable(f"the discriminant {discriminant} of a union is not known")
        cursor.walk(shape)

    return walk


def optional(item):
    """A boolean, and the item if it is true."""
    return union({0: (), 1: item})


def linked_list(item):
    """Items, each behind a true boolean, up to a false one."""

    def walk(cursor):
        while cursor.number():
            cursor.walk(item)

    return walk
