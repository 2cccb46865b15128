"""XDR values (RFC 4506): how they are sent, read, and written in JSON, one class a type.

A second opinion on the crates: written from the standards and docs/, field by field, with nothing of
the crates in it. Numbers, booleans and enums are ints; opaques and strings are bytes; arrays and
structs are lists; a union is a pair of tag and value; a pointer is None or a list of the one value.
"""
import re
from copy import copy

HEX = re.compile("[0-9a-fA-F]*")
CHARACTERS = re.compile("[\x01-\xff]*")


class Fault(Exception):
    """The first fault of a body: its kind, and its place in the message."""

    def __init__(self, kind, at):
        super().__init__(f"{kind} {at}")


class NoValue(Exception):
    """A tree of JSON that presents no value."""


class Reader:
    """The octets of a message from a place on."""

    def __init__(self, octets, at):
        self.octets, self.at = octets, at

    def item(self, width):
        """So many octets, all of them or none."""
        if len(self.octets) - self.at < width:
            raise Fault("Short", self.at)
        self.at += width
        return self.octets[self.at - width:self.at]

    def padding(self, length):
        """The octets that fill a length up to a multiple of 4."""
        for _ in range(-length % 4):
            if self.item(1) != b"\0":
                raise Fault("BadPad", self.at - 1)


def need(holds):
    if not holds:
        raise NoValue


def under_name(ty, name):
    """A type under a name of its own, which knows what it was declared as."""
    named = copy(ty)
    named.name, named.meaning = name, ty
    return named


class Void:
    def send(self, value):
        return b""

    def read(self, reader):
        return None

    def value(self, tree):
        need(tree is None)

    def tree(self, value):
        return None


class Number:
    """A number of 8 to 64 bits; below 64 it travels in four octets."""

    def __init__(self, signed, bits):
        self.signed, self.bits = signed, bits
        self.least = -2 ** (bits - 1) if signed else 0
        self.greatest = self.least + 2 ** bits - 1
        self.width = max(4, bits // 8)

    def has(self, n):
        return self.least <= n <= self.greatest

    def send(self, n):
        return n.to_bytes(self.width, "big", signed=self.signed)

    def read(self, reader):
        at = reader.at
        n = int.from_bytes(reader.item(self.width), "big", signed=self.signed)
        if not self.has(n):
            raise Fault("BadValue", at)
        return n

    def value(self, tree):
        need(type(tree) is int and self.has(tree))
        return tree

    def tree(self, n):
        return n


class Bool(Number):
    def __init__(self):
        super().__init__(True, 32)

    def has(self, n):
        return n in (0, 1)

    def value(self, tree):
        need(isinstance(tree, bool))
        return int(tree)

    def tree(self, n):
        return bool(n)


class Enum(Number):
    """Items are pairs of name and number; of two names of one number the first is written."""

    def __init__(self, items):
        super().__init__(True, 32)
        self.items = items

    def has(self, n):
        return any(n == number for _, number in self.items)

    def value(self, tree):
        need(isinstance(tree, str) and tree in dict(self.items))
        return dict(self.items)[tree]

    def tree(self, n):
        return next(name for name, number in self.items if number == n)


class Count:
    """How many elements there are: exactly so many, at most so many, or any number (None)."""

    def __init__(self, bound, exact=False):
        self.bound, self.exact = bound, exact

    def has(self, n):
        return n == self.bound if self.exact else n < 2 ** 32 and (self.bound is None or n <= self.bound)

    def send(self, n):
        return b"" if self.exact else n.to_bytes(4, "big")

    def read(self, reader):
        if self.exact:
            return self.bound
        n = int.from_bytes(reader.item(4), "big")
        if not self.has(n):
            raise Fault("OverBound", reader.at - 4)
        return n


class Opaque:
    """Octets; in JSON their hexadecimal digits."""

    def __init__(self, count):
        self.count = count

    def send(self, octets):
        return self.count.send(len(octets)) + octets + bytes(-len(octets) % 4)

    def read(self, reader):
        length = self.count.read(reader)
        octets = self.checked(reader.octets[reader.at:reader.at + length], reader.at)
        reader.at += len(octets)
        if len(octets) < length:
            raise Fault("Short", reader.at)
        reader.padding(length)
        return octets

    def checked(self, octets, at):
        return octets

    def value(self, tree):
        need(isinstance(tree, str) and len(tree) % 2 == 0 and HEX.fullmatch(tree))
        need(self.count.has(len(tree) // 2))
        return bytes.fromhex(tree)

    def tree(self, octets):
        return octets.hex()


class String(Opaque):
    """Octets other than 0; in JSON a character each."""

    def checked(self, octets, at):
        if 0 in octets:
            raise Fault("BadText", at + octets.index(0))
        return octets

    def value(self, tree):
        need(isinstance(tree, str) and CHARACTERS.fullmatch(tree) and self.count.has(len(tree)))
        return tree.encode("latin-1")

    def tree(self, octets):
        return octets.decode("latin-1")


class Array:
    def __init__(self, element, count):
        self.element, self.count = element, count

    def send(self, values):
        return self.count.send(len(values)) + b"".join(map(self.element.send, values))

    def read(self, reader):
        return [self.element.read(reader) for _ in range(self.count.read(reader))]

    def value(self, tree):
        need(isinstance(tree, list) and self.count.has(len(tree)))
        return [self.element.value(t) for t in tree]

    def tree(self, values):
        return [self.element.tree(v) for v in values]


class Pointer:
    """A value that may be absent."""

    def __init__(self, element):
        self.array = Array(element, Count(1))

    def send(self, value):
        return self.array.send(value or [])

    def read(self, reader):
        at = reader.at
        if Number(False, 32).read(Reader(reader.octets, at)) > 1:
            raise Fault("BadValue", at)
        return self.array.read(reader) or None

    def value(self, tree):
        return self.array.value(tree) or None

    def tree(self, value):
        return self.array.tree(value or [])


class Struct:
    """Fields are pairs of name and type."""

    def __init__(self, fields):
        self.fields = fields

    def send(self, values):
        return b"".join(field.send(v) for (_, field), v in zip(self.fields, values))

    def read(self, reader):
        return [field.read(reader) for _, field in self.fields]

    def value(self, tree):
        need(isinstance(tree, dict) and set(tree) == {name for name, _ in self.fields})
        return [field.value(tree[name]) for name, field in self.fields]

    def tree(self, values):
        return {name: field.tree(v) for (name, field), v in zip(self.fields, values)}


class Union:
    """Arms by their labels, and the default, or None."""

    def __init__(self, tag, arms, default):
        self.tag, self.arms, self.default = tag, arms, default

    def arm(self, n):
        return self.arms.get(n, self.default)

    def send(self, value):
        return self.tag.send(value[0]) + self.arm(value[0]).send(value[1])

    def read(self, reader):
        at = reader.at
        n = self.tag.read(reader)
        if self.arm(n) is None:
            raise Fault("BadValue", at)
        return n, self.arm(n).read(reader)

    def value(self, tree):
        need(isinstance(tree, dict) and "tag" in tree and set(tree) <= {"tag", "value"})
        n = self.tag.value(tree["tag"])
        need(self.arm(n) is not None)
        return n, self.arm(n).value(tree.get("value"))

    def tree(self, value):
        return {"tag": self.tag.tree(value[0]), "value": self.arm(value[0]).tree(value[1])}
