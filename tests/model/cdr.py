"""Values over CDR and requests of GIOP 1.0 and 1.2 (OMG CORBA, chapter GIOP), over the operations of an interface file.

As all of the model it is written from the standard and docs/, with nothing of the crates in it.
"""
from giop import REQUEST, Reading, Stop, before_body, message, read_call, request_fields
from packing import packed
from values import Array, Bool, Fault, Number, Opaque, Pointer, String, Struct, Union

BODY = 12  # the octets of a header, which stand before the fields


def width(ty):
    """How many octets a number takes, which is what it is aligned to. An enum has 32 bits."""
    return 1 if isinstance(ty, Bool) else ty.bits // 8


class Writing:
    """The fields of a message, counted from its first octet."""

    def __init__(self, fields, order):
        self.fields, self.order = bytearray(fields), order

    def number(self, n, octets):
        self.fields += bytes(-(BODY + len(self.fields)) % octets) + (n % 2 ** (8 * octets)).to_bytes(octets, self.order)

    def numbers(self, numbers, octets):
        """Numbers one after the other: only the first may have zeros before it."""
        if numbers:
            self.fields += bytes(-(BODY + len(self.fields)) % octets) + packed(numbers, octets, self.order)

    def value(self, ty, value):
        if isinstance(ty, Number):
            self.number(value, width(ty))
        elif isinstance(ty, String):
            self.number(len(value) + 1, 4)
            self.fields += value + b"\0"
        elif isinstance(ty, Opaque):
            self.count(ty.count, len(value))
            self.fields += value
        elif isinstance(ty, Array) and isinstance(ty.element, Number):
            self.count(ty.count, len(value))
            self.numbers(value, width(ty.element))
        elif isinstance(ty, Array):
            self.count(ty.count, len(value))
            for element in value:
                self.value(ty.element, element)
        elif isinstance(ty, Pointer):
            self.number(len(value or []), 1)
            for element in value or []:
                self.value(ty.array.element, element)
        elif isinstance(ty, Struct):
            for (_, field), part in zip(ty.fields, value):
                self.value(field, part)
        elif isinstance(ty, Union):
            self.value(ty.tag, value[0])
            self.value(ty.arm(value[0]), value[1])

    def count(self, count, n):
        if not count.exact:
            self.number(n, 4)


def number_in(reading, ty):
    try:
        place, n = reading.number(width(ty), ty.signed)
    except Stop as stop:
        raise Fault(*str(stop).split()) from None
    if not ty.has(n):
        raise Fault("BadValue", place)
    return n


def numbers_in(reading, ty, length):
    """So many numbers: all at once, or one by one up to the fault."""
    begin, numbers = reading.at, reading.numbers(length, width(ty), ty.signed)
    if numbers is not None and all(map(ty.has, numbers)):
        return numbers
    reading.at = begin
    return [number_in(reading, ty) for _ in range(length)]


def count_in(reading, count, more=0):
    """A number of elements, or the length of a string with the octet that ends it."""
    try:
        place, n = reading.number(4)
    except Stop as stop:
        raise Fault(*str(stop).split()) from None
    if more and n == 0:
        raise Fault("BadText", place)
    if not count.has(n - more):
        raise Fault("OverBound", place)
    return n


def octets_in(reading, length):
    octets = reading.octets[reading.at:reading.at + length]
    reading.at += len(octets)
    if len(octets) < length:
        raise Fault("Short", reading.at)
    return octets


def text_in(reading, ty):
    length = count_in(reading, ty.count, 1)
    try:
        return reading.text(length)
    except Stop as stop:
        raise Fault(*str(stop).split()) from None


def value_in(reading, ty):
    if isinstance(ty, Number):
        return number_in(reading, ty)
    if isinstance(ty, String):
        return text_in(reading, ty)
    if isinstance(ty, Opaque):
        return octets_in(reading, ty.count.bound if ty.count.exact else count_in(reading, ty.count))
    if isinstance(ty, Array):
        length = ty.count.bound if ty.count.exact else count_in(reading, ty.count)
        if isinstance(ty.element, Number):
            return numbers_in(reading, ty.element, length)
        return [value_in(reading, ty.element) for _ in range(length)]
    if isinstance(ty, Pointer):
        return [value_in(reading, ty.array.element)] if number_in(reading, Bool()) else None
    if isinstance(ty, Struct):
        return [value_in(reading, field) for _, field in ty.fields]
    if isinstance(ty, Union):
        n = number_in(reading, ty.tag)
        if ty.arm(n) is None:
            raise Fault("BadValue", reading.at - width(ty.tag))
        return n, value_in(reading, ty.arm(n))
    return None


def with_values(order, fields, types, values, version):
    """Fields with values behind them, and before these what aligns a body of that version."""
    writing = Writing(before_body(fields, version), order)
    begin = len(writing.fields)
    for ty, value in zip(types, values):
        writing.value(ty, value)
    return writing.fields if len(writing.fields) > begin else fields


class Cdr:
    """Messages of GIOP whose octets are sent in one order and version, and received in each."""

    keys = ("id",)

    def __init__(self, order, version=0):
        self.order, self.version = order, version

    def operations(self, interface):
        return interface.own

    def message(self, interface, operation, numbers, values):
        """The request of an operation, which wants a reply unless it is oneway, as none of ONC is."""
        fields = request_fields(self.order, numbers["id"], not operation.oneway, interface.name, operation[0], self.version)
        return message(self.order, REQUEST, with_values(self.order, fields, operation[2], values, self.version), self.version)

    def head(self, octets):
        """The id, a test of interfaces and one of their operations, and a reader of values."""
        said = read_call(octets, (REQUEST,))
        if said["ask"] == "addressing":
            raise Stop("Target", said["used"] - 2)
        reading = Reading(octets, said["used"], said["order"])
        return {"id": said["id"]}, lambda i: i.name.encode() == said["key"], lambda _, op: op[0].encode() == said["name"], reading

    def read(self, reading, ty):
        return value_in(reading, ty)
