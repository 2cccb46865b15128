"""Numbers of one width as octets, one after the other, and back: each row at once."""
import struct

LETTERS = {1: "b", 2: "h", 4: "i", 8: "q"}
ENDS = {"big": ">", "little": "<"}


def packed(numbers, width, order):
    """The octets of numbers in two's complement."""
    return struct.pack(f"{ENDS[order]}{len(numbers)}{LETTERS[width].upper()}", *[n % 2 ** (8 * width) for n in numbers])


def unpacked(octets, width, order, signed):
    """The numbers that octets spell."""
    letter = LETTERS[width]
    return list(struct.unpack(f"{ENDS[order]}{len(octets) // width}{letter if signed else letter.upper()}", octets))
