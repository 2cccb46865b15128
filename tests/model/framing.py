"""Raw streams, cut into messages: record marking (RFC 5531, section 11), and GIOP and Mach messages by their own length.

As all of the model it is written from the standards and docs/, with nothing of the crates in it.
"""
LONGEST = 4_194_304
WAITS = "waits"


class Fault(Exception):
    """Why a stream will never have a next message."""


def record(stream, at):
    """The record at a place, and where it ends; WAITS where it is not whole."""
    parts, length = [], 0
    while True:
        header = stream[at:at + 4]
        if len(header) < 4:
            return WAITS
        word = int.from_bytes(header, "big")
        size = word & 0x7fffffff
        length += size
        if length > LONGEST:
            raise Fault("TooLong")
        if len(stream) - at - 4 < size:
            return WAITS
        parts.append(stream[at + 4:at + 4 + size])
        at += 4 + size
        if word >> 31:
            return b"".join(parts), at


def sized(stream, at, length):
    """The message of so many octets at a place, and where it ends."""
    if length > LONGEST:
        raise Fault("TooLong")
    if len(stream) - at < length:
        return WAITS
    return stream[at:at + length], at + length


def giop(stream, at):
    """The GIOP message at a place: bit 0 of octet 6 is its order."""
    header = stream[at:at + 12]
    if len(header) < 12:
        return WAITS
    if not header.startswith(b"GIOP"):
        raise Fault("Magic")
    return sized(stream, at, 12 + int.from_bytes(header[8:], "little" if header[6] & 1 else "big"))


def mach(stream, at):
    """The Mach message at a place: its second word is its length."""
    header = stream[at:at + 8]
    if len(header) < 8:
        return WAITS
    length = int.from_bytes(header[4:], "little")
    if length < 24:
        raise Fault("Size")
    return sized(stream, at, length)


# The readers of the formats that are not GIOP, whose messages are alike in every version and order.
READERS = {"xdr": record, "mach": mach}


def cut(back, stream):
    """The messages of a stream, and how it ends: None, Cut, or a fault."""
    messages, at, read = [], 0, READERS.get(back, giop)
    try:
        while at < len(stream):
            found = read(stream, at)
            if found == WAITS:
                return messages, "Cut"
            messages.append(found[0])
            at = found[1]
    except Fault as fault:
        return messages, str(fault)
    return messages, None


def message_ends(back, stream):
    """The places of a stream at which a message ends, up to where there is none."""
    at, read = 0, READERS.get(back, giop)
    while at < len(stream) and (found := read(stream, at)) != WAITS:
        at = found[1]
        yield at


def framed(back, message):
    """A message as it is sent: over XDR a record of one fragment."""
    return (0x80000000 | len(message)).to_bytes(4, "big") + message if back == "xdr" else message
