"""The command `bridge`: the message of a request under one back end, as that of the same request under another.

As all of the model it is written from the standards and docs/, with nothing of the crates in it: the message is read as under the
first back end, and the request of the operation of the same interface and name is written as under the second. Of the head
one number is kept. The two back ends are the words of the command, with a blank between them.
"""
from calls import BACKS, LONGEST_MESSAGE, Refused, request_in

# The number of a head that is kept, by the keys of its numbers: the transaction or the id, or the local port.
KEPT = {("xid",): "xid", ("id",): "id", ("remote", "local"): "local"}


def backs_of(words):
    """The back ends of two words: the one that is read, and the one that is written."""
    read, written = words.split()
    return BACKS[read], BACKS[written]


def paired(back, interface, name):
    """The first operation of an interface that has the name over a back end, or None."""
    return next((op for op in back.operations(interface) if op[0] == name), None)


def is_number_kept(read, written, interfaces, line):
    """Whether the number of a message of a request is in the message that it is bridged to: over Mach it is only where a reply is awaited."""
    _, operation, _, _ = request_in(BACKS[read], interfaces, line)
    return written != "mach" or not operation.oneway


def bridge(words, interfaces, line):
    """The answer to a line of hexadecimal digits."""
    read, written = backs_of(words)
    try:
        interface, operation, numbers, values = request_in(read, interfaces, line)
    except Refused as refused:
        return str(refused)
    if (other := paired(written, interface, operation[0])) is None:
        return "! pair"
    kept = {**dict.fromkeys(written.keys, 0), KEPT[written.keys]: numbers[KEPT[read.keys]]}
    message = written.message(interface, other, kept, values)
    return message.hex() if len(message) <= LONGEST_MESSAGE else "! long"
