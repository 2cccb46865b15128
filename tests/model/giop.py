"""Heads of GIOP messages, versions 1.0 and 1.2 (OMG CORBA, chapter GIOP), in either order, and values read over CDR.

A version is told by its minor number, 0 or 2. As all of the model it is written from the standard and docs/, with nothing of the crates in it.
"""
from nodes import WIDTHS, arm_of, count_of, greatest, is_exact, least, sent, tag_kind
from packing import unpacked

REQUEST, REPLY, LOCATE_REQUEST, LOCATE_REPLY, MESSAGE_ERROR = 0, 1, 3, 4, 6
USER, SYSTEM, NEEDS_ADDRESSING = 1, 2, 5
VERSIONS = {b"\1\0": 0, b"\1\2": 2}
KEY, PROFILE, REFERENCE = 0, 1, 2  # what the target of a request of 1.2 is
ORDERS = ("big", "little")
ENCODINGS = {"cdr_big": "big", "cdr_little": "little"}


class Stop(Exception):
    """The first item that is cut off or wrong, and its place."""

    def __init__(self, kind, at):
        super().__init__(f"{kind} {at}")
        self.kind = kind


class Reading:
    """The octets of a message from a place on."""

    def __init__(self, octets, at, order):
        self.octets, self.at, self.order = octets, at, order

    def number(self, width, signed=False):
        """A number at a multiple of its width, and where it begins."""
        place = self.at + -self.at % width
        if len(self.octets) < place + width:
            raise Stop("Short", place)
        self.at = place + width
        return place, int.from_bytes(self.octets[place:self.at], self.order, signed=signed)

    def numbers(self, length, width, signed=False):
        """So many numbers one after the other, or None where they are not all there."""
        place = self.at + -self.at % width if length else self.at
        if len(self.octets) < place + length * width:
            return None
        self.at = place + length * width
        return unpacked(self.octets[place:self.at], width, self.order, signed)

    def text(self, length):
        """A text of so many octets with the NUL that ends it, without it: no other is 0, and the first fault counts."""
        end = self.octets.find(b"\0", self.at, self.at + length)
        last = self.at + length - 1
        if 0 <= end < last:
            raise Stop("BadText", end)
        if last >= len(self.octets):
            raise Stop("Short", len(self.octets))
        if end < 0:
            raise Stop("BadText", last)
        return self.block(length)[:-1]

    def block(self, length):
        """So many octets: the first that is not there is the fault."""
        if len(self.octets) - self.at < length:
            raise Stop("Short", len(self.octets))
        self.at += length
        return self.octets[self.at - length:self.at]

    def long(self, greatest=2 ** 32 - 1):
        place, n = self.number(4)
        if n > greatest:
            raise Stop("Item", place)
        return n

    def flag(self):
        place, n = self.number(1)
        if n > 1:
            raise Stop("Item", place)
        return n == 1

    def target(self):
        """What tells the object that is called."""
        place, n = self.number(2, signed=True)
        if n not in (KEY, PROFILE, REFERENCE):
            raise Stop("Item", place)
        return n

    def end(self):
        """Goes over the octets that align a body of 1.2, as far as they are there."""
        self.at = min(self.at + -self.at % 8, len(self.octets))

    def sequence(self):
        return self.block(self.long())

    def string(self):
        """Octets without the NUL that ends them."""
        octets = self.block(self.long())
        if octets.find(b"\0") != len(octets) - 1 or not octets:
            raise Stop("Text", self.at)
        return octets[:-1]

    def contexts(self):
        for _ in range(self.long()):
            self.long()
            self.sequence()


# ---- heads that are read

def header(message, expected):
    """The version, the order and the type of a message, and what follows its header."""
    if len(message) < 12:
        raise Stop("Short", 0)
    if message[:4] != b"GIOP":
        raise Stop("Magic", 0)
    if message[4:6] not in VERSIONS:
        raise Stop("Version", 4)
    if message[6] > 1:
        raise Stop("Order", 6)
    if message[7] not in expected:
        raise Stop("Type_", 7)
    order = ORDERS[message[6]]
    if int.from_bytes(message[8:12], order) != len(message) - 12:
        raise Stop("Size", 8)
    return VERSIONS[message[4:6]], order, message[7], Reading(message, 12, order)


def read_request(fields):
    """The fields of a Request of 1.0."""
    fields.contexts()
    said = {"ask": "request", "id": fields.long(), "wants": fields.flag(), "key": fields.sequence(), "name": fields.string()}
    fields.sequence()
    return said


def read_request_of_2(fields):
    """The fields of a Request of 1.2, and where they end before what aligns a body. What follows a target that is no key is not looked at."""
    said = {"id": fields.long(), "wants": fields.block(1)[0] & 1 == 1}
    fields.block(3)
    if fields.target() != KEY:
        return {"ask": "addressing", **said}
    said.update(ask="request", key=fields.sequence(), name=fields.string())
    fields.contexts()
    said["ends"] = fields.at
    fields.end()
    return said


def read_locate(fields, version):
    """The fields of a LocateRequest."""
    id = fields.long()
    if version == 2 and fields.target() != KEY:
        raise Stop("Target", fields.at - 2)
    key = fields.sequence()
    if fields.at != len(fields.octets):
        raise Stop("Size", fields.at)
    return {"ask": "locate", "id": id, "key": key}


def read_call(message, expected=(REQUEST, LOCATE_REQUEST)):
    """What a Request or a LocateRequest says."""
    version, order, kind, fields = header(message, expected)
    if kind == LOCATE_REQUEST:
        said = read_locate(fields, version)
    else:
        said = (read_request_of_2 if version == 2 else read_request)(fields)
    return {**said, "version": version, "order": order, "used": fields.at}


def read_reply(message):
    """What a Reply says: an answer, a user exception or a system exception."""
    version, order, _, fields = header(message, (REPLY,))
    if version == 0:
        fields.contexts()
    told = {"version": version, "order": order, "id": fields.long(), "status": fields.long(SYSTEM)}
    if version == 2:
        fields.contexts()
        fields.end()
    if told["status"] in (USER, SYSTEM):
        told["exception"] = fields.string()
    if told["status"] == SYSTEM:
        told["minor"], told["completion"] = fields.long(), fields.long(2)
    return {**told, "used": fields.at}


def told(read, message):
    """The answer to a row of heads. Behind the first word of what a message of 1.2 says stands its version."""
    try:
        said = read(message)
    except Stop as stop:
        return stop.kind
    order = {"big": "Big", "little": "Little"}[said["order"]]
    ask = said.get("ask") or ("answer", "user", "system")[said["status"]]
    words = [f"{ask}{' 1.2' * (said['version'] == 2)} {said['id']}"]
    if ask in ("request", "addressing"):
        words.append("wants" if said["wants"] else "oneway")
    words += [order] * (ask != "locate")
    words += [said[octets].hex() or "-" for octets in ("key", "name", "exception") if octets in said]
    words += [str(said[number]) for number in ("minor", "completion") if number in said]
    return " ".join([*words, str(said["used"])] if ask not in ("locate", "addressing") else words)


# ---- heads that are sent

def long(order, n):
    return n.to_bytes(4, order)


def message(order, kind, fields, version=0):
    """A header, and the octets of the fields."""
    return b"GIOP\1" + bytes([version, ORDERS.index(order), kind]) + long(order, len(fields)) + fields


def aligned(fields, width=4):
    """Zeros up to a multiple of the width, counted from the message's first octet."""
    return fields + bytes(-(12 + len(fields)) % width)


def before_body(fields, version):
    """The fields with what aligns a body of that version, if there is one."""
    return aligned(fields, 8) if version == 2 else fields


def sequence(order, fields, octets):
    return aligned(fields) + long(order, len(octets)) + octets


def request_fields(order, id, wants, key, name, version=0):
    """The fields of a request before its body: no contexts and an empty principal, or the key as the target and no contexts."""
    if version == 2:
        return request_fields_of_2(order, id, wants, key, name)
    fields = long(order, 0) + long(order, id) + bytes([wants])
    fields = sequence(order, fields, key.encode())
    fields = sequence(order, fields, name.encode() + b"\0")
    return sequence(order, fields, b"")


def request_fields_of_2(order, id, wants, key, name):
    """Both lower bits of the flags say that a reply is wanted."""
    fields = long(order, id) + bytes([3 if wants else 0, 0, 0, 0]) + KEY.to_bytes(2, order)
    fields = sequence(order, fields, key.encode())
    fields = sequence(order, fields, name.encode() + b"\0")
    return sequence(order, fields, b"")


def reply_fields(order, id, status, version=0):
    """The fields of a reply before its body, with no contexts; in 1.2 they end at a multiple of 8."""
    told = [long(order, id), long(order, status)]
    return b"".join([*told, long(order, 0)] if version == 2 else [long(order, 0), *told])


def with_values(order, fields, nodes, values, version):
    """Fields with the values of nodes behind them, each node by its table and id."""
    body = before_body(fields, version)
    begin = len(body)
    for (table, node), value in zip(nodes, values):
        body += sent(f"cdr_{order}", table, node, value, 12 + len(body))
    return body if len(body) > begin else fields


def request(order, id, wants, key, name, nodes=(), values=(), version=0):
    """A request whose arguments are values of nodes, each by its id and the table."""
    fields = request_fields(order, id, wants, key, name, version)
    return message(order, REQUEST, with_values(order, fields, nodes, values, version), version)


def refusal(order, id, exception, minor=None, completion=None, version=0):
    """The reply that refuses a request by an exception."""
    fields = sequence(order, reply_fields(order, id, USER if minor is None else SYSTEM, version), exception + b"\0")
    if minor is not None:
        fields = aligned(fields) + long(order, minor) + long(order, completion)
    return message(order, REPLY, fields, version)


def addressing(order, id):
    """The reply of 1.2 that asks for another target: the object's key."""
    return message(order, REPLY, reply_fields(order, id, NEEDS_ADDRESSING, 2) + KEY.to_bytes(2, order), 2)


# ---- values that are read

def bound_of(node, place):
    word, n = count_of(node, place)
    return n if word == "most" else 2 ** 32 - 1


def read_number(reading, kind, allowed=None):
    place, n = reading.number(WIDTHS[kind], least(kind) < 0)
    if not (n in allowed if allowed is not None else least(kind) <= n <= greatest(kind)):
        raise Stop("BadValue", place)
    return n


def read_count(reading, node, place):
    """The number of elements, which a fixed one does not travel with."""
    if is_exact(node, place):
        return count_of(node, place)[1]
    at, n = reading.number(4)
    if n > bound_of(node, place):
        raise Stop("OverBound", at)
    return n


def read_text(reading, node):
    at, n = reading.number(4)
    if n == 0:
        raise Stop("BadText", at)
    if n - 1 > bound_of(node, 1):
        raise Stop("OverBound", at)
    return {"row": "char", "of": list(reading.text(n))}


def read_value(reading, nodes, id):
    """A value of a node."""
    node = nodes[id]
    form = node[0]
    if form == "num":
        return read_number(reading, node[1])
    if form == "enum":
        return read_number(reading, "i32", node[1])
    if form == "text":
        return read_text(reading, node)
    if form == "row" and node[1] in ("octet", "char", "u8"):
        return {"row": node[1], "of": list(reading.block(read_count(reading, node, 2)))}
    if form == "row":
        return {"row": node[1], "of": [read_number(reading, node[1]) for _ in range(read_count(reading, node, 2))]}
    if form == "group":
        return {"group": [read_value(reading, nodes, child) for child in node[1]]}
    if form == "items":
        return {"items": [read_value(reading, nodes, node[1]) for _ in range(read_count(reading, node, 2))]}
    if form == "choice":
        tag = node[1]
        n = read_number(reading, tag_kind(tag), None if isinstance(tag, str) else tag)
        if arm_of(node, n) is None:
            raise Stop("BadValue", reading.at - WIDTHS[tag_kind(tag)])
        return {"arm": [n, read_value(reading, nodes, arm_of(node, n))]}
    if form == "maybe":
        return {"opt": [read_value(reading, nodes, node[1])] if read_number(reading, "bool") else []}
    return None


def read_body(encoding, nodes, id, at, octets):
    """How many octets a value takes from a place of a message and what it is sent as, or the first fault."""
    reading = Reading(octets, at, ENCODINGS[encoding])
    try:
        value = read_value(reading, nodes, id)
    except Stop as stop:
        return str(stop)
    return f"{reading.at - at} {sent(encoding, nodes, id, value, at).hex()}"
