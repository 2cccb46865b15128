"""Messages of Mach 3 with typed items: their heads, and the values of nodes and of an interface file's types in them.

The layout is a profile of our own after the manuals of Mach (docs/FORMATS.md). As all of the model it is written from
the rules, with nothing of the crates in it.
"""
from corba_scopes import Char
from giop import Stop
from nodes import ITEMS, LONG, SHORT, Mach as Writing, arm_of, blank, count_of, greatest, is_exact, is_long, item_width, least, sent, span, span_told, tag_kind
from packing import unpacked
from values import Array, Bool, Enum, Fault, Number, Opaque, Pointer, String, Struct, Union

HEADER = 24  # the octets of a header: bits, size, remote port, local port, sequence number and id
COPY_SEND, MOVE_SEND_ONCE, MAKE_SEND_ONCE = 19, 18, 21  # what becomes of a port's right
COMPLEX = 1 << 31  # the bit of messages that carry rights or memory
REPLY_ID = 100  # how much greater the id of a reply is than that of its request


class Reading:
    """The octets of a message from a place on; each item begins at a multiple of 4."""

    def __init__(self, octets, at):
        self.octets, self.at = octets, at

    def number(self, width, signed=False):
        """A number, and where it begins."""
        place = self.at
        if len(self.octets) - place < width:
            raise Stop("Short", place)
        self.at += width
        return place, int.from_bytes(self.octets[place:self.at], "little", signed=signed)

    def padding(self):
        """Octets up to a multiple of 4, whatever they are: the first that is not there is the fault."""
        self.at += -self.at % 4
        if self.at > len(self.octets):
            raise Stop("Short", len(self.octets))

    def descriptor(self, kind, forms):
        """A descriptor in one of these forms: where it begins, and how many units it states."""
        place, word = self.number(4)
        form = word >> 28
        if form not in forms:
            raise Stop("BadItem", place)
        name, bits, stated = word & 0xff, word >> 8 & 0xff, word >> 16 & 0xfff
        if form == LONG:
            if len(self.octets) - place < 12:
                raise Stop("Short", place)
            (_, name), (_, bits), (_, stated) = self.number(2), self.number(2), self.number(4)
        if (name, bits) != ITEMS[kind][:2]:
            raise Stop("BadItem", place)
        return place, stated

    def scalar(self, kind, is_right, fault="BadValue"):
        """The item of one number, which is tested before what fills the item up."""
        place, stated = self.descriptor(kind, [SHORT])
        if stated != ITEMS[kind][2]:
            raise Stop("BadItem", place)
        place, n = self.number(item_width(kind), least(kind) < 0)
        if not is_right(n):
            raise Stop(fault, place)
        self.padding()
        return n

    def flag(self):
        return self.scalar("i32", lambda n: n in (0, 1))

    def count(self, exact, bound):
        """The number of elements, which has an item where it is not fixed."""
        return bound if exact else self.scalar("u32", lambda n: bound is None or n <= bound, "OverBound")

    def length(self, kind, exact, bound):
        """The number of elements that the descriptor of a row states: a fixed row has one form, any other has both."""
        place, stated = self.descriptor(kind, [LONG if is_long(kind, bound) else SHORT] if exact else [SHORT, LONG])
        length, rest = divmod(stated, ITEMS[kind][2])
        if rest or (exact and length != bound):
            raise Stop("BadItem", place)
        if bound is not None and length > bound:
            raise Stop("OverBound", place)
        return length

    def image(self, kind, exact, bound):
        """The octets of a row's numbers: the first number that is not there in full is the fault."""
        length, width = self.length(kind, exact, bound), item_width(kind)
        there = min(length, (len(self.octets) - self.at) // width)
        image = self.octets[self.at:self.at + there * width]
        self.at += len(image)
        if there < length:
            raise Stop("Short", self.at)
        self.padding()
        return image

    def row(self, kind, exact, bound):
        image, width = self.image(kind, exact, bound), item_width(kind)
        return unpacked(image, width, "little", least(kind) < 0)

    def text(self, bound):
        length = self.length("char", False, bound)
        octets = self.octets[self.at:self.at + length]
        if 0 in octets:
            raise Stop("BadText", self.at + octets.index(0))
        if len(octets) < length:
            raise Stop("Short", len(self.octets))
        self.at += length
        self.padding()
        return octets


# ---- heads that are read

def header(message):
    """The remote port, the local port and the id of a message."""
    if len(message) < HEADER:
        raise Stop("Short", 0)
    bits, size, remote, local, _, id = (int.from_bytes(message[at:at + 4], "little") for at in range(0, HEADER, 4))
    if bits & COMPLEX:
        raise Stop("Complex", 0)
    if size != len(message):
        raise Stop("Size", 4)
    return remote, local, id


def read_call(message):
    """What the head of a request says."""
    remote, local, id = header(message)
    return {"remote": remote, "local": local, "id": id, "used": HEADER}


def read_reply(message, expected, exceptions=0):
    """What the head of a reply says that must have an id: its return code is 0 where an answer follows.

    Of an operation that raises so many exceptions, the number of the arm stands between the two.
    """
    remote, local, id = header(message)
    if id != expected:
        raise Stop("Type_", 20)
    reading = Reading(message, HEADER)
    try:
        code = reading.scalar("i32", lambda _: True)
    except Stop as stop:
        raise Stop("Item" if stop.kind == "BadItem" else stop.kind, HEADER) from None
    arm = arm_in(reading, exceptions) if exceptions and code == 0 else 0
    return {"remote": remote, "local": local, "code": code, "arm": arm, "used": reading.at}


def arm_in(reading, exceptions):
    """The number of an arm, which is unsigned, in an item as that of a return code."""
    at = reading.at
    try:
        arm = reading.scalar("i32", lambda _: True) % 2 ** 32
    except Stop as stop:
        raise Stop("Item" if stop.kind == "BadItem" else stop.kind, at) from None
    if arm > exceptions:
        raise Stop("Item", at)
    return arm


# ---- heads that are sent

def message(bits, remote, local, id, body):
    """A header with the size of the whole, and what follows it."""
    words = (bits, HEADER + len(body), remote, local, 0, id % 2 ** 32)
    return b"".join(word.to_bytes(4, "little") for word in words) + body


def request(remote, local, id, wants, body):
    """A request; one that wants no reply has no local port."""
    return message(COPY_SEND | MAKE_SEND_ONCE << 8, remote, local, id, body) if wants else message(COPY_SEND, remote, 0, id, body)


def reply(port, id, code, body=b""):
    """The reply to the request with an id, to its local port: an answer, or by its return code alone a refusal."""
    out = Writing()
    out.number("i32", code)
    return message(MOVE_SEND_ONCE, port, 0, id + REPLY_ID, out.octets + body)


# ---- values of nodes that are read

def is_of(kind):
    return lambda n: least(kind) <= n <= greatest(kind)


def is_tag(tag):
    """Whether a number is one of a tag, which is a kind or labels."""
    return is_of(tag) if isinstance(tag, str) else lambda n: n in tag


def count_in(node, place):
    """Whether a count is fixed, and the number in it, or None."""
    return is_exact(node, place), count_of(node, place)[1]


def read_value(reading, nodes, id):
    """A value of a node."""
    node = nodes[id]
    form = node[0]
    if form == "num":
        return reading.scalar(node[1], is_of(node[1]))
    if form == "enum":
        return reading.scalar("i32", is_tag(node[1]))
    if form == "text":
        return {"row": "char", "of": list(reading.text(count_in(node, 1)[1]))}
    if form == "row":
        return {"row": node[1], "of": reading.row(node[1], *count_in(node, 2))}
    if form == "group":
        return {"group": [read_value(reading, nodes, child) for child in node[1]]}
    if form == "items":
        return {"items": [read_value(reading, nodes, node[1]) for _ in range(reading.count(*count_in(node, 2)))]}
    if form == "choice":
        n = reading.scalar(tag_kind(node[1]), lambda n: is_tag(node[1])(n) and arm_of(node, n) is not None)
        return {"arm": [n, read_value(reading, nodes, arm_of(node, n))]}
    if form == "maybe":
        return {"opt": [read_value(reading, nodes, node[1])] if reading.flag() else []}
    return None


def read_body(encoding, nodes, id, at, octets):
    """How many octets a value takes from a place of a message and what it is sent as, or the first fault."""
    reading = Reading(octets, at)
    try:
        value = read_value(reading, nodes, id)
    except Stop as stop:
        return str(stop)
    return f"{reading.at - at} {sent(encoding, nodes, id, value).hex()}"


# ---- rows of the tables

def told(case):
    """The answer to a case of heads that are read."""
    octets = bytes.fromhex(case["octets"])
    try:
        said = read_call(octets) if case["ask"] == "mach call" else read_reply(octets, case["id"], case.get("raises", 0))
    except Stop as stop:
        return stop.kind
    what = f"request {said['id']}" if "id" in said else f"code {said['code']}" if said["code"] else f"raised {said['arm']}" if said["arm"] else "answer"
    return f"{what} {said['remote']} {said['local']} {said['used']}"


def answer(case):
    """The answer to a case: of a head that is read or sent, of a value, or of the length of a node."""
    ask, octets = case["ask"], bytes.fromhex(case.get("octets", ""))
    if ask in ("mach call", "mach reply"):
        return told(case)
    if ask == "mach request":
        return request(case["remote"], case["local"], case["id"], case["wants"], octets).hex()
    if ask in ("mach answer", "mach refuse"):
        return reply(case["remote"], case["id"], case.get("code", 0), octets).hex()
    nodes = case["nodes"]
    id = case.get("id", len(nodes) - 1)
    if ask == "span":
        return span_told(span(case["in"], nodes, id))
    if ask == "read":
        return read_body(case["in"], nodes, id, case.get("at", 0), octets)
    return sent(case["in"], nodes, id, case["value"] if "value" in case else blank(nodes, id)).hex()


# ---- values of an interface file's types

def kind_of(ty):
    """The kind of a number, of the octets of a text, or of those of an opaque."""
    if isinstance(ty, (Bool, Enum)):
        return "bool" if isinstance(ty, Bool) else "i32"
    if isinstance(ty, Opaque):
        return "char" if isinstance(ty, String) else "octet"
    if isinstance(ty, Char):
        return "char"
    return f"{'i' if ty.signed else 'u'}{ty.bits}"


def is_row(ty):
    """Whether an array has one item for all of its elements: booleans and enums have one each."""
    return isinstance(ty.element, Number) and not isinstance(ty.element, (Bool, Enum))


def put(out, ty, value):
    """Appends a value of a type."""
    if isinstance(ty, Number):
        out.number(kind_of(ty), value)
    elif isinstance(ty, Opaque):
        out.item(kind_of(ty), value, is_long(kind_of(ty), ty.count.bound))
    elif isinstance(ty, Array) and is_row(ty):
        out.item(kind_of(ty.element), value, is_long(kind_of(ty.element), ty.count.bound))
    elif isinstance(ty, Array):
        if not ty.count.exact:
            out.number("u32", len(value))
        for element in value:
            put(out, ty.element, element)
    elif isinstance(ty, Pointer):
        out.number("i32", len(value or []))
        for element in value or []:
            put(out, ty.array.element, element)
    elif isinstance(ty, Struct):
        for (_, field), part in zip(ty.fields, value):
            put(out, field, part)
    elif isinstance(ty, Union):
        put(out, ty.tag, value[0])
        put(out, ty.arm(value[0]), value[1])


def value_in(reading, ty):
    """A value of a type."""
    if isinstance(ty, Number):
        return reading.scalar(kind_of(ty), ty.has)
    if isinstance(ty, String):
        return reading.text(ty.count.bound)
    if isinstance(ty, Opaque):
        return reading.image("octet", ty.count.exact, ty.count.bound)
    if isinstance(ty, Array) and is_row(ty):
        return reading.row(kind_of(ty.element), ty.count.exact, ty.count.bound)
    if isinstance(ty, Array):
        return [value_in(reading, ty.element) for _ in range(reading.count(ty.count.exact, ty.count.bound))]
    if isinstance(ty, Pointer):
        return [value_in(reading, ty.array.element)] if reading.flag() else None
    if isinstance(ty, Struct):
        return [value_in(reading, field) for _, field in ty.fields]
    if isinstance(ty, Union):
        n = reading.scalar(kind_of(ty.tag), lambda n: ty.tag.has(n) and ty.arm(n) is not None)
        return n, value_in(reading, ty.arm(n))
    return None


class Mach:
    """Messages of Mach, which a request record gives its two ports."""

    keys = ("remote", "local")

    def operations(self, interface):
        return interface.own

    def message(self, interface, operation, ports, values):
        """The request of an operation, which wants a reply unless it is oneway, as none of ONC is."""
        out = Writing()
        for ty, value in zip(operation[2], values):
            put(out, ty, value)
        return request(ports["remote"], ports["local"], interface.base + interface.slot(operation), not operation.oneway, out.octets)

    def head(self, octets):
        """The ports, a test of interfaces and one of their operations, and a reader of values."""
        said = read_call(octets)
        ports = {"remote": said["remote"], "local": said["local"]}
        return ports, lambda i: 0 <= said["id"] - i.base < i.slots, lambda i, op: i.base + i.slot(op) == said["id"], Reading(octets, said["used"])

    def read(self, reading, ty):
        try:
            return value_in(reading, ty)
        except Stop as stop:
            raise Fault(*str(stop).split()) from None
