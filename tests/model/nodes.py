"""Values of the nodes of a table: how they are sent over XDR (RFC 4506), over CDR in either order and over Mach,
what values a plan gives, how long what is sent of a node is, and into how many regions a value falls.

Nodes and values have the form of the cases of tests/layers. As all of the model it is written from the
standards and docs/, with nothing of the crates in it.
"""
from functools import lru_cache, reduce

from packing import packed, unpacked

WIDTHS = {"octet": 1, "i8": 1, "u8": 1, "char": 1, "bool": 1, "i16": 2, "u16": 2, "i32": 4, "u32": 4, "i64": 8, "u64": 8}
SIGNED = {"i8", "i16", "i32", "i64"}
ENOUGH = 8192

# An item of a Mach message: the number that names its type, the bits of a unit, and how many units a number has.
ITEMS = {"char": (8, 8, 1), "octet": (9, 8, 1), "i8": (9, 8, 1), "u8": (9, 8, 1), "i16": (1, 16, 1), "u16": (1, 16, 1),
         "bool": (2, 32, 1), "i32": (2, 32, 1), "u32": (2, 32, 1), "i64": (2, 32, 2), "u64": (2, 32, 2)}
MOST_UNITS = 4095  # the most that the short form of a descriptor can state
SHORT, LONG = 0b0001, 0b0011  # the four greatest bits of a descriptor: inline, and inline in the long form


@lru_cache(maxsize=None)
def least(kind):
    return -2 ** (8 * WIDTHS[kind] - 1) if kind in SIGNED else 0


@lru_cache(maxsize=None)
def greatest(kind):
    return 1 if kind == "bool" else least(kind) + 2 ** (8 * WIDTHS[kind]) - 1


def count_of(node, place):
    """The count of a node: None for any, or the word and the number."""
    return next(iter(node[place].items())) if len(node) > place else (None, None)


def is_exact(node, place):
    return count_of(node, place)[0] == "exactly"


def tag_kind(tag):
    """An enum travels as a signed number of 32 bits."""
    return tag if isinstance(tag, str) else "i32"


def arm_of(node, n):
    return next((child for label, child in node[2] if label == n), node[3] if len(node) > 3 else None)


def numbers_of(value):
    """The numbers of a row."""
    if "of" in value:
        return value["of"]
    return unpacked(bytes.fromhex(value["image"]), WIDTHS[value["row"]], "little", value["row"] in SIGNED)


class Xdr:
    """Numbers in four or eight octets, flags in four, octets filled up to a multiple of 4."""

    def __init__(self):
        self.octets, self.begins = bytearray(), []

    def begin(self):
        """Here a part of the value begins."""
        self.begins.append(len(self.octets))

    def number(self, kind, n):
        width = max(4, WIDTHS[kind])
        self.octets += (n % 2 ** (8 * width)).to_bytes(width, "big")

    def numbers(self, kind, numbers):
        """Numbers one after the other."""
        self.octets += packed(numbers, max(4, WIDTHS[kind]), "big")

    def flag(self, there):
        self.number("bool", there)

    def count(self, node, place, length):
        if not is_exact(node, place):
            self.number("u32", length)
            self.begin()

    def block(self, octets):
        self.octets += octets + bytes(-len(octets) % 4)

    def text(self, node, octets):
        self.count(node, 1, len(octets))
        self.block(octets)

    def row(self, node, value):
        numbers = numbers_of(value)
        self.count(node, 2, len(numbers))
        if node[1] == "octet":
            self.block(bytes(numbers))
        elif numbers:
            self.numbers(node[1], numbers)


class Cdr(Xdr):
    """Each number at a multiple of its width, counted from the first octet of the message."""

    def __init__(self, order, at):
        super().__init__()
        self.order, self.at = order, at

    def number(self, kind, n):
        width = WIDTHS[kind]
        self.octets += bytes(-(self.at + len(self.octets)) % width)
        self.octets += (n % 2 ** (8 * width)).to_bytes(width, self.order)

    def numbers(self, kind, numbers):
        """Numbers one after the other: only the first may have zeros before it."""
        width = WIDTHS[kind]
        self.octets += bytes(-(self.at + len(self.octets)) % width) + packed(numbers, width, self.order)

    def block(self, octets):
        self.octets += octets

    def text(self, node, octets):
        self.number("u32", len(octets) + 1)
        self.octets += octets + b"\0"


def is_long(kind, most):
    """Whether a row of at most so many numbers, or of any number (None), is sent in the long form."""
    return most is None or ITEMS[kind][2] * most > MOST_UNITS


def item_width(kind):
    """How many octets a number of an item takes."""
    _, bits, units = ITEMS[kind]
    return bits * units // 8


class Mach(Xdr):
    """Items: a descriptor, numbers with the least significant octet first, and zeros up to a multiple of 4."""

    def item(self, kind, numbers, long=False):
        """An item of some numbers, or of octets."""
        name, bits, units = ITEMS[kind]
        stated = units * len(numbers)
        if long:
            fields = [(LONG << 28, 4), (name, 2), (bits, 2), (stated, 4)]
        else:
            fields = [(SHORT << 28 | stated << 16 | bits << 8 | name, 4)]
        self.octets += b"".join(n.to_bytes(octets, "little") for n, octets in fields)
        width = item_width(kind)
        self.block(numbers if isinstance(numbers, bytes) else packed(numbers, width, "little"))

    def number(self, kind, n):
        self.item(kind, [n])

    def text(self, node, octets):
        self.item("char", octets, is_long("char", count_of(node, 1)[1]))

    def row(self, node, value):
        self.item(node[1], numbers_of(value), is_long(node[1], count_of(node, 2)[1]))


def put(out, nodes, id, value):
    """Appends a value of a node."""
    out.begin()
    node = nodes[id]
    form = node[0]
    if form == "num":
        out.number(node[1], int(value))
    elif form == "enum":
        out.number("i32", value)
    elif form == "text":
        out.text(node, bytes(numbers_of(value)))
    elif form == "row":
        out.row(node, value)
    elif form == "group":
        for child, inner in zip(node[1], value["group"]):
            put(out, nodes, child, inner)
    elif form == "items":
        out.count(node, 2, len(value["items"]))
        for inner in value["items"]:
            put(out, nodes, node[1], inner)
    elif form == "choice":
        n, inner = value["arm"]
        out.number(tag_kind(node[1]), n)
        put(out, nodes, arm_of(node, n), inner)
    elif form == "maybe":
        out.flag(len(value["opt"]))
        for inner in value["opt"]:
            put(out, nodes, node[1], inner)


def sent(encoding, nodes, id, value, at=0):
    """The octets of a value that begins at a position."""
    out = {"xdr": Xdr, "mach": Mach}.get(encoding, lambda: Cdr({"cdr_big": "big", "cdr_little": "little"}[encoding], at))()
    put(out, nodes, id, value)
    return bytes(out.octets)


def borders(nodes, id, value):
    """Where the parts of a value begin over XDR: each value within it, and what follows a count."""
    out = Xdr()
    put(out, nodes, id, value)
    return out.begins


# ---- blank values, and values by a plan

def length(node, place, wanted):
    word, n = count_of(node, place)
    return {"exactly": n, "most": min(wanted, n or 0), None: wanted}[word]


def blank(nodes, id):
    """The value that stands where none is given: 0, the first label or arm, and no more elements than there have to be."""
    node = nodes[id]
    form = node[0]
    if form == "num":
        return 0
    if form == "enum":
        return node[1][0]
    if form == "text":
        return {"row": "char", "of": []}
    if form == "row":
        return {"row": node[1], "of": [0] * length(node, 2, 0)}
    if form == "group":
        return {"group": [blank(nodes, child) for child in node[1]]}
    if form == "items":
        return {"items": [blank(nodes, node[1])] * length(node, 2, 0)}
    if form == "choice":
        n, child = node[2][0] if node[2] else (0 if isinstance(node[1], str) else node[1][0], node[3])
        return {"arm": [n, blank(nodes, child)]}
    return {"opt": []} if form == "maybe" else None


def number(kind, first, i):
    n = first + i % 100
    return n if least(kind) <= n <= greatest(kind) else 1


def row(kind, count, first):
    return {"row": kind, "image": packed([number(kind, first, i) for i in range(count)], WIDTHS[kind], "little").hex()}


def planned(nodes, id, plan, arm=None):
    """The value of a node that a plan gives: `items` are the lengths of lists within one another, the last also that of
    all deeper ones, and `numbers` is the length of texts and rows, where they may be so; `arm` is the place of a union's
    arm, else the default or the first; `there` says whether there is what may be there; numbers begin at `first`."""
    node, arm = nodes[id], plan["arm"] if arm is None else arm
    form = node[0]
    if form == "num":
        return number(node[1], plan["first"], id)
    if form == "enum":
        return 5
    if form == "text":
        return row("char", length(node, 1, plan["numbers"]), 25)
    if form == "row":
        return row(node[1], length(node, 2, plan["numbers"]), plan["first"])
    if form == "group":
        return {"group": [planned(nodes, child, plan, arm) for child in node[1]]}
    if form == "items":
        wanted, *deeper = plan["items"]
        inner = {**plan, "items": deeper or [wanted]}
        return {"items": [planned(nodes, node[1], inner, arm + i) for i in range(length(node, 2, wanted))]}
    if form == "choice":
        n, child = node[2][arm] if arm < len(node[2]) else (77, node[3]) if len(node) > 3 else node[2][0]
        return {"arm": [n, planned(nodes, child, plan, arm)]}
    if form == "maybe":
        return {"opt": [planned(nodes, node[1], plan, arm)] if plan["there"] else []}
    return None


# ---- how long what is sent is: from each position modulo 8, or the greatest length, or neither

GREATEST_LENGTH = 2 ** 32 - 1


def width_of(encoding, kind):
    return max(4, WIDTHS[kind]) if encoding == "xdr" else WIDTHS[kind]


def filled(octets):
    """So many octets up to a multiple of 4."""
    return -(-octets // 4) * 4


def descriptor(kind, most):
    """How long the descriptor of a row of at most so many numbers, or of any number (None), is where it is sent."""
    return 12 if is_long(kind, most) else 4


def item(node, place, kind):
    """An item of a row or a text."""
    word, n = count_of(node, place)
    if word is None:
        return None
    octets = descriptor(kind, n) + filled(n * item_width(kind))
    return [octets] * 8 if word == "exactly" else octets


def scalar(encoding, kind):
    if encoding == "mach":
        return [descriptor(kind, 1) + filled(item_width(kind))] * 8
    width = width_of(encoding, kind)
    return [width if encoding == "xdr" else -at % width + width for at in range(8)]


def top(span):
    return max(span) if isinstance(span, list) else span


def after(first, second):
    """One part and another after it."""
    if isinstance(first, list) and isinstance(second, list):
        return [first[at] + second[(at + first[at]) % 8] for at in range(8)]
    return None if None in (top(first), top(second)) else top(first) + top(second)


def repeated(span, times):
    """So many parts, by halves."""
    if not isinstance(span, list):
        return None if span is None else span * times
    if times == 0:
        return [0] * 8
    half = repeated(span, times // 2)
    return after(span, after(half, half)) if times % 2 else after(half, half)


def block(encoding, node, place, unit, last):
    """So many octets after their count, in whole units, and a last one."""
    word, n = count_of(node, place)
    if word is None:
        return None
    octets = -(-n // unit) * unit + last
    return [octets] * 8 if word == "exactly" else top(scalar(encoding, "u32")) + octets


def listed(encoding, node, element, aligned):
    """So many elements after their count; `aligned` is what stands before the first at most, where no other has any."""
    word, n = count_of(node, 2)
    if word is None:
        return None
    if word == "exactly":
        return repeated(element, n)
    if top(element) is None:
        return None
    each = n * top(element) if aligned is None else aligned[0] + n * aligned[1]
    return top(scalar(encoding, "u32")) + each


def row_kind(node):
    """The kind of the numbers of a row or a text, and the place of its count in the node."""
    return ("char", 1) if node[0] == "text" else (node[1], 2)


def span(encoding, nodes, id):
    """The length of a node, which has no bound where 32 bits do not hold it."""
    whole = added_up(encoding, nodes, id)
    return None if top(whole) is None or top(whole) > GREATEST_LENGTH else whole


def added_up(encoding, nodes, id):
    node = nodes[id]
    form = node[0]
    if form == "num":
        return scalar(encoding, node[1])
    if form == "enum":
        return scalar(encoding, "i32")
    if encoding == "mach" and form in ("text", "row"):
        kind, place = row_kind(node)
        return item(node, place, kind)
    if form == "text":
        return block(encoding, node, 1, 4, 0) if encoding == "xdr" else block(encoding, node, 1, 1, 1)
    if form == "row" and node[1] == "octet":
        return block(encoding, node, 2, 4 if encoding == "xdr" else 1, 0)
    if form == "row":
        width = width_of(encoding, node[1])
        # A count ends at a multiple of 4.
        return listed(encoding, node, scalar(encoding, node[1]), (4 if encoding != "xdr" and width == 8 else 0, width))
    if form == "group":
        parts = [span(encoding, nodes, child) for child in node[1]]
        if all(isinstance(part, list) for part in parts):
            return reduce(after, parts, [0] * 8)
        return None if None in parts else sum(top(part) for part in parts)
    if form == "items":
        return listed(encoding, node, span(encoding, nodes, node[1]), None)
    if form == "choice":
        tops = [top(span(encoding, nodes, child)) for child in [*(child for _, child in node[2]), *node[3:]]]
        return after(scalar(encoding, tag_kind(node[1])), None if None in tops else max(tops))
    if form == "maybe":
        return after(scalar(encoding, "bool"), top(span(encoding, nodes, node[1])))
    return [0] * 8


def span_told(span):
    """The answer to a row about the length of a node."""
    if span is None:
        return "Unbounded"
    return f"Fixed({span})" if isinstance(span, list) else f"Bounded({span})"


# ---- regions

class Regions:
    """The regions of a value so far, and the octets of the one that is open."""

    def __init__(self, encoding, nodes):
        self.encoding, self.nodes = encoding, nodes
        self.spans = {}
        self.count, self.open = 0, None

    def small(self, n):
        if n:
            if self.open is None or self.open + n > ENOUGH:
                self.count, self.open = self.count + 1, 0
            self.open += n

    def row(self):
        self.count, self.open = self.count + 1, None

    def border(self):
        self.open = None

    def span(self, id):
        if id not in self.spans:
            self.spans[id] = span(self.encoding, self.nodes, id)
        return self.spans[id]

    def number(self, kind):
        self.small(top(scalar(self.encoding, kind)))

    def length(self, node, place):
        if not is_exact(node, place):
            self.number("u32")

    def fall(self, id, value):
        """The parts of a value, from left to right."""
        node = self.nodes[id]
        form, most = node[0], top(self.span(id))
        if most is not None and most <= ENOUGH:
            self.small(most)
        elif form == "group":
            for child, inner in zip(node[1], value["group"]):
                self.fall(child, inner)
        elif form in ("text", "row"):
            kind, place = row_kind(node)
            if self.encoding == "mach":
                self.small(descriptor(kind, count_of(node, place)[1]))
            else:
                self.length(node, place)
            self.row()
        elif form == "items":
            self.length(node, 2)
            if isinstance(self.span(node[1]), list):
                self.row()
            else:
                self.apart([(node[1], inner) for inner in value["items"]])
        elif form == "choice":
            self.number(tag_kind(node[1]))
            self.apart([(arm_of(node, value["arm"][0]), value["arm"][1])])
        elif form == "maybe":
            self.number("bool")
            self.apart([(node[1], inner) for inner in value["opt"]])

    def apart(self, parts):
        """Parts between borders."""
        self.border()
        for id, value in parts:
            self.fall(id, value)
            self.border()


def regions(encoding, nodes, id, value, lead):
    """How many regions a value has after a lead of so many octets."""
    whole = Regions(encoding, nodes)
    whole.small(lead)
    whole.fall(id, value)
    return whole.count
