"""Stub code that is run (docs/STUBS.md): on a value, which it sends, and on the octets of a message, of which it receives one.

Code has the form of stub_texts.py, values and nodes that of nodes.py. As all of the model it is written from docs/, with
nothing of the crates in it.
"""
from collections import namedtuple

from nodes import ITEMS, LONG, SHORT, WIDTHS, arm_of, blank, count_of, greatest, is_exact, least, numbers_of, row_kind
from packing import packed, unpacked

WHOLE_WIDTHS = (1, 2, 4, 8)
MOST_CALLS = 4_096  # how deep calls may be nested
MOST_OCTET, MOST_SHORT = 255, 4_095  # the greatest name and size of a descriptor, and number of a short one

Cost = namedtuple("Cost", "checks moves stores rows", defaults=[0] * 4)


class Undefined(Exception):
    """Code that means nothing on a value, or has no room for what it appends."""


def need(holds, why):
    if not holds:
        raise Undefined(why)


# ---- sending

def part(value, path):
    """The part of a value at a path, which goes through structs."""
    for n in path:
        need(isinstance(value, dict) and "group" in value and n < len(value["group"]), "a path that leads nowhere")
        value = value["group"][n]
    return value


def member(value, path, *names):
    """A member of the part at a path."""
    value = part(value, path)
    found = [value[name] for name in names if isinstance(value, dict) and name in value]
    need(found, f"no {' or '.join(names)} at a path")
    return found[0]


def number_at(value, path):
    n = part(value, path)
    need(isinstance(n, int), "no number at a path")
    return n


def elements(value, path):
    """The elements of a list, a row or a text."""
    value = part(value, path)
    need(isinstance(value, dict) and ("items" in value or "row" in value), "no list at a path")
    return value["items"] if "items" in value else numbers_of(value)


def octets_of(n, width, order):
    """A number in two's complement."""
    need(width in WHOLE_WIDTHS, f"the width {width}")
    need(-2 ** (8 * width - 1) <= n < 2 ** (8 * width), "a number that does not fit")
    return (n % 2 ** (8 * width)).to_bytes(width, order)


def octets_of_row(numbers, width, order):
    """Numbers in two's complement, one after the other."""
    need(not numbers or -2 ** (8 * width - 1) <= min(numbers) and max(numbers) < 2 ** (8 * width), "a number that does not fit")
    return packed(numbers, width, order)


def short(name, size, units):
    """A short descriptor."""
    need(max(name, size) <= MOST_OCTET and units <= MOST_SHORT, "a descriptor that does not fit")
    return (SHORT << 28 | units << 16 | size << 8 | name).to_bytes(4, "little")


class Sending:
    """The octets that code appends to those that are there, the room that is left, and what it costs."""

    def __init__(self, head, subs, octets=b""):
        self.head, self.subs, self.octets, self.begin = head, subs, bytearray(octets), len(octets)
        self.room, self.deep, self.counts = 0, 0, [0] * 4

    def cost(self):
        return Cost(*self.counts)

    def count(self, checks=0, moves=0, stores=0, rows=0):
        self.counts = [n + more for n, more in zip(self.counts, (checks, moves, stores, rows))]

    def append(self, octets):
        need(len(octets) <= self.room, f"{len(octets)} octets where {self.room} are ensured")
        self.room -= len(octets)
        self.octets += octets

    def ensure(self, octets):
        self.room = max(self.room, octets)
        self.count(checks=1)

    def run(self, code, value):
        for (word, *words), body in code:
            getattr(self, f"on_{word}")(value, body, *words)

    def on_ensure(self, value, body, octets):
        self.ensure(octets)

    def on_ensure_row(self, value, body, path, unit, extra):
        self.ensure(len(elements(value, path)) * unit + extra)

    def on_align(self, value, body, multiple):
        need(multiple in WHOLE_WIDTHS, f"an align of {multiple}")
        self.append(bytes(-len(self.octets) % multiple))
        self.count(moves=1)

    def on_chunk(self, value, body, size):
        cells = [None] * size
        for offset, word, *words in body:
            octets = getattr(self, f"put_{word}")(value, *words)
            need(offset + len(octets) <= size, "a put that goes beyond its chunk")
            cells[offset:offset + len(octets)] = octets
        need(None not in cells, "an octet that no put fills")
        self.append(bytes(cells))
        self.count(moves=1, stores=len(body))

    def put_num(self, value, path, width, order):
        return octets_of(number_at(value, path), width, order)

    def put_tag(self, value, path, width, order):
        return octets_of(member(value, path, "arm")[0], width, order)

    def put_flag(self, value, path, width, order):
        return octets_of(len(member(value, path, "opt")), width, order)

    def put_count(self, value, path, times, plus, width, order):
        return octets_of(len(elements(value, path)) * times + plus, width, order)

    def put_short(self, value, path, name, size, times):
        return short(name, size, len(elements(value, path)) * times)

    def put_const(self, value, octets):
        return octets

    def put_head(self, value, field, width, order):
        return octets_of(self.head[field], width, order)

    def on_row_copy(self, value, body, path):
        self.row(value, path, "little")

    def on_row_swap(self, value, body, path):
        self.row(value, path, "big")

    def row(self, value, path, order):
        width = WIDTHS[member(value, path, "row")]
        self.append(octets_of_row(elements(value, path), width, order))
        self.count(rows=1)

    def on_row_wide(self, value, body, path, order):
        need(member(value, path, "row"), "no row at a path")
        numbers = elements(value, path)
        self.append(octets_of_row(numbers, 4, order))
        self.count(moves=1, stores=len(numbers))

    def on_each(self, value, body, path):
        for element in elements(value, path):
            self.run(body, element)

    def on_switch(self, value, body, path):
        cases, other = body
        n, inner = member(value, path, "arm")
        code = next((code for number, code in cases if number == n), other)
        need(code is not None, f"no case of {n}")
        self.run(code, inner)

    def on_some(self, value, body, path):
        for inner in member(value, path, "opt"):
            self.run(body, inner)

    def on_call(self, value, body, number, path):
        need(number < len(self.subs), f"no code {number}")
        need(self.deep < MOST_CALLS, "calls that are nested too deep")
        self.deep += 1
        self.run(self.subs[number], part(value, path))
        self.deep -= 1

    def on_patch(self, value, body, at, less, order):
        need(self.begin <= at and at + 4 <= len(self.octets), "a patch outside what was appended")
        self.octets[at:at + 4] = ((len(self.octets) - less) % 2 ** 32).to_bytes(4, order)
        self.count(stores=1)


def sent_by(stub, head, value, octets=b""):
    """The octets after which code has appended a value, and what that costs."""
    sending = Sending(head, stub.subs, octets)
    sending.run(stub.code, value)
    return bytes(sending.octets), sending.cost()


# ---- receiving

class Not(Exception):
    """A test that fails: there is no value."""


class Draft:
    """A value that is being filled. `form` is that of its node, or what was read of it so far:

    `digit` a number of a row; `tagged`, `flagged` and `counted` where the number of a union, that something is there, and
    a length were read; `done` where all was.
    """

    def __init__(self, nodes, id):
        self.nodes, self.id, self.node, self.form = nodes, id, nodes[id], nodes[id][0]
        self.parts = [Draft(nodes, child) for child in self.node[1]] if self.form == "group" else None
        self.length = count_of(self.node, self.place())[1] if self.is_list() and is_exact(self.node, self.place()) else 0

    def is_list(self):
        return self.node[0] in ("items", "row", "text")

    def place(self):
        """Where the node has its count."""
        return 1 if self.node[0] == "text" else 2

    def at(self, path):
        draft = self
        for n in path:
            need(draft.form == "group" and n < len(draft.parts), "a path that leads nowhere")
            draft = draft.parts[n]
        return draft

    def must(self, *forms):
        need(self.form in forms, f"{self.form} in place of {' or '.join(forms)}")

    def done(self, value):
        self.form, self.value = "done", value

    def settled(self):
        """The value: what was not read is blank."""
        if self.form == "done":
            return self.value
        if self.form == "group":
            return {"group": [draft.settled() for draft in self.parts]}
        need(self.form not in ("tagged", "flagged", "counted", "digit"), "a value that is read in part")
        return blank(self.nodes, self.id)

    def set_length(self, n):
        """A length that was read: it has to be allowed."""
        self.must("items", "row", "text")
        word, bound = count_of(self.node, self.place())
        test(n == bound if word == "exactly" else bound is None or n <= bound)
        self.form, self.length = "counted", n

    def length_of(self):
        """How many elements there are, or are to be read."""
        need(self.is_list(), "no list at a path")
        return self.length


class Digit(Draft):
    """A number of a row or a text."""

    def __init__(self, node):
        self.kind, self.form, self.parts = row_kind(node)[0], "digit", None
        self.least, self.greatest = 1 if node[0] == "text" else least(self.kind), greatest(self.kind)

    def allows(self, n):
        return self.least <= n <= self.greatest

    def is_list(self):
        return False


def test(holds):
    if not holds:
        raise Not


class Receiving:
    """The octets of a message from a place on, how many of them are known to be there, and the tests so far."""

    def __init__(self, octets, at, subs):
        self.octets, self.at, self.subs = octets, at, subs
        self.near, self.tests, self.deep = 0, 0, 0

    def needed(self, n):
        self.tests += 1
        test(len(self.octets) - self.at >= n)
        self.near = max(self.near, n)

    def block(self, offset, n):
        need(offset + n <= self.near, "a look at octets that no test has shown")
        return self.octets[self.at + offset:self.at + offset + n]

    def take(self, n):
        octets = self.block(0, n)
        self.at, self.near = self.at + n, self.near - n
        return octets

    def run(self, code, draft):
        for (word, *words), body in code:
            getattr(self, f"on_{word}")(draft, body, *words)

    def on_need(self, draft, body, n):
        self.needed(n)

    def on_need_row(self, draft, body, path, unit, extra):
        self.needed(draft.at(path).length_of() * unit + extra)

    def on_skip(self, draft, body, multiple, what):
        need(multiple in WHOLE_WIDTHS, f"a skip of {multiple}")
        gap = -self.at % multiple
        self.needed(gap)
        octets = self.take(gap)
        test(what == "any" or not any(octets))

    def on_take(self, draft, body, size):
        for offset, word, *words in body:
            getattr(self, f"get_{word}")(draft, offset, *words)
        self.take(size)

    def on_desc(self, draft, body, path, name, size, times):
        self.needed(4)
        number = int.from_bytes(self.take(4), "little")
        form, stated = number >> 28, (number & 0xff, number >> 8 & 0xff, number >> 16 & 0xfff)
        test(form in (SHORT, LONG))
        if form == LONG:
            self.needed(8)
            octets = self.take(8)
            stated = [int.from_bytes(octets[at:end], "little") for at, end in ((0, 2), (2, 4), (4, 8))]
        test((name, size) == tuple(stated[:2]))
        need(times, "a descriptor of 0 units a number")
        test(stated[2] % times == 0)
        draft.at(path).set_length(stated[2] // times)

    def number(self, offset, width, order, signed=False):
        need(width in WHOLE_WIDTHS, f"the width {width}")
        return int.from_bytes(self.block(offset, width), order, signed=signed)

    def get_num(self, draft, offset, path, width, order):
        draft = draft.at(path)
        draft.must("num", "enum", "digit")
        signed = draft.form == "enum" or least(draft.kind if draft.form == "digit" else draft.node[1]) < 0
        n = self.number(offset, width, order, signed)
        test(draft.allows(n) if draft.form == "digit" else is_number_of(draft.node, n))
        draft.done(n)

    def get_tag(self, draft, offset, path, width, order):
        draft = draft.at(path)
        draft.must("choice")
        tag = draft.node[1]
        n = self.number(offset, width, order, not isinstance(tag, str) or least(tag) < 0)
        test((n in tag if not isinstance(tag, str) else least(tag) <= n <= greatest(tag)) and arm_of(draft.node, n) is not None)
        draft.form, draft.tag = "tagged", n

    def get_flag(self, draft, offset, path, width, order):
        draft = draft.at(path)
        draft.must("maybe")
        n = self.number(offset, width, order)
        test(n in (0, 1))
        draft.form = "flagged"
        if n == 0:
            draft.done({"opt": []})

    def get_count(self, draft, offset, path, times, plus, width, order):
        n = self.number(offset, width, order) - plus
        need(times, "a count of 0 a number")
        test(n >= 0 and n % times == 0)
        draft.at(path).set_length(n // times)

    def get_const(self, draft, offset, octets):
        test(self.block(offset, len(octets)) == octets)

    def on_row(self, draft, body, path, order):
        draft = draft.at(path)
        draft.must("row", "text", "counted")
        self.numbers(draft, WIDTHS[row_kind(draft.node)[0]], order)

    def on_row_wide(self, draft, body, path, order):
        draft = draft.at(path)
        draft.must("row", "text", "counted")
        self.numbers(draft, 4, order)

    def numbers(self, draft, width, order):
        """The numbers of a row whose octets were shown."""
        need(draft.node[0] != "items", "a list in place of a row")
        kind, length = row_kind(draft.node)[0], draft.length_of()
        octets, digit = self.take(length * width), Digit(draft.node)
        numbers = unpacked(octets, width, order, least(kind) < 0)
        test(not numbers or digit.allows(min(numbers)) and digit.allows(max(numbers)))
        draft.done({"row": kind, "of": numbers})

    def on_each(self, draft, body, path):
        draft = draft.at(path)
        draft.must("row", "text", "items", "counted")
        inner = [self.inner(body, Digit(draft.node) if draft.node[0] != "items" else Draft(draft.nodes, draft.node[1])) for _ in range(draft.length_of())]
        draft.done({"items": inner} if draft.node[0] == "items" else {"row": row_kind(draft.node)[0], "of": inner})

    def inner(self, body, draft):
        """A value within another."""
        self.run(body, draft)
        return draft.settled()

    def on_switch(self, draft, body, path):
        draft = draft.at(path)
        draft.must("tagged")
        cases, other = body
        code = next((code for number, code in cases if number == draft.tag), other)
        need(code is not None, f"no case of {draft.tag}")
        draft.done({"arm": [draft.tag, self.inner(code, Draft(draft.nodes, arm_of(draft.node, draft.tag)))]})

    def on_some(self, draft, body, path):
        draft = draft.at(path)
        if draft.form == "done" and draft.value == {"opt": []}:
            return
        draft.must("flagged")
        draft.done({"opt": [self.inner(body, Draft(draft.nodes, draft.node[1]))]})

    def on_call(self, draft, body, number, path):
        need(number < len(self.subs), f"no code {number}")
        need(self.deep < MOST_CALLS, "calls that are nested too deep")
        self.deep += 1
        self.run(self.subs[number], draft.at(path))
        self.deep -= 1


def is_number_of(node, n):
    """Whether a number is one of a node of numbers, or one of its labels."""
    return n in node[1] if node[0] == "enum" else least(node[1]) <= n <= greatest(node[1])


def received_by(stub, nodes, id, octets, at):
    """The value that code gives of the octets from a place on, the place after it and the tests; or None. It may not stray."""
    receiving, draft = Receiving(octets, at, stub.subs), Draft(nodes, id)
    try:
        receiving.run(stub.code, draft)
    except Not:
        return None
    return draft.settled(), receiving.at, receiving.tests
