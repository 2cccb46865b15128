#!/usr/bin/env python3
"""Samples of stub code, made by the rules of docs/STUBS.md, and their check: stub_samples.py [SEED [FILES]]

No code of a stub is fixed: what is fixed is its text's form, what it means, and bounds of its cost. So these samples are
no answers; they are for trying the model, and for looking at what a change of a type does. Code has the form of
stub_texts.py. Run by itself it checks over random files that samples send and receive what the rest of the model does.
"""
import random
import sys

import corba_samples
import mig
import mig_samples
from calls import BACKS
from corba_names import interfaces_of as corba_interfaces_of
from corba_nodes import told_of_names
from counting import ENCODINGS, requests_of, stubs_wrong
from files import interfaces_of
from giop import REQUEST, before_body, request_fields
from giop import message as giop_message
from mach import request as mach_request
from nodes import ENOUGH, ITEMS, LONG, MOST_UNITS, SHORT, WIDTHS, arm_of, count_of, is_exact, is_long, row_kind, span, tag_kind, top
from samples import FileMaker, long_file, widened
from stub_chunks import Phase, chunked
from stub_runs import Undefined, received_by, sent_by
from stub_takes import STARTS, joined
from stub_texts import Stub, lines_of, stubs_of, text_of

ORDER_OF = {"xdr": "big", "cdr_big": "big", "cdr_little": "little", "mach": "little"}


# ---- sending

def chunk(size, *puts):
    return [(("chunk", size), list(puts))]


def align(width):
    return [(("align", width), None)] if width > 1 else []


def width_of(encoding, kind):
    """How many octets a number takes, without those that surround it."""
    if encoding == "xdr":
        return max(4, WIDTHS[kind])
    return 4 if encoding == "mach" and kind == "bool" else WIDTHS[kind]


def stated(kind, units):
    """A short descriptor of one number, or of so many units."""
    name, bits, _ = ITEMS[kind]
    return (SHORT << 28 | units << 16 | bits << 8 | name).to_bytes(4, "little")


def scalar(encoding, kind, word, path, *more):
    """One number, by a put of this word."""
    order, width = ORDER_OF[encoding], width_of(encoding, kind)
    if encoding != "mach":
        return (align(width) if encoding != "xdr" else []) + chunk(width, (0, word, path, *more, width, order))
    zeros = bytes(max(4, width) - width)
    parts = [(0, "const", stated(kind, ITEMS[kind][2])), (4, word, path, *more, width, order), (4 + width, "const", zeros)]
    return chunk(4 + width + len(zeros), *parts[:3 if zeros else 2])


def counted(encoding, node, path, place, more=0):
    """The count of a list that has no fixed length."""
    return [] if is_exact(node, place) else scalar(encoding, "u32", "count", path, 1, more)


def descriptor(kind, node, path, place):
    name, bits, units = ITEMS[kind]
    if not is_long(kind, count_of(node, place)[1]):
        return chunk(4, (0, "short", path, name, bits, units))
    first = (LONG << 28).to_bytes(4, "little") + name.to_bytes(2, "little") + bits.to_bytes(2, "little")
    return chunk(12, (0, "const", first), (8, "count", path, units, 0, 4, "little"))


def row_width(encoding, node, kind):
    """How many octets a number of a row or a text takes."""
    return 1 if node[0] == "text" or encoding == "xdr" and kind == "octet" else width_of(encoding, kind)


def row(encoding, node, path):
    """A row or a text: what is before it, a loop over its numbers, and what is after it."""
    kind, place = row_kind(node)
    width, is_text = row_width(encoding, node, kind), node[0] == "text"
    turn = chunk(width, (0, "num", (), width, ORDER_OF[encoding]))
    if encoding == "xdr":
        return counted(encoding, node, path, place) + [(("each", path), turn)] + (align(4) if is_text or kind == "octet" else [])
    if encoding == "mach":
        return descriptor(kind, node, path, place) + [(("each", path), turn)] + (align(4) if width < 4 else [])
    if is_text:
        return counted(encoding, node, path, place, 1) + [(("each", path), turn)] + chunk(1, (0, "const", b"\0"))
    if is_exact(node, place):
        return align(width) + [(("each", path), turn)]
    return counted(encoding, node, path, place) + [(("each", path), align(8) * (width == 8) + turn)]


def sending(encoding, nodes, id, path=()):
    """Code that sends a node's value at a path, with no code to call."""
    node = nodes[id]
    form = node[0]
    if form in ("num", "enum"):
        return scalar(encoding, node[1] if form == "num" else "i32", "num", path)
    if form in ("text", "row"):
        return row(encoding, node, path)
    if form == "group":
        return [op for place, child in enumerate(node[1]) for op in sending(encoding, nodes, child, (*path, place))]
    if form == "items":
        return counted(encoding, node, path, 2) + [(("each", path), sending(encoding, nodes, node[1]))]
    if form == "choice":
        cases = [(n, sending(encoding, nodes, child)) for n, child in node[2]]
        other = sending(encoding, nodes, node[3]) if len(node) > 3 else None
        return scalar(encoding, tag_kind(node[1]), "tag", path) + [(("switch", path), (cases, other))]
    if form == "maybe":
        return scalar(encoding, "i32" if encoding == "mach" else "bool", "flag", path) + [(("some", path), sending(encoding, nodes, node[1]))]
    return []


def around(octets, size_at, *puts):
    """A chunk of these octets, of which the puts take the place of some. The size is patched later."""
    found, at, octets = [], 0, octets[:size_at] + bytes(4) + octets[size_at + 4:]
    for put in [*puts, (len(octets), None, 0, None)]:
        found += [(at, "const", octets[at:put[0]])] * (put[0] > at)
        found, at = found + [put], put[0] + put[-2]
    return chunk(len(octets), *found[:-1])


def framed(back, interface, operation, code):
    """Code with the head of a request before it, and the patch that states the length."""
    if back == "xdr":
        words = (0, 2, interface.program, interface.version, operation[1], 0, 0, 0, 0)
        return chunk(40, (0, "head", "id", 4, "big"), (4, "const", b"".join(n.to_bytes(4, "big") for n in words))) + code
    if back == "mach":
        head = mach_request(0, 0, interface.base + interface.slot(operation), not operation.oneway, b"")
        ports = [(8, "head", "remote", 4, "little"), (12, "head", "local", 4, "little")][:1 + (not operation.oneway)]
        return around(head, 4, *ports) + code + [(("patch", 4, 0, "little"), None)]
    order = ORDER_OF[ENCODINGS[back]]
    version = BACKS[back].version
    fields = request_fields(order, 0, not operation.oneway, interface.name, operation[0], version)
    head = giop_message(order, REQUEST, before_body(fields, version) if code else fields, version)
    return around(head, 8, (16 if version == 0 else 12, "head", "id", 4, order)) + code + [(("patch", 8, 12, order), None)]


# ---- room

def node_at(nodes, id, path):
    for place in path:
        id = nodes[id][1][place]
    return id


class Hoist:
    """Ensures before operations, from the last operation to the first (docs/STUBS.md, "Ensures").

    What is pending is nothing, octets and those of small parts among them, or a path, octets an element, and octets.
    """

    def __init__(self, encoding, nodes):
        self.encoding, self.nodes, self.spans = encoding, nodes, {}

    def most(self, id):
        """The most octets of a node, or None."""
        if id not in self.spans:
            self.spans[id] = span(self.encoding, self.nodes, id)
        return top(self.spans[id])

    def is_row(self, id):
        """Whether a list's elements have one length."""
        node = self.nodes[id]
        return node[0] in ("row", "text") or node[0] == "items" and (self.most(node[1]), isinstance(self.spans[node[1]], list))[1]

    def bound(self, id, code):
        """The most octets that code appends, which is bounded."""
        total = 0
        for (word, *words), body in code:
            if word in ("chunk", "align"):
                total += words[0] - (word == "align")
            elif word == "each":
                inner = node_at(self.nodes, id, words[0])
                node = self.nodes[inner]
                place = row_kind(node)[1] if node[0] != "items" else 2
                total += count_of(node, place)[1] * self.bound(node[1] if node[0] == "items" else None, body)
            elif word == "some":
                total += self.bound(self.nodes[node_at(self.nodes, id, words[0])][1], body)
            elif word == "switch":
                total += max(self.bound(child, inner) for child, inner in self.arms(id, words[0], body))
        return total

    def arms(self, id, path, body):
        """The nodes of a union's arms, each with its body."""
        node = self.nodes[node_at(self.nodes, id, path)]
        found = [(arm_of(node, n), inner) for n, inner in body[0]]
        return found + ([(node[3], body[1])] if body[1] is not None else [])

    def hoisted(self, id, code):
        """The code with its ensures, all of them."""
        done, pending = [], None
        for (word, *words), body in reversed(code):
            if word in ("chunk", "align"):
                pending = self.raised(pending, words[0] - (word == "align"))
            elif word in ("each", "some", "switch"):
                done, pending, body = self.part(id, word, words[0], body, done, pending)
            done = [((word, *words), body), *done]
        return self.closed(done, pending)

    def raised(self, pending, octets):
        if not pending:
            return (octets, 0) if octets else None
        return (pending[0] + octets, pending[1]) if len(pending) == 2 else (*pending[:2], pending[2] + octets)

    def closed(self, done, pending):
        if not pending:
            return done
        return [(("ensure", pending[0]) if len(pending) == 2 else ("ensure_row", *pending), None), *done]

    def part(self, id, word, path, body, done, pending):
        """What follows an operation with a body, what is pending before it, and its body."""
        inner = node_at(self.nodes, id, path)
        most = self.most(inner)
        if most is not None and most <= ENOUGH:
            octets = self.bound(id, [((word, path), body)])
            if pending and (len(pending) == 3 or pending[1] > ENOUGH):
                return self.closed(done, pending), (octets, most) if octets else None, body
            octets, smalls = octets + (pending or (0, 0))[0], most + (pending or (0, 0))[1]
            return done, (octets, smalls if pending else most) if octets else None, body
        if word == "each" and self.is_row(inner):
            unit = self.bound(self.nodes[inner][1] if self.nodes[inner][0] == "items" else None, body)
            if pending and len(pending) == 3:
                return self.closed(done, pending), (path, unit, 0), body
            return done, (path, unit, pending[0] if pending else 0), body
        return self.closed(done, pending), None, self.apart(id, word, path, body)

    def apart(self, id, word, path, body):
        """Bodies that are hoisted by themselves."""
        if word == "switch":
            inner = iter([self.hoisted(child, code) for child, code in self.arms(id, path, body)])
            return [(n, next(inner)) for n, _ in body[0]], next(inner, None)
        return self.hoisted(self.nodes[node_at(self.nodes, id, path)][1], body)


def in_rows(encoding, nodes, id, code):
    """Code with one operation in the place of each loop over a row or a text that travels as a block or wide."""
    done = []
    for (word, *words), body in code:
        if word == "each":
            inner = node_at(nodes, id, words[0])
            node = nodes[inner]
            if node[0] == "items":
                body = in_rows(encoding, nodes, node[1], body)
            elif len(body) == 1:
                done.append((row_operation(encoding, node, words[0], body[0][0][1]), None))
                continue
        elif word == "some":
            body = in_rows(encoding, nodes, nodes[node_at(nodes, id, words[0])][1], body)
        elif word == "switch":
            node = nodes[node_at(nodes, id, words[0])]
            cases = [(n, in_rows(encoding, nodes, arm_of(node, n), inner)) for n, inner in body[0]]
            body = cases, in_rows(encoding, nodes, node[3], body[1]) if body[1] is not None else None
        done.append(((word, *words), body))
    return done


def row_operation(encoding, node, path, width):
    own = WIDTHS[row_kind(node)[0]]
    if width != own:
        return "row_wide", path, ORDER_OF[encoding]
    return ("row_copy" if ORDER_OF[encoding] == "little" or own == 1 else "row_swap"), path


def send_stub(back, interface, operation, nodes, id):
    """A stub that sends the requests of an operation, after all passes."""
    code = [*stages(back, interface, operation, nodes, id)][-1][1]
    return Stub("send", f"{interface.name}.{operation[0]}", code, [])


def stages(back, interface, operation, nodes, id):
    """The code of an operation's requests, inlined and with its head, and after each pass."""
    encoding = ENCODINGS[back]
    code = framed(back, interface, operation, sending(encoding, nodes, id))
    yield "inline", code
    code = Hoist(encoding, nodes).hoisted(id, code)
    yield "hoist", code
    code = in_rows(encoding, nodes, id, code)
    yield "rows", code
    yield "chunk", chunked(Phase(8, 0), code)


# Types, and what they are as nodes, of which docs/STUBS.md shows the code.
LOWERED = (
    ("int", [["num", "i32"]]),
    ("octet", [["num", "u8"]]),
    ("string<8>", [["text", {"most": 8}]]),
    ("short<8>", [["row", "i16", {"most": 8}]]),
    ("hyper<4096>", [["row", "i64", {"most": 4096}]]),
    ("union switch (int) { case 1: void; default: int; }", [["void"], ["num", "i32"], ["choice", "i32", [[1, 0]], 1]]),
    ("int *", [["num", "i32"], ["maybe", 0]]),
)


def texts_of_lowered(encodings):
    """The text of the inlined code of each of these types over encodings."""
    return [(said, ["\n".join(lines_of(sending(encoding, nodes, len(nodes) - 1))) for encoding in encodings]) for said, nodes in LOWERED]


def texts_of_stages(back, file, name):
    """The text of each of these, without names, of an operation of a file."""
    request = next(each for each in requests_of(back, interfaces_of(file)) if each.operation[0] == name)
    found = stages(back, request.interface, request.operation, request.nodes, request.id)
    return [(pass_, "\n".join(lines_of(code))) for pass_, code in found]


# ---- receiving

def taken(size, *gets):
    return [(("need", size), None), (("take", size), list(gets))]


def skip(width, what):
    return [(("skip", width, what), None)] if width > 1 else []


def got(encoding, kind, word, path, *more):
    """One number, by a get of this word."""
    order, width = ORDER_OF[encoding], width_of(encoding, kind)
    if encoding != "mach":
        return (skip(width, "any") if encoding != "xdr" else []) + taken(width, (0, word, path, *more, width, order))
    return taken(4 + max(4, width), (0, "const", stated(kind, ITEMS[kind][2])), (4, word, path, *more, width, order))


def got_row(encoding, node, path, whole):
    """A row or a text: number by number, or as a whole."""
    kind, place = row_kind(node)
    width, order = row_width(encoding, node, kind), ORDER_OF[encoding]
    counts = [] if is_exact(node, place) or encoding == "mach" else got(encoding, "u32", "count", path, 1, int(encoding != "xdr" and node[0] == "text"))
    turn = taken(width, (0, "num", (), width, order))
    loop = [(("each", path), turn)]
    if whole:
        loop = [(("need_row", path, width, 0), None), (("row" if width == WIDTHS[kind] else "row_wide", path, order), None)]
    if encoding == "xdr":
        return counts + loop + (skip(4, "zero") if node[0] == "text" or kind == "octet" else [])
    if encoding == "mach":
        name, bits, units = ITEMS[kind]
        n = count_of(node, place)[1]
        is_short = is_exact(node, place) and units * n <= MOST_UNITS
        first = taken(4, (0, "const", stated(kind, units * n))) if is_short else [(("desc", path, name, bits, units), None)]
        return first + loop + skip(4 if width < 4 else 1, "any")
    if node[0] == "text":
        return counts + loop + taken(1, (0, "const", b"\0"))
    if is_exact(node, place):
        return skip(width, "any") + loop
    return counts + ([(("each", path), skip(8, "any") + turn)] if width == 8 else loop)


def receiving(encoding, nodes, id, path=(), whole=True):
    """Code that receives a node's value at a path, its rows as a whole or number by number."""
    node = nodes[id]
    form = node[0]
    if form in ("num", "enum"):
        return got(encoding, node[1] if form == "num" else "i32", "num", path)
    if form in ("text", "row"):
        return got_row(encoding, node, path, whole)
    if form == "group":
        return [op for place, child in enumerate(node[1]) for op in receiving(encoding, nodes, child, (*path, place), whole)]
    if form == "items":
        counts = [] if is_exact(node, 2) else got(encoding, "u32", "count", path, 1, 0)
        return counts + [(("each", path), receiving(encoding, nodes, node[1], (), whole))]
    if form == "choice":
        cases = [(n, receiving(encoding, nodes, child, (), whole)) for n, child in node[2]]
        other = receiving(encoding, nodes, node[3], (), whole) if len(node) > 3 else None
        return got(encoding, tag_kind(node[1]), "tag", path) + [(("switch", path), (cases, other))]
    if form == "maybe":
        return got(encoding, "i32" if encoding == "mach" else "bool", "flag", path) + [(("some", path), receiving(encoding, nodes, node[1], (), whole))]
    return []


def stubs_text(back, interfaces):
    """What `stubs` could write over a back end."""
    written = []
    for request in requests_of(back, interfaces):
        written.append(text_of(send_stub(back, request.interface, request.operation, request.nodes, request.id)))
        code = joined(STARTS[ENCODINGS[back]], receiving(ENCODINGS[back], request.nodes, request.id))
        written.append(text_of(Stub("recv", request.name, code, [])))
    return "".join(written)


# ---- the check

CALLED = "call 0 .0\ncall 0 .1\nsub 0\nchunk 4\nat 0 num . 4 be\nend\nend\n"
COUNT = "chunk 4\nat 0 count . 1 0 4 be\nend\n"
TURN = "each .\nchunk 4\nat 0 num . 4 be\nend\nend\n"
PAIRS = {"items": [{"group": [1, -2]}, {"group": [3, 4]}]}
SENT_PAIRS = "0000000200000001fffffffe0000000300000004"
EACH_PAIR = "each .\nchunk 4\nat 0 num .0 4 be\nend\nchunk 4\nat 0 num .1 4 be\nend\nend\n"
ROW = {"row": "i32", "of": [7, -2]}

# Codes with a value, its octets, and the checks, moves, stores and rows, worked out by hand. docs/STUBS.md shows them.
WORKED = (
    ("ensure 8\n" + CALLED, {"group": [1, -2]}, "00000001fffffffe", (1, 2, 2, 0)),
    ("ensure 4\n" + COUNT + "ensure_row . 4 0\n" + TURN, ROW, "0000000200000007fffffffe", (2, 3, 3, 0)),
    ("ensure_row . 4 4\n" + COUNT + "row_swap .\n", ROW, "0000000200000007fffffffe", (1, 1, 1, 1)),
    ("ensure_row . 4 4\n" + COUNT + "row_copy .\n", ROW, "0000000207000000feffffff", (1, 1, 1, 1)),
    ("ensure_row . 4 4\n" + COUNT + "row_wide . be\n", {"row": "i16", "of": [7, -2]}, "0000000200000007fffffffe", (1, 2, 3, 0)),
    ("ensure 4\n" + COUNT + EACH_PAIR.replace("each .\n", "each .\nensure 8\n"), PAIRS, SENT_PAIRS, (3, 5, 5, 0)),
    ("ensure_row . 8 4\n" + COUNT + EACH_PAIR, PAIRS, SENT_PAIRS, (1, 5, 5, 0)),
    ("ensure_row . 8 4\n" + COUNT + "each .\nchunk 8\nat 0 num .0 4 be\nat 4 num .1 4 be\nend\nend\n", PAIRS, SENT_PAIRS, (1, 3, 5, 0)),
    ("ensure 15\n" + COUNT + "each .\nchunk 1\nat 0 num . 1 be\nend\nend\nalign 4\n", {"row": "char", "of": [97, 98, 99]}, "0000000361626300", (1, 5, 4, 0)),
    ("ensure 15\n" + COUNT + "row_copy .\nalign 4\n", {"row": "char", "of": [97, 98, 99]}, "0000000361626300", (1, 2, 1, 1)),
    ("ensure 8\nchunk 4\nat 0 tag . 4 be\nend\nswitch .\ncase 1\ndefault\nchunk 4\nat 0 num . 4 be\nend\nend\n", {"arm": [7, -2]}, "00000007fffffffe", (1, 2, 2, 0)),
    ("ensure 8\nchunk 4\nat 0 tag . 4 be\nend\nswitch .\ncase 1\ndefault\nchunk 4\nat 0 num . 4 be\nend\nend\n", {"arm": [1, None]}, "00000001", (1, 1, 1, 0)),
    ("ensure 12\nchunk 8\nat 0 const 0000000000000000\nat 4 short . 8 8 1\nend\npatch 0 4 le\n", {"row": "char", "of": [97]}, "0400000008080110", (1, 1, 3, 0)),
)
# Codes that mean nothing on a value: too little room, a gap, a put beyond, a number that does not fit, no body for a number, no such part.
UNDEFINED = (("chunk 4\nat 0 num . 4 be\nend\n", 1), ("ensure 4\nchunk 4\nat 0 num . 2 be\nend\n", 1), ("ensure 4\nchunk 4\nat 1 num . 4 be\nend\n", 1),
             ("ensure 1\nchunk 1\nat 0 num . 1 be\nend\n", 256), ("switch .\ncase 1\nend\n", {"arm": [2, None]}), ("ensure 4\nchunk 4\nat 0 num .0 4 be\nend\n", 1),
             ("call 0 .\n", 1), ("patch 0 0 be\n", 1), ("ensure 3\nalign 3\n", 1))
PAIR_NODES = [["num", "i32"], ["group", [0, 0]], ["items", 1, {"most": 2}]]
RECEIVED = "recv pairs\nneed 4\ntake 4\nat 0 count . 1 0 4 be\nend\neach .\nneed 4\ntake 4\nat 0 num .0 4 be\nend\nneed 4\ntake 4\nat 0 num .1 4 be\nend\nend\nend\n"


def worked_wrong():
    """What is wrong with the runs that are worked out."""
    for code, value, octets, cost in WORKED:
        told, counts = sent_by(*stubs_of(f"send s\n{code}end\n"), {"id": 0, "remote": 0, "local": 0}, value)
        if (told.hex(), counts) != (octets, cost):
            yield f"{code} sends {told.hex()} at {counts}"
    for code, value in UNDEFINED:
        try:
            yield f"{code} sends {sent_by(*stubs_of(f'send s{chr(10)}{code}end{chr(10)}'), {}, value)}"
        except Undefined:
            pass
    stub, = stubs_of(RECEIVED)
    for octets, wanted in (("0000000100000007fffffffe09", ({"items": [{"group": [7, -2]}]}, 12, 3)), ("00000003", None), ("0000000100000007fffffe", None)):
        if (told := received_by(stub, PAIR_NODES, 2, bytes.fromhex(octets), 0)) != wanted:
            yield f"{octets} is received as {told}"


def onc_files(rng):
    return interfaces_of(FileMaker(rng).text())


def wide_files(rng):
    return interfaces_of(widened(rng, FileMaker(rng).text()))


def long_files(rng):
    return interfaces_of(long_file(rng))


def corba_files(rng):
    text = corba_samples.FileMaker(rng, raises=False).text()
    return corba_interfaces_of(text) if not told_of_names(text.encode(), "xdr") else []


def mig_files(rng):
    return mig.interfaces_of(mig_samples.accepted(rng)[0].decode())


def checked(rng, interfaces):
    """What is wrong over a file, by each back end."""
    for back in ENCODINGS:
        text = stubs_text(back, interfaces)
        requests = requests_of(back, interfaces)
        assert "".join(map(text_of, stubs_of(text))) == text
        yield back, "whole rows", stubs_wrong(rng, back, interfaces, text)
        start = STARTS[ENCODINGS[back]]
        loops = [Stub("recv", request.name, joined(start, receiving(ENCODINGS[back], request.nodes, request.id, whole=False)), []) for request in requests]
        stubs = [stub for pair in zip(stubs_of(text)[::2], loops) for stub in pair]
        yield back, "loops", stubs_wrong(rng, back, interfaces, "".join(map(text_of, stubs)), few=False)


MAKERS = (onc_files, wide_files, long_files, corba_files, mig_files)


def rows(seed, files):
    """The codes that are worked out, and samples over random files: a name, nothing, and what is wrong."""
    yield "codes of docs/STUBS.md", "", "; ".join(worked_wrong())
    for number in range(files):
        rng = random.Random(f"{seed}/{number}")
        for make in MAKERS:
            for back, what, finding in checked(rng, make(rng)):
                yield f"samples of stubs over file {number} of {make.__name__} over {back}, {what}", "", finding


def main():
    seed, files = (int(word) for word in [*sys.argv[1:], "1", "20"][:2])
    tried = wrong = 0
    for name, _, finding in rows(seed, files):
        tried += 1
        wrong += bool(finding)
        print(f"{name}: {finding}") if finding else None
    print(f"{files} files of each kind, {tried} runs of their stubs, {wrong} wrong")
    return 1 if wrong else 0


if __name__ == "__main__":
    sys.exit(main())
