"""What `stubs` and `count` write: the text of each operation's code, and what its code costs on a request.

Which code an operation has is not fixed. What is written is held to this: it is the text of stubs, of each operation in
order; by code that sends each request is the message of the model, within the room that it ensures, with at most one look
at the buffer a region and with each row that travels as a block in one piece, and costs what `count` says; by code that
receives each message is the request of which it was made, and other octets are none exactly where the model says so.
As all of the model it is written from docs/, with nothing of the crates in it.
"""
from collections import namedtuple

import giop
import mach
from calls import BACKS, marshal, tree_of
from corba_nodes import Table, is_row, kind_of
from making import made
from nodes import blank, is_exact, numbers_of, regions, sent
from stub_chunks import Phase, chunked
from stub_runs import Sending, Undefined, received_by, sent_by
from stub_takes import STARTS, joined
from stub_texts import NoStub, stubs_of, text_of
from values import Array, Fault, Number, Opaque, Pointer, Reader, String, Struct, Union

ENCODINGS = {"xdr": "xdr", "cdr-be": "cdr_big", "cdr-le": "cdr_little", "cdr12-be": "cdr_big", "cdr12-le": "cdr_little", "mach": "mach"}
START = Phase(8, 0)
HEAD = {"id": 0, "remote": 0, "local": 0}
MOST_TESTS = 24  # of each entry of a value that is received

# An operation with its whole name, the node of its requests, and the octets of their head.
Request = namedtuple("Request", "interface operation name nodes id lead")


class Wrong(Exception):
    """What is not as it is held to be."""


def need(holds, why):
    if not holds:
        raise Wrong(why)


# ---- requests as values of nodes

def lead_of(back, interface, operation, nodes, id):
    """How many octets stand before the arguments of a request, if there are any. In GIOP 1.2 these begin at a multiple of 8."""
    head = len(BACKS[back].message(interface, operation, dict.fromkeys(BACKS[back].keys, 0), []))
    is_empty = not sent(ENCODINGS[back], nodes, id, blank(nodes, id))
    return head if is_empty or getattr(BACKS[back], "version", 0) == 0 else head + -head % 8


def requests_of(back, interfaces):
    """Each operation over a back end, in order."""
    table, found = Table(), []
    for interface in interfaces:
        for operation in BACKS[back].operations(interface):
            id = table.id(Struct([("", ty) for ty in operation[2]]))
            lead = lead_of(back, interface, operation, table.nodes, id)
            found.append(Request(interface, operation, f"{interface.name}.{operation[0]}", table.nodes, id, lead))
    return found


def node_value(ty, value):
    """A value of a type as one of its node."""
    if isinstance(ty, Opaque):
        return {"row": "char" if isinstance(ty, String) else "octet", "of": list(value)}
    if is_row(ty):
        return {"row": kind_of(ty.element), "of": list(value)}
    if isinstance(ty, Array):
        return {"items": [node_value(ty.element, element) for element in value]}
    if isinstance(ty, Pointer):
        return {"opt": [node_value(ty.array.element, element) for element in value or []]}
    if isinstance(ty, Struct):
        return {"group": [node_value(field, element) for (_, field), element in zip(ty.fields, value)]}
    if isinstance(ty, Union):
        return {"arm": [value[0], node_value(ty.arm(value[0]), value[1])]}
    return int(value) if isinstance(ty, Number) else None


def type_value(ty, value):
    """A value of a type's node as one of the type."""
    if isinstance(ty, Opaque):
        return bytes(numbers_of(value))
    if is_row(ty):
        return numbers_of(value)
    if isinstance(ty, Array):
        return [type_value(ty.element, element) for element in value["items"]]
    if isinstance(ty, Pointer):
        return [type_value(ty.array.element, element) for element in value["opt"]] or None
    if isinstance(ty, Struct):
        return [type_value(field, element) for (_, field), element in zip(ty.fields, value["group"])]
    if isinstance(ty, Union):
        return value["arm"][0], type_value(ty.arm(value["arm"][0]), value["arm"][1])
    return value


def message_of(back, request, head, value):
    """The message of a request, by the walk over its types."""
    numbers = {"xdr": {"xid": head["id"]}, "mach": head}.get(back, head)
    values = [type_value(ty, part) for ty, part in zip(request.operation[2], value["group"])]
    return BACKS[back].message(request.interface, request.operation, numbers, values)


def read_of(back, request, message):
    """The value that the octets after the head spell, and the place after it; or None."""
    reader = {"xdr": Reader, "mach": mach.Reading}.get(back, lambda octets, at: giop.Reading(octets, at, BACKS[back].order))(message, request.lead)
    try:
        values = [BACKS[back].read(reader, ty) for ty in request.operation[2]]
    except Fault:
        return None
    return {"group": [node_value(ty, value) for ty, value in zip(request.operation[2], values)]}, reader.at


# ---- texts

def stubs_in(text, requests, kinds):
    """The stubs of a text: for each operation in order one of each kind."""
    try:
        stubs = stubs_of(text)
    except NoStub as fault:
        raise Wrong(f"no text of stubs: {fault}") from None
    wanted = [(kind, request.name) for request in requests for kind in kinds]
    need([(stub.kind, stub.name) for stub in stubs] == wanted, "other stubs than one of each kind for each operation in order")
    return stubs


def texts_of(output, requests):
    """The codes that `count` writes first, and the lines after them."""
    texts, border, rest = output.partition("--\n")
    need(border and (not texts or texts.endswith("\n")), "no line `--`")
    return stubs_in(texts, requests, ["send"]), rest


# ---- costs

def is_block(encoding, node, kind, place):
    """Whether a row or a text travels in one piece: as octets that are its numbers one after the other."""
    if node[0] == "text" or encoding == "mach":
        return True
    if encoding == "xdr":
        return kind in ("octet", "i32", "u32", "i64", "u64")
    return kind not in ("i64", "u64") or is_exact(node, place)


def blocks(encoding, nodes, id, value):
    """How many rows and texts of a value travel in one piece."""
    node = nodes[id]
    form = node[0]
    if form in ("text", "row"):
        return int(is_block(encoding, node, *(("char", 1) if form == "text" else (node[1], 2))))
    if form == "group":
        return sum(blocks(encoding, nodes, child, inner) for child, inner in zip(node[1], value["group"]))
    if form == "items":
        return sum(blocks(encoding, nodes, node[1], inner) for inner in value["items"])
    if form == "choice":
        n, inner = value["arm"]
        arm = next((child for label, child in node[2] if label == n), node[3] if len(node) > 3 else None)
        return blocks(encoding, nodes, arm, inner)
    return sum(blocks(encoding, nodes, node[1], inner) for inner in value["opt"]) if form == "maybe" else 0


def entries_and_leaves(encoding, nodes, id, value):
    """How many runs of stores a value begins behind its start, and how many numbers, flags, lists, rows and texts it has. A
    number of a row that is put by itself is a leaf, and where the row is a loop its turn is a run."""
    node = nodes[id]
    form = node[0]
    if form in ("text", "row"):
        alone = 0 if is_block(encoding, node, *(("char", 1) if form == "text" else (node[1], 2))) else len(numbers_of(value))
        return 1 + (alone if encoding != "xdr" else 0), 1 + alone
    if form == "group":
        inner = [entries_and_leaves(encoding, nodes, child, part) for child, part in zip(node[1], value["group"])]
        return sum(entries for entries, _ in inner), sum(leaves for _, leaves in inner)
    if form == "items":
        inner = [entries_and_leaves(encoding, nodes, node[1], part) for part in value["items"]]
        return 1 + sum(1 + entries for entries, _ in inner), 1 + sum(leaves for _, leaves in inner)
    if form in ("choice", "maybe"):
        inner = (0, 0)
        if form == "choice":
            n, part = value["arm"]
            arm = next((child for label, child in node[2] if label == n), node[3] if len(node) > 3 else None)
            inner = entries_and_leaves(encoding, nodes, arm, part)
        elif value["opt"]:
            inner = entries_and_leaves(encoding, nodes, node[1], value["opt"][0])
        return 2 + inner[0], 1 + inner[1]
    return 0, int(form != "void")


def shown_cost(cost):
    return " ".join(map(str, cost))


def cost_of(back, request, stub, head, value, message):
    """What a request costs by a code that sends it, which is looked at."""
    try:
        octets, cost = sent_by(stub, head, value)
    except Undefined as fault:
        raise Wrong(f"code that cannot be run: {fault}") from None
    need(octets == message, f"code that sends {octets.hex()[:400]} in place of {message.hex()[:400]}")
    most = regions(ENCODINGS[back], request.nodes, request.id, value, request.lead)
    need(cost.checks <= most, f"{cost.checks} checks over {most} regions")
    pieces = blocks(ENCODINGS[back], request.nodes, request.id, value)
    need(cost.rows == pieces, f"{cost.rows} rows, and {pieces} that travel in one piece")
    entries, leaves = entries_and_leaves(ENCODINGS[back], request.nodes, request.id, value)
    need(cost.moves <= 8 * (1 + entries + most), f"{cost.moves} moves over {1 + entries} entries and {most} regions")
    need(cost.stores <= 3 * leaves + 8, f"{cost.stores} stores of {leaves} leaves")
    need(chunked(START, stub.code) == stub.code, f"{request.name}: stores that may be in one chunk")
    return cost


def request_in(back, requests, line):
    """The place of the operation that a line names, its head and its value; the line presents a request."""
    tree = tree_of(line)
    place = next(place for place, request in enumerate(requests) if request.name == tree["op"])
    types = requests[place].operation[2]
    value = {"group": [node_value(ty, ty.value(arg)) for ty, arg in zip(types, tree.get("args", []))]}
    return place, {"id": tree.get("xid", tree.get("id", 0)), "remote": tree.get("remote", 0), "local": tree.get("local", 0)}, value


def counted(back, interfaces, requests, stubs, line):
    """The answer of `count` to a line, by the codes that it wrote."""
    told = marshal(BACKS[back], interfaces, line)
    if told.startswith("!"):
        return told
    place, head, value = request_in(back, requests, line)
    return f"{told} {shown_cost(cost_of(back, requests[place], stubs[place], head, value, bytes.fromhex(told)))}"


def regions_of(back, interfaces, line):
    """How many regions the message has that a line makes."""
    requests = requests_of(back, interfaces)
    place, _, value = request_in(back, requests, line)
    return regions(ENCODINGS[back], requests[place].nodes, requests[place].id, value, requests[place].lead)


# ---- stubs

def receive_by(back, request, stub, message, few):
    """The value that code gives of a message's octets after its head, by few tests where these are asked for, and the place after it; or None."""
    try:
        given = received_by(stub, request.nodes, request.id, message, request.lead)
    except Undefined as fault:
        raise Wrong(f"code that strays over {message.hex()[:400]}: {fault}") from None
    if given and few:
        entries, _ = entries_and_leaves(ENCODINGS[back], request.nodes, request.id, given[0])
        need(given[2] <= MOST_TESTS * (1 + entries), f"{given[2]} tests over {1 + entries} entries")
    return given and given[:2]


def changed(rng, message, lead):
    """A message with its octets after the head cut, changed or followed by others."""
    at = rng.randrange(lead, len(message) + 1)
    octet, more = rng.choice([0, 1, 2, 8, 16, 127, 128, 255, rng.randrange(256)]), bytes([rng.randrange(256), 0, 0])
    return rng.choice([message[:at], message + more, message[:at] + bytes([octet]) + message[at + 1:], message[:at] + bytes([octet]) + message[at + 1:]])


def stubs_wrong(rng, back, interfaces, text, times=3, changes=6, few=True):
    """What is wrong with what `stubs` writes over a back end, or nothing: codes are run on made values, and on messages of
    them that are cut and changed. Code that receives makes few tests, but for loops over what may be taken at once."""
    requests = requests_of(back, interfaces)
    try:
        stubs = stubs_in(text, requests, ["send", "recv"])
        for place, request in enumerate(requests):
            send, receive = stubs[2 * place:2 * place + 2]
            need(joined(STARTS[ENCODINGS[back]], receive.code) == receive.code, f"{request.name}: tests or takes that may be one")
            for _ in range(times):
                value = made(rng.randrange(2 ** 64), request.nodes, request.id)
                head = {name: rng.choice([0, 1, 2 ** 32 - 1]) for name in HEAD}
                head["local"] *= not request.operation.oneway
                message = message_of(back, request, head, value)
                cost_of(back, request, send, head, value, message)
                for octets in (message, *(changed(rng, message, request.lead) for _ in range(changes))):
                    told, wanted = receive_by(back, request, receive, octets, few), read_of(back, request, octets)
                    need(told == wanted, f"{request.name}: code that receives {told} in place of {wanted} of {octets.hex()[:400]}")
    except Wrong as fault:
        return str(fault)
    return ""


def printed_wrong(case, text, times=20):
    """What is wrong with the text of one code of a node, or nothing. Lowered and inlined code ensures nothing, so it has room; a head before it is not looked at."""
    nodes, encoding = case["nodes"], case["in"]
    id = case.get("id", len(nodes) - 1)
    stub, = stubs_of(text)
    need(text_of(stub) == text, "a text that is written otherwise")
    for number in range(times):
        value = made(number, nodes, id)
        octets = sent(encoding, nodes, id, value)
        if stub.kind == "recv":
            told = received_by(stub, nodes, id, octets + b"\x2a", 0)
            told = told and (sent(encoding, nodes, id, told[0]), told[1])
        else:
            sending = Sending(HEAD, stub.subs)
            sending.room = 0 if case["of"] in ("ensured", "rows") else 2 ** 32
            sending.run(stub.code, value)
            told = bytes(sending.octets[len(sending.octets) - len(octets):]), len(octets)
        if told != (octets, len(octets)):
            return f"{told} in place of {octets.hex()}"
    return ""
