"""Values that a number makes for a type, the messages of them, and what is shown of an interface file.

As all of the model it is written from docs/, with nothing of the crates in it. Values have the form of nodes.py.
"""
import corba_names
import files
import mach
import mig
from calls import BACKS, LONGEST_MESSAGE, marshal, unmarshal
from corba_nodes import Table, kind_of, told_of_names
from giop import request
from nodes import arm_of, blank, count_of, greatest, is_exact, least, row_kind, sent
from values import Array, Enum, Number, Opaque, Pointer, String, Struct, Union, Void

HEAVIEST = 1_048_576
FACTOR, SUMMAND = 6364136223846793005, 1442695040888963407
LONGEST = 8  # how many elements are made at most where their number is not fixed


class TooHeavy(Exception):
    """A value whose weight has passed the greatest."""


def choices(kind):
    """How many numbers of a kind may be made, from its least on."""
    return min(2 ** 31, greatest(kind) - least(kind) + 1)


class Maker:
    """Draws from a state of 64 bits, and the weight of what was made of them so far."""

    def __init__(self, number, nodes):
        self.state, self.nodes, self.weight = number, nodes, 0

    def draw(self, many):
        """A number below so many."""
        self.state = (self.state * FACTOR + SUMMAND) % 2 ** 64
        return (self.state >> 33) % many

    def weigh(self, n):
        self.weight += n
        if self.weight > HEAVIEST:
            raise TooHeavy

    def number(self, kind):
        return least(kind) + self.draw(choices(kind))

    def length(self, node, place):
        _, n = count_of(node, place)
        return n if is_exact(node, place) else self.draw((LONGEST if n is None else min(n, LONGEST)) + 1)

    def value(self, id):
        """A value of a node, from left to right."""
        node = self.nodes[id]
        form = node[0]
        if form in ("num", "enum"):
            self.weigh(1)
            return self.number(node[1]) if form == "num" else node[1][self.draw(len(node[1]))]
        if form in ("text", "row"):
            return self.row(node, form, *row_kind(node))
        if form == "group":
            return {"group": [self.value(child) for child in node[1]]}
        if form == "void":
            return None
        self.weigh(1)
        if form == "items":
            return {"items": [self.value(node[1]) for _ in range(self.length(node, 2))]}
        if form == "maybe":
            return {"opt": [self.value(node[1])] if self.draw(2) else []}
        n = node[2][self.draw(len(node[2]))][0] if node[2] else blank_tag(node[1])
        return {"arm": [n, self.value(arm_of(node, n))]}

    def row(self, node, form, kind, place):
        length = self.length(node, place)
        self.weigh(1 + length)
        first, many = (1, 255) if form == "text" else (least(kind), choices(kind))
        return {"row": kind, "of": [first + self.draw(many) for _ in range(length)]}


def blank_tag(tag):
    return 0 if isinstance(tag, str) else tag[0]


def made(number, nodes, id):
    """The value that a number makes for a node: the blank one where it would be too heavy."""
    try:
        return Maker(number, nodes).value(id)
    except TooHeavy:
        return blank(nodes, id)


# ---- make

def message_of(back, number, interface, operation, value, table, node):
    """The request with a value over a back end; the ports of Mach are 0."""
    if back == "xdr":
        return BACKS[back].message(interface, operation, {"xid": number}, []) + sent("xdr", table, node, value)
    if back == "mach":
        id = interface.base + interface.slot(operation)
        return mach.request(0, 0, id, not operation.oneway, sent("mach", table, node, value))
    return request(BACKS[back].order, number, not operation.oneway, interface.name, operation[0], [(table, node)], [value], BACKS[back].version)


def is_read_back(back, interfaces, octets):
    """Whether a message is read, and its record makes it again."""
    record = unmarshal(BACKS[back], interfaces, octets.hex().encode())
    return marshal(BACKS[back], interfaces, record.encode()) == octets.hex()


def make(back, interfaces, number, times):
    """The line about so many messages. A record may be longer than a line may be; no row has one that is."""
    table, all_told, long, octets, fold = Table(), 0, 0, 0, 0
    operations = [(i, op) for i in interfaces for op in BACKS[back].operations(i)]
    requests = [table.id(Struct([("", ty) for ty in op[2]])) for _, op in operations]
    for i in range(times if operations else 0):
        k = i % len(operations)
        value = made((number + i) % 2 ** 64, table.nodes, requests[k])
        message = message_of(back, i, *operations[k], value, table.nodes, requests[k])
        all_told += 1
        if len(message) > LONGEST_MESSAGE:
            long += 1
            continue
        assert is_read_back(back, interfaces, message), message.hex()
        octets += len(message)
        for octet in message:
            fold = (fold * 31 + octet) % 2 ** 32
    return f"made {all_told} long {long} octets {octets} fold {fold:08x}"


# ---- show

def counted(ty, element):
    if ty.count.bound is None:
        return f"list of {element}"
    return f"{'array' if ty.count.exact else 'list'} {ty.count.bound} of {element}"


def text_of(ty):
    """A type as it is shown: a declared one by its name."""
    return ty.name if hasattr(ty, "name") else meaning_of(ty)


def meaning_of(ty):
    told = ""
    while isinstance(ty, Array) and not hasattr(ty.element, "name"):
        told, ty = told + counted(ty, ""), ty.element  # arrays within one another are told one after the other
    return told + innermost_of(ty)


def innermost_of(ty):
    if isinstance(ty, Enum):
        return f"enum{{{','.join(f'{name}={n}' for name, n in ty.items)}}}"
    if isinstance(ty, Number):
        return kind_of(ty)
    if isinstance(ty, String):
        return "text" if ty.count.bound is None else f"text {ty.count.bound}"
    if isinstance(ty, (Opaque, Array)):
        return counted(ty, text_of(ty.element) if hasattr(ty, "element") else "octet")
    if isinstance(ty, Pointer):
        return f"maybe {text_of(ty.array.element)}"
    if isinstance(ty, Struct):
        return f"struct{{{';'.join(f'{name}:{text_of(field)}' for name, field in ty.fields)}}}"
    if isinstance(ty, Union):
        arms = [f"{n}:{text_of(arm)}" for n, arm in ty.arms.items()]
        arms += [f"default:{text_of(ty.default)}"] if ty.default else []
        return f"union {text_of(ty.tag)}{{{';'.join(arms)}}}"
    assert isinstance(ty, Void)
    return "void"


def shown_operation(interface, operation):
    name, number, ins = operation
    raised = f" raises {', '.join(raised.name for raised in operation.raises)}" if operation.raises else ""
    ways = [", ".join(map(text_of, types)) for types in (ins, [operation.result, *operation.outs])]
    return f"op {name} proc {number} slot {interface.slot(operation)} ({ways[0]}) -> ({ways[1]}){raised}{' oneway' if operation.oneway else ''}"


def offers_of(front, text):
    """The declared types of a file that is accepted, and its interfaces."""
    if front == "onc":
        return files.types_of(text), files.interfaces_of(text)
    return corba_names.offer_of(text.encode()).types, corba_names.interfaces_of(text)


def refusal_of(front, back, text):
    """The line with which a file is refused over a back end, or nothing. Files of ONC are all accepted here."""
    if front == "onc":
        return ""
    return mig.told_of_file(text.encode()) if front == "mig" else told_of_names(text.encode(), back)


def shown(front, text):
    """What is written about a file, which is not bound to a back end."""
    refusal = refusal_of(front, "cdr-be", text)
    return refusal if refusal and not refusal.startswith("? bind") else "\n".join(show(front, text))


def show(front, text):
    """The lines about a file that is accepted."""
    if front == "mig":
        return mig.offered(text.encode())
    types, interfaces = offers_of(front, text)
    lines = [f"type {name} = {text_of(ty.meaning)}" for name, ty in types]
    for interface in interfaces:
        lines.append(f"interface {interface.name} program {interface.program} version {interface.version} base {interface.base}")
        lines += [shown_operation(interface, operation) for operation in interface.own]
    return lines
