"""The nodes of what a CORBA file offers: the limits of their table, and each operation's request and reply in the form of nodes.py.

A type that is written out is a node, and a name for one is none. A row of numbers is one node together with its elements,
and a union's tag is none. As all of the model it is written from docs/, with nothing of the crates in it.
"""
from corba_names import Refused, offer_of
from corba_scopes import Char, Octet
from values import Array, Bool, Enum, Number, Opaque, Pointer, String, Struct, Union

MOST_NODES, DEEPEST, HEAVIEST, WIDEST, WIDEST_IN_ALL = 65_536, 32, 1_048_576, 65_536, 262_144


def is_row(ty):
    """Whether a list is one node: its elements are numbers, but not booleans or of an enum."""
    return isinstance(ty, Opaque) or isinstance(ty, Array) and isinstance(ty.element, Number) and not isinstance(ty.element, (Bool, Enum))


def children_of(ty):
    """The types within a type whose nodes are its own node's children."""
    if isinstance(ty, Struct):
        return [field for _, field in ty.fields]
    if isinstance(ty, Pointer):
        return [ty.array.element]
    if isinstance(ty, Union):
        return [*(ty.arms[n] for n in sorted(ty.arms)), *([ty.default] if ty.default else [])]
    return [ty.element] if isinstance(ty, Array) and not is_row(ty) else []


def messages_of(operation):
    """The request and the reply of an operation: the reply is a union of the answer and of what is raised."""
    request = Struct(operation.ins)
    answers = [Struct([("", operation.result), *operation.outs]), *(raised.members for raised in operation.raises)]
    return request, Union(Number(False, 32), dict(enumerate(answers)), None)


def inner_rows(ty, ends):
    """A type and the arrays within it, one within the other, from the outside in, up to what ends them."""
    rows = [ty]
    while isinstance(rows[-1], Array) and not is_row(rows[-1]) and not ends(rows[-1].element):
        rows.append(rows[-1].element)
    return rows


class Sums:
    """Sums over a type and all that it stands for, each made once: those of arrays within one another from the inside out,
    so that no call is as deep as they are."""

    def __init__(self):
        self.known = {}

    def of(self, what, ty):
        if (what, id(ty)) not in self.known:
            for each in reversed(inner_rows(ty, lambda element: (what, id(element)) in self.known)):
                self.known[what, id(each)] = getattr(self, what)(each), each
        return self.known[what, id(ty)][0]

    def depth(self, ty):
        return 1 + max((self.of("depth", child) for child in children_of(ty)), default=0)

    def width(self, ty):
        return 1 + sum(self.of("width", child) for child in children_of(ty))

    def weight(self, ty):
        """How heavy the least value is."""
        if isinstance(ty, (String, Opaque, Array)):
            n = ty.count.bound if ty.count.exact else 0
            return 1 + n * (1 if is_row(ty) else self.of("weight", ty.element))
        if isinstance(ty, (Union, Pointer)):
            return 1 + (self.of("weight", children_of(ty)[0]) if isinstance(ty, Union) else 0)
        return int(isinstance(ty, Number)) + sum(self.of("weight", child) for child in children_of(ty))

    def heaviest(self, ty):
        """How heavy the least value of a type within it is: of an arm of a union, or of what is raised."""
        return max([self.of("weight", ty), *(self.of("heaviest", child) for child in children_of(ty))])


def written(ty, named):
    """How many nodes a type has where it is written."""
    *rows, last = inner_rows(ty, lambda element: id(element) in named)
    return len(rows) + 1 + sum(written(child, named) for child in children_of(last) if id(child) not in named)


def refusal_of(offer, back):
    """The first limit that what a file offers passes over a back end, or None."""
    operations = [operation for interface in offer.interfaces for operation in interface.operations]
    return limit_of(offer.types, [messages_of(operation) for operation in operations], 4 * len(offer.interfaces) if back == "xdr" else 0)


def limit_of(declared, messages, added):
    """The first limit that types with their names, and pairs of a request and a reply, pass together with nodes that are added, or None."""
    named = {id(ty) for _, ty in declared}
    types = [ty for _, ty in declared if id(ty.meaning) not in named]
    pairs = [part for pair in messages for part in pair]
    sums = Sums()
    if sum(written(ty, named) for ty in types) + added + sum(written(part, named) for part in pairs) > MOST_NODES:
        return "Many"
    if any(sums.of("depth", ty) > DEEPEST for ty in [*types, *pairs]):
        return "Deep"
    if any(sums.of("heaviest", ty) > HEAVIEST for ty in [*types, *pairs]):
        return "Heavy"
    widths = [sum(sums.of("width", part) for part in pair) for pair in messages]
    return "Wide" if sum(widths) + added > WIDEST_IN_ALL or max(widths, default=0) > WIDEST else None


def told_of_names(text, back="xdr"):
    """The line with which a file is refused over a back end, or nothing."""
    try:
        fault = refusal_of(offer_of(text), back)
    except Refused as refused:
        return f"? {refused}"
    return f"? bind {fault}" if fault else ""


# ---- nodes in the form of nodes.py

def kind_of(ty):
    """The kind of a number."""
    for form, kind in ((Octet, "octet"), (Char, "char"), (Bool, "bool")):
        if isinstance(ty, form):
            return kind
    return f"{'i' if ty.signed else 'u'}{(ty.greatest - ty.least).bit_length()}"


def count_of(ty):
    """The count of a list, as the last part of its node."""
    return [] if ty.count.bound is None else [{"exactly" if ty.count.exact else "most": ty.count.bound}]


class Table:
    """Nodes, each after those of which it is made."""

    def __init__(self):
        self.nodes, self.known = [], {}

    def id(self, ty):
        if id(ty) not in self.known:
            node = self.node(ty)
            self.nodes.append(node)
            self.known[id(ty)] = len(self.nodes) - 1, ty
        return self.known[id(ty)][0]

    def node(self, ty):
        if isinstance(ty, Enum):
            return ["enum", sorted({n for _, n in ty.items})]
        if isinstance(ty, Number):
            return ["num", kind_of(ty)]
        if isinstance(ty, String):
            return ["text", *count_of(ty)]
        if is_row(ty):
            return ["row", "octet" if isinstance(ty, Opaque) else kind_of(ty.element), *count_of(ty)]
        if isinstance(ty, Array):
            return ["items", self.id(ty.element), *count_of(ty)]
        if isinstance(ty, Pointer):
            return ["maybe", self.id(ty.array.element)]
        if isinstance(ty, Struct):
            return ["group", [self.id(field) for _, field in ty.fields]]
        if isinstance(ty, Union):
            tag = sorted(n for _, n in ty.tag.items) if isinstance(ty.tag, Enum) else kind_of(ty.tag)
            return ["choice", tag, [[n, self.id(ty.arms[n])] for n in sorted(ty.arms)], *([self.id(ty.default)] if ty.default else [])]
        return ["void"]


def nodes_of(offer):
    """A table of nodes, and for each interface its name and its operations: name, request, reply, and whether it is oneway."""
    table, interfaces = Table(), []
    for interface in offer.interfaces:
        operations = [(each.name, *(table.id(part) for part in messages_of(each)), each.oneway) for each in interface.operations]
        interfaces.append((".".join(interface.path), operations))
    return table.nodes, interfaces
