"""Files in the interface language of MIG, a profile of the one of Mach 3 (docs/GRAMMAR.md): their trees, what their names
mean, and what they offer.

Tokens and trees are read as those of corba.py are: the grammar is a table of rules, and every way is tried. As all of
the model it is written from the rules, with nothing of the crates in it.
"""
from collections import namedtuple
from functools import lru_cache

from calls import Called, Interface
from corba import Fault, Reading, Token, beginnings_of, rules_of, words_of
from corba import tokens_of as tokens_of_front
from corba_scopes import Char, Octet, row_of
from nodes import sent
from values import Count, Number

PORT = "port"
KNOWN = {
    "char": "char", "byte": "octet", "short": "i16", "int": "i32", "unsigned": "u32", "mach_port_t": PORT,
    "MACH_MSG_TYPE_CHAR": "char", "MACH_MSG_TYPE_BYTE": "octet", "MACH_MSG_TYPE_INTEGER_16": "i16", "MACH_MSG_TYPE_INTEGER_32": "i32",
    "MACH_MSG_TYPE_COPY_SEND": PORT,
}
BITS = {"char": 8, "octet": 8, "i16": 16, "i32": 32, "u32": 32, PORT: 32}
GREATEST_COUNT = 2 ** 32 - 1
GREATEST_ID = 2 ** 31 - 1
REPLY_IDS = 100  # how far the ids of replies are above those of requests
MOST_OPERATIONS = 256
OUTWARDS = ("out", "inout")
HEAVIEST = 1_048_576
PROGRAM, VERSION = 0x20000000, 1  # over ONC, where a file of MIG has no such numbers


class Refused(Exception):
    """The line with which a file is refused."""


# ---- trees

# As in corba.py, what follows `^` has one level more than its rule. Words are taken in any letter case.
GRAMMAR = """
subsystem   = "subsystem" identifier sum ";"
statement   = type | routine | skip | prefix | import
type        = "type" identifier "=" ( identifier | "(" ^sized ")" | row ) ";"
sized       = identifier "," sum
row         = ( "array" | "struct" ) "[" sum "]" "of" identifier | "array" "[" "*" ":" sum "]" "of" identifier
routine     = ( "routine" | "simpleroutine" ) identifier "(" ^parameters ")" ";"
parameters  = parameter { ";" parameter }
parameter   = [ "requestport" | "in" | "out" | "inout" ] identifier ":" identifier
skip        = "skip" ";"
prefix      = ( "userprefix" | "serverprefix" ) identifier ";"
import      = ( "import" | "uimport" | "simport" ) file ";"
sum         = ^sum ( "+" | "-" ) ^product | product
product     = ^product ( "*" | "/" ) ^operand | operand
operand     = number | "(" ^sum ")"
"""
WORDS = words_of(GRAMMAR)


def tokens_of(text):
    """The tokens of a text: a word that no rule quotes is an identifier, in the case in which it is written."""
    return [as_word(token) if token.kind == "word" else token for token in tokens_of_front(text, "mig")]


def as_word(token):
    lower = token.value.lower()
    return token._replace(value=lower) if lower in WORDS else token._replace(kind="identifier")


RULES = rules_of(GRAMMAR)


class MigReading(Reading):
    kinds, rules, beginnings = {"identifier": "identifier", "number": "number", "file": "file name"}, RULES, beginnings_of(RULES)

    def leaf(self, name, place):
        token = self.token(place)
        return {place + 2: (token,)} if token and token.kind == self.kinds[name] else {}


def tree_at(reading, rule, place):
    """The tree of a rule from a place on, and where it ends; or no tree. It ends with its `;`, so there is one."""
    ends = reading.rule(rule, place, 1)
    assert len(ends) <= 1, f"{rule} ends at {sorted(ends)}"
    return next(((parts[0], end) for end, parts in ends.items()), (None, place))


@lru_cache(maxsize=1)
def trees_of(text):
    """The trees of a file: the subsystem, and its statements. The line of a fault is that of what fails: a statement, or
    the subsystem, which begins with the first token."""
    try:
        tokens = tokens_of(text)
    except Fault as fault:
        raise Refused(f"? lex {fault}") from None
    reading, trees, rule, place = MigReading(tokens), [], "subsystem", 0
    while place < 2 * len(tokens) or not trees:
        tree, place = tree_at(reading, rule, place)
        if tree is None:
            raise Refused(f"? syntax {tokens[place // 2].line if tokens else 1}")
        trees.append(tree)
        rule = "statement"
    return tuple(trees)


def parts_of(tree):
    """The tokens and trees in a tree, without its words and marks."""
    return [part for part in tree[1:] if isinstance(part, tuple)]


# ---- numbers

class NameFault(Exception):
    """What is wrong with a declaration."""


def number_of(tree):
    """The value of an expression. It, and each value in it, has 128 signed bits."""
    if isinstance(tree, Token):
        return tree.value
    if tree[0] == "operand":
        return number_of(tree[2])
    left, right = number_of(tree[1]), number_of(tree[3])
    if tree[2] == "/" and right == 0:
        raise NameFault("Range")
    n = {"+": lambda: left + right, "-": lambda: left - right, "*": lambda: left * right, "/": lambda: quotient(left, right)}[tree[2]]()
    return number_between(-2 ** 127, n, 2 ** 127 - 1)


def quotient(left, right):
    """What is left of a quotient without its fraction."""
    n = abs(left) // abs(right)
    return n if (left < 0) == (right < 0) else -n


def number_between(least, n, greatest):
    if not least <= n <= greatest:
        raise NameFault("Range")
    return n


# ---- what names mean

# A number of a kind, so many of them in a row (`exactly`, or at `most`), or a port. `text` is how it is referred to; a
# type that a file declares has a node, but for ports, which no message has.
Type = namedtuple("Type", "kind count text node")

# Of a routine: `number` is that of its procedure over ONC, `slot` that of its message id from the base upwards. `ins` and
# `outs` are pairs of a name and a type; `request` and `reply` are nodes.
Operation = namedtuple("Operation", "name number slot oneway ins outs request reply")


class Subsystem:
    """What a file declares so far.

    Each fault of a file is that of one token, and depends on nothing that follows. So tokens are judged as they are
    reached, and of two faults at one token the one that docs/ERRORS.md lists first is looked for first.
    """

    def __init__(self, tree):
        identifier, base = parts_of(tree)
        self.name = identifier.value
        self.base = number_between(0, number_of(base), GREATEST_ID - REPLY_IDS)
        self.slots = 0
        self.known = {name: Type(kind, None, kind, None) for name, kind in KNOWN.items()}
        self.declared = set()  # the names of `type` statements, each of which may replace a known one
        self.nodes, self.types, self.operations = [], [], []

    def declare(self, tree):
        """A statement. Those that are not named here are read and mean nothing."""
        meaning = {"type": self.type, "skip": self.skip, "routine": self.routine}.get(tree[0])
        if meaning:
            meaning(tree)

    def node(self, *node):
        self.nodes.append(list(node))
        return len(self.nodes) - 1

    # -- types

    def type(self, tree):
        identifier, meaning = parts_of(tree)
        if identifier.value in self.declared:
            raise NameFault("Twice")
        meant = self.meaning(meaning)
        self.declared.add(identifier.value)
        if meant.kind != PORT:
            self.types.append((identifier.value, meant.text))
            meant = meant._replace(node=self.node_of(meant), text=identifier.value)
        self.known[identifier.value] = meant

    def meaning(self, tree):
        """The type to the right of a `=`."""
        if isinstance(tree, Token):
            return self.named(tree)
        return self.sized(tree) if tree[0] == "sized" else self.row(tree)

    def named(self, identifier):
        if identifier.value not in self.known:
            raise NameFault("Unknown")
        return self.known[identifier.value]

    def sized(self, tree):
        """A port or a number with its size in bits."""
        identifier, size = parts_of(tree)
        meant = self.named(identifier)
        if meant.count:
            raise NameFault("OutOfScope")
        number_between(BITS[meant.kind], number_of(size), BITS[meant.kind])
        return meant

    def row(self, tree):
        length, identifier = parts_of(tree)
        n = number_between(1, number_of(length), GREATEST_COUNT)
        element = self.named(identifier)
        if element.count or element.kind == PORT:
            raise NameFault("OutOfScope")
        count, word = ({"most": n}, "list") if "*" in tree else ({"exactly": n}, "array")
        return Type(element.kind, count, f"{word} {n} of {element.text}", None)

    def node_of(self, meant):
        """The node of a type: a declared type has one for all its uses."""
        if meant.node is not None:
            return meant.node
        return self.node("row", meant.kind, meant.count) if meant.count else self.node("num", meant.kind)

    # -- routines

    def skip(self, _):
        self.take_id()

    def take_id(self):
        """The next slot, whose message id and that of its reply are in range."""
        number_between(0, self.base + self.slots + 1, GREATEST_ID - REPLY_IDS)
        self.slots += 1
        return self.slots - 1

    def routine(self, tree):
        identifier, parameters = parts_of(tree)
        if identifier.value in {operation.name for operation in self.operations}:
            raise NameFault("Twice")
        slot = self.take_id()
        if len(self.operations) == MOST_OPERATIONS:
            raise NameFault("Limit")
        oneway = tree[1] == "simpleroutine"
        _, *data = self.parameters(parts_of(parameters) if parameters[0] == "parameters" else [parameters], oneway)
        ins = [(name, meant) for way, name, meant in data if way != "out"]
        outs = [(name, meant) for way, name, meant in data if way in OUTWARDS]
        request = self.node("group", [self.node_of(meant) for _, meant in ins])
        answer = self.node("group", [self.node("void"), *(self.node_of(meant) for _, meant in outs)])
        reply = self.node("choice", "u32", [[0, answer]])
        self.operations.append(Operation(identifier.value, len(self.operations) + 1, slot, oneway, ins, outs, request, reply))

    def parameters(self, trees, oneway):
        """The way, the name and the type of each parameter; the first is the port to which requests are sent."""
        found = []
        for tree in trees:
            found.append(self.parameter(tree, [name for _, name, _ in found], oneway))
        return found

    def parameter(self, tree, earlier, oneway):
        """A parameter after others of these names."""
        identifier, name_of_type = parts_of(tree)
        way = tree[1] if isinstance(tree[1], str) else "in"
        if oneway and way in OUTWARDS:
            raise NameFault("Oneway")
        if earlier and way == "requestport":
            raise NameFault("Port")
        if identifier.value in earlier:
            raise NameFault("Twice")
        meant = self.named(name_of_type)
        if earlier and meant.kind == PORT:
            raise NameFault("OutOfScope")
        if not earlier and meant.kind != PORT:
            raise NameFault("Port")
        return way, identifier.value, meant


# ---- answers

def weight(nodes, id):
    """How many numbers the least value of a node has; a row, and what a union holds, count one more."""
    form, *rest = nodes[id]
    if form == "num":
        return 1
    if form == "row":
        return 1 + rest[1].get("exactly", 0)
    if form == "group":
        return sum(weight(nodes, child) for child in rest[0])
    return 1 + weight(nodes, rest[1][0][1]) if form == "choice" else 0


def declared_in(text):
    """What a file declares."""
    subsystem = None
    for number, tree in enumerate(trees_of(text), 1):
        try:
            if subsystem is None:
                subsystem = Subsystem(tree)
            else:
                subsystem.declare(tree)
        except NameFault as fault:
            raise Refused(f"? name {fault} {number}") from None
    return subsystem


def file_of(text):
    """What a file that is bound declares. Of the limits of a binding only that of weight is reached by the files here."""
    subsystem = declared_in(text)
    if any(weight(subsystem.nodes, id) > HEAVIEST for id in range(len(subsystem.nodes))):
        raise Refused("? bind Heavy")
    return subsystem


@lru_cache(maxsize=1)
def told_of_file(text):
    """The line with which a file is refused, or nothing."""
    try:
        file_of(text)
    except Refused as refused:
        return str(refused)
    return ""


def texts(types):
    return f"({', '.join(types)})"


def offered(text):
    """What a file offers, in lines: its types, its interface, and what its operations take and give."""
    subsystem = declared_in(text)
    lines = [f"type {name} = {meaning}" for name, meaning in subsystem.types]
    lines.append(f"interface {subsystem.name} program {PROGRAM} version {VERSION} base {subsystem.base}")
    for operation in subsystem.operations:
        ins, outs = ([meant.text for _, meant in parameters] for parameters in (operation.ins, operation.outs))
        ways = f"{texts(ins)} -> {texts(['void', *outs])}{' oneway' if operation.oneway else ''}"
        lines.append(f"op {operation.name} proc {operation.number} slot {operation.slot} {ways}")
    return lines


def request_of(text, name, values, encoding, at=0):
    """The octets of what goes in, for an operation of a file; values have the form of nodes.py."""
    subsystem = file_of(text)
    operation = next(operation for operation in subsystem.operations if operation.name == name)
    return sent(encoding, subsystem.nodes, operation.request, {"group": values}, at)


# ---- what calls.py knows of a file

NUMBERS = {"char": Char(), "octet": Octet(), "i16": Number(True, 16), "i32": Number(True, 32), "u32": Number(False, 32)}


def type_of(meant):
    """A number, or a row of them."""
    number = NUMBERS[meant.kind]
    return row_of(number, Count(*meant.count.values(), exact="exactly" in meant.count)) if meant.count else number


def called(operation):
    ins, outs = ([type_of(meant) for _, meant in parameters] for parameters in (operation.ins, operation.outs))
    return Called(operation.name, operation.number, ins, outs=outs, oneway=operation.oneway, slot=operation.slot)


def interfaces_of(text):
    """The interface of a file that is accepted. A `skip` takes a slot and has no operation."""
    subsystem = file_of(text.encode())
    return [Interface(subsystem.name, PROGRAM, VERSION, map(called, subsystem.operations), base=subsystem.base, slots=subsystem.slots)]
