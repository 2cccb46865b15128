"""ONC calls (RFC 5531, section 9), requests over CDR and Mach, and their records, over the operations of an interface file."""
import json
import re
from itertools import accumulate

from cdr import Cdr
from giop import Stop
from mach import Mach
from values import Fault, NoValue, Reader, Void

LONGEST_LINE = 8_388_608
LONGEST_MESSAGE = 4_194_304
DEEPEST = 127


class Called(tuple):
    """An operation: a triple of its name, its number and the types that go in. Beside these it has what comes out.

    That is a result, and `outs`; or one of `raises`, the exceptions that it lists. A oneway operation is not answered
    over all back ends. Its slot is its place in its interface where none is given.
    """

    def __new__(cls, name, number, ins, **more):
        return super().__new__(cls, (name, number, ins))

    def __init__(self, name, number, ins, result=None, outs=(), raises=(), oneway=False, slot=None):
        self.result, self.outs, self.raises, self.oneway, self.slot = result or Void(), list(outs), list(raises), oneway, slot


class Interface:
    """A version of a program, with its operations.

    Over Mach it has as many ids from `base` on as it has slots.
    """

    def __init__(self, name, program, version, operations, base=None, slots=None):
        self.name, self.program, self.version, self.own = name, program, version, list(operations)
        self.base, self.slots = base, len(self.own) if slots is None else slots
        self.operations = list(self.own)
        if all(number != 0 for _, number, _ in self.own):
            self.operations.append(Called("0", 0, []))

    def slot(self, operation):
        return self.own.index(operation) if operation.slot is None else operation.slot


class NoTree(Exception):
    """A line that is no JSON."""


class NotWhole:
    """A number of JSON that is not written as a whole number of 64 bits."""


def whole(text):
    n = int(text)
    if text != "-0" and -2 ** 63 <= n < 2 ** 64:
        return n
    return fraction(text)


def fraction(text):
    if abs(float(text)) == float("inf"):
        raise NoTree
    return NotWhole()


def no_constant(_):
    raise NoTree


READER = json.JSONDecoder(parse_int=whole, parse_float=fraction, parse_constant=no_constant)
WRITER = json.JSONEncoder(ensure_ascii=False, separators=(",", ":"), sort_keys=True)
STRING = re.compile(r'"[^"\\]*(?:\\.[^"\\]*)*"')
BRACKET = re.compile(r"[][{}]")
HALF = re.compile("[\ud800-\udfff]")


def is_readable(text):
    """Whether a text of JSON has no half of a surrogate pair, and is nested no deeper than is read."""
    if "\\u" in text and any(HALF.search(json.loads(string)) for string in STRING.findall(text)):
        return False
    steps = (1 if c in "[{" else -1 for c in BRACKET.findall(STRING.sub("", text)))
    return max(accumulate(steps), default=0) <= DEEPEST


def tree_of(line):
    """The tree of a line: objects are dicts, in which the last member of a name counts."""
    try:
        tree = READER.decode(text := line.decode())
    except (ValueError, RecursionError):
        raise NoTree from None
    if not is_readable(text):
        raise NoTree
    return tree


def text_of(tree):
    """JSON without blanks, members in the order of their names' characters, which is that of their octets."""
    return WRITER.encode(tree)


def word(n):
    return n.to_bytes(4, "big")


def is_record(tree, keys):
    """Whether a tree is a request record, whatever its operation and value; its head numbers have these names."""
    if not isinstance(tree, dict) or not set(tree) <= {"op", *keys, "args"} or not isinstance(tree.get("op"), str):
        return False
    numbers = [tree.get(key, 0) for key in keys]
    return all(type(n) is int and 0 <= n < 2 ** 32 for n in numbers) and isinstance(tree.get("args", []), list)


def marshal(back, interfaces, line):
    """The answer to a line of request records."""
    if len(line) > LONGEST_LINE:
        return "! long"
    try:
        tree = tree_of(line)
    except NoTree:
        return "! json"
    if not is_record(tree, back.keys):
        return "! request"
    named = [(i, op) for i in interfaces for op in back.operations(i) if f"{i.name}.{op[0]}" == tree["op"]]
    if not named:
        return "! op"
    interface, operation = named[0]
    numbers = {key: tree.get(key, 0) for key in back.keys}
    if operation.oneway and numbers.get("local"):
        return "! head"
    args = tree.get("args", [])
    try:
        if len(args) != len(operation[2]):
            raise NoValue
        values = [ty.value(arg) for ty, arg in zip(operation[2], args)]
    except NoValue:
        return "! value"
    message = back.message(interface, operation, numbers, values)
    return message.hex() if len(message) <= LONGEST_MESSAGE else "! long"


class HeadFault(Exception):
    """The first item of a head that is cut off or wrong."""


def auth(reader):
    """A credential or verifier: any flavour, up to 400 octets."""
    reader.item(4)
    length = int.from_bytes(reader.item(4), "big")
    if length > 400:
        raise HeadFault("Cred")
    for _ in range(length):
        reader.item(1)
    reader.padding(length)


def read_head(reader):
    """The transaction, and the numbers of program, version and procedure."""
    try:
        xid = int.from_bytes(reader.item(4), "big")
        if reader.item(4) != word(0):
            raise HeadFault("Type")
        if reader.item(4) != word(2):
            raise HeadFault("Version")
        numbers = [int.from_bytes(reader.item(4), "big") for _ in range(3)]
        auth(reader)
        auth(reader)
    except Fault as fault:
        raise HeadFault("Short" if str(fault).startswith("Short") else "Pad") from None
    return xid, *numbers


class Onc:
    """Calls of ONC, whose values travel over XDR."""

    keys = ("xid",)

    def operations(self, interface):
        return interface.operations

    def message(self, interface, operation, numbers, values):
        """The call of an operation, with empty credentials and verifier."""
        numbers = (numbers["xid"], 0, 2, interface.program, interface.version, operation[1], 0, 0, 0, 0)
        return b"".join(map(word, numbers)) + b"".join(ty.send(v) for ty, v in zip(operation[2], values))

    def head(self, octets):
        """The transaction, a test of interfaces and one of their operations, and a reader of values."""
        reader = Reader(octets, 0)
        xid, program, version, procedure = read_head(reader)
        return {"xid": xid}, lambda i: (i.program, i.version) == (program, version), lambda _, op: op[1] == procedure, reader

    def read(self, reader, ty):
        return ty.read(reader)


def is_hex(text):
    """Whether a text is an even number of hexadecimal digits."""
    return len(text) % 2 == 0 and not text.translate(None, b"0123456789abcdefABCDEF")


class Refused(Exception):
    """A line that is no message of a request; the line that says so."""


def request_in(back, interfaces, line):
    """The request of a line of hexadecimal digits: an interface, its operation, the numbers of the head, and the values."""
    if len(line) > LONGEST_LINE:
        raise Refused("! long")
    if not is_hex(line):
        raise Refused("! hex")
    message = bytes.fromhex(line.decode())
    try:
        numbers, is_called, is_named, reader = back.head(message)
    except HeadFault as fault:
        raise Refused(f"! head {fault}") from None
    except Stop as stop:
        raise Refused(f"! head {stop.kind.removesuffix('_')}") from None
    called = [i for i in interfaces if is_called(i)]
    if not called:
        raise Refused("! interface")
    operations = [op for op in back.operations(called[0]) if is_named(called[0], op)]
    if not operations:
        raise Refused("! operation")
    try:
        values = [back.read(reader, ty) for ty in operations[0][2]]
    except Fault as fault:
        raise Refused(f"! body {fault}") from None
    if reader.at < len(message):
        raise Refused(f"! trailing {reader.at}")
    return called[0], operations[0], numbers, values


def unmarshal(back, interfaces, line):
    """The answer to a line of hexadecimal digits."""
    try:
        interface, (name, _, types), numbers, values = request_in(back, interfaces, line)
    except Refused as refused:
        return str(refused)
    args = [ty.tree(value) for ty, value in zip(types, values)]
    return text_of({"op": f"{interface.name}.{name}", "args": args, **numbers})


COMMANDS = {"marshal": marshal, "unmarshal": unmarshal}
BACKS = {"xdr": Onc(), "cdr-be": Cdr("big"), "cdr-le": Cdr("little"), "cdr12-be": Cdr("big", 2), "cdr12-le": Cdr("little", 2), "mach": Mach()}


def lines_of(octets):
    """The lines of an input: without a carriage return at their end, and none without octets."""
    return [line for line in (line.removesuffix(b"\r") for line in octets.split(b"\n")) if line]
