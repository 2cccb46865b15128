"""Replies over each back end: their records to messages and back, and the refusals that a server sends.

As all of the model it is written from the standards and docs/, with nothing of the crates in it. What an operation
answers is its arm and its values: arm 0 has the result and the outs, arm k the members of the k-th exception that the
operation lists.
"""
import calls
import mach
from bridges import bridge
from calls import LONGEST_LINE, LONGEST_MESSAGE, HeadFault, NoTree, Onc, auth, is_hex, lines_of, text_of, tree_of, word
from cdr import Cdr, Writing
from giop import REPLY, SYSTEM, USER, Reading, Stop, message, read_reply, refusal, reply_fields, sequence
from values import Fault, NoValue, Reader, need

ACCEPTED = ("", "PROG_UNAVAIL", "PROG_MISMATCH", "PROC_UNAVAIL", "GARBAGE_ARGS", "SYSTEM_ERR")
DENIED = ("RPC_MISMATCH", "AUTH_ERROR")
NUMBERS = {"PROG_MISMATCH": 2, "RPC_MISMATCH": 2, "AUTH_ERROR": 1}  # how many numbers follow the status of a refusal
ANY_OCTETS = ("USER_EXCEPTION",)  # what follows the head of these is not looked at


def types_of(operation, arm):
    """The types that an arm of an operation answers."""
    return [ty for _, ty in operation.raises[arm - 1].members.fields] if arm else [operation.result, *operation.outs]


class Refused(Exception):
    """A reply that refuses: its number in the record, the name and numbers of the refusal, and the place after it."""

    def __init__(self, number, refused, used):
        super().__init__(number, refused, used)
        self.number, self.refused, self.used = number, refused, used


class OncReplies(Onc):
    """Replies of ONC (RFC 5531, section 9), with an empty verifier.

    Where the operation raises exceptions, the number of the arm follows the state of success; that is our own.
    """

    number = "xid"

    def has_reply(self, operation):
        return not operation.oneway

    def reply(self, interface, operation, xid, arm, values):
        head = (xid, 1, 0, 0, 0, 0, arm) if operation.raises else (xid, 1, 0, 0, 0, 0)
        return b"".join(map(word, head)) + b"".join(ty.send(v) for ty, v in zip(types_of(operation, arm), values))

    def refusal(self, xid, name, *numbers):
        """A refusal, whose numbers are those of its record."""
        if name in DENIED:
            return b"".join(map(word, (xid, 1, 1, DENIED.index(name), *numbers)))
        return b"".join(map(word, (xid, 1, 0, 0, 0, ACCEPTED.index(name), *numbers)))

    def read_answer(self, interface, operation, octets):
        """The transaction, the arm, and a reader of its values."""
        reader = Reader(octets, 0)
        try:
            xid, refused = read_onc_reply(reader)
            arm = number_in(reader, len(operation.raises)) if operation.raises and not refused else 0
        except Fault as fault:
            raise HeadFault("Short" if str(fault).startswith("Short") else "Pad") from None
        if refused:
            raise Refused(xid, refused, reader.at)
        return xid, arm, reader


def number_in(reader, greatest=2 ** 32 - 1, fault="Item"):
    n = int.from_bytes(reader.item(4), "big")
    if n > greatest:
        raise HeadFault(fault)
    return n


def read_onc_reply(reader):
    """The transaction, and the refusal or nothing."""
    xid = number_in(reader)
    if number_in(reader) != 1:
        raise HeadFault("Type")
    if number_in(reader, 1) == 0:
        auth(reader)
        name = ACCEPTED[number_in(reader, len(ACCEPTED) - 1)]
    else:
        name = DENIED[number_in(reader, len(DENIED) - 1)]
    return xid, name and [name, *(number_in(reader) for _ in range(NUMBERS.get(name, 0)))]


class CdrReplies(Cdr):
    """Replies of GIOP 1.0 and 1.2, which are read alike under each word. In 1.2 a body begins where the status and contexts end."""

    number = "id"

    def has_reply(self, operation):
        return True

    def reply(self, interface, operation, id, arm, values):
        fields = reply_fields(self.order, id, USER if arm else 0, self.version)
        if arm:
            fields = sequence(self.order, fields, operation.raises[arm - 1].id.encode() + b"\0")
        writing = Writing(fields, self.order)
        for ty, value in zip(types_of(operation, arm), values):
            writing.value(ty, value)
        return message(self.order, REPLY, writing.fields, self.version)

    def refusal(self, id, name, exception, *numbers):
        return refusal(self.order, id, exception.encode("latin-1"), *numbers, version=self.version)

    def read_answer(self, interface, operation, octets):
        """The id, the arm, and a reader of its values in the order of the message."""
        said = read_reply(octets)
        exception = said.get("exception", b"").decode("latin-1")
        if said["status"] == SYSTEM:
            raise Refused(said["id"], ["SYSTEM_EXCEPTION", exception, said["minor"], said["completion"]], said["used"])
        arm = next((arm for arm, raised in enumerate(operation.raises, 1) if raised.id == exception), None) if said["status"] == USER else 0
        if arm is None:
            raise Refused(said["id"], ["USER_EXCEPTION", exception], said["used"])
        return said["id"], arm, Reading(octets, said["used"], said["order"])


class MachReplies(mach.Mach):
    """Replies of Mach: the record has the port to which they go.

    Where the operation raises exceptions, an item with the number of the arm follows return code 0; that is our own.
    """

    number = "remote"

    def has_reply(self, operation):
        return not operation.oneway

    def reply(self, interface, operation, port, arm, values):
        out = mach.Writing()
        if operation.raises:
            out.number("i32", arm)
        for ty, value in zip(types_of(operation, arm), values):
            mach.put(out, ty, value)
        return mach.reply(port, interface.base + interface.slot(operation), 0, out.octets)

    def refusal(self, port, name, code, id):
        """A refusal of the request with an id."""
        return mach.reply(port, id, code)

    def read_answer(self, interface, operation, octets):
        """The remote port, the arm, and a reader of its values."""
        said = mach.read_reply(octets, interface.base + interface.slot(operation) + mach.REPLY_ID, len(operation.raises))
        if said["code"]:
            raise Refused(said["remote"], ["RETCODE", said["code"]], said["used"])
        return said["remote"], said["arm"], mach.Reading(octets, said["used"])


BACKS = {"xdr": OncReplies(), "cdr-be": CdrReplies("big"), "cdr-le": CdrReplies("little"),
         "cdr12-be": CdrReplies("big", 2), "cdr12-le": CdrReplies("little", 2), "mach": MachReplies()}


# ---- records

def is_record(tree, numbers):
    """Whether a tree is a reply record, whatever its operation and what it answers; it may have these head numbers."""
    if not isinstance(tree, dict) or not set(tree) <= {"op", *numbers, "result", "outs", "raise", "members"} or not isinstance(tree.get("op"), str):
        return False
    if not all(type(tree.get(number, 0)) is int and 0 <= tree.get(number, 0) < 2 ** 32 for number in numbers):
        return False
    if "raise" in tree:
        return isinstance(tree["raise"], str) and isinstance(tree.get("members", {}), dict) and not {"result", "outs"} & set(tree)
    return "members" not in tree and isinstance(tree.get("outs", []), list)


def operation_of(back, interfaces, name):
    """The interface and the first operation of a name with dots, where there is one that has a reply."""
    return next(((i, op) for i in interfaces for op in back.operations(i) if f"{i.name}.{op[0]}" == name and back.has_reply(op)), None)


def answer_of(operation, tree):
    """The arm and the values that a record presents."""
    if "raise" in tree:
        arm = next((arm for arm, raised in enumerate(operation.raises, 1) if raised.name == tree["raise"]), None)
        need(arm is not None)
        return arm, operation.raises[arm - 1].members.value(tree.get("members", {}))
    trees = [tree.get("result"), *tree.get("outs", [])]
    types = types_of(operation, 0)
    need(len(trees) == len(types))
    return 0, [ty.value(each) for ty, each in zip(types, trees)]


def members_of(operation, arm, values):
    """What a record says of an answer."""
    if arm:
        raised = operation.raises[arm - 1]
        return {"raise": raised.name, "members": raised.members.tree(values)}
    result, *outs = (ty.tree(value) for ty, value in zip(types_of(operation, 0), values))
    return {"result": result, "outs": outs}


# ---- commands

def reply(back, interfaces, line):
    """The answer to a line of reply records."""
    if len(line) > LONGEST_LINE:
        return "! long"
    try:
        tree = tree_of(line)
    except NoTree:
        return "! json"
    if not is_record(tree, [back.number]):
        return "! request"
    named = operation_of(back, interfaces, tree["op"])
    if named is None:
        return "! op"
    try:
        answer = answer_of(named[1], tree)
    except NoValue:
        return "! value"
    octets = back.reply(*named, tree.get(back.number, 0), *answer)
    return octets.hex() if len(octets) <= LONGEST_MESSAGE else "! long"


def unreply(back, interfaces, line):
    """The answer to a line of an operation, a space and hexadecimal digits."""
    if len(line) > LONGEST_LINE:
        return "! long"
    name, space, digits = line.partition(b" ")
    if not space:
        return "! request"
    named = operation_of(back, interfaces, name.decode("latin-1"))
    if named is None:
        return "! op"
    if not is_hex(digits):
        return "! hex"
    return record_of(back, *named, bytes.fromhex(digits.decode()))


def record_of(back, interface, operation, octets):
    """The record of a reply to an operation, or its first fault."""
    record = {"op": f"{interface.name}.{operation[0]}"}
    try:
        number, arm, reader = back.read_answer(interface, operation, octets)
        values = [back.read(reader, ty) for ty in types_of(operation, arm)]
        record.update({back.number: number}, **members_of(operation, arm, values))
        used = reader.at
    except Refused as refused:
        record.update({back.number: refused.number}, refused=refused.refused)
        used = len(octets) if refused.refused[0] in ANY_OCTETS else refused.used
    except HeadFault as fault:
        return f"! head {fault}"
    except Stop as stop:
        return f"! head {stop.kind.removesuffix('_')}"
    except Fault as fault:
        return f"! body {fault}"
    return text_of(record) if used == len(octets) else f"! trailing {used}"


COMMANDS = {"reply": reply, "unreply": unreply}


def answer(command, back, interfaces, line):
    """What a command over a back end answers to a line; `bridge` is over two, with a blank between them."""
    if command == "bridge":
        return bridge(back, interfaces, line)
    commands, backs = (COMMANDS, BACKS) if command in COMMANDS else (calls.COMMANDS, calls.BACKS)
    return commands[command](backs[back], interfaces, line)


def answers(command, back, interfaces, octets):
    """What a command over a back end writes over an input, and its status."""
    told = [answer(command, back, interfaces, line) for line in lines_of(octets)]
    return "".join(f"{each}\n" for each in told).encode(), int(any(each.startswith("!") for each in told))
