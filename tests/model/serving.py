"""What a server answers to a message over each back end, and the replies that it is given (docs/FORMATS.md).

As all of the model it is written from the standards and docs/, with nothing of the crates in it. `answered` is the table
of serving, one row a step: the first that holds decides. None stands for silence.
"""
import mach
from calls import LONGEST_LINE, LONGEST_MESSAGE, HeadFault, NoTree, is_hex, lines_of, read_head, tree_of
from giop import LOCATE_REPLY, MESSAGE_ERROR, Reading, Stop, addressing, long, message, read_call
from replies import BACKS as REPLIES
from replies import CdrReplies, answer_of, is_record, operation_of, types_of
from values import Array, Enum, Fault, NoValue, Number, Opaque, Pointer, Reader, Struct, Union

LONGEST_REPLIES = 8_388_608
OTHER_TYPES = (1, 2, 4, 5, 6)  # the types of GIOP messages that a server is not sent
NO_OPERATION, NO_ARGUMENTS = -303, -304  # return codes of Mach
NOT_DONE, DONE = 1, 0  # what a system exception says of the operation's completion


def blank(ty):
    """The value that stands where none is given: 0, the first label or arm, and no more elements than there have to be."""
    if isinstance(ty, Enum):
        return min(n for _, n in ty.items)
    if isinstance(ty, Number):
        return 0
    if isinstance(ty, Opaque):
        return bytes(ty.count.bound if ty.count.exact else 0)
    if isinstance(ty, Array):
        return [blank(ty.element)] * (ty.count.bound if ty.count.exact else 0)
    if isinstance(ty, Struct):
        return [blank(field) for _, field in ty.fields]
    if isinstance(ty, Union):
        n = min(ty.arms) if ty.arms else blank(ty.tag)
        return n, blank(ty.arm(n))
    assert isinstance(ty, Pointer) or ty.send(None) == b""
    return None


# ---- the replies that are given

class BadReplies(Exception):
    """Why the replies are not taken."""


def table_of(back, interfaces, octets):
    """The answers of a file of reply records, each of an operation by its name. Lines are counted with the empty ones."""
    if len(octets) > LONGEST_REPLIES:
        raise BadReplies("size")
    table = {}
    for number, line in enumerate(octets.split(b"\n"), 1):
        line = line.removesuffix(b"\r")
        if line:
            answer = given(back, interfaces, line)
            if answer is None or answer[0] in table:
                raise BadReplies(number)
            table[answer[0]] = answer[1]
    return table


def given(back, interfaces, line):
    """The name of an operation, and its arm and values; or nothing where a line is not taken."""
    try:
        tree = tree_of(line)
        named = operation_of(back, interfaces, tree["op"]) if is_record(tree, []) else None
        answer = named and answer_of(named[1], tree)
    except (NoTree, NoValue):
        return None
    return (tree["op"], answer) if answer and len(back.reply(*named, 0, *answer)) <= LONGEST_MESSAGE else None


# ---- the columns of the table

class Call:
    """What a head says: the number of the reply, and tests of interfaces and operations.

    `wants` is whether a reply is wanted, and `key` is there where it is only asked whether there is such an object.
    `version` is that of the message, where its replies have the same, and `is_addressed` false where its target tells no key.
    """

    def __init__(self, number, is_called, is_named, reader, wants=True, key=None, id=None, version=0, is_addressed=True):
        self.number, self.is_called, self.is_named, self.reader = number, is_called, is_named, reader
        self.wants, self.key, self.id, self.version, self.is_addressed = wants, key, id, version, is_addressed


class OncServer:
    def __init__(self, replies):
        self.replies = replies

    def replies_to(self, call):
        return self.replies

    def call(self, octets):
        reader = Reader(octets, 0)
        xid, program, version, procedure = read_head(reader)
        call = Call(xid, lambda i: (i.program, i.version) == (program, version), lambda _, op: op[1] == procedure, reader)
        call.program = program
        return call

    def bad_head(self, fault, octets):
        """Another version of the protocol is refused, by the first word of the message."""
        return self.replies.refusal(int.from_bytes(octets[:4], "big"), "RPC_MISMATCH", 2, 2) if fault == "Version" else None

    def no_interface(self, call, interfaces):
        versions = [i.version for i in interfaces if i.program == call.program]
        if versions:
            return self.replies.refusal(call.number, "PROG_MISMATCH", min(versions), max(versions))
        return self.replies.refusal(call.number, "PROG_UNAVAIL")

    def no_operation(self, call):
        return self.replies.refusal(call.number, "PROC_UNAVAIL")

    def bad_body(self, call):
        return self.replies.refusal(call.number, "GARBAGE_ARGS")

    def long_answer(self, call):
        return self.replies.refusal(call.number, "SYSTEM_ERR")


class CdrServer:
    """Answers in the command's order, and in the version of the request. Where that is not known it is the command's."""

    def __init__(self, replies):
        self.replies = replies

    def replies_to(self, call):
        return CdrReplies(self.replies.order, call.version)

    def call(self, octets):
        said = read_call(octets)
        if said["ask"] == "locate":
            return Call(said["id"], lambda i: i.name.encode() == said["key"], None, None, key=said["key"], version=said["version"])
        if said["ask"] == "addressing":
            return Call(said["id"], lambda i: False, None, None, wants=said["wants"], version=said["version"], is_addressed=False)
        return Call(said["id"], lambda i: i.name.encode() == said["key"], lambda _, op: op[0].encode() == said["name"],
                    Reading(octets, said["used"], said["order"]), wants=said["wants"], version=said["version"])

    def bad_head(self, fault, octets):
        return None if fault == "Type_" and octets[7] in OTHER_TYPES else message(self.replies.order, MESSAGE_ERROR, b"", self.replies.version)

    def located(self, call, is_there):
        order = self.replies.order
        return message(order, LOCATE_REPLY, long(order, call.number) + long(order, is_there), call.version)

    def readdressed(self, call):
        return addressing(self.replies.order, call.number)

    def refusal(self, call, name, completion=NOT_DONE):
        return self.replies_to(call).refusal(call.number, "SYSTEM_EXCEPTION", f"IDL:omg.org/CORBA/{name}:1.0", 0, completion)

    def no_interface(self, call, interfaces):
        return self.refusal(call, "OBJECT_NOT_EXIST")

    def no_operation(self, call):
        return self.refusal(call, "BAD_OPERATION")

    def bad_body(self, call):
        return self.refusal(call, "MARSHAL")

    def long_answer(self, call):
        return self.refusal(call, "MARSHAL", DONE)


class MachServer:
    def __init__(self, replies):
        self.replies = replies

    def replies_to(self, call):
        return self.replies

    def call(self, octets):
        said = mach.read_call(octets)
        return Call(said["local"], lambda i: 0 <= said["id"] - i.base < i.slots, lambda i, op: i.base + i.slot(op) == said["id"],
                    mach.Reading(octets, said["used"]), wants=said["local"] != 0, id=said["id"])

    def bad_head(self, fault, octets):
        return None

    def refusal(self, call, code):
        return self.replies.refusal(call.number, "RETCODE", code, call.id)

    def no_interface(self, call, interfaces):
        return self.refusal(call, NO_OPERATION)

    def no_operation(self, call):
        return self.refusal(call, NO_OPERATION)

    def bad_body(self, call):
        return self.refusal(call, NO_ARGUMENTS)

    def long_answer(self, call):
        return self.refusal(call, NO_ARGUMENTS)


SERVERS = {back: {"xdr": OncServer, "mach": MachServer}.get(back, CdrServer)(replies) for back, replies in REPLIES.items()}


# ---- the table

def answered(server, interfaces, table, octets):
    """The reply to a message, or None: what the first row that holds says."""
    if len(octets) > LONGEST_MESSAGE:
        return None
    try:
        call = server.call(octets)
    except (HeadFault, Stop) as fault:
        return server.bad_head(fault.kind if isinstance(fault, Stop) else str(fault), octets)
    called = next((i for i in interfaces if call.is_called(i)), None)
    if call.key is not None:
        return server.located(call, called is not None)
    if not call.wants:
        return None
    if not call.is_addressed:
        return server.readdressed(call)
    if called is None:
        return server.no_interface(call, interfaces)
    operation = next((op for op in server.replies.operations(called) if call.is_named(called, op)), None)
    if operation is None:
        return server.no_operation(call)
    if not server.replies.has_reply(operation):
        return None
    if not is_read(server.replies, call.reader, operation, octets):
        return server.bad_body(call)
    arm, values = table.get(f"{called.name}.{operation[0]}", (0, [blank(ty) for ty in types_of(operation, 0)]))
    reply = server.replies_to(call).reply(called, operation, call.number, arm, values)
    return reply if len(reply) <= LONGEST_MESSAGE else server.long_answer(call)


def is_read(replies, reader, operation, octets):
    """Whether the arguments are all that follows the head."""
    try:
        for ty in operation[2]:
            replies.read(reader, ty)
    except Fault:
        return False
    return reader.at == len(octets)


def serve(server, interfaces, table, line):
    """The answer to a line of hexadecimal digits."""
    if len(line) > LONGEST_LINE:
        return "! long"
    if not is_hex(line):
        return "! hex"
    reply = answered(server, interfaces, table, bytes.fromhex(line.decode()))
    return "-" if reply is None else reply.hex()


def taken(back, interfaces, given):
    """The answers of a file of replies; None stands for no file."""
    if given is None:
        raise BadReplies("file")
    return table_of(REPLIES[back], interfaces, given)


def told(back, interfaces, given, octets):
    """What `serve` writes over an input, and its status."""
    try:
        table = taken(back, interfaces, given)
    except BadReplies as bad:
        return f"? replies {bad}\n".encode(), 3
    answers = [serve(SERVERS[back], interfaces, table, line) for line in lines_of(octets)]
    return "".join(f"{answer}\n" for answer in answers).encode(), int(any(answer.startswith("!") for answer in answers))
