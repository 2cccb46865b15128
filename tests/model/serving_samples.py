#!/usr/bin/env python3
"""Random lines of replies and of serving, by a seeded generator: serving_samples.py [SEED [FILES]]

Run by itself it checks the model over random files of ONC and of CORBA: the record of each reply is read back, and what is
served of each request, right or wrong, is silence, or a reply that is read for one of the operations, or over Mach the
refusal of an id that none has.
"""
import json
import random
import sys

import corba_samples
from calls import BACKS, marshal, unmarshal
from corba_names import interfaces_of
from corba_nodes import told_of_names
from files import interfaces_of as onc_interfaces_of
from giop import LOCATE_REPLY, LOCATE_REQUEST, MESSAGE_ERROR, NEEDS_ADDRESSING, REQUEST, before_body, long, message, read_call, request_fields
from replies import BACKS as REPLIES
from replies import members_of, record_of, reply, types_of, unreply
from samples import ODD_LINES, OVER_CDR, FileMaker, call_lines, mach_sized, mutated, request_lines, resized, sample, writer
from serving import NO_OPERATION, SERVERS, BadReplies, answered, table_of

LINES = 20


def answers_of(rng, back, interfaces):
    """Each operation that has a reply, with its record without a head number: an answer or an exception."""
    for interface in interfaces:
        for operation in filter(back.has_reply, back.operations(interface)):
            arm = rng.randint(0, len(operation.raises))
            values = [sample(rng, ty) for ty in types_of(operation, arm)]
            yield interface, operation, {"op": f"{interface.name}.{operation[0]}", **members_of(operation, arm, values)}


def written(rng, record):
    return json.dumps(record, ensure_ascii=rng.random() < 0.5, separators=rng.choice([(",", ":"), (" , ", " : ")]))


def reply_lines(rng, back, interfaces, count):
    """Lines of `reply` over a back end: records, most of them right, and others."""
    made = list(answers_of(rng, back, interfaces))
    for _ in range(count if made else 0):
        record = {**rng.choice(made)[2], back.number: rng.choice([0, 1, 2 ** 32 - 1])}
        line = written(rng, mutated(rng, record) if rng.random() < 0.3 else record)
        yield (rng.choice(ODD_LINES) if rng.random() < 0.05 else line).encode()


def replied_lines(rng, back, interfaces, lines):
    """Lines of `unreply` over a back end: replies, most of them cut or with another octet somewhere. Over CDR each word writes some."""
    over_cdr = [REPLIES[word] for word in OVER_CDR]
    for line in lines:
        message = reply(rng.choice([back, *over_cdr]) if back in over_cdr else back, interfaces, line)
        if not message.startswith("!"):
            name = json.loads(line)["op"]
            yield f"{name} {message}".encode()
            for _ in range(3):
                at = rng.randrange(len(message) // 2) * 2
                octet = rng.choice(["00", "01", "02", "03", "ff", "80"])
                yield f"{name} {rng.choice([message[:at], message + octet, message[:at] + octet + message[at + 2:]])}".encode()


def given_records(rng, back, interfaces):
    """Records of replies for some of the operations, in any order."""
    records = [record for _, _, record in answers_of(rng, back, interfaces) if rng.random() < 0.5]
    return rng.sample(records, len(records))


def file_of(rng, lines):
    """The octets of lines, at times with empty ones between them, other ends, or no end of the last one."""
    ends = rng.choice([["\n"], ["\n"], ["\n", "\r\n"], ["\n", "\n\n", "\n\r\n"]])
    octets = "".join(line + rng.choice(ends) for line in lines)
    return (rng.choice(["", "", "\n", "\r\n\n"]) + (octets.removesuffix("\n") if rng.random() < 0.2 else octets)).encode()


def given_lines(rng, back, interfaces):
    """The octets of replies that are taken."""
    return file_of(rng, [written(rng, record) for record in given_records(rng, back, interfaces)])


def refused_lines(rng, back, interfaces):
    """The octets of replies of which a line or two are wrong, most of them, or those of no operation that has a reply."""
    records = given_records(rng, back, interfaces)
    lines = [written(rng, record) for record in records]
    for _ in range(rng.choice([1, 1, 2])):
        record = rng.choice(records) if records else {"op": "I.f"}
        odd = rng.choice([lambda: written(rng, mutated(rng, record)), lambda: written(rng, record), lambda: written(rng, record | {back.number: 0}), lambda: written(rng, {**record, "op": record["op"] + "x"}),
                          lambda: rng.choice(ODD_LINES), lambda: written(rng, record)[:-1], lambda: written(rng, {"op": record["op"], "raise": "E"}), lambda: " "])
        lines.insert(rng.randint(0, len(lines)), odd())
    return file_of(rng, lines)


# ---- messages to a server

def onc_aimed(rng, interfaces, call):
    """A call with other words in its head: its type, the protocol, the program, its version and the procedure."""
    other = rng.choice(interfaces)
    for at, words in rng.sample([(4, [1, 2]), (8, [1, 3]), (12, [other.program, other.program + 1]), (16, [other.version, other.version + 1, 0]),
                                 (20, [rng.choice(other.operations)[1], 0, 99])], rng.choice([0, 1, 1, 2])):
        call = call[:at] + (rng.choice(words) % 2 ** 32).to_bytes(4, "big") + call[at + 4:]
    return call


def giop_aimed(rng, interfaces, call):
    """A request with another type, version or order in its header, another boolean, key, name or target; or a search of its object."""
    said = read_call(call)
    order, version, edits = said["order"], said["version"], rng.choice([0, 0, 0, 1, 1, 2])
    target = rng.choice([0] * 6 + [1, 2, 3, 65535]).to_bytes(2, order)
    key = rng.choice([said["key"], said["key"], rng.choice(interfaces).name.encode(), said["key"] + b"x", said["key"][:-1]])
    if rng.random() < 0.2:
        fields = long(order, said["id"]) + (target + bytes(2)) * (version == 2) + long(order, len(key)) + key + rng.choice([b"", b"", b"", b"\0"])
        return message(order, LOCATE_REQUEST, fields, version)[:len(fields) + 12 - rng.choice([0, 0, 0, 1])]
    name = rng.choice([said["name"], said["name"] + b"x", said["name"][:-1], b""])
    if rng.random() < 0.5:
        fields = request_fields(order, said["id"], rng.choice([said["wants"], 0]), key.decode(), name.decode(), version)
        body = call[said["used"]:]
        call = message(order, REQUEST, (before_body(fields, version) if body else fields) + body, version)
    if version == 2 and rng.random() < 0.3:
        call = call[:20] + target + call[22:]
    places = [(20, [0, 0, 0, 2])] if version == 0 else [(16, [0, 1, 2, 254]), (21, [1, 2, 3])]
    for at, octets in rng.sample([(7, [1, 2, 3, 4, 5, 6, 7, 255]), (5, [0, 1, 2]), (6, [0, 1, 2]), (0, [0]), *places], edits):
        call = call[:at] + bytes([rng.choice(octets)]) + call[at + 1:]
    return call


def mach_aimed(rng, interfaces, call):
    """A request with another id or local port, or other bits in its header."""
    other = rng.choice(interfaces)
    ids = [other.base - 1, other.base + other.slots, other.base + rng.randrange(other.slots + 1), 2 ** 32 - 100]
    for at, words in rng.sample([(12, [0, 9]), (20, ids), (20, ids), (0, [0, 1 << 31]), (4, [0])], rng.choice([0, 1, 1, 2])):
        call = call[:at] + (rng.choice(words) % 2 ** 32).to_bytes(4, "little") + call[at + 4:]
    return call


AIMED = {"xdr": onc_aimed, "mach": mach_aimed}


def with_body(rng, name, call):
    """A message that is cut, or with octets after it; its head tells its size."""
    call = rng.choice([call, call, call[:rng.randrange(len(call))], call + b"\0", call + bytes(4)])
    if name == "xdr" or len(call) < 12:
        return call
    return bytes.fromhex(mach_sized(call.hex()) if name == "mach" else resized(call.hex()))


def served_lines(rng, name, interfaces, requests, count=3):
    """Lines of `serve` over a back end: right messages, and so many of each that a server refuses in some way, most of them."""
    for line in requests:
        call = marshal(BACKS[writer(rng, name)], interfaces, line)
        if not call.startswith("!"):
            yield call.encode()
            for _ in range(count):
                aimed = AIMED.get(name, giop_aimed)(rng, interfaces, bytes.fromhex(call))
                yield (with_body(rng, name, aimed) if rng.random() < 0.4 else aimed).hex().encode()


def unread(back, interfaces, line):
    """What is wrong with the record of a line of `reply`, or nothing."""
    message = reply(back, interfaces, line)
    if message.startswith("!"):
        return ""
    record = unreply(back, interfaces, f"{json.loads(line)['op']} {message}".encode())
    again = reply(back, interfaces, record.encode())
    return "" if again == message else f"{message} is read as {record}"


def unlike(interfaces, line):
    """What is wrong with a line of `marshal` or `reply` over CDR, or nothing: its messages of each order and version are read alike under each word, and replies are as long in each version."""
    requests = {word: marshal(BACKS[word], interfaces, line) for word in OVER_CDR}
    answers = {word: reply(REPLIES[word], interfaces, line) for word in OVER_CDR}
    lengths = {len(answer) for answer in answers.values()}
    if len(lengths) > 1:
        return f"replies of {line} have {lengths} digits"
    read = {unmarshal(BACKS[word], interfaces, told.encode()) for told in requests.values() if not told.startswith("!") for word in OVER_CDR}
    if len(read) > 1:
        return f"{line} is read as {read}"
    name = json.loads(line)["op"] if not answers["cdr-be"].startswith("!") else ""
    read = {unreply(REPLIES[word], interfaces, f"{name} {told}".encode()) for told in answers.values() if name for word in OVER_CDR}
    return f"{line} is read as {read}" if len(read) > 1 else ""


def unanswered(name, table, interfaces, octets):
    """What is wrong with what is served of a message, or nothing."""
    told = answered(SERVERS[name], interfaces, table, octets)
    if told is None or told[:4] == b"GIOP" and told[7] in (LOCATE_REPLY, MESSAGE_ERROR):
        return ""
    if told[:6] == b"GIOP\1\2" and NEEDS_ADDRESSING in told[16:20]:
        return "" if len(told) == 26 and octets[4:6] == b"\1\2" else told.hex()
    records = (record_of(REPLIES[name], i, op, told) for i in interfaces for op in REPLIES[name].operations(i))
    is_unknown = name == "mach" and int.from_bytes(told[28:], "little", signed=True) == NO_OPERATION
    return "" if is_unknown or any(not record.startswith("!") for record in records) else told.hex()


def untaken(back, interfaces, octets):
    """What is wrong with how replies are refused, or nothing: the lines before the one that is named are taken, and with it they are not."""
    try:
        table_of(back, interfaces, octets)
        return ""
    except BadReplies as bad:
        number = bad.args[0]
    lines = octets.split(b"\n")
    try:
        table_of(back, interfaces, b"\n".join(lines[:number - 1]))
        table_of(back, interfaces, b"\n".join(lines[:number]))
    except BadReplies as bad:
        return "" if bad.args[0] == number else f"line {bad.args[0]}, and not {number}, of {octets}"
    return f"not line {number} of {octets}"


def checked(rng, interfaces):
    """What is wrong over a file, by each back end."""
    for name, back in REPLIES.items():
        for line in reply_lines(rng, back, interfaces, LINES):
            yield unread(back, interfaces, line)
        yield untaken(back, interfaces, refused_lines(rng, back, interfaces))
        table = table_of(back, interfaces, given_lines(rng, back, interfaces))
        requests = list(request_lines(rng, name, interfaces, LINES))
        if name in OVER_CDR:
            for line in [*requests, *reply_lines(rng, back, interfaces, LINES)]:
                yield unlike(interfaces, line)
        for line in [*call_lines(rng, name, interfaces, requests), *served_lines(rng, name, interfaces, requests)]:
            if len(line) % 2 == 0:
                yield unanswered(name, table, interfaces, bytes.fromhex(line.decode()))


def main():
    seed, files = (int(word) for word in [*sys.argv[1:], "1", "20"][:2])
    lines = wrong = 0
    for number in range(files):
        rng = random.Random(f"{seed}/{number}")
        text = corba_samples.FileMaker(rng, raises=rng.random() < 0.5).text()
        offers = [onc_interfaces_of(FileMaker(rng).text()), interfaces_of(text) if not told_of_names(text.encode(), "cdr-be") else []]
        for finding in (finding for interfaces in offers if interfaces for finding in checked(rng, interfaces)):
            lines += 1
            wrong += bool(finding)
            print(finding) if finding else None
    print(f"{files} files, {lines} lines, {wrong} wrong")
    return 1 if wrong else 0


if __name__ == "__main__":
    sys.exit(main())
