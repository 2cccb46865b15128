"""What the program may write and how it may end, from docs/COMMANDS.md, docs/ERRORS.md and docs/FORMATS.md.

Each check returns what was expected where that is not what was written, and else None. The names of
the lines stand here by hand: a line of another name is a difference.
"""
import json
import re

from languages import LANGUAGES

LONGEST_FILE = 1_048_576
LONGEST_LINE = 8_388_608

NUMBER = r"(0|[1-9][0-9]*)"
GIOP = ("Short", "Magic", "Version", "Order", "Type", "Size", "Item", "Text")
OVER_CDR = ("cdr-be", "cdr-le", "cdr12-be", "cdr12-le")


def over(xdr, cdr, mach):
    """What each back end has."""
    return {"xdr": xdr, **dict.fromkeys(OVER_CDR, cdr), "mach": mach}


HEADS = over(("Short", "Type", "Version", "Cred", "Pad"), (*GIOP, "Target"), ("Short", "Complex", "Size"))
REPLY_HEADS = over(("Short", "Type", "Item", "Cred", "Pad"), GIOP, ("Short", "Complex", "Size", "Type", "Item"))
BODIES = over(["BadPad"], [], ["BadItem"])
KEYS = over(["xid"], ["id"], ["local", "remote"])
REPLY_KEYS = over(["xid"], ["id"], ["remote"])
CAME = (["outs", "result"], ["members", "raise"], ["refused"])  # what a reply record says, beside its operation and number
NAMES = {"onc": ("Unknown", "Twice", "NotType", "NotConst", "Range", "Label", "Limit", "OutOfScope"),
         "mig": ("Unknown", "Twice", "Range", "Limit", "OutOfScope", "Oneway", "Port"),
         "corba": ("Unknown", "Twice", "CaseClash", "NotType", "NotConst", "Range", "Label", "Limit", "OutOfScope", "Oneway")}


def saying_of(front):
    """The lines by which a file in a language is refused."""
    return re.compile(rf"\? (size|lex (?:BadOctet|OpenComment|Wide|Directive) {NUMBER}|syntax {NUMBER}|"
                      rf"name (?:{'|'.join(NAMES[front])}) {NUMBER}|bind (?:Many|Deep|Heavy|Wide))")


def no_record_of(back, heads, others):
    """The lines by which `unmarshal` or `unreply` refuses, over a back end."""
    kinds = "|".join(["Short", "OverBound", "BadValue", "BadText", *BODIES[back]])
    return re.compile(rf"! (long|hex|{others}|head (?:{'|'.join(heads[back])})|body (?:{kinds}) {NUMBER}|trailing {NUMBER})")


SAYING = {front: saying_of(front) for front in NAMES}
NO_CALL = {back: re.compile(rf"! (?:long|json|request|op|value{'|head' if back == 'mach' else ''})") for back in HEADS}
NO_RECORD = {back: no_record_of(back, HEADS, "interface|operation") for back in HEADS}
NO_REPLY = re.compile("! (?:long|json|request|op|value)")
NO_REPLY_RECORD = {back: no_record_of(back, REPLY_HEADS, "request|op") for back in HEADS}
CALL = {
    # The transaction, 0, the protocol's version, three numbers, two empty bodies, and words.
    "xdr": re.compile(r"[0-9a-f]{8}0000000000000002[0-9a-f]{24}0{32}([0-9a-f]{8})*"),
    # The letters, the version, the order and the type; the size; no contexts, the id, and whether a reply is wanted.
    "cdr-be": re.compile(r"47494f5001000000([0-9a-f]{8})0{8}[0-9a-f]{8}0[01]([0-9a-f]{2})*"),
    "cdr-le": re.compile(r"47494f5001000100([0-9a-f]{8})0{8}[0-9a-f]{8}0[01]([0-9a-f]{2})*"),
    # In 1.2 the id, the flags, and the key as the target.
    "cdr12-be": re.compile(r"47494f5001020000([0-9a-f]{8})[0-9a-f]{8}0[03]0{10}([0-9a-f]{2})*"),
    "cdr12-le": re.compile(r"47494f5001020100([0-9a-f]{8})[0-9a-f]{8}0[03]0{10}([0-9a-f]{2})*"),
    # What becomes of the ports' rights, the size, the two ports, 0 and the id, and words. Without a reply there is no local port.
    "mach": re.compile(r"13(?:15|00(?=0000.{16}0{8}))0000([0-9a-f]{8})[0-9a-f]{16}0{8}[0-9a-f]{8}([0-9a-f]{8})*"),
}
REPLY = {
    # The transaction, a reply that is accepted, an empty verifier, success, and words.
    "xdr": re.compile(r"[0-9a-f]{8}000000010{32}([0-9a-f]{8})*"),
    # The letters, the version, the order and the type; the size; no contexts, the id, and whether an exception is raised.
    "cdr-be": re.compile(r"47494f5001000001([0-9a-f]{8})0{8}[0-9a-f]{8}0000000[01]([0-9a-f]{2})*"),
    "cdr-le": re.compile(r"47494f5001000101([0-9a-f]{8})0{8}[0-9a-f]{8}0[01]000000([0-9a-f]{2})*"),
    # In 1.2 no contexts come last.
    "cdr12-be": re.compile(r"47494f5001020001([0-9a-f]{8})[0-9a-f]{8}0000000[01]0{8}([0-9a-f]{2})*"),
    "cdr12-le": re.compile(r"47494f5001020101([0-9a-f]{8})[0-9a-f]{8}0[01]0{14}([0-9a-f]{2})*"),
    # What becomes of the port's right, the size, the remote port, no local one, 0 and the id, the return code 0, and words.
    "mach": re.compile(r"12000000([0-9a-f]{8})[0-9a-f]{8}0{16}[0-9a-f]{8}0220011000000000([0-9a-f]{8})*"),
}


def served_of(order, version):
    """What a server sends over CDR: a Reply that answers, raises or refuses, in either version; one that asks for another target; a
    LocateReply in either version; a MessageError in the word's own."""
    number = (lambda digit: f"0000000{digit}") if order == "0" else (lambda digit: f"0{digit}000000")
    reply, octets = rf"0{order}01([0-9a-f]{{8}})", "(?:[0-9a-f]{2})*"
    kinds = [rf"0{reply}0{{8}}[0-9a-f]{{8}}{number('[012]')}{octets}", rf"2{reply}[0-9a-f]{{8}}{number('[012]')}0{{8}}{octets}",
             rf"2{reply}[0-9a-f]{{8}}{number('5')}0{{12}}", rf"[02]0{order}04{number('8')}[0-9a-f]{{8}}{number('[01]')}", rf"{version}0{order}060{{8}}"]
    return re.compile(rf"47494f50010(?:{'|'.join(kinds)})")


# What a server sends: for each kind of message the digits that it may have, with its size, and which of them are those of the request.
SERVED = {
    # The transaction; accepted, with an empty verifier and a state; or denied, as only version 2 is known.
    "xdr": re.compile(r"[0-9a-f]{8}00000001(?:0{24}(?:0{8}(?:[0-9a-f]{8})*|0000000[1345]|00000002[0-9a-f]{16})|00000001000000000000000200000002)"),
    "cdr-be": served_of("0", 0),
    "cdr-le": served_of("1", 0),
    "cdr12-be": served_of("0", 2),
    "cdr12-le": served_of("1", 2),
    # The return code 0 and words, or one of the two that refuse.
    "mach": re.compile(r"12000000([0-9a-f]{8})[0-9a-f]{8}0{16}[0-9a-f]{8}02200110(?:0{8}(?:[0-9a-f]{8})*|d[01]feffff)"),
}
BAD_REPLIES = re.compile(r"\? replies (?:file|size|[1-9][0-9]*)")
HEX = re.compile(rb"([0-9A-Fa-f]{2})+")
BLANKS = b" \t\n\v\f\r"


def kind_of(line):
    """A refusal without its place, to be counted."""
    return re.sub(r" [0-9]+$", "", line)


def lines_of(octets):
    """The lines of an input that are answered: a carriage return at the end is dropped, and what is then empty passed over."""
    return [line for line in (line.removesuffix(b"\r") for line in octets.split(b"\n")) if line]


def wrong_end(status, errors, output, lines):
    """Of a run over a file that is there, with an input that can be read and an output that can be written.

    Status 3 comes with the one line that refuses the file, and says that no other line was answered.
    Status 0 and 1 say that the work was done to the end of the input: as many answers as lines, and one
    that begins with `!` for 1 alone. 2 and 9 come by other words, 4, 5 and 6 by ends that fail, 8 by
    more input than is given here, and 7 where memory ends, which nothing here is large enough for.
    """
    if status < 0:
        return f"a status, and no end by signal {-status}"
    if status not in (0, 1, 3):
        return f"status 0, 1 or 3, and not {status}"
    if errors:
        return f"nothing on standard error, and not {errors[:300]!r}"
    if output and not output.endswith(b"\n"):
        return "a line feed behind the last line"
    answers = output.split(b"\n")[:-1]
    if status == 3:
        return None if len(answers) == 1 and answers[0].startswith(b"?") else "with status 3 one line that begins with `?`"
    if len(answers) != len(lines):
        return f"{len(lines)} answers with status {status}, and not {len(answers)}"
    refused = any(answer.startswith(b"!") for answer in answers)
    return None if status == int(refused) else f"status {int(refused)} for these answers, and not {status}"


def wrong_saying(front, text, said):
    """Of the line by which a file is refused."""
    form = SAYING[front].fullmatch(said)
    if not form:
        return "one of the lines that refuse a file"
    kind, at = kind_of(form[1]), int(next((n for n in form.groups()[1:] if n), "0"))
    begin = text.rfind(b"\n", 0, at) + 1
    lines = text.split(b"\n")
    holds = {
        "size": len(text) > LONGEST_FILE,
        "lex BadOctet": at < len(text) and text[at] not in BLANKS,
        "lex OpenComment": text[at:at + 2] == b"/*" and b"*/" not in text[at + 2:],
        "lex Wide": text[at:at + 1].isdigit(),
        "lex Directive": text[at:at + 1] == b"#" and not text[begin:at].strip(BLANKS),
        "syntax": 1 <= at <= len(lines) and (lines[at - 1].strip(BLANKS) != b"" or front == "mig" and at == 1),
    }
    if kind.startswith("name"):
        return None if 1 <= at <= text.count(b";") else "the number of a declaration of the file"
    return None if holds.get(kind, True) else f"a place in the file at which `{kind}` holds"


def wrong_fault(back, message, form):
    """Of the answer to a line that is a message in digits, and has no record. Over CDR octets that align may be absent before a number."""
    kind, at = kind_of(form[1]), int(form[2] or form[3] or "0")
    giop, there = back.startswith("cdr"), at % 4 == 0 and at + 4 <= len(message)
    holds = {
        "hex": False,
        "head Type": message[7:8] != b"\0" if giop else message[4:8] != bytes(4),
        "head Version": message[4:6] not in (b"\1\0", b"\1\2") if giop else message[8:12] != b"\0\0\0\2",
        "head Magic": message[:4] != b"GIOP",
        "head Target": message[4:6] == b"\1\2" and message[20:22] in (b"\0\1", b"\0\2", b"\1\0", b"\2\0"),
        "head Complex": message[3:4] >= b"\x80",
        "body Short": at <= len(message) + 7 * giop and len(message) < at + (12 if back == "mach" else 8),
        "body OverBound": there,
        "body BadValue": at < len(message) if giop else there,
        "body BadItem": there,
        "body BadPad": at % 4 != 0 and message[at:at + 1] not in (b"", b"\0"),
        "body BadText": at < len(message) and (giop or message[at] == 0),
        "trailing": at < len(message) and (giop or at % 4 == 0),
    }
    return None if holds.get(kind, True) else f"a place in the message at which `{kind}` holds"


def is_message(forms, back, answer):
    """Whether an answer is a message as `marshal`, `reply` or `serve` writes it. Where it states its size, that is right."""
    form = forms[back].fullmatch(answer)
    if form is None or back == "xdr":
        return form is not None
    size, order = next((size for size in form.groups() if size), None), "big" if back.endswith("-be") else "little"
    return size is None or int.from_bytes(bytes.fromhex(size), order) == len(answer) // 2 - (0 if back == "mach" else 12)


def tree_of(answer, keys, others):
    """The members of a record that has an operation, these head numbers and some others, or None."""
    try:
        tree = json.loads(answer)
    except ValueError:
        return None
    is_record = isinstance(tree, dict) and any(list(tree) == sorted(["op", *keys, *each]) for each in others) and isinstance(tree["op"], str)
    if not is_record or any(type(tree[key]) is not int or not 0 <= tree[key] < 2 ** 32 for key in keys):
        return None
    return tree if json.dumps(tree, ensure_ascii=False, sort_keys=True, separators=(",", ":")) == answer else None


def record_of(back, answer):
    """The members of a record as `unmarshal` writes it, or None."""
    tree = tree_of(answer, KEYS[back], [["args"]])
    return tree if tree and isinstance(tree["args"], list) else None


def reply_record_of(back, answer):
    """The members of a record as `unreply` writes it, or None."""
    tree = tree_of(answer, REPLY_KEYS[back], CAME)
    if not tree or "members" in tree:
        return tree if tree and isinstance(tree["members"], dict) and isinstance(tree["raise"], str) else None
    return tree if isinstance(tree.get("outs", tree.get("refused")), list) else None


def wrong_answer(back, command, line, answer):
    """Of an answer to a line."""
    if answer == "! long":
        return None if command in ("marshal", "reply", "bridge") or len(line) > LONGEST_LINE else "another answer to a short line"
    if command == "marshal":
        return None if NO_CALL[back].fullmatch(answer) or is_message(CALL, back, answer) else "a call, or one of the lines by which `marshal` refuses"
    if command == "reply":
        return None if NO_REPLY.fullmatch(answer) or is_message(REPLY, back, answer) else "a reply, or one of the lines by which `reply` refuses"
    if command == "unreply":
        return wrong_unreplied(back, line, answer)
    back, *others = back.split()
    if not HEX.fullmatch(line):
        return None if answer == "! hex" else "`! hex`"
    if command == "serve":
        return None if answer == "-" or is_message(SERVED, back, answer) and is_of(back, bytes.fromhex(line.decode()), bytes.fromhex(answer)) else "`-`, or a reply to the message"
    if form := NO_RECORD[back].fullmatch(answer):
        return wrong_fault(back, bytes.fromhex(line.decode()), form)
    if command == "bridge":
        return None if answer == "! pair" or is_message(CALL, others[0], answer) else "`! pair`, a call, or one of the lines by which `unmarshal` refuses"
    return None if record_of(back, answer) else "a record, or one of the lines by which `unmarshal` refuses"


def is_of(back, message, reply):
    """Whether what a server sends has the number of the message: its transaction; or its local port, and its id plus 100. Over CDR this place depends on the contexts."""
    if back == "mach":
        return reply[8:12] == message[12:16] and int.from_bytes(reply[20:24], "little") == (int.from_bytes(message[20:24], "little") + 100) % 2 ** 32
    return back != "xdr" or reply[:4] == message[:4]


def wrong_unreplied(back, line, answer):
    """Of an answer of `unreply`: where the operation is known, its digits are looked at."""
    name, space, digits = line.partition(b" ")
    if not space or answer == "! request":
        return None if not space and answer == "! request" else "`! request` of a line without a space, and of no other"
    if answer == "! op":
        return None
    if digits and not HEX.fullmatch(digits):
        return None if answer == "! hex" else "`! hex`, or `! op`"
    if form := NO_REPLY_RECORD[back].fullmatch(answer):
        at, octets = int(form[2] or form[3] or "0"), len(digits) // 2
        return None if form[1] != "hex" and at <= octets + 7 else "a place in the message"
    record = reply_record_of(back, answer)
    return None if record and record["op"].encode() == name else "the operation's record, or one of the lines by which `unreply` refuses"
