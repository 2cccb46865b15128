"""Light edits of messages over each back end, by a seeded generator."""
from typing import NamedTuple

from giop import REQUEST, Reading, Stop, read_call, read_reply

COUNTS = [0, 1, 2, 3, 4, 5, 7, 8, 16, 17, 127, 128, 255, 256, 400, 401, 32767, 32768, 65535, 65536, 2 ** 24, 2 ** 30, 2 ** 31 - 1, 2 ** 31, 2 ** 31 + 1, 2 ** 32 - 4,
          2 ** 32 - 2, 2 ** 32 - 1]
DESCRIPTORS = [bytes.fromhex(word) for word in ("02200110", "02200210", "02200010", "09080110", "08080110", "08080210", "01100110", "0220ff1f", "00000030", "ffffff3f")]
MACH_BODY = 24


class Shape(NamedTuple):
    """Of the messages of a back end: where the arguments begin, where the head ends before what aligns them, the order of
    numbers, where the size stands and what of the message it does not count, and edits that only they have."""
    body: int
    ends: int
    order: str
    size: int | None
    uncounted: int
    own: list


def shape_of(back, message):
    """The shape of a right message."""
    if back == "xdr":
        return Shape(40, 40, "big", None, 0, [edit_auth])
    if back == "mach":
        return Shape(MACH_BODY, MACH_BODY, "little", 4, 0, [edit_descriptor, edit_descriptor, *[edit_data] * 4])
    said = read_call(message)
    own = [edit_contexts, edit_principal] if said["version"] == 0 else [edit_contexts, edit_flags, edit_target, edit_gap]
    return Shape(said["used"], said.get("ends", said["used"]), said["order"], 8, 12, [*own, edit_version])


def reply_shape(raises):
    """The shapes of right replies to an operation, which may raise exceptions.

    Over Mach the return code belongs to the head, and over ONC and Mach the number of the arm where any are raised.
    """
    def shape_of(back, message):
        if back == "xdr":
            body = 28 if raises else 24
            return Shape(body, body, "big", None, 0, [])
        if back == "mach":
            body = MACH_BODY + (16 if raises else 8)
            return Shape(body, body, "little", 4, 0, [edit_descriptor, *[edit_data] * 2])
        said = read_reply(message)
        return Shape(said["used"], said["used"], said["order"], 8, 12, [edit_contexts, edit_version])
    return shape_of


def sized(message, shape):
    """A message that states its size, if its back end's messages do."""
    if shape.size is None or len(message) < shape.size + 4:
        return message
    return with_word(message, shape.size, len(message) - shape.uncounted, shape)


def with_word(message, at, n, shape):
    """A message with another word at a place."""
    return message[:at] + (n % 2 ** 32).to_bytes(4, shape.order) + message[at + 4:]


def place(rng, message, shape):
    """A place in a message, mostly in its body."""
    return rng.randrange(shape.body if len(message) > shape.body and rng.random() < 0.9 else 0, len(message))


def edit_word(rng, message, shape):
    """A message with one word made great, small or nearly what it was."""
    at = place(rng, message, shape) // 4 * 4
    near = int.from_bytes(message[at:at + 4], shape.order) + rng.choice([-4, -2, -1, 1, 2, 3, 4, 256])
    return with_word(message, at, rng.choice([rng.choice(COUNTS), near, near]), shape)


def edit_bits(rng, message, shape):
    """A message with up to four bits turned."""
    octets = bytearray(message)
    for _ in range(rng.randint(1, 4) if octets else 0):
        octets[place(rng, message, shape)] ^= 1 << rng.randrange(8)
    return bytes(octets)


def edit_pads(rng, message, shape):
    """A message in which an octet 0 after another octet, as padding is, is set."""
    zeros = [at for at in range(shape.body, len(message)) if message[at] == 0 and at % 4]
    if not zeros:
        return edit_bits(rng, message, shape)
    at = rng.choice(zeros)
    return message[:at] + bytes([rng.choice([1, 32, 128, 255])]) + message[at + 1:]


def edit_layout(rng, message, shape):
    """A message with words or octets put in, taken out, doubled or exchanged."""
    words = [message[at:at + 4] for at in range(0, len(message), 4)]
    k, other = place(rng, message, shape) // 4, place(rng, message, shape) // 4
    kind = rng.choice(["put", "take", "double", "exchange", "octet", "less"])
    if kind == "put":
        words.insert(k, rng.choice(COUNTS).to_bytes(4, shape.order))
    elif kind == "take":
        del words[k]
    elif kind == "double":
        words.insert(k, words[k])
    elif kind == "exchange":
        words[k], words[other] = words[other], words[k]
    elif kind == "octet":
        words[k] += bytes([rng.randrange(256)])
    else:
        words[k] = words[k][:-1]
    return b"".join(words)


def octets(rng, length):
    return bytes(rng.randrange(256) for _ in range(length))


# ---- edits of one kind of messages

def edit_auth(rng, message, _):
    """An ONC call whose credentials or verifier have a flavour and a body, mostly right ones."""
    at, length = rng.choice([24, 32]), rng.choice([0, 1, 2, 3, 4, 5, 8, 397, 399, 400, 401, 404])
    pad = bytearray(-length % 4)
    if pad and rng.random() < 0.3:
        pad[rng.randrange(len(pad))] = 1
    body = rng.choice(COUNTS).to_bytes(4, "big") + length.to_bytes(4, "big") + octets(rng, length) + pad
    return message[:at] + body + message[at + 8:]


def edit_contexts(rng, message, shape):
    """A GIOP message with service contexts; most of them leave the arguments aligned as they were."""
    contexts = b""
    for _ in range(count := rng.choice([1, 1, 2, 3])):
        length = rng.choice([0, 8, 8, 16, 24, 1, 3, 4])
        contexts += rng.choice(COUNTS).to_bytes(4, shape.order) + length.to_bytes(4, shape.order) + octets(rng, length + -length % 4)
    at = place_of_contexts(message, shape)
    return with_word(message, at, count + rng.choice([0] * 8 + [1, -1, 2 ** 31]), shape)[:at + 4] + contexts + message[at + 4:]


def place_of_contexts(message, shape):
    """Where the number of contexts stands, in a message that has none: first, or in 1.2 behind the status or the operation's name."""
    if message[5:6] != b"\2":
        return 12
    if message[7:8] == b"\1":
        return 20
    fields = Reading(message, 24, shape.order)
    try:
        fields.sequence(), fields.sequence()
    except Stop:  # edited already
        return 12
    return fields.at + -fields.at % 4


def edit_principal(rng, message, shape):
    """A GIOP message with a principal; most of them leave the arguments aligned as they were."""
    length = rng.choice([8, 8, 16, 24, 1, 2, 4, 5])
    return with_word(message, shape.body - 4, length, shape)[:shape.body] + octets(rng, length) + message[shape.body:]


def edit_version(rng, message, _):
    """A GIOP message that states another version."""
    return message[:5] + bytes([rng.choice([0, 0, 2, 2, 1, 3])]) + message[6:]


def edit_flags(rng, message, _):
    """A GIOP request of 1.2 with other flags, or other octets behind them."""
    return message[:16] + bytes([rng.choice([0, 1, 2, 3, 254, 255])]) + octets(rng, 3) + message[20:]


def edit_target(rng, message, shape):
    """A GIOP request of 1.2 with another target, most of them alone in the message."""
    target = rng.choice([0, 1, 2, 3, 256, 65535]).to_bytes(2, shape.order)
    return message[:20] + target + (message[22:] if rng.random() < 0.5 else octets(rng, rng.randint(0, 9)))


def edit_gap(rng, message, shape):
    """A GIOP request of 1.2 in which what aligns the body is another, or some of it is not there, with or without the body."""
    try:
        ends = read_call(message)["ends"]
    except (Stop, KeyError):  # edited already
        return edit_bits(rng, message, shape)
    return message[:ends] + octets(rng, rng.choice([shape.body - ends, rng.randint(0, 9)])) + rng.choice([message[shape.body:], message[shape.body:], b""])


def items_of(message):
    """Where each item of a Mach message begins, and where its numbers begin and end, as far as they are right."""
    at = MACH_BODY
    while at + 4 <= len(message):
        is_long = message[at + 3] >> 4 == 3 and at + 12 <= len(message)
        bits, units = (message[at + 6:at + 8], message[at + 8:at + 12]) if is_long else (message[at + 1:at + 2], bytes([message[at + 2], message[at + 3] & 15]))
        begin, length = at + (12 if is_long else 4), int.from_bytes(bits, "little") * int.from_bytes(units, "little") // 8
        yield at, begin, begin + length
        at = begin + length + -length % 4


def edit_descriptor(rng, message, shape):
    """A Mach message in which a descriptor states something else, is another one, or has the long form."""
    if not (places := [at for at, _, _ in items_of(message)]):
        return edit_word(rng, message, shape)
    at = rng.choice(places)
    word = message[at:at + 4]
    kind = rng.choice(["another", "units", "units", "octet", "long", "long"])
    if kind == "another":
        return message[:at] + rng.choice(DESCRIPTORS) + message[at + 4:]
    if kind == "long" and word[3] >> 4 == 1:
        long = rng.choice([b"\0\0\0\x30", b"\xab\xcd\xef\x3a"]) + bytes([word[0], 0, word[1], 0, word[2], word[3] & 15, 0, 0])
        return message[:at] + long + message[at + 4:]
    if kind == "units":
        at = at + 6 if word[3] >> 4 == 3 else at
        return with_word(message, at, int.from_bytes(message[at:at + 4], "little") + (rng.choice([-2, -1, 1, 2, 8, 255]) << 16), shape)
    at += rng.choice([3, rng.randrange(12 if word[3] >> 4 == 3 else 4)])
    return message[:at] + bytes([rng.choice([0, 1, 2, 8, 9, 16, 32, 33, 48, 64, 80, 144, 255])]) + message[at + 1:]


def edit_data(rng, message, shape):
    """A Mach message with another word or octet among the numbers of an item."""
    if not (data := [(begin, end) for _, begin, end in items_of(message) if begin < end <= len(message)]):
        return edit_word(rng, message, shape)
    at = rng.randrange(*rng.choice(data))
    if rng.random() < 0.5:
        return with_word(message, at // 4 * 4, rng.choice(COUNTS), shape)
    return message[:at] + bytes([rng.choice([0, 1, 2, 3, 127, 128, 255])]) + message[at + 1:]


# ---- messages and lines

def cut(rng, message, shape):
    """A message without its end, and the form of its answer."""
    at = max(1, place(rng, message, shape))
    short = sized(message[:at], shape)
    if shape.size is not None and at >= max(12, shape.body if shape.uncounted == 0 else 12) and rng.random() < 0.3:
        return message[:at], r"! head Size"
    return short, r"! head Short" if at < shape.ends else r"! body Short [0-9]+"


def end_of(back, message, shape):
    """Where octets behind a message are too many: a request of 1.2 without arguments may be filled up."""
    may_be_filled = back.startswith("cdr") and message[5] == 2 and message[7] == REQUEST and shape.ends == len(message)
    return len(message) + (-len(message) % 8 if may_be_filled else 0)


def edited_message(rng, back, message, others, shape_of=shape_of):
    """A message with one to three edits, and what has to be answered where that is plain: a form of the answer, or None."""
    shape = shape_of(back, message)
    kind = rng.choice(["none", "cut", "behind", "other body"] + ["edits"] * 12)
    if kind == "none":
        return message, r"\{.*\}"
    if kind == "cut":
        return cut(rng, message, shape)
    if kind == "behind":
        more = message + bytes(rng.choice([0, 0, 1, 255]) for _ in range(rng.randint(1, 9)))
        if shape.size is not None and rng.random() < 0.3:
            return more, r"! head Size"
        whole = end_of(back, message, shape)
        return sized(more, shape), rf"! trailing {whole}" if len(more) > whole else r"\{.*\}"
    if kind == "other body":
        other = rng.choice(others)
        return sized(message[:shape.body] + other[shape_of(back, other).body:], shape), None
    for _ in range(rng.choice([1, 1, 1, 2, 3])):
        edit = rng.choice([edit_word] * 4 + [edit_bits] * 3 + [edit_pads, edit_layout, edit_layout, *shape.own])
        message = edit(rng, message, shape) if message else message
    return sized(message, shape) if rng.random() < 0.8 else message, None


def as_line(rng, message, form):
    """A message in digits, at times in capitals, with other line ends, or with a digit edited, and the form of its answer or None."""
    line = message.hex()
    kind = rng.random()
    if kind < 0.03:
        return line.upper().encode(), form
    if kind < 0.05:
        at = rng.randrange(len(line) + 1)
        return (line[:at] + rng.choice(["", "0", "g", " ", "0x", "\x80"]) + line[at + rng.randrange(2):]).encode("latin-1"), None
    return f"{line}\r".encode() if kind < 0.06 else line.encode(), form
