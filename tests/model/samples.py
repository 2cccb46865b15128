"""Random interface files, request lines and calls, by a seeded generator."""
import json
import re

from calls import BACKS, marshal
from values import Array, Bool, Enum, Number, Opaque, Pointer, String, Struct, Void

NUMBERS = ["int", "unsigned int", "unsigned", "long", "unsigned long", "short", "unsigned short", "char", "unsigned char",
           "hyper", "unsigned hyper", "u_char", "u_short", "u_int", "u_long"]
ODD_TREES = [None, True, False, 0, -1, 1, 128, -129, 256, 2 ** 15, -2 ** 15 - 1, 2 ** 16, 2 ** 31, -2 ** 31 - 1, 2 ** 32, -2 ** 63, 2 ** 64 - 1, 2 ** 64, 1.0, 1e2,
             "", "0", "00", "FF", "é", "\0", "\u0100", [], [[]], {}, {"tag": 0}, {"tag": 1, "value": None}]
ODD_WORDS = ["00000000", "00000001", "00000002", "00000080", "000000ff", "00000100", "00000191", "00008000", "0000ffff", "00010000", "7fffffff",
             "80000000", "ffff7fff", "ffffff7f", "ffffff80", "ffffffff"]
DESCRIPTORS = ["02200110", "02200210", "02200010", "09080110", "08080210", "01100110", "0220ff1f", "00000030", "ffffff3f", "02200100", "02200150", "02200190"]
ODD_LINES = ["", "\r", "0", "0g", "[", "null", '{"op":"\\ud800"}', "\ufeff{}", "-0", "1e400", "01", "[" * 128 + "]" * 128, "\u00e9"]


class FileMaker:
    """An interface file; each type has a greatest size, so that no value grows without end."""

    def __init__(self, rng):
        self.rng = rng
        self.sizes = {}
        self.tags = {name: range(-2 if name[0] not in "u" else 0, 5) for name in NUMBERS} | {"bool": ["TRUE", "FALSE", 0, 1]}

    def type(self):
        small = [name for name, size in self.sizes.items() if size < 60]
        return self.rng.choice([self.rng.choice([*NUMBERS, *["bool"] * 4]), *(self.rng.choice(small) for _ in small[:2])])

    def declaration(self, name):
        """The text of a declaration, and its size."""
        rng, n = self.rng, self.rng.randint(1, 4)
        count = rng.choice([f"[{n}]", f"<{n}>", "<>", "<0>" if rng.random() < 0.1 else "<7>"])
        form = rng.choice(["plain", "plain", "array", "pointer", "opaque", "string"])
        if form == "opaque":
            return f"opaque {name}{count}", 2
        if form == "string":
            return f"string {name}{rng.choice(['<>', f'<{n}>'])}", 2
        element = self.type()
        size = self.sizes.get(element, 1)
        return {"plain": (f"{element} {name}", size), "array": (f"{element} {name}{count}", 4 * size), "pointer": (f"{element} *{name}", size)}[form]

    def enum(self, name):
        items, number = [], -1
        for k in range(self.rng.randint(1, 4)):
            number = self.rng.choice([number + 1, self.rng.choice([-2 ** 31, -1, 0, 1, 2 ** 31 - 1])])
            number = min(number, 2 ** 31 - 1)
            items.append((f"{name}_{k}", number))
        self.tags[name] = [item for item, _ in items]
        self.numbers.update(items)
        self.sizes[name] = 1
        return f"enum {name} {{ {', '.join(f'{item} = {n}' for item, n in items)} }};"

    def struct(self, name):
        fields = [self.declaration(field) for field in self.rng.sample(["a", "b", "B", "zeta", "_x", "a1"], self.rng.randint(1, 5))]
        self.sizes[name] = sum(size for _, size in fields)
        return f"struct {name} {{ {' '.join(f'{text};' for text, _ in fields)} }};"

    def union(self, name):
        tag = self.rng.choice(list(self.tags))
        labels = {self.numbers.get(label, label): label for label in self.tags[tag]}
        chosen = self.rng.sample(list(labels.values()), self.rng.randint(1, len(labels)))
        arms, sizes = [], [1]
        for k, label in enumerate(chosen):
            text, size = self.rng.choice([("void", 1), self.declaration(f"arm{k}")])
            sizes.append(size)
            shared = self.rng.random() < 0.2 and label != chosen[-1]
            arms.append(f"case {label}:" if shared else f"case {label}: {text};")
        if self.rng.random() < 0.5:
            arms.append(f"default: {self.rng.choice(['void', self.declaration('other')[0]])};")
            sizes.append(60)
        self.sizes[name] = max(sizes)
        return f"union {name} switch ({tag} t) {{ {' '.join(arms)} }};"

    def typedef(self, name):
        text, self.sizes[name] = self.declaration(name)
        return f"typedef {text};"

    def text(self):
        self.numbers = {"TRUE": 1, "FALSE": 0}
        definitions = [self.rng.choice([self.enum, self.struct, self.struct, self.union, self.union, self.typedef])(f"t{k}")
                       for k in range(self.rng.randint(1, 8))]
        versions = []
        for v in range(self.rng.randint(1, 3)):
            numbers = self.rng.sample([0, 1, 2, 7, 2 ** 32 - 1], self.rng.randint(1, 4))
            procedures = [f"{self.rng.choice(['void', 'int', 'string'])} F{k}({self.parameters()}) = {n};" for k, n in enumerate(numbers)]
            versions.append(f"version V{v} {{ {' '.join(procedures)} }} = {v};")
        return "\n".join([*definitions, f"program P {{ {' '.join(versions)} }} = {self.rng.choice([0, 1, 2 ** 29, 2 ** 32 - 1])};", ""])

    def parameters(self):
        known = list(self.sizes)
        return ", ".join(self.rng.choice([*NUMBERS[:2], "string", *known[-3:]]) for _ in range(self.rng.randint(0, 3))) or "void"


def widened(rng, text):
    """A file of ONC some of whose lists and texts may be long: so that a type is about as long as a region, or longer."""
    return re.sub(r"<\d>", lambda bound: f"<{rng.choice([20, 300, 2_000, 4_100, 9_000])}>" if rng.random() < 0.6 else bound[0], text)


LENGTHS = [4, 60, 1_000, 2_000, 4_000, 4_052, 4_096, 4_148, 8_000, 8_140, 8_148, 8_152, 8_156, 8_184, 8_188, 8_192, 8_196]


def long_field(rng, number, known):
    """A field that is about as long as one of the lengths, or a short one, or one of the structs so far."""
    n = rng.choice(LENGTHS)
    forms = [f"opaque %s[{n}]", f"opaque %s<{n}>", f"string %s<{n}>", f"int %s<{n // 4}>", f"short %s[{n // 4}]", f"hyper %s<{n // 8 + 1}>", "int %s", "bool %s", "string %s<>"]
    return rng.choice([*forms, *(f"{name} %s{count}" for name in known for count in ("", "<2>", "<>"))]) % f"f{number}"


def about_a_region(rng):
    """Fields that are together just as long as a region with a head before them, or a few octets less or more."""
    least, first, gap = 4 * rng.randint(1, 10), 4 * rng.randint(900, 1_100), 4 * rng.randint(-20, 2)
    return [f"opaque f0[{least}]", f"opaque f1[{first}]", f"opaque f2[{8_152 - least - first + gap}]", *[f"int f{n}" for n in range(3, rng.randint(3, 6))]]


def long_file(rng):
    """A file of ONC of structs whose fields are together about as long as some regions."""
    known, structs = [], []
    for k in range(rng.randint(1, 3)):
        others = [long_field(rng, number, known) for number in range(rng.randint(1, 5))]
        fields = "; ".join(about_a_region(rng) if rng.random() < 0.4 else others)
        structs.append(f"struct s{k} {{ {fields}; }};")
        known.append(f"s{k}")
    return "\n".join([*structs, f"program P {{ version V {{ {' '.join(f'void F{k}({name}) = {k};' for k, name in enumerate(known))} }} = 1; }} = 9;", ""])


def drawn(rng, least, greatest, count):
    """So many numbers, the same as by as many calls of `randint`, whose checks of its bounds take most of its time."""
    below, choices = rng._randbelow, greatest - least + 1
    return [least + below(choices) for _ in range(count)]


def sample(rng, ty):
    """A value of a type."""
    if isinstance(ty, Void):
        return None
    if isinstance(ty, Enum):
        return rng.choice(ty.items)[1]
    if isinstance(ty, Bool):
        return rng.randint(0, 1)
    if isinstance(ty, Number):
        return rng.choice([ty.least, ty.greatest, 0, 1, *drawn(rng, ty.least, ty.greatest, 1)])
    if isinstance(ty, Opaque):
        return bytes(drawn(rng, int(isinstance(ty, String)), 255, length(rng, ty.count)))
    if isinstance(ty, Array):
        return [sample(rng, ty.element) for _ in range(length(rng, ty.count))]
    if isinstance(ty, Pointer):
        return rng.choice([None, [sample(rng, ty.array.element)]])
    if isinstance(ty, Struct):
        return [sample(rng, field) for _, field in ty.fields]
    tags = [n for n in [*ty.arms, sample(rng, ty.tag)] if ty.arm(n) is not None]
    tag = rng.choice(tags)
    return tag, sample(rng, ty.arm(tag))


def length(rng, count):
    return count.bound if count.exact else rng.randint(0, 4 if count.bound is None else min(4, count.bound))


def mutated(rng, tree):
    """A tree with one part of it exchanged, dropped or added."""
    if isinstance(tree, dict) and tree and rng.random() < 0.8:
        key = rng.choice(list(tree))
        other = {k: v for k, v in tree.items() if k != key}
        return rng.choice([other | {key: mutated(rng, tree[key])}] * 4 + [other, tree | {rng.choice(["id", "value", "c"]): None}])
    if isinstance(tree, list) and tree and rng.random() < 0.8:
        k = rng.randrange(len(tree))
        return rng.choice([[*tree[:k], mutated(rng, tree[k]), *tree[k + 1:]]] * 4 + [tree[:k] + tree[k + 1:], [*tree, tree[k]]])
    return rng.choice(ODD_TREES)


def request_lines(rng, back, interfaces, count):
    """Lines of `marshal` over a back end: records, most of them right, and others."""
    for _ in range(count):
        interface = rng.choice(interfaces)
        name, _, types = rng.choice(BACKS[back].operations(interface) or interface.operations)
        args = [ty.tree(sample(rng, ty)) for ty in types]
        numbers = {key: rng.choice([0, 1, 2 ** 32 - 1]) for key in BACKS[back].keys}
        record = {"op": f"{interface.name}.{name}", **numbers, "args": args}
        if args and rng.random() < 0.5:
            k = rng.randrange(len(args))
            record["args"] = [*args[:k], mutated(rng, args[k]), *args[k + 1:]]
        elif rng.random() < 0.2:
            record = mutated(rng, record)
        yield (rng.choice(ODD_LINES) if rng.random() < 0.05 else written(rng, record)).encode()


def written(rng, tree):
    """The text of a tree, in one of its forms. The members of an object are at times in another order, or one of them stands twice."""
    form = {"ensure_ascii": rng.random() < 0.5, "separators": rng.choice([(",", ":"), (" , ", " : ")])}
    if not isinstance(tree, dict) or rng.random() < 0.5:
        return json.dumps(tree, **form)
    members = rng.choice([sorted, lambda items: rng.sample(items, len(items))])(list(tree.items()))
    if members and rng.random() < 0.1:
        members.insert(rng.randrange(len(members) + 1), (rng.choice(members)[0], rng.choice([0, 7, [], None])))
    comma, colon = form["separators"]
    return "{" + comma.join(json.dumps(key, **form) + colon + json.dumps(value, **form) for key, value in members) + "}"


OVER_CDR = ("cdr-be", "cdr-le", "cdr12-be", "cdr12-le")


def writer(rng, back):
    """The word by which a message is written that is read by a word: over CDR at times another, as each order and version is read."""
    return rng.choice([back, *OVER_CDR]) if back in OVER_CDR else back


def call_lines(rng, back, interfaces, requests):
    """Lines of `unmarshal` over a back end: calls of the requests that have one, most of them wrong somewhere."""
    for call in (marshal(BACKS[writer(rng, back)], interfaces, line) for line in requests):
        if not call.startswith("!") and back != "xdr":
            other_line = mach_line if back == "mach" else giop_line
            yield from (line.encode() for line in [call, *(other_line(rng, call) for _ in range(8))])
        elif not call.startswith("!"):
            yield from (line.encode() for line in [call, *head_lines(rng, call), *(body_line(rng, call) for _ in range(5 if len(call) > 80 else 0))])


def exchanged(call, place, text):
    """A call with other digits from a place on."""
    return call[:place] + text + call[place + len(text):]


def head_lines(rng, call):
    """Some lines that are a call with another head, cut, or with octets behind it."""
    at = rng.randrange(len(call) // 2) * 2
    word = rng.choice(ODD_WORDS)
    body = f"00000001000000{rng.choice(['05', '90', '91'])}{'ab' * 5}{rng.choice(['000000', '000001'])}"
    return rng.sample([call.upper(), call[:at], call[:at + 1], call + word, call[:-8], exchanged(call, at, "01"), exchanged(call, rng.randrange(10) * 8, word),
                       call[:48] + body + call[64:], call[:64] + body + call[80:]], 3)


def resized(call):
    """A GIOP message with its size told, in its order."""
    order = "little" if call[12:14] == "01" else "big"
    return exchanged(call, 16, (len(call) // 2 - 12).to_bytes(4, order).hex())


def giop_line(rng, call):
    """A GIOP message that is cut, with octets after it, or with another octet or word somewhere; most of them tell their size."""
    at = rng.randrange(len(call) // 2) * 2
    octet = rng.choice(["00", "01", "02", "ff", "80"])
    later = 24 + rng.randrange(len(call) // 2 - 12) * 2
    more = "".join(f"{rng.randrange(256):02x}" for _ in range(rng.randint(1, 9)))
    if call[10:12] == "02" and rng.random() < 0.3:
        return giop12_line(rng, call)
    tried = [exchanged(call, at, octet), exchanged(call, later, octet), exchanged(call, later // 8 * 8, rng.choice(ODD_WORDS)[:len(call) - later // 8 * 8])]
    sized = [resized(call[:max(24, at)]), resized(call + more), resized(call[:later] + octet + call[later:])]
    return rng.choice([*tried * 3, *sized * 2, call[:at], call[:at + 1], call + more, call.upper()])


def giop12_line(rng, call):
    """A GIOP request of 1.2 with other flags, another target or version, a context, or another end; most of them tell their size."""
    zeros = len(call) - len(call.rstrip("0"))
    context = f"{1:08x}{5:08x}{3:08x}010203" if call[12:14] == "00" else "010000000500000003000000010203"
    ends = call[:len(call) - zeros // 8 * 8]
    tried = [exchanged(call, 32, rng.choice(["00", "01", "02", "ff"]) + "abcdef"), exchanged(call, 40, rng.choice(["0001", "0002", "0003", "0100", "0200", "ffff"])),
             exchanged(call, 10, rng.choice(["00", "01", "03"])), resized(call[:44]), resized(call + rng.choice(["aa", "aabb", "aabbccdd", "aabbccddee"])),
             resized(ends + context + rng.choice(["", "00", "0000", "ffffffffff", "ffffffffff00000001"]))]
    return rng.choice(tried)


def mach_sized(call):
    """A Mach message with its size told."""
    return exchanged(call, 8, (len(call) // 2).to_bytes(4, "little").hex())


def in_long_form(rng, call, at):
    """A Mach message with the long form of the short descriptor that begins at a place."""
    name, bits, low, high = (call[at + n:at + n + 2] for n in range(0, 8, 2))
    return f"{call[:at]}{rng.choice(['000000', 'abcdef'])}30{name}00{bits}00{low}0{high[1:]}0000{call[at + 8:]}"


def mach_line(rng, call):
    """A Mach message that is cut, with octets after it, or with another octet, word or descriptor somewhere; most of them tell their size."""
    at = rng.randrange(len(call) // 2) * 2
    octet = rng.choice(["00", "01", "02", "08", "09", "10", "20", "30", "80", "ff"])
    more = "".join(f"{rng.randrange(256):02x}" for _ in range(rng.randint(1, 9)))
    tried = [exchanged(call, at, octet), exchanged(call, at // 8 * 8, rng.choice([*ODD_WORDS, *DESCRIPTORS])), mach_sized(call[:max(16, at)]), mach_sized(call + more)]
    if len(call) > 48:
        word = 48 + rng.randrange((len(call) - 48) // 8) * 8
        tried += [exchanged(call, word, rng.choice([*ODD_WORDS, *DESCRIPTORS])), exchanged(call, word + 2 * rng.randrange(4), octet), mach_sized(in_long_form(rng, call, word))]
        tried += [mach_sized(call[:word] + call[word + 8:]), mach_sized(call[:word] + rng.choice(DESCRIPTORS) + call[word:])]
    return rng.choice([*tried * 3, call[:at], call[:at + 1], call.upper()])


def body_line(rng, call):
    """A call with another word, or another octet, in its body."""
    words = (len(call) - 80) // 8
    place = 80 + 8 * rng.choice([rng.randrange(words), rng.randrange(min(words, 3))])
    word = call[place:place + 8]
    near = f"{(int(word, 16) + rng.choice([-1, 1, 2, 256])) % 2 ** 32:08x}"
    return rng.choice([exchanged(call, place, rng.choice(ODD_WORDS)), exchanged(call, place, near), exchanged(call, place + 2 * rng.randrange(4), rng.choice(["00", "01", "ff"]))])
