"""Definition files of MIG."""
import re

from . import common
from .common import joined

TRANSLATIONS = ("ctype", "cusertype", "cservertype", "intran", "outtran", "destructor", "intranpayload")
WORDS = ("requestport", "in", "out", "inout")
# Parameters that stand in the head of a message, or only in the call of a function.
OF_HEADS = {**dict.fromkeys(("replyport", "sreplyport", "ureplyport"), "it stands in the head, as local"),
            "msgseqno": "the receiver counts it", "waittime": "it is for the caller alone", "msgoption": "it is for the caller alone"}
FLAGS = ("dealloc", "notdealloc", "servercopy", "const")
STATEMENTS = ("serverdemux", "rcsid", "msgoption", "waittime", "nowaittime", "error")
KEPT = ("subsystem", "type", "routine", "simpleroutine", "skip", "userprefix", "serverprefix", "import", "uimport", "simport")
KNOWN = {"char": 8, "byte": 8, "short": 16, "int": 32, "unsigned": 32, "mach_port_t": 32, "MACH_MSG_TYPE_CHAR": 8, "MACH_MSG_TYPE_BYTE": 8,
         "MACH_MSG_TYPE_INTEGER_16": 16, "MACH_MSG_TYPE_INTEGER_32": 32, "MACH_MSG_TYPE_COPY_SEND": 32}
PORTS = ("mach_port_t", "MACH_MSG_TYPE_COPY_SEND")
# What a message type is declared as, and what differs in a message.
INSTEAD = {
    "MACH_MSG_TYPE_INTEGER_8": ("MACH_MSG_TYPE_BYTE", "the same number"),
    "MACH_MSG_TYPE_BOOLEAN": ("int", "its descriptor says 2 in place of 0"),
    "MACH_MSG_TYPE_PORT_NAME": ("unsigned", "its descriptor says 2 in place of 15"),
    "polymorphic": ("mach_port_t", "the head says that the right is copied, which the caller chooses there"),
    **{f"MACH_MSG_TYPE_{right}": ("mach_port_t", "the head says that the right is copied") for right in (
        "MOVE_RECEIVE", "MAKE_SEND", "MOVE_SEND", "MAKE_SEND_ONCE", "MOVE_SEND_ONCE", "PORT_RECEIVE", "PORT_SEND", "PORT_SEND_ONCE")},
}
SIMPLE, SIZED = re.compile(r"(\w+)"), re.compile(r"\( (\w+) , .* \)")
ROW = re.compile(r"(?:array|struct) \[(?: \* :)? [\w()+*/ -]+ \] of (\w+)", re.I)


def translation(tokens, at):
    """The place after a translation that begins at a place."""
    at += 2
    while at < len(tokens) and (tokens[at].kind == "word" or tokens[at].text == "("):
        if at + 1 < len(tokens) and tokens[at + 1].text == ":":
            break
        at = common.closing(tokens, at) + 1 if tokens[at].text == "(" else at + 1
    return at


def without_translations(tokens, notes):
    """The tokens of a type without its translations and flags, each said where there are notes."""
    kept, at = [], 0
    while at < len(tokens):
        word, after = tokens[at].text.lower(), tokens[at + 1].text if at + 1 < len(tokens) else ""
        if word in TRANSLATIONS and after == ":":
            begun, at = at, translation(tokens, at)
            if notes:
                notes.say(tokens[begun], f"left out: {common.shown(tokens[begun:at])}, which changes only the C code")
        elif word == "," and after.lower() in FLAGS:
            if notes:
                notes.say(tokens[at], f"left out: the flag {after}, which changes no octet")
            at += 4 if joined(tokens[at + 2:at + 4]) == "[ ]" else 2
        else:
            kept.append(tokens[at])
            at += 1
    return kept


class Types:
    """The type statements of a file, and what of them is needed."""

    def __init__(self, found, notes):
        self.notes, self.found, self.needed = notes, found, []
        self.offered = {tokens[1].text: tokens for tokens in common.statements(common.prelude("prelude.defs"))}

    def tokens(self, name):
        """The statement that declares a name, here or in the prelude."""
        return self.found.get(name) or self.offered.get(name)

    def need(self, name, token, user):
        """Notes that a name is used, with those that it uses; says where it is not to be had."""
        if name in self.needed or name in KNOWN and name not in self.found or name in INSTEAD:
            return
        tokens = self.tokens(name)
        if not tokens:
            if not name.startswith("MACH_MSG_TYPE_") and name != "polymorphic":
                self.notes.fail(token, "a name that is declared nowhere", f"{name} in {user}")
            return
        if name not in self.found:
            self.notes.say(token, f"taken from the prelude: {common.shown(tokens)};")
        element = self.element(tokens[3:-1])
        if element and element != name:
            self.need(element, tokens[3], f"type {name}")
        self.needed.append(name)

    @staticmethod
    def element(spec):
        """The name in a type that can be read."""
        text = joined(spec)
        found = next((found for form in (SIMPLE, SIZED, ROW) if (found := form.fullmatch(text))), None)
        return found[1] if found else None

    def fault(self, spec, seen=()):
        """Why a type cannot be read: a cause and a text, or nothing."""
        text, element = joined(spec), self.element(spec)
        if "^" in text:
            return "memory out of line", text
        if re.match(r"array \[(?: \*)? \]", text, re.I):
            return "an array without a bound", text
        if element and element in ("c_string", "MACH_MSG_TYPE_STRING", "MACH_MSG_TYPE_STRING_C") or "c_string" in text.lower():
            return "a string", text
        if element and element.startswith("MACH_MSG_TYPE_") and element not in KNOWN and element not in INSTEAD:
            return ("a number of 64 bits" if "64" in element else "a type that Flick lacks"), element
        if not element:
            return "a struct of fields" if text.lower().startswith("struct {") else "a type that Flick lacks", text
        if element in seen or not (inner := self.tokens(element)) or element in KNOWN and element not in self.found:
            return None
        if ROW.fullmatch(text) and ROW.fullmatch(joined(inner[3:-1])):
            return "an array of arrays", text
        return self.fault(inner[3:-1], (*seen, element))

    def deep_fault(self, name, seen=()):
        """Why a type of this name cannot be read, or one that it is made of."""
        if name in seen or name in INSTEAD or name in KNOWN and name not in self.found:
            return None
        tokens = self.tokens(name)
        if not tokens:
            return "a name that is declared nowhere", name
        fault, element = self.fault(tokens[3:-1]), self.element(tokens[3:-1])
        return fault or element and self.deep_fault(element, (*seen, name))

    def is_port(self, name, seen=()):
        """Whether a type is a port, or an array of ports."""
        if name in PORTS and name not in self.found or INSTEAD.get(name, ("",))[0] == "mach_port_t":
            return True
        tokens = self.tokens(name)
        element = self.element(tokens[3:-1]) if tokens and name not in seen else None
        return bool(element) and self.is_port(element, (*seen, name))


def without_alternatives(spec):
    """A type that the sender chooses of several is any port."""
    texts = [token.text for token in spec]
    if "|" not in texts:
        return spec
    at = 1 if texts[0] == "=" else 0
    return [*spec[:at], common.Token(spec[at].before, "polymorphic", "word", spec[at].file, spec[at].line)]


def parameters(tokens):
    """The tokens of each parameter of a routine, and the tokens around them."""
    opens = next((n for n, token in enumerate(tokens) if token.text == "("), None)
    if opens is None:
        return tokens, [], []
    closes = common.closing(tokens, opens)
    return tokens[:opens + 1], list(common.statements(tokens[opens + 1:closes])), tokens[closes:]


class Routine:
    """A routine as Flick takes it, the types that it needs, and what cannot be mended."""

    def __init__(self, tokens, types, notes):
        self.given, self.tokens, self.types, self.notes, self.needs, self.faults = tokens, tokens, types, notes, [], []
        front, each, back = parameters(tokens)
        self.what = " ".join(token.text for token in tokens[:2])
        if tokens[0].text.lower() not in ("routine", "simpleroutine") or not each or joined(back) != ") ;" or len(front) != 3:
            self.faults.append((tokens[0], "not of the language", common.shown(tokens)))
            return
        kept = []
        for tokens in each:
            kept += [found] if (found := self.parameter(tokens, not kept)) else []
        if kept and kept[-1][-1].text == ";":
            kept[-1].pop()
        self.tokens = [*front, *(token for tokens in kept for token in tokens), *back]

    def parameter(self, tokens, is_first):
        """A parameter as Flick takes it, or nothing where it is left out."""
        end = tokens[-1:] if tokens[-1].text == ";" else []
        tokens = without_translations(tokens[:len(tokens) - len(end)], self.notes)
        word = tokens[0].text.lower() if tokens else ""
        if word in OF_HEADS:
            self.notes.say(tokens[0], f"left out: {common.shown(tokens)}: {OF_HEADS[word]}")
            return []
        colon = next((n for n, token in enumerate(tokens) if token.text == ":"), 0)
        words = [token.text.lower() for token in tokens[:colon]]
        if not colon or colon + 1 >= len(tokens) or len(words) > 2 or len(words) == 2 and words[0] not in WORDS:
            self.faults.append(((tokens or end)[0], "not of the language", common.shown(tokens)))
            return tokens + end
        name, rest = tokens[colon + 1].text, without_alternatives(tokens[colon + 2:])
        spec = rest[1:] if rest and rest[0].text == "=" else tokens[colon + 1:colon + 2]
        element = self.types.element(spec)
        if element and self.types.is_port(element) and not (is_first and len(spec) == 1):
            self.faults.append((tokens[0], "a port in a message", f"{tokens[colon - 1].text} of {self.what}"))
        elif rest and rest[0].text == "=":
            self.faults.append((tokens[0], *(self.types.fault(spec) or ("a type that is written out", f"{joined(spec)} in {self.what}"))))
        elif rest:
            self.faults.append((tokens[0], "a flag of a type", f"{joined(rest)} in {self.what}"))
        else:
            self.needs.append((name, tokens[colon + 1]))
        return tokens + end

    def taken(self):
        """The tokens, with what cannot be mended said; in part, a routine that has such is skipped, and takes its id all the same."""
        if self.notes.in_part:
            self.faults += [(token, *fault) for name, token in self.needs if (fault := self.types.deep_fault(name))]
        for token, cause, text in self.faults:
            self.notes.fail(token, cause, text)
        if self.faults and self.notes.in_part:
            self.notes.say(self.given[0], f"put in place: skip for {self.what}, so that the ids after it stay")
            return [common.Token(self.given[0].before, "skip", "word", "", 0), self.given[-1]]
        for name, token in self.needs:
            self.types.need(name, token, self.what)
        return self.tokens


def subsystem(tokens, notes):
    """The first statement, without the words for the kernel's side."""
    for token in tokens:
        if token.text.lower() in ("kerneluser", "kernelserver"):
            notes.say(token, f"left out: {token.text}, which changes only the C code")
    return [token for token in tokens if token.text.lower() not in ("kerneluser", "kernelserver")]


def put_instead(tokens, notes):
    """Puts message types that Flick has in the place of those that it lacks."""
    for token in tokens:
        if token.text in INSTEAD:
            text, difference = INSTEAD[token.text]
            notes.say(token, f"put in place: {text} for {token.text}: {difference}")
            token.text = text


class File:
    """The statements of a file, sorted."""

    def __init__(self, tokens, path, notes):
        self.heads, self.others, self.given, found = [], [], {}, {}
        for each in common.statements(tokens):
            word = each[0].text.lower()
            if each[-1].text != ";":
                notes.fail(each[0], "not of the language", common.shown(each))
                self.others += [] if notes.in_part else [each]
            elif word in STATEMENTS:
                notes.say(each[0], f"left out: {common.shown(each)}: it changes no octet")
            elif word == "subsystem":
                self.heads.append(subsystem(each, notes))
            elif word == "type" and len(each) > 4:
                self.given[each[1].text] = each
                found[each[1].text] = [*each[:3], *without_alternatives(without_translations(each[3:-1], None)), each[-1]]
            elif word not in KEPT and word not in ("procedure", "function", "simpleprocedure"):
                notes.fail(each[0], "not of the language", common.shown(each))
            elif not word.endswith("import") or each[0].file == path:
                self.others.append(each)
        self.unsigned = found.pop("unsigned", None)
        if self.unsigned and self.unsigned[0].file == path:
            notes.say(self.unsigned[0], f"left out: {common.shown(self.unsigned)}: the name is known without it")
        self.types = Types(found, notes)


def kept_types(file, path, notes):
    """The type statements that are needed, or that the file has itself and that can be read."""
    types, kept, left = file.types, [], {}
    for name in [name for name in types.needed if name not in types.found] + list(file.given):
        if name == "unsigned" and file.unsigned:
            continue
        tokens = types.tokens(name)
        fault = types.fault(tokens[3:-1])
        if name not in types.needed:
            left.setdefault(tokens[0].file, []).append(tokens[1])
            continue
        if name in file.given:
            without_translations(file.given[name][3:-1], notes)
        if fault:
            notes.fail(tokens[0], fault[0], f"{fault[1]} as type {name}")
        put_instead(tokens, notes)
        kept.append(tokens)
    for names in left.values():
        notes.say(names[0], f"left out: what no routine needs: type {', '.join(name.text for name in names)}")
    return kept


def brought(path, folders, defines, notes):
    """The text of a file as Flick takes it."""
    lines = common.without_directives(common.lines_of(path, folders, defines, notes), notes, lambda _: "it is for the compiler alone")
    tokens = list(common.tokens_of(lines))
    file = File(tokens, path, notes)
    if len(file.heads) != 1:
        place = tokens[0] if tokens else common.Token("", "", "", path, 1)
        notes.fail(place, "no subsystem", "the file has types for others to include" if not file.heads else "there are several", always=True)
    others = [Routine(each, file.types, notes).taken() if each[0].text.lower() not in KEPT[4:] else each for each in file.others]
    for name in file.given:
        if file.types.tokens(name) and file.types.tokens(name)[0].file == path and not file.types.fault(file.types.tokens(name)[3:-1]):
            file.types.need(name, file.types.tokens(name)[1], "the file")
    return "".join(f"{common.spelled(each)}\n" for each in [*file.heads, *kept_types(file, path, notes), *others])
