"""Interface files written for rpcgen."""
import re

from . import common
from .common import joined
from .onc_text import NAMED, SHOWN, TYPE, Definition, arguments

ALIKE = {"u_char": "unsigned char", "u_short": "unsigned short", "u_int": "unsigned int", "u_long": "unsigned long"}
FLOATS = ("float", "double", "quadruple")
C_DEFINE = re.compile(r"%\s*#\s*define\s+(\w+)\s+(.*)")
C_INCLUDE = re.compile(r"%\s*#\s*include\s*(\S+)")


def without_c(lines, notes):
    """The lines but those for C and those for the compiler, each said; and the names that the former define for C."""
    kept, block, defines = [], [], {}
    for line, file, n in [*common.without_directives(lines, notes, lambda _: "it is for the compiler alone"), ("", "", 0)]:
        if block and not (line.startswith("%") and block[-1][1:] == (file, n - 1)):
            say_of_c(block, notes)
            block = []
        if line.startswith("%"):
            block.append((line, file, n))
            if found := C_DEFINE.match(line):
                defines.setdefault(found[1], (found[2], n))
            line = ""
        kept.append((line, file, n))
    return kept[:-1], defines


def say_of_c(block, notes):
    """Says what lines for C are left out, and what they include there."""
    (_, file, first), (_, _, last) = block[0], block[-1]
    included = [found[1] for line, _, _ in block if (found := C_INCLUDE.match(line))]
    lines, include = (f"the lines to {last}", "include") if last > first else ("a line", "includes")
    notes.say(common.Token("", "", "", file, first), f"left out: {lines} with %, for C alone{f', which {include} {chr(32).join(included)}' if included else ''}")


def without_names(tokens, notes):
    """Tokens without the names of parameters."""
    dropped = set()
    for n, token in enumerate(tokens):
        if token.text != "(" or n == 0 or tokens[n - 1].text == "switch":
            continue
        for parameter in arguments(tokens[n + 1:common.closing(tokens, n)]):
            found = NAMED.fullmatch(joined(parameter))
            if found and not SHOWN.fullmatch(joined(parameter)):
                dropped.add(id(parameter[-1]))
                notes.say(parameter[-1], f"left out: {found[2]}, the name of a parameter, which no message has")
    return [token for token in tokens if id(token) not in dropped]


def is_left_out(tokens, notes):
    """Whether a definition is left out: one that only C needs, a string constant, or a name that is known."""
    text = joined(tokens)
    if found := re.fullmatch(r"typedef (?:struct|union|enum) (\w+) (\w+) ;", text):
        if found[1] == found[2]:
            notes.say(tokens[0], f"left out: {common.shown(tokens)}: only C needs it")
            return True
    if tokens[0].text == "const" and len(tokens) > 3 and tokens[3].kind == "text":
        notes.say(tokens[0], f"left out: {common.shown(tokens)}: no message has a string constant")
        return True
    if found := re.fullmatch(rf"typedef ({TYPE}) (\w+) ;", text):
        if found[1] in (ALIKE.get(found[2]), ALIKE.get(found[2], "").removesuffix(" int")):
            notes.say(tokens[0], f"left out: {common.shown(tokens)}: the name is known without it")
            return True
    return False


class Ordered:
    """Definitions in the order of their use."""

    def __init__(self, definitions, notes):
        self.notes, self.done, self.open = notes, [], []
        self.places, self.placed = {id(each): n for n, each in enumerate(definitions)}, set()
        self.by_name = {}
        for each in definitions:
            for name in each.declares:
                self.by_name.setdefault(name, each)
        for each in definitions:
            self.place(each, None)

    def place(self, definition, user):
        """Puts a definition after what it uses."""
        if id(definition) in self.placed:
            return
        self.open.append(definition)
        for name, token in definition.uses.items():
            needed = self.by_name.get(name)
            if needed and any(needed is each for each in self.open):
                if needed is not definition or name == definition.declares[0]:
                    chain = self.open[[each is needed for each in self.open].index(True):]
                    for each in chain:
                        each.is_faulty = True
                    self.notes.fail(token, "a type that holds itself", " in ".join(each.what for each in [needed, *reversed(chain[1:])]))
            elif needed:
                self.place(needed, definition)
        self.open.pop()
        self.done.append(definition)
        self.placed.add(id(definition))
        first = self.open[0] if self.open else definition
        if self.places[id(definition)] > self.places[id(first)]:
            self.notes.say(definition.tokens[0], f"moved up: {definition.what}, before {first.what} (line {first.tokens[0].line})"
                           f"{', which uses it' if user is first else f': {user.what} uses it'}")


class Taken:
    """What is taken for names that the file does not declare."""

    def __init__(self, definitions, defines, notes):
        self.notes, self.defines = notes, defines
        self.declared = {name for each in definitions for name in each.declares}
        self.offered, self.made, self.nowhere = {}, {}, set()
        for name in ("../../examples/prelude.x", "headers.x"):
            for tokens in common.statements(common.prelude(name)):
                self.offered[Definition(tokens).declares[0]] = f"{common.shown(tokens)};"
        self.numbers = {}
        for each in definitions:
            for name, numbers in each.numbers.items():
                self.numbers.setdefault(name, set()).update(numbers)
        for each in definitions:
            for name, token in list(each.uses.items()):
                if name not in self.declared and name not in self.made:
                    self.take(name, token, each)

    def value(self, text):
        """The number of a constant that a line for C defines: a number, a name of one, or a sum."""
        parts = [part.strip() for part in text.strip("() ").split("+")]
        values = []
        for part in parts:
            if re.fullmatch(r"0[xX][0-9a-fA-F]+|[1-9]\d*|0", part):
                values.append(int(part, 0))
            elif part in self.defines and part != text:
                values.append(self.value(self.defines[part][0]))
        return sum(values) if len(values) == len(parts) and None not in values else None

    def take(self, name, token, definition):
        """Takes what one name needs, or says that there is nothing."""
        c_value = self.value(self.defines[name][0]) if name in self.defines else None
        if name in FLOATS:
            self.nowhere.add(name)
            self.notes.fail(token, "a floating-point number", f"{name} in {definition.what}")
        elif c_value is not None:
            self.made[name] = f"const {name} = {c_value};"
            self.notes.say(token, f"taken from line {self.defines[name][1]}, which defines it for C: {self.made[name]}")
        elif name in self.offered:
            self.made[name] = self.offered[name]
            self.notes.say(token, f"taken from the prelude: {self.offered[name]}")
        elif len(self.numbers.get(name, ())) == 1 and definition.kind in ("const", "program"):
            self.put_number(name, next(iter(self.numbers[name])), definition)
        else:
            self.nowhere.add(name)
            self.notes.fail(token, "a name that is declared nowhere", f"{name} in {definition.what}")

    def put_number(self, name, number, definition):
        """Puts the number of a procedure or version in the place of its name."""
        for before, token in zip(definition.tokens, definition.tokens[1:]):
            if before.text == "=" and token.text == name:
                token.text = number
                self.notes.say(token, f"put in place: {number} for {name}, whose number it is")


def c_constants(path, seen):
    """The names that a file defines for C: those of the lines that were seen, and those under names that only rpcgen defines."""
    with open(path, encoding="latin-1") as file:
        for n, line in enumerate(file, 1):
            if found := C_DEFINE.match(line):
                seen.setdefault(found[1], (found[2], n))
    return {name: (re.sub(r"/\*.*", "", value).strip(), n) for name, (value, n) in seen.items()}


def without_procedures(program, lacking, notes):
    """Takes the procedures that use what is lacking out of a program, with a version that is left empty; whether any is left."""
    dropped, is_left = set(), False
    for version, procedures in program.versions:
        out = [(each, names & lacking) for each, names in procedures if names & lacking]
        for each, names in out:
            dropped.update(map(id, each))
            if each[0].text:
                notes.say(each[0], f"left out: {common.shown(each)}, which uses {', '.join(sorted(names))}")
        if len(out) == len(procedures):
            dropped.update(map(id, version))
        is_left = is_left or len(out) < len(procedures)
    program.tokens = [token for token in program.tokens if id(token) not in dropped]
    program.versions = [(version, [(each, names) for each, names in procedures if not names & lacking]) for version, procedures in program.versions]
    return is_left


def in_part(definitions, lacking, notes):
    """The definitions without those that are not mended, and without what uses them."""
    kept, count = definitions, None
    while count != (len(kept), len(lacking)):
        count = len(kept), len(lacking)
        left = [each for each in kept if each.is_faulty or each.odd or each.kind != "program" and lacking.intersection(each.uses)]
        left += [each for each in kept if each.kind == "program" and not each.odd and not without_procedures(each, lacking, notes)]
        for each in left:
            lacking.update(each.declares)
            users = [name for name in each.uses if name in lacking and name not in each.declares]
            if users and each.kind != "program":
                notes.say(each.tokens[0], f"left out: {each.what}, which uses {', '.join(users)}")
        out = {id(each) for each in left}
        kept = [each for each in kept if id(each) not in out]
    return kept


def brought(path, folders, defines, notes):
    """The text of a file as Flick takes it."""
    lines, c_defines = without_c(common.lines_of(path, folders, defines, notes), notes)
    tokens = without_names(list(common.tokens_of(lines)), notes)
    definitions = [Definition(each) for each in common.statements(tokens) if not is_left_out(each, notes)]
    for each in definitions:
        if each.odd:
            notes.fail(each.odd, "not of the language", common.shown(each.tokens))
    taken = Taken(definitions, c_constants(path, c_defines), notes)
    ordered = Ordered(definitions, notes)
    if notes.in_part:
        ordered.done = in_part(ordered.done, taken.nowhere, notes)
    return "".join(f"{text}\n" for text in [*taken.made.values(), *(common.spelled(each.tokens) for each in ordered.done)])
