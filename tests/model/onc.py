"""Files in the ONC RPC language (docs/GRAMMAR.md) that are refused: their trees, what their names stand for, and the first fault.

Tokens and trees are read as those of corba.py are: the grammar is a table of rules, and every way is tried. The tree is walked
once, and every fault is kept with the place of its token: the one that is reported is the one whose token is first in the text.
After a fault whatever it touches is None, which has no faults of its own. As all of the model it is written from the rules, with
nothing of the crates in it.
"""
from functools import lru_cache
from itertools import count

from calls import Called, Interface
from corba import Fault as TextFault
from corba import Reading, beginnings_of, rules_of, tokens_of, words_of
from corba_nodes import limit_of
from corba_trees import placed, trees_of
from corba_trees import words_of as words_in
from values import Array, Bool, Count, Enum, Number, Opaque, Pointer, String, Struct, Union, Void, under_name

MOST_OCTETS = 1_048_576
MOST_INTERFACES, MOST_OPERATIONS, MOST_LABELS = 64, 256, 4096
GREATEST = 2 ** 32 - 1  # of lengths, of bounds and of the numbers of programs, versions and procedures
FAULTS = ("Unknown", "Twice", "NotType", "NotConst", "Range", "Label", "Limit", "OutOfScope")
BITS = {"int": 32, "long": 32, "short": 16, "char": 8, "hyper": 64}

GRAMMAR = """
definition  = defined ";"
defined     = typedef | const | enum | struct | union | program
typedef     = "typedef" declaration
const       = "const" identifier "=" value
enum        = "enum" identifier "{" item { "," item } "}"
struct      = "struct" identifier "{" declaration ";" { declaration ";" } "}"
union       = "union" identifier "switch" "(" type identifier ")" "{" case { case } [ default ] "}"
program     = "program" identifier "{" version { version } "}" "=" value
item        = identifier [ "=" value ]
case        = label { label } arm ";"
label       = "case" value ":"
default     = "default" ":" arm ";"
arm         = "void" | declaration
declaration = type identifier | type identifier "[" value "]" | type identifier "<" [ value ] ">" | type "*" identifier | octets
octets      = "opaque" identifier "[" value "]" | ( "opaque" | "string" ) identifier "<" [ value ] ">"
type        = [ "unsigned" ] ( "int" | "long" | "short" | "char" | "hyper" ) | "unsigned" | "bool" | [ "struct" | "union" | "enum" ] identifier
value       = [ "-" ] number | identifier
version     = "version" identifier "{" procedure { procedure } "}" "=" value ";"
procedure   = shown identifier "(" shown { "," shown } ")" "=" value ";"
shown       = "void" | "string" | type
"""
RULES, WORDS = rules_of(GRAMMAR), words_of(GRAMMAR)


class Refused(Exception):
    """The line with which a file is refused, without its `?`."""


class OncReading(Reading):
    kinds, rules, beginnings = {"identifier": "identifier", "number": "number"}, RULES, beginnings_of(RULES)

    def leaf(self, name, place):
        token = self.token(place)
        return {place + 2: (token,)} if token and place % 2 == 0 and token.kind == self.kinds[name] else {}


def trees_in(text):
    """The trees of the definitions of a file. The line of a fault is that where the definition that fails begins."""
    try:
        tokens = tokens_of(text, "onc")
    except TextFault as fault:
        raise Refused(f"lex {fault}") from None
    tokens = [token._replace(kind="identifier") if token.kind == "word" and token.value not in WORDS else token for token in tokens]
    reading, place = OncReading(tokens), 0
    while place < 2 * len(tokens):
        ends = reading.rule("definition", place, 1)
        assert len(ends) <= 1, f"a definition ends at {sorted(ends)}"
        if not ends:
            raise Refused(f"syntax {tokens[place // 2].line}")
        [(place, (tree,))] = ends.items()
        yield tree


# ---- what names stand for

CONSTANT, TYPE, PROGRAM, ABSENT = "constant", "type", "program", "absent"  # what a name stands for
KNOWN = {"TRUE": (CONSTANT, 1), "FALSE": (CONSTANT, 0), **{f"u_{name}": (TYPE, Number(False, BITS[name])) for name in ("char", "short", "int", "long")},
         **{name: (ABSENT, None) for name in ("float", "double", "quadruple")}}


class Resolver:
    """What a file declares so far, and its faults."""

    def __init__(self):
        self.names, self.types, self.interfaces = dict(KNOWN), [], []
        self.faults, self.declarations, self.current = [], 0, 0
        self.numbers = set()  # pairs of a program and a version

    def fault(self, name, at):
        self.faults.append((at, FAULTS.index(name), self.current))

    def begin(self):
        """Begins a declaration, and gives its number."""
        self.declarations += 1
        self.current = self.declarations

    def declare(self, scope, identifier, meaning):
        """Declares a name in a scope."""
        if identifier.value in scope:
            self.fault("Twice", identifier.at)
        else:
            scope[identifier.value] = meaning

    def declare_type(self, identifier, ty):
        named = ty and under_name(ty, identifier.value)
        self.declare(self.names, identifier, (TYPE, named))
        self.types.append((identifier.value, named))

    # -- numbers

    def number(self, tree):
        """What a value is: a number, or None after a fault."""
        if tree.rule == "number":
            return tree.value
        if tree.rule == "value":
            return -tree.parts[1].value
        kind, n = self.names.get(tree.value, (None, None))
        if kind is None:
            self.fault("Unknown", tree.at)
        elif kind != CONSTANT:
            self.fault("NotConst", tree.at)
        return n if kind == CONSTANT else None

    def between(self, least, tree, greatest):
        """A value in a range."""
        n = self.number(tree)
        if n is not None and not least <= n <= greatest:
            self.fault("Range", tree.at)
            return None
        return n

    # -- types

    def type(self, tree):
        """A type, or None after a fault."""
        if tree.rule == "identifier":
            return self.named(tree)
        words = words_in(tree)
        if trees_of(tree):
            return self.named(trees_of(tree)[0])
        if words == ["bool"]:
            return Bool()
        return Number("unsigned" not in words, BITS.get(words[-1], 32))

    def named(self, identifier):
        kind, ty = self.names.get(identifier.value, (None, None))
        fault = {None: "Unknown", CONSTANT: "NotType", PROGRAM: "NotType", ABSENT: "OutOfScope"}.get(kind)
        if fault:
            self.fault(fault, identifier.at)
            return None
        return ty

    def declaration(self, tree):
        """The identifier of a declaration, and its type."""
        if tree.rule == "octets":
            identifier, *values = trees_of(tree)
            form = Opaque if words_in(tree)[0] == "opaque" else String
            return identifier, form(self.count(tree, values))
        ty, identifier, *values = trees_of(tree)
        element, marks = self.type(ty), words_in(tree)
        if marks == ["*"]:
            return identifier, Pointer(element)
        return identifier, Array(element, self.count(tree, values)) if marks else element

    def count(self, tree, values):
        """How many elements a list has: exactly, at most, or any number."""
        exact = "[" in words_in(tree)
        return Count(self.between(int(exact), values[0], GREATEST) if values else None, exact)

    # -- definitions

    def typedef(self, tree):
        identifier, ty = self.declaration(trees_of(tree)[0])
        self.declare_type(identifier, ty)

    def const(self, tree):
        identifier, value = trees_of(tree)
        self.declare(self.names, identifier, (CONSTANT, self.number(value)))

    def enum(self, tree):
        identifier, *items = trees_of(tree)
        found, n = [], -1
        for item in items:
            name, *value = [item] if item.rule == "identifier" else trees_of(item)
            n = self.item(name, value, n)
            self.declare(self.names, name, (CONSTANT, n))
            found.append((name.value, n))
            if len({number for _, number in found}) > MOST_LABELS:
                self.fault("Limit", name.at)
        self.declare_type(identifier, Enum(found))

    def item(self, name, value, before):
        """The number of an item: its own, or the one after that of the item before it."""
        if value:
            return self.between(-2 ** 31, value[0], 2 ** 31 - 1)
        if before == 2 ** 31 - 1:
            self.fault("Range", name.at)
        return None if before in (None, 2 ** 31 - 1) else before + 1

    def struct(self, tree):
        identifier, *declarations = trees_of(tree)
        scope, fields = {}, []
        for declaration in declarations:
            fields.append(self.field(scope, declaration))
        self.declare_type(identifier, Struct(fields))

    def field(self, scope, tree):
        identifier, ty = self.declaration(tree)
        self.declare(scope, identifier, None)
        return identifier.value, ty

    def union(self, tree):
        identifier, of, tag_name, *cases = trees_of(tree)
        tag = self.tag(of)
        scope, arms, default = {tag_name.value: None}, {}, None
        for case in cases:
            *labels, arm = trees_of(case)
            found = [self.label(trees_of(label)[0], tag, arms) for label in labels]
            ty = Void() if arm.rule == "arm" else self.field(scope, arm)[1]
            arms.update((label, ty) for label in found if label is not None)
            default = default if labels else ty
        self.declare_type(identifier, Union(tag, arms, default))

    def tag(self, tree):
        ty = self.type(tree)
        if ty is not None and not isinstance(ty, Number):
            self.fault("NotType", tree.at)
            return None
        return ty

    def label(self, value, tag, arms):
        n = self.number(value)
        if n is None:
            return None
        if n in arms or tag and not tag.has(n):
            self.fault("Label", value.at)
        arms[n] = None
        if len(arms) > MOST_LABELS:
            self.fault("Limit", value.at)
        return n

    # -- programs

    def program(self, tree):
        identifier, *versions, value = trees_of(tree)
        own, scope, found = self.current, {}, []
        for version in versions:
            found.append(self.version(version, scope, len(self.interfaces) + len(found)))
        self.current = own
        program = self.between(0, value, GREATEST)
        self.declare(self.names, identifier, (PROGRAM, None))
        for number, version, place, declaration, operations in found:
            self.current = declaration
            if None not in (program, number) and (program, number) in self.numbers:
                self.fault("Twice", place)
            self.numbers.add((program, number))
            self.interfaces.append(Interface(f"{identifier.value}.{version}", program, number, operations, base=1000))

    def version(self, tree, scope, before):
        """The number of a version, its name, the place of the number, its declaration, and its operations."""
        self.begin()
        own = self.current
        identifier, *procedures, value = trees_of(tree)
        self.declare(scope, identifier, None)
        if before >= MOST_INTERFACES:
            self.fault("Limit", identifier.at)
        names, numbers, operations = {}, set(), []
        for procedure in procedures:
            operations.append(self.procedure(procedure, names, numbers))
        self.current = own
        return self.between(0, value, GREATEST), identifier.value, value.at, own, operations

    def procedure(self, tree, names, numbers):
        self.begin()
        result, identifier, *parameters, value = trees_of(tree)
        result = self.shown(result)
        self.declare(names, identifier, None)
        if len(names) > MOST_OPERATIONS:
            self.fault("Limit", identifier.at)
        types = [(parameter.at, self.shown(parameter)) for parameter in parameters]
        for at, ty in types if len(types) > 1 else []:
            if isinstance(ty, Void):
                self.fault("OutOfScope", at)
        n = self.between(0, value, GREATEST)
        if n in numbers:
            self.fault("Twice", value.at)
        numbers.add(n) if n is not None else None
        return Called(identifier.value, n, [ty for _, ty in types if not isinstance(ty, Void)], result=result)

    def shown(self, tree):
        """What comes out of a procedure, or goes into it."""
        if tree.rule == "shown":
            return Void() if words_in(tree) == ["void"] else String(Count(None))
        return self.type(tree)

    def define(self, tree):
        self.begin()
        getattr(self, tree.rule)(tree)


# ---- answers

def resolved(text):
    """What a file declares that has no fault."""
    if len(text) > MOST_OCTETS:
        raise Refused("size")
    resolver, places = Resolver(), count()
    for tree in list(trees_in(text)):
        resolver.define(trees_of(placed(tree, places))[0])
    if resolver.faults:
        _, fault, declaration = min(resolver.faults)
        raise Refused(f"name {FAULTS[fault]} {declaration}")
    return resolver


@lru_cache(maxsize=1)
def told_of_file(text, back="xdr"):
    """The line with which a file is refused over a back end, or nothing."""
    try:
        resolver = resolved(text)
    except Refused as refused:
        return f"? {refused}"
    messages = [(Struct([("", ty) for ty in operation[2]]), Union(Number(False, 32), {0: Struct([("", operation.result)])}, None))
                for interface in resolver.interfaces for operation in interface.own]
    unnumbered = sum(all(operation[1] != 0 for operation in interface.own) for interface in resolver.interfaces)
    fault = limit_of(resolver.types, messages, 4 * unnumbered if back == "xdr" else 0)
    return f"? bind {fault}" if fault else ""
