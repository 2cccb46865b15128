"""Interface files in the ONC RPC language (docs/GRAMMAR.md), read without looking for faults; onc.py looks for them."""
import re

from calls import Called, Interface
from values import Array, Bool, Count, Enum, Number, Opaque, Pointer, String, Struct, Union, Void, under_name

SKIPPED = re.compile(r"/\*.*?\*/|^%.*?$|^[ \t]*#.*?$", re.S | re.M)
TOKEN = re.compile(r"\w+|[^\s\w]")
BITS = {"int": 32, "long": 32, "short": 16, "char": 8, "hyper": 64}


class Parser:
    def __init__(self, text):
        self.tokens = TOKEN.findall(SKIPPED.sub(" ", text))
        self.constants = {"TRUE": 1, "FALSE": 0}
        self.types = {f"u_{name}": Number(False, BITS[name]) for name in ("char", "short", "int", "long")}
        self.interfaces, self.declared = [], []

    def declare(self, name, ty):
        self.types[name] = under_name(ty, name)
        self.declared.append((name, self.types[name]))

    def next(self):
        return self.tokens.pop(0)

    def take(self, *expected):
        """Passes these tokens where they stand next."""
        found = tuple(self.tokens[:len(expected)]) == expected
        if found:
            del self.tokens[:len(expected)]
        return found

    def must(self, *expected):
        assert self.take(*expected), f"{expected} at {self.tokens[:8]}"

    def number(self):
        if self.take("-"):
            return -self.number()
        token = self.next()
        if not token[0].isdigit():
            return self.constants[token]
        octal = len(token) > 1 and token.isdigit() and token[0] == "0"
        return int(token, 8 if octal else 0)

    def type(self):
        unsigned = self.take("unsigned")
        if unsigned and self.tokens[0] not in BITS:
            return Number(False, 32)
        word = self.next()
        if word in BITS:
            return Number(not unsigned, BITS[word])
        if word in ("struct", "union", "enum"):
            word = self.next()
        return Bool() if word == "bool" else self.types[word]

    def count(self):
        """The count behind a declared name, or None."""
        if self.take("["):
            count = Count(self.number(), exact=True)
            self.must("]")
            return count
        if self.take("<"):
            count = Count(None if self.tokens[0] == ">" else self.number())
            self.must(">")
            return count
        return None

    def declaration(self):
        """A name and its type."""
        for word, form in (("opaque", Opaque), ("string", String)):
            if self.take(word):
                return self.next(), form(self.count())
        element = self.type()
        if self.take("*"):
            return self.next(), Pointer(element)
        name = self.next()
        count = self.count()
        return name, Array(element, count) if count else element

    def arm(self):
        return Void() if self.take("void") else self.declaration()[1]

    def enum(self):
        items, number = [], -1
        self.must("{")
        while not self.take("}"):
            name = self.next()
            number = self.number() if self.take("=") else number + 1
            items.append((name, number))
            self.constants[name] = number
            self.take(",")
        return Enum(items)

    def struct(self):
        fields = []
        self.must("{")
        while not self.take("}"):
            fields.append(self.declaration())
            self.must(";")
        return Struct(fields)

    def union(self):
        self.must("switch", "(")
        tag = self.type()
        self.next()
        self.must(")", "{")
        arms, default = {}, None
        while not self.take("}"):
            labels = []
            while self.take("case"):
                labels.append(self.number())
                self.must(":")
            if not labels:
                self.must("default", ":")
            arm = self.arm()
            arms.update((label, arm) for label in labels)
            default = default if labels else arm
            self.must(";")
        return Union(tag, arms, default)

    def parameters(self):
        """The types of a procedure's parameters."""
        types = []
        while not self.take(")"):
            if not self.take("void"):
                types.append(String(Count(None)) if self.take("string") else self.type())
            self.take(",")
        return types

    def version(self):
        self.must("version")
        name = self.next()
        self.must("{")
        operations = []
        while not self.take("}"):
            result = Void() if self.take("void") else String(Count(None)) if self.take("string") else self.type()
            operation = self.next()
            self.must("(")
            types = self.parameters()
            self.must("=")
            operations.append(Called(operation, self.number(), types, result=result))
            self.must(";")
        self.must("=")
        number = self.number()
        self.must(";")
        return name, number, operations

    def program(self):
        name = self.next()
        self.must("{")
        versions = []
        while not self.take("}"):
            versions.append(self.version())
        self.must("=")
        number = self.number()
        for version, n, operations in versions:
            self.interfaces.append(Interface(f"{name}.{version}", number, n, operations, base=1000 * (len(self.interfaces) + 1)))

    def definition(self):
        word = self.next()
        if word == "typedef":
            self.declare(*self.declaration())
        elif word == "const":
            name = self.next()
            self.must("=")
            self.constants[name] = self.number()
        elif word == "program":
            self.program()
        else:
            name = self.next()
            self.declare(name, getattr(self, word)())
        self.must(";")


def read(text):
    """What a file that is accepted offers."""
    parser = Parser(text)
    while parser.tokens:
        parser.definition()
    return parser


def interfaces_of(text):
    return read(text).interfaces


def types_of(text):
    """The types that a file declares, each with its name."""
    return read(text).declared
