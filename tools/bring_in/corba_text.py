"""A reader of CORBA IDL that is enough to see what a definition declares and uses."""
from . import common

PLAIN = ("void", "char", "boolean", "octet", "short", "string")
FAULTS = {"float": "a floating-point number", "double": "a floating-point number", "any": "any or a type code", "Object": "an object reference",
          "wchar": "wide characters", "wstring": "wide characters", "fixed": "a decimal number", "ValueBase": "a value with methods"}
STRANGE = ("valuetype", "abstract", "custom", "component", "home", "eventtype", "porttype", "connector")


class Use:
    """A name that is used, with its place."""

    def __init__(self, names, is_absolute, token, role):
        self.names, self.is_absolute, self.token, self.role = names, is_absolute, token, role


class Odd(Exception):
    """A token at which a definition is not of the language."""


def plain(name):
    """An identifier without the `_` that may be before it."""
    return name.removeprefix("_")


class Leaf:
    """A definition, attribute or operation: what it declares and uses, and what of it cannot be mended."""

    def __init__(self, tokens, scope, is_export):
        self.tokens, self.scope, self.scope_of_uses, self.at = tokens, scope, scope, 0
        self.kind, self.of, self.declares, self.uses, self.faults = tokens[0].text, None, [], [], []
        if self.kind in ("module", "interface"):  # one without a body
            self.kind = "definition"
        try:
            self.read(is_export)
            self.expect(";")
        except Odd as odd:
            token = odd.args[0]
            cause = "a value with methods" if tokens[0].text in STRANGE else "not of the language"
            self.faults.append((token, cause, f"{token.text} in {common.shown(tokens)}"))
        self.what = f"{self.kind} {self.declares[0][0]}" if self.declares else common.shown(tokens)

    def peek(self, ahead=0):
        """The text of the token that comes, or of one after it."""
        return self.tokens[self.at + ahead].text if self.at + ahead < len(self.tokens) else ""

    def take(self):
        """The token that comes."""
        if self.at >= len(self.tokens):
            raise Odd(self.tokens[-1])
        self.at += 1
        return self.tokens[self.at - 1]

    def expect(self, *texts):
        """The token that comes, which has to be one of these."""
        token = self.take()
        if token.text not in texts:
            raise Odd(token)
        return token

    def name(self):
        """The name that comes."""
        token = self.take()
        if token.kind != "word":
            raise Odd(token)
        return plain(token.text)

    def declare(self, kind):
        """Reads the name that is declared."""
        self.declares.append((self.name(), kind))

    def chain(self, role):
        """Reads a name with its scopes."""
        is_absolute = self.peek() == "::"
        if is_absolute:
            self.take()
        token = self.tokens[min(self.at, len(self.tokens) - 1)]
        names = [self.name()]
        while self.peek() == "::":
            self.take()
            names.append(self.name())
        self.uses.append(Use(names, is_absolute, token, role))

    def expression(self, *ends):
        """Reads an expression up to one of these marks."""
        depth = 0
        while depth or self.peek() not in ends:
            if self.peek() in ("(", ")"):
                depth += 1 if self.peek() == "(" else -1
            token = self.tokens[self.at] if self.peek() else None
            if token and (token.kind == "word" or token.text == "::") and token.text not in ("TRUE", "FALSE"):
                self.chain("value")
                continue
            token = self.take()
            if token.kind == "number" and not token.text.lower().startswith("0x") and set(token.text.lower()) & set(".ed"):
                self.of = "floats"

    def type(self):
        """Reads a type."""
        token, text = self.tokens[min(self.at, len(self.tokens) - 1)], self.peek()
        if text in ("struct", "union", "enum"):
            self.faults.append((token, "a type declared in place", f"{text} {self.peek(1)}"))
            getattr(self, f"read_{text}")()
            return
        if text == "sequence":
            self.take()
            self.expect("<")
            self.type()
            if self.peek() == ",":
                self.take()
                self.expression(">")
            self.expect(">")
            return
        if text in ("unsigned", "long"):
            self.take()
            while self.peek() in ("short", "long"):
                self.take()
            text = "double" if self.peek() == "double" else "long"
            if text == "long":
                return
        if text in FAULTS:
            self.faults.append((token, FAULTS[text], text if token.text == text else f"{token.text} {text}"))
        if text not in PLAIN and text not in FAULTS:
            self.chain("type")
            return
        self.take()
        if text in ("string", "wstring", "fixed") and self.peek() == "<":
            self.take()
            self.expression(">")
            self.expect(">")

    def declarators(self, kind):
        """Reads declarators; those that are names of the scope are declared."""
        while True:
            name = self.name()
            if kind:
                self.declares.append((name, kind))
            while self.peek() == "[":
                self.take()
                self.expression("]")
                self.expect("]")
            if self.peek() != ",":
                return
            self.take()

    def read(self, is_export):
        """Reads all up to the `;` at the end."""
        word = self.peek()
        if word in ("interface", "local", "abstract") and len(self.tokens) <= 4 or word in ("struct", "union", "valuetype") and len(self.tokens) == 3:
            self.at, self.kind, self.of = len(self.tokens) - 2, "forward", "interface" if word in ("interface", "local", "abstract") else word
            self.declare("forward")
        elif word in ("typeprefix", "typeid", "import"):
            self.of = self.tokens[-2].text.strip('"')
            self.at = len(self.tokens) - 1
        elif word in STRANGE:
            raise Odd(self.tokens[0])
        elif hasattr(self, f"read_{word}"):
            getattr(self, f"read_{word}")()
        elif is_export:
            self.operation()
        else:
            raise Odd(self.tokens[0])

    def read_typedef(self):
        """Reads a typedef."""
        self.take()
        if self.peek() in ("struct", "union", "enum"):
            getattr(self, f"read_{self.peek()}")()
        else:
            self.type()
        self.declarators("typedef")

    def read_struct(self):
        """Reads a struct or an exception."""
        kind = self.take().text
        self.declare(kind)
        self.expect("{")
        while self.peek() != "}":
            self.type()
            self.declarators(None)
            self.expect(";")
        self.take()

    read_exception = read_struct

    def read_union(self):
        """Reads a union."""
        self.take()
        self.declare("union")
        self.expect("switch")
        self.expect("(")
        self.type()
        self.expect(")")
        self.expect("{")
        while self.peek() != "}":
            while self.peek() in ("case", "default"):
                if self.take().text == "case":
                    self.expression(":")
                self.expect(":")
            self.type()
            self.declarators(None)
            self.expect(";")
        self.take()
        # A label may be an item of the tag's enum, whose scope need not be that of the union.
        self.uses = [use for use in self.uses if use.role != "value" or len(use.names) > 1]

    def read_enum(self):
        """Reads an enumeration; its items are names of the scope."""
        self.take()
        self.declare("enum")
        self.expect("{")
        while self.peek() != "}":
            self.declare("item")
            if self.peek() == ",":
                self.take()
        self.take()

    def read_const(self):
        """Reads a constant; whether Flick lacks its form is noted."""
        self.take()
        begun = len(self.faults)
        word = self.peek()
        self.type()
        self.of = {"a floating-point number": "floats", "wide characters": "wide"}.get(self.faults[begun][1]) if self.faults[begun:] else None
        if self.of:
            del self.faults[begun:]
        self.declare("const")
        self.expect("=")
        begun = self.at
        self.expression(";")
        value = self.tokens[begun:self.at]
        if word == "string" and (len(value) > 1 or any(f"\\{mark}" in value[0].text for mark in "x01234567u")):
            self.of = "text"

    def read_native(self):
        """Reads a native type."""
        self.take()
        self.declare("native")

    def read_readonly(self):
        """Reads an attribute."""
        self.take()
        self.read_attribute()

    def read_attribute(self):
        """Reads an attribute."""
        self.expect("attribute")
        self.kind = "attribute"
        self.type()
        self.declarators("attribute")

    def operation(self):
        """Reads an operation."""
        self.kind = "operation"
        if self.peek() == "oneway":
            self.take()
        self.type()
        self.declare("operation")
        self.expect("(")
        while self.peek() != ")":
            self.expect("in", "out", "inout")
            self.type()
            self.name()
            if self.peek() == ",":
                self.take()
        self.take()
        if self.peek() == "raises":
            self.take()
            self.names("raises")
        if self.peek() == "context":
            self.faults.append((self.take(), "a context", common.shown(self.tokens)))
            self.at = len(self.tokens) - 1

    def names(self, role):
        """Reads names in parentheses."""
        self.expect("(")
        while self.peek() != ")":
            self.chain(role)
            if self.peek() == ",":
                self.take()
        self.take()


class Container:
    """A module or an interface."""

    def __init__(self, tokens, scope):
        opens = next(n for n, token in enumerate(tokens) if token.text == "{")
        closes = common.closing(tokens, opens)
        self.tokens, self.tail, self.scope, self.faults, self.uses = tokens[:opens + 1], tokens[closes:], scope, [], []
        words = [token.text for token in self.tokens]
        at = 0 if words[0] in ("module", "interface") else 1
        self.kind, self.name = " ".join(words[:at + 1]), plain(words[at + 1])
        self.what = f"{self.kind} {self.name}"
        self.declares = [(self.name, self.kind)]
        # The names of the bases are read as those of a list.
        if words[at + 2] == ":":
            reader = Leaf.__new__(Leaf)
            reader.tokens, reader.at, reader.uses = self.tokens, at + 2, self.uses
            try:
                while reader.expect(":", ",", "{").text != "{":
                    reader.chain("base")
                    if reader.peek() == "{":
                        break
            except Odd as odd:
                self.faults.append((odd.args[0], "not of the language", common.shown(tokens)))
        if [token.text for token in self.tail] != ["}", ";"]:
            self.faults.append((tokens[0], "not of the language", common.shown(tokens)))
        self.scope_of_uses = scope
        self.children = nodes_of(tokens[opens + 1:closes], (*scope, self.name), self.kind != "module")


def is_container(tokens):
    """Whether tokens begin as a module or an interface with a body does."""
    at = 1 if [token.text for token in tokens[:2]] == ["local", "interface"] else 0
    return (tokens[at].text in ("module", "interface") and len(tokens) > at + 2 and tokens[at + 1].kind == "word"
            and tokens[at + 2].text in (":", "{") and any(token.text == "{" for token in tokens))


def nodes_of(tokens, scope, is_interface=False):
    """The definitions in tokens."""
    return [Container(each, scope) if is_container(each) else Leaf(each, scope, is_interface) for each in common.statements(tokens)]
