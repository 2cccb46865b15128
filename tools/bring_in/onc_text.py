"""A reader of ONC definitions: what each declares and uses."""
import re

from . import common
from .common import joined

NUMBERS = ("int", "long", "short", "char", "hyper")
KNOWN = {*NUMBERS, "bool", "unsigned", "void", "string", "opaque", "u_char", "u_short", "u_int", "u_long", "TRUE", "FALSE"}
TYPE = r"(?:unsigned(?: (?:int|long|short|char|hyper))?|(?:(?:struct|union|enum) )?(?!unsigned )[A-Za-z_]\w*)"
NAME, VALUE = r"([A-Za-z_]\w*)", r"(?:- )?(\w+)"
DECLARED = re.compile(rf"({TYPE})(?: \*)? {NAME}(?: \[ {VALUE} \]| <(?: {VALUE})? >)?")
SHOWN, NAMED = re.compile(TYPE), re.compile(rf"({TYPE}) {NAME}")


def type_name(text):
    """The name that a type has to have declared, or nothing."""
    last = text.split()[-1]
    return [] if text.startswith("unsigned") or last in KNOWN else [last]


def is_name(text):
    """Whether a text is a name and not a number."""
    return text[:1].isalpha() or text[:1] == "_"


class Definition:
    """A definition: what it declares, and the names that it uses, each with the first token that does."""

    def __init__(self, tokens):
        self.tokens, self.kind = tokens, tokens[0].text
        self.declares, self.uses, self.odd = [], {}, None
        self.numbers = {}  # of the procedures and versions of a program
        self.versions = []  # of a program: the tokens of each, with those of its procedures and the names that each uses
        self.is_faulty = False
        walk = getattr(self, f"walk_{self.kind}", None)
        if walk is None or tokens[-1].text != ";":
            self.odd = tokens[0]
        else:
            walk(tokens[1:-1])
        self.what = f"{self.kind} {self.declares[0]}" if self.declares else common.shown(tokens)

    def use(self, tokens, names):
        """Notes names that are used, each with its first token."""
        for name in names:
            if name and is_name(name) and name not in KNOWN and name not in self.uses:
                self.uses[name] = next(token for token in tokens if token.text == name)

    def match(self, form, tokens):
        """Reads tokens by a form, or remembers where they do not have it."""
        found = form.fullmatch(joined(tokens))
        if not found and not self.odd:
            self.odd = tokens[0] if tokens else self.tokens[0]
        return found

    def declared(self, tokens):
        """Reads a declaration; its name."""
        if found := self.match(DECLARED, tokens):
            self.use(tokens, [*type_name(found[1]), found[3], found[4]])
            return found[2]
        return None

    def walk_typedef(self, tokens):
        """Reads what follows the word."""
        if name := self.declared(tokens):
            self.declares.append(name)

    def walk_const(self, tokens):
        """Reads what follows the word."""
        if len(tokens) > 2 and tokens[2].kind == "text":
            self.declares.append(tokens[0].text)
        elif found := self.match(re.compile(f"{NAME} = {VALUE}"), tokens):
            self.declares.append(found[1])
            self.use(tokens[2:], [found[2]])

    def body(self, tokens):
        """The tokens between the braces of a definition that has its name first."""
        self.declares += [tokens[0].text] if tokens else []
        opens = next((n for n, token in enumerate(tokens) if token.text == "{"), None)
        if opens is None or tokens[-1].text != "}":
            self.odd = tokens[0] if tokens else self.tokens[0]
            return tokens[1:], []
        return tokens[1:opens], tokens[opens + 1:-1]

    def walk_enum(self, tokens):
        """Reads what follows the word; the items are declared too."""
        item = []
        for token in [*self.body(tokens)[1], None]:
            if token and token.text != ",":
                item.append(token)
            elif item and (found := self.match(re.compile(f"{NAME}(?: = {VALUE})?"), item)):
                self.declares.append(found[1])
                self.use(item[1:], [found[2]])
            if not token or token.text == ",":
                item = []

    def walk_struct(self, tokens):
        """Reads what follows the word."""
        for field in common.statements(self.body(tokens)[1]):
            self.declared(field[:-1])

    def walk_union(self, tokens):
        """Reads what follows the word."""
        head, body = self.body(tokens)
        if [token.text for token in head[:2]] == ["switch", "("]:
            self.declared(head[2:-1])
        for arm in common.statements(body):
            while len(arm) > 2 and (arm[0].text == "case" or arm[0].text == "default"):
                colon = next((n for n, token in enumerate(arm) if token.text == ":"), 1)
                self.use(arm[1:colon], [token.text for token in arm[1:colon]])
                arm = arm[colon + 1:]
            if joined(arm) != "void ;":
                self.declared(arm[:-1])

    def walk_program(self, tokens):
        """Reads what follows the word."""
        names, body = self.head_of_program(tokens)
        self.declares += names
        for version in common.statements(body):
            self.odd = self.odd or (None if version[0].text == "version" else version[0])
            names, inner = self.head_of_program(version[1:-1])
            self.versions.append((version, [(each, self.procedure(each[:-1])) for each in common.statements(inner)]))

    def head_of_program(self, tokens):
        """The name of a program or version, and the tokens between its braces; its number is noted."""
        closes = common.closing(tokens, 1) if len(tokens) > 1 and tokens[1].text == "{" else 0
        if not closes or not self.match(re.compile(f"= {VALUE}"), tokens[closes + 1:]):
            self.odd = self.odd or (tokens or self.tokens)[0]
            return [], []
        self.use(tokens[closes + 2:], [tokens[closes + 2].text])
        self.numbers.setdefault(tokens[0].text, set()).add(tokens[closes + 2].text)
        return [tokens[0].text], tokens[2:closes]

    def procedure(self, tokens):
        """Reads a procedure; the names of its types."""
        opens = next((n for n, token in enumerate(tokens) if token.text == "("), 0)
        closes = common.closing(tokens, opens) if opens else 0
        result, number = tokens[:max(opens - 1, 0)], tokens[closes + 1:]
        if not closes or not self.match(SHOWN, result) or not self.match(re.compile(f"= {VALUE}"), number):
            self.odd = self.odd or (tokens or self.tokens)[0]
            return set()
        names = set(type_name(joined(result)))
        self.use(result, type_name(joined(result)))
        self.use(number, [number[-1].text])
        self.numbers.setdefault(tokens[opens - 1].text, set()).add(number[-1].text)
        for parameter in arguments(tokens[opens + 1:closes]):
            if self.match(SHOWN, parameter):
                names.update(type_name(joined(parameter)))
                self.use(parameter, type_name(joined(parameter)))
        return names


def arguments(tokens):
    """The tokens between the commas."""
    part = []
    for token in tokens:
        if token.text == ",":
            yield part
            part = []
        else:
            part.append(token)
    if part:
        yield part
