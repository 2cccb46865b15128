"""What the names of a file in the CORBA interface language stand for (docs/GRAMMAR.md): what the file offers, or its first fault.

The whole tree is walked once, and every fault is kept with the place of its token. The one that is reported is the one
whose token stands first; at one token it is the first one of `FAULTS`. After a fault whatever it touches is None, which
has no faults of its own. As all of the model it is written from the rules, with nothing of the crates in it.
"""
from functools import lru_cache
from itertools import count

from calls import Called, Interface
from corba import Fault as TextFault, file_of, tokens_of
from corba_consts import Stopped, number_of
from corba_scopes import Char, Entry, Octet, Offer, Operation, Raised, Scope, row_of
from corba_trees import Leaf, parts_of, placed, trees_of, words_of
from values import Bool, Count, Enum, Number, String, Struct, Union, Void, under_name

FAULTS = ("Unknown", "Twice", "CaseClash", "NotType", "NotConst", "Range", "Label", "Limit", "OutOfScope", "Oneway")
MOST_INTERFACES, MOST_OPERATIONS, MOST_LABELS, MOST_RAISED = 64, 256, 4096, 4095
FIRST_PROGRAM = 0x20000000
MOST_OCTETS = 1_048_576
INTEGERS = {("short",): (True, 16), ("long",): (True, 32), ("long", "long"): (True, 64)}
SIMPLE = {"char": Char, "boolean": Bool, "octet": Octet}


class Refused(Exception):
    """The first fault of a file."""


class Resolver:
    def __init__(self):
        self.file, self.offer, self.faults, self.declarations = Scope(), Offer(), [], 0

    def fault(self, name, at):
        """Keeps a fault of the declaration in which the walk is."""
        self.faults.append((at, FAULTS.index(name), self.declarations))

    def declare(self, scope, identifier, entry, *more):
        """Declares an identifier, and other names that come with it."""
        for name in (identifier.value, *more):
            clash = scope.clash(name)
            if clash:
                self.fault(clash, identifier.at)
            else:
                scope.add(name, entry)

    def entry(self, name, scope):
        """What a name that is used stands for."""
        parts = [name] if isinstance(name, Leaf) else name.parts
        first, *others = [part.value for part in parts if part.rule == "identifier"]
        entry = self.file.found(first) if parts[0].rule == "word" else scope.sought(first)
        for other in others:
            entry = entry.scope.found(other) if entry and entry.scope else None
        return entry

    def of_kind(self, kind, name, scope):
        """The entry of a name that has to be of a kind."""
        entry = self.entry(name, scope)
        if entry is None:
            self.fault("Unknown", name.at)
        elif entry.kind != kind:
            self.fault("NotType", name.at)
        return entry if entry and entry.kind == kind else None

    # ---- expressions

    def constant(self, tree, scope):
        """The number of an expression, the octets of a string, or None after a fault."""
        inner = tree
        while inner.rule == "operand":
            inner = inner.parts[1]
        try:
            return inner.value if inner.rule == "string" else number_of(inner, lambda name: self.named_number(name, scope))
        except Stopped as stopped:
            if stopped.fault:
                self.fault(stopped.fault, (stopped.name or tree).at)
            return None

    def named_number(self, name, scope):
        """The number of a constant or an item."""
        entry = self.entry(name, scope)
        if entry is None:
            raise Stopped("Unknown", name)
        if entry.kind != "constant" or isinstance(entry.value, bytes):
            raise Stopped("NotConst", name)
        if entry.value is None:
            raise Stopped(None)
        return entry.value

    def length(self, tree, scope):
        """A bound, or the length of an array."""
        n = self.constant(tree, scope)
        if n is None:
            return None
        if isinstance(n, bytes) or not 1 <= n < 2 ** 32:
            self.fault("Range", tree.at)
            return None
        return n

    def bounded(self, trees, scope):
        """The count of a string or a sequence: a bound is there or not."""
        return Count(self.length(trees[0], scope) if trees else None)

    # ---- types

    def type(self, tree, scope):
        """A type that is used, or None."""
        if tree.rule in ("identifier", "name"):
            entry = self.of_kind("type", tree, scope)
            return entry and entry.value
        words = words_of(tree)
        if tree.rule == "integer":
            return self.integer(words)
        if tree.rule == "text" or words == ["string"]:
            return String(self.bounded(trees_of(tree), scope))
        if tree.rule == "sequence":
            element, *bound = trees_of(tree)
            return row_of(self.type(element, scope), self.bounded(bound, scope))
        if words[0] in SIMPLE:
            return SIMPLE[words[0]]()
        self.fault("OutOfScope", tree.at)
        return None

    def integer(self, words):
        signed, bits = INTEGERS[tuple(word for word in words if word != "unsigned")]
        return Number(signed and "unsigned" not in words, bits)

    def declarator(self, tree, ty, scope):
        """The identifier of a declarator, and its type: the first length is the outermost."""
        if isinstance(tree, Leaf):
            return tree, ty
        identifier, *lengths = trees_of(tree)
        for n in reversed([self.length(each, scope) for each in lengths]):
            ty = row_of(ty, Count(n, exact=True))
        return identifier, ty

    def add_type(self, scope, identifier, ty, inner=None):
        name = ".".join((*scope.path, identifier.value))
        ty = ty and under_name(ty, name)
        self.declare(scope, identifier, Entry("type", ty, inner))
        self.offer.types.append((name, ty))
        return ty

    def fields(self, members, inner):
        """The fields of a struct or an exception: each is declared where its declarator ends."""
        fields = []
        for member in members:
            ty, *declarators = trees_of(member)
            ty = self.type(ty, inner)
            for declarator in declarators:
                fields.append(self.field(declarator, ty, inner))
        return Struct(fields)

    def field(self, declarator, ty, inner):
        identifier, ty = self.declarator(declarator, ty, inner)
        self.declare(inner, identifier, Entry("field"))
        return identifier.value, ty

    def struct(self, tree, scope):
        identifier, *members = trees_of(tree)
        inner = scope.inner(identifier.value)
        return self.add_type(scope, identifier, self.fields(members, inner), inner)

    def enum(self, tree, scope):
        """An enum: its items are declared at their identifiers, in the scope in which it stands itself."""
        identifier, *items = trees_of(tree)
        for n, item in enumerate(items):
            self.declare(scope, item, Entry("constant", n))
            if n >= MOST_LABELS:
                self.fault("Limit", item.at)
        if identifier.value in [item.value for item in items]:
            self.fault("Twice", identifier.at)
        return self.add_type(scope, identifier, Enum([(item.value, n) for n, item in enumerate(items)]))

    def union(self, tree, scope):
        """A union. Without a default the numbers that no label has stand for nothing."""
        identifier, tag, *arms = trees_of(tree)
        inner = scope.inner(identifier.value)
        tag, labels = self.tag(tag, inner), {}
        for arm in arms:
            told = [self.label(part, tag, labels, inner) for part in trees_of(arm)[:-2]]
            declared, declarator = trees_of(arm)[-2:]
            _, ty = self.field(declarator, self.type(declared, inner), inner)
            labels.update((label, ty) for label in told if label is not None)
        default = labels.pop("default") if "default" in labels else Void()
        return self.add_type(scope, identifier, Union(tag, labels, default), inner)

    def label(self, tree, tag, labels, scope):
        """The number of a label, or `default`; None after a fault."""
        expression = trees_of(tree)
        label = self.constant(expression[0], scope) if expression else "default"
        if label is None:
            return None
        at = expression[0].at if expression else tree.at
        if isinstance(label, bytes):
            self.fault("Range", at)
            return None
        if label in labels or expression and tag and not tag.has(label):
            self.fault("Label", at)
        labels[label] = None
        if expression and len(labels) - ("default" in labels) > MOST_LABELS:
            self.fault("Limit", at)
        return label

    def tag(self, tree, scope):
        """The type of a union's tag: an integer, a character, a boolean or an enum."""
        ty = self.type(tree, scope)
        if ty and (not isinstance(ty, Number) or isinstance(ty, Octet)):
            self.fault("NotType", tree.at)
            return None
        return ty

    # ---- declarations

    def typedef(self, tree, scope):
        declared, *declarators = trees_of(tree)
        walk = {"struct": self.struct, "union": self.union, "enum": self.enum}.get(declared.rule, self.type)
        ty = walk(declared, scope)
        for declarator in declarators:
            identifier, each = self.declarator(declarator, ty, scope)
            self.add_type(scope, identifier, each)

    def const(self, tree, scope):
        plain, identifier, expression = trees_of(tree)
        ty = self.type(plain, scope)
        if ty and not isinstance(ty, (Number, String)):
            self.fault("NotType", plain.at)
            ty = None
        value = self.constant(expression, scope)
        if ty and value is not None and not self.is_value(ty, value):
            self.fault("Range", expression.at)
        self.declare(scope, identifier, Entry("constant", value))

    def is_value(self, ty, value):
        """Whether a constant is in the range of its type: a string has its bound, and an enum its items' numbers."""
        if isinstance(ty, String):
            return isinstance(value, bytes) and ty.count.has(len(value))
        return not isinstance(value, bytes) and ty.has(value)

    def exception(self, tree, scope):
        identifier, *members = trees_of(tree)
        inner = scope.inner(identifier.value)
        raised = Raised(inner.path, self.fields(members, inner))
        self.declare(scope, identifier, Entry("exception", raised, inner))

    # ---- interfaces

    def add_operation(self, scope, operation, at):
        """Adds an own operation to those of the bases, whose names it may not have, not even in another case."""
        for inherited in scope.inherited:
            if operation.name == inherited.name:
                self.fault("Twice", at)
            elif operation.name.lower() == inherited.name.lower():
                self.fault("CaseClash", at)
        scope.operations.append(operation)
        if len(scope.operations) > MOST_OPERATIONS:
            self.fault("Limit", at)

    def attribute(self, tree, scope):
        declared, *identifiers = trees_of(tree)
        ty = self.type(declared, scope)
        for identifier in identifiers:
            operations = [Operation(f"_get_{identifier.value}", ty)]
            if words_of(tree)[0] != "readonly":
                operations.append(Operation(f"_set_{identifier.value}", Void(), [(identifier.value, ty)]))
            self.declare(scope, identifier, Entry("attribute"), *(operation.name for operation in operations))
            for operation in operations:
                self.add_operation(scope, operation, identifier.at)

    def operation(self, tree, scope):
        words, parts = words_of(tree), trees_of(tree)
        result = Void() if "void" in words else self.type(parts.pop(0), scope)
        identifier, *lists = parts
        inner = scope.inner(identifier.value)
        parameters = [part for each in lists for part in parts_of(each, "parameters") if part.rule == "parameter"]
        raised = [part for each in lists for part in parts_of(each, "names") if part.rule in ("identifier", "name")]
        made = Operation(identifier.value, result, oneway=words[0] == "oneway")
        for parameter in parameters:
            self.parameter(parameter, made, inner)
        made.raises = self.raises(raised, inner)
        if made.oneway and ("void" not in words or raised or any(words_of(parameter) != ["in"] for parameter in parameters)):
            self.fault("Oneway", tree.at)
        self.declare(scope, identifier, Entry("operation", made, inner))
        self.add_operation(scope, made, identifier.at)

    def parameter(self, tree, made, inner):
        """A parameter, which may be on both ways. It is declared where it ends."""
        way, (declared, identifier) = words_of(tree)[0], trees_of(tree)
        for types, ways in ((made.ins, ("in", "inout")), (made.outs, ("out", "inout"))):
            if way in ways:
                types.append((identifier.value, self.type(declared, inner)))
        self.declare(inner, identifier, Entry("parameter"))

    def raises(self, names, inner):
        """The exceptions of an operation, as they are listed."""
        entries = []
        for n, name in enumerate(names):
            entries.append(self.of_kind("exception", name, inner))
            if n >= MOST_RAISED:
                self.fault("Limit", name.at)
        return [entry.value for entry in entries if entry]

    def interface(self, tree, scope):
        """An interface. Its name is declared behind its bases, so that none of them is itself."""
        identifier, *parts = trees_of(tree)
        bases = [part for part in parts if part.rule in ("identifier", "name")]
        inner = scope.inner(identifier.value)
        for name in bases:
            base = self.of_kind("interface", name, scope)
            if base:
                self.add_base(inner, base.scope, name.at)
        inner.inherited = list(inner.operations)
        self.declare(scope, identifier, Entry("interface", scope=inner))
        self.offer.interfaces.append(inner)
        if len(self.offer.interfaces) > MOST_INTERFACES:
            self.fault("Limit", identifier.at)
        for part in parts[len(bases):]:
            self.walk(part, inner)

    def add_base(self, inner, base, at):
        """Adds a base, and those of its operations that are not there by another base."""
        inner.line += [each for each in base.line if each not in inner.line]
        for operation in [each for each in base.operations if each not in inner.operations]:
            for other in inner.operations:
                if operation.name == other.name:
                    self.fault("Twice", at)
                elif operation.name.lower() == other.name.lower():
                    self.fault("CaseClash", at)
            inner.operations.append(operation)
            if len(inner.operations) > MOST_OPERATIONS:
                self.fault("Limit", at)

    # ---- the file

    def module(self, tree, scope):
        """A module, or more of one that was begun in the same scope. Its name is declared at once."""
        identifier, *definitions = trees_of(tree)
        begun = scope.names.get(identifier.value)
        inner = begun.scope if begun and begun.kind == "module" else scope.inner(identifier.value)
        if not (begun and begun.kind == "module"):
            self.declare(scope, identifier, Entry("module", scope=inner))
        for definition in definitions:
            self.walk(trees_of(definition)[0], inner)

    WALKS = {"module": module, "interface": interface, "attribute": attribute, "operation": operation, "typedef": typedef,
             "struct": struct, "enum": enum, "union": union, "constant": const, "exception": exception}

    def walk(self, tree, scope):
        """One declaration. They are counted in the order in which they begin."""
        self.declarations += 1
        self.WALKS[tree.rule](self, tree, scope)


def resolved(trees):
    """What the definitions of a file offer."""
    resolver, places = Resolver(), count()
    for tree in trees:
        resolver.walk(trees_of(placed(tree, places))[0], resolver.file)
    if resolver.faults:
        _, fault, declaration = min(resolver.faults)
        raise Refused(f"name {FAULTS[fault]} {declaration}")
    return resolver.offer


@lru_cache(maxsize=1)
def read(text):
    """The trees of a text and the token after them. All that is asked of a file is asked of its trees, which never change."""
    return file_of(tokens_of(text))


def offer_of(text):
    """What a file offers."""
    if len(text) > MOST_OCTETS:
        raise Refused("size")
    try:
        trees, failing = read(text)
    except TextFault as fault:
        raise Refused(f"lex {fault}") from None
    if failing:
        raise Refused(f"syntax {failing.line}")
    return resolved(trees)


def called(number, operation):
    """An operation as calls.py knows it."""
    ins, outs = ([ty for _, ty in parameters] for parameters in (operation.ins, operation.outs))
    return Called(operation.name, number, ins, result=operation.result, outs=outs, raises=operation.raises, oneway=operation.oneway)


def interfaces_of(text):
    """The interfaces of a file that is accepted. A file gives no numbers, so programs and procedures are counted."""
    return [Interface(".".join(each.path), FIRST_PROGRAM + n, 1, [called(k, operation) for k, operation in enumerate(each.operations, 1)], base=1000 * (n + 1))
            for n, each in enumerate(offer_of(text.encode()).interfaces)]
