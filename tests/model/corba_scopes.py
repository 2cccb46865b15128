"""What names of CORBA files stand for: types, operations and exceptions, and the scopes in which names are declared and sought.

As all of the model it is written from the rules, with nothing of the crates in it.
"""
from values import Array, NoValue, Number, Opaque


# ---- types that ONC does not have

class Octet(Number):
    """An octet, which is not a number of 8 bits: it is not the tag of a union."""

    def __init__(self):
        super().__init__(False, 8)


class Char(Number):
    """A character; in JSON a string of one."""

    def __init__(self):
        super().__init__(False, 8)

    def value(self, tree):
        if not isinstance(tree, str) or len(tree) != 1 or ord(tree) > 255:
            raise NoValue
        return ord(tree)

    def tree(self, n):
        return chr(n)


class Chars(Array):
    """Characters in a row; in JSON one string."""

    def value(self, tree):
        if not isinstance(tree, str):
            raise NoValue
        return super().value(list(tree))

    def tree(self, values):
        return "".join(super().tree(values))


def row_of(element, count):
    """So many elements."""
    if isinstance(element, Octet):
        row = Opaque(count)
        # What is shown of it: an octet by the name of its type, where it has one.
        row.element = element
        return row
    return (Chars if isinstance(element, Char) else Array)(element, count)


# ---- what names stand for

class Entry:
    """What a name stands for: its kind, what is known of it, and the scope that `::` after it leads into."""

    def __init__(self, kind, value=None, scope=None):
        self.kind, self.value, self.scope = kind, value, scope


class Scope:
    """The names that are declared in a scope so far. An interface has operations besides, and a line of scopes: its own,
    and those of its bases in their order, each with its own bases after it; a scope that comes again is not needed twice."""

    def __init__(self, path=(), outer=None):
        self.path, self.outer, self.names, self.keys, self.line = path, outer, {}, set(), [self]
        self.operations, self.inherited = [], []

    def inner(self, name):
        return Scope((*self.path, name), self)

    def found(self, name):
        """What a name stands for here or in a base."""
        return next((scope.names[name] for scope in self.line if name in scope.names), None)

    def sought(self, name):
        """What a name stands for here or in a scope around this one."""
        found = self.found(name)
        return self.outer.sought(name) if found is None and self.outer else found

    def add(self, name, entry):
        self.names[name] = entry
        self.keys.add(name.lower())

    def clash(self, name):
        """Why a name may not be declared here, or None."""
        if name in self.names:
            return "Twice"
        return "CaseClash" if name.lower() in self.keys else None


class Operation:
    """An operation of an interface, or one of the two that an attribute stands for. Parameters are pairs of name and type."""

    def __init__(self, name, result, ins=(), outs=(), raises=(), oneway=False):
        self.name, self.result, self.ins, self.outs, self.raises, self.oneway = name, result, list(ins), list(outs), list(raises), oneway


class Raised:
    """An exception: its name with dots, its repository id, and its members."""

    def __init__(self, path, members):
        self.name, self.id, self.members = ".".join(path), f"IDL:{'/'.join(path)}:1.0", members


class Offer:
    """What a file offers: types, each with its name, and interfaces, each with its name and its operations."""

    def __init__(self):
        self.types, self.interfaces = [], []
