"""Numbers of constant expressions in the CORBA interface language (docs/GRAMMAR.md): of 128 signed bits, whatever the constant's type.

As all of the model it is written from the rules, with nothing of the crates in it.
"""


class Stopped(Exception):
    """The fault of an expression, or None where it was kept before; and the name at which it is, or None where it is the whole's."""

    def __init__(self, fault, name=None):
        super().__init__(fault)
        self.fault, self.name = fault, name


def within(n):
    """A number of 128 signed bits."""
    if not -2 ** 127 <= n < 2 ** 127:
        raise Stopped("Range")
    return n


def quotient(a, b):
    """A division that cuts towards zero."""
    if b == 0:
        raise Stopped("Range")
    return abs(a) // abs(b) * (1 if (a < 0) == (b < 0) else -1)


def amount(n):
    if not 0 <= n <= 63:
        raise Stopped("Range")
    return n


OPERATORS = {
    "|": lambda a, b: a | b,
    "^": lambda a, b: a ^ b,
    "&": lambda a, b: a & b,
    "<<": lambda a, b: a << amount(b),
    ">>": lambda a, b: a >> amount(b),
    "+": lambda a, b: a + b,
    "-": lambda a, b: a - b,
    "*": lambda a, b: a * b,
    "/": quotient,
    "%": lambda a, b: a - b * quotient(a, b),
}


def number_of(tree, named):
    """The number of an expression, where `named` gives a name's. Of several faults the leftmost operand's is raised."""
    if tree.rule in ("identifier", "name"):
        return named(tree)
    if tree.rule == "number":
        return tree.value
    if tree.rule == "character":
        return tree.value[0]
    if tree.rule == "string":
        raise Stopped("Range")
    if tree.rule == "truth":
        return int(tree.parts[0].value == "TRUE")
    if tree.rule == "operand":
        return number_of(tree.parts[1], named)
    if tree.rule == "signed":
        n = number_of(tree.parts[1], named)
        return within(-n if tree.parts[0].value == "-" else n)
    left, operator, right = tree.parts
    a = number_of(left, named)
    return within(OPERATORS[operator.value](a, number_of(right, named)))
