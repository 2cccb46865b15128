"""Values of the model's types at their limits, one beyond each limit, and trees of JSON that present no value.

All parts of a value but the one that is tried are blank, so that a vector is short and says what it is about.
"""
from corba_scopes import Char, Chars
from values import Array, Bool, Enum, Number, Opaque, Pointer, String, Struct, Union, Void

FREE = (1, 3, 4, 5)  # lengths of octets and texts without a bound, on both sides of a word


def blank(ty):
    """The least value of a type."""
    if isinstance(ty, Enum):
        return ty.items[0][1]
    if isinstance(ty, Number):
        return 0
    if isinstance(ty, Opaque):
        return bytes(ty.count.bound if ty.count.exact else 0)
    if isinstance(ty, Array):
        return [blank(ty.element)] * (ty.count.bound if ty.count.exact else 0)
    if isinstance(ty, Struct):
        return [blank(field) for _, field in ty.fields]
    if isinstance(ty, Union):
        tag = next(iter(ty.arms), None)
        tag = blank(ty.tag) if tag is None else tag
        return tag, blank(ty.arm(tag))
    return None


def lengths(count, free=(1, 2)):
    """The lengths of an edge, and what to call them."""
    if count.exact:
        return [("exact", count.bound)]
    return [("empty", 0), *([("most", count.bound)] if count.bound is not None else [(f"of {n}", n) for n in free])]


def tags(ty):
    """Numbers of a union's tag that no case lists, at most two."""
    if isinstance(ty.tag, Enum):
        numbers = [n for _, n in ty.tag.items]
    else:
        numbers = [0, 1] if isinstance(ty.tag, Bool) else [ty.tag.least, 0, 1, 2, ty.tag.greatest]
    return [n for n in dict.fromkeys(numbers) if n not in ty.arms][:2]


def within(values, place, other):
    return [*values[:place], other, *values[place + 1:]]


def at_limits(ty):
    """Each edge of a type: what it is, and the value."""
    if isinstance(ty, Enum):
        yield from ((f"item {name}", n) for name, n in ty.items)
    elif isinstance(ty, Bool):
        yield from (("false", 0), ("true", 1))
    elif isinstance(ty, Number):
        yield from (("least", ty.least), ("greatest", ty.greatest), ("beside the least", ty.least + 1), ("one", 1))
    elif isinstance(ty, Opaque):
        yield from ((f"octets, {name}", bytes(range(255, 255 - n, -1))) for name, n in lengths(ty.count, FREE))
        if isinstance(ty, String) and ty.count.bound != 0:
            yield "text of octet 1", b"\1"
    elif isinstance(ty, Array):
        yield from ((f"elements, {name}", [blank(ty.element)] * n) for name, n in lengths(ty.count))
        if ty.count.bound != 0:
            rest = [blank(ty.element)] * (ty.count.bound - 1 if ty.count.exact else 0)
            yield from ((f"element: {what}", [*rest, value]) for what, value in at_limits(ty.element))
    elif isinstance(ty, Pointer):
        yield "absent", None
        yield from ((f"present: {what}", [value]) for what, value in at_limits(ty.array.element))
    elif isinstance(ty, Struct):
        for k, (name, field) in enumerate(ty.fields):
            yield from ((f"{name}: {what}", within(blank(ty), k, value)) for what, value in at_limits(field))
    elif isinstance(ty, Union):
        for n in [*ty.arms, *(tags(ty) if ty.default else [])]:
            yield from ((f"tag {n}: {what}", (n, value)) for what, value in at_limits(ty.arm(n)))
    else:
        yield "void", None


def beyond(ty, is_wide):
    """Each value one beyond an edge: what it is, a type of which it is sent, and the value. Where `is_wide`, small numbers travel in four octets."""
    if isinstance(ty, Enum):
        others = [n + step for _, n in ty.items for step in (1, -1) if not ty.has(n + step) and -2 ** 31 <= n + step < 2 ** 31]
        yield from ((f"no item {n}", ty, n) for n in list(dict.fromkeys(others))[:3])
    elif isinstance(ty, Bool):
        yield from ((f"boolean {n}", ty, n) for n in (2, 255 if not is_wide else -1))
    elif isinstance(ty, Number):
        if is_wide and ty.bits < 32:
            yield "below the least", Number(True, 32), ty.least - 1
            yield "above the greatest", Number(True, 32), ty.greatest + 1
    elif isinstance(ty, Opaque):
        yield from ((f"octets, {name}", ty, b"a" * n) for name, n in over(ty.count))
        if isinstance(ty, String) and ty.count.bound != 0:
            yield "octet 0 in a text", ty, b"\0"
    elif isinstance(ty, Array):
        yield from ((f"elements, {name}", ty, [blank(ty.element)] * n) for name, n in over(ty.count))
        if ty.count.bound != 0:
            yield from ((f"element: {what}", type(ty)(other, ty.count), [value] * (ty.count.bound if ty.count.exact else 1)) for what, other, value in beyond(ty.element, is_wide))
    elif isinstance(ty, Pointer):
        yield "a count of 2", ty, [blank(ty.array.element)] * 2
        yield from ((f"present: {what}", Pointer(other), [value]) for what, other, value in beyond(ty.array.element, is_wide))
    elif isinstance(ty, Struct):
        for k, (name, field) in enumerate(ty.fields):
            yield from ((f"{name}: {what}", Struct(within(ty.fields, k, (name, other))), within(blank(ty), k, value)) for what, other, value in beyond(field, is_wide))
    elif isinstance(ty, Union):
        yield from ((f"tag {n} without an arm", Union(ty.tag, {**ty.arms, n: Void()}, None), (n, None)) for n in tags(ty) if not ty.default)
        yield from ((f"tag: {what}", Union(other, {n: Void()}, None), (n, None)) for what, other, n in beyond(ty.tag, is_wide))
        for n in [*ty.arms, *(tags(ty) if ty.default else [])]:
            yield from ((f"tag {n}: {what}", Union(ty.tag, {n: other}, None), (n, value)) for what, other, value in beyond(ty.arm(n), is_wide))


def over(count):
    """Lengths that a count does not have, and what to call them."""
    if count.bound is None:
        return []
    return [("one more", count.bound + 1), *([("one fewer", count.bound - 1)] if count.exact else [])]


def misfits(ty):
    """Each tree that presents no value of a type: what it is, and the tree."""
    if isinstance(ty, Bool):
        yield from (("a number for a boolean", 1), ("null for a boolean", None))
    elif isinstance(ty, Enum):
        yield from (("no item", "NO_ITEM"), ("an item's number", ty.items[0][1]))
    elif isinstance(ty, Char):
        yield from (("no character", ""), ("two characters", "ab"), ("a wide character", "\u0100"))
    elif isinstance(ty, Number):
        yield from (("below the least", ty.least - 1), ("above the greatest", ty.greatest + 1), ("a string for a number", "1"))
    elif isinstance(ty, String):
        yield from ((f"text, {name}", "a" * n) for name, n in over(ty.count))
        yield from (("octet 0 in a text", "\0"), ("a wide character", "\u0100"))
    elif isinstance(ty, Opaque):
        yield from ((f"octets, {name}", "00" * n) for name, n in over(ty.count))
        yield "half an octet", "0"
    elif isinstance(ty, Array):
        tree = ty.tree(blank(ty))
        yield from ((f"elements, {name}", ty.tree([blank(ty.element)] * n)) for name, n in over(ty.count))
        if not isinstance(ty, Chars) and ty.count.bound != 0:
            yield from ((f"element: {what}", [*tree[1:], other]) for what, other in misfits(ty.element))
    elif isinstance(ty, Pointer):
        yield from (("null for an absent value", None), ("two values", [ty.array.element.tree(blank(ty.array.element))] * 2))
        yield from ((f"present: {what}", [other]) for what, other in misfits(ty.array.element))
    elif isinstance(ty, Struct):
        tree = ty.tree(blank(ty))
        yield "a field more", {**tree, "no_field": 0}
        for name, field in ty.fields:
            yield f"without {name}", {key: part for key, part in tree.items() if key != name}
            yield from ((f"{name}: {what}", {**tree, name: other}) for what, other in misfits(field))
    elif isinstance(ty, Union):
        yield from ((f"tag {n} without an arm", {"tag": ty.tag.tree(n)}) for n in tags(ty) if not ty.default)
        yield from ((f"tag: {what}", {"tag": other}) for what, other in misfits(ty.tag))
        for n in [*ty.arms, *(tags(ty) if ty.default else [])]:
            yield from ((f"tag {n}: {what}", {"tag": ty.tag.tree(n), "value": other}) for what, other in misfits(ty.arm(n)))
    else:
        yield "a value for nothing", 0
