"""Families of interface files in which a little text stands for much: each makes a file of about so many octets, or of the greatest
that it can be, where that is less. Their files are accepted, or refused for what they ask for. `bench/run files` measures what they cost."""
from collections import namedtuple

INTERFACES, OPERATIONS, LABELS = 64, 256, 4_096
SIZES = (16_384, 65_536, 262_144, 1_048_576)
# The greatest files over which a text is made: where each type or operation has a long name in it, the text of a longer file has gigabytes.
ALL, SOME, SHORT, NONE = 1_048_576, 65_536, 7_680, 0

# A family: its name, its front and back ends, the file of a size, and the greatest size of a file that is shown, and of one whose stubs are
# written. A file of that size is made too.
Family = namedtuple("Family", "name front backs text shown stubs", defaults=(ALL, ALL))


def listed(count, each, between=" "):
    """A part of a text so many times, with its number."""
    return between.join(each.replace("%d", str(n)) for n in range(count))


def inherited(operations, interfaces=INTERFACES):
    """An interface of these operations, and others that inherit them."""
    return f"interface i0 {{ {operations} }};\n" + "".join(f"interface i{n} : i0 {{ }};\n" for n in range(1, interfaces))


def heirs(operations, interfaces=62):
    """An interface of these operations, and others of which each inherits from all before it."""
    names = [f"i{n}" for n in range(interfaces)]
    return f"interface i0 {{ {operations} }};\n" + "".join(f"interface i{n} : {', '.join(names[:n])} {{ }};\n" for n in range(1, interfaces))


def shared(count, operations, interfaces=INTERFACES, members="long m%d;"):
    """An exception of so many members, raised by operations that others inherit."""
    return f"exception e {{ {listed(count, members)} }};\n" + inherited(listed(operations, "void f%d() raises (e);"), interfaces)


def many(count, operations=OPERATIONS, interfaces=INTERFACES, members=" long m;"):
    """So many exceptions, raised by operations that others inherit."""
    raises = listed(count, "e%d", ", ")
    return listed(count, f"exception e%d {{{members} }};", "\n") + "\n" + inherited(listed(operations, f"void f%d() raises ({raises});"), interfaces)


def module(letters, declared, operations, interfaces):
    """A module of a long name, with operations that others inherit."""
    return f"module {'m' * letters} {{\n{declared}{inherited(listed(OPERATIONS, operations), interfaces)}}};\n"


def halves(size, begins, each, ends=""):
    """A module of a long name, which has half of the text, over as many declarations as go into the other half."""
    count = size // 2 // len(each.replace("%d", "12345"))
    return f"module {'m' * (size - len(begins) - len(ends) - 20 - len(listed(count, each)))} {{ {begins}{listed(count, each)}{ends} }};\n"


def sized(size, of, *rest):
    """The greatest of a family whose file has at most so many octets."""
    low, high = 1, 2
    while len(of(high, *rest)) <= size:
        low, high = high, 2 * high
    while high - low > 1:
        middle = (low + high) // 2
        low, high = (middle, high) if len(of(middle, *rest)) <= size else (low, middle)
    return of(low, *rest)


def programs(count):
    """An ONC file of so many operations, each with two parameters."""
    parts, left = [], count
    while left > 0:
        n = len(parts)
        procedures = "".join(f" void F{k}(int, int) = {k};" for k in range(min(OPERATIONS, left)))
        parts.append(f"program P{n} {{ version V {{{procedures} }} = 1; }} = {n + 1};\n")
        left -= OPERATIONS
    return "".join(parts)


def interfaces(count):
    """A CORBA file of so many operations, each with two parameters."""
    return "".join(f"interface i{n} {{ {listed(min(OPERATIONS, count - n * OPERATIONS), 'void f%d(in long a, in long b);')} }};\n"
                   for n in range((count + OPERATIONS - 1) // OPERATIONS))


def onc_unions(count):
    """Unions over one enum of many items."""
    items = ",".join(f"A{n}={LABELS - n}" for n in range(LABELS))
    return f"enum e {{{items}}};\n" + listed(count, "union u%d switch (e t) { case A0: void; default: void; };", "\n") + "\nprogram P { version V { void F(u0) = 1; } = 1; } = 1;\n"


def corba_unions(count):
    """Unions over one enum of many items."""
    return (f"enum e {{ {listed(LABELS, 'A%d', ', ')} }};\n" + listed(count, "union u%d switch (e) { case A0: octet a; };", "\n")
            + "\ninterface i { void f(in u0 a); };\n")


def doubling(levels):
    """Structs of which each has the one before it twice."""
    return "struct s0 { long a; octet b; };\n" + "".join(f"struct s{n} {{ s{n - 1} a; s{n - 1} b; }};\n" for n in range(1, levels))


def doubled(levels, operations, interfaces=1):
    """Structs of which each has the one before it twice, taken and returned by operations."""
    return doubling(levels) + inherited(listed(operations, f"s{levels - 1} f%d(in s{levels - 1} a);"), interfaces)


def wrapped(levels, unions):
    """Structs of which each has the one before it twice, in unions within one another."""
    arms = f"union u0 switch (long) {{ case 1: s{levels - 1} a; }};\n" + "".join(f"union u{n} switch (long) {{ case 1: u{n - 1} a; }};\n" for n in range(1, unions))
    return doubling(levels) + arms + f"interface i {{ void f(in u{unions - 1} a); }};\n"


def armed(lengths):
    """Unions of which an arm of many labels has an array of many lengths."""
    return f"union u switch (long) {{ {listed(LABELS, 'case %d:')} long a{'[1]' * lengths}; }};\n"


def formed(fields, levels=30):
    """A struct of which many fields have one type of many levels."""
    return f"struct s {{ {'sequence<' * levels}long{'>' * levels} {listed(fields, 'a%d', ', ')}; }};\n"


def nested(size, modules=30):
    """Modules of long names within one another, over constants."""
    name = "m" * (size // 2 // modules)
    return f"module {name} {{ " * modules + listed(size // 2 // 24, "const long c%d = 1;") + " };" * modules + "\n"


RAISED = "exception e { long m; };\n"
CDR = ("cdr-be",)
ANY = ("xdr", "cdr-be", "mach")
FAMILIES = (
    Family("an exception of many members, raised by 256 operations of 64 interfaces", "corba", ANY, lambda size: sized(size, shared, OPERATIONS)),
    Family("an exception of many members, raised by 200 operations", "corba", ANY, lambda size: sized(min(size, 6_500), shared, 200, 1)),
    Family("an exception of a long member, raised by 256 operations of 40 interfaces", "corba", ANY,
           lambda size: sized(size, lambda letters: shared(1, OPERATIONS, 40, f"long {'m' * letters};"))),
    Family("many exceptions of one member, raised by 256 operations of 64 interfaces", "corba", ANY, lambda size: sized(size, many)),
    Family("many exceptions of one member, raised by 40 operations", "corba", ANY, lambda size: sized(min(size, 65_000), many, 40, 1)),
    Family("many exceptions without members, raised by 12 operations of 64 interfaces", "corba", ANY,
           lambda size: sized(min(size, 7_300), many, 12, INTERFACES, "")),
    Family("a module of a long name, over 256 operations of 64 interfaces", "corba", ANY,
           lambda size: sized(size, module, "", "void f%d();", INTERFACES), ALL, SHORT),
    Family("a module of a long name, over 256 operations of 64 interfaces that raise", "corba", ANY,
           lambda size: sized(size, module, RAISED, "void f%d() raises (e);", INTERFACES), SHORT, SHORT),
    Family("a module of a long name, over 256 operations of 40 interfaces that raise", "corba", ANY,
           lambda size: sized(size, module, RAISED, "void f%d() raises (e);", 40), 16_384, SHORT),
    Family("10,000 operations", "onc", ANY, lambda size: sized(min(size, len(programs(10_000))), programs)),
    Family("10,000 operations", "corba", ANY, lambda size: sized(min(size, len(interfaces(10_000))), interfaces)),
)
# What the names of a file, or its types, have many times. These are not bound where they are refused before.
FAMILIES += (
    Family("a module of a long name, over constants", "corba", CDR, lambda size: halves(size, "", "const long c%d = 1;")),
    Family("a module of a long name, over types", "corba", CDR, lambda size: halves(size, "", "typedef long t%d;"), SOME, ALL),
    Family("a module of a long name, over structs", "corba", CDR, lambda size: halves(size, "", "struct s%d { long a; };"), SOME, ALL),
    Family("a module of a long name, over exceptions", "corba", CDR, lambda size: halves(size, "", "exception e%d { };")),
    Family("a module of a long name, over the items of enums", "corba", CDR, lambda size: halves(size, "", "enum e%d { a%d, b%d, c%d };"), SOME, ALL),
    Family("a module of a long name, over names that are used", "corba", CDR, lambda size: halves(size, "typedef long t; struct s { ", "t a%d;", "};"), SOME, ALL),
    Family("a module of a long name, over scoped names that are used", "corba", CDR,
           lambda size: halves(size, "module i { typedef long t; }; struct s { ", "i::t a%d;", "};"), SOME, ALL),
    Family("a module of a long name, over constants of other names", "corba", CDR, lambda size: halves(size, "const long x = 1;", "const long c%d = x + x;")),
    Family("a module of a long name, over 62 interfaces with all before as bases", "corba", CDR,
           lambda size: sized(size, lambda letters: f"module {'m' * letters} {{ {heirs('void f();')}}};\n"), ALL, SOME),
    Family("a module of a long name, over names in an interface of 61 bases", "corba", CDR,
           lambda size: halves(max(size, 65_536), "typedef long t; " + heirs("void f();").rsplit("{ }", 1)[0] + "{ struct s { ", "t a%d;", "}; };"), SOME, SOME),
    Family("62 interfaces with all before as bases, over 256 operations of long names", "corba", CDR,
           lambda size: sized(size, lambda letters: heirs(listed(OPERATIONS, f"void {'f' * letters}%d();"))), ALL, SOME),
    Family("modules of long names within one another, over constants", "corba", CDR, nested),
    Family("an arm of 4,096 labels with an array of many lengths", "corba", CDR, lambda size: sized(max(size, 65_536), armed), NONE, ALL),
    Family("fields of one type of 30 levels", "corba", CDR, lambda size: sized(size, formed), SOME, ALL),
    Family("unions over an enum of 4,096 items", "onc", ("xdr",), lambda size: sized(max(size, 65_536), onc_unions)),
    Family("unions over an enum of 4,096 items", "corba", CDR, lambda size: sized(max(size, 65_536), corba_unions)),
    Family("structs of which each has the one before it twice, in 7 operations", "corba", ANY, lambda size: doubled(13, 7)),
    Family("structs of which each has the one before it twice, in 256 operations of 7 interfaces", "corba", ANY, lambda size: doubled(5, OPERATIONS, 7)),
    Family("structs of which each has the one before it twice, in unions within one another", "corba", ANY, lambda size: wrapped(13, 13)),
)


def files(sizes=SIZES):
    """Each family over each of its back ends, with its file of each size that is another one."""
    for family in FAMILIES:
        besides = {size for size in (family.shown, family.stubs) if 0 < size < min(sizes)}
        for back in family.backs:
            before = None
            for size in sorted({*sizes, *besides}):
                text = family.text(size)
                if text != before:
                    yield family, back, text
                before = text
