"""Files of stubs that would take long: in each a little text stands for many looks at operations. `bench/run checks` gives them to
`check`, which answers them, or is out of memory, within a time that the file's length bounds."""
import re
from collections import namedtuple

LOOPS = 127  # within one another, in a text
LENGTH = 8_388_608

# A family: its name, its interface file for ONC, and what its file of stubs begins with, from the kit's own stubs and its length.
Family = namedtuple("Family", "name file begins")

PROGRAM = "program P {{ version V {{ {} }} = 1; }} = 9;\n"


def lists(item, bound=8192, levels=4):
    """A file whose operation has lists of lists of an item."""
    names = [item] + [f"l{n}" for n in range(levels)]
    return "".join(f"typedef {a} {b}<{bound}>;\n" for a, b in zip(names, names[1:])) + PROGRAM.format(f"void F({names[-1]}) = 1;")


def union(arms):
    """A file whose operation has lists of a union, its arms in falling order."""
    cases = "".join(f"case {n}: void; " for n in range(arms, 0, -1))
    return f"union u switch (int d) {{ {cases}default: void; }};\n" + lists("u", levels=3)


def struct(depth):
    """A file whose operation has lists of a list that is deep in structs."""
    return "typedef int s0<8>;\n" + "".join(f"struct s{n + 1} {{ s{n} f; }};\n" for n in range(depth)) + lists(f"s{depth}", levels=3)


def rich(own, inside=""):
    """The kit's stub with much room at its beginning alone, and lines at the beginning of its innermost loop."""
    name, rest = own.split("\n", 1)
    rest = re.sub(r"^ensure(_row)? .*\n", "", rest, flags=re.MULTILINE)
    at = rest.rindex("\neach ") + 1
    at = rest.index("\n", at) + 1
    return f"{name}\nensure 4294967295\n{rest[:at]}{inside}{rest[at:]}"


def nested(lines, own):
    """Lines in as many loops as may be within one another."""
    return own.split("\n", 1)[0] + "\n" + "each .\n" * LOOPS + lines + "end\n" * LOOPS + "end\n"


def filled(line, size):
    """A line as often as it goes into so many octets."""
    return line * (size // len(line))


def called(count):
    """Codes of which each calls the one before it."""
    return f"call {count - 1} .\n" + "".join(f"sub {n}\n" + f"call {n - 1} .\n" * (n > 0) + "end\n" for n in range(count))


def texts(own, size):
    """As many texts without an operation."""
    return filled(own.split("\n", 1)[0] + "\nend\n", size)


FIELDS = PROGRAM.format("void F(s) = 1;")
FAMILIES = (
    Family("a row in loops of 8,192 turns", lists("int"), lambda own, size: rich(own)),
    Family("a row in loops, in many texts", lists("int", 8192, 2), lambda own, size: filled(rich(own), size)),
    Family("strings in loops of 8,192 turns", lists("t", levels=3).replace("typedef t ", "typedef string t<9>;\ntypedef t ", 1), lambda own, size: rich(own)),
    Family("many ensures in loops of 8,192 turns", lists("int"), lambda own, size: rich(own, filled("ensure 1\n", size // 2))),
    Family("a union of 4,000 arms in loops of 8,192 turns", union(4_000), lambda own, size: rich(own)),
    Family("a union of 4,000 arms in loops without end", union(4_000).replace("<8192>", "<>"), lambda own, size: rich(own)),
    Family("loops without end, each with an ensure", lists("int", ""), lambda own, size: rich(own, "ensure 1\n")),
    Family("a list deep in structs in loops of 8,192 turns", struct(20), lambda own, size: rich(own)),
    Family("aligns in loops", lists("int"), lambda own, size: nested(filled("align 8\n", size - 2_000), own)),
    Family("rows in loops", lists("int"), lambda own, size: nested(filled("row_copy .\n", size - 2_000), own)),
    Family("loops beside one another in loops", lists("int"), lambda own, size: nested(filled("each .\nend\n", size - 2_000), own)),
    Family("loops, in many texts", lists("int"), lambda own, size: filled(nested("align 8\n", own), size)),
    Family("a row in one loop, in many texts", lists("int"), lambda own, size: filled(own.split("\n", 1)[0] + "\neach .\nrow_copy .\nend\nend\n", size)),
    Family("a chain of calls", lists("int"), lambda own, size: own.split("\n", 1)[0] + "\n" + called(size // 32) + "end\n"),
    Family("a long path in loops", lists("int"), lambda own, size: nested("row_copy " + filled(".0", size - 2_000) + "\n", own)),
    Family("empty texts beside a small stub", lists("int"), texts),
    Family("empty texts beside a large stub", "struct s { " + "".join(f"int a{n}<8>; " for n in range(20_000)) + "};\n" + FIELDS, texts),
    Family("empty texts beside the last of 12,800 operations",
           "".join(f"program P{p} {{ version V {{ {''.join(f'void F{n}(int) = {n};' for n in range(200))} }} = 1; }} = {p};\n" for p in range(64)),
           lambda own, size: filled("send P63.V.F199\nend\n", size)),
    Family("empty texts of no operation",
           "".join(f"program P{p} {{ version V {{ {''.join(f'void F{n}(int) = {n};' for n in range(200))} }} = 1; }} = {p};\n" for p in range(64)),
           lambda own, size: filled("send P63.V.G\nend\n", size)),
)


def stubs(family, own, size=LENGTH):
    """The family's file of stubs: behind what it begins with stands a text that receives, which is passed over."""
    text = family.begins(own, size - 11)
    return text + "recv P.V.F\n" + filled("\n", size - len(text) - 11)
