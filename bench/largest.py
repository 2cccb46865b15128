"""Files of the greatest tables, with lines that ask for the last of a table or for what it does not have."""
import json
from collections import namedtuple

LABELS, FIELDS, INTERFACES, OPERATIONS, RAISES = 4_096, 20_000, 64, 256, 4_095
ALIKE, LONG = 1_000, 8_000

# A case: its name, a front and a back end, the text of the file, and its lines. Each is a request's record, or a reply's, and
# whether it is answered, or refused with `!`; whether its file takes long to start; and of how many values, one within another,
# an octet of a message is.
Case = namedtuple("Case", "name front back text requests replies refused is_slow levels", defaults=((), (), (), False, 1))


def spread(count, each, between=""):
    """A part of a text so many times, with its number in four digits."""
    return between.join(each.replace("%d", f"{n:04}") for n in range(count))


def onc(types, ty):
    """An ONC file of two procedures: one takes a value of the type and gives one, the other takes a list."""
    return f"{types}typedef {ty} L<>;\nprogram P {{ version V {{ {ty} ONE({ty})=1; L MANY(L)=2; }}=1; }}=7;\n"


def corba(types, ty):
    """The same of a CORBA file."""
    return f"{types}typedef sequence<{ty}> L;\ninterface P {{ {ty} ONE(in {ty} a); L MANY(in L a); }};\n"


def asked(front, element, *counts):
    """Requests and replies of a value, and of lists of so many."""
    of = "P.V" if front == "onc" else "P"
    values = [("ONE", element)] + [("MANY", "[" + ",".join([element] * count) + "]") for count in counts]
    return ([f'{{"op":"{of}.{name}","args":[{value}]}}' for name, value in values],
            [f'{{"op":"{of}.{name}","result":{value}}}' for name, value in values])


ENUM = {"onc": "enum E {" + ",".join(f"L{i:04}={i}" for i in range(LABELS)) + "};\n", "corba": "enum E { " + spread(LABELS, "L%d", ", ") + " };\n"}
BY_NUMBER = {"onc": "union U switch (int n) {" + "".join(f"case {i}: int a{i};" for i in range(LABELS)) + "};\n",
             "corba": "union U switch (long) { " + "".join(f"case {i}: long a{i}; " for i in range(LABELS)) + "};\n"}
BY_LABEL = {"onc": ENUM["onc"] + "union U switch (E n) {" + spread(LABELS, "case L%d: void;") + "};\n",
            "corba": ENUM["corba"] + "union U switch (E) { " + spread(LABELS, "case L%d: octet a%d; ") + "};\n"}
# The last procedure of a program is 0: where it is not written each back end adds it, and the nodes would be too many.
PROGRAMS = "".join(f"program P{i:02} {{ version V {{ " + "".join(f"void O{n:03}(void)={(n + 1) % OPERATIONS};" for n in range(OPERATIONS)) + f" }}=1; }}={i + 1};\n"
                   for i in range(INTERFACES))
MODULES = "".join(f"interface I{i:02} {{ " + "".join(f"void o{n:03}(); " for n in range(OPERATIONS)) + "};\n" for i in range(INTERFACES))
RAISED = spread(RAISES, "exception X%d { long a; };\n") + "interface P { void f() raises (" + spread(RAISES, "X%d", ", ") + "); };\n"
FALLS = "enum E {" + ",".join(f"L{i:04}={i}" for i in reversed(range(LABELS))) + "};\n"
ARMS_FALL = "union U switch (int n) {" + "".join(f"case {i}: int a{i};" for i in reversed(range(LABELS))) + "};\n"
DEFAULT = "union U switch (int n) {" + "".join(f"case {i}: " for i in range(LABELS)) + "int a; default: int b; };\n"
DEEP = 27
NESTED = "struct s0 { octet a; };\n" + "".join(f"struct s{n} {{ s{n - 1} a; }};\n" for n in range(1, DEEP))
ENDS = {"onc": ("onc", "xdr", onc), "corba": ("corba", "cdr-be", corba)}


def fields(order):
    """A value of all fields, in an order."""
    return "{" + ",".join(f'"f{i:05}":1' for i in order) + "}"


def cases():
    """Each file of a greatest table."""
    for front, back, file in ENDS.values():
        yield Case("the last label", front, back, file(ENUM[front], "E"), *asked(front, '"L4095"', ALIKE), refused=(asked(front, '"L4096"')[0][0],))
        yield Case("the last arm of a number", front, back, file(BY_NUMBER[front], "U"), *asked(front, '{"tag":4095,"value":1}', ALIKE),
                   refused=(asked(front, '{"tag":4096,"value":1}')[0][0],))
        element = '{"tag":"L4095"}' if front == "onc" else '{"tag":"L4095","value":1}'
        yield Case("the last arm of a label", front, back, file(BY_LABEL[front], "U"), *asked(front, element, LONG))
    yield Case("the last of labels that fall", "onc", "xdr", onc(FALLS, "E"), *asked("onc", '"L0000"', ALIKE))
    yield Case("the last of arms that fall", "onc", "xdr", onc(ARMS_FALL, "U"), *asked("onc", '{"tag":0,"value":1}', ALIKE))
    yield Case("the last label of an arm, and its default", "onc", "xdr", onc(DEFAULT, "U"), asked("onc", f'{{"tag":{LABELS - 1},"value":1}}', ALIKE)[0] + asked("onc", f'{{"tag":{LABELS},"value":1}}', ALIKE)[0])
    yield Case(f"structs within one another, {DEEP} deep", "corba", "cdr-be", corba(NESTED, f"s{DEEP - 1}"), *asked("corba", '{"a":' * DEEP + "1" + "}" * DEEP, ALIKE),
               levels=DEEP)
    yield Case("a field of 10,000 letters", "onc", "xdr", onc("struct S { int " + "f" * 10_000 + "; };\n", "S"), *asked("onc", '{"' + "f" * 10_000 + '":1}', 100))
    struct = "struct S {" + "".join(f"int f{i:05};" for i in range(FIELDS)) + "};\n"
    one = [asked("onc", fields(order)) for order in (range(FIELDS), reversed(range(FIELDS)))]
    yield Case("all fields, in order and in reverse", "onc", "xdr", onc(struct, "S"), one[0][0] + one[1][0], one[1][1])
    yield Case("a field that is not there, beside one of a long name", "onc", "xdr", onc("struct S { int " + "f" * 1_000_000 + "; };\n", "S"), refused=(asked("onc", '{"x":1}')[0][0],))
    last, beyond = f"P{INTERFACES - 1}.V.O{OPERATIONS - 1}", f"P{INTERFACES - 1}.V.O{OPERATIONS}"
    for back in ("xdr", "mach"):
        yield Case("the last operation", "onc", back, PROGRAMS, (json.dumps({"op": last}),), (json.dumps({"op": last}),), (json.dumps({"op": beyond}),), True)
    last, beyond = f"I{INTERFACES - 1}.o{OPERATIONS - 1}", f"I{INTERFACES - 1}.o{OPERATIONS}"
    yield Case("the last operation", "corba", "cdr-be", MODULES, (json.dumps({"op": last}),), (json.dumps({"op": last}),), (json.dumps({"op": beyond}),), True)
    raised = f'{{"op":"P.f","raise":"X{RAISES - 1:04}","members":{{"a":1}}}}'
    yield Case("the last exception", "corba", "cdr-be", RAISED, ('{"op":"P.f"}',), (raised,), (raised.replace(f"X{RAISES - 1:04}", f"X{RAISES:04}"),))
    yield Case("a line of one octet", "onc", "xdr", onc("", "int"), refused=("x",))
