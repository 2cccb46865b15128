#!/usr/bin/env python3
"""Random files in the CORBA interface language, accepted and broken, by a seeded generator: corba_samples.py [SEED [FILES]]

A broken file has one fault or two, and its maker knows the first. Run by itself it checks the model: each accepted file
is accepted, each broken one is refused for its first fault, and each message that a line makes is read back.
"""
import random
import sys

from calls import BACKS, marshal, unmarshal
from corba_names import interfaces_of
from corba_nodes import told_of_names
from samples import request_lines

WORDS = ["count", "Name", "kind", "left", "right", "item", "Path", "node", "table", "row", "Key", "size", "mark", "Note", "page", "line",
         "file", "day", "hour", "zone", "Color", "red", "blue", "x1", "x2", "_case", "_union", "a", "b", "c", "d", "Ee"]
NUMBERS = {"short": (-2 ** 15, 2 ** 15 - 1), "unsigned short": (0, 2 ** 16 - 1), "long": (-2 ** 31, 2 ** 31 - 1), "unsigned long": (0, 2 ** 32 - 1),
           "long long": (-2 ** 63, 2 ** 63 - 1), "unsigned long long": (0, 2 ** 64 - 1), "octet": (0, 255), "char": (0, 255), "boolean": (0, 1)}
TAGS = [word for word in NUMBERS if word != "octet"]
LABELS = {"boolean": ["TRUE", "FALSE"], "char": ["'a'", "'\\n'", "0", "255"]}
LEFT_OUT = ["float", "double", "long double", "wchar", "wstring", "any", "Object"]
SMALL, MOST_INTERFACES = 40, 40


def key_of(word):
    """What two names have in common that differ in case alone."""
    return word.removeprefix("_").lower()


class Known:
    """A scope of the file that is being made: the keys that are taken in it, the names that are declared so far, and for
    an interface what it inherits: names, each with its path, and operations, each with the attribute or operation that it is."""

    def __init__(self, path, is_interface=False):
        self.path, self.is_interface, self.taken, self.declared, self.inherited, self.operations = path, is_interface, set(), set(), {}, {}

    def has(self, name):
        return name in self.declared or name in self.inherited

    def relative(self, path):
        """A path as it begins in this scope or in a base, or nothing."""
        if path[:len(self.path)] == self.path:
            return path[len(self.path):]
        return path[-1:] if self.inherited.get(path[-1]) == path and path[-1] not in self.declared else ()

    def inherit(self, base):
        """Takes what a base has that no base before it has."""
        own = {name: (*base.path, name) for name in base.declared}
        self.inherited = {**base.inherited, **own, **self.inherited}
        self.operations.update(base.operations)


class FileMaker:
    """A file with so many faults. Each type has a greatest size, so that no value grows without end."""

    def __init__(self, rng, faults=0, raises=False):
        self.rng, self.faults, self.raises = rng, faults, raises
        self.scopes, self.declarations, self.first = [Known(())], 0, None
        self.types, self.tags, self.constants, self.exceptions, self.interfaces = {}, {}, {}, [], {}

    @property
    def here(self):
        return self.scopes[-1]

    # ---- names

    def name(self, but=()):
        """A word whose key is not taken in this scope. It is declared later."""
        taken = {*self.here.taken, *self.here.operations, *but}
        free = [word for word in WORDS if key_of(word) not in taken]
        word = self.rng.choice(free) if free and self.rng.random() < 0.7 else f"n{len(self.here.taken)}x{self.declarations}"
        self.here.taken.add(key_of(word))
        return word

    def path(self, word):
        return *self.here.path, word.removeprefix("_")

    def declare(self, word):
        """Declares a name in this scope, and gives its path."""
        self.here.declared.add(word.removeprefix("_"))
        return self.path(word)

    def written(self, name):
        """A name as it is written: a word of the language needs a `_` before it, and any other may have one."""
        return f"_{name}" if f"_{name}" in WORDS or self.rng.random() < 0.05 else name

    def reference(self, path):
        """One of the ways to write a name from here: after `::`, from a scope around this one, or from a base, if nothing hides it."""
        ways = [("::", path)]
        for depth, scope in enumerate(self.scopes):
            relative = scope.relative(path)
            if relative and not any(inner.has(relative[0]) for inner in self.scopes[depth + 1:]):
                ways += [("", relative)] * 4
        lead, names = self.rng.choice(ways)
        return lead + "::".join(map(self.written, names))

    def within(self, word, make):
        """What is made in a scope of its own."""
        self.scopes.append(Known(self.path(word)))
        made = make()
        self.scopes.pop()
        return made

    # ---- constants and types

    def operand(self):
        """An operand and its number."""
        rng, known = self.rng, list(self.constants)
        form = rng.choice(["number", "number", "number", "name", "name", "character", "truth", "quotient", "group"])
        if form == "name" and known:
            path = rng.choice(known)
            return self.reference(path), self.constants[path]
        if form == "character":
            return rng.choice([("'a'", 97), ("'~'", 126), ("'\\t'", 9), ("'''", 39)])
        if form == "truth":
            return rng.choice([("TRUE", 1), ("FALSE", 0)])
        if form == "quotient":
            a, b = rng.randint(-9, 9), rng.choice([-3, -2, -1, 1, 2, 3])
            cut = abs(a) // abs(b) * (1 if a * b > 0 else -1)
            return rng.choice([(f"({a} / {b})", cut), (f"({a} % {b})", a - b * cut)])
        if form == "group" and rng.random() < 0.5:
            text, n = self.expression()
            return f"({text})", n
        n = rng.randint(0, 9)
        return rng.choice([str(n), f"0x{n:X}", f"0{n:o}"]), n

    def expression(self):
        """Operands between operators that bind and group as Python's do, and the number that they make. A shift is by 3 at most."""
        text, n = self.operand()
        number, weak, strong = f"({n})", ["|", "^", "&", "<<", ">>"], ["+", "-", "*"]
        choices = weak + strong
        for _ in range(self.rng.choice([0, 0, 0, 1, 3])):
            operator = self.rng.choice(choices)
            more, n = (str(n := self.rng.randint(0, 3)), n) if operator in ("<<", ">>") else self.operand()
            choices = weak if operator in ("<<", ">>") else weak + strong
            text, number = f"{text} {operator} {more}", f"{number} {operator} ({n})"
        n = eval(number)
        return (text, n) if abs(n) < 2 ** 60 else ("1", 1)

    def length(self):
        """A length from 1 to 4."""
        text, n = self.expression() if self.rng.random() < 0.3 else ("1", 1)
        return text if 1 <= n <= 4 else str(self.rng.randint(1, 4))

    def type(self, deep=0):
        """A type and its greatest size."""
        form = self.rng.choice(["number", "number", "text", "list", "named", "named", "named"])
        small = [path for path, size in self.types.items() if size < SMALL]
        if form == "named" and small:
            path = self.rng.choice(small)
            return self.reference(path), self.types[path]
        if form == "text":
            return self.rng.choice(["string", f"string<{self.length()}>"]), 2
        if form == "list" and deep < 2:
            element, size = self.type(deep + 1)
            return f"sequence<{element}{self.rng.choice(['', f', {self.length()}'])}>", 1 + 4 * size
        return self.rng.choice(list(NUMBERS)), 1

    def declarators(self):
        """Some declarators of one type, and each one's size, with its path."""
        written, size = self.type()
        return self.declared_as(written, size)

    def declared_as(self, written, size):
        texts, sizes = [], {}
        for _ in range(self.rng.randint(1, 2)):
            word, lengths = self.name(), [self.length() for _ in range(self.rng.choice([0, 0, 0, 1, 2]))]
            texts.append(word + "".join(f"[{length}]" for length in lengths))
            sizes[self.declare(word)] = size * 4 ** len(lengths)
        return f"{written} {', '.join(texts)}", sizes

    # ---- declarations

    def typedef(self):
        if self.rng.random() < 0.8:
            text, sizes = self.declarators()
        else:
            written = self.rng.choice([self.struct, self.enum, self.union])()
            text, sizes = self.declared_as(written, list(self.types.values())[-1])
        self.types.update(sizes)
        return f"typedef {text}"

    def members(self, least):
        """The fields of a struct or an exception, and their size."""
        made = [self.declarators() for _ in range(self.rng.randint(least, 4))]
        return " ".join(f"{text};" for text, _ in made), 1 + sum(size for _, sizes in made for size in sizes.values())

    def struct(self):
        word = self.name()
        text, size = self.within(word, lambda: self.members(1))
        self.types[self.declare(word)] = size
        return f"struct {word} {{ {text} }}"

    def exception(self):
        word = self.name()
        text, _ = self.within(word, lambda: self.members(0))
        self.exceptions.append(self.declare(word))
        return f"exception {word} {{ {text} }}"

    def enum(self):
        word, items = self.name(), [self.name() for _ in range(self.rng.randint(1, 5))]
        paths = [self.declare(item) for item in items]
        self.constants.update((path, n) for n, path in enumerate(paths))
        self.types[self.declare(word)], self.tags[self.path(word)] = 1, paths
        return f"enum {word} {{ {', '.join(items)} }}"

    def union(self):
        word = self.name()
        text, size = self.within(word, self.arms)
        self.types[self.declare(word)] = size
        return f"union {word} switch {text}"

    def labels(self, tag):
        """Different labels of a tag."""
        if tag in self.tags:
            paths = self.tags[tag]
            return [self.reference(path) for path in paths] if self.rng.random() < 0.7 else [str(n) for n in range(len(paths))]
        return LABELS.get(tag) or [*map(str, NUMBERS[tag]), "1", "1 << 3", "10 / 3"]

    def arms(self):
        """The tag and the arms of a union. No arm has a name that a label begins with, since it would hide it."""
        tag = self.rng.choice([*self.tags, *TAGS])
        shown, labels = self.reference(tag) if tag in self.tags else tag, self.labels(tag)
        chosen = self.rng.sample(labels, self.rng.randint(1, len(labels)))
        arms = [" ".join(f"case {label}:" for label in chosen[k:k + 2]) for k in range(0, len(chosen), 2)]
        arms += self.rng.choice([[], ["default:"]])
        begun, texts, greatest = {key_of(label.split(":")[0]) for label in chosen}, [], 0
        for arm in self.rng.sample(arms, len(arms)):
            written, size = self.type()
            word = self.name(begun)
            self.declare(word)
            texts.append(f"{arm} {written} {word};")
            greatest = max(greatest, size)
        return f"({shown}) {{ {' '.join(texts)} }}", 1 + greatest

    def constant(self):
        word, (text, n) = self.name(), self.expression()
        fitting = [number for number, (least, greatest) in NUMBERS.items() if least <= n <= greatest]
        fitting += [self.reference(tag) for tag, items in self.tags.items() if 0 <= n < len(items)]
        if self.rng.random() < 0.15 or not fitting:
            self.declare(word)
            return f'const string {word} = "{self.rng.choice(["", "a b", "%"])}"'
        self.constants[self.declare(word)] = n
        return f"const {self.rng.choice(fitting)} {word} = {text}"

    # ---- interfaces and modules

    def operation(self):
        word, oneway = self.name(), self.rng.random() < 0.2
        result = "void" if oneway else self.rng.choice(["void", self.type()[0]])
        text = self.within(word, lambda: self.parameters(oneway))
        self.here.operations[key_of(word)] = self.declare(word)
        return f"{'oneway ' if oneway else ''}{result} {word}{text}"

    def parameters(self, oneway):
        texts = []
        for _ in range(self.rng.randint(0, 3)):
            written, word = self.type()[0], self.name()
            texts.append(f"{self.rng.choice(['in'] if oneway else ['in', 'in', 'out', 'inout'])} {written} {word}")
            self.declare(word)
        raised = [self.reference(path) for path in self.exceptions[-2:]] if self.raises and not oneway and self.rng.random() < 0.4 else []
        return f"({', '.join(texts)})" + (f" raises ({', '.join(raised)})" if raised else "")

    def attribute(self):
        written, words = self.type()[0], [self.name() for _ in range(self.rng.randint(1, 2))]
        for word in words:
            self.here.operations.update((f"{way}{key_of(word)}", self.declare(word)) for way in ("", "_get_", "_set_"))
        return f"{self.rng.choice(['readonly ', ''])}attribute {written} {', '.join(words)}"

    def bases(self):
        """Interfaces of which no two have different operations of one key."""
        chosen, operations = [], {}
        for base in self.rng.sample(list(self.interfaces.values()), min(len(self.interfaces), self.rng.choice([0, 0, 1, 2, 3]))):
            if all(operations.get(key, path) == path for key, path in base.operations.items()):
                chosen.append(base)
                operations.update(base.operations)
        return chosen

    def interface(self):
        word, bases = self.name(), self.bases()
        head = ", ".join(self.reference(base.path) for base in bases)
        known = Known(self.declare(word), is_interface=True)
        for base in bases:
            known.inherit(base)
        self.scopes.append(known)
        body = self.some([self.operation] * 4 + [self.attribute, self.typedef, self.struct, self.enum, self.constant, self.exception], 5)
        self.scopes.pop()
        self.interfaces[known.path] = known
        return f"interface {word}{' : ' if bases else ''}{head} {{\n{body}\n}}"

    def module(self):
        word = self.name()
        self.declare(word)
        return f"module {word} {{\n{self.within(word, self.definitions)}\n}}"

    def definitions(self):
        forms = [self.typedef, self.struct, self.union, self.union, self.enum, self.constant, self.exception]
        forms += [self.interface] * 3 if len(self.interfaces) < MOST_INTERFACES else []
        return self.some(forms + [self.module] * (2 if len(self.scopes) < 4 else 0), 6)

    def some(self, forms, most):
        """Some declarations; one of them may be broken."""
        texts = []
        for _ in range(self.rng.randint(1, most)):
            self.declarations += 1
            texts.append(self.broken() if self.faults and self.rng.random() < 0.1 else self.rng.choice(forms)())
        return "\n".join(f"{text};" for text in texts)

    def text(self):
        texts = [self.definitions(), self.definitions()]
        while self.faults:
            self.declarations += 1
            texts.append(f"{self.broken()};")
        return "\n".join([*texts, ""])

    # ---- faults

    def broken(self):
        """A declaration with one fault."""
        self.faults -= 1
        forms = self.broken_types() + self.broken_names() + (self.broken_operations() if self.here.is_interface else self.broken_interfaces())
        fault, text = self.rng.choice(forms)
        self.declarations += fault == "Limit"  # the fault of the one declaration within
        self.first = self.first or f"? name {fault} {self.declarations}"
        return text

    def new(self):
        """A name that nothing else has."""
        return f"w{self.declarations}_"

    def broken_types(self):
        new = self.new()
        return [("Unknown", f"typedef missing {new}"), ("Unknown", f"struct {new} {{ ::missing::t a; }}"), ("Unknown", f"const long {new} = 1 + missing"),
                ("Unknown", f"union {new} switch (long) {{ case 1: missing a; }}"), ("Twice", f"struct {new} {{ long a; octet a; }}"),
                ("Twice", f"typedef enum {new} {{ {new}1, {new}2 }} {new}1"), ("CaseClash", f"exception {new} {{ long ab; octet aB; }}"),
                ("CaseClash", f"enum {new} {{ {new}1, {new.upper()}1 }}"), ("Range", f"typedef long {new}[1 - 1]"), ("Range", f"const octet {new} = 128 << 1"),
                ("Range", f"const long {new} = 1 << 64"), ("Range", f"const long {new} = 5 % 0"), ("Range", f'const short {new} = "a"'),
                ("Range", f"typedef sequence<string<0>> {new}"), ("Label", f"union {new} switch (boolean) {{ case 1: long a; case TRUE: long b; }}"),
                ("Label", f"union {new} switch (char) {{ case 256: long a; }}"), ("Label", f"union {new} switch (short) {{ default: long a; default: long b; }}"),
                ("OutOfScope", f"typedef {self.rng.choice(LEFT_OUT)} {new}"), ("OutOfScope", f"struct {new} {{ sequence<any> a; }}")]

    def broken_names(self):
        """Names declared again, and names of something else, by what there is so far."""
        new, declared = self.new(), sorted(self.here.declared)[:4]
        others = [*list(self.constants)[-2:], *self.exceptions[-2:], *list(self.interfaces)[-2:]]
        return [*(("Twice", f"typedef long _{name}") for name in declared),
                *(("CaseClash", f"typedef long _{name.swapcase()}") for name in declared),
                *(("NotType", f"typedef {self.reference(path)} {new}") for path in others),
                *(("NotConst", f"typedef long {new}[{self.reference(path)}]") for path in [*list(self.types)[-2:], *self.exceptions[-1:]])]

    def broken_operations(self):
        new = self.new()
        return 2 * [("Oneway", f"oneway {self.rng.choice(['long', 'missing'])} {new}()"), ("Oneway", f"oneway void {new}(in long a, inout missing b)"),
                    ("Unknown", f"void {new}(in missing a)"), ("Unknown", f"void {new}() raises (missing)"), ("Unknown", f"attribute missing {new}"),
                    ("CaseClash", f"void {new}(in long ab, out long AB)"), ("Twice", f"attribute long {new}, {new}"),
                    *(("Twice", f"void _{key}()") for key in list(self.here.operations)[:2])]

    def broken_interfaces(self):
        new, many = self.new(), ", ".join(f"a{n}" for n in range(129))
        return [("Unknown", f"interface {new} : missing {{ }}"), ("Limit", f"interface {new} {{ attribute long {many}; }}"),
                *(("NotType", f"interface {new} : {self.reference(path)} {{ }}") for path in list(self.types)[-1:])]


# ---- the self-check

def check(seed, files):
    """How many files of a seed the model answers differently from what their makers know."""
    failed = lines = 0
    for number in range(files):
        rng = random.Random(f"{seed}/{number}")
        whole, broken = FileMaker(rng, raises=rng.random() < 0.3), FileMaker(rng, faults=rng.randint(1, 2), raises=True)
        for text, maker in ((whole.text(), whole), (broken.text(), broken)):
            told = told_of_names(text.encode(), "cdr-be")
            if told != (maker.first or ""):
                failed += 1
                print(f"file {number} of seed {seed}: `{told}`, and was made to have `{maker.first}`\n{text}")
            elif not told:
                lines += lines_read_back(rng, interfaces_of(text))
    print(f"{2 * files} files, {lines} messages, {failed} files differ")
    return failed


def lines_read_back(rng, interfaces):
    """How many messages were made over each back end; each is read back and made again."""
    lines = 0
    for name, back in BACKS.items():
        for line in request_lines(rng, name, interfaces, 20) if interfaces else ():
            message = marshal(back, interfaces, line)
            if not message.startswith("!"):
                lines += 1
                assert marshal(back, interfaces, unmarshal(back, interfaces, message.encode()).encode()) == message, line
    return lines


if __name__ == "__main__":
    words = [int(word) for word in sys.argv[1:]]
    sys.exit(1 if check(*words, *[1, 200][len(words):]) else 0)
