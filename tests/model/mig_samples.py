#!/usr/bin/env python3
"""Random files in the interface language of MIG, by a seeded generator: accepted ones with what they offer, and broken
ones with the line with which they are refused.

`tests/model/mig_samples.py [--seed N] [--files N]` compares the model's reader (mig.py) with them.
"""
import argparse
import random
import sys

from mig import BITS, GREATEST_ID, KNOWN, PORT, PROGRAM, REPLY_IDS, VERSION, WORDS, offered, told_of_file

NUMBER, ROW = "number", "row"
IMPORTS = ("import", "uimport", "simport")
KEPT = ("unsigned", "MACH_MSG_TYPE_COPY_SEND")  # known names that are not declared again, so that there is a number and a port
PARAMETERS = ["a", "A", "b", "int", "zeta", "_x", "f0", "t0", "a1", "Ports"]
BLANKS = [" "] * 12 + ["\n", "\n", "\t", "\r\n", "  ", " /* x */ ", "/*\n*/", "\n# 7 \"a.defs\"\n", "\n\t#line 3\n"]
UNREADABLE = ["@", "~", "'a'", "\"", "089", "0x", "\\", "!"]
UNREAD = ["{", "}", "::", "&", "|", "%", ">>", "="]


def number(rng, n):
    return rng.choice([str(n), str(n), hex(n), f"0{n:o}"])


def expression(rng, n, depth=3):
    """The tokens of an expression of a value from 0 on."""
    if depth == 0 or rng.random() < 0.6:
        return [number(rng, n)]

    def inner(m):
        return ["(", *expression(rng, m, depth - 1), ")"]

    k = rng.randint(1, 9)
    return rng.choice([inner(n), [*inner(n + k), "-", number(rng, k)], [*inner(n // k), "*", number(rng, k), "+", number(rng, n % k)],
                       [*inner(n * k + rng.randrange(k)), "/", number(rng, k)], [number(rng, n + k), "-", *inner(k)]])


class FileMaker:
    """A file, statement by statement, each a list of tokens; and what it offers."""

    def __init__(self, rng):
        self.rng = rng
        self.name, self.slots = rng.choice(["s", "Calc", "_", "int", "f0"]), 0
        # What each name stands for: a port, a number or a row, how it is referred to, and its bits.
        self.types = {name: (PORT if kind == PORT else NUMBER, kind, BITS[kind]) for name, kind in KNOWN.items()}
        self.declared, self.routines = [], []
        self.shown_types, self.shown_operations = [], []
        self.statements = [[]]
        self.subsystem(rng.choice([0, 1, 500]))

    def subsystem(self, base):
        self.base = base
        self.statements[0] = ["subsystem", self.name, *expression(self.rng, base)]

    def add(self, most):
        """So many statements at most."""
        makers = [self.type] * 4 + [self.routine] * 4 + [self.skip, self.prefix, self.imported]
        for _ in range(self.rng.randint(0, most)):
            self.statements.append(self.rng.choice(makers)())

    def take_last_ids(self):
        """Makes the base so great that no id is left."""
        self.subsystem(GREATEST_ID - REPLY_IDS - self.slots)

    def offers(self):
        return [*self.shown_types, f"interface {self.name} program {PROGRAM} version {VERSION} base {self.base}", *self.shown_operations]

    def named(self, *sorts):
        """The name of a type of one of these sorts."""
        return self.rng.choice([name for name, (sort, _, _) in self.types.items() if sort in sorts])

    # -- statements

    def type(self):
        rng = self.rng
        known = [name for name in KNOWN if name not in self.declared and name not in KEPT]
        name = rng.choice(known) if known and rng.random() < 0.15 else f"t{len(self.declared)}"
        meaning, meant = self.rng.choice([self.alias, self.sized, self.row, self.row])()
        sort, text, bits = meant
        if sort != PORT:
            self.shown_types.append(f"type {name} = {text}")
        self.types[name] = (sort, name, bits)
        self.declared.append(name)
        return ["type", name, "=", *meaning]

    def alias(self):
        name = self.named(PORT, NUMBER, NUMBER, ROW)
        return [name], self.types[name]

    def sized(self):
        name = self.named(PORT, NUMBER)
        return ["(", name, ",", *expression(self.rng, self.types[name][2]), ")"], self.types[name]

    def row(self):
        element, n = self.named(NUMBER), self.rng.choice([1, 2, 4, 17, 4096])
        meaning = self.row_of(n, element)
        return meaning, (ROW, f"{'list' if meaning[2] == '*' else 'array'} {n} of {self.types[element][1]}", None)

    def row_of(self, n, element):
        word, star = self.rng.choice([("array", []), ("struct", []), ("array", ["*", ":"])])
        return [word, "[", *star, *expression(self.rng, n), "]", "of", element]

    def skip(self):
        self.slots += 1
        return ["skip"]

    def prefix(self):
        return [self.rng.choice(["userprefix", "serverprefix"]), self.rng.choice(["u_", "int", "t0"])]

    def imported(self):
        return [self.rng.choice(IMPORTS), self.rng.choice(["<mach/std_types.defs>", "\"a b.h\"", "<>", "</*>"])]

    def routine(self):
        rng, name = self.rng, f"{self.rng.choice('fF')}{len(self.routines)}"
        oneway = rng.random() < 0.3
        port, *names = rng.sample(PARAMETERS, rng.randint(1, 6))
        parameters, ins, outs = [[*rng.choice([[], ["requestport"], ["in"]]), port, ":", self.named(PORT)]], [], []
        for parameter in names:
            way, of = rng.choice([[], ["in"]] if oneway else [[], ["in"], ["out"], ["inout"]]), self.named(NUMBER, ROW)
            parameters.append([*way, parameter, ":", of])
            ins += [self.types[of][1]] if way != ["out"] else []
            outs += [self.types[of][1]] if way in (["out"], ["inout"]) else []
        self.shown_operations.append(f"op {name} proc {len(self.routines) + 1} slot {self.slots} ({', '.join(ins)}) -> "
                                     f"({', '.join(['void', *outs])}){' oneway' if oneway else ''}")
        self.slots += 1
        self.routines.append(name)
        return self.called("simpleroutine" if oneway else "routine", name, parameters)

    def called(self, word, name, parameters):
        return [word, name, "(", *[token for parameter in parameters for token in [";", *parameter]][1:], ")"]

    # -- statements with a fault, whose names no other statement has

    def faulty(self):
        """A statement, and the fault of a name in it."""
        faults = {"Unknown": self.unknown, "Twice": self.twice, "Range": self.out_of_range, "OutOfScope": self.left_out,
                  "Oneway": self.oneway, "Port": self.port}
        fault = self.rng.choice(list(faults))
        return self.rng.choice(faults[fault]()), fault

    def defined(self, *meaning):
        return ["type", "this", "=", *meaning]

    def parameter(self, name, of, *ways):
        return [*([way] if (way := self.rng.choice(ways or [""])) else []), name, ":", of]

    def server(self):
        return self.parameter("p", self.named(PORT))

    def data(self):
        return self.named(NUMBER, ROW)

    def nowhere(self):
        return self.rng.choice(["nowhere", "Int", "this", f"{self.name}_"])

    def unknown(self):
        name, n = self.nowhere(), self.rng.randint(1, 9)
        return [self.defined(name), self.defined("(", name, ",", "32", ")"), self.defined(*self.row_of(n, name)),
                self.called("routine", "g", [self.parameter("p", name)]),
                self.called("routine", "g", [self.server(), self.parameter("a", name, "", "in", "out")])]

    def twice(self):
        names = self.rng.choice([self.data, self.nowhere])()
        a, b = self.parameter("a", self.data()), self.parameter("b", self.data())
        return [self.called("routine", "g", [self.server(), self.parameter("p", names, "", "out")]),
                self.called("routine", "g", [self.server(), a, b, self.parameter("a", names, "", "inout")]),
                *(["type", name, "=", names] for name in self.declared[-1:]),
                *(self.called("simpleroutine", name, [self.parameter("p", names)]) for name in self.routines[-1:])]

    def out_of_range(self):
        name, greatest = self.named(NUMBER), str(2 ** 127 - 1)
        bits = self.types[name][2]
        return [self.defined(*self.row_of(self.rng.choice([0, 2 ** 32, 2 ** 64]), self.rng.choice([name, self.nowhere()]))),
                self.defined("array", "[", "1", "/", "(", "2", "-", "2", ")", "]", "of", name),
                self.defined("array", "[", greatest, "+", "1", "-", greatest, "]", "of", name),
                self.defined("(", name, ",", *expression(self.rng, self.rng.choice([0, bits - 1, bits + 1, 2 ** 32 + bits])), ")")]

    def left_out(self):
        rows = [name for name, (sort, _, _) in self.types.items() if sort == ROW]
        return [self.defined(*self.row_of(self.rng.randint(1, 9), self.rng.choice([self.named(PORT), *rows]))),
                self.called("routine", "g", [self.server(), self.parameter("a", self.named(PORT), "", "in", "out")]),
                *(self.defined("(", name, ",", self.rng.choice(["0", "32"]), ")") for name in rows[-1:])]

    def oneway(self):
        later = self.parameter(self.rng.choice("pa"), self.rng.choice([self.data(), self.nowhere()]), "out", "inout")
        return [self.called("simpleroutine", "g", [self.server(), later]), self.called("simpleroutine", "g", [["out", *self.server()]])]

    def port(self):
        of = self.rng.choice([self.data(), self.named(PORT), self.nowhere()])
        return [self.called("simpleroutine", "g", [self.parameter("a", self.data(), "", "requestport"), self.server()]),
                self.called("routine", "g", [self.server(), self.parameter(self.rng.choice("pa"), of, "requestport")])]


# ---- texts

def is_part_of_word(text):
    return text.isalnum() or text == "_"


def spelled(rng, tokens, before=""):
    """Tokens with blanks and comments between them, and words in any case, after a text."""
    text, last = before, ""
    for token in tokens:
        needed = is_part_of_word(text[-1:]) and is_part_of_word(token[0])
        if last in IMPORTS:
            text += " "  # how far a file's name may be from its word is a matter of tests/files/mig.json
        elif needed or rng.random() < 0.4:
            text += rng.choice(BLANKS) if rng.random() < 0.5 else " "
        text += rng.choice([token, token, token.upper(), token.capitalize()]) if token in WORDS else token
        last = token
    return text


def written(rng, statements, before=""):
    return spelled(rng, [token for statement in statements for token in [*statement, ";"]], before)


def accepted(rng):
    """The text of a file, and what it offers."""
    maker = FileMaker(rng)
    maker.add(12)
    if rng.random() < 0.2:
        maker.take_last_ids()
    return (written(rng, maker.statements) + rng.choice(["", "\n"])).encode(), maker.offers()


def broken(rng):
    """The text of a file with a fault, after which there may be more statements; and the line with which it is refused."""
    maker = FileMaker(rng)
    maker.add(6)
    how = rng.choice([misnamed] * 5 + [misnumbered, unfinished, misread, unreadable, left_open])
    text, answer = how(rng, maker)
    return text.encode(), answer


def later(rng, maker, text):
    """A text with statements after it."""
    count = len(maker.statements)
    maker.add(3)
    return written(rng, maker.statements[count:], text)


def misnamed(rng, maker):
    statement, fault = maker.faulty()
    maker.statements.append(statement)
    answer = f"? name {fault} {len(maker.statements)}"
    return later(rng, maker, written(rng, maker.statements)), answer


def misnumbered(rng, maker):
    """A subsystem whose base is out of range, or a statement that takes one id too many."""
    if rng.random() < 0.3:
        maker.subsystem(rng.choice([GREATEST_ID - REPLY_IDS + 1, 2 ** 32, 2 ** 64]))
        return written(rng, maker.statements), "? name Range 1"
    maker.take_last_ids()
    maker.statements.append(rng.choice([maker.skip, maker.routine])())
    answer = f"? name Range {len(maker.statements)}"
    return later(rng, maker, written(rng, maker.statements)), answer


def began(rng, maker):
    """What is written before the last statement, that statement, and the line where it begins."""
    before = written(rng, maker.statements[:-1]) + rng.choice(["", " ", "\n", "\r\n\n", "/*\n*/"])
    return before, maker.statements[-1], 1 + before.count("\n")


def unfinished(rng, maker):
    """A statement without its end."""
    before, statement, line = began(rng, maker)
    cut = statement[:rng.randint(1, len(statement))]
    return later(rng, maker, spelled_here(rng, cut, before) + "\n"), f"? syntax {line}"


def misread(rng, maker):
    """A statement with a mark in the place of a token where it has none."""
    before, statement, line = began(rng, maker)
    place = 1 if statement[0] in IMPORTS else rng.randrange(len(statement))  # without its word a file's name is read otherwise
    mark = rng.choice([mark for mark in UNREAD if mark != statement[place]])
    return later(rng, maker, spelled_here(rng, [*statement[:place], f" {mark} ", *statement[place + 1:], ";"], before)), f"? syntax {line}"


def spelled_here(rng, tokens, before):
    """Tokens the first of which follows a text at once."""
    return spelled(rng, tokens[1:], before + tokens[0])


def unreadable(rng, maker):
    """A file with an octet, or digits, that begin no token."""
    text = written(rng, maker.statements) + rng.choice([" ", "\n", "\t"])
    return later(rng, maker, text + rng.choice(UNREADABLE) + " "), f"? lex BadOctet {len(text)}"


def left_open(rng, maker):
    """A file with an open comment, or a directive; an open comment is the last of the file's."""
    text = written(rng, maker.statements)
    if rng.random() < 0.5:
        return f"{text}/*{rng.choice(['', '/', ' x;', '* /'])}", f"? lex OpenComment {len(text)}"
    text += rng.choice(["\n", "\n \t"])
    return later(rng, maker, f"{text}#{rng.choice(['define A 1', '', ' include <a>'])}\n"), f"? lex Directive {len(text)}"


def checked(seed, files):
    """A name, an answer and the model's, for each file of a seed: accepted ones, and as many broken ones."""
    for n in range(files):
        text, offers = accepted(random.Random(f"{seed}/{n}"))
        answer = told_of_file(text)
        yield f"accepted file {n} of seed {seed}", offers, answer or offered(text)
        text, answer = broken(random.Random(f"{seed}/broken/{n}"))
        yield f"broken file {n} of seed {seed}", answer, told_of_file(text)


def main():
    parser = argparse.ArgumentParser()
    parser.add_argument("--seed", type=int, default=1)
    parser.add_argument("--files", type=int, default=1000)
    words = parser.parse_args()
    failed = 0
    for name, wanted, told in checked(words.seed, words.files):
        failed += told != wanted
        if told != wanted:
            print(f"{name}: the generator says {wanted}, the model {told}")
    print(f"{words.files} accepted files and as many broken ones, {failed} differ")
    return 1 if failed else 0


if __name__ == "__main__":
    sys.exit(main())
