"""The text of stub code (docs/STUBS.md): read strictly, and written again.

A code is a list of operations, and one is a pair of its words and its body: nothing; a list of puts or gets; a code; or
for `switch` a pair of its cases, which are pairs of a number and a code, and its default, a code or None. Words are those
of the line, with numbers as ints, paths as tuples, orders as `big` and `little`, and digits as octets. As all of the model
it is written from docs/, with nothing of the crates in it.
"""
import re
from collections import namedtuple

# A stub: `kind` is `send` or `recv`, `subs` are the codes that its calls number.
Stub = namedtuple("Stub", "kind name code subs")

# The words of a line after its first: a number, a case, a path, an order, digits, the field of a head, what octets may be.
FORMS = {
    "send": {"ensure": "n", "ensure_row": "pnn", "align": "n", "row_copy": "p", "row_swap": "p", "row_wide": "po", "call": "np", "patch": "nno",
             "chunk": "n", "each": "p", "switch": "p", "some": "p"},
    "recv": {"need": "n", "need_row": "pnn", "skip": "na", "desc": "pnnn", "row": "po", "row_wide": "po", "call": "np",
             "take": "n", "each": "p", "switch": "p", "some": "p"},
}
PARTS = {
    "send": {"num": "pno", "tag": "pno", "flag": "pno", "count": "pnnno", "short": "pnnn", "const": "x", "head": "fno"},
    "recv": {"num": "pno", "tag": "pno", "flag": "pno", "count": "pnnno", "const": "x"},
}
OF_PARTS, OF_CODE = ("chunk", "take"), ("each", "some")
NUMBER = r"(?:0|[1-9][0-9]*)"
WORDS = {"n": NUMBER, "c": rf"(?:{NUMBER}|-[1-9][0-9]*)", "p": rf"(?:\.|(?:\.{NUMBER})+)", "o": "(?:be|le)", "x": "(?:[0-9a-f]{2})*",
         "f": "(?:id|remote|local)", "a": "(?:any|zero)"}
ORDERS = {"be": "big", "le": "little"}
ENDS = {order: word for word, order in ORDERS.items()}
GREATEST, LONGEST_NUMBER = 2 ** 32 - 1, 40
CASES = range(-2 ** 127, 2 ** 127)
DEEPEST = 128  # how deep blocks are nested at most


class NoStub(Exception):
    """A text that is no text of stubs, and its first line that does not belong."""


def meant(form, word):
    """A word of a line."""
    if not re.fullmatch(WORDS[form], word) or form in "nc" and len(word) > LONGEST_NUMBER:
        raise NoStub(f"the word {word!r}")
    if form == "p":
        return tuple(meant("n", field) for field in word[1:].split(".")) if word != "." else ()
    value = {"n": int, "c": int, "o": ORDERS.get, "x": bytes.fromhex}.get(form, str)(word)
    if form == "n" and value > GREATEST or form == "c" and value not in CASES:
        raise NoStub(f"the number {word}")
    return value


def words_of(forms, words):
    """The words of a line by their forms."""
    if len(forms) != len(words):
        raise NoStub(f"{len(words)} words in place of {len(forms)}")
    return tuple(map(meant, forms, words))


class Reading:
    """The lines of a text from a place on."""

    def __init__(self, lines, place=0):
        self.lines, self.place, self.levels = lines, place, 0

    def peek(self):
        """The first word of the next line."""
        if self.place == len(self.lines):
            raise NoStub("an end of the text")
        return self.lines[self.place].split(" ")[0]

    def line(self):
        self.place += 1
        return self.lines[self.place - 1].split(" ")

    def must(self, *words):
        wanted = " ".join(words)
        if self.place == len(self.lines) or " ".join(self.line()) != wanted:
            raise NoStub(f"no {wanted!r}")

    def parts(self, kind):
        """The puts or gets of a chunk or take: an offset, a word and others each."""
        found = []
        while self.peek() == "at":
            words = self.line()
            if len(words) < 3 or words[2] not in PARTS[kind]:
                raise NoStub(f"{' '.join(words)!r}")
            _, offset, word, *others = words
            found.append((meant("n", offset), word, *words_of(PARTS[kind][word], others)))
        self.must("end")
        return found

    def cases(self, kind):
        """The cases of a switch, and its default."""
        found, other = [], None
        while self.peek() == "case":
            (number,) = words_of("c", self.line()[1:])
            found.append((number, self.code(kind)))
        if self.peek() == "default":
            self.must("default")
            other = self.code(kind)
        self.must("end")
        return found, other

    def code(self, kind):
        """The operations up to a line that is none."""
        found = []
        while self.peek() in FORMS[kind]:
            first, *others = self.line()
            found.append(((first, *words_of(FORMS[kind][first], others)), self.body(kind, first)))
        return found

    def body(self, kind, first):
        if first not in (*OF_PARTS, *OF_CODE, "switch"):
            return None
        self.levels += 1
        if self.levels > DEEPEST:
            raise NoStub("blocks that are nested too deep")
        if first in OF_CODE:
            found = self.code(kind)
            self.must("end")
        else:
            found = self.cases(kind) if first == "switch" else self.parts(kind)
        self.levels -= 1
        return found

    def stub(self):
        kind = self.peek()
        if kind not in FORMS or " " not in self.lines[self.place]:
            raise NoStub(f"{kind!r} where a stub begins")
        name = " ".join(self.line()[1:])
        code, subs = self.code(kind), []
        while self.peek() == "sub":
            self.must("sub", str(len(subs)))
            subs.append(self.code(kind))
            self.must("end")
        self.must("end")
        return Stub(kind, name, code, subs)


def stubs_of(text):
    """The stubs of a text."""
    if text and not text.endswith("\n"):
        raise NoStub("a last line without an end")
    reading, stubs = Reading(text.split("\n")[:-1]), []
    try:
        while reading.place < len(reading.lines):
            stubs.append(reading.stub())
    except NoStub as fault:
        raise NoStub(f"line {reading.place}: {fault}") from None
    return stubs


# ---- written

def word_of(word):
    if isinstance(word, tuple):
        return "".join(f".{n}" for n in word) or "."
    return word.hex() if isinstance(word, bytes) else ENDS.get(word, str(word))


def line_of(words):
    return " ".join(map(word_of, words))


def lines_of(code):
    for words, body in code:
        yield line_of(words)
        if words[0] in OF_PARTS:
            yield from (line_of(("at", *part)) for part in body)
        elif words[0] == "switch":
            for number, inner in body[0]:
                yield f"case {number}"
                yield from lines_of(inner)
            if body[1] is not None:
                yield "default"
                yield from lines_of(body[1])
        elif words[0] in OF_CODE:
            yield from lines_of(body)
        if body is not None:
            yield "end"


def text_of(stub):
    """The text of a stub."""
    lines = [f"{stub.kind} {stub.name}", *lines_of(stub.code)]
    for k, code in enumerate(stub.subs):
        lines += [f"sub {k}", *lines_of(code), "end"]
    return "".join(f"{line}\n" for line in [*lines, "end"])
