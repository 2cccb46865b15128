"""Edited texts of stubs for `check`: such as another maker would write, such as send other octets or lack room, and such as are none."""
import copy

from stub_checks import Maker, as_sub, row_width, spot_at
from stub_texts import Stub, text_of

NUMBERS = (0, 1, 2, 3, 4, 5, 7, 8, 12, 16, 40, 44, 48, 64, 255, 256, 4095, 4096, 8191, 8192, 2 ** 31, 2 ** 32 - 2, 2 ** 32 - 1)
WORDS = ("", "0", "00", "-1", "4294967296", "1" * 50, "be", "le", ".", "..", ".0", ".0.1", ".4294967296", "end", "send", "recv x", "at", "x", "0A", "fff", " ", "\t", "\r", "default", "case 0",
         "sub 0", "sub 1", "ensure 4", "align 4", "call 0 .", "row_copy .", "patch 0 0 be", "é", "\0")
MANY = (2, 3, 30, 300, 3_000)
DEEP = (1, 2, 5, 30, 120, 126, 127, 128, 129, 140)
LONGEST = 60_000  # of lines


def blocks_of(code):
    """Each list of operations in code, the code itself first."""
    yield code
    for (word, *_), body in code:
        for inner in inner_codes(word, body):
            yield from blocks_of(inner)


def inner_codes(word, body):
    if word in ("each", "some"):
        return [body]
    return [inner for _, inner in body[0]] + [body[1]] * (body[1] is not None) if word == "switch" else []


class Editing:
    """A stub of an operation that is being edited."""

    def __init__(self, rng, request, stub):
        self.rng, self.request, self.name = rng, request, stub.name
        self.code, self.subs = copy.deepcopy(stub.code), copy.deepcopy(stub.subs)
        self.maker = Maker(rng)
        self.maker.nodes = request.nodes

    def stub(self):
        return Stub("send", self.name, self.code, self.subs)

    def block(self):
        """A block, mostly one that has operations."""
        blocks = [block for code in (self.code, *self.subs) for block in blocks_of(code)]
        return self.rng.choice([block for block in blocks if block] or blocks)

    def place(self, *words):
        """A block and a place in it at which an operation of one of the words stands, or None."""
        found = [(block, at) for code in (self.code, *self.subs) for block in blocks_of(code) for at, ((word, *_), _) in enumerate(block) if not words or word in words]
        return self.rng.choice(found) if found else None

    # ---- the same octets, written otherwise

    def cut_chunk(self):
        if found := self.place("chunk"):
            block, at = found
            (_, size), puts = block[at]
            block[at:at + 1] = self.maker.split(size, puts)

    def join_chunks(self):
        if found := self.place("chunk"):
            block, at = found
            if at + 1 < len(block) and block[at + 1][0][0] == "chunk":
                ((_, size), puts), ((_, more), others) = block[at:at + 2]
                block[at:at + 2] = [(("chunk", size + more), puts + [(put[0] + size, *put[1:]) for put in others])]

    def mix_puts(self):
        if found := self.place("chunk"):
            self.rng.shuffle(found[0][found[1]][1])

    def cut_const(self):
        if found := self.place("chunk"):
            block, at = found
            _, puts = block[at]
            consts = [n for n, put in enumerate(puts) if put[1] == "const" and len(put[2]) > 1]
            if consts:
                n = self.rng.choice(consts)
                offset, _, octets = puts[n]
                cut = self.rng.randrange(1, len(octets))
                puts[n:n + 1] = [(offset, "const", octets[:cut]), (offset + cut, "const", octets[cut:])]

    def row_as_loop(self):
        if found := self.place("row_copy", "row_swap", "row_wide"):
            block, at = found
            (word, path, *order), _ = block[at]
            width = self.rng.choice([1, 2, 4, 4, 8, row_width(self.request.nodes, spot_at(self.request.nodes, self.request.id, path), word)])
            order = {"row_copy": "little", "row_swap": "big"}.get(word) or order[0]
            block[at] = (("each", path), [(("chunk", width), [(0, "num", (), width, order)])])

    def loop_as_row(self):
        if found := self.place("each"):
            block, at = found
            (_, path), body = block[at]
            if len(body) == 1 and body[0][0][0] == "chunk":
                block[at] = (self.rng.choice([("row_copy", path), ("row_swap", path), ("row_wide", path, "big"), ("row_wide", path, "little")]), None)

    def put_nothing(self):
        block = self.block()
        block.insert(self.rng.randrange(len(block) + 1), self.rng.choice([(("chunk", 0), []), (("align", 1), None)]))

    def written_again(self):
        self.code = self.maker.again(self.request.id, self.code)

    # ---- ensures

    def insert_ensure(self):
        block = self.block()
        block.insert(self.rng.randrange(len(block) + 1), (("ensure", self.rng.choice(NUMBERS)), None))

    def insert_credit(self):
        found = self.place("each", "row_copy", "row_swap", "row_wide")
        path = found[0][found[1]][0][1] if found else ()
        block, at = found or (self.code, 0)
        op = ("ensure_row", path, self.rng.choice((0, 1, 2, 3, 4, 8, 12, 16, 24, 2 ** 32 - 1)), self.rng.choice((0, 0, 3, 4, 8, 44, 48)))
        block.insert(self.rng.randrange(at + 1), (op, None))

    def change_ensure(self):
        if found := self.place("ensure", "ensure_row"):
            block, at = found
            words, _ = block[at]
            n = self.rng.randrange(1, len(words)) if words[0] == "ensure" else self.rng.choice((2, 3))
            changed = max(0, min(2 ** 32 - 1, words[n] + self.rng.choice((-8, -4, -3, -1, -1, 1, 1, 4, 1000))))
            block[at] = ((*words[:n], changed, *words[n + 1:]), None)

    def move_ensure(self):
        if found := self.place("ensure", "ensure_row"):
            block, at = found
            op = block.pop(at)
            block.insert(max(0, min(len(block), at + self.rng.choice((-2, -1, 1, 1, 2)))), op)

    def drop_ensure(self):
        if found := self.place("ensure", "ensure_row"):
            found[0].pop(found[1])

    def ensure_each(self):
        """Code that ensures for each operation what it takes, as a plain maker would, in place of all other ensures."""
        self.code = self.ensured(self.code, self.request.id)
        self.subs = [self.ensured(code, None) for code in self.subs]

    def ensured(self, code, spot):
        found, nodes = [], self.request.nodes
        for (word, *words), body in code:
            at = spot_at(nodes, spot, words[0]) if word in ("each", "some", "switch", "row_copy", "row_swap", "row_wide") else None
            if word in ("ensure", "ensure_row"):
                continue
            if word == "chunk":
                found.append((("ensure", words[0]), None))
            elif word == "align":
                found.append((("ensure", max(0, words[0] - 1)), None))
            elif word.startswith("row"):
                found.append((("ensure_row", words[0], row_width(nodes, at, word), 0), None))
            elif word == "each":
                body = self.ensured(body, nodes[at][1] if at is not None and nodes[at][0] == "items" else None)
            elif word == "some":
                body = self.ensured(body, nodes[at][1] if at is not None and nodes[at][0] == "maybe" else None)
            elif word == "switch":
                inner = dict(nodes[at][2]) if at is not None and nodes[at][0] == "choice" else {}
                other = nodes[at][3] if inner and len(nodes[at]) > 3 else None
                body = [(n, self.ensured(each, inner.get(n, other))) for n, each in body[0]], None if body[1] is None else self.ensured(body[1], other)
            found.append(((word, *words), body))
        return found

    def ensure_some(self):
        self.code = self.maker.with_rooms(self.request.id, self.code)

    def ensure_all(self):
        """A great number first, and small ones in bodies."""
        self.code.insert(0, (("ensure", self.rng.choice((100, 10_000, 2 ** 20, 2 ** 32 - 1))), None))
        for block in blocks_of(self.code):
            if block is not self.code and self.rng.random() < 0.5:
                block.insert(0, (("ensure", self.rng.choice((0, 1, 4))), None))

    # ---- other octets, or none

    def drop_op(self):
        if found := self.place():
            found[0].pop(found[1])

    def double_op(self):
        if found := self.place():
            found[0].insert(self.rng.randrange(len(found[0]) + 1), copy.deepcopy(found[0][found[1]]))

    def move_op(self):
        if found := self.place():
            op = copy.deepcopy(found[0].pop(found[1]))
            block = self.block()
            block.insert(self.rng.randrange(len(block) + 1), op)

    def exchange_ops(self):
        if found := self.place():
            block, at = found
            other = self.rng.randrange(len(block))
            block[at], block[other] = block[other], block[at]

    def exchange_bodies(self):
        first, second = self.place("each", "some", "switch"), self.place("each", "some", "switch")
        if first and first[0][first[1]][0][0] == second[0][second[1]][0][0]:
            (one, a), (two, b) = first, second
            one[a], two[b] = (one[a][0], copy.deepcopy(two[b][1])), (two[b][0], copy.deepcopy(one[a][1]))

    def change_cases(self):
        if found := self.place("switch"):
            block, at = found
            words, (cases, other) = block[at]
            kind = self.rng.randrange(5)
            if kind == 0 and cases:
                n = self.rng.randrange(len(cases))
                cases[n] = (cases[n][0] + self.rng.choice((-1, 1, 2 ** 31)), cases[n][1])
            elif kind == 1:
                self.rng.shuffle(cases)
            elif kind == 2 and cases:
                cases.pop(self.rng.randrange(len(cases)))
            elif kind == 3:
                other = None if other is not None else copy.deepcopy(self.rng.choice(cases)[1]) if cases else []
            elif cases:
                cases.append((self.rng.choice((0, 1, 7, -1, 2 ** 127 - 1, -2 ** 127)), copy.deepcopy(self.rng.choice(cases)[1])))
            block[at] = words, (cases, other)

    def change_put(self):
        if found := self.place("chunk"):
            block, at = found
            (_, size), puts = block[at]
            kind, n = self.rng.randrange(5), self.rng.randrange(len(puts)) if puts else 0
            if kind == 0 and puts:
                puts.pop(n)
            elif kind == 1 and puts:
                puts.append(puts[n])
            elif kind == 2 and puts:
                puts[n] = (max(0, puts[n][0] + self.rng.choice((-1, 1, 4, 2 ** 31))), *puts[n][1:])
            elif kind == 3 and puts:
                puts[n] = tuple({"big": "little", "little": "big"}.get(word, word) if isinstance(word, str) else word for word in puts[n])
            else:
                block[at] = (("chunk", self.rng.choice((size + 1, max(0, size - 1), 2 ** 32 - 1, 0))), puts)

    def change_path(self):
        if found := self.place("each", "some", "switch", "row_copy", "row_swap", "row_wide", "ensure_row", "chunk"):
            block, at = found
            words, body = block[at]
            change = lambda path: self.rng.choice([(), (0,), (1,), (*path, 0), path[:-1], (*path[:-1], path[-1] + 1 if path else 0), (2 ** 32 - 1,), (0,) * 900])
            if words[0] == "chunk":
                places = [n for n, put in enumerate(body) if len(put) > 2 and isinstance(put[2], tuple)]
                if places:
                    n = self.rng.choice(places)
                    body[n] = (*body[n][:2], change(body[n][2]), *body[n][3:])
            else:
                block[at] = ((words[0], change(words[1]), *words[2:]), body)

    def call_part(self):
        if not self.subs:
            stub = as_sub(self.rng, self.request.nodes, self.request.id, self.code)
            self.code, self.subs = stub.code, stub.subs
        if self.rng.random() < 0.3:
            self.subs.append(copy.deepcopy(self.rng.choice([*self.subs, self.block()])))

    def wrap(self):
        """Blocks within one another, around nothing or around operations."""
        block, inner = self.block(), []
        at = self.rng.randrange(len(block) + 1)
        if self.rng.random() < 0.5:
            inner = [block.pop(at)] if at < len(block) else [(("chunk", 0), [])]
        for _ in range(self.rng.choice(DEEP)):
            inner = [self.rng.choice([(("some", ()), inner), (("each", ()), inner), (("each", (0,)), inner), (("switch", ()), ([], inner)), (("switch", ()), ([(0, inner)], None))])]
        block[at:at] = inner

    def repeat(self):
        if found := self.place():
            block, at = found
            some = block[at:at + self.rng.randint(1, 3)]
            block[at:at] = some * min(self.rng.choice(MANY), LONGEST // max(1, sum(1 for op in some for _ in blocks_of([op]))))


ALIKE = (Editing.cut_chunk, Editing.cut_chunk, Editing.join_chunks, Editing.mix_puts, Editing.cut_const, Editing.row_as_loop, Editing.loop_as_row, Editing.put_nothing, Editing.written_again)
ROOMS = (Editing.insert_ensure, Editing.insert_credit, Editing.change_ensure, Editing.change_ensure, Editing.move_ensure, Editing.drop_ensure, Editing.ensure_each, Editing.ensure_each,
         Editing.ensure_some, Editing.ensure_all)
OTHER = (Editing.drop_op, Editing.double_op, Editing.move_op, Editing.exchange_ops, Editing.exchange_bodies, Editing.change_cases, Editing.change_put, Editing.change_path, Editing.call_part,
         Editing.wrap, Editing.repeat)


def edited_lines(rng, text):
    """A text with a line, a word or a character that is another, or with its end cut off."""
    lines = text.split("\n")
    k, other = rng.randrange(len(lines)), rng.randrange(len(lines))
    kind = rng.randrange(8)
    if kind == 0:
        del lines[k]
    elif kind == 1:
        lines.insert(other, lines[k])
    elif kind == 2:
        lines[k], lines[other] = lines[other], lines[k]
    elif kind == 3:
        lines.insert(k, rng.choice(WORDS))
    elif kind in (4, 5):
        words = lines[k].split(" ")
        n = rng.randrange(len(words))
        words[n] = rng.choice(WORDS if kind == 4 else [str(number) for number in NUMBERS])
        lines[k] = " ".join(words)
    text = "\n".join(lines)
    if kind == 6:
        at = rng.randrange(len(text) + 1)
        text = text[:at] + chr(rng.choice((rng.randrange(256), rng.randrange(32, 127), 10, 32))) + text[at + rng.randrange(2):]
    return text[:rng.randrange(len(text) + 1)] if kind == 7 else text


def edited_stub(rng, request, stub):
    """The text of an edited stub. Most send the same octets; a few are no text."""
    editing, kind = Editing(rng, request, stub), rng.random()
    for _ in range(rng.choice((0, 1, 1, 2, 3, 6))):
        rng.choice(ALIKE)(editing)
    for _ in range(rng.choice((0, 1, 1, 2, 3))):
        rng.choice(ROOMS)(editing)
    for _ in range(rng.choice((0, 1, 1, 2)) if kind < 0.35 else 0):
        rng.choice(OTHER)(editing)
    text = text_of(editing.stub())
    return text if kind < 0.94 else edited_lines(rng, text)
