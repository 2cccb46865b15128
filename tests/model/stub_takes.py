#!/usr/bin/env python3
"""Receive code with neighbouring tests as one and neighbouring takes as one (docs/STUBS.md), a second reading of the pass, and
what it promises: stub_takes.py [SEED [TYPES]]

Code has the form of stub_texts.py, values and nodes that of nodes.py. As all of the model it is written from docs/, with
nothing of the crates in it.
"""
import random
import sys

from making import made
from nodes import sent
from stub_chunks import UNKNOWN, Phase, aligned, bodies_of, gap, is_known, meet, moved, shift
from stub_runs import WHOLE_WIDTHS, Draft, Not, Receiving, Undefined
from stub_texts import Stub, stubs_of, text_of

STARTS = {"xdr": Phase(4, 0), "cdr_big": UNKNOWN, "cdr_little": UNKNOWN, "mach": Phase(4, 0)}  # where a value may begin

MOST = 7  # tests and skips that stand together
TOGETHER = ("need", "skip", "take")
OPEN_ENDED = ("desc", "row", "call")


# ---- phases

def looped(phase, body):
    """The phase before each turn of a loop, and after it."""
    return meet(phase, leave(UNKNOWN, body))


def ends(phase, bodies):
    end = None
    for body in bodies:
        after_body = leave(phase, body)
        end = after_body if end is None else meet(end, after_body)
    return end or UNKNOWN


def after(phase, word, words, body):
    """The phase after an operation."""
    if word == "take":
        return shift(phase, words[0])
    if word == "skip":
        return aligned(phase, words[0])
    if word == "row_wide":
        return meet(phase, shift(phase, 4))
    if word in OPEN_ENDED:
        return UNKNOWN
    if word == "each":
        return looped(phase, body)
    if word == "some":
        return meet(phase, leave(phase, body))
    if word == "switch":
        return ends(phase, bodies_of(body))
    return phase


def leave(phase, code):
    for (word, *words), body in code:
        phase = after(phase, word, words, body)
    return phase


# ---- the pass

class Joining:
    """A code in the making: where it is, and the take that is open, with the octets that are tested for it."""

    def __init__(self, phase):
        self.done, self.phase, self.size, self.gets, self.seen = [], phase, 0, [], 0

    def close(self):
        if self.seen:
            self.done.append((("need", self.seen), None))
        if self.size or self.gets:
            self.done.append((("take", self.size), self.gets))
        self.size, self.gets, self.seen = 0, [], 0

    def test(self, octets):
        """So many octets behind the open take; none need no test."""
        if octets:
            self.seen = max(self.seen, self.size + octets)

    def put(self, word, words, body):
        if word == "need":
            self.test(words[0])
        elif word == "take":
            self.gets += [moved(get, self.size) for get in body]
            self.size += words[0]
        elif word == "skip" and words[0] not in WHOLE_WIDTHS:
            # no multiple: the run ends here, as it does at a number of no width
            self.gets.append((self.size, "num", (), words[0], "big"))
        elif word == "skip" and is_known(self.phase, words[0]):
            octets = gap(self.phase.r, words[0])
            self.test(octets)
            if octets and words[1] == "zero":
                self.gets.append((self.size, "const", bytes(octets)))
            self.size += octets
        else:
            self.close()
            self.done.append(((word, *words), self.inner(word, body)))
        self.phase = after(self.phase, word, words, body)

    def inner(self, word, body):
        if word == "each":
            return joined(looped(self.phase, body), body)
        if word == "some":
            return joined(self.phase, body)
        if word == "switch":
            cases, other = body
            return [(n, joined(self.phase, inner)) for n, inner in cases], joined(self.phase, other) if other is not None else None
        return body


def joined(phase, code):
    run = Joining(phase)
    for (word, *words), body in code:
        run.put(word, words, body)
    run.close()
    return run.done


# ---- what it promises

def skeleton(code):
    """Code without its needs, skips and takes."""
    def inner(word, body):
        if word in ("each", "some"):
            return skeleton(body)
        if word == "switch":
            return [(n, skeleton(b)) for n, b in body[0]], skeleton(body[1]) if body[1] is not None else None
        return body
    return [((word, *words), inner(word, body)) for (word, *words), body in code if word not in TOGETHER]


def longest_run(code):
    """The most needs and skips among neighbouring needs, skips and takes, in bodies too."""
    most = run = 0
    for (word, *_), body in code:
        run = run + (word != "take") if word in TOGETHER else 0
        most = max(most, run)
        if word in ("each", "some"):
            most = max(most, longest_run(body))
        if word == "switch":
            most = max([most, *map(longest_run, bodies_of(body))])
    return most


def told(nodes, id, code, octets, at, near):
    """How a run ends: what it gives with the place, what is near and the tests; None where it refuses; or that it strays."""
    run, draft = Receiving(octets, at, []), Draft(nodes, id)
    run.near = near
    try:
        run.run(code, draft)
        return draft.settled(), run.at, run.near, run.tests
    except Not:
        return None
    except (Undefined, IndexError, KeyError, AttributeError):
        return "strays"


def broken(nodes, id, given, code, octets, at, near):
    """What the pass promises and does not keep, on the octets from one place on."""
    old, new = told(nodes, id, given, octets, at, near), told(nodes, id, code, octets, at, near)
    if old == "strays":
        return []
    if old is None or new is None or new == "strays":
        return [] if old == new else [f"{new} in place of {old}"]
    wrong = [f"{new[:3]} in place of {old[:3]}"] if old[:3] != new[:3] else []
    return wrong + ([f"{new[3]} tests above {old[3]}"] if new[3] > old[3] else [])


def varied(rng, code, times):
    """Code with a few of its tests, skips and takes changed; most of such codes do not stray."""
    def inner(word, body):
        if word in ("each", "some"):
            return varied(rng, body, times)
        if word == "switch":
            return [(n, varied(rng, b, times)) for n, b in body[0]], varied(rng, body[1], times) if body[1] is not None else None
        return body
    done = []
    for (word, *words), body in code:
        if rng.random() < times:
            done.append(rng.choice([(("need", rng.randrange(12)), None), (("skip", rng.choice(WHOLE_WIDTHS), rng.choice(("any", "zero"))), None),
                                    (("take", rng.randrange(3)), []), (("skip", 3, "any"), None), (("need", 0), None)]))
        if word == "take" and rng.random() < times:
            cut = rng.randrange(words[0] + 1)
            done += [(("take", cut), [get for get in body if get[0] < cut]), (("need", words[0] - cut), None),
                     (("take", words[0] - cut), [(get[0] - cut, *get[1:]) for get in body if get[0] >= cut])]
            continue
        if word == "need" and rng.random() < times:
            words = [max(0, words[0] + rng.randrange(-2, 5))]
        done.append(((word, *words), inner(word, body)))
    return done


CODES = (
    # two numbers: one test and one take
    ((4, 0), "need 4\ntake 4\nat 0 num .0 4 be\nend\nneed 4\ntake 4\nat 0 num .1 4 be\nend\n",
     "need 8\ntake 8\nat 0 num .0 4 be\nat 4 num .1 4 be\nend\n"),
    # padding at a known place is passed, and zeros are tested
    ((4, 0), "need 1\ntake 1\nat 0 flag . 1 be\nend\nskip 4 any\nneed 4\ntake 4\nat 0 const 01020304\nend\n",
     "need 8\ntake 8\nat 0 flag . 1 be\nat 4 const 01020304\nend\n"),
    ((4, 0), "need 1\ntake 1\nat 0 flag . 1 be\nend\nskip 4 zero\n", "need 4\ntake 4\nat 0 flag . 1 be\nat 1 const 000000\nend\n"),
    # what is not tested needs no test, and a test of nothing is none
    ((4, 0), "take 4\nend\nneed 0\n", "take 4\nend\n"),
    # no more than four needs and three skips: each skip that is kept makes a greater multiple known
    ((1, 0), "need 1\ntake 1\nend\n" + "".join(f"skip {a} any\nneed 1\ntake 1\nend\n" for a in (2, 4, 8, 4, 8)),
     "need 1\ntake 1\nend\nskip 2 any\nneed 1\ntake 1\nend\nskip 4 any\nneed 1\ntake 1\nend\nskip 8 any\nneed 9\ntake 9\nend\n"),
    # a skip up to no multiple refuses, as a number of no width does
    ((4, 0), "skip 3 any\nskip 5 zero\n", "take 0\nat 0 num . 3 be\nat 0 num . 5 be\nend\n"),
    # a row of unknown length ends at an unknown place, a wide one at a multiple of 4
    ((4, 0), "row . be\nskip 4 zero\n", "row . be\nskip 4 zero\n"),
    ((8, 0), "row_wide . be\nskip 4 any\nskip 8 any\n", "row_wide . be\nskip 8 any\n"),
)


def worked_wrong():
    """What is wrong with codes that are worked out by hand."""
    for phase, given, wanted in CODES:
        stub, = stubs_of(f"recv s\n{given}end\n")
        made_of = text_of(Stub("recv", "s", joined(Phase(*phase), stub.code), []))
        if made_of != f"recv s\n{wanted}end\n":
            yield f"{given} becomes {made_of}"


KINDS = ("octet", "char", "u8", "i16", "u16", "i32", "u32", "i64", "u64")


def random_nodes(rng, deep):
    """A table of a random type, the type last."""
    nodes = []

    def node(deep):
        form = rng.choice(("num", "num", "enum", "text", "row", "group", "group", "items", "choice", "maybe") if deep else ("num", "row"))
        if form == "num":
            new = ["num", rng.choice((*KINDS, "bool"))]
        elif form == "enum":
            new = ["enum", sorted(rng.sample(range(-2, 9), 3))]
        elif form == "text":
            new = ["text", *rng.choice(([], [{"most": 9}]))]
        elif form == "row":
            new = ["row", rng.choice(KINDS), *rng.choice(([], [{"most": 5}], [{"exactly": 3}]))]
        elif form == "group":
            new = ["group", [node(deep - 1) for _ in range(rng.randrange(1, 5))]]
        elif form == "items":
            new = ["items", node(deep - 1), *rng.choice(([], [{"most": 3}], [{"exactly": 2}]))]
        elif form == "choice":
            new = ["choice", rng.choice(("i32", "bool", [0, 1])), [[n, node(deep - 1)] for n in range(2)], *([node(deep - 1)] if rng.random() < 0.5 else [])]
        else:
            new = ["maybe", node(deep - 1)]
        nodes.append(new)
        return len(nodes) - 1

    node(deep)
    return nodes


def changed(rng, octets, at):
    """Octets that are cut, changed or followed by others, from a place on."""
    place, octet = rng.randrange(at, len(octets) + 1), rng.choice((0, 1, 2, 8, 127, 255))
    return rng.choice((octets[:place], octets + bytes((octet,)), octets[:place] + bytes((octet,)) + octets[place + 1:]))


def tried(rng):
    """Codes of a random type, run on octets of its values, cut and changed: how many runs did not stray, and what is wrong."""
    from stub_samples import receiving  # which uses this module
    runs, nodes = 0, random_nodes(rng, 3)
    id, encoding = len(nodes) - 1, rng.choice(list(STARTS))
    m = rng.choice(WHOLE_WIDTHS)
    at = rng.randrange(3) * (1 if encoding.startswith("cdr") else 4)
    phase = Phase(m, at % m)
    octets = bytes(at) + sent(encoding, nodes, id, made(rng.randrange(2 ** 64), nodes, id), at) + b"\x2a"
    for whole in (True, False):
        code = receiving(encoding, nodes, id, whole=whole)
        for times in (0, 0.02, 0.2):
            given = varied(rng, code, times) if times else code
            new = joined(phase, given)
            wrong = ["other operations"] if skeleton(given) != skeleton(new) else []
            wrong += [f"a run of {longest_run(new)}"] if longest_run(new) > MOST else []
            wrong += ["again"] if joined(phase, new) != new else []
            for message in (octets, *(changed(rng, octets, at) for _ in range(6))):
                near = rng.choice((0, 0, 0, 3, len(message) - at)) if len(message) >= at + 3 else 0
                runs += told(nodes, id, given, message, at, near) != "strays"
                wrong += broken(nodes, id, given, new, message, at, near)
            if wrong:
                return runs, f"{encoding} {phase} {wrong[0]}\n" + text_of(Stub("recv", "s", given, [])) + text_of(Stub("recv", "s", new, []))
    return runs, ""


def rows(seed, types):
    """Each worked code, and codes of random types, with what is wrong with what the pass makes of it, which has to be nothing."""
    yield "worked receive codes in takes", "", "; ".join(worked_wrong())
    for number in range(types):
        yield f"receive codes of type {seed}/{number} in takes", "", tried(random.Random(f"{seed}/{number}"))[1]


def main():
    seed, types = (int(word) for word in [*sys.argv[1:], "1", "2000"][:2])
    wrong = list(worked_wrong())
    print(*wrong, sep="\n")
    runs = 0
    for number in range(types):
        steady, finding = tried(random.Random(f"{seed}/{number}"))
        runs += steady
        wrong += [finding] if finding else []
        print(number, finding) if finding and len(wrong) < 4 else None
    print(f"{types} types, {runs} runs that do not stray, {len(wrong)} wrong")
    return 1 if wrong else 0


if __name__ == "__main__":
    sys.exit(main())
