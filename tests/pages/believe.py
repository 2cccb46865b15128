"""docs/BELIEVE.md: the definitions that the promise of `flick` stands on, by what is asked and in the order of reading."""
import os
import re

import sources
from sources import TOP

sources.sys.setrecursionlimit(100_000)
NAMES = 2  # definitions of a file that are named
STATEMENT, OUTSIDE = "crates/flick_top/specs/Statement.antt", "crates/flick_top/specs/Outside.antt"
CALL = "crates/flick_top/src/top.rt"
VERBS, DISPATCH, ANSWER = "crates/flick_lines/specs/Verbs.antt", "crates/flick_top/specs/Dispatch.antt", "crates/flick_top/specs/Answer.antt"
FRONTS, FILE = "crates/flick_top/specs/Fronts.antt", "crates/flick_top/specs/File.antt"
# What is asked, and the definitions that say it: the file that names each, and its name.
ASKED = {
    "what `marshal` answers": [(VERBS, "IsMarshalled")],
    "what `unmarshal` answers": [(VERBS, "IsUnmarshalled")],
    "what `reply` answers": [(VERBS, "IsReplied")],
    "what `unreply` answers": [(VERBS, "IsUnreplied")],
    "what `serve` answers": [(DISPATCH, "FileGives"), (ANSWER, "IsServed")],
    "what `show` writes": [(DISPATCH, "show_text")],
    "what `make` writes": [(DISPATCH, "make_text")],
    "what `stubs` writes": [(DISPATCH, "stubs_text")],
    "the tokens of a file, or its first fault": [(FRONTS, "AreTokens"), (FRONTS, "IsFirstFault")],
    "the unit of an ONC file, or its first fault": [(FRONTS, "OncTokensSay")],
    "the unit of a CORBA file, or its first fault": [(FRONTS, "CorbaTokensSay")],
    "the unit of a MIG file, or its first fault": [(FRONTS, "MigTokensSay")],
    "the unit over a back end, or why it is refused": [(FILE, "bind_fault"), (FILE, "IsOver")],
    "what `count` answers": [(VERBS, "IsCounted"), (DISPATCH, "counted_text")],
    "what messages cost, and what the buffer holds": [(ANSWER, "IsSentTo"), (ANSWER, "IsServeSent"), (DISPATCH, "all_sent")],
}
HEAD = """# What has to be believed

Nobody has to read a proof to rely on Flick: the prover checks them. What has to be read is the statement, and the definitions that its words stand for. `tests/print_docs --write` prints this page: it follows the names in the definitions down from the clauses of `flick`.

Begin with `flick_top/specs/Statement.antt`, which is the whole promise. Then read what you want to be sure of. A definition is believed to mean its comment, and the standard that it names: no proof can check that, but `tests/model` is a second reading, and `tests/compare` holds the program against it. You also rely on what `docs/SECURITY.md` ("Trusted") lists, and on the last crate, `flick_cli`, which hands the process's words and ends to `flick`.
"""


class Reading:
    """What is read, definition by definition."""

    def __init__(self):
        self.seen = set()

    def follow(self, definition, found):
        """A definition after those that it names."""
        key = (definition.path, definition.lines[0])
        if key in self.seen:
            return
        self.seen.add(key)
        for word in sorted(definition.words() - definition.names):
            named = sources.defined(definition.path, word)
            if named:
                self.follow(named, found)
        found.append(definition)


def closure(roots, reading):
    found = []
    for root in roots:
        reading.follow(root, found)
    return found


def lines_of(found):
    return sum(len(each.lines) for each in found)


def promise():
    """What the clauses of the top call and its laws name."""
    named = [sources.defined(CALL, word) for word in sources.imports(CALL)[0]]
    return [*sources.definitions(STATEMENT), *sources.definitions(OUTSIDE), *(each for each in named if each)]


def by_import():
    """The files of definitions, each after those that it imports."""
    order, begun = {}, set()

    def visit(path):
        if path in begun:
            return
        begun.add(path)
        named, whole = sources.imports(path)
        for file in dict.fromkeys([file for file, _ in named.values()] + [*whole.values()]):
            visit(file)
        order[path] = len(order)

    visit(CALL)
    return order


def title(path):
    """The first comment line of a file, as a phrase."""
    first = sources.text_of(path).split("\n", 1)[0]
    return re.sub(r"^(?:--|//!?)\s*", "", first).rstrip(".").replace("|", "\\|")


def which(path, found):
    """Which definitions of a file are read: all, most or a few."""
    names = [each.shown() for each in found]
    left = len(sources.definitions(path)) - len(found)
    if not left:
        return ""
    if len(names) > left:
        return f"all but {left}"
    return ", ".join(f"`{name}`" for name in names[:NAMES]) + (f", {len(names) - NAMES} more" if len(names) > NAMES else "")


def more_of(path, found):
    """A file of which more is read, with how many definitions."""
    return f"`{path.removeprefix('crates/')}` ({len(found)})"


def table(found, order, titled):
    """The rows of a stage: its files in the order of reading, with their titles where they come first; then what else is read of files that came before."""
    files = {}
    for each in found:
        files.setdefault(each.path, []).append(each)
    paths = sorted(files, key=lambda path: order.get(path, len(order)))
    first, again = ([path for path in paths if (path in titled) == is_again] for is_again in (False, True))
    if first:
        yield from ("", "| File | What it defines | Read |", "|---|---|---|")
    for path in first:
        yield f"| `{path.removeprefix('crates/')}` | {title(path)} | {which(path, files[path])} |"
        titled.add(path)
    if again:
        yield from ("", f"More of {', '.join(more_of(path, files[path]) for path in again)}.")


def declaring():
    """The source files that declare the types of definitions that are read."""
    found = set()
    for path in by_import():
        for crate, module in re.findall(r"use Rattle\.(\w+)\.specs\.declared\.(\w+)", sources.text_of(path)):
            place = f"crates/{crate}/src/{module}.rt"
            if os.path.exists(f"{TOP}/{place}"):
                found.add(place.removeprefix("crates/"))
    return sorted(found)


def page():
    order, reading, whole, titled = by_import(), Reading(), Reading(), set()
    rest = closure(promise(), whole)
    stages = []
    for what, entries in ASKED.items():
        roots = [sources.defined(path, name) for path, name in entries]
        if None in roots:
            raise SystemExit(f"tests/pages/believe.py: a definition is not there, of {what}: {entries}")
        stages.append((what, lines_of(closure(roots, Reading())), closure(roots, reading)))
    last = [each for each in rest if (each.path, each.lines[0]) not in reading.seen]
    out = [HEAD, f"The promise rests on {lines_of(rest):,} lines of definitions, in {len({each.path for each in rest})} files.", "",
           "| To believe | Lines to read | Of these in its own table |", "|---|---|---|"]
    out += [f"| {what} | {lines:,} | {lines_of(found):,} |" for what, lines, found in stages]
    out += [f"| the statement: how commands, files, input and output come together | {lines_of(rest):,} | {lines_of(last):,} |", ""]
    out += ["Each table below has what is not in one above it, each file after those that it uses. Where nothing stands under Read, all of the file is read; of a file that came before, so many more definitions."]
    for what, _, found in stages:
        out += ["", f"## {what[0].upper()}{what[1:]}" if not what.startswith("what") else f"## W{what[1:]}", *table(found, order, titled)]
    out += ["", "## The statement", *table(last, order, titled), "", "## Types", "",
            "The definitions speak of types that these source files declare: " + ", ".join(f"`{path}`" for path in declaring()) + "."]
    return "\n".join(out) + "\n"
