"""docs/PROOFS.md: what each crate promises, by its clauses, and the planted bugs that they refuse."""
import glob
import os
import re

import sources
from sources import TOP, sums

HEAD = """# What is proved, and what shows its teeth

`tests/print_docs --write` prints this page from the sources. It has the laws, and the calls that another crate makes, where there is more to say than a doc line: the comments of the definitions that their clauses cite, each once on this page, or clauses with names, and a bug. A law is a function that does nothing and promises a fact. Names of clauses mean the same everywhere (`docs/CONTRIBUTING.md`, "Names of clauses").

- **Refused** is a bug of `tests/bugs`, with the clause that it breaks where that is known, and how many more there are. The prover refused it when it was last tried, which may be before the code around it changed (`tests/names --bugs`); "not tried since" has no such mark. **Inside** are bugs of functions that no row has.
- **An edit** stands in `must-fail/` of its crate, and the gate tries it each time.
- No clause says that memory is there. Rows and tests show that calls succeed.
"""
WHATEVER = """
## Whatever comes, and whatever fails

| Promise | Clause |
|---|---|
| every public call returns, and does nothing undefined | each function is proved to be safe and to end, at each call that meets its conditions; `flick` has none |
| the status is 8 exactly where more than the greatest input was taken, as may be of an input without an end | `more`, `at_most` |
| no store or load leaves what was ensured or tested before | conditions of `SendBuf::put`, `put_const`, `put_pieces`, `advance`, `align`, `row_copy`, `row_swap`, `patch4`, `RecvView::load`, `take`, `row`, proved at each call |
| a refused `ensure`, `push` or `add` changes nothing, and after a refused `marshal` the buffer is empty | `err` of `SendBuf::ensure`, `Listed::push`, `Mint::add`, `Engine::marshal` |
| after an error a reader of lines answers the same error | `Lines::next`, `again` |
| a failed source, sink or shelf is reported only where its count of faults rose, and where it rose, unless it stands at 2^64 - 1 | `source`, `sink`, `shelf`; `source_reported`, `sink_reported`, `shelf_reported` of `flick` |
| after a fault of a source or sink, out of memory or too much input, as after every other end, what was written begins the one output of the words, under each command | `work`: `prefix`, and where there was no task nothing was written; `outputs_are_determined` |
| with 4 it is the text and the answers to the lines that had ended, and unless the sink failed whole answers | `work`: `ended`, `whole` |
"""
TOP_CALL = ("flick_top", "flick")
# What stands around the conclusion of a clause.
AROUND = re.compile(r"^(?:(?:IfOk|IfSome|IfErr) \S+ \(λ [^.]*\. |(?:OnOk|OnErr|IfNone) \S+ \(|(?:IfOk|IfSome) result (?=[A-Z])|\()")
COMMON = ("NoneFell", "Gives")  # definitions that many clauses cite, which docs/CONTRIBUTING.md tells
SHOWN = 1  # bugs of a row
DEFINED = 2  # bugs of definitions
LONG = 8  # words of what is not told again


def cell(text):
    """A text in a table."""
    return " ".join(text.replace("|", "\\|").split())


def quoted(bug, of=""):
    """A bug with the function and the clause that refuse it."""
    clause = bug.get("clause", "")
    where = ", ".join(f"`{word}`" for word in (of, clause) if word)
    return f'"{bug["bug"]}"' + (f" ({where})" if where else "")


def promised(call, doc, told):
    """What a call promises: its clauses with the comments of their definitions, where these were not told before, or else its doc line and the names of its clauses."""
    if call.is_law or is_top(call):
        return doc
    shown, is_told = [], False
    for name, term, _ in call.clauses:
        definition = head_of(call, term)
        is_new = definition and definition.comment and definition.name not in COMMON and definition.comment not in told
        is_told = is_told or is_new
        told.update([definition.comment] if is_new else [])
        comment = definition.comment if is_new else ""
        shown.append(f"`{name}`: {comment}" if name and comment else f"`{name}`" if name else comment)
    shown = [each for each in shown if each]
    if is_told:
        return "; ".join(shown)
    return f"{doc} ({', '.join(shown)})" if shown else doc


def says_something(call, by):
    """Whether a row of a call says more than its doc line."""
    named = any(name for name, _, _ in call.clauses)
    return call.is_law or named and (call.owner, call.name) in by or is_top(call) or any(
        (each := head_of(call, term)) and each.comment and each.name not in COMMON for _, term, _ in call.clauses)


def bugs_by_call(crate):
    """The refused bugs of a crate by the function that they stand in."""
    by = {}
    for bug in sums.bugs_of(crate):
        if bug.get("refused") and bug["function"]:
            named = sums.found(crate, bug["function"])
            key = (named[0].owner, named[0].name) if named else ("", bug["function"].split("::")[-1])
            by.setdefault(key, []).append(bug)
    return by


def told(bugs):
    """A few of the bugs, those first whose clause is known, and how many more there are."""
    bugs = sorted(bugs, key=lambda bug: "clause" not in bug)
    more = f"; {len(bugs) - SHOWN} more" if len(bugs) > SHOWN else ""
    return ", ".join(map(quoted, bugs[:SHOWN])) + more


def inside(by, shown):
    """The bugs of functions that stand in no row."""
    left = [(name, bug) for (owner, name), bugs in by.items() if (owner, name) not in shown for bug in bugs]
    if not left:
        return
    names = {name for name, _ in left}
    yield f"Inside: {len(left)} bug{'s' if len(left) > 1 else ''} of {len(names)} function{'s' if len(names) > 1 else ''}."


def of_definitions(crate):
    """The bugs that change a definition, which the crate's own proofs refuse."""
    bugs = [bug for bug in sums.bugs_of(crate) if bug.get("refused") and not bug["function"]]
    if bugs:
        more = f", and {len(bugs) - DEFINED} more" if len(bugs) > DEFINED else ""
        yield f"Wrong definitions that the laws refuse: {', '.join(map(quoted, bugs[:DEFINED]))}{more}."


def others(crate):
    """The edits of a crate, its bugs without a mark, and those that get through."""
    edits = sorted(os.path.basename(path).removesuffix(".edit") for path in glob.glob(f"{TOP}/crates/{crate}/must-fail/*.edit"))
    if edits:
        yield f"Edits: {', '.join(f'`{edit}`' for edit in edits)}."
    through = [bug for bug in sums.bugs_of(crate) if "passes" in bug]
    for bug in through:
        yield f'Accepted: "{bug["bug"]}": {sources.sentence(bug["passes"])}.'
    untried = [bug for bug in sums.bugs_of(crate) if not bug.get("refused") and "passes" not in bug]
    if untried:
        yield f"Not tried since: {len(untried)}."


def head_of(call, term):
    """The definition that a clause concludes with, where it is a statement and no term: its name begins with a capital letter."""
    term, before = term.rsplit("→ ", 1)[-1], None
    while term != before:
        before, term = term, AROUND.sub("", term)
    name = re.match(r"[A-Z]\w*", term)
    return sources.defined(call.path, name[0]) if name else None


def comment_in(lines, n):
    """The comment above a line."""
    above = []
    while n and lines[n - 1].strip().startswith("--"):
        n -= 1
        above.insert(0, lines[n].strip().lstrip("- "))
    return " ".join(above)


def clause_rows(call):
    """The clauses of the top call: those of one definition together, with its comment or the clause itself, and the fields of a record."""
    rows = {}
    for name, term, _ in call.clauses:
        definition = head_of(call, term)
        key = definition.comment if definition else f"`{term}`"
        rows.setdefault(key, ([], definition))[0].append(f"`{name}`")
    for said, (names, definition) in rows.items():
        yield ", ".join(names), said
        yield from ((f"{names[0]}: `{field}`", comment) for field, comment in (fields_of(definition) if definition else []) if comment)


def fields_of(definition):
    """The fields of the record that a definition is, or speaks of in its own file, with their comments."""
    for each in [definition, *sources.definitions(definition.path)]:
        if each.lines[0].startswith(("pub record", "record")) and each.name in {definition.name, *definition.words()}:
            rows, comment = [], ""
            for n, line in enumerate(each.lines):
                if found := re.match(r"  (?:pub )?(\w+) :", line):
                    comment = comment_in(each.lines, n) or comment
                    rows.append((found[1], comment))
            return rows
    return []


def top_table(call):
    """The clauses of the top call."""
    yield from ("", f"The clauses of `{call.name}`, by the comments of their definitions:", "", "| Clause | What it promises |", "|---|---|")
    yield from (f"| {names} | {cell(said)} |" for names, said in clause_rows(call))


def is_top(call):
    return (call.crate, call.name) == TOP_CALL


def section(crate, told_of, docs):
    """The section of a crate, or nothing where it promises nothing to others; with what the sections before it told."""
    calls = [call for call in sources.calls(crate) if sources.is_given(call) and (call.is_law or sources.is_used(call))]
    if crate == TOP_CALL[0]:
        calls = [call for call in sources.calls(crate) if is_top(call) or call.is_law and sources.is_given(call)]
    if not calls:
        return
    by, top = bugs_by_call(crate), None
    calls = [call for call in calls if says_something(call, by)]
    notes = [*inside(by, {(call.owner, call.name) for call in calls}), *of_definitions(crate), *others(crate)]
    if not calls and not notes:
        return
    yield from ("", f"## {crate}", "")
    if calls:
        yield from ("| Call | What it promises | Refused |", "|---|---|---|")
    for call in calls:
        doc = re.sub(r"^Does nothing\. (It states that|States that|It says that)?", "", call.doc).strip()
        doc = re.sub(r"\[(`\w+`)\]", r"\1", doc[:1].upper() + doc[1:])
        said = promised(call, sources.sentence(doc), told_of)
        before = docs.setdefault(said, crate)
        said = said if before == crate or len(said.split()) < LONG else f"As of `{before}`"
        yield f"| `{call.shown()}` | {cell(said)} | {cell(told(by.get((call.owner, call.name), [])))} |"
        top = call if is_top(call) else top
    if top:
        yield from top_table(top)
    if notes:
        yield from [""] if calls else []
        yield from (f"- {note}" for note in notes)


def page():
    order = [name for _, names in reversed(sources.crates()) for name in names]
    told_of, docs = set(), {}
    return HEAD + WHATEVER + "".join(f"{line}\n" for crate in order for line in section(crate, told_of, docs))


def wrong_clauses():
    """A line for each bug whose `clause` its function does not have."""
    for crate in sums.crates():
        for bug in sums.bugs_of(crate):
            if "clause" in bug:
                named = sums.found(crate, bug["function"]) if bug["function"] else []
                texts = [it.text for it in named] + [sums.traits().get((it.of.split("::")[-1], it.name), "") for it in named if it.of]
                if not any(name == bug["clause"] for text in texts for name, _, _ in sources.clauses_of(text)):
                    yield f'tests/bugs/{crate}.json: "{bug["bug"]}" names the clause `{bug["clause"]}`, which its function does not have'
