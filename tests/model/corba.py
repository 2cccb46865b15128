"""Texts in the CORBA interface language (OMG CORBA, chapter on IDL syntax and semantics; docs/GRAMMAR.md): tokens and trees.

The lexer has the rules of all three languages; mig.py has the grammar of MIG.

The grammar is a table of rules, and the reader tries every way in which a rule can match from a place on. It chooses
nothing in advance, so it needs no rule for which `>>` is a shift. As all of the model it is written from the standard
and docs/, with nothing of the crates in it.
"""
import re
import sys
from bisect import bisect_left
from collections import namedtuple

sys.setrecursionlimit(20_000)

LEVELS = 32
GREATEST = 2 ** 127 - 1
ESCAPES = dict(zip(b"ntvbrfa\\?'\"", b"\n\t\v\b\r\f\a\\?'\""))


class Fault(Exception):
    """The first fault of a text, and its octet."""


# ---- tokens

Token = namedtuple("Token", "kind value line")

ESCAPE = rb"""\\[ntvbrfa\\?'"]"""
ONC_FORMS = {
    "blank": rb"[\t\n\v\f\r ]+",
    "comment": rb"/\*.*?\*/",
    "open": rb"/\*",
    "number": rb"0x[0-9a-fA-F]*|[0-9]+",
    "word": rb"[A-Za-z_][A-Za-z_0-9]*",
    "mark": rb"<<|>>|::|[]{}[()<>;:,=*+/%|^&-]",
}
CORBA_FORMS = {
    "line comment": rb"//[^\n]*",
    "character": rb"'(?:[ -\[\]-~]|" + ESCAPE + rb")'",
    "string": rb'"(?:[ !#-\[\]-~]|' + ESCAPE + rb')*"',
    **ONC_FORMS,
}
IMPORT_FORMS = {
    "file name": rb'<[^>\n]*>|"[^"\n]*"',
    **ONC_FORMS,
}
FORMS = {name: {kind: re.compile(form, re.S) for kind, form in forms.items()}
         for name, forms in (("onc", ONC_FORMS), ("corba", CORBA_FORMS), ("mig", ONC_FORMS), ("mig import", IMPORT_FORMS))}
IMPORTS = ("import", "uimport", "simport")
TO_LINE_END = re.compile(rb"[^\n]*")
MARKER = re.compile(rb"#[\t\v\f\r ]*(?:[0-9]|line)")
NUMBER = re.compile(rb"0[0-7]*|[1-9][0-9]*|0x[0-9a-fA-F]+")


def skipped_line(text, place, front):
    """Where a line ends that is skipped from here on: a line marker, or a `%` line of onc; or None."""
    before = text[text.rfind(b"\n", 0, place) + 1:place]
    octet = text[place:place + 1]
    if not (octet == b"#" and not before.strip(b"\t\v\f\r ") or octet == b"%" and not before and front == "onc"):
        return None
    if octet == b"#" and not MARKER.match(text, place):
        raise Fault(f"Directive {place}")
    return TO_LINE_END.match(text, place).end()


def number_of(digits, place):
    """A decimal number, an octal one after a 0, or a hexadecimal one after `0x`."""
    if not NUMBER.fullmatch(digits):
        raise Fault(f"BadOctet {place}")
    base = 16 if digits[:2] == b"0x" else 8 if digits[:1] == b"0" else 10
    if base == 10 and len(digits) > len(str(GREATEST)) or int(digits, base) > GREATEST:
        raise Fault(f"Wide {place}")
    return int(digits, base)


def codes_of(octets):
    """The codes of what is between quotes: an escape has one."""
    return re.sub(rb"\\(.)", lambda escape: bytes([ESCAPES[escape[1][0]]]), octets)


def value_of(kind, octets, place):
    if kind == "number":
        return number_of(octets, place)
    if kind in ("character", "string"):
        return codes_of(octets[1:-1])
    if kind == "file name":
        return octets[1:-1]
    return octets.decode()


def forms_after(tokens, front):
    """The forms of what comes next: in mig a file may be named after a word that imports it."""
    imports = front == "mig" and tokens and tokens[-1].kind == "word" and tokens[-1].value.lower() in IMPORTS
    return FORMS["mig import" if imports else front]


def tokens_of(text, front="corba"):
    """The tokens of a text, each with its line."""
    tokens, place = [], 0
    while place < len(text):
        end = skipped_line(text, place, front)
        if end is not None:
            place = end
            continue
        kind, found = next(((kind, form.match(text, place)) for kind, form in forms_after(tokens, front).items() if form.match(text, place)), (None, None))
        if found is None or kind == "open":
            raise Fault(f"{'OpenComment' if kind else 'BadOctet'} {place}")
        if kind not in ("blank", "comment", "line comment"):
            tokens.append(Token(kind, value_of(kind, found[0], place), 1 + text.count(b"\n", 0, place)))
        place = found.end()
    return tokens


# ---- the grammar

# `[ ]` may be absent, `{ }` is repeated any number of times, and what follows `^` has one level more than its rule.
# A chain groups to the left because its left operand is a chain; it ends because that operand has one level more.
GRAMMAR = """
file        = { definition }
definition  = module ";" | interface ";" | declared ";"
module      = "module" identifier "{" { ^definition } "}"
interface   = "interface" identifier [ ":" name { "," name } ] "{" { exported ";" } "}"
exported    = declared | attribute | operation
declared    = typedef | struct | union | enum | constant | exception
typedef     = "typedef" ( type | struct | union | enum ) declarator { "," declarator }
struct      = "struct" identifier "{" member { member } "}"
exception   = "exception" identifier "{" { member } "}"
member      = type declarator { "," declarator } ";"
union       = "union" identifier "switch" "(" ^tag ")" "{" arm { arm } "}"
tag         = integer | "char" | "boolean" | name
arm         = label { label } type declarator ";"
label       = "case" expression ":" | "default" ":"
enum        = "enum" identifier "{" identifier { "," identifier } "}"
constant    = "const" plain identifier "=" expression
plain       = integer | "char" | "boolean" | "octet" | "string" | name
attribute   = [ "readonly" ] "attribute" type identifier { "," identifier }
operation   = [ "oneway" ] ( "void" | type ) identifier "(" [ ^parameters ] ")" [ "raises" "(" ^names ")" ]
parameters  = parameter { "," parameter }
names       = name { "," name }
parameter   = ( "in" | "out" | "inout" ) type identifier
declarator  = identifier { "[" expression "]" }
type        = integer | simple | text | sequence | name
integer     = [ "unsigned" ] ( "short" | "long" [ "long" ] )
simple      = "char" | "boolean" | "octet" | "float" | "double" | "long" "double" | "wchar" | "wstring" | "any" | "Object"
text        = "string" [ "<" expression ">" ]
sequence    = "sequence" "<" ^type [ "," expression ] ">"
name        = [ "::" ] identifier { "::" identifier }
expression  = either
either      = ^either "|" ^differing | differing
differing   = ^differing "^" ^both | both
both        = ^both "&" ^shift | shift
shift       = ^shift ( "<<" | ">>" ) ^sum | sum
sum         = ^sum ( "+" | "-" ) ^product | product
product     = ^product ( "*" | "/" | "%" ) ^signed | signed
signed      = ( "-" | "+" ) ^signed | operand
operand     = number | character | string | truth | name | "(" ^expression ")"
truth       = "TRUE" | "FALSE"
"""

KINDS = {"identifier": "word", "number": "number", "character": "character", "string": "string"}
OPERATORS = ("|", "^", "&", "<<", ">>", "+", "-", "*", "/", "%")


def choice_of(pieces):
    """Forms of which one is there."""
    forms = [row_of(pieces)]
    while pieces and pieces[0] == "|":
        pieces.pop(0)
        forms.append(row_of(pieces))
    return "one_of", forms


def row_of(pieces):
    """Forms that follow one another."""
    forms = []
    while pieces and pieces[0] not in ("|", ")", "]", "}"):
        forms.append(form_of(pieces))
    return "all_of", forms


def form_of(pieces):
    piece = pieces.pop(0)
    if piece == "^":
        return "deeper", form_of(pieces)
    if piece in ("(", "[", "{"):
        inner = choice_of(pieces)
        pieces.pop(0)
        return {"(": inner, "[": ("one_of", [inner, ("all_of", [])]), "{": ("many", inner)}[piece]
    return ("mark", piece[1:-1]) if piece[0] == '"' else ("rule", piece)


def rules_of(grammar):
    rules = {}
    for line in grammar.strip().splitlines():
        name, pieces = line.split("=", 1)
        rules[name.strip()] = choice_of(re.findall(r'"[^"]+"|\w+|\S', pieces))
    return rules


def words_of(grammar):
    return set(re.findall(r'"(\w+)"', grammar))


def firsts_of(form, rules):
    """What a form may begin with by the sets of its rules so far: words and marks in quotes, kinds of tokens, and None where it may be empty."""
    kind, inner = form
    if kind == "mark":
        return {f'"{inner}"'}
    if kind == "rule":
        return rules.get(inner, {inner})
    if kind == "one_of":
        return set().union(*(firsts_of(each, rules) for each in inner))
    if kind != "all_of":
        return firsts_of(inner, rules) | ({None} if kind == "many" else set())
    found = {None}
    for each in inner:
        if None in found:
            found = found - {None} | firsts_of(each, rules)
    return found


def forms_in(form):
    """A form and those within it."""
    yield form
    for inner in form[1] if form[0] in ("one_of", "all_of") else [form[1]] if form[0] in ("many", "deeper") else []:
        yield from forms_in(inner)


def beginnings_of(rules):
    """For each form of a grammar, by its identity, what it may begin with. The sets of the rules grow until none does."""
    sets, before = {name: set() for name in rules}, None
    while before != sets:
        before = sets
        sets = {name: firsts_of(form, before) for name, form in rules.items()}
    return {id(form): frozenset(firsts_of(form, sets)) for rule in rules.values() for form in forms_in(rule)}


RULES = rules_of(GRAMMAR)
WORDS = words_of(GRAMMAR)


# ---- trees

def only_of(found):
    """Where a form may end in one of several ways, each with its parts: over the same tokens it has one tree."""
    if len(found) == 1:
        return found[0]
    ends = {}
    for some in found:
        joined(ends, some.items())
    return ends


def joined(ends, found):
    """Where a form may end, and where else it may."""
    for end, parts in found:
        if end in ends:
            assert ends[end] == parts, f"two trees: {ends[end]}, {parts}"
        ends[end] = parts
    return ends


class Reading:
    """All ways to read tokens. Token n begins at place 2n, and a `>>` has a place in its middle.

    A tree is the name of its rule with its parts: tokens, words and marks, and trees. A rule whose only part is a tree or
    a token is that part. Beyond the last level nothing has a tree.
    """

    kinds, rules, beginnings, choices = KINDS, RULES, beginnings_of(RULES), {}

    def __init__(self, tokens, levels=LEVELS):
        self.tokens, self.levels, self.known = tokens, levels, {}
        self.heads = [self.head(place) for place in range(2 * len(tokens) + 1)]
        self.places = {}
        for n, token in enumerate(tokens):
            for part in {token.value, token.value[:1]} if token.kind in ("mark", "word") else ():
                self.places.setdefault(part, []).append(2 * n)

    def head(self, place):
        """What a form may begin with that begins at a place."""
        token = self.token(place)
        if token is None:
            return frozenset([None])
        marks = [">"] if place % 2 else [token.value, ">"] if token.value == ">>" else [token.value] if token.kind in ("mark", "word") else []
        return frozenset([None, *(f'"{mark}"' for mark in marks), *(name for name, kind in self.kinds.items() if kind == token.kind)])

    def ends(self, form, place, level):
        """Where a form that begins at a place may end, each with its parts. A form that begins otherwise need not be tried."""
        if self.beginnings[id(form)].isdisjoint(self.heads[place]):
            return {}
        return getattr(self, form[0])(form[1], place, level)

    def one_of(self, forms, place, level):
        return only_of([getattr(self, kind)(inner, place, level) for kind, inner in self.tried(forms, self.heads[place])])

    def tried(self, forms, head):
        """The forms of a choice that may begin so. It is worked out once for each choice and each beginning."""
        key = id(forms), head
        if key not in self.choices:
            self.choices[key] = [form for form in forms if not self.beginnings[id(form)].isdisjoint(head)]
        return self.choices[key]

    def all_of(self, forms, place, level):
        ends = {} if self.lacks(forms, place) else {place: ()}
        for form in forms:
            if not ends:
                break
            ends = self.after(ends, form, level)
        return ends

    def lacks(self, forms, place):
        """Whether a chain needs a mark that does not stand from a place on: it need not be tried.

        A chain begins with a chain that is one level deeper, and ends before the next `;`.
        """
        return bool(forms) and forms[0][0] == "deeper" and any(self.needs(form, place, self.next(";", place)) for form in forms[1:])

    def needs(self, form, place, end):
        kind, inner = form
        if kind == "mark":
            return self.next(inner, place) >= end
        return kind in ("one_of", "all_of") and bool(inner) and {"one_of": all, "all_of": any}[kind](self.needs(part, place, end) for part in inner)

    def next(self, mark, place):
        """Where a mark stands next, or the end of the text. From the middle of a `>>` on its second `>` does."""
        places = self.places.get(mark, ())
        k = bisect_left(places, place - 1)
        return places[k] if k < len(places) else len(self.tokens) * 2

    def many(self, form, place, level):
        ends, last = {place: ()}, {place: ()}
        while last:
            last = self.after(last, form, level)
            joined(ends, last.items())
        return ends

    def after(self, ends, form, level):
        """Where a form may end that begins where something else ends, each with the parts of both."""
        return only_of([{end: parts + more for end, more in self.ends(form, place, level).items()} for place, parts in ends.items()])

    def deeper(self, form, place, level):
        return self.ends(form, place, level + 1)

    def mark(self, mark, place, level):
        token = self.token(place)
        if token is None or token.kind not in ("mark", "word"):
            return {}
        if mark == ">" and token.value == ">>":
            return {place + 1: (mark,)}
        return {place + 2: (mark,)} if token.value == mark and place % 2 == 0 else {}

    def token(self, place):
        return self.tokens[place // 2] if place // 2 < len(self.tokens) else None

    def rule(self, name, place, level):
        key = name, place, level
        if key not in self.known:
            self.known[key] = self.trees(name, place, level) if level <= self.levels else {}
        return self.known[key]

    def trees(self, name, place, level):
        if name in self.kinds:
            return self.leaf(name, place)
        found = self.ends(self.rules[name], place, level)
        return {end: parts if len(parts) == 1 and isinstance(parts[0], tuple) else ((name, *parts),) for end, parts in found.items()}

    def leaf(self, name, place):
        """A token of a kind. A word that a rule quotes is not an identifier, and one leading `_` is not part of a name."""
        token = self.token(place)
        if token is None or place % 2 or token.kind != self.kinds[name] or token.value in WORDS and name == "identifier":
            return {}
        return {place + 2: (Token(name, token.value.removeprefix("_"), token.line) if name == "identifier" else token,)}


def last_leaf(tree):
    while not isinstance(tree, (Token, str)):
        tree = tree[-1]
    return tree


def goes_on(rule, tree, mark):
    """Whether a mark after a tree would be part of it."""
    if rule == "declared":
        return mark in (",", "[") if tree[0] == "typedef" else tree[0] == "constant" and goes_on("expression", tree[-1], mark)
    last = last_leaf(tree)
    if mark == "::":
        return isinstance(last, Token) and last.kind == "identifier"
    return mark in OPERATORS if rule == "expression" else mark == "<" and last == "string"


def first_of(rule, tokens, levels=LEVELS):
    """The longest tree that comes first, unless the next token would be part of it, and how many tokens it has."""
    ends = {end: parts for end, parts in Reading(tokens, levels).rule(rule, 0, 1).items() if end % 2 == 0}
    if not ends:
        return None
    end = max(ends)
    tree = ends[end][0]
    goes = end // 2 < len(tokens) and tokens[end // 2].kind == "mark" and goes_on(rule, tree, tokens[end // 2].value)
    return None if goes else (tree, end // 2)


def file_of(tokens):
    """The trees of the longest prefix that has any, and the token after it, or None at the end of the text."""
    reading = Reading(tokens)
    ends = reading.ends(RULES["file"], 0, 1)
    return ends[max(ends)], reading.token(max(ends))


# ---- answers

def shown_token(token):
    if token.kind == "character":
        return f"'{token.value[0]}'"
    return f'"{token.value.hex()}"' if token.kind == "string" else str(token.value)


def shown(tree):
    """An expression, a type or a name."""
    if isinstance(tree, Token):
        return shown_token(tree)
    rule, *parts = tree
    if rule == "name":
        return "".join(part if isinstance(part, str) else part.value for part in parts)
    if rule == "operand":
        return shown(parts[1])
    if rule == "signed":
        return f"({parts[0]} {shown(parts[1])})"
    if rule == "sequence":
        return f"[{'; '.join(shown(part) for part in parts if isinstance(part, tuple))}]"
    if rule == "text":
        return f"string<{shown(parts[2])}>" if len(parts) > 1 else "string"
    if isinstance(parts[0], tuple):
        return f"({parts[1]} {shown(parts[0])} {shown(parts[2])})"
    return "-".join(parts)


def shown_declarator(tree):
    """A name, with its dimensions in brackets."""
    return shown(tree) if isinstance(tree, Token) else shown(tree[1]) + "".join(f"[{shown(part)}]" for part in tree[3::3])


def shown_all(trees):
    return ",".join(shown_declarator(tree) for tree in trees)


def shown_label(tree):
    return f"case {shown(tree[2])}:" if tree[1] == "case" else "default:"


def shown_part(tree):
    """A member, or a case with its labels."""
    labels = [part for part in tree[1:] if part[0] == "label"]
    of, *declarators = [part for part in tree[1:] if isinstance(part, tuple) and part not in labels]
    return f"{''.join(shown_label(label) for label in labels)}{shown(of)} {shown_all(declarators)};"


def shown_declaration(tree):
    """A declaration: its words and marks, without the blanks that need not be there."""
    rule = tree[0]
    parts = [part for part in tree[1:] if isinstance(part, tuple)]
    if rule in ("struct", "exception"):
        return f"{rule} {shown(parts[0])}{{{''.join(shown_part(part) for part in parts[1:])}}}"
    if rule == "union":
        return f"union {shown(parts[0])}({shown(parts[1])}){{{''.join(shown_part(part) for part in parts[2:])}}}"
    if rule == "enum":
        return f"enum {shown(parts[0])}{{{shown_all(parts[1:])}}}"
    if rule == "constant":
        return f"const {shown(parts[0])} {shown(parts[1])}={shown(parts[2])}"
    of = shown_declaration(parts[0]) if parts[0][0] in ("struct", "union", "enum") else shown(parts[0])
    return f"typedef {of} {shown_all(parts[1:])}"


ASKED = {"expression": ("expression", shown), "type": ("type", shown), "declaration": ("declared", shown_declaration)}


def told(case, text):
    """The answer to a row of tests/layers/syntax (tests/layers/README.md)."""
    if case["ask"] == "file":
        return told_of_file(text)
    try:
        tokens = tokens_of(text, case.get("front", "corba"))
    except Fault as fault:
        return str(fault)
    if case["ask"] == "lex":
        return " ".join(f"{token.line}:{shown_token(token)}" for token in tokens)
    rule, show = ASKED[case["ask"]]
    found = first_of(rule, tokens, case.get("levels", LEVELS))
    return f"{show(found[0])} {len(tokens) - found[1]}" if found else "syntax"


def told_of_file(text):
    """`ok`, the fault of a text, or the line where the first definition that fails begins."""
    try:
        failing = file_of(tokens_of(text))[1]
    except Fault as fault:
        return str(fault)
    return f"syntax {failing.line}" if failing else "ok"
