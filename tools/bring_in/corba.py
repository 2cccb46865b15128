"""Files of CORBA IDL."""
import re

from . import common
from .corba_text import Container, Leaf, nodes_of

MOST_INTERFACES = 64
PRELUDE = "prelude.idl"
OBJECTS = ("interface", "native", "local interface")
NOT_OF_MESSAGES = {"floats": "a floating-point constant, and no message has one", "wide": "a wide constant, and no message has one",
                   "text": "its text has a form that Flick lacks, and no message has a string constant"}


def effect_of(text):
    """What a line for the compiler would have changed."""
    words = text.split()
    if words[:1] == ["prefix"]:
        return f"repository ids would begin with IDL:{' '.join(words[1:]).strip(chr(34))}/, which messages have for exceptions alone"
    if words[:1] in (["ID"], ["version"]):
        return "it would have changed one repository id, which messages have for exceptions alone"
    return "it is for the compiler alone"


class Scopes:
    """What is declared where: paths of names, each with its kind and its node."""

    def __init__(self, nodes):
        self.declared, self.bases, self.known = {}, {}, {}
        self.enter(nodes, None)

    def enter(self, nodes, unit):
        """Enters what nodes declare; a unit is a definition, or an interface with all that is in it."""
        for node in nodes:
            for name, kind in node.declares:
                self.declared.setdefault((*node.scope, name), []).append((kind, node, unit or node))
            if isinstance(node, Container):
                inner = (*node.scope, node.name)
                if node.kind != "module":
                    self.bases[inner] = [(use, node.scope) for use in node.uses]
                self.enter(node.children, unit or (node if node.kind != "module" else None))

    def member(self, path, name):
        """The path of a name in a scope or in its bases."""
        if (*path, name) in self.declared:
            return (*path, name)
        if (path, name) in self.known:  # or it is being sought: bases may meet again and again
            return self.known[path, name]
        self.known[path, name] = None
        for use, scope in self.bases.get(path, []):
            base = self.find(use.names, use.is_absolute, scope)
            if base and base != path and (found := self.member(base, name)):
                self.known[path, name] = found
                return found
        return None

    def find(self, names, is_absolute, scope):
        """The path that a name refers to, or nothing."""
        for count in [0] if is_absolute else range(len(scope), -1, -1):
            path = self.member(scope[:count], names[0])
            for name in names[1:]:
                path = path and self.member(path, name)
            if path:
                return path
        return None


def leaves_of(nodes):
    """All nodes, each before its children."""
    for node in nodes:
        yield node
        if isinstance(node, Container):
            yield from leaves_of(node.children)


def left_out(node):
    """Why a node is left out, or nothing."""
    if isinstance(node, Container):
        return "no message calls it" if node.kind == "local interface" else None
    if node.kind == "forward":
        return "an interface is declared once" if node.of == "interface" else "a type is declared once"
    if node.kind == "const":
        return NOT_OF_MESSAGES.get(node.of)
    return {"native": "no message has it", "typeprefix": effect_of(f'prefix "{node.of}"'), "typeid": effect_of("ID"),
            "import": "it reads no file here"}.get(node.kind)


def prelude(nodes, tokens):
    """The modules of the prelude, without what the file declares itself and without the names that it never mentions."""
    declared = {(*node.scope, name) for node in leaves_of(nodes) for name, _ in node.declares}
    modules = nodes_of(common.prelude(PRELUDE), ())
    for module in modules:
        module.children = [child for child in module.children if (*child.scope, child.declares[0][0]) not in declared]
    return [module for module in modules if module.children and any(token.text == module.name for token in tokens)]


class File:
    """The nodes of a file, and which of them are kept."""

    def __init__(self, nodes, path, notes):
        self.nodes, self.path, self.notes, self.scopes = nodes, path, notes, Scopes(nodes)
        self.dropped, self.has_said = set(), False
        for node in leaves_of(nodes):
            if why := left_out(node):
                self.dropped.add(id(node))
                if node.tokens[0].file == path or node.kind not in ("forward", "const"):
                    notes.say(node.tokens[0], f"left out: {common.shown(node.tokens)}{' .. }' if isinstance(node, Container) else ''}: {why}")
        self.prune()

    def prune(self):
        """Leaves out what included files have and the file does not need."""
        units = [node for node in leaves_of(self.nodes) if node.kind != "module"]
        work = [node for node in units if node.tokens[0].file == self.path]
        needed = {id(node) for node in work}
        while work:
            node = work.pop()
            for inner in leaves_of([node]):
                for use in inner.uses:
                    for _, _, unit in self.scopes.declared.get(self.scopes.find(use.names, use.is_absolute, inner.scope_of_uses), []):
                        if id(unit) not in needed and unit.kind != "module":
                            needed.add(id(unit))
                            work.append(unit)
        left = {}
        inside = {id(inner) for node in units if isinstance(node, Container) for inner in leaves_of(node.children)}
        for node in units:
            if id(node) not in needed and id(node) not in inside:
                self.dropped.add(id(node))
                left.setdefault(node.tokens[0].file, []).append(node)
            elif node.tokens[0].file == PRELUDE:
                self.notes.say(self.user_of(node), f"taken from the prelude: {'::'.join(node.scope)}, {common.shown(node.tokens)};")
        left.pop(PRELUDE, None)
        for nodes in left.values():
            names = dict.fromkeys("::".join((*node.scope, node.declares[0][0])) for node in nodes if node.declares)
            self.notes.say(nodes[0].tokens[0], f"left out: what {self.path} does not need: {', '.join(names)}")

    def user_of(self, needed):
        """The first token that uses a node."""
        for node in leaves_of(self.nodes):
            for use in node.uses:
                path = self.scopes.find(use.names, use.is_absolute, node.scope_of_uses)
                if node.tokens[0].file != PRELUDE and any(each is needed for _, each, _ in self.scopes.declared.get(path, [])):
                    return use.token
        return needed.tokens[0]

    def is_kept(self, node):
        """Whether a node is in the output."""
        return id(node) not in self.dropped and (node.kind != "module" or any(self.is_kept(child) for child in node.children) or not node.children)

    def kept(self, nodes):
        """The nodes that are kept, each before its children."""
        for node in nodes:
            if self.is_kept(node):
                yield node
                if isinstance(node, Container):
                    yield from self.kept(node.children)

    def fault_of(self, node, use):
        """Why a node cannot use a name: a cause and a text, or nothing."""
        text = "::".join(use.names)
        path = self.scopes.find(use.names, use.is_absolute, node.scope_of_uses)
        kinds = [kind for kind, _, _ in self.scopes.declared.get(path, [])]
        if use.names[-1] == "TypeCode" and not kinds:
            return "any or a type code", text
        if not kinds:
            return "a name that is declared nowhere", text
        if use.role == "type" and all(kind in OBJECTS or kind == "forward" for kind in kinds):
            return "an object reference", text
        found = [each for _, each, _ in self.scopes.declared[path] if each.kind != "forward"]
        if any(each is node for each in found) and use.role == "type" and isinstance(node, Leaf):
            return "a type that holds itself", text
        if found and all(id(each) in self.dropped for each in found):
            return "a name that is left out", text
        return None

    def judge(self):
        """Says what cannot be mended; what is brought in in part lacks it, and what uses it."""
        seen, again = set(), True
        while again:
            again = False
            for node in list(self.kept(self.nodes)):
                faults = [*((token, cause, text) for token, cause, text in node.faults),
                          *((use.token, *fault) for use in node.uses if (fault := self.fault_of(node, use)))]
                for token, cause, text in faults:
                    if (id(token), cause) not in seen:
                        seen.add((id(token), cause))
                        self.notes.fail(token, cause, text if cause == "not of the language" else f"{text} in {node.what}")
                if faults and self.notes.in_part:
                    self.say_numbers(node)
                    self.dropped.add(id(node))
                    again = True

        interfaces = [node for node in self.kept(self.nodes) if isinstance(node, Container) and node.kind != "module"]
        if len(interfaces) > MOST_INTERFACES:
            self.notes.fail(interfaces[MOST_INTERFACES].tokens[0], f"more than {MOST_INTERFACES} interfaces", f"there are {len(interfaces)}", always=True)

    def say_numbers(self, node):
        """Says once that operations have other numbers where there is one less."""
        if not self.has_said and (isinstance(node, Container) or node.kind in ("operation", "attribute")):
            self.has_said = True
            self.notes.say(node.tokens[0], "over xdr and mach, where operations have numbers in order, those after this one have others")

    def text(self, nodes):
        """The text of the nodes that are kept."""
        tokens = []
        for node in nodes:
            if self.is_kept(node):
                tokens += [*node.tokens, *self.text(node.children), *node.tail] if isinstance(node, Container) else node.tokens
        return tokens


def mended_texts(tokens, notes):
    """Puts numbers in the place of what Flick's characters and numbers lack."""
    for token in tokens:
        found = re.fullmatch(r"'\\(?:x([0-9a-fA-F]{1,2})|([0-7]{1,3}))'", token.text)
        text = hex(int(found[1], 16) if found[1] else int(found[2], 8)) if found else token.text
        if token.kind == "number" and text.startswith("0X"):
            text = "0x" + text[2:]
        if text != token.text:
            notes.say(token, f"put in place: {text} for {token.text}")
            token.text = text


def brought(path, folders, defines, notes):
    """The text of a file as Flick takes it."""
    lines = common.without_directives(common.lines_of(path, folders, defines, notes), notes, effect_of)
    tokens = list(common.tokens_of(lines))
    mended_texts(tokens, notes)
    nodes = nodes_of(tokens, ())
    file = File([*prelude(nodes, tokens), *nodes], path, notes)
    file.judge()
    return "".join(f"{common.spelled(file.text([node]))}\n" for node in file.nodes if file.is_kept(node))
