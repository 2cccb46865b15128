"""What the sources say of themselves: the crates, their functions with doc lines and clauses, their definitions with comments."""
import functools
import glob
import os
import re
import sys

TOP = os.path.dirname(os.path.dirname(os.path.dirname(os.path.abspath(__file__))))
sys.path.insert(0, f"{TOP}/tests/bugs")
import sums  # noqa: E402

CLAUSE = re.compile(r"^ *ensures (?:(\w+) )?\{")


@functools.lru_cache(maxsize=None)
def text_of(path):
    """The content of a file below the top."""
    with open(f"{TOP}/{path}", encoding="utf-8") as file:
        return file.read()


def sentence(text):
    """The first sentence of a text, without its full stop."""
    found = re.match(r"(.*?[^.])\.(?= +[A-Z`]|$)", text.strip(), re.S)
    return " ".join((found[1] if found else text).split()).rstrip(".")


# ---- crates

@functools.lru_cache(maxsize=None)
def crates():
    """The crates of crates.txt by layer: a comment, and the names below it with what each stands on."""
    layers, comment = [], []
    for line in text_of("crates.txt").splitlines():
        if line.startswith("#"):
            comment.append(line.lstrip("# "))
        elif found := re.match(r"(\w+)[^:#]*:([^#]*)", line):
            if comment:
                layers.append((" ".join(comment), {}))
                comment = []
            layers[-1][1][found[1]] = found[2].split()
        else:
            comment = []
    return layers


def crate_names():
    return [name for _, names in crates() for name in names]


@functools.lru_cache(maxsize=None)
def purpose(crate):
    """What a crate is: the first sentence of its README, or nothing where it has none."""
    path = f"crates/{crate}/README.md"
    paragraphs = text_of(path).split("\n\n") if os.path.exists(f"{TOP}/{path}") else []
    return sentence(paragraphs[1]) if len(paragraphs) > 1 else ""


# ---- functions

class Call:
    """A function: what is said of it, and its clauses, each with the comment line that it stands below."""

    def __init__(self, crate, it):
        self.crate, self.name, self.owner, self.of, self.text = crate, it.name, it.owner, it.of, it.text
        self.path = os.path.relpath(it.file, TOP)
        file = sums.content(it.file)
        self.is_public = it.text.strip().startswith("pub fn") or bool(re.search(rf"^pub trait {it.owner}\b", file, re.M)) and bool(it.owner)
        body = re.search(r"\n *\{.*", it.text)
        self.is_law = bool(body) and body[0].strip() == "{}" or "Does nothing" in doc_above(file, it.text)
        self.doc = doc_above(file, it.text)
        self.clauses = clauses_of(it.text)

    def shown(self):
        return f"{self.owner}::{self.name}" if self.owner else self.name


def doc_above(file, text):
    """The doc lines above a piece of a file, as one paragraph."""
    doc = []
    for line in reversed(file[:file.find(text)].split("\n")[:-1]):
        if not line.strip().startswith(("///", "#[")):
            break
        if line.strip().startswith("///"):
            doc.insert(0, line.strip()[3:].strip())
    return " ".join(doc)


def clauses_of(text):
    """The clauses of a function's text: the name (empty where it has none), the term, and the comment above."""
    clauses, comment, lines = [], "", text.split("\n")
    for n, line in enumerate(lines):
        if n and re.match(r" *\{", line):
            break
        if line.strip().startswith("//"):
            comment = line.strip().lstrip("/ ")
        if found := CLAUSE.match(line):
            term = [line[found.end():]]
            for more in lines[n + 1:]:
                if CLAUSE.match(more) or re.match(r" *(requires|//|\{$)", more) or len(more) - len(more.lstrip()) <= len(line) - len(line.lstrip()):
                    break
                term.append(more.strip())
            clauses.append((found[1] or "", " ".join(" ".join(term).split()).rstrip("} "), comment))
    return clauses


@functools.lru_cache(maxsize=None)
def calls(crate):
    """The functions of a crate that have clauses."""
    found = []
    for it in sums.functions(crate):
        call = Call(crate, it)
        if call.clauses:
            found.append(call)
    return found


@functools.lru_cache(maxsize=None)
def exported(crate):
    """The names that a crate's lib.rt gives to others, and its public modules."""
    text = sums.content(f"{TOP}/crates/{crate}/src/lib.rt") or sums.content(f"{TOP}/crates/{crate}/src/main.rt")
    named = re.findall(r"^pub use ([^;]+);", text, re.M | re.S)
    names = {word for each in named for word in re.findall(r"\w+", each)}
    return names, set(re.findall(r"^pub mod (\w+);", text, re.M))


@functools.lru_cache(maxsize=None)
def words_of(crate):
    """The words of a crate's code."""
    return set(re.findall(r"\w+", "\n".join(sums.content(path) for path in glob.glob(f"{TOP}/crates/{crate}/src/**/*.rt", recursive=True))))


def is_used(call):
    """Whether another crate names it, and its type or its crate."""
    others = (words_of(other) for other in crate_names() if other != call.crate)
    return any(call.name in words and (call.owner or call.crate) in words for words in others)


def is_given(call):
    """Whether others may call it."""
    names, modules = exported(call.crate)
    return call.is_public and not call.of and (bool(modules) or (call.owner or call.name) in names)


# ---- definitions

class Definition:
    """A definition of a file of specs/: its lines with the comment above, and the names in it."""

    def __init__(self, path, name, comment, lines):
        self.path, self.name, self.comment, self.lines = path, name, " ".join(comment).rstrip("."), lines

    def shown(self):
        """Its name; of a block the first name in it."""
        return self.name if self.name != "mutual" else next(name for line in self.lines for name in inner_names(line))

    def words(self):
        """The words in it, also those of another file by that file's name."""
        text = "\n".join(line for line in self.lines if not line.strip().startswith("--"))
        return set(re.findall(r"[^\s(){},;.|]+", text)) | set(re.findall(r"\w+\.\w+", text))


@functools.lru_cache(maxsize=None)
def definitions(path):
    """The definitions of a file in order."""
    found, comment, block = [], [], None
    for line in text_of(path).split("\n"):
        if line.startswith("--"):
            comment.append(line.lstrip("- "))
            block = None
        elif not line.strip():
            comment, block = [], block if block and block.name == "mutual" else None
        elif block and block.name == "mutual" and line.startswith(" "):
            block.lines.append(line)
        elif line.startswith(("use ", "ghost use", "pub use")):
            comment, block = [], None
        elif block is None:
            names = declared(line)
            block = Definition(path, names, comment, [line])
            found.append(block)
            comment = []
        else:
            block.lines.append(line)
    for each in found:
        each.names = {each.name} | {name for line in each.lines for name in inner_names(line)}
    return found


def declared(line):
    words = line.replace("(", " ").split()
    words = [word for word in words if word not in ("abbrev", "pub", "unfoldable", "record", "data", "mutual", "relation", "ruleset", "module")]
    return words[0] if words else "mutual"


def inner_names(line):
    """The names that a line inside a block declares: constructors, fields, members of a mutual block."""
    found = re.match(r" +(?:pub )?(?:data |record |abbrev |relation )*(\S+) (?:\([^)]*\) )*:", line)
    return [found[1]] if found else []


IMPORT = re.compile(r"^(?:ghost |pub )*use Rattle\.(\w+)\.specs\.(\w+)(?:\.\{([^}]*)\}| as (\w+)|\.(\w+))", re.M)


@functools.lru_cache(maxsize=None)
def imports(path):
    """The names that a file imports of specs/ files of the repository, each with its file and its name there; and the files that it names whole."""
    named, whole = {}, {}
    for crate, module, names, alias, alone in IMPORT.findall(re.sub(r"^ +", "", text_of(path), flags=re.M)):
        file = f"crates/{crate}/specs/{module}.antt"
        if not os.path.exists(f"{TOP}/{file}"):
            continue
        if alias:
            whole[alias] = file
        for name in (part.strip() for part in f"{names},{alone}".split(",")):
            if name:
                named[name.split(" as ")[-1]] = (file, name.split(" as ")[0])
    return named, whole


def defined(path, name):
    """The definition that a name in a file stands for, or nothing."""
    named, whole = imports(path)
    if "." in name:
        alias, last = name.split(".")
        return defined(whole[alias], last) if alias in whole else None
    file, name = named.get(name, (path, name))
    for each in definitions(file) if file.endswith(".antt") else ():
        if name in each.names:
            return each
    return defined(file, name) if file != path and name in imports(file)[0] else None
