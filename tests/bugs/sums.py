"""The sum of what a planted bug was tried at: the text of its function with the clauses that it is under.

A method of an implementation is under the clauses of its trait too, where the trait is in a crate of the repository. Of an
edit at another place the function that it stands in counts as well, or the part of the file between empty lines. A mark
`refused` keeps this sum, as a word of digits: where the sum is another one, the bug was not tried since.
"""
import functools
import glob
import hashlib
import json
import os
import re

TOP = os.path.dirname(os.path.dirname(os.path.dirname(os.path.abspath(__file__))))
DIGITS = 12
FUNCTION = re.compile(r" *(?:pub(?:\(\w+\))? )?(?:const )?(?:unsafe )?fn (\w+)")
IMPL = re.compile(r"impl\b(?:<.*?>)? *(?:(\w[\w:]*)(?:<.*>)? for )?&?(\w+)")
TRAIT = re.compile(r"(?:pub(?:\(\w+\))? )?trait (\w+)")


def depth(line):
    return len(line) - len(line.lstrip(" "))


def ends_at(lines, start):
    """The number of the last line of a function, with or without a body."""
    margin = " " * depth(lines[start])
    for n in range(start, len(lines)):
        line = lines[n]
        if line == f"{margin}}}" or depth(line) == depth(lines[start]) and line.endswith((";", " }")) and not re.match(r" *(requires|ensures)\b", line):
            return n
        if n > start and line.strip() and depth(line) < depth(lines[start]):
            return n - 1
        if depth(line) > depth(lines[start]) and line.endswith("};") and n + 1 < len(lines) and FUNCTION.match(lines[n + 1]):
            return n
    return len(lines) - 1


class Function:
    """A function of a file: its name, the type or trait that it belongs to, the trait that is implemented, its lines."""

    def __init__(self, file, name, owner, of, lines):
        self.file, self.name, self.owner, self.of, self.text = file, name, owner, of, "\n".join(lines)


@functools.lru_cache(maxsize=None)
def functions(crate):
    """The functions of a crate."""
    found = []
    for file in sorted(glob.glob(f"{TOP}/crates/{crate}/src/**/*.rt", recursive=True)):
        with open(file, encoding="utf-8") as text:
            lines = text.read().split("\n")
        owner = of = ""
        for n, line in enumerate(lines):
            if line and not line.startswith((" ", "}", "/", "#")):
                impl, trait = IMPL.match(line), TRAIT.match(line)
                owner, of = (impl[2], impl[1] or "") if impl else (trait[1], "") if trait else ("", "")
            if named := FUNCTION.match(line):
                is_member = line.startswith(" ")
                found.append(Function(file, named[1], owner if is_member else "", of if is_member else "", lines[n:ends_at(lines, n) + 1]))
    return found


@functools.lru_cache(maxsize=None)
def traits():
    """The functions of traits of the repository by the trait's name and theirs."""
    crates = [os.path.basename(path) for path in glob.glob(f"{TOP}/crates/*")]
    return {(it.owner, it.name): it.text for crate in crates for it in functions(crate) if it.owner and not it.of}


def found(crate, path):
    """The functions of a crate that a path names, those in the file of its module where there are such."""
    words = path.split("::")[1:]
    owner = words[-2] if len(words) > 1 and words[-2][:1].isupper() else ""
    named = [it for it in functions(crate) if it.name == words[-1] and owner in (it.owner, it.owner + it.of.split("::")[-1])]
    named = named or [it for it in functions(crate) if it.name == words[-1]]
    modules = [word for word in words[:-1] if word != owner]
    near = [it for it in named if modules and re.search(rf"/src/{'/'.join(modules)}(/mod)?\.rt$", it.file)]
    return near or named


def place_of(text, old):
    """The part of a text, between empty lines, in which a piece of it begins."""
    at = text.find(old)
    begin, end = text.rfind("\n\n", 0, at + 1), text.find("\n\n", at + len(old))
    return text[begin + 1:end if end >= 0 else len(text)]


@functools.lru_cache(maxsize=None)
def content(path):
    if not os.path.isfile(path):
        return ""
    with open(path, encoding="utf-8") as file:
        return file.read()


def parts(crate, bug):
    """The texts that a bug stands on, or none where its place is not there."""
    texts = []
    if bug["function"]:
        named = found(crate, bug["function"])
        texts += [it.text for it in named] + [traits().get((it.of.split("::")[-1], it.name), "") for it in named if it.of]
    for edit in bug["edits"]:
        path = f"{TOP}/crates/{crate}/{edit['file']}"
        if content(path).count(edit["old"]) != 1:
            return []
        if not any(edit["old"] in text for text in texts):
            inside = [it.text for it in functions(crate) if it.file == path and edit["old"] in it.text]
            texts += inside[:1] or [place_of(content(path), edit["old"])]
    return texts


def sum_of(crate, bug):
    """The sum of what a bug stands on, or nothing where its place is gone."""
    texts = parts(crate, bug)
    return hashlib.sha256("\0".join(texts).encode()).hexdigest()[:DIGITS] if texts else ""


def is_tried(crate, bug):
    """Whether the bug was refused when its function and its clauses were what they are."""
    return bool(bug.get("refused")) and bug["refused"] == sum_of(crate, bug)


def bugs_of(crate):
    """The bugs of a crate."""
    return json.loads(content(f"{TOP}/tests/bugs/{crate}.json") or "[]")


def written(crate, bugs):
    """Writes the bugs of a crate."""
    with open(f"{TOP}/tests/bugs/{crate}.json", "w", encoding="utf-8") as file:
        file.write(json.dumps(bugs, indent=1, ensure_ascii=False) + "\n")


def crates():
    """The crates that have bugs."""
    return sorted(os.path.basename(path).removesuffix(".json") for path in glob.glob(f"{TOP}/tests/bugs/*.json"))
