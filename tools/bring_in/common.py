"""What is the same for the three languages: the preprocessor, tokens with their places, and the lines that say what was done."""
import os
import re
import subprocess
import sys
import tempfile

DIRECTIVE = re.compile(r"[ \t]*#[ \t]*(\w*)[ \t]*(.*)")
MARKER = re.compile(r'[ \t]*#[ \t]*(?:line[ \t]+)?(\d+)[ \t]+"([^"]*)"(.*)')
MISSING = re.compile(r"^(.*?):(\d+):(?:\d+:)? fatal error: (.*?): No such file or directory$", re.M)
TESTED = re.compile(r"[ \t]*#[ \t]*(?:if|ifdef|ifndef|elif)\b(.*)")
COMMENT = re.compile(r"/\*.*?\*/|//[^\n]*", re.S)
TOKEN = re.compile(r"""
    (?P<blank>(?:\s|/\*.*?\*/|//[^\n]*)+)
  | (?P<word>[A-Za-z_]\w*(?!["'\w]))
  | (?P<number>\d(?:[eE][+-]|[\w.])*)
  | (?P<text>L?"(?:\\.|[^"\\\n])*"|L?'(?:\\.|[^'\\\n])+')
  | (?P<mark>::|.)""", re.S | re.X)


class Stop(Exception):
    """What makes the work end: a file that is not there, or that the preprocessor refuses."""


class Notes:
    """The lines that say what was done, each with its place."""

    def __init__(self, in_part):
        self.lines = []
        self.in_part, self.unmended = in_part, False

    def say(self, token, what):
        """A step, at the place of a token."""
        line = f"{token.file}:{token.line}: {what}"
        if line not in self.lines:
            self.lines.append(line)

    def fail(self, token, cause, what, always=False):
        """What cannot be mended: its cause in a few words that are the same everywhere, and what it is here.

        A file that is brought in in part lacks it, where it can be left out.
        """
        is_left = self.in_part and not always
        self.unmended |= not is_left
        self.say(token, f"{'left out' if is_left else 'not mended'}: {cause}: {what}")


class Token:
    """A token with the blanks before it and its place."""

    def __init__(self, before, text, kind, file, line):
        self.before, self.text, self.kind, self.file, self.line = before, text, kind, file, line


def cpp(path, folders, defines, notes):
    """The text of a file after the preprocessor. An included file that is nowhere is left out."""
    with tempfile.TemporaryDirectory() as empty:
        words = ["cpp", "-undef", "-nostdinc", "-w", "-dU", "-x", "c", *(f"-D{each}" for each in defines), *(f"-I{each}" for each in folders),
                 f"-I{os.path.dirname(path) or '.'}", "-idirafter", empty, path]
        while True:
            try:
                run = subprocess.run(words, capture_output=True, env={**os.environ, "LC_ALL": "C"})
            except FileNotFoundError:
                raise Stop("the file has directives, and there is no `cpp` to carry them out (it comes with gcc)") from None
            said = run.stderr.decode("utf-8", "replace")
            if run.returncode == 0:
                return run.stdout.decode("latin-1")
            missing = MISSING.search(said)
            if not missing or ".." in missing[3].split("/") or os.path.isabs(missing[3]):
                raise Stop("\n".join(["cpp refuses the file", *(line for line in said.splitlines() if "error:" in line)]))
            notes.say(Token("", "", "", missing[1], int(missing[2])),
                      f"left out: #include of {missing[3]}, which is in no folder; -I DIR says where to look")
            os.makedirs(os.path.dirname(f"{empty}/{missing[3]}"), exist_ok=True)
            with open(f"{empty}/{missing[3]}", "wb"):
                pass


def content(path):
    """The text of a file, an octet a character."""
    with open(path, "rb") as file:
        return file.read().decode("latin-1")


def say_tested(files, undefined, notes):
    """Says which names directives ask for that are not defined. A file's own mark, which it defines after it asked, is not said."""
    texts = {path: content(path) for path in files}
    for text in texts.values():
        undefined = undefined - set(re.findall(r"^[ \t]*#[ \t]*define[ \t]+(\w+)", text, re.M))
    for path, text in texts.items():
        for n, line in enumerate(text.splitlines(), 1):
            tested = TESTED.match(line)
            for name in re.findall(r"[A-Za-z_]\w*", COMMENT.sub("", tested[1])) if tested else []:
                if name in undefined:
                    undefined = undefined - {name}
                    notes.say(Token("", "", "", path, n), f"{name} is not defined, of which {shown_line(line)} asks; -D {name} would define it")


def shown_line(line):
    """A directive in a note."""
    return " ".join(COMMENT.sub("", line).split())


def without_comments(text):
    """A text whose comments are blanks. A line that begins with `%` begins no comment."""
    lines, inside = [], False
    for line in text.split("\n"):
        if not inside and line.startswith("%"):
            lines.append(line)
            continue
        kept = ""
        while line:
            mark = "*/" if inside else "/*"
            front, found, line = line.partition(mark)
            kept += "" if inside else front + " " * bool(found)
            inside = inside != bool(found)
        lines.append(kept)
    if inside:
        raise Stop("a comment is not closed")
    return "\n".join(lines)


def lines_of(path, folders, defines, notes):
    """The lines of a file after the preprocessor, each with its file and number. A file without directives needs none."""
    try:
        given = content(path)
    except OSError as fault:
        raise Stop(f"{path}: {fault.strerror}") from None
    if not re.search(r"^[ \t]*#", given, re.M) and not defines:
        yield from ((line, path, n) for n, line in enumerate(without_comments(given).split("\n"), 1))
        return
    file, n, undefined, files, found = path, 1, set(), [path], []
    for line in cpp(path, folders, defines, notes).split("\n"):
        marker, directive = MARKER.match(line), DIRECTIVE.match(line)
        if marker:
            if "1" in marker[3].split() and not marker[2].startswith("<"):
                if os.path.exists(marker[2]):  # not one that was made for a file that is nowhere
                    files.append(marker[2])
                    notes.say(Token("", "", "", file, n), f"put in place: {marker[2]}, which is included")
            file, n = marker[2], int(marker[1])
            continue
        if directive and directive[1] in ("define", "undef"):  # cpp -dU counts these among the lines
            undefined |= {directive[2].split()[0]} if directive[1] == "undef" else set()
        else:
            found.append((line, file, n))
        n += 1
    say_tested(files, undefined, notes)
    yield from found


def tokens_of(lines):
    """The tokens of lines."""
    lines = list(lines)
    text = "".join(f"{line}\n" for line, _, _ in lines)
    before, at, row = "", 0, 0
    for found in TOKEN.finditer(text):
        if found.lastgroup == "blank":
            before = COMMENT.sub(lambda comment: "\n" * comment[0].count("\n") or " ", found[0])
        else:
            row += text.count("\n", at, found.start())
            at = found.start()
            yield Token(before, found[0], found.lastgroup, *lines[row][1:])
            before = ""


def spelled(tokens):
    """The text of tokens, without blank lines at its ends or within."""
    text = "".join(token.before + token.text for token in tokens).lstrip()
    lines = [line.rstrip() for line in text.expandtabs(8).split("\n")]
    return re.sub(r"\n\s*;$", ";", "\n".join(line for line in lines if line))


def joined(tokens):
    """The texts of tokens with a blank between each two, for a form to match."""
    return " ".join(token.text for token in tokens)


def shown(tokens, most=60):
    """The text of tokens on one line, for a note, without the mark at its end."""
    text = " ".join("".join(token.before + token.text for token in tokens).split()).rstrip(" ;")
    return text if len(text) <= most else f"{text[:most].rstrip()} .."


def statements(tokens):
    """The tokens in pieces that each end with a `;` outside of braces and parentheses; the last may lack it."""
    piece, depth = [], 0
    for token in tokens:
        piece.append(token)
        depth += (token.text in ("{", "(")) - (token.text in ("}", ")"))
        if token.text == ";" and depth <= 0:
            yield piece
            piece, depth = [], 0
    if piece:
        yield piece


def closing(tokens, at):
    """The place of the mark that closes the one at a place, or the end."""
    opens, depth = tokens[at].text, 0
    closes = {"{": "}", "(": ")", "<": ">"}[opens]
    for n in range(at, len(tokens)):
        depth += (tokens[n].text == opens) - (tokens[n].text == closes)
        if depth == 0:
            return n
    return len(tokens) - 1


def prelude(name):
    """The tokens of a prelude, which is data beside this file or an example."""
    with open(f"{os.path.dirname(os.path.abspath(__file__))}/{name}", encoding="ascii") as file:
        text = file.read()
    return list(tokens_of((line, os.path.basename(name), n) for n, line in enumerate(text.split("\n"), 1)))


def without_directives(lines, notes, effect):
    """The lines with what is for the compiler alone left out, which is said with its effect."""
    for line, file, n in lines:
        if DIRECTIVE.match(line):
            notes.say(Token("", "", "", file, n), f"left out: {shown_line(line)}: {effect(DIRECTIVE.match(line)[2])}")
            line = ""
        yield line, file, n


def report(notes):
    """Writes what was done on standard error."""
    sys.stderr.write("".join(f"{line}\n" for line in notes.lines))
