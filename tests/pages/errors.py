"""docs/ERRORS.md: the lines that begin with `?` or `!`, by the enums of the program, the causes of flick_explain, and the rows of tests."""
import glob
import json
import os
import re

import sources
from sources import TOP

LANGUAGES = {"onc": "ONC", "corba": "CORBA", "mig": "MIG"}
LEAST, LONGEST, LONGEST_LINE = 8, 64, 100  # the characters of a file that is shown, and of a line
# The lines of which the cause in flick_explain says more than the doc line.
WITH_CAUSE = ("? name Unknown", "? bind Many", "! json", "! request", "! op", "! hex", "! head Type")
HEAD = """# What the program says when it refuses

A file is refused by one line that begins with `?`, its first fault, and status 3; a line of the input by one that begins with `!`: the others are still answered, and the status is 1. AT is the place of an octet, from 0; LINE is a line and DECL a declaration of FILE, from 1 (`docs/GRAMMAR.md`). `./explain` shows the place.

An entry has the meaning, an example, and what may help. `tests/print_docs` prints it from the code and rows of tests.
"""
# Sentences of what no variant stands for; and what is worth knowing besides.
SAID = {"! long": "The line is above its limit and was not read, or its message would be above the limit.", "! json": "The line is not JSON.", "! hex": "",
        "? syntax": "The definition that begins on line LINE has no tree; of CORBA it may be a module.",
        "? replies": "Line LINE, from 1 over all, is no reply record with a message, or its operation has one already. A head number and `refused` are not taken.",
        "! pair": "BACK2 has no operation of the interface and name that the message calls.",
        "! frame Cut": "The stream ends within a message.",
        "! text": "No text of stub code begins on line LINE, from 1; it is the last line."}
BESIDES = {
    "? lex Directive": "`./bring-in` runs `cpp` over the file.",
    "? name Unknown": "In a CORBA file a name of another module wants its scope, as in `M::name`. `./bring-in` mends much of this.",
    "? name Twice": "An attribute `x` has the names `_get_x` and `_set_x` too.",
    "? syntax": "`docs/GRAMMAR.md` has the grammar; a word that it quotes is not a name.",
    "? name Range": "A length is at least 1, a bound 0, in a CORBA or MIG file 1; both are at most 2^32 - 1. A shift is by 0 to 63, an item has 32 signed bits. The base, the ids and 100 of a subsystem are at most 2^31 - 1 together. Any other number fits its type.",
    "? name OutOfScope": "So it is with floating-point numbers, `any`, `Object`, and ports within messages.",
    "? bind Wide": "README has the limits.",
    "? bind Deep": "A request adds a level around parameters; an answer and a reply add theirs around a result.",
    "! long": "Under `unreply` the operation's name and the space count.",
    "! op": "Under `reply` and `unreply` it needs a reply.",
    "! request": "A line of `unreply` has a space.",
    "! head Type": "Under `unreply`: no reply to this operation.",
    "! meaning": "A right stub may get it.",
    "! head Item": "So a GIOP reply of status 3, LOCATION_FORWARD, is refused.",
}
FILE = (("? file", "saying", "NoFile", ""), ("? size", "saying", "TooLarge", ""))
REPLIES = (("? replies file", "saying", "NoReplies", ""), ("? replies size", "saying", "LargeReplies", ""), ("? replies", "saying", "WrongReply", "LINE"))
STUBS = (("? stubs file", "saying", "NoStubs", ""), ("? stubs size", "saying", "LargeStubs", ""), ("! text", "", "", "LINE"),
         ("! meaning", "verdict", "Meaning", "OP"), ("! cover", "verdict", "Cover", "OP"))
RECORDS = (("! long", "", "", ""), ("! json", "", "", ""), ("! request", "record", "Request", ""), ("! op", "record", "Op", ""),
           ("! head", "record", "Head", ""), ("! value", "record", "Shape", ""))
# The enums of the program, each by its crate and a variant that it has.
ENUMS = {"lex": ("idl_lex", "OpenComment"), "name": ("aoi", "CaseClash"), "bind": ("pres", "Heavy"), "head": ("wire_def", "Magic"), "body": ("wire_def", "OverBound"),
         "saying": ("flick_top", "WrongReply"), "verdict": ("stub_check", "Cover"), "record": ("json_shape", "Op"), "message": ("flick_engine", "NoInterface"), "frame": ("wire_frames", "TooLong")}


WITH_TEXT = ("? replies", "! json", "! request", "! value")  # the lines of which an example has what ./explain says of it


def variants(enum):
    """The variants of an enum of the program with their doc lines, but for out of memory."""
    crate, variant = ENUMS[enum]
    texts = (sources.sums.content(path) for path in sorted(glob.glob(f"{TOP}/crates/{crate}/src/**/*.rt", recursive=True)))
    bodies = [body for text in texts for body in re.findall(r"^pub enum \w+ \{\n(.*?)\n\}", text, re.S | re.M) if re.search(rf"^    {variant}\b", body, re.M)]
    if not bodies:
        raise SystemExit(f"tests/pages/errors.py: no enum of {crate} has the variant {variant}")
    body = bodies[0]
    found, doc = {}, []
    for line in body.split("\n"):
        if line.strip().startswith("///"):
            doc.append(line.strip()[3:].strip())
        elif each := re.match(r"    (\w+)", line):
            found[each[1]] = " ".join(doc)
            doc = []
    found.pop("NoMemory", None)
    return found


def causes():
    """The causes of flick_explain, by the function that tells them and the word that each is of, `_` or none."""
    found = {}
    for path in ("causes", "refusals"):
        text = sources.text_of(f"crates/flick_explain/src/{path}.rt")
        for part in re.split(r"\bfn (?=\w+\()", text)[1:]:
            function = re.match(r"\w+", part)[0]
            for word, strings in re.findall(r'(?:(b"\w+"|\b_)(?: if [^=]*==[^=]*)? => (?:Some\()?)?Cause::\w+\(\s*((?:"[^"]*",?\s*)+)\)', part):
                *_, why, repair = re.findall('"([^"]*)"', strings)
                found.setdefault((function, word.strip('b"')), []).append({"why": why, "repair": repair})
    return found


def whole(text):
    """A text as a sentence, in which the first word stands in backquotes where it is a member or a command."""
    text = text.strip()
    word = text.split(" ")[0]
    text = f"`{word}`{text[len(word):]}" if word in ("op", "unmarshal") else text if word.startswith("docs/") else text[:1].upper() + text[1:]
    return re.sub(r"\bdocs/\w+\.md", r"`\g<0>`", text) + ("" if text.endswith((".", "!")) else ".")


# ---- examples

def answer_words(answer):
    """An answer without its numbers."""
    return " ".join(word for word in answer.split() if not word.isdigit())


def rows(pattern):
    for path in sorted(glob.glob(f"{TOP}/tests/{pattern}")):
        with open(path, encoding="utf-8") as file:
            yield os.path.basename(path).removesuffix(".json"), json.load(file)


def short(text, longest=LONGEST):
    """A text on one line in backquotes, where it is short enough."""
    if not isinstance(text, str) or not text.strip() or "`" in text or not text.isprintable() and "\n" not in text:
        return ""
    if "#" in text and "\n" in text.strip():
        return ""
    line = " ".join(text.split())
    return f"`{line}`" if len(line) <= longest else ""


def explained():
    """The first line of each answer that ./explain has a row of, with what is said of it, the back end and the command."""
    found = {}
    for table in ("lines", "commands"):
        for _, listed in rows(f"explain/{table}.json"):
            for row in listed:
                text = re.sub(r"^(FILE|LINES|REPLIES|STUBS)(:\d+)*: ", "", row["said"][0]).rstrip(":")
                if shown := short(row.get("replies") if row["answer"].startswith("? replies") else row.get("line"), LONGEST_LINE):
                    found.setdefault(answer_words(row["answer"]), (shown, text, row.get("over", ""), row.get("command", "")))
    return found


def told_files():
    """A file of each language that is refused, by answer: its text where that is short, else its name; those of tests/explain first."""
    found = {}
    for folder in ("explain", "files"):
        for language in LANGUAGES:
            for _, listed in rows(f"{folder}/{language}.json"):
                for row in listed:
                    if row["answer"] and not re.search(r"\b(before|hides|faults?|answer)\b", row["name"]):
                        answer = answer_words(row["answer"])
                        languages = found.setdefault(answer, {})
                        is_plain = len(str(row["file"])) >= LEAST and ("/*" not in str(row["file"]) or answer == "? lex OpenComment")
                        text = short(row["file"]) if is_plain else ""
                        if language not in languages or text and not languages[language].startswith("`"):
                            languages[language] = text or row["name"]
    return found


class Page:
    def __init__(self):
        self.causes, self.repair = causes(), ""
        self.files, self.said = told_files(), explained()

    def of_word(self, function, word=""):
        """The last cause of a word: those before it are of some verbs alone."""
        return self.causes.get((function, word), [])[-1:]

    def entry(self, answer, place, doc, found):
        """An entry: what is there, why, an example, and what may help."""
        told = dict.fromkeys([whole(doc)] if doc else [])
        if answer in WITH_CAUSE:
            told.update(dict.fromkeys(whole(each["why"]) for each in found[:1]))
        told.update(dict.fromkeys([BESIDES[answer]] if answer in BESIDES else []))
        yield from ("", f"**`{f'{answer} {place}'.strip()}`** {' '.join(told)}")
        if example := self.example(answer):
            yield example
        if found and "docs/ERRORS.md" not in found[0]["repair"]:
            yield "*As above.*" if found[0]["repair"] == self.repair else f"*{whole(found[0]['repair'])}*"
            self.repair = found[0]["repair"]

    def example(self, answer):
        """The text of a file that is refused so, where there is a short one; or a line, and of a record what is said of it."""
        if languages := self.files.get(answer) if answer.startswith("? ") else None:
            texts = [text for text in languages.values() if text.startswith("`")]
            return f"{texts[0]}." if texts else ""
        if answer in self.said:
            shown, text, over, command = self.said[answer]
            where = "".join(part for part in (f" under `{command}`" if command else "", f" over `{over}`" if over else "") if part)
            return f"{shown}{where}: {text}." if answer in WITH_TEXT else f"{shown}{where}."
        return ""


def group(out, page, heading, entries, first=()):
    out += ["", f"## {heading}", *(part for line in first for part in ("", line))]
    for answer, place, doc, names in entries:
        out += page.entry(answer, place, doc, names)


OF_RECORDS = {"! long": ("cause", "long"), "! json": ("cause", "json"), "! request": ("request_cause", "request"), "! op": ("unknown_op_cause",),
              "! head": ("head_cause",), "! value": ("request_cause", "_")}
OF_STUBS = {"! text": "text", "! meaning": "meaning", "! cover": "_"}


def page():
    page, out = Page(), [HEAD.rstrip("\n")]
    saying, record, message = variants("saying"), variants("record"), variants("message")
    entries = [(answer, place, saying[variant], []) for answer, _, variant, place in FILE]
    entries += [(f"? lex {word}", "AT", doc, page.of_word("lex_cause", word)) for word, doc in variants("lex").items()]
    entries += [("? syntax", "LINE", SAID["? syntax"], [])]
    entries += [(f"? name {word}", "DECL", re.sub(r"^It ", "The name ", doc), page.of_word("name_cause", word) or page.of_word("number_cause", word)) for word, doc in variants("name").items()]
    entries += [(f"? bind {word}", "", doc, page.of_word("bind_cause", word)) for word, doc in variants("bind").items()]
    group(out, page, "FILE is refused", entries)
    group(out, page, "REPLIES is refused (`serve`)", [
        (answer, place, SAID.get(answer) or saying[variant], []) for answer, _, variant, place in REPLIES])
    group(out, page, "STUBFILE or a stub in it is refused (`check`)", [
        (answer, place, SAID.get(answer) or variants(enum)[variant], page.of_word("stub_cause", OF_STUBS.get(answer))) for answer, enum, variant, place in STUBS],
        ["`docs/STUBS.md`, \"Stubs of other makers\"."])
    group(out, page, "A record is refused (`marshal`, `count`, `reply`)", [
        (answer, place, SAID.get(answer) or record[variant], page.of_word(*OF_RECORDS[answer])) for answer, _, variant, place in RECORDS])
    entries = [("! hex", "", SAID["! hex"], page.of_word("message_cause", "hex"))]
    entries += [(f"! head {word.rstrip('_')}", "", doc, page.of_word("head_cause", word.rstrip("_")) if word in ("Short", "Type_") else []) for word, doc in variants("head").items()]
    entries += [("! interface", "", message["NoInterface"], page.of_word("message_cause", "interface")), ("! operation", "", message["NoOperation"], page.of_word("message_cause", "operation"))]
    entries += [(f"! body {word}", "AT", doc, page.of_word("body_cause", word)) for word, doc in variants("body").items()]
    entries += [("! trailing", "AT", message["Trailing"], page.of_word("message_cause", "trailing")), ("! pair", "", SAID["! pair"], page.of_word("message_cause", "pair"))]
    group(out, page, "A message is refused (`unmarshal`, `unreply`, `serve`, `bridge`)", entries, [
        f"{whole(page.of_word('head_cause', '_')[0]['repair'])} It says over which BACK a fault comes, and shows faults of bodies."])
    entries = [(f"! frame {word}", "", doc, page.of_word("frame_cause", word)) for word, doc in variants("frame").items()]
    entries += [("! frame Cut", "", SAID["! frame Cut"], page.of_word("frame_cause", "Cut"))]
    group(out, page, "A stream is refused (`unpipe`)", entries, ["It is the last line; the messages before it are answered."])
    return "\n".join(out) + "\n"
