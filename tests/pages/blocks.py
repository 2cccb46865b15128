"""Blocks of the pages that are written by hand: what stands between two markers is printed.

<!-- printed: KIND ARGUMENTS --> begins a block, <!-- end of what is printed --> ends it. KIND is

usage     the page that `flick --help` writes
session   FOLDER WORDS || WORDS..: of the transcript of a folder of examples/, the commands that have these words, run from the top
octets    FORMAT/FILE:FROM WHAT || WHAT..: rows of vectors/, by what they are of, with their octets from a place on
refused   the same, of messages that are refused
versions  BACK BACK/FILE WHAT: a request of vectors/ over two back ends, of GIOP 1.0 and 1.2, side by side by its parts
crates    the crates of crates.txt, each with the first sentence of its README
words     WORD, USUAL TERM: CRATE NAME || ..: our words, each with the first sentence of the doc line or comment of its definition
grammar   onc, corba or mig: the rules by which tests/model reads files of the language
touched   WHAT = NEIGHBOUR || ..: what may be added, and the files of src/ and specs/ that name a thing like it
variants  CRATE ENUM: LINE = VARIANT || ..: lines of stub code, each with the doc line of its variant
items     CRATE NAME NAME..: what a crate gives to others, each with the first sentence of its doc line
head      PATH: what a program of the repository writes of itself
counts    the counts of bench/run, each with its first line
limits    the limits that several crates keep
dearest   the dearest lines in memory and in time, by bench/figures.json
tried     the runs that fail on purpose, by tests/lines and bench/figures.json
tools     PATH PATH..: programs of the repository, each with its words and what it does, by the first lines of its own text
worked    the codes that tests/model runs, with what they send and cost
vectors   how many vectors there are, by category and back end
lowered   ENCODING ENCODING..: the code of types over encodings, as tests/model makes it
stages    BACK FILE OPERATION: the code of a request after each pass, as tests/model makes it
"""
import functools
import glob
import itertools
import json
import os
import re
import subprocess
import sys

import sources
from sources import TOP

BLOCK = re.compile(r"(<!-- printed: (\w+)((?: [^\n]*?)?) -->\n)(.*?)(<!-- end of what is printed -->)", re.S)


def content(path):
    with open(f"{TOP}/{path}", encoding="utf-8") as file:
        return file.read()


def usage(_):
    text = re.search(r'pub const USAGE: &\[u8\] = b"(.*?)";', content("crates/flick_top/src/report.rt"), re.S)[1]
    return ["```", *re.sub(r"\\\n", "", text).replace("\\n", "\n").replace("\\x20", " ").replace('\\"', '"').rstrip("\n").split("\n"), "```"]


def from_top(command, folder):
    """A command of a folder as it is run at the top."""
    def word(found):
        path = os.path.normpath(f"{folder}/{found[0]}")
        return path if os.path.isfile(f"{TOP}/{path}") else f"./{found[0]}" if found[0] in ("flick", "explain") else found[0]
    return re.sub(r"[^\s'|<>;]+", word, command)


def session(arguments):
    folder, _, rest = arguments.partition(" ")
    commands = re.findall(r"^\$ .*\n(?:(?!\$ ).*\n)*", content(f"{folder}/transcript"), re.M)
    shown = []
    for words in rest.split(" || "):
        found = [each for each in commands if words in each.split("\n")[0]]
        if not found:
            raise SystemExit(f"{folder}/transcript has no command with: {words}")
        first, _, output = found[0].partition("\n")
        shown += [from_top(first, folder), *output.removesuffix("\n").split("\n")]
    return ["```", *shown, "```"]


def rows_of(arguments):
    """The rows of vectors/ that are named, and where octets begin."""
    where, _, rest = arguments.partition(" ")
    where, _, begin = where.partition(":")
    rows = [json.loads(line) for line in content(f"vectors/{where}.jsonl").split("\n") if line]
    for what in rest.split(" || "):
        file, _, what = what.partition(": ") if ": " in what else ("", "", what)
        found = [row for row in rows if row["what"] == what and file in row["in"]]
        if not found:
            raise SystemExit(f"vectors/{where}.jsonl has no row of: {what}")
        yield found[0], int(begin or 0)


def in_words(digits):
    return " ".join(re.findall(".{1,8}", digits))


def octets(arguments):
    found = [*rows_of(arguments)]
    values = (json.dumps(row["record"].get("args", row["record"].get("result")), separators=(",", ":"), ensure_ascii=False) for row, _ in found)
    lines = [f"| {row['what']} | `{value}` | `{in_words(row['message'][2 * begin:])}` |" for (row, begin), value in zip(found, values)]
    return ["| Message | JSON | Octets" + (f" from place {found[0][1]} on" if found[0][1] else "") + " |", "|---|---|---|", *lines]


def refused(arguments):
    found = [*rows_of(arguments)]
    lines = [f"| {row['what']} | `{in_words(row['message'][2 * begin:])}` | `{row['refused'].removeprefix('body ')}` |" for row, begin in found]
    return ["| Message | Octets" + (f" from place {found[0][1]} on" if found[0][1] else "") + " | Fault |", "|---|---|---|", *lines]


# The parts of a GIOP request behind the header by its minor version, each with its length, or with one that it tells itself.
PARTS = {0: (("service contexts", 4), ("id", 4), ("reply wanted", 1), ("key", None), ("name", None), ("principal", None)),
         2: (("id", 4), ("flags, three octets", 4), ("kind of the target", 2), ("key", None), ("name", None), ("service contexts", 4))}


def parts_of(message):
    """The parts of a GIOP request without service contexts, each with what it is; what aligns the next part is the end of each."""
    octets, ends = bytes.fromhex(message), [("header", 0, 12)]
    order, minor = ("big", "little")[octets[6]], octets[5]
    for name, length in PARTS[minor]:
        at = ends[-1][2]
        end = at + (4 + int.from_bytes(octets[at:at + 4], order) if length is None else length)
        ends.append((name, at, end + -end % 4))
    at = ends[-1][2]
    if minor == 2 and at % 8 and at < len(octets):
        ends.append(("padding", at, at + 4))
    ends.append(("arguments", ends[-1][2], len(octets)))
    return [f"{name} `{in_words(octets[begin:end].hex())}`" for name, begin, end in ends]


def versions(arguments):
    where, _, what = arguments.partition("/")
    file, _, what = what.partition(" ")
    found = [next(rows_of(f"{back}/{file} {what}"))[0] for back in where.split()]
    lines = itertools.zip_longest(*(parts_of(row["message"]) for row in found), fillvalue="")
    return [f"`{json.dumps(found[0]['record'], separators=(',', ':'))}` in both:", "", "| Version 1.0 | Version 1.2 |", "|---|---|", *(f"| {' | '.join(cells)} |" for cells in lines)]


def crates(_):
    return ["| Crate | What it is |", "|---|---|", *(f"| `{name}` | {sources.purpose(name).replace('|', chr(92) + '|')} |" for name in sources.crate_names())]


def meaning(crate, name):
    """The first sentence above a type, a function or a definition of a crate, and its file."""
    for path in sorted(glob.glob(f"{TOP}/crates/{crate}/src/**/*.rt", recursive=True)):
        text = sources.sums.content(path)
        if found := re.search(rf"^pub (?:enum|struct|trait|type|fn) {name}\b.*", text, re.M):
            return sources.sentence(sources.doc_above(text, text[found.start():])), os.path.relpath(path, f"{TOP}/crates")
    for path in sorted(glob.glob(f"{TOP}/crates/{crate}/specs/**/*.antt", recursive=True)):
        for each in sources.definitions(os.path.relpath(path, TOP)):
            if each.name == name and each.comment:
                return each.comment, os.path.relpath(path, f"{TOP}/crates")
    raise SystemExit(f"crates/{crate} has no type or definition {name} with a line above it")


def words(arguments):
    lines = ["| Our word | Usual term | What it is |", "|---|---|---|"]
    for entry in arguments.split(" || "):
        word, term, crate, name = re.match(r"(.*?), (.*): (\w+) (\S+)$", entry).groups()
        said, path = meaning(crate, name)
        said = re.sub(r"\[(`\w+`)\]", r"\1", said[:1].upper() + said[1:])
        lines.append(f"| {word} | {term} | {said} (`{path}`) |")
    return lines


def naming(word):
    """The files of crates that name a word, by crate: the names of files without their ending."""
    files = {}
    for crate in sources.crate_names():
        if not crate.startswith(("check_", "bench_")):
            paths = sorted(glob.glob(f"{TOP}/crates/{crate}/src/**/*.rt", recursive=True)) + sorted(glob.glob(f"{TOP}/crates/{crate}/specs/*.antt"))
            found = [os.path.basename(path).split(".")[0] for path in paths if word in words_in(path)]
            if found := [name for name in dict.fromkeys(found) if name not in ("lib", "tests")]:
                files[crate] = found
    return files


@functools.lru_cache(maxsize=None)
def words_in(path):
    return set(re.findall(r"\w+", "\n".join(line for line in sources.sums.content(path).split("\n") if not line.strip().startswith(("//", "--")))))


def touched(arguments):
    lines = ["| To add | Like | Files that name this |", "|---|---|---|"]
    for entry in arguments.split(" || "):
        what, word = entry.split(" = ")
        files = naming(word)
        if not files:
            raise SystemExit(f"no file of a crate names {word}")
        shown = "; ".join(f"`{crate}`: {', '.join(names)}" for crate, names in files.items())
        lines.append(f"| {what} | `{word}` | {shown} |")
    return lines


def grammar(language):
    return ["```", *re.search(r'^GRAMMAR = """\n(.*?)\n"""', content(f"tests/model/{language}.py"), re.S | re.M)[1].split("\n"), "```"]


def items(arguments):
    """What a crate gives to others, each with the first sentence of its doc line."""
    crate, *names = arguments.split()
    return [f"- `{name}`: {said[:1].lower() + said[1:]}" for name in names for said in [re.sub(r"\[(`\w+`)\]", r"\1", meaning(crate, name)[0])]]


def variants(arguments):
    where, _, rest = arguments.partition(": ")
    crate, enum = where.split()
    texts = (sources.sums.content(path) for path in sorted(glob.glob(f"{TOP}/crates/{crate}/src/**/*.rt", recursive=True)))
    body = next(found[1] for text in texts if (found := re.search(rf"^pub enum {enum} \{{\n(.*?)\n\}}", text, re.S | re.M)))
    docs = {name: " ".join(re.findall(r"/// (.*)", doc)) for doc, name in re.findall(r"((?: +///.*\n)+) +(\w+)", body)}
    lines = ["| Line | What it is |", "|---|---|"]
    for entry in rest.split(" || "):
        line, _, variant = entry.rpartition(" = ")
        lines.append(f"| `{line}` | {docs[variant].rstrip('.')} |")
    return lines


def tools(arguments):
    rows = []
    for path in arguments.split():
        first, more = re.search(r'^"""(.*)\n(.*)', content(path), re.M).groups()
        what, _, usage = f"{first} {more if more.startswith(path) else ''}".strip().partition(f": {path}")
        cells = [part.removesuffix('"""').replace("|", "\\|") for part in (path + usage, what)]
        rows.append(f"| `{cells[0]}` | {cells[1]} |")
    return ["| Run | What it does |", "|---|---|", *rows]


def head(path):
    return ["```", *re.search(r'^"""(.*?)\n"""', content(path), re.S | re.M)[1].split("\n"), "```"]


def counts(_):
    found = re.findall(r'^def (\w+)\(\):\n    """(.*?)(?:"""|\n)', content("bench/run"), re.M)
    return ["| Count | What it counts |", "|---|---|", *(f"| `{name}` | {said.rstrip('.')} |" for name, said in found if re.search(rf'\("[\w ]+", {name}, ', content("bench/run")))]


def limits(_):
    text = content("crates/kit_base/src/limits.rt")
    found = re.findall(r"((?:^/// .*\n)+)pub const \w+: \w+ = ([\d_]+);", text, re.M)
    return [f"- {' '.join(re.findall('/// (.*)', said)).rstrip('.')}: {int(n.replace('_', '')):,}" for said, n in found]


def measured(section):
    """The rows of a section of bench/figures.json."""
    return json.loads(content("bench/figures.json"))[section]["cells"]


def first_number(cell):
    """The first number of a cell."""
    return int(re.match(r"[\d,]+", str(cell[0] if isinstance(cell, list) else cell))[0].replace(",", ""))


def dearest(_):
    memory = [(first_number(cell), column, row) for row, cells in measured("costs").items() for column, cell in cells.items()]
    time = max((first_number(cell), row) for row, cells in measured("tables").items() for cell in cells.values())
    deep = [each for each in memory if each[2].endswith(", deep")]
    usual = max(each for each in memory if each not in deep)
    kept = first_number(measured("memory")["unpipe, 64 MiB of empty fragments"]["the fewest lines"]) / 65_536
    return [f"- **Memory**: a line takes at most {usual[0]:,} octets for each of its own, {max(deep)[0]:,} in structs of one field within one another; then status 7.",
            f"- **Time**: about 1,500 instructions for an octet of a line; more for lines of few octets, long answers, and {time[1].split(', ')[0]} ({time[0]:,}).",
            f"- **Streams**: a record is kept, with its empty fragments, until it is whole: {kept:.2f} octets for each."]


def tried(_):
    rows = [row for path in sorted(glob.glob(f"{TOP}/tests/lines/*.json")) for row in json.loads(content(os.path.relpath(path, TOP)))["rows"] if "cuts" in row]
    cuts = sum(times for row in rows for _, times in row["answers"])
    runs = [(name, cells) for name, cells in measured("runs").items() if name.startswith("tests/fail_")]
    lines = [f"- {name}: {cells['Compared']:,}, {cells['Differences'] or 'none'} otherwise" for name, cells in runs]
    return [f"- tests/run: {len(rows)} messages, cut at each octet: {cuts:,} answers", *lines]


def of_model(code):
    """What a program over tests/model writes, which is JSON."""
    run = subprocess.run([sys.executable, "-B", "-c", f"import json, sys; sys.path.insert(0, {TOP + '/tests/model'!r}); {code}"], check=True, capture_output=True, text=True)
    return json.loads(run.stdout)


def in_line(text):
    """Stub code on one line: what has a body or puts with braces, and long octets cut."""
    done = []
    for line in text.splitlines():
        line = re.sub(r"(const [0-9a-f]{8})[0-9a-f]+", r"\1..", line)
        if line == "end":
            done[-1] = done[-1].rstrip(";")
        done.append("}" if line == "end" else f"{line} {{" if re.match(r"(chunk|take|each|switch|some|sub)\b", line) else f"{line}:" if re.match(r"case|default", line) else f"{line};")
    return " ".join(done).rstrip(";")


def worked(_):
    rows = of_model("import stub_samples; print(json.dumps(stub_samples.WORKED))")
    return ["| Code | Value | Octets | Checks, moves, stores, rows |", "|---|---|---|---|",
            *(f"| `{in_line(code)}` | `{json.dumps(value, separators=(',', ':'))}` | `{in_words(octets)}` | {', '.join(map(str, cost))} |" for code, value, octets, cost in rows)]


CATEGORIES = {"values": "values, both ways", "limits": "limits, and one beyond", "heads": "heads, refused", "bodies": "bodies, refused",
              "trailing": "trailing octets", "replies": "replies", "choices": "choices of senders", "open": "open"}


def vectors(_):
    backs = sorted(os.path.basename(path) for path in glob.glob(f"{TOP}/vectors/*") if glob.glob(f"{path}/*.jsonl"))
    paths = {(name, back): f"vectors/{back}/{name}.jsonl" for name in CATEGORIES for back in backs}
    rows = {key: [json.loads(line) for line in content(path).split("\n") if line] if os.path.exists(f"{TOP}/{path}") else [] for key, path in paths.items()}
    other = {os.path.basename(path).split(".")[0] for path in glob.glob(f"{TOP}/vectors/*/*.jsonl")} - {*CATEGORIES}
    if other:
        raise SystemExit(f"tests/pages/blocks.py has no words for the category {min(other)}")
    table = [(said, *(len(rows[name, back]) for back in backs)) for name, said in CATEGORIES.items()]
    table.append(("all", *(sum(column) for column in list(zip(*table))[1:])))
    return [f"| Category | {' | '.join(backs)} |", "|---" * (len(backs) + 1) + "|",
            *(f"| {said} | {' | '.join(f'{n:,}' for n in numbers)} |" for said, *numbers in table)]


def lowered(arguments):
    encodings = arguments.split()
    rows = of_model(f"import stub_samples; print(json.dumps(stub_samples.texts_of_lowered({encodings!r})))")
    return [f"| Type | {' | '.join(f'`{each}`' for each in encodings)} |", "|---" * (len(encodings) + 1) + "|",
            *(f"| `{said}` | {' | '.join(f'`{in_line(text)}`' for text in texts)} |" for said, texts in rows)]


def stages(arguments):
    back, file, operation = arguments.split()
    rows = of_model(f"import stub_samples; print(json.dumps(stub_samples.texts_of_stages({back!r}, open({TOP + '/' + file!r}).read(), {operation!r})))")
    return ["| After | Code |", "|---|---|", *(f"| `{what}` | `{in_line(text)}` |" for what, text in rows)]


KINDS = {"dearest": dearest, "tried": tried, "head": head, "counts": counts, "limits": limits, "lowered": lowered, "tools": tools, "vectors": vectors, "items": items, "variants": variants, "worked": worked, "stages": stages, "words": words, "grammar": grammar, "touched": touched, "usage": usage, "session": session, "octets": octets, "refused": refused, "versions": versions, "crates": crates}


def page(written):
    """A page as it is written, with its blocks printed anew."""
    return BLOCK.sub(lambda found: "".join([found[1], *(f"{line}\n" for line in KINDS[found[2]](found[3].strip())), found[5]]), written)


def pages():
    """The READMEs and the pages of docs/ that have blocks, by their paths without ending."""
    paths = ["README.md", *sorted([*glob.glob("docs/*.md", root_dir=TOP), *glob.glob("crates/*/README.md", root_dir=TOP)])]
    return [path.removesuffix(".md") for path in paths if BLOCK.search(content(path))]
