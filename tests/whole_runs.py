"""Short whole runs of the program, for tests/fail_alloc.

`worked_runs` are rows of tests/lines that were worked out by hand: a call of each front end, and calls to a server.

`every_run` has each command over each pair of a front and a back end. Its interface files are short and have every form of a
type, over CDR with exceptions. Its lines are those of the model's generators by one seed, right and wrong ones, with two long
ones before them.

`kept_runs` are those of tests/: the cases of tests/cases, the files of tests/files, the rows of tests/lines and of tests/texts,
as far as files and lines are short.
"""
import json
import os
import random
from importlib.machinery import SourceFileLoader
from importlib.util import module_from_spec, spec_from_loader
from typing import NamedTuple

TOP = os.path.dirname(os.path.dirname(os.path.abspath(__file__)))
loader = SourceFileLoader("replay", f"{TOP}/tests/run")
replay = module_from_spec(spec_from_loader("replay", loader))
loader.exec_module(replay)
import text_rows  # noqa: E402
from calls import BACKS, marshal  # noqa: E402
from framing import framed  # noqa: E402
from replies import BACKS as REPLIES  # noqa: E402
from replies import reply  # noqa: E402
from samples import call_lines, request_lines  # noqa: E402
from serving_samples import given_lines, refused_lines, replied_lines, reply_lines, served_lines  # noqa: E402
from counting import requests_of  # noqa: E402
from stub_samples import stubs_text  # noqa: E402
from stub_texts import stubs_of  # noqa: E402
from stubs import edited_stub  # noqa: E402

FRONTS = ("onc", "corba", "mig")
COMMANDS = ("marshal", "unmarshal", "reply", "unreply", "pipe", "unpipe", "serve", "bridge", "show", "stubs", "check", "count", "make")
SEED = 1
LINES = 24
MESSAGES = 12
LONG = 400  # numbers of a long line
BLANKS = 70_000  # around a record in the longest line
LONGEST = 2_000  # of the files and lines of other tables
LONGEST_CASE = 20_000
CHECKED = 20  # files of stubs of a table
# The rows that are runs of their own, by table: of one its record and its message, of the other all in one run.
WORKED = {"calc": "a call of two numbers", "corba": "two numbers, big", "mig": "a request over Mach"}
WORKED_SERVING = "serve_worked_onc"

# An interface of each language with every form of a type, and what is raised over CDR.
TEXTS = {
    "onc": """enum k { A, B = -7 }; typedef opaque o<>;
struct s { string t<9>; k k; hyper h<>; bool b; unsigned char c; short a[3]; opaque o[5]; };
union u switch (k t) { case A: o o; case B: s s<2>; default: void; };
typedef u *m;
program P { version V { m F(s, m, string) = 1; u_int G(void) = 2; } = 1; } = 9;
""",
    "corba": """module M { enum k { A, B }; typedef sequence<octet> o;
struct s { string<9> t; k of; sequence<long long> h; boolean b; char c; short a[3]; octet d[5]; };
union u switch (k) { case A: o one; case B: sequence<s, 2> two; };
interface I { attribute long n; oneway void g(in string t); u f(in s a, inout u b, out boolean c); }; };
""",
    "mig": """subsystem s 40; type t = array[*:9] of char; type o = array[*:4096] of byte; type h = array[*:4096] of int; type a = struct[3] of short;
routine f(p : mach_port_t; inout b : h; c : t; d : o; e : a; g : unsigned; out i : char); skip; simpleroutine g(p : mach_port_t; a : byte; b : short);
""",
}
RAISING = "exception E { long why; string text; }; interface R { long f(in long a) raises (E); };\n"

# A request and a reply of each, whose values are long.
NUMBERS, TEXT, OCTETS = list(range(LONG)), "x" * LONG, "0a" * LONG
RECORD = {"t": "abc", "h": NUMBERS, "b": True, "a": [1, -2, 3]}
LONG_REQUESTS = {
    "onc": {"op": "P.V.F", "args": [{**RECORD, "k": "A", "c": 1, "o": "0102030405"}, [{"tag": "A", "value": OCTETS}], TEXT]},
    "corba": {"op": "M.I.f", "args": [{**RECORD, "of": "A", "c": "x", "d": "0102030405"}, {"tag": "A", "value": OCTETS}]},
    "mig": {"op": "s.f", "args": [NUMBERS, "abc", OCTETS, [1, -2, 3], 1]},
}
LONG_REPLIES = {
    "onc": {"op": "P.V.F", "result": [{"tag": "A", "value": OCTETS}]},
    "corba": {"op": "M.I.f", "result": {"tag": "A", "value": OCTETS}, "outs": [{"tag": "A", "value": OCTETS}, True]},
    "mig": {"op": "s.f", "outs": [NUMBERS, "x"]},
}


class Run(NamedTuple):
    """A run: its name; its command, its front and its back end, each `-` where it has none; its folder, words and input."""
    name: str
    command: str
    front: str
    back: str
    folder: str
    words: list
    given: bytes


def run_of(name, folder, words, given=b""):
    """A run of these words."""
    command = words[0] if words and words[0] in (*COMMANDS, "--help", "--version") else "-"
    front = words[1] if len(words) > 1 and words[1] in FRONTS else "-"
    back = words[2] if len(words) > 2 and command != "show" and words[2] in BACKS else "-"
    return Run(name, command, front, back, folder, words, given)


class Room:
    """A folder, in which each file that is laid has a name of its own."""

    def __init__(self, path):
        self.path, self.count = path, 0

    def lay(self, octets):
        self.count += 1
        with open(f"{self.path}/{self.count}", "wb") as file:
            file.write(octets)
        return str(self.count)


def joined(lines):
    return b"".join(line + b"\n" for line in lines)


# ---- every command over every pair

def text_of(front, back):
    """An interface file; with exceptions, where the back end carries them."""
    return TEXTS[front] + RAISING * (front == "corba" and back.startswith("cdr"))


def checked_texts(rng, back, interfaces):
    """Files of stubs: the model's own, one edited text of each operation, and one that is none."""
    texts = stubs_text(back, interfaces)
    yield "stubs", texts.encode()
    edited = [edited_stub(rng, request, stub) for request, stub in zip(requests_of(back, interfaces), stubs_of(texts)[::2])]
    yield "edited stubs", "".join(edited).encode("latin-1", "replace")
    yield "no stub", b"send x\nensure 048\nend\n"


def pair_runs(room, front, back):
    """Each command over a pair."""
    rng, text = random.Random(f"{SEED}/{front}/{back}"), text_of(front, back)
    interfaces, replies = text_rows.INTERFACES[front](text), REPLIES[back]
    long = json.dumps(LONG_REQUESTS[front]).encode()
    requests = [long, long + b" " * BLANKS, *request_lines(rng, back, interfaces, LINES)]
    calls = [marshal(BACKS[back], interfaces, long).encode(), b"0" * BLANKS, *call_lines(rng, back, interfaces, requests[2:])]
    long = json.dumps(LONG_REPLIES[front]).encode()
    records = [long, long + b" " * BLANKS, *reply_lines(rng, replies, interfaces, LINES)]
    sent = f"{LONG_REPLIES[front]['op']} {reply(replies, interfaces, long)}".encode()
    replied = [sent, sent + b"0" * BLANKS, *replied_lines(rng, replies, interfaces, records[2:])]
    served = [*calls[:2], *served_lines(rng, back, interfaces, requests[2:]), b"0", b"zz"]
    given, refused = given_lines(rng, replies, interfaces), refused_lines(rng, replies, interfaces)
    file = room.lay(text.encode())
    for command, lines in (("marshal", requests), ("unmarshal", calls), ("reply", records), ("unreply", replied), ("count", requests), ("pipe", requests)):
        yield run_of(f"{command} {front} {back}", room.path, [command, front, back, file], joined(lines))
    messages = [bytes.fromhex(answer) for line in requests if not (answer := marshal(BACKS[back], interfaces, line)).startswith("!")]
    stream = b"".join(framed(back, message) for message in messages)
    for name, octets in (("", stream), (" to a cut", stream[:-1])):
        yield run_of(f"unpipe {front} {back}{name}", room.path, ["unpipe", front, back, file], octets)
    for name, answers in (("replies", given), ("no replies", b""), ("a long reply", long), ("wrong replies", refused)):
        yield run_of(f"serve {front} {back} with {name}", room.path, ["serve", front, back, file, room.lay(answers)], joined(served))
    to = [*BACKS, *BACKS][[*BACKS].index(back) + 1]
    yield run_of(f"bridge {front} {back} {to}", room.path, ["bridge", front, back, to, file], joined(calls))
    yield run_of(f"stubs {front} {back}", room.path, ["stubs", front, back, file])
    for name, texts in checked_texts(rng, back, interfaces):
        yield run_of(f"check {front} {back} of {name}", room.path, ["check", front, back, file, room.lay(texts)])
    yield run_of(f"make {front} {back}", room.path, ["make", front, back, file, str(SEED), str(MESSAGES)])


def every_run(folder):
    """Each command over every pair; those that have no back end, or no file."""
    room = Room(folder)
    for front in FRONTS:
        for back in BACKS:
            yield from pair_runs(room, front, back)
        yield run_of(f"show {front}", folder, ["show", front, room.lay(text_of(front, "cdr-be").encode())])
    for words in (["--help"], ["--version"], [], ["marshal", "onc"]):
        yield run_of(" ".join(words) or "no words", folder, words)


# ---- worked rows

def worked_runs(folder):
    """Worked rows: a record by each command that takes it, its message, and all lines of a server."""
    room = Room(folder)
    for table, name in WORKED.items():
        content = json.loads(replay.content(f"{TOP}/tests/lines/{table}.json"))
        row = next(row for row in content["rows"] if row["name"] == name)
        file, front, back = room.lay(replay.spelled(content["file"]).encode()), content.get("front", "onc"), row.get("over", "xdr")
        for command, line in (("marshal", row["line"]), ("count", row["line"]), ("unmarshal", row["answer"])):
            yield run_of(f"{name}, by {command}", room.path, [command, front, back, file], joined([line.encode()]))
    yield from table_runs(room, [WORKED_SERVING])


# ---- the runs that stand in tests/

def case_runs(folder, names):
    """Cases of tests/cases but those where memory runs out anyway, each in a folder of its own."""
    for name in names:
        if replay.content(f"{TOP}/tests/cases/{name}/status").strip() == b"7":
            continue
        room = f"{folder}/{name}"
        os.mkdir(room)
        replay.lay_out(f"{TOP}/tests/cases/{name}", room)
        if sum(os.path.getsize(f"{room}/{each}") for each in os.listdir(room)) <= LONGEST_CASE:
            yield run_of(name, room, replay.content(f"{room}/words").decode().splitlines(), replay.content(f"{room}/stdin"))


def file_runs(room):
    """The interface files of tests/files."""
    for front in FRONTS:
        for row in json.loads(replay.content(f"{TOP}/tests/files/{front}.json")):
            text = replay.spelled(row["file"])
            if len(text) <= LONGEST:
                yield run_of(row["name"], room.path, ["marshal", front, row.get("over", "xdr"), room.lay(text.encode())])


def table_runs(room, tables):
    """The rows of tables of tests/lines whose lines are short, those of a command over a back end in one run."""
    for table in tables:
        content = json.loads(replay.content(f"{TOP}/tests/lines/{table}.json"))
        file, front = room.lay(replay.spelled(content["file"]).encode()), content.get("front", "onc")
        rows = [row for row in content["rows"] if "cuts" not in row and isinstance(row.get("line", ""), str)]
        for (command, back, given), turns in replay.runs_of({**content, "rows": rows}).items():
            lines = [line.encode() for _, line, _ in turns if len(line) <= LONGEST]
            parts = None if given is None else json.loads(given)
            replies = [] if given is None else ["absent"] if parts is None else [room.lay(replay.spelled(parts).encode())]
            yield run_of(f"{table} by {command} over {back}", room.path, [command, front, *back.split(), file, *replies], joined(lines))


def text_runs(room, tables):
    """The files of tables of tests/texts, by each command that writes texts."""
    for table in tables:
        content = json.loads(replay.content(f"{TOP}/tests/texts/{table}.json"))
        front = content["front"]
        for text, rows in text_rows.texts_of(content):
            file = room.lay(text.encode())
            yield run_of(f"{table} by show", room.path, ["show", front, file])
            for back in sorted({row["over"] for row in rows if "over" in row}):
                lines = [replay.spelled(row["line"]).encode() for row in rows if row.get("over") == back and isinstance(row.get("line"), str)]
                for command, *more in (["make", "1", "4"], ["stubs"], ["count"]):
                    given = joined(line for line in lines if len(line) <= LONGEST) if command == "count" else b""
                    yield run_of(f"{table} by {command} over {back}", room.path, [command, front, back, file, *more], given)
                stubs = [text for row in rows if row["command"] == "check" and row["over"] == back and isinstance(row["stubs"], str) for text in [row["stubs"].encode("latin-1")] if len(text) <= LONGEST]
                for number, octets in enumerate(stubs[:CHECKED]):
                    yield run_of(f"{table} by check over {back}, {number}", room.path, ["check", front, back, file, room.lay(octets)])


def names_in(folder):
    return sorted(name.removesuffix(".json") for name in os.listdir(f"{TOP}/tests/{folder}"))


def kept_runs(folder, cases=None, lines=None, texts=None):
    """The runs of tests/: all of them, or those of some cases and tables."""
    room = Room(folder)
    yield from case_runs(folder, cases or names_in("cases"))
    yield from file_runs(room)
    yield from table_runs(room, lines or names_in("lines"))
    yield from text_runs(room, texts or names_in("texts"))
