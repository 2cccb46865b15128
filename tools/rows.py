"""Rows of the tables of tests/ by their names: each with its file, the model's answer and the program's (./dev row)."""
import json
import os
import subprocess
import sys
import tempfile
from importlib.machinery import SourceFileLoader
from importlib.util import module_from_spec, spec_from_loader

TOP = os.path.dirname(os.path.dirname(os.path.abspath(__file__)))
sys.path.insert(0, f"{TOP}/tests")
MOST = 5  # rows that are shown whole
LONGEST = 6000  # characters of a text that are shown


def loaded(name, path):
    loader = SourceFileLoader(name, path)
    module = module_from_spec(spec_from_loader(name, loader))
    loader.exec_module(module)
    return module


compare = loaded("compare", f"{TOP}/tests/compare")
replay = compare.replay
PLACES = ("lines", "files", "texts", "layers", "layers/syntax", "explain")


def program(name):
    """The path of a program: the proved one, or the one without proofs."""
    return subprocess.run([f"{TOP}/tools/program", name, "dev"], stdout=subprocess.PIPE, text=True, check=True).stdout.strip()


def rows_of(place, table):
    """The rows of a table, each with what it shares with others."""
    if place == "lines" or place == "texts":
        yield from ((row, table) for row in table["rows"])
    elif place.startswith("layers"):
        yield from ((row, group["with"]) for group in table for row in group["rows"])
    else:
        yield from ((row, {}) for row in table)


def found(name):
    """The rows that have this in their name: the place, the table, the row and what it shares."""
    for place in PLACES:
        for file in sorted(name for name in os.listdir(f"{TOP}/tests/{place}") if name.endswith(".json")):
            for row, shared in rows_of(place, json.loads(replay.content(f"{TOP}/tests/{place}/{file}"))):
                if name.lower() in row["name"].lower():
                    yield place, file, row, shared
    for case in sorted(os.listdir(f"{TOP}/tests/cases")):
        if name.lower() in case.lower():
            yield "cases", case, {"name": case}, {}


def cut(text):
    return text if len(text) <= LONGEST else f"{text[:LONGEST]}.. ({len(text)} characters)"


def told(words, given="", folder=None):
    """What a program writes."""
    run = subprocess.run(words, input=given.encode(), capture_output=True, cwd=folder, timeout=replay.SECONDS)
    return cut((run.stdout + run.stderr).decode(errors="replace").rstrip("\n")) + (f"\n# status {run.returncode}" if run.returncode else "")


def show_file(text, row):
    """The file and the row, as they stand there."""
    print("file:\n" + "\n".join(f"    {line}" for line in cut(text).splitlines()))
    print("row:\n    " + cut(json.dumps({key: part for key, part in row.items() if key != "file"}, ensure_ascii=False)))


def show_lines(row, table):
    """Each turn of a row of lines."""
    front, text = table.get("front", "onc"), replay.spelled(table["file"])
    show_file(text, row)
    for (command, back, given), turns in replay.runs_of({**table, "rows": [row]}).items():
        with tempfile.TemporaryDirectory() as room:
            with open(f"{room}/file", "w", encoding="utf-8") as file:
                file.write(text)
            words = [program("flick_cli"), command, front, back, f"{room}/file", *([] if given is None else [replay.lay_replies(room, given)])]
            for name, line, wanted in turns:
                print(f"{command} {front} {back}, {name}\n  line   {cut(line)}\n  wanted {cut(wanted)}")
                print(f"  model  {cut(compare.modelled(command, front, back, text, given, line.encode()))}\n  ours   {told(words, line + chr(10))}")


def show_interface(front, row):
    """A row of an interface file that is accepted or refused."""
    text, back = replay.spelled(row["file"]), row.get("over", "xdr")
    show_file(text, row)
    models = {"onc": compare.onc.told_of_file, "corba": compare.told_of_names, "mig": lambda octets, _: compare.mig.told_of_file(octets)}
    with tempfile.TemporaryDirectory() as room:
        with open(f"{room}/file", "w", encoding="utf-8") as file:
            file.write(text)
        ours = told([program("flick_cli"), "marshal", front, back, f"{room}/file"])
    print(f"  wanted {row['answer'] or 'nothing'}\n  model  {models[front](text.encode(), back) or 'nothing'}\n  ours   {ours or 'nothing'}")


def show_text(row, table):
    """A row of a command that writes texts."""
    text, front = replay.spelled(row.get("file", table.get("file", ""))), table["front"]
    show_file(text, row)
    with tempfile.TemporaryDirectory() as room:
        with open(f"{room}/file", "w", encoding="utf-8") as file:
            file.write(text)
        words = [row["command"], front, *([row["over"]] if "over" in row else []), f"{room}/file", *row.get("words", [])]
        print(f"  wanted {cut(replay.spelled(row.get('answer', '')))}")
        if row["command"] == "show":
            print(f"  model  {cut(compare.making.shown(front, text))}")
        elif row["command"] == "make":
            interfaces = compare.text_rows.INTERFACES[front](text)
            print(f"  model  {compare.making.make(row['over'], interfaces, *map(int, row['words']))}")
        print(f"  ours   {told([program('flick_cli'), *words], replay.spelled(row.get('line', '')) + chr(10) if 'line' in row else '')}")


def modelled(place, file, case):
    """The model's answer to a case of the layers, or nothing where it is not asked about such."""
    if place == "layers/syntax":
        return compare.corba.told(case, case["text"].encode())
    if file == "giop.json":
        return replay.modelled(case)
    return compare.mach.answer(case) if file in ("mach.json", "mach_heads.json", "mach_spans.json") else ""


def show_layer(place, file, row, shared):
    """The cases of a row of the layers."""
    name = "check_syntax" if place == "layers/syntax" else "check_heads" if file in replay.OF_HEAD_CASES else "check_stubs"
    text = {"text": replay.spelled(row["text"])} if "text" in row else {}
    cases = replay.check_heads if file in ("giop.json", "records.json") else lambda row, shared: replay.cases_of(row, shared)
    for case_name, case, answer, _ in cases(row, shared):
        case = {**case, **text}
        print(f"{case_name}\n  case   {cut(json.dumps(case))}\n  wanted {cut(answer)}")
        if model := modelled(place, file, case):
            print(f"  model  {cut(model)}")
        print(f"  ours   {told([program(name)], json.dumps(case) + chr(10))}")


def show_case(name):
    """A whole run."""
    with tempfile.TemporaryDirectory() as room:
        replay.lay_out(f"{TOP}/tests/cases/{name}", room)
        words = replay.content(f"{room}/words").decode().splitlines()
        for part in sorted(os.listdir(room)):
            print(f"{part}:\n    " + cut(replay.content(f"{room}/{part}").decode(errors="replace")).replace("\n", "\n    "))
        print(f"ours:\n{told([program('flick_cli'), *words], replay.content(f'{room}/stdin').decode(), room)}")


def show_one(place, file, row, shared):
    print(f"== tests/{place}/{file}: {row['name']}")
    if place == "lines":
        show_lines(row, shared)
    elif place == "files":
        show_interface(file.removesuffix(".json"), row)
    elif place == "texts":
        show_text(row, shared)
    elif place == "cases":
        show_case(file)
    elif place == "explain":
        print(json.dumps(row, indent=1, ensure_ascii=False))
        print("tests/explain/run asks about it, of all its tables at once")
    else:
        show_layer(place, file, row, shared)


def show(name):
    """Shows the rows that have this in their name."""
    rows = list(found(name))
    exact = [each for each in rows if each[2]["name"].lower() == name.lower()]
    for each in (exact or rows)[:MOST]:
        show_one(*each)
    for place, file, row, _ in (exact or rows)[MOST:]:
        print(f"tests/{place}/{file}: {row['name']}")
    if not rows:
        print(f"no row has `{name}` in its name", file=sys.stderr)
    return 0 if rows else 1
