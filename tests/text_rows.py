"""What the commands `show`, `make`, `stubs`, `check` and `count` write: of rows, tests/texts/NAME.json, and of random files.

A table has an interface file, as those of tests/lines, and its language as `front`; a row may have a `file` of its own. A
row of `show` has what it writes, and so has one of `make`, whose `words` are its number and how many messages it makes,
over the back end that the row has as `over`. An answer that begins with `?` comes with status 3; any of the commands may
have it.

Which code a stub has is not fixed. `stubs` has to write the text of stubs that send and receive what tests/model says,
for values made of some numbers. A row of `count` has a line, the digits that answer it, and as `most` how often its code
may look at the buffer, and where it has them as `moves` and `stores` how often it may move the cursor and store; what
follows the digits has to be the cost of the code that is printed, as tests/model runs it.

A row of `check` has the texts of its file as `stubs`, as those of interface files are (null where there is no file; true for
what `stubs` writes), and the lines that are written.
"""
import json
import os
import random
import re
import subprocess
import sys
import tempfile
from functools import lru_cache

TOP = os.path.dirname(os.path.dirname(os.path.abspath(__file__)))
sys.path.insert(0, f"{TOP}/tests/model")
import checking  # noqa: E402
import corba_names  # noqa: E402
import counting  # noqa: E402
import files  # noqa: E402
import making  # noqa: E402
import mig  # noqa: E402
from calls import BACKS, lines_of, marshal  # noqa: E402
from stub_samples import stubs_text  # noqa: E402

SECONDS = 1800
INTERFACES = {"onc": files.interfaces_of, "corba": corba_names.interfaces_of, "mig": mig.interfaces_of}


def repeated(each, times):
    """A string so many times, with its number in the place of each `%d`."""
    return "".join(each.replace("%d", str(n)) for n in range(times)) if "%d" in each else each * times


def spelled(parts):
    """A text of the tables."""
    if isinstance(parts, str):
        return parts
    return "".join(part if isinstance(part, str) else repeated(part["each"], part["times"]) for part in parts)


def tables(only=()):
    """Each table with its name, or some of them."""
    for name in sorted(os.listdir(f"{TOP}/tests/texts")):
        if not only or name.removesuffix(".json") in only:
            with open(f"{TOP}/tests/texts/{name}") as file:
                yield name.removesuffix(".json"), json.load(file)


def texts_of(table):
    """The interface files of a table, each with its rows."""
    found = {}
    for row in table["rows"]:
        found.setdefault(spelled(row.get("file", table.get("file", ""))), []).append(row)
    return found.items()


def shown(text):
    text = repr(text)
    return text if len(text) <= 200 else f"{text[:200]}.. ({len(text)} characters)"


def difference(what, wanted, told):
    return [] if told == wanted else [f"{what} {shown(told)}, wanted {shown(wanted)}"]


def run(program, words, given=""):
    """What a program writes, and its status."""
    ran = subprocess.run([program, *words], input=given.encode(), capture_output=True, timeout=SECONDS, close_fds=False)
    return (ran.stdout + ran.stderr).decode("latin-1"), ran.returncode


def checked(program, front, back, path, octets):
    """What `check` writes over a file of stubs, which is not there where that is None, and its status."""
    given = f"{path}.stubs"
    if os.path.exists(given):
        os.remove(given)
    if octets is not None:
        with open(given, "wb") as file:
            file.write(octets)
    return run(program, ["check", front, back, path, given])


def stubs_in(row, own):
    """The octets of a row's file of stubs, or None; `own` gives the texts of the kit's own."""
    return None if row["stubs"] is None else own().encode() if row["stubs"] is True else spelled(row["stubs"]).encode("latin-1")


def replay_check(program, row, front, path):
    """What is wrong with the answer to a row of `check`."""
    octets = stubs_in(row, lambda: run(program, ["stubs", front, row["over"], path])[0])
    told, status = checked(program, front, row["over"], path, octets)
    return difference("wrote", "".join(f"{line}\n" for line in row["answer"]), told) + difference("status", status_of(row["answer"]), status)


def status_of(lines):
    """The status that comes with lines."""
    return 3 if any(line.startswith("?") for line in lines) else int(any(line.startswith("!") for line in lines))


def replay_text(program, row, front, text, path):
    """What is wrong with the answer to a row of `show`, `make`, `stubs` or `check`."""
    if row["command"] == "check":
        return replay_check(program, row, front, path)
    answer = spelled(row.get("answer", ""))
    if row["command"] == "stubs" and not answer:
        return wrong_stubs(program, random.Random(1), front, row["over"], path, INTERFACES[front](text))
    told, status = run(program, [row["command"], front, *([row["over"]] if "over" in row else []), path, *row.get("words", [])])
    return difference("wrote", f"{answer}\n" if answer else "", told) + difference("status", 3 if answer.startswith("?") else 0, status)


def replay_counts(program, rows, front, over, text, path):
    """A list of findings for each row of `count` over a back end, and for all that is written."""
    given = "".join(f"{spelled(row['line'])}\n" for row in rows).encode()
    told = run(program, ["count", front, over, path], given.decode())[0].partition("--\n")[2].split("\n")[:-1]
    for row, line in zip(rows, told + ["nothing"] * len(rows)):
        digits, *numbers = line.split(" ") if not line.startswith("!") else [line]
        is_few = not numbers or numbers[0].isdigit() and int(numbers[0]) <= row["most"]
        many = [] if is_few else [f"more than {row['most']} looks at the buffer: {' '.join(numbers)}"]
        for place, what in ((1, "moves"), (2, "stores")):
            if numbers and what in row and int(numbers[place]) > row[what]:
                many.append(f"more than {row[what]} {what}: {' '.join(numbers)}")
        yield row["name"], difference("wrote", spelled(row["answer"]), digits) + many
    yield f"count over {over}", wrong_count(program, front, over, path, INTERFACES[front](text), given)


def replay_texts(program, is_chosen=lambda name: True, fronts=tuple(INTERFACES)):
    """A list of findings for each row of the tables of these languages whose name is chosen."""
    findings = []
    for name, table in tables():
        if table["front"] not in fronts:
            continue
        for text, rows in texts_of(table):
            rows = [row for row in rows if is_chosen(f"texts {name}: {row['name']}")]
            if not rows:
                continue
            with tempfile.TemporaryDirectory() as room:
                path = f"{room}/file"
                with open(path, "w") as file:
                    file.write(text)
                front = table["front"]
                found = [(row["name"], replay_text(program, row, front, text, path)) for row in rows if "line" not in row]
                for over in sorted({row["over"] for row in rows if "line" in row}):
                    found += replay_counts(program, [row for row in rows if "line" in row and row["over"] == over], front, over, text, path)
                findings += [(f"texts {name}: {what}", said) for what, said in found]
    return findings


# ---- random files

def wrong_show(program, front, path, text):
    """What is wrong with what is shown of a file."""
    told, status = run(program, ["show", front, path])
    wanted = making.shown(front, text)
    return difference("wrote", f"{wanted}\n" if wanted else "", told) + difference("status", 3 if wanted.startswith("?") else 0, status)


def wrong_make(program, front, back, path, interfaces, number, times):
    """What is wrong with the line about the messages that a number makes."""
    told, status = run(program, ["make", front, back, path, str(number), str(times)])
    return difference("wrote", f"{making.make(back, interfaces, number, times)}\n", told) + difference("status", 0, status)


def wrong_stubs(program, rng, front, back, path, interfaces):
    """What is wrong with the texts of the stubs of a file."""
    told, status = run(program, ["stubs", front, back, path])
    wrong = counting.stubs_wrong(rng, back, interfaces, told)
    return [wrong] * bool(wrong) + difference("status", 0, status)


def wrong_check(program, front, back, path, interfaces):
    """What is wrong with what is said of the kit's own stubs, and of these with an empty chunk more: each sends what it should."""
    texts = run(program, ["stubs", front, back, path])[0]
    wanted = "".join(f"yes {request.name}\n" for request in counting.requests_of(back, interfaces))
    for what, given in (("of its own", texts), ("of others", re.sub("^(send .*)$", "\\1\nchunk 0\nend", texts, flags=re.M))):
        told, status = checked(program, front, back, path, given.encode("latin-1"))
        if wrong := difference(f"{what} wrote", wanted, told) + difference("status", 0, status):
            return wrong
    return []


def wrong_count(program, front, back, path, interfaces, given):
    """What is wrong with the answers to an input, and with the texts before them."""
    ran = subprocess.run([program, "count", front, back, path], input=given, capture_output=True, timeout=SECONDS)
    requests, lines = counting.requests_of(back, interfaces), lines_of(given)
    try:
        stubs, rest = counting.texts_of(ran.stdout.decode(), requests)
        wanted = [counting.counted(back, interfaces, requests, stubs, line) for line in lines]
    except counting.Wrong as fault:
        return [str(fault)]
    told = rest.split("\n")[:-1]
    status = int(any(answer.startswith("!") for answer in wanted))
    wrong = [f"to {shown(line.decode('latin-1'))} {said}" for line, answer, other in zip(lines, wanted, told) for said in difference("wrote", answer, other)]
    return wrong[:1] + difference("so many answers:", len(wanted), len(told)) + difference("status", status, ran.returncode)


def wrong_texts(program, rng, front, back, path, text, interfaces, given):
    """What is wrong with what each command writes over a file; the lines are for `count`."""
    refusal = making.refusal_of(front, back, text)
    yield "show", wrong_show(program, front, path, text)
    if refusal:
        for words in (["make", front, back, path, "1", "1"], ["stubs", front, back, path], ["check", front, back, path, path], ["count", front, back, path]):
            told, status = run(program, words)
            yield words[0], difference("wrote", f"{refusal}\n", told) + difference("status", 3, status)
        return
    yield "make", wrong_make(program, front, back, path, interfaces, rng.randrange(2 ** 64), rng.randint(0, 30))
    yield "stubs", wrong_stubs(program, rng, front, back, path, interfaces)
    yield "check", wrong_check(program, front, back, path, interfaces)
    yield "count", wrong_count(program, front, back, path, interfaces, given)


# ---- the model's answers

@lru_cache(maxsize=1)
def made(front, over, text, number, times):
    return making.make(over, INTERFACES[front](text), int(number), int(times))


def modelled_check(row, interfaces):
    """The answer to a row of `check`, and the model's by its own stubs."""
    wanted = "".join(f"{line}\n" for line in row["answer"]).encode("latin-1"), status_of(row["answer"])
    return wanted, checking.check(row["over"], interfaces, stubs_in(row, lambda: stubs_text(row["over"], interfaces)))


def modelled(row, front, text):
    """The answer to a row, and the model's. That to `count` has as often as its code may look at the buffer beside it."""
    command, answer = row["command"], row.get("answer", "") if row["command"] == "check" else spelled(row.get("answer", ""))
    if command == "show":
        return answer, making.shown(front, text)
    if refusal := making.refusal_of(front, row["over"], text):
        return answer, [refusal] if command == "check" else refusal
    if command == "check":
        return modelled_check(row, INTERFACES[front](text))
    if command == "make":
        return answer, made(front, row["over"], text, *row["words"])
    if command == "stubs":
        return answer, ""
    interfaces, line = INTERFACES[front](text), spelled(row["line"]).encode()
    told = marshal(BACKS[row["over"]], interfaces, line)
    return (answer, told) if told.startswith("!") else (f"{answer} {row['most']}", f"{told} {counting.regions_of(row['over'], interfaces, line)}")


def first_of(row):
    """The beginning of an answer; a file of stubs that is refused is known to the model."""
    answer = row.get("answer", "")
    return spelled(answer) if row["command"] != "check" else next((line for line in answer if not line.startswith("? stubs")), "")


def text_rows(only=()):
    """Each row of the tables, its answer and the model's, which does not know why a file of ONC is refused."""
    for name, table in tables(only):
        for text, rows in texts_of(table):
            for row in rows:
                if table["front"] != "onc" or not first_of(row).startswith("?"):
                    yield f"tests/texts/{name}.json: {row['name']}: {row['command']}", *modelled(row, table["front"], text)
