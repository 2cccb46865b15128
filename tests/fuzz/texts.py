"""What `show`, `make`, `stubs`, `check` and `count` write over an edited file of which it is known what `marshal` said."""
import os
import re
import sys

TOP = os.path.dirname(os.path.dirname(os.path.dirname(os.path.abspath(__file__))))
sys.path.insert(0, f"{TOP}/tests")
import making  # noqa: E402
from forms import NUMBER  # noqa: E402
from sources import LONGEST_READ, UNREAD, generator, interfaces_of  # noqa: E402
from text_rows import difference, run, wrong_check, wrong_count, wrong_make, wrong_stubs  # noqa: E402

NAME = r"[A-Za-z_][\w.]*|"
SHOWN = re.compile(rf"(type ({NAME}) = \S.*|interface ({NAME}) program {NUMBER} version {NUMBER} base {NUMBER}|"
                   rf"op \w* proc {NUMBER} slot {NUMBER} \(.*\) -> \(.+\)( raises [\w., ]+)?( oneway)?)")
MADE = re.compile(rf"made {NUMBER} long {NUMBER} octets {NUMBER} fold [0-9a-f]{{8}}\n")
MOST_OPERATIONS = 60  # whose code is run


def shown(front, text):
    """The model's text of a file that is not refused but by a binding, or None where it does not read it."""
    try:
        return "".join(f"{line}\n" for line in making.show(front, text)) if len(text) <= LONGEST_READ[front] else None
    except UNREAD:
        return None


def wrong_show(program, front, path, text, saying):
    """What is wrong with what is shown: a file that no back end takes is shown too."""
    told, status = run(program, ["show", front, path])
    if saying and not saying.startswith("? bind"):
        return difference("wrote", f"{saying}\n", told) + difference("status", 3, status)
    wanted = shown(front, text)
    if wanted is None:
        odd = [line for line in told.split("\n")[:-1] if not SHOWN.fullmatch(line)]
        return [f"wrote the line {line}" for line in odd[:1]] + difference("status", 0, status)
    return difference("wrote", wanted, told) + difference("status", 0, status)


def wrong_texts(program, front, back, path, text, saying, lines):
    """What is wrong with what each command writes; the lines are for `count`."""
    yield "show", wrong_show(program, front, path, text, saying)
    if saying:
        for words in (["make", front, back, path, "1", "1"], ["stubs", front, back, path], ["check", front, back, path, path], ["count", front, back, path]):
            told, status = run(program, words)
            yield words[0], difference("wrote", f"{saying}\n", told) + difference("status", 3, status)
        return
    interfaces = interfaces_of(front, text)
    if 0 < sum(len(interface.operations) for interface in interfaces) <= MOST_OPERATIONS:
        yield "make", wrong_make(program, front, back, path, interfaces, len(text), 5)
        yield "stubs", wrong_stubs(program, generator("stubs", text), front, back, path, interfaces)
        yield "check", wrong_check(program, front, back, path, interfaces)
        yield "count", wrong_count(program, front, back, path, interfaces, b"".join(line + b"\n" for line in lines))
    else:
        told, status = run(program, ["make", front, back, path, "1", "2"])
        yield "make", ([] if MADE.fullmatch(told) else [f"wrote {told}"]) + difference("status", 0, status)
