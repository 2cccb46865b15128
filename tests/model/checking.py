"""The command `check`: which texts of stubs, whoever made them, send the octets that the kit's own send, inside ensured space.

As all of the model it is written from docs/, with nothing of the crates in it. The kit's own stubs are given, as `stubs` writes
them: which code they have is not fixed. Without them those of stub_samples.py are taken, which have the same flats.
"""
from counting import requests_of
from stub_checks import Rooms, TooMuch, covers, flat_or_none
from stub_samples import send_stub
from stub_texts import NoStub, Reading

LONGEST = 8_388_608
BEGINS = ("send ", "recv ")
UNKNOWN = "yes or cover"  # of a text whose runs are too many for the model
MANY = 500_000  # runs of operations: a file whose texts take more may be out of memory


def fits(line, answer):
    """Whether a line is what the model answers; where the runs of a text are too many for it, either of both."""
    name = answer.removeprefix(f"{UNKNOWN} ")
    return line == answer if name == answer else line in (f"yes {name}", f"! cover {name}")


def refusal_of(octets):
    """The line by which a file of stubs is refused, None where there is none, or nothing."""
    return "? stubs file" if octets is None else "? stubs size" if len(octets) > LONGEST else ""


class Checking:
    """The operations of a unit over a back end, with the stubs that send their requests, and what is left of these."""

    def __init__(self, back, interfaces, kept=None):
        self.requests, self.kept, self.flats = requests_of(back, interfaces), kept, {}
        self.back, self.places, self.runs = back, {}, 0  # the runs of the stub that was judged last
        for place, request in enumerate(self.requests):
            self.places.setdefault(request.name, place)

    def own(self, place):
        """The stub of an operation."""
        if self.kept is None:
            self.kept = [send_stub(self.back, each.interface, each.operation, each.nodes, each.id) for each in self.requests]
        return self.kept[place]

    def flat(self, place):
        if place not in self.flats:
            self.flats[place] = flat_or_none(self.requests[place].nodes, self.requests[place].id, self.own(place))
        return self.flats[place]

    def verdict(self, stub):
        """What is said of a stub before its name."""
        self.runs = 0
        place = self.places.get(stub.name)
        if place is None:
            return "! op"
        own = self.own(place)
        return "yes" if (own.code, own.subs) == (stub.code, stub.subs) else self.judged_anew(stub)

    def judged_anew(self, stub):
        """The same of a stub of an operation that is not its own."""
        place = self.places[stub.name]
        request = self.requests[place]
        found = flat_or_none(request.nodes, request.id, stub)
        if found is None or found != self.flat(place):
            return "! meaning"
        known = Rooms(request.nodes)
        try:
            return "yes" if covers(request.nodes, request.id, stub, known) else "! cover"
        except TooMuch:
            return UNKNOWN
        finally:
            self.runs = known.all_runs

    def answers(self, octets):
        """The lines that are written over a file of stubs."""
        for _, answer in self.judged(octets):
            yield answer

    def judged(self, octets):
        """Each stub of a file that sends, with its answer; and None with the line about what is no text."""
        lines = octets.decode("latin-1").split("\n")
        rest, place = lines.pop(), 0
        whole = lines + [rest] * bool(rest)
        while place < len(whole):
            if whole[place].startswith("recv "):
                place = next((n for n in range(place + 1, len(whole)) if whole[n].startswith(BEGINS)), len(whole))
                continue
            reading = Reading(lines, place)
            try:
                if not whole[place].startswith("send "):
                    raise NoStub("no stub begins")
                stub = reading.stub()
            except NoStub:
                self.runs = 0
                yield None, f"! text {place + 1}"
                return
            place = reading.place
            yield stub, f"{self.verdict(stub)} {stub.name}"


def check(back, interfaces, octets, kept=None):
    """What is written over a file of stubs, and the status."""
    if refusal := refusal_of(octets):
        return f"{refusal}\n".encode(), 3
    answers = [*Checking(back, interfaces, kept).answers(octets)]
    return "".join(f"{answer}\n" for answer in answers).encode("latin-1"), int(any(answer.startswith("!") for answer in answers))
