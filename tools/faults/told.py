"""Scenarios of crates/cases/data as they are told: their lines with what pieces put in, and their steps (docs/SCENARIOS.md)."""
import re
from pathlib import Path

TOP = Path(__file__).resolve().parent.parent.parent
CRATES = TOP / "crates"
SCRIPTS = CRATES / "cases" / "data"
AGENT = "127.0.0.1:2727"
# The first words of a line that is printed, where it is no datagram.
PRINTED = ("! ", "line ", "config ", "script line ", "usage: ", "status ", "wire fault")


def in_full(text):
    """Without the short forms `~` and `{64*1}`."""
    text = text.replace("~", "rgw.example.net MGCP 1.0")
    return re.sub(r"\{(\d+)\*([^}]*)\}", lambda it: it[2] * int(it[1]), text)


def lines_of(text):
    """Lines, of which the last has its end."""
    return text.removesuffix("\n").split("\n") if text else []


def put_in(pieces, line):
    """The line, or what it puts in."""
    if line.startswith("do "):
        name, *values = [word.strip() for word in line[3:].split("|")]
        text = "\n".join(pieces[name])
        for place, value in enumerate(values, 1):
            text = text.replace(f"{{{place}}}", value)
        return text.split("\n")
    if line.startswith("each "):
        first, last, name = line[5:].split(" ", 2)
        numbers = range(int(first), int(last) + 1)
        return [it.replace("{n}", str(number)) for number in numbers for it in pieces[name]]
    return [line]


def blocks(path):
    """The titles of a file, each with its lines; pieces are put in, and are no titles."""
    pieces, found = {}, {}
    for block in path.read_text(encoding="utf-8").split("\n= ")[1:]:
        title, _, text = block.partition("\n")
        lines = [it for line in lines_of(text) for it in put_in(pieces, line)]
        if title.startswith("piece "):
            pieces[title.removeprefix("piece ")] = lines
        else:
            found[title] = lines
    return found


class Step:
    """A step of a scenario: its lines, the datagram that it is, if it is one, and the lines of what is printed then."""

    def __init__(self, line):
        self.lines, self.printed, self.datagram = [line], [], None

    def close(self):
        """The datagram is what stands between the first and the last line, each line with its end."""
        self.datagram = "".join(f"{line.strip()}\r\n" for line in self.lines[1:-1]).encode()

    def answer(self):
        """The one datagram that is printed, as a text without carriage returns; nothing where none is."""
        if not self.printed or not self.printed[0].startswith("> "):
            return None
        return "".join(f"{line}\n" for line in self.printed[1 : self.printed.index("--")])


class Scenario:
    """A scenario: its lines `set` and `opening`, and its steps."""

    def __init__(self, lines):
        self.settings, self.steps = [], []
        place = None
        for line in map(in_full, lines):
            place = self.put(place, line)

    def put(self, place, line):
        """Puts a line where it stands; the list that the next one goes to, if it is one of a datagram."""
        if place is not None:
            place.append(line)
            if line != "--":
                return place
            if self.steps[-1].lines is place:
                self.steps[-1].close()
        elif line == "<" or line.startswith(("< ", "from ")):
            self.steps.append(Step(line))
            return self.steps[-1].lines
        elif line.startswith("> "):
            self.steps[-1].printed.append(line)
            return self.steps[-1].printed
        elif line.startswith(PRINTED):
            self.steps[-1].printed.append(line)
        elif line == "opening" or line.startswith("set "):
            self.settings.append(line)
        elif line and not line.startswith("#"):
            self.steps.append(Step(line))
        return None


def scenario(file, title):
    """The scenario of this title."""
    return Scenario(blocks(SCRIPTS / file)[title])
