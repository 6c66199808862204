"""Checks of a gateway as text, as they stand in `checks/*.check`: what goes over the wire, as one reads it beside a capture.

A line that begins with `#` is a comment. A check begins with a line `= NAME | SECTIONS | RULE`: its name, the sections of RFC 3435 in
which its rule stands, and the rule. `profile` among the sections says that the RFC leaves open what is right. Its steps follow, a line
each; `STEPS` has their forms:

    > TEXT, >> TEXT     a datagram is sent, from the first socket or the second; ` / ` stands for CRLF, `\\n` for a line feed alone, `\\t`
                        for a tab. `> again` sends the same bytes again
    < CODES ID          the answer with this id comes to that socket, with one of the codes, which have `|` between them
    <? CODES ID         the same of something that a gateway may leave out: with a code from 500 to 599 it isn't supported
    same ID             the answer with this id comes again, byte for byte as it first came
    silence MS          no answer comes for so long, in ms
    wait MS, pause MS   nothing is asked for so long; a check that waits for 10 s or more in all is a slow one (`--slow`)
    has CODE [VALUE]    the last answer has this parameter, with this value; `unlike CODE VALUE` with another one
    once CODE           it has this parameter once; `lacks CODE` not at all; `empty CODE` not at all, or without a value
    form CODE PATTERN   it has this parameter, whose whole value is as this regular expression says
    lists CODE VALUE    its value is a list, separated by commas, with this item in it; `|` stands between several that are right
    tells TEXT          the last answer holds this text
    keep NAME CODE      the value of this parameter of the last answer has this name from here on
    differ A B          two values differ
    notified NAME ENDPOINT X EVENTS
                        a notification of this endpoint comes by itself, with this X and these events; its id has this name from here on.
                        `*` stands for anything, and `|` between two that are right
    announced NAME METHOD [ENDPOINT [MS]]
                        an RSIP with this method comes, for this endpoint (else for any), within so long, in ms (else 4 s);
                        `notified-there`, `announced-there` are the same at the second socket
    again N [MS]        what a step asked for last comes so often again, each time within so long, in ms (else 4 s)
    slower N            the same, and its last gap is at least half as long again as the first
    quiet MS            the gateway says nothing by itself for so long
    act ACT, restart    this is done at the line's telephone (off, on, flash, a key); the gateway is started anew
    undo [call | request | both | telephone]
                        what undoes the check, whatever came of it: these, or the lines behind it

Names stand in braces: `{1}` to `{9}` are transaction ids of this check, `{line}` is the line's endpoint name and `{LINE}` that in upper
case, `{local}` its local name, `{domain}` the domain, `{other}` another line's endpoint name, `{call}` a call that no other check has,
`{sdp}` a session description, `{here}` and `{there}` the entities that the two sockets are.
"""

import re
from collections.abc import Iterable
from dataclasses import dataclass
from pathlib import Path

_CALL = ("> DLCX {8} {line} MGCP 1.0 / C: {call}", "< 250|200 {8}")
_REQUEST = ("> RQNT {9} {line} MGCP 1.0 / X: {9}", "< 200 {9}")
UNDO = {
    "call": _CALL,
    "request": _REQUEST,
    "both": _CALL + _REQUEST,
    "telephone": ("act on", "> RQNT {9} {line} MGCP 1.0 / X: {9} / Q: discard", "< 200 {9}"),
}
# What stands behind the first word of a step.
STEPS = {
    ">": r".+",
    ">>": r".+",
    "<": r"[0-9]{3}(\|[0-9]{3})* (\{\w+\}|[0-9]{1,9})",
    "<?": r"[0-9]{3}(\|[0-9]{3})* \{\w+\}",
    "same": r"\{\w+\}",
    "silence": r"[0-9]{1,6}",
    "wait": r"[0-9]{1,6}",
    "pause": r"[0-9]{1,6}",
    "has": r"\S+( .+)?",
    "unlike": r"\S+ .+",
    "once": r"\S+",
    "lacks": r"\S+",
    "empty": r"\S+",
    "form": r"\S+ .+",
    "lists": r"\S+ .+",
    "tells": r".+",
    "keep": r"\w+ \S+",
    "differ": r"\S+ \S+",
    "notified": r"\w+ \S+ \S+ .+",
    "notified-there": r"\w+ \S+ \S+ .+",
    "announced": r"\w+ \S+( \S+( [0-9]{1,6})?)?",
    "announced-there": r"\w+ \S+( \S+( [0-9]{1,6})?)?",
    "again": r"[0-9]{1,3}( [0-9]{1,6})?",
    "slower": r"[0-9]{1,3}",
    "quiet": r"[0-9]{1,6}",
    "act": r"off|on|flash|[0-9*#A-D]",
    "restart": r"",
}
# Steps that wait for so long as the last of their words says, in ms; and how long a check that isn't slow may wait in all.
_WAITS = re.compile(r"(?:wait|pause|silence|quiet) ([0-9]+)|again [0-9]+ ([0-9]+)|announced(?:-there)? \S+ \S+ \S+ ([0-9]+)")
LONGEST_WAIT = 10_000
# What a check needs that a gateway's address, domain and line don't give, by its name; and how that is given.
NEEDS = {
    "slow": "10 s or longer (--slow)",
    "other_line": "another line (--more-lines)",
    "own": "the call agent's address (--own)",
    "telephone": "someone at the telephone (--phones or --hook)",
    "restart": "who starts the gateway anew (--hook)",
}


class BadCheck(ValueError):
    """A text is no check; it says where, and why."""


@dataclass(frozen=True)
class Step:
    """A step: its first word, what stands behind it, and the line of the file, from 1."""

    word: str
    rest: str
    line: int = 0

    def __str__(self) -> str:
        return f"{self.word} {self.rest}".rstrip(" ")


@dataclass(frozen=True)
class Check:
    """A check: its name, the sections of its rule, the rule, its steps, and those that undo it; and where it begins, from 1."""

    name: str
    sections: tuple[str, ...]
    rule: str
    steps: tuple[Step, ...]
    undo: tuple[Step, ...] = ()
    line: int = 0

    @property
    def is_open(self) -> bool:
        """Whether RFC 3435 leaves open what is right."""
        return "profile" in self.sections

    @property
    def announces(self) -> bool:
        """Whether its steps answer what the gateway announces."""
        return self._has("announced", "announced-there")

    @property
    def hears(self) -> bool:
        """Whether its steps answer what the gateway says by itself."""
        return self.announces or self._has("notified", "notified-there", "quiet")

    @property
    def waits(self) -> int:
        """How long its steps may wait in all for what they name, in ms."""
        found = (_WAITS.fullmatch(str(it)) for it in self.steps)
        return sum(int(it[it.lastindex or 0]) for it in found if it)

    @property
    def is_alone(self) -> bool:
        """Whether nothing else may be played at the gateway meanwhile: it is started anew, it announces what might be anyone's, the
        check speaks of all lines or any, or it wants no answer at all, whose id might be anyone's."""
        is_of_all = any(re.search(r"[*$]@", it.rest) for it in self.steps if it.word.startswith(">"))
        return is_of_all or self._has("restart", "silence", "announced", "announced-there")

    @property
    def needs(self) -> tuple[str, ...]:
        """What it needs of `NEEDS`."""
        needed = {
            "slow": self.waits >= LONGEST_WAIT,
            "other_line": any("{other}" in it.rest for it in self.steps),
            "own": self.hears,
            "telephone": self._has("act"),
            "restart": self._has("restart"),
        }
        return tuple(name for name in NEEDS if needed[name])

    def _has(self, *words: str) -> bool:
        return any(it.word in words for it in self.steps)


def step_of(text: str, line: int = 0) -> Step:
    """The step that a line is. Raises BadCheck where it is none."""
    word, _, rest = text.partition(" ")
    if word not in STEPS or not re.fullmatch(STEPS[word], rest):
        raise BadCheck(f"line {line}: no step: {text}")
    return Step(word, rest, line)


def _steps(rows: Iterable[tuple[int, str]]) -> tuple[Step, ...]:
    return tuple(step_of(text, line) for line, text in rows)


def _check(rows: list[tuple[int, str]]) -> Check:
    first, title = rows[0]
    head = title[2:].split(" | ", 2)
    if len(head) != 3 or not all(head):
        raise BadCheck(f"line {first}: wanted `= NAME | SECTIONS | RULE`: {title}")
    at = next((at for at, (_, text) in enumerate(rows) if text.split()[0] == "undo"), len(rows))
    undone = rows[at:]
    known = undone[0][1][len("undo ") :] if undone else ""
    if known and (known not in UNDO or len(undone) > 1):
        raise BadCheck(f"line {undone[0][0]}: wanted `undo` and lines, or one of {', '.join(UNDO)}")
    undo = [(undone[0][0], text) for text in UNDO[known]] if known else undone[1:]
    if at == 1:
        raise BadCheck(f"line {first}: no steps: {head[0]}")
    return Check(head[0], tuple(head[1].split(", ")), head[2], _steps(rows[1:at]), _steps(undo), first)


def read(text: str) -> list[Check]:
    """The checks of a text. Raises BadCheck for a fault in it, and where a name stands twice."""
    blocks: list[list[tuple[int, str]]] = []
    for line, row in enumerate(text.splitlines(), 1):
        if row.startswith("= "):
            blocks.append([(line, row)])
        elif row.strip() and not row.startswith("#"):
            if not blocks:
                raise BadCheck(f"line {line}: before the first check: {row}")
            blocks[-1].append((line, row.rstrip()))
    checks = [_check(rows) for rows in blocks]
    names: set[str] = set()
    for check in checks:
        if check.name in names:
            raise BadCheck(f"line {check.line}: another check is called {check.name}")
        names.add(check.name)
    return checks


def read_file(path: Path) -> list[Check]:
    """The checks of a file. Raises BadCheck, with the file's name, and OSError."""
    try:
        return read(path.read_text(encoding="utf-8"))
    except (BadCheck, UnicodeDecodeError) as fault:
        raise BadCheck(f"{path}: {fault}") from None
