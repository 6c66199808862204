"""How fast commands are answered, by the datagrams that pass: the first send and the repeats of each, its answer and the code of that.

Whatever passes is taken, and what is kept is bounded. Moments are in seconds.
"""
from __future__ import annotations

import itertools
import re
from collections.abc import Hashable
from dataclasses import dataclass, field
from typing import Any

from .mgcp import split
from .times import Times

# A command is remembered for so long after it was sent first, in s; one without an answer by then is given up. RFC 3435, 3.5.3: no
# transaction lasts longer than that.
REMEMBERED = 30.0
# So many commands are remembered at most; then the oldest is let go.
MOST = 65_536
# There are nine verbs; others are counted together.
HEAD = re.compile(rb"\s*([A-Za-z]{4}|[0-9]{3})[ \t]+([0-9]{1,9})(?![0-9])")
VERBS = frozenset("EPCF RQNT NTFY CRCX MDCX DLCX AUEP AUCX RSIP".split())


def heads(datagram: bytes) -> list[tuple[str, int]]:
    """The verb or the return code of each message of a datagram, with its transaction id; what is no message is left out."""
    found = (HEAD.match(part) for part in split(datagram))
    return [(it[1].decode("ascii").upper(), int(it[2])) for it in found if it]


@dataclass
class Verb:
    """What became of the commands with a verb: how many were sent, how many copies came again, provisional answers, commands that were
    given up, how often each code came, and how long final answers took, in ms."""

    times: Times = field(default_factory=Times)
    sent: int = 0
    again: int = 0
    provisional: int = 0
    given_up: int = 0
    codes: dict[str, int] = field(default_factory=dict)

    def told(self) -> dict[str, Any]:
        counts = {"sent": self.sent, "again": self.again, "provisional": self.provisional, "given_up": self.given_up}
        return {**self.times.told(), **counts, "codes": dict(sorted(self.codes.items()))}


@dataclass
class UnderWay:
    verb: Verb
    begun: float
    passed: float | None = None
    is_answered: bool = False


class Answers:
    """Commands of one direction and their answers. `who` says between whom: an id stands for another command at another pair."""

    def __init__(self) -> None:
        self.verbs: dict[str, Verb] = {}
        self.under_way: dict[tuple[Hashable, int], UnderWay] = {}

    def came(self, who: Hashable, datagram: bytes, moment: float) -> None:
        """A sender sent this: its commands count, as new ones or repeats."""
        for word, number in heads(datagram):
            if word.isdigit():
                continue
            known = self.under_way.get((who, number))
            if known is not None and moment - known.begun < REMEMBERED:
                known.verb.again += 1
                continue
            self.let_go(moment)
            verb = self.verbs.setdefault(word if word in VERBS else "other", Verb())
            verb.sent += 1
            self.under_way.pop((who, number), None)
            self.under_way[who, number] = UnderWay(verb, moment)

    def passed(self, who: Hashable, datagram: bytes, moment: float) -> None:
        """This was handed on to who answers it: from the first copy on it can be answered."""
        for word, number in heads(datagram):
            known = self.under_way.get((who, number))
            if known is not None and known.passed is None and not word.isdigit():
                known.passed = moment

    def answered(self, who: Hashable, datagram: bytes, moment: float) -> None:
        """Who answers sent this: the first final answer of each command counts."""
        for word, number in heads(datagram):
            known = self.under_way.get((who, number)) if word.isdigit() else None
            if known is None or known.is_answered or known.passed is None:
                continue
            if word < "200":
                known.verb.provisional += 1
                continue
            known.is_answered = True
            known.verb.codes[word] = known.verb.codes.get(word, 0) + 1
            known.verb.times.add((moment - known.passed) * 1000)

    def let_go(self, moment: float) -> None:
        """Lets go of commands that are remembered no longer; what has no answer by then is given up."""
        for key, known in list(itertools.islice(self.under_way.items(), 2)):
            if moment - known.begun < REMEMBERED and len(self.under_way) < MOST:
                return
            known.verb.given_up += not known.is_answered
            del self.under_way[key]

    def told(self, moment: float) -> dict[str, Any]:
        """What became of the commands so far, by their verbs."""
        while self.under_way:
            before = len(self.under_way)
            self.let_go(moment)
            if len(self.under_way) == before:
                break
        return {name: verb.told() for name, verb in sorted(self.verbs.items())}
