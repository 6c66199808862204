"""Plays the steps of a check at a gateway."""

import re
from collections.abc import Callable, Iterable

from . import mgcp
from .check_text import Step
from .gateway import UNASKED, Gateway, NotMet, NotSupported

# A session description: G.711 to and from the machine's own address.
SDP = "v=0 / o=- 1 1 IN IP4 127.0.0.1 / s=- / c=IN IP4 127.0.0.1 / t=0 0 / m=audio 40000 RTP/AVP 0 8"


class Player:
    """Plays steps; names that steps keep stand for their values from there on."""

    def __init__(self, gateway: Gateway) -> None:
        self.gateway, self.kept = gateway, dict[str, str]()

    def play(self, steps: Iterable[Step]) -> None:
        """Plays these steps up to the first that isn't met.

        Raises NotMet or NotSupported there; the first has in `due` what was due, as the step says it."""
        for step in steps:
            try:
                _PLAYED[step.word](self, step)
            except NotMet as fault:
                raise NotMet(self.filled(str(step)), *fault.came) from None

    def undo(self, steps: Iterable[Step]) -> None:
        """Plays each of these, whatever came of those before it."""
        for step in steps:
            try:
                self.play([step])
            except (NotMet, NotSupported):
                pass

    def filled(self, text: str) -> str:
        """A text with what the names in its braces stand for; one that stands for nothing is left."""
        return re.sub(r"\{(\w+)\}", lambda found: self._meant(found[1]), text)

    def _meant(self, name: str) -> str:
        gateway = self.gateway
        if re.fullmatch("[0-9]{1,3}", name):
            return str(gateway.base + int(name))
        places: dict[str, Callable[[], str]] = {
            "line": lambda: gateway.line,
            "LINE": lambda: gateway.line.upper(),
            "other": lambda: gateway.other,
            "local": lambda: gateway.places.local,
            "domain": lambda: gateway.places.domain,
            "call": lambda: gateway.call,
            "sdp": lambda: SDP,
            "here": lambda: gateway.entity("here"),
            "there": lambda: gateway.entity("there"),
        }
        return places[name]() if name in places else self.kept.get(name, f"{{{name}}}")

    def datagram(self, text: str) -> bytes:
        """The bytes that a step sends: each line ends in CRLF, or as its text says."""
        made = self.filled(text).replace(" / ", "\r\n").replace("\\t", "\t").replace("\\n", "\n")
        return (made if made.endswith("\n") else f"{made}\r\n").encode("latin-1", "replace")

    def _id(self, text: str) -> int:
        digits = self.filled(text)
        return int(digits) if re.fullmatch("[0-9]{1,9}", digits) else 0

    def _send(self, step: Step, port: str) -> None:
        if step.rest == "again":
            self.gateway.send_again(port)
        else:
            self.gateway.send(self.datagram(step.rest), port)

    def _answer(self, step: Step, is_optional: bool) -> None:
        codes, id = step.rest.split(" ")
        self.gateway.answer([int(it) for it in codes.split("|")], self._id(id), is_optional)

    def _has(self, step: Step, is_other: bool = False) -> None:
        code, _, wanted = step.rest.partition(" ")
        given, value = self._value(code), self.filled(wanted).lower()
        is_met = given is not None and (given.lower() != value if is_other else not value or given.lower() == value)
        self.gateway.due(str(step), is_met, f"{code}: {printed(given)}" if given is not None else f"no {code}")

    def _value(self, code: str) -> str | None:
        return self.gateway.last[code] if self.gateway.last else None

    def _judge(self, step: Step, code: str, is_met: object) -> None:
        """A step about a parameter of the last answer is met, or tells what that has."""
        values = self.gateway.last.values(code) if self.gateway.last else []
        came = " and ".join(f"{code}: {printed(it)}".rstrip(" ") for it in values)
        self.gateway.due(str(step), is_met, came or f"no {code}")

    def _once(self, step: Step) -> None:
        values = self.gateway.last.values(step.rest) if self.gateway.last else []
        self._judge(step, step.rest, len(values) == 1)

    def _form(self, step: Step) -> None:
        code, pattern = step.rest.split(" ", 1)
        self._judge(step, code, re.fullmatch(pattern, self._value(code) or ""))

    def _lists(self, step: Step) -> None:
        code, wanted = step.rest.split(" ", 1)
        # (a comma in parentheses stands in an item)
        items = {it.strip(" \t").lower() for it in re.split(r",(?![^()]*\))", self._value(code) or "")}
        self._judge(step, code, items & set(self.filled(wanted).lower().split("|")))

    def _tells(self, step: Step) -> None:
        came = self.gateway.last.raw if self.gateway.last else b""
        self.gateway.due(str(step), step.rest.encode("latin-1", "replace") in came, mgcp.shown(came, 200))

    def _keep(self, step: Step) -> None:
        name, code = step.rest.split(" ")
        given = self._value(code)
        self.gateway.due(str(step), given is not None, f"no {code}")
        self.kept[name] = given or ""

    def _differ(self, step: Step) -> None:
        first, second = (self.filled(it) for it in step.rest.split(" "))
        self.gateway.due(str(step), first != second, f"both are {first}")

    def _notified(self, step: Step, port: str) -> None:
        name, rest = step.rest.split(" ", 1)
        endpoint, x, events = self.filled(rest).split(" ", 2)
        self.kept[name] = str(self.gateway.notified(endpoint, x, events, port).id)

    def _announced(self, step: Step, port: str) -> None:
        name, method, *more = self.filled(step.rest).split(" ")
        endpoint = more[0] if more else "*"
        within = int(more[1]) / 1000 if len(more) > 1 else UNASKED
        self.kept[name] = str(self.gateway.announced(method, port, endpoint, within).id)

    def _again(self, step: Step) -> None:
        number, _, within = step.rest.partition(" ")
        self.gateway.repeats(int(number), int(within) / 1000 if within else UNASKED)

    def _pause(self, step: Step) -> None:
        self.gateway.pause(int(step.rest))


_PLAYED: dict[str, Callable[[Player, Step], None]] = {
    ">": lambda player, step: player._send(step, "here"),
    ">>": lambda player, step: player._send(step, "there"),
    "<": lambda player, step: player._answer(step, False),
    "<?": lambda player, step: player._answer(step, True),
    "same": lambda player, step: player.gateway.same(player._id(step.rest)),
    "silence": lambda player, step: player.gateway.silence(int(step.rest)),
    "wait": Player._pause,
    "pause": Player._pause,
    "has": Player._has,
    "unlike": lambda player, step: player._has(step, True),
    "once": Player._once,
    "lacks": lambda player, step: player._judge(step, step.rest, player._value(step.rest) is None),
    "empty": lambda player, step: player._judge(step, step.rest, not player._value(step.rest)),
    "form": Player._form,
    "lists": Player._lists,
    "tells": Player._tells,
    "keep": Player._keep,
    "differ": Player._differ,
    "notified": lambda player, step: player._notified(step, "here"),
    "notified-there": lambda player, step: player._notified(step, "there"),
    "announced": lambda player, step: player._announced(step, "here"),
    "announced-there": lambda player, step: player._announced(step, "there"),
    "again": Player._again,
    "slower": lambda player, step: player.gateway.repeats(int(step.rest), grows=True),
    "quiet": lambda player, step: player.gateway.quiet(int(step.rest)),
    "act": lambda player, step: player.gateway.act(step.rest),
    "restart": lambda player, step: player.gateway.act("restart"),
}


def printed(value: str) -> str:
    """A value of the gateway's in printable ASCII."""
    return mgcp.shown(value.encode("latin-1", "replace"), 200)
