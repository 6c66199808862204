"""What a run of checks has: its settings, who works telephones, the gateway, and whether that can be checked at all."""

import re
import socket
import time
from collections.abc import Iterator
from dataclasses import dataclass, field
from itertools import count

from . import mgcp
from .gateway import Dead, Ends, Gateway, NotMet, Places
from .mgcp import Message
from .wire import Address, Wire, written

# So often the gateway is asked whether it serves, a second each: by the call agent that it announces itself to, else; so often in vain.
MOST_TRIES_OWN, MOST_TRIES, MOST_SILENT = 30, 10, 3
# So long an act at an rgwd's telephone, and one by a program (`--hook`), may take, in seconds.
LONGEST_ACT, LONGEST_HOOKED = 5.0, 30.0
# A check's ids are the nine behind a number, which has at most seven digits: zeros may stand before it.
IDS, FIRST_ID, MOST_IDS = 10, 10_000, 9_000_000
LONGEST_NAME = 64


@dataclass(frozen=True)
class Settings:
    """Which gateway is checked, and with which means.

    `lines` are local names of lines; `own` is the address of the call agent that the gateway is configured for; `phones` that of the
    telephones of an rgwd, `hook` that of a program that works them; `timeout` the time for the whole run, in seconds."""

    gateway: Address
    domain: str
    lines: tuple[str, ...]
    own: Address | None = None
    phones: Address | None = None
    hook: Address | None = None
    is_slow: bool = False
    timeout: float | None = None

    def has(self, need: str) -> bool:
        """Whether what a check needs is there: one of `check_text.NEEDS`."""
        means = {
            "slow": self.is_slow,
            "other_line": len(self.lines) > 1,
            "own": self.own is not None and self.own[1] > 0,
            "telephone": bool(self.phones or self.hook),
            "restart": bool(self.hook),
        }
        return means[need]


def is_name(text: str) -> bool:
    """Whether a text is the local name of one line (RFC 3435, 2.1.2)."""
    return re.fullmatch(r"[!-~]{1,%d}" % LONGEST_NAME, text) is not None and not set(text) & set("*$@")


class Worked:
    """Works telephones by an rgwd's own socket (`phone 1 off`), or by a program's (`act 1 off`, `restart`)."""

    def __init__(self, place: Address, is_hook: bool) -> None:
        self.place, self.is_hook = place, is_hook

    def act(self, local: str, what: str, gateway: Gateway) -> str | None:
        """Does this at this line's telephone: None once it is done, else why it isn't. Meanwhile the gateway is heard."""
        number = (re.findall(r"[0-9]+$", local) or ["1"])[0]
        text = what if what == "restart" else f"{'act' if self.is_hook else 'phone'} {number} {what}"
        longest = LONGEST_HOOKED if self.is_hook else LONGEST_ACT
        with socket.socket(socket.AF_INET, socket.SOCK_DGRAM) as by:
            by.connect(self.place)
            by.setblocking(False)
            end = time.monotonic() + longest
            try:
                by.send(text.encode())
                while time.monotonic() < end:
                    gateway.pump(time.monotonic() + 0.005)
                    try:
                        said = by.recv(4096)
                    except BlockingIOError:
                        continue
                    return None if said.rstrip(b"\n") == b"done" else f"{written(self.place)} answers {mgcp.shown(said, 200)}"
            except OSError as fault:
                return f"{written(self.place)}: {fault.strerror}"
        return f"{written(self.place)}: no answer within {longest:g} s"


@dataclass
class Bench:
    """A gateway that is checked, at lines of its own, with the ids of its checks."""

    settings: Settings
    gateway: Gateway
    bases: Iterator[int] = field(repr=False)
    # What came in place of an answer that was asked for last.
    came: tuple[str, ...] = ()

    @classmethod
    def opened(
        cls, settings: Settings, limit: float | None = None, ends: Ends | None = None, part: int = 0, parts: int = 1
    ) -> "Bench":
        """Opens the sockets. Of several that play side by side each is a `part`, with two lines of its own and its own ids.

        Raises Dead where there is no socket at the agent's address."""
        own = settings.own or ("0.0.0.0", 0)
        if ends is None:
            try:
                ends = Wire({"here": own, "there": (own[0], 0)})
            except OSError as fault:
                raise Dead(f"{written(own)}: no socket: {fault.strerror}") from None
        lines = settings.lines[2 * part : 2 * part + 2]
        place = settings.hook or settings.phones
        telephones = Worked(place, bool(settings.hook)) if place else None
        places = Places(settings.gateway, settings.domain, lines[0], lines[1] if len(lines) > 1 else "", settings.lines)
        # By the time of day in ms, so that no session of the last two hours began with them.
        row = int(time.time() * 1000) % MOST_IDS // IDS
        first = FIRST_ID + IDS * (row - row % parts + part)
        bases = (FIRST_ID + (number - FIRST_ID) % (MOST_IDS // (IDS * parts) * IDS * parts) for number in count(first, IDS * parts))
        return cls(settings, Gateway(places, ends, telephones, limit), bases)

    def begin(self, hears: bool = False, announces: bool = False) -> None:
        """A new check, with ids of its own."""
        self.gateway.begin(next(self.bases), hears, announces)

    def asked(self, verb: str, endpoint: str, **params: object) -> Message | None:
        """The answer to a command, or None; a command that isn't answered is sent again."""
        for _ in range(MOST_SILENT):
            self.begin()
            id = self.gateway.base + 1
            self.gateway.send(mgcp.command(verb, id, endpoint, params))
            try:
                return self.gateway.find_answer(id).message
            except NotMet as fault:
                self.came = fault.came
        return None

    def _instead(self) -> str:
        """What came in place of an answer, if anything did."""
        came = [it for it in self.came if it != "nothing"]
        return f"; came: {'; '.join(came)}" if came else ""

    def serves(self) -> None:
        """Waits until the gateway serves. Raises Dead where it doesn't answer, or refuses with 405."""
        has_own = self.settings.has("own")
        tries = MOST_TRIES_OWN if has_own else MOST_TRIES
        for _ in range(tries):
            answer = self.asked("RQNT", self.gateway.line, X=1)
            if answer is None:
                raise Dead(f"{written(self.settings.gateway)}: no answer{self._instead()}")
            if answer.code != 405:
                return
            self.gateway.pump(time.monotonic() + 1)
        was_answered = "its announcement (RSIP) was answered" if self.gateway.announcements else f"no announcement (RSIP) in {tries} s"
        why = was_answered if has_own else "--own answers for that"
        raise Dead(f"{written(self.settings.gateway)}: 405, it waits for its call agent ({why})")

    def find(self) -> None:
        """Sees that the gateway serves, and that its lines are there and not in use. Raises Dead where that isn't so."""
        self.serves()
        for at, local in enumerate(self.settings.lines):
            word = "--line" if at == 0 else "--more-lines"
            self.find_line(f"{word} {local}", f"{local}@{self.settings.domain}")

    def find_line(self, word: str, line: str) -> None:
        """Sees that a line is there and not in use. Raises Dead, with the words that named it, where it isn't."""
        known = self.asked("AUEP", line)
        if known is not None and known.code == 500:
            raise Dead(f"{word}: 500, no such line there, or not in --domain")
        for code in ("I", "ES"):
            told = self.asked("AUEP", line, F=code)
            value = (told[code] or "") if told is not None and told.code == 200 else ""
            is_used = bool(value) if code == "I" else "hd" in re.split(r"[/,() ]", value.lower())
            if is_used:
                raise Dead(f"{word}: in use, off hook or with a connection")
