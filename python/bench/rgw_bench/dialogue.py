"""A gateway as checks in Python speak to it: transaction ids and request identifiers come by themselves.

    @rfc("3.5.1")
    def test_repeat(gw):
        \"\"\"A command that comes again gets the response that was sent, byte for byte\"\"\"
        id = gw.command("CRCX", C=gw.call, M="recvonly")
        gw.answer(200, id)
        gw.send_again()
        gw.same(id)
"""

from collections.abc import Collection

import pytest

from . import mgcp
from .check_text import UNDO, Step, step_of
from .gateway import OWN_IDS, Gateway
from .mgcp import Message
from .player import Player


def rfc(
    *sections: str, needs: Collection[str] = (), is_open: bool = False, is_alone: bool = False, is_last: bool = False, undo: str = ""
) -> pytest.MarkDecorator:
    """Marks a test as a check: the sections of RFC 3435 in which its rule, the docstring, stands.

    `needs`: what of `check_text.NEEDS` it needs; `is_open`: the RFC leaves open what is right; `is_alone`: nothing else may be played at
    the gateway meanwhile; `is_last`: it judges what came during all others; `undo`: what undoes it, one of `check_text.UNDO` or steps, a
    line each."""
    return pytest.mark.rfc(*sections, needs=tuple(needs), is_open=is_open, is_alone=is_alone, is_last=is_last, undo=undo)


def undo_steps(text: str) -> list[Step]:
    """The steps that undo a check: those of `UNDO` by its name, or those that stand there."""
    return [step_of(line) for line in UNDO.get(text, text.splitlines()) if line.strip()]


class Dialogue:
    """What a check in Python says to the gateway, and what it wants to hear; `gateway` has all of it."""

    def __init__(self, gateway: Gateway) -> None:
        self.gateway, self._ids = gateway, iter(range(gateway.base + 1, gateway.base + OWN_IDS))
        self.player = Player(gateway)

    def __repr__(self) -> str:
        return f"Dialogue({self.gateway!r})"

    @property
    def line(self) -> str:
        """The endpoint name of the line."""
        return self.gateway.line

    @property
    def other(self) -> str:
        """That of another line (`needs={"other_line"}`)."""
        return self.gateway.other

    @property
    def domain(self) -> str:
        """The domain of the endpoints."""
        return self.gateway.places.domain

    @property
    def call(self) -> str:
        """A call that no other check has."""
        return self.gateway.call

    @property
    def here(self) -> str:
        """The notified entity that the first socket is."""
        return self.gateway.entity("here")

    @property
    def there(self) -> str:
        """That of the second."""
        return self.gateway.entity("there")

    def command(self, verb: str, endpoint: str = "", sdp: str = "", port: str = "here", **params: object) -> int:
        """Sends a command, whose parameters are named by their codes: the id that it has."""
        id = next(self._ids)
        self.gateway.send(mgcp.command(verb, id, endpoint or self.line, params, sdp), port)
        return id

    def answer(self, codes: int | Collection[int], id: int, is_optional: bool = False) -> Message:
        """The answer with this id, which has one of these codes; one of 500 to 599 says of what is optional that it isn't supported."""
        return self.gateway.answer(codes, id, is_optional)

    def ask(
        self, verb: str, endpoint: str = "", expect: int | Collection[int] = 200, is_optional: bool = False, sdp: str = "", **params: object
    ) -> Message:
        """Sends a command, and takes its answer, which has this code or one of these."""
        return self.answer(expect, self.command(verb, endpoint, sdp, "here", **params), is_optional)

    def request(self, is_optional: bool = False, **params: object) -> str:
        """A notification request, answered with 200: its X, which is its id."""
        id = next(self._ids)
        self.gateway.send(mgcp.command("RQNT", id, self.line, [("X", id), *params.items()]))
        self.answer(200, id, is_optional)
        return str(id)

    def respond(self, to: Message, code: int = 200, port: str = "here", **params: object) -> None:
        """Answers what the gateway said by itself."""
        self.gateway.send(mgcp.response(code, to.id, "OK", params), port)

    def send(self, data: bytes, port: str = "here") -> None:
        """Sends a datagram."""
        self.gateway.send(data, port)

    def send_again(self, port: str = "here") -> None:
        """Sends the same bytes again as last."""
        self.gateway.send_again(port)

    def same(self, id: int) -> None:
        """The answer with this id comes again, byte for byte."""
        self.gateway.same(id)

    def silence(self, ms: int) -> None:
        """No answer comes for so long, in ms; a check with this wants to be alone (`is_alone`), since an answer's id might be anyone's."""
        self.gateway.silence(ms)

    def notified(self, endpoint: str = "*", x: str = "*", events: str = "*", port: str = "here") -> Message:
        """A notification comes; `*` is anything, `|` separates two that are right."""
        return self.gateway.notified(endpoint, x, events, port)

    def announced(self, method: str = "*", port: str = "here") -> Message:
        """An announcement (RSIP) comes with this method."""
        return self.gateway.announced(method, port)

    def repeats(self, number: int, grows: bool = False) -> None:
        """What came last comes so often again."""
        self.gateway.repeats(number, grows=grows)

    def quiet(self, ms: int) -> None:
        """The gateway says nothing by itself for so long, in ms."""
        self.gateway.quiet(ms)

    def pause(self, ms: int) -> None:
        """Nothing is asked for so long, in ms."""
        self.gateway.pause(ms)

    def act(self, what: str) -> None:
        """This is done at the line's telephone: off, on, flash, a key."""
        self.gateway.act(what)

    def restart(self) -> None:
        """The gateway is started anew."""
        self.gateway.act("restart")

    def due(self, what: str, is_met: object, *came: str) -> None:
        """Fails with what was due, and what came in its place, where it isn't met."""
        self.gateway.due(what, is_met, *came)
