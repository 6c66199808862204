"""The numbers that the library answers, and the exceptions that they are. `include/rgw.h` says when each comes."""

from enum import IntEnum
from operator import methodcaller


class Number(IntEnum):
    """What a call is answered."""

    OK = 0
    OUT_OF_MEMORY = 1
    TICK_TOO_FAR = 2
    CLOCK_BACK = 3
    NO_SUCH_LINE = 4
    PHONE_STATE = 5
    BAD_DOMAIN = 12
    BAD_LINES = 13
    BAD_AGENT = 14
    BAD_WAIT = 15
    BAD_MEDIA = 16
    BAD_TOML = 17
    TOO_LONG = 18
    NOT_OPEN = 20
    IS_OPEN = 21
    BAD_FIRST = 22
    BAD_ACT = 23
    NO_SUCH_PLACE = 24
    SMALL_BUFFER = 25
    NO_CONNECTION = 26
    NOTHING_DUE = 27
    HAS_FLAW = 28
    NULL = 29


class RgwError(Exception):
    """A call did nothing. `number` says why, and `name` is the same in words of `rgw.h`, as `PHONE_STATE`."""

    def __init__(self, number: Number, words: str = "") -> None:
        super().__init__(f"{number.value} {number.name}{': ' if words else ''}{words}")
        self.number = number
        self.name = number.name


class EventRefused(RgwError):
    """The gateway refused an event: what it stood for it stands for, and its outputs are those of the event before."""


class OutOfMemory(EventRefused, MemoryError):
    """Memory was refused. The gateway goes on, and the same call may go well later."""


class ConfigFault(RgwError):
    """No gateway can be had of a configuration. `flaw` is what is wrong with it, as `rgwd --check` says it; empty where that isn't told."""

    def __init__(self, number: Number, flaw: str) -> None:
        super().__init__(number, flaw)
        self.flaw = flaw


# In a module that has this as its `__tracebackhide__` pytest shows no frame, where the test fails or gave what can't be.
HIDDEN = methodcaller("errisinstance", (AssertionError, RgwError, ValueError))
__tracebackhide__ = HIDDEN


class BadValue(RgwError, ValueError):
    """A value is out of its bounds; the words say what may stand there."""


class Closed(RgwError):
    """The gateway was closed, or is used on another thread than the one that opened it."""


def whole(name: str, value: object, least: int = 0, most: int | None = None) -> int:
    """The value itself, where it is a whole number between these bounds; else ValueError, which says what may stand there."""
    if isinstance(value, int) and value >= least and (most is None or value <= most):
        return value
    raise ValueError(f"{name} = {value!r}: a whole number from {least}" + ("" if most is None else f" to {most}"))


def raised(number: int) -> RgwError:
    """The exception of a number that isn't OK."""
    known = Number(number)
    if known is Number.OUT_OF_MEMORY:
        return OutOfMemory(known)
    if known <= Number.PHONE_STATE:
        return EventRefused(known)
    if known is Number.NOT_OPEN:
        return Closed(known)
    return RgwError(known)
