"""Twelve faults by their names, of which verdicts.txt has what each check comes to; `none` is no fault."""
from __future__ import annotations

import itertools
import re
import time
from collections.abc import Callable, Iterable

from .faults import changed, in_own, is_command
from .proxy import Fault, Out, To, is_response, words

# Ids in place of others: an agent hardly has them.
FIRST_OWN_ID = 998_000_000
VERBS = {"EPCF", "RQNT", "CRCX", "MDCX", "DLCX", "AUEP", "AUCX", "NTFY", "RSIP"}
# A gateway that repeats at a fixed gap waits so long each time, and for so long in all, in s.
FIXED_GAP, LONGEST = 0.5, 20.0
# So many lines the gateway has.
LINES = 8


def id_of(message: str) -> int | None:
    """A message's transaction id, of one to nine digits."""
    found = (words(message) + ["", ""])[1]
    return int(found) if re.fullmatch("[0-9]{1,9}", found) else None


def with_id(message: str, number: int) -> str:
    """The message under another id."""
    return changed(message, r"\A(\s*\S+[ \t]+)\S+", rf"\g<1>{number}")


def is_final(response: str) -> bool:
    """Whether a response isn't a provisional one."""
    return words(response)[0] >= "200"


def none() -> Fault:
    """No fault."""
    return Fault()


def forgets_the_request() -> Fault:
    """A notification has no X."""
    return in_own("NTFY", r"^X:.*\n", "")


def never_repeats() -> Fault:
    """A notification that isn't answered comes once."""
    said = set[int | None]()

    def says(command: str) -> Iterable[Out]:
        is_again = is_command(command, "NTFY") and id_of(command) in said
        said.add(id_of(command))
        return () if is_again else (Out(command),)

    return Fault(says=says)


def serves_the_id_0() -> Fault:
    """A command with the transaction id 0 is executed and answered."""
    own = itertools.count(FIRST_OWN_ID + 1)

    def hears(message: str) -> str:
        return with_id(message, next(own)) if id_of(message) == 0 and not is_response(message) else message

    def answers(_: str, response: str) -> Iterable[Out]:
        return (Out(with_id(response, 0) if (id_of(response) or 0) > FIRST_OWN_ID else response),)

    return Fault(hears=hears, answers=answers)


def executes_again() -> Fault:
    """A command that comes again is executed again."""
    heard, stands_for = set[int | None](), dict[int | None, int]()

    def hears(message: str) -> str:
        number = id_of(message)
        if is_response(message) or number is None or number not in heard:
            heard.update(() if is_response(message) else (number,))
            return message
        own = FIRST_OWN_ID + len(stands_for)
        stands_for[own] = number
        return with_id(message, own)

    def answers(_: str, response: str) -> Iterable[Out]:
        number = stands_for.get(id_of(response))
        return (Out(response if number is None else with_id(response, number)),)

    return Fault(hears=hears, answers=answers)


def answers_what_is_confirmed() -> Fault:
    """A repeat is answered after K has confirmed its response."""
    return Fault(hears=lambda message: message if is_response(message) else changed(message, r"^K[ \t]*:.*(\n|\Z)", ""))


def gives_a_wrong_code() -> Fault:
    """A name that isn't known is refused with 501 in place of 500."""
    return Fault(answers=lambda _, response: (Out(changed(response, r"\A(\s*)500\b", r"\g<1>501")),))


def loses_the_second_message() -> Fault:
    """Of the messages in a datagram the first alone is heard."""
    return Fault(reads=lambda them: them[:1])


def judges_the_name_first() -> Fault:
    """A name is judged before the verb: where neither is known, 500 in place of 504."""
    odd = set[int | None]()

    def hears(message: str) -> str:
        head = words(message)
        if is_response(message) or not head or head[0].upper() in VERBS or id_of(message) is None or head[4:5] != ["1.0"]:
            return message
        odd.add(id_of(message))
        return changed(message, r"\A(\s*)\S+", r"\1AUEP")

    def answers(_: str, response: str) -> Iterable[Out]:
        number = id_of(response)
        return (Out(f"504 {number}\r\n" if number in odd and words(response)[0] != "500" else response),)

    return Fault(hears=hears, answers=answers)


def repeats_at_a_fixed_gap() -> Fault:
    """A notification that isn't answered comes again every half second."""
    begun = dict[int | None, float]()

    def says(command: str) -> Iterable[Out]:
        number, now = id_of(command), time.monotonic()
        if not is_command(command, "NTFY"):
            return [Out(command)]
        if now < begun.get(number, -LONGEST) + LONGEST:
            return []
        begun[number] = now
        return [Out(command)] + [
            Out(command, To.AGENT, FIXED_GAP * at, is_wanted=lambda: begun.get(number) == now) for at in range(1, int(LONGEST / FIXED_GAP))
        ]

    def then(response: str) -> Iterable[Out]:
        if is_final(response):
            begun.pop(id_of(response), None)
        return ()

    return Fault(says=says, then=then)


def notifies_twice() -> Fault:
    """A notification that was answered comes once more, under another id."""
    said, own = dict[int | None, str](), itertools.count(FIRST_OWN_ID + 1)

    def says(command: str) -> Iterable[Out]:
        if is_command(command, "NTFY"):
            said[id_of(command)] = command
        return (Out(command),)

    def then(response: str) -> Iterable[Out]:
        command = said.pop(id_of(response), None) if is_final(response) else None
        return [Out(with_id(command, next(own)), To.AGENT)] if command else []

    return Fault(says=says, then=then)


def forgets_what_is_quarantined() -> Fault:
    """A request discards what is quarantined, though it asks to process it."""

    def hears(message: str) -> str:
        if is_response(message) or not re.search(r"(?mi)^X[ \t]*:", message):
            return message
        how = "loop" if re.search(r"(?mi)^Q[ \t]*:.*loop", message) else "step"
        return changed(changed(message, r"^Q[ \t]*:.*\n", ""), r"\A(\s*\S.*\n)", rf"\g<1>Q: {how},discard\r\n")

    return Fault(hears=hears)


def names_another_line() -> Fault:
    """A notification names the line behind its own."""
    return in_own("NTFY", r"\A(NTFY \d+ \S*/)(\d+)@", lambda found: f"{found[1]}{int(found[2]) % LINES + 1}@")


TWELVE: dict[str, Callable[[], Fault]] = {
    made.__name__: made for made in (
        none, forgets_the_request, never_repeats, serves_the_id_0, executes_again, answers_what_is_confirmed, gives_a_wrong_code,
        loses_the_second_message, judges_the_name_first, repeats_at_a_fixed_gap, notifies_twice, forgets_what_is_quarantined,
        names_another_line,
    )
}
