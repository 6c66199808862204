"""How a fault is made: by what is written in place of what, in which messages.

Patterns are regular expressions without case, in which `^` and `$` are the ends of a line.
"""
from __future__ import annotations

import re
from collections.abc import Callable, Iterable

from .proxy import Fault, Out, To, is_response, number, words

New = str | Callable[[re.Match[str]], str]


def changed(message: str, pattern: str, new: New) -> str:
    """The message with `new` in place of each part that is as `pattern`."""
    return re.sub(pattern, new, message, flags=re.M | re.I)


def is_command(message: str, verbs: str) -> bool:
    """Whether a message is a command with one of these verbs, which `|` parts."""
    return not is_response(message) and (words(message) or [""])[0].upper() in verbs.split("|")


def in_answer(verbs: str, pattern: str, new: New) -> Fault:
    """Answers to commands with these verbs have `new` in place of `pattern`."""

    def answers(command: str, response: str) -> Iterable[Out]:
        return (Out(changed(response, pattern, new) if is_command(command, verbs) else response),)

    return Fault(answers=answers)


def in_own(verbs: str, pattern: str, new: New) -> Fault:
    """The gateway's own commands with these verbs have `new` in place of `pattern`."""

    def says(command: str) -> Iterable[Out]:
        return (Out(changed(command, pattern, new) if is_command(command, verbs) else command),)

    return Fault(says=says)


def in_command(verbs: str, pattern: str, new: New) -> Fault:
    """The gateway hears `new` in place of `pattern` in commands with these verbs."""
    return Fault(hears=lambda message: changed(message, pattern, new) if is_command(message, verbs) else message)


def in_response(pattern: str, new: New) -> Fault:
    """The gateway hears `new` in place of `pattern` in responses."""
    return Fault(hears=lambda message: changed(message, pattern, new) if is_response(message) else message)


def answered(verbs: str, made: Callable[[str], Iterable[Out]]) -> Fault:
    """In place of an answer to a command with these verbs goes out what is `made` of it."""

    def answers(command: str, response: str) -> Iterable[Out]:
        return made(response) if is_command(command, verbs) else (Out(response),)

    return Fault(answers=answers)


def unsaid(verbs: str, pattern: str = "", is_answered: bool = True) -> Fault:
    """Commands of the gateway's own with these verbs, in which `pattern` is found, never go out. It takes them for answered, or waits."""

    def says(command: str) -> Iterable[Out]:
        if not is_command(command, verbs) or not re.search(pattern, command, re.M | re.I):
            return (Out(command),)
        return (Out(f"200 {number(command)} OK\r\n", To.GATEWAY),) if is_answered else ()

    return Fault(says=says)


def copied(verbs: str, *moments: float) -> Fault:
    """Commands of the gateway's own with these verbs go out again so many seconds after their final answer."""
    said: dict[str, str] = {}

    def says(command: str) -> Iterable[Out]:
        if is_command(command, verbs):
            said[number(command)] = command
        return (Out(command),)

    def then(response: str) -> Iterable[Out]:
        command = said.pop(number(response), None) if words(response)[0] >= "200" else None
        return [Out(command, later=moment) for moment in moments] if command else []

    return Fault(says=says, then=then)
