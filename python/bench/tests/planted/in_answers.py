"""Faults of answers: when, where to and under which id they come, how often, and to which of several commands."""
from __future__ import annotations

from .faults import answered, changed, in_answer, in_command
from .proxy import Fault, Out, To, number
from .rows import CREATE, REFUSED, Row

FORMS = "forms.check::"


def with_another_id(response: str) -> str:
    """The response under the id behind its own."""
    return changed(response, r"\A(\d+ )\d+", rf"\g<1>{int(number(response)) + 1}")


def deaf_to_the_largest_id() -> Fault:
    """The gateway doesn't hear a command whose id is 999999999."""
    return Fault(hears=lambda message: None if number(message) == "999999999" else message)


def with_few_messages() -> Fault:
    """The gateway takes four messages of a datagram."""
    return Fault(reads=lambda messages: messages[:4])


ROWS = [
    Row("An answer has another id", lambda: answered("ABCD", lambda it: [Out(with_another_id(it))]), REFUSED, "< 504", "(another id)"),
    Row("An answer comes 2.6 s late", lambda: answered("ABCD", lambda it: [Out(it, later=2.6)]), REFUSED, "< 504", " s later"),
    Row("An answer comes from another port", lambda: answered("ABCD", lambda it: [Out(it, is_elsewhere=True)]), REFUSED, "< 504",
        "from 127.0.0.1:"),
    Row("An answer has no empty line before its description", lambda: in_answer("CRCX", r"\r\n\r\n", "\r\n"), CREATE, "< 200", "v=0"),
    Row("An answer comes twice", lambda: answered("AUEP", lambda it: [Out(it), Out(it, later=0.1)]), f"{FORMS}answered-once",
        "silence 1000", "200 "),
    Row("An answer goes to the configured agent, whoever asked", lambda: answered("AUEP", lambda it: [Out(it, To.AGENT)]),
        f"{FORMS}answered-to-its-source", "< 200", "200 "),
    Row("A command with the largest id isn't answered", deaf_to_the_largest_id, "test_values.py::test_largest_id", "< 200 999999999",
        "nothing"),
    Row("Of nine commands in a datagram four are answered", with_few_messages, f"{FORMS}many-in-one", "< 200 ", "nothing"),
    Row("Options are read with case", lambda: in_command("CRCX", "P:20, A:pcmu", "nosuch:1"), f"{FORMS}option-case", "< 200", "541 "),
    Row("A call loses its leading zeros", lambda: in_answer("AUCX", "^C: 0+", "C: "), f"{FORMS}call-with-zeros", "has C 00", "C: "),
    Row("A connection's identifier isn't hexadecimal", lambda: in_answer("CRCX", "^I: .*$", "I: con-1\r"), f"{FORMS}connection-id-form",
        "form I", "I: con-1"),
    Row("A connection's identifier has 33 digits", lambda: in_answer("CRCX", "^I: .*$", f"I: {'1' * 33}\r"),
        f"{FORMS}connection-id-form", "form I", f"I: {'1' * 33}"),
    Row("An answer names two connections", lambda: in_answer("CRCX", r"^(I: .*\r\n)", r"\1I: 7\r\n"), f"{FORMS}one-connection-id",
        "once I", "I: "),
]
