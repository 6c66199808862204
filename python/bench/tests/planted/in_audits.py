"""Faults of what an audit tells, and of what a command changes that is told later."""
from __future__ import annotations

import re
from collections.abc import Iterable

from .faults import changed, in_answer, in_command, is_command
from .proxy import Fault, Out, words
from .rows import Row

AUDITS, VALUES = "audits.check::", "test_values.py::"


def keeps_the_requested_events() -> Fault:
    """A request without R leaves the events that an earlier one asked for."""
    last = ""

    def hears(message: str) -> str:
        nonlocal last
        if not is_command(message, "RQNT"):
            return message
        found = re.search(r"(?mi)^R:.*\r\n", message)
        last = found[0] if found else last
        return message if found else message + last

    return Fault(hears=hears)


def takes_a_refused_request() -> Fault:
    """An audit tells the identifier of the last request, even if that was refused."""
    last = ""

    def hears(message: str) -> str:
        nonlocal last
        found = re.search(r"(?mi)^X:.*$", message) if is_command(message, "RQNT") else None
        last = found[0] if found else last
        return message

    def answers(command: str, response: str) -> Iterable[Out]:
        return (Out(changed(response, "^X:.*$", last) if is_command(command, "AUEP") else response),)

    return Fault(hears=hears, answers=answers)


def tells_deleted_connections() -> Fault:
    """An audit tells all connections that it once told."""
    longest = ""

    def answers(command: str, response: str) -> Iterable[Out]:
        nonlocal longest
        found = re.search(r"(?m)^I: .*$", response) if is_command(command, "AUEP") else None
        if found is None:
            return (Out(response),)
        longest = max(longest, found[0], key=len)
        return (Out(changed(response, "^I: .*$", longest)),)

    return Fault(answers=answers)


def executes_what_it_refuses() -> Fault:
    """A modification with an option that isn't known is refused, but changes the mode."""

    def answers(command: str, response: str) -> Iterable[Out]:
        is_odd = is_command(command, "MDCX") and "nosuch" in command
        return (Out(f"541 {words(response)[1]}\r\n" if is_odd else response),)

    return Fault(hears=lambda message: changed(message, r"^L: nosuch:1\r\n", ""), answers=answers)


def resets_the_mode() -> Fault:
    """A modification without a mode makes it recvonly."""

    def hears(message: str) -> str:
        is_without = is_command(message, "MDCX") and not re.search("(?mi)^M:", message)
        return changed(message, r"\A(.*\r\n)", r"\1M: recvonly\r\n") if is_without else message

    return Fault(hears=hears)


ROWS = [
    Row("Capabilities are empty", lambda: in_answer("AUEP", "^A: .*$", "A: \r"), f"{AUDITS}capabilities-named", "form A", "A:"),
    Row("Requested events are empty right after they were set", lambda: in_answer("AUEP", "^R: .*$", "R: \r"),
        f"{AUDITS}requested-as-set", "lists R L/hd(N)", "R:"),
    Row("A line is missing among all lines", lambda: in_answer("AUEP", r"^Z: aaln/2@.*\r\n", ""), f"{VALUES}test_lines_told",
        "Z: aaln/2@rgw.example.net", "Z: aaln/1@rgw.example.net"),
    Row("A count of a deletion is negative", lambda: in_answer("DLCX", "PL=0", "PL=-1"), f"{VALUES}test_connection_parameters",
        "P with PL=NUMBER", "PL=-1"),
    Row("A count of a deletion is missing", lambda: in_answer("DLCX", ", OR=0", ""), f"{VALUES}test_connection_parameters",
        "P with OR=NUMBER", "PR=0, PL=0"),
    Row("The notified entity is told as configured, not as set", lambda: in_answer("AUEP", "^N: .*$", "N: ca@agent.example.net\r"),
        f"{AUDITS}entity-as-set", "has N ca@[", "N: ca@agent.example.net"),
    Row("The notified entity is told without its port", lambda: in_answer("AUEP", "^(N: .*):4444", r"\1"),
        f"{VALUES}test_entity_told", "N: ca@[127.0.0.1]:4444", "N: ca@[127.0.0.1]"),
    Row("The digit map is told without its parentheses", lambda: in_answer("AUEP", r"^D: \((.*)\)", r"D: \1"),
        f"{AUDITS}digit-map-as-set", "has D (2xx|0T)", "D: 2xx|0T"),
    Row("The digit map is told without its first string", lambda: in_answer("AUEP", r"^D: \(.*?\|", "D: ("),
        f"{VALUES}test_digit_map_told", "D: (2xx|0T)", "D: (0T)"),
    Row("The events to detect are told empty", lambda: in_answer("AUEP", "^T: .*$", "T: \r"), f"{AUDITS}detected-as-set", "lists T L/hf",
        "T:"),
    Row("Of the events to detect the first is told", lambda: in_answer("AUEP", "^(T: [^,]*),.*$", "\\1\r"),
        f"{VALUES}test_detected_told", "T: L/hd,L/hu", "T: L/hd"),
    Row("The handling of quarantined events is always told as step", lambda: in_answer("AUEP", "^Q: .*$", "Q: step,process\r"),
        f"{AUDITS}handling-as-set", "lists Q loop", "Q: step,process"),
    Row("Active signals aren't told", lambda: in_answer("AUEP", "^S: .*$", "S: \r"), f"{AUDITS}signals-as-set", "lists S L/rg", "S:"),
    Row("A stopped signal is still told", lambda: in_answer("AUEP", "^S:[ \t]*\r$", "S: L/rg\r"), f"{AUDITS}signals-stopped", "empty S",
        "S: L/rg"),
    Row("An audit answers the first item alone", lambda: in_command("AUEP", r"^(F: \w+),.*$", "\\1\r"), f"{AUDITS}audit-all-items",
        "has R", "no R"),
    Row("An audit answers more than was asked", lambda: in_command("AUEP", "^F: ES", "F: ES,I"), f"{AUDITS}audit-items-alone", "lacks I",
        "I:"),
    Row("A request without events leaves the earlier ones", keeps_the_requested_events, f"{AUDITS}requested-replaced", "empty R",
        "R: L/hd(N)"),
    Row("A refused request ends the one before it", takes_a_refused_request, f"{AUDITS}request-refused", "has X ", "X: "),
    Row("An audit tells the first connection alone", lambda: in_answer("AUEP", r"^(I: \w+),.*$", "\\1\r"), f"{AUDITS}connections-told",
        "lists I", "I:"),
    Row("An audit tells deleted connections", tells_deleted_connections, f"{AUDITS}connections-told", "has I ", "I:"),
    Row("A modified mode isn't told", lambda: in_answer("AUCX", "^M: .*$", "M: recvonly\r"), f"{AUDITS}mode-modified", "has M inactive",
        "M: recvonly"),
    Row("A modification without a mode resets it", resets_the_mode, f"{AUDITS}mode-kept", "has M inactive", "M: recvonly"),
    Row("A refused modification is executed", executes_what_it_refuses, f"{AUDITS}modification-refused", "has M recvonly", "M: inactive"),
    Row("The audit of a connection doesn't tell the entity", lambda: in_answer("AUCX", r"^N: .*\r\n", ""), f"{AUDITS}connection-entity",
        "has N ca@[", "no N"),
    Row("A request's identifier loses its leading zeros", lambda: in_answer("AUEP", "^X: 0+", "X: "), f"{VALUES}test_request_id_told",
        "X: 0aF", "X: aF"),
]
