"""Checks of values that have a form of their own."""
import re

import pytest

from rgw_bench import mgcp
from rgw_bench.dialogue import Dialogue, rfc
from rgw_bench.mgcp import Message

# What a deletion tells: packets and octets sent and received, and packets lost; and, where the gateway knows them, jitter and latency.
COUNTED, PERHAPS_COUNTED = ("PS", "OS", "PR", "OR", "PL"), ("JI", "LA")
# Digit maps (RFC 3435, 2.1.5), events to detect, and notified entities, at which `{}` is an address of this machine.
MAPS = ["2xx", "(2xx|0T)", "(0T|00T|[1-7]xxx|8xxxxxxx|#xxxxxxx|*xx)", "([2-4]x.T|*[0-9*#]x)"]
DETECTED = ["L/hf", "L/hd,L/hu", "L/hd,L/hu,L/hf"]
ENTITIES = ["ca@{}:4444", "{}:4444", "ca@{}"]


def came(answer: Message, code: str) -> str:
    """What an answer has of a parameter."""
    return " and ".join(f"{code}: {it}" for it in answer.values(code)) or f"no {code}"


@rfc("3.2.1.2", is_alone=True)
def test_largest_id(gw: Dialogue) -> None:
    """The transaction id may be 999999999"""
    gw.send(mgcp.command("AUEP", mgcp.GREATEST_ID, gw.line))
    gw.answer(200, mgcp.GREATEST_ID)


@rfc("2.3.7", "3.2.2", "appendix A")
def test_connection_parameters(gw: Dialogue) -> None:
    """A deletion tells each count once, as a number of 1 to 9 digits"""
    made = gw.ask("CRCX", C=gw.call, M="recvonly")
    told = gw.ask("DLCX", expect=(250, 200), C=gw.call, I=made["I"])
    items = [it.strip().partition("=") for it in (told["P"] or "").split(",")]
    for name in COUNTED + PERHAPS_COUNTED:
        values = [value.strip() for code, _, value in items if code.strip().upper() == name]
        is_number = len(values) == 1 and re.fullmatch("[0-9]{1,9}", values[0])
        gw.due(f"P with {name}=NUMBER", is_number or (not values and name in PERHAPS_COUNTED), came(told, "P"))


@rfc("2.1.2", "2.3.10", needs=("other_line",), is_alone=True)
def test_lines_told(gw: Dialogue) -> None:
    """An audit of all lines tells the name of each that is checked"""
    told = gw.ask("AUEP", f"*@{gw.domain}", is_optional=True)
    named = {it.lower() for it in told.values("Z")}
    for line in gw.gateway.lines:
        gw.due(f"Z: {line}", line.lower() in named, came(told, "Z"))


@rfc("2.1.5", "2.3.10", undo="> RQNT {9} {line} MGCP 1.0 / X: {9} / D:\n< 200 {9}")
@pytest.mark.parametrize("text", MAPS)
def test_digit_map_told(gw: Dialogue, text: str) -> None:
    """An audit tells the digit map as it was set, blanks and case apart"""
    gw.request(is_optional=True, R="D/[0-9#*T](D)", D=text)
    told = gw.ask("AUEP", is_optional=True, F="D")
    gw.due(f"D: {text}", re.sub(r"\s", "", told["D"] or "").lower() == text.lower(), came(told, "D"))


@rfc("2.3.3", "2.3.10")
@pytest.mark.parametrize("text", DETECTED)
def test_detected_told(gw: Dialogue, text: str) -> None:
    """An audit tells each event that is to be detected while events are quarantined, and no other"""
    gw.request(is_optional=True, R="L/hd(N)", T=text)
    told = gw.ask("AUEP", is_optional=True, F="T")
    named = {it.strip().lower().removeprefix("l/") for it in (told["T"] or "").split(",")}
    gw.due(f"T: {text}", named == set(text.lower().replace("l/", "").split(",")), came(told, "T"))


@rfc("2.1.4", "2.3.10")
@pytest.mark.parametrize("text", ENTITIES)
def test_entity_told(gw: Dialogue, text: str) -> None:
    """An audit tells the notified entity as it was set"""
    due = text.format("[{}]".format(gw.gateway.ends.address("there")[0]))
    before = gw.ask("AUEP", is_optional=True, F="N")["N"]
    gw.due("has N", before, "no N")
    try:
        gw.request(is_optional=True, N=due)
        told = gw.ask("AUEP", F="N")
        gw.due(f"N: {due}", (told["N"] or "").lower() == due.lower(), came(told, "N"))
    finally:
        gw.ask("RQNT", X=gw.call, N=before)


@rfc("3.2.2", "2.3.10")
@pytest.mark.parametrize("head", ["0aF", "1" * 20])
def test_request_id_told(gw: Dialogue, head: str) -> None:
    """An audit tells the request's identifier as it was given, leading zeros and all"""
    due = f"{head}{gw.gateway.base + 1}"
    gw.ask("RQNT", X=due, R="L/hd(N)", is_optional=True)
    told = gw.ask("AUEP", is_optional=True, F="X")
    gw.due(f"X: {due}", (told["X"] or "").lower() == due.lower(), came(told, "X"))
