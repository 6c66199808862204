"""Each step of a check fails where what it asks for isn't so, at a stub."""

import socket
import time
from collections.abc import Generator

import pytest

from rgw_bench import gateway as gateways
from rgw_bench import mgcp
from rgw_bench.check_text import read, step_of
from rgw_bench.gateway import Gateway, NotMet, Places
from rgw_bench.mgcp import Message
from rgw_bench.player import Player
from rgw_bench.wire import Wire
from stub import Stub

Made = tuple[Stub, Gateway]
NTFY = b"NTFY 8 aaln/1@gw MGCP 1.0\r\nX: 1001\r\nO: L/hd\r\n"


def answers(message: Message) -> list[bytes]:
    """An answer with several parameters, two of them the same."""
    return [] if message.is_response else [b"200 %d OK\r\nI: 2F\r\nI: 30\r\nES: L/hd, D/1(N)\r\nZ:\r\n" % message.id]


@pytest.fixture
def made() -> Generator[Made, None, None]:
    """A stub, and a gateway that has asked it, and has its answer."""
    with Stub(answers) as stub:
        gateway = Gateway(Places(stub.address, "gw", "aaln/1", "aaln/2"), Wire({"here": ("127.0.0.1", 0), "there": ("127.0.0.1", 0)}))
        gateway.begin(1000, hears=True, announces=True)
        play(gateway, "> AUEP {1} {line} MGCP 1.0\n< 200 {1}")
        yield stub, gateway
        gateway.close()


def play(gateway: Gateway, steps: str) -> None:
    """Plays these steps."""
    check, = read(f"= a | 1 | b\n{steps}\n")
    Player(gateway).play(check.steps)


def due(gateway: Gateway, step: str) -> str:
    """What a failure of this step says was due."""
    with pytest.raises(NotMet) as fault:
        play(gateway, step)
    return fault.value.due


@pytest.mark.parametrize("step", [
    "once ES", "lacks Q", "empty Z", "empty Q", "form I [0-9A-F]+", "lists ES d/1(n)", "lists ES x|l/hd", "has I 2f", "has ES",
    "unlike I 30", "tells OK", "keep it I", "differ 1 2",
])
def test_met(made: Made, step: str) -> None:
    """What is so passes."""
    play(made[1], step)


@pytest.mark.parametrize("step", [
    "once I", "once Q", "lacks I", "empty I", "form I 2", "form I F", "form Q .+", "lists ES L/hu", "lists Q L/hd", "has I 30", "has Q",
    "unlike I 2f", "unlike Q 1", "tells NO", "keep it Q", "differ 1 1", "act off", "restart", "again 1", "notified told * 1002 *",
])
def test_not_met(made: Made, step: str) -> None:
    """What isn't so fails, and is named."""
    stub, gateway = made
    if step.startswith("notified"):
        stub.say(NTFY)
    assert due(gateway, step) == step


def test_an_act_that_is_refused(made: Made) -> None:
    """At the telephone."""
    class Refuses:
        def act(self, local: str, what: str, gateway: Gateway) -> str | None:
            return "! 5 PhoneState"

    made[1].telephones = Refuses()
    assert due(made[1], "act off") == "act off"


def test_how_often_it_comes_again(made: Made) -> None:
    """Each copy counts, and gaps grow or don't."""
    stub, gateway = made
    for number, gaps in ((8, (0.05, 0.3)), (9, (0.3, 0.05))):
        text = NTFY.replace(b"8", b"%d" % number, 1)
        stub.say(text)
        for gap in gaps:
            time.sleep(gap)
            stub.say(text)
        play(gateway, "notified told * * *\nagain 2")
        assert due(gateway, "again 3 50") == "again 3 50"
        if number == 8:
            play(gateway, "slower 2")
    assert due(gateway, "slower 2") == "slower 2"


def test_a_repeat_long_after_its_answer_is_noise(made: Made, monkeypatch: pytest.MonkeyPatch) -> None:
    """One that crosses it isn't."""
    monkeypatch.setattr(gateways, "CROSSING", 0.1)
    stub, gateway = made
    stub.say(NTFY)
    play(gateway, "notified told * * *\n> 200 {told} OK")
    time.sleep(0.3)
    stub.say(NTFY)
    assert due(gateway, "quiet 100") == "quiet 100"


def test_an_answer_goes_to_who_asked(made: Made) -> None:
    """Also where that is another port of the gateway's host; another host isn't heard."""
    stub, gateway = made
    with Stub() as other, socket.socket(socket.AF_INET, socket.SOCK_DGRAM) as stranger:
        stranger.bind(("127.0.0.2", 0))
        stranger.sendto(NTFY.replace(b"8", b"7", 1), gateway.ends.address("here"))
        other.say(NTFY, gateway.ends.address("here"))
        play(gateway, "notified told * * *\n> 200 {told} OK")
        assert gateway.unasked[0].message.id == 8
        end = time.monotonic() + 10
        while not other.heard and time.monotonic() < end:
            time.sleep(0.01)
        assert [it.id for it in other.heard] == [8] and not [it for it in stub.heard if it.is_response]


def test_an_announcement_is_for_an_endpoint(made: Made) -> None:
    """With its method."""
    stub, gateway = made
    for number, step in enumerate(("announced told restart aaln/1@gw", "announced told forced *@gw"), 8):
        stub.say(b"RSIP %d *@gw MGCP 1.0\r\nRM: restart\r\n" % number)
        assert due(gateway, step) == step


def test_all_that_undoes_a_check_is_played(made: Made) -> None:
    """Whatever came of the steps before."""
    stub, gateway = made
    Player(gateway).undo([step_of(it) for it in ("has Q", "> DLCX {8} {line} MGCP 1.0", "< 200 {8}")])
    assert [it.verb for it in stub.heard] == ["AUEP", "DLCX"]


def test_a_gateway_that_needs_longer_for_ever(made: Made, monkeypatch: pytest.MonkeyPatch) -> None:
    """A provisional response prolongs no more than to the longest time for an answer."""
    for name, seconds in (("ANSWER", 30.0), ("LONGEST_ANSWER", 0.5), ("LATE", 0.1)):
        monkeypatch.setattr(gateways, name, seconds)
    stub, gateway = made
    stub.answers = lambda it: [mgcp.response(100, it.id)]
    began = time.monotonic()
    assert due(gateway, "> AUEP {2} {line} MGCP 1.0\n< 200 {2}") == "< 200 1002"
    assert time.monotonic() - began < 20


def test_an_answer_at_another_port_is_none(made: Made, monkeypatch: pytest.MonkeyPatch) -> None:
    """It comes to the socket from which the command went out."""
    monkeypatch.setattr(gateways, "ANSWER", 0.5)
    monkeypatch.setattr(gateways, "LATE", 0.1)
    stub, gateway = made

    def elsewhere(message: Message) -> list[bytes]:
        stub.say(mgcp.response(200, message.id), gateway.ends.address("there"))
        return []

    stub.answers = elsewhere
    with pytest.raises(NotMet) as fault:
        play(gateway, "> AUEP {2} {line} MGCP 1.0\n< 200 {2}")
    assert fault.value.came[0].endswith(" (another port than it was asked from)")
