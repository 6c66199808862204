"""The agent's end of a check, at a stub: what is met, what isn't, and what a failure tells."""

import time
from collections.abc import Callable, Generator, Iterable

import pytest

from rgw_bench import gateway as gateways
from rgw_bench import mgcp
from rgw_bench.check_text import read
from rgw_bench.gateway import Gateway, NotMet, NotSupported, OutOfTime, Places
from rgw_bench.mgcp import Message
from rgw_bench.player import Player
from rgw_bench.wire import Wire
from stub import Stub

Made = Callable[..., tuple[Stub, Gateway]]


@pytest.fixture
def made() -> Generator[Made, None, None]:
    """Makes a stub that answers so, and a gateway that speaks to it, for a check with the ids behind 1000."""
    opened: list[tuple[Stub, Gateway]] = []

    def make(answers: Callable[[Message], Iterable[bytes]] | None = None, limit: float | None = None) -> tuple[Stub, Gateway]:
        stub = Stub(answers) if answers else Stub()
        wire = Wire({"here": ("127.0.0.1", 0), "there": ("127.0.0.1", 0)})
        gateway = Gateway(Places(stub.address, "gw", "aaln/1", "aaln/2"), wire, limit=limit)
        gateway.begin(1000, hears=True)
        opened.append((stub, gateway))
        return stub, gateway

    yield make
    for stub, gateway in opened:
        stub.close()
        gateway.close()


def play(gateway: Gateway, steps: str) -> None:
    """Plays these steps."""
    check, = read(f"= a | 1 | b\n{steps}")
    Player(gateway).play(check.steps)


def failed(gateway: Gateway, steps: str) -> list[str]:
    """What a failure of these steps tells."""
    with pytest.raises(NotMet) as fault:
        play(gateway, steps)
    return fault.value.lines()


def answering(*texts: str) -> Callable[[Message], list[bytes]]:
    """Answers each command with these, in which {id} is its id and {next} the one behind."""
    return lambda it: [] if it.is_response else [text.format(id=it.id, next=it.id + 1).encode("latin-1") for text in texts]


def test_an_answer_is_taken(made: Made) -> None:
    """And what is in it can be asked for."""
    _, gateway = made(answering("200 {id} OK\r\nI: 2F\r\nES: L/hd\r\n"))
    play(gateway, "> AUEP {1} {line} MGCP 1.0\n< 200|250 {1}\nhas I\nhas es l/HD\nunlike I 30\ntells OK\nkeep it I\nhas I {it}\n")
    assert [it.mark for it in gateway.log] == [">", "<"]


def test_another_id_is_told(made: Made) -> None:
    """No answer came, but one did."""
    _, gateway = made(answering("200 {next} OK\r\n"))
    assert failed(gateway, "> AUEP {1} {line} MGCP 1.0\n< 200 {1}\n") == ["! due: < 200 1001", "! came: 200 1002 OK (another id)"]


def test_another_port_is_told(made: Made) -> None:
    """An answer comes from where the command went."""
    with Stub() as other:
        place: list[tuple[str, int]] = []

        def answers(message: Message) -> list[bytes]:
            other.say(mgcp.response(200, message.id), place[0])
            return []

        _, gateway = made(answers)
        place.append(gateway.ends.address("here"))
        told = failed(gateway, "> AUEP {1} {line} MGCP 1.0\n< 200 {1}\n")
    assert told == ["! due: < 200 1001", f"! came: 200 1001 OK from 127.0.0.1:{other.address[1]}"]


def test_a_late_answer_is_told(made: Made, monkeypatch: pytest.MonkeyPatch) -> None:
    """By what was sent when, and came when."""
    monkeypatch.setattr(gateways, "ANSWER", 0.2)
    monkeypatch.setattr(gateways, "LATE", 30)

    def late(message: Message) -> list[bytes]:
        time.sleep(0.6)
        return [mgcp.response(200, message.id)]

    _, gateway = made(late)
    due, came = failed(gateway, "> AUEP {1} {line} MGCP 1.0\n< 200 {1}\n")
    assert due == "! due: < 200 1001" and came.startswith("! came: 200 1001 OK ") and came.endswith(" s later")


def test_a_late_reader_fails_nobody(made: Made, monkeypatch: pytest.MonkeyPatch) -> None:
    """An answer that came in time counts, however late it is read."""
    monkeypatch.setattr(gateways, "ANSWER", 1.5)
    _, gateway = made()
    gateway.send(mgcp.command("AUEP", 1001, gateway.line))
    time.sleep(2)
    assert gateway.answer(200, 1001).code == 200


def test_nothing_is_told(made: Made, monkeypatch: pytest.MonkeyPatch) -> None:
    """Nothing came."""
    monkeypatch.setattr(gateways, "ANSWER", 0.1)
    monkeypatch.setattr(gateways, "LATE", 0.1)
    _, gateway = made(answering())
    assert failed(gateway, "> AUEP {1} {line} MGCP 1.0\n< 200 {1}\n") == ["! due: < 200 1001", "! came: nothing"]


def test_what_is_optional_may_be_refused(made: Made) -> None:
    """By 500 to 599; by another code it is a fault."""
    _, gateway = made(answering("511 {id} no\r\n"))
    with pytest.raises(NotSupported):
        play(gateway, "> RQNT {1} {line} MGCP 1.0\n<? 200 {1}\n")
    assert failed(gateway, "> RQNT {2} {line} MGCP 1.0\n< 200 {2}\n") == ["! due: < 200 1002", "! came: 511 1002 no"]


def test_a_provisional_response_prolongs(made: Made, monkeypatch: pytest.MonkeyPatch) -> None:
    """The final one is due so long after it."""
    monkeypatch.setattr(gateways, "ANSWER", 1.5)
    stub, gateway = made(answering())

    def slowly(message: Message) -> list[bytes]:
        for _ in range(3):
            time.sleep(0.6)
            stub.say(mgcp.response(100, message.id))
        return [mgcp.response(200, message.id)]

    stub.answers = slowly
    play(gateway, "> AUEP {1} {line} MGCP 1.0\n< 200 {1}\n")


def test_the_same_answer_is_the_same_bytes(made: Made) -> None:
    """A copy with other bytes isn't."""
    _, gateway = made(answering("200 {id} OK\r\n"))
    play(gateway, "> AUEP {1} {line} MGCP 1.0\n< 200 {1}\n> again\nsame {1}\n")
    stub, gateway = made(answering("200 {id} OK\r\n"))
    play(gateway, "> AUEP {1} {line} MGCP 1.0\n< 200 {1}\n")
    stub.answers = answering("200 {id} other\r\n")
    assert failed(gateway, "> AUEP {1} {line} MGCP 1.0\nsame {1}\n")[0] == "! due: same 1001"


def test_a_notification_is_for_the_check(made: Made) -> None:
    """One with an X of its own waits for its steps; another one is answered at once."""
    stub, gateway = made()
    play(gateway, "> AUEP {1} {line} MGCP 1.0\n< 200 {1}\n")
    stub.say(b"NTFY 7 aaln/1@gw MGCP 1.0\r\nX: 5\r\nO: L/hu\r\n")
    stub.say(b"NTFY 8 aaln/1@gw MGCP 1.0\r\nX: 1001\r\nO: L/hd\r\n")
    play(gateway, "notified told {line} {1} L/hd|hd\n> 200 {told} OK\nquiet 50\n")
    gateway.pump(time.monotonic() + 10, lambda: len([it for it in stub.heard if it.is_response]) == 2)
    assert [it.id for it in stub.heard if it.is_response] == [7, 8]


def test_a_notification_that_says_otherwise_is_told(made: Made) -> None:
    """What was due, and what came."""
    stub, gateway = made()
    play(gateway, "> AUEP {1} {line} MGCP 1.0\n< 200 {1}\n")
    stub.say(b"NTFY 8 aaln/1@gw MGCP 1.0\r\nX: 1001\r\nO: L/hu\r\n")
    told = failed(gateway, "notified told {line} {1} L/hd|hd\n")
    assert told == ["! due: notified told aaln/1@gw 1001 L/hd|hd", "! came: NTFY 8 aaln/1@gw MGCP 1.0 / X: 1001 / O: L/hu"]


def test_a_repeat_that_crosses_its_answer_is_no_noise(made: Made) -> None:
    """But another notification is."""
    stub, gateway = made()
    play(gateway, "> AUEP {1} {line} MGCP 1.0\n< 200 {1}\n")
    text = b"NTFY 8 aaln/1@gw MGCP 1.0\r\nX: 1001\r\nO: L/hd\r\n"
    stub.say(text)
    play(gateway, "notified told * * *\n> 200 {told} OK\n")
    stub.say(text)
    play(gateway, "quiet 100\n")
    stub.say(text.replace(b"8", b"9", 1))
    assert failed(gateway, "quiet 100\n")[0] == "! due: quiet 100"


def test_silence_is_broken_by_what_is_no_message(made: Made) -> None:
    """Its bytes are printed, and none of them can do anything to a terminal."""
    _, gateway = made(answering("\x1b[31mno\r\n"))
    told = failed(gateway, "> AUEP {1} {line} MGCP 1.0\nsilence 500\n")
    assert told == ["! due: silence 500", r"! came: \x1b[31mno (no header: \x1b[31mno)"]


def test_a_flood_is_bounded(made: Made) -> None:
    """In what is kept, in what is written, and in time."""
    flood = b".\r\n".join([b"200 1 OK\r\n"] * 300)
    _, gateway = made(lambda it: [flood] * 60)
    began = time.process_time()
    gateway.send(mgcp.command("AUEP", 1001, gateway.line))
    gateway.pump(time.monotonic() + 0.5)
    assert len(gateway.answers) <= gateways.MOST_KEPT and len(gateway.log) <= gateways.MOST_LOGGED
    assert time.process_time() - began < 5


def test_the_whole_run_has_a_limit(made: Made) -> None:
    """A gateway that says 100 for ever costs no more."""
    stub, gateway = made(answering("100 {id} wait\r\n"), time.monotonic() + 0.3)
    with pytest.raises(OutOfTime):
        play(gateway, "> AUEP {1} {line} MGCP 1.0\n< 200 {1}\n")


def test_what_is_left_is_answered(made: Made) -> None:
    """Behind a check, each once."""
    stub, gateway = made()
    play(gateway, "> AUEP {1} {line} MGCP 1.0\n< 200 {1}\n")
    stub.say(b"NTFY 8 aaln/1@gw MGCP 1.0\r\nX: 1001\r\nO: L/hd\r\n")
    stub.say(b"NTFY 9 aaln/1@gw MGCP 1.0\r\nX: 1001\r\nO: L/hd\r\n")
    play(gateway, "notified told * * *\n> 200 {told} OK\n")
    gateway.settle()
    gateway.pump(time.monotonic() + 10, lambda: len([it for it in stub.heard if it.is_response]) == 2)
    assert sorted(it.id for it in stub.heard if it.is_response) == [8, 9]
