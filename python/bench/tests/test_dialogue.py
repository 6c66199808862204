"""What a check in Python says reaches the gateway as it is said, and fails where what it wants isn't so, at a stub."""
from collections.abc import Callable, Generator
from typing import Any

import pytest

from rgw_bench import mgcp
from rgw_bench.dialogue import Dialogue, rfc, undo_steps
from rgw_bench.gateway import Gateway, NotMet, Places
from rgw_bench.wire import Wire
from stub import Stub

Made = tuple[Stub, Dialogue]
NTFY = b"NTFY 8 aaln/1@gw MGCP 1.0\r\nX: 1001\r\nO: L/hd\r\n"
RSIP = b"RSIP 9 *@gw MGCP 1.0\r\nRM: restart\r\n"


class Telephones:
    """It does whatever is asked, and keeps it."""

    def __init__(self) -> None:
        self.acts: list[str] = []

    def act(self, local: str, what: str, gateway: Gateway) -> str | None:
        self.acts.append(f"{local} {what}")
        return None


@pytest.fixture
def made() -> Generator[Made, None, None]:
    """A stub, and what speaks to it, with the ids from 1001 on; commands are answered by 200."""
    with Stub() as stub:
        wire = Wire({"here": ("127.0.0.1", 0), "there": ("127.0.0.1", 0)})
        gateway = Gateway(Places(stub.address, "gw", "aaln/1", "aaln/2"), wire)
        gateway.begin(1000, hears=True, announces=True)
        gateway.telephones = Telephones()
        made = Dialogue(gateway)
        made.ask("AUEP")
        yield stub, made
        gateway.close()


def test_a_command_goes_out_as_it_is_said(made: Made) -> None:
    """With its endpoint, its parameters and its description, under an id of its own, by the socket that is named."""
    stub, it = made
    for number, port in enumerate(("here", "there"), 1002):
        assert it.command("CRCX", it.other, "v=0\r\n", port, C="1A", M="recvonly") == number
        it.answer(200, number)
        assert stub.source == it.gateway.ends.address(port)
    command = stub.heard[-1]
    assert (command.verb, command.id, command.endpoint, command["C"], command["M"]) == ("CRCX", 1003, it.other, "1A", "recvonly")
    assert command.raw.endswith(b"\r\n\r\nv=0\r\n")


def test_a_request_has_its_id_for_its_x(made: Made) -> None:
    stub, it = made
    x = it.request(R="L/hd(N)")
    assert x == stub.heard[-1]["X"] == str(stub.heard[-1].id) and stub.heard[-1]["R"] == "L/hd(N)"


def test_a_response_has_its_code(made: Made) -> None:
    """And goes out by the socket that is named."""
    stub, it = made
    stub.say(NTFY)
    told = it.notified()
    for code, port in ((401, "here"), (200, "there")):
        it.respond(told, code, port)
        it.ask("AUEP")
        response = next(heard for heard in reversed(stub.heard) if heard.is_response)
        assert (response.code, response.id) == (code, 8)


@pytest.mark.parametrize("step, due", [
    (lambda it: it.ask("AUEP", expect=500), "< 500 1002"), (lambda it: it.ask("AUEP", expect=(500, 510)), "< 500"),
    (lambda it: it.notified(x="1002"), "notified"), (lambda it: it.notified("aaln/2@gw"), "notified"),
    (lambda it: it.notified(events="L/hu"), "notified"), (lambda it: it.announced("forced"), "announced"),
    (lambda it: it.quiet(200), "quiet 200"), (lambda it: it.due("hook", False, "on"), "hook"), (lambda it: it.same(1), ""),
], ids=range(9))
def test_what_is_not_so_fails(made: Made, step: Callable[[Dialogue], Any], due: str) -> None:
    stub, it = made
    stub.say(RSIP if due == "announced" else NTFY)
    with pytest.raises(NotMet) as fault:
        step(it)
    assert fault.value.due.startswith(due)


def test_what_is_so_passes(made: Made) -> None:
    """What is wanted of notifications, announcements, repeats and answers that come again."""
    stub, it = made
    stub.say(RSIP)
    it.announced("restart")
    stub.say(NTFY)
    it.notified("aaln/1@gw", "1001", "L/hd|L/hu")
    it.gateway.pump(it.gateway.unasked[-1].moment + 0.3)
    for _ in range(2):
        stub.say(NTFY)
    it.repeats(2)
    with pytest.raises(NotMet):
        it.repeats(2, grows=True)
    it.respond(stub_message(), 200)
    it.send_again()
    it.due("a line", it.line == "aaln/1@gw" and it.domain == "gw" and it.call != "")


def stub_message() -> mgcp.Message:
    """The notification as it came."""
    found = mgcp.parse(NTFY)
    assert isinstance(found, mgcp.Message)
    return found


def test_acts_at_the_telephone(made: Made) -> None:
    _, it = made
    it.act("off")
    it.restart()
    telephones = it.gateway.telephones
    assert isinstance(telephones, Telephones) and [act.split()[-1] for act in telephones.acts] == ["off", "restart"]


def test_a_check_is_marked() -> None:
    """With its sections and all that it needs; what undoes it has a name, or stands there."""
    mark = rfc("2.3.10", "3.2", needs=("own",), is_alone=True, undo="> DLCX {1} {line} MGCP 1.0\n< 250 {1}").mark
    assert mark.args == ("2.3.10", "3.2") and mark.kwargs["needs"] == ("own",) and mark.kwargs["is_alone"] and not mark.kwargs["is_last"]
    assert len(undo_steps(mark.kwargs["undo"])) == 2
