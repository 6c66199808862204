"""Several workers check one gateway: whose a message is, and who plays alone."""

import fcntl
import multiprocessing
import os
import time
from collections.abc import Callable, Generator
from multiprocessing.synchronize import Event
from pathlib import Path

import pytest

from rgw_bench import mgcp
from rgw_bench.gateway import Gateway, OutOfTime, Places
from rgw_bench.shared import Hub, SharedWire, Turns
from rgw_bench.wire import Wire
from stub import Stub

Site = tuple[Stub, Hub, list[Gateway]]


@pytest.fixture
def site() -> Generator[Site, None, None]:
    """A stub, a hub at the agent's address, and two workers with the ids behind 1000 and 1010."""
    with Stub() as stub:
        hub = Hub(Wire({"here": ("127.0.0.1", 0)}), stub.address)
        own = hub.wire.address("here")
        hub.start()
        both = [Gateway(Places(stub.address, "gw", f"aaln/{2 * at + 1}"), SharedWire(own, hub.key)) for at in range(2)]
        for at, gateway in enumerate(both):
            gateway.begin(1000 + 10 * at, hears=True)
        yield stub, hub, both
        for gateway in both:
            gateway.close()
        hub.close()


def test_each_gets_its_own_answers(site: Site) -> None:
    """From the agent's one address."""
    stub, hub, (one, two) = site
    for gateway in (one, two):
        gateway.send(mgcp.command("AUEP", gateway.base + 1, gateway.line))
    for gateway in (two, one):
        assert gateway.answer(200, gateway.base + 1).id == gateway.base + 1
        assert not gateway.answers
    assert stub.source == hub.wire.address("here") == one.ends.address("here")


def test_each_hears_its_own_notifications(site: Site) -> None:
    """By X; what is nobody's is answered at once."""
    stub, hub, (one, two) = site
    own = hub.wire.address("here")
    stub.say(b"NTFY 7 aaln/3@gw MGCP 1.0\r\nX: 1011\r\nO: L/hd\r\n", own)
    stub.say(b"NTFY 8 aaln/1@gw MGCP 1.0\r\nX: 5\r\nO: L/hd\r\n", own)
    assert two.notified("aaln/3@gw", "1011", "L/hd").id == 7
    one.pump(time.monotonic() + 10, lambda: [it for it in stub.heard if it.is_response])
    assert not one.unasked
    assert [it.id for it in stub.heard if it.is_response] == [8]


def test_two_in_one_datagram_are_two_workers(site: Site) -> None:
    """Notifications of two lines that come in one datagram: neither worker answers that of the other"""
    stub, hub, (one, two) = site
    own = hub.wire.address("here")
    notices = [f"NTFY {id} aaln/{line}@gw MGCP 1.0\r\nX: {x}\r\nO: L/hd\r\n" for id, line, x in ((7, 1, 1001), (8, 3, 1011))]
    stub.say(".\r\n".join(notices).encode(), own)
    assert one.notified("aaln/1@gw", "1001", "L/hd").id == 7
    assert two.notified("aaln/3@gw", "1011", "L/hd").id == 8
    one.pump(time.monotonic() + 0.3)
    assert not [it for it in stub.heard if it.is_response]


def test_an_announcement_is_answered_and_told_to_all(site: Site) -> None:
    """Also while no check is played; but not in the place of a check that wants it."""
    stub, hub, (one, two) = site
    own = hub.wire.address("here")
    stub.say(b"RSIP 7 *@gw MGCP 1.0\r\nRM: restart\r\n", own)
    for gateway in (one, two):
        gateway.pump(time.monotonic() + 10, lambda: gateway.announcements and any(heard.is_response for heard in stub.heard))
        assert [it.message.id for it in gateway.announcements] == [7]
    two.begin(1030, hears=True, announces=True)
    stub.say(b"RSIP 9 *@gw MGCP 1.0\r\nRM: restart\r\n", own)
    assert two.announced("restart").id == 9
    assert [it.id for it in stub.heard if it.is_response] == [7]


def test_nobody_else_speaks_for_the_hub(site: Site) -> None:
    """What has no token is dropped."""
    stub, hub, _ = site
    with_wrong_token = b"\0" * 80
    with Stub() as other:
        other.say(with_wrong_token, hub.link.address("link"))
        other.say(b"", hub.link.address("link"))
    time.sleep(0.2)
    assert len(hub.workers) == 2 and not stub.heard


def hold(folder: Path, is_alone: bool, seconds: float, began: Event, ends: Event) -> None:
    """Has a turn for so long."""
    with Turns(folder).turn(is_alone):
        began.set()
        time.sleep(seconds)
        ends.set()


@pytest.mark.parametrize("first, second, is_waited_for", [
    (False, False, False), (True, False, True), (False, True, True), (True, True, True),
])
def test_turns(first: bool, second: bool, is_waited_for: bool, tmp_path: Path) -> None:
    """Who is alone is waited for, and waits for others."""
    began, ends = multiprocessing.Event(), multiprocessing.Event()
    other = multiprocessing.Process(target=hold, args=(tmp_path, first, 3, began, ends))
    other.start()
    assert began.wait(60)
    with Turns(tmp_path).turn(second):
        assert ends.is_set() is is_waited_for
    other.kill()
    other.join()


def queue(folder: Path, name: str, is_alone: bool, begun: Event, ends: Event) -> None:
    """Has a turn until it may end, and writes down that it had it."""
    begun.set()
    with Turns(folder).turn(is_alone):
        with open(folder / "turns", "a") as file:
            file.write(f"{name} ")
        ends.wait(120)


def is_held(folder: Path, name: str) -> bool:
    """Whether a process has this lock."""
    file = os.open(folder / name, os.O_RDWR | os.O_CREAT, 0o600)
    try:
        fcntl.flock(file, fcntl.LOCK_EX | fcntl.LOCK_NB)
        return False
    except BlockingIOError:
        return True
    finally:
        os.close(file)


def waited(test: Callable[[], bool]) -> bool:
    """Whether this is so within a minute."""
    over = time.monotonic() + 60
    while not test():
        if time.monotonic() > over:
            return False
        time.sleep(0.02)
    return True


def test_who_wants_to_be_alone_is_overtaken_by_nobody(tmp_path: Path) -> None:
    """One process has a turn beside others, a second wants one alone, and a third, which comes later, one beside others: in this order."""
    names, turns = ("first", "alone", "later"), tmp_path / "turns"
    begun, ends = multiprocessing.Event(), [multiprocessing.Event() for _ in names]
    processes = []
    for at, name in enumerate(names):
        begun.clear()
        processes.append(multiprocessing.Process(target=queue, args=(tmp_path, name, name == "alone", begun, ends[at])))
        processes[-1].start()
        assert begun.wait(60)
        if name == "first":
            assert waited(turns.exists)
        elif name == "alone":
            assert waited(lambda: is_held(tmp_path, "door")), "who waits to be alone doesn't keep the door"
    time.sleep(0.5)
    assert turns.read_text() == "first "
    ends[0].set()
    assert waited(lambda: turns.read_text() == "first alone ")
    ends[1].set()
    assert waited(lambda: turns.read_text() == "first alone later ")
    ends[2].set()
    for process in processes:
        process.join(60)
        assert process.exitcode == 0


def test_a_turn_is_waited_for_no_longer_than_the_whole_run(tmp_path: Path) -> None:
    """Then it is over."""
    with Turns(tmp_path).turn(True):
        with pytest.raises(OutOfTime):
            with Turns(tmp_path, time.monotonic() + 0.1).turn(False):
                pass
