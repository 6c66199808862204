"""Calls between the two gateways of examples/exchange_1.toml and exchange_2.toml, by an exchange that knows their lines as 201 to 204.

    pytest examples/phones --phones gw1=127.0.0.1:2428 --phones gw2=127.0.0.2:2428
"""
import pytest

from rgw_bench.phones import Phone, Phones, side_by_side


@pytest.fixture
def lines(phones: Phones) -> list[Phone]:
    """201, 202, 203, 204."""
    return [phones[name] for name in ("gw1:1", "gw1:2", "gw2:1", "gw2:2")]


def call(caller: Phone, called: Phone, number: str) -> None:
    """A call from dial tone to rest."""
    caller.off().expect("L/dl", within=2).dial(number)
    called.expect("L/rg", within=3).off()
    side_by_side(lambda: caller.expect("sendrecv", within=5), lambda: called.expect("sendrecv", within=5))
    caller.on()
    called.on()
    side_by_side(lambda: caller.expect("silent", within=5), lambda: called.expect("silent", within=5))


def test_first_call(lines: list[Phone]) -> None:
    """201 calls 203: both are connected, and at rest once they have hung up."""
    call(lines[0], lines[2], "203")


def test_busy(lines: list[Phone]) -> None:
    """Who calls a lifted line hears the busy tone."""
    lines[2].off().expect("L/dl", within=2)
    lines[0].off().expect("L/dl", within=2).dial("203").expect("L/bz", within=5)


def test_wrong_number(lines: list[Phone]) -> None:
    """A number of no line brings reorder tone."""
    lines[0].off().expect("L/dl", within=2).dial("299").expect("L/ro", within=5)


def test_abandoned(lines: list[Phone]) -> None:
    """Where the caller hangs up before the other answers, that rings no more."""
    caller, called = lines[0], lines[2]
    caller.off().expect("L/dl", within=2).dial("203")
    called.expect("L/rg", within=3)
    caller.on()
    called.expect("silent", within=5).expect_none("L/rg", during=1)


@pytest.mark.parametrize("caller, called", [(0, 1), (0, 3), (3, 0), (2, 3)])
def test_each_calls_another(lines: list[Phone], caller: int, called: int) -> None:
    """A line calls one of its own gateway, and of the other."""
    call(lines[caller], lines[called], str(201 + called))


def test_two_calls_side_by_side(lines: list[Phone]) -> None:
    """201 calls 203 while 204 calls 202, three times."""
    a, b, c, d = lines
    for _ in range(3):
        side_by_side(lambda: call(a, c, "203"), lambda: call(d, b, "202"))
