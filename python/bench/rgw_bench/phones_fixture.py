"""The pytest fixtures `telephones` and `phones`: the telephones at the addresses of `--phones`."""
from __future__ import annotations

from collections.abc import Iterator, Sequence

import pytest

from .phone_wire import place_of
from .phones import Lost, Phones
from .wire import Address

# Where rgwd's telephones are by default.
USUAL = "127.0.0.1:2428"


def places_of(words: Sequence[str]) -> dict[str, Address]:
    """The telephones' addresses, by the names of their gateways, of words `NAME=a.b.c.d:port`; without names they are gw1, gw2 and so on.

    ValueError: a word is no such address, or a name or an address stands there twice.
    """
    places: dict[str, Address] = {}
    for number, word in enumerate(words or [USUAL], 1):
        name, _, address = word.rpartition("=")
        place = place_of(address)
        name = name or f"gw{number}"
        if ":" in name or name in places or place in places.values():
            raise ValueError(f"{word}: wanted [NAME=]ADDRESS, each name and each address once")
        places[name] = place
    return places


@pytest.fixture(scope="session")
def telephones(request: pytest.FixtureRequest) -> Iterator[Phones]:
    """The telephones of the whole session, watched from its first test that asks for them."""
    given = request.config.getoption("--phones") or []
    try:
        made = Phones(places_of([given] if isinstance(given, str) else given))
    except (ValueError, Lost) as fault:
        pytest.fail(f"--phones: {fault}", pytrace=False)
    yield made
    made.close()


@pytest.fixture
def phones(telephones: Phones) -> Iterator[Phones]:
    """The telephones for one test: `phones["gw1:2"]`. When the test is over, whatever came of it, each lifted handset is put back, and a
    line that doesn't come to rest within 10 s is told."""
    telephones.begin()
    yield telephones
    faults = telephones.put_back()
    if faults:
        pytest.fail("\n".join(["not all telephones came to rest after the test:", *faults, telephones.history()]), pytrace=False)
