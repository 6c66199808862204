"""The words of rgw-load, and the configuration of the exchange whose lines call one another."""
from __future__ import annotations

import random
import re
import tomllib
from collections.abc import Iterator
from dataclasses import dataclass, field

from .phone_wire import place_of
from .wire import Address

USAGE = (
    "rgw-load CONFIG --rate CALLS[,CALLS@SECOND ..] --for SECONDS [--hold MS] [--seed N] [--success PERCENT] [--route]\n"
    "       [--poisson] [--unanswered PERCENT] [--ring MS] [--relay FILE] [--csv PREFIX] [--html FILE]"
)
KEYS = re.compile(r"[0-9A-D*#]{1,32}")
NUMBER = re.compile(r"[0-9]{1,18}(\.[0-9]{1,9})?")
MOST_GATEWAYS, MOST_LINES = 1024, 96


class BadWords(ValueError):
    """The words, or the configuration, have a fault; the text says what may stand there."""


@dataclass(frozen=True)
class Wanted:
    """A number that stands behind a word: from `least` to `most`, in so many decimals; `unit` says of what."""

    unit: str
    least: float
    most: int
    decimals: int = 0

    def read(self, word: str, text: str) -> float:
        """The number that a text is. BadWords: it is none of these."""
        value = float(text) if NUMBER.fullmatch(text) else -1.0
        if not self.least <= value <= self.most or len(text.partition(".")[2]) > self.decimals:
            raise BadWords(f"{word}: wanted {self.unit}, {self.least:g} to {self.most}")
        return value


RATE = Wanted("calls a second", 0.001, 10000, 3)
LENGTH = Wanted("seconds", 1, 86400, 3)
PERCENT = Wanted("a percentage", 0, 100, 2)
NUMBERS = {
    "--for": LENGTH, "--hold": Wanted("ms", 0, 3600000), "--seed": Wanted("a number", 0, 999999999999999999), "--success": PERCENT,
    "--unanswered": PERCENT, "--ring": Wanted("ms", 0, 3600000),
}
FLAGS = ("--route", "--poisson")
FILES = ("--relay", "--csv", "--html")


@dataclass(frozen=True)
class Ramp:
    """How many calls a second are attempted from which second on: steps in their order, the first from 0."""

    steps: tuple[tuple[float, float], ...]

    def moment(self, count: float) -> float:
        """The second at which so many calls are attempted."""
        for (begun, rate), (end, _) in zip(self.steps, self.steps[1:]):
            if count < (end - begun) * rate:
                return begun + count / rate
            count -= (end - begun) * rate
        begun, rate = self.steps[-1]
        return begun + count / rate

    @property
    def most(self) -> float:
        """The greatest of its rates, in calls a second."""
        return max(rate for _, rate in self.steps)


def ramp_of(text: str) -> Ramp:
    """The ramp that `10` says, or `10,20@30,40@60`: 10 calls a second, 20 from second 30 on, 40 from second 60 on.

    BadWords: a rate isn't 0.001 to 10000, or seconds don't grow.
    """
    first, *others = text.split(",")
    steps = [(0.0, RATE.read("--rate", first))]
    for other in others:
        rate, _, second = other.partition("@")
        begun = LENGTH.read("--rate ..@", second)
        if begun <= steps[-1][0]:
            raise BadWords(f"--rate: {other}: wanted later seconds in their order")
        steps.append((begun, RATE.read("--rate", rate)))
    return Ramp(tuple(steps))


@dataclass(frozen=True)
class Load:
    """What is asked of a load: `seconds` long, at the rates of `ramp`; each call is held for `hold` s. Of a hundred calls so many are
    `unanswered`, and each rings for `ring` s before it is answered or given up. `success` percent are to come to rest."""

    config: str
    ramp: Ramp
    seconds: float
    hold: float = 3.0
    seed: int = 1
    success: float = 99.0
    is_routed: bool = False
    is_poisson: bool = False
    unanswered: float = 0.0
    ring: float = 0.0
    relay: str = ""
    csv: str = ""
    html: str = ""

    def moments(self) -> Iterator[float]:
        """When each call is attempted, in s from the start: even steps apart, or, with is_poisson, at moments of a Poisson process."""
        draws, count = random.Random(f"moments {self.seed}"), 0.0
        while (moment := self.ramp.moment(count)) < self.seconds:
            yield moment
            count += draws.expovariate(1) if self.is_poisson else 1.0


def misused(why: str) -> BadWords:
    """The usage, and why the words aren't taken."""
    return BadWords(f"usage: {USAGE}\nrgw-load: {why}")


def options(words: list[str]) -> dict[str, str]:
    """The value of each option that is given; of a flag it is empty. BadWords: there is no such option, or it has no value."""
    given: dict[str, str] = {}
    behind = iter(words)
    for word in behind:
        if word not in (*FLAGS, *FILES, *NUMBERS, "--rate"):
            raise misused(f"{word!r}: no such option")
        given[word] = "" if word in FLAGS else next(behind, "--")
        if given[word].startswith("--"):
            raise misused(f"{word}: it wants a value")
    return given


def read_words(words: list[str]) -> Load:
    """What the words behind rgw-load ask. BadWords: they ask for no load; where the usage says more, its text is that."""
    if not words or words[0].startswith("-"):
        raise misused("wanted CONFIG before the options")
    given = options(words[1:])
    numbers = {word: NUMBERS[word].read(word, text) for word, text in given.items() if word in NUMBERS}
    ramp = ramp_of(given["--rate"]) if "--rate" in given else None
    if ramp is None or "--for" not in numbers:
        raise misused(f"missing: {'--for' if ramp else '--rate'}")
    return Load(
        words[0], ramp, numbers["--for"], numbers.get("--hold", 3000) / 1000, int(given.get("--seed", 1)), numbers.get("--success", 99.0),
        "--route" in given, "--poisson" in given, numbers.get("--unanswered", 0.0), numbers.get("--ring", 0) / 1000,
        given.get("--relay", ""), given.get("--csv", ""), given.get("--html", ""),
    )


@dataclass(frozen=True)
class Gateway:
    """A gateway of the configuration: the domain of its endpoints, its address, that of its telephones, and the number of each line."""

    domain: str
    address: Address
    phones: Address
    numbers: tuple[str, ...]


@dataclass(frozen=True)
class Exchange:
    """A configuration as rgca takes it: the agent's own address, the digit map, if there is one, and the gateways."""

    own: Address
    digit_map: str
    gateways: tuple[Gateway, ...]

    def part(self, part: int, parts: int) -> Exchange:
        """What one of several testers works: every so-manieth gateway, where there are two for each; else all."""
        if len(self.gateways) < 2 * parts:
            return self
        return Exchange(self.own, self.digit_map, self.gateways[part % parts::parts])

    def lines(self, part: int, parts: int) -> dict[str, str]:
        """The numbers of the lines that one of several testers works, by the names of their telephones."""
        its = self.part(part, parts)
        named = [(f"{it.domain}:{line}", number) for it in its.gateways for line, number in enumerate(it.numbers, 1)]
        return dict(named if its is not self or parts == 1 else named[part % parts::parts])


@dataclass
class Reading:
    """A configuration that is read, and its name."""

    file: str
    faults: list[str] = field(default_factory=list)

    def address(self, table: dict[str, object], key: str, where: str) -> Address:
        value = table.get(key)
        if value is None:
            raise BadWords(f"{self.file}: missing: {where}{key}")
        try:
            return place_of(str(value))
        except ValueError as fault:
            raise BadWords(f"{self.file}: {where}{key}: {fault}") from None

    def gateway(self, domain: str, table: object) -> Gateway:
        where = f'gateways."{domain}".'
        if not isinstance(table, dict):
            raise BadWords(f"{self.file}: {where[:-1]}: wanted a table")
        numbers = table.get("numbers")
        if not isinstance(numbers, list) or not 1 <= len(numbers) <= MOST_LINES or not all(KEYS.fullmatch(str(it)) for it in numbers):
            raise BadWords(f"{self.file}: {where}numbers: wanted 1 to {MOST_LINES} numbers of 0 to 9, A to D, * and #")
        return Gateway(domain, self.address(table, "address", where), self.address(table, "phones", where), tuple(map(str, numbers)))


def read_exchange(path: str) -> Exchange:
    """The configuration in a file. BadWords: it has a fault. OSError: it can't be read."""
    reading = Reading(path)
    with open(path, "rb") as file:
        try:
            table = tomllib.load(file)
        except (tomllib.TOMLDecodeError, UnicodeDecodeError) as fault:
            raise BadWords(f"{path}: {fault}") from None
    gateways = table.get("gateways")
    if not isinstance(gateways, dict) or not 1 <= len(gateways) <= MOST_GATEWAYS:
        raise BadWords(f"{path}: gateways: wanted a table of 1 to {MOST_GATEWAYS} gateways")
    made = tuple(reading.gateway(domain, its) for domain, its in gateways.items())
    if len({number for it in made for number in it.numbers}) < sum(len(it.numbers) for it in made):
        raise BadWords(f"{path}: wanted each number once")
    return Exchange(reading.address(table, "own", ""), str(table.get("digit_map", "")), made)
