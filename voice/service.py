"""Serves the telephones of gateways: takes what changes there, and each 20 ms hears what came and says what is due."""
from __future__ import annotations

import json
import os
import select
import time
from argparse import Namespace
from typing import Any

from finding import page_beside
from following import Gateway, address_of, say, text_of
from pages import Page
from sounds import RATE, Sound, hertz_of_line, sound_of_line
from streams import samples_of_file
from telephones import Telephone

# What is due is done so often, and the rest is looked after so often, in seconds.
ROUND, CHECK = 0.02, 1.0


class Fault(Exception):
    """Why the program can't do what it was asked."""


def pairs_of(texts: list[str], what: str) -> dict[str, str]:
    """What stands before the first `=` of each text, with what stands behind it."""
    pairs = {}
    for text in texts:
        name, equals, value = text.partition("=")
        if not (name and equals and value) or name in pairs:
            raise Fault(f"{text}: wanted {what}, each name once")
        pairs[name] = value
    return pairs


def addresses_of(texts: list[str]) -> dict[str, tuple[str, int]]:
    found = {}
    for name, text in pairs_of(texts, "NAME=a.b.c.d:port").items():
        address = address_of(text)
        if address is None:
            raise Fault(f"{name}={text}: no address a.b.c.d:port")
        found[name] = address
    return found


class Sources:
    """What each line says."""

    def __init__(self, asked: list[str]):
        self.hertz: dict[str, int] = {}
        self.sounds = {name: self.asked_for(name, text) for name, text in pairs_of(asked, "NAME:LINE=HERTZ or NAME:LINE=FILE").items()}

    def asked_for(self, name: str, text: str) -> Sound:
        if not text.isdigit():
            try:
                return Sound(samples_of_file(text))
            except ValueError as error:
                raise Fault(str(error)) from error
        if not 0 < int(text) < RATE // 2:
            raise Fault(f"{name}={text}: wanted a frequency below {RATE // 2} Hz, or a WAV file")
        return self.tone(name, int(text))

    def tone(self, name: str, hertz: int) -> Sound:
        self.hertz[name] = hertz
        return sound_of_line(hertz)

    def of(self, name: str, place: int) -> Sound:
        """The sound of a line, which stands at this place among all."""
        return self.sounds[name] if name in self.sounds else self.tone(name, hertz_of_line(place))


class Service:
    """The gateways, and their telephones."""

    def __init__(self, asked: Namespace):
        self.asked = asked
        self.is_over = False
        self.named_pages = addresses_of(asked.page)
        phones = addresses_of(asked.gateways)
        for name in self.named_pages:
            if name not in phones:
                raise Fault(f"--page {name}: no gateway has that name")
        self.sources = Sources(asked.source)
        self.pages: dict[str, Page] = {}
        self.gateways = [Gateway(name, address, self.begin, self.settle, self.states) for name, address in phones.items()]
        self.telephones: dict[tuple[str, int], Telephone] = {}
        # How much later than due a turn began at most, in ms.
        self.latest = 0.0

    def telephone(self, gateway: Gateway, number: int) -> Telephone:
        key = (gateway.name, number)
        if key not in self.telephones:
            place = (number - 1) * len(self.gateways) + self.gateways.index(gateway)
            source = self.sources.of(f"{gateway.name}:{number}", place)
            self.telephones[key] = Telephone(gateway, number, source, self.asked.record, self.note)
        return self.telephones[key]

    def note(self, text: str) -> None:
        """A line of the log."""
        if self.asked.log:
            say(text)

    # The loop

    def serve(self, until: float | None) -> None:
        due, check = time.monotonic(), 0.0
        while not self.is_over and (until is None or time.monotonic() < until):
            ready, _, _ = select.select(self.gateways, [], [], max(0.0, due - time.monotonic()))
            for gateway in ready:
                gateway.receive()
            now = time.monotonic()
            if now >= due:
                self.latest = max(self.latest, 1000 * (now - due))
                self.turn()
                due = max(due + ROUND, now)
            if now - check >= CHECK:
                check = now
                self.look_after()

    def begin(self, gateway: Gateway) -> None:
        """A gateway is watched from now on, or its next life: its page is where it was said to be, or else it is looked for."""
        say(f"{gateway.name} is watched at {text_of(gateway.phones)}")
        address = self.named_pages.get(gateway.name) or page_beside(gateway.phones)
        known = self.pages.get(gateway.name)
        if known and known.address == address:
            return
        if known:
            known.is_over = True
            del self.pages[gateway.name]
        if address:
            self.pages[gateway.name] = Page(address)
        unknown = "no page of it is found, so no keys are heard of; --page says where one is"
        say(f"{gateway.name}: its page is at {text_of(address)}" if address else f"{gateway.name}: {unknown}")

    def states(self, name: str) -> list[dict[str, Any]] | None:
        """What each line of a gateway is, if its page is known and answers."""
        return self.pages[name].states() if name in self.pages else None

    def settle(self, gateway: Gateway, number: int, now: int) -> None:
        """What changed at a line takes place. Nothing is said before the next turn: by then all that changed with it has its sockets."""
        self.telephone(gateway, number).settle(gateway.lines[number], now)

    def turn(self) -> None:
        for page_name, page in self.pages.items():
            while not page.presses.empty():
                press = page.presses.get()
                telephone = self.telephones.get((page_name, press.line))
                if telephone is not None:
                    telephone.press(press.key, time.monotonic_ns())
        now = time.monotonic_ns()
        for telephone in self.telephones.values():
            telephone.turn(now)

    def look_after(self) -> None:
        now = time.monotonic()
        for gateway in self.gateways:
            gateway.ask_in_time(now)
        for telephone in self.telephones.values():
            telephone.check(time.monotonic_ns())

    # The end

    def stop(self) -> None:
        """It ends after this turn."""
        self.is_over = True

    def end(self) -> None:
        """All that runs ends, and files are whole."""
        now = time.monotonic_ns()
        for telephone in self.telephones.values():
            telephone.end(now)
        if self.asked.report is not None:
            write(self.asked.report, self.report())

    def report(self) -> dict[str, Any]:
        """What became of each connection and call. Moments are in ms of the gateway's clock, which was 0 at the time of day `zero`."""
        gateways = {it.name: {"phones": text_of(it.phones)} for it in self.gateways}
        telephones = [self.telephones[key] for key in sorted(self.telephones)]
        return {
            "gateways": gateways,
            "tones": self.sources.hertz,
            "calls": [call for it in telephones for call in it.report_calls(self.sources.hertz)],
            "connections": [connection for it in telephones for connection in it.report_connections()],
            "latest_turn": round(self.latest, 1),
        }


def write(path: str, report: dict[str, Any]) -> None:
    """Writes a report, which is there as a whole or not at all."""
    beside = f"{path}.part"
    try:
        with open(beside, "w", encoding="utf-8") as file:
            json.dump(report, file, indent=1)
            file.write("\n")
        os.replace(beside, path)
    except OSError as error:
        raise Fault(f"{path}: {error.strerror}") from error
    say(f"{path} is written")
