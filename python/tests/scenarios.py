"""Plays the scenarios of kind `scripts` (crates/cases/data) through the library.

docs/SCENARIOS.md has the form of the files, docs/SCRIPTS.md that of scripts and of what is printed: this is a reader of its own. A
scenario that says how the program is called, what it says of an input that it can't play, or a configuration that is no gateway's, is about
the program; those are counted, with the reason.

    python3 tests/scenarios.py FOLDER
"""

import re
import sys
from collections import Counter
from dataclasses import dataclass, field
from pathlib import Path

from rgw import ConfigFault, Gateway, Output, RgwError

AGENT = "127.0.0.1:2727"
SETTINGS = [
    ("domain", 'domain = "rgw.example.net"'),
    ("lines", "lines = 16"),
    ("agent", 'agent = "ca@ca.example.net"'),
    ("restart_wait", "restart_wait = 1"),
    ("disconnected_wait", "disconnected_wait = 5000"),
    ("media_address", 'media_address = "127.0.0.1"'),
    ("media_base", "media_base = 3000"),
    ("[names]", "[names]"),
    ('"ca.example.net"', '"ca.example.net" = "127.0.0.1"'),
]
READY = ["tick 1", f"from {AGENT}", "200 1 OK", "--", "at 1000"]
MARK, MARK_PRINTED = "show 65535", "! 4 NoSuchLine"
PRINTED = ("! ", "line ", "config ", "script line ", "usage: ", "status ", "wire fault")
NAMES = {"OUT_OF_MEMORY": "OutOfMemory", "TICK_TOO_FAR": "TickTooFar", "CLOCK_BACK": "ClockBack", "NO_SUCH_LINE": "NoSuchLine",
         "PHONE_STATE": "PhoneState"}


@dataclass
class Scenario:
    """A scenario: what changes of the configuration, its script, and what is printed."""

    words: str = ""
    is_at_opening: bool = False
    changes: list[str] = field(default_factory=list)
    script: list[str] = field(default_factory=list)
    printed: list[str] = field(default_factory=list)


def in_full(text: str) -> str:
    """Without short forms: `~` is the domain with the protocol's name, `{64*1}` 64 times the text `1`."""
    text = text.replace("~", "rgw.example.net MGCP 1.0")
    return re.sub(r"\{(?:([^*{}]*)\*)?([^{}]*)\}", lambda m: m[2] * int(m[1] or 1), text)


def value_of(text: str) -> str:
    """A value of the configuration, whose short forms are bytes."""
    text = text.replace("''", "").replace("¶", "\r\n")
    forms = {"s": " ", "t": "\t", "n": "\n"}
    return re.sub(r"\\(?:([stn])|x([0-9a-fA-F]{2}))", lambda m: forms[m[1]] if m[1] else chr(int(m[2], 16)), text)


def scenarios_of(text: str) -> list[tuple[str, list[str]]]:
    """Titles and the lines under each, with what pieces put in."""
    pieces: dict[str, list[str]] = {}
    found: list[tuple[str, list[str]]] = []

    def put_in(line: str) -> list[str]:
        if line.startswith("do "):
            name, *values = (part.strip() for part in line[3:].split("|"))
            lines = pieces[name]
            for place, value in enumerate(values, 1):
                lines = [piece.replace(f"{{{place}}}", value) for piece in lines]
            return lines
        if line.startswith("each "):
            first, last, name = line[5:].split(" ", 2)
            return [piece.replace("{n}", str(n)) for n in range(int(first), int(last) + 1) for piece in pieces[name]]
        return [line]

    for part in re.split(r"(?m)^= ", text)[1:]:
        title, *lines = part.split("\n")
        lines = [out for line in lines[:-1] for out in put_in(line)]
        if title.startswith("piece "):
            while lines and not lines[-1]:
                lines.pop()
            pieces[title[6:]] = lines
        else:
            found.append((title, lines))
    return found


def read(lines: list[str], is_marked: bool) -> Scenario:
    """A scenario of its lines, with a mark before each step."""
    scenario, place = Scenario(), "between"

    def mark() -> None:
        if is_marked:
            scenario.script.append(MARK)
            scenario.printed.append(MARK_PRINTED)

    for line in in_full("\n".join(lines)).split("\n"):
        if place == "heard":
            scenario.script.append(line)
        elif place == "sent":
            scenario.printed.append(line)
        elif line == "<" or line.startswith(("< ", "from ")):
            mark()
            scenario.script.append("from " + (line.partition(" ")[2] or AGENT))
            place = "heard"
            continue
        elif line.startswith("> "):
            scenario.printed.append(line if " " in line[2:] else f"{line} {AGENT}")
            place = "sent"
            continue
        elif line == "opening":
            scenario.is_at_opening = True
        elif line.startswith("words "):
            scenario.words = line[6:]
        elif line.startswith("set "):
            scenario.changes.append(line[4:])
        elif line.startswith(PRINTED):
            scenario.printed.append(line)
        elif not line.startswith("#"):
            if line:
                mark()
            scenario.script.append(line)
        if line == "--":
            place = "between"
    return scenario


def config_of(changes: list[str]) -> str:
    """The usual configuration with these changes."""

    def key_of(line: str) -> str:
        return line.split(" ", 1)[0].split("\\", 1)[0]

    out, usual = [], {key_of(line) for _, line in SETTINGS}
    for key, line in SETTINGS:
        for change in changes:
            if change == f"no {key}":
                line = ""
                break
            if key_of(change) == key:
                line = change
                break
        out.append(line)
    out += [change for change in changes if key_of(change) not in usual | {"no"}]
    return "".join(value_of(line) + "\n" for line in out)


def printed_output(output: Output) -> list[str]:
    """A datagram as it is printed."""
    lines = output.data.decode("latin-1").split("\n")
    if lines[-1] == "":
        lines.pop()
    return [f"> {output.moment} {output.to}", *(line.removesuffix("\r").strip(" \t") for line in lines), "--"]


def printed_line(gateway: Gateway, number: int) -> str:
    """What `show` prints."""
    line = gateway.line(number)
    signals = ",".join(f"{s.name}:{'-' if s.end is None else s.end}" for s in line.signals)
    connections = ",".join(f"{c.number:X}:{c.mode}" for c in line.connections if c)
    return f"line {number} {line.hook} signals {signals or '-'} connections {connections or '-'} lost {line.lost}"


class Player:
    """Plays the steps of a script, and keeps what is printed."""

    def __init__(self, gateway: Gateway) -> None:
        self.gateway, self.printed = gateway, list[str]()

    def _print(self, outputs: list[Output]) -> None:
        for output in outputs:
            self.printed += printed_output(output)

    def _step(self, words: list[str]) -> None:
        gateway = self.gateway
        match words:
            case ["raw", address, digits]:
                self._print(gateway.datagram(address, bytes.fromhex(digits)))
            case ["phone", line, act]:
                self._print(gateway.phone(int(line), act))
            case ["tick", by]:
                self._print(gateway.tick(gateway.now + int(by)))
            case ["at", moment]:
                self._print(gateway.tick(int(moment)))
            case ["show", line]:
                self.printed.append(printed_line(gateway, int(line)))
            case _:
                raise ValueError(f"no step: {words}")

    def _take(self, words: list[str]) -> None:
        try:
            self._step(words)
        except RgwError as refusal:
            self.printed.append(f"! {refusal.number.value} {NAMES[refusal.name]}")

    def play(self, script: list[str]) -> None:
        """Plays them in order."""
        lines = iter(script)
        for line in lines:
            words = line.split()
            if words[:1] == ["from"]:
                text = "".join(part.strip(" \t") + "\r\n" for part in iter(lambda: next(lines), "--"))
                self._print(self.gateway.datagram(words[1], text.encode()))
            elif words[:1] == ["wait"]:
                by = int(words[1])
                for step in [1000] * (by // 1000) + ([by % 1000] if by % 1000 else []):
                    self._take(["tick", str(step)])
            elif words:
                self._take(words)


def why_not(scenario: Scenario) -> str | None:
    """Why a scenario isn't one of a gateway; None where it is."""
    if scenario.words:
        return "it says with which words the program is called"
    if any(line.startswith("script line ") for line in scenario.printed):
        return "its script is none"
    if any(line.startswith(("usage: ", "wire fault")) for line in scenario.printed):
        return "it is about the program's words or sockets"
    return None


def difference(scenario: Scenario, is_played: bool) -> str | None:
    """How what is printed differs from what is told; None where it doesn't."""
    try:
        gateway = Gateway(config_of(scenario.changes))
    except ConfigFault as fault:
        names = {"BAD_DOMAIN": "BadDomain", "BAD_LINES": "BadLines", "BAD_AGENT": "BadAgent", "BAD_WAIT": "BadWait",
                 "BAD_MEDIA": "BadMedia", "BAD_TOML": "BadToml"}
        printed = [f"config {fault.number.value - 10} {names[fault.name]}", "status 1"]
    else:
        with gateway:
            player = Player(gateway)
            if not scenario.is_at_opening:
                player.play(READY)
                first = player.printed[:4]
                if len(first) == 4 and first[0].startswith("> 1 ") and first[1].startswith("RSIP 1 *@") and first[1].endswith(
                    " MGCP 1.0"
                ) and first[2:] == ["RM: restart", "--"]:
                    del player.printed[:4]
            player.play(scenario.script)
            printed = player.printed
    if printed == scenario.printed:
        return None
    at = next((i for i, (a, b) in enumerate(zip(printed, scenario.printed)) if a != b), min(len(printed), len(scenario.printed)))
    return f"line {at + 1}: printed {printed[at : at + 3]}, told {scenario.printed[at : at + 3]}"


def play_folder(folder: Path) -> tuple[int, Counter[str], list[str]]:
    """How many scenarios were played, how many weren't by reason, and what differs."""
    played, left, failures = 0, Counter[str](), list[str]()
    for path in sorted(folder.glob("*.txt")):
        text = path.read_text()
        if text.split("\n", 1)[0] != "scripts":
            continue
        for title, lines in scenarios_of(text):
            is_played = not any(line.startswith("status ") for line in lines)
            scenario = read(lines, is_played)
            reason = why_not(scenario)
            if reason:
                left[reason] += 1
                continue
            played += 1
            differs = difference(scenario, is_played)
            if differs:
                failures.append(f"{path.name}: {title}: {differs}")
    return played, left, failures


if __name__ == "__main__":
    count, unplayed, failed = play_folder(Path(sys.argv[1]))
    print("\n".join(failed))
    print(f"{count} scenarios played, {len(failed)} not as told")
    for why, number in unplayed.items():
        print(f"{number} not played: {why}")
    sys.exit(bool(failed))
