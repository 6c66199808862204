"""The conversation of a world is the log of rgwd: the stories of live_log.txt, whose lines `log` tell it, in a world.

docs/SCENARIOS.md has the form of the file. A story with a step that is about the program, as one where its socket fails, isn't played.
"""

from datetime import datetime, timezone
from pathlib import Path

from scenarios import config_of, in_full, scenarios_of, value_of

from rgw import Address, Gateway
from rgw.gateway import address_of
from rgw.world import Sent, World

STORIES = Path(__file__).resolve().parent.parent.parent / "crates" / "cases" / "data" / "live_log.txt"
AGENT_AT = Address("127.0.0.1", 2727)
OPENED = datetime(2026, 1, 1, tzinfo=timezone.utc)
WORDS = ["words --log", "words --agents any"]


def silent(moment: int, source: Address, data: bytes) -> Sent:
    """An agent that a story speaks for."""
    return []


def in_world(line: str) -> str:
    """A line of the log as a world tells it: by the moment in place of the time of day."""
    time, _, rest = line.partition(" ")
    passed = datetime.fromisoformat(time.replace("Z", "+00:00")) - OPENED
    return f"{round(passed.total_seconds() * 1000):>9} {rest}"


class Story:
    """A story that is played in a world, line by line."""

    def __init__(self, lines: list[str]) -> None:
        changes = [line[4:] for line in lines if line.startswith("set ")]
        self._world = World(Gateway(config_of(changes)), silent, agent_at=AGENT_AT)
        self._lines = iter(lines)
        self.logged: list[str] = []

    def _block(self) -> list[str]:
        return [line.strip(" \t") for line in iter(lambda: next(self._lines), "--")]

    def _heard(self, source: str, data: bytes) -> None:
        self._world.say(data, address_of(source) if source else AGENT_AT)
        self._world.run(0)

    def _take(self, word: str, rest: str) -> bool:
        """Takes a line; whether a world knows what it says."""
        match word:
            case "at":
                self._world.run(int(rest) - self._world.now)
            case "<":
                self._heard(rest, "".join(line + "\r\n" for line in self._block()).encode("latin-1"))
            case "raw":
                source, _, text = rest.partition(" ")
                self._heard(source, value_of(text).encode("latin-1"))
            case "type":
                for act in (typed.split() for typed in rest.split("\\n")):
                    if act[0] != "phone":
                        return False
                    self._world.phone(int(act[1]), act[2])
            case "log":
                self.logged.append(in_world(rest))
            case ">":
                self._block()
            case _:
                return word in ("answer", "set", "") or word.startswith("#") or f"{word} {rest}" in WORDS
        return True

    def play(self) -> list[str] | None:
        """What the world tells; None where a line says what no world knows."""
        with self._world as world:
            for line in self._lines:
                word, _, rest = line.partition(" ")
                if not self._take(word, rest):
                    return None
            return world.conversation


def test_the_conversation_is_the_log() -> None:
    played, left = 0, []
    for title, lines in scenarios_of(STORIES.read_text()):
        lines = in_full("\n".join(lines)).split("\n")
        story = Story(lines)
        told = story.play() if "words --log" in lines else None
        if told is None:
            left.append(title)
            continue
        assert (title, told) == (title, story.logged)
        played += 1
    assert played >= 12 and len(left) == 5, left
