"""The words of rgw: rows of examples/command_line.rows, `words  WORDS  WHAT THEY ASK FOR`, where '' is no words."""
import socket

import pytest
from running import TOP, command, ran

ROWS = [line.split("  ")[1:] for line in (TOP / "examples/command_line.rows").read_text().splitlines() if line.startswith("words  ")]
USAGE = (2, "", "usage: rgw simulate | rgw loopback [--port N]\n")


@pytest.mark.parametrize("words, asked", ROWS)
def test_words(words: str, asked: str) -> None:
    """Words that ask for simulate or loopback print what an example prints; over sockets rgw can't while somebody else has the port."""
    program = [*command("rgw"), *words.replace("''", "").split()]
    if asked == "usage":
        assert ran(program) == USAGE
        return
    task, _, port = asked.partition(" ")
    assert task in ("simulate", "loopback")
    script, out = TOP / "examples/off_hook.txt", (TOP / "examples/off_hook.out").read_text()
    with open(script) as file:
        assert ran(program, stdin=file) == (0, out, "")
    if port not in ("", "0"):
        with socket.socket(socket.AF_INET, socket.SOCK_DGRAM) as held, open(script) as file:
            held.bind(("127.0.0.1", int(port)))
            assert ran(program, stdin=file) == (3, "", "wire fault\n")
