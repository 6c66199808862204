"""What is told of a configuration that is none: the rows `fault` of config_faults.txt, which say it of rgwd, through the library."""

from pathlib import Path

import pytest
from scenarios import config_of, in_full, value_of

from rgw import ConfigFault, Gateway, Number
from rgw.gateway import flaw_of

ROWS = Path(__file__).resolve().parent.parent.parent / "crates" / "cases" / "data" / "config_faults.txt"


def faults() -> list[tuple[str, str]]:
    """The configuration of each row, and what is told of it; `ok` where it has no fault."""
    rows = [in_full(line).split("  ") for line in ROWS.read_text().splitlines() if line.startswith("fault  ")]
    return [(config_of(changes), value_of(told)) for _, *changes, told in rows]


def test_each_fault_is_told_as_rgwd_tells_it() -> None:
    rows = faults()
    assert len(rows) > 100
    assert [(config, flaw_of(config.encode()) or "ok") for config, _ in rows] == rows


def test_what_is_told_is_the_fault_that_is_raised() -> None:
    for config, told in faults():
        if told == "ok" or told.startswith("media_address: 0.0.0.0,"):
            Gateway(config).close()
            continue
        with pytest.raises(ConfigFault) as fault:
            Gateway(config)
        assert fault.value.flaw == told


def test_what_is_no_utf8_is_told() -> None:
    assert flaw_of(b"\xff") == "no UTF-8" and flaw_of(b"") == "missing: domain"
    with pytest.raises(ConfigFault) as fault:
        Gateway(b"\xff")
    assert fault.value.number is Number.BAD_TOML
