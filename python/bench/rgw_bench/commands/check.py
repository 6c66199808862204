"""rgw-check: checks an MGCP gateway as RFC 3435 asks, by the checks of this package.

    rgw-check 127.0.0.1:2427 --domain gw1.example.net --line aaln/1 --more-lines aaln/2 --own 127.0.0.1:2727 --junit report.xml

The status is 0 where no check failed, 1 where one did, 2 for other words, 3 where nothing can be checked.
"""

import argparse
import json
import os
import sys
from collections.abc import Sequence
from pathlib import Path
from typing import Any, NoReturn
from xml.sax.saxutils import quoteattr

import pytest

from .. import __version__, bench, wire
from ..plugin import CHECKS, Rule, rule_of

# What is counted, by the word of a verdict; and the names of the counts in JSON.
COUNTS = {"pass": "passed", "FAIL": "failed", "left open": "left_open", "not supported": "not_supported", "not played": "not_played"}
USAGE = """rgw-check ADDRESS --domain D --line NAME [--more-lines NAME ..] [--own ADDRESS] [--phones ADDRESS | --hook ADDRESS]
                 [--slow] [--only NAME,..] [--timeout SECONDS] [-n WORKERS] [--json] [--junit FILE]
       rgw-check --list"""
BELOW = """
Of each check it prints what came of it, and what was said: `>` stands before what was sent and `<` before what came, doubled for the
second port, and `@` before what was done at the telephone. One that fails tells what was due and what came in its place. `left open` is
what RFC 3435 leaves open, `not supported` an option that isn't there. A line that is off hook or has a connection isn't checked, and no
other call agent may be at work on the lines. What is changed is undone. ADDRESS is a.b.c.d:port or localhost:port.
The status is 0 where none failed, 1 where one did, 2 for other words, 3 where nothing can be checked.
"""


class Words(argparse.ArgumentParser):
    """The words; for others the status is 2, and the file behind `--junit` says why."""

    junit: str | None = None

    def error(self, message: str) -> NoReturn:
        """Says why the words aren't taken."""
        end(2, f"usage: {USAGE}\nrgw-check: {message}", self.junit)


def address(text: str) -> wire.Address:
    """An address, or why a text is none."""
    try:
        return wire.address(text)
    except ValueError as fault:
        raise argparse.ArgumentTypeError(str(fault)) from None


def name(text: str) -> str:
    """The local name of one line."""
    if not bench.is_name(text):
        raise argparse.ArgumentTypeError("not the name of one line, as aaln/1: 1 to 64 characters, no blank, *, $ or @")
    return text


def seconds(text: str) -> float:
    """A time that is longer than none, in seconds."""
    try:
        value = float(text)
    except ValueError:
        value = 0.0
    if not 0 < value <= 1e6:
        raise argparse.ArgumentTypeError("wanted seconds, up to 1000000")
    return value


def parser() -> Words:
    """The words."""
    made = Words(prog="rgw-check", usage=USAGE, description=(__doc__ or "").split("\n")[0], epilog=BELOW, allow_abbrev=False,
                 formatter_class=argparse.RawDescriptionHelpFormatter)
    made.add_argument("address", type=address, metavar="ADDRESS", help="of the gateway")
    made.add_argument("--domain", required=True, metavar="D", help="of its endpoint names")
    made.add_argument("--line", required=True, type=name, metavar="NAME", help="the local name of a line, as aaln/1")
    made.add_argument("--more-lines", action="append", default=[], type=name, metavar="NAME", help="of another, for checks of two lines")
    made.add_argument("--own", type=address, metavar="ADDRESS",
                      help="of the call agent that the gateway is configured for: from there it sends, and there it hears what the gateway "
                      "says by itself; else any free port, and that is not checked")
    worked = made.add_mutually_exclusive_group()
    worked.add_argument("--phones", type=address, metavar="ADDRESS", help="of the telephones of an rgwd")
    worked.add_argument("--hook", type=address, metavar="ADDRESS",
                        help="of a program that works them: it is sent `act 1 off` or `restart`, and answers `done`")
    made.add_argument("--slow", action="store_true", help="checks that wait for 10 s or longer too")
    made.add_argument("--only", metavar="NAME,..", help="these checks alone, slow ones too")
    made.add_argument("--timeout", type=seconds, metavar="SECONDS", help="the time for the whole run; what comes later isn't played")
    made.add_argument("-n", type=int, default=0, metavar="WORKERS", help="so many play side by side, by pytest-xdist, two lines each")
    made.add_argument("--json", action="store_true", help="the report as JSON, an object a line")
    made.add_argument("--junit", metavar="FILE", help="the report as JUnit's XML too, in this file")
    made.add_argument("--list", action="version", version="", help="the names of all checks, with their rules")
    made.add_argument("--version", action="version", version=f"rgw-check {__version__}\nMGCP 1.0 (RFC 3435)")
    return made


def end(status: int, why: str = "", junit: str | None = None) -> NoReturn:
    """Ends the program; where nothing was checked, JUnit's XML says why."""
    if why:
        print(why, file=sys.stderr)
    if junit:
        last = why.splitlines()[-1] if why else "nothing was checked"
        text = "".join(it if it >= " " else "?" for it in last)
        case = f'<testcase classname="rgw-check" name="gateway"><error message={quoteattr(text)}/></testcase>'
        try:
            Path(junit).write_text(
                '<?xml version="1.0" encoding="utf-8"?>\n<testsuites><testsuite name="rgw-check" tests="1" failures="0" errors="1" '
                f'skipped="0">{case}</testsuite></testsuites>\n', encoding="utf-8"
            )
        except OSError as fault:
            print(f"{junit}: write fault: {fault.strerror}", file=sys.stderr)
            status = 3
    raise SystemExit(status)


class Reporter:
    """Prints what came of each check, for people or as JSON, and counts."""

    def __init__(self, is_json: bool) -> None:
        self.is_json = is_json
        self.counts = dict.fromkeys(COUNTS, 0)
        self.dead = ""

    def pytest_runtest_logreport(self, report: pytest.TestReport) -> None:
        """Prints a check's report."""
        told: dict[str, Any] | None = getattr(report, "check", None)
        if report.nodeid == "gateway" and report.failed:
            self.dead = str(report.longrepr)
        if told is None:
            return
        self.counts[told["result"]] += 1
        if self.is_json:
            say(json.dumps({**told, "sections": ", ".join(told["sections"])}).replace("\x7f", "\\u007f"))
        else:
            rule = f"{told['name']} ({', '.join(told['sections'])}): {told['rule']}"
            say("\n".join([f"{told['result']:14}{rule}", *(f"    {it}" for it in told["said"])]))

    def finish(self) -> None:
        """Prints how many checks came to what."""
        if self.is_json:
            say(json.dumps({COUNTS[word]: count for word, count in self.counts.items()}))
        else:
            say(", ".join(f"{count} {word if word != 'FAIL' else 'fail'}" for word, count in self.counts.items()))


class Lister:
    """Keeps the checks that there are."""

    def __init__(self) -> None:
        self.rules: list[Rule] = []

    def pytest_collection_finish(self, session: pytest.Session) -> None:
        """Keeps them."""
        self.rules = [rule for it in session.items if (rule := rule_of(it))]


def say(text: str) -> None:
    """Prints a text at once."""
    print(text, flush=True)


def play(words: Sequence[str], plugin: object) -> int:
    """Runs pytest over the checks with these words, and without what the user's environment would add: its status."""
    os.environ.pop("PYTEST_ADDOPTS", None)
    os.environ["PYTEST_DISABLE_PLUGIN_AUTOLOAD"] = "1"
    fixed = ["-p", "rgw_bench.plugin", "-p", "no:cacheprovider", "-p", "no:terminalreporter", "-c", os.devnull, "--noconftest"]
    return int(pytest.main([*fixed, f"--rootdir={CHECKS}", str(CHECKS), *words], plugins=[plugin]))


def listed() -> list[Rule]:
    """All checks."""
    lister = Lister()
    play(["--collect-only", "-q"], lister)
    return lister.rules


def asked(given: argparse.Namespace, only: set[str]) -> list[str]:
    """The words of pytest that ask for this."""
    words = ["--gateway", wire.written(given.address), "--domain", given.domain, "--line", given.line]
    for other in given.more_lines:
        words += ["--more-lines", other]
    for word in ("own", "phones", "hook"):
        if getattr(given, word):
            words += [f"--{word}", wire.written(getattr(given, word))]
    words += ["--slow"] if given.slow or only else []
    words += ["--gateway-only", ",".join(only)] if only else []
    words += ["--gateway-timeout", str(given.timeout)] if given.timeout else []
    words += ["-p", "xdist.plugin", "-n", str(given.n)] if given.n > 1 else []
    return words + ([f"--junitxml={given.junit}", "-o", "junit_suite_name=rgw-check"] if given.junit else [])


def junit_in(words: Sequence[str]) -> str | None:
    """The file behind `--junit`, where other words may be wrong."""
    for at, word in enumerate(words):
        if word.startswith("--junit="):
            return word.partition("=")[2]
        if word == "--junit" and at + 1 < len(words):
            return words[at + 1]
    return None


def try_to_write(file: str) -> None:
    """Ends the program where a file can't be written, before anything is played."""
    try:
        with open(file, "a", encoding="utf-8"):
            pass
    except OSError as fault:
        end(3, f"{file}: write fault: {fault.strerror}")


def main(words: Sequence[str] | None = None) -> NoReturn:
    """The program."""
    words = sys.argv[1:] if words is None else words
    if list(words) == ["--list"]:
        print("\n".join(f"{it.name} ({', '.join(it.sections)}): {it.text}" for it in listed()))
        end(0)
    read = parser()
    read.junit = junit_in(words)
    given = read.parse_args(words)
    lines = [it.lower() for it in (given.line, *given.more_lines)]
    if len(set(lines)) != len(lines):
        read.error("--more-lines: the same line as --line, or twice the same")
    only = set() if given.only is None else {it.strip() for it in given.only.split(",")}
    unknown = sorted(only - {it.name for it in listed()}) if only else []
    if unknown:
        end(2, f"--only: no check has the name {' or '.join(map(repr, unknown))}; rgw-check --list has them", given.junit)
    pairs = max(1, len(lines) // 2)
    if given.n > pairs:
        print(f"-n {given.n}: {pairs} play, since each has two lines and {len(lines)} are named", file=sys.stderr)
    if given.junit:
        try_to_write(given.junit)
    reporter = Reporter(given.json)
    status = play(asked(given, only), reporter)
    if reporter.dead:
        if given.json:
            say(json.dumps({"fault": reporter.dead}))
        end(3, reporter.dead)
    reporter.finish()
    end(1 if reporter.counts["FAIL"] else 0 if status in (0, 1, 5) else 3)


if __name__ == "__main__":
    main()
