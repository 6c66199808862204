"""rgw-check and the pytest plugin at a stub gateway: words, statuses, reports, limits."""

import json
import os
import subprocess
import sys
import time
import xml.etree.ElementTree as ElementTree
from collections.abc import Generator
from pathlib import Path

import pytest

from rgw_bench import mgcp
from rgw_bench.commands.check import asked, parser
from rgw_bench.mgcp import Message
from stub import Stub

BENCH = Path(__file__).resolve().parents[1]
Ended = subprocess.CompletedProcess[str]


def run(*words: str) -> Ended:
    """A Python program with the package."""
    given = os.environ | {"PYTHONPATH": str(BENCH), "PYTEST_DISABLE_PLUGIN_AUTOLOAD": "1"}
    return subprocess.run([sys.executable, *words], capture_output=True, text=True, timeout=120, env=given, cwd="/")


def check(*words: str) -> Ended:
    """rgw-check with these words."""
    return run("-m", "rgw_bench.commands.check", *words)


def cases(path: Path) -> list[ElementTree.Element]:
    """The test cases of a report as JUnit's XML."""
    return list(ElementTree.parse(path).getroot().iter("testcase"))


def at(stub: Stub, *more: str) -> list[str]:
    """The words of a check of this gateway."""
    return ["%s:%d" % stub.address, "--domain", "gw", "--line", "aaln/1", *more]


@pytest.fixture
def stub() -> Generator[Stub, None, None]:
    """A gateway that answers each command with 200."""
    with Stub() as made:
        yield made


def test_each_check_is_listed_once() -> None:
    """Its name, its sections, its rule."""
    ended = check("--list")
    names = [line.split(" ")[0] for line in ended.stdout.splitlines()]
    assert ended.returncode == 0 and len(names) == len(set(names)) >= 144
    assert ended.stdout.startswith("repeat (3.5.1): A command that comes again gets the response that was sent")


@pytest.mark.parametrize("words, why", [
    (["127.0.0.1"], "not an address, as a.b.c.d:port or localhost:port"),
    (["127.0.0.1:1", "--domain", "a"], "the following arguments are required: --line"),
    (["127.0.0.1:1", "--domain", "a", "--line", "b/*"], "not the name of one line, as aaln/1: 1 to 64 characters, no blank, *, $ or @"),
    (["127.0.0.1:1", "--domain", "a", "--line", "b/1", "--more-lines", "B/1"], "--more-lines: the same line as --line, or twice the same"),
    (["127.0.0.1:1", "--domain", "a", "--line", "b", "--phones", "127.0.0.1:1", "--hook", "127.0.0.1:1"], "not allowed with argument"),
    (["127.0.0.1:1", "--domain", "a", "--line", "b", "--only", "repeat,nosuch"],
     "--only: no check has the name 'nosuch'; rgw-check --list has them"),
    (["127.0.0.1:1", "--domain", "a", "--line", "b", "--timeout", "0"], "wanted seconds, up to 1000000"),
    (["127.0.0.1:1", "--domain", "a", "--line", "b", "--fast"], "unrecognized arguments: --fast"),
], ids=["address", "line", "name", "same line", "two ways", "only", "timeout", "unknown"])
def test_other_words_end_it_with_status_2(words: list[str], why: str, tmp_path: Path) -> None:
    """A sentence says what may stand there; the report says it, too."""
    ended = check(*words, "--junit", str(tmp_path / "report.xml"))
    assert (ended.returncode, ended.stdout) == (2, "") and why in ended.stderr
    case, = cases(tmp_path / "report.xml")
    error = case.find("error")
    assert error is not None and why in error.get("message", "")


@pytest.mark.parametrize("given, only, words", [
    ("", (), ""), ("--phones 127.0.0.1:2", ("repeat",), "--phones 127.0.0.1:2 --slow --gateway-only repeat"),
    ("--more-lines b --own 127.0.0.1:2 --hook localhost:3 --slow --timeout 5 -n 3 --junit r.xml", (),
     "--more-lines b --own 127.0.0.1:2 --hook 127.0.0.1:3 --slow --gateway-timeout 5.0 -p xdist.plugin -n 3 --junitxml=r.xml "
     "-o junit_suite_name=rgw-check"),
], ids=["least", "only", "all"])
def test_the_words_reach_pytest(given: str, only: tuple[str, ...], words: str) -> None:
    """None is left out."""
    least = "127.0.0.1:1 --domain d --line a"
    came = asked(parser().parse_args([*least.split(), *given.split()]), set(only))
    assert " ".join(came) == f"--gateway {least} {words}".rstrip(" ")


def test_no_check_failed(stub: Stub, tmp_path: Path) -> None:
    """The status is 0, the last line counts, and the report has each check with its rule."""
    ended = check(*at(stub, "--only", "endpoint-case, two-in-one,other-line", "--junit", str(tmp_path / "report.xml")))
    assert ended.returncode == 0, ended.stderr
    assert ended.stdout.splitlines()[-1] == "2 pass, 0 fail, 0 left open, 0 not supported, 1 not played"
    assert [it.get("name") for it in cases(tmp_path / "report.xml")] == ["two-in-one", "endpoint-case", "other-line"]
    assert cases(tmp_path / "report.xml")[2].find("skipped") is not None
    assert ended.stdout.splitlines()[-2] == "    ! needs another line (--more-lines)"


def test_a_check_failed(stub: Stub, tmp_path: Path) -> None:
    """The status is 1; text, JSON and JUnit say what was sent, what came, and what was due."""
    words = at(stub, "--only", "unknown-endpoint,verb-first", "--junit", str(tmp_path / "report.xml"))
    ended = check(*words)
    assert ended.returncode == 1
    lines = [it.strip() for it in ended.stdout.splitlines()]
    assert [it for it in lines if it.startswith("! ")][2:] == [lines[-3], lines[-2]]
    assert lines[-3].startswith("! due: < 500 ") and lines[-2].startswith("! came: 200 ")
    assert lines[-1] == "0 pass, 1 fail, 1 left open, 0 not supported, 0 not played"
    left_open, failed = cases(tmp_path / "report.xml")
    failure, skipped = failed.find("failure"), left_open.find("skipped")
    assert skipped is not None and "left open by the RFC" in skipped.get("message", "")
    assert failure is not None and failure.get("message", "").startswith("due: < 500 ") and ">  AUEP" in (failure.text or "")
    told = [json.loads(line) for line in check(*words, "--json").stdout.splitlines()]
    assert [it.get("result") for it in told] == ["left open", "FAIL", None]
    assert told[1]["expected"].startswith("< 500 ") and told[1]["received"][0][0].startswith("200 ")
    assert told[2] == {"passed": 0, "failed": 1, "left_open": 1, "not_supported": 0, "not_played": 0}


def test_control_bytes_are_escaped(tmp_path: Path) -> None:
    """On a terminal, in JSON, and in XML."""
    def answers(message: Message) -> list[bytes]:
        return [b"201 %d \x1b[2J\x7f\x9b<&\0\r\nI: \x1b\r\n" % message.id]

    with Stub(answers) as stub:
        words = at(stub, "--only", "unknown-endpoint", "--junit", str(tmp_path / "report.xml"))
        for ended in (check(*words), check(*words, "--json")):
            assert ended.returncode == 1
            assert not [it for it in ended.stdout if not it.isprintable() and it != "\n"]
    case, = cases(tmp_path / "report.xml")
    failure = case.find("failure")
    assert failure is not None and r"\x1b[2J" in (failure.text or "")


def test_a_dead_gateway_ends_it_with_status_3(tmp_path: Path) -> None:
    """And a sentence, in the report, too."""
    report = tmp_path / "report.xml"
    words = ["127.0.0.1:9", "--domain", "gw", "--line", "aaln/1", "--timeout", "1.5", "--junit", str(report)]
    with Stub(lambda it: []) as stub:
        for place, why in (("%s:%d" % stub.address, "the time for the whole run is over"), ("127.0.0.1:9", "")):
            ended = check(place, *words[1:], "--json")
            assert ended.returncode == 3 and why in ended.stderr
            assert json.loads(ended.stdout)["fault"] in ended.stderr
            case, = cases(report)
            assert case.find("error") is not None


@pytest.mark.parametrize("code, params, why", [
    (500, {}, "--line aaln/1: 500, no such line there, or not in --domain"),
    (200, {"I": "1"}, "--line aaln/1: in use, off hook or with a connection"),
    (200, {"ES": "L/hd"}, "--line aaln/1: in use, off hook or with a connection"),
])
def test_a_line_that_cant_be_checked(code: int, params: dict[str, str], why: str) -> None:
    """It isn't there, or is in use."""
    with Stub(lambda it: [] if it.is_response else [mgcp.response(code, it.id, "", params)]) as stub:
        ended = check(*at(stub, "--only", "audit"))
    assert (ended.returncode, ended.stderr.strip()) == (3, why)


def test_an_address_that_is_taken(stub: Stub) -> None:
    """The agent's own."""
    ended = check(*at(stub, "--own", "%s:%d" % stub.address))
    assert ended.returncode == 3 and "no socket: Address already in use" in ended.stderr


def test_what_is_not_played_costs_no_time(stub: Stub) -> None:
    """Some 200 checks are left when the time is over; a traceback for each took 25 s and more."""
    began = time.monotonic()
    ended = check(*at(stub, "--timeout", "1"))
    many = int(ended.stdout.splitlines()[-1].rpartition(", ")[2].removesuffix(" not played"))
    assert ended.returncode in (1, 3) and many > 100 and time.monotonic() - began < 15
    whys = {it["said"][-1] for it in map(json.loads, check(*at(stub, "--timeout", "0.5", "--json")).stdout.splitlines())
            if it.get("result") == "not played"}
    assert {"! the time for the whole run is over", "! needs 10 s or longer (--slow)"} <= whys


@pytest.mark.live
def test_a_slow_gateway_costs_no_more_than_the_limit() -> None:
    """It says 100 for ever; what isn't played by then is not played, and the status isn't 0."""
    stub, ended = Stub(), None
    audits = 0

    def slowly(message: Message) -> list[bytes]:
        nonlocal audits
        audits += message.verb == "AUEP"
        while audits > 3 and message.verb == "AUEP" and not ended:
            stub.say(mgcp.response(100, message.id))
            time.sleep(0.3)
        return [] if message.is_response else [mgcp.response(200, message.id)]

    stub.answers = slowly
    began = time.monotonic()
    try:
        ended = check(*at(stub, "--only", "endpoint-case,two-in-one,extension", "--timeout", "8"))
    finally:
        ended = ended or run("-c", "")
        stub.close()
    assert ended.returncode == 3 and time.monotonic() - began < 60
    assert ended.stdout.splitlines()[-1] == "0 pass, 0 fail, 0 left open, 0 not supported, 3 not played"


@pytest.mark.live
def test_two_workers_play_side_by_side(stub: Stub) -> None:
    """Each at lines of its own, from the agent's one address, and every check once."""
    pytest.importorskip("xdist")
    more = [word for line in (2, 3, 4) for word in ("--more-lines", f"aaln/{line}")]
    with Stub() as other:
        own = "%s:%d" % other.address
    names = "endpoint-case,two-in-one,extension,response,confirmed-range,other-version,all-lines-configuration"
    ended = check(*at(stub, *more, "--own", own, "-n", "2", "--only", names, "--json"))
    told = {it["name"]: it["result"] for it in map(json.loads, ended.stdout.splitlines()) if "name" in it}
    assert ended.returncode == 1 and set(told) == set(names.split(",")), ended.stderr
    assert told["endpoint-case"] == told["two-in-one"] == told["extension"] == told["response"] == "pass"
    assert told["other-version"] == told["confirmed-range"] == "FAIL"
    assert {it.endpoint for it in stub.heard if it.verb == "AUEP"} >= {"aaln/1@gw", "aaln/3@gw"}


def test_pytest_plays_checks_by_name_and_section(stub: Stub, tmp_path: Path) -> None:
    """-k and -m choose; the summary says what was due."""
    words = ["-m", "pytest", "-p", "rgw_bench.plugin", "-p", "no:cacheprovider", "--pyargs", "rgw_bench.checks", "--gateway", *at(stub)]
    ended = run(*words, "-k", "unknown-endpoint or endpoint-case", "-rA", "-q")
    assert ended.returncode == 1
    assert "FAILED answers.check::unknown-endpoint - due: < 500" in ended.stdout and "PASSED answers.check::endpoint-case" in ended.stdout
    ended = run(*words, "-m", "3.2.1.4 and profile", "--collect-only", "-q")
    assert ended.stdout.splitlines()[0] == "answers.check::profile-name"
    # (a job that forgets the gateway isn't green)
    ended = run(*words[:-len(["--gateway", *at(stub)])], "-k", "unknown-endpoint", "-q")
    assert ended.returncode == 4 and "no --gateway" in ended.stderr and "Traceback" not in ended.stdout + ended.stderr


def test_a_check_in_python(stub: Stub, tmp_path: Path) -> None:
    """By the fixture `gw`: what it fails by is told as for checks as text; what is optional and left open isn't a failure."""
    path = tmp_path / "test_mine.py"
    path.write_text(
        "from rgw_bench.dialogue import rfc\n"
        "@rfc('2.3.10')\ndef test_audited(gw):\n    '''An audit is answered'''\n    gw.ask('AUEP')\n"
        "@rfc('2.3.10')\ndef test_told(gw):\n    '''It tells I'''\n    told = gw.ask('AUEP', F='I')\n"
        "    gw.due('I', told['I'] is not None, 'no I')\n"
        "@rfc('2.4', is_open=True)\ndef test_open(gw):\n    '''Any code'''\n    gw.ask('AUEP', expect=500)\n"
        "@rfc('2.4', needs=('own',))\ndef test_own(gw):\n    '''Unplayed'''\n"
    )
    ended = run("-m", "pytest", "-p", "rgw_bench.plugin", "-p", "no:cacheprovider", str(path), "--gateway", *at(stub), "-rA", "-q")
    assert "1 failed, 1 passed, 1 skipped, 1 xfailed" in ended.stdout
    assert "! due: I\n    ! came: no I" in ended.stdout and "needs the call agent's address (--own)" in ended.stdout


def test_a_fault_in_a_file_of_checks_is_told(stub: Stub, tmp_path: Path) -> None:
    """With its line."""
    (tmp_path / "mine.check").write_text("= a | 1 | b\nhello\n")
    ended = run("-m", "pytest", "-p", "rgw_bench.plugin", "-p", "no:cacheprovider", str(tmp_path), "--gateway", *at(stub), "-q")
    assert ended.returncode == 2 and "mine.check: line 2: no step: hello" in ended.stdout


def test_a_file_that_cannot_be_written_is_told_before_anything_is_played(tmp_path: Path) -> None:
    (tmp_path / "file").touch()
    ended = check("127.0.0.1:1", "--domain", "d", "--line", "aaln/1", "--junit", str(tmp_path / "file" / "x.xml"))
    assert ended.returncode == 3
    assert ended.stderr.endswith("x.xml: write fault: Not a directory\n") and ended.stdout == ""
