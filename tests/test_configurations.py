"""What rgwd and rgca say of the faults of a configuration, and what --check prints.

The forms of what is said are rows of crates/cases/data/config_faults.txt; here is what the programs do with them, and what no row can say.
"""
from pathlib import Path

import pytest
from running import FREE, TOP, command, ran

USUAL: dict[str, str | None] = {
    "domain": '"rgw.example.net"',
    "lines": "2",
    "agent": '"ca@ca.example.net"',
    "restart_wait": "1000",
    "disconnected_wait": "5000",
    "media_address": '"127.0.0.1"',
    "media_base": "3000",
    "[names]": "",
    '"ca.example.net"': '"127.0.0.1"',
}
# What the usual configuration is checked to be.
CHECKED = """domain: rgw.example.net
agent: ca@ca.example.net, at 127.0.0.1:2727
restart_wait: 1,000 ms
disconnected_wait: 5,000 ms
media_address: 127.0.0.1
line 1: aaln/1@rgw.example.net, ports 3000, 3002, 3004, 3006
line 2: aaln/2@rgw.example.net, ports 3008, 3010, 3012, 3014
"""
# Who may speak, where no word says it.
AGENTS = "agents: --agents 127.0.0.1\n"
SOCKETS = "sockets: --listen 127.0.0.1:2427 --phones 127.0.0.1:2428"
Changes = dict[str, str | None]
LINES = "wanted 1 to 96"
WAIT = "wanted 1 to 600,000 ms"
BASE = "wanted an even number from 1,024 to 64,000"
DOMAIN = 'wanted a text of 1 to 64 letters, digits, "-" and "."'
MEDIA = 'wanted an IPv4 address, as "10.0.0.5"'
HOST = 'wanted an IPv4 address, as "10.0.0.7", or a list of 1 to 4'
NO_VALUE = "invalid value, expected a string, number, boolean, date-time, array or inline table"
HUGE = "9" * 80
# The faulty files, by what is the matter: the lines of the usual configuration that are others, and what is told of it.
FAULTY: list[tuple[str, Changes | None, list[str]]] = [
    # Each key, with its line, what stands there, and what may.
    ("97 lines", {"lines": "97"}, [f"line 2: lines: 97, {LINES}"]),
    ("lines as a text", {"lines": '"2"'}, [f'line 2: lines: "2", {LINES}']),
    ("a float", {"lines": "4.0"}, [f"line 2: lines: 4.0, {LINES}"]),
    ("a float with an exponent", {"restart_wait": "1e3 # ms"}, [f"line 4: restart_wait: 1e3, {WAIT}"]),
    ("a date", {"lines": "2026-12-01"}, [f"line 2: lines: 2026-12-01, {LINES}"]),
    ("a truth", {"lines": "true"}, [f"line 2: lines: true, {LINES}"]),
    ("a list", {"lines": "[1, 2]"}, [f"line 2: lines: a list of 2, {LINES}"]),
    ("a long wait", {"restart_wait": "600001"}, [f"line 4: restart_wait: 600,001, {WAIT}"]),
    ("no other wait", {"disconnected_wait": "0"}, [f"line 5: disconnected_wait: 0, {WAIT}"]),
    ("an odd port", {"media_base": "3001"}, [f"line 7: media_base: 3,001, {BASE}"]),
    ("any address", {"media_address": '"0.0.0.0"'},
        ["line 6: media_address: 0.0.0.0, wanted an address of this machine that others reach"]),
    ("no address", {"media_address": '"localhost"'}, [f"line 6: media_address: localhost, {MEDIA}"]),
    ("no domain", {"domain": '"a_b"'}, [f"line 1: domain: a_b, {DOMAIN}"]),
    ("a terminal's escapes", {"domain": '"a\\u001b[31mb"'}, [f"line 1: domain: a\\x1b[31mb, {DOMAIN}"]),
    ("an agent without brackets", {"agent": '"ca@127.0.3.2:22727"'}, ["line 3: agent: ca@127.0.3.2:22727, an address wants brackets"]),
    ("an agent that no host is", {"agent": '"ca@cb.example.net"'}, ["line 3: agent: ca@cb.example.net, no such host in [names]"]),
    ("a host without an address", {'"foo"': '"localhost"'}, [f'line 10: names: foo = "localhost", {HOST}']),
    ("a host with a number", {'"foo"': "4.0"}, [f"line 10: names: foo = 4.0, {HOST}"]),
    ("a host with five", {'"foo"': str(["10.0.0.1"] * 5).replace("'", '"')}, [f"line 10: names: foo = a list of 5, {HOST}"]),
    ("a host that is none", {'"a_b"': '"127.0.0.1"'}, ['line 10: names: a_b, wanted 1 to 64 letters, digits, "-" and "."']),
    ("a host in two cases", {'"FOO"': '"127.0.0.1"', '"foo"': '"127.0.0.1"'}, ["line 11: names: foo stands twice"]),
    ("too many hosts", {f'"h{n}"': '"127.0.0.1"' for n in range(10, 80)}, ["line 8: names: 71 hosts, wanted at most 64"]),
    ("names that are none", {"[names]": None, '"ca.example.net"': None, "names": "5"}, ["line 8: names: 5, wanted a table [names]"]),
    # What is missing, unknown or elsewhere.
    ("a missing key", {"lines": None}, ["missing: lines"]),
    ("an unknown key", {"lines": "2\nline = 2"}, ['line 3: unknown key "line", the nearest is lines']),
    ("an unknown key in capitals", {"lines": None, "LINES": "2"}, ['line 9: names: LINES = 2, ' + HOST, "missing: lines"]),
    ("a key in capitals", {"domain": '"rgw.example.net"\nDOMAIN = "a"'}, ['line 2: unknown key "DOMAIN", the nearest is domain']),
    ("an unknown key for another", {"restart_wait": None, "lines": "2\nrestart = 1000"},
        ['line 3: unknown key "restart", the nearest is restart_wait', "missing: restart_wait"]),
    ("an unknown table", {'"ca.example.net"': '"127.0.0.1"\n[media]\nbase = 3000'},
        ['line 10: unknown key "media", the nearest is media_base']),
    ("a key under [names]", {"media_base": None, '"ca.example.net"': '"127.0.0.1"\nmedia_base = 3000'},
        ["line 9: media_base: stands under [names], wanted above that"]),
    ("a wrong key under [names]", {"lines": None, '"ca.example.net"': '"127.0.0.1"\nlines = 97'},
        ["line 9: lines: stands under [names], wanted above that", f"line 9: lines: 97, {LINES}"]),
    ("an unquoted name", {'"ca.example.net"': None, "ca.example.net": '"127.0.0.1"'},
        ['line 9: names: ca.example.net, quote it: "ca.example.net"']),
    ("two unquoted names", {'"ca.example.net"': None, "ca.example.net": '"127.0.0.1"', "cb.example.net": '"127.0.0.1"'},
        ['line 9: names: ca.example.net, quote it: "ca.example.net"', 'line 10: names: cb.example.net, quote it: "cb.example.net"']),
    # Several at once, in the order of their lines.
    ("all numbers", {"lines": "0", "restart_wait": "0", "disconnected_wait": "0", "media_base": "1"},
        [f"line 2: lines: 0, {LINES}", f"line 4: restart_wait: 0, {WAIT}", f"line 5: disconnected_wait: 0, {WAIT}",
         f"line 7: media_base: 1, {BASE}"]),
    ("values, a missing key and an unknown one", {"domain": '""', "lines": "2\nwait = 1", "agent": None},
        [f'line 1: domain: "", {DOMAIN}', 'line 3: unknown key "wait", the nearest is restart_wait', "missing: agent"]),
    ("hosts and a value", {"lines": "97", '"foo"': "1", '"a_b"': '"127.0.0.1"'},
        [f"line 2: lines: 97, {LINES}", f"line 10: names: foo = 1, {HOST}",
         'line 11: names: a_b, wanted 1 to 64 letters, digits, "-" and "."']),
    ("an agent whose host is wrong", {'"ca.example.net"': '"localhost"'}, [f'line 9: names: ca.example.net = "localhost", {HOST}']),
    ("a value behind a text of several lines", {"domain": "\'\'\'\nlines = 1\n\'\'\'", "lines": "97"},
        [f"line 1: domain: lines = 1\\x0a, {DOMAIN}", f"line 4: lines: 97, {LINES}"]),
    ("nothing", None,
        [f"missing: {key}" for key in ["domain", "lines", "agent", "restart_wait", "disconnected_wait", "media_address", "media_base"]]),
    # What is no TOML is told alone.
    ("a number of 80 digits", {"lines": HUGE, "media_base": "1"}, [f"line 2: lines: {HUGE[:64]}.., {LINES}"]),
    ("2^64", {"lines": str(2**64)}, [f"line 2: lines: {2**64}, {LINES}"]),
    ("2^63, negative", {"media_base": str(-(2**63) - 1)}, [f"line 7: media_base: {-(2**63) - 1}, {BASE}"]),
    ("a text without quotes", {"domain": "rgw.example.net"}, ['line 1: domain: rgw.example.net, quote it: "rgw.example.net"']),
    ("an address without quotes", {"media_address": "127.0.0.1 # here"}, ['line 6: media_address: 127.0.0.1, quote it: "127.0.0.1"']),
    ("a host's address without quotes", {'"ca.example.net"': "10.0.0.7"}, ['line 9: "ca.example.net": 10.0.0.7, quote it: "10.0.0.7"']),
    ("two numbers", {"lines": "1 2"}, [f"line 2: lines: 1 2, {LINES}"]),
    ("a key twice", {"lines": "2\nlines = 3"}, ["line 3: lines stands twice, first in line 2"]),
    ("a host twice", {'"ca.example.net"': '"127.0.0.1"\n"ca.example.net" = "127.0.0.1"'},
        ['line 10: "ca.example.net" stands twice, first in line 9']),
    ("the names twice", {'"ca.example.net"': '"127.0.0.1"\n[names]'}, ["line 10: [names] stands twice, first in line 8"]),
    ("no TOML", {"domain": "= 2", "lines": "97"}, [f"line 1: {NO_VALUE}"]),
    ("no end of a text", {"domain": '"rgw', "lines": "97"}, ["line 1: invalid string"]),
]


def text_of(changes: Changes | None) -> str:
    """The usual configuration, changed; nothing for no changes."""
    settings = {} if changes is None else {**USUAL, **changes}
    return "".join(f"{key} = {value}\n" if value else f"{key}\n" for key, value in settings.items() if value is not None)


def checked(folder: Path, text: str, *words: str) -> tuple[int | None, str, str]:
    """How rgwd --check ends with this configuration, and what it prints."""
    (folder / "gateway.toml").write_text(text)
    return ran([*command("rgwd"), f"{folder}/gateway.toml", "--check", *words])


def assert_refused(folder: Path, text: bytes, wanted: list[str]) -> None:
    """rgwd refuses a configuration in these lines, each of which names the file, to serve it and to check it."""
    path = folder / "gateway.toml"
    path.write_bytes(text)
    ended = [ran([*command("rgwd"), str(path), *words]) for words in ([*FREE, "--stop-after", "0"], ["--check"])]
    assert ended == 2 * [(2, "", "".join(f"{path}: {line}\n" for line in wanted))]


@pytest.mark.parametrize("changes, wanted", [it[1:] for it in FAULTY], ids=[it[0] for it in FAULTY])
def test_fault(tmp_path: Path, changes: Changes | None, wanted: list[str]) -> None:
    assert_refused(tmp_path, text_of(changes).encode(), wanted)


def test_no_utf_8(tmp_path: Path) -> None:
    assert_refused(tmp_path, text_of({}).encode() + b"# \xff\n", ["line 10: no UTF-8"])


def test_64_faults_are_told_of_70(tmp_path: Path) -> None:
    many = text_of({"lines": "2" + "".join(f"\nk{n:02} = 1" for n in range(70))})
    lines = [f'line {n + 3}: unknown key "k{n:02}", the nearest is lines' for n in range(64)]
    assert_refused(tmp_path, many.encode(), [*lines, "further faults aren't told"])


def test_longest_configuration(tmp_path: Path) -> None:
    """1,048,576 bytes are taken, and not a byte more."""
    longest = text_of({}) + "#" * (1048576 - len(text_of({})) - 1) + "\n"
    status, _, said = checked(tmp_path, longest)
    assert (status, said) == (0, "")
    assert_refused(tmp_path, longest.encode() + b"#", ["over 1,048,576 bytes"])


def test_no_names(tmp_path: Path) -> None:
    """No [names] are an empty table: an agent by its address needs none, and one by its host does."""
    status, out, said = checked(tmp_path, text_of({"agent": '"ca@[127.0.0.1]"', "[names]": None, '"ca.example.net"': None}))
    assert (status, said) == (0, "") and "\nagent: ca@[127.0.0.1], at 127.0.0.1:2727\n" in out
    status, _, said = checked(tmp_path, text_of({"[names]": None, '"ca.example.net"': None}))
    assert (status, said) == (2, f"{tmp_path}/gateway.toml: line 3: agent: ca@ca.example.net, no such host in [names]\n")


FAR: Changes = {"agent": '"ca@[10.0.0.9]:2727"'}
APART = "and the agent is at 10.0.0.9:2727: nothing comes from there to this address"
LISTENS = ["--listen", "10.0.0.5:2427", "--phones", "127.0.0.1:2428"]
WARNED: list[tuple[str, Changes, list[str], list[str]]] = [
    ("an agent elsewhere, media and socket here", FAR, [], [f"media_address: 127.0.0.1, {APART}", f"--listen: 127.0.0.1, {APART}"]),
    ("an agent elsewhere, media here", FAR, LISTENS, [f"media_address: 127.0.0.1, {APART}"]),
    ("an agent elsewhere, the socket here", {**FAR, "media_address": '"10.0.0.5"'}, [], [f"--listen: 127.0.0.1, {APART}"]),
    ("an agent elsewhere, nothing here", {**FAR, "media_address": '"10.0.0.5"'}, LISTENS, []),
    ("the second address of an agent is elsewhere", {'"ca.example.net"': '["127.0.0.1", "10.0.0.9"]'}, LISTENS,
        [f"media_address: 127.0.0.1, {APART}"]),
    ("media at the port of --listen", {"media_base": "2420"}, [], [
        "media_base: the ports of the lines cover that of --listen 127.0.0.1:2427",
        "media_base: the ports of the lines cover that of --phones 127.0.0.1:2428"]),
    ("media up to the port before", {"media_base": "2410"}, ["--listen", "127.0.0.1:2426", "--phones", "127.0.0.1:2427"], []),
    ("media up to that port", {"media_base": "2412"}, [], ["media_base: the ports of the lines cover that of --listen 127.0.0.1:2427"]),
    ("media from behind it on", {"media_base": "2430"}, [], []),
    ("any address", {}, ["--listen", "0.0.0.0:2427"],
        ["--listen: 0.0.0.0: on several addresses an answer may leave by another one than was asked"]),
]


@pytest.mark.parametrize("changes, words, wanted", [it[1:] for it in WARNED], ids=[it[0] for it in WARNED])
def test_warning(tmp_path: Path, changes: Changes, words: list[str], wanted: list[str]) -> None:
    """What --check says of what is right, but may be meant to be something else."""
    status, out, said = checked(tmp_path, text_of(changes), *words)
    assert (status, said) == (0, "".join(f"warning: {line}\n" for line in wanted)) and out.startswith("domain: ")


def test_only_a_check_warns(tmp_path: Path) -> None:
    path = tmp_path / "gateway.toml"
    path.write_text(text_of(FAR))
    status, _, said = ran([*command("rgwd"), str(path), *FREE, "--stop-after", "0"])
    assert status == 0 and "warning" not in said


@pytest.mark.parametrize("words, agents, sockets", [
    ("", AGENTS, SOCKETS),
    ("--http 127.0.0.1:8080", AGENTS, f"{SOCKETS} --http 127.0.0.1:8080"),
    ("--listen 10.0.0.5:2427 --phones 127.0.0.1:0", AGENTS, "sockets: --listen 10.0.0.5:2427 --phones 127.0.0.1:0"),
    ("--agents any", "agents: --agents any\n", SOCKETS),
    ("--agents 10.0.0.7,10.1.0.0/16", "agents: --agents 10.0.0.7,10.1.0.0/16\n", SOCKETS),
])
def test_check(tmp_path: Path, words: str, agents: str, sockets: str) -> None:
    """What a gateway will be, and who may speak to it. The word may stand first."""
    ended = checked(tmp_path, text_of({}), *words.split())
    assert ended == (0, f"{CHECKED}{agents}{sockets}\n", "")
    assert ran([*command("rgwd"), "--check", f"{tmp_path}/gateway.toml", *words.split()]) == ended


def test_check_of_who_may_speak(tmp_path: Path) -> None:
    """The agent, and all hosts that are named."""
    hosts: Changes = {'"ca.example.net"': '["10.0.0.7", "10.0.0.8"]', '"other.example.net"': '["10.0.0.8", "10.0.0.6"]'}
    status, out, said = checked(tmp_path, text_of({**FAR, **hosts}))
    assert status == 0 and "warning: " in said and "\nagents: --agents 10.0.0.9,10.0.0.7,10.0.0.8,10.0.0.6\n" in out


def test_check_of_96_lines(tmp_path: Path) -> None:
    status, out, _ = checked(tmp_path, text_of({"lines": "96", "media_base": "64000"}))
    assert status == 0 and out.count("\nline ") == 96
    assert "line 96: aaln/96@rgw.example.net, ports 64760, 64762, 64764, 64766" in out.split("\n")


def test_check_writes_nothing_else(tmp_path: Path) -> None:
    status, out, said = checked(tmp_path, text_of({}), "--capture", f"{tmp_path}/capture.pcap", "--trace", "--log")
    assert (status, said, out[:8]) == (0, "", "domain: ") and not (tmp_path / "capture.pcap").exists()


@pytest.mark.parametrize("name", [it.name for it in sorted(TOP.glob("examples/*.toml")) if it.name != "agent.toml"])
def test_example(name: str) -> None:
    status, out, said = ran([*command("rgwd"), f"{TOP}/examples/{name}", "--check"])
    assert (status, said, out[:8]) == (0, "", "domain: ")


AGENT = """own = "127.0.0.1:2727"
digit_map = "(2xx|0)"
[gateways.gw1]
address = "127.0.0.1:2427"
numbers = ["201", "202"]
[gateways.gw2]
address = "127.0.0.2:2427"
numbers = ["203"]
"""
ADDRESS = "wanted an address a.b.c.d:port, with a port from 1 on"
NUMBER = "wanted 1 to 32 of 0 to 9, A to D, * and #, in quotes"
OF_AGENT: list[tuple[str, str, str, list[str]]] = [
    ("an unknown key", "digit_map", "digits", ["line 2: unknown key digits, the nearest is digit_map", "missing: digit_map"]),
    ("an unknown key of a gateway", "numbers = [\"203\"]", "number = 1",
        ['line 6: missing: gateways."gw2".numbers', 'line 8: unknown key gateways."gw2".number, the nearest is numbers']),
    ("no address", "127.0.0.1:2727", "localhost", [f'line 1: own: "localhost", {ADDRESS}']),
    ("a number for an address", '"127.0.0.1:2727"', "2727", [f"line 1: own: 2727, {ADDRESS}"]),
    ("a float for an address", '"127.0.0.1:2727"', "4.0", [f"line 1: own: 4.0, {ADDRESS}"]),
    ("a port 0", "127.0.0.1:2427", "127.0.0.1:0", [f'line 4: gateways."gw1".address: "127.0.0.1:0", {ADDRESS}']),
    ("a missing address", 'own = "127.0.0.1:2727"\n', "", ["missing: own"]),
    ("missing numbers", 'numbers = ["203"]\n', "", ['line 6: missing: gateways."gw2".numbers']),
    ("no digit map", 'digit_map = "(2xx|0)"\n', "", ["missing: digit_map"]),
    ("a wrong digit map", "(2xx|0)", "(2xx", ['line 2: digit_map: "(2xx", wanted a digit map, as "(2xx|0)"']),
    ("no domain", "gateways.gw1", 'gateways."a_b"', ['line 3: gateways."a_b", wanted 1 to 64 letters, digits, "-" and "."']),
    ("no number", '"202"', '"20x"', [f'line 5: gateways."gw1".numbers: "20x", {NUMBER}']),
    ("a number without quotes", '"202"', "202", [f'line 5: gateways."gw1".numbers: 202, {NUMBER}']),
    ("no numbers", '["203"]', "[]", ['line 8: gateways."gw2".numbers: 0, wanted 1 to 96 numbers in a list']),
    ("one number", '["203"]', '"203"', ['line 8: gateways."gw2".numbers: "203", wanted 1 to 96 numbers in a list']),
    ("a number twice", "203", "201", ['line 8: gateways."gw2".numbers: "201" stands twice']),
    ("no digit map, and an unknown key", "digit_map", "map", ["line 2: unknown key map, the nearest is digit_map", "missing: digit_map"]),
    ("an address twice", "127.0.0.2", "127.0.0.1", ['line 7: gateways."gw2".address: "127.0.0.1:2427" stands twice']),
    ("no TOML", "own =", "own ==", [f"line 1: {NO_VALUE}"]),
    ("an address without quotes", '"127.0.0.1:2727"', "127.0.0.1:2727", ['line 1: own: 127.0.0.1:2727, quote it: "127.0.0.1:2727"']),
    ("a key twice", 'digit_map = "(2xx|0)"', 'own = "127.0.0.1:2728"', ["line 2: own stands twice, first in line 1"]),
    ("a gateway twice", "gateways.gw2", "gateways.gw1", ["line 6: [gateways.gw1] stands twice, first in line 3"]),
    ("2^64", '"202"', str(2**64), [f'line 5: numbers: ["201", {2**64}], number out of range']),
]


def assert_refused_by_agent(folder: Path, text: bytes, wanted: list[str]) -> None:
    """rgca refuses a configuration in these lines."""
    path = folder / "agent.toml"
    path.write_bytes(text)
    free = ["--listen", "127.0.0.1:0", "--control", "127.0.0.1:0", "--route", "--stop-after", "0"]
    assert ran([*command("rgca"), str(path), *free]) == (2, "", "".join(f"{path}: {line}\n" for line in wanted))


@pytest.mark.parametrize("old, new, wanted", [it[1:] for it in OF_AGENT], ids=[it[0] for it in OF_AGENT])
def test_fault_of_agent(tmp_path: Path, old: str, new: str, wanted: list[str]) -> None:
    assert_refused_by_agent(tmp_path, AGENT.replace(old, new).encode(), wanted)


def test_faults_of_agent_at_once(tmp_path: Path) -> None:
    text = AGENT.replace("127.0.0.1:2727", "localhost").replace("(2xx|0)", "(2xx").replace('"202"', '"20x"').replace("127.0.0.2:2427", "b")
    assert_refused_by_agent(tmp_path, text.encode(), [
        f'line 1: own: "localhost", {ADDRESS}', 'line 2: digit_map: "(2xx", wanted a digit map, as "(2xx|0)"',
        f'line 5: gateways."gw1".numbers: "20x", {NUMBER}', f'line 7: gateways."gw2".address: "b", {ADDRESS}'])


@pytest.mark.parametrize("text, line", [
    (AGENT[: AGENT.index("[gateways.gw1]")].encode() + b"gateways = 1\n", "line 3: gateways: 1, wanted 1 to 1,024 tables"),
    (AGENT.encode() + b"# \xff\n", "line 9: no UTF-8"),
    (b"#" * 1048577, "over 1,048,576 bytes"),
], ids=["no gateways", "no UTF-8", "a byte too many"])
def test_file_of_agent(tmp_path: Path, text: bytes, line: str) -> None:
    assert_refused_by_agent(tmp_path, text, [line])
