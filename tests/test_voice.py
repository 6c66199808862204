"""Calls between the telephones of two gateways, at which voice/voice speaks and listens, judged by what was heard.

In each recording of a call the other line's tone must be heard from when both ends are connected, and by a Fourier transform nothing
besides; nothing of it before an end receives and the other sends, nor later than 200 ms after that is on hook. AGENT="COMMAND" starts
another call agent, as for tests/test_calls.py. It wants what voice/voice does, and takes some six minutes, one test at a time (`-n 0`). A
machine that does much else holds up who speaks, whatever the programs do: start it there by `nice -n -15`.
"""
import concurrent.futures
import contextlib
import json
import os
import random
import re
import shlex
import signal
import socket
import sys
import threading
import time
import wave
from collections.abc import Callable, Iterator, Sequence
from pathlib import Path
from typing import Any

import pytest
from exchange import BAD_NETWORK, Exchange, Relays
from listening import (HEARD, LOUD, RATE, SETTLES, WINDOW, Call, Heard, Report, both_hear, busy_faults, faults_of, hears_all, is_signal,
                       loudness, now, np, samples_of, sounds)
from rgw_bench import mgcp
from rgw_bench.phones import Phone, Phones, Unexpected, side_by_side
from running import TOP, Address, Bench, Program, client, command, ran, until

pytestmark = pytest.mark.live

VOICE = f"{TOP}/voice/voice"
SMALL_AGENT = f"{TOP}/tools/small_agent"
# A change has taken place after so many ms, by how exactly moments are known; and each step of `test_modes` lasts so many seconds.
CHANGED, STEP = 130, 0.8
# What is heard by way of a conference is known later by so much besides, in ms: it waits so long there for pieces that come late.
MIXED = 60
# No change takes longer, and the jitter of a connection stays below, in ms.
SLOWEST, JITTER = 100, 20
# Who speaks ends within so many seconds.
LONGEST_END = 30
# Who sleeps for so long, in s, and wakes later by more than that, was held up.
ASLEEP, HELD_UP = 0.01, 0.1
# The lowest port of a gateway's media. What a line says: a frequency of a file, with how many samples a second that has, and one by name.
MEDIA, FILED, FILE_RATE, NAMED = 3000, 1000, 16000, 1234


@pytest.fixture(autouse=True)
def stalls() -> Iterator[None]:
    """Tells of a test that fails how long this machine held up what was due: then who speaks is late too."""
    over, late = threading.Event(), [0.0]

    def watch() -> None:
        begun = time.monotonic()
        while not over.wait(ASLEEP):
            late.append(time.monotonic() - begun - ASLEEP)
            begun = time.monotonic()

    watching = threading.Thread(target=watch)
    watching.start()
    yield
    over.set()
    watching.join()
    print(f"this machine held up what was due {sum(it > HELD_UP for it in late)} times, by {1000 * max(late):.0f} ms at most")


class Speakers:
    """Who speaks at the telephones of two gateways, up to their report."""

    def __init__(self, bench: Bench, gateways: Sequence[Program], sources: Sequence[str] = ()):
        self.bench, self.gateways, self.sources = bench, list(gateways), sources
        self.phones = Phones(self.places())
        self.begin()

    def places(self) -> dict[str, Address]:
        return {f"gw{place}": it.addresses[1] for place, it in enumerate(self.gateways, 1)}

    def begin(self, fronts: Sequence[Address] = ()) -> None:
        """Who speaks at the telephones: at the gateways' own, or at these, of relays before them."""
        places = dict(zip(self.places(), fronts)) if fronts else self.places()
        words = [VOICE, *(f"{name}=%s:%d" % place for name, place in places.items())]
        # The pages of gateways are found, but for those behind relays.
        for name, it in zip(places, self.gateways) if fronts else ():
            words += ["--page", f"{name}=%s:%d" % it.addresses[2]]
        for source in self.sources:
            words += ["--source", source]
        folder = self.bench.folder
        self.voice = self.bench.start([*words, "--record", str(folder), "--report", f"{folder}/report.json", "--log"])
        assert until(lambda: self.voice.logged().count(" is watched at ") == len(self.gateways)), self.voice.logged()

    def end_voice(self, number: signal.Signals = signal.SIGTERM) -> None:
        self.voice.process.send_signal(number)
        assert self.voice.wait(LONGEST_END) == 0, self.voice.logged()

    def end(self, number: signal.Signals = signal.SIGTERM) -> Report:
        """The report: all end in order."""
        self.end_voice(number)
        self.phones.close()
        for it in self.gateways:
            assert it.stop()[2] == 0
        report: Report = json.loads((self.bench.folder / "report.json").read_text())
        return report

    def side(self, place: int) -> list[Phone]:
        """The telephones of a gateway."""
        return [it for it in self.phones if it.gateway.name == f"gw{place}"]


class Spoken(Exchange):
    """Two gateways and their call agent, with who speaks at their telephones."""

    def __init__(self, bench: Bench, lines: int, network: str = ""):
        super().__init__(bench, lines, network)
        self.speakers = Speakers(bench, self.gateways)
        self.near, self.far = self.speakers.side(1), self.speakers.side(2)

    def gateway(self, bench: Bench, place: int, agent: int, network: str) -> Program:
        return gateway(bench, place, self.lines, agent, "--network", network) if network else gateway(bench, place, self.lines, agent)

    def is_set_up(self, call: Call, longest: float = 5) -> bool:
        """Whether both ends are connected within so many seconds for each step."""
        one, other = call.one, call.other
        try:
            one.off().expect("L/dl", within=longest).dial(self.numbers()[other.name], 0.06)
            other.expect("L/rg", within=longest)
            time.sleep(0.3)
            other.off()
            side_by_side(*(lambda it=it: it.expect("sendrecv", within=longest) for it in (one, other)))
        except Unexpected as fault:
            print(fault)
            return False
        return True

    def talk(self, one: Phone, other: Phone, seconds: float, longest: float = 5) -> Call:
        """Plays a call of so many seconds, until both lines are at rest."""
        call = Call(one, other)
        call.is_connected = self.is_set_up(call, longest)
        time.sleep(seconds if call.is_connected else 0)
        call.hung_up = hung_up(one)
        time.sleep(1 if call.is_connected else 0)
        call.ended = hung_up(other)
        for it in (one, other):
            it.expect("silent", within=max(longest, 20))
        return call

    def asks_for_busy(self, one: Phone, other: Phone) -> Call:
        """Calls a line that is lifted, whose handset isn't in the call."""
        call = Call(one, other)
        other.off().expect("L/dl", within=5)
        one.off().expect("L/dl", within=5).dial(self.numbers()[other.name], 0.06)
        one.expect("L/bz", within=5)
        time.sleep(3)
        call.hung_up, call.ended = hung_up(one), hung_up(other)
        for it in (one, other):
            it.expect("silent", within=20)
        return call

    def played(self, pairs: Sequence[tuple[Phone, Phone]], seconds: float, longest: float = 5) -> list[Call]:
        """Calls between these telephones at once."""
        with concurrent.futures.ThreadPoolExecutor(len(pairs)) as pool:
            return list(pool.map(lambda pair: self.talk(pair[0], pair[1], seconds, longest), pairs))


def gateway(bench: Bench, place: int, lines: int, agent: int, *words: str, at: Sequence[Address] = ()) -> Program:
    """A gateway with a page, whose agent is at this port; at the addresses that another one had, or at free ones."""
    host = f"127.0.0.{place}"
    config = bench.config(agent, f"gw{place}.toml", f"gw{place}.example.net", lines, host)
    places = [f"{it[0]}:{it[1]}" for it in at] or [f"{host}:0", f"{host}:0", "127.0.0.1:0"]
    named = [it for pair in zip(("--listen", "--phones", "--http"), places) for it in pair]
    return bench.start([*command("rgwd"), config, *named, "--log", *words])


def hung_up(phone: Phone) -> float:
    """Puts the handset back, if it is lifted: when that was."""
    if phone.hook == "off":
        phone.on()
    return now()


def assert_heard(report: Report, calls: Sequence[Call], busy: Sequence[Call] = ()) -> None:
    """In each call both ends hear each other, and nothing besides; in others busy tone; and changes take place soon."""
    assert [fault for call in calls for fault in faults_of(report, call)] == []
    assert [fault for call in busy for fault in busy_faults(report, call)] == []
    assert max((it["slowest_change"] for it in report["connections"]), default=0) < SLOWEST


# Calls


@pytest.fixture(params=["rgca", "small_agent"])
def agent(request: pytest.FixtureRequest, monkeypatch: pytest.MonkeyPatch) -> None:
    """The call agent: that of AGENT, or rgca; and tools/small_agent."""
    if request.param == "small_agent":
        monkeypatch.setenv("AGENT", f"{shlex.quote(sys.executable)} {SMALL_AGENT} {{config}}")


@pytest.mark.usefixtures("agent")
def test_calls(bench: Bench) -> None:
    """One after the other and two at once; who calls a line in use hears busy tone by its cadence."""
    spoken = Spoken(bench, 4)
    near, far = spoken.near, spoken.far
    calls = spoken.played([(near[0], far[0])], 1.5)
    calls += spoken.played([(near[0], far[1]), (far[2], near[3])], 1.5)
    calls += spoken.played([(near[1], near[2])], 1.5)
    assert all(call.is_connected for call in calls)
    busy = spoken.asks_for_busy(near[0], far[0])
    assert_heard(spoken.speakers.end(), calls, [busy])


@pytest.mark.usefixtures("agent")
def test_bad_network(bench: Bench) -> None:
    """Of calls over a bad network most are connected, and those are judged."""
    spoken = Spoken(bench, 6, BAD_NETWORK)
    draw = random.Random(1)
    calls = []
    for _ in range(2):
        pairs = list(zip(draw.sample(spoken.near, 6), draw.sample(spoken.far, 6)))
        calls += spoken.played(pairs, 2, 60)
    connected = [call for call in calls if call.is_connected]
    assert len(connected) * 2 > len(calls)
    assert_heard(spoken.speakers.end(), connected)


def mistaken(folder: Path) -> str:
    """The command of tools/small_agent with a mistake: it leads a caller to the end of another call, if there is one."""
    text = Path(SMALL_AGENT).read_text()
    right = 'caller.wants = Connection(call, "sendrecv", call.descriptions[called])'
    wrong = (
        "others = [it.call for it in self.by_number.values() if it.call and it.call is not call]\n"
        "            strange = [it.descriptions[it.called] for it in others if it.called in it.descriptions]\n"
        '            caller.wants = Connection(call, "sendrecv", (strange or [call.descriptions[called]])[0])'
    )
    assert text.count(right) == 1
    (folder / "mistaken_agent").write_text(text.replace(right, wrong))
    return f"{shlex.quote(sys.executable)} {shlex.quote(str(folder / 'mistaken_agent'))} {{config}}"


def test_an_agent_that_joins_the_wrong_ends_is_found(bench: Bench, monkeypatch: pytest.MonkeyPatch) -> None:
    """The second caller is led to the end that the first call reached: there its tone is heard besides, and judged to be a third one."""
    monkeypatch.setenv("AGENT", mistaken(bench.folder))
    spoken = Spoken(bench, 2)
    near, far = spoken.near, spoken.far
    with concurrent.futures.ThreadPoolExecutor(2) as pool:
        first = pool.submit(spoken.talk, near[0], far[0], 4)
        time.sleep(2)
        second = pool.submit(spoken.talk, near[1], far[1], 1.5)
        calls = [first.result(), second.result()]
    report = spoken.speakers.end()
    strange = Heard(report, far[0], calls[0])
    assert strange.is_one and len(strange.times(report["tones"][near[1].name])) >= RATE // WINDOW // 4
    faults = [fault for call in calls for fault in faults_of(report, call)]
    assert any(it.startswith(f"{far[0].name} called by {near[0].name}: a third tone") for it in faults), faults


def test_32_lines_talk_for_a_minute(bench: Bench) -> None:
    """No packet is lost, and jitter stays small."""
    spoken = Spoken(bench, 16)
    calls = spoken.played(list(zip(spoken.near, spoken.far)), 60, 20)
    assert all(call.is_connected for call in calls)
    span, used = (now() - min(call.begun for call in calls)) / 1000, spoken.speakers.voice.spent()
    report = spoken.speakers.end()
    connections = report["connections"]
    jitter = max(it["jitter"] for it in connections)
    print(f"{sum(it['received'] for it in connections)} packets, jitter {jitter:.2f} ms at most, {100 * used / span:.0f}% of a processor, "
          f"the latest turn {report['latest_turn']} ms late")
    assert_heard(report, calls)
    assert sum(it["lost"] + it["late"] for it in connections) == 0 and min(it["received"] for it in connections) >= 60 * 49
    assert jitter < JITTER


# What who speaks is told late, or not at all


def test_late(bench: Bench, relay: Relays) -> None:
    """voice/voice begins beside a call that stands; what it is told is lost for a while; a gateway pauses, is killed and started again."""
    spoken = Spoken(bench, 3)
    speakers, near, far = spoken.speakers, spoken.near, spoken.far
    calls = [Call(one, other) for one, other in zip(near, far)]
    spans: list[tuple[Call, float, float]] = []

    def hear(call: Call, seconds: float) -> None:
        """After so many seconds both ends of a call have to hear each other."""
        begun = now() + 1000 * seconds
        time.sleep(seconds + STEP)
        spans.append((call, begun, now()))

    assert spoken.is_set_up(calls[0])
    speakers.end_voice()
    loses = threading.Event()
    fronts = relays_before(speakers, relay, loses)
    calls[0].begun = now()
    speakers.begin(fronts)
    # A call that stands is heard of from the page.
    hear(calls[0], 0.3)
    loses.set()
    calls[1].begun = now()
    assert spoken.is_set_up(calls[1])
    loses.clear()
    # The next change tells that some are missing; so what was lost is asked for, and the first call goes on.
    far[2].off()
    hear(calls[1], 0.3)
    hear(calls[0], 0.3)
    far[2].on()
    paused = spoken.gateways[1].process
    paused.send_signal(signal.SIGSTOP)
    time.sleep(3)
    paused.send_signal(signal.SIGCONT)
    hear(calls[0], 1)
    begun_again(bench, spoken, calls[:2])
    calls[2].begun = now()
    assert spoken.is_set_up(calls[2])
    hear(calls[2], 0.3)
    calls[2].ended = now()
    report = speakers.end()
    assert [both_hear(report, *it) for it in spans] == len(spans) * [True]
    assert all(Heard(report, it, calls[0]).is_one for it in (near[0], far[0]))


def relays_before(speakers: Speakers, relay: Relays, loses: threading.Event) -> list[Address]:
    """Relays before the telephones: that of the second gateway loses changes while `loses` is set."""
    fronts = []
    for place in speakers.places().values():
        held = [client(), client()]
        front, home = (it.getsockname() for it in held)
        for it in held:
            it.close()
        is_last = place == speakers.gateways[1].addresses[1]
        fate = (lambda data, _: () if loses.is_set() and data.startswith(b"change") else (0.0,)) if is_last else (lambda *_: (0.0,))
        relay({front: place}, home, outward=fate)
        fronts.append(front)
    return fronts


def begun_again(bench: Bench, spoken: Spoken, calls: Sequence[Call]) -> None:
    """The second gateway is killed, and starts anew; these calls, which it had a part in, end. The agent asks its lines anew, and who
    watches hears of another life."""
    old = spoken.gateways[1]
    old.process.kill()
    old.wait()
    for call in calls:
        call.one.on()
        call.ended = now()
    agent = int(re.search(r"@\[127\.0\.0\.1\]:(\d+)", (bench.folder / "gw2.toml").read_text())[1])  # type: ignore[index]
    spoken.gateways[1] = spoken.speakers.gateways[1] = gateway(bench, 2, spoken.lines, agent, at=old.addresses)
    assert until(spoken.is_asked_for, 60)
    time.sleep(3)


# Connections by hand


class Asker(threading.Thread):
    """A call agent that only asks for what it is told to. Whatever is notified or announced is fine."""

    def __init__(self) -> None:
        super().__init__(daemon=True)
        self.socket = client(seconds=0.2)
        self.port: int = self.socket.getsockname()[1]
        self.answers: dict[int, mgcp.Message] = {}
        self.ids, self.is_open = iter(range(1001, 9999)), True
        self.start()

    def run(self) -> None:
        while self.is_open:
            with contextlib.suppress(TimeoutError):
                told, source = self.socket.recvfrom(65536)
                for it in mgcp.messages(told):
                    assert isinstance(it, mgcp.Message)
                    if it.is_response:
                        self.answers[it.id] = it
                    else:
                        self.socket.sendto(mgcp.response(200, it.id), source)

    def ask(self, program: Program, verb: str, endpoint: str, params: Sequence[tuple[str, object]], sdp: str = "") -> mgcp.Message:
        """A command's answer. One that is refused since the gateway waits for the answer to its announcement is asked anew."""
        for number in self.ids:
            def is_answered() -> bool:
                self.socket.sendto(mgcp.command(verb, number, endpoint, params, sdp), program.address)
                return until(lambda: number in self.answers, 0.05)

            assert until(is_answered), f"{verb} {number} isn't answered"
            if self.answers[number].code != 405:
                break
            time.sleep(0.3)
        answer = self.answers[number]
        assert str(answer.code).startswith("2"), answer.raw
        return answer

    def close(self) -> None:
        self.is_open = False
        self.join()
        self.socket.close()


class Asked:
    """Two gateways whose agent the test is, with who speaks at their telephones."""

    def __init__(self, bench: Bench, lines: int, sources: Sequence[str] = ()):
        self.asker = Asker()
        self.gateways = [gateway(bench, place, lines, self.asker.port) for place in (1, 2)]
        self.speakers = Speakers(bench, self.gateways, sources)
        self.near, self.far = self.speakers.side(1), self.speakers.side(2)

    def ask(self, phone: Phone, verb: str, params: Sequence[tuple[str, object]], sdp: str = "") -> mgcp.Message:
        """A command to a line, and its answer."""
        place = int(phone.gateway.name[2:])
        return self.asker.ask(self.gateways[place - 1], verb, f"aaln/{phone.number}@gw{place}.example.net", params, sdp)

    def joined(self, one: Phone, other: Phone) -> tuple["End", "End"]:
        """Both lines are lifted and talk."""
        for it in (one, other):
            it.off()
        a = End(self, one, "recvonly")
        b = End(self, other, "sendrecv", a)
        a.change(("M", "sendrecv"), other=b)
        return a, b


@pytest.fixture
def asked(bench: Bench) -> Iterator[Callable[..., Asked]]:
    """Starts two gateways whose agent the test is."""
    made: list[Asked] = []

    def start(*words: Any, **more: Any) -> Asked:
        made.append(Asked(bench, *words, **more))
        return made[-1]

    yield start
    for it in made:
        it.asker.close()


class End:
    """A connection of a line, which commands make and change."""

    def __init__(self, asked: Asked, phone: Phone, mode: str, other: "End | None" = None):
        self.asked, self.phone = asked, phone
        answer = asked.ask(phone, "CRCX", [("C", "A1"), ("M", mode)], other.description if other else "")
        self.name = answer["I"]
        self.description: str = answer.sdp[0]

    def change(self, *params: tuple[str, object], other: "End | None" = None) -> None:
        named = [("C", "A1"), ("I", self.name), *params]
        self.asked.ask(self.phone, "MDCX", named, other.description if other else "")

    def delete(self) -> None:
        self.asked.ask(self.phone, "DLCX", [("C", "A1"), ("I", self.name)])


def test_tones_are_those_that_the_page_plays() -> None:
    rows = re.findall(r'"(./..)": \{ hertz: \[(.+?)\], sound: ([0-9.]+), silence: ([0-9.]+)(?:, times: ([0-9]+))? \}',
                      (TOP / "page/tones.js").read_text())
    page = {
        name: sounds.Cadence(tuple(map(int, hertz.split(", "))), float(sound), float(silence), int(times) if times else None)
        for name, hertz, sound, silence, times in rows
    }
    assert page == sounds.SIGNALS


def test_signals(asked: Callable[..., Asked]) -> None:
    """A lifted handset hears each of these by its cadence."""
    its = asked(1)
    phone = its.near[0]
    call = Call(phone, phone)
    phone.off()
    for name, cadence in sounds.SIGNALS.items():
        its.ask(phone, "RQNT", [("X", 1), ("S", name)])
        time.sleep((cadence.times or 1) * (cadence.sound + cadence.silence) + STEP)
    call.ended = now()
    phone.on()
    time.sleep(0.3)
    heard = Heard(its.speakers.end(), phone, call)
    spans = {name: heard.signals(name) for name in sounds.SIGNALS}
    assert heard.is_one and {name: len(its) for name, its in spans.items()} == dict.fromkeys(spans, 1)
    assert [name for name, (span,) in spans.items() if not is_signal(heard.between(*span), name)] == []


def test_sources(asked: Callable[..., Asked], tmp_path: Path) -> None:
    """A line says a WAV file over and over, which has two channels and other samples a second than a codec; another one a frequency."""
    tone = 0.3 * sounds.LOUDEST * np.sin(2 * np.pi * FILED * np.arange(FILE_RATE) / FILE_RATE)
    with wave.open(f"{tmp_path}/source.wav", "wb") as file:
        file.setnchannels(2)
        file.setsampwidth(2)
        file.setframerate(FILE_RATE)
        file.writeframes(np.repeat(tone, 2).astype("<i2").tobytes())
    its = asked(1, [f"gw1:1={tmp_path}/source.wav", f"gw2:1={NAMED}"])
    one, other = its.near[0], its.far[0]
    call = Call(one, other)
    its.joined(one, other)
    begun = now() + SETTLES
    time.sleep(1.5 + SETTLES / 1000)
    call.ended = now()
    for it in (one, other):
        it.on()
    report = its.speakers.end()
    # (where it comes round it doesn't fit to the sample)
    assert hears_all(report, other, call, begun, FILED, HEARD)
    assert hears_all(report, one, call, begun, NAMED)


def test_packages_that_are_not_there_are_told_by_name(tmp_path: Path) -> None:
    """GStreamer without its plugins."""
    bare = {"GST_PLUGIN_SYSTEM_PATH_1_0": f"{tmp_path}/none", "GST_PLUGIN_PATH_1_0": "", "GST_REGISTRY_1_0": f"{tmp_path}/registry"}
    status, _, said = ran([VOICE, "gw1=127.0.0.1:9"], env={**os.environ, **bare})
    assert status == 3 and "apt-get install" in said
    assert all(f" gstreamer1.0-plugins-{it}" in said for it in ("base", "good"))


def test_port_that_another_program_has(asked: Callable[..., Asked]) -> None:
    """It is told with the line; once it is free both hear each other; and amid the call SIGINT leaves files that are whole."""
    its = asked(1)
    one, other = its.near[0], its.far[0]
    call = Call(one, other)
    with socket.socket(socket.AF_INET, socket.SOCK_DGRAM) as held:
        held.bind(("127.0.0.1", MEDIA))
        its.joined(one, other)
        told = rf"gw1:1 connection \w+: no socket at 127\.0\.0\.1:{MEDIA}: .*; it is tried again each second"
        assert until(lambda: re.search(told, its.speakers.voice.logged()), 5), its.speakers.voice.logged()
    # It is tried again each second, or at the next look after that.
    time.sleep(2.5)
    begun = now()
    time.sleep(1.5)
    call.ended = now()
    report = its.speakers.end(signal.SIGINT)
    assert all(hears_all(report, mine, call, begun, report["tones"][his.name]) for mine, his in ((one, other), (other, one)))
    sizes = [(os.path.getsize(it["file"]), 2 * len(samples_of(it["file"]))) for it in report["calls"]]
    assert len(sizes) == 2 and all(size > have > 2 * RATE and size - have < 100 for size, have in sizes), sizes


class Steps:
    """What each line has to hear after each change."""

    def __init__(self, **phones: Phone):
        self.phones = phones
        self.steps: list[tuple[str, float, float, dict[str, set[str]], str, int]] = []

    def take(self, what: str, anew: str = "", mixed: int = 0, **heard: str) -> None:
        """Since now these lines hear these others, as `11 21`, all others nobody. What was heard before goes on, but at the line `anew`."""
        begun = now()
        time.sleep(STEP)
        names = {name: {f"gw{other[0]}:{other[1]}" for other in heard.get(name, "").split()} for name in self.phones}
        self.steps.append((what, begun, now(), names, anew, mixed))

    def faults(self, report: Report, call: Call) -> Iterator[str]:
        """Each line that, after a change, hears another one that it shouldn't, or doesn't hear one that it should."""
        for name, phone in self.phones.items():
            its, before = Heard(report, phone, call), set[str]()
            for what, begun, end, names, anew, mixed in self.steps:
                wanted = names[name]
                for other, hertz in report["tones"].items():
                    # (what was heard before is heard while it changes)
                    is_kept = other in before & wanted and anew != name
                    loud = loudness(its.between(begun - 200 if is_kept else begun + CHANGED + mixed, end), hertz)
                    if not len(loud) or ((loud < LOUD).any() if other in wanted else (loud > HEARD).any()):
                        yield f"{what}: {phone.name} has to hear {', '.join(sorted(wanted)) or 'nobody'}, and {other} it doesn't so"
                before = wanted


def modes_of_two(a: End, b: End, steps: Steps) -> None:
    """Each mode, and another codec and packet time, of a connection between lines one and two."""
    a.change(("M", "sendrecv"), other=b)
    steps.take("sendrecv", one="21", two="11")
    a.change(("M", "sendonly"))
    steps.take("sendonly", two="11")
    a.change(("M", "recvonly"))
    steps.take("recvonly", one="21")
    a.change(("M", "inactive"))
    steps.take("inactive")
    a.change(("M", "sendrecv"))
    steps.take("sendrecv again", one="21", two="11")
    a.change(("L", "a:PCMA"))
    steps.take("another codec", one="21", two="11")
    a.change(("L", "p:10, a:PCMA"))
    steps.take("another packet time", one="21", two="11")


def test_modes(asked: Callable[..., Asked]) -> None:
    """Each mode, another codec, another end, a conference and a key: what changes does so within 100 ms, what stays goes on."""
    its = asked(2)
    (one, four), (two, three) = its.near, its.far
    call = Call(one, two)
    for phone in (one, two, three, four):
        phone.off()
    steps = Steps(one=one, two=two, three=three, four=four)
    a = End(its, one, "recvonly")
    b = End(its, two, "sendrecv", a)
    modes_of_two(a, b, steps)
    c = End(its, three, "recvonly", a)
    a.change(("M", "sendrecv"), other=c)
    steps.take("another end", one="21", three="11")
    a.change(("M", "confrnce"), other=b)
    d = End(its, one, "confrnce", c)
    c.change(("M", "sendrecv"), other=d)
    steps.take("a conference", anew="three", mixed=MIXED, one="21 22", two="11 22", three="11 21")
    e = End(its, four, "recvonly")
    f = End(its, one, "confrnce", e)
    e.change(("M", "sendrecv"), other=f)
    steps.take("a conference of four", mixed=MIXED, one="12 21 22", two="11 12 22", three="11 12 21", four="11 21 22")
    for end in (a, d, f):
        end.change(("M", "sendrecv"))
    steps.take("no conference", one="12 21 22", two="11", three="11", four="11")
    one.key("5")
    pressed = now()
    time.sleep(STEP)
    call.ended = now()
    for end in (a, b, c, d, e, f):
        end.delete()
    time.sleep(0.3)
    for phone in (one, two, three, four):
        phone.on()
    report = its.speakers.end()
    assert list(steps.faults(report, call)) == []
    heard = Heard(report, two, call).between(pressed, call.ended)
    is_key = np.all([loudness(heard, hertz) > LOUD for hertz in sounds.KEYS["5"]], axis=0)
    assert 1 <= is_key.sum() <= 3
    assert max(it["slowest_change"] for it in report["connections"]) < SLOWEST
