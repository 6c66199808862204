"""A gateway and a call agent with a network between them, in the gateway's own time: 30 seconds of protocol take a millisecond.

    world = World(Gateway(CONFIG), agent)
    world.dial(1, "203")
    world.expect(line=1, signal="G/rt", within=2000)

An agent is a callable: it is given the moment, where a datagram came from and its bytes, and gives what it sends because of it, each as
bytes, which go back there, or as an address with bytes, which go to that address. One that has a time of its own has also `next_due`, a
moment or None, and `tick(moment)`, which gives the same, and behind which `next_due` is later. An agent in another process is its UDP
address, as "127.0.0.1:2727". Times are whole numbers of ms; ValueError says of any other value what may stand there.
"""

import random
import re
import socket
import tomllib
from collections.abc import Callable, Iterable
from heapq import heappop, heappush
from types import TracebackType
from typing import Protocol

from rgw.gateway import LARGEST_DATAGRAM, LONGEST_TICK, MODES, SIGNALS, Address, Gateway, Line, Message, Outcome, Output
from rgw.gateway import act_number, address_of
from rgw.numbers import HIDDEN, OutOfMemory, whole

__tracebackhide__ = HIDDEN

CONFIG = """domain = "rgw.example.net"
lines = 4
agent = "ca@ca.example.net"
restart_wait = 1
disconnected_wait = 5000
media_address = "127.0.0.1"
media_base = 3000
[names]
"ca.example.net" = "127.0.0.2"
"""
GATEWAY_AT = Address("127.0.0.1", 2427)
AGENT_AT = Address("127.0.0.2", 2727)
# A value that is longer is cut in what is told.
LONGEST_VALUE = 64
# A datagram for a UDP socket has this much room.
ROOM = 65536
# The longest time that is waited for an agent, in s.
LONGEST_PATIENCE = 60

# A signal that isn't heard at a telephone.
LAMP = "L/vmwi"

Sent = Iterable[bytes | tuple[Address, bytes]]
# What becomes of a datagram: it is given the direction, `in` to the gateway or `out` from it, the bytes, and the moment (ms); and gives the
# delays (ms) of the copies that arrive, of which there are none where it is lost.
Fate = Callable[[str, bytes, int], list[int]]


class Agent(Protocol):
    """A call agent under test."""

    def __call__(self, moment: int, source: Address, data: bytes, /) -> Sent: ...


def prompt(direction: str, data: bytes, moment: int) -> list[int]:
    """The fate of a datagram in a good network: it arrives once, at once."""
    return [0]


def share(name: str, value: object) -> float:
    """The value itself, where it is a share; else ValueError."""
    if isinstance(value, (int, float)) and 0 <= value <= 1:
        return value
    raise ValueError(f"{name} = {value!r}: a share from 0 to 1, as 0.2 for 20 of 100")


class BadNetwork:
    """Loses, copies and delays datagrams with these shares (0 to 1) and between these bounds (ms), as a seed draws it. ValueError where a
    value is no such share or bound."""

    def __init__(self, lose: float = 0.0, copy: float = 0.0, late: tuple[int, int] = (0, 0), seed: int = 1) -> None:
        self.lose, self.copy, self.seed = share("lose", lose), share("copy", copy), whole("seed", seed)
        if not isinstance(late, (tuple, list)) or len(late) != 2:
            raise ValueError(f"late = {late!r}: the least and the greatest delay in ms, as (0, 2000)")
        self.late = (whole("late[0]", late[0]), whole("late[1]", late[1], late[0]))
        self._random = random.Random(seed)

    def __repr__(self) -> str:
        return f"BadNetwork(lose={self.lose}, copy={self.copy}, late={self.late}, seed={self.seed})"

    def __call__(self, direction: str, data: bytes, moment: int) -> list[int]:
        if self._random.random() < self.lose:
            return []
        copies = 2 if self._random.random() < self.copy else 1
        return [self._random.randint(*self.late) for _ in range(copies)]


def acknowledge(moment: int, source: Address, data: bytes) -> Sent:
    """An agent that answers each command with 200 and asks for nothing."""
    words = data.split()
    return [b"200 %s OK\r\n" % words[1]] if len(words) > 1 and not words[0].isdigit() else []


class UdpAgent:
    """An agent at a UDP address. It is given so much real time, in seconds, for what it sends because of a datagram, and so often, in ms
    of the gateway's time, for what it sends by itself. The gateway's datagrams come from `gateway_at`, where the agent has to send to: any
    free port where that isn't named. ValueError where a value is none; OSError where there is no socket at that address."""

    def __init__(
        self, address: str | tuple[str, int], patience: float = 0.05, every: int = 500, gateway_at: str | tuple[str, int] = ("0.0.0.0", 0)
    ) -> None:
        self.address, self.patience, self.every = resolved(address), patience, whole("every", every, 1)
        if not isinstance(patience, (int, float)) or not 0 < patience <= LONGEST_PATIENCE:
            raise ValueError(f"patience = {patience!r}: more than 0 s, and {LONGEST_PATIENCE} s at most")
        self.next_due = 0
        self._has_sent = self._has_heard = False
        self._socket = socket.socket(socket.AF_INET, socket.SOCK_DGRAM)
        try:
            self._socket.bind(address_of(gateway_at))
        except OSError:
            self._socket.close()
            raise
        self.gateway_at = Address(*self._socket.getsockname())

    def __repr__(self) -> str:
        return f"UdpAgent('{self.address}', patience={self.patience}, every={self.every}, gateway_at='{self.gateway_at}')"

    @property
    def hint(self) -> str:
        """What may be wrong, where something was sent and nothing has come back yet; else empty."""
        if self._has_heard or not self._has_sent:
            return ""
        port = f"port {self.gateway_at.port}" if self.gateway_at.host == "0.0.0.0" else str(self.gateway_at)
        return (f"nothing has come back from {self.address}: is an agent there, does it answer to where a datagram comes from, {port} "
                f"(UdpAgent(gateway_at=..) says which), and within {self.patience} s (patience=..)?")

    def __call__(self, moment: int, source: Address, data: bytes) -> list[bytes]:
        self._socket.sendto(data, self.address)
        self._has_sent = True
        return self.tick(moment)

    def tick(self, moment: int) -> list[bytes]:
        """What it sends by itself."""
        self.next_due = moment + self.every
        self._socket.settimeout(self.patience)
        sent: list[bytes] = []
        while True:
            try:
                sent.append(self._socket.recv(ROOM))
                self._has_heard = True
            except TimeoutError:
                return sent

    def close(self) -> None:
        """Closes its socket."""
        self._socket.close()


def resolved(address: str | tuple[str, int]) -> Address:
    """The address of an agent, whose host may be a name. ValueError where there is no such host."""
    if isinstance(address, str) and ":" in address:
        host, _, port = address.rpartition(":")
        try:
            address = f"{socket.gethostbyname(host)}:{port}"
        except (OSError, UnicodeError):
            raise ValueError(f"address {address!r}: there is no host {host!r}") from None
    return address_of(address)


def agent_of(agent: Agent | str) -> Agent:
    """The agent itself, or the one at this UDP address. ValueError where it is neither."""
    if isinstance(agent, str):
        return UdpAgent(agent)
    if callable(agent):
        return agent
    raise ValueError(f"agent = {agent!r}: a callable, given (moment, source, data), or a UDP address, as 127.0.0.1:2727")


def parts_of(sent: object) -> list[bytes | tuple[Address, bytes]]:
    """What an agent sends, datagram by datagram. ValueError where it gave something else."""
    items = list(sent) if isinstance(sent, Iterable) and not isinstance(sent, (bytes, str)) else [sent]
    for item in items:
        data = item[1] if isinstance(item, tuple) and len(item) == 2 else item
        if sent is None or isinstance(sent, bytes) or not isinstance(data, bytes):
            raise ValueError(f"the agent gives {sent!r}: a list, of bytes or of an address with bytes; an empty one where it sends nothing")
    return items


class Expected:
    """What is expected of a line. ValueError where that is nothing, or can't be."""

    def __init__(self, signal: str | None, hook: str | None, connection: str | bool | None, silent: bool | None) -> None:
        self.signal, self.hook, self.connection, self.silent = signal, hook, connection, silent
        if signal is hook is connection is silent is None:
            raise ValueError("nothing is expected: signal=.., hook=.., connection=.. or silent=..")
        for name, value, known in (
            ("signal", signal, SIGNALS[1:]), ("hook", hook, ("on", "off")), ("connection", connection, (True, False, *MODES[1:])),
            ("silent", silent, (True, False)),
        ):
            if value is not None and value not in known:
                raise ValueError(f"{name} = {value!r}: one of {', '.join(map(str, known))}")

    def __str__(self) -> str:
        mode = self.connection if isinstance(self.connection, str) else ""
        connection = "no connection" if self.connection is False else self.connection and f"a connection {mode}".rstrip()
        silent = "something to hear" if self.silent is False else self.silent and "silence"
        hook = self.hook and f"its handset {self.hook} hook"
        return ", ".join(filter(None, (self.signal, hook, connection, silent)))

    def is_met(self, line: Line) -> bool:
        """Whether all of it is so at a line now."""
        names = {signal.name for signal in line.signals}
        modes = {connection.mode for connection in line.connections if connection is not None}
        is_connected = self.connection in modes if isinstance(self.connection, str) else self.connection in (None, bool(modes))
        is_signalled = self.signal is None or self.signal in names
        return is_connected and is_signalled and self.hook in (None, line.hook) and self.silent in (None, not names - {LAMP})


def state_of(line: Line) -> str:
    """What a line has, in words."""
    signals = ", ".join(signal.name for signal in line.signals) or "no signal"
    modes = ", ".join(f"a connection {connection.mode}" for connection in line.connections if connection is not None)
    return f"{signals}, its handset {line.hook} hook, {modes or 'no connection'}"


def lines_of(data: bytes) -> list[str]:
    """The lines of a text, without their ends and the blanks round them."""
    lines = data.decode("latin-1").split("\n")
    if lines[-1] == "":
        lines.pop()
    return [line.removesuffix("\r").strip(" \t") for line in lines]


def messages_of(data: bytes) -> list[list[str]]:
    """The messages of a datagram, each as its lines: a line of a single dot parts them (RFC 3435, 3.5.5)."""
    messages: list[list[str]] = [[]]
    for line in lines_of(data):
        if line == ".":
            messages.append([])
        else:
            messages[-1].append(line)
    return messages


def value_shown(value: str) -> str:
    """A value in printable ASCII, and of a long one the front."""
    front = "".join(c if " " <= c <= "~" and c != "\\" else f"\\x{ord(c):02x}" for c in value[:LONGEST_VALUE])
    return front if len(value) <= LONGEST_VALUE else front + ".."


def header_shown(lines: list[str], domain: str) -> str:
    """The header of a message, as `rgwd --log` tells it: three words, where a name lacks the gateway's own domain."""
    words = [word for word in re.split("[ \t]", lines[0]) if word][:3] if lines else []
    if len(words) == 3 and words[2].partition("@")[2].lower() == domain.lower():
        words[2] = words[2].partition("@")[0]
    return " ".join(value_shown(word) for word in words)


def shown(lines: list[str], domain: str) -> str:
    """A message in a line, as `rgwd --log` tells it: its header, and what stands in its other lines."""
    values = [header_shown(lines, domain), *(value_shown(line) for line in lines[1:])]
    return " ".join(value for value in values if value)


def fate_told(late: list[int]) -> str:
    """What a network does to a datagram, as the log notes it."""
    by = " and ".join(str(delay) for delay in late)
    return ("lost on its way", f"late by {by} ms", f"copied, late by {by} ms")[min(len(late), 2)]


def step_of(source: Address, data: bytes) -> list[str]:
    """A datagram that came, as a trace has it."""
    return [f"raw {source} {data.hex()}"] if data else [f"from {source}", "--"]


def trace_of(output: Output) -> list[str]:
    """A datagram that is sent, as a trace has it."""
    return [f"| > {output.to}", *(f"| {line}" for line in lines_of(output.data)), "| --"]


class World:
    """A gateway, an agent, and the network between them, from the gateway's moment on."""

    def __init__(
        self, gateway: Gateway, agent: Agent | str = acknowledge, network: Fate = prompt, agent_at: Address = AGENT_AT
    ) -> None:
        self.gateway, self.network, self.agent_at = gateway, network, address_of(agent_at)
        # What is closed with it: an agent that was named by its address.
        self._opened: list[UdpAgent] = []
        self._use(agent)
        self.conversation: list[str] = []
        self._trace: list[str] = []
        # What is on its way: when it arrives, which it is, by how much it is late, whether it goes to the agent, the agent's address.
        self._on_way: list[tuple[int, int, int, bool, Address, bytes]] = []
        self._count = 0
        # The command that each line sent last, 0 for the gateway's own: its id, when that was, where to, and its lines.
        self._own: dict[int | None, tuple[int, int, Address, list[str]]] = {}
        self._domain = str(tomllib.loads(gateway.config.decode())["domain"])

    def __repr__(self) -> str:
        return f"<rgw.World of {self.gateway!r} with {self._agent!r} over {self.network!r}>"

    def __enter__(self) -> "World":
        return self

    def __exit__(self, kind: type[BaseException] | None, fault: BaseException | None, trace: TracebackType | None) -> None:
        if fault is not None:
            fault.add_note(self.told())
        self.close()

    def close(self) -> None:
        """Closes the gateway, and the sockets to agents that were named by their addresses."""
        self.gateway.close()
        for agent in self._opened:
            agent.close()

    def _use(self, agent: Agent | str) -> None:
        self._agent = agent_of(agent)
        if isinstance(agent, str) and isinstance(self._agent, UdpAgent):
            self._opened.append(self._agent)

    @property
    def agent(self) -> Agent:
        """The agent under test: a callable, or the UDP address of one in another process."""
        return self._agent

    @agent.setter
    def agent(self, agent: Agent | str) -> None:
        self._use(agent)

    @property
    def now(self) -> int:
        """The moment, in ms."""
        return self.gateway.now

    def line(self, number: int) -> Line:
        """A line of the gateway, from 1."""
        return self.gateway.line(number)

    # --- What is done ---

    def phone(self, line: int, act: str) -> None:
        """An act at a telephone: `off`, `on`, `flash` or a key. What is sent because of it is on its way. One that is refused raises,
        and stands in no trace."""
        self._send([f"phone {line} {act}"], self.gateway.phone(line, act))

    def dial(self, line: int, number: str, pause: int = 200, within: int = 30_000) -> None:
        """Lifts a handset that is on hook and waits for dial tone, which has to come within so many ms; then presses keys, with a pause
        (ms) behind each."""
        if not isinstance(number, str):
            raise ValueError(f"number = {number!r}: the keys to press, as \"203\"")
        for key in number:
            act_number(key)
        if self.line(line).hook == "on":
            self.phone(line, "off")
            self.expect(line, signal="L/dl", within=within)
        for key in number:
            self.phone(line, key)
            self.run(pause)

    def say(self, data: bytes, source: Address | None = None) -> None:
        """The agent sends a datagram to the gateway."""
        if not isinstance(data, bytes):
            raise ValueError(f"data = {data!r}: bytes")
        self._say(address_of(source or self.agent_at), data)

    def run(self, by: int) -> None:
        """Lets so many ms go by."""
        end = self.now + whole("by", by)
        while not self._turn(end):
            pass

    def expect(
        self, line: int, signal: str | None = None, hook: str | None = None, within: int = 2000, *,
        connection: str | bool | None = None, silent: bool | None = None,
    ) -> None:
        """Lets time go by until a line has this signal, this hook state (`on` or `off`), a connection of this mode (True: of any, False:
        none), and is silent, or isn't: no signal is heard there. All that is named has to be so at once; it fails where that isn't within
        so many ms. ValueError where nothing is expected, or what can't be."""
        expected = Expected(signal, hook, connection, silent)
        end = self.now + whole("within", within)
        while not expected.is_met(self.line(line)):
            if self._turn(end) and not expected.is_met(self.line(line)):
                told = f"line {line} hasn't {expected} within {within} ms; at {self.now} it has {state_of(self.line(line))}"
                raise AssertionError("; ".join(filter(None, (told, self.hint))))

    @property
    def hint(self) -> str:
        """What may be wrong with an agent in another process, where nothing has come back from it; else empty."""
        return self._agent.hint if isinstance(self._agent, UdpAgent) else ""

    # --- What is told ---

    def trace(self) -> str:
        """What came to the gateway and what it sent, as `rgwd --trace` writes it: `rgwd --replay` plays it again, and compares."""
        first = [f"| first {self.gateway.first}"] if self.gateway.first else []
        return "\n".join([self.gateway.config.decode().rstrip("\n"), "%%", *first, *self._trace, ""])

    def told(self) -> str:
        """The conversation, and the trace that replays it."""
        hint = [self.hint] if self.hint else []
        return "\n".join(["the conversation:", *self.conversation, *hint, "the trace, for rgwd --replay:", self.trace()])

    # --- How time goes by ---

    def _turn(self, end: int) -> bool:
        """The next thing happens: a datagram arrives, the agent's time comes, or the clock goes on. Whether all up to the end has."""
        now, wanted, due = self.now, self._wanted(), self.gateway.next_due
        arrives = self._on_way[0][0] if self._on_way else None
        if arrives is not None and arrives <= now:
            self._arrive(*heappop(self._on_way)[2:])
        elif wanted is not None and wanted <= now:
            self._give_time(now)
        elif now >= end and (due is None or due > now):
            return True
        else:
            upcoming = min(moment for moment in (end, arrives, wanted, due) if moment is not None)
            self._tick(max(now, min(upcoming, now + LONGEST_TICK)))
        return False

    def _wanted(self) -> int | None:
        """The moment at which the agent wants its time, if it wants any."""
        wanted = getattr(self._agent, "next_due", None)
        if wanted is not None and not isinstance(wanted, int):
            raise ValueError(f"the agent's next_due = {wanted!r}: a moment, a whole number of ms, or None")
        return wanted

    def _give_time(self, now: int) -> None:
        """The agent's time has come. Behind its tick it wants its time later, or not any more: else no time would go by."""
        if not callable(getattr(self._agent, "tick", None)):
            raise ValueError("the agent has a next_due, and no tick(moment), which gives what it sends then")
        self._speak(self.agent_at, self._agent.tick(now))  # type: ignore[attr-defined]
        wanted = self._wanted()
        if wanted is not None and wanted <= now:
            raise ValueError(f"the agent's next_due = {wanted} behind its tick at {now}: a later moment, or None")

    def _fate(self, direction: str, data: bytes) -> list[int]:
        """What the network does to a datagram."""
        late = self.network(direction, data, self.now)
        if isinstance(late, list) and all(isinstance(delay, int) and delay >= 0 for delay in late):
            return late
        raise ValueError(f"the network gives {late!r}: a list of the delays of the copies that arrive, whole numbers of ms from 0")

    def _tick(self, moment: int) -> None:
        self._send([f"at {moment}"], self.gateway.tick(moment))

    def _send(self, step: list[str], outputs: list[Output]) -> None:
        """The gateway took this step: what it gave up is told, and what it sends because of it goes into the network."""
        self._trace += step
        for command in self.gateway.given_up:
            if command.line in self._own:
                _, _, to, lines = self._own[command.line]
                self._tell(to, "!", f"given up: {header_shown(lines, self._domain)}")
        labels = iter(self.gateway.messages if outputs else ())
        for output in outputs:
            self._trace += trace_of(output)
            for message, label in zip(messages_of(output.data), labels):
                self._tell_sent(label, message)
            late = self._fate("out", output.data)
            if late != [0]:
                self._tell(output.to, "!", fate_told(late))
            self._go(late, True, output.to, output.data)

    def _tell_sent(self, label: Message, message: list[str]) -> None:
        if label.what == "again":
            self._tell(label.to, "!", f"repeat of {label.id}, answered again")
        elif label.what == "resent":
            self._tell(label.to, "!", f"repeat of {label.id}, no answer yet")
        else:
            # An answer goes out at the moment at which its command came.
            waited = " +0 ms" if label.what == "answer" else ""
            self._tell(label.to, "<", shown(message, self._domain) + waited)
        if label.what == "command":
            self._own[label.line] = (label.id, self.now, label.to, message)

    def _say(self, own: Address, data: bytes) -> None:
        """A datagram goes from the agent into the network. It is told when it arrives, or where it is lost."""
        late = self._fate("in", data)
        if not late:
            self._tell_untaken(own, data, fate_told(late))
        self._go(late, False, own, data)

    def _go(self, late: list[int], is_to_agent: bool, peer: Address, data: bytes) -> None:
        for delay in late:
            self._count += 1
            heappush(self._on_way, (self.now + delay, self._count, delay, is_to_agent, peer, data))

    def _arrive(self, delay: int, is_to_agent: bool, peer: Address, data: bytes) -> None:
        if is_to_agent:
            self._speak(peer, self.agent(self.now, GATEWAY_AT, data))
            return
        try:
            outputs = self.gateway.datagram(peer, data)
        except OutOfMemory:
            self._tell_untaken(peer, data, "out of memory, nothing was done")
            return
        outcomes = self.gateway.outcomes
        self._tell_come(peer, data, outcomes)
        if delay:
            self._tell(peer, "!", fate_told([delay]))
        self._send(step_of(peer, data), outputs)
        for outcome in outcomes:
            if outcome.note:
                self._tell(peer, "!", outcome.note)

    def _tell_untaken(self, peer: Address, data: bytes, why: str) -> None:
        for message in messages_of(data):
            self._tell(peer, ">", shown(message, self._domain))
        self._tell(peer, "!", why)

    def _tell_come(self, peer: Address, data: bytes, outcomes: list[Outcome]) -> None:
        if len(data) > LARGEST_DATAGRAM:
            # Of a longer one no more is read.
            self._tell(peer, "!", f"too long: {LARGEST_DATAGRAM + 1} bytes or more")
        for message, outcome in zip(messages_of(data), outcomes):
            if outcome.came == "no message":
                self._tell(peer, "!", outcome.came)
            else:
                waited = self._waited(message) if outcome.came == "response" else ""
                self._tell(peer, ">", shown(message, self._domain) + waited)

    def _waited(self, message: list[str]) -> str:
        """How long the command waited that this response answers, where that is what its line sent last."""
        id = int(next(line for line in message if line).split()[1])
        sent = [moment for own, moment, _, _ in self._own.values() if own == id]
        return f" +{self.now - sent[0]} ms" if sent else ""

    def _speak(self, own: Address, sent: Sent) -> None:
        for item in parts_of(sent):
            to, data = (GATEWAY_AT, item) if isinstance(item, bytes) else item
            if to == GATEWAY_AT:
                self._say(own, data)
            else:
                self._tell(address_of(to), "!", "no gateway is there")

    def _tell(self, peer: Address, mark: str, text: str) -> None:
        self.conversation.append(f"{self.now:>9} {peer} {mark} {text}")
