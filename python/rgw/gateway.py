"""A gateway."""

import threading
from ctypes import byref, c_size_t, c_uint16, c_uint32, c_uint64, create_string_buffer
from dataclasses import dataclass
from socket import AF_INET, inet_aton, inet_ntoa, inet_pton
from types import TracebackType
from typing import NamedTuple, cast

from rgw.codes import WORDS
from rgw.library import CALLS, ConnectionInfo, GivenUpInfo, Handle, MessageInfo, OutcomeInfo, OutputInfo, SignalInfo
from rgw.numbers import HIDDEN, BadValue, Closed, ConfigFault, EventRefused, Number, raised, whole

__tracebackhide__ = HIDDEN

# The acts that are no key, by the words of scripts, and the keys.
ACTS = {"off": 1, "on": 2, "flash": 3}
KEYS = "0123456789*#ABCD"
SIGNALS = ("", "L/dl", "L/bz", "L/ro", "L/rg", "L/rs", "L/vmwi", "G/rt", "G/cg", "G/cf")
MODES = ("", "sendonly", "recvonly", "sendrecv", "confrnce", "inactive")
VERBS = ("", "EPCF", "RQNT", "NTFY", "CRCX", "MDCX", "DLCX", "AUEP", "AUCX", "RSIP")
WHATS = ("", "answer", "again", "command", "resent", "acknowledgement")
CAMES = ("", "no message", "command", "response")
GOTS = ("nothing", "answer", "again", "silence", "no room", "acknowledgement")
# What of a command is at fault, before the number of its parameter line or the letter of its parameter.
FAULTS = ("", "verb", "endpoint name", "parameter line ", "missing parameter ", "value of parameter ", "remote description")
LINE_FAULT = 3
# The least return code that refuses a command, and that of one which comes before the gateway serves, where nothing of it is at fault
# (RFC 3435, 2.4).
LEAST_REFUSAL = 400
NOT_READY = 405
# So many commands are remembered, and so long a datagram is taken.
MOST_COMMANDS = 4096
LARGEST_DATAGRAM = 4000
PLACES = 4
# The longest tick, in ms.
LONGEST_TICK = 1000
# The greatest number with which ids may begin.
MOST_FIRST = 9_999_998
MOST_PORT = 65_535
# So long a datagram that is sent may be before it is asked for twice.
ROOM = 4096


class Address(NamedTuple):
    """An IPv4 address and a port."""

    host: str
    port: int

    def __str__(self) -> str:
        return f"{self.host}:{self.port}"


@dataclass(frozen=True, slots=True)
class Output:
    """A datagram that the gateway sends: when (in ms), where to, and its bytes."""

    moment: int
    to: Address
    data: bytes


@dataclass(frozen=True, slots=True)
class Message:
    """A message that was sent: when, where to, its transaction id; of which line it is, where 0 is the gateway's own and None that it
    belongs to none; what it is (a word of WHATS); an answer's return code; a command's verb; and which send of it this is."""

    moment: int
    to: Address
    id: int
    line: int | None
    what: str
    code: int
    verb: str
    send: int


@dataclass(frozen=True, slots=True)
class Outcome:
    """What a text was that came (a word of CAMES), and what it got (a word of GOTS); of a command its transaction id, its verb where that
    could be read, the return code of its answer (else 0), and what of it is at fault, where that is known, as "value of parameter R"."""

    came: str
    got: str
    id: int
    verb: str
    code: int
    fault: str

    @property
    def note(self) -> str:
        """What `rgwd --log` notes behind what was sent: why the command was refused, or wasn't answered; empty where nothing is noted."""
        if self.got == "silence":
            return f"repeat of {self.id}, confirmed, not answered"
        if self.got == "no room":
            return f"lost: {MOST_COMMANDS:,} commands are young"
        if self.got != "answer" or self.code < LEAST_REFUSAL:
            return ""
        words = WORDS.get(self.code, "")
        if self.fault and self.code != NOT_READY:
            return f"refused {self.id}: {self.code} {words}: {self.fault}"
        return f"refused {self.id}: {self.code} {words}".rstrip()


@dataclass(frozen=True, slots=True)
class GivenUp:
    """A command of the gateway's own that was given up, since nobody answered it: when, its transaction id, its line, where 0 is the
    gateway itself, and its verb."""

    moment: int
    id: int
    line: int
    verb: str


@dataclass(frozen=True, slots=True)
class Signal:
    """An active signal, and the moment at which it ends; None where no time ends it."""

    name: str
    end: int | None


@dataclass(frozen=True, slots=True)
class Connection:
    """A connection: its number and mode, where it receives and sends (None while that isn't known), the time of a packet in ms, and the
    payload types in force."""

    number: int
    mode: str
    local: Address
    remote: Address | None
    packet_time: int
    payloads: tuple[int, ...]


def address_of(source: str | tuple[str, int]) -> Address:
    """The address that a text, as "10.0.0.1:2727", or a pair says; `localhost` is 127.0.0.1. ValueError where it says none."""
    try:
        host, port = source if isinstance(source, tuple) else (source.rpartition(":")[0], int(source.rpartition(":")[2]))
        inet_pton(AF_INET, "127.0.0.1" if host == "localhost" else host)
    except (AttributeError, OSError, TypeError, ValueError):
        raise ValueError(f"address {source!r}: a.b.c.d:port, as 127.0.0.1:2727") from None
    return Address("127.0.0.1" if host == "localhost" else host, whole("port", port, 0, MOST_PORT))


def _host(number: int) -> str:
    return inet_ntoa(number.to_bytes(4, "big"))


def act_number(act: str) -> int:
    """The number of an act: `off`, `on`, `flash` or a key; BadValue where there is no such act."""
    number = ACTS.get(act) or (ord(act) if isinstance(act, str) and len(act) == 1 and act in KEYS else 0)
    if number == 0:
        raise BadValue(Number.BAD_ACT, f"act {act!r}: off, on, flash or a key, one of {KEYS}")
    return number


def flaw_of(config: bytes) -> str:
    """What is wrong with a configuration, as `rgwd --check` says it; empty where nothing is."""
    room = ROOM
    while True:
        buffer, needed = create_string_buffer(room), c_size_t()
        number = CALLS["check"](config, len(config), buffer, room, byref(needed))
        if number == Number.OK:
            return ""
        if number == Number.HAS_FLAW:
            return buffer.raw[: needed.value].decode("ascii")
        if number != Number.SMALL_BUFFER:
            raise raised(number)
        room = needed.value


class Line:
    """A line of a gateway, as it is when it is asked."""

    def __init__(self, gateway: "Gateway", number: int) -> None:
        self._gateway, self.number = gateway, number

    def __repr__(self) -> str:
        try:
            signals = ",".join(signal.name for signal in self.signals) or "-"
            held = ",".join(f"{it.number:X}:{it.mode}" for it in self.connections if it is not None) or "-"
            return f"<rgw.Line {self.number} {self.hook} signals {signals} connections {held} lost {self.lost}>"
        except Closed:
            return f"<rgw.Line {self.number} of a closed gateway>"

    @property
    def hook(self) -> str:
        """`on` or `off`."""
        hook = c_uint32()
        self._gateway._ask("hook", self.number, byref(hook))
        return "off" if hook.value else "on"

    @property
    def lost(self) -> int:
        """How many of its events found no room."""
        lost = c_uint64()
        self._gateway._ask("lost", self.number, byref(lost))
        return lost.value

    @property
    def signals(self) -> tuple[Signal, ...]:
        """Its active signals, in the order of the table."""
        found: list[Signal] = []
        info = SignalInfo()
        while self._gateway._finds("signal", self.number, len(found), byref(info)):
            found.append(Signal(SIGNALS[info.signal], info.end if info.ends else None))
        return tuple(found)

    @property
    def connections(self) -> tuple[Connection | None, ...]:
        """What each of its four places holds."""
        return tuple(self._connection(place) for place in range(PLACES))

    def _connection(self, place: int) -> Connection | None:
        info = ConnectionInfo()
        if not self._gateway._finds("connection", self.number, place, byref(info)):
            return None
        payloads = (info.first_payload, info.last_payload)[: info.payloads]
        local = Address(_host(info.local_host), info.local_port)
        remote = Address(_host(info.remote_host), info.remote_port) if info.is_remote_known else None
        return Connection(info.number, MODES[info.mode], local, remote, info.packet_time, payloads)


class Gateway:
    """A gateway of a configuration (TOML, as `rgwd` takes it), whose ids begin with `first`. It is used on the thread that made it."""

    def __init__(self, config: str | bytes, first: int = 0) -> None:
        self.config = config.encode() if isinstance(config, str) else config
        self.first = first
        self._handle = Handle()
        self._at = byref(self._handle)
        self._thread = threading.get_ident()
        self._buffer, self._needed, self._count = create_string_buffer(ROOM), c_size_t(), c_size_t()
        if not isinstance(first, int) or not 0 <= first <= MOST_FIRST:
            raise BadValue(Number.BAD_FIRST, f"first = {first!r}: a whole number from 0 to {MOST_FIRST}")
        number = CALLS["open"](self._at, self.config, len(self.config), first)
        if Number.BAD_DOMAIN <= number <= Number.TOO_LONG:
            raise ConfigFault(Number(number), flaw_of(self.config))
        if number != Number.OK:
            raise raised(number)

    def close(self) -> None:
        """Frees what it has. Each call afterwards but this one raises `Closed`."""
        if self._handle.inner:
            CALLS["close"](self._at)

    def __repr__(self) -> str:
        try:
            return f"<rgw.Gateway of {self.lines} lines at {self.now} ms>"
        except Closed:
            return "<rgw.Gateway, closed>"

    def __enter__(self) -> "Gateway":
        return self

    def __exit__(self, kind: type[BaseException] | None, fault: BaseException | None, trace: TracebackType | None) -> None:
        self.close()

    def __del__(self) -> None:
        if hasattr(self, "_at"):
            self.close()

    def _call(self, name: str, *words: object) -> int:
        """The number that an export answers: 0 where it went well, since it is false."""
        if threading.get_ident() != self._thread:
            raise Closed(Number.NOT_OPEN, "it is another thread's")
        number: int = CALLS[name](self._at, *words)
        return number

    def _ask(self, name: str, *words: object) -> None:
        number = self._call(name, *words)
        if number:
            raise raised(number)

    def _finds(self, name: str, *words: object) -> bool:
        """Whether something is there."""
        number = self._call(name, *words)
        if number in (Number.NO_SUCH_PLACE, Number.NO_CONNECTION, Number.NOTHING_DUE):
            return False
        if number != Number.OK:
            raise raised(number)
        return True

    def datagram(self, source: str | tuple[str, int], data: bytes) -> list[Output]:
        """A datagram came from this address. What is sent because of it."""
        host, port = address_of(source)
        if not isinstance(data, bytes):
            raise ValueError(f"data = {data!r}: bytes")
        self._ask("datagram", int.from_bytes(inet_aton(host), "big"), port, data, len(data))
        return self.outputs

    def phone(self, line: int, act: str) -> list[Output]:
        """An act at the telephone of a line: `off`, `on`, `flash`, or a key. What is sent because of it."""
        number = act_number(act)
        self._ask("phone", self.line(line).number, number)
        return self.outputs

    def tick(self, moment: int) -> list[Output]:
        """The clock: it is this moment, at most 1,000 ms past now. What is sent up to it."""
        if not isinstance(moment, int):
            raise ValueError(f"moment = {moment!r}: a whole number, from {self.now} to {self.now + LONGEST_TICK}")
        if not 0 <= moment < 1 << 64:
            raise raised(Number.TICK_TOO_FAR if moment > 0 else Number.CLOCK_BACK)
        self._ask("tick", moment)
        return self.outputs

    def wait(self, by: int) -> list[Output]:
        """The clock goes on by so many ms, in ticks of 1,000 and one of the rest. What is sent up to then."""
        end, sent = self.now + whole("by", by), []
        while self.now < end:
            sent += self.tick(min(end, self.now + LONGEST_TICK))
        return sent

    @property
    def now(self) -> int:
        """The moment of the last tick, in ms; 0 before any."""
        moment = c_uint64()
        self._ask("now", byref(moment))
        return moment.value

    @property
    def next_due(self) -> int | None:
        """The moment at which something falls due next. Until then no tick does anything but move the clock."""
        moment = c_uint64()
        return moment.value if self._finds("next_due", byref(moment)) else None

    @property
    def lines(self) -> int:
        """How many lines it has."""
        lines = c_uint16()
        self._ask("lines", byref(lines))
        return lines.value

    def line(self, number: int) -> Line:
        """One of its lines, from 1; EventRefused where there is no such line."""
        if not isinstance(number, int):
            raise ValueError(f"line = {number!r}: a whole number from 1 to {self.lines}")
        if not 1 <= number <= self.lines:
            raise EventRefused(Number.NO_SUCH_LINE, f"line = {number}: from 1 to {self.lines}")
        return Line(self, number)

    @property
    def outputs(self) -> list[Output]:
        """What the last event sent that wasn't refused."""
        self._ask("outputs", byref(self._count))
        return [self._output(index) for index in range(self._count.value)]

    def _output(self, index: int) -> Output:
        info, needed = OutputInfo(), self._needed
        while True:
            number = self._call("output", index, byref(info), self._buffer, len(self._buffer), byref(needed))
            if not number:
                return Output(info.moment, Address(_host(info.host), info.port), cast(bytes, self._buffer[: needed.value]))
            if number != Number.SMALL_BUFFER:
                raise raised(number)
            self._buffer = create_string_buffer(needed.value)

    @property
    def messages(self) -> list[Message]:
        """What is told of each message that the last event sent: several may share a datagram."""
        self._ask("messages", byref(self._count))
        return [self._message(index) for index in range(self._count.value)]

    def _message(self, index: int) -> Message:
        info = MessageInfo()
        self._ask("message", index, byref(info))
        to = Address(_host(info.host), info.port)
        is_own = info.whose == 2
        line = info.line if is_own or (info.whose == 1 and info.line) else None
        return Message(info.moment, to, info.id, line, WHATS[info.what], info.code, VERBS[info.verb], info.send)

    @property
    def outcomes(self) -> list[Outcome]:
        """What each text was of the datagram that was the last event, in their order, and what it got."""
        found: list[Outcome] = []
        info = OutcomeInfo()
        while self._finds("outcome", len(found), byref(info)):
            place = str(info.place) if info.fault == LINE_FAULT else chr(info.place) if info.place else ""
            fault = FAULTS[info.fault] + place
            found.append(Outcome(CAMES[info.came], GOTS[info.got], info.id, VERBS[info.verb], info.code, fault))
        return found

    @property
    def given_up(self) -> list[GivenUp]:
        """The commands of its own that were given up at the last event, in their order."""
        found: list[GivenUp] = []
        info = GivenUpInfo()
        while self._finds("given_up", len(found), byref(info)):
            found.append(GivenUp(info.moment, info.id, info.line, VERBS[info.verb]))
        return found
