"""A gateway that answers the commands of scenarios (RFC 3435, 2.3, 2.4 and 3.5), by docs/PROTOCOL.md and not by the
program. Telephones rest, the clock stands, and signals never begin; where a command would need more, it stops."""
import copy
import re

from connections import Connection, description, identifier, mode, options
from events import OFF_HOOK_ONLY, Fault, digit_map, handling, requested, signals
from messages import NoHeader, Response, Unread, parts, read

# What each verb must have, and may.
PARAMETERS = {
    "RQNT": ("X", "N B R S D T Q"),
    "CRCX": ("C M", "N B L X R S D T Q"),
    "MDCX": ("C I", "N B M L X R S D T Q"),
    "DLCX": ("", "C I N B X R S D T Q"),
    "AUEP": ("", "F"),
    "AUCX": ("I", "F"),
}
OF_A_REQUEST = "R S D T Q".split()
COUNTS = "P: PS=0, OS=0, PR=0, OR=0, PL=0, JI=0, LA=0"
CAN_DO = "a:PCMU;PCMA, p:10-30, v:L;G;D, m:sendonly;recvonly;sendrecv;confrnce;inactive"
ALL_ITEMS = "B D ES I N O Q R S T X".split()


def written_entry(entry):
    """An entry of R."""
    event, kept, has_k, inside = entry
    words = sorted(kept, key="NADIE".index)
    if inside:
        words[-1] = f"E({','.join(written_parts(inside))})"
    return f"{event}({','.join([*words, *['K'] * has_k])})"


def written_signal(signal):
    """An entry of an embedded S."""
    package, name, word = signal
    return f"{package}/{name}" if word == "+" else f"{package}/{name}({word})"


def written_parts(inside):
    """The parts of an embedded request that aren't empty."""
    if inside["R"]:
        yield f"R({','.join(map(written_entry, inside['R']))})"
    if inside["S"]:
        yield f"S({','.join(map(written_signal, inside['S']))})"
    if inside["D"]:
        yield f"D({inside['D']})"


def reported(items, known):
    """The parameters of a report: each item that is known, once, in its order."""
    return [f"{it}: {known[it]}".rstrip() for it in dict.fromkeys(items) if it in known]


class Line:
    """A line on hook, with what it was asked for and its connections by their places."""

    def __init__(self, number):
        self.number, self.next_connection = number, 1
        self.places = [None] * 4
        self.request = {"X": "0", "Q": "step,process", "R": [], "D": ""}

    def connections(self):
        return [it for it in self.places if it is not None]

    def items(self):
        """What AUEP reports of it."""
        return {
            "A": CAN_DO, "B": "e:mu", "D": self.request["D"], "ES": "L/hu", "N": "ca@ca.example.net",
            "I": ",".join(it.id() for it in self.connections()), "O": "", "Q": self.request["Q"],
            "R": ",".join(map(written_entry, self.request["R"])), "S": "", "T": "", "X": self.request["X"],
        }

    def shown(self):
        """What `show` prints of it."""
        told = ",".join(f"{it.id()}:{it.mode}" for it in self.connections())
        return f"line {self.number} on signals - connections {told or '-'} lost 0"

    def state(self):
        """All that is known of it."""
        return self.shown(), self.next_connection, self.items(), [it.__dict__ for it in self.connections()]

    def refuses(self, request):
        """An action D wants a map, and no tone starts on hook."""
        own = self.request["D"] if request["D"] is None else request["D"]
        for _, kept, _, inside in request["R"]:
            if "D" in kept and not own:
                raise Fault(519)
            if inside and not (inside["D"] or own) and any("D" in it[1] for it in inside["R"]):
                raise Fault(519)
        if any(name in OFF_HOOK_ONLY and word != "-" for _, name, word in request["S"]):
            raise Fault(402)

    def take(self, request):
        if request["S"]:
            raise NotImplementedError("a signal begins")
        self.request = {**request, "D": self.request["D"] if request["D"] is None else request["D"]}

    def told(self, verb, values):
        """What becomes of connections, or is reported, and what is told of it."""
        if verb == "AUEP":
            return reported(values.items, self.items())
        if verb == "AUCX":
            return self.audited(values)
        if verb == "CRCX":
            return self.created(values)
        if verb == "MDCX":
            return self.find(values.call, values.id)[0].change(values.mode, values.options, values.remote)
        return self.deleted(values) if verb == "DLCX" else []

    def audited(self, values):
        found = [it for it in self.connections() if it.id().lower() == values.id.lower()]
        if not found:
            raise Fault(515)
        if {"L", "N", "P", "LC", "RC"} & set(values.items):
            raise NotImplementedError("an item that no drawn scenario has")
        return reported(values.items, {"C": found[0].call, "M": found[0].mode})

    def created(self, values):
        if None not in self.places:
            raise Fault(540)
        place = self.places.index(None)
        made = Connection(self.next_connection, 3000 + 8 * (self.number - 1) + 2 * place, values.call)
        told = made.change(values.mode, values.options, values.remote)
        self.places[place] = made
        self.next_connection += 1
        return [f"I: {made.id()}", *told]

    def deleted(self, values):
        gone = self.connections() if values.call is None else self.find(values.call, values.id)
        self.places = [None if it in gone else it for it in self.places]
        return [COUNTS] * (values.id is not None)

    def find(self, call, id):
        """The connections of a call, or the one of it with this identifier; 516 and 515 where there are none."""
        of_call = [it for it in self.connections() if it.call.lower() == call.lower()]
        if not of_call:
            raise Fault(516)
        if id is None:
            return of_call
        found = [it for it in of_call if it.id().lower() == id.lower()]
        if not found:
            raise Fault(515)
        return found


class Values:
    """The values of a command, judged in their order."""

    def __init__(self, command):
        given = dict(command.params)
        if {"K", "N", "B", "T"} & set(given):
            raise NotImplementedError("a parameter that no drawn scenario has")
        self.call = identifier(given["C"]) if "C" in given else None
        self.id = identifier(given["I"]) if "I" in given else None
        self.mode = mode(given["M"]) if "M" in given else None
        self.options = options(given["L"]) if "L" in given else None
        self.request = request_of(given) if "X" in given else None
        self.remote = None
        if command.verb in ("CRCX", "MDCX") and command.body:
            self.remote = description(command.body)
        self.items = [it.strip(b" \t").decode("latin-1").upper() for it in given.get("F", b"").split(b",")]


def request_of(given):
    found = {"X": identifier(given["X"]), "Q": handling(given["Q"]) if "Q" in given else "step,process"}
    found["D"] = None if "D" not in given else digit_map(given["D"]) if given["D"] else ""
    found["R"] = requested(given.get("R", b""))
    found["S"] = signals(given.get("S", b""))
    return found


def judge_codes(command):
    """The first parameter at fault, and then what is missing."""
    must, may = (it.split() for it in PARAMETERS[command.verb])
    seen = set()
    for code, _ in command.params:
        if code.startswith("X+") or "/" in code:
            raise Fault(511)
        if code.startswith("X-"):
            continue
        if code not in [*must, *may, "K"]:
            raise Fault(539)
        if code in seen:
            raise Fault(510)
        seen.add(code)
    lacks = set(must) - seen or "X" not in seen and seen & set(OF_A_REQUEST)
    if lacks or command.verb == "DLCX" and "I" in seen and "C" not in seen:
        raise Fault(510)


class Gateway:
    """A gateway at Ready, that remembers what it answered."""

    def __init__(self, lines=16):
        self.lines = [Line(number) for number in range(1, lines + 1)]
        self.answered = {}

    def later(self):
        """The same 30 seconds later, when it remembers nothing. What becomes of one changes nothing of the other."""
        other = Gateway(0)
        other.lines = [*self.lines]
        return other

    def is_like(self, other):
        """Whether both have the same lines."""
        return all(one is it or one.state() == it.state() for one, it in zip(self.lines, other.lines))

    def hear(self, datagram):
        """What comes of a datagram: the messages that are sent, as texts."""
        sent = []
        for part in parts(datagram):
            try:
                sent.append(self.answer(read(part)))
            except NoHeader:
                continue
            except Unread as fault:
                sent.append(self.answered.setdefault(fault.id, f"{fault.code} {fault.id}\n"))
        return sent

    def answer(self, message):
        """The answer to a command: the first that its id had, where it had one."""
        if isinstance(message, Response):
            raise NotImplementedError("a response")
        if message.id not in self.answered:
            try:
                code = 250 if message.verb == "DLCX" else 200
                text = "".join(f"{it}\n" for it in [f"{code} {message.id} OK", *self.done(message)])
            except Fault as fault:
                text = f"{fault.code} {message.id}\n"
            self.answered[message.id] = text
        return self.answered[message.id]

    def line_of(self, command):
        """The line that a name means, by the order of checks."""
        local, at, domain = command.name.lower().partition(b"@")
        if not at or domain != b"rgw.example.net":
            raise Fault(500)
        found = re.fullmatch(rb"aaln/([1-9][0-9]*)", local)
        if found and int(found[1]) <= len(self.lines):
            return self.lines[int(found[1]) - 1]
        if local in (b"$", b"aaln/$", b"$/$") and command.verb == "CRCX":
            return None
        if {b"$", b"*"} & set(local.split(b"/")):
            if local in (b"*", b"aaln/*", b"*/*"):
                raise NotImplementedError("a command of all lines")
            raise Fault(503)
        raise Fault(500)

    def done(self, command):
        """Does what a command asks, at a copy of its line, and gives what stands below the first line of its answer."""
        if command.verb not in PARAMETERS:
            raise Fault(504)
        line = self.line_of(command)
        judge_codes(command)
        values = Values(command)
        is_any = line is None
        if is_any:
            line = next((it for it in self.lines if None in it.places), None)
        if line is None:
            raise Fault(410)
        line = copy.deepcopy(line)
        told = line.told(command.verb, values)
        if values.request is not None:
            line.refuses(values.request)
            line.take(values.request)
        self.lines[line.number - 1] = line
        if is_any:
            told.insert(1, f"Z: aaln/{line.number}@rgw.example.net")
        return told
