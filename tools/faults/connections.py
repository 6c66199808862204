"""The values of L and M, session descriptions, and the connections of a line (RFC 3435, 2.1.3, 2.3.5 to 2.3.7 and 3.4), by
docs/PROTOCOL.md and not by the program. Encodings and codecs that no drawn scenario names are left out."""
import re

from events import Fault
from messages import line_of, raw_lines

SENDING = ["sendonly", "sendrecv", "confrnce"]
MODES = [*SENDING, "recvonly", "inactive"]
IGNORED = ["b", "e", "gc", "r", "s", "t", "nt"]
CODECS = {"pcmu": 0, "pcma": 8}


def identifier(value):
    """C, I and X: 1 to 32 hexadecimal digits."""
    if not re.fullmatch(rb"[0-9A-Fa-f]{1,32}", value):
        raise Fault(510)
    return value.decode()


def mode(value):
    word = value.lower().decode("latin-1")
    if word not in MODES:
        raise Fault(517)
    return word


def packet_time(value):
    """The span that p asks for."""
    found = re.fullmatch(rb"([0-9]{1,18})(?:-([0-9]{1,18}))?", value)
    if not found:
        raise Fault(541)
    return range(int(found[1]), int(found[2] or found[1]) + 1)


def options(value):
    """L: the local list of payload types, and the packet time."""
    names, codecs, times = set(), [0, 8], [20]
    for item in value.split(b","):
        name, colon, text = item.strip(b" \t").partition(b":")
        name = name.lower().decode("latin-1")
        if not colon or name in names:
            raise Fault(541)
        names.add(name)
        if name == "a":
            asked = [CODECS.get(it.lower()) for it in text.decode("latin-1").split(";")]
            codecs = [it for it in dict.fromkeys(asked) if it is not None]
        elif name == "p":
            times = packet_time(text)
        elif name not in IGNORED and not name.startswith("x-"):
            raise Fault(541)
    time = next((it for it in (10, 20, 30) if it in times), None)
    if time is None:
        raise Fault(535)
    return codecs, time


def number(word, most):
    """Whether a word is a number up to this one."""
    return re.fullmatch(rb"[0-9]{1,18}", word) and int(word) <= most


def is_address(word):
    """Whether a word is a.b.c.d."""
    numbers = word.split(b".")
    return len(numbers) == 4 and all(number(it, 255) for it in numbers)


def first(lines, begin):
    """The first line that begins so."""
    return next((it for it in lines if it.startswith(begin)), None)


def place_of(lines, audio):
    """The line that says where the stream is received: that of the stream, or else that of the session."""
    media = [at for at, line in enumerate(lines) if line.startswith(b"m=")]
    later = next((at for at in media if at > audio), len(lines))
    return first(lines[audio + 1 : later], b"c=") or first(lines[: media[0]], b"c=") or b""


def is_place(line):
    words = re.split(rb"[ \t]+", line)
    return len(words) == 3 and words[:2] == [b"c=IN", b"IP4"] and is_address(words[2])


def description(text):
    """The payload types of a remote description; 509 where this gateway doesn't read it."""
    lines = [line_of(raw) for raw in raw_lines(text)]
    while lines and not lines[-1]:
        lines.pop()
    if lines[:1] != [b"v=0"] or not all(re.match(rb"[A-Za-z]=", line) for line in lines):
        raise Fault(509)
    audio = first(lines, b"m=audio")
    if audio is None or not is_place(place_of(lines, lines.index(audio))):
        raise Fault(509)
    words = re.split(rb"[ \t]+", audio)
    types = words[3:]
    is_good = words[0] == b"m=audio" and words[2:3] == [b"RTP/AVP"] and number(words[1], 65535)
    if not is_good or not 1 <= len(types) <= 32 or not all(number(it, 127) for it in types):
        raise Fault(509)
    return [int(it) for it in types]


class Connection:
    """A connection as it stands. What it has in force are the codecs of its local list that the other end offers."""

    def __init__(self, number, port, call):
        self.number, self.port, self.call = number, port, call
        self.mode, self.options, self.remote = None, ([0, 8], 20), None
        self.version = 0

    def in_force(self):
        offered = self.remote
        return [it for it in self.options[0] if offered is None or it in offered], self.options[1]

    def change(self, mode, options, remote):
        """Takes what is given of these; the codes where it can't become that."""
        before = self.in_force() if self.version else None
        self.mode, self.options, self.remote = mode or self.mode, options or self.options, remote or self.remote
        if not self.in_force()[0]:
            raise Fault(534)
        if self.mode in SENDING and self.remote is None:
            raise Fault(527)
        is_new = self.in_force() != before
        self.version += is_new
        return self.written() if is_new else []

    def written(self):
        """The lines of the local description, behind an empty one."""
        codecs, time = self.in_force()
        types = " ".join(map(str, codecs))
        return ["", "v=0", f"o=- {self.number} {self.version} IN IP4 127.0.0.1", "s=-", "c=IN IP4 127.0.0.1", "t=0 0",
                f"m=audio {self.port} RTP/AVP {types}", f"a=ptime:{time}"]

    def id(self):
        return f"{self.number:X}"
