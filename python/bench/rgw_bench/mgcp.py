"""MGCP 1.0 messages (RFC 3435, 3.2): read from bytes, and written as bytes.

A text is latin-1, so that each byte has its character. Whatever comes is read without an error but `NoMessage`.

    >>> parse(b"200 7 OK\\r\\nI: 2F\\r\\n")["I"]
    '2F'
    >>> command("AUEP", 8, "aaln/1@gw", {"F": "I"})
    b'AUEP 8 aaln/1@gw MGCP 1.0\\r\\nF: I\\r\\n'
"""

import itertools
import re
import time
from collections.abc import Iterable, Iterator, Mapping
from dataclasses import dataclass, field

Params = Mapping[str, object] | Iterable[tuple[str, object]]

VERBS = frozenset("EPCF RQNT NTFY CRCX MDCX DLCX AUEP AUCX RSIP".split())
# The greatest transaction id (3.2.1.2).
GREATEST_ID = 999_999_999
_SEPARATOR = re.compile(rb"(?m)^[ \t]*\.[ \t]*\r?\n?")
_RESPONSE = re.compile(r"([0-9]{3})[ \t]+([0-9]{1,9})(?:[ \t]+(.*))?\Z")
_ID = re.compile(r"[0-9]{1,9}")
_BLANK = re.compile(r"\n[ \t]*\n")


class NoMessage(ValueError):
    """The bytes are no MGCP message; its text says why."""


@dataclass(frozen=True)
class Message:
    """A command or a response.

    A command has `verb`, `endpoint` and `version` (`MGCP 1.0`, and what follows); a response has `code` and `comment`. Both have the
    transaction id, the parameters in their order with codes in upper case, the session descriptions, and the bytes as they came.
    """

    raw: bytes
    id: int
    verb: str = ""
    endpoint: str = ""
    version: str = ""
    code: int | None = None
    comment: str = ""
    params: tuple[tuple[str, str], ...] = ()
    sdp: tuple[str, ...] = field(default=(), repr=False)

    def __getitem__(self, code: str) -> str | None:
        """The value of the first parameter with this code, in whichever case; None where there is none."""
        wanted = code.upper()
        return next((value for name, value in self.params if name == wanted), None)

    def values(self, code: str) -> list[str]:
        """The values of all parameters with this code, in their order."""
        wanted = code.upper()
        return [value for name, value in self.params if name == wanted]

    @property
    def is_response(self) -> bool:
        """Whether it is a response."""
        return self.code is not None

    @property
    def is_provisional(self) -> bool:
        """Whether it is a response after which the final one is still to come (3.5.6)."""
        return self.code is not None and 100 <= self.code <= 199


def split(datagram: bytes) -> list[bytes]:
    """The messages of a datagram, which lines of a single dot separate (3.5.5); empty ones are left out."""
    return [part for part in _SEPARATOR.split(datagram) if part.strip()]


def parse(raw: bytes) -> Message:
    """The message that these bytes are.

    Raises NoMessage where the first line that isn't empty is no header, or where a line of the parameters has no colon.
    """
    lines = raw.decode("latin-1").replace("\r\n", "\n").replace("\r", "\n").lstrip("\n \t").split("\n")
    blank = next((at for at, line in enumerate(lines) if not line.strip(" \t")), len(lines))
    if blank == 0:
        raise NoMessage("nothing in it")
    params = tuple(_param(line) for line in lines[1:blank])
    sdp = tuple(it.strip("\n") for it in _BLANK.split("\n".join(lines[blank + 1 :])) if it.strip())
    header = lines[0].strip(" \t")
    response = _RESPONSE.match(header)
    if response:
        return Message(raw, int(response[2]), code=int(response[1]), comment=response[3] or "", params=params, sdp=sdp)
    words = re.split(r"[ \t]+", header)
    if len(words) < 4 or not _ID.fullmatch(words[1]):
        raise NoMessage(f"no header: {shown(lines[0].encode('latin-1'))}")
    return Message(raw, int(words[1]), words[0].upper(), words[2], " ".join(words[3:]), params=params, sdp=sdp)


def _param(line: str) -> tuple[str, str]:
    name, colon, value = line.partition(":")
    if not colon:
        raise NoMessage(f"no parameter: {shown(line.encode('latin-1'))}")
    return name.strip(" \t").upper(), value.strip(" \t")


def messages(datagram: bytes) -> Iterator[Message | NoMessage]:
    """The messages of a datagram; in the place of each part that is none stands why it isn't."""
    for part in split(datagram):
        try:
            yield parse(part)
        except NoMessage as fault:
            yield fault


def _written(rows: Iterable[str]) -> bytes:
    return "".join(f"{row}\r\n" for row in rows).encode("latin-1")


def _rows(params: Params) -> list[str]:
    pairs = params.items() if isinstance(params, Mapping) else params
    return [f"{code}: {value}".rstrip(" ") for code, value in pairs]


def command(verb: str, id: int, endpoint: str, params: Params = (), sdp: str = "", version: str = "MGCP 1.0") -> bytes:
    """The bytes of a command; `sdp` is its session description, with any line ends.

    Raises UnicodeEncodeError for a character beyond latin-1.
    """
    described = ["", *sdp.splitlines()] if sdp else []
    return _written([f"{verb} {id} {endpoint} {version}", *_rows(params), *described])


def response(code: int, id: int, comment: str = "OK", params: Params = (), sdp: str = "") -> bytes:
    """The bytes of a response.

    Raises UnicodeEncodeError for a character beyond latin-1.
    """
    described = ["", *sdp.splitlines()] if sdp else []
    return _written([f"{code:03} {id} {comment}".rstrip(" "), *_rows(params), *described])


def joined(several: Iterable[bytes]) -> bytes:
    """Several messages as one datagram (3.5.5)."""
    return b".\r\n".join(several)


def transaction_ids(first: int | None = None) -> Iterator[int]:
    """Transaction ids from `first` on; by default from the time of day, so that no session of the last hours began with them."""
    begin = first if first is not None else int(time.time() * 1000) % 900_000_000 + 1
    return (1 + (number - 1) % GREATEST_ID for number in itertools.count(begin))


def shown(data: bytes, most: int = 4000) -> str:
    """Bytes as one line of printable ASCII, at most about `most` characters: ` / ` stands for CRLF, but for one at the end, `\\n` for a
    line feed alone, `\\x1b` for another byte."""
    rows = data[:most].removesuffix(b"\r\n").split(b"\r\n")
    line = " / ".join("".join(map(_printed, row.decode("latin-1"))) for row in rows)
    return line if len(data) <= most else f"{line} .. ({len(data)} bytes)"


def _printed(character: str) -> str:
    if character == "\n":
        return "\\n"
    return character if " " <= character <= "~" else f"\\x{ord(character):02x}"
