"""What a text is read as (RFC 3435, 3.2, 3.3 and 3.5.5), by docs/PROTOCOL.md and not by the program."""
import re

BLANKS = b" \t"
VERBS = "EPCF RQNT NTFY CRCX MDCX DLCX AUEP AUCX RSIP".split()


def raw_lines(text):
    """Its lines with their ends; bytes behind the last end are a line too."""
    return re.findall(rb"[^\n]*\n|[^\n]+", text)


def line_of(raw):
    """A line without its end, CRLF or LF, and without the blanks round it."""
    if raw.endswith(b"\n"):
        raw = raw[:-1].removesuffix(b"\r")
    return raw.strip(BLANKS)


def parts(datagram):
    """The texts between lines that are a single dot."""
    found = [b""]
    for raw in raw_lines(datagram):
        if line_of(raw) == b".":
            found.append(b"")
        else:
            found[-1] += raw
    return found


class NoHeader(Exception):
    """A text without a transaction that could be answered."""


class Unread(Exception):
    """A command of another version, or one that lacks words or has a line that is no parameter."""

    def __init__(self, id, code):
        self.id, self.code = id, code


class Response:
    def __init__(self, code, id):
        self.code, self.id = code, id


class Command:
    """A command: its parameters as pairs of a code in upper case and a value, and its description."""

    def __init__(self, verb, id, name, params, body):
        self.verb, self.id, self.name = verb, id, name
        self.params, self.body = params, body

    def first(self, code):
        """The value of the first parameter with this code; nothing where there is none."""
        return next((value for it, value in self.params if it == code), None)


def header(words):
    """What the first two words say: whether it is a response, and the id."""
    if re.fullmatch(rb"[0-9]{3}", words[0]):
        is_response = True
    elif re.fullmatch(rb"[0-9A-Za-z]{4}", words[0]):
        is_response = False
    else:
        raise NoHeader
    if len(words) < 2 or not re.fullmatch(rb"[0-9]{1,9}", words[1]) or int(words[1]) == 0:
        raise NoHeader
    return is_response, int(words[1])


def parameter(line):
    """The code and the value of a line; nothing where it is no parameter."""
    code, colon, value = line.partition(b":")
    code = code.strip(BLANKS)
    if colon and re.fullmatch(rb"[A-Za-z0-9+/-]+", code):
        return code.upper().decode(), value.strip(BLANKS)
    return None


def read(text):
    """The command or the response that a text is; NoHeader or Unread where it is none."""
    left = raw_lines(text)
    while left and not line_of(left[0]):
        left.pop(0)
    if not left:
        raise NoHeader
    words = re.split(rb"[ \t]+", line_of(left.pop(0)))
    is_response, id = header(words)
    if is_response:
        return Response(int(words[0]), id)
    if len(words) < 5:
        raise Unread(id, 510)
    if words[3].upper() != b"MGCP" or words[4] != b"1.0":
        raise Unread(id, 528)
    params = []
    while left and line_of(left[0]):
        params.append(parameter(line_of(left.pop(0))))
    if None in params:
        raise Unread(id, 510)
    body = b"".join(left[1:])
    if not any(map(line_of, raw_lines(body))):
        body = b""
    verb = words[0].upper().decode()
    return Command(verb if verb in VERBS else "other", id, words[2], params, body)


def kind(text):
    """What a text is read as, as the call `message` of rows says it."""
    try:
        message = read(text)
    except NoHeader:
        return "2 no header"
    except Unread as fault:
        return f"3 bad version {fault.id}" if fault.code == 528 else f"4 bad body {fault.id}"
    return "response" if isinstance(message, Response) else f"command {message.id}"
