"""The values of R, S, D and Q (RFC 3435, 2.1.5, 2.3.3 and 4.4.1), by docs/PROTOCOL.md and not by the program."""
import re

EVENTS = {"L": ["hd", "hu", "hf", "oc"], "G": ["oc"]}
SIGNALS = {"L": ["dl", "bz", "ro", "rg", "rs", "vmwi"], "G": ["rt", "cg", "cf"]}
BRIEF, ON_OFF = ["rs", "cf"], ["vmwi"]
LETTERS = "0123456789*#ABCDT"
KEYS = LETTERS[:-1]
# The signals that a line on hook can't be asked for.
OFF_HOOK_ONLY = ["dl", "bz", "ro", "rt", "cg", "cf"]

WORD = rb"[^ \t,()/@\[\]]+"
LETTER = rb"[0-9*#A-DTXa-dtx]"
SET = rb"\[(?:[0-9]-[0-9]|%s)+\]" % LETTER
NAME = rb"(?:(%s)/)?(%s)(@%s)?" % (WORD, WORD, WORD)
STRING = rb"(?:(?:%s|%s)\.?)+" % (LETTER, SET)
MAP = rb"%s|\(%s(?:\|%s)*\)" % (STRING, STRING, STRING)


class Fault(Exception):
    """Why a value isn't taken: the return code."""

    def __init__(self, code):
        self.code = code


def letters_in(text):
    """The letters in brackets; a span downwards is misspelled."""
    inner, found = text[1:-1].decode().upper(), set()
    for first, last in re.findall("([0-9])-([0-9])", inner):
        if first > last:
            raise Fault(510)
        found.update(LETTERS[int(first) : int(last) + 1])
    for letter in re.sub("[0-9]-[0-9]", "", inner):
        found.update(LETTERS[:10] if letter == "X" else letter)
    return found


def digit_map(text):
    """A digit map without its blanks; 510 where it is misspelled."""
    text = re.sub(rb"[ \t]", b"", text)
    if not re.fullmatch(MAP, text):
        raise Fault(510)
    for letters in re.findall(SET, text):
        letters_in(letters)
    return text.decode()


class Reader:
    """Reads a value from its front; what isn't spelled as it must be is 510."""

    def __init__(self, text):
        self.text, self.at = text, 0

    def blanks(self):
        while self.text[self.at : self.at + 1] in (b" ", b"\t"):
            self.at += 1

    def take(self, pattern):
        """What comes next, where it is spelled so; then it is read."""
        found = re.compile(pattern).match(self.text, self.at)
        if found:
            self.at = found.end()
        return found

    def mark(self, mark):
        """Whether this mark comes next, blanks round it or not; then it is read."""
        before = self.at
        self.blanks()
        if self.text[self.at : self.at + 1] != mark:
            self.at = before
            return False
        self.at += 1
        self.blanks()
        return True

    def need(self, is_there):
        if not is_there:
            raise Fault(510)

    def list_of(self, item):
        """Items with commas between them, one at least."""
        items = [item()]
        while self.mark(b","):
            items.append(item())
        return items

    def whole(self, item):
        """A value that is such a list, or empty."""
        self.blanks()
        if self.at == len(self.text):
            return []
        items = self.list_of(item)
        self.blanks()
        self.need(self.at == len(self.text))
        return items

    def name(self):
        """A package, a name, and whether a connection stands behind it; the letters of a range in place of a name."""
        found = self.take(rb"[Dd]/(%s)" % SET)
        if found:
            return "D", letters_in(found[1]), False
        found = self.take(NAME)
        self.need(found)
        package = (found[1] or b"L").decode("latin-1").upper()
        return package, found[2].decode("latin-1").lower(), found[3] is not None

    def parameters(self):
        """What stands between parentheses, if they come next."""
        if not self.mark(b"("):
            return None
        found = self.take(rb"[^()]*")[0].split(b",")
        self.need(self.mark(b")"))
        found = [it.strip(b" \t") for it in found]
        self.need(all(found))
        return found

    def signal(self):
        return *self.name(), self.parameters()

    def event(self):
        """An entry of R: an event, its actions, and whether there are parameters."""
        name, actions = self.name(), None
        if self.mark(b"("):
            actions = self.list_of(self.action)
            self.need(self.mark(b")"))
        return *name, actions, self.parameters() is not None

    def action(self):
        """A word, or E with its parts."""
        found = self.take(WORD)
        self.need(found)
        word = found[0].decode("latin-1").upper()
        if word != "E":
            return word
        self.need(self.mark(b"("))
        parts = self.list_of(self.part)
        self.need(self.mark(b")") and len({it for it, _ in parts}) == len(parts))
        return parts

    def part(self):
        """R, S or D of an embedded request, and what it holds."""
        found = self.take(rb"[RSDrsd]")
        self.need(found and self.mark(b"("))
        word = found[0].decode().upper()
        if word == "D":
            inner = self.nested()
        else:
            inner = self.list_of(self.event if word == "R" else self.signal)
        self.need(self.mark(b")"))
        return word, inner

    def nested(self):
        """All up to the parenthesis that closes it; more than blanks."""
        depth, begin = 0, self.at
        while self.at < len(self.text):
            mark = self.text[self.at : self.at + 1]
            if mark == b")" and depth == 0:
                break
            depth += {b"(": 1, b")": -1}.get(mark, 0)
            self.at += 1
        inner = self.text[begin : self.at]
        self.need(inner.strip(b" \t"))
        return inner


def judge_event(package, name, is_on_connection):
    """The letters that an event of D names; nothing for another one."""
    if package not in ("L", "G", "D"):
        raise Fault(518)
    if is_on_connection:
        raise Fault(512)
    if isinstance(name, set):
        return name
    if package == "D":
        letters = set(KEYS) if name == "all" else set(LETTERS[:10]) if name == "x" else {name.upper()} & set(LETTERS)
        if not letters:
            raise Fault(512)
        return letters
    if name != "all" and name not in EVENTS[package]:
        raise Fault(522 if name in SIGNALS[package] else 512)
    return None


def judge_signal(package, name, is_on_connection, parameters):
    """What a signal is asked: its package, its name, and what stands in its parentheses."""
    if package not in ("L", "G", "D"):
        raise Fault(518)
    if is_on_connection:
        raise Fault(513)
    if package == "D" or name not in SIGNALS[package]:
        raise Fault(522 if package != "D" and name in EVENTS[package] else 513)
    word = b"".join(parameters or [b"+"]).lower()
    time = re.fullmatch(rb"to=([0-9]{1,18})", word)
    is_timed = name not in BRIEF and name not in ON_OFF
    is_good = word == b"+" or word == b"-" and name not in BRIEF or time and is_timed and int(time[1]) <= 3_600_000
    if not is_good or len(parameters or []) > 1:
        raise Fault(538)
    return package, name, word.decode()


def judge_actions(actions, letters, is_embedded):
    """The actions of an event that go together: those beside K, and whether K stands there."""
    words = ["E" if isinstance(it, list) else it for it in actions or ["N"]]
    kept = [it for it in words if it != "K"] or ["N"]
    go_together = sorted(kept) in [["N"], ["A"], ["D"], ["I"], ["E"], ["A", "E"]]
    if not go_together or words.count("K") > 1 or "D" in kept and letters is None or "E" in kept and is_embedded:
        raise Fault(523)
    if letters and "T" in letters and kept != ["D"]:
        raise Fault(523)
    return kept, "K" in words


def judge_inside(parts):
    """What an embedded request asks for, part by part."""
    found = {"R": [], "S": [], "D": None}
    for word, inner in parts:
        if word == "R":
            found["R"] = [judge_entry(*entry, is_embedded=True) for entry in inner]
        elif word == "S":
            found["S"] = [judge_signal(*entry) for entry in inner]
        else:
            found["D"] = digit_map(inner)
    return found


def judge_entry(package, name, is_on_connection, actions, has_parameters, is_embedded=False):
    """An entry of R: the event as it is written, its actions, whether K stands there, and what is embedded."""
    letters = judge_event(package, name, is_on_connection)
    if has_parameters:
        raise Fault(538)
    kept, has_k = judge_actions(actions, letters, is_embedded)
    inside = next((judge_inside(it) for it in actions or [] if isinstance(it, list)), None)
    return written_event(package, name, letters), kept, has_k, inside


def written_event(package, name, letters):
    if letters is None:
        return "G/oc" if package == "G" else f"L/{name}"
    text = "".join(it for it in LETTERS if it in letters)
    return f"D/{text}" if len(text) == 1 else f"D/[{text}]"


def requested(text):
    """The entries of R."""
    reader = Reader(text)
    return [judge_entry(*entry) for entry in reader.whole(reader.event)]


def signals(text):
    """The entries of S."""
    reader = Reader(text)
    return [judge_signal(*entry) for entry in reader.whole(reader.signal)]


def handling(text):
    """Q as it is written."""
    words = [it.strip(b" \t").decode("latin-1").lower() for it in text.split(b",")]
    kinds = [it in ("step", "loop") for it in words]
    if len(words) > 2 or len(set(kinds)) < len(kinds) or not {*words} <= {"step", "loop", "process", "discard"}:
        raise Fault(508)
    return f"{'loop' if 'loop' in words else 'step'},{'discard' if 'discard' in words else 'process'}"
