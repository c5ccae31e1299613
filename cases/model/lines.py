"""Reads the lines of a script, as docs/SCRIPT.md has them."""
LONGEST_LINE = 70_000
LONGEST_BODY = 65_536
MOST_IDS = 4_096
U32, U64 = 2**32 - 1, 2**64 - 1
# What a line's words are. A word in capitals is read by the function of that name below.
FORMS = {
    "publish": "BODY", "send": "S EXCHANGE KEY BODY", "get": "S Q", "subscribe": "S Q TAG PREFETCH",
    "link": "S Q TAG", "credit": "S Q TAG COUNT COUNT DRAIN", "attach": "S Q TAG TAKER",
    "settle": "S Q TAG IDS", "return": "S Q TAG IDS", "discard": "S Q TAG IDS", "cancel": "S Q TAG", "purge": "S Q",
    "end": "S", "resend": "S", "mute": "S", "unmute": "S", "tick": "N Q", "deliver": "Q COUNT", "lose": "Q COUNT", "copy": "Q COUNT", "notice": "N Q",
    "write": "N", "sync": "N", "crash": "NODES IMAGE", "restart": "NODES", "pump": "", "manual": "", "auto": "",
    "show": "Q"}
CLIENT_LINES = {"publish", "send", "get", "subscribe", "link", "credit", "settle", "return", "discard", "cancel",
                "purge", "end", "resend"}
HEX_DIGITS = set("0123456789abcdefABCDEF")
ORDER = ["too-long", "unknown", "words", "number", "no-such"]


class Refused(Exception):
    """A line that is refused, with the last line of the output and the status."""


class Fault(Exception):
    pass


def decimal(word, low, high, past="number"):
    if not (word.isascii() and word.isdigit()) or (word[0] == "0" and word != "0"):
        raise Fault("number")
    if not low <= int(word) <= high:
        raise Fault(past)
    return int(word)


class Reader:
    """Reads words of lines over so many nodes, and the groups of the queues."""

    def __init__(self, nodes, names, members):
        self.nodes, self.names, self.members = nodes, names, members

    def S(self, word):
        return decimal(word, 1, U32)

    TAG = S

    def PREFETCH(self, word):
        return decimal(word, 0, 65_535)

    def COUNT(self, word):
        return decimal(word, 0, U32)

    def TAKER(self, word):
        return decimal(word, 1, U32, past="no-such")

    def IDS(self, word):
        words = word.split(",")
        if len(words) > MOST_IDS:
            raise Fault("number")
        return tuple(decimal(each, 1, U64) for each in words)

    def N(self, word):
        return decimal(word, 1, self.nodes, past="no-such")

    def NODES(self, word):
        return list(range(1, self.nodes + 1)) if word == "all" else [self.N(word)]

    def Q(self, word):
        if word in self.names:
            return self.names.index(word)
        if word.startswith("#"):
            try:
                return decimal(word[1:], 1, len(self.names)) - 1
            except Fault:
                pass
        raise Fault("no-such")

    def DRAIN(self, word):
        if word not in ("keep", "drain"):
            raise Fault("words")
        return word == "drain"

    def IMAGE(self, word):
        """Returns how many bytes are left of what waits, None for all."""
        kind, blank, rest = word.partition(" ")
        if kind == "cut" and blank and " " not in rest:
            return decimal(rest, 0, U64)
        if kind == "junk" and blank and len(rest) % 2 == 0 and set(rest) <= HEX_DIGITS:
            return 0
        if word not in ("none", "whole"):
            raise Fault("words")
        return 0 if word == "none" else None

    def EXCHANGE(self, word):
        return "" if word == "-" else word

    def KEY(self, word):
        if len(word) > 255:
            raise Fault("words")
        return "" if word == "-" else word

    def BODY(self, word):
        if word.startswith("=="):
            return word[1:]
        if 2 <= len(word) <= 8 and word[0] == "=" and word[1:].isascii() and word[1:].isdigit():
            return "x" * int(word[1:])
        return word

    def read(self, line):
        """Returns a line's first word and what its others are, or None for one that does nothing. The line is text
        whose characters are its bytes."""
        if len(line) > LONGEST_LINE:
            raise Fault("too-long")
        if line == "":
            return None
        word, _, rest = line.partition(" ")
        if word != "publish" and not is_utf8(line):
            raise Fault("unknown")
        if line[0] == ";":
            return None
        if word not in FORMS:
            raise Fault("unknown")
        if line == "get":
            return "get", [1, 0]
        return word, self.words(FORMS[word].split(), line, rest)

    def words(self, forms, line, rest):
        if forms == []:
            given = [] if " " not in line else [rest]
        else:
            given = rest.split(" ", len(forms) - 1) if " " in line else []
        if len(given) != len(forms):
            raise Fault("words")
        if forms and forms[-1] not in ("BODY", "IMAGE") and " " in given[-1]:
            raise Fault("words")
        values, faults = [], []
        for form, each in zip(forms, given):
            try:
                values.append(getattr(self, form)(each))
            except Fault as fault:
                faults.append(str(fault))
        if not faults and forms == ["N", "Q"] and values[0] not in self.members[values[1]]:
            faults.append("no-such")
        if faults:
            raise Fault(min(faults, key=ORDER.index))
        return values


def is_utf8(text):
    try:
        text.encode("latin-1").decode("utf-8")
        return True
    except UnicodeDecodeError:
        return False


def lines_of(script):
    """Returns the lines of a script, without their ends. A line's length counts a carriage return at its end."""
    *ended, last = script.split("\n")
    for line in ended:
        yield line if len(line) > LONGEST_LINE or not line.endswith("\r") else line[:-1]
    if last:
        yield last
