"""Reads a script's lines by the independent model's rules, and says what is wrong with one, word by word."""
import difflib
from itertools import islice

import table
import words
from lines import CLIENT_LINES, Fault, FORMS, LONGEST_BODY, LONGEST_LINE, ORDER, Reader, is_utf8, lines_of
from takers import VERDICTS

# Byte order marks of UTF-8 and UTF-16, a letter for each byte.
MARK, WIDE = "\u00ef\u00bb\u00bf", ("\u00ff\u00fe", "\u00fe\u00ff")
# What a word of the model's forms is, where the word of docs/SCRIPT.md's form doesn't say it.
RANGES = {
    "S": "a session, 1 to 4,294,967,295",
    "TAG": "a consumer's tag, 1 to 4,294,967,295",
    "PREFETCH": "0 to 65,535",
    "COUNT": "a number, 0 to 4,294,967,295",
    "TAKER": "a taker's number",
    "IDS": "1 to 4,096 numbers from 1 on, with " "commas between them",
    "N": "a node",
    "NODES": "a node, or `all`",
    "Q": "a queue, by its name or as `#N`",
    "DRAIN": "`keep` or `drain`",
    "IMAGE": "`none`, `whole`, `cut K` or `junk HEX`",
    "KEY": "at most 255 bytes",
}


def shown(line):
    """Returns a line, whose characters are its bytes, as a terminal shows it."""
    text = table.visible(line.encode("latin-1").decode("utf-8", "replace"))
    return text if len(text) <= 100 else text[:97] + "..."


def some(names, most=8):
    """Names the first of some things, and how many more there are."""
    text = ", ".join(f"`{it}`" for it in islice(names, most))
    return text + (f" and {len(names) - most} more" if len(names) > most else "")


class Script:
    """The lines of one script, over the nodes and queues that words ask for. Names are text with a letter a byte."""

    def __init__(self, nodes, names, groups):
        members = [[(place + k) % nodes + 1 for k in range(min(group, nodes))] for place, group in enumerate(groups)]
        self.reader = Reader(nodes, [name.encode().decode("latin-1") for name in names], members)
        self.given, self.seats = set(), {}

    def fault(self, line):
        """Returns the fault of a line and what is wrong with it, or None."""
        try:
            read = self.reader.read(line)
        except Fault as fault:
            return str(fault), self.reason(str(fault), line)
        if read is None:
            return None
        word, values = read
        if not self.reader.names and (word == "publish" or line == "get"):
            return "no-such", f"`{word}` is about the first queue, and there is none"
        if word in ("publish", "send") and len(values[-1]) > LONGEST_BODY:
            return "body", f"its body has {len(values[-1]):,} bytes, and may have {LONGEST_BODY:,}"
        return self.attach(values) if word == "attach" else None

    def goes_nowhere(self, line):
        """Says why a message reaches no queue, where that is seen: the keys of the default exchange are queues' names."""
        word, _, rest = line.partition(" ")
        _, exchange, key, _ = [*rest.split(" ", 3), "", "", "", ""][:4]
        if word != "send" or exchange not in ("-", "") or key in self.reader.names:
            return None
        return f"it is unroutable, which is no fault: `-` finds a queue by its name alone, and {self.no_queue(key)}"

    def attach(self, values):
        """A taker is given once; a consumer that has one keeps it."""
        *consumer, taker = values
        if taker not in VERDICTS:
            return "no-such", f"there is no taker {taker}: there are {', '.join(map(str, VERDICTS))}"
        if taker in self.given:
            return "no-such", f"taker {taker} was given to a consumer before"
        if self.seats.setdefault(tuple(consumer), taker) == taker:
            self.given.add(taker)
        return None

    def reason(self, fault, line):
        if fault == "too-long":
            return f"it has {len(line):,} bytes, and may have {LONGEST_LINE:,}"
        near = self.near_miss(line)
        if near:
            return near
        word, _, rest = line.partition(" ")
        return (
            self.unknown(line, word) if word not in FORMS or fault == "unknown" else self.words(fault, word, line, rest)
        )

    def near_miss(self, line):
        """Names what stands in a line that would be one without it."""
        if line.startswith(MARK):
            return "it begins with a byte order mark: write the file as UTF-8 without one"
        if line.startswith(WIDE):
            return "it begins as UTF-16 does: write the file as UTF-8"
        if "\r" in line:
            return "a carriage return stands in it: a line ends with a line feed, before which one may stand"
        if line.lstrip(" \t").startswith("#"):
            return "a comment begins with `;`, and not with `#`"
        for made, why in (
            (line.rstrip(" \t"), "a blank or a tab stands at its end"),
            (line.lstrip(" \t"), "a blank or a tab stands at its beginning"),
            (line.replace("\t", " "), "a tab stands in it: one blank parts two words"),
            (" ".join(line.split()), "more than one blank stands between two of its words"),
            (line.partition(";")[0].rstrip(), "a comment has a line of its own, and no line ends with `;`"),
        ):
            if made != line and made and self.is_read(made):
                return f"{why}; `{shown(made)}` is a line"
        return None

    def is_read(self, line):
        try:
            return self.reader.read(line) is not None
        except Fault:
            return False

    def unknown(self, line, word):
        if not is_utf8(line):
            return "it isn't UTF-8; `publish` alone may have a body of any bytes"
        found = [it for it in difflib.get_close_matches(word.lower(), FORMS, 1, 0.6)]
        return f"no line begins with `{shown(word)}`" + (
            f"; is `{found[0]}` meant?" if found else "; `./qq help lines` names all"
        )

    def words(self, fault, word, line, rest):
        """What is wrong with the words after the first one."""
        forms = FORMS[word].split()
        given = rest.split(" ", len(forms) - 1) if forms and " " in line else [rest] * (" " in line)
        form = " or ".join(f"`{it.form}`" for it in table.lines().get(word, ()))
        if len(given) != len(forms) or forms and forms[-1] not in ("BODY", "IMAGE") and " " in given[-1]:
            count = len(rest.split(" ")) if " " in line else 0
            what = f"{table.count(count, 'word')} after its first"
            what = "no body, which may be empty after a blank" if forms == ["BODY"] else what
            return f"it has {what}; its form is {form}"
        for kind, each in zip(forms, given):
            try:
                getattr(self.reader, kind)(each)
            except Fault as found:
                if str(found) == fault:
                    return f"{self.of_word(fault, kind, each)}; its form is {form}"
        return self.no_member(*given)

    def of_word(self, fault, kind, each):
        if kind in ("N", "NODES") and fault == "no-such":
            return f"there is no node {shown(each)}: there {len_of(self.reader.nodes)} (`--nodes`)"
        if kind == "Q":
            return self.no_queue(each)
        if kind == "TAKER" and fault == "no-such":
            return f"there is no taker {shown(each)}: there are {', '.join(map(str, VERDICTS))}"
        zero = ", without a leading zero" if len(each) > 1 and each[0] == "0" else ""
        return f"`{shown(each)}` is to be {RANGES[kind]}{zero}"

    def no_queue(self, each):
        names = [shown(it) for it in self.reader.names]
        there = f"there {'is' if len(names) == 1 else 'are'} {some(names)}" if names else "there are none"
        return f"there is no queue `{shown(each)}`: {there}{words.near(shown(each), names)}"

    def no_member(self, node, queue):
        place = self.reader.Q(queue)
        members = ", ".join(map(str, self.reader.members[place]))
        return f"node {node} has no member of `{shown(queue)}`: its group is the nodes {members}"


def len_of(nodes):
    return "is node 1" if nodes == 1 else f"are nodes 1 to {nodes}"


def session_of(line):
    """Returns the session that a line gives a new command, or None."""
    word, _, rest = line.partition(" ")
    if word == "publish" or line == "get":
        return 1
    number = rest.partition(" ")[0]
    is_new = word in CLIENT_LINES and word not in ("resend", "end")
    return int(number) if is_new and number.isascii() and number.isdigit() else None


def first_of(sessions, text):
    """Returns the number of the first line that gives a command of one of these sessions, the line and the session."""
    for number, line in enumerate(lines_of(text.decode("latin-1")), 1):
        if session_of(line) in sessions:
            return number, line, session_of(line)
    return None


def first_fault(script, lines, before=0):
    """Returns the number of the first line that is refused, the line, its fault and the reason; or None."""
    for number, line in enumerate(lines, before + 1):
        found = script.fault(line)
        if found:
            return number, line, *found
    return None


def told(number, line, why):
    return f"line {number}, `{shown(line)}`: {why}"


assert set(ORDER) <= set(table.faults()) or not table.faults(), "docs/SCRIPT.md has other faults than the model"
