"""The one table of words, lines and statuses: help, explanations, the man page and the completions are made from it.

The rows of lines, options, texts and statuses are those of docs/SCRIPT.md, where a reader finds them too. What the
launcher adds, its commands and what can be done at each status, stands here."""
import functools
import re
from collections import namedtuple

from model import TOP

PAGE = f"{TOP}/docs/SCRIPT.md"
Line = namedtuple("Line", "form meaning")
Option = namedtuple("Option", "name value meaning range without")
Status = namedtuple("Status", "number comes printed advice")
Command = namedtuple("Command", "form meaning options")
# The program's own commands are the first three.
PROGRAM = ("script", "drill", "dump")
CLUSTER = ("--nodes", "--group", "--queues", "--definitions", "--ignore-policies")
COMMANDS = {
    "script": Command(
        "script [OPTION..] < FILE",
        "runs the lines of a script over a cluster of nodes and queues, and " "prints each queue's audit at the end",
        (*CLUSTER, "--root", "--log-bytes", "--force"),
    ),
    "drill": Command(
        "drill N [--nodes K] [--check]",
        "runs some 4,000 lines of clients and crashes that are drawn from "
        "the number N, and prints counts and a digest",
        ("--nodes", "--check"),
    ),
    "dump": Command(
        "dump --root DIR --node N", "prints what the log files of a node's folder hold", ("--root", "--node")
    ),
    "doctor": Command(
        "doctor --root DIR --nodes N (--queues N [--group N] | --definitions NAME)",
        "reads the folders of a stopped cluster, changes nothing, and says of each queue up to which place a majority "
        "agrees, or where two nodes differ",
        ("--root", *CLUSTER),
    ),
    "check": Command(
        "check FILE [OPTION..]", "reads a script or an export, names each fault in it, and runs nothing", CLUSTER
    ),
    "queues": Command(
        "queues [--messages] --root DIR | FILE",
        "shows a table of the queues of a folder, as the next run would find them, or of what a run has printed",
        ("--root", "--messages"),
    ),
    "picture": Command(
        "picture SCRIPT [OPTION..] > FILE.html", "runs a script and draws it as a page for a browser", CLUSTER[:3]
    ),
    "storm": Command(
        "storm SECONDS DIR",
        "publishes, ends the program with kill -9 at random moments, opens it again, " "and counts what was lost",
        (),
    ),
    "help": Command("help [WORD | LINE]", "explains a command, an option, a line, a printed text or a status", ()),
    "version": Command("version", "says which commit and kit this is, and whether the program is proved", ()),
    "prove": Command("prove", "proves the program", ()),
    "path": Command("path", "prints where the program is that would run", ()),
}
# Options that are the launcher's, or that docs/SCRIPT.md has in its text.
MORE_OPTIONS = (
    Option("--node", "N", "the node whose files are dumped", "1 to 7", ""),
    Option(
        "--force",
        "",
        "runs all the same over a folder that was made with other words or queues, or in which files are gone",
        "",
        "",
    ),
    Option("--check", "", "has the independent model run the drill's lines too, and compares its counts", "", ""),
    Option("--messages", "", "shows the messages themselves, and changes nothing in the queue", "", ""),
)
DRILLS = (1, 1_000_000_000)
# What a user can do at a status.
ADVICE = {
    0: "Nothing is to be done.",
    2: "`./qq help` shows the commands, and `./qq help script` the options.",
    3: "`./qq check FILE` names all that is refused in an export. Change a copy of it; docs/DEFINITIONS.md says what "
    "becomes of each field.",
    4: "The lines before it were served. The audits come at the end of a script alone; `./qq check FILE` reads all "
    "lines before anything runs.",
    5: "Look whether the file is there, and whether you may read it.",
    6: "What was confirmed before stands. Look whether the disk is full, or what read the output has ended.",
    7: "Look who has the folder, whether it may be written to, and whether there is room on the disk.",
    8: "Keep a copy of the whole folder first. Then put the file back as it was. A node whose folder is moved away "
    "begins anew: the opening may be refused as lost, and confirmed messages may be lost with it.",
    9: "Keep a copy of the whole folder first. Then put the right folders back, and give the words with which it was "
    "made. A folder that is gone for good can't be replaced by an empty one yet.",
    11: "A body has at most 65,536 bytes, a script 10,000,000 lines, an export 1,024 queues.",
    12: "Give it more memory, or fewer messages: a run keeps all that it has served.",
    20: "The count has no room above. Begin with a new folder.",
}


def unread(error):
    """Says why a file can't be read."""
    return f"`{error.filename}` can't be read: {error.strerror}"


def count(number, what):
    """Returns a number of things in words."""
    return f"{number:,} {what}" + ("" if number == 1 else "s")


def visible(text):
    """Returns text that moves no terminal: what can't be printed is escaped."""
    return "".join(it if it.isprintable() else it.encode("unicode_escape", "backslashreplace").decode() for it in text)


def cells(row):
    """Returns the cells of a row of a page's table."""
    return [cell.strip().replace("\\|", "|") for cell in re.split(r"(?<!\\)\|", row.strip()[1:-1])]


def plain(text):
    """Returns text of a page as a terminal shows it."""
    return re.sub(r"\[([^]]*)\]\(([^)]*)\)", lambda it: f"docs/{it[2]}" if it[1] == it[2] else it[1], text)


@functools.cache
def rows(*head):
    """Returns the rows of all tables of docs/SCRIPT.md that have this head."""
    found, inside = [], False
    with open(PAGE, encoding="utf-8") as page:
        for row in page:
            if not row.startswith("|"):
                inside = False
            elif tuple(cells(row)) == head:
                inside = True
            elif inside and not row.startswith("|--"):
                found.append(cells(row))
    return found


def codes(cell):
    return re.findall(r"`([^`]+)`", cell)


@functools.cache
def lines():
    """Returns the lines of a script by their first words: the forms that each has, with its meaning."""
    found = {}
    for forms, meaning in rows("line", "meaning"):
        for form in codes(forms):
            found.setdefault(form.split()[0], []).append(Line(form, plain(meaning)))
    return found


@functools.cache
def letters():
    """Returns what a word of a form is, as S or IDS."""
    return {name: plain(meaning) for name, meaning in rows("in a line", "is")}


@functools.cache
def faults():
    return {codes(name)[0]: plain(of) for name, of in rows("fault", "of")}


@functools.cache
def texts():
    """Returns the printed texts, each with what it is of."""
    return [(form, plain(of)) for forms, of in rows("text", "of") for form in codes(forms)]


@functools.cache
def options():
    found = {}
    for form, meaning, among, without in rows("option", "meaning", "range", "without it"):
        name, _, value = codes(form)[0].partition(" ")
        found[name] = Option(name, value, plain(meaning), among, without)
    found.update((it.name, it) for it in MORE_OPTIONS)
    return found


@functools.cache
def statuses():
    return {
        int(number): Status(int(number), plain(comes), printed, ADVICE.get(int(number), ""))
        for number, comes, printed in rows("status", "comes", "printed last")
    }


def bounds(option):
    """Returns the least and the greatest number of an option, or None where its value is no number."""
    found = re.match(r"([\d,]+) to ([\d,]+)$", option.range)
    return found and tuple(int(number.replace(",", "")) for number in found.groups())


def number_fault(word, low, high):
    """Says what is wrong with a word that is to be a decimal number, or None."""
    among = f"a number from {low:,} to {high:,}"
    if not (word.isascii() and word.isdigit()):
        return f"is to be {among}, in digits alone"
    if word[0] == "0" and word != "0":
        return f"is to be {among}, without a leading zero"
    return None if low <= int(word) <= high else f"is to be {among}"
