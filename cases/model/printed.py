"""Reads what a run has printed: its deliveries, what `show` says of members, and the audits. It is the way back of
texts.py. A text's characters are its bytes."""
import re
from collections import namedtuple

# A row of an audit. `size` is that of a body; `answer` has the answer's words, without ` again`.
Row = namedtuple("Row", "index term kind session seq size tag ids answer is_again")
Shown = namedtuple("Shown", "session queue tag id arrival count body")
Member = namedtuple("Member", "node role term last commit")
Audit = namedtuple("Audit", "queue start rows")
Printed = namedtuple("Printed", "audits deliveries members")

HEAD = re.compile(r"audit (.*) (\d+) (\d+)")
DELIVERED = re.compile(r"(?:(\d+) (.+?): )?(?:deliver|taken) (\d+) (\d+) (\d+)(?:/(\d+))? (.*)", re.S)
MEMBER = re.compile(r"(.*) ([1-7]) (?:(follower|candidate|leader) term (\d+) last (\d+) commit (\d+)|down)")
STAMPED = ("enqueue", "get", "subscribe", "cancel", "credit", "settle", "return", "discard", "purge")
TAGGED = ("subscribe", "cancel", "credit", "settle", "return", "discard")
WITH_IDS = ("settle", "return", "discard")


class Unread(Exception):
    """A line that no run prints where it stands."""


def row_of(line):
    """Reads a row of an audit."""
    words = line.split(" ")
    is_again = words[-1] == "again"
    rest = words[2:-1] if is_again else words[2:]
    kind, size, session, seq, tag, ids = rest[0], 0, 0, 0, 0, ()
    if kind in STAMPED:
        session, seq, rest = int(rest[1]), int(rest[2]), rest[3:]
        if kind == "enqueue":
            size, rest = int(rest[0]), rest[1:]
        if kind in TAGGED:
            tag, rest = int(rest[0]), rest[1:]
        if kind in WITH_IDS:
            ids, rest = tuple(int(it) for it in rest[0].split(",")), rest[1:]
    elif kind == "down":
        session, rest = int(rest[1]), rest[2:]
    else:
        rest = rest[2:]
    return Row(int(words[0]), int(words[1]), kind, session, seq, size, tag, ids, tuple(rest), is_again)


def audits_of(lines):
    """Returns the audits at the end of the lines, and the lines before them. A queue's audit has as many rows as its
        head says."""
    found, at = [], 0
    while at < len(lines):
        head = HEAD.fullmatch(lines[at])
        rows = lines[at + 1 : at + 1 + int(head[3])] if head else []
        if head and len(rows) == int(head[3]) and all(row[:1].isdigit() for row in rows):
            try:
                found.append((at, Audit(head[1], int(head[2]), [row_of(row) for row in rows])))
                at += len(rows)
            except (ValueError, IndexError):
                raise Unread(f"line {at + 1} heads an audit of which a row can't be read") from None
        at += 1
    first = min((at for at, _ in found), default=len(lines))
    return [audit for _, audit in found], lines[:first]


def read(text):
    """Reads the output of a run, or its audits alone."""
    audits, before = audits_of([line.removesuffix("\r") for line in text.split("\n")])
    names = [audit.queue for audit in audits]
    deliveries, members = [], {}
    for line in before:
        if found := DELIVERED.fullmatch(line):
            session, queue, *rest = found.groups()
            if session is None or queue in names:
                numbers = [int(it or 0) for it in rest[:4]]
                deliveries.append(Shown(int(session or 1), queue or (names or [""])[0], *numbers, rest[4]))
        elif (found := MEMBER.fullmatch(line)) and found[1] in names:
            numbers = [int(it or 0) for it in found.groups()[3:]]
            members.setdefault(found[1], {})[int(found[2])] = Member(int(found[2]), found[3] or "down", *numbers)
    return Printed(audits, deliveries, members)
