"""./qq queues: a table of queues, of what a run has printed or of a folder.

Of a folder the program prints the audits, over a copy, as the next run would find them; the commands of the logs'
entries are then carried out by the independent model, whose answers are compared with the audits'. So nothing is
changed there."""
import functools
import json
import os
import shutil
import subprocess
import sys
import tempfile
from collections import namedtuple

import explain
import logs
import setups
import table
import texts
from limits import LimitedQueue
from machine import RETURNS
from printed import Unread, read

Message = namedtuple("Message", "arrival count size body where")
Queue = namedtuple("Queue", "name leader term ready unsettled dead confirmed returned messages notes")
HEADS = ("queue", "leader", "term", "ready", "unsettled", "dead", "confirmed", "most returned")
UNKNOWN = None


class Seen:
    """What the rows of an audit and the printed deliveries say of a queue's messages."""

    def __init__(self, audit, deliveries):
        self.live, self.confirmed, self.dead, self.unknown = {}, 0, 0, 0
        self.out = {(it.session, it.tag, it.id): it for it in deliveries}
        self.ended, self.cancelled, self.consumers = set(), set(), set()
        for row in audit.rows:
            if not row.is_again:
                self.row(row)

    def row(self, row):
        if row.kind == "enqueue" and row.answer[0] == "confirmed":
            self.confirmed += 1
            self.live[self.confirmed] = [0, row.size]
        elif row.kind == "get" and row.answer[0] == "message":
            self.live.pop(int(row.answer[1].partition("/")[0]), None)
        elif row.kind == "subscribe" and row.answer[0] == "subscribed":
            self.consumers.add((row.session, row.tag))
        elif row.kind in ("settle", "return", "discard") and row.answer[0] == "done":
            for number in row.ids:
                self.end(row.kind, (row.session, row.tag, number))
        elif row.kind == "purge":
            for arrival in self.live.keys() - self.with_consumers().keys():
                del self.live[arrival]
        elif row.kind == "down":
            for key in [key for key in self.out if key[0] == row.session]:
                self.end("return", key)
            self.consumers = {it for it in self.consumers if it[0] != row.session}

    def end(self, kind, key):
        """A delivery ends, the first time that it is named."""
        if key in self.ended:
            return
        self.ended.add(key)
        shown = self.out.get(key)
        if shown is None:
            self.unknown += kind != "return"
            self.dead += kind == "discard"
        elif shown.arrival in self.live:
            self.live[shown.arrival][0] = shown.count + (kind == "return")
            died = kind == "discard" or kind == "return" and shown.count >= RETURNS
            self.dead += died
            if died or kind == "settle":
                del self.live[shown.arrival]

    def with_consumers(self):
        """Returns the live messages that were delivered and weren't ended, each with its delivery."""
        return {it.arrival: it for key, it in self.out.items() if key not in self.ended and it.arrival in self.live}


def of_printed(audit, printed):
    """Returns a queue as the printed text shows it."""
    shown = [it for it in printed.deliveries if it.queue == audit.queue]
    seen = Seen(audit, shown)
    out, bodies = seen.with_consumers(), {it.arrival: it.body for it in shown}
    unsettled, messages = {}, []
    for arrival, (count, size) in sorted(seen.live.items()):
        it = out.get(arrival)
        count = max(count, it.count if it else 0)
        where = f"with {it.session}/{it.tag} as {it.id}" if it else "ready"
        messages.append(Message(arrival, count, size, bodies.get(arrival, UNKNOWN), where))
        if it:
            unsettled[it.session, it.tag] = unsettled.get((it.session, it.tag), 0) + 1
    ready, notes = len(seen.live) - len(out) - seen.unknown, []
    if seen.unknown:
        notes.append(f"{seen.unknown} messages ended by deliveries that aren't printed here; they count as gone")
    if ready and seen.consumers:
        notes.append("what was delivered and isn't printed here counts as ready")
    returned = max((it.count for it in messages), default=0)
    return Queue(
        audit.queue,
        *leader_of(audit, printed),
        ready,
        unsettled,
        str(seen.dead),
        seen.confirmed,
        returned,
        messages,
        notes,
    )


def leader_of(audit, printed):
    """Returns who leads a queue, as `show` said last, and its term."""
    members = printed.members.get(audit.queue, {}).values()
    leader = max((it for it in members if it.role == "leader"), key=lambda it: it.term, default=None)
    term = max([it.term for it in members] + [row.term for row in audit.rows[-1:]], default=0)
    return (f"node {leader.node}" if leader else "none" if members else "not shown"), term


# Folders


def export_of(setup):
    """Returns an export with the queues of a setup."""
    return {
        "queues": [
            {
                "name": name,
                "durable": True,
                "auto_delete": False,
                "arguments": {"x-queue-type": "quorum", "x-quorum-initial-group-size": size, **arguments},
            }
            for (name, arguments), size in zip(setup.queues, setups.groups(setup))
        ]
    }


def setup_of(root):
    """Returns what a folder was made with, or what its files show where it has no setup."""
    made = setups.read(root)
    if made:
        return made
    numbers = {queue for node in logs.nodes_in(root) for queue in lanes_of(root, node)}
    return setups.Setup(
        max(logs.nodes_in(root)), 3, 4_194_304, None, [(f"q{n}", {}) for n in range(1, max(numbers) + 1)]
    )


@functools.cache
def lanes_of(root, node):
    """Reads a node's log once. A run over the folder makes that stale."""
    log = logs.Log(logs.folder_of(root, node))
    log.read()
    return log.lanes


def copy_of(root, setup, room):
    """Copies the folder's logs, and writes an export of its queues beside them."""
    for node in logs.nodes_in(root):
        shutil.copytree(logs.folder_of(root, node), logs.folder_of(room, node))
    with open(f"{room}/export.json", "w", encoding="utf-8") as file:
        json.dump(export_of(setup), file)


def run_over(program, room, setup, lines):
    """Returns what a run over a copy prints, which serves these lines and shows each queue."""
    lines = [*lines, *(f"show #{number}" for number in range(1, len(setup.queues) + 1))]
    words = [program, "script", "--root", room, "--nodes", str(setup.nodes), "--definitions", f"{room}/export.json"]
    script = "".join(line + "\n" for line in lines).encode()
    done = subprocess.run(words, input=script, stdout=subprocess.PIPE, check=False)
    lanes_of.cache_clear()
    output = done.stdout.decode("latin-1")
    if done.returncode:
        raise Unread(f"a run over this folder would end with status {done.returncode}: {output.strip()}")
    return read(output.partition("\n")[2])


def elections(room, setup, printed):
    """Returns lines that give each queue without a leader one: the member with the longest log stands."""
    found = []
    for place, audit in enumerate(printed.audits):
        if leader_of(audit, printed)[0] == "none":
            lanes = {node: lanes_of(room, node).get(place + 1) for node in range(1, setup.nodes + 1)}
            best = max((node for node, lane in lanes.items() if lane), key=lambda it: lanes[it].last(), default=None)
            found += [f"tick {best} #{place + 1}", "pump"] if best else []
    return found


def entries_of(room, place, audit, printed):
    """Returns the entries of an audit's rows, which the leader's log begins with."""
    leaders = [it for it in printed.members.get(audit.queue, {}).values() if it.role == "leader"]
    if not leaders:
        return []
    leader = max(leaders, key=lambda it: it.term)
    return lanes_of(room, leader.node)[place + 1].entries[: len(audit.rows)]


def of_entries(audit, printed, entries, arguments):
    """Returns a queue as the model carries out its entries, whose answers are compared with the audit's."""
    queue, notes = LimitedQueue(arguments), []
    wrong = sum(
        texts.row(index, entry, queue.step(entry.command)) != texts_of(row)
        for index, (entry, row) in enumerate(zip(entries, audit.rows), 1)
    )
    if wrong or len(entries) != len(audit.rows):
        notes.append(
            f"the model answers {wrong or 'not all'} of {len(audit.rows)} entries as the audit does not: the counts "
            "aren't sure"
        )
    unsettled, messages = {}, [
        Message(row.arrival, row.count, len(row.body), row.body, "ready") for row in queue.rows.ready()
    ]
    for it in queue.consumers:
        out = queue.rows.out(it)
        if out:
            unsettled[it.session, it.tag] = len(out)
        messages += [
            Message(row.arrival, row.count, len(row.body), row.body, f"with {it.session}/{it.tag} as {row.id}")
            for row in out
        ]
    kept = [Message(row.arrival, row.count, len(row.body), row.body, "dead") for row in queue.dead]
    dead = f"{len(queue.died)} ({len(kept)} kept)" if kept else str(len(queue.died))
    returned = max((it.count for it in messages), default=0)
    return Queue(
        audit.queue,
        *leader_of(audit, printed),
        queue.ready_count(),
        unsettled,
        dead,
        queue.arrivals,
        returned,
        messages + kept,
        notes,
    )


def texts_of(row):
    """Returns a row as it is printed."""
    words = [row.index, row.term, row.kind]
    words += [1] if row.kind == "noop" else [row.session] if row.kind == "down" else [row.session, row.seq]
    words += [row.size] if row.kind == "enqueue" else []
    words += [row.tag] if row.tag else []
    words += [",".join(map(str, row.ids))] if row.ids else []
    return " ".join(map(str, [*words, *row.answer])) + (" again" if row.is_again else "")


def of_root(program, root):
    """Returns the queues of a folder, as the next run would find them."""
    if os.path.isdir(root) and not os.access(root, os.R_OK | os.X_OK):
        raise Unread(f"you may not read the folder {root}")
    if not logs.nodes_in(root):
        raise Unread(f"{root} has no files of nodes")
    if not program:
        raise Unread("no program is built yet: ./qq path builds it")
    setup = setup_of(root)
    for it in setups.gone(root, setup):
        print(f"qq: {it}: what it had is missing here, and confirmed messages may be", file=sys.stderr)
    process = explain.holder(os.path.join(root, "lock"))
    if process:
        print(f"qq: process {process} has {root}: this is what its files hold now", file=sys.stderr)
    with tempfile.TemporaryDirectory() as room:
        copy_of(root, setup, room)
        opened = printed = run_over(program, room, setup, [])
        lines = elections(room, setup, opened)
        if lines:
            printed = run_over(program, room, setup, lines)
        found = [
            of_entries(audit, printed, entries_of(room, place, audit, printed), setup.queues[place][1])
            for place, audit in enumerate(printed.audits)
        ]
    return [led(queue, audit, opened) for queue, audit in zip(found, opened.audits)]


def led(queue, audit, opened):
    """Returns a queue with the leader that the opening gave it."""
    leader, term = leader_of(audit, opened)
    if leader == "none":
        queue.notes.append(
            f"no leader when it is opened: its first member hasn't the longest log. `tick N {queue.name}` of "
            "another member and `pump` give it one; the counts are those after that"
        )
    return queue._replace(leader=leader, term=term)


# What is shown


def text(body):
    if body is UNKNOWN:
        return "(its body isn't printed here)"
    shown = body.encode("latin-1").decode("utf-8", "replace")
    shown = "".join(it if it.isprintable() else "\N{REPLACEMENT CHARACTER}" for it in shown)
    return shown if len(shown) <= 60 else f"{shown[:57]}..."


def name_of(queue):
    return queue.name.encode("latin-1").decode("utf-8", "replace")


def cells(queue):
    each = ", ".join(f"{session}/{tag}: {count}" for (session, tag), count in sorted(queue.unsettled.items()))
    unsettled = f"{sum(queue.unsettled.values())}" + (f" ({each})" if each else "")
    return [
        name_of(queue),
        queue.leader,
        queue.term,
        queue.ready,
        unsettled,
        queue.dead,
        queue.confirmed,
        queue.returned,
    ]


def show(queues, with_messages):
    rows = [HEADS, *(cells(queue) for queue in queues)]
    widths = [max(len(str(row[at])) for row in rows) for at in range(len(HEADS))]
    for row in rows:
        print(
            "  ".join(
                str(cell).rjust(width) if at in (2, 3, 6, 7) else str(cell).ljust(width)
                for at, (cell, width) in enumerate(zip(row, widths))
            ).rstrip()
        )
    for queue in queues:
        if with_messages and queue.messages:
            print(f"\n{name_of(queue)}: arrival, bytes, where, body")
            for it in queue.messages:
                print(f"  {texts.mark(it.arrival, it.count)}  {it.size}  {it.where}  {text(it.body)}")
        for note in queue.notes:
            print(f"qq: {name_of(queue)}: {note}", file=sys.stderr)


def queues(program, given):
    """The words are a file that has what a run printed, or a root; --messages shows the messages too."""
    with_messages, words = "--messages" in given, [word for word in given if word != "--messages"]
    try:
        if len(words) == 2 and words[0] == "--root":
            found = of_root(program, words[1])
        elif len(words) == 1 and not words[0].startswith("--"):
            if logs.nodes_in(words[0]):
                raise Unread(f"`{words[0]}` is a folder: ./qq queues --root {words[0]}")
            with open(words[0], encoding="latin-1", newline="") as file:
                printed = read(file.read())
            found = [of_printed(audit, printed) for audit in printed.audits]
            if not found:
                raise Unread(f"{words[0]} has no audit: a run prints it at its end")
        else:
            raise Unread(f"its form is ./qq {table.COMMANDS['queues'].form}")
    except (OSError, Unread) as error:
        print(f"qq: {table.unread(error) if isinstance(error, OSError) else error}", file=sys.stderr)
        return 2
    show(found, with_messages)
    return 0
