"""./qq picture: draws a run of a script as a page for a browser, of one file and without a library.

The independent model serves the lines and shows each step of it. What it prints has to be what the program prints,
letter by letter: else nothing is drawn."""
import json
import os
import subprocess
import sys

import table
import texts
import words
from cluster import Cluster
from limits import LimitedQueue
from lines import lines_of, Refused
from printed import audits_of
from raft import Append, Appended, Vote, Voted
from summaries import CONFIRMED

MOST_EVENTS, MOST_MESSAGES = 20_000, 30
PAGE = os.path.join(os.path.dirname(os.path.realpath(__file__)), "picture.html")


def said(message):
    """Returns a message's kind, and what it says."""
    if isinstance(message, Append):
        count = len(message.entries)
        what = f"entries {message.prev + 1} to {message.prev + count}" if count else "no entries"
        return "append", f"append of term {message.term}: {what} after {message.prev}, committed {message.commit}"
    if isinstance(message, Appended):
        return (
            "appended",
            f"appended, term {message.term}: {'has' if message.ok else 'lacks; has at most'} {message.index}",
        )
    if isinstance(message, Vote):
        return (
            "vote",
            f"asks for a vote in term {message.term}: its log ends at {message.last} of term {message.last_term}",
        )
    assert isinstance(message, Voted)
    return "voted", f"{'gives' if message.granted else 'refuses'} its vote in term {message.term}"


class Recorder(Cluster):
    """A cluster that writes down what happens in it, event by event, and its state after each line."""

    def __init__(self, script, **options):
        self.script, self.at = script, 0
        self.events, self.states, self.entries, self.known, self.before = [], [], [], {}, {}
        self.sent, self.on_way, self.held = 0, {}, []
        self.prints, self.confirms, self.shown = [], [], 0
        super().__init__(**options)
        self.keep_state()

    def event(self, kind, **words):
        self.events.append({"line": self.at, "kind": kind, **words})

    def line(self, line):
        self.at += 1
        super().line(line)
        self.find_lost()
        self.keep_state()

    def open(self):
        """The queues tell which messages die."""
        for group in self.groups:
            group.queue = LimitedQueue({})
        super().open()

    # Messages

    def act(self, place, node, name, *given):
        group = self.groups[place]
        server, begin, printed, died = group.servers[node], len(group.bag), len(self.output), len(group.queue.died)
        was = server.role, server.term, server.commit, server.noticed
        super().act(place, node, name, *given)
        if (server.role, server.term) != was[:2]:
            self.event("role", queue=place, node=node, role=server.role, term=server.term)
        if server.noticed != was[3] and name == "notice":
            self.event("durable", queue=place, node=node, index=server.durable())
        for message in group.bag[begin:]:
            self.send(place, message)
        if server.commit != was[2]:
            self.event("commit", queue=place, node=node, index=server.commit)
        for text in self.output[printed:]:
            self.event("print", queue=place, node=node, text=text[:-1])
            self.confirm(text[:-1])
        for row, reason in group.queue.died[died:]:
            self.event("die", queue=place, node=node, text=f"message {row.arrival} dies: {reason.replace('_', ' ')}")

    def send(self, place, message):
        kind, what = said(message)
        self.sent += 1
        self.held.append(message)  # so that no later message has its identity
        self.on_way.setdefault((place, id(message)), []).append(self.sent)
        self.event("send", queue=place, node=message.sender, to=message.to, id=self.sent, what=kind, text=what)

    def leave(self, place, message, kind):
        waiting = self.on_way[place, id(message)]
        self.event(kind, queue=place, node=message.to, id=waiting.pop(0))

    def receive(self, place, message):
        self.leave(place, message, "deliver")
        super().receive(place, message)

    def line_copy(self, place, k):
        bag = self.groups[place].bag
        before = len(bag)
        super().line_copy(place, k)
        for copy in bag[before:]:
            self.send(place, copy)

    def find_lost(self):
        """What is on its way no longer, and wasn't delivered, is lost."""
        for place, group in enumerate(self.groups):
            there = {}
            for message in group.bag:
                there[id(message)] = there.get(id(message), 0) + 1
            for (of, key), waiting in self.on_way.items():
                while of == place and len(waiting) > there.get(key, 0):
                    message = next(it for it in self.held if id(it) == key)
                    self.leave(place, message, "lose")
        self.on_way = {key: waiting for key, waiting in self.on_way.items() if waiting}

    def round(self):
        super().round()
        self.find_lost()

    def confirm(self, text):
        """Finds the row of the audit in which a confirmed message stands."""
        found = CONFIRMED.fullmatch(text)
        if not found:
            return
        place = self.reader.names.index(found[2]) if found[2] else 0
        wanted = int(found[1] or 1), int(found[3])
        row = next(
            index
            for index, (entry, told) in enumerate(self.groups[place].rows, 1)
            if told.gate == "fresh" and (entry.command.session, entry.command.seq) == wanted
        )
        self.confirms.append({"line": self.at, "event": len(self.events) - 1, "queue": place, "row": row, "text": text})

    # Nodes

    def line_crash(self, nodes, left):
        image = self.script[self.at - 1].split(" ", 2)[2]
        for node in nodes:
            lanes = self.logs[node].lanes.values()
            waiting, kept = len(self.logs[node].waiting), sum(lane.op for lane in lanes)
            super().line_crash([node], left)
            kept = sum(lane.op for lane in lanes) - kept
            self.event(
                "crash", node=node, text=f"crash {image}: {kept} of {waiting} records that waited for a sync are left"
            )

    def restart(self, nodes):
        down = set(nodes) & self.down
        super().restart(nodes)
        for node in sorted(down):
            self.event("restart", node=node)

    # States

    @staticmethod
    def messages(queue):
        """Returns the messages of a queue that are ready, out or dead, by its audit."""
        found = [[it.arrival, it.count, utf8(it.body[:30]), "ready"] for it in queue.rows.ready()[:MOST_MESSAGES]]
        for consumer in queue.consumers:
            found += [
                [it.arrival, it.count, utf8(it.body[:30]), f"with {consumer.session}/{consumer.tag}, delivery {it.id}"]
                for it in queue.rows.out(consumer)[:MOST_MESSAGES]
            ]
        return found + [
            [it.arrival, it.count, utf8(it.body[:30]), f"dead: {reason.replace('_', ' ')}"] for it, reason in queue.died
        ]

    def number(self, entry):
        """Returns the place of an entry in the list of all."""
        if id(entry) not in self.known:
            self.known[id(entry)] = len(self.entries)
            command = entry.command
            body = f" {command.body[:30]}" if command.kind == "enqueue" else ""
            self.entries.append([entry.term, utf8(texts.command(command) + body), entry])
        return self.known[id(entry)]

    def keep_state(self):
        """Keeps what was printed, and what each member is where it has changed since the line before."""
        self.prints.append("".join(self.output[self.shown :]))
        self.shown, changed = len(self.output), {}
        for place, group in enumerate(self.groups):
            for node, server in group.servers.items():
                state = None
                if server:
                    state = [
                        server.role,
                        server.term,
                        server.commit,
                        server.durable(),
                        len(server.changes),
                        [self.number(entry) for entry in server.log],
                    ]
                if self.before.get((place, node), 0) != state:
                    changed[f"{place} {node}"] = self.before[place, node] = state
            for key, now in ((f"{place}", len(group.rows)), (f"messages {place}", self.messages(group.queue))):
                if self.before.get(key) != now:
                    changed[key] = self.before[key] = now
        self.states.append(changed)


def utf8(text):
    return text.encode("latin-1").decode("utf-8", "replace")


def data_of(cluster, script, status):
    """Returns what the page shows."""
    printed = "".join(cluster.output)
    audits, _ = audits_of(printed.split("\n"))
    queues = [
        {
            "name": group.name,
            "members": group.members,
            "rows": [texts.row(index, *row) for index, row in enumerate(group.rows, 1)],
        }
        for group in cluster.groups
    ]
    end = utf8(cluster.output[-1]) if status else ""
    assert status or [len(audit.rows) for audit in audits] == [len(queue["rows"]) for queue in queues]
    return {
        "nodes": list(cluster.nodes),
        "queues": queues,
        "script": [utf8(line) for line in script],
        "events": [
            {key: utf8(it) if isinstance(it, str) else it for key, it in event.items()} for event in cluster.events
        ],
        "states": cluster.states,
        "entries": [entry[:2] for entry in cluster.entries],
        "end": end,
        "prints": [utf8(text) for text in cluster.prints],
        "confirms": cluster.confirms,
    }


def run(script, options):
    """Has the model serve a script. Returns its cluster and the status."""
    cluster = Recorder(script, **options)
    try:
        for line in script:
            cluster.line(line)
            if len(cluster.events) > MOST_EVENTS:
                raise SystemExit(
                    f"qq: line {cluster.lines}: a picture has at most {MOST_EVENTS:,} events; draw a shorter script"
                )
    except Refused as refused:
        cluster.say(refused.args[0])
        return cluster, refused.args[1]
    cluster.audits()
    return cluster, 0


def differ(found, wanted):
    for number, pair in enumerate(zip(found.split("\n"), wanted.split("\n")), 1):
        if pair[0] != pair[1]:
            return f"line {number} of the output is {utf8(pair[0])!r}, and the model's {utf8(pair[1])!r}"
    return "one output is longer"


def fault_of(program, given):
    """Returns what the words ask for, or says what is wrong with them."""
    if not given or given[0].startswith("--"):
        raise words.Wrong(f"the script is missing: {table.COMMANDS['picture'].form}")
    if not program:
        raise words.Wrong("no program is built yet: ./qq path builds it")
    asked = words.read(["script", *given[1:]])
    others = [name for name in asked.values if name not in table.COMMANDS["picture"].options]
    if others:
        raise words.Wrong(f"`picture` has no option `{others[0]}`: {', '.join(table.COMMANDS['picture'].options)}")
    return asked


def picture(program, given):
    """The words are a script's file and --nodes, --group and --queues. The page goes to the standard output."""
    try:
        asked = fault_of(program, given)
        with open(given[0], "rb") as file:
            text = file.read()
    except (words.Wrong, OSError) as error:
        print(f"qq: {table.unread(error) if isinstance(error, OSError) else error}", file=sys.stderr)
        return 2
    script = list(lines_of(text.decode("latin-1")))
    options = {name: words.number(asked, f"--{name}") for name in ("nodes", "group", "queues")}
    cluster, status = run(script, options)
    done = subprocess.run([program, "script", *given[1:]], input=text, stdout=subprocess.PIPE, check=False)
    printed, wanted = done.stdout.decode("latin-1"), "".join(cluster.output)
    if (done.returncode, printed) != (status, wanted):
        print(f"qq: not drawn, since the program and the model differ: {differ(printed, wanted)}", file=sys.stderr)
        return 1
    with open(PAGE, encoding="utf-8") as page:
        data = json.dumps(data_of(cluster, script, status), ensure_ascii=False, separators=(",", ":"))
        title = f"{os.path.basename(given[0])} over {table.count(options['nodes'], 'node')}"
        sys.stdout.write(
            page.read()
            .replace("/*TITLE*/", title.replace("<", "&lt;"))
            .replace("/*DATA*/", data.replace("<", "\\u003c"))
        )
    return 0
