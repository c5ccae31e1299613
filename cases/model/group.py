"""The group of a queue's servers with its audit, and what a node's log has of its queues."""
from itertools import accumulate

from machine import Command, Queue, QuickRows, Rows
from raft import Entry, Lane

RECORD_BYTES = 4 + 1 + 4 + 8 + 8
CHANGE_BYTES = 8 + 1 + 8 + 4
ENTRY_BYTES = 8 + 4 + 8 + 1
STAMP_BYTES = 1 + 4 + 8 + 8 + 8
FIELD_BYTES = {"get": 0, "subscribe": 4 + 1 + 2, "cancel": 4, "credit": 4 + 4 + 4 + 1, "purge": 0}


def entry_of(term, command):
    """Returns a command's entry with the length of its bytes."""
    if command.kind == "noop":
        fields = 1
    elif command.kind == "down":
        fields = 1 + 4 + 8
    elif command.kind == "enqueue":
        fields = STAMP_BYTES + 1 + 4 + len(command.body) + 1 + len(command.key) + 2
    elif command.ids:
        fields = STAMP_BYTES + 4 + 4 + 8 * len(command.ids)
    else:
        fields = STAMP_BYTES + FIELD_BYTES[command.kind]
    return Entry(term, command, ENTRY_BYTES + fields)


def first_entry(term):
    return entry_of(term, Command("noop"))


class Group:
    """A queue's servers, the messages on their way between them, and its audit."""

    def __init__(self, name, members, single_active=False):
        self.name, self.members, self.single_active = name, members, single_active
        self.servers = dict.fromkeys(members)
        self.bag = []
        self.entries, self.rows = [], []
        self.queue = Queue(QuickRows(), single_active)

    def leader(self):
        """Returns the ready leader of the latest term."""
        ready = [server for server in self.servers.values() if server and server.is_ready()]
        return max(ready, key=lambda server: server.term, default=None)

    def act(self, node, name, *words):
        """Makes a server do something. Returns the rows that this shows."""
        server = self.servers[node]
        before = server.commit
        getattr(server, name)(*words)
        self.bag += server.sent
        server.sent = []
        if server.commit == before:
            return []
        self.commit(server, before)
        if not server.is_ready():
            return []
        return [row for row in self.rows[before:server.commit] if row[0].term == server.term]

    def commit(self, server, before):
        """Adds what a server commits to the audit, where that isn't there yet."""
        entries = server.log[before:server.commit]
        known = self.entries[before:server.commit]
        assert known == entries[:len(known)], "a row of the audit was replaced"
        for entry in entries[len(known):]:
            self.entries.append(entry)
            self.rows.append((entry, self.queue.step(entry.command)))

    def applied(self, server):
        """Returns the queue as a server has applied its entries."""
        if server.commit == len(self.entries):
            return self.queue
        queue = Queue(QuickRows(), self.single_active)
        for entry in server.log[:server.commit]:
            queue.step(entry.command)
        return queue

    def is_idle(self):
        return not self.bag and all(
            server is None or server.op == server.noticed for server in self.servers.values())

    def fold_again(self):
        """Says whether the plain list of rows gives the same audit."""
        plain = Queue(Rows(), self.single_active)
        return all(plain.step(entry.command) == told for entry, told in self.rows)


class Log:
    """What a node's log has of each queue: what a sync has kept, and the records behind that, in their order."""

    def __init__(self, groups):
        self.lanes = {place: Lane() for place in groups}
        self.waiting = []

    def write(self, place, changes):
        self.waiting += [(place, change) for change in changes]

    def sync(self):
        for place, change in self.waiting:
            self.lanes[place].change(change)
        self.waiting = []

    def ends(self):
        """Returns the place behind each record that waits for a sync."""
        return list(accumulate(
            RECORD_BYTES + CHANGE_BYTES + sum(entry.size for entry in change.entries) for _, change in self.waiting))

    def crash(self, left):
        """Keeps the whole records of the first bytes that wait, or of all where `left` is None."""
        if left is not None:
            self.waiting = self.waiting[:sum(end <= left for end in self.ends())]
        self.sync()
