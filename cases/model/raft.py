"""A Raft server, by the rules of figure 3.1 of Ongaro's dissertation, whose changes become durable late.

A step hands out one change of term, vote and log at most. What a leader sends leaves at once; a vote, a request for
one and each reply wait until the change that was handed out last is noticed to be durable."""
from collections import namedtuple

FOLLOWER, CANDIDATE, LEADER = "follower", "candidate", "leader"
ENTRIES_OF_A_MESSAGE = 256
BYTES_OF_A_MESSAGE = 1 << 20

Entry = namedtuple("Entry", "term command size")
Change = namedtuple("Change", "op term vote keep entries")
Vote = namedtuple("Vote", "sender to term last last_term")
Voted = namedtuple("Voted", "sender to term granted")
Append = namedtuple("Append", "sender to term prev prev_term commit entries")
Appended = namedtuple("Appended", "sender to term ok index")


def fitting(entries):
    """Returns as many of the entries as one message holds, but at least one."""
    size = 0
    for count, entry in enumerate(entries):
        size += entry.size
        if size > BYTES_OF_A_MESSAGE and count > 0:
            return entries[:count]
    return entries


class Lane:
    """What a queue's changes in a log come to."""

    def __init__(self):
        self.op = self.term = 0
        self.vote = None
        self.log = []

    def change(self, change):
        assert change.op == self.op + 1 and change.keep <= len(self.log)
        self.op, self.term, self.vote = change.op, change.term, change.vote
        self.log[change.keep:] = change.entries

    def copy(self):
        lane = Lane()
        lane.op, lane.term, lane.vote, lane.log = self.op, self.term, self.vote, self.log[:]
        return lane


class Server:
    """A member. What it hands out stands in `sent`, its messages, and `changes`, which wait for its node's log."""

    def __init__(self, node, members, lane, first_entry):
        self.node, self.first_entry = node, first_entry
        self.peers = [member for member in members if member != node]
        self.majority = len(members) // 2 + 1
        self.term, self.vote, self.log = lane.term, lane.vote, lane.log
        self.op = self.noticed = lane.op
        self.role, self.commit = FOLLOWER, 0
        self.next, self.match, self.votes = {}, {}, set()
        self.vote_op = self.first_index = 0
        self.sent, self.changes = [], []
        self.held = []          # messages, each with the change that has to be noticed before it leaves
        self.not_durable = []   # changes that aren't noticed, each with the index of its first entry

    # What it is

    def last(self):
        return len(self.log)

    def term_at(self, index):
        return self.log[index - 1].term if index else 0

    def durable(self):
        """Returns up to which index its log is noticed to be durable."""
        return min((first - 1 for _, first in self.not_durable), default=self.last())

    def is_ready(self):
        """Says whether it leads and has committed its first entry."""
        return self.role == LEADER and self.commit >= self.first_index

    # What it hands out

    def hand_out(self, keep, entries):
        self.op += 1
        self.log[keep:] = entries
        self.changes.append(Change(self.op, self.term, self.vote, keep, entries))
        if entries:
            self.not_durable.append((self.op, keep + 1))

    def hold(self, message):
        if self.op <= self.noticed:
            self.sent.append(message)
        else:
            self.held.append((self.op, message))

    def send(self, peer):
        """Sends what the peer may lack, or that there is nothing."""
        prev = self.next[peer] - 1
        entries = fitting(self.log[prev:prev + ENTRIES_OF_A_MESSAGE])
        self.sent.append(Append(self.node, peer, self.term, prev, self.term_at(prev), self.commit, entries))
        self.next[peer] += len(entries)

    # Its inputs

    def tick(self):
        if self.role == LEADER:
            for peer in self.peers:
                self.next[peer] = self.match[peer] + 1
                self.send(peer)
            return
        self.term += 1
        self.vote, self.role, self.votes = self.node, CANDIDATE, set()
        self.hand_out(self.last(), [])
        self.vote_op = self.op
        for peer in self.peers:
            self.hold(Vote(self.node, peer, self.term, self.last(), self.term_at(self.last())))

    def submit(self, entry):
        self.hand_out(self.last(), [entry])
        for peer in self.peers:
            self.send(peer)

    def notice(self, op):
        if op <= self.noticed:
            return
        self.noticed = op
        self.sent += [message for of, message in self.held if of <= op]
        self.held = [(of, message) for of, message in self.held if of > op]
        self.not_durable = [(of, first) for of, first in self.not_durable if of > op]
        self.win()
        self.count()

    def receive(self, message):
        before = self.term, self.vote
        if message.term > self.term:
            self.term, self.vote, self.role = message.term, None, FOLLOWER
        keep, entries, reply = self.answer(message)
        if entries or (self.term, self.vote) != before:
            self.hand_out(keep, entries)
        if reply:
            self.hold(reply)
        if message.term == self.term:
            self.hear(message)

    # Messages

    def answer(self, message):
        """Returns up to where the log is kept, what is added to it, and the reply."""
        if isinstance(message, Vote):
            granted = message.term == self.term and self.grants(message)
            if granted:
                self.vote = message.sender
            return self.last(), [], Voted(self.node, message.sender, self.term, granted)
        if isinstance(message, Append):
            return self.take(message)
        return self.last(), [], None

    def grants(self, vote):
        own = self.term_at(self.last()), self.last()
        return self.vote in (None, vote.sender) and (vote.last_term, vote.last) >= own

    def take(self, append):
        def reply(ok, index):
            return Appended(self.node, append.sender, self.term, ok, index)

        if append.term < self.term:
            return self.last(), [], reply(False, self.last())
        self.role = FOLLOWER
        if append.prev > self.last() or self.term_at(append.prev) != append.prev_term:
            return self.last(), [], reply(False, min(append.prev - 1, self.last()))
        same = 0
        for index, entry in enumerate(append.entries, append.prev + 1):
            if index > self.last() or self.term_at(index) != entry.term:
                break
            same += 1
        end = append.prev + len(append.entries)
        missing = append.entries[same:]
        self.commit = max(self.commit, min(append.commit, end))
        return (append.prev + same if missing else self.last()), missing, reply(True, end)

    def hear(self, message):
        """Does what a message of the server's own term asks for beside the reply."""
        if isinstance(message, Voted) and self.role == CANDIDATE and message.granted:
            self.votes.add(message.sender)
            self.win()
        elif isinstance(message, Appended) and self.role == LEADER:
            self.hear_appended(message)

    def hear_appended(self, reply):
        peer = reply.sender
        if reply.ok:
            self.match[peer] = max(self.match[peer], reply.index)
            self.next[peer] = max(self.next[peer], self.match[peer] + 1)
            if self.next[peer] <= self.last():
                self.send(peer)
            self.count()
        else:
            self.next[peer] = max(self.match[peer] + 1, min(self.next[peer] - 1, reply.index + 1))
            self.send(peer)

    # Elections and commits

    def win(self):
        if self.role != CANDIDATE:
            return
        own = 1 if self.vote_op <= self.noticed else 0
        if len(self.votes) + own < self.majority:
            return
        self.role, self.first_index = LEADER, self.last() + 1
        self.next = {peer: self.last() + 1 for peer in self.peers}
        self.match = {peer: 0 for peer in self.peers}
        self.submit(self.first_entry(self.term))

    def count(self):
        """Commits what a majority has, where that ends in an entry of the server's own term."""
        if self.role != LEADER:
            return
        have = sorted([self.durable(), *self.match.values()], reverse=True)[self.majority - 1]
        if have > self.commit and self.term_at(have) == self.term:
            self.commit = have
