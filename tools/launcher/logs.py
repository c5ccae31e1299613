"""Reads the log files of a node's folder, whose bytes docs/STORAGE.md gives, and changes nothing there.

What is read is what a recovery would read: the newest file with a whole header, and from there the files back that the
headers name. The entries are commands of the independent model."""
import hashlib
import os
import re
import struct
import time
from collections import namedtuple

import model  # it lets the modules of the model be imported
from machine import Command
from raft import Entry

HEADER, RECORD, MARK = 38, 25, 8
KINDS = {1: "change", 2: "snapshot", 3: "segment", 4: "carry"}
STAMPED = {
    1: "enqueue",
    2: "get",
    3: "subscribe",
    4: "cancel",
    5: "credit",
    6: "settle",
    7: "return",
    8: "discard",
    9: "purge",
}
Record = namedtuple("Record", "file place kind queue op payload")
# What is wrong with a log file: its path, the first byte of what is wrong there, and why.
Damage = namedtuple("Damage", "path place why")


class Lane:
    """What the records of a queue say: its member's term and vote, and its entries."""

    def __init__(self):
        self.op = self.term = self.vote = 0
        self.entries = []

    def last(self):
        """Returns the term and the index of the last entry."""
        return (self.entries[-1].term if self.entries else 0), len(self.entries)


def mark(*parts):
    return hashlib.sha256(b"".join(parts)).digest()[:MARK]


def path_of(folder, number):
    return os.path.join(folder, f"{number:020}.log")


def numbers_in(folder):
    """Returns the numbers of the log files in a folder, in rising order."""
    try:
        names = os.listdir(folder)
    except OSError:
        return []
    return sorted(int(name[:20]) for name in names if re.fullmatch(r"[0-9]{20}\.log", name))


class Log:
    """The log of one node. `damage` has what a recovery would refuse, as far as it is seen here."""

    def __init__(self, folder):
        self.folder, self.damage, self.lanes = folder, None, {}
        self.chain = self.find_chain(numbers_in(folder))

    def bytes_of(self, number):
        with open(path_of(self.folder, number), "rb") as file:
            return file.read()

    def header(self, number):
        """Returns a file's number, and the number and the good length of the file before it; None where no header is
        whole."""
        with open(path_of(self.folder, number), "rb") as file:
            text = file.read(HEADER)
        if len(text) < HEADER or text[:5] != b"QQLOG" or text[30:] != mark(text[:30]):
            return None
        if text[5] != 1:
            self.refuse(number, 5, f"it is of version {text[5]} of the log's format, and 1 is read here")
        return struct.unpack(">QQQ", text[6:30])

    def refuse(self, number, place, why):
        if self.damage is None:
            self.damage = Damage(path_of(self.folder, number), place, why)

    def find_chain(self, numbers):
        """Returns the files that count, the oldest first, each with its good length, None of the newest one."""
        whole = [number for number in reversed(numbers) if self.header(number)]
        chain, good = [], None
        number = whole[0] if whole else 0
        while number in numbers and not self.damage:
            header = self.header(number)
            if header is None or header[0] != number or header[1] >= number:
                self.refuse(number, 0, "its header isn't whole, or isn't of this file")
                break
            chain.append((number, good))
            number, good = header[1:]
        return chain[::-1]

    def records(self):
        """Yields the records of the chain, as far as they are whole."""
        for number, good in self.chain:
            place = yield from self.records_of(number, good)
            if good is not None and place != good:
                self.refuse(
                    number, place, f"a record isn't whole there; the next file names {good:,} bytes of this one"
                )
                return

    def records_of(self, number, good=None):
        """Yields the whole records of a file, and returns where they end."""
        text, place = self.bytes_of(number), HEADER
        salt, end = struct.pack(">Q", number), len(text) if good is None else good
        while place < end:
            size = int.from_bytes(text[place : place + 4], "big")
            stop = place + RECORD + size
            if stop > end or mark(salt, text[place : stop - MARK]) != text[stop - MARK : stop]:
                break
            kind, queue, op = struct.unpack(">BIQ", text[place + 4 : place + 17])
            yield Record(number, place, kind, queue, op, text[place + 17 : stop - MARK])
            place = stop
        return place

    def read(self, until=None):
        """Puts the lanes together, until a moment of the clock. Says whether all was read."""
        for count, record in enumerate(self.records()):
            lane = self.lanes.setdefault(record.queue, Lane())
            if record.kind == 1 and record.op == lane.op + 1:
                change(lane, record)
            elif record.kind != 4 or not carries(lane, record, bool(self.chain) and record.file == self.chain[0][0]):
                self.refuse(
                    record.file,
                    record.place,
                    f"{KINDS.get(record.kind, 'a record')} {record.op} of queue "
                    f"{record.queue} doesn't follow what stands before it",
                )
                return False
            if until and count % 64 == 0 and time.monotonic() > until:
                return False
        return self.damage is None


def change(lane, record):
    """Makes a change of the queue's lane."""
    term, vote, keep, count = struct.unpack(">QBQI", record.payload[:21])
    lane.op, lane.term, lane.vote = record.op, term, vote
    del lane.entries[keep:]
    place = 21
    for _ in range(count):
        term, size = struct.unpack(">QI", record.payload[place : place + 12])
        lane.entries.append(Entry(term, command_of(record.payload[place + 12 : place + 12 + size]), 12 + size))
        place += 12 + size


def carries(lane, record, is_first):
    """Says whether a carry restates the lane. The first file's gives the lane its beginning."""
    term, vote = struct.unpack(">QB", record.payload[:9])
    (last,) = struct.unpack(">Q", record.payload[-8:])
    if is_first and lane.op == 0 and last == 0:
        lane.op, lane.term, lane.vote = record.op, term, vote
    return (lane.op, lane.term, lane.vote, len(lane.entries)) == (record.op, term, vote, last)


def command_of(text):
    """Returns an entry's command. A body and a key are text with a letter a byte."""
    kind = text[8]
    if kind == 0:
        return Command("noop")
    if kind == 10:
        return Command("down", struct.unpack(">BIQ", text[9:22])[2])
    if kind not in STAMPED:
        return Command("noop")
    _, _, session, seq, done = struct.unpack(">BIQQQ", text[9:38])
    rest, more = text[38:], {}
    if kind == 1:
        rest = rest[1:] if rest[0] == 0 else rest[13:]
        size = int.from_bytes(rest[:4], "big")
        more["body"] = rest[4 : 4 + size].decode("latin-1")
        more["key"] = rest[5 + size : 5 + size + rest[4 + size]].decode("latin-1")
    elif kind in (3, 4, 5, 6, 7, 8):
        more["tag"] = int.from_bytes(rest[:4], "big")
    if kind == 3 and rest[4] == 0:
        more["prefetch"] = int.from_bytes(rest[5:7], "big")
    elif kind == 5:
        more["count"], more["credit"], drain = struct.unpack(">IIB", rest[4:13])
        more["drain"] = drain == 1
    elif kind in (6, 7, 8):
        more["ids"] = struct.unpack(f">{int.from_bytes(rest[4:8], 'big')}Q", rest[8:])
    return Command(STAMPED[kind], session, seq, done, **more)


def nodes_in(root):
    """Returns the numbers of the nodes that have log files under a root, as far as it may be read."""
    try:
        names = os.listdir(root)
    except OSError:
        return []
    found = [int(it[5:]) for it in names if re.fullmatch(r"node-[1-7]", it)]
    return sorted(node for node in found if numbers_in(folder_of(root, node)))


def folder_of(root, node):
    return os.path.join(root, f"node-{node}")


def newest(root):
    """Returns the number of each node's newest log file."""
    return {node: numbers_in(folder_of(root, node))[-1] for node in nodes_in(root)}


def has_changes(root, before):
    """Says whether a node's files have a change that is newer than these newest files. An opening that is refused makes
    files too, but their records repeat what stands before them."""
    for node in nodes_in(root):
        log = Log(folder_of(root, node))
        later = [number for number in numbers_in(log.folder) if number > before.get(node, 0)]
        if any(record.kind == 1 for number in later for record in log.records_of(number)):
            return True
    return False


def sessions_in(root, seconds):
    """Returns the sessions of clients whose commands the logs of a root have, by queue's number; and whether all was
    read within these seconds."""
    found, is_all = {}, True
    until = time.monotonic() + seconds
    for node in nodes_in(root):
        log = Log(folder_of(root, node))
        is_all = log.read(until) and is_all
        for queue, lane in log.lanes.items():
            for entry in lane.entries:
                if entry.command.kind not in ("noop", "down"):
                    of = found.setdefault(queue, {})
                    of[entry.command.session] = max(of.get(entry.command.session, 0), entry.command.seq)
    return found, is_all
