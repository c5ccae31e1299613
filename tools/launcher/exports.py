"""Reads RabbitMQ's exported definitions as docs/DEFINITIONS.md says, and names all that is refused in them."""
import json
import math
from collections import namedtuple

import table

LIMITS = {
    "x-quorum-initial-group-size": (1, 7),
    "x-max-length": (0, 2**63 - 1),
    "x-max-length-bytes": (0, 2**63 - 1),
}
CHOICES = {
    "x-queue-type": ("quorum", "classic", "stream"),
    "x-overflow": ("drop-head", "reject-publish"),
    "x-dead-letter-strategy": ("at-most-once", "at-least-once"),
}
TEXTS = ("x-dead-letter-exchange", "x-dead-letter-routing-key")
PASSED_OVER = ("x-queue-leader-locator", "x-queue-version", "x-max-in-memory-length", "x-max-in-memory-bytes")
KINDS = ("direct", "fanout", "topic")
BUILT_IN = {"": "direct", "amq.direct": "direct", "amq.fanout": "fanout", "amq.topic": "topic"}
MOST_QUEUES, DEEPEST = 1_024, 127
Queue = namedtuple("Queue", "name arguments")
# What was read: the quorum queues, the faults in their order, and how many queues, exchanges and bindings there are.
Export = namedtuple("Export", "queues faults counts")


class Reader:
    def __init__(self, ignores_policies):
        self.ignores_policies = ignores_policies
        self.faults, self.queues, self.names, self.skipped = [], [], set(), set()
        self.exchanges, self.bindings, self.others = dict(BUILT_IN), 0, 0
        # Exchanges of other types: a binding from one is refused with it, and isn't told again.
        self.refused = set()

    def fault(self, where, why):
        self.faults.append(f"{where}: {why}")

    def read(self, text):
        if text.startswith((b"\xef\xbb\xbf", b"\xff\xfe", b"\xfe\xff")):
            self.fault("the file", "it begins with a byte order mark: write it as UTF-8 without one")
            return
        try:
            document = json.loads(text.decode("utf-8"), parse_int=integer, parse_float=real, parse_constant=real)
            json.dumps(document, ensure_ascii=False).encode("utf-8")
            if depth(document) > DEEPEST:
                raise ValueError(f"lists and objects nest more than {DEEPEST} deep")
        except (ValueError, RecursionError) as error:
            self.fault("the file", f"it is no JSON: {error}")
            return
        if not isinstance(document, dict):
            self.fault("the file", "it is no object, as an export is")
            return
        for key, one in (
            ("policies", self.policy),
            ("queues", self.queue),
            ("exchanges", self.exchange),
            ("bindings", self.binding),
        ):
            listed = document.get(key, None if key == "queues" else [])
            if not isinstance(listed, list):
                self.fault(f"`{key}`", "it is missing" if key not in document else "it is no list")
                continue
            for number, item in enumerate(listed):
                one(f"{key}[{number}]", item)
        if len(self.queues) > MOST_QUEUES:
            self.fault("the queues", f"there are {len(self.queues):,} quorum queues, and may be {MOST_QUEUES:,}")

    def policy(self, where, item):
        if self.ignores_policies:
            return
        name = item.get("name") if isinstance(item, dict) else None
        self.fault(
            f"policy `{name}`" if name else where, "policies aren't followed here; --ignore-policies passes over all"
        )

    def fields(self, where, item, wanted):
        """Says whether an item has fields of these types. Names those that it lacks."""
        if not isinstance(item, dict):
            self.fault(where, "it is no object")
            return False
        lacks = [name for name, kind in wanted.items() if not isinstance(item.get(name), kind)]
        for name in lacks:
            self.fault(f"{where}.{name}", "it is missing" if name not in item else "it is of another type")
        return not lacks

    def is_elsewhere(self, where, item):
        """Says whether an item is passed over, in another virtual host or with one that is no text."""
        host = item.get("vhost", "/") if isinstance(item, dict) else "/"
        if not isinstance(host, str):
            self.fault(f"{where}.vhost", "it is no text")
        self.others += host != "/"
        return host != "/"

    # Queues

    def queue(self, where, item):
        wanted = {"name": str, "durable": bool, "auto_delete": bool, "arguments": dict}
        if self.is_elsewhere(where, item) or not self.fields(where, item, wanted):
            return
        name, arguments = item["name"], item["arguments"]
        where = f"queue `{name}`"
        if name in self.names:
            self.fault(where, "there are two queues of this name")
        self.names.add(name)
        kind = arguments.get("x-queue-type", "classic")
        if kind not in CHOICES["x-queue-type"]:
            self.fault(where, f"x-queue-type is {json.dumps(kind)}, and may be quorum, classic or stream")
        elif kind != "quorum":
            self.skipped.add(name)
        else:
            self.quorum(where, item)

    def quorum(self, where, item):
        self.name(where, item["name"])
        if not item["durable"]:
            self.fault(where, "durable has to be true")
        if item["auto_delete"]:
            self.fault(where, "auto_delete has to be false")
        for name, value in sorted(item["arguments"].items()):
            why = argument_fault(name, value)
            if why:
                self.fault(where, why)
        used = {
            name: value
            for name, value in sorted(item["arguments"].items())
            if name.startswith("x-") and name not in (*PASSED_OVER, "x-queue-type")
        }
        self.queues.append(Queue(item["name"], used))

    def name(self, where, name):
        if not 1 <= len(name.encode("utf-8", "surrogatepass")) <= 255:
            self.fault(where, "a name has 1 to 255 bytes")

    # Exchanges and bindings

    def exchange(self, where, item):
        if self.is_elsewhere(where, item) or not self.fields(where, item, {"name": str, "type": str}):
            return
        name, kind = item["name"], item["type"]
        where = f"exchange `{name}`"
        if kind not in KINDS:
            self.fault(where, f"its type {kind} isn't supported: {', '.join(KINDS)} are")
            self.refused.add(name)
            return
        self.name(where, name)
        if self.exchanges.setdefault(name, kind) != kind:
            self.fault(where, f"there is one of this name already, of type {self.exchanges[name]}")

    def binding(self, where, item):
        wanted = {"source": str, "destination": str, "destination_type": str, "routing_key": str}
        if self.is_elsewhere(where, item) or not self.fields(where, item, wanted):
            return
        source, to, kind = item["source"], item["destination"], item["destination_type"]
        where = f"binding of `{source}` to `{to}`"
        if kind != "queue":
            self.fault(where, f"its destination is of type {kind}, and queues alone are supported")
        elif to not in self.skipped:
            if source not in self.exchanges and source not in self.refused:
                self.fault(where, f"there is no exchange `{source}`")
            if to not in self.names:
                self.fault(where, f"there is no queue `{to}`")
        self.bindings += 1

    def export(self):
        counts = (
            f"{table.count(len(self.queues), 'quorum queue')}, "
            f"{table.count(len(self.exchanges.keys() | self.refused) - len(BUILT_IN), 'exchange')}, {table.count(self.bindings, 'binding')}; "
            f"skipped: {table.count(len(self.skipped), 'queue')} of other types, "
            f"{table.count(self.others, 'item')} of other virtual hosts"
        )
        return Export(self.queues, self.faults, counts)


def integer(word):
    """An integer that doesn't fit 64 bits, and -0, are floats."""
    value = int(word)
    return value if word != "-0" and -(2**63) <= value < 2**64 else float(word)


def real(word):
    value = float(word)
    if math.isnan(value) or math.isinf(value):
        raise ValueError(f"{word} is no number here")
    return value


def depth(value):
    """Returns how deep lists and objects nest."""
    deep, level = 0, [value]
    while level := [it for it in level if isinstance(it, (dict, list))]:
        deep += 1
        level = [inner for it in level for inner in (it.values() if isinstance(it, dict) else it)]
    return deep


def is_integer(value):
    return isinstance(value, int) and not isinstance(value, bool)


def argument_fault(name, value):
    """Says why an argument of a quorum queue is refused, or None."""
    shown = json.dumps(value)
    if name in CHOICES and value not in CHOICES[name]:
        return f"{name} is {shown}, and may be {' or '.join(CHOICES[name])}"
    if name in LIMITS and not (is_integer(value) and LIMITS[name][0] <= value <= LIMITS[name][1]):
        return f"{name} is {shown}, and may be {LIMITS[name][0]:,} to {LIMITS[name][1]:,}"
    if name == "x-delivery-limit" and not (is_integer(value) and -1 <= value <= 2**64 - 1):
        return f"{name} is {shown}, and may be -1 or {0:,} to {2**64 - 1:,}"
    if name in TEXTS and not (isinstance(value, str) and len(value.encode("utf-8", "surrogatepass")) <= 255):
        return f"{name} is {shown}, and may be a text of at most 255 bytes"
    if name == "x-single-active-consumer" and not isinstance(value, bool):
        return f"{name} is {shown}, and may be true or false"
    known = (*CHOICES, *LIMITS, *TEXTS, *PASSED_OVER, "x-delivery-limit", "x-single-active-consumer")
    return f"{name} isn't supported" if name.startswith("x-") and name not in known else None


def read(text, ignores_policies=False):
    """Reads the bytes of an export."""
    reader = Reader(ignores_policies)
    reader.read(text)
    return reader.export()


def is_export(text):
    """Says whether a file's bytes are meant as an export, and not as a script."""
    return text.lstrip()[:1] in (b"{", b"[")


def group_of(queue):
    """Returns how many nodes a queue's group is to have."""
    return queue.arguments.get("x-quorum-initial-group-size", int(table.options()["--group"].without))
