"""A queue with RabbitMQ's arguments, by the rules of docs/MACHINE.md and docs/DEFINITIONS.md: delivery and length
limits, what a full queue does, and dead messages that stay at their source."""
from machine import LIVE, Queue, QuickRows, RETURNS

UNLIMITED = -1


class LimitedQueue(Queue):
    """What a queue with arguments is, beside one without. `died` has the rows of the messages that died, each with its
    reason; `dead` has those that stay."""

    def __init__(self, arguments):
        super().__init__(QuickRows(), arguments.get("x-single-active-consumer", False))
        self.limit = arguments.get("x-delivery-limit", RETURNS)
        self.length, self.bytes = arguments.get("x-max-length"), arguments.get("x-max-length-bytes")
        self.rejects = arguments.get("x-overflow") == "reject-publish"
        self.keeps_dead = (
            self.rejects
            and arguments.get("x-dead-letter-strategy") == "at-least-once"
            and "x-dead-letter-exchange" in arguments
        )
        self.died, self.dead = [], []

    def step(self, command):
        told = super().step(command)
        if not self.rejects:
            while self.is_over():
                self.die(self.rows.next(), "maxlen")
        return told

    def ready_count(self):
        return len(self.rows.heap)

    def ready_bytes(self):
        return sum(len(row.body) for _, row in self.rows.heap)

    def is_over(self):
        return (
            self.length is not None
            and self.ready_count() > self.length
            or (self.bytes is not None and self.ready_bytes() > self.bytes)
        )

    def do_enqueue(self, command, consumer):
        if self.rejects and self.length is not None and self.ready_count() >= self.length:
            return ("rejected", command.seq, "length")
        if self.rejects and self.bytes is not None and self.ready_bytes() >= self.bytes:
            return ("rejected", command.seq, "bytes")
        if self.rows.live() + len(self.dead) >= LIVE:
            return ("rejected", command.seq, "live")
        return super().do_enqueue(command, consumer)

    def do_discard(self, command, consumer):
        return self.finish(command, consumer, lambda row: self.die(row, "rejected"))

    def die(self, row, reason):
        self.died.append((row, reason))
        self.rows.forget(row)
        if self.keeps_dead:
            self.dead.append(row)

    def give_back(self, row):
        """With a delivery limit a returned message is served before others, and without one after them."""
        row.count += 1
        if self.limit != UNLIMITED and row.count > self.limit:
            self.die(row, "delivery_limit")
        elif self.limit != UNLIMITED:
            self.returns += 1
            self.rows.put_back(row, (0, self.returns))
        else:
            self.orders += 1
            self.rows.put_back(row, (1, self.orders))
