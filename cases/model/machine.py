"""A queue with default arguments, or with a single active consumer: what each entry of its log makes of it, and what it
answers.

One list has a row for each message that ever came, and each choice is a minimum over that list. `QuickRows` finds
the same rows without a walk through the list."""
import heapq
from collections import namedtuple

RETURNS = 20
LIVE = 1_000_000
CONSUMERS = 1_024
OPEN_SESSIONS = 4_096
SESSIONS_EVER = 1_000_000
WINDOW = 256
UNLIMITED_PREFETCH = 2_000

# A client's command. A leader's first entry has the kind noop, and the end of a session the kind down; neither has
# a number. A consumer without a prefetch is one in link mode.
Command = namedtuple(
    "Command", "kind session seq done tag ids body key prefetch count credit drain",
    defaults=(0, 0, 0, 0, (), "", "", None, 0, 0, False))
# What a step tells. `gate` is what the session's gate said, and fresh where there is none.
Told = namedtuple("Told", "gate answer deliveries")
Delivery = namedtuple("Delivery", "session tag id arrival count body")

LEAD = ("lead",)
DONE = ("done",)
NO_CONSUMER = ("refused", "no-consumer")


class Row:
    """A message. It is ready where it has a key, with a consumer where it has one of those, and else it is gone."""
    __slots__ = "arrival", "count", "body", "key", "consumer", "id"

    def __init__(self, arrival, body, key):
        self.arrival, self.count, self.body = arrival, 0, body
        self.key, self.consumer, self.id = key, None, 0


class Consumer:
    def __init__(self, session, tag, prefetch, turn):
        self.session, self.tag, self.prefetch, self.turn = session, tag, prefetch, turn
        self.credit = self.count = 0
        self.next_id = 1
        self.cancelled = False


class Rows:
    """All messages that ever came, in the order in which they came."""

    def __init__(self):
        self.all = []

    def add(self, row):
        self.all.append(row)

    def take(self, row, consumer, number):
        row.key, row.consumer, row.id = None, consumer, number

    def put_back(self, row, key):
        row.key, row.consumer = key, None

    def forget(self, row):
        row.key = row.consumer = None

    def ready(self):
        return [row for row in self.all if row.key is not None]

    def next(self):
        return min(self.ready(), key=lambda row: row.key, default=None)

    def out(self, consumer):
        return sorted((row for row in self.all if row.consumer is consumer), key=lambda row: row.id)

    def out_count(self, consumer):
        return len(self.out(consumer))

    def live(self):
        return sum(1 for row in self.all if row.key is not None or row.consumer is not None)


class QuickRows(Rows):
    """The same, by a heap of the ready messages and a table of each consumer's."""

    def __init__(self):
        self.heap = []
        self.with_consumers = {}
        self.count = 0

    def add(self, row):
        self.count += 1
        heapq.heappush(self.heap, (row.key, row))

    def _leave(self, row):
        """A ready row is taken only where it is the next one."""
        if row.consumer is not None:
            del self.with_consumers[row.consumer][row.id]
        elif self.heap and self.heap[0][1] is row:
            heapq.heappop(self.heap)
        else:
            self.heap = [other for other in self.heap if other[1] is not row]
            heapq.heapify(self.heap)

    def take(self, row, consumer, number):
        self._leave(row)
        super().take(row, consumer, number)
        self.with_consumers.setdefault(consumer, {})[number] = row

    def put_back(self, row, key):
        self._leave(row)
        super().put_back(row, key)
        heapq.heappush(self.heap, (key, row))

    def forget(self, row):
        self._leave(row)
        super().forget(row)
        self.count -= 1

    def ready(self):
        return [row for _, row in sorted(self.heap)]

    def next(self):
        return self.heap[0][1] if self.heap else None

    def out(self, consumer):
        return [row for _, row in sorted(self.with_consumers.get(consumer, {}).items())]

    def out_count(self, consumer):
        return len(self.with_consumers.get(consumer, ()))

    def live(self):
        return self.count


class Session:
    def __init__(self):
        self.next, self.mark, self.kept, self.greatest_tag = 1, 0, {}, 0


class Queue:
    def __init__(self, rows, single_active=False):
        self.rows, self.single_active = rows, single_active
        self.consumers = []
        self.sessions = {}
        self.ended = set()
        self.sessions_ever = 0
        self.arrivals = self.orders = self.returns = self.turns = 0

    def step(self, command):
        """Applies one entry."""
        if command.kind in ("noop", "down"):
            answer = LEAD if command.kind == "noop" else self.down(command)
            return Told("fresh", answer, self.check_out_all())
        gate, answer = self.gate(command)
        if gate != "fresh":
            return Told(gate, answer, [])
        answer = self.act(command)
        deliveries = self.check_out_all()
        if command.kind == "credit" and answer[0] == "credited" and command.drain:
            answer = ("credited", self.drain(self.consumer(command)))
        self.sessions[command.session].kept[command.seq] = answer
        return Told("fresh", answer, deliveries)

    # The session gate

    def gate(self, command):
        """Says whether a number is carried out, with the answer where it isn't. A low mark moves also then."""
        if command.session in self.ended:
            return "ended", ("ended",)
        session = self.sessions.get(command.session)
        if session is None:
            if command.seq != 1:
                return "gap", ("gap", 1)
            if len(self.sessions) >= OPEN_SESSIONS or self.sessions_ever >= SESSIONS_EVER:
                return "sessions full", ("sessions full",)
            session = self.sessions[command.session] = Session()
            self.sessions_ever += 1
        mark = max(session.mark, min(command.done, session.next - 1))
        for number in range(session.mark + 1, mark + 1):
            del session.kept[number]
        session.mark = mark
        if command.seq <= mark:
            return "forgotten", ("forgotten", command.seq)
        if command.seq < session.next:
            return "again", self.answer_again(command, session.kept[command.seq])
        if command.seq > session.next:
            return "gap", ("gap", session.next)
        if session.next - 1 - mark == WINDOW:
            return "window full", ("window full",)
        session.next += 1
        return "fresh", None

    @staticmethod
    def answer_again(command, kept):
        """A client of another run may have given another command this number: a tag in the answer is then its own, 0
        where it has none."""
        return ("subscribed", command.tag) if kept[0] == "subscribed" else kept

    def down(self, command):
        for consumer in [each for each in self.consumers if each.session == command.session]:
            for row in self.rows.out(consumer):
                self.give_back(row)
            self.consumers.remove(consumer)
        if command.session in self.sessions:
            del self.sessions[command.session]
            self.ended.add(command.session)
        elif command.session not in self.ended and self.sessions_ever < SESSIONS_EVER:
            self.sessions_ever += 1
            self.ended.add(command.session)
        return ("down",)

    # The commands

    def act(self, command):
        """Carries a command out. A consumer whose credit it brings from 0 to more draws a turn, one that has
        nothing left after its cancel goes."""
        consumer = self.consumer(command) if command.tag else None
        before = self.free_credit(consumer) if consumer else 0
        answer = getattr(self, "do_" + command.kind)(command, consumer)
        if consumer and consumer.cancelled and self.rows.out_count(consumer) == 0:
            self.consumers.remove(consumer)
        elif consumer and before == 0 and self.free_credit(consumer) > 0:
            consumer.turn = self.turn()
        return answer

    def do_enqueue(self, command, _):
        if self.rows.live() >= LIVE:
            return ("rejected", command.seq, "live")
        self.arrivals += 1
        self.orders += 1
        self.rows.add(Row(self.arrivals, command.body, (1, self.orders)))
        return ("confirmed", command.seq)

    def do_get(self, command, _):
        if self.single_active:
            return ("refused", "single-active")
        row = self.rows.next()
        if row is None:
            return ("empty",)
        self.rows.forget(row)
        return ("message", row.arrival, row.count, row.body)

    def do_subscribe(self, command, _):
        session = self.sessions[command.session]
        if command.tag <= session.greatest_tag:
            return ("refused", "number-spent")
        if len(self.consumers) >= CONSUMERS:
            return ("refused", "consumers-full")
        session.greatest_tag = command.tag
        self.consumers.append(Consumer(command.session, command.tag, command.prefetch, self.turn()))
        return ("subscribed", command.tag)

    def do_cancel(self, command, consumer):
        if consumer is None or consumer.cancelled:
            return NO_CONSUMER
        consumer.cancelled = True
        return DONE

    def do_credit(self, command, consumer):
        if consumer is None or consumer.cancelled:
            return NO_CONSUMER
        if consumer.prefetch is not None:
            return ("refused", "wrong-mode")
        consumer.credit = max(0, command.count + command.credit - consumer.count)
        return ("credited", 0)

    def do_settle(self, command, consumer):
        return self.finish(command, consumer, self.rows.forget)

    def do_return(self, command, consumer):
        return self.finish(command, consumer, self.give_back)

    def do_discard(self, command, consumer):
        return self.finish(command, consumer, self.rows.forget)

    def finish(self, command, consumer, end):
        if consumer is None:
            return NO_CONSUMER
        out = {row.id: row for row in self.rows.out(consumer)}
        for number in command.ids:
            if number in out:
                end(out.pop(number))
        return DONE

    def do_purge(self, command, _):
        ready = self.rows.ready()
        for row in ready:
            self.rows.forget(row)
        return ("purged", len(ready))

    # Rows and consumers

    def give_back(self, row):
        """Returns a message; the one return too many ends it, since the queue keeps no dead ones."""
        row.count += 1
        if row.count > RETURNS:
            self.rows.forget(row)
        else:
            self.returns += 1
            self.rows.put_back(row, (0, self.returns))

    def consumer(self, command):
        return next((each for each in self.consumers
                     if (each.session, each.tag) == (command.session, command.tag)), None)

    def out(self, session, tag, first):
        """Returns what is out with a consumer, from an id on, as it was delivered."""
        return [Delivery(session, tag, row.id, row.arrival, row.count, row.body)
                for consumer in self.consumers if (consumer.session, consumer.tag) == (session, tag)
                for row in self.rows.out(consumer) if row.id >= first]

    def free_credit(self, consumer):
        if consumer.prefetch is None:
            return consumer.credit
        return max(0, (consumer.prefetch or UNLIMITED_PREFETCH) - self.rows.out_count(consumer))

    def turn(self):
        self.turns += 1
        return self.turns

    def next_consumer(self):
        """Returns the consumer with credit that was served the longest time ago; a single active one is the first that
        joined."""
        waiting = [each for each in self.consumers if not each.cancelled]
        if self.single_active:
            waiting = waiting[:1]
        waiting = [each for each in waiting if self.free_credit(each) > 0]
        return min(waiting, key=lambda each: each.turn, default=None)

    def check_out_all(self):
        """Delivers while there are a message and a consumer for it."""
        deliveries = []
        while True:
            row, consumer = self.rows.next(), self.next_consumer()
            if row is None or consumer is None:
                return deliveries
            self.rows.take(row, consumer, consumer.next_id)
            consumer.next_id += 1
            if consumer.prefetch is None:
                consumer.credit -= 1
                consumer.count += 1
            consumer.turn = self.turn()
            deliveries.append(
                Delivery(consumer.session, consumer.tag, row.id, row.arrival, row.count, row.body))

    def drain(self, consumer):
        left, consumer.credit = consumer.credit, 0
        consumer.count += left
        return left
