"""An independent model of `qq script`, with which worked cases, examples and workloads are compared: nodes with their
logs and queues, the clients' sessions, and what each line of a script prints.

It is written from the rules in words that stand in docs/ (SCRIPT.md, WORLD.md, MACHINE.md, CLIENTS.md, RAFT.md,
STORAGE.md), and shares nothing with the program. Its queues have no arguments, or all have a single active consumer. Of
the logs' bytes it keeps the lengths, since a crash may cut them; junk that a crash leaves counts as no record, and that
a full file is replaced shows nowhere."""
import texts
from group import Group, Log, entry_of, first_entry
from lines import CLIENT_LINES, Fault, LONGEST_BODY, Reader, Refused, lines_of
from machine import Command
from raft import Server
from takers import KEEP, Takers

ROUNDS = 10_000
PLAIN_FOLD = 2_000
OPEN_NUMBERS = 256
# Lines that give one command to a queue, after the session and the queue: its kind, and what the other words are.
COMMANDS = {
    "get": ("get", ()), "subscribe": ("subscribe", ("tag", "prefetch")), "link": ("subscribe", ("tag",)),
    "credit": ("credit", ("tag", "count", "credit", "drain")), "settle": ("settle", ("tag", "ids")),
    "return": ("return", ("tag", "ids")), "discard": ("discard", ("tag", "ids")), "cancel": ("cancel", ("tag",)),
    "purge": ("purge", ())}


class Numbers:
    """The numbers of a session at a queue: which come next, and the commands that aren't answered."""

    def __init__(self):
        self.next, self.open = 1, {}

    def low_mark(self):
        return min(self.open, default=self.next) - 1


class Received:
    """A consumer at its client, which is handed its deliveries in the order of their ids, each once."""

    def __init__(self):
        self.next, self.waiting = 1, {}

    def come(self, delivery):
        """Takes a delivery. Returns those that are handed out then."""
        if delivery.id >= self.next:
            self.waiting.setdefault(delivery.id, delivery)
        handed = []
        while self.next in self.waiting:
            handed.append(self.waiting.pop(self.next))
            self.next += 1
        return handed

    def missing(self):
        number = self.next
        while number in self.waiting:
            number += 1
        return number


class Cluster:
    def __init__(self, nodes=1, queues=1, group=3, single_active=False, logs=None):
        self.nodes = range(1, nodes + 1)
        names = [f"q{number}" for number in range(1, queues + 1)]
        members = [[(place + k) % nodes + 1 for k in range(min(group, nodes))] for place in range(queues)]
        self.reader = Reader(nodes, names, members)
        self.groups = [Group(*each, single_active) for each in zip(names, members)]
        self.places = {node: [place for place in range(queues) if node in members[place]] for node in self.nodes}
        self.logs = logs or {node: Log(self.places[node]) for node in self.nodes}
        self.down = set(self.nodes)
        self.muted, self.ended, self.numbers = set(), set(), {}
        self.consumers = [{} for _ in range(queues)]
        self.takers = Takers(queues)
        self.auto = True
        self.lines = 0
        self.output = []
        self.on_delivery = lambda place, delivery: None
        self.open()

    # The whole script

    def open(self):
        self.restart(self.nodes)
        for place, group in enumerate(self.groups):
            self.act(place, group.members[0], "tick")
        self.pump()

    def leave(self):
        """Returns the logs as the end of a run leaves them in folders, with all that was written."""
        for log in self.logs.values():
            log.crash(None)
        return self.logs

    def run(self, script):
        """Runs a script, and returns its status. The output ends with the audits, or with why it was refused."""
        try:
            for line in lines_of(script):
                self.line(line)
        except Refused as refused:
            text, status = refused.args
            self.say(text)
            return status
        self.audits()
        return 0

    def line(self, line):
        self.lines += 1
        try:
            read = self.reader.read(line)
        except Fault as fault:
            raise Refused(f"line {self.lines}: {fault}", 4) from None
        if read is None:
            return
        word, words = read
        if word in ("publish", "send") and len(words[-1]) > LONGEST_BODY:
            raise Refused(f"limit body {len(words[-1])}", 11)
        if word in COMMANDS:
            kind, names = COMMANDS[word]
            self.command(kind, *words[:2], **dict(zip(names, words[2:])))
        else:
            getattr(self, "line_" + word)(*words)
        if self.auto and word in CLIENT_LINES:
            self.pump()

    def say(self, text):
        self.output.append(text + "\n")

    def say_of(self, session, place, text):
        first = session == 1 and place == 0
        self.say(text if first else f"{session} {self.groups[place].name}: {text}")

    def audits(self):
        for group in self.groups:
            assert len(group.rows) > PLAIN_FOLD or group.fold_again()
            self.say(f"audit {group.name} 0 {len(group.rows)}")
            for index, (entry, told) in enumerate(group.rows, 1):
                self.say(texts.row(index, entry, told))

    # Steps of servers

    def act(self, place, node, name, *words):
        """Makes a server do something, and prints the answers that this shows, and then the deliveries."""
        shown = self.groups[place].act(node, name, *words)
        for entry, told in shown:
            self.tell(place, entry.command, told.answer)
        for _, told in shown:
            for delivery in told.deliveries:
                self.come(place, delivery)

    def come(self, place, delivery):
        """A delivery comes to its consumer, unless it is lost, and what is handed out then is printed."""
        consumer = self.consumers[place].get((delivery.session, delivery.tag))
        if consumer is None or delivery.session in self.muted:
            return
        for handed in consumer.come(delivery):
            if not self.takers.hold(place, handed):
                self.show(place, handed)

    def show(self, place, delivery):
        self.say_of(delivery.session, place, texts.delivery(delivery))
        self.on_delivery(place, delivery)

    def ask_takers(self, place):
        """Takers give their verdicts on what waits, each of which is a command of the consumer's session."""
        while self.takers.waiting[place]:
            delivery, verdict, told = self.takers.judge(place)
            self.say_of(delivery.session, place, texts.taken(delivery, verdict))
            for each in told:
                self.show(place, each)
            if verdict == KEEP:
                self.on_delivery(place, delivery)
            else:
                self.command(verdict, delivery.session, place, tag=delivery.tag, ids=(delivery.id,))

    def fetch(self, place, session):
        """What is out with a session's consumers comes again, from the least id on that hasn't come."""
        group = self.groups[place]
        leader = group.leader()
        if leader is None:
            return
        queue = group.applied(leader)
        fetched = []
        for (own, tag), consumer in self.consumers[place].items():
            if own == session:
                fetched += queue.out(session, tag, consumer.missing())
        for delivery in fetched:
            self.come(place, delivery)
        self.ask_takers(place)

    def tell(self, place, command, answer):
        """Prints an answer, where its client hears it and its number is open. Three answers leave it open. What else
        answers a cancel or an end drops takers."""
        if command.kind == "noop" or command.session in self.muted:
            return
        closes = answer[0] not in ("gap", "window full", "sessions full")
        if command.kind != "down":
            numbers = self.numbers[command.session, place]
            if command.seq not in numbers.open:
                return
            if closes:
                del numbers.open[command.seq]
        self.say_of(command.session, place, texts.answer(answer))
        for number in self.takers.leave(place, command) if closes else ():
            self.say_of(command.session, place, f"dropped {number}")

    def submit(self, place, command):
        """Gives a command to the leader."""
        server = self.groups[place].leader()
        if server is None:
            self.say_of(command.session, place, f"no leader {self.groups[place].name}")
        else:
            self.act(place, server.node, "submit", entry_of(server.term, command))

    # Lines of clients

    def command(self, kind, session, place, **words):
        """Gives a command the next number of its session, and submits it."""
        if session in self.ended:
            return self.say_of(session, place, "ended")
        consumer = self.consumers[place].get((session, words.get("tag")), Received())
        for number in words.get("ids", ()):
            if not 0 < number < consumer.next:
                return self.say_of(session, place, f"not taken {number}")
        numbers = self.numbers.setdefault((session, place), Numbers())
        if len(numbers.open) == OPEN_NUMBERS:
            return self.say_of(session, place, "window full")
        command = Command(kind, session, numbers.next, numbers.low_mark(), **words)
        numbers.open[numbers.next] = command
        numbers.next += 1
        if kind == "subscribe":
            self.consumers[place].setdefault((session, words["tag"]), Received())
        return self.submit(place, command)

    def line_publish(self, body):
        self.line_send(1, "", self.groups[0].name, body)

    def line_send(self, session, exchange, key, body):
        """The default exchange routes by a queue's name, and to the others nothing is bound."""
        if exchange == "" and key in self.reader.names:
            self.command("enqueue", session, self.reader.names.index(key), key=key, body=body)
        else:
            self.say("unroutable")

    def line_attach(self, session, place, tag, number):
        if number not in self.takers.free:
            raise Refused(f"line {self.lines}: no-such", 4)
        other = self.takers.at(place, session, tag)
        if other:
            self.say_of(session, place, f"busy {other}")
        else:
            self.takers.give(place, session, tag, number)

    def line_end(self, session):
        self.ended.add(session)
        for place in range(len(self.groups)):
            numbers = self.numbers.get((session, place))
            if numbers and numbers.next > 1:
                self.submit(place, Command("down", session))

    def line_resend(self, session):
        if session in self.ended:
            return self.say("ended")
        for place in range(len(self.groups)):
            numbers = self.numbers.get((session, place), Numbers())
            for command in list(numbers.open.values()):
                self.submit(place, command)
        for place in range(len(self.groups)):
            self.fetch(place, session)

    def line_mute(self, session):
        self.muted.add(session)

    def line_unmute(self, session):
        self.muted.discard(session)

    # Lines of the cluster

    def is_down(self, node):
        if node in self.down:
            self.say(f"down {node}")
        return node in self.down

    def line_tick(self, node, place):
        if not self.is_down(node):
            self.act(place, node, "tick")

    def line_write(self, node):
        if not self.is_down(node):
            self.write(node)

    def line_sync(self, node):
        if not self.is_down(node):
            self.logs[node].sync()

    def line_notice(self, node, place):
        if not self.is_down(node):
            self.notice(node, place)

    def there(self, place, k):
        """Takes a message out of those on their way."""
        bag = self.groups[place].bag
        if 1 <= k <= len(bag):
            return bag.pop(k - 1)
        return self.say("no such")

    def line_deliver(self, place, k):
        message = self.there(place, k)
        if message and not self.is_down(message.to):
            self.receive(place, message)

    def line_lose(self, place, k):
        self.there(place, k)

    def line_copy(self, place, k):
        bag = self.groups[place].bag
        if 1 <= k <= len(bag):
            bag.append(bag[k - 1])
        else:
            self.say("no such")

    def line_crash(self, nodes, left):
        for node in nodes:
            self.down.add(node)
            self.logs[node].crash(left)
            for place in self.places[node]:
                self.groups[place].servers[node] = None

    def restart(self, nodes):
        for node in set(nodes) & self.down:
            self.down.remove(node)
            for place in self.places[node]:
                group = self.groups[place]
                group.servers[node] = Server(node, group.members, self.logs[node].lanes[place].copy(), first_entry)

    def line_restart(self, nodes):
        self.restart(nodes)

    def line_pump(self):
        self.pump()

    def line_manual(self):
        self.auto = False

    def line_auto(self):
        self.auto = True

    def line_show(self, place):
        group = self.groups[place]
        for node in sorted(group.members):
            self.say(texts.member(group.name, node, group.servers[node]))

    # Rounds

    def write(self, node):
        for place in self.places[node]:
            server = self.groups[place].servers[node]
            self.logs[node].write(place, server.changes)
            server.changes = []

    def notice(self, node, place):
        self.act(place, node, "notice", self.logs[node].lanes[place].op)
        self.ask_takers(place)

    def receive(self, place, message):
        self.act(place, message.to, "receive", message)
        self.ask_takers(place)

    def pump(self):
        for _ in range(ROUNDS):
            if all(group.is_idle() for group in self.groups):
                return
            self.round()
        if not all(group.is_idle() for group in self.groups):
            self.say("busy")

    def round(self):
        """Each node that is up writes, syncs and is noticed; then the messages of each queue are delivered."""
        for node in self.nodes:
            if node not in self.down:
                self.write(node)
                self.logs[node].sync()
                for place in self.places[node]:
                    self.notice(node, place)
        for place, group in enumerate(self.groups):
            for _ in range(len(group.bag)):
                message = group.bag.pop(0)
                if message.to not in self.down:
                    self.receive(place, message)
