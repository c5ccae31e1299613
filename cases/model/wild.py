"""Seeded workloads of all that a script can say, in any order."""
from workloads import QUEUES, Workload


class Wild(Workload):
    """All that a script can say, in any order: commands that are refused, messages that overtake one another, come
    twice or not at all, writes, syncs and notices by hand, and any number of nodes that are down."""

    def __init__(self, cluster, seed):
        super().__init__(cluster, seed)
        self.steps = 0
        self.first_session = 1
        self.consumers = []
        self.cut_off = None
        weights = {self.network: 30, self.client: 26, self.log: 16, self.round_of_any: 8, self.time: 6, self.mode: 4,
                   self.fault: 2, self.depose: 1}
        self.table = [action for action, weight in weights.items() for _ in range(weight)]

    def step(self, p):
        self.steps += 1
        self.table[p % len(self.table)]()

    def resend(self):
        for session in range(1, self.first_session + 4):
            self.add(f"unmute {session}")
            self.add(f"resend {session}")

    # Choices

    def below(self, count):
        return self.draw() % count

    def one_in(self, count):
        return self.below(count) == 0

    def one_of(self, things):
        return things[self.below(len(things))]

    def place(self):
        return self.below(QUEUES)

    def node(self):
        """Returns a node, mostly one that is up."""
        up = [node for node in self.cluster.nodes if node not in self.cluster.down]
        return self.one_of(list(self.cluster.nodes) if self.one_in(8) or not up else up)

    def session(self):
        return self.one_of([1, *range(self.first_session, self.first_session + 4)])

    # Clients

    def client(self):
        words = "send " * 8 + "publish get get subscribe subscribe " + "finish_some " * 6 + "credit again again rarely"
        getattr(self, self.one_of(words.split()))()

    def send(self):
        to = self.one_of([f"- q{1 + self.place()}"] * 50 + ["- q9", "- -", "amq.direct q1", "amq.fanout q1", "x q1"])
        body = self.one_of([f"m{self.steps}"] * 6 + ["", f"={self.below(300)}", "==" + "y" * self.below(9)])
        self.add(f"send {self.session()} {to} {body}")

    def publish(self):
        self.add(f"publish p{self.steps}")

    def get(self):
        self.add("get" if self.one_in(4) else f"get {self.session()} {self.one_of('q#')}{1 + self.place()}")

    def subscribe(self):
        session, place = self.session(), self.place()
        before = sum(consumer[:2] == (session, place) for consumer in self.consumers)
        tag = before if before and self.one_in(6) else before + 1
        self.consumers.append((session, place, tag))
        if self.one_in(3):
            self.add(f"link {session} q{place + 1} {tag}")
        else:
            self.add(f"subscribe {session} q{place + 1} {tag} {self.one_of([1, 1, 1, 2, 2, 3, 4, 0])}")

    def consumer(self):
        """Returns a consumer, mostly one that may be there."""
        near = [each for each in self.consumers if each[0] >= self.first_session]
        if self.one_in(12) or not near:
            return self.session(), self.place(), 1 + self.below(9)
        return self.one_of(near)

    def finish_some(self):
        """Finishes deliveries that were printed and weren't named before, or any."""
        word = self.one_of(["settle", "settle", "return", "discard"])
        known = [key for key, value in self.handed_out.items() if value and key[0] >= self.first_session - 1]
        if self.one_in(12) or not known:
            session, place, tag = self.consumer()
            numbers = [1 + self.below(6) for _ in range(1 + self.below(4))]
        else:
            session, place = key = self.one_of(known)
            tag = self.one_of(self.handed_out[key])[0]
            numbers = [number for of, number in self.handed_out[key] if of == tag][:1 + self.below(3)]
            self.handed_out[key] = [each for each in self.handed_out[key] if each[0] != tag or each[1] not in numbers]
        if self.one_in(3):
            numbers.reverse()
        self.add(f"{word} {session} q{place + 1} {tag} {','.join(str(number) for number in numbers)}")

    def credit(self):
        session, place, tag = self.consumer()
        self.add(f"credit {session} q{place + 1} {tag} {self.below(5)} {self.below(6)} "
                 f"{self.one_of(['keep', 'drain'])}")

    def again(self):
        self.add(f"{self.one_of(['resend', 'resend', 'resend', 'mute', 'unmute', 'unmute'])} {self.session()}")

    def rarely(self):
        session, place, tag = self.consumer()
        self.add(self.one_of([f"cancel {session} q{place + 1} {tag}", f"cancel {session} q{place + 1} {tag}",
                              f"purge {session} q{place + 1}", f"end {self.first_session + 1}"]))
        if self.lines[-1].startswith("end"):
            self.first_session += 1

    # The network, the logs and the nodes

    def network(self):
        """Mostly the first message is delivered that isn't from or to the node that is cut off; and some others
        overtake it, are lost or come twice."""
        places = [place for place, group in enumerate(self.cluster.groups) if group.bag]
        if not places and not self.one_in(12):
            return self.client()
        place = self.one_of(places or range(QUEUES))
        bag = self.cluster.groups[place].bag
        free = [k for k, message in enumerate(bag, 1) if self.cut_off not in (message.sender, message.to)]
        if bag and not free and not self.one_in(20):
            return self.client()
        in_order = free[:1] if free and not self.one_in(4) else free
        k = self.one_of(in_order) if free and not self.one_in(30) else self.below(len(bag) + 2)
        self.add(f"{self.one_of(['deliver'] * 16 + ['lose', 'copy'])} q{place + 1} {k}")
        if self.one_in(8):
            self.add(f"show q{place + 1}")

    def log(self):
        """A node writes, syncs, and is noticed, of which any may come alone, or not at all."""
        busy = [server.node for group in self.cluster.groups for server in group.servers.values()
                if server and server.op > server.noticed]
        node = self.one_of(busy) if busy and not self.one_in(8) else self.node()
        if not self.one_in(5):
            self.add(f"write {node}")
        if not self.one_in(5):
            self.add(f"sync {node}")
        for place in self.cluster.places[node]:
            server = self.cluster.groups[place].servers[node]
            if not self.one_in(3) if server and server.op > server.noticed else self.one_in(12):
                self.add(f"notice {node} q{place + 1}")

    def depose(self):
        """Another member leads a queue while the leader is cut off, and both are asked."""
        place = self.place()
        leader = self.cluster.groups[place].leader()
        others = [each for each in self.cluster.groups[place].servers.values() if each and each is not leader]
        if leader and others:
            self.cut_off = leader.node
            self.add("manual")
            self.add(f"tick {self.one_of(others).node} q{place + 1}")
            for _ in range(4):
                self.round(place)
            self.add(f"send {self.session()} - q{place + 1} d{self.steps}")
            self.add(f"show q{place + 1}")

    def round_of_any(self):
        self.round(self.place())

    def round(self, place):
        """A round of one queue by hand, without the node that is cut off."""
        group = self.cluster.groups[place]
        for node in group.members:
            if group.servers[node] and node != self.cut_off:
                self.add(f"write {node}")
                self.add(f"sync {node}")
                self.add(f"notice {node} q{place + 1}")
        k = 1
        for message in list(group.bag):
            if self.cut_off in (message.sender, message.to):
                k += 1
            else:
                self.add(f"deliver q{place + 1} {k}")

    def time(self):
        """A leader sends again; or another member stands, mostly where there is no leader or it is cut off."""
        alone = [place for place, group in enumerate(self.cluster.groups) if group.leader() is None]
        place = self.one_of(alone) if alone and not self.one_in(3) else self.place()
        group = self.cluster.groups[place]
        leader = group.leader()
        up = [node for node in group.members if group.servers[node] and node != self.cut_off]
        goes_on = leader and leader.node != self.cut_off and not self.one_in(6)
        self.add(f"tick {leader.node if goes_on else self.one_of(up or group.members)} q{place + 1}")

    def fault(self):
        node = self.node()
        down = sorted(self.cluster.down)
        if down and not self.one_in(4):
            self.add(self.one_of([f"restart {self.one_of(down)}", "restart all"]))
            return
        if self.one_in(2):
            self.add(f"write {node}")
        near = max(0, self.one_of(self.cluster.logs[node].ends() or [0]) - 1 + self.below(3))
        image = self.one_of(["none", "whole", f"cut {near}", f"cut {near}", f"cut {self.below(400)}",
                             "junk " + "".join(f"{self.below(256):02x}" for _ in range(self.below(40)))])
        self.add(f"crash {'all' if self.one_in(10) else node} {image}")

    def mode(self):
        self.add(self.one_of(["manual", "manual", "manual", "pump", "auto", "; " + "c" * self.below(5)]))
        if self.one_in(3):
            self.cut_off = self.one_of([None, *self.cluster.nodes])
        if self.one_in(20):
            self.bring_back()
