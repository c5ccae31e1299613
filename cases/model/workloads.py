"""Seeded workloads of clients and crashes: each makes lines, and asks the model that runs them what came of them."""
MULTIPLIER, INCREMENT = 6364136223846793005, 1442695040888963407
QUEUES = 4
STEPS_OF_DRILL = 4_000
BOTH_SESSIONS = [*range(1, QUEUES + 1), *range(11, 11 + QUEUES)]


class Workload:
    """A script that is made line by line, over a cluster of the model that runs each line as it is made."""

    def __init__(self, cluster, seed):
        self.cluster, self.seed = cluster, seed
        self.lines = []
        self.handed_out = {}
        cluster.on_delivery = self.hand_out

    def draw(self):
        self.seed = (self.seed * MULTIPLIER + INCREMENT) % 2**64
        return self.seed >> 33

    def add(self, line):
        self.lines.append(line)
        self.cluster.line(line)

    def hand_out(self, place, delivery):
        self.handed_out.setdefault((delivery.session, place), []).append((delivery.tag, delivery.id))

    def make(self, count):
        """Makes at least so many lines, and then those that bring each queue a leader and each answer home."""
        while len(self.lines) < count:
            self.step(self.draw())
        self.bring_back()
        self.resend()

    def bring_back(self):
        """Lets all nodes be up and all queues have leaders."""
        for line in ("auto", "restart all"):
            self.add(line)
        self.lead()

    def lead(self):
        """Gives each queue without a leader one, by ticks of its members."""
        for group in self.cluster.groups:
            for node in group.members * 2:
                if group.leader() is None:
                    self.add(f"tick {node} {group.name}")
                    self.add("pump")

    def resend(self):
        for session in BOTH_SESSIONS:
            self.add(f"resend {session}")


class Plain(Workload):
    """Sends, gets, consumers and crashes of one node at a time. A pump follows each line but the one before a crash."""

    def __init__(self, cluster, seed):
        super().__init__(cluster, seed)
        self.steps = 0
        self.tags = [0] * QUEUES

    def step(self, p):
        self.steps += 1
        place, row, node = p % QUEUES, p // 4 % 16, 1 + p // 64 % len(self.cluster.nodes)
        if row <= 6:
            self.send(place)
        elif row <= 9:
            self.add(f"get {place + 1} q{place + 1}")
        elif row == 10:
            self.subscribe(place)
        elif row <= 13:
            self.finish_oldest(place, "return" if row == 13 else "settle")
        elif row == 14:
            self.crash_or_restart(place, node, p // 512 % 128)
        else:
            if node not in self.cluster.down and node in self.cluster.groups[place].members:
                self.add(f"tick {node} q{place + 1}")
            self.add("pump")
        if self.steps % 16 == 0:
            self.resend()

    def send(self, place):
        self.add(f"send {place + 1} - q{place + 1} m{self.steps}")

    def subscribe(self, place):
        if self.tags[place] < 8:
            self.tags[place] += 1
            self.add(f"subscribe {11 + place} q{place + 1} {self.tags[place]} 4")

    def finish_oldest(self, place, word):
        handed_out = self.handed_out.get((11 + place, place))
        if handed_out:
            tag, number = handed_out.pop(0)
            self.add(f"{word} {11 + place} q{place + 1} {tag} {number}")

    def crash_or_restart(self, place, node, left):
        if self.cluster.down:
            self.add(f"restart {min(self.cluster.down)}")
            return
        self.add("manual")
        self.send(place)
        self.add("auto")
        self.add(f"write {node}")
        self.add(f"crash {node} cut {left}")


class Long(Plain):
    """The same with few crashes: a restart reads its node's whole log, so many of them take the square of the lines."""

    def crash_or_restart(self, place, node, left):
        if self.cluster.down or self.steps % 256 == 0:
            super().crash_or_restart(place, node, left)
        else:
            self.send(place)


class Drill(Plain):
    """The lines of `qq drill NUMBER`: STEPS_OF_DRILL steps of that workload, and then all is brought home."""

    def make(self):
        for _ in range(STEPS_OF_DRILL):
            self.step(self.draw())
        for node in sorted(self.cluster.down):
            self.add(f"restart {node}")
        self.lead()
        self.resend()
