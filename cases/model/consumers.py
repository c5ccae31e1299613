"""Seeded workloads of consumers: deliveries to them are lost, fetched, and wait for others that were lost; and they are
claimed by their consumers and by others, too early, in time and twice."""
from wild import Wild

GREATEST_ID = 2**64 - 1
LINES_OUT_OF_ORDER = 40


class Consumers(Wild):
    """Several consumers of each session at few queues, mostly with a pump after each line; sessions that miss what
    comes to them for a while, or for a whole term of a leader; leaders that change while commands are on their way."""

    def __init__(self, cluster, seed):
        super().__init__(cluster, seed)
        weights = {self.client: 56, self.network: 12, self.log: 6, self.round_of_any: 5, self.time: 4, self.mode: 6,
                   self.change_leader: 3, self.fault: 2, self.depose: 1}
        self.table = [action for action, weight in weights.items() for _ in range(weight)]

    def step(self, p):
        super().step(p)
        if self.one_in(4):
            self.elect()

    def place(self):
        return self.below(4) if self.one_in(12) else self.below(2)

    # Clients

    def client(self):
        words = ("send " * 9 + "subscribe " * 2 + "finish " * 8 + "claim " * 3 + "cut_off_session " * 2 + "hear_again "
                 + "resend_one " * 3 + "get credit rarely")
        getattr(self, self.one_of(words.split()))()

    def subscribe(self):
        session, place = self.session(), self.place()
        before = sum(consumer[:2] == (session, place) for consumer in self.consumers)
        tag = before if before and self.one_in(8) else before + 1
        self.consumers.append((session, place, tag))
        if self.one_in(6):
            self.add(f"link {session} q{place + 1} {tag}")
        else:
            self.add(f"subscribe {session} q{place + 1} {tag} {self.one_of([1, 1, 2, 2, 3, 3, 4, 5, 6, 7, 8, 8, 0])}")

    def known(self):
        """Returns what its client knows of a consumer, with its place, session and tag; None where nobody knows one."""
        near = [(place, session, tag, received) for place, all_of in enumerate(self.cluster.consumers)
                for (session, tag), received in all_of.items() if session == 1 or session >= self.first_session - 1]
        return self.one_of(near) if near else None

    def finish(self):
        """Finishes deliveries that were handed out, mostly ones that weren't finished before."""
        keys = [key for key, value in self.handed_out.items()
                if value and (key[0] == 1 or key[0] >= self.first_session - 1)]
        if not keys:
            return self.send()
        session, place = key = self.one_of(keys)
        tag = self.one_of(self.handed_out[key])[0]
        numbers = [number for of, number in self.handed_out[key] if of == tag][:1 + self.below(3)]
        if not self.one_in(10):
            self.handed_out[key] = [each for each in self.handed_out[key] if each[0] != tag or each[1] not in numbers]
        if self.one_in(3):
            numbers.reverse()
        if self.one_in(12):
            numbers.append(numbers[0])
        self.end_deliveries(session, place, tag, numbers)

    def claim(self):
        """Names an id that waits, is lost, was finished, is another consumer's, or was never given."""
        found = self.known()
        if found is None or self.one_in(12):
            session, place, tag = self.session(), self.place(), 1 + self.below(9)
            return self.end_deliveries(session, place, tag, [1 + self.below(4)])
        place, session, tag, received = found
        numbers = [self.one_of([received.next, received.next, received.next + 1, max(received.next - 1, 1), 1,
                                received.missing(), *received.waiting, GREATEST_ID, 1 + self.below(6)])]
        while received.next > 1 and self.one_in(2):
            numbers.insert(self.below(len(numbers) + 1), 1 + self.below(received.next))
        return self.end_deliveries(session, place, tag, numbers)

    def end_deliveries(self, session, place, tag, numbers):
        word = self.one_of(["settle", "settle", "settle", "return", "return", "discard"])
        self.add(f"{word} {session} q{place + 1} {tag} {','.join(str(number) for number in numbers)}")

    def cut_off_session(self):
        self.add(f"mute {self.session()}")

    def hear_again(self):
        """A session hears again; mostly it fetches what it missed, at once or after more has come to it."""
        muted = sorted(self.cluster.muted)
        if not muted:
            return self.send()
        session = self.one_of(muted)
        self.add(f"unmute {session}")
        for _ in range(self.below(3)):
            self.send()
        if not self.one_in(4):
            self.resend_one(session)

    def resend_one(self, session=None):
        """A session sends again and fetches; a line that always prints shows what came before its end."""
        self.add(f"resend {session or self.session()}")
        self.add("lose q1 0")

    def rarely(self):
        found = self.known()
        if found is None or self.one_in(3):
            return super().rarely()
        place, session, tag, _ = found
        self.add(self.one_of([f"cancel {session} q{place + 1} {tag}", f"unmute {session}"]))

    # Leaders

    def change_leader(self):
        """Another member leads, while what was asked of the one before may be on its way."""
        place = self.place()
        group = self.cluster.groups[place]
        leader = group.leader()
        up = [server.node for server in group.servers.values() if server and server is not leader]
        if not up:
            return self.time()
        if self.one_in(2):
            self.add("manual")
            for _ in range(1 + self.below(3)):
                self.client()
            self.log()
        self.add(f"tick {self.one_of(up)} q{place + 1}")
        self.add(self.one_of(["pump", "auto"]))

    def depose(self):
        """Another member leads while the leader is cut off. Sessions missed what came before, and ask for it now, at
        one leader or the other."""
        place = self.place()
        group = self.cluster.groups[place]
        leader = group.leader()
        others = [server.node for server in group.servers.values() if server and server is not leader]
        if not leader or not others:
            return
        for session, _ in list(self.cluster.consumers[place])[-3:]:
            self.add(f"mute {session}")
        for line in (f"send 1 - q{place + 1} d{self.steps}", "pump", "manual"):
            self.add(line)
        self.cut_off = leader.node
        self.add(f"tick {self.one_of(others)} q{place + 1}")
        for _ in range(6):
            for session in sorted(self.cluster.muted)[:1]:
                self.add(f"unmute {session}")
                self.resend_one(session)
            self.one_of([self.client, self.finish, self.send])()
            self.round(place)

    def elect(self):
        """A queue without a leader has a member stand, where enough of them are up; else nodes restart."""
        alone = [group for group in self.cluster.groups if group.leader() is None]
        if not alone:
            return
        group = self.one_of(alone)
        up = [node for node in group.members if group.servers[node]]
        if 2 * len(up) <= len(group.members):
            self.add("restart all")
        else:
            self.add(f"tick {self.one_of(up)} {group.name}")
            self.add("pump")

    def mode(self):
        self.add(self.one_of(["auto", "auto", "auto", "manual", "pump"]))
        self.cut_off = self.one_of([None, None, None, *self.cluster.nodes])
        if self.one_in(4):
            self.bring_back()


class Taken(Consumers):
    """The same with takers, each of which is given to a consumer that has just subscribed, and then offered to others
    that have one."""

    def subscribe(self):
        super().subscribe()
        if self.one_in(2):
            session, place, tag = self.consumers[-1]
            self.attach(place, session, tag)

    def rarely(self):
        having = [(place, *consumer) for place, seats in enumerate(self.cluster.takers.seats) for consumer in seats]
        if having and not self.one_in(3):
            self.attach(*self.one_of(having))
        else:
            super().rarely()

    def attach(self, place, session, tag):
        free = list(self.cluster.takers.free)
        if free:
            self.add(f"attach {session} q{place + 1} {tag} {self.one_of(free)}")


class Rooted(Consumers):
    """The same over folders, in which a crash loses nothing that was written. A run ends while much is on its way, and
    the next one has clients who know nothing of it. Some have new sessions; others give other commands the numbers of
    an earlier run."""

    def __init__(self, cluster, seed):
        super().__init__(cluster, seed)
        self.first_session = 1 + 3 * (seed % 4)

    def add(self, line):
        words = line.split()
        super().add(f"crash {words[1]} whole" if words and words[0] == "crash" else line)

    def make(self, count):
        super().make(count)
        self.add("manual")
        for _ in range(LINES_OUT_OF_ORDER):
            self.step(self.draw())
