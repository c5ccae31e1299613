"""The takers of a run, which consumers have one, and what waits for their verdicts."""
KEEP = "keep"
VERDICTS = {1: "settle", 2: "return", 3: "discard", 4: KEEP}


class Takers:
    def __init__(self, queues):
        self.free = dict(VERDICTS)
        self.given = {}
        self.seats = [{} for _ in range(queues)]
        self.waiting = [[] for _ in range(queues)]

    def at(self, place, session, tag):
        """Returns the number of a consumer's taker, or None."""
        return self.seats[place].get((session, tag))

    def give(self, place, session, tag, number):
        """Gives a free taker to a consumer that has none."""
        self.given[number] = self.free.pop(number)
        self.seats[place][session, tag] = number

    def hold(self, place, delivery):
        """Says whether a delivery that is handed out waits: for its consumer's taker, or after one that does."""
        waiting = self.waiting[place]
        if waiting or self.at(place, delivery.session, delivery.tag):
            waiting.append(delivery)
            return True
        return False

    def judge(self, place):
        """Takes the first delivery that waits. Returns it with its taker's verdict, and those that follow it up to the
        next one for a taker."""
        first, *others = self.waiting[place]
        self.waiting[place] = []
        told = [each for each in others if not self.hold(place, each)]
        return first, self.given[self.at(place, first.session, first.tag)], told

    def leave(self, place, command):
        """Drops the takers of the consumers that a command ends. Returns their numbers, those of lower tags first."""
        tags = {"cancel": [command.tag], "down": sorted(tag for own, tag in self.seats[place] if own == command.session)}
        numbers = [self.seats[place].pop((command.session, tag), None) for tag in tags.get(command.kind, ())]
        for number in filter(None, numbers):
            del self.given[number]
        return [number for number in numbers if number]
