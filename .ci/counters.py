"""A plain model of replays of counters: components without inputs, whose steps all guesses are right about. So an answer is
its row alone, and what a replay counts can be played without a step. `.ci/program` compares it with what the program counts."""
from dataclasses import dataclass, field

COUNTS = ("events", "refused", "found", "own", "tickets", "posted", "back", "lapsed", "appended")

# For how many rows a lane is published, and how many cells a post answers at most.
WINDOW = 4

UNIT = "cosim 1\nunit Counter\nstate n:Int64=0\noutput y:Int64=n\nstep\nn:=n+1\nend\nend\n"


def text_of(instances, rows):
    """So many counters that make so many steps."""
    return f"{UNIT}{''.join(f'instance i{number}:Counter{chr(10)}end{chr(10)}' for number in range(instances))}stop {rows}\nlongest 1\n"


@dataclass
class Lane:
    """The rows that are planned, how many of them are answered, and the ticket that is current."""

    line: range = range(0)
    answered: int = 0
    current: object = None

    @property
    def needed(self):
        """The row whose answer is needed next."""
        return self.line[self.answered] if self.answered < len(self.line) else None

    def publish(self, row, stop):
        before = self.needed
        last = self.line.start + self.answered
        self.line = range(row, min(row + WINDOW, stop))
        self.answered = max(0, last - row)
        if self.needed != before:
            self.current = None

    def end(self, ticket):
        if self.current is ticket:
            self.current = None


@dataclass(eq=False)
class Ticket:
    lane: Lane
    rows: range


@dataclass
class Replay:
    lanes: list
    hands: list
    counts: dict = field(default_factory=lambda: dict.fromkeys(COUNTS, 0))

    def count(self, name):
        self.counts["events"] += 1
        if name in self.counts:
            self.counts[name] += 1

    def take(self, worker, lane):
        if lane.current or lane.needed is None:
            return "refused"
        lane.current = Ticket(lane, lane.line[lane.answered :])
        self.hands[worker].append(lane.current)
        return "tickets"

    def post(self, worker):
        if not self.hands[worker]:
            return "refused"
        ticket = self.hands[worker].pop(0)
        for row in ticket.rows:
            if row == ticket.lane.needed:
                ticket.lane.answered += 1
                self.counts["appended"] += 1
        ticket.lane.end(ticket)
        return "posted"

    def steal(self, worker, other):
        if worker == other or not self.hands[other]:
            return "refused"
        self.hands[worker].append(self.hands[other].pop(0))
        return "stolen"

    def give_back(self, worker):
        if not self.hands[worker]:
            return "refused"
        ticket = self.hands[worker].pop(0)
        ticket.lane.end(ticket)
        return "back"

    def act(self, draw):
        worker, rest = draw % len(self.hands), draw // len(self.hands)
        kind, choice = rest % 8, rest // 8
        if kind < 3:
            return self.take(worker, self.lanes[choice % len(self.lanes)])
        if kind < 6:
            return self.post(worker)
        if kind == 6:
            return self.steal(worker, choice % len(self.hands))
        return self.give_back(worker)


def counted(seed, workers, instances, rows):
    """What a replay of counters counts, by name."""
    replay = Replay([Lane() for _ in range(instances)], [[] for _ in range(workers)])
    draw = seed % (2**31 - 2) + 1
    for row in range(rows):
        for lane in replay.lanes:
            lane.publish(row, rows)
            replay.count("published")
        for _ in range(2 * workers):
            draw = 48271 * draw % (2**31 - 1)
            replay.count(replay.act(draw))
        for lane in replay.lanes:
            if lane.answered:
                replay.count("found")
            else:
                replay.count("missed")
                replay.count("own")
        replay.count("settled")
    replay.counts["lapsed"] = sum(map(len, replay.hands))
    return replay.counts
