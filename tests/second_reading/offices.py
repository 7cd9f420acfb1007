"""What an office does at each event, and what it replies."""
from frames import ASK_BOTTLE, ASK_FORK, BOTTLE, FORK, Frame, Message
from sessions import Run

MOST_UNFINISHED, MOST_ENTRIES = 64, 1_000_000
THINKING, HUNGRY, EATING = "thinking", "hungry", "eating"


class Link:
    """What an office shares with a neighbour: the fork and its request token, and the two streams of messages."""

    def __init__(self, has_fork):
        self.fork, self.is_used, self.token = has_fork, has_fork, not has_fork
        # All messages that were sent, and how many of them the neighbour is known to have taken.
        self.sent, self.acked = [], 0
        # How many messages were taken, and those ahead of the next, by number.
        self.taken, self.ahead = 0, {}


class Bottle:
    """A record at one of its two ends."""

    def __init__(self, here, value):
        self.here, self.token, self.value = here, not here, value


class Office:
    def __init__(self, plan, me):
        self.plan, self.me = plan, me
        self.links = {it: Link(plan.forks[frozenset((it, me))] == me) for it in plan.neighbours(me)}
        self.bottles = {at: Bottle(it[2] == me, it[3]) for at, it in enumerate(plan.records) if me in it[1]}
        # Sessions by ticket, from 1; tickets that wait; the current one, and what it does once it drinks.
        self.sessions, self.waiting, self.current, self.run, self.worked = [], [], None, None, 0
        self.dining, self.finished, self.withdrawn, self.entries = THINKING, [], 0, 0

    def answer(self, event):
        """The reply, or None where the event is refused; then nothing changed."""
        if self.entries == MOST_ENTRIES:
            return None
        reply = getattr(self, event[0])(*event[1:])
        self.entries += reply is not None
        return reply

    def unfinished(self):
        return len(self.waiting) + (self.current is not None)

    def is_thirsty(self):
        return self.current is not None and self.run is None

    def needs(self, record):
        return self.current is not None and record in self.sessions[self.current - 1].records

    def submit(self, session):
        if session.office != self.me or self.unfinished() == MOST_UNFINISHED:
            return None
        self.sessions.append(session)
        self.waiting.append(len(self.sessions))
        return len(self.sessions)

    def withdraw(self, ticket):
        if ticket in self.waiting:
            self.waiting.remove(ticket)
        elif ticket == self.current and self.is_thirsty():
            self.current = None
        else:
            return None
        self.withdrawn += 1
        return "done"

    def start(self):
        if self.current is not None or not self.waiting:
            return None
        self.current = self.waiting.pop(0)
        return "done"

    def hungry(self):
        if self.dining != THINKING or not self.is_thirsty():
            return None
        self.dining = HUNGRY
        return "done"

    def eat(self):
        if self.dining != HUNGRY or not all(it.fork for it in self.links.values()):
            return None
        self.dining = EATING
        for it in self.links.values():
            it.is_used = True
        return "done"

    def leave(self):
        if self.dining != EATING or self.is_thirsty():
            return None
        self.dining = THINKING
        return "done"

    def askfork(self, neighbour):
        link = self.links.get(neighbour)
        if link is None or self.dining != HUNGRY or link.fork or not link.token:
            return None
        link.token = False
        return self.says(neighbour, Message(ASK_FORK))

    def givefork(self, neighbour):
        link = self.links.get(neighbour)
        if link is None or self.dining == EATING or not (link.fork and link.token and link.is_used):
            return None
        link.fork = False
        return self.says(neighbour, Message(FORK))

    def askbottle(self, record):
        bottle = self.bottles.get(record)
        if bottle is None or not (self.is_thirsty() and self.needs(record)) or bottle.here or not bottle.token:
            return None
        bottle.token = False
        return self.says(self.plan.other_end(record, self.me), Message(ASK_BOTTLE, record))

    def givebottle(self, record):
        bottle = self.bottles.get(record)
        if bottle is None or not (bottle.here and bottle.token):
            return None
        neighbour = self.plan.other_end(record, self.me)
        if self.needs(record) and (self.run is not None or self.links[neighbour].fork):
            return None
        bottle.here = False
        return self.says(neighbour, Message(BOTTLE, record, bottle.value))

    def says(self, neighbour, message):
        self.links[neighbour].sent.append(message)
        return "done"

    def drink(self):
        if not self.is_thirsty():
            return None
        session = self.sessions[self.current - 1]
        if not all(self.bottles[it].here for it in session.records):
            return None
        self.run, self.worked = Run(session, {it: self.bottles[it].value for it in sorted(session.records)}), 0
        return "done"

    def work(self, count):
        if self.run is None or self.worked == self.run.length:
            return None
        self.worked = min(self.worked + count, self.run.length)
        return "done"

    def finish(self):
        if self.run is None or self.worked < self.run.length:
            return None
        for record, value in self.run.writes.items():
            self.bottles[record].value = value
        self.finished.append((self.current, self.run))
        self.current = self.run = None
        return "done"

    def send(self, neighbour, number):
        link = self.links.get(neighbour)
        if link is None or number > len(link.sent) - link.acked:
            return None
        message = link.sent[link.acked + number - 1] if number else None
        return Frame(self.plan.version, self.plan.run, self.me, neighbour, link.acked + number if number else 0, link.taken, message)

    def took(self, frame):
        link = self.links.get(frame.sender)
        if frame.run != self.plan.run or link is None or frame.to != self.me or frame.version != self.plan.version or frame.count > len(link.sent):
            return None
        link.acked = max(link.acked, frame.count)
        if frame.message is None:
            return "acked"
        if frame.number <= link.taken:
            return "repeat"
        link.ahead[frame.number] = frame.message
        if frame.number > link.taken + 1:
            return "kept"
        while link.taken + 1 in link.ahead:
            link.taken += 1
            self.comes(link, link.ahead.pop(link.taken))
        return "taken"

    def comes(self, link, message):
        """A message is taken. That it brings what isn't here is for who weaves: it was sent."""
        bottle = self.bottles.get(message.record)
        if message.tag == ASK_FORK:
            link.token = True
        elif message.tag == FORK:
            link.fork, link.is_used = True, False
        elif message.tag == ASK_BOTTLE:
            bottle.token = True
        else:
            bottle.here, bottle.value = True, message.value
