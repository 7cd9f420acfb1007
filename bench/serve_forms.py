#!/usr/bin/env python3
"""What forms of an office's turn would come to, by a model: sessions a second of a ring of four with sixteen clients, where a sync takes 2
milliseconds. It runs the rules of forks and bottles in their order, with datagrams, syncs and clients as events in time; no program is
built or asked, so a form can be looked at before it is written and proved. Times vary by a tenth, and each row is the mean of four runs.

usage: serve_forms.py
"""
import heapq, itertools, random, statistics

PAIRS = ((0, 1), (1, 2), (2, 3), (0, 3))
# In milliseconds: a sync, a turn's work and what an event adds to it, a datagram's way and how much later the next one leaves, until an
# office that waits is awake, a client's way, and the longest wait of an office.
SYNC, WORK, EVENT, WAY, NEXT, AWAKE, CLIENT, WAIT = 2.08, 0.03, 0.003, 0.02, 0.005, 0.03, 0.12, 5.0
MOST_RULES, MOST_DATAGRAMS = 64, 32


class Office:
    """An office among its two neighbours: its bottles, forks and their request tokens, and its sessions."""

    def __init__(self, me):
        self.me = me
        self.records = [r for r, pair in enumerate(PAIRS) if me in pair]
        self.peer = {r: sum(PAIRS[r]) - me for r in self.records}
        self.neighbours = sorted(self.peer.values())
        self.bottles = {r for r in self.records if PAIRS[r][0] == me}
        self.bottle_tokens = set(self.records) - self.bottles
        self.forks = {self.peer[r] for r in self.bottles}
        self.fork_tokens = set(self.neighbours) - self.forks
        self.clean, self.needed, self.queue = set(), set(), []
        self.phase, self.fork_phase, self.session, self.worked = "tranquil", "thinking", None, False
        # What came, what is asked, frames to be sent, sessions to be told, and whether an answer is to be said.
        self.inbox, self.asked, self.out, self.done, self.answers = [], [], [], [], False
        self.entries = self.stood = self.asks = self.turns = self.syncs = self.sent = 0
        self.busy = self.must = False

    def next_rule(self):
        thirsty, drinking = self.phase == "thirsty", self.phase == "drinking"
        for r in self.records:
            if r in self.bottle_tokens and r in self.bottles and not (r in self.needed and (drinking or self.peer[r] in self.forks)):
                return "give bottle", r
        for v in self.neighbours:
            if self.fork_phase != "eating" and v in self.fork_tokens and v in self.forks and v not in self.clean:
                return "give fork", v
        if drinking:
            return ("finish" if self.worked else "work"), None
        if thirsty and self.needed <= self.bottles:
            return "drink", None
        if self.fork_phase == "hungry" and self.forks == set(self.neighbours):
            return "eat", None
        if self.fork_phase == "eating" and not thirsty:
            return "leave", None
        if self.phase == "tranquil" and self.queue:
            return "start", None
        if self.fork_phase == "thinking" and thirsty:
            return "hungry", None
        for r in self.records:
            if thirsty and r in self.needed - self.bottles and r in self.bottle_tokens:
                return "ask bottle", r
        for v in self.neighbours:
            if self.fork_phase == "hungry" and v not in self.forks and v in self.fork_tokens:
                return "ask fork", v
        return None

    def act(self, rule, it):
        if rule == "give bottle":
            self.bottles.remove(it)
            self.out.append((self.peer[it], ("bottle", it)))
        elif rule == "give fork":
            self.forks.remove(it)
            self.out.append((it, ("fork", self.me)))
        elif rule == "ask bottle":
            self.bottle_tokens.remove(it)
            self.out.append((self.peer[it], ("bottle token", it)))
        elif rule == "ask fork":
            self.fork_tokens.remove(it)
            self.out.append((it, ("fork token", self.me)))
        elif rule == "start":
            self.session = self.queue.pop(0)
            self.phase, self.needed = "thirsty", set(self.session[1])
        elif rule == "drink":
            self.phase, self.worked = "drinking", False
        elif rule == "work":
            self.worked = True
        elif rule == "finish":
            self.done.append(self.session)
            self.phase, self.needed, self.session = "tranquil", set(), None
        else:
            self.fork_phase = {"hungry": "hungry", "eat": "eating", "leave": "thinking"}[rule]
            if rule == "eat":
                self.clean = set()

    def advance(self, most):
        for count in range(most):
            rule = self.next_rule()
            if rule is None:
                return count
            self.act(*rule)
            self.entries += 1
        return most

    def take(self, message):
        self.entries += 1
        if message:
            kind, it = message
            {"bottle": self.bottles, "bottle token": self.bottle_tokens, "fork": self.forks, "fork token": self.fork_tokens}[kind].add(it)
            if kind == "fork":
                self.clean.add(it)

    def turn(self, between):
        """A turn of its pump, and how many events it had; `between`: the rules that come next are done after each datagram too."""
        came, self.inbox = self.inbox[:MOST_DATAGRAMS], self.inbox[MOST_DATAGRAMS:]
        before, events = len(self.out), len(came)
        for _, message in came:
            self.take(message)
            if between:
                events += self.advance(MOST_RULES)
        events += self.advance(MOST_RULES)
        got = {to for to, _ in self.out[before:]}
        self.out += [(v, None) for v in sorted({v for v, message in came if message} - got)]
        self.entries += len(self.out) - before
        return events


# By its name whether a turn's entries are made to stand at once; else they wait until they have to, or nothing came for the longest wait.
AT_ONCE = lambda office: True
LEAVES_OR_TELLS = lambda office: office.must or office.done or office.answers or office.out
MESSAGE_OR_TELLS = lambda office: office.must or office.done or office.answers or any(message for _, message in office.out)


class Run:
    """Four offices and their clients, until so many sessions are told."""

    def __init__(self, seed, clients, total, between, stands, sync, at_a_time):
        self.random, self.order, self.events = random.Random(seed), itertools.count(), []
        self.offices = [Office(it) for it in range(4)]
        self.clients, self.total, self.between, self.stands, self.sync, self.at_a_time = clients, total, between, stands, sync, at_a_time
        self.began, self.took, self.now, self.one = 0, [], 0.0, 0

    def at(self, time, what, *words):
        heapq.heappush(self.events, (time, next(self.order), what, words))

    def varied(self, time):
        return time * self.random.uniform(0.9, 1.1)

    def ask(self, now, office):
        if self.began == self.total:
            return
        self.began += 1
        own, k = office.records, office.asks
        office.asks += 1
        self.at(now + self.random.expovariate(2 / CLIENT), self.arrive, office, own if k % 2 else [own[k // 2 % 2]])

    def arrive(self, now, office, records):
        office.asked.append((now, records))
        self.wake(now, office)

    def deliver(self, now, office, sender, message):
        office.inbox.append((sender, message))
        self.wake(now, office)

    def wake(self, now, office):
        if not office.busy:
            self.at(now + AWAKE, self.woken, office, office.turns)

    def woken(self, now, office, turns):
        if not office.busy and office.turns == turns:
            self.turn(now, office)

    def turn(self, now, office):
        office.busy, office.turns = True, office.turns + 1
        for session in office.asked:
            office.queue.append(session)
            office.entries, office.answers = office.entries + 1, True
        office.asked = []
        end = now + self.varied(WORK + EVENT * office.turn(self.between))
        if office.entries == office.stood:
            return self.at(end, self.let_out, office, *self.taken(office), True)
        if not self.stands(office):
            return self.at(end, self.rest, office)
        office.stood, office.syncs, office.must = office.entries, office.syncs + 1, False
        frames, done = self.taken(office)
        if self.at_a_time == 1:
            return self.at(end + self.varied(self.sync), self.let_out, office, frames, done, True)
        self.at(end + self.varied(self.sync), self.let_out, office, frames, done, False)
        self.at(end, self.rest, office)

    def taken(self, office):
        frames, done = office.out, office.done
        office.out, office.done, office.answers = [], [], False
        return frames, done

    def let_out(self, now, office, frames, done, rests):
        office.sent += len(frames)
        for it, (to, message) in enumerate(frames):
            self.at(now + WAY + NEXT * it, self.deliver, self.offices[to], office.me, message)
        for began, _ in done:
            self.took.append(now - began)
            self.one += 1
            self.ask(now + CLIENT, self.offices[self.one % 4] if self.clients == 1 else office)
        if rests:
            self.rest(now, office)

    def rest(self, now, office):
        office.busy = False
        if office.inbox or office.asked or office.next_rule():
            return self.at(now, self.woken, office, office.turns)
        self.at(now + WAIT, self.waited, office, office.turns)

    def waited(self, now, office, turns):
        if not office.busy and office.turns == turns:
            office.must = office.entries > office.stood
            self.turn(now, office)

    def made(self):
        for it in range(min(self.clients, self.total)):
            self.ask(0.0, self.offices[it % 4])
        for office in self.offices:
            self.at(0.0, self.wake, office)
        while len(self.took) < self.total:
            self.now, _, what, words = heapq.heappop(self.events)
            what(self.now, *words)
        took, count = sorted(self.took), len(self.took)
        per = [sum(getattr(it, what) for it in self.offices) / count for what in ("syncs", "sent", "entries")]
        return count / self.now * 1000, took[count // 2], took[count * 99 // 100], *per


ORDERS = {"all datagrams, then the rules": False, "each datagram, and after it the rules": True}
STANDS = {
    "each turn stands": (AT_ONCE, 1),
    "a turn stands where something leaves or is told": (LEAVES_OR_TELLS, 1),
    "the same, but that counts alone wait": (MESSAGE_OR_TELLS, 1),
    "each turn stands, while the next is made": (AT_ONCE, 2),
}


def row(name, *form):
    runs = [Run(seed, 16, 3_000, *form).made() for seed in range(1, 5)]
    rate, median, late, syncs, sent, entries = (statistics.mean(it) for it in zip(*runs))
    alone = Run(1, 1, 400, *form).made()
    print(f"| {name} | {rate:,.0f} | {median:.1f} | {late:.1f} | {syncs:.1f} | {sent:.1f} | {entries:.0f} | {alone[0]:,.0f} |", flush=True)


if __name__ == "__main__":
    print("| Form | Sessions a second | Milliseconds, median | 99 of 100 within | Syncs a session | Datagrams | Entries | One client |\n|---|---|---|---|---|---|---|---|")
    for order, between in ORDERS.items():
        for name, (stands, at_a_time) in STANDS.items():
            row(f"{order}; {name}", between, stands, SYNC, at_a_time)
