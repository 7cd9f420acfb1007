"""Which runs `random` draws, foretold by a generator and a few lines of this script's own, for sessions that are simple enough:
those that need nobody, whose order shows each draw, and one that fetches a bottle, whose last step does."""
from sockets import MOVES as MOVING, SHARED

MASK = 2**64 - 1
# The seeds differ above the low 16, 32 and 63 bits too.
SEEDS = (0, 1, 65_536, 65_537, 2**32 + 1, 2**63 + 1, 2**64 - 1)
LOSSES = (0, 30, 90, 99)
# The first words from the seed 42 that the authors of the generator print.
FIRST_WORDS = [0xA15C02B7, 0x7B47F409, 0xBA1D3330, 0x83D2F293, 0xBFA4784B, 0xCBED606E]
OFFICES, EACH = 16, 5
# The rules of a session that needs nobody: start, drink, work 256, finish.
RULES = 4
# Those of a session that fetches, before it has to wait and after (start, hungry, eat, askbottle; drink, work 256, finish).
BEFORE, AFTER = 4, 3
LAST_FRAMES = 64

# The two records of a session that moves 30 from one to the other, of which the second is lent by a neighbour.
MOVES = {"shared.txt": SHARED, "moves.txt": MOVING}
ALL_LOST = (0, 1, 42, 2**64 - 1)
UNMOVED = b"unfinished 1\nvalue x 100\nvalue y 0\n"

FETCHED = b"a.1 done reads x=5 writes - gives 5\nunfinished 0\nvalue x 5\n"
UNFETCHED = b"unfinished 1\nvalue x 5\n"


class Draws:
    """PCG-XSH-RR 64/32 in its sequence 54, as its authors define it, from a seed."""

    def __init__(self, seed):
        self.step, self.state = (54 << 1) | 1, 0
        self.word()
        self.state = (self.state + seed) & MASK
        self.word()

    def word(self):
        old = self.state
        self.state = (old * 6364136223846793005 + self.step) & MASK
        mixed, turned = ((old >> 18 ^ old) >> 27) & 0xFFFFFFFF, old >> 59
        return (mixed >> turned | mixed << (-turned & 31)) & 0xFFFFFFFF

    def below(self, limit):
        return self.word() % limit


def alone(seed, steps):
    """What a run prints of sessions that need nobody: of three kinds of steps the first is a rule of an office, the second has no
    message to send, and the third no frame."""
    draws, rules, lines = Draws(seed), [0] * OFFICES, []
    for _ in range(steps):
        kind = draws.below(3)
        office = draws.below(OFFICES) if kind < 2 else None
        if kind == 0 and rules[office] < RULES * EACH and len(lines) < OFFICES * EACH:
            rules[office] += 1
            if rules[office] % RULES == 0:
                ticket = rules[office] // RULES
                lines.append(f"o{office}.{ticket} done reads - writes - gives {ticket}")
    return "\n".join([*lines, f"unfinished {OFFICES * EACH - len(lines)}", ""]).encode()


class Fetch:
    """The one session of office 0 fetches a bottle from office 1: a message asks for it, and one brings it."""

    def __init__(self, seed, loss):
        self.draws, self.loss = Draws(seed), loss
        self.rules, self.asked, self.gave, self.has_it = 0, False, False, False
        self.frames = []

    def steps(self):
        """After how many steps it has finished."""
        count = 0
        while self.rules < BEFORE + AFTER:
            kind = self.draws.below(3)
            (self.rule, self.send, self.deliver)[kind]()
            count += 1
        return count

    def rule(self):
        if self.draws.below(2) == 1:
            self.gave = self.gave or self.asked
        elif self.rules < BEFORE or self.has_it:
            self.rules += 1

    def send(self):
        """The question waits until the bottle comes, and the bottle for good: nothing tells that it came."""
        office = self.draws.below(2)
        waits = self.gave if office else self.rules >= BEFORE and not self.has_it
        if waits:
            self.draws.below(1)
            self.frames.append(office)

    def deliver(self):
        if not self.frames:
            return
        frame = self.frames[-1 - self.draws.below(min(len(self.frames), LAST_FRAMES))]
        if self.draws.below(100) < self.loss:
            return
        if frame == 0:
            self.asked = True
        else:
            self.has_it = True


def drawn(check):
    draws = Draws(42)
    check.equal("drawn: the generator of this check", [draws.word() for _ in FIRST_WORDS], FIRST_WORDS)
    names = [f"o{it}" for it in range(OFFICES)]
    plan = "plan 1 run 7\n" + "".join(f"office {it} -\n" for it in names)
    texts = "".join(f"session {it}\ngive {ticket}\nend\n" for ticket in range(1, EACH + 1) for it in names)
    fetches = {"fetch.txt": b"plan 1 run 7\noffice a -\noffice b -\npair a b fork a\nrecord x a b 5 at b\n", "one.txt": b"session a\ngive read x\nend\n"}
    check.files({"alone.txt": plan.encode(), "each.txt": texts.encode(), **fetches})
    run = lambda files, seed, loss, steps: check.run(f"random {files} --seed {seed} --loss {loss} --steps {steps}")
    for steps in (700, 3000):
        foretold = {seed: alone(seed, steps) for seed in SEEDS}
        check.equal(f"drawn: runs of {steps} steps that differ", len(set(foretold.values())), len(SEEDS))
        for seed, wanted in foretold.items():
            check.wants(f"drawn: seed {seed}, {steps} steps", run("alone.txt each.txt", seed, 0, steps), 0, wanted, b"")
    crowd = lambda count: "".join(f"o0.{it} done reads - writes - gives -\n" for it in range(1, count + 1)).encode()
    for count, steps, wanted in ((70, 100_000, crowd(70) + b"unfinished 0\n"), (100, 1, b"unfinished 100\n")):
        check.files({"crowd.txt": b"session o0\nend\n" * count})
        check.wants(f"drawn: {count} sessions of one office, {steps} steps", run("alone.txt crowd.txt", 1, 0, steps), 0, wanted, b"")
    check.files(MOVES)
    for seed in ALL_LOST:
        check.wants(f"drawn: seed {seed}, all lost", run("shared.txt moves.txt", seed, 100, 1000), 0, UNMOVED, b"")
    for seed in SEEDS:
        for loss in LOSSES:
            last = Fetch(seed, loss).steps()
            check.wants(f"drawn: seed {seed}, loss {loss}, {last} steps", run("fetch.txt one.txt", seed, loss, last), 0, FETCHED, b"")
            check.wants(f"drawn: seed {seed}, loss {loss}, {last - 1} steps", run("fetch.txt one.txt", seed, loss, last - 1), 0, UNFETCHED, b"")
        check.wants(f"drawn: seed {seed}, loss 100", run("fetch.txt one.txt", seed, 100, 100_000), 0, UNFETCHED, b"")
