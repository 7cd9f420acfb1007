#!/usr/bin/env python3
"""What clients were told by offices that are killed and paused, compared with what an audit says.

usage: tests/system/told.py [PROGRAM [HISTORY [SEED]]]     PROGRAM is crates/drink/out/drink where it is left out or is -

Three offices of a plan serve on this machine. Clients ask now one of them, now another, each for one session after the other; an office
is asked on its standard input for several clients at once. Offices are killed and started again with the same store, and stopped and
let go on, as SEED draws it, which is drawn where it is left out, and printed. What an office said right before it was killed is heard
half the time. Who heard no answer asks again under its ticket, and so do some who heard one. Looked at is, at the end and at moments at
which all offices stand still:

 - Each session is told in the same words as often as it is told, and an audit of the stores tells it so, once, and no other; of
   each office in the order in which clients were told.
 - In the audit's order each session reads what the ones before it left; and the second reading of journals tells the same of the stores.
 - The orders of all records, together with who was told before who asked, have no ring: so there is one order of all sessions that
   explains what clients saw and when.

Where HISTORY is given the same is written there for Elle's checker of registers (rw-register), a transaction's beginning or end on each
line, as EDN: the first sets the values of the plan, and no value is written twice. Says what was tried, a line each, and last 'N passed,
M failed'; the status is 1 where something failed.
"""
import os, random, re, selectors, signal, socket, subprocess, sys, tempfile, time
from collections import Counter

TOP = os.path.dirname(os.path.dirname(os.path.dirname(os.path.abspath(__file__))))
SECOND = os.path.join(TOP, "tests", "second_reading", "audit")
HOST, OFFICES = "127.0.0.1", ("a", "b", "c")
# Each record with its two offices and its first value; no session writes one of these.
RECORDS = {"w": ("a", "b", 1), "x": ("a", "b", 2), "y": ("b", "c", 3), "z": ("a", "c", 4)}
CLIENTS, MOST_REQUESTS = 6, 900
# How long a client thinks, an office is away or stands still, in seconds at most.
THINKS, AWAY, STILL = 0.08, 0.25, 0.4
# After how many more sessions that are told the next fault comes: at least, and at most.
SOONEST, LATEST = 4, 20
KILLS, PAUSES, AUDITS = 16, 8, 4
# How often one that was told asks again where its office was killed, of the last so many.
AGAIN, LAST = 1 / 3, 12
SYNC = {"a": "data", "b": "none", "c": "none"}
SECONDS = 300
LINE = re.compile(r"(\w+)\.(\d+) (done|refused \d+) reads (.*) writes (.*) gives (.*)")


def free_ports():
    """A port for each office that nobody has now."""
    held = [socket.socket(socket.AF_INET, socket.SOCK_DGRAM) for _ in OFFICES]
    for it in held:
        it.bind((HOST, 0))
    ports = [it.getsockname()[1] for it in held]
    for it in held:
        it.close()
    return ports


def plan_text():
    lines = ["plan 1 run 9", *(f"office {it} {HOST}:{port}" for it, port in zip(OFFICES, free_ports()))]
    lines += ["pair a b fork a", "pair b c fork b", "pair a c fork a"]
    lines += [f"record {name} {one} {other} {value} at {one}" for name, (one, other, value) in RECORDS.items()]
    return "\n".join([*lines, ""])


def values_of(text):
    return {} if text == "-" else {name: int(value) for name, value in (it.split("=") for it in text.split())}


class Request:
    """A session that a client asks an office for, and what it was told of it."""

    def __init__(self, client, office, number, draws):
        self.client, self.office, self.ticket, self.asked, self.when, self.lines = client, office, None, None, None, []
        own = [name for name, it in RECORDS.items() if office in it[:2]]
        self.names = sorted(draws.sample(own, draws.randint(1, min(3, len(own)))))
        kind = draws.random()
        # What it sets: values of its own. A tenth of the sessions is refused, which they find out by a record's value.
        self.sets = {} if kind < 0.3 else {name: 10 * number + at for at, name in enumerate(self.names, 100)}
        lines = [f"repeat {draws.choice((0, 0, 300, 3000))}", "end", *([f"require read {self.names[0]} < 0 else 4"] if kind > 0.9 else [])]
        lines += [f"give read {it}" for it in self.names] + [f"set {name} = {value}" for name, value in self.sets.items()]
        self.text = "\n".join([f"session {office}", *lines, "end", ""])

    def told(self, line, now):
        self.lines.append(line)
        self.when = self.when or now


class Office:
    """An office as a process that is started again and again, and what it was asked for."""

    def __init__(self, name, words, place, draws):
        self.name, self.words, self.place, self.draws, self.requests, self.process, self.starts = name, words, place, draws, [], None, 0
        # When it is started, or let go on, again; whether it said how many tickets it gave; and lines that no client may hear.
        self.back, self.is_ready, self.wrong, self.rest = 0.0, False, [], b""

    def start(self, selector):
        words = [*self.words, "--store", f"{self.name}.store", "--sync", SYNC[self.name], *([] if self.starts else ["--new"])]
        errors = open(os.path.join(self.place, f"{self.name}.errors"), "ab")
        self.process = subprocess.Popen(words, cwd=self.place, stdin=subprocess.PIPE, stdout=subprocess.PIPE, stderr=errors, bufsize=0)
        errors.close()
        os.set_blocking(self.process.stdout.fileno(), False)
        selector.register(self.process.stdout, selectors.EVENT_READ, self)
        self.starts, self.back, self.is_ready, self.rest = self.starts + 1, None, False, b""

    def ask(self, request):
        self.process.stdin.write(f"ticket {request.ticket}\n{request.text}".encode())

    def kill(self, selector):
        """It is killed; what it said last is heard or not."""
        self.process.kill()
        self.process.wait()
        if self.draws.random() < 0.5:
            self.hear(time.monotonic())
        selector.unregister(self.process.stdout)
        self.process.stdin.close()
        self.process.stdout.close()
        self.process, self.is_ready = None, False

    def errors(self):
        """The end of what it said on its standard error."""
        with open(os.path.join(self.place, f"{self.name}.errors"), encoding="ascii", errors="replace") as file:
            return file.read()[-300:]

    def stop(self):
        """Stands still; False where it has ended."""
        self.process.send_signal(signal.SIGSTOP)
        return os.WIFSTOPPED(os.waitpid(self.process.pid, os.WUNTRACED)[1])

    def go_on(self):
        self.process.send_signal(signal.SIGCONT)

    def hear(self, now):
        """What it said since."""
        try:
            while part := os.read(self.process.stdout.fileno(), 65536):
                self.rest += part
        except BlockingIOError:
            pass
        *lines, self.rest = self.rest.split(b"\n")
        for line in lines:
            self.says(line.decode("ascii", "replace"), now)

    def says(self, line, now):
        session, word = LINE.fullmatch(line), line.split(" ")
        if session and session[1] == self.name and int(session[2]) <= len(self.requests):
            self.requests[int(session[2]) - 1].told(line, now)
        elif word[0] == "ready" and not self.is_ready:
            self.is_ready = True
            for at, it in enumerate(self.requests, -len(self.requests)):
                if it.when is None or (-at <= LAST and self.draws.random() < AGAIN):
                    self.ask(it)
        elif not (word[0] in ("ticket", "pending") and 1 <= int(word[1]) <= len(self.requests)):
            self.wrong.append(line)


class Day:
    """The offices, their clients, and what befalls them."""

    def __init__(self, program, place, draws):
        self.program, self.place, self.draws, self.selector = program, place, draws, selectors.DefaultSelector()
        with open(os.path.join(place, "plan.txt"), "w", encoding="ascii") as file:
            file.write(plan_text())
        self.offices = {it: Office(it, [program, "serve", "plan.txt", it], place, draws) for it in OFFICES}
        self.requests, self.busy, self.thinks = [], {}, dict.fromkeys(range(CLIENTS), 0.0)
        self.faults = ["kill"] * KILLS + ["pause"] * PAUSES + ["audit"] * AUDITS
        draws.shuffle(self.faults)
        self.next_fault, self.told, self.wrong, self.amid, self.done = LATEST, 0, [], [], Counter()

    def run(self):
        end = time.monotonic() + SECONDS
        for it in self.offices.values():
            it.start(self.selector)
        while (self.faults or self.busy or any(it.process is None for it in self.offices.values())) and time.monotonic() < end:
            for key, _ in self.selector.select(0.005):
                key.data.hear(time.monotonic())
            now = time.monotonic()
            self.clients(now)
            self.befalls(now)
            ended = [it for it in self.offices.values() if it.process and it.process.poll() is not None]
            if ended:
                self.wrong += [f"{it.name} has ended by itself, and said {it.errors()!r}" for it in ended]
                break
        if self.faults or self.busy:
            self.wrong.append(f"it broke off: {len(self.busy)} clients still wait, and {len(self.faults)} faults are to come")
        for it in self.offices.values():
            if it.process:
                it.go_on()
                it.kill(self.selector)
        self.selector.close()

    def clients(self, now):
        """Those that were told think for a while, and the others that may ask do."""
        for client in [it for it, request in self.busy.items() if request.when is not None]:
            del self.busy[client]
            self.told += 1
            self.thinks[client] = now + self.draws.random() * THINKS
        for client, until in self.thinks.items():
            if client not in self.busy and until <= now and self.faults and len(self.requests) < MOST_REQUESTS:
                office = self.offices[self.draws.choice(OFFICES)]
                self.busy[client] = request = Request(client, office.name, len(self.requests) + 1, self.draws)
                self.requests.append(request)
                office.requests.append(request)
                request.ticket, request.asked = len(office.requests), now
                if office.is_ready:
                    office.ask(request)

    def befalls(self, now):
        """Who was away long enough comes back; and the next fault comes."""
        for it in self.offices.values():
            if it.back is not None and it.back <= now:
                if it.process:
                    it.go_on()
                    it.back = None
                elif it.starts:
                    it.start(self.selector)
        # A store has no line before its office does something, and then it is no journal yet.
        if not self.faults or self.told < self.next_fault or not all(it.requests and it.requests[0].lines for it in self.offices.values()):
            return
        office = self.offices[self.draws.choice(OFFICES)]
        kind = self.faults[-1]
        if kind != "audit" and (not office.is_ready or office.back is not None):
            return
        self.done[self.faults.pop()] += 1
        self.next_fault = self.told + self.draws.randint(SOONEST, LATEST)
        if kind == "audit":
            self.audit_amid()
        else:
            if kind == "kill":
                office.kill(self.selector)
            elif not office.stop():
                self.wrong.append(f"{office.name} has ended by itself")
            office.back = now + self.draws.random() * (AWAY if kind == "kill" else STILL)

    def audit_amid(self):
        """While all offices stand still an audit has all that was told."""
        running = [it for it in self.offices.values() if it.process]
        still = [it for it in running if it.back is None and not it.stop()]
        self.wrong += [f"{it.name} has ended by itself" for it in still]
        for it in running:
            it.hear(time.monotonic())
        lines, wrong = self.audit()
        told = {name: [it.lines[0] for it in office.requests if it.lines] for name, office in self.offices.items()}
        self.wrong += wrong
        for name, has in told.items():
            own = [it for it in lines if it.startswith(f"{name}.")]
            if own[: len(has)] != has:
                self.wrong.append(f"amid: {name} told {has[-3:]}, and the audit has {own[-3:]}")
        self.amid.append(lines)
        for it in running:
            if it.back is None:
                it.go_on()

    def audit(self, *program):
        """The lines of an audit of the stores, but for a last line of one that breaks off, and what is wrong with how it ended."""
        stores = [f"{it}.journal" for it in OFFICES]
        for name, store in zip(OFFICES, stores):
            with open(os.path.join(self.place, f"{name}.store"), "rb") as kept, open(os.path.join(self.place, store), "wb") as file:
                file.write(kept.read().rpartition(b"\n")[0] + b"\n")
        ran = subprocess.run([*(program or (self.program, "audit")), "plan.txt", *stores], cwd=self.place, stdin=subprocess.DEVNULL, capture_output=True, text=True, timeout=SECONDS)
        wrong = [f"audit: status {ran.returncode}, {ran.stdout[:200]!r}, {ran.stderr!r}"] if ran.returncode or ran.stderr else []
        return ran.stdout.splitlines(), wrong


def wrong_words(day):
    """Sessions that were told in several ways, or never; and lines that nobody asked for."""
    for it in day.requests:
        if len(set(it.lines)) != 1:
            yield f"{it.office}.{it.ticket} was told as {sorted(set(it.lines))}"
    for office in day.offices.values():
        yield from (f"{office.name} said {it!r}" for it in office.wrong)


def wrong_audit(day, lines):
    """Where an audit has other sessions than were told, or tells those of an office in another order."""
    sessions = [it for it in lines if LINE.fullmatch(it)]
    told = [it.lines[0] for it in day.requests if it.lines]
    if Counter(sessions) != Counter(told):
        yield f"{list(((Counter(sessions) - Counter(told)) + (Counter(told) - Counter(sessions))))[:4]} are told in one alone"
    for name in OFFICES:
        own, heard = [it for it in sessions if it.startswith(f"{name}.")], sorted((it for it in day.requests if it.office == name and it.when), key=lambda it: it.when)
        # Those that were told at one moment stand in the order of their tickets.
        if own != [it.lines[0] for it in sorted(heard, key=lambda it: (it.when, it.ticket))]:
            yield f"{name}: the audit has another order than clients were told in"
    for before, after in zip(day.amid, [*day.amid[1:], lines]):
        for name in OFFICES:
            one, other = ([it for it in part if it.startswith(f"{name}.")] for part in (before, after))
            if other[: len(one)] != one:
                yield f"{name}: an audit has {one[-2:]}, which a later one hasn't there"


def wrong_reads(lines):
    """Sessions of an audit that don't read what the ones before them left, and values at the end that aren't left."""
    values = {name: it[2] for name, it in RECORDS.items()}
    for line in lines:
        found = LINE.fullmatch(line)
        if found:
            reads = values_of(found[4])
            if reads != {name: values[name] for name in reads}:
                yield f"{line!r}, where {values} are left"
            values.update(values_of(found[5]))
    wanted = ["unfinished 0", *(f"value {name} {value}" for name, value in values.items())]
    if lines[-len(wanted) :] != wanted:
        yield f"{wanted} are wanted at the end, and not {lines[-len(wanted):]}"


def has_ring(day, lines):
    """Whether the orders of the records, and who was told before who asked, go round in a ring."""
    after, at = {}, {it.lines[0]: it for it in day.requests if it.lines}
    last = {}
    for line in lines:
        for name in values_of(LINE.fullmatch(line)[4]) if line in at else ():
            after.setdefault(last.get(name), []).append(at[line])
            last[name] = at[line]
    # A row of moments: after each that is told come later moments and who asks then.
    moments = sorted([(it.when, 1, at, it) for at, it in enumerate(day.requests) if it.when] + [(it.asked, 0, at, it) for at, it in enumerate(day.requests)], key=lambda it: it[:3])
    moment = 0
    for _, is_told, _, it in moments:
        if is_told:
            after.setdefault(it, []).append(moment + 1)
            after.setdefault(moment, []).append(moment + 1)
            moment += 1
        else:
            after.setdefault(moment, []).append(it)
    count = Counter(it for several in after.values() for it in several)
    free = [it for it in {*after, *count} if not count[it]]
    while free:
        for it in after.pop(free.pop(), []):
            count[it] -= 1
            if not count[it]:
                free.append(it)
    return any(count.values())


def spelled(operations):
    return "[" + " ".join(f"[:{kind} :{name} {'nil' if value is None else value}]" for kind, name, value in operations) + "]"


def history(day):
    """The transactions, each as it begins and as it ends, in the order of the moments: (when, kind, client, operations)."""
    begins = [("w", name, it[2]) for name, it in RECORDS.items()]
    yield from (((-1.0, "invoke", CLIENTS, begins)), (-1.0, "ok", CLIENTS, begins))
    moments = []
    for it in day.requests:
        asks = [("r", name, None) for name in it.names] + [("w", name, value) for name, value in it.sets.items()]
        moments.append((it.asked, "invoke", it.client, asks))
        if it.lines:
            found = LINE.fullmatch(it.lines[0])
            does = [("r", name, value) for name, value in values_of(found[4]).items()] + [("w", name, value) for name, value in values_of(found[5]).items()]
            moments.append((it.when, "ok", it.client, does))
        else:
            moments.append((float("inf"), "info", it.client, asks))
    yield from sorted(moments, key=lambda it: it[0])


def write_history(path, day):
    first = min((it.asked for it in day.requests), default=0.0)
    with open(path, "w", encoding="ascii") as file:
        for index, (when, kind, client, operations) in enumerate(history(day)):
            at = max(0, int((min(when, first + SECONDS) - first) * 1e9))
            file.write(f"{{:index {index}, :time {at}, :type :{kind}, :process {client}, :f :txn, :value {spelled(operations)}}}\n")


def judged(day, lines):
    """What is tried, each with what is wrong."""
    yield f"{len(day.requests)} sessions, {dict(day.done)}, {sum(it.starts for it in day.offices.values())} starts", day.wrong
    several = sum(len(it.lines) > 1 for it in day.requests)
    yield f"each session is told in the same words, {several} of them more than once", [*wrong_words(day), *([] if several else ["none is told twice"])]
    yield "an audit tells what clients were told, of each office in that order", wrong_audit(day, lines)
    yield "in its order each session reads what the ones before it left", wrong_reads(lines)
    second, wrong = day.audit(sys.executable, SECOND)
    yield "the second reading of journals tells the same of the stores", wrong or ([] if second == lines else [f"{[it for it in second if it not in lines][:2]}"])
    yield "the orders of the records go together with who was told before who asked", ["they go round in a ring"] if has_ring(day, lines) else []
    least = SOONEST * (KILLS + PAUSES + AUDITS)
    few = len(day.requests) < least or any(len([it for it in day.requests if it.office == name]) < least // 10 for name in OFFICES)
    yield f"there are {least} sessions at least, of each office some", [f"{len(day.requests)}"] if few else []


def main(words):
    program = os.path.abspath(words[1] if len(words) > 1 and words[1] != "-" else os.path.join(TOP, "crates", "drink", "out", "drink"))
    seed = int(words[3]) if len(words) > 3 else random.randrange(2**32)
    if not os.access(program, os.X_OK):
        print(f"tests/system/told.py: {program} isn't built: ./drink --build builds it\n0 passed, 1 failed")
        return 1
    print(f"seed {seed}", flush=True)
    passed = failed = 0
    with tempfile.TemporaryDirectory() as place:
        day = Day(program, place, random.Random(seed))
        day.run()
        lines, wrong = day.audit()
        day.wrong += wrong
        for name, found in judged(day, lines):
            found = list(found)
            passed, failed = passed + (not found), failed + bool(found)
            print(f"FAILED {name}: {found[:3]}" if found else f"ok     {name}", flush=True)
    if len(words) > 2:
        write_history(words[2], day)
    print(f"{passed} passed, {failed} failed")
    return 1 if failed else 0


if __name__ == "__main__":
    sys.exit(main(sys.argv))
