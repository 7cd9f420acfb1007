"""Offices with stores, each a process behind a relay, that are killed at random moments and started again: what they tell, what
their stores have at each of these moments, and what the audits and a serial run say of that. Two of the offices wait for the disk:
of their stores only what was synced stands, and some of the rest is lost at a kill, as with the power."""
import os, random, re, shutil, signal, struct, subprocess, time
from concurrent.futures import ThreadPoolExecutor

from common import HOST, free_ports
from relays import Relay, audited, write

OFFICES, EACH, KILLS, SECONDS = ("o1", "o2", "o3", "o4"), 200, 200, 300
SYNC = {"o1": "data", "o2": "none", "o3": "data", "o4": "none"}
# What a record has at first; so much that few of the amounts that are moved aren't there.
START = 6000
# A session has a loop of so many turns: so an office does few sessions in a turn, and is asked for its bottles before it has done all.
IDLE = 9000
# A kill comes after some session was told, drawn before, and at most so many seconds more; at once where the next is to come already.
LATER = 0.04
# At least so many of the kills have to come while sessions go on.
AMID = KILLS // 2
# How many seconds a datagram is on its way at most: the longer, the more sessions an office does before it is asked for a bottle.
DELAY = 0.002
# How often an office stays away for a while once it was killed, and how often the system lost all but the first bytes of a line
# that was on its way to the store; how many seconds it is away, at most.
STAYS_AWAY, TEARS, AWAY = 1 / 8, 1 / 4, 0.3
LOSES, DOUBLES = 1 / 5, 1 / 10
# The last start of each office has this many turns.
LAST_TURNS = 2
# What a line that breaks off may have had.
TORN = b"0 send o2 1 = frame 4450010100000007000100000000000000110000000000000010040001000000000000001e"
# Notes in the file that STOOD names how long the store was when it was synced last.
NOTES = rb"""
#define _GNU_SOURCE
#include <dlfcn.h>
#include <fcntl.h>
#include <stdint.h>
#include <stdlib.h>
#include <sys/mman.h>
#include <sys/stat.h>
#include <unistd.h>

static uint64_t *stood;
__attribute__((constructor)) static void begin(void) {
    int file = open(getenv("STOOD"), O_RDWR | O_CREAT, 0600);
    if (file < 0 || ftruncate(file, sizeof *stood)) abort();
    stood = mmap(NULL, sizeof *stood, PROT_READ | PROT_WRITE, MAP_SHARED, file, 0);
    if (stood == MAP_FAILED) abort();
    close(file);
}
static int noted(int file, int (*sync)(int)) {
    struct stat is;
    if (fstat(file, &is) || sync(file)) return -1;
    if (S_ISREG(is.st_mode)) *stood = is.st_size;
    return 0;
}
int fsync(int file) { return noted(file, (int (*)(int))dlsym(RTLD_NEXT, "fsync")); }
int fdatasync(int file) { return noted(file, (int (*)(int))dlsym(RTLD_NEXT, "fdatasync")); }
"""
LINE = re.compile(r"(o\d)\.(\d+) (done|refused 1) reads (.*) writes (.*) gives (.*)")


class Session:
    """Moves an amount from one record of its office to another; it is refused where the one has less."""

    def __init__(self, office, source, target, amount):
        self.office, self.source, self.target, self.amount = office, source, target, amount

    def text(self):
        source, target, amount = self.source, self.target, self.amount
        lines = (f"session {self.office}", f"require read {source} >= {amount} else 1", f"repeat {IDLE}", "end", f"set {source} = read {source} - {amount}")
        return "\n".join((*lines, f"set {target} = read {target} + {amount}", f"give read {target}", "end", ""))

    def line(self, ticket, values):
        """What is told of it, on these values, which it changes."""
        names = [it for it in values if it in (self.source, self.target)]
        says = lambda: " ".join(f"{it}={values[it]}" for it in names)
        reads = says()
        if values[self.source] < self.amount:
            return f"{self.office}.{ticket} refused 1 reads {reads} writes - gives -"
        values[self.source] -= self.amount
        values[self.target] += self.amount
        return f"{self.office}.{ticket} done reads {reads} writes {says()} gives {values[self.target]}"


class Ledger:
    """Four offices in a ring, with two records for each two neighbours, and their sessions, no two of which move the same amount: half
    of them between the records of two neighbours, half from those with one neighbour to those with the other."""

    def __init__(self, draws):
        ends = [sorted((it, OFFICES[(at + 1) % 4])) for at, it in enumerate(OFFICES)]
        self.pairs = {(f"a{at}", f"b{at}"): pair for at, pair in enumerate(ends)}
        self.start = {it: START for both in self.pairs for it in both}
        amounts = draws.sample(range(1, len(OFFICES) * EACH + 1), len(OFFICES) * EACH)
        self.sessions = {office: [self.drawn(draws, office, amounts.pop()) for _ in range(EACH)] for office in OFFICES}

    def drawn(self, draws, office, amount):
        one, other = draws.sample([both for both, ends in self.pairs.items() if office in ends], 2)
        source, target = draws.sample(one, 2) if draws.random() < 0.5 else (draws.choice(one), draws.choice(other))
        return Session(office, source, target, amount)

    def plan(self, addresses):
        """The first of two neighbours has their fork and one of their bottles, so nobody precedes himself."""
        lines = ["plan 1 run 7", *(f"office {it} {addresses[it]}" for it in OFFICES), *(f"pair {a} {b} fork {a}" for a, b in self.pairs.values())]
        lines += [f"record {name} {a} {b} {START} at {end}" for names, (a, b) in self.pairs.items() for name, end in zip(names, (a, b))]
        return "\n".join((*lines, ""))

    def text(self):
        return "".join(it.text() for at in range(EACH) for it in (self.sessions[office][at] for office in OFFICES))


class Life:
    """A process of an office from its start on, and the lines that it told."""

    def __init__(self, words, env):
        self.process = subprocess.Popen(words, stdin=subprocess.DEVNULL, stdout=subprocess.PIPE, stderr=subprocess.PIPE, env=env)
        self.rest, self.lines = b"", []
        os.set_blocking(self.process.stdout.fileno(), False)

    def hear(self):
        """The lines that were told since; a line that breaks off is none."""
        try:
            while part := os.read(self.process.stdout.fileno(), 65536):
                self.rest += part
        except BlockingIOError:
            pass
        *lines, self.rest = self.rest.split(b"\n")
        lines = [it.decode("ascii", "replace") for it in lines]
        self.lines += lines
        return lines

    def stop(self):
        """Stands still; False where it has ended."""
        self.process.send_signal(signal.SIGSTOP)
        _, status = os.waitpid(self.process.pid, os.WUNTRACED)
        if not os.WIFSTOPPED(status):
            self.process.returncode = os.waitstatus_to_exitcode(status)
        return os.WIFSTOPPED(status)

    def end(self):
        """Kills it, and returns what it said of faults."""
        self.process.kill()
        said = self.process.stderr.read()
        self.process.wait()
        return said.decode(errors="replace")

    def ended(self):
        """How it ended by itself."""
        return f"ended by itself, with status {self.process.returncode}: {self.lines[-1:]}, {self.process.stderr.read()!r}"

    def close(self):
        self.process.stdout.close()
        self.process.stderr.close()


class Fault(Exception):
    """What isn't as it should be."""


def wants(is_so, what):
    if not is_so:
        raise Fault(what)


def whole(text):
    """The lines of a store that have their end."""
    return text[: text.rfind(b"\n") + 1]


class Kills:
    """The offices, which of their sessions were told with which line, and what stood in their stores last."""

    def __init__(self, program, place, seed):
        self.program, self.place, self.draws = program, place, random.Random(seed)
        self.ledger = Ledger(self.draws)
        # An address that no other run on this machine has, so that an office finds its port free when it is started again.
        host = f"127.{200 + os.getpid() % 50}.{os.getpid() // 256 % 256}.{os.getpid() % 256}"
        own = dict(zip(OFFICES, free_ports(len(OFFICES))))
        self.relay = Relay({it: [own[it]] for it in OFFICES}, LOSES, DOUBLES, seed, host, DELAY)
        at = {it: f"{host}:{own[it]}" for it in OFFICES}
        through = {it: f"{HOST}:{self.relay.ports[it]}" for it in OFFICES}
        for it in OFFICES:
            write(self.path(f"{it}.plan"), self.ledger.plan({**through, it: at[it]}))
        write(self.path("sessions"), self.ledger.text())
        self.told, self.stores = {it: [] for it in OFFICES}, {it: b"" for it in OFFICES}
        self.lives, self.away, self.cuts, self.seen = {}, {}, [], {}
        self.kills = self.torn = self.lost = 0
        # How many kills came in each quarter of the sessions that are told, and after the last.
        self.quarters = [0] * 5
        self.notes = self.path("notes.so") if shutil.which("cc") else None
        if self.notes:
            with open(self.path("notes.c"), "wb") as file:
                file.write(NOTES)
            subprocess.run(["cc", "-O2", "-shared", "-fPIC", "-o", self.notes, self.path("notes.c"), "-ldl"], check=True)
        else:
            print("not tried: what is lost with the power, since there is no C compiler")

    def path(self, name):
        return os.path.join(self.place, name)

    def words(self, office, turns):
        new = [] if os.path.exists(self.path(f"{office}.store")) else ["--new"]
        words = [self.program, "run", self.path(f"{office}.plan"), office, self.path("sessions"), "--turns", str(turns)]
        return [*words, "--store", self.path(f"{office}.store"), "--sync", SYNC[office], *new]

    def env(self, office):
        return {**os.environ, "LD_PRELOAD": self.notes, "STOOD": self.path(f"{office}.stood")} if self.notes else None

    def start(self, office):
        self.lives[office] = Life(self.words(office, 100_000), self.env(office))

    def all_told(self):
        return sum(len(it) for it in self.told.values())

    def hear(self, office):
        """What an office tells: how many of its sessions finished before, no fewer than were told; then all, by ticket, each as before."""
        life, told = self.lives[office], self.told[office]
        at = len(life.lines)
        for line in life.hear():
            if at == 0:
                before = re.fullmatch(r"before (\d+)", line)
                wants(before and len(told) <= int(before[1]) <= EACH, f"{office}: {line!r}, where {len(told)} were told before")
            else:
                found = LINE.fullmatch(line)
                wants(found and found[1] == office and int(found[2]) == at <= EACH, f"{office}: {line!r}, where the session {at} of {EACH} comes")
                wants(at > len(told) or told[at - 1] == line, f"{office}: {line!r}, and before {told[at - 1 : at]}")
                told.append(line) if at > len(told) else None
            at += 1

    def found(self, office):
        try:
            with open(self.path(f"{office}.store"), "rb") as file:
                return file.read()
        except FileNotFoundError:
            return b""

    def stood(self, office, found):
        """How many bytes of its store stand, of those that are found."""
        if not self.notes or SYNC[office] == "none":
            return len(whole(found))
        with open(self.path(f"{office}.stood"), "rb") as file:
            (stood,) = struct.unpack("Q", file.read(8).ljust(8, b"\0"))
        return len(whole(found[:stood]))

    def look(self, office):
        """What stands in the store, which begins with all that stood before, and has all sessions that were told."""
        found, before = self.found(office), self.stores[office]
        stands = found[: self.stood(office, found)]
        wants(stands.startswith(before), f"the store of {office}: {len(before)} bytes stood, and of them {len(os.path.commonprefix((before, stands)))} begin the {len(stands)} that stand")
        finished = stands.count(b" do finish = done\n")
        wants(len(self.told[office]) <= finished, f"the store of {office}: {finished} sessions have finished there, and {len(self.told[office])} were told")
        self.stores[office] = stands
        return stands

    def left(self, office):
        """Each datagram of the office that came to the relay since the last look stands in its store."""
        self.relay.hear()
        at = OFFICES.index(office)
        stands = set(re.findall(rb" = frame ([0-9a-f]+)\n", self.stores[office]))
        for it in self.relay.came[self.seen.get(office, 0) :]:
            wants(it[8] != at or it.hex().encode() in stands, f"{office} sent {it.hex()}, which isn't in its store")
        self.seen[office] = len(self.relay.came)

    def cut(self):
        """All offices stand still: their stores, and what they have told, are of one moment."""
        for office, life in self.lives.items():
            if not life.stop():
                raise Fault(f"{office} {life.ended()}")
        for office in self.lives:
            self.hear(office)
        names = {it: self.path(f"{len(self.cuts)}.{it}") for it in OFFICES}
        stores = [self.look(it) for it in OFFICES]
        for office in self.lives:
            self.left(office)
        if all(stores):
            for office, name in names.items():
                with open(name, "wb") as file:
                    file.write(self.stores[office])
            self.cuts.append((list(names.values()), [line for it in OFFICES for line in self.told[it]]))

    def go_on(self):
        for life in self.lives.values():
            life.process.send_signal(signal.SIGCONT)

    def kill(self, office):
        life = self.lives[office]
        said = life.end()
        self.hear(office)
        status = life.process.returncode
        wants(status == -signal.SIGKILL and not said, f"{office} ended by itself, with status {status}: {life.lines[-1:]}, {said!r}")
        del self.lives[office]
        life.close()
        self.look(office)
        self.left(office)
        self.kills += 1
        self.quarters[4 * self.all_told() // (len(OFFICES) * EACH)] += 1
        self.lose(office)
        self.away[office] = time.monotonic() + (self.draws.random() * AWAY if self.draws.random() < STAYS_AWAY else 0)

    def lose(self, office):
        """Of what doesn't stand some is lost, and a line that doesn't may break off."""
        found = self.found(office)
        kept = self.draws.randint(len(self.stores[office]), len(found))
        if kept < len(found):
            self.lost += 1
            os.truncate(self.path(f"{office}.store"), kept)
        if found and self.draws.random() < TEARS:
            self.torn += 1
            with open(self.path(f"{office}.store"), "ab") as file:
                file.write(TORN[: self.draws.randrange(1, len(TORN))])

    def kill_some(self):
        """One office is killed, seldom two or all of them; every second time all of them stand still before."""
        stands_still = self.draws.random() < 0.5
        if stands_still:
            self.cut()
        for office in self.draws.sample(sorted(self.lives), min(len(self.lives), self.draws.choice((1, 1, 1, 1, 2, 4)), KILLS - self.kills)):
            self.kill(office)
        if stands_still:
            self.go_on()

    def run(self):
        """Until all kills have come and all sessions were told."""
        count = len(OFFICES) * EACH
        after = [*sorted(self.draws.randrange(count) for _ in range(KILLS)), count + 1, count + 1]
        self.away, due, end = {it: 0 for it in OFFICES}, None, time.monotonic() + SECONDS
        while self.kills < KILLS or self.all_told() < count or self.away:
            wants(time.monotonic() < end, f"after {SECONDS} seconds {self.all_told()} sessions were told, and {self.kills} kills had come")
            for office in [it for it, at in self.away.items() if at <= time.monotonic()]:
                del self.away[office]
                self.start(office)
            self.relay.step()
            for office, life in self.lives.items():
                self.hear(office)
                if life.process.poll() is not None:
                    raise Fault(f"{office} {life.ended()}")
            if due is None and self.all_told() >= after[self.kills]:
                due = time.monotonic() + self.draws.random() * LATER
            is_late = self.all_told() >= after[self.kills + 1]
            if due and (is_late or due <= time.monotonic()) and self.lives:
                self.kill_some()
                due = None

    def last_starts(self):
        """Each office once more, by itself: all of its sessions had finished before."""
        self.cut()
        for office in OFFICES:
            self.lives.pop(office).end()
            ran = subprocess.run(self.words(office, LAST_TURNS), stdin=subprocess.DEVNULL, capture_output=True, text=True, timeout=SECONDS)
            wanted = "".join(f"{it}\n" for it in (f"before {EACH}", *self.told[office], "unfinished 0"))
            wants((ran.returncode, ran.stdout, ran.stderr) == (0, wanted, ""), f"{office}: at last {ran.returncode}, {ran.stdout[-300:]!r}, {ran.stderr!r}")
            self.look(office)

    def audits(self):
        """What stood at each moment at which all stood still, and at the end, is one history, with all that was told until then."""
        plan = self.path("o1.plan")
        with ThreadPoolExecutor(2) as pool:
            found = list(pool.map(lambda it: audited(self.program, plan, it[0]), self.cuts))
        lines, wrong = audited(self.program, plan, [self.path(f"{it}.store") for it in OFFICES])
        wants(not wrong, wrong)
        told = [line for it in OFFICES for line in self.told[it]]
        count = len(told)
        wants(sorted(lines[:count]) == sorted(told), f"audit: {sorted(set(lines[:count]) ^ set(told))[:4]} are told there alone, or not there")
        for at, ((has, wrong), (_, until)) in enumerate(zip(found, self.cuts)):
            wants(not wrong, f"the {at + 1}th time that all stood still: {wrong}")
            there = set(has)
            wants(there.issuperset(until), f"the {at + 1}th time that all stood still: {sorted(set(until) - there)[:4]} were told, and an audit doesn't tell them")
            wants(set(told).issuperset(it for it in has if LINE.fullmatch(it)), f"the {at + 1}th time that all stood still: {sorted(there - set(told))[:4]}")
        return lines

    def reckoned(self, lines):
        """What an audit tells is what the sessions do one after another in its order: as this script reckons, and as `serial` does. And
        the values at last are those of the plan and what each session that is done moved, once."""
        count, values, texts = len(OFFICES) * EACH, dict(self.ledger.start), []
        for line in lines[:count]:
            office, ticket = LINE.fullmatch(line)[1], int(LINE.fullmatch(line)[2])
            session = self.ledger.sessions[office][ticket - 1]
            wanted = session.line(ticket, values)
            wants(line == wanted, f"audit: {line!r}, and not {wanted!r}")
            texts.append(session.text())
        ends = [f"value {name} {value}" for name, value in values.items()]
        wants(lines[count:] == ["unfinished 0", *ends], f"audit: {lines[count:]}, and not {ends}")
        moved = dict(self.ledger.start)
        for office in OFFICES:
            for line, session in zip(self.told[office], self.ledger.sessions[office]):
                amount = session.amount if LINE.fullmatch(line)[3] == "done" else 0
                moved[session.source] -= amount
                moved[session.target] += amount
        wants(moved == values, f"{moved} by what was told, and not {values}")
        wants(sum(values.values()) == sum(self.ledger.start.values()), f"{values}, which isn't as much as before")
        serial = subprocess.run([self.program, "serial", self.path("o1.plan"), write(self.path("ordered"), "".join(texts))], capture_output=True, text=True, timeout=SECONDS)
        wants((serial.returncode, serial.stdout.splitlines()) == (0, [*lines[:count], *ends]), f"serial: status {serial.returncode}, {serial.stdout[:300]!r}, {serial.stderr!r}")

    def close(self):
        for life in self.lives.values():
            life.end()
        self.relay.close()


def offices_that_are_killed(program, place, seed):
    """What is wrong with a run whose offices are killed."""
    began, it = time.monotonic(), Kills(program, place, seed)
    try:
        it.run()
        it.last_starts()
        it.reckoned(it.audits())
        amid = sum(it.quarters[:4])
        wants(amid >= AMID, f"{amid} kills came before the last session was told, and not {AMID}: sessions are too quick for this check")
        return []
    except Fault as fault:
        return [f"with the seed {seed}: {fault}"]
    finally:
        it.close()
        seconds = round(time.monotonic() - began)
        print(f"seed {seed}: {it.kills} kills, by quarters of the sessions told and after them {' '.join(map(str, it.quarters))}, {len(it.cuts)} audits of a moment between, {it.torn} torn lines, {it.lost} losses of what didn't stand; {seconds} seconds", flush=True)
