"""Offices as processes of the program, over UDP on this machine, with a relay between them that loses, doubles and reorders what they
send; some are killed and started again (kills.py).

The relay has a port for each office. In the plan of each process its neighbours have the relay's ports in place of their addresses.
"""
import os, re, socket, subprocess, tempfile, time

from common import HOST, frame, free_ports
from kills import offices_that_are_killed
from relays import MOST_SECONDS, Relay, audited, listed, write
from seals import OnTerminal, keys_of, own, sealed, secrets, wrong_seals

# Where datagrams get lost a message may be, time after time: so there are more turns.
TURNS, LOSSY_TURNS = 1200, 3000


class Setting:
    """Offices, pairs of them, each with one record, with two of its offices and its start value, and how many sessions each office
    has. The first of a pair has its fork and its bottle, so that earlier offices come last and nobody precedes himself."""

    version = 1

    def __init__(self, offices, pairs, sessions):
        self.offices, self.pairs, self.sessions = offices, pairs, sessions
        self.records = {f"r{at}": (a, b, self.value(at)) for at, (a, b) in enumerate(pairs, 1)}

    def value(self, number):
        """A value of its own for each number."""
        return number

    def said(self, value):
        return str(value)

    def meant(self, word):
        return int(word)

    def plan(self, run, ports):
        lines = [f"plan {self.version} run {run}"]
        lines += [f"office {it} {HOST}:{ports[it]}" for it in self.offices]
        lines += [f"pair {a} {b} fork {a}" for a, b in self.pairs]
        lines += [f"record {name} {a} {b} {self.said(value)} at {a}" for name, (a, b, value) in self.records.items()]
        return "\n".join(lines) + "\n"

    def text(self):
        """Each session adds to the records of its office, by amounts that no other session adds."""
        lines, step = [], 1
        for _ in range(self.sessions):
            for office in self.offices:
                own = [name for name, (a, b, _) in self.records.items() if office in (a, b)]
                lines.append(f"session {office}")
                for name in own:
                    lines.append(f"set {name} = read {name} + {self.said(self.value(step))}")
                    step += 1
                lines += [f"give read {own[0]}", "end"]
        return "\n".join(lines) + "\n"


class Texts(Setting):
    """The same of texts, which are joined."""

    version = 2

    def value(self, number):
        return f"{number:02}."

    def said(self, value):
        return f'"{value}"'

    def meant(self, word):
        return word[1:-1]


THREE = Setting("abc", (("a", "b"), ("b", "c"), ("a", "c")), 8)
THREE_TEXTS = Texts("abc", THREE.pairs, 8)
# As many offices and sessions as there may be: a ring of offices, each of which shares a record with the one opposite too.
RING = [f"o{it:02}" for it in range(16)]
MOST = Setting(RING, [(RING[min(a, b)], RING[max(a, b)]) for a in range(16) for b in [(a + 1) % 16, *([a + 8] if a < 8 else [])]], 64)


TWO = Setting("ab", (("a", "b"),), 4)
# Stray datagrams of one byte, so many a second; the turns of an office that gets them, which take ten seconds where nothing comes; and
# after how many seconds its neighbour starts, which has half as many.
FLOOD, FLOODED_TURNS, IDLE_SECONDS, LATE = 10_000, 2000, 10, 3


def words_of(program, place, name, plan, office, sessions, turns, *more):
    plan = write(os.path.join(place, f"{name}.plan"), plan)
    sessions = write(os.path.join(place, f"{name}.sessions"), sessions)
    return [program, "run", plan, office, sessions, "--turns", str(turns), *more]


def start(*words):
    return subprocess.Popen(words_of(*words), stdin=subprocess.DEVNULL, stdout=subprocess.PIPE, stderr=subprocess.PIPE, text=True)


LINE = re.compile(r"(\w+)\.(\d+) done reads (.*) writes (.*) gives (.*)")


def added(setting):
    """By office and ticket what each session of a setting adds to its records."""
    found, office = {}, None
    for line in setting.text().splitlines():
        words = line.split()
        if words[0] == "session":
            office = words[1]
            found.setdefault(office, []).append({})
        elif words[0] == "set":
            found[office][-1][words[1]] = setting.meant(words[-1])
    return found


def wrong_sessions(setting, outputs):
    """What is wrong with what the processes printed: each session by itself, and the values of each record as a chain."""
    told, adds = [], added(setting)
    for office, text in outputs.items():
        lines = text.splitlines()
        if lines[-1:] != ["unfinished 0"] or len(lines) != setting.sessions + 1:
            return [f"{office}: {setting.sessions} sessions and 'unfinished 0' are wanted, and not {len(lines) - 1} and {lines[-1:]}"]
        for ticket, line in enumerate(lines[:-1], 1):
            found = LINE.fullmatch(line)
            if not found or found[1] != office or int(found[2]) != ticket:
                return [f"session {ticket} of {office} is wanted, and not {line!r}"]
            reads, writes, does = listed(found[3], setting.meant), listed(found[4], setting.meant), adds[office][ticket - 1]
            wanted = {name: reads[name] + more for name, more in does.items() if name in reads}
            if set(reads) != set(does) or writes != wanted or found[5] != setting.said(wanted[next(iter(does))]):
                return [f"{line!r}, where {wanted} is to be written, and the first of it given"]
            told.append((reads, writes))
    return [f"{name}: {it}" for name in setting.records for it in broken_chain(setting, name, told)]


def broken_chain(setting, name, told):
    steps = {reads[name]: writes[name] for reads, writes in told if name in reads}
    value, count = setting.records[name][2], 0
    while value in steps:
        value, count = steps.pop(value), count + 1
    return [f"{count} in a chain, and not {steps}"] if steps or count == 0 else []


def wrong_audit(setting, program, plan, journals, lines):
    """What is wrong with an audit of these journals: it is to have these lines, in an order in which each session reads what
    the ones before it left, and then the values that are left at last."""
    told, wrong = audited(program, plan, journals)
    if wrong:
        return wrong
    values = {name: it[2] for name, it in setting.records.items()}
    sessions, rest = told[: len(lines)], told[len(lines) :]
    if sorted(sessions) != sorted(lines):
        return [f"audit: {sorted(set(sessions) ^ set(lines))[:4]} are told there alone, or not there"]
    for line in sessions:
        found = LINE.fullmatch(line)
        reads = listed(found[3], setting.meant)
        if reads != {name: values[name] for name in reads}:
            return [f"audit: {line!r}, where {values} are left"]
        values.update(listed(found[4], setting.meant))
    wanted = ["unfinished 0", *[f"value {name} {setting.said(value)}" for name, value in values.items()]]
    return [] if rest == wanted else [f"audit: {rest}, and not {wanted}"]


def live(program, place, plan, sessions, offices):
    """All offices of a plan on threads: what is printed, the journals that they leave, and what is wrong with them: submits have the
    client's tag there, all else the pump's."""
    plan, sessions = write(os.path.join(place, "plan"), plan), write(os.path.join(place, "sessions"), sessions)
    folder = os.path.join(place, "journals")
    words = [program, "live", plan, sessions, "--journals", folder]
    ran = subprocess.run(words, stdin=subprocess.DEVNULL, capture_output=True, text=True, timeout=MOST_SECONDS)
    lines, journals = ran.stdout.splitlines(), [os.path.join(folder, f"{it}.journal") for it in offices]
    if ran.returncode or ran.stderr or lines[-1:] != ["unfinished 0"]:
        return lines, journals, [f"live: status {ran.returncode}, {lines[-1:]}, {ran.stderr!r}"]
    return lines, journals, [it for journal in journals for it in wrong_tags(journal)]


def wrong_tags(journal):
    with open(journal, encoding="ascii") as file:
        lines = file.read().splitlines()[1:]
    wrong = [it for it in lines if it.split()[0] != ("1" if it.split()[1] == "submit" else "0")]
    return [f"{journal}: {len(wrong)} lines have another tag, as {wrong[0]!r}"] if wrong else []


def over_a_relay(program, place, more, setting=THREE):
    """Three processes whose datagrams get lost, doubled and reordered, each with more words: what is wrong with what they print and with
    an audit of the journals that they leave, and the datagrams that they sent."""
    at = dict(zip(setting.offices, free_ports(3)))
    relay = Relay({it: [at[it]] for it in at}, 1 / 3, 1 / 10)
    running = {}
    for office in at:
        ports = {it: at[it] if it == office else relay.ports[it] for it in at}
        journal = os.path.join(place, f"{office}.journal")
        running[office] = start(program, place, office, setting.plan(7, ports), office, setting.text(), LOSSY_TURNS, "--journal", journal, *more[office])
    relay.run(list(running.values()))
    outputs = {office: it.communicate() for office, it in running.items()}
    relay.close()
    wrong = [f"{office}: status {it.returncode}, {outputs[office][1]}" for office, it in running.items() if it.returncode]
    wrong = wrong or wrong_sessions(setting, {office: it[0] for office, it in outputs.items()})
    lines = [line for out, _ in outputs.values() for line in out.splitlines()[:-1]]
    journals = [os.path.join(place, f"{it}.journal") for it in reversed(setting.offices)]
    return wrong or wrong_audit(setting, program, os.path.join(place, "a.plan"), journals, lines), relay.came


def processes_over_a_relay(program, place):
    return over_a_relay(program, place, dict.fromkeys(THREE.offices, ()))[0]


def texts_over_a_relay(program, place):
    """The same of texts, under a plan of version 2."""
    return over_a_relay(program, place, dict.fromkeys(THREE_TEXTS.offices, ()), THREE_TEXTS)[0]


def processes_under_seals(program, place):
    """The same, where each office has its own secrets, and no others: all they send are frames under the seals of their pairs."""
    keys = keys_of(sorted(tuple(sorted(it)) for it in THREE.pairs))
    more = {it: ("--secrets", secrets(place, it, own(keys, it))) for it in THREE.offices}
    wrong, datagrams = over_a_relay(program, place, more)
    return wrong or wrong_seals(datagrams, THREE.offices, keys)


def offices_with_other_secrets(program, place):
    """Nothing gets through between two whose secrets differ: the one that has the bottle does its sessions, and what comes to it is counted
    as refused; the other one never hears it."""
    ports = dict(zip(TWO.offices, free_ports(2)))
    words = {it: words_of(program, place, it, TWO.plan(11, ports), it, TWO.text(), TURNS, "--secrets", secrets(place, it, {("a", "b"): it.encode() * 16})) for it in TWO.offices}
    first = OnTerminal(words["a"])
    second = subprocess.Popen(words["b"], stdin=subprocess.DEVNULL, stdout=subprocess.PIPE, stderr=subprocess.PIPE, text=True)
    out, said = second.communicate(timeout=MOST_SECONDS)
    found, counts = first.end(MOST_SECONDS)
    lines = found.splitlines()
    wrong = [] if (first.process.returncode, len(lines), lines[-1:]) == (0, TWO.sessions + 1, ["unfinished 0"]) else [f"a: status {first.process.returncode}, {found!r}"]
    wrong += [] if (second.returncode, out) == (1, "unfinished 4\n") and f"b never heard a at {HOST}:{ports['a']}" in said else [f"b: status {second.returncode}, {out!r}, {said!r}"]
    came, _, refused = counts or (0, 0, 0)
    return wrong + ([] if 0 < came == refused else [f"a: {came} came, {refused} were refused"])


def an_office_that_serves_under_seals(program, place):
    """What an office that serves asks of its neighbour, in whose place a socket stands here, are frames under the seal of the two."""
    keys = keys_of([("a", "b")])
    ports = dict(zip(TWO.offices, free_ports(2)))
    plan = write(os.path.join(place, "plan"), TWO.plan(12, ports))
    words = [program, "serve", plan, "b", "--store", os.path.join(place, "b.store"), "--new", "--secrets", secrets(place, "b", keys)]
    with socket.socket(socket.AF_INET, socket.SOCK_DGRAM) as neighbour:
        neighbour.bind((HOST, ports["a"]))
        neighbour.settimeout(MOST_SECONDS)
        served = subprocess.Popen(words, stdin=subprocess.PIPE, stdout=subprocess.DEVNULL, stderr=subprocess.DEVNULL)
        try:
            served.stdin.write(TWO.text().encode())
            served.stdin.flush()
            datagrams = [neighbour.recv(256) for _ in range(3)]
        except OSError as error:
            return [f"an office that serves: {error}"]
        finally:
            served.kill()
            served.communicate()
    return wrong_seals(datagrams, TWO.offices, keys)


def all_offices(setting, program, place):
    """All offices of a plan on threads, what they print, and an audit of the journals that they leave."""
    plan = setting.plan(8, dict(zip(setting.offices, free_ports(len(setting.offices)))))
    lines, journals, wrong = live(program, place, plan, setting.text(), setting.offices)
    by_office = {it: "\n".join([*(line for line in lines if line.startswith(f"{it}.")), lines[-1]]) for it in setting.offices} if lines else {}
    wrong = wrong or wrong_sessions(setting, by_office)
    return wrong or wrong_audit(setting, program, os.path.join(place, "plan"), journals, lines[:-1])


def an_audit_of_all_offices(program, place):
    return all_offices(THREE, program, place)


def texts_of_all_offices(program, place):
    return all_offices(THREE_TEXTS, program, place)


def sixteen_offices_and_1024_sessions(program, place):
    return all_offices(MOST, program, place)


# Three offices in a row. By office its session, and what that makes of the values of two records, with what it gives.
ROW = "plan 1 run 9\noffice a -\noffice b -\noffice c -\npair a b fork b\npair b c fork b\nrecord r a b 1 at a\nrecord s b c 2 at c\n"
ROW_SESSIONS = {
    "a": "session a\nrepeat 3\nset r = read r * 2\nend\ngive read r\nend\n",
    "c": "session c\nset s = read s + 5\ngive read s\nend\n",
    "b": "session b\nset r = read r + read s\nset s = 0\ngive read r\nend\n",
}
ROW_DOES = {
    "a": lambda r, s: (f"a.1 done reads r={r} writes r={8 * r} gives {8 * r}", 8 * r, s),
    "c": lambda r, s: (f"c.1 done reads s={s} writes s={s + 5} gives {s + 5}", r, s + 5),
    "b": lambda r, s: (f"b.1 done reads r={r} s={s} writes r={r + s} s=0 gives {r + s}", r + s, 0),
}


def a_row_of_offices_in_some_order(program, place):
    """What an audit tells of three sessions is what they do one after another in the order that it prints: as this script reckons,
    and as `serial` does."""
    lines, journals, wrong = live(program, place, ROW, "".join(ROW_SESSIONS.values()), "abc")
    told, wrong_end = audited(program, os.path.join(place, "plan"), journals)
    if wrong or wrong_end:
        return wrong or wrong_end
    order, values, wanted = [it[0] for it in told[:3]], (1, 2), []
    if sorted(order) != ["a", "b", "c"]:
        return [f"audit: {told}"]
    for office in order:
        line, *values = ROW_DOES[office](*values)
        wanted.append(line)
    values = [f"value {name} {value}" for name, value in zip("rs", values)]
    ordered = write(os.path.join(place, "ordered"), "".join(ROW_SESSIONS[it] for it in order))
    serial = subprocess.run([program, "serial", os.path.join(place, "plan"), ordered], capture_output=True, text=True, timeout=MOST_SECONDS)
    found = {"live": lines, "audit": told, "serial": serial.stdout.splitlines()}
    right = {"live": [*sorted(wanted), "unfinished 0"], "audit": [*wanted, "unfinished 0", *values], "serial": [*wanted, *values]}
    return [f"{it}: {found[it]}, and not {right[it]}" for it in right if found[it] != right[it]]


def runs_beside_each_other(program, place):
    """Two runs of one plan, with different run numbers, each of which gets all that the other sends too."""
    own = {run: dict(zip(THREE.offices, free_ports(3))) for run in (1, 2)}
    relay = Relay({it: [own[1][it], own[2][it]] for it in THREE.offices}, 0, 0)
    running = {}
    for run in (1, 2):
        for office in THREE.offices:
            ports = {it: own[run][it] if it == office else relay.ports[it] for it in THREE.offices}
            running[run, office] = start(program, place, f"{run}{office}", THREE.plan(run, ports), office, THREE.text(), TURNS // 2)
    relay.run(list(running.values()))
    outputs = {it: process.communicate() for it, process in running.items()}
    relay.close()
    wrong = [f"{it}: status {process.returncode}, {outputs[it][1]}" for it, process in running.items() if process.returncode]
    for run in (1, 2):
        wrong = wrong or wrong_sessions(THREE, {office: outputs[run, office][0] for office in THREE.offices})
    return wrong


def flood(port, seconds, processes, datagram):
    """This comes to the port as a stray datagram for so many seconds, or until the processes have ended."""
    with socket.socket(socket.AF_INET, socket.SOCK_DGRAM) as door:
        end = time.monotonic() + seconds
        while time.monotonic() < end and any(it.poll() is None for it in processes):
            for _ in range(FLOOD // 100):
                door.sendto(datagram, (HOST, port))
            time.sleep(0.01)


def flooded(program, place, datagram, more):
    """The first of two offices is flooded with a datagram, and each has more words. That shortens no run: the office lives as long as its
    turns take where nothing comes, so a neighbour that starts late finds it, and the sessions of both finish."""
    ports, began = dict(zip(TWO.offices, free_ports(2))), time.monotonic()
    running = {"a": start(program, place, "a", TWO.plan(10, ports), "a", TWO.text(), FLOODED_TURNS, *more)}
    flood(ports["a"], LATE, running.values(), datagram)
    running["b"] = start(program, place, "b", TWO.plan(10, ports), "b", TWO.text(), FLOODED_TURNS // 2, *more)
    flood(ports["a"], MOST_SECONDS // 2, [running["a"]], datagram)
    lived = time.monotonic() - began
    outputs = {office: it.communicate(timeout=MOST_SECONDS) for office, it in running.items()}
    wrong = [f"{office}: status {it.returncode}, {outputs[office][1]}" for office, it in running.items() if it.returncode]
    wrong += [f"a lived {lived:.1f} seconds, and not {IDLE_SECONDS}"] if lived < IDLE_SECONDS else []
    return wrong or wrong_sessions(TWO, {office: it[0] for office, it in outputs.items()})


def a_flood_of_stray_datagrams(program, place):
    return flooded(program, place, b"x", ())


def a_flood_of_what_does_not_open(program, place):
    """Frames that name the neighbour, under the seal of another secret than theirs."""
    datagram = sealed(frame(10, 1, 0, 0, 0), b"not their secret")
    return flooded(program, place, datagram, ("--secrets", secrets(place, "both", {("a", "b"): b"their own secret"})))


def a_neighbour_never_starts(program, place):
    """A run ends after its turns, says how many sessions are left, what each waits for and who was never heard, and its status is 1."""
    ports = dict(zip(THREE.offices, free_ports(3)))
    plan = THREE.plan(9, ports)
    text = "session b\nset r1 = read r1 + 1\nend\nsession b\ngive 1\nend\nsession a\ngive 1\nend\n"
    process = start(program, place, "alone", plan, "b", text, 50)
    out, said = process.communicate(timeout=MOST_SECONDS)
    left = ["b.1 waits for r1 from a, which was never heard", "b.2 waits for b.1", *(f"b never heard {it} at {HOST}:{ports[it]}" for it in "ac")]
    wanted = 1, "unfinished 2\n", "".join(f"drink: {it}\n" for it in left)
    return [] if (process.returncode, out, said) == wanted else [f"status {process.returncode}, {out!r}, {said!r}"]


CHECKS = (processes_over_a_relay, texts_over_a_relay, processes_under_seals, offices_with_other_secrets, an_office_that_serves_under_seals, an_audit_of_all_offices, texts_of_all_offices, sixteen_offices_and_1024_sessions, a_row_of_offices_in_some_order, runs_beside_each_other, a_flood_of_stray_datagrams, a_flood_of_what_does_not_open, a_neighbour_never_starts)


def network(check):
    check.say("network: offices that are killed and started again", tried(lambda program, place: offices_that_are_killed(program, place, check.seed), check.program))
    for it in CHECKS:
        check.say(f"network: {it.__name__.replace('_', ' ')}", tried(it, check.program))


def tried(part, program):
    """What a part finds wrong."""
    with tempfile.TemporaryDirectory(prefix="drink-network-") as place:
        try:
            return "; ".join(part(program, place))
        except (OSError, subprocess.SubprocessError) as error:
            return f"{type(error).__name__}: {error}"
