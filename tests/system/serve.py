"""Offices that serve: what is asked of one on its standard input, line by line, and what it says; and a day of three, of which one is
killed, with the evening's audit and the next morning."""
import os, re, select, subprocess, time

from common import HOST, SECONDS, at_ports, free_ports
from objects import line_of, spelled
from restarts import COUNTED, COUNTS, LINES, MOST_EVENTS

# The office a, its neighbour b, which isn't started, and c, which is none.
PLAN = b"plan 1 run 7\noffice a -\noffice b -\noffice c -\npair a b fork a\npair b c fork b\nrecord x a b 5 at b\nrecord y a b 8 at a\nrecord w b c 1 at b\n"
ONE = b"session a\ngive 1\nend\n"
DONE = b"a.%d done reads - writes - gives %s\n"

# What is asked of a, up to the end of its input, and what it says of that between `ready 0` and `unfinished 0`.
ASKED = [
    ("nothing", b"", b""),
    ("a session", ONE, b"ticket 1\n" + DONE % (1, b"1")),
    ("a session that reads and writes", b"session a\nlet v = read y\nset y = v + 1\ngive v\nend\n", b"ticket 1\na.1 done reads y=8 writes y=9 gives 8\n"),
    ("a session that is refused", b"session a\nrequire 0 > 1 else 2\nend\n", b"ticket 1\na.1 refused 2 reads - writes - gives -\n"),
    ("a last line without its end", ONE[:-1], b"ticket 1\n" + DONE % (1, b"1")),
    ("lines that end in CR LF, comments and blank lines", b"# now\r\n\r\n" + ONE.replace(b"\n", b"\r\n") + b"# no more\r\n", b"ticket 1\n" + DONE % (1, b"1")),
    ("two sessions", b"session a\nend\n" + ONE, b"ticket 1\nticket 2\n" + DONE % (1, b"-") + DONE % (2, b"1")),
    ("a session under a ticket", b"ticket 1\n" + ONE, b"ticket 1\n" + DONE % (1, b"1")),
    ("a session asked for again", (b"ticket 1\n" + ONE) * 2, b"ticket 1\npending 1\n" + DONE % (1, b"1")),
    ("sessions under tickets, one without", b"ticket 1\n" + ONE + ONE + b"ticket 3\n" + ONE, b"ticket 1\nticket 2\nticket 3\n" + b"".join(DONE % (it, b"1") for it in (1, 2, 3))),
    ("another session under a ticket that was given", b"ticket 1\n" + ONE + b"ticket 1\nsession a\ngive 2\nend\n", b"ticket 1\nrefused O6 OtherSession\n" + DONE % (1, b"1")),
    ("a ticket before its time", b"ticket 2\n" + ONE, b"refused O7 TicketAhead\n"),
    ("another office's session", b"session b\nend\n", b"refused O2 NotOurs\n"),
    ("values", b"value y\nvalue x\n", b"value y 8\naway x b\n"),
    ("a value of no record", b"value q\n", b"refused S3 UnknownRecord line 1\n"),
    ("a value of others' record", b"\nvalue w\n", b"refused S3 UnknownRecord line 2\n"),
    ("a line `value` without a name, or with two", b"value\nvalue x y\nvalue y\n", b"refused S1 Syntax line 1\nrefused S1 Syntax line 2\nvalue y 8\n"),
    ("a faulty session, and one after it", b"session a\nfoo\ngive 2\nend\nend\n" + ONE, b"refused S1 Syntax line 2\nticket 1\n" + DONE % (1, b"1")),
    ("a session of a record that there isn't", b"session a\ngive read q\nend\n" + ONE, b"refused S3 UnknownRecord line 2\nticket 1\n" + DONE % (1, b"1")),
    ("a session of an office that there isn't", b"session d\nend\n" + ONE, b"refused S2 UnknownName line 1\nticket 1\n" + DONE % (1, b"1")),
    ("a line of no session", b"give 1\nend\n" + ONE, b"refused S1 Syntax line 1\nticket 1\n" + DONE % (1, b"1")),
    ("a session that begins in another", b"session a\ngive 2\n" + ONE, b"refused S1 Syntax line 3\nticket 1\n" + DONE % (1, b"1")),
    ("a value that is asked for in a session", b"session a\ngive 2\nvalue y\n" + ONE, b"refused S1 Syntax line 3\nvalue y 8\nticket 1\n" + DONE % (1, b"1")),
    ("a session without its end", ONE + b"session a\ngive 2\n", b"ticket 1\n" + DONE % (1, b"1") + b"refused S1 Syntax line 6\n"),
    ("a ticket that is none, and the session under it", b"ticket x\n" + ONE + b"value y\n", b"refused S1 Syntax line 1\nvalue y 8\n"),
    ("the ticket 0", b"ticket 0\n" + ONE, b"refused S1 Syntax line 1\n"),
    ("a line between a ticket and its session", b"ticket 1\ngive 1\n" + ONE, b"refused S1 Syntax line 2\n"),
    ("the longest line, and one that is longer", b"#" * 1_048_576 + b"\n" + b"#" * 1_048_577 + b"\n" + ONE, b"refused S5 TooLong line 2\nticket 1\n" + DONE % (1, b"1")),
    ("a session with the longest line", b"session a\n#" + b" " * 1_048_575 + b"\nend\n", b"ticket 1\n" + DONE % (1, b"-")),
    ("a session with a longer line, and one after it", b"session a\n#" + b" " * 1_048_576 + b"\nend\n" + ONE, b"refused S5 TooLong line 2\nticket 1\n" + DONE % (1, b"1")),
    ("a ticket without a session", b"ticket 1\nvalue y\n", b"refused S1 Syntax line 2\nvalue y 8\n"),
]

# The same of one that says objects.
ASKED_FOR_OBJECTS = (b"ticket 1\n" + ONE) * 2 + b"ticket 3\n" + ONE + b"session b\nend\nvalue y\nvalue x\nvalue q\n"
OBJECTS = b"""{"ready":0}
{"ticket":1}
{"pending":1}
{"refused":"O7 TicketAhead"}
{"refused":"O2 NotOurs"}
{"value":"y","is":8}
{"away":"x","neighbour":"b"}
{"refused":"S3 UnknownRecord","line":17}
{"office":"a","ticket":1,"end":"done","reads":{},"writes":{},"gives":[1]}
{"unfinished":0}
"""

# Words that are no command line, after PLAN and OFFICE.
NO_WORDS = ("", "--store", "--store -", "--new", "--store s --sync all", "--store s --sync", "--store s --store t", "--store s --new=1", "--store s --turns 5", "--store s --linger", "--store s --linger x", "--store s --linger 86401", "--store s --status -1", "--store s --secrets", "--store s --secrets -", "own.txt --store s")

# A branch's day: who asks for what moves 30 from the cash of one pair of branches to the notes of the other.
DAY = b"plan 1 run 5\noffice north -\noffice south -\noffice east -\npair north south fork north\npair south east fork south\nrecord cash north south 100 at north\nrecord notes south east 40 at south\n"
MOVES = b"session south\nlet v = read cash\nset cash = v - 30\nset notes = read notes + 30\ngive v - 30\nend\n"
TAKES = b"session north\nset cash = read cash - 5\ngive read cash\nend\n"
COUNTS_NOTES = b"session east\ngive read notes\nend\n"
EVENING = b"plan 1 run 6\noffice north %s\noffice south %s\noffice east %s\npair north south fork north\npair south east fork south\nrecord cash north south 35 at %s\nrecord notes south east 100 at %s\n"


class Service:
    """An office that serves, and what is asked of it and said by it."""

    def __init__(self, check, words, **how):
        self.process = subprocess.Popen([check.link, "serve", *words.split()], cwd=check.work, **{"stdin": subprocess.PIPE, "stdout": subprocess.PIPE, "stderr": subprocess.PIPE, "bufsize": 0, **how})
        self.said = b""

    def ask(self, text):
        self.process.stdin.write(text)

    def line(self, seconds=SECONDS):
        """The next line that is said; what there is of it where it doesn't come."""
        end = time.monotonic() + seconds
        while b"\n" not in self.said:
            left = end - time.monotonic()
            if left <= 0 or not select.select([self.process.stdout], [], [], left)[0]:
                break
            more = os.read(self.process.stdout.fileno(), 65536)
            if not more:
                break
            self.said += more
        line, end, self.said = self.said.partition(b"\n")
        return line + end

    def lines(self, count):
        return [self.line() for _ in range(count)]

    def kill(self):
        """It is killed; what it said since, and on its standard error."""
        self.process.kill()
        out, err = self.process.communicate(timeout=SECONDS)
        return self.said + out, err

    def end(self):
        """How it ends once its input has: its status, what it says from here on, and on its standard error."""
        try:
            out, err = self.process.communicate(timeout=SECONDS)
        except subprocess.TimeoutExpired:
            self.process.kill()
            return None, self.said + self.process.communicate()[0], b"it had not ended"
        return self.process.returncode, self.said + out, err


def serves(check):
    """One office that is asked, and three for a day."""
    check.files({"served.txt": at_ports(PLAN, free_ports(3))})
    for part in (asked, as_it_comes, again, lingers, in_parts, without_an_input, refused, full, statuses, a_day):
        part(check)
    for words in NO_WORDS:
        check.wants(f"faulty: drink serve .. {words}", check.run(f"serve served.txt a {words}"), 2, b"", r"\Adrink: |\Aerror: ")
    check.wants("faulty: drink serve - a --store s", check.run("serve - a --store s", PLAN), 2, b"", r"\Adrink: PLAN takes a file, and - is none: ")
    check.equal("faulty words: no file is made", [it for it in ("s", "t") if os.path.lexists(os.path.join(check.work, it))], [])


def asked(check):
    """What is asked at once, up to the end of the input; and that objects say the same."""
    said = ended_after(check, "", [(name, asks) for name, asks, says in ASKED])
    for (name, ended), (_, _, says) in zip(said, ASKED):
        check.equal(f"serve: {name}", ended, (0, b"ready 0\n" + says + b"unfinished 0\n", b""))
    told = ended_after(check, " --json", [("objects", ASKED_FOR_OBJECTS), *((name, asks) for name, asks, says in ASKED)])
    check.equal("serve --json: objects", told[0][1], (0, OBJECTS, b""))
    for (name, (status, out, err)), (_, _, says) in zip(told[1:], ASKED):
        lines = out.decode().splitlines()
        check.equal(f"serve --json: {name}", (status, "".join(line_of(it) for it in lines), err), (0, (b"ready 0\n" + says + b"unfinished 0\n").decode(), b""))
        check.equal(f"serve --json: {name}: their spelling", lines, [spelled(it) for it in lines])


def ended_after(check, more, rows):
    """How offices end of which this is asked, each alone; all at the same time."""
    ports, running = free_ports(3 * len(rows)), []
    for at, (name, asks) in enumerate(rows):
        check.files({f"served{at}.txt": at_ports(PLAN, ports[3 * at : 3 * at + 3])})
        check.forget(f"served{at}.store")
        it = Service(check, f"served{at}.txt a --store served{at}.store --new --linger 1 --sync none{more}")
        it.ask(asks)
        it.process.stdin.close()
        it.process.stdin = None
        running.append((name, it))
    return [(name, it.end()) for name, it in running]


def as_it_comes(check):
    """Each line is answered before the next is asked, and the office goes on when its input has ended, since it has no --linger."""
    check.forget("a.store")
    a = Service(check, "served.txt a --store a.store --new")
    check.equal("serve: it is ready", a.line(), b"ready 0\n")
    a.ask(b"session a\n")
    a.ask(b"give 1\n")
    check.equal("serve: a session that isn't whole isn't answered", a.line(0.3), b"")
    a.ask(b"end\n")
    check.equal("serve: it is, once it is whole", a.lines(2), [b"ticket 1\n", DONE % (1, b"1")])
    a.ask(b"value y\n")
    check.equal("serve: a value", a.line(), b"value y 8\n")
    a.ask(b"session a\nset y = 9\nend\nvalue y\n")
    check.equal("serve: a session, and a value that is asked for with it", a.lines(3), [b"ticket 2\n", b"value y 8\n", b"a.2 done reads y=8 writes y=9 gives -\n"])
    a.ask(b"value y")
    a.process.stdin.close()
    a.process.stdin = None
    check.equal("serve: a last line without its end, once the input has ended", a.line(), b"value y 9\n")
    time.sleep(1.2)
    check.equal("serve: it goes on for its neighbours", a.process.poll(), None)
    check.equal("serve: and says no more", a.kill(), (b"", b""))


def again(check):
    """An office that was killed knows its tickets, and what it did; its store is the journal that `run` and `audit` know."""
    check.forget("a.store")
    asks = b"ticket 1\n" + ONE
    a = Service(check, "served.txt a --store a.store --new")
    a.ask(asks)
    check.equal("serve: before it is killed", a.lines(3), [b"ready 0\n", b"ticket 1\n", DONE % (1, b"1")])
    a.kill()
    kept = check.bytes_of("a.store")
    a = Service(check, "served.txt a --store a.store")
    a.ask(asks + b"ticket 2\nsession a\ngive 2\nend\n" + asks)
    said = [b"ready 1\n", DONE % (1, b"1"), b"ticket 2\n", DONE % (1, b"1"), DONE % (2, b"2")]
    check.equal("serve: asked again after it was killed", a.lines(5), said)
    a.kill()
    has = check.bytes_of("a.store")
    check.say("serve: what it kept begins what it keeps", None if kept and has.startswith(kept) else f"{len(kept)} bytes, and {len(has)}")
    check.equal("serve: each session is submitted once", has.count(b" submit "), 2)
    check.files({"both.txt": ONE + ONE.replace(b"1", b"2")})
    check.wants("serve: `run` goes on from its store", check.run("run served.txt a both.txt --turns 1 --store a.store"), 0, b"before 2\n" + DONE % (1, b"1") + DONE % (2, b"2") + b"unfinished 0\n", b"")
    a = Service(check, "served.txt a --store a.store --linger 1")
    check.equal("serve: and it from that of `run`", (a.end()), (0, b"ready 2\nunfinished 0\n", b""))


def lingers(check):
    """With --linger an office ends when its input has ended, its sessions have finished, and nothing came for so long; not before one of
    these."""
    check.forget("a.store")
    a = Service(check, "served.txt a --store a.store --new --linger 1")
    check.equal("serve --linger: ready", a.line(), b"ready 0\n")
    time.sleep(1.5)
    check.equal("serve --linger: it goes on while its input does", a.process.poll(), None)
    a.ask(b"session a\ngive read x\nend\n")
    check.equal("serve --linger: a session that waits for a neighbour", a.line(), b"ticket 1\n")
    a.process.stdin.close()
    a.process.stdin = None
    time.sleep(1.5)
    check.equal("serve --linger: it goes on while a session does", a.process.poll(), None)
    check.forget("b.store")
    # What isn't answered is sent again after five seconds at most.
    b = Service(check, "served.txt b --store b.store --new --linger 7", stdin=subprocess.DEVNULL)
    check.equal("serve --linger: it ends once the neighbour has come, and no more comes", a.end(), (0, b"a.1 done reads x=5 writes - gives 5\nunfinished 0\n", b""))
    check.equal("serve --linger: and so does the neighbour", b.end(), (0, b"ready 0\nunfinished 0\n", b""))


def in_parts(check):
    """A stream is read as it comes, in whatever parts; one of a file is read at once; and it may be longer than a file of sessions."""
    check.forget("a.store")
    a = Service(check, "served.txt a --store a.store --new --linger 1")
    for at in range(len(ONE)):
        a.ask(ONE[at : at + 1])
        time.sleep(0.01)
    check.equal("serve: byte by byte", a.lines(3), [b"ready 0\n", b"ticket 1\n", DONE % (1, b"1")])
    a.kill()
    count = 3000
    check.files({"many.txt": ONE * count})
    check.forget("a.store")
    ran = check.shell("exec ./drink serve served.txt a --store a.store --new --linger 1 --sync none < many.txt")
    found = sorted(ran.out.splitlines(keepends=True))
    wanted = sorted([b"ready 0\n", b"unfinished 0\n", *(b"ticket %d\n" % it for it in range(1, count + 1)), *(DONE % (it, b"1") for it in range(1, count + 1))])
    check.say(f"serve: {count} sessions of a file", None if found == wanted and (ran.status, ran.err) == (0, b"") else str(ran))
    told = [it for it in ran.out.splitlines(keepends=True) if it.startswith(b"a.")]
    check.equal("serve: they are told in order", told, [DONE % (it, b"1") for it in range(1, count + 1)])


def without_an_input(check):
    """Where nothing can be asked: nothing is waited for, and it is said why."""
    check.forget("a.store")
    check.wants("serve < /dev/null", check.shell("exec ./drink serve served.txt a --store a.store --new --linger 1 < /dev/null"), 0, b"ready 0\nunfinished 0\n", b"")
    ran = check.shell("exec ./drink serve served.txt a --store a.store <&-")
    check.wants("serve <&-", ran, 1, b"ready 0\nunfinished 0\n", r"\Adrink: -: X4 ReadFailed: it cannot be read: [^\n]*closed[^\n]*\n\Z")
    ran = check.shell("exec ./drink serve served.txt a --store a.store < folder")
    check.wants("serve < folder", ran, 1, b"ready 0\nunfinished 0\n", r"\Adrink: -: X4 ReadFailed: it cannot be read: [^\n]*folder[^\n]*\n\Z")
    ran = check.shell("exec ./drink serve served.txt a --store a.store --linger 1 > /dev/full < /dev/null")
    check.wants("serve > /dev/full", ran, 1, b"", r"\Adrink: X5 WriteFailed: [^\n]*\n\Z")


def refused(check):
    """What is refused before anything is said, and that no store is made or changed then."""
    check.files({"a.store": LINES[0].replace(b"run 1", b"run 8"), "none.txt": PLAN, "ring.txt": b"plan 1\n", "own.store": b"".join(LINES)})
    for name, words, given, said in (
        ("a plan that is none", "ring.txt a --store n.store --new", b"", r"ring\.txt: line 1: P1 Header"),
        ("a plan that isn't there", "nowhere.txt a --store n.store --new", b"", r"nowhere\.txt: X4 ReadFailed"),
        ("an office that there isn't", "served.txt d --store n.store --new", b"", "d: X6 NoSuchOffice: the plan has no office of this name; it has a, b and c"),
        ("no address", "none.txt a --store n.store --new", b"", r"none\.txt: X2 NoAddress: the office `a`"),
        ("no secrets", "served.txt a --store n.store --new --secrets nowhere", b"", r"nowhere: X4 ReadFailed: it cannot be read: no such file; nothing was run"),
        ("no store", "served.txt a --store n.store", b"", r"n\.store: U7 NoStore: it is not there, and --new makes one; nothing was run"),
        ("a store that is there", "served.txt a --store a.store --new", b"", r"a\.store: U8 StoreThere: "),
        ("a store of another run", "served.txt a --store a.store", b"", r"a\.store: line 1: U5 StoreFaulty: the journal is of run 8, and the plan has run 7"),
        ("the plan as its store", "served.txt a --store served.txt", b"", r"served\.txt: X5 WriteFailed: it is an input, and the journal would take its place; nothing was run"),
    ):
        before = {it: check.bytes_of(it) for it in ("a.store", "served.txt")}
        check.wants(f"serve: {name}", check.run(f"serve {words}", given), 1, b"", rf"\Adrink: {said}[^\n]*\n\Z")
        check.equal(f"serve: {name}: no file is made or changed", (os.path.lexists(os.path.join(check.work, "n.store")), {it: check.bytes_of(it) for it in before}), (False, before))
    ran = check.shell("exec ./drink serve served.txt a --store own.store < own.store")
    check.wants("serve: the standard input as its store", ran, 1, b"", r"\Adrink: own\.store: X5 WriteFailed: it is an input, [^\n]*\n\Z")
    check.forget("a.store")
    first = Service(check, "served.txt a --store a.store --new")
    first.line()
    check.wants("serve: an address that is in use", check.run("serve served.txt a --store a.store"), 1, b"", r"\Adrink: U2 BindFailed: [^\n]*the address is in use[^\n]*\n\Z")
    check.files({"elsewhere.txt": at_ports(PLAN, free_ports(3))})
    check.wants("serve: a store that is in use", check.run("serve elsewhere.txt a --store a.store"), 1, b"", r"\Adrink: a\.store: U6 StoreInUse: another process has it; nothing was run\n\Z")
    first.kill()


def full(check):
    """A journal that has no room: what finished is told, and it is said what to do; and again at the next start."""
    each = 1 + COUNTED.count(b"\n")
    done, _ = divmod(MOST_EVENTS, each)
    lines = b"".join(b"0 submit %s = ticket %d\n%s" % (COUNTS.hex().encode(), it, COUNTED) for it in range(1, done + 2)).splitlines(keepends=True)
    store = LINES[0].replace(b"run 1", b"run 7") + b"".join(lines[:MOST_EVENTS])
    check.files({"a.store": store})
    for asks in (ONE, b"ticket %d\n" % (done + 2) + ONE):
        ran = check.run("serve served.txt a --store a.store", asks)
        check.wants(f"serve: a full journal, asked {asks[:8]!r}", ran, 1, b"ready %d\nunfinished 1\n" % (done + 1), r"\Adrink: O4 JournalFull: [^\n]*audit[^\n]*--plan[^\n]*\n\Z")
        check.equal("serve: a full journal: the store", check.bytes_of("a.store") == store, True)


def statuses(check):
    """Each second a line on the standard error of how the office stands, and of the neighbours that it never heard."""
    check.forget("a.store")
    a = Service(check, "served.txt a --store a.store --new --status 1")
    a.ask(ONE + b"session a\ngive read x\nend\n")
    said = a.lines(4)
    time.sleep(2.5)
    err = a.kill()[1]
    check.equal("serve --status: what is said on the output", said, [b"ready 0\n", b"ticket 1\n", b"ticket 2\n", DONE % (1, b"1")])
    line = r"drink: (\d+) sessions finished, (\d+) did not; (\d+) datagrams came, (\d+) were refused; (\d+) entries are left; the last append took \d+ ms\n"
    silent = r"drink: a never heard b at 127\.0\.0\.1:\d+\n"
    check.say("serve --status: a line each second", None if re.search(rf"\A({line}{silent}){{2,3}}\Z", err.decode(errors="replace")) else repr(err))
    told = re.findall(line, err.decode(errors="replace"))
    check.say("serve --status: its numbers", None if told and told[-1][:4] == ("1", "1", "0", "0") and MOST_EVENTS - 100 < int(told[-1][4]) < MOST_EVENTS else repr(told))


def a_day(check):
    """Three branches on this machine for a day: sessions as they come, one branch that is killed and started again, another that is asked
    for something it can't finish; the evening's audit, and the next morning."""
    names, ports = ("north", "south", "east"), free_ports(3)
    check.files({"day.txt": at_ports(DAY, ports)})
    for name in (*(f"{it}.store" for it in names), "next.txt", "left.txt"):
        check.forget(name)
    at = {it: Service(check, f"day.txt {it} --store {it}.store --new") for it in names}
    check.equal("day: they are ready", [at[it].line() for it in names], [b"ready 0\n"] * 3)
    at["south"].ask(b"ticket 1\n" + MOVES)
    first = b"south.1 done reads cash=100 notes=40 writes cash=70 notes=70 gives 70\n"
    check.equal("day: the south moves 30", at["south"].lines(2), [b"ticket 1\n", first])
    at["south"].ask(b"value cash\n")
    at["north"].ask(b"value cash\n")
    check.equal("day: where the cash is", [at["south"].line(), at["north"].line()], [b"value cash 70\n", b"away cash south\n"])
    at["south"].ask(b"ticket 2\n" + MOVES)
    at["south"].kill()
    at["north"].ask(TAKES)
    check.equal("day: the north has to wait for the south, which was killed", [at["north"].line(), at["north"].line(0.3)], [b"ticket 1\n", b""])
    at["south"] = Service(check, "day.txt south --store south.store")
    ready = at["south"].line()
    check.say("day: the south goes on", None if ready in (b"ready 1\n", b"ready 2\n") else repr(ready))
    at["south"].ask(b"ticket 1\n" + MOVES + b"ticket 2\n" + MOVES)
    said = at["south"].lines(2)
    second = [b"south.2 done reads cash=%d notes=70 writes cash=%d notes=100 gives %d\n" % (it, it - 30, it - 30) for it in (70, 65)]
    check.say("day: asked again it says what it did, and takes or knows the second", None if said[0] == first and (said[1] in (b"ticket 2\n", b"pending 2\n") or said[1] in second) else repr(said))
    last = said[1] if said[1] in second else at["south"].line()
    check.say("day: the second is done, once", None if last in second else repr(last))
    # The two sessions take the cash in one order or the other.
    is_first = last == second[0]
    took = b"north.1 done reads cash=%d writes cash=%d gives %d\n" % ((40, 35, 35) if is_first else (70, 65, 65))
    check.equal("day: and so is the north's", at["north"].line(), took)
    at["east"].ask(COUNTS_NOTES)
    check.equal("day: the east counts the notes", at["east"].lines(2), [b"ticket 1\n", b"east.1 done reads notes=100 writes - gives 100\n"])
    at["north"].kill()
    at["south"].ask(b"session south\nset cash = 0\nset notes = read cash\nend\n" if is_first else b"session south\nset cash = 0\nset cash = read cash\nend\n")
    at["south"].kill()
    at["east"].kill()
    evening(check, names, ports, [first, last, took, b"east.1 done reads notes=100 writes - gives 100\n"])


def evening(check, names, ports, told):
    """The audit of what the branches kept: what was told is done, and the next day begins with the values at the end and with what is left."""
    ran = check.run("audit day.txt north.store south.store east.store --plan next.txt --left left.txt")
    lines = ran.out.splitlines(keepends=True)
    check.equal("evening: the audit has each session that was told, once", sorted(it for it in lines if b" done " in it), sorted(told))
    check.wants("evening: what the audit says", ran, 0, r"(?m)^value cash 35\nvalue notes 100\n\Z", b"")
    next_day = check.bytes_of("next.txt")
    addresses = [f"{HOST}:{it}".encode() for it in ports]
    check.say("evening: the plan of the next day", None if any(next_day == EVENING % (*addresses, one, two) for one in (b"north", b"south") for two in (b"south", b"east")) else repr(next_day))
    for name in names:
        check.forget(f"{name}2.store")
    check.wants("morning: a store of yesterday is refused", check.run("serve next.txt north --store north.store", b""), 1, b"", r"\Adrink: north\.store: line 1: U5 StoreFaulty: the journal is of run 5, and the plan has run 6")
    at = {it: Service(check, f"next.txt {it} --store {it}2.store --new") for it in names}
    check.equal("morning: they are ready", [at[it].line() for it in names], [b"ready 0\n"] * 3)
    at["south"].ask(MOVES)
    check.equal("morning: the south moves 30 more", at["south"].lines(2), [b"ticket 1\n", b"south.1 done reads cash=35 notes=100 writes cash=5 notes=130 gives 5\n"])
    for it in names:
        at[it].kill()
