"""Offices with stores, each by itself: what a store has, that an office goes on from it, what is refused of one, and that the file is
then as it was."""
import errno, os, re, resource, shutil, signal, time

from common import ANSWER, PLAN, SESSIONS, at_ports, frame, free_ports
from sockets import FEWER_TURNS, MOVED, MOVES, SHARED, VALUES, Door, ended, started

NOBODY = 65534
TOLD = ANSWER.splitlines(keepends=True)[0]
# What the first office of PLAN keeps of its session, which needs nobody, typed by the format.
LINES = [
    b"journal 1 run 1 office a\n",
    b"0 submit 73657373696f6e20610a67697665207265616420780a656e640a = ticket 1\n",
    b"0 do start = done\n",
    b"0 do drink = done\n",
    b"0 do work 256 = done\n",
    b"0 do finish = done\n",
]
STORE = b"".join(LINES)
# Frames of its own and of its neighbour: of a count alone, and a question for the fork.
COUNT, ASKS = frame(1, 0, 1, 0, 0).hex().encode(), frame(1, 1, 0, 1, 0, 1).hex().encode()
# What may be added to it, since an office does so.
MORE = [b"0 send b 0 = frame %s\n" % COUNT, b"0 took %s = taken\n" % ASKS, b"0 took %s = taken\n0 took %s = repeat\n" % (ASKS, ASKS)]


def changed(line, old, new):
    """The store with one line changed, counted from 1."""
    assert old in LINES[line - 1], (line, old)
    return b"".join([*LINES[: line - 1], LINES[line - 1].replace(old, new), *LINES[line:]])


# What is said of a line that the office doesn't give there, or doesn't write so.
NOT_GIVEN = "the office gives no such entry after those before it, with this reply; nothing was run"
NOT_SO = "an office doesn't write its journal so: "
# Stores that aren't this office's, the line that is named, and how what is said of it begins.
FAULTY = [
    ("another run", changed(1, b"run 1", b"run 2"), 1, "the journal is of run 2, and the plan has run 1; nothing was run"),
    ("another office", changed(1, b"office a", b"office b"), 1, "it is the journal of another office than `a`; nothing was run"),
    ("an office that the plan hasn't", changed(1, b"office a", b"office c"), 1, "the plan has no office `c`; nothing was run"),
    ("no first line", b"".join(LINES[1:]), 1, "the first line has to be `journal 1 run N office NAME`, and not `0 submit "),
    ("a comment before it", b"# mine\n" + STORE, 1, NOT_SO),
    ("a text of something else", PLAN, 1, "the first line has to be `journal 1 run N office NAME`, and not `plan 1 run 1`; "),
    ("an empty line", b"\n", 1, ""),
    ("the first line twice", LINES[0] + STORE, 2, "`journal` stands on the first line alone; nothing was run"),
    ("another ticket", changed(2, b"ticket 1", b"ticket 2"), 2, NOT_GIVEN),
    ("a ticket with a zero before it", changed(2, b"ticket 1", b"ticket 01"), 2, NOT_SO),
    ("digits in upper case", changed(2, b"6f", b"6F"), 2, NOT_SO),
    ("an odd number of digits", changed(2, b"0a =", b"0 ="), 2, "`73657373696f6e20610a67697665207265616420780a656e640` has 51 digits, and each byte is two of them; nothing was run"),
    ("a session of another office", changed(2, b"20610a", b"20620a"), 2, NOT_GIVEN),
    ("a session with two spaces", changed(2, b"7665207265", b"766520207265"), 2, NOT_SO),
    ("a session that breaks off", changed(2, b"656e640a", b""), 2, "line 3 of the text that is submitted is refused, S1 Syntax: "),
    ("a rule that can't be done", changed(3, b"start", b"leave"), 3, NOT_GIVEN),
    ("a rule that there isn't", changed(3, b"start", b"starts"), 3, "`starts` is no rule; "),
    ("a tag that there isn't", changed(3, b"0 do", b"16 do"), 3, "`16` is no tag, which is 0 to 15; nothing was run"),
    ("two spaces", changed(3, b"do start", b"do  start"), 3, NOT_SO),
    ("a carriage return", changed(3, b"\n", b"\r\n"), 3, NOT_SO),
    ("an empty line between", changed(3, b"\n", b"\n\n"), 4, NOT_SO),
    ("a comment between", changed(3, b"\n", b"\n# so far\n"), 4, NOT_SO),
    ("no line feed between two", changed(3, b"\n", b""), 3, "expected `= done`, and found `= done0 do drink = done`; nothing was run"),
    ("a rule left out", b"".join(LINES[:3] + LINES[4:]), 4, NOT_GIVEN),
    ("a rule twice", b"".join(LINES[:3] + LINES[2:]), 4, NOT_GIVEN),
    ("a number with a zero before it", changed(5, b"256", b"0256"), 5, NOT_SO),
    ("more work than there may be", changed(5, b"256", b"1001"), 5, "`1001` is no number of instructions, which is 1 to 1000; nothing was run"),
    ("bytes that are no text", changed(6, b"done", b"d\xffne"), 6, "byte FF in column 16 is neither a tab nor printable ASCII; nothing was run"),
    ("a last line that is none", changed(6, b"= done", b"= gone"), 6, "expected `= done`, and found `= gone`; nothing was run"),
    ("two lines, of which the first", changed(3, b"done", b"gone") + b"0 do eat = done\n", 3, "expected `= done`, and found `= gone`; nothing was run"),
    ("an entry more that can't be", STORE + b"0 do finish = done\n", 7, NOT_GIVEN),
    ("another frame than is made", STORE + b"0 send b 0 = frame %s\n" % frame(1, 0, 1, 0, 1).hex().encode(), 7, NOT_GIVEN),
    ("a frame of no message", STORE + b"0 send b 1 = frame %s\n" % COUNT, 7, NOT_GIVEN),
    ("a frame to nobody", STORE + b"0 send c 0 = frame %s\n" % COUNT, 7, "the plan has no office `c`; nothing was run"),
    ("a frame that comes again, and hadn't come", STORE + b"0 took %s = repeat\n" % ASKS, 7, NOT_GIVEN),
    ("a frame of another run that is taken", STORE + b"0 took %s = taken\n" % frame(2, 1, 0, 1, 0, 1).hex().encode(), 7, NOT_GIVEN),
    ("bytes of no frame", STORE + b"0 took 00 = taken\n", 7, NOT_GIVEN),
    ("zeros, and a line after them", STORE + bytes(512) + b"\n0 do start = done\n", 7, "byte 00 in column 1 is neither a tab nor printable ASCII; nothing was run"),
]

# What may stand after the last line feed: whatever it is, it is cut off.
TORN = [b"0 do", b"0 send b 0 = frame " + COUNT, b"0 do eat = done", b" ", b"\r", bytes(512), b"\xff" * 40, b"x" * 100_000]

# Words that are no command line.
NO_WORDS = ("--new", "--sync data", "--store s --new --journal j", "--store s --sync all", "--store s --sync", "--store", "--store -", "--store - --new", "--store s --store t", "--store s --new --new", "--store s --new=1")

# So many bytes a call takes at most, where it takes parts.
PART = 7

# How many events an office accepts; a session that counts for as long as one may, and its entries where each instruction is one: one for
# each time, one for the last look, and one for its end.
MOST_EVENTS = 1_000_000
COUNTS = b"session a\nrepeat 9999\nend\nend\n"
COUNTED = b"0 do start = done\n0 do drink = done\n" + b"0 do work 1 = done\n" * 10_001 + b"0 do finish = done\n"


class Stored:
    """The office a of PLAN at a port of its own, with its store."""

    def __init__(self, check, name):
        self.check, self.name = check, name
        ports = free_ports(2)
        check.files({"stored.txt": at_ports(PLAN, ports), "own.txt": SESSIONS})
        check.forget(name)

    def words(self, *more, plan="stored.txt", sessions="own.txt", turns=5):
        return f"run {plan} a {sessions} --turns {turns} --store {self.name} {' '.join(more)}"

    def put(self, text):
        self.check.files({self.name: text})

    def goes_on(self, name, before, wanted=STORE, *more, **words):
        """A start finds so many sessions that had finished, and does the one that there is; then the store has what is wanted."""
        self.check.wants(name, self.check.run(self.words(*more, **words)), 0, b"before %d\n%sunfinished 0\n" % (before, TOLD), b"")
        self.check.equal(f"{name}: the store", self.check.bytes_of(self.name), wanted)

    def refused(self, name, fault, *more, **words):
        """A start is refused, and the file, or that there is none, is as before."""
        text, is_there = self.check.bytes_of(self.name), os.path.lexists(os.path.join(self.check.work, self.name))
        self.check.wants(name, self.check.run(self.words(*more, **words)), 1, b"", rf"\Adrink: {fault}[^\n]*\n\Z")
        self.check.equal(f"{name}: the file", (os.path.lexists(os.path.join(self.check.work, self.name)), self.check.bytes_of(self.name)), (is_there, text))


def restarts(check):
    for part in (made, torn, faulty, other_sessions, no_store, in_use, in_order, without_room, failing_calls, each_read, each_write, full, by_hand):
        check.files({"plan.txt": PLAN})
        part(check)
    for words in NO_WORDS:
        check.wants(f"faulty: drink run .. {words}", check.run(f"run plan.txt a sessions.txt {words}"), 2, b"", r"\Adrink: ")
    check.equal("faulty words: no file is made", [it for it in ("s", "t", "j", "-") if os.path.exists(os.path.join(check.work, it)) and it != "-"], [])


def made(check):
    """A store is made, by each way to sync, and gone on from; it is the journal."""
    for sync in ("", "--sync data", "--sync none"):
        a = Stored(check, "made.store")
        a.goes_on(f"store: made {sync}", 0, STORE, "--new", sync)
        a.goes_on(f"store: gone on from {sync}", 1, STORE, sync)
    check.files({"b.journal": b"journal 1 run 1 office b\n"})
    check.wants("store: an audit of it", check.run("audit stored.txt made.store b.journal"), 0, TOLD + b"unfinished 0\nvalue x 5\n", b"")
    for more in MORE:
        a.put(STORE + more)
        ran = check.run(a.words())
        check.wants(f"store: gone on from {more[:7]!r}", ran, 0, b"before 1\n" + TOLD + b"unfinished 0\n", b"")
        check.equal(f"store: gone on from {more[:7]!r}: what was there begins it", check.bytes_of(a.name)[: len(STORE + more)], STORE + more)


def torn(check):
    """A store that breaks off anywhere, and what may stand after its last line feed."""
    a = Stored(check, "torn.store")
    ends = {0, len(STORE)} | {at + step for at in range(len(STORE)) if STORE[at : at + 1] == b"\n" for step in (-1, 0, 1)} | set(range(0, len(STORE), 9))
    for end in sorted(ends):
        a.put(STORE[:end])
        a.goes_on(f"store: the first {end} bytes", int(end == len(STORE)))
    for rest in TORN:
        a.put(STORE + rest)
        a.goes_on(f"store: {rest[:20]!r} after its last line", 1)
    a.put(b"journal 1 run 2 office b")
    a.goes_on("store: no whole line", 0)


def faulty(check):
    a = Stored(check, "faulty.store")
    for name, text, line, why in FAULTY:
        for rest in (b"", b"0 do st"):
            a.put(text + rest)
            a.refused(f"store: {name}{', and a last line without its end' if rest else ''}", rf"{a.name}: line {line}: U5 StoreFaulty: {re.escape(why)}")


def other_sessions(check):
    """The sessions that the store submitted begin those of the file; the first that differs is named."""
    a, both = Stored(check, "sessions.store"), SESSIONS + b"session b\ngive 1\nend\n" + SESSIONS.replace(b"x", b"x + 1")
    second = b"0 submit %s = ticket 2\n" % SESSIONS.replace(b"x", b"x + 1").hex().encode()
    check.files({"both.txt": both, "none.txt": b"", "changed.txt": SESSIONS.replace(b"x", b"x + 0"), "swapped.txt": SESSIONS.replace(b"x", b"x + 1") + SESSIONS, "third.txt": both.replace(b"+ 1", b"+ 2")})
    a.put(STORE)
    told = TOLD + b"a.2 done reads x=5 writes - gives 6\n"
    check.wants("store: a file with a session more", check.run(a.words(sessions="both.txt")), 0, b"before 1\n" + told + b"unfinished 0\n", b"")
    grown = STORE + second + b"".join(LINES[2:])
    check.equal("store: a file with a session more: the store", check.bytes_of(a.name), grown)
    check.wants("store: both sessions had finished", check.run(a.words(sessions="both.txt")), 0, b"before 2\n" + told + b"unfinished 0\n", b"")
    for text in (grown, grown + b"0 do st", STORE + second, LINES[0] + LINES[1] + second):
        a.put(text)
        for sessions, ticket in (("own.txt", 2), ("third.txt", 2), ("none.txt", 1), ("changed.txt", 1), ("swapped.txt", 1)):
            a.refused(f"store: {sessions}, and {len(text)} bytes of two sessions", rf"{sessions}: X7 OtherSessions: the office's session {ticket} is another than the one to which its store gave ticket {ticket}, [^\n]*; nothing was run", sessions=sessions)
    a.put(changed(3, b"start", b"leave"))
    a.refused("store: a faulty line comes before other sessions", rf"{a.name}: line 3: U5 StoreFaulty: ", sessions="changed.txt")


def no_store(check):
    """One that isn't there, one that is, and one that can't be opened or made."""
    a = Stored(check, "there.store")
    a.refused("store: none is there", rf"{a.name}: U7 NoStore: it is not there, and --new makes one; nothing was run")
    for text in (b"", STORE, PLAN):
        a.put(text)
        a.refused(f"store: one of {len(text)} bytes is there", rf"{a.name}: U8 StoreThere: it is there, and --new makes one that is not; without --new the office goes on from it; nothing was run", "--new")
    for path, cause in (("nowhere/s", "a folder of its path is not there"), ("stored.txt/s", "a part of its path is no folder"), ("n" * 256, "its name is too long")):
        a.name = path
        a.refused(f"store: {path[:20]}, with --new", rf"{path}: U4 StoreFailed: it cannot be opened, read or cut off: {cause}; nothing was run", "--new")
    check.forget("pipe")
    os.mkfifo(os.path.join(check.work, "pipe"))
    for path in ("folder", "pipe", "/dev/zero", "/dev/null"):
        a.name = path
        check.wants(f"store: {path}", check.run(a.words(), timeout=20), 1, b"", rf"\Adrink: {path}: U4 StoreFailed: [^\n]*\n\Z")
    check.forget("pipe")
    for path in ("stored.txt", "own.txt", "folder/../own.txt"):
        a.name = path
        a.refused(f"store: {path} is an input", rf"{path}: X5 WriteFailed: it is an input, and the journal would take its place; nothing was run")
    if os.geteuid():
        print("not tried: stores of somebody else, since that takes another user")
        return
    readonly, nobody = os.path.join(check.work, "readonly"), {"preexec_fn": lambda: os.setuid(NOBODY)}
    shutil.rmtree(readonly, ignore_errors=True)
    os.mkdir(readonly)
    check.files({"locked.store": STORE})
    for path, mode, more in (("locked.store", 0o444, ""), ("locked.store", 0o000, ""), ("readonly/s", None, "--new")):
        a.name = path
        if mode is not None:
            os.chmod(os.path.join(check.work, path), mode)
        check.wants(f"store: {path}, mode {mode}", check.run(a.words(more), **nobody), 1, b"", rf"\Adrink: {path}: U4 StoreFailed: it cannot be opened, read or cut off: permission denied; nothing was run\n\Z")
    check.equal("store: in a folder of somebody else: the folder", os.listdir(readonly), [])
    check.equal("store: of somebody else", check.bytes_of("locked.store"), STORE)


def line_of(process):
    """The next line that a process tells."""
    return process.stdout.readline()


def in_use(check):
    """Another process has the store: it is refused, until that one has ended. An audit reads it meanwhile."""
    a = Stored(check, "used.store")
    check.files({"elsewhere.txt": at_ports(PLAN, free_ports(2)), "b.journal": b"journal 1 run 1 office b\n"})
    first = started(check, a.words("--new", turns=100_000))
    told = [line_of(first) for _ in range(2)]
    check.equal("store: told while the office runs", told, [b"before 0\n", TOLD])
    for more in ("", "--sync none"):
        a.refused(f"store: another process has it {more}", rf"{a.name}: U6 StoreInUse: another process has it; nothing was run", more, plan="elsewhere.txt")
    a.refused("store: another process has it, and it is there", rf"{a.name}: U8 StoreThere: ", "--new", plan="elsewhere.txt")
    check.wants("store: an audit while the office runs", check.run("audit stored.txt used.store b.journal"), 0, TOLD + b"unfinished 0\nvalue x 5\n", b"")
    first.kill()
    check.wants("store: killed", ended(first), -signal.SIGKILL, b"", b"")
    a.goes_on("store: once that was killed", 1, STORE, plan="elsewhere.txt")


def in_order(check):
    """Which of two faults is told: those of the inputs come first, then that FILE is one of them, then the socket, then the store."""
    a = Stored(check, "order.store")
    for name, text in (("stored.txt", b""), ("own.txt", b"session c\nend\n")):
        was = check.bytes_of(name)
        check.files({name: text})
        a.refused(f"store: a faulty {name}, and no store", rf"{name}: ")
        check.files({name: was})
    port = int(re.search(rb"office a [0-9.]+:(\d+)", check.bytes_of("stored.txt"))[1])
    with Door(port):
        for more in ("", "--new"):
            a.refused(f"store: an address that is in use {more}", "U2 BindFailed: ", more)
        a.put(STORE)
        a.refused("store: an address that is in use, and it is there", "U2 BindFailed: ", "--new")
        a.name = "own.txt"
        a.refused("store: an input, and an address that is in use", r"own\.txt: X5 WriteFailed: it is an input, and the journal would take its place; nothing was run")


def without_room(check):
    """A store that may have so many bytes and no more: the office ends, tells what stood, and a start goes on."""
    for room in (0, 1, len(LINES[0]), len(LINES[0]) + 1, 60, len(STORE) - 1):
        a = Stored(check, "room.store")

        def small():
            signal.signal(signal.SIGXFSZ, signal.SIG_IGN)
            resource.setrlimit(resource.RLIMIT_FSIZE, (room, room))

        ran = check.run(a.words("--new"), preexec_fn=small, restore_signals=False)
        failed(check, a, f"store: {room} bytes and no more", ran)


def failed(check, a, name, ran):
    """A run ended since its store couldn't be appended to: nothing was told that doesn't stand, and a start goes on."""
    check.wants(name, ran, 1, r"\A(before 0\nunfinished 1\n)?\Z", rf"(?m)^drink: {a.name}: U4 StoreFailed: (what the office did can't be kept in it; the run ended with it, and what was kept before is printed, from which a new start goes on|it cannot be opened, read or cut off: [^\n]*; nothing was run)\n\Z")
    found = check.bytes_of(a.name)
    check.equal(f"{name}: what is found begins the store", found, STORE[: len(found)])
    is_there = os.path.exists(os.path.join(check.work, a.name))
    a.goes_on(f"{name}: gone on", int(found == STORE), STORE, "" if is_there else "--new")


def failing_calls(check):
    """Each call of the system fails that makes a store stand."""
    if not shutil.which("cc"):
        print("not tried: calls of a store that fail, since there is no C compiler")
        return
    for call, number in (("fsync", 1), ("fsync", 2), ("fdatasync", 1)):
        a = Stored(check, "calls.store")
        failed(check, a, f"store: {call} {number} fails", check.run(a.words("--new"), env=failing(check, call, number)))
    a = Stored(check, "calls.store")
    check.wants("store: without a sync none fails", check.run(a.words("--new", "--sync none"), env=failing(check, "fdatasync", 1)), 0, b"before 0\n" + TOLD + b"unfinished 0\n", b"")
    for call, number in (("ftruncate", 1), ("fsync", 1), ("fsync", 2), ("fsync", 3)):
        a.put(STORE + b"0 do")
        ran = check.run(a.words(), env=failing(check, call, number))
        check.wants(f"store: {call} {number} of a start fails", ran, 1, b"", rf"\Adrink: {a.name}: U4 StoreFailed: [^\n]*\n\Z")
        a.goes_on(f"store: {call} {number} of a start fails: gone on", 1)


def failing(check, call, number):
    return check.calls(fail=f"{call} {number} {number} {errno.EIO}")


def each_read(check):
    """A start reads its store up to its end, in parts and again where that is interrupted; where a read of it fails nothing is run."""
    if not shutil.which("cc"):
        return
    a = Stored(check, "reads.store")
    for told in ({"part": f"read {PART}"}, {"stopped": "read"}):
        a.put(STORE)
        check.wants(f"store: read {told}", check.run(a.words(), env=check.calls(**told)), 0, b"before 1\n" + TOLD + b"unfinished 0\n", b"")
    # The plan and the sessions are read before; each text takes one read more, which finds its end.
    calls = [-(-len(it) // PART) + 1 for it in (check.bytes_of("stored.txt"), SESSIONS, STORE)]
    wrong = []
    for k in range(sum(calls[:2]) + 1, sum(calls) + 1):
        a.put(STORE)
        ran = check.run(a.words(), env=check.calls(part=f"read {PART}", fail=f"read {k} {k} {errno.EIO}"))
        wanted = b"drink: reads.store: U4 StoreFailed: it cannot be opened, read or cut off: its device fails; nothing was run\n"
        wrong += [] if (ran.status, ran.out, ran.err) == (1, b"", wanted) and check.bytes_of(a.name) == STORE else [f"read {k}: {ran}"]
    check.say(f"store: each of its {calls[2]} reads fails", f"{len(wrong)}, as {wrong[0]}" if wrong else None)
    a.goes_on("store: each of its reads failed: gone on", 1)


def each_write(check):
    """An office with a store writes in parts, of which each fails in turn: what it told stands, what is found begins the store, and a start
    goes on from there."""
    if not shutil.which("cc"):
        return
    a, wrong, least = Stored(check, "writes.store"), [], (len(STORE) + len(TOLD)) // PART
    a.goes_on("store: written at once", 0, STORE, "--new")
    for k in range(1, 2 * least):
        check.forget(a.name)
        ran = check.run(a.words("--new"), env=check.calls(part=f"write {PART}", fail=f"write {k} {k} {errno.ENOSPC}"))
        if ran.status == 0:
            break
        found, is_well = check.bytes_of(a.name), re.search(rb"(?m)^drink: (writes\.store: U4 StoreFailed|X5 WriteFailed): ", ran.err)
        wrong += [] if ran.status == 1 and is_well and STORE.startswith(found) and (TOLD not in ran.out or found == STORE) else [f"write {k}: {ran}, and {found!r} is found"]
        again = check.run(a.words())
        wanted = (0, b"before %d\n" % (found == STORE) + TOLD + b"unfinished 0\n", b"", STORE)
        wrong += [] if (again.status, again.out, again.err, check.bytes_of(a.name)) == wanted else [f"write {k}: gone on: {again}"]
    check.say(f"store: each of {k - 1} writes fails", f"{len(wrong)}, as {wrong[0]}" if wrong else None if least < k - 1 else f"more than {least} are wanted")


def full(check):
    """A store with all events that an office accepts, or nearly all: what finished is told, and that the journal is full."""
    a, each = Stored(check, "full.store"), 1 + COUNTED.count(b"\n")
    done, rest = divmod(MOST_EVENTS, each)
    lines = b"".join(b"0 submit %s = ticket %d\n%s" % (COUNTS.hex().encode(), it, COUNTED) for it in range(1, done + 2)).splitlines(keepends=True)
    check.files({"counts.txt": COUNTS * (done + 1)})
    told = b"before %d\n" % done + b"".join(b"a.%d done reads - writes - gives -\n" % it for it in range(1, done + 1)) + b"unfinished 1\n"
    for less in (0, 1):
        a.put(LINES[0] + b"".join(lines[: MOST_EVENTS - less]))
        for time in ("", ", and again"):
            before = check.bytes_of(a.name)
            check.wants(f"store: {less} less than all events{time}", check.run(a.words(sessions="counts.txt")), 1, told, r"(?m)^drink: O4 JournalFull: [^\n]*\n\Z")
            found = check.bytes_of(a.name)
            check.say(f"store: {less} less than all events{time}: what was there begins it", None if found.startswith(before) and found.count(b"\n") <= MOST_EVENTS + 1 else f"{len(before)} bytes, and now {len(found)}")
    a.put(b"".join([LINES[0], *lines[:MOST_EVENTS], b"0 do work 1 = done\n"]))
    a.refused("store: more than all events", rf"{a.name}: line {MOST_EVENTS + 2}: U5 StoreFaulty: ", sessions="counts.txt")


def by_hand(check):
    """An office is killed before its neighbour starts, and once it has told its session; each start tells how many had finished and their
    lines again."""
    check.files({"shared.txt": at_ports(SHARED, free_ports(2)), "moves.txt": MOVES})
    for it in "ab":
        check.forget(f"{it}.store")
    words = lambda it, *more: f"run shared.txt {it} moves.txt --turns {2 * FEWER_TURNS} --store {it}.store {' '.join(more)}"
    first = started(check, words("a", "--new"))
    line = line_of(first)
    first.kill()
    check.wants("store: killed before the neighbour starts", ended(first), -signal.SIGKILL, b"", b"")
    second = started(check, words("a"))
    other = started(check, words("b", "--new"))
    lines = [line_of(second) for _ in range(2)]
    second.kill()
    check.wants("store: killed once its session was told", ended(second), -signal.SIGKILL, b"", b"")
    check.equal("store: what it told", [line, *lines], [b"before 0\n", b"before 0\n", MOVED])
    check.wants("store: started again", check.run(words("a", "--turns 5").replace(f"--turns {2 * FEWER_TURNS} ", "")), 0, b"before 1\n" + MOVED + b"unfinished 0\n", b"")
    check.wants("store: the neighbour", ended(other), 0, b"before 0\nunfinished 0\n", b"")
    check.wants("store: an audit of both", check.run("audit shared.txt b.store a.store"), 0, MOVED + b"unfinished 0\n" + VALUES, b"")
