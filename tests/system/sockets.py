"""Offices on sockets: single ones, with a neighbour that this script plays, and on a terminal."""
import errno, os, pty, re, resource, select, shutil, signal, socket, subprocess, termios, time

from cases import CASES
from common import ASK_BOTTLE, BOTTLE, HOST, PLAN, SECONDS, SESSIONS, Ran, at_ports, frame, free_ports

# Turns enough for two processes to find each other, 3 seconds where nothing comes.
FEWER_TURNS = 600

# A session that moves 30 from a record that is here to one that a neighbour has, and what it does.
SHARED = b"plan 1 run 42\noffice a -\noffice b -\npair a b fork a\nrecord x a b 100 at a\nrecord y a b 0 at b\n"
MOVES = b"session a\nlet v = read x\nset x = v - 30\nset y = read y + 30\ngive read x\ngive read y\nend\n"
MOVED = b"a.1 done reads x=100 y=0 writes x=70 y=30 gives 70 30\n"
VALUES = b"value x 70\nvalue y 30\n"
# What its office asks, as which of its things, and what it tells once it has the answer.
RUN, A, B, Y = 42, 0, 1, 1
ASKED = frame(RUN, A, B, 1, 0, ASK_BOTTLE, Y)
TAKEN = frame(RUN, A, B, 0, 1)
# A frame of version 02 from b to a, with the text "hi" for the record of number 1, as the format lays it out.
WITH_A_TEXT = bytes.fromhex("445002010000002a01000000000000000001000000000000000104000102026869")
OWN = b"a.1 done reads x=5 writes - gives 5\n"
# A user of no other process.
LONELY = 64_321

# Datagrams that the office b refuses: no frame, one of another run, of no neighbour, of itself, to another office, and one that
# acknowledges what wasn't sent; and those that it takes, since what comes again is none to refuse.
REFUSED = [b"", b"D", b"x" * 26, b"DP" + bytes(1000), frame(2, A, B, 0, 0), frame(1, 2, B, 0, 0), frame(1, B, B, 0, 0), frame(1, A, A, 0, 0), frame(1, A, B, 0, 9)]
TAKEN_BY_B = [frame(1, A, B, 0, 0), frame(1, A, B, 0, 0)]

# Of the calls that take or send a datagram those that fail, by their numbers: before the session has ended there are some six, and the
# three hundredth comes long after it; two offices on threads have some 400 in a second.
BROKEN_ONCE, BROKEN_FROM, BROKEN_LATE, ALL = (1, 2, 3, 4, 5, 6), (1, 300), 1600, 2**31 - 1


# A key, and four offices, of which the first has two neighbours and the last none.
KEY = b"000102030405060708090a0b0c0d0e0f"
FOUR = b"plan 1 run 1\noffice a -\noffice b -\noffice c -\noffice d -\npair a b fork a\npair a c fork a\nrecord x a b 5 at a\n"


def secret(one, other, key=KEY):
    return b"secret %s %s %s\n" % (one.encode(), other.encode(), key)


# Texts of secrets for the office a, whose neighbours are b and c, and what each is refused for.
BOTH = secret("a", "b") + secret("c", "a", KEY[::-1])
NO_KEY = "K1 Secret: the last word is no key: that is 32 to 128 hexadecimal digits, an even number of them"
NO_FORM = "K1 Secret: a line has the form `secret A B HEX`, and this one hasn't"
NO_NAME = "K1 Secret: `{}` is no name: a letter, then at most 15 letters, digits or _, and none of session, let, set, give, require, if, else, repeat, end and read"
WITHOUT = "K4 NoSecret: no line has the secret with `{}`, and the office needs one with each of its neighbours"
SECRETS = (
    ("one for each neighbour", BOTH, None),
    ("digits in upper case, a comment, and a blank line", b"# ours\n\n" + secret("a", "b", KEY.upper()) + secret("a", "c"), None),
    ("16 bytes, and 64", secret("a", "b", b"0f" * 16) + secret("a", "c", b"f0" * 64), None),
    ("a last line without its end", b"# with the shop\n" + BOTH[:-1], None),
    ("tabs, two spaces and CR LF", b"\t" + BOTH.replace(b" a", b"\ta  ").replace(b"\n", b"\r\n") + b"\t#\r\n\n", None),
    ("of others too", BOTH.replace(b"c a", b"d c") + secret("a", "c"), "line 2: K2 NotNeighbours: `d` and `c` are no neighbours in the plan"),
    ("2 bytes", secret("a", "b", b"0001"), f"line 1: {NO_KEY}"),
    ("15 bytes", secret("a", "b", b"0f" * 15) + secret("a", "c"), f"line 1: {NO_KEY}"),
    ("65 bytes", secret("a", "b") + secret("a", "c", b"0f" * 65), f"line 2: {NO_KEY}"),
    ("an odd number of digits", secret("a", "b", KEY + b"0"), f"line 1: {NO_KEY}"),
    ("a digit that is none", secret("a", "b", KEY[:-1] + b"g"), f"line 1: {NO_KEY}"),
    ("a number of another notation", secret("a", "b", b"0x" + KEY[2:]), f"line 1: {NO_KEY}"),
    ("a key in two words", secret("a", "b", KEY[:20] + b" " + KEY[20:]), f"line 1: {NO_FORM}"),
    ("a word that is no name", secret("end", "b"), f"line 1: {NO_NAME.format('end')}"),
    ("another word that is no name", secret("a", "1b"), f"line 1: {NO_NAME.format('1b')}"),
    ("a byte that may not stand", b"\n" + secret("a", "b", KEY + b" \x7f"), "line 2: K1 Secret: byte 7F in column 45 is neither a tab nor printable ASCII"),
    ("no key", b"secret a b\n", f"line 1: {NO_FORM}"),
    ("a word too many", secret("a", "b", KEY + b" 0"), f"line 1: {NO_FORM}"),
    ("another first word", b"secrets a b %s\n" % KEY, f"line 1: {NO_FORM}"),
    ("an office that the plan hasn't", b"\n" + secret("a", "e"), "line 2: K2 NotNeighbours: the plan has no office `e`"),
    ("an office in capital letters", secret("A", "b"), "line 1: K2 NotNeighbours: the plan has no office `A`; it has `a`, and capital letters count"),
    ("two offices without a pair", BOTH + secret("b", "c"), "line 3: K2 NotNeighbours: `b` and `c` are no neighbours in the plan"),
    ("an office with itself", secret("a", "a"), "line 1: K2 NotNeighbours: `a` and `a` are no neighbours in the plan"),
    ("a pair twice", BOTH + secret("a", "b"), "line 3: K3 SecretTwice: `a` and `b` have a secret on a line above"),
    ("a pair twice, the other way round and with another key", secret("a", "b") + secret("b", "a", KEY[::-1]), "line 2: K3 SecretTwice: `b` and `a` have a secret on a line above"),
    ("no line", b"", WITHOUT.format("b")),
    ("no secret at all", b"# secret a b %s\n" % KEY, WITHOUT.format("b")),
    ("none with the second neighbour", secret("a", "b"), WITHOUT.format("c")),
    ("a faulty line, and none with a neighbour", secret("a", "b") + b"secret a c\n", f"line 2: {NO_FORM}"),
    ("a pair twice, between other lines", secret("a", "b") + b"\n" + secret("a", "b"), "line 3: K3 SecretTwice: `a` and `b` have a secret on a line above"),
    ("two lines of a pair, the first of which is faulty", secret("c", "a", b"00") + secret("c", "a"), f"line 1: {NO_KEY}"),
    ("two faulty lines", secret("a", "d") + secret("a", "b", b"0"), "line 1: K2 NotNeighbours: `a` and `d` are no neighbours in the plan"),
)
# The same of the office b, between a and c, and what a file is refused for.
IN_A_ROW = b"plan 1 run 5\noffice a -\noffice b -\noffice c -\npair a b fork a\npair c b fork b\n"
SECRETS_OF_B = (
    ("both, the later first", secret("c", "b") + secret("a", "b"), None),
    ("the second alone", secret("c", "b"), WITHOUT.format("a")),
    ("the first alone", secret("a", "b"), WITHOUT.format("c")),
    ("two that are no neighbours", secret("a", "c") + b"secret a\n", "line 1: K2 NotNeighbours: `a` and `c` are no neighbours in the plan"),
)

# Plans of offices with addresses in place of the braces: of two, the second without one, and three of which the last has none and is no
# neighbour of the first.
PAIR = "plan 1 run 3\noffice a {}\noffice b {}\npair a b fork a\n"
HALF = "plan 1 run 3\noffice a {}\noffice b -\npair a b fork a\n"
APART = "plan 1 run 3\noffice a {}\noffice b {}\noffice c -\npair a b fork a\npair b c fork b\n"
AWAY = PAIR + "record x a b 5 at b\n"
GIVES = b"session a\ngive 1\nend\n"
GAVE = b"a.1 done reads - writes - gives 1\n"
NO_ADDRESS = "p: X2 NoAddress: the office `{}` has `-` for its address, and an office runs where it and its neighbours have one"
NO_OFFICE = "X6 NoSuchOffice: the plan has no office of this name; it has"
HEADER = "p: line 1: P1 Header: the first line has to be `plan 1 run N`, with N from 0 to 4294967295, and not `plan 2`"

# A plan, sessions, words after `drink`, and how that ends: the output of a run that is whole, or what is said of one that can't begin.
RUNS = (
    ("a session that needs nobody, in one turn", PAIR, GIVES, "run p a s --turns 1", GAVE + b"unfinished 0\n"),
    ("an office without an address that is no neighbour", APART, GIVES, "run p a s --turns 1", GAVE + b"unfinished 0\n"),
    ("another office's session, in two turns", PAIR, GIVES, "run p b s --turns 2", b"unfinished 0\n"),
    ("no sessions", PAIR, b"", "run p a s", b"unfinished 0\n"),
    ("OFFICE before the addresses, and these before the sessions", SHARED.decode(), GIVES, "run p c missing", f"c: {NO_OFFICE} a and b"),
    ("an office whose name can't be shown", APART, GIVES, ["run", "p", "A\n", "missing"], f"A\\u{{a}}: {NO_OFFICE} a, b and c"),
    ("of an office and its neighbours the first without an address", SHARED.decode(), GIVES, "run p b missing", NO_ADDRESS.format("a")),
    ("a neighbour without an address", HALF, b"x", "run p a s", NO_ADDRESS.format("b")),
    ("a second neighbour without an address", APART, b"x", "run p b s", NO_ADDRESS.format("c")),
    ("sessions of an office that there isn't", PAIR, b"session c\nend\n", "run p a s", "s: line 1: S2 UnknownName: the plan has no office `c`"),
    ("sessions that aren't there", PAIR, b"", "run p a missing", "missing: X4 ReadFailed: it cannot be read: no such file"),
    ("half a header, under run", "plan 2", GIVES, "run p c missing", HEADER),
    ("half a header, under live", "plan 2", GIVES, "live p missing", HEADER),
)


def runs(check):
    """Single offices, and all of a plan."""
    one, other = free_ports(2)
    own, fetches = b"session a\ngive read x\nend\n", b"session b\ngive read x\nend\n"
    answer, left = b"a.1 done reads x=5 writes - gives 5\nunfinished 0\n", b"unfinished 1\n"
    plan = at_ports(PLAN, (one, other))
    check.files({"plan.txt": PLAN, "ports.txt": plan, "own.txt": own, "fetches.txt": fetches, "both.txt": own + fetches})
    check.wants("run: a session that needs nobody", check.run("run ports.txt a own.txt --turns 5"), 0, answer, b"")
    check.wants("run: on the standard input", check.run("run - a - --turns 5", plan + b"---\n" + own), 0, answer, b"")
    check.wants("run: another office's session", check.run("run ports.txt a fetches.txt --turns 1"), 0, b"unfinished 0\n", b"")
    unheard = rf"drink: b never heard a at 127\.0\.0\.1:{one}\n"
    check.wants("run: a neighbour that never starts", check.run("run ports.txt b fetches.txt --turns 100"), 1, left, rf"\Adrink: b\.1 waits for x from a, which was never heard\n{unheard}\Z")
    check.files({"many.txt": fetches * 13})
    waits = "".join(rf"drink: b\.{it} waits for b\.{it - 1}\n" for it in range(2, 11))
    check.wants("run: more sessions than are named", check.run("run ports.txt b many.txt --turns 5"), 1, b"unfinished 13\n", rf"\Adrink: b\.1 waits for x from a, which was never heard\n{waits}drink: and 3 more sessions are left\n{unheard}\Z")
    one_turn(check)
    told_whole(check)
    for words in ("run ports.txt a own.txt --turns 5", "live plan.txt own.txt"):
        check.wants(f"{words} > /dev/full", check.shell(f"./drink {words} > /dev/full"), 1, b"", r"\Adrink: X5 WriteFailed: [^\n]*\n\Z")
        check.wants(f"{words} 2>&-", check.shell(f"./drink {words} 2>&-"), 0, answer, b"")
    with socket.socket(socket.AF_INET, socket.SOCK_DGRAM) as taken:
        taken.bind((HOST, one))
        wanted = rf"\Adrink: U2 BindFailed: [^\n]* 127\.0\.0\.1:{one}: the address is in use\n\Z"
        check.wants("run: an address that is in use", check.run("run ports.txt a own.txt"), 1, b"", wanted)
    check.files({"ports.txt": plan.replace(b"a 127.0.0.1", b"a 192.0.2.1")})
    check.wants("run: an address of another machine", check.run("run ports.txt a own.txt"), 1, b"", r"\Adrink: U2 BindFailed: [^\n]*no such address\n\Z")
    check.files({"ports.txt": plan})
    check.wants("live: plan.txt", check.run("live plan.txt own.txt"), 0, answer, b"")
    check.wants("live: a session at each end", check.run("live plan.txt both.txt"), 0, answer.replace(b"unfinished", b"b.1 done reads x=5 writes - gives 5\nunfinished"), b"")
    secrets(check)
    told_on_a_terminal(check)
    terminals_that_take_nothing(check)
    interrupted(check)
    answered(check)
    of_the_other_version(check)
    broken(check)
    never_reached(check)
    heard_alone(check)
    never_met(check)
    without_sockets(check)
    without_threads(check)
    two_processes(check)
    two_versions(check)


def told_whole(check):
    """How runs end whose neighbours say nothing, to the byte: a session that needs a neighbour's record is left, and those after it."""
    for name, plan, sessions, words, wanted in RUNS:
        at = iter(free_ports(2))
        check.files({"p": re.sub(r"\{\}", lambda _: f"{HOST}:{next(at)}", plan).encode(), "s": sessions})
        ran = check.run(words)
        check.wants(f"run: {name}", ran, *((0, wanted, b"") if isinstance(wanted, bytes) else (1, b"", f"drink: {wanted}\n".encode())))
    one, other = free_ports(2)
    check.files({"p": AWAY.format(f"{HOST}:{one}", f"{HOST}:{other}").encode(), "s": GIVES + b"session a\ngive read x\nend\nsession b\ngive read x\nend\n"})
    said = b"drink: a.2 waits for x from b, which was never heard\ndrink: a never heard b at 127.0.0.1:%d\n" % other
    check.wants("run: the second session needs a neighbour", check.run("run p a s --turns 20"), 1, GAVE + b"unfinished 1\n", said)
    for it in "ps":
        check.forget(it)


def one_turn(check):
    """An office takes as many sessions as it has room for, and does 64 rules in a turn, four of them for each session. Where its turns are
    over the next session waits for nobody, and the last wasn't submitted."""
    for count, left in ((65, 49), (17, 1)):
        check.files({"crowd.txt": b"session a\nend\n" * count})
        done = b"".join(b"a.%d done reads - writes - gives -\n" % it for it in range(1, 17))
        waits = "".join(rf"drink: a\.{it} waits for a\.{it - 1}\n" for it in range(18, 27) if it <= count)
        more = rf"drink: and {left - 10} more sessions are left\n" if left > 10 else ""
        wanted = rf"\Adrink: a\.17 waits for no neighbour, and would have gone on\n{waits}{more}drink: a never heard b at [^\n]*\n\Z"
        check.wants(f"run: one turn for {count} sessions", check.run("run ports.txt a crowd.txt --turns 1"), 1, done + b"unfinished %d\n" % left, wanted)


def secrets(check):
    """A file of secrets is one of a disk, and for its owner alone; what it has is never shown."""
    check.files({"keys.txt": secret("a", "b"), "wrong.txt": secret("a", "b").replace(b"\n", b"x\n"), "long.txt": b"#" * 262_144 + b"\n"})
    answer, words = b"a.1 done reads x=5 writes - gives 5\nunfinished 0\n", "run ports.txt a own.txt --turns 5 --secrets"
    for mode, is_fine in ((0o600, True), (0o400, True), (0o640, False), (0o604, False), (0o601, False)):
        os.chmod(os.path.join(check.work, "keys.txt"), mode)
        said = b"drink: keys.txt: K5 OpenToOthers: others than its owner may read or write it, and a secret is for an office alone: chmod 600 takes that from them; nothing was run\n"
        wanted = (0, answer, b"") if is_fine else (1, b"", said)
        check.wants(f"run: secrets of mode {mode:o}", check.run(f"{words} keys.txt"), *wanted)
    for name, refusal in (("wrong.txt", "line 1: K1 Secret"), ("long.txt", "X4 ReadFailed"), ("no.txt", "X4 ReadFailed: it cannot be read: no such file; nothing was run"), ("folder", "X4 ReadFailed")):
        if name != "no.txt":
            os.chmod(os.path.join(check.work, name), 0o700)
        ran = check.run(f"{words} {name}")
        check.wants(f"run: secrets of {name}", ran, 1, b"", rf"\Adrink: {re.escape(name)}: {refusal}\b[^\n]*\n\Z")
        check.say(f"run: no key of {name} is shown", "it is" if KEY in ran.err else None)
    os.chmod(os.path.join(check.work, "folder"), 0o755)
    said = b"drink: --secrets takes a file, and - is none: a file whose name is - is written ./- instead\n"
    check.wants("run: secrets of -", check.run(f"{words} -"), 2, b"", said)
    texts_of_secrets(check)


def texts_of_secrets(check):
    """What a file of secrets is refused for. Who may use it is looked at before what it has."""
    plan, row = at_ports(FOUR, free_ports(4)), at_ports(IN_A_ROW, free_ports(3))
    check.files({"three.txt": plan, "row.txt": row, "nothing.txt": b"", "open.txt": b"no secret\n"})
    os.chmod(os.path.join(check.work, "open.txt"), 0o644)
    words, answer = "run three.txt a own.txt --turns 5 --secrets", b"a.1 done reads x=5 writes - gives 5\nunfinished 0\n"
    for at, (name, text, fault) in enumerate(SECRETS):
        file = f"secrets{at}.txt"
        check.files({file: text})
        os.chmod(os.path.join(check.work, file), 0o600)
        wanted = (1, b"", f"drink: {file}: {fault}; nothing was run\n".encode()) if fault else (0, answer, b"")
        check.wants(f"run: secrets: {name}", check.run(f"{words} {file}"), *wanted)
    for name, text, fault in SECRETS_OF_B:
        check.files({"of_b.txt": text})
        os.chmod(os.path.join(check.work, "of_b.txt"), 0o600)
        wanted = (1, b"", f"drink: of_b.txt: {fault}; nothing was run\n".encode()) if fault else (0, b"unfinished 0\n", b"")
        check.wants(f"run: secrets of an office in the middle: {name}", check.run("run row.txt b nothing.txt --turns 5 --secrets of_b.txt"), *wanted)
    check.wants("run: secrets: open to others, and no text of them", check.run(f"{words} open.txt"), 1, b"", r"\Adrink: open\.txt: K5 OpenToOthers: [^\n]*\n\Z")


class Door:
    """A socket that stands for an office, until the block ends."""

    def __init__(self, port=0):
        self.socket = socket.socket(socket.AF_INET, socket.SOCK_DGRAM)
        self.socket.bind((HOST, port))
        self.port = self.socket.getsockname()[1]

    def __enter__(self):
        return self

    def __exit__(self, *_):
        self.socket.close()

    def came(self, seconds):
        """The next datagram, and where it came from; None where nothing comes."""
        self.socket.settimeout(seconds)
        try:
            return self.socket.recvfrom(2048)
        except TimeoutError:
            return None


def started(check, words, **how):
    return subprocess.Popen([check.link, *words.split()], cwd=check.work, stdin=subprocess.DEVNULL, stdout=subprocess.PIPE, **{"stderr": subprocess.PIPE, **how})


def ended(it):
    try:
        out, err = it.communicate(timeout=SECONDS)
    except subprocess.TimeoutExpired:
        it.kill()
        out, err = it.communicate()
    return Ran(it.returncode, out, err or b"")


def read_on(terminal):
    """What a terminal shows next; nothing where nobody has its other end any more."""
    try:
        return os.read(terminal, 4096)
    except OSError:
        return b""


def told_on_a_terminal(check):
    """How far a run is goes to the standard error while that is a terminal, with each datagram that came, went and was refused."""
    theirs, ours = pty.openpty()
    with Door() as a:
        plan = at_ports(PLAN, (a.port, *free_ports(1)))
        check.files({"ports.txt": plan})
        run = started(check, "run ports.txt b fetches.txt --turns 600", stderr=ours)
        os.close(ours)
        first, went = a.came(SECONDS), 1
        for it in (REFUSED + TAKEN_BY_B if first else []):
            a.socket.sendto(it, first[1])
        told = b""
        while run.poll() is None:
            ready = select.select([theirs, a.socket], [], [], 0.1)[0]
            went += a.socket in ready and a.came(0) is not None
            told += read_on(theirs) if theirs in ready else b""
        went += sum(1 for _ in iter(lambda: a.came(0.01), None))
    told += b"".join(iter(lambda: read_on(theirs), b""))
    os.close(theirs)
    ran = Ran(run.returncode, run.stdout.read(), told.replace(b"\r", b""))
    run.stdout.close()
    count, refused = len(REFUSED + TAKEN_BY_B), len(REFUSED)
    line = r"drink: 0 of 1 sessions finished; \d+ datagrams came, [1-9]\d* went, \d+ were refused\n"
    last = rf"drink: 0 of 1 sessions finished; {count} datagrams came, (\d+) went, {refused} were refused\n"
    end = r"drink: b\.1 waits for x from a, silent for [1-9]\d* seconds?\n"
    check.wants("run: told on a terminal, each second", ran, 1, b"unfinished 1\n", rf"\A({line})+{end}\Z")
    check.wants("run: told on a terminal: what came and was refused", ran, 1, b"unfinished 1\n", rf"{last}{end}\Z")
    told = re.search(rf"{last}{end}\Z", ran.err.decode(errors="replace"))
    check.say("run: told on a terminal: what went", None if told and went // 2 <= int(told[1]) <= went else f"{went} came of them; {ran}")


def terminals_that_take_nothing(check):
    """A terminal that is stopped, as by Ctrl-S, and one that is full: neither holds an office up, or is other than before for its other
    writers."""
    for what, make in (("stopped", lambda terminal: termios.tcflow(terminal, termios.TCOOFF)), ("full", fill)):
        theirs, ours = pty.openpty()
        make(ours)
        check.wants(f"run: a terminal that is {what}", check.run("run ports.txt a own.txt --turns 500", stderr=ours), 0, b"a.1 done reads x=5 writes - gives 5\nunfinished 0\n", b"")
        check.equal(f"run: a terminal that is {what}: others wait for it", os.get_blocking(ours), True)
        os.close(theirs)
        os.close(ours)


def fill(terminal):
    """Writes to a terminal until it takes no more, after a while too: it passes on what it took."""
    again = os.open(os.ttyname(terminal), os.O_WRONLY | os.O_NONBLOCK | os.O_NOCTTY)
    for _ in range(50):
        try:
            while True:
                os.write(again, b"x")
        except BlockingIOError:
            time.sleep(0.01)
    os.close(again)


def interrupted(check):
    """Ctrl-C ends a run at once: nothing is printed, and a journal's file has what it had."""
    with Door() as a:
        check.files({"ports.txt": at_ports(PLAN, (a.port, *free_ports(1))), "old.journal": b"old\n"})
        run = started(check, f"run ports.txt b fetches.txt --turns {FEWER_TURNS} --journal old.journal", preexec_fn=lambda: signal.signal(signal.SIGINT, signal.SIG_DFL))
        a.came(SECONDS)
        run.send_signal(signal.SIGINT)
        check.wants("run: an interrupt", ended(run), -signal.SIGINT, b"", b"")
    check.equal("run: an interrupt: the journal's file", check.bytes_of("old.journal"), b"old\n")


def beside(check, turns, journal, value=0, repeats=1, **how):
    """How the office a ran beside a neighbour that this script plays, which answers its question with this value; all that the
    neighbour got, and what it would write down."""
    check.forget(journal)
    with Door() as b:
        check.files({"shared.txt": at_ports(SHARED, (*free_ports(1), b.port)), "moves.txt": MOVES})
        run = started(check, f"run shared.txt a moves.txt --turns {turns} --journal {journal}", **how)
        answer, got = frame(RUN, B, A, 1, 1, BOTTLE, Y, value), set()
        while run.poll() is None:
            came = b.came(0.1)
            for _ in range(repeats if came and came[0] == ASKED else 0):
                b.socket.sendto(answer, came[1])
            got |= {came[0]} if came else set()
        ran = ended(run)
    told = b"0 took %s = taken\n0 do givebottle y = done\n0 send a 1 = frame %s\n" % (ASKED.hex().encode(), answer.hex().encode())
    return ran, got, b"journal 1 run 42 office b\n" + (told if ASKED in got else b"")


def answered(check):
    """What an office sends is what the format says, to the byte, and what its neighbour answers is believed."""
    typed = ("445001010000002a000100000000000000010000000000000000030001", "445001010000002a0100000000000000000100000000000000010400010000000000000000")
    check.equal("run: frames as this check makes them", (ASKED.hex(), frame(RUN, B, A, 1, 1, BOTTLE, Y, 0).hex()), typed)
    for name, value, repeats in (("a value", 0, 1), ("another value, three times", -7, 3)):
        line = MOVED.replace(b"y=0", b"y=%d" % value).replace(b"30", b"%d" % (value + 30)) if value else MOVED
        ran, got, _ = beside(check, FEWER_TURNS, "told.journal", value, repeats)
        check.wants(f"run: a neighbour that answers: {name}", ran, 0, line + b"unfinished 0\n", b"")
        check.equal(f"run: a neighbour that answers: {name}: what it got", sorted(got), sorted([ASKED, TAKEN]))


def of_the_other_version(check):
    """A frame of version 02 that brings a text, to an office whose plan is of version 1: that is told before its count, which is past what
    was sent too, and nothing of it is taken."""
    check.forget("other.journal")
    with Door() as b:
        check.files({"shared.txt": at_ports(SHARED, (*free_ports(1), b.port)), "fetches_y.txt": b"session a\ngive read y\nend\n"})
        run = started(check, "run shared.txt a fetches_y.txt --turns 300 --journal other.journal")
        came = b.came(SECONDS)
        if came:
            b.socket.sendto(WITH_A_TEXT, came[1])
        ran = ended(run)
    said = r"\Adrink: a\.1 waits for y from b[^\n]*\ndrink: a takes no frame of b: they are of version 2, its own plan is `plan 1` \(L4 WrongVersion\)\n\Z"
    check.wants("run: a frame of the other version", ran, 1, b"unfinished 1\n", said)
    check.equal("run: a frame of the other version: what was taken", check.bytes_of("other.journal").count(b" took "), 0)


def broken(check):
    """A call that takes or sends a datagram fails, each of the first in turn: nothing but a datagram is lost. Where all fail from one
    on, the run ends with that, prints what stands, and leaves a journal that an audit takes."""
    if not shutil.which("cc"):
        print("not tried: calls of a socket that fail, since there is no C compiler")
        return
    for call in BROKEN_ONCE:
        breaks(check, f"run: call {call} of a socket fails", call, call, (0, MOVED + b"unfinished 0\n", b""))
    alone = r"drink: a\.1 waits for y from b, which was never heard\ndrink: a never heard b at 127\.0\.0\.1:\d+\n"
    for call, out, left in zip(BROKEN_FROM, (b"unfinished 1\n", MOVED + b"unfinished 0\n"), (alone, "")):
        breaks(check, f"run: all calls of a socket fail from the {call}th on", call, ALL, (1, out, rf"\A{left}drink: U1 WireFailed: [^\n]*\n\Z"))
    unheard(check)


def unheard(check):
    """Offices on threads, of which one is never heard, until all calls of their sockets fail: they tell so, on a terminal each second
    too."""
    env = check.calls(fail=broken_calls(BROKEN_LATE, ALL), lost=A)
    never = r"drink: b never heard a at 127\.0\.0\.1:\d+\n"
    end = rf"drink: b\.1 waits for x from a, which was never heard\n{never}drink: U1 WireFailed: [^\n]*\n\Z"
    words = "live shared.txt fetches.txt"
    check.wants("live: an office that is never heard", check.run(words, env=env), 1, b"unfinished 1\n", rf"\A{end}")
    theirs, ours = pty.openpty()
    run = started(check, words, stderr=ours, env=env)
    os.close(ours)
    told = b"".join(iter(lambda: read_on(theirs), b"")).replace(b"\r", b"")
    os.close(theirs)
    ran = ended(run)
    ran.err = told
    line = r"drink: 0 of 1 sessions finished; \d+ datagrams came, \d+ went, 0 were refused\n"
    check.wants("live: an office that is never heard, on a terminal", ran, 1, b"unfinished 1\n", rf"\A({line}|{never})+{end}")
    for what, wanted in (("how far it is", line), ("who was never heard", never)):
        check.wants(f"live: told on a terminal, each second: {what}", ran, 1, b"unfinished 1\n", rf"(?s){wanted}.*{wanted}.*{end}")


def broken_calls(first, last):
    """That the calls of these numbers fail that take or send a datagram."""
    return f"datagram {first} {last} {errno.EIO}"


def breaks(check, name, first, last, wanted):
    """How a run ends in which these calls fail, and an audit of what it leaves."""
    ran, _, theirs = beside(check, FEWER_TURNS, "broken.journal", env=check.calls(fail=broken_calls(first, last)))
    check.wants(name, ran, *wanted)
    check.files({"theirs.journal": theirs})
    values = VALUES if MOVED in ran.out else b"value x 100\nvalue y 0\n"
    check.wants(f"{name}: an audit", check.run("audit shared.txt broken.journal theirs.journal"), 0, ran.out + values, b"")


def never_reached(check):
    """A neighbour for which the system takes no frame is told, with the last cause, and not that it was never heard."""
    if not shutil.which("cc"):
        return
    one, other = free_ports(2)
    check.files({"ports.txt": at_ports(PLAN, (one, other)), "fetches.txt": b"session b\ngive read x\nend\n"})
    for cause, words in ((errno.ENETUNREACH, "Network is unreachable"), (errno.EACCES, "Permission denied")):
        ran = check.run("run ports.txt b fetches.txt --turns 100", env=check.calls(fail=f"sendto 1 {ALL} {cause}"))
        said = rf"\Adrink: b\.1 waits for x from a, [^\n]*\ndrink: b never reached a at 127\.0\.0\.1:{one}: {words} \(os error {cause}\)\n\Z"
        check.wants(f"run: a neighbour that was never reached: {words}", ran, 1, b"unfinished 1\n", said)


def heard_alone(check):
    """A neighbour of which something came is told as heard, and how long ago; where the system takes no frame for it, it was never
    reached, whatever came of it."""
    own = b"session b\ngive read x\nend\n"
    for name, told, remarks in (
        ("heard", {}, rb"drink: b\.1 waits for x from a, which was heard less than a second ago\n"),
        ("heard and never reached", {"fail": f"sendto 1 {ALL} {errno.ECONNREFUSED}"}, rb"drink: b\.1 waits for x from a, which was heard less than a second ago\ndrink: b never reached a at 127\.0\.0\.1:\d+: Connection refused \(os error 111\)\n"),
    ):
        if told and not shutil.which("cc"):
            continue
        with Door() as a:
            other = free_ports(1)[0]
            check.files({"ports.txt": at_ports(PLAN, (a.port, other)), "fetches.txt": own})
            run = started(check, "run ports.txt b fetches.txt --turns 200", **({"env": check.calls(**told)} if told else {}))
            while run.poll() is None:
                a.socket.sendto(frame(1, A, B, 0, 0), (HOST, other))
                time.sleep(0.02)
            ran = ended(run)
        check.wants(f"run: a neighbour that was {name}", ran, 1, b"unfinished 1\n", rf"\A{remarks.decode()}\Z")


def never_met(check):
    """Of two neighbours one was never reached, and one never heard: each is told after the sessions, with the system's cause."""
    if not shutil.which("cc"):
        return
    one, other, third = free_ports(3)
    check.files({"row.txt": at_ports(IN_A_ROW + b"record x a b 5 at a\n", (one, other, third)), "fetches.txt": b"session b\ngive read x\nend\n"})
    ran = check.run("run row.txt b fetches.txt --turns 100", env=check.calls(fail=f"sendto 1 {ALL} {errno.ENETUNREACH}"))
    said = f"drink: b.1 waits for x from a, which was never heard\ndrink: b never reached a at 127.0.0.1:{one}: Network is unreachable (os error 101)\ndrink: b never heard c at 127.0.0.1:{third}\n"
    check.wants("run: one neighbour was never reached, and one never heard", ran, 1, b"unfinished 1\n", said.encode())


def without_sockets(check):
    """Each office has its socket before any of them begins: where the system refuses one an address, nothing is done."""
    if not shutil.which("cc"):
        return
    check.files({"plan.txt": PLAN, "own.txt": SESSIONS})
    ran = check.run("run ports.txt a own.txt", env=check.calls(fail=f"bind 1 1 {errno.EACCES}"))
    check.wants("run: an address that it may not have", ran, 1, b"", r"\Adrink: U2 BindFailed: [^\n]* 127\.0\.0\.1:\d+: permission denied\n\Z")
    binds = lambda k, cause: check.run("live plan.txt own.txt --journals unbound", env=check.calls(fail=f"bind {k} {k} {cause}"))
    for k in (1, 2):
        for cause, words in ((errno.EADDRINUSE, "the address is in use"), (errno.EADDRNOTAVAIL, "this machine has no such address"), (errno.EACCES, "permission denied")):
            check.wants(f"live: socket {k} has no address: {words}", binds(k, cause), 1, b"", rf"\Adrink: U2 BindFailed: [^\n]*: {words}\n\Z")
    three = [os.path.join(CASES, "three_offices", it) for it in ("plan.txt", "sessions.txt")]
    for k in (1, 2, 3):
        ran = check.run(["live", *three], env=check.calls(fail=f"bind {k} {k} {errno.EADDRINUSE}"))
        check.wants(f"live: socket {k} of three has no address", ran, 1, b"", r"\Adrink: U2 BindFailed: [^\n]*: the address is in use\n\Z")
    check.equal("live: without a socket no journal is written", os.path.exists(os.path.join(check.work, "unbound", "a.journal")), False)
    check.wants("live: no third socket has an address", binds(3, errno.EADDRINUSE), 0, OWN + b"unfinished 0\n", b"")


def without_threads(check):
    """Each of two offices has two threads: where one of them can't be started the run ends, and what stands is printed."""
    check.files({"plan.txt": PLAN, "own.txt": SESSIONS})
    stands = rf"\A({re.escape(OWN.decode())}unfinished 0|unfinished 1)\n\Z"
    said = r"\A(drink: (a\.1 waits for|a\.1 was not submitted|a never|b never) [^\n]*\n)*drink: U3 NoThread: [^\n]*; the run ended with it, and what was done before is printed\n\Z"

    def alone():
        resource.setrlimit(resource.RLIMIT_NPROC, (1, 1))
        os.setuid(LONELY)

    if not os.geteuid():
        check.wants("live: who may have no second thread", check.run("live plan.txt own.txt", preexec_fn=alone), 1, stands, said)
    if not shutil.which("cc"):
        return
    starts = lambda k: check.run("live plan.txt own.txt", env=check.calls(fail=f"pthread_create {k} {k} {errno.EAGAIN}"))
    for k in range(1, 5):
        check.wants(f"live: thread {k} can't be started", starts(k), 1, stands, said)
    check.wants("live: no fifth thread is started", starts(5), 0, OWN + b"unfinished 0\n", b"")
    words = [os.path.join(CASES, "three_offices", it) for it in ("plan.txt", "sessions.txt")]
    for k in range(1, 7):
        ran = check.run(["live", *words, "--journals", f"threads{k}"], env=check.calls(fail=f"pthread_create {k} {k} {errno.EAGAIN}"))
        check.wants(f"live: thread {k} of three offices can't be started", ran, 1, r"(?m)^unfinished \d\n\Z", r"(?m)^drink: U3 NoThread: [^\n]*\n\Z")
        audit = check.run(["audit", words[0], *(f"threads{k}/{it}.journal" for it in "abc")])
        check.wants(f"live: thread {k} of three offices can't be started: their journals", audit, 0, r"(?m)^unfinished \d$", b"")
    none = check.run(["live", *words], env=check.calls(fail=f"pthread_create 1 {ALL} {errno.EAGAIN}"))
    said = "".join(rf"drink: {it}\.1 was not submitted yet\n" for it in "abc") + "".join(rf"drink: {it} never heard {it_not} at 127\.0\.0\.1:\d+\n" for it, it_not in ("ab", "ba", "bc", "cb"))
    end = "drink: U3 NoThread: no further thread can be started; the run ended with it, and what was done before is printed\n"
    check.wants("live: no thread can be started for three offices", none, 1, b"unfinished 3\n", rf"\A{said}{end}\Z")


def two_processes(check):
    """Two offices, each a process, and an audit of what they wrote down."""
    check.files({"shared.txt": at_ports(SHARED, free_ports(2)), "moves.txt": MOVES})
    running = {it: started(check, f"run shared.txt {it} moves.txt --turns {FEWER_TURNS} --journal {it}.told") for it in "ba"}
    for office, out in (("a", MOVED + b"unfinished 0\n"), ("b", b"unfinished 0\n")):
        check.wants(f"run: two processes: {office}", ended(running[office]), 0, out, b"")
    check.wants("run: two processes: an audit", check.run("audit shared.txt b.told a.told"), 0, MOVED + b"unfinished 0\n" + VALUES, b"")


def two_versions(check):
    """Two offices whose plans have one run and other versions: neither takes anything of the other, and both say why. Under version 2
    both do, texts too."""
    plan, texts = at_ports(SHARED, free_ports(2)), b'session a\nset y = read y + ", b"\ngive read x\nend\n'
    two = plan.replace(b"plan 1", b"plan 2").replace(b"b 0 at b", b'b "a" at b')
    check.files({"shared.txt": plan, "two.txt": two, "both.txt": b"session a\ngive read y\nend\nsession b\ngive read x\nend\n", "texts.txt": texts})
    running = {it: started(check, f"run {file} {it} both.txt --turns {FEWER_TURNS} --journal {it}.apart") for it, file in (("b", "two.txt"), ("a", "shared.txt"))}
    for office, other, record, own, theirs in (("a", "b", "y", 1, 2), ("b", "a", "x", 2, 1)):
        waits = rf"\Adrink: {office}\.1 waits for {record} from {other}[^\n]*\n"
        refuses = rf"drink: {office} takes no frame of {other}: they are of version {theirs}, its own plan is `plan {own}` \(L4 WrongVersion\)\n\Z"
        check.wants(f"run: two versions: {office}", ended(running[office]), 1, b"unfinished 1\n", waits + refuses)
        check.equal(f"run: two versions: what {office} was not told", check.bytes_of(f"{office}.apart").count(b" took "), 0)
    running = {it: started(check, f"run two.txt {it} texts.txt --turns {FEWER_TURNS} --journal {it}.texts") for it in "ba"}
    done = b'a.1 done reads x=100 y="a" writes y="a, b" gives 100\n'
    for office, out in (("a", done + b"unfinished 0\n"), ("b", b"unfinished 0\n")):
        check.wants(f"run: version 2: {office}", ended(running[office]), 0, out, b"")
    check.wants("run: version 2: an audit", check.run("audit two.txt b.texts a.texts"), 0, done + b'unfinished 0\nvalue x 100\nvalue y "a, b"\n', b"")
