"""The cases: texts in files, and beside them what the program prints of them. Where it prints something else the first line that
differs is told, with its file.

tests/cases/NAME/ has plan.txt and sessions.txt, and as expected.txt what `serial` prints of them; or script.txt too, and what `sim`
prints of that, and as OFFICE.journal the journal that the office leaves of it. A folder without a plan or sessions has those of the
folder above it. A folder of examples/ with an expected.txt is a case too; where it has journals and no script, `audit` is run on
these. tests/cases/refusals/KIND.txt has texts of a kind that are refused, and what is said of them."""
import glob, itertools, os, re

from common import PLAN, TOP, shown

CASES = os.path.join(TOP, "tests", "cases")
# How many cases and refused texts there are at least: fewer means that they weren't found.
LEAST_CASES, LEAST_EXAMPLES, LEAST_REFUSALS = 46, 9, 200
# The words that run a text of each kind, under the name `text`.
KINDS = {"plans": "serial text sessions.txt", "sessions": "serial plan.txt text", "texts": "serial plan.txt text", "scripts": "sim plan.txt sessions.txt text", "journals": "audit plan.txt text"}
# What begins a case of a table, or another input of its cases.
START = re.compile(rb"==(?: (\w+\.txt))?\n")
ESCAPES = {b"t": b"\t", b"r": b"\r"}

# Two offices that share two records, and sessions of theirs on both.
BOTH = b"plan 1 run 42\noffice a -\noffice b -\npair a b fork a\nrecord x a b 100 at a\nrecord y a b 0 at b\n"
SUMS = {
    "a": b"session a\nset x = read x + 7\nset y = read y - read x\ngive read x\ngive read y\nend\n",
    "b": b"session b\nrequire read y < read x else 3\nset y = read y + read x * 2\ngive read y\nend\n",
}
NEIGHBOUR = {"a": "b", "b": "a"}

# Refused texts that are long: the kind, what they begin with, how many lines come then, a number in each, what they end with, and what
# is said.
LONG = [
    ("plans", "plan 1 run 42\n", 17, "office o{} -\n", "", "line 18: P7 Limit: `o16` is office 17 of the plan, which may have 16"),
    ("plans", PLAN.decode(), 8, "record r{} a b 1 at b\n", "", "line 13: P7 Limit: `r7` is record 9 of `a` and `b`, and a pair may have 8"),
    ("plans", PLAN.decode(), 20_000, "# as long as it {}\n", "", "P7 Limit: the text has more than 262144 bytes"),
    ("sessions", "session a\n", 17, "set r{} = 1\n", "end\n", "line 18: S6 TooManyRecords: `r16` is record 17 of the session of line 1, which may have 16"),
    ("sessions", "# one\nsession a\n", 257, "let v = {}\n", "end\n", "line 260: S5 TooLong: the session of line 2 has 257 statements, and may have 256"),
    ("sessions", "session a\n", 33, "let v{} = 1\n", "end\n", "line 34: S8 TooManyVariables: `v32` is variable 33 of the session of line 1, which may have 32"),
    (
        "sessions",
        "session a\nrepeat 1\nif 1 == 1\nend\nend\n",
        65,
        "give {}\n",
        "end\n",
        "line 71: S7 TooManyGives: the session of line 1 may come to 65 values that it gives, and 64 are allowed",
    ),
    ("sessions", "session a\n" + "repeat 1\n" * 7, 2, "if 1 == {}\n", "", "line 10: S4 TooDeep: it opens block 9 within one another, and at most 8 may be open"),
    ("sessions", "", 1_025, "session a\n# {}\nend\n", "", "line 3073: S5 TooLong: it begins session 1025 of the text, which may have 1024"),
    ("sessions", "", 100_000, "# as long as it {}\n", "", "S5 TooLong: the text has more than 1048576 bytes"),
    (
        "sessions",
        "session a\n",
        200,
        f"set x = {' + '.join(['-9223372036854775807'] * 3)} + {{}}\n",
        "end\n",
        "line 202: S5 TooLong: the session of line 1 has a canonical text of more than 16384 bytes",
    ),
    ("texts", "session a\n", 181, 'set x = "{:064}"\n', "end\n", "not refused"),
    ("texts", "session a\n", 182, 'set x = "{:064}"\n', "end\n", "line 184: S5 TooLong: the session of line 1 has a canonical text of more than 16384 bytes"),
]


def read(path):
    with open(path, "rb") as file:
        return file.read()


def differs(file, wanted, found):
    """Where what is found isn't what the file has: the first such line."""
    rows = itertools.zip_longest(wanted.splitlines(keepends=True), found.splitlines(keepends=True))
    for number, (has, got) in enumerate(rows, 1):
        if has != got:
            end = lambda it: "the end" if it is None else shown(it.decode(errors="replace"))
            return f"{file}:{number}: {end(has)} is wanted, and not {end(got)}"
    return None


def line_of(file, number):
    """Which line of a script says the event of this number."""
    events = [at for at, line in enumerate(read(file).splitlines(), 1) if not re.match(rb"\s*(#|$)", line)]
    return f", which {os.path.relpath(file, TOP)}:{events[number - 1]} asks for" if number <= len(events) else ""


def compare(check, name, file, ran, found=None):
    """Tells whether a run that is done wrote what the file has."""
    place = os.path.relpath(file, TOP)
    wrong = differs(place, read(file), ran.out if found is None else found)
    script = os.path.join(os.path.dirname(file), "script.txt")
    if wrong and os.path.basename(file) == "expected.txt" and os.path.exists(script):
        wrong += line_of(script, int(re.match(r"[^:]*:(\d+)", wrong)[1]))
    if ran.status != 0 or ran.err:
        wrong = f"{wrong or place}; status 0 and no fault are wanted, and not {ran.status} and {shown(ran.err)}"
    check.say(name, wrong)


def words_of(folder):
    """What is run of a case; the names of its files have their folder before them."""
    has = set(os.listdir(folder))
    plan, sessions = (os.path.join(folder if it in has else os.path.dirname(folder), it) for it in ("plan.txt", "sessions.txt"))
    journals = sorted(it for it in has if it.endswith(".journal"))
    if "script.txt" in has:
        return ["sim", plan, sessions, os.path.join(folder, "script.txt")]
    return ["audit", plan, *(os.path.join(folder, it) for it in journals)] if journals else ["serial", plan, sessions]


def case(check, folder):
    """Runs what stands in a folder; nothing where that is no case."""
    if not os.path.exists(os.path.join(folder, "expected.txt")):
        return 0
    name, words = f"case {os.path.relpath(folder, CASES).removeprefix('../../')}", words_of(folder)
    left = os.path.join(check.work, "left")
    ran = check.run([*words, "--journals", left] if words[0] == "sim" else words)
    compare(check, name, os.path.join(folder, "expected.txt"), ran)
    for file in sorted(glob.glob(os.path.join(folder, "*.journal"))):
        if words[0] == "sim":
            compare(check, f"{name}: {os.path.basename(file)}", file, ran, check.bytes_of(os.path.join(left, os.path.basename(file))))
    if words[0] != "audit":
        again(check, name, os.path.join(folder, "expected.txt"), words)
    return 1


def again(check, name, file, words):
    """The same under a plan of version 2: what is printed differs in the bytes of frames alone."""
    text = read(words[1])
    if not re.search(rb"(?m)^plan 1 ", text):
        return
    check.files({"plan": re.sub(rb"(?m)^plan 1 ", b"plan 2 ", text, count=1)})
    wanted = re.sub(rb"(?m)^(frame \d+ )(\w+)$", lambda it: it[1] + second(it[2]), read(file))
    ran = check.run([words[0], "plan", *words[2:]])
    wrong = differs(f"{os.path.relpath(file, TOP)}, under version 2", wanted, ran.out)
    check.say(f"{name} under version 2", wrong or (None if (ran.status, ran.err) == (0, b"") else f"{ran}"))


def second(frame):
    """The digits of a frame of version 01 as one of version 02: its version, and where it has a value the form of a number before that."""
    return frame[:4] + b"02" + frame[6:58] + (b"01" + frame[58:] if len(frame) == 74 else b"")


def text_of(lines):
    """The text that lines of a case stand for."""
    text = b"".join(line[:-2] if line.endswith(b"\\\n") else line for line in lines)
    return re.sub(rb"\\(t|r|x[0-9A-F]{2})", lambda it: ESCAPES.get(it[1]) or bytes([int(it[1][1:], 16)]), text)


def table(file):
    """The other inputs of a table of refused texts; and of each case the line where it begins, its text, and what is said of it. Of one
    that doesn't end nothing is said."""
    inputs, found, lines = {}, [], None
    for number, line in enumerate([*read(file).splitlines(keepends=True), b"==\n"], 1):
        start = START.fullmatch(line)
        if lines is not None and not (start or line == b"--\n" or line.startswith(b"-- ")):
            lines.append(line)
            continue
        if lines is not None and name:
            inputs[name.decode()] = b"".join(lines)
        elif lines is not None:
            found.append((at, text_of(lines), line[3:]))
        at, name, lines = number, start and start[1], [] if start else None
    return inputs, found


def under_version_2(check, kind, file, inputs, found):
    """Those that have no text, and of which what is said tells nothing of versions or values, are refused alike under a plan of version
    2."""
    changed = lambda it: re.sub(rb"(?m)^plan 1 ", b"plan 2 ", it, count=1)
    if kind != "plans" and changed(inputs["plan.txt"]) == inputs["plan.txt"]:
        return
    check.files({name: changed(it) for name, it in inputs.items()})
    for number, text, said in found:
        is_alike = not re.search(rb"[\"']", text) and not re.search(rb"plan [12]| is no value", said)
        if is_alike and (kind != "plans" or changed(text) != text):
            refused(check, kind, f"{os.path.relpath(file, TOP)}:{number} under version 2", changed(text) if kind == "plans" else text, said)
    check.files(inputs)


def refused(check, kind, place, text, said):
    """Tells whether a text is refused so, beside the other inputs."""
    check.files({"text": text})
    ran = check.run(KINDS[kind])
    if said == b"not refused\n":
        check.wants(f"refusal {place}", ran, 0, None, b"")
    else:
        check.wants(f"refusal {place}", ran, 1, b"", b"drink: text: " + said)


class Long:
    """A script of many sessions of two offices on two records, what is replied but for the bytes of frames, and the sessions that
    finish, in that order."""

    def __init__(self):
        self.script, self.replies, self.finished, self.sent, self.waiting = [], [], [], 0, dict.fromkeys(NEIGHBOUR, 0)

    def asks(self, event, reply):
        self.script.append(event)
        self.replies.append(reply)

    def goes(self, me):
        """The last message of an office goes out and comes to the other, whose messages have all come."""
        other = NEIGHBOUR[me]
        self.sent, self.waiting[me], self.waiting[other] = self.sent + 1, self.waiting[me] + 1, 0
        self.asks(f"send {me} {other} {self.waiting[me]}", "frame")
        self.asks(f"deliver {self.sent}", "taken")

    def begin(self, me, ticket):
        self.asks(f"submit {1 + 'ab'.index(me)}", f"ticket {ticket}")
        self.asks(f"do {me} start", "done")

    def fetch(self, me, record):
        self.asks(f"do {me} askbottle {record}", "done")
        self.goes(me)
        self.asks(f"do {NEIGHBOUR[me]} givebottle {record}", "done")
        self.goes(NEIGHBOUR[me])

    def finish(self, me):
        """The session has its bottles and finishes; the last frame comes again, and six rules are refused."""
        for rule in ("drink", "work 1000", "finish"):
            self.asks(f"do {me} {rule}", "done")
        self.asks(f"deliver {self.sent}", "repeat")
        for rule in ("start", "drink", "work 1", "finish", "askbottle x", "givebottle y"):
            self.asks(f"do {me} {rule}", "refused O1 NotNow")
        self.finished.append(me)


def long_script(check):
    """Nearly twenty-four thousand lines: a thousand sessions finish, an office's after the other's, and one has begun. What is told of them
    is what `serial` prints of the finished ones, in that order."""
    long = Long()
    for ticket in range(1, 501):
        long.begin("a", ticket)
        for record in "xy" if ticket > 1 else "y":
            long.fetch("a", record)
        long.finish("a")
        long.begin("b", ticket)
        for record in "xy":
            long.fetch("b", record)
        long.finish("b")
    long.begin("a", 501)
    long.asks("do a askbottle x", "done")
    long.goes("a")
    check.files({"plan.txt": BOTH, "sessions.txt": SUMS["a"] + SUMS["b"], "alone.txt": b"".join(SUMS[it] for it in long.finished)})
    check.files({"script.txt": "".join(f"{it}\n" for it in long.script).encode()})
    check.equal("a long script: lines", len(long.script), 23_999)
    alone = check.run("serial plan.txt alone.txt")
    check.wants("a long script: its sessions alone", alone, 0, r"\Aa\.1 done ", b"")
    ran = check.run("sim plan.txt sessions.txt script.txt")
    told = alone.out.replace(b"value x", b"unfinished 1\nvalue x")
    wanted = "".join(f"{it}\n" for it in long.replies).encode() + told
    check.equal("a long script: how it ended", (ran.status, ran.err), (0, b""))
    check.say("a long script", differs("its transcript", wanted, re.sub(rb"(?m)^frame .*$", b"frame", ran.out)))


def cases(check):
    below = lambda top: sorted(os.path.dirname(it) for it in glob.glob(os.path.join(top, "**", ""), recursive=True))
    for what, top, least in (("cases", CASES, LEAST_CASES), ("examples", os.path.join(TOP, "examples"), LEAST_EXAMPLES)):
        count = sum(case(check, it) for it in below(top))
        check.say(f"{what}: {count}", None if count >= least else f"at least {least} are wanted")
    long_script(check)
    refusals(check)


def refusals(check):
    """The tables of refused texts, and those that are long, beside the inputs of their table."""
    count = 0
    for kind in KINDS:
        file = os.path.join(CASES, "refusals", f"{kind}.txt")
        inputs, found = table(file)
        check.files(inputs)
        for number, text, said in found:
            refused(check, kind, f"{os.path.relpath(file, TOP)}:{number}", text, said)
        under_version_2(check, kind, file, inputs, found)
        for at, (_, head, lines, line, tail, said) in enumerate((it for it in LONG if it[0] == kind), 1):
            text = head + "".join(line.format(it) for it in range(lines)) + tail
            refused(check, kind, f"{kind}, long text {at}", text.encode(), f"{said}\n".encode())
        count += len(found)
    check.say(f"refusals: {count}", None if count >= LEAST_REFUSALS else f"at least {LEAST_REFUSALS} are wanted")
