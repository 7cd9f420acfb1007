"""What journals tell together; journals that break off, that are full, and of some length."""
import glob, itertools, os, re

from cases import CASES
from command_line import EXAMPLES
from common import AUDITED, JOURNALS, PLAN, SESSIONS, frame
from sockets import SHARED

MIB = 1_048_576
MOVED = b"a.1 done reads x=100 y=0 writes x=70 y=30 gives 70 30\nunfinished 0\nvalue x 70\nvalue y 30\n"
# What three sessions come to; an audit goes in rounds over the offices, each as far as it can, and the one between waits for both.
THREE = b"a.1 done reads r=1 writes r=8 gives 8\nc.1 done reads s=2 writes s=7 gives 7\nb.1 done reads r=8 s=7 writes r=15 s=0 gives 15\nunfinished 0\nvalue r 15\nvalue s 0\n"
# Sessions of some 15 KB each: lines of 31 greatest numbers, which come to one of them.
LONG_SESSIONS, LONG_LINES, LONG_TERMS = 64, 23, 31
GREATEST = 2**63 - 1
# How many events an office accepts.
MOST_EVENTS = 1_000_000
# How much of a word is shown, how long a line is, and bytes that may not stand in one: the least and the greatest of each kind.
SHOWN, LONGEST, BAD = 60, 200, (0x00, 0x08, 0x0B, 0x1F, 0x7F, 0x80, 0xFF)

# Journals of one office, where the other's has its first line alone, and what an audit prints.
OF_A, NOTHING = b"journal 1 run 42 office a\n", b"unfinished 0\nvalue x 100\nvalue y 0\n"
READ = (
    (b"journal 1 run 42 office b", NOTHING),
    (b"\tjournal  1 run 00042 office b \r\n", NOTHING),
    (OF_A + b"00 do start = done\n 015 do work 0001000 = done", b"unwoven a 1\n"),
    (OF_A + b"0 took 445001010000002A000100000000000000010000000000000000030001 = taken\n", b"unwoven a 1\n"),
    (OF_A + b"0 took 4450 = taken\n", b"unwoven a 1\n"),
    (OF_A + b"0 do start = done\n0 send b 1 = frame 4450\n0 do start = done\n", b"unwoven a 1\n"),
    (OF_A + b"0 send b 0 = frame 445001020000002a000100000000000000000000000000000000\n0 took " + b"00" * 40 + b" = early\n", b"unwoven a 2\n"),
    (OF_A + b"0 took 445001010000002a010000000000000000010000000000000001040001000000000000000000 = taken\n", b"unwoven a 1\n"),
    (OF_A + b"0 submit 232061206e6f74650a73657373696f6e2020610a202067697665202831290a656e64 = ticket 4294967295\n", b"unwoven a 1\n"),
    (OF_A + b"0 submit 232061206e6f74650a73657373696f6e2020610a202067697665202831290a656e64 = ticket 1\n", b"unfinished 1\nvalue x 100\nvalue y 0\n"),
    (OF_A + b"0 submit 73657373696f6e20620a6769766520320a656e640a = ticket 1\n", b"unwoven a 1\n"),
    (OF_A + b"0 send b 9223372036854775807 = frame 445001020000002a000100000000000000000000000000000001\n", b"unwoven a 1\n"),
)
# Two offices that share nothing, and the journal of the first.
APART = b"plan 1 run 7\noffice a -\noffice b -\n"
ALONE = (
    (
        b"journal 1 run 7 office a\n0 submit 73657373696f6e20610a6769766520310a656e640a = ticket 1\n0 do start = done\n0 do hungry = done\n"
        b"0 do eat = done\n0 do drink = done\n0 do leave = done\n0 do work 9 = done\n0 do finish = done\n",
        b"a.1 done reads - writes - gives 1\nunfinished 0\n",
    ),
    (b"journal 1 run 7 office a\n1 submit 73657373696f6e20610a6769766520310a656e640a = ticket 1\n2 withdraw 1 = done\n", b"unfinished 0\n"),
)
# Two journals, and what is said first.
OF_B, ODD = b"journal 1 run 42 office b\n", b"journal 1 run 42 office b\n0 took 4 = taken\n"
FIRST = (
    (OF_B, OF_B, r"2\.journal: J2 JournalHeader"),
    (OF_A, OF_A + b"0 do start = done\n", r"2\.journal: J2 JournalHeader"),
    (OF_B, OF_A.replace(b"42", b"43"), r"2\.journal: line 1: J2 JournalHeader"),
    (OF_B, OF_A.replace(b" a", b" c"), r"2\.journal: line 1: J2 JournalHeader"),
    (OF_B.replace(b"42", b"43"), ODD, r"1\.journal: line 1: J2 JournalHeader"),
    (OF_A, ODD, r"2\.journal: line 2: J1 Journal"),
    (OF_B, ODD, r"2\.journal: line 2: J1 Journal"),
    (OF_B, b"", r"2\.journal: J1 Journal"),
    (ODD, b"", r"1\.journal: line 2: J1 Journal"),
)


def audits(check):
    """What journals tell together."""
    changed = JOURNALS["a.journal"].replace(b"0 do start = done\n", b"")
    check.files({"changed.journal": changed, "upper.journal": JOURNALS["a.journal"].replace(SESSIONS.hex().encode(), SESSIONS.hex().upper().encode())})
    for words in ("a.journal b.journal", "b.journal a.journal", "upper.journal b.journal"):
        check.wants(f"audit plan.txt {words}", check.run(f"audit plan.txt {words}"), 0, AUDITED, b"")
    for example in EXAMPLES:
        journals = sorted(glob.glob(f"examples/{example}/*.journal", root_dir=check.work))
        if journals:
            check.wants(f"audit of the journals of {example}", check.run(["audit", f"examples/{example}/plan.txt", *journals]), 0, r"\A(\S+ done .*\n)+unfinished 0\n(value .*\n)+\Z", b"")
    check.wants("an entry that no schedule has", check.run("audit plan.txt changed.journal b.journal"), 1, b"unwoven a 2\n", b"")
    given = b"---\n".join((PLAN, JOURNALS["b.journal"], JOURNALS["a.journal"]))
    check.wants("audit - - -", check.run("audit - - -", given), 0, AUDITED, b"")
    check.wants("audit - b.journal -", check.run("audit - b.journal -", PLAN + b"---\n" + JOURNALS["a.journal"]), 0, AUDITED, b"")
    check.wants("audit - - - <&-", check.shell("./drink audit - - - <&-"), 1, b"", r"\Adrink: -: X4 ReadFailed: [^\n]*closed[^\n]*\n\Z")
    check.wants("audit > /dev/full", check.shell("./drink audit plan.txt a.journal b.journal > /dev/full"), 1, b"", r"\Adrink: X5 WriteFailed: [^\n]*\n\Z")


def whole(check):
    """The journals of a session that takes a bottle from a neighbour, as they are, cut short, and changed: a schedule has them, or they
    name the first entry that none has, or a line or a header is faulty."""
    a, b = (it.splitlines(keepends=True) for it in of_case("moved_between_records"))
    assert a[-1].endswith(b" = repeat\n") and (len(a), len(b)) == (13, 4)
    # Without the frame that came again.
    a, entry = a[:-1], b"0 took 445001010000002a000100000000000000010000000000000000030001 = taken\n"
    assert b[1] == entry
    for name, ours, theirs, status, out, err in (
        ("whole", a, b, 0, MOVED, ""),
        ("a neighbour that wrote nothing down", a, b[:1], 1, b"unwoven a 7\n", ""),
        ("bytes that are no frame", a, [b[0], b"0 took 4450 = taken\n"], 1, b"unwoven b 1\n", ""),
        ("digits of a frame in upper case", a, [b[0], entry.replace(b"2a", b"2A"), *b[2:]], 0, MOVED, ""),
        ("five entries", a[:6], b, 1, b"unwoven b 1\n", ""),
        ("six entries", a[:7], b, 0, b"unfinished 1\nvalue x 100\nvalue y 0\n", ""),
        ("a rule left out", [it for it in a if it != b"0 do hungry = done\n"], b, 1, b"unwoven a 3\n", ""),
        ("another record asked for", a, [b[0], entry.replace(b"0001 =", b"0000 ="), *b[2:]], 1, b"unwoven b 1\n", ""),
        ("an odd digit", a, [b[0], b"0 took 4 = taken\n", *b[1:]], 1, b"", r"\Adrink: theirs\.journal: line 2: J1 Journal: "),
        ("twice the same office", a, a, 1, b"", r"\Adrink: theirs\.journal: J2 JournalHeader: "),
        ("another run", a, [b[0].replace(b"42", b"43"), *b[1:]], 1, b"", r"\Adrink: theirs\.journal: line 1: J2 JournalHeader: "),
    ):
        check.files({"moved.txt": SHARED, "ours.journal": b"".join(ours), "theirs.journal": b"".join(theirs)})
        check.wants(f"audit: {name}", check.run("audit moved.txt ours.journal theirs.journal"), status, out, err or b"")
        if not err:
            check.wants(f"audit: {name}, the other first", check.run("audit moved.txt theirs.journal ours.journal"), status, out, b"")
    three = os.path.join(CASES, "three_offices")
    texts = [os.path.join(three, it) for it in ("plan.txt", "sessions.txt", "script.txt")]
    check.wants("audit: the journals of three offices", check.run(["sim", *texts, "--journals", "three"]), 0, None, b"")
    for name, folder in (("left", "three"), ("typed", os.path.join(CASES, "three_journals"))):
        audit = lambda order: check.run(["audit", texts[0], *(os.path.join(folder, f"{it}.journal") for it in order)])
        for order in itertools.permutations("abc"):
            check.wants(f"audit: the journals of {' '.join(order)} as they were {name}", audit(order), 0, THREE, b"")
        for order in ("acc", "aac"):
            check.wants(f"audit: the journals of {' '.join(order)} as they were {name}", audit(order), 1, b"", rf"\Adrink: [^\n]*/{order[1]}\.journal: J2 JournalHeader: ")


def read_alone(check):
    """The journal of one office of two: read, whichever words it spells a frame or a session with; then the first entry that no schedule
    has is named."""
    check.files({"moved.txt": SHARED})
    for text, out in READ:
        other = b"a" if b"office b" in text else b"b"
        check.files({"alone.journal": text, "silent.journal": b"journal 1 run 42 office %s\n" % other})
        check.wants(f"audit: {text[-60:]!r}", check.run("audit moved.txt alone.journal silent.journal"), 1 if b"unwoven" in out else 0, out, b"")
    check.files({"apart.txt": APART, "silent.journal": b"journal 1 run 7 office b\n"})
    for text, out in ALONE:
        check.files({"alone.journal": text})
        for words in ("alone.journal silent.journal", "silent.journal alone.journal"):
            check.wants(f"audit: {words}: {out!r}", check.run(f"audit apart.txt {words}"), 0, out, b"")


def first_faults(check):
    """Of two journals the first that is at fault is told."""
    for first, second, said in FIRST:
        check.files({"moved.txt": SHARED, "1.journal": first, "2.journal": second})
        check.wants(f"audit: {first[:40]!r} and {second[-40:]!r}", check.run("audit moved.txt 1.journal 2.journal"), 1, b"", rf"\Adrink: {said}\b[^\n]*\n\Z")


def of_case(name):
    """The journals of a case, by its offices."""
    for file in sorted(glob.glob(os.path.join(CASES, name, "*.journal"))):
        with open(file, "rb") as journal:
            yield journal.read()


def torn(check):
    """A journal that breaks off at each of its bytes: after a whole line it is read as what it holds; within a line that line is
    told, as one that is none, or, where a frame's digits break off, as an entry that no schedule has."""
    made = b"0 send b 0 = frame %s\n" % frame(1, 0, 1, 0, 0).hex().encode()
    whole = JOURNALS["a.journal"] + made
    lines = whole.splitlines(keepends=True)
    reports = [b"unfinished 0\nvalue x 5\n", *[b"unfinished 1\nvalue x 5\n"] * 4, AUDITED, AUDITED]
    wrong = []
    for cut in range(len(whole) + 1):
        text = whole[:cut]
        count, rest = text.count(b"\n"), text.split(b"\n")[-1]
        if count == len(lines) or rest + b"\n" == lines[count] or (not rest and count > 0):
            wanted = (0, reports[count - 1 + bool(rest)])
        elif re.fullmatch(rb"0 send b 0 = frame (\w\w)+", rest):
            wanted = (1, b"unwoven a %d\n" % count)
        else:
            wanted = (1, b"")
        ran = check.run("audit plan.txt - b.journal", text)
        told = rb"\Adrink: -: (line %d: )?J1 Journal: " % (count + 1)
        if (ran.status, ran.out) != wanted or (ran.err != b"" if wanted[1] else not re.match(told, ran.err)):
            wrong.append(f"{text[-30:]!r}: {wanted} is wanted; {ran}")
    check.say(f"torn: a journal of {len(whole)} bytes, at each of them", f"{len(wrong)}, as {wrong[0]}" if wrong else None)


def full(check):
    """An office has room for four entries more: a session, a step of `settle`, and two of the three rules that `advance` has to do.
    Then its journal is full: `advance` is refused at the third, and so are `settle`, what comes and the rule that is next; what can't be
    done is refused for that. All before it stands, and an audit reads its journal whole."""
    script = b"send a b 0\n" + b"deliver 1\n" * (MOST_EVENTS - 4) + b"submit 1\nsettle 1\nadvance b 9\nsettle 9\nadvance b 1\ndeliver 1\ndo b finish\n"
    script += b"do b eat\ndo b start\nwithdraw b 1\nsend b a 1\n"
    check.files({"theirs.txt": b"session b\ngive 1\nend\n", "full.txt": script})
    made = frame(1, 0, 1, 0, 0).hex().encode()
    wanted = b"frame 1 %s\n" % made + b"acked\n" * (MOST_EVENTS - 4) + b"ticket 1\nsettled 1 open\n" + b"refused O4 JournalFull\n" * 5 + b"refused O1 NotNow\n" * 4 + b"unfinished 1\nvalue x 5\n"
    check.wants("full: an office that accepted a million events", check.run("sim plan.txt theirs.txt full.txt --journals full"), 0, wanted, b"")
    journal = check.bytes_of("full/b.journal")
    check.equal("full: how many lines its journal has", journal.count(b"\n"), MOST_EVENTS + 1)
    check.equal("full: what stands before what was refused", journal.splitlines()[-3:], [b"0 do start = done", b"0 do drink = done", b"0 do work 256 = done"])
    check.wants("full: an audit of its journal", check.run("audit plan.txt full/a.journal full/b.journal"), 0, b"unfinished 1\nvalue x 5\n", b"")


def long_sessions():
    """A text that is nearly as long as one may be, each of its sessions in canonical form, and what each does: it adds 1."""
    sum_of = " + ".join([f"{GREATEST} - {GREATEST}"] * (LONG_TERMS // 2) + [str(GREATEST)])
    body = f"let v = {sum_of}\n" * LONG_LINES + "set x = read x + 1\ngive read x\n"
    lines = "".join(f"a.{it} done reads x={it + 4} writes x={it + 5} gives {it + 5}\n" for it in range(1, LONG_SESSIONS + 1))
    return [f"session a\n{body}end\n"] * LONG_SESSIONS, lines + "unfinished 0\n", f"value x {LONG_SESSIONS + 5}\n"


def long_journals(check):
    """Journals of more than 1 MiB: they have what was submitted, to the byte, and an audit reads all of them."""
    sessions, lines, value = long_sessions()
    text, told = "".join(sessions), (lines + value).encode()
    check.say(f"long journals: sessions of {len(text)} bytes", None if MIB * 15 // 16 < len(text) <= MIB else "just under 1 MiB are wanted")
    submits = "".join(f"submit {it}\n" for it in range(1, LONG_SESSIONS + 1))
    check.files({"plan.txt": PLAN.replace(b"at a", b"at b"), "sessions.txt": text.encode(), "script.txt": f"{submits}settle 1000000\n".encode()})
    tickets = "".join(f"ticket {it}\n" for it in range(1, LONG_SESSIONS + 1))
    wanted = {"sim plan.txt sessions.txt script.txt": rf"\A{tickets}settled \d+ finished\n{re.escape(told.decode())}\Z", "live plan.txt sessions.txt": lines.encode()}
    for words, out in wanted.items():
        folder = words.split()[0]
        check.wants(f"long journals: {words}", check.run(f"{words} --journals {folder}"), 0, out, b"")
        journal = check.bytes_of(f"{folder}/a.journal")
        check.say(f"long journals: {words}: {len(journal)} bytes", None if len(journal) > 3 * MIB // 2 else "more than 1.5 MiB are wanted")
        found = re.findall(rb"(?m)^[01] submit (\w+) = ticket (\d+)$", journal)
        check.equal(f"long journals: {words}: what was submitted", found, [(it.encode().hex().encode(), b"%d" % at) for at, it in enumerate(sessions, 1)])
        check.wants(f"long journals: {words}: an audit", check.run(f"audit plan.txt {folder}/b.journal {folder}/a.journal"), 0, told, b"")
        given = b"---\n".join((check.bytes_of("plan.txt"), journal, check.bytes_of(f"{folder}/b.journal")))
        check.wants(f"long journals: {words}: an audit of the standard input", check.run("audit - - -", given), 0, told, b"")


def words_and_bytes(check):
    """Words of each length, and a byte that may not stand at each place of a line: the word is told, or the column."""
    line_of = lambda text: JOURNALS["b.journal"] + text + b"\n"
    told = lambda text: check.run("audit plan.txt a.journal -", line_of(text))
    said = lambda text, ran: None if ran.status == 1 and ran.out == b"" and ran.err.startswith(b"drink: -: line 2: J1 Journal: " + text) else str(ran)
    wrong = {}
    for length in range(1, LONGEST):
        word = b"w" * length
        shown = word if length <= SHOWN else word[:SHOWN] + b"..."
        wrong[f"a word of {length} letters"] = said(b"`%s` is no rule; " % shown, told(b"0 do %s = done" % word))
        digits = word.replace(b"w", b"a") + b"0" * (length % 2 == 0)
        fault = b"has %d digits, and each byte is two of them" % len(digits)
        wrong[f"{length} digits"] = said(b"`" + (digits if len(digits) <= SHOWN else digits[:SHOWN] + b"...") + b"` " + fault, told(b"0 submit %s = ticket 1" % digits))
        parts = JOURNALS["a.journal"].replace(b" = done", b" " * length + b"= done" + b"\t" * length).replace(b"0 do", b" " * length + b"0 do")
        ran = check.run("audit plan.txt - b.journal", parts)
        wrong[f"{length} spaces"] = None if (ran.status, ran.out, ran.err) == (0, AUDITED, b"") else str(ran)
    for byte, at in itertools.product(BAD, range(LONGEST)):
        line = (b"0 do " + b"w" * LONGEST)[:LONGEST]
        text = b"byte %02X in column %d is neither a tab nor printable ASCII" % (byte, at + 1)
        wrong[f"byte {byte:02X} in column {at + 1}"] = said(text, told(line[:at] + bytes([byte]) + line[at + 1 :]))
    amiss = {name: it for name, it in wrong.items() if it}
    check.say(f"journals: words and bytes at each place: {len(wrong)}", f"{len(amiss)}, as {next(iter(amiss.items()))}" if amiss else None)
    comments = b"".join(b"#" + b"c" * at + bytes([byte]) + b"c" * (LONGEST - at) + b"\n" for byte in range(256) if byte != 10 for at in range(LONGEST))
    check.wants("journals: each byte at each place of a comment", check.run("audit plan.txt a.journal -", JOURNALS["b.journal"] + comments), 0, AUDITED, b"")
