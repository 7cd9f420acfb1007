"""What the program says of its inputs: texts at their limits, and the word that is at fault."""
from common import AUDITED, JOURNALS, PLAN, SCRIPT, SESSIONS, SETTLED, at_ports, free_ports

# The longest text of each input, in bytes, and what one that is longer is refused for. A journal may be longer than any of them.
LIMITS = {"plan.txt": (262_144, "P7 Limit"), "sessions.txt": (1_048_576, "S5 TooLong"), "script.txt": (16_777_216, "X1 Script")}
MIB = 1_048_576

HEAD = "".join(PLAN.decode().splitlines(keepends=True)[:4])
session = lambda lines: "session a\n" + lines + "end\n"
# Of what there is a limit: the file, its text with so many, the most, and how one more is refused.
COUNTS = [
    ("offices", "plan.txt", lambda n: PLAN.decode() + "".join(f"office o{it} -\n" for it in range(n - 2)), 16, "line 20: P7 Limit"),
    ("records of a pair", "plan.txt", lambda n: HEAD + "".join(f"record {'x' * it} a b 5 at a\n" for it in range(1, n + 1)), 8, "line 13: P7 Limit"),
    ("sessions", "sessions.txt", lambda n: session("") * n, 1024, "line 2049: S5 TooLong"),
    ("statements", "sessions.txt", lambda n: session("let v = 1\n" * n), 256, "line 259: S5 TooLong"),
    ("cost", "sessions.txt", lambda n: session("repeat 9999\nend\n" * (n == 10_000) + "repeat 10000\nend\n" * (n > 10_000)), 10_000, "line 4: S5 TooLong"),
    ("depth", "sessions.txt", lambda n: session(f"let v = {'(' * (n - 1)}1{')' * (n - 1)}\n"), 32, "line 2: S4 TooDeep"),
    ("blocks", "sessions.txt", lambda n: session("if 1 == 1\n" * n + "end\n" * n), 8, "line 10: S4 TooDeep"),
    ("gives", "sessions.txt", lambda n: session("give 1\n" * n), 64, "line 67: S7 TooManyGives"),
    ("variables", "sessions.txt", lambda n: session("".join(f"let v{it} = 1\n" for it in range(n))), 32, "line 34: S8 TooManyVariables"),
    ("instructions of work", "script.txt", lambda n: f"do a work {n}\n", 1000, "line 1: X1 Script"),
    ("rules of advance", "script.txt", lambda n: f"advance a {n}\n", 1000, "line 1: X1 Script"),
    ("steps of settle", "script.txt", lambda n: f"settle {n}\n", 1_000_000, "line 1: X1 Script"),
]

THREE = b"plan 1 run 1\noffice a -\noffice b -\noffice c -\npair a b fork a\npair b c fork b\nrecord x a b 5 at a\n"
# The words of each command, in which inputs have the names of their files.
COMMANDS = (
    "serial plan.txt sessions.txt",
    "sim plan.txt sessions.txt script.txt",
    "random plan.txt sessions.txt --seed 1 --loss 0 --steps 9",
    "run plan.txt a sessions.txt --turns 1",
    "live plan.txt sessions.txt",
    "audit plan.txt a.journal b.journal c.journal",
)
# A text of no input, and what it is refused for as which.
NO_TEXT = b"nothing of this\n"
RULES = {"plan.txt": "P1 Header", "sessions.txt": "S1 Syntax", "script.txt": "X1 Script", **dict.fromkeys(("a.journal", "b.journal", "c.journal"), "J1 Journal")}


def padded(text, size):
    """The text with comments after it, so that it has so many bytes."""
    line = b"#" * 63 + b"\n"
    more = line * (size // len(line) + 1)
    return text + more[: size - len(text)]


def limits(check):
    """An input of just its longest text is taken, and one byte more is refused; on files and on the standard input."""
    texts = {"plan.txt": PLAN, "sessions.txt": SESSIONS, "script.txt": SCRIPT}
    longest = {name: padded(text, LIMITS[name][0]) for name, text in texts.items()}
    check.files(longest)
    check.wants("limits: each text as long as it may be", check.run("sim plan.txt sessions.txt script.txt"), 0, SETTLED, b"")
    # The cut is a line of its own.
    lines = [it[:-1] + b"\n" for it in longest.values()]
    check.wants("limits: each of them on the standard input", check.run("sim - - -", b"---\n".join(lines)), 0, SETTLED, b"")
    for at, (name, (limit, rule)) in enumerate(LIMITS.items()):
        check.files({**texts, name: padded(texts[name], limit + 1)})
        refused = rf": {rule}: [^\n]*\n\Z"
        check.wants(f"limits: {name} of {limit + 1} bytes", check.run("sim plan.txt sessions.txt script.txt"), 1, b"", rf"\Adrink: {name}{refused}")
        given = [padded(text, limit + 1)[:-1] + b"\n" if it == name else text for it, text in texts.items()]
        check.wants(f"limits: {name} of {limit + 1} bytes on the standard input", check.run("sim - - -", b"---\n".join(given)), 1, b"", rf"\Adrink: -{refused}")
    counts(check)
    check.files({**texts, "long.journal": padded(JOURNALS["a.journal"], 17 * MIB)})
    check.wants("limits: a journal of 17 MiB", check.run("audit plan.txt b.journal long.journal"), 0, AUDITED, b"")
    given = b"---\n".join((PLAN, padded(JOURNALS["a.journal"], 17 * MIB)[:-1] + b"\n", JOURNALS["b.journal"]))
    check.wants("limits: a journal of 17 MiB on the standard input", check.run("audit - - -", given), 0, AUDITED, b"")


def counts(check):
    """Of each thing as many as there may be, and one more."""
    texts, words = {"plan.txt": PLAN, "sessions.txt": SESSIONS, "script.txt": b""}, "sim plan.txt sessions.txt script.txt"
    for name, file, text_with, most, refusal in COUNTS:
        check.files({**texts, file: text_with(most).encode()})
        check.wants(f"limits: {name}: {most}", check.run(words), 0, r"unfinished 0\n(value x+ 5\n)+\Z", b"")
        check.files({**texts, file: text_with(most + 1).encode()})
        check.wants(f"limits: {name}: {most + 1}", check.run(words), 1, b"", rf"\Adrink: {file}: {refusal}: [^\n]*\n\Z")


def named(check):
    """Of each command each input in turn is faulty, isn't there, or is faulty on the standard input: its word is named, and no other."""
    plan = at_ports(THREE, free_ports(3))
    journals = {f"{it}.journal": b"journal 1 run 1 office %s\n" % it.encode() for it in "abc"}
    check.files({"plan.txt": plan, "sessions.txt": SESSIONS, "script.txt": SCRIPT, "faulty": NO_TEXT, **journals})
    for command in COMMANDS:
        words = command.split()
        for at, word in enumerate(words):
            if word not in RULES:
                continue
            rule = RULES[word]
            instead = lambda it: [*words[:at], it, *words[at + 1 :]]
            check.wants(f"named: {command}: {word} is faulty", check.run(instead("faulty")), 1, b"", rf"\Adrink: faulty: line 1: {rule}: [^\n]*\n\Z")
            check.wants(f"named: {command}: {word} is faulty, on the standard input", check.run(instead("-"), NO_TEXT), 1, b"", rf"\Adrink: -: line 1: {rule}: [^\n]*\n\Z")
            check.wants(f"named: {command}: {word} isn't there", check.run(instead("no.file")), 1, b"", r"\Adrink: no.file: X4 ReadFailed: [^\n]*: no such file\n\Z")
