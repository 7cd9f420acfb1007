"""The command line: which text goes to which stream, with which status; each choice of words that are -; and help, beside the manual and
the definitions."""
import itertools, os, re

from common import ANSWER, JOURNALS, PLAN, SESSIONS, TOP, USUAL

EXAMPLES = ("branch_day", "branch_ledger", "lease_names", "lease_table", "monthly_settlement", "shared_stock", "till_and_safe", "two_desks")
NOBODY = 65534

# Words, the files in place of plan.txt, sessions.txt and script.txt, and how the fault begins.
REFUSED = [
    ("a plan without its first line", "serial plan.txt sessions.txt", {"plan.txt": b"office a -\n"}, "plan.txt: line 1: P1 Header"),
    ("an empty plan", "serial plan.txt sessions.txt", {"plan.txt": b""}, "plan.txt: P1 Header"),
    ("a line of a plan", "serial plan.txt sessions.txt", {"plan.txt": PLAN + b"offices\n"}, "plan.txt: line 6: P2 Line"),
    ("an office twice", "serial plan.txt sessions.txt", {"plan.txt": PLAN + b"office a -\n"}, "plan.txt: line 6: P3 NameTwice"),
    ("an office of a plan", "serial plan.txt sessions.txt", {"plan.txt": PLAN + b"pair a c fork a\n"}, "plan.txt: line 6: P4 UnknownName"),
    ("a pair with itself", "serial plan.txt sessions.txt", {"plan.txt": PLAN + b"pair a a fork a\n"}, "plan.txt: line 6: P5 SelfPair"),
    ("a pair twice", "serial plan.txt sessions.txt", {"plan.txt": PLAN + b"pair b a fork a\n"}, "plan.txt: line 6: P6 PairTwice"),
    ("one office", "serial plan.txt sessions.txt", {"plan.txt": b"plan 1 run 1\noffice a -\n"}, "plan.txt: P7 Limit"),
    (
        "a ring",
        "serial plan.txt sessions.txt",
        {"plan.txt": b"plan 1 run 1\noffice a -\noffice b -\noffice c -\npair a b fork a\npair b c fork b\npair c a fork c\n"},
        "plan.txt: P8 Ring",
    ),
    ("a line of a session", "serial plan.txt sessions.txt", {"sessions.txt": b"session a\ngive\nend\n"}, "sessions.txt: line 2: S1"),
    ("an office of a session", "serial plan.txt sessions.txt", {"sessions.txt": b"session c\nend\n"}, "sessions.txt: line 1: S2 UnknownName"),
    ("sessions under sim", "sim plan.txt sessions.txt script.txt", {"sessions.txt": b"session c\nend\n"}, "sessions.txt: line 1: S2 UnknownName"),
    ("a script", "sim plan.txt sessions.txt script.txt", {"script.txt": b"submit 1\nmake\n"}, "script.txt: line 2: X1 Script"),
    ("the plan first", "sim plan.txt sessions.txt script.txt", {"plan.txt": b"", "sessions.txt": b"x", "script.txt": b"x"}, "plan.txt: P1 Header"),
    ("sessions under random", "random plan.txt sessions.txt --seed 1 --loss 0 --steps 9", {"sessions.txt": b"session c\nend\n"}, "sessions.txt: line 1: S2 UnknownName"),
    ("sessions under live", "live plan.txt sessions.txt", {"sessions.txt": b"session c\nend\n"}, "sessions.txt: line 1: S2 UnknownName"),
    ("an office that there isn't, before the sessions", "run plan.txt c nowhere.txt", {}, "c: X6 NoSuchOffice"),
    ("an office without an address, before the sessions", "run plan.txt b nowhere.txt", {"plan.txt": PLAN.replace(b"a -", b"a 127.0.0.1:9")}, "plan.txt: X2 NoAddress: the office `b`"),
    ("a neighbour without one", "run plan.txt a sessions.txt", {"plan.txt": PLAN.replace(b"a -", b"a 127.0.0.1:9")}, "plan.txt: X2 NoAddress: the office `b`"),
    ("the plan before OFFICE", "run plan.txt c sessions.txt", {"plan.txt": b""}, "plan.txt: P1 Header"),
    ("a plan without an end", "serial /dev/zero sessions.txt", {}, "/dev/zero: "),
    ("a journal without a line", "audit plan.txt a.journal b.journal", {"b.journal": b""}, "b.journal: J1 Journal"),
    ("a line of a journal", "audit plan.txt a.journal b.journal", {"b.journal": JOURNALS["b.journal"] + b"0 took 4 = taken\n"}, "b.journal: line 2: J1 Journal"),
    ("a journal of another run", "audit plan.txt b.journal a.journal", {"b.journal": b"journal 1 run 2 office b\n"}, "b.journal: line 1: J2 JournalHeader"),
    ("an office's journal twice", "audit plan.txt a.journal a.journal nowhere.txt", {}, "a.journal: J2 JournalHeader"),
    ("an office without a journal", "audit plan.txt b.journal", {}, "J2 JournalHeader: no journal is of the office `a`"),
    ("the plan before the journals", "audit plan.txt nowhere.txt", {"plan.txt": b""}, "plan.txt: P1 Header"),
]

# Words, the file that the fault names, and what it says of the cause.
UNREAD = [
    ("serial nowhere.txt sessions.txt", "nowhere.txt", "no such file"),
    ("serial plan.txt nowhere.txt", "nowhere.txt", "no such file"),
    ("sim plan.txt sessions.txt nowhere.txt", "nowhere.txt", "no such file"),
    ("sim nowhere.txt sessions.txt script.txt", "nowhere.txt", "no such file"),
    ("serial folder sessions.txt", "folder", "folder"),
    ("serial plan.txt folder", "folder", "folder"),
    ("sim plan.txt sessions.txt folder", "folder", "folder"),
    ("serial plan.txt/under sessions.txt", "plan.txt/under", ""),
    ("live plan.txt nowhere.txt", "nowhere.txt", "no such file"),
    ("run nowhere.txt a sessions.txt", "nowhere.txt", "no such file"),
    ("audit nowhere.txt a.journal", "nowhere.txt", "no such file"),
    ("audit plan.txt a.journal nowhere.txt", "nowhere.txt", "no such file"),
    ("audit plan.txt a.journal folder", "folder", "folder"),
    ("serial /proc/self/mem sessions.txt", "/proc/self/mem", ""),
]

FAULTY = ["", "seriel plan.txt sessions.txt", "serial", "serial plan.txt", "serial plan.txt sessions.txt script.txt",
          "sim plan.txt sessions.txt", "sim plan.txt sessions.txt script.txt more.txt", "random plan.txt sessions.txt",
          "random plan.txt sessions.txt --seed 1 --loss 0", "random plan.txt --seed 1 --loss 0 --steps 1",
          "run plan.txt a", "run plan.txt a sessions.txt more.txt", "run plan.txt a sessions.txt --journals d", "live plan.txt",
          "audit", "audit plan.txt", "audit plan.txt a.journal --turns 5", "live plan.txt sessions.txt --turns 5", "live plan.txt sessions.txt --journal j", "serial plan.txt sessions.txt --journals d", "serial --fast plan.txt sessions.txt", "--fast"]

# Numbers of a run that is drawn, of which one isn't in its range or none at all.
NUMBERS = [("18446744073709551616", "0", "1"), ("x", "0", "1"), ("1", "101", "1"), ("1", "0", "0"), ("1", "0", "1000001"), ("1", "0", "1.5")]

# Numbers of turns that aren't.
NO_TURNS = ("0", "100001", "-1", "x", "18446744073709551617")

# Options whose value is left out.
NO_VALUE = (("run plan.txt a sessions.txt --journal", "--journal <FILE>"), ("live plan.txt sessions.txt --journals", "--journals <DIR>"),
            ("run plan.txt a sessions.txt --turns", "--turns <N>"))

SHOWN = [("--help", "Usage: drink"), ("-h", "Usage: drink"), ("help", "Usage: drink"), ("serial --help", "Usage: drink serial"),
         ("sim --help", "Usage: drink sim"), ("random --help", "Usage: drink random"), ("run --help", "Usage: drink run"), ("live --help", "Usage: drink live"), ("audit --help", "Usage: drink audit"),
         ("help sim", "Usage: drink sim"), ("--version", "drink "), ("-V", "drink ")]

RUNS = {"serial": ("plan.txt", "sessions.txt"), "sim": ("plan.txt", "sessions.txt", "script.txt")}


def words_as_dashes(check):
    """Each command on each example: on files, and with each choice of words that are -, it answers alike."""
    for example, (command, names) in itertools.product(EXAMPLES, RUNS.items()):
        files = [os.path.join("examples", example, it) for it in names]
        if not all(os.path.isfile(os.path.join(TOP, it)) for it in files):
            continue
        whole = check.run([command, *files])
        check.wants(f"{command} on the files of {example}", whole, 0, "(?m)^value ", b"")
        for dashes in itertools.product((False, True), repeat=len(files)):
            given = [open(os.path.join(TOP, it), "rb").read() for it, is_dash in zip(files, dashes) if is_dash]
            words = [command, *("-" if is_dash else it for it, is_dash in zip(files, dashes))]
            if given:
                check.wants(f"{' '.join(words)}, {example}", check.run(words, b"---\n".join(given)), 0, whole.out, b"")


def statuses(check):
    for name, words, texts, fault in REFUSED:
        check.files(texts)
        check.wants(f"refused: {name}", check.run(words), 1, b"", rf"\Adrink: {re.escape(fault)}[^\n]*\n\Z")
        check.files(USUAL)
    for words, file, cause in UNREAD:
        check.wants(f"can't be read: {words}", check.run(words), 1, b"", rf"\Adrink: {re.escape(file)}: X4 ReadFailed: [^\n]*{cause}[^\n]*\n\Z")
    for words in FAULTY:
        check.wants(f"faulty: drink {words}", check.run(words), 2, b"", "Usage: drink")
    for seed, loss, steps in NUMBERS:
        words = f"random plan.txt sessions.txt --seed {seed} --loss {loss} --steps {steps}"
        check.wants(f"faulty: drink {words}", check.run(words), 2, b"", r"\Adrink: invalid value")
    check.wants("faulty: a word that isn't UTF-8", check.run([b"serial", b"\xff", b"sessions.txt"]), 2, b"", r"\Adrink: [^\n]*UTF-8[^\n]*\n\Z")
    for turns in NO_TURNS:
        words = f"run plan.txt a sessions.txt --turns {turns}"
        check.wants(f"faulty: drink {words}", check.run(words), 2, b"", r"\Adrink: (invalid value|unexpected argument)")
    for words, option in NO_VALUE:
        check.wants(f"faulty: drink {words}", check.run(words), 2, b"", rf"\Adrink: a value is required for '{option}'")
    for words, shown in SHOWN:
        check.wants(f"shown: drink {words}", check.run(words), 0, f"(?m)^{shown}", b"")
    for words in ("--seed 18446744073709551615 --loss 100 --steps 1000000", "--steps=1 --loss=0 --seed=0"):
        check.wants(f"a run that is drawn: {words}", check.run(f"random plan.txt sessions.txt {words}"), 0, r"\A(a.1 done reads x=5 writes - gives 5\nunfinished 0|unfinished 1)\nvalue x 5\n\Z", b"")
    drawn = [check.run("random plan.txt sessions.txt --seed 7 --loss 30 --steps 40") for _ in range(2)]
    check.wants("the same seed again", drawn[1], drawn[0].status, drawn[0].out, drawn[0].err)
    check.wants("a file whose name is -", check.run("serial ./- -", SESSIONS), 0, ANSWER, b"")
    check.wants("the line of a part, counted from the top", check.run("serial - -", PLAN + b"---\nsession c\n"), 1, b"", r"\Adrink: -: line 1 \(line 7 of the standard input\): S2 UnknownName")
    if not os.geteuid():
        os.chmod(os.path.join(check.work, "sessions.txt"), 0)
        ran = check.run("serial plan.txt sessions.txt", preexec_fn=lambda: os.setuid(NOBODY))
        check.wants("can't be read: a file of somebody else", ran, 1, b"", r"\Adrink: sessions.txt: X4 ReadFailed: [^\n]*permission denied")
        os.chmod(os.path.join(check.work, "sessions.txt"), 0o644)


def read(name):
    with open(os.path.join(TOP, name), encoding="utf-8") as file:
        return file.read()


def helps(check):
    """Help has the words, the options, the numbers and the exit statuses that the manual and the definitions have, and the program
    keeps to them."""
    manual, definitions = read("docs/manual.md"), read("crates/command_words/specs/CommandLine.antt")
    headings = {}
    for command, form in re.findall(r"(?m)^##+ `(\w+) (.*)`$", manual):
        headings[command] = f"{headings.get(command, '')} {form}"
    shown = {it: check.run(f"{it} --help").out.decode() for it in headings}
    whole = check.run("--help").out.decode()
    check.equal("help: the commands", re.findall(r"(?m)^  (\w+) ", whole.split("Commands:")[-1].split("Options:")[0]), [*headings, *(["help"] if "  help " in whole else [])])
    for command, form in headings.items():
        # A value that has one of several words, as in data|none, has another name in help.
        values = dict(re.findall(r"--(\w+)(?: ([\w|]+))?", form))
        names = {it: name for it, name in re.findall(r"(?m)^ +--(\w+)(?: <(\w+)>)?", shown[command])}
        options = {it: names.get(it) if "|" in value else value for it, value in values.items()}
        words = list(dict.fromkeys(re.findall("[A-Z]+", re.sub(r"--\w+ [\w|]+", "", form))))
        usage = shown[command].split("Usage: ")[-1].splitlines()[0]
        check.equal(f"help: the words of {command}", re.findall(r"<([A-Z]+)>", re.sub(r"--\w+ <\w+>", "", usage)), words)
        check.equal(f"help: the options of {command}", names, options)
    ranges(check, manual, definitions, "".join(shown.values()))
    for name, text in {"": whole, **shown}.items():
        told = re.findall(r"\b(\d) where", text.split("Exit status:")[-1]) if "Exit status:" in text else []
        check.equal(f"help: the statuses of drink {name}", told, ["0", "1", "2"])
    check.equal("help: the statuses of the manual", re.findall(r"(?m)^\| (\d) \|", manual), ["0", "1", "2"])
    version = re.search(r'const VERSION: &str = "([^"]+)"', read("crates/command_words/src/command_line.rt"))[1]
    for words in ("--version", "-V"):
        check.wants(f"help: drink {words}", check.run(words), 0, f"drink {version}\n".encode(), b"")


def ranges(check, manual, definitions, shown):
    """The ranges of numbers: of the definitions, of help, of the manual, and those that are taken."""
    defined = {name: (int(low), int(high)) for name, low, high in re.findall(r'\((?:numbered|optional) \(codes "(\w+)"\) (\d+) (\d+)', definitions)}
    check.equal("help: numbers that have a range", sorted(defined), ["linger", "loss", "seed", "status", "steps", "turns"])
    usual = re.search(r'optional \(codes "turns"\) \d+ \d+ \(codes "(\d+)"\)', definitions)
    check.equal("help: the turns where none are given", re.findall(r"--turns <N>.*\[default: (\d+)\]", shown), [usual[1]])
    check.equal("manual: the turns where none are given", re.findall(r"\*\*Turns\*\*: 1 to 100000, (\d+) where `--turns` isn't given", manual), [usual[1]])
    told = {"seed": r"[Tt]he seed is {} to {}\b", "loss": r"the loss {} to {}\b", "steps": r"there are {} to {} steps", "turns": r"\*\*Turns\*\*: {} to {},", "linger": r"`--linger N`, {} to {}\b", "status": r"`--status N`, {} to {}\b"}
    command = {it: {"turns": "run no.file a s", "linger": "serve no.file a --store s", "status": "serve no.file a --store s"}.get(it, "random no.file s") for it in defined}
    for name, (low, high) in defined.items():
        check.equal(f"help: the range of --{name}", re.findall(rf"--{name} <N>.*?\b(\d+) to (\d+)\b", shown), [(str(low), str(high))])
        check.say(f"manual: the range of --{name}", None if re.search(told[name].format(low, high), manual) else f"{told[name].format(low, high)!r} isn't there")
        for value, is_taken in ((low - 1, False), (low, True), (high, True), (high + 1, False)):
            numbers = " ".join(f"--{it}={value if it == name else defined[it][0]}" for it in defined if command[it] == command[name])
            wanted = r"\Adrink: no.file: X4 ReadFailed" if is_taken else r"\Adrink: invalid value"
            check.wants(f"help: {command[name]} {numbers}", check.run(f"{command[name]} {numbers}"), 1 if is_taken else 2, b"", wanted)
