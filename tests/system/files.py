"""Files: why one can't be read or written, and where a run's journals may go."""
import os

from common import AUDITED, PLAN, SCRIPT, SETTLED, at_ports, free_ports

# Words, the input that can't be read, and why.
UNREAD = [
    ("serial ring sessions.txt", "ring", "its symbolic links lead round in a ring"),
    ("sim plan.txt sessions.txt ring/script.txt", "ring/script.txt", "its symbolic links lead round in a ring"),
    ("audit plan.txt a.journal ring", "ring", "its symbolic links lead round in a ring"),
    ("serial plan.txt plan.txt/under", "plan.txt/under", "a part of its path is no folder"),
    ("serial plan.txt " + "n" * 256, "n" * 256, "its name is too long"),
    ("serial locked/plan.txt sessions.txt", "locked/plan.txt", "permission denied"),
]

# Options after words of a run of offices, the file or folder that can't be written, and why: nothing is run then.
NO_PLACE = [
    ("run", "--journal ring", "ring", "its symbolic links lead round in a ring"),
    ("run", "--journal folder", "folder", "it is a folder"),
    ("run", "--journal nowhere/j", "nowhere/j", "a folder of its path is not there"),
    ("run", "--journal plan.txt/j", "plan.txt/j", "a part of its path is no folder"),
    ("run", "--journal " + "n" * 256, "n" * 256, "its name is too long"),
    ("run", "--journal readonly/j", "readonly/j", "permission denied"),
    ("run", "--journal unread", "unread", "permission denied"),
    ("live", "--journals plan.txt", "plan.txt", "a file has this name"),
    ("live", "--journals readonly", "readonly/a.journal", "permission denied"),
    ("live", "--journals readonly/d", "readonly/d", "permission denied"),
    ("live", "--journals taken", "taken/b.journal", "it is a folder"),
]

# So it is of a run that is done and printed.
UNWRITTEN = [
    ("run", "--journal /dev/full", "/dev/full", "no space is left on its device"),
    ("sim", "--journals plan.txt", "plan.txt", "a file has this name"),
    ("sim", "--journals nowhere/d", "nowhere/d", "a folder of its path is not there"),
    ("sim", "--journals ring/d", "ring/d", "its symbolic links lead round in a ring"),
    ("sim", "--journals readonly", "readonly/a.journal", "permission denied"),
    ("sim", "--journals readonly/d", "readonly/d", "permission denied"),
    ("sim", "--journals taken", "taken/b.journal", "it is a folder"),
]
NOBODY = 65534


def causes(check):
    """Why a file can't be read or written, and that what was printed before stands. Who may do all does it as nobody."""
    check.files({"script.txt": SCRIPT, "ports.txt": at_ports(PLAN, free_ports(2))})
    place = lambda name: os.path.join(check.work, name)
    os.symlink("ring", place("ring"))
    for name in ("readonly", "locked", "taken", "taken/b.journal"):
        os.mkdir(place(name))
    check.files({"locked/plan.txt": PLAN, "unread": b""})
    for name, mode in (("readonly", 0o555), ("locked", 0), ("taken", 0o777), ("unread", 0o222)):
        os.chmod(place(name), mode)
    how = {} if os.geteuid() else {"preexec_fn": lambda: os.setuid(NOBODY)}
    for words, name, cause in UNREAD:
        check.wants(f"causes: {words[:60]}", check.run(words, **how), 1, b"", rf"\Adrink: {name}: X4 ReadFailed: [^\n]*: {cause}\n\Z")
    runs = {"run": ("run ports.txt a sessions.txt --turns 5", AUDITED[: AUDITED.index(b"value")]), "sim": ("sim plan.txt sessions.txt script.txt", SETTLED), "live": ("live plan.txt sessions.txt", AUDITED[: AUDITED.index(b"value")])}
    for command, option, name, cause in NO_PLACE:
        words, _ = runs[command]
        check.wants(f"causes: {words} {option[:60]}", check.run(f"{words} {option}", **how), 1, b"", rf"\Adrink: {name}: X5 WriteFailed: [^\n]*: {cause}; nothing was run\n\Z")
    check.equal("causes: what a folder has that was looked at", os.listdir(place("taken")), ["b.journal"])
    for command, option, name, cause in UNWRITTEN:
        words, out = runs[command]
        check.wants(f"causes: {words} {option[:60]}", check.run(f"{words} {option}", **how), 1, out, rf"\Adrink: {name}: X5 WriteFailed: [^\n]*: {cause}\n\Z")
    check.equal("causes: the journal before one that can't be written", check.bytes_of("taken/a.journal")[:25], b"journal 1 run 1 office a\n")
    os.chmod(place("locked"), 0o755)


def places(check):
    """Where a run's journals go is looked at before it begins: an input or a journal of this run that is there stays, and nothing is
    printed; what a try made is gone. A journal of another run is written over."""
    plan, told = at_ports(PLAN, free_ports(2)), AUDITED[: AUDITED.index(b"value")]
    check.files({"ports.txt": plan, "next.txt": plan.replace(b"run 1", b"run 2")})
    os.link(os.path.join(check.work, "ports.txt"), os.path.join(check.work, "ports.link"))
    os.symlink("sessions.txt", os.path.join(check.work, "sessions.link"))
    first, again = "run ports.txt a sessions.txt --turns 5 --journal", "run next.txt a sessions.txt --turns 5 --journal"
    check.wants("places: a file that isn't there", check.run(f"{first} first.journal"), 0, told, b"")
    check.wants("places: a folder that isn't there", check.run("live plan.txt sessions.txt --journals made"), 0, told, b"")
    with open(os.path.join(check.work, "first.journal"), "rb") as file:
        check.files({"begun.journal": file.readline()})
    refused = [(f"{first} {it}", it, "it is an input") for it in ("ports.txt", "./ports.txt", "ports.link", "sessions.txt", "sessions.link")]
    refused += [(f"{first} {it}", it, "it has a journal of this office and this run") for it in ("first.journal", "begun.journal")]
    refused += [("live plan.txt sessions.txt --journals made", "made/a.journal", "it has a journal of this office and this run")]
    for words, name, why in refused:
        before = check.bytes_of(name)
        check.wants(f"places: {words}", check.run(words), 1, b"", rf"\Adrink: {name}: X5 WriteFailed: {why}[^\n]*; nothing was run\n\Z")
        check.equal(f"places: {words}: the file", check.bytes_of(name), before)
    on_the_standard_input(check, plan, told)
    check.wants("places: a journal of another run", check.run(f"{again} first.journal"), 0, told, b"")
    check.equal("places: a journal of another run is written over", check.bytes_of("first.journal")[:25], b"journal 1 run 2 office a\n")
    check.files({"ports.txt": plan.replace(b"a 127.0.0.1", b"a 192.0.2.1")})
    check.wants("places: a run that can't begin", check.run(f"{first} none.journal"), 1, b"", r"\Adrink: U2 BindFailed: ")
    check.equal("places: a run that can't begin: its journal's file", os.path.lexists(os.path.join(check.work, "none.journal")), False)
    check.wants(f"places: {first} -", check.run(f"{first} -"), 2, b"", r"\Adrink: --journal takes a file, and - is none: [^\n]*\n\Z")


def on_the_standard_input(check, plan, told):
    """A file that the standard input is read from is an input; one whose name is - is none."""
    words = "run - a sessions.txt --turns 5 --journal"
    with open(os.path.join(check.work, "ports.txt"), "rb") as file:
        check.wants(f"places: {words} ports.txt < ports.txt", check.run(f"{words} ports.txt", stdin=file), 1, b"", r"\Adrink: ports.txt: X5 WriteFailed: it is an input[^\n]*; nothing was run\n\Z")
    check.equal(f"places: {words} ports.txt < ports.txt: the file", check.bytes_of("ports.txt"), plan)
    check.wants(f"places: {words} ./-", check.run(f"{words} ./-", plan), 0, told, b"")
    check.equal(f"places: {words} ./-: the file", check.bytes_of("-")[:25], b"journal 1 run 1 office a\n")
