"""Devices that fail, that do less than they are asked for, or that are interrupted: each read of an input, and each write of an output or a
file (calls.c)."""
import errno, os, resource, shutil, signal

from common import ANSWER, AUDITED, JOURNALS, PLAN, SCRIPT, SESSIONS, SETTLED, frame

# So many bytes a call takes at most.
PART = 7
# Words of runs, and what they print.
RUNS = (("serial plan.txt sessions.txt", ANSWER), ("sim plan.txt sessions.txt script.txt", SETTLED), ("audit plan.txt a.journal b.journal", AUDITED))
TEXTS = {"plan.txt": PLAN, "sessions.txt": SESSIONS, "script.txt": SCRIPT, **JOURNALS}
NEXT = PLAN.replace(b"run 1", b"run 2")
# A transcript of several parts, and how many bytes of it a file may have.
SENDS, ROOM = 3000, 70_000


def devices(check):
    if not shutil.which("cc"):
        print("not tried: calls of the system that fail, since there is no C compiler")
        return
    for part in (reads, one_input, writes, files, parts):
        check.files(TEXTS)
        part(check)


def calls_for(text):
    """How many calls of so many bytes take a text."""
    return -(-len(text) // PART)


def all_so(check, name, rows):
    """Tells of runs, each with how it has to end, the first that ends otherwise."""
    wrong = [f"{which}: {wanted} is wanted, and not {ran}" for which, ran, wanted in rows if (ran.status, ran.out, ran.err) != wanted]
    check.say(f"devices: {name}: {len(rows)} runs", f"{len(wrong)}, as {wrong[0]}" if wrong else None if rows else "there is none")


def unread(name):
    return 1, b"", b"drink: %s: X4 ReadFailed: it cannot be read: its device fails\n" % name.encode()


def reads(check):
    """An input is read up to its end, in parts and again where that is interrupted. Where a read fails, its input is told, and none
    after it is read."""
    for words, answer in RUNS:
        well = (0, answer, b"")
        all_so(check, f"{words}: interrupted, and in parts", [(it, check.run(words, env=check.calls(**it)), well) for it in ({"part": f"read {PART}"}, {"stopped": "read"}, {"part": "read 1", "stopped": "read"})])
        # Each input takes one read more, which finds its end.
        inputs = [name for name in words.split()[1:] for _ in range(calls_for(TEXTS[name]) + 1)]
        fails = lambda k: check.run(words, env=check.calls(part=f"read {PART}", fail=f"read {k} {k} {errno.EIO}"))
        all_so(check, f"{words}: each read fails", [(f"read {k}", fails(k), unread(name)) for k, name in enumerate(inputs, 1)])
        all_so(check, f"{words}: and no further read is made", [("the next", fails(len(inputs) + 1), well)])


def one_input(check):
    """The same of a standard input that stands for all texts: it is told under its name, whichever part the read was for."""
    given = b"---\n".join((PLAN, SESSIONS, SCRIPT))
    run = lambda **told: check.run("sim - - -", given, env=check.calls(**told))
    all_so(check, "sim - - -: interrupted, and in parts", [(it, run(**it), (0, SETTLED, b"")) for it in ({"part": f"read {PART}"}, {"stopped": "read"})])
    rows = [(f"read {k}", run(part=f"read {PART}", fail=f"read {k} {k} {errno.EIO}"), unread("-")) for k in range(1, calls_for(given) + 2)]
    all_so(check, "sim - - -: each read fails", rows)


def writes(check):
    """An answer goes out whole, in parts and again where that is interrupted. Where a write fails, what went out before stands."""
    causes = ((errno.ENOSPC, b"no space is left on its device"), (errno.EIO, b"its device fails"))
    for words, answer in RUNS:
        well = (0, answer, b"")
        all_so(check, f"{words}: written in parts", [(it, check.run(words, env=check.calls(**it)), well) for it in ({"part": "write 1"}, {"stopped": "write"}, {"part": f"write {PART}", "stopped": "write"})])
        fails = lambda k, cause: check.run(words, env=check.calls(part=f"write {PART}", fail=f"write {k} {k} {cause}"))
        ks = range(1, calls_for(answer) + 1)
        for cause, said in causes:
            # The fault is written in parts too, which follow.
            fault = b"drink: X5 WriteFailed: the output cannot be written: %s\n" % said
            all_so(check, f"{words}: each write fails: {said.decode()}", [(f"write {k}", fails(k, cause), (1, answer[: PART * (k - 1)], fault)) for k in ks])
        all_so(check, f"{words}: each write finds that its reader has gone", [(f"write {k}", fails(k, errno.EPIPE), (1, answer[: PART * (k - 1)], b"")) for k in ks])
        all_so(check, f"{words}: and no further write is made", [("the next", fails(ks.stop, errno.EIO), well)])


def files(check):
    """A file that is written after the answer: where a write of it fails, the answer stands, and the file is told."""
    words, wrong = "serial plan.txt sessions.txt --plan next.txt", []
    run = lambda **told: check.run(words, env=check.calls(part=f"write {PART}", **told))
    fault = b"drink: next.txt: X5 WriteFailed: it cannot be written: no space is left on its device\n"
    rows = []
    for k in range(1, calls_for(NEXT) + 1):
        check.forget("next.txt")
        rows.append((f"write {k}", run(fail=f"write {calls_for(ANSWER) + k} {calls_for(ANSWER) + k} {errno.ENOSPC}"), (1, ANSWER, fault)))
        wrong += [] if check.bytes_of("next.txt") == NEXT[: PART * (k - 1)] else [f"write {k}: {check.bytes_of('next.txt')!r}"]
    all_so(check, f"{words}: each write of the file fails", rows)
    check.say(f"devices: {words}: what the file has then", f"{len(wrong)}, as {wrong[0]}" if wrong else None)
    all_so(check, f"{words}: in parts", [("all", run(stopped="write"), (0, ANSWER, b""))])
    check.equal(f"devices: {words}: in parts: the file", check.bytes_of("next.txt"), NEXT)


def parts(check):
    """A long transcript goes out while the script runs: what a full file took of it stands."""
    check.files({"long.txt": b"send a b 0\n" * SENDS})
    lines = b"".join(b"frame %d %s\n" % (it, frame(1, 0, 1, 0, 0).hex().encode()) for it in range(1, SENDS + 1))

    def small():
        signal.signal(signal.SIGXFSZ, signal.SIG_IGN)
        resource.setrlimit(resource.RLIMIT_FSIZE, (ROOM, ROOM))

    with open(os.path.join(check.work, "transcript"), "wb") as file:
        ran = check.run("sim plan.txt sessions.txt long.txt", stdout=file, preexec_fn=small, restore_signals=False)
    check.wants("devices: a transcript that a file has no room for", ran, 1, b"", b"drink: X5 WriteFailed: the output cannot be written: a file may not be so long\n")
    check.equal("devices: a transcript that a file has no room for: what it has", check.bytes_of("transcript"), lines[:ROOM])
    fault = b"drink: X5 WriteFailed: the output cannot be written: no space is left on its device\n"
    words, told = "sim plan.txt sessions.txt long.txt --journals unmade --plan unmade.txt", [b""]
    for k in (1, 2, 3):
        ran = check.run(words, env=check.calls(fail=f"write {k} {k} {errno.ENOSPC}"))
        check.wants(f"devices: {words}: part {k} fails", ran, 1, None, fault)
        told.append(ran.out)
    ran = check.run("sim plan.txt sessions.txt long.txt", env=check.calls(part=f"write {PART}", fail=f"write 50 50 {errno.ENOSPC}"))
    check.wants("devices: a part fails amid its bytes", ran, 1, lines[: PART * 49], fault)
    whole = told[:2] == [b"", b""] and all(len(it) < len(next_one) and lines.startswith(next_one) and next_one.endswith(b"\n") for it, next_one in zip(told[1:], told[2:]))
    check.say(f"devices: {words}: the parts before stand", None if whole else f"of {len(lines)} bytes there are {[len(it) for it in told[1:]]}")
    left = [it for it in ("unmade", "unmade.txt") if os.path.lexists(os.path.join(check.work, it))]
    check.equal(f"devices: {words}: no file is made", left, [])
