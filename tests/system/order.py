"""In which order an office with a store calls the system: what it does is appended and synced first, and then sent and told."""
import os, re, shutil

from common import at_ports, free_ports
from disks import calls_of, notes_of
from serve import Service
from sockets import FEWER_TURNS

# Two offices, each of whose sessions takes the other's record too.
PLAN = b"plan 1 run 9\noffice a -\noffice b -\npair a b fork a\nrecord x a b 0 at a\nrecord y a b 0 at b\n"
EACH = 20
SESSIONS = b"".join(b"session %s\nset x = read x + 1\nset y = read y + 1\nend\n" % it for it in (b"a", b"b") * EACH)
STORE = "order.store"


def acts_of(noted):
    """What an office did with its store, its socket and its output, in order: each with the bytes."""
    store, acts = None, []
    for call, at, answer, text in notes_of(noted):
        if call == "open" and text.endswith(STORE.encode()):
            store = answer
        elif call == "sendto":
            acts.append(("send", text))
        elif call == "write" and at in (store, "1"):
            acts.append(("append" if at == store else "tell", text))
        elif call in ("fsync", "fdatasync") and at == store:
            acts.append(("sync", b""))
    return acts


def is_told_early(text, stands):
    """Of a line that is told, whether what it tells doesn't stand yet: `told` of a session its end, and of a ticket that it was given."""
    given = re.match(rb"ticket (\d+)\n", text)
    if given:
        return b" = ticket %s\n" % given[1] not in stands
    done = re.match(rb"a\.(\d+) done reads ", text)
    return bool(done) and stands.count(b" do finish = done\n") < int(done[1])


def stands_first(acts, syncs):
    """What is wrong with the order: what is sent or told stands before, and each append is synced, or none."""
    stands, appended, told = b"", b"", []
    for at, (act, text) in enumerate(acts):
        if act == "append":
            appended += text
            stands = stands if syncs else appended
            if syncs and acts[at + 1 : at + 2] != [("sync", b"")]:
                return f"no sync after the append {at}, but {acts[at + 1 : at + 2]}"
        elif act == "sync":
            stands = appended
        elif act == "send" and b" = frame " + text.hex().encode() + b"\n" not in stands:
            return f"{text.hex()} is sent, and doesn't stand"
        elif act == "tell":
            told += text.splitlines(keepends=True)
            early = [it for it in text.splitlines(keepends=True) if is_told_early(it, stands)]
            if early:
                return f"{early[0]!r} is told, and doesn't stand"
    counts = {it: sum(act == it for act, _ in acts) for it in ("append", "sync", "send", "tell")}
    finished = sum(b" done reads " in it for it in told)
    if finished != EACH or min(counts[it] for it in ("append", "send", "tell")) < 4:
        return f"{finished} sessions are told by {counts}"
    return None if syncs or counts["sync"] <= 1 else f"{counts['sync']} syncs"


def order(check):
    if not shutil.which("cc"):
        print("not tried: the order of calls, since there is no C compiler")
        return
    check.files({"order.txt": at_ports(PLAN, free_ports(2)), "each.txt": SESSIONS})
    noted = os.path.join(check.work, "noted")
    for sync in ("data", "none"):
        for run in (of_run, of_serve):
            for it in (STORE, "beside.store"):
                check.forget(it)
            beside = Service(check, "order.txt b --store beside.store --new --sync none")
            beside.line()
            beside.ask(sessions_of("b"))
            wrong = run(check, sync, check.calls(noted=noted)) or stands_first(acts_of(noted), sync == "data")
            beside.kill()
            check.say(f"order: {run.__name__[3:]} --sync {sync}: what is sent and told stands before", wrong)
    without_syncs(check)


def without_syncs(check):
    """A store that is made or gone on from with --sync none is held, and synced with its folder, and again once its last line was cut off;
    then it is written alone."""
    words, noted = f"run order.txt a own.txt --turns 2 --store {STORE} --sync none", os.path.join(check.work, "noted")
    opened = ["open store", "flock store", "fsync store", "open folder", "fsync folder"]
    check.files({"own.txt": b"session a\nend\nsession a\nend\n"})
    check.forget(STORE)
    for name, more, torn, cut in (("made", " --new", b"", []), ("gone on from", "", b"0 do st", ["ftruncate store", "fsync store"])):
        if torn:
            check.files({STORE: check.bytes_of(STORE) + torn})
        ran = check.run(words + more, env=check.calls(noted=noted))
        check.wants(f"order: --sync none: {name}", ran, 0, None, b"")
        calls = calls_of(noted, STORE)
        first = opened + cut
        check.equal(f"order: --sync none: {name}: the first calls", calls[: len(first)], first)
        check.equal(f"order: --sync none: {name}: the others are writes", sorted({*calls[len(first) :]} - {"write store"}), [])


def sessions_of(office):
    return b"".join(re.findall(rb"session %s\n.*?^end\n" % office.encode(), SESSIONS, re.M | re.S))


def of_run(check, sync, env):
    """Runs the first office; what is wrong with how it ends."""
    ran = check.run(f"run order.txt a each.txt --turns {FEWER_TURNS} --store {STORE} --new --sync {sync}", env=env)
    return None if (ran.status, ran.err) == (0, b"") else str(ran)


def of_serve(check, sync, env):
    """The same of one that serves."""
    office = Service(check, f"order.txt a --store {STORE} --new --linger 2 --sync {sync}", env=env)
    office.ask(sessions_of("a"))
    office.process.stdin.close()
    office.process.stdin = None
    status, out, err = office.end()
    return None if (status, err) == (0, b"") else f"status {status}, {out[-200:]!r}, {err!r}"
