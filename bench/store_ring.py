#!/usr/bin/env python3
"""Sessions a second of four offices in a ring, each a process, without a store and with one, beside SQLite.

usage: store_ring.py PROGRAM COUNTS.SO FOLDER

Each office has a record with each of its neighbours; each session adds 1 to one of them, every second one to both. All offices of a run
begin their first turn together (shared/counts.c); its time is taken from there to the last wait of an office that had more to do. All has to
finish. FOLDER has what a run makes, so it says how fast a disk is.
"""
import os, socket, sqlite3, struct, subprocess, sys, time

OFFICES, EACH, RUNS = ("o0", "o1", "o2", "o3"), 1024, 15
NAMES = ("begun", "worked_last", "data_sent_last", "datagrams_sent", "datagrams_come", "appends", "appended_bytes", "syncs", "waits", "allocations", "sending", "writing", "waiting")
WAYS = {"without": [], "none": ["--sync", "none"], "data": ["--sync", "data"]}
# A run is over when no message was sent for so many seconds. Others may take longer: so many times as many turns, and some more. A run
# whose turns end before its sessions counts as longer than all others, so that medians stand as long as fewer than half are such.
QUIET, TIMES, LATER, MOST = 1.0, 3, 200, 100_000
# So many rounds of sessions, one at each office, are SQLite's transactions.
ROUNDS = 128
HOST = "127.0.0.1"


def plan(ports):
    lines = ["plan 1 run 9", *(f"office {it} {HOST}:{port}" for it, port in zip(OFFICES, ports))]
    for a, b in PAIRS:
        lines += [f"pair o{a} o{b} fork o{a}", f"record r{a}{b} o{a} o{b} 0 at o{a}"]
    return "\n".join((*lines, ""))


PAIRS = ((0, 1), (1, 2), (2, 3), (0, 3))


def records(office, k):
    """The records of an office's k-th session, from 0."""
    own = [f"r{a}{b}" for a, b in PAIRS if office in (a, b)]
    return own if k % 2 else [own[k // 2 % 2]]


def sessions(office):
    sets = lambda k: "".join(f"set {it} = read {it} + 1\n" for it in records(office, k))
    return "".join(f"session o{office}\n{sets(k)}end\n" for k in range(EACH))


class Office:
    """A process of an office, with its counts. What it prints goes into a file: who read it from a pipe would work beside the offices."""

    def __init__(self, at, words):
        self.counts_file, self.printed_file = at, f"{at}.printed"
        if os.path.exists(at):
            os.remove(at)
        env = {**os.environ, "LD_PRELOAD": LIBRARY, "COUNTS": at, "START": os.path.join(FOLDER, "start"), "OFFICES": str(len(OFFICES))}
        with open(self.printed_file, "wb") as printed:
            self.process = subprocess.Popen(words, stdin=subprocess.DEVNULL, stdout=printed, stderr=subprocess.STDOUT, env=env)

    def printed(self):
        with open(self.printed_file, "rb") as file:
            return file.read()

    def counts(self):
        try:
            with open(self.counts_file, "rb") as file:
                return dict(zip(NAMES, struct.unpack(f"{len(NAMES)}Q", file.read())))
        except (FileNotFoundError, struct.error):
            return dict.fromkeys(NAMES, 0)


def free_ports(count):
    held = [socket.socket(socket.AF_INET, socket.SOCK_DGRAM) for _ in range(count)]
    for it in held:
        it.bind((HOST, 0))
    ports = [it.getsockname()[1] for it in held]
    for it in held:
        it.close()
    return ports


def write(name, text):
    path = os.path.join(FOLDER, name)
    with open(path, "w", encoding="ascii") as file:
        file.write(text)
    return path


def remove(name):
    path = os.path.join(FOLDER, name)
    if os.path.exists(path):
        os.remove(path)
    return path


def started(way, turns):
    """The offices of a ring, started."""
    at, offices = write("plan", plan(free_ports(len(OFFICES)))), []
    remove("start")
    for k, it in enumerate(OFFICES):
        words = [PROGRAM, "run", at, it, write(f"{it}.sessions", sessions(k)), "--turns", str(turns)]
        words += ["--store", remove(f"{it}.store"), "--new", *WAYS[way]] if WAYS[way] else []
        offices.append(Office(os.path.join(FOLDER, f"{it}.counts"), words))
    return offices


def ran(way, turns):
    """The counts of the offices in a run, and its seconds; None where its turns ended before all sessions had."""
    offices = started(way, turns)
    for it in offices:
        status, out = it.process.wait(), it.printed()
        if status not in (0, 1) or b"\nunfinished " not in out or turns == MOST and status:
            sys.exit(f"store_ring.py: {way}, {turns} turns: status {status}, {out[-200:]!r}")
    if any(it.process.returncode for it in offices):
        return None
    counts = [it.counts() for it in offices]
    return counts, (max(it["worked_last"] for it in counts) - max(it["begun"] for it in counts)) / 1e9


def run_once_more(way, turns, runs):
    """One more run, and the turns that the next of this way has. How often bottles go to and fro differs from run to run, and turns with
    it. Where so many were cut short that no median is known, all are made again, with twice as many."""
    runs.append(ran(way, turns))
    if runs.count(None) <= RUNS // 2:
        return turns
    runs.clear()
    turns = min(MOST, 2 * turns)
    print(f"store_ring.py: {way}: all runs are made again, with {turns} turns", file=sys.stderr)
    return turns


def median(runs, of):
    """The median of what these runs have, where those that were cut short have more than any other."""
    return sorted(of(it) if it else float("inf") for it in runs)[len(runs) // 2]


def turns_of(way):
    """More turns than an office takes until no message is sent any more."""
    offices = started(way, MOST)
    try:
        last = 0
        while not last or time.monotonic_ns() - last < QUIET * 1e9:
            time.sleep(0.05)
            if any(it.process.poll() is not None for it in offices):
                sys.exit(f"store_ring.py: {way}: an office ended after {MOST} turns or before")
            counts = [it.counts() for it in offices]
            last = max(it["data_sent_last"] for it in counts)
    finally:
        for it in offices:
            it.process.kill()
            it.process.wait()
    return min(MOST, TIMES * max(it["waits"] for it in counts) + LATER)


def sqlite(mode):
    """The seconds of the same reads and writes, a transaction for each session: of some rounds, and as many times that as there are more."""
    at = remove("sqlite")
    for more in ("-wal", "-shm", "-journal"):
        remove(f"sqlite{more}")
    base = sqlite3.connect(at, isolation_level=None)
    base.execute(f"PRAGMA journal_mode = {mode}")
    base.execute("PRAGMA synchronous = FULL")
    base.execute("CREATE TABLE records (name TEXT PRIMARY KEY, value INTEGER) WITHOUT ROWID")
    base.executemany("INSERT INTO records VALUES (?, 0)", [(f"r{a}{b}",) for a, b in PAIRS])
    began = time.monotonic()
    for k in range(ROUNDS):
        for office in range(len(OFFICES)):
            base.execute("BEGIN IMMEDIATE")
            for it in records(office, k):
                (value,) = base.execute("SELECT value FROM records WHERE name = ?", (it,)).fetchone()
                base.execute("UPDATE records SET value = ? WHERE name = ?", (value + 1, it))
            base.execute("COMMIT")
    seconds = time.monotonic() - began
    total = base.execute("SELECT sum(value) FROM records").fetchone()[0]
    base.close()
    if total != len(OFFICES) * ROUNDS * 3 // 2:
        sys.exit(f"store_ring.py: SQLite: {total}")
    return seconds * EACH / ROUNDS


def main():
    turns = {it: turns_of(it) for it in WAYS}
    runs = {it: [] for it in (*WAYS, "WAL", "DELETE")}
    while lacking := [it for it in runs if len(runs[it]) < RUNS]:
        for way in lacking:
            if way in WAYS:
                turns[way] = run_once_more(way, turns[way], runs[way])
            else:
                runs[way].append(([], sqlite(way)))
    count = len(OFFICES) * EACH
    rate = lambda way: count / median(runs[way], lambda run: run[1])
    print("| Store | Sessions a second | By those without | Turns | Appends | Syncs | Bytes appended | Milliseconds of an office: sending, writing, waiting | Runs cut short |")
    print("|---|---|---|---|---|---|---|---|---|")
    for way in WAYS:
        sums = {name: median(runs[way], lambda run: sum(it[name] for it in run[0])) for name in NAMES}
        took = ", ".join(f"{sums[it] / len(OFFICES) / 1e6:.1f}" for it in ("sending", "writing", "waiting"))
        print(f"| {way} | {rate(way):.0f} | {rate(way) / rate('without'):.2f} | {sums['waits']:.0f} | {sums['appends']:.0f} | {sums['syncs']:.0f} | {sums['appended_bytes']:.0f} | {took} | {runs[way].count(None)} of {RUNS} |")
        for counts, _ in filter(None, runs[way]):
            for it in counts:
                if way == "data" and it["syncs"] != it["appends"]:
                    sys.exit(f"store_ring.py: {it['syncs']} syncs, and {it['appends']} appends")
                if way == "none" and it["syncs"]:
                    sys.exit(f"store_ring.py: {it['syncs']} syncs, where none are asked for")
    for mode in ("WAL", "DELETE"):
        print(f"| SQLite, journal mode {mode} | {rate(mode):.0f} | {rate(mode) / rate('without'):.2f} | | | | | | |")


PROGRAM, LIBRARY, FOLDER = sys.argv[1:]
main()
