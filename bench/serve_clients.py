#!/usr/bin/env python3
"""Sessions a second of four offices in a ring that serve, and how long one takes from its line to its answer; beside SQLite.

usage: serve_clients.py PROGRAM SLOW.SO FOLDER [memory]     with `memory` what an office takes over many sessions

A client asks for a session, and for the next once what that did was said; with several clients each asks for its own, of the office by
its number. Each office has a record with each of its neighbours; each session adds 1 to one of them, every second one to both. The time
of a session goes from the write of its first line to the read of its outcome. All has to finish, and add up.
"""
import os, re, select, socket, sqlite3, struct, statistics, subprocess, sys, threading, time

OFFICES, HOST, RUNS = ("o0", "o1", "o2", "o3"), "127.0.0.1", 3
PAIRS = ((0, 1), (1, 2), (2, 3), (0, 3))
# By the number of clients how many sessions there are in all.
COUNTS = {1: 2_000, 16: 32_000}
# How a store is synced: a sync of the disk's own, one that takes 2 milliseconds, and none.
WAYS = {"`--sync data`, a sync of 2 milliseconds": (["--sync", "data"], "2000"), "`--sync data`, on this disk": (["--sync", "data"], None), "`--sync none`": (["--sync", "none"], None)}
MANY = 100_000


def free_ports(count):
    held = [socket.socket(socket.AF_INET, socket.SOCK_DGRAM) for _ in range(count)]
    for it in held:
        it.bind((HOST, 0))
    ports = [it.getsockname()[1] for it in held]
    for it in held:
        it.close()
    return ports


def plan(ports):
    lines = ["plan 1 run 9", *(f"office {it} {HOST}:{port}" for it, port in zip(OFFICES, ports))]
    for a, b in PAIRS:
        lines += [f"pair o{a} o{b} fork o{a}", f"record r{a}{b} o{a} o{b} 0 at o{a}"]
    return "\n".join((*lines, ""))


def records(office, k):
    """The records of an office's k-th session, from 0."""
    own = [f"r{a}{b}" for a, b in PAIRS if office in (a, b)]
    return own if k % 2 else [own[k // 2 % 2]]


def session(office, k):
    return (f"session o{office}\n" + "".join(f"set {it} = read {it} + 1\n" for it in records(office, k)) + "end\n").encode()


class Office:
    """A process of an office, the clients that ask it, and when each asked."""

    def __init__(self, number, words, takes):
        env = {**os.environ, "LD_PRELOAD": SLOW, "SYNC_COUNTS": f"{FOLDER}/syncs", **({"SYNC_TAKES": takes} if takes else {})}
        self.number, self.rest, self.asked, self.began = number, b"", 0, {}
        self.process = subprocess.Popen(words, stdin=subprocess.PIPE, stdout=subprocess.PIPE, bufsize=0, env=env)

    def ask(self, now):
        self.asked += 1
        self.began[self.asked] = now
        self.process.stdin.write(session(self.number, self.asked - 1))

    def outcomes(self):
        """The tickets of the sessions that are told."""
        self.rest += os.read(self.process.stdout.fileno(), 65536)
        *lines, self.rest = self.rest.split(b"\n")
        return [int(it.split(b" ")[0].split(b".")[1]) for it in lines if b" done " in it]


def memory(process):
    with open(f"/proc/{process.pid}/status") as file:
        return int(re.search(r"VmRSS:\s+(\d+)", file.read())[1])


def run(clients, count, words, takes, marks=()):
    """The seconds of a run, the seconds of each session, the memory of the first office once so many sessions were told, the sizes of the
    stores, and how many syncs, datagrams and entries there were."""
    for it in OFFICES:
        if os.path.exists(f"{FOLDER}/{it}.store"):
            os.remove(f"{FOLDER}/{it}.store")
    with open(f"{FOLDER}/syncs", "wb") as file:
        file.write(bytes(8))
    with open(f"{FOLDER}/plan", "w", encoding="ascii") as file:
        file.write(plan(free_ports(len(OFFICES))))
    offices = [Office(at, [PROGRAM, "serve", f"{FOLDER}/plan", it, "--store", f"{FOLDER}/{it}.store", "--new", *words], takes) for at, it in enumerate(OFFICES)]
    by_stream = {it.process.stdout: it for it in offices}
    for it in offices:
        while b"ready" not in it.rest:
            it.rest += os.read(it.process.stdout.fileno(), 65536)
        it.rest = b""
    took, told, asked, start, seen = [], 0, min(clients, count), time.monotonic(), []
    for at in range(asked):
        offices[at % 4].ask(time.monotonic())
    while told < count:
        for stream in select.select(list(by_stream), [], [], 60)[0]:
            office = by_stream[stream]
            for ticket in office.outcomes():
                now = time.monotonic()
                took.append(now - office.began.pop(ticket))
                told += 1
                if told in marks:
                    seen.append(memory(offices[0].process))
                if asked < count:
                    # One client alone goes from office to office.
                    (offices[asked % 4] if clients == 1 else office).ask(now)
                    asked += 1
    seconds = time.monotonic() - start
    for it in offices:
        it.process.kill()
        it.process.wait()
    stores = [f"{FOLDER}/{it}.store" for it in OFFICES]
    audit = subprocess.run([PROGRAM, "audit", f"{FOLDER}/plan", *stores], capture_output=True, text=True)
    values = dict(re.findall(r"(?m)^value (\S+) (\d+)$", audit.stdout))
    added = sum(len(records(it.number, k)) for it in offices for k in range(it.asked))
    if audit.returncode or sum(map(int, values.values())) != added or f"unfinished 0\n" not in audit.stdout:
        sys.exit(f"serve_clients.py: the audit has to add up to {added}: {audit.stdout[-300:]} {audit.stderr}")
    return seconds, took, seen, [os.path.getsize(it) for it in stores], counts(stores)


def counts(stores):
    """How many syncs there were, datagrams that were sent, and entries."""
    with open(f"{FOLDER}/syncs", "rb") as file:
        syncs = struct.unpack("=q", file.read())[0]
    lines = [line for it in stores for line in open(it, encoding="ascii") if line[0].isdigit()]
    return syncs, sum(line.split(" ", 2)[1] == "send" for line in lines), len(lines)


def told(name, clients, runs):
    """A row of the table, of the run whose rate is the median."""
    seconds, took, counted = sorted(runs)[len(runs) // 2]
    took.sort()
    each = " | ".join(f"{it / len(took):.1f}" for it in counted) if counted else " | | "
    print(f"| {name} | {clients} | {len(took) / seconds:,.0f} | {took[len(took) // 2] * 1000:.2f} | {took[len(took) * 99 // 100] * 1000:.2f} | {each} |", flush=True)


def sqlite(clients, count):
    """The same by SQLite, synced, with a log ahead: a transaction a session, from so many threads."""
    at = f"{FOLDER}/sqlite"
    for it in (at, f"{at}-wal", f"{at}-shm"):
        if os.path.exists(it):
            os.remove(it)
    first = sqlite3.connect(at)
    first.execute("pragma journal_mode=wal")
    first.execute("create table records (name text primary key, value integer)")
    first.executemany("insert into records values (?, 0)", [(f"r{a}{b}",) for a, b in PAIRS])
    first.commit()
    took, start = [], time.monotonic()

    def client(number):
        base = sqlite3.connect(at, isolation_level=None, timeout=60)
        base.execute("pragma synchronous=full")
        for k in range(count // clients):
            began = time.monotonic()
            base.execute("begin immediate")
            for it in records(number % 4, k):
                base.execute("update records set value = value + 1 where name = ?", (it,))
            base.execute("commit")
            took.append(time.monotonic() - began)

    threads = [threading.Thread(target=client, args=(it,)) for it in range(clients)]
    for it in threads:
        it.start()
    for it in threads:
        it.join()
    return time.monotonic() - start, took, None


def measured(*words):
    seconds, took, _, _, counted = run(*words)
    return seconds, took, counted


def rates():
    print("| Store | Clients | Sessions a second | Milliseconds, median | 99 of 100 within | Syncs a session | Datagrams | Entries |\n|---|---|---|---|---|---|---|---|")
    for name, (words, takes) in WAYS.items():
        for clients, count in COUNTS.items():
            told(name, clients, [measured(clients, count, words, takes) for _ in range(RUNS)])
    for clients, count in COUNTS.items():
        told("SQLite, `synchronous=FULL`, a log ahead, on this disk", clients, [sqlite(clients, count // 8) for _ in range(RUNS)])


def sizes():
    marks = (MANY // 10, MANY)
    _, _, seen, stores, _ = run(16, MANY, ["--sync", "none"], None, marks)
    print(f"Memory of the first office, in KiB, once {marks[0]:,} and {marks[1]:,} sessions were told: {seen[0]:,} and {seen[1]:,}; its store then had {stores[0]:,} bytes.")


PROGRAM, SLOW, FOLDER = sys.argv[1:4]
sizes() if sys.argv[4:] else rates()
