#!/usr/bin/env python3
"""What an office takes for a turn, and for a datagram, without a store and with one: instructions, the system's calls left out, and
allocations, which are counted beside appends.

usage: store_fed.py PROGRAM COUNTS.SO FOLDER

The office has one neighbour, which this script plays. What it sends is the count of messages that it took, none: the office writes
that down, and has nothing else to do. Instructions are those that a run with more turns, or datagrams, has more than one with fewer.
"""
import os, re, shutil, socket, struct, subprocess, sys, time

WAYS = {"without": [], "none": ["--sync", "none"], "data": ["--sync", "data"]}
HOST, RUN = "127.0.0.1", 9
# A turn without work takes 5 milliseconds. Datagrams come in bursts, at most as many as a turn takes.
FEWER, MORE, MOST = 200, 1200, 32
# Bytes of a datagram with a count alone.
COUNT = struct.pack(">2sBBIBBQQ", b"DP", 1, 2, RUN, 1, 0, 0, 0)
PLAN = "plan 1 run {run}\noffice a {host}:{own}\noffice b {host}:{other}\npair a b fork a\nrecord r a b 0 at a\n"
# Where these counts stand in the file.
COME, APPENDS, WAITS, ALLOCATIONS = 4, 5, 8, 9


class Neighbour:
    def __init__(self, way):
        self.door = socket.socket(socket.AF_INET, socket.SOCK_DGRAM)
        self.door.bind((HOST, 0))
        with socket.socket(socket.AF_INET, socket.SOCK_DGRAM) as door:
            door.bind((HOST, 0))
            self.at = door.getsockname()
        self.way = WAYS[way]

    def start(self, turns, before=(), **more):
        plan = PLAN.format(run=RUN, host=HOST, own=self.at[1], other=self.door.getsockname()[1])
        for name, text in (("fed.plan", plan), ("fed.sessions", "")):
            with open(os.path.join(FOLDER, name), "w", encoding="ascii") as file:
                file.write(text)
        self.store = os.path.join(FOLDER, "fed.store")
        if os.path.exists(self.store):
            os.remove(self.store)
        store = ["--store", self.store, "--new", *self.way] if self.way else []
        words = [*before, PROGRAM, "run", f"{FOLDER}/fed.plan", "a", f"{FOLDER}/fed.sessions", "--turns", str(turns), *store]
        return subprocess.Popen(words, stdin=subprocess.DEVNULL, stdout=subprocess.DEVNULL, stderr=subprocess.PIPE, **more)

    def wait_for_socket(self):
        """Until the office has its socket: what comes before is lost."""
        port = f":{self.at[1]:04X} "
        while True:
            with open("/proc/net/udp", encoding="ascii") as file:
                if port in file.read():
                    return
            time.sleep(0.05)

    def send(self, count):
        for _ in range(count):
            self.door.sendto(COUNT, self.at)


def instructions(way, turns, datagrams):
    """The instructions of a run to which so many come."""
    it, profile = Neighbour(way), os.path.join(FOLDER, "profile")
    tells_pid = os.path.join(FOLDER, "log")
    process = it.start(turns, ["valgrind", "--tool=callgrind", f"--callgrind-out-file={profile}", f"--log-file={tells_pid}"])
    it.wait_for_socket()
    for _ in range(datagrams // MOST):
        it.send(MOST)
        time.sleep(0.03)
    process.communicate()
    it.door.close()
    if it.way:
        with open(it.store, "rb") as file:
            come = file.read().count(b"\n") - 1
        if come != datagrams:
            sys.exit(f"store_fed.py: {come} of {datagrams} datagrams came")
    with open(tells_pid, encoding="ascii", errors="replace") as file:
        return int(re.search(r"Collected : (\d+)", file.read())[1])


def allocations(way, burst, count):
    """The allocations for so many datagrams, in bursts, each once the one before was taken; and the appends."""
    it, at = Neighbour(way), os.path.join(FOLDER, "fed.counts")
    if os.path.exists(at):
        os.remove(at)
    process = it.start(100_000, env={**os.environ, "LD_PRELOAD": LIBRARY, "COUNTS": at})

    def counts():
        try:
            with open(at, "rb") as file:
                return struct.unpack("13Q", file.read())
        except (FileNotFoundError, struct.error):
            return (0,) * 13

    def reached(which, count):
        end = time.monotonic() + 60
        while counts()[which] < count:
            if time.monotonic() > end:
                sys.exit(f"store_fed.py: {way}: {counts()} after {count}")
            time.sleep(0.0005)

    try:
        reached(WAITS, 2)
        if not counts()[ALLOCATIONS]:
            sys.exit("store_fed.py: no allocation was seen: is the program linked to a C library whose calls can be replaced?")
        came = 0
        # The first ones make room that later ones find.
        for limit in (count, 2 * count):
            before = counts()
            while came < limit:
                it.send(burst)
                came += burst
                reached(COME, came)
                time.sleep(0.002)
            time.sleep(0.1)
        after = counts()
        return tuple(after[it] - before[it] for it in (ALLOCATIONS, APPENDS))
    finally:
        process.kill()
        process.communicate()
        it.door.close()


def main():
    print("| Store | Instructions of a turn without work | More than without | For a datagram that is taken | More than without |")
    print("|---|---|---|---|---|")
    if shutil.which("valgrind"):
        first = None
        for way in WAYS:
            idle = instructions(way, FEWER, 0)
            turn = (instructions(way, FEWER + MORE, 0) - idle) // MORE
            datagram = (instructions(way, FEWER + MORE, MOST * 50) - instructions(way, FEWER + MORE, 0)) // (MOST * 50)
            first = first or (turn, datagram)
            print(f"| {way} | {turn} | {turn - first[0]} | {datagram} | {datagram - first[1]} |")
    print("\n| Store | Datagrams in a burst | Datagrams | Appends | Allocations | For a datagram | For an append |")
    print("|---|---|---|---|---|---|---|")
    for way in WAYS:
        for burst, count in ((1, 512), (MOST, 4096)):
            found, appends = allocations(way, burst, count)
            for_each = f"{found / appends:.3f}" if appends else ""
            print(f"| {way} | {burst} | {count} | {appends} | {found} | {found / count:.3f} | {for_each} |")


PROGRAM, LIBRARY, FOLDER = sys.argv[1:]
main()
