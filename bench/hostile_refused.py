#!/usr/bin/env python3
"""The instructions of a datagram that an office refuses, the system's calls left out: what a run to which so many come has more than one
to which none comes. Turns that bring nothing else don't count, so both do as many idle ones. The office stands still while a burst comes,
so that each of its turns finds as many as it takes.

usage: hostile_refused.py PROGRAM FOLDER
"""
import os, re, signal, subprocess, sys, time

from hostile_offices import ASK_FORK, BOTTLE, FORK, HOST, RUN, doors, frame, ports_of, socket_line, write

PLAN = "plan 1 run {run}\noffice a {host}:{own}\noffice b {host}:{other}\npair a b fork a\nrecord r a b 0 at a\n"
# In so many turns without work more time goes by than in these bursts. A turn takes 32 datagrams, and four times that many have room.
TURNS, BURSTS, BURST = 3000, 25, 128
KINDS = {
    "F1 Short": b"D",
    "F3 Version": frame(1, 0, 1, 0, ASK_FORK, version=3),
    "L4 WrongVersion": frame(1, 0, 1, 0, ASK_FORK, version=2),
    "F8 Length": frame(1, 0, 1, 0, BOTTLE) + b"x",
    "L1 Stranger": frame(1, 0, 1, 0, ASK_FORK, run=RUN + 1),
    "L2 AckAhead": frame(1, 0, 1, 1, ASK_FORK),
    "C1 Breach": frame(1, 0, 1, 0, FORK),
}


def instructions(program, folder, datagram, bursts):
    door, = doors(1)
    own, = doors(1)
    (port,), (other,) = ports_of([own]), ports_of([door])
    own.close()
    plan = write(folder, "refused.plan", PLAN.format(run=RUN, host=HOST, own=port, other=other))
    profile, log = os.path.join(folder, "profile"), os.path.join(folder, "log")
    words = ["valgrind", "--tool=callgrind", f"--callgrind-out-file={profile}", f"--log-file={log}", program, "run", plan, "a", write(folder, "refused.sessions", ""), "--turns", str(TURNS)]
    process = subprocess.Popen(words, stdin=subprocess.DEVNULL, stdout=subprocess.DEVNULL)
    while socket_line(port) is None:
        time.sleep(0.05)
    begun = time.monotonic()
    for _ in range(bursts):
        process.send_signal(signal.SIGSTOP)
        for _ in range(BURST):
            door.sendto(datagram, (HOST, port))
        process.send_signal(signal.SIGCONT)
        while (line := socket_line(port)) and line[0]:
            time.sleep(0.001)
    waiting, dropped = socket_line(port) or sys.exit("hostile_refused.py: the office ended before all came")
    if waiting or dropped or time.monotonic() - begun > 0.8 * TURNS * 0.005:
        sys.exit(f"hostile_refused.py: {waiting} bytes wait, {dropped} datagrams were dropped, and {time.monotonic() - begun:.0f} seconds went by")
    if process.wait():
        sys.exit(f"hostile_refused.py: status {process.returncode}")
    door.close()
    with open(log, encoding="ascii", errors="replace") as file:
        return int(re.search(r"Collected : (\d+)", file.read())[1])


def main():
    program, folder = sys.argv[1:]
    none = instructions(program, folder, b"", 0)
    print("| A refused datagram | Instructions |\n|---|---|")
    for name, datagram in KINDS.items():
        print(f"| {name} | {(instructions(program, folder, datagram, BURSTS) - none) / (BURSTS * BURST):.0f} |", flush=True)


main()
