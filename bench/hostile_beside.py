#!/usr/bin/env python3
"""Sessions a second of two offices beside a flood: datagrams of another run come to each of them, so many a second.

usage: hostile_beside.py PROGRAM FLOOD COUNTS.SO FOLDER        FLOOD is hostile_flood.c, built, and COUNTS.SO shared/counts.c

Both have sessions on the one record that they share, so that its bottle goes to and fro; they keep their journals in stores that aren't
synced, which print what finishes. The time goes from the first turn, which both begin together, to the last message that is sent; a run
is over in a tenth of a second, since a text has 1,024 sessions at most. So what a datagram of the flood takes is told by the time that
the offices were on a processor, and by how many came. Medians of 41 runs. Fails where a session doesn't finish.
"""
import os, struct, subprocess, sys, time

from hostile_offices import HOST, RUN, Office, doors, ports_of, write

RATES, RUNS, EACH, WORK, ENOUGH, SECONDS = (0, 1_000, 10_000, 50_000, 100_000, 200_000), 41, 1024, 9_990, 5_000, 120
NAMES = ("a", "b")
PLAN = "plan 1 run {run}\noffice a {host}:{a}\noffice b {host}:{b}\npair a b fork a\nrecord r a b 0 at a\n"
# Where these counts stand in the file, of shared/counts.c: when the first turn was, and the last message; and what came.
BEGUN, SENT_LAST, COME, COUNTS = 0, 2, 4, 13


def counts(at):
    with open(at, "rb") as file:
        return struct.unpack(f"{COUNTS}Q", file.read())


def ran(pid):
    """The seconds that a process was on a processor."""
    with open(f"/proc/{pid}/schedstat", encoding="ascii") as file:
        return int(file.read().split()[0]) / 1e9


def run(program, flood, library, folder, rate):
    """The seconds of a run, how many datagrams came to both offices, and the seconds that these were on a processor."""
    held = doors(2)
    ports = ports_of(held)
    for it in held:
        it.close()
    plan = write(folder, "beside.plan", PLAN.format(run=RUN, host=HOST, a=ports[0], b=ports[1]))
    start = os.path.join(folder, "beside.start")
    if os.path.exists(start):
        os.remove(start)
    flooding = subprocess.Popen([flood, str(rate), *map(str, ports)], stdout=subprocess.PIPE) if rate else None
    offices, tells = [], []
    for name, port in zip(NAMES, ports):
        tells.append(os.path.join(folder, f"beside.{name}.counts"))
        if os.path.exists(tells[-1]):
            os.remove(tells[-1])
        env = {**os.environ, "LD_PRELOAD": library, "COUNTS": tells[-1], "START": start, "OFFICES": "2"}
        sessions = write(folder, f"beside.{name}", f"session {name}\nset r = read r + 1\nrepeat {WORK}\nend\nend\n" * EACH)
        offices.append(Office(program, folder, plan, name, port, sessions, env=env))
    try:
        end = time.monotonic() + SECONDS
        while any(it.told().count(b" done ") < EACH for it in offices):
            if time.monotonic() > end or any(it.process.poll() is not None for it in offices):
                sys.exit(f"hostile_beside.py: {rate} a second: {[it.told()[-200:] for it in offices]}")
            time.sleep(0.01)
        took = sum(ran(it.process.pid) for it in offices)
        told = [counts(it) for it in tells]
    finally:
        for it in offices:
            it.end()
        if flooding:
            flooding.terminate()
            flooding.communicate()
    seconds = (max(it[SENT_LAST] for it in told) - max(it[BEGUN] for it in told)) / 1e9
    return seconds, sum(it[COME] for it in told), took


def main():
    words = sys.argv[1:]
    runs = {it: [] for it in RATES}
    for _ in range(RUNS):
        for rate in RATES:
            runs[rate].append(run(*words, rate))
    middle = {it: [sorted(column)[RUNS // 2] for column in zip(*runs[it])] for it in RATES}
    _, came_without, took_without = middle[0]
    print("| Datagrams a second to each | Sessions a second | Datagrams that came | Milliseconds on a processor | Microseconds more, for each that came more |\n|---|---|---|---|---|")
    for rate in RATES:
        seconds, came, took = middle[rate]
        # Fewer are lost in what one run differs from another.
        more = f"{1e6 * (took - took_without) / (came - came_without):.2f}" if came > came_without + ENOUGH else "-"
        print(f"| {rate} | {2 * EACH / seconds:.0f} | {came} | {1000 * took:.0f} | {more} |")


main()
