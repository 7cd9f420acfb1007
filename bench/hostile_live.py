#!/usr/bin/env python3
"""Runs of `live` to whose sockets, which anyone on the machine can reach, datagrams come that are refused, until so many came: each run
finishes all sessions, and an audit weaves its journals.

usage: hostile_live.py PROGRAM FLOOD FOLDER [COUNT]        so many datagrams, 200000 where none is said
"""
import os, re, shutil, subprocess, sys, time

from hostile_offices import RUN, write

OFFICES, SESSIONS, RATE = 16, 1024, 50_000
PAIRS = [(a, b) for a in range(OFFICES) for b in range(a)]


def texts():
    plan = [f"plan 1 run {RUN}", *(f"office o{it} -" for it in range(OFFICES)), *(f"pair o{a} o{b} fork o{a}" for a, b in PAIRS), *(f"record r{a}_{b} o{a} o{b} 0 at o{a}" for a, b in PAIRS)]
    of = lambda k: [f"r{a}_{b}" for a, b in PAIRS if k % OFFICES in (a, b)]
    sessions = "".join(f"session o{k % OFFICES}\n" + "".join(f"set {it} = read {it} + 1\n" for it in of(k)[:8]) + "end\n" for k in range(SESSIONS))
    return "\n".join((*plan, "")), sessions


def ports(pid):
    """The ports of a process's sockets."""
    try:
        names = [os.readlink(f"/proc/{pid}/fd/{it}") for it in os.listdir(f"/proc/{pid}/fd")]
    except FileNotFoundError:
        return []
    inodes = {it[8:-1] for it in names if it.startswith("socket:[")}
    with open("/proc/net/udp", encoding="ascii") as file:
        return [int(words[1].split(":")[1], 16) for words in map(str.split, file) if words[9] in inodes]


def main():
    program, flood, folder = sys.argv[1:4]
    wanted = int(sys.argv[4]) if len(sys.argv) > 4 else 200_000
    plan, sessions = texts()
    plan, sessions, journals = write(folder, "live.plan", plan), write(folder, "live.sessions", sessions), os.path.join(folder, "journals")
    runs, sent = 0, 0
    while sent < wanted:
        shutil.rmtree(journals, ignore_errors=True)
        live = subprocess.Popen([program, "live", plan, sessions, "--journals", journals], stdin=subprocess.DEVNULL, stdout=subprocess.PIPE)
        found = []
        while live.poll() is None and len(found) < OFFICES:
            found = ports(live.pid)
        flooding = subprocess.Popen([flood, str(RATE), *map(str, found)], stdout=subprocess.PIPE, text=True) if found else None
        out, _ = live.communicate(timeout=300)
        if flooding:
            flooding.terminate()
            sent += int(flooding.communicate()[0].split()[0]) * len(found)
        runs += 1
        if live.returncode or not out.endswith(b"unfinished 0\n"):
            sys.exit(f"hostile_live.py: status {live.returncode}, {out[-200:]!r}")
        audit = subprocess.run([program, "audit", plan, *(f"{journals}/o{it}.journal" for it in range(OFFICES))], capture_output=True, check=False)
        if audit.returncode or not re.search(rb"(?m)^unfinished 0$", audit.stdout):
            sys.exit(f"hostile_live.py: the audit: status {audit.returncode}, {audit.stdout[-200:]!r}")
        if runs > 20 and not sent:
            sys.exit("hostile_live.py: no run lasts until its sockets are found")
    print(f"live: {sent} datagrams were sent to {OFFICES} sockets in {runs} runs of {SESSIONS} sessions: all finished, and each audit wove")


main()
