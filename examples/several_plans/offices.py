#!/usr/bin/env python3
"""The offices of one name of several plans, in one process: each session of the standard input is asked of the plan that has its records,
and what each office says is printed after the name of its plan's file. A session has records of one plan.

usage: offices.py NAME PLAN.. -- OPTIONS-OF-SERVE < SESSIONS        DRINK is the program
"""
import os, re, subprocess, sys, threading

cut = sys.argv.index("--")
NAME, PLANS, OPTIONS = sys.argv[1], sys.argv[2:cut], sys.argv[cut + 1 :]


def started(plan):
    words = [os.environ.get("DRINK", "drink"), "serve", plan, NAME, "--store", f"{plan}.{NAME}.store", *OPTIONS]
    return subprocess.Popen(words, stdin=subprocess.PIPE, stdout=subprocess.PIPE, text=True)


def tell(plan, office):
    for line in office.stdout:
        print(f"{plan} {line}", end="", flush=True)


def ask(session, records, offices):
    """Asks the office whose plan has all records of the session."""
    names = set(re.findall(r"\b(?:read|set)\s+(\w+)", session))
    plan = next((it for it in PLANS if names <= records[it]), None)
    if plan is None:
        print(f"no plan has {' and '.join(sorted(names))}\n", end="", flush=True)
    else:
        offices[plan].stdin.write(session)
        offices[plan].stdin.flush()


def main():
    records, offices = {}, {it: started(it) for it in PLANS}
    for plan in PLANS:
        with open(plan, encoding="ascii") as file:
            records[plan] = set(re.findall(r"(?m)^\s*record\s+(\w+)", file.read()))
    tellers = [threading.Thread(target=tell, args=it, daemon=True) for it in offices.items()]
    for it in tellers:
        it.start()
    session, open_blocks = "", 0
    for line in sys.stdin:
        session += line
        word = re.match(r"\s*(\w*)", line)[1]
        open_blocks += (word in ("session", "if", "repeat")) - (word == "end")
        if word == "end" and not open_blocks:
            ask(session, records, offices)
            session = ""
    for it in offices.values():
        it.stdin.close()
    for it in tellers:
        it.join()
    sys.exit(max(it.wait() for it in offices.values()))


if __name__ == "__main__":
    main()
