#!/usr/bin/env python3
"""A full journal of an office, with the plan and the sessions under which the office goes on from it.

usage: store_full.py KIND FOLDER

KIND is `resends`: an office that did some sessions with its neighbour, each message of which was sent a thousand times and came as
often (shared/crafted.py). Or `work`: one that did sessions by itself, an instruction at a time. It writes `plan`, `sessions`
and `store` into FOLDER, and prints how many sessions have finished in it.
"""
import os, subprocess, sys

HERE = os.path.dirname(os.path.abspath(__file__))
FULL, PORTS = 1_000_000, (47921, 47922)
# A session that counts to so many has one instruction more for each time, one for the last look, and one for its end.
TIMES = 9_999
LENGTH = TIMES + 2


def resends(folder):
    subprocess.run([sys.executable, os.path.join(HERE, "shared/crafted.py"), "resends", str(FULL), folder], check=True)
    with open(os.path.join(folder, "journal.00"), encoding="ascii") as file:
        lines = file.readlines()
    os.remove(os.path.join(folder, "journal.00"))
    os.remove(os.path.join(folder, "journal.01"))
    texts = [bytes.fromhex(it.split()[2]).decode() for it in lines if it.startswith("0 submit ")]
    count = next(it for it in reversed(lines) if it.startswith("0 send o1 0 = "))
    with open(os.path.join(folder, "plan"), encoding="ascii") as file:
        plan = file.read()
    for name, port in zip(("o0", "o1"), PORTS):
        plan = plan.replace(f"office {name} -", f"office {name} 127.0.0.1:{port}")
    return plan, texts, lines + [count] * (FULL + 1 - len(lines)), len(texts)


def work(_folder):
    text = f"session o0\nrepeat {TIMES}\nend\nend\n"
    plan = f"plan 1 run 1\noffice o0 127.0.0.1:{PORTS[0]}\noffice o1 127.0.0.1:{PORTS[1]}\npair o0 o1 fork o0\n"
    lines, done = ["journal 1 run 1 office o0\n"], 0
    while len(lines) <= FULL:
        lines += [f"0 submit {text.encode().hex()} = ticket {done + 1}\n", "0 do start = done\n", "0 do drink = done\n"]
        lines += ["0 do work 1 = done\n"] * LENGTH + ["0 do finish = done\n"]
        done += 1
    lines = lines[: FULL + 1]
    return plan, [text] * done, lines, lines.count("0 do finish = done\n")


def main():
    kind, folder = sys.argv[1:]
    plan, texts, lines, finished = {"resends": resends, "work": work}[kind](folder)
    for name, parts in (("plan", [plan]), ("sessions", texts), ("store", lines)):
        with open(os.path.join(folder, name), "w", encoding="ascii") as file:
            file.writelines(parts)
    print(finished)


main()
