#!/usr/bin/env python3
"""How many frames are made for a finished session, where frames get lost and overtake each other.

usage: lossy_frames.py PROGRAM OFFICES SEED [LINES FOLDER]

All offices are neighbours, with eight records a pair where there are two of them and one where there are more; each session
needs all records of its office, and of two offices each has four sessions, of more one. A script goes in rounds: every office
advances, sends every message that waits, and a count to whom it heard; then what was sent arrives in any order, but for a third,
which is lost. The script is written round after round, by what `PROGRAM sim` answers to it. Writes how many frames were made for
each session, where all finished.

With LINES and FOLDER it writes how many lines the script has, once it has so many, be all finished or not; plan, sessions and script
stay in FOLDER. Then of more than two offices each two share eight records, and each has 64 sessions, on one record of each neighbour.
"""
import random, subprocess, sys, tempfile, os

LOST, MOST_ROUNDS, WINDOW = 1 / 3, 400, 18


def texts(offices, shared, each):
    names = [f"o{i}" for i in range(offices)]
    pairs = [(a, b) for i, a in enumerate(names) for b in names[i + 1 :]]
    plan = ["plan 1 run 7"] + [f"office {it} -" for it in names] + [f"pair {a} {b} fork {a}" for a, b in pairs]
    records = []
    for a, b in pairs:
        for k in range(shared):
            records.append((f"{a}x{b}_{k}".replace("o", "r", 1), a, b, k))
    plan += [f"record {name} {a} {b} 0 at {a}" for name, a, b, _ in records]
    sessions = []
    for n in range(each):
        for it in names:
            sessions.append(f"session {it}")
            sessions += [f"set {name} = read {name} + 1" for name, a, b, k in records if it in (a, b) and (offices == 2 or k == n % shared)]
            sessions.append("end")
    return names, "\n".join(plan) + "\n", "\n".join(sessions) + "\n"


def main():
    program, offices, draw = sys.argv[1], int(sys.argv[2]), random.Random(int(sys.argv[3]))
    most, folder = (int(sys.argv[4]), sys.argv[5]) if len(sys.argv) > 4 else (None, None)
    shared, each = (8, 4) if offices == 2 else (8, 64) if most else (1, 1)
    names, plan, sessions = texts(offices, shared, each)
    with tempfile.TemporaryDirectory() as place:
        paths = [os.path.join(folder or place, it) for it in ("plan", "sessions", "script")]
        for path, text in zip(paths, (plan, sessions)):
            open(path, "w").write(text)

        def answers(lines):
            open(paths[2], "w").write("\n".join(lines) + "\n")
            return subprocess.run([program, "sim", *paths], capture_output=True, text=True, check=True).stdout.splitlines()

        lines = [f"submit {i + 1}" for i in range(each * offices)]
        heard = set()
        for _ in range(MOST_ROUNDS):
            begun = len(lines)
            for a in names:
                lines.append(f"advance {a} 1000")
                lines += [f"send {a} {b} {i}" for b in names if b != a for i in range(1, WINDOW + 1)]
                lines += [f"send {a} {b} 0" for b in names if (b, a) in heard]
            out = answers(lines)
            # What is refused isn't asked again.
            kept = [(line, answer) for line, answer in zip(lines[begun:], out[begun:]) if not answer.startswith("refused")]
            lines[begun:] = [line for line, _ in kept]
            sent = [(line.split()[1:3], answer.split()[1]) for line, answer in kept if answer.startswith("frame")]
            arriving = [it for it in sent if draw.random() >= LOST]
            draw.shuffle(arriving)
            heard = {tuple(ends) for ends, _ in arriving}
            lines += [f"deliver {number}" for _, number in arriving]
            if most and len(lines) >= most:
                answers(lines)
                print(len(lines))
                return 0
            if "unfinished 0" in out and not most:
                frames = sum(line.startswith("send") for line in lines)
                print(f"{frames / (each * offices):.1f}")
                return 0
    return 1


if __name__ == "__main__":
    sys.exit(main())
