#!/usr/bin/env python3
"""What a run of the gate costs, by crate: python3 bench/gate_minutes.py sh .ci/run

Runs the command, looks each second at the provers and compilers below it, and prints minutes of a processor: the whole run's, as the
system counts them, and each crate's for its proof, its tests and the wrong bodies of it. What ends between two looks is short by up to
a second. Linux alone."""
import collections, os, re, resource, subprocess, sys, time

TICKS = os.sysconf("SC_CLK_TCK")
KINDS = ["proof", "tests", "wrong bodies", "other"]


def words_of(pid):
    with open(f"/proc/{pid}/cmdline", "rb") as it:
        return it.read().decode(errors="replace").split("\0")


def numbers_of(pid):
    with open(f"/proc/{pid}/stat") as it:
        return it.read().rpartition(")")[2].split()


def below(root):
    """The processes that descend from one, with what the system counts of each."""
    parents, found = {}, {}
    for pid in filter(str.isdigit, os.listdir("/proc")):
        try:
            found[pid] = numbers_of(pid)
            parents[pid] = found[pid][1]
        except (OSError, IndexError):
            pass
    for pid in list(found):
        it = pid
        while it in parents and it != root:
            it = parents[it]
        if it != root:
            del found[pid]
    return found


def row_of(pid):
    """A process's crate, and what is done with it."""
    words = words_of(pid)
    folder = os.readlink(f"/proc/{pid}/cwd")
    name = words[words.index("--crate-name") + 1] if "--crate-name" in words else re.sub(r".*/crates/([^/]+).*", r"\1", folder)
    if "/" in name or not name:
        return "", "other"
    if folder.startswith("/tmp/rt-edit"):
        return name, "wrong bodies"
    return name, "tests" if "--test" in words or name.endswith("_tests") else "proof"


def main():
    child = subprocess.Popen(sys.argv[1:])
    spent = {}
    while child.poll() is None:
        for pid, numbers in below(str(child.pid)).items():
            try:
                key = pid, numbers[19]
                row = spent[key][0] if key in spent else row_of(pid)
                spent[key] = row, (int(numbers[11]) + int(numbers[12])) / TICKS / 60
            except (OSError, IndexError, ValueError):
                pass
        time.sleep(1)
    table = collections.defaultdict(lambda: dict.fromkeys(KINDS, 0.0))
    for (name, kind), minutes in spent.values():
        table[name][kind] += minutes
    whole = resource.getrusage(resource.RUSAGE_CHILDREN)
    print(f"| the whole run | {(whole.ru_utime + whole.ru_stime) / 60:.0f} |")
    for name, row in sorted(table.items(), key=lambda it: -sum(it[1].values())):
        print(f"| {name or 'what reads and hashes'} | " + " | ".join(f"{row[kind]:.1f}" for kind in KINDS) + " |")
    return child.returncode


if __name__ == "__main__":
    sys.exit(main() if sys.argv[1:] else __doc__)
