#!/usr/bin/env python3
"""How many sessions a second offices finish over a network that is slow and loses datagrams, by each call of a pump.

usage: lossy_network.py PROGRAM

Eight offices, each two of which have a record, and each of which has 128 sessions that add to its seven: more than it finishes in
its turns. They run as processes on this machine, a relay between them: each datagram takes 60 milliseconds, and 0, 10 or 30 of a
hundred are lost. `run` makes plain turns, and with a store adaptive ones. Prints a row for each loss: the sessions that all offices
finished in a second, by `run` and by `run` with a store that isn't synced, each the median of three runs.
"""
import heapq, os, random, selectors, socket, statistics, subprocess, sys, tempfile, time

HOST, OFFICES, EACH, TURNS, DELAY, LOSSES = "127.0.0.1", 8, 128, 2000, 0.06, (0, 10, 30)
SEEDS = 1, 2, 3
STORE = ["--sync", "none", "--new"]


class Network:
    """Hands each datagram on after its delay, but for those that it loses."""

    def __init__(self, ports, loss, seed):
        self.random, self.loss, self.late, self.count = random.Random(seed), loss, [], 0
        self.selector = selectors.DefaultSelector()
        self.doors = {name: socket.socket(socket.AF_INET, socket.SOCK_DGRAM) for name in ports}
        for name, door in self.doors.items():
            door.bind((HOST, 0))
            door.setblocking(False)
            self.selector.register(door, selectors.EVENT_READ, ports[name])
        self.out = socket.socket(socket.AF_INET, socket.SOCK_DGRAM)

    def ports(self):
        return {name: door.getsockname()[1] for name, door in self.doors.items()}

    def take(self, door, to):
        while True:
            try:
                data = door.recv(2048)
            except BlockingIOError:
                return
            self.count += 1
            if self.random.random() * 100 >= self.loss:
                heapq.heappush(self.late, (time.monotonic() + DELAY, self.count, data, to))

    def run(self, processes):
        """Until all processes have ended; how many seconds that took."""
        begun = time.monotonic()
        while any(it.poll() is None for it in processes):
            for key, _ in self.selector.select(0.001):
                self.take(key.fileobj, key.data)
            while self.late and self.late[0][0] <= time.monotonic():
                _, _, data, to = heapq.heappop(self.late)
                self.out.sendto(data, (HOST, to))
        return time.monotonic() - begun

    def close(self):
        for it in (self.selector, self.out, *self.doors.values()):
            it.close()


def free_ports(names):
    """A port of this machine for each, that nobody has now."""
    held = {it: socket.socket(socket.AF_INET, socket.SOCK_DGRAM) for it in names}
    for it in held.values():
        it.bind((HOST, 0))
    ports = {name: it.getsockname()[1] for name, it in held.items()}
    for it in held.values():
        it.close()
    return ports


def texts(names):
    """The lines of a plan after those of its offices, and the sessions."""
    pairs = [(a, b) for at, a in enumerate(names) for b in names[at + 1 :]]
    plan = [f"pair {a} {b} fork {a}" for a, b in pairs] + [f"record r{at} {a} {b} 0 at {a}" for at, (a, b) in enumerate(pairs)]
    sessions = []
    for _ in range(EACH):
        for name in names:
            sessions += [f"session {name}", *(f"set r{at} = read r{at} + 1" for at, pair in enumerate(pairs) if name in pair), "end"]
    return plan, "\n".join(sessions) + "\n"


def written(path, text):
    with open(path, "w", encoding="ascii") as file:
        file.write(text)
    return path


def started(program, folder, names, stores, own, relayed):
    """A process of each office; its neighbours have the relay's ports."""
    plan, sessions = texts(names)
    file = written(os.path.join(folder, "sessions"), sessions)
    processes = []
    for name in names:
        offices = [f"office {it} {HOST}:{own[it] if it == name else relayed[it]}" for it in names]
        words = ["run", written(os.path.join(folder, name), "\n".join(["plan 1 run 9", *offices, *plan]) + "\n"), name, file, "--turns", str(TURNS)]
        words += ["--store", os.path.join(folder, f"{name}.store"), *STORE] if stores else []
        processes.append(subprocess.Popen([program, *words], stdin=subprocess.DEVNULL, stdout=subprocess.PIPE, stderr=subprocess.DEVNULL, text=True))
    return processes


def rate(program, stores, loss, seed):
    """The sessions that finished in a second."""
    names = [f"o{at}" for at in range(OFFICES)]
    own = free_ports(names)
    network = Network(own, loss, seed)
    with tempfile.TemporaryDirectory() as folder:
        processes = started(program, folder, names, stores, own, network.ports())
        seconds = network.run(processes)
        done = sum(" done " in line for it in processes for line in it.stdout)
    network.close()
    if not 0 < done < OFFICES * EACH:
        sys.exit(f"{done} of {OFFICES * EACH} sessions finished: that tells no rate")
    return done / seconds


def main():
    program = os.path.abspath(sys.argv[1])
    print("| Lost of a hundred | `run` | `run --store` |\n|---|---|---|")
    for loss in LOSSES:
        plain, adaptive = (statistics.median(rate(program, stores, loss, seed) for seed in SEEDS) for stores in (False, True))
        print(f"| {loss} | {plain:.1f} | {adaptive:.1f} |", flush=True)


if __name__ == "__main__":
    main()
