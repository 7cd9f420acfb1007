"""What network.py and kills.py share: a relay between offices, and an audit of what they leave."""
import random, selectors, socket, subprocess, time

from common import HOST

# The relay ends after so many datagrams or seconds, whatever comes.
MOST_DATAGRAMS, MOST_SECONDS = 200_000, 60
SEED = 11


class Relay:
    """Hands datagrams on, each to the office whose port it came to: some it loses, of the others some it doubles, and what
    is on the way may overtake."""

    def __init__(self, targets, loses, doubles, seed=SEED, host=HOST, most_delay=0.004):
        self.random, self.loses, self.doubles, self.host, self.most_delay = random.Random(seed), loses, doubles, host, most_delay
        self.selector, self.waiting, self.came = selectors.DefaultSelector(), [], []
        self.ports = {}
        for office, at in targets.items():
            door = socket.socket(socket.AF_INET, socket.SOCK_DGRAM)
            door.bind((HOST, 0))
            door.setblocking(False)
            self.ports[office] = door.getsockname()[1]
            self.selector.register(door, selectors.EVENT_READ, at)
        self.out = socket.socket(socket.AF_INET, socket.SOCK_DGRAM)

    def take(self, door, targets):
        while len(self.came) < MOST_DATAGRAMS:
            try:
                data = door.recv(2048)
            except BlockingIOError:
                return
            self.came.append(data)
            for at in targets:
                copies = 0 if self.random.random() < self.loses else 2 if self.random.random() < self.doubles else 1
                for _ in range(copies):
                    self.waiting.append((time.monotonic() + self.random.random() * self.most_delay, data, at))

    def hear(self, seconds=0):
        """Takes what has come, or what comes first within so many seconds."""
        for key, _ in self.selector.select(seconds):
            self.take(key.fileobj, key.data)

    def step(self):
        """Takes what has come, and hands on what is due."""
        self.hear(0.001)
        now = time.monotonic()
        for it in [it for it in self.waiting if it[0] <= now]:
            self.waiting.remove(it)
            self.out.sendto(it[1], (self.host, it[2]))

    def run(self, processes):
        """Until all processes have ended."""
        end = time.monotonic() + MOST_SECONDS
        while any(it.poll() is None for it in processes) and time.monotonic() < end:
            self.step()
        for it in processes:
            if it.poll() is None:
                it.kill()

    def close(self):
        for it in list(self.selector.get_map().values()):
            it.fileobj.close()
        self.selector.close()
        self.out.close()


def write(path, text):
    with open(path, "w", encoding="ascii") as file:
        file.write(text)
    return path


def listed(text, meant=int):
    return {} if text == "-" else {name: meant(value) for name, value in (it.split("=") for it in text.split())}


def audited(program, plan, journals):
    """The lines of an audit, and what is wrong with how it ended."""
    audit = subprocess.run([program, "audit", plan, *journals], stdin=subprocess.DEVNULL, capture_output=True, text=True, timeout=MOST_SECONDS)
    wrong = [f"audit: status {audit.returncode}, {audit.stdout[:300]!r}, {audit.stderr!r}"] if audit.returncode or audit.stderr else []
    return audit.stdout.splitlines(), wrong
