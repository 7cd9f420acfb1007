"""Offices that run as processes of the program, at ports of this machine, with stores in a folder; what stands in a store; and frames."""
import os, socket, struct, subprocess, time

HOST, RUN, TOP = "127.0.0.1", 9, 2**48 - 1
DATA, COUNT = 1, 2
ASK_FORK, FORK, ASK_BOTTLE, BOTTLE = 1, 2, 3, 4
# The bytes of a message of each kind.
LENGTHS = {ASK_FORK: 27, FORK: 27, ASK_BOTTLE: 29, BOTTLE: 37}
# As many as an office may take.
TURNS = 100_000


def frame(of, to, number, count, tag=None, record=0, value=0, run=RUN, version=1):
    kind = COUNT if tag is None else DATA
    bytes_of = struct.pack(">2sBBIBBQQ", b"DP", version, kind, run, of, to, number, count)
    if tag is not None:
        bytes_of += struct.pack(">B", tag)
    if tag in (ASK_BOTTLE, BOTTLE):
        bytes_of += struct.pack(">H", record)
    return bytes_of + (struct.pack(">q", value) if tag == BOTTLE else b"")


def doors(count):
    """So many sockets of this machine, each at a port of its own."""
    held = [socket.socket(socket.AF_INET, socket.SOCK_DGRAM) for _ in range(count)]
    for it in held:
        it.bind((HOST, 0))
    return held


def ports_of(held):
    return [it.getsockname()[1] for it in held]


def write(folder, name, text):
    path = os.path.join(folder, name)
    with open(path, "w", encoding="ascii") as file:
        file.write(text)
    return path


def socket_line(port):
    """What the system tells of a socket at that port: how many bytes wait there, and how many datagrams it dropped; None where there is none."""
    with open("/proc/net/udp", encoding="ascii") as file:
        for line in file:
            words = line.split()
            if words[1].endswith(f":{port:04X}"):
                return int(words[4].split(":")[1], 16), int(words[-1])
    return None


class Office:
    """An office that runs, with its store."""

    def __init__(self, program, folder, plan, name, port, sessions, turns=TURNS, new=True, env=None):
        self.port, self.store, self.said, self.env = port, os.path.join(folder, f"{name}.store"), os.path.join(folder, f"{name}.said"), env
        if new and os.path.exists(self.store):
            os.remove(self.store)
        self.words = [program, "run", plan, name, sessions, "--turns", str(turns), "--store", self.store, "--sync", "none"]
        self.starts, self.read, self.rest = 0, 0, b""
        self.start(new)

    def start(self, new=False):
        """It goes on from its store, or makes it."""
        self.starts += 1
        with open(self.said, "wb" if self.starts == 1 else "ab") as said:
            self.process = subprocess.Popen([*self.words, *(["--new"] if new else [])], stdin=subprocess.DEVNULL, stdout=said, stderr=subprocess.STDOUT, env=self.env)

    def goes_on(self):
        """Where it came to the end of its turns, it is started again from its store."""
        if self.process.wait() not in (0, 1) or not self.told().splitlines()[-1].startswith(b"unfinished "):
            raise SystemExit(f"the office at port {self.port} ended with {self.process.returncode}: {self.told()[-300:]!r}")
        self.start()
        self.has_socket()

    def has_socket(self, seconds=60):
        """Until it has one: what comes before is lost."""
        end = time.monotonic() + seconds
        while socket_line(self.port) is None:
            if self.process.poll() is not None or time.monotonic() > end:
                raise SystemExit(f"no office at port {self.port}: {self.told()!r}")
            time.sleep(0.01)

    def told(self):
        with open(self.said, "rb") as file:
            return file.read()

    def lines(self):
        """The lines of its journal that stand in the store since the last time."""
        with open(self.store, "rb") as file:
            file.seek(self.read)
            new = file.read()
        self.read += len(new)
        *whole, self.rest = (self.rest + new).split(b"\n")
        return whole

    def memory(self):
        """The most memory that it had, in KiB."""
        with open(f"/proc/{self.process.pid}/status", encoding="ascii") as file:
            return int(next(line.split()[1] for line in file if line.startswith("VmHWM:")))

    def end(self):
        self.process.kill()
        self.process.wait()
