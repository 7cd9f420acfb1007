"""What network.py needs where offices speak under seals: files of secrets, what the datagrams of an office have to be, and what an
office tells on a terminal. The seals are reckoned here, by another program than the one that is tried."""
import hashlib, hmac, os, pty, re, subprocess

SEAL_BYTES = 16
PROGRESS = re.compile(r"(\d+) datagrams came, (\d+) went, (\d+) were refused")


def keys_of(pairs):
    """A key for each pair, no two of one length."""
    return {pair: hashlib.sha512(repr(pair).encode()).digest()[: 16 + at] for at, pair in enumerate(pairs)}


def secrets(place, name, keys):
    """A file with these secrets, which is for its owner alone."""
    path = os.path.join(place, f"{name}.secrets")
    with open(os.open(path, os.O_CREAT | os.O_WRONLY, 0o600), "w", encoding="ascii") as file:
        file.writelines(f"secret {a} {b} {key.hex()}\n" for (a, b), key in keys.items())
    return path


def own(keys, office):
    """Those that an office shares."""
    return {pair: key for pair, key in keys.items() if office in pair}


def sealed(frame, key):
    return frame + hmac.new(key, frame, hashlib.sha256).digest()[:SEAL_BYTES]


def wrong_seals(datagrams, offices, keys):
    """What is wrong with these datagrams: each has to be a frame, and behind it its seal under the key of its two offices."""
    for it in datagrams:
        frame = it[:-SEAL_BYTES]
        pair = tuple(sorted(offices[n : n + 1] for n in frame[8:10]))
        if frame[:2] != b"DP" or pair not in keys or it != sealed(frame, keys[pair]):
            return [f"{it.hex()} is no frame under the seal of its offices"]
    return [] if datagrams else ["no datagram went"]


class OnTerminal:
    """A process whose standard error is a terminal, and what it said there last."""

    def __init__(self, words):
        self.ours, theirs = pty.openpty()
        self.process = subprocess.Popen(words, stdin=subprocess.DEVNULL, stdout=subprocess.PIPE, stderr=theirs, text=True)
        os.close(theirs)

    def end(self, seconds):
        """What it printed, and how many datagrams came, went and were refused, as it told them at last."""
        out, told = self.process.communicate(timeout=seconds)[0], b""
        while True:
            try:
                more = os.read(self.ours, 65536)
            except OSError:
                break
            if not more:
                break
            told += more
        os.close(self.ours)
        found = PROGRESS.findall(told.decode())
        return out, tuple(map(int, found[-1])) if found else None
