"""What the themes share: how the program is run, and how it is told what came of that."""
import os, re, shutil, socket, struct, subprocess

HERE = os.path.dirname(os.path.abspath(__file__))
TOP = os.path.dirname(os.path.dirname(HERE))
HOST = "127.0.0.1"
SECONDS = 180

PLAN = b"plan 1 run 1\noffice a -\noffice b -\npair a b fork a\nrecord x a b 5 at a\n"
SESSIONS = b"session a\ngive read x\nend\n"
ANSWER = b"a.1 done reads x=5 writes - gives 5\nvalue x 5\n"

SCRIPT = b"submit 1\nsettle 9\n"
SETTLED = b"ticket 1\nsettled 4 finished\na.1 done reads x=5 writes - gives 5\nunfinished 0\nvalue x 5\n"
AUDITED = b"a.1 done reads x=5 writes - gives 5\nunfinished 0\nvalue x 5\n"
# What the offices of PLAN did with its session, as they would write it down.
JOURNALS = {
    "a.journal": b"journal 1 run 1 office a\n0 submit %s = ticket 1\n0 do start = done\n0 do drink = done\n0 do work 9 = done\n0 do finish = done\n" % SESSIONS.hex().encode(),
    "b.journal": b"journal 1 run 1 office b\n",
}
USUAL = {"plan.txt": PLAN, "sessions.txt": SESSIONS, "script.txt": b"submit 1\n", "-": PLAN, **JOURNALS}

# Tags of data frames that bring a question for a bottle, and a bottle.
ASK_BOTTLE, BOTTLE = 3, 4


def built(program):
    """Its path, where it is built."""
    path = os.path.abspath(program)
    return path if os.path.isfile(path) and os.access(path, os.X_OK) else None


def program_of(crate):
    """Where the program of a crate is, once it is built."""
    return os.path.join(TOP, "crates", crate, "out", crate)


def free_ports(count):
    """Ports of this machine that nobody has now."""
    held = [socket.socket(socket.AF_INET, socket.SOCK_DGRAM) for _ in range(count)]
    for it in held:
        it.bind((HOST, 0))
    ports = [it.getsockname()[1] for it in held]
    for it in held:
        it.close()
    return ports


def at_ports(plan, ports):
    """A plan whose offices have these ports, in order, in place of their addresses."""
    left = iter(ports)
    return re.sub(rb"(?m)^(office \S+) \S+$", lambda it: it[1] + b" 127.0.0.1:%d" % next(left), plan)


def frame(run, sender, to, number, count, tag=None, record=None, value=None):
    """A datagram as docs/formats.md lays it out: an acknowledgement where it has no tag."""
    parts = [struct.pack(">2sBBIBBQQ", b"DP", 1, 2 if tag is None else 1, run, sender, to, number, count)]
    parts += [] if tag is None else [struct.pack(">B", tag)]
    parts += [] if record is None else [struct.pack(">H", record)]
    parts += [] if value is None else [struct.pack(">q", value)]
    return b"".join(parts)


class Ran:
    """How a run ended."""

    def __init__(self, status, out, err):
        self.status, self.out, self.err = status, out, err

    def __str__(self):
        return f"status {self.status}, output {self.out[:300]!r}, standard error {self.err[:300]!r}"


class Check:
    """What is tried, and how it went. `work` has the program under the name drink, through a link, and the examples. What `serial` answers,
    and what it says, the program of that one command has to answer and say alike under the same name, where there is one, but for the
    option that writes a file."""

    def __init__(self, program, work, serial, seed):
        self.work, self.seed, self.passed, self.failed, self.statuses, self.alike = work, seed, 0, 0, set(), 0
        self.serial = serial and os.path.join(work, "alone", "drink")
        self.program = os.path.join(work, "bin", "drink")
        self.link = os.path.join(work, "drink")
        os.mkdir(os.path.dirname(self.program))
        shutil.copy(program, self.program)
        if serial:
            os.mkdir(os.path.dirname(self.serial))
            shutil.copy(serial, self.serial)
        os.symlink(os.path.join("bin", "drink"), self.link)
        os.symlink(os.path.join(TOP, "examples"), os.path.join(work, "examples"))
        os.mkdir(os.path.join(work, "folder"))

    def files(self, texts):
        for name, text in texts.items():
            with open(os.path.join(self.work, name), "wb") as file:
                file.write(text)

    def library(self, name):
        """The library that a text in C beside this file makes, to be loaded before those of the program."""
        made = os.path.join(self.work, f"{name}.so")
        if not os.path.exists(made):
            subprocess.run(["cc", "-O2", "-shared", "-fPIC", "-o", made, os.path.join(HERE, f"{name}.c"), "-ldl"], check=True)
        return made

    def calls(self, **told):
        """The environment of a process whose calls of the system are as calls.c says."""
        return {**os.environ, "LD_PRELOAD": self.library("calls"), **{f"CALLS_{name.upper()}": str(it) for name, it in told.items()}}

    def bytes_of(self, name):
        """What a file has; nothing where there is none."""
        try:
            with open(os.path.join(self.work, name), "rb") as file:
                return file.read()
        except OSError:
            return b""

    def forget(self, name):
        """No file of this name is there any more."""
        if os.path.lexists(os.path.join(self.work, name)):
            os.remove(os.path.join(self.work, name))

    def say(self, name, wrong=None):
        self.passed, self.failed = self.passed + (not wrong), self.failed + bool(wrong)
        print(f"FAILED {name}: {wrong}" if wrong else f"ok     {name}", flush=True)

    def equal(self, name, found, wanted):
        self.say(name, None if found == wanted else f"{shown(wanted)} is wanted, and not {shown(found)}")

    def wants(self, name, ran, status, out=None, err=None):
        """Tells whether a run ended as it has to. `out` and `err` are bytes, or a pattern as text, or None for any."""
        wrong = [f"status {status} is wanted"] if ran.status != status else []
        for stream, has, wanted in (("output", ran.out, out), ("standard error", ran.err, err)):
            is_well = wanted is None or (has == wanted if isinstance(wanted, bytes) else re.search(wanted, has.decode(errors="replace")))
            wrong += [] if is_well else [f"on the {stream} {shown(wanted)} is wanted"]
        self.say(name, f"{' and '.join(wrong)}; {ran}" if wrong else None)

    def run(self, words, given=b"", **how):
        """Runs the program on words, a text that is cut at spaces or a list, with this standard input."""
        words = words.split() if isinstance(words, str) else words
        how = {"cwd": self.work, "stdout": subprocess.PIPE, "stderr": subprocess.PIPE, "timeout": SECONDS, **how}
        if "stdin" not in how:
            how["input"] = given
        is_drink = "program" not in how
        ran = ended(how.pop("program", self.link), words, how)
        if is_drink and ran.status is not None:
            self.statuses.add(ran.status)
        if is_drink and self.serial and "stdin" not in how and words[:1] in (["serial"], [b"serial"]) and not any(it[:6] in ("--plan", b"--plan") for it in words):
            self.compare(words, ran, ended(self.serial, words, how))
        return ran

    def compare(self, words, ran, alone):
        """Tells where the program of `serial` alone ends otherwise than the whole one."""
        if (ran.status, ran.out, ran.err) == (alone.status, alone.out, alone.err):
            self.alike += 1
        else:
            self.say(f"drink {shown(words)} by the program of serial alone", f"{ran} is wanted, and not {alone}")

    def shell(self, text, **how):
        return self.run(["-c", text], program="/bin/sh", **how)


def ended(program, words, how):
    """How a run of a program ends."""
    try:
        ran = subprocess.run([program, *words], **how)
    except subprocess.TimeoutExpired:
        return Ran(None, b"", f"it had not ended after {how['timeout']} seconds".encode())
    return Ran(ran.returncode, ran.stdout or b"", ran.stderr or b"")


def shown(what):
    """As much of it as a line can tell."""
    text = repr(what)
    return text if len(text) <= 400 else f"{text[:300]}.. ({len(text)} characters)"
