"""The evening that examples/branch_day/evening.sh does by itself: of offices that run, killed at each of its steps and started again, of
offices at another machine, and what it refuses. In the place of systemctl, ssh and scp stand scripts of this module. Before it the units
that stand beside it: that systemd reads them, and that an office stands what they forbid."""
import fcntl, os, re, shutil, signal, subprocess, sys, time

from common import SECONDS, TOP, Ran, at_ports, free_ports
from days import TILL
from pages import BRANCHES, LEFT, TUESDAY

EXAMPLES = os.path.join(TOP, "examples")
SCRIPT = os.path.join(EXAMPLES, "branch_day", "evening.sh")

# What evening.sh calls that changes something, and what it is killed at. Between two of these it only looks, or marks what is done.
CHANGES = ("cp", "drink", "ln", "mkdir", "mv", "systemctl", "touch")
# Goes before each of these: the call of the number KILL ends the script and all that it began, a copy in its midst, and what can't be in its
# midst once it is done.
COUNTS = """#!/bin/sh
name=${0##*/}
read -r count < "$COUNT"
count=$((count + 1))
echo $count > "$COUNT"
if [ $count = "$KILL" ]; then
    case $name in
    cp) head -c 20 "$1" > "$2" ;;
    mv | systemctl) "$TOOLS/$name" "$@" ;;
    esac
    kill -9 0
fi
exec "$TOOLS/$name" "$@"
"""
# Notes what is asked of it. Where OFFICES isn't said an office is no more than a store, to which it writes when it is started, and the last of
# a day when it is stopped. Where it is, offices are started and ended as by the units of examples/branch_day: the folder of one is in that
# folder, under its name.
CONTROL = f"#!{sys.executable}" + """
import os, signal, subprocess, sys, time


def runs(process):
    try:
        with open(f"/proc/{process}/stat") as file:
            return file.read().rpartition(")")[2].split()[0] != "Z"
    except OSError:
        return False


does, name = sys.argv[1], sys.argv[3].removeprefix("drink@").removesuffix(".service")
assert sys.argv[2:] == [f"drink@{name}.socket", f"drink@{name}.service"], sys.argv
with open(os.environ["NOTES"], "a") as notes:
    print(does, f"drink@{name}", file=notes)
home = os.path.join(os.environ.get("OFFICES", ""), name)
day, pid = os.path.join(home, "today"), os.path.join(home, "pid")
if "OFFICES" not in os.environ:
    with open("today/store", "a") as store:
        store.write("begun\\n" if does == "start" else open("last").read())
    open("last", "w").close()
elif does == "stop" and os.path.exists(pid):
    process = int(open(pid).read())
    os.kill(process, signal.SIGTERM)
    while runs(process):
        time.sleep(0.01)
    os.remove(pid)
elif does == "start" and not os.path.exists(os.path.join(day, "closed")) and not os.path.exists(pid):
    asks = os.open(os.path.join(home, "asks"), os.O_RDWR)
    words = [os.environ["MADE"], "serve", "plan.txt", name, "--store", "store"]
    with open(os.path.join(day, "said"), "ab") as said:
        it = subprocess.Popen(words, cwd=day, stdin=asks, stdout=said, stderr=said, start_new_session=True)
    with open(pid, "w") as file:
        file.write(str(it.pid))
"""
# Other machines than this are folders of it.
OTHER = {
    "ssh": '#!/bin/sh\n[ "$1 $2" = "-n drink@far" ] && shift 2 && exec sh -c "$@"\n',
    "scp": '#!/bin/sh\ncase $1 in drink@far:*) exec cp "${1#*:}" "$2" ;; esac\nexec cp "$1" "${2#drink@far:}"\n',
}
REPORT = b"till.1 done reads cash=1250 locked=4000 writes cash=200 locked=5050 gives 1050\nunfinished 0\nvalue cash 200\nvalue locked 5050\n"
STEPS = ("compare", "close", "fetch", "send", "open")
TWO = ("till", "safe")
# At so many calls it is killed: 12 for each of two offices, and 3 for the audit.
KILLS = 27


class Evening:
    """A folder with `head`, where the script works, and one for each office, which has its day in it."""

    def __init__(self, check, name, names, run, plan):
        self.check, self.top, self.names, self.run = check, os.path.join(check.work, name), names, run
        shutil.rmtree(self.top, ignore_errors=True)
        for it in (f"head/{run}", "tools", "counts", *(f"{it}/{run}" for it in names)):
            os.makedirs(self.path(it))
        self.write(f"head/{run}/plan.txt", plan)
        for it in names:
            self.write(f"{it}/{run}/plan.txt", plan)
            os.symlink(str(run), self.path(f"{it}/today"))
        self.places(lambda it: self.path(it))
        for it in CHANGES:
            self.write(f"counts/{it}", COUNTS, 0o755)
            if it != "systemctl":
                os.symlink(check.program if it == "drink" else shutil.which(it), self.path(f"tools/{it}"))
        for it, text in {"systemctl": CONTROL, **OTHER}.items():
            self.write(f"tools/{it}", text, 0o755)

    def path(self, name):
        return os.path.join(self.top, name)

    def places(self, place):
        self.write("head/offices.txt", "# where they are\n" + "\n".join(f"{it} {place(it)}" for it in self.names))

    def write(self, name, text, mode=0o644):
        with open(self.path(name), "wb") as file:
            file.write(text.encode() if isinstance(text, str) else text)
        os.chmod(self.path(name), mode)

    def has(self, name):
        return self.check.bytes_of(self.path(name))

    def does(self, kill=0, **named):
        """How the script ends, which may be killed at a call."""
        self.write("count", "0\n")
        path = ":".join((self.path("counts"), self.path("tools"), os.environ["PATH"])) if kill else ":".join((self.path("tools"), os.environ["PATH"]))
        said = {"PATH": path, "TOOLS": self.path("tools"), "COUNT": self.path("count"), "KILL": str(kill), "NOTES": self.path("notes"), "MADE": self.check.program}
        it = subprocess.Popen([SCRIPT, str(self.run), "offices.txt"], cwd=self.path("head"), env={**os.environ, "COPY": "cp", **said, **named}, stdout=subprocess.PIPE, stderr=subprocess.PIPE, start_new_session=True)
        out, err = it.communicate(timeout=SECONDS)
        return Ran(it.returncode, out, err)

    def notes(self):
        return self.has("notes").decode().splitlines()


def two_offices(check, name):
    """The day of the till and the safe, which has ended."""
    with open(os.path.join(EXAMPLES, "till_and_safe", "plan.txt"), "rb") as file:
        it = Evening(check, name, TWO, 12, file.read())
    for office in TWO:
        with open(os.path.join(EXAMPLES, "till_and_safe", f"{office}.journal"), "rb") as file:
            *lines, last = file.read().splitlines(keepends=True)
        it.write(f"{office}/12/store", b"".join(lines))
        it.write(f"{office}/last", last)
    return it


def evenings(check):
    units(check)
    as_it_is_done(check)
    killed(check)
    elsewhere(check)
    refused(check)


def units(check):
    """systemd reads the units without a word."""
    if not shutil.which("systemd-analyze"):
        print("not tried: the units of examples/branch_day, since there is no systemd-analyze")
        return
    names = ("drink@north.service", "drink@north.socket")
    for it in names:
        with open(os.path.join(EXAMPLES, "branch_day", it.replace("north", "")), "rb") as file:
            text = file.read()
        check.equal(f"{it}: it says where the program is", text.count(b"/usr/local/bin/drink "), 1 if it.endswith("service") else 0)
        check.files({it: text.replace(b"/usr/local/bin/drink ", f"{check.program} ".encode())})
    ran = check.run(["verify", "./" + names[0], "./" + names[1]], program="systemd-analyze")
    check.wants("the units of examples/branch_day", ran, 0, b"", b"")
    if shutil.which("strace"):
        stands(check, check.bytes_of(names[0]).decode())
    else:
        print("not tried: whether the program stands what its unit forbids, since there is no strace")


def stands(check, unit):
    """An office that serves makes no call of the system that its unit forbids: here one that asks a neighbour, which isn't there."""
    with open(os.path.join(EXAMPLES, "branch_day", "plan.txt"), "rb") as file:
        check.files({"day.txt": at_ports(file.read(), free_ports(len(BRANCHES)))})
    check.forget("traced.store")
    words = "-f -qq -o trace.txt ./drink serve day.txt north --store traced.store --new --status 1 < examples/branch_day/north.txt"
    ran = check.shell(f"timeout -s INT 4 strace {words}")
    check.say("an office under strace", None if ran.out == b"ready 0\nticket 1\n" and b"never heard west" in ran.err else str(ran))
    trace = check.bytes_of("trace.txt").decode(errors="replace")
    made, sets = set(re.findall(r"(?m)^\d+ +(\w+)\(", trace)), system_calls(check)
    allowed = set()
    for sign, name in re.findall(r"(?m)^SystemCallFilter=(~?)(@\S+)$", unit):
        allowed = allowed - sets[name] if sign else allowed | sets[name]
    missing = {"fdatasync", "flock", "openat", "read", "recvfrom", "sendto", "write"} - made
    check.equal("the calls of an office are seen, and its unit allows them", (missing, made - allowed), (set(), set()))
    check.equal("an office writes no code, and has sockets of IPv4 alone", re.findall(r"PROT_WRITE\|PROT_EXEC|mprotect\([^)]*PROT_EXEC|socket\((?!AF_INET,)\w+", trace), [])


def system_calls(check):
    """By the name of a set of systemd's the calls that it has."""
    listed = check.run("syscall-filter", program="systemd-analyze").out.decode()
    within = {it.split()[0]: [line.strip() for line in it.splitlines()[1:] if not line.strip().startswith("#")] for it in listed.split("\n\n") if it.startswith("@")}
    calls = lambda name: set().union(*(calls(it) if it.startswith("@") else {it} for it in within.get(name, ())))
    return {it: calls(it) for it in within}


def done(it):
    """What isn't as it has to be once the next day has begun: each office has its plan, and a store that was new before it was first started;
    all were stopped before one was started."""
    wrong = []
    for office in it.names:
        calls = [call.split()[0] for call in it.notes() if call.endswith(f" drink@{office}")]
        wanted = {"plan.txt": TILL, "left.txt": b"", "store": b"begun\n" * calls.count("start")}
        has = {file: it.has(f"{office}/today/{file}") for file in wanted}
        days = os.readlink(it.path(f"{office}/today")), [at for at in ("12", "13") if os.path.exists(it.path(f"{office}/{at}/closed"))]
        wrong += [] if (has, days, set(calls)) == (wanted, ("13", ["12"]), {"stop", "start"}) else [f"{office} has {has}, {days}, and was asked to {calls}"]
    asked = [call.split()[0] for call in it.notes()]
    wrong += [] if asked == sorted(asked, reverse=True) else [f"asked for {it.notes()}"]
    return wrong + ([] if it.has("head/12/report.txt") == REPORT else ["another report"])


def wants_done(check, name, it, ran, out):
    """The script ended well, having said this, and the next day has begun."""
    wrong = done(it) + ([] if (ran.status, ran.err) == (0, b"") and re.search(out, ran.out.decode()) else [str(ran)])
    check.say(f"evening: {name}", "; ".join(wrong) or None)


def killed(check):
    """Killed at each call that changes something, and started again."""
    for kill in range(1, KILLS + 1):
        it = two_offices(check, "killed")
        check.equal(f"evening: killed at its call {kill}", it.does(kill).status, -signal.SIGKILL)
        wants_done(check, f"killed at its call {kill}, and started again", it, it.does(), rf"{REPORT.decode()}\Z")
    it = two_offices(check, "killed")
    told = "".join(f"{step} {office}\n" for step in STEPS for office in TWO)
    wants_done(check, "not killed", it, it.does(KILLS + 1), rf"\A{told}{REPORT.decode()}\Z")
    wants_done(check, "done again", it, it.does(), rf"\A{REPORT.decode()}\Z")


def elsewhere(check):
    """The offices are at another machine."""
    it = two_offices(check, "elsewhere")
    it.places(lambda office: f"drink@far:{it.path(office)}")
    wants_done(check, "of another machine", it, it.does(COPY="scp"), rf"{REPORT.decode()}\Z")


def refused(check):
    """What isn't the offices' day, or the day after it: nothing is done then that isn't safe."""
    whole = two_offices(check, "refused")
    plan, last = whole.has("head/12/plan.txt"), whole.has("safe/last")
    other, tuesday, changed = plan.replace(b" 1250 ", b" 1260 "), TILL.replace(b" 200 ", b" 300 "), last.replace(b"0fa0\n", b"1004\n")
    assert other != plan and tuesday != TILL and changed != last
    for name, file, text, said, stops in (
        ("another Monday's plan", "head/12/plan.txt", other, r"differ: [^\n]*\n[^\n]*\nevening: can't compare till safe\n\Z", False),
        ("an office under another Monday's plan", "safe/12/plan.txt", other, r"differ: [^\n]*\nevening: can't compare safe\n\Z", False),
        ("a Tuesday that isn't Monday's audit", "head/13/plan.txt", tuesday, r"differ: [^\n]*\nevening: \./13/plan\.txt isn't what the audit of 12 gives\n\Z", True),
        ("an office that has another Tuesday's plan", "safe/13/plan.txt", tuesday, r"differ: [^\n]*\nevening: can't send safe\n\Z", True),
        ("a store that was changed", "safe/last", changed, r"\Aevening: the audit of 12: unwoven safe 3\n\Z", True),
        ("a day without a plan", "head/12/plan.txt", b"", r"\Aevening: 12/plan\.txt has no plan\n\Z", False),
    ):
        it = two_offices(check, "refused")
        os.makedirs(os.path.dirname(it.path(file)), exist_ok=True)
        it.write(file, text)
        for again in ("", ", again"):
            check.wants(f"evening: {name}{again}", it.does(), 1, None, said)
        check.equal(f"evening: {name}: what it asks for", it.notes(), [f"stop drink@{office}" for office in TWO] if stops else [])
        check.equal(f"evening: {name}: what it has", it.has(file), b"" if file == "safe/last" else text)
        if file != "safe/13/plan.txt":
            check.equal(f"evening: {name}: nothing is sent", [sorted(os.listdir(it.path(office))) for office in TWO], [["12", "last", "today"]] * 2)
    unplugged(check)
    at_the_same_time(check)


def unplugged(check):
    """An office can't be reached: the other is closed, nothing is opened, and it goes on once the office is back."""
    it = two_offices(check, "unplugged")
    check.wants("evening: up to the audit", it.does(DRINK="false"), 1, None, r"\Aevening: the audit of 12: \n\Z")
    os.rename(it.path("till"), it.path("away"))
    check.wants("evening: an office is unplugged", it.does(), 1, b"send safe\n", r"evening: can't send till\n\Z")
    check.equal("evening: an office is unplugged: none is started", [call for call in it.notes() if call.startswith("start")], [])
    os.rename(it.path("away"), it.path("till"))
    wants_done(check, "it is back", it, it.does(), r"\Asend till\nopen till\nopen safe\n")


def at_the_same_time(check):
    it = two_offices(check, "twice")
    with open(it.path("head/12/lock"), "w") as lock:
        fcntl.flock(lock, fcntl.LOCK_EX)
        check.wants("evening: another one is at work", it.does(), 1, b"", r"\Aevening: another one is at work in 12\n\Z")
    os.remove(it.path("head/offices.txt"))
    check.wants("evening: no offices", it.does(), 1, b"", r"\Aevening: offices\.txt can't be read\n\Z")


def as_it_is_done(check):
    """The manual's day, up to the next morning, by the script alone: West breaks down at noon."""
    with open(os.path.join(EXAMPLES, "branch_day", "plan.txt"), "rb") as file:
        ports = free_ports(len(BRANCHES))
        plan = at_ports(file.read(), ports)
    it = Evening(check, "an evening", BRANCHES, 20, plan)
    offices = {"OFFICES": it.top}
    control = lambda *words: subprocess.run([it.path("tools/systemctl"), *words], env={**os.environ, **offices, "NOTES": it.path("notes"), "MADE": check.program}, check=True)
    units = lambda office: (f"drink@{office}.socket", f"drink@{office}.service")
    for office in BRANCHES:
        os.mkfifo(it.path(f"{office}/asks"))
        it.write(f"{office}/20/store", b"")
    try:
        for office in ("west", "east", "south", "north"):
            control("start", *units(office))
            asks(it, office, os.path.join(EXAMPLES, "branch_day", f"{office}.txt"))
            if office == "west":
                wants_said(check, it, office, "20", r"\Aready 0\nticket 1\nwest\.1 done ")
                control("stop", *units(office))
        for office in ("east", "south", "north"):
            wants_said(check, it, office, "20", rf"\Aready 0\nticket 1\n{'' if office == 'north' else f'{office}.1 done '}")
        check.wants("evening: of four offices", it.does(**offices), 0, r"(?s)\Acompare north\n.*open west\n.*unfinished 1\nvalue alice 70\nvalue bob 80\nvalue carol 100\nvalue dave 25\n\Z", b"")
        check.equal("evening: of four offices: the next plan", [it.has(f"{office}/today/plan.txt") for office in BRANCHES], [TUESDAY.format(*ports).encode()] * 4)
        check.equal("evening: of four offices: what is left", [it.has(f"{office}/today/left.txt") for office in BRANCHES], [LEFT, b"", b"", b""])
        asks(it, "north", it.path("north/today/left.txt"))
        wants_said(check, it, "north", "21", r"\Aready 0\nticket 1\nnorth\.1 done reads dave=25 writes dave=15 gives 15\n\Z")
    finally:
        for office in BRANCHES:
            control("stop", *units(office))


def asks(it, office, file):
    """Asks an office for the sessions of a file, by its FIFO."""
    with open(file, "rb") as sessions, open(it.path(f"{office}/asks"), "wb") as fifo:
        fifo.write(sessions.read())


def wants_said(check, it, office, day, said):
    """What an office has said, within the time that it may take."""
    name, end = f"{office}/{day}/said", time.monotonic() + SECONDS
    while not re.search(said, it.has(name).decode()) and time.monotonic() < end:
        time.sleep(0.02)
    check.say(f"evening: what {office} says on day {day}", None if re.search(said, it.has(name).decode()) else repr(it.has(name)))
