"""The runs that README.md and docs/manual.md print: each is run, and what it writes compared with what they print; those of offices side by
side, of one that is killed, of the chapter 'Every day', and of the till that asks on its next morning, at ports of this machine that
nobody has."""
import itertools, os, re, shutil, signal, subprocess, threading, time

from common import SECONDS, TOP, at_ports, free_ports
from restarts import line_of
from serve import Service
from sockets import FEWER_TURNS, ended

# How many runs the documents print at least: fewer means that they weren't read.
LEAST_RUNS = {"README.md": 1, "docs/manual.md": 4}

# The branches in the order of the plan.
BRANCHES = ("north", "south", "east", "west")

# The plan of the next day, but for its ports, and what is left for it.
TUESDAY = """plan 1 run 21
office north 127.0.0.1:{}
office south 127.0.0.1:{}
office east 127.0.0.1:{}
office west 127.0.0.1:{}
pair north south fork north
pair south east fork south
pair east west fork east
pair west north fork north
record alice north south 70 at north
record bob south east 80 at south
record carol east west 100 at east
record dave west north 25 at west
"""
LEFT = b"session north\nrequire read dave >= 10 else 1\nset dave = read dave - 10\ngive read dave\nend\n"


def pages(check):
    for name in LEAST_RUNS:
        printed_runs(check, name)
    two_terminals(check)
    as_the_manual_says(check)
    branch_day(check)


def parted(name):
    """A document without its chapter 'Every day', and that chapter, which is run by itself."""
    with open(os.path.join(TOP, name), encoding="utf-8") as file:
        text = file.read()
    chapter = re.search(r"(?ms)^## Every day\n.*?(?=^## )", text)
    return (text.replace(chapter[0], ""), chapter[0]) if chapter else (text, "")


def blocks(text):
    """The fenced blocks of a document, each with the words before it, back to the block above, and those after it."""
    parts = re.split(r"(?m)^```.*\n", text)
    return [(parts[at], parts[at - 1], parts[at + 1]) for at in range(1, len(parts) - 1, 2)]


def is_after_a_run(block):
    """Whether the block takes journals or stores that a run before it has written."""
    return "./drink audit" in block and re.search(r" \w+\.(journal|store)", block) is not None


def printed_runs(check, name):
    """The runs that a document prints, and those that it only gives."""
    found = blocks(parted(name)[0])
    is_run = lambda block: "./drink" in block and not re.search(r"--build|--install|drink run |till\.py", block) and not is_after_a_run(block)
    printed = 0
    for at, (block, _, after) in enumerate(found):
        if not is_run(block):
            continue
        later = list(itertools.takewhile(lambda it: not is_run(it[0]), found[at + 1 :]))
        told = next(((text, it) for text, before, _ in later if (it := re.search(r"prints(?:, with status (\d),)?\s*\Z", before))), None)
        wanted, status = (told[0], int(told[1][1] or 0)) if told else (None, 0)
        said = re.match(r"\s*says ``(.*?) ?``", after)
        ran, shown = check.shell(block), f"{name}: {block.strip()}"
        if said:
            check.wants(shown, ran, 1, b"", f"{said[1].strip()}\n".encode())
        elif wanted is not None:
            check.wants(shown, ran, status, wanted.encode(), b"")
        else:
            check.wants(shown, ran, 0, ".", b"")
        printed += wanted is not None or said is not None
    least = LEAST_RUNS[name]
    check.say(f"{name}: runs with what they print: {printed}", None if printed >= least else f"at least {least} are wanted")


def room_of(check, name, example, count):
    """A folder with the program and the examples, the offices of one of which have ports that nobody has."""
    room = os.path.join(check.work, name)
    shutil.rmtree(room, ignore_errors=True)
    shutil.copytree(os.path.join(TOP, "examples"), os.path.join(room, "examples"))
    shutil.copy(check.program, room)
    ports = free_ports(count)
    with open(os.path.join(room, "examples", example, "plan.txt"), "r+b") as file:
        plan = at_ports(file.read(), ports)
        file.seek(0)
        file.truncate()
        file.write(plan)
    return room, ports


def started_in(room, block, **how):
    """What a block starts, as a process of its own."""
    return subprocess.Popen(["/bin/sh", "-c", f"exec {block}"], cwd=room, stdout=subprocess.PIPE, stderr=subprocess.PIPE, **how)


def two_terminals(check):
    """The runs of single offices that the manual prints, side by side, at ports of their own and with fewer turns; then what it
    prints of the journals that they leave, whichever of them came first."""
    found = blocks(parted("docs/manual.md")[0])
    given = [(block.strip(), found[at + 1][0]) for at, (block, _, after) in enumerate(found) if "drink run " in block and "--store" not in block and after.strip() == "prints"]
    check.say(f"docs/manual.md: offices side by side: {len(given)}", None if len(given) == 2 else "two are wanted")
    room, _ = room_of(check, "room", "two_desks", 2)
    running = [started_in(room, f"{block} --turns {FEWER_TURNS}") for block, _ in given]
    for (block, wanted), it in zip(given, running):
        check.wants(f"docs/manual.md: {block}", ended(it), 0, wanted.encode(), b"")
    audits = [(block.strip(), found[at + 1][0]) for at, (block, _, _) in enumerate(found) if is_after_a_run(block) and ".store" not in block]
    check.say(f"docs/manual.md: audits of offices side by side: {len(audits)}", None if len(audits) == 1 else "one is wanted")
    for block, wanted in audits:
        one, other, *rest = wanted.splitlines(keepends=True)
        orders = [re.escape("".join((*two, *rest))) for two in ((one, other), (other, one))]
        check.wants(f"docs/manual.md: {block}", check.shell(block, cwd=room), 0, rf"\A({'|'.join(orders)})\Z", b"")


def as_the_manual_says(check):
    """The office that the manual kills and starts again, at ports of its own; its neighbour runs beside it."""
    found = blocks(parted("docs/manual.md")[0])
    given = [(block.strip(), found[at + 1][0]) for at, (block, _, after) in enumerate(found[:-1]) if "drink run " in block and "--store" in block and "prints" in after]
    check.say(f"docs/manual.md: starts with a store: {len(given)}", None if len(given) == 3 else "three are wanted")
    if len(given) != 3:
        return
    room, _ = room_of(check, "stores", "two_desks", 2)
    start = lambda block, turns: started_in(room, f"{block} --turns {turns}")
    (one, told), (other, theirs), (again, retold) = given
    # The first may be killed before its neighbour has what it asked for: that asks again, of the one that was started again.
    first, neighbour = start(one, 100_000), start(other, 2 * FEWER_TURNS)
    lines = b"".join(line_of(first) for _ in told.splitlines())
    first.kill()
    check.wants(f"docs/manual.md: {one}", ended(first), -signal.SIGKILL, b"", b"")
    check.equal(f"docs/manual.md: {one}: what it told", lines, told.encode())
    check.wants(f"docs/manual.md: {again}", ended(start(again, 2 * FEWER_TURNS)), 0, retold.encode(), b"")
    check.wants(f"docs/manual.md: {other}", ended(neighbour), 0, theirs.encode(), b"")


class Branch(Service):
    """An office that a block of the chapter starts, in this folder."""

    def __init__(self, room, block, **how):
        self.process, self.said = started_in(room, block, **how), b""


class Day:
    """The chapter's day: its room, and the blocks that start offices, by branch, whether of the next day, and whether their store is made."""

    def __init__(self, check, starts):
        self.check, self.starts = check, starts
        self.room, self.ports = room_of(check, "branches", "branch_day", len(BRANCHES))

    def start(self, *keys):
        """Offices that are started so, at the same time, each of which has to say what the chapter says."""
        branches = [Branch(self.room, self.starts[it][0]) for it in keys]
        for key, branch in zip(keys, branches):
            block, told = self.starts[key]
            self.check.equal(f"docs/manual.md: {block}", b"".join(branch.lines(told.count(b"\n"))), told)
        return branches

    def stops(self, name, branch):
        self.check.equal(f"the branches' day: {name} says no more", branch.kill(), (b"", b""))

    def has(self, name):
        with open(os.path.join(self.room, name), "rb") as file:
            return file.read()


def branch_day(check):
    """A day of four branches, of which one breaks down; the evening's audit, and the next morning."""
    found = blocks(parted("docs/manual.md")[1])
    starts = [(block.strip(), found[at + 1][0].encode()) for at, (block, _, _) in enumerate(found[:-1]) if "./drink serve " in block]
    audits = [(block.strip(), found[at + 1][0]) for at, (block, _, _) in enumerate(found[:-1]) if "./drink audit" in block]
    of = {(re.search(r"(plan|tuesday)\.txt (\w+)", block)[2], "tuesday.txt" in block, "--new" in block): (block, told) for block, told in starts}
    wanted = {*((it, False, True) for it in BRANCHES), ("south", False, False), ("north", True, True)}
    is_whole = set(of) == wanted and len(starts) == len(of) and len(audits) == 1
    check.say(f"docs/manual.md: the branches' day: {len(starts)} starts, {len(audits)} audit", None if is_whole else "six, and one, are wanted")
    if is_whole:
        day = Day(check, of)
        morning(day)
        evening(day, *audits[0])
        next_morning(day)
        till(day, *till_of(blocks(parted("docs/manual.md")[0])))


def morning(day):
    """West breaks down before the others start, and south goes on after it was killed."""
    (west,) = day.start(("west", False, True))
    day.stops("west", west)
    east, south, north = day.start(*((it, False, True) for it in ("east", "south", "north")))
    day.stops("south", south)
    (south,) = day.start(("south", False, False))
    for name, branch in (("east", east), ("south", south), ("north", north)):
        day.stops(name, branch)


def evening(day, block, told):
    lines = told.splitlines(keepends=True)
    orders = [re.escape("".join((*it, *lines[3:]))) for it in itertools.permutations(lines[:3])]
    day.check.wants(f"docs/manual.md: {block}", day.check.shell(block, cwd=day.room), 0, rf"\A({'|'.join(orders)})\Z", b"")
    day.check.equal("the branches' day: the plan of the next", day.has("tuesday.txt"), TUESDAY.format(*day.ports).encode())
    day.check.equal("the branches' day: what is left", day.has("left.txt"), LEFT)


def next_morning(day):
    west = Branch(day.room, "./drink serve tuesday.txt west --store west.tuesday --new < /dev/null")
    day.check.equal("the branches' day: west is back", west.line(), b"ready 0\n")
    (north,) = day.start(("north", True, True))
    day.stops("north in the morning", north)
    day.stops("west in the morning", west)
    ran = day.check.shell("./drink serve tuesday.txt south --store south.store < /dev/null", cwd=day.room)
    day.check.wants("the branches' day: yesterday's store under the next plan", ran, 1, b"", r"\Adrink: south\.store: line 1: U5 StoreFaulty: [^\n]*\n\Z")


def till_of(found):
    """How the manual starts its till, and what that prints."""
    return next((block.strip(), found[at + 1][0]) for at, (block, _, _) in enumerate(found) if "till.py" in block)


def till(day, block, told):
    """The till asks while nobody has what its session needs. Its office is killed, and started again by it. So is the till itself, with its
    office, once the session is done; then it asks for one more, which its office doesn't take any more before it is killed."""
    asking = Branch(day.room, block, start_new_session=True)
    comes_to_be(day, "the till's session is submitted", lambda: day.has("west.tuesday").count(b" submit "), 1)
    (office,) = children_of(asking.process.pid)
    os.kill(office, signal.SIGKILL)
    comes_to_be(day, "the till's office is another process", lambda: children_of(asking.process.pid) not in ([], [office]), True)
    north = Branch(day.room, "./drink serve tuesday.txt north --store north.tuesday < /dev/null")
    day.check.equal(f"docs/manual.md: {block}", asking.line(), told.encode())
    os.killpg(asking.process.pid, signal.SIGKILL)
    day.check.equal("the branches' day: the till says no more", asking.kill(), (b"", b""))
    later = os.path.join(day.room, "later")
    os.mkfifo(later)
    again = Branch(day.room, block.replace(" -- ", " later -- "))
    day.check.equal(f"docs/manual.md: again: {block}", again.line(), told.encode())
    (office,) = children_of(again.process.pid)
    os.kill(office, signal.SIGSTOP)
    asks = threading.Thread(target=day.check.shell, args=("cat examples/branch_day/west.txt > later",), kwargs={"cwd": day.room}, daemon=True)
    asks.start()
    asks.join(SECONDS)
    os.kill(office, signal.SIGKILL)
    day.check.equal("the branches' day: what the office didn't take is asked again", again.line(), b"west.2 done reads dave=20 writes dave=25 gives 25\n")
    day.check.equal("the branches' day: the till ends well", again.end(), (0, b"", b""))
    day.check.equal("the branches' day: each session of the till is submitted once", day.has("west.tuesday").count(b" submit "), 2)
    north.kill()


def children_of(process):
    """The processes that a process has started, and that haven't ended."""
    found = []
    for it in filter(str.isdigit, os.listdir("/proc")):
        try:
            with open(f"/proc/{it}/stat", encoding="ascii", errors="replace") as file:
                state, parent = file.read().rpartition(")")[2].split()[:2]
        except OSError:
            continue
        found += [int(it)] if int(parent) == process and state != "Z" else []
    return found


def comes_to_be(day, name, found, wanted):
    """Waits until this is so."""
    end = time.monotonic() + SECONDS
    while found() != wanted and time.monotonic() < end:
        time.sleep(0.02)
    day.check.equal(f"the branches' day: {name}", found(), wanted)
