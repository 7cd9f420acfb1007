"""A store on a disk: a file that ends within a line, one that another process has, a disk without room, a process that is killed, each call
of the system that fails, and the order of all calls: crates/journal_stores_disk appends what it reads to such a store."""
import errno, os, random, re, resource, shutil, signal, subprocess, tempfile, time

from common import SECONDS, program_of

NAME = "a.journal"
LINES = b"".join(b"0 took %064x = taken\n" % k for k in range(40))
KILLS = 30
IN_USE, FAILED = b"the store is in use\n", b"U4 StoreFailed\n"


class Store:
    """The program that keeps a store, and where."""

    def __init__(self, check):
        self.check, self.program = check, program_of("journal_stores_disk")
        self.work = os.path.join(check.work, "disks")
        os.mkdir(self.work)
        os.chmod(self.work, 0o755)

    def says(self, what, fault):
        self.check.say(f"disks: {what}", fault or None)

    def folder(self):
        return tempfile.mkdtemp(dir=self.work)

    def run(self, folder, word, text=b"", **more):
        ran = subprocess.run([self.program, word, NAME], cwd=folder, input=text, capture_output=True, timeout=SECONDS, **more)
        return ran.returncode, ran.stdout

    def start(self, folder, word):
        return subprocess.Popen([self.program, word, NAME], cwd=folder, stdin=subprocess.PIPE, stdout=subprocess.PIPE)


def bytes_in(folder):
    with open(os.path.join(folder, NAME), "rb") as file:
        return file.read()


def put(folder, text):
    with open(os.path.join(folder, NAME), "wb") as file:
        file.write(text)


def stood(out):
    """The number of bytes that a run told last as standing."""
    told = re.findall(rb"^stands (\d+)$", out, re.M)
    return int(told[-1]) if told else 0


def whole(text):
    return text[: text.rfind(b"\n") + 1]


def wants(got, want):
    return "" if got == want else f"{got!r} in place of {want!r}"


def goes_on(store, what, folder, told, lines):
    """What a run told as standing is found, as a beginning of these lines; the store goes on after the whole lines of it."""
    found = bytes_in(folder)
    fault = "" if lines.startswith(found) and len(found) >= told else f"{len(found)} bytes found, {told} told as standing"
    kept = whole(found)
    status, out = store.run(folder, "go_on", lines[len(kept) :])
    fault = fault or wants(status, 0) or wants(out.split(b"\n")[:2], [b"found %d" % len(found), b"stands %d" % len(kept)])
    store.says(what, fault or wants(bytes_in(folder), lines))


def torn(store):
    lines = LINES[: 3 * len(LINES) // 40]
    for cut in range(len(lines) + 1):
        folder = store.folder()
        put(folder, lines[:cut])
        found = lines[:cut]
        status, out = store.run(folder, "go_on", lines[len(whole(found)) :])
        fault = wants(status, 0) or wants(bytes_in(folder), lines) or wants(out.split(b"\n")[0], b"found %d" % cut)
        if fault or cut == len(lines):
            store.says(f"a file that ends after each number of bytes, up to {cut}", fault)
            return


def made_once(store):
    folder = store.folder()
    status, out = store.run(folder, "go_on")
    store.says("no file is there to go on", wants(status, 1) or wants(os.listdir(folder), []))
    status, out = store.run(folder, "create", LINES)
    store.says("made, with all lines", wants(status, 0) or wants(stood(out), len(LINES)) or wants(bytes_in(folder), LINES))
    status, out = store.run(folder, "create", LINES)
    store.says("not made twice", wants(status, 1) or wants(bytes_in(folder), LINES))
    for name, make in (("a folder", os.mkdir), ("a pipe", os.mkfifo), ("a device", lambda at: os.symlink("/dev/zero", at)), ("a file that may not be written", None)):
        folder = store.folder()
        at = os.path.join(folder, NAME)
        if make:
            make(at)
        else:
            put(folder, LINES)
            os.chmod(at, 0o444)
            os.chmod(folder, 0o755)
            os.chmod(store.work, 0o755)
        more = {} if make else {"user": 65534}
        try:
            status, out = store.run(folder, "go_on", LINES, **more)
            store.says(f"{name} is no store", wants(status, 1))
        except subprocess.TimeoutExpired:
            store.says(f"{name} is no store", "the run doesn't end")


def held(store):
    folder = store.folder()
    first = store.start(folder, "create")
    first.stdin.write(LINES)
    first.stdin.flush()
    while b"stands %d\n" % len(LINES) != first.stdout.readline():
        pass
    ran = store.run(folder, "go_on", LINES)
    store.says("a second process doesn't get it", wants(ran, (1, IN_USE)) or wants(bytes_in(folder), LINES))
    first.kill()
    first.wait()
    status, out = store.run(folder, "go_on")
    store.says("once the first was killed, another gets it", wants((status, out), (0, b"found %d\nstands %d\n" % (len(LINES), len(LINES)))))


def without_room(store):
    for room in (0, 1, 79, 80, 81, 1000, 1700):
        folder = store.folder()

        def small():
            signal.signal(signal.SIGXFSZ, signal.SIG_IGN)
            resource.setrlimit(resource.RLIMIT_FSIZE, (room, room))

        status, out = store.run(folder, "create", LINES, preexec_fn=small, restore_signals=False)
        fault = wants(status, 1) or wants(out.endswith(FAILED), True)
        if fault:
            store.says(f"a file that may have {room} bytes", fault)
        else:
            goes_on(store, f"a file that may have {room} bytes: {len(bytes_in(folder))} found, {stood(out)} stood", folder, stood(out), LINES)


def full_disk(store):
    folder = store.folder()
    if subprocess.run(["mount", "-t", "tmpfs", "-o", "size=16k", "stores", folder], capture_output=True).returncode:
        print("not tried: a disk of 16 KiB, since none can be mounted")
        return
    try:
        lines = LINES * 20
        status, out = store.run(folder, "create", lines)
        fault = wants(status, 1) or wants(out.endswith(FAILED), True)
        found = bytes_in(folder)
        fault = fault or ("" if lines.startswith(found) and len(found) >= stood(out) else "what stood isn't found")
        store.says(f"a disk of 16 KiB: {len(found)} found, {stood(out)} stood", fault)
        subprocess.run(["mount", "-o", "remount,size=1m", folder], check=True)
        goes_on(store, "the same, with more room", folder, stood(out), lines)
    finally:
        subprocess.run(["umount", folder], check=True)


def killed(store):
    lost = amid = 0
    for k in range(KILLS):
        folder = store.folder()
        lines = LINES * 50
        process = store.start(folder, "create")
        writer = os.fork()
        if writer == 0:
            try:
                process.stdin.write(lines)
                process.stdin.flush()
            except BrokenPipeError:
                pass
            os._exit(0)
        process.stdin.close()
        time.sleep(random.Random(k).uniform(0.005, 0.1))
        process.kill()
        out = process.stdout.read()
        process.wait()
        os.waitpid(writer, 0)
        if not os.path.exists(os.path.join(folder, NAME)):
            continue
        found = bytes_in(folder)
        lost += not (lines.startswith(found) and len(found) >= stood(out))
        amid += 0 < len(found) < len(lines)
        shutil.rmtree(folder)
    store.says(f"killed {KILLS} times, {amid} of these while it appends", f"{lost} times what stood isn't found" if lost else "")


def notes_of(noted):
    """The calls that calls.c noted of a process, in order: name, descriptor, answer and bytes."""
    with open(noted, encoding="ascii") as file:
        lines = [it.rstrip("\n").split(" ") for it in file]
    os.remove(noted)
    return [(call, at, answer, bytes.fromhex(text)) for call, at, answer, text in lines]


def calls_of(noted, name=NAME):
    """The calls on the store of that name and its folder, and those that tell what stands."""
    names, calls = {}, []
    for call, at, answer, text in notes_of(noted):
        if call == "open":
            names[answer] = {name.encode(): "store", b".": "folder"}.get(text)
            calls += [f"open {names[answer]}"] if names[answer] else []
        elif names.get(at):
            calls.append(f"{call} {names[at]}")
        elif call == "write" and b"stands" in text:
            calls.append("tell")
    return [it for it in calls if not it.startswith("read")]


def in_order(store):
    """Which calls make a store stand, in which order, and that none comes after one that failed."""
    opened = ["open store", "flock store", "fsync store", "open folder", "fsync folder"]
    line = ["write store", "fdatasync store", "tell"]
    noted, lines = os.path.join(store.work, "noted"), LINES[: 2 * len(LINES) // 40]
    folder = store.folder()
    store.run(folder, "create", lines, env=store.check.calls(noted=noted))
    store.says("made: held, synced with its folder; then each line written, synced and told", wants(calls_of(noted), opened + ["tell"] + line * 2))
    put(folder, lines[:100])
    store.run(folder, "go_on", lines[80:], env=store.check.calls(noted=noted))
    store.says("found: held, synced with its folder; then cut, and synced", wants(calls_of(noted), opened + ["ftruncate store", "fsync store", "tell"] + line))
    for call, when, word, want in (
        ("flock", 1, "create", opened[:2]),
        ("fsync", 1, "create", opened[:3]),
        ("fsync", 2, "create", opened),
        ("fdatasync", 1, "create", opened + ["tell"] + line[:2]),
        ("fdatasync", 2, "create", opened + ["tell"] + line + line[:2]),
        ("ftruncate", 1, "go_on", opened + ["ftruncate store"]),
        ("fsync", 3, "go_on", opened + ["ftruncate store", "fsync store"]),
    ):
        folder = store.folder()
        if word == "go_on":
            put(folder, lines[:100])
        status, out = store.run(folder, word, lines, env=store.check.calls(noted=noted, fail=f"{call} {when} {when} {errno.EIO}"))
        store.says(f"{call} {when} of {word} fails: nothing comes after it", wants(status, 1) or wants(calls_of(noted), want))


def disks(check):
    store = Store(check)
    if not os.path.exists(store.program):
        check.say("disks", f"{store.program} isn't built: `rt run` in its crate builds it")
        return
    for part in (made_once, torn, held, without_room, full_disk, killed):
        part(store)
    if shutil.which("cc"):
        in_order(store)
    else:
        print("not tried: calls of a store in order, since there is no C compiler")
