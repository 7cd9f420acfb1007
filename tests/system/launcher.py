"""The script `drink` at the top, `tools/build` and `tools/install`: which words build what and in which order, what answers where nothing
is built or a source is newer, that words go on as they are, and what is installed. They run in checkouts of their own, where a stand-in
takes the place of rt."""
import hashlib, os, re, shutil, subprocess, sys

from common import ANSWER, PLAN, TOP

# Does in a room what rt does there: notes the words that it was called with, and makes the program; that of `serial` alone says its name.
# It fails at a crate in which another rt may work, and at FAILS; where this is `left`, `right` takes long, and where it is `stops`, the build
# is told to end. At `low` it changes the source CHANGES of the checkout, and no room may have the change.
STAND_IN = """#!/bin/sh
name=$(basename "$(pwd)")
[ "$1" = try ] || { mkdir -p out/rlib; echo begun > out/begun; }
words=$name
for it; do words="$words [$it]"; done
printf '%s\\n' "$words" >> "$NOTES"
[ "$1" != try ] || { shift 2; cd / && exec "$MADE" "$@"; }
for below in ../*; do
    [ "$below" = "../$name" ] || [ -e "$below/out/rlib/stamp" ] || { echo "$below isn't built"; exit 1; }
done
! flock -n "$CRATES/$name" true || { echo "another rt may work in $name"; exit 1; }
case $FAILS$name in
left*right) exec sleep 100 ;;
stops*) kill "$PPID"; exec sleep 100 ;;
"$name$name") echo "fn $name::gone: not proved"; exit 1 ;;
esac
[ "$name" != low ] || [ -z "$CHANGES" ] || echo changed > "$CHANGES"
! grep -q changed ../*/src/lib.rt || { echo "a source was changed meanwhile"; exit 1; }
echo made > out/rlib/stamp
[ "$1" != run ] || cp "$MADE" "out/$name"
[ "$name" != serial_answer ] || printf '#!/bin/sh\\necho serial alone >&2\\nexec "%s" "$@"\\n' "$MADE" > out/serial_answer
"""

# A few crates in place of all: two that no program stands on, and three below the program, of which two are below the one of `serial`.
FEW = """# NAME: the libraries that it stands on
low: thiserror
left may_wait=1: low  # aside
right: thiserror low
aside: low
low_tests: low left
serial_answer: left
drink: left right
"""
PROGRAMS = ("drink", "serial_answer")
PARTS = (("src", "lib.rt"), ("specs", "S.antt"), ("proofs", "P.antt"))
# Temporary files on another file system, to which nothing can be linked.
MEMORY = "/dev/shm"

SERIAL = "serial plan.txt sessions.txt"
WHOLE = "sim plan.txt sessions.txt script.txt"
# Words that build nothing: other commands, help, the version, none, and what is no command line.
OTHERS = (WHOLE, "audit nowhere.txt a.journal", "--help", "help serial", "--version", "", "seriel a b", "--build serial", "-- serial a b", "--install .")
WAYS = r"\. \./drink --build proves and builds it: from nothing in about an hour[^\n]*\n\./drink serial PLAN SESSIONS [^\n]*\n\Z"
UNBUILT, NEWER = rf"\Adrink: the program isn't built{WAYS}", rf"\Adrink: a source is newer than the program{WAYS}"
NOT_PROVED = r"\nfn {0}::gone: not proved\ndrink: {0} was not proved, so the program was not built\n\Z"
NO_RT = b"drink: there is no rt, the command of the kit that README.md names\n"

# The run without a proof that README gives, and what it prints.
UNPROVED = '(e=$PWD/examples/branch_ledger; cd crates/serial_answer && rt try -- serial "$e/plan.txt" "$e/sessions.txt")'
LEDGER = b"""north.1 done reads alice=100 bob=20 writes alice=70 bob=50 gives 70 50
south.1 refused 1 reads bob=50 carol=75 writes - gives -
east.1 done reads carol=75 writes carol=100 gives 100
value alice 70
value bob 50
value carol 100
"""


def stands_on(text):
    """By crate of a crates.txt the libraries that it names."""
    lines = [it.split("#")[0] for it in text.splitlines()]
    return {it.split(":")[0].split()[0]: it.split(":")[1].split() for it in lines if ":" in it}


def all_below(named, crate):
    """The crate and those that it stands on."""
    return {crate}.union(*(all_below(named, it) for it in named[crate] if it in named))


def parts_of(crate):
    return PARTS[:1] if crate in PROGRAMS else PARTS


class Checkout:
    """A checkout with the script `drink` and crates that have nothing. Its path has a blank."""

    def __init__(self, check, name, crates):
        self.check, self.top = check, os.path.join(check.work, name)
        self.notes, self.bin = os.path.join(check.work, f"{name} notes"), os.path.join(check.work, f"{name} rt")
        named = stands_on(crates)
        self.below = {it: all_below(named, it) & set(named) for it in named}
        for folder in (self.top, os.path.join(self.top, "tools"), self.bin):
            os.mkdir(folder)
        for file in ("drink", os.path.join("tools", "build"), os.path.join("tools", "install")):
            shutil.copy(os.path.join(TOP, file), os.path.join(self.top, file))
        self.write("crates.txt", crates)
        for crate in named:
            for part in parts_of(crate):
                self.write(os.path.join("crates", crate, *part), "")
        os.chmod(self.write(os.path.join(self.bin, "rt"), STAND_IN), 0o755)

    def path(self, *names):
        return os.path.join(self.top, "crates", *names)

    def write(self, name, text):
        path = os.path.join(self.top, name)
        os.makedirs(os.path.dirname(path), exist_ok=True)
        with open(path, "w", encoding="utf-8") as file:
            file.write(text)
        return path

    def run(self, words, named, **how):
        """How the script ended, with these names in its environment, and with what the stand-in was called."""
        usual = {"PATH": f"{self.bin}:{os.environ['PATH']}", "NOTES": self.notes, "CRATES": self.path(), "MADE": self.check.program, "FAILS": "", "CHANGES": ""}
        open(self.notes, "w").close()
        ran = self.check.run(words, **{"program": os.path.join(self.top, "drink"), "env": {**os.environ, **usual, **named}, **how})
        with open(self.notes, encoding="utf-8") as file:
            return ran, file.read().splitlines()

    def wants(self, state, words, status, out, err, proves=None, named={}, **how):
        """Tells besides whether the stand-in was called to prove the crates of this program, in whatever order, or not at all."""
        name = f"launcher: {state}: ./drink {words}"
        ran, called = self.run(words, named, **how)
        calls = [f"{it} [run] [--jobs] [N] [--] [--help]" if it in PROGRAMS else f"{it} [lib] [--jobs] [N]" for it in self.below.get(proves, ())]
        self.check.wants(name, ran, status, out, err)
        self.check.equal(f"{name}: calls of rt", sorted(re.sub(r"\[--jobs\] \[\d\]", "[--jobs] [N]", it) for it in called), sorted(calls))

    def built(self, program):
        """What a build of this program says."""
        count = len(self.below[program])
        each = "".join(rf"drink: proved {program if it == count else '[a-z_]+'}, {it} of {count}\n" for it in range(1, count + 1))
        return rf"\Adrink: proving {count} crates on [^\n]*\n{each}drink: built, in \d+ seconds\n"

    def fails(self, words, crate, said=NOT_PROVED):
        """A build that ends at this crate: it says so, nothing above the crate is begun, nothing is run, and what was made is kept."""
        name = f"launcher: {crate} ends it: ./drink {words}"
        ran, called = self.run(words, {"FAILS": crate})
        self.check.wants(name, ran, 1, b"", said.format(crate))
        begun = {it.split()[0] for it in called}
        wrong = {it for it in begun if crate in self.below.get(it, {crate})} - {crate}
        wrong |= self.below.get(crate, set()) - begun
        wrong |= {it for it in begun if not os.path.isfile(self.path(it, "out", "begun"))}
        self.check.say(f"{name}: crates that are begun", f"wrong of {sorted(wrong)}: {called}" if wrong or not called else None)


def launcher(check):
    check.files({"a plan.txt": PLAN})
    few = Checkout(check, "a checkout", FEW)
    unbuilt(check, few)
    alone(few)
    for crate in sorted(few.below["drink"]):
        few.fails("--build", crate)
    few.wants("not built", "--build", 0, b"", rf"{few.built('drink')}\Z", "drink")
    passed_on(check, few)
    installed(check, few)
    newer(few)
    changed(few)
    with open(os.path.join(TOP, "crates.txt"), encoding="utf-8") as file:
        whole = Checkout(check, "whole", file.read())
    beside = {"TMPDIR": MEMORY} if os.path.isdir(MEMORY) else {}
    whole.wants("all crates", "--build", 0, b"", rf"{whole.built('drink')}\Z", "drink", beside, timeout=600)
    ran, called = whole.run(["-c", UNPROVED], {}, program="/bin/sh", cwd=TOP)
    check.wants("launcher: a run without a proof", ran, 0, LEDGER, b"")
    check.equal("launcher: a run without a proof: calls of rt", [it.split(" [serial]")[0] for it in called], ["serial_answer [try] [--]"])


def unbuilt(check, few):
    """Nothing is built: what would build all says how, and builds nothing. Without rt nothing can be built, and a build that is stopped keeps
    what was made."""
    for words in OTHERS:
        few.wants("not built", words, 1, b"", UNBUILT)
    tools = os.path.join(check.work, "without rt")
    os.mkdir(tools)
    for name, tool in [("python3", sys.executable), *((it, shutil.which(it)) for it in ("awk", "dirname", "find", "head", "readlink"))]:
        os.symlink(tool, os.path.join(tools, name))
    for words in ("--build", SERIAL):
        few.wants("without rt", words, 1, b"", NO_RT, named={"PATH": tools})
    few.fails("--build", "stops", r"\Adrink: proving 4 crates [^\n]*\n\Z")


def alone(few):
    """`serial` builds its own program, and no other command is answered by that."""
    for crate in sorted(few.below["serial_answer"]):
        few.fails(SERIAL, crate)
    few.wants("not built", SERIAL, 0, ANSWER, rf"{few.built('serial_answer')}serial alone\n\Z", "serial_answer")
    few.wants("serial alone is built", ["serial", "a plan.txt", "sessions.txt"], 0, ANSWER, b"serial alone\n")
    few.wants("serial alone is built", "serial sessions.txt plan.txt", 1, b"", r"\Aserial alone\ndrink: sessions.txt: line 1: P1 Header")
    few.wants("serial alone is built", "serial a", 2, b"", r"\Aserial alone\ndrink: ")
    for words in OTHERS:
        few.wants("serial alone is built", words, 1, b"", UNBUILT)


def passed_on(check, few):
    """The program is built: nothing is proved again, and the words go on as they are, from wherever they come."""
    link, linked = os.path.join(check.work, "link"), os.path.join(few.top, "linked")
    os.symlink(os.path.join(os.path.basename(few.top), "drink"), link)
    os.symlink(link, linked)
    few.wants("built: through two links", SERIAL, 0, ANSWER, b"", program=linked)
    few.wants("built: from another folder", "serial ../plan.txt ../sessions.txt", 0, ANSWER, b"", cwd=few.top)
    few.wants("built", ["serial", "a plan.txt", "sessions.txt"], 0, ANSWER, b"")
    few.wants("built", ["serial", "", "sessions.txt"], 1, b"", r"\Adrink: : X4 ReadFailed: ")
    few.wants("built", "--build", 0, b"", b"drink: the program is built\n")
    few.wants("built", "--build serial", 2, b"", r"\Adrink: unexpected argument '--build'")
    few.wants("built", "", 2, b"", "Usage: drink")
    check.wants("launcher: built: <&-", check.shell(f"'{linked}' serial plan.txt - <&-"), 1, b"", r"\Adrink: -: X4 ReadFailed: [^\n]*closed")


def installed(check, few):
    """The program is put into a folder whole, for all to run, also in the place of one that runs; elsewhere nothing is left of it."""
    place, blocked = os.path.join(check.work, "a place"), os.path.join(check.work, "blocked")
    os.makedirs(os.path.join(blocked, "drink"))
    os.mkdir(place)
    older = shutil.copy(shutil.which("sleep"), os.path.join(place, "drink"))
    with open(check.program, "rb") as file:
        made = file.read()
    with subprocess.Popen([older, "100"]) as running:
        told = f"{hashlib.sha256(made).hexdigest()}  a place/drink\n".encode()
        few.wants("built", ["--install", "a place"], 0, told, b"", preexec_fn=lambda: os.umask(0o077))
        running.kill()
    with open(older, "rb") as file:
        check.equal("launcher: the program that was installed", (file.read() == made, os.stat(older).st_mode & 0o777), (True, 0o755))
    if shutil.which("ldd"):
        needs = re.findall(r"(?m)^\t(?:\S*/)?(\S+)", check.run([older], program="ldd").out.decode())
        check.equal("launcher: libraries that it needs, but for the C library", [it for it in needs if not re.match(r"(libc|ld-linux[\w-]*|linux-vdso)\.so\.", it)], [])
    for words, said in (([""], ": there is no such folder"), (["nowhere"], "nowhere: there is no such folder"), (["plan.txt"], "plan.txt: there is no such folder")):
        few.wants("built", ["--install", *words], 1, b"", f"drink: {said}\n".encode())
    few.wants("built: a folder in the way", ["--install", "blocked"], 1, b"", "cannot overwrite directory")
    check.equal("launcher: what is left of it", (os.listdir(place), os.listdir(blocked), os.listdir(os.path.join(blocked, "drink"))), (["drink"], ["drink"], []))
    for words in ("--install", "--install . ."):
        few.wants("built", words, 2, b"", r"\Adrink: unexpected argument '--install'")


def newer(few):
    """A source that the program stands on is newer than it: that is said, and it doesn't answer until it is built anew."""
    sources = [it for crate in sorted(few.below["drink"]) for part, name in parts_of(crate) for it in ((crate, part, name), (crate, part))]
    for source in [(os.pardir, "crates.txt"), *sources]:
        path = few.path(*source)
        was = os.stat(path)
        os.utime(path)
        few.wants(f"newer: {'/'.join(source)}", "--version", 1, b"", NEWER)
        os.utime(path, ns=(was.st_atime_ns, was.st_mtime_ns))
    os.utime(few.path("aside", "src", "lib.rt"))
    few.wants("newer: a crate aside", "--version", 0, "^drink ", b"")
    os.utime(few.path("right", "src", "lib.rt"))
    few.wants("newer: a crate that serial doesn't stand on", SERIAL, 0, ANSWER, b"serial alone\n")
    os.utime(few.path("left", "src", "lib.rt"))
    few.wants("newer: a crate that serial stands on", SERIAL, 0, ANSWER, rf"{few.built('serial_answer')}serial alone\n\Z", "serial_answer")
    for words in OTHERS:
        few.wants("newer", words, 1, b"", NEWER)
    few.wants("newer", "--build", 0, b"", rf"{few.built('drink')}\Z", "drink")
    for words in (SERIAL, WHOLE):
        few.wants("built anew", words, 0, "(?m)^value x 5$", b"")


def changed(few):
    """A source that was taken away is as one that is newer; and one that is changed during a build isn't in it, and is newer."""
    os.remove(few.path("right", "specs", "S.antt"))
    few.wants("a source was taken away", "--version", 1, b"", NEWER)
    few.wants("a source is changed meanwhile", "--build", 0, b"", rf"{few.built('drink')}\Z", "drink", {"CHANGES": few.path("right", "src", "lib.rt")})
    few.wants("a source was changed meanwhile", "--version", 1, b"", NEWER)
