"""What a day leaves: the plan of the next one and the sessions that are left, in files; and days that go on as one run."""
import errno, os, re, shutil

from common import ANSWER, PLAN, SESSIONS, TOP

# The first session of a finishes, its second is left, and that of b is withdrawn.
MORE = SESSIONS + b"session a\nlet v = read x\n# one more\nset x = v + 1\nend\nsession b\nend\n"
LEAVING = b"submit 1\nsubmit 2\nsubmit 3\nadvance a 4\nwithdraw b 1\n"
LEFT = b"session a\nlet v = read x\nset x = v + 1\nend\n"

# What the till's day leaves, and what two sessions of the shop's do.
TILL = b"plan 1 run 13\noffice till -\noffice safe -\npair till safe fork till\nrecord cash till safe 200 at till\nrecord locked till safe 5050 at safe\n"
SHOP = b"plan 1 run 3\noffice shop -\noffice depot -\npair shop depot fork depot\nrecord bolts shop depot 16 at depot\nrecord nuts shop depot 22 at depot\nrecord kits shop depot 7 at depot\n"


def endings(ran):
    """How sessions ended, without their tickets."""
    return re.sub(rb"(?m)^(\w+)\.\d+ ", rb"\1 ", ran.out.split(b"value ", 1)[0])


def values(ran):
    return re.findall(rb"(?m)^value .*$", ran.out)


def days(check):
    """The sessions of an example on two days, and on one; what `sim` and `audit` leave; and files that can't be written."""
    two_days(check)
    what_is_left(check)
    of_a_file(check)
    cut_short(check)
    the_last_number(check)
    files_that_fail(check)


def two_days(check):
    with open(os.path.join(TOP, "examples", "shared_stock", "sessions.txt"), "rb") as file:
        parts = re.split(rb"(?m)^(?=session )", file.read())
    check.files({"one.txt": b"".join(parts[:3]), "two.txt": b"".join(parts[3:])})
    plan = "examples/shared_stock/plan.txt"
    today = check.run(f"serial {plan} one.txt --plan next.txt")
    tomorrow = check.run("serial next.txt two.txt --plan=later.txt")
    whole = check.run(f"serial {plan} examples/shared_stock/sessions.txt --plan whole.txt")
    check.wants("days: the first", today, 0, None, b"")
    check.equal("days: the plan of the next", check.bytes_of("next.txt"), SHOP)
    check.wants("days: the next", tomorrow, 0, None, b"")
    check.equal("days: two days end as one", endings(today) + endings(tomorrow), endings(whole))
    check.equal("days: two days leave what one does", values(tomorrow), values(whole))
    check.equal("days: and so do their plans", check.bytes_of("later.txt"), check.bytes_of("whole.txt").replace(b"run 3", b"run 4"))


def what_is_left(check):
    check.files({"plan.txt": PLAN, "more.txt": MORE, "leaving.txt": LEAVING})
    ran = check.run("sim plan.txt more.txt leaving.txt --plan next.txt --left left.txt")
    check.wants("days: a script leaves a session", ran, 0, r"(?m)^unfinished 1$", b"")
    check.equal("days: the plan after a script", check.bytes_of("next.txt"), PLAN.replace(b"run 1", b"run 2"))
    check.equal("days: the session that is left", check.bytes_of("left.txt"), LEFT)
    check.wants("days: it is submitted again", check.run("serial next.txt left.txt"), 0, b"a.1 done reads x=5 writes x=6 gives -\nvalue x 6\n", b"")
    till = "examples/till_and_safe"
    audit = f"audit {till}/plan.txt {till}/till.journal {till}/safe.journal --plan next.txt --left left.txt"
    check.wants("days: an audit", check.run(audit), 0, r"(?m)^unfinished 0$", b"")
    check.equal("days: the plan after an audit", check.bytes_of("next.txt"), TILL)
    check.equal("days: nothing is left after it", check.bytes_of("left.txt"), b"")
    with open(os.path.join(TOP, till, "safe.journal"), "rb") as file:
        check.files({"changed.journal": re.sub(rb"(?m)0fa0$", b"1004", file.read()), "next.txt": b"as it was\n"})
    ran = check.run(f"audit {till}/plan.txt {till}/till.journal changed.journal --plan next.txt --left none.txt")
    check.wants("days: an audit that isn't woven", ran, 1, b"unwoven safe 3\n", b"")
    check.equal("days: it writes no plan", check.bytes_of("next.txt"), b"as it was\n")
    check.equal("days: and nothing that is left", os.path.lexists(os.path.join(check.work, "none.txt")), False)


def of_a_file(check):
    """Of `random` and `live` the sessions of the file are left that haven't finished."""
    both = SESSIONS + b"session b\nset x = 7\nend\n"
    check.files({"plan.txt": PLAN, "sessions.txt": both})
    ran = check.run("random plan.txt sessions.txt --seed 1 --loss 0 --steps 1 --plan next.txt --left left.txt")
    check.wants("days: a drawn run of one step", ran, 0, r"(?m)^unfinished 2$", b"")
    check.equal("days: the plan after it", check.bytes_of("next.txt"), PLAN.replace(b"run 1", b"run 2"))
    check.equal("days: its sessions are left", check.bytes_of("left.txt"), both)
    for words in ("random plan.txt sessions.txt --seed 1 --loss 0 --steps 100000", "live plan.txt sessions.txt"):
        ran = check.run(f"{words} --plan next.txt --left left.txt")
        check.wants(f"days: {words}", ran, 0, r"(?m)^unfinished 0$", b"")
        check.equal("days: the plan after all", check.bytes_of("next.txt"), PLAN.replace(b"run 1", b"run 2").replace(b" 5 at a", b" 7 at a"))
        check.equal("days: nothing is left then", check.bytes_of("left.txt"), b"")


def cut_short(check):
    """A run that ends before a session was submitted leaves all, and the values as they were."""
    if not shutil.which("cc"):
        return
    both = SESSIONS + b"session b\nset x = 7\nend\n"
    check.files({"plan.txt": PLAN, "sessions.txt": both})
    ran = check.run("live plan.txt sessions.txt --plan next.txt --left left.txt", env=check.calls(fail=f"pthread_create 1 1 {errno.EAGAIN}"))
    check.wants("days: a run that is cut short", ran, 1, b"unfinished 2\n", r"(?m)^drink: U3 NoThread: ")
    check.equal("days: the plan after it", check.bytes_of("next.txt"), PLAN.replace(b"run 1", b"run 2"))
    check.equal("days: its sessions are left", check.bytes_of("left.txt"), both)


def the_last_number(check):
    """After the greatest run number comes 0."""
    check.files({"last.txt": PLAN.replace(b"run 1", b"run 4294967295"), "sessions.txt": SESSIONS})
    check.wants("days: the greatest run number", check.run("serial last.txt sessions.txt --plan next.txt"), 0, ANSWER, b"")
    check.equal("days: the plan after it", check.bytes_of("next.txt"), PLAN.replace(b"run 1", b"run 0"))


def files_that_fail(check):
    check.files({"plan.txt": PLAN, "sessions.txt": SESSIONS, "leaving.txt": b""})
    said = r"\Adrink: nowhere/n: X5 WriteFailed: it cannot be written: a folder of its path is not there\n\Z"
    check.wants("days: a plan that can't be written", check.run("serial plan.txt sessions.txt --plan nowhere/n"), 1, ANSWER, said)
    ran = check.run("sim plan.txt sessions.txt leaving.txt --plan stands.txt --left nowhere/n")
    check.wants("days: sessions that can't be written", ran, 1, b"unfinished 0\nvalue x 5\n", said)
    check.equal("days: the plan before them stands", check.bytes_of("stands.txt"), PLAN.replace(b"run 1", b"run 2"))
    for words, option in (("serial plan.txt sessions.txt --plan -", "plan"), ("sim plan.txt sessions.txt leaving.txt --left=- --plan n", "left"), ("live plan.txt sessions.txt --left -", "left")):
        check.wants(f"days: {words}", check.run(words), 2, b"", rf"\Adrink: --{option} takes a file, and - is none: [^\n]*\n\Z")
