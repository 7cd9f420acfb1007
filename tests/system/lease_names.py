"""The example whose records hold names: what each of its sessions comes to, typed from what the language says of texts.

How many steps `settle` takes is a matter of offices and bottles, whatever the values are.
An audit goes in rounds over the offices, each as far as it can, so the third floor, which waits for nobody, comes first."""

FIRST = b"""\
floor2.1 done reads hall="" hall_until=0 writes hall="floor2" hall_until=12 gives "in the hall: floor2"
floor1.1 refused 1 reads hall="floor2" hall_until=12 writes - gives -
floor2.2 done reads hall="floor2" writes hall="floor2, floor1" gives "floor2, floor1"
floor1.2 mismatch reads hall="floor2, floor1" writes - gives -
"""
THIRD = b'floor3.1 done reads lab="" lab_until=0 writes lab="floor3" lab_until=13 gives -\n'
VALUES = b'value hall "floor2, floor1"\nvalue hall_until 12\nvalue lab "floor3"\nvalue lab_until 13\n'

# What the sessions do in whatever order: of what each reads how it ends, what it writes, and what it gives.
DOES = {
    "floor2.1": (("hall", "hall_until"), lambda hall, _: takes(hall, {"hall": "floor2", "hall_until": 12}, "in the hall: floor2")),
    "floor1.1": (("hall", "hall_until"), lambda hall, _: takes(hall, {"hall": "floor1", "hall_until": 11}, None)),
    "floor2.2": (("hall",), lambda hall: ("done", {"hall": "floor2, floor1"}, "floor2, floor1") if hall == "floor2" else ("refused 2", {}, None)),
    "floor1.2": (("hall",), lambda hall: ("mismatch", {}, None)),
    "floor3.1": (("lab", "lab_until"), lambda lab, _: takes(lab, {"lab": "floor3", "lab_until": 13}, None)),
}
SEEDS, LOSSES, STEPS_OF_ALL = 12, (0, 30, 90), 4000

# Of each session of the script: its ticket, and the steps that it takes.
STEPS = ((1, 14), (1, 15), (2, 12), (2, 13), (1, 4))

# The smallest texts and the greatest, what is read as one beside a keyword, a comment's sign and digits, and what a fault leaves.
PLAN = b'plan 2 run 42\noffice a -\noffice b -\npair a b fork a\nrecord x a b "no" at a\nrecord y a b 7 at a\nrecord z a b "end # 7" at b\n'
SESSIONS = (
    b'session a\nrequire read x=="no"else 3\nset x=read x+"-yes"\ngive read x\nend\n'
    b"session a\nset x = read x + read y\nend\n"
    b'session b\nif read z != 7\ngive "" + "7"\nend\ngive read z\nset y = 1\ngive -read z\nend\n'
    b'session b\nlet long = "%b"\nset z = long + long\nend\n'
    b'session b\nlet long = "%b"\nset z = long + long\nend\n'
) % (b"0123456789abcdef" * 2, b"0123456789abcdef" * 2 + b"!")
REPORT = b"""\
a.1 done reads x="no" writes x="no-yes" gives "no-yes"
a.2 mismatch reads x="no-yes" y=7 writes - gives -
b.1 mismatch reads y=7 z="end # 7" writes - gives -
b.2 done reads z="end # 7" writes z="%b" gives -
b.3 overflow reads z="%b" writes - gives -
value x "no-yes"
value y 7
value z "%b"
""" % ((b"0123456789abcdef" * 4,) * 3)


def takes(who, writes, gives):
    """A room is taken, if nobody has it."""
    return ("done", writes, gives) if who == "" else ("refused 1", {}, None)


def said(value):
    return f'"{value}"' if isinstance(value, str) else str(value)


def in_order(names):
    """What these sessions come to, one after another in this order."""
    values, lines = {"hall": "", "hall_until": 0, "lab": "", "lab_until": 0}, []
    for name in names:
        needs, does = DOES[name]
        end, writes, gives = does(*(values[it] for it in needs))
        listed = [" ".join(f"{it}={said(of[it])}" for it in of) or "-" for of in ({it: values[it] for it in needs}, writes)]
        lines.append(f"{name} {end} reads {listed[0]} writes {listed[1]} gives {'-' if gives is None else said(gives)}")
        values.update(writes)
    return [*lines, f"unfinished {len(DOES) - len(lines)}", *(f"value {it} {said(values[it])}" for it in values)]


def drawn_leases(check, plan, sessions):
    """Whatever frames are lost, doubled and overtaken, what is printed is what the finished sessions do in the order in which they
    stand there."""
    orders = set()
    for seed in range(SEEDS):
        for loss in LOSSES:
            ran = check.run(["random", plan, sessions, "--seed", str(seed), "--loss", str(loss), "--steps", str(STEPS_OF_ALL)])
            lines = ran.out.decode().splitlines()
            names = tuple(it.split(" ", 1)[0] for it in lines if not it.startswith(("unfinished ", "value ")))
            wanted = in_order(names) if set(names) <= set(DOES) else []
            orders.add(names)
            wrong = None if (ran.status, ran.err, lines) == (0, b"", wanted) else f"{ran}, and not {wanted}"
            check.say(f"names: drawn with the seed {seed} and a loss of {loss}", wrong)
    whole = sum(len(it) == len(DOES) for it in orders)
    check.say("names: drawn in several orders", None if whole > 3 else f"{whole} orders of all sessions")


def leases(check):
    names = ["examples/lease_names/" + it for it in ("plan.txt", "sessions.txt", "script.txt")]
    check.wants("names: serial", check.run(["serial", *names[:2]]), 0, FIRST + THIRD + VALUES, b"")
    replies = b"".join(b"ticket %d\nsettled %d finished\n" % it for it in STEPS)
    ran = check.run(["sim", *names, "--journals", "left"])
    check.wants("names: sim", ran, 0, replies + FIRST + THIRD + b"unfinished 0\n" + VALUES, b"")
    journals = [f"left/floor{it}.journal" for it in (3, 1, 2)]
    check.wants("names: an audit", check.run(["audit", names[0], *journals]), 0, THIRD + FIRST + b"unfinished 0\n" + VALUES, b"")
    altered(check, names[0], journals)
    drawn_leases(check, *names[:2])
    check.files({"plan.txt": PLAN, "sessions.txt": SESSIONS})
    check.wants("texts: serial", check.run("serial plan.txt sessions.txt"), 0, REPORT, b"")
    objects = check.run("serial plan.txt sessions.txt --json").out.splitlines()[:2]
    wanted = [
        b'{"office":"a","ticket":1,"end":"done","reads":{"x":"no"},"writes":{"x":"no-yes"},"gives":["no-yes"]}',
        b'{"office":"a","ticket":2,"end":"mismatch","reads":{"x":"no-yes","y":7},"writes":{},"gives":[]}',
    ]
    check.equal("texts: objects", objects, wanted)
    check.files({"plan.txt": b'plan 2 run 1\noffice a -\noffice b -\npair a b fork a\nrecord x a b "\\ {" at a\n', "sessions.txt": b"session a\ngive read x\nend\n"})
    told = b'{"office":"a","ticket":1,"end":"done","reads":{"x":"\\\\ {"},"writes":{},"gives":["\\\\ {"]}\n{"value":"x","is":"\\\\ {"}\n'
    check.wants("texts: a backslash in an object", check.run("serial plan.txt sessions.txt --json"), 0, told, b"")


def altered(check, plan, journals):
    """A byte of a text that an office made a frame of is another in its journal: the entry is in no schedule."""
    whole = check.bytes_of("left/floor1.journal")
    text = b"floor2, floor1".hex().encode()
    at = whole.rindex(text)
    line = whole[:at].count(b"\n")
    check.files({"left/floor1.journal": whole[:at] + b"F".hex().encode() + whole[at + 2 :]})
    ran = check.run(["audit", plan, *journals])
    check.wants("names: one altered byte of a text", ran, 1, b"unwoven floor1 %d\n" % line, b"")
    check.files({"left/floor1.journal": whole})
