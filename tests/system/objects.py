"""What is printed with --json: an object on each line, which says what the line for people says."""
import json, os

from common import PLAN, SESSIONS, TOP, at_ports, free_ports

LEDGER = b"""{"office":"north","ticket":1,"end":"done","reads":{"alice":100,"bob":20},"writes":{"alice":70,"bob":50},"gives":[70,50]}
{"office":"south","ticket":1,"end":{"refused":1},"reads":{"bob":50,"carol":75},"writes":{},"gives":[]}
{"office":"east","ticket":1,"end":"done","reads":{"carol":75},"writes":{"carol":100},"gives":[100]}
{"value":"alice","is":70}
{"value":"bob","is":50}
{"value":"carol","is":100}
"""

STOCK = b"""{"reply":"ticket 1"}
{"reply":"ticket 1"}
{"reply":"rules 4"}
{"reply":"done"}
{"reply":"ticket 2"}
{"reply":"ticket 2"}
{"reply":"settled 9 open"}
{"reply":"settled 8 finished"}
{"office":"depot","ticket":1,"end":"done","reads":{"bolts":40,"nuts":70,"kits":0},"writes":{"bolts":16,"nuts":22,"kits":12},"gives":[12]}
{"office":"depot","ticket":2,"end":{"refused":1},"reads":{"bolts":16,"nuts":22,"kits":12},"writes":{},"gives":[]}
{"office":"shop","ticket":2,"end":"done","reads":{"kits":12},"writes":{"kits":7},"gives":[5]}
{"unfinished":0}
{"value":"bolts","is":16}
{"value":"nuts","is":22}
{"value":"kits","is":7}
"""

TILL = b"""{"office":"till","ticket":1,"end":"done","reads":{"cash":1250,"locked":4000},"writes":{"cash":200,"locked":5050},"gives":[1050]}
{"unfinished":0}
{"value":"cash","is":200}
{"value":"locked","is":5050}
"""

# The ends of the values, an overflow and the greatest code.
ENDS = b"session a\nset x = 9223372036854775807\ngive -read x - 1\nend\nsession a\nset x = read x + 1\nend\nsession a\nrequire 0 == 1 else 65535\nend\n"
ENDED = b"""{"office":"a","ticket":1,"end":"done","reads":{"x":5},"writes":{"x":9223372036854775807},"gives":[-9223372036854775808]}
{"office":"a","ticket":2,"end":"overflow","reads":{"x":9223372036854775807},"writes":{},"gives":[]}
{"office":"a","ticket":3,"end":{"refused":65535},"reads":{},"writes":{},"gives":[]}
{"value":"x","is":9223372036854775807}
"""

# The session of sessions.txt.
OWN = b'{"office":"a","ticket":1,"end":"done","reads":{"x":5},"writes":{},"gives":[5]}\n'

# Words of runs whose two forms are compared.
ALIKE = (
    "serial examples/monthly_settlement/plan.txt examples/monthly_settlement/sessions.txt",
    "serial examples/lease_table/plan.txt examples/lease_table/sessions.txt",
    "sim examples/shared_stock/plan.txt examples/shared_stock/sessions.txt examples/shared_stock/script.txt",
    "sim plan.txt sessions.txt refused.txt",
    "random examples/shared_stock/plan.txt examples/shared_stock/sessions.txt --seed 1 --loss 20 --steps 2000",
    "random examples/shared_stock/plan.txt examples/shared_stock/sessions.txt --seed 1 --loss 20 --steps 20",
    "audit examples/two_desks/plan.txt examples/two_desks/desk1.journal examples/two_desks/desk2.journal",
    "audit examples/two_desks/plan.txt changed.journal examples/two_desks/desk2.journal",
)


def objects(check):
    """The lines of each command, typed; and of further runs, that they say what the lines for people say."""
    check.files({"plan.txt": PLAN, "sessions.txt": SESSIONS, "ends.txt": ENDS, "refused.txt": b"do a drink\nsubmit 1\ndeliver 7\nsend a b 0\nwithdraw a 1\n"})
    with open(os.path.join(TOP, "examples/two_desks/desk1.journal"), "rb") as file:
        check.files({"changed.journal": file.read().replace(b"0c = ", b"0d = ")})
    ledger, stock, till = (f"examples/{it}" for it in ("branch_ledger", "shared_stock", "till_and_safe"))
    for words, wanted in (
        (f"serial {ledger}/plan.txt {ledger}/sessions.txt --json", LEDGER),
        (f"serial --json {ledger}/plan.txt {ledger}/sessions.txt", LEDGER),
        ("serial plan.txt ends.txt --json", ENDED),
        (f"sim {stock}/plan.txt {stock}/sessions.txt {stock}/taken_back.txt --json", STOCK),
        (f"audit {till}/plan.txt {till}/till.journal {till}/safe.journal --json", TILL),
        ("random plan.txt sessions.txt --seed 1 --loss 0 --steps 1 --json", b'{"unfinished":1}\n{"value":"x","is":5}\n'),
    ):
        check.wants(f"objects: {words}", check.run(words), 0, wanted, b"")
    check.wants("objects: an audit that isn't woven", check.run("audit examples/two_desks/plan.txt changed.journal examples/two_desks/desk2.journal --json"), 1, b'{"unwoven":"desk1","entry":7}\n', b"")
    check.wants("objects: a fault is no object", check.run("serial nowhere.txt sessions.txt --json"), 1, b"", r"\Adrink: nowhere\.txt: X4 ReadFailed: ")
    check.wants("objects: with a word", check.run("serial plan.txt sessions.txt --json=yes"), 2, b"", r"\Adrink: unexpected value 'yes' for '--json' found; no more were expected")
    offices(check)
    for words in ALIKE:
        plain, told = check.run(words), check.run(f"{words} --json")
        lines = told.out.decode().splitlines()
        check.equal(f"objects: {words}: the same", "".join(line_of(it) for it in lines), plain.out.decode())
        check.equal(f"objects: {words}: the status", told.status, plain.status)
        check.equal(f"objects: {words}: their spelling", lines, [spelled(it) for it in lines])


def offices(check):
    """Offices at sockets: what they print is objects, and what is said for people of what is left is not."""
    check.files({"ports.txt": at_ports(PLAN, free_ports(2)), "theirs.txt": SESSIONS.replace(b"session a", b"session b")})
    check.forget("objects.store")
    done = OWN + b'{"unfinished":0}\n'
    for words, wanted in (
        ("live plan.txt sessions.txt --json", done),
        ("run ports.txt a sessions.txt --turns 5 --json", done),
        ("run ports.txt a sessions.txt --turns 5 --store objects.store --new --json", b'{"before":0}\n' + done),
        ("run ports.txt a sessions.txt --turns 5 --json --store objects.store", b'{"before":1}\n' + done),
    ):
        check.wants(f"objects: {words}", check.run(words), 0, wanted, b"")
    check.wants("objects: a session that is left", check.run("run ports.txt b theirs.txt --turns 5 --json"), 1, b'{"unfinished":1}\n', r"\Adrink: b\.1 waits for x from a")
    check.wants("objects: a store that isn't there", check.run("run ports.txt a sessions.txt --store nowhere.store --json"), 1, b"", r"\Adrink: nowhere\.store: U7 NoStore: ")


def spelled(text):
    """How an object is spelled."""
    return json.dumps(json.loads(text), separators=(",", ":"))


def line_of(text):
    """The line for people that says what an object does."""
    it = json.loads(text)
    listed = lambda words: " ".join(words) or "-"
    match list(it):
        case ["office", "ticket", "end", "reads", "writes", "gives"]:
            end = it["end"] if isinstance(it["end"], str) else f"refused {it['end']['refused']}"
            reads, writes = (listed(f"{name}={value}" for name, value in it[key].items()) for key in ("reads", "writes"))
            return f"{it['office']}.{it['ticket']} {end} reads {reads} writes {writes} gives {listed(map(str, it['gives']))}\n"
        case ["value", "is"]:
            return f"value {it['value']} {it['is']}\n"
        case ["unwoven", "entry"]:
            return f"unwoven {it['unwoven']} {it['entry']}\n"
        case ["away", "neighbour"]:
            return f"away {it['away']} {it['neighbour']}\n"
        case ["refused", "line"]:
            return f"refused {it['refused']} line {it['line']}\n"
        case ["reply"]:
            return f"{it['reply']}\n"
        case ["unfinished" | "before" | "ready" | "ticket" | "pending" | "refused" as key]:
            return f"{key} {it[key]}\n"
    return f"no line: {text}\n"
