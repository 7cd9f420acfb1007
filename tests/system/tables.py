"""Tables of tests/cases: texts that are refused, each a row, with where and for which rule (`refusals/rows/KIND.txt`); sessions with their
canonical text (`canonical/`), which they leave when they aren't done; and sessions with their length and how they end (`lengths/`), which
are done in pieces of 1, 2 and 1,000, after other sessions too. Nothing of what a table has was printed by the program."""
import glob, os, re

from cases import CASES, KINDS

# How many rows there are at least: fewer means that they weren't found.
LEAST_REFUSALS, LEAST_CANONICAL, LEAST_LENGTHS = 370, 19, 44
ESCAPE = re.compile(rb"\\(n|t|r|\\|x[0-9A-F]{2})")
BYTES = {b"n": b"\n", b"t": b"\t", b"r": b"\r", b"\\": b"\\"}
PART = re.compile(rb"\{(\d+)\*([^{}]*)\}")
PIECES = (1, 2, 1000)
# What an office does before the session whose length is looked for: nothing, a session of numbers, or one with texts.
BEFORE = {"plan 1": (b"", b"session %\nlet v = 1\nend\n"), "plan 2": (b"", b"session %\nlet v = 1\nend\n", b'session %\nlet v = "hi"\nend\n')}


def text_of(row):
    """The bytes that a row spells."""
    row = PART.sub(lambda it: int(it[1]) * it[2], row)
    return ESCAPE.sub(lambda it: BYTES.get(it[1]) or bytes([int(it[1][1:], 16)]), row)


def rows_of(file):
    """The rows of a table: each with its line, the other inputs, its text, and what stands behind its arrow."""
    inputs, frame, name, found = {}, b"%", None, []
    with open(file, "rb") as table:
        lines = table.read().splitlines()
    for number, line in enumerate(lines, 1):
        if name is not None and line == b"--":
            frame, name = (b"".join(lines[at : number - 1]), None) if name == b"text" else (frame, None)
        elif name is not None:
            inputs[name.decode()] += line + b"\n"
        elif line.startswith(b"== "):
            name, at = line[3:], number
            inputs[name.decode()] = b""
        elif line and not line.startswith(b"#"):
            row, _, wanted = line.rpartition(b" => ")
            texts = {it: text for it, text in inputs.items() if it != "text"}
            found.append((number, texts, text_of(frame.replace(b"%", row, 1)), wanted))
    return found


def tables(check):
    for part, least in ((refusals, LEAST_REFUSALS), (canonical, LEAST_CANONICAL), (lengths, LEAST_LENGTHS)):
        count = part(check)
        check.say(f"tables: {part.__name__}: {count}", None if count >= least else f"at least {least} are wanted")


def all_well(check, file, wrong):
    """Tells of the rows of a table the first that isn't as it says."""
    amiss = [f"line {number}: {it}" for number, it in wrong if it]
    check.say(f"table {os.path.relpath(file, CASES)}: {len(wrong)}", f"{len(amiss)}, as {amiss[0]}" if amiss else None)
    return len(wrong)


def refusals(check):
    """Those that have no text are refused alike under a plan of version 2."""
    count = 0
    for file in sorted(glob.glob(os.path.join(CASES, "refusals", "rows", "*.txt"))):
        kind = os.path.basename(file)[:-4]
        for version in (b"plan 1 ", b"plan 2 ") if kind == "plans" else (b"plan 1 ",):
            wrong = []
            for number, inputs, text, wanted in rows_of(file):
                changed = text.replace(b"plan 1 ", version, 1)
                if version == b"plan 1 " or (changed != text and b'"' not in text):
                    wrong.append((number, refused(check, kind, inputs, changed, wanted)))
            count += all_well(check, file, wrong)
    return count


def refused(check, kind, inputs, text, wanted):
    """What is wrong with how a text is refused, or isn't."""
    check.files({**inputs, "text": text})
    ran = check.run(KINDS[kind])
    if wanted == b"not refused":
        return None if (ran.status, ran.err) == (0, b"") else str(ran)
    is_so = (ran.status, ran.out) == (1, b"") and re.match(rb"drink: text: %s\b" % re.escape(wanted), ran.err)
    return None if is_so else f"{wanted.decode()} is wanted; {ran}"


def canonical(check):
    count = 0
    for file in sorted(glob.glob(os.path.join(CASES, "canonical", "*.txt"))):
        count += all_well(check, file, [(number, left_as(check, inputs, text, text_of(wanted))) for number, inputs, text, wanted in rows_of(file)])
    return count


def left_as(check, inputs, text, wanted):
    """What is wrong with the text of a session that is left, and of that text once more."""
    for it in (text, wanted):
        check.files({**inputs, "text": it, "script.txt": b"submit 1\n"})
        ran = check.run("sim plan.txt text script.txt --left left.txt")
        if (ran.status, ran.err) != (0, b"") or check.bytes_of("left.txt") != wanted:
            return f"{wanted!r} is wanted; {check.bytes_of('left.txt')!r}, {ran}"
    return None


def lengths(check):
    count = 0
    for file in sorted(glob.glob(os.path.join(CASES, "lengths", "*.txt"))):
        count += all_well(check, file, [(number, of_length(check, inputs, text, wanted)) for number, inputs, text, wanted in rows_of(file)])
    return count


def of_length(check, inputs, text, wanted):
    """What is wrong with how a session is done in pieces of each size: as many of them as its length has, and no more; and with how it
    ends. Its ticket is 2 where another was done before."""
    length, line = wanted.split(b" ", 1)
    office = text.split(b"\n")[0].split(b" ")[1]
    check.files({"plan.txt": inputs["plan.txt"].replace(b"%", office)})
    for before in BEFORE[inputs["plan.txt"][:6].decode()]:
        check.files({"text": text + before.replace(b"%", office)})
        for size in PIECES:
            pieces = -(-int(length) // size)
            rules = [(b"work %d" % size, b"done")] * pieces + [(b"work 1", b"refused O1 NotNow")]
            acts = (does(office, 2, 1, [(b"work 1000", b"done")]) if before else []) + does(office, 1, 2 if before else 1, rules)
            check.files({"script.txt": b"".join(b"%s\n" % it for it, _ in acts)})
            ran = check.run("sim plan.txt text script.txt")
            replies = b"".join(b"%s\n" % it for _, it in acts)
            end = (line.replace(b".1 ", b".2 ", 1) if before else line) + b"\nunfinished 0\n"
            told = ran.out[len(replies) :]
            if (ran.status, ran.err) != (0, b"") or not ran.out.startswith(replies) or not told.split(b"value ")[0].endswith(end):
                return f"in pieces of {size}: {pieces} of them and {end!r} are wanted; status {ran.status}, {ran.err!r}, {told!r}"
    return None


def does(office, place, ticket, rules):
    """Lines of a script by which an office does the session of that place, and what is replied."""
    acts = [(b"do %s %s" % (office, rule), reply) for rule, reply in ((b"start", b"done"), (b"drink", b"done"), *rules, (b"finish", b"done"))]
    return [(b"submit %d" % place, b"ticket %d" % ticket), *acts]
