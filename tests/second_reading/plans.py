"""Plans, as docs/formats.md has them."""
import re

from words import LEAST_VALUE, Fault, is_name, lines_of, number_of, text_of

LEAST_OFFICES, MOST_OFFICES, MOST_RECORDS, MOST_BYTES = 2, 16, 8, 262_144

# The forms of lines, of which words are parted by spaces and tabs.
FORMS = {
    kind: re.compile(form.replace(" ", "[ \t]+").replace("NAME", r"([A-Za-z]\w{0,15})"), re.ASCII)
    for kind, form in {
        "plan": r"plan ([12]) run (\d+)",
        "office": r"office NAME (-|\S+)",
        "pair": r"pair NAME NAME fork NAME",
        "record": r'record NAME NAME NAME (-?\d+|"[^"]*") at NAME',
    }.items()
}
BYTE, PORT = r"(?:0|[1-9]\d{0,2})", r"[1-9]\d{0,4}"


class Plan:
    """Offices by number; of each pair, a set of two offices, where its fork starts; records by number, each with its name, its two
    offices, where it starts and its value."""

    def __init__(self, version, run):
        self.version, self.run, self.offices, self.addresses, self.forks, self.records = version, run, [], set(), {}, []

    def neighbours(self, office):
        return [it for it in range(len(self.offices)) if it != office and frozenset((it, office)) in self.forks]

    def record(self, name):
        """The number of a record, or None."""
        return next((at for at, it in enumerate(self.records) if it[0] == name), None)

    def ends(self, record):
        return self.records[record][1]

    def other_end(self, record, office):
        return next(it for it in self.ends(record) if it != office)


def is_address(word):
    return bool(re.fullmatch(rf"(?:{BYTE}\.){{3}}{BYTE}:{PORT}", word, re.ASCII)) and all(int(it) < 256 for it in re.findall(r"\d+", word)[:4]) and int(word.split(":")[1]) < 65536


def value_of(word, version):
    """The start value that a word spells, or None."""
    if word.startswith('"'):
        return text_of(word) if version == 2 else None
    found = number_of(word[1:], most=-LEAST_VALUE) if word.startswith("-") else number_of(word)
    return None if found is None else -found if word.startswith("-") else found


def add_office(plan, line, name, address):
    if not is_name(name) or not (address == "-" or is_address(address)):
        raise Fault("P2", line)
    if name in plan.offices or address in plan.addresses:
        raise Fault("P3", line)
    if len(plan.offices) == MOST_OFFICES:
        raise Fault("P7", line)
    plan.offices.append(name)
    plan.addresses |= {address} - {"-"}


def pair_of(plan, line, *names):
    """The two offices of these names."""
    if any(it not in plan.offices for it in names):
        raise Fault("P4", line)
    if names[0] == names[1]:
        raise Fault("P5", line)
    return frozenset(plan.offices.index(it) for it in names)


def add_pair(plan, line, one, other, end):
    if not (is_name(one) and is_name(other)) or end not in (one, other):
        raise Fault("P2", line)
    pair = pair_of(plan, line, one, other)
    if pair in plan.forks:
        raise Fault("P6", line)
    plan.forks[pair] = plan.offices.index(end)


def add_record(plan, line, name, one, other, word, end):
    value = value_of(word, plan.version)
    if not (is_name(name) and is_name(one) and is_name(other)) or end not in (one, other) or value is None:
        raise Fault("P2", line)
    pair = pair_of(plan, line, one, other)
    if pair not in plan.forks:
        raise Fault("P4", line)
    if plan.record(name) is not None:
        raise Fault("P3", line)
    if sum(it[1] == pair for it in plan.records) == MOST_RECORDS:
        raise Fault("P7", line)
    plan.records.append((name, pair, plan.offices.index(end), value))


ADDS = {"office": add_office, "pair": add_pair, "record": add_record}


def has_ring(plan):
    """Whether offices precede one another in a ring: taking away those that none precedes leaves some."""
    left = set(range(len(plan.offices)))
    while free := {it for it in left if not any(plan.forks[pair] == it and pair <= left for pair in plan.forks if it in pair)}:
        left -= free
    return bool(left)


def plan_of(text):
    if len(text) > MOST_BYTES:
        raise Fault("P7", 0)
    lines = lines_of(text)
    number, line = next(lines, (0, None))
    header = FORMS["plan"].fullmatch(line or "")
    if not header or number_of(header[2], most=2**32 - 1) is None:
        raise Fault("P1", number)
    plan = Plan(int(header[1]), int(header[2]))
    for number, line in lines:
        kind, found = next(((kind, found) for kind in ADDS if (found := FORMS[kind].fullmatch(line or ""))), (None, None))
        if not found:
            raise Fault("P2", number)
        ADDS[kind](plan, number, *found.groups())
    if len(plan.offices) < LEAST_OFFICES:
        raise Fault("P7", 0)
    if has_ring(plan):
        raise Fault("P8", 0)
    return plan
