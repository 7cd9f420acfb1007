"""Journals, as docs/formats.md has them."""
import re
from collections import namedtuple

from frames import frame_of
from sessions import sessions_of
from words import Fault, bytes_of, is_name, lines_of, number_of

# An entry: what came in, with the session or the frame in place of its digits, and the reply.
Entry = namedtuple("Entry", "event reply")
# What the entries end before: a line whose digits spell no frame.
NO_FRAME = "no frame"
MOST_TAG, MOST_TICKET, MOST_WORK = 15, 2**32 - 1, 1000

# The forms of lines, of which words are parted by spaces and tabs; T is a ticket, I any number.
FORMS = [
    re.compile(form.replace(" ", "[ \t]+").replace("NAME", r"([A-Za-z]\w*)").replace("HEX", r"(\w+)"), re.ASCII)
    for form in (
        r"(\d+) (submit) HEX = ticket (?P<T>\d+)",
        r"(\d+) do (start|hungry|eat|leave|drink|finish) = done",
        r"(\d+) do (askfork|givefork) NAME = done",
        r"(\d+) do (askbottle|givebottle) NAME = done",
        r"(\d+) do (work) (?P<N>\d+) = done",
        r"(\d+) (send) NAME (?P<I>\d+) = frame HEX",
        r"(\d+) (took) HEX = (acked|taken|repeat|kept|early)",
        r"(\d+) (withdraw) (?P<T>\d+) = done",
    )
]
HEADER = re.compile(r"journal 1 run (\d+) office ([A-Za-z]\w{0,15})".replace(" ", "[ \t]+"), re.ASCII)
# The ranges of the numbers in them.
RANGES = {"T": (1, MOST_TICKET), "N": (1, MOST_WORK), "I": (0, 2**63 - 1)}


def office_of(plan, name):
    return plan.offices.index(name) if name in plan.offices else None


def frame_in(word):
    data = bytes_of(word)
    return None if data is None else frame_of(data) or NO_FRAME


def session_in(plan, word):
    """The one session that these digits spell, or None."""
    try:
        found = sessions_of(plan, bytes_of(word) or b"")
    except Fault:
        return None
    return found[0] if len(found) == 1 else None


def entry_of(plan, line):
    """What a line says, or None."""
    found = next((found for form in FORMS if (found := form.fullmatch(line or ""))), None)
    if not found or number_of(found[1], most=MOST_TAG) is None or any(number_of(word, *RANGES[kind]) is None for kind, word in found.groupdict().items()):
        return None
    kind, rest = found[2], found.groups()[2:]
    if kind == "submit":
        entry = Entry((kind, session_in(plan, rest[0])), int(rest[1]))
    elif kind == "send":
        entry = Entry((kind, office_of(plan, rest[0]), int(rest[1])), frame_in(rest[2]))
    elif kind == "took":
        entry = Entry((kind, frame_in(rest[0])), rest[1])
    elif kind in ("askfork", "givefork"):
        entry = Entry((kind, office_of(plan, rest[0])), "done")
    elif kind in ("askbottle", "givebottle"):
        entry = Entry((kind, plan.record(rest[0])), "done")
    else:
        entry = Entry((kind, *map(int, rest)), "done")
    return None if None in entry.event or entry.reply is None else entry


def journal_of(plan, text):
    """The office of a journal and its entries; the last of them None where it spells no frame."""
    lines = lines_of(text)
    number, line = next(lines, (0, None))
    header = HEADER.fullmatch(line or "")
    if not header or number_of(header[1]) is None or not is_name(header[2]):
        raise Fault("J1", number)
    if int(header[1]) != plan.run or header[2] not in plan.offices:
        raise Fault("J2", number)
    entries = []
    for number, line in lines:
        entries.append(entry_of(plan, line))
        if entries[-1] is None:
            raise Fault("J1", number)
    ends = next((at for at, it in enumerate(entries) if NO_FRAME in (it.reply, it.event[-1])), None)
    return plan.offices.index(header[2]), entries if ends is None else [*entries[:ends], None]
