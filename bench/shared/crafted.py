#!/usr/bin/env python3
"""Journals of two offices with a record between them, made so that an audit might take long.

usage: crafted.py KIND ENTRIES FOLDER

KIND is `values`: each session sets the record to a value chosen such that all frames with the bottle have one of two hashes, under the
hash of the kit's maps. Or `resends`: each frame is made a thousand times and comes as often, and so is a count alone after it.

It writes into FOLDER what audit_journals.awk writes: `plan`, `journal.00` and `journal.01` with at most ENTRIES entries each, `sessions`
and `values`.
"""
import sys

WORD = (1 << 64) - 1
RUN = 1


def folded(a, b):
    """The halves of a product, joined."""
    product = a * b
    return product & WORD ^ product >> 64


def hashed(state, number, size):
    """The hash after a number of so many bytes."""
    octets = number.to_bytes(size, "little")
    if size >= 4:
        low, high = octets[:4], octets[-4:]
        read = int.from_bytes(low, "little") | int.from_bytes(high, "little") << 32
    else:
        read = octets[0] | octets[size // 2] << 8 | octets[-1] << 16
    return folded(state ^ read, 0x9E3779B97F4A7C15 ^ 2 * size)


def value_for(sender, to, number, count):
    """A value with which the frame of that number has one of two hashes: before it all else is hashed."""
    state = 0x243F6A8885A308D3
    bottle, some = 3, 1
    for field, size in [(RUN, 4), (sender, 1), (to, 1), (number, 8), (count, 8), (some, 8), (bottle, 8), (0, 2)]:
        state = hashed(state, field, size)
    return state & (WORD >> 1)


class Journals:
    def __init__(self, entries, times):
        self.entries, self.times = entries, times
        self.lines = [[], []]
        self.made, self.taken, self.tickets, self.waiting = [0, 0], [0, 0], [0, 0], [0, 0]

    def put(self, at, line, times=1):
        self.lines[at].extend(["0 " + line] * times)

    def frame(self, kind, sender, number, body=""):
        return f"4450010{kind}{RUN:08x}{sender:02x}{1 - sender:02x}{number:016x}{self.taken[sender]:016x}{body}"

    def message(self, sender, body):
        """A message is made and comes, and acknowledges those that came; where frames come again, a count alone follows."""
        to = 1 - sender
        self.made[sender] += 1
        self.waiting[sender] += 1
        frame = self.frame(1, sender, self.made[sender], body)
        self.put(sender, f"send o{to} {self.waiting[sender]} = frame {frame}", self.times)
        self.put(to, f"took {frame} = taken")
        self.put(to, f"took {frame} = repeat", self.times - 1)
        self.taken[to] += 1
        self.waiting[to] = 0
        if self.times > 1:
            count = self.frame(2, to, 0)
            self.put(to, f"send o{sender} 0 = frame {count}", self.times)
            self.put(sender, f"took {count} = acked", self.times)
            self.waiting[sender] = 0

    def session(self, me, old, new):
        """An office gets the bottle from the other, and sets the record."""
        self.tickets[me] += 1
        text = f"session o{me}\nset r = {new}\nend\n".encode().hex()
        self.put(me, f"submit {text} = ticket {self.tickets[me]}")
        self.put(me, "do start = done")
        self.put(me, "do askbottle r = done")
        self.message(me, "030000")
        self.put(1 - me, "do givebottle r = done")
        self.message(1 - me, f"040000{old:016x}")
        for line in ["do drink = done", "do work 100 = done", "do finish = done"]:
            self.put(me, line)


def main():
    kind, entries, folder = sys.argv[1], int(sys.argv[2]), sys.argv[3]
    told = Journals(entries, 1000 if kind == "resends" else 1)
    room = 9 + 4 * told.times
    value, sessions = 0, 0
    while max(map(len, told.lines)) + room <= entries:
        me = 1 - sessions % 2
        new = sessions + 1
        if kind == "values":
            new = value_for(me, 1 - me, told.made[me] + 2, told.made[1 - me] + 2)
        told.session(me, value, new)
        value, sessions = new, sessions + 1
    for at in [0, 1]:
        with open(f"{folder}/journal.{at:02d}", "w") as file:
            file.write(f"journal 1 run {RUN} office o{at}\n")
            file.writelines(line + "\n" for line in told.lines[at])
    texts = {
        "plan": f"plan 1 run {RUN}\noffice o0 -\noffice o1 -\npair o0 o1 fork o0\nrecord r o0 o1 0 at o0\n",
        "sessions": f"{sessions}\n",
        "values": f"value r {value}\n",
    }
    for name, text in texts.items():
        with open(f"{folder}/{name}", "w") as file:
            file.write(text)


main()
