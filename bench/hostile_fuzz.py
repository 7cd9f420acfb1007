#!/usr/bin/env python3
"""Datagrams of all kinds come to an office that runs, and each is answered as a plain decoder and a plain channel say.

usage: hostile_fuzz.py PROGRAM FOLDER [COUNT [SEED]]        so many datagrams, 1000000 where none is said

The plan has 16 offices, of which the first is the neighbour of all others, with two records each. The first two are processes of
the program, which have sessions on the records that they share. All others are played here, and keep to no rule: random bytes, honest
frames that were altered, cut or made longer, of another run, pair or version, again and out of order, with counts of what was sent and
of what wasn't, things that are there already, messages kept past the window. In the name of the second office comes nothing that the
first would take.

Datagrams come in bursts, each of which ends with a count that is always taken. The next one comes when that count stands in the office's
store, so that what it answered is known, and that each datagram was received: the system says that it dropped none. A datagram that
has no entry must be one that the channel refuses, in the state in which it came or in one before the entry after it; one that has
one must be taken by the channel, and answered so.

At the end both offices have finished all sessions, and the first is opened once more from its store: that is refused where its journal
isn't legal. Fails where anything is otherwise.
"""
import collections, os, random, sys, time

from hostile_offices import ASK_BOTTLE, ASK_FORK, BOTTLE, COUNT, DATA, FORK, HOST, LENGTHS, RUN, TOP, Office, doors, frame, ports_of, socket_line, write

OFFICES, ME, FRIEND, EACH, WINDOW, BURST = 16, 0, 1, 512, 18, 31
PEERS = range(FRIEND + 1, OFFICES)
# A journal takes so many entries. The fuzzer sends nothing more that is taken once it has come near.
MOST_ENTRIES, ENOUGH = 1_000_000, 900_000
SECONDS = 60


def texts(ports):
    lines = [f"plan 1 run {RUN}", *(f"office o{it} {HOST}:{port}" for it, port in enumerate(ports))]
    lines += [f"pair o0 o{it} fork o{it if it % 2 else 0}" for it in range(1, OFFICES)]
    for it in range(1, OFFICES):
        lines += [f"record r{it}_{k} o0 o{it} {k} at o{it if k else 0}" for k in (0, 1)]
    sessions = "".join(f"session o{it}\nset r1_0 = read r1_0 + 1\nset r1_1 = read r1_1 + 1\nend\n" for _ in range(EACH) for it in (ME, FRIEND))
    return "\n".join((*lines, "")), sessions


# ---- a plain decoder, and a plain channel

def decoded(it):
    """The fields of the frame that bytes are, or the code of their first fault. An office reads 128 bytes at most."""
    it = it[:128]
    if len(it) < 26:
        return "F1"
    if it[:2] != b"DP":
        return "F2"
    version = it[2]
    if version not in (1, 2):
        return "F3"
    kind, number, count = it[3], int.from_bytes(it[10:18], "big"), int.from_bytes(it[18:26], "big")
    if kind not in (DATA, COUNT):
        return "F4"
    if number != 0 if kind == COUNT else not 0 < number <= TOP:
        return "F5"
    if count > TOP:
        return "F6"
    run, of, to = int.from_bytes(it[4:8], "big"), it[8], it[9]
    if kind == COUNT:
        return (version, run, of, to, number, count, None) if len(it) == 26 else "F8"
    if len(it) > 26 and it[26] not in LENGTHS:
        return "F7"
    has_form = version == 2 and len(it) > 26 and it[26] == BOTTLE
    if has_form and len(it) > 29 and it[29] != 1:
        return "F9"
    if len(it) == 26 or len(it) != LENGTHS[it[26]] + has_form:
        return "F8"
    record = int.from_bytes(it[27:29], "big") if it[26] in (ASK_BOTTLE, BOTTLE) else None
    return version, run, of, to, number, count, (it[26], record)


class Channel:
    """The end of a pair at the first office: things are a tag and a record."""

    def __init__(self, peer):
        self.records = (2 * (peer - 1), 2 * (peer - 1) + 1)
        here = {(FORK, None)} if peer % 2 == 0 else {(ASK_FORK, None)}
        self.held = here | {(BOTTLE, self.records[0]), (ASK_BOTTLE, self.records[1])}
        self.shared = {(tag, None) for tag in (ASK_FORK, FORK)} | {(tag, it) for tag in (ASK_BOTTLE, BOTTLE) for it in self.records}
        self.acked, self.waiting, self.taken, self.kept = 0, [], 0, {}

    def used(self):
        return self.acked + len(self.waiting)

    def sends(self, thing):
        self.held.remove(thing)
        self.waiting.append(thing)

    def is_breach(self, thing, count):
        return thing not in self.shared or thing in self.held or thing in self.waiting[max(0, count - self.acked):]

    def answer(self, number, count, thing):
        """What a frame is, where nothing changes."""
        if count > self.used():
            return "L2"
        if number == 0:
            return "acked"
        if number <= self.taken:
            return "repeat"
        if number == self.taken + 1:
            return "C1" if self.is_breach(thing, count) else "taken"
        return "kept" if number <= self.taken + WINDOW else "early"

    def takes(self, number, count, thing):
        """The same, and what it leaves."""
        said = self.answer(number, count, thing)
        if said in ("L2", "C1"):
            return said
        self.waiting = self.waiting[max(0, count - self.acked):]
        self.acked = max(self.acked, count)
        if said == "kept":
            self.kept.setdefault(number, thing)
        if said == "taken":
            self.take(thing)
            while (next_one := self.kept.pop(self.taken + 1, None)) and not self.is_breach(next_one, self.acked):
                self.take(next_one)
        return said

    def take(self, thing):
        self.taken += 1
        self.held.add(thing)


class FirstOffice:
    """What the first office's journal has led to, and what it answers there."""

    def __init__(self):
        self.channels = {it: Channel(it) for it in range(1, OFFICES)}

    def of(self, datagram, takes=False):
        it = decoded(datagram)
        if isinstance(it, str):
            return it
        version, run, of, to, number, count, thing = it
        if run != RUN or to != ME or of not in self.channels:
            return "L1"
        if version != 1:
            return "L4"
        channel = self.channels[of]
        return channel.takes(number, count, thing) if takes else channel.answer(number, count, thing)

    def does(self, words):
        """A rule that sends something."""
        if words[0] in (b"askfork", b"givefork"):
            self.channels[int(words[1][1:])].sends((ASK_FORK if words[0] == b"askfork" else FORK, None))
        elif words[0] in (b"askbottle", b"givebottle"):
            peer, k = map(int, words[1][1:].split(b"_"))
            self.channels[peer].sends((ASK_BOTTLE if words[0] == b"askbottle" else BOTTLE, 2 * (peer - 1) + k))


# ---- datagrams

class Draws:
    def __init__(self, seed, office):
        self.draw, self.office = random.Random(seed), office

    def honest(self, peer):
        """The next message of a peer, where there is a thing that isn't at the office; else its count."""
        channel = self.office.channels[peer]
        away = sorted(it for it in channel.shared if not channel.is_breach(it, channel.used()))
        if not away:
            return frame(peer, ME, 0, channel.used())
        tag, record = self.draw.choice(away)
        return frame(peer, ME, channel.taken + 1, channel.used(), tag, record or 0, self.draw.randrange(-9, 9))

    def other(self, peer, number, count):
        tag, record = self.draw.choice(sorted(self.office.channels[peer].shared, key=str))
        return frame(peer, ME, number, count, tag, record or 0, self.draw.randrange(-9, 9))

    def altered(self, it):
        it = bytearray(it)
        for _ in range(self.draw.randrange(1, 4)):
            it[self.draw.randrange(len(it))] ^= self.draw.randrange(1, 256)
        return bytes(it)

    def random_bytes(self, peer):
        return self.draw.randbytes(self.draw.randrange(80))

    def altered_frame(self, peer):
        return self.altered(self.honest(peer))

    def cut_or_longer(self, peer):
        it = self.honest(peer) + self.draw.randbytes(self.draw.randrange(3))
        return it[: self.draw.randrange(len(it) + 1)]

    def of_another_run(self, peer):
        return frame(self.draw.randrange(OFFICES), ME, self.draw.randrange(40), 0, None, run=RUN ^ (1 << self.draw.randrange(32)))

    def of_another_pair(self, peer):
        other = self.draw.choice(PEERS)
        channel = self.office.channels[peer]
        return frame(peer, self.draw.choice((ME, other)), channel.taken + 1, channel.acked, BOTTLE, 2 * (other - 1), 7)

    def of_another_version(self, peer):
        return self.honest(peer)[:2] + bytes([self.draw.choice((0, 2, 2, 3, 255))]) + self.honest(peer)[3:]

    def next_message(self, peer):
        return self.honest(peer)

    def again(self, peer):
        channel = self.office.channels[peer]
        return self.other(peer, self.draw.randrange(1, channel.taken + 1) if channel.taken else 1, channel.acked)

    def out_of_order(self, peer):
        channel = self.office.channels[peer]
        return self.other(peer, channel.taken + self.draw.randrange(2, 2 * WINDOW), channel.acked)

    def count_ahead(self, peer):
        channel = self.office.channels[peer]
        return frame(peer, ME, 0, channel.used() + self.draw.choice((1, 2, 19, TOP - channel.used())))

    def forged_count(self, peer):
        channel = self.office.channels[peer]
        return frame(peer, ME, 0, self.draw.randrange(channel.used() + 1))

    def what_is_there(self, peer):
        channel = self.office.channels[peer]
        tag, record = self.draw.choice(sorted(channel.held, key=str) or [(FORK, None)])
        return frame(peer, ME, channel.taken + 1, channel.acked, tag, record or 0)

    def one(self, some_are_taken):
        """A datagram, by its kind. In the name of the second office comes nothing that would be taken."""
        kinds = REFUSED if not some_are_taken else KINDS
        while True:
            kind = self.draw.choice(kinds)
            it = getattr(self, kind)(self.draw.choice(PEERS))
            if isinstance(fields := decoded(it), str) or fields[:4] != (1, RUN, FRIEND, ME):
                if some_are_taken or self.office.of(it) in FAULTS:
                    return kind, it


    def some(self, count, some_are_taken):
        """So many, each another, with their kinds: so an entry is of one of them."""
        found = {LAST: None}
        while len(found) <= count:
            kind, it = self.one(some_are_taken)
            found.setdefault(it, kind)
        del found[LAST]
        return found


# Each burst ends with this: the last office says that it took nothing.
LAST = frame(OFFICES - 1, ME, 0, 0)
# Each kind as often as it stands here: some third of all is taken.
KINDS = ("random_bytes", "altered_frame", "altered_frame", "cut_or_longer", "of_another_run", "of_another_pair", "of_another_version", "count_ahead", "count_ahead", "what_is_there", "what_is_there",
         "next_message", "again", "out_of_order", "forged_count")
REFUSED = ("random_bytes", "cut_or_longer", "of_another_run", "of_another_version", "count_ahead")
FAULTS = {"F1", "F2", "F3", "F4", "F5", "F6", "F7", "F8", "F9", "L1", "L4", "L2", "C1"}


# ---- the run

class Fuzzer:
    def __init__(self, office, state, door):
        self.office, self.state, self.door = office, state, door
        self.entries, self.answers, self.kinds = 0, collections.Counter(), collections.Counter()

    def fail(self, why):
        raise SystemExit(f"hostile_fuzz.py: {why}")

    def burst(self, datagrams):
        """They come, and then a count that is taken; until that one stands. What each was answered is looked at."""
        self.left = [*datagrams, LAST]
        self.was_refused = [False] * len(self.left)
        self.at = 0
        self.send_those_left()
        end = time.monotonic() + SECONDS
        while self.at < len(self.left):
            has_ended = self.office.process.poll() is not None
            lines = self.office.lines()
            for line in lines:
                self.entry(line)
            if not lines and has_ended:
                self.office.goes_on()
                self.send_those_left()
            elif not lines:
                time.sleep(0.0001)
            if time.monotonic() > end:
                self.fail(f"{len(self.left) - self.at} datagrams weren't answered: {self.office.told()[-300:]!r}")
        if self.office.process.poll() is None and (socket_line(self.office.port) or (0, 0))[1]:
            self.fail("the system dropped a datagram")

    def send_those_left(self):
        for it in self.left[self.at:]:
            self.door.sendto(it, (HOST, self.office.port))

    def entry(self, line):
        """An entry of the journal."""
        if line.startswith(b"journal "):
            return
        self.entries += 1
        said, _, reply = line.partition(b" = ")
        words = said.split()[1:]
        if words[0] == b"took":
            self.took(bytes.fromhex(words[1].decode()), reply.decode())
        elif words[0] == b"do":
            self.look_at_those_left()
            self.state.does(words[1:])

    def look_at_those_left(self):
        """The state changes: which of those that are left would be refused before."""
        for k in range(self.at, len(self.left)):
            self.was_refused[k] = self.was_refused[k] or self.state.of(self.left[k]) in FAULTS

    def took(self, datagram, reply):
        if datagram[8] == FRIEND:
            if self.state.of(datagram, takes=True) != reply:
                self.fail(f"{datagram.hex()} of the second office: {reply}")
            return
        while self.at < len(self.left) and self.left[self.at] != datagram:
            self.passed_over()
        if self.at == len(self.left):
            self.fail(f"{datagram.hex()} was taken, and never sent")
        self.at += 1
        wanted = self.state.of(datagram, takes=True)
        self.answers[reply] += 1
        if wanted != reply:
            self.fail(f"{datagram.hex()}: {wanted} is wanted, and not {reply}")

    def passed_over(self):
        answer = self.state.of(self.left[self.at])
        if answer not in FAULTS and not self.was_refused[self.at]:
            self.fail(f"{self.left[self.at].hex()} has no entry: {answer} is wanted")
        self.answers[answer if answer in FAULTS else "refused before"] += 1
        self.at += 1


def finished(office, name):
    return office.told().count(f"\n{name}.".encode())


def main():
    program, folder = sys.argv[1:3]
    count, seed = (int(it) for it in (*sys.argv[3:], *("1000000", "1")[len(sys.argv) - 3:]))
    # The ports of the two that run are free again; the others stay bound, since what the office sends there is of no matter.
    held = doors(OFFICES)
    ports = ports_of(held)
    plan, sessions = texts(ports)
    plan, sessions = write(folder, "plan", plan), write(folder, "sessions", sessions)
    for it in held[: FRIEND + 1]:
        it.close()
    offices = [Office(program, folder, plan, f"o{it}", ports[it], sessions) for it in (ME, FRIEND)]
    try:
        for it in offices:
            it.has_socket()
        state = FirstOffice()
        fuzzer, draws = Fuzzer(offices[ME], state, held[OFFICES - 1]), Draws(seed, state)
        begun, sent = time.monotonic(), 0
        while sent < count:
            burst = draws.some(min(BURST, count - sent), fuzzer.entries < ENOUGH)
            fuzzer.kinds.update(burst.values())
            fuzzer.burst([*burst])
            sent += len(burst)
        seconds = time.monotonic() - begun
        end = time.monotonic() + SECONDS
        while any(finished(it, f"o{k}") < EACH for k, it in enumerate(offices)):
            if time.monotonic() > end:
                fuzzer.fail(f"of {EACH} sessions each {[finished(it, f'o{k}') for k, it in enumerate(offices)]} finished")
            time.sleep(0.1)
        memory = offices[ME].memory()
    finally:
        for it in offices:
            it.end()
    again = Office(program, folder, plan, "o0", ports[ME], sessions, turns=1, new=False)
    again.process.wait()
    if not again.told().startswith(f"before {EACH}\n".encode()):
        fuzzer.fail(f"the journal isn't legal: {again.told()[:300]!r}")
    print(f"{sent} datagrams in {seconds:.0f} seconds, seed {seed}: each was answered as it has to be; {2 * EACH} honest sessions finished; {fuzzer.entries} entries, a legal journal; {offices[ME].starts} starts, {memory} KiB at the end")
    print("\n| Kind | Datagrams |\n|---|---|")
    for kind, times in sorted(fuzzer.kinds.items()):
        print(f"| {kind.replace('_', ' ')} | {times} |")
    print("\n| Answer | Datagrams |\n|---|---|")
    for answer, times in sorted(fuzzer.answers.items()):
        print(f"| {answer} | {times} |")


if __name__ == "__main__":
    main()
