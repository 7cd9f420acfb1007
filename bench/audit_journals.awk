# Journals of offices in a ring, each of which shares a record with the next one, for `drink audit`: bottles go to and fro
# between neighbours, with a session at each end. Each frame is made twice and comes twice, the second time as one that was
# taken before; what it acknowledges is what came until then.
#
#   awk -v offices=N -v entries=E -v work=FOLDER -f audit_journals.awk
#
# It writes into FOLDER the plan, `plan`, of N offices, the journals, `journal.00` and so on, with E entries each, and
# `sessions`, how many sessions finish, and `values`, the lines of the records' values at last.

# The hexadecimal digits of a text.
function digits(text,   i, all) {
    for (i = 1; i <= length(text); i++) all = all sprintf("%02x", code[substr(text, i, 1)])
    return all
}

function put(at, line) {
    print "0 " line > journal[at]
    had[at]++
}

# The first bytes of a frame: of data, 1, or of a count alone, 2.
function header(kind, from, to) {
    return sprintf("4450010%d00000001%02x%02x", kind, from, to)
}

# A message is made and comes, both twice. With it the other's messages are acknowledged, all of which came.
function message(from, to, body,   frame) {
    made[from, to]++
    waiting[from, to]++
    frame = header(1, from, to) sprintf("%016x%016x", made[from, to], taken[from, to]) body
    put(from, "send o" to " " waiting[from, to] " = frame " frame)
    put(from, "send o" to " " waiting[from, to] " = frame " frame)
    put(to, "took " frame " = taken")
    put(to, "took " frame " = repeat")
    waiting[to, from] = 0
    taken[to, from]++
}

# One end of a pair gets the bottle from the other, and a session of it adds 1 to the record.
function session(p, me, other) {
    put(me, "submit " digits_of[p, me] " = ticket " ++tickets[me])
    put(me, "do start = done")
    put(me, "do askbottle r" p " = done")
    message(me, other, sprintf("03%04x", p))
    put(other, "do givebottle r" p " = done")
    message(other, me, sprintf("04%04x%016x", p, value[p]))
    put(me, "do drink = done")
    put(me, "do work 100 = done")
    put(me, "do finish = done")
    value[p]++
}

# The rest of an office's journal: frames with the count alone.
function fill(at,   to, line) {
    to = (at + 1) % offices
    line = "send o" to " 0 = frame " header(2, at, to) sprintf("%016x%016x", 0, taken[at, to])
    while (had[at] < entries) put(at, line)
}

BEGIN {
    for (i = 1; i < 128; i++) code[sprintf("%c", i)] = i
    pairs = offices == 2 ? 1 : offices
    plan = work "/plan"
    print "plan 1 run 1" > plan
    for (a = 0; a < offices; a++) {
        print "office o" a " -" > plan
        journal[a] = sprintf("%s/journal.%02d", work, a)
        print "journal 1 run 1 office o" a > journal[a]
        had[a] = 0
    }
    for (p = 0; p < pairs; p++) {
        b = (p + 1) % offices
        # The last fork starts at its other end: no ring precedes itself.
        print "pair o" p " o" b " fork o" (p + 1 == pairs && pairs > 1 ? b : p) > plan
        print "record r" p " o" p " o" b " 0 at o" p > plan
        value[p] = 0
        digits_of[p, p] = digits("session o" p "\nset r" p " = read r" p " + 1\nend\n")
        digits_of[p, b] = digits("session o" b "\nset r" p " = read r" p " + 1\nend\n")
    }
    # The record starts at the pair's first office, so the second one gets it first. Ten entries of the one, five of the other.
    for (turn = 0; ; turn++) {
        p = turn % pairs
        me = int(turn / pairs) % 2 ? p : (p + 1) % offices
        other = me == p ? (p + 1) % offices : p
        if (had[me] + 10 > entries || had[other] + 5 > entries) break
        session(p, me, other)
    }
    for (a = 0; a < offices; a++) fill(a)
    print turn > (work "/sessions")
    printf "" > (work "/values")
    for (p = 0; p < pairs; p++) print "value r" p " " value[p] > (work "/values")
}
