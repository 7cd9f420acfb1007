"""Streams that are closed, full, come in pieces, or have nobody at the other end."""
import os

from common import ANSWER

# So many sessions of so many gives have an answer that no pipe holds.
MANY, GIVES = 900, 50


def streams(check):
    """Streams that are closed, full, or have nobody at the other end."""
    closed = r"\Adrink: -: X4 ReadFailed: [^\n]*closed[^\n]*\n\Z"
    for words in ("serial plan.txt -", "serial - sessions.txt", "serial - -", "sim plan.txt sessions.txt -", "sim plan.txt - script.txt", "sim - - -"):
        check.wants(f"drink {words} <&-", check.shell(f"./drink {words} <&-"), 1, b"", closed)
    check.wants("drink serial plan.txt sessions.txt <&-", check.shell("./drink serial plan.txt sessions.txt <&-"), 0, ANSWER, b"")
    check.wants("drink serial plan.txt - < folder", check.shell("./drink serial plan.txt - < folder"), 1, b"", r"\Adrink: -: X4 ReadFailed: [^\n]*folder")
    check.wants("drink serial plan.txt - < /dev/null", check.shell("./drink serial plan.txt - < /dev/null"), 0, b"value x 5\n", b"")
    runs = ("serial plan.txt sessions.txt", "sim plan.txt sessions.txt script.txt", "random plan.txt sessions.txt --seed 1 --loss 0 --steps 9", "live plan.txt sessions.txt", "--help", "serial --help", "--version")
    for words in runs:
        for end in (">&-", "> /dev/full"):
            check.wants(f"drink {words} {end}", check.shell(f"./drink {words} {end}"), 1, b"", r"\Adrink: X5 WriteFailed: [^\n]*\n\Z")
        there, gone = os.pipe()
        os.close(there)
        check.wants(f"drink {words}, whose reader has gone", check.run(words, stdout=gone), 1, b"", b"")
        os.close(gone)
    for end in ("2>&-", "2> /dev/full"):
        check.wants(f"a fault, {end}", check.shell(f"./drink serial nowhere.txt sessions.txt {end}"), 1, b"", b"")
        check.wants(f"a faulty command line, {end}", check.shell(f"./drink serial {end}"), 2, b"", b"")
        check.wants(f"an answer, {end}", check.shell(f"./drink serial plan.txt sessions.txt {end}"), 0, "value x 5", b"")
    pieces = "(cat plan.txt; sleep 0.1; echo ---; sleep 0.1; cat sessions.txt) | ./drink serial - -"
    check.wants("a standard input that comes in pieces", check.shell(pieces), 0, ANSWER, b"")
    check.files({"many.txt": (b"session a\n" + b"give read x\n" * GIVES + b"end\n") * MANY})
    line = f"done reads x=5 writes - gives{' 5' * GIVES}\n"
    answer = "".join(f"a.{it} {line}" for it in range(1, MANY + 1)) + "value x 5\n"
    check.wants("an answer longer than a pipe holds", check.shell("./drink serial plan.txt many.txt | (sleep 0.1; cat)"), 0, answer.encode(), b"")
    check.wants("a reader that goes after a line", check.shell("{ ./drink serial plan.txt many.txt; echo $? >&2; } | head -n 1"), 0, f"a.1 {line}".encode(), b"1\n")
    check.wants("all three streams closed", check.shell("./drink serial plan.txt - <&- >&- 2>&-"), 1, b"", b"")
