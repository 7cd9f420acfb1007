#!/usr/bin/env python3
"""Asks an office for the sessions of files, the K-th under ticket K, and prints what each did. An office that was killed is started again
and asked again; and so may the till be, with the same words.

usage: till.py SESSION.. -- drink serve PLAN OFFICE --store FILE ..
"""
import subprocess, sys

cut = sys.argv.index("--")


def started():
    return subprocess.Popen(sys.argv[cut + 1 :], stdin=subprocess.PIPE, stdout=subprocess.PIPE, bufsize=0)


def outcome(office, ticket, session):
    """What the office says that the session did, or why it isn't taken; nothing where the office ends before."""
    try:
        office.stdin.write(b"ticket %d\n%s" % (ticket, session))
    except BrokenPipeError:
        return b""
    return next((it for it in office.stdout if it.startswith(b"refused ") or it.split()[0].endswith(b".%d" % ticket)), b"")


office = started()
for ticket, name in enumerate(sys.argv[1:cut], 1):
    with open(name, "rb") as file:
        session = file.read()
    while not (told := outcome(office, ticket, session)):
        if office.wait() >= 0:
            sys.exit(office.returncode)
        office = started()
    print(told.decode(), end="", flush=True)
    if told.startswith(b"refused "):
        office.terminate()
        sys.exit(1)
office.communicate()
