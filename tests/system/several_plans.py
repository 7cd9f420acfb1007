"""The example that has more records than a pair may: two plans of the same two offices, each in one process over both plans."""
import os, re, shutil, subprocess

from common import SECONDS, TOP, at_ports, free_ports

EXAMPLE = os.path.join(TOP, "examples", "several_plans")
PLANS = ("shop_a.txt", "shop_n.txt")
# What the shop's sessions come to, by plan; which of the plans speaks first isn't said.
SAID = {
    "shop_a.txt": ["ready 0", "ticket 1", "shop.1 done reads bolts=40 writes bolts=36 gives 36", "unfinished 0"],
    "shop_n.txt": ["ready 0", "ticket 1", "shop.1 done reads nuts=70 pins=15 writes nuts=66 pins=14 gives -", "unfinished 0"],
    "no": ["plan has keys and pins", "plan has wedges"],
}
VALUES = {
    "shop_a.txt": b"value anchors 10\nvalue bolts 36\nvalue clips 25\nvalue dowels 60\nvalue files 4\nvalue hooks 33\nvalue keys 12\nvalue levers 7\n",
    "shop_n.txt": b"value nuts 66\nvalue pins 14\n",
}


def several_plans(check):
    room = os.path.join(check.work, "several")
    shutil.rmtree(room, ignore_errors=True)
    shutil.copytree(EXAMPLE, room)
    ports = free_ports(4)
    for at, name in enumerate(PLANS):
        with open(os.path.join(room, name), "r+b") as file:
            plan = at_ports(file.read(), ports[2 * at : 2 * at + 2])
            file.seek(0)
            file.truncate()
            file.write(plan)
    start = lambda office: subprocess.Popen(["./offices.py", office, *PLANS, "--", "--new", "--linger", "7"], cwd=room, env={**os.environ, "DRINK": check.link}, stdin=subprocess.PIPE, stdout=subprocess.PIPE, stderr=subprocess.PIPE)
    shop, depot = start("shop"), start("depot")
    with open(os.path.join(room, "sessions.txt"), "rb") as file:
        out, err = shop.communicate(file.read(), timeout=SECONDS)
    said = {it: re.findall(rf"(?m)^{re.escape(it)} (.*)$", out.decode()) for it in SAID}
    check.equal("several plans: what the shop's sessions come to", (said, err, shop.returncode), (SAID, b"", 0))
    depot.communicate(timeout=SECONDS)
    check.equal("several plans: the depot ends well", depot.returncode, 0)
    for plan, values in VALUES.items():
        stores = [os.path.join(room, f"{plan}.{it}.store") for it in ("shop", "depot")]
        ran = check.run(["audit", os.path.join(room, plan), *stores])
        check.wants(f"several plans: the audit of {plan}", ran, 0, rf"(?s)\Ashop\.1 done [^\n]*\nunfinished 0\n{values.decode()}\Z", b"")
