"""Memory that runs out: each allocation of the program is refused in turn, and each of every call that takes memory, of which crates/refused_growths
is a caller. Either has a script of its own."""
import os, shutil

from common import HERE, program_of


def memory(check):
    if not shutil.which("cc"):
        print("not tried: each allocation refused in turn, since there is no C compiler")
        return
    library = check.library("refuse")
    script(check, "allocations", check.program, library)
    script(check, "growths", program_of("refused_growths"), library)


def script(check, name, program, library):
    """Tells what a script beside this file found wrong; it has a folder for what it makes."""
    folder = os.path.join(check.work, name)
    os.mkdir(folder)
    ran = check.run([os.path.join(HERE, f"{name}.sh"), program, library, folder], program="/bin/sh", timeout=900)
    print(ran.out.decode(errors="replace"), end="")
    check.wants(f"memory: {name}", ran, 0, "(?m)^(. serial|World::run: refused)", b"")
