"""The crates of this repository, and copies of some of them: what ./run and docs/edits/try have in common."""
import os
import shutil

TOP = os.path.dirname(os.path.dirname(os.path.realpath(__file__)))
MEMORY_OF_A_CHECK = 3 << 30
# what a crate is made of, and what a program is run on; wrong bodies stand apart
READ = ("src", "specs", "proofs", "data", "stdin", "stdout", "args")


def crates():
    """The lines of crates.txt, and each crate with those of this repository that it stands on."""
    lines = {}
    for line in open(f"{TOP}/crates.txt", encoding="utf-8"):
        name = line.split("#")[0].partition(":")[0].split()
        if name:
            lines[name[0]] = line
    return lines, {name: [it for it in line.split("#")[0].partition(":")[2].split() if it in lines] for name, line in lines.items()}


def needed(stands_on, name, found):
    """The crate and all below it, lowest first."""
    for below in stands_on[name]:
        needed(stands_on, below, found)
    if name not in found:
        found.append(name)
    return found


def files(name):
    """The Rattle files of a crate."""
    for folder, folders, names in os.walk(f"{TOP}/crates/{name}"):
        folders[:] = sorted(it for it in folders if it != "out")
        yield from (f"{folder}/{it}" for it in sorted(names) if it.endswith((".rt", ".antt")))


def copy_of(room, lines, names):
    """Makes a repository of these crates alone, without their wrong bodies."""
    with open(f"{room}/crates.txt", "w", encoding="utf-8") as file:
        file.writelines(lines[name] for name in names)
    shutil.copy(f"{TOP}/HANDLES", f"{room}/HANDLES")
    for name in names:
        for part in READ:
            at, to = f"{TOP}/crates/{name}/{part}", f"{room}/crates/{name}/{part}"
            if os.path.isdir(at):
                shutil.copytree(at, to)
            elif os.path.isfile(at):
                os.makedirs(os.path.dirname(to), exist_ok=True)
                shutil.copy(at, to)


def at_once():
    """How many checks run at a time: one for each processor for which there is memory."""
    memory = os.sysconf("SC_PAGE_SIZE") * os.sysconf("SC_PHYS_PAGES")
    return max(1, min(len(os.sched_getaffinity(0)), memory // MEMORY_OF_A_CHECK))
