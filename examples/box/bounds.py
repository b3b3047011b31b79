"""The bounds of a box: of memory, processes, processors and disk. Those of one program the kernel keeps. Those of all of them together need
no rights: who started the box looks at them twice a second, and ends the program that has most."""
import asyncio, os, resource, signal, sys, time, tomllib

# MiB of memory of all programs, and of files in memory in /tmp and /dev/shm each; how many programs; how many processors, and how much
# they give way to others; MiB and files of the home; which other folders are seen; what starts the box, as a program that gives bounds
# of its own; whether the box's user is called root in it; and the image by which podman makes the box in the place of bubblewrap
DEFAULTS = {"memory": 1024, "scratch": 128, "processes": 128, "processors": 2, "nice": 5, "disk": 2048, "files": 100000, "see": [],
            "before": [], "root": False, "image": ""}
FIRST_TO_GO, DESCRIPTORS = 500, 1024
EVERY, EVERY_DISK = 0.5, 5
# a home with so much of its bound has no server: whoever looks after the site makes room
TOO_MUCH = 1.25


def read(file):
    """What the settings say, and the defaults for the rest."""
    told = {}
    if file:
        try:
            with open(file, "rb") as it:
                told = tomllib.load(it)
        except (OSError, ValueError) as fault:
            sys.exit(f"box: {file}: {fault}")
    for name, value in told.items():
        if name not in DEFAULTS:
            sys.exit(f"box: {file}: no key is {name}: README.md has the keys")
        if type(value) is not type(DEFAULTS[name]) or type(value) is int and value < 1:
            sys.exit(f"box: {file}: {name} is {value!r}, and should be as {DEFAULTS[name]!r}")
    return {**DEFAULTS, **told}


def set_for_each(bound, seat):
    """Runs in the new process, before bubblewrap: the bounds that the kernel keeps, which no program of the box can raise."""
    mebi = 1 << 20
    limits = {resource.RLIMIT_NPROC: bound["processes"], resource.RLIMIT_DATA: bound["memory"] * mebi, resource.RLIMIT_CORE: 0,
              resource.RLIMIT_FSIZE: bound["disk"] * mebi, resource.RLIMIT_NOFILE: DESCRIPTORS, resource.RLIMIT_MEMLOCK: mebi,
              resource.RLIMIT_MSGQUEUE: 0, resource.RLIMIT_SIGPENDING: 1000}
    for which, most in limits.items():
        hard = resource.getrlimit(which)[1]
        most = most if hard == resource.RLIM_INFINITY else min(most, hard)
        resource.setrlimit(which, (most, most))
    os.nice(bound["nice"])
    with open("/proc/self/oom_score_adj", "r+") as file:
        if int(file.read()) < FIRST_TO_GO:
            file.write(str(FIRST_TO_GO))
    there = sorted(os.sched_getaffinity(0))
    os.sched_setaffinity(0, {there[(seat + it) % len(there)] for it in range(min(bound["processors"], len(there)))})


def send(number, how):
    try:
        os.kill(number, how)
    except ProcessLookupError:
        pass


def children(number):
    """The processes that a process started and that still run."""
    found = []
    try:
        for thread in os.listdir(f"/proc/{number}/task"):
            with open(f"/proc/{number}/task/{thread}/children") as file:
                found += [int(it) for it in file.read().split()]
    except OSError:
        pass
    return found


def below(number):
    """All processes of a box, whose first one this is: whom nobody waits for becomes its child."""
    found = []
    for child in children(number):
        found += [child, *below(child)]
    return found


def memory_of(number):
    """MiB that a process has for itself, and what it shares of memory without a file."""
    try:
        with open(f"/proc/{number}/status") as file:
            return sum(int(line.split()[1]) for line in file if line.startswith(("RssAnon:", "RssShmem:"))) / 1024
    except OSError:
        return 0


def used(folder):
    """MiB and files that a folder holds. Links are not followed."""
    blocks, files, left = 0, 0, [folder]
    while left:
        try:
            with os.scandir(left.pop()) as entries:
                for entry in entries:
                    files += 1
                    blocks += entry.stat(follow_symlinks=False).st_blocks
                    if entry.is_dir(follow_symlinks=False):
                        left.append(entry.path)
        except (FileNotFoundError, NotADirectoryError):
            # it was taken away meanwhile
            continue
    return blocks / 2048, files


def share_of(home, bound):
    """How much of its bound a home has, and that in words. One that can't be counted has too much, as where its folders are too deep."""
    try:
        mebi, files = used(home)
    except OSError as fault:
        return float("inf"), f"the home can't be counted: {fault.strerror}"
    return (max(mebi / bound["disk"], files / bound["files"]),
            f"the home holds {mebi:.0f} MiB of {bound['disk']}, and {files} files of {bound['files']}")


def see_memory(first, bound, say):
    """Ends the program that has most, where all together have too much."""
    has = {number: memory_of(number) for number in below(first)}
    if sum(has.values()) > bound["memory"]:
        most = max(has, key=has.get)
        say(f"{sum(has.values()):.0f} MiB of memory, of {bound['memory']}: a program with {has[most]:.0f} MiB is ended")
        send(most, signal.SIGKILL)


def see_disk(first, bound, home, say):
    """Ends all but the first program where the home holds too much, and that too where it holds a quarter more."""
    share, told = share_of(home, bound)
    if share <= 1:
        return
    program = children(first)
    ended = below(first) if share > TOO_MUCH else [it for it in below(first) if it not in program]
    say(f"{told}: {len(ended)} programs are ended")
    for number in ended:
        send(number, signal.SIGKILL)


async def watch(first, bound, home, say):
    next_disk = 0
    while True:
        await asyncio.sleep(EVERY)
        see_memory(first, bound, say)
        if time.monotonic() > next_disk:
            began = time.monotonic()
            await asyncio.to_thread(see_disk, first, bound, home, say)
            next_disk = time.monotonic() + max(EVERY_DISK, 20 * (time.monotonic() - began))
