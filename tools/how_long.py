"""How long the proofs of a program take yet, by tools/proof-seconds and by what rt has kept on this machine."""
import hashlib
import heapq
import importlib.machinery
import importlib.util
import json
import os
import shutil
import sys

from repository import TOP, files

TABLE = f"{TOP}/tools/proof-seconds"


def seconds(names):
    """The seconds of a processor that the proof of each of these crates takes from nothing; of one that the table lacks, by its lines."""
    with open(TABLE, encoding="utf-8") as file:
        table = {name: float(took) for name, took in (line.split() for line in file if line[0] not in "#\n")}
    known = [it for it in names if it in table]
    of_a_line = sum(table[it] for it in known) / max(1, sum(map(lines_of, known)))
    return {it: table[it] if it in table else of_a_line * lines_of(it) for it in names}


def lines_of(name):
    """How many lines of Rattle a crate has."""
    count = 0
    for path in files(name):
        if path.endswith(".rt"):
            with open(path, encoding="utf-8") as file:
                count += sum(1 for _ in file)
    return count


def left(stands_on, costs, done, lanes):
    """The seconds until all are proved that aren't done, so many at a time, those with the longest chain of others behind them first."""
    behind = {}
    for name in reversed([*costs]):
        above = [behind[it] for it in behind if name in stands_on[it]]
        behind[name] = costs[name] + max(above, default=0)
    now, running, proved, waiting = 0, [], set(done), [it for it in costs if it not in done]
    while waiting or running:
        ready = sorted((it for it in waiting if proved.issuperset(stands_on[it])), key=lambda it: -behind[it])
        for name in ready[: lanes - len(running)]:
            waiting.remove(name)
            heapq.heappush(running, (now + costs[name], name))
        now, name = heapq.heappop(running)
        proved.add(name)
    return now


def kept(room):
    """The crates of a copy that rt will take from what it kept. It asks rt's own functions, as `rt ci` would; where they aren't there, or
    keep in another way, it knows of none."""
    here = os.getcwd()
    try:
        os.chdir(room)
        return known_to(rt_module(), room)
    except (Exception, SystemExit):  # whatever another rt does, this is only for what is said
        return set()
    finally:
        os.chdir(here)


def rt_module():
    path = os.path.realpath(shutil.which("rt"))
    loader = importlib.machinery.SourceFileLoader("rt_of_the_kit", path)
    made = importlib.util.module_from_spec(importlib.util.spec_from_loader("rt_of_the_kit", loader))
    sys.modules["rt_of_the_kit"] = made
    loader.exec_module(made)
    return made


def known_to(rt, room):
    rt.Crate.allowed = rt.handles_of(room)
    sums, found = {}, set()
    for crate in rt.crates_of(room):
        if any(it.name not in found for it in crate.below()):
            continue
        key = hashlib.sha256(repr((rt.own_sum(crate), [(it.name, sums[it.name]) for it in crate.below()])).encode()).hexdigest()
        file = f"{rt.STORE}/proof-{crate.name}-{key}/made.json"
        if os.path.exists(file):
            with open(file, encoding="utf-8") as it:
                made = json.load(it)["files"]
            sums[crate.name] = hashlib.sha256(repr([tuple(it) for it in made]).encode()).hexdigest()
            found.add(crate.name)
    return found


def in_words(duration):
    """A time as a person says it."""
    minutes = round(duration / 60)
    if minutes < 2:
        return "a minute or two"
    return f"some {minutes} minutes" if minutes < 100 else f"some {duration / 3600:.1f} hours"
