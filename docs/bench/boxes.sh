#!/bin/sh
# What a box costs beside a plain start: seconds until a server is ready, memory of each part, and the same for N servers at once whose
# kernels compute. It starts sites of its own by examples/site/start, one after the other: without boxes, with them, and with boxes by podman
# where the account has the image that examples/box/image makes.
# usage: [KINDS='plain box podman'] docs/bench/boxes.sh [PROGRAM [N]], as an account that isn't root
# PROGRAM is the program `hub` (crates/hub/out/hub if none is named: run `./run` first), N is 30 if it isn't given, and at most 30. The
# site's folder is made in the home of who runs this, and removed at the end; its ports are those from SITE_PORT on, 30000. It wants what
# examples/site/start and examples/box want, and Debian's python3-websockets. It takes some minutes, and stands outside the gate. It ends
# with status 1 at the first thing that isn't as it should be.
set -eu
top=$(cd "$(dirname "$0")/../.." && pwd)
export HUB="${1:-$top/crates/hub/out/hub}" SITE_PORT=${SITE_PORT:-30000}
for kind in ${KINDS:-plain box podman}; do
    [ $kind != podman ] || podman --storage-driver=overlay image exists localhost/gorewhahu-box 2> /dev/null || continue
    SITE=$(mktemp -d "$HOME/boxes.XXXXXX")
    export SITE
    printf 'box = %s\n' "$([ $kind = plain ] && echo false || echo true)" > "$SITE/site.toml"
    printf 'nice = 1\n' > "$SITE/box.toml"
    [ $kind != podman ] || echo 'image = "localhost/gorewhahu-box"' >> "$SITE/box.toml"
    "$top/examples/site/start" > /dev/null
    status=0
    /usr/bin/python3 -B - "$top" $kind "${2:-30}" <<'PYTHON' || status=1
import json, os, statistics, sys, time
from concurrent.futures import ThreadPoolExecutor
top, many = sys.argv[1], int(sys.argv[3])
sys.path += [f"{top}/examples/site", f"{top}/examples/box"]
from kernel import Kernel
from parts import ask, read
own = read("operator-token").strip()
names = [name for name in json.loads(read("people")) if name not in ("operator", "ms-rivera", "mr-cole")][:many]
# what a kernel computes: 12345 is the remainder of a power, found by repeated squaring, once more by Python's own `pow`
CELL = "x = 3\nfor _ in range(10_000_000): x = x * x % 1_000_003\nprint(x == pow(3, pow(2, 10_000_000, 1_000_002), 1_000_003))"
PARTS = {"single-user": "single-user", "guard": "\0guard\0", "box": "/box\0--home", "walls": "bwrap\0", "podman": "podman\0run",
         "conmon": "conmon\0", "notebook": "jupyter-notebook\0--N", "kernel": "ipykernel_launcher"}


def start(name):
    began = time.monotonic()
    status, said = ask("POST", f"/users/{name}/server", own, most=120)
    if status != 201:
        raise SystemExit(f"{name} isn't started: {status} {said}; the log of the hub: {read('log/hub')[-400:]}")
    return time.monotonic() - began


def stop(name):
    began = time.monotonic()
    status, said = ask("DELETE", f"/users/{name}/server", own, most=60)
    if status != 204:
        raise SystemExit(f"{name} isn't stopped: {status} {said}")
    return time.monotonic() - began


def memory():
    """MiB of each part of all servers: proportional, so that what several share counts once."""
    has = dict.fromkeys(PARTS, 0)
    for number in (it for it in os.listdir("/proc") if it.isdigit()):
        try:
            if os.stat(f"/proc/{number}").st_uid != os.getuid():
                continue
            with open(f"/proc/{number}/cmdline") as file:
                words = file.read()
            with open(f"/proc/{number}/smaps_rollup") as file:
                pss = next(int(line.split()[1]) for line in file if line.startswith("Pss:")) / 1024
        except (OSError, StopIteration):
            continue
        order = ("box", "walls", "podman", "conmon", "guard", "single-user", "kernel", "notebook")
        if part := next((it for it in order if PARTS[it] in words), None):
            has[part] += pss
    return has


def shown(has, servers):
    return ", ".join(f"{part} {pss / servers:.1f}" for part, pss in has.items() if pss)


def cell(name):
    began = time.monotonic()
    said = Kernel(name, json.loads(read("people"))[name]["token"]).cell(CELL, 400)
    if said != "True\n":
        raise SystemExit(f"{name}'s cell said {said!r}")
    return time.monotonic() - began


kind = {"plain": "plain", "box": "in a box", "podman": "in a box by podman"}[sys.argv[2]]
single = [(start("ada"), stop("ada")) for _ in range(5)]
print(f"{kind}: one server is ready in {statistics.median(it[0] for it in single):.2f} s, and stopped in "
      f"{statistics.median(it[1] for it in single):.2f} s (medians of 5)")
start("ada")
time.sleep(3)
print(f"{kind}: MiB of one server without a kernel: {shown(memory(), 1)}")
stop("ada")
with ThreadPoolExecutor(8) as workers:
    began = time.monotonic()
    took = list(workers.map(start, names))
    print(f"{kind}: {len(names)} servers are ready in {time.monotonic() - began:.1f} s, 8 at a time, each in {min(took):.1f} to "
          f"{max(took):.1f} s")
with ThreadPoolExecutor(len(names)) as workers:
    began = time.monotonic()
    took = list(workers.map(cell, names))
    print(f"{kind}: a cell of each computes at once: the first is done in {min(took):.1f} s, the last in {max(took):.1f} s")
print(f"{kind}: MiB of each server, with a kernel: {shown(memory(), len(names))}; all together {sum(memory().values()):.0f}")
with ThreadPoolExecutor(8) as workers:
    began = time.monotonic()
    list(workers.map(stop, names))
    print(f"{kind}: they are stopped in {time.monotonic() - began:.1f} s, 8 at a time")
PYTHON
    "$top/examples/site/stop" > /dev/null
    rm -rf "$SITE"
    [ $status = 0 ] || exit 1
done
