#!/bin/sh
# Processor time and memory of the large job: `load 1 N` for 1,000, 5,000 and 20,000 users, each a hub in memory with 2 N entries, N
# requests for another user and N guarded requests.
# usage: docs/bench/load.sh [PROGRAM ..]
# PROGRAM is the program `hub` as `rt run` leaves it (crates/hub/out/hub if none is named: run `rt run` there first); several are measured
# in turn, run by run. Each figure is the least of 3 runs in turn. It ends with status 1 where a run doesn't write the six lines that are
# counted here by the rule, or 20,000 users take more than 10 s of processor time or 200 MB. It stands outside the gate.
set -eu
top=$(cd "$(dirname "$0")/../.." && pwd)
[ $# -gt 0 ] || set -- "$top/crates/hub/out/hub"
exec python3 - "$@" <<'END'
import os, subprocess, sys

programs = sys.argv[1:]
SEED = 1
ROUNDS = 3
SIZES = (1_000, 5_000, 20_000)
SECONDS, KILOBYTES = 10, 200_000


def lines(users):
    """What the job has to write: each user finds itself alone, and enters its own server alone."""
    number, own = SEED, 0
    for user in range(users):
        number = (75 * number + 74) % 65537
        own += number % users == user
    return f"users {users}\nok {own}\nmissing {users - own}\nadmitted {own}\nrefused {users - own}\nrevision {2 * users}\n"


def measured(program, users):
    """The processor time in seconds and the most memory in kilobytes of one run."""
    run = subprocess.Popen([program, "load", str(SEED), str(users)], stdout=subprocess.PIPE)
    said = run.stdout.read().decode()
    _, status, usage = os.wait4(run.pid, 0)
    if status or said != lines(users):
        sys.exit(f"status {status}, and this instead of the lines counted here:\n{said}")
    return usage.ru_utime + usage.ru_stime, usage.ru_maxrss


late = False
for users in SIZES:
    runs = [[measured(program, users) for program in programs] for _ in range(ROUNDS)]
    best = [(min(run[at][0] for run in runs), min(run[at][1] for run in runs)) for at in range(len(programs))]
    print(f"{users} users: " + ", ".join(f"{seconds:.2f} s {kilobytes / 1000:.0f} MB" for seconds, kilobytes in best), flush=True)
    late |= users == SIZES[-1] and any(seconds > SECONDS or kilobytes > KILOBYTES for seconds, kilobytes in best)
sys.exit(late)
END
