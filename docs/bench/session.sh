#!/bin/sh
# Processor time of requests of one connection: `session` over a pipe, with so many users kept.
# usage: docs/bench/session.sh [PROGRAM ..]
# PROGRAM is the program `hub` as `rt run` leaves it (crates/hub/out/hub if none is named: run `rt run` there first); several are measured
# in turn, run by run. Each figure is the processor time of the session with 800 such requests less that of the session with none of them,
# by 800; of each the least of 25 runs in turn. It stands outside the gate.
set -eu
top=$(cd "$(dirname "$0")/../.." && pwd)
[ $# -gt 0 ] || set -- "$top/crates/hub/out/hub"
exec python3 - "$@" <<'END'
import resource, subprocess, sys

programs = sys.argv[1:]
ASKED = 800
ROUNDS = 25


def request(method, path, body=b"", extra=b""):
    head = b"%s %s HTTP/1.1\r\nHost: hub\r\nAuthorization: token secret-token-ann\r\n%s" % (method, path, extra)
    if body:
        head += b"Content-Length: %d\r\n" % len(body)
    return head + b"\r\n" + body


def users(count):
    """Requests that make so many users, at most 1,000 in each."""
    names = [b'"u%06d"' % n for n in range(count)]
    return b"".join(
        request(b"POST", b"/hub/api/users", b'{"usernames":[' + b",".join(names[i : i + 1000]) + b"]}")
        for i in range(0, count, 1000)
    )


def seconds(program, text, replies):
    """The processor time of a session with this input, which has to end well after so many replies."""
    before = resource.getrusage(resource.RUSAGE_CHILDREN)
    ran = subprocess.run(
        [program, "session", "1700000000", "ann", "secret-token-ann", "--admin"], input=text, stdout=subprocess.PIPE
    )
    after = resource.getrusage(resource.RUSAGE_CHILDREN)
    if ran.returncode or ran.stdout.count(b"HTTP/1.1 20") != replies:
        sys.exit(f"status {ran.returncode}, {ran.stdout.count(b'HTTP/1.1 20')} good replies, not {replies}")
    return after.ru_utime + after.ru_stime - before.ru_utime - before.ru_stime


def each(kept, asked):
    """Microseconds of each of the asked requests over so many users, for each program."""
    first = users(kept)
    steps = -(-kept // 1000)
    text = first + b"".join(asked)
    runs = [
        [(seconds(program, first, steps), seconds(program, text, steps + len(asked))) for program in programs]
        for _ in range(ROUNDS)
    ]
    bases = [min(run[at][0] for run in runs) for at in range(len(programs))]
    wholes = [min(run[at][1] for run in runs) for at in range(len(programs))]
    return [1e6 * (whole - base) / len(asked) for base, whole in zip(bases, wholes)]


identity = [request(b"GET", b"/hub/api/user")] * ASKED
paging = b"Accept: application/jupyterhub-pagination+json\r\n"
for name, kept, asked in [
    ("the identity, 100 users", 100, identity),
    ("the identity, 10,000 users", 10_000, identity),
    ("the identity, 99,000 users", 99_000, identity),
    ("one user of 1,000", 1000, [request(b"GET", b"/hub/api/users/u%06d" % n) for n in range(ASKED)]),
    ("a page of 50 of 1,000 users", 1000, [request(b"GET", b"/hub/api/users?limit=50&offset=%d" % n, extra=paging) for n in range(ASKED)]),
    ("a new user beside 1,000", 1000, [request(b"POST", b"/hub/api/users/v%06d" % n) for n in range(ASKED)]),
]:
    print(f"{name}: {', '.join(f'{it:.1f}' for it in each(kept, asked))} microseconds", flush=True)
END
