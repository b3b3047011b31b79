#!/bin/sh
# Processor time of the first page of `GET /users`, by the number of users kept: for an admin, and for a teacher of 30 of them.
# usage: docs/bench/lists.sh [PROGRAM ..]
# Each PROGRAM is a program `hub` as `rt run` leaves it (crates/hub/out/hub if none is named: run `rt run` there first); several are
# measured in turn, as one of before a change and one of after it. Each figure is the processor time of a session with so many such requests
# less that of the session with none of them, by their number; of each the least of 9 runs. As many are asked as take some two seconds, and
# no more than the 1,000 requests of a connection. It stands outside the gate.
set -eu
top=$(cd "$(dirname "$0")/../.." && pwd)
[ $# -gt 0 ] || set -- "$top/crates/hub/out/hub"
exec python3 - "$@" <<'END_OF_PROGRAM'
import resource, subprocess, sys

ROUNDS = 9
STUDENTS = 30


def request(method, path, body=b""):
    head = b"%s %s HTTP/1.1\r\nHost: hub\r\nAuthorization: token secret-token-ann\r\n" % (method, path)
    if body:
        head += b"Content-Length: %d\r\n" % len(body)
    return head + b"\r\n" + body


def names(numbers):
    return b",".join(b'"u%06d"' % n for n in numbers)


def users(count):
    """Requests that make so many users, at most 1,000 in each."""
    return [
        request(b"POST", b"/hub/api/users", b'{"usernames":[%s]}' % names(range(i, min(i + 1000, count))))
        for i in range(0, count, 1000)
    ]


def as_teacher(count):
    """Requests that leave ann a teacher of some users who are spread over all, and no admin."""
    students = names(n * count // STUDENTS for n in range(STUDENTS))
    scopes = b'["list:users!group=students","read:users!group=students"]'
    return [
        request(b"POST", b"/hub/api/groups/students", b'{"users":[%s]}' % students),
        request(b"PUT", b"/hub/api/roles/teacher", b'{"scopes":%s,"users":["ann"]}' % scopes),
        request(b"PATCH", b"/hub/api/users/ann", b'{"admin":false}'),
    ]


def seconds(program, asked):
    """The processor time of a session with these requests, each of which has to be answered well."""
    before = resource.getrusage(resource.RUSAGE_CHILDREN)
    ran = subprocess.run(
        [program, "session", "1700000000", "ann", "secret-token-ann", "--admin"], input=b"".join(asked), stdout=subprocess.PIPE
    )
    after = resource.getrusage(resource.RUSAGE_CHILDREN)
    good = ran.stdout.count(b"HTTP/1.1 20")
    if ran.returncode or good != len(asked):
        sys.exit(f"status {ran.returncode}, {good} good replies, not {len(asked)}")
    return after.ru_utime + after.ru_stime - before.ru_utime - before.ru_stime


def least(program, asked):
    return min(seconds(program, asked) for _ in range(ROUNDS))


def each(program, first, page):
    """Microseconds of the page after these requests."""
    base = least(program, first)
    some = max(1e-5, (seconds(program, first + [page] * 50) - base) / 50)
    number = min(1_000 - len(first), max(50, int(2 / some)))
    return 1e6 * (least(program, first + [page] * number) - base) / number


page = request(b"GET", b"/hub/api/users?limit=50&offset=0")
for kept in (1_000, 10_000, 90_000, 99_000):
    for who, first in (("an admin", users(kept)), ("a teacher", users(kept) + as_teacher(kept))):
        for program in sys.argv[1:]:
            print(f"{program}: {kept} users, {who}: {each(program, first, page):.1f} microseconds", flush=True)
END_OF_PROGRAM
