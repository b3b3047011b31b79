#!/bin/sh
# A session over a file in which one request for memory is refused: the first, the second and so on, each in a run of its own.
# usage: docs/bench/memory.sh [PROGRAM [FIRST [STEP [LAST]]]]
# PROGRAM is the program `hub` (crates/hub/out/hub if none is named: `./run` makes that). FIRST (1) is the number of the request for memory
# that is refused in the first run, and STEP (1) is added from run to run, until a run makes fewer requests or LAST is passed. The variable
# MANY (1) is how many requests in a row are refused. It needs a C compiler and Python, stands outside the gate, writes to a folder under
# TMPDIR, and ends with status 1 at the first thing that isn't so:
# - no run is killed, hangs, or ends with another status than 0, 4 and 7, and with 4 and 7 it says a line and has answered nothing;
# - what is written is the front of what a session writes that is refused nothing, in whole replies, and after it at most one reply 507;
# - the file then has exactly the changes that were answered, or one more where the 507 stands in the place of its reply;
# - the next session opens the file, and SQLite itself finds nothing wrong in it.
set -eu
top=$(cd "$(dirname "$0")/../.." && pwd)
exec python3 - "$top/docs/bench/refusal.c" "${1:-$top/crates/hub/out/hub}" "${2:-1}" "${3:-1}" "${4:-1000000000}" <<'END'
import collections, os, re, shutil, sqlite3, subprocess, sys, tempfile

refusal, program, first, step, last = *sys.argv[1:3], *(int(it) for it in sys.argv[3:])
many = os.environ.get("MANY", "1")
SECONDS = 60
WORDS = [program, "session", "1700000000", "ann", "secret-token-ann", "--admin", "--db"]


def request(method, path, body=b""):
    length = b"Content-Length: %d\r\n" % len(body) if body else b""
    return b"%s /hub/api/%s HTTP/1.1\r\nAuthorization: token secret-token-ann\r\n%s\r\n%s" % (method, path, length, body)


CHANGES = [
    request(b"POST", b"users/cat"),
    request(b"POST", b"users/dan"),
    request(b"PATCH", b"users/cat", b'{"admin":true}'),
    request(b"POST", b"groups/lab"),
    request(b"POST", b"groups/lab/users", b'{"users":["cat"]}'),
    request(b"PUT", b"roles/r", b'{"scopes":["self"]}'),
    request(b"PUT", b"roles/r", b'{"scopes":["list:users"]}'),
    request(b"DELETE", b"roles/r"),
    request(b"POST", b"users/eve"),
    request(b"DELETE", b"users/dan"),
    request(b"DELETE", b"groups/lab"),
    request(b"POST", b"users", b'{"usernames":["fay","gus"]}'),
]
# what the rows are looked at by; a role that is gone is 404
LOOKS = [request(b"GET", b"users"), request(b"GET", b"groups"), request(b"GET", b"roles/r")]


def session(file, requests, refused=0):
    """What is written, the status, and what is said on standard error."""
    outside = {"REFUSED": str(refused), "MANY": many, "LD_PRELOAD": library} if refused else {}
    try:
        ran = subprocess.run(WORDS + [file], input=b"".join(requests), capture_output=True, timeout=SECONDS, env=outside)
    except subprocess.TimeoutExpired:
        sys.exit(f"request for memory {refused}: no end within {SECONDS} seconds")
    return ran.stdout, ran.returncode, ran.stderr.decode(errors="replace")


def replies(text):
    """The replies of a text, each whole."""
    starts = [at.start() for at in re.finditer(rb"HTTP/1\.1 \d{3} ", text)]
    return [text[at:to] for at, to in zip(starts, starts[1:] + [len(text)])]


def looked(file):
    """What a further session finds in the file, but for the number of the change."""
    text, status, said = session(file, LOOKS)
    if status:
        sys.exit(f"the file doesn't open again: status {status}: {said}")
    return re.sub(rb"X-Hub-Revision: \d+\r\n", b"", text)


def see_file(file):
    """Asks SQLite itself about a copy of the file."""
    for ending in ("", "-wal"):
        if os.path.exists(file + ending):
            shutil.copy(file + ending, f"{folder}/copy{ending}")
        elif os.path.exists(f"{folder}/copy{ending}"):
            os.remove(f"{folder}/copy{ending}")
    with sqlite3.connect(f"{folder}/copy") as copy:
        if (found := copy.execute("pragma integrity_check").fetchall()) != [("ok",)]:
            sys.exit(f"SQLite finds in the file {found}")
    copy.close()


def file_of(number):
    for ending in ("", "-wal"):
        if os.path.exists(f"{folder}/{number}{ending}"):
            os.remove(f"{folder}/{number}{ending}")
    return f"{folder}/{number}"


def whole():
    """The replies of a session that is refused nothing, and what is found after so many of its changes."""
    text, status, _ = session(file_of("whole"), CHANGES)
    calm = replies(text)
    if status or len(calm) != len(CHANGES) or any(not it.startswith(b"HTTP/1.1 20") for it in calm):
        sys.exit(f"status {status}, and replies {[it[9:12] for it in calm]}")
    found = []
    for count in range(len(CHANGES) + 1):
        file = file_of("front")
        session(file, CHANGES[:count])
        found.append(looked(file))
    return calm, found


def run(number):
    """How the session ends where the request for memory with this number is refused, or None where it makes fewer."""
    file, what = file_of("refused"), f"request for memory {number}"
    text, status, said = session(file, CHANGES, number)
    if "refused\n" not in said:
        return None
    told, line = replies(text), said.replace("refused\n", "").strip()
    is_507 = bool(told) and told[-1].startswith(b"HTTP/1.1 507 ")
    kept = len(told) - is_507
    if told[:kept] != calm[:kept]:
        sys.exit(f"{what}: another reply in {told}")
    if status not in (0, 4, 7) or status and (told or not line) or not status and not is_507 and kept < len(CHANGES):
        sys.exit(f"{what}: status {status}, {kept} changes answered{', then 507' if is_507 else ''}, and it says: {line}")
    see_file(file)
    is_more = (found_in := looked(file)) in found[kept + 1:kept + 2] and found_in != found[kept]
    if found_in != found[kept] and not (is_more and is_507):
        sys.exit(f"{what}: {kept} changes were answered, and the file has others: {found_in}")
    return f"507{' behind its change' if is_more else ''}" if is_507 else f"status {status}{': ' if line else ''}{line}"


with tempfile.TemporaryDirectory() as folder:
    library = f"{folder}/refusal.so"
    subprocess.run(["cc", "-O2", "-shared", "-fPIC", refusal, "-o", library], check=True)
    calm, found = whole()
    ends, number = collections.Counter(), first
    while number <= last and (end := run(number)) is not None:
        ends[end] += 1
        if sum(ends.values()) % 500 == 0:
            print(f"{number}: {dict(ends)}", file=sys.stderr, flush=True)
        number += step
    print(f"requests for memory up to {number - step}: {', '.join(f'{end} {count} times' for end, count in sorted(ends.items()))}")
END
