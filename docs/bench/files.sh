#!/bin/sh
# What `session .. --db FILE` does with a file, which no clause can say: that each acknowledged change is there after the program was
# killed, that a second hub is refused, that others may not read a file that it makes, that a session leaves the servers alone that another
# hub left running, what a hub over many users takes until its first reply, and how many changes a second it acknowledges beside the stock
# sqlite3. One by one, each is asked for once the one before is acknowledged, by a hub and a sqlite3 that are open. All at once, each
# program finds all its work on its input: sqlite3 acknowledges nothing then, and the start and the end of both are counted.
# With the word `pages` it compares files whose pages are of 4,096, 2,048 and 1,024 bytes instead: a file keeps the pages that it has.
# usage: docs/bench/files.sh [PROGRAM [FOLDER [pages]]]
# PROGRAM is the program `hub` as `rt run` leaves it (crates/hub/out/hub if none is named: run `./run` first). The files are made in a
# folder of FOLDER, which decides what a sync costs (/tmp if none is named), and removed at the end. It needs the stock sqlite3, takes some
# minutes, and stands outside the gate. It ends with status 1 at the first thing that isn't as it should be.
set -eu
top=$(cd "$(dirname "$0")/../.." && pwd)
program=${1:-$top/crates/hub/out/hub}
command -v sqlite3 >/dev/null || { echo 'the stock sqlite3 is not installed'; exit 1; }
folder=$(mktemp -d "${2:-/tmp}/hub-files.XXXXXX")
trap 'rm -rf "$folder"' EXIT
cd "$folder"
python3 - "$program" "${3:-}" <<'PYTHON'
import hashlib, json, os, random, re, shutil, signal, sqlite3, subprocess, sys, time

program = sys.argv[1]
WORDS = [program, "session", "1700000000", "ann", "secret-token-ann", "--admin"]
KILLS = 50
CHANGES = 1000
USER = '{"admin":false,"created":1700000000,"last_activity":null}'
TOKEN = {"client": None, "created": 1700000000, "expires_at": None, "hash": "", "issued_for": None, "note": "", "owner": "",
         "scopes": ["inherit"]}


def fail(why):
    sys.exit(f"not as it should be: {why}")


def request(method, path, body=b""):
    head = b"%s %s HTTP/1.1\r\nHost: hub\r\nAuthorization: token secret-token-ann\r\n" % (method, path)
    if body:
        head += b"Content-Length: %d\r\n" % len(body)
    return head + b"\r\n" + body


def new_user(name):
    return request(b"POST", b"/hub/api/users/" + name.encode())


def session(file, *more):
    pipe = subprocess.PIPE
    return subprocess.Popen([*WORDS, "--db", file, *more], stdin=pipe, stdout=pipe, stderr=pipe, bufsize=0)


def reply(hub):
    """The status of the next whole reply, or None where the output ended before."""
    head = b""
    while not head.endswith(b"\r\n\r\n"):
        byte = hub.stdout.read(1)
        if not byte:
            return None
        head += byte
    lines = head.split(b"\r\n")
    length = next((int(line.split(b":")[1]) for line in lines if line.lower().startswith(b"content-length:")), 0)
    while length:
        part = hub.stdout.read(length)
        if not part:
            return None
        length -= len(part)
    return int(lines[0].split()[1])


def ask(hub, text):
    hub.stdin.write(text)
    return reply(hub)


def stock(file, statement):
    return subprocess.run(["sqlite3", file, statement], stdout=subprocess.PIPE, stderr=subprocess.STDOUT, text=True).stdout.strip()


def end(hub, status=0):
    hub.stdin.close()
    said = hub.stderr.read().decode()
    if hub.wait() != status:
        fail(f"status {hub.returncode}, not {status}: {said}")
    return said.strip()


# ---- killed at random places


def killed(file, kept, first, count, seed):
    """Makes users one after the other, kills the hub while it works on the last one, notes those acknowledged, and gives the last."""
    hub = session(file)
    names = [f"k{first + n:06d}" for n in range(count)]
    for name in names[:-1]:
        if ask(hub, new_user(name)) != 201:
            fail(f"the user {name} isn't made: {hub.stderr.read().decode()}")
    hub.stdin.write(new_user(names[-1]))
    time.sleep(seed.random() * 0.004)
    hub.send_signal(signal.SIGKILL)
    if reply(hub) == 201:
        kept.add(names[-1])
    kept.update(names[:-1])
    hub.wait()
    return names[-1]


def kill_many():
    seed, kept, acknowledged, unsaid = random.Random(20261128), {"ann"}, 0, 0
    for turn in range(KILLS):
        before = len(kept)
        last = killed("killed.db", kept, turn * CHANGES // KILLS, CHANGES // KILLS, seed)
        acknowledged += len(kept) - before
        if stock("killed.db", "PRAGMA integrity_check") != "ok":
            fail(f"sqlite3 finds the file damaged after kill {turn}")
        found = set(stock("killed.db", "SELECT key FROM row WHERE kind = 1").split("\n"))
        if found not in (kept, kept | {last}):
            fail(f"after kill {turn} {sorted(kept - found)} lack and {sorted(found - kept - {last})} are too many")
        unsaid += len(found) - len(kept)
        kept = found
    print(f"killed {KILLS} times: {acknowledged} changes acknowledged, all there, and {unsaid} more; sqlite3 says ok each time", flush=True)


# ---- refused files


def refused(file, why):
    hub = session(file)
    said = end(hub, 4)
    if why not in said or "\n" in said:
        fail(f"{file}: {said!r} doesn't say {why!r}")
    print(f"{file}: status 4, {said!r}", flush=True)


def refuse():
    open("text", "w").write("abc\n")
    os.mkdir("folder")
    stock("foreign.db", "CREATE TABLE row (kind INTEGER, key TEXT); INSERT INTO row VALUES (1, 2)")
    refused("text", "no database")
    refused("folder", "may not be opened")
    refused("nowhere/hub.db", "no such folder")
    refused(":memory:", "something else than the path of a file")
    refused("foreign.db", "another program")
    hub = session("busy.db")
    if ask(hub, new_user("bob")) != 201:
        fail("the first hub doesn't serve")
    refused("busy.db", "another hub")
    if ask(hub, new_user("eve")) != 201:
        fail("the first hub doesn't serve on")
    end(hub)
    if stock("busy.db", "SELECT group_concat(key) FROM (SELECT key FROM row WHERE kind = 1 ORDER BY key)") != "ann,bob,eve":
        fail("the first hub's rows aren't there")


# ---- who may read


def keep_private():
    """A file that a hub makes, and its log, their owner alone may read; one that is there keeps its mode, and its log has it too."""
    os.umask(0o022)
    open("shared.db", "w").close()
    os.chmod("shared.db", 0o640)
    for file, mode in ("private.db", 0o600), ("shared.db", 0o640):
        hub = session(file)
        if ask(hub, new_user("bob")) != 201:
            fail(f"a hub over {file} doesn't serve")
        modes = [os.stat(name).st_mode & 0o777 for name in (file, f"{file}-wal")]
        if modes != [mode, mode]:
            fail(f"{file} and its log have the modes {[oct(it) for it in modes]}")
        end(hub)
    print("a file that a hub makes, and its log, have the mode 0600", flush=True)


# ---- servers that another hub left running


def leave_alone():
    """A session neither takes a server for ended that another hub left running, nor stops it: its lease stays."""
    file = "left.db"
    end(session(file))
    stock(file, """INSERT INTO row VALUES (6, 'ann/', '{"created":1,"last_activity":null,"started":null}'),
        (7, 'http://127.0.0.1:9001', '{"generation":1,"server":"ann/"}'), (12, 'generation', '{"next":2}')""")
    with open("left.toml", "w") as words:
        words.write('pool = ["http://127.0.0.1:9001"]\n')
    hub = session(file, "--config", "left.toml")
    if ask(hub, request(b"DELETE", b"/hub/api/users/ann/server")) != 503:
        fail("a server is stopped whose program the session didn't start")
    end(hub)
    if stock(file, "SELECT text FROM row WHERE kind = 7") != '{"generation":1,"server":"ann/"}':
        fail("the lease of a server that another hub left running is gone")
    print("a session leaves a server alone that another hub left running", flush=True)


# ---- opening over many users


def fill(file, count):
    """A file of the hub's with so many users more, each with a token."""
    end(session(file))
    kept = sqlite3.connect(file)
    for n in range(count):
        user = f"u{n:06d}"
        digest = hashlib.sha256(f"token-{n:06d}".encode()).hexdigest()
        token = {**TOKEN, "hash": digest, "owner": f"user:{user}"}
        kept.execute("INSERT INTO row VALUES (1, ?, ?)", (user, USER))
        kept.execute("INSERT INTO row VALUES (5, ?, ?)", (str(n + 2), json.dumps(token, separators=(",", ":"))))
    kept.execute("UPDATE row SET text = ? WHERE kind = 12 AND key = 'token'", (f'{{"next":{count + 2}}}',))
    kept.commit()
    kept.close()


def largest(pid):
    """The most memory that a process has had, in megabytes; what `wait4` tells of a child is at least what this script itself had."""
    for line in open(f"/proc/{pid}/status"):
        if line.startswith("VmHWM:"):
            return int(line.split()[1]) / 1024
    fail("the system tells no memory")


def spent(pid):
    """The processor seconds that the threads of a process took by now."""
    return sum(int(open(f"/proc/{pid}/task/{it}/schedstat").read().split()[0]) for it in os.listdir(f"/proc/{pid}/task")) / 1e9


def opened(file, times=5):
    """Processor seconds of a hub until it answers the first request, its megabytes then, and its processor seconds to its end, the least of
    so many."""
    figures = []
    for _ in range(times):
        hub = session(file)
        if ask(hub, request(b"GET", b"/hub/api/user")) != 200:
            fail(f"{file} isn't opened")
        seconds, megabytes = spent(hub.pid), largest(hub.pid)
        hub.stdin.close()
        said = hub.stderr.read().decode()
        _, status, used = os.wait4(hub.pid, 0)
        hub.returncode = os.waitstatus_to_exitcode(status)
        if hub.returncode:
            fail(f"{file} isn't opened: {said}")
        figures.append((seconds, megabytes, used.ru_utime + used.ru_stime))
    return min(figures)


def open_many():
    for count, goal in [(1000, ""), (10_000, ", goal 0.15"), (100_000, ", goal 1.5")]:
        # ann is one of them
        fill(f"many{count}.db", count - 1)
        seconds, megabytes, whole = opened(f"many{count}.db")
        print(
            f"opening {count} users with a token each: {seconds:.3f} s of processor time until the first reply{goal},"
            f" {whole:.3f} to the end; {megabytes:.1f} MB",
            flush=True,
        )
        hub = session(f"many{count}.db")
        if ask(hub, request(b"GET", f"/hub/api/users/u{count - 2:06d}".encode())) != 200:
            fail("the last user isn't found")
        end(hub)


# ---- changes a second


def answered(pipe, is_whole):
    """What a program writes, read until it is a whole answer."""
    text = b""
    while not is_whole(text):
        part = os.read(pipe, 65536)
        if not part:
            fail(f"the output ends after {text!r}")
        text += part
    return text


def is_reply(text):
    head, found, body = text.partition(b"\r\n\r\n")
    length = re.search(rb"(?i)\r\ncontent-length: *(\d+)", head)
    return bool(found) and len(body) >= int(length[1] if length else 0)


def changes(count, file):
    """Changes a second that an open hub acknowledges, each asked for once the one before is acknowledged."""
    hub = session(file, "--no-trail")
    if ask(hub, request(b"GET", b"/hub/api/user")) != 200:
        fail(f"{file} isn't opened")
    texts = [new_user(f"c{n:06d}") for n in range(count)]
    output = hub.stdout.fileno()
    before = time.monotonic()
    for text in texts:
        hub.stdin.write(text)
        if not answered(output, is_reply).startswith(b"HTTP/1.1 201"):
            fail("a change isn't made")
    took = time.monotonic() - before
    end(hub)
    return count / took


def stock_lines(count):
    """What makes the stock sqlite3 keep the same rows in the same form with the same journal and syncs, and then one commit a line."""
    first = "PRAGMA journal_mode = wal; PRAGMA synchronous = full;"
    first += " CREATE TABLE row (kind INTEGER, key TEXT, text TEXT, PRIMARY KEY (kind, key)) STRICT; SELECT 'open';"
    put = "ON CONFLICT (kind, key) DO UPDATE SET text = excluded.text"
    rows = [f"(1, 'c{n:06d}', '{USER}')" for n in range(count)]
    return first, [f"BEGIN; INSERT INTO row (kind, key, text) VALUES {row} {put}; COMMIT;" for row in rows]


def stock_changes(count, file):
    """Commits a second of the stock sqlite3, each asked for once it has said that the one before is done."""
    first, lines = stock_lines(count)
    kept = subprocess.Popen(["sqlite3", "-batch", file], stdin=subprocess.PIPE, stdout=subprocess.PIPE, bufsize=0)
    output = kept.stdout.fileno()
    kept.stdin.write(first.encode() + b"\n")
    answered(output, lambda text: text.endswith(b"open\n"))
    lines = [line.encode() + b" SELECT 1;\n" for line in lines]
    before = time.monotonic()
    for line in lines:
        kept.stdin.write(line)
        answered(output, lambda text: text == b"1\n")
    took = time.monotonic() - before
    kept.stdin.close()
    if kept.wait():
        fail("sqlite3 doesn't end well")
    return count / took


def all_changes(count, file):
    """Changes a second of a hub that finds all requests on its input, its start and end among the time."""
    text = b"".join(new_user(f"c{n:06d}") for n in range(count))
    before = time.monotonic()
    ran = subprocess.run([*WORDS, "--db", file, "--no-trail"], input=text, stdout=subprocess.PIPE, stderr=subprocess.PIPE)
    took = time.monotonic() - before
    if ran.returncode or ran.stdout.count(b"HTTP/1.1 201") != count:
        fail(f"status {ran.returncode}, {ran.stdout.count(b'HTTP/1.1 201')} of {count} made: {ran.stderr.decode()}")
    return count / took


def all_stock_changes(count, file):
    """Commits a second of the stock sqlite3 that finds all statements on its input and answers none, its start and end among the time."""
    first, lines = stock_lines(count)
    before = time.monotonic()
    subprocess.run(["sqlite3", file], input="\n".join([first, *lines]), stdout=subprocess.DEVNULL, text=True, check=True)
    return count / (time.monotonic() - before)


def median(figures):
    return sorted(figures)[len(figures) // 2]


def race():
    # a connection has at most 1,000 replies
    rounds = {"one by one": (999, changes, stock_changes), "all at once, with start and end": (1000, all_changes, all_stock_changes)}
    for name, (count, ours_do, theirs_do) in rounds.items():
        word = name.split()[0].strip(",")
        ours, theirs = [], []
        for turn in range(7):
            ours.append(ours_do(count, f"ours-{word}{turn}.db"))
            theirs.append(theirs_do(count, f"theirs-{word}{turn}.db"))
        print(
            f"changes a second, {name}: the best {max(ours):.0f}, sqlite3 {max(theirs):.0f}, {max(ours) / max(theirs):.2f} of it;"
            f" the median {median(ours):.0f}, sqlite3 {median(theirs):.0f}, {median(ours) / median(theirs):.2f} of it; goal 0.9",
            flush=True,
        )


# ---- sizes of pages


SIZES = 4096, 2048, 1024


def with_pages(file, size):
    """The same rows in a file with pages of this size, written again by the stock sqlite3."""
    other = f"{file}.{size}"
    stock(file, f"pragma page_size = {size}; vacuum into '{other}'")
    return other


def race_of_pages():
    end(session("empty.db"))
    empty = {size: with_pages("empty.db", size) for size in SIZES}
    ours, theirs = {size: [] for size in SIZES}, []
    for turn in range(15):
        for size in SIZES:
            shutil.copy(empty[size], f"ours{size}-{turn}.db")
            ours[size].append(changes(999, f"ours{size}-{turn}.db"))
        theirs.append(stock_changes(999, f"theirs-pages{turn}.db"))
    for size in SIZES:
        share = median([mine / other for mine, other in zip(ours[size], theirs)])
        best = max(ours[size]) / max(theirs)
        print(f"pages of {size}: changes one by one, {best:.2f} of sqlite3's at the best, {share:.2f} in the median round", flush=True)


def open_pages(count, rounds):
    fill(f"pages{count}.db", count - 1)
    files = {size: with_pages(f"pages{count}.db", size) for size in SIZES}
    took = {size: [] for size in SIZES}
    for _ in range(rounds):
        for size in SIZES:
            took[size].append(opened(files[size], 1)[0])
    for size in SIZES:
        least, middle = min(took[size]), median(took[size])
        print(f"pages of {size}: opening {count} users, {least:.3f} s of processor time, the median {middle:.3f}", flush=True)


if sys.argv[2] == "pages":
    race_of_pages()
    open_pages(10_000, 9)
    open_pages(100_000, 5)
else:
    kill_many()
    refuse()
    keep_private()
    leave_alone()
    open_many()
    race()
PYTHON
