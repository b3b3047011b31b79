#!/bin/sh
# What the command `serve` does over real sockets, with real programs and a real disk, which no clause can say, and what it costs.
# usage: docs/bench/serve.sh [behave] [flat] [tokens] [measure]
# `behave` sees to how it behaves: connections of all kinds, programs that misbehave, a disk that is full, hubs that are killed, and whether
# a child, a socket or a row is left behind or lost. `flat` makes 20,000 changes (or $CHANGES of them) without a trail and sees that memory
# doesn't grow. `tokens` makes 999,999 tokens (or $TOKENS of them) of 1,000 users, and asks for the identity with few and with all of them.
# `measure` takes processor time and requests a second, beside nginx. Without a word it does all but `tokens`, in some five minutes.
# $HUB names the program `hub` as `rt run` leaves it; it is crates/hub/out/hub where that isn't set: run `rt run` there first.
# It needs curl, wrk and nginx, for the full disk to be root, and for JupyterHub's own client Debian's package jupyterhub; what lacks is
# named and left out. It stands outside the gate, writes to a folder under /tmp alone, and ends with status 1 at the first thing that isn't
# as it should be.
set -eu
# of a file that others may read a hub says a line more
umask 077
top=$(cd "$(dirname "$0")/../.." && pwd)
[ $# -gt 0 ] || set -- behave flat measure
exec python3 - "${HUB:-$top/crates/hub/out/hub}" "$@" <<'PYTHON'
import http.client, json, os, re, resource, shutil, signal, socket, statistics, subprocess, sys, tempfile, threading, time

program, parts = os.path.abspath(sys.argv[1]), sys.argv[2:]
TOKEN = "secret-token-ann"
USERS = ["plain", "other", "late", "never", "ends", "hello", "chatty", "parent", "stubborn"]
# by this variable the processes of this run are told from others
os.environ["SERVE_BENCH"] = MARK = f"run-{os.getpid()}"
os.environ["HIDDEN_TOKEN"] = "hidden"

SINGLE_USER = r"""
import os, signal, socket, subprocess, sys, time
port, user = int(sys.argv[1]), sys.argv[2]
with open(user + ".told", "w") as told:
    told.write(sys.stdin.readline() + " ".join(os.environ))
if user == "ends":
    sys.exit(3)
if user == "hello":
    print("hello", flush=True)
if user == "never":
    time.sleep(1000)
if user == "late":
    time.sleep(5)
if user == "stubborn":
    signal.signal(signal.SIGTERM, signal.SIG_IGN)
if user == "parent":
    subprocess.Popen(["sleep", "1000"])
listener = socket.create_server(("127.0.0.1", port))
print("ready", flush=True)
if user == "chatty":
    for _ in range(5000):
        print("x" * 4095)
    open("chatty.done", "w").close()
while True:
    listener.accept()[0].close()
"""


def check_quietly(what, holds, saw=""):
    if not holds:
        sys.exit(f"not as it should be: {what} {saw}")


def check(what, holds, saw=""):
    check_quietly(what, holds, saw)
    print(f"ok  {what}", flush=True)


def free_ports(count):
    servers = [socket.create_server(("127.0.0.1", 0)) for _ in range(count)]
    ports = [server.getsockname()[1] for server in servers]
    for server in servers:
        server.close()
    return ports


def configuration(command, port, targets):
    """Ann is an admin with a token, and there is a user for each way in which a program behaves."""
    pool = [f"http://127.0.0.1:{target}" for target in targets]
    text = f'listen = "127.0.0.1:{port}"\npool = {json.dumps(pool)}\ncommand = {json.dumps(command)}\n'
    text += "".join(f'[[users]]\nname = "{name}"\nadmin = {str(name == "ann").lower()}\n' for name in ["ann", *USERS])
    return text + f'[[tokens]]\ntoken = "{TOKEN}"\nuser = "ann"\n'


def prepare(folder, command=("/usr/bin/env", "python3", "single_user.py", "{port}", "{user}")):
    with open(f"{folder}/single_user.py", "w") as file:
        file.write(SINGLE_USER)
    port, *targets = free_ports(13)
    with open(f"{folder}/hub.toml", "w") as file:
        file.write(configuration(list(command), port, targets))


def processes():
    """The processes of this run but this one."""
    found = []
    for name in filter(str.isdigit, os.listdir("/proc")):
        try:
            with open(f"/proc/{name}/environ", "rb") as file:
                if f"SERVE_BENCH={MARK}".encode() in file.read().split(b"\0") and int(name) != os.getpid():
                    found.append(int(name))
        except OSError:
            pass
    return found


def children_of(parent):
    found = []
    for name in filter(str.isdigit, os.listdir("/proc")):
        try:
            with open(f"/proc/{name}/stat") as file:
                if int(file.read().rsplit(")", 1)[1].split()[1]) == parent:
                    found.append(int(name))
        except OSError:
            pass
    return found


def comes(holds, most):
    """Whether something comes true in so many seconds."""
    end = time.monotonic() + most
    while time.monotonic() < end:
        if holds():
            return True
        time.sleep(0.05)
    return holds()


class Hub:
    """A hub over the configuration of a folder."""

    def __init__(self, folder, *words):
        self.process = subprocess.Popen(
            [program, "serve", "--config", "hub.toml", *words],
            cwd=folder, stdin=subprocess.PIPE, stdout=subprocess.PIPE, stderr=subprocess.PIPE, text=True,
        )
        self.said = [self.process.stderr.readline()]
        listens = re.search(r"listens at .*, port (\d+), ", self.said[0])
        check_quietly("it says where it listens", listens, self.said)
        self.port = int(listens[1])
        threading.Thread(target=lambda: self.said.extend(self.process.stderr), daemon=True).start()
        # it is opened after that
        check_quietly("it answers", self.status("GET", "/") == 200)

    def caller(self, seconds=40):
        caller = socket.create_connection(("127.0.0.1", self.port))
        caller.settimeout(seconds)
        caller.setsockopt(socket.IPPROTO_TCP, socket.TCP_NODELAY, 1)
        return caller

    def ask(self, method, path, token=TOKEN, body=None):
        """The status and what the body says, by a connection of its own."""
        line = http.client.HTTPConnection("127.0.0.1", self.port, timeout=100)
        line.request(method, f"/hub/api{path}", body, {"Authorization": f"token {token}"})
        reply = line.getresponse()
        text = reply.read()
        line.close()
        return reply.status, json.loads(text) if text else None

    def status(self, method, path, token=TOKEN, body=None):
        return self.ask(method, path, token, body)[0]

    def server_of(self, user):
        return self.ask("GET", f"/users/{user}")[1]["servers"].get("")

    def descriptors(self):
        return len(os.listdir(f"/proc/{self.process.pid}/fd"))

    def ends(self):
        """Whether it ends well where its standard input does."""
        self.process.stdin.close()
        return self.process.wait(40) == 0 and re.fullmatch(r"served \d+\n", self.process.stdout.read())

    def kill(self):
        self.process.kill()
        self.process.wait()


def request(path="/user", method="GET", more="", token=TOKEN):
    return f"{method} /hub/api{path} HTTP/1.1\r\nHost: hub\r\nAuthorization: token {token}\r\n{more}\r\n".encode()


def replies(caller, count):
    """The statuses of so many replies, or of those that come before the end."""
    got, statuses = b"", []
    while len(statuses) < count:
        head, end, rest = got.partition(b"\r\n\r\n")
        length = re.search(rb"Content-Length: (\d+)", head)
        size = int(length[1]) if length else 0
        if end and len(rest) >= size:
            statuses.append(int(head.split()[1]))
            got = rest[size:]
        elif more := caller.recv(65536):
            got += more
        else:
            break
    return statuses


def is_answered(hub):
    caller = hub.caller()
    caller.sendall(request())
    statuses = replies(caller, 1)
    caller.close()
    return statuses == [200]


def at_once(jobs):
    """What the jobs give that run beside one another."""
    given = [None] * len(jobs)
    def run(at):
        given[at] = jobs[at]()
    threads = [threading.Thread(target=run, args=(at,)) for at in range(len(jobs))]
    for thread in threads:
        thread.start()
    for thread in threads:
        thread.join()
    return given


def timed(job):
    began = time.monotonic()
    return job(), time.monotonic() - began


def see_kept(hub):
    url = f"http://127.0.0.1:{hub.port}/hub/api/user"
    words = ["curl", "-s", "-H", f"Authorization: token {TOKEN}", "-w", "%{num_connects} %{http_code}\n"]
    said = subprocess.run([*words, *(["-o", "/dev/null", url] * 5)], stdout=subprocess.PIPE, text=True).stdout
    check("curl asks five times on one connection", said == "1 200\n" + "0 200\n" * 4, said)
    caller = hub.caller()
    caller.sendall(request() * 100)
    check("100 requests that come together have 100 replies", replies(caller, 100) == [200] * 100)
    caller.close()


def see_many(hub):
    given = at_once([lambda: is_answered(hub)] * 500)
    check("500 callers at once are answered", given == [True] * 500, given.count(True))
    silent = [hub.caller() for _ in range(200)]
    # the least of some, since the machine may have other work
    given = [timed(lambda: is_answered(hub)) for _ in range(5)]
    least = min(took for _, took in given)
    check("a caller beside 200 silent ones is answered within 200 ms", all(good for good, _ in given) and least < 0.2, given)
    for caller in silent:
        caller.close()


def see_slow(hub):
    def trickle():
        caller = hub.caller()
        for byte in request():
            caller.sendall(bytes([byte]))
            time.sleep(0.002)
        return replies(caller, 1) == [200]
    def stop():
        caller = hub.caller()
        caller.sendall(request("/groups/g", "POST", "Content-Length: 10\r\n") + b"{}")
        return caller.recv(100) == b""
    def vanish():
        for text in (b"GET / HT", request("/groups/g", "POST", "Content-Length: 10\r\n") + b"{}", request() * 50):
            for _ in range(10):
                caller = hub.caller()
                caller.sendall(text)
                caller.close()
        return is_answered(hub)
    check("a head that comes a byte at a time is answered", trickle())
    check("peers that vanish leave the others be", vanish())
    gone, took = timed(stop)
    check("a body that stops ends the connection after 30 s", gone and 29 < took < 32, took)


def see_connections(folder):
    hub = Hub(folder)
    before = hub.descriptors()
    see_kept(hub)
    see_many(hub)
    see_slow(hub)
    check("no socket is left", comes(lambda: hub.descriptors() <= before, 5), hub.descriptors() - before)
    check("it ends with status 0 where its input ends", hub.ends())


def see_client(folder):
    """JupyterHub's own client, of Debian's package."""
    text = """
import sys
from jupyterhub.services.auth import HubAuth
auth = HubAuth(api_url=sys.argv[1], api_token=sys.argv[2], cache_max_age=0)
print(auth.user_for_token(sys.argv[2])["name"], auth.user_for_token("no-such-token"))
"""
    if subprocess.run(["/usr/bin/python3", "-c", "import jupyterhub"], stderr=subprocess.DEVNULL).returncode:
        return print("left out: there is no jupyterhub")
    hub = Hub(folder)
    words = ["/usr/bin/python3", "-c", text, f"http://127.0.0.1:{hub.port}/hub/api", TOKEN]
    ran = subprocess.run(words, stdout=subprocess.PIPE, stderr=subprocess.PIPE, text=True)
    check("JupyterHub's HubAuth knows ann by her token, and nobody by another", ran.stdout == "ann None\n", ran)
    check("it ends", hub.ends())


def see_good_program(hub, folder):
    check("a program that serves is started", hub.status("POST", "/users/plain/server") == 201)
    with open(f"{folder}/plain.told") as file:
        secret, _, names = file.read().partition("\n")
    check("its environment has no secret", "HIDDEN_TOKEN" not in names and "SERVE_BENCH" in names)
    check("what it was told is a token", hub.ask("GET", "/user", secret)[1]["name"] == "plain")
    check("a second start is refused", hub.status("POST", "/users/plain/server") == 400)
    check("it is stopped", hub.status("DELETE", "/users/plain/server") == 204)
    check("its token is gone", hub.status("GET", "/user", secret) == 403)


def see_bad_programs(hub):
    """All at once, since one of them takes a minute."""
    names = ["late", "never", "ends", "hello", "chatty", "parent", "stubborn"]
    jobs = [lambda name=name: timed(lambda: hub.status("POST", f"/users/{name}/server")) for name in names]
    given = dict(zip(names, at_once(jobs)))
    check("one that says `ready` late is started", given["late"][0] == 201 and given["late"][1] > 5, given)
    check("one that never says it is given up after a minute", given["never"][0] == 503 and 59 < given["never"][1] < 75, given)
    check("one that ends isn't started", given["ends"][0] == 503 and given["ends"][1] < 5, given)
    check("one that says something else isn't started", given["hello"][0] == 503 and given["hello"][1] < 15, given)
    check("the others are started", [given[name][0] for name in names[4:]] == [201] * 3, (given, hub.said))
    check("why they weren't is said", all(comes(lambda: any(f" {name}/ " in it for it in hub.said), 2) for name in names[1:4]), hub.said)


def see_programs(folder):
    hub = Hub(folder, "--workers", "8")
    see_good_program(hub, folder)
    see_bad_programs(hub)
    check("one that fills its output isn't held up", comes(lambda: os.path.exists(f"{folder}/chatty.done"), 10))
    check("one that leaves children is stopped", hub.status("DELETE", "/users/parent/server") == 204)
    status, took = timed(lambda: hub.status("DELETE", "/users/stubborn/server"))
    check("one that doesn't want to end is killed after 10 s", status == 204 and 9 < took < 14, took)
    for name in ("late", "chatty"):
        check(f"the server of {name} is stopped", hub.status("DELETE", f"/users/{name}/server") == 204)
    check("no child is left", comes(lambda: processes() == [hub.process.pid], 5), processes())
    check("it ends", hub.ends())


def program_of(user):
    for number in processes():
        with open(f"/proc/{number}/cmdline") as file:
            if file.read().split("\0")[-2:-1] == [user]:
                return number
    sys.exit(f"{user} has no program")


def see_adoption(folder):
    """A hub that is killed with servers running, and the next one."""
    hub = Hub(folder, "--db", "adopt.db")
    check("two servers are started", [hub.status("POST", f"/users/{it}/server") for it in ("plain", "other")] == [201] * 2)
    hub.kill()
    check("their programs go on", all(program_of(it) for it in ("plain", "other")))
    os.kill(program_of("other"), signal.SIGKILL)
    hub = Hub(folder, "--db", "adopt.db")
    check("the next hub has taken the one back that runs", hub.server_of("plain")["ready"])
    check("the other one is cleared", hub.server_of("other") is None)
    check("one target is leased", hub.ask("GET", "/info")[1]["leases"] == 1)
    check("a stop ends a program that another hub started", hub.status("DELETE", "/users/plain/server") == 204)
    check("no target is leased", hub.ask("GET", "/info")[1]["leases"] == 0)
    check("no child is left", comes(lambda: processes() == [hub.process.pid], 5), processes())
    check("it ends", hub.ends())


def make_users(hub, prefix, most):
    """Makes users until one isn't made. Gives how many were, and the last status; 0 where the hub is gone."""
    for n in range(most):
        try:
            status = hub.status("POST", f"/users/{prefix}{n:06}")
        except (OSError, http.client.HTTPException):
            return n, 0
        if status != 201:
            return n, status
    return most, 201


def has_users(hub, prefix, count):
    return all(hub.status("GET", f"/users/{prefix}{n:06}") == 200 for n in range(count))


def see_kills(folder):
    for turn in range(3):
        hub = Hub(folder, "--db", "kill.db")
        threading.Timer(0.3 + turn / 5, hub.process.kill).start()
        count, status = make_users(hub, f"k{turn}-", 100000)
        hub.process.wait()
        hub = Hub(folder, "--db", "kill.db")
        check(f"of a hub that is killed all {count} acknowledged users are kept", status == 0 and has_users(hub, f"k{turn}-", count))
        check("it ends", hub.ends())


def fill(file, leave):
    """Fills the disk of a file but for so many bytes."""
    with open(file, "wb", buffering=0) as filler:
        try:
            while filler.write(bytes(4096)):
                pass
        except OSError:
            filler.truncate(filler.tell() - leave)


def see_full_disk(folder):
    disk = f"{folder}/disk"
    os.mkdir(disk)
    if subprocess.run(["mount", "-t", "tmpfs", "-o", "size=8m", "none", disk], stderr=subprocess.DEVNULL).returncode:
        return print("left out: no small disk can be mounted")
    try:
        hub = Hub(folder, "--db", "disk/full.db")
        fill(f"{disk}/filler", 200_000)
        count, status = make_users(hub, "d", 3000)
        check(f"with a full disk the change after {count} users is refused", status == 503 and count)
        check("reads go on", hub.status("GET", "/users/d000000") == 200 and hub.status("GET", f"/users/d{count:06}") == 404)
        os.remove(f"{disk}/filler")
        check("with room again changes go on", hub.status("POST", "/users/e") == 201)
        check("it ends", hub.ends())
        hub = Hub(folder, "--db", "disk/full.db")
        check("all that was acknowledged is kept", has_users(hub, "d", count) and hub.status("GET", "/users/e") == 200)
        check("it ends", hub.ends())
    finally:
        subprocess.run(["umount", "-l", disk])


def see_refusals(folder):
    def status_of(*words):
        quiet = {"stdin": subprocess.DEVNULL, "stdout": subprocess.DEVNULL, "stderr": subprocess.DEVNULL}
        return subprocess.run([program, "serve", *words], cwd=folder, **quiet).returncode
    taken = socket.create_server(("127.0.0.1", 0))
    with open(f"{folder}/taken.toml", "w") as file:
        file.write(configuration([], taken.getsockname()[1], []))
    check("without a file of configuration the status is 2", status_of() == 2)
    check("where the file isn't there it is 3", status_of("--config", "gone.toml") == 3)
    check("where the address is taken it is 8", status_of("--config", "taken.toml") == 8)
    check("over an input that has ended it is 0", status_of("--config", "hub.toml") == 0)


def behave(folder):
    prepare(folder)
    see_refusals(folder)
    see_connections(folder)
    see_client(folder)
    see_programs(folder)
    see_adoption(folder)
    see_kills(folder)
    see_full_disk(folder)
    check("no process is left", processes() == [], processes())


def memory(hub):
    """KiB that it has in memory."""
    with open(f"/proc/{hub.process.pid}/status") as file:
        return int(re.search(r"VmRSS:\s*(\d+)", file.read())[1])


def flat(folder):
    """A user is made and deleted again and again, on kept connections."""
    prepare(folder)
    hub, count, seen = Hub(folder, "--no-trail"), int(os.environ.get("CHANGES", "20000")), []
    pair = request("/users/v", "POST") + request("/users/v", "DELETE")
    for _ in range(-(-count // 500)):
        caller = hub.caller()
        caller.sendall(pair * 250)
        check_quietly("changes are made", replies(caller, 500) == [201, 204] * 250)
        caller.close()
        seen.append(memory(hub))
    quarter = max(seen[: len(seen) // 4])
    check(f"memory after a quarter of {count} changes is {quarter} KiB, at the end {seen[-1]}", seen[-1] <= quarter + 256)
    check("it ends", hub.ends())


def names_of(first, count):
    return json.dumps({"usernames": [f"m-{n:06}" for n in range(first, first + count)]})


def make_tokens(hub, first, count):
    """Makes tokens of users in turn. Gives the processor time of one, in microseconds."""
    before = sum(spent([hub.process.pid]))
    for at in range(first, first + count, 500):
        caller, most = hub.caller(), min(500, first + count - at)
        paths = (f"/users/m-{n % 1000:06}/tokens" for n in range(at, at + most))
        caller.sendall(b"".join(request(path, "POST", "Content-Length: 2\r\n") + b"{}" for path in paths))
        check_quietly("tokens are made", replies(caller, most) == [201] * most)
        caller.close()
    return 1e6 * (sum(spent([hub.process.pid])) - before) / count


def tokens(folder):
    if not shutil.which("wrk"):
        return print("left out: there is no wrk")
    prepare(folder)
    hub, made = Hub(folder, "--no-trail"), 0
    for at in range(0, 1000, 500):
        check_quietly("there are users", hub.status("POST", "/users", body=names_of(at, 500)) == 201)
    for count in (999, int(os.environ.get("TOKENS", "999999"))):
        took = make_tokens(hub, made, count - made)
        made = count
        print(f"{made + 1} tokens: {took:.0f} microseconds of processor time to make one; {memory(hub)} KiB", flush=True)
        for callers in (1, 4):
            given = load(f"http://127.0.0.1:{hub.port}/hub/api/user", [hub.process.pid], callers, 2, "-H", f"Authorization: token {TOKEN}")
            show(f"identity, {made + 1} tokens, {callers} callers, kept", *given)
    check("it ends", hub.ends())


NEW_USERS = """
local threads, n = 0, 0
function setup(thread) thread:set("id", threads) threads = threads + 1 end
function request()
  n = n + 1
  return wrk.format("POST", string.format("/hub/api/users/%s-%d-%d", wrk.headers["X-Prefix"], id, n))
end
"""
# eight requests in one write, so that the callers take less of the processors that the workers are measured on
AT_ONCE = """
function init()
  local requests = {}
  for n = 1, 8 do requests[n] = wrk.format() end
  eight = table.concat(requests)
end
function request() return eight end
"""
PAGE = "Accept: application/jupyterhub-pagination+json"


def load(url, numbers, callers, seconds, *words):
    """Calls it for so long. Gives the processes' processor microseconds for a request, the system's part, and requests a second."""
    threads = min(callers, 4)
    words = ["wrk", "-t", str(threads), "-c", str(callers), "-d", f"{seconds}s", *words, url]
    before, began = spent(numbers), time.monotonic()
    said = subprocess.run(words, stdout=subprocess.PIPE, text=True).stdout
    took, after = time.monotonic() - began, spent(numbers)
    count = int(re.search(r"(\d+) requests in", said)[1])
    check_quietly(url, count and "Non-2xx" not in said, said)
    user, kernel = (1e6 * (now - then) / count for now, then in zip(after, before))
    return user + kernel, kernel, count / took


def spent(numbers):
    """The seconds that these processes took by themselves, and in the system."""
    user = kernel = 0
    for number in numbers:
        with open(f"/proc/{number}/stat") as file:
            fields = file.read().rsplit(")", 1)[1].split()
        user, kernel = user + int(fields[11]), kernel + int(fields[12])
    tick = os.sysconf("SC_CLK_TCK")
    return user / tick, kernel / tick


def show(what, *given):
    cost, kernel, rate = given
    print(f"{what}: {cost:.1f} microseconds of processor time a request, {kernel:.1f} in the system; {rate:.0f} a second", flush=True)


CALLS = [
    ("identity", "/user", []),
    ("one user", "/users/m-000500", []),
    ("a page of 50 of 1,000", "/users?limit=50&offset=100", ["-H", PAGE]),
]


def ways(folder):
    """How callers ask, and what `wrk` is told for it."""
    with open(f"{folder}/at_once.lua", "w") as file:
        file.write(AT_ONCE)
    return [("kept", []), ("a connection each", ["-H", "Connection: close"]), ("kept, eight at once", ["-s", f"{folder}/at_once.lua"])]


def measure_calls(hub, folder, workers):
    token, url = ["-H", f"Authorization: token {TOKEN}"], f"http://127.0.0.1:{hub.port}/hub/api"
    for name, path, more in CALLS:
        for callers in (1, 4, 16):
            for how, last in ways(folder):
                given = load(url + path, [hub.process.pid], callers, 2, *token, *more, *last)
                show(f"{name}, {workers} workers, {callers} callers, {how}", *given)


def measure_new_users(hub, folder, what):
    with open(f"{folder}/new_users.lua", "w") as file:
        file.write(NEW_USERS)
    for callers in (1, 4, 16):
        words = ["-s", f"{folder}/new_users.lua", "-H", f"Authorization: token {TOKEN}", "-H", f"X-Prefix: p{callers}"]
        given = load(f"http://127.0.0.1:{hub.port}/", [hub.process.pid], callers, 2, *words)
        show(f"a new user {what}, 4 workers, {callers} callers, kept", *given)


def measure_hub(folder):
    for workers in (1, 4):
        hub = Hub(folder, "--no-trail", "--workers", str(workers))
        for at in range(2):
            check_quietly("there are users", hub.status("POST", "/users", body=names_of(500 * at, 500)) == 201)
        measure_calls(hub, folder, workers)
        hub.ends()
    for what, words in (("in memory", []), ("with --db", ["--db", "measure.db"])):
        hub = Hub(folder, "--no-trail", *words)
        measure_new_users(hub, folder, what)
        hub.ends()


def measure_nginx(folder):
    """A file of the size of ann's identity, by one worker and by four."""
    if not shutil.which("nginx"):
        return print("left out: there is no nginx")
    os.chmod(folder, 0o755)
    hub = Hub(folder)
    with open(f"{folder}/identity", "w") as file:
        json.dump(hub.ask("GET", "/user")[1], file, separators=(",", ":"))
    os.chmod(f"{folder}/identity", 0o644)
    hub.ends()
    for workers in (1, 4):
        port, = free_ports(1)
        with open(f"{folder}/nginx.conf", "w") as file:
            file.write(f"worker_processes {workers}; pid {folder}/nginx.pid; error_log /dev/null; daemon off; events {{}}\n")
            file.write(f"http {{ access_log off; server {{ listen 127.0.0.1:{port}; root {folder}; }} }}\n")
        nginx = subprocess.Popen(["nginx", "-c", f"{folder}/nginx.conf", "-p", folder], stderr=subprocess.DEVNULL)
        check_quietly("nginx runs", comes(lambda: len(children_of(nginx.pid)) == workers, 5))
        time.sleep(0.2)
        for callers in (1, 4, 16):
            for how, last in ways(folder):
                given = load(f"http://127.0.0.1:{port}/identity", children_of(nginx.pid), callers, 2, *last)
                show(f"nginx's file, {workers} workers, {callers} callers, {how}", *given)
        nginx.terminate()
        nginx.wait()


SHELL = ["/bin/sh", "-c", "read s; echo ready; sleep 1000"]


def start_and_stop():
    """What the shell itself takes for it."""
    shell = subprocess.Popen(["setsid", *SHELL], stdin=subprocess.PIPE, stdout=subprocess.PIPE)
    shell.stdin.write(b"secret\n")
    shell.stdin.close()
    shell.stdout.readline()
    os.killpg(shell.pid, signal.SIGTERM)
    shell.wait()
    shell.stdout.close()


def measure_programs(folder):
    prepare(folder, SHELL)
    hub, hubs, shells = Hub(folder, "--no-trail"), [], []
    caller = hub.caller()
    def start_and_stop_by_hub():
        for method, status in (("POST", 201), ("DELETE", 204)):
            caller.sendall(request("/users/plain/server", method))
            check_quietly("a server starts and stops", replies(caller, 1) == [status])
    for _ in range(50):
        hubs.append(timed(start_and_stop_by_hub)[1])
        shells.append(timed(start_and_stop)[1])
    caller.close()
    hub.ends()
    least, middle = ([1000 * take(it) for it in (hubs, shells)] for take in (min, statistics.median))
    print(f"start and stop of a shell: {middle[0]:.1f} ms, the shell itself {middle[1]:.1f}; the least {least[0]:.1f} and {least[1]:.1f}")


def measure(folder):
    if not shutil.which("wrk"):
        return print("left out: there is no wrk")
    print(f"load {os.getloadavg()[0]:.0f}, {os.cpu_count()} processors")
    prepare(folder)
    measure_nginx(folder)
    measure_hub(folder)
    measure_programs(folder)


def run():
    resource.setrlimit(resource.RLIMIT_NOFILE, (4096, resource.getrlimit(resource.RLIMIT_NOFILE)[1]))
    for part in parts:
        with tempfile.TemporaryDirectory(prefix="serve-bench-") as folder:
            {"behave": behave, "flat": flat, "tokens": tokens, "measure": measure}[part](folder)


try:
    run()
finally:
    for number in processes():
        os.kill(number, signal.SIGKILL)
PYTHON
