#!/bin/sh
# What no proof says of the running program: that random callers, a bad network and hostile bytes find nothing that isn't as it should be.
# usage: docs/bench/storm.sh [replay] [storm] [kills] [hostile]
# `replay`: eight connections at once make $ROUNDS times (20) 110 random calls each on users, groups, roles, tokens, shares and codes;
# then one `session` makes the same calls in the order of their revisions, and has to give the same bytes, but for moments, tokens, codes.
# `storm`: for $SECONDS_LONG (3600) eight connections start, stop, enter, revoke and change roles, while the hub's link to its proxy drops,
# delays and repeats messages; nobody may get to a server by another's path. Then routes, leases and programs are compared, and one more
# stop of each server has to free all of it. Each connection waits $PAUSE seconds (0) on average between two calls, so that a long storm
# leaves a machine to others. `kills`: for as long the hub is killed every few seconds and started again over its file, while each of eight
# connections starts and stops own servers, makes and revokes tokens and changes a role; whatever was answered has to be so after each kill.
# `hostile`: $BYTES (10000000) hostile bytes at the hub, the proxy's interface, the proxy and a guard, which then answer as before, with
# memory and open files flat. It uses the ports from $PORT (18700) on.
# $SEED (1) is where the random numbers begin, $HUB names the program `hub`; it is crates/hub/out/hub where that isn't set. It needs Python
# alone, stands outside the gate, writes to a folder under /tmp, and ends with status 1 at the first thing that isn't as it should be.
set -eu
top=$(cd "$(dirname "$0")/../.." && pwd)
[ $# -gt 0 ] || set -- replay storm kills hostile
exec python3 - "${HUB:-$top/crates/hub/out/hub}" "$@" <<'PYTHON'
import http.client, json, os, random, re, resource, shutil, signal, socket, subprocess, sys, tempfile, threading, time

program, parts = os.path.abspath(sys.argv[1]), sys.argv[2:]
SEED = int(os.environ.get("SEED", "1"))
ROUNDS = int(os.environ.get("ROUNDS", "20"))
SECONDS = int(os.environ.get("SECONDS_LONG", "3600"))
PAUSE = float(os.environ.get("PAUSE", "0"))
BYTES = int(os.environ.get("BYTES", "10000000"))
PORT = int(os.environ.get("PORT", "18700"))
HUB, PROXY, API, LINK, GUARD, FIRST = (PORT + more for more in (0, 1, 2, 3, 4, 10))
USERS = [f"u{n}" for n in range(8)]
POOL = 12
# by this variable the processes of this run are told from others
os.environ["STORM_BENCH"] = MARK = f"run-{os.getpid()}"
place = tempfile.mkdtemp(prefix="storm_bench.")
running = []


def fail(why):
    print(f"not as it should be: {why}", flush=True)
    os._exit(end(1))


def end(status):
    for one in running:
        if one.poll() is None:
            one.kill()
    for number in marked():
        try:
            os.kill(number, signal.SIGKILL)
        except OSError:
            pass
    shutil.rmtree(place, ignore_errors=True)
    return status


def marked():
    """The processes of this run but for this one."""
    found = []
    for name in os.listdir("/proc"):
        if name.isdigit() and int(name) != os.getpid():
            try:
                if f"STORM_BENCH={MARK}".encode() in open(f"/proc/{name}/environ", "rb").read().split(b"\0"):
                    found.append(int(name))
            except OSError:
                pass
    return found


def config(more, users=USERS):
    targets = ", ".join(f'"http://127.0.0.1:{FIRST + n}"' for n in range(POOL))
    text = f'listen = "127.0.0.1:{HUB}"\nhub_url = "http://127.0.0.1:{HUB}"\npool = [{targets}]\n{more}\n'
    text += '[[users]]\nname = "ann"\nadmin = true\n[[tokens]]\nuser = "ann"\ntoken = "secret-token-ann"\n'
    for name in users:
        text += f'[[users]]\nname = "{name}"\n[[tokens]]\nuser = "{name}"\ntoken = "secret-token-{name}"\n'
    with open(f"{place}/hub.toml", "w") as file:
        file.write(text)


def start(*words, says=None):
    one = subprocess.Popen([program, *words], cwd=place, stdin=subprocess.PIPE, stdout=subprocess.PIPE, stderr=open(f"{place}/said", "a"))
    running.append(one)
    if says and one.stdout.readline() != says:
        fail(f"{words[0]} isn't ready: {open(f'{place}/said').read()[-400:]}")
    return one


def await_port(port):
    for _ in range(600):
        try:
            socket.create_connection(("127.0.0.1", port), timeout=1).close()
            return
        except OSError:
            time.sleep(0.05)
    fail(f"nobody listens at {port}")


def weight(one):
    memory = int(re.search(r"VmRSS:\s+(\d+)", open(f"/proc/{one.pid}/status").read())[1])
    return memory, len(os.listdir(f"/proc/{one.pid}/fd"))


def seconds_of(one):
    spent = open(f"/proc/{one.pid}/stat").read().rsplit(")", 1)[1].split()
    return (int(spent[11]) + int(spent[12])) / os.sysconf("SC_CLK_TCK")


def stop(one):
    one.stdin.close()
    if one.wait(timeout=60) != 0:
        fail(f"a hub ends with {one.returncode}")


# ---- replay


class Raw:
    """A kept connection that hands back each reply as it came."""

    def __init__(self, write, read):
        self.write, self.read, self.kept = write, read, b""

    def ask(self, request):
        self.write(request)
        while b"\r\n\r\n" not in self.kept:
            self.more()
        head, self.kept = self.kept.split(b"\r\n\r\n", 1)
        found = re.search(rb"\r\nContent-Length: (\d+)", head)
        length = int(found[1]) if found else 0
        while len(self.kept) < length:
            self.more()
        body, self.kept = self.kept[:length], self.kept[length:]
        return head + b"\r\n\r\n" + body

    def more(self):
        piece = self.read()
        if not piece:
            fail(f"a connection ends in the middle of a reply {self.kept[:200]}")
        self.kept += piece


def request_of(method, path, token, body):
    text = b"" if body is None else json.dumps(body).encode()
    length = f"Content-Length: {len(text)}\r\n" if text else ""
    return f"{method} /hub/api{path} HTTP/1.1\r\nAuthorization: token {token}\r\n{length}\r\n".encode() + text


def random_call(rng, tokens, codes):
    """A call on the state alone: method, path and body, by one of the tokens that are known."""
    u, v, g, r = rng.choice(USERS), rng.choice(USERS), f"g{rng.randrange(3)}", f"r{rng.randrange(3)}"
    token = rng.choice(["secret-token-ann"] * 6 + [f"secret-token-{u}", f"secret-token-{v}"] + list(tokens)[-6:])
    scope = rng.choice(["read:users", "servers", "list:users", f"servers!user={u}", f"read:users:name!group={g}", "shares", "inherit"])
    server = rng.choice(["", "lab"])
    calls = [
        ("GET", "/user", None), ("GET", f"/user?for={u}/{server}", None), ("GET", "/users", None), ("GET", f"/users/{u}", None),
        ("GET", "/users?offset=2&limit=3", None), ("GET", f"/users/{u}/tokens", None), ("GET", "/groups", None),
        ("GET", f"/groups/{g}", None),
        ("GET", "/roles", None), ("GET", f"/roles/{r}", None), ("GET", f"/shares/{u}", None), ("GET", f"/users/{u}/shared", None),
        ("GET", f"/share-codes/{u}", None), ("POST", f"/users/x{rng.randrange(6)}", None), ("DELETE", f"/users/x{rng.randrange(6)}", None),
        ("PATCH", f"/users/{u}", {"admin": rng.random() < 0.3}), ("POST", f"/groups/{g}", {"users": [u]}), ("DELETE", f"/groups/{g}", None),
        ("POST", f"/groups/{g}/users", {"users": [u]}), ("DELETE", f"/groups/{g}/users", {"users": [u]}),
        ("PUT", f"/roles/{r}", {"scopes": [scope], "users": [u]}), ("PUT", f"/roles/{r}", {"scopes": [scope], "groups": [g]}),
        ("DELETE", f"/roles/{r}", None), ("POST", f"/users/{u}/tokens", {"scopes": [scope], "note": "storm"}),
        ("POST", f"/users/{u}/tokens", {}), ("DELETE", f"/users/{u}/tokens/{rng.randrange(10, 60)}", None),
        ("POST", f"/shares/{u}/{server}", {"user": v}), ("PATCH", f"/shares/{u}/{server}", {"user": v}),
        ("DELETE", f"/shares/{u}/{server}", None),
        ("POST", f"/share-codes/{u}/{server}", {}), ("DELETE", f"/share-codes/{u}/{server}", None), ("GET", "/nowhere", None),
        ("POST", f"/users/{v}/shared", {"code": rng.choice(list(codes)[-4:] or ["none"])}),
        ("PUT", f"/roles/{r}", {"scopes": ["nonsense"]}),
    ]
    return (token, *rng.choice(calls))


def made_of(reply):
    """The token or the code that a reply shows once."""
    found = re.search(rb'"(?:token|code)":"([^"]+)"', reply)
    return found[1].decode() if found else None


def masked(reply):
    reply = re.sub(rb"\d{4}-\d\d-\d\dT\d\d:\d\d:\d\dZ", b"MOMENT", reply)
    return re.sub(rb'"(token|code)":"[^"]+"', rb'"\1":"DRAWN"', reply)


def revision_of(reply):
    found = re.search(rb"\r\nX-Hub-Revision: (\d+)", reply.split(b"\r\n\r\n", 1)[0])
    return int(found[1]) if found else None


def caller(seed, calls, tokens, codes, told):
    rng = random.Random(seed)
    connection = socket.create_connection(("127.0.0.1", HUB), timeout=60)
    connection.setsockopt(socket.IPPROTO_TCP, socket.TCP_NODELAY, 1)
    raw = Raw(connection.sendall, lambda: connection.recv(65536))
    for _ in range(calls):
        token, method, path, body = random_call(rng, tokens, codes)
        reply = raw.ask(request_of(method, path, token, body))
        made = made_of(reply)
        if made:
            (codes if path.startswith("/share-codes") else tokens)[made] = True
        told.append((token, method, path, body, reply))
    connection.close()


def in_one_session(told, began):
    """Asks one session the same in the order of the revisions, and compares."""
    one = start("session", str(began), "ann", "secret-token-ann", "--admin", "--config", "hub.toml")
    raw = Raw(lambda b: (one.stdin.write(b), one.stdin.flush()), lambda: os.read(one.stdout.fileno(), 65536))
    drawn = {}

    def ask(call):
        token, method, path, body, wanted = call
        if body and "code" in body:
            body = {"code": drawn.get(body["code"], body["code"])}
        reply = raw.ask(request_of(method, path, drawn.get(token, token), body))
        if masked(reply) == masked(wanted):
            made = made_of(wanted)
            if made:
                drawn[made] = made_of(reply)
            return None
        return reply

    def expect(call):
        reply = ask(call)
        if reply is not None:
            fail(f"{call[1]} {call[2]} by {call[0]}: {call[4]!r} came, and one session answers {reply!r}")

    places = {}
    for call in told:
        places.setdefault(revision_of(call[4]), []).append(call)
    for call in places.pop(None, []):
        expect(call)
    at = 0
    for place_of in sorted(places):
        calls = places[place_of]
        if place_of != at:
            # one of them made this place: asked before the place it answers with another revision, and changes nothing then
            changing = [c for c in calls if c[1] != "GET" and c[4][9:10] == b"2"]
            for call in changing:
                if ask(call) is None:
                    calls.remove(call)
                    break
            else:
                fail(f"no call makes place {place_of} of {[c[1:3] for c in changing]}")
            at = place_of
        for call in calls:
            expect(call)
    one.stdin.close()
    one.wait(timeout=20)


def replay():
    calls = changes = 0
    for turn in range(ROUNDS):
        config("")
        began = int(time.time())
        hub = start("serve", "--config", "hub.toml", "--workers", "8")
        await_port(HUB)
        tokens, codes, told = {}, {}, []
        threads = [threading.Thread(target=caller, args=(SEED * 1000 + turn * 8 + n, 110, tokens, codes, told)) for n in range(8)]
        for one in threads:
            one.start()
        for one in threads:
            one.join()
        stop(hub)
        in_one_session(told, began)
        calls += len(told)
        changes += max(revision_of(c[4]) or 0 for c in told)
        print(f"round {turn + 1} of {ROUNDS}: {calls} calls, {changes} changes", flush=True)
    print(f"ok  {calls} calls of eight connections have the bytes of one history, in {ROUNDS} hubs with {changes} changes", flush=True)


# ---- storm


SERVER = r"""
import os, socket, sys
port, user, server = int(sys.argv[1]), sys.argv[2], sys.argv[3]
sys.stdin.readline()
listener = socket.create_server(("127.0.0.1", port), backlog=64)
try:
    os.write(1, b"ready\n")
except OSError:
    # the hub was killed meanwhile, and the next one takes the program over
    pass
body = f"{user}/{server}".encode()
while True:
    peer, _ = listener.accept()
    try:
        peer.settimeout(10)
        head = b""
        while b"\r\n\r\n" not in head:
            piece = peer.recv(4096)
            if not piece:
                break
            head += piece
        peer.sendall(b"HTTP/1.1 200 OK\r\nContent-Length: %d\r\nConnection: close\r\n\r\n%s" % (len(body), body))
    except OSError:
        pass
    peer.close()
"""


class BadLink:
    """Stands between the hub and the proxy's interface, and drops, delays and repeats what goes through."""

    def __init__(self, rng):
        self.rng, self.bad, self.counts, self.late = rng, True, {}, 0
        self.lock = threading.Lock()
        self.listener = socket.create_server(("127.0.0.1", LINK), backlog=256)
        threading.Thread(target=self.run, daemon=True).start()

    def run(self):
        while True:
            peer, _ = self.listener.accept()
            threading.Thread(target=self.carry, args=(peer,), daemon=True).start()

    def way(self):
        with self.lock:
            way = "good"
            if self.bad:
                way = self.rng.choices(["good", "refused", "lost", "unanswered", "slow", "repeated"], [70, 6, 6, 6, 6, 6])[0]
            self.counts[way] = self.counts.get(way, 0) + 1
            return way, self.rng.uniform(0.1, 3)

    def carry(self, peer):
        way, wait = self.way()
        try:
            peer.settimeout(60)
            if way == "refused":
                return
            request = read_message(peer)
            if way == "lost":
                return
            if way == "slow":
                time.sleep(wait)
            reply = asked(request)
            if way == "repeated":
                with self.lock:
                    self.late += 1
                threading.Thread(target=self.repeat, args=(request, wait), daemon=True).start()
            if way != "unanswered":
                peer.sendall(reply)
        except OSError:
            pass
        finally:
            peer.close()

    def repeat(self, request, wait):
        time.sleep(wait)
        asked(request)
        with self.lock:
            self.late -= 1


def read_message(peer):
    text = b""
    while b"\r\n\r\n" not in text:
        piece = peer.recv(65536)
        if not piece:
            return text
        text += piece
    head, body = text.split(b"\r\n\r\n", 1)
    length = re.search(rb"(?i)\r\ncontent-length: *(\d+)", head)
    while length and len(body) < int(length[1]):
        piece = peer.recv(65536)
        if not piece:
            break
        body += piece
    return head + b"\r\n\r\n" + body


def asked(request):
    """What the proxy's interface answers."""
    to = socket.create_connection(("127.0.0.1", API), timeout=30)
    try:
        to.sendall(request)
        return read_message(to)
    finally:
        to.close()


def call(port, method, path, token=None, body=None):
    connection = http.client.HTTPConnection("127.0.0.1", port, timeout=360)
    try:
        headers = {"Authorization": f"token {token}"} if token else {}
        connection.request(method, path, json.dumps(body) if body is not None else None, headers)
        reply = connection.getresponse()
        return reply.status, reply.read()
    finally:
        connection.close()


def path_of(user, server):
    return f"/hub/api/users/{user}/server" if server == "" else f"/hub/api/users/{user}/servers/{server}"


def busy(seed, until, counts, lock):
    rng = random.Random(seed)
    made = []
    while time.time() < until:
        user, server = rng.choice(USERS), rng.choice(["", "lab"])
        way = rng.choices(["start", "stop", "enter", "read", "role", "token", "revoke"], [25, 22, 25, 12, 6, 5, 5])[0]
        status = None
        if way == "start":
            status, _ = call(HUB, "POST", path_of(user, server), f"secret-token-{user}")
            allowed = {201, 202, 400, 403, 429, 503, 409}
        elif way == "stop":
            status, _ = call(HUB, "DELETE", path_of(user, server), "secret-token-ann")
            allowed = {202, 204, 404, 503}
        elif way == "enter":
            below = f"/user/{user}/{server}/" if server else f"/user/{user}/"
            status, body = call(PROXY, "GET", below + "page")
            allowed = {200, 404, 503}
            # the default server's path is a prefix of the named one's
            if status == 200 and body.decode() not in {f"{user}/{server}", f"{user}/"}:
                fail(f"{below} led to {body}")
        elif way == "read":
            status, body = call(HUB, "GET", f"/hub/api/users/{user}", "secret-token-ann")
            allowed = {200}
        elif way == "role":
            status, _ = call(HUB, rng.choice(["PUT", "DELETE"]), f"/hub/api/roles/r{rng.randrange(3)}", "secret-token-ann",
                             {"scopes": [f"servers!user={user}"], "users": [rng.choice(USERS)]})
            allowed = {200, 201, 204, 404}
        elif way == "token":
            status, body = call(HUB, "POST", f"/hub/api/users/{user}/tokens", f"secret-token-{user}", {})
            allowed = {201}
            if status == 201:
                shown = json.loads(body)
                made.append((user, shown["id"], shown["token"]))
        elif made:
            user, number, token = made.pop(rng.randrange(len(made)))
            status, _ = call(HUB, "DELETE", f"/hub/api/users/{user}/tokens/{number}", f"secret-token-{user}")
            allowed = {204}
            if call(HUB, "GET", "/hub/api/user", token)[0] != 403:
                fail("a token that was revoked is good")
        if status is not None:
            if status not in allowed:
                fail(f"{way} of {user}/{server} is answered {status}")
            with lock:
                counts[(way, status)] = counts.get((way, status), 0) + 1
        time.sleep(rng.uniform(0, 2 * PAUSE))


def start_proxy(its_api):
    """A proxy, and the configuration of a hub that reaches its interface at this port."""
    with open(f"{place}/server.py", "w") as file:
        file.write(SERVER)
    with open(f"{place}/secret", "w") as file:
        file.write("secret-of-the-proxy\n")
    config(f'command = ["{sys.executable}", "-ISE", "server.py", "{{port}}", "{{user}}", "{{server}}"]\n'
           f'proxy_api = "http://127.0.0.1:{its_api}"\nproxy_secret = "secret-of-the-proxy"')
    return start("proxy", "--listen", f"127.0.0.1:{PROXY}", "--api", f"127.0.0.1:{API}", "--secret-file", "secret", says=b"ready\n")


def start_hub():
    hub = start("serve", "--config", "hub.toml", "--db", "hub.db", "--no-trail", "--workers", "12")
    await_port(HUB)
    return hub


def storm():
    proxy = start_proxy(LINK)
    link = BadLink(random.Random(SEED))
    hub = start_hub()
    counts, lock, until = {}, threading.Lock(), time.time() + SECONDS
    threads = [threading.Thread(target=busy, args=(SEED * 100 + n, until, counts, lock), daemon=True) for n in range(8)]
    for one in threads:
        one.start()
    before = {}
    while any(one.is_alive() for one in threads):
        time.sleep(min(30, max(1, until - time.time())))
        before = before or {name: weight(one) for name, one in [("hub", hub), ("proxy", proxy)]}
        print(f"{max(0, int(until - time.time()))} s left, {sum(counts.values())} calls", flush=True)
    link.bad = False
    while link.late:
        time.sleep(0.1)
    compare_routes()
    stop_all()
    for name, one in [("hub", hub), ("proxy", proxy)]:
        (memory, files), (memory_then, files_then) = weight(one), before[name]
        print(f"    {name}: {memory_then} KiB and {files_then} files at first, {memory} and {files} at the end;"
              f" {seconds_of(one):.1f} s of a processor")
        if files > files_then + 2:
            fail(f"files stay open at the {name}")
    stop(hub)
    for (way, status), n in sorted(counts.items()):
        print(f"    {way} {status}: {n}")
    print(f"    messages to the proxy: {link.counts}")
    print(f"ok  {sum(counts.values())} calls in {SECONDS} s over a bad link: no path led to another's server, all was freed", flush=True)


def stop_all():
    """One more stop of each server frees its target, its route and its program."""
    for user in USERS:
        for server in ["", "lab"]:
            status, said = call(HUB, "DELETE", path_of(user, server), "secret-token-ann")
            if status not in {204, 404}:
                fail(f"one more stop of {user}/{server} is answered {status} {said}")
    leased = json.loads(call(HUB, "GET", "/hub/api/info", "secret-token-ann")[1])["leases"]
    routes = json.loads(call(HUB, "GET", "/hub/api/proxy", "secret-token-ann")[1])
    if leased or set(routes) - {"/"}:
        fail(f"{leased} leases and the routes {routes} are left when all is stopped")
    left = [n for n in marked() if b"server.py" in open(f"/proc/{n}/cmdline", "rb").read()]
    if left:
        fail(f"the programs {left} are left when all is stopped")


def compare_routes():
    """Each ready server has its route, which leads to its own program; each other route is of a server that is still to be stopped."""
    status, said = call(HUB, "POST", "/hub/api/proxy", "secret-token-ann")
    if status != 200:
        fail(f"the routes can't be brought into step: {status} {said}")
    ready, live = {}, set()
    for user in USERS:
        shown = json.loads(call(HUB, "GET", f"/hub/api/users/{user}", "secret-token-ann")[1])
        for name, server in shown["servers"].items():
            path = f"/user/{user}/{name}" if name else f"/user/{user}"
            live.add(path)
            if server["ready"]:
                ready[path] = f"{user}/{name}"
    routes = json.loads(call(HUB, "GET", "/hub/api/proxy", "secret-token-ann")[1])
    if not set(ready) <= set(routes) or not set(routes) - {"/"} <= live:
        fail(f"the routes are {sorted(routes)}, the ready servers {sorted(ready)}, the live ones {sorted(live)}")
    for path, whose in ready.items():
        if call(PROXY, "GET", f"{path}/page")[1].decode() != whose:
            fail(f"{path} leads to another server")
    print(f"ok  {len(ready)} ready servers have their own routes; {len(live) - len(ready)} are to be stopped once more", flush=True)


# ---- kills


class Owner:
    """One connection, which alone changes one user's servers and tokens and one role, so that it knows what has to be there."""

    def __init__(self, n):
        self.rng, self.user, self.role, self.scopes = random.Random(SEED * 100 + n), USERS[n], f"own{n}", None
        self.good, self.revoked, self.live, self.calls, self.again = {}, [], set(), 0, 0

    def call(self, method, path, token="secret-token-ann", body=None, port=HUB):
        """The answer, or nothing where the hub was killed meanwhile; then it is there again."""
        try:
            self.calls += 1
            return call(port, method, path, token, body)
        except (OSError, http.client.HTTPException):
            self.sure("GET", "/hub/api/")
            return None

    def sure(self, method, path, token="secret-token-ann"):
        """What a reading answers, however often the hub is killed."""
        for _ in range(600):
            try:
                return call(HUB, method, path, token)
            except (OSError, http.client.HTTPException):
                time.sleep(0.1)
        fail("the hub doesn't come back")

    def expect(self, what, told, *allowed):
        if told is not None and told[0] not in allowed:
            fail(f"{what} of {self.user} is answered {told}")
        return told is not None

    def shown_role(self):
        status, body = self.sure("GET", f"/hub/api/roles/{self.role}")
        return json.loads(body)["scopes"] if status == 200 else None

    def servers(self):
        return json.loads(self.sure("GET", f"/hub/api/users/{self.user}")[1])["servers"]

    def change_role(self):
        scopes = self.rng.choice([None, ["list:users"], ["read:users"], [f"servers!user={self.user}"]])
        path = f"/hub/api/roles/{self.role}"
        told = self.call("DELETE", path) if scopes is None else self.call("PUT", path, body={"scopes": scopes})
        if not self.expect("a role", told, 200, 201, 204, 404) and self.shown_role() == self.scopes:
            return
        self.scopes = scopes

    def make_token(self):
        told = self.call("POST", f"/hub/api/users/{self.user}/tokens", body={})
        if self.expect("a token", told, 201):
            self.good[json.loads(told[1])["id"]] = json.loads(told[1])["token"]

    def revoke(self):
        if self.good:
            number = self.rng.choice(list(self.good))
            token = self.good.pop(number)
            told = self.call("DELETE", f"/hub/api/users/{self.user}/tokens/{number}")
            if self.expect("a revocation", told, 204) or self.sure("GET", "/hub/api/user", token)[0] == 403:
                self.revoked.append(token)
            else:
                self.good[number] = token

    def stop(self, path):
        """One that fails leaves the server parked, and is asked again. The old program may listen for a moment longer than it is found."""
        for _ in range(40):
            told = self.call("DELETE", path)
            if told is None or told[0] != 503:
                break
            self.again += 1
            time.sleep(0.5)
        return told

    def start_or_stop(self):
        server = self.rng.choice(["", "lab"])
        path = path_of(self.user, server)
        if server in self.live:
            sure = self.expect("a stop", self.stop(path), 204)
            is_live = False
        else:
            # fewer targets than servers
            told = self.call("POST", path)
            sure = self.expect("a start", told, 201, 429)
            is_live = bool(told) and told[0] == 201
        while not sure:
            # it was killed in the middle: either all is as before, or a stop makes an end
            shown = self.servers().get(server)
            is_live = bool(shown and shown["ready"])
            sure = is_live or not shown or self.expect("a stop after a kill", self.stop(path), 204)
        (self.live.add if is_live else self.live.discard)(server)

    def see(self):
        """All that was answered is so."""
        if self.shown_role() != self.scopes:
            fail(f"the role {self.role} is {self.shown_role()}, and was {self.scopes}")
        for token in list(self.good.values())[-4:]:
            if self.sure("GET", "/hub/api/user", token)[0] != 200:
                fail(f"a token of {self.user} is lost")
        for token in self.revoked[-4:]:
            if self.sure("GET", "/hub/api/user", token)[0] != 403:
                fail(f"a revoked token of {self.user} is good")
        shown = self.servers()
        if set(shown) != self.live or not all(it["ready"] for it in shown.values()):
            fail(f"{self.user} has the servers {shown}, and had {self.live}")
        for server in self.live:
            path = f"/user/{self.user}/{server}/page" if server else f"/user/{self.user}/page"
            if (told := call(PROXY, "GET", path)) != (200, f"{self.user}/{server}".encode()):
                fail(f"{path} is answered {told}")

    def run(self, until):
        while time.time() < until:
            self.rng.choice([self.change_role, self.make_token, self.revoke, self.start_or_stop, self.start_or_stop, self.see])()
            time.sleep(self.rng.uniform(0, 2 * PAUSE))
        self.see()


def kills():
    start_proxy(API)
    hub, killed, until, rng = start_hub(), 0, time.time() + SECONDS, random.Random(SEED)
    owners = [Owner(n) for n in range(8)]
    threads = [threading.Thread(target=one.run, args=(until,), daemon=True) for one in owners]
    for one in threads:
        one.start()
    while any(one.is_alive() for one in threads):
        time.sleep(rng.uniform(1, 6))
        if time.time() < until:
            hub.kill()
            hub.wait()
            running.remove(hub)
            hub, killed = start_hub(), killed + 1
            if killed % 10 == 0:
                print(f"{killed} kills, {sum(it.calls for it in owners)} calls", flush=True)
    stop_all()
    stop(hub)
    print(f"ok  {killed} kills in {SECONDS} s and {sum(it.calls for it in owners)} calls, {sum(it.again for it in owners)} of them stops"
          " that were asked again: nothing that was answered is lost", flush=True)


# ---- hostile bytes


def hostile_text(rng):
    whole = (b"POST /hub/api/users/u1/tokens HTTP/1.1\r\nAuthorization: token secret-token-u1\r\nContent-Length: 24\r\n\r\n"
             b'{"scopes":["read:users"]}')
    kind = rng.randrange(7)
    if kind == 0:
        return rng.randbytes(rng.randrange(1, 20000))
    if kind == 1:
        text = bytearray(whole)
        for _ in range(rng.randrange(1, 6)):
            text[rng.randrange(len(text))] = rng.randrange(256)
        return bytes(text)
    if kind == 2:
        return whole[:rng.randrange(len(whole))]
    if kind == 3:
        return b"GET /" + b"a" * rng.randrange(1, 40000) + b" HTTP/1.1\r\n\r\n"
    if kind == 4:
        lines = b"".join(b"X-%d: %s\r\n" % (n, rng.randbytes(9).hex().encode()) for n in range(rng.randrange(200)))
        return b"GET / HTTP/1.1\r\n" + lines + b"\r\n"
    if kind == 5:
        chunks = [b"3\r\nabc\r\n", b"g\r\n", b"ffffffffffffffffff\r\n", b"0\r\n\r\n", b"-1\r\n", b"5\r\nab"]
        return b"POST / HTTP/1.1\r\nTransfer-Encoding: chunked\r\n\r\n" + b"".join(rng.choice(chunks) for _ in range(9))
    return whole[:-25] + b"[" * 24 + b"{" * 9


def send_hostile(port, rng, share):
    sent = 0
    while sent < share:
        text = hostile_text(rng)
        sent += len(text)
        try:
            peer = socket.create_connection(("127.0.0.1", port), timeout=20)
            peer.settimeout(20)
            try:
                peer.sendall(text)
                peer.shutdown(socket.SHUT_WR)
                while peer.recv(65536):
                    pass
            except ConnectionError:
                pass
            peer.close()
        except TimeoutError:
            fail(f"{port} keeps a hostile connection: {text[:80]}")


def fill(port, count):
    """As many connections at once, so that each worker has been used."""
    peers = []
    for _ in range(count):
        peers.append(socket.create_connection(("127.0.0.1", port), timeout=60))
        peers[-1].sendall(b"GET /nowhere HT")
    for peer in peers:
        peer.sendall(b"TP/1.0\r\n\r\n")
        while peer.recv(4096):
            pass
        peer.close()


def hostile():
    with open(f"{place}/secret", "w") as file:
        file.write("secret-of-the-proxy\n")
    config(f'command = ["sh", "-c", "read s; echo ready; exec sleep 1000"]')
    proxy = start("proxy", "--listen", f"127.0.0.1:{PROXY}", "--api", f"127.0.0.1:{API}", "--secret-file", "secret", says=b"ready\n")
    hub = start("serve", "--config", "hub.toml", "--no-trail", "--workers", "4")
    await_port(HUB)
    body = json.dumps({"target": f"http://127.0.0.1:{HUB}"})
    add = f"POST /api/routes/ HTTP/1.1\r\nAuthorization: token secret-of-the-proxy\r\nContent-Length: {len(body)}\r\n\r\n{body}"
    guard = start("guard", "--listen", f"127.0.0.1:{GUARD}", "--for", "u1/", "--hub", f"http://127.0.0.1:{HUB}", "--target",
                  f"http://127.0.0.1:{HUB}", says=b"ready\n")
    if not asked(add.encode()).startswith(b"HTTP/1.1 201"):
        fail("the proxy takes no route")
    ends = {"hub": (HUB, hub), "interface": (API, proxy), "proxy": (PROXY, proxy), "guard": (GUARD, guard)}

    def still_answers():
        for name, port in [("hub", HUB), ("proxy", PROXY), ("guard", GUARD)]:
            status, _ = call(port, "GET", "/hub/api/user", "secret-token-u1")
            if status != 200:
                fail(f"the {name} answers {status} to a good request")

    def sweep(share):
        for n, (name, (port, _)) in enumerate(ends.items()):
            seeds = [random.Random(SEED * 64 + n * 8 + k) for k in range(4)]
            threads = [threading.Thread(target=send_hostile, args=(port, rng, share // 4)) for rng in seeds]
            for one in threads:
                one.start()
            for one in threads:
                one.join()
            print(f"{name}: {share} hostile bytes", flush=True)

    resource.setrlimit(resource.RLIMIT_NOFILE, (4096, resource.getrlimit(resource.RLIMIT_NOFILE)[1]))
    for port, workers in [(HUB, 8), (API, 8), (PROXY, 1100), (GUARD, 100)]:
        fill(port, workers)
    sweep(BYTES // 8)
    still_answers()
    before = {name: weight(one) for name, (_, one) in ends.items()}
    sweep(BYTES // 8)
    still_answers()
    time.sleep(1)
    for name, (_, one) in ends.items():
        (memory, files), (memory_then, files_then) = weight(one), before[name]
        print(f"    {name}: {memory_then} KiB and {files_then} files before, {memory} and {files} after")
        if memory > memory_then + 2048 or files > files_then + 2:
            fail(f"the {name} grew")
    stop(hub)
    print(f"ok  {BYTES} hostile bytes: all answer as before, memory and open files are flat", flush=True)


for part in parts:
    {"replay": replay, "storm": storm, "kills": kills, "hostile": hostile}[part]()
    for one in running:
        if one.poll() is None:
            one.kill()
            one.wait()
    running.clear()
    for name in os.listdir(place):
        os.remove(f"{place}/{name}")
sys.exit(end(0))
PYTHON
