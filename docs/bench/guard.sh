#!/bin/sh
# A guard over sockets, with a hub and real programs: whom it lets in, what it says where the hub is gone, a browser that signs in at it,
# a WebSocket through it, and what a guarded request costs beside a forwarded one.
# usage: docs/bench/guard.sh [PROGRAM] [behave] [browser] [socket] [measure]
# `behave` sees to the tokens: nobody's, another's, one that is taken away, and a hub that ends. `browser` starts a guarded page of a
# Python server from a hub and signs in there with headless Chromium, by nginx as a front that adds the user's token. `socket` sends
# through a guard what a WebSocket sends. `measure` takes processor time and latency, in nine rounds of two seconds each, and says the
# medians: of callers who ask the hub and then forward by a proxy, in turn, each on a connection of its own, with what the question takes
# the caller; and of the same callers at a guard, which does both for them. Without a word it does all four. PROGRAM is crates/hub/out/hub
# where it isn't given. It needs Debian's curl, nginx-light, chromium, python3-websockets and gcc; what lacks is named and left out. It
# stands outside the gate, writes to a new folder under /tmp alone, has a time limit on each step, ends what it started, and ends with
# status 1 at the first thing that isn't as it should be.
set -eu
top=$(cd "$(dirname "$0")/../.." && pwd)
program=$top/crates/hub/out/hub
case "${1:-}" in */*) program=$1; shift ;; esac
[ $# -gt 0 ] || set -- behave browser socket measure
exec /usr/bin/python3 - "$top/docs/bench/callers.c" "$(realpath "$program")" "$@" <<'PYTHON'
import asyncio, http.client, json, os, re, shutil, signal, socket, subprocess, sys, tempfile, threading, time

callers_source, program, parts = sys.argv[1], sys.argv[2], sys.argv[3:]
ANN, BOB, ROOT = "secret-token-ann", "secret-token-bob", "secret-token-root"
place = tempfile.mkdtemp(prefix="guard_bench.")
ROUNDS = 9
started = []

# a program as the hub starts it: PORT USER SERVER. Its page stands behind a guard that lets browsers sign in.
GUARDED = r"""#!/bin/sh
read -r secret
printf '%s\n' "$secret" > @PLACE@/secret-$2
cd @PLACE@/www && python3 -m http.server --bind 127.0.0.1 @BEHIND@ > /dev/null 2>&1 &
exec @PROGRAM@ guard --listen "127.0.0.1:$1" --for "$2/$3" --hub http://127.0.0.1:@FRONT@ --target http://127.0.0.1:@BEHIND@ \
    --secret-file @PLACE@/secret-$2
"""


def check(what, holds, saw=""):
    if not holds:
        sys.exit(f"not as it should be: {what} {saw}")
    print(f"ok  {what}", flush=True)


def free_ports(count):
    servers = [socket.create_server(("127.0.0.1", 0)) for _ in range(count)]
    ports = [server.getsockname()[1] for server in servers]
    for server in servers:
        server.close()
    return ports


def comes(holds, most):
    end = time.monotonic() + most
    while not holds():
        if time.monotonic() > end:
            return False
        time.sleep(0.05)
    return True


def is_open(port):
    try:
        socket.create_connection(("127.0.0.1", port), 2).close()
        return True
    except OSError:
        return False


def start(words, port, **more):
    """Starts a program in a group of its own, and waits until it takes connections."""
    quiet = {"stdin": subprocess.DEVNULL, "stdout": subprocess.DEVNULL, "stderr": open(f"{place}/err", "a")}
    process = subprocess.Popen(words, cwd=place, start_new_session=True, **{**quiet, **more})
    started.append(process)
    if not comes(lambda: is_open(port) or process.poll() is not None, 20) or process.poll() is not None:
        sys.exit(f"{words[:2]} doesn't listen: {open(place + '/err').read()[-500:]}")
    return process


def end_all():
    for how in (signal.SIGTERM, signal.SIGKILL):
        for process in started:
            try:
                os.killpg(process.pid, how)
            except OSError:
                pass
        comes(lambda: all(it.poll() is not None for it in started), 5)
    started.clear()


def start_hub(port, pool=(), command=()):
    targets = json.dumps([f"http://127.0.0.1:{it}" for it in pool])
    text = f'listen = "127.0.0.1:{port}"\npool = {targets}\ncommand = {json.dumps(list(command))}\n'
    for name, token in (("root", ROOT), ("ann", ANN), ("bob", BOB)):
        text += f'[[users]]\nname = "{name}"\nadmin = {str(name == "root").lower()}\n[[tokens]]\ntoken = "{token}"\nuser = "{name}"\n'
    with open(f"{place}/hub.toml", "w") as file:
        file.write(text)
    return start([program, "serve", "--config", "hub.toml", "--no-trail"], port, stdin=subprocess.PIPE)


def start_guard(port, hub, target, *words):
    return start([program, "guard", "--listen", f"127.0.0.1:{port}", "--for", "ann/", "--hub", f"http://127.0.0.1:{hub}",
                  "--target", f"http://127.0.0.1:{target}", *words], port)


def ask(port, path, token=None, method="GET", body=None):
    line = http.client.HTTPConnection("127.0.0.1", port, timeout=70)
    line.request(method, path, body, {"Authorization": f"token {token}"} if token else {})
    reply = line.getresponse()
    given = reply.status, reply.read(), reply.getheader("Location")
    line.close()
    return given


def pages():
    os.makedirs(f"{place}/www/user/ann", exist_ok=True)
    with open(f"{place}/www/user/ann/index.html", "w") as file:
        file.write("<p>the page of ann</p>")


def start_pages(port):
    return start(["python3", "-m", "http.server", "--bind", "127.0.0.1", str(port), "--directory", f"{place}/www"], port)


def behave():
    hub, guard, page = free_ports(3)
    pages()
    program_of_hub = start_hub(hub)
    start_pages(page)
    start_guard(guard, hub, page)
    check("without a token: 403 `no valid token`", ask(guard, "/user/ann/")[:2] == (403, b'{"message":"no valid token","status":403}'))
    check("with bob's: 403 `no access`", ask(guard, "/user/ann/", BOB)[:2] == (403, b'{"message":"no access","status":403}'))
    check("with ann's: the page", ask(guard, "/user/ann/", ANN)[:2] == (200, b"<p>the page of ann</p>"))
    made = json.loads(ask(hub, "/hub/api/users/ann/tokens", ANN, "POST", "{}")[1])
    check("a new token of ann is let in", ask(guard, "/user/ann/", made["token"])[0] == 200)
    check("it is deleted", ask(hub, f"/hub/api/users/ann/tokens/{made['id']}", ANN, "DELETE")[0] == 204)
    check("its next request is 403", ask(guard, "/user/ann/", made["token"])[0] == 403)
    check("bob is given a share", ask(hub, "/hub/api/shares/ann/", ROOT, "POST", '{"user":"bob"}')[0] == 200)
    check("bob's next request is let in", ask(guard, "/user/ann/", BOB)[0] == 200)
    check("the share is taken back", ask(hub, "/hub/api/shares/ann/", ROOT, "DELETE")[0] == 204)
    check("bob's next request is 403", ask(guard, "/user/ann/", BOB)[0] == 403)
    program_of_hub.kill()
    program_of_hub.wait()
    check("where the hub is gone: 503 `hub`", ask(guard, "/user/ann/", ANN)[:2] == (503, b'{"message":"hub","status":503}'))
    end_all()


def front(port, hub, guard):
    """nginx, which gives a browser's requests to the hub ann's token."""
    temporary = "".join(f"{kind}_temp_path {place}/tmp; " for kind in ("client_body", "proxy", "fastcgi", "uwsgi", "scgi"))
    with open(f"{place}/front.conf", "w") as file:
        file.write(f"worker_processes 1; daemon off; pid {place}/front.pid; error_log {place}/err; events {{}}"
                   f"http {{ access_log off; {temporary}"
                   f'map $http_authorization $own {{ default $http_authorization; "" "token {ANN}"; }}'
                   f"server {{ listen 127.0.0.1:{port};"
                   f"location /hub/ {{ proxy_set_header Authorization $own; proxy_pass http://127.0.0.1:{hub}; }}"
                   f"location /user/ {{ proxy_pass http://127.0.0.1:{guard}; }} }} }}")
    return start(["nginx", "-p", place, "-c", f"{place}/front.conf"], port)


def see_in_browser(address):
    words = ["chromium", "--headless=new", f"--user-data-dir={place}/browser", "--no-first-run", "--disable-gpu", "--no-proxy-server",
             *(["--no-sandbox"] if os.geteuid() == 0 else []), "--timeout=20000", "--dump-dom", address]
    ran = subprocess.run(words, stdin=subprocess.DEVNULL, stdout=subprocess.PIPE, stderr=subprocess.DEVNULL, text=True, timeout=90,
                         env={**os.environ, "HOME": place})
    return ran.stdout


def browser():
    hub, front_port, guard, behind = free_ports(4)
    pages()
    with open(f"{place}/guarded", "w") as file:
        text = GUARDED
        for name, value in {"PLACE": place, "PROGRAM": program, "FRONT": front_port, "BEHIND": behind}.items():
            text = text.replace(f"@{name}@", str(value))
        file.write(text)
    os.chmod(f"{place}/guarded", 0o755)
    program_of_hub = start_hub(hub, [guard], [f"{place}/guarded", "{port}", "{user}", "{server}"])
    front(front_port, hub, guard)
    check("the hub starts the guarded page", ask(hub, "/hub/api/users/ann/server", ANN, "POST")[0] == 201)
    check("the page answers behind its guard", comes(lambda: is_open(behind), 20))
    status, _, location = ask(front_port, "/user/ann/")
    authorize = f"http://127.0.0.1:{front_port}/hub/api/oauth2/authorize?"
    check("who has no cookie is sent to sign in", status == 302 and location.startswith(authorize), location)
    status, _, location = ask(front_port, "/user/ann/oauth_callback?code=1&state=2")
    check("who comes back without having been sent is refused", status == 403)
    seen = see_in_browser(f"http://127.0.0.1:{front_port}/user/ann/") if shutil.which("chromium") else None
    check("a browser signs in and sees the page", seen is None or "the page of ann" in seen, seen)
    check("the server is stopped", ask(hub, "/hub/api/users/ann/server", ANN, "DELETE")[0] == 204)
    check("its guard is gone", comes(lambda: not is_open(guard) and not is_open(behind), 5))
    program_of_hub.stdin.close()
    check("the hub ends", program_of_hub.wait(40) == 0)
    end_all()


async def echo(port, ready, stop):
    import websockets
    async def back(line, *_):
        async for message in line:
            await line.send(message)
    async with websockets.serve(back, "127.0.0.1", port, max_size=None):
        ready.set()
        await stop.wait()


async def talk(guard, page):
    import websockets
    ready, stop = asyncio.Event(), asyncio.Event()
    server = asyncio.ensure_future(echo(page, ready, stop))
    await asyncio.wait_for(ready.wait(), 10)
    address = f"ws://127.0.0.1:{guard}/user/ann/ws"
    for token, status in ((None, 403), (BOB, 403)):
        try:
            await asyncio.wait_for(websockets.connect(address, extra_headers={"Authorization": f"token {token}"} if token else {}), 20)
            check("who isn't admitted gets no WebSocket", False)
        except websockets.InvalidStatusCode as refused:
            check(f"with {token and 'bob' or 'no'} token: {status}", refused.status_code == status, refused)
    line = await asyncio.wait_for(websockets.connect(address, extra_headers={"Authorization": f"token {ANN}"}, max_size=None), 20)
    for size in (1, 100, 100_000, 3_000_000):
        await asyncio.wait_for(line.send(bytes(size)), 30)
        check(f"{size} bytes come back", await asyncio.wait_for(line.recv(), 30) == bytes(size))
    began = time.monotonic()
    for _ in range(200):
        await line.send("x")
        await asyncio.wait_for(line.recv(), 10)
    print(f"    a message and its echo: {1e6 * (time.monotonic() - began) / 200:.0f} microseconds on the clock")
    await asyncio.wait_for(line.close(), 20)
    stop.set()
    await asyncio.wait_for(server, 20)


def socket_part():
    try:
        import websockets
    except ImportError:
        return print("left out: there is no python3-websockets")
    hub, guard, page = free_ports(3)
    start_hub(hub)
    start_guard(guard, hub, page)
    asyncio.run(asyncio.wait_for(talk(guard, page), 120))
    end_all()


def spent(process):
    with open(f"/proc/{process.pid}/stat") as file:
        fields = file.read().rsplit(")", 1)[1].split()
    return (int(fields[11]) + int(fields[12])) / os.sysconf("SC_CLK_TCK")


def load(what, callers, targets, *processes):
    """Callers make these requests in turn for two seconds. Gives microseconds of processor time a turn of each process, and of the
    callers for each request."""
    before = [spent(it) for it in processes]
    words = [f"{place}/callers", str(callers), "2", *(word for port, path in targets for word in (str(port), path, ANN))]
    ran = subprocess.run(words, stdout=subprocess.PIPE, stderr=subprocess.PIPE, text=True, timeout=60)
    if ran.returncode or not int(ran.stdout.split()[0]):
        sys.exit(f"not as it should be: {what}: {ran.stderr}")
    count, *own, half, most = (float(it) for it in ran.stdout.split())
    each = [1e6 * (spent(it) - then) / count for it, then in zip(processes, before)]
    of_processes, of_callers = (" and ".join(f"{it:.0f}" for it in taken) for taken in (each, own))
    print(f"{what}, {callers} callers: {of_processes} microseconds of processor time, {of_callers}"
          f" of the callers, {count / 2:.0f} a second, half within {half / 1000:.2f} ms, 99 of 100 within {most / 1000:.2f}", flush=True)
    return each, own


def spread(name, taken):
    taken = sorted(taken)
    print(f"    {name}: {taken[len(taken) // 2]:.0f} at the median, {taken[0]:.0f} to {taken[-1]:.0f}")


def rounds(callers, ports, processes):
    """Rounds of both in turn, so that what else the machine does meets both; the medians of the rounds."""
    asked, passed, guarded = zip(ports, ("/hub/api/user?for=ann/", "/user/ann/", "/user/ann/"))
    hub, proxy, guard = processes
    parts, apart, together, more = [], [], [], []
    for at in range(ROUNDS):
        print(f"round {at + 1} of {ROUNDS}")
        (of_hub, of_proxy), (question, _) = load("asked, then forwarded: the hub and the proxy", callers, (asked, passed), hub, proxy)
        (of_same_hub, of_guard), _ = load("guarded: the hub and the guard", callers, (guarded,), hub, guard)
        parts.append((of_proxy, of_hub, question, of_guard, of_same_hub))
        apart.append(of_proxy + of_hub + question)
        together.append(of_guard + of_same_hub)
        more.append(100 * (together[-1] / apart[-1] - 1))
    print(f"{callers} callers, microseconds of processor time a turn, {ROUNDS} rounds:")
    names = ("forwarded: the proxy", "asked: the hub", "asked: the caller", "guarded: the guard", "guarded: the hub")
    for name, taken in zip(names, zip(*parts)):
        spread(name, taken)
    spread("forwarded, and both ends of a question", apart)
    spread("guarded, the guard and the hub", together)
    spread("a guarded one takes more than these, percent", more)


def measure():
    if not (shutil.which("cc") and shutil.which("nginx")):
        return print("left out: there is no cc or no nginx")
    subprocess.run(["cc", "-O2", "-pthread", "-o", f"{place}/callers", callers_source], check=True)
    hub, guard, page, proxy, api = free_ports(5)
    pages()
    os.makedirs(f"{place}/tmp", exist_ok=True)
    os.chmod(place, 0o755)
    temporary = "".join(f"{kind}_temp_path {place}/tmp; " for kind in ("client_body", "proxy", "fastcgi", "uwsgi", "scgi"))
    with open(f"{place}/page.conf", "w") as file:
        file.write(f"worker_processes 1; daemon off; pid {place}/page.pid; error_log {place}/err; events {{ worker_connections 4096; }}"
                   f"http {{ access_log off; {temporary} server {{ listen 127.0.0.1:{page} backlog=4096; root {place}/www; }} }}")
    with open(f"{place}/proxy-secret", "w") as file:
        file.write("secret-of-the-bench\n")
    program_of_hub = start_hub(hub)
    start(["nginx", "-p", place, "-c", f"{place}/page.conf"], page)
    guarding = start_guard(guard, hub, page)
    words = [program, "proxy", "--listen", f"127.0.0.1:{proxy}", "--api", f"127.0.0.1:{api}", "--secret-file", "proxy-secret"]
    forwarding = start(words, proxy)
    entry = json.dumps({"target": f"http://127.0.0.1:{page}"})
    check("the proxy has a route", ask(api, "/api/routes/user/ann", "secret-of-the-bench", "POST", entry)[0] == 201)
    print(f"load {os.getloadavg()[0]:.0f}, {os.cpu_count()} processors")
    for callers in (1, 16):
        rounds(callers, (hub, proxy, guard), (program_of_hub, forwarding, guarding))
    end_all()


def run(part):
    signal.signal(signal.SIGALRM, lambda *_: sys.exit(f"not as it should be: `{part}` took more than five minutes"))
    signal.alarm(300)
    {"behave": behave, "browser": browser, "socket": socket_part, "measure": measure}[part]()
    signal.alarm(0)


try:
    os.makedirs(f"{place}/tmp", exist_ok=True)
    for part in parts:
        print(f"-- {part}")
        run(part)
finally:
    end_all()
    shutil.rmtree(place, ignore_errors=True)
PYTHON
