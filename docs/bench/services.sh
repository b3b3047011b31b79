#!/bin/sh
# What a service with a program does over real programs, which no clause can say: `serve` starts it behind a proxy and its path leads to it;
# killed, it is back by the second connection; a command that isn't there is tried five times; where the hub is killed, the next ends what
# it left and starts the service anew; at a hub's end no program and no route is left.
# usage: docs/bench/services.sh PROGRAM
# PROGRAM is the hub as `./run` links it (crates/hub/out/hub). It takes ten seconds, stands outside the gate, and writes into a new folder
# under /tmp alone. It ends with status 1 at the first thing that isn't as it should be.
set -eu
# of a file that others may read a proxy says a line
umask 077
program=$(realpath "$1")
exec python3 - "$program" <<'PYTHON'
import json, os, shutil, signal, socket, subprocess, sys, tempfile, time, urllib.error, urllib.request

program = sys.argv[1]
place = tempfile.mkdtemp(prefix="services_bench.")
PROXY, API, HUB, NOTES, LOST = 18600, 18601, 18602, 18603, 18604
SECRET = "bench-secret-of-the-proxy"
running = []


def fail(why):
    print(f"not as it should be: {why}")
    sys.exit(1)


def get(port, path, secret=None):
    request = urllib.request.Request(f"http://127.0.0.1:{port}{path}")
    if secret:
        request.add_header("Authorization", f"token {secret}")
    try:
        with urllib.request.urlopen(request, timeout=20) as reply:
            return reply.status, reply.read()
    except urllib.error.HTTPError as refused:
        return refused.code, refused.read()


def routes():
    return json.loads(get(API, "/api/routes", SECRET)[1])


def started():
    """The numbers of the service's program, in the order of its starts."""
    try:
        return [int(line) for line in open(f"{place}/started").read().split()]
    except FileNotFoundError:
        return []


def runs(number):
    try:
        return open(f"/proc/{number}/stat").read().rsplit(")", 1)[1].split()[0] != "Z"
    except OSError:
        return False


def call():
    """One connection of the hub's own."""
    if get(HUB, "/hub/api/")[0] != 200:
        fail("the hub's version isn't answered")


def until(said, holds, seconds=10):
    for _ in range(int(seconds / 0.05)):
        if holds():
            return
        time.sleep(0.05)
    fail(said)


def serve():
    hub = subprocess.Popen([program, "serve", "--config", "hub.toml", "--no-trail"], cwd=place, stdin=subprocess.PIPE,
                           stdout=subprocess.PIPE, stderr=open(f"{place}/said", "w"), text=True)
    running.append(hub)
    return hub


def main():
    open(f"{place}/proxy-secret", "w").write(SECRET + "\n")
    os.makedirs(f"{place}/services/notes")
    open(f"{place}/services/notes/page", "w").write("a page of notes")
    open(f"{place}/notes.sh", "w").write(
        "read -r secret; echo \"$secret\" > secret; echo $$ >> started\n"
        f"python3 -m http.server --bind 127.0.0.1 \"$1\" > /dev/null 2>&1 &\n"
        "child=$!; until python3 -c \"import socket; socket.create_connection(('127.0.0.1', $1))\" 2> /dev/null; do sleep 0.1; done\n"
        "echo ready; wait $child\n")
    open(f"{place}/hub.toml", "w").write(f'''
listen = "127.0.0.1:{HUB}"
hub_url = "http://127.0.0.1:{HUB}"
proxy_api = "http://127.0.0.1:{API}"
proxy_secret = "{SECRET}"
[[services]]
name = "notes"
redirect_uri = "/services/notes/cb"
secret = "secret-of-notes"
command = ["sh", "notes.sh", "{{port}}"]
target = "http://127.0.0.1:{NOTES}"
[[services]]
name = "lost"
redirect_uri = "/services/lost/cb"
secret = "secret-of-lost"
command = ["{place}/no-such-program"]
target = "http://127.0.0.1:{LOST}"
''')
    proxy = subprocess.Popen(
        [program, "proxy", "--listen", f"127.0.0.1:{PROXY}", "--api", f"127.0.0.1:{API}", "--secret-file", "proxy-secret"],
        cwd=place, stdout=subprocess.PIPE, text=True)
    running.append(proxy)
    if proxy.stdout.readline() != "ready\n":
        fail("the proxy isn't ready")
    hub = serve()
    until("the service isn't started before the first connection", lambda: "/services/notes" in routes())
    if open(f"{place}/secret").read() != "secret-of-notes\n":
        fail("the program hasn't its secret")
    if get(PROXY, "/services/notes/page") != (200, b"a page of notes"):
        fail("the path doesn't lead to the program")
    for _ in range(8):
        call()
    if len(started()) != 1:
        fail("a program that runs is started again")
    if open(f"{place}/said").read().count("is not started") != 5:
        fail("the command that isn't there isn't tried five times")
    first = started()[0]
    os.killpg(first, signal.SIGKILL)
    until("the program isn't gone", lambda: not runs(first))
    call()
    if "/services/notes" in routes():
        fail("the route of a program that ended is left")
    call()
    if len(started()) != 2 or get(PROXY, "/services/notes/page") != (200, b"a page of notes"):
        fail("the program isn't back by the second connection")
    hub.kill()
    hub.wait()
    # numbers are seconds, or one more where a program came back within one: in the same second the next hub's route would be an older one's
    time.sleep(1.1)
    left = started()[1]
    if not runs(left):
        fail("a program ends with a hub that is killed")
    hub = serve()
    until("the service isn't started by the next hub", lambda: len(started()) == 3)
    until("the path doesn't lead to the new program", lambda: get(PROXY, "/services/notes/page") == (200, b"a page of notes"))
    if runs(left) or not runs(started()[2]):
        fail("what a killed hub left running isn't ended before the service is started anew")
    hub.stdin.close()
    if hub.wait(timeout=30) != 0 or not hub.stdout.read().startswith("served "):
        fail("the hub doesn't end with status 0")
    if any(runs(number) for number in started()):
        fail("a program is left when the hub has ended")
    try:
        socket.create_connection(("127.0.0.1", NOTES), timeout=1).close()
        fail("the program's target is still served")
    except OSError:
        pass
    if "/services/notes" in routes():
        fail("the route is left when the hub has ended")
    print("a service starts, is reached, comes back, is given up, and ends as it should")


try:
    main()
finally:
    for each in running:
        each.kill()
    for number in started():
        if runs(number):
            os.killpg(number, signal.SIGKILL)
    shutil.rmtree(place)
PYTHON
