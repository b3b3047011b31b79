#!/bin/sh
# A culler and a hub, both as the program that `./run` links, over sockets and with real programs: rounds over three pages of users, of
# whose servers some are idle, one was just used, one is named and goes with its row, and one belongs to somebody whom the culler may not
# stop.
# usage: docs/bench/cull.sh [PROGRAM]
# PROGRAM is crates/hub/out/hub where it isn't given. It stands outside the gate, takes some ten seconds, writes to a new folder under /tmp
# alone, and ends with status 1 at the first thing that isn't as it should be.
set -eu
# of a file that others may read a hub and the culler say a line more
umask 077
top=$(cd "$(dirname "$0")/../.." && pwd)
exec python3 - "$(realpath "${1:-$top/crates/hub/out/hub}")" <<'PYTHON'
import datetime, http.client, json, os, re, shutil, socket, subprocess, sys, tempfile, threading, time

program = sys.argv[1]
place = tempfile.mkdtemp(prefix="cull_bench.")
ROOT, CULLER = "token-of-the-root", "token-of-the-culler"
SINGLE_USER = r"""
import socket, sys
sys.stdin.readline()
listener = socket.create_server(("127.0.0.1", int(sys.argv[1])))
print("ready", flush=True)
while True:
    listener.accept()[0].close()
"""
# with the root 120 users: pages of 50, 50 and 20
PUPILS = [f"u{n:03}" for n in range(119)]


def check(what, holds, saw=""):
    if not holds:
        sys.exit(f"not as it should be: {what} {saw}")
    print(f"ok  {what}", flush=True)


def free_ports(count):
    servers = [socket.create_server(("127.0.0.1", 0)) for _ in range(count)]
    ports = [server.getsockname()[1] for server in servers]
    for server in servers:
        server.close()
    return ports


def configuration(port, targets):
    pool = [f"http://127.0.0.1:{target}" for target in targets]
    command = ["/usr/bin/env", "python3", "single_user.py", "{port}"]
    text = f'listen = "127.0.0.1:{port}"\npool = {json.dumps(pool)}\ncommand = {json.dumps(command)}\n'
    text += '[[users]]\nname = "root"\nadmin = true\n' + "".join(f'[[users]]\nname = "{it}"\n' for it in PUPILS)
    # the culler may stop the servers of the class, and that isn't everybody
    text += f'[[groups]]\nname = "class"\nusers = {json.dumps(PUPILS[:-1])}\n[[services]]\nname = "culler"\n'
    scopes = ["list:users", "read:users:name", "read:users:activity", "read:servers", "delete:servers!group=class"]
    text += f'[[roles]]\nname = "culler"\nscopes = {json.dumps(scopes)}\nservices = ["culler"]\n'
    return text + f'[[tokens]]\ntoken = "{ROOT}"\nuser = "root"\n[[tokens]]\ntoken = "{CULLER}"\nservice = "culler"\n'


def ask(method, path, body=None, token=ROOT):
    line = http.client.HTTPConnection("127.0.0.1", port, timeout=100)
    line.request(method, f"/hub/api{path}", None if body is None else json.dumps(body), {"Authorization": f"token {token}"})
    reply = line.getresponse()
    text = reply.read()
    line.close()
    return reply.status, json.loads(text) if text else None


def live():
    """The servers that are live, by their keys."""
    users = ask("GET", "/users?limit=200")[1]
    return sorted(f"{user['name']}/{name}" for user in users for name in user["servers"])


def cull(*words, token=CULLER, at=None):
    with open(f"{place}/token", "w") as file:
        file.write(token + "\n")
    words = ["--hub", f"http://127.0.0.1:{at or port}", "--token-file", "token", "--rounds", "1", *words]
    ran = subprocess.run([program, "cull", *words], cwd=place, stdin=subprocess.DEVNULL, stdout=subprocess.PIPE, stderr=subprocess.PIPE,
                         text=True, timeout=100)
    return ran.returncode, ran.stdout, ran.stderr


with open(f"{place}/single_user.py", "w") as file:
    file.write(SINGLE_USER)
port, unused, *targets = free_ports(10)
with open(f"{place}/hub.toml", "w") as file:
    file.write(configuration(port, targets))
hub = subprocess.Popen([program, "serve", "--config", "hub.toml", "--no-trail"], cwd=place, stdin=subprocess.PIPE, stdout=subprocess.PIPE,
                       stderr=subprocess.PIPE, text=True)
try:
    check("the hub listens", "listens at" in hub.stderr.readline())
    threading.Thread(target=hub.stderr.read, daemon=True).start()
    started = [f"/users/{PUPILS[0]}/server", f"/users/{PUPILS[1]}/server", f"/users/{PUPILS[60]}/servers/lab",
               f"/users/{PUPILS[117]}/server", f"/users/{PUPILS[118]}/server"]
    check("five servers are started", [ask("POST", it)[0] for it in started] == [201] * 5)
    check("nothing is idle yet", cull("--timeout", "600") == (0, "users 120 culled 0 refused 0\n", ""))
    check("nothing was stopped", len(live()) == 5, live())
    time.sleep(3)
    now = datetime.datetime.now(datetime.timezone.utc).strftime("%Y-%m-%dT%H:%M:%SZ")
    check("one was just used", ask("POST", f"/users/{PUPILS[1]}/activity", {"servers": {"": {"last_activity": now}}})[0] == 204)
    gave = cull("--timeout", "2", "--remove-named-servers")
    check("the idle ones go, and that of somebody else is refused", gave[:2] == (0, "users 120 culled 3 refused 1\n"), gave)
    check("these two are left", live() == [f"{PUPILS[1]}/", f"{PUPILS[118]}/"], live())
    check("the named server's row is gone", ask("DELETE", f"/users/{PUPILS[60]}/servers/lab")[0] == 404)
    gave = cull("--timeout", "600", "--max-age", "1")
    check("one that is too old goes though it was used", gave[:2] == (0, "users 120 culled 1 refused 1\n"), gave)
    check("one is left", live() == [f"{PUPILS[118]}/"], live())
    gave = cull("--timeout", "2", "--cull-users", token=ROOT)
    check("an admin culls the last one; who has a server then isn't deleted in that round",
          gave[0] == 0 and re.fullmatch(r"users 120 culled 119 refused 0\n", gave[1]), gave)
    check("the root is left, and who had a server", [it["name"] for it in ask("GET", "/users?limit=200")[1]] == ["root", PUPILS[118]])
    check("a token that nobody has is no page: status 11", cull(token="token-of-nobody")[0] == 11)
    check("a hub that isn't there: status 9, and a line says so", cull(at=unused)[0] == 9 and cull(at=unused)[2].startswith("hub: "))
    hub.stdin.close()
    check("the hub ends", hub.wait(60) == 0)
finally:
    hub.kill()
    shutil.rmtree(place)
PYTHON
