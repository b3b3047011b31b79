#!/bin/sh
# Processor time of calls on tokens, shares, share codes and the authorization code grant, over `session` and a pipe.
# usage: docs/bench/calls.sh [PROGRAM]
# PROGRAM is the program `hub` as `rt run` leaves it (crates/hub/out/hub if none is named: run `./run` first). One request is sent at a
# time, and its reply read, so that a code can be used. Each figure is the processor time of the session with so many such requests less
# that of the session without them, by their number; of each the least of 15 runs in turn. It stands outside the gate, and ends with status
# 1 at the first reply that isn't as it should be.
set -eu
top=$(cd "$(dirname "$0")/../.." && pwd)
program=${1:-$top/crates/hub/out/hub}
folder=$(mktemp -d /tmp/hub-calls.XXXXXX)
trap 'rm -rf "$folder"' EXIT
cd "$folder"
python3 - "$program" <<'PYTHON'
import json, os, subprocess, sys

PROGRAM = sys.argv[1]
ROUNDS = 15
ASKED = 400
USERS = 20
TOKENS = 50

# 20 users with 50 tokens each, one target, and a service that is a client of OAuth
with open("hub.toml", "w") as file:
    file.write('pool = ["http://127.0.0.1:9001"]\n'
               '[[services]]\nname = "web"\nredirect_uri = "/services/web/cb"\nsecret = "service-secret-web"\n')
    for user in range(USERS):
        file.write(f'[[users]]\nname = "user{user}"\n')
    for user in range(USERS):
        for token in range(TOKENS):
            file.write(f'[[tokens]]\ntoken = "secret-token-{user}-{token}"\nuser = "user{user}"\n')


class Session:
    def __init__(self):
        words = [PROGRAM, "session", "1700000000", "ann", "secret-token-ann", "--admin", "--config", "hub.toml"]
        self.hub = subprocess.Popen(words, stdin=subprocess.PIPE, stdout=subprocess.PIPE)

    def ask(self, method, path, status, body="", token="secret-token-ann"):
        """The head and the body of the reply, which has to have this status."""
        head = f"{method} /hub/api{path} HTTP/1.1\r\nHost: hub\r\n"
        if token:
            head += f"Authorization: token {token}\r\n"
        if body:
            head += f"Content-Length: {len(body)}\r\n"
        self.hub.stdin.write((head + "\r\n" + body).encode())
        self.hub.stdin.flush()
        lines = []
        while True:
            line = self.hub.stdout.readline()
            if line in (b"\r\n", b""):
                break
            lines.append(line.decode().rstrip())
        length = next((int(line.split(":")[1]) for line in lines if line.startswith("Content-Length:")), 0)
        answer = self.hub.stdout.read(length).decode()
        if not lines or lines[0].split()[1] != str(status):
            sys.exit(f"{method} {path}: {lines[:1]} {answer}, not {status}")
        return lines, answer

    def seconds(self):
        """The processor time of the program, which has to end well."""
        self.hub.stdin.close()
        rest = self.hub.stdout.read()
        _, status, used = os.wait4(self.hub.pid, 0)
        self.hub.returncode = status
        if status or rest:
            sys.exit(f"status {status}, {rest!r}")
        return used.ru_utime + used.ru_stime


def nothing(hub):
    pass


def guests(hub):
    names = ",".join(f'"guest{n}"' for n in range(ASKED))
    hub.ask("POST", "/users", 201, f'{{"usernames":[{names}]}}')
    hub.ask("POST", "/users/ann/server", 201)


def tokens_made(hub, _):
    for _ in range(ASKED):
        hub.ask("POST", "/users/user1/tokens", 201, "{}")


def token_shown(hub, _):
    for _ in range(ASKED):
        hub.ask("GET", "/users/user1/tokens/70", 200)


def tokens_listed(hub, _):
    for _ in range(ASKED):
        hub.ask("GET", "/users/user1/tokens", 200)


def shares_granted(hub, _):
    for n in range(ASKED):
        hub.ask("POST", "/shares/ann/", 200, f'{{"user":"guest{n}"}}')


def with_code(hub):
    guests(hub)
    return json.loads(hub.ask("POST", "/share-codes/ann/", 201, "{}")[1])["code"]


def codes_accepted(hub, code):
    for n in range(ASKED):
        hub.ask("POST", f"/users/guest{n}/shared", 200, json.dumps({"code": code}))


def grants_traded(hub, _):
    query = "response_type=code&client_id=service:web&redirect_uri=/services/web/cb&state=s"
    for _ in range(ASKED):
        lines, _ = hub.ask("GET", f"/oauth2/authorize?{query}", 302)
        place = next(line for line in lines if line.startswith("Location:"))
        code = place.split("code=")[1].split("&")[0]
        form = (f"grant_type=authorization_code&code={code}&redirect_uri=/services/web/cb&client_id=service:web"
                "&client_secret=service-secret-web")
        hub.ask("POST", "/oauth2/token", 200, form, token=None)


def run(before, asked):
    hub = Session()
    made = before(hub)
    if asked:
        asked(hub, made)
    return hub.seconds()


for name, before, asked in [
    ("a token made", nothing, tokens_made),
    ("a token shown", nothing, token_shown),
    ("the 50 tokens of a user, of 1,000", nothing, tokens_listed),
    ("a share granted", guests, shares_granted),
    ("a code accepted", with_code, codes_accepted),
    ("a grant and its trade", nothing, grants_traded),
]:
    runs = [(run(before, None), run(before, asked)) for _ in range(ROUNDS)]
    least = min(whole for _, whole in runs) - min(base for base, _ in runs)
    print(f"{name}: {1e6 * least / ASKED:.1f} microseconds", flush=True)
PYTHON
