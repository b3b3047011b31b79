#!/bin/sh
# What the commands that serve make of a request for memory that is refused while they serve: the first after they are ready, the second
# and so on, each in a run of its own, in which five callers come one after the other.
# usage: docs/bench/memory-serving.sh [PROGRAM [LAST [COMMAND..]]]
# PROGRAM is the program `hub` (crates/hub/out/hub if none is named: `./run` makes that), LAST (60) the greatest number of a request that is
# refused, COMMAND `serve`, `proxy` or `guard` (all three). The variable MANY (1) is how many requests in a row are refused. It needs a C
# compiler and Python, stands outside the gate, writes to a folder under TMPDIR, uses the ports from $PORT (18500) on, and tells how the
# callers were answered. A caller may get 507 (of a guard 503 too), or be let go without an answer; the one after all refusals has to be
# served as ever. It ends with status 1 where that isn't so, or a command has ended.
set -eu
top=$(cd "$(dirname "$0")/../.." && pwd)
program=${1:-$top/crates/hub/out/hub}
last=${2:-60}
[ $# -gt 1 ] && shift 2 || set --
[ $# -gt 0 ] || set -- serve proxy guard
exec python3 - "$top/docs/bench/refusal.c" "$program" "$last" "$@" <<'END'
import http.server, os, re, socket, subprocess, sys, tempfile, threading, time

refusal, program, last, commands = sys.argv[1], os.path.abspath(sys.argv[2]), int(sys.argv[3]), sys.argv[4:]
many = os.environ.get("MANY", "1")
FRONT = int(os.environ.get("PORT", "18500"))
API, BEHIND = FRONT + 1, FRONT + 2
WORDS = {
    "serve": ["serve", "--config", "hub.toml", "--no-trail", "--workers", "2"],
    "proxy": ["proxy", "--listen", f"127.0.0.1:{FRONT}", "--api", f"127.0.0.1:{API}", "--secret-file", "secret"],
    "guard": ["guard", "--listen", f"127.0.0.1:{FRONT}", "--for", "ann/", "--hub", f"http://127.0.0.1:{BEHIND}",
              "--target", f"http://127.0.0.1:{BEHIND}"],
}
CONFIG = f"""listen = "127.0.0.1:{FRONT}"
users = [{{ name = "ann" }}]
tokens = [{{ user = "ann", token = "secret-token-ann" }}]
"""


class Behind(http.server.BaseHTTPRequestHandler):
    """The server behind the proxy and the guard, and the hub that lets in whoever asks."""
    protocol_version = "HTTP/1.1"

    def do_GET(self):
        body = b'{"access":true}' if self.path.startswith("/hub/") else b"page"
        self.send_response(200)
        self.send_header("Content-Length", str(len(body)))
        self.end_headers()
        self.wfile.write(body)

    def log_message(self, *_):
        pass


def is_whole(text):
    head, _, body = text.partition(b"\r\n\r\n")
    length = re.search(rb"(?i)\r\ncontent-length: *(\d+)", head)
    return length and len(body) >= int(length[1])


def ask(port, request):
    """The status of the reply, or how the connection ended without one."""
    try:
        with socket.create_connection(("127.0.0.1", port), timeout=20) as peer:
            peer.sendall(request)
            text = b""
            while not is_whole(text) and (piece := peer.recv(65536)):
                text += piece
        return text[9:12].decode() or "let go"
    except TimeoutError:
        return "no answer"
    except OSError:
        return "let go"


def get():
    path = b"/hub/api/user" if command == "serve" else b"/page"
    return ask(FRONT, b"GET %s HTTP/1.1\r\nAuthorization: token secret-token-ann\r\n\r\n" % path)


def make_ready(one):
    """Waits until the command serves. What comes then is counted."""
    if command != "serve":
        one.stdout.readline()
    if command == "proxy":
        body = b'{"target":"http://127.0.0.1:%d"}' % BEHIND
        head = b"POST /api/routes/ HTTP/1.1\r\nAuthorization: token secret-of-the-proxy\r\nContent-Length: %d\r\n\r\n" % len(body)
        ask(API, head + body)
    until = time.monotonic() + 30
    while get() != "200":
        if time.monotonic() > until or one.poll() is not None:
            sys.exit(f"{command} doesn't serve: {one.poll()}")
        time.sleep(0.02)
    open(f"{folder}/when", "w").close()


def run(number):
    """How five callers were answered, and what is wrong, if anything."""
    if os.path.exists(f"{folder}/when"):
        os.remove(f"{folder}/when")
    outside = {"REFUSED": str(number), "MANY": many, "WHEN": f"{folder}/when", "LD_PRELOAD": f"{folder}/refusal.so"}
    one = subprocess.Popen([program, *WORDS[command]], cwd=folder, env=outside, stdin=subprocess.PIPE, stdout=subprocess.PIPE,
                           stderr=subprocess.PIPE)
    try:
        make_ready(one)
        told = [get() for _ in range(5)]
        if told[-1] != "200":
            time.sleep(1)
        ended = one.poll()
    finally:
        one.kill()
        said = one.communicate()[1].decode(errors="replace")
    if ended is not None:
        return told, f"it ended with status {ended}: {said.split('refused')[-1].strip()}"
    if told[-1] != "200" or "no answer" in told:
        return told, f"the callers were answered {', '.join(told)}"
    return told, None


def tell():
    """Goes through all numbers with one command, and gives how many of them went wrong."""
    count, wrong = {}, {}
    for number in range(1, last + 1):
        told, why = run(number)
        for each in told:
            count[each] = count.get(each, 0) + 1
        if why:
            wrong.setdefault(why, []).append(number)
    print(f"{command}: {last} runs, answers {', '.join(f'{name} {n} times' for name, n in sorted(count.items()))}", flush=True)
    for why, numbers in wrong.items():
        print(f"    with {', '.join(map(str, numbers))} refused {why}", flush=True)
    return sum(map(len, wrong.values()))


with tempfile.TemporaryDirectory() as folder:
    subprocess.run(["cc", "-O2", "-shared", "-fPIC", refusal, "-o", f"{folder}/refusal.so"], check=True)
    for name, text in [("secret", "secret-of-the-proxy\n"), ("hub.toml", CONFIG)]:
        with open(f"{folder}/{name}", "w") as file:
            file.write(text)
    behind = http.server.ThreadingHTTPServer(("127.0.0.1", BEHIND), Behind)
    threading.Thread(target=behind.serve_forever, daemon=True).start()
    wrong = 0
    for command in commands:
        wrong += tell()
sys.exit(1 if wrong else 0)
END
