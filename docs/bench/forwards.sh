#!/bin/sh
# What the proxy does over real sockets, which no clause can say: GET, HEAD, POST of 10 MiB, chunks both ways, 204 and 304, clients and
# targets that go away, 200 idle clients beside one that is served, and the interface of the routes.
# usage: docs/bench/forwards.sh PROGRAM
# PROGRAM is the hub as `./run` links it (crates/hub/out/hub). It takes some seconds, stands outside the gate, and writes into a new folder
# under /tmp alone. It ends with status 1 at the first thing that isn't as it should be.
set -eu
program=$(realpath "$1")
exec python3 - "$program" <<'PYTHON'
import http.client, http.server, json, os, shutil, socket, subprocess, sys, tempfile, threading, time

program = sys.argv[1]
place = tempfile.mkdtemp(prefix="forwards.")
SOURCE, PROXY, API = 18510, 18511, 18512
SECRET = "secret-of-the-proxy"
BIG = os.urandom(10485760)


class Source(http.server.BaseHTTPRequestHandler):
    protocol_version = "HTTP/1.1"

    def log_message(self, *words):
        pass

    def reply(self, status, body, headers=()):
        self.send_response(status)
        for name, value in headers:
            self.send_header(name, value)
        if status not in (204, 304):
            self.send_header("Content-Length", str(len(body)))
        self.end_headers()
        if self.command != "HEAD":
            self.wfile.write(body)

    def chunks(self):
        got = b""
        while size := int(self.rfile.readline(), 16):
            got += self.rfile.read(size)
            self.rfile.readline()
        self.rfile.readline()
        return got

    def do_GET(self):
        if self.path.endswith("/none"):
            self.reply(204, b"")
        elif self.path.endswith("/same"):
            self.reply(304, b"")
        elif self.path.endswith("/big"):
            self.reply(200, BIG)
        elif self.path.endswith("/chunked"):
            self.send_response(200)
            self.send_header("Transfer-Encoding", "chunked")
            self.end_headers()
            for at in range(0, 100000, 10000):
                self.wfile.write(b"%x\r\n" % 10000 + BIG[at : at + 10000] + b"\r\n")
            self.wfile.write(b"0\r\n\r\n")
        elif self.path.endswith("/leaves"):
            self.send_response(200)
            self.send_header("Content-Length", "1000")
            self.end_headers()
            self.wfile.write(b"half")
            self.close_connection = True
        else:
            self.reply(200, json.dumps([self.path, self.headers.get("Connection"), self.headers.get("X-Own")]).encode())

    do_HEAD = do_GET

    def do_POST(self):
        coded = self.headers.get("Transfer-Encoding") == "chunked"
        self.reply(200, self.chunks() if coded else self.rfile.read(int(self.headers["Content-Length"])))


def ask(method, path, body=None, headers={}, port=PROXY):
    peer = http.client.HTTPConnection("127.0.0.1", port, timeout=20)
    peer.request(method, path, body, headers, encode_chunked=not isinstance(body, (bytes, str, type(None))))
    reply = peer.getresponse()
    return reply.status, reply.read(), reply


def api(method, path, body=None, secret=SECRET):
    return ask(method, "/api/routes" + path, body, {"Authorization": f"token {secret}"}, API)[:2]


def shows(what, wanted):
    began = time.monotonic()
    if not wanted():
        sys.exit(f"not as it should be: {what}")
    print(f"{what}: {1000 * (time.monotonic() - began):.0f} ms", flush=True)


def begun(text):
    peer = socket.create_connection(("127.0.0.1", PROXY))
    peer.settimeout(20)
    peer.sendall(text)
    return peer


def everything(peer):
    got = b""
    while more := peer.recv(65536):
        got += more
    return got


def leaves():
    for _ in range(20):
        peer = begun(b"GET /user/ann/big HTTP/1.1\r\nHost: h\r\n\r\n")
        peer.recv(1000)
        peer.close()
    return ask("GET", "/user/ann/none")[0] == 204


def beside_idle():
    idle = [begun(b"") for _ in range(200)]
    halves = [begun(b"GET /user/a") for _ in range(200)]
    good = ask("GET", "/user/ann/none")[0] == 204
    for peer in idle + halves:
        peer.close()
    return good


def at_once():
    good = []
    threads = [threading.Thread(target=lambda: good.append(ask("GET", "/user/ann/chunked")[1] == BIG[:100000])) for _ in range(200)]
    for thread in threads:
        thread.start()
    for thread in threads:
        thread.join()
    return good == [True] * 200


def main():
    open(place + "/secret", "w").write(SECRET + "\n")
    source = http.server.ThreadingHTTPServer(("127.0.0.1", SOURCE), Source)
    source.handle_error = lambda *words: None
    source.request_queue_size = 1024
    source.socket.listen(1024)
    threading.Thread(target=source.serve_forever, daemon=True).start()
    words = [program, "proxy", "--listen", f"127.0.0.1:{PROXY}", "--api", f"127.0.0.1:{API}", "--secret-file", place + "/secret"]
    global process
    process = subprocess.Popen(words, stdout=subprocess.PIPE, text=True)
    if process.stdout.readline() != "ready\n":
        sys.exit("the proxy isn't ready")
    target = json.dumps({"target": f"http://127.0.0.1:{SOURCE}", "serial": 8, "note": "x"})
    dead = json.dumps({"target": "http://127.0.0.1:18519"})
    shows("no route yet", lambda: ask("GET", "/user/ann/x")[0] == 404)
    shows("no token", lambda: api("GET", "", secret="another-secret")[0] == 403)
    shows("an addition", lambda: api("POST", "/user/ann", target)[0] == 201)
    shows("a stale addition", lambda: api("POST", "/user/ann", target.replace("8,", "7,"))[0] == 409)
    shows("another addition", lambda: api("POST", "/user/dead", dead)[0] == 201)
    shows("the listing", lambda: json.loads(api("GET", "")[1])["/user/ann"]["note"] == "x")
    shows("a GET", lambda: json.loads(ask("GET", "/user/ann/lab?x=1", headers={"X-Own": "mine", "Connection": "keep-alive"})[1])
          == ["/user/ann/lab?x=1", "close", "mine"])
    shows("not another's path", lambda: ask("GET", "/user/anna/lab")[0] == 404)
    shows("a HEAD", lambda: ask("HEAD", "/user/ann/big")[2].getheader("Content-Length") == str(len(BIG)))
    shows("204", lambda: ask("GET", "/user/ann/none")[0] == 204)
    shows("304", lambda: ask("GET", "/user/ann/same")[0] == 304)
    shows("10 MiB back", lambda: ask("GET", "/user/ann/big")[1] == BIG)
    shows("10 MiB both ways", lambda: ask("POST", "/user/ann/echo", BIG)[1] == BIG)
    shows("chunks back", lambda: ask("GET", "/user/ann/chunked")[1] == BIG[:100000])
    shows("chunks both ways", lambda: ask("POST", "/user/ann/echo", iter([BIG[:50000], BIG[50000:70000]]),
                                          {"Transfer-Encoding": "chunked"})[1] == BIG[:70000])
    bad = b"POST /user/ann/x HTTP/1.1\r\nHost: h\r\nTransfer-Encoding: chunked\r\n\r\ng\r\n"
    shows("a bad chunk", lambda: everything(begun(bad)).startswith(b"HTTP/1.1 400"))
    shows("a target that isn't there", lambda: ask("GET", "/user/dead/x")[0] == 503)
    shows("a target that goes away", lambda: everything(begun(b"GET /user/ann/leaves HTTP/1.1\r\nHost: h\r\n\r\n")).endswith(b"half"))
    shows("clients that go away", leaves)
    shows("400 idle clients", beside_idle)
    shows("200 at once", at_once)
    shows("a deletion", lambda: api("DELETE", "/user/ann?serial=9")[0] == 204)
    shows("and its route", lambda: ask("GET", "/user/ann/x")[0] == 404)


process = None
try:
    main()
finally:
    if process:
        process.terminate()
        process.wait()
    shutil.rmtree(place)
PYTHON
