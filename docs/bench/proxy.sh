#!/bin/sh
# What the proxy costs beside nginx and haproxy, over one upstream: processor time of a request and requests a second, at bodies of 0, 1
# KiB, 100 KiB and 10 MiB, with 1, 100 and 100,000 routes; and what 100,000 additions by the interface take.
# usage: docs/bench/proxy.sh PROGRAM [SECONDS [ROUNDS]]
# PROGRAM is the hub as `./run` links it (crates/hub/out/hub). It needs nginx, haproxy and wrk (Debian: nginx-light haproxy wrk), takes some
# four minutes at 2 seconds a measure and 5 rounds, stands outside the gate, and writes into a new folder under /tmp alone.
# nginx is measured with one worker, and with one for each processor, as Debian sets it up. All are asked in turn; each figure is the median
# of the rounds. The proxy's workers have been used once before, since a worker that is used for the first time takes its memory then.
set -eu
program=$(realpath "$1")
exec python3 - "$program" "${2:-2}" "${3:-5}" <<'PYTHON'
import json, os, re, shutil, socket, statistics, subprocess, sys, tempfile, time

program, seconds, rounds = sys.argv[1], sys.argv[2], int(sys.argv[3])
place = tempfile.mkdtemp(prefix="proxy_bench.")
SOURCE, NGINX, HAPROXY, PROXY, API, WIDE = 18500, 18501, 18502, 18503, 18504, 18505
SECRET = "bench-secret-of-the-proxy"
BODIES = {"0": 0, "1 KiB": 1024, "100 KiB": 102400, "10 MiB": 10485760}
running = []


def start(words, port, wanted=None):
    process = subprocess.Popen(words, cwd=place, stdout=subprocess.PIPE, stderr=open(place + "/err", "a"), text=True)
    running.append(process)
    if wanted and process.stdout.readline() != wanted:
        sys.exit(f"{words[0]} isn't ready")
    for _ in range(100):
        try:
            socket.create_connection(("127.0.0.1", port)).close()
            return process
        except OSError:
            time.sleep(0.05)
    sys.exit(f"{words[0]} doesn't listen")


def nginx(name, server, workers=1):
    temporary = "".join(f"{kind}_temp_path {place}/tmp; " for kind in ("client_body", "proxy", "fastcgi", "uwsgi", "scgi"))
    open(f"{place}/{name}.conf", "w").write(
        f"worker_processes {workers}; daemon off; pid {place}/{name}.pid; error_log {place}/{name}.err; worker_rlimit_nofile 65536;"
        f"events {{ worker_connections 8192; }} http {{ access_log off; {temporary} {server} }}")
    return ["nginx", "-c", f"{place}/{name}.conf"]


def tree(pid):
    """A process and those that it started."""
    found = [pid]
    for each in os.listdir("/proc"):
        if each.isdigit():
            try:
                fields = open(f"/proc/{each}/stat").read().rsplit(")", 1)[1].split()
            except OSError:
                continue
            if int(fields[1]) == pid:
                found += tree(int(each))
    return found


def spent(pid):
    """Its processor time in seconds, with that of the processes that it started."""
    total = 0
    for each in tree(pid):
        fields = open(f"/proc/{each}/stat").read().rsplit(")", 1)[1].split()
        total += int(fields[11]) + int(fields[12])
    return total / os.sysconf("SC_CLK_TCK")


def load(process, port, path, connections):
    """The processor time of a request in microseconds, and requests a second."""
    before = spent(process.pid)
    said = subprocess.run(
        ["wrk", "-t2", f"-c{connections}", f"-d{seconds}s", "-H", "Connection: close", f"http://127.0.0.1:{port}{path}"],
        capture_output=True, text=True).stdout
    count = int(re.search(r"(\d+) requests in", said)[1])
    rate = float(re.search(r"Requests/sec:\s*([\d.]+)", said)[1])
    failed = re.search(r"Non-2xx.*: (\d+)", said)
    if failed:
        sys.exit(f"{failed[1]} requests were refused at port {port}")
    return 1e6 * (spent(process.pid) - before) / max(count, 1), rate


def in_turn(everyone, ports, size, routes):
    """Asks all of them in turn, and prints the median of each."""
    seen = {who: [] for who in everyone}
    for _ in range(rounds):
        for who, process in everyone.items():
            seen[who].append(load(process, ports[who], f"/user/u0/{size}", 16))
    for who, all_of in seen.items():
        took, rate = (statistics.median(column) for column in zip(*all_of))
        spread = f"{min(all_of)[0]:.1f} to {max(all_of)[0]:.1f}"
        print(f"{routes:6} routes, body {size:8} {who:16} {took:9.1f} us ({spread}) {rate:9.0f}/s", flush=True)


def api(method, path, body=""):
    peer = socket.create_connection(("127.0.0.1", API))
    peer.sendall((f"{method} /api/routes{path} HTTP/1.1\r\nHost: h\r\nAuthorization: token {SECRET}\r\n"
                  f"Content-Length: {len(body)}\r\nConnection: close\r\n\r\n{body}").encode())
    got = b""
    while more := peer.recv(1 << 20):
        got += more
    return got.split(b"\r\n", 1)[0]


def memory(pid):
    return int(re.search(r"VmRSS:\s*(\d+)", open(f"/proc/{pid}/status").read())[1])


def add(first, last):
    entry = json.dumps({"target": f"http://127.0.0.1:{SOURCE}"})
    for number in range(first, last):
        if not api("POST", f"/user/u{number}", entry).startswith(b"HTTP/1.1 201"):
            sys.exit("an addition was refused")


def main():
    os.chmod(place, 0o755)
    os.makedirs(place + "/www/user/u0")
    os.makedirs(place + "/tmp")
    for name, size in BODIES.items():
        open(f"{place}/www/user/u0/{size}", "wb").write(b"x" * size)
    open(place + "/secret", "w").write(SECRET + "\n")
    served = f"server {{ listen 127.0.0.1:{SOURCE} backlog=4096; root {place}/www; }}"
    start(nginx("source", f"open_file_cache max=100; sendfile on; tcp_nopush on; {served}"), SOURCE)
    passes = f"backlog=4096; location / {{ proxy_pass http://127.0.0.1:{SOURCE}; }} }}"
    others = {
        "nginx, 1 worker": start(nginx("nginx", f"server {{ listen 127.0.0.1:{NGINX} {passes}"), NGINX),
        "nginx, as set up": start(nginx("wide", f"server {{ listen 127.0.0.1:{WIDE} {passes}", "auto"), WIDE),
    }
    open(place + "/haproxy.cfg", "w").write(
        "global\n nbthread 1\n maxconn 8192\ndefaults\n mode http\n option httpclose\n timeout connect 10s\n"
        " timeout client 30s\n timeout server 30s\n"
        f"listen all\n bind 127.0.0.1:{HAPROXY}\n server one 127.0.0.1:{SOURCE}\n")
    others["haproxy"] = start(["haproxy", "-f", place + "/haproxy.cfg"], HAPROXY)
    words = ["proxy", "--listen", f"127.0.0.1:{PROXY}", "--api", f"127.0.0.1:{API}", "--secret-file", place + "/secret"]
    ours = start([program, *words], PROXY, "ready\n")
    everyone = {**others, "ours": ours}
    ports = dict(zip(everyone, (NGINX, WIDE, HAPROXY, PROXY)))
    have = 0
    for routes in (1, 100, 100000):
        held, began, before = memory(ours.pid), time.monotonic(), spent(ours.pid)
        add(have, routes)
        took, work = time.monotonic() - began, spent(ours.pid) - before
        more = routes - have
        print(f"{more} additions: {1e6 * took / more:.0f} us each on the clock, {1e6 * work / more:.1f} us of processor time, "
              f"{1024 * (memory(ours.pid) - held) / more:.0f} bytes each", flush=True)
        have = routes
        if routes == 1:
            load(ours, PROXY, "/user/u0/0", 16)
        for size in BODIES.values():
            in_turn(everyone if routes == 1 else {"ours": ours}, ports, size, routes)


try:
    main()
finally:
    for process in running:
        process.terminate()
    for process in running:
        process.wait()
    shutil.rmtree(place)
PYTHON
