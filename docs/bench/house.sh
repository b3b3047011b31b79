#!/bin/sh
# A house: some hubs, each with a proxy of its own and up to 1,000 servers, small programs that take a connection and answer. All servers
# are started, 50 asked for at a time of each hub; the hubs are killed and started again; and the culler stops all. It says how long each
# takes, what hubs and proxies have of memory, and how long the longest of the requests took that somebody made every 20 ms meanwhile.
# usage: [HUB=PROGRAM] docs/bench/house.sh [HUBS] [SERVERS]. 1 hub with 1,000 servers without them, 10 hubs at most. It wants cc, python3,
# `ulimit -n 4096`, and ports from 10000 to 10000 + 1000 HUBS, and 30 from 8200 on. It stands outside the gate.
set -eu
here=$(cd "$(dirname "$0")" && pwd)
hubs=${1:-1} servers=${2:-1000} program=${HUB:-$here/../../crates/hub/out/hub}
folder=$(mktemp -d)
trap 'rm -rf "$folder"' EXIT
ulimit -n 4096

cat >"$folder/server.c" <<'END_OF_C'
/* The program of a server: it reads its secret, listens at the port that it is given, says `ready`, and answers each connection. */
#include <arpa/inet.h>
#include <stdlib.h>
#include <sys/socket.h>
#include <unistd.h>
int main(int count, char **words) {
    static const char reply[] = "HTTP/1.1 200 OK\r\nContent-Length: 3\r\nConnection: close\r\n\r\nyes";
    char text[4096];
    int port = count > 1 ? atoi(words[1]) : 0;
    struct sockaddr_in at = {.sin_family = AF_INET, .sin_port = htons(port), .sin_addr.s_addr = htonl(INADDR_LOOPBACK)};
    int yes = 1, door = socket(AF_INET, SOCK_STREAM, 0);
    if (port == 0 || read(0, text, sizeof text) < 1) return 1;
    setsockopt(door, SOL_SOCKET, SO_REUSEADDR, &yes, sizeof yes);
    if (bind(door, (struct sockaddr *)&at, sizeof at) || listen(door, 16) || write(1, "ready\n", 6) != 6) return 2;
    for (;;) {
        int line = accept(door, 0, 0);
        if (line < 0) continue;
        if (read(line, text, sizeof text) > 0 && write(line, reply, sizeof reply - 1) < 0) { /* the caller has left */ }
        close(line);
    }
}
END_OF_C
cc -O2 -static -o "$folder/server" "$folder/server.c"

cat >"$folder/house.py" <<'END_OF_PYTHON'
import concurrent.futures, http.client, json, os, re, signal, subprocess, sys, threading, time
FOLDER, PROGRAM, HUBS, SERVERS = sys.argv[1], os.path.realpath(sys.argv[2]), int(sys.argv[3]), int(sys.argv[4])
ADMIN = "token-of-the-admin"


class Department:
    def __init__(self, number):
        self.folder, self.port = f"{FOLDER}/{number}", 8200 + 3 * number
        os.mkdir(self.folder)
        first = 10000 + 1000 * number
        top = {"listen": f"127.0.0.1:{self.port}", "hub_url": f"http://127.0.0.1:{self.port}",
               "proxy_api": f"http://127.0.0.1:{self.port + 1}", "proxy_secret": "secret-of-the-proxy",
               "pool": [f"http://127.0.0.1:{first + seat}" for seat in range(SERVERS)], "command": [f"{FOLDER}/server", "{port}"]}
        text = "".join(f"{key} = {json.dumps(value)}\n" for key, value in top.items())
        text += f'[[users]]\nname = "admin"\nadmin = true\n[[tokens]]\nuser = "admin"\ntoken = "{ADMIN}"\n'
        text += "".join(f'[[users]]\nname = "u{it}"\n[[tokens]]\nuser = "u{it}"\ntoken = "token-of-u{it}"\n' for it in range(SERVERS))
        for name, told in (("hub.toml", text), ("secret", "secret-of-the-proxy\n"), ("token", ADMIN + "\n")):
            with open(f"{self.folder}/{name}", "w", opener=lambda path, flags: os.open(path, flags, 0o600)) as file:
                file.write(told)
        words = ["proxy", "--listen", f"127.0.0.1:{self.port + 2}", "--api", f"127.0.0.1:{self.port + 1}", "--secret-file", "secret"]
        self.proxy = subprocess.Popen([PROGRAM, *words], cwd=self.folder, stdout=subprocess.PIPE)
        if self.proxy.stdout.readline() != b"ready\n":
            sys.exit("the proxy isn't ready")

    def start(self):
        """Gives the seconds until the hub's first reply."""
        begun = time.monotonic()
        words = [PROGRAM, "serve", "--config", "hub.toml", "--db", "hub.db", "--no-trail", "--workers", "16"]
        with open(f"{self.folder}/log", "a") as log:
            self.hub = subprocess.Popen(words, cwd=self.folder, stdin=subprocess.PIPE, stdout=log, stderr=log)
        while self.hub.poll() is None:
            try:
                self.ask("GET", "/user")
                return time.monotonic() - begun
            except OSError:
                time.sleep(0.01)
        return sys.exit(f"the hub ended: {open(f'{self.folder}/log').read()[-500:]}")

    def ask(self, method, path, token=ADMIN):
        """The seconds that a call takes, with its status and text."""
        begun = time.monotonic()
        line = http.client.HTTPConnection("127.0.0.1", self.port, timeout=120)
        try:
            line.request(method, f"/hub/api{path}", headers={"Authorization": f"token {token}"})
            reply = line.getresponse()
            text = reply.read()
        finally:
            line.close()
        return time.monotonic() - begun, reply.status, text

    def ready(self):
        """How many servers the hub shows as ready."""
        found = 0
        for at in range(0, SERVERS + 1, 200):
            users = json.loads(self.ask("GET", f"/users?offset={at}&limit=200")[2])
            found += sum(it["ready"] for user in users for it in user["servers"].values())
        return found


class Somebody(threading.Thread):
    """Asks each hub who one is, every 20 ms."""
    def __init__(self, house):
        super().__init__(daemon=True)
        self.house, self.took, self.goes_on = house, [], True
        self.start()

    def run(self):
        while self.goes_on:
            for each in self.house:
                try:
                    self.took.append(each.ask("GET", "/user")[0])
                except OSError:
                    pass
            time.sleep(0.02)

    def end(self):
        self.goes_on = False
        self.join()
        took = sorted(self.took)
        longest, middle = took[-1] * 1000, took[len(took) // 2] * 1000
        return f"of {len(took)} requests meanwhile the longest took {longest:.0f} ms, half no more than {middle:.1f} ms"


def memory(program):
    with open(f"/proc/{program.pid}/smaps_rollup") as file:
        return int(re.search(r"^Pss: +(\d+)", file.read(), re.M)[1]) / 1024


def of_all(what, house, job):
    somebody, begun = Somebody(house), time.monotonic()
    with concurrent.futures.ThreadPoolExecutor(50 * len(house)) as pool:
        said = job(pool)
    print(f"{what}: {time.monotonic() - begun:.1f} s; {said}{somebody.end()}", flush=True)


def start_all(house):
    def job(pool):
        asked = [pool.submit(each.ask, "POST", f"/users/u{it}/server", f"token-of-u{it}") for it in range(SERVERS) for each in house]
        statuses = [it.result()[1] for it in asked]
        return f"{statuses.count(201)} were answered 201, of {len(statuses)}; "
    return job


def cull_all(house):
    def job(pool):
        words = [PROGRAM, "cull", "--token-file", "token", "--timeout", "1", "--rounds", "1", "--hub"]
        asked = [pool.submit(subprocess.run, [*words, f"http://127.0.0.1:{each.port}"], cwd=each.folder, capture_output=True, text=True)
                 for each in house]
        return "".join(f"{it.result().stdout.strip()}; " for it in asked)
    return job


def end_servers():
    """Kills the programs of servers that are left, where something failed."""
    for number in filter(str.isdigit, os.listdir("/proc")):
        try:
            if os.readlink(f"/proc/{number}/exe") == f"{FOLDER}/server":
                os.kill(int(number), signal.SIGKILL)
        except OSError:
            pass


def main():
    print(f"load before it: {os.getloadavg()[0]:.1f}, {os.cpu_count()} processors, {HUBS} hubs with {SERVERS} servers each")
    house = [Department(number) for number in range(HUBS)]
    try:
        for each in house:
            print(f"an opening over nothing, until its first reply: {each.start():.2f} s")
        of_all("all servers are started", house, start_all(house))
        print("memory of hubs and proxies, MB (Pss): " + ", ".join(f"{memory(it.hub):.1f} {memory(it.proxy):.1f}" for it in house))
        for each in house:
            each.hub.kill()
            each.hub.wait()
        for each in house:
            print(f"killed and started again, until its first reply: {each.start():.2f} s; {each.ready()} servers are ready")
        time.sleep(2)
        of_all("all are culled", house, cull_all(house))
        print(f"servers that are ready behind it: {[each.ready() for each in house]}")
    finally:
        for each in house:
            each.hub.kill()
            each.proxy.kill()
        end_servers()


main()
END_OF_PYTHON
python3 -B "$folder/house.py" "$folder" "$program" "$hubs" "$servers"
