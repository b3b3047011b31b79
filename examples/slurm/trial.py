"""What the checks of examples/slurm and examples/hosts share: hosts as network namespaces of one machine, a hub with its proxy and the
watcher of examples/site, and people who enter their servers with a jar of cookies and run cells."""
import asyncio, http.cookiejar, json, os, shutil, signal, socket, subprocess, sys, tempfile, time, urllib.error, urllib.request
from urllib.parse import urljoin, urlsplit
import websockets

HERE = os.path.dirname(os.path.realpath(__file__))
PROGRAM = os.path.realpath(os.environ.get("HUB") or f"{HERE}/../../crates/hub/out/hub")
QUIET = {"stdin": subprocess.DEVNULL, "stdout": subprocess.PIPE, "stderr": subprocess.STDOUT, "text": True}
HOME, PROXY, API, HUB = "10.67.0.1", 8000, 8001, 8081
SENT = (301, 302, 303, 307, 308)
began = time.monotonic()


class Fault(Exception):
    """What isn't as it should be."""


def say(text):
    print(f"{time.monotonic() - began:6.1f} s  {text}", flush=True)


def check(what, holds, saw=""):
    if not holds:
        raise Fault(f"{what}: {saw}")
    say(f"ok  {what}")


def comes(holds, most):
    """Whether something comes true in so many seconds."""
    until = time.monotonic() + most
    while not (held := holds()) and time.monotonic() < until:
        time.sleep(0.2)
    return held


def run(*words, most=60, **more):
    ran = subprocess.run(words, **{**QUIET, **more}, timeout=most)
    if ran.returncode:
        raise Fault(f"{' '.join(words)}: {ran.returncode} {ran.stdout.strip()}")
    return ran.stdout.strip()


def alone(needs):
    """Begins this check again in a network, a row of processes and mounts of its own, which all end with it."""
    os.environ["PATH"] = "/usr/sbin:/usr/bin:/sbin:/bin"
    if missing := [package for it, package in needs.items() if not (shutil.which(it) or os.path.exists(it))]:
        sys.exit(f"these packages of Debian are missing: apt-get install --no-install-recommends {' '.join(missing)}")
    if not os.access(PROGRAM, os.X_OK):
        sys.exit(f"there is no program {PROGRAM}: run ./run at the top of the repository, or set HUB")
    if os.geteuid() != 0:
        sys.exit("this check makes networks and hosts: it wants root, on a machine for trials")
    if os.environ.get("TRIAL_ALONE") != "1":
        words = ["unshare", "--net", "--pid", "--mount", "--fork", "--kill-child", "--mount-proc", sys.executable, "-B", *sys.argv]
        os.execvpe("unshare", words, {**os.environ, "TRIAL_ALONE": "1"})
    run("mount", "-t", "tmpfs", "tmpfs", "/run")
    run("ip", "link", "set", "lo", "up")
    run("ip", "addr", "add", f"{HOME}/32", "dev", "lo")
    run("sysctl", "-q", "net.ipv4.ip_forward=0")


def make_host(name, number):
    """A host with an address of its own, which it gives: it reaches the hub's machine, and no other host."""
    near, far = f"10.67.{number}.1", f"10.67.{number}.2"
    run("ip", "netns", "add", name)
    run("ip", "link", "add", f"to-{name}", "type", "veth", "peer", "name", "eth0", "netns", name)
    run("ip", "addr", "add", f"{near}/30", "dev", f"to-{name}")
    run("ip", "link", "set", f"to-{name}", "up")
    for words in (f"addr add {far}/30 dev eth0", "link set eth0 up", "link set lo up", f"route add default via {near}"):
        run("ip", "-n", name, *words.split())
    return far


def kill_host(name):
    """Kills every program of a host."""
    for number in run("ip", "netns", "pids", name).split():
        try:
            os.kill(int(number), signal.SIGKILL)
        except ProcessLookupError:
            pass


def private(file, text, mode=0o600):
    with open(file, "w", opener=lambda path, flags: os.open(path, flags, mode)) as it:
        it.write(text)


class Hub:
    """A hub over a file, a proxy, and the watcher of examples/site, by an account, which the folder is given to."""
    def __init__(self, folder, command, seats, groups, account="root"):
        self.folder, self.hold, self.parts, self.copy = folder, None, {}, f"{folder}/secrets-that-were-drawn"
        self.who = {"user": account, "group": account, "extra_groups": [], "env": {**os.environ, "HOME": folder}}
        people = [name for names in groups.values() for name in names]
        # the program that is started keeps a copy of the secret, so that this check can look for it
        wrap = ("import os, sys; line = sys.stdin.buffer.readline(); open(sys.argv[1], 'ab').write(line); get, put = os.pipe(); "
                "os.write(put, line); os.close(put); os.dup2(get, 0); os.execv(sys.argv[2], sys.argv[2:])")
        top = {"listen": f"0.0.0.0:{HUB}", "hub_url": f"http://127.0.0.1:{HUB}", "proxy_api": f"http://127.0.0.1:{API}",
               "proxy_secret": "secret-of-the-proxy", "pool": [f"http://127.0.0.1:{9001 + seat}" for seat in range(seats)],
               "command": [sys.executable, "-c", wrap, self.copy, *command, "{port}", "{user}", "{server}"]}
        text = "".join(f"{key} = {json.dumps(value)}\n" for key, value in top.items())
        text += '[[users]]\nname = "operator"\nadmin = true\n[[tokens]]\nuser = "operator"\ntoken = "token-of-operator"\n'
        text += "".join(f'[[users]]\nname = "{name}"\n[[tokens]]\nuser = "{name}"\ntoken = "token-of-{name}"\n' for name in people)
        text += "".join(f"[[groups]]\nname = {json.dumps(group)}\nusers = {json.dumps(names)}\n" for group, names in groups.items())
        services = {"watcher": ["proxy", "delete:servers"], "groups": ["read:users:name", "read:users:groups"],
                    "culler": ["list:users", "read:users:activity", "read:servers", "delete:servers"]}
        for name, scopes in services.items():
            text += f'[[services]]\nname = "{name}"\n[[roles]]\nname = "{name}"\nscopes = {json.dumps(scopes)}\nservices = ["{name}"]\n'
            text += f'[[tokens]]\nservice = "{name}"\ntoken = "token-of-{name}"\n'
            private(f"{folder}/{name}-token", f"token-of-{name}\n")
        private(f"{folder}/hub.toml", text)
        private(f"{folder}/proxy-secret", "secret-of-the-proxy\n")
        run("chown", "-R", f"{account}:", folder)

    def launch(self, name, words, **more):
        with open(f"{self.folder}/{name}.log", "a") as log:
            ways = {**self.who, "stdout": log, "stderr": log, "cwd": self.folder, "start_new_session": True, **more}
            self.parts[name] = subprocess.Popen(words, **ways)

    def start_proxy(self):
        words = [PROGRAM, "proxy", "--listen", f"127.0.0.1:{PROXY}", "--api", f"127.0.0.1:{API}", "--secret-file", "proxy-secret"]
        self.launch("proxy", words)
        check("the proxy is there", comes(lambda: answers(API), 20))

    def start(self):
        """The hub ends where its standard input does: a pipe that this check holds."""
        reads, self.hold = os.pipe()
        words = [PROGRAM, "serve", "--config", "hub.toml", "--db", "hub.db", "--no-trail", "--workers", "16"]
        self.launch("hub", words, stdin=reads)
        os.close(reads)
        check("the hub serves", comes(lambda: ask("GET", "/")[0] == 200, 30), read_end(f"{self.folder}/hub.log"))

    def kill(self):
        self.parts["hub"].kill()
        self.parts["hub"].wait()
        os.close(self.hold)

    def watch(self, every):
        environment = {**self.who["env"], "SITE": self.folder, "SITE_PORT": str(PROXY), "SITE_WATCH": str(every)}
        words = [sys.executable, "-B", f"{HERE}/../site/watcher", "watcher-token"]
        self.launch("watcher", words, env=environment, stdin=subprocess.DEVNULL)

    def cull(self, idle):
        words = ["cull", "--hub", f"http://127.0.0.1:{HUB}", "--token-file", f"{self.folder}/culler-token", "--timeout", str(idle)]
        return run(PROGRAM, *words, "--rounds", "1", most=120, **self.who)

    def secrets(self):
        with open(self.copy) as file:
            return file.read().split()


def read_end(file):
    with open(file) as it:
        return it.read()[-600:]


def answers(port, host="127.0.0.1"):
    try:
        socket.create_connection((host, port), 2).close()
        return True
    except OSError:
        return False


class Stays(urllib.request.HTTPRedirectHandler):
    def redirect_request(self, *_):
        return None


def ask(method, path, name="operator", body=None):
    """A call on the hub by somebody's token: its status, and what it says."""
    headers = {"Authorization": f"token token-of-{name}"}
    data = None if body is None else json.dumps(body).encode()
    request = urllib.request.Request(f"http://127.0.0.1:{HUB}/hub/api{path}", data, headers, method=method)
    try:
        with urllib.request.build_opener(urllib.request.ProxyHandler({})).open(request, timeout=90) as reply:
            status, text = reply.status, reply.read()
    except urllib.error.HTTPError as refused:
        status, text = refused.code, refused.read()
    except OSError as fault:
        return None, str(fault)
    return status, json.loads(text or b"null")


class Person:
    """Somebody with a browser: it keeps cookies, and the hub, which a front stands before elsewhere, gets its user's token."""
    def __init__(self, name):
        self.name, self.jar, self.base = name, http.cookiejar.CookieJar(), f"http://127.0.0.1:{PROXY}/user/{name}/"
        handlers = urllib.request.ProxyHandler({}), Stays, urllib.request.HTTPCookieProcessor(self.jar)
        self.opener = urllib.request.build_opener(*handlers)
        self.kernel = None

    def get(self, method, url, body=None, **headers):
        request = urllib.request.Request(url, None if body is None else json.dumps(body).encode(), headers, method=method)
        if urlsplit(url).port == HUB:
            request.add_header("Authorization", f"token token-of-{self.name}")
        try:
            reply = self.opener.open(request, timeout=60)
        except urllib.error.HTTPError as refused:
            reply = refused
        with reply:
            return reply.status, reply.headers.get("Location"), reply.read().decode(errors="replace")

    def go(self, url):
        """Follows every redirect, from the hub back to the proxy. Gives where that ends, and the reply there."""
        for _ in range(20):
            status, where, text = self.get("GET", url)
            if status not in SENT:
                return url, status, text
            at = urljoin(url, where)
            path = at.split("/", 3)[3]
            url = f"http://127.0.0.1:{PROXY}/{path}" if path.startswith("user/") else at
        raise Fault(f"more than 20 redirects, at last to {url}")

    def start(self, wanted=201):
        since = time.monotonic()
        status, said = ask("POST", f"/users/{self.name}/server", self.name)
        what = f"{self.name}'s start is answered {wanted}, after {time.monotonic() - since:.1f} s"
        check(what, status == wanted, (status, said))
        return said

    def stop(self):
        since = time.monotonic()
        status, said = ask("DELETE", f"/users/{self.name}/server", self.name)
        check(f"{self.name}'s stop is answered 204, after {time.monotonic() - since:.1f} s", status == 204, (status, said))

    def last_use(self):
        """When the server was used last, as the hub has it."""
        return ask("GET", f"/users/{self.name}")[1]["servers"][""]["last_activity"]

    def work(self):
        """Runs a cell, until the hub was told of it. It keeps a use where the one before is 30 seconds old."""
        before = self.last_use()
        self.cell("print(1)")
        check(f"the hub is told that {self.name} works", comes(lambda: self.last_use() > before, 40), before)

    def is_shown(self):
        """Whether the hub shows this one's server as ready."""
        status, said = ask("GET", f"/users/{self.name}")
        return bool(status == 200 and said["servers"].get("", {}).get("ready"))

    def enter(self):
        last, status, text = self.go(f"{self.base}tree")
        shown = status == 200 and last == f"{self.base}tree" and "notebook_list" in text
        check(f"{self.name} enters the notebook, by the sign-in", shown, (status, last, text[:300]))

    def cell(self, code):
        """What a cell prints, in a kernel that stays."""
        if self.kernel is None:
            token = next(it.value for it in self.jar if it.name == "_xsrf")
            headers = {"X-XSRFToken": token, "Content-Type": "application/json"}
            status, _, text = self.get("POST", f"{self.base}api/kernels", {"name": "python3"}, **headers)
            check(f"{self.name} gets a kernel", status == 201, (status, text[:300]))
            self.kernel = json.loads(text)["id"]
        return asyncio.run(asyncio.wait_for(self.printed(code), 90))

    async def printed(self, code):
        url = f"{self.base}api/kernels/{self.kernel}/channels?session_id=1"
        request = urllib.request.Request(url)
        self.jar.add_cookie_header(request)
        sent = {"origin": f"http://127.0.0.1:{PROXY}", "extra_headers": {"Cookie": request.get_header("Cookie")}}
        own = os.urandom(8).hex()
        header = {"msg_id": own, "username": self.name, "session": "1", "msg_type": "execute_request", "version": "5.3"}
        content = {"code": code, "silent": False, "store_history": False, "user_expressions": {}, "allow_stdin": False}
        async with websockets.connect(url.replace("http:", "ws:"), open_timeout=60, **sent) as line:
            await line.send(json.dumps({"header": header, "parent_header": {}, "metadata": {}, "content": content, "channel": "shell"}))
            said = {"msg_type": "none"}
            while said["msg_type"] not in ("stream", "error") or said["parent_header"].get("msg_id") != own:
                said = json.loads(await line.recv())
        return said["content"].get("text", said["content"].get("evalue", "")).strip()


def shows(secrets):
    """The programs of this machine and its hosts in whose words or variables one of these stands."""
    found = []
    for number in filter(str.isdigit, os.listdir("/proc")):
        for kind in ("cmdline", "environ"):
            try:
                with open(f"/proc/{number}/{kind}", "rb") as file:
                    text = file.read()
            except OSError:
                continue
            found += [(number, kind) for secret in secrets if secret.encode() in text]
    return found


def begin(name):
    folder = os.path.realpath(tempfile.mkdtemp(prefix=f"{name}-"))
    signal.signal(signal.SIGTERM, lambda *_: sys.exit(1))
    return folder


def goes(folder, day):
    """Goes through the day. All programs end with this check's row of processes; the folder stays where something isn't as it should be."""
    try:
        day()
    except (Fault, OSError, subprocess.SubprocessError, websockets.WebSocketException, asyncio.TimeoutError) as fault:
        say(f"not as it should be: {fault!r} (what all said: {folder})")
        sys.exit(1)
    shutil.rmtree(folder, ignore_errors=True)
    say("all is as it should be")
