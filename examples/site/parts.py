"""What the scripts of this folder share: where a site's files and ports are, its secrets, its programs, and how its hub is asked.
A site is one folder (SITE, ~/gorewhahu-site where that isn't set) and one row of ports from SITE_PORT on (8000), all at 127.0.0.1. The file
site.toml in its folder gives it names for browsers, an address for its front, and ports: examples/house/chem.toml has the keys.
Each program of a site has the variable GOREWHAHU_SITE, which names the folder: by it they are found, and ended."""
import json, os, re, secrets, signal, socket, sys, time, tomllib, urllib.error, urllib.request
from urllib.parse import urlsplit

HERE = os.path.dirname(os.path.realpath(__file__))
SITE = os.path.realpath(os.environ.get("SITE") or os.path.expanduser("~/gorewhahu-site"))
PROGRAM = os.path.realpath(os.environ.get("HUB") or f"{HERE}/../../crates/hub/out/hub")
ADDRESS, MARK = "127.0.0.1", "GOREWHAHU_SITE"
# how the words of an nginx that runs begin
FRONT = "nginx: "
SEATS = 36
# the keys of site.toml, and of what kind each is
KEYS = {"public": str, "servers": str, "listen": str, "port": int, "box": bool, "certificate": str, "key": str, "own_names": bool,
        "command": list, "sign_in": str}


def url(port, path=""):
    return f"http://{ADDRESS}:{port}{path}"


def stop_here(why):
    sys.exit(f"{os.path.basename(sys.argv[0])}: {why}")


def settings():
    """What the site's own file says, and nothing where there is none."""
    try:
        with open(f"{SITE}/site.toml", "rb") as file:
            told = tomllib.load(file)
    except FileNotFoundError:
        return {}
    except ValueError as fault:
        stop_here(f"{SITE}/site.toml: {fault}")
    if unknown := set(told) - set(KEYS):
        stop_here(f"{SITE}/site.toml: no key is {', '.join(sorted(unknown))}: examples/house/chem.toml has the keys")
    for key, value in told.items():
        if type(value) is not KEYS[key] or key == "command" and not all(isinstance(word, str) for word in value):
            kind = {str: "a text", int: "a number", bool: "true or false", list: "a list of texts"}[KEYS[key]]
            stop_here(f"{SITE}/site.toml: {key} is {kind}")
    if not re.fullmatch(r"password|pam:[\w-]+|header:[A-Za-z][A-Za-z0-9-]*", told.get("sign_in", "password")):
        stop_here(f"{SITE}/site.toml: sign_in is password, pam:SERVICE or header:NAME")
    see_names(told)
    return told


def see_names(told):
    """The names by which browsers come, and the certificate for them."""
    names = [told[key] for key in ("public", "servers") if key in told]
    if not all(re.fullmatch(r"https?://(127\.0\.0\.1|[a-z0-9.-]*[a-z][a-z0-9.-]*)(:[0-9]+)?", str(name)) for name in names):
        stop_here(f"{SITE}/site.toml: public and servers are as https://chem.example.org, a name, and no path behind it")
    if len(set(names)) != (2 if told.keys() & {"public", "servers", "listen"} else 0):
        stop_here(f"{SITE}/site.toml: public and servers are given together, also with listen, and differ")
    files = [told[key] for key in ("certificate", "key") if key in told]
    if len(files) == 1 or files and not all(name.startswith("https:") for name in names) or (files or told.get("own_names")) and not names:
        stop_here(f"{SITE}/site.toml: certificate and key are given together, with https in public and servers; own_names with these two")
    for file in files:
        if not os.access(file, os.R_OK):
            stop_here(f"{SITE}/site.toml: {file} can't be read: examples/house/certificate makes a certificate for a trial")


TOLD = settings()
PROXY = int(os.environ.get("SITE_PORT") or TOLD.get("port") or 8000)
API, HOME, HUB, SERVERS, ROLL, FIRST = (PROXY + more for more in (1, 80, 81, 90, 95, 1001))
# a server's guard listens at its target's port, and the notebook behind it so much higher
BEHIND = 100
# where the front listens, and where browsers find its pages and its servers: under two names, since a cookie is sent to all ports of one
LISTEN, PUBLIC = TOLD.get("listen", ADDRESS), TOLD.get("public", f"http://localhost:{HOME}")
PUBLIC_SERVERS = TOLD.get("servers", url(SERVERS))
if "certificate" in TOLD:
    # no other nginx stands before the front: it listens where browsers come
    HOME, SERVERS = (urlsplit(name).port or 443 for name in (PUBLIC, PUBLIC_SERVERS))


def read(name):
    with open(f"{SITE}/{name}") as file:
        return file.read()


def write(name, text):
    """A file that nobody else may read, put in place as a whole."""
    with open(f"{SITE}/{name}.new", "w", opener=lambda path, flags: os.open(path, flags, 0o600)) as file:
        file.write(text)
    os.replace(f"{SITE}/{name}.new", f"{SITE}/{name}")


def drawn(name, make):
    """What the file of this name has, drawn the first time."""
    if not os.path.exists(f"{SITE}/{name}"):
        write(name, json.dumps(make(), indent=1) + "\n")
    return json.loads(read(name))


def token():
    return secrets.token_hex(16)


def parent_of(number):
    """The number of a program's parent, and 0 where the program has ended, though its parent may not have asked for that yet."""
    try:
        with open(f"/proc/{number}/stat") as file:
            state, parent = file.read().rsplit(")", 1)[1].split()[:2]
    except OSError:
        return 0
    return 0 if state == "Z" else int(parent)


def words_of(number):
    """The words of a program of this site. nginx writes over its variables: it is known by its folder, also a worker without its master."""
    try:
        with open(f"/proc/{number}/environ", "rb") as file:
            ours = f"{MARK}={SITE}".encode() in file.read().split(b"\0")
        with open(f"/proc/{number}/cmdline", "rb") as file:
            words = file.read().decode(errors="replace").rstrip("\0").split("\0")
        ours = ours or words[0].startswith(FRONT) and os.readlink(f"/proc/{number}/cwd") == SITE
    except OSError:
        return None
    return words if words != [""] and ours else None


def processes():
    """The programs of this site, but the caller and those above it, by their number and words."""
    above = [os.getpid()]
    while above[-1] > 1:
        above.append(parent_of(above[-1]))
    numbers = [int(it) for it in os.listdir("/proc") if it.isdigit() and int(it) not in above]
    found = {number: words for number in numbers if (words := words_of(number))}
    return {**found, **{number: ["a child"] for number in numbers if number not in found and parent_of(number) in found}}


def running(name):
    """The number of the part of this name, if it runs."""
    try:
        number = int(read(f"{name}.pid"))
    except (OSError, ValueError):
        return None
    return number if number in processes() else None


def comes(holds, most):
    """Whether something comes true in so many seconds."""
    end = time.monotonic() + most
    while True:
        if holds():
            return True
        if time.monotonic() > end:
            return False
        time.sleep(0.1)


def is_open(port, address=ADDRESS):
    try:
        socket.create_connection((address, port), 2).close()
        return True
    except OSError:
        return False


def end(numbers, most=12):
    """Ends these programs: they are asked, and after so many seconds killed."""
    for how in (signal.SIGTERM, signal.SIGKILL):
        for number in numbers:
            try:
                os.kill(number, how)
            except OSError:
                pass
        if comes(lambda: not set(numbers) & set(processes()), most):
            return True
    return False


def ask(method, path, with_token=None, body=None, at=url(HUB, "/hub/api"), most=90):
    """The status of a call on the hub, and what its body says. No status where the hub can't be asked."""
    request = urllib.request.Request(at + path, method=method)
    if with_token:
        request.add_header("Authorization", f"token {with_token}")
    data = None if body is None else json.dumps(body).encode()
    try:
        with urllib.request.build_opener(urllib.request.ProxyHandler({})).open(request, data, most) as reply:
            status, text = reply.status, reply.read()
    except urllib.error.HTTPError as refused:
        status, text = refused.code, refused.read()
    except OSError:
        return None, None
    try:
        return status, json.loads(text) if text else None
    except ValueError:
        return status, None
