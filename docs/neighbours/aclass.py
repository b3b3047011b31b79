"""A class by examples/site in a folder and at ports of its own, for the scripts here that try what stands before a front or behind it: how
it is asked, and what is told of it. A script that wants a site.toml puts its text into the variable SITE_TOML before it imports this."""
import base64, http.client, json, os, shutil, signal, subprocess, sys, tempfile

HERE = os.path.dirname(os.path.realpath(__file__))
SCRIPTS, FRONT = (os.path.realpath(f"{HERE}/../../{it}") for it in ("examples/site", "front"))
os.environ["SITE_PORT"] = os.environ.get("FIRST_PORT") or "26000"
os.environ["SITE"] = os.path.realpath(tempfile.mkdtemp(prefix="neighbours-"))
with open(f"{os.environ['SITE']}/site.toml", "w") as file:
    file.write(os.environ.pop("SITE_TOML", ""))
sys.path[:0] = [SCRIPTS, FRONT]
from parts import FIRST, HOME, HUB, PROXY, PUBLIC, PUBLIC_SERVERS, SERVERS, SITE, ask, comes, end, is_open, processes, read, running, url

failed = []


def works(what, holds, saw=""):
    print(f"    {'works' if holds else 'FAILS'}  {what}{'' if holds else f': {saw}'}", flush=True)
    if not holds:
        failed.append(what)


def need(*files):
    if lacks := [it for it in files if not (os.path.exists(it) or shutil.which(it))]:
        sys.exit(f"these are missing: {', '.join(lacks)}")


def write(name, text, mode=0o600):
    with open(f"{SITE}/{name}", "w", opener=lambda path, flags: os.open(path, flags, mode)) as file:
        file.write(text)
    return f"{SITE}/{name}"


def begin(more=""):
    """Starts the class of examples/site with these lines behind its own."""
    with open(f"{SCRIPTS}/class.toml") as told:
        write("class.toml", told.read() + more)
    ran = script("start")
    works("the class starts", ran.returncode == 0, ran.stdout)
    return ran.returncode == 0


def script(name):
    quiet = {"stdin": subprocess.DEVNULL, "stdout": subprocess.PIPE, "stderr": subprocess.STDOUT}
    return subprocess.run([f"{SCRIPTS}/{name}"], **quiet, text=True, timeout=200)


def call(method, path, body=None, port=HOME, host=None, **headers):
    """The status of one request, its words and its headers; in the headers' names _ stands for -."""
    line = http.client.HTTPConnection("127.0.0.1", port, timeout=60)
    line.putrequest(method, path, skip_host=True, skip_accept_encoding=True)
    line.putheader("Host", host or PUBLIC.partition("://")[2])
    for name, value in {**headers, **({} if body is None else {"Content-Length": str(len(body))})}.items():
        line.putheader(name.replace("_", "-"), value)
    line.endheaders((body or "").encode())
    reply = line.getresponse()
    said = reply.status, reply.read().decode(errors="replace"), reply.headers
    line.close()
    return said


def basic(name, password):
    return "Basic " + base64.b64encode(f"{name}:{password}".encode()).decode()


def password(name):
    return json.loads(read("people"))[name]["password"]


def whose(headers):
    """Whom the hub knows by the cookie that such a reply sets, and None where it sets none."""
    given = (headers.get("Set-Cookie") or "").partition(";")[0]
    return json.loads(call("GET", "/hub/api/user", Cookie=given, Sec_Fetch_Site="same-origin")[1]).get("name") if given else None


def run(job):
    """Runs a script's job, ends what it started, and ends with status 1 where something fails."""
    signal.signal(signal.SIGTERM, lambda *_: sys.exit(1))
    try:
        job()
        ran = script("stop") if running("hub") else None
        works("the class stops", ran is None or ran.returncode == 0, ran and ran.stdout)
    finally:
        end(list(processes()))
        for name in sorted(os.listdir(f"{SITE}/log")) if failed and os.path.isdir(f"{SITE}/log") else []:
            with open(f"{SITE}/log/{name}") as log:
                print(f"--- the last lines of {name}:\n{''.join(log.readlines()[-8:])}", end="")
        shutil.rmtree(SITE, ignore_errors=True)
    print(f"{len(failed)} fail: {failed}" if failed else "all of it works")
    sys.exit(1 if failed else 0)
