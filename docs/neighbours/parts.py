"""What the scripts of this folder share: a folder and ports of their own, programs that end with them, and requests."""
import http.client, json, os, shutil, signal, socket, subprocess, sys, tempfile, time

PROGRAM = os.path.realpath(os.environ.get("HUB") or f"{os.path.dirname(os.path.realpath(__file__))}/../../crates/hub/out/hub")
FIRST = int(os.environ.get("FIRST_PORT") or 26000)
failed, children = [], []
folder = tempfile.mkdtemp(prefix="neighbours-")


def works(what, holds, saw=""):
    print(f"    {'works' if holds else 'FAILS'}  {what}{'' if holds else f': {saw}'}", flush=True)
    if not holds:
        failed.append(what)


def need(*files):
    if lacks := [it for it in files if not (os.path.exists(it) or shutil.which(it))]:
        sys.exit(f"these are missing: {', '.join(lacks)}")


def write(name, text):
    with open(f"{folder}/{name}", "w", opener=lambda path, flags: os.open(path, flags, 0o600)) as file:
        file.write(text)
    return f"{folder}/{name}"


def start(name, words, **environment):
    """A program with a log of its own, and a standard input that stays open until the end."""
    log = open(f"{folder}/{name}.log", "w")
    child = subprocess.Popen(words, stdin=subprocess.PIPE, stdout=log, stderr=log, cwd=folder, start_new_session=True,
                             env={**os.environ, **environment})
    children.append(child)
    return child


def comes(holds, most):
    until = time.monotonic() + most
    while time.monotonic() < until:
        if holds():
            return True
        time.sleep(0.2)
    return False


def is_open(port):
    try:
        socket.create_connection(("127.0.0.1", port), 2).close()
        return True
    except OSError:
        return False


def ask(port, method, path, token=None, body=None, most=90, **headers):
    """The status, the text and the headers of one request. No status where there is no answer."""
    line = http.client.HTTPConnection("127.0.0.1", port, timeout=most)
    if token:
        headers["Authorization"] = f"token {token}"
    try:
        line.request(method, path, None if body is None else json.dumps(body), {name.replace("_", "-"): it for name, it in headers.items()})
        reply = line.getresponse()
        return reply.status, reply.read().decode(errors="replace"), reply.headers
    except (OSError, http.client.HTTPException) as fault:
        return None, repr(fault), {}
    finally:
        line.close()


def left():
    """The programs that a hub started from this folder and couldn't end."""
    for number in filter(str.isdigit, os.listdir("/proc")):
        try:
            with open(f"/proc/{number}/cmdline") as words:
                if folder in words.read() and int(number) != os.getpid():
                    yield int(number)
        except OSError:
            pass


def run(job):
    """Runs a script's job, ends what it started, and ends with status 1 where something fails."""
    try:
        job()
    finally:
        for child in reversed(children):
            for how in (signal.SIGTERM, signal.SIGKILL):
                try:
                    os.killpg(child.pid, how)
                    child.wait(12)
                    break
                except (OSError, subprocess.TimeoutExpired):
                    pass
        for number in left():
            os.kill(number, signal.SIGKILL)
        for name in sorted(os.listdir(folder)) if failed else []:
            if name.endswith(".log"):
                with open(f"{folder}/{name}") as log:
                    print(f"--- the last lines of {name}:\n{''.join(log.readlines()[-8:])}", end="")
        shutil.rmtree(folder, ignore_errors=True)
    print(f"{len(failed)} fail: {failed}" if failed else "all of it works")
    sys.exit(1 if failed else 0)
