"""What the scripts of this folder share: the settings, where a job's files are, and how Slurm is asked.
The settings name a folder that the nodes see too. Each job has a folder of its own there, which its account alone may read:
    address   where the job's notebook will be found: the job writes it once its guard is ready
    there     the job writes it once its notebook answers
    secret    the server's secret, on its way to the job, which takes it away
    kept      what a server needs that takes the job over: written once the hub was told `ready`
    end       the job is to end, also where Slurm can't be asked"""
import fcntl, json, os, re, subprocess, sys, time, tomllib

HERE = os.path.dirname(os.path.realpath(__file__))
# the states of a job that has an end before it, and of one that has its node
LIVE = ("PENDING", "CONFIGURING", "RUNNING", "SUSPENDED", "STOPPED", "RESIZING", "SIGNALING", "STAGE_OUT")
NEEDED = {"folder", "homes", "program", "hub"}
OPTIONAL = {"name": "gorewhahu", "token_file": None, "wait": 50, "patience": 600, "look": 5, "activity": 60, "default": {}, "groups": [],
            "box": []}
ROOM = {"partition": "--partition", "memory": "--mem", "processors": "--cpus-per-task", "time": "--time"}


def stop_here(why):
    sys.exit(f"{os.path.basename(sys.argv[0])}: {why}")


def settings(file):
    """What the file says, with what it leaves out."""
    try:
        with open(file, "rb") as it:
            told = tomllib.load(it)
    except (OSError, ValueError) as fault:
        stop_here(f"{file}: {fault}")
    rooms = [told.get("default", {}), *told.get("groups", [])]
    strange = set(told) - NEEDED - set(OPTIONAL) | {key for room in rooms for key in room} - set(ROOM) - {"name"}
    if strange or NEEDED - set(told):
        stop_here(f"{file}: no key is {sorted(strange)}, and {sorted(NEEDED - set(told))} are wanting: slurm.toml has all keys")
    return {**OPTIONAL, **told, "file": os.path.realpath(file)}


def base_of(user, server):
    return f"/user/{user}/" + (f"{server}/" if server else "")


def job_name(told, user, server):
    """The name of a server's job. No name of a user or a server has these signs."""
    return f"{told['name']}:{user}+{server}"


def job_folder(told, job):
    folder = f"{told['folder']}/jobs/{job}"
    os.makedirs(folder, mode=0o700, exist_ok=True)
    return folder


def has(folder, name):
    """Whether a file is there. The folder is listed, since a shared file system may keep for long that a name wasn't there."""
    return name in os.listdir(folder)


def read(folder, name):
    with open(f"{folder}/{name}") as file:
        return file.read()


def write(folder, name, text):
    """A file that nobody else may read, put in place as a whole."""
    with open(f"{folder}/.{name}", "w", opener=lambda path, flags: os.open(path, flags, 0o600)) as file:
        file.write(text)
    os.replace(f"{folder}/.{name}", f"{folder}/{name}")


def take_away(folder, name):
    try:
        os.remove(f"{folder}/{name}")
    except FileNotFoundError:
        pass


def slurm(*words, most=20):
    """What a program of Slurm says. It gets none of the hub's variables, and so the job doesn't either."""
    kept = {name: os.environ[name] for name in ("HOME", "USER", "LANG", "SLURM_CONF") if name in os.environ}
    kept["PATH"] = "/usr/local/bin:/usr/bin:/bin:/usr/sbin:/sbin"
    ran = subprocess.run(words, stdin=subprocess.DEVNULL, capture_output=True, text=True, timeout=most, env=kept, cwd="/")
    if ran.returncode:
        raise OSError(f"{words[0]}: {(ran.stderr.strip().splitlines() or ['it said nothing'])[-1]}")
    return ran.stdout


def queue(told, since):
    """State, name and node of each job of this account by its number, as they were at that moment or later; None where Slurm can't be
    asked. Whoever comes first asks for all: a thousand servers ask Slurm no more often than one."""
    with open(f"{told['folder']}/queue", "a+", opener=lambda path, flags: os.open(path, flags, 0o600)) as file:
        fcntl.flock(file, fcntl.LOCK_EX)
        file.seek(0)
        text = file.read()
        if not text or os.fstat(file.fileno()).st_mtime < since:
            try:
                text = "known\n" + slurm("squeue", "--me", "--noheader", "--states=all", "--format=%A %T %j %N")
            except (OSError, subprocess.SubprocessError):
                text = "unknown\n"
            file.truncate(0)
            file.write(text)
    if text.startswith("unknown"):
        return None
    lines = [re.split(" +", line) for line in text.splitlines()[1:]]
    return {line[0]: line[1:] for line in lines if line[1] in LIVE or line[1] == "COMPLETING"}


def lives(told, job, since):
    """Whether a job has its end before it. Where Slurm can't be asked nothing is said to have ended."""
    found = queue(told, since)
    return found is None or job in found and found[job][0] in LIVE


def is_gone(told, job, since):
    """Whether nothing of a job runs any more."""
    found = queue(told, since)
    return found is not None and job not in found


def cancel(told, job):
    """Ends a job, by Slurm and by its folder. Says whether Slurm took it."""
    write(job_folder(told, job), "end", "")
    try:
        slurm("scancel", job, most=6)
    except (OSError, subprocess.SubprocessError):
        return False
    return True
