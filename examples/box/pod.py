"""The walls of a box by podman without root: the network, the list of calls and the bounds of `walls`, and the programs of an image in the
place of the machine's own. It wants a range of further users for the account (/etc/subuid), and the image that `image` makes."""
import asyncio, ctypes, json, os, pwd, shutil, subprocess
import bounds, walls

CLONE_NEWNS, MS_BIND = 0x00020000, 4096
# where podman finds the box's network: it has another one itself, so that no socket of its own is in the box's
NETWORK = "/run/network-of-the-box"
# of the account, before it is called root among the users of its own
HOME = pwd.getpwuid(os.getuid()).pw_dir
NEEDED = {"podman": "podman", "crun": "crun", "newuidmap": "uidmap", "catatonit": "catatonit"}
# what podman gives one that is called root in a box: nothing of the network, of mounts or of other programs' memory
RIGHTS = ["CHOWN", "DAC_OVERRIDE", "FOWNER", "FSETID", "KILL", "NET_BIND_SERVICE", "SETFCAP", "SETGID", "SETPCAP", "SETUID", "SYS_CHROOT"]


def lacks():
    """What keeps this account from having boxes by podman, and nothing where it has all."""
    if lack := walls.lacks_namespaces():
        return lack
    if lacking := [package for program, package in NEEDED.items() if not shutil.which(program)]:
        return f"{' '.join(lacking)} is missing: apt-get install --no-install-recommends {' '.join(NEEDED.values())}"
    if not all(further(kind) for kind in "ug"):
        return "this account has no further users: a line NAME:100000:65536 in /etc/subuid and /etc/subgid gives it some"
    return None


def further(kind):
    """The first of the further users, or groups, of this account, and how many there are."""
    names = {pwd.getpwuid(os.getuid()).pw_name, str(os.getuid())}
    try:
        with open(f"/etc/sub{kind}id") as file:
            return next((line.split(":")[1:] for line in file.read().split() if line.split(":")[0] in names), None)
    except OSError:
        return None


def enter_network():
    """As that of `walls`, with a range of users, and with mounts of its own: so podman's mounts are gone with its last program. Two
    programs with rights of root write the range; they are started before this program gives up ever to get such."""
    own, ranges, user, group = os.getpid(), {kind: further(kind) for kind in "ug"}, os.getuid(), os.getgid()
    reads, writes = os.pipe()
    child = os.fork()
    if not child:
        os.close(writes)
        os.read(reads, 1)
        for kind, number in (("u", user), ("g", group)):
            if subprocess.run([f"new{kind}idmap", str(own), "0", str(number), "1", "1", *ranges[kind]]).returncode:
                os._exit(1)
        os._exit(0)
    if walls.libc.unshare(walls.CLONE_NEWUSER):
        raise OSError(ctypes.get_errno(), "unshare")
    os.close(reads)
    os.close(writes)
    if os.waitpid(child, 0)[1]:
        raise OSError("newuidmap and newgidmap gave no further users")
    if walls.libc.unshare(walls.CLONE_NEWNET | CLONE_NEWNS):
        raise OSError(ctypes.get_errno(), "unshare")
    # crun keeps what it knows there
    cover("/run")
    # crun refuses a machine that has cgroups of both versions, also where it is to use none
    if os.path.exists("/sys/fs/cgroup/unified"):
        cover("/sys/fs/cgroup/unified")
    walls.put(NETWORK, "")
    if walls.libc.mount(b"/proc/self/ns/net", NETWORK.encode(), None, MS_BIND, None):
        raise OSError(ctypes.get_errno(), f"mount {NETWORK}")
    walls.set_up_network()


def cover(folder):
    """Puts an empty folder in memory there, which this program and podman see."""
    if walls.libc.mount(b"none", folder.encode(), b"tmpfs", 0, b"mode=755,size=16m"):
        raise OSError(ctypes.get_errno(), f"mount {folder}")


def list_of_calls():
    """The list of `walls`, as podman reads it."""
    rules = []
    for name, number, conditions in walls.refused():
        args = [{"index": index, "op": f"SCMP_CMP_{how}", "value": value, "valueTwo": second}
                for index, how, value, second in ((*it, 0)[:4] for it in conditions)]
        rules.append({"names": [name], "action": "SCMP_ACT_ERRNO", "errnoRet": number, "args": args})
    return {"defaultAction": "SCMP_ACT_ALLOW", "syscalls": rules}


class Store:
    """Where podman keeps what it knows of one box: with a store of its own a box shares no lock and no list with others, and the images
    alone with all. A box that was killed left it: the next one at its door clears it away."""

    def __init__(self, door):
        self.folder = f"{HOME}/.cache/box/{door}"
        shutil.rmtree(self.folder, ignore_errors=True)
        os.makedirs(self.folder, mode=0o700)

    def put(self, name, text):
        with open(f"{self.folder}/{name}", "w") as file:
            file.write(text)
        return f"{self.folder}/{name}"

    def environment(self):
        """What podman goes by: its own settings and no others of this machine or account."""
        images = f"{HOME}/.local/share/containers/storage"
        storage = {"driver": "overlay", "graphroot": f"{self.folder}/root", "runroot": f"{self.folder}/run"}
        told = "[storage]\n" + "".join(f"{key} = {json.dumps(value)}\n" for key, value in storage.items())
        told += f"[storage.options]\nadditionalimagestores = [{json.dumps(images)}]\n"
        engine = {"lock_type": "file", "events_logger": "none", "cgroup_manager": "cgroupfs", "runtime": "crun",
                  "tmp_dir": f"{self.folder}/tmp"}
        settings = "[containers]\ndefault_sysctls = []\n[engine]\n"
        settings += "".join(f"{key} = {json.dumps(value)}\n" for key, value in engine.items())
        return {"CONTAINERS_STORAGE_CONF": self.put("storage.conf", told), "CONTAINERS_CONF": self.put("containers.conf", settings),
                "XDG_RUNTIME_DIR": self.folder, "HOME": HOME}

    def clear(self):
        shutil.rmtree(self.folder, ignore_errors=True)


def words(given, bound, store):
    """The words of podman, within processes of its own that end with it."""
    home_inside = f"/home/{given.name}"
    told = ["--rm", "--init", f"--network=ns:{NETWORK}", "--cgroups=disabled", "--hostname=box", "--no-hosts", "--passwd=false",
            "--read-only", "--read-only-tmpfs=false", "--security-opt=no-new-privileges", "--security-opt=mask=/sys", "--log-driver=none",
            "--cap-drop=all", "--sig-proxy=false",
            f"--security-opt=seccomp={store.put('calls.json', json.dumps(list_of_calls()))}", f"--shm-size={bound['scratch']}m",
            f"--tmpfs=/tmp:rw,nosuid,nodev,mode=1777,size={bound['scratch']}m", f"--workdir={home_inside}", "--user=0:0"]
    if bound["root"]:
        told += [f"--cap-add={right}" for right in RIGHTS]
    for name, text in {**walls.own_etc(given.name, home_inside, 0, 0), "resolv.conf": ""}.items():
        told.append(f"--volume={store.put(f'etc-{name}', text)}:/etc/{name}:ro")
    for folder in bound["see"]:
        told.append(f"--volume={folder}:{folder}:ro")
    told.append(f"--volume={os.path.realpath(given.home)}:{home_inside}:rw,nosuid,nodev,rprivate")
    told += [f"--env={name}={value}" for name, value in walls.environment(given.name, home_inside).items()]
    alone = ["/usr/bin/unshare", "--net", "--pid", "--fork", "--kill-child", "--mount-proc", "--"]
    return [*bound["before"], *alone, "podman", "run", *told, bound["image"], *given.program]


def is_first(number):
    try:
        with open(f"/proc/{number}/status") as file:
            said = {name: value.split() for name, _, value in (line.partition(":") for line in file)}
    except OSError:
        return False
    return said["Name"] == ["podman-init"] and len(said["NSpid"]) > 2 and said["NSpid"][-1] == "1"


class Walls:
    """podman's words, what it goes by, and its first process."""

    def __init__(self, given, bound):
        self.store = Store(given.door)
        self.words, self.files, self.environment = words(given, bound, self.store), (), self.store.environment()

    async def first(self, monitor):
        """The box's first process, which podman's `--init` starts: the first one of processes within podman's own."""
        while monitor.returncode is None:
            for number in filter(is_first, bounds.below(monitor.pid)):
                return number
            await asyncio.sleep(0.02)
        # its program may have ended before it was seen: podman has statuses for what it couldn't do
        return None if monitor.returncode in (125, 126, 127) else monitor.pid

    def clear(self):
        self.store.clear()
