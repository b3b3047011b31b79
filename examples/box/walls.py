"""The walls of a box: a network of its own, and by bubblewrap files, processes and system calls of its own. `pod` has those by podman."""
import asyncio, ctypes, errno, fcntl, json, os, shutil, signal, socket, struct, tempfile

CLONE_NEWUSER, CLONE_NEWNET = 0x10000000, 0x40000000
PACKAGES = "apt-get install --no-install-recommends bubblewrap python3-seccomp"
PR_SET_PDEATHSIG, PR_SET_CHILD_SUBREAPER, PR_SET_NO_NEW_PRIVS = 1, 36, 38
SIOCSIFFLAGS, IFF_UP = 0x8914, 1
libc = ctypes.CDLL(None, use_errno=True)

# of /etc a program needs these, and gets no other file of it
ETC = ["alternatives", "ca-certificates", "fonts", "ssl/certs", "ld.so.cache", "ld.so.conf", "ld.so.conf.d", "localtime", "mime.types",
       "jupyter", "ipython", "python3", "python3.11", "bash.bashrc", "inputrc", "profile", "terminfo", "magic", "R", "matplotlibrc"]

# Calls that a notebook doesn't need, and by which more of the kernel is reached than by others. Namespaces and mounts are among them, so
# that nobody becomes root of a box within the box; what looks into other programs; memory that belongs to no program; and the clock.
REFUSED = """acct add_key bpf chroot clock_adjtime clock_settime delete_module fanotify_init finit_module fsconfig fsmount fsopen fspick
get_mempolicy init_module io_uring_enter io_uring_register io_uring_setup ioperm iopl kcmp kexec_file_load kexec_load keyctl lookup_dcookie
mbind memfd_create memfd_secret migrate_pages mount mount_setattr move_mount move_pages name_to_handle_at nfsservctl open_by_handle_at
open_tree perf_event_open personality pivot_root process_madvise process_vm_readv process_vm_writev ptrace quotactl quotactl_fd reboot
request_key sched_setaffinity set_mempolicy setdomainname sethostname setns settimeofday
shmget swapoff swapon sysfs syslog umount umount2 unshare uselib userfaultfd ustat vhangup vm86 vm86old""".split()

# clone may make processes and threads, and none of these: NEWNS, NEWCGROUP, NEWUTS, NEWIPC, NEWUSER, NEWPID, NEWNET
NAMESPACES = [0x00020000, 0x02000000, 0x04000000, 0x08000000, 0x10000000, 0x20000000, 0x40000000]
# ioctls that put words into somebody's terminal
TIOCSTI, TIOCLINUX = 0x5412, 0x541C


def lacks():
    """What keeps this machine from having boxes, and nothing where it has all."""
    if not shutil.which("bwrap"):
        return f"bubblewrap is missing: {PACKAGES}"
    try:
        import seccomp
    except ImportError:
        return f"python3-seccomp is missing: {PACKAGES}"
    return lacks_namespaces()


def lacks_namespaces():
    """What each kind of box wants: an account that isn't root, and namespaces."""
    if os.getuid() == 0:
        return "root gets no box, since its files would stand open in it: start this by an account that isn't root"
    child = os.fork()
    if not child:
        try:
            enter_network()
            os._exit(0)
        except OSError:
            os._exit(1)
    if os.waitpid(child, 0)[1]:
        return "the kernel lets no account make namespaces: see sysctl kernel.unprivileged_userns_clone and user.max_user_namespaces"
    return None


def listen(port):
    listener = socket.create_server(("127.0.0.1", port), backlog=128)
    listener.setblocking(False)
    return listener


def put(file, text):
    with open(file, "w") as it:
        it.write(text)


def enter_network():
    """Moves this program into a network with nothing but a 127.0.0.1 of its own. The box's programs are in it too, in user namespaces
    below that of this one: so they can't change it, root neither. What is open already stays in the network of the machine."""
    user, group = os.getuid(), os.getgid()
    if libc.unshare(CLONE_NEWUSER | CLONE_NEWNET):
        raise OSError(ctypes.get_errno(), "unshare")
    put("/proc/self/uid_map", f"{user} {user} 1")
    put("/proc/self/setgroups", "deny")
    put("/proc/self/gid_map", f"{group} {group} 1")
    set_up_network()


def set_up_network():
    """Starts the network's 127.0.0.1, gives up ever to get rights of others, and takes on whoever loses the process above itself."""
    with socket.socket(socket.AF_INET, socket.SOCK_DGRAM) as any_socket:
        fcntl.ioctl(any_socket, SIOCSIFFLAGS, struct.pack("16sh14x", b"lo", IFF_UP))
    for what in (PR_SET_NO_NEW_PRIVS, PR_SET_CHILD_SUBREAPER):
        if libc.prctl(what, 1, 0, 0, 0):
            raise OSError(ctypes.get_errno(), "prctl")


def end_with(parent):
    """Runs in a new process: it is killed where its parent ends, also in the moment before bubblewrap says so itself."""
    libc.prctl(PR_SET_PDEATHSIG, signal.SIGKILL, 0, 0, 0)
    if os.getppid() != parent:
        os._exit(1)


def refused():
    """Each rule of the list of calls: a name, what it is answered by, and for which words it holds, each an index and how it compares."""
    for name in REFUSED:
        yield name, errno.EPERM, []
    for flag in NAMESPACES:
        yield "clone", errno.EPERM, [(0, "MASKED_EQ", flag, flag)]
    # its flags are in memory, where no list can look: programs take clone in its place
    yield "clone3", errno.ENOSYS, []
    for request in (TIOCSTI, TIOCLINUX):
        yield "ioctl", errno.EPERM, [(1, "MASKED_EQ", 0xFFFFFFFF, request)]
    # sockets within the box and of its network, and what asks for addresses: AF_UNIX 1, AF_INET 2, AF_INET6 10, AF_NETLINK 16
    for family in (*range(3, 10), *range(11, 16)):
        yield "socket", errno.EAFNOSUPPORT, [(0, "EQ", family)]
    for how, family in (("LT", 1), ("GE", 17)):
        yield "socket", errno.EAFNOSUPPORT, [(0, how, family)]


def filter_file():
    """The number of a file with the list of system calls, as the kernel reads it. It says no rather than kill: programs go on without."""
    import seccomp
    made = seccomp.SyscallFilter(seccomp.ALLOW)
    for name, number, conditions in refused():
        args = [seccomp.Arg(index, getattr(seccomp, how), *values) for index, how, *values in conditions]
        try:
            made.add_rule(seccomp.ERRNO(number), name, *args)
        except RuntimeError:
            # this libseccomp or this processor has no such call
            continue
    with tempfile.TemporaryFile() as file:
        made.export_bpf(file)
        file.seek(0)
        return file_of(file.read())


def file_of(data):
    """The number of a file that has these bytes, for bubblewrap to read."""
    number = os.memfd_create("for-bubblewrap", 0)
    os.write(number, data)
    os.lseek(number, 0, os.SEEK_SET)
    return number


def own_etc(name, home, user, group):
    """The few files of /etc that a box has as its own."""
    return {"passwd": f"{name}:x:{user}:{group}::{home}:/bin/bash\n", "group": f"{name}:x:{group}:\n", "hosts": "127.0.0.1 localhost box\n",
            "nsswitch.conf": "passwd: files\ngroup: files\nhosts: files\n", "hostname": "box\n"}


def environment(name, home):
    return {"HOME": home, "USER": name, "PATH": "/usr/local/bin:/usr/bin:/bin", "LANG": "C.UTF-8", "SHELL": "/bin/bash"}


def files_of_the_box(given, bound, home):
    """Which files the box has: the system's programs, a few of /etc, its home, and scratch in memory. It can change the last two alone."""
    told = ["--ro-bind", "/usr", "/usr"]
    for name in ("bin", "lib", "lib64", "sbin"):
        told += ["--symlink", f"usr/{name}", f"/{name}"]
    for name in ETC:
        told += ["--ro-bind-try", f"/etc/{name}", f"/etc/{name}"]
    for folder in bound["see"]:
        told += ["--ro-bind", folder, folder]
    scratch = bound["scratch"] << 20
    told += ["--proc", "/proc", "--dev", "/dev", "--size", scratch, "--tmpfs", "/dev/shm", "--remount-ro", "/dev", "--size", scratch,
             "--tmpfs", "/tmp", "--dir", "/run", "--symlink", "/tmp", "/var/tmp"]
    return told + ["--bind", os.path.realpath(given.home), home]


def words(given, bound, info):
    """The words of bubblewrap, and the files that it reads. Its options are in such a file too, since the box sees its words."""
    home, user, group = f"/home/{given.name}", 0 if bound["root"] else os.getuid(), 0 if bound["root"] else os.getgid()
    told = ["--unshare-user", "--unshare-pid", "--unshare-ipc", "--unshare-uts", "--unshare-cgroup-try", "--disable-userns", "--uid", user,
            "--gid", group, "--hostname", "box", "--die-with-parent", "--new-session", *files_of_the_box(given, bound, home)]
    files = [filter_file()]
    for name, text in own_etc(given.name, home, user, group).items():
        files.append(file_of(text.encode()))
        told += ["--perms", "0444", "--ro-bind-data", files[-1], f"/etc/{name}"]
    if bound["root"]:
        told += ["--cap-add", "ALL"]
    told += ["--remount-ro", "/", "--chdir", home, "--clearenv"]
    for name, value in environment(given.name, home).items():
        told += ["--setenv", name, value]
    told += ["--seccomp", files[0], "--info-fd", info]
    files.append(file_of("\0".join(map(str, told)).encode()))
    return [*bound["before"], "bwrap", "--args", str(files[-1]), "--", *given.program], files


class Walls:
    """bubblewrap's words, the files that it reads, and how it tells its first process."""

    def __init__(self, given, bound):
        self.reads, writes = os.pipe()
        self.words, files = words(given, bound, writes)
        self.files, self.environment = (writes, *files), {}

    async def first(self, _):
        """The number of the box's first process; none where bubblewrap made no box."""
        with open(self.reads) as info:
            text = await asyncio.to_thread(info.read)
        return json.loads(text)["child-pid"] if text else None

    def clear(self):
        pass
